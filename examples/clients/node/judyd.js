// A client of judyd for Node, with nothing but its own modules: lines and replies over a Unix socket or TCP.
"use strict";

const net = require("node:net");

const REPLY_LIMIT = 4096; // bytes of a reply with its line feed

// A reply that refuses its line: `FULL`, or `ERR` and a reason. Nothing has changed in any array.
class Refused extends Error {
  constructor(line, reply) {
    super(`${reply}: ${line.split(" ")[0]}`);
    this.reply = reply;
  }
}

function isRefusal(reply) {
  return reply === "FULL" || reply.startsWith("ERR ");
}

class Client {
  #waiting = []; // those that wait for a reply, in the order of their lines
  #rest = ""; // the part of a reply that has come
  #fault = null; // why the connection is closed
  #socket;

  // where: {path: "/run/judyd/socket"} or {host, port}
  constructor(where) {
    this.#socket = net.connect(where);
    this.#socket.setEncoding("latin1");
    this.#socket.on("data", (text) => this.#take(text));
    this.#socket.on("error", (error) => this.#end(error));
    this.#socket.on("close", () => this.#end(new Error("the connection is closed")));
  }

  // The reply to a line, refusals too. Many lines may wait at once; their replies come in their order. If the
  // connection ends first, the promise is rejected, and it is unknown whether the line was run.
  line(line) {
    if (line.includes("\n")) return Promise.reject(new RangeError("a line feed within a line"));
    if (this.#fault) return Promise.reject(this.#fault);
    return new Promise((resolve, reject) => {
      this.#waiting.push({ resolve, reject });
      this.#socket.write(line + "\n", "latin1"); // Node reads meanwhile, so neither side waits for ever
    });
  }

  // The reply to a line. A refusal is an error.
  async call(line) {
    const reply = await this.line(line);
    if (isRefusal(reply)) throw new Refused(line, reply);
    return reply;
  }

  close() {
    this.#socket.end();
  }

  #take(text) {
    const replies = (this.#rest + text).split("\n");
    this.#rest = replies.pop();
    for (const reply of replies) {
      const waits = this.#waiting.shift();
      if (!waits) return this.#end(new Error("a reply to no line: the server is not a judyd"));
      waits.resolve(reply);
    }
    if (this.#rest.length > REPLY_LIMIT) this.#end(new Error("a reply without an end: the server is not a judyd"));
  }

  #end(error) {
    this.#fault ??= error;
    this.#socket.destroy();
    for (const waits of this.#waiting.splice(0)) waits.reject(this.#fault);
  }
}

module.exports = { Client, Refused, isRefusal };
