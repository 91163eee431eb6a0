// Makes the session of clients/vectors.txt and compares each reply. usage: node check.js SOCKET VECTORS
"use strict";

const fs = require("node:fs");
const { Client } = require("./judyd.js");

async function check(path, file) {
  const rows = fs.readFileSync(file, "latin1").split("\n").filter((row) => row && !row.startsWith("# "));
  const client = new Client({ path });
  const lines = rows.filter((_, at) => at % 2 === 0).map((row) => row.slice(2));
  const wanted = rows.filter((_, at) => at % 2 === 1).map((row) => row.slice(2));
  const replies = await Promise.all(lines.map((line) => client.line(line)));
  for (const [at, reply] of replies.entries()) {
    if (reply !== wanted[at]) throw new Error(`${lines[at]}: wanted ${wanted[at]}, got ${reply}`);
  }
  console.log(`${replies.length} replies: well`);
}

const [path, file] = process.argv.slice(2);
if (!file) {
  console.error("usage: node check.js SOCKET VECTORS");
  process.exit(2);
}
check(path, file).catch((error) => {
  console.error(error.message);
  process.exit(1);
});
