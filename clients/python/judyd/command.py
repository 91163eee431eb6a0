"""The command line `judy`: what each of its commands does. `judy --help` describes them."""

import argparse
import gc
import os
import signal
import sys
from difflib import get_close_matches
from typing import Dict, List, Optional

from . import backups, compactions, metrics, moves, receiving, restores, screen, service, shipping, tablefaults, tables, transfer
from .client import Client
from .copies import all_arrays, check, open_input, read_name
from .dumpfile import Reader, is_regular, verify
from .errors import Closed, Error, NotAuthorized, Refused
from .fields import MAX
from .logins import address_of, client_of, connector, logged_in, new_token, second_server, session_of, token_of, visitor_client, visitor_of, wire_of
from .options import first_words, subcommand
from .session import Printer, complain, reason, run_script
from .terminal import Terminal
from .wire import Wire
from .wording import COMMANDS, help_of, is_request, request_of


def talk(options: argparse.Namespace) -> int:
    """Asks for lines at a terminal. It first logs in once, to check the token."""
    session = session_of(options, options.hold)
    session.exchange([])
    Terminal(session, Printer(options.pretty)).talk()
    return 0


def script(options: argparse.Namespace, path: Optional[str]) -> int:
    """Runs a script."""
    printer = Printer(options.pretty)
    session = session_of(options, True)
    file = open_input(path)
    try:
        run_script(session, file, printer, path or "")
    finally:
        session.close()
    return 1 if printer.refusals else 0


def one_call(options: argparse.Namespace, words: List[str]) -> int:
    """Makes the call on the command line."""
    request = request_of(" ".join(words))
    printer = Printer(options.pretty)
    session = session_of(options, False)
    (reply,) = session.exchange([request])
    session.close()
    printer.show(request, reply)
    return 1 if printer.refusals else 0


def run_dump(options: argparse.Namespace) -> int:
    """judy dump"""
    if bool(options.arrays) == options.all:
        raise ValueError("dump what? J1:ids and so on, or --all")
    signal.signal(signal.SIGTERM, lambda *_: sys.exit(143))  # so that no file is left beside
    gc.disable()  # a dump has many small objects and no cycles
    named = [read_name(text) for text in options.arrays]
    with wire_of(options) as wire:
        names = all_arrays(wire) if options.all else named
        return transfer.dump(wire, names, options.output, options.empty or options.all)  # one that is not named may go meanwhile


def run_load(options: argparse.Namespace) -> int:
    """judy load"""
    file = open_input(options.file)
    with wire_of(options) as wire:
        return transfer.load(wire, file, name_of(options.file), not options.unchecked)


def run_check(options: argparse.Namespace) -> int:
    """judy check"""
    file, name = open_input(options.file), name_of(options.file)
    if options.whole:
        dump = Reader(file, name)
        for _ in dump.blocks():
            pass
        print("%d entries, whole" % dump.count)
        return 0
    arrays = visitor_of(options)
    if options.unchecked:
        return 1 if check(arrays, transfer.unchecked(file, name)) else 0
    if is_regular(file):
        verify(file, name)
    return 1 if check(arrays, Reader(file, name).blocks()) else 0


def run_move(options: argparse.Namespace) -> int:
    """judy move"""
    if bool(options.arrays) == options.all:
        raise ValueError("move what? J1:ids and so on, or --all")
    if not options.user:
        raise ValueError("whose arrays? -u TENANT")
    named = [read_name(text) for text in options.arrays]
    twice = [str(array) for at, array in enumerate(named) if str(array) in map(str, named[:at])]
    if twice:
        raise ValueError("%s is named twice" % twice[0])
    signal.signal(signal.SIGTERM, lambda *_: sys.exit(143))
    gc.disable()
    with wire_of(options) as source, second_server(options) as target:
        names = all_arrays(source) if options.all else named
        return moves.move(source, target, names, options.all, options.part, options.free)


def run_backup(options: argparse.Namespace) -> int:
    """judy backup"""
    signal.signal(signal.SIGTERM, lambda *_: sys.exit(143))  # so that no file is left beside
    gc.disable()
    return backups.backup(server_of(options), options.list, options.folder)


def server_of(options: argparse.Namespace) -> backups.Server:
    """The server of the options, for log-ins of any tenant."""
    address, tls = address_of(options)

    def wire(tenant: str, token: str) -> Wire:
        return logged_in(options, address, tls, tenant, token)

    def client(tenant: str, token: str) -> Client:
        return client_of(address, options.timeout or None, tls, tenant, token)

    return backups.Server(wire, client)


def run_restore(options: argparse.Namespace) -> int:
    """judy restore"""
    for number in (signal.SIGTERM, signal.SIGHUP):
        signal.signal(number, lambda number, _: sys.exit(128 + number))  # so that the tenant is thawed
    gc.disable()
    control = restores.Control(options.control, options.timeout or None)
    return restores.restore(server_of(options), control, options.tenant, options.dumps, options.all)


def run_compact(options: argparse.Namespace) -> int:
    """judy compact"""
    return compactions.compact(options.folder, options.when)


def run_ship(options: argparse.Namespace) -> int:
    """judy ship"""
    return shipping.ship(options.folder, options.receiver, options.once, options.status)


def run_receive(options: argparse.Namespace) -> int:
    """judy receive"""
    return receiving.receive(options.folder)


def name_of(path: Optional[str]) -> str:
    """What messages call an input."""
    return "standard input" if path in (None, "-") else str(path)


def run_add(options: argparse.Namespace) -> int:
    """judy add"""
    array = read_name(options.array)
    if array.kind == "J1":
        raise ValueError("a set has no values: add to JL:NAME, JSL:NAME or JHS:NAME")
    key = options.key if array.kind == "JL" else "x" + os.fsencode(options.key).hex()
    return one_call(options, ["%sA" % array.kind, array.name, key, str(options.number % (MAX + 1))])


def run_status(options: argparse.Namespace) -> int:
    """judy status"""
    if options.path is not None:
        sys.stdout.buffer.write(metrics.status(options.path, options.timeout or None))
        return 0
    connect = visitor_client(options) if options.user else connector(options)
    print(service.status(connect, options.user, options.tcp or options.socket))
    return 0


def run_top(options: argparse.Namespace) -> int:
    """judy top"""
    (screen.once if options.once else screen.top)(options.path, options.timeout or None)
    return 0


def run_stop(options: argparse.Namespace) -> int:
    """judy stop"""
    metrics.stop(options.path, options.timeout or None)
    return 0


def run_reload(options: argparse.Namespace) -> int:
    """judy reload"""
    metrics.reload(options.path, options.timeout or None)
    return 0


def run_kick(options: argparse.Namespace) -> int:
    """judy kick"""
    print(metrics.kick(options.path, options.tenant, options.timeout or None))
    return 0


def run_thaw(options: argparse.Namespace) -> int:
    """judy thaw"""
    metrics.thaw(options.path, options.tenant, options.timeout or None)
    return 0


def run_wait(options: argparse.Namespace) -> int:
    """judy wait"""
    address, tls = address_of(options)
    token = token_of(options) if options.user else None
    try:
        service.wait(lambda left: client_of(address, left, tls, options.user, token), options.timeout or None)
    except Closed as e:
        complain("no server answered for %g s: %s" % (options.timeout, lost(e, options)))
        return 1
    return 0


def run_table(options: argparse.Namespace) -> int:
    """judy table"""
    if options.action is not None:
        return change_table(options)
    with os.fdopen(open_input(options.file), "rb") as file:
        data = file.read(1 << 20)
    faults = tablefaults.faults_in(data)
    for told in [*faults, *tablefaults.warnings_in(data)]:
        print("%s: %s" % (options.file, told))
    if not faults:
        print("%s: no fault" % options.file)
    return 3 if faults else 0


def new_digests(options: argparse.Namespace) -> Dict[str, str]:
    """The digests of the tokens that a change of a table asks for, by their keys."""
    digests: Dict[str, str] = {}
    if options.action == "add" or options.token:
        digests["sha256"] = tables.digest_value(new_token("token of %s: " % options.tenant))
    if options.look:
        digests["read_sha256"] = tables.digest_value(new_token("read-only token of %s: " % options.tenant))
    return digests


def changed_table(options: argparse.Namespace, text: str) -> str:
    """The text of a table after judy table FILE add, set, drop-old or remove"""
    tenant = options.tenant
    keys = {key: str(value) for key, value in (("quota", options.quota), ("pieces", options.pieces), ("journal", options.journal)) if value is not None}
    if options.keep_old and not (options.action == "set" and (options.token or options.look)):
        raise ValueError("--keep-old stands beside set with --token or --look")
    if options.action == "remove":
        return tables.without(text, tenant)
    if options.action == "drop-old":
        return tables.without_old(text, tenant)
    if options.action == "set":
        if not (keys or options.token or options.look):
            raise ValueError("set what? --quota N, --pieces N, --journal BYTES, --token, --look")
        return tables.with_digests(tables.with_keys(text, tenant, keys), tenant, new_digests(options), options.keep_old)
    tables.refuse_known(options.file, text, tenant)
    if "quota" not in keys:
        raise ValueError("how many entries may %s have? --quota N" % tenant)
    digests = new_digests(options)
    return tables.with_tenant(text, tenant, {"sha256": digests["sha256"], **keys, **digests})


def change_table(options: argparse.Namespace) -> int:
    """judy table FILE add, set, drop-old or remove"""
    text = ""
    if options.action != "add" or os.path.exists(options.file):
        with open(options.file, encoding="utf-8", errors="surrogateescape", newline="") as file:
            text = file.read()
    text = changed_table(options, text)
    tables.put(options.file, text)
    print("%s: changed; judyd reads it when it starts, and at a reload" % options.file)
    for odd in tablefaults.warnings_in(text.encode("utf-8", "surrogateescape")):
        if odd.tenant == options.tenant:
            print("%s: %s" % (options.file, odd))
    return 0


def run_digest(options: argparse.Namespace) -> int:
    """judy digest"""
    print(tables.digest_line(new_token("token: "), options.look))
    return 0


def run_help(options: argparse.Namespace) -> int:
    """judy help"""
    word = " ".join(options.call)
    if word in SUBCOMMANDS:
        subcommand(word).print_help()
    elif not word or is_request(word):
        print(help_of(word))
    else:
        complain(unknown(word))
        return 2
    return 0


SUBCOMMANDS = {
    "add": run_add,
    "status": run_status,
    "top": run_top,
    "stop": run_stop,
    "reload": run_reload,
    "kick": run_kick,
    "thaw": run_thaw,
    "wait": run_wait,
    "dump": run_dump,
    "load": run_load,
    "check": run_check,
    "backup": run_backup,
    "restore": run_restore,
    "compact": run_compact,
    "ship": run_ship,
    "receive": run_receive,
    "move": run_move,
    "table": run_table,
    "digest": run_digest,
    "help": run_help,
}


def read_options(words: List[str]) -> argparse.Namespace:
    """The options of the command line. Their `run` is the function that does the job."""
    parser = first_words()
    options = parser.parse_args(words)
    first = options.words[:1]
    if first and first[0] in SUBCOMMANDS:
        sub = subcommand(first[0])
        sub.parse_args(options.words[1:], options)
        if first[0] == "table" and (options.action is None) != (options.tenant is None):
            sub.error("which tenant?")
        options.run = SUBCOMMANDS[first[0]]
    elif first and first[0] in COMMANDS:
        options.run = lambda given: one_call(given, options.words)
    elif len(options.words) > 1 or (first and not os.path.exists(first[0]) and first[0] != "-"):
        parser.error(unknown(first[0]))
    elif not first and sys.stdin is None:
        parser.error("standard input is closed: there is no script to run")
    elif not first and sys.stdin.isatty():
        options.run = talk
    else:
        options.run = lambda given: script(given, first[0] if first else None)
    return options


def unknown(word: str) -> str:
    """What is wrong with a word that is not a command, a call or a file."""
    close = get_close_matches(word, SUBCOMMANDS, 1)
    return "no such command: %s; is it %s?" % (word, close[0]) if close else help_of(word)


def lost(e: Closed, options: argparse.Namespace) -> str:
    """Why there is no connection, and what to do."""
    return service.remedy(e, None if options.tcp else options.socket) or str(e)


def main() -> int:
    """Runs the command line. The status is 0; 1 if a line was refused, a script, dump, load or comparison
    did not come to its end, or no server came; 3 if a table has faults; 4 if no connection was made."""
    options = read_options([word.encode("utf-8", "surrogateescape").decode("utf-8", "surrogateescape") for word in sys.argv[1:]])
    try:
        return int(options.run(options))
    except NotAuthorized:
        complain("the server does not know this tenant and token")
        return 1
    except Closed as e:
        complain(lost(e, options))
        return 4
    except BrokenPipeError:
        os.dup2(os.open(os.devnull, os.O_WRONLY), sys.stdout.fileno())
        return 4
    except Refused as e:
        complain("refused: %s" % e)
        return 1
    except (Error, ValueError, OSError) as e:
        complain(reason(e))
        return 1
    except KeyboardInterrupt:
        return 130
