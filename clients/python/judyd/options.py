"""The words of the command line `judy`."""

import argparse
from typing import Dict, NamedTuple

from . import __version__
from .client import TIMEOUT
from .compactions import Growth, growth

USAGE = """judy: a command line for a judyd. At a terminal it asks for lines, with history and completion, and
makes a connection for each line. With a call on the command line it makes that call. Otherwise it runs
a script from a file or from standard input, over one connection: it reads what is available, sends it,
and goes on. If the connection is lost it says how many lines were answered, and its status is 1.

  judy -u alice                              asks for lines at a terminal
  judy -u alice J1S ids 5                    one call: status 0 for a reply, 1 for a refusal,
                                             4 if the connection failed
  judy -u alice SCRIPT, or < SCRIPT          a script
  judy help [CALL]                           what a call does, as: judy help J1S
  judy add JL:hits 5 [N]                     adds N, or 1, to a value, and prints the value afterwards
  judy status                                whether a server answers, and what to do if none does
  judy status PATH                           the numbers of a server, from its socket of --status
  judy top [--once] PATH                     a screen of them, which renews itself each second
  judy stop PATH                             ends that server, and waits until it has ended
  judy reload PATH                           tells it to read its table again: status 1 if it does not
  judy kick PATH TENANT                      tells it to close the connections of a tenant
  judy thaw PATH TENANT                      lets a tenant write that a restore has left frozen
  judy wait [--timeout S]                    waits until a server answers: status 1 if none does
  judy dump [-o FILE] J1:ids JHS:keys ..     arrays as lines, to a file or to standard output
  judy load [FILE]                           loads a dump, if it is whole
  judy check [FILE]                          compares a dump with the arrays: status 1 if they differ
  judy backup --folder DIR LIST              a dump of each tenant of a list, and the one before it
  judy restore --control PATH TENANT DUMP .. frees a tenant's arrays, and loads them from dumps,
                                             while its writers are kept out
  judy compact [--when GROWTH] DIR           makes a journal smaller, if it has grown by 100% or 1G
  judy ship [--status FILE] DIR -- COMMAND  keeps a copy of a journal in step, while the server runs
  judy receive DIR                           writes that copy: COMMAND is `ssh HOST judy receive DIR`
  judy move --to WHERE [--free] J1:ids ..    copies arrays to another server, and compares the two
  judy table FILE                            the faults of a table of tenants, with their lines: status 3 if it has any
  judy table FILE add | set | drop-old | remove TENANT  changes a table, if judyd takes the new one
  judy digest [--look]                       asks for a token, and prints its line for the table

A line is a line of the protocol, as `J1S ids 5`, or uses the manual's name, as `Judy1Set ids 5`. A
key may also be text between double quotes, as `JSLI words "tree" 3`. In a script, empty lines and
lines that begin with # are skipped.
"""


class About(NamedTuple):
    """What the help of a subcommand says: a sentence, an example, and its exit statuses besides 2, which is
    for a wrong command line."""

    sentence: str
    example: str
    statuses: str


_REFUSED = "1 if the call or the log-in was refused, 4 if the connection failed"
_CONTROLLED = "4 if no server listens at that socket or the answer did not come"
ABOUT: Dict[str, About] = {
    "add": About("Adds a number to a value in one step, and prints the value afterwards.", "judy -u alice add JL:hits 20261122 5", "0 if it was added, " + _REFUSED),
    "status": About("Says whether a server answers, or prints the numbers of its socket of --status.", "judy -u alice status", "0 if it answers, 1 if the log-in was refused or the text is no status, 4 if none does"),
    "top": About("Shows the numbers of a server on a screen that renews itself each second, until q.", "judy top --once /run/judyd-operator/status", "0; 1 if the text is no status, 4 if no server answers"),
    "stop": About("Ends a server in order, and waits until its sockets are gone.", "judy stop /run/judyd-operator/control", "0 once it has ended, 1 if it was not seen to end, " + _CONTROLLED),
    "reload": About("Tells a server to read its table of tenants again.", "judy reload /run/judyd-operator/control", "0 if the new table is in force, 1 if nothing changed, " + _CONTROLLED),
    "kick": About("Tells a server to close the connections of a tenant, and prints how many were closed.", "judy kick /run/judyd-operator/control alice", "0 if they are closed, 1 if it has no such tenant, " + _CONTROLLED),
    "thaw": About("Lets a tenant write again, which a restore that was killed has left frozen.", "judy thaw /run/judyd-operator/control alice", "0 if it is not frozen now, 1 if the server has no such tenant, " + _CONTROLLED),
    "wait": About("Waits until a server answers.", "judy -s judyd.sock wait --timeout 20", "0 once one answers, 1 if none did in time"),
    "dump": About("Writes arrays as lines, to a file or to standard output.", "judy -u alice dump -o alice.dump J1:ids JL:hits", "0 if the dump is whole, 1 if an array has no entries, a call was refused or it was cut short, 4 if no connection was made"),
    "load": About("Inserts the entries of a dump, if it is whole.", "judy -u alice load alice.dump", "0 if all are loaded, 1 if the dump is not whole, a call was refused or it was cut short, 4 if no connection was made"),
    "check": About("Compares a dump with the arrays of a server.", "judy -u alice check alice.dump", "0 if they are alike, 1 if they differ or the dump is not whole, 4 if no connection was made"),
    "backup": About("Writes a dump of each tenant of a list, and keeps the one before it.", "judy backup --folder /var/lib/judyd /etc/judyd/backups", "0 if each tenant was dumped, 1 if one was not, 4 if no connection was made"),
    "restore": About("Frees a tenant's arrays, loads them from dumps and compares, while its writers are kept out.", "judy restore --control /run/judyd-operator/control alice /var/lib/judyd/alice.dump", "0 if the arrays are as in the dumps, 1 if they are not or nothing was done, 4 if no server listens at one of the two sockets"),
    "compact": About("Makes the files of a journal smaller, once it has grown by so much since the last time.", "judy compact --when 100% /var/lib/judyd/journal", "0 if it was compacted or has not grown so much, 1 if it was not compacted"),
    "ship": About("Sends a journal to a command with judy receive, and then what comes to it.", "judy ship /var/lib/judyd/journal -- ssh b judy receive /var/lib/judyd/journal", "0 with --once, if all that was there at the start is confirmed; 1 if the two differ, or once the command ends"),
    "receive": About("Writes the copy of a journal that judy ship sends on standard input.", "judy receive /var/lib/judyd/journal", "0 once standard input ends; 1 if it is no stream of judy ship, or a server has the directory"),
    "move": About("Copies arrays to another server, and compares the two.", "judy -s old.sock -u alice move --to new.sock --free J1:ids", "0 if both are alike, 1 if they are not or a call was refused, 4 if a connection failed"),
    "table": About("Tells the faults of a table of tenants, or changes it if judyd takes the new one.", "judy table /etc/judyd/tenants.toml add joe --quota 1000", "0; 1 if the table was not changed or not read, 3 if it has a fault"),
    "digest": About("Asks for a token, and prints the line of a table for it.", "judy digest --look", "0; 1 if it is no token"),
    "help": About("Says what a call or a command does; without a word, what all calls do.", "judy help J1FE", "0"),
}


def add_options(parser: argparse.ArgumentParser, is_first: bool) -> None:
    """The options of a connection, before or after the command."""

    def default(value: object) -> object:
        return value if is_first else argparse.SUPPRESS

    parser.add_argument("-s", "--socket", default=default("/run/judyd/socket"), metavar="PATH", help="the server's socket (/run/judyd/socket)")
    parser.add_argument("-t", "--tcp", default=default(None), metavar="HOST:PORT", help="instead of a socket: a program that forwards TCP to one")
    parser.add_argument("--tls", action="store_true", default=default(False), help="use TLS to HOST:PORT")
    parser.add_argument("--ca", default=default(None), metavar="FILE", help="certificates to trust for --tls, instead of the system's")
    parser.add_argument("-u", "--user", default=default(None), metavar="TENANT", help="log in as this tenant; asks for the token")
    parser.add_argument("--token-file", default=default(None), metavar="FILE", help="read the token from a file's first line (else JUDY_TOKEN, else a prompt)")
    add_timeout(parser, default(TIMEOUT))
    parser.add_argument("--pretty", action="store_true", default=default(False), help="print replies as rows of a table")
    parser.add_argument("--hold", action="store_true", default=default(False), help="at a terminal: keep one connection for all lines")


def add_timeout(parser: argparse.ArgumentParser, default: object) -> None:
    """The option for how long to wait."""
    parser.add_argument("--timeout", type=seconds, default=default, metavar="S", help="wait this many seconds while no byte comes (%d); 0 forever" % TIMEOUT)


def seconds(text: str) -> float:
    """A number of seconds, at most a million."""
    number = float(text)
    if not 0 <= number <= 1e6:
        raise ValueError(text)
    return number


def grown(text: str) -> Growth:
    """The growth of a journal."""
    try:
        return growth(text)
    except ValueError as e:
        raise argparse.ArgumentTypeError(str(e)) from None


def subcommand(name: str) -> argparse.ArgumentParser:
    """The words of a subcommand."""
    about = ABOUT[name]
    epilog = "example:\n  %s\n\nexit status: %s, 2 if the command line is wrong." % (about.example, about.statuses)
    sub = argparse.ArgumentParser(prog="judy %s" % name, description=about.sentence, epilog=epilog, formatter_class=argparse.RawDescriptionHelpFormatter)
    if name in ("add", "status", "wait", "dump", "load", "check", "backup", "restore", "move"):
        add_options(sub, is_first=False)
    if name in ("top", "stop", "reload", "kick", "thaw"):
        add_timeout(sub, argparse.SUPPRESS)
    if name == "status":
        sub.add_argument("path", nargs="?", metavar="PATH", help="print what the socket of judyd serve --status tells")
    elif name == "top":
        sub.add_argument("--once", action="store_true", help="print one table")
        sub.add_argument("path", metavar="PATH", help="the socket of judyd serve --status")
    elif name in ("stop", "reload", "kick", "thaw"):
        sub.add_argument("path", metavar="PATH", help="the socket of judyd serve --control")
        if name == "kick":
            sub.add_argument("tenant", metavar="TENANT", help="whose connections are closed")
        elif name == "thaw":
            sub.add_argument("tenant", metavar="TENANT", help="who may write again")
    elif name == "add":
        sub.add_argument("array", metavar="ARRAY", help="JL:NAME, JSL:NAME or JHS:NAME")
        sub.add_argument("key", metavar="KEY", help="a number for JL, a text for JSL and JHS")
        sub.add_argument("number", nargs="?", type=int, default=1, metavar="N", help="what to add; less than 0 subtracts")
    elif name == "dump":
        sub.add_argument("-o", "--output", metavar="FILE", help="write a file beside FILE, which takes its place when the dump is whole")
        sub.add_argument("--all", action="store_true", help="all arrays of the tenant that have entries")
        sub.add_argument("--empty", action="store_true", help="an array that is named may have no entries")
        sub.add_argument("arrays", nargs="*", metavar="ARRAY", help="J1:NAME, JL:NAME, JSL:NAME or JHS:NAME")
    elif name in ("load", "check"):
        sub.add_argument("--unchecked", action="store_true", help="take lines that are no whole dump, without a check")
        if name == "check":
            sub.add_argument("--whole", action="store_true", help="ask no server: only read the dump, status 1 if it is not whole")
        sub.add_argument("file", nargs="?", metavar="FILE", help="- or nothing for standard input")
    elif name == "backup":
        sub.add_argument("--folder", required=True, metavar="DIR", help="where the dumps are")
        sub.add_argument("list", metavar="LIST", help="a file with a row for each tenant: TENANT TOKEN ARRAY.. or --all")
    elif name == "restore":
        sub.add_argument("--control", required=True, metavar="PATH", help="the socket of judyd serve --control")
        sub.add_argument("--all", action="store_true", help="free the tenant's other arrays too")
        sub.add_argument("tenant", metavar="TENANT", help="whose arrays; it needs no token")
        sub.add_argument("dumps", nargs="+", metavar="DUMP", help="a file of judy dump or judy backup")
    elif name == "compact":
        sub.add_argument("--when", type=grown, metavar="GROWTH", help="do nothing below this growth: 100%% of the snapshot, or 1G")
        sub.add_argument("folder", metavar="DIR", help="the directory of the journal")
    elif name == "ship":
        sub.add_argument("--once", action="store_true", help="end once all that was there at the start is confirmed")
        sub.add_argument("--status", metavar="FILE", help="a file for where the receiver is, and for what it has not confirmed")
        sub.add_argument("folder", metavar="DIR", help="the directory of the journal")
        sub.add_argument("receiver", nargs="+", metavar="COMMAND", help="after --: judy receive DIR, or ssh HOST judy receive DIR")
    elif name == "receive":
        sub.add_argument("folder", metavar="DIR", help="the directory of the copy; it is made if it is not there")
    elif name == "move":
        sub.add_argument("--to", required=True, metavar="WHERE", help="the second server: the path of its socket, or HOST:PORT")
        sub.add_argument("--new-token-file", metavar="FILE", help="the tenant's token there, if it is another one (else JUDY_NEW_TOKEN)")
        sub.add_argument("--free", action="store_true", help="free the arrays in the first server, once all of them are alike in both")
        sub.add_argument("--part", action="store_true", help="the tenant may have other arrays, which stay")
        sub.add_argument("--all", action="store_true", help="all arrays of the tenant that have entries")
        sub.add_argument("arrays", nargs="*", metavar="ARRAY", help="as for dump")
    elif name == "table":
        sub.add_argument("file", metavar="FILE", help="- for standard input")
        sub.add_argument("action", nargs="?", choices=("add", "set", "drop-old", "remove"), help="change the tenant's part of the table")
        sub.add_argument("tenant", nargs="?")
        sub.add_argument("--quota", type=int, metavar="N", help="how many entries the tenant may have")
        sub.add_argument("--pieces", type=int, metavar="N", help="how many pieces it may have")
        sub.add_argument("--journal", type=int, metavar="BYTES", help="after how many bytes of records since the last snapshot its changes are refused")
        sub.add_argument("--token", action="store_true", help="ask for a new token")
        sub.add_argument("--look", action="store_true", help="ask for a read-only token")
        sub.add_argument("--keep-old", action="store_true", help="the tokens in their place log in still, until drop-old")
    elif name == "digest":
        sub.add_argument("--look", action="store_true", help="for a read-only token")
    elif name == "help":
        sub.add_argument("call", nargs="*")
    return sub


def first_words() -> argparse.ArgumentParser:
    """The words before a subcommand."""
    parser = argparse.ArgumentParser(prog="judy", description=USAGE, formatter_class=argparse.RawDescriptionHelpFormatter)
    add_options(parser, is_first=True)
    parser.add_argument("--version", action="version", version="judy %s" % __version__)
    parser.add_argument("words", nargs=argparse.REMAINDER, metavar="CALL | SCRIPT | COMMAND", help="as above")
    return parser
