"""Lines at a terminal. judyd serves one connection after another, so each line has its own
connection: an idle user does not block others."""

import getpass
import os
from typing import Any, List, Optional, Set

from .errors import Closed, NotAuthorized, TooManyClients
from .session import Printer, Session, complain
from .wording import COMMANDS, help_of, is_quit, request_of

HISTORY = os.path.expanduser("~/.judy_history")


def set_up_readline(names: Set[str]) -> Any:
    """History without tokens, and completion of calls and of names that were used. Nothing if
    Python has no readline."""
    try:
        import readline
    except ImportError:
        return None
    try:
        readline.read_history_file(HISTORY)
    except OSError:
        pass
    readline.set_auto_history(False)
    readline.set_completer_delims(" ")
    firsts = sorted([*COMMANDS, "help", "exit", "quit"])

    def complete(text: str, number: int) -> Optional[str]:
        before = readline.get_line_buffer()[: readline.get_begidx()].split()
        words = firsts if not before else COMMANDS if before in (["help"], ["?"]) else sorted(names)
        fitting = [word for word in words if word.startswith(text)]
        return fitting[number] + " " if number < len(fitting) else None

    readline.set_completer(complete)
    readline.parse_and_bind("tab: complete")
    return readline


def save_history(readline: Any) -> None:
    """Keeps the last 1,000 lines for the next time, in a file that only this user may read."""
    try:
        os.close(os.open(HISTORY, os.O_WRONLY | os.O_CREAT, 0o600))
        readline.set_history_length(1000)
        readline.write_history_file(HISTORY)
    except OSError:
        pass


class Terminal:
    """A session at a terminal."""

    def __init__(self, session: Session, printer: Printer) -> None:
        self._session = session
        self._printer = printer
        self._names: Set[str] = set()
        self._readline = set_up_readline(self._names)
        self._is_away = False

    def talk(self) -> None:
        """Asks for lines until QUIT or the end."""
        try:
            goes_on = True
            while goes_on:
                speaker = (self._session.log_in or "").split()[1:2] or ["judy"]
                try:
                    line = input("%s> " % speaker[0])
                    goes_on = self._understand(line, line.split())
                except KeyboardInterrupt:
                    print()
                except EOFError:
                    print()
                    return
        finally:
            if self._readline:
                save_history(self._readline)

    def _understand(self, line: str, fields: List[str]) -> bool:
        """Does what a line says, and returns whether to ask for more lines."""
        if not fields:
            return True
        if self._readline and fields[0] != "AUTH":
            self._readline.add_history(line)
        if fields in (["exit"], ["quit"]):
            return False
        if fields[0] in ("help", "?"):
            print(help_of(" ".join(fields[1:])))
            return True
        if fields[0] == "AUTH" and len(fields) == 2:
            line = "%s %s" % (line, getpass.getpass("token of %s: " % fields[1]))
        return self._ask(request_of(line))

    def _ask(self, request: str) -> bool:
        """Sends a request and prints its reply. If the server is gone, or on ^C, the line is
        dropped and the session goes on."""
        try:
            (reply,) = self._session.exchange([request])
        except KeyboardInterrupt:
            print()
            complain("the line is dropped; whether it was made is open")
            return True
        except NotAuthorized:
            complain("the server no longer knows this tenant and token: AUTH again")
            self._session.log_in = None
            return True
        except TooManyClients:
            complain("the tenant has as many connections as it may have; the next line tries again")
            return True
        except Closed as e:
            complain("%s; the next line tries again" % e)
            self._is_away = True
            return True
        if self._is_away:
            complain("connected again; after a restart the arrays are empty")
            self._is_away = False
        self._printer.show(request, reply)
        fields = request.split()
        if len(fields) > 1 and fields[0] != "AUTH":
            self._names.add(fields[1])
        return not is_quit(request)
