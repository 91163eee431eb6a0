"""The kit's compiler, run on copies of a crate."""

import importlib.machinery
import importlib.util
import os
import re
import signal
import subprocess
import tempfile
import time

from edits import CRATES, TOP, read, write

VERDICT = re.compile(r"^fn (\S+): (.*)$", re.M)
OPEN_GOAL, GOAL_IS_OPEN = ": it is not proved that ", "not proved; a goal of it is open"
ANSWER_IS_REFUSED = "not proved; it has an answer which antt refuses"
ERROR = re.compile(r"^(?:\./)?((?:src|specs|proofs)/\S+?):(\d+):(\d+): error(\S*) (.*)$", re.M)


def loaded(name):
    """A script of the repository as a module."""
    loader = importlib.machinery.SourceFileLoader(name, os.path.join(TOP, name))
    made = importlib.util.module_from_spec(importlib.util.spec_from_loader(name, loader))
    loader.exec_module(made)
    return made


BUILD = loaded("build")


def uses_of():
    """The crates of crates.txt, each with what it uses."""
    found = {}
    with open(os.path.join(TOP, "crates.txt"), encoding="utf-8") as file:
        for line in file:
            name, _, uses = line.partition("#")[0].partition(":")
            if name.strip():
                found[name.split()[0]] = uses.split()
    return found


class Ran:
    """A run of the compiler that has ended: its status, what it said, and its seconds."""

    def __init__(self, status, said, seconds, processor):
        self.status, self.said, self.seconds, self.processor = status, said, seconds, processor

    def verdicts(self):
        """What it said of each function, by its path below the crate. The lines above a verdict name the
        goals of that function that are not proved. An answer to a goal that is refused is an error in
        the folder of the function's proof."""
        found, ended = {}, 0
        refused = {"::".join(file.split("/")[1:-1]) for file, _, _, _ in self.errors() if file.startswith("proofs/")}
        for it in VERDICT.finditer(self.said):
            name, said = it[1].partition("::")[2], it[2]
            if said.startswith("not proved") and "which antt refuses" not in said and OPEN_GOAL in self.said[ended : it.start()]:
                said = GOAL_IS_OPEN
            elif said == "not proved" and name in refused:
                said = ANSWER_IS_REFUSED
            found[name], ended = said, it.end()
        return found

    def errors(self):
        """Its errors: the file, the line, the kind and the text of each."""
        return [(it[1], int(it[2]), it[4].rstrip(":"), it[5]) for it in ERROR.finditer(self.said)]


class Prover:
    """The compiler and the libraries that it reads: `out/built`, as ./build makes them; `out/rlib`, as
    rt ci leaves them; or their sources, which takes no build and no proofs."""

    BUILT, CI, SOURCES = "built", "rlib", "sources"

    def __init__(self, libraries):
        self.libraries, self.kit, self.running, self.has_ended = libraries, BUILD.Kit(), set(), False
        listed = uses_of()
        self.uses = {name: [it for it in found if it in listed] for name, found in listed.items()}
        self.others = {name: [it for it in found if it not in listed] for name, found in listed.items()}

    def below(self, crate):
        """The crates below one."""
        return sorted(BUILD.below(crate, self.uses))

    def library(self, name):
        """The library of a crate, a folder."""
        return os.path.join(CRATES, name, "out", self.libraries, name + ".rlib")

    def lacks(self, crate):
        """The crates below one whose library is not there."""
        return [it for it in self.below(crate) if not os.path.isfile(os.path.join(self.library(it), "format"))]

    def of_libraries(self, crate):
        """The words that name the libraries below a crate."""
        words, kits = [], {"std", *self.others[crate]}
        if self.libraries == self.SOURCES:
            kits |= {"core", *(kit for it in self.below(crate) for kit in self.others[it])}
            for it in self.below(crate):
                of_it = dict.fromkeys(["core", "std", *self.others[it], *self.uses[it]])
                words += ["--lib", "%s:%s=%s" % (it, ",".join(of_it), os.path.join(CRATES, it, "src", "lib.rt"))]
        else:
            for it in self.uses[crate]:
                words += ["--extern", it + "=" + self.library(it)]
            for it in self.below(crate):
                words += ["-L", "dependency=" + os.path.dirname(self.library(it))]
        for it in sorted(kits):
            words += ["--extern", it + "=" + self.kit.inside("rlibs", it + ".rlib")]
        return [*words, "-L", "dependency=" + self.kit.inside("rlibs")]

    def words(self, crate, flags):
        """The command that checks a crate."""
        root = "src/main.rt" if os.path.exists(os.path.join(CRATES, crate, "src", "main.rt")) else "src/lib.rt"
        words = [self.kit.inside("bin", "rattle"), "check", "--crate-name", crate, root, *self.of_libraries(crate)]
        words += ["--antt-project", self.kit.inside("rattle", "logic", "antt-project.json")]
        return [*words, "--logic-built", self.kit.inside("logic_built"), *flags]

    def check(self, crate, texts, flags):
        """Checks a copy of a crate with these texts, by their paths; once more if it was killed, most
        likely for memory."""
        ran = self.attempt(crate, texts, flags)
        return self.attempt(crate, texts, flags) if ran.status == -signal.SIGKILL else ran

    def attempt(self, crate, texts, flags):
        """A check."""
        if self.has_ended:
            raise InterruptedError("the run has ended")
        with tempfile.TemporaryDirectory(prefix="wrong-") as room, tempfile.TemporaryFile("w+", encoding="utf-8", errors="replace") as log:
            for path, text in texts.items():
                write(os.path.join(room, path), text)
            began = time.monotonic()
            process = subprocess.Popen(
                self.words(crate, flags), cwd=room, stdin=subprocess.DEVNULL, stdout=log, stderr=subprocess.STDOUT, start_new_session=True
            )
            self.running.add(process.pid)
            _, status, used = os.wait4(process.pid, 0)
            self.running.discard(process.pid)
            process.returncode = os.waitstatus_to_exitcode(status)
            log.seek(0)
            return Ran(process.returncode, log.read(), time.monotonic() - began, used.ru_utime + used.ru_stime)

    def front_end(self, crate, folder):
        """Reads and types a crate and those below it, as they stand in a folder. Returns the errors, with
        the files' places in that folder. A planted error ends the compiler's run there, which saves
        most of its time; it also shows that it got so far."""
        root = os.path.join(crate, "src", "main.rt" if os.path.exists(os.path.join(folder, crate, "src", "main.rt")) else "lib.rt")
        planted = read(os.path.join(folder, root)).count("\n") + 3
        with open(os.path.join(folder, root), "a", encoding="utf-8") as file:
            file.write("\nfn planted() -> u64 {\n    true\n}\n")
        words = [it.replace(CRATES, folder) for it in self.words(crate, ["--only", "", "--jobs", "1"])]
        ran = subprocess.run(words, cwd=os.path.join(folder, crate), stdin=subprocess.DEVNULL, stdout=subprocess.PIPE,
                             stderr=subprocess.STDOUT, encoding="utf-8", errors="replace", check=False)
        said = re.sub(r"^(?:\./)?(src|specs|proofs)/", r"%s/%s/\1/" % (folder, crate), ran.stdout, flags=re.M)
        found = re.findall(r"^%s/(\S+?):(\d+):\d+: error(\S*) (.*)$" % re.escape(folder), said, re.M)
        errors = [(path, int(line), kind.rstrip(":"), text) for path, line, kind, text in found]
        others = [it for it in errors if it[:2] != (root, planted)]
        return others or ([] if errors else [(crate, 0, "", "the compiler gives no verdict: " + ran.stdout[-300:])])

    def end(self):
        """Ends what still runs, and begins nothing more."""
        self.has_ended = True
        for pid in list(self.running):
            os.killpg(pid, signal.SIGTERM)
