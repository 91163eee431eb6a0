"""Tests of `judy table` and `judy digest`."""

import hashlib
import os
import random
import select
import sys
import unittest

sys.path.insert(0, os.path.dirname(os.path.abspath(__file__)))

try:
    import tomllib
except ImportError:
    tomllib = None

import odd_tables  # noqa: E402
from judy_runs import JudyTest, run_judy, start_judy  # noqa: E402
from judyd.tablefaults import faults_in, judged  # noqa: E402
from judyd.tables import with_keys  # noqa: E402
from served import PROGRAM, table  # noqa: E402

LINE = 'sha256 = "%s"\n' % hashlib.sha256(b"abc").hexdigest()
OTHER = 'sha256 = "%s"\n' % hashlib.sha256(b"hello").hexdigest()
SAME_TOKEN = "-: line 9, tenant empty: warning: sha256 equals sha256 of alice in line 2: one token opens both tenants\n"


def text_of(path):
    """The text of a file."""
    with open(path, encoding="utf-8") as file:
        return file.read()


class Tables(JudyTest):
    """judy table, and judy digest."""

    def test_digest(self):
        line = 'sha256 = "%s"\n' % hashlib.sha256(b"abc").hexdigest()
        self.assertEqual(run_judy(b"abc\n", "digest"), (0, line, ""))
        self.assertEqual(run_judy(b"abc\n", "digest", "--look"), (0, "read_" + line, ""))
        self.assertEqual(run_judy(b"a b\n", "digest")[0], 1)
        ours, theirs = os.openpty()
        judy = start_judy("digest", stdin=theirs, stderr=theirs, start_new_session=True, preexec_fn=lambda: os.open(os.ttyname(theirs), os.O_RDWR))
        self.addCleanup(os.close, ours)
        self.addCleanup(os.close, theirs)
        said = b""
        while b"token: " not in said:
            said += os.read(ours, 100)
        os.write(ours, b"abc\n")
        self.assertEqual(judy.communicate(timeout=60)[0].decode(), line)
        while select.select([ours], [], [], 0.1)[0]:
            said += os.read(ours, 100)
        self.assertNotIn(b"abc", said)

    def test_each_fault_is_told(self):
        text = "# a comment\n[alice]\n%squota = 16777217\n\n[bob]\nqouta = 4\n%s\n[carol]\nsha256 = \"abc\"\nquota = 1\n" % (LINE, LINE)
        path = self.file("table.toml", text.encode())
        status, said, _ = run_judy(b"", "table", path)
        places = [line[len(path) + 2 :].split(": ")[0] + line.rpartition(" ")[2] for line in said.splitlines()]
        wanted = ["line 4, tenant alice(Quota)", "line 6, tenant bob(Shape)", "line 7, tenant bob(Shape)", "line 11, tenant carol(Digest)"]
        self.assertEqual((status, places[:-1]), (3, wanted))
        self.assertEqual(said.splitlines()[-1], path + ": line 8, tenant bob: warning: sha256 equals sha256 of alice in line 3: one token opens both tenants")
        self.assertEqual(run_judy(table().encode(), "table", "-")[:2], (0, SAME_TOKEN + "-: no fault\n"))
        self.assertEqual(run_judy(table().partition("[empty]")[0].encode(), "table", "-")[:2], (0, "-: no fault\n"))
        for text, said in (("[alice]\nquota 4\n", "line 2, tenant alice: this is not TOML (Toml)"), ("", "a table has 1 to 64 tenants (Count)"), ("[a]\n%squota = 1\n" % LINE * 2, "(Toml)")):
            status, wrong, _ = run_judy(text.encode(), "table", "-")
            self.assertEqual((status, said in wrong), (3, True), wrong)

    def told(self, text, status=3):
        """What judy table says of a table, without the path."""
        got, said, wrong = run_judy(text.encode(), "table", "-")
        self.assertEqual((got, wrong), (status, ""), said)
        return [line[3:] for line in said.splitlines()]

    def test_the_line_of_each_key(self):
        digest = "%s must be the SHA-256 of a token, 64 hexadecimal digits in quotes: judy digest prints its line (%s)"
        quota, pieces = "quota must be a whole number from 0 to 16777216 (%s)", "pieces must be a whole number from 0 to 2113929216 (%s)"
        journal = "journal must be a whole number from 1 to 9223372036854775807 (%s)"
        for line, said in (
            ('read_sha256 = "abc"', digest % ("read_sha256", "Digest")), ("read_sha256 = 5", digest % ("read_sha256", "Shape")), ("pieces = -1", pieces % "Pieces"),
            ('pieces = "4"', pieces % "Shape"), ("journal = 0", journal % "Quota"), ('journal = "4"', journal % "Shape"), ("more = 1", "the key more is unknown: the keys are sha256, quota, pieces, journal, read_sha256, old_sha256 and old_read_sha256 (Shape)"),
            ('old_sha256 = "abc"', digest % ("old_sha256", "Digest")), ("old_sha256 = []", digest % ("old_sha256", "Shape")), ("old_read_sha256 = 5", digest % ("old_read_sha256", "Shape")),
            ("quota = 5", "quota stands twice: line 6 has it already (Toml)"), ("'quota' = 5", "'quota' stands twice: line 6 has it already (Toml)"), ("x", "this is not TOML (Toml)"),
        ):  # fmt: skip
            self.assertEqual(self.told("# all\n[z]\n%squota = 1\n[alice]\n%s\n\n" % (LINE, "quota = 4\n%s# %s\n%s" % (OTHER, "sha256 = 1", line))), ["line 9, tenant alice: " + said])
        for line, said in (('quota = "4"', quota % "Shape"), ("quota = 16777217", quota % "Quota")):
            self.assertEqual(self.told("[alice]\n%s%s\n" % (LINE, line)), ["line 3, tenant alice: " + said])
        self.assertEqual(self.told('[alice]\nsha256 = "abc"\nread_%squota = 1\n' % LINE), ["line 2, tenant alice: " + digest % ("sha256", "Digest")])
        self.assertEqual(self.told("[alice]\nquota = 1\n"), ["line 1, tenant alice: sha256 is missing: add the line that judy digest prints (Shape)"])
        self.assertEqual(self.told("[alice]\n%s" % LINE), ["line 1, tenant alice: quota is missing: add quota = N, a whole number from 0 to 16777216 (Shape)"])
        self.assertEqual(self.told("\n['a b']\nquota = 1\n%s" % LINE), ['line 2, tenant "a b": the name of a tenant must be 1 to 32 of A-Z a-z 0-9 _ - . (Name)'])
        self.assertEqual(self.told("quota = 1\n"), ["line 1: quota stands above the first heading: a tenant's keys stand below its name, [NAME] (Shape)"])
        inline = "\nalice = {%s, quota = 1}\nbob = {%s, quota = 16777217}\n" % (LINE.strip(), OTHER.strip())
        self.assertEqual(self.told(inline), ["line 3, tenant bob: " + quota % "Quota"])
        self.assertEqual(self.told("alice.%salice.quota = -1\n" % LINE), ["line 2, tenant alice: " + quota % "Quota"])

    def test_headings(self):
        whole = "quota = 1\n%s" % LINE
        self.assertEqual(self.told("[a]\n%s\n[b]\nquota = 1\n%s\n[a]\nquota = 2\n" % (whole, OTHER)), ["line 9, tenant a: the tenant stands twice: it begins in line 1 already (Toml)"])
        self.assertEqual(self.told("[b]\nquota = 1\n%s['a']\n%s[\"\\u0061\"]\n%s" % (OTHER, whole, whole))[0], "line 7, tenant a: the tenant stands twice: it begins in line 4 already (Toml)")
        self.assertEqual(self.told("a.quota = 1\n[b]\n%s[a]\n%s" % (whole, OTHER))[-1], "line 5, tenant a: the tenant stands twice: it begins in line 1 already (Toml)")
        dotted = '[%s] is a table within the table a: the tenant a.b is written ["a.b"] (Shape)'
        self.assertEqual(self.told("[a.b]\n" + whole), ["line 1, tenant a: " + dotted % "a.b"])
        self.assertEqual(self.told("[a]\n%s[ a . 'b' ] # b\nquota = 1\n%s" % (whole, OTHER)), ["line 4, tenant a: " + dotted % "a . 'b'"])
        self.assertEqual(self.told("[[a]]\n" + whole), ["line 1, tenant a: [[a]] is a list of tables: write [a] (Shape)"])
        self.assertEqual(self.told('["a.b"]\n' + whole, 0), ["no fault"])

    def test_warnings(self):
        short = "line %d, tenant alice: warning: 3 pieces are less than the quota of 4 entries needs: an entry takes 1 to 126, so FULL comes before"
        self.assertEqual(self.told("[alice]\npieces = 3\nquota = 0x4 # few\n" + LINE, 0), [short % 2, "no fault"])
        self.assertEqual(self.told("alice = {quota = 4, pieces = 3, %s}\n" % LINE.strip(), 0), [short % 1, "no fault"])
        self.assertEqual(self.told("[alice]\npieces = 4\nquota = 4\n" + LINE, 0), ["no fault"])
        both = "read_sha256 equals sha256 of alice in line 3: the read-only token may change too"
        self.assertEqual(self.told("[alice]\nquota = 4\n%sread_%s" % (LINE, LINE.upper().replace("SHA256 ", "sha256 ")), 0), ["line 4, tenant alice: warning: " + both, "no fault"])
        still = "line 4, tenant alice: warning: %s equals %s of alice in line 3: the old token is still the token"
        self.assertEqual(self.told("[alice]\nquota = 4\n%sold_%s" % (LINE, LINE), 0), [still % ("old_sha256", "sha256"), "no fault"])
        looks = "[alice]\nquota = 4\nread_%sold_read_%s%s" % (LINE, LINE, OTHER)
        self.assertEqual(self.told(looks, 0), [still % ("old_read_sha256", "read_sha256"), "no fault"])
        both = "old_sha256 equals read_sha256 of alice in line 3: the read-only token may change too"
        self.assertEqual(self.told("[alice]\nquota = 4\nread_%sold_%s%s" % (LINE, LINE, OTHER), 0), ["line 4, tenant alice: warning: " + both, "no fault"])
        two = "[alice]\nquota = 4\n%sread_%s[bob]\nquota = 4\n%s" % (LINE, OTHER, OTHER)
        self.assertEqual(self.told(two, 0), ["line 7, tenant bob: warning: sha256 equals read_sha256 of alice in line 4: one token opens both tenants", "no fault"])
        path = self.file("short.toml", b"")
        said = run_judy(b"abc\n", "table", path, "add", "alice", "--quota", "4", "--pieces", "3")
        self.assertEqual((said[0], said[1].splitlines()[1:]), (0, [path + ": " + short % 4]))
        self.assertEqual(len(run_judy(b"hello\n", "table", path, "add", "bob", "--quota", "4")[1].splitlines()), 1)
        self.assertEqual(run_judy(b"", "table", path, "set", "alice", "--pieces", "4")[1].count("warning"), 0)

    def test_a_tenant_that_is_there(self):
        for text, line in (("\n[alice]\nquota = 1\n" + LINE, " in line 2"), ("alice.quota = 1\nalice." + LINE, " in line 1"), ('["\\u0061lice"]\nquota = 1\n%s' % LINE, " in line 1")):
            path = self.file("there.toml", text.encode())
            for words in (("--quota", "4"), ()):
                status, said, wrong = run_judy(b"abc\n", "table", path, "add", "alice", *words)
                self.assertEqual((status, said, text_of(path)), (1, "", text))
                self.assertIn("stays as it was: it has the tenant alice already%s, which judy table FILE set alice changes" % line, wrong)
                self.assertNotIn("token", wrong)

    def test_odd_tables(self):
        draw, words, path = random.Random(int(os.environ.get("SEED", "1"))), set(), os.path.join(self.folder(), "odd")
        for data in draw.sample(odd_tables.by_hand() + odd_tables.made(draw, 1000), 100):
            word, faults = odd_tables.told_by_judyd(PROGRAM, path, data), faults_in(data)
            words.add(word)
            self.assertEqual(not faults, not word)
            self.assertTrue(not word or word in [fault.word for fault in faults], data)
        self.assertGreater(len(words), 4)

    def test_a_table_is_changed(self):
        path = os.path.join(self.folder(), "new.toml")
        changed = (0, path + ": changed; judyd reads it when it starts, and at a reload\n", "")
        self.assertEqual(run_judy(b"abc\n", "table", path, "add", "alice", "--quota", "1000"), changed)
        self.assertEqual(os.stat(path).st_mode & 0o777, 0o600)
        self.assertEqual(run_judy(b"hello\nlook\n", "table", path, "add", "b.ob", "--quota", "5", "--pieces", "9", "--look"), changed)
        self.assertEqual(run_judy(b"", "table", path, "set", "alice", "--quota", "2000"), changed)
        self.assertEqual(run_judy(b"new\n", "table", path, "set", "b.ob", "--token"), changed)
        digests = [hashlib.sha256(token).hexdigest() for token in (b"abc", b"new", b"look")]
        wanted = '[alice]\nsha256 = "%s"\nquota = 2000\n\n["b.ob"]\nsha256 = "%s"\nquota = 5\npieces = 9\nread_sha256 = "%s"\n' % tuple(digests)
        self.assertEqual(text_of(path), wanted)
        for words, said in (
            (("add", "alice", "--quota", "4"), "stays as it was: it has the tenant alice already in line 1, which judy table FILE set alice changes"),
            (("set", "alice", "--quota", "-1"), "stays as it was: the new one would be refused: line 3, tenant alice: quota must be"),
            (("set", "carol", "--quota", "1"), "no [carol] in the table"), (("add", "a/b", "--quota", "1"), "a name is 1 to 32"), (("set", "alice"), "set what?"),
            (("add", "carol"), "how many entries may carol have? --quota N"), (("remove", "carol"), "no [carol]"),
        ):  # fmt: skip
            status, _, wrong = run_judy(b"abc\n", "table", path, *words)
            self.assertEqual((status, said in wrong, text_of(path)), (1, True, wanted), wrong)
        self.assertEqual(run_judy(b"", "table", path, "remove", "b.ob"), changed)
        self.assertEqual(text_of(path), wanted.partition("\n[\"b")[0])
        self.assertIn("(Count)", run_judy(b"", "table", path, "remove", "alice")[2])
        self.assertEqual(run_judy(b"", "table", path, "add")[0], 2)

    def test_old_tokens(self):
        a, b, c, look, peek = ('"%s"' % hashlib.sha256(token).hexdigest() for token in (b"a", b"b", b"c", b"look", b"peek"))
        path = self.file("old.toml", ("# all\n[bob]\nquota = 1\nsha256 = %s\n[alice]\nsha256 = %s # hers\nquota = 1\n\n" % (a, a)).encode())
        first, other = "# all\n[bob]\nquota = 1\nsha256 = %s\n[alice]\nsha256 = " % a, " # hers\nquota = 1\n"
        for said, words, wanted in (
            (b"b\n", ("set", "alice", "--token", "--keep-old"), b + other + "old_sha256 = %s\n\n" % a),
            (b"c\nlook\n", ("set", "alice", "--token", "--look", "--keep-old"), c + other + "old_sha256 = %s\nread_sha256 = %s\n\n" % (b, look)),
            (b"peek\n", ("set", "alice", "--look", "--keep-old"), c + other + "old_sha256 = %s\nread_sha256 = %s\nold_read_sha256 = %s\n\n" % (b, peek, look)),
            (b"", ("drop-old", "alice"), c + other + "read_sha256 = %s\n\n" % peek),
            (b"b\n", ("set", "alice", "--token", "--keep-old"), b + other + "read_sha256 = %s\nold_sha256 = %s\n\n" % (peek, c)),
            (b"look\n", ("set", "alice", "--look", "--quota", "2"), b + other.replace("1", "2") + "read_sha256 = %s\nold_sha256 = %s\n\n" % (look, c)),
            (b"a\n", ("set", "alice", "--token"), a + other.replace("1", "2") + "read_sha256 = %s\n\n" % look),
        ):
            status, told, wrong = run_judy(said, "table", path, *words)
            self.assertEqual((status, told.splitlines()[:1], text_of(path)), (0, [path + ": changed; judyd reads it when it starts, and at a reload"], first + wanted), wrong)
        for words, said in (
            (("drop-old", "alice"), "alice has no old token"), (("drop-old", "carol"), "no [carol] in the table"),
            (("set", "alice", "--quota", "4", "--keep-old"), "--keep-old stands beside set with --token or --look"), (("add", "carol", "--quota", "1", "--keep-old"), "--keep-old stands beside"),
        ):  # fmt: skip
            status, _, wrong = run_judy(b"abc\n", "table", path, *words)
            self.assertEqual((status, said in wrong, text_of(path)), (1, True, first + wanted), wrong)

    def test_comments_stay(self):
        text = "# all\n\n# the first\n[ alice ] # her\nquota = 1_000 # few\n%s# the second\n['bob']\n%s\"quota\" = 0x10\n" % (LINE, LINE)
        path = self.file("old.toml", text.encode())
        run_judy(b"", "table", path, "set", "alice", "--quota", "7", "--pieces", "8")
        text = text.replace("1_000", "7").replace("# the sec", "pieces = 8\n# the sec")
        self.assertEqual(text_of(path), text)
        run_judy(b"", "table", path, "set", "bob", "--quota", "9")
        self.assertEqual(text_of(path), text.replace("0x10", "9"))
        run_judy(b"", "table", path, "remove", "alice")
        self.assertEqual(text_of(path), "# all\n\n# the first\n# the second\n['bob']\n%s\"quota\" = 9\n" % LINE)

    def test_a_removed_tenant_leaves_one_blank_line(self):
        row = "[%s]\nquota = 1\n" + LINE
        ann, ben, cat = (row % name for name in ("ann", "ben", "cat"))
        for before, after in (
            ((ann, ben, cat), (ann, cat)), ((ann, "\n", ben, "\n", cat), (ann, "\n", cat)), ((ann, "\n", ben, cat), (ann, "\n", cat)), ((ann, ben, "\n", cat), (ann, "\n", cat)),
            ((ann, "\n\n", ben, " \n\n", cat), (ann, "\n", cat)), ((ben, "\n", cat), (cat,)), (("\n", ben, "\n", cat), (cat,)), ((cat, "\n", ben, "\n"), (cat,)), ((ann, "\n", ben, "\n# c\n", cat), (ann, "\n# c\n", cat)),
            ((ann, "\n# b\n", ben, "\n# c\n", cat), (ann, "\n# b\n\n# c\n", cat)),
        ):  # fmt: skip
            for end in ("\n", "\r\n"):
                path = self.file("blank.toml", "".join(before).replace("\n", end).encode())
                self.assertEqual(run_judy(b"", "table", path, "remove", "ben")[0], 0)
                with open(path, newline="", encoding="utf-8") as file:
                    self.assertEqual(file.read(), "".join(after).replace("\n", end))

    def test_a_tenant_removed_and_added_again(self):
        path = self.file("again.toml", ("[ann]\nquota = 1\n" + LINE).encode())
        run_judy(b"abc\n", "table", path, "add", "ben", "--quota", "1")
        before = text_of(path)
        run_judy(b"", "table", path, "remove", "ben")
        run_judy(b"abc\n", "table", path, "add", "ben", "--quota", "1")
        self.assertEqual((text_of(path), before.count("\n\n")), (before, 1))

    @unittest.skipIf(tomllib is None, "Python before 3.11 has no reader of TOML to compare with")
    def test_only_what_was_asked_changes(self):
        draw, count = random.Random(int(os.environ.get("SEED", "1"))), 0
        for data in odd_tables.made(draw, 400):
            try:
                old = tomllib.loads(data.decode())
                name = draw.choice(sorted(old))
                new = with_keys(data.decode(), name, {"quota": "77"})
            except (ValueError, IndexError):
                continue  # no TOML 1.0, or a form that judy does not change
            if judged(data) == "" and judged(new.encode()) == "":
                count += 1
                self.assertEqual(tomllib.loads(new), {**old, name: {**old[name], "quota": 77}}, data)
        self.assertGreater(count, 20)

    def test_without_judyd(self):
        status, _, wrong = run_judy(b"", "table", "-", more={"JUDYD": "", "PATH": "/nowhere"})
        self.assertEqual((status, "judyd is not on the PATH" in wrong), (1, True))
        status, _, wrong = run_judy(b"", "table", "-", more={"JUDYD": "/nowhere/judyd"})
        self.assertEqual((status, wrong), (1, "judy: the environment's JUDYD is no program: /nowhere/judyd\n"))


if __name__ == "__main__":
    unittest.main()
