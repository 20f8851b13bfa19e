"""A clone in a folder, by a shell that says what a test gives it, and by the built one (`MLD_SHELL`, or the one in its crate's `out`)."""

import json
import os
import pathlib
import sys
import tempfile
import unittest
import uuid
from unittest import mock

import places
import mld_client as mld
from mld_client import folder

# A shell that answers each line by what its folder's file `replies` has for it, adds to the file `lines` what it was given, and ends at `end`.
TOLD = f"""#!{sys.executable}
import json, pathlib, sys
room = pathlib.Path(sys.argv[2])
replies = json.loads((room / "replies").read_text())
with open(room / "lines", "a") as lines:
    lines.write("started\\n")
    for line in sys.stdin:
        lines.write(line)
        lines.flush()
        if line.startswith("end "):
            sys.exit(int(line[4:]))
        sys.stdout.write(replies[line.split()[0]])
        sys.stdout.flush()
"""
REPLIES = {
    "open": "opened\n",
    "add": "did r.1\n",
    "show": 'has 2\nr.1 <http://d/a> <http://d/#p> "x" .\nr.2 <http://d/a> <http://d/#p> "x" .\n',
    "stop": "stopped\n",
}


class ByAShellThatIsTold(unittest.TestCase):
    def setUp(self):
        self.room = pathlib.Path(self.enterContext(tempfile.TemporaryDirectory()))
        self.program = self.room / "shell"
        self.program.write_text(TOLD)
        self.program.chmod(0o700)
        self.replies(REPLIES)

    def replies(self, replies):
        (self.room / "replies").write_text(json.dumps(replies))

    def given(self):
        return (self.room / "lines").read_text().splitlines()

    def test_replies_of_one_line_and_of_many(self):
        with mld.Folder(self.room, self.program) as clone:
            self.assertEqual(clone.open(), mld.Opened())
            self.assertEqual(clone.show().triples(), ['<http://d/a> <http://d/#p> "x" .'])
            self.assertEqual(clone.add("t"), mld.Did(mld.Dot("r", 1)))
            self.assertEqual(clone.line("show"), REPLIES["show"])
            self.assertEqual(clone.stop(), mld.Stopped())
        self.assertEqual(self.given(), ["started", "open", "show", "add t", "show", "stop"])

    def test_many_in_turn(self):
        with mld.Folder(self.room, self.program) as clone:
            clone.send(mld.Open(), mld.Add("t"), mld.Show(), mld.Add("u"))
            self.assertEqual(clone.unanswered, 4)
            self.assertEqual([type(clone.receive()) for _ in range(4)], [mld.Opened, mld.Did, mld.Shown, mld.Did])
            self.assertEqual(len(list(clone.pipeline(mld.Add(str(number)) for number in range(200)))), 200)

    def test_another_shell_goes_on_where_one_has_had_all_that_it_takes(self):
        with mock.patch.object(folder, "INPUT_LIMIT", 40), mld.Folder(self.room, self.program) as clone:
            clone.send(mld.Open(), *(mld.Add("x" * 6) for _ in range(5)), mld.Stop())
            self.assertEqual([type(clone.receive()) for _ in range(7)], [mld.Opened] + 5 * [mld.Did] + [mld.Stopped])
            for _ in range(3):
                clone.add("x" * 6)
        line = "add " + "x" * 6
        self.assertEqual(self.given(), ["started", "open", line, line, line, "started", "open", line, line, "stop", "started", line, line, line])

    def test_a_shell_that_ends(self):
        for line, status in (("end 6", 6), ("end 7", 7)):
            clone = mld.Folder(self.room, self.program)
            clone.send(mld.Add("t"), mld.Line(line), mld.Add("u"))
            self.assertEqual(clone.receive(), mld.Did(mld.Dot("r", 1)))
            for _ in range(2):
                with self.assertRaises(mld.ShellEnded) as caught:
                    clone.receive()
                self.assertEqual((caught.exception.returncode, caught.exception.unanswered, caught.exception.status), (status, 2, 1))
            with self.assertRaises(mld.ShellEnded):
                clone.close()

    def test_an_end_behind_the_last_reply_is_told(self):
        self.replies({"add": "did r.1\n"})
        clone = mld.Folder(self.room, self.program)
        clone.add("t")
        clone.send(mld.Line("end 3"))
        with self.assertRaises(mld.ShellEnded) as caught:
            clone.close()
        self.assertEqual(caught.exception.returncode, 3)

    def test_no_shell(self):
        with self.assertRaises(mld.NoShell) as caught:
            mld.Folder(self.room, self.room / "none")
        self.assertEqual(caught.exception.status, 2)

    def test_lines_that_have_no_reply_are_not_given(self):
        with mld.Folder(self.room, self.program) as clone:
            for line in ("", "# a comment", "a\nb"):
                with self.assertRaises(ValueError):
                    clone.line(line)
            with self.assertRaises(mld.RequestTooLong):
                clone.line("x" * 1_048_577)
        self.assertEqual(self.given(), ["started"])

    def test_a_reply_that_is_none(self):
        self.replies({"compact": "?\n"})
        with mld.Folder(self.room, self.program) as clone:
            with self.assertRaises(mld.NotInFormat):
                clone.compact()


@unittest.skipUnless(places.is_built("mld_shell"), "no built mld_shell")
class ByTheBuiltShell(unittest.TestCase):
    ID = uuid.UUID("00000000-0000-4000-8000-000000000007")

    def setUp(self):
        self.above = pathlib.Path(self.enterContext(tempfile.TemporaryDirectory()))

    def folder(self, name="clone"):
        return mld.Folder(self.above / name, places.built("mld_shell"))

    def test_a_clone_from_its_making_on(self):
        with self.folder() as clone:
            self.assertEqual(clone.open(), mld.Empty())
            with self.assertRaises(mld.Closed):
                clone.show()
            self.assertEqual(clone.create("case.example", self.ID, ["http://case.example/#status"]), mld.Opened())
            self.assertEqual(clone.update({"@id": "case-17", "title": "Flood damage", "status": "open"}), mld.Did(mld.Dot("r", 1)))
            with self.assertRaises(mld.SingleValue):
                clone.update({"@id": "case-17", "status": "waiting"})
            self.assertEqual(clone.open(), mld.Opened())
        with self.folder() as clone:
            with self.assertRaises(mld.NotEmpty):
                clone.create("case.example", self.ID)
            self.assertEqual(clone.open(), mld.Opened())
            self.assertEqual(clone.query({"@describe": "case-17"}).items, [{"@id": "case-17", "status": "open", "title": "Flood damage"}])
            self.assertEqual(clone.compact(), mld.Kept(1))
            self.assertEqual(clone.truncate(0), mld.Kept(0))
            self.assertEqual(clone.stop(), mld.Stopped())

    def test_a_folder_that_another_shell_has_open(self):
        with self.folder() as clone:
            clone.create("d", self.ID)
            other = self.folder()
            with self.assertRaises(mld.ShellEnded) as caught:
                other.open()
            self.assertEqual(caught.exception.returncode, 6)

    def test_a_damaged_folder(self):
        with self.folder() as clone:
            clone.create("d", self.ID)
        path = self.above / "clone" / "a.bank"
        path.write_bytes(path.read_bytes()[:3])
        with self.folder() as clone:
            with self.assertRaises(mld.Damaged) as caught:
                clone.open()
            self.assertEqual((caught.exception.side, caught.exception.place), ("a", 1))

    def test_a_folder_in_none(self):
        clone = self.folder(os.path.join("none", "clone"))
        with self.assertRaises(mld.ShellEnded) as caught:
            clone.open()
        self.assertEqual(caught.exception.returncode, 6)


if __name__ == "__main__":
    unittest.main()
