"""`tools/mld_ask`, and the session of `docs/GUIDE.md`, which `examples/three_people/run` plays over the built programs."""

import pathlib
import subprocess
import sys
import tempfile
import unittest

TOP = pathlib.Path(__file__).resolve().parents[2]
sys.path.insert(0, str(TOP / "clients" / "python" / "tests"))
import places
from mld_client import frames
from served import Scripted, Served, greet, live_node, take


def ask(*words, data=b""):
    """The status of mld_ask, what it wrote, and what it told."""
    done = subprocess.run([sys.executable, TOP / "tools" / "mld_ask", *words], input=data, capture_output=True, timeout=100)
    return done.returncode, done.stdout.decode(), done.stderr.decode()


class Asking(unittest.TestCase):
    TRIPLE = '<http://d/a> <http://d/#p> "x" .'

    def test_lines_of_the_command_and_of_the_input(self):
        with Served(live_node()) as end:
            self.assertEqual(ask(end.address, f"add {self.TRIPLE}", "show", "# no line"), (0, f"did r.1\nhas 1\nr.1 {self.TRIPLE}\nbad line\n", ""))
            self.assertEqual(ask(end.address, data=b"show\n\xff\ncompact"), (0, f"has 1\nr.1 {self.TRIPLE}\nbad line\nkept 1\n", ""))
            self.assertEqual(ask(end.address, "halt"), (0, "stopped\n", ""))

    def test_what_keeps_it_from_a_reply(self):
        self.assertEqual(ask("nowhere", "show"), (2, "", "mld_ask: no address HOST:PORT: nowhere\n"))
        self.assertEqual(ask("127.0.0.1:1", "show")[0], 1)
        self.assertEqual(ask()[0], 2)

        def refuse(connection):
            greet(connection)
            take(connection, 1)
            connection.sendall(frames.write_frame(frames.Refuse(6)))

        def go(connection):
            greet(connection)
            take(connection, 1)

        def wait(connection):
            greet(connection)
            while connection.recv(100):
                pass

        with Scripted(refuse, go, wait) as end:
            self.assertEqual(ask(end.address, "show"), (3, "", "mld_ask: the node refuses, code 6: out of order: a frame that doesn't stand here\n"))
            self.assertEqual(ask(end.address, "show"), (1, "", "mld_ask: the node shut the connection\n"))
            self.assertEqual(ask("--timeout", "1.5", end.address, "show"), (1, "", "mld_ask: nothing came in time\n"))


@unittest.skipUnless(places.is_built("mld_node"), "no built mld_node")
@unittest.skipUnless(places.is_built("mld_shell"), "no built mld_shell")
class Guide(unittest.TestCase):
    def test_the_session(self):
        with tempfile.TemporaryDirectory() as folder:
            for name in ("mld_node", "mld_shell"):
                (pathlib.Path(folder) / name).symlink_to(places.built(name))
            done = subprocess.run([sys.executable, TOP / "examples" / "three_people" / "run", folder], capture_output=True, timeout=300)
        self.assertEqual((done.returncode, done.stderr.decode()), (0, ""), done.stdout.decode())


if __name__ == "__main__":
    unittest.main()
