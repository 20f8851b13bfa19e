"""`tools/load` and `tools/dump`: what goes in, what is refused, and what comes out, beside a shell and a node by the model, and beside the
built ones where they are there (`MLD_SHELL`, `MLD_NODE`, or those of the crates' `out`)."""

import hashlib
import pathlib
import subprocess
import sys
import tempfile
import unittest

TOP = pathlib.Path(__file__).resolve().parents[2]
sys.path.insert(0, str(TOP / "clients" / "python" / "tests"))
import places
import served
from running import RunningNode, until_done
import mld_client as mld
import modelled_shell as modelled

XSD = "http://www.w3.org/2001/XMLSchema#"
# The examples of the recommendation, by its sections, and what a clone shows of each: https://www.w3.org/TR/n-triples/
EXAMPLES = r"""<http://one.example/subject1> <http://one.example/predicate1> <http://one.example/object1> . # comments here
# or on a line by themselves
_:subject1 <http://an.example/predicate1> "object1" .
_:subject2 <http://an.example/predicate2> "object2" .
<http://example.org/#spiderman> <http://www.perceive.net/schemas/relationship/enemyOf> <http://example.org/#green-goblin> .
<http://example.org/show/218> <http://www.w3.org/2000/01/rdf-schema#label> "That Seventies Show"^^<http://www.w3.org/2001/XMLSchema#string> . # literal with XML Schema string datatype
<http://example.org/show/218> <http://www.w3.org/2000/01/rdf-schema#label> "That Seventies Show" . # same as above
<http://example.org/show/218> <http://example.org/show/localName> "That Seventies Show"@en . # literal with a language tag
<http://example.org/show/218> <http://example.org/show/localName> "Cette Série des Années Septante"@fr-be .  # literal outside of ASCII range with a region subtag
<http://example.org/#spiderman> <http://example.org/text> "This is a multi-line\nliteral with many quotes (\"\"\"\"\")\nand two apostrophes ('')." .
<http://en.wikipedia.org/wiki/Helium> <http://example.org/elements/atomicNumber> "2"^^<http://www.w3.org/2001/XMLSchema#integer> . # xsd:integer
<http://en.wikipedia.org/wiki/Helium> <http://example.org/elements/specificGravity> "1.663E-4"^^<http://www.w3.org/2001/XMLSchema#double> .     # xsd:double
_:alice <http://xmlns.com/foaf/0.1/knows> _:bob .
_:bob <http://xmlns.com/foaf/0.1/knows> _:alice .
"""
SHOWN = r"""<http://d/.well-known/genid/{digest}.alice> <http://xmlns.com/foaf/0.1/knows> <http://d/.well-known/genid/{digest}.bob> .
<http://d/.well-known/genid/{digest}.bob> <http://xmlns.com/foaf/0.1/knows> <http://d/.well-known/genid/{digest}.alice> .
<http://d/.well-known/genid/{digest}.subject1> <http://an.example/predicate1> "object1" .
<http://d/.well-known/genid/{digest}.subject2> <http://an.example/predicate2> "object2" .
<http://en.wikipedia.org/wiki/Helium> <http://example.org/elements/atomicNumber> "2"^^<http://www.w3.org/2001/XMLSchema#integer> .
<http://en.wikipedia.org/wiki/Helium> <http://example.org/elements/specificGravity> "1.663E-4"^^<http://www.w3.org/2001/XMLSchema#double> .
<http://example.org/#spiderman> <http://example.org/text> "This is a multi-line\nliteral with many quotes (\"\"\"\"\")\nand two apostrophes ('')." .
<http://example.org/#spiderman> <http://www.perceive.net/schemas/relationship/enemyOf> <http://example.org/#green-goblin> .
<http://example.org/show/218> <http://example.org/show/localName> "Cette Série des Années Septante"@fr-be .
<http://example.org/show/218> <http://example.org/show/localName> "That Seventies Show"@en .
<http://example.org/show/218> <http://www.w3.org/2000/01/rdf-schema#label> "That Seventies Show" .
<http://one.example/subject1> <http://one.example/predicate1> <http://one.example/object1> .
"""


def run(tool, *words, data=None):
    """The status of a tool, what it wrote, and what it told."""
    done = subprocess.run([sys.executable, TOP / "tools" / tool, *map(str, words)], input=data, capture_output=True, timeout=300)
    return done.returncode, done.stdout.decode(), done.stderr.decode()


def triple(subject, object, predicate="http://d/#p"):
    return f"<http://d/{subject}> <{predicate}> {object} .\n"


class Cases:
    """What holds of a folder and of a node alike. `target()` gives the words for an empty clone of the domain `d` with the single-valued
    property `http://d/#one`, the second time for the same clone."""

    def setUp(self):
        self.above = pathlib.Path(self.enterContext(tempfile.TemporaryDirectory()))

    def file(self, text, name="given.nt"):
        path = self.above / name
        path.write_bytes(text if isinstance(text, bytes) else text.encode())
        return path

    def load(self, text, *words):
        return run("load", *self.target(), *words, self.file(text))

    def dumped(self):
        status, text, told = run("dump", *self.target())
        self.assertEqual((status, told), (0, ""))
        return text

    def check(self, text, shown, updates=1):
        count = sum(1 for line in text.split("\n") if line and not line.startswith("#"))
        self.assertEqual(self.load(text), (0, f"{count} triples by {updates} updates, 0 lines refused\n", ""))
        self.assertEqual(self.dumped(), shown)

    def test_the_examples_of_the_recommendation(self):
        self.check(EXAMPLES, SHOWN.replace("{digest}", hashlib.sha256(EXAMPLES.encode()).hexdigest()[:32]))

    def test_what_came_out_goes_in_as_the_same(self):
        text = "".join(sorted([
            triple("a", '"\\"\\\\\\n\\r\t\u0000\u001f\u007f\u0085\u2028\U0010ffff"'),
            triple("a", '""'),
            triple("a", '"?x"'),
            triple("a", '"?x"@en'),
            triple("a", '"1"^^<http://www.w3.org/2001/XMLSchema#integer>'),
            triple("a", '"true"^^<http://www.w3.org/2001/XMLSchema#boolean>'),
            triple("a", '"1.0"^^<http://www.w3.org/2001/XMLSchema#double>'),
            triple("a", '"x"^^<urn:x>'),
            triple("a", "<http://d/a>"),
            triple("a", "<http://d/a>", "http://www.w3.org/1999/02/22-rdf-syntax-ns#type"),
            triple("a/../b", "<scheme:!$%25&'()*+,-./0123456789:/@ABCDEFGHIJKLMNOPQRSTUVWXYZ_abcdefghijklmnopqrstuvwxyz~?#>"),
            triple("é", '"x"', "urn:p:q"),
        ]))
        self.check(text, text)

    def test_an_empty_document(self):
        self.assertEqual(self.load(""), (0, "0 triples by 0 updates, 0 lines refused\n", ""))
        self.assertEqual(self.dumped(), "")

    def test_a_triple_twice(self):
        text = triple("a", '"x"')
        for _ in range(2):
            self.assertEqual(self.load(text + text)[0], 0)
        self.assertEqual(self.dumped(), text)

    def test_many_updates(self):
        text = "".join(triple(f"{number:03}", f'"{number}"') for number in range(100))
        self.assertEqual(self.load(text, "--triples", 7), (0, "100 triples by 15 updates, 0 lines refused\n", ""))
        self.assertEqual(self.dumped(), text)

    def test_refused_lines_are_told_and_the_others_go_in(self):
        good = triple("a", '"x"')
        lines = [
            good,
            "<http://d/a> <http://d/#p> .\n",
            "<a> <http://d/#p> \"x\" .\n",
            triple("a", '"\\ud800"'),
            triple("b", '"y"'),
            triple("a", '"x"^^<http://www.w3.org/1999/02/22-rdf-syntax-ns#langString>'),
        ]
        status, text, told = self.load("".join(lines).encode() + b'<http://d/\xff> <http://d/#p> "x" .\n')
        name = self.above / "given.nt"
        self.assertEqual((status, text), (4, "2 triples by 1 updates, 5 lines refused\n"))
        self.assertEqual(told.splitlines(), [
            f"{name}: line 2: column 28: an IRI, a blank node or a literal is wanted as the object",
            f"{name}: line 3: the IRI isn't absolute: <a>",
            f"{name}: line 4: column 29: \\ud800 names no character",
            f"{name}: line 6: rdf:langString may not be named as a datatype: a literal of it has a language tag",
            f"{name}: line 7: it isn't UTF-8",
        ])
        self.assertEqual(self.dumped(), good + triple("b", '"y"'))

    def test_a_second_value_is_refused_alone(self):
        lines = [triple(f"{number:02}", '"x"') for number in range(40)]
        lines[11] = triple("case", '"open"', "http://d/#one")
        lines[30] = triple("case", '"shut"', "http://d/#one")
        status, text, told = self.load("".join(lines), "--triples", 16)
        self.assertEqual((status, told), (4, f"{self.above / 'given.nt'}: line 31: single <http://d/case> <http://d/#one>\n"))
        self.assertTrue(text.startswith("39 triples by "), text)
        self.assertEqual(self.dumped(), "".join(sorted(lines[:30] + lines[31:])))

    def test_lines_end_with_cr_or_lf_or_both(self):
        first, second, third = (triple(name, '"x"') for name in "abc")
        text = first.replace("\n", "\r") + second.replace("\n", "\r\n") + "\r\n\n\r" + third.removesuffix("\n")
        self.assertEqual(self.load(text)[:2], (0, "3 triples by 1 updates, 0 lines refused\n"))
        self.assertEqual(self.dumped(), first + second + third)
        self.assertIn("line 6: column", self.load(text + "x")[2])

    def test_blank_nodes_of_two_files_differ(self):
        one, two = '_:a <http://d/#p> "1" .\n', '_:a <http://d/#p> "2" .\n'
        for text in (one, two, one):
            self.assertEqual(self.load(text)[0], 0)
        self.assertEqual(len({line.split(" ")[0] for line in self.dumped().splitlines()}), 2)
        self.assertEqual(self.load('_:x:y.z <http://d/#p> _:é .\n')[0], 0)
        self.assertRegex(self.dumped(), r'<http://d/\.well-known/genid/[0-9a-f]{32}\.x%3Ay\.z> <http://d/#p> <http://d/\.well-known/genid/[0-9a-f]{32}\.é> \.\n')

    def test_standard_input(self):
        text = '_:a <http://d/#p> "1" .\n' + triple("b", '"x"')
        self.assertEqual(run("load", *self.target(), data=text.encode()), (0, "2 triples by 1 updates, 0 lines refused\n", ""))
        self.assertEqual(self.load(text)[0], 0)
        self.assertEqual(len(self.dumped().splitlines()), 2)

    def test_lines_left_out(self):
        text = "".join(triple(name, '"x"') for name in "abc")
        self.assertEqual(self.load(text, "--behind", 2)[:2], (0, "1 triples by 1 updates, 0 lines refused\n"))
        self.assertEqual(self.dumped(), triple("c", '"x"'))


class LongCases:
    """Cases that take the model long."""

    def test_long_lines(self):
        """What no update's line holds goes in as a triple where that is shorter, and is refused else."""
        raw = triple("a", '"' + "\u0001" * 300_000 + '"')
        long = triple("b", '"' + "x" * 1_048_500 + '"')
        longer = triple("c", '"' + "x" * 1_048_560 + '"')
        too_long = triple("d", '"' + "x" * 1_048_577 + '"')
        status, text, told = self.load(raw + long + longer + too_long + triple("e", '"x"'))
        self.assertEqual((status, text), (4, "3 triples by 3 updates, 2 lines refused\n"))
        self.assertIn("line 3: it takes a line of more than 1048576 bytes\n", told)
        self.assertIn("line 4: a literal of 1048577 bytes, of 1048576 at most\n", told)
        self.assertEqual(self.dumped(), raw + long + triple("e", '"x"'))


class FolderCases(Cases):
    """Cases of a folder, by the shell at `program`."""

    program: pathlib.Path

    def setUp(self):
        super().setUp()
        self.folder = self.above / "clone"

    def target(self):
        if not self.folder.exists():
            with mld.Folder(self.folder, self.program) as clone:
                clone.create("d", properties=["http://d/#one"])
        return "--folder", self.folder, "--program", self.program

    def test_a_clone_is_made(self):
        words = "--folder", self.above / "new", "--program", self.program
        given = self.file(triple("a", '"x"', "http://d/#q"))
        status, text, told = run("load", *words, given)
        self.assertEqual((status, text), (2, ""))
        self.assertIn("no clone in", told)
        self.assertFalse((self.above / "new").exists())
        made = "--create", "d", "--id", "00000000-0000-4000-8000-000000000007", "--single", "http://d/#p", "--single", "http://d/#q"
        self.assertEqual(run("load", *words, *made, given)[:2], (0, "1 triples by 1 updates, 0 lines refused\n"))
        self.assertEqual(run("load", *words, *made, given)[0], 1)
        status, text, told = run("load", "--folder", self.above / "other", "--program", self.program, "--create", "D", given)
        self.assertRegex(told, r"^load: bad line: create [-0-9a-f]{36} D\n$")
        self.assertEqual(run("load", *words, self.file(triple("a", '"y"', "http://d/#q")))[0], 4)
        self.assertEqual(run("dump", *words)[:2], (0, triple("a", '"x"', "http://d/#q")))

    def test_a_dump_makes_nothing(self):
        status, text, told = run("dump", "--folder", self.above / "none", "--program", self.program)
        self.assertEqual((status, text), (2, ""))
        self.assertFalse((self.above / "none").exists())


class NodeCases(Cases):
    """Cases of a node."""

    def target(self):
        return "--node", self.address

    def test_nobody_listens(self):
        status, text, told = run("load", "--node", "127.0.0.1:1", self.file(""))
        self.assertEqual((status, text), (1, ""))
        self.assertIn("can't connect", told)
        self.assertEqual(run("dump", "--node", "127.0.0.1:1")[0], 1)


# What is said of the built programs is said of the model alone where they aren't there: it has nothing to add, and takes its time.
if not places.is_built("mld_shell"):

    class ByTheModel(FolderCases, unittest.TestCase):
        program = pathlib.Path(modelled.__file__)


@unittest.skipUnless(places.is_built("mld_shell"), "no built mld_shell")
class ByTheBuiltShell(FolderCases, LongCases, unittest.TestCase):
    program = places.built("mld_shell")

    def test_more_than_one_shell_takes(self):
        """A shell takes 16,777,216 bytes of lines; another one goes on."""
        letters = "abcdefghijklmnopqrst"
        text = "".join(triple(letter, '"' + letter * 900_000 + '"') for letter in letters)
        self.assertEqual(self.load(text), (0, "20 triples by 20 updates, 0 lines refused\n", ""))
        self.assertEqual(self.dumped(), text)


def modelled_node(asks=False):
    """A node by the model, of the domain `d`."""
    banks = modelled.model.Banks()
    clone = None if asks else modelled.model.genesis(banks, served.ID, "d", ("http://d/#one",))
    return served.Served(modelled.Node(clone, banks, served.ID, "d", ("http://d/#one",)))


if not places.is_built("mld_node"):

    class ByANodeOfTheModel(NodeCases, unittest.TestCase):
        def setUp(self):
            super().setUp()
            self.address = self.enterContext(modelled_node()).address


class NodesThatDoNotTakeAll(unittest.TestCase):
    """Nodes that have no clone, or go away."""

    def setUp(self):
        self.name = pathlib.Path(self.enterContext(tempfile.TemporaryDirectory())) / "given.nt"
        self.name.write_text("# three lines without a triple\n\n\n" + "".join(triple(name, '"x"') for name in "abcdefgh"))

    def test_a_node_that_asks(self):
        with modelled_node(asks=True) as end:
            status, text, told = run("load", "--node", end.address, self.name)
        self.assertEqual((status, text, told), (1, "", f"load: asking; {self.name} is in up to line 3\n"))

    def test_a_node_that_goes_away(self):
        """The line up to which all is in is told, and `--behind` goes on there."""

        def answer_two(connection):
            served.greet(connection)
            served.take(connection, 1)
            served.reply(connection, "did r.1\n")
            served.take(connection, 1)
            served.reply(connection, "did r.2\n")

        with served.Scripted(answer_two) as end:
            status, _, told = run("load", "--node", end.address, "--triples", 2, self.name)
        self.assertEqual((status, told.split("; ")[1]), (1, f"{self.name} is in up to line 7\n"))
        with modelled_node() as end:
            self.assertEqual(run("load", "--node", end.address, "--behind", 7, self.name)[0], 0)
            self.assertEqual(run("dump", "--node", end.address)[1], "".join(triple(name, '"x"') for name in "efgh"))


@unittest.skipUnless(places.is_built("mld_node"), "no built mld_node")
class ByTheBuiltNode(NodeCases, LongCases, unittest.TestCase):
    def setUp(self):
        super().setUp()
        node = self.enterContext(RunningNode(self.above / "node", 1, "http://d/#one"))
        until_done(lambda: mld.Client(node.address), mld.Lost).close()
        self.address = node.address


if __name__ == "__main__":
    unittest.main()
