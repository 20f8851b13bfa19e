"""The grammar of N-Triples, by the examples of https://www.w3.org/TR/n-triples/ and by tests of the W3C's suite for it, which are named as
there; what a clone takes of it, and the written form, by `docs/FORMATS.md`, "Triples"."""

import random
import unittest

import places  # noqa: F401
import node_model
from mld_client.ntriples import LANG_STRING, XSD_STRING, Blank, Iri, Literal, NoTriple, Triple, read_line, refusal, written_triple

XSD = "http://www.w3.org/2001/XMLSchema#"
BOUNDARIES = "\x80\u07ff\u0800\u0fff\u1000\ucfff\ud000\ud7ff\ue000\ufffd\U00010000\U0003fffd\U00040000\U000ffffd\U00100000\U0010fffd"
S, P = Iri("http://example/s"), Iri("http://example/p")


def object_of(text):
    """The object of a line that has a text in its place."""
    return read_line(f"<http://example/s> <http://example/p> {text} .").object


class Examples(unittest.TestCase):
    def test_of_the_introduction(self):
        self.assertEqual(
            read_line("<http://one.example/subject1> <http://one.example/predicate1> <http://one.example/object1> . # comments here"),
            Triple(Iri("http://one.example/subject1"), Iri("http://one.example/predicate1"), Iri("http://one.example/object1")),
        )
        self.assertIsNone(read_line("# or on a line by themselves"))
        self.assertEqual(read_line('_:subject1 <http://an.example/predicate1> "object1" .'), Triple(Blank("subject1"), Iri("http://an.example/predicate1"), Literal("object1")))

    def test_of_literals(self):
        text = "That Seventies Show"
        self.assertEqual(object_of(f'"{text}"^^<{XSD}string>'), Literal(text))
        self.assertEqual(object_of(f'"{text}"'), Literal(text, XSD_STRING, None))
        self.assertEqual(object_of(f'"{text}"@en'), Literal(text, LANG_STRING, "en"))
        self.assertEqual(object_of('"Cette Série des Années Septante"@fr-be'), Literal("Cette Série des Années Septante", LANG_STRING, "fr-be"))
        self.assertEqual(
            object_of(r'''"This is a multi-line\nliteral with many quotes (\"\"\"\"\")\nand two apostrophes ('')."'''),
            Literal("This is a multi-line\nliteral with many quotes (\"\"\"\"\")\nand two apostrophes ('')."),
        )
        self.assertEqual(object_of(f'"2"^^<{XSD}integer>'), Literal("2", XSD + "integer"))
        self.assertEqual(object_of(f'"1.663E-4"^^<{XSD}double>'), Literal("1.663E-4", XSD + "double"))

    def test_of_blank_nodes(self):
        self.assertEqual(read_line("_:alice <http://xmlns.com/foaf/0.1/knows> _:bob ."), Triple(Blank("alice"), Iri("http://xmlns.com/foaf/0.1/knows"), Blank("bob")))


class GoodTests(unittest.TestCase):
    """Tests of syntax that have to be read."""

    def test_comments_and_blanks_alone(self):
        for line in ("", "#Empty file.", "# comment", "   ", "\t \t# comment", " # <a> <b> <c> ."):
            self.assertIsNone(read_line(line))

    def test_nt_syntax_uri(self):
        for line in (
            "<http://example/s> <http://example/p> <http://example/o> .",
            r"<http://example/\u0053> <http://example/p> <http://example/o> .",
            r"<http://example/\U00000053> <http://example/p> <http://example/o> .",
        ):
            self.assertIn(read_line(line).subject.text, ("http://example/s", "http://example/S"))
        scheme = "scheme:!$%25&'()*+,-./0123456789:/@ABCDEFGHIJKLMNOPQRSTUVWXYZ_abcdefghijklmnopqrstuvwxyz~?#"
        self.assertEqual(object_of(f"<{scheme}>"), Iri(scheme))

    def test_nt_syntax_string(self):
        self.assertEqual(object_of('"string"'), Literal("string"))
        self.assertEqual(object_of('"string"@en'), Literal("string", LANG_STRING, "en"))
        self.assertEqual(object_of('"string"@en-uk'), Literal("string", LANG_STRING, "en-uk"))

    def test_nt_syntax_str_esc(self):
        self.assertEqual(object_of(r'"a\n"'), Literal("a\n"))
        self.assertEqual(object_of(r'"a\u0020b"'), Literal("a b"))
        self.assertEqual(object_of(r'"a\U00000020b"'), Literal("a b"))

    def test_nt_syntax_bnode(self):
        self.assertEqual(read_line("_:a  <http://example/p> <http://example/o> .").subject, Blank("a"))
        self.assertEqual(object_of("_:a"), Blank("a"))
        self.assertEqual(read_line("_:1a  <http://example/p> <http://example/o> .").subject, Blank("1a"))

    def test_nt_syntax_datatypes(self):
        self.assertEqual(object_of(f'"123"^^<{XSD}byte>'), Literal("123", XSD + "byte"))
        self.assertEqual(object_of(f'"123"^^<{XSD}string>'), Literal("123"))

    def test_comment_following_triple(self):
        for object_ in ("<http://example/o>", "_:o", '"o"', '"o"^^<http://example/dt>', '"o"@en'):
            for comment in ("# comment", " # comment", "\t#", "#."):
                self.assertIsNotNone(read_line(f"<http://example/s> <http://example/p> {object_} .{comment}"))

    def test_minimal_whitespace(self):
        for line, object_ in (
            ("<http://example/s><http://example/p><http://example/o>.", Iri("http://example/o")),
            ('<http://example/s><http://example/p>"Alice".', Literal("Alice")),
            ("<http://example/s><http://example/p>_:o.", Blank("o")),
            ("_:s<http://example/p><http://example/o>.", Iri("http://example/o")),
            ('_:s<http://example/p>"Alice".', Literal("Alice")),
            ("_:s<http://example/p>_:bnode1.", Blank("bnode1")),
        ):
            self.assertEqual(read_line(line).object, object_)

    def test_literals(self):
        for text, lexical in (
            (r'"x\"\"y"', 'x""y'),
            (r'''"x''y"''', "x''y"),
            (r'"\b"', "\b"),
            (r'"\r"', "\r"),
            (r'"\t"', "\t"),
            (r'"\f"', "\f"),
            (r'"\n"', "\n"),
            (r'"\\"', "\\"),
            (r'"\""', '"'),
            (r'''"\'"''', "'"),
            (r'"\\a\\\u0041"', "\\a\\A"),
            (r'"\u006F"', "o"),
            (r'"\U0000006F"', "o"),
            ('"\x00\t\x0b\x0c\x0e&([]\x7f"', "\x00\t\x0b\x0c\x0e&([]\x7f"),
            (f'"{BOUNDARIES}"', BOUNDARIES),
            (r'"\u0000\u0001\u0008\u001F"', "\x00\x01\x08\x1f"),
            (r'" !\"#$%&():;<=>?@[]^_`{|}~"', ' !"#$%&():;<=>?@[]^_`{|}~'),
            ('""', ""),
        ):
            self.assertEqual(object_of(text), Literal(lexical), text)

    def test_labels_of_blank_nodes(self):
        for label in ("a.b", "a..b", "0", ":", "_", "a-b", "a·b", "é", "\U00010000", "a‿b", "x:y"):
            self.assertEqual(object_of("_:" + label), Blank(label), label)


class BadTests(unittest.TestCase):
    """Tests of syntax that have to be refused, with the column from which on a line can't go on."""

    def check(self, line, column):
        with self.assertRaises(NoTriple, msg=line) as caught:
            read_line(line)
        self.assertEqual(caught.exception.column, column, f"{line}: {caught.exception}")

    def test_nt_syntax_bad_uri(self):
        self.check("<http://example/ space> <http://example/p> <http://example/o> .", 17)
        self.check(r"<http://example/\u00ZZ11> <http://example/p> <http://example/o> .", 17)
        self.check(r"<http://example/\U00ZZ1111> <http://example/p> <http://example/o> .", 17)
        self.check(r"<http://example/\n> <http://example/p> <http://example/o> .", 17)
        self.check(r"<http://example/\/> <http://example/p> <http://example/o> .", 17)
        self.check("<http://example/{abc}> <http://example/p> <http://example/o> .", 17)

    def test_nt_syntax_bad_prefix_base_struct(self):
        self.check("@prefix : <http://example/> .", 1)
        self.check("@base <http://example/> .", 1)
        self.check("<http://example/s> <http://example/p> <http://example/o>, <http://example/o2> .", 57)
        self.check("<http://example/s> <http://example/p> <http://example/o>; <http://example/p2> <http://example/o2> .", 57)

    def test_nt_syntax_bad_lang_esc(self):
        self.check('<http://example/s> <http://example/p> "string"@1 .', 47)
        self.check(r'<http://example/s> <http://example/p> "a\zb" .', 41)
        self.check(r'<http://example/s> <http://example/p> "\uWXYZ" .', 40)
        self.check(r'<http://example/s> <http://example/p> "\U0000WXYZ" .', 40)

    def test_nt_syntax_bad_string_num(self):
        self.check("""<http://example/s> <http://example/p> "abc' .""", 46)
        self.check("<http://example/s> <http://example/p> 'abc' .", 39)
        self.check('<http://example/s> <http://example/p> """abc""" .', 41)
        self.check('<http://example/s> <http://example/p> "abc', 43)
        self.check('<http://example/s> <http://example/p> abc" .', 39)
        for number in ("1", "1.0", "1.0e0"):
            self.check(f"<http://example/s> <http://example/p> {number} .", 39)

    def test_places_of_terms(self):
        self.check('"a" <http://example/p> "b" .', 1)
        self.check('<http://example/s> "p" "b" .', 20)
        self.check('<http://example/s> _:p "b" .', 20)
        self.check("<http://example/s> <http://example/p> .", 39)
        self.check('<http://example/s> <http://example/p> "b"', 42)
        self.check('<http://example/s> <http://example/p> "b"^^"c" .', 44)
        self.check('<http://example/s> <http://example/p> "b"^^<c d> .', 46)
        self.check('<http://example/s> <http://example/p> "b" . <http://example/s>', 44)
        self.check('<http://example/s> <http://example/p> "b" . .', 44)
        self.check("_:.a <http://example/p> _:a .", 1)
        self.check("_:-a <http://example/p> _:a .", 1)
        self.check("<http://example/s", 18)

    def test_escapes_that_name_no_character(self):
        for code in (r"\uD800", r"\uDFFF", r"\U00110000", r"\UFFFFFFFF"):
            self.check(rf'<http://example/s> <http://example/p> "\\u{code}" .', 43)
            self.check(rf"<http://example/{code}> <http://example/p> <http://example/o> .", 17)


class Profile(unittest.TestCase):
    """What a clone takes."""

    def why(self, *terms):
        return refusal(Triple(*terms))

    def test_what_it_takes(self):
        for terms in ((S, P, S), (Blank("a"), P, Blank("b")), (S, P, Literal("x")), (S, P, Literal("x", LANG_STRING, "en")), (S, P, Literal("x", "urn:x"))):
            self.assertIsNone(self.why(*terms))

    def test_iris_that_are_not_absolute(self):
        for text in ("s", "", "/s", "//example/s", "1a:b", ":a", "é:a"):
            for terms in ((Iri(text), P, S), (S, Iri(text), S), (S, P, Iri(text)), (S, P, Literal("x", text))):
                self.assertIn("isn't absolute", self.why(*terms))

    def test_characters_that_may_not_stand_in_an_iri(self):
        for letter in '\0\x1f "<>\\^`{|}':
            self.assertIn(f"U+{ord(letter):04X}", self.why(S, P, Iri("http://example/" + letter)))
        self.assertIsNone(self.why(S, P, Iri("http://example/\x7f\x80é\U0010ffff")))

    def test_lengths(self):
        self.assertIsNone(self.why(Iri("a:" + 1023 * "é"), P, S))
        self.assertEqual(self.why(Iri("a:" + 1023 * "é" + "x"), P, S), "an IRI of 2049 bytes, of 2048 at most")
        self.assertIsNone(self.why(S, P, Literal("é" * 524_288)))
        self.assertEqual(self.why(S, P, Literal("é" * 524_288 + "x")), "a literal of 1048577 bytes, of 1048576 at most")

    def test_the_datatype_of_literals_with_a_tag(self):
        self.assertIn("rdf:langString", self.why(S, P, Literal("x", LANG_STRING)))

    def test_the_written_form(self):
        for text, written in (
            ('<http://d/a><http://d/#p>"x".', '<http://d/a> <http://d/#p> "x" .'),
            (r'<http://d/\u0061> <http://d/#p> "\u0022\t\u000a\r\\\u0041" .', '<http://d/a> <http://d/#p> "\\"\t\\n\\r\\\\A" .'),
            ('<http://d/a> <http://d/#p> "x"@EN-Gb .', '<http://d/a> <http://d/#p> "x"@en-gb .'),
            (f'<http://d/a> <http://d/#p> "x"^^<{XSD}string> .', '<http://d/a> <http://d/#p> "x" .'),
            (f'<http://d/a> <http://d/#p> "x"^^<{XSD}byte> .', f'<http://d/a> <http://d/#p> "x"^^<{XSD}byte> .'),
        ):
            self.assertEqual(written_triple(read_line(text)), written)


class BesideTheModel(unittest.TestCase):
    """Lines that are changed at random, beside the reading of triples in `tools/node_model.py`, which was written from the formats."""

    LINES = (
        '<http://d/a> <http://d/#p> "x" .',
        r'<http://d/\u00e9>\t<a:b><urn:x:\U0001F600> .',
        r'<http://d/a> <http://d/#p> "\t\"\\\u0041\UFFFFFFFF\ud800" .',
        '<http://d/a> <http://d/#p> "é"@en-GB1 .',
        '<http://d/a> <http://d/#p> "1"^^<http://www.w3.org/2001/XMLSchema#integer> .',
        '<http://d/a> <http://d/#p> "1"^^<http://www.w3.org/1999/02/22-rdf-syntax-ns#langString> .',
    )
    PIECES = ("<", ">", '"', "\\", ".", " ", "\t", "@", "^^", "-", ":", "a", "1", "\\u0041", "\\u0020", "\\n", "é", "\n", "\r", "{", "\x00", "/")

    def changed(self, chance):
        """A line in which up to three places were changed."""
        line = chance.choice(self.LINES)
        for _ in range(chance.randrange(4)):
            at = chance.randrange(len(line) + 1)
            line = line[:at] + chance.choice(self.PIECES + ("",)) + line[at + chance.randrange(3) :]
        return line

    def test_the_same_lines_are_triples(self):
        chance, both = random.Random(7), [0, 0]
        for _ in range(20_000):
            line = self.changed(chance)
            if "#" in line.partition(" .")[2] or "_:" in line:
                continue
            try:
                triple = read_line(line)
                written = None if triple is None or refusal(triple) else written_triple(triple)
            except NoTriple as fault:
                self.assertTrue(1 <= fault.column <= len(line) + 1, f"{line!r}: {fault}")
                written = None
            self.assertEqual(written, node_model.read_triple(line), line)
            both[written is None] += 1
        self.assertGreater(min(both), 2000)


if __name__ == "__main__":
    unittest.main()
