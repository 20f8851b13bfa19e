"""The lines of requests, and their replies as values, by the texts of `docs/FORMATS.md`."""

import unittest

import places  # noqa: F401
import mld_client as mld


class Lines(unittest.TestCase):
    def test_the_line_of_each_request(self):
        triple = '<http://d/a> <http://d/#p> "x" .'
        for request, line in (
            (mld.Add(triple), "add " + triple),
            (mld.Remove(triple), "remove " + triple),
            (mld.Update({"@id": "fred", "name": "Fréd"}), 'update {"@id":"fred","name":"Fréd"}'),
            (mld.Update('{"@id": "fred",\r\n "n": 1}'), 'update {"@id": "fred",   "n": 1}'),
            (mld.Query({"@describe": ["a", "b"]}), 'query {"@describe":["a","b"]}'),
            (mld.Show(), "show"),
            (mld.Compact(), "compact"),
            (mld.Truncate(18446744073709551615), "truncate 18446744073709551615"),
            (mld.Ask(), "ask"),
            (mld.Halt(), "halt"),
            (mld.Line("# any"), "# any"),
        ):
            self.assertEqual(request.line(), line)

    def test_what_is_no_json_is_told_before_it_is_sent(self):
        with self.assertRaises(ValueError):
            mld.Update({"@id": "a", "n": float("nan")}).line()


class Replies(unittest.TestCase):
    def test_updates(self):
        for request in (mld.Add("t"), mld.Remove("t"), mld.Update({})):
            self.assertEqual(request.reply("did r.1\n"), mld.Did(mld.Dot("r", 1)))
            self.assertEqual(request.reply("did r01.4294967295\n"), mld.Did(mld.Dot("r01", 4294967295)))
            self.assertEqual(request.reply("none\n"), mld.Unchanged())
        self.assertEqual(str(mld.Dot("r01", 3)), "r01.3")

    def test_rows_and_subjects(self):
        rows = mld.Query("").reply('[{"?status":"open","?title":"Flood damage"}]\n')
        self.assertEqual(rows.items, [{"?status": "open", "?title": "Flood damage"}])
        self.assertEqual(mld.Query("").reply("[]\n").items, [])
        self.assertEqual(mld.Query("").reply('[{"@id":"a","p":["x",18446744073709551615]}]\n').items, [{"@id": "a", "p": ["x", 2**64 - 1]}])

    def test_pairs(self):
        text = 'has 3\nr0.1 <http://d/a> <http://d/#p> "x" .\nr1.2 <http://d/a> <http://d/#p> "x" .\nr0.2 <http://d/b> <http://d/#p> "\\n\u2028" .\n'
        shown = mld.Show().reply(text)
        first, last = '<http://d/a> <http://d/#p> "x" .', '<http://d/b> <http://d/#p> "\\n\u2028" .'
        self.assertEqual(shown.pairs, [mld.Tagged(mld.Dot("r0", 1), first), mld.Tagged(mld.Dot("r1", 2), first), mld.Tagged(mld.Dot("r0", 2), last)])
        self.assertEqual(shown.triples(), [first, last])
        self.assertEqual(mld.Show().reply("has 0\n").pairs, [])

    def test_the_rest(self):
        self.assertEqual(mld.Compact().reply("kept 0\n"), mld.Kept(0))
        self.assertEqual(mld.Truncate(3).reply("kept 3\n"), mld.Kept(3))
        self.assertEqual(mld.Ask().reply("sent\n"), mld.Sent())
        self.assertEqual(mld.Halt().reply("stopped\n"), mld.Stopped())

    def test_what_was_not_done(self):
        for text, fault in (
            ("bad line\n", mld.BadLine),
            ("asking\n", mld.Asking),
            ("too many\n", mld.TooMany),
            ("ticks spent\n", mld.TicksSpent),
            ("generations spent\n", mld.GenerationsSpent),
        ):
            with self.assertRaises(fault) as caught:
                mld.Update("{}").reply(text)
            self.assertEqual((caught.exception.line, caught.exception.reply), ("update {}", text.removesuffix("\n")))
            self.assertIsInstance(caught.exception, mld.NotDone)

    def test_a_second_value(self):
        with self.assertRaises(mld.SingleValue) as caught:
            mld.Update("{}").reply("single <http://case.example/case-17> <http://case.example/#status>\n")
        self.assertEqual((caught.exception.subject, caught.exception.property), ("http://case.example/case-17", "http://case.example/#status"))

    def test_what_is_no_reply_to_such_a_line(self):
        for request, text in (
            (mld.Add("t"), "did r.0\n"),
            (mld.Add("t"), "did r2.1\n"),
            (mld.Add("t"), "did r.1"),
            (mld.Add("t"), "kept 1\n"),
            (mld.Query(""), "[{}"),
            (mld.Query(""), "[1]\n"),
            (mld.Query(""), "{}\n"),
            (mld.Show(), "has 2\nr.1 <http://d/a> <http://d/#p> \"x\" .\n"),
            (mld.Show(), "has 1\nno pair\n"),
            (mld.Show(), ""),
            (mld.Compact(), "kept\n"),
            (mld.Ask(), "stopped\n"),
            (mld.Halt(), "sent\n"),
        ):
            with self.assertRaises(mld.NotInFormat, msg=f"{request} {text!r}"):
                request.reply(text)

    def test_any_line_has_any_reply(self):
        self.assertEqual(mld.Line("show x").reply("bad line\n"), "bad line\n")


if __name__ == "__main__":
    unittest.main()
