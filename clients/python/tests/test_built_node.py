"""A client beside a built node: `MLD_NODE`, or the one that stands in its crate's `out`. Skipped where there is none."""

import pathlib
import tempfile
import unittest

import places
import mld_client as mld
from mld_client import frames
from mld_client.connection import Connection
from running import RunningNode, until_done

FRED = '<http://d/fred> <http://d/#name> "Fred" .'


def did(path, tick):
    return mld.Did(mld.Dot(path, tick))


@unittest.skipUnless(places.is_built("mld_node"), "no built mld_node")
class BesideABuiltNode(unittest.TestCase):
    def setUp(self):
        self.above = pathlib.Path(self.enterContext(tempfile.TemporaryDirectory()))

    def node(self, name, number, *words, role="genesis"):
        return self.enterContext(RunningNode(self.above / name, number, *words, role=role))

    def test_each_request(self):
        node = self.node("one", 7, "http://d/#status")
        with node.client() as client:
            self.assertEqual((client.hello.format, str(client.hello.uuid()), client.hello.domain), (1, "00000000-0000-4000-8000-000000000007", "d"))
            self.assertEqual(client.show(), mld.Shown([]))
            self.assertEqual(client.update({"@id": "fred", "name": "Fred", "status": "open"}), did("r", 1))
            self.assertEqual(client.query({"@describe": "fred"}).items, [{"@id": "fred", "name": "Fred", "status": "open"}])
            self.assertEqual(client.query({"@select": ["?s", "?v"], "@where": {"@id": "?s", "name": "?v"}}).items, [{"?s": {"@id": "fred"}, "?v": "Fred"}])
            with self.assertRaises(mld.SingleValue) as caught:
                client.update({"@id": "fred", "status": "shut"})
            self.assertEqual((caught.exception.subject, caught.exception.property), ("http://d/fred", "http://d/#status"))
            self.assertEqual(client.add('<http://d/wilma> <http://d/#n> "\\u0001\u2028" .'), did("r", 2))
            self.assertEqual(client.remove('<http://d/wilma> <http://d/#n> "y" .'), mld.Unchanged())
            self.assertEqual([(str(pair.dot), pair.triple) for pair in client.show().pairs], [
                ("r.1", FRED),
                ("r.1", '<http://d/fred> <http://d/#status> "open" .'),
                ("r.2", '<http://d/wilma> <http://d/#n> "\u0001\u2028" .'),
            ])
            for bad in ('{"@id":', '{"@context":"http://d/c"}', '{"@where":{}}'):
                with self.assertRaises(mld.BadLine):
                    client.update(bad)
            self.assertEqual(client.line("open"), "bad line\n")
            self.assertEqual(client.compact(), mld.Kept(1))
            self.assertEqual(client.truncate(0), mld.Kept(0))
            self.assertEqual(client.ask(), mld.Sent())
            self.assertEqual(client.halt(), mld.Stopped())
        self.assertEqual(node.process.wait(20), 0)

    def test_many_in_turn(self):
        node = self.node("one", 1)
        with node.client() as client:
            given = [mld.Add(f'<http://d/{number}> <http://d/#p> "x" .') for number in range(200)]
            self.assertEqual(list(client.pipeline(given)), [did("r", tick) for tick in range(1, 201)])
            client.send(*(mld.Query({"@describe": str(number)}) for number in range(200)), mld.Show())
            self.assertEqual([client.receive().items for _ in range(200)], [[{"@id": str(number), "p": "x"}] for number in range(200)])
            self.assertEqual(len(client.receive().pairs), 200)

    def test_replies_are_read_while_requests_are_sent(self):
        """A node reads nothing more of a client while much of what it replied waits."""
        with self.node("one", 1).client() as client:
            client.add(f'<http://d/a> <http://d/#p> "{"x" * 900_000}" .')
            text = client.line("show")
            client.send(*(mld.Line("show") for _ in range(100)))
            for _ in range(100):
                self.assertEqual(client.receive(), text)

    def test_the_longest_request(self):
        with self.node("one", 1).client() as client:
            with self.assertRaises(mld.RequestTooLong):
                client.line("x" * 1_048_589)
            self.assertEqual(client.line("x" * 1_048_588), "bad line\n")

    def test_a_node_that_is_killed_and_started_again(self):
        node = self.node("one", 1)
        with node.client() as client:
            client.add(FRED)
            node.kill()
            with self.assertRaises(mld.Lost) as caught:
                client.show()
            self.assertEqual((caught.exception.unanswered, client.is_open), (1, False))
            with self.assertRaises(mld.Lost):
                client.open()
            node.start()
            until_done(client.open, mld.Lost)
            self.assertEqual(client.show().triples(), [FRED])

    def test_two_nodes(self):
        one = self.node("one", 1)
        with one.client() as first:
            first.add(FRED)
            with self.node("two", 2, "--peer", one.address, role="join").client() as second:
                until_done(second.show, mld.Asking)

                def look():
                    self.assertEqual(second.show().triples(), [FRED])

                until_done(look, AssertionError)
                self.assertEqual(second.remove(FRED), did("r1", 1))

    def test_a_node_that_asks(self):
        node = self.node("one", 1, "--peer", "127.0.0.1:1", role="join")
        with node.client() as client:
            with self.assertRaises(mld.Asking):
                client.show()
            with self.assertRaises(mld.BadLine):
                client.add("no triple")
            self.assertEqual(client.halt(), mld.Stopped())

    def test_a_refusal(self):
        """A node refuses a part of a message from who didn't greet, by code 6."""
        node = self.node("one", 1)
        connection = until_done(lambda: Connection(node.address), mld.Lost)
        connection.send(frames.write_parts(0, b"x"))
        with self.assertRaises(mld.Refused) as caught:
            connection.next_frame()
        self.assertEqual(caught.exception.code, 6)
        connection.close()


if __name__ == "__main__":
    unittest.main()
