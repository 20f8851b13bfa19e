"""A client beside a node by the model of `tools/node_model.py`, and beside ends that break off, refuse, or say what is no frame."""

import socket
import struct
import threading
import unittest

import places  # noqa: F401
import mld_client as mld
from mld_client import frames
from served import Scripted, Served, asking_node, greet, live_node, reply, take

WAIT = 10


def triple(number):
    return f'<http://d/{number:05}> <http://d/#p> "x" .'


class BesideTheModel(unittest.TestCase):
    def test_each_request(self):
        node = live_node()
        inserted = '{"@id":"fred","name":"Fred"}'
        asked = '{"@describe":"fred"}'
        node.updates[inserted] = (set(), {'<http://d/fred> <http://d/#name> "Fred" .'})
        node.queries[asked] = '[{"@id":"fred","name":"Fred"}]'
        with Served(node) as end, mld.Client(end.address, WAIT) as client:
            self.assertEqual((client.hello.format, str(client.hello.uuid()), client.hello.domain), (1, "00000000-0000-4000-8000-000000000007", "d"))
            self.assertEqual(client.add(triple(1)), mld.Did(mld.Dot("r", 1)))
            self.assertEqual(client.remove(triple(2)), mld.Unchanged())
            self.assertEqual(client.update({"@id": "fred", "name": "Fred"}), mld.Did(mld.Dot("r", 2)))
            self.assertEqual(client.query({"@describe": "fred"}).items, [{"@id": "fred", "name": "Fred"}])
            self.assertEqual([str(pair.dot) for pair in client.show().pairs], ["r.1", "r.2"])
            self.assertEqual(client.compact(), mld.Kept(1))
            self.assertEqual(client.truncate(0), mld.Kept(0))
            self.assertEqual(client.ask(), mld.Sent())
            self.assertEqual(client.line("show"), f'has 2\nr.1 {triple(1)}\nr.2 <http://d/fred> <http://d/#name> "Fred" .\n')
            self.assertEqual(client.halt(), mld.Stopped())
            self.assertFalse(client.is_open)

    def test_what_is_not_done_leaves_the_connection(self):
        with Served(live_node(props=("http://d/#status",))) as end, mld.Client(end.address, WAIT) as client:
            with self.assertRaises(mld.BadLine):
                client.add("no triple")
            self.assertEqual(client.line("open"), "bad line\n")
            client.add('<http://d/a> <http://d/#status> "open" .')
            with self.assertRaises(mld.SingleValue) as caught:
                client.add('<http://d/a> <http://d/#status> "shut" .')
            self.assertEqual((caught.exception.subject, caught.exception.property), ("http://d/a", "http://d/#status"))
            self.assertEqual(len(client.show().pairs), 1)

    def test_a_node_that_asks(self):
        with Served(asking_node()) as end, mld.Client(end.address, WAIT) as client:
            with self.assertRaises(mld.Asking):
                client.show()
            self.assertEqual(client.halt(), mld.Stopped())

    def test_many_in_turn(self):
        with Served(live_node()) as end, mld.Client(end.address, WAIT) as client:
            client.send(*(mld.Add(triple(number)) for number in range(500)))
            client.send(mld.Add("no triple"), mld.Show())
            self.assertEqual(client.unanswered, 502)
            with self.assertRaises(RuntimeError):
                client.show()
            self.assertEqual([client.receive().dot.tick for _ in range(500)], list(range(1, 501)))
            with self.assertRaises(mld.BadLine):
                client.receive()
            self.assertEqual(len(client.receive().pairs), 500)
            with self.assertRaises(RuntimeError):
                client.receive()

    def test_a_pipeline(self):
        with Served(live_node()) as end, mld.Client(end.address, WAIT) as client:
            given = [mld.Add(triple(number)) for number in range(80)]
            given[30] = mld.Add("no triple")
            for window in (1, 2, 7, 64, 100):
                replies = list(client.pipeline(iter(given), window))
                self.assertEqual([index for index, one in enumerate(replies) if isinstance(one, mld.BadLine)], [30])
                self.assertTrue(all(isinstance(one, mld.Did) for index, one in enumerate(replies) if index != 30))
            self.assertEqual(list(client.pipeline([])), [])

    def test_a_long_reply(self):
        pairs = [f'<http://d/{letter}> <http://d/#p> "{letter * 900_000}" .' for letter in "abc"]

        def show(connection):
            greet(connection)
            take(connection, 1)
            reply(connection, "has 3\n" + "".join(f"r.{tick} {pair}\n" for tick, pair in enumerate(pairs, 1)))

        with Scripted(show) as end, mld.Client(end.address, WAIT) as client:
            self.assertEqual(client.show().triples(), pairs)


class Lost(unittest.TestCase):
    def test_nobody_listens(self):
        with socket.create_server(("127.0.0.1", 0)) as gone:
            address = "127.0.0.1:{}".format(gone.getsockname()[1])
        with self.assertRaises(mld.Lost) as caught:
            mld.Client(address, WAIT)
        self.assertEqual(caught.exception.status, 1)

    def test_no_address(self):
        for address in ("nowhere", "127.0.0.1:", "127.0.0.1:x", ""):
            with self.assertRaises(mld.BadAddress):
                mld.Client(address)

    def test_a_connection_that_is_lost_is_told_and_opened_again(self):
        def answer_two(connection):
            greet(connection)
            take(connection, 5)
            reply(connection, "did r.1\n")
            reply(connection, "did r.2\n")

        def answer_one(connection):
            greet(connection)
            take(connection, 1)
            reply(connection, "has 0\n")

        with Scripted(answer_two, answer_one) as end, mld.Client(end.address, WAIT) as client:
            client.send(*(mld.Add(triple(number)) for number in range(5)))
            self.assertEqual([client.receive().dot.tick for _ in range(2)], [1, 2])
            with self.assertRaises(mld.Lost) as caught:
                client.receive()
            self.assertEqual((caught.exception.unanswered, client.is_open, client.unanswered), (3, False, 0))
            with self.assertRaises(mld.Lost):
                client.show()
            client.open()
            self.assertEqual(client.show(), mld.Shown([]))

    def test_a_connection_that_is_reset(self):
        def reset(connection):
            greet(connection)
            take(connection, 1)
            connection.setsockopt(socket.SOL_SOCKET, socket.SO_LINGER, struct.pack("ii", 1, 0))

        with Scripted(reset) as end, mld.Client(end.address, WAIT) as client:
            with self.assertRaises(mld.Lost) as caught:
                client.compact()
            self.assertEqual(caught.exception.unanswered, 1)

    def test_a_reply_that_does_not_end(self):
        def half(connection):
            greet(connection)
            take(connection, 1)
            connection.sendall(frames.write_frame(frames.Reply(b"has 1\n", False)))

        with Scripted(half) as end, mld.Client(end.address, WAIT) as client:
            with self.assertRaises(mld.Lost):
                client.show()

    def test_what_was_replied_before_the_end_is_still_taken(self):
        def answer_early(connection):
            greet(connection)
            take(connection, 1)
            reply(connection, "did r.1\n")
            connection.shutdown(socket.SHUT_WR)
            while connection.recv(1 << 16):
                pass

        with Scripted(answer_early) as end, mld.Client(end.address, WAIT) as client:
            client.send(mld.Add(triple(1)), *(mld.Line("x" * 1_000_000) for _ in range(20)))
            self.assertEqual(client.receive(), mld.Did(mld.Dot("r", 1)))
            with self.assertRaises(mld.Lost):
                client.receive()

    def test_nothing_comes_in_time(self):
        def wait(connection):
            greet(connection)
            while connection.recv(1 << 16):
                pass

        with Scripted(wait) as end, mld.Client(end.address, 1.5) as client:
            with self.assertRaises(mld.TimedOut) as caught:
                client.show()
            self.assertEqual((caught.exception.unanswered, client.is_open), (1, False))

    def test_nothing_is_taken_in_time(self):
        over = threading.Event()

        def stay(connection):
            greet(connection)
            over.wait(WAIT)

        with Scripted(stay) as end, mld.Client(end.address, 1.5) as client:
            with self.assertRaises(mld.TimedOut):
                client.send(*(mld.Line("x" * 1_000_000) for _ in range(24)))
            self.assertFalse(client.is_open)
            over.set()


class NoNode(unittest.TestCase):
    """Ends that are no node, or refuse."""

    def fault_of(self, *data, asked=True):
        def say(connection):
            for piece in data:
                connection.sendall(piece)
            if asked:
                take(connection, 1)

        with Scripted(say) as end:
            with self.assertRaises(mld.Fault) as caught:
                with mld.Client(end.address, WAIT) as client:
                    client.show()
            return caught.exception

    HELLO = frames.write_frame(frames.Hello(1, bytes(16), "d"))

    def test_a_refusal(self):
        fault = self.fault_of(self.HELLO, frames.write_frame(frames.Refuse(6)))
        self.assertIsInstance(fault, mld.Refused)
        self.assertEqual((fault.code, fault.status), (6, 3))

    def test_no_greeting(self):
        self.assertIsInstance(self.fault_of(frames.write_frame(frames.Request(b"show")), asked=False), mld.NotInFormat)
        self.assertIsInstance(self.fault_of(b"HTTP/1.1 400 Bad Request\r\n\r\n", asked=False), mld.NotInFormat)
        self.assertIsInstance(self.fault_of(asked=False), mld.Lost)

    def test_a_greeting_of_another_format(self):
        self.assertIsInstance(self.fault_of(frames.write_frame(frames.Hello(9, bytes(16), "d")), asked=False), mld.NotInFormat)

    def test_what_is_no_frame(self):
        fault = self.fault_of(self.HELLO, b"\x09\x00\x00\x00\x00")
        self.assertIsInstance(fault, mld.NotInFormat)
        self.assertIn("at byte 27", str(fault))

    def test_another_frame_where_a_reply_is_due(self):
        self.assertIsInstance(self.fault_of(self.HELLO, frames.write_frame(frames.Part(0, 0, 1, b"x"))), mld.NotInFormat)

    def test_a_reply_that_is_none(self):
        self.assertIsInstance(self.fault_of(self.HELLO, frames.write_reply(b"hello\n")), mld.NotInFormat)
        self.assertIsInstance(self.fault_of(self.HELLO, frames.write_reply(b"\xff\n")), mld.NotInFormat)


class FullPipes(unittest.TestCase):
    def test_replies_are_read_while_requests_are_sent(self):
        """An end that answers each request at length, and reads no other before that is taken, as a node does in the large."""
        count, text = 30, "has 0\n" + "x" * 1_000_000

        def answer_at_length(connection):
            greet(connection)
            stream, come = frames.Frames(), []
            for _ in range(count):
                while not come:
                    come += stream.feed(connection.recv(1 << 16))
                come.pop(0)
                reply(connection, text)

        with Scripted(answer_at_length) as end, mld.Client(end.address, WAIT) as client:
            client.send(*(mld.Line("y" * 1_000_000) for _ in range(count)))
            self.assertEqual({client.receive() for _ in range(count)}, {text})
        self.assertIsNone(end.fault)

    def test_a_line_that_no_frame_carries(self):
        with Served(live_node()) as end, mld.Client(end.address, WAIT) as client:
            with self.assertRaises(mld.RequestTooLong):
                client.send(mld.Show(), mld.Line("x" * 1_048_589))
            self.assertEqual(client.unanswered, 0)
            self.assertEqual(client.line("x" * 1_048_588), "bad line\n")


if __name__ == "__main__":
    unittest.main()
