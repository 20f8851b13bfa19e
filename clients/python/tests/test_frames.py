"""Frames and parts, by the worked bytes and the rules of `docs/FORMATS.md`, "Frames"."""

import unittest

import places  # noqa: F401
from mld_client.frames import PIECE_LIMIT, Assembly, Frames, Hello, Part, Refuse, Reply, Request, write_frame, write_parts, write_reply

ID = bytes.fromhex("00000000000040008000000000000007")
HELLO = bytes.fromhex("01 00000016 01 00000000000040008000000000000007 00000001 64")
QUESTION = bytes.fromhex("02 0000001d 00000000 00000000 00000001 04 00000000000040008000000000000007")
SHOW = bytes.fromhex("03 00000004 73686f77")
NOTHING = bytes.fromhex("05 00000006 68617320300a")


def fed(data):
    """The frames of bytes that come in one piece, and the fault with its place."""
    stream = Frames()
    frames = stream.feed(data)
    return frames, stream.fault, stream.place


class WorkedBytes(unittest.TestCase):
    FRAMES = [Hello(1, ID, "d"), Part(0, 0, 1, b"\x04" + ID), Request(b"show"), Reply(b"has 0\n", True)]

    def test_are_written_so(self):
        self.assertEqual([write_frame(frame) for frame in self.FRAMES], [HELLO, QUESTION, SHOW, NOTHING])

    def test_are_read_so(self):
        whole = HELLO + QUESTION + SHOW + NOTHING
        self.assertEqual(fed(whole), (self.FRAMES, None, len(whole)))

    def test_are_read_so_however_they_are_cut(self):
        whole = HELLO + QUESTION + SHOW + NOTHING
        for size in range(1, len(whole)):
            stream, frames = Frames(), []
            for at in range(0, len(whole), size):
                frames += stream.feed(whole[at : at + size])
            self.assertEqual((frames, stream.fault), (self.FRAMES, None), size)

    def test_the_id_is_a_uuid(self):
        self.assertEqual(str(Hello(1, ID, "d").uuid()), "00000000-0000-4000-8000-000000000007")

    def test_the_kinds_of_replies_and_refusals(self):
        self.assertEqual(write_frame(Reply(b"a", False)), bytes.fromhex("04 00000001 61"))
        self.assertEqual(write_frame(Refuse(6)), bytes.fromhex("06 00000001 06"))
        self.assertEqual(fed(bytes.fromhex("04 00000001 61 06 00000001 06"))[0], [Reply(b"a", False), Refuse(6)])

    def test_a_part_of_a_message_is_put_together(self):
        self.assertEqual(Assembly().add(Part(0, 0, 1, b"\x04" + ID)), b"\x04" + ID)


class Faults(unittest.TestCase):
    def test_another_kind_behind_a_greeting(self):
        self.assertEqual(fed(HELLO + bytes.fromhex("09 00000000")), ([Hello(1, ID, "d")], "bad frame", 27))

    def test_a_length_beyond_the_limit_is_told_by_its_four_bytes(self):
        self.assertEqual(fed(bytes.fromhex("09 0010000d")), ([], "too long", 0))
        self.assertEqual(fed(SHOW + bytes.fromhex("03 ffffffff")), ([Request(b"show")], "too long", 9))

    def test_the_greatest_length_is_a_frame(self):
        line = b"x" * 1_048_588
        self.assertEqual(fed(bytes.fromhex("03 0010000c") + line), ([Request(line)], None, 1_048_593))

    def test_nothing_is_told_before_the_payload_is_there(self):
        self.assertEqual(fed(bytes.fromhex("09 00000001")), ([], None, 0))

    def test_payloads_that_are_not_just_so(self):
        for frame in (
            "01 00000014 01 00000000000040008000000000000007 000000",
            "01 00000016 01 00000000000040008000000000000007 00000002 64",
            "01 00000016 01 00000000000040008000000000000007 00000000 64",
            "01 00000016 01 00000000000040008000000000000007 00000001 ff",
            "02 0000000c 00000000 00000000 00000001",
            "02 0000000b 00000000 00000000 000000",
            "06 00000000",
            "06 00000002 0101",
        ):
            self.assertEqual(fed(bytes.fromhex(frame)), ([], "bad frame", 0), frame)
        for kind in (b"\x04", b"\x05"):
            self.assertEqual(fed(kind + (PIECE_LIMIT + 1).to_bytes(4, "big") + bytes(PIECE_LIMIT + 1)), ([], "bad frame", 0))

    def test_other_formats_and_names_are_greetings(self):
        self.assertEqual(fed(bytes.fromhex("01 00000017 07 00000000000040008000000000000007 00000002 c3a9"))[0], [Hello(7, ID, "é")])

    def test_empty_payloads_of_requests_and_replies(self):
        self.assertEqual(fed(bytes.fromhex("03 00000000 04 00000000 05 00000000"))[0], [Request(b""), Reply(b"", False), Reply(b"", True)])


class Parts(unittest.TestCase):
    LONG = bytes(PIECE_LIMIT) + b"\x01"

    def parts(self, data):
        frames, fault, _ = fed(data)
        self.assertIsNone(fault)
        return frames

    def test_each_but_the_last_is_full(self):
        one, two = self.parts(write_parts(3, self.LONG))
        self.assertEqual((one.number, one.index, one.count, len(one.piece)), (3, 0, 2, PIECE_LIMIT))
        self.assertEqual(two, Part(3, 1, 2, b"\x01"))

    def test_a_full_piece_is_one_part(self):
        self.assertEqual(len(self.parts(write_parts(0, bytes(PIECE_LIMIT)))), 1)

    def test_the_numbers_of_messages_go_on(self):
        assembly = Assembly()
        self.assertEqual([assembly.add(part) for part in self.parts(write_parts(0, self.LONG) + write_parts(1, b"x"))], [None, self.LONG, b"x"])

    def test_the_number_behind_the_last_is_0(self):
        assembly = Assembly()
        assembly.number = 2**32 - 1
        self.assertEqual([assembly.add(Part(2**32 - 1, 0, 1, b"x")), assembly.add(Part(0, 0, 1, b"y"))], [b"x", b"y"])

    def test_parts_that_are_not_the_next(self):
        full = bytes(PIECE_LIMIT)
        for parts in (
            [Part(1, 0, 1, b"x")],
            [Part(0, 1, 2, b"x")],
            [Part(0, 0, 0, b"x")],
            [Part(0, 0, 1025, full)],
            [Part(0, 0, 2, b"x")],
            [Part(0, 0, 2, full), Part(0, 0, 2, full)],
            [Part(0, 0, 2, full), Part(0, 1, 3, full)],
            [Part(0, 0, 2, full), Part(1, 1, 2, b"x")],
        ):
            assembly = Assembly()
            self.assertEqual([assembly.add(part) for part in parts], [None] * (len(parts) - 1) + [False])


class Replies(unittest.TestCase):
    def test_a_long_reply_goes_on(self):
        text = b"x" * (PIECE_LIMIT + 1)
        self.assertEqual(fed(write_reply(text))[0], [Reply(text[:-1], False), Reply(b"x", True)])

    def test_a_full_piece_is_the_last(self):
        self.assertEqual(fed(write_reply(b"x" * PIECE_LIMIT))[0], [Reply(b"x" * PIECE_LIMIT, True)])


if __name__ == "__main__":
    unittest.main()
