"""Fields, messages, checksums, hashes and record batches, each against bytes from outside."""

import dataclasses
import re
import unittest
import uuid

import context  # noqa: F401
from rows import bytes_of, rows_of, value_of
from sharebroker import AcknowledgeType, Outcome, ShareConsumer, fields, messages, share_messages
from sharebroker.batches import MAX_BATCH_BYTES, BatchBuilder, read_batches
from sharebroker.checksum import crc32c
from sharebroker.connection import frame_of, parse_addresses, reply_in
from sharebroker.errors import MalformedReply
from sharebroker.fields import Reader, Writer, skip_tags
from sharebroker.hand import Hand, batches_of
from sharebroker.partitioner import murmur2, partition_of
from sharebroker.states import _state_of

CALLS = [messages.API_VERSIONS, messages.METADATA, messages.PRODUCE, messages.DELETE_RECORDS, messages.READ_STATE,
         share_messages.SHARE_GROUP_HEARTBEAT, share_messages.SHARE_FETCH, share_messages.SHARE_ACKNOWLEDGE]
STRUCTURES = {call.name + end: structure for call in CALLS
              for end, structure in (("Request", call.request), ("Response", call.reply))}

#: What Metadata has in the versions 8 to 10 alone: the rows tell it, and the client's version 12 hasn't it.
OLDER = ("include_cluster_authorized_operations", "cluster_authorized_operations")

#: The batch of the records a, b and c of `crates/layer_rows/data/batches.txt`.
ABC = bytes_of("0000000000000000 00000049 00000000 02 a7fe9ac9 0000 00000002 0000000000000000 0000000000000000 "
               "ffffffffffffffff ffff ffffffff 00000003 0e00000001026100 0e00000201026200 0e00000401026300")


def plain(value):
    """A message in dicts and lists, bytes as a list of numbers."""
    if dataclasses.is_dataclass(value):
        return {field.name: plain(getattr(value, field.name)) for field in dataclasses.fields(value)}
    if isinstance(value, bytes):
        return list(value)
    return [plain(item) for item in value] if isinstance(value, list) else value


class Fields(unittest.TestCase):
    """The rows of `fields.txt`: what bytes stand for which value, and the place of each fault."""

    KINDS = {"int8": fields.INT8, "int16": fields.INT16, "int32": fields.INT32, "int64": fields.INT64,
             "bool": fields.BOOL, "uuid": fields.UUID_BYTES, "string": fields.TEXT,
             "nullable-string": fields.NULLABLE_TEXT, "bytes-field": fields.BYTES,
             "nullable-bytes": fields.NULLABLE_BYTES, "int32-array": fields.Array(fields.INT32),
             "nullable-int32-array": fields.Array(fields.INT32, nullable=True)}
    NUMBERS = ("uvarint", "varint", "varlong")

    def test_each_row(self):
        done = 0
        for case, data, line in rows_of("fields.txt"):
            kind, _, wanted = line.partition(" ")
            if kind in self.KINDS or kind in self.NUMBERS or kind == "tags":
                with self.subTest(case=case, line=line):
                    self.check(kind, data, wanted)
                done += 1
        self.assertGreater(done, 50)

    def check(self, kind, data, wanted):
        fault = re.fullmatch(r"(\w+) at (\d+)", wanted)
        if fault:
            with self.assertRaises(MalformedReply) as told:
                self.read(kind, data)
            self.assertEqual((fault[1], int(fault[2])), (told.exception.reason, told.exception.place))
            return
        value = self.read(kind, data)
        text, _, written = wanted.partition(", written ")
        self.assertEqual(self.wanted_value(kind, text, data), value)
        if kind in self.KINDS:
            to = Writer()
            self.KINDS[kind].write(to, value)
            self.assertEqual(bytes_of(written) if written else data, to.done())

    def read(self, kind, data):
        source = Reader(data)
        if kind == "tags":
            skip_tags(source)
            return source.place
        value = self.KINDS[kind].read(source) if kind in self.KINDS else getattr(source, kind)()
        source.end()
        return value

    @staticmethod
    def wanted_value(kind, text, data):
        if kind == "uuid":
            return uuid.UUID(text)
        if kind == "tags":
            return int(text.split()[0])
        if kind.endswith(("bytes", "bytes-field")):
            return None if text == "null" else bytes_of(text)
        return value_of(text)

    def test_zigzag_is_written_as_it_is_read(self):
        for value, data in ((0, "00"), (-1, "01"), (1, "02"), (-2, "03"), (2147483647, "feffffff0f"),
                            (-9223372036854775808, "ffffffffffffffffff01")):
            to = Writer()
            to.zigzag(value)
            self.assertEqual(bytes.fromhex(data), to.done())


class Messages(unittest.TestCase):
    """The rows of the messages that this client has: each is read, and written again as the same bytes."""

    def test_each_row(self):
        done = 0
        for name in ("messages.txt", "groups.txt", "share.txt"):
            for case, data, line in rows_of(name):
                kind = line.split(" ")[0]
                if kind in STRUCTURES:
                    with self.subTest(file=name, case=case, line=line[:80]):
                        self.check(STRUCTURES[kind], data, line[len(kind):].strip())
                    done += 1
        self.assertGreater(done, 90)

    def check(self, structure, data, wanted):
        fault = re.fullmatch(r"(\w+) at (\d+)", wanted)
        source = Reader(data)
        if fault:
            with self.assertRaises(MalformedReply) as told:
                structure.read(source)
                source.end()
            self.assertEqual((fault[1], int(fault[2])), (told.exception.reason, told.exception.place))
            return
        text, _, written = wanted.partition(", written ")
        value = structure.read(source)
        source.end()
        told = value_of(text)
        self.assertEqual({name: told[name] for name in told if name not in OLDER}, plain(value))
        to = Writer()
        structure.write(to, value)
        self.assertEqual(bytes_of(written) if written else data, to.done())

    def test_a_request_has_its_size_and_header(self):
        # docs/SCRIPT.md, the first Read of its last example; the client id is null there, which this client never
        # sends.
        request = messages.ReadShareGroupStateRequest("g1", [
            messages.ReadTopic(uuid.UUID(bytes=b"\x11" * 16), [messages.ReadPartition(0, 0)])])
        wanted = bytes_of("0000002c 0054 0000 00000002 0001 63 00 03 6731 02 {16*11} 02 00000000 00000000 00 00 00")
        self.assertEqual(wanted, frame_of(messages.READ_STATE, request, 2, "c"))

    def test_a_reply_has_its_correlation_id(self):
        data = bytes_of("00000002 00 02 {16*11} 02 00000000 0003 00 00000000 ffffffffffffffff 01 00 00 00")
        reply = reply_in(messages.READ_STATE, data, 2)
        self.assertEqual(3, reply.results[0].partitions[0].error_code)
        with self.assertRaises(MalformedReply):
            reply_in(messages.READ_STATE, data, 3)

    def test_the_reply_to_api_versions_has_no_tags_in_its_header(self):
        data = bytes_of("00000007 0000 02 0003 000c 000c 00 00000000 00")
        self.assertEqual([messages.ApiKey(3, 12, 12)], reply_in(messages.API_VERSIONS, data, 7).api_keys)


class Checksums(unittest.TestCase):
    """The check value of CRC-32C, and the examples of RFC 3720, appendix B.4."""

    def test_published_values(self):
        up = bytes(range(32))
        for data, wanted in ((b"123456789", 0xE3069283), (b"", 0), (bytes(32), 0x8A9136AA), (b"\xff" * 32, 0x62A8AB43),
                             (up, 0x46DD794E), (up[::-1], 0x113FDB5C)):
            self.assertEqual(wanted, crc32c(data))


class Partitioner(unittest.TestCase):
    def test_murmur2_of_kafkas_own_test(self):
        # The cases of Kafka's UtilsTest.testMurmur2
        # (clients/src/test/java/org/apache/kafka/common/utils/UtilsTest.java).
        for key, wanted in (("21", -973932308), ("foobar", -790332482), ("a-little-bit-long-string", -985981536),
                            ("a-little-bit-longer-string", -1486304829),
                            ("lkjh234lh9fiuh90y23oiuhsafujhadof229phr9h19h89h8", -58897971), ("abc", 479470107)):
            self.assertEqual(wanted, murmur2(key.encode()))

    def test_the_sign_is_cut_off(self):
        self.assertEqual((-973932308 & 0x7FFFFFFF) % 7, partition_of(b"21", 7))


class Batches(unittest.TestCase):
    """Record batches of format 2, by the batches of `batches.txt` and by their layout."""

    def test_three_records(self):
        builder = BatchBuilder()
        for value in (b"a", b"b", b"c"):
            self.assertTrue(builder.add(0, None, value, (), 85))
        self.assertEqual((3, 85), (len(builder), builder.size))
        self.assertFalse(builder.add(0, None, b"d", (), 85))
        # A producer's batch has no sequence: producer epoch and base sequence are -1.
        self.assertEqual(ABC, builder.build())
        self.assertEqual([(0, b"a"), (1, b"b"), (2, b"c")], [(r.offset, r.value) for r in read_batches(ABC)])

    def test_keys_that_are_empty_and_null(self):
        builder = BatchBuilder()
        builder.add(0, b"k", None, (), 1000)
        builder.add(0, b"", b"v", (), 1000)
        wanted = bytes_of("0000000000000000 00000041 00000000 02 6cde2766 0000 00000001 0000000000000000 "
                          "0000000000000000 ffffffffffffffff ffff ffffffff 00000002 0e000000026b0100 0e00000200027600")
        self.assertEqual(wanted, builder.build())
        self.assertEqual([(b"k", None), (b"", b"v")], [(r.key, r.value) for r in read_batches(wanted)])

    def test_a_header_whose_value_is_null(self):
        builder = BatchBuilder()
        builder.add(0, None, b"a", (("h", None),), 1000)
        wanted = bytes_of("0000000000000000 0000003c 00000000 02 205e8a85 0000 00000000 0000000000000000 "
                          "0000000000000000 ffffffffffffffff ffff ffffffff 00000001 1400000001026102026801")
        self.assertEqual(wanted, builder.build())
        self.assertEqual([(("h", None),)], [r.headers for r in read_batches(wanted)])

    def test_timestamps_are_kept(self):
        builder = BatchBuilder()
        for timestamp in (1700000000000, 1700000000500, 1699999999000):
            builder.add(timestamp, None, b"x", (), 1000)
        data = builder.build()
        self.assertEqual((1700000000000, 1700000000500), (int.from_bytes(data[27:35], "big"),
                                                          int.from_bytes(data[35:43], "big")))
        self.assertEqual([1700000000000, 1700000000500, 1699999999000], [r.timestamp_ms for r in read_batches(data)])

    def test_a_gap_and_two_batches(self):
        # The base offset isn't under the checksum, so a batch may be put elsewhere.
        moved = (7).to_bytes(8, "big") + ABC[8:]
        self.assertEqual([0, 1, 2, 7, 8, 9], [r.offset for r in read_batches(ABC + moved)])
        self.assertEqual([], list(read_batches(b"")))

    def test_bytes_that_are_no_batch(self):
        flipped = ABC[:84] + b"\1"
        gzip = ABC[:22] + b"\1" + ABC[23:]
        for data, check in ((ABC[:84], True), (ABC[:60], True), (flipped, True), (gzip, False),
                            (ABC[:16] + b"\1" + ABC[17:], False), (ABC + b"\0", True)):
            with self.assertRaises(MalformedReply):
                list(read_batches(data, check))

    def test_a_checksum_that_is_not_looked_at(self):
        flipped = ABC[:83] + b"d" + ABC[84:]
        self.assertEqual([b"a", b"b", b"d"], [r.value for r in read_batches(flipped, check_crcs=False)])

    def test_the_greatest_batch(self):
        builder = BatchBuilder()
        self.assertFalse(builder.add(0, None, bytes(MAX_BATCH_BYTES), (), MAX_BATCH_BYTES))
        self.assertTrue(builder.add(0, None, bytes(MAX_BATCH_BYTES - 61 - 13), (), MAX_BATCH_BYTES))
        self.assertLessEqual(len(builder.build()), MAX_BATCH_BYTES)


class Acknowledging(unittest.TestCase):
    """What is sent of records, and of offsets that were acquired and have no record."""

    PART = (uuid.UUID(bytes=b"\x22" * 16), 0)

    def test_offsets_without_a_record_are_told_as_gaps(self):
        # A log that was compacted elsewhere has such: the batch ends at offset 5, and has the records 0, 1 and 2.
        data = ABC[:26] + b"\5" + ABC[27:]
        entry = share_messages.FetchedPartition(0, 0, None, 0, None, share_messages.Leader(1, 0), data,
                                                [share_messages.AcquiredRecords(1, 4, 2)])
        records, gaps = ShareConsumer("localhost:9092", "g", check_crcs=False)._records_of("orders", entry)
        self.assertEqual([(1, b"b", 2), (2, b"c", 2)], [(r.offset, r.value, r.delivery_count) for r in records])
        self.assertEqual([3, 4], gaps)
        hand = Hand([(self.PART, record) for record in records], {self.PART: gaps})
        hand.acknowledge(records[0], AcknowledgeType.ACCEPT)
        hand.acknowledge(records[1], AcknowledgeType.RELEASE)
        sent = hand.take(0.0)
        self.assertEqual({self.PART: [share_messages.AcknowledgementBatch(1, 4, [1, 2, 0, 0])]}, sent.batches())
        self.assertEqual([1, 2], [ended.record.offset for ended in sent.all_ended(Outcome.STORED)])
        self.assertFalse(hand.take(0.0))


class Small(unittest.TestCase):
    def test_acknowledgement_batches_are_runs(self):
        told = batches_of({3: 1, 1: 1, 2: 1, 7: 2, 8: 0, 11: 3})
        self.assertEqual([(1, 3, [1]), (7, 8, [2, 0]), (11, 11, [3])],
                         [(b.first_offset, b.last_offset, b.acknowledge_types) for b in told])

    def test_a_state_that_nobody_knows(self):
        run = messages.StateBatch(0, 0, 3, 1)
        with self.assertRaises(MalformedReply):
            _state_of("orders", messages.ReadResult(0, 0, None, 0, 0, [run]))

    def test_addresses(self):
        self.assertEqual([("a", 9092), ("::1", 1)], parse_addresses("a:9092, [::1]:1"))
        for text in ("a", "a:", ":1", "a:0", "a:65536", "a:x", ""):
            with self.assertRaises(ValueError):
                parse_addresses(text)


if __name__ == "__main__":
    unittest.main()
