"""Deleting records, against the built broker."""

import unittest

import context  # noqa: F401
from broker_case import ORDERS, BrokerCase, outcomes, told
from sharebroker import LOG_END, DeletedRecords, MalformedReply, UnknownTopic, Unreachable, delete_records, messages
from sharebroker.deletes import _match

OTHERS = "33333333-3333-3333-3333-333333333333"


class Deleting(BrokerCase):
    def delete(self, offset, partition=0):
        """What became of the partition: where its log starts, or the code and its name."""
        deleted, = delete_records(self.servers, {("orders", partition): offset})
        self.assertEqual(("orders", partition), (deleted.topic, deleted.partition))
        if deleted.error is None:
            return deleted.low_watermark
        self.assertIsNone(deleted.low_watermark)
        return deleted.error.code, deleted.error.name

    def test_what_is_deleted_is_delivered_no_more(self):
        self.broker()
        self.produce(b"a", b"b", b"c")
        self.assertEqual(2, self.delete(2))
        self.assertEqual([(2, b"c", 1)], told(self.consumer().poll(5000)))
        self.assertEqual([(2, [])], self.state())
        self.assertEqual([3], [stored.offset for stored in self.produce(b"d")])

    def test_an_acknowledgement_of_a_deleted_record_counts_as_stored(self):
        self.broker()
        self.produce(b"a", b"b", b"c")
        consumer = self.consumer()
        records = consumer.poll(5000)
        self.assertEqual(2, self.delete(2))
        self.assertEqual([(2, [])], self.state())
        for record in records:
            consumer.acknowledge(record)
        self.assertEqual([(0, "stored"), (1, "stored"), (2, "stored")], outcomes(consumer.commit()))
        self.assertEqual([(3, [])], self.state())

    def test_offsets_of_the_log_and_others(self):
        self.broker()
        self.assertEqual(0, self.delete(LOG_END))
        self.produce(b"a", b"b", b"c")
        for offset in (4, -2, -1 << 63, (1 << 63) - 1):
            self.assertEqual((1, "OFFSET_OUT_OF_RANGE"), self.delete(offset))
        self.assertEqual(0, self.delete(0))
        self.assertEqual(1, self.delete(1))
        self.assertEqual(1, self.delete(0))
        self.assertEqual(3, self.delete(LOG_END))
        self.assertEqual(3, self.delete(2))

    def test_several_partitions_each_have_an_outcome_of_their_own(self):
        self.broker(f"orders:2:{ORDERS}", f"others:1:{OTHERS}")
        self.produce(b"a", b"b", partition=1)
        self.produce(b"c", topic="others")
        deleted = delete_records(self.servers, {("orders", 1): 1, ("others", 0): LOG_END, ("orders", 0): 5})
        self.assertEqual([DeletedRecords("orders", 1, 1, None), DeletedRecords("others", 0, 1, None)], deleted[:2])
        self.assertEqual([("orders", 0, 1)], [(one.topic, one.partition, one.error.code) for one in deleted[2:]])

    def test_what_is_deleted_stays_so_over_a_kill(self):
        broker = self.broker()
        self.produce(b"a", b"b", b"c")
        self.assertEqual(2, self.delete(2))
        broker.kill()
        broker.start()
        self.assertEqual(2, self.delete(0))
        self.assertEqual([(2, b"c", 1)], told(self.consumer().poll(5000)))

    def test_a_disk_that_fails_deletes_nothing(self):
        broker = self.scripted_broker()
        self.produce(b"a", b"b")
        broker.arm("orders/0/log", 0, "once")
        self.assertEqual((56, "KAFKA_STORAGE_ERROR"), self.delete(1))
        self.assertEqual(0, self.delete(0))
        self.assertEqual(1, self.delete(1))

    def test_places_that_are_not_there(self):
        self.broker()
        self.produce(b"a")
        for place in (("others", 0), ("orders", 1), ("orders", -1)):
            with self.assertRaises(UnknownTopic):
                delete_records(self.servers, {("orders", 0): 1, place: 0})
        self.assertEqual(0, self.delete(0))
        self.assertEqual([], delete_records(self.servers, {}))


class Answers(unittest.TestCase):
    def test_words_that_make_no_sense(self):
        with self.assertRaises(ValueError):
            delete_records("localhost:9092", {("orders", 0): 1 << 63})
        with self.assertRaises(ValueError):
            delete_records("localhost:9092", {("orders", 0): 1}, timeout_ms=0)

    def test_nobody_answers(self):
        with self.assertLogs("sharebroker", "WARNING"), self.assertRaises(Unreachable):
            delete_records("127.0.0.1:1", {("orders", 0): 1}, timeout_ms=100)

    def test_answers_for_other_partitions(self):
        asked = [messages.DeleteTopic("orders", [messages.DeletePartition(0, 1)])]
        for topics in ([], [messages.DeletedTopic("orders", [])],
                       [messages.DeletedTopic("orders", [messages.DeletedPartition(1, 1, 0)])],
                       [messages.DeletedTopic("others", [messages.DeletedPartition(0, 1, 0)])]):
            with self.assertRaises(MalformedReply):
                _match(asked, messages.DeleteRecordsResponse(0, topics))


if __name__ == "__main__":
    unittest.main()
