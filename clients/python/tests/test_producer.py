"""The producer, against the built broker."""

import threading
import time
import unittest

import context  # noqa: F401
from broker_case import ORDERS, BrokerCase, told
from sharebroker import (BufferFull, Closed, ConnectionLost, DeliveryTimeout, NotSent, OutcomeUnknown, Producer,
                         ProducerSettings, RecordTooLarge, Refused, UnknownTopic, Unreachable)
from sharebroker.accumulator import Accumulator
from sharebroker.messages import ProducedPartition, ProducedTopic, ProduceResponse
from sharebroker.partitioner import partition_of
from sharebroker.sender import Sender


class Sending(BrokerCase):
    def test_records_of_a_partition_are_stored_in_order(self):
        self.broker()
        producer = self.producer(batch_size=300)
        futures = [producer.send("orders", b"%d" % number) for number in range(100)]
        self.assertTrue(producer.flush(10000))
        self.assertEqual([("orders", 0, number, False) for number in range(100)],
                         [(m.topic, m.partition, m.offset, m.maybe_stored_twice)
                          for m in (future.result(0) for future in futures)])
        self.assertEqual([b"%d" % number for number in range(100)],
                         [record.value for record in self.consumer().poll(5000)])

    def test_all_of_a_record_is_kept(self):
        self.broker()
        headers = (("kind", b"resize"), ("none", None))
        self.produce(b"v", key=b"k", headers=headers, timestamp_ms=1700000000123)
        self.produce(None, timestamp_ms=1700000000456)
        records = self.consumer().poll(5000)
        self.assertEqual([(b"k", b"v", headers, 1700000000123), (None, None, (), 1700000000456)],
                         [(r.key, r.value, r.headers, r.timestamp_ms) for r in records])

    def test_keys_go_where_kafkas_hash_says(self):
        self.broker(f"orders:7:{ORDERS}")
        producer = self.producer()
        keys = [b"21", b"foobar", b"a-little-bit-long-string", b"abc"]
        futures = [producer.send("orders", b"", key=key) for key in keys]
        self.assertEqual([partition_of(key, 7) for key in keys], [future.result(10).partition for future in futures])
        self.assertEqual(7, producer.partitions_for("orders"))

    def test_records_without_a_key_change_the_partition_with_the_batch(self):
        self.broker(f"orders:3:{ORDERS}")
        producer = self.producer(linger_ms=0)
        self.assertEqual([0, 1, 2, 0], [producer.send("orders", b"x").result(10).partition for _ in range(4)])

    def test_a_full_batch_does_not_wait(self):
        self.broker()
        producer = self.producer(batch_size=200, linger_ms=60000)
        first, second = producer.send("orders", b"a" * 100), producer.send("orders", b"b" * 100)
        self.assertEqual(0, first.result(10).offset)
        self.assertFalse(second.done())
        producer.flush()
        self.assertEqual(1, second.result(0).offset)

    def test_a_batch_waits_for_more(self):
        self.broker()
        producer = self.producer(linger_ms=200)
        producer.partitions_for("orders")
        began = time.monotonic()
        first = producer.send("orders", b"a")
        self.assertEqual(0, first.result(10).offset)
        self.assertGreater(time.monotonic() - began, 0.19)

    def test_acks_0_stores_and_tells_no_offset(self):
        self.broker()
        producer = self.producer(acks=0)
        self.assertEqual(-1, producer.send("orders", b"a").result(10).offset)
        self.assertEqual(1, self.produce(b"b")[0].offset)
        self.assertEqual([(0, b"a", 1), (1, b"b", 1)], told(self.consumer().poll(5000)))

    def test_a_batch_of_a_mebibyte(self):
        self.broker()
        producer = self.producer(batch_size=1048588)
        value = bytes(1048588 - 61 - 20)
        self.assertEqual(0, producer.send("orders", value).result(20).offset)
        for size in (1048588 - 61 - 10, 1048588):
            with self.assertRaisesRegex(RecordTooLarge, "the broker takes 1048588"):
                producer.send("orders", bytes(size))

    def test_several_threads_send(self):
        self.broker()
        producer = self.producer(batch_size=1000)
        found = []

        def send(name):
            futures = [producer.send("orders", b"%d" % name) for _ in range(100)]
            offsets = [future.result(20).offset for future in futures]
            self.assertEqual(sorted(offsets), offsets)
            found.extend(offsets)

        threads = [threading.Thread(target=send, args=(name,)) for name in range(4)]
        for thread in threads:
            thread.start()
        for thread in threads:
            thread.join()
        self.assertEqual(list(range(400)), sorted(found))

    def test_two_topics_in_a_request(self):
        self.broker(f"orders:1:{ORDERS}", "a:2:33333333-3333-3333-3333-333333333333")
        producer = self.producer(linger_ms=50)
        futures = [producer.send(topic, b"x", partition=number)
                   for topic, number in (("a", 1), ("orders", 0), ("a", 0), ("a", 1))]
        self.assertEqual([0, 0, 0, 1], [future.result(10).offset for future in futures])


class Failing(BrokerCase):
    def test_what_is_not_there(self):
        self.broker()
        producer = self.producer()
        with self.assertRaises(UnknownTopic):
            producer.send("others", b"x")
        with self.assertRaises(UnknownTopic):
            producer.send("orders", b"x", partition=1)
        for name, words in (("value", {"value": "x"}), ("key", {"value": b"x", "key": 7}),
                            ("topic", {"topic": None, "value": b"x"}), ("partition", {"value": b"x", "partition": "0"}),
                            ("timestamp_ms", {"value": b"x", "timestamp_ms": 1.5}),
                            ("headers", {"value": b"x", "headers": {"a": b"b"}}),
                            ("header", {"value": b"x", "headers": [("a", "b")]})):
            with self.assertRaisesRegex(TypeError, name):
                producer.send(**{"topic": "orders", **words})
        for name, value in (("timestamp_ms", -1), ("partition", -1)):
            with self.assertRaisesRegex(ValueError, name):
                producer.send("orders", b"x", **{name: value})
        self.assertEqual(0, producer.send("orders", b"x").result(10).offset)

    def test_a_batch_that_was_not_stored_is_sent_again(self):
        broker = self.scripted_broker()
        broker.arm("orders/0/log", 0, "once")
        producer = self.producer(retry_backoff_ms=1)
        with self.assertLogs("sharebroker", "WARNING") as logs:
            stored = producer.send("orders", b"x").result(10)
        self.assertEqual((0, True), (stored.offset, stored.maybe_stored_twice))
        self.assertIn("both may be kept", logs.output[0])

    def test_a_power_loss_may_keep_what_was_answered_with_code_56(self):
        # The fourth call of an append is the sync of what makes it count. It fails, and the power loss keeps what was
        # written: docs/SCRIPT.md, "What an armed fault does" and "What a power loss does".
        broker = self.scripted_broker()
        producer = self.producer(linger_ms=0, retry_backoff_ms=500)
        producer.partitions_for("orders")
        broker.arm("orders/0/log", 3, "once")
        with self.assertLogs("sharebroker", "WARNING"):
            future = producer.send("orders", b"x")
            self.wait_until(lambda: any(queue and queue[0].tries for queue in producer._waiting._queues.values()))
            broker.power(9)
            stored = future.result(10)
        self.assertEqual((1, True), (stored.offset, stored.maybe_stored_twice))
        self.assertEqual([(0, b"x", 1), (1, b"x", 1)], told(self.consumer().poll(5000)))

    def test_records_keep_their_order_where_a_batch_is_sent_again(self):
        broker = self.scripted_broker()
        producer = self.producer(batch_size=100, linger_ms=0, retry_backoff_ms=20)
        producer.partitions_for("orders")
        broker.arm("orders/0/log", 2, "once")
        with self.assertLogs("sharebroker", "WARNING"):
            futures = [producer.send("orders", b"%d" % number) for number in range(30)]
            self.assertEqual(list(range(30)), [future.result(10).offset for future in futures])

    def test_no_record_joins_a_batch_that_was_sent(self):
        broker = self.scripted_broker()
        producer = self.producer(linger_ms=0, retry_backoff_ms=300)
        producer.partitions_for("orders")
        broker.arm("orders/0/log", 0, "once")
        with self.assertLogs("sharebroker", "WARNING"):
            first = producer.send("orders", b"a")
            self.wait_until(lambda: any(queue and queue[0].tries for queue in producer._waiting._queues.values()))
            second = producer.send("orders", b"b")
            self.assertEqual([0, 1], [first.result(10).offset, second.result(10).offset])
        self.assertEqual([b"a", b"b"], [record.value for record in self.consumer().poll(5000)])

    def test_no_room(self):
        broker = self.scripted_broker()
        producer = self.producer(buffer_memory=1048588, batch_size=1048588, max_block_ms=1000)
        producer.partitions_for("orders")
        with broker.steps_held():
            first = producer.send("orders", bytes(600000))
            with self.assertRaises(BufferFull):
                producer.send("orders", bytes(600000))
        self.assertEqual(0, first.result(60).offset)
        self.assertEqual(1, producer.send("orders", bytes(600000)).result(10).offset)

    def test_a_broker_that_is_gone(self):
        broker = self.scripted_broker()
        producer = self.producer(linger_ms=0, delivery_timeout_ms=100)
        producer.send("orders", b"x").result(10)
        broker.stop_listening()
        broker.drop_connections()
        with self.assertLogs("sharebroker", "WARNING"):
            fault = producer.send("orders", b"x").exception(10)
        self.assertIsInstance(fault, DeliveryTimeout)
        self.assertIsInstance(fault.__cause__, (NotSent, Unreachable))

    def test_what_is_left_at_close(self):
        broker = self.scripted_broker()
        producer = self.producer(linger_ms=0)
        producer.partitions_for("orders")
        with broker.steps_held():
            first = producer.send("orders", b"x")
            self.wait_until(lambda: broker.held)
            second = producer.send("orders", b"y")
            producer.close(timeout_ms=50)
        self.assertIsInstance(first.exception(0), OutcomeUnknown)
        self.assertIsInstance(second.exception(0), Closed)

    def test_a_disk_that_stays_broken(self):
        broker = self.scripted_broker()
        broker.arm("orders/0/log", 0, "dead")
        producer = self.producer(retry_backoff_ms=1, delivery_timeout_ms=100)
        with self.assertLogs("sharebroker", "WARNING"):
            fault = producer.send("orders", b"x").exception(10)
        self.assertIsInstance(fault, DeliveryTimeout)
        self.assertEqual(56, fault.__cause__.code)

    def test_what_is_not_answered_is_told_as_unknown(self):
        broker = self.scripted_broker()
        producer = self.producer(linger_ms=0)
        producer.partitions_for("orders")
        with self.assertLogs("sharebroker", "WARNING"), broker.steps_held():
            future = producer.send("orders", b"x")
            self.wait_until(lambda: broker.held)
            broker.drop_connections()
            self.assertIsInstance(future.exception(10), OutcomeUnknown)
        self.assertEqual(0, producer.send("orders", b"y").result(10).offset)

    def test_what_is_not_answered_is_sent_again_where_asked(self):
        broker = self.scripted_broker()
        producer = self.producer(linger_ms=0, retry_unknown=True)
        producer.partitions_for("orders")
        with self.assertLogs("sharebroker", "WARNING"), broker.steps_held():
            future = producer.send("orders", b"x")
            self.wait_until(lambda: broker.held)
            broker.drop_connections()
            # The next connection is begun, and its requests wait as well.
            self.wait_until(lambda: broker.held == 2)
        stored = future.result(10)
        self.assertEqual((0, True), (stored.offset, stored.maybe_stored_twice))

    def test_what_was_not_answered_is_in_doubt_until_it_is_stored(self):
        broker = self.scripted_broker()
        producer = self.producer(linger_ms=0, retry_unknown=True, delivery_timeout_ms=300)
        producer.partitions_for("orders")
        with self.assertLogs("sharebroker", "WARNING"), broker.steps_held():
            future = producer.send("orders", b"x")
            self.wait_until(lambda: broker.held)
            broker.stop_listening()
            broker.drop_connections()
            fault = future.exception(10)
        self.assertIsInstance(fault, DeliveryTimeout)
        self.assertIsInstance(fault.__cause__, OutcomeUnknown)

    def test_a_connection_that_was_closed_meanwhile(self):
        broker = self.scripted_broker()
        producer = self.producer(linger_ms=0)
        self.assertEqual(0, producer.send("orders", b"x").result(10).offset)
        broker.drop_connections()
        began = time.monotonic()
        with self.no_warnings():
            stored = producer.send("orders", b"y").result(10)
        self.assertEqual((1, False), (stored.offset, stored.maybe_stored_twice))
        self.assertLess(time.monotonic() - began, 5)

    def test_a_connection_that_was_silent_for_long_is_made_again_before_it_is_used(self):
        broker = self.scripted_broker()
        producer = self.producer(linger_ms=0, connections_max_idle_ms=100)
        self.assertEqual(0, producer.send("orders", b"x").result(10).offset)
        first = producer._link.current()
        with self.no_warnings():
            time.sleep(0.15)
            self.assertEqual(1, producer.send("orders", b"y").result(10).offset)
            self.assertFalse(first.is_open)
            self.assertEqual(2, producer.send("orders", b"z").result(10).offset)
        self.wait_until(lambda: broker.connections() == 1)

    def test_after_a_power_loss(self):
        broker = self.scripted_broker()
        producer = self.producer(linger_ms=0)
        producer.send("orders", b"x").result(10)
        broker.power(0)
        self.assertEqual(1, producer.send("orders", b"y").result(10).offset)


class Alone(unittest.TestCase):
    """What needs no broker."""

    def test_settings_that_make_no_sense(self):
        for settings in ({"acks": 2}, {"batch_size": 60}, {"batch_size": 1048589}, {"linger_ms": -1},
                         {"buffer_memory": 1}, {"max_request_size": 0}, {"client_id": "x" * 32768},
                         {"request_timeout_ms": 0}, {"request_timeout_ms": 1 << 31}, {"linger_ms": float("nan")}):
            with self.assertRaisesRegex(ValueError, next(iter(settings))):
                Producer("localhost:9092", **settings)
        with self.assertRaisesRegex(ValueError, "batch_size is 61 to 1048588, and not 60"):
            Producer("localhost:9092", batch_size=60)
        for settings in ({"request_timeout_ms": 1.5}, {"batch_size": "1000"}, {"linger_ms": "5"}, {"client_id": b"x"},
                         {"retry_unknown": 1}, {"buffer_memory": None}, {"ssl_context": True}, {"lingers": 1}):
            with self.assertRaisesRegex(TypeError, next(iter(settings))):
                Producer("localhost:9092", **settings)
        with self.assertRaisesRegex(TypeError, "bootstrap_servers"):
            Producer(("localhost", 9092))
        with self.assertRaises(ValueError):
            Producer("localhost")

    def test_nobody_listens(self):
        with self.assertLogs("sharebroker", "WARNING"), Producer("127.0.0.1:1", max_block_ms=200) as producer:
            with self.assertRaises(Unreachable):
                producer.send("orders", b"x")
        with self.assertRaises(Closed):
            producer.send("orders", b"x")


class Answering:
    """A link to nobody. Of each request for orders/0 the next of these becomes: a code is answered, a fault comes."""

    def __init__(self, *answers):
        self.answers = list(answers)
        self.topics = None

    def connect(self, deadline):
        if isinstance(self.answers[0], Unreachable):
            time.sleep(0.1)
            raise self.answers[0]
        return self

    def call(self, call, request):
        answer = self.answers.pop(0)
        if isinstance(answer, Exception):
            raise answer
        return ProduceResponse([ProducedTopic("orders", [ProducedPartition(0, answer, 0, -1, 0, [], None)])], 0)

    def lost(self, fault):
        """The connection is there again at once."""

    def works(self):
        """Nothing is noted of it."""

    def close(self):
        """Nothing is open."""


class Again(unittest.TestCase):
    """What becomes of a batch that is sent more than once, with no broker."""

    def sent(self, number, *answers, **settings):
        """What becomes of so many batches for orders/0."""
        changed, waiting = threading.Condition(), Accumulator(61, 0, 1048576)
        sender = Sender(ProducerSettings(retry_backoff_ms=1, **settings), Answering(*answers), waiting, changed)
        sender.start()
        self.addCleanup(sender.stop)
        with changed:
            futures = [waiting.add("orders", 0, 0, None, b"x", ()) for _ in range(number)]
            changed.notify_all()
        return [future.exception(10) for future in futures]

    def test_a_batch_that_may_be_stored_and_is_refused_then(self):
        for first in (ConnectionLost("it ended"), 56):
            with self.assertLogs("sharebroker", "WARNING"):
                fault = self.sent(1, first, 3, retry_unknown=True)[0]
            self.assertIsInstance(fault, OutcomeUnknown)
            self.assertEqual(3, fault.__cause__.code)

    def test_a_batch_that_was_not_sent_and_is_refused_then(self):
        fault = self.sent(1, NotSent("it ended"), 3)[0]
        self.assertIsInstance(fault, Refused)
        self.assertEqual(3, fault.code)

    def test_batches_whose_time_is_up_fail_together(self):
        began = time.monotonic()
        faults = self.sent(50, Unreachable("nobody answers"), delivery_timeout_ms=150)
        self.assertLess(time.monotonic() - began, 2)
        self.assertEqual({(DeliveryTimeout, Unreachable)}, {(type(fault), type(fault.__cause__)) for fault in faults})


class Refusing(BrokerCase):
    def test_a_code_that_no_retry_mends(self):
        # The broker takes batches without compression alone; a codec's number in the attributes stands for one.
        self.broker()
        producer = self.producer(linger_ms=60000)
        future = producer.send("orders", b"x")
        batch = next(iter(producer._waiting._queues.values()))[0]
        data = bytearray(batch.records())
        data[22] = 1
        data[17:21] = __import__("sharebroker.checksum").checksum.crc32c(bytes(data[21:])).to_bytes(4, "big")
        batch._bytes = bytes(data)
        producer.flush()
        fault = future.exception(10)
        self.assertIsInstance(fault, Refused)
        self.assertEqual((76, "UNSUPPORTED_COMPRESSION_TYPE"), (fault.code, fault.name))


if __name__ == "__main__":
    unittest.main()
