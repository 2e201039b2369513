"""Fetches that wait at the broker for a record."""

import signal
import threading
import time
import unittest

import context  # noqa: F401
from broker_case import BrokerCase, outcomes, told
from sharebroker import AcknowledgeType


class Waiting(BrokerCase):
    def fetches(self, consumer):
        """Notes of each fetch from now on whether it acknowledges, and how long it may wait."""
        noted = []
        fetch = consumer._session.fetch

        def note(wanted, batches, max_wait_ms, *rest):
            noted.append((bool(batches), max_wait_ms))
            return fetch(wanted, batches, max_wait_ms, *rest)

        consumer._session.fetch = note
        return noted

    def produce_later(self, value):
        timer = threading.Timer(0.3, self.produce, (value,))
        timer.start()
        self.addCleanup(timer.join)

    def test_one_fetch_waits_until_there_is_a_record(self):
        self.broker()
        consumer = self.consumer(fetch_max_wait_ms=20000)
        self.joined(consumer)
        fetches = self.fetches(consumer)
        self.produce_later(b"a")
        began = time.monotonic()
        self.assertEqual([(0, b"a", 1)], told(consumer.poll(10000)))
        self.assertLess(time.monotonic() - began, 5)
        (acknowledges, wait_ms), = fetches
        self.assertFalse(acknowledges)
        self.assertIn(wait_ms, range(9000, 10001))

    def test_what_became_of_acknowledgements_is_told_before_a_fetch_waits(self):
        self.broker()
        self.produce(b"a")
        consumer = self.consumer("implicit", fetch_max_wait_ms=20000)
        self.assertEqual(1, len(consumer.poll(5000)))
        fetches, heard = self.fetches(consumer), []
        consumer.set_acknowledgement_commit_callback(lambda ended: heard.append((outcomes(ended), list(fetches))))
        self.produce_later(b"b")
        self.assertEqual([(1, b"b", 1)], told(consumer.poll(10000)))
        self.assertEqual([([(0, "stored")], [(True, 0)])], heard)
        self.assertEqual([False], [acknowledges for acknowledges, _ in fetches[1:]])

    def test_a_poll_may_take_a_second_longer_where_its_fetch_waits(self):
        self.broker()
        consumer = self.consumer(fetch_max_wait_ms=20000)
        self.joined(consumer)
        fetches = self.fetches(consumer)
        began = time.monotonic()
        self.assertEqual([], consumer.poll(300))
        self.assertGreaterEqual(time.monotonic() - began, 0.3)
        # A busy machine may be late.
        self.assertLess(time.monotonic() - began, 4)
        self.assertIn(fetches[0][1], range(200, 301))
        fetches.clear()
        # A short one doesn't wait there.
        self.assertEqual([], consumer.poll(90))
        self.assertEqual({(False, 0)}, set(fetches))

    def test_no_fetch_waits_until_a_delayed_release_is_due(self):
        self.broker()
        self.produce(b"a")
        consumer = self.consumer(fetch_max_wait_ms=20000)
        record, = consumer.poll(5000)
        fetches = self.fetches(consumer)
        began = time.monotonic()
        consumer.acknowledge(record, AcknowledgeType.RELEASE, delay_ms=1500)
        self.assertEqual([(0, b"a", 2)], told(consumer.poll(10000)))
        self.assertGreater(time.monotonic() - began, 1.49)
        # The broker may be a second late with it.
        self.assertLessEqual(max(wait_ms for _, wait_ms in fetches), 500)

    def test_a_fetch_that_waits_is_interrupted(self):
        self.broker()
        self.produce(b"a")
        consumer, other = self.consumer(fetch_max_wait_ms=20000), self.consumer()
        record, = consumer.poll(5000)
        consumer.acknowledge(record, AcknowledgeType.RELEASE, delay_ms=25000)
        timer = threading.Timer(0.5, signal.pthread_kill, (threading.get_ident(), signal.SIGINT))
        timer.start()
        began = time.monotonic()
        with self.assertRaises(KeyboardInterrupt):
            consumer.poll(20000)
        with self.assertLogs("sharebroker", "WARNING") as logs:
            consumer.close()
        self.assertIn("1 records were lost", logs.output[0])
        # What it held is released once the broker has seen that it is gone.
        self.assertEqual([(0, b"a", 2)], told(other.poll(10000)))
        self.assertLess(time.monotonic() - began, 8)


if __name__ == "__main__":
    unittest.main()
