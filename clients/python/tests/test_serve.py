"""What only the broker on a real socket and a real folder shows: it is killed, workers die, locks end by the clock."""

import os
import signal
import subprocess
import sys
import threading
import time
import unittest

import context
from broker_case import ORDERS, BrokerCase, outcomes, told
from sharebroker import AcknowledgeType

#: A worker that takes a record, says so, and then waits.
TAKES = """
import sys, time
from sharebroker import ShareConsumer
with ShareConsumer(sys.argv[1], "g", share_acknowledgement_mode="explicit") as consumer:
    consumer.subscribe(["orders"])
    while not consumer.poll(5000, max_records=1):
        pass
    print("taken", flush=True)
    time.sleep(60)
"""


class Killing(BrokerCase):
    def test_what_was_answered_is_there_after_a_kill(self):
        broker = self.broker()
        producer = self.producer(linger_ms=0, retry_unknown=True)
        producer.partitions_for("orders")
        killing = threading.Timer(0.2, broker.kill)
        killing.start()
        stored = []
        with self.assertLogs("sharebroker", "WARNING"):
            end = time.monotonic() + 0.5
            while time.monotonic() < end:
                stored.append(producer.send("orders", b"%d" % len(stored)))
                time.sleep(0.001)
            killing.join()
            broker.start()
            offsets = [future.result(20).offset for future in stored]
        self.assertEqual(sorted(offsets), offsets)
        consumer = self.consumer()
        values = {}
        while len(set(values.values())) < len(stored):
            for record in consumer.poll(5000):
                values[record.offset] = record.value
                consumer.acknowledge(record)
        # Each record stands where its answer says. One whose batch wasn't answered may stand there twice.
        self.assertEqual([b"%d" % number for number in range(len(stored))], [values[offset] for offset in offsets])

    def test_an_acknowledgement_is_kept_and_a_held_record_is_available_after_a_kill(self):
        broker = self.broker()
        self.produce(b"a", b"b", b"c")
        consumer = self.consumer()
        first, second, third = consumer.poll(5000)
        consumer.acknowledge(first)
        consumer.acknowledge(third, AcknowledgeType.REJECT)
        self.assertEqual([(0, "stored"), (2, "stored")], outcomes(consumer.commit()))
        broker.kill()
        broker.start()
        consumer.acknowledge(second)
        self.assertEqual([(1, "lost")], outcomes(consumer.commit()))
        again = []
        while not again:
            again = consumer.poll(5000)
        self.assertEqual([(1, b"b", 1)], told(again))
        consumer.acknowledge(again[0])
        consumer.commit()
        self.assertEqual([(3, [])], self.state())

    def test_the_folder_tells_what_is_stored(self):
        broker = self.broker()
        self.produce(b"a", b"b")
        consumer = self.consumer()
        records = consumer.poll(5000)
        consumer.acknowledge(records[0], AcknowledgeType.RELEASE)
        consumer.acknowledge(records[1])
        consumer.close()
        broker.kill()
        dump = subprocess.run([context.PROGRAM, "dump-state", "--dir", os.path.join(broker.folder, "data"),
                               f"orders:1:{ORDERS}"], capture_output=True, check=True, text=True).stdout
        self.assertEqual("table 67 orders/0 start 0 complete 1\nrun 0 0 available 1\nrun 1 1 acknowledged 1\nend\n", dump)


class Sharing(BrokerCase):
    def worker(self):
        """A process that has taken a record and holds it."""
        paths = {**os.environ, "PYTHONPATH": os.path.dirname(context.HERE)}
        process = subprocess.Popen([sys.executable, "-c", TAKES, self.servers], env=paths, stdout=subprocess.PIPE)
        self.addCleanup(process.wait)
        self.addCleanup(process.kill)
        self.addCleanup(process.stdout.close)
        self.assertEqual(b"taken\n", process.stdout.readline())
        return process

    def test_a_worker_that_is_killed_leaves_its_record_to_others_at_once(self):
        self.broker(lock_ms=60000)
        self.produce(b"a")
        process = self.worker()
        consumer = self.consumer()
        self.assertEqual([], consumer.poll(100))
        process.kill()
        self.assertEqual([(0, b"a", 2)], told(consumer.poll(10000)))

    def test_a_worker_that_hangs_leaves_its_record_to_others_when_its_lock_ends(self):
        self.broker(lock_ms=1000)
        self.produce(b"a")
        process = self.worker()
        os.kill(process.pid, signal.SIGSTOP)
        consumer = self.consumer()
        records = []
        self.wait_until(lambda: records.extend(consumer.poll(1000)) or records)
        self.assertEqual([(0, b"a", 2)], told(records))

    def test_a_lock_that_ended_is_told_as_lost(self):
        self.broker(lock_ms=500)
        self.produce(b"a")
        one, other = self.consumer(), self.consumer()
        record, = one.poll(5000)
        records = []
        self.wait_until(lambda: records.extend(other.poll(500)) or records)
        one.acknowledge(record)
        self.assertEqual([(0, "lost")], outcomes(one.commit()))
        other.acknowledge(records[0])
        self.assertEqual([(0, "stored")], outcomes(other.commit()))

    def test_a_connection_beyond_the_workers_waits_for_one(self):
        self.broker(workers=2)
        self.produce(b"a")
        consumer = self.consumer()
        # A consumer takes two connections, and so both workers.
        self.assertEqual([(0, b"a", 1)], told(consumer.poll(5000)))
        producer = self.producer(linger_ms=0)
        sending = []
        thread = threading.Thread(target=lambda: sending.append(producer.send("orders", b"b").result(20)))
        thread.start()
        thread.join(0.3)
        self.assertEqual([], sending)
        consumer.close()
        thread.join(20)
        self.assertEqual([1], [stored.offset for stored in sending])


def ends_idle_connections():
    """Whether the built program has the option `--idle-ms`."""
    if not os.access(context.PROGRAM, os.X_OK):
        return False
    said = subprocess.run([context.PROGRAM, "serve", "--help"], capture_output=True, check=False, timeout=60)
    return b"--idle-ms" in said.stdout + said.stderr


@unittest.skipUnless(ends_idle_connections(), "the built program has no --idle-ms")
class Idle(BrokerCase):
    """The broker ends a connection that was silent for a second. Clients send in time, or connect again unnoticed."""

    def test_nobody_notices(self):
        broker = self.broker(lock_ms=500, others=("--idle-ms", "1000"))
        producer = self.producer(linger_ms=0)
        consumer = self.consumer()
        with self.no_warnings():
            self.assertEqual(0, producer.send("orders", b"a").result(20).offset)
            record, = consumer.poll(10000)
            consumer.acknowledge(record)
            self.assertEqual([(0, "stored")], outcomes(consumer.commit()))
            self.wait_until(lambda: broker.errors().count(b"\n") > 2, seconds=20)
            self.assertEqual(1, producer.send("orders", b"b").result(20).offset)
            self.assertEqual([(1, b"b", 1)], told(consumer.poll(10000)))


if __name__ == "__main__":
    unittest.main()
