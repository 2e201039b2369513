"""The command line, against the built broker."""

import os
import subprocess
import sys
import tempfile
import unittest

import context
from broker_case import BrokerCase, told
from sharebroker import AcknowledgeType, Producer, share_group_state


class Commands(BrokerCase):
    def run_command(self, *words, given=b""):
        """Runs a command, and gives its status, its output, and its errors."""
        paths = {**os.environ, "PYTHONPATH": os.path.dirname(context.HERE)}
        name, *others = words
        done = subprocess.run([sys.executable, "-m", "sharebroker", name, "--bootstrap-server", self.servers, *others],
                              input=given, capture_output=True, env=paths, timeout=60, check=False)
        return done.returncode, done.stdout.decode(), done.stderr.decode()

    def test_produce_consume_and_state(self):
        self.broker()
        self.assertEqual((0, "orders/0 0\norders/0 1\norders/0 2\n", ""),
                         self.run_command("produce", "--topic", "orders", "--key-separator", ":", "--print-offsets",
                                          given=b"a:1\nb:2\n3\n"))
        self.assertEqual((0, "orders/0 not fetched yet\n", ""), self.run_command("state", "--group", "g"))
        self.assertEqual((0, "a\t1\nb\t2\n", ""),
                         self.run_command("consume", "--topic", "orders", "--group", "g", "--max-messages", "2",
                                          "--print-key"))
        self.assertEqual((0, "orders/0 start 2\n  from 2 on 0 done, 0 given up; below 2 all is done, given up or deleted, "
                             "which isn't stored apart\n", ""), self.run_command("state", "--group", "g"))

    def test_what_was_done_and_what_was_given_up(self):
        self.broker()
        self.produce(*(b"%d" % number for number in range(6)))
        consumer = self.consumer()
        for record, way in zip(consumer.poll(5000), (2, 1, 3, 1, 3, 3)):
            consumer.acknowledge(record, AcknowledgeType(way))
        consumer.commit()
        self.assertEqual((0, "orders/0 start 0\n  0 to 0 available x1\n  1 to 1 acknowledged x1\n  2 to 2 archived x1\n"
                             "  3 to 3 acknowledged x1\n  4 to 5 archived x1\n  from 0 on 2 done, 3 given up\n", ""),
                         self.run_command("state", "--group", "g"))
        part, = share_group_state(self.servers, "g")
        self.assertEqual((2, 3), (part.done, part.given_up))
        self.assertEqual([0, 1, 1, 1, 3], [part.open_below(offset) for offset in (0, 1, 2, 6, 8)])

    def test_release_and_reject(self):
        self.broker()
        self.produce(b"x", b"y")
        words = ("consume", "--topic", "orders", "--group", "g", "--max-messages", "1", "--print-offset")
        self.assertEqual((0, "orders/0 0 x1\tx\n", ""), self.run_command(*words, "--release"))
        self.assertEqual((0, "orders/0 0 x2\tx\n", ""), self.run_command(*words, "--reject"))
        self.assertEqual("orders/0 start 1\n",
                         self.run_command("state", "--group", "g", "--topic", "orders")[1].split("  ")[0])
        self.assertEqual([(1, b"y", 1)], told(self.consumer().poll(5000)))

    def test_delete_records(self):
        self.broker()
        self.produce(b"x", b"y")
        words = ("delete-records", "--topic", "orders", "--partition", "0", "--yes", "--before-offset")
        self.assertEqual((0, "orders/0 low watermark 1\n", ""), self.run_command(*words, "1"))
        self.assertEqual([(1, b"y", 1)], told(self.consumer().poll(5000)))
        self.assertEqual((1, "", "sharebroker: DeleteRecords of orders/0: the broker answered with code 1, "
                                 "OFFSET_OUT_OF_RANGE: the log starts at 1 and ends before 3; -1 deletes all that it has\n"),
                         self.run_command(*words, "3"))
        self.assertEqual((0, "orders/0 low watermark 2\n", ""), self.run_command(*words, "-1"))

    def test_delete_records_asks_before_it_deletes_what_is_not_done(self):
        self.broker()
        self.produce(b"x", b"y", b"z")
        consumer = self.consumer()
        for record, way in zip(consumer.poll(5000), (1, 2, 1)):
            consumer.acknowledge(record, AcknowledgeType(way))
        consumer.commit()
        words = ("delete-records", "--topic", "orders", "--partition", "0", "--before-offset")
        self.assertEqual((0, "orders/0 low watermark 1\n", ""), self.run_command(*words, "1", "--group", "g"))
        for group, number in (("g", 1), ("other", 3)):
            status, output, said = self.run_command(*words, "3", "--group", group, given=b"n\n")
            self.assertEqual((1, ""), (status, output))
            self.assertIn(f"the group {group!r} hasn't done {number} of them. Delete them? [y/N]", said)
            self.assertTrue(said.endswith("sharebroker: nothing is deleted\n"))
        self.assertEqual((1, ""), self.run_command(*words, "-1", "--group", "g")[:2])
        status, output, said = self.run_command(*words, "2", given=b"y\n")
        self.assertEqual((0, "orders/0 low watermark 2\n"), (status, output))
        self.assertIn("it isn't known whether all groups have done them", said)

    def test_a_consume_that_ends_when_nothing_comes(self):
        self.broker()
        self.produce(b"x")
        self.assertEqual((0, "x\n", ""), self.run_command("consume", "--topic", "orders", "--timeout-ms", "300"))

    def test_a_consume_whose_output_is_closed_accepts_what_it_wrote(self):
        self.broker()
        self.produce(*(b"%d" % number for number in range(50)))
        words = [sys.executable, "-m", "sharebroker", "consume", "--bootstrap-server", self.servers, "--topic", "orders",
                 "--group", "g"]
        paths = {**os.environ, "PYTHONPATH": os.path.dirname(context.HERE)}
        with subprocess.Popen(words, env=paths, stdout=subprocess.PIPE, stderr=subprocess.PIPE) as process:
            lines = [process.stdout.readline() for _ in range(3)]
            process.stdout.close()
            self.assertEqual((0, b""), (process.wait(60), process.stderr.read()))
        self.assertEqual([b"0\n", b"1\n", b"2\n"], lines)
        # What was in the pipe by then counts as written. Of the others a few came, and are delivered again.
        start = self.state()[0][0]
        self.assertGreaterEqual(start, 3)
        full = os.open("/dev/full", os.O_WRONLY)
        done = subprocess.run(words, env=paths, stdout=full, stderr=subprocess.PIPE, timeout=60, check=False)
        os.close(full)
        self.assertEqual((1, b"sharebroker: standard output: No space left on device\n"), (done.returncode, done.stderr))
        self.assertEqual(start, self.state()[0][0])
        records = self.consumer().poll(5000)
        self.assertEqual(list(range(start, 50)), [record.offset for record in records])
        self.assertLessEqual(sum(record.delivery_count - 1 for record in records), start + 2)

    def test_failures(self):
        self.broker(workers=2)
        self.assertEqual((1, "", "sharebroker: the broker has no topic 'others'\n"),
                         self.run_command("produce", "--topic", "others", given=b"x\n"))
        self.assertEqual((1, "", "sharebroker: the broker has no topic 'others'\n"),
                         self.run_command("consume", "--topic", "others"))
        # Another connection has one of the two workers.
        with Producer(self.servers) as producer:
            producer.partitions_for("orders")
            status, _, said = self.run_command("consume", "--topic", "orders", "--timeout-ms", "500")
        self.assertEqual((1, True), (status, "didn't tell within 500 ms which partitions to read" in said))
        self.servers = "127.0.0.1:1"
        status, _, said = self.run_command("consume", "--topic", "orders", "--timeout-ms", "200")
        self.assertEqual((1, True), (status, "no connection to 127.0.0.1:1" in said))

    def test_words_that_make_no_sense(self):
        self.servers = "127.0.0.1:1"
        produce, consume = ("produce", "--topic", "t"), ("consume", "--topic", "t")
        for words in (("produce",), (*produce, "--batch-size", "60"), (*produce, "--linger-ms", "-1"),
                      (*consume, "--max-messages", "0"), (*consume, "--timeout-ms", "x"), (*consume, "--group", ""),
                      ("state", "--group", "x" * 256), ("state", "--group", "g", "--tls-key", "key.pem"),
                      ("delete-records", "--topic", "t", "--partition", "-1", "--before-offset", "0"),
                      ("delete-records", "--topic", "t", "--partition", "0", "--before-offset", "-2")):
            self.assertEqual((2, ""), self.run_command(*words)[:2])
        status, _, said = self.run_command(*produce, "--batch-size", "60")
        self.assertIn("--batch-size: it takes 61 to 1048588, and not 60", said)
        for self.servers in ("localhost", "localhost:", "localhost:0"):
            status, _, said = self.run_command(*consume)
            self.assertEqual((2, True), (status, f"{self.servers!r} isn't HOST:PORT" in said))
        self.servers = "127.0.0.1:1"
        status, _, said = self.run_command("state", "--group", "g", "--tls-ca", "/none")
        self.assertEqual((1, True), (status, said.startswith("sharebroker: TLS by /none: ")))

    def test_a_record_that_is_too_large(self):
        self.broker()
        limit = 1048588 - 61 - 11
        self.assertEqual((1, "orders/0 0\norders/0 1\n",
                          "sharebroker: line 3: the record is too large: alone in a batch it makes 1048589 bytes, and the "
                          "broker takes 1048588. It isn't sent, and no line behind it is\n"),
                         self.run_command("produce", "--topic", "orders", "--print-offsets",
                                          given=b"a\nb\n" + b"c" * (limit + 1) + b"\nd\n"))


class Package(unittest.TestCase):
    def test_a_wheel_has_the_package(self):
        folder = os.path.dirname(context.HERE)
        with tempfile.TemporaryDirectory() as built:
            build = f"import wheel_builder; print(wheel_builder.build_wheel({built!r}))"
            wheel = subprocess.run([sys.executable, "-B", "-c", build], cwd=folder, capture_output=True, check=True,
                                   text=True).stdout.strip()
            words = [sys.executable, "-m", "sharebroker", "--help"]
            told = subprocess.run(words, cwd=built, env={**os.environ, "PYTHONPATH": os.path.join(built, wheel)},
                                  capture_output=True, check=True, text=True).stdout
        self.assertEqual("sharebroker-1.0-py3-none-any.whl", wheel)
        self.assertIn("produce,consume,state,delete-records", told)


if __name__ == "__main__":
    unittest.main()
