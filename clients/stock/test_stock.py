"""Each worked producer of this folder, against the built broker over loopback, where its client is installed.

A thousand records are stored, and read by the client in Python: each once, or at least once where the broker is killed
amid them and started two seconds later. SHAREBROKER names another program than the one in crates/sharebroker/out.
"""

import fcntl
import glob
import os
import shutil
import socket
import subprocess
import sys
import tempfile
import termios
import time
import unittest

HERE = os.path.dirname(os.path.abspath(__file__))
sys.path.insert(0, os.path.join(HERE, "..", "python", "tests"))

from context import needs_program  # noqa: E402
from serve_broker import ServeBroker  # noqa: E402
from sharebroker import ShareConsumer  # noqa: E402

TOPIC = "jobs:2:6ba7b810-9dad-11d1-80b4-00c04fd430c8"
VALUES = [b"resize picture %d" % number for number in range(1000)]
#: How many of them are sent before the broker is killed, and how many when it is started again.
BEFORE, DURING = 300, 600
#: Where Debian has the sources of libraries in Go.
GO_PATH = "/usr/share/gocode"
#: How long anything is waited for, in seconds.
PATIENCE = 120


def within(holds, what):
    """Waits until something holds."""
    end = time.monotonic() + PATIENCE
    while not holds():
        if time.monotonic() > end:
            raise AssertionError(f"{what}: not within {PATIENCE} s")
        time.sleep(0.01)


def needs(*programs):
    """Skips a test where one of these isn't installed."""
    for program in programs:
        if shutil.which(program) is None:
            raise unittest.SkipTest(f"{program} isn't installed")


def python_with(package):
    """A Python that has a package: the one that runs this, or the system's."""
    for python in (sys.executable, "/usr/bin/python3"):
        tried = [python, "-c", f"import {package}"]
        if os.access(python, os.X_OK) and subprocess.run(tried, capture_output=True, check=False).returncode == 0:
            return python
    raise unittest.SkipTest(f"Python's package {package} isn't installed")


def built_by_go(folder, source, *libraries):
    """The program of a producer in Go, by the first of these libraries that is installed."""
    needs("go")
    found = [name for name in libraries if os.path.isdir(os.path.join(GO_PATH, "src", "github.com", name))]
    if not found:
        raise unittest.SkipTest(f"Go's library {libraries[0]} isn't installed")
    copy, program = os.path.join(folder, source), os.path.join(folder, "producer")
    with open(os.path.join(HERE, source), encoding="utf-8") as file, open(copy, "w", encoding="utf-8") as to:
        to.write(file.read().replace(libraries[0], found[0]))
    done = subprocess.run(["go", "build", "-o", program, copy], capture_output=True, text=True, check=False,
                          env={**os.environ, "GO111MODULE": "off", "GOPATH": GO_PATH})
    if "undefined: kafka." in done.stderr:
        raise unittest.SkipTest("kafka-go is older than 0.4, which writes record batches")
    if done.returncode:
        raise AssertionError(done.stderr)
    return program


def value_of(record):
    """A record's value; of a log line with what rsyslog and syslog-ng put around it taken away."""
    return record.value.rstrip(b"\n").replace(b"resize: ", b"resize ")


class Program:
    """A producer that stores the lines of its standard input, and ends with status 0 where all are stored."""

    def __init__(self, test, *words):
        self._process = subprocess.Popen([*words, test.broker.servers, "jobs"], stdin=subprocess.PIPE,
                                         stderr=test.errors)
        test.addCleanup(self._process.wait)
        test.addCleanup(self._process.kill)
        test.addCleanup(self._process.stdin.close)

    def feed(self, values):
        self._process.stdin.write(b"".join(value + b"\n" for value in values))
        self._process.stdin.flush()

    def end(self, _are_read):
        """Ends it by the end of its input, when it has stored all."""
        self._process.stdin.close()
        return self._process.wait(PATIENCE)


class Daemon:
    """A producer that stores the log lines that come by a socket, for as long as it runs."""

    def __init__(self, test, *words):
        names = {"BROKER": test.broker.servers, "TOPIC": "jobs", "FOLDER": test.folder}
        self._process = subprocess.Popen(words, env={**os.environ, **names}, stdin=subprocess.DEVNULL,
                                         stdout=test.errors, stderr=test.errors)
        test.addCleanup(self._process.wait)
        test.addCleanup(self._process.kill)
        path = os.path.join(test.folder, "log")
        within(lambda: os.path.exists(path), "the socket of the daemon")
        self._socket = socket.socket(socket.AF_UNIX, socket.SOCK_DGRAM)
        test.addCleanup(self._socket.close)
        self._socket.connect(path)

    def feed(self, values):
        for value in values:
            self._socket.send(b"<13>Dec 17 10:00:00 resize: picture " + value.split()[-1])
        within(lambda: fcntl.ioctl(self._socket, termios.TIOCOUTQ, bytes(4)) == bytes(4), "that all lines are taken")

    def end(self, are_read=lambda: None):
        """Ends it when all that it was sent has been read."""
        are_read()
        self._process.terminate()
        return self._process.wait(PATIENCE)


class Stock:
    """What each producer has to do: `begin` begins it, and is skipped where its client isn't installed."""

    def setUp(self):
        folder = tempfile.TemporaryDirectory()
        self.addCleanup(folder.cleanup)
        self.folder = folder.name
        self.errors = open(os.path.join(self.folder, "errors"), "w+b")
        self.addCleanup(self.errors.close)
        self.begin = self.ready()
        self.broker = ServeBroker(TOPIC, others=("--versions", "wide"))
        self.addCleanup(self.broker.close)

    def stored(self):
        """Whether the broker has a record."""
        logs = glob.glob(os.path.join(self.broker.folder, "data", "jobs", "*", "log"))
        return any(os.path.getsize(log) > 1 for log in logs)

    def read(self, producer):
        """Reads until all values have come and the producer has ended, and gives them as they came."""
        values = []
        with ShareConsumer(self.broker.servers, "testers") as consumer:
            consumer.subscribe(["jobs"])

            def are_read():
                values.extend(value_of(record) for record in consumer.poll(100))
                return set(VALUES) <= set(values)

            try:
                status = producer.end(lambda: within(are_read, "all records"))
                within(are_read, "all records")
            except AssertionError as fault:
                self.errors.seek(0)
                self.fail(f"{fault}; {len(set(values))} are read; {self.errors.read().decode()}")
            self.assertEqual(0, status)
            return values + [value_of(record) for record in consumer.poll(500)]

    def test_each_record_is_stored_once(self):
        producer = self.begin()
        producer.feed(VALUES)
        self.assertEqual(sorted(VALUES), sorted(self.read(producer)))

    def test_each_record_is_stored_though_the_broker_is_killed(self):
        producer = self.begin()
        producer.feed(VALUES[:BEFORE])
        within(self.stored, "the first record")
        self.broker.kill()
        producer.feed(VALUES[BEFORE:DURING])
        time.sleep(2)
        self.broker.start()
        producer.feed(VALUES[DURING:])
        self.assertEqual(set(VALUES), set(self.read(producer)))


@needs_program
class Kcat(Stock, unittest.TestCase):
    def ready(self):
        needs("kcat")
        return lambda: Program(self, os.path.join(HERE, "kcat"))


@needs_program
class ConfluentKafka(Stock, unittest.TestCase):
    def ready(self):
        python = python_with("confluent_kafka")
        return lambda: Program(self, python, os.path.join(HERE, "confluent.py"))


@needs_program
class KafkaPython(Stock, unittest.TestCase):
    def ready(self):
        python = python_with("kafka")
        return lambda: Program(self, python, os.path.join(HERE, "kafka_python.py"))


@needs_program
class Sarama(Stock, unittest.TestCase):
    def ready(self):
        program = built_by_go(self.folder, "sarama.go", "IBM/sarama", "Shopify/sarama")
        return lambda: Program(self, program)


@needs_program
class KafkaGo(Stock, unittest.TestCase):
    def ready(self):
        program = built_by_go(self.folder, "kafka_go.go", "segmentio/kafka-go")
        return lambda: Program(self, program)


@needs_program
class Rsyslog(Stock, unittest.TestCase):
    def ready(self):
        needs("rsyslogd")
        if not glob.glob("/usr/lib/*/rsyslog/omkafka.so"):
            self.skipTest("rsyslog-kafka isn't installed")
        config, pid = os.path.join(HERE, "rsyslog.conf"), os.path.join(self.folder, "pid")
        return lambda: Daemon(self, "rsyslogd", "-n", "-f", config, "-i", pid)

    def test_lines_are_stored_though_it_ends_while_the_broker_is_away(self):
        self.broker.kill()
        producer = self.begin()
        producer.feed(VALUES[:DURING])
        self.assertEqual(0, producer.end())
        self.broker.start()
        producer = self.begin()
        producer.feed(VALUES[DURING:])
        self.assertEqual(set(VALUES), set(self.read(producer)))


@needs_program
class SyslogNg(Stock, unittest.TestCase):
    def ready(self):
        needs("syslog-ng")
        if "kafka" not in subprocess.run(["syslog-ng", "-V"], capture_output=True, text=True, check=True).stdout:
            self.skipTest("syslog-ng-mod-rdkafka isn't installed")
        words = ["-f", os.path.join(HERE, "syslog-ng.conf")]
        for option, name in (("-R", "persist"), ("-p", "pid"), ("-c", "control")):
            words += [option, os.path.join(self.folder, name)]
        return lambda: Daemon(self, "syslog-ng", "-F", *words)


if __name__ == "__main__":
    unittest.main()
