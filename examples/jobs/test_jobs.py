"""The job queue of README.md with locks of a second, on the built broker over loopback; and the broker is killed."""

import os
import signal
import subprocess
import sys
import tempfile
import time
import unittest

HERE = os.path.dirname(os.path.abspath(__file__))
TESTS = os.path.join(HERE, "..", "..", "clients", "python", "tests")
sys.path.insert(0, TESTS)

from context import PROGRAM, needs_program  # noqa: E402
from serve_broker import ServeBroker  # noqa: E402
from sharebroker import DeletedRecords, DeliveryState, Producer, ShareConsumer, StoredRun  # noqa: E402
from sharebroker import delete_records, share_group_state  # noqa: E402

TOPIC = "jobs:1:6ba7b810-9dad-11d1-80b4-00c04fd430c8"
DEAD = "jobs-dead:1:7d444840-9dc0-11d1-b245-5ffdce74fad2"
LATER = "jobs-later:1:9d444840-9dc0-11d1-b245-5ffdce74fad2"


@needs_program
class Jobs(unittest.TestCase):
    def setUp(self):
        self.broker = ServeBroker(TOPIC, DEAD, LATER, lock_ms=1000, limit=5)
        self.addCleanup(self.broker.close)
        self.folder = tempfile.TemporaryDirectory()
        self.addCleanup(self.folder.cleanup)

    def begin(self, script, *words):
        process = subprocess.Popen([sys.executable, "-Bu", os.path.join(HERE, script), self.broker.servers, *words],
                                   cwd=self.folder.name, stdout=subprocess.PIPE, stderr=subprocess.DEVNULL, text=True)
        self.addCleanup(process.stdout.close)
        self.addCleanup(process.wait)
        self.addCleanup(process.kill)
        return process

    def lines(self, script, *words, status=0):
        """Runs a script to its end, and gives what it printed, without the worker's name."""
        process = self.begin(script, *words)
        printed, _ = process.communicate(timeout=60)
        self.assertEqual(status, process.returncode)
        return [line.split(": ", 1)[-1] for line in printed.splitlines()]

    def dump(self):
        return subprocess.run([PROGRAM, "dump-state", "--dir", os.path.join(self.broker.folder, "data"), TOPIC],
                              capture_output=True, check=True, text=True).stdout.splitlines()

    def dead(self):
        """The values of the jobs that were given up."""
        with ShareConsumer(self.broker.servers, "lookers") as consumer:
            consumer.subscribe(["jobs-dead"])
            return [record.value for record in consumer.poll(10000)]

    def wait_for_run(self, run):
        """Waits until this run of records is stored of the group."""
        end = time.monotonic() + 20
        while run not in share_group_state(self.broker.servers, "workers")[0].runs:
            self.assertLess(time.monotonic(), end, "it took too long")
            time.sleep(0.02)

    def test_each_job_is_done_or_given_up(self):
        self.assertEqual(["4 jobs are stored"], self.lines("produce.py", "1", "2", "0", "3"))
        self.assertEqual(["job 0, delivery 1: 60 / 1 = 60"], self.lines("worker.py", "anna"))
        # One hangs. Its job goes to another when its lock ends, and it is told that it came too late.
        hanging = self.begin("worker.py", "dora", "--hangs-at", "1")
        self.assertEqual("dora: job 1 takes so long ..\n", hanging.stdout.readline())
        self.wait_for_run(StoredRun(1, 1, DeliveryState.AVAILABLE, 1))
        self.assertEqual(["job 1, delivery 2: 60 / 2 = 30"], self.lines("worker.py", "emil"))
        hanging.send_signal(signal.SIGCONT)
        self.assertEqual("dora: job 1, delivery 1: 60 / 2 = 30\ndora: too late, the lock on job 1 had ended\n",
                         hanging.communicate(timeout=60)[0])
        # The job that nobody can do comes again later, and goes to the other topic at its third failure.
        failed = [f"job 2, delivery {count}: 60 / 0 failed: integer division or modulo by zero" for count in (1, 2, 3)]
        self.assertEqual([failed[0], "job 3, delivery 1: 60 / 3 = 20", *failed[1:], "job 2 goes to jobs-dead"],
                         self.lines("worker.py", "fritz", "--jobs", "2"))
        self.assertEqual([b"60 / 0"], self.dead())
        # One is killed at work, and the next one gets the job at once.
        self.assertEqual(["1 jobs are stored"], self.lines("produce.py", "4"))
        self.assertEqual(["job 4 kills me"], self.lines("worker.py", "bert", "--dies-at", "4", status=-9))
        self.assertEqual(["job 4, delivery 2: 60 / 4 = 15"], self.lines("worker.py", "carl"))
        # What is done is deleted, and the table stays as it is.
        self.assertEqual([DeletedRecords("jobs", 0, 5, None)], delete_records(self.broker.servers, {("jobs", 0): 5}))
        self.broker.kill()
        self.assertEqual(["table 776f726b657273 jobs/0 start 5 complete 0", "end"], self.dump())

    def test_jobs_outlive_an_outage(self):
        self.assertEqual(["6 jobs are stored"], self.lines("produce.py", "1", "2", "3", "4", "5", "6"))
        outage = os.path.join(self.folder.name, "outage")
        with open(outage, "wb"):
            workers = [self.begin("worker.py", name, "--jobs", "3", "--outage", outage) for name in ("anna", "emil")]
            lines = [worker.stdout.readline() for worker in workers]
            time.sleep(1.5)
        os.unlink(outage)
        for worker in workers:
            lines += worker.communicate(timeout=60)[0].splitlines()
        # Each worker tried a few before it stopped, and no job was given up.
        self.assertEqual(6, sum(" = " in line for line in lines))
        self.assertIn(sum(" failed: nothing works" in line for line in lines), range(2, 13))
        self.assertEqual([], [line for line in lines if "jobs-dead" in line])
        self.assertEqual(6, share_group_state(self.broker.servers, "workers", ["jobs"])[0].start_offset)

    def test_jobs_that_wait_for_longer_than_a_lock(self):
        with Producer(self.broker.servers) as producer:
            then, now = int(time.time() - 3600) * 1000, int(time.time()) * 1000
            for timestamp_ms, value in ((then, b"60 / 1"), (then, b"60 / 2"), (now, b"60 / 3")):
                producer.send("jobs-later", value, timestamp_ms=timestamp_ms).result(10)
        self.assertEqual(["2 jobs are moved"], self.lines("mover.py", "1800"))
        self.assertEqual(["0 jobs are moved"], self.lines("mover.py", "1800"))
        self.assertEqual(["1 jobs are moved"], self.lines("mover.py", "0"))
        self.assertEqual([f"job {job}, delivery 1: 60 / {job + 1} = {60 // (job + 1)}" for job in range(3)],
                         self.lines("worker.py", "anna", "--jobs", "3"))

    def test_jobs_outlive_the_broker(self):
        self.assertEqual(["3 jobs are stored"], self.lines("produce.py", "1", "2", "3"))
        self.assertEqual(["job 0, delivery 1: 60 / 1 = 60"], self.lines("worker.py", "anna"))
        self.assertEqual(["job 1, delivery 1: 60 / 2 failed: not for me"],
                         self.lines("worker.py", "gina", "--gives-back", "1"))
        self.broker.kill()
        self.assertEqual(["table 776f726b657273 jobs/0 start 1 complete 0", "run 1 1 available 1", "end"], self.dump())
        self.broker.start()
        self.assertEqual(["job 1, delivery 2: 60 / 2 = 30", "job 2, delivery 1: 60 / 3 = 20"],
                         self.lines("worker.py", "emil", "--jobs", "2"))


if __name__ == "__main__":
    unittest.main()
