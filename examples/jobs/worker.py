"""A worker. It takes jobs one by one, and ends when as many as it was told to are done or given up.

A job that fails is given back, and comes again after a while: to this worker or another. One that failed TRIES times goes
to the topic `jobs-dead`. Where all fail, the worker takes no job until what they need works again.
"""

import argparse
import os
import random
import signal
import sys
import time

# The client in this repository. Where it is installed this line isn't needed.
sys.path.insert(0, os.path.join(os.path.dirname(os.path.abspath(__file__)), "..", "..", "clients", "python"))

from sharebroker import AcknowledgeType, Outcome, Producer, ShareBrokerError, ShareConsumer  # noqa: E402

#: How often a job is tried. The broker's `--limit` has to be higher, as it archives a job that was delivered so often.
TRIES = 3
#: How long a job stays locked after its first failure, in ms. After each further one it is twice as long.
BACKOFF_MS = 200
#: After so many failures in a row the breaker opens.
BREAKS_AT = 3


class Breaker:
    """Stops a worker whose jobs all fail, until what they need works."""

    def __init__(self):
        self._failures = 0

    def done(self):
        self._failures = 0

    def failed(self):
        self._failures += 1

    def wait(self, works):
        """Waits where it is open, and asks now and then: after half a second, and twice as long each time, up to five."""
        pause = 0.5
        while self._failures >= BREAKS_AT and not works():
            time.sleep(pause * random.uniform(0.8, 1.2))
            pause = min(2 * pause, 5)


def words():
    parser = argparse.ArgumentParser(description="Does jobs of the topic 'jobs'.")
    parser.add_argument("servers", metavar="HOST:PORT")
    parser.add_argument("name")
    parser.add_argument("--jobs", type=int, default=1, help="end after so many (default 1)")
    parser.add_argument("--outage", metavar="FILE", help="while there is this file, each job fails")
    parser.add_argument("--dies-at", type=int, metavar="JOB", help="is killed at this job")
    parser.add_argument("--hangs-at", type=int, metavar="JOB", help="stops at this job until it gets SIGCONT; NAME.pid"
                        " has its process id")
    parser.add_argument("--gives-back", type=int, metavar="JOB", help="releases this job, and ends")
    return parser.parse_args()


def works(told):
    """Whether what all jobs need is there, as a database that answers."""
    return not (told.outage and os.path.exists(told.outage))


def do(told, record):
    """Does a job, and gives its result."""
    if record.offset == told.gives_back:
        raise RuntimeError("not for me")
    if not works(told):
        raise RuntimeError("nothing works just now")
    left, _, right = record.value.decode().partition(" / ")
    return int(left) // int(right)


def stumble(told, record):
    """What goes wrong with this worker, where it was told to."""
    if record.offset == told.dies_at:
        print(f"{told.name}: job {record.offset} kills me", flush=True)
        os.kill(os.getpid(), signal.SIGKILL)
    if record.offset == told.hangs_at:
        with open(f"{told.name}.pid", "w", encoding="ascii") as file:
            file.write(str(os.getpid()))
        print(f"{told.name}: job {record.offset} takes so long ..", flush=True)
        os.kill(os.getpid(), signal.SIGSTOP)


def bury(told, record):
    """Keeps a job that failed too often, for somebody to look at."""
    with Producer(told.servers, linger_ms=0) as producer:
        producer.send("jobs-dead", record.value, record.key, [("offset", b"%d" % record.offset)]).result()
    print(f"{told.name}: job {record.offset} goes to jobs-dead")


def later(consumer, record):
    """Gives a job back: it comes again when the delay is over, which has to be within its lock."""
    delay_ms = min(BACKOFF_MS * 2 ** (record.delivery_count - 1), consumer.acquisition_lock_timeout_ms / 2)
    consumer.acknowledge(record, AcknowledgeType.RELEASE, delay_ms=delay_ms)


def try_job(told, consumer, record, breaker):
    """Does a job, or gives it back. It is True where the job is done or given up."""
    says = f"{told.name}: job {record.offset}, delivery {record.delivery_count}: {record.value.decode()}"
    try:
        print(f"{says} = {do(told, record)}")
        breaker.done()
    except (ArithmeticError, ValueError, RuntimeError) as fault:
        print(f"{says} failed: {fault}")
        breaker.failed()
        if record.delivery_count < TRIES or not works(told):
            later(consumer, record)
            return record.offset == told.gives_back
        try:
            bury(told, record)
        except ShareBrokerError as away:
            print(f"{told.name}: job {record.offset} doesn't go to jobs-dead yet: {away}")
            later(consumer, record)
            return False
    consumer.acknowledge(record, AcknowledgeType.ACCEPT)
    return True


def work(told, consumer):
    ended, breaker = 0, Breaker()
    while ended < told.jobs:
        breaker.wait(lambda: works(told))
        for record in consumer.poll(max_records=1):
            stumble(told, record)
            ended += try_job(told, consumer, record, breaker)
            for result in consumer.commit():
                if result.outcome is Outcome.LOST:
                    print(f"{told.name}: too late, the lock on job {result.record.offset} had ended")


def main():
    told = words()
    with ShareConsumer(told.servers, "workers", share_acknowledgement_mode="explicit") as consumer:
        consumer.subscribe(["jobs"])
        work(told, consumer)


if __name__ == "__main__":
    main()
