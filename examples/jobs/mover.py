"""Moves the jobs of `jobs-later` that have waited long enough to `jobs`, and ends: mover.py HOST:PORT SECONDS

Run it each SECONDS, by cron say. A job then waits for SECONDS at least, and for twice as long at most. One that hasn't
waited long enough is released, once: at the next run it has.
"""

import os
import sys
import time

# The client in this repository. Where it is installed this line isn't needed.
sys.path.insert(0, os.path.join(os.path.dirname(os.path.abspath(__file__)), "..", "..", "clients", "python"))

from sharebroker import AcknowledgeType, Producer, ShareConsumer  # noqa: E402


def move(consumer, producer, until_ms):
    """Moves the jobs that were stored by this moment. Gives how many."""
    moved = 0
    while True:
        records = consumer.poll(2000, max_records=100)
        due = [record for record in records if record.timestamp_ms <= until_ms]
        for stored in [producer.send("jobs", record.value, record.key) for record in due]:
            stored.result()
        for record in records:
            is_due = record in due
            consumer.acknowledge(record, AcknowledgeType.ACCEPT if is_due else AcknowledgeType.RELEASE)
        consumer.commit()
        moved += len(due)
        if not records or len(due) < len(records):
            return moved


def main():
    servers, until_ms = sys.argv[1], (time.time() - float(sys.argv[2])) * 1000
    with Producer(servers) as producer, \
            ShareConsumer(servers, "movers", share_acknowledgement_mode="explicit") as consumer:
        consumer.subscribe(["jobs-later"])
        print(f"{move(consumer, producer, until_ms)} jobs are moved")


if __name__ == "__main__":
    main()
