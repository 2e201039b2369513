"""Puts jobs into the queue, a division for each divisor: produce.py HOST:PORT DIVISOR.."""

import os
import sys

# The client in this repository. Where it is installed this line isn't needed.
sys.path.insert(0, os.path.join(os.path.dirname(os.path.abspath(__file__)), "..", "..", "clients", "python"))

from sharebroker import Producer  # noqa: E402

with Producer(sys.argv[1]) as producer:
    stored = [producer.send("jobs", f"60 / {divisor}".encode()) for divisor in sys.argv[2:]]
print(f"{len([job.result() for job in stored])} jobs are stored")
