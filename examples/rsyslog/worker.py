"""Looks at log lines, each of which one worker gets, until there are no more: worker.py HOST:PORT NAME"""

import os
import sys

# The client in this repository. Where it is installed this line isn't needed.
sys.path.insert(0, os.path.join(os.path.dirname(os.path.abspath(__file__)), "..", "..", "clients", "python"))

from sharebroker import ShareConsumer  # noqa: E402

with ShareConsumer(sys.argv[1], "watchers") as consumer:
    consumer.subscribe(["lines"])
    while records := consumer.poll(5000, max_records=1):
        print(f"{sys.argv[2]}: {records[0].value.decode().rstrip()}", flush=True)
        consumer.commit()
