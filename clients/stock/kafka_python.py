"""Stores each line of standard input as a record, with kafka-python: kafka_python.py HOST:PORT TOPIC"""

import sys

from kafka import KafkaProducer
from kafka.errors import KafkaError

producer = KafkaProducer(bootstrap_servers=sys.argv[1], acks="all", retries=20, max_in_flight_requests_per_connection=1)
sent = [(line, producer.send(sys.argv[2], line.rstrip(b"\n"))) for line in sys.stdin.buffer]
lost = []
for line, stored in sent:
    try:
        stored.get()
    except KafkaError as fault:
        lost.append(f"{line!r}: {fault}")
sys.exit("\n".join(lost) or 0)
