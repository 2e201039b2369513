"""Stores each line of standard input as a record, with confluent-kafka: confluent.py HOST:PORT TOPIC"""

import sys

from confluent_kafka import Producer

lost = []


def told(error, message):
    if error:
        lost.append(f"{message.value()}: {error}")


producer = Producer({"bootstrap.servers": sys.argv[1], "acks": "all", "enable.idempotence": False,
                     "compression.type": "none", "message.timeout.ms": 0, "partitioner": "murmur2_random"})
for line in sys.stdin.buffer:
    while len(producer) > 10000:
        producer.poll(1)
    producer.produce(sys.argv[2], line.rstrip(b"\n"), on_delivery=told)
    producer.poll(0)
producer.flush()
sys.exit("\n".join(lost) or 0)
