"""What the tests against the built broker have in common."""

import logging
import time
import unittest
from contextlib import contextmanager

from context import needs_program
from replay_broker import ReplayBroker
from serve_broker import ServeBroker
from sharebroker import Producer, ShareConsumer, share_group_state

ORDERS = "22222222-2222-2222-2222-222222222222"


@needs_program
class BrokerCase(unittest.TestCase):
    """Tests with a broker. What they open is closed behind them."""

    def broker(self, *topics, **settings):
        """The broker by its command `serve`, with these topics, or with one of one partition. Settings: lock_ms, limit,
        reset, workers."""
        return self._began(ServeBroker(*(topics or [f"orders:1:{ORDERS}"]), **settings))

    def scripted_broker(self, **settings):
        """A broker that does what the test says, by the command `replay`: locks end, disks fail, connections break."""
        return self._began(ReplayBroker(f"orders:1:{ORDERS}", **settings))

    def _began(self, broker):
        self.addCleanup(broker.close)
        self.servers = broker.servers
        return broker

    def producer(self, **settings):
        producer = Producer(self.servers, **settings)
        self.addCleanup(producer.close)
        return producer

    def consumer(self, mode="explicit", group="g", topics=("orders",), **settings):
        consumer = ShareConsumer(self.servers, group, share_acknowledgement_mode=mode, **settings)
        self.addCleanup(consumer.close)
        consumer.subscribe(list(topics))
        return consumer

    def joined(self, consumer):
        """Polls until the consumer has joined its group and a fetch was answered, which had no record."""
        self.wait_until(lambda: consumer.poll(50) == [] and consumer.acquisition_lock_timeout_ms is not None)

    def produce(self, *values, topic="orders", **words):
        """Stores records with these values, in one batch where they go to one partition, and gives where they are."""
        with Producer(self.servers, linger_ms=10) as producer:
            futures = [producer.send(topic, value, **words) for value in values]
            return [future.result(10) for future in futures]

    def state(self, group="g"):
        """What is stored of the group: for each partition the start, and the runs as (first, last, state, count)."""
        return [(part.start_offset, [(run.first_offset, run.last_offset, run.state.name.lower(), run.delivery_count)
                                     for run in part.runs])
                for part in share_group_state(self.servers, group)]

    @contextmanager
    def no_warnings(self):
        """Within it nothing is told in the log."""
        heard = []
        handler = logging.Handler(logging.WARNING)
        handler.emit = lambda record: heard.append(record.getMessage())
        logging.getLogger("sharebroker").addHandler(handler)
        try:
            yield
        finally:
            logging.getLogger("sharebroker").removeHandler(handler)
        self.assertEqual([], heard)

    def wait_until(self, holds, seconds=10):
        """Waits until something holds, which has to be soon."""
        end = time.monotonic() + seconds
        while not holds():
            self.assertLess(time.monotonic(), end, "it took too long")
            time.sleep(0.002)


def told(records):
    """Of each record its offset, its value and its delivery count."""
    return [(record.offset, record.value, record.delivery_count) for record in records]


def outcomes(acknowledgements):
    """Of each acknowledgement the offset, the outcome, and the code where there is one."""
    return [(entry.record.offset, entry.outcome.value) + ((entry.code,) if entry.code else ())
            for entry in acknowledgements]
