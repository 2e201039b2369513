"""The share consumer, against the built broker."""

import threading
import time
import unittest

import context  # noqa: F401
from broker_case import ORDERS, BrokerCase, outcomes, told
from sharebroker import (AcknowledgeType, Closed, ConcurrentUse, ConsumerRecord, NotInHand, NotSubscribed, Refused,
                         ShareConsumer, Unacknowledged, UnknownTopic, WrongMode)
from sharebroker.connection import Connection, parse_addresses
from sharebroker.share_messages import SHARE_GROUP_HEARTBEAT, ShareGroupHeartbeatRequest

ACCEPT, RELEASE, REJECT = AcknowledgeType.ACCEPT, AcknowledgeType.RELEASE, AcknowledgeType.REJECT


class Working(BrokerCase):
    def test_implicit_mode_accepts_by_the_next_poll(self):
        self.broker()
        self.produce(b"a", b"b", b"c")
        consumer = self.consumer("implicit")
        self.assertEqual([(0, b"a", 1), (1, b"b", 1), (2, b"c", 1)], told(consumer.poll(5000)))
        self.assertEqual([(0, [])], self.state())
        self.assertEqual([], consumer.poll(50))
        self.assertEqual([(3, [])], self.state())

    def test_implicit_mode_accepts_by_commit(self):
        self.broker()
        self.produce(b"a", b"b")
        consumer = self.consumer("implicit")
        consumer.poll(5000)
        self.assertEqual([(0, "stored"), (1, "stored")], outcomes(consumer.commit()))
        self.assertEqual([], consumer.commit())
        self.assertEqual([(2, [])], self.state())

    def test_closing_accepts_nothing_by_itself(self):
        self.broker()
        self.produce(b"a", b"b")
        with self.consumer("implicit") as consumer:
            consumer.poll(5000)
        self.assertEqual([(0, [(0, 1, "available", 1)])], self.state())
        self.assertEqual([(0, b"a", 2), (1, b"b", 2)], told(self.consumer().poll(5000)))

    def test_each_kind_of_acknowledgement(self):
        self.broker()
        self.produce(b"a", b"b", b"c")
        consumer = self.consumer()
        first, second, third = consumer.poll(5000)
        consumer.acknowledge(first)
        consumer.acknowledge(second, RELEASE)
        consumer.acknowledge(third, REJECT)
        self.assertEqual([(0, "stored"), (1, "stored"), (2, "stored")], outcomes(consumer.commit()))
        self.assertEqual([(1, [(1, 1, "available", 1), (2, 2, "archived", 1)])], self.state())
        again = consumer.poll(5000)
        self.assertEqual([(1, b"b", 2)], told(again))
        consumer.acknowledge(again[0], ACCEPT)
        self.assertEqual([], consumer.poll(50))
        self.assertEqual([(3, [])], self.state())

    def test_a_record_is_archived_at_the_delivery_limit(self):
        self.broker(limit=2)
        self.produce(b"poison")
        consumer = self.consumer()
        for count in (1, 2):
            record, = consumer.poll(5000)
            self.assertEqual(count, record.delivery_count)
            consumer.acknowledge(record, RELEASE)
            consumer.commit()
        self.assertEqual([], consumer.poll(50))
        self.assertEqual([(1, [])], self.state())

    def test_two_consumers_share_a_partition(self):
        self.broker()
        self.produce(*(b"%d" % number for number in range(6)))
        one, other = self.consumer(), self.consumer()
        first = one.poll(5000, max_records=2)
        second = other.poll(5000)
        self.assertEqual([0, 1], [record.offset for record in first])
        self.assertEqual([2, 3, 4, 5], [record.offset for record in second])
        for record in first:
            one.acknowledge(record)
        for record in second:
            other.acknowledge(record)
        self.assertEqual(4, len(other.commit()))
        self.assertEqual([(0, [(2, 5, "acknowledged", 1)])], self.state())
        one.commit()
        self.assertEqual([(6, [])], self.state())

    def test_two_consumers_at_once_do_each_record_once(self):
        self.broker(f"orders:2:{ORDERS}")
        for number in range(40):
            self.produce(b"%d" % number, partition=number % 2)
        done = []

        def work():
            with ShareConsumer(self.servers, "g", max_poll_records=3) as consumer:
                consumer.subscribe(["orders"])
                records = consumer.poll(5000)
                while records:
                    done.extend((record.partition, record.offset) for record in records)
                    records = consumer.poll(500)

        workers = [threading.Thread(target=work) for _ in range(2)]
        for worker in workers:
            worker.start()
        for worker in workers:
            worker.join()
        self.assertEqual([(part, offset) for part in range(2) for offset in range(20)], sorted(done))

    def test_records_of_several_topics_and_partitions(self):
        self.broker(f"orders:2:{ORDERS}", "a:1:33333333-3333-3333-3333-333333333333")
        self.produce(b"0", partition=0)
        self.produce(b"1", partition=1)
        self.produce(b"2", topic="a")
        consumer = self.consumer(topics=["orders", "a"])
        found = []
        while len(found) < 3:
            records = consumer.poll(5000)
            for record in records:
                consumer.acknowledge(record)
            found += [(record.topic, record.partition, record.value) for record in records]
        self.assertEqual([("a", 0, b"2"), ("orders", 0, b"0"), ("orders", 1, b"1")], sorted(found))
        self.assertEqual({"stored"}, {outcome for _, outcome in outcomes(consumer.commit())})

    def test_another_subscription(self):
        self.broker(f"orders:1:{ORDERS}", "a:1:33333333-3333-3333-3333-333333333333")
        self.produce(b"0")
        self.produce(b"1", topic="a")
        consumer = self.consumer()
        first = consumer.poll(5000)
        consumer.subscribe(["a"])
        self.produce(b"2")
        self.assertEqual({"a"}, consumer.subscription())
        consumer.acknowledge(first[0])
        second = consumer.poll(5000)
        self.assertEqual([("orders", b"0"), ("a", b"1")], [(r.topic, r.value) for r in first + second])
        self.assertEqual((1, []), self.state()[0])
        # The acknowledgement of a partition that the session has left.
        consumer.subscribe(["orders"])
        consumer.acknowledge(second[0])
        self.assertEqual([(1, b"2", 1)], told(consumer.poll(5000)))
        self.assertEqual([(1, []), (1, [])], self.state())

    def test_nothing_subscribed_and_an_unknown_topic(self):
        self.broker()
        with self.assertLogs("sharebroker", "WARNING") as logs:
            consumer = self.consumer(topics=["others"])
            self.wait_until(lambda: consumer.poll(50) == [] and logs.output)
        self.assertIn("'others'", logs.output[0])
        with self.assertRaises(UnknownTopic):
            consumer.partitions_for("others")
        self.assertEqual((1, set()), (consumer.partitions_for("orders"), consumer.assignment()))
        consumer.subscribe([])
        with self.assertRaises(NotSubscribed):
            consumer.poll(50)
        consumer.subscribe(["orders"])
        self.assertEqual({("orders", 0)}, consumer.assignment(5000))

    def test_empty_fetches_pause_longer_and_longer(self):
        broker = self.scripted_broker()
        consumer = self.consumer()
        self.joined(consumer)
        fetches = []
        request = broker._request
        broker._request = lambda number, frame: (fetches.append(frame[5]), request(number, frame))
        self.assertEqual([], consumer.poll(600))
        self.assertIn(fetches.count(78), range(2, 10))
        self.produce(b"a")
        self.assertEqual([(0, b"a", 1)], told(consumer.poll(5000)))

    def test_a_consumer_has_two_connections_to_where_the_broker_says(self):
        broker = self.scripted_broker()
        consumer = self.consumer()
        self.joined(consumer)
        self.assertEqual(2, broker.connections())
        self.assertEqual([("localhost", broker.port)] * 2,
                         [link.current().address for link in (consumer._link, consumer._member._link)])
        consumer.close()
        self.wait_until(lambda: broker.connections() == 0)

    def test_how_long_a_lock_is(self):
        self.broker(lock_ms=12345)
        consumer = self.consumer()
        self.assertIsNone(consumer.acquisition_lock_timeout_ms)
        self.joined(consumer)
        self.assertEqual(12345, consumer.acquisition_lock_timeout_ms)


class Losing(BrokerCase):
    def test_a_lock_that_ended_is_told_as_lost(self):
        broker = self.scripted_broker()
        self.produce(b"a", b"b")
        consumer = self.consumer()
        records = consumer.poll(5000)
        broker.advance(30000)
        broker.expire("orders", 0)
        for record in records:
            consumer.acknowledge(record)
        self.assertEqual([(0, "lost"), (1, "lost")], outcomes(consumer.commit()))
        self.assertEqual([(0, b"a", 2), (1, b"b", 2)], told(consumer.poll(5000)))

    def test_a_lock_that_ended_before_the_next_poll(self):
        broker = self.scripted_broker()
        self.produce(b"a")
        consumer = self.consumer("implicit")
        heard = []
        consumer.set_acknowledgement_commit_callback(heard.extend)
        consumer.poll(5000)
        broker.advance(30000)
        broker.expire("orders", 0)
        self.assertEqual([(0, b"a", 2)], told(consumer.poll(5000)))
        self.assertEqual([(0, "lost")], outcomes(heard))
        consumer.set_acknowledgement_commit_callback(None)
        broker.advance(30000)
        broker.expire("orders", 0)
        with self.assertLogs("sharebroker", "WARNING") as logs:
            self.assertEqual([(0, b"a", 3)], told(consumer.poll(5000)))
        self.assertIn("1 records were lost to ended locks", logs.output[0])

    def test_a_lost_connection_loses_what_is_in_hand(self):
        broker = self.scripted_broker()
        self.produce(b"a", b"b")
        consumer = self.consumer()
        first, second = consumer.poll(5000)
        broker.drop_connections()
        consumer.acknowledge(first)
        consumer.acknowledge(second)
        with self.no_warnings():
            self.assertEqual([(0, "lost"), (1, "lost")], outcomes(consumer.commit()))
            self.assertEqual([(0, b"a", 2), (1, b"b", 2)], told(consumer.poll(5000)))

    def test_nothing_is_acknowledged_on_another_connection(self):
        broker = self.scripted_broker()
        self.produce(b"a")
        consumer = self.consumer("implicit")
        consumer.poll(5000)
        # As where a poll was interrupted.
        consumer._link.current().close()
        self.wait_until(lambda: broker.connections() == 1)
        with self.assertLogs("sharebroker", "WARNING") as logs:
            self.assertEqual([(0, b"a", 2)], told(consumer.poll(5000)))
        self.assertEqual(1, len(logs.output))
        self.assertIn("1 records were lost", logs.output[0])

    def test_an_acknowledgement_that_is_not_answered_is_unknown(self):
        broker = self.scripted_broker()
        self.produce(b"a")
        consumer = self.consumer()
        consumer.acknowledge(consumer.poll(5000)[0])
        with self.assertLogs("sharebroker", "WARNING"), broker.steps_held():
            threading.Timer(0.2, broker.drop_connections).start()
            self.assertEqual([(0, "unknown")], outcomes(consumer.commit()))

    def test_a_power_loss_keeps_what_was_acknowledged(self):
        broker = self.scripted_broker()
        self.produce(b"a", b"b")
        consumer = self.consumer()
        first, second = consumer.poll(5000)
        consumer.acknowledge(first)
        consumer.commit()
        broker.power(0)
        consumer.acknowledge(second)
        self.assertEqual([(1, "lost")], outcomes(consumer.commit()))
        # Nothing was stored of the second one's delivery.
        self.assertEqual([(1, b"b", 1)], told(consumer.poll(5000)))

    def test_a_member_that_was_forgotten_joins_again(self):
        broker = self.scripted_broker()
        consumer = self.consumer()
        self.joined(consumer)
        broker.advance(45000)
        broker.tick()
        consumer.subscribe(["orders"])
        self.produce(b"a")
        self.assertEqual([(0, b"a", 1)], told(consumer.poll(5000)))

    def test_acknowledgements_that_were_not_stored_are_sent_again(self):
        broker = self.scripted_broker()
        self.produce(b"a", b"b")
        consumer = self.consumer(retry_backoff_ms=1)
        for record in consumer.poll(5000):
            consumer.acknowledge(record)
        broker.arm("orders/0/state-a", 0, "once")
        with self.assertLogs("sharebroker", "WARNING"):
            self.assertEqual([(0, "stored"), (1, "stored")], outcomes(consumer.commit()))

    def test_a_disk_that_stays_broken(self):
        broker = self.scripted_broker()
        self.produce(b"a")
        consumer = self.consumer(retry_backoff_ms=1)
        consumer.acknowledge(consumer.poll(5000)[0])
        broker.arm("orders/0/state-a", 0, "dead")
        with self.assertLogs("sharebroker", "WARNING"):
            self.assertEqual([(0, "refused", 56)], outcomes(consumer.commit(timeout_ms=50)))
            broker.power(0)
            consumer.close()


class Delaying(BrokerCase):
    def test_a_release_with_a_delay_keeps_the_record_locked(self):
        self.broker()
        self.produce(b"a", b"b", b"c")
        consumer, other = self.consumer(), self.consumer()
        first, = consumer.poll(5000, max_records=1)
        began = time.monotonic()
        consumer.acknowledge(first, RELEASE, delay_ms=700)
        # Meanwhile the acknowledgements of other polls go out, and nobody gets the record.
        second, = consumer.poll(5000, max_records=1)
        consumer.acknowledge(second)
        self.assertEqual([(1, "stored")], outcomes(consumer.commit()))
        self.assertEqual([(2, b"c", 1)], told(other.poll(5000)))
        self.assertEqual([(0, b"a", 2)], told(consumer.poll(5000)))
        self.assertGreater(time.monotonic() - began, 0.69)

    def test_a_commit_tells_a_delayed_release_when_it_is_sent(self):
        self.broker()
        self.produce(b"a")
        consumer = self.consumer()
        record, = consumer.poll(5000)
        consumer.acknowledge(record, RELEASE, delay_ms=200)
        self.assertEqual([], consumer.commit())
        time.sleep(0.25)
        self.assertEqual([(0, "stored")], outcomes(consumer.commit()))
        with self.assertRaises(NotInHand):
            consumer.acknowledge(record)

    def test_another_choice_before_a_delayed_release_is_sent(self):
        self.broker()
        self.produce(b"a", b"b")
        consumer = self.consumer()
        record, = consumer.poll(5000, max_records=1)
        consumer.acknowledge(record, RELEASE, delay_ms=20000)
        other, = consumer.poll(5000)
        consumer.acknowledge(record, ACCEPT)
        consumer.acknowledge(other)
        self.assertEqual([(0, "stored"), (1, "stored")], outcomes(consumer.commit()))
        self.assertEqual([(2, [])], self.state())

    def test_close_releases_what_is_delayed_at_once(self):
        self.broker()
        self.produce(b"a")
        consumer = self.consumer()
        heard = []
        consumer.set_acknowledgement_commit_callback(heard.extend)
        consumer.acknowledge(consumer.poll(5000)[0], RELEASE, delay_ms=20000)
        consumer.close()
        self.assertEqual([(0, "stored")], outcomes(heard))
        self.assertEqual([(0, b"a", 2)], told(self.consumer().poll(5000)))

    def test_a_delay_ends_before_the_lock_does(self):
        self.broker(lock_ms=1000)
        self.produce(b"a", b"b")
        consumer = self.consumer()
        first, second = consumer.poll(5000)
        with self.assertRaisesRegex(ValueError, "delay_ms is at most the time of a lock, 1000"):
            consumer.acknowledge(first, RELEASE, delay_ms=1001)
        heard = []
        consumer.set_acknowledgement_commit_callback(heard.extend)
        time.sleep(0.5)
        consumer.acknowledge(first, RELEASE, delay_ms=1000)
        consumer.acknowledge(second)
        self.assertEqual([(0, b"a", 2)], told(consumer.poll(5000)))
        self.assertEqual([(1, "stored"), (0, "stored")], outcomes(heard))

    def test_a_delayed_release_whose_lock_has_ended_is_lost_and_spoils_no_other(self):
        broker = self.scripted_broker(lock_ms=300)
        self.produce(b"a", b"b")
        consumer = self.consumer()
        first, = consumer.poll(5000, max_records=1)
        consumer.acknowledge(first, RELEASE, delay_ms=250)
        second, = consumer.poll(200, max_records=1)
        time.sleep(0.35)
        consumer.acknowledge(second)
        # By the broker's clock, which stands still, both locks last.
        self.assertEqual([(0, "lost"), (1, "stored")], outcomes(consumer.commit()))
        broker.advance(300)
        broker.expire("orders", 0)
        self.assertEqual([(0, b"a", 2)], told(consumer.poll(5000)))

    def test_a_lost_connection_loses_what_is_delayed(self):
        broker = self.scripted_broker()
        self.produce(b"a")
        consumer = self.consumer()
        consumer.acknowledge(consumer.poll(5000)[0], RELEASE, delay_ms=20000)
        self.assertEqual([], consumer.poll(0))
        broker.drop_connections()
        self.assertEqual([(0, "lost")], outcomes(consumer.commit()))
        self.assertEqual([(0, b"a", 2)], told(consumer.poll(5000)))


class Hanging(BrokerCase):
    def test_a_consumer_that_polls_no_more_leaves_and_its_partition_goes_on(self):
        self.broker(f"orders:2:{ORDERS}", lock_ms=60000)
        self.produce(b"a", partition=0)
        self.produce(b"b", partition=1)
        hanging, other = self.consumer(max_poll_interval_ms=700), self.consumer()
        for consumer in (hanging, other):
            self.assertTrue(consumer.assignment(5000))
        records = []
        self.wait_until(lambda: records.extend(hanging.poll(100, max_records=1)) or records)
        with self.assertLogs("sharebroker", "WARNING") as logs:
            found = set()
            end = time.monotonic() + 20
            while found != {b"a", b"b"} and time.monotonic() < end:
                for record in other.poll(200):
                    found.add(record.value)
                    other.acknowledge(record)
        self.assertEqual({b"a", b"b"}, found)
        self.assertIn("poll wasn't called for 700 ms", logs.output[0])
        self.assertIsNone(hanging._link.current())
        # It comes back, and what it says of its record comes too late.
        hanging.acknowledge(records[0])
        heard = []
        hanging.set_acknowledgement_commit_callback(heard.extend)
        self.assertEqual([], hanging.poll(1000))
        self.assertEqual([(0, "lost")], outcomes(heard))
        self.assertEqual(1, len(hanging.assignment(5000)))

    def test_a_commit_tells_as_lost_what_a_consumer_that_left_had_in_hand(self):
        self.broker(lock_ms=60000)
        self.produce(b"a")
        consumer = self.consumer(max_poll_interval_ms=200)
        record, = consumer.poll(5000)
        with self.assertLogs("sharebroker", "WARNING"):
            self.wait_until(lambda: consumer._link.current() is None)
        consumer.acknowledge(record)
        self.assertEqual([(0, "lost")], outcomes(consumer.commit()))
        self.assertEqual([(0, b"a", 2)], told(consumer.poll(5000)))

    def test_a_poll_that_waits_for_longer_stays(self):
        self.broker()
        consumer = self.consumer(max_poll_interval_ms=200)
        self.joined(consumer)
        with self.no_warnings():
            self.assertEqual([], consumer.poll(800))
            self.assertEqual({("orders", 0)}, consumer.assignment())

    def test_a_consumer_that_left_closes(self):
        broker = self.scripted_broker()
        consumer = self.consumer(max_poll_interval_ms=100)
        self.joined(consumer)
        with self.assertLogs("sharebroker", "WARNING"):
            self.wait_until(lambda: broker.connections() == 0)
        consumer.close()


class Misuse(BrokerCase):
    def test_two_threads(self):
        self.broker()
        consumer = self.consumer()
        self.joined(consumer)
        polling = threading.Thread(target=consumer.poll, args=(1500,))
        polling.start()
        time.sleep(0.3)
        for call in (consumer.poll, consumer.commit, consumer.close, lambda: consumer.subscribe(["orders"])):
            with self.assertRaises(ConcurrentUse):
                call()
        polling.join()
        self.assertEqual([], consumer.poll(0))

    def test_a_callback_may_call_its_consumer(self):
        self.broker()
        self.produce(b"a")
        consumer = self.consumer()
        heard = []
        consumer.set_acknowledgement_commit_callback(lambda told_of: heard.append(consumer.assignment()))
        consumer.acknowledge(consumer.poll(5000)[0])
        consumer.commit()
        self.assertEqual([{("orders", 0)}], heard)

    def test_explicit_mode_wants_each_record_acknowledged(self):
        self.broker()
        self.produce(b"a", b"b")
        consumer = self.consumer()
        first, second = consumer.poll(5000)
        consumer.acknowledge(first)
        with self.assertRaises(Unacknowledged):
            consumer.poll(0)
        self.assertEqual([(0, "stored")], outcomes(consumer.commit()))
        with self.assertRaises(NotInHand):
            consumer.acknowledge(first)
        consumer.acknowledge(second, REJECT)
        consumer.acknowledge(second, ACCEPT)
        self.assertEqual([(1, "stored")], outcomes(consumer.commit()))
        self.assertEqual([(2, [])], self.state())

    def test_a_record_of_an_earlier_delivery_is_not_in_hand(self):
        self.broker()
        self.produce(b"a")
        consumer = self.consumer()
        record, = consumer.poll(5000)
        consumer.acknowledge(record, RELEASE)
        again, = consumer.poll(5000)
        with self.assertRaises(NotInHand):
            consumer.acknowledge(record)
        consumer.acknowledge(again)

    def test_a_group_that_is_full(self):
        self.broker()
        connection = Connection(parse_addresses(self.servers)[0], "c", 5000)
        self.addCleanup(connection.close)
        for number in range(200):
            request = ShareGroupHeartbeatRequest("g", f"member {number}", 0, None, [])
            self.assertEqual(0, connection.call(SHARE_GROUP_HEARTBEAT, request).error_code)
        consumer = self.consumer()
        for _ in range(2):
            with self.assertRaises(Refused) as told_of:
                consumer.poll(5000)
            self.assertEqual((81, "GROUP_MAX_SIZE_REACHED"), (told_of.exception.code, told_of.exception.name))

    def test_implicit_mode_has_no_acknowledge(self):
        self.broker()
        self.produce(b"a")
        consumer = self.consumer("implicit")
        with self.assertRaises(WrongMode):
            consumer.acknowledge(consumer.poll(5000)[0])

    def test_after_close(self):
        self.broker()
        consumer = self.consumer()
        consumer.close()
        consumer.close()
        for call in (consumer.poll, consumer.commit, lambda: consumer.subscribe([])):
            with self.assertRaises(Closed):
                call()

    def test_nobody_listens(self):
        with self.assertLogs("sharebroker", "WARNING"), ShareConsumer("127.0.0.1:1", "g") as consumer:
            consumer.subscribe(["orders"])
            began = time.monotonic()
            self.assertEqual([], consumer.poll(200))
            self.assertLess(time.monotonic() - began, 3)

    def test_settings_that_make_no_sense(self):
        for settings in ({"share_acknowledgement_mode": "auto"}, {"max_poll_records": 0}, {"fetch_max_bytes": 0},
                         {"fetch_max_wait_ms": 1 << 31}, {"request_timeout_ms": 0}, {"max_poll_interval_ms": 0}):
            with self.assertRaisesRegex(ValueError, next(iter(settings))):
                ShareConsumer("localhost:9092", "g", **settings)
        for settings in ({"max_poll_records": "1"}, {"max_poll_interval_ms": None}, {"check_crcs": "yes"},
                         {"fetch_backoff_ms": b"1"}, {"ssl_context": "ca.pem"}, {"polls": 1}):
            with self.assertRaisesRegex(TypeError, next(iter(settings))):
                ShareConsumer("localhost:9092", "g", **settings)
        for group in ("", "x" * 256):
            with self.assertRaisesRegex(ValueError, "group_id"):
                ShareConsumer("localhost:9092", group)
        with self.assertRaisesRegex(TypeError, "group_id"):
            ShareConsumer("localhost:9092", b"g")

    def test_arguments_that_make_no_sense(self):
        with ShareConsumer("localhost:9092", "g", share_acknowledgement_mode="explicit") as consumer:
            for words in ({"max_records": 0}, {"timeout_ms": -1}, {"timeout_ms": float("nan")}):
                with self.assertRaisesRegex(ValueError, next(iter(words))):
                    consumer.poll(**words)
            for words in ({"max_records": "1"}, {"timeout_ms": "1"}):
                with self.assertRaisesRegex(TypeError, next(iter(words))):
                    consumer.poll(**words)
            for topics in ("orders", [7]):
                with self.assertRaisesRegex(TypeError, "topics"):
                    consumer.subscribe(topics)
            with self.assertRaisesRegex(TypeError, "record"):
                consumer.acknowledge(7)
            record = ConsumerRecord("orders", 0, 0, 0, None, None, (), 1)
            for words in ({"type": 0}, {"delay_ms": 1}, {"delay_ms": -1, "type": RELEASE}):
                with self.assertRaisesRegex(ValueError, next(iter(words))):
                    consumer.acknowledge(record, **words)
            with self.assertRaises(NotInHand):
                consumer.acknowledge(record)
            with self.assertRaises(NotSubscribed):
                consumer.poll(0)


if __name__ == "__main__":
    unittest.main()
