"""A share consumer: records are locked for it, worked on, and acknowledged."""

from __future__ import annotations

import math
import ssl
import threading
import time
import uuid
from contextlib import contextmanager
from dataclasses import dataclass
from typing import Callable, Dict, Iterator, List, Optional, Sequence, Set, Tuple

from .batches import read_batches
from .checks import MOST_MS, check_flag, check_ms, check_text, check_whole
from .errors import (INVALID_RECORD_STATE, KAFKA_STORAGE_ERROR, Closed, ConcurrentUse, ConnectionLost, MalformedReply,
                     NotSent, NotSubscribed, Refused, Unacknowledged, UnknownTopic, Unreachable, WrongMode)
from .hand import Hand, Lock, Part, Sent
from .link import LOG, Link, Pause
from .membership import Membership
from .records import Acknowledgement, AcknowledgeType, ConsumerRecord, Outcome
from .session import LATE_MS, ShareSession
from .share_messages import FetchedPartition, ShareFetchResponse

#: Is told what became of acknowledgements.
Callback = Callable[[List[Acknowledgement]], None]

#: With less of its time left `poll` pauses between fetches, which don't wait at the broker, in ms.
LEAST_WAIT_MS = 100

#: What the log says of acknowledgements that aren't stored.
WORDS = {
    Outcome.LOST: "%d records were lost to ended locks before they were acknowledged; they are delivered again",
    Outcome.UNKNOWN: "it isn't known whether the acknowledgements of %d records are stored",
    Outcome.REFUSED: "the acknowledgements of %d records were refused; the records are delivered again",
}


@dataclass(frozen=True)
class ConsumerSettings:
    """The settings of a share consumer. Names and defaults are those of Kafka's, where it has them."""

    #: `implicit`: `poll` and `commit` accept all records of the last poll. `explicit`: each has to be acknowledged.
    share_acknowledgement_mode: str = "implicit"
    #: How many records a poll gives at most.
    max_poll_records: int = 500
    #: Where `poll` isn't called for so long, in ms, the consumer leaves its group until it is, and the broker releases
    #: what it holds.
    max_poll_interval_ms: float = 300000
    #: How many bytes of batches a poll fetches at most, but for its first batch. The broker sends at most 16777216.
    fetch_max_bytes: int = 16777216
    #: How long a fetch waits at the broker for a record, in ms, 60000 at most; 0: not at all. Other partitions that
    #: are assigned meanwhile are fetched from behind it.
    fetch_max_wait_ms: int = 500
    #: The pause between fetches that had no record and didn't wait at the broker, in ms: at first, and at most.
    fetch_backoff_ms: int = 10
    fetch_backoff_max_ms: int = 250
    #: Whether the checksum of each batch is looked at.
    check_crcs: bool = True
    #: How long a connection and each reply is waited for, in ms.
    request_timeout_ms: int = 30000
    #: The pause before acknowledgements are sent again that the broker's disk didn't take (code 56), in ms.
    retry_backoff_ms: int = 100
    retry_backoff_max_ms: int = 1000
    #: The pause before a lost connection is made again, in ms: at first, and at most.
    reconnect_backoff_ms: int = 50
    reconnect_backoff_max_ms: int = 1000
    #: What connections are encrypted with, where they are.
    ssl_context: Optional[ssl.SSLContext] = None
    #: A name that is sent along. The broker doesn't use it.
    client_id: str = "sharebroker-python"

    def check(self) -> None:
        """Settings that make no sense are a `ValueError` or a `TypeError`. The link checks those that it uses."""
        if self.share_acknowledgement_mode not in ("implicit", "explicit"):
            raise ValueError("share_acknowledgement_mode is 'implicit' or 'explicit'")
        check_whole("max_poll_records", self.max_poll_records, 1, MOST_MS)
        check_ms("max_poll_interval_ms", self.max_poll_interval_ms, 1)
        check_whole("fetch_max_bytes", self.fetch_max_bytes, 1, 2147483647)
        check_whole("fetch_max_wait_ms", self.fetch_max_wait_ms, 0, MOST_MS)
        check_flag("check_crcs", self.check_crcs)
        for name in ("fetch_backoff_ms", "fetch_backoff_max_ms", "retry_backoff_ms", "retry_backoff_max_ms",
                     "reconnect_backoff_ms", "reconnect_backoff_max_ms"):
            check_ms(name, getattr(self, name))


class ShareConsumer:
    """Works a queue: each record of its topics is given to one consumer of the group at a time.

    It is used by one thread at a time; a call while another thread is in one is a `ConcurrentUse`. It takes two
    connections, and so two workers of the broker: one for records, and one on which a thread of its own lets the broker
    hear of it.

        with ShareConsumer("localhost:9092", "resizers") as consumer:
            consumer.subscribe(["jobs"])
            while True:
                for record in consumer.poll():
                    work(record.value)

    What `poll` gives is locked for the broker's lock duration (`acquisition_lock_timeout_ms`). A record whose lock
    ended before its acknowledgement came, or whose connection ended, is delivered again, maybe to another consumer:
    each record is delivered at least once. Where `poll` isn't called for `max_poll_interval_ms` the consumer leaves its
    group and gives up its connections, so that others go on; the next `poll` joins again.
    """

    def __init__(self, bootstrap_servers: str, group_id: str, **settings: object) -> None:
        """Nothing is connected to yet.

        `bootstrap_servers` is `HOST:PORT`, or several with commas between them. The group has 1 to 255 bytes of UTF-8.
        The settings are the fields of `ConsumerSettings`. What isn't right in them is a `ValueError` or a `TypeError`.
        """
        self.settings = ConsumerSettings(**settings)  # type: ignore[arg-type]
        self.settings.check()
        check_text("group_id", group_id, 1, 255)
        self.group_id = group_id
        #: The name of the member, which is new for each consumer.
        self.member_id = str(uuid.uuid4())
        #: How long a record stays locked, in ms; None before the first fetch.
        self.acquisition_lock_timeout_ms: Optional[int] = None
        self._link = self._new_link(bootstrap_servers)
        self._member = Membership(self._new_link(bootstrap_servers), group_id, self.member_id,
                                  self.settings.max_poll_interval_ms, self._link.let_go)
        self._session: Optional[ShareSession] = None
        self._hand = Hand()
        self._topics: Set[str] = set()
        self._callback: Optional[Callback] = None
        self._ended: List[Acknowledgement] = []
        self._empty_pause = Pause(self.settings.fetch_backoff_ms, self.settings.fetch_backoff_max_ms)
        #: Whether the last fetch came back before its time without a record.
        self._was_early = False
        self._closed = False
        self._user = threading.RLock()
        self._calls = 0

    def _new_link(self, bootstrap_servers: str) -> Link:
        return Link(bootstrap_servers, self.settings.client_id, self.settings.request_timeout_ms,
                    self.settings.reconnect_backoff_ms, self.settings.reconnect_backoff_max_ms,
                    self.settings.ssl_context)

    def __enter__(self) -> ShareConsumer:
        return self

    def __exit__(self, *_: object) -> None:
        self.close()

    # What a consumer does

    def subscribe(self, topics: Sequence[str]) -> None:
        """Wants these topics, in place of those before. Names that the broker doesn't know are passed over, with a
        warning in the log."""
        with self._call():
            self._check_open()
            if isinstance(topics, (str, bytes)) or not all(isinstance(name, str) for name in topics):
                raise TypeError("topics is a list of names")
            self._topics = set(topics)
            self._member.subscribe(list(topics))

    def subscription(self) -> Set[str]:
        """The topics that are wanted."""
        return set(self._topics)

    def partitions_for(self, topic: str, timeout_ms: float = 30000) -> int:
        """How many partitions a topic has. `UnknownTopic`; `Unreachable` where the broker wasn't reached in time."""
        check_text("topic", topic, 0, 32767)
        check_ms("timeout_ms", timeout_ms)
        with self._call():
            self._check_open()
            self._link.connect(time.monotonic() + timeout_ms / 1000)
            known = self._link.topics.by_name if self._link.topics else {}
            if topic not in known:
                raise UnknownTopic(f"the broker has no topic {topic!r}")
            return known[topic].partitions

    def assignment(self, timeout_ms: float = 0) -> Set[Tuple[str, int]]:
        """The topics and partitions that the broker has this consumer read. There are none until it has told them,
        which is waited for at most `timeout_ms`. `Refused` as with `poll`."""
        check_ms("timeout_ms", timeout_ms)
        with self._call():
            self._check_open()
            parts = self._member.assigned(time.monotonic() + timeout_ms / 1000)
            return {(self._member.name_of(topic_id), number) for topic_id, number in parts}

    def poll(self, timeout_ms: float = 1000, max_records: Optional[int] = None) -> List[ConsumerRecord]:
        """Gives records, in order for each partition, and waits for them at most `timeout_ms`; then there are none.
        With 100 ms or more left it waits at the broker, which looks once a second whose time is up, so it may take a
        second longer. It also takes longer where the broker is late: by `request_timeout_ms` for each reply that it
        waits for, and for a new connection, which takes two replies.

        There are at most `max_records`, where that is given, and else at most `max_poll_records` of the settings.

        Before that the acknowledgements of the last poll are sent. In implicit mode all its records are accepted that
        way. In explicit mode one that isn't acknowledged makes it `Unacknowledged`, and nothing is done.

        A broker that can't be reached is tried again, with a warning in the log now and then, and no records come.
        `Refused`: the broker takes no such member (code 81: the group is full), and so at each later `poll`; another
        consumer may be taken. `UnsupportedBroker`: likewise. `MalformedReply`: what was fetched isn't in hand, and the
        broker releases it. `NotSubscribed`: no topic is wanted. `Closed`.
        """
        check_ms("timeout_ms", timeout_ms)
        if max_records is not None:
            check_whole("max_records", max_records, 1, 2147483647)
        most = self.settings.max_poll_records if max_records is None else max_records
        with self._call(is_poll=True):
            self._check_open()
            if not self._topics:
                raise NotSubscribed("subscribe names topics first")
            deadline = time.monotonic() + timeout_ms / 1000
            if self.settings.share_acknowledgement_mode == "implicit":
                self._hand.accept_all()
            elif self._hand.unacknowledged():
                raise Unacknowledged(f"{self._hand.unacknowledged()} records of the last poll aren't acknowledged")
            self._member.poll_begins()
            while True:
                records = self._fetch(most, deadline)
                if records or time.monotonic() >= deadline:
                    return records

    def acknowledge(self, record: ConsumerRecord, type: AcknowledgeType = AcknowledgeType.ACCEPT,
                    delay_ms: float = 0) -> None:
        """Chooses what becomes of a record of the last poll. It is sent by the next `poll` or `commit`, or by `close`.

        A release may have a delay: until then the record stays locked, so nobody gets it, and the first `poll` or
        `commit` after it releases it; at the latest shortly before its lock ends. The delay is at most
        `acquisition_lock_timeout_ms`. Meanwhile further polls give other records. `close` releases it at once. Until
        it is sent something else may be chosen.

        `NotInHand`: it isn't such a record, or was sent before. `WrongMode`: in implicit mode. Then nothing has changed.
        """
        with self._call():
            self._check_open()
            if self.settings.share_acknowledgement_mode == "implicit":
                raise WrongMode("in implicit mode poll and commit acknowledge the records")
            if not isinstance(record, ConsumerRecord):
                raise TypeError(f"record is a ConsumerRecord, and not {record.__class__.__name__}")
            if type not in tuple(AcknowledgeType):
                raise ValueError(f"type is an AcknowledgeType, and not {type!r}")
            self._check_delay(AcknowledgeType(type), delay_ms)
            due = time.monotonic() + delay_ms / 1000 if delay_ms else 0.0
            self._hand.acknowledge(record, AcknowledgeType(type), due)

    def _check_delay(self, type_: AcknowledgeType, delay_ms: float) -> None:
        check_ms("delay_ms", delay_ms)
        if delay_ms and type_ is not AcknowledgeType.RELEASE:
            raise ValueError("delay_ms is for a RELEASE")
        lock_ms = self.acquisition_lock_timeout_ms
        if lock_ms is not None and delay_ms > lock_ms:
            raise ValueError(f"delay_ms is at most the time of a lock, {lock_ms}, and not {delay_ms}")

    def commit(self, timeout_ms: float = 30000) -> List[Acknowledgement]:
        """Sends the acknowledgements of the last poll, and the releases whose delay is over, and tells what became of
        each. In implicit mode all are accepted.

        With code 56 they are sent again, at most `timeout_ms` long; then they are told as refused. Each is told once.
        """
        check_ms("timeout_ms", timeout_ms)
        with self._call():
            self._check_open()
            if self.settings.share_acknowledgement_mode == "implicit":
                self._hand.accept_all()
            self._commit(time.monotonic(), time.monotonic() + timeout_ms / 1000)
            return self._report(is_returned=True)

    def set_acknowledgement_commit_callback(self, callback: Optional[Callback]) -> None:
        """Has this called with what became of acknowledgements, by `poll`, `commit` and `close`, in the thread that
        calls these. Without it what isn't stored is a warning in the log."""
        self._callback = callback

    def close(self, timeout_ms: float = 30000) -> None:
        """Sends what was acknowledged, releases the other records in hand, leaves the group, and closes the
        connections.

        It accepts nothing by itself, also in implicit mode: `commit` before it, where the work is done. A second
        call does nothing.
        """
        check_ms("timeout_ms", timeout_ms)
        with self._call():
            if self._closed:
                return
            self._closed = True
            try:
                self._commit(math.inf, time.monotonic() + timeout_ms / 1000)
                self._report()
                if self._session is not None and self._session.is_open:
                    self._session.close()
            except (NotSent, ConnectionLost, MalformedReply) as fault:
                LOG.warning("%s; the broker releases what was held", fault)
            finally:
                self._link.close()
                self._member.leave()

    def _check_open(self) -> None:
        if self._closed:
            raise Closed("the consumer was closed")

    @contextmanager
    def _call(self, is_poll: bool = False) -> Iterator[None]:
        """A call by one thread, also from the callback within another call. While it goes on the member stays."""
        if not self._user.acquire(blocking=False):
            raise ConcurrentUse("another thread is in a call of this consumer")
        self._calls += 1
        try:
            if self._calls == 1:
                self._member.call_begins()
            yield
        finally:
            self._calls -= 1
            if self._calls == 0:
                self._member.call_ends(is_poll)
            self._user.release()

    # Fetching

    def _fetch(self, max_records: int, deadline: float) -> List[ConsumerRecord]:
        """Does one fetch, where there is something to fetch, and else waits."""
        wanted = self._member.assigned(self._until(deadline))
        if not wanted:
            self._commit(time.monotonic(), deadline)
            self._report()
            self._member.wait_for_change(wanted, self._until(deadline))
            return []
        session = self._connected(deadline)
        if session is None:
            return []
        began = time.monotonic()
        sent = self._take(began)
        # One that acknowledges doesn't wait, so what became of that is told first, and the next one waits.
        wait_ms = 0 if sent else self._wait_ms(began, deadline)
        try:
            reply = session.fetch(wanted, sent.batches(), wait_ms, self.settings.fetch_max_bytes, max_records)
        except (NotSent, Refused, ConnectionLost, MalformedReply) as fault:
            self._failed(sent, fault)
            self._report()
            return []
        self._link.works()
        self.acquisition_lock_timeout_ms = reply.acquisition_lock_timeout_ms
        self._settle(session, sent, {(topic.topic_id, entry.partition_index): entry.acknowledge_error_code
                                     for topic in reply.responses for entry in topic.partitions}, deadline)
        self._report()
        records = self._take_in(reply, Lock(began, reply.acquisition_lock_timeout_ms / 1000))
        if records:
            self._begin_pauses_anew()
        elif not sent:
            self._pause_where_none_was_made(began, wait_ms, deadline)
        return records

    def _until(self, deadline: float) -> float:
        """The deadline, or when a release that waits is to be sent, where that is before."""
        due = self._hand.next_due(time.monotonic())
        return deadline if due is None else min(deadline, due)

    def _wait_ms(self, now: float, deadline: float) -> int:
        """How long a fetch waits at the broker: not where `poll` has little time left, or where a release that waits
        is to be sent before such a wait is over for certain."""
        due = self._hand.next_due(now)
        end = deadline if due is None else min(deadline, due - LATE_MS / 1000)
        left_ms = int((end - now) * 1000)
        return min(self.settings.fetch_max_wait_ms, left_ms) if left_ms >= LEAST_WAIT_MS else 0

    def _begin_pauses_anew(self) -> None:
        """The next fetch without a record counts as the first one."""
        self._was_early = False
        self._empty_pause.reset()

    def _pause_where_none_was_made(self, began: float, wait_ms: int, deadline: float) -> None:
        """Pauses after a fetch that had no record, where it didn't wait at the broker. The first one that came before
        its time is followed at once: its group was new there, or another consumer was faster."""
        now = time.monotonic()
        if wait_ms and now - began >= wait_ms / 2000:
            self._begin_pauses_anew()
        elif wait_ms and not self._was_early:
            self._was_early = True
        else:
            time.sleep(min(self._empty_pause.next_ms() / 1000, max(0.0, self._until(deadline) - now)))

    def _connected(self, deadline: float) -> Optional[ShareSession]:
        """The session, or a new one where its connection was lost; None where none can be made in time."""
        try:
            connection = self._link.connect(deadline)
        except Unreachable:
            return None
        if self._session is None or self._session.connection is not connection:
            self._hand.is_lost = True
            self._session = ShareSession(connection, self.group_id, self.member_id)
        return self._session

    def _take_in(self, reply: ShareFetchResponse, lock: Lock) -> List[ConsumerRecord]:
        """Takes what was acquired in hand. Nothing of it is in hand where it can't be read: the broker releases it."""
        held: List[Tuple[Part, ConsumerRecord]] = []
        gaps: Dict[Part, List[int]] = {}
        try:
            for topic in reply.responses:
                for entry in topic.partitions:
                    part = (topic.topic_id, entry.partition_index)
                    records, missing = self._records_of(self._name_of(topic.topic_id), entry)
                    held += [(part, record) for record in records]
                    if missing:
                        gaps[part] = missing
        except MalformedReply as fault:
            self._failed(Sent({}), fault)
            raise
        hand = Hand(held, gaps, lock)
        self._ended += hand.keep(self._hand)
        self._hand = hand
        return [record for _, record in held]

    def _name_of(self, topic_id: uuid.UUID) -> str:
        known = self._link.topics.by_id.get(topic_id) if self._link.topics else None
        return known.name if known else str(topic_id)

    def _records_of(self, topic: str, entry: FetchedPartition) -> Tuple[List[ConsumerRecord], List[int]]:
        """The records that were acquired on a partition, and the offsets that have none."""
        if entry.error_code:
            LOG.warning("%s", Refused(f"ShareFetch of {topic}/{entry.partition_index}", entry.error_code))
        counts = {offset: run.delivery_count for run in entry.acquired_records
                  for offset in range(run.first_offset, run.last_offset + 1)}
        records = []
        for stored in read_batches(entry.records or b"", self.settings.check_crcs):
            count = counts.pop(stored.offset, None)
            if count is not None:
                records.append(ConsumerRecord(topic, entry.partition_index, stored.offset, stored.timestamp_ms,
                                              stored.key, stored.value, stored.headers, count))
        return records, sorted(counts)

    # Acknowledging

    def _commit(self, moment: float, deadline: float) -> None:
        """Sends what is to be sent by this moment."""
        session = self._session
        if session is None or not session.is_open or session.connection.has_ended():
            self._hand.is_lost = True
        sent = self._take(moment)
        if session is not None and sent:
            codes = self._codes(session, sent)
            if codes is not None:
                self._settle(session, sent, codes, deadline)

    def _take(self, moment: float) -> Sent:
        """Takes the acknowledgements that are to be sent by this moment and can be. The others have ended: those of
        records that a lost connection held, and releases that waited for longer than their locks."""
        if self._hand.is_lost:
            self._ended += self._hand.take(math.inf).all_ended(Outcome.LOST)
            return Sent({})
        self._ended += self._hand.take_late(time.monotonic())
        return self._hand.take(moment)

    def _codes(self, session: ShareSession, sent: Sent) -> Optional[Dict[Part, int]]:
        """Sends acknowledgements alone, and gives the code of each partition; None where the connection ended."""
        try:
            reply = session.acknowledge(sent.batches())
        except (NotSent, Refused, ConnectionLost, MalformedReply) as fault:
            self._failed(sent, fault)
            return None
        self._link.works()
        return {(topic.topic_id, entry.partition_index): entry.error_code
                for topic in reply.responses for entry in topic.partitions}

    def _settle(self, session: ShareSession, sent: Sent, codes: Dict[Part, int], deadline: float) -> None:
        """Ends acknowledgements by the codes of their partitions. Those with code 56 are sent again, until the
        deadline."""
        pause = Pause(self.settings.retry_backoff_ms, self.settings.retry_backoff_max_ms)
        while True:
            again = [part for part in sent.parts() if codes.get(part) == KAFKA_STORAGE_ERROR]
            if time.monotonic() >= deadline:
                again = []
            for part in sent.parts():
                if part not in again:
                    self._ended += sent.ended(part, *outcome_of(codes.get(part)))
            if not again:
                return
            LOG.warning("%s; they are sent again", Refused("acknowledgements", KAFKA_STORAGE_ERROR))
            time.sleep(min(pause.next_ms() / 1000, max(0.0, deadline - time.monotonic())))
            sent = sent.only(again)
            answer = self._codes(session, sent)
            if answer is None:
                return
            codes = answer

    def _failed(self, sent: Sent, fault: Exception) -> None:
        """Ends acknowledgements whose request failed, and gives up the connection and its session."""
        is_open = isinstance(fault, (ConnectionLost, MalformedReply))
        self._ended += sent.all_ended(Outcome.UNKNOWN if is_open else Outcome.LOST)
        self._hand.is_lost = True
        self._link.lost(fault)

    def _report(self, is_returned: bool = False) -> List[Acknowledgement]:
        """Tells what became of acknowledgements since the last time: to the callback, or else to the log what isn't
        stored, where it isn't returned to the caller."""
        ended, self._ended = self._ended, []
        if ended and self._callback is not None:
            self._callback(ended)
        elif not is_returned:
            for outcome, words in WORDS.items():
                number = sum(1 for entry in ended if entry.outcome is outcome)
                if number:
                    LOG.warning(words, number)
        return ended


def outcome_of(code: Optional[int]) -> Tuple[Outcome, int]:
    """What a code says of a partition's acknowledgements; none where the reply doesn't tell it."""
    if code is None:
        return Outcome.UNKNOWN, 0
    if code == 0:
        return Outcome.STORED, 0
    if code == INVALID_RECORD_STATE:
        return Outcome.LOST, 0
    return Outcome.REFUSED, code
