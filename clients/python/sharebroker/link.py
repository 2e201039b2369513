"""The way to the broker: a connection that is made when it is needed, and again after it was lost."""

from __future__ import annotations

import logging
import random
import ssl
import threading
import time
from dataclasses import dataclass
from typing import Dict, List, Optional
from uuid import UUID

from .checks import MOST_MS, check_ssl_context, check_text, check_whole
from .connection import Address, Connection, ask_metadata, check_versions, parse_addresses
from .errors import Closed, ConnectionLost, MalformedReply, NotSent, Unreachable
from .messages import MetadataResponse

LOG = logging.getLogger("sharebroker")

#: A connection that fails again and again is a warning only so often, in seconds.
WARN_AGAIN_S = 10.0


class Pause:
    """A pause that doubles each time, from the first to the greatest, each up to a fifth shorter or longer. In ms."""

    def __init__(self, first_ms: float, most_ms: float) -> None:
        self._first_ms = first_ms
        self._most_ms = most_ms
        self._next_ms = first_ms

    def next_ms(self) -> float:
        """The next pause."""
        now_ms = self._next_ms
        self._next_ms = min(2 * now_ms, self._most_ms)
        return now_ms * random.uniform(0.8, 1.2)

    def reset(self) -> None:
        """Begins anew with the first."""
        self._next_ms = self._first_ms


@dataclass(frozen=True)
class Topic:
    """A topic of the broker: its name, its id, and how many partitions it has."""

    name: str
    topic_id: UUID
    partitions: int


class Topics:
    """The topics of the broker, by name and by id."""

    def __init__(self, reply: MetadataResponse) -> None:
        found = [Topic(topic.name, topic.topic_id, len(topic.partitions))
                 for topic in reply.topics if topic.name is not None and not topic.error_code]
        self.by_name: Dict[str, Topic] = {topic.name: topic for topic in found}
        self.by_id: Dict[UUID, Topic] = {topic.topic_id: topic for topic in found}


class Link:
    """A connection to the broker, at the address that Metadata tells.

    One thread uses it at a time, but for `close` and `let_go`. `topics` are those that the broker had when it was
    connected to last. A connection that the broker ended while nobody used it is made again without a pause or a
    warning; and so is one that was silent for `max_idle_ms`, before the broker ends it, where that is given.
    """

    def __init__(self, bootstrap_servers: str, client_id: str, request_timeout_ms: int, reconnect_backoff_ms: float,
                 reconnect_backoff_max_ms: float, ssl_context: Optional[ssl.SSLContext] = None,
                 max_idle_ms: Optional[float] = None) -> None:
        self.topics: Optional[Topics] = None
        self._bootstrap: List[Address] = parse_addresses(bootstrap_servers)
        check_text("client_id", client_id, 0, 32767)
        check_whole("request_timeout_ms", request_timeout_ms, 1, MOST_MS)
        check_ssl_context(ssl_context)
        self._client_id = client_id
        self._timeout_ms = request_timeout_ms
        self._pause = Pause(reconnect_backoff_ms, reconnect_backoff_max_ms)
        self._ssl_context = ssl_context
        self._max_idle_ms = max_idle_ms
        self._not_before = 0.0
        self._warned_at = -WARN_AGAIN_S
        self._connection: Optional[Connection] = None
        self._closed = threading.Event()

    def current(self) -> Optional[Connection]:
        """The connection, where it is open."""
        connection = self._connection
        return None if connection is None or connection.has_ended() else connection

    def connect(self, deadline: float) -> Connection:
        """The connection, which is made where it isn't open, again and again until `deadline` (of `time.monotonic`).

        It is tried once where the deadline has passed and no pause is due. `Unreachable`: none was made. A broker that
        doesn't serve what is needed is an `UnsupportedBroker`. After `close`: `Closed`.
        """
        fault: Exception = Unreachable("the last connection was lost, and the pause before the next isn't over")
        while True:
            if self._closed.is_set():
                raise Closed("it was closed")
            open_one = self.current()
            if open_one is not None and self._is_fresh(open_one):
                return open_one
            wait = self._not_before - time.monotonic()
            if wait > 0 and self._not_before > deadline:
                self._closed.wait(max(0.0, deadline - time.monotonic()))
                raise Unreachable(str(fault)) from fault
            self._closed.wait(max(0.0, wait))
            try:
                return self._make()
            except (Unreachable, NotSent, ConnectionLost, MalformedReply) as told:
                fault = told
                self._put_off(told)
            if time.monotonic() >= deadline:
                raise Unreachable(str(fault)) from fault

    def refresh_topics(self, deadline: float) -> None:
        """Asks for the topics anew, which are in `topics` then. Else as `connect`."""
        known = self.current()
        connection = self.connect(deadline)
        if connection is not known:
            return
        try:
            self.topics = Topics(ask_metadata(connection))
        except (NotSent, ConnectionLost, MalformedReply) as fault:
            self.lost(fault)
            raise Unreachable(str(fault)) from fault

    def _is_fresh(self, connection: Connection) -> bool:
        """Whether the connection was used lately. One that wasn't is closed."""
        if self._max_idle_ms is None or time.monotonic() - connection.used_at < self._max_idle_ms / 1000:
            return True
        connection.close()
        return False

    def let_go(self) -> None:
        """Closes the connection, where there is one. It is made again when it is needed. Any thread may call it."""
        connection = self._connection
        if connection is not None:
            connection.close()

    def lost(self, fault: Exception) -> None:
        """Says that the connection failed: it is closed, and the next one is made after a pause."""
        if self._connection is not None:
            self._connection.close()
        self._put_off(fault)

    def works(self) -> None:
        """Says that the broker answered: the pause after the next loss is short again."""
        self._pause.reset()
        self._warned_at = -WARN_AGAIN_S

    def close(self) -> None:
        """Closes the connection, also one that is just made. It isn't made again."""
        self._closed.set()
        if self._connection is not None:
            self._connection.close()

    def _put_off(self, fault: Exception) -> None:
        if self._closed.is_set():
            return
        pause_ms = self._pause.next_ms()
        self._not_before = time.monotonic() + pause_ms / 1000
        now = time.monotonic()
        is_news = now - self._warned_at >= WARN_AGAIN_S
        LOG.log(logging.WARNING if is_news else logging.DEBUG, "%s; the next try is in %d ms", fault, pause_ms)
        self._warned_at = now if is_news else self._warned_at

    def _make(self) -> Connection:
        """Connects to a bootstrap address, asks where the broker is reached, and connects to that."""
        fault: Optional[Unreachable] = None
        for address in self._bootstrap:
            try:
                first = self._open(address)
                break
            except Unreachable as told:
                fault = told
        else:
            raise fault or Unreachable("there is no address")
        try:
            return self._greet(first)
        except BaseException:
            first.close()
            raise

    def _open(self, address: Address) -> Connection:
        """A connection, which `close` ends from now on."""
        connection = Connection(address, self._client_id, self._timeout_ms, self._ssl_context)
        self._connection = connection
        if self._closed.is_set():
            connection.close()
        return connection

    def _greet(self, connection: Connection) -> Connection:
        check_versions(connection)
        reply = ask_metadata(connection)
        self.topics = Topics(reply)
        advertised = {node.node_id: (node.host, node.port) for node in reply.brokers}
        address = advertised.get(reply.controller_id, connection.address)
        if address == connection.address:
            return connection
        connection.close()
        return self._open(address)
