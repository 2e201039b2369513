"""One connection to the broker, with one request at a time."""

from __future__ import annotations

import itertools
import socket
import ssl
import struct
import time
from typing import Any, List, Optional, Sequence, Tuple

from .errors import ConnectionLost, MalformedReply, NotSent, Refused, Unreachable, UnsupportedBroker
from .fields import Reader, Writer, skip_tags
from .messages import (API_VERSIONS, METADATA, PRODUCE, READ_STATE, ApiVersionsRequest, Call, MetadataRequest,
                       MetadataResponse, Q, R)
from .share_messages import SHARE_ACKNOWLEDGE, SHARE_FETCH, SHARE_GROUP_HEARTBEAT
from .version import __version__

#: A host and a port.
Address = Tuple[str, int]

#: The calls that a broker has to serve.
NEEDED: List[Call[Any, Any]] = [API_VERSIONS, METADATA, PRODUCE, SHARE_GROUP_HEARTBEAT, SHARE_FETCH, SHARE_ACKNOWLEDGE,
                                READ_STATE]

_HEADER = struct.Struct(">hhi")
_SIZE = struct.Struct(">I")


def parse_addresses(text: str) -> List[Address]:
    """The addresses of `HOST:PORT`, or of several with commas between them. A host with colons stands in brackets.

    A text that has another form is a `ValueError`.
    """
    if not isinstance(text, str):
        raise TypeError(f"bootstrap_servers is a text, HOST:PORT, and not {type(text).__name__}")
    addresses = []
    for word in text.split(","):
        host, _, port = word.strip().rpartition(":")
        if not host or not port.isdecimal() or not 1 <= int(port) <= 65535:
            raise ValueError(f"bootstrap_servers: {word.strip()!r} isn't HOST:PORT")
        addresses.append((host.strip("[]"), int(port)))
    return addresses


def frame_of(call: Call[Q, R], request: Q, correlation_id: int, client_id: str) -> bytes:
    """A request with its size and its header (request header version 2)."""
    name = client_id.encode()
    body = Writer()
    body.raw(_HEADER.pack(call.key, call.version, correlation_id))
    body.raw(struct.pack(">h", len(name)) + name)
    body.uvarint(0)
    call.request.write(body, request)
    content = body.done()
    return _SIZE.pack(len(content)) + content


def reply_in(call: Call[Q, R], content: bytes, correlation_id: int) -> R:
    """The reply in a frame without its size. Bytes that aren't the reply to this request are a `MalformedReply`.

    Where ApiVersions is answered with code 35: `UnsupportedBroker`.
    """
    source = Reader(content)
    if int.from_bytes(source.raw(4), "big", signed=True) != correlation_id:
        raise MalformedReply("the reply is to another request", 0)
    if call.key != API_VERSIONS.key:
        skip_tags(source)
    elif content[4:6] == b"\0\x23":
        # Code 35 is told in version 0 of the reply, which each client can read (KIP-511).
        raise UnsupportedBroker("the broker doesn't serve ApiVersions in version 3")
    reply = call.reply.read(source)
    source.end()
    return reply


class Connection:
    """A connection. After any error it is closed, and `is_open` is False.

    It is used by one thread at a time, but for `close`.
    """

    def __init__(self, address: Address, client_id: str, timeout_ms: int,
                 ssl_context: Optional[ssl.SSLContext] = None) -> None:
        """Connects, and encrypts where a context says how. `timeout_ms` bounds the wait for the connection and for each
        reply. Else: `Unreachable`."""
        self.address = address
        self.is_open = True
        #: When the last reply or the connection came (`time.monotonic`).
        self.used_at = time.monotonic()
        self._client_id = client_id
        self._timeout_ms = timeout_ms
        self._numbers = itertools.count(1)
        try:
            self._socket = socket.create_connection(address, timeout_ms / 1000)
            self._socket.setsockopt(socket.IPPROTO_TCP, socket.TCP_NODELAY, 1)
            if ssl_context is not None:
                self._socket = _encrypted(self._socket, ssl_context, address[0])
        except OSError as fault:
            self.is_open = False
            raise Unreachable(f"no connection to {address[0]}:{address[1]}: {fault}") from fault

    def call(self, call: Call[Q, R], request: Q, extra_ms: int = 0) -> R:
        """Sends a request, and waits for its reply, `extra_ms` longer than usual.

        `NotSent`: the broker has done nothing. `ConnectionLost`, `MalformedReply`: it may have done it.
        """
        try:
            number = next(self._numbers) & 0x7FFFFFFF
            deadline = time.monotonic() + (self._timeout_ms + extra_ms) / 1000
            self._send(frame_of(call, request, number, self._client_id), deadline)
            size = _SIZE.unpack(self._receive(4, deadline))[0]
            content = self._receive(size, deadline)
            self.used_at = time.monotonic()
            return reply_in(call, content, number)
        except BaseException:
            self.close()
            raise

    def send_only(self, call: Call[Q, R], request: Q) -> None:
        """Sends a request that has no reply. `NotSent`: the broker has done nothing."""
        try:
            number = next(self._numbers) & 0x7FFFFFFF
            deadline = time.monotonic() + self._timeout_ms / 1000
            self._send(frame_of(call, request, number, self._client_id), deadline)
            self.used_at = time.monotonic()
        except BaseException:
            self.close()
            raise

    def close(self) -> None:
        """Closes the connection. The broker releases what its share sessions hold. A call that waits ends at once."""
        self.is_open = False
        try:
            self._socket.shutdown(socket.SHUT_RDWR)
        except OSError:
            pass
        self._socket.close()

    def has_ended(self) -> bool:
        """Whether it ended between a reply and the next request, as the broker ends what was silent for long. It is
        closed then."""
        try:
            if self.is_open and self._has_news():
                self.close()
        except OSError:
            self.close()
        return not self.is_open

    def _has_news(self) -> bool:
        """Whether the connection has ended, or bytes have come, between a reply and the next request. It is of no use
        then."""
        self._socket.setblocking(False)
        try:
            self._socket.recv(1, 0 if isinstance(self._socket, ssl.SSLSocket) else socket.MSG_PEEK)
        except (BlockingIOError, ssl.SSLWantReadError):
            return False
        return True

    def _set_time(self, deadline: float) -> None:
        left = deadline - time.monotonic()
        if left <= 0:
            raise TimeoutError("the time is up")
        self._socket.settimeout(left)

    def _send(self, frame: bytes, deadline: float) -> None:
        sent = 0
        try:
            if self._has_news():
                raise ConnectionResetError("the broker closed it, or sent what nobody asked for")
            while sent < len(frame):
                self._set_time(deadline)
                sent += self._socket.send(frame[sent:sent + 1048576])
        except OSError as fault:
            raise NotSent(f"the connection ended within a request: {fault}") from fault

    def _receive(self, size: int, deadline: float) -> bytes:
        pieces, left = [], size
        try:
            while left:
                self._set_time(deadline)
                piece = self._socket.recv(min(left, 1048576))
                if not piece:
                    raise ConnectionResetError("the broker closed it")
                pieces.append(piece)
                left -= len(piece)
        except OSError as fault:
            raise ConnectionLost(f"the connection ended before a reply: {fault}") from fault
        return b"".join(pieces)


def _encrypted(plain: socket.socket, context: ssl.SSLContext, host: str) -> socket.socket:
    """The connection with TLS around it. The time of the connecting bounds the handshake, too."""
    try:
        return context.wrap_socket(plain, server_hostname=host)
    except BaseException:
        plain.close()
        raise


def check_versions(connection: Connection, calls: Sequence[Call[Any, Any]] = NEEDED) -> None:
    """Asks which calls are served, and refuses a broker that lacks one of these (`UnsupportedBroker`)."""
    asked = ApiVersionsRequest("sharebroker-python", __version__)
    reply = connection.call(API_VERSIONS, asked)
    if reply.error_code:
        raise UnsupportedBroker(str(Refused("ApiVersions", reply.error_code)))
    served = {entry.api_key: (entry.min_version, entry.max_version) for entry in reply.api_keys}
    for call in calls:
        least, most = served.get(call.key, (0, -1))
        if not least <= call.version <= most:
            raise UnsupportedBroker(f"the broker doesn't serve {call.name} in version {call.version}")


def ask_metadata(connection: Connection) -> MetadataResponse:
    """Asks where the broker is reached, and for all its topics."""
    return connection.call(METADATA, MetadataRequest(None, False, False))
