"""What can go wrong, each with a name.

All of these are a `ShareBrokerError`. Each says in its own words what stands after it; where nothing is said,
nothing was sent and nothing has changed.
"""

from __future__ import annotations

#: The error codes of the Kafka protocol that the broker answers with.
CODE_NAMES = {
    0: "NONE",
    1: "OFFSET_OUT_OF_RANGE",
    2: "CORRUPT_MESSAGE",
    3: "UNKNOWN_TOPIC_OR_PARTITION",
    10: "MESSAGE_TOO_LARGE",
    21: "INVALID_REQUIRED_ACKS",
    24: "INVALID_GROUP_ID",
    25: "UNKNOWN_MEMBER_ID",
    35: "UNSUPPORTED_VERSION",
    42: "INVALID_REQUEST",
    56: "KAFKA_STORAGE_ERROR",
    74: "FENCED_LEADER_EPOCH",
    76: "UNSUPPORTED_COMPRESSION_TYPE",
    81: "GROUP_MAX_SIZE_REACHED",
    87: "INVALID_RECORD",
    100: "UNKNOWN_TOPIC_ID",
    110: "FENCED_MEMBER_EPOCH",
    121: "INVALID_RECORD_STATE",
    122: "SHARE_SESSION_NOT_FOUND",
    123: "INVALID_SHARE_SESSION_EPOCH",
    124: "FENCED_STATE_EPOCH",
    133: "SHARE_SESSION_LIMIT_REACHED",
}

CORRUPT_MESSAGE = 2
UNKNOWN_TOPIC_OR_PARTITION = 3
UNKNOWN_MEMBER_ID = 25
KAFKA_STORAGE_ERROR = 56
FENCED_MEMBER_EPOCH = 110
INVALID_RECORD_STATE = 121
SHARE_SESSION_NOT_FOUND = 122
INVALID_SHARE_SESSION_EPOCH = 123


class ShareBrokerError(Exception):
    """What every error of this package is."""


class Refused(ShareBrokerError):
    """The broker answered with an error code: what was asked isn't done.

    After code 56 a power loss of the broker, before its next write, may find it done all the same.
    """

    def __init__(self, what: str, code: int) -> None:
        self.code = code
        self.name = CODE_NAMES.get(code, "unknown code")
        super().__init__(f"{what}: the broker answered with code {code}, {self.name}")


class Unreachable(ShareBrokerError):
    """No connection could be made in time."""


class NotSent(ShareBrokerError):
    """The connection ended before a request was handed over whole: the broker has done nothing of it."""


class ConnectionLost(ShareBrokerError):
    """The connection ended, or the time was up, between a request and its reply: the broker may have done it or not."""


class MalformedReply(ShareBrokerError):
    """Bytes of the broker aren't what the protocol says. The connection is closed after it.

    `place` counts bytes from 0 on, and `reason` is one of `Short`, `BadLength`, `BadVarint`, `NotUtf8`, `Trailing` for
    a field, and else a sentence.
    """

    def __init__(self, reason: str, place: int) -> None:
        self.reason = reason
        self.place = place
        super().__init__(f"malformed bytes from the broker: {reason} at {place}")


class UnsupportedBroker(ShareBrokerError):
    """The broker doesn't serve a call in the version that this client speaks."""


class UnknownTopic(ShareBrokerError):
    """The broker has no topic of this name, or the topic has no partition of this number."""


class RecordTooLarge(ShareBrokerError):
    """A record alone would make a batch longer than the broker takes. `most` is how many bytes that are."""

    def __init__(self, size: int, most: int) -> None:
        self.most = most
        super().__init__(f"the record is too large: alone in a batch it makes {size} bytes, and the broker takes {most}")


class BufferFull(ShareBrokerError):
    """Records wait for the broker, and there was no room for another one in time."""


class OutcomeUnknown(ShareBrokerError):
    """A batch was sent, and no reply came: it may be stored or not. It isn't sent again unless that was asked for.

    So also where a batch that was sent again was refused then: the cause (`__cause__`) is that refusal.
    """


class DeliveryTimeout(ShareBrokerError):
    """A batch couldn't be stored in time.

    The cause (`__cause__`) is `OutcomeUnknown`, or `Refused` with code 56, where any sending of it may have stored it.
    Else it isn't stored, and the cause is the last thing that kept it from that.
    """


class Unacknowledged(ShareBrokerError):
    """In explicit mode, `poll` was called before each record of the last poll was acknowledged."""


class NotInHand(ShareBrokerError):
    """A record was acknowledged that isn't one of the last poll, or that was committed already."""


class WrongMode(ShareBrokerError):
    """`acknowledge` was called in implicit mode."""


class NotSubscribed(ShareBrokerError):
    """`poll` was called before `subscribe` named a topic."""


class ConcurrentUse(ShareBrokerError):
    """A consumer was called while another thread was in a call of it. One thread at a time may use it."""


class Closed(ShareBrokerError):
    """It was closed before."""
