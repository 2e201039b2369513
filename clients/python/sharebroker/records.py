"""What a share consumer is given, and what it says of it."""

from __future__ import annotations

from dataclasses import dataclass
from enum import Enum, IntEnum
from typing import Optional, Tuple

from .batches import Header


@dataclass(frozen=True)
class ConsumerRecord:
    """A record that is locked for this consumer.

    `timestamp_ms` is what its producer gave, in ms since 1970 (UTC). `delivery_count` says how often the record was
    delivered in this group, this time counted, from 1 on.
    """

    topic: str
    partition: int
    offset: int
    timestamp_ms: int
    key: Optional[bytes]
    value: Optional[bytes]
    headers: Tuple[Header, ...]
    delivery_count: int


class AcknowledgeType(IntEnum):
    """What becomes of a record, by the numbers of KIP-932.

    `ACCEPT`: it is done. `RELEASE`: it is delivered again, to any consumer of the group, unless it was delivered as
    often as the broker's limit says; then it is archived. `REJECT`: it is archived, and never delivered again.
    """

    ACCEPT = 1
    RELEASE = 2
    REJECT = 3


class Outcome(Enum):
    """What became of an acknowledgement.

    `STORED`: the broker has stored it. `LOST`: the record's lock had ended before, so nothing was stored, and the
    record is delivered again, or archived where it reached the limit. `UNKNOWN`: the connection ended before the
    reply; it is stored, or it is as with `LOST`. `REFUSED`: the broker refused it, as with code 56 where its disk
    failed; the record stays locked until its lock ends, and is then delivered again.
    """

    STORED = "stored"
    LOST = "lost"
    UNKNOWN = "unknown"
    REFUSED = "refused"


@dataclass(frozen=True)
class Acknowledgement:
    """What became of the acknowledgement of a record. `code` is the broker's where it was refused, and else 0."""

    record: ConsumerRecord
    type: AcknowledgeType
    outcome: Outcome
    code: int = 0
