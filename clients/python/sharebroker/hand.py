"""The records that a consumer has in hand: those of its last poll that it hasn't committed."""

from __future__ import annotations

from dataclasses import dataclass
from typing import Dict, Iterable, List, Optional, Sequence, Tuple
from uuid import UUID

from .errors import NotInHand
from .records import Acknowledgement, AcknowledgeType, ConsumerRecord, Outcome
from .share_messages import AcknowledgementBatch

#: A partition: its topic's id, and its number.
Part = Tuple[UUID, int]

#: What is sent for an offset that was acquired and has no record.
GAP = 0


def batches_of(types: Dict[int, int]) -> List[AcknowledgementBatch]:
    """The acknowledgement batches that say this of these offsets: a batch for each run of offsets that follow each
    other, with one type where it is the same for all."""
    runs: List[List[int]] = []
    for offset in sorted(types):
        if runs and runs[-1][-1] + 1 == offset:
            runs[-1].append(offset)
        else:
            runs.append([offset])
    batches = []
    for run in runs:
        told = [types[offset] for offset in run]
        batches.append(AcknowledgementBatch(run[0], run[-1], told[:1] if len(set(told)) == 1 else told))
    return batches


class Sent:
    """Acknowledgements that are on their way: by partition the type of each offset, and the records with theirs."""

    def __init__(self, gaps: Dict[Part, List[int]]) -> None:
        self._types: Dict[Part, Dict[int, int]] = {
            part: {offset: GAP for offset in offsets} for part, offsets in gaps.items()}
        self._records: Dict[Part, List[Tuple[ConsumerRecord, AcknowledgeType]]] = {}

    def add(self, part: Part, record: ConsumerRecord, type_: AcknowledgeType) -> None:
        """Adds the acknowledgement of a record."""
        self._types.setdefault(part, {})[record.offset] = int(type_)
        self._records.setdefault(part, []).append((record, type_))

    def parts(self) -> List[Part]:
        """The partitions."""
        return list(self._types)

    def batches(self) -> Dict[Part, List[AcknowledgementBatch]]:
        """What is sent, by partition."""
        return {part: batches_of(types) for part, types in self._types.items()}

    def only(self, parts: Iterable[Part]) -> Sent:
        """Those of these partitions alone."""
        chosen = Sent({})
        for part in parts:
            chosen._types[part] = self._types[part]
            chosen._records[part] = self._records.get(part, [])
        return chosen

    def ended(self, part: Part, outcome: Outcome, code: int = 0) -> List[Acknowledgement]:
        """What became of the records of a partition."""
        return [Acknowledgement(record, type_, outcome, code) for record, type_ in self._records.get(part, [])]

    def all_ended(self, outcome: Outcome) -> List[Acknowledgement]:
        """What became of all of them."""
        return [told for part in self._records for told in self.ended(part, outcome)]

    def __bool__(self) -> bool:
        return bool(self._types)


@dataclass(frozen=True)
class Lock:
    """When records were locked at the earliest (`time.monotonic`), and for how long, in seconds."""

    began: float
    seconds: float

    @property
    def ends(self) -> float:
        """Until then they are locked for certain."""
        return self.began + self.seconds

    @property
    def leaves_time_until(self) -> float:
        """A release that is sent then comes before the lock's end."""
        return self.ends - min(1.0, self.seconds / 10)


@dataclass(frozen=True)
class Choice:
    """What was chosen for a record, from when on it is to be sent (`time.monotonic`, 0 for at once), and its lock."""

    record: ConsumerRecord
    type: AcknowledgeType
    due: float
    lock: Lock


class Hand:
    """The records of one poll, the offsets that it acquired and that have no record, and the records of earlier polls
    whose release waits."""

    def __init__(self, records: Sequence[Tuple[Part, ConsumerRecord]] = (),
                 gaps: Optional[Dict[Part, List[int]]] = None, lock: Lock = Lock(0.0, 0.0)) -> None:
        self._open = {(part, record.offset): record for part, record in records}
        self._part_of = {(record.topic, record.partition): part for part, record in records}
        self._chosen: Dict[Tuple[Part, int], Choice] = {}
        self._gaps = gaps or {}
        self._lock = lock
        #: Whether the session in which they were acquired has ended. The broker has released them then.
        self.is_lost = False

    def keep(self, before: Hand) -> List[Acknowledgement]:
        """Takes over what waits in the hand before. It gives the releases of records that came again in this one, as
        their locks had ended: they are lost."""
        lost = []
        for key, choice in before._chosen.items():
            if key in self._open:
                lost.append(Acknowledgement(choice.record, choice.type, Outcome.LOST))
            else:
                self._chosen[key] = choice
                self._part_of.setdefault((choice.record.topic, choice.record.partition), key[0])
        return lost

    def unacknowledged(self) -> int:
        """How many records aren't acknowledged."""
        return len(self._open)

    def acknowledge(self, record: ConsumerRecord, type_: AcknowledgeType, due: float = 0.0) -> None:
        """Chooses what becomes of a record, or chooses again, and from when on that is sent: before its lock ends.
        `NotInHand`: it isn't of this poll, or was sent already."""
        part = self._part_of.get((record.topic, record.partition))
        if part is not None:
            key = (part, record.offset)
            chosen = self._chosen.get(key)
            if self._open.get(key) is record or chosen is not None and chosen.record is record:
                self._open.pop(key, None)
                lock = chosen.lock if chosen is not None else self._lock
                self._chosen[key] = Choice(record, type_, min(due, lock.leaves_time_until), lock)
                return
        raise NotInHand(f"{record.topic}/{record.partition} offset {record.offset} isn't a record of the last poll "
                        "that waits for its acknowledgement")

    def accept_all(self) -> None:
        """Accepts all that isn't acknowledged."""
        for record in list(self._open.values()):
            self.acknowledge(record, AcknowledgeType.ACCEPT)

    def next_due(self, now: float) -> Optional[float]:
        """When the next release that waits is to be sent, or None where none waits."""
        return min((choice.due for choice in self._chosen.values() if choice.due > now), default=None)

    def take(self, now: float) -> Sent:
        """Takes the gaps, and what was chosen and is to be sent by now. What waits stays."""
        sent = Sent(self._gaps)
        waits = {}
        for key, choice in self._chosen.items():
            if choice.due > now:
                waits[key] = choice
            else:
                sent.add(key[0], choice.record, choice.type)
        self._chosen, self._gaps = waits, {}
        return sent

    def take_late(self, now: float) -> List[Acknowledgement]:
        """Takes the releases that waited and whose locks have ended: the broker has released these records itself. An
        acknowledgement of them would be refused, and all others of their partition with it."""
        late = [key for key, choice in self._chosen.items() if choice.due > 0.0 and choice.lock.ends <= now]
        taken = [self._chosen.pop(key) for key in late]
        return [Acknowledgement(choice.record, choice.type, Outcome.LOST) for choice in taken]
