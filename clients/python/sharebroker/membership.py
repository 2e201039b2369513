"""The member of a share group: a thread that lets the broker hear of it, on a connection of its own."""

from __future__ import annotations

import threading
import time
from typing import Callable, List, Optional, Sequence
from uuid import UUID

from .errors import (FENCED_MEMBER_EPOCH, UNKNOWN_MEMBER_ID, Closed, ConnectionLost, MalformedReply, NotSent, Refused,
                     ShareBrokerError, Unreachable)
from .hand import Part
from .link import LOG, Link
from .share_messages import SHARE_GROUP_HEARTBEAT, ShareGroupHeartbeatRequest, ShareGroupHeartbeatResponse

#: How long a connection is tried before it is looked whether the end is, in seconds.
CONNECT_S = 1.0
#: The pause before a member joins anew that the broker has forgotten, in seconds.
REJOIN_S = 0.1


class Membership:
    """A member. It is heard as often as the broker wants it, as long as the consumer polls.

    Where no poll was begun for `max_poll_interval_ms` it leaves the group, calls `on_leave`, and joins again with the
    next poll. While a call of the consumer is under way it stays.
    """

    def __init__(self, link: Link, group_id: str, member_id: str, max_poll_interval_ms: float,
                 on_leave: Callable[[], None]) -> None:
        self._link = link
        self._group_id = group_id
        self._member_id = member_id
        self._max_poll_interval = max_poll_interval_ms / 1000
        self._on_leave = on_leave
        self._changed = threading.Condition()
        self._polled_at = 0.0
        self._is_called = False
        self._is_away = False
        self._topics: List[str] = []
        self._epoch = 0
        self._due = 0.0
        self._assigned: List[Part] = []
        self._is_told = False
        self._fault: Optional[Exception] = None
        self._ends = False
        self._thread: Optional[threading.Thread] = None

    def subscribe(self, topics: Sequence[str]) -> None:
        """Wants these topics in place of others. The first time it joins the group."""
        with self._changed:
            self._topics = sorted(set(topics))
            self._is_told = False
            self._due = 0.0
            self._changed.notify_all()
            if self._thread is None:
                self._polled_at = time.monotonic()
                self._thread = threading.Thread(target=self._run, name="sharebroker-heartbeats", daemon=True)
                self._thread.start()

    def call_begins(self) -> None:
        """A call of the consumer begins."""
        with self._changed:
            self._is_called = True

    def poll_begins(self) -> None:
        """The call is a poll: a member that has left joins again."""
        with self._changed:
            if self._is_away:
                self._is_away = False
                self._due = 0.0
                self._changed.notify_all()

    def call_ends(self, is_poll: bool) -> None:
        """The call has ended. From the end of a poll on the time runs until the next one."""
        with self._changed:
            self._is_called = False
            if is_poll:
                self._polled_at = time.monotonic()
            if self._overdue_at() < self._due:
                # The thread may wait for longer.
                self._changed.notify_all()

    def assigned(self, deadline: float) -> List[Part]:
        """The partitions that the member is to read. Until they are told it waits, and there are none at the deadline.

        Where the broker refused the member: `Refused`.
        """
        with self._changed:
            while not self._is_told and self._fault is None:
                left = deadline - time.monotonic()
                if left <= 0:
                    return []
                self._changed.wait(left)
            if self._fault is not None:
                raise self._fault
            return list(self._assigned)

    def wait_for_change(self, known: List[Part], deadline: float) -> None:
        """Waits until other partitions are assigned, or the deadline."""
        with self._changed:
            while self._is_told and self._assigned == known and self._fault is None:
                left = deadline - time.monotonic()
                if left <= 0:
                    return
                self._changed.wait(left)

    def leave(self) -> None:
        """Leaves the group, where the broker can be reached, and ends the thread."""
        with self._changed:
            self._ends = True
            self._changed.notify_all()
            thread = self._thread
        if thread is not None:
            thread.join(CONNECT_S)
        self._link.close()
        if thread is not None:
            thread.join()

    def _run(self) -> None:
        while True:
            with self._changed:
                while not self._ends and not self._has_work():
                    self._changed.wait(self._pause())
                if self._ends:
                    break
                leaves = self._is_overdue()
                if leaves:
                    self._set_away()
                request = ShareGroupHeartbeatRequest(self._group_id, self._member_id, self._epoch, None, self._topics)
                # The next one, where this one fails: the pause is the link's.
                self._due = 0.0
            if leaves:
                self._go_away()
            elif not self._beat(request):
                return
        self._say_goodbye()

    def _overdue_at(self) -> float:
        return self._polled_at + self._max_poll_interval

    def _is_overdue(self) -> bool:
        return not self._is_away and not self._is_called and self._overdue_at() <= time.monotonic()

    def _has_work(self) -> bool:
        return self._is_overdue() or not self._is_away and self._due <= time.monotonic()

    def _pause(self) -> Optional[float]:
        """How long there is nothing to do, in seconds; None until the next call."""
        if self._is_away:
            return None
        moment = self._due if self._is_called else min(self._due, self._overdue_at())
        return max(0.0, moment - time.monotonic())

    def _set_away(self) -> None:
        """Nothing is assigned any more. What is in hand is let go while no call is under way."""
        self._is_away, self._is_told, self._assigned = True, False, []
        self._on_leave()

    def _go_away(self) -> None:
        """Leaves the group, until the next poll."""
        LOG.warning("poll wasn't called for %d ms: the member leaves the group %r until it is, and the broker releases "
                    "what was held", self._max_poll_interval * 1000, self._group_id)
        self._say_goodbye()
        self._link.let_go()
        with self._changed:
            self._epoch = 0

    def _beat(self, request: ShareGroupHeartbeatRequest) -> bool:
        """Sends a heartbeat. It is False where no other makes sense."""
        began = time.monotonic()
        try:
            reply = self._link.connect(began + CONNECT_S).call(SHARE_GROUP_HEARTBEAT, request)
        except Unreachable:
            return True
        except (NotSent, ConnectionLost, MalformedReply) as fault:
            self._link.lost(fault)
            return True
        except Closed:
            return False
        except ShareBrokerError as fault:
            self._tell(fault)
            return False
        self._link.works()
        return self._answered(request, reply, began)

    def _answered(self, request: ShareGroupHeartbeatRequest, reply: ShareGroupHeartbeatResponse, began: float) -> bool:
        if reply.error_code in (UNKNOWN_MEMBER_ID, FENCED_MEMBER_EPOCH):
            with self._changed:
                self._epoch = 0
                self._due = began + REJOIN_S
            return True
        if reply.error_code:
            self._tell(Refused(f"member of the group {self._group_id!r}", reply.error_code))
            return False
        with self._changed:
            self._epoch = reply.member_epoch
            if request.subscribed_topic_names != self._topics:
                return True
            self._due = began + max(reply.heartbeat_interval_ms, 0) / 1000
            if not self._is_told:
                self._name_unknown()
            self._is_told = True
            if reply.assignment is not None:
                self._assigned = [(topic.topic_id, number) for topic in reply.assignment.topic_partitions
                                  for number in topic.partitions]
            self._changed.notify_all()
        return True

    def name_of(self, topic_id: UUID) -> str:
        """The name of a topic that is assigned."""
        known = self._link.topics.by_id.get(topic_id) if self._link.topics else None
        return known.name if known else str(topic_id)

    def _name_unknown(self) -> None:
        for name in self._topics:
            if self._link.topics is not None and name not in self._link.topics.by_name:
                LOG.warning("the broker has no topic %r, which is subscribed to", name)

    def _tell(self, fault: Exception) -> None:
        with self._changed:
            self._fault = fault
            self._changed.notify_all()

    def _say_goodbye(self) -> None:
        connection = self._link.current()
        if connection is None or self._epoch == 0:
            return
        try:
            connection.call(SHARE_GROUP_HEARTBEAT,
                            ShareGroupHeartbeatRequest(self._group_id, self._member_id, -1, None, None))
        except ShareBrokerError:
            pass
