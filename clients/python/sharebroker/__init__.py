"""A client for sharebroker: producers, share consumers (KIP-932), deletions, and a command line.

    from sharebroker import Producer, ShareConsumer
"""

from .accumulator import RecordMetadata
from .errors import (BufferFull, Closed, ConcurrentUse, ConnectionLost, DeliveryTimeout, MalformedReply, NotInHand,
                     NotSent, NotSubscribed, OutcomeUnknown, RecordTooLarge, Refused, ShareBrokerError, Unacknowledged,
                     UnknownTopic, Unreachable, UnsupportedBroker, WrongMode)
from .consumer import ConsumerSettings, ShareConsumer
from .deletes import LOG_END, DeletedRecords, delete_records
from .producer import Producer, ProducerSettings
from .records import Acknowledgement, AcknowledgeType, ConsumerRecord, Outcome
from .states import DeliveryState, PartitionState, StoredRun, share_group_state
from .version import __version__

__all__ = [
    "Acknowledgement", "AcknowledgeType", "BufferFull", "Closed", "ConcurrentUse", "ConnectionLost", "ConsumerRecord",
    "ConsumerSettings", "DeletedRecords", "DeliveryState", "DeliveryTimeout", "LOG_END", "MalformedReply", "NotInHand",
    "NotSent", "NotSubscribed", "Outcome", "OutcomeUnknown", "PartitionState", "Producer", "ProducerSettings",
    "RecordMetadata", "RecordTooLarge", "Refused", "ShareBrokerError", "ShareConsumer", "StoredRun", "Unacknowledged",
    "UnknownTopic", "Unreachable", "UnsupportedBroker", "WrongMode", "__version__", "delete_records",
    "share_group_state",
]
