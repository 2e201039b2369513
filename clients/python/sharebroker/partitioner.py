"""Which partition a record with a key goes to: that of Kafka's default partitioner."""

from __future__ import annotations

_MULTIPLIER = 0x5BD1E995
_SEED = 0x9747B28C
_MASK = 0xFFFFFFFF


def murmur2(data: bytes) -> int:
    """MurmurHash2 of 32 bits with Kafka's seed, as a signed number, as Kafka's `Utils.murmur2` gives it."""
    whole = len(data) & ~3
    hashed = _SEED ^ len(data)
    for i in range(0, whole, 4):
        word = int.from_bytes(data[i:i + 4], "little") * _MULTIPLIER & _MASK
        word = (word ^ word >> 24) * _MULTIPLIER & _MASK
        hashed = hashed * _MULTIPLIER & _MASK ^ word
    if whole < len(data):
        hashed = (hashed ^ int.from_bytes(data[whole:], "little")) * _MULTIPLIER & _MASK
    hashed = (hashed ^ hashed >> 13) * _MULTIPLIER & _MASK
    hashed ^= hashed >> 15
    return hashed - (1 << 32) if hashed >> 31 else hashed


def partition_of(key: bytes, partitions: int) -> int:
    """The partition of a key in a topic of so many partitions, from 0 on: equal keys get the same one."""
    return (murmur2(key) & 0x7FFFFFFF) % partitions
