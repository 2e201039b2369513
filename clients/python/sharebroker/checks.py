"""Arguments that make no sense are told by their names: another type is a `TypeError`, another value a `ValueError`."""

from __future__ import annotations

import ssl

#: The longest time that can be given, in ms: some 24 days. A time that is sent along has 32 bits.
MOST_MS = 2147483647


def check_whole(name: str, value: object, least: int, most: int) -> None:
    """A whole number, both ends within."""
    if not isinstance(value, int) or isinstance(value, bool):
        raise TypeError(f"{name} is a whole number, and not {type(value).__name__}")
    if not least <= value <= most:
        raise ValueError(f"{name} is {least} to {most}, and not {value}")


def check_ms(name: str, value: object, least: float = 0) -> None:
    """A time in milliseconds, also a part of one."""
    if not isinstance(value, (int, float)) or isinstance(value, bool):
        raise TypeError(f"{name} is a number of milliseconds, and not {type(value).__name__}")
    if not least <= value <= MOST_MS:
        raise ValueError(f"{name} is {least} to {MOST_MS}, and not {value}")


def check_flag(name: str, value: object) -> None:
    """True or False."""
    if not isinstance(value, bool):
        raise TypeError(f"{name} is True or False, and not {type(value).__name__}")


def check_text(name: str, value: object, least_bytes: int, most_bytes: int) -> None:
    """A text of so many bytes in UTF-8, both ends within."""
    if not isinstance(value, str):
        raise TypeError(f"{name} is a text, and not {type(value).__name__}")
    if not least_bytes <= len(value.encode()) <= most_bytes:
        raise ValueError(f"{name} has {least_bytes} to {most_bytes} bytes, and not {len(value.encode())}")


def check_bytes(name: str, value: object) -> None:
    """Bytes, or None."""
    if value is not None and not isinstance(value, (bytes, bytearray)):
        raise TypeError(f"{name} is bytes or None, and not {type(value).__name__}")


def check_ssl_context(value: object) -> None:
    """What connections are encrypted with, or None."""
    if value is not None and not isinstance(value, ssl.SSLContext):
        raise TypeError(f"ssl_context is an ssl.SSLContext or None, and not {type(value).__name__}")
