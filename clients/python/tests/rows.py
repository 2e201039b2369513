"""Reads the files of rows in `crates/layer_rows/data`. Their bytes and texts are written by hand from the layouts
that Kafka publishes."""

import os
import re
import uuid

from context import TOP


def rows_of(name):
    """The rows of a file: for each line of a case that isn't `bytes` or `cut`, the case, the bytes so far, and the
    line."""
    rows, case, data = [], None, b""
    with open(os.path.join(TOP, "crates", "layer_rows", "data", name), encoding="utf-8") as lines:
        for line in map(str.strip, lines):
            if not line or line.startswith(("#", "layer ")):
                continue
            word, _, rest = line.partition(" ")
            if word == "case":
                case = rest
            elif word == "bytes":
                data = bytes_of(rest)
            elif word == "cut":
                data = data[:int(rest)]
            else:
                rows.append((case, data, line))
    return rows


def bytes_of(text):
    """Bytes in hexadecimal digits with blanks between, where `{16*11}` is the byte 11 sixteen times."""
    text = re.sub(r"\{(\d+)\*([0-9a-f]*)\}", lambda match: match[2] * int(match[1]), text)
    return bytes.fromhex(text.replace(" ", ""))


TOKEN = re.compile(r'\s*([{}\[\]:,]|"[^"]*"|[0-9a-f]{8}(?:-[0-9a-f]{4}){3}-[0-9a-f]{12}|-?\d+|\w+)')


def value_of(text):
    """The value of a text such as `{ group: "g1", topics: [{ id: 0 }], rack: null }`, in dicts and lists."""
    value, rest = _value(TOKEN.findall(text))
    assert not rest, text
    return value


def _value(tokens):
    token, rest = tokens[0], tokens[1:]
    if token == "{":
        fields = {}
        while rest[0] != "}":
            name, rest = rest[0], rest[2:]
            fields[name], rest = _value(rest)
            rest = rest[1:] if rest[0] == "," else rest
        return fields, rest[1:]
    if token == "[":
        items = []
        while rest[0] != "]":
            item, rest = _value(rest)
            items.append(item)
            rest = rest[1:] if rest[0] == "," else rest
        return items, rest[1:]
    return _plain(token), rest


def _plain(token):
    if token.startswith('"'):
        return token[1:-1]
    if token in ("null", "true", "false"):
        return {"null": None, "true": True, "false": False}[token]
    return uuid.UUID(token) if len(token) == 36 else int(token)
