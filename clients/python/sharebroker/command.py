"""The command line: `produce`, `consume`, `state` and `delete-records`, in the manner of Kafka's console tools."""

from __future__ import annotations

import argparse
import logging
import os
import select
import ssl
import sys
from collections import deque
from concurrent.futures import Future
from typing import BinaryIO, Callable, Deque, List, Optional, Sequence, Tuple

from .accumulator import RecordMetadata
from .batches import BATCH_OVERHEAD, MAX_BATCH_BYTES
from .checks import MOST_MS
from .connection import parse_addresses
from .consumer import ShareConsumer
from .deletes import LOG_END, delete_records
from .errors import ShareBrokerError, Unreachable
from .producer import Producer
from .records import AcknowledgeType, ConsumerRecord, Outcome
from .states import PartitionState, share_group_state
from .version import __version__

EXAMPLES = """examples:
  echo 'resize picture 7' | sharebroker-client produce --bootstrap-server localhost:9092 --topic jobs
  sharebroker-client consume --bootstrap-server localhost:9092 --topic jobs --group resizers --max-messages 1
  sharebroker-client state --bootstrap-server localhost:9092 --group resizers
  sharebroker-client delete-records --bootstrap-server localhost:9092 --topic jobs --partition 0 --before-offset 7 \\
      --group resizers

Without pip the words are `python3 -m sharebroker produce ..`. The status is 0 where all was done, 1 where something
failed, which standard error says, and 2 where the words aren't right.
"""

#: How long the broker is waited for where no word says it, in ms.
PATIENCE_MS = 30000
#: The code of an offset that isn't one of the log.
OFFSET_OUT_OF_RANGE = 1


def _parser() -> argparse.ArgumentParser:
    parser = argparse.ArgumentParser(prog="sharebroker-client", description="Talks to sharebroker.", epilog=EXAMPLES,
                                     formatter_class=argparse.RawDescriptionHelpFormatter)
    parser.add_argument("--version", action="version", version=f"%(prog)s {__version__}")
    commands = parser.add_subparsers(dest="command", required=True)
    for name, does, says in (("produce", produce, "sends each line of standard input as a record"),
                             ("consume", consume, "writes each record to standard output as a line"),
                             ("state", state, "writes what is stored of a share group"),
                             ("delete-records", delete, "deletes the records of a partition below an offset")):
        command = commands.add_parser(name, help=says, description=f"{name}: {says}.")
        command.set_defaults(does=does)
        command.add_argument("--bootstrap-server", required=True, metavar="HOST:PORT", type=_addresses,
                             help="where the broker listens")
        command.add_argument("--tls-ca", metavar="FILE", help="connect by TLS, to who has a certificate of these"
                             " authorities (PEM)")
        command.add_argument("--tls-cert", metavar="FILE", help="connect by TLS, with this certificate (PEM)")
        command.add_argument("--tls-key", metavar="FILE", help="its key, where --tls-cert hasn't it")
    _produce_words(commands.choices["produce"])
    _consume_words(commands.choices["consume"])
    _state_words(commands.choices["state"])
    _delete_words(commands.choices["delete-records"])
    return parser


def _addresses(text: str) -> str:
    try:
        parse_addresses(text)
    except ValueError as fault:
        raise argparse.ArgumentTypeError(str(fault).split(": ", 1)[-1]) from fault
    return text


def _whole(least: int, most: int) -> Callable[[str], int]:
    """Reads a whole number, both ends within."""
    def read(text: str) -> int:
        try:
            value = int(text)
        except ValueError:
            value = least - 1
        if not least <= value <= most:
            raise argparse.ArgumentTypeError(f"it takes {least} to {most}, and not {text}")
        return value
    return read


def _milliseconds(text: str) -> float:
    try:
        value = float(text)
    except ValueError:
        value = -1
    if not 0 <= value <= MOST_MS:
        raise argparse.ArgumentTypeError(f"it takes 0 to {MOST_MS} milliseconds, and not {text}")
    return value


def _group(text: str) -> str:
    if not 1 <= len(text.encode()) <= 255:
        raise argparse.ArgumentTypeError("it takes 1 to 255 bytes")
    return text


def _produce_words(command: argparse.ArgumentParser) -> None:
    command.add_argument("--topic", required=True)
    command.add_argument("--key-separator", metavar="TEXT", help="what stands between the key and the value of a line;"
                         " a line without it has no key. Without this word no line has")
    command.add_argument("--acks", choices=("all", "-1", "0", "1"), default="all",
                         help="all, -1, 1: a record counts as sent when it is stored and synced; 0: at once"
                         " (default all)")
    command.add_argument("--linger-ms", type=_milliseconds, default=5, metavar="MS",
                         help="how long a batch waits for more (default 5)")
    command.add_argument("--batch-size", type=_whole(BATCH_OVERHEAD, MAX_BATCH_BYTES), default=16384, metavar="N",
                         help=f"bytes of a batch, {BATCH_OVERHEAD} to {MAX_BATCH_BYTES} (default 16384)")
    command.add_argument("--retry-unknown", action="store_true",
                         help="send again what wasn't answered: at least once, and maybe twice")
    command.add_argument("--print-offsets", action="store_true", help="write TOPIC/PARTITION OFFSET for each record")


def _consume_words(command: argparse.ArgumentParser) -> None:
    command.add_argument("--topic", required=True, action="append", help="may be given more than once")
    command.add_argument("--group", type=_group, default="console-share-consumer",
                         help="(default console-share-consumer)")
    command.add_argument("--max-messages", type=_whole(1, 1 << 62), metavar="N", help="end after N records")
    command.add_argument("--timeout-ms", type=_whole(1, MOST_MS), metavar="MS", help="end when no record comes for so"
                         f" long; and wait so long for the broker at first (else {PATIENCE_MS})")
    ways = command.add_mutually_exclusive_group()
    ways.add_argument("--release", action="store_true", help="release each record in place of accepting it")
    ways.add_argument("--reject", action="store_true", help="reject each record in place of accepting it")
    command.add_argument("--print-key", action="store_true", help="write the key and a tab before the value")
    command.add_argument("--print-offset", action="store_true",
                         help="write TOPIC/PARTITION, the offset, the delivery count and a tab first")


def _state_words(command: argparse.ArgumentParser) -> None:
    command.add_argument("--group", required=True, type=_group)
    command.add_argument("--topic", action="append", help="may be given more than once (default: all)")


def _delete_words(command: argparse.ArgumentParser) -> None:
    command.add_argument("--topic", required=True)
    command.add_argument("--partition", required=True, type=_whole(0, 2147483647), metavar="N")
    command.add_argument("--before-offset", required=True, type=_whole(-1, (1 << 63) - 1), metavar="OFFSET",
                         help="records below it are deleted; -1 deletes all that are there")
    command.add_argument("--group", type=_group, action="append", default=[], help="look first whether this group has"
                         " done what is deleted, and ask where it hasn't; may be given more than once. Without this word"
                         " it isn't known, and it asks")
    command.add_argument("--yes", action="store_true", help="delete without asking")


def _tls(words: argparse.Namespace) -> Optional[ssl.SSLContext]:
    """What connections are encrypted with, by the words."""
    if not (words.tls_ca or words.tls_cert):
        return None
    try:
        context = ssl.create_default_context(cafile=words.tls_ca)
        if words.tls_cert:
            context.load_cert_chain(words.tls_cert, words.tls_key)
    except OSError as fault:
        names = ", ".join(name for name in (words.tls_ca, words.tls_cert, words.tls_key) if name)
        raise ValueError(f"TLS by {names}: {fault}") from fault
    return context


def produce(words: argparse.Namespace, output: BinaryIO) -> int:
    """Sends each line of standard input, without its line feed. Each is stored at the end, or the status is 1."""
    separator = words.key_separator.encode() if words.key_separator else None
    futures: Deque[Tuple[int, Future[RecordMetadata]]] = deque()
    failures = 0
    with Producer(words.bootstrap_server, acks=-1 if words.acks == "all" else int(words.acks),
                  linger_ms=words.linger_ms, batch_size=words.batch_size, retry_unknown=words.retry_unknown,
                  ssl_context=_tls(words)) as producer:
        producer.partitions_for(words.topic)
        for number, line in enumerate(sys.stdin.buffer, 1):
            value, key = line.rstrip(b"\n"), None
            if separator is not None and separator in value:
                key, value = value.split(separator, 1)
            try:
                futures.append((number, producer.send(words.topic, value, key)))
            except ShareBrokerError as fault:
                _say(f"line {number}: {fault}. It isn't sent, and no line behind it is")
                failures += 1
                break
            while futures and (futures[0][1].done() or len(futures) > 10000):
                failures += _told(*futures.popleft(), words.print_offsets, output)
        producer.flush()
        failures += sum(_told(number, future, words.print_offsets, output) for number, future in futures)
    return 1 if failures else 0


def _told(number: int, future: Future[RecordMetadata], prints: bool, output: BinaryIO) -> int:
    """Waits for the outcome of a line's record, and tells it. It is 1 where that is a failure."""
    try:
        stored = future.result()
    except ShareBrokerError as fault:
        _say(f"line {number}: {fault}")
        return 1
    if prints:
        output.write(f"{stored.topic}/{stored.partition} {stored.offset}\n".encode())
    return 0


def consume(words: argparse.Namespace, output: BinaryIO) -> int:
    """Writes each record, and acknowledges it when it is written. At the end all that wasn't is released: at most about
    as many as were written, as it takes one record at first, and up to twice as many each time."""
    left: Optional[int] = words.max_messages
    timeout_ms: Optional[int] = words.timeout_ms
    most = 1
    fault: Optional[OSError] = None
    with ShareConsumer(words.bootstrap_server, words.group, share_acknowledgement_mode="explicit",
                       ssl_context=_tls(words)) as consumer:
        _join(consumer, words.topic, PATIENCE_MS if timeout_ms is None else timeout_ms)
        while (left is None or left > 0) and fault is None and not _is_closed(output):
            records = consumer.poll(1000 if timeout_ms is None else timeout_ms, most if left is None else min(left, most))
            most = min(2 * most, consumer.settings.max_poll_records)
            if not records and timeout_ms is not None:
                break
            written, fault = _write(consumer, records, words, output)
            left = None if left is None else left - written
        failed = [told for told in consumer.commit() if told.outcome is not Outcome.STORED]
    if fault is not None:
        _drop_output()
    if isinstance(fault, BrokenPipeError) or _is_closed(output):
        return 1 if failed else 0
    if fault is not None:
        _say(f"standard output: {fault.strerror}")
    return 1 if failed or left or fault is not None else 0


def _join(consumer: ShareConsumer, topics: List[str], timeout_ms: float) -> None:
    """Joins the group. An unknown topic, no broker and no assignment in time are a `ShareBrokerError`."""
    for name in topics:
        consumer.partitions_for(name, timeout_ms)
    consumer.subscribe(topics)
    if not consumer.assignment(timeout_ms):
        raise Unreachable(f"the broker didn't tell within {timeout_ms} ms which partitions to read: a consumer takes two"
                          " of its workers")


def _write(consumer: ShareConsumer, records: List[ConsumerRecord], words: argparse.Namespace,
           output: BinaryIO) -> Tuple[int, Optional[OSError]]:
    """Writes records one by one, each of which is acknowledged then: how many, and what failed."""
    way = AcknowledgeType.ACCEPT
    if words.release or words.reject:
        way = AcknowledgeType.RELEASE if words.release else AcknowledgeType.REJECT
    for written, record in enumerate(records):
        try:
            output.write(_line(record, words))
            output.flush()
        except OSError as fault:
            return written, fault
        consumer.acknowledge(record, way)
    return len(records), None


def _line(record: ConsumerRecord, words: argparse.Namespace) -> bytes:
    pieces = []
    if words.print_offset:
        pieces.append(f"{record.topic}/{record.partition} {record.offset} x{record.delivery_count}".encode())
    if words.print_key:
        pieces.append(b"null" if record.key is None else record.key)
    pieces.append(b"null" if record.value is None else record.value)
    return b"\t".join(pieces) + b"\n"


def _is_closed(output: BinaryIO) -> bool:
    """Whether nobody reads the output any more, as behind `| head -3`."""
    poll = select.poll()
    poll.register(output.fileno(), 0)
    return any(event & select.POLLERR for _, event in poll.poll(0))


def _drop_output() -> None:
    """Standard output is of no use: nothing more is written to it, also at the end of the process."""
    os.dup2(os.open(os.devnull, os.O_WRONLY), sys.stdout.fileno())


def state(words: argparse.Namespace, output: BinaryIO) -> int:
    """Writes the start offset of each partition, its stored runs, and how many of them are done or given up."""
    for part in share_group_state(words.bootstrap_server, words.group, words.topic, ssl_context=_tls(words)):
        output.write("".join(f"{line}\n" for line in _state_lines(part)).encode())
    output.flush()
    return 0


def _state_lines(part: PartitionState) -> List[str]:
    if part.start_offset is None:
        return [f"{part.topic}/{part.partition} not fetched yet"]
    runs = [f"  {run.first_offset} to {run.last_offset} {run.state.name.lower()} x{run.delivery_count}"
            for run in part.runs]
    told = f"  from {part.start_offset} on {part.done} done, {part.given_up} given up"
    if part.start_offset > 0:
        told += f"; below {part.start_offset} all is done, given up or deleted, which isn't stored apart"
    return [f"{part.topic}/{part.partition} start {part.start_offset}", *runs, told]


def delete(words: argparse.Namespace, output: BinaryIO) -> int:
    """Deletes the records below the offset, and writes where the log starts then."""
    context = _tls(words)
    if not words.yes and not _is_agreed(words, context):
        _say("nothing is deleted")
        return 1
    place = (words.topic, words.partition)
    told, = delete_records(words.bootstrap_server, {place: words.before_offset}, ssl_context=context)
    if told.error is not None and told.error.code == OFFSET_OUT_OF_RANGE:
        # Nothing is below offset 0, so this deletes nothing.
        start, = delete_records(words.bootstrap_server, {place: 0}, ssl_context=context)
        _say(f"{told.error}: the log starts at {start.low_watermark} and ends before {words.before_offset}; -1 deletes all"
             " that it has")
        return 1
    if told.error is not None:
        raise told.error
    output.write(f"{told.topic}/{told.partition} low watermark {told.low_watermark}\n".encode())
    return 0


def _is_agreed(words: argparse.Namespace, context: Optional[ssl.SSLContext]) -> bool:
    """Whether the groups have done what is to be deleted, or somebody says that it goes all the same."""
    all_of_it = words.before_offset == LOG_END
    below = "all records" if all_of_it else f"the records below offset {words.before_offset}"
    doubts = []
    for group in words.group:
        part = share_group_state(words.bootstrap_server, group, [words.topic], ssl_context=context)
        here = [entry for entry in part if entry.partition == words.partition]
        number = here[0].open_below(words.before_offset) if here else 0
        if number:
            doubts.append(f"the group {group!r} hasn't done {number} of them")
    if not words.group or all_of_it:
        doubts.append("it isn't known whether all groups have done them")
    if not doubts:
        return True
    print(f"sharebroker: {below} of {words.topic}/{words.partition} go, and {', and '.join(doubts)}. Delete them? [y/N] ",
          end="", file=sys.stderr, flush=True)
    answer = sys.stdin.readline()
    if not answer.endswith("\n"):
        print(file=sys.stderr)
    return answer.strip().lower() in ("y", "yes")


def _say(text: str) -> None:
    print(f"sharebroker: {text}", file=sys.stderr)


def main(words: Optional[Sequence[str]] = None) -> int:
    """Does a command. The words are without the program's name; those of the process where none are given."""
    parser = _parser()
    parsed = parser.parse_args(words)
    if parsed.tls_key and not parsed.tls_cert:
        parser.error("--tls-key goes with --tls-cert")
    logging.basicConfig(level=logging.WARNING, format="sharebroker: %(message)s")
    try:
        status: int = parsed.does(parsed, sys.stdout.buffer)
        sys.stdout.buffer.flush()
        return status
    except (ShareBrokerError, ValueError) as fault:
        _say(str(fault))
        return 1
    except BrokenPipeError:
        _drop_output()
        return 1
    except OSError as fault:
        # A file of the words, or standard output.
        _say(str(fault))
        _drop_output()
        return 1
    except KeyboardInterrupt:
        return 130
