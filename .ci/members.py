"""The program as a server over sockets of the loopback and as a share consumer, and the members that speak to a server,
for `serve.py`."""

import os
import re
import socket
import struct
import subprocess
import sys
import threading
import time
from uuid import UUID

TOP = os.path.dirname(os.path.dirname(os.path.abspath(__file__)))
sys.path.insert(0, os.path.join(TOP, "clients", "python"))

from sharebroker.batches import MAX_BATCH_BYTES, BatchBuilder, read_batches  # noqa: E402
from sharebroker.connection import Connection, frame_of  # noqa: E402
from sharebroker.messages import DELETE_RECORDS, PRODUCE, READ_STATE, DeletePartition  # noqa: E402
from sharebroker.messages import DeleteRecordsRequest, DeleteTopic, ProducePartition, ProduceRequest  # noqa: E402
from sharebroker.messages import ProduceTopic, ReadPartition, ReadShareGroupStateRequest, ReadTopic  # noqa: E402
from sharebroker.share_messages import SHARE_ACKNOWLEDGE, SHARE_FETCH, AcknowledgementBatch  # noqa: E402
from sharebroker.share_messages import AskedPartition, AskedTopic  # noqa: E402
from sharebroker.share_messages import ShareAcknowledgeRequest, ShareFetchRequest  # noqa: E402

PROGRAM = os.environ.get("SHAREBROKER", os.path.join(TOP, "crates", "sharebroker", "out", "sharebroker"))
ORDERS = UUID("22222222-2222-2222-2222-222222222222")

#: How long anything is waited for, in seconds.
PATIENCE = 60

LISTENING = re.compile(r"sharebroker: listening on 127\.0\.0\.1:(\d+), (\d+) partitions?, (\d+) workers?$")


def within(holds, what):
    """Waits until something holds."""
    end = time.monotonic() + PATIENCE
    while not holds():
        if time.monotonic() > end:
            raise AssertionError(f"{what}: not within {PATIENCE} s")
        time.sleep(0.002)


class Server:
    """The program as a server over a folder. Its lines on standard error are kept as they come.

    `bounded` are limits of the shell's `ulimit`, within which it is run.
    """

    def __init__(self, folder, *words, partitions=1, port=0, bounded=()):
        self.lines = []
        self.words = [PROGRAM, "serve", "--dir", folder, "--listen", f"127.0.0.1:{port}", "--advertise",
                      "localhost:9092", "--reset", "earliest", *words, f"orders:{partitions}:{ORDERS}"]
        bounds = [f"ulimit {bound} || exit" for bound in bounded]
        shell = ["sh", "-c", "; ".join([*bounds, 'exec "$0" "$@"'])] if bounded else []
        self.process = subprocess.Popen([*shell, *self.words], stdin=subprocess.DEVNULL, stdout=subprocess.PIPE,
                                        stderr=subprocess.PIPE, text=True)
        self._reader = threading.Thread(target=self._read, daemon=True)
        self._reader.start()

    def _read(self):
        for line in self.process.stderr:
            self.lines.append(line.rstrip("\n"))

    def _found(self):
        for line in self.lines:
            found = LISTENING.match(line)
            if found:
                return found
        if self.process.poll() is not None:
            self._reader.join(PATIENCE)
            raise AssertionError(f"{' '.join(self.words)}: status {self.process.returncode}: {self.lines}")
        return None

    def listening(self):
        """Waits for the line that tells the port, and gives its numbers: port, partitions, workers."""
        within(self._found, "the line 'listening'")
        self.port, partitions, workers = map(int, self._found().groups())
        return self.port, partitions, workers

    def ended(self):
        """Waits for the end, and gives the status and the lines."""
        status = self.process.wait(PATIENCE)
        self._reader.join(PATIENCE)
        return status, self.lines

    def kill(self):
        """Ends it as a crash of the process does."""
        self.process.kill()
        self.process.wait(PATIENCE)

    def close(self):
        self.kill()
        self._reader.join(PATIENCE)
        self.process.stdout.close()
        self.process.stderr.close()


class Member:
    """A connection by which a producer stores records, and a member of the group `g` fetches and acknowledges."""

    def __init__(self, port, name="a"):
        self.name = name
        self.epoch = 0
        self.connection = Connection(("127.0.0.1", port), "ci", PATIENCE * 1000)

    def produced(self, *values, partition=0):
        """Stores the values as one batch: what the reply tells of it."""
        batch = BatchBuilder()
        for value in values:
            batch.add(0, None, value, (), MAX_BATCH_BYTES)
        data = [ProduceTopic("orders", [ProducePartition(partition, batch.build())])]
        reply = self.connection.call(PRODUCE, ProduceRequest(None, -1, 30000, data))
        return reply.responses[0].partition_responses[0]

    def produce(self, *values, partition=0):
        """Stores the values as one batch: its code and its first offset."""
        told = self.produced(*values, partition=partition)
        return told.error_code, told.base_offset

    def delete(self, *offsets):
        """Deletes the records of partition 0 below each of these offsets, one after the other by one request: of each
        the code and the low watermark."""
        topics = [DeleteTopic("orders", [DeletePartition(0, offset)]) for offset in offsets]
        reply = self.connection.call(DELETE_RECORDS, DeleteRecordsRequest(topics, 30000))
        return [(part.error_code, part.low_watermark) for topic in reply.topics for part in topic.partitions]

    def stored(self, group="g"):
        """What is stored of a group on partition 0."""
        asked = ReadShareGroupStateRequest(group, [ReadTopic(ORDERS, [ReadPartition(0, 0)])])
        return self.connection.call(READ_STATE, asked).results[0].partitions[0]

    def start(self, group="g"):
        """The start offset that is stored of a group on partition 0, which has no stored records there."""
        told = self.stored(group)
        assert (told.error_code, told.state_batches) == (0, []), told
        return told.start_offset

    def fetching(self, most=500, partitions=(0,), wait_ms=0, least=1, epoch=None, accepted=()):
        """The request by which it acquires at most so many records. It has these offsets of partition 0 accepted."""
        epoch = self.epoch if epoch is None else epoch
        joining = {number: [] for number in partitions} if epoch == 0 else {}
        if accepted:
            joining[0] = [AcknowledgementBatch(offset, offset, [1]) for offset in accepted]
        asked = [AskedTopic(ORDERS, [AskedPartition(*part) for part in joining.items()])] if joining else []
        return ShareFetchRequest("g", self.name, epoch, wait_ms, least, 1 << 20, most, most, asked, [])

    def fetch(self, *words, **asked):
        """Acquires records, as `fetching` has it: a list of offset, value and delivery count."""
        request = self.fetching(*words, **asked)
        reply = self.connection.call(SHARE_FETCH, request)
        assert reply.error_code == 0, reply
        self.epoch = request.share_session_epoch + 1
        records = []
        for topic in reply.responses:
            for part in topic.partitions:
                assert (part.error_code, part.acknowledge_error_code) == (0, 0), part
                counts = {}
                for run in part.acquired_records:
                    for offset in range(run.first_offset, run.last_offset + 1):
                        counts[offset] = run.delivery_count
                records += [(record.offset, record.value, counts[record.offset])
                            for record in read_batches(part.records or b"") if record.offset in counts]
        return records

    def waits(self):
        """Asks for records with a wait of a minute, and doesn't look for the reply."""
        self.connection._socket.sendall(frame_of(SHARE_FETCH, self.fetching(wait_ms=60000), 1, "ci"))

    def acknowledge(self, first, last, kind=1, partition=0):
        """Acknowledges the offsets, 1 to accept: the code."""
        batches = [AcknowledgementBatch(first, last, [kind])]
        asked = [AskedTopic(ORDERS, [AskedPartition(partition, batches)])]
        reply = self.connection.call(SHARE_ACKNOWLEDGE, ShareAcknowledgeRequest("g", self.name, self.epoch, asked))
        assert reply.error_code == 0, reply
        self.epoch += 1
        return reply.responses[0].partitions[0].error_code

    def vanish(self):
        """Breaks the connection off, without the end of the stream, and gives its address."""
        raw = self.connection._socket
        host, port = raw.getsockname()
        raw.setsockopt(socket.SOL_SOCKET, socket.SO_LINGER, struct.pack("ii", 1, 0))
        raw.close()
        return f"{host}:{port}"

    def close(self):
        self.connection.close()


class Waiting(threading.Thread):
    """A fetch that waits, in a thread of its own."""

    def __init__(self, member, **asked):
        super().__init__(daemon=True)
        self.records, self.begun, self.ended = None, time.monotonic(), None
        self._member, self._asked = member, asked
        self.start()

    def run(self):
        self.records = self._member.fetch(**self._asked)
        self.ended = time.monotonic()

    def answered(self):
        """Waits for its reply, and gives the records, and how long it took."""
        self.join(PATIENCE)
        return self.records, self.ended - self.begun


class Consumer:
    """The program as a share consumer of the topic `orders`, a member of the group `g`. Its lines are in a file."""

    def __init__(self, folder, port, member, count):
        self._path = os.path.join(folder, f"{member}.out")
        words = [PROGRAM, "consume", "--connect", f"127.0.0.1:{port}", "--group", "g", "--member", member,
                 "--topic", "orders", "--count", str(count)]
        with open(self._path, "wb") as output:
            self.process = subprocess.Popen(words, stdin=subprocess.DEVNULL, stdout=output, stderr=subprocess.PIPE,
                                            text=True)

    def lines(self):
        """The whole lines that it has written so far."""
        with open(self._path, encoding="ascii") as output:
            return output.read().split("\n")[:-1]

    def ended(self):
        """Waits for the end, and gives the status, the lines, and what it said on standard error."""
        status = self.process.wait(PATIENCE)
        return status, self.lines(), self.process.stderr.read()

    def close(self):
        self.process.kill()
        self.process.wait(PATIENCE)
        self.process.stderr.close()
