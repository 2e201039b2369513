"""A broker on loopback for tests: each connection is bridged to the `replay` command of the built program.

Bytes that a client sends become `bytes` lines, and each whole request is done by `step` lines, as docs/SCRIPT.md
tells. What the program answers to these goes back to the client. Moments are the test's: `now` stands still until
`advance`. So a test says when a lock ends, a disk fails or power is lost, which the command `serve` can't be told.
"""

import socket
import struct
import subprocess
import threading

from context import PROGRAM

#: Of the sentinel: an ApiVersions request of version 3 on a connection of the bridge's own, but for its correlation id.
SENTINEL = ("00120003", "ffff00" + "0262" + "0231" + "00")
#: How `replay` tells where it is reached: localhost as a text, and 9092.
ADVERTISED = b"\x0alocalhost" + struct.pack(">i", 9092)
#: More steps than the parts of any request here, or than the releases of a connection that has closed.
MANY = 140


class ReplayBroker:
    """The broker with these topics, each as `NAME:PARTITIONS:ID`."""

    def __init__(self, *topics, lock_ms=30000, limit=5, reset="earliest"):
        words = ["replay", "--reset", reset, "--lock-ms", str(lock_ms), "--limit", str(limit), *topics]
        self.now = 1000
        #: The lines `fault ..`, `restarted` and `closed ..` that the program wrote.
        self.events = []
        #: How many requests were taken and aren't begun.
        self.held = 0
        self._program = subprocess.Popen([PROGRAM, *words], stdin=subprocess.PIPE, stdout=subprocess.PIPE)
        self._lock = threading.RLock()
        self._sockets = {}
        self._numbers = 0
        self._sentinels = 0
        self._write("open 0")
        self._listener = socket.create_server(("127.0.0.1", 0))
        self.port = self._listener.getsockname()[1]
        self.servers = f"127.0.0.1:{self.port}"
        #: Where it isn't set, requests are taken and not answered.
        self._answers = threading.Event()
        self._answers.set()
        threading.Thread(target=self._accept, daemon=True).start()

    # What a test does with it

    def advance(self, ms):
        """Lets so many milliseconds pass."""
        with self._lock:
            self.now += ms

    def expire(self, topic, partition):
        """Releases the records whose locks have ended by now."""
        self._do(f"expire {topic} {partition} {self.now}")

    def tick(self):
        """Removes the members that weren't heard for 45 seconds by now."""
        self._do(f"tick {self.now}")

    def arm(self, disk, calls, mode):
        """Breaks the call of a disk that comes after so many."""
        self._do(f"arm {disk} {calls} {mode}")

    def power(self, choice):
        """Loses the power of all disks, and with it all connections."""
        with self._lock:
            self._do(f"power {choice}")
            self._write("open 0")
            for number in list(self._sockets):
                self._end(number)

    def drop_connections(self):
        """Closes all connections, as the network may."""
        with self._lock:
            for number in list(self._sockets):
                self._close(number)

    def stop_listening(self):
        """Takes no further connection."""
        try:
            self._listener.shutdown(socket.SHUT_RDWR)
        except OSError:
            pass
        self._listener.close()

    def connections(self):
        """How many connections are open."""
        with self._lock:
            return len(self._sockets)

    def steps_held(self):
        """Within it (a context manager) requests aren't begun."""
        return _Held(self._answers)

    def close(self):
        """Ends the program, which has to agree that its input was a script."""
        self.stop_listening()
        with self._lock:
            self._answers.set()
            for number in list(self._sockets):
                self._end(number)
            self._write("end")
            self._program.stdin.close()
            self._program.stdout.close()
            status = self._program.wait()
        assert status == 0, f"the program ended with status {status}"

    # The bridge

    def _accept(self):
        while True:
            try:
                client, _ = self._listener.accept()
            except OSError:
                return
            with self._lock:
                self._numbers += 1
                number = self._numbers
                self._sockets[number] = client
                self._write(f"open {number}")
            threading.Thread(target=self._serve, args=(number, client), daemon=True).start()

    def _serve(self, number, client):
        """Takes requests from a client, one whole frame after another."""
        try:
            while True:
                frame = _frame(client)
                self.held += 1
                self._answers.wait()
                self.held -= 1
                with self._lock:
                    if number not in self._sockets:
                        return
                    self._request(number, frame)
        except (OSError, EOFError):
            with self._lock:
                if number in self._sockets:
                    self._close(number)

    def _request(self, number, frame):
        for start in range(0, len(frame), 65536):
            self._write(f"bytes {number} {frame[start:start + 65536].hex()}")
        if _has_no_reply(frame):
            self._steps(number, MANY)
            return
        steps, replied = 1, False
        while not replied and number in self._sockets:
            for reply_to, reply in self._steps(number, steps):
                if struct.unpack_from(">h", frame, 4)[0] in (3, 10):
                    reply = reply.replace(ADVERTISED, ADVERTISED[:-4] + struct.pack(">i", self.port))
                self._sockets[reply_to].sendall(reply)
                replied = True
            steps = min(2 * steps, MANY)

    def _steps(self, number, steps):
        """Does steps of a connection, and gives the replies that came."""
        return self._do("\n".join([f"step {number} {self.now}"] * steps))

    def _close(self, number):
        """The client has closed: what its sessions hold is released."""
        self._write(f"close {number}")
        self._steps(number, MANY)
        self._end(number)

    def _end(self, number):
        client = self._sockets.pop(number, None)
        if client is None:
            return
        try:
            client.shutdown(socket.SHUT_RDWR)
        except OSError:
            pass
        client.close()

    def _write(self, lines):
        self._program.stdin.write(lines.encode() + b"\n")

    def _do(self, lines):
        """Does events, and gives the replies that came, each with its connection. A sentinel's reply ends them."""
        with self._lock:
            self._sentinels += 1
            wanted = f"{self._sentinels:08x}"
            frame = SENTINEL[0] + wanted + SENTINEL[1]
            self._write(f"{lines}\nopen 0\nbytes 0 {len(frame) // 2:08x}{frame}\nstep 0 {self.now}")
            self._program.stdin.flush()
            return self._read_until(wanted)

    def _read_until(self, wanted):
        replies = []
        while True:
            words = self._program.stdout.readline().decode().split()
            assert words, "the program has ended"
            if words[0] != "reply":
                self.events.append(" ".join(words))
            if words[0] == "reply" and words[1] == "0":
                assert words[2][8:16] == wanted, "another sentinel"
                return replies
            if words[0] == "reply":
                replies.append((int(words[1]), bytes.fromhex(words[2])))
            if words[0] == "closed":
                self._write("\n".join([f"step {words[1]} {self.now}"] * MANY))
                self._end(int(words[1]))


class _Held:
    def __init__(self, answers):
        self._answers = answers

    def __enter__(self):
        self._answers.clear()

    def __exit__(self, *_):
        self._answers.set()


def _exactly(client, size):
    data = b""
    while len(data) < size:
        piece = client.recv(size - len(data))
        if not piece:
            raise EOFError
        data += piece
    return data


def _frame(client):
    """A whole frame, its size included. One that is too long is given without its bytes, as the broker wants none."""
    size = _exactly(client, 4)
    number = struct.unpack(">I", size)[0]
    return size if number > 16777216 else size + _exactly(client, number)


def _has_no_reply(frame):
    """Whether it is a Produce with acks 0: behind the header stand a transactional id, which is null here, and acks."""
    if len(frame) < 15 or struct.unpack_from(">h", frame, 4)[0] != 0:
        return False
    acks = 4 + 8 + 2 + max(0, struct.unpack_from(">h", frame, 12)[0]) + 1 + 1
    return frame[acks:acks + 2] == b"\0\0"
