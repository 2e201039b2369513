#!/usr/bin/env python3
"""Runs the built program as a server, over real sockets of the loopback and a folder of its own, and kills it.

    .ci/serve.py [TEST..]

The clients are connections of the Python client, one request at a time. SHAREBROKER names another program than the one
in crates/sharebroker/out. Each test is bounded in count, and each wait in time.
"""

import os
import re
import resource
import shutil
import signal
import socket
import struct
import subprocess
import sys
import tempfile
import threading
import time
import unittest

from members import ORDERS, PATIENCE, PROGRAM, Consumer, Member, Server, Waiting, within
from sharebroker.connection import check_versions
from sharebroker.errors import ConnectionLost, NotSent, Unreachable


class ServeCase(unittest.TestCase):
    """Tests over a folder of their own. Whatever they start is ended behind them."""

    def setUp(self):
        self.folder = tempfile.mkdtemp()
        self.addCleanup(shutil.rmtree, self.folder)

    def server(self, *words, **settings):
        server = self.unheard(*words, **settings)
        server.listening()
        return server

    def unheard(self, *words, folder=None, **settings):
        server = Server(folder or os.path.join(self.folder, "data"), *words, **settings)
        self.addCleanup(server.close)
        return server

    def member(self, server, name="a"):
        member = Member(server.port, name)
        self.addCleanup(member.close)
        return member

    def consumer(self, server, name="a", count=1):
        consumer = Consumer(self.folder, server.port, name, count)
        self.addCleanup(consumer.close)
        return consumer

    def raw(self, server):
        """A bare socket."""
        stream = socket.create_connection(("127.0.0.1", server.port), PATIENCE)
        self.addCleanup(stream.close)
        return stream

    def is_closed_on(self, stream, sent):
        """Whether the server closes a connection on which this is sent, read or not, and answers nothing."""
        try:
            stream.sendall(sent)
            return stream.recv(1) == b""
        except (ConnectionResetError, BrokenPipeError):
            return True

    def dumped(self, partitions=1):
        """What `dump-state` tells of the folder."""
        words = [PROGRAM, "dump-state", "--dir", os.path.join(self.folder, "data"), f"orders:{partitions}:{ORDERS}"]
        done = subprocess.run(words, stdin=subprocess.DEVNULL, capture_output=True, text=True, timeout=PATIENCE)
        self.assertEqual(done.returncode, 0, done.stderr)
        for line in done.stderr.splitlines():
            self.assertRegex(line, r": \d+ bytes behind its end are cut off and kept in .*\.cut-\d$")
        return done.stdout.splitlines()

    def test_the_line_that_tells_the_port(self):
        server = self.server("--workers", "3", partitions=2)
        self.assertEqual(server.listening()[1:], (2, 3))

    def test_produce_fetch_and_acknowledge(self):
        server = self.server()
        member = self.member(server)
        check_versions(member.connection)
        self.assertEqual(member.produce(b"a", b"b", b"c"), (0, 0))
        self.assertEqual(member.produce(b"d"), (0, 3))
        self.assertEqual(member.fetch(), [(0, b"a", 1), (1, b"b", 1), (2, b"c", 1), (3, b"d", 1)])
        self.assertEqual(member.acknowledge(0, 1), 0)
        self.assertEqual(member.acknowledge(2, 2, kind=2), 0)
        self.assertEqual(member.acknowledge(0, 0), 121)
        self.assertEqual(member.fetch(), [(2, b"c", 2)])

    def test_deleted_records_are_gone_for_all_also_after_kill_9(self):
        server = self.server()
        member, other = self.member(server, "a"), self.member(server, "b")
        self.assertEqual(member.produce(b"a", b"b", b"c"), (0, 0))
        self.assertEqual((len(member.fetch()), other.fetch()), (3, []))
        self.assertEqual(other.delete(4, -2, 2, 1), [(1, -1), (1, -1), (0, 2), (0, 2)])
        told = other.produced(b"d")
        self.assertEqual((told.error_code, told.base_offset, told.log_start_offset), (0, 3, 2))
        self.assertEqual(other.start(), 2)
        self.assertEqual(other.acknowledge(0, 1), 0)
        self.assertEqual(other.acknowledge(0, 2), 121)
        self.assertEqual(member.acknowledge(0, 2), 0)
        self.assertEqual(other.start(), 3)
        self.assertEqual(other.delete(-1), [(0, 4)])
        self.assertEqual(other.fetch(), [])
        server.kill()
        again = self.member(self.server(), "c")
        self.assertEqual(again.start(), 4)
        self.assertEqual(again.delete(0), [(0, 4)])
        told = again.produced(b"e")
        self.assertEqual((told.error_code, told.base_offset, told.log_start_offset), (0, 4, 4))
        self.assertEqual(again.fetch(), [(4, b"e", 1)])

    def test_two_clients_beside_each_other(self):
        server = self.server()
        members = [self.member(server, name) for name in ("a", "b")]
        stored, taken = [], []

        def work(member):
            for number in range(20):
                value = b"%s%d" % (member.name.encode(), number)
                code, offset = member.produce(value)
                stored.append((code, offset, value))
            for _ in range(200):
                for offset, value, count in member.fetch(3):
                    taken.append((member.acknowledge(offset, offset), offset, value, count))
                if len(taken) == 40:
                    return

        threads = [threading.Thread(target=work, args=(member,)) for member in members]
        for thread in threads:
            thread.start()
        for thread in threads:
            thread.join(PATIENCE)
        self.assertEqual(sorted(offset for _, offset, _ in stored), list(range(40)))
        self.assertEqual(sorted(taken), sorted((code, offset, value, 1) for code, offset, value in stored))

    def test_a_client_that_vanishes_gives_its_records_back(self):
        server = self.server()
        gone, other = self.member(server, "a"), self.member(server, "b")
        gone.produce(b"a", b"b", b"c")
        self.assertEqual(len(gone.fetch()), 3)
        self.assertEqual(other.fetch(), [])
        address = gone.vanish()
        got = []
        within(lambda: got.extend(other.fetch()) or got, "the records of the client that vanished")
        self.assertEqual(got, [(0, b"a", 2), (1, b"b", 2), (2, b"c", 2)])
        within(lambda: len(server.lines) > 1, "the line of the client that vanished")
        self.assertEqual(server.lines[1:], [f"sharebroker: {address}: read: Connection reset by peer (os error 104)"])

    def test_locks_expire_while_the_last_connections_are_served(self):
        server = self.server("--accept", "2", "--workers", "2", "--lock-ms", "500")
        holder, other = self.member(server, "a"), self.member(server, "b")
        holder.produce(b"a", b"b", b"c")
        self.assertEqual(len(holder.fetch()), 3)
        got = []
        within(lambda: got.extend(other.fetch()) or got, "the records whose locks have ended")
        self.assertEqual(got, [(0, b"a", 2), (1, b"b", 2), (2, b"c", 2)])
        self.assertEqual(holder.acknowledge(0, 2), 121)

    def test_a_lock_lasts_as_many_milliseconds_as_the_words_say(self):
        server = self.server("--lock-ms", "2000")
        holder, other = self.member(server, "a"), self.member(server, "b")
        holder.produce(b"a")
        begun = time.monotonic()
        self.assertEqual((len(holder.fetch()), other.fetch(wait_ms=60000)), (1, [(0, b"a", 2)]))
        # Turns of expiries are a second apart. A busy machine may be late.
        self.assertGreaterEqual(time.monotonic() - begun, 2)
        self.assertLess(time.monotonic() - begun, 20)

    def woken(self, member, act):
        """Has a member's fetch wait, and does something then: what the fetch has, and how long behind that it came."""
        waiting = Waiting(member, wait_ms=60000)
        waiting.join(0.2)
        self.assertTrue(waiting.is_alive(), waiting.records)
        act()
        done = time.monotonic()
        records, _ = waiting.answered()
        return records, max(0.0, waiting.ended - done)

    def test_a_fetch_that_waits_is_answered_as_soon_as_there_is_a_record(self):
        server = self.server(partitions=2)
        holder, gone, waiter = (self.member(server, name) for name in "abc")
        # The first fetch of a group makes its tables, and doesn't wait.
        self.assertEqual(waiter.fetch(wait_ms=60000, partitions=(1, 0)), [])
        self.assertEqual((holder.fetch(), gone.fetch()), ([], []))
        late = []

        def has(act, *wanted, partition=0):
            records, took = self.woken(waiter, act)
            self.assertEqual(records, [wanted])
            self.assertEqual(waiter.acknowledge(wanted[0], wanted[0], partition=partition), 0)
            late.append(took)

        has(lambda: holder.produce(b"a"), 0, b"a", 1)
        has(lambda: holder.produce(b"b", partition=1), 0, b"b", 1, partition=1)
        holder.produce(b"c")
        self.assertEqual(holder.fetch(), [(1, b"c", 1)])
        has(lambda: holder.acknowledge(1, 1, kind=2), 1, b"c", 2)
        holder.produce(b"d")
        self.assertEqual(gone.fetch(), [(2, b"d", 1)])
        has(gone.vanish, 2, b"d", 2)
        # A delete moves the 2000 offsets on that a fetch looks at.
        holder.produce(*(b"%d" % number for number in range(2001)))
        self.assertEqual(len(holder.fetch(2001)), 2000)
        has(lambda: holder.delete(4), 2003, b"2000", 1)
        # Where a look once a second found them, that would be 0.8 s each, but for the first.
        self.assertLess(sum(late), 1.5, late)

    def test_a_fetch_that_gets_nothing_is_answered_when_its_time_is_up(self):
        server = self.server(partitions=3)
        members = [self.member(server, name) for name in "abc"]
        for number, member in enumerate(members):
            if number:
                member.produce(b"a", partition=number)
            self.assertEqual(len(member.fetch(partitions=(number,))), min(number, 1))
        # There is no record; the member itself holds all; so does one that opens its session anew, which releases them.
        asked = [{}, {}, {"epoch": 0, "partitions": (2,)}]
        waiting = [Waiting(member, wait_ms=1000, **words) for member, words in zip(members, asked)]
        told = [fetch.answered() for fetch in waiting]
        self.assertEqual([records for records, _ in told], [[], [], [(0, b"a", 2)]])
        for _, took in told:
            self.assertGreaterEqual(took, 1)
            # It may be a second late, and a busy machine later.
            self.assertLess(took, 5)

    def test_fetches_that_never_wait(self):
        member = self.member(self.server())
        member.produce(b"a", b"b")
        self.assertEqual(len(member.fetch()), 2)
        begun = time.monotonic()
        for asked in ({"wait_ms": 0}, {"wait_ms": -1}, {"least": 0}, {"most": 0}, {"accepted": (0,)}, {"epoch": -1}):
            self.assertEqual(member.fetch(**{"wait_ms": 60000, **asked}), [], asked)
        self.assertLess(time.monotonic() - begun, 30)

    def test_a_peer_that_closes_while_its_fetch_waits_gives_its_worker_back(self):
        server = self.server("--workers", "2", partitions=2)
        waiting = [self.member(server, name) for name in "ab"]
        for number, member in enumerate(waiting):
            member.produce(b"a", partition=number)
            self.assertEqual(member.fetch(partitions=(number,)), [(0, b"a", 1)])
            member.waits()
        other = self.member(server, "c")
        line = "sharebroker: 1 connection waits for one of 2 workers"
        within(lambda: line in server.lines, "the line of a connection that waits for a worker")
        begun = time.monotonic()
        waiting[0].vanish()
        self.assertEqual(other.fetch(partitions=(0, 1)), [(0, b"a", 2)])
        waiting[1].close()
        self.assertEqual(other.fetch(wait_ms=60000), [(0, b"a", 2)])
        # Each is noticed some second later. A busy machine may be late.
        self.assertLess(time.monotonic() - begun, 10)

    def traced(self, server, calls, acts):
        """The lines of a trace of these system calls, while the acts are done. Where strace is missing or may not
        trace, the test is left out."""
        if shutil.which("strace") is None:
            self.skipTest("there is no strace")
        path = os.path.join(self.folder, "calls")
        words = ["strace", "-f", "-y", "-e", f"trace={calls}", "-o", path, "-p", str(server.process.pid)]
        with open(os.path.join(self.folder, "tracer"), "w+") as told:
            tracer = subprocess.Popen(words, stdin=subprocess.DEVNULL, stderr=told)
            self.addCleanup(tracer.wait)
            self.addCleanup(tracer.kill)

            def attached():
                told.seek(0)
                return "attached" in told.read() or tracer.poll() is not None

            within(attached, "the tracer")
            if tracer.poll() is not None:
                self.skipTest("strace may not trace")
            acts()
            tracer.send_signal(signal.SIGINT)
            tracer.wait(PATIENCE)
        with open(path) as lines:
            return lines.read().splitlines()

    def synced(self, server, acts):
        """How often each file of the folder is synced, while the acts are done."""
        counts = {}
        for line in self.traced(server, "fsync,fdatasync", acts):
            found = re.search(r"f(?:data)?sync\(\d+<(.*)>", line)
            if found:
                name = os.path.relpath(found.group(1), os.path.realpath(os.path.join(self.folder, "data")))
                counts[name] = counts.get(name, 0) + 1
        return counts

    def test_each_change_of_a_table_is_synced_twice(self):
        server = self.server()
        member = self.member(server)
        member.produce(b"a", b"b", b"c")
        self.assertEqual(len(member.fetch()), 3)
        codes = []
        counts = self.synced(server, lambda: codes.extend(member.acknowledge(at, at) for at in range(3)))
        self.assertEqual((codes, counts), ([0, 0, 0], {"orders/0/state-a": 6}))

    def test_a_checkpoint_and_the_change_behind_it_are_synced_ten_times(self):
        """Of foreign state, which has 4098 records of one key: snapshots and removals of it in turn, and an update."""
        key = b"\0\1g" + b"\x11" * 16 + bytes(4)
        states = bytes(16) + bytes(8) + bytes(4)
        frames = [b"\0\0" + key + states, b"\2\0" + key] * 2048
        frames += [b"\0\0" + key + states, b"\1\0" + key + bytes(16) + b"\xff" * 8 + bytes(4)]
        os.makedirs(os.path.join(self.folder, "data", "foreign"))
        with open(os.path.join(self.folder, "data", "foreign", "state-a"), "wb") as file:
            file.write(b"".join(b"\1" + struct.pack(">I", len(frame)) + frame for frame in frames) + b"\0")
        server = self.server()
        stream = self.raw(server)
        # WriteShareGroupState 0 of g on 1111/0: state epoch 0, leader epoch 0, start -1, 1..1 acknowledged 1.
        offset = "0000000000000001"
        write = bytes.fromhex("0000004b0055000000000001ffff00026702" + "11" * 16 + "02" + "00" * 12 + "ff" * 8
                              + "02" + offset * 2 + "02000100" + "000000")
        replies = []

        def acts():
            for _ in range(2):
                stream.sendall(write)
                replies.append(stream.recv(37))

        counts = self.synced(server, acts)
        reply = bytes.fromhex("00000021" + "00000001" + "0002" + "11" * 16 + "02" + "00" * 4 + "0000" + "00" * 4)
        self.assertEqual(replies, [reply, reply])
        # Its first gate, the cut, head, snapshot and seal, and then each change.
        self.assertEqual(counts, {"foreign/state-b": 2 + 3 * 2 + 2 * 2})

    def test_turns_of_expiries_are_a_second_apart(self):
        server = self.server()
        lines = self.traced(server, "nanosleep,clock_nanosleep", lambda: time.sleep(3.5))
        pauses = [line for line in lines if "tv_sec" in line and "restart_syscall" not in line]
        self.assertEqual([line for line in pauses if "{tv_sec=1, tv_nsec=0}" not in line], [])
        self.assertIn(len(pauses), range(2, 5), lines)

    def test_a_reply_that_the_socket_takes_in_pieces(self):
        """A write that waits for room in the socket is cut short where the process is stopped; its rest follows."""
        server = self.server()
        producer = self.member(server, "p")
        for number in range(8):
            producer.produce(b"%d" % number * 1000000)
        with open(os.path.join(self.folder, "data", "orders", "0", "log"), "rb") as file:
            log, batches = file.read(), []
        while log[:1] == b"\1":
            end = 5 + int.from_bytes(log[1:5], "big")
            batches.append(log[5:end])
            log = log[end:]
        stream = self.raw(server)
        # ShareFetch 1 of a, session epoch 0, of orders/0, at most 500 records of 16 MiB.
        stream.sendall(bytes.fromhex("00000042004e000100000001ffff00026702610000000000000000000000010100000000"
                                     "0001f4000001f402" + "22" * 16 + "0200000000010000" + "0100"))
        for _ in range(3):
            time.sleep(0.3)
            server.process.send_signal(signal.SIGSTOP)
            time.sleep(0.1)
            server.process.send_signal(signal.SIGCONT)
        got = b""
        while len(got) < 4 or len(got) < 4 + int.from_bytes(got[:4], "big"):
            piece = stream.recv(1 << 20)
            self.assertTrue(piece, "the connection is closed")
            got += piece
        self.assertEqual(len(batches), 8)
        self.assertTrue(b"".join(batches) in got, "the reply has other bytes than the log")

    def stream(self, server, name, answered):
        """Produces values and accepts what it fetches, until the server is gone. What was answered is noted."""
        member = self.member(server, name)
        try:
            for number in range(100000):
                value = b"%s%d" % (name.encode(), number)
                code, offset = member.produce(value)
                answered["stored"].append((code, offset, value))
                for offset, value, _ in member.fetch(2):
                    answered["asked"].append((offset, value))
                    code = member.acknowledge(offset, offset)
                    answered["accepted"].append((code, offset, value))
        except (ConnectionLost, NotSent, Unreachable):
            answered["lost"].append(name)

    def killed_within_a_stream(self, seconds):
        """Runs two such streams, kills the server, starts it again, and gives what was answered and what is left."""
        server = self.server()
        answered = {"stored": [], "asked": [], "accepted": [], "lost": []}
        names = ["a", "b"]
        threads = [threading.Thread(target=self.stream, args=(server, name, answered)) for name in names]
        for thread in threads:
            thread.start()
        within(lambda: len(answered["accepted"]) > 5, "five acknowledgements")
        time.sleep(seconds)
        server.kill()
        for thread in threads:
            thread.join(PATIENCE)
        self.assertEqual(sorted(answered["lost"]), names)
        left, member = [], self.member(self.server(), "c")
        for _ in range(1000):
            got = member.fetch()
            left += got
            if not got:
                return answered, left
        self.fail("it fetches for ever")

    def test_what_was_answered_is_there_after_kill_9(self):
        for seconds in (0.0, 0.05, 0.11):
            with self.subTest(seconds=seconds):
                self.folder = tempfile.mkdtemp(dir=self.folder)
                answered, left = self.killed_within_a_stream(seconds)
                self.assertEqual({code for code, _, _ in answered["stored"] + answered["accepted"]}, {0})
                there = {offset: value for offset, value, _ in left}
                accepted = {offset for _, offset, _ in answered["accepted"]}
                asked = {offset for offset, _ in answered["asked"]}
                for _, offset, value in answered["stored"]:
                    if offset in accepted:
                        self.assertNotIn(offset, there)
                    elif offset not in asked:
                        self.assertEqual(there.get(offset), value)
                    else:
                        # It was asked and not answered: it is accepted, or it is there.
                        self.assertIn(there.get(offset), (None, value))
                # Each of the two may have stored one batch that wasn't answered.
                unanswered = set(there) - {offset for _, offset, _ in answered["stored"]}
                self.assertLessEqual(len(unanswered), 2)

    def test_a_share_consumer_takes_two_records(self):
        server = self.server()
        member = self.member(server, "b")
        self.assertEqual(member.produce(b"a", b"job\n", b"c"), (0, 0))
        lines = [f"record {ORDERS}/0 0 1 61", f"record {ORDERS}/0 1 1 6a6f620a"]
        self.assertEqual(self.consumer(server, "a", 2).ended(), (0, lines, ""))
        self.assertEqual(member.stored().start_offset, 2)
        self.assertEqual(member.fetch(), [(2, b"c", 1)])

    def test_share_consumers_empty_a_queue_while_the_server_is_killed(self):
        server = self.server()
        consumers = [self.consumer(server, name, 20000) for name in "abc"]
        values = [b"%0100d" % number for number in range(10000)]
        # Each time records come, and the server is killed as soon as a line of one of them stands.
        for first, end in ((0, 4000), (4000, 7000)):
            self.produce_all(server, values, first, end)
            within(lambda: any(offset >= first for offset, _ in self.written(consumers)), "a line of these records")
            server.kill()
            server = self.server(port=server.port)
        self.produce_all(server, values, 7000, 10000)
        member = self.member(server, "d")
        within(lambda: member.stored().start_offset == 10000, "the end of the queue")
        for consumer in consumers:
            self.assertEqual(consumer.process.poll(), None)
            consumer.process.terminate()
            self.assertEqual(consumer.ended()[::2], (-signal.SIGTERM, ""))
        self.assertEqual(set(self.written(consumers)), set(enumerate(values)))
        server.kill()
        self.assertEqual(self.dumped(), ["table 67 orders/0 start 10000 complete 0", "end"])

    def produce_all(self, server, values, first, end):
        """Stores these of the values as batches of 500, at the offsets that are their places."""
        member = self.member(server, "p")
        for offset in range(first, end, 500):
            self.assertEqual(member.produce(*values[offset:offset + 500]), (0, offset))

    def written(self, consumers):
        """The offsets and values of the lines that consumers have written, in no order."""
        found = []
        for consumer in consumers:
            for line in consumer.lines():
                word, partition, offset, count, value = line.split(" ")
                self.assertEqual((word, partition), ("record", f"{ORDERS}/0"))
                self.assertIn(count, ("1", "2", "3"))
                found.append((int(offset), bytes.fromhex(value)))
        return found

    def test_a_second_program_on_the_folder(self):
        self.server()
        status, lines = self.unheard().ended()
        self.assertEqual(status, 7)
        lock = os.path.join(self.folder, "data", "lock~")
        self.assertEqual(lines, [f"sharebroker: {lock}: lock: operation would block "
                                 "(another program has this folder open)"])

    def test_a_port_in_use(self):
        port = self.server().port
        status, lines = self.unheard(folder=os.path.join(self.folder, "other"), port=port).ended()
        self.assertEqual(status, 9)
        self.assertEqual(len(lines), 1)
        self.assertIn("Address already in use (os error 98)", lines[0])

    def test_garbage_ends_its_connection_alone(self):
        server = self.server()
        good, bad = self.member(server), self.raw(server)
        self.assertEqual(good.produce(b"a"), (0, 0))
        for byte in bytes.fromhex("0000000b0001000400000001ffff00"):
            bad.sendall(bytes([byte]))
            time.sleep(0.001)
        self.assertEqual(bad.recv(1), b"")
        self.assertEqual(good.produce(b"b"), (0, 1))
        overlong = self.raw(server)
        addresses = ["%s:%d" % stream.getsockname() for stream in (bad, overlong)]
        self.assertTrue(self.is_closed_on(overlong, bytes.fromhex("7fffffff")))
        self.assertEqual(len(good.fetch()), 2)
        within(lambda: len(server.lines) > 2, "the lines of the two connections that were closed")
        said = ["version 4 of the call with key 1 isn't served",
                "a request of 2147483647 bytes is longer than any that is taken"]
        self.assertEqual(server.lines[1:], [f"sharebroker: {address}: closed, as {why}" for address, why in zip(addresses, said)])

    def test_silent_connections_end_and_give_their_workers_back(self):
        for sent in (b"", bytes.fromhex("0000000e" "0012" "0003")):
            folder = os.path.join(self.folder, "silent%d" % len(sent))
            server = self.server("--workers", "2", "--idle-ms", "1000", "--lock-ms", "1500", folder=folder)
            silent = [self.raw(server) for _ in range(2)]
            for stream in silent:
                stream.sendall(sent)
            begun = time.monotonic()
            self.assertEqual(self.member(server).produce(b"a"), (0, 0))
            self.assertGreaterEqual(time.monotonic() - begun, 1.4)
            said = "closed, as nothing came from it for so long"
            within(lambda: sum(line.endswith(said) for line in server.lines) == 2, "the lines of two silent connections")
            for stream in silent:
                self.assertEqual(stream.recv(1), b"")
            server.close()

    def test_a_connection_that_waits_for_a_worker_is_told(self):
        server = self.server("--workers", "1")
        self.raw(server)
        waiting = self.raw(server)
        line = "sharebroker: 1 connection waits for one of 1 worker"
        within(lambda: line in server.lines, "the line of a connection that waits")
        waiting.close()

    def test_no_descriptor_that_is_free_is_told_once(self):
        server = self.server("--workers", "64", bounded=("-n 24",))
        streams = [self.raw(server) for _ in range(40)]
        told = "Too many open files"
        within(lambda: any(told in line for line in server.lines), "the line that no client can be accepted")
        time.sleep(0.5)
        self.assertEqual(sum(told in line for line in server.lines), 1, server.lines)
        for stream in streams:
            stream.close()
        self.assertEqual(self.member(server).produce(b"a"), (0, 0))
        within(lambda: any("clients are accepted again, behind" in line for line in server.lines), "the count of the tries")

    def test_more_workers_than_the_system_starts_threads_for(self):
        # 8 MiB of stack for each of 257 threads are twice what the addresses are.
        status, lines = self.unheard("--workers", "256", bounded=("-S -s 8192", "-v 1048576")).ended()
        self.assertEqual((status, len(lines)), (10, 1), lines)
        self.assertRegex(lines[0], r"^sharebroker: start thread: .* \(os error \d+\)$")

    def test_two_hundred_connections(self):
        server = self.server("--workers", "64")
        asked = bytes.fromhex("0000000e" "0012" "0003" "00000002" "ffff" "00" "01" "01" "00")
        failures = []

        def one():
            try:
                with socket.create_connection(("127.0.0.1", server.port), PATIENCE) as stream:
                    stream.sendall(asked)
                    reply = b""
                    while len(reply) < 100:
                        piece = stream.recv(4096)
                        if not piece:
                            break
                        reply += piece
                    if reply[:10].hex() != "00000060000000020000":
                        failures.append(reply.hex())
            except OSError as fault:
                failures.append(str(fault))

        threads = [threading.Thread(target=one) for _ in range(200)]
        for thread in threads:
            thread.start()
        for thread in threads:
            thread.join(PATIENCE)
        self.assertEqual(failures, [])

    def test_closed_connections_have_ten_lines_a_second_and_a_count_of_the_rest(self):
        server = self.server("--accept", "200", "--workers", "1")
        begun = int(time.time())
        for _ in range(200):
            with socket.create_connection(("127.0.0.1", server.port), PATIENCE) as stream:
                self.assertTrue(self.is_closed_on(stream, bytes.fromhex("7fffffff")))
        status, lines = server.ended()
        seconds = int(time.time()) - begun + 1
        closed = [line for line in lines if ": closed, as " in line]
        more = [int(found[1]) for found in map(re.compile(r"sharebroker: (\d+) more faults$").match, lines) if found]
        self.assertEqual((status, len(closed) + len(more)), (0, len(lines) - 1), lines)
        self.assertEqual(len(closed) + sum(more), 200, lines)
        self.assertLessEqual(len(closed), 10 * seconds, lines)

    def test_a_server_that_accepts_three_links(self):
        server = self.server("--accept", "3", "--workers", "2")
        first = self.member(server)
        self.assertEqual(first.produce(b"a", b"b", b"c"), (0, 0))
        self.assertEqual(len(first.fetch()), 3)
        self.assertEqual(first.acknowledge(0, 1), 0)
        first.close()
        for name in ("b", "c"):
            member = self.member(server, name)
            check_versions(member.connection)
            member.close()
        status, lines = server.ended()
        self.assertEqual((status, len(lines)), (0, 1), lines)
        self.assertEqual(self.dumped(), ["table 67 orders/0 start 2 complete 0", "run 2 2 available 1", "end"])
        again = self.member(self.server())
        self.assertEqual(again.fetch(), [(2, b"c", 2)])
        self.assertEqual(again.produce(b"d"), (0, 3))

    def test_a_frame_that_wants_more_memory_than_there_is(self):
        server = self.server("--workers", "4")
        good = self.member(server)
        self.assertEqual(good.produce(b"0"), (0, 0))
        most = size_of(server.process.pid) + (160 << 20)
        resource.prlimit(server.process.pid, resource.RLIMIT_AS, (most, most))
        answers, over = [], threading.Event()

        def ask():
            while not over.is_set():
                answers.append(good.produce(b"%d" % (len(answers) + 1)))

        asks = threading.Thread(target=ask)
        asks.start()
        try:
            for frame in (sixteen_million_groups(), two_million_partitions()):
                self.assertTrue(self.is_closed_on(self.raw(server), frame))
        finally:
            over.set()
            asks.join(PATIENCE)
        self.assertFalse(asks.is_alive())
        answers.append(good.produce(b"last"))
        self.assertEqual(answers, [(0, number + 1) for number in range(len(answers))])
        self.assertEqual(self.member(server, "b").fetch(1), [(0, b"0", 1)])

    def test_a_frame_of_many_entries_takes_less_than_32_times_its_size(self):
        server = self.server("--workers", "1")
        stream = self.raw(server)
        # A reply takes a second of a processor, and may wait for one.
        stream.settimeout(5 * PATIENCE)
        self.assertEqual(replied(stream, sixteen_million_groups(10)), 10 * 23 + 11)
        most = size_of(server.process.pid) + 32 * (16 << 20)
        resource.prlimit(server.process.pid, resource.RLIMIT_AS, (most, most))
        for _ in range(2):
            self.assertEqual(replied(stream, sixteen_million_groups()), 16_000_000 * 23 + 14)
            self.assertEqual(replied(stream, two_million_partitions()), 2_000_000 * 22 + 39)


def size_of(process):
    """How many bytes of addresses a process has."""
    with open(f"/proc/{process}/statm", encoding="ascii") as told:
        return int(told.read().split()[0]) * resource.getpagesize()


def uvarint(value):
    """A number in groups of seven bits, the low ones first."""
    groups = []
    while value > 127:
        groups.append(value & 127 | 128)
        value >>= 7
    return bytes(groups + [value])


def framed(*pieces):
    body = b"".join(pieces)
    return struct.pack(">I", len(body)) + body


def replied(stream, frame):
    """How many bytes the reply to a frame has behind its size, all of which come."""
    stream.sendall(frame)
    room = memoryview(bytearray(1 << 20))

    def take(left):
        while left:
            count = stream.recv_into(room[:min(left, len(room))])
            if count == 0:
                raise ConnectionLost(f"{left} bytes are missing")
            left -= count

    take(4)
    size = struct.unpack(">I", room[:4])[0]
    take(size)
    return size


def sixteen_million_groups(count=16_000_000):
    """FindCoordinator of 16 million groups whose names are empty."""
    return framed(bytes.fromhex("000a000400000001ffff00" "00"), uvarint(count + 1), b"\1" * count, b"\0")


def two_million_partitions():
    """ShareFetch, epoch 0, of 2 million partitions of a topic that isn't hosted."""
    count = 2_000_000
    head = bytes.fromhex("004e000100000001ffff00" "0267" "0261" "00000000"
                         "00000000" "00000001" "00100000" "000001f4" "000001f4" "02")
    parts = b"".join(struct.pack(">iBB", number, 1, 0) for number in range(count))
    return framed(head, bytes([0x99] * 16), uvarint(count + 1), parts, b"\0", b"\1", b"\0")


if __name__ == "__main__":
    signal.signal(signal.SIGTERM, lambda *_: sys.exit("it takes too long"))
    unittest.main()
