"""Connections, against a socket that answers what a test says."""

import os
import resource
import socket
import threading
import time
import unittest

import context  # noqa: F401
from rows import bytes_of
from sharebroker import Closed, ConnectionLost, MalformedReply, NotSent, Unreachable, UnsupportedBroker
from sharebroker.connection import Connection, ask_metadata, check_versions
from sharebroker.link import Link, Pause


class Answering(unittest.TestCase):
    def server(self, *answers):
        """Listens, and sends the next answer for each request of a connection; None closes it."""
        listener = socket.create_server(("127.0.0.1", 0))
        self.addCleanup(listener.close)

        def serve():
            client, _ = listener.accept()
            with client:
                for answer in answers:
                    if not client.recv(65536) or answer is None:
                        return
                    client.sendall(answer)
                client.recv(65536)

        threading.Thread(target=serve, daemon=True).start()
        return listener.getsockname()

    def connection(self, *answers, timeout_ms=5000):
        connection = Connection(self.server(*answers), "c", timeout_ms)
        self.addCleanup(connection.close)
        return connection

    def test_a_broker_that_serves_nothing(self):
        connection = self.connection(bytes_of("0000000c 00000001 0000 01 00000000 00"))
        with self.assertRaises(UnsupportedBroker):
            check_versions(connection)

    def test_a_broker_with_another_version_of_api_versions(self):
        connection = self.connection(bytes_of("00000010 00000001 0023 00000001 0012 0003 0003"))
        with self.assertRaises(UnsupportedBroker):
            check_versions(connection)
        self.assertFalse(connection.is_open)

    def test_a_reply_to_another_request(self):
        connection = self.connection(bytes_of("0000000c 00000002 0000 01 00000000 00"))
        with self.assertRaises(MalformedReply):
            check_versions(connection)
        self.assertFalse(connection.is_open)
        with self.assertRaises(NotSent):
            check_versions(connection)

    def test_a_connection_that_ends_in_place_of_a_reply_and_within_it(self):
        for answer in (None, bytes_of("0000000c 00000001 0000")):
            connection = self.connection(answer, None)
            if answer:
                threading.Timer(0.1, connection.close).start()
            with self.assertRaises(ConnectionLost):
                check_versions(connection)
            self.assertFalse(connection.is_open)

    def test_a_reply_that_takes_too_long(self):
        connection = self.connection(b"", timeout_ms=100)
        began = time.monotonic()
        with self.assertRaises(ConnectionLost):
            ask_metadata(connection)
        self.assertLess(time.monotonic() - began, 3)

    def test_bytes_that_nobody_asked_for(self):
        connection = self.connection(bytes_of("0000000c 00000001 0000 01 00000000 00") + b"\0")
        with self.assertRaises(UnsupportedBroker):
            check_versions(connection)
        with self.assertRaises(NotSent):
            ask_metadata(connection)

    def test_an_address_of_several_that_answers(self):
        with socket.create_server(("127.0.0.1", 0)) as unused:
            gone = unused.getsockname()[1]
        host, port = self.server(bytes_of("0000000c 00000001 0000 01 00000000 00"))
        link = Link(f"127.0.0.1:{gone},{host}:{port}", "c", 5000, 1, 1)
        with self.assertRaises(UnsupportedBroker):
            link.connect(time.monotonic())
        link.close()

    def test_a_process_with_many_open_files(self):
        # The system's select takes no descriptor above 1023.
        soft, hard = resource.getrlimit(resource.RLIMIT_NOFILE)
        if hard != resource.RLIM_INFINITY and hard < 2048:
            self.skipTest("a process may not have so many open files")
        if soft != resource.RLIM_INFINITY and soft < 2048:
            resource.setrlimit(resource.RLIMIT_NOFILE, (2048, hard))
            self.addCleanup(resource.setrlimit, resource.RLIMIT_NOFILE, (soft, hard))
        for _ in range(1100):
            self.addCleanup(os.close, os.open(os.devnull, os.O_RDONLY))
        connection = self.connection(bytes_of("0000000c 00000001 0000 01 00000000 00"))
        with self.assertRaises(UnsupportedBroker):
            check_versions(connection)

    def test_closing_ends_a_connection_that_is_just_made(self):
        host, port = self.server(b"")
        link = Link(f"{host}:{port}", "c", 60000, 1, 1)
        faults = []

        def connect():
            try:
                link.connect(time.monotonic() + 60)
            except Closed as fault:
                faults.append(fault)

        thread = threading.Thread(target=connect, daemon=True)
        thread.start()
        end = time.monotonic() + 5
        while link.current() is None and time.monotonic() < end:
            time.sleep(0.002)
        link.close()
        thread.join(5)
        self.assertFalse(thread.is_alive())
        self.assertEqual(1, len(faults))

    def test_nobody_answers(self):
        with socket.create_server(("127.0.0.1", 0)) as unused:
            gone = unused.getsockname()[1]
        link = Link(f"127.0.0.1:{gone}", "c", 5000, 10, 20)
        with self.assertLogs("sharebroker", "WARNING") as logs, self.assertRaises(Unreachable):
            link.connect(time.monotonic() + 0.2)
        self.assertEqual(1, len(logs.output))


class Pausing(unittest.TestCase):
    def test_a_pause_doubles_up_to_the_greatest(self):
        pause = Pause(10, 50)
        for wanted in (10, 20, 40, 50, 50):
            self.assertAlmostEqual(wanted, pause.next_ms(), delta=0.2 * wanted + 0.001)
        pause.reset()
        self.assertLess(pause.next_ms(), 13)


if __name__ == "__main__":
    unittest.main()
