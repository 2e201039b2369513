"""Encrypted connections, to a socket of Python's own that wants a certificate, and answers as the broker does."""

import os
import shutil
import socket
import ssl
import subprocess
import tempfile
import threading
import time
import unittest

import context
from broker_case import BrokerCase, outcomes, told
from sharebroker import Producer, Unreachable, delete_records, share_group_state

CERTIFICATES = os.path.join(context.TOP, "examples", "tls", "certificates")


class Proxy:
    """Takes TLS from who has a certificate, and hands all on to a broker as it came."""

    def __init__(self, port, folder):
        self._to = port
        self._context = ssl.SSLContext(ssl.PROTOCOL_TLS_SERVER)
        self._context.load_cert_chain(os.path.join(folder, "proxy.pem"), os.path.join(folder, "proxy.key"))
        self._context.load_verify_locations(os.path.join(folder, "ca.pem"))
        self._context.verify_mode = ssl.CERT_REQUIRED
        self._listener = socket.create_server(("127.0.0.1", 0))
        self.port = self._listener.getsockname()[1]
        #: How many connections were handed on.
        self.taken = 0
        threading.Thread(target=self._accept, daemon=True).start()

    def close(self):
        self._listener.shutdown(socket.SHUT_RDWR)
        self._listener.close()

    def _accept(self):
        while True:
            try:
                client, _ = self._listener.accept()
            except OSError:
                return
            threading.Thread(target=self._serve, args=(client,), daemon=True).start()

    def _serve(self, client):
        try:
            client = self._context.wrap_socket(client, server_side=True)
            client.settimeout(0.02)
            with client, socket.create_connection(("127.0.0.1", self._to)) as broker:
                self.taken += 1
                broker.settimeout(0.02)
                self._hand_on(client, broker)
        except OSError:
            client.close()

    @staticmethod
    def _hand_on(client, broker):
        """One thread has both ways, as an encrypted socket is used by one."""
        while True:
            for source, to in ((client, broker), (broker, client)):
                try:
                    data = source.recv(65536)
                except socket.timeout:
                    continue
                if not data:
                    return
                to.sendall(data)


@unittest.skipUnless(shutil.which("openssl"), "openssl isn't installed")
class Encrypted(BrokerCase):
    def setUp(self):
        self.folder = tempfile.mkdtemp()
        self.addCleanup(shutil.rmtree, self.folder)
        subprocess.run([CERTIFICATES, self.folder], check=True)
        self.proxy = None

    def proxied(self):
        """A broker behind a proxy. Clients are told the proxy's address by the bridge."""
        broker = self.scripted_broker()
        self.proxy = Proxy(broker.port, self.folder)
        self.addCleanup(self.proxy.close)
        broker.port = self.proxy.port
        self.servers = f"localhost:{self.proxy.port}"
        return broker

    def context(self, is_known=True, ca="ca.pem"):
        made = ssl.create_default_context(cafile=os.path.join(self.folder, ca))
        if is_known:
            made.load_cert_chain(os.path.join(self.folder, "client.pem"), os.path.join(self.folder, "client.key"))
        return made

    def test_records_go_through(self):
        self.proxied()
        with Producer(self.servers, ssl_context=self.context(), linger_ms=0) as producer:
            self.assertEqual([0, 1], [producer.send("orders", value).result(20).offset for value in (b"a", b"b" * 100000)])
        with self.no_warnings():
            consumer = self.consumer(ssl_context=self.context())
            records = []
            self.wait_until(lambda: records.extend(consumer.poll(1000)) or len(records) == 2)
            self.assertEqual([(0, b"a", 1), (1, b"b" * 100000, 1)], told(records))
            for record in records:
                consumer.acknowledge(record)
            self.assertEqual([(0, "stored"), (1, "stored")], outcomes(consumer.commit()))
        state, = share_group_state(self.servers, "g", ssl_context=self.context())
        self.assertEqual(2, state.start_offset)
        deleted, = delete_records(self.servers, {("orders", 0): 1}, ssl_context=self.context())
        self.assertEqual(1, deleted.low_watermark)

    def test_who_has_no_certificate_gets_nothing(self):
        self.proxied()
        for ssl_context in (self.context(is_known=False), None):
            with self.assertLogs("sharebroker", "WARNING"), self.assertRaises(Unreachable):
                share_group_state(self.servers, "g", timeout_ms=500, ssl_context=ssl_context)
        self.assertEqual(0, self.proxy.taken)

    def test_a_proxy_of_another_authority_gets_nothing(self):
        self.proxied()
        stranger = tempfile.mkdtemp(dir=self.folder)
        subprocess.run([CERTIFICATES, stranger], check=True)
        with self.assertLogs("sharebroker", "WARNING") as logs, self.assertRaises(Unreachable):
            share_group_state(self.servers, "g", timeout_ms=500,
                              ssl_context=self.context(ca=os.path.join(stranger, "ca.pem")))
        self.assertIn("CERTIFICATE_VERIFY_FAILED", logs.output[0])
        self.assertEqual(0, self.proxy.taken)

    def test_an_encrypted_connection_that_was_ended_while_idle_is_made_again_unnoticed(self):
        broker = self.proxied()
        with Producer(self.servers, ssl_context=self.context(), linger_ms=0) as producer, self.no_warnings():
            self.assertEqual(0, producer.send("orders", b"a").result(20).offset)
            broker.drop_connections()
            time.sleep(0.5)
            self.assertEqual(1, producer.send("orders", b"b").result(20).offset)


if __name__ == "__main__":
    unittest.main()
