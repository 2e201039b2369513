"""The built broker itself, by its command `serve`, on a free port over a fresh folder."""

import os
import shutil
import socket
import subprocess
import tempfile
import time

from context import PROGRAM

#: How often another port is tried where the one that was free is taken meanwhile.
TRIES = 5
#: How long the broker may take to listen, in seconds.
PATIENCE = 60
#: Where its folders are: in memory, where that is to be had, as nothing here is about the speed of a disk.
PLACE = "/dev/shm" if os.access("/dev/shm", os.W_OK) else None


class ServeBroker:
    """The broker with these topics, each as `NAME:PARTITIONS:ID`. `kill` and `start` may come between."""

    def __init__(self, *topics, lock_ms=30000, limit=5, reset="earliest", workers=16, others=()):
        self.topics = topics
        self.folder = tempfile.mkdtemp(dir=PLACE)
        self._words = ["--reset", reset, "--lock-ms", str(lock_ms), "--limit", str(limit), "--workers", str(workers),
                       *others]
        self._program = None
        self._errors = None
        self._begin()

    def _begin(self):
        for left in reversed(range(TRIES)):
            with socket.create_server(("127.0.0.1", 0)) as free:
                self.port = free.getsockname()[1]
            try:
                self.start()
                break
            except AssertionError:
                if left == 0:
                    shutil.rmtree(self.folder)
                    raise
        self.servers = f"127.0.0.1:{self.port}"

    def start(self):
        """Starts it, on the folder as it is, and waits until it listens."""
        errors = os.path.join(self.folder, "errors~")
        self._errors = open(errors, "wb")
        self._program = subprocess.Popen(
            [PROGRAM, "serve", "--dir", os.path.join(self.folder, "data"), "--listen", f"127.0.0.1:{self.port}",
             *self._words, *self.topics], stdin=subprocess.DEVNULL, stdout=subprocess.DEVNULL, stderr=self._errors)
        end = time.monotonic() + PATIENCE
        while b"listening" not in self.errors():
            status = self._program.poll()
            if status is not None or time.monotonic() > end:
                self.kill()
                raise AssertionError(f"the broker doesn't listen; its status is {status}: {self.errors().decode()}")
            time.sleep(0.005)

    def errors(self):
        """What it wrote to standard error since it was started."""
        with open(os.path.join(self.folder, "errors~"), "rb") as file:
            return file.read()

    def kill(self):
        """Ends it by SIGKILL."""
        if self._program is not None:
            self._program.kill()
            self._program.wait()
            self._program = None
            self._errors.close()

    def close(self):
        """Ends it, and its folder."""
        self.kill()
        shutil.rmtree(self.folder, ignore_errors=True)

