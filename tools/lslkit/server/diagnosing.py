"""The worker, as the server has it: one document at a time is given to it, some moments after the last key."""
import os
import pickle
import signal
import subprocess
import sys
import threading
import time

from ..places import in_top

# Seconds without a key after which a document is looked at.
DELAY = 0.15
# Seconds after which the worker is ended that still looks at an old text.
PATIENCE = 2.0


class Diagnosing:
    def __init__(self, tell):
        """`tell` is called in another thread with each reply."""
        self.tell, self.process, self.is_busy, self.is_ready = tell, None, False, False
        # When each document is to be looked at, which one the worker has, and since when.
        self.due, self.given, self.since = {}, None, 0.0

    def start(self):
        environment = {**os.environ, "PYTHONPATH": in_top("tools")}
        how = {"stdin": subprocess.PIPE, "stdout": subprocess.PIPE, "env": environment, "start_new_session": True}
        self.process = subprocess.Popen([sys.executable, "-m", "lslkit.server.worker"], **how)
        threading.Thread(target=self.read, args=(self.process,), daemon=True).start()

    def read(self, process):
        """Hands the replies on; at their end the worker has ended."""
        while True:
            try:
                reply = pickle.load(process.stdout)
            except (EOFError, pickle.UnpicklingError, OSError, ValueError):
                reply = None
            self.tell((process, reply))
            if reply is None:
                return

    def take(self, told):
        """A worker's reply; none where that was ended meanwhile."""
        process, reply = told
        if process is not self.process:
            return None
        if reply is not None and "ready" in reply:
            self.is_ready = True
            return None
        if reply is None:
            self.ended()
        self.is_busy = False
        return reply

    def want(self, uri, delay=DELAY):
        self.due[uri] = time.monotonic() + delay

    def forget(self, uri):
        self.due.pop(uri, None)

    def seconds(self):
        """How long there is nothing to give to the worker; none where nothing is due. A worker that still compiles the
        program is left alone."""
        if not self.due or self.is_busy and (self.given not in self.due or not self.is_ready):
            return None
        when = self.due[self.given] if self.is_busy else min(self.due.values())
        when = max(when, self.since + PATIENCE) if self.is_busy else when
        return max(0.0, when - time.monotonic())

    def next(self):
        """The document that is due, or none."""
        if not self.due or self.seconds() is None or self.seconds() > 0:
            return None
        if self.is_busy:
            self.ended()
        uri = min(self.due, key=self.due.get)
        del self.due[uri]
        return uri

    def give(self, document, folder):
        if self.process is None:
            self.start()
        request = {"uri": document.uri, "version": document.version, "text": document.text}
        request.update(is_world=document.is_world, folder=folder)
        try:
            pickle.dump(request, self.process.stdin)
            self.process.stdin.flush()
            self.is_busy, self.given, self.since = True, document.uri, time.monotonic()
        except OSError:
            self.ended()

    def ended(self):
        """The worker has ended, or is to end: the next document gets a new one."""
        process, self.process, self.is_busy, self.is_ready = self.process, None, False, False
        if process is None:
            return
        try:
            os.killpg(process.pid, signal.SIGKILL)
        except ProcessLookupError:
            pass
        process.wait()
