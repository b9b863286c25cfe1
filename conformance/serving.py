"""A server that runs, and a client that keeps one connection to it.

    with Serving(["PATH/afplane"], config, workers=4) as server:
        client = Client(server.port)
        exchange = client.ask(request)

`Serving` starts `PROGRAM serve CONFIG 0 WORKERS`, waits for the line that says where it listens, and ends it by SIGTERM. `Client` returns exchanges with times,
as history.py reads them: seconds of one clock for all clients of this process.
"""
import os
import re
import select
import signal
import socket
import subprocess
import tempfile
import time

import with_model  # noqa: F401
from all_cases import ROOT
from exchanges import Exchange

PROGRAM = os.path.join(ROOT, "crates", "afplane", "out", "afplane")
LISTENING = re.compile(rb"listening on 127\.0\.0\.1:([0-9]{1,5})\n")
LENGTH = re.compile(rb"\r\ncontent-length: *([0-9]+)\r\n", re.IGNORECASE)
CLOSES = re.compile(rb"\r\nconnection: *close\r\n", re.IGNORECASE)
EMPTY = b"\r\n\r\n"
START_SECONDS, END_SECONDS, ANSWER_SECONDS = 30, 10, 60
LOCAL, LISTENS = "0100007F", "0A"  # 127.0.0.1, and a socket that listens, as the tables of /proc/net have them
ROOM = 1 << 16


class Broken(Exception):
    """A server that did not start, ended by itself, or gave no whole answer."""


class Serving:
    """A server from its start to its end. `config` is the bytes of its configuration, `start` how many seconds it has until it listens."""

    def __init__(self, program, config, workers, start=START_SECONDS):
        self.program, self.config, self.workers, self.start = program, config, workers, start
        self.process = self.port = self.status = self.said = self.folder = None

    def __enter__(self):
        self.folder = tempfile.TemporaryDirectory(prefix="afplane-serve-")
        path = os.path.join(self.folder.name, "config.json")
        with open(path, "wb") as file:
            file.write(self.config)
        self.errors = open(os.path.join(self.folder.name, "errors"), "w+b")
        words = [*self.program, "serve", path, "0", str(self.workers)]
        # (a group of its own: a wrapper, such as a shell script, ends with what it started)
        how = {"stdin": subprocess.DEVNULL, "stdout": subprocess.PIPE, "stderr": self.errors, "start_new_session": True, "bufsize": 0}
        try:
            self.process = subprocess.Popen(words, **how)
            self.port = self.port_of(self.first_line())
        except BaseException:
            self.end()
            raise
        return self

    def __exit__(self, *_):
        self.end()

    def first_line(self):
        """What is on standard output, up to a line's end, or to its own end, or until the time is over."""
        until, line = time.monotonic() + self.start, b""
        while not line.endswith(b"\n") and select.select([self.process.stdout], [], [], max(0, until - time.monotonic()))[0]:
            piece = self.process.stdout.read(1)
            if not piece:
                break
            line += piece
        return line

    def port_of(self, line):
        found = LISTENING.fullmatch(line)
        if found is None or not 0 < int(found[1]) < 65536:
            raise Broken(f"the server does not say where it listens: {line!r}; standard error: {self.complaint()!r}")
        return int(found[1])

    def complaint(self):
        """The end of what is on standard error."""
        self.errors.flush()
        self.errors.seek(0)
        return self.errors.read()[-2000:].decode(errors="replace")

    def runs(self):
        return self.process.poll() is None

    def open_files(self):
        """How many files and sockets the process has open. Linux alone."""
        return len(os.listdir(f"/proc/{self.process.pid}/fd"))

    def memory(self):
        """The bytes of memory that the process has now. Linux alone."""
        with open(f"/proc/{self.process.pid}/statm", encoding="ascii") as file:
            return int(file.read().split()[1]) * os.sysconf("SC_PAGE_SIZE")

    def elsewhere(self):
        """That it listens at another address than 127.0.0.1, or at none; or None. Linux alone."""
        found = set()
        for table in ("tcp", "tcp6"):
            with open(f"/proc/net/{table}", encoding="ascii") as file:
                rows = [line.split() for line in file.readlines()[1:]]
            found |= {row[1].partition(":")[0] for row in rows if row[3] == LISTENS and int(row[1].partition(":")[2], 16) == self.port}
        return None if found == {LOCAL} else f"the server listens at {sorted(found)} and not at {LOCAL} alone"

    def end(self):
        """Ends the server by SIGTERM, and keeps its exit status and what else it printed. Status -15: it ran until then."""
        if self.process is not None and self.status is None:
            if self.runs():
                self.tell(signal.SIGTERM)
            try:
                self.process.wait(END_SECONDS)
            except subprocess.TimeoutExpired:
                self.tell(signal.SIGKILL)
                self.process.wait()
            self.status, self.said = self.process.returncode, self.process.stdout.read()
            self.process.stdout.close()
        if self.folder is not None:
            self.errors.close()
            self.folder.cleanup()
            self.folder = None

    def tell(self, what):
        try:
            os.killpg(self.process.pid, what)
        except ProcessLookupError:
            pass

    def fault(self):
        """Why this was no good life of a server, once it has ended; or None."""
        if self.status not in (-signal.SIGTERM, 128 + signal.SIGTERM):
            return f"the server ended by itself, or not by SIGTERM: status {self.status}"
        return f"it printed more than where it listens: {self.said!r}" if self.said else None


def answer_end(data, bare=False):
    """Where the first answer of some bytes ends, or None where it is not whole. `bare`: to a HEAD, which has no body."""
    head = data.find(EMPTY)
    if head < 0:
        return None
    length = None if bare else LENGTH.search(data, 0, head + 2)
    end = head + len(EMPTY) + (int(length[1]) if length else 0)
    return end if end <= len(data) else None


def closes(answer):
    """Whether an answer says that the connection is closed after it."""
    return CLOSES.search(answer, 0, answer.index(EMPTY) + 2) is not None


def is_bare(request):
    """Whether it is a HEAD, whose answer has no body. (A head that cannot be read has one, whatever its method: then the answer shows no HEAD was seen.)"""
    return request.lstrip(b"\r\n").startswith(b"HEAD ")


class Client:
    """One connection. It is closed once an answer says so; a request after that is an error of the caller."""

    def __init__(self, port, seconds=ANSWER_SECONDS, host="127.0.0.1"):
        self.socket = socket.create_connection((host, port), seconds)
        self.socket.setsockopt(socket.IPPROTO_TCP, socket.TCP_NODELAY, 1)
        self.rest, self.is_closed = b"", False

    def __enter__(self):
        return self

    def __exit__(self, *_):
        self.close()

    def close(self):
        self.is_closed = True
        self.socket.close()

    def send(self, data):
        """Sends all bytes. An error is left to the next answer, or to its lack: a server may have closed after an earlier one."""
        try:
            self.socket.sendall(data)
        except (BrokenPipeError, ConnectionResetError):
            pass

    def answer(self, bare=False):
        """The next answer, whole. Broken where the connection ends before that, or nothing comes for too long."""
        while (end := answer_end(self.rest, bare)) is None:
            try:
                piece = self.socket.recv(ROOM)
            except OSError as why:
                raise Broken(f"no whole answer: {why!r}, after {self.rest[:200]!r}") from why
            if not piece:
                raise Broken(f"the connection ended before a whole answer, after {self.rest[:200]!r}")
            self.rest += piece
        answer, self.rest = self.rest[:end], self.rest[end:]
        self.is_closed = closes(answer)
        return answer

    def ask(self, request):
        return self.ask_all([request])[0]

    def ask_all(self, requests):
        """Sends some requests in one write, and reads an answer to each, up to one that closes: what follows it is not carried out."""
        sent = time.monotonic()
        self.send(b"".join(requests))
        return self.answers_to(requests, sent)

    def answers_to(self, requests, sent):
        """The same of requests that were sent at a moment."""
        found = []
        for it in requests:
            answer = self.answer(is_bare(it))
            found.append(Exchange(it, answer, sent, time.monotonic()))
            if self.is_closed:
                self.expect_end()
                break
        return found

    def finish(self):
        """Ends the sending side; the server has to answer nothing more, and to close."""
        try:
            self.socket.shutdown(socket.SHUT_WR)
        except OSError:
            pass  # (it has gone already; what it sent before shows below)
        self.expect_end()

    def expect_end(self):
        """The connection has to end without a further byte. A reset counts as an end where all was read before it."""
        try:
            more = self.rest or self.socket.recv(ROOM)
        except ConnectionResetError:
            more = b""
        except OSError as why:
            raise Broken(f"the connection does not end: {why!r}") from why
        if more:
            raise Broken(f"there are bytes after the last answer: {more[:200]!r}")
        self.close()
