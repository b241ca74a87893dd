"""What the cases of talk.py share: a live controller in a folder of its own, a serial client on its line, the log replayed, and the
counting of what passed. The client is Debian's python3-serial, so this is for /usr/bin/python3."""

import os
import re
import signal
import subprocess
import time

import serial

ROOT = os.path.dirname(os.path.dirname(os.path.dirname(os.path.abspath(__file__))))
LIMIT = 60            # seconds after which what is awaited has failed to come
BUFFER = 256          # bytes of the receive buffer, as docs/LIVE.md has it
LOGGED = 100          # bytes that a log has of a line at most
END = b"\r\n"


started = []          # processes of the case under way, so that none is left behind


def start(command, **words):
    started.append(subprocess.Popen(command, stdin=subprocess.DEVNULL, **words))
    return started[-1]


class Missing(Exception):
    """What was awaited and did not come."""


def await_that(what, test):
    """The first true value of the test; after the limit it has failed."""
    until = time.monotonic() + LIMIT
    while True:
        value = test()
        if value:
            return value
        if time.monotonic() > until:
            raise Missing(f"{LIMIT} s were not enough for: {what}")
        time.sleep(0.005)


class Judge:
    passed = 0
    failed = 0

    def that(self, name, ok, more=""):
        if ok:
            self.passed += 1
        else:
            self.failed += 1
            print(f"talk: {name}{': ' if more != '' else ''}{str(more)[:600]}", flush=True)

    def same(self, name, got, due):
        self.that(name, got == due, f"{got!r} and not {due!r}")

    def case(self, case, *words):
        """A case that can't go on has failed, and the others go on."""
        try:
            case(self, *words)
        except Exception as fault:  # whatever it is
            self.that(f"{case.__name__} can't go on", False, f"{type(fault).__name__}: {fault}")
        finally:
            for process in started:
                if process.poll() is None:
                    process.kill()
                    process.wait()
            started.clear()


def read(path):
    with open(path, "rb") as file:
        return file.read()


def write(path, data):
    with open(path, "wb") as file:
        file.write(data)


def settings(name, **changed):
    """The numbers of examples/NAME.settings as a line, with the changed ones by their place."""
    numbers = read(f"{ROOT}/examples/{name}.settings").split()
    for place, number in changed.items():
        numbers[int(place[1:])] = str(number).encode()
    return b" ".join(numbers) + b"\n"


def replay(log):
    """What the proved program prints for a log."""
    with open(log, "rb") as file:
        return subprocess.run([f"{ROOT}/tools/run", "replay"], stdin=file, stdout=subprocess.PIPE, timeout=LIMIT, check=True).stdout


def pairs(row):
    """name=value of a line of outputs."""
    return dict(pair.split("=", 1) for pair in row.decode().split(" "))


def requests(log):
    """The requests of a log, and for each the number of its tick."""
    rows = read(log).split(b"\n")[1:-1]
    words = [row.split(b" ", 2)[2] for row in rows]
    return [(word, tick) for tick, word in enumerate(words, 1) if word != b"--"]


def due_requests(stream):
    """The requests that a log has to have for these bytes, however they were cut into pieces: worked out from docs/LIVE.md."""
    due, at = [], 0
    while True:
        end = stream.find(END, at)
        line = stream[at:] if end < 0 else stream[at:end]
        if end < 0 and len(line) < BUFFER:
            return due
        line = line[:LOGGED].replace(b"\n", b"?") or b"?"
        due.append(b"-?" if line == b"--" else line)
        if end < 0:
            return due
        at = end + 2


class Live:
    """A live controller in a folder; `go` starts it, again with --resume after an end."""

    def __init__(self, program, folder, *words, line=None):
        self.program = program
        self.folder = folder
        self.words = list(words)
        os.makedirs(folder, exist_ok=True)
        self.line, self.log, self.state, self.outputs, self.said, self.wrong = (
            f"{folder}/{name}" for name in ("line", "log", "state", "outputs", "said", "wrong"))
        if line is not None:
            write(f"{folder}/settings", line)
            self.words += ["--settings", f"{folder}/settings"]
        self.process = None
        self.client = None
        self.sent = b""
        self.received = b""
        self.read_to = 0      # of the received bytes, how many have been looked at as replies

    def command(self, *more):
        return [self.program, "--home", ROOT, "--line", self.line, "--log", self.log, "--state", self.state, "--outputs", self.outputs,
                *self.words, *more]

    def go(self, *more):
        if os.path.islink(self.line):
            os.unlink(self.line)  # a kill leaves it, and it may point to a terminal of another by now
        with open(self.said, "ab") as said, open(self.wrong, "ab") as wrong:
            self.process = start(self.command(*more), stdout=said, stderr=wrong)
        return self

    def open(self):
        """A client on the line, as any program would open it."""
        def opened():
            if self.process.poll() is not None:
                raise Missing(f"a line: live has ended with {self.process.returncode}, {read(self.wrong)!r}")
            return os.path.exists(self.line)
        await_that("the link to the line", opened)
        self.client = serial.Serial(self.line, 9600, timeout=0.02, write_timeout=LIMIT)
        return self

    def send(self, data):
        self.sent += data
        self.client.write(data)

    def take(self):
        data = self.client.read(self.client.in_waiting or 1)
        self.received += data
        return data

    def reply(self):
        """The next whole line of the client's side, without its CR LF."""
        begin = self.read_to

        def whole():
            if END not in self.received[begin:]:
                self.take()
            return END in self.received[begin:]
        await_that(f"a reply to {self.sent[-80:]!r}", whole)
        self.read_to = self.received.index(END, begin) + 2
        return self.received[begin:self.read_to - 2]

    def ask(self, line):
        self.send(line + END)
        return self.reply()

    def rows(self):
        """The whole lines of the outputs so far, without the first."""
        return read(self.outputs).split(b"\n")[1:-1]

    def last(self):
        """The newest whole line of the outputs, as pairs; empty before the first."""
        with open(self.outputs, "rb") as file:
            file.seek(max(0, os.path.getsize(self.outputs) - 4096))
            rows = file.read().split(b"\n")[:-1]
        return pairs(rows[-1]) if rows and rows[-1].startswith(b"answer=") and b" " in rows[-1] else {}

    def ended(self):
        """Its exit status, when it has ended by itself."""
        try:
            return self.process.wait(LIMIT)
        except subprocess.TimeoutExpired:
            self.kill()
            raise Missing("the end of live") from None

    def stop(self, how=signal.SIGINT):
        self.hang_up()
        self.process.send_signal(how)
        return self.ended()

    def kill(self):
        self.hang_up()
        if self.process is not None and self.process.poll() is None:
            self.process.kill()
            self.process.wait()

    def hang_up(self):
        if self.client is not None:
            self.client.close()
            self.client = None

    def settled(self):
        """Waits until every line that was sent has its tick, and every reply has come."""
        due = len(due_requests(self.sent))
        await_that(f"{due} requests in the log", lambda: len(requests(self.log)) >= due)
        length = sum(len(row["reply"]) // 2 for row in map(pairs, self.asked_rows()) if row["reply"] != "-")

        def come():
            if len(self.received) < length:
                self.take()
            return len(self.received) >= length
        await_that(f"{length} bytes of replies", come)
        self.take()  # what should not be there

    def asked_rows(self):
        """The outputs' rows of the ticks with a request."""
        at = [tick for _, tick in requests(self.log)]
        await_that("the outputs of the log's last request", lambda: not at or len(self.rows()) >= at[-1])
        rows = self.rows()
        return [rows[tick - 1] for tick in at]

    def judge_whole(self, judge, name):
        """After the end: log, outputs, replay and both ends of the line agree."""
        judge.same(f"{name}: the log's requests", [word for word, _ in requests(self.log)], due_requests(self.sent))
        replayed = replay(self.log)
        outputs = read(self.outputs)
        judge.that(f"{name}: replay gives other outputs than live", replayed == outputs, first_difference(replayed, outputs))
        rows = replayed.split(b"\n")[1:-1]
        judge.same(f"{name}: a line of outputs for each of the log's ticks", len(rows), len(read(self.log).split(b"\n")) - 2)
        replies = b"".join(bytes.fromhex(found) for found in re.findall(r" reply=([0-9a-f]+) ", b" ".join(rows).decode()))
        judge.same(f"{name}: what the client received", self.received, replies)
        return rows


def first_difference(one, other):
    for number, (a, b) in enumerate(zip(one.split(b"\n"), other.split(b"\n")), 1):
        if a != b:
            return f"line {number}: {a!r} and {b!r}"
    return f"{len(one)} and {len(other)} bytes"


def tick_of(live):
    """How many ticks the log has."""
    return len(read(live.log).split(b"\n")) - 2


def stand(process):
    """Stops a process, as it is, between two instructions, until a SIGCONT."""
    process.send_signal(signal.SIGSTOP)

    def stopped():
        with open(f"/proc/{process.pid}/stat", "rb") as file:
            return file.read().rpartition(b")")[2].split()[0] == b"T"
    await_that("the stop of the process", stopped)


def halt(live):
    """Stops the controller; gives the log's ticks."""
    stand(live.process)
    return tick_of(live)


def go_on(live):
    live.process.send_signal(signal.SIGCONT)
