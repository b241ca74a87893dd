"""Conversations with the live controller over its pseudo-terminal, by a serial client; what is due is worked out from the outline and from
docs/LIVE.md. board/live/talk builds the program and runs this:

    talk.py PROGRAM FOLDER [CASE..]     the cases by name; all without them. Its last line is 'N passed, M failed'."""

import os
import random
import re
import shutil
import signal
import subprocess
import sys
import time

from desk import (END, LIMIT, ROOT, Judge, Live, await_that, go_on, halt, pairs, read, replay, requests, settings, stand, start, tick_of,
                  write)

PROGRAM = sys.argv[1]
FOLDER = sys.argv[2]

# ---- what the outline says of a reply

WEIGHT = re.compile(rb"(ST|US),(GS|NT),[+-]\d{7}kg|OL,(GS|NT),[+-] {7}kg")
TOTAL = re.compile(rb"\d{8},\d{8}")
POINTS = re.compile(rb"\d{42}")
NG = {number: b"NG%02d" % number for number in range(1, 15)}


def points(*seven):
    return b"".join(b"%06d" % number for number in seven)


FIRST = points(500, 8, 70, 220, 3, 3, 20)     # F, FF, P, OP, over, under, near zero
SECOND = points(300, 8, 40, 100, 5, 5, 20)
BROKEN = points(500, 8, 8, 220, 3, 3, 20)     # P is not more than FF

# lines without sense, and what each is told and replied at address 0: sections 'Serial lines' and its readings D68 to D77
MALFORMED = [
    (b"XX", 13, NG[13]),                      # an unknown pair
    (b"XXYYZZ", 13, NG[13]),                  # at any length
    (b"rw", 13, NG[13]),                      # letters are exact
    (b"RWX", 11, NG[11]),                     # a known command of a wrong length
    (b"RW ", 11, NG[11]),
    (b"SS" + FIRST[:-1], 11, NG[11]),
    (b"SS" + FIRST + b"0", 11, NG[11]),
    (b"SS" + FIRST[:-1] + b"x", 11, NG[11]),  # a field that is no number
    (b"", 11, NG[11]),                        # under two bytes
    (b"R", 11, NG[11]),
    (b"@07RW", 13, NG[13]),                   # address 0 looks for no prefix
    (b"A" * 64, 13, NG[13]),                  # the longest line
    (b"RW" + b"A" * 62, 11, NG[11]),
    (b"A" * 65, 11, b""),                     # a long one has no reply
    (b"A" * 100, 11, b""),
    (b"A" * 101, 11, b""),
    (b"R\nW", 13, NG[13]),                    # LF alone is a byte as any other
    (b"RW\n", 11, NG[11]),
    (b"\n", 11, NG[11]),
    (b"\n\n", 13, NG[13]),
    (b"--", 13, NG[13]),                      # a log's word for nothing
    (b"---", 13, NG[13]),
    (b"-", 11, NG[11]),
    (b"RW\r", 11, NG[11]),                    # CR CR LF
    (b"\r", 11, NG[11]),
    (b"\r\r", 13, NG[13]),
    (b"\x00\xffRW", 13, NG[13]),              # other traffic before the command, and behind it
    (b"RW\x80\x00", 11, NG[11]),
    (b"? ", 13, NG[13]),
]

# lines that fill the receive buffer of 256 bytes, CR LF with them or not: told once, and the rest is no command
OVERLONG = [
    (b"Z" * 254, 11, b""),
    (b"Z" * 255, 11, b""),
    (b"Z" * 256, 11, b""),
    (b"Z" * 254 + b"BB", 11, b""),
    (b"Z" * 255 + b"BB", 11, b""),
    (b"Z" * 256 + b"BB", 11, b""),
    (b"Z" * 254 + b"\rBB", 11, b""),
    (b"Z" * 255 + b"\rBB", 11, b""),
    (b"Z" * 300 + b"BB", 11, b""),
    (b"Z" * 511 + b"\r", 11, b""),
    (b"Z" * 900 + b"\n\rBB", 11, b""),
    (b"\n" * 300, 11, b""),
]


def told_of(live):
    """For each request of the log: what it was told, and the reply without its CR LF."""
    found = []
    for row in map(pairs, live.asked_rows()):
        reply = b"" if row["reply"] == "-" else bytes.fromhex(row["reply"])
        found.append((int(row["answer"]), reply.removesuffix(END)))
    return found


def judge_table(judge, live, name, table, command, form):
    """Each line is followed by a good command: its reply is the next that comes, or the one after the line's own."""
    before = len(requests(live.log))
    for line, _, reply in table:
        live.send(line + END)
        if reply:
            judge.same(f"{name}: the reply to {line[:40]!r}", live.reply(), reply)
        judge.that(f"{name}: {command} behind {line[:40]!r}", form.fullmatch(live.ask(command)))
    live.settled()
    judge.same(f"{name}: told", [told for told in told_of(live)[before::2]], [(number, reply) for _, number, reply in table])


# ---- cases

def conversation(judge):
    """An operator fills a batch at a hopper, empties it and closes the day."""
    live = Live(PROGRAM, f"{FOLDER}/conversation", "--speed", "100").go().open()
    judge.that("RW", WEIGHT.fullmatch(live.ask(b"RW")))
    await_that("a stable weight", lambda: live.ask(b"RW").startswith(b"ST,GS,+"))
    await_that("an accepted zero", lambda: live.ask(b"MZ") == b"MZ")
    judge.same("RW after a zero", live.ask(b"RW")[2:], b",GS,+0000000kg")
    judge.same("MN", live.ask(b"MN"), b"MN")
    judge.same("RW shows net", live.ask(b"RW")[3:5], b"NT")
    judge.same("MG", live.ask(b"MG"), b"MG")
    judge.same("RW shows gross", live.ask(b"RW")[3:5], b"GS")
    judge.same("RT before a batch", live.ask(b"RT"), b"00000000,00000000")
    judge.same("CA with nothing to take back", live.ask(b"CA"), NG[7])
    judge.same("RS at first", live.ask(b"RS"), b"0" * 42)
    judge.same("SS against the rules", live.ask(b"SS" + BROKEN), NG[6])
    judge.same("SS", live.ask(b"SS" + FIRST), b"SS")
    judge.same("RS", live.ask(b"RS"), FIRST)

    # started, started again and stopped: in one write, so that all three stand in one batch
    live.send(b"BB\r\nBB\r\nHB\r\n")
    judge.same("BB, BB, HB", [live.reply() for _ in range(3)], [b"BB", NG[3], b"HB"])
    judge.same("a stop is error 4", [live.last()[key] for key in ("stage", "error", "batches")], ["00", "4", "0"])

    # five in one write: setpoints for the next batch wait in this one, and are read
    live.send(b"BB\r\nSS" + SECOND + b"\r\nRS\r\nMZ\r\nRW\r\n")
    replies = [live.reply() for _ in range(5)]
    judge.same("BB, SS, RS, MZ in a batch", replies[:4], [b"BB", b"SS", SECOND, NG[3]])
    judge.that("RW in a batch", WEIGHT.fullmatch(replies[4]))

    shown = []  # judged once, so that the number of what passed does not hang on the machine's speed

    def booked():
        shown.append((live.ask(b"RW"), live.ask(b"RT")))
        time.sleep(0.02)
        return shown[-1][1][9:] == b"00000001" and shown[-1][1]
    total = await_that("a booked batch", booked)
    judge.that("RW while it fills", all(WEIGHT.fullmatch(weight) for weight, _ in shown), shown)
    judge.that("RT while it fills", all(TOTAL.fullmatch(sums) for _, sums in shown), shown)
    judge.that("the batch is within its limits", 497 <= int(total[:8]) <= 503, total)
    judge.same("the waiting setpoints are in use", live.last()["setpoints"], ",".join(str(int(SECOND[i:i + 6])) for i in range(0, 42, 6)))
    judge.same("RS after the batch", live.ask(b"RS"), SECOND)

    live.send(b"BD\r\nBD\r\n")
    judge.same("BD, BD", [live.reply(), live.reply()], [b"BD", NG[3]])
    await_that("the end of the discharge", lambda: live.ask(b"CT") == b"CT")
    weight = await_that("rest", lambda: (found := live.ask(b"RW")).startswith(b"ST") and found)
    judge.that("the hopper is empty", -1 <= int(weight[6:14]) <= 1, weight)
    await_that("an accepted tare", lambda: live.ask(b"MT") == b"MT")
    judge.same("CA takes the batch back", live.ask(b"CA"), b"CA")
    judge.same("RT after it", live.ask(b"RT"), b"00000000,00000000")
    judge.same("CA once", live.ask(b"CA"), NG[7])
    judge.same("DT", live.ask(b"DT"), b"DT")
    judge.same("DC", live.ask(b"DC"), b"DC")
    judge_table(judge, live, "malformed", MALFORMED, b"RT", TOTAL)
    judge_table(judge, live, "overlong", OVERLONG, b"RS", POINTS)
    live.settled()
    said = read(live.said).decode()
    judge.same("SIGINT", live.stop(), 0)
    rows = live.judge_whole(judge, "conversation")

    # what the outline says of the batch, in the outputs: judged and booked at the tick that ends stage 11, with that tick's weight
    finish = next(i for i, row in enumerate(rows) if pairs(row)["batches"] == "1")
    before, after = pairs(rows[finish - 1]), pairs(rows[finish])
    judge.same("before the finish", [before[key] for key in ("stage", "stable")], ["11", "0"])
    judge.same("the finish", [after[key] for key in ("stage", "stable", "judgement", "error", "total")],
               ["00", "1", "ok", "0", after["net"]])
    stages = [pairs(row)["stage"] for row in rows]
    passed = [b for a, b in zip(stages, stages[1:]) if a != b]
    judge.same("the stages in their order", passed, "03 00 03 04 05 06 07 08 09 10 11 00 14 15 16 00".split())
    judge.that("a gate is open where none is due", not any(re.search(rb" stage=(00|03|10|11|14) gates=(?!----)", row) for row in rows))
    # what it says to its user
    judge.same("a line for each stage", re.findall(r" stage (\d\d) ", said), passed)
    judge.same("a line for the batch", re.findall(r" batch 1 booked: (\d+) kg, (\w+); ", said), [(str(int(total[:8])), "ok")])
    judge.same("a line for each refusal", [int(number) for number in re.findall(r" refused (\d+), ", said)],
               [number for number, _ in told_of(live) if number])
    closed = re.search(r"opening (\S+), refilled (\S+), used (\S+), unbooked (\S+), closing (\S+)\n", said)
    opening, refilled, used, unbooked, closing = (round(10 * float(number)) for number in closed.groups())
    judge.same("the closed day balances", opening + refilled - used - unbooked, closing)
    judge.that("the link is left behind", not os.path.lexists(live.line) and not os.path.lexists(live.line + ".new"))


def pieces(judge):
    """The same bytes in one write, byte by byte, cut inside CR LF, and with pauses."""
    live = Live(PROGRAM, f"{FOLDER}/pieces", "--speed", "20").go().open()
    for byte in b"SS" + FIRST + END:
        live.send(bytes([byte]))
        time.sleep(0.002)
    judge.same("SS byte by byte", live.reply(), b"SS")
    for cut in range(5):
        text = b"RS\r\n"
        live.send(text[:cut])
        at = tick_of(live)
        await_that("ticks in between", lambda: tick_of(live) > at + 3)
        live.send(text[cut:])
        judge.same(f"RS cut after {cut} bytes", live.reply(), FIRST)
    live.send(b"RS\r\nRT\r\n")
    judge.same("two in one write", [live.reply(), live.reply()], [FIRST, b"00000000,00000000"])
    live.send(b"RS\r\nXX\r\n\r\nRT\r\nSS1\r\nRS\r")
    judge.same("five and a half", [live.reply() for _ in range(5)], [FIRST, NG[13], NG[11], b"00000000,00000000", NG[11]])
    live.send(b"\n")
    judge.same("and the other half", live.reply(), FIRST)
    # 255 bytes without CR LF wait; the 256th fills the buffer
    before = len(requests(live.log))
    live.send(b"Z" * 255)
    at = tick_of(live)
    await_that("ticks in between", lambda: tick_of(live) > at + 60)  # in which 576 bytes come at 9,600 baud
    judge.same("requests with 255 bytes in the buffer", len(requests(live.log)), before)
    live.send(b"Z")
    await_that("a request with 256 bytes in the buffer", lambda: len(requests(live.log)) == before + 1)
    live.send(b"BB\r\nRS\r\n")
    judge.same("the rest of that line is no command", live.reply(), FIRST)
    # a client goes and another comes; the first has left half a command, which the line does not know
    live.send(b"R")
    live.client.flush()
    at = tick_of(live)
    await_that("ticks in between", lambda: tick_of(live) > at + 3)
    live.hang_up()
    live.open()
    live.send(b"S\r\n")
    judge.same("a command by two clients", live.reply(), FIRST)
    live.settled()
    judge.same("SIGTERM", live.stop(signal.SIGTERM), 0)
    live.judge_whole(judge, "pieces")


def plain(judge):
    """A client that opens the line as a file and sets nothing: a byte is a byte in both directions."""
    live = Live(PROGRAM, f"{FOLDER}/plain", "--speed", "20").go()
    await_that("the link to the line", lambda: os.path.exists(live.line))
    file = os.open(live.line, os.O_RDWR | os.O_NOCTTY | os.O_NONBLOCK)

    def take():
        try:
            live.received += os.read(file, 1024)
        except BlockingIOError:
            pass
        return live.received.endswith(b"00000000,00000000\r\n")
    live.sent = b"RS\r\nR\x03\x04\x7f\r\nRS\r\r\nRT\r\n"  # with bytes that a terminal may take for an interrupt, an end or an erasure
    os.write(file, live.sent)
    await_that("the reply to RT", take)
    judge.same("a plain client", live.received, b"0" * 42 + b"\r\nNG13\r\nNG11\r\n00000000,00000000\r\n")
    os.close(file)
    judge.same("SIGINT", live.stop(), 0)
    live.judge_whole(judge, "plain")


def traffic(judge):
    """Bytes at random from an alphabet that makes commands, ends and prefixes likely, in pieces of random length, long lines among them."""
    for address, seed in ((0, 1), (7, 2)):
        draw = random.Random(seed)
        alphabet = [b"R", b"W", b"T", b"S", b"@", b"0", b"7", b"-", b"\r", b"\n", b"\r\n", b"\r\n", b"RW\r\n", b"@07RT\r\n", b"--\r\n",
                    b"\xff", b"@07", b"Q" * 60, b"Q" * 120, b"Q" * 255]
        stream = b"".join(draw.choice(alphabet) for _ in range(4000)) + b"\r\n\r\nRT\r\n@07RT\r\n"
        live = Live(PROGRAM, f"{FOLDER}/traffic{address}", "--speed", "200", "--baud", "0" if address else "115200", "--quiet",
                    line=settings("batch", _18=address)).go().open()
        at = 0
        while at < len(stream):
            piece = stream[at:at + draw.choice((1, 2, 3, 10, 100, 1000))]
            live.send(piece)
            at += len(piece)
            if draw.random() < 0.3:
                live.take()
        live.settled()
        judge.same("SIGHUP", live.stop(signal.SIGHUP), 0)
        rows = live.judge_whole(judge, f"traffic at address {address}")
        # a log has lines for those that it can't hold; that they are answered alike is shown by live's outputs being replay's, and by this:
        answers = {pairs(row)["answer"] for row in rows}
        judge.that("too little was tried", answers >= ({"0", "11", "12"} if address else {"0", "11", "13"}), answers)


def addressed(judge):
    """At address 7 the prefix is asked for, and another's line is met with silence."""
    live = Live(PROGRAM, f"{FOLDER}/addressed", "--speed", "100", line=settings("batch", _18=7)).go().open()
    await_that("the first lines", lambda: b"Ctrl-C" in read(live.said))
    judge.that("the user is told the prefix", b"prefix @07 " in read(live.said))
    total = re.compile(b"@07" + TOTAL.pattern)
    judge.that("@07RW", re.fullmatch(b"@07(?:" + WEIGHT.pattern + b")", live.ask(b"@07RW")))
    judge.same("@07SS", live.ask(b"@07SS" + FIRST), b"@07SS")
    judge.same("@07RS", live.ask(b"@07RS"), b"@07" + FIRST)
    table = [
        (b"@07XX", 13, b"@07NG13"), (b"@07", 11, b"@07NG11"), (b"@07R", 11, b"@07NG11"), (b"@07--", 13, b"@07NG13"),
        (b"@07\n", 11, b"@07NG11"), (b"@07RWX", 11, b"@07NG11"), (b"@07" + b"A" * 61, 13, b"@07NG13"),
        (b"@07" + b"A" * 62, 11, b""), (b"@07CA", 7, b"@07NG07"),
        (b"@08RT", 12, b""), (b"@00RT", 12, b""), (b"@7RT", 12, b""), (b"RT", 12, b""), (b"", 12, b""), (b"\n", 12, b""), (b"--", 12, b""),
        (b"-", 12, b""), (b"@0", 12, b""), (b"@\n7RT", 12, b""), (b"\r", 12, b""), (b" @07RT", 12, b""), (b"Z" * 64, 12, b""),
        (b"Z" * 65, 11, b""), (b"Z" * 254, 11, b""), (b"Z" * 256 + b"@07BB", 11, b""), (b"Z" * 255 + b"\r@07BB", 11, b""),
        (b"@07" + b"\n" * 300, 11, b""),
    ]
    judge_table(judge, live, "address 7", table, b"@07RT", total)
    judge.same("SIGINT", live.stop(), 0)
    live.judge_whole(judge, "address 7")


def filling(live):
    """Setpoints and a start; gives back when the large gate is open and its weight compared."""
    for line, reply in ((b"SS" + points(900, 8, 70, 220, 9, 9, 20), b"SS"), (b"BB", b"BB")):
        if live.ask(line) != reply:
            raise ValueError(f"{line!r} was refused")
    await_that("stage 05", lambda: live.last().get("stage") == "05")


def cuts(judge):
    """kill -9 in mid-batch and --resume, then an end by SIGINT and --resume: the batch goes on where it was."""
    live = Live(PROGRAM, f"{FOLDER}/cuts", "--seed", "3", "--baud", "0").go("--speed", "5").open()
    filling(live)
    live.settled()
    halt(live)
    live.kill()
    live.words = ["--baud", "0", "--resume"]
    image = read(live.state)
    judge.same("the image at the cut: its length, its stage", (len(image), image[88]), (288, 5))
    live.go("--speed", "2").open()
    cut = await_that("the tick of the cut", lambda: re.search(rb"going on after a cut, at tick (\d+)", read(live.said)))
    cut = int(cut.group(1))
    await_that("ticks after the cut", lambda: tick_of(live) > cut + 10)
    judge.that("RS after the cut", live.ask(b"RS") == points(900, 8, 70, 220, 9, 9, 20))
    judge.same("BB in the batch that goes on", live.ask(b"BB"), NG[3])
    live.settled()
    judge.same("SIGINT in the batch", live.stop(), 0)
    again = f"--resume --log {live.log} --state {live.state} --outputs {live.outputs} --line {live.line} --speed 2 --baud 0\n".encode()
    judge.that("the last line says how to go on", read(live.said).endswith(again), read(live.said)[-300:])
    at = tick_of(live)
    live.go("--speed", "200").open()
    await_that("a booked batch", lambda: live.ask(b"RT")[9:] == b"00000001")
    live.settled()
    judge.same("SIGINT", live.stop(), 0)
    rows = live.judge_whole(judge, "cuts")
    stages = [pairs(row)["stage"] for row in rows]
    judge.same("the stages over both cuts", [b for a, b in zip(stages, stages[1:]) if a != b], "03 04 05 06 07 08 09 10 11 00".split())
    judge.same("the stage at the second cut", stages[at - 1], "05")
    # the gates were shut while there was no power: what was in flight, 160 ticks of three feeds at 0.38 kg, lies on the scale at once
    counts = [int(row.split(b" ")[0]) for row in read(live.log).split(b"\n")[1:-1]]
    judge.that("what was in flight at the cut has landed", abs(counts[cut] - counts[cut - 1] - 6080) < 100, counts[cut] - counts[cut - 1])
    later = min(cut + 155, at - 1)
    judge.that("and nothing lands for 160 ticks", abs(counts[later] - counts[cut]) < 100, counts[later] - counts[cut])
    last = pairs(rows[-1])
    judge.that("the batch is within its limits", last["judgement"] == "ok" and 891 <= int(last["total"]) <= 909, rows[-1])


def many_cuts(judge):
    """Killed again and again, at any instruction: no tick that was kept is lost, none is run twice."""
    live = Live(PROGRAM, f"{FOLDER}/many", "--baud", "0", "--speed", "1000", "--quiet").go()
    draw = random.Random(5)
    ticks = 0
    for _ in range(12):
        await_that("more ticks", lambda: live.process.poll() is not None or (os.path.exists(live.log) and tick_of(live) > ticks + 300))
        time.sleep(draw.random() * 0.01)
        live.kill()
        ticks = tick_of(live)
        live.go("--resume")
    await_that("more ticks", lambda: live.process.poll() is not None or tick_of(live) > ticks + 300)
    judge.same("the last of many runs", live.stop(), 0)
    live.judge_whole(judge, "many cuts")


def between_writes(judge):
    """A cut after the log's line, after the slot, or before either: the same run to one tick more gives the files of each."""
    def run(folder, ticks, *words):  # a tank, whose noise never rests
        return Live(PROGRAM, f"{FOLDER}/{folder}", "--plant", "tank", "--speed", "1000", "--quiet").go("--ticks", str(ticks), *words)

    for name, newer in (("log", "log outputs"), ("slot", "log outputs state.plant"), ("none", "")):
        kept, after = run(f"between-{name}", 401), run(f"after-{name}", 402)
        judge.same(f"between writes, {name}: both end", (kept.ended(), after.ended()), (0, 0))
        judge.same(f"between writes, {name}: their ticks", (tick_of(kept), tick_of(after)), (401, 402))
        for file in newer.split():
            shutil.copy(f"{after.folder}/{file}", f"{kept.folder}/{file}")
        kept.go("--resume", "--ticks", "5")
        judge.same(f"between writes, {name}: going on", (kept.ended(), tick_of(kept)), (0, 406))
        kept.judge_whole(judge, f"between writes, {name}")
        uncut = run(f"uncut-{name}", 406)
        judge.same(f"between writes, {name}: the same without a cut", uncut.ended(), 0)
        judge.that(f"between writes, {name}: another log than without a cut", read(kept.log) == read(uncut.log))


def kept_outputs(judge):
    """Outputs are kept from a run's beginning or not at all, and go on in the file that they are in and in no other."""
    def told(name, live, say, outputs):
        before = {file: read(f"{live.folder}/{file}") for file in os.listdir(live.folder)}
        done = subprocess.run([PROGRAM, "--home", ROOT, "--log", live.log, "--state", live.state, "--resume", "--ticks", "5",
                               "--outputs", outputs], capture_output=True, timeout=LIMIT)
        judge.that(f"told: {name}", done.returncode == 1 and done.stdout == b"" and done.stderr.count(b"\n") == 1 and say in done.stderr,
                   (done.returncode, done.stdout, done.stderr))
        judge.that(f"{name}: a file has changed", before == {file: read(f"{live.folder}/{file}") for file in os.listdir(live.folder)})

    def without(live, *words):
        return subprocess.run([PROGRAM, "--home", ROOT, "--log", live.log, "--state", live.state, "--speed", "1000", "--quiet", *words],
                              stdout=subprocess.DEVNULL, timeout=LIMIT).returncode

    live = Live(PROGRAM, f"{FOLDER}/outputs", "--speed", "1000", "--quiet").go("--ticks", "50")
    judge.same("a run with outputs", live.ended(), 0)
    write(f"{live.folder}/letter", b"Dear reader, " * 10000)
    told("another file as outputs", live, b"are not those", f"{live.folder}/letter")
    told("the log as outputs", live, b"at work", live.log)
    shutil.copy(live.outputs, f"{live.folder}/copy")
    with open(f"{live.folder}/copy", "r+b") as copy:
        copy.seek(100)
        copy.write(b"#")
    told("outputs with a byte changed", live, b"are not those", f"{live.folder}/copy")
    told("outputs of a name where none are", live, b"no outputs", f"{live.folder}/none")
    shutil.copytree(live.folder, f"{FOLDER}/outputs-copied")  # a run that was copied away must not go on in this one's outputs
    judge.same("going on at leisure", live.go("--resume", "--speed", "1").process.poll(), None)
    await_that("its first tick", lambda: tick_of(live) > 50)
    halt(live)
    told("outputs that a program is at work on", Live(PROGRAM, f"{FOLDER}/outputs-copied"), b"at work", live.outputs)
    go_on(live)
    judge.same("SIGINT", live.stop(), 0)
    live.judge_whole(judge, "outputs")

    # a resume without them ends them; the file stays as it was
    kept = read(live.outputs)
    judge.same("going on without outputs", (without(live, "--resume", "--ticks", "5"), read(live.outputs)), (0, kept))
    told("outputs after ticks without them", live, b"replay makes them from the log", live.outputs)
    judge.same("going on without outputs again", without(live, "--resume", "--ticks", "5"), 0)
    told("outputs that were ended", live, b"replay makes them from the log", f"{live.folder}/anew")

    # a run that never had any
    bare = Live(PROGRAM, f"{FOLDER}/bare")
    judge.same("a run without outputs", without(bare, "--ticks", "20"), 0)
    told("outputs first asked for at a resume", bare, b"replay makes them from the log", bare.outputs)
    judge.same("it goes on without them", without(bare, "--resume", "--ticks", "5"), 0)


def booked(judge):
    """A batch is told although CA or DT of its finishing tick has taken the one before away: the count does not rise then. One that HB
    stops in that tick is not."""
    live = Live(PROGRAM, f"{FOLDER}/booked", "--baud", "0").go("--speed", "200").open()
    files = (live.log, live.state, live.state + ".plant", live.outputs)

    def run_to(tick):
        if live.go("--resume", "--speed", "1000", "--quiet", "--ticks", str(tick - tick_of(live))).ended() != 0:
            raise ValueError(f"no run to tick {tick}: {read(live.wrong)!r}")

    def keep():
        return [read(file) for file in files]

    def put_back(kept):
        for file, data in zip(files, kept):
            write(file, data)

    for number in (b"00000001", b"00000002"):  # to the end of one batch, and a second one's beginning on top of it
        await_that("an accepted tare", lambda: live.ask(b"MT") == b"MT")
        if live.ask(b"SS" + points(200, 8, 40, 100, 9, 9, 20)) != b"SS" or live.ask(b"BB") != b"BB":
            raise ValueError("no batch has begun")
        if number == b"00000001":
            await_that("a booked batch", lambda: live.ask(b"RT")[9:] == number)
    judge.same("SIGINT in the second batch", live.stop(), 0)

    # the plant goes its way whatever is asked for: a run without a request shows the tick in which the batch finishes
    kept = keep()
    run_to(tick_of(live) + 12000)
    finish = next(tick for tick, row in enumerate(live.rows(), 1) if pairs(row)["batches"] == "2")
    weight, total = (pairs(live.rows()[finish - 1])[key] for key in ("net", "total"))
    put_back(kept)
    run_to(finish - 50)
    kept = keep()
    alone, both = ("1", weight, "ok", weight), ("2", weight, "ok", total)
    for command, due in ((b"CA", [alone]), (b"DT", [alone]), (b"RT", [both]), (b"HB", [])):
        for _ in range(20):  # it may be halted between looking at the line and writing its log, or too late
            put_back(kept)
            said = len(read(live.said))
            live.go("--resume", "--speed", "2").open()
            await_that("its first tick", lambda: tick_of(live) > finish - 50)
            before = finish - halt(live) - 1
            if before >= 0:
                live.send(b"RS\r\n" * before + command + END)
                time.sleep(0.1)  # the system brings them to the other side
            go_on(live)
            await_that("the finish", lambda: tick_of(live) > finish + 2)
            live.stop()
            if (command, finish) in requests(live.log):
                break
        row = pairs(live.rows()[finish - 1])
        judge.same(f"{command.decode()} in the finishing tick", [(command, finish) in requests(live.log), row["answer"], row["batches"]],
                   [True, "0", "2" if command == b"RT" else "1"])
        judge.same(f"a line for the batch that finishes with {command.decode()}",
                   re.findall(r" batch (\d+) booked: (\d+) kg, (\w+); total (\d+) kg\n", read(live.said)[said:].decode()), due)


def every_write(judge):
    """Killed before each of its writes in turn, by a program that is told which: the log goes on as if nothing had been."""
    whole = Live(PROGRAM, f"{FOLDER}/uncut", "--plant", "tank", "--speed", "1000", "--quiet").go("--ticks", "60")
    judge.same("60 ticks without a cut", whole.ended(), 0)
    first = 4  # the settings, the first line of the outputs, the plant and the image: before these are kept there is nothing to go on with
    for write_number in range(1, first + 30):
        name = f"cut before write {write_number}"
        live = Live(os.environ["CUTTING"], f"{FOLDER}/write{write_number}", "--plant", "tank", "--speed", "1000", "--quiet")
        os.environ["CUT"] = str(write_number)
        judge.same(name, live.go().ended(), -signal.SIGKILL)
        os.environ["CUT"] = "0"
        status = live.go("--resume", "--ticks", "20").ended()
        judge.same(f"{name}: going on", status, 0 if write_number > first else 1)
        if status == 0:
            log = read(live.log)
            judge.that(f"{name}: another log", read(whole.log).startswith(log) and tick_of(live) == 20 + (write_number - first - 1) // 4,
                       tick_of(live))
            judge.that(f"{name}: replay gives other outputs", replay(live.log) == read(live.outputs))
        else:
            judge.that(f"{name}: told", re.search(b"refused, 20: |there is no |not the settings", read(live.wrong)), read(live.wrong))


def loss(judge):
    """Loss-in-weight: the gates draw from the tank, and what is gone is the batch."""
    live = Live(PROGRAM, f"{FOLDER}/loss", "--plant", "tank", "--speed", "100", line=settings("day", _11=2)).go().open()
    await_that("an accepted tare", lambda: live.ask(b"MT") == b"MT")
    judge.same("BD in mode 2", live.ask(b"BD"), NG[9])
    judge.same("SS", live.ask(b"SS" + points(500, 1, 50, 9000, 5, 5, 0)), b"SS")
    judge.same("BB", live.ask(b"BB"), b"BB")
    total = await_that("a booked batch", lambda: (found := live.ask(b"RT"))[9:] == b"00000001" and found)
    judge.that("the batch is within its limits", 495 <= int(total[:8]) <= 505, total)
    live.settled()
    judge.same("SIGINT", live.stop(), 0)
    rows = live.judge_whole(judge, "loss")
    stages = [pairs(row)["stage"] for row in rows]
    judge.same("its stages", [b for a, b in zip(stages, stages[1:]) if a != b], "03 06 07 08 09 10 11 00".split())
    judge.that("the tank has what is left", abs(int(pairs(rows[0])["gross"]) - int(pairs(rows[-1])["gross"]) - int(total[:8])) <= 3)


def kept_first(judge):
    """A reply goes out after its tick is kept: behind the tick's four writes, and the opening's four."""
    live = Live(os.environ["CUTTING"], f"{FOLDER}/kept", "--baud", "0", "--speed", "20", "--quiet")
    os.environ["ORDER"] = f"{live.folder}/order"
    live.go().open()
    del os.environ["ORDER"]
    judge.same("RS", live.ask(b"RS"), b"0" * 42)
    judge.same("SIGINT", live.stop(), 0)
    judge.same("the writes before the reply's", read(f"{live.folder}/order").index(b"t"), 4 + 4 * requests(live.log)[0][1])


def refused_images(judge):
    """What --resume refuses: one line, its number, status 1, and no file is changed."""
    live = Live(PROGRAM, f"{FOLDER}/refused", "--speed", "1000", "--quiet").go("--ticks", "300")
    judge.same("a run of 300 ticks", live.ended(), 0)
    other = Live(PROGRAM, f"{FOLDER}/other", "--speed", "1000", "--quiet", "--seed", "9").go("--ticks", "200")
    judge.same("another run", other.ended(), 0)
    files = ("log", "state", "state.plant", "outputs")
    kept = {name: read(f"{live.folder}/{name}") for name in files}
    image = kept["state"]

    def changed(place, byte):
        return image[:place] + bytes([byte]) + image[place + 1:]

    def refused(name, say, *words, missing=None, **given):
        for file in files:
            write(f"{live.folder}/{file}", kept[file])
        for file, data in given.items():
            write(f"{live.folder}/{file.replace('_', '.')}", data)
        if missing:
            os.unlink(f"{live.folder}/{missing}")
        before = {file: read(f"{live.folder}/{file}") for file in files if file != missing}
        done = subprocess.run(live.command("--resume", "--ticks", "1", *words), capture_output=True, timeout=LIMIT)
        judge.that(f"refused: {name}", done.returncode == 1 and done.stdout == b"" and done.stderr.count(b"\n") == 1 and say in done.stderr,
                   (done.returncode, done.stdout, done.stderr))
        judge.that(f"refused: {name}: a file has changed", before == {file: read(f"{live.folder}/{file}") for file in files if
                                                                      os.path.exists(f"{live.folder}/{file}")})

    refused("an image cut short", b"refused, 20: ", state=image[:100])
    refused("an empty image", b"refused, 20: ", state=b"")
    refused("an image too long", b"refused, 20: ", state=image + b"\0")
    refused("an impossible stage", b"refused, 21: an impossible image", state=changed(88, 1))
    refused("an unused byte", b"refused, 21: an impossible image", state=changed(200, 1))
    refused("a day that does not balance", b"refused, 21: an impossible image", state=changed(3, image[3] ^ 1))
    refused("an earlier image that is impossible", b"refused, 21: an impossible image", state=changed(88, 1)[:256])
    refused("a possible image, but another's", b"refused, 21: it is another's", state=read(other.state))
    refused("a possible image with a bit changed", b"refused, 21: it is another's", state=changed(58, 1))
    refused("the plant of another", b"refused, 21: it is another's", state_plant=read(other.state + ".plant"))
    refused("an empty plant", b"refused, 21: it is another's", state_plant=bytes(len(kept["state.plant"])))
    half = len(kept["state.plant"]) // 2
    damaged = bytearray(kept["state.plant"])
    for slot in (0, half):
        damaged[slot + 60] ^= 1  # a byte of the weight
    refused("a damaged plant", b"refused, 21: it is another's", state_plant=bytes(damaged))
    refused("no plant", b"no plant", missing="state.plant")
    refused("no state", b"no state", missing="state")
    refused("no log", b"no log", missing="log")
    refused("a log cut short", b"not the one", log=kept["log"][:-20])
    refused("a log that was changed", b"not the one", log=kept["log"].replace(b"20100 0 --\n", b"20101 0 --\n", 1))
    refused("a log of no settings", b"not the settings", log=kept["log"].replace(b" ", b"  ", 1))
    refused("a log of settings outside the table", f"the settings of the log {live.log} are refused, 10: ".encode(),
            log=kept["log"].replace(b" 1000 1000 1 2 ", b" 1000 1000 3 2 ", 1))
    refused("outputs cut short", b"are not those", outputs=kept["outputs"][:-20])
    refused("outputs of another", b"are not those", outputs=read(other.outputs) * 2)
    write(f"{live.folder}/others", settings("batch", _17=5999))
    refused("settings of other numbers", b"are not those of the log", "--settings", f"{live.folder}/others")
    refused("another plant", b"is a hopper", "--plant", "tank")

    # what is not refused: its own settings by name, and an image of 256 bytes, which is grown
    for file in files:
        write(f"{live.folder}/{file}", kept[file])
    judge.same("its own settings", live.go("--resume", "--ticks", "5", "--settings", f"{ROOT}/examples/batch.settings").ended(), 0)
    write(live.state, read(live.state)[:256])
    judge.same("an image of 256 bytes", (live.go("--resume", "--ticks", "5").ended(), len(read(live.state)), tick_of(live)), (0, 288, 310))
    live.judge_whole(judge, "an image of 256 bytes")


def day_of(log):
    """The day book of a log under examples/day.settings, where raw is the count: refilled and used up to its DC."""
    refilled = used = 0
    last, was = None, False
    for row in read(log).split(b"\n")[1:-1]:
        count, contact, request = row.split(b" ", 2)
        count, contact = int(count), contact == b"1"
        if last is not None and (contact or was):
            refilled += count - last
        elif last is not None:
            used += last - count
        if request == b"DC":
            return refilled, used
        last, was = count, contact
    raise ValueError("there is no DC")


def tank(judge):
    """A tank is drawn by its pump until a tanker comes; no zero while it is connected; the day is closed."""
    live = Live(PROGRAM, f"{FOLDER}/tank", "--baud", "0").go("--plant", "tank", "--speed", "1000", "--ticks", "34000")
    judge.same("34,000 ticks of a tank", live.ended(), 0)
    contacts = [row.split(b" ")[1] for row in read(live.log).split(b"\n")[1:-1]]
    judge.that("the tanker is connected by now", contacts[0] == b"0" and contacts[-1] == b"1")
    live.go("--resume").open()
    judge.same("MZ while the tanker is connected", live.ask(b"MZ"), NG[8])
    judge.same("MN", live.ask(b"MN"), b"MN")
    live.settled()
    live.stop()
    for part, ticks in (("up to its first pouring", "6000"), ("the rest of the refill", "40000")):
        judge.same(part, live.go("--resume", "--speed", "1000", "--ticks", ticks).ended(), 0)
    rows = [row.split(b" ") for row in read(live.log).split(b"\n")[1:-1]]
    closed = [int(row[0]) for row in rows if row[1] == b"1"]
    judge.that("the tanker has gone", rows[-1][1] == b"0")
    judge.that("it waits before it pours", abs(closed[2000] - closed[0]) < 100)
    judge.that("it fills from the low mark", abs(closed[0] - 30000) < 200, closed[0])
    judge.that("to the high one", abs(closed[-1] - 90000) < 200, closed[-1])
    live.go("--resume").open()
    judge.same("DC", live.ask(b"DC"), b"DC")
    live.settled()
    judge.same("SIGINT", live.stop(), 0)
    rows = live.judge_whole(judge, "tank")
    uncut = Live(PROGRAM, f"{FOLDER}/tank-uncut", "--quiet").go("--plant", "tank", "--speed", "1000", "--ticks", str(len(rows)))
    judge.same("the same tank without a cut", uncut.ended(), 0)
    plants = [[row.split(b" ")[:2] for row in read(log).split(b"\n")[1:-1]] for log in (live.log, uncut.log)]
    judge.that("another plant than without a cut", plants[0] == plants[1])
    refilled, used = day_of(live.log)
    before = pairs(rows[requests(live.log)[-1][1] - 2])
    judge.that("refilled is what was poured", abs(refilled - 60000) < 1000 and abs(int(before["refilled"]) - refilled) < 100, refilled)
    said = re.search(r"refilled (\S+), used (\S+), ", read(live.said).decode())
    judge.same("the closed day's sums, from the counts", tuple(round(10 * float(number)) for number in said.groups()), (refilled, used))


def baud(judge):
    """46 bytes at 9,600 baud take five ticks, 9.6 bytes each; without a baud they come at once. Shown with the process halted, so that the
    bytes are all there at its next tick, whatever the machine does besides."""
    # one tick more where it was halted after it had looked at the line; at 300 baud a byte may be under way already, three ticks of it
    for rate, least, most in (("9600", 5, 6), ("0", 1, 2), ("300", 151, 155), ("4000000", 1, 2)):
        live = Live(PROGRAM, f"{FOLDER}/baud{rate}", "--baud", rate, "--speed", "10").go().open()
        await_that("a tick", lambda: tick_of(live) > 0)
        at = halt(live)
        live.send(b"SS" + FIRST + END)
        time.sleep(0.3)  # the system brings them to the other side
        go_on(live)
        judge.same(f"SS at {rate} baud", live.reply(), b"SS")
        took = requests(live.log)[0][1] - at
        judge.that(f"SS at {rate} baud in {least} to {most} ticks", least <= took <= most, took)
        if rate == "9600":  # 230 bytes of five commands: each has its tick as its bytes come, 9.6 a tick
            at = halt(live)
            live.send((b"SS" + FIRST + END) * 5)
            time.sleep(0.3)
            go_on(live)
            judge.same("five at once", [live.reply() for _ in range(5)], [b"SS"] * 5)
            took = [tick - at for _, tick in requests(live.log)[1:]]
            judge.that("five at once, their ticks", took in ([5, 10, 15, 20, 24], [6, 11, 16, 21, 25]), took)
        live.settled()
        judge.same("SIGINT", live.stop(), 0)
        live.judge_whole(judge, f"{rate} baud")


def unread(judge):
    """Nobody reads the replies: ticks go on, replies are lost whole, and the line works when it is read again."""
    live = Live(PROGRAM, f"{FOLDER}/unread", "--baud", "0", "--speed", "1000", "--quiet").go().open()
    count = 12000
    for _ in range(count // 100):
        live.send(b"RS\r\n" * 100)
    await_that("12,000 requests in the log", lambda: len(requests(live.log)) >= count)
    time.sleep(0.05)

    for _ in range(3):  # the terminal's own queue, then what live still has to send
        await_that("the end of what was kept for the reader", lambda: live.take() == b"")
        at = tick_of(live)
        await_that("ticks in between", lambda: tick_of(live) > at + 3)
    whole = b"0" * 42 + END
    judge.that("replies are lost whole", live.received == whole * (len(live.received) // len(whole)), live.received[-100:])
    judge.that("some replies are lost", 0 < len(live.received) < count * len(whole), len(live.received))
    live.read_to = len(live.received)
    judge.same("RT when the line is read again", live.ask(b"RT"), b"00000000,00000000")
    judge.same("SIGINT", live.stop(), 0)
    judge.that("unread: replay gives the same outputs", replay(live.log) == read(live.outputs))
    judge.that("the user is told", b"a reply is lost" in read(live.said))


def clock(judge):
    """A tick takes its time and no less; after a halt the ticks go on from then and do not race after what was missed."""
    start = time.monotonic()
    live = Live(PROGRAM, f"{FOLDER}/clock", "--quiet").go("--ticks", "60")
    judge.same("60 ticks", live.ended(), 0)
    judge.that("60 ticks take 0.6 s at least", time.monotonic() - start >= 0.59, time.monotonic() - start)
    start = time.monotonic()
    live = Live(PROGRAM, f"{FOLDER}/halted", "--quiet").go("--ticks", "100")
    await_that("ten ticks", lambda: os.path.exists(live.log) and tick_of(live) >= 10)
    halt(live)
    time.sleep(1)
    go_on(live)
    judge.same("100 ticks", live.ended(), 0)
    judge.that("a halt is not raced after", time.monotonic() - start >= 1.7, time.monotonic() - start)


def seeds(judge):
    """The same seed gives the same run; any settings of the table have a plant whose counts are good."""
    def log(folder, *words):
        live = Live(PROGRAM, f"{FOLDER}/{folder}", "--speed", "1000", "--quiet", *words).go("--ticks", "3000")
        judge.same(f"3,000 ticks, {folder}", live.ended(), 0)
        return read(live.log)

    judge.that("the same seed", log("seed-a", "--seed", "4") == log("seed-b", "--seed", "4"))
    judge.that("another seed", log("seed-c", "--seed", "5") != read(f"{FOLDER}/seed-a/log"))
    extremes = [b"-2000000 2000000 16000 1 50 30 500 45 10000 500 9 2 9999 9999 9999 9999 9999 60000 99 2 -999999 999999 9999 9999 60000",
                b"1999990 2000000 1 1 1 1 0 0 0 10 0 1 0 0 0 0 0 1 0 1 0 1 0 0 1",
                b"0 160000 16000 16000 1 1 1 1 1 10 1 1 0 0 0 0 0 1 0 0 0 1 0 0 1"]
    for number, line in enumerate(extremes):
        for plant in ("tank", "hopper"):
            folder = f"extreme-{plant}-{number}"
            os.makedirs(f"{FOLDER}/{folder}")
            write(f"{FOLDER}/{folder}/s", line + b"\n")
            log(folder, "--plant", plant, "--settings", f"{FOLDER}/{folder}/s")
            judge.that(f"{folder}: a bad tick", b" good=0 " not in read(f"{FOLDER}/{folder}/outputs"))
            judge.that(f"{folder}: replay gives the same outputs", replay(f"{FOLDER}/{folder}/log") == read(f"{FOLDER}/{folder}/outputs"))


def files(judge):
    """Wrong words are told in one line, and no file of the user's is written over."""
    def told(name, status, say, *words, home=ROOT):
        done = subprocess.run([PROGRAM, "--home", home, *words], capture_output=True, timeout=LIMIT)
        one_line = done.stdout == b"" and done.stderr.count(b"\n") == 1
        judge.that(f"told: {name}", done.returncode == status and one_line and say in done.stderr,
                   (done.returncode, done.stdout, done.stderr))

    told("an unknown word", 2, b"there is no '--fast'", "--fast")
    told("a missing word", 2, b"--log needs", "--log")
    for pair in (("--speed", "0"), ("--speed", "1001"), ("--speed", "2x"), ("--speed", ""), ("--ticks", "0"), ("--ticks", "-1"),
                 ("--baud", "109"), ("--baud", "4000001"), ("--seed", "99999999999999999999"), ("--plant", "silo"), ("--log", "")):
        told(f"{pair[0]} {pair[1]}", 2, pair[0].encode(), *pair)
    told("a seed with --resume", 2, b"--seed", "--resume", "--seed", "2")
    home = f"{FOLDER}/home"
    os.makedirs(f"{home}/examples")
    told("no settings", 1, b"can't be read", home=home)
    for name in ("batch", "day"):
        shutil.copy(f"{ROOT}/examples/{name}.settings", f"{home}/examples")
    write(f"{home}/short", b"1 2 3\n")
    told("settings that are none", 1, b"not the settings", "--settings", f"{home}/short", home=home)
    write(f"{home}/outside", settings("batch", _4=3))
    told("settings outside the table", 1, b"refused, 10: ", "--settings", f"{home}/outside", home=home)
    told("nothing to go on with", 1, b"no log", "--resume", home=home)
    judge.that("a refusal leaves no file", sorted(os.listdir(home)) == ["examples", "outside", "short"], os.listdir(home))

    # the default place: the run before is moved aside, and can be gone on with
    def run(*words):
        return subprocess.run([PROGRAM, "--home", home, "--speed", "1000", *words], stdout=subprocess.DEVNULL, timeout=LIMIT).returncode

    place = f"{home}/target/live"
    judge.same("a run in the default place", run("--ticks", "20"), 0)
    first = read(f"{place}/hopper.log")
    judge.same("another", (run("--ticks", "30", "--seed", "2"), read(f"{place}/hopper-old.log")), (0, first))
    judge.same("the new one has its own log", len(read(f"{place}/hopper.log").split(b"\n")), 32)
    older = ("--log", f"{place}/hopper-old.log", "--state", f"{place}/hopper-old.state")
    judge.same("the older goes on", run("--resume", "--ticks", "5", *older), 0)
    judge.same("a tank has files of its own", (run("--ticks", "5", "--plant", "tank"), len(os.listdir(place))), (0, 9))
    judge.same("the newer goes on", (run("--resume", "--ticks", "5"), len(read(f"{place}/hopper.log").split(b"\n"))), (0, 37))

    # named files stay; so does a link that is none of ours, and what a program is at work on
    log = read(f"{place}/hopper.log")
    for word, file in (("--log", "hopper.log"), ("--state", "hopper.state"), ("--outputs", "hopper.log")):
        told(f"{word} of a file that is there", 1, b"is there already", word, f"{place}/{file}", home=home)
    told("a link in no folder", 1, b"can't be made", "--line", f"{home}/nowhere/link", home=home)
    os.symlink(f"{home}/short", f"{home}/link")
    told("a link that is there", 1, b"can't be made", "--line", f"{home}/link", home=home)
    live = Live(PROGRAM, f"{FOLDER}/busy").go()
    await_that("its first tick", lambda: os.path.exists(live.log) and tick_of(live) > 0)
    told("--resume beside a program at work", 1, b"at work", "--resume", "--log", live.log, "--state", live.state, home=home)
    judge.same("SIGINT", live.stop(), 0)
    judge.that("a refusal leaves a link", not [name for name in os.listdir(home) if name.endswith(".new")], os.listdir(home))
    judge.that("a named file has changed", read(f"{place}/hopper.log") == log and os.readlink(f"{home}/link") == f"{home}/short")
    with open(f"{home}/said", "wb") as said:
        at_work = start([PROGRAM, "--home", home], stdout=said)
    await_that("its first lines", lambda: b"Ctrl-C" in read(f"{home}/said"))
    told("a second one in the default place", 1, b"at work", home=home)
    at_work.send_signal(signal.SIGINT)
    judge.same("SIGINT", at_work.wait(LIMIT), 0)

    # a link to a pseudo-terminal is replaced, though a program is still at work there; that one then leaves the new link alone
    older = Live(PROGRAM, f"{FOLDER}/older").go()
    await_that("the older one's link", lambda: os.path.exists(older.line))
    was = os.readlink(older.line)
    newer = Live(PROGRAM, f"{FOLDER}/newer", "--line", older.line).go()
    await_that("the newer one's link", lambda: os.readlink(older.line) != was)
    judge.same("SIGINT of the older", (older.stop(), os.path.exists(older.line)), (0, True))
    judge.same("SIGINT of the newer", (newer.stop(), os.path.lexists(older.line)), (0, False))


def beginnings(judge):
    """A beginning that fails has changed no file, wherever it fails."""
    def everything(folder):
        found = {}
        for path, folders, names in os.walk(folder):
            found.update({f"{path}/{name}": None for name in folders})
            found.update({f"{path}/{name}": read(f"{path}/{name}") for name in names})
        return found

    def made(name):
        home = f"{FOLDER}/{name}"
        os.makedirs(f"{home}/examples")
        shutil.copy(f"{ROOT}/examples/batch.settings", f"{home}/examples")
        return home

    def run(home, *words):
        return subprocess.run([PROGRAM, "--home", home, "--speed", "1000", "--ticks", "5", *words], capture_output=True, timeout=LIMIT)

    def fails(name, home, say, *words):
        before = everything(home)
        done = run(home, *words)
        judge.that(f"fails: {name}", done.returncode == 1 and done.stdout == b"" and done.stderr.count(b"\n") == 1 and say in done.stderr,
                   (done.returncode, done.stdout, done.stderr))
        after = everything(home)
        judge.that(f"fails: {name}: a file has changed", before == after,
                   [path for path in sorted(before.keys() | after.keys()) if before.get(path, 0) != after.get(path, 0)])

    fresh, used, blocked = made("fresh"), made("used"), made("blocked")
    write(f"{blocked}/target", b"a file where the folder would be")
    place = f"{used}/target/live"
    for number in (1, 2):
        judge.same(f"run {number} in the default place", run(used, "--seed", str(number)).returncode, 0)
    runs = everything(place)
    judge.same("their files", sorted(os.path.basename(path) for path in runs),
               sorted(f"hopper{old}.{end}" for old in ("", "-old") for end in ("log", "state", "state.plant")))
    for home in (fresh, used):
        fails("outputs in no folder", home, b"can't be made", "--outputs", f"{home}/nowhere/x")
        fails("a state in no folder", home, b"can't be made", "--state", f"{home}/nowhere/x")
        fails("a log, and a state in no folder", home, b"can't be made", "--log", f"{home}/log", "--state", f"{home}/nowhere/x")
        fails("one name for two", home, b"can't be made", "--log", f"{home}/x", "--outputs", f"{home}/x")
        fails("a log with the name of its plant", home, b"can't be made", "--log", f"{home}/x.plant", "--state", f"{home}/x")
    fails("no default place, but outputs", blocked, b"can't be made", "--outputs", f"{blocked}/outputs")
    os.unlink(f"{place}/hopper.state.plant")
    fails("a log where the plant would be", used, b"can't be made", "--log", f"{place}/hopper.state.plant")
    write(f"{place}/hopper.state.plant", runs[f"{place}/hopper.state.plant"])
    os.makedirs(f"{place}/hopper.state.plant.new")
    fails("a plant that can't be made", used, b"can't be made")
    os.rmdir(f"{place}/hopper.state.plant.new")
    os.unlink(f"{place}/hopper-old.state")
    fails("outputs where the state would be moved", used, b"at work", "--outputs", f"{place}/hopper-old.state")
    for name in ("hopper-old.state", "hopper.state"):
        if os.path.exists(f"{place}/{name}"):
            os.unlink(f"{place}/{name}")
        os.makedirs(f"{place}/{name}")
        fails(f"a folder {name}", used, b"there is a folder", "--outputs", f"{used}/outputs")
        os.rmdir(f"{place}/{name}")
        write(f"{place}/{name}", runs[f"{place}/{name}"])

    # a run that was moved aside and resumed there is not moved over
    older = ("--log", f"{place}/hopper-old.log", "--state", f"{place}/hopper-old.state")
    with open(f"{FOLDER}/older-said", "wb") as said:
        at_work = start([PROGRAM, "--home", used, "--resume", *older], stdout=said)
    await_that("its first lines", lambda: b"Ctrl-C" in read(f"{FOLDER}/older-said"))
    stand(at_work)
    fails("an older run at work", used, b"at work")
    fails("an older state at work, and a log by name", used, b"at work", "--log", f"{used}/log")
    at_work.send_signal(signal.SIGCONT)
    at_work.send_signal(signal.SIGINT)
    judge.same("SIGINT", at_work.wait(LIMIT), 0)
    # what a cut in a beginning has left there does not hinder the next
    write(f"{place}/hopper.log.new", b"half")
    newest = read(f"{place}/hopper.log")
    judge.same("a beginning after a cut one", (run(used).returncode, read(f"{place}/hopper-old.log"), len(os.listdir(place))),
               (0, newest, 6))


CASES = (conversation, pieces, plain, traffic, addressed, cuts, many_cuts, between_writes, kept_outputs, booked, every_write, kept_first,
         refused_images, loss, tank, baud, unread, clock, seeds, files, beginnings)


def main():
    judge = Judge()
    chosen = sys.argv[3:]
    for case in CASES:
        if not chosen or case.__name__ in chosen:
            start = time.monotonic()
            judge.case(case)
            if os.environ.get("TIMES"):
                print(f"talk: {case.__name__}: {time.monotonic() - start:.1f} s", flush=True)
    print(f"{judge.passed} passed, {judge.failed} failed")
    return 0 if judge.failed == 0 and judge.passed > 0 else 1


sys.exit(main())
