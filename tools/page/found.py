"""What reduce.awk found in a log, and what stands in the log alone: the settings and the text of a request."""
from words import DIVISION


class Found:
    """The lines of REDUCED by their first word, and the settings of the log's first line."""

    def __init__(self, reduced, log):
        self.rows = {kind: [] for kind in ("day", "batch", "discharge", "refused", "undone")}
        self.counts, self.low, self.high, self.lanes, self.times, self.peaks, self.tally = {}, {}, {}, {}, {}, {}, {}
        self.numbers = {}
        self.open = self.ended = None
        for line in reduced.read_text("ascii").splitlines():
            word, *rest = line.split(" ")
            if word in self.rows:
                self.rows[word].append(rest)
            elif word == "count":
                self.counts[rest[0]] = int(rest[1])
            elif word == "curve":
                into = self.low if rest[1] == "low" else self.high
                into[rest[0]] = [None if v == "-" else int(v) for v in rest[2:]]
            elif word == "lane":
                self.lanes[rest[0]] = [int(v) for v in rest[1:]]
            elif word == "times":
                self.times[rest[0]] = int(rest[1])
            elif word == "peak":
                self.peaks[rest[0]] = [int(v) for v in rest[1:]]
            elif word == "tally":
                self.tally[rest[0], rest[1]] = int(rest[2])
            elif word == "open":
                self.open = [int(v) for v in rest]
            elif word == "ended":
                self.ended = rest[0]
            else:
                self.numbers[word] = int(rest[0])
        self.ticks, self.size = self.numbers["ticks"], self.numbers["size"]
        self.settings = None
        if not self.ended or self.ended != "refused=1":
            with log.open("rb") as lines:
                self.settings = [int(n) for n in lines.readline().split()]
        self.division = self.settings[DIVISION] if self.settings and self.ended != "answer=10" else 1

    def tallied(self, kind, result=None):
        return sum(n for (k, r), n in self.tally.items() if k == kind and (result is None or r == result))

    def fault(self):
        """What was refused, in the words of ./pressgully replay; None where all was read."""
        if self.ended is None:
            return None
        if self.ended == "answer=10":
            return "a setting is outside its range"
        line = int(self.ended.partition("=")[2])
        if line == 1:
            return "line 1 is not the settings, 25 whole numbers separated by single spaces"
        return f"line {line} is not `count contact request`"


def requests_at(log, ticks):
    """The requests of the log lines of these ticks; tick n is line n + 1."""
    wanted, found = set(ticks), {}
    if not wanted:
        return found
    last = max(wanted)
    with log.open("rb") as lines:
        for tick, line in enumerate(lines):
            if tick in wanted:
                found[tick] = line.rstrip(b"\n").split(b" ", 2)[2]
            if tick == last:
                break
    return found
