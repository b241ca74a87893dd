"""What stands in a report page, for the tests: read.py text|drawn < PAGE

text prints the page's words: a line for each heading, paragraph and legend, a table row as `cell | cell`, a lane as `name: note`.
drawn prints what the pictures have in each of their steps: `CURVE STEP LEAST GREATEST`, in tenths of a kilogram, - where there is no value;
`LANE STEP 2` where a lane is on throughout, `LANE STEP 1` for a part.
"""
import html.parser
import re
import sys

BLOCKS = {"p", "h1", "h2", "li", "tr", "title", "summary", "figcaption", "dt", "dd", "main"}
CURVES = {"true", "shown", "used", "refilled", "unbooked", "zero", "tracked"}


class Page(html.parser.HTMLParser):
    def __init__(self):
        super().__init__()
        self.lines, self.words, self.across = [], "", 0.0
        self.paths, self.label, self.muted = {}, "", 0

    def handle_starttag(self, tag, attributes):
        a = dict(attributes)
        if tag in BLOCKS:
            self.end_line()
        if tag in ("td", "th") and self.words:
            self.words += " | "
        if tag == "br":
            self.words += "; "
        if tag in ("style", "script"):
            self.muted += 1
        if tag == "svg":
            self.label = a.get("aria-label", "")
            if a.get("role") == "img":
                self.across = float(a["viewbox"].split()[2])
            if "bar" in self.open_class:
                self.lines.append(self.label)
        if tag == "path" and self.label:
            kinds = a.get("class", "").split()
            if "line" in kinds:
                self.paths.setdefault(kinds[1], a["d"])
            elif self.label.split(":")[0] not in self.paths and "bar" in self.open_class:
                self.paths[self.label.split(":")[0]] = a["d"]
        if tag == "div":
            self.open_class = a.get("class", "").split()

    open_class = []

    def handle_endtag(self, tag):
        if tag in BLOCKS:
            self.end_line()
        if tag in ("style", "script"):
            self.muted -= 1

    def handle_data(self, data):
        if not self.muted:
            self.words += data

    def end_line(self):
        words = " ".join(self.words.split())
        if words:
            self.lines.append(words)
        self.words = ""


def curve(path, across):
    """Least and greatest value by step, from a path of M, L, H and V: what a stroke passes, since M alone draws nothing. A stroke along
    the steps has its value in each of them, and one before a gap or the end goes to the end of its last step."""
    steps = -int(-across // 1)
    low, high, x, y = {}, {}, 0, 0

    def see(k, v):
        if k < steps:
            low[k], high[k] = min(low.get(k, v), v), max(high.get(k, v), v)

    strokes = re.findall(r"([A-Z])([-0-9. ]*)", path)
    for (letter, numbers), (behind, _) in zip(strokes, strokes[1:] + [("M", "")]):
        numbers = [float(n) for n in numbers.split()]
        if letter != "M":
            see(x, y)
        if letter == "H":
            for k in range(int(x) + 1, -int(-numbers[0] // 1) + (behind != "M")):
                see(k, y)
            x = numbers[0]
        elif letter == "V":
            y = numbers[0]
        else:
            x, y = numbers
        if letter in "LV":
            see(x, y)
    return [f"{low[k]:.0f} {high[k]:.0f}" if k in low else "-" for k in range(steps)]


def lane(path, across):
    steps = -int(-across // 1)
    state = [0] * steps
    for start, top, long in re.findall(r"M(\d+) ([01])h(\d+)V2H\d+z", path):
        for k in range(int(start), int(start) + int(long)):
            state[k] = 2 - int(top)
    return [str(n) for n in state]


page = Page()
page.feed(sys.stdin.buffer.read().decode("utf-8"))
page.end_line()
if sys.argv[1] == "text":
    print("\n".join(page.lines))
else:
    for name, path in page.paths.items():
        steps = curve(path, page.across) if name in CURVES else lane(path, page.across)
        print("\n".join(f"{name} {k} {step}" for k, step in enumerate(steps) if step != "0"))
