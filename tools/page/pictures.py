"""Pictures of the page: drawn in steps across and tenths of a kilogram up, stretched to the page's width; text stands beside them as HTML.
What is drawn of a step is its least and greatest value, or whether a lane was on throughout or for a part."""
from words import TICKS_A_SECOND, clock, escape, grouped, length

WIDE_LABELS = 9     # of a time axis, at most;
NARROW_LABELS = 4   # of them at most so many stay on a narrow page
GRID_LINES = 5      # levels of a picture, about
EDGE = 30           # a curve ends a thirtieth of its range before the picture's edge
SECONDS_UP_TO = 12000   # ticks; a longer log has h:mm:ss on its time axis,
HOURS_FROM = 360000     # and one of an hour h:mm

def nice_step(span, most):
    """The least of 1, 2, 5, 10, 20 .. of which at most so many go into the span."""
    step = 1
    while True:
        for n in (1, 2, 5):
            if span <= n * step * most:
                return n * step
        step *= 10


TIME_STEPS = [1, 2, 5, 10, 20, 50, 100, 200, 500, 1000, 2000, 3000, 6000, 12000, 30000, 60000, 90000, 180000, 360000, 720000, 1080000,
              2160000, 4320000, 8640000]


def time_axis(ticks):
    """The labels of the time axis: HTML, and the unit they are in."""
    step = next((s for s in TIME_STEPS if ticks <= s * (WIDE_LABELS - 1)), None) or nice_step(ticks, WIDE_LABELS - 1)
    marks = range(0, ticks + 1, step)
    skip = -(-len(marks) // NARROW_LABELS)
    out = []
    if ticks < SECONDS_UP_TO:
        unit, digits = "s", 0 if step >= 100 else 1 if step >= 10 else 2

        def words(t):
            return f"{t / TICKS_A_SECOND:.{digits}f}"
    else:
        unit = "h:mm" if step % 6000 == 0 and ticks >= HOURS_FROM else "h:mm:ss"

        def words(t):
            return clock(t)[:-3] if unit == "h:mm:ss" else clock(t)[:-6]
    for i, t in enumerate(marks):
        share = 100 * t / ticks
        kind = "" if i % skip == 0 else ' class="wide"'
        # a label near the end would go past it
        out.append(f'<span{kind} style="left:{share:.3f}%"><i></i>{words(t)}</span>' if share < 97 else
                   f'<span class="last{"" if i % skip == 0 else " wide"}" style="left:{share:.3f}%"><i></i>{words(t)}</span>')
    return "".join(out), unit


class Pictures:
    def __init__(self, found):
        self.found = found
        self.steps = -(-found.ticks // found.size)
        self.across = f"{found.ticks / found.size:.6f}".rstrip("0").rstrip(".")
        self.labels, self.unit = time_axis(found.ticks)

    def axis(self):
        return (f'<div class="row"><div class="axis" aria-hidden="true">{self.labels}</div>'
                f'<div class="side unit">time from the beginning, {self.unit}</div></div>\n')

    def line(self, low, high):
        """A curve's path: through the least and the greatest value of each step, the nearer of the two first."""
        path, at, run = [], None, False
        for k, (a, b) in enumerate(zip(low, high)):
            if a is None:
                if at is not None:
                    path.append(f"H{k}")    # to the end of its step, so that a lone value is a stroke too
                at = None
                continue
            if at is None:
                path.append(f"M{k} {a}")
                run = False
            else:
                first = b if abs(b - at) < abs(a - at) else a
                if first == at and run and a == b:
                    path[-1] = f"H{k}"      # a level run is one stroke
                else:
                    path.append(f"H{k}" if first == at else f"L{k} {first}")
                run = first == at and a == b
                a, b = first, a + b - first
            if a != b:
                path.append(f"V{b}")
                run = False
            at = b
        # a step is drawn as long as it lasts
        if at is not None:
            path.append(f"H{self.across}")
        return "".join(path)

    def area(self, high, floor):
        """What lies under a curve's greatest values."""
        path, inside = [], False
        for k, v in enumerate(high + [None]):
            if v is None:
                if inside:
                    path.append(f"H{k}V{floor}z")
                inside = False
            elif inside:
                path.append(f"L{k} {v}")
            else:
                path.append(f"M{k} {floor}V{v}")
                inside = True
        return "".join(path)

    def bars(self, counts):
        """A lane's path: a bar of full height for steps in which it was on throughout, of half height where it was on for a part."""
        path, k = [], 0
        full = [self.found.size] * (self.steps - 1) + [self.found.ticks - self.found.size * (self.steps - 1)]
        state = [2 if n == whole else 1 if n > 0 else 0 for n, whole in zip(counts, full)]
        while k < len(state):
            end = k
            while end < len(state) and state[end] == state[k]:
                end += 1
            if state[k]:
                path.append(f"M{k} {2 - state[k]}h{end - k}V2H{k}z")
            k = end
        return "".join(path)

    def lane(self, key, name, colour, note, extra=""):
        counts = self.found.lanes.get(key, [])
        drawn = f'<path class="{colour}" d="{self.bars(counts)}"/>' if counts else ""
        return (f'<div class="row lane"><div class="name">{name}</div><div class="bar"><svg viewBox="0 0 {self.across} 2" '
                f'preserveAspectRatio="none" role="img" aria-label="{escape(name)}: {escape(note)}">{drawn}</svg>{extra}</div>'
                f'<div class="side">{escape(note)}</div></div>\n')

    def on_for(self, key, verb):
        ticks = sum(self.found.lanes.get(key, []))
        if not ticks:
            return f"never {verb}"
        times = self.found.times[key]
        return f"{verb} once, {length(ticks)}" if times == 1 else f"{verb} {grouped(times)} times, {length(ticks)} in all"

    def curves(self, name, words, curves, below="", zero=True, band=None, kind="plot"):
        """A figure: curves of (key, name, colour class, scale, words), lanes below them, a time axis; the first may be an area."""
        found = self.found
        lows = {key: [v if v is None else v * scale for v in found.low[key]] for key, _, _, scale, _ in curves}
        highs = {key: [v if v is None else v * scale for v in found.high[key]] for key, _, _, scale, _ in curves}
        bottom = min((v for vs in lows.values() for v in vs if v is not None), default=0)
        top = max((v for vs in highs.values() for v in vs if v is not None), default=0)
        if zero or (bottom > 0 and bottom < 0.7 * top) or (top < 0 and top > 0.7 * bottom):
            bottom, top = min(bottom, 0), max(top, 0)
        step = max(nice_step(top - bottom, GRID_LINES), 10)   # whole kilograms
        edge = max((top - bottom) // EDGE, 1)
        bottom, top = (bottom - edge if bottom else 0), (top + edge if top else 0)
        if top - bottom < step:
            top = bottom + step
        high = top - bottom
        levels = range(step * -(-bottom // step), top + 1, step)
        grid = "".join(f"M0 {v}H{self.across}" for v in levels if v)
        out = [f'<figure><div class="row"><div class="{kind}"><svg viewBox="0 0 {self.across} {high}" preserveAspectRatio="none" '
               f'role="img" aria-label="{escape(name)}"><title>{escape(name)}</title>'
               f'<g transform="matrix(1 0 0 -1 0 {top})"><path class="grid" d="{grid}"/>']
        if bottom <= 0 <= top:
            out.append(f'<path class="base" d="M0 0H{self.across}"/>')
        if band and band in found.lanes:
            stripes = "".join(f"M{k} {bottom}h1V{top}h-1z" for k, n in enumerate(found.lanes[band]) if n)
            out.append(f'<path class="band" d="{stripes}"/>')
        for key, _, colour, _, _ in curves:
            if colour == "true":
                out.append(f'<path class="area" d="{self.area(highs[key], max(bottom, min(top, 0)))}"/>')
        for key, _, colour, _, _ in curves:
            out.append(f'<path class="line {colour}" d="{self.line(lows[key], highs[key])}"/>')
        out.append("</g></svg>")
        for v in levels:
            out.append(f'<span class="y" style="top:{100 * (top - v) / high:.3f}%">{grouped(v // 10)}</span>')
        out.append('</div><div class="side"><ul class="legend">')
        for _, label, colour, _, said in curves:
            out.append(f'<li><svg class="key" viewBox="0 0 30 8" aria-hidden="true"><path class="line {colour}" d="M0 4H30"/></svg>'
                       f'<b>{escape(label)}</b><br>{said}</li>')
        out.append(f"</ul></div></div>\n{below}{self.axis()}<figcaption>{escape(words)}</figcaption></figure>\n")
        return "".join(out)
