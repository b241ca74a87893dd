"""The sections of the page, each as HTML. Every number in them comes from what reduce.awk found."""
from found import requests_at
from tables import ENDS, long_table, table
from words import (BOARD, BOARDS, ERRORS, GATES, MODE, MODES, SETTINGS, STAGES, clock, escape, grouped, kg, length, plural, refusal_text,
                   request_text, signed)

SHORT_TABLE = 12      # days; up to so many each has its balance in a line of its own
MARK_GAP = 3.2        # between two error numbers on the time axis, in hundredths of its length
NARROW_MARK_GAP = 7   # on a narrow page
MARK_LAST = 98.5      # the last place of a number


def section_settings(found):
    if not found.settings:
        return ""
    rows = []
    for i, ((name, letter, unit), value) in enumerate(zip(SETTINGS, found.settings)):
        words = {MODE: MODES, BOARD: BOARDS}.get(i, {}).get(value)
        rows.append([escape(name), letter, grouped(value) + (f" {words}" if words else ""), unit])
    return f'<details><summary>Settings</summary>\n{table(["Setting", "Letter", ">Value", "Unit"], rows, "settings")}</details>\n'


def section_days(found, cut):
    d = found.division
    days = [(f"{n}", f"closed at {clock(int(row[0]))}", [int(v) for v in row[1:]])
            for n, row in numbered(found.rows["day"], found.counts["day"])]
    if found.open:
        ticks, *sums, begun = found.open
        days.append((f"{found.counts['day'] + 1}", f"open, after {length(ticks)}" + ("" if begun else ", no good tick yet"), sums))
    if not days:
        return "<p>The log has no tick, so no day has begun.</p>\n"
    rows, wrong, sums_told = [], 0, []
    for number, state, (opening, refilled, used, unbooked, closing, tracked, batches, total) in days:
        balances = opening + refilled - used - unbooked == closing
        wrong += not balances
        words = f"{kg(opening * d)} + {' - '.join(bracketed(kg(v * d)) for v in (refilled, used, unbooked))}"
        sums_told.append(f"Day {number} balances: {words} = {kg(closing * d)}." if balances else
                         f"Day {number} does not balance: {words} is not {kg(closing * d)}.")
        rows.append([number, state] + [kg(v * d) for v in (opening, refilled, used, unbooked, closing, tracked)] +
                    [grouped(batches), grouped(total), "balances" if balances else "<strong>does not balance</strong>"])
    heads = ["Day", "State", ">Opening", ">Refilled", ">Used", ">Unbooked", ">Closing", ">Tracked", ">Batches", ">Total", "Balance"]
    short = len(rows) <= SHORT_TABLE
    body = table(heads, rows, "the day's ticket", "ticket") if short else \
        long_table(heads, rows, found.counts["day"] + bool(found.open), "days", cut)
    rule = "opening + refilled - used - unbooked = closing"
    if wrong:
        told = f'<p class="fault">{plural(wrong, "day does", "days do")} not balance, {rule}.</p>\n'
    else:
        told = f"<p>Every day balances, {rule}.</p>\n"
    if short:
        told += '<ul class="sums">' + "".join(f"<li>{words}</li>\n" for words in sums_told) + "</ul>\n"
    unit = f"One tenth of a division, in which ./pressgully ticket prints these, is {kg(d)} kg."
    return body + told + '<p class="small">All weights are in kg; total is in whole kg, as the scale shows it. ' \
        f"{unit} Tracked, batches and total are as they stood at the end of the row's day.</p>\n"


def bracketed(text):
    return f"({text})" if text.startswith("-") else text


def numbered(rows, count):
    """Rows with their numbers from 1; where some in the middle were left out, the last have the last numbers."""
    left_out = count - len(rows)
    return [(i + 1 if not left_out or i < len(rows) - ENDS else i + 1 + left_out, row) for i, row in enumerate(rows)]


def extremes(found, key, scale):
    if key not in found.peaks:
        return "no value"
    least, at_least, most, at_most = found.peaks[key]
    return f"least {kg(least * scale)} kg at {clock(at_least)}<br>greatest {kg(most * scale)} kg at {clock(at_most)}"


def section_weight(found, draw):
    d = found.division
    curves = [("true", "true weight", "true", d, extremes(found, "true", d)),
              ("shown", "weight shown", "shown", 10, extremes(found, "shown", 10))]
    below = draw.lane("refill", "refill", "fill", draw.on_for("refill", "closed"))
    for key in ("bad", "overload"):
        if key in found.lanes:
            below += draw.lane(key, key, "alarm", plural(sum(found.lanes[key]), "tick", "ticks"))
    words = "Weight in kg: the true weight, from the empty scale, and the weight that the scale shows, gross or net as chosen, after " \
        "zero, tracking and tare. The tinted times are those with the refill contact closed."
    if "bad" in found.lanes or "overload" in found.lanes:
        words += " A bad tick has no weight, and in overload the scale shows none."
    return draw.curves("Weight over time", words, curves, below, zero=False, band="refill")


def section_gates(found, draw):
    out = ["<figure>"]
    for key, colour in GATES:
        out.append(draw.lane(key, key, colour, draw.on_for(key, "open")))
    out.append('<div class="gap"></div>\n')
    for key, colour, words in STAGES:
        if key in found.lanes:
            ticks = sum(found.lanes[key])
            out.append(draw.lane(key, key, colour, f"{words}: {length(ticks)}"))
    ends = sorted((int(end), int(error)) for kind in ("batch", "discharge") for _, end, error, *_ in found.rows[kind]
                  if end != "-" and error != "0")
    if "error" in found.lanes:
        marks, at, narrow_at = [], -100, -100
        for tick, number in ends:
            share = min(100 * tick / found.ticks, MARK_LAST)
            if share - at < MARK_GAP:
                continue
            at = share
            narrow = share - narrow_at >= NARROW_MARK_GAP
            narrow_at = share if narrow else narrow_at
            marks.append(f'<span class="mark{"" if narrow else " wide"}" style="left:{share:.3f}%">{number}</span>')
        out.append('<div class="gap"></div>\n')
        out.append(draw.lane("error", "error", "alarm", draw.on_for("error", "stands"), "".join(marks)))
    stopped = sorted({number for _, number in ends})
    words = "The four gates, the stage by its number, and the times in which a sequence error stands, with its number where it comes " \
        "and where there is room."
    out.append(draw.axis())
    if stopped:
        out.append('<dl class="words">' + "".join(f"<dt>error {n}</dt><dd>{escape(ERRORS.get(n, ''))}</dd>" for n in stopped) + "</dl>\n")
    out.append(f"<figcaption>{words} A bar of half height: for a part of the step.</figcaption></figure>\n")
    return "".join(out)


def section_sums(found, draw):
    d = found.division
    closed = [int(v) for v in found.rows["day"][-1]] if found.rows["day"] else None
    curves = []
    for place, key in ((3, "used"), (2, "refilled"), (4, "unbooked")):   # places in the rows of days
        said = []
        if closed:
            said.append(f"{kg(closed[place] * d)} kg at the {'last ' if found.counts['day'] > 1 else ''}close of day")
        if found.open:
            said.append(f"{kg(found.open[place] * d)} kg at the end")
        curves.append((key, key, key, d, "<br>".join(said)))
    words = "The day book's sums in kg, from 0 at each day's beginning; the tinted times are those with the refill contact closed."
    return draw.curves("Used, refilled and unbooked over time", words, curves, band="refill")


def section_zero(found, draw):
    d = found.division
    tracked = found.open[6] if found.open else int(found.rows["day"][-1][6])
    ends = [found.high["zero"][-1], found.low["zero"][-1]]
    zero = f"{kg(ends[0] * d)} kg at the end" if ends[0] == ends[1] else f"{kg(ends[1] * d)} to {kg(ends[0] * d)} kg in the last step"
    curves = [("zero", "zero in force", "zero", d, zero), ("tracked", "tracked sum", "tracked", d, f"{kg(tracked * d)} kg at the end")]
    keyed, moves = found.numbers["keyed"], found.numbers["moves"]
    told = f"<p>{plural(keyed, 'keyed zero', 'keyed zeros')}, {plural(moves, 'tracking move', 'tracking moves')}.</p>\n"
    words = "The zero in force and the sum of the tracking moves since the last keyed zero, in kg."
    return told + draw.curves("Zero in force and tracked sum over time", words, curves, kind="plot low")


def section_batches(found, cut):
    sign = -1 if found.settings[MODE] == 2 else 1
    undone = {int(row[0]) for row in found.rows["undone"] if row[0].isdigit()}
    rows = []
    for number, (start, end, error, final, net, judged) in numbered(found.rows["batch"], found.counts["batch"]):
        weight, error = sign * int(net), int(error)
        words = [f'<span class="{judged}">{judged}</span>'] if judged != "none" else []
        if end == "-":
            words = ["runs at the end of the log"]
        elif error:
            words.append(f'<span class="alarm">error {error}</span>: {escape(ERRORS.get(error, ""))}')
        if number in undone:
            words.append("taken back")
        known = end != "-" and error != 9   # a bad tick has no weight
        rows.append([grouped(number), clock(int(start)), clock(int(end)) if end != "-" else "", grouped(int(final)),
                     grouped(weight) if known else "", signed(weight - int(final)) if known else "", ", ".join(words)])
    count = found.counts["batch"]
    if not count:
        return "<p>No batch was started.</p>\n"
    parts = [f"{grouped(found.tallied('batch', r))} {r}" for r in ("ok", "over", "under")]
    errors = count - sum(found.tallied("batch", r) for r in ("ok", "over", "under", "open"))
    parts.append(f"{grouped(errors)} ended with an error")
    if found.tallied("batch", "open"):
        parts.append("1 runs at the end of the log")
    heads = [">No.", ">Start", ">Finish", ">Target F", ">Weight v", ">v - F", "Judgement"]
    told = f"<p>{plural(count, 'batch', 'batches')}: {', '.join(parts)}. Weights in kg.</p>\n"
    return told + long_table(heads, rows, count, "batches", cut, "runs")


def section_discharges(found, cut):
    rows = []
    for number, (start, end, error, before, after, near) in numbered(found.rows["discharge"], found.counts["discharge"]):
        error = int(error)
        words = "runs at the end of the log" if end == "-" else "done" if not error else \
            f'<span class="alarm">error {error}</span>: {escape(ERRORS.get(error, ""))}'
        gone = end != "-" and error != 9
        rows.append([grouped(number), clock(int(start)), clock(int(end)) if end != "-" else "", grouped(int(before)),
                     grouped(int(after)) if gone else "", grouped(int(near)), words])
    count = found.counts["discharge"]
    if not count:
        return "<p>No discharge was started.</p>\n"
    heads = [">No.", ">Start", ">End", ">Gross at start", ">Gross at end", ">Near zero", "Result"]
    told = f"<p>{plural(count, 'discharge', 'discharges')}. Weights in kg.</p>\n"
    return told + long_table(heads, rows, count, "discharges", cut, "runs")


def section_refused(found, log, cut):
    count = found.counts["refused"]
    if not count:
        return "<p>No request was refused.</p>\n"
    pairs = [(int(tick), int(number)) for tick, number in found.rows["refused"]]
    asked = requests_at(log, [tick for tick, _ in pairs])
    rows = [[clock(tick), grouped(tick + 1), f"<code>{escape(request_text(asked[tick]))}</code>", f"{number}",
             escape(refusal_text(number, asked[tick]))] for tick, number in pairs]
    told = f"<p>{plural(count, 'request', 'requests')}. In a request \\xNN stands for a byte that can't be printed.</p>\n"
    return told + long_table([">Time", ">Line of the log", "Asked", ">No.", "Why"], rows, count, "refused requests", cut, "asked")
