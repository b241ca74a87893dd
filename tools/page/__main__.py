"""The page of ./pressgully report: python3 tools/page REDUCED LOG > PAGE

REDUCED is what reduce.awk makes of replay's output, LOG the log itself. The page is one HTML file without script and without anything from
elsewhere; the same log gives the same bytes. tools/report runs it. Where the log was refused it says so in one line and ends with 1.
"""
import os
import pathlib
import sys

from found import Found
from pictures import Pictures
from sections import (section_batches, section_days, section_discharges, section_gates, section_refused, section_settings, section_sums,
                      section_weight, section_zero)
from words import TICKS_A_SECOND, clock, escape, grouped, plural

PAGE_LIMIT = 1_950_000   # bytes; past it the longest tables show their ends alone


def page(found, log, cut):
    style = pathlib.Path(__file__).with_name("style.css").read_text("utf-8")
    title = f"Pressgully: log of {clock(found.ticks) if found.ticks % TICKS_A_SECOND else clock(found.ticks)[:-3]}"
    out = ['<!DOCTYPE html>\n<html lang="en">\n<head>\n<meta charset="utf-8">\n'
           '<meta name="viewport" content="width=device-width, initial-scale=1">\n<link rel="icon" href="data:,">\n'
           f"<title>{escape(title)}</title>\n<style>\n{style}</style>\n</head>\n<body>\n<main>\n<h1>{escape(title)}</h1>\n"]
    if found.fault():
        out.append(f'<p class="fault" role="alert">The log could not be read to its end: {escape(found.fault())}. '
                   "The page ends before it.</p>\n")
    out.append(f'<p class="lead">{plural(found.ticks, "tick", "ticks")}, {clock(found.ticks)} at {TICKS_A_SECOND} ticks a second: '
               f'{plural(found.counts["day"], "day", "days")} closed, {plural(found.counts["batch"], "batch", "batches")}, '
               f'{plural(found.counts["discharge"], "discharge", "discharges")}, '
               f'{plural(found.counts["refused"], "refused request", "refused requests")}.</p>\n')
    out.append(section_settings(found))
    out.append("<h2>The day's ticket</h2>\n" + section_days(found, cut))
    if found.ticks:
        draw = Pictures(found)
        out.append("<h2>Weight</h2>\n" + section_weight(found, draw))
        out.append("<h2>Gates and stages</h2>\n" + section_gates(found, draw))
        out.append("<h2>Used, refilled, unbooked</h2>\n" + section_sums(found, draw))
        out.append("<h2>Zero and tracking</h2>\n" + section_zero(found, draw))
        out.append("<h2>Batches</h2>\n" + section_batches(found, cut))
        out.append("<h2>Discharges</h2>\n" + section_discharges(found, cut))
        out.append("<h2>Refused requests</h2>\n" + section_refused(found, log, cut))
        step = plural(found.size, "tick", "ticks")
        seconds = f"{found.size / TICKS_A_SECOND:g}"
        out.append(f"<footer><p>One step of the pictures is {step} ({seconds} s), and there are {grouped(draw.steps)}. "
                   "In each step a curve goes through its least and its greatest value, so a peak of a single tick is in the picture; "
                   "a bar is at least a hair wide, so a gate that was open for one tick is too. Made from replay's output, tick for tick."
                   "</p></footer>\n")
    out.append("</main>\n</body>\n</html>\n")
    return "".join(out).encode("utf-8")


def main():
    reduced, log = map(pathlib.Path, sys.argv[1:3])
    found = Found(reduced, log)
    made = page(found, log, False)
    if len(made) > PAGE_LIMIT:
        made = page(found, log, True)
    try:
        sys.stdout.buffer.write(made)
        sys.stdout.buffer.flush()
    except BrokenPipeError:   # the reader has seen enough
        os.dup2(os.open(os.devnull, os.O_WRONLY), sys.stdout.fileno())
    if found.fault():
        sys.exit(f"pressgully: report: {found.fault()}")


main()
