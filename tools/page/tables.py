"""Tables of the page."""
from words import escape, grouped

LONG_TABLE = 300   # rows; a longer table is folded
ENDS = 100         # rows of either end, where a table is cut; reduce.awk keeps so many


def table(heads, rows, name, kind=""):
    """A table; a head that begins with > is of a column of numbers. Each cell is HTML. The kind is the style sheet's: how the table is laid
    out on a narrow page."""
    sides = [' class="n"' if head.startswith(">") else "" for head in heads]
    heads = [head.lstrip(">") for head in heads]
    out = [f'<div class="box" role="region" aria-label="{escape(name)}" tabindex="0"><table class="{kind}"><thead><tr>']
    out += [f'<th scope="col"{side}>{head}</th>' for head, side in zip(heads, sides)]
    out.append("</tr></thead><tbody>\n")
    for row in rows:
        labels = [f' data-name="{escape(head)}"' if kind == "ticket" else "" for head in heads]
        out.append("<tr>" + "".join(f"<td{side}{label}>{cell}</td>" for cell, side, label in zip(row, sides, labels)) + "</tr>\n")
    out.append("</tbody></table></div>\n")
    return "".join(out)


def long_table(heads, rows, count, name, cut, kind=""):
    """A table of which there may be very much: folded where it is long, its two ends alone where it is cut."""
    note = ""
    if count > len(rows) or (cut and len(rows) > 2 * ENDS):
        note = f"<p>The first and the last {ENDS} of {grouped(count)} are shown: more would make the page too large.</p>\n"
        rows = rows[:ENDS] + rows[-ENDS:]
    body = note + table(heads, rows, name, kind)
    if count <= LONG_TABLE:
        return body
    return f"<details><summary>Table of {escape(name)}: {grouped(count)}</summary>\n{body}</details>\n"
