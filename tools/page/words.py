"""The words of the page: what settings, refusals, errors, stages and gates are called, and how numbers, times and requests are written.
A new refusal, error or stage of the outline gets its words here."""
import html

TICKS_A_SECOND = 100
LINE_LIMIT = 64   # bytes of a serial line

SETTINGS = [
    ("zero count", "Z", ""), ("span count", "S", ""), ("capacity", "C", "divisions"), ("span weight", "W", "divisions"),
    ("division", "d", "kg"), ("zero range", "p", "% of C"), ("tracking time", "q", "ticks"),
    ("tracking width", "w", "tenths of a division"), ("tracking allowance", "L", "tenths of a division"), ("stability time", "k", "ticks"),
    ("stability width", "s", "divisions"), ("mode", "", ""), ("start delay", "", "ticks"), ("large comparison disable", "", "ticks"),
    ("medium comparison disable", "", "ticks"), ("small comparison disable", "", "ticks"), ("judge delay", "", "ticks"),
    ("flow limit", "Q", "ticks"), ("address", "", ""), ("analog board", "", ""), ("low end", "", "kg"), ("high end", "", "kg"),
    ("discharge start delay", "", "ticks"), ("discharge end delay", "", "ticks"), ("discharge limit", "", "ticks"),
]
DIVISION, MODE, BOARD = 4, 11, 19   # places in the settings line
MODES = {1: "normal", 2: "loss-in-weight"}
BOARDS = {0: "none", 1: "current", 2: "voltage"}

REFUSALS = {
    1: "bad tick: the count is out of its range",
    2: "overload",
    3: "the stage is not 00",
    4: "not stable",
    5: "outside the zero range",
    6: "setpoint rules broken",
    7: "nothing to take back",
    8: "the refill contact is closed",
    9: "no discharge in loss-in-weight mode",
    11: "malformed line: too short, of a wrong length or with a field that is not digits",
    12: "prefix missing or of another address",
    13: "unknown command",
    14: "reply buffer too short",
}
LONG_LINE = "malformed line: more than 64 bytes"   # another 11
NO_TARE = "gross outside 0 to the capacity"       # another 5, to a tare
ERRORS = {
    1: "the final setpoint F is 0",
    2: "at the start the weight was already at F - FF",
    4: "stopped",
    6: "flow limit passed",
    7: "discharge stopped",
    8: "discharge limit passed",
    9: "bad or overloaded tick",
    10: "not booked: weight below 0, or a total past its limit",
}
STAGES = [
    ("00", "rest", "at rest"), ("03", "wait", "start delay"), ("04", "feed", "large flow, not yet compared"),
    ("05", "feed", "large flow until F - OP"), ("06", "feed", "medium flow, not yet compared"), ("07", "feed", "medium flow until F - P"),
    ("08", "feed", "small flow, not yet compared"), ("09", "feed", "small flow until F - FF"), ("10", "wait", "judge delay"),
    ("11", "wait", "until stable, then judged"), ("14", "wait", "discharge start delay"), ("15", "empty", "discharge until near zero"),
    ("16", "empty", "discharge end delay"),
]
GATES = [("large", "feed"), ("medium", "feed"), ("small", "feed"), ("discharge", "empty")]


def grouped(n):
    return f"{n:,}"


def kg(tenths):
    """Tenths of a kilogram, with one decimal."""
    sign = "-" if tenths < 0 else ""
    return f"{sign}{abs(tenths) // 10:,}.{abs(tenths) % 10}"


def signed(n):
    return f"+{n:,}" if n > 0 else f"{n:,}"


def clock(tick):
    """The time of a tick from the log's beginning, h:mm:ss with hundredths."""
    seconds, hundredths = divmod(tick, TICKS_A_SECOND)
    return f"{seconds // 3600}:{seconds // 60 % 60:02}:{seconds % 60:02}.{hundredths:02}"


def length(ticks):
    """A length of time: seconds up to a minute, then h:mm:ss, with hundredths where there are some and it is short."""
    if ticks < 60 * TICKS_A_SECOND:
        return f"{ticks / TICKS_A_SECOND:.2f} s"
    return clock(ticks) if ticks % TICKS_A_SECOND and ticks < 3600 * TICKS_A_SECOND else clock(ticks)[:-3]


def plural(n, one, many):
    return f"{grouped(n)} {one if n == 1 else many}"


def escape(text):
    return html.escape(text, quote=True)


def request_text(request):
    """A request's bytes as text: what is not printable ASCII as \\xNN, a backslash doubled."""
    return "".join("\\\\" if b == 0x5C else chr(b) if 0x20 <= b < 0x7F else f"\\x{b:02x}" for b in request)


def refusal_text(number, request):
    if number == 11 and len(request) > LINE_LIMIT:
        return LONG_LINE
    if number == 5 and request.endswith(b"MT"):
        return NO_TARE
    return REFUSALS.get(number, "")
