# The reduction behind ./pressgully report: one pass over replay's output, each line with the refill contact of its log line behind it, to
# a few dozen long lines that the Python beside it makes the page of. tools/report runs it; it runs under mawk and under gawk.
#
# Of every curve and lane it keeps steps of an equal number of ticks: of a curve the least and the greatest value in each step, of a lane
# (a gate, a stage, the contact ..) the number of ticks in which it was on. A step is one tick at first; whenever there are STEPS of them,
# each two become one. So a peak or an opening of a single tick is in the result, however long the log.
#
# Fields in, by number, for a name would cost a search at every tick: 1 answer, 2 reply, 3 good, 4 gross, 5 net, 6 overload, 8 stage,
# 9 gates, 10 judgement, 11 error, 15 zero, 16 tracked, 18 opening, 19 refilled, 20 used, 21 unbooked, 22 last, 23 total, 24 batches and
# 25 setpoints of replay's 26, and 27 the contact. The first tick is looked at for these names; with others it ends with 3.
#
# Lines out, weights as replay has them (true, zero, tracked, used .. in tenths of a division, shown and F in display digits):
#     day, batch, discharge, refused, undone    as each is found; of more than ROWS of a kind the first ROWS and the last ENDS
#     count KIND N                              how many there were
#     curve NAME low|high V.., lane NAME N..    the steps; - where a curve has no value; no line for a lane that was never on
#     times NAME N                              how often a lane came on
#     tally KIND RESULT N                       how many of a kind ended so
#     peak NAME LEAST ITS-TICK GREATEST ITS-TICK
#     open ..                                   the day that is not closed
#     ticks N, size N, keyed N, moves N         of the log; of a step; keyed zeros; tracking moves
#     ended refused=N, ended answer=10          where the log or a setting was refused
BEGIN {
    STEPS = 4096          # even
    ROWS = 15000          # more than a page below 2 MB can show
    ENDS = 100
    if (!DAY) DAY = 8640000   # ticks of a day that are booked; a test gives fewer
    NONE = 1e15           # beyond every weight and sum
    size = 1
    steps = inside = ticks = settled = day_ticks = keyed = moves = 0
    changes = 1
    opening = refilled = used = unbooked = zero = tracked = raw = begun = net = 0
    ended = booked_last = runs = ""
    gates = split("large medium small discharge", gate, " ")
    curves = split("true shown used refilled unbooked zero tracked", curve, " ")
    lanes = split("large medium small discharge refill bad overload error 00 03 04 05 06 07 08 09 10 11 14 15 16", lane, " ")
    kinds = split("day batch discharge refused undone", kind, " ")
    for (i = 1; i <= kinds; i++) found[kind[i]] = 0
    least["true"] = least["shown"] = NONE
    most["true"] = most["shown"] = -NONE
    stage = "00"
    was16 = "tracked=0"
}

ended { next }

NR == 1 {   # the opening's answer; answer=0 is the rule
    if ($1 != "answer=0") stop($1)
    next
}

{
    if ($1 != "answer=0") {
        if (substr($1, 1, 7) != "answer=") stop($1)
        if (ended) next
        row("refused", (ticks + 1) " " substr($1, 8))
        tally["refused " substr($1, 8)]++
    }
    if (NR == 2 && !as_known()) {
        print "report: replay's lines have other fields than tools/page/reduce.awk reads" > "/dev/stderr"
        exit 3
    }
    if (inside == size) keep()
    ticks++

    # the request that was accepted, by its reply: two letters, in hexadecimal, behind a prefix or none, before CR LF
    zeroed = closed = 0
    if ($2 != "reply=-" && $1 == "answer=0") {
        long = length($2) - 6
        if (long == 8 || long == 14) {
            asked = substr($2, long - 1, 4)
            if (asked == "4d5a") { zeroed = 1; keyed++ }          # MZ
            else if (asked == "4d47") net = 0                     # MG
            else if (asked == "4d4e") net = 1                     # MN
            else if (asked == "4443") close_day()                 # DC
            else if (asked == "4341") row("undone", booked_last)  # CA
        }
    }

    # what is on: gates, stage, contact, bad, overload, error
    if ($9 != was9 || $8 != was8 || $27 != was27 || $3 != was3 || $6 != was6 || $11 != was11) {
        settle(ticks - 1)
        if ($8 != was8) sequence(substr($8, 7))
        was9 = $9; was8 = $8; was27 = $27; was3 = $3; was6 = $6; was11 = $11
        good = (was3 == "good=1")
        plain = (good && was6 == "overload=0")
        on = 0
        changes++
        for (i = 1; i <= gates; i++) if (substr($9, 6 + i, 1) != "-") turn_on(gate[i])
        if (was27 == "1") turn_on("refill")
        if (!good) turn_on("bad")
        if (was6 != "overload=0") turn_on("overload")
        if (was11 != "error=0") turn_on("error")
        turn_on(stage)
    }

    # a new step begins with this tick
    if (inside++ == 0) {
        low_true = low_shown = NONE
        high_true = high_shown = -NONE
    }
    if ($22 != was22) { was22 = $22; raw = substr($22, 6) + 0 }
    if (good) {
        begun = 1
        contact = $27
        if (raw > high_true) { high_true = raw; if (raw > most["true"]) { most["true"] = raw; most_at["true"] = ticks } }
        if (raw < low_true) { low_true = raw; if (raw < least["true"]) { least["true"] = raw; least_at["true"] = ticks } }
        if (plain) {
            shown = (net ? substr($5, 5) : substr($4, 7)) + 0
            if (shown > high_shown) { high_shown = shown; if (shown > most["shown"]) { most["shown"] = shown; most_at["shown"] = ticks } }
            if (shown < low_shown) { low_shown = shown; if (shown < least["shown"]) { least["shown"] = shown; least_at["shown"] = ticks } }
        }
    }
    if ($16 != was16) {
        was16 = $16; tracked = substr($16, 9) + 0
        if (!zeroed) moves++   # a keyed zero makes the sum 0; nothing else but a move alters it
    }
    if ($15 != was15) { was15 = $15; zero = substr($15, 6) + 0 }
    if ($18 != was18) { was18 = $18; opening = substr($18, 9) + 0 }
    if ($23 != was23) { was23 = $23; total = substr($23, 7) }
    if ($24 != was24) { was24 = $24; batches = substr($24, 9) }
    if ($20 != was20) { was20 = $20; used = substr($20, 6) + 0 }
    if ($19 != was19) { was19 = $19; refilled = substr($19, 10) + 0 }
    if ($21 != was21) { was21 = $21; unbooked = substr($21, 10) + 0 }
    if (inside == 1) {
        low_used = high_used = used; low_refilled = high_refilled = refilled; low_unbooked = high_unbooked = unbooked
        low_zero = high_zero = zero; low_tracked = high_tracked = tracked
    } else {
        if (used > high_used) high_used = used
        else if (used < low_used) low_used = used
        if (refilled > high_refilled) high_refilled = refilled
        else if (refilled < low_refilled) low_refilled = refilled
        if (unbooked > high_unbooked) high_unbooked = unbooked
        else if (unbooked < low_unbooked) low_unbooked = unbooked
        if (zero > high_zero) high_zero = zero
        else if (zero < low_zero) low_zero = zero
        if (tracked > high_tracked) high_tracked = tracked
        else if (tracked < low_tracked) low_tracked = tracked
    }
    if (closed) see_closed_day()
    day_ticks = closed ? 0 : day_ticks + 1
}

# whether the fields are those of the list above
function as_known(    places, names, i, at) {
    at = split("1 2 3 4 5 6 8 9 10 11 15 16 18 19 20 21 22 23 24 25", places, " ")
    split("answer reply good gross net overload stage gates judgement error zero tracked opening refilled used unbooked last total " \
          "batches setpoints", names, " ")
    for (i = 1; i <= at; i++) if (index($(places[i]), names[i] "=") != 1) return 0
    return NF == 27
}

# nothing more of the log is read
function stop(why) { ended = why }

# a line of a kind of which there may be very many
function row(name, words) {
    if (++found[name] <= ROWS) print name, words
    else last_rows[name, found[name] % ENDS] = words
}

# An accepted day close: replay shows the new day from this tick on, so the closed day's sums are those of the tick before and this tick's
# own change. The day book's rules: to refilled where the contact is closed now or was at the last good tick, else to used; to unbooked
# after the day's last booked tick.
function close_day(    now, change) {
    closed = 1
    now = substr($22, 6) + 0
    change = begun ? now - raw : 0
    end_refilled = refilled; end_used = used; end_unbooked = unbooked
    if (day_ticks >= DAY) end_unbooked -= change
    else if ($27 == "1" || contact == "1") end_refilled += change
    else end_used -= change
    row("day", sprintf("%.0f %.0f %.0f %.0f %.0f %.0f %s %s %s", ticks, begun ? opening : now, end_refilled, end_used, end_unbooked, now,
                       substr($16, 9), substr($24, 9), substr($23, 7)))
}

# the closed day's last sums belong to its curves
function see_closed_day() {
    if (end_used > high_used) high_used = end_used
    if (end_used < low_used) low_used = end_used
    if (end_refilled > high_refilled) high_refilled = end_refilled
    if (end_refilled < low_refilled) low_refilled = end_refilled
    if (end_unbooked > high_unbooked) high_unbooked = end_unbooked
    if (end_unbooked < low_unbooked) low_unbooked = end_unbooked
}

# The stage is another. 03 and 14 are entered by an accepted start alone, and every way out of a batch or a discharge is to 00. Setpoints
# are those at the start: what was written since waits, and may be in use in the tick of the finish.
function sequence(to,    set) {
    if (to == "03" || to == "14") {
        from = ticks
        split(substr($25, 11), set, ",")
        final = set[1]
        near = set[7]
        from_gross = substr($4, 7)
        runs = to
    } else if (to == "00" && runs != "") finish(ticks)
    stage = to
}
# One that runs at the log's end has neither weight nor judgement: the last line may be no tick but what was refused.
function finish(upto,    judged, error, net_now, gross_now, what) {
    judged = upto == "-" ? "none" : substr($10, 11)
    error = upto == "-" ? 0 : substr($11, 7)
    net_now = upto == "-" ? 0 : substr($5, 5)
    gross_now = upto == "-" ? 0 : substr($4, 7)
    what = from " " upto " " error
    tally[(runs == "03" ? "batch " : "discharge ") (upto == "-" ? "open" : error != "0" ? "error" error : runs == "03" ? judged : "ok")]++
    if (runs == "03") {
        row("batch", what " " final " " net_now " " judged)
        if (judged != "none" && error == "0") booked_last = found["batch"]
    } else
        row("discharge", what " " from_gross " " gross_now " " near)
    runs = ""
}

# the lane is on from this change on; where it was not on before, that is once more
function turn_on(name) {
    is_on[++on] = name
    if (on_since[name] != changes - 1) times[name]++
    on_since[name] = changes
}

# the ticks up to this one, in which the same lanes were on, are added to them
function settle(upto,    i, more) {
    more = upto - settled
    settled = upto
    if (more > 0) for (i = 1; i <= on; i++) share[is_on[i]] += more
}

# The step is full: its values are kept, and where there are too many steps each two become one. Step k of curve or lane i stands at
# i * STEPS + k of its array: whole numbers are what awk finds fastest. A lane that was never on has no place.
function keep(    i, k, at) {
    settle(ticks)
    put(1, low_true, high_true)
    put(2, low_shown, high_shown)
    put(3, low_used, high_used)
    put(4, low_refilled, high_refilled)
    put(5, low_unbooked, high_unbooked)
    put(6, low_zero, high_zero)
    put(7, low_tracked, high_tracked)
    for (i = 1; i <= lanes; i++) if (lane[i] in share) {
        ticks_on[i * STEPS + steps] = share[lane[i]]
        share[lane[i]] = 0
    }
    steps++
    inside = 0
    if (steps < STEPS) return
    steps /= 2
    size *= 2
    for (i = 1; i <= curves; i++) for (k = 0; k < steps; k++) {
        at = i * STEPS + 2 * k
        low[i * STEPS + k] = lesser(low[at], low[at + 1])
        high[i * STEPS + k] = greater(high[at], high[at + 1])
    }
    for (i = 1; i <= lanes; i++) if (lane[i] in share) for (k = 0; k < steps; k++) {
        at = i * STEPS + 2 * k
        ticks_on[i * STEPS + k] = ticks_on[at] + ticks_on[at + 1]
    }
}
function put(i, least_value, most_value) {   # i: the curve's place in the list of BEGIN
    low[i * STEPS + steps] = least_value
    high[i * STEPS + steps] = most_value
}
function lesser(a, b) { return a < b ? a : b }
function greater(a, b) { return a > b ? a : b }
function value(v) { return v == NONE || v == -NONE ? "-" : sprintf("%.0f", v) }

END {
    if (ticks == 0 && NR == 2 && !ended) exit 3   # other fields
    if (inside > 0) keep()
    if (runs != "") finish("-")
    for (i = 1; i <= kinds; i++) {
        name = kind[i]
        for (n = greater(ROWS, found[name] - ENDS) + 1; n <= found[name]; n++) print name, last_rows[name, n % ENDS]
        print "count", name, found[name]
    }
    # the day that is open at the end: its ticks, opening, refilled, used, unbooked, closing, tracked, batches, total
    if (day_ticks > 0)
        printf "open %.0f %.0f %.0f %.0f %.0f %.0f %.0f %s %s %d\n", day_ticks, opening, refilled, used, unbooked, raw, tracked, batches,
            total, begun
    for (i = 1; i <= curves; i++) {
        printf "curve %s low", curve[i]
        for (k = 0; k < steps; k++) printf " %s", value(low[i * STEPS + k])
        printf "\ncurve %s high", curve[i]
        for (k = 0; k < steps; k++) printf " %s", value(high[i * STEPS + k])
        print ""
    }
    for (i = 1; i <= lanes; i++) if (lane[i] in share) {
        printf "times %s %d\nlane %s", lane[i], times[lane[i]], lane[i]
        for (k = 0; k < steps; k++) printf " %d", ticks_on[i * STEPS + k]
        print ""
    }
    for (name in most)
        if (most[name] != -NONE) printf "peak %s %.0f %.0f %.0f %.0f\n", name, least[name], least_at[name], most[name], most_at[name]
    printf "ticks %.0f\nsize %.0f\nkeyed %d\nmoves %d\n", ticks, size, keyed, moves
    for (name in tally) print "tally", name, tally[name]
    if (ended) print "ended", ended
}
