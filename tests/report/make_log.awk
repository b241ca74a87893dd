# A log for replay that is made, not recorded: awk -v kind=tank|hopper -v ticks=N -v seed=S -f tests/report/make_log.awk
# for the report's tests and its picture. A cycle of twelve minutes has a batch; the tank is weighed by loss and drawn slowly besides, the
# hopper is filled and discharged. At a third and at two thirds of the log a tanker refills by contact. Some requests are such that they are
# refused, one batch is stopped, one meets a bad tick, and the day is closed five seconds before the end.
# The plant only resembles what the controller does: it flows by its own weight and clock, as the setpoints below have it.
BEGIN {
    CYCLE = 72000; REFILL = 9000; NOISE = 3
    if (ticks == "") ticks = 720000
    state = seed == "" ? 1 : seed
    if (kind == "hopper") {
        print "20000 120000 1000 1000 1 2 100 5 20 100 1 1 200 200 200 200 600 60000 0 0 0 1000 200 300 60000"
        final = 500; fall = 8; small = 70; large = 220; set = "SS000500000008000070000220000003000003000020"
        weight = 0; scale = 100; offset = 20000; refill = 300; drain = 0
    } else {
        print "0 200000 10000 10000 1 2 100 5 20 100 1 2 200 200 200 200 600 60000 0 0 0 10000 200 300 60000"
        final = 120; fall = 2; small = 30; large = 0; set = "SS000120000002000030009500000001000001000500"
        weight = 6400; scale = 20; offset = 0; refill = 1500; drain = 0.0003
    }
    for (t = 1; t <= ticks; t++) {
        at = t % CYCLE
        cycle = (t - at) / CYCLE
        request = "--"
        contact = 0
        if (at == 1500) request = kind == "hopper" ? "RW" : "MT"
        else if (at == 1000) request = set
        else if (at == 1600 && kind == "tank" && cycle == 0) request = "MN"
        else if (at == 30000 && kind == "tank" && cycle == 5) request = "MG"
        else if (at == 2000) {
            request = "BB"; feeding = 1; gone = 0
            rest = fall * (0.3 + 1.4 * random())   # what still falls is not always the same
        }
        else if (at == 40000 && kind == "hopper") { request = "BD"; emptying = 1 }
        else if (at == 5000) request = cycle % 4 == 1 ? "BB" : cycle % 4 == 3 ? "MZ" : "--"
        else if (at == 4500 && cycle % 9 == 5) { request = "HB"; feeding = 0 }
        else if (at == 60000) request = cycle % 7 == 2 ? "SS12" : cycle % 7 == 4 ? "CA" : cycle % 7 == 6 ? "AB" : "--"
        else if (at == 60500 && cycle % 7 == 4) request = "CA"
        if (t == ticks - 500) request = "DC"

        if (feeding && at > 2200) {
            rate = gone < final - large && large ? 0.03 : gone < final - small ? 0.012 : 0.004
            if (gone >= final - fall) { rate = 0.03; rest -= rate; feeding = rest > 0 }
            gone += rate + drain
            weight += kind == "hopper" ? rate : -rate
        }
        if (emptying && at > 40200) {
            weight -= weight * 0.0005 + 0.002
            if (weight <= 0) { weight = 0; emptying = 0 }
        }
        after = t - (t < ticks / 2 ? int(ticks / 3) : int(2 * ticks / 3))
        if (after >= 0) {
            if (after == 0) wanted = 1
            if (wanted && at > 52000) {
                contact = 1
                weight += refill / REFILL
                if (at == 52000 + REFILL) wanted = 0
            }
        }
        weight -= drain
        count = offset + int(scale * weight + NOISE * random())
        if (cycle % 9 == 7 && at == 3000) count = 9999999
        print count, contact, request
    }
}
function random() {
    state = (state * 16807) % 2147483647
    return state / 2147483647
}
