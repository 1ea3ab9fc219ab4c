# Writes a schema, or a script of subscriptions and events, of the kind that the program's own workload has: one to four
# predicates over ten attributes, and events that assign eight attributes of ten. The numbers are drawn otherwise.
# Use: awk -v what=schema -f generated.awk; awk -v what=script -v subs=10000 -v events=500 -f generated.awk

# the next of a fixed row of numbers, below n
function next_below(n) {
    seed = (seed * 16807) % 2147483647
    return int(seed / 7) % n
}

function predicate(    attr, kind, low, high) {
    attr = "a" next_below(10)
    kind = next_below(5)
    low = next_below(1000)
    if (kind == 0) return attr " = " low
    if (kind == 2) return attr " <= " low
    if (kind == 3) return attr " >= " low
    if (kind == 4) return attr " in {" low "," next_below(1000) "," next_below(1000) "}"
    high = low + next_below(50)
    return attr " between " low " and " (high < 999 ? high : 999)
}

function condition(    text, more) {
    text = predicate()
    for (more = next_below(4); more > 0; more--) text = text " and " predicate()
    return text
}

function event(    text, attr) {
    text = ""
    for (attr = 0; attr < 10; attr++)
        if (next_below(10) < 8) text = text " a" attr "=" next_below(1000)
    return text == "" ? " -" : text
}

BEGIN {
    if (what == "schema") {
        for (attr = 0; attr < 10; attr++) print "int a" attr " 0 999"
        exit
    }
    seed = 20111
    for (i = 1; i <= subs; i++) print "SUB s" i " " condition()
    for (i = 1; i <= events; i++) print "PUB" event()
}
