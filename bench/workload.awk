# Writes a schema, or a script of subscriptions and events, of which each event satisfies few subscriptions.
# Use: awk -v what=schema -f workload.awk; awk -v what=script -v subs=1000 -v events=20000 -f workload.awk

# the next of a fixed row of numbers, below n
function next_below(n) {
    seed = (seed * 16807) % 2147483647
    return seed % n
}

function subscribe(number,    kind) {
    kind = number % 4
    if (kind == 0) print "SUB s" number " price < " next_below(2000)
    else if (kind == 1) print "SUB s" number " price >= " (98000 + next_below(2001))
    else if (kind == 2) print "SUB s" number " size <= " next_below(2000)
    else print "SUB s" number " venue = " next_below(501)
}

function publish(    kind) {
    kind = next_below(3)
    if (kind == 0) print "PUB price=" next_below(100001)
    else if (kind == 1) print "PUB size=" next_below(100001)
    else print "PUB venue=" next_below(501)
}

BEGIN {
    if (what == "schema") {
        print "int price 0 100000"
        print "int size 0 100000"
        print "int venue 0 500"
        exit
    }
    seed = 20111
    for (i = 1; i <= subs; i++) subscribe(i)
    for (i = 1; i <= events; i++) publish()
}
