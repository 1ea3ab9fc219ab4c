# Writes a schema, or a script of subscriptions and events, like those of a market with twenty attributes: nine of ten conditions are on
# one symbol of 10,000, drawn by Zipf's law, and have one to three predicates more, on attributes that are drawn likewise; one of ten has
# two to four predicates and no symbol. An event has a symbol, a price, and each other attribute in four of five.
# Use: awk -v what=schema -f broad_market.awk; awk -v what=script -v subs=10000 -v events=500 -f broad_market.awk

# the next of a fixed row of numbers, below n
function next_below(n) {
    seed = (seed * 16807) % 2147483647
    return int(seed / 7) % n
}

# a rank of so many, the first one whose part of the whole reaches a drawn part
function drawn(count,    wanted, low, high, middle) {
    wanted = next_below(1000000) / 1000000 * reach[count]
    low = 1
    high = count
    while (low < high) {
        middle = int((low + high) / 2)
        if (reach[middle] < wanted) low = middle + 1
        else high = middle
    }
    return low
}

# symbols by falling popularity, spread over the domain
function symbol() { return drawn(10000) * 7919 % 10000 }

# an attribute beside the symbol
function name(place) { return place == 1 ? "price" : place == 2 ? "size" : "x" place }

function predicate(kinds,    attr, kind, low, high) {
    attr = name(drawn(19))
    kind = next_below(kinds)
    low = next_below(10000)
    if (kind < 2) return attr " <= " low
    if (kind == 2) return attr " >= " low
    if (kind == 4) return attr " = " low
    high = low + next_below(500)
    return attr " between " low " and " (high < 9999 ? high : 9999)
}

function condition(    text, count, kinds) {
    if (next_below(10) < 9) {
        text = "symbol = " symbol()
        count = 1 + next_below(3)
        kinds = 4
    } else {
        text = predicate(5)
        count = 1 + next_below(3)
        kinds = 5
    }
    for (; count > 0; count--) text = text " and " predicate(kinds)
    return text
}

function event(    text, place) {
    text = "symbol=" symbol() " price=" next_below(10000)
    for (place = 2; place < 20; place++) if (next_below(10) < 8) text = text " " name(place) "=" next_below(10000)
    return text
}

BEGIN {
    if (what == "schema") {
        print "int symbol 0 9999"
        for (place = 1; place < 20; place++) print "int " name(place) " 0 9999"
        exit
    }
    seed = 20111
    for (rank = 1; rank <= 10000; rank++) reach[rank] = reach[rank - 1] + 1 / rank
    for (i = 1; i <= subs; i++) print "SUB s" i " " condition()
    for (i = 1; i <= events; i++) print "PUB " event()
}
