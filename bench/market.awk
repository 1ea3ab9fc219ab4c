# Writes a schema, or a script of subscriptions and events, like those of a market: a condition is on one symbol of 10,000, drawn by
# Zipf's law, and on a range of prices, and every second one on a least volume too; an event has a symbol, drawn likewise, a price
# and a volume.
# Use: awk -v what=schema -f market.awk; awk -v what=script -v subs=10000 -v events=500 -f market.awk

# the next of a fixed row of numbers, below n
function next_below(n) {
    seed = (seed * 16807) % 2147483647
    return int(seed / 7) % n
}

# a symbol by its rank: the first one whose part of the whole reaches a drawn part
function symbol(    wanted, low, high, middle) {
    wanted = next_below(1000000) / 1000000 * reach[10000]
    low = 1
    high = 10000
    while (low < high) {
        middle = int((low + high) / 2)
        if (reach[middle] < wanted) low = middle + 1
        else high = middle
    }
    return low - 1
}

function condition(number,    low, high) {
    low = next_below(100000)
    high = low + next_below(5000)
    return "symbol = " symbol() " and price between " low " and " (high < 99999 ? high : 99999) (number % 2 ? " and volume >= " next_below(1000000) : "")
}

BEGIN {
    if (what == "schema") {
        print "int symbol 0 9999"
        print "int price 0 99999"
        print "int volume 0 999999"
        exit
    }
    seed = 20111
    for (rank = 1; rank <= 10000; rank++) reach[rank] = reach[rank - 1] + 1 / rank
    for (i = 1; i <= subs; i++) print "SUB s" i " " condition(i)
    for (i = 1; i <= events; i++) print "PUB symbol=" symbol() " price=" next_below(100000) " volume=" next_below(1000000)
}
