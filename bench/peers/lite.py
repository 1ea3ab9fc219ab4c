"""SQLite by the module of python3: the conditions are rows of a table in memory with an index, an event is a prepared query.

lite.py ROWS EVENTS SECONDS HITS TOOK: the words are those of filter.c.
"""
import sqlite3
import sys
import time

QUERY = "select number from conditions where symbol = ? and low <= ? and high >= ? and least <= ? order by number"


def rows(name):
    with open(name, encoding="ascii") as file:
        return [tuple(int(word) for word in line.split()) for line in file]


def main():
    base = sqlite3.connect(":memory:")
    base.execute("create table conditions (number integer primary key, symbol int, low int, high int, least int)")
    base.executemany("insert into conditions values (?, ?, ?, ?, ?)", rows(sys.argv[1]))
    base.execute("create index conditions_by_range on conditions (symbol, low, high, least)")
    base.execute("analyze")
    most = float(sys.argv[3])
    with open(sys.argv[2], encoding="ascii") as events, open(sys.argv[4], "w", encoding="ascii") as hits:
        answered, since = 0, time.perf_counter()
        for line in events:
            if time.perf_counter() - since >= most:
                break
            symbol, price, volume = line.split()
            found = base.execute(QUERY, (int(symbol), int(price), int(price), int(volume)))
            hits.write(" ".join([str(number) for number, in found]) + "\n")
            answered += 1
        took = time.perf_counter() - since
    with open(sys.argv[5], "w", encoding="ascii") as told:
        print(answered, took, file=told)


if __name__ == "__main__":
    main()
