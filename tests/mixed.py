#!/usr/bin/env python3
"""Writes files of mixed lines for `drill`, the same at each run: good lines of every command, faulty ones, and names that all
sessions use beside names that one has alone. Its words: the folder, how many files and how many lines in each, and a
seed. The files are f1, f2 and so on, the schema is schema.txt, and a load file is load.txt."""
import os
import sys

sys.dont_write_bytecode = True
import model


class Mixed(model.Lines):
    def __init__(self, session, seed):
        super().__init__(f"{seed} {session}")
        self.session = session

    def name(self):
        pick = self.random
        if pick.random() < 0.1:
            return super().name()
        if pick.random() < 0.2:
            return f"shared{pick.randint(1, 30)}"
        return f"f{self.session}.{pick.randint(1, 40)}"

    def wait(self):
        """Short ones, since `drill` and `serve` do wait."""
        pick = self.random
        return "" if pick.random() < 0.8 else " " + pick.choice(["0", "1", "2", "60001", "x", "1 2"])

    def picked(self):
        pick = self.random
        kind = pick.random()
        if kind < 0.24:
            return f"SUB {self.name()} {self.condition()}"
        if kind < 0.42:
            return f"UNSUB {self.name()}"
        if kind < 0.64:
            return f"PUB {self.event()}"
        if kind < 0.74:
            return f"COST {self.event()}"
        if kind < 0.86:
            return f"SEND {self.event()}"
        if kind < 0.94:
            return f"FETCH {pick.choice(['0', '1', '2', '5', '30', '007', '1000000'])}{self.wait()}"
        if kind < 0.96:
            return "LIST"
        if kind < 0.995:
            return f"TAIL {pick.randint(0, 20000)} {pick.choice(['0', '1', '3', '20'])}{self.wait()}"
        return pick.choice(["DUMP", "TAIL 0 1000", "TAIL 7 7 7 7", "x" * 65537, "x" * 65536, ""])

    def text(self, count):
        lines = [self.spoiled(self.picked() or " ", 0.02) for _ in range(count)]
        return "".join(line + self.random.choice(["\n"] * 9 + ["\r\n"]) for line in lines)


def written(folder, name, text):
    with open(os.path.join(folder, name), "w", encoding="latin-1", newline="") as file:
        file.write(text)


def main(folder, files, lines, seed):
    schema = ""
    for name, *domain in model.SCHEMA:
        is_sym = len(domain) == 1
        schema += f"sym {name} {' '.join(domain[0])}\n" if is_sym else f"int {name} {domain[0]} {domain[1]}\n"
    written(folder, "schema.txt", schema)
    written(folder, "load.txt", model.good_load_file(Mixed(0, seed))[0])
    for session in range(1, int(files) + 1):
        text = Mixed(session, seed).text(int(lines))
        # every third file ends without a leave, every third with a QUIT before its last line, and every third without LF
        ends = [text, text + "QUIT\nPUB -\n", text + "SUB last all"]
        written(folder, f"f{session}", ends[session % 3])


if __name__ == "__main__":
    main(*sys.argv[1:])
