"""Random tables: what the program prints of each, beside the report by fractions: tables.py [SEED [TABLES]]"""
import collections
import random
import re
import subprocess
import sys
from fractions import Fraction


def numbers(line):
    """A line's four numbers, or None."""
    words = re.split(rb"[ \t]+", line)
    if len(words) != 4 or not all(re.fullmatch(rb"0*[0-9]{1,5}", word) for word in words):
        return None
    four = [int(word) for word in words]
    return four if max(four) < 65536 else None


def report(table):
    """What is to be printed, and its kind."""
    rows = []
    for place, line in enumerate(table.split(b"\n"), 1):
        line = line[:-1] if line.endswith(b"\r") else line
        if line.startswith(b"#") or not line.strip(b" \t"):
            continue
        row = numbers(line.strip(b" \t"))
        if row is None:
            return f"line {place}: not four numbers of 0 to 65535\n", "line"
        rows.append(row)
    if len(rows) > 64:
        return "16: more than 64 rows\n", "16"
    if any(full == 0 or design == 0 or remaining > full for remaining, full, design, _ in rows):
        return "17: a row whose full or design is 0 or whose remaining exceeds full\n", "17"
    ratios = [Fraction(remaining, full) for remaining, full, _, _ in rows]
    lowest, kind = "no lowest row", "no rows"
    if rows:
        place = ratios.index(min(ratios))
        lowest = f"lowest {rows[place][0]} of {rows[place][1]} mAh, place {place}"
        kind = "a tie" if ratios.count(min(ratios)) > 1 else "figures"
    return (
        f"packs {len(rows)}\n"
        f"total remaining {sum(row[0] for row in rows)} mAh\n"
        f"total full {sum(row[1] for row in rows)} mAh\n"
        f"{lowest}\n"
        f"below one fifth {sum(ratio < Fraction(1, 5) for ratio in ratios)}\n"
    ), kind


def table(chance):
    """Rows with small or large numbers, now and then a bad one, written in every way that is allowed."""
    most = chance.choice([6, 40, 65535])
    ends = [chance.choice(["\n", "\r\n"])]
    text = ""
    for _ in range(chance.choice([0, 1, 2, 5, 20, 63, 64, 65, 66])):
        full = chance.randint(1, most)
        row = [chance.randint(0, full), full, chance.randint(1, most), chance.randint(0, 65535)]
        if chance.random() < 0.002:
            row[chance.randrange(3)] = chance.choice([0, most])
        gap = chance.choice([" ", " ", " ", "\t", "   "])
        text += gap.join("0" * chance.choice([0, 0, 0, 2]) + str(number) for number in row)
        text += chance.choice(["", "", "", " "]) + chance.choice(ends)
        text += chance.choice([""] * 9 + ["\n", "# a 1\n", " \t\n"])
    return text.encode()


def damaged(chance, text):
    """A byte of the table changed, taken out or put in."""
    place = chance.randint(0, len(text))
    byte = bytes([chance.choice([0, 9, 10, 13, 32, 35, 45, 48, 57, 65, chance.randrange(256)])])
    return text[:place] + chance.choice([b"", byte]) + text[place + chance.choice([0, 1]):]


def main(seed, tables):
    chance = random.Random(seed)
    kinds = collections.Counter()
    for number in range(tables):
        text = table(chance)
        while chance.random() < 0.25:
            text = damaged(chance, text)
        wanted, kind = report(text)
        run = subprocess.run(["tools/run", "target/bin/monday"], input=text, stdout=subprocess.PIPE, check=True)
        if run.stdout != wanted.encode():
            with open("target/shelf/table", "wb") as file:
                file.write(text)
            sys.exit(f"tests/shelf: seed {seed}, table {number}, which is in target/shelf/table:\n{run.stdout.decode()}wanted:\n{wanted}")
        kinds[kind] += 1
    missing = {"line", "16", "17", "no rows", "figures", "a tie"} - set(kinds)
    if tables >= 300 and missing:
        sys.exit(f"tests/shelf: no table of the kind: {sorted(missing)}")
    counts = ", ".join(f"{count} {kind}" for kind, count in sorted(kinds.items()))
    print(f"tests/shelf: {tables} tables of seed {seed} as by fractions ({counts})")


main(int(sys.argv[1]) if len(sys.argv) > 1 else 1, int(sys.argv[2]) if len(sys.argv) > 2 else 300)
