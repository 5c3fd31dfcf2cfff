#!/usr/bin/env python3
"""Times the program against SQL, and compares what both write.

usage: bench/against_sql.py PROGRAM [RECORDS ..]
       bench/against_sql.py --quick PROGRAM

For each number of records (10,000, 100,000 and 1,000,000 where none is given) it makes the file and the session of 20
range filters of bench/run.py. The file is loaded into a table of SQLite in memory, and each step's view is asked for
anew: a count of the records that pass, and for each column one GROUP BY with a sum of those that pass the other columns.
It prints both wall times, and ends with status 1 where a byte differs.

With --quick it times nothing. It makes 300 records, negative numbers among them, and 30 lines: filters whose ends are
drawn and of which each fifth is reversed, and in place of each seventh line one that clears a column; it prints the first
line that differs, or nothing. It needs Python 3.8 on Linux, with its sqlite3, and nothing else.
"""

import csv
import itertools
import os
import sqlite3
import sys
import tempfile
import time

from run import RECORDS, Draws, measure, write_board, write_session

FILTERS = 20
# Of the quick comparison: each column's name, and half the number of values around 0 that it is drawn from.
QUICK_COLUMNS = [("few", 2), ("some", 25), ("many", 1000)]
QUICK_RECORDS = 300
QUICK_LINES = 30


def load(path):
    table = sqlite3.connect(":memory:")
    with open(path, encoding="ascii", newline="") as board:
        records = csv.reader(board)
        # Names stand between double quotes, since some are words of SQL.
        names = [f'"{name}"' for name in next(records)]
        table.execute(f"CREATE TABLE board ({', '.join(f'{name} INTEGER' for name in names)})")
        table.executemany(f"INSERT INTO board VALUES ({', '.join('?' for _ in names)})", records)
    return table, names


def test_of(ranges, but=None):
    """The SQL test that a record passes the ranges of all columns but one."""
    tests = [f"({name} >= {low} AND {name} < {high})" for name, (low, high) in ranges.items() if name != but]
    return " AND ".join(tests) or "1"


def count(table, test):
    return table.execute(f"SELECT count(*) FROM board WHERE {test}").fetchone()[0]


def moved(table, name, old, new):
    def test(ends):
        return f"({name} >= {ends[0]} AND {name} < {ends[1]})" if ends else "1"

    return count(table, f"{test(old)} <> {test(new)}")


def view(table, names, ranges):
    passing = count(table, test_of(ranges))
    lines = [f"records {count(table, '1')} passing {passing}", f"whole all {passing}"]
    for name in names:
        counts = f"SELECT {name}, sum({test_of(ranges, name)}) FROM board GROUP BY {name} ORDER BY {name}"
        entries = table.execute(counts).fetchall()
        lines.append(f"group {name[1:-1]} {len(entries)}")
        lines.extend(f"  {key} {number}" for key, number in entries)
    return lines


def replay(board, session):
    table, names = load(board)
    ranges = {}
    lines = []
    with open(session, encoding="ascii") as commands:
        for number, command in enumerate(commands, 1):
            verb, word, *range_words = command.split()
            name = f'"{word}"'
            old = ranges.pop(name, None)
            if verb == "filter":
                _, low, high = range_words
                ranges[name] = (int(low), int(high))
            lines.append(f"step {number} ok moved {moved(table, name, old, ranges.get(name))}")
            lines.extend(view(table, names, ranges))
    return "".join(line + "\n" for line in lines).encode("ascii")


def write_quick(board, session):
    draws = Draws(QUICK_RECORDS)
    with open(board, "w", encoding="ascii") as records:
        records.write(",".join(name for name, _ in QUICK_COLUMNS) + "\n")
        for _ in range(QUICK_RECORDS):
            records.write(",".join(str(draws.draw(2 * half) - half) for _, half in QUICK_COLUMNS) + "\n")
    with open(session, "w", encoding="ascii") as commands:
        for number in range(QUICK_LINES):
            name, half = QUICK_COLUMNS[draws.draw(len(QUICK_COLUMNS))]
            ends = [-draws.draw(half), draws.draw(half) + 1]
            low, high = reversed(ends) if number % 5 == 4 else ends
            commands.write(f"clear {name}\n" if number % 7 == 6 else f"filter {name} range {low} {high}\n")


def compare(program, board, session, output):
    """The seconds of the program and of SQL, and the first line at which what they write differs, or None."""
    seconds, _ = measure(program, [board, session], output)
    start = time.perf_counter()
    wanted = replay(board, session)
    by_sql = time.perf_counter() - start
    with open(output, "rb") as written:
        pairs = itertools.zip_longest(written.read().split(b"\n"), wanted.split(b"\n"))
    return seconds, by_sql, next((it for it in enumerate(pairs, 1) if it[1][0] != it[1][1]), None)


def compare_quick(program, board, session, output):
    write_quick(board, session)
    _, _, differs = compare(program, board, session, output)
    if differs:
        number, (own, by_sql) = differs
        sys.exit(f"line {number}: {program} writes {own}, and SQL gives {by_sql}")


def compare_timed(program, records, board, session, output):
    """Prints a row of the table, and ends where the bytes are not the same."""
    write_board(board, records)
    write_session(session, FILTERS)
    seconds, by_sql, differs = compare(program, board, session, output)
    print(f"| {records:,} | {FILTERS} | {seconds:.2f} | {by_sql:.2f} | {'NO' if differs else 'yes'} |", flush=True)
    if differs:
        sys.exit(1)


def main():
    words = [it for it in sys.argv[1:] if it != "--quick"]
    if not words:
        sys.exit(__doc__)
    program = os.path.abspath(words[0])
    with tempfile.TemporaryDirectory() as folder:
        files = [os.path.join(folder, name) for name in ("board.csv", "session.txt", "output.txt")]
        if "--quick" in sys.argv:
            compare_quick(program, *files)
            return
        print("| records | filters | this program (s) | SQL (s) | same bytes |")
        print("|---:|---:|---:|---:|---|")
        for records in [int(word) for word in words[1:]] or RECORDS:
            compare_timed(program, records, *files)


if __name__ == "__main__":
    main()
