#!/usr/bin/env python3
"""Times the program on made CSV files.

usage: bench/run.py PROGRAM [RECORDS ..]
       bench/run.py --verbs PROGRAM [RECORDS ..]
       bench/run.py --flights PROGRAM [RECORDS ..]
       bench/run.py --make FILE RECORDS numbers|mixed|flights

For each number of records (10,000, 100,000 and 1,000,000 where none is given) it writes three files into a temporary
folder: four columns of whole numbers; twelve columns of all kinds with the same four among them; and flights by the rule of
examples/flights. The first two are boards by themselves, and PROGRAM runs on each with sessions of 0, 1 and 20 range filters.
The flights are loaded into the board of examples/flights, whose nine dimensions are over dates, numbers, texts, tags and pairs,
by sessions that move 0, 1 and 20 brushes after that. Each run is made three times, and the table that it prints has the
shortest wall time, the greatest peak memory, and the bytes written. With --flights it does so for the flights alone.

With --verbs it runs a session of each verb instead, on four columns of whole numbers of which one stays as a dimension and a
group, so that the dashboard behind each answer is short, and sessions of long lines and of many. With --make it only writes
one file. It needs Python 3.8 on Linux and nothing else.
"""

import importlib.util
import os
import sys
import tempfile
import time

# Each column's name, and the number of values that it is drawn from; of the last nearly all are distinct.
COLUMNS = [("ten", 10), ("thousand", 1000), ("many", 100_000), ("unique", 10**12)]
RECORDS = [10_000, 100_000, 1_000_000]
FILTERS = [0, 1, 20]
RUNS = 3


class Draws:
    """A linear congruential generator of 64 bits. A draw of n is a number from 0 to n - 1."""

    def __init__(self, seed):
        self.state = seed

    def draw(self, n):
        self.state = (6364136223846793005 * self.state + 1442695040888963407) % 2**64
        return (self.state >> 16) % n


def write_board(path, records):
    """Four columns of whole numbers."""
    draws = Draws(records)
    with open(path, "w", encoding="ascii") as board:
        board.write(",".join(name for name, _ in COLUMNS) + "\n")
        for _ in range(records):
            board.write(",".join(str(draws.draw(values)) for _, values in COLUMNS) + "\n")


def others_of(draws):
    """Two decimals, two dates, three texts and tags."""
    cents, grams = draws.draw(100_000), draws.draw(10**6)
    days = [(1990 + draws.draw(30), 1 + draws.draw(12), 1 + draws.draw(28)) for _ in range(2)]
    city, street, note = draws.draw(50), draws.draw(10_000), draws.draw(10**6)
    tags = sorted({draws.draw(8) for _ in range(3)})
    return [
        f"{cents // 100}.{cents % 100:02}",
        f"{grams // 1000}.{grams % 1000:03}",
        *(f"{year}-{month:02}-{day:02}" for year, month, day in days),
        f"city{city}",
        f"{street} Long Street",
        f'"note {note}, of a customer"',
        ";".join(f"t{tag}" for tag in tags),
    ]


def write_mixed(path, records):
    """The same four columns, and eight of other kinds after them."""
    draws = Draws(records)
    others = ["price", "weight", "ordered", "sent", "city", "street", "note", "tags"]
    with open(path, "w", encoding="ascii") as board:
        board.write(",".join([name for name, _ in COLUMNS] + others) + "\n")
        for _ in range(records):
            numbers = [str(draws.draw(values)) for _, values in COLUMNS]
            board.write(",".join(numbers + others_of(draws)) + "\n")


EXAMPLES = os.path.join(os.path.dirname(os.path.dirname(os.path.abspath(__file__))), "examples")
FLIGHTS_BOARD = os.path.join(EXAMPLES, "flights", "board.json")

# Brushes as an analyst moves them, on each dimension of the flights.
BRUSHES = [
    "filter hour range 6 12",
    "filter hour range 12 18",
    "filter hour range 17 23",
    "toggle carrier exact Kestrel",
    "toggle carrier exact Aurora",
    "toggle carrier exact Kestrel",
    "filter delay range 30 1000",
    "filter date range 2025-06-01 2025-09-01",
    "filter date range 2025-07-01 2025-10-01",
    "toggle origin exact Northport",
    "clear hour",
    "filter cause exact weather",
    "clear carrier",
    "filter distance range 500 1000",
    "filter weekday range 1 6",
    "clear cause",
    "filter place exact Mills|Aurora",
    "clear origin",
    "clear delay",
    "clearall",
]


def write_flights(path, records):
    """Flights by the rule of the example, over its year again and again."""
    sys.dont_write_bytecode = True
    spec = importlib.util.spec_from_file_location("make", os.path.join(EXAMPLES, "make.py"))
    make = importlib.util.module_from_spec(spec)
    spec.loader.exec_module(make)
    draws = make.Draws(1)
    with open(path, "w", encoding="ascii") as data:
        data.write("date,hour,carrier,origin,distance,delay,causes\n")
        for number in range(records):
            flight = make.flight_of(number % (8 * 365), draws)
            data.write(",".join(str(value) for value in flight) + "\n")


def write_brushes(path, data, brushes):
    """The flights are loaded, and the first so many brushes are moved."""
    with open(path, "w", encoding="ascii") as session:
        session.write(f"load {data}\n")
        session.writelines(brush + "\n" for brush in BRUSHES[:brushes])


# Each file's name, and what writes it. The first two are boards by themselves.
FAMILIES = {"numbers": write_board, "mixed": write_mixed, "flights": write_flights}


def write_session(path, filters):
    """The columns take turns; each range holds half of its column's values, from a drawn low end on."""
    draws = Draws(filters)
    with open(path, "w", encoding="ascii") as session:
        for number in range(filters):
            name, values = COLUMNS[number % len(COLUMNS)]
            low = draws.draw(values // 2)
            session.write(f"filter {name} range {low} {low + values // 2}\n")


# What stands before each session of a verb: of the four columns the one of 10 values stays.
ALONE = "dispose dimension thousand\ndispose dimension many\ndispose dimension unique\n"

# A name, and the lines of a session; MORE stands for a file of as many records, and RECORDS for their number.
VERBS = [
    ("nothing", ""),
    ("one dimension left", ALONE),
    ("filter", ALONE + "filter ten range 2 7\n"),
    ("filter by a predicate", ALONE + "filter ten func or modulo 3 1 not oneof exact 4 range 6 8 end\n"),
    ("toggle", ALONE + "toggle ten exact 3\n"),
    ("clearall", ALONE + "clearall\n"),
    ("remove passing", ALONE + "filter ten range 2 7\nremove passing\n"),
    ("remove where", ALONE + "remove where ten exact 3\n"),
    ("dimension and group", ALONE + "dimension d column unique\ngroup g of d floor 100000000000 count\n"),
    ("group of sums and counts", ALONE + "group g of ten same sumcount many\n"),
    ("group of spreads", ALONE + "group g of ten same spread many\n"),
    ("whole of spreads", ALONE + "whole w spread unique\n"),
    ("order and grouptop", ALONE + "order ten 0\ngrouptop ten 5\n"),
    ("top", ALONE + "top ten 10\n"),
    ("bottom, all records", ALONE + "bottom ten RECORDS\n"),
    ("records", ALONE + "records\n"),
    ("groups", ALONE + "groups ten\n"),
    ("value", ALONE + "value ten 3\n"),
    ("add, behind a removal", ALONE + "remove where ten exact 3\nadd 1 2 3 4\n"),
    ("load, half as many", ALONE + "remove where ten range 0 6\nload MORE\n"),
]

# Sessions on a board without records, which tell the cost of lines alone: a name, a line, and how often it stands there. They
# are long, and are written line by line, since what this process holds counts as the peak of a program that needs less.
LINES = [
    ("1,000 notes of 65,535 bytes", "note " + "word " * 13_106 + "\n", 1000),
    ("1,000,000 comments of 100 bytes", "# " + "x" * 98 + "\n", 1_000_000),
]


def measure_lines(program, folder, records, name, lines, times=1):
    """The session of a verb, or of its lines many times. A step more has the dashboard's cost too."""
    session = os.path.join(folder, "session.txt")
    more = os.path.join(folder, "more.csv")
    lines = lines.replace("MORE", more).replace("RECORDS", str(records))
    with open(session, "w", encoding="ascii") as text:
        for _ in range(times):
            text.write(lines)
    return f"| {name} | {records:,} | {figures_of(program, folder, os.path.join(folder, 'board.csv'), session)} |"


def measure_verbs(program, sizes):
    print("| session | records | wall time (s) | peak memory (MiB) | bytes written |")
    print("|---|---:|---:|---:|---:|")
    for records in sizes:
        with tempfile.TemporaryDirectory() as folder:
            write_board(os.path.join(folder, "board.csv"), records)
            write_board(os.path.join(folder, "more.csv"), records // 2)
            for name, lines in VERBS:
                print(measure_lines(program, folder, records, name, lines), flush=True)
    with tempfile.TemporaryDirectory() as folder:
        write_board(os.path.join(folder, "board.csv"), 0)
        for name, line, times in LINES:
            print(measure_lines(program, folder, 0, name, line, times), flush=True)


def measure(program, words, output):
    """The seconds and the KiB of one run."""
    with open(output, "wb") as out:
        start = time.perf_counter()
        actions = [(os.POSIX_SPAWN_DUP2, out.fileno(), 1)]
        process = os.posix_spawn(program, [program, *words], os.environ, file_actions=actions)
        _, status, usage = os.wait4(process, 0)
        seconds = time.perf_counter() - start
    if status != 0:
        sys.exit(f"{program} {' '.join(words)} ended with the wait status {status}")
    return seconds, usage.ru_maxrss


def figures_of(program, folder, board, session):
    """The last three cells of a row: the shortest time, the greatest peak, and the bytes written."""
    output = os.path.join(folder, "output.txt")
    runs = [measure(program, [board, session], output) for _ in range(RUNS)]
    seconds = min(run[0] for run in runs)
    peak = max(run[1] for run in runs)
    return f"{seconds:.3f} | {peak / 1024:.1f} | {os.path.getsize(output):,}"


def measure_row(program, folder, family, records, filters):
    data = board = os.path.join(folder, f"{family}.csv")
    session = os.path.join(folder, "session.txt")
    if family == "flights":
        board = FLIGHTS_BOARD
        write_brushes(session, data, filters)
    else:
        write_session(session, filters)
    return f"| {family} | {records:,} | {filters} | {figures_of(program, folder, board, session)} |"


def measure_families(program, families, sizes):
    print("| file | records | filters | wall time (s) | peak memory (MiB) | bytes written |")
    print("|---|---:|---:|---:|---:|---:|")
    for family in families:
        for records in sizes:
            with tempfile.TemporaryDirectory() as folder:
                FAMILIES[family](os.path.join(folder, f"{family}.csv"), records)
                for filters in FILTERS:
                    print(measure_row(program, folder, family, records, filters), flush=True)


def main():
    words = sys.argv[1:]
    if len(words) == 4 and words[0] == "--make" and words[3] in FAMILIES:
        FAMILIES[words[3]](words[1], int(words[2]))
        return
    if len(words) > 1 and words[0] == "--verbs":
        measure_verbs(os.path.abspath(words[1]), [int(word) for word in words[2:]] or [1_000_000])
        return
    families = FAMILIES
    if len(words) > 1 and words[0] == "--flights":
        families = ["flights"]
        del words[0]
    if not words or words[0].startswith("-"):
        sys.exit(__doc__)
    measure_families(os.path.abspath(words[0]), families, [int(word) for word in words[1:]] or RECORDS)


if __name__ == "__main__":
    main()
