"""Measures admission, find and join by scripts for `intake run`."""
import pathlib
import random
import subprocess
import time

from deliveries import fare_table, overwrite, series, station

ROOMS = (4096, 262144)
ROWS = 4096
VERSIONS = 40
LOOKUPS = 300000
JOINS = 10000


def flagged(row, column, flag):
    row = bytearray(row)
    overwrite(row, column, flag)
    return bytes(row)


class Carrier:
    """A supplier whose stations and series get new numbers, and whose versions follow one another."""

    def __init__(self, supplier, seed):
        self.supplier = supplier
        self.dice = random.Random(seed)
        self.codes = self.dice.sample(range(100000), 100000)
        self.numbers = self.dice.sample(range(100000), 100000)
        self.day, self.version = 20260101, 0
        self.live = None

    def rows(self, generation):
        first = generation * ROWS
        codes = self.codes[first:first + ROWS]
        places = [(code, f"Place {k:05}") for k, code in enumerate(codes)]
        ends = sorted(((self.dice.choice(places), self.dice.choice(places)) for _ in range(ROWS)), key=lambda e: (e[0][1], e[1][1]))
        return (
            [station(self.supplier, code, name) for code, name in places],
            [series(self.supplier, n, *e) for n, e in zip(self.numbers[first:first + ROWS], ends)],
            [fare_table(self.supplier, 1000 + k) for k in range(ROWS)],
        )

    def delivery(self, files):
        if self.version == 99:
            self.day, self.version = self.day + 1, 0
        self.version += 1
        counts = "".join(f"{len(rows):05}" for rows in files)
        body = b"".join(b"".join(rows) for rows in files)
        return f"3{len(body):08}{counts}092073207{self.supplier:04}{self.day}{self.version:02}".encode() + body

    def first(self):
        self.live = self.rows(0)
        return self.delivery(self.live)

    def leave(self):
        """All stations and series go, the fare tables stay."""
        gone = ([flagged(r, 10, "2") for r in self.live[0]], [flagged(r, 10, "2") for r in self.live[1]])
        return self.delivery((*gone, [flagged(r, 9, "0") for r in self.live[2]]))

    def come(self, generation):
        """New stations and series under new numbers."""
        tables = self.live[2]
        fresh = self.rows(generation)
        self.live = (fresh[0], fresh[1], tables)
        return self.delivery((fresh[0], fresh[1], [flagged(r, 9, "0") for r in tables]))

    def same(self):
        """The next version, with nothing changed."""
        return self.delivery(([flagged(r, 10, "0") for r in self.live[0]], [flagged(r, 10, "0") for r in self.live[1]], [flagged(r, 9, "0") for r in self.live[2]]))


def seconds(intake, script):
    best = None
    for _ in range(3):
        begun = time.perf_counter()
        done = subprocess.run([intake, "run"], input=script, stdout=subprocess.PIPE, text=True)
        taken = time.perf_counter() - begun
        wrong = [line for line in done.stdout.splitlines() if line.startswith(("refused", "error"))]
        if done.returncode != 0 or wrong:
            raise SystemExit(f"intake run failed: {wrong[:1]}")
        best = taken if best is None else min(best, taken)
    return best


def write(folder, name, content):
    path = pathlib.Path(folder) / name
    path.write_bytes(content)
    return str(path)


def book(folder, room):
    """The commands that fill a book of so many entries a run, and the carrier in its middle."""
    suppliers = 1 if room == ROWS else 16
    lines = [f"open {room} {room} {room}"]
    carriers = [Carrier(1000 + 10 * k, k) for k in range(suppliers)]
    for k, carrier in enumerate(carriers):
        lines.append("admit " + write(folder, f"{room}-{k}-0", carrier.first()))
        for generation in range(1, room // (suppliers * ROWS)):
            lines.append("admit " + write(folder, f"{room}-{k}-{generation}-gone", carrier.leave()))
            lines.append("admit " + write(folder, f"{room}-{k}-{generation}", carrier.come(generation)))
    return lines, carriers[suppliers // 2]


def measure(intake, folder):
    results = {}
    for room in ROOMS:
        lines, carrier = book(folder, room)
        versions = [write(folder, f"{room}-version-{k}", carrier.same()) for k in range(VERSIONS)]
        filled = "\n".join(lines) + "\n"
        begin = seconds(intake, filled)
        alone = lines[0] + "\n"
        reads = seconds(intake, alone + "".join(f"read {path}\n" for path in versions)) - seconds(intake, alone)
        admits = seconds(intake, filled + "".join(f"admit {path}\n" for path in versions)) - begin
        dice = random.Random(room)
        finds = seconds(intake, filled + "".join(f"find G {carrier.supplier} {dice.choice(carrier.codes[:ROWS * 4])}\n" for _ in range(LOOKUPS))) - begin
        codes = carrier.codes[:ROWS]
        joins = seconds(intake, filled + "".join(f"join {carrier.supplier} {dice.choice(codes)} {dice.choice(codes)}\n" for _ in range(JOINS))) - begin
        per_row = 3 * ROWS * VERSIONS
        results[room] = (reads / VERSIONS, (admits - reads) / VERSIONS, finds / LOOKUPS, joins / JOINS)
        print(f"book of {room} entries a run: reading {reads / per_row * 1e9:.0f} ns a row, admitting {(admits - reads) / per_row * 1e9:.0f} ns a row,"
              f" find {finds / LOOKUPS * 1e9:.0f} ns, join {joins / JOINS * 1e6:.1f} us")
    small, large = results[ROOMS[0]], results[ROOMS[1]]
    print(f"admitting to reading, in the small book: {small[1] / small[0]:.2f}, in the large one: {large[1] / large[0]:.2f} (at most 1)")
    print(f"admitting to the large book against the small one: {large[1] / small[1]:.2f}")
    print(f"find in the large book against the small one: {large[2] / small[2]:.2f}; join: {large[3] / small[3]:.2f}")
