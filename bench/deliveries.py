"""Sound deliveries of any size, as bytes."""
import random


def overwrite(row, column, text):
    row[column - 1:column - 1 + len(text)] = text.encode("latin-1")


def station(supplier, number, designation):
    row = bytearray(b" " * 92)
    overwrite(row, 1, f"{supplier:04}{number:05}1")
    overwrite(row, 16, f"Station {designation}")
    overwrite(row, 51, "0")
    overwrite(row, 52, designation)
    overwrite(row, 69, "0")
    overwrite(row, 87, f"0{number % 90:04}0")
    return bytes(row)


def series(supplier, number, departure, destination):
    row = bytearray(b" " * 73)
    overwrite(row, 1, f"{supplier:04}{number:05}130")
    overwrite(row, 13, f"{departure[0]:05}")
    overwrite(row, 20, departure[1])
    overwrite(row, 37, "0")
    overwrite(row, 38, f"{destination[0]:05}")
    overwrite(row, 45, destination[1])
    overwrite(row, 62, "01")
    overwrite(row, 69, "0")
    overwrite(row, 71, "0")
    overwrite(row, 73, "0")
    return bytes(row)


def fare_table(supplier, number):
    row = bytearray(b" " * 207)
    overwrite(row, 1, f"{supplier:04}{number:04}11")
    overwrite(row, 11, f"Table {number}")
    overwrite(row, 161, "0EUR0")
    overwrite(row, 168, "10")
    overwrite(row, 178, f"{number:04}{supplier:04}")
    return bytes(row)


def delivery(supplier, rows, seed):
    """So many rows in each of the three files; the numbers of stations and series in no order."""
    dice = random.Random(seed)
    codes = dice.sample(range(100000), rows)
    stations = [(code, f"Place {k:05}") for k, code in enumerate(codes)]
    ends = sorted(
        ((dice.choice(stations), dice.choice(stations)) for _ in range(rows)),
        key=lambda pair: (pair[0][1], pair[1][1]),
    )
    numbers = dice.sample(range(100000), rows)
    body = b"".join(station(supplier, code, name) for code, name in stations)
    body += b"".join(series(supplier, number, *pair) for number, pair in zip(numbers, ends))
    body += b"".join(fare_table(supplier, 1000 + k) for k in range(rows))
    head = f"3{len(body):08}{rows:05}{rows:05}{rows:05}092073207{supplier:04}2026010101"
    return head.encode("ascii") + body
