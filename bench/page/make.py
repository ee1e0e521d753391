#!/usr/bin/env python3
"""Makes the pages that the programs are compared on and counted over.

    bench/page/make.py DIRECTORY [SEED]

writes the benchmark's pages to a directory. The same seed gives the same pages.
"""

import random
import sys
from pathlib import Path

MOST_BYTES = 65_536
POOLS = "CNST"


def customer_line(number, name, figures):
    return f"C,{number},{name}," + ",".join(map(str, figures))


def page_of(lines):
    return "".join(line + "\n" for line in lines).encode()


def benchmark(draw, customers, costs, transfers, shuffled=False):
    """A page that is billed: so many customers, cost lines and transfers, as far as they fit."""
    numbers = sorted(draw.sample(range(1, 10_000), customers))
    if shuffled:
        draw.shuffle(numbers)
    # Loads that add up to about 16,000,000, and to 20,000,000 at most.
    largest = min(2_000_000, 32_000_000 // customers)
    entered = []
    weights = {}
    for number in numbers:
        measured = draw.randint(largest // 20, largest)
        founding = draw.choice([0, 0, 0, measured // draw.randint(3, 20)])
        conservation = measured // draw.randint(40, 400)
        retail = min(2_000_000, measured * draw.randint(95, 112) // 100)
        large = draw.choice([0, 0, 0, retail // 20])
        elected = draw.choice([0, draw.randint(1, 30_000)])
        slice_amount = draw.choice([0, 0, measured // 2])
        name = f"Utility {number}"
        figures = (measured, founding, conservation, retail, large, founding, elected, slice_amount)
        entered.append(customer_line(number, name, figures))
        weights[number] = measured - founding + conservation
    total = min(20_000_000, sum(weights.values()) * 98 // 100)
    lines = [f"H,{total},{total * 96 // 100}", *entered]

    # Every pool has a cost, and no side can pass its limit.
    most = 390_000_000_000 // costs
    for place, number in enumerate(sorted(draw.sample(range(1, 10_000), costs))):
        cents = draw.randint(most // 10, min(most, 100_000_000_000))
        if place < len(POOLS):
            lines.append(f"E,{number},{POOLS[place]},{cents}")
            continue
        kind = draw.choice("EEERA")
        first, second = draw.sample(POOLS, 2)
        pools = f"{first},{second}" if kind == "A" else first
        lines.append(f"{kind},{number},{pools},{cents // 3 if kind == 'R' else cents}")

    # Marks are at least this by every divider, so no lift passes one.
    marks = {n: total * w // sum(weights.values()) for n, w in weights.items()}
    size = len(page_of(lines))
    for _ in range(transfers):
        giver, receiver = draw.sample(numbers, 2)
        if marks[giver] < 2:
            continue
        load = draw.randint(1, marks[giver] // 2)
        line = f"T,{giver},{receiver},{load}"
        size += len(line) + 1
        if size > MOST_BYTES:
            break
        marks[giver] -= load
        marks[receiver] += load
        lines.append(line)
    return page_of(lines)


def benchmarks(draw):
    """The benchmark's pages, each with its name."""
    return [
        ("10", benchmark(draw, 10, 12, 10)),
        ("100", benchmark(draw, 100, 100, 100)),
        ("512", benchmark(draw, 512, 512, 10_000)),
        ("512 shuffled", benchmark(draw, 512, 512, 10_000, shuffled=True)),
    ]


# Words that stand in a field where they should, or should not.
WORDS = (
    "0 1 2 7 00 05 -1 +1 1.0 9999 10000 30000 30001 50000 50001 500001 2000000 2000001 20000000 "
    "20000001 20050000 20050001 100000000000 100000000001 18446744073709551616 C N S T X CC "
    "ABCDEFGHIJKLMNOPQRSTUVWX ABCDEFGHIJKLMNOPQRSTUVWXY"
).split() + ["", " ", " 1", "1 ", "\t", "\r"]


def small(draw):
    """The lines of a small page; about half of them can be billed."""
    most = draw.choice([3, 60, 5_000, 2_000_000])
    numbers = draw.sample([*range(1, 12), 9_999], draw.randint(1, 6))
    lines = [f"H,{draw.randint(1, most * 4)},{draw.randint(0, most * 4)}"]
    limits = (2_000_000, 2_000_000, 500_000, 2_000_000, 2_000_000, 2_000_000, 30_000, 2_000_000)
    for number in numbers:
        figures = [draw.choice([0, draw.randint(0, min(most, high))]) for high in limits]
        if draw.random() < 0.7:
            # A customer with a mark and a net requirement.
            figures[0] = draw.randint(1, most)
            figures[3] = draw.randint(1, most)
            figures[1] = figures[4] = figures[5] = 0
        lines.append(customer_line(number, draw.choice(["Alder", "~ PUD & Co. !", "x"]), figures))

    acts = []
    cents = draw.choice([20, 2_000, 100_000_000_000])
    pools = draw.choice(["CN", "CN", "CNS", "CNT", POOLS])
    for number in draw.sample(range(1, 40), draw.choice([0, 2, 5, 12])):
        kind = draw.choice("EEERA")
        first, second = draw.sample(pools, 2)
        named = f"{first},{second}" if kind == "A" else first
        acts.append(f"{kind},{number},{named},{draw.choice([cents, draw.randint(1, cents)])}")
    for _ in range(draw.choice([0, 0, 1, 2, 4])):
        load = draw.choice([1, 1, 2, draw.randint(0, most)])
        giver = draw.choice(numbers)
        others = [number for number in numbers if number != giver]
        receiver = draw.choice(others or [8])
        if draw.random() < 0.05:
            giver, receiver = draw.randint(1, 12), draw.randint(1, 12)
        acts.append(draw.choice([f"G,{giver},{load}", f"T,{giver},{receiver},{load}"]))
    draw.shuffle(acts)
    return lines + acts


def changed(draw, lines):
    """Lines with one thing changed, which may break them."""
    lines = list(lines)
    at = draw.randrange(len(lines))
    match draw.randrange(6):
        case 0:
            fields = lines[at].split(",")
            fields[draw.randrange(len(fields))] = draw.choice(WORDS)
            lines[at] = ",".join(fields)
        case 1:
            fields = lines[at].split(",")
            place = draw.randrange(len(fields))
            fields[place : place + draw.randint(0, 1)] = draw.choice([[], ["0"]])
            lines[at] = ",".join(fields)
        case 2:
            lines.insert(draw.randint(0, len(lines)), lines[at])
        case 3:
            other = draw.randrange(len(lines))
            lines[at], lines[other] = lines[other], lines[at]
        case 4:
            del lines[at]
        case _:
            lines.insert(at, draw.choice(["", ",", "H", "h,1,1", "H,1,1", "E,50,S,1", "E,51,T,1", "CC,1"]))
    return lines


def large(draw):
    """A page at a limit of its bytes or records, or one past it."""
    customers, costs = draw.choice([(512, 512), (513, 1), (3, 513), (512, 1), (3, 512)])
    lines = ["H,1000,900"]
    lines += [f"C,{n},A,{n % 9},0,1,{n % 7},0,0,1,{n % 2}" for n in range(1, customers + 1)]
    lines += [f"E,{n},{POOLS[n % 2]},{n}" for n in range(1, costs + 1)]
    if draw.random() < 0.3:
        lines.append(draw.choice(["C,1,A,0,0,0,0,0,0,0,0", "E,1,C,1"]))
    page = page_of(lines)
    if draw.random() < 0.5:
        # Moves of 7 and 8 bytes make it as long as a page may be, or a byte longer.
        wanted = MOST_BYTES + draw.randint(0, 1) - len(page)
        grants = 8 - wanted % 8
        page += b"G,1,10\n" * grants
        there_and_back = [b"T,1,2,1\n", b"T,2,1,1\n"]
        page += b"".join(there_and_back[n % 2] for n in range((wanted - 7 * grants) // 8))
    return page


def mixed(draw):
    """A page of any kind; more than half of them have a fault."""
    if draw.random() < 0.02:
        return large(draw)
    lines = small(draw)
    while draw.random() < 0.3:
        lines = changed(draw, lines) or [""]
    page = page_of(lines)
    if draw.random() < 0.03:
        at = draw.randrange(len(page))
        page = page[:at] + bytes([draw.randrange(256)]) + page[at + 1 :]
    if draw.random() < 0.02:
        page = page[:-1]
    return page


def main():
    if len(sys.argv) not in (2, 3):
        print("usage: bench/page/make.py DIRECTORY [SEED]", file=sys.stderr)
        return 2
    directory = Path(sys.argv[1])
    draw = random.Random(int(sys.argv[2]) if len(sys.argv) == 3 else 1)
    for name, page in benchmarks(draw):
        path = directory / f"{name.replace(' ', '-')}.page"
        path.write_bytes(page)
        print(f"{path}: {len(page)} bytes")
    return 0


if __name__ == "__main__":
    sys.exit(main())
