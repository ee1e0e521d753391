"""Pages made from a seed: lawful ones, nearly lawful ones, and noise.

    text = page(seed, index)

answers the same bytes for the same seed and index, whatever pages were made
before.
"""

import random

from lawful import digits, draft, is_of, joined, lawful, name, places
from reckoning import FORMS, NUMBER, PAGE_BYTES, PLACES, POOLS
from wrongs import LATER, WRONGS, is_range

PAGE_LETTERS = b"0123456789,CNSTHERAG\n\r "


def pick(rng, weighted):
    """One of several things, each with its weight."""
    things, weights = zip(*weighted)
    return rng.choices(things, weights)[0]


def size(rng):
    """How many customers: mostly few, at times as many as there is room for."""
    lowest, highest = pick(
        rng,
        [
            ((1, 1), 120),
            ((2, 5), 430),
            ((6, 20), 350),
            ((21, 100), 70),
            ((101, PLACES - 1), 15),
            ((PLACES, PLACES), 15),
        ],
    )
    return rng.randint(lowest, highest)


# Lawful and nearly lawful pages


def lawful_page(rng, count):
    return joined(lawful(rng, count))


def drafted_page(rng, count):
    return joined(draft(rng, count))


def nearly_lawful(rng, count):
    """A lawful page with one thing wrong, at times with two."""
    lines = lawful(rng, count)
    for _ in range(rng.choice([1, 1, 1, 2])):
        if lines:
            pick(rng, WRONGS)(rng, lines)
    return joined(lines)


# About as long as allowed


def filled(rng, count, length):
    """A lawful page of a length, filled with grants of one unit."""
    lines = [line for line in lawful(rng, count) if not is_of(line, "GT")]
    first = lines[places(lines, "C")[0]]
    first[2] = b"x"
    grant = [b"G", first[1], b"1"]
    room = length - len(joined(lines))
    each = len(joined([grant]))
    lines.extend([grant] * (room // each))
    first[2] = b"x" * (1 + room % each)
    return joined(lines)


def swollen(rng, count, length):
    """A page of a length, with one field that takes up what is left of it."""
    lines = lawful(rng, min(count, 20))
    line = rng.choice(lines)
    at = rng.randrange(len(line))
    room = length - len(joined(lines))
    line[at] += rng.choice([b"0", b"9", b",", b"x", line[at][:1]]) * room
    return joined(lines)


def about_as_long(rng, count):
    """A page of 65,536 bytes, or of one more, with its end byte or without it."""
    way = rng.randrange(8)
    if way == 0:
        return filled(rng, count, PAGE_BYTES + 1)
    if way == 1:
        return swollen(rng, count, PAGE_BYTES + rng.randint(-1, 1))
    page = filled(rng, count, PAGE_BYTES)
    if way == 2:
        return page[:-1] + rng.choice([b"x", b"1", b"\r", b"\0"])
    if way == 3:
        return page + rng.choice([b"\n", b"x", b"\0", b"G,1,1\n"])
    if way == 4:
        return page * 20
    return page


def wrong_as_a_whole(rng, count):
    """No end byte, nothing at all, or much too long."""
    page = joined(draft(rng, count))
    odd = bytes([rng.randrange(256)])
    return rng.choice(
        [
            b"",
            b"\n",
            b"\n\n",
            b"\r\n",
            page[:-1],
            page[:-1],
            page[:-1] + b"\r",
            page[:-1] + odd,
            page + b"\0",
            page + odd,
            page[: rng.randrange(len(page))],
            page + b"\n",
            b"\n" + page,
            odd * (PAGE_BYTES + rng.randint(-1, 1)),
            page * (PAGE_BYTES // len(page) + 1),
        ]
    )


# Noise


def plausible_field(rng, letter, holds, numbers):
    """A field of a line after the customers', its figure small."""
    if not is_range(holds):
        return rng.choice(POOLS).encode()
    if letter in "GT" and holds == NUMBER and rng.random() < 0.9:
        return digits(rng.choice(numbers))
    lowest = 0 if rng.random() < 0.1 else 1
    return digits(rng.randint(lowest, 40))


def plausible_lines(rng, _):
    """Lines of plausible parts with small figures, at times in any order."""
    numbers = rng.sample(range(1, 10), rng.randint(1, 5))
    lines = [[b"H", digits(rng.randint(1, 60)), digits(rng.randint(0, 60))]]
    for number in numbers:
        loads = [digits(rng.randint(0, 12)) for _ in FORMS["C"][2:]]
        lines.append([b"C", digits(number), name(rng), *loads])
    for _ in range(rng.randint(0, 9)):
        letter = rng.choice(LATER)
        line = [letter.encode()]
        for holds in FORMS[letter]:
            line.append(plausible_field(rng, letter, holds, numbers))
        lines.append(line)
    if rng.random() < 0.15:
        rng.shuffle(lines)
    return joined(lines)


def random_bytes(rng, _):
    """Any bytes, or any of those that pages are made of."""
    letters = rng.choice([bytes(range(256)), PAGE_LETTERS])
    start = rng.choice([b"", b"", b"H,101,97\n", b"H,"])
    length = rng.choice([1, 2, 5, 40, 200, 2_000])
    end = rng.choice([b"", b"\n", b"\n"])
    return start + bytes(rng.choices(letters, k=length)) + end


def mutated_lines(rng, count):
    """A lawful page with lines left out, doubled, moved or exchanged."""
    lines = [list(line) for line in lawful(rng, count)]
    for _ in range(rng.randint(1, min(3, len(lines) - 1))):
        at, other = rng.choices(range(len(lines)), k=2)
        way = rng.randrange(5)
        if way == 0:
            del lines[at]
        elif way == 1:
            lines.insert(other, list(lines[at]))
        elif way == 2:
            lines[at], lines[other] = lines[other], lines[at]
        elif way == 3:
            lines.insert(other, lines.pop(at))
        else:
            lines[at][rng.randrange(len(lines[at]))] = rng.choice(lines[other])
    return joined(lines)


def mutated_bytes(rng, count):
    """A lawful page with bytes changed, put in or left out."""
    page = bytearray(joined(lawful(rng, count)))
    for _ in range(rng.randint(1, 3)):
        at = rng.randrange(len(page))
        way = rng.randrange(4)
        if way == 0:
            page[at] ^= 1 << rng.randrange(8)
        elif way == 1:
            page[at] = rng.choice(PAGE_LETTERS)
        elif way == 2:
            page.insert(at, rng.choice(PAGE_LETTERS))
        else:
            del page[at]
    return bytes(page)


KINDS = [
    (lawful_page, 360),
    (drafted_page, 50),
    (nearly_lawful, 390),
    (about_as_long, 20),
    (wrong_as_a_whole, 25),
    (plausible_lines, 70),
    (random_bytes, 30),
    (mutated_lines, 30),
    (mutated_bytes, 30),
]


def page(seed, index):
    """The page of this index among those of a seed."""
    rng = random.Random(f"{seed}/{index}")
    kind = pick(rng, KINDS)
    return kind(rng, size(rng))
