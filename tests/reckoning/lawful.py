"""Lawful pages made at random.

A page is a list of lines, the header first, and a line a list of its fields,
which are bytes.
"""

from reckoning import (
    CENTS,
    FORMS,
    GRANTS,
    NAME,
    NAME_BYTES,
    PLACES,
    POOLS,
    SIDE,
    reckon,
)

NAMES = [b"Alder", b"Birch", b"Cedar", b"Lake & Sons", b"SUM", b"C", b"0", b" ", b"~"]
NAME_BYTES_ALLOWED = [byte for byte in range(32, 127) if byte != ord(",")]


# Figures, names and lines


def figure(rng, lowest, highest):
    """A figure of a range: small, large, at an edge, or any."""
    highest = max(lowest, highest)
    way = rng.randrange(8)
    if way == 0:
        return lowest
    if way == 1:
        return highest
    if way == 2:
        return min(lowest + 1, highest)
    if way == 3:
        return max(highest - 1, lowest)
    if way == 4:
        return rng.randint(lowest, highest)
    if way == 5:
        return rng.randint(lowest, min(lowest + 20, highest))
    below = 10 ** rng.randint(1, len(str(highest)))
    return min(max(rng.randrange(below), lowest), highest)


def digits(number):
    return str(number).encode("ascii")


def name(rng):
    """A lawful name."""
    way = rng.randrange(4)
    if way == 0:
        return rng.choice(NAMES)
    length = NAME_BYTES if way == 1 else rng.randint(1, NAME_BYTES)
    return bytes(rng.choice(NAME_BYTES_ALLOWED) for _ in range(length))


def is_of(line, letters):
    """Is the first field of a line one of these letters?"""
    return line[0] in [letter.encode() for letter in letters]


def places(lines, letters):
    """Where lines of these letters stand."""
    return [at for at, line in enumerate(lines) if is_of(line, letters)]


def joined(lines):
    """The bytes of a page, every line ended by byte 10."""
    return b"".join(b",".join(line) + b"\n" for line in lines)


# Customers


def loads_small(rng, highest):
    return rng.randint(0, min(highest, 60))


def loads_plain(rng, highest):
    return rng.randint(0, min(highest, 40_000))


def loads_large(rng, highest):
    return highest - rng.randrange(min(highest, 1_000))


def loads_edges(rng, highest):
    return rng.choice([0, 1, highest - 1, highest])


def loads_mixed(rng, highest):
    return figure(rng, 0, highest)


LOADS = [loads_small, loads_plain, loads_large, loads_edges, loads_mixed]


def customer(rng, number, loads):
    """A customer's line, its loads drawn in one way."""
    fields = [b"C", digits(number)]
    for holds in FORMS["C"][1:]:
        fields.append(name(rng) if holds == NAME else digits(loads(rng, holds[1])))
    # Without these most net requirements and founding weights would be 0.
    for place in (4, 7, 8):
        if rng.random() < 0.6:
            fields[place] = b"0"
    return fields


def customers(rng, count):
    """Customers' lines, in the order of their numbers or in another."""
    numbers = rng.sample(range(1, 10_000), count)
    if rng.random() < 0.3:
        numbers = rng.sample(range(1, count + 1), count)
    if rng.random() < 0.3:
        numbers.sort()
    loads = rng.choice(LOADS)
    lines = [customer(rng, number, loads) for number in numbers]
    if rng.random() < 0.25:
        # Equal loads make equal remainders.
        for line in lines[1:]:
            if rng.random() < 0.7:
                line[3:] = lines[0][3:]
    return lines


def founding_weight(line):
    """The founding weight of a customer's line."""
    measured, resources, conservation = (int(field) for field in line[3:6])
    return max(measured - resources, 0) + conservation


def header(rng, lines):
    """The header, its loads near those of the customers or anywhere."""
    needs = sum(int(line[6]) for line in lines)
    weights = sum(founding_weight(line) for line in lines)
    total = figure(rng, 1, 20_000_000)
    capability = figure(rng, 0, 20_000_000)
    if rng.random() < 0.6:
        total = min(max(weights + rng.randint(-3, 3), 1), 20_000_000)
    if rng.random() < 0.6:
        capability = min(needs * rng.randint(0, 12) // 10, 20_000_000)
    return [b"H", digits(total), digits(capability)]


# The lines after the customers'


class Later:
    """Makes lawful lines after the customers', one by one.

    A mark here is never above the true one, which may be one unit more by the
    odd units of the founding.
    """

    def __init__(self, rng, head, lines):
        self.rng = rng
        total = int(head[1])
        weights = [founding_weight(line) for line in lines]
        self.marks = {
            int(line[1]): total * weight // sum(weights)
            for line, weight in zip(lines, weights)
        }
        self.numbers = list(self.marks)
        self.grants_left = GRANTS
        self.cost_numbers = rng.sample(range(1, 10_000), PLACES)
        self.cost_room = {pool: SIDE for pool in POOLS}
        self.credit_room = {pool: SIDE for pool in POOLS}
        self.highest = rng.choice([100, 10_000, 10_000_000, CENTS[1]])

    def line(self):
        """One more lawful line, or none where there is no room for it."""
        letter = self.rng.choice("EEEERRAAGGTT")
        if letter == "G":
            return self.grant()
        if letter == "T":
            return self.transfer()
        return self.cost_line(letter)

    def cost_line(self, letter):
        first, second = self.rng.sample(POOLS, 2)
        pools = [first.encode()]
        sides = [(self.credit_room if letter == "R" else self.cost_room, first)]
        if letter == "A":
            pools.append(second.encode())
            sides.append((self.credit_room, second))
        room = min(side[pool] for side, pool in sides)
        if room == 0 or not self.cost_numbers:
            return None
        cents = figure(self.rng, 1, min(room, self.highest))
        for side, pool in sides:
            side[pool] -= cents
        return [letter.encode(), digits(self.cost_numbers.pop()), *pools, digits(cents)]

    def grant(self):
        if self.grants_left == 0:
            return None
        number = self.rng.choice(self.numbers)
        load = figure(self.rng, 1, self.grants_left)
        self.grants_left -= load
        self.marks[number] += load
        return [b"G", digits(number), digits(load)]

    def transfer(self):
        givers = [number for number in self.numbers if self.marks[number] > 0]
        if not givers or len(self.numbers) < 2:
            return None
        giver = self.rng.choice(givers)
        receiver = self.rng.choice([other for other in self.numbers if other != giver])
        load = figure(self.rng, 1, self.marks[giver])
        self.marks[giver] -= load
        self.marks[receiver] += load
        return [b"T", digits(giver), digits(receiver), digits(load)]


def vast(rng, count):
    """A page whose figures are as near the highest as a lawful page's may be."""
    lines = customers(rng, max(count, 10))
    for line in lines:
        loads = [digits(loads_large(rng, holds[1])) for holds in FORMS["C"][2:]]
        for at in (1, 4, 5):
            # Founding resources, new large loads and resources lower the others.
            loads[at] = b"0"
        loads[-1] = digits(rng.choice([0, 1_000, 2_000_000]))
        line[3:] = loads
    loads = [rng.choice([0, 1, rng.randrange(1_000_000)]) for _ in range(2)]
    head = [b"H", *(digits(20_000_000 - load) for load in loads)]
    costs = []
    for pool in POOLS:
        letter = rng.choice([b"E", b"R"])
        for _ in range(4):
            cents = digits(CENTS[1] - rng.choice([0, 1, rng.randrange(1_000)]))
            costs.append([letter, digits(len(costs) + 1), pool.encode(), cents])
    return [head, *lines, *costs]


def draft(rng, count):
    """A page that is lawful, but for costs that may have no weights."""
    if rng.random() < 0.04:
        return vast(rng, count)
    lines = customers(rng, count)
    if all(founding_weight(line) == 0 for line in lines):
        lines[0][5] = b"1"
    head = header(rng, lines)
    later = Later(rng, head, lines)
    how_many = rng.choice([0, 1, 2, 4, 8, 16]) + rng.randrange(4)
    if rng.random() < 0.01:
        how_many = rng.choice([PLACES, 1_200])
    made = [later.line() for _ in range(how_many)]
    return [head, *lines, *(line for line in made if line)]


def lawful(rng, count):
    """A page that is billed by both rules, where a few tries find one."""
    for _ in range(6):
        lines = draft(rng, count)
        page = joined(lines)
        if all(reckon(page, rule)[1] == 0 for rule in ("largest", "running")):
            break
    return lines
