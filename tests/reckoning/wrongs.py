"""One thing wrong with a lawful page.

Each function of WRONGS changes the lines of a page in place. What it does may
be lawful after all, as a grant up to the very limit is.
"""

from lawful import digits, figure, is_of, joined, name, places
from reckoning import (
    CENTS,
    FORMS,
    GRANTS,
    MOVED,
    NAME,
    NAME_BYTES,
    NUMBER,
    PLACES,
    POOL,
    POOLS,
    SECOND_POOL,
    Refused,
    read_line,
    reckon,
)

COSTS = "ERA"
LATER = "ERAGT"


# Lines of a page that may be wrong already


def is_range(holds):
    return isinstance(holds, tuple)


def is_whole(line):
    """Does the line pass the questions that look at it alone?"""
    try:
        read_line(b",".join(line))
    except Refused:
        return False
    return True


def whole(lines, letters):
    """The lines of these letters that are not wrong by themselves."""
    return [line for line in lines if is_of(line, letters) and is_whole(line)]


def founded_at(lines):
    """The place after the last customer's line, or after the header."""
    return max(places(lines, "HC"), default=-1) + 1


def later_place(rng, lines):
    """Any place after the customers' lines."""
    return rng.randint(founded_at(lines), len(lines))


def numbers(lines, letters):
    """The numbers that lines of these letters have."""
    return [line[1] for line in whole(lines, letters)]


def free(lines, letters):
    """The numbers that no line of these letters has, in rising order."""
    used = set(numbers(lines, letters))
    return [number for number in map(digits, range(1, 10_000)) if number not in used]


def plausible(rng, lines, letter):
    """A line of a letter that passes the questions that look at it alone."""
    customers = numbers(lines, "C")
    line = [letter.encode()]
    for holds in FORMS[letter]:
        if holds == NAME:
            line.append(name(rng))
        elif holds in (POOL, SECOND_POOL):
            others = [pool.encode() for pool in POOLS if pool.encode() != line[-1]]
            line.append(rng.choice(others))
        elif holds == NUMBER and letter in "GT" and customers and rng.random() < 0.9:
            line.append(rng.choice(customers))
        else:
            line.append(digits(figure(rng, *holds)))
    return line


def line_of(rng, lines, letters):
    """A line of one of these letters, at times a new one."""
    found = whole(lines, letters)
    if found and rng.random() < 0.8:
        return rng.choice(found)
    line = plausible(rng, lines, rng.choice(letters))
    late = is_of(line, LATER)
    lines.insert(later_place(rng, lines) if late else founded_at(lines), line)
    return line


def field_of(rng, lines, wanted):
    """A line, a place in it that holds what is wanted, and what that is."""
    fields = [
        (letter, at, holds)
        for letter, form in FORMS.items()
        for at, holds in enumerate(form, 1)
        if wanted(holds)
    ]
    letter, at, holds = rng.choice(fields)
    return line_of(rng, lines, letter), at, holds


# A field


def misspelled(rng, field):
    """Bytes near a figure that are none."""
    return rng.choice(
        [
            b"",
            b"0" + field,
            b"00" + field,
            b"0" * 60 + field,
            b"+" + field,
            b"-" + field,
            b"-0",
            b" " + field,
            field + b" ",
            field + b".0",
            field + b"e1",
            field + b"\r",
            field + b"\0",
            b"\t" + field,
            b"/" + field,
            field + b":",
            field[:1] + b"_" + field,
            field + bytes([rng.randrange(128, 256)]),
            b"0x1",
            "\u0663".encode(),
        ]
    )


def out_of_range(rng, lowest, highest):
    """A figure outside its range, by one or by many digits."""
    inside = rng.randint(lowest, highest)
    if lowest > 0 and rng.random() < 0.3:
        return 0
    return rng.choice(
        [
            highest + 1,
            highest * 10 + 1,
            2**40 + inside,
            2**63 + inside,
            2**64 - 1,
            2**64,
            2**64 + inside,
            3 * 2**64 + inside,
            2**128 + inside,
            10**19 + inside,
            10**20 + inside,
            (inside + 1) * 10**60,
            rng.randrange(10**59, 10**60),
            rng.randrange(10**4_000, 10**4_001),
            2**32 + inside if highest < 2**32 else 2**37 + inside,
        ]
    )


def near_an_edge(rng, lowest, highest):
    """The lowest or the highest figure of a range, or the next one outside."""
    return rng.choice([max(lowest - 1, 0), lowest, highest, highest + 1])


def no_name(rng):
    """Bytes near a name that are none."""
    start = name(rng)[: rng.randrange(NAME_BYTES)]
    end = name(rng)[: NAME_BYTES - 1 - len(start)]
    odd = rng.choice([0, 9, 13, 31, 31, 127, 127, 128, 255, rng.randrange(128, 256)])
    with_odd = start + bytes([odd]) + end
    too_long = (name(rng) * 60)[: rng.randint(25, 60)].ljust(25, b".")
    exact = too_long[: NAME_BYTES + 1]
    return rng.choice([b"", exact, too_long, with_odd, with_odd, with_odd])


def no_pool(rng):
    """Bytes near a pool's letter that are none."""
    near = [b"", b"c", b"n", b"s", b"t", b"CC", b"CN", b" C", b"N ", b"T\r", b"\0"]
    other = [b"X", b"1", b"H", b"E", b"D", b"B", "\u00c7".encode()]
    return rng.choice(near + other + [bytes([rng.randrange(128, 256)])])


def wrong_figure(rng, lines):
    line, at, _ = field_of(rng, lines, is_range)
    line[at] = misspelled(rng, line[at])


def wrong_range(rng, lines):
    line, at, holds = field_of(rng, lines, is_range)
    line[at] = digits(out_of_range(rng, *holds))


def wrong_edge(rng, lines):
    line, at, holds = field_of(rng, lines, is_range)
    line[at] = digits(near_an_edge(rng, *holds))


def wrong_name(rng, lines):
    line_of(rng, lines, "C")[2] = no_name(rng)


def wrong_pool(rng, lines):
    line, at, _ = field_of(rng, lines, lambda holds: holds in (POOL, SECOND_POOL))
    line[at] = no_pool(rng)


def wrong_second_pool(rng, lines):
    line = line_of(rng, lines, "A")
    line[3] = line[2]


def wrong_fields(rng, lines):
    """Two fields of a line, of which the first is to be told."""
    line = line_of(rng, lines, rng.choice(list(FORMS)))
    for at in rng.choices(range(1, len(line)), k=2):
        holds = FORMS[line[0].decode()][at - 1]
        way = rng.randrange(3)
        if way == 0 and is_range(holds):
            line[at] = digits(out_of_range(rng, *holds))
        elif way == 1:
            line[at] = no_name(rng)
        else:
            line[at] = misspelled(rng, line[at])


# A line


def wrong_letter(rng, lines):
    line = rng.choice(lines)
    letter = line[0]
    line[0] = rng.choice(
        [
            b"",
            letter.lower(),
            letter * 2,
            letter + b" ",
            b" " + letter,
            letter + b"\r",
            b"\xef\xbb\xbf" + letter,
            rng.choice([b"B", b"D", b"F", b"I", b"Q", b"S", b"U", b"N", b"1", b"@"]),
            bytes([rng.choice([0, 9, 31, 34, 127, 128, 200, 255])]),
        ]
    )


def wrong_blank(rng, lines):
    blank = rng.choice([[b""], [b""], [b" "], [b"\r"], [b"", b""], [b"#"]])
    lines.insert(rng.randint(0, len(lines)), blank)


def wrong_count(rng, lines):
    line = line_of(rng, lines, rng.choice(list(FORMS)))
    way = rng.randrange(6)
    if way == 0:
        line.pop()
    elif way == 1:
        del line[rng.randrange(1, len(line)) :]
    elif way == 2:
        line.append(b"")
    elif way == 3:
        line.extend([b""] * rng.randint(1, 300))
    elif way == 4:
        line.insert(rng.randint(1, len(line)), digits(figure(rng, *NUMBER)))
    else:
        line[-1] = line[-1][:1] + b"," + line[-1][1:]


def wrong_comma_in_name(rng, lines):
    line_of(rng, lines, "C")[2] = rng.choice([b"Birch, Inc.", b",", b"a,b", b'"a,b"'])


def wrong_returns(rng, lines):
    """Lines that end with bytes 13 and 10."""
    returned = lines if rng.random() < 0.5 else [rng.choice(lines)]
    for line in returned:
        line[-1] += b"\r"


# The place of a line


def wrong_header(rng, lines):
    """No header, or a second one, or one that stands too late."""
    way = rng.randrange(5)
    if way == 0:
        del lines[0]
    elif way == 1:
        lines.insert(rng.randint(1, len(lines)), list(lines[0]))
    elif way == 2:
        lines.insert(rng.randint(0, len(lines)), plausible(rng, lines, "H"))
    elif way == 3:
        lines.append(lines.pop(0))
    else:
        lines.insert(0, plausible(rng, lines, rng.choice("C" + LATER)))


def wrong_late_customer(rng, lines):
    """A customer's line after a line of another kind."""
    line_of(rng, lines, LATER)
    line = plausible(rng, lines, "C")
    if rng.random() < 0.3:
        line = list(line_of(rng, lines, "C"))
    lines.insert(rng.randint(min(founded_at(lines) + 1, len(lines)), len(lines)), line)


def wrong_order(rng, lines):
    rest = lines[1:]
    rng.shuffle(rest)
    lines[1:] = rest


# The registers


def wrong_customer_twice(rng, lines):
    line = line_of(rng, lines, "C")
    again = plausible(rng, lines, "C")
    again[1] = line[1]
    lines.insert(rng.randint(1, founded_at(lines)), again)


def wrong_cost_line_twice(rng, lines):
    line = line_of(rng, lines, COSTS)
    again = plausible(rng, lines, rng.choice(COSTS))
    again[1] = line[1]
    lines.insert(later_place(rng, lines), again)


def wrong_last(rng, lines, letters):
    """The last of 513 lines has at times a number that stands, or is left out."""
    *others, last = whole(lines, letters)
    way = rng.randrange(5)
    if way < 2:
        last[1] = rng.choice(others)[1]
    elif way == 2:
        lines[:] = [line for line in lines if line is not last]


def wrong_many_customers(rng, lines):
    """A 513th customer."""
    short = max(PLACES + 1 - len(places(lines, "C")), 0)
    for number in free(lines, "C")[:short]:
        loads = [digits(figure(rng, 0, 30_000)) for _ in FORMS["C"][2:]]
        lines.insert(founded_at(lines), [b"C", number, b"x", *loads])
    wrong_last(rng, lines, "C")


def wrong_many_cost_lines(rng, lines):
    """A 513th cost line."""
    short = max(PLACES + 1 - len(places(lines, COSTS)), 0)
    for number in free(lines, COSTS)[:short]:
        letter = rng.choice(COSTS)
        pools = [b"C", b"N"] if letter == "A" else [b"C"]
        line = [letter.encode(), number, *pools, digits(rng.randint(1, 9))]
        lines.insert(later_place(rng, lines), line)
    wrong_last(rng, lines, COSTS)


# Grants and transfers


def wrong_grant(rng, lines):
    """Grants to nobody, of nothing, and above the most in all."""
    left = max(GRANTS - sum(int(line[2]) for line in whole(lines, "G")), 0)
    number = rng.choice(numbers(lines, "C") or [b"1"])
    stranger = rng.choice(free(lines, "C"))
    number, load = rng.choice(
        [
            (stranger, 0),
            (stranger, rng.choice([1, left, left + 1, MOVED[1]])),
            (number, 0),
            (number, left),
            (number, left + 1),
            (number, left + 1),
            (number, left + 2),
            (number, GRANTS + 1),
            (number, MOVED[1]),
        ]
    )
    line = [b"G", number, digits(min(load, MOVED[1]))]
    lines.insert(rng.choice([len(lines), later_place(rng, lines)]), line)


def marks_at_the_end(lines):
    """The marks that a page comes to by largest remainder, without its costs."""
    moves = [line for line in lines if not is_of(line, COSTS)]
    listing, status = reckon(joined(moves), "largest")
    if status:
        return {}
    rows = [row.split(b",") for row in listing.split(b"\n")[:-2]]
    return {row[0]: int(row[2]) for row in rows}


def wrong_transfer(rng, lines):
    """Transfers of nothing, above the mark, from or to nobody, to oneself."""
    marks = marks_at_the_end(lines) or {b"1": 1}
    giver, receiver = rng.choices(list(marks), k=2)
    stranger = rng.choice(free(lines, "C"))
    mark = marks[giver]
    load = rng.choice([figure(rng, 1, mark), 0, mark, mark + 1, MOVED[1]])
    giver, receiver, load = rng.choice(
        [
            (giver, receiver, 0),
            (giver, receiver, mark),
            (giver, receiver, mark + 1),
            (giver, receiver, mark + 2),
            (giver, receiver, figure(rng, mark + 1, MOVED[1])),
            (giver, giver, load),
            (giver, giver, figure(rng, 1, mark)),
            (giver, stranger, load),
            (giver, stranger, figure(rng, 1, mark)),
            (stranger, receiver, load),
            (stranger, giver, 0),
            (stranger, stranger, load),
        ]
    )
    line = [b"T", giver, receiver, digits(min(load, MOVED[1]))]
    lines.insert(rng.choice([len(lines), later_place(rng, lines)]), line)


# Costs


def cost_line(rng, number, pool, is_credit, cents):
    """A line that raises the cost side or the credit side of a pool."""
    letter = rng.choice("RA" if is_credit else "EA")
    pools = [pool.encode()]
    if letter == "A":
        other = rng.choice([other for other in POOLS if other != pool])
        pools.insert(0 if is_credit else 1, other.encode())
    return [letter.encode(), number, *pools, digits(cents)]


def wrong_side(rng, lines):
    """A pool's side filled to its limit, and at times one cent further."""
    pool = rng.choice(POOLS)
    is_credit = rng.random() < 0.5
    amounts = [CENTS[1]] * 3 + [CENTS[1] - rng.choice([0, 0, 1, 1, 2])]
    amounts += rng.choice([[], [1], [1], [2], [CENTS[1]]])
    fresh = rng.sample(free(lines, COSTS), 6)
    if rng.random() < 0.3:
        # The pool's other side has something too.
        line = cost_line(rng, fresh.pop(), pool, not is_credit, rng.randint(1, 1_000))
        lines.insert(founded_at(lines), line)
    for cents in amounts:
        line = cost_line(rng, fresh.pop(), pool, is_credit, cents)
        lines.insert(later_place(rng, lines), line)
    if rng.random() < 0.2:
        # A number that stands is asked about before the sides are.
        lines.append(cost_line(rng, line[1], pool, is_credit, CENTS[1]))


def every_customer(lines, at, field):
    for line in whole(lines, "C"):
        line[at] = field


def wrong_no_weight(rng, lines):
    """A cost in a pool in which no customer has a weight."""
    pool = rng.choice(POOLS)
    if pool == "S":
        every_customer(lines, 10, b"0")
    elif pool == "N":
        every_customer(lines, 10, b"2000000")
    elif pool == "T":
        every_customer(lines, 9, b"0")
    elif rng.random() < 0.5:
        lines[0][-1] = b"0"
    else:
        every_customer(lines, 6, b"0")
    first, second = rng.sample(free(lines, COSTS), 2)
    cents = rng.choice([1, 1_000, CENTS[1]])
    is_credit = rng.random() < 0.5
    lines.append([b"R" if is_credit else b"E", first, pool.encode(), digits(cents)])
    if rng.random() < 0.3:
        # With this line the cost of the pool is as it was.
        lines.append([b"E" if is_credit else b"R", second, *lines[-1][2:]])


def wrong_founding(rng, lines):
    """No customer has a founding weight, or there is no customer."""
    way = rng.randrange(4)
    if way == 0:
        lines[:] = [line for line in lines if not is_of(line, "C")]
    elif way == 1:
        lines[:] = lines[:1]
    else:
        every_customer(lines, 3, b"0")
        every_customer(lines, 5, b"0")
    if way == 2:
        lines[:] = [line for line in lines if not is_of(line, LATER)]
    if rng.random() < 0.4:
        # The line at which the book is founded is wrong itself.
        at = founded_at(lines)
        first = [plausible(rng, lines, rng.choice(LATER))]
        wrong = rng.choice([wrong_letter, wrong_count, wrong_range, wrong_header])
        wrong(rng, first)
        lines[at:at] = first


WRONGS = [
    (wrong_figure, 8),
    (wrong_range, 8),
    (wrong_edge, 16),
    (wrong_name, 3),
    (wrong_pool, 3),
    (wrong_second_pool, 2),
    (wrong_fields, 4),
    (wrong_letter, 3),
    (wrong_blank, 1),
    (wrong_count, 3),
    (wrong_comma_in_name, 1),
    (wrong_returns, 2),
    (wrong_header, 3),
    (wrong_late_customer, 3),
    (wrong_order, 1),
    (wrong_customer_twice, 3),
    (wrong_cost_line_twice, 3),
    (wrong_many_customers, 2),
    (wrong_many_cost_lines, 2),
    (wrong_grant, 6),
    (wrong_transfer, 10),
    (wrong_side, 4),
    (wrong_no_weight, 4),
    (wrong_founding, 3),
]
