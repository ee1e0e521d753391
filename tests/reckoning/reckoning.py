"""What a page program has to print, reckoned a second time.

    output, status = reckon(page, rule)

takes the bytes of a page and a rule, 'largest' or 'running', to the exact
bytes on standard output and the exit status. It follows docs/lines.md,
docs/rules.md and docs/pages.md, and shares nothing with the programs. Every
figure is a Python integer, which has no highest value.
"""

import sys
from dataclasses import dataclass

# A figure may have as many digits as a page has bytes.
sys.set_int_max_str_digits(0)

PAGE_BYTES = 65_536
PLACES = 512
NAME_BYTES = 24
GRANTS = 50_000
MARK = 20_050_000
SIDE = 400_000_000_000
HIGHEST_PRODUCT = 2**63 - 1

POOLS = "CNST"

# What a field holds: a name, a pool, or a figure from lowest to highest.
NAME = "name"
POOL = "pool"
SECOND_POOL = "second pool"
NUMBER = (1, 9_999)
LOAD = (0, 2_000_000)
CONSERVATION = (0, 500_000)
ELECTED = (0, 30_000)
MOVED = (0, 20_050_000)
CENTS = (1, 100_000_000_000)

# The fields of a line after its letter, from field 2 on.
FORMS = {
    "H": [(1, 20_000_000), (0, 20_000_000)],
    "C": [NUMBER, NAME, LOAD, LOAD, CONSERVATION, LOAD, LOAD, LOAD, ELECTED, LOAD],
    "E": [NUMBER, POOL, CENTS],
    "R": [NUMBER, POOL, CENTS],
    "A": [NUMBER, POOL, SECOND_POOL, CENTS],
    "G": [NUMBER, MOVED],
    "T": [NUMBER, NUMBER, MOVED],
}


class Refused(Exception):
    """A question that was answered with no: its layer, field and number."""

    def __init__(self, layer, field, number):
        super().__init__(layer, field, number)
        self.layer = layer
        self.field = field
        self.number = number


# Reading a line


def ask_line(answer, field, number):
    """Put one question about a line."""
    if not answer:
        raise Refused("line", field, number)


def is_figure(field):
    """Digits only, at least one, with no leading 0 unless it is 0."""
    if not field or any(byte not in b"0123456789" for byte in field):
        return False
    return field == b"0" or field[0] != ord("0")


def is_name(field):
    """1 to 24 bytes from 32 to 126, without the comma."""
    if not 1 <= len(field) <= NAME_BYTES:
        return False
    return all(32 <= byte <= 126 and byte != ord(",") for byte in field)


def is_pool(field):
    """The letter of a pool."""
    return field in (b"C", b"N", b"S", b"T")


def read_field(place, holds, field, before):
    """What a field holds; before is what the field before it holds."""
    if holds == NAME:
        ask_line(is_name(field), place, 7)
        return field.decode("ascii")
    if holds in (POOL, SECOND_POOL):
        ask_line(is_pool(field), place, 8)
        pool = field.decode("ascii")
        ask_line(holds == POOL or pool != before, place, 8)
        return pool
    lowest, highest = holds
    ask_line(is_figure(field), place, 5)
    figure = int(field)
    ask_line(lowest <= figure <= highest, place, 6)
    return figure


def read_line(line):
    """The letter of a line, and what its fields hold from field 2 on."""
    first, *fields = line.split(b",")
    ask_line(first in [letter.encode() for letter in FORMS], 0, 3)
    letter = first.decode("ascii")
    ask_line(len(fields) == len(FORMS[letter]), 0, 4)
    held = []
    for i, (holds, field) in enumerate(zip(FORMS[letter], fields)):
        before = held[-1] if held else None
        held.append(read_field(i + 2, holds, field, before))
    return letter, held


# The dividers


def largest(total, weights):
    """The whole parts, and one more for the largest remainders."""
    whole = sum(weights)
    shares = [total * weight // whole for weight in weights]
    remainders = [total * weight % whole for weight in weights]
    left = total - sum(shares)
    # Of equal remainders the earlier place comes first.
    order = sorted(range(len(weights)), key=lambda place: (-remainders[place], place))
    for place in order[:left]:
        shares[place] += 1
    return shares


def running(total, weights):
    """The whole part up to and with each weight, less that before it."""
    whole = sum(weights)
    shares = []
    up_to = before = 0
    for weight in weights:
        up_to += weight
        here = total * up_to // whole
        shares.append(here - before)
        before = here
    return shares


DIVIDERS = {"largest": largest, "running": running}


# The book and its calls


def ask(answer, number):
    """Put one question of the book."""
    if not answer:
        raise Refused("book", 0, number)


def less(figure, other):
    """A difference, and 0 where it would be negative."""
    return max(figure - other, 0)


@dataclass
class Customer:
    """A customer: the fields of its line, and what the book keeps."""

    number: int
    name: str
    measured: int
    founding_resources: int
    conservation: int
    retail: int
    new_large: int
    resources: int
    elected: int
    slice_amount: int
    mark: int = 0
    rhwm: int = 0

    def founding_weight(self):
        return less(self.measured, self.founding_resources) + self.conservation

    def net_requirement(self):
        return less(less(self.retail, self.new_large), self.resources)

    def tier_1(self):
        return min(self.rhwm, self.net_requirement())

    def above_rhwm(self):
        return self.net_requirement() - self.tier_1()

    def slice_part(self):
        return min(self.slice_amount, self.tier_1())

    def weight(self, pool):
        """The weight in a pool."""
        if pool == "C":
            return self.tier_1()
        if pool == "N":
            return self.tier_1() - self.slice_part()
        if pool == "S":
            return self.slice_part()
        return min(self.elected, self.above_rhwm())


class Book:
    """The customers, the cost lines' numbers, and the sides of the pools."""

    def __init__(self, rule):
        self.rule = rule
        self.customers = {}
        self.cost_lines = set()
        self.granted = 0
        self.cost_side = {pool: 0 for pool in POOLS}
        self.credit_side = {pool: 0 for pool in POOLS}
        self.charges = {}

    def in_order(self):
        """The customers as the register keeps them, by rising numbers."""
        return [self.customers[number] for number in sorted(self.customers)]

    def divide(self, total, weights):
        """The shares, where the divider does not refuse."""
        whole = sum(weights)
        ask(0 < whole <= HIGHEST_PRODUCT and total * whole <= HIGHEST_PRODUCT, 24)
        return DIVIDERS[self.rule](total, weights)

    def cost(self, pool):
        return self.cost_side[pool] - self.credit_side[pool]

    def enter(self, customer):
        ask(len(self.customers) < PLACES, 20)
        ask(customer.number not in self.customers, 21)
        self.customers[customer.number] = customer

    def found(self, total):
        customers = self.in_order()
        weights = [customer.founding_weight() for customer in customers]
        ask(sum(weights) > 0, 23)
        for customer, share in zip(customers, self.divide(total, weights)):
            customer.mark = share

    def grant(self, number, load):
        ask(number in self.customers, 25)
        ask(load > 0, 26)
        ask(self.granted + load <= GRANTS, 27)
        ask(self.customers[number].mark + load <= MARK, 24)
        self.granted += load
        self.customers[number].mark += load

    def transfer(self, giver, receiver, load):
        """Lift the load off the giver's mark and land it on the receiver's."""
        ask(giver in self.customers, 25)
        ask(load > 0, 26)
        ask(load <= self.customers[giver].mark, 29)
        self.customers[giver].mark -= load
        ask(receiver in self.customers, 31)
        ask(receiver != giver, 32)
        ask(self.customers[receiver].mark + load <= MARK, 24)
        self.customers[receiver].mark += load

    def post(self, number, cost_side, credit_side):
        """Enter a cost line by what it adds to the sides of the pools."""
        ask(len(self.cost_lines) < PLACES, 20)
        ask(number not in self.cost_lines, 21)
        for pool, cents in cost_side.items():
            ask(self.cost_side[pool] + cents <= SIDE, 33)
        for pool, cents in credit_side.items():
            ask(self.credit_side[pool] + cents <= SIDE, 33)
        self.cost_lines.add(number)
        for pool, cents in cost_side.items():
            self.cost_side[pool] += cents
        for pool, cents in credit_side.items():
            self.credit_side[pool] += cents

    def close(self, capability):
        customers = self.in_order()
        marks = [customer.mark for customer in customers]
        for customer, share in zip(customers, self.divide(capability, marks)):
            customer.rhwm = share

    def bill(self, pool):
        """The charges of a pool, by the customers' numbers."""
        cost = self.cost(pool)
        customers = self.in_order()
        weights = [customer.weight(pool) for customer in customers]
        ask(cost == 0 or sum(weights) > 0, 37)
        if cost == 0:
            shares = [0] * len(customers)
        else:
            shares = self.divide(abs(cost), weights)
        sign = -1 if cost < 0 else 1
        self.charges[pool] = {
            customer.number: sign * share
            for customer, share in zip(customers, shares)
        }


# A page


def ask_page(answer, field, number):
    """Put one question about the page or the place of a line."""
    if not answer:
        raise Refused("page", field, number)


class Page:
    """A page on its way: the line that is done, the book, the customers."""

    def __init__(self, rule):
        self.line = 0
        self.book = Book(rule)
        self.total = None
        self.capability = None
        self.as_entered = []
        self.founded = False

    def bill(self, page):
        """Do every line from top to bottom, then close and bill."""
        ask_page(len(page) <= PAGE_BYTES, 0, 1)
        ask_page(page.endswith(b"\n"), 0, 2)
        for line in page[:-1].split(b"\n"):
            self.line += 1
            letter, held = read_line(line)
            self.ask_place(letter)
            self.do(letter, held)
        self.found()
        self.book.close(self.capability)
        for pool in POOLS:
            self.book.bill(pool)

    def ask_place(self, letter):
        """Does a line of this letter stand where it may?"""
        ask_page((letter == "H") == (self.line == 1), 1, 10)
        ask_page(letter != "C" or not self.founded, 1, 11)

    def found(self):
        """Found the book, once."""
        if not self.founded:
            self.book.found(self.total)
            self.founded = True

    def do(self, letter, held):
        """Do what a line says."""
        if letter == "H":
            self.total, self.capability = held
        elif letter == "C":
            customer = Customer(*held)
            self.book.enter(customer)
            self.as_entered.append(customer)
        else:
            self.found()
            self.move_or_post(letter, held)

    def move_or_post(self, letter, held):
        """Do a line that stands after the customers'."""
        if letter == "G":
            self.book.grant(*held)
        elif letter == "T":
            self.book.transfer(*held)
        elif letter == "E":
            number, pool, cents = held
            self.book.post(number, {pool: cents}, {})
        elif letter == "R":
            number, pool, cents = held
            self.book.post(number, {}, {pool: cents})
        else:
            number, first, second, cents = held
            self.book.post(number, {first: cents}, {second: cents})


# The listing and the row of a fault


def row(fields):
    """Fields with commas between them, ended by byte 10."""
    return (",".join(str(field) for field in fields) + "\n").encode("ascii")


def listing(book, customers):
    """A row for each customer in the order of the page, then the sums."""
    rows = []
    for customer in customers:
        charges = [book.charges[pool][customer.number] for pool in POOLS]
        figures = [customer.mark, customer.rhwm, customer.above_rhwm()]
        rows.append(row([customer.number, customer.name, *figures, *charges]))
    sums = [
        sum(customer.mark for customer in customers),
        sum(customer.rhwm for customer in customers),
        sum(customer.above_rhwm() for customer in customers),
    ]
    costs = [book.cost(pool) for pool in POOLS]
    rows.append(row([0, "SUM", *sums, *costs]))
    return b"".join(rows)


def reckon(page, rule):
    """The bytes on standard output and the status for a page."""
    doing = Page(rule)
    try:
        doing.bill(page)
    except Refused as refused:
        # What is wrong with the page as a whole comes before line 1, at line 0.
        fault = [refused.layer, doing.line, refused.field, refused.number]
        return row(["F", *fault]), 1
    return listing(doing.book, doing.as_entered), 0
