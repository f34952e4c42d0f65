#!/usr/bin/env python3
"""Reference matching session for one stock.

    session.py [ORDER_FILE]

Reads an order file (standard input if no path is given) and prints the
session's reports, or, if the file is faulty, the two lines of its first fault.

This is a second writing of the rules, to compare another program with.
It keeps to the plainest lists and loops, because it is worth something only
as long as each rule can be checked by eye.
"""

import sys
from dataclasses import dataclass

# ---------------------------------------------------------------- order file

LONGEST_FILE = 32_768
NAMES = b"call side price size show kind user number venue"
FIELDS = NAMES.decode().split()
REPORT_NAMES = "report number user side price shares held other"
FAULT_NAMES = "cause line field layer"

# The fields that each call uses besides its own word; all others are blank.
USED = {
    "enter": ("side", "price", "size", "show", "kind", "user"),
    "replace": ("price", "size", "show", "kind", "user", "number"),
    "cut": ("size", "user", "number"),
    "cancel": ("user", "number"),
    "reply": ("size", "number"),
    "quote": ("side", "price", "size", "venue"),
    "close": (),
    "expire": (),
}

# The fields that hold words, with the words allowed; all others hold numbers.
WORDS = {"call": tuple(USED), "side": ("B", "S"), "kind": ("L", "B", "I", "S")}


class Fault(Exception):
    """The first thing wrong with an order file."""

    def __init__(self, cause, line, field, layer):
        super().__init__(cause, line, field, layer)
        self.text = f"{cause} {line} {field} {layer}"


def read_file(data):
    """The calls of an order file, each a dictionary of its used fields."""
    if len(data) > LONGEST_FILE:
        raise Fault(46, 0, 0, "file")
    lines = data.split(b"\n")
    # What stands behind the last LF is a line without its end, unless empty.
    unended = lines.pop()
    if not lines or lines[0] != NAMES:
        raise Fault(41, 1, 0, "file")
    calls = [read_line(text, line) for line, text in enumerate(lines[1:], 2)]
    # Only now: a fault in an earlier line comes before this one.
    if unended:
        raise Fault(42, len(lines) + 1, 0, "line")
    return calls


def read_line(text, line):
    # Every single space parts two fields, so a stray space makes an empty
    # field, and a CR is a byte of the field it stands in.
    texts = text.split(b" ")
    if len(texts) != len(FIELDS):
        raise Fault(42, line, 0, "line")
    values = {}
    for place, (name, field_text) in enumerate(zip(FIELDS, texts), 1):
        # The call's word comes first and tells which other fields are used.
        used = name == "call" or name in USED[values["call"]]
        cause = field_fault(name, field_text, used)
        if cause:
            raise Fault(cause, line, place, "field")
        if used:
            word = field_text.decode("ascii")
            values[name] = word if name in WORDS else int(word)
    return values


def field_fault(name, text, used):
    """The cause of this field's fault, or 0 if it is good."""
    blank = text == b"-"
    if blank == used:
        return 45
    if not used:
        return 0
    if name in WORDS:
        return 0 if text in [word.encode() for word in WORDS[name]] else 43
    if not text.isdigit():  # also if empty; bytes know the ten digits alone
        return 44
    if len(text) > 1 and text.startswith(b"0"):
        return 44
    # The length is looked at first: int() itself gives up on huge texts.
    if len(text) > 10 or int(text) > 0xFFFF_FFFF:
        return 44
    return 0


# ---------------------------------------------------------------- the session

MOST_RESTING = 256  # on one side
MOST_ROUTES = 64  # on both sides together
LARGEST_SIZE = 999_999
HIGHEST_PRICE = 2_000_000_000
OPPOSITE = {"B": "S", "S": "B"}

# Whether the session must be closed (True) or open (False) for a call.
# Replies and away quotations come at any time.
NEEDS_CLOSED = {
    "enter": False,
    "replace": False,
    "cut": False,
    "cancel": False,
    "close": False,
    "expire": True,
}


@dataclass
class RestingOrder:
    number: int
    user: int
    price: int
    displayed: int
    reserve: int
    show: int  # the most displayed at one time


@dataclass
class OrderInHand:
    number: int
    user: int
    side: str
    limit: int
    shares: int  # not yet dealt with
    show: int
    kind: str


@dataclass
class Route:
    number: int
    user: int
    side: str
    limit: int  # of the order, and not the price sent
    show: int
    price: int  # the price sent
    venue: int
    shares: int


@dataclass
class Quotation:
    venue: int
    price: int
    size: int


class Refusal(Exception):
    def __init__(self, number):
        super().__init__(number)
        self.number = number


def refuse(number, when):
    if when:
        raise Refusal(number)


def legal_price(price):
    return 1 <= price <= HIGHEST_PRICE and (price < 10_000 or price % 100 == 0)


def check_user(user):
    refuse(2, not 1 <= user <= 9_999)


def check_size(size):
    refuse(3, not 1 <= size <= LARGEST_SIZE)


def check_terms(price, size, show, kind):
    check_size(size)
    refuse(4, not legal_price(price))
    refuse(5, show != size and (show < 100 or show > size or kind in "IS"))


def better_to_deal(side, price, than):
    """Is a price better than another for an order on this side?"""
    return price < than if side == "B" else price > than


def ranks_before(side, price, than):
    """Does a price stand before another on the side it is shown on?"""
    return better_to_deal(OPPOSITE[side], price, than)


class Session:
    def __init__(self):
        self.next_number = 1  # 0 once all 32-bit numbers are used up
        self.closed = False
        self.resting = {"B": [], "S": []}  # each in rank, the first deals first
        self.quotations = {"B": {}, "S": {}}  # by venue
        self.routes = {}  # by number
        self.reports = []  # printed lines

    # ------------------------------------------------------------ the calls

    def call(self, values):
        values = dict(values)
        name = values.pop("call")
        try:
            if name in NEEDS_CLOSED:
                refuse(47, self.closed != NEEDS_CLOSED[name])
            getattr(self, name)(**values)
        except Refusal as refusal:
            self.report("no", other=refusal.number)

    def enter(self, side, price, size, show, kind, user):
        check_user(user)
        check_terms(price, size, show, kind)
        refuse(10, self.next_number == 0)
        self.accept(side, price, size, show, kind, user)

    def replace(self, price, size, show, kind, user, number):
        check_user(user)
        check_terms(price, size, show, kind)
        side, resting = self.find_resting(number, user)
        refuse(10, self.next_number == 0)
        self.remove(side, resting, 3)
        self.accept(side, price, size, show, kind, user)

    def cut(self, size, user, number):
        check_user(user)
        check_size(size)
        side, resting = self.find_resting(number, user)
        refuse(7, size >= resting.displayed + resting.reserve)
        from_reserve = min(size, resting.reserve)
        resting.reserve -= from_reserve
        resting.displayed -= size - from_reserve
        self.report_off(resting.number, resting.user, side, resting.price, size, 2)

    def cancel(self, user, number):
        check_user(user)
        side, resting = self.find_resting(number, user)
        self.remove(side, resting, 1)

    def reply(self, size, number):
        refuse(8, number not in self.routes)
        route = self.routes[number]
        refuse(9, size > route.shares)
        del self.routes[number]
        unfilled = route.shares - size
        self.report(
            "back", route.number, route.user, route.side, route.price, size,
            held=unfilled, other=route.venue,
        )
        returned = OrderInHand(
            route.number, route.user, route.side, route.limit, unfilled, route.show, "L"
        )
        if not self.closed:
            self.work(returned)
        elif unfilled > 0:
            self.take_off(returned, 4)

    def quote(self, side, price, size, venue):
        # Size 0 drops the venue's line, so its price does not matter.
        refuse(3, size > LARGEST_SIZE)
        refuse(4, size != 0 and not legal_price(price))
        refuse(11, not 1 <= venue <= 64)
        if size == 0:
            self.quotations[side].pop(venue, None)
        else:
            self.quotations[side][venue] = Quotation(venue, price, size)

    def close(self):
        self.closed = True

    def expire(self):
        side = "B" if self.resting["B"] else "S"
        refuse(13, not self.resting[side])
        self.remove(side, self.resting[side][0], 4)

    # --------------------------------------------------------- working an order

    def accept(self, side, price, size, show, kind, user):
        number = self.take_number()
        self.report("in", number, user, side, price, size)
        self.work(OrderInHand(number, user, side, price, size, show, kind))

    def work(self, order):
        while order.shares > 0:
            self.work_step(order)

    def work_step(self, order):
        """Does the first of the six rules that applies."""
        against = OPPOSITE[order.side]
        resting = self.resting[against][0] if self.resting[against] else None
        away = self.first_quotation(against)

        def within_limit(line):
            return line is not None and not better_to_deal(order.side, order.limit, line.price)

        # At equal prices the book deals before the away quotation.
        away_is_better = (
            resting is not None
            and away is not None
            and better_to_deal(order.side, away.price, resting.price)
        )
        if within_limit(resting) and (order.kind == "S" or not away_is_better):
            self.trade(order, resting)
        elif order.kind == "L" and within_limit(away):
            if len(self.routes) == MOST_ROUTES or self.next_number == 0:
                self.take_off(order, 7)
            else:
                self.send(order, away)
        elif order.kind in "IS":
            self.take_off(order, 5)
        elif order.kind == "B" and (within_limit(resting) or within_limit(away)):
            self.take_off(order, 6)
        elif len(self.resting[order.side]) == MOST_RESTING:
            self.take_off(order, 8)
        else:
            self.rest(order)

    def trade(self, order, resting):
        shares = min(order.shares, resting.displayed)
        order.shares -= shares
        resting.displayed -= shares
        self.report(
            "trade", order.number, order.user, order.side, resting.price, shares,
            other=resting.number,
        )
        if resting.displayed == 0:
            side = OPPOSITE[order.side]
            self.resting[side].remove(resting)
            if resting.reserve > 0:
                resting.displayed = min(resting.show, resting.reserve)
                resting.reserve -= resting.displayed
                self.put_in_rank(side, resting)

    def send(self, order, away):
        shares = min(order.shares, away.size)
        order.shares -= shares
        away.size -= shares
        if away.size == 0:
            del self.quotations[OPPOSITE[order.side]][away.venue]
        route = Route(
            self.take_number(), order.user, order.side, order.limit, order.show,
            away.price, away.venue, shares,
        )
        self.routes[route.number] = route
        self.report(
            "sent", route.number, route.user, route.side, route.price, shares,
            other=route.venue,
        )

    def rest(self, order):
        displayed = min(order.show, order.shares)
        resting = RestingOrder(
            order.number, order.user, order.limit, displayed, order.shares - displayed, order.show
        )
        order.shares = 0
        self.put_in_rank(order.side, resting)
        self.report(
            "rest", resting.number, resting.user, order.side, resting.price,
            resting.displayed, held=resting.reserve,
        )

    def take_off(self, order, reason):
        self.report_off(order.number, order.user, order.side, order.limit, order.shares, reason)
        order.shares = 0

    # ---------------------------------------------------------- book and board

    def take_number(self):
        number = self.next_number
        self.next_number = (number + 1) % 2**32
        return number

    def put_in_rank(self, side, resting):
        """Puts an order behind every one that it does not stand before."""
        orders = self.resting[side]
        place = 0
        while place < len(orders) and not ranks_before(side, resting.price, orders[place].price):
            place += 1
        orders.insert(place, resting)

    def find_resting(self, number, user):
        for side in ("B", "S"):
            for resting in self.resting[side]:
                if resting.number == number and resting.user == user:
                    return side, resting
        raise Refusal(6)

    def remove(self, side, resting, reason):
        self.resting[side].remove(resting)
        shares = resting.displayed + resting.reserve
        self.report_off(resting.number, resting.user, side, resting.price, shares, reason)

    def first_quotation(self, side):
        """The best-priced away quotation, the lower venue first at one price."""
        first = None
        for venue in sorted(self.quotations[side]):
            line = self.quotations[side][venue]
            if first is None or ranks_before(side, line.price, first.price):
                first = line
        return first

    # ----------------------------------------------------------------- reports

    def report_off(self, number, user, side, limit, shares, reason):
        self.report("off", number, user, side, limit, shares, other=reason)

    def report(self, kind, number="-", user="-", side="-", price="-", shares="-", held="-", other="-"):
        # A field is blank because this kind of report does not name it, and
        # never because of its value: a named 0 is printed as 0.
        self.reports.append(f"{kind} {number} {user} {side} {price} {shares} {held} {other}")


def run(data):
    """All that is printed for an order file of these bytes."""
    try:
        calls = read_file(data)  # all of it, before the first call
    except Fault as fault:
        return f"{FAULT_NAMES}\n{fault.text}\n"
    session = Session()
    for values in calls:
        session.call(values)
    return "".join(f"{line}\n" for line in [REPORT_NAMES, *session.reports])


def main():
    if len(sys.argv) > 2:
        sys.exit("usage: session.py [ORDER_FILE]")
    if len(sys.argv) == 2:
        with open(sys.argv[1], "rb") as file:
            data = file.read()
    else:
        data = sys.stdin.buffer.read()
    sys.stdout.write(run(data))


if __name__ == "__main__":
    main()
