#!/usr/bin/env python3
"""Write a random order file for comparing two session programs.

    generate.py SEED OUTFILE [--damage] [--bytes N] [--reports FILE]

The same seed and flags always give the same file. Without --damage the file
is legal, though many of its calls are refused. With --damage a legal file is
spoiled in one or more places, or brought to an exact length at the limit.
--bytes sets the most bytes of the legal part; else the seed chooses. --reports
also writes what the reference session prints for the file.

Every line is also played into the reference session as it is written. Blind
choices would seldom name an order that still rests or a route that is still
out, and files of refusals test little; what is played shows what to name.
"""

import argparse
import random
import sys

sys.dont_write_bytecode = True  # leave no cache beside the sources
import session as reference

LONGEST = reference.LONGEST_FILE
NAMES_LINE = reference.NAMES + b"\n"
EDGES = [
    0, 1, 2, 64, 65, 99, 100, 101, 9_999, 10_000, 10_001, 10_100, 999_999, 1_000_000,
    2_000_000_000, 2_000_000_001, 2_000_000_100, 2_147_483_648, 4_294_967_200, 4_294_967_295,
]


class Full(Exception):
    """The next line would pass the bytes allowed."""


def is_number(name):
    return name not in reference.WORDS


class Day:
    """One legal order file in the making."""

    def __init__(self, rng, limit):
        self.rng = rng
        self.limit = limit
        self.session = reference.Session()
        self.lines = [NAMES_LINE]
        self.length = len(NAMES_LINE)

        # Few prices and few users, so that orders meet and queue at a price.
        start, step = rng.choice([
            (100_000, 100), (100_000, 100), (25_000, 500), (2, 1), (5_000, 3),
            (9_997, 1), (1_999_999_000, 100), (1, 1),
        ])
        rungs = rng.choice([3, 4, 6, 9])
        legal = [price for price in range(start, start + 1_000 * step, step)
                 if reference.legal_price(price)]
        self.ladder = legal[:rungs]
        # Below and above the ladder an order rests, whatever stands on it.
        self.outer = legal[rungs:rungs + 1] + [start - step] * reference.legal_price(start - step)
        self.users = rng.sample([1, 2, 5, 7, 42, 800, 9_998, 9_999], rng.randint(2, 5))
        self.venues = rng.sample(range(1, 65), rng.choice([1, 2, 4, 12, 64]))
        self.sizes = rng.choice([
            [100, 200, 300], [100, 150, 250, 400, 1_000], [1, 7, 50, 99, 100, 101, 199, 201],
            [100, 300, 5_000, 999_999], [250, 333, 450, 1_000, 1_001],
        ])
        self.reserve_share = rng.choice([0.1, 0.4, 0.9])
        self.bold_share = rng.choice([0.15, 0.3, 0.5])
        self.stray_share = rng.choice([0.0, 0.05, 0.25])
        moods = [0.2, 1, 1, 3]
        self.weights = {
            self.enter: 12 * rng.choice([1, 1, 2]),
            self.replace: 2 * rng.choice(moods),
            self.cut: 2 * rng.choice(moods),
            self.cancel: 1 * rng.choice(moods),
            self.reply: 4 * rng.choice(moods),
            self.quote: 5 * rng.choice(moods),
            self.edge: 1 * rng.choice(moods),
        }

    # ---------------------------------------------------------------- writing

    def put(self, call, **values):
        values["call"] = call
        texts = [str(values.get(name, "-")) for name in reference.FIELDS]
        line = (" ".join(texts) + "\n").encode()
        if self.length + len(line) > self.limit:
            raise Full
        self.lines.append(line)
        self.length += len(line)
        # Played back through the reader, so that what is played is what is written.
        self.session.call(reference.read_line(line[:-1], len(self.lines)))

    def pad(self, length):
        """Brings the file to exactly this length with entries of odd values."""
        self.limit = length
        least = len("enter B 0 0 0 L 0 - -\n")
        most = least + 4 * 9  # four numbers of up to ten digits
        if 0 < length - self.length < least:
            self.length -= len(self.lines.pop())  # no line is short enough for the rest
        while self.length < length:
            spare = length - self.length
            # What stays behind must have room for a line again.
            line = spare if spare <= most else self.rng.randint(least, min(most, spare - least))
            names = ["price", "size", "show", "user"]
            digits = dict.fromkeys(names, 1)
            for _ in range(line - least):
                digits[self.rng.choice([name for name in names if digits[name] < 10])] += 1
            numbers = {name: self.long_number(count) for name, count in digits.items()}
            self.put("enter", side=self.side(), kind=self.rng.choice("LBIS"), **numbers)

    def long_number(self, digits):
        if digits == 10:
            return self.rng.choice([4_294_967_295, self.rng.randint(10**9, 4_294_967_295)])
        return self.rng.randint(0 if digits == 1 else 10 ** (digits - 1), 10**digits - 1)

    def data(self):
        return b"".join(self.lines)

    # ------------------------------------------------------------ single fields

    def chance(self, share):
        return self.rng.random() < share

    def side(self):
        return self.rng.choice("BS")

    def price(self, side):
        """Mostly on the order's own half of the ladder, boldly on the other."""
        half = (len(self.ladder) + 1) // 2
        low = (side == "B") != self.chance(self.bold_share)
        if self.chance(0.1):
            return self.rng.choice(self.ladder)
        return self.rng.choice(self.ladder[:half] if low else self.ladder[-half:])

    def terms(self, side):
        size = self.rng.choice(self.sizes)
        kind = self.rng.choice("LLLLLLLBBISS")
        show = size
        if size > 100 and kind in "LB" and self.chance(self.reserve_share):
            # Not the least show for the largest sizes: one order would report ten thousand trades.
            least = 100 if size < 10_000 else 10_000
            show = self.rng.choice(
                [least, least, least + 1, min(least + 50, size), max(least, size // 2), size - 1]
            )
        return {"price": self.price(side), "size": size, "show": show, "kind": kind}

    def any_number(self):
        numbers = [0, 1, 4_294_967_295, self.session.next_number]
        numbers += list(self.session.routes)[:2]
        numbers += [piece.number for _, piece in self.pieces()[:2]]
        numbers.append(self.rng.randint(1, self.session.next_number))
        return self.rng.choice(numbers)

    def pieces(self):
        return [(side, piece) for side in "BS" for piece in self.session.resting[side]]

    def pick_piece(self):
        """A resting order, often a first one since trades go there."""
        pieces = self.pieces()
        if not pieces:
            return None
        side = self.rng.choice("BS")
        if self.session.resting[side] and self.chance(0.4):
            return side, self.session.resting[side][0]
        return self.rng.choice(pieces)

    def owner(self, piece):
        """The number and user of a resting order, or now and then others."""
        named = {"number": piece.number, "user": piece.user}
        if self.chance(self.stray_share):
            if self.chance(0.5):
                named["user"] = self.rng.choice(self.users)
            else:
                named["number"] = self.any_number()
        return named

    # ------------------------------------------------------------ single calls

    def enter(self):
        side = self.side()
        self.put("enter", side=side, user=self.rng.choice(self.users), **self.terms(side))

    def replace(self):
        picked = self.pick_piece()
        if picked is None:
            return self.enter()
        side, piece = picked
        terms = self.terms(side)
        if self.chance(0.2):  # equal terms still lose the place
            left = piece.displayed + piece.reserve
            terms = {"price": piece.price, "size": left, "show": min(piece.show, left), "kind": "L"}
        self.put("replace", **terms, **self.owner(piece))

    def cut(self):
        picked = self.pick_piece()
        if picked is None:
            return self.enter()
        piece = picked[1]
        left = piece.displayed + piece.reserve
        # Around each limit: the reserve gone, some displayed gone, all gone.
        size = self.rng.choice([
            1, piece.reserve, piece.reserve + 1, max(piece.reserve - 1, 0), left - 1, left - 1,
            left, left + 1, max(left - 100, 0), self.rng.randint(1, left), self.rng.randint(1, left),
        ])
        self.put("cut", size=size, **self.owner(piece))

    def cancel(self):
        picked = self.pick_piece()
        if picked is None:
            return self.enter()
        self.put("cancel", **self.owner(picked[1]))

    def reply(self):
        routes = self.session.routes
        if not routes:
            if self.chance(0.2):
                self.put("reply", size=self.rng.choice([0, 100]), number=self.any_number())
            else:
                self.quote()
            return
        route = self.rng.choice(list(routes.values()))
        shares = route.shares
        size = self.rng.choice([
            0, 0, 1, shares, shares, shares - 1, shares // 2, self.rng.randint(0, shares),
        ])
        number = route.number
        if self.chance(self.stray_share):
            size = self.rng.choice([shares + 1, 1_000_000, 4_294_967_295, size])
        elif self.chance(self.stray_share):
            number = self.any_number()
        self.put("reply", size=size, number=number)

    def quote(self, side=None):
        side = side or self.side()
        size = self.rng.choice([0, 1, 50, 100, 100, 200, 300, self.rng.choice(self.sizes)])
        self.put(
            "quote", side=side, price=self.price(side), size=size, venue=self.rng.choice(self.venues)
        )

    def edge(self):
        """A call with one or two fields at or past a limit."""
        call = self.rng.choice(
            ["enter", "enter", "enter", "replace", "cut", "cancel", "reply", "quote", "quote"]
        )
        side = self.side()
        values = {"side": side, "user": self.rng.choice(self.users), **self.terms(side)}
        values["venue"] = self.rng.choice(self.venues)
        values["number"] = self.any_number()
        picked = self.pick_piece()
        if picked is not None and self.chance(0.7):
            values.update(number=picked[1].number, user=picked[1].user)
        values = {name: values[name] for name in reference.USED[call]}
        for _ in range(self.rng.choice([1, 1, 2])):
            name = self.rng.choice([name for name in values if is_number(name)])
            values[name] = self.rng.choice(EDGES)
        if "show" in values and self.chance(0.3):  # shows that go with no size or no kind
            size = min(max(values["size"], 1), 999_999)
            values["show"] = self.rng.choice([0, 99, 100, size + 1, size - 1])
        self.put(call, **values)

    def close(self):
        self.put("close")

    def expire(self):
        self.put("expire")

    def late(self):
        """A call that the close has ended."""
        self.rng.choice([self.enter, self.replace, self.cut, self.cancel, self.close])()

    # ---------------------------------------------------------- parts of a day

    def mixed(self, count):
        for _ in range(count):
            action = self.rng.choices(list(self.weights), list(self.weights.values()))[0]
            action()
            if self.chance(0.005):
                self.expire()  # too early: the session is still open

    def drop_quotations(self, side):
        for venue in list(self.session.quotations[side]):
            self.put("quote", side=side, price=self.rng.choice([0, 1, 10_001]), size=0, venue=venue)

    def quiet_prices(self, side):
        """Prices at which an order on this side rests at once, if there are any."""
        other = reference.OPPOSITE[side]
        lines = self.session.resting[other][:1] + list(self.session.quotations[other].values())
        return [
            price for price in self.ladder + self.outer
            if all(reference.ranks_before(other, price, line.price) for line in lines)
        ]

    def fill_side(self):
        """Rests orders until the side is full, then presses on it."""
        # A route sent before its side filled up finds no room there on its return.
        out = [route.side for route in self.session.routes.values()]
        side = self.rng.choice(out) if out else self.side()
        self.drop_quotations(reference.OPPOSITE[side])
        prices = self.quiet_prices(side)
        while prices and len(self.session.resting[side]) < reference.MOST_RESTING:
            size = self.rng.choice([1, 5, 100, 100, 100])
            self.put(
                "enter", side=side, price=self.rng.choice(prices), size=size, show=size,
                kind=self.rng.choice("LLLB"), user=self.users[0],
            )
        for _ in range(self.rng.randint(10, 40)):
            self.rng.choice([self.enter, self.enter, self.replace, self.reply, self.reply, self.cut])()
        self.sweep()

    def open_routes(self):
        """Sends to many venues, up to the most routes and past it."""
        side = self.side()
        other = reference.OPPOSITE[side]
        goal = self.rng.choice([5, 20, 64, 64])
        price = self.ladder[-1] if side == "B" else self.ladder[0]
        while len(self.session.routes) < goal:
            for _ in range(min(goal, self.rng.choice([4, 16, 64]))):
                self.put(
                    "quote", side=other, price=self.rng.choice(self.ladder),
                    size=self.rng.choice([1, 100, 200, 350]), venue=self.rng.randint(1, 64),
                )
            size = self.rng.choice([600, 3_000, 20_000])
            show = self.rng.choice([size, 100, 150])
            self.put(
                "enter", side=side, price=price, size=size, show=show, kind="L",
                user=self.rng.choice(self.users),
            )
        for _ in range(self.rng.randint(2, 10)):
            self.rng.choice([self.quote, self.enter, self.sweep, self.reply])()

    def replies(self):
        for _ in range(self.rng.randint(3, 30)):
            self.reply()

    def sweep(self):
        """One large order through several prices, refreshing what holds reserve."""
        side = self.side()
        size = self.rng.choice([700, 1_550, 6_000, 999_999])
        self.put(
            "enter", side=side, price=self.rng.choice(self.ladder), size=size,
            show=size, kind=self.rng.choice("LLISSB"), user=self.rng.choice(self.users),
        )

    def queue_of_reserves(self):
        """Reserve orders at one price, then small trades that refresh them in turn."""
        side = self.side()
        other = reference.OPPOSITE[side]
        prices = self.quiet_prices(side) or self.ladder
        price = self.rng.choice(prices)
        for _ in range(self.rng.randint(2, 5)):
            size = self.rng.choice([201, 250, 400, 1_000])
            self.put(
                "enter", side=side, price=price, size=size,
                show=self.rng.choice([100, 100, 130, size]), kind="L",
                user=self.rng.choice(self.users),
            )
        for _ in range(self.rng.randint(3, 15)):
            size = self.rng.choice([30, 70, 100, 150, 260, 430])
            self.put(
                "enter", side=other, price=price, size=size, show=size,
                kind=self.rng.choice("LIS"), user=self.rng.choice(self.users),
            )
            if self.chance(0.3):
                self.cut()

    def after_close(self):
        """Expiries, late replies and refusals once the session has closed."""
        if self.chance(0.3):
            self.expire()
        self.close()
        for _ in range(self.rng.choice([0, 5, 40, 400])):
            if not self.pieces() and not self.session.routes:
                break  # what could still follow is refused alike each time
            self.rng.choices(
                [self.expire, self.reply, self.quote, self.late, self.edge], [8, 4, 1, 1, 0.5]
            )[0]()
        if self.chance(0.4):
            while self.pieces():
                self.expire()
            self.expire()

    def play(self):
        parts = self.rng.choice([
            [self.queue_of_reserves],
            [self.open_routes, self.replies],
            [self.open_routes, self.fill_side, self.replies],
            [self.fill_side],
            [self.queue_of_reserves, self.open_routes, self.replies, self.queue_of_reserves],
            [],
            [],
        ])
        whole, closes = self.limit, self.chance(0.6)
        try:
            # Some bytes are kept back, or long days would never reach the close.
            self.limit = whole * self.rng.choice([5, 7, 9]) // 10 if closes else whole
            self.mixed(self.rng.choice([0, 10, 60]))
            for part in parts:
                part()
                self.mixed(self.rng.choice([0, 5, 40]))
            self.mixed(self.rng.choice([0, 20, 2_000]))
        except Full:
            pass
        try:
            self.limit = whole
            if closes:
                self.after_close()
        except Full:
            pass


def legal_day(rng, limit=None):
    if limit is None:
        limit = rng.choice([400, 1_200, 3_000, 8_000, 16_000, LONGEST, LONGEST])
    day = Day(rng, min(limit, LONGEST))
    day.play()
    if day.length > LONGEST - 2_000 and rng.random() < 0.3:
        day.pad(LONGEST)
    return day


# ----------------------------------------------------------------------- damage


def first_spoilt(rng, data):
    """Where to begin: mostly behind the names, since any harm to those is the same fault."""
    return len(NAMES_LINE) if len(data) > len(NAMES_LINE) and rng.random() < 0.9 else 0


def spoil_bytes(rng, data):
    """Spoils single bytes, of whatever they are part."""
    spoilt = bytearray(data)
    for _ in range(rng.choice([1, 1, 2, 5])):
        if not spoilt:
            break
        place = rng.randrange(first_spoilt(rng, spoilt), len(spoilt))
        odd = rng.choice(b" \n\r\t-0+.BSL9\x00\xff")
        way = rng.randrange(5)
        if way == 0:
            spoilt[place] = rng.randrange(256)
        elif way == 1:
            spoilt[place] = odd
        elif way == 2:
            spoilt[place] ^= 1 << rng.randrange(8)
        elif way == 3:
            del spoilt[place]
        else:
            spoilt.insert(place, odd)
    return bytes(spoilt)


def spoil_spaces(rng, data):
    start = first_spoilt(rng, data)
    places = [place for place, byte in enumerate(data) if byte == 0x20 and place >= start]
    if not places:
        return data
    place = rng.choice(places)
    put = rng.choice([b"", b"  ", b"   ", b"\t", b"\n", b" \n", b"\n "])
    return data[:place] + put + data[place + 1:]


def spoil_line_ends(rng, data):
    ways = [
        lambda: data[:-1],
        lambda: data + rng.choice([b"\n", b" ", b" \n", b"\r", b"\x00", b"close - - - - - - - -"]),
        lambda: data.replace(b"\n", b"\r\n"),
        lambda: data.replace(b"\n", rng.choice([b"\r", b" ", b""])),
        lambda: data[:rng.randrange(len(data) + 1)],
    ]
    places = [place for place, byte in enumerate(data) if byte == 0x0A]

    def one_end():
        place = rng.choice(places)
        put = rng.choice([b"", b" ", b"\n\n", b"\r\n", b" \n", b"\n ", b"\n-\n", b" -\n"])
        return data[:place] + put + data[place + 1:]

    return rng.choice(ways + [one_end] * 3 if places else ways)()


def spoil_names(rng, data):
    rest = data.partition(b"\n")[2]
    names = reference.NAMES
    return rng.choice([
        rest,
        b"\n" + data,
        names + b" \n" + rest,
        b" " + data,
        names + b"\r\n" + rest,
        names.upper() + b"\n" + rest,
        names.replace(b"venue", b"venues") + b"\n" + rest,
        names.replace(b"size show", b"show size") + b"\n" + rest,
        names.replace(b" ", b"  ", 1) + b"\n" + rest,
        names.rpartition(b" ")[0] + b"\n" + rest,
        names + b"\n" + data,
        names + b" " + rest,
        names,
        names + b"\n",
        names[:-1] + b"\n",
        b"\xef\xbb\xbf" + data,
        b"",
        b"\n",
        b"-\n",
    ])


def spoil_fields(rng, data):
    """Spoils one to three fields, most often on one line so that the first must win."""
    lines = data.split(b"\n")
    if len(lines) < 3:
        return data
    line = rng.randrange(1, len(lines) - 1)
    for _ in range(rng.choice([1, 1, 1, 2, 3])):
        if rng.random() < 0.2:
            line = rng.randrange(1, len(lines) - 1)
        texts = lines[line].split(b" ")
        if len(texts) != len(reference.FIELDS):
            continue
        call = texts[0].decode("latin-1")
        # More can be wrong with a used field than with a blank one.
        used_names = ("call", *reference.USED.get(call, ()))
        used = rng.random() < 0.75
        name = rng.choice([name for name in reference.FIELDS if (name in used_names) == used])
        field = reference.FIELDS.index(name)
        if not used:
            put = rng.choice([b"", b"0", b"1", b"B", b"--", b"L", b"- ", b"-\r", b"00", b"venue"])
        elif not is_number(name):
            put = rng.choice([
                b"", b"-", b"b", b"s", b"X", b"BB", b"0", b"L", b"I", b"W", b"P", b"B\r", b"enter",
                b"ENTER", b"close", b"expire", b"quote", b"cancel", b"work", texts[field].lower(),
                texts[field] + texts[field], texts[field][:-1], b"\xc2\xa0", b"\x00",
            ])
        else:
            old = texts[field]
            put = rng.choice([
                b"", b"-", b"0" + old, b"00", b"01", b"-1", b"+1", b"1.0", b"1e3", b"0x10", b"B",
                b"4294967295", b"4294967296", b"4294967296", b"4294967296", b"4294967300", b"9999999999", b"10000000000",
                b"42949672950", b"18446744073709551616", b"04294967295", b"1" * 60, b"0" * 40,
                b"7" * 5_000, old + b"\r", old + b"a", b"a" + old, b"1_000", b"1,000", b"--",
                b"\xd9\xa1", b"\xb2", b"1\x00",
            ])
        texts[field] = put
        lines[line] = b" ".join(texts)
    return b"\n".join(lines)


def spoil_shape(rng, data):
    """Drops, adds or swaps whole fields or lines."""
    lines = data.split(b"\n")
    if len(lines) < 3:
        return data
    line = rng.randrange(1, len(lines) - 1)
    texts = lines[line].split(b" ")
    way = rng.randrange(6)
    if way == 0:
        del texts[rng.randrange(len(texts))]
    elif way == 1:
        texts.insert(rng.randrange(len(texts) + 1), rng.choice([b"-", b"", b"1"]))
    elif way == 2:
        one, two = rng.randrange(len(texts)), rng.randrange(len(texts))
        texts[one], texts[two] = texts[two], texts[one]
    elif way == 3:
        # An empty field beside a dropped one: nine fields still come out.
        del texts[rng.randrange(len(texts))]
        texts.insert(rng.randrange(len(texts) + 1), b"")
    elif way == 4:
        texts = rng.choice([[b""], [b"-"], [b"#", b"note"], [b""] * 9, [b"-"] * 9, [b""] * 10])
    else:
        texts = reference.NAMES.split(b" ")
    lines[line] = b" ".join(texts)
    return b"\n".join(lines)


# Fields have the most ways to be wrong, so they come up as often as all the rest.
SPOILERS = [spoil_bytes, spoil_spaces, spoil_line_ends, spoil_names, spoil_shape]
SPOILERS += [spoil_fields] * len(SPOILERS)


def damaged(rng, limit=None):
    at_limit = limit is None and rng.random() < 0.12
    day = legal_day(rng, LONGEST if at_limit else limit or rng.choice([120, 400, 1_500, 4_000]))
    if not at_limit:
        data = day.data()
        for _ in range(rng.choice([1, 1, 1, 2])):
            data = rng.choice(SPOILERS)(rng, data)
        return data
    # Exact lengths around the limit, legal but for the length or faulty besides:
    # a file too long is told so before anything else that is wrong with it.
    day.pad(LONGEST)
    data = day.data()
    extra = rng.choice([
        b"", b"", b"\n", b" ", b"x", NAMES_LINE, b"close - - - - - - - -\n", b"\n" * 40_000,
    ])
    if rng.random() < 0.4:
        spoilt = rng.choice([spoil_names, spoil_fields, spoil_shape])(rng, data)
        data = spoilt[:LONGEST] if rng.random() < 0.5 else spoilt
    if rng.random() < 0.3:
        data = data[:LONGEST - len(extra)]
    return data + extra


def main():
    parser = argparse.ArgumentParser(description=__doc__.splitlines()[0])
    parser.add_argument("seed", type=int)
    parser.add_argument("outfile")
    parser.add_argument("--damage", action="store_true", help="spoil the file")
    parser.add_argument("--bytes", type=int, help="the most bytes of the legal part")
    parser.add_argument("--reports", help="where to write what the reference prints")
    options = parser.parse_args()
    if options.bytes is not None and options.bytes < len(NAMES_LINE):
        parser.error(f"--bytes must be at least {len(NAMES_LINE)}, the names line alone")

    rng = random.Random(options.seed)
    if options.damage:
        data = damaged(rng, options.bytes)
    else:
        data = legal_day(rng, options.bytes).data()
    with open(options.outfile, "wb") as file:
        file.write(data)
    if options.reports:
        with open(options.reports, "w", encoding="ascii") as file:
            file.write(reference.run(data))


if __name__ == "__main__":
    main()
