#!/usr/bin/env python3
"""Scenarios that are drawn from a number, for bench/fuzz.py.

Usage: bench/drawn.py PROFILE NUMBER [VERSION] > FILE

kinds    schedulers of all kinds, and threads that come, wake, sleep, move and go
derive   guarantees that just follow from others, or just do not
settle   a busy scheduler that is moved, and so begins anew, again and again
long     as kinds or settle, but with few commands over thousands of ticks
hard     a few threads with guarantees, blocked and woken all the time
limits   as many schedulers, threads, seats, shares or levels as there may be, and more
text     a scenario in another dress, mostly with a bad line

A text is the same every time for its profile, number and version of the language.
"""
import random
import sys
from fractions import Fraction

ALL, NULL = ("ALL",), ("NULL",)

# The kinds, and how the terms of each begin.
TERMS = {"fp": "prio", "edf": "res", "sfq": "weight", "rr": "turn", "wheel": "slots", "join": "sole"}
KINDS = list(TERMS)

# What may stand in place of a word: numbers at the edges of the ranges, and words of the language and none.
NUMBERS = """0 1 2 19 20 21 31 32 100 101 1000 1001 9999 10000 10001 20000 20001 99999 100000 100001 01 -1 +1 1.0
    4294967296 18446744073709551616 1/2 2/4 1/0 0/1 3/2 1/01 1/ /2 1000000/1000001 10000000001""".split()
WORDS = """hls horizon depth at load thread end unload move wake block on to as for , cpu fp edf sfq rr wheel join prio
    res weight slots turn sole hard soft ALL NULL RESBH RESBS RESCH RESCS PSBE every burst left limit a_ _a A a-b 9
    sixteen_letters_ seventeen_letters # a#b %""".split()
BYTES = [b"\x80", b"\r", b"\0", b"\x7f", b"\t", b"#", b" ", b"x", b"0", b","]
BLANK_LINES = [b"", b" ", b"\t", b"# a note", b"#\xff", b"  # depth 3"]
ENDS = [b"\n", b"\n", b"\n", b"", b"\r\n", b"\r", b"\n\n", b" "]


def text_of(guarantee):
    return " ".join(str(part) for part in guarantee)


def rate_of(guarantee):
    """The rate and the error that follow from a guarantee, or nothing."""
    kind = guarantee[0]
    if kind == "ALL":
        return Fraction(1), Fraction(0)
    if kind == "PSBE":
        return guarantee[1:]
    if kind.startswith("RES"):
        x, y = guarantee[1:]
        return Fraction(x, y), Fraction((2 if kind.startswith("RESB") else 1) * x * (y - x), y)
    return None


def lent(kind, config, terms, have):
    """What a scheduler with this guarantee lends at these terms."""
    if terms[0] != TERMS[kind]:
        return NULL
    if kind == "fp":
        return have if terms[1] == 0 else NULL
    if kind == "edf" and have == ALL:
        return "RESBH" if terms[3] == "hard" else "RESBS", terms[1], terms[2]
    if kind == "wheel" and have == ALL:
        return "RESCH", terms[1], config[0]
    if kind == "sfq" and rate_of(have):
        (rate, error), (total, most, *quantum), weight = rate_of(have), config, terms[1]
        share, turn = Fraction(min(weight, total), total), quantum[0] if quantum else 1
        return "PSBE", rate * share, share * (error + (most - 1) * turn) + turn * (1 - share)
    if kind == "rr" and rate_of(have):
        rate, error = rate_of(have)
        return "PSBE", rate / 32, (error + 31 * config[0]) / 32
    return have if kind == "join" and have[0] in ("ALL", "RESBS", "RESCS", "PSBE") else NULL


def is_sayable(guarantee):
    """Whether a scenario may ask for it."""
    if guarantee[0].startswith("RES"):
        return 1 <= guarantee[1] <= guarantee[2] <= 20000
    if guarantee[0] == "PSBE":
        return all(part.numerator <= 10**10 and part.denominator <= 10**6 for part in guarantee[1:]) \
            and 0 < guarantee[1] <= 1 and guarantee[2] >= 0
    return True


class Scheduler:
    """What is remembered of a scheduler: the guarantee that was asked for, and the terms of those that sit on it."""

    def __init__(self, kind, config, have):
        self.kind, self.config, self.have = kind, config, have
        self.seats = {}

    def most(self):
        return self.config[1] if self.kind == "sfq" else 1 if self.kind == "join" else 32

    def has_room(self, terms):
        """Whether it would take one more, as far as is remembered."""
        taken = list(self.seats.values())
        if terms[0] != TERMS[self.kind] or len(taken) >= self.most():
            return False
        if self.kind == "fp":
            return terms not in taken
        if self.kind == "edf":
            return sum(Fraction(x, y) for _, x, y, _ in taken + [terms]) < 1
        if self.kind in ("sfq", "wheel"):
            return sum(part for _, part in taken + [terms]) <= self.config[0]
        return True


class Place:
    """A place and a guarantee, as they are asked for."""

    def __init__(self, scheduler, words, terms, guarantee):
        self.scheduler, self.terms, self.guarantee = scheduler, terms, guarantee
        self.words = f"{words} as {text_of(guarantee)}"

    def seats(self, name):
        """Remembers that this one sits there now; says whether there was room."""
        if self.scheduler is None or not self.scheduler.has_room(self.terms):
            return False
        self.scheduler.seats[name] = self.terms
        return True


class Drawing:
    """The commands of a scenario, each drawn beside what the ones before it would mostly have done."""

    version = 1

    def __init__(self, draw, depth=None, kinds=None):
        self.draw, self.depth, self.kinds = draw, depth, kinds or KINDS
        self.tick, self.items = 0, []
        self.schedulers, self.threads = {}, {}
        self.near = 0

    def one_in(self, many):
        return self.draw.randrange(many) == 0

    def say(self, command):
        self.items.append((self.tick, command))

    def config(self, kind):
        choose = self.draw.choice
        if kind == "sfq":
            turn = (choose([1, 1, 2, 3, 5, 100]),) if self.version == 2 else ()
            return choose([1, 2, 4, 5, 10, 40, 100]), choose([1, 2, 3, 5, 20]), *turn
        if kind == "rr":
            return (choose([1, 1, 2, 3, 100]),)
        return (choose([1, 2, 3, 5, 7, 10, 40, 1000]),) if kind == "wheel" else ()

    def terms(self, scheduler):
        """Terms that mostly are of the kind."""
        choose, kind, config = self.draw.choice, scheduler.kind, scheduler.config
        if self.one_in(40):
            kind, config = choose(KINDS), (4, 2)
        if kind == "fp":
            return "prio", choose([0, 0, 0, 1, 2, 3, 4, 5, 6, 7, 8, 31])
        if kind == "edf":
            period = choose([1, 2, 3, 4, 5, 7, 8, 10, 12, 20, 33, 60, 100, 9973, 10000])
            served = max(1, int(period * choose([0.05, 0.1, 0.1, 0.2, 0.3, 0.5, 1])))
            return "res", served, period, choose(["hard", "soft"])
        if kind == "sfq":
            return "weight", min(20, choose([1, 1, 2, 3, max(1, config[0] // 2), config[0]]))
        if kind == "wheel":
            return "slots", choose([1, 1, 2, max(1, config[0] // 2), config[0]])
        return (TERMS[kind],)

    def weaker(self, have, off):
        """A guarantee that follows by one conversion, but for what it is off by."""
        choose, number = self.draw.choice, self.draw.randint
        if have == ALL:
            period = choose([1, 2, 5, 10, 40])
            return choose([("RESBS", number(1, period), period), ("RESCS", number(1, period), period),
                           ("PSBE", Fraction(number(1, period), period), choose([Fraction(0), Fraction(1, 2)]))])
        if have[0] == "PSBE":
            rate, error = have[1:]
            less, period = rate * Fraction(number(1, 4), 4), number(1, 60)
            return choose([("PSBE", less, error * less / rate - Fraction(off, 100)),
                           (choose(["RESCS", "RESBS"]), int(rate * period - error) + off, period)])
        if have[0].startswith("RES"):
            kind, x, y = have
            other = {"RESBH": "RESBS", "RESCH": choose(["RESCS", "RESBH"]), "RESCS": "RESBS"}.get(kind, kind)
            rate, error = rate_of(have)
            fewer, times = number(1, x), number(1, 4)
            longer = ("RESCS", fewer, 2 * (y - x) + fewer - off) if kind.startswith("RESB") \
                else ("RESCS", times * x, times * y - off)
            return choose([(other, x, y), (kind, fewer, y), ("PSBE", rate, error), ("RESCS", x, y - off), longer,
                           ("RESCS", x, 2 * y - x - off if kind.startswith("RESB") else y)])
        return have

    def want(self, scheduler, terms):
        """A guarantee that is mostly lent there, after some conversions."""
        guarantee = lent(scheduler.kind, scheduler.config, terms, scheduler.have)
        left = 3 if self.depth is None else self.depth
        if guarantee[0] == "PSBE" and scheduler.have[0] != "PSBE":
            guarantee, left = (guarantee, left - 1) if left > 0 else (NULL, 0)
        for _ in range(min(left, self.draw.choice([0, 0, 0, 1, 1, 2, 3]))):
            next_one = self.weaker(guarantee, self.draw.choice([0, 0, 0, 0, 0, 1, -1]))
            guarantee = next_one if is_sayable(next_one) else guarantee
        return guarantee if is_sayable(guarantee) and not self.one_in(12) else self.draw.choice([NULL, NULL, ALL])

    def place(self, among=None):
        """A place on one of these schedulers, mostly one with room."""
        if not self.schedulers:
            return Place(None, "cpu", ("cpu",), ALL)
        scheduler = None
        for _ in range(8):
            name = self.draw.choice(among or list(self.schedulers)[-self.near:])
            scheduler = self.schedulers[name]
            terms = self.terms(scheduler)
            if scheduler.has_room(terms) or self.one_in(12):
                break
        return Place(scheduler, f"{name} {text_of(terms)}", terms, self.want(scheduler, terms))

    def fresh(self, letter):
        return f"{letter}{self.draw.randrange(1000) if not self.one_in(30) else 0}"

    def load(self, kind=None):
        kind = kind or self.draw.choice(self.kinds)
        if kind == "join":
            return self.load_join()
        name, config, place = self.fresh(kind[0]), self.config(kind), self.place()
        self.say(f"load {name} {' '.join([kind] + [str(part) for part in config])} on {place.words}")
        if len(self.schedulers) < 64 and (place.seats(name) or place.scheduler is None):
            self.schedulers[name] = Scheduler(kind, config, place.guarantee)

    def load_join(self):
        name, others = self.fresh("j"), list(self.schedulers)
        if len(others) >= 2:
            ports = self.draw.sample(others, min(len(others), self.draw.choice([2, 2, 3, 4])))
            places = [self.place([port]) for port in ports]
            self.say(f"load {name} join on {' , '.join(place.words for place in places)}")
            if all([place.seats(name) for place in places]):
                self.schedulers[name] = Scheduler("join", (), self.draw.choice(places).guarantee)

    def thread(self):
        name, place = self.fresh("t"), self.place()
        self.say(f"thread {name} on {place.words}")
        if place.seats(name):
            self.threads[name] = place.words

    def leave(self, name):
        """Forgets where someone sits."""
        for scheduler in self.schedulers.values():
            scheduler.seats.pop(name, None)

    def someone(self):
        everyone = list(self.threads) if not self.one_in(40) else list(self.schedulers)
        return self.draw.choice(everyone) if everyone else "nobody"

    def wake(self):
        name, burst = self.someone(), self.draw.choice([0, 0, 0, 1, 2, 3, 7, 20])
        if burst and self.version == 2 and self.one_in(2):
            self.say(f"wake {name} every {self.draw.choice([1, 2, 3, 5, 8, 13, 40])} burst {burst}")
        else:
            self.say(f"wake {name} for {burst}" if burst else f"wake {name}")

    def block(self):
        self.say(f"block {self.someone()}")

    def end(self):
        name = self.someone()
        self.say(f"end {name}")
        if self.threads.pop(name, None):
            self.leave(name)

    def again(self):
        """Ends a thread and admits it anew, in one tick."""
        name = self.someone()
        self.say(f"end {name}")
        self.say(f"thread {name} on {self.threads.get(name, 'cpu as ALL')}")
        self.say(f"wake {name}")

    def unload(self):
        empty = [name for name, scheduler in self.schedulers.items() if not scheduler.seats]
        name = self.draw.choice(empty or ["nobody"])
        self.say(f"unload {name}")
        if self.schedulers.pop(name, None):
            self.leave(name)

    def move(self):
        everyone = list(self.threads) + list(self.schedulers)
        name, place = self.draw.choice(everyone or ["nobody"]), self.place()
        self.say(f"move {name} to {place.words}")
        if name in self.threads and place.scheduler.has_room(place.terms):
            self.leave(name)
            place.seats(name)
            self.threads[name] = place.words

    def act(self, actions):
        """One of these actions, each as likely as its number says."""
        self.draw.choices(list(actions), weights=list(actions.values()))[0]()

    def go_on(self, horizon, busy, actions):
        """Some of these actions at each tick."""
        for self.tick in range(self.tick, horizon):
            while self.draw.random() < busy:
                self.act(actions)

    def text(self, horizon):
        head = [f"hls {self.version}", f"horizon {horizon}"] + ([] if self.depth is None else [f"depth {self.depth}"])
        return "\n".join(head + [f"at {tick} {command}" for tick, command in self.items]).encode() + b"\n"


def begun(draw, depth, first, schedulers, threads):
    """Schedulers of all kinds and threads, of which most wake."""
    drawing = Drawing(draw, depth)
    drawing.load(first)
    for _ in range(schedulers):
        drawing.load()
    for _ in range(threads):
        drawing.thread()
    for _ in range(threads):
        drawing.wake()
    return drawing


def of_all_kinds(draw, horizon, busy):
    depth, first = draw.choice([None, None, 0, 1, 2, 6]), draw.choice(["fp", "fp", "edf", "sfq", "wheel", "rr"])
    it = begun(draw, depth, first, draw.randint(2, 9), draw.randint(2, 14))
    it.go_on(horizon, draw.choice(busy), {
        it.wake: 10, it.block: 5, it.thread: 4, it.end: 2, it.again: 3, it.move: 5, it.load: 2, it.unload: 1})
    return it.text(horizon)


def kinds(draw):
    return of_all_kinds(draw, draw.choice([10, 20, 40, 100, 150, 400]), [0.05, 0.15, 0.4, 0.7])


def derive(draw):
    depth, first = draw.choice([None, 0, 1, 2, 3, 4, 6]), draw.choice(["fp", "edf", "sfq", "wheel", "rr"])
    it = begun(draw, depth, first, draw.randint(2, 6), 3)
    it.go_on(4, 0.95, {it.thread: 12, it.load: 3, it.end: 8, it.move: 6, it.unload: 1})
    return it.text(20)


class Settling(Drawing):
    """One busy scheduler below others that are moved."""

    def __init__(self, draw, kind):
        super().__init__(draw)
        choose = draw.choice
        queue = "40 20" if self.version == 1 else f"40 20 {choose([1, 2, 3, 7])}"
        numbers = {"sfq": f" {queue}", "rr": f" {choose([1, 2, 3, 5])}", "wheel": f" {choose([3, 5, 7])}"}.get(kind, "")
        self.busy = Scheduler(kind, (40, 20) if kind == "sfq" else (3,), NULL)
        self.movers = ["s", "m"]
        self.say("load root fp on cpu as ALL")
        self.say(f"load m fp on root prio 0 as {choose(['ALL', 'NULL'])}")
        if self.one_in(3):
            self.say("load n fp on root prio 1 as NULL")
            self.say("load j join on m prio 3 as NULL , n prio 0 as NULL")
            self.movers = ["m", "n"]
        below = "j sole" if "n" in self.movers else "m prio 0"
        self.say(f"load s {kind}{numbers} on {below} as NULL")
        self.threads = {f"t{number}": "" for number in range(draw.randint(2, 6))}
        for name in self.threads:
            self.say(f"thread {name} on {self.seat()}")
            self.say(f"wake {name}")
        self.say("thread z on root prio 9 as NULL")
        self.say("wake z")

    def seat(self):
        return f"s {text_of(self.terms(self.busy))} as NULL"

    def move_above(self):
        place = self.draw.choice(["root", "root", "m"])
        self.say(f"move {self.draw.choice(self.movers)} to {place} prio {self.draw.choice([0, 2, 4, 5, 12])} as NULL")

    def move_thread(self):
        self.say(f"move {self.someone()} to {self.seat()}")

    def come_again(self):
        name = self.someone()
        self.say(f"end {name}")
        self.say(f"thread {name} on {self.seat()}")


def of_settlings(draw, horizon, busy):
    it = Settling(draw, draw.choice(["sfq", "sfq", "sfq", "edf", "edf", "rr", "wheel"]))
    it.go_on(horizon, draw.choice(busy), {
        it.move_above: 5, it.move_thread: 3, it.block: 4, it.wake: 7, it.come_again: 2})
    return it.text(horizon)


def settle(draw):
    return of_settlings(draw, draw.choice([20, 40, 80, 200]), [0.1, 0.3, 0.5])


def long(draw):
    """Few commands over many ticks."""
    horizon = draw.choice([1000, 3000, 10000])
    return draw.choice([of_all_kinds, of_settlings])(draw, horizon, [10 / horizon, 30 / horizon, 100 / horizon])


def hard(draw):
    """A few threads with guarantees, blocked and woken all the time."""
    it = Drawing(draw, draw.choice([0, 1, 2]))
    it.load(draw.choice(["edf", "edf", "edf", "wheel"]))
    for _ in range(draw.randint(1, 4)):
        it.thread()
    horizon = draw.choice([20, 40, 80, 200])
    it.go_on(horizon, draw.choice([0.3, 0.6]), {it.wake: 3, it.block: 2})
    return it.text(horizon)


def limits(draw):
    """One kind of scheduler on itself or beside itself, more often than there may be."""
    horizon, many = draw.choice([3, 10]), draw.choice([40, 80, 600])
    kind = draw.choice(["fp", "edf", "sfq", "rr", "wheel"] if many < 600 else ["rr", "rr", "fp"])
    it = Drawing(draw, kinds=[kind, kind, kind, kind, kind, draw.choice(KINDS)])
    it.fresh = lambda letter: f"{letter}{len(it.items)}"
    it.load(kind)
    it.near = draw.choice([0, 3]) if many < 600 else 0
    threads = draw.choice([1, 6])
    for _ in range(many):
        it.act({it.load: 3, it.thread: threads, it.wake: 1, it.unload: draw.choice([0, 0, 0, 1])})
    it.near = 0
    it.go_on(horizon, 0.8, {it.wake: 4, it.end: 2, it.again: 2, it.move: 6, it.thread: 2, it.load: 2, it.unload: 1})
    return it.text(horizon)


def changed_line(draw, line):
    """A line with one change."""
    words = line.split(b" ")
    at, change = draw.randrange(len(words)), draw.randrange(6)
    if change == 0:
        del words[at]
    elif change == 1:
        words.insert(at, draw.choice(WORDS + NUMBERS).encode())
    elif change == 2:
        words[at] = draw.choice(WORDS).encode()
    elif change == 3:
        numbers = [place for place, word in enumerate(words) if word[:1].isdigit()]
        words[draw.choice(numbers or [at])] = draw.choice(NUMBERS).encode()
    elif change == 4:
        words = words[:at]
    else:
        words[at] += draw.choice(BYTES)
    return b" ".join(words)


def changed_text(draw, text, changes):
    """A text with changes: to a line, or by a line that is left out, twice there, or in another place."""
    lines = text.split(b"\n")[:-1]
    for _ in range(changes):
        at, change = draw.randrange(len(lines)), draw.randrange(10)
        if change < 7 or len(lines) < 2:
            lines[at] = changed_line(draw, lines[at])
        elif change == 7:
            del lines[at]
        else:
            lines.insert(at, lines[draw.randrange(len(lines))])
    return b"\n".join(lines) + draw.choice(ENDS if changes else [b"\n"])


def dressed(draw, line):
    """The same line for a reader, in another dress."""
    spaces = [b" ", b" ", b" ", b"  ", b"\t", b" \t "]
    words = b"".join(word + draw.choice(spaces) for word in line.split(b" "))
    return draw.choice([b"", b"", b" "]) + words + draw.choice([b"", b"", b"#", b"# a note", b"#\x80 at 0"])


def text(draw):
    lines = draw.choice([kinds, derive, settle, limits])(draw).split(b"\n")[:-1][:draw.choice([4, 10, 400])]
    if draw.random() < 0.5:
        lines = [dressed(draw, line) for line in lines]
        lines.insert(draw.randrange(len(lines)), draw.choice(BLANK_LINES))
    between = draw.choice([b"\n", b"\n", b"\r\n"])
    return changed_text(draw, between.join(lines) + b"\n", draw.choice([0, 1, 1, 1, 2]))


PROFILES = {"kinds": kinds, "derive": derive, "settle": settle, "long": long, "hard": hard, "limits": limits,
            "text": text}


def drawn(profile, number, version=1):
    """The text of a profile and a number, in a version of the language."""
    Drawing.version = version
    return PROFILES[profile](random.Random(f"{profile} {number}"))


def main():
    if len(sys.argv) not in (3, 4) or sys.argv[1] not in PROFILES or not "".join(sys.argv[2:]).isdigit():
        print(__doc__.strip())
        return 2
    sys.stdout.buffer.write(drawn(sys.argv[1], *map(int, sys.argv[2:])))
    return 0


if __name__ == "__main__":
    sys.exit(main())
