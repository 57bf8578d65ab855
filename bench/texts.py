#!/usr/bin/env python3
"""The scenarios on which whole programs are measured.

Usage: bench/texts.py CASE > FILE      (a case of SCENARIOS below)

Each text is the same every time: what is drawn is drawn from a fixed seed.
"""
import random
import sys

HORIZON = 100000

# The longest horizon of version 2.
LONG = 1000000


def scenario(items, horizon=HORIZON, depth=None):
    """The text of these pairs of a tick and a command, in the first version that has such a horizon."""
    version = 1 if horizon <= HORIZON else 2
    head = [f"hls {version}", f"horizon {horizon}"] + ([] if depth is None else [f"depth {depth}"])
    return "\n".join(head + [f"at {tick} {command}" for tick, command in items]) + "\n"


def at_first(*commands):
    return [(0, command) for command in commands]


def early(threads, others):
    """Threads that ask for a place on one scheduler, of which 32 find one, and wakes and blocks of their names."""
    draw = random.Random(f"early {threads}")
    items = at_first("load r fp on cpu as ALL")
    for number in range(threads):
        priority = number if number < 32 else draw.randrange(32)
        items.append((0, f"thread n{number} on r prio {priority} as {'NULL' if priority else 'ALL'}"))
    for tick in sorted(draw.randrange(HORIZON) for _ in range(others)):
        among = 32 if draw.random() < 0.9 else threads
        number = draw.randrange(among)
        items.append((tick, f"{draw.choice(['wake', 'block'])} n{number}"))
    return scenario(items)


def desktop():
    """A film player, an editor and a compiler by weights, mail and an indexer by turns; a frame every 33 ticks."""
    items = at_first(
        "load root fp on cpu as ALL", "load e edf on root prio 0 as ALL", "load bg rr 10 on root prio 1 as NULL",
        "thread player on e res 4 33 hard as RESBH 4 33", "load s sfq 4 2 on e res 20 40 hard as PSBE 1/2 20",
        "thread editor on s weight 3 as PSBE 3/8 16", "thread compiler on s weight 1 as PSBE 1/8 6",
        "thread mail on bg turn as NULL", "thread index on bg turn as NULL",
        "wake editor", "wake compiler", "wake mail", "wake index")
    return scenario(items + [(tick, "wake player for 4") for tick in range(0, HORIZON, 33)])


def reservations():
    """32 hard reservations, all awake."""
    items = at_first("load e edf on cpu as ALL")
    for number in range(32):
        period = 33 + 2 * number
        items += at_first(f"thread t{number} on e res 1 {period} hard as RESBH 1 {period}", f"wake t{number}")
    return scenario(items)


def farm(top=None):
    """Eight round robins of 32 threads each, all awake, on the root or on one scheduler more."""
    items = at_first("load root rr 1 on cpu as ALL")
    items += at_first(f"load {top} rr 1 on root turn as NULL") if top else []
    threads = [[f"t{group}_{number}" for number in range(32)] for group in range(8)]
    for group, names in enumerate(threads):
        items += at_first(f"load s{group} rr 1 on {top or 'root'} turn as NULL")
        items += at_first(*(f"thread {name} on s{group} turn as NULL" for name in names))
    return items + at_first(*(f"wake {name}" for names in threads for name in names))


def one_thread(horizon=HORIZON):
    return scenario(at_first("load r fp on cpu as ALL", "thread a on r prio 0 as ALL", "wake a"), horizon)


# Where threads of the mix go, and how often each is drawn.
MIX = at_first(
    "load root fp on cpu as ALL", "load e edf on root prio 0 as ALL", "load bg rr 3 on root prio 1 as NULL",
    "load s sfq 20 8 on e res 30 100 hard as PSBE 3/10 42", "load q sfq 10 6 on s weight 5 as NULL",
    "load f fp on e res 1 5 soft as RESBS 1 5", "load w wheel 20 on root prio 2 as NULL",
    "load x rr 2 on bg turn as NULL", "load j join on e res 1 20 hard as RESBH 1 20 , bg turn as NULL")
HOMES = ["e"] * 6 + ["s", "s", "q", "f", "w", "j"] + ["bg", "x"] * 4


def mixed_place(draw):
    """A place and a guarantee."""
    home = draw.choice(HOMES)
    if home == "e":
        x, y = draw.randint(1, 4), draw.randint(40, 99)
        return f"e res {x} {y} hard as RESBH {x} {y}"
    if home == "s":
        return f"s weight {draw.randint(1, 3)} as NULL"
    if home == "w":
        return f"w slots {draw.randint(1, 3)} as NULL"
    if home == "f":
        priority, guarantee = draw.choice([(0, "RESCS 1 9"), (1, "NULL"), (2, "NULL"), (3, "NULL")])
        return f"f prio {priority} as {guarantee}"
    return f"{home} {'weight 1' if home == 'q' else 'sole' if home == 'j' else 'turn'} as NULL"


def mixed_command(draw, name, kind):
    """What is asked of a thread that is admitted, by a number below 1."""
    if kind < 0.45:
        return f"wake {name} for {draw.randint(1, 30)}"
    if kind < 0.93:
        return f"{'wake' if kind < 0.6 else 'block' if kind < 0.8 else 'end'} {name}"
    if kind < 0.98:
        return f"move {name} to {mixed_place(draw)}"
    return f"move q to s weight {draw.randint(1, 5)} as NULL" if kind < 0.99 else "move x to bg turn as NULL"


def mixed(commands=65536):
    """All kinds of schedulers and all commands but unloads: threads come, wake, sleep, move and go."""
    draw = random.Random("mixed")
    names = [f"t{number}" for number in range(40)]
    items = MIX + at_first(*[f"thread {name} on {mixed_place(draw)}" for name in names])
    items = items + at_first(*(f"wake {name}" for name in names))
    alive = set(names)
    for tick in sorted(draw.randrange(1, HORIZON) for _ in range(commands - len(items))):
        name, kind = draw.choice(names), draw.random()
        if name in alive:
            items.append((tick, mixed_command(draw, name, kind)))
            alive -= {name} if 0.8 <= kind < 0.93 else set()
        else:
            items.append((tick, f"thread {name} on {mixed_place(draw)}"))
            alive.add(name)
    return scenario(items)


def moves(count):
    """Moves of a scheduler above 256 threads, spread over the ticks."""
    step = (HORIZON - 1) // count
    return scenario(farm("top") + [(1 + step * number, "move top to root turn as NULL") for number in range(count)])


def moves_at_once(count):
    """The same moves in one tick."""
    return scenario(farm("top") + [(7, "move top to root turn as NULL")] * count, 100)


def office():
    """Six threads with work of uneven length all along, one move, and one request that finds no room."""
    draw = random.Random("office")
    items = at_first(
        "load root fp on cpu as ALL", "load real edf on root prio 0 as ALL", "load late rr 10 on root prio 1 as NULL",
        "thread player on real res 4 33 hard as RESBH 4 33", "load desk sfq 4 2 on real res 20 40 hard as PSBE 1/2 20",
        "thread editor on desk weight 3 as PSBE 3/8 16", "thread compiler on desk weight 1 as PSBE 1/8 6",
        "thread mail on late turn as NULL", "thread index on late turn as NULL",
        "thread recorder on real res 15 40 hard as RESBH 15 40", "load rest wheel 20 on root prio 5 as NULL",
        "wake compiler")
    more = [(tick, "wake player for 4") for tick in range(0, HORIZON, 33)]
    for name, work, gap in (("editor", (5, 200), (50, 700)), ("mail", (1, 400), (100, 900)),
                            ("recorder", (300, 2000), (3000, 9000))):
        tick = draw.randint(*gap)
        while tick < HORIZON:
            more.append((tick, f"wake {name} for {draw.randint(*work)}"))
            tick += draw.randint(*gap)
    more += [(12000, "wake index"), (20000, "block index"), (50000, "wake index"), (80000, "block index"),
             (60000, "move mail to rest slots 2 as NULL"), (70000, "thread big on real res 39 40 hard as RESBH 39 40")]
    return scenario(items + sorted(more))


def busy(words=20000, moved=100):
    """256 threads on nine round robins that are woken and blocked all along, some of which move."""
    draw = random.Random("busy")
    items = [item for item in farm() if not item[1].startswith("wake")]
    names = [f"t{group}_{number}" for group in range(8) for number in range(32)]
    seats = {f"s{group}": 32 for group in range(8)}
    homes = {name: "s" + name[1] for name in names}
    drawn = [("word", draw.randrange(HORIZON)) for _ in range(words)] + [("move", draw.randrange(1, HORIZON))
                                                                        for _ in range(moved)]
    for sort, tick in sorted(drawn, key=lambda one: one[1]):
        name = draw.choice(names)
        free = [home for home, taken in seats.items() if taken < 32]
        if sort == "word":
            items.append((tick, f"block {name}" if draw.random() < 0.25 else f"wake {name} for {draw.randint(1, 8)}"))
        elif free or seats[homes[name]]:
            home = draw.choice(free or [homes[name]])
            seats[homes[name]] -= 1
            seats[home] += 1
            homes[name] = home
            items.append((tick, f"move {name} to {home} turn as NULL"))
    return scenario(items)


# Eight levels with four fair queueing schedulers and a join, and where the thread x is moved to.
DEEP = at_first(
    "load a fp on cpu as ALL", "load b edf on a prio 0 as ALL", "load c sfq 4 2 on b res 20 40 hard as PSBE 1/2 20",
    "load d fp on c weight 3 as PSBE 3/8 16", "load e sfq 5 2 on d prio 0 as PSBE 3/10 20",
    "load f sfq 3 2 on e weight 4 as PSBE 6/25 100", "load g sfq 2 2 on f weight 2 as PSBE 4/25 70",
    "load h join on c weight 1 as PSBE 1/8 9 , b res 1 5 soft as RESBS 1 5", "load i fp on h sole as RESCS 1 9",
    "load l fp on g weight 1 as PSBE 1/20 100", "thread x on b res 1 10 hard as NULL", "wake x")
DEEP_PLACES = ["e weight 1", "f weight 1", "g weight 1", "i prio 0", "l prio 0", "b res 1 20 hard", "b res 2 21 soft"]


def deep_want(draw):
    """A guarantee."""
    if draw.random() < 0.4:
        period = draw.randint(20, 400)
        share = f"{draw.randint(1, max(1, period // 10))}/{period}"
        return f"PSBE {share} {draw.randint(0, 8000)}/{draw.randint(1, 20)}"
    period = draw.randint(20, 9000)
    return f"{draw.choice(['RESCS', 'RESBS'])} {draw.randint(1, max(1, period // 20))} {period}"


def requests(count):
    """Moves each of which asks for a new guarantee, which takes up to six conversions."""
    draw = random.Random("deep")
    items, place = list(DEEP), 0
    for number in range(count):
        place = (place + draw.randrange(1, len(DEEP_PLACES))) % len(DEEP_PLACES)
        tick = 1 + number * (HORIZON - 1) // count
        items.append((tick, f"move x to {DEEP_PLACES[place]} as {deep_want(draw)}"))
    return scenario(items, depth=6)


def periodic():
    """The desktop with sound, by turns of five ticks, and periodic wakes of all but two threads that are always awake."""
    return scenario(at_first(
        "load root fp on cpu as ALL", "load e edf on root prio 0 as ALL", "load bg rr 10 on root prio 1 as NULL",
        "thread player on e res 4 33 hard as RESBH 4 33", "thread sound on e res 1 10 hard as RESBH 1 10",
        "load s sfq 4 2 5 on e res 15 40 hard as PSBE 3/8 19", "thread editor on s weight 3 as PSBE 9/32 20",
        "thread compiler on s weight 1 as PSBE 3/32 10", "thread mail on bg turn as NULL",
        "thread index on bg turn as NULL", "wake player every 33 burst 4", "wake sound every 10 burst 1",
        "wake editor every 200 burst 60", "wake compiler", "wake mail every 1000 burst 20", "wake index"), LONG)


def turns():
    """20 threads of different weights, by turns of ten ticks."""
    items = at_first("load s sfq 100 20 10 on cpu as ALL")
    for number in range(20):
        items += at_first(f"thread t{number} on s weight {1 + number % 9} as NULL", f"wake t{number}")
    return scenario(items, LONG)


def wheels():
    """Four wheels with long places, two of them at a join's ports, one below it."""
    items = at_first(
        "load a wheel 1000 on cpu as ALL", "load b wheel 700 on a slots 400 as NULL",
        "load c wheel 900 on a slots 300 as NULL", "load j join on b slots 500 as NULL , c slots 600 as NULL",
        "load d wheel 50 on j sole as NULL")
    for wheel in "abcd":
        for number in range(2):
            slots = 20 if wheel == "d" else 100
            items += at_first(f"thread {wheel}{number} on {wheel} slots {slots} as NULL", f"wake {wheel}{number}")
    return scenario(items, LONG)


# The name of a case, what it is, how many ticks it has, and its text.
SCENARIOS = {
    "a1": ("1,000 admissions, 64,535 wakes and blocks", HORIZON, lambda: early(1000, 64535)),
    "a2": ("65,000 admissions, 535 wakes and blocks", HORIZON, lambda: early(65000, 535)),
    "b": ("a desktop", HORIZON, desktop),
    "b2": ("32 hard reservations", HORIZON, reservations),
    "c": ("256 threads on 9 round robins", HORIZON, lambda: scenario(farm())),
    "d": ("one thread", HORIZON, one_thread),
    "e": ("65,536 commands of all kinds", HORIZON, mixed),
    "f1": ("4,000 moves above 256 threads", HORIZON, lambda: moves(4000)),
    "f2": ("20,000 of them in one tick", 100, lambda: moves_at_once(20000)),
    "g": ("20,000 requests at depth 6", HORIZON, lambda: requests(20000)),
    "i1": ("one thread, a million ticks", LONG, lambda: one_thread(LONG)),
    "i2": ("a desktop of periodic wakes", LONG, periodic),
    "i4": ("20 threads by turns of ten ticks", LONG, turns),
    "i5": ("wheels with long places", LONG, wheels),
    "l1": ("six threads, uneven work", HORIZON, office),
    "l2": ("256 threads, 20,000 wakes and blocks, some moves", HORIZON, busy),
}


def main():
    if len(sys.argv) != 2 or sys.argv[1] not in SCENARIOS:
        sys.exit("usage: bench/texts.py " + "|".join(SCENARIOS))
    sys.stdout.write(SCENARIOS[sys.argv[1]][2]())


if __name__ == "__main__":
    main()
