"""Scripts for the six calls: maps with lists of calls, random and made for a purpose, chosen so that each kind of case occurs."""
from collections import Counter, namedtuple

import reference as model
from reference import CLASSES, CLOSED, EVERY_CLASS, NONE, SLOWEST, UNASKED, Areas

FAR = 2 ** 31  # no road, junction or class
NARROW = 2 ** 32  # times of 64 bits that end as others of 32 bits: an allowed one, and closed as it was before A7
POOL, STREETS, TURNS = 800, 200, 40  # random scripts to choose from, of both kinds, and how many turns each has at first


# ---- scripts: a map, the room for pairs, and turns

class Dice:
    """A linear congruential generator."""

    def __init__(self, seed):
        self.state = 2_654_435_769 * seed + 12_345
        self.below(1)

    def below(self, n):
        self.state = (6_364_136_223_846_793_005 * self.state + 1_442_695_040_888_963_407) % 2 ** 64
        return (self.state >> 33) % n

    def pick(self, *choices):
        return choices[self.below(len(choices))]


Turn = namedtuple("Turn", "call before answer header areas lent")


class Script:
    """A prepared map and the turns on it. Each turn is compared with the plain machine, and its kinds are counted, of the same case once."""

    def __init__(self, note, roads, order, spare, *calls, access=()):
        """With access, a byte for each road, the card has a third section."""
        self.made, self.access, self.calls, self.turns, self.cases = (note, roads, order, spare), access, [], [], []
        self.card = model.make_card([word for road in roads for word in road], order)
        self.card = model.with_access(self.card, access) if access else self.card
        self.chart = model.Map(self.card)
        self.records = model.kept_pairs(self.chart)
        n, m, self.room = len(order), len(roads), len(self.records) + spare
        self.prepared = model.prepare(self.card, Areas(*[[7] * k for k in (n, 2 * self.room, 2 * self.room, m, n, n, n, m, n + 1)]))
        _, self.header, self.areas = self.prepared
        self.machine, self.ended, self.kinds = model.Machine(self.chart), set(), Counter()
        self.count(map_kinds(self.chart, self.records, spare))
        for call in calls:
            self.play(*call)

    def count(self, kinds):
        for name, holds in kinds.items():
            self.kinds[name] += bool(holds)

    def play(self, kind, *rest):
        """A call; for go and stops the last two are the lengths of the two areas that it is lent."""
        self.calls.append((kind, *rest))
        if kind in ("go", "stops"):
            rest = *rest[:2], [*range(60, 60 + rest[2])], [*range(80, 80 + rest[3])]
        call, before = (kind, *rest), (self.header, self.areas)
        turn = Turn(call, before, *model.step(self.card, *before, call))
        answer, route, log = self.machine.step(call)
        assert (turn.answer, turn.lent[0][:len(route)], turn.lent[1][:len(log)]) == (answer, route, log)
        no = answer[1] if answer[0] == "no" else 0
        searches = kind in ("go", "stops") and no in (0, 15, 17)
        case = (kind, *rest[:2], self.header.target, self.areas.live) if searches else (call, before)
        if case not in self.cases:
            self.count(KINDS[kind](self, turn, no))
            self.cases.append(case)
        if kind == "set" and answer == ("ok",):
            road, time = rest
            ends = self.areas.live[road] > time == self.chart.base[road]
            self.ended = self.ended | {road} if ends else self.ended - {road}
        self.turns.append(turn)
        self.header, self.areas = turn.header, turn.areas


def shuffled(dice, items):
    items = list(items)
    for i in range(len(items) - 1):
        j = i + dice.below(len(items) - i)
        items[i], items[j] = items[j], items[i]
    return items


def random_script(seed):
    dice = Dice(seed)
    n = dice.pick(4, 5, 5, 6, 6, 6)
    times = dice.pick([1, 2, 3], [1, 2, 3, 4, 5], [1, 2, SLOWEST] if n < 6 else [2, 4, 6])
    order, roads = shuffled(dice, range(n)), []
    for _ in range(n + dice.below(n)):
        tail = dice.below(n)
        head = (tail + 1 + dice.below(n - 1)) % n
        roads += [(tail, head, dice.pick(*times)) for _ in range(1 + (dice.below(6) == 0))]
    spare = dice.pick(0, 0, 1, 2)
    return random_turns(dice, Script(f"seed {seed}", roads, order, spare, access=random_access(dice, roads)))


def random_access(dice, roads):
    """A byte for each road, or none at all; where there are some, the classes 0 to 2 are barred now and then."""
    return [dice.pick(EVERY_CLASS, EVERY_CLASS, EVERY_CLASS, 254, 253, 1, 2, 4, 248, 0) for _ in roads] if dice.below(3) == 0 else ()


def street_script(seed):
    """Two blocks of streets, most of them of the same time and both ways, where many keys tie; junctions and roads have any numbers."""
    dice = Dice(POOL + seed)
    at, roads = shuffled(dice, range(6)), []
    for a, b in ((0, 1), (1, 2), (3, 4), (4, 5), (0, 3), (1, 4), (2, 5)):
        time = dice.pick(1, 1, 1, 2)
        roads += [(at[a], at[b], time)] if dice.below(6) else []
        roads += [(at[b], at[a], time)] if dice.below(4) else []
    roads, order, spare = shuffled(dice, roads), shuffled(dice, range(6)), dice.pick(0, 1)
    return random_turns(dice, Script(f"streets {seed}", roads, order, spare, access=random_access(dice, roads)))


def random_turns(dice, script):
    script.play(*random_call(dice, script))
    script.play("aim", dice.below(script.header.n))
    for _ in range(TURNS - 2):
        script.play(*random_call(dice, script))
    return script


def random_call(dice, script):
    n, m, live, base = script.header.n, script.header.m, script.areas.live, script.chart.base
    kind = dice.pick("set", "set", "set", "aim", "est", "go", "go", "go", "go", "preview", "preview", "preview", "stops", "stops")
    junction = dice.below(n) if dice.below(20) else dice.pick(n, FAR)
    vehicle = dice.pick(0, 0, 1, 1, 2, 7) if dice.below(16) else dice.pick(CLASSES, CLASSES + 1, 255, FAR)
    if kind in ("set", "preview"):
        road = dice.pick(*[road for road in range(m) if live[road] != base[road]] or range(m), *range(m), m, FAR)
        slow = base[road] if road < m else SLOWEST
        time = dice.pick(slow, slow, slow, slow + 1, slow + 1, slow + 2, CLOSED, CLOSED, SLOWEST, slow - 1, SLOWEST + 1, UNASKED,
                         dice.pick(NARROW - 1, NARROW + slow, CLOSED - NARROW))
        if kind == "set":
            return kind, road, time
        return kind, vehicle, road, time, junction, 2 * n if dice.below(12) else dice.pick(0, n, 2 * n - 1, 2 * n + 1)
    if kind == "go":
        return kind, vehicle, junction, *[n + dice.pick(0, 0, 1, 2) - (dice.below(20) == 0) for _ in range(2)]
    if kind == "stops":
        return kind, vehicle, *random_stops(dice, n, junction)
    if kind == "aim" and script.header.target is not None and dice.below(4) == 0:
        return kind, script.header.target
    return kind, junction


def random_stops(dice, n, junction):
    """A list that ends with a junction, now and then one that is none or too few, and the lengths of the two areas."""
    stops = [dice.below(n) for _ in range(dice.pick(0, 1, 1, 1, 1, 2, 2, 2, 2, 3, 3, 4))] + [junction]
    if dice.below(3) == 0:
        stops.insert(0, stops[0])
    most = len(stops) * n
    return stops, dice.pick(most, most, most, most, most + 1, most + 2, most - 1, most - n), dice.pick(n, n, n, n, n + 1, n + 2, n - 1)


def chosen_scripts():
    """Scripts made for a purpose; then random ones, each for the kinds that are too seldom, without the turns that no kind needs."""
    made = [
        Script("one junction", [], [0], 0,
               ("go", 0, 0, 1, 1), ("aim", 1), ("aim", 0), ("est", 0), ("go", 0, 0, 1, 1), ("set", 0, 1), ("go", 0, 0, 0, 1)),
        Script("no roads, and calls before the first aim", [], [1, 0], 1,
               ("est", 0), ("est", 2), ("est", FAR), ("go", 0, 2, 2, 2), ("go", 0, FAR, 1, 1), ("go", 0, 1, 2, 1), ("go", 0, 1, 1, 3), ("aim", 2),
               ("set", 0, UNASKED), ("aim", 1), ("est", 0), ("est", 1), ("go", 0, 0, 2, 3), ("aim", 0), ("go", 0, 0, 2, 2)),
        Script("road 0, from 2 to 1, gives the time of 1, and 2 is logged before 1", [(2, 1, 1), (0, 1, 2), (0, 2, 1), (1, 3, 1)], [3, 1, 0, 2], 0,
               ("est", 0), ("go", 0, 4, 4, 4), ("go", 0, 0, 0, 0), ("est", 4), ("aim", 3), ("go", 0, 0, 4, 5), ("set", 0, 2), ("go", 0, 0, 5, 4),
               ("set", 0, 1), ("go", 0, 2, 4, 4), ("aim", 4), ("set", 4, 0)),
        Script("from 3 to 0 all keys are 3, and the larger numbers have the smaller times",
               [(3, 0, 3), (3, 1, 2), (3, 2, 1), (2, 1, 1), (2, 0, 2), (1, 0, 1)], [0, 2, 1, 3], 0,
               ("aim", 0), ("go", 0, 3, 4, 4), ("set", 5, 2), ("go", 0, 3, 4, 4), ("set", 0, CLOSED), ("go", 0, 3, 4, 5), ("set", 4, CLOSED), ("go", 0, 2, 4, 4),
               ("set", 5, CLOSED), ("go", 0, 3, 5, 4), ("stops", 0, [3, 1, 0], 12, 4), ("set", 5, 1), ("stops", 0, [3, 2, 0], 12, 4), ("aim", 1), ("go", 0, 3, 4, 4)),
        Script("two blocks of streets: from 5 to 0 keys tie, and times too",
               [(5, 3, 1), (5, 4, 1), (4, 1, 1), (3, 1, 1), (3, 2, 1), (1, 0, 1), (2, 0, 1), (4, 3, 1), (0, 5, 4)], [4, 2, 0, 1, 5, 3], 1,
               ("aim", 0), ("go", 0, 5, 6, 6), ("set", 5, CLOSED), ("go", 0, 5, 6, 6), ("set", 6, 2), ("go", 0, 4, 6, 6), ("set", 6, CLOSED), ("go", 0, 5, 6, 6),
               ("aim", 4), ("go", 0, 1, 6, 6), ("go", 0, 3, 6, 6)),
        Script("map P of document 01, and previews on it", *MAP_P, 0,
               ("preview", 0, 1, 15, 0, 8), ("aim", 3), ("go", 0, 0, 4, 4), ("preview", 0, 1, 15, 0, 8), ("preview", 0, 4, 30, 0, 8), ("set", 1, CLOSED),
               ("preview", 0, 1, 10, 0, 8), ("preview", 0, 2, CLOSED, 0, 8), ("set", 2, CLOSED), ("preview", 0, 2, 15, 0, 8), ("preview", 0, 2, CLOSED, 3, 8),
               ("preview", 0, 5, 9, 4, 7), ("preview", 0, 5, 9, 4, 8), ("preview", 0, 1, 9, 4, 8), ("preview", 0, 1, 10, 4, 8)),
        Script("previews of which one search alone asks for junction 3", [(0, 1, 1), (0, 2, 1), (2, 3, 1), (3, 1, 1)], [3, 0, 1, 2], 0,
               ("aim", 1), ("preview", 0, 3, CLOSED, 0, 8), ("preview", 0, 0, 9, 0, 8), ("set", 0, CLOSED), ("aim", 1), ("preview", 0, 0, 1, 0, 8), ("aim", 1),
               ("set", 3, CLOSED), ("preview", 0, 2, CLOSED, 0, 8), ("set", 2, CLOSED), ("aim", 1), ("preview", 0, 2, CLOSED, 0, 8), ("preview", 0, 2, 1, 0, 8),
               ("aim", 1), ("preview", 0, 2, 3, 0, 8)),
        Script("lists of stops at one junction: the most, too few, too many, and lengths", [], [0], 0,
               ("stops", 0, [0] * 32, 32, 1), ("stops", 0, [0] * 33, 33, 1), ("stops", 0, [], 0, 1), ("stops", 0, [0], 1, 1), ("stops", 0, [1], 0, 0),
               ("stops", 0, [0, 0], 2, 1), ("stops", 0, [0, 0], 1, 1), ("stops", 0, [0, 0], 2, 0), ("stops", 0, [0, 1], 1, 0), ("stops", 0, [1] * 33, 0, 0),
               ("stops", 0, [0] * 31 + [1], 32, 1)),
        Script("map P with road 1 barred to class 0 and road 3 to class 1", *MAP_P, 0,
               ("go", 8, 4, 4, 4), ("aim", 3), ("go", 0, 0, 4, 4), ("go", 1, 0, 4, 4), ("go", 8, 0, 4, 4), ("go", 255, 4, 0, 0), ("go", 0, 1, 4, 4),
               ("go", 1, 2, 4, 4), ("est", 0), ("preview", 0, 1, 60, 0, 8), ("preview", 1, 1, 60, 0, 8), ("preview", 8, 5, 9, 4, 8), ("preview", 8, 5, 9, 4, 7),
               ("stops", 0, [0, 3, 0], 12, 4), ("stops", 1, [0, 3, 0], 12, 4), ("stops", 8, [0, 3], 8, 4), ("stops", 8, [4], 0, 0), ("stops", 8, [4, 4], 0, 0),
               ("set", 2, CLOSED), ("stops", 0, [3, 0, 3], 12, 4), ("stops", 7, [3, 0, 3], 12, 4), ("go", 7, 0, 4, 4), access=[255, 254, 255, 253, 255]),
        Script("roads that one class alone may use, and one that none may", [(0, 1, 3), (0, 1, 2), (0, 1, 1), (1, 0, 1)], [0, 1], 0,
               ("aim", 1), ("est", 0), ("go", 7, 0, 2, 2), ("go", 0, 0, 2, 2), ("go", 1, 0, 2, 2), ("go", 6, 0, 2, 2), ("preview", 7, 2, 5, 0, 4),
               ("preview", 0, 1, 9, 0, 4), ("set", 2, CLOSED), ("go", 0, 0, 2, 2), access=[128, 1, 0, 255]),
        Script("lists of stops on map P", *MAP_P, 0,
               ("stops", 0, [0, 3, 0], 12, 4), ("stops", 0, [0, 0], 8, 4), ("stops", 0, [0, 3, 3, 1, 2], 20, 4), ("stops", 0, [0, 3, 0], 11, 4),
               ("stops", 0, [0, 3, 0], 12, 3), ("stops", 0, [0, 3, 4], 12, 4), ("set", 4, CLOSED), ("stops", 0, [0, 3, 0], 13, 6), ("set", 1, CLOSED),
               ("aim", 3), ("go", 0, 0, 4, 4), ("stops", 0, [0, 3, 3, 1], 17, 4), ("set", 3, CLOSED), ("stops", 0, [0, 3], 8, 4), ("stops", 0, [3, 0, 3], 12, 4)),
    ]
    pool, chosen = [*map(random_script, range(POOL)), *map(street_script, range(STREETS))], []
    while seldom := too_seldom(made + chosen):
        best = max(pool, key=lambda script: sum(min(script.kinds[kind], missing) for kind, missing in seldom.items()))
        assert any(best.kinds[kind] for kind in seldom), seldom
        chosen.append(best)
    for i in reversed(range(len(chosen))):
        rest = made + chosen[:i] + chosen[i + 1:]
        for turn in reversed(range(TURNS)):
            shorter = Script(*chosen[i].made, *chosen[i].calls[:turn], *chosen[i].calls[turn + 1:], access=chosen[i].access)
            if not too_seldom(rest + [shorter]):
                chosen[i] = shorter
        if not too_seldom(rest):
            del chosen[i]
    return made + chosen


MAP_P = [(0, 1, 10), (1, 3, 10), (0, 2, 15), (2, 3, 10), (3, 0, 20)], [1, 2, 0, 3]


# ---- kinds of maps and calls, each with whether it occurs here

# How often a kind must occur at least, by its name or its first word; others four times.
MINIMA = {"stops with 31 legs": 1, "map": 3, "map of one junction": 1, "map without roads": 2, "room": 1, "go": 5, "go that finds a route": 50, "preview": 3, "stops": 2, "stops:": 2}


def minimum(kind):
    return MINIMA.get(kind) or MINIMA.get(kind.split()[0], 4)


def counted(scripts):
    counts = Counter()
    for script in scripts:
        counts.update(script.kinds)
    return counts


def too_seldom(scripts):
    """How many are missing of each kind."""
    return {kind: minimum(kind) - count for kind, count in counted(scripts).items() if count < minimum(kind)}


def map_kinds(chart, records, spare):
    ends = [road[:2] for road in chart.roads]
    times = [(chart.order[low], chart.order[high], up) for low, high, up, _ in records]
    times += [(chart.order[high], chart.order[low], down) for low, high, _, down in records]
    return {
        "map of one junction": len(chart.order) == 1,
        "map without roads": not chart.roads,
        "map with parallel roads": len(set(ends)) < len(ends),
        "map with base times 1 and 10,000,000": {1, SLOWEST} <= set(chart.base),
        "map with roads that bar a class": set(chart.access) - {EVERY_CLASS},
        "map with a road that bars every class": 0 in chart.access,
        **listing_kinds(chart),
        "room for no pair, and none kept": not records and not spare,
        "room for just the kept pairs": records and not spare,
        "room for more pairs": spare,
        "pair with both times": any(NONE not in record for record in records),
        "pair with an up time only": any(record[3] == NONE for record in records),
        "pair with a down time only": any(record[2] == NONE for record in records),
        "pair that no road joins": any(time != NONE and (a, b) not in ends for a, b, time in times),
        "pair faster than its road": any((a, b) in ends and (a, b, time) not in chart.roads for a, b, time in times),
    }


def listing_kinds(chart):
    tails, last = [tail for tail, _, _ in chart.roads], len(chart.order) - 1
    by_head = sorted(range(len(tails)), key=lambda road: chart.roads[road][1])
    return {
        "map whose junction 0 no road leaves": tails and 0 not in tails,
        "map whose last junction no road leaves": tails and last not in tails,
        "map where no road leaves a junction between": tails and set(range(1, last)) - set(tails),
        "map with roads of one tail, others between": any(a == c != b for a, b, c in zip(tails, tails[1:], tails[2:])),
        "map whose roads by head are others": by_head != model.roads_by_tail(chart),
    }


def set_kinds(script, turn, no):
    road, time = turn.call[1:]
    base, live = (script.chart.base[road], script.areas.live[road]) if no != 10 else (0, 0)
    return {
        "set: 10": no == 10,
        "set: 10 where the time is not allowed either": no == 10 and (time == 0 or SLOWEST < time < CLOSED),
        "set: 11 below the base time": no == 11 and time < base,
        "set: 11 above 10,000,000": no == 11 and SLOWEST < time < NARROW - 1,
        "set: 11 at the mark unasked": no == 11 and time == UNASKED,
        "set: 11 at what closed was in 32 bits": no == 11 and time == NARROW - 1,
        "set: 11 at a time that ends as an allowed one": no == 11 and NARROW <= time and base <= time % NARROW <= SLOWEST,
        "set: 11 at a time that ends as closed": no == 11 and NARROW <= time < UNASKED and time % NARROW == NARROW - 1,
        "set to the base time": not no and time == base,
        "set to 10,000,000": not no and time == SLOWEST,
        "set to closed": not no and time == CLOSED,
        "set to the present time": not no and time == live,
        "set that ends a delay": not no and base == time < live < CLOSED,
        "set that opens a road": not no and time < live == CLOSED,
    }


def aim_kinds(script, turn, no):
    target, filled = script.header.target, any(time != UNASKED for time in script.areas.estimates)
    return {
        "aim: 12": no == 12,
        "aim, the first": not no and target is None,
        "aim elsewhere, estimates filled": not no and target != turn.call[1] and filled,
        "aim at the present target, estimates filled": not no and target == turn.call[1] and filled,
        "aim with a down total of two pairs": not no and set(turn.areas.down) - {0, *turn.areas.times[1::2]},
    }


def est_kinds(script, turn, no):
    before, after, junction = script.areas.estimates, turn.areas.estimates, turn.call[1]
    first = not no and before[junction] == UNASKED
    return {
        "est: 12": no == 12,
        "est: 12 where there is no target either": no == 12 and script.header.target is None,
        "est: 13": no == 13,
        "est none": first and after[junction] == NONE,
        "est of the target": first and after[junction] == 0,
        "est of a number": first and 0 < after[junction] < NONE,
        "est of 10,000,000 and more": first and SLOWEST <= after[junction] < NONE,
        "est that is filled already": not no and not first,
        "est that fills others too": first and sum(map(int.__ne__, before, after)) > 1,
        "est that leaves others unasked": first and UNASKED in after,
        "est while a road is delayed or closed": first and script.areas.live != script.chart.base,
    }


def go_kinds(script, turn, no):
    (vehicle, start), lengths, n, target = turn.call[1:3], [*map(len, turn.call[3:])], script.header.n, script.header.target
    kinds = {
        "go: 18": no == 18,
        "go: 18 of a class that is 0 modulo 8": no == 18 and vehicle % 8 == 0,
        "go: 18 where 12 would refuse too": no == 18 and start >= n,
        "go: 18 where there is no target either": no == 18 and target is None,
        "go: 12": no == 12,
        "go: 12 where there is no target either": no == 12 and target is None,
        "go: 13": no == 13,
        "go: 13 where an area is short too": no == 13 and min(lengths) < n,
        "go: 14 by the route area": no == 14 and lengths[0] < n,
        "go: 14 by the log area": no == 14 and lengths[1] < n,
    }
    if no in (0, 15):
        arcs = script.chart.open_roads(script.areas.live, vehicle)
        assert turn.lent[1][:turn.answer[2]] == model.effort(script.chart, script.areas.live, vehicle, start, target)
        times, choices = model.search(arcs, model.least_totals(script.chart.roads, target), start, target)
        kinds |= log_kinds(script, turn, arcs, times, choices, not no) | tie_kinds(script, turn, arcs, times, choices, not no)
        kinds |= {"go with areas of n entries": lengths == [n, n], "go with longer areas": min(lengths) > n}
        kinds |= class_kinds(script, turn, arcs, times, vehicle, start, target)
    if no == 0:
        kinds |= route_kinds(script, arcs, times, turn.lent[0][:turn.answer[3]])
    return kinds


def every_open(script):
    """The open roads as if they let every class in."""
    return [(*road[:2], live, i) for i, (road, live) in enumerate(zip(script.chart.roads, script.areas.live)) if live != CLOSED]


def class_kinds(script, turn, arcs, times, vehicle, start, target):
    """Where roads that bar the class show, beside a go that they would let in."""
    every, live = every_open(script), script.areas.live
    open_times = model.search(every, model.least_totals(script.chart.roads, target), start, target)[0]
    barred = {road[1] for i, road in enumerate(script.chart.roads)
              if live[i] != CLOSED and (*road[:2], live[i], i) not in arcs and road[0] in times and road[0] != target}
    return {
        "go that meets a barred road": barred,
        "go round a barred road": target in times and times[target] > open_times[target],
        "go: 15 by barred roads": target not in times and target in open_times,
        "go that leaves the head of a barred road unasked": any(turn.areas.estimates[head] == UNASKED for head in barred),
        "go of another class than 0 over a road that bars 0": any(script.chart.access[road] % 2 == 0 for road in turn.lent[0] if road < 60),
        "go of the highest class": vehicle == CLASSES - 1 and script.access,
    }


def log_kinds(script, turn, arcs, times, choices, found):
    start, target, before, after = turn.call[2], script.header.target, script.areas, turn.areas
    log, junctions = list(times), range(script.header.n)
    waiting = [{junction: time for _, time, junction in choice} for choice in choices]
    falls = {junction for early, late in zip(waiting, waiting[1:]) for junction in early if late.get(junction, NONE) < early[junction]}
    heads = {head for tail, head, *_ in arcs if tail in times and tail != target}
    closed = {road[1] for road, live in zip(script.chart.roads, before.live) if live == CLOSED and road[0] in times and road[0] != target}
    beyond = {head for tail, head, *_ in arcs if tail == target and found}
    fills = {junction for junction in junctions if before.estimates[junction] != after.estimates[junction]}
    return {
        "go: 15 with an empty log": not found and not log,
        "go: 15 with a log": not found and log,
        "go from the target": start == target,
        "go that finds a route": found and start != target,
        "go of 10,000,000 and more": found and times[target] >= SLOWEST,
        "go that meets a closed road": closed,
        "go that leaves the head of a closed road unasked": any(after.estimates[head] == UNASKED for head in closed),
        "go that leaves a head behind the target unasked": any(after.estimates[head] == UNASKED for head in beyond),
        "go that meets a junction without estimate": any(after.estimates[head] == NONE for head in heads),
        "go where open roads do not reach all": found and len(model.least_totals([(b, a, c) for a, b, c, _ in arcs], start)) < len(junctions),
        "go where the target waits": any(target in wait for wait in waiting[:-1]),
        "go where the target's time falls": target in falls,
        "go where another candidate's time falls": falls - {target},
        "go where a candidate stays unlogged": found and waiting[-1].keys() - times.keys(),
        "go that fills above the heads": fills - heads - {start},
        "go that meets estimates filled": any(before.estimates[head] != UNASKED for head in heads),
        "go that leaves estimates unasked": UNASKED in after.estimates,
        "go that clears an elapsed time": any(old != new == NONE for old, new in zip(before.elapsed, after.elapsed)),
    }


def by_number(candidate):
    """Document 01's order of candidates, before A5."""
    return candidate[0], candidate[2]


def tie_kinds(script, turn, arcs, times, choices, found):
    """Where A5's order of equal keys shows, and where document 01's, by number, would have given something else."""
    start, target, log = turn.call[2], script.header.target, list(times)
    ties = [[candidate for candidate in choice if candidate[0] == choice[0][0]] for choice in choices]
    old = model.search(arcs, model.least_totals(script.chart.roads, target), start, target, by_number)[0]
    another = found and model.route_back(arcs, old, target) != model.route_back(arcs, times, target)
    reached = {end for end, _ in model.chains(arcs, start)}
    return {
        "go with a tie of keys": any(len(tie) > 1 for tie in ties),
        "go with a tie, the smaller number later by its time": any(min(junction for _, _, junction in tie) < tie[0][2] for tie in ties),
        "go with a tie of keys and times": any(len(tie) > 1 and tie[0][1] == tie[1][1] for tie in ties),
        "go with a tie of three keys": any(len(tie) > 2 for tie in ties),
        "go where the target ties and goes last": any(target in [junction for _, _, junction in tie[1:]] for tie in ties),
        "go that by number would log fewer": len(old) < len(log),
        "go that by number would log the same in another order": found and log != list(old) and len(old) == len(log),
        "go that by number would go another way": another,
        "go: 15 that by number would log in another order": not found and log != list(old),
        "go: 15 where a junction that is reached has no estimate": not found and log and reached - times.keys(),
    }


def route_kinds(script, arcs, times, route):
    kinds, log = {"route of three roads and more": len(route) > 2}, list(times)
    for tail, head, time, road in (arc for arc in arcs if arc[3] in route):
        others = [arc for arc in arcs if arc[1] == head and arc[0] in times and arc[3] != road]
        equal = [arc for arc in others if times[arc[0]] + arc[2] == times[head]]
        assert all(arc[3] > road and log.index(arc[0]) < log.index(head) for arc in equal)
        for name, holds in {
            "route by the first of equal parallel roads": any(arc[0] == tail for arc in equal),
            "route by a later, faster parallel road": any(arc[0] == tail and arc[2] > time and arc[3] < road for arc in others),
            "route by the first road, from the larger tail": any(arc[0] < tail and arc[3] > road for arc in equal),
            "route by the first road, from the later tail": any(log.index(arc[0]) < log.index(tail) and arc[3] > road for arc in equal),
            "route over a delayed road": time > script.chart.base[road],
            "route over a road whose delay or closure ended": road in script.ended,
        }.items():
            kinds[name] = kinds.get(name) or holds
    return kinds


def preview_kinds(script, turn, no):
    (vehicle, road, time, start, work), (n, m, _, _, target) = turn.call[1:], script.header
    base, live = (script.chart.base[road], script.areas.live[road]) if road < m else (SLOWEST, CLOSED)
    kinds = {
        "preview: 18": no == 18,
        "preview: 18 where 10 or 11 would refuse too": no == 18 and model.time_refusal(script.chart.base, road, time),
        "preview: 9 where 18 would refuse too": no == 9 and vehicle >= CLASSES,
        "preview: 9 by a short work area": no == 9 and work < 2 * n,
        "preview: 9 by a long work area": no == 9 and work > 2 * n,
        "preview: 9 where 10 or 11 would refuse too": no == 9 and model.time_refusal(script.chart.base, road, time),
        "preview: 10": no == 10,
        "preview: 10 where 12 would refuse too": no == 10 and start >= n,
        "preview: 11": no == 11,
        "preview: 11 where 12 would refuse too": no == 11 and start >= n,
        "preview: 11 below the base time of a delayed road": no == 11 and time < base < live < CLOSED,
        "preview: 12": no == 12,
        "preview: 12 where there is no target either": no == 12 and target is None,
        "preview: 13": no == 13,
        "preview that finds a chain both ways": not no and turn.answer[3] is not None,
    }
    return kinds if no else kinds | outlook_kinds(script, turn, base, live)


def outlook_kinds(script, turn, base, live):
    (vehicle, road, time, start, _), (_, present, new, change) = turn.call[1:], turn.answer
    before, after, target = script.areas, turn.areas.estimates, script.header.target

    def filled(times, order=None):
        asked = model.searched(script.chart, times, vehicle, start, target, order)[2]
        estimates = model.filled(script.chart, script.header, before, asked)
        return {junction for junction, old in enumerate(before.estimates) if estimates[junction] != old}

    both = before.live, model.replaced(before.live, road, time)
    fills = [filled(times) for times in both]
    every = model.least_totals(every_open(script), target).get(start)
    return {
        "preview of a road that bars the class": script.chart.access[road] // 2 ** vehicle % 2 == 0,
        "preview round a barred road": present is not None and present > every,
        "preview of more": change and change > 0,
        "preview of less": change and change < 0,
        "preview of as much": change == 0 and time != live,
        "preview of about 10,000,000 more or less": change and abs(change) >= SLOWEST - 5,
        "preview at the present time": time == live and present is not None,
        "preview with a chain now alone": present is not None and new is None,
        "preview with a chain then alone": present is None and new is not None,
        "preview without a chain": present is None and new is None,
        "preview from the target": start == target,
        "preview that would open a road": time < live == CLOSED,
        "preview that would close a road": live < time == CLOSED,
        "preview of a time below the live one": time < live < CLOSED,
        "preview whose first search alone fills some": fills[0] - fills[1],
        "preview whose second search alone fills some": fills[1] - fills[0],
        "preview whose second search fills some, the first without a chain": present is None and fills[1] - fills[0],
        "preview whose searches both fill some": fills[0] & fills[1],
        "preview that by number would fill fewer": set().union(*fills) != set().union(*[filled(times, by_number) for times in both]),
        "preview that meets estimates filled": any(word != UNASKED for word in before.estimates),
        "preview that leaves estimates unasked": UNASKED in after,
        "preview where elapsed has times": set(before.elapsed) - {NONE},
    }


def stops_kinds(script, turn, no):
    (vehicle, stops), lengths, n, target = turn.call[1:3], [*map(len, turn.call[3:])], script.header.n, script.header.target
    outside, short = [stop for stop in stops if stop >= n], lengths[0] < len(stops) * n
    kinds = {
        "stops: 16 by too few": no == 16 and len(stops) < 2,
        "stops: 16 by too many": no == 16 and len(stops) > 32,
        "stops: 16 where 12 would refuse too": no == 16 and outside,
        "stops: 16 where 18 would refuse too": no == 16 and vehicle >= CLASSES,
        "stops: 18": no == 18,
        "stops: 18 where 12 would refuse too": no == 18 and outside,
        "stops: 12 by a stop that is not the first": no == 12 and stops[0] < n,
        "stops: 12 where an area is short too": no == 12 and (short or lengths[1] < n),
        "stops: 14 by the route area, of n entries for each leg": no == 14 and short and lengths[0] >= (len(stops) - 1) * n,
        "stops: 14 by the log area": no == 14 and not short,
    }
    return kinds | journey_kinds(script, turn, vehicle, stops, target, lengths, no) if no in (0, 17) else kinds


def journey_kinds(script, turn, vehicle, stops, target, lengths, no):
    legs, n, before = turn.answer[2] if no else len(turn.answer[1]), script.header.n, script.areas
    arcs, every, logs = script.chart.open_roads(before.live, vehicle), every_open(script), []
    for start, end in list(zip(stops, stops[1:]))[:legs + bool(no)]:
        logs.append(list(model.search(arcs, model.least_totals(script.chart.roads, end), start, end)[0]))
        assert logs[-1] == model.effort(script.chart, before.live, vehicle, start, end)
    old = list(model.search(arcs, model.least_totals(script.chart.roads, end), start, end, by_number)[0])
    roads = sum(word < 60 for word in turn.lent[0])
    return {
        "stops: 17 by barred roads": no and start in model.least_totals(every, end),
        "stops round a barred road": not no and turn.answer[2] > sum(model.least_totals(every, b)[a] for a, b in zip(stops, stops[1:])),
        "stops: 17 with the first leg": no and legs == 0,
        "stops: 17 with a leg between": no and 0 < legs < len(stops) - 2,
        "stops: 17 with the last of several": no and 0 < legs == len(stops) - 2,
        "stops: 17 with an empty log": no and not logs[-1],
        "stops: 17 with roads of the legs before": no and roads,
        "stops with one leg": not no and legs == 1,
        "stops with two legs": not no and legs == 2,
        "stops with three legs and more": not no and legs > 2,
        "stops with 31 legs": not no and legs == 31,
        "stops with three legs that have roads": not no and sum(count > 0 for _, count in turn.answer[1]) > 2,
        "stops with equal neighbours": any(a == b for a, b in zip(stops, stops[1:])),
        "stops that come again": any(a == b for i, a in enumerate(stops) for b in stops[i + 2:]),
        "stops without a target before": target is None,
        "stops whose first leg leads to the target": target == stops[1] and set(before.estimates) - {UNASKED},
        "stops whose last target is the one before": target == turn.header.target and len(stops) > 2,
        "stops whose log has more of an earlier leg behind it": any(len(log) > len(logs[-1]) for log in logs),
        "stops whose last log by number would be another": logs[-1] != old,
        "stops over a delayed road": any(turn.lent[0][i] < 60 and before.live[turn.lent[0][i]] > script.chart.base[turn.lent[0][i]]
                                         for i in range(roads)),
        "stops that leave estimates unasked": UNASKED in turn.areas.estimates,
        "stops with longer areas": lengths[0] > len(stops) * n and lengths[1] > n,
        "stops with areas just long enough": lengths == [len(stops) * n, n],
    }


KINDS = {"set": set_kinds, "aim": aim_kinds, "est": est_kinds, "go": go_kinds, "preview": preview_kinds, "stops": stops_kinds}
