"""Document 01, with A1 to A3 and A5 to A7 of document 02, as a plain model: the card, preparing, the six calls and the machine to compare with.

It is written from the paper alone and shares nothing with the definitions of crates/model. Each least total comes from
one function, which relaxes arcs until nothing changes; candidates, fillings and routes are read off the paper's sentences.
Times are tenths of a second, and numbers without a width but for the marks (A7). A refusal is a tuple: the question's number and, after 5, 6, 15 and 17, the place, count or leg. A call is ("set", road, time),
("aim", junction), ("est", junction), ("go", class, start, route area, log area), ("preview", class, road, time, start, words of its
work area) or ("stops", class, junctions, route area, log area). A preview's totals and change are numbers, or None; a leg of a list of
stops is its total and its number of roads.
"""
import math
from collections import namedtuple

NONE = CLOSED = 18_446_744_073_709_551_615
UNASKED = NONE - 1
SLOWEST = 10_000_000
FEWEST_STOPS, MOST_STOPS = 2, 32
CLASSES, EVERY_CLASS = 8, 255

Header = namedtuple("Header", "n m pairs card target")
Areas = namedtuple("Areas", "ranks pairs times live down estimates elapsed leaving groups")
NO_HEADER = Header(0, 0, 0, 0, None)


# ---- the card

def to_words(data):
    return [int.from_bytes(data[i:i + 4], "little") for i in range(0, len(data), 4)]


def to_bytes(words):
    return b"".join(word.to_bytes(4, "little") for word in words)


def card_refusal(card):
    """Questions 1 to 6; 1 and 2 each in two halves."""
    if len(card) < 4:
        return (1,)
    count = to_words(card[:4])[0]
    if count not in (2, 3):
        return (2,)
    if len(card) < 4 + 12 * count:
        return (1,)
    kinds, starts, lengths = zip(*entries(card))
    if kinds != (1, 2, 3)[:count]:
        return (2,)
    ends = [start + length for start, length in zip(starts, lengths)]
    if [*starts, len(card)] != [4 + 12 * count, *ends] or max(ends) >= 2 ** 32:
        return (3,)
    if not sizes_right(*lengths):
        return (4,)
    return rows_refusal(*[to_words(body) for body in bodies(card)[:2]])


def entries(card):
    """The table's (kind, start, length), as many as there are of those that the first word says."""
    words = to_words(card[:len(card) // 4 * 4])
    return [tuple(words[i:i + 3]) for i in range(1, len(words) - 2, 3)][:words[0]] if words else []


def bodies(card):
    """The parts of the card that the entries name; nothing in the place of one past its end."""
    return [card[start:start + length] if start + length <= len(card) else b"" for _, start, length in entries(card)[:3]]


def sizes_right(length1, length2, length3=None):
    """Question 4. The third is to be m, where there is one."""
    return (length1 % 12 == 0 and length1 <= 196_608 and length2 % 4 == 0 and 4 <= length2 <= 16_384
            and length3 in (None, length1 // 12))


def rows_refusal(roads, order):
    """Questions 5 and 6."""
    for road in range(len(roads) // 3):
        tail, head, base = roads[3 * road:3 * road + 3]
        if tail >= len(order) or head >= len(order) or tail == head or not 1 <= base <= SLOWEST:
            return (5, road)
    for place, junction in enumerate(order):
        if junction >= len(order) or junction in order[:place]:
            return (6, place)
    return None


def make_card(roads, order):
    return to_bytes([2, 1, 28, 4 * len(roads), 2, 28 + 4 * len(roads), 4 * len(order), *roads, *order])


def with_access(card, access):
    """A card of two sections with a third: a byte for each road."""
    _, _, start1, length1, _, start2, length2 = to_words(card[:28])
    table = [3, 1, start1 + 12, length1, 2, start2 + 12, length2, 3, start2 + length2 + 12, len(access)]
    return to_bytes(table) + card[28:] + bytes(access)


def write_card(roads, order, area):
    """The refusal or None, and what the area then holds."""
    if not sizes_right(4 * len(roads), 4 * len(order)):
        return (4,), area
    refusal, card = rows_refusal(roads, order), make_card(roads, order)
    if not refusal and len(area) != len(card):
        refusal = (7,)
    return refusal, area if refusal else card


# ---- the map: least totals, ranks and pairs

class Map:
    """The map on an accepted card: the order, the rank of each junction, the roads as (tail, head, base), and a byte for each."""

    def __init__(self, card):
        roads, order, *access = bodies(card)
        words = to_words(roads)
        self.roads = [tuple(words[i:i + 3]) for i in range(0, len(words), 3)]
        self.base = [base for _, _, base in self.roads]
        self.order = to_words(order)
        self.rank = [self.order.index(junction) for junction in range(len(self.order))]
        self.access = [*access[0]] if access else [EVERY_CLASS] * len(self.roads)

    def open_roads(self, live, vehicle):
        """(tail, head, live time, number) of the roads that are open and have the bit of the class, counted from the lowest"""
        return [(*road[:2], live[i], i) for i, road in enumerate(self.roads)
                if live[i] != CLOSED and self.access[i] // 2 ** vehicle % 2 == 1]


def least_totals(arcs, goal):
    """The least total over chains of arcs (tail, head, time, ..) to the goal, by vertices; those without a chain are left out."""
    least, stable = {goal: 0}, False
    while not stable:
        stable = True
        for tail, head, time, *_ in arcs:
            if head in least and time + least[head] < least.get(tail, math.inf):
                least[tail], stable = time + least[head], False
    return least


def pair_time(chart, a, b):
    """The least base total of a chain from a to b whose inner junctions all rank below both, or none."""
    below = set(chart.order[:min(chart.rank[a], chart.rank[b])])
    arcs = [arc for arc in chart.roads if arc[0] in below | {a} and arc[1] in below | {b}]
    return least_totals(arcs, b).get(a, NONE)


def kept_pairs(chart):
    """The records: rank of low, rank of high, up, down; the first two stand in one area, the others in another."""
    records = []
    for low, a in enumerate(chart.order):
        for high, b in list(enumerate(chart.order))[low + 1:]:
            record = low, high, pair_time(chart, a, b), pair_time(chart, b, a)
            records += [record] if record[2:] != (NONE, NONE) else []
    return records


def roads_by_tail(chart):
    """The road numbers by tail, ascending within a tail."""
    return [road for junction in range(len(chart.order)) for road, (tail, _, _) in enumerate(chart.roads) if tail == junction]


def group_starts(chart):
    """Where each tail's group starts: behind the roads of all smaller tails; the last behind all roads."""
    return [sum(tail < junction for tail, _, _ in chart.roads) for junction in range(len(chart.order) + 1)]


# ---- the search log

def search(arcs, estimate, start, target, order=None):
    """The logged junctions' times, in the log's order; and the candidates at each choice, as (key, time, junction), by which they are
    logged if no other order is given."""
    times, choices = {}, []
    while target not in times:
        found = {} if times else {start: 0}
        for tail, head, time, _ in arcs:
            if tail in times and head not in times:
                found[head] = min(found.get(head, math.inf), times[tail] + time)
        candidates = sorted(((time + estimate[head], time, head) for head, time in found.items() if head in estimate), key=order)
        if not candidates:
            break
        choices.append(candidates)
        times[candidates[0][2]] = candidates[0][1]
    return times, choices


def chains(arcs, start, passed=()):
    """Every chain of arcs from a junction that passes none twice: its end and its total."""
    yield start, 0
    for tail, head, time, *_ in arcs:
        if tail == start and head not in passed:
            for end, total in chains(arcs, head, (*passed, start)):
                yield end, time + total


def effort(chart, live, vehicle, start, target):
    """A5 without a search, over all chains of open roads of the class: the junctions whose least time from the start plus estimate is no
    more than the total or, where no chain exists, all that they reach and that have an estimate, sorted by key, time and number."""
    times, estimates = {}, {}
    for end, total in chains(chart.open_roads(live, vehicle), start):
        times[end] = min(total, times.get(end, math.inf))
    for junction in times:
        estimates[junction] = min([total for end, total in chains(chart.roads, junction) if end == target], default=math.inf)
    keys = sorted((time + estimates[junction], time, junction) for junction, time in times.items())
    return [junction for key, _, junction in keys if key < math.inf and key <= times.get(target, math.inf)]


def searched(chart, live, vehicle, start, target, order=None):
    """The open roads of the class, the logged junctions' times, and the junctions that the search asks for an estimate: the start, and
    the heads of these roads from logged ones other than the target. Estimates are over all roads."""
    arcs = chart.open_roads(live, vehicle)
    times = search(arcs, least_totals(chart.roads, target), start, target, order)[0]
    return arcs, times, [start, *[head for tail, head, *_ in arcs if tail in times and tail != target]]


def route_back(arcs, times, target):
    """Into each junction the smallest-numbered open road from an earlier logged one that gives its time."""
    log, route, at = list(times), [], target
    while at != log[0]:
        earlier = log[:log.index(at)]
        road, at = min((number, tail) for tail, head, time, number in arcs
                       if head == at and tail in earlier and times[tail] + time == times[at])
        route.insert(0, road)
    return route


# ---- the plain machine

def time_refusal(base, road, time):
    """Questions 10 and 11."""
    if road >= len(base):
        return (10,)
    return None if time == CLOSED or base[road] <= time <= SLOWEST else (11,)


def work_right(n, call):
    """Question 9 of a preview's work area: twice elapsed's entries."""
    return call[0] != "preview" or call[5] == 2 * n


def stops_refusal(n, vehicle, stops, route, log):
    """Questions 16, 18, 12 and 14 of a list of stops."""
    if not FEWEST_STOPS <= len(stops) <= MOST_STOPS:
        return (16,)
    if vehicle >= CLASSES:
        return (18,)
    if any(stop >= n for stop in stops):
        return (12,)
    return (14,) if len(route) < len(stops) * n or len(log) < n else None


def call_refusal(n, base, target, call):
    """Questions 10 to 14, 16 and 18, and 9 of a work area."""
    kind, *rest = call
    if not work_right(n, call):
        return (9,)
    if kind == "set":
        return time_refusal(base, *rest)
    if kind == "stops":
        return stops_refusal(n, *rest)
    if kind in ("go", "preview") and rest[0] >= CLASSES:
        return (18,)
    if kind == "preview":
        return time_refusal(base, *rest[1:3]) or call_refusal(n, base, target, ("est", rest[3]))
    if rest[kind == "go"] >= n:
        return (12,)
    if kind != "aim" and target is None:
        return (13,)
    if kind == "go" and min(map(len, rest[2:])) < n:
        return (14,)
    return None


def replaced(live, road, time):
    return live[:road] + [time] + live[road + 1:]


def preview_answer(present, new):
    """Both totals and, where both exist, the new one less the present one."""
    return "preview", present, new, None if present is None or new is None else new - present


def stops_answer(legs):
    """The legs and the whole total."""
    return "stops", tuple(legs), sum(total for total, _ in legs)


class Machine:
    """It has live times and a target of its own, and is fed the map, the calls with their classes and the lengths of what is lent."""

    def __init__(self, chart):
        self.chart, self.live, self.target = chart, list(chart.base), None

    def step(self, call):
        """The answer, the route and the log."""
        (kind, *rest), chart = call, self.chart
        refusal = call_refusal(len(chart.order), chart.base, self.target, call)
        if refusal:
            return ("no", *refusal), [], []
        if kind == "set":
            self.live[rest[0]] = rest[1]
            return ("ok",), [], []
        if kind == "aim":
            self.target = rest[0]
            return ("ok",), [], []
        if kind == "preview":
            vehicle, road, time, start, _ = rest
            return preview_answer(*[least_totals(chart.open_roads(live, vehicle), self.target).get(start)
                                    for live in (self.live, replaced(self.live, road, time))]), [], []
        if kind == "stops":
            return self.journey(*rest)
        estimate = least_totals(chart.roads, self.target)
        if kind == "est":
            return ("est", estimate.get(rest[0], NONE)), [], []
        vehicle, start = rest[:2]
        arcs = chart.open_roads(self.live, vehicle)
        log = search(arcs, estimate, start, self.target)[0]
        total = least_totals(arcs, self.target).get(start)
        if total is None:
            return ("no", 15, len(log)), [], list(log)
        route = route_back(arcs, log, self.target)
        return ("go", total, len(log), len(route)), route, list(log)

    def journey(self, vehicle, stops, *lent):
        """An aim and a go for each leg: the legs' roads, and the log of the last leg that is made."""
        roads, legs = [], []
        for start, end in zip(stops, stops[1:]):
            self.step(("aim", end))
            answer, route, log = self.step(("go", vehicle, start, *lent))
            if answer[0] == "no":
                return ("no", 17, len(legs)), roads, log
            roads += route
            legs.append((answer[1], len(route)))
        return stops_answer(legs), roads, log


# ---- the unit

def lengths_right(lengths, n, m, pairs):
    """The nine areas, in the order of Areas, for questions 7 and 9: room for the same whole number of pairs in two of them."""
    ranks, records, times, *others = lengths
    return ([ranks, *others] == [n, m, n, n, n, m, n + 1] and records == times and records % 2 == 0
            and 2 * pairs <= records <= 2 * 65_536)


def all_lengths_right(lengths, bytes_, n, m, pairs, card):
    """Question 9."""
    return bytes_ == card and lengths_right(lengths, n, m, pairs)


def named(card, n, m):
    """Does the table name bodies for n junctions and m roads inside the card? One without bytes needs no entry, but the third."""
    table = entries(card)
    third = len(card) >= 4 and to_words(card[:4])[0] > 2
    named_so = all(length == size and start + length <= len(card)
                   for (_, start, length), size in zip(table, [12 * m, 4 * n, m][:2 + third]))
    return named_so and not any([12 * m, 4 * n][len(table):]) and (not third or len(table) > 2)


def in_range(n, m):
    """Is neither of a header's n and m more than an accepted card can have?"""
    return n <= 4_096 and m <= 16_384


def prepare(card, areas):
    """The answer, the header and the areas."""
    refusal = card_refusal(card)
    if refusal:
        return ("no", *refusal), NO_HEADER, areas
    chart = Map(card)
    n, m, records = len(chart.order), len(chart.roads), kept_pairs(chart)
    if not lengths_right([*map(len, areas)], n, m, 0):
        return ("no", 7), NO_HEADER, areas
    if 2 * len(records) > len(areas.pairs):
        return ("no", 8), NO_HEADER, Areas(*[[0] * len(area) for area in areas])
    unused = [0] * (len(areas.pairs) - 2 * len(records))
    pairs, times = [[word for record in records for word in record[i:i + 2]] + unused for i in (0, 2)]
    areas = Areas(chart.rank, pairs, times, chart.base, [NONE] * n, [UNASKED] * n, [NONE] * n, roads_by_tail(chart), group_starts(chart))
    return ("ok",), Header(n, m, len(records), len(card), None), areas


def records_in(header, areas):
    """The records as they stand in their two areas."""
    return [(*areas.pairs[2 * i:2 * i + 2], *areas.times[2 * i:2 * i + 2]) for i in range(header.pairs)]


def stored_pairs(chart, header, areas):
    """(low, high, up, down), with the junctions themselves."""
    return [(chart.order[low], chart.order[high], up, down) for low, high, up, down in records_in(header, areas)]


def down_totals(chart, header, areas, target):
    downs = [(high, low, down) for low, high, _, down in stored_pairs(chart, header, areas) if down != NONE]
    least = least_totals(downs, target)
    return [least.get(junction, NONE) for junction in range(header.n)]


def filled(chart, header, areas, asked):
    """The estimates, with those of the junctions asked and of all reached from them through up times."""
    ups = [(low, high, up) for low, high, up, _ in stored_pairs(chart, header, areas) if up != NONE]
    least, reached = least_totals(chart.roads, header.target), set(asked)
    for low, high, _ in ups:  # low ranks first, so one pass is enough
        if low in reached:
            reached.add(high)
    for junction in reached:  # what source document 002, algorithm 3, makes of the areas
        above = [up + least[high] for low, high, up in ups if low == junction and high in least]
        assert least.get(junction, NONE) == min([areas.down[junction], *above])
    return [least.get(junction, NONE) if junction in reached else old for junction, old in enumerate(areas.estimates)]


def step(card, header, areas, call):
    """The answer, the header, the areas, and the two areas that go and stops are lent (empty for another call)."""
    kind, *rest = call
    lent = call[3:] if kind in ("go", "stops") else ([], [])
    fits = all_lengths_right([*map(len, areas)], len(card), *header[:4]) and named(card, header.n, header.m)
    if not fits or not work_right(header.n, call):
        return ("no", 9), header, areas, lent
    chart, target = Map(card) if header.n else None, header.target  # no map after a refused preparing
    refusal = call_refusal(header.n, chart.base if chart else [], target, call)
    if refusal:
        return ("no", *refusal), header, areas, lent
    if kind == "set":
        return ("ok",), header, areas._replace(live=replaced(areas.live, *rest)), lent
    if kind == "aim":
        areas = areas._replace(down=down_totals(chart, header, areas, rest[0]), estimates=[UNASKED] * header.n)
        return ("ok",), header._replace(target=rest[0]), areas, lent
    if kind == "est":
        areas = areas._replace(estimates=filled(chart, header, areas, rest))
        return ("est", areas.estimates[rest[0]]), header, areas, lent
    if kind == "preview":
        vehicle, road, time, start, _ = rest
        both = [searched(chart, live, vehicle, start, target) for live in (areas.live, replaced(areas.live, road, time))]
        asked = [junction for _, _, some in both for junction in some]
        areas = areas._replace(estimates=filled(chart, header, areas, asked))
        return preview_answer(*[times.get(target) for _, times, _ in both]), header, areas, lent
    if kind == "stops":
        return journey(card, header, areas, *rest)
    arcs, times, asked = searched(chart, areas.live, *rest[:2], target)
    areas = areas._replace(estimates=filled(chart, header, areas, asked),
                           elapsed=[times.get(junction, NONE) for junction in range(header.n)])
    log = list(times) + lent[1][len(times):]
    if target not in times:
        return ("no", 15, len(times)), header, areas, (lent[0], log)
    route = route_back(arcs, times, target)
    return ("go", times[target], len(times), len(route)), header, areas, (route + lent[0][len(route):], log)


def journey(card, header, areas, vehicle, stops, route, log):
    """Each leg is an aim and a go of the class, which is lent the route area behind the roads of the legs before it; up to one without a chain."""
    roads, legs = [], []
    for start, end in zip(stops, stops[1:]):
        _, header, areas, _ = step(card, header, areas, ("aim", end))
        answer, header, areas, (rest, log) = step(card, header, areas, ("go", vehicle, start, route[len(roads):], log))
        route = roads + rest
        if answer[0] == "no":
            return ("no", 17, len(legs)), header, areas, (route, log)
        roads = route[:len(roads) + answer[3]]
        legs.append((answer[1], answer[3]))
    return stops_answer(legs), header, areas, (route, log)
