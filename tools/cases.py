#!/usr/bin/env python3
"""The cases of crates/model_cases: inputs for the definitions of crates/model, with what reference.py says they answer and leave.

    python3 tools/cases.py            write crates/model_cases/specs/Random.antt and Cards.antt
    python3 tools/cases.py --check    fail if these files are not what would be written
    python3 tools/cases.py --report   print how often each kind of case occurs

The seeds are fixed and the dice are our own, so the files are the same on every machine. A kind that occurs too seldom is an error.
"""
import pathlib
import sys
from collections import Counter, namedtuple

sys.dont_write_bytecode = True
import reference as model
import scripts
from reference import NONE, SLOWEST, UNASKED, Areas, Header
from scripts import FAR

SPECS = pathlib.Path(__file__).resolve().parent.parent / "crates" / "model_cases" / "specs"


WIDTH = 140
LARGEST = 2 ** 32 - 1  # of the words of a card


# ---- the text of imports, numbers, lists, calls and refusals

def use(module, names):
    """The lines that take names from a module; an operator's holes are sorted as `_` is, between capital letters and others."""
    lines = [[]]
    for name in sorted(names, key=lambda name: name.replace("◌", "_")):
        if lines[-1] and len(f"use {module}.{{{', '.join([*lines[-1], name])}}}") > WIDTH:
            lines.append([])
        lines[-1].append(name)
    return "".join(f"use {module}.{{{', '.join(line)}}}\n" for line in lines)


REFUSALS = ["Short", "Kinds", "Starts", "Sizes", "Road", "Place", "AreaLengths", "Room", "Lengths",
            "NoRoad", "NotAllowed", "NoJunction", "NoTarget", "LentLengths", "NoPath", "StopCount", "NoLeg", "NoClass"]
PLACED = (5, 6, 15, 17)  # with a place, count or leg
CALLS = {"set": "set_call", "aim": "aim_call", "est": "estimate_call", "preview": "preview_call"}


def number(word):
    return {NONE: "∞", UNASKED: "□", LARGEST: "largest"}.get(word, str(word))


def applied(name, *words):
    return " ".join([name, *map(number, words)])


def argument(text):
    return f"({text})" if " " in text else text


def listed(items):
    return " ∷ ".join([*items, "[]"])


def row(words):
    return listed(map(number, words))


def road_rows(roads):
    return listed(" – ".join(map(number, road)) for road in roads)


def refusal_text(refusal):
    return applied(REFUSALS[refusal[0] - 1], *refusal[1:])


def total_text(total):
    return "none" if total is None else f"some {total}"


def change_text(change):
    """A change of so many tenths of a second, or that there is none."""
    return "none" if change is None else f"less {-change}" if change < 0 else f"more {change}"


def stops_text(stops):
    many = len(stops) > 4 and len(set(stops)) == 1
    return argument(applied("replicate", len(stops), stops[0]) if many else row(stops))


def lent_text(lent):
    return f"({applied('lent', *map(len, lent))})"


def call_text(call):
    if call[0] == "go":
        return f"{applied('go_call', *call[1:3])} {lent_text(call[3:])}"
    if call[0] == "stops":
        return f"{applied('stops_call', call[1])} {stops_text(call[2])} {lent_text(call[3:])}"
    return applied(CALLS[call[0]], *call[1:])


def broken(text, width, mark=" ∷"):
    """The lines of a text, each of which but the first begins at a mark."""
    first, *parts = text.split(mark)
    lines = [first]
    for part in parts:
        if len(lines[-1] + mark + part) > width:
            lines.append(mark[1:] + part)
        else:
            lines[-1] += mark + part
    return lines


def within(text, indent=4):
    """A list, in several lines if it is long."""
    return ("\n" + " " * indent).join(broken(text, 130))


def field(text):
    """The same as a record's field."""
    lines = within(text, 6)
    return ("\n      " if "\n" in lines else " ") + lines


def entry(text, indent):
    """An entry of a list, in several lines if it is long: they end before an argument in brackets."""
    return ("\n" + " " * indent).join(broken(f"∷ {text}", WIDTH - indent, " ("))


# ---- Random.antt

def turn_text(turn):
    (kind, *rest), answer, areas, rows = turn.call, turn.answer, turn.areas, [argument(row(area)) for area in turn.areas]
    live, down, estimates, elapsed = rows[3:7]
    if answer[0] == "no" and answer[1] not in (15, 17):
        return says(turn, f"no {refusal_text(answer[1:])} ({call_text(turn.call)})")
    if kind == "set":
        return says(turn, f"{applied(kind, *rest)} {live}", live=areas.live)
    if kind == "aim":
        return says(turn, f"{applied(kind, *rest)} {down}", *rest, down=areas.down, estimates=[UNASKED] * len(areas.down))
    if kind == "est":
        return says(turn, f"{applied(kind, *rest, answer[1])} {estimates}", estimates=areas.estimates)
    if kind == "preview":
        totals = " ".join(argument(total_text(total)) for total in answer[1:3])
        return says(turn, f"{applied(kind, *rest[:4])} {totals} {argument(change_text(answer[3]))} {estimates}", estimates=areas.estimates)
    if kind == "stops":
        return journey_text(turn, down, estimates, elapsed)
    route, log = turn.lent[0][:answer[3] if answer[0] == "go" else 0], turn.lent[1][:answer[2]]
    assert turn.lent == (route + rest[2][len(route):], log + rest[3][len(log):])
    start = f"{rest[0]} {rest[1]} {lent_text(rest[2:])}"
    found = f"go {start} {answer[1]} {argument(row(route))}" if answer[0] == "go" else f"lost {start}"
    return says(turn, f"{found} {argument(row(log))} {estimates} {elapsed}", estimates=areas.estimates, elapsed=areas.elapsed)


def journey_text(turn, down, estimates, elapsed):
    """A list of stops: the roads of the legs that have a chain, and what stands first in the log area."""
    (_, vehicle, stops, *rest), answer, areas = turn.call, turn.answer, turn.areas
    route, log = [[new for new, old in zip(*both) if new != old] for both in zip(turn.lent, rest)]
    assert turn.lent == (route + rest[0][len(route):], log + rest[1][len(log):])
    called = f"{vehicle} {stops_text(stops)} {lent_text(rest)}"
    if answer[0] == "stops":
        legs = [f"{total} over {roads}" for total, roads in answer[1]]
        listed_legs = f"(replicate {len(legs)} ({legs[0]}))" if len(legs) > 4 and len(set(legs)) == 1 else argument(listed(legs))
        told, target = f"stops {called} {listed_legs} {answer[2]}", stops[-1]
        assert answer[2] == sum(total for total, _ in answer[1]) and len(route) == sum(roads for _, roads in answer[1])
    else:
        told, target = f"stranded {called} {answer[2]}", stops[answer[2] + 1]
    text = f"{told} {argument(row(route))} {argument(row(log))} {down} {estimates} {elapsed}"
    return says(turn, text, target, down=areas.down, estimates=areas.estimates, elapsed=areas.elapsed)


def says(turn, text, target=None, **altered):
    """The text of a turn; the rest of header and areas must be as it was, as the notation has it."""
    header, areas = turn.before
    assert turn.header == (header if target is None else header._replace(target=target)) and turn.areas == areas._replace(**altered)
    return text


def script_text(index, script):
    answer, header, areas = script.prepared
    records, unused = model.records_in(header, areas), [0] * (2 * script.room - 2 * header.pairs)
    rest = unused, unused, script.chart.base, *[[mark] * header.n for mark in (NONE, UNASKED, NONE)]
    assert answer == ("ok",) and header.target is None
    assert (areas.pairs[2 * header.pairs:], areas.times[2 * header.pairs:], *areas[3:7]) == rest
    turns = "\n      ".join(entry(text, 6) for text in [*map(turn_text, script.turns), "[]"])[2:]
    return f"""
-- {script.made[0]}
script_{index} : Holds record {{
  roads ={field(road_rows(script.chart.roads))};
  order = {row(script.chart.order)};
  access = {row(script.access)};
  room = {script.room};
  ranks = {row(areas.ranks)};
  pairs ={field(listed(applied("pair", *record) for record in records))};
  leaving ={field(row(areas.leaving))};
  groups = {row(areas.groups)};
  turns =
      {turns};
}}
unfolding played figures
script_{index} = record {{ plays = refl; counts = refl }}
"""


NOTATION = "Rattle.model_cases.specs.Notation"
RANDOM = f"""-- Maps and calls, some made for a purpose and some random, with what the reference model answers and leaves. Made by tools/cases.py.
use Rattle.std.specs.Prelude.{{refl, [], ◌∷◌, replicate}}
use Rattle.std.proofs.Math.Option.{{none, some}}
use Rattle.model.specs.Types.{{Lengths, LentLengths, NoClass, NoJunction, NoRoad, NoTarget, NotAllowed, StopCount}}
use Rattle.model.specs.Calls.{{aim_call, estimate_call, go_call, preview_call, set_call, stops_call}}
{use(NOTATION, "Holds ◌over◌ ◌–◌–◌ aim est figures go largest lent less lost more no pair played preview set stops stranded ∞ □".split())}"""


# ---- Cards.antt: what is given, in groups with a comment each

Given = namedtuple("Given", "text data")


def words(*some):
    return Given(row(some), list(some))


def zeros(length):
    return Given(f"replicate {length} 0", [0] * length)


def card(roads, order):
    return Given(f"card {argument(road_rows(roads))} {argument(row(order))}", model.make_card(sum(roads, ()), order))


def card_with(roads, order, access):
    data = model.with_access(model.make_card(sum(roads, ()), order), access)
    return Given(f"card_with {argument(road_rows(roads))} {argument(row(order))} {argument(row(access))}", data)


def blank(roads, order):
    return Given(applied("blank", roads, order), model.to_bytes([2, 1, 28, roads, 2, 28 + roads, order]) + bytes(roads + order))


def put(*changes, old=None):
    """The small card, or another, with other words at some places."""
    text, data = (old or SMALL).text, bytearray((old or SMALL).data)
    for place, word in changes:
        text = f"{applied('put', place, word)} {argument(text)}"
        data[4 * place:4 * place + 4] = word.to_bytes(4, "little")
    return Given(text, bytes(data))


def cut(length, old):
    return Given(f"take {length} {argument(old.text)}", old.data[:length])


SMALL = Given("small", card([(0, 1, 5)], [1, 0]).data)
CLASSED = Given("classed", card_with([(0, 1, 5)], [1, 0], [254]).data)
LONGER = Given("(small ++ 0 ∷ [])", SMALL.data + bytes(1))
MAP_P = card([(0, 1, 10), (1, 3, 10), (0, 2, 15), (2, 3, 10), (3, 0, 20)], [1, 2, 0, 3])
READINGS = {
    "fewer than 4 bytes, and fewer than the table that the first word asks for": [
        words(), cut(3, SMALL), cut(4, SMALL), cut(27, SMALL), cut(28, CLASSED), cut(39, CLASSED)],
    "the first word before the table's length": [cut(4, put((0, 0))), cut(4, put((0, 4))), cut(27, put((0, 1)))],
    "the first word": [put((0, 1)), put((0, 3)), put((0, 2 + 2 ** 24)), put((0, 4), old=CLASSED), cut(28, put((0, 0)))],
    "the kinds": [put((1, 2)), put((4, 1)), put((1, 2), (4, 1)), put((4, 3), (2, 0))],
    "the third kind": [put((7, 0), old=CLASSED), put((7, 2), old=CLASSED), put((7, 4), old=CLASSED), put((4, 3), (7, 2), old=CLASSED)],
    "the third start, and the end": [
        put((8, 59), old=CLASSED), put((8, 61), old=CLASSED), put((9, 2), old=CLASSED), cut(60, CLASSED), cut(40, CLASSED)],
    "the third length": [
        card_with([(0, 1, 5)], [1, 0], [255, 255]), card_with([], [0], [255]), card_with([(0, 1, 5)], [1, 0], [255] * 4),
        card_with([(0, 1, 5)], [1, 0], [255] * 12), put((9, 0), old=cut(60, CLASSED))],
    "the first start, of two sections and of three": [
        put((2, 24)), put((2, 32)), put((2, 40)), put((2, 28), old=CLASSED), put((2, 44), old=CLASSED), put((0, 2), old=CLASSED)],
    "the second start": [put((5, 36)), put((5, 44))],
    "the end": [put((6, 4)), put((6, 12)), put((3, 24)), LONGER, cut(47, SMALL), cut(28, SMALL)],
    "sums that wrap, to a later start and to the end": [
        put((3, 2 ** 32 - 16), (5, 12), (6, 36)), put((3, 2 ** 32 - 40), (5, 2 ** 32 - 12), (6, 60)),
        put((6, 2 ** 32 - 20), (8, 32), (9, 29), old=CLASSED), put((6, 2 ** 32 - 56), (8, 2 ** 32 - 4), (9, 65), old=CLASSED)],
    "lengths": [blank(13, 8), blank(4, 4), blank(12, 6), blank(12, 9), blank(0, 0), blank(12, 0), blank(196_620, 4), blank(12, 16_388)],
    "the ends of a road": [card([(2, 1, 5)], [1, 0]), card([(0, 2, 5)], [1, 0]), card([(0, LARGEST, 5)], [1, 0]), card([(0, 1, 5)], [0]),
                           card([(0, 1, 5), (1, 1, 5)], [1, 0])],
    "base times": [card([(0, 1, 0)], [1, 0]), card([(0, 1, LARGEST)], [1, 0]),
                   card([(0, 1, 1), (1, 0, SLOWEST), (0, 1, SLOWEST + 1)], [1, 0])],
    "two roads; a road and a place; a road and the longest order": [
        card([(0, 1, 5), (0, 0, 5), (1, 0, 0)], [1, 0]), card([(0, 1, 5), (1, 0, 0)], [1, 1]), blank(12, 16_384)],
    "places of the order": [card([], [1]), card([(0, 1, 5)], [0, 2]), card([], [LARGEST, 0]), card([], [1, 0, 1]),
                            card([(2, 0, 1)], [2, 2, 1]), card([], [0, 1, 9, 1])],
    "a road and a place, with a third section": [card_with([(0, 1, 0)], [1, 0], [9]), card_with([(0, 1, 5)], [1, 1], [9])],
    "accepted": [SMALL, MAP_P, CLASSED, card_with([(0, 1, 5)], [1, 0], [0]), card_with([(1, 0, 1), (1, 0, SLOWEST)], [0, 1], [255, 7]),
                 card_with([], [0], []), blank(0, 4), card([], [2, 0, 1]), card([(1, 0, 1), (1, 0, SLOWEST)], [0, 1])],
    "accepted, at and past the longest base time before A7": [
        card([(1, 0, 1_000_000), (0, 1, 1_000_001)], [0, 1]), card_with([(1, 0, 1_000_000), (0, 1, 9_999_999)], [0, 1], [255, 1])],
}
ROAD, ORDER = words(0, 1, 5), words(1, 0)
WRITINGS = {
    "lengths": [(words(), words(), 28), (words(0, 1), ORDER, 44), (words(0, 1, 5, 0), ORDER, 52), (zeros(49_155), words(0), 0),
                (words(), zeros(4097), 9)],
    "a road": [(words(0, 2, 5), ORDER, 48), (words(0, 1, 5, 1, 1, 5), words(1, 1), 60), (words(0, 1, 0), zeros(4096), 16_424)],
    "a place": [(ROAD, words(1, 1), 48), (ROAD, words(0, 2), 7)],
    "the area": [(ROAD, ORDER, 0), (ROAD, ORDER, 47), (ROAD, ORDER, 49)],
    "accepted": [([], [0]), ([(0, 1, 5)], [1, 0]), ([(2, 0, SLOWEST), (0, 1, 1), (2, 0, 66_051)], [2, 0, 1])],
}
FITTING = Areas(2, 2, 2, 1, 2, 2, 2, 1, 3)  # the lengths for the small card and its one pair


def both(pairs, times, old=FITTING):
    """Other lengths of the pairs' two areas."""
    return old._replace(pairs=pairs, times=times)


OTHER = {area: [FITTING._replace(**{area: length - 1}), FITTING._replace(**{area: length + 1})] for area, length in FITTING._asdict().items()}
OTHER["pairs and times of different room, and of half a pair"] = [both(*two) for two in ((4, 2), (2, 4), (0, 2), (2, 0), (3, 3), (1, 1))]
PREPARINGS = {
    "the card": [(READINGS[group][-1], FITTING) for group in READINGS if not group.startswith("accepted")],
    **{area: [(SMALL, lengths) for lengths in changed] for area, changed in OTHER.items()},
    "an area before the room": [(SMALL, both(0, 0)._replace(elapsed=1)), (SMALL, both(0, 0)._replace(groups=2))],
    "the room": [(SMALL, both(0, 0)), (MAP_P, Areas(4, 8, 8, 5, 4, 4, 4, 5, 5))],
}
CHANGES = [("set", 0, 5), ("set", 1, 0), ("preview", 0, 0, 5, 0, 0), ("preview", 7, 1, 0, 2, 0)]
OTHERS = [("aim", 1), ("aim", 2), ("est", 0), ("go", 0, 0, [60, 61], [80, 81, 82]), ("go", 7, 2, [], []),
          ("stops", 0, [0, 1], [60, 61, 62, 63], [80, 81]), ("stops", 7, [2, 1, 0], [], [])]
LISTS = [("stops", 0, [], [], []), ("stops", 8, [0], [60, 61], [80, 81]), ("stops", 8, [2] * 33, [], [])]
CLASSES = [("go", 8, 0, [60, 61], [80, 81, 82]), ("go", 16, 2, [], []), ("go", FAR, 0, [60, 61], [80, 81]),
           ("stops", 8, [0, 1], [60, 61, 62, 63], [80, 81]), ("stops", 255, [2, 1, 0], [], [])]
OUTLOOKS = [("preview", 8, 0, 5, 0, 4), ("preview", 9, 1, 0, 2, 4)]
NO_OUTLOOKS = [("preview", 8, 0, 5, 0, 0), ("preview", FAR, 1, 0, 2, 0)]
WORKS = [("preview", 0, 0, 5, 0, 1), ("preview", 0, 0, 5, 0, 3), ("preview", 8, 1, 0, 2, 5), ("preview", 8, 1, 0, 2, 8)]
FORGED = [(1, 1, 1, 48), (3, 1, 1, 48), (2, 0, 1, 48), (2, 2, 1, 48), (2, 1, 2, 48), (0, 0, 0, 48), (2 ** 30 + 2, 1, 1, 48), (2, 2 ** 30 + 1, 1, 48),
          (2, 1, 2 ** 30 + 1, 48), (2, 1, 1, 47), (2, 1, 1, 61), (2, 1, 1, 0), (2, 1, 1, 48 + 2 ** 31)]
UNMAPPED = Areas(0, 4, 4, 0, 0, 0, 0, 0, 1)
CALLINGS = {
    "the card": [("all", (2, 1, 1, 48), 0, 47, FITTING), ("all", (2, 1, 1, 48), None, 49, FITTING), ("all", (2, 1, 1, 48), 1, 0, FITTING)],
    **{area: [("all", (2, 1, 1, 48), 1, 48, lengths) for lengths in changed] for area, changed in OTHER.items()},
    "fewer pairs than the header has": [("all", (2, 1, 1, 48), None, 48, both(0, 0))],
    "forged headers": [("all", numbers, 0, 48, FITTING) for numbers in FORGED],
    "the header of a refused preparing, with areas that it calls for": [
        ("changes", (0, 0, 0, 0), None, 0, UNMAPPED), ("others", (0, 0, 0, 0), None, 0, UNMAPPED), ("lists", (0, 0, 0, 0), None, 0, UNMAPPED)],
    "the same with classes that are none": [
        ("classes", (0, 0, 0, 0), None, 0, UNMAPPED), ("no_outlooks", (0, 0, 0, 0), None, 0, UNMAPPED)],
    "the same on a card that is not empty": [("all", (0, 0, 0, 0), None, 28, UNMAPPED), ("classes", (0, 0, 0, 0), None, 1, UNMAPPED)],
    "classes that are none": [
        ("classes", (2, 1, 1, 48), 0, 48, FITTING), ("classes", (2, 1, 1, 48), None, 48, FITTING), ("outlooks", (2, 1, 1, 48), 0, 48, FITTING),
        ("outlooks", (2, 1, 1, 48), None, 48, FITTING), ("classes", (2, 1, 1, 48), 0, 47, FITTING), ("outlooks", (2, 1, 1, 47), 0, 48, FITTING)],
    "lists of a wrong number of stops": [
        ("lists", (2, 1, 1, 48), 0, 48, FITTING), ("lists", (2, 1, 1, 48), None, 48, FITTING), ("lists", (2, 1, 1, 48), 1, 47, FITTING),
        ("lists", (2, 1, 1, 48), 1, 48, FITTING._replace(groups=4))],
    "the same with a work area": [("works", (0, 0, 0, 0), None, 0, UNMAPPED)],
    "a work area of another length": [("works", (2, 1, 1, 48), target, 48, FITTING) for target in (0, None)],
    "the same with no start of a group, and with two": [
        ("all", (0, 0, 0, 0), None, 0, UNMAPPED._replace(groups=0)), ("all", (0, 0, 0, 0), None, 0, UNMAPPED._replace(groups=2))],
}
SIZES = {
    "bounds": [(0, 4), (196_608, 16_384), (196_620, 4), (0, 16_388), (12, 0)],
    "multiples": [(196_604, 4), (6, 4), (12, 6), (24, 16_380)],
}
MOST = Areas(4096, 131_072, 131_072, 16_384, 4096, 4096, 4096, 16_384, 4097)
WIDE = Areas(2 ** 30 + 2, 2, 2, 1, 2 ** 30 + 2, 2 ** 30 + 2, 2 ** 30 + 2, 1, 2 ** 30 + 3)
LENGTHS = {
    "bounds": [(1, 0, 0, 32, 32, 1, 0, 0, 0, 1, 1, 1, 0, 2), (4096, 16_384, 65_536, 213_020, 213_020, *MOST), (4096, 16_384, 65_536, 213_020, 213_019, *MOST),
               (4096, 16_384, 65_536, 229_416, 229_416, *MOST), (4096, 16_384, 65_536, 229_416, 213_020, *MOST),
               *[(4096, 16_384, pairs, 213_020, 213_020, *both(length, length, MOST))
                 for pairs, length in ((65_535, 131_070), (65_536, 131_070), (65_536, 131_074), (65_535, 131_071))],
               *[(4096, 16_384, 65_535, 213_020, 213_020, *both(*two, MOST)) for two in ((131_072, 131_070), (131_070, 131_072))]],
    "numbers whose products and sums would wrap": [
        (2 ** 30 + 2, 1, 1, 48, 48, *WIDE), (2, 2 ** 30 + 1, 1, 48, 48, *FITTING._replace(live=2 ** 30 + 1, leaving=2 ** 30 + 1)),
        (2, 1, 2 ** 30 + 1, 48, 48, *FITTING), (LARGEST, 0, 0, 28, 28 + 4 * LARGEST, LARGEST, 0, 0, 0, LARGEST, LARGEST, LARGEST, 0, 0)],
    "one length that does not fit, each in turn": [
        (2, 1, 1, 48, 48, *FITTING), *[(2, 1, 1, 48, 48, *lengths) for changed in OTHER.values() for lengths in changed],
        (2, 1, 1, 48, 47, *FITTING), (2, 1, 1, 48, 49, *FITTING), (2, 1, 1, 47, 48, *FITTING), (2, 1, 1, 49, 48, *FITTING),
        (2, 1, 1, 61, 61, *FITTING), (2, 1, 1, 61, 48, *FITTING)],
    "headers out of range, with the lengths that they call for": [
        (4097, 0, 0, 16_416, 16_416, 4097, 0, 0, 0, 4097, 4097, 4097, 0, 4098), (1, 16_385, 0, 196_652, 196_652, 1, 0, 0, 16_385, 1, 1, 1, 16_385, 2)],
}
EMPTY = Given("[]", b"")
RANGES = {
    "a header's n and m": [(EMPTY, 0, 0), (SMALL, 2, 1), (CLASSED, 2, 1), (blank(196_608, 16_384), 4096, 16_384), (blank(0, 16_388), 4097, 0),
                           (blank(196_620, 4), 1, 16_385), (SMALL, 2 ** 30 + 2, 1), (SMALL, 2, 2 ** 30 + 1)],
    "bodies of other lengths": [(SMALL, 1, 1), (SMALL, 3, 1), (SMALL, 2, 0), (SMALL, 2, 2), (CLASSED, 2, 0), (EMPTY, 1, 0), (EMPTY, 0, 1),
                                (put((3, 24)), 2, 1), (put((6, 4)), 2, 1), (put((9, 0), old=CLASSED), 2, 1), (put((9, 2), old=CLASSED), 2, 1)],
    "bodies elsewhere in the card, and past its end": [
        (put((2, 0)), 2, 1), (put((2, 36)), 2, 1), (put((2, 37)), 2, 1), (put((5, 0)), 2, 1), (put((5, 41)), 2, 1), (put((8, 0), old=CLASSED), 2, 1),
        (put((8, 61), old=CLASSED), 2, 1), (put((2, 2 ** 32 - 4)), 2, 1), (put((3, 2 ** 32 - 12), (2, 24)), 2, 1)],
    "numbers of sections, and kinds": [(put((0, 0)), 2, 1), (put((0, 1)), 2, 1), (put((0, 3)), 2, 1), (put((0, 2), old=CLASSED), 2, 1),
                                       (put((0, LARGEST), old=CLASSED), 2, 1), (put((1, 9), (4, 7)), 2, 1), (cut(27, SMALL), 2, 1), (cut(39, CLASSED), 2, 1)],
}


# ---- Cards.antt: what is due; each line with the number that refuses

def reading_line(given):
    refusal = model.card_refusal(given.data)
    if refusal:
        return f"{given.text} ⇒ Unreadable {argument(refusal_text(refusal))}", refusal[0]
    chart = model.Map(given.data)
    return f"{given.text} ⇒ {applied('Read', len(chart.order), len(chart.roads))}", "accepted"


def writing_line(given):
    if len(given) == 2:
        due = card(*given)
        assert model.write_card(sum(given[0], ()), given[1], bytes(len(due.data))) == (None, due.data)
        return due.text.replace("card", "written", 1), "accepted"
    roads, order, length = given
    refusal, area = model.write_card(roads.data, order.data, bytes([7] * length))
    assert area == bytes([7] * length)
    return f"unwritten {argument(roads.text)} {argument(order.text)} {length} {argument(refusal_text(refusal))}", refusal[0]


def preparing_line(given):
    (old, lengths), due = given, 7
    answer, header, areas = model.prepare(old.data, Areas(*[[7] * length for length in lengths]))
    if answer == ("no", 8):
        due = 0
    assert answer[0] == "no" and header == model.NO_HEADER and areas == Areas(*[[due] * length for length in lengths])
    return applied(f"unprepared {argument(refusal_text(answer[1:]))} {due} {argument(old.text)}", *lengths), answer[1]


CALLED = {"changes": CHANGES, "others": OTHERS, "works": WORKS, "lists": LISTS, "classes": CLASSES, "outlooks": OUTLOOKS,
          "no_outlooks": NO_OUTLOOKS, "all": CHANGES + OTHERS}


def calling_line(given):
    name, numbers, target, length, lengths = given
    header, areas, questions = Header(*numbers, target), Areas(*[[7] * length for length in lengths]), set()
    # the model reads a map from the card, though these questions look at none: so it gets one where the lengths fit
    for call in CALLED[name]:
        answer, *left = model.step(SMALL.data if length == 48 else bytes([7] * length), header, areas, call)
        assert answer[0] == "no" and left == [header, areas, call[3:] if call[0] in ("go", "stops") else ([], [])]
        questions.add(answer[1])
    (question,) = questions
    aimed = "Absent" if target is None else f"(At {target})"
    return applied(f"refused {REFUSALS[question - 1]} {applied(name, *numbers)} {aimed}", length, *lengths), question


def sizes_line(given):
    right = model.sizes_right(*given)
    return f"{applied('sizes_ok', *given)} ⇒ {str(right).lower()}", "accepted" if right else 4


def lengths_line(given):
    n, m, pairs, bytes_, length, *lengths = given
    right = model.all_lengths_right(lengths, length, n, m, pairs, bytes_)
    text = f"{applied('question9', n, m, pairs, bytes_, length)} ({applied('areas_of', *lengths)})"
    return f"{text} ⇒ {str(right).lower()}", "accepted" if right else 9


def range_line(given):
    old, n, m = given
    right = model.in_range(n, m) and model.named(old.data, n, m)
    text = f"usable {argument(old.text)} ({applied('header_of', n, m, 0, len(old.data))} Absent)"
    return f"{text} ⇒ {str(right).lower()}", "accepted" if right else 9


def section(name, types, theorem, tested, unfolds, groups, line, due, counts):
    """A table and the theorem over it; the answers due must all occur."""
    lines, found = [], set()
    for comment, cases in groups.items():
        lines.append(f"    -- {comment}")
        for case in cases:
            text, number = line(case)
            counts[f"{theorem}: {number}, {comment}"] += 1
            found.add(number)
            lines.append(f"    {entry(text, 4)}")
    assert found == set(due)
    lines[1] = lines[1].replace("∷ ", "", 1)
    table = "\n".join([*lines, "    ∷ []"])
    opened = f"unfolding {unfolds}\n" if unfolds else ""
    return f"\nabbrev {name} : List (Case {types})\n{name} =\n{table}\n\n{theorem} : Agree {tested} {name}\n{opened}{theorem} = refl\n"


CARDS_NOTATION = """Agree Calling Case Preparing Writing ◌–◌–◌ ◌⇒◌ answers blank bytes card card_with header_of largest lent prepares put refused same
    unprepared unwritten writes written"""
CARDS = f"""-- Cards, writings, preparings and lengths, with what the reference model answers and leaves. Made by tools/cases.py.
use Rattle.std.specs.Prelude.{{◌≡◌, refl, Bool, false, true, List, [], ◌++◌, ◌∷◌, map, ℕ, replicate, take}}
{use("Rattle.model.specs.Types", ["Absent", "At", "Read", "Reading", "Refusal", "Unreadable", *REFUSALS])}\
use Rattle.model.specs.Bytes.{{word_at}}
use Rattle.model.specs.Layout.{{body_at, named}}
use Rattle.model.specs.Card.{{Written, card_refusal, read_card, sizes_ok}}
use Rattle.model.specs.Areas.{{areas_of}}
use Rattle.model.specs.State.{{Step, question9, usable}}
use Rattle.model.specs.Calls.{{Call, aim_call, estimate_call, go_call, preview_call, set_call, stops_call}}
{use(NOTATION, CARDS_NOTATION.split())}
-- document 01's number of each refusal
numbers :
    map (λ (q : Refusal). q.question)
    ({within(listed(applied(name, 0) if number in PLACED else name for number, name in enumerate(REFUSALS, 1)))})
    ≡ {row(range(1, 19))}
numbers = refl

-- the lowest byte first
bytes_of : bytes (10000000 ∷ []) ≡ 128 ∷ 150 ∷ 152 ∷ 0 ∷ []
bytes_of = refl

-- 48 bytes: one road, two junctions
abbrev small : List ℕ
small = {card([(0, 1, 5)], [1, 0]).text}

-- the same with a byte for its road: 61 bytes
abbrev classed : List ℕ
classed = {card_with([(0, 1, 5)], [1, 0], [254]).text}

-- calls that ask for a road
abbrev changes : List Call
changes = {listed(map(call_text, CHANGES))}

abbrev others : List Call
others =
    {within(listed(map(call_text, OTHERS)))}

abbrev all : List Call
all = changes ++ others

-- previews with a work area that fits neither of the headers below
abbrev works : List Call
works = {listed(map(call_text, WORKS))}

-- lists of fewer than 2 stops and of more than 32
abbrev lists : List Call
lists = {listed(map(call_text, LISTS))}

-- goes and lists of stops with a class that is none
abbrev classes : List Call
classes =
    {within(listed(map(call_text, CLASSES)))}

-- previews with such a class, and a work area for two junctions, or for none
abbrev outlooks : List Call
outlooks = {listed(map(call_text, OUTLOOKS))}

abbrev no_outlooks : List Call
no_outlooks = {listed(map(call_text, NO_OUTLOOKS))}
"""


def cards_text(counts):
    return CARDS + "".join(section(*parts, counts) for parts in (
        ("readings", "(List ℕ) Reading", "reading", "read_card", "word_at body_at card_refusal", READINGS, reading_line, ["accepted", *range(1, 7)]),
        ("writings", "Writing Written", "writing", "writes", "writes", WRITINGS, writing_line, ["accepted", *range(4, 8)]),
        ("preparings", "Preparing Step", "preparing", "prepares", "prepares", PREPARINGS, preparing_line, range(1, 9)),
        ("callings", "Calling (List Step)", "calling", "answers", "answers", CALLINGS, calling_line, [9, 10, 12, 16, 18]),
        ("sizes", "Bool Bool", "sized", "same", "sizes_ok", SIZES, sizes_line, ["accepted", 4]),
        ("lengths", "Bool Bool", "fitting", "same", "question9", LENGTHS, lengths_line, ["accepted", 9]),
        ("ranges", "Bool Bool", "ranged", "same", "named word_at body_at", RANGES, range_line, ["accepted", 9])))


# ---- the files

def main(options):
    if options not in ([], ["--check"], ["--report"]):
        sys.exit(__doc__)
    chosen, counts = scripts.chosen_scripts(), Counter()
    texts = {"Random.antt": RANDOM + "".join(script_text(i, script) for i, script in enumerate(chosen)), "Cards.antt": cards_text(counts)}
    if options == ["--report"]:
        for kind, count in [*scripts.counted(chosen).items(), *counts.items()]:
            print(f"{count:4}  {kind}")
    for name, text in texts.items():
        if options == ["--check"] and (SPECS / name).read_text(encoding="utf-8") != text:
            sys.exit(f"cases: {name} is not what tools/cases.py writes")
        if not options:
            (SPECS / name).write_text(text, encoding="utf-8")


if __name__ == "__main__":
    main(sys.argv[1:])
