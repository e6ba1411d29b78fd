#!/usr/bin/env python3
"""Runs of the program, with what document 01 says it prints: the files of crates/program_scenarios, and document 01's example for crates/route_unit.

    python3 tools/scenarios.py            write the files
    python3 tools/scenarios.py --check    fail if the files are not what would be written
    python3 tools/scenarios.py --report   print how often each kind of line is printed

A run is a card, the lines and what is printed. The seeds are fixed and the dice are our own, so the files are the same on every machine.
"""
import heapq
import pathlib
import re
import sys
from collections import Counter, namedtuple

sys.dont_write_bytecode = True
import reference as model
from reference import CLOSED, NONE, SLOWEST, UNASKED
from scripts import NARROW, Dice, shuffled

CRATES = pathlib.Path(__file__).resolve().parent.parent / "crates"
MOST_BYTES, MOST_JUNCTIONS, MOST_ROADS, MOST_PAIRS = 32_768, 200, 800, 4_000


# ---- the program, from document 01

READABLE = re.compile(rb"(?:(aim|est|go) ([0-9]{1,20})|(set) ([0-9]{1,20}) ([0-9]{1,20}))", re.DOTALL)


def call_of(line):
    """The call that a line is, or None where it is unreadable."""
    match = READABLE.fullmatch(line)
    if not match:
        return None
    word, *numbers = [part for part in match.groups() if part is not None]
    numbers = [int(number) for number in numbers]
    return (word.decode(), *numbers) if max(numbers) <= NONE else None


def text_of(answer, route):
    """The line of an answer."""
    kind, *numbers = answer
    if kind == "go":
        return " ".join(map(str, ["go", *numbers[:2], *route]))
    if kind == "est":
        return "est none" if numbers[0] == NONE else f"est {numbers[0]}"
    if kind == "no":
        return " ".join(map(str, ["no", *numbers[:2 if numbers[0] in (5, 6) else 1]]))
    return kind


def reached(arcs, inner, start):
    """Where chains from the start lead whose inner junctions are among these."""
    found, left = set(), [start]
    while left:
        at = left.pop()
        for head in arcs[at]:
            if head not in found:
                found.add(head)
                left += [head] if head in inner else []
    return found


def pairs_kept(chart):
    """How many pairs are kept: low and high joined, in either direction, by a chain whose inner junctions all rank below both."""
    ahead, back = [[[] for _ in chart.order] for _ in range(2)]
    for tail, head, _ in chart.roads:
        ahead[tail].append(head)
        back[head].append(tail)
    kept = 0
    for rank, low in enumerate(chart.order):
        inner = set(chart.order[:rank])
        ends = reached(ahead, inner, low) | reached(back, inner, low)
        kept += sum(chart.rank[high] > rank for high in ends)
    return kept


def refusal_of(card):
    """The line of a card that ends the program, or None."""
    if len(card) > MOST_BYTES:
        return "no 0"
    refusal = model.card_refusal(card)
    if refusal:
        return text_of(("no", *refusal), [])
    chart = model.Map(card)
    if len(chart.order) > MOST_JUNCTIONS or len(chart.roads) > MOST_ROADS:
        return "no 0"
    return "no 8" if pairs_kept(chart) > MOST_PAIRS else None


def printed(card, lines):
    """What the program prints, line by line. No card is an empty one."""
    refusal = refusal_of(card or b"")
    if refusal:
        return [refusal]
    machine, texts = model.Machine(model.Map(card)), []
    for line in lines.removesuffix(b"\n").split(b"\n") if lines else []:
        call = call_of(line)
        if call is None:
            texts.append("no 0")
            continue
        if call[0] == "go":  # document 02, A6: of class 0
            call = ("go", 0, call[1], [0] * MOST_JUNCTIONS, [0] * MOST_JUNCTIONS)
        answer, route, _ = machine.step(call)
        texts.append(text_of(answer, route))
    return texts


# ---- cards

def card_of(roads, order):
    return model.make_card([word for road in roads for word in road], order)


def barred(card, *roads, byte=254):
    """The card with a byte for each road: one that bars class 0 for these, 255 for the others."""
    chart = model.Map(card)
    return model.with_access(card, [byte if road in roads else 255 for road in range(len(chart.roads))])


def put(card, *changes):
    """The card with other words at some places."""
    data = bytearray(card)
    for place, word in changes:
        data[4 * place:4 * place + 4] = word.to_bytes(4, "little")
    return bytes(data)


def ring(n, m):
    """m roads over n junctions: round the ring, then once more, and so on. The order goes round too."""
    return [(i % n, (i + 1) % n, 1 + i % 9) for i in range(m)]


MAP_P = card_of([(0, 1, 10), (1, 3, 10), (0, 2, 15), (2, 3, 10), (3, 0, 20)], [1, 2, 0, 3])
FULL = card_of(ring(85, 2_700), range(85))  # 32,768 bytes
STAR = [road for spoke in range(1, 89) for road in ((0, spoke, spoke), (spoke, 0, 89 - spoke))]  # 3,916 pairs


def starred(pairs):
    """The star, whose centre ranks lowest, and a chain with one pair for each road."""
    return card_of(STAR + [(89 + i, 90 + i, 1) for i in range(pairs - 3_916)], range(180))


CLASSED = barred(MAP_P, 1)  # 121 bytes
CARDS = {
    "missing": None,
    "folder": None,  # a folder of that name
    "empty": b"",
    "bytes_3": MAP_P[:3],
    "bytes_4": MAP_P[:4],
    "bytes_27": MAP_P[:27],
    "bytes_28": MAP_P[:28],
    "no_sections_4": bytes(4),
    "no_sections": bytes(28),
    "one_section": put(MAP_P, (0, 1)),
    "four_sections": put(CLASSED, (0, 4)),
    "four_sections_4": bytes([4, 0, 0, 0]),
    "three_sections": put(MAP_P, (0, 3)),
    "three_sections_4": CLASSED[:4],
    "three_sections_39": CLASSED[:39],
    "three_sections_40": CLASSED[:40],
    "third_kind_4": put(CLASSED, (7, 4)),
    "third_kind_2": put(CLASSED, (7, 2)),
    "kinds_1_3": put(MAP_P, (4, 3)),
    "third_start": put(CLASSED, (8, 115)),
    "third_byte_less": CLASSED[:-1],
    "third_byte_more": CLASSED + b"\xff",
    "third_of_4_bytes": put(CLASSED, (9, 4))[:-1],
    "third_of_6_bytes": put(CLASSED, (9, 6)) + b"\xff",
    "third_of_5_words": put(CLASSED, (9, 20)) + bytes(15),
    "third_and_a_bad_road": put(CLASSED, (10 + 3 * 4 + 2, 0)),
    "third_and_a_bad_place": put(CLASSED, (10 + 15 + 3, 1)),
    "kinds_swapped": put(MAP_P, (1, 2), (4, 1)),
    "first_start": put(MAP_P, (2, 24)),
    "second_start": put(MAP_P, (5, 84)),
    "one_byte_more": MAP_P + b"\0",
    "one_byte_less": MAP_P[:-1],
    "sums_wrap": put(MAP_P, (3, 2 ** 32 - 16), (5, 12), (6, 92)),
    "roads_of_64_bytes": put(MAP_P, (3, 64), (5, 92), (6, 12)),
    "order_of_no_bytes": model.make_card([], []),
    "order_of_4097": card_of([], range(4_097)),
    "tail_is_n": card_of([(0, 1, 1), (2, 0, 1)], [0, 1]),
    "head_is_n": card_of([(0, 1, 1), (1, 0, 1), (0, 2, 1)], [0, 1]),
    "road_to_itself": card_of([(1, 1, 1)], [0, 1]),
    "base_0": card_of([(0, 1, 1), (0, 1, 0)], [0, 1]),
    "base_10000001": card_of([(0, 1, 1), (1, 0, SLOWEST), (0, 1, SLOWEST + 1)], [0, 1]),
    "base_of_32_bits": card_of([(0, 1, 1), (0, 1, NARROW - 1)], [0, 1]),
    "bad_road_of_4096": card_of(ring(4_096, 1_300) + [(7, 7, 7)], range(4_096)),
    "order_has_n": card_of([(0, 1, 1)], [0, 2]),
    "order_repeats": card_of([(0, 1, 1)], [2, 0, 1, 2]),
    "road_before_order": card_of([(0, 1, 1), (0, 3, 1)], [2, 2, 1]),
    "order_repeats_in_201": card_of([], [*range(200), 199]),
    "zeros_32768": bytes(32_768),
    "zeros_32769": bytes(32_769),
    "bytes_32768": FULL,
    "bad_road_32768": put(FULL, (7 + 3 * 2_699 + 2, 0)),
    "bad_road_32769": put(FULL, (7 + 3 * 2_699 + 2, 0)) + b"\0",
    "bytes_40000": FULL + bytes(40_000 - 32_768),
    "junctions_201": card_of(ring(201, 3), range(201)),
    "junctions_4096": card_of([], range(4_096)),
    "roads_801": card_of(ring(100, 801), range(100)),
    "junctions_201_no_room": card_of(STAR + ring(89, 300) + [(i, i + 1, 1) for i in range(89, 200)], range(201)),
    "pairs_4001": starred(4_001),
    "pairs_4001_classed": barred(starred(4_001), 5),
    "roads_801_classed": barred(card_of(ring(100, 801), range(100)), 5),
}
# accepted
MAPS = {
    "P": MAP_P,
    "one_junction": card_of([], [0]),
    "two_junctions": card_of([(0, 1, 1), (0, 1, SLOWEST), (0, 1, 1)], [1, 0]),
    "longest_before": card_of([(0, 1, 1_000_000), (1, 0, 1_000_001), (1, 2, SLOWEST - 1), (2, 0, SLOWEST)], [1, 0, 2]),
    "junctions_200": card_of(ring(200, 200), [*range(0, 200, 2), *range(1, 200, 2)]),
    "roads_800": card_of(ring(100, 800), range(100)),
    "both_limits": card_of(ring(200, 800), range(200)),
    "pairs_4000": starred(4_000),
    "slow_ring": card_of([(i, (i + 1) % 200, SLOWEST) for i in range(200)], range(200)),
    "P_classed": CLASSED,
    "P_classed_but_0": barred(MAP_P, 0, 1, 2, 3, 4, byte=1),
    "P_every_class": barred(MAP_P),
    "P_no_class": barred(MAP_P, 0, 1, 2, 3, 4, byte=0),
    "one_junction_classed": barred(card_of([], [0])),
    "largest_classed": barred(card_of(ring(200, 800), range(200)), *range(0, 800, 7)),  # 11,240 bytes
}


# ---- lines

def joined(*lines):
    return b"".join(line.encode() + b"\n" for line in lines)


EXAMPLE = ["aim 3", "est 0", "go 0", f"set 1 {CLOSED}", "go 0", "set 1 9"]
ASK = joined("aim 0", "est 0", "go 0")

NUMBERS = ["0", "3", "03", "4", "00000000000000000003", "000000000000000000003", "99999999999999999999", "100000000000000000000",
           *[str(NARROW + by) for by in (-2, -1, 0, 3)], f"0{NARROW - 1}", f"{NARROW - 1:020}", f"{NARROW + 3:020}",
           "18446744073709551613", "18446744073709551614", "18446744073709551615", "018446744073709551615", "18446744073709551616", "18446744073709551619",
           "12345678901234567890", "28446744073709551615", "", "-1", "+1", "1.0", "0x1", "1e0", "3a", "a"]
UNREADABLE = [
    "", " ", "  ", "\t", "\r", "\0", "0", "3", "aim", "est", "go", "set", "aim ", "est ", "go ", "set ", "set 1", "set 1 ", "set  1", "set 1  20", "set 1 20 ", "set 1 20 3",
    " aim 3", "aim  3", "aim 3 ", "aim 3 3", "aim3", "aim\t3", "aim 3\r", "aim 3\t", "aim 3\0", "\0aim 3", "aim\x003", "aim 3;", "aim 3,", "aim,3", "aim_3", "aim 3.", "#aim 3",
    "Aim 3", "AIM 3", "aIm 3", "Est 0", "Go 0", "Set 1 20", "estimate 0", "ai 3", "aimm 3", "im 3", "a 3", "gone 0", "g 0", "goo 0", "sets 1 20", "se 1 20", "est0", "go0", "set1 20", "set 1,20",
    "aim /", "aim :", "aim 3/", "aim 3:", "aim 0/3", "ok", "no", "no 0", "none", "est none", "quit", "help", "exit", "aim three", "go 0 1", "est 0 0", "set 1 closed", "set closed",
    "\u00e9", "aim \u0663", "aim \uff13", "\u00a0aim 3", "aim\u00a03", "\x7f", "\x1b[A", "\ufeffaim 3", "-", "aim -1", "go -0", "set -1 20", "set 1 -20", "set 1 +20",
    f"set 1 {NONE + 1}", f"set 99 {NONE + 1}", f"set {NONE + 1} 20", f"set {NONE + 1} {NONE + 1}", f"aim {NONE + 4}", "set 000000000000000000001 20", "set 1 000000000000000000020", "preview 1 15 0", "preview 0",
]
LONGEST = "set 00000000000000000001 00000000000000000020"  # 45 bytes, readable
# of more than 32 bits, with what is printed: a junction or road is out of range, whatever its lowest 32 bits are
WIDE = [("aim 3", "ok"), (f"aim {NARROW}", "no 12"), (f"aim {NARROW + 1}", "no 12"), ("est 0", "est 20"), (f"est {NARROW}", "no 12"),
        (f"go {NARROW}", "no 12"), (f"go {NARROW + 3}", "no 12"), (f"set {NARROW} 10", "no 10"), (f"set {NARROW + 1} 15", "no 10"),
        (f"set 0 {NARROW - 1}", "no 11"), (f"set 0 {NARROW - 2}", "no 11"), (f"set 0 {NARROW + 10}", "no 11"), (f"set 1 {CLOSED - NARROW}", "no 11"),
        (f"set 1 {UNASKED}", "no 11"), ("go 0", "go 20 3 0 1"), (f"set 0 {NONE + 1}", "no 0"), (f"aim {NONE + 1}", "no 0"), (f"aim {NONE}", "no 12"),
        (f"set {NONE} {NONE}", "no 10"), (f"set 1 {CLOSED}", "ok"), ("go 0", "go 25 4 2 3"), ("set 4 10000001", "no 11"), ("set 4 10000000", "ok"),
        ("set 4 1000001", "ok"), ("aim 0", "ok"), ("go 3", "go 1000001 2 4")]


def readable_numbers():
    lines = ["aim 3"]
    for number in NUMBERS:
        lines += [f"aim {number}", "est 0", f"est {number}", f"go {number}", f"set {number} 20", f"set 1 {number}", "go 0"]
    return joined(*lines)


def unreadable_lines():
    """After each of them the target, the live times and the estimates are as they were."""
    return joined("aim 3", "set 1 15", "go 0", *[text for line in UNREADABLE for text in (line, "go 0")], "est 0", "est 1")


def long_lines():
    lines = [LONGEST, f"set {NONE} {NONE}", f"set {NONE} {NONE} ", f"set {NONE} {NONE}0", LONGEST + " ", LONGEST + "0", "0" + LONGEST, " " * 46]
    for length in (45, 46, 47, 48, 63, 64, 65, 255, 256, 257):
        lines += ["aim 3".ljust(length), "go 0", "aim " + "3".rjust(length - 4, "0"), "a" * length, "go 0", "\0" * length, ("go 0\r" * length)[:length]]
    for length in (4_095, 4_096, 4_097, 10_000):
        lines += ["aim 3".ljust(length), "go 0"]
    return joined("aim 3", *lines, LONGEST, "go 0")


def at_chunks():
    """Lines that end before, at and after each multiple of 4,096 bytes, readable ones and others."""
    data = joined("aim 3")
    for block in range(1, 13):  # 49,000 bytes
        fill = 4_096 * block - len(data) - 7 + block
        data += b"x" * (fill - 1) + b"\n" + joined("go 0", "est 0", "set 1 15", "go 0", "set 1 10")
    return data


def endings():
    """Inputs by how they begin and end."""
    return {
        "nothing": b"",
        "newline": b"\n",
        "newlines": b"\n\n\n",
        "no_newline": b"aim 3\ngo 0",
        "blank_line_last": b"aim 3\ngo 0\n\n",
        "word_last": b"aim 3\ngo",
        "space_last": b"aim 3\ngo 0\n ",
        "number_alone": b"est 0",
        "carriage_returns": b"aim 3\r\ngo 0\r\n",
        "long_last": b"aim 3\ngo 0\n" + b"go 0 " * 2_000,
        "zero_byte_last": b"aim 3\ngo 0\n\0",
    }


def limits():
    """Times at both ends and one beyond, in 64 bits and in 32, on a map whose base times are 1 and 10,000,000."""
    times = [0, 1, 2, 999_999, 1_000_000, 1_000_001, SLOWEST - 1, SLOWEST, SLOWEST + 1, NARROW - 2, NARROW - 1, NARROW, NARROW + 1,
             NARROW + SLOWEST, UNASKED - NARROW, UNASKED, CLOSED]
    calls = [text for road in (0, 1, 2, 3) for time in times for text in (f"set {road} {time}", "go 0")]
    return joined("set 0 1", "go 0", "est 1", "aim 2", "aim 1", "go 0", *calls, "est 0", "set 0 1", "go 0", "go 1", "est 1", "aim 0", "est 1", "go 1", "go 0")


def refusals():
    """Each question that a line can meet, in its order: 12 before 13, 10 before 11."""
    return joined("est 0", "go 0", "est 4", "go 4", "aim 4", "est 3", "set 5 9", f"set 5 {UNASKED}", "set 1 9", f"set 1 {UNASKED}", f"set 1 {SLOWEST + 1}", f"set 1 {SLOWEST}", "aim 3", "aim 4", "go 4", "est 4",
                  "go 0", f"set 1 {CLOSED}", f"set 2 {CLOSED}", "go 0", "go 1", "go 2", "est 0", "est 1", "go 3", f"set 4 {CLOSED}", "aim 0", "go 3", "go 0", "est 3", "set 4 20", "go 3", "aim 1", "est 3", "go 3")


def cases_of_p():
    """P3 to P10, one after the other: each is undone before the next."""
    return joined("aim 3", "est 0", "est 1", "est 2", "est 3", "aim 1", "est 3", "aim 3", "go 0", f"set 1 {CLOSED}", "go 0", "set 1 15", "go 0", "set 1 10", "go 3",
                  "set 0 9", "set 0 10", f"set 0 {SLOWEST + 1}", f"set 1 {CLOSED}", f"set 2 {CLOSED}", "go 0")


def old_card():
    """Base times at the end of the range that document 01 had and past it, read as they stand."""
    return joined("aim 0", "est 1", "est 2", "go 1", "set 1 999999", "set 1 1000000", "set 1 1000001", f"set 3 {SLOWEST - 1}", f"set 3 {SLOWEST}", f"set 0 {SLOWEST}",
                  f"set 1 {SLOWEST}", "go 1", "go 2", "aim 2", "go 0", f"set 2 {SLOWEST + 1}", f"set 2 {CLOSED}", "go 0", "est 0")


def around(n):
    return joined(f"aim {n - 1}", "go 0", f"est 0", f"aim {n}", f"go {n - 1}", "aim 0", "go 1", f"go {n}", f"est {n}", "est 1", f"go {n - 1}")


# ---- towns

def least_degree(n, roads):
    """An order with few pairs: the junction with the fewest neighbours next, which then all become neighbours."""
    near = [set() for _ in range(n)]
    for tail, head, _ in roads:
        near[tail].add(head)
        near[head].add(tail)
    order, heap = [], [(len(near[v]), v) for v in range(n)]
    heapq.heapify(heap)
    done = set()
    while heap:
        degree, v = heapq.heappop(heap)
        if v in done or degree != len(near[v]):
            continue
        done.add(v)
        order.append(v)
        for u in near[v]:
            near[u] |= near[v] - {u}
            near[u].discard(v)
            heapq.heappush(heap, (len(near[u]), u))
    return order


def town(seed, wide, high, times):
    """Streets on a grid, both ways or one way, with a few longer roads; junctions and roads are numbered at random."""
    dice, n = Dice(seed), wide * high
    number, roads = shuffled(dice, range(n)), []
    for x in range(wide):
        for y in range(high):
            for u, v in ((x + 1, y), (x, y + 1)):
                if u < wide and v < high:
                    ends = [number[x * high + y], number[u * high + v]]
                    kind = dice.below(8)
                    roads += [(*ends, dice.pick(*times))] if kind else []
                    roads += [(*ends[::-1], dice.pick(*times))] if kind != 1 else []
    for _ in range(6):
        tail, head = shuffled(dice, range(n))[:2]
        roads.append((tail, head, 4 * dice.pick(*times)))
    roads = shuffled(dice, roads)[:MOST_ROADS]
    return dice, card_of(roads, least_degree(n, roads))


def trips(dice, card, calls):
    """A day of calls: mostly trips, between them delays and closures that begin and end, new targets and estimates, and a few refused or unreadable lines."""
    chart, lines = model.Map(card), []
    n, m, live = len(chart.order), len(chart.roads), list(chart.base)
    while len(lines) < calls:
        kind = dice.below(20) if lines else 8
        junction, road = dice.below(n), dice.below(m)
        changed = [i for i in range(m) if live[i] != chart.base[i]]
        if kind < 6:
            if changed and dice.below(3) == 0:
                road = dice.pick(*changed)
                time = chart.base[road]
            else:
                time = dice.pick(CLOSED, CLOSED, *[min(chart.base[road] * k, SLOWEST) for k in (2, 3, 10)])
            live[road] = time
            lines.append(f"set {road} {time}")
        elif kind < 9:
            lines.append(f"aim {junction}")
        elif kind < 11:
            lines.append(f"est {junction}")
        elif kind == 11:
            lines.append(dice.pick(f"set {road} {chart.base[road] - 1}", f"set {m} 7", f"go {n}", f"aim {n}", "est", f"set {road} {SLOWEST + 1}", f"go  {junction}"))
        else:
            lines.append(f"go {junction}")
    return joined(*lines)


def classed(card, share):
    """The card with a byte for each road; about one in so many bars class 0, and others bar other classes."""
    dice = Dice(share)
    return model.with_access(card, [dice.below(128) * 2 if dice.below(share) == 0 else dice.below(128) * 2 + 1 for _ in model.Map(card).roads])


TOWNS = {  # seed, width, height, base times, calls
    "town_a": (1, 20, 10, [*range(20, 90)], 400),
    "town_b": (2, 20, 10, [1, 2, 3], 400),
    "town_c": (3, 40, 5, [1, 60, SLOWEST], 300),
    "town_d": (4, 10, 10, [10, 20, 30], 300),
    "hamlet_a": (5, 3, 3, [1, 2, 3], 200),
    "hamlet_b": (6, 5, 2, [1, 2], 200),
    "hamlet_c": (7, 4, 4, [2, 4, 6], 200),
    "village": (8, 8, 5, [5, 6, 7, 8], 300),
}


# ---- the runs

Run = namedtuple("Run", "card lines")


def made():
    """The cards and lines by name, and the runs."""
    cards, lines, runs = {**CARDS, **MAPS}, {"ask": ASK}, []

    def run(card, name, data):
        assert lines.setdefault(name, data) == data
        runs.append(Run(card, name))

    run("P", "example", joined(*EXAMPLE))
    for name, card in CARDS.items():
        assert refusal_of(card or b""), name
        run(name, "ask", ASK)
    for name, data in endings().items():
        run("P", name, data)
    for name, data in (("cases_of_p", cases_of_p()), ("refusals", refusals()), ("numbers", readable_numbers()), ("unreadable", unreadable_lines()),
                       ("long_lines", long_lines()), ("chunks", at_chunks()), ("wide_numbers", joined(*[line for line, _ in WIDE]))):
        run("P", name, data)
    assert printed(MAP_P, lines["wide_numbers"]) == [answer for _, answer in WIDE]
    assert printed(MAP_P, joined(*EXAMPLE)) == ["ok", "est 20", "go 20 3 0 1", "ok", "go 25 4 2 3", "no 11"]
    run("two_junctions", "limits", limits())
    run("longest_before", "old_card", old_card())
    run("one_junction", "around_1", around(1))
    run("one_junction_classed", "around_1", around(1))
    for name in ("junctions_200", "both_limits", "slow_ring", "largest_classed"):
        run(name, "around_200", around(200))
    for name in ("P_classed", "P_classed_but_0", "P_every_class", "P_no_class"):
        run(name, "cases_of_p", cases_of_p())
    run("roads_800", "around_100", around(100) + joined("set 799 7", "set 799 8", "set 799 9", "set 800 8", "go 1"))
    run("pairs_4000", "around_180", around(180) + joined("aim 88", "est 1", "go 1", "aim 179", "go 170", "go 89"))
    for name, (seed, wide, high, times, calls) in TOWNS.items():
        dice, cards[name] = town(seed, wide, high, times)
        assert refusal_of(cards[name]) is None, name
        run(name, name, trips(dice, cards[name], calls))
    for name, share in (("town_a", 10), ("town_b", 5), ("hamlet_a", 3), ("village", 4)):
        cards[f"{name}_classed"] = classed(cards[name], share)
        run(f"{name}_classed", name, lines[name])
    return cards, lines, runs


def files():
    """The files by their place in crates/, and what each run prints."""
    cards, lines, runs = made()
    found = {"route_unit/data/unit.card": MAP_P, "route_unit/stdin": lines["example"]}
    data, args, passed, texts = "program_scenarios/data/", [], [], {}
    found[f"{data}folder.card/a_file"] = b""
    for run in runs:
        shared = run.lines in ("ask", "around_200") or "_classed" in run.card or run.card.startswith("P_")
        name = f"{run.card}.{run.lines}" if shared else run.lines
        texts[run] = printed(cards[run.card], lines[run.lines])
        if cards[run.card] is not None:
            found[f"{data}{run.card}.card"] = cards[run.card]
        found[f"{data}{run.lines}.lines"] = lines[run.lines]
        answer = "_".join(["no", *texts[run][0].split()[1:]]) if run.lines == "ask" else name
        found[f"{data}{answer}.printed"] = joined(*texts[run])
        args += [f"{run.card}.card", f"{run.lines}.lines", f"{answer}.printed"]
        passed.append(f"passed {run.card}.card {run.lines}.lines {answer}.printed")
    found["route_unit/stdout"] = joined(*texts[runs[0]])
    found["program_scenarios/args"] = joined(*args)
    found["program_scenarios/stdout"] = joined(*passed)
    return found, texts


def kinds(texts):
    """How often each kind of line is printed."""
    words = Counter()
    for text in (text for run in texts.values() for text in run):
        words[" ".join(text.split()[:2]) if text[:2] in ("no",) or text == "est none" else text.split()[0]] += 1
    return words


def main(options):
    if options not in ([], ["--check"], ["--report"]):
        sys.exit(__doc__)
    found, texts = files()
    counts = kinds(texts)
    assert {f"no {number}" for number in (*range(7), 8, *range(10, 14), 15)} | {"ok", "est", "est none", "go"} == set(counts), counts
    folder = CRATES / "program_scenarios" / "data"
    stray = {f"program_scenarios/data/{path.relative_to(folder)}" for path in folder.rglob("*") if path.is_file()} - set(found)
    if options == ["--report"]:
        for kind, count in sorted(counts.items()):
            print(f"{count:6}  {kind}")
        print(f"{len(texts):6}  runs")
    if options == ["--check"]:
        for name, data in found.items():
            path = CRATES / name
            if not path.is_file() or path.read_bytes() != data:
                sys.exit(f"scenarios: crates/{name} is not what tools/scenarios.py writes")
        if stray:
            sys.exit(f"scenarios: not written by tools/scenarios.py: {', '.join(sorted(stray))}")
    if not options:
        for name in stray:
            (CRATES / name).unlink()
        for name, data in found.items():
            path = CRATES / name
            path.parent.mkdir(parents=True, exist_ok=True)
            path.write_bytes(data)


if __name__ == "__main__":
    main(sys.argv[1:])
