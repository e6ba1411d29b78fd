/*
 * Map P of document 01 through route_unit.h: prints cases P1 to P10, and of document 02 the roads by tail, A1, previews, A2, lists of
 * stops, A3, with a byte for each road vehicle classes, A6, the limits of times and of the pairs' two areas, A7, on another map of its
 * size equal keys, A5, and on a longer one a total past 32 bits; and ends with 0 only if all are as the documents have them.
 */
#include "route_unit.h"

#include <stdbool.h>
#include <stdio.h>
#include <string.h>

enum { N = 4, M = 5, PAIRS = 5, CARD = 28 + 12 * M + 4 * N, LONGER = CARD + 12 + M, LENT = N + 2, ROUTE = 3 * N + 2 };

#define UNTOUCHED 2779096485u

/* The nine areas, with room for so many pairs. */
#define AREAS(room) \
    ranks, N, pairs, 2 * (room), times, 2 * (room), live, M, down, N, estimates, N, elapsed, N, leaving, M, groups, N + 1

/* The two words of a time in a script. */
#define TIME(time) UNIT_LOW(time), UNIT_HIGH(time)

static const uint32_t ROADS[3 * M] = {0, 1, 10, 1, 3, 10, 0, 2, 15, 2, 3, 10, 3, 0, 20};
static const uint32_t ORDER[N] = {1, 2, 0, 3};
static const uint32_t WORDS[7] = {2, 1, 28, 60, 2, 88, 16};
static const uint32_t RANKS_OF_PAIRS[2 * PAIRS] = {0, 2, 0, 3, 1, 2, 1, 3, 2, 3};
static const uint64_t TIMES_OF_PAIRS[2 * PAIRS] = {UNIT_NONE, 10, 10, UNIT_NONE, UNIT_NONE, 15, 10, UNIT_NONE, 20, 20};
/* From 0 to 3 all keys are 3. It has as many junctions, roads and pairs. */
static const uint32_t TIED_ROADS[3 * M] = {2, 1, 1, 0, 1, 2, 0, 2, 1, 1, 3, 1, 3, 0, 20}, TIED_ORDER[N] = {2, 3, 0, 1};
static const uint32_t BY_TAIL[M] = {0, 2, 1, 3, 4}, STARTS[N + 1] = {0, 2, 3, 4, 5};

/* With a third section: a table of three entries, and a byte for each road. Class 0 may not use road 1. */
static const uint32_t CLASS_WORDS[10] = {3, 1, 40, 60, 2, 100, 16, 3, 116, M};
static const uint8_t CLASS_BYTES[M] = {255, 254, 255, 255, 255};

static uint8_t card[LONGER];
static size_t card_len = CARD;
static uint32_t ranks[N], pairs[2 * PAIRS], leaving[M], groups[N + 1];
static uint64_t times[2 * PAIRS], live[M], down[N], estimates[N], elapsed[N];
static uint32_t route[ROUTE], entries[LENT];
static uint64_t work[2 * N + 1];
static UnitHeader header;
static bool all_right = true;

static bool same(const uint32_t *words, const uint32_t *wanted, size_t len) {
    return len == 0 || memcmp(words, wanted, len * sizeof *words) == 0;
}

static bool same_times(const uint64_t *words, const uint64_t *wanted, size_t len) {
    return memcmp(words, wanted, len * sizeof *words) == 0;
}

static bool filled(const uint32_t *words, size_t len, uint32_t with) {
    for (size_t i = 0; i < len; i++) {
        if (words[i] != with) {
            return false;
        }
    }
    return true;
}

static bool times_filled(const uint64_t *words, size_t len, uint64_t with) {
    for (size_t i = 0; i < len; i++) {
        if (words[i] != with) {
            return false;
        }
    }
    return true;
}

static void fill(uint32_t *words, size_t len, uint32_t with) {
    for (size_t i = 0; i < len; i++) {
        words[i] = with;
    }
}

static void fill_times(uint64_t *words, size_t len, uint64_t with) {
    for (size_t i = 0; i < len; i++) {
        words[i] = with;
    }
}

static void told(const char *what, bool right) {
    printf("%-64s %s\n", what, right ? "ok" : "WRONG");
    all_right = all_right && right;
}

/* Keeps the header for the next call. The number of the refusal, or 0. */
static uint32_t handed(UnitAnswer answer) {
    header = answer.header;
    return answer.question;
}

static uint32_t prepare(size_t room) {
    fill(ranks, N, UNTOUCHED);
    fill(leaving, M, UNTOUCHED);
    fill(groups, N + 1, UNTOUCHED);
    return handed(unit_prepare(card, card_len, AREAS(room)));
}

static uint32_t set(uint32_t road, uint64_t time) {
    return handed(unit_set(header, card, card_len, AREAS(PAIRS), road, time));
}

static uint32_t aim(uint32_t junction) {
    return handed(unit_aim(header, card, card_len, AREAS(PAIRS), junction));
}

/* A prepared map P with a target. */
static bool prepared_at(uint32_t target) {
    return prepare(PAIRS) == 0 && aim(target) == 0 && header.aimed == 1 && header.target == target;
}

static bool estimated(uint32_t junction, uint64_t wanted) {
    UnitAnswer answer = unit_estimate(header, card, card_len, AREAS(PAIRS), junction);
    return handed(answer) == 0 && answer.total == wanted && estimates[junction] == wanted;
}

/* A go of a class: its answer, the roads and the log, and the rest of both areas untouched. */
static bool gone_as(uint32_t vehicle_class, uint32_t start, uint32_t question, uint64_t total, uint32_t roads, const uint32_t *way,
    uint32_t count, const uint32_t *log) {
    fill(route, LENT, UNTOUCHED);
    fill(entries, LENT, UNTOUCHED);
    UnitAnswer answer = unit_go(header, card, card_len, AREAS(PAIRS), route, LENT, entries, LENT, vehicle_class, start);
    return handed(answer) == question && answer.place == 0 && answer.total == total && answer.roads == roads &&
        answer.count == count && same(route, way, roads) && filled(route + roads, LENT - roads, UNTOUCHED) &&
        same(entries, log, count) && filled(entries + count, LENT - count, UNTOUCHED);
}

static bool gone(uint32_t start, uint32_t question, uint64_t total, uint32_t roads, const uint32_t *way, uint32_t count,
    const uint32_t *log) {
    return gone_as(0, start, question, total, roads, way, count, log);
}

/* A preview: the number of its refusal or 0, its two totals, and whether they are compared, with their change. */
static bool previewed_as(uint32_t vehicle_class, size_t work_len, uint32_t road, uint64_t time, uint32_t start, uint32_t question,
    uint64_t total, uint64_t then, uint32_t compared, int64_t change) {
    uint64_t live_before[M], elapsed_before[N];
    memcpy(live_before, live, sizeof live);
    memcpy(elapsed_before, elapsed, sizeof elapsed);
    fill_times(work, 2 * N + 1, UNTOUCHED);
    UnitAnswer answer = unit_preview(header, card, card_len, AREAS(PAIRS), work, work_len, vehicle_class, road, time, start);
    return handed(answer) == question && answer.place == 0 && answer.total == total && answer.count == 0 && answer.roads == 0 &&
        answer.then == then && answer.compared == compared && answer.change == change &&
        same_times(live, live_before, M) && same_times(elapsed, elapsed_before, N) &&
        times_filled(work + (question == 0 ? work_len : 0), 2 * N + 1 - (question == 0 ? work_len : 0), UNTOUCHED);
}

static bool previewed(size_t work_len, uint32_t road, uint64_t time, uint32_t start, uint32_t question, uint64_t total,
    uint64_t then, uint32_t compared, int64_t change) {
    return previewed_as(0, work_len, road, time, start, question, total, then, compared, change);
}

/* The same where no question refuses it. */
static bool foreseen(uint32_t road, uint64_t time, uint64_t total, uint64_t then, uint32_t compared, int64_t change) {
    return previewed(2 * N, road, time, 0, 0, total, then, compared, change);
}

/* Refused by each of its questions; of a road at 60, a time from its base time 10 on is allowed. */
static bool unforeseen(void) {
    return prepare(PAIRS) == 0 && previewed(2 * N, 1, 15, 0, 13, 0, 0, 0, 0) && aim(3) == 0 && set(1, 60) == 0 &&
        previewed(2 * N - 1, M, 9, N, 9, 0, 0, 0, 0) && previewed(2 * N + 1, 1, 15, 0, 9, 0, 0, 0, 0) &&
        previewed(2 * N, M, 9, N, 10, 0, 0, 0, 0) && previewed(2 * N, 1, 9, N, 11, 0, 0, 0, 0) &&
        previewed(2 * N, 1, 10, N, 12, 0, 0, 0, 0) && times_filled(estimates, N, UNIT_UNASKED);
}

/* What a list of stops answers, the roads and the log that it leaves first in route and log, and the target. */
typedef struct Journey {
    uint32_t question, leg, legs;
    uint64_t whole, totals[2];
    uint32_t roads[2], ways, way[3], count, log[4], target;
} Journey;

/* A list of stops on a route area and a log area of so many entries: what it answers, and all that it leaves of both. */
static bool called_as(uint32_t vehicle_class, const uint32_t *stops, size_t number, size_t route_len, size_t log_len,
    const Journey *wanted) {
    static const uint64_t no_totals[UNIT_MOST_LEGS];
    static const uint32_t no_roads[UNIT_MOST_LEGS];
    fill(route, ROUTE, UNTOUCHED);
    fill(entries, LENT, UNTOUCHED);
    UnitStops answer = unit_stops(header, card, card_len, AREAS(PAIRS), route, route_len, entries, log_len, vehicle_class,
        stops, number);
    header = answer.header;
    return answer.question == wanted->question && answer.leg == wanted->leg && answer.legs == wanted->legs &&
        answer.whole == wanted->whole && memcmp(answer.totals, wanted->totals, sizeof wanted->totals) == 0 &&
        memcmp(answer.roads, wanted->roads, sizeof wanted->roads) == 0 &&
        memcmp(answer.totals + 2, no_totals, sizeof no_totals - sizeof wanted->totals) == 0 &&
        memcmp(answer.roads + 2, no_roads, sizeof no_roads - sizeof wanted->roads) == 0 &&
        same(route, wanted->way, wanted->ways) && filled(route + wanted->ways, ROUTE - wanted->ways, UNTOUCHED) &&
        same(entries, wanted->log, wanted->count) && filled(entries + wanted->count, LENT - wanted->count, UNTOUCHED) &&
        header.aimed == 1 && header.target == wanted->target && header.n == N && header.m == M && header.pairs == PAIRS &&
        header.card == card_len;
}

static bool called(const uint32_t *stops, size_t number, size_t route_len, size_t log_len, const Journey *wanted) {
    return called_as(0, stops, number, route_len, log_len, wanted);
}

/* Refused by 16, 12 and 14, by the first that says no, and nothing is altered. */
static bool uncalled(void) {
    static const Journey wrong_number = {.question = 16, .target = 1}, no_junction = {.question = 12, .target = 1};
    static const Journey too_short = {.question = 14, .target = 1};
    static const uint32_t far[] = {0, 3, N}, there_and_back[] = {0, 3, 0};
    uint32_t many[33];
    fill(many, 33, N);
    return prepared_at(1) && estimated(0, 10) && called(many, 0, 0, 0, &wrong_number) && called(far, 1, 3 * N, N, &wrong_number) &&
        called(many, 33, 0, 0, &wrong_number) && called(far, 3, 3 * N, N, &no_junction) && called(far, 3, 0, 0, &no_junction) &&
        called(there_and_back, 3, 3 * N - 1, N, &too_short) && called(there_and_back, 3, 3 * N, N - 1, &too_short) &&
        estimates[0] == 10 && times_filled(elapsed, N, UNIT_NONE);
}

static bool writes_and_reads(void) {
    uint32_t first = UNTOUCHED, second = UNTOUCHED, place = UNTOUCHED;
    bool written = card_write(ROADS, 3 * M, ORDER, N, card, CARD, &place) == 0 && place == 0;
    for (size_t i = 0; i < 7; i++) {
        const uint8_t *word = card + 4 * i;
        written = written && (word[0] | (uint32_t)word[1] << 8 | (uint32_t)word[2] << 16 | (uint32_t)word[3] << 24) == WORDS[i];
    }
    written = written && card_read(card, CARD, &first, &second) == 0 && first == N && second == M;
    uint8_t bad[CARD];
    memcpy(bad, card, CARD);
    bad[28 + 12 + 4] = 9;
    return written && card_read(bad, CARD, &first, &second) == 5 && first == 1 && second == 0 &&
        card_read(bad, 27, &first, &second) == 1 && first == 0 && second == 0 && card_read(bad, 3, &first, &second) == 1;
}

/* Adds the third section to the card that is there; the header of its preparing has its length. */
static bool with_classes(void) {
    uint32_t first = UNTOUCHED, second = UNTOUCHED;
    memmove(card + 40, card + 28, CARD - 28);
    for (size_t i = 0; i < 40; i++) {
        card[i] = (uint8_t)(CLASS_WORDS[i / 4] >> (i % 4 * 8));
    }
    memcpy(card + CARD + 12, CLASS_BYTES, M);
    card_len = LONGER;
    return card_read(card, LONGER, &first, &second) == 0 && first == N && second == M &&
        card_read(card, LONGER - 1, &first, &second) == 3 && card_read(card, 39, &first, &second) == 1 &&
        prepared_at(3) && header.card == LONGER;
}

/* Class 0 goes round road 1, which stays open; class 1 takes it. Estimates are over all roads. */
static bool barred(void) {
    static const uint32_t roads_01[] = {0, 1}, roads_23[] = {2, 3}, log_3[] = {0, 1, 3}, log_4[] = {0, 1, 2, 3}, ends[] = {0, 3};
    static const Journey round = {0, 0, 1, 25, {25, 0}, {2, 0}, 2, {2, 3}, 4, {0, 1, 2, 3}, 3};
    static const Journey straight = {0, 0, 1, 20, {20, 0}, {2, 0}, 2, {0, 1}, 3, {0, 1, 3}, 3};
    return prepared_at(3) && gone_as(0, 0, 0, 25, 2, roads_23, 4, log_4) && live[1] == 10 &&
        gone_as(1, 0, 0, 20, 2, roads_01, 3, log_3) && gone_as(7, 0, 0, 20, 2, roads_01, 3, log_3) &&
        gone_as(0, 0, 0, 25, 2, roads_23, 4, log_4) && estimated(0, 20) &&
        previewed_as(0, 2 * N, 1, 60, 0, 0, 25, 25, 1, 0) && previewed_as(1, 2 * N, 1, 60, 0, 0, 20, 25, 1, 5) &&
        called_as(0, ends, 2, 2 * N, N, &round) && called_as(1, ends, 2, 2 * N, N, &straight) && live[1] == 10;
}

/* 18 comes after 9, of stops after 16 too, and before the others; a header with another length of the card is refused by 9. */
static bool no_class(void) {
    static const uint32_t ends[] = {N, N};
    static const Journey wrong_number = {.question = 16, .target = 3}, refused = {.question = 18, .target = 3};
    static const Journey lengths = {.question = 9, .target = 3};
    bool asked = prepared_at(3) && gone_as(8, N, 18, 0, 0, NULL, 0, NULL) && gone_as(UINT32_MAX, 0, 18, 0, 0, NULL, 0, NULL) &&
        previewed_as(8, 2 * N, M, 9, N, 18, 0, 0, 0, 0) && previewed_as(8, 2 * N - 1, M, 9, N, 9, 0, 0, 0, 0) &&
        called_as(8, ends, 1, 0, 0, &wrong_number) && called_as(8, ends, 2, 0, 0, &refused);
    card_len = LONGER - 1;
    header.card = LONGER;
    bool shorter = gone_as(8, N, 9, 0, 0, NULL, 0, NULL) && header.card == LONGER && set(M, 9) == 9 && aim(N) == 9;
    card_len = LONGER;
    header.card = CARD;
    bool forged = gone_as(0, 0, 9, 0, 0, NULL, 0, NULL) && previewed_as(0, 2 * N, 1, 60, 0, 9, 0, 0, 0, 0) && header.card == CARD;
    card_len = CARD;
    forged = forged && called_as(8, ends, 1, 0, 0, &lengths);
    card_len = LONGER;
    header.card = LONGER;
    return asked && shorter && forged;
}

static bool p2(void) {
    bool refused = prepare(PAIRS - 1) == 8 && header.n == 0 && header.m == 0 && header.pairs == 0 && header.aimed == 0 &&
        filled(ranks, N, 0) && filled(pairs, 2 * (PAIRS - 1), 0) && times_filled(times, 2 * (PAIRS - 1), 0) &&
        times_filled(live, M, 0) && times_filled(down, N, 0) && times_filled(estimates, N, 0) && times_filled(elapsed, N, 0) &&
        filled(leaving, M, 0) && filled(groups, N + 1, 0) && header.card == 0;
    return refused && prepare(PAIRS) == 0 && header.n == N && header.m == M && header.pairs == PAIRS && header.card == CARD &&
        header.aimed == 0;
}

static bool listed(void) {
    return same(leaving, BY_TAIL, M) && same(groups, STARTS, N + 1);
}

/* The roads by tail after preparing, and after each of the six calls. */
static bool by_tail(void) {
    static const uint32_t road_1[] = {1}, log_13[] = {1, 3}, there_and_back[] = {0, 3, 0};
    static const Journey by_1 = {0, 0, 2, 40, {20, 20}, {2, 1}, 3, {0, 1, 4}, 3, {3, 0, 3}, 0};
    return prepare(PAIRS) == 0 && listed() && aim(3) == 0 && listed() && set(3, UNIT_CLOSED) == 0 && listed() &&
        estimated(0, 20) && listed() && gone(1, 0, 10, 1, road_1, 2, log_13) && listed() &&
        foreseen(1, 16, 20, 26, 1, 6) && listed() && called(there_and_back, 3, 3 * N, N, &by_1) && listed();
}

static bool p9(void) {
    return prepare(PAIRS) == 0 && set(0, 9) == 11 && live[0] == 10 && set(0, 10) == 0 && live[0] == 10 &&
        set(0, 10000001) == 11 && live[0] == 10;
}

/* The range of times begins at the base time and ends at 10,000,000; what was the mark in 32 bits is a number past it. */
static bool limits(void) {
    static const uint64_t refused[] = {0, 9, 10000001, UINT32_MAX, UINT32_MAX - 1u, UNIT_UNASKED, UNIT_CLOSED >> 1, UNIT_CLOSED << 32};
    bool right = prepared_at(3) && set(1, 10000000) == 0 && live[1] == 10000000 && set(1, 1000001) == 0 && live[1] == 1000001;
    for (size_t i = 0; i < sizeof refused / sizeof *refused; i++) {
        right = right && set(1, refused[i]) == 11 && previewed(2 * N, 1, refused[i], 0, 11, 0, 0, 0, 0) && live[1] == 1000001;
    }
    return right && set(1, (UINT64_C(1) << 32) + 10) == 11 && foreseen(1, UNIT_CLOSED, 25, 25, 1, 0) && set(1, UNIT_CLOSED) == 0 &&
        live[1] == UNIT_CLOSED;
}

/* Pairs and times have room for the same whole number of pairs; if not, 7 in preparing and 9 in a call. */
static bool rooms(void) {
    static const size_t lengths[][2] = {{2 * PAIRS, 2 * PAIRS - 2}, {2 * PAIRS - 2, 2 * PAIRS}, {2 * PAIRS, 2 * PAIRS - 1},
        {2 * PAIRS - 1, 2 * PAIRS - 1}, {2 * PAIRS, 0}};
    bool right = true;
    for (size_t i = 0; i < sizeof lengths / sizeof *lengths; i++) {
        const size_t pairs_len = lengths[i][0], times_len = lengths[i][1];
        right = right && prepared_at(3);
        right = right && handed(unit_set(header, card, card_len, ranks, N, pairs, pairs_len, times, times_len, live, M, down, N,
            estimates, N, elapsed, N, leaving, M, groups, N + 1, 0, 11)) == 9 && live[0] == 10 && header.n == N;
        right = right && handed(unit_prepare(card, card_len, ranks, N, pairs, pairs_len, times, times_len, live, M, down, N,
            estimates, N, elapsed, N, leaving, M, groups, N + 1)) == 7 && header.n == 0 && live[0] == 10;
    }
    return right;
}

/*
 * The program's example as one script: aim 3, est 0, go 0, set 1 closed, go 0, set 1 9. Between them a go with too short a log, one of
 * a class that is none, and previews: a shorter, a missing and a refused one. Behind them lists of stops: there and back, one stop
 * alone, and there and back with road 4 closed. Then a kind that is none, which ends the script: the aim behind it is not made, and its
 * answer's words are as they were. The first calls, so many of so many words, are a script before it, which it goes on from.
 */
static bool replayed(size_t first_calls, size_t first_len) {
    enum { CALLS = 15, SCRIPT = 76 };
    static const uint32_t script[SCRIPT] = {
        1, 3, 2, 0, 3, 0, 0, N, LENT, 0, 1, TIME(UNIT_CLOSED), 3, 1, 0, N, N - 1, 3, 7, 0, ROUTE + 1, N, 3, 8, 0, N, N,
        4, 2, 1, TIME(10), 0, 4, 3, 2, TIME(UNIT_CLOSED), 0, 4, 4, 1, TIME(9), 0, 0, 1, TIME(9),
        5, 5, 3, 3 * N, N, 0, 3, 0, 5, 8, 1, ROUTE, N, 0, 0, 4, TIME(UNIT_CLOSED), 5, 6, 3, ROUTE + 1, LENT, 0, 3, 0,
    };
    static const uint64_t first_words[CALLS][4] = {
        {0, 0, 0, 0}, {0, 20, 0, 0}, {0, 20, 3, 2}, {0, 0, 0, 0}, {14, 0, 0, 0}, {0, 25, 4, 2}, {18, 0, 0, 0},
        {0, 25, 20, (uint64_t)-5}, {0, 25, UNIT_NONE, 0}, {11, 0, 0, 0}, {11, 0, 0, 0},
        {0, 45, 0, 2}, {16, 0, 0, 0}, {0, 0, 0, 0}, {17, 1, 0, 0},
    };
    static const uint64_t legs[4] = {25, 2, 20, 1};
    static const uint32_t roads_left[] = {2, 3, 4}, log_left[] = {3, 1, 2, 3}, ended[] = {6, 1, 0};
    static uint64_t out[(CALLS + 1) * UNIT_ANSWER_WORDS], wanted[(CALLS + 1) * UNIT_ANSWER_WORDS];
    uint32_t words[SCRIPT + 3];
    memcpy(words, script, sizeof script);
    memcpy(words + SCRIPT, ended, sizeof ended);
    fill_times(out, (CALLS + 1) * UNIT_ANSWER_WORDS, 7);
    fill_times(wanted + CALLS * UNIT_ANSWER_WORDS, UNIT_ANSWER_WORDS, 7);
    for (size_t i = 0; i < CALLS; i++) {
        memcpy(wanted + UNIT_ANSWER_WORDS * i, first_words[i], sizeof first_words[i]);
    }
    memcpy(wanted + UNIT_ANSWER_WORDS * 11 + 4, legs, sizeof legs);
    fill(route, ROUTE, UNTOUCHED);
    fill(entries, LENT, UNTOUCHED);
    fill_times(work, 2 * N + 1, UNTOUCHED);
    const size_t first_out = first_calls * UNIT_ANSWER_WORDS;
    bool prepared = prepare(PAIRS) == 0;
    header = unit_replay(header, card, card_len, AREAS(PAIRS), route, ROUTE, entries, LENT, work, 2 * N, words, first_len,
        out, first_out);
    header = unit_replay(header, card, card_len, AREAS(PAIRS), route, ROUTE, entries, LENT, work, 2 * N, words + first_len,
        SCRIPT + 3 - first_len, out + first_out, (CALLS + 1) * UNIT_ANSWER_WORDS - first_out);
    return prepared && header.target == 0 && header.aimed == 1 && memcmp(out, wanted, sizeof out) == 0 &&
        same(route, roads_left, 3) && filled(route + 3, ROUTE - 3, UNTOUCHED) && same(entries, log_left, 4) &&
        filled(entries + 4, LENT - 4, UNTOUCHED) && work[2 * N] == UNTOUCHED;
}

/* A one-way line of roads with the longest times, on areas of its own. Its total, 4,300,000,000, has more than 32 bits. */
static bool past_32_bits(void) {
    enum { ROADS_ON = 430, JUNCTIONS = ROADS_ON + 1 };
    static uint8_t long_card[28 + 12 * ROADS_ON + 4 * JUNCTIONS];
    static uint32_t roads[3 * ROADS_ON], order[JUNCTIONS], way[JUNCTIONS], log[JUNCTIONS];
    static uint32_t long_ranks[JUNCTIONS], long_pairs[2 * ROADS_ON], long_leaving[ROADS_ON], long_groups[JUNCTIONS + 1];
    static uint64_t long_times[2 * ROADS_ON], long_live[ROADS_ON], long_down[JUNCTIONS], long_estimates[JUNCTIONS];
    static uint64_t long_elapsed[JUNCTIONS], long_work[2 * JUNCTIONS];
    const uint64_t whole = ROADS_ON * UINT64_C(10000000);
    uint32_t place;
    for (uint32_t i = 0; i < JUNCTIONS; i++) {
        order[i] = i;
    }
    for (uint32_t i = 0; i < ROADS_ON; i++) {
        roads[3 * i] = i;
        roads[3 * i + 1] = i + 1;
        roads[3 * i + 2] = 10000000;
    }
#define LONG_AREAS long_ranks, JUNCTIONS, long_pairs, 2 * ROADS_ON, long_times, 2 * ROADS_ON, long_live, ROADS_ON, long_down, \
    JUNCTIONS, long_estimates, JUNCTIONS, long_elapsed, JUNCTIONS, long_leaving, ROADS_ON, long_groups, JUNCTIONS + 1
    bool made = card_write(roads, 3 * ROADS_ON, order, JUNCTIONS, long_card, sizeof long_card, &place) == 0;
    UnitAnswer prepared = unit_prepare(long_card, sizeof long_card, LONG_AREAS);
    UnitAnswer aimed = unit_aim(prepared.header, long_card, sizeof long_card, LONG_AREAS, ROADS_ON);
    UnitAnswer told_of = unit_estimate(aimed.header, long_card, sizeof long_card, LONG_AREAS, 0);
    UnitAnswer foretold = unit_preview(aimed.header, long_card, sizeof long_card, LONG_AREAS, long_work, 2 * JUNCTIONS,
        0, 7, UNIT_CLOSED, 0);
    UnitAnswer trip = unit_go(aimed.header, long_card, sizeof long_card, LONG_AREAS, way, JUNCTIONS, log, JUNCTIONS, 0, 0);
#undef LONG_AREAS
    return made && prepared.question == 0 && aimed.question == 0 && whole >> 32 == 1 && told_of.total == whole &&
        long_estimates[0] == whole && foretold.total == whole && foretold.then == UNIT_NONE && foretold.compared == 0 &&
        trip.question == 0 && trip.total == whole && trip.count == JUNCTIONS && trip.roads == ROADS_ON &&
        long_elapsed[ROADS_ON] == whole;
}

/* The last: it leaves another map's card. */
static bool tied(void) {
    static const uint32_t roads[] = {2, 0, 3}, log[] = {0, 2, 1, 3}, ends[] = {0, 3};
    static const Journey one_leg = {0, 0, 1, 3, {3, 0}, {3, 0}, 3, {2, 0, 3}, 4, {0, 2, 1, 3}, 3};
    uint32_t place;
    card_len = CARD;
    return card_write(TIED_ROADS, 3 * M, TIED_ORDER, N, card, CARD, &place) == 0 && prepared_at(3) &&
        gone(0, 0, 3, 3, roads, 4, log) && called(ends, 2, 2 * N, N, &one_leg);
}

int main(void) {
    static const uint32_t roads_01[] = {0, 1}, roads_23[] = {2, 3};
    static const uint32_t log_3[] = {0, 1, 3}, log_4[] = {0, 1, 2, 3}, log_of_3[] = {3}, log_2[] = {0, 1};
    static const uint32_t there_and_back[] = {0, 3, 0}, stay[] = {0, 0};
    static const Journey both_ways = {0, 0, 2, 40, {20, 20}, {2, 1}, 3, {0, 1, 4}, 3, {3, 0, 3}, 0};
    static const Journey no_way_back = {17, 1, 0, 0, {0, 0}, {0, 0}, 2, {0, 1}, 3, {3, 1, 3}, 0};
    static const Journey stayed = {0, 0, 1, 0, {0, 0}, {0, 0}, 0, {0}, 1, {0}, 0};

    told("card: written, 104 bytes; read, 4 junctions, 5 roads", writes_and_reads());
    told("P1  the five records: ranks in one area, times in another",
        prepare(PAIRS) == 0 && same(pairs, RANKS_OF_PAIRS, 2 * PAIRS) && same_times(times, TIMES_OF_PAIRS, 2 * PAIRS));
    told("P2  room for 4 pairs: 8, for 5: accepted", p2());
    told("P3  target 3: estimates 20, 10, 10, 0",
        prepared_at(3) && estimated(0, 20) && estimated(1, 10) && estimated(2, 10) && estimated(3, 0));
    told("P4  target 1: estimate of 3 is 30", prepared_at(1) && estimated(3, 30));
    told("P5  go 0 to 3: 20, log 0, 1, 3, roads 0, 1", prepared_at(3) && gone(0, 0, 20, 2, roads_01, 3, log_3));
    told("P6  road 1 closed: 25, log 0, 1, 2, 3, roads 2, 3",
        prepared_at(3) && set(1, UNIT_CLOSED) == 0 && gone(0, 0, 25, 2, roads_23, 4, log_4));
    told("P7  road 1 at 15: 25, log 0, 1, 2, 3, roads 0, 1",
        prepared_at(3) && set(1, 15) == 0 && gone(0, 0, 25, 2, roads_01, 4, log_4));
    told("P8  start 3, target 3: 0, count 1, no roads", prepared_at(3) && gone(3, 0, 0, 0, NULL, 1, log_of_3));
    told("P9  road 0 to 9: 11; to 10: taken; to 10,000,001: 11", p9());
    told("P10 roads 1 and 2 closed: 15, count 2",
        prepared_at(3) && set(1, UNIT_CLOSED) == 0 && set(2, UNIT_CLOSED) == 0 && gone(0, 15, 0, 0, NULL, 2, log_2));
    told("A1  roads by tail: 0, 2, 1, 3, 4; groups from 0, 2, 3, 4, 5", by_tail());
    told("A2  road 1 at 15: 20, then 25: 5 more", prepared_at(3) && foreseen(1, 15, 20, 25, 1, 5));
    told("A2  road 4 at 30: 20, then 20: 0", prepared_at(3) && foreseen(4, 30, 20, 20, 1, 0));
    told("A2  road 1 closed; at 10: 25, then 20: 5 less",
        prepared_at(3) && set(1, UNIT_CLOSED) == 0 && foreseen(1, 10, 25, 20, 1, -5));
    told("A2  road 1 closed; road 2 too: 25, then none",
        prepared_at(3) && set(1, UNIT_CLOSED) == 0 && foreseen(2, UNIT_CLOSED, 25, UNIT_NONE, 0, 0));
    told("A2  roads 1 and 2 closed; road 2 at 15: none, then 25",
        prepared_at(3) && set(1, UNIT_CLOSED) == 0 && set(2, UNIT_CLOSED) == 0 && foreseen(2, 15, UNIT_NONE, 25, 0, 0));
    told("A2  refused by 9 to 13, by the first that says no", unforeseen());
    told("A3  stops 0, 3, 0: 20 by 2 roads, 20 by 1: 40; roads 0, 1, 4",
        prepare(PAIRS) == 0 && called(there_and_back, 3, 3 * N, N, &both_ways));
    told("A3  road 4 closed: 17, leg 1; target 0, roads 0, 1",
        prepared_at(3) && set(4, UNIT_CLOSED) == 0 && called(there_and_back, 3, ROUTE, LENT, &no_way_back));
    told("A3  stops 0, 0: 0 by no road", prepared_at(3) && called(stay, 2, 2 * N, N, &stayed));
    told("A3  refused by 16, 12 and 14, by the first that says no", uncalled());
    told("replay: the program's example, previews and stops as scripts", replayed(0, 0) && replayed(4, 13));
    told("A6  a byte for each road: 121 bytes, which the header has", with_classes());
    told("A6  road 1 barred to class 0: 25, roads 2, 3; class 1: 20", barred());
    told("A6  class 8: 18, after 9 and 16, before the others", no_class());
    told("A7  times to 10,000,000, or closed, in 64 bits", limits());
    told("A7  pairs and times of different room: 7, then 9", rooms());
    told("A7  430 roads of 10,000,000: 4,300,000,000", past_32_bits());
    told("A5  equal keys by time: log 0, 2, 1, 3, roads 2, 0, 3", tied());
    return all_right ? 0 : 1;
}
