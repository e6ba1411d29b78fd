/*
 * The route unit for C and C++: reading and writing a card, preparing it, the six calls, and a script of calls.
 *
 * Link with libunit_c.a (`rt lib` in crates/unit_c leaves it in crates/unit_c/out). Words as "none" and "question 9" are
 * those of document 01, the areas leaving and groups, the calls preview and stops, the vehicle classes and times of 64 bits those of
 * document 02, A1 to A3, A6 and A7; the contract of each function, for every input, stands at its namesake in crates/unit_c.
 *
 * Times. A time, or a total of times, is a number of tenths of a second, in 64 bits. On a card it stands in a word of 32 bits, as all
 * numbers of a card do; the words of a card that was made when times were seconds are read as tenths, as they stand.
 *
 * Areas. A slice is a pointer and, right after it, its length in elements (bytes of a card, words of all others). Each
 * pointer is aligned for its type, is not null even where the length is 0, and points at as many elements as the length
 * says; what is lent to be written overlaps nothing else that is lent. That is all that a caller has to see to: whatever
 * the elements, the header and the numbers are, each function returns, reads and writes nothing outside the lengths
 * given, and writes only through pointers that are not const. No function keeps a pointer, has a state of its own or
 * allocates.
 *
 * Stack. Nothing proves how deep it goes: an estimate may ask for 4,095 others, one within the other, and so may a go, a
 * preview and a list of stops. On the deepest map that is tried, a line of 4,096 junctions in rank order, 2 MiB are enough for
 * every function.
 *
 * Classes. A card may have a third section, a byte for each road, of which bit c from the lowest, 0 to 7, lets vehicle class c in;
 * without it every class passes. A go, a preview and a list of stops take a class: a road barred to it counts as closed for that call,
 * and for no other. Estimates are over all roads, and no live time is altered.
 *
 * Lengths. With n junctions and m roads: card 28 + 12 m + 4 n bytes, or 40 + 13 m + 4 n with a byte for each road; of 32-bit words
 * ranks n, leaving m, groups n + 1, pairs two for each pair there is to be room for; of 64-bit words times as many as pairs, live m,
 * down, estimates and elapsed n, work 2 n. Pairs and times have room for the same number of pairs, at most 65,536, so 131,072 words
 * each. Of route and log, which are 32-bit words, at least n, of the route of a list of s stops at least s n.
 *
 * Refusals, by the number of the question that is answered with no, in order:
 *    1  card: at least 4 bytes; and, once 2 has passed its first word, 28 for a table of 2 sections or 40 for one of 3?
 *    2  card: is its first word 2 or 3; and, once 1 has passed the table, are the kinds 1, 2 or 1, 2, 3?
 *    3  card: do the bodies follow the table one after the other up to the card's end?
 *    4  card: 0 to 16,384 roads of 12 bytes, 1 to 4,096 junctions of 4 bytes; with a third section, a byte for each road?
 *    5  card: has each road two different ends below n and a base time from 1 to 10,000,000? With the first road that has not.
 *    6  card: is each entry of the order below n and new? With the first place, from 0, where it is not.
 *    7  prepare, write: has each area its length?
 *    8  prepare: do all kept pairs fit? If not, every area is filled with 0.
 *    9  calls: have the card and the nine areas, and of a preview its work area, the lengths that the header calls for, of at most
 *       4,096 junctions and 16,384 roads; and does the card's table name bodies for these inside the card?
 *   10  set, preview: is the road below m?
 *   11  set, preview: is the time from the road's base time to 10,000,000, or closed?
 *   12  aim, estimate, go, preview: is the junction below n? stops: is each of them?
 *   13  estimate, go, preview: is there a target?
 *   14  go: have route and log at least n words? stops: has route at least n words for each stop, and log at least n?
 *   15  go: does a chain of open roads of the class exist? If not: with the count; log, elapsed and estimates as the search leaves
 *       them.
 *   16  stops: are there 2 to 32? Asked right after 9.
 *   17  stops: has each leg a chain of open roads of the class? If not: with the first leg, from 0, that has none; header and areas as
 *       its aim and its go, which finds none, leave them.
 *   18  go, preview, stops: is the class below 8? Asked right after 9, of stops after 16.
 * All but 8, 15 and 17 leave every area as it was, lent ones too, and a call that is refused, but for 17, leaves the header as it was.
 */
#ifndef ROUTE_UNIT_H
#define ROUTE_UNIT_H

#include <stddef.h>
#include <stdint.h>

#ifdef __cplusplus
extern "C" {
#endif

/* The marks that stand in the place of a time: 18,446,744,073,709,551,615, and one below it. */
#define UNIT_NONE ((uint64_t)-1)    /* there is no chain: times, down, estimates, elapsed, the answers of estimate and preview */
#define UNIT_CLOSED ((uint64_t)-1)  /* the road is closed: live, the time of a set or a preview */
#define UNIT_UNASKED ((uint64_t)-2) /* not asked since the last aim: estimates */

/* The two words of a time in a script, in their order. */
#define UNIT_LOW(time) ((uint32_t)(uint64_t)(time))
#define UNIT_HIGH(time) ((uint32_t)((uint64_t)(time) >> 32))

/* A list of stops has at most so many legs. */
#define UNIT_MOST_LEGS 31

/* An answer of unit_replay has so many words of out: four, and two for each of UNIT_MOST_LEGS legs. */
#define UNIT_ANSWER_WORDS 66

/*
 * The header, which preparing makes and each call is handed and hands back. A caller keeps it and alters nothing in it: the words
 * handed out stand for the header itself. Of other words, any aimed but 0 is taken as 1, and with aimed 0 the target is not read.
 */
typedef struct UnitHeader {
    uint32_t n;      /* junctions */
    uint32_t m;      /* roads */
    uint32_t pairs;  /* kept pairs */
    uint32_t card;   /* bytes of the card */
    uint32_t aimed;  /* 1 if there is a target, 0 if not */
    uint32_t target; /* the target, or 0 */
} UnitHeader;

/* What preparing and the calls but stops hand back. What does not apply is 0. */
typedef struct UnitAnswer {
    UnitHeader header;  /* for the next call */
    uint32_t question;  /* 0 if accepted, or the number of the refusal */
    uint32_t place;     /* the road of 5, the place of 6 */
    uint32_t compared;  /* preview: 1 if both totals exist, so that there is a change, else 0 */
    uint64_t total;     /* go: the total; estimate: the least base total, or UNIT_NONE; preview: the present total, or UNIT_NONE */
    uint32_t count;     /* go: how many junctions stand first in log, also with 15 */
    uint32_t roads;     /* go: how many roads stand first in route */
    uint64_t then;      /* preview: the total with the time set, or UNIT_NONE */
    int64_t change;     /* preview: then minus total, if compared */
} UnitAnswer;

/* What a list of stops hands back. What does not apply is 0: of totals and roads the words past the last leg, after a refusal all. */
typedef struct UnitStops {
    UnitHeader header;                /* for the next call */
    uint32_t question;                /* 0 if accepted, or the number of the refusal */
    uint32_t leg;                     /* the leg of 17 */
    uint32_t legs;                    /* how many legs there are */
    uint64_t whole;                   /* the whole total: that of all legs */
    uint64_t totals[UNIT_MOST_LEGS];  /* of each leg its total */
    uint32_t roads[UNIT_MOST_LEGS];   /* and its number of roads */
} UnitStops;

/* The layout that the archive was built for; an array of -1 elements if a compiler has another. */
typedef char UnitHeader_is_24_bytes[sizeof(UnitHeader) == 24 && offsetof(UnitHeader, card) == 12 &&
    offsetof(UnitHeader, target) == 20 ? 1 : -1];
typedef char UnitAnswer_is_72_bytes[sizeof(UnitAnswer) == 72 && offsetof(UnitAnswer, question) == 24 &&
    offsetof(UnitAnswer, place) == 28 && offsetof(UnitAnswer, compared) == 32 && offsetof(UnitAnswer, total) == 40 &&
    offsetof(UnitAnswer, count) == 48 && offsetof(UnitAnswer, roads) == 52 && offsetof(UnitAnswer, then) == 56 &&
    offsetof(UnitAnswer, change) == 64 ? 1 : -1];
typedef char UnitStops_is_424_bytes[sizeof(UnitStops) == 424 && offsetof(UnitStops, question) == 24 &&
    offsetof(UnitStops, leg) == 28 && offsetof(UnitStops, legs) == 32 && offsetof(UnitStops, whole) == 40 &&
    offsetof(UnitStops, totals) == 48 && offsetof(UnitStops, roads) == 296 ? 1 : -1];

/*
 * Reads a card: questions 1 to 6. Returns 0 and writes n and m to *first and *second; or returns the refusal and writes
 * the place of 5 and 6, else 0, to *first and 0 to *second.
 */
uint32_t card_read(const uint8_t *card, size_t card_len, uint32_t *first, uint32_t *second);

/*
 * Writes the card of a map into area: roads has tail, head and base time of each road in turn, order the junctions from lowest rank to
 * highest, area 28 + 4 roads_len + 4 order_len bytes. It knows maps without classes alone. Returns 0; or a refusal by 4 to 7, with area
 * as it was. *place gets the place of 5 and 6, else 0.
 */
uint32_t card_write(const uint32_t *roads, size_t roads_len, const uint32_t *order, size_t order_len,
    uint8_t *area, size_t area_len, uint32_t *place);

/*
 * Prepares a card on the nine areas: questions 1 to 8. Fills ranks (by junction), pairs (low rank, high rank) and times (up time,
 * down time; what is unused of both is 0), leaving (road numbers by tail, ascending within a tail) and groups (where each tail's group
 * starts in leaving, at last m: the roads that leave v stand from groups[v] on, up to groups[v + 1]); sets each live time to its base
 * time, down totals and elapsed to UNIT_NONE, estimates to UNIT_UNASKED. A refusal hands back a header of zeros.
 */
UnitAnswer unit_prepare(const uint8_t *card, size_t card_len, uint32_t *ranks, size_t ranks_len,
    uint32_t *pairs, size_t pairs_len, uint64_t *times, size_t times_len, uint64_t *live, size_t live_len,
    uint64_t *down, size_t down_len, uint64_t *estimates, size_t estimates_len, uint64_t *elapsed, size_t elapsed_len,
    uint32_t *leaving, size_t leaving_len, uint32_t *groups, size_t groups_len);

/*
 * The six calls. They are handed the header that the last call handed back and the card and the nine areas it belongs to; none
 * writes ranks, pairs, times, leaving or groups. Where question 9 passes but these are not what a list of calls has left together, the
 * answer is free, 9 included.
 */

/* Sets a road's live time: questions 9, 10, 11. Writes that entry of live alone. */
UnitAnswer unit_set(UnitHeader header, const uint8_t *card, size_t card_len, const uint32_t *ranks, size_t ranks_len,
    const uint32_t *pairs, size_t pairs_len, const uint64_t *times, size_t times_len, uint64_t *live, size_t live_len,
    const uint64_t *down, size_t down_len, const uint64_t *estimates, size_t estimates_len,
    const uint64_t *elapsed, size_t elapsed_len, const uint32_t *leaving, size_t leaving_len,
    const uint32_t *groups, size_t groups_len, uint32_t road, uint64_t time);

/* Aims at a junction, the new target: questions 9, 12. Writes down and estimates, which become unasked. */
UnitAnswer unit_aim(UnitHeader header, const uint8_t *card, size_t card_len, const uint32_t *ranks, size_t ranks_len,
    const uint32_t *pairs, size_t pairs_len, const uint64_t *times, size_t times_len, const uint64_t *live, size_t live_len,
    uint64_t *down, size_t down_len, uint64_t *estimates, size_t estimates_len, const uint64_t *elapsed, size_t elapsed_len,
    const uint32_t *leaving, size_t leaving_len, const uint32_t *groups, size_t groups_len, uint32_t junction);

/* A junction's least base total to the target: questions 9, 12, 13. Writes estimates: this one and those it asks for. */
UnitAnswer unit_estimate(UnitHeader header, const uint8_t *card, size_t card_len, const uint32_t *ranks, size_t ranks_len,
    const uint32_t *pairs, size_t pairs_len, const uint64_t *times, size_t times_len, const uint64_t *live, size_t live_len,
    const uint64_t *down, size_t down_len, uint64_t *estimates, size_t estimates_len, const uint64_t *elapsed, size_t elapsed_len,
    const uint32_t *leaving, size_t leaving_len, const uint32_t *groups, size_t groups_len, uint32_t junction);

/*
 * The quickest way of a vehicle class over open roads that let it in, at their live times, from a start to the target: questions 9, 18,
 * 12, 13, 14, 15. Roads and logged junctions stand first in route and log; the rest of both is as it was, with 15 all of route. Writes
 * estimates and elapsed too.
 */
UnitAnswer unit_go(UnitHeader header, const uint8_t *card, size_t card_len, const uint32_t *ranks, size_t ranks_len,
    const uint32_t *pairs, size_t pairs_len, const uint64_t *times, size_t times_len, const uint64_t *live, size_t live_len,
    const uint64_t *down, size_t down_len, uint64_t *estimates, size_t estimates_len, uint64_t *elapsed, size_t elapsed_len,
    const uint32_t *leaving, size_t leaving_len, const uint32_t *groups, size_t groups_len, uint32_t *route, size_t route_len,
    uint32_t *log, size_t log_len, uint32_t vehicle_class, uint32_t start);

/*
 * What if that road took longer, or less, or were closed or open: the total of a go of the class from the start now, and with that time
 * set. Questions 9 (work has just 2 n words), 18, 10, 11 (by the road's base time, as set asks it), 12, 13; that there is no chain is
 * an answer: UNIT_NONE in the place of that total, with compared and change 0. Sets nothing. Writes estimates, those that a go from the
 * start fills now and those that it fills with that time set; and work, whose words before do not matter and after an acceptance are
 * any.
 */
UnitAnswer unit_preview(UnitHeader header, const uint8_t *card, size_t card_len, const uint32_t *ranks, size_t ranks_len,
    const uint32_t *pairs, size_t pairs_len, const uint64_t *times, size_t times_len, const uint64_t *live, size_t live_len,
    const uint64_t *down, size_t down_len, uint64_t *estimates, size_t estimates_len, const uint64_t *elapsed, size_t elapsed_len,
    const uint32_t *leaving, size_t leaving_len, const uint32_t *groups, size_t groups_len, uint64_t *work, size_t work_len,
    uint32_t vehicle_class, uint32_t road, uint64_t time, uint32_t start);

/*
 * Calls at the stops in their order, repeats allowed: questions 9, 16, 18, 12, 14, 17. Each leg, from a stop to the next, is an aim at
 * its end and a go of the class from its start; areas and header are left so, up to the last leg or to the one that 17 names. The legs'
 * roads follow one another in route, the rest of which is as it was; with 17 those of the legs before. Each leg's log stands first in
 * log, so after that of the last one made there may be more of an earlier one. Writes down, estimates, elapsed, route and log.
 */
UnitStops unit_stops(UnitHeader header, const uint8_t *card, size_t card_len, const uint32_t *ranks, size_t ranks_len,
    const uint32_t *pairs, size_t pairs_len, const uint64_t *times, size_t times_len, const uint64_t *live, size_t live_len,
    uint64_t *down, size_t down_len, uint64_t *estimates, size_t estimates_len, uint64_t *elapsed, size_t elapsed_len,
    const uint32_t *leaving, size_t leaving_len, const uint32_t *groups, size_t groups_len, uint32_t *route, size_t route_len,
    uint32_t *log, size_t log_len, uint32_t vehicle_class, const uint32_t *stops, size_t stops_len);

/*
 * Makes the calls of a script, one after the other, from the header and the areas as preparing, or calls, left them: each call is the
 * one above of its kind, on what the one before it left, and is answered, or refused, as that. It asks nothing itself: on a header of
 * zeros, which a refused preparing hands back, the calls are made all the same, and each is refused. It reads card and areas, and writes
 * what its calls write: of live, down, estimates, elapsed, route, log and work. What is handed back is the header after the last call.
 *
 * A call in script is its kind and as many words as that call has: 0, road, time for set; 1, junction for aim; 2, junction for estimate;
 * 3, class, start, entries of route, entries of log for go; 4, class, road, time, start for preview; 5, class, their number, entries of
 * route, entries of log and then the stops for a list of stops. A time takes two words, the lower first: UNIT_LOW and UNIT_HIGH. A go
 * and a list of stops are lent the first so many entries of route and log, or all of them where there are fewer; what lies behind them
 * is as it was. A preview is lent all of work, so 9 refuses it where work has not just 2 n words. The script ends with its last word, at
 * any other kind, or at a call that is cut short: no call from there on is made.
 *
 * An answer is UNIT_ANSWER_WORDS words of out: the refusal or 0; estimate, total or the leg of 17; count; number of roads; of a preview
 * 0, its two totals, and its change as a two's complement of 64 bits; of a list of stops 0, the whole total, 0 and the number of legs;
 * then of each of UNIT_MOST_LEGS legs its total and its number of roads, 0 where there is none. No more calls are made than out has
 * room for whole answers; the rest of out is as it was.
 */
UnitHeader unit_replay(UnitHeader header, const uint8_t *card, size_t card_len, const uint32_t *ranks, size_t ranks_len,
    const uint32_t *pairs, size_t pairs_len, const uint64_t *times, size_t times_len, uint64_t *live, size_t live_len,
    uint64_t *down, size_t down_len, uint64_t *estimates, size_t estimates_len, uint64_t *elapsed, size_t elapsed_len,
    const uint32_t *leaving, size_t leaving_len, const uint32_t *groups, size_t groups_len, uint32_t *route, size_t route_len,
    uint32_t *log, size_t log_len, uint64_t *work, size_t work_len, const uint32_t *script, size_t script_len,
    uint64_t *out, size_t out_len);

#ifdef __cplusplus
}
#endif

#endif
