/*
 * Trinvoksha: a scheduler whose every answer is proved. One processor, sixteen places, one slot a tick.
 *
 * A table holds all there is: the policy, the clock and the places. Every call takes the whole table and hands back a table with its
 * answer; the library keeps nothing of its own. A call is done where the number of its answer is 0 (TRINVOKSHA_DONE). Any other number is
 * a refusal, and the table that comes back is the one that went in.
 *
 * Nothing has to be checked before a call. Every pattern of bits is a table: one that is not sound is refused with 1, whatever it holds.
 *
 * WHAT A CALLER OWES
 *
 * The proofs hold for what the library is handed. Nothing checks the C side, so the program that includes this file has to see to it that
 *
 *  1. the library is of this layout: trinvoksha_layout_version() answers TRINVOKSHA_LAYOUT. Ask once, before the first call. The structs
 *     are laid out as declared here: no packing pragma, no other calling convention, no target but the library's own;
 *  2. the record of an advance is memory of the caller's: `slots` points at `length` bytes that may be read and written, and is not NULL
 *     even where `length` is 0. A table that is reached through a pointer is aligned as its type asks;
 *  3. the record shares no byte with a table, nor with the struct that the answer is stored in, and nothing else reads or writes it
 *     while the call runs;
 *  4. no call is made on a table while another call on it has not been answered and stored: not from an interrupt inside that call, and
 *     not from another thread. Each would work on its own copy, and the later store would undo the other. Calls on different tables do
 *     not disturb each other.
 *
 * A table is passed and returned by value: 1,432 bytes each way on the stack of the caller.
 */
#ifndef TRINVOKSHA_H
#define TRINVOKSHA_H

#include <stddef.h>
#include <stdint.h>

#ifdef __cplusplus
extern "C" {
#endif

/* The version of the layout that this file declares. It grows with every change of a struct below. */
#define TRINVOKSHA_LAYOUT 1

/* The number of places of a table: 0 to 15. */
#define TRINVOKSHA_PLACES 16
/* The last tick of the clock. */
#define TRINVOKSHA_LAST_TICK UINT64_C(4000000000)
/* The longest gap, and the farthest that a deadline may lie ahead, in ticks. */
#define TRINVOKSHA_LONGEST_SPAN UINT64_C(1000000)
/* The least urgent level; 0 is the most urgent. */
#define TRINVOKSHA_LAST_LEVEL 7
/* The most slots of one advance. */
#define TRINVOKSHA_MOST_SLOTS 4096
/* What stands for nobody where a place is named: the slot is idle. */
#define TRINVOKSHA_NOBODY 255

/* The two policies. */
enum trinvoksha_policy {
    /* the live job with the earliest deadline is served; a job that would not fit is refused */
    TRINVOKSHA_EARLIEST_DEADLINE = 1,
    /* the live job with the smallest level is served; a job whose deadline passes is dropped */
    TRINVOKSHA_FIXED_PRIORITY = 2
};

/* What a call answers. The first refusal that applies counts, in this order. */
enum trinvoksha_refusal {
    /* done */
    TRINVOKSHA_DONE = 0,
    /* the table is not sound; all calls but set-up */
    TRINVOKSHA_NOT_SOUND = 1,
    /* place >= 16; open, close, arrive, depart */
    TRINVOKSHA_NO_PLACE = 2,
    /* place already open; open */
    TRINVOKSHA_ALREADY_OPEN = 3,
    /* place not open; close, arrive, depart */
    TRINVOKSHA_NOT_OPEN = 4,
    /* bad figures: level > 7, cap = 0, cap > gap, gap > 1,000,000; budget = 0, budget > cap, away = 0, away > 1,000,000; n > 4,096;
       open, arrive, advance */
    TRINVOKSHA_BAD_FIGURES = 5,
    /* a job is live here; arrive, close */
    TRINVOKSHA_JOB_LIVE = 6,
    /* now < next: the gap since the last arrival is not over; arrive, close */
    TRINVOKSHA_TOO_EARLY = 7,
    /* now + away, or now + n, is beyond 4,000,000,000; arrive, slot, advance */
    TRINVOKSHA_BEYOND_CLOCK = 8,
    /* would not fit: no plan of the coming slots serves the new job and every live one; arrive, under policy 1 only */
    TRINVOKSHA_NO_FIT = 9,
    /* no job is live here; depart */
    TRINVOKSHA_NO_JOB = 10,
    /* start > record length, or fewer than n bytes from the start on; advance */
    TRINVOKSHA_NO_ROOM = 11,
    /* policy is neither 1 nor 2; set-up */
    TRINVOKSHA_NO_POLICY = 12
};

/* How the last job of a place ended. */
enum trinvoksha_ending {
    /* none has ended, or one is live */
    TRINVOKSHA_NO_ENDING = 0,
    /* it was withdrawn */
    TRINVOKSHA_LEFT = 1,
    /* it was given all that it asked for */
    TRINVOKSHA_SPENT = 2,
    /* its deadline passed; under policy 2 only */
    TRINVOKSHA_LATE = 3
};

/* A tick on the clock. Slot t runs from tick t to tick t + 1. */
typedef struct trinvoksha_instant {
    uint64_t tick;
} trinvoksha_instant;

/* A number of ticks. */
typedef struct trinvoksha_span {
    uint64_t ticks;
} trinvoksha_span;

/* A place: its reserve, its job, and what it was given. */
typedef struct trinvoksha_place {
    /* 1 open, 0 closed */
    uint64_t opened;
    /* 0 is the most urgent */
    uint64_t level;
    /* the most slots that one job may ask for */
    trinvoksha_span cap;
    /* the least span from one arrival to the next */
    trinvoksha_span gap;
    /* before this instant no new job may start */
    trinvoksha_instant next;
    /* 1 where a job is live, 0 where none is */
    uint64_t live;
    /* the slots that the live job asked for */
    trinvoksha_span budget;
    /* the slots that it still needs */
    trinvoksha_span remaining;
    /* the instant by which it wants them */
    trinvoksha_instant deadline;
    /* how the last job ended: enum trinvoksha_ending */
    uint64_t ending;
    /* the slots ever given to this place since set-up; closing does not clear it */
    trinvoksha_span total;
} trinvoksha_place;

/* The table: all that a call needs to know. */
typedef struct trinvoksha_table {
    /* enum trinvoksha_policy */
    uint64_t policy;
    trinvoksha_instant now;
    /* the slots in which no job was live */
    trinvoksha_span idle;
    trinvoksha_place places[TRINVOKSHA_PLACES];
} trinvoksha_table;

/* What most calls answer: enum trinvoksha_refusal, and the table. */
typedef struct trinvoksha_answer {
    uint64_t number;
    trinvoksha_table table;
} trinvoksha_answer;

/* What the election answers: enum trinvoksha_refusal, and the place whose slot comes next, or TRINVOKSHA_NOBODY. */
typedef struct trinvoksha_choice {
    uint64_t number;
    uint64_t place;
} trinvoksha_choice;

/* What a slot answers: enum trinvoksha_refusal, the place that was given the slot, or TRINVOKSHA_NOBODY, and the table. */
typedef struct trinvoksha_turn {
    uint64_t number;
    uint64_t place;
    trinvoksha_table table;
} trinvoksha_turn;

/* The layout, as far as a compiler can tell; trinvoksha_layout_write and trinvoksha_layout_read try the rest. */
#if defined(__cplusplus) && __cplusplus >= 201103L
#define TRINVOKSHA_HOLDS(fact) static_assert(fact, "the layout is another than the library's: " #fact)
#elif defined(__STDC_VERSION__) && __STDC_VERSION__ >= 201112L
#define TRINVOKSHA_HOLDS(fact) _Static_assert(fact, "the layout is another than the library's: " #fact)
#elif defined(__GNUC__) && !defined(__cplusplus)
#define TRINVOKSHA_HOLDS(fact) __extension__ _Static_assert(fact, "the layout is another than the library's: " #fact)
#else
#define TRINVOKSHA_HOLDS(fact) extern char trinvoksha_holds[(fact) ? 1 : -1]
#endif

TRINVOKSHA_HOLDS(sizeof(size_t) == 8);
TRINVOKSHA_HOLDS(sizeof(trinvoksha_instant) == 8);
TRINVOKSHA_HOLDS(sizeof(trinvoksha_span) == 8);
TRINVOKSHA_HOLDS(sizeof(trinvoksha_place) == 88);
TRINVOKSHA_HOLDS(offsetof(trinvoksha_place, opened) == 0);
TRINVOKSHA_HOLDS(offsetof(trinvoksha_place, level) == 8);
TRINVOKSHA_HOLDS(offsetof(trinvoksha_place, cap) == 16);
TRINVOKSHA_HOLDS(offsetof(trinvoksha_place, gap) == 24);
TRINVOKSHA_HOLDS(offsetof(trinvoksha_place, next) == 32);
TRINVOKSHA_HOLDS(offsetof(trinvoksha_place, live) == 40);
TRINVOKSHA_HOLDS(offsetof(trinvoksha_place, budget) == 48);
TRINVOKSHA_HOLDS(offsetof(trinvoksha_place, remaining) == 56);
TRINVOKSHA_HOLDS(offsetof(trinvoksha_place, deadline) == 64);
TRINVOKSHA_HOLDS(offsetof(trinvoksha_place, ending) == 72);
TRINVOKSHA_HOLDS(offsetof(trinvoksha_place, total) == 80);
TRINVOKSHA_HOLDS(sizeof(trinvoksha_table) == 1432);
TRINVOKSHA_HOLDS(offsetof(trinvoksha_table, policy) == 0);
TRINVOKSHA_HOLDS(offsetof(trinvoksha_table, now) == 8);
TRINVOKSHA_HOLDS(offsetof(trinvoksha_table, idle) == 16);
TRINVOKSHA_HOLDS(offsetof(trinvoksha_table, places) == 24);
TRINVOKSHA_HOLDS(sizeof(trinvoksha_answer) == 1440);
TRINVOKSHA_HOLDS(offsetof(trinvoksha_answer, number) == 0);
TRINVOKSHA_HOLDS(offsetof(trinvoksha_answer, table) == 8);
TRINVOKSHA_HOLDS(sizeof(trinvoksha_choice) == 16);
TRINVOKSHA_HOLDS(offsetof(trinvoksha_choice, number) == 0);
TRINVOKSHA_HOLDS(offsetof(trinvoksha_choice, place) == 8);
TRINVOKSHA_HOLDS(sizeof(trinvoksha_turn) == 1448);
TRINVOKSHA_HOLDS(offsetof(trinvoksha_turn, number) == 0);
TRINVOKSHA_HOLDS(offsetof(trinvoksha_turn, place) == 8);
TRINVOKSHA_HOLDS(offsetof(trinvoksha_turn, table) == 16);
#undef TRINVOKSHA_HOLDS

/* A fresh table under this policy: clock 0, idle 0, all places closed, all totals 0. Refused with 12 it hands back a table of zeros,
   which is not sound. */
trinvoksha_answer trinvoksha_set_up(uint64_t policy);

/* Opens the place as a reserve of this level, cap and gap; next 0, no job, ending 0. Refused with 1, 2, 3 or 5. */
trinvoksha_answer trinvoksha_open(trinvoksha_table table, uint64_t place, uint64_t level, trinvoksha_span cap, trinvoksha_span gap);

/* Closes the place: it returns to zeros, its total kept. Refused with 1, 2, 4, 6 or 7. */
trinvoksha_answer trinvoksha_close(trinvoksha_table table, uint64_t place);

/* A job arrives at the place: it asks for `budget` slots and wants them before tick now + `away`. A refused arrival uses up no gap.
   Refused with 1, 2, 4, 5, 6, 7, 8 or 9. */
trinvoksha_answer trinvoksha_arrive(trinvoksha_table table, uint64_t place, trinvoksha_span budget, trinvoksha_span away);

/* The job of the place is withdrawn: gone with ending 1; next stays. Refused with 1, 2, 4 or 10. */
trinvoksha_answer trinvoksha_depart(trinvoksha_table table, uint64_t place);

/* Whose slot comes next. Asking changes nothing. Refused with 1, and the place is then TRINVOKSHA_NOBODY. */
trinvoksha_choice trinvoksha_election(trinvoksha_table table);

/* One slot: whose it was, and the table after it. Refused with 1 or 8, and the place is then TRINVOKSHA_NOBODY. */
trinvoksha_turn trinvoksha_slot(trinvoksha_table table);

/* The same as n single slots. The place of each, or TRINVOKSHA_NOBODY, is written into the record of `length` bytes at `slots`, from the
   byte `start` on; no other byte changes, and none where the call is refused. Refused with 1, 5, 8 or 11. */
trinvoksha_answer trinvoksha_advance(trinvoksha_table table, trinvoksha_span n, uint8_t *slots, size_t length, size_t start);

/* Whether the table is sound: 1 or 0. */
uint64_t trinvoksha_is_sound(trinvoksha_table table);

/*
 * The trial of the layout. A turn holds a whole table; each of its 181 fields has a mark of its own: the number TRINVOKSHA_MARKS + 1, the
 * place TRINVOKSHA_MARKS + 2, the policy, the clock and the idle count TRINVOKSHA_MARKS + 3 to + 5, and the fields of place i, in their
 * order, TRINVOKSHA_MARKS + 16 (i + 1) + 1 to + 11.
 */
#define TRINVOKSHA_MARKS UINT64_C(1000000000000000000)

/* The version of the layout that the library has. */
uint64_t trinvoksha_layout_version(void);

/* A turn with its mark in every field. */
trinvoksha_turn trinvoksha_layout_write(void);

/* Whether every field of the turn holds its mark: 1 or 0. */
uint64_t trinvoksha_layout_read(trinvoksha_turn turn);

/* A span of this many ticks, as the calls take it. */
static inline trinvoksha_span trinvoksha_ticks(uint64_t ticks)
{
    trinvoksha_span span;
    span.ticks = ticks;
    return span;
}

/* What a number of an answer says, in words. */
static inline const char *trinvoksha_words(uint64_t number)
{
    switch (number) {
    case TRINVOKSHA_DONE:
        return "done";
    case TRINVOKSHA_NOT_SOUND:
        return "the table is not sound";
    case TRINVOKSHA_NO_PLACE:
        return "place >= 16";
    case TRINVOKSHA_ALREADY_OPEN:
        return "place already open";
    case TRINVOKSHA_NOT_OPEN:
        return "place not open";
    case TRINVOKSHA_BAD_FIGURES:
        return "bad figures";
    case TRINVOKSHA_JOB_LIVE:
        return "a job is live here";
    case TRINVOKSHA_TOO_EARLY:
        return "now < next";
    case TRINVOKSHA_BEYOND_CLOCK:
        return "now + away, or now + n, is beyond 4,000,000,000";
    case TRINVOKSHA_NO_FIT:
        return "would not fit";
    case TRINVOKSHA_NO_JOB:
        return "no job is live here";
    case TRINVOKSHA_NO_ROOM:
        return "start > record length, or fewer than n bytes from the start on";
    case TRINVOKSHA_NO_POLICY:
        return "policy is neither 1 nor 2";
    default:
        return "no answer of this library";
    }
}

#ifdef __cplusplus
}
#endif

#endif
