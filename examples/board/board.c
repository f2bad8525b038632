/*
 * A board with three reserves: a valve, a pressure gauge and a radio, under earliest deadline.
 *
 * It sees first that the library lays out its structs as this program declares them. Then it opens the reserves, lets jobs arrive as the
 * clock goes on, prints every answer by name, and shows who was given which slot. At the end it provokes each refusal once.
 */
#include <inttypes.h>
#include <stdio.h>
#include <string.h>

#include "trinvoksha.h"

enum { VALVE, PRESSURE, RADIO, RESERVES };

/* The slots that the board lives through. */
enum { SLOTS = 48 };

static const char *const name_of[RESERVES] = { "valve", "pressure", "radio" };

/* ---- the layout ---- */

/* Every field of a turn. */
enum { FIELDS_OF_A_PLACE = 11, FIELDS = 5 + TRINVOKSHA_PLACES * FIELDS_OF_A_PLACE };

struct field {
    uint64_t *at;
    uint64_t mark;
};

static struct field field_at(uint64_t *at, uint64_t mark)
{
    struct field field;
    field.at = at;
    field.mark = TRINVOKSHA_MARKS + mark;
    return field;
}

/* Every field of a turn by its name, and the mark that belongs there. */
static void name_fields(trinvoksha_turn *turn, struct field fields[FIELDS])
{
    struct field *next = fields;
    *next++ = field_at(&turn->number, 1);
    *next++ = field_at(&turn->place, 2);
    *next++ = field_at(&turn->table.policy, 3);
    *next++ = field_at(&turn->table.now.tick, 4);
    *next++ = field_at(&turn->table.idle.ticks, 5);
    for (uint64_t i = 0; i < TRINVOKSHA_PLACES; i++) {
        trinvoksha_place *place = &turn->table.places[i];
        uint64_t before = 16 * (i + 1);
        *next++ = field_at(&place->opened, before + 1);
        *next++ = field_at(&place->level, before + 2);
        *next++ = field_at(&place->cap.ticks, before + 3);
        *next++ = field_at(&place->gap.ticks, before + 4);
        *next++ = field_at(&place->next.tick, before + 5);
        *next++ = field_at(&place->live, before + 6);
        *next++ = field_at(&place->budget.ticks, before + 7);
        *next++ = field_at(&place->remaining.ticks, before + 8);
        *next++ = field_at(&place->deadline.tick, before + 9);
        *next++ = field_at(&place->ending, before + 10);
        *next++ = field_at(&place->total.ticks, before + 11);
    }
}

/* How many fields of the turn hold their mark. */
static int marks_held(trinvoksha_turn turn)
{
    struct field fields[FIELDS];
    int held = 0;
    name_fields(&turn, fields);
    for (int k = 0; k < FIELDS; k++) {
        if (*fields[k].at == fields[k].mark) {
            held++;
        }
    }
    return held;
}

/* How many fields the library reads where this program writes them: it is handed a marked turn, and then one with the field spoilt. */
static int marks_read(void)
{
    trinvoksha_turn turn;
    struct field fields[FIELDS];
    int read = 0;
    name_fields(&turn, fields);
    for (int k = 0; k < FIELDS; k++) {
        *fields[k].at = fields[k].mark;
    }
    for (int k = 0; k < FIELDS; k++) {
        uint64_t whole = trinvoksha_layout_read(turn);
        *fields[k].at += 1;
        if (whole == 1 && trinvoksha_layout_read(turn) == 0) {
            read++;
        }
        *fields[k].at -= 1;
    }
    return read;
}

/* Whether the structs that answers come in are the library's too. A marked table is not sound, so every call hands it back with 1. */
static int answers_agree(void)
{
    trinvoksha_turn marked = trinvoksha_layout_write();
    trinvoksha_answer closed = trinvoksha_close(marked.table, 0);
    trinvoksha_turn turn = trinvoksha_slot(marked.table);
    trinvoksha_choice choice = trinvoksha_election(marked.table);
    return closed.number == TRINVOKSHA_NOT_SOUND && memcmp(&closed.table, &marked.table, sizeof marked.table) == 0
        && turn.number == TRINVOKSHA_NOT_SOUND && turn.place == TRINVOKSHA_NOBODY
        && memcmp(&turn.table, &marked.table, sizeof marked.table) == 0
        && choice.number == TRINVOKSHA_NOT_SOUND && choice.place == TRINVOKSHA_NOBODY;
}

/* Whether the library lays out its structs as this program declares them. */
static int layout_agrees(void)
{
    uint64_t version = trinvoksha_layout_version();
    int held = marks_held(trinvoksha_layout_write());
    int read = marks_read();
    int answers = answers_agree();
    printf("Layout %" PRIu64 " of the library, %d of this program. ", version, TRINVOKSHA_LAYOUT);
    printf("Of %d fields %d are found where the library writes them, and it finds %d where they are written here. ", FIELDS, held, read);
    printf("The answers are %s.\n", answers ? "laid out alike" : "NOT laid out alike");
    return version == TRINVOKSHA_LAYOUT && held == FIELDS && read == FIELDS && answers;
}

/* ---- the box ---- */

static void print_answer(uint64_t number)
{
    if (number == TRINVOKSHA_DONE) {
        printf("%s\n", trinvoksha_words(number));
    } else {
        printf("refused with %" PRIu64 ", %s\n", number, trinvoksha_words(number));
    }
}

struct reserve {
    uint64_t cap;
    uint64_t gap;
};

static const struct reserve reserves[RESERVES] = { { 2, 8 }, { 3, 12 }, { 6, 24 } };

/* A fresh table with the three reserves. */
static trinvoksha_table open_box(void)
{
    trinvoksha_answer answer = trinvoksha_set_up(TRINVOKSHA_EARLIEST_DEADLINE);
    printf("Set up for earliest deadline: ");
    print_answer(answer.number);
    for (int place = 0; place < RESERVES; place++) {
        struct reserve r = reserves[place];
        answer = trinvoksha_open(answer.table, (uint64_t)place, 0, trinvoksha_ticks(r.cap), trinvoksha_ticks(r.gap));
        printf("Open the %s: jobs of up to %" PRIu64 " slots, %" PRIu64 " ticks apart: ", name_of[place], r.cap, r.gap);
        print_answer(answer.number);
    }
    return answer.table;
}

/* What happens at a tick: a job wants so many slots within so many ticks. 0 slots: the job that is live is withdrawn. */
struct event {
    uint64_t tick;
    int place;
    uint64_t budget;
    uint64_t away;
};

static const struct event events[] = {
    { 0, VALVE, 2, 6 },
    { 0, PRESSURE, 3, 8 },
    { 0, RADIO, 6, 10 },
    { 0, RADIO, 5, 10 },
    { 5, VALVE, 2, 6 },
    { 8, VALVE, 2, 4 },
    { 12, PRESSURE, 3, 12 },
    { 16, VALVE, 2, 4 },
    { 20, RADIO, 4, 20 },
    { 24, RADIO, 7, 20 },
    { 24, RADIO, 6, 20 },
    { 24, PRESSURE, 3, 9 },
    { 24, VALVE, 1, 3 },
    { 26, RADIO, 1, 5 },
    { 32, VALVE, 2, 8 },
    { 34, RADIO, 0, 0 },
    { 36, PRESSURE, 2, 4 },
    { 40, VALVE, 2, 2 },
};

/* What the event does to the table. */
static trinvoksha_table play(trinvoksha_table table, struct event event)
{
    trinvoksha_answer answer;
    printf("tick %2" PRIu64 "  ", event.tick);
    if (event.budget == 0) {
        printf("%-8s withdraws its job: ", name_of[event.place]);
        answer = trinvoksha_depart(table, (uint64_t)event.place);
    } else {
        printf("%-8s wants %" PRIu64 " by tick %2" PRIu64 ": ", name_of[event.place], event.budget, event.tick + event.away);
        answer = trinvoksha_arrive(table, (uint64_t)event.place, trinvoksha_ticks(event.budget), trinvoksha_ticks(event.away));
    }
    print_answer(answer.number);
    return answer.table;
}

/* Slots up to the tick, each written into the record at its own number. */
static trinvoksha_table run_to(trinvoksha_table table, uint64_t tick, uint8_t record[SLOTS])
{
    uint64_t now = table.now.tick;
    trinvoksha_answer answer = trinvoksha_advance(table, trinvoksha_ticks(tick - now), record, SLOTS, (size_t)now);
    if (answer.number != TRINVOKSHA_DONE) {
        printf("tick %2" PRIu64 "  the clock stands still: ", now);
        print_answer(answer.number);
    }
    return answer.table;
}

/* ---- the timeline ---- */

static void print_axis(void)
{
    printf("%-10s", "tick");
    for (int tick = 0; tick < SLOTS; tick += 8) {
        printf("%-8d", tick);
    }
    printf("%d\n%-10s", SLOTS, "");
    for (int tick = 0; tick <= SLOTS; tick++) {
        putchar(tick % 8 == 0 ? '|' : ' ');
    }
    putchar('\n');
}

static void print_row(const char *name, const uint8_t record[SLOTS], uint8_t place, uint64_t total)
{
    printf("%-10s", name);
    for (int slot = 0; slot < SLOTS; slot++) {
        putchar(record[slot] == place ? '#' : '.');
    }
    printf("  %2" PRIu64 " slots\n", total);
}

static void print_timeline(const trinvoksha_table *table, const uint8_t record[SLOTS])
{
    print_axis();
    for (int place = 0; place < RESERVES; place++) {
        print_row(name_of[place], record, (uint8_t)place, table->places[place].total.ticks);
    }
    print_row("idle", record, TRINVOKSHA_NOBODY, table->idle.ticks);
}

/* ---- every refusal ---- */

/* Prints a call and its answer; whether it is the one that was to come. */
static int provoked(const char *call, uint64_t number, uint64_t wanted)
{
    printf("%-38s", call);
    print_answer(number);
    return number == wanted;
}

/* Each refusal once, by a call on a table that earns it. */
static int provoke_each(void)
{
    trinvoksha_span three = trinvoksha_ticks(3);
    trinvoksha_span seven = trinvoksha_ticks(7);
    trinvoksha_span ten = trinvoksha_ticks(10);
    uint8_t record[4] = { 9, 9, 9, 9 };
    trinvoksha_table fresh = trinvoksha_set_up(TRINVOKSHA_EARLIEST_DEADLINE).table;
    trinvoksha_table box = trinvoksha_open(trinvoksha_open(fresh, 0, 0, three, ten).table, 1, 0, three, ten).table;
    trinvoksha_table busy = trinvoksha_arrive(box, 0, three, three).table;
    trinvoksha_table left = trinvoksha_depart(busy, 0).table;
    trinvoksha_table last = box;
    last.now.tick = TRINVOKSHA_LAST_TICK;
    last.idle.ticks = TRINVOKSHA_LAST_TICK;
    trinvoksha_table scrambled;
    memset(&scrambled, 0xFF, sizeof scrambled);

    int all = provoked("a slot of a scrambled table", trinvoksha_slot(scrambled).number, TRINVOKSHA_NOT_SOUND);
    all &= provoked("open place 16", trinvoksha_open(box, 16, 0, three, ten).number, TRINVOKSHA_NO_PLACE);
    all &= provoked("open a place twice", trinvoksha_open(box, 0, 0, three, ten).number, TRINVOKSHA_ALREADY_OPEN);
    all &= provoked("close a place that is closed", trinvoksha_close(box, 2).number, TRINVOKSHA_NOT_OPEN);
    all &= provoked("a job that wants more than its cap", trinvoksha_arrive(box, 0, seven, ten).number, TRINVOKSHA_BAD_FIGURES);
    all &= provoked("a second job at a place", trinvoksha_arrive(busy, 0, three, ten).number, TRINVOKSHA_JOB_LIVE);
    all &= provoked("a job inside the gap", trinvoksha_arrive(left, 0, three, ten).number, TRINVOKSHA_TOO_EARLY);
    all &= provoked("a job at the last tick", trinvoksha_arrive(last, 0, three, seven).number, TRINVOKSHA_BEYOND_CLOCK);
    all &= provoked("a job beside one that leaves no room", trinvoksha_arrive(busy, 1, three, three).number, TRINVOKSHA_NO_FIT);
    all &= provoked("withdraw a job that is not there", trinvoksha_depart(box, 0).number, TRINVOKSHA_NO_JOB);
    all &= provoked("seven slots into four bytes", trinvoksha_advance(box, seven, record, sizeof record, 0).number, TRINVOKSHA_NO_ROOM);
    all &= provoked("set up with policy 3", trinvoksha_set_up(3).number, TRINVOKSHA_NO_POLICY);
    for (size_t k = 0; k < sizeof record; k++) {
        all &= record[k] == 9;
    }
    return all;
}

/* Whether each limit is where the header says: the number itself is taken, one more is refused. */
static int limits_hold(void)
{
    static uint8_t record[TRINVOKSHA_MOST_SLOTS + 1];
    trinvoksha_span one = trinvoksha_ticks(1);
    trinvoksha_span longest = trinvoksha_ticks(TRINVOKSHA_LONGEST_SPAN);
    trinvoksha_span longer = trinvoksha_ticks(TRINVOKSHA_LONGEST_SPAN + 1);
    trinvoksha_span most = trinvoksha_ticks(TRINVOKSHA_MOST_SLOTS);
    trinvoksha_span more = trinvoksha_ticks(TRINVOKSHA_MOST_SLOTS + 1);
    trinvoksha_table fresh = trinvoksha_set_up(TRINVOKSHA_FIXED_PRIORITY).table;
    trinvoksha_table last = fresh;
    last.now.tick = TRINVOKSHA_LAST_TICK - 1;
    last.idle.ticks = TRINVOKSHA_LAST_TICK - 1;
    return trinvoksha_open(fresh, TRINVOKSHA_PLACES - 1, TRINVOKSHA_LAST_LEVEL, one, longest).number == TRINVOKSHA_DONE
        && trinvoksha_open(fresh, TRINVOKSHA_PLACES, 0, one, one).number == TRINVOKSHA_NO_PLACE
        && trinvoksha_open(fresh, 0, TRINVOKSHA_LAST_LEVEL + 1, one, one).number == TRINVOKSHA_BAD_FIGURES
        && trinvoksha_open(fresh, 0, 0, one, longer).number == TRINVOKSHA_BAD_FIGURES
        && trinvoksha_advance(fresh, most, record, sizeof record, 0).number == TRINVOKSHA_DONE
        && trinvoksha_advance(fresh, more, record, sizeof record, 0).number == TRINVOKSHA_BAD_FIGURES
        && trinvoksha_slot(last).number == TRINVOKSHA_DONE
        && trinvoksha_slot(trinvoksha_slot(last).table).number == TRINVOKSHA_BEYOND_CLOCK;
}

int main(void)
{
    uint8_t record[SLOTS];
    if (!layout_agrees()) {
        printf("The library is another than this program was written for.\n");
        return 1;
    }

    printf("\n");
    trinvoksha_table table = open_box();
    printf("\n");
    for (size_t k = 0; k < sizeof events / sizeof events[0]; k++) {
        table = run_to(table, events[k].tick, record);
        table = play(table, events[k]);
    }
    table = run_to(table, SLOTS, record);
    printf("\n");
    print_timeline(&table, record);
    printf("\n");
    if (!provoke_each()) {
        printf("Some refusal is another than it should be, or a refused advance wrote into the record.\n");
        return 1;
    }
    if (!limits_hold()) {
        printf("Some limit is another than the header says.\n");
        return 1;
    }
    printf("each limit of the header              taken, and one more refused\n");
    return trinvoksha_is_sound(table) == 1 ? 0 : 1;
}
