/*
 * A boom controller's side: core and valve gate over a recording, with a decision at the end of each half
 * minute.
 *
 *     boom < RECORDING
 *
 * RECORDING are records of 256 bytes (docs/RECORDING.md), as `signal NAME` of the bench signal writes
 * them. A line is printed for each decision after which a group of valves is another than before, or is
 * closed for another reason:
 *
 *     947/432330: centre free, outer closed (limit not met)
 *
 * A closed group's limit is not met, or the core is stopped, or it closed at one of the last two decisions
 * ("first of two further", "second of two further"). At the end stand the totals.
 *
 * On a sprayer a clock that the signal cannot set says when a half minute is over. A file has none; here
 * the times of its records are that clock, and where they leave half minutes out a decision is made for
 * each of these too, with the silence that it has lasted.
 */
#include <valve_gate.h>

#include <stdio.h>
#include <string.h>

enum kind { START = 1, WORD = 2, SUBFRAME = 3, VERDICT = 4, SUBFRAME_MARKED = 6 };

/* A valve of each group stands for it: those of a group decide alike. */
enum { CENTRE = 24, OUTER = 1 };

/* After so many half minutes of silence no further decision changes anything. */
#define SETTLED 24u

/* Half minutes of a week. */
#define OF_WEEK 20160u

#define NO_HALF_MINUTE 0xFFFFFFFFu

static struct osnma_core core;
static struct valve_gate gate;
static uint8_t records[OSNMA_RECORDS];

/* The half minute that is under way, and the last one in which a sub-frame was noted. */
static uint32_t now = NO_HALF_MINUTE, noted = NO_HALF_MINUTE;
/* Since the last accepted start no time has come. */
static int restarted;

/* What was printed of a group last, and its totals. */
struct group {
    const char *printed;
    unsigned long free, closings;
};
static struct group centre, outer;
static unsigned long decisions;

static uint32_t time_of(const uint8_t r[256])
{
    return (uint32_t)r[2] << 24 | (uint32_t)r[3] << 16 | (uint32_t)r[4] << 8 | r[5];
}

/* Why a group is closed after a decision, by what it was before. */
static const char *why_closed(enum valve_gate_valve was)
{
    if (was == VALVE_GATE_CLOSED_2)
        return "closed (first of two further)";
    if (was == VALVE_GATE_CLOSED_1)
        return "closed (second of two further)";
    return valve_gate_is_stopped(&gate) ? "closed (core stopped)" : "closed (limit not met)";
}

/* Counts a decision for a group, of which `valve` is one; whether it is to be printed. */
static int tell(struct group *group, int is_free, const struct valve_gate *before, uint32_t valve)
{
    const enum valve_gate_valve was = valve_gate_read(before, valve), is = valve_gate_read(&gate, valve);
    const char *text = is_free ? "free" : why_closed(was);
    const int changed = group->printed == NULL || strcmp(text, group->printed) != 0;
    group->free += is_free ? 1u : 0u;
    group->closings += is == VALVE_GATE_CLOSED_2 ? 1u : 0u;
    group->printed = text;
    return changed;
}

/* The half minute under way is over: a boom sets its valves by valve_gate_is_free(free, valve) now. */
static void decide(void)
{
    const struct valve_gate before = gate;
    const uint32_t silence = noted == NO_HALF_MINUTE ? 0 : now - noted;
    const uint64_t free = valve_gate_decide_silent(&gate, &core, silence);
    const int of_centre = tell(&centre, valve_gate_centre(free), &before, CENTRE);
    const int of_outer = tell(&outer, valve_gate_outer(free), &before, OUTER);
    decisions++;
    if (of_centre || of_outer)
        printf("%lu/%lu: centre %s, outer %s\n", (unsigned long)(now / OF_WEEK),
               (unsigned long)(now % OF_WEEK * 30u), centre.printed, outer.printed);
}

/* A record of this time has come: the half minutes before it are over. After a start times may begin
 * anew; else an earlier one is no half minute of its own. */
static void pass_to(uint32_t time)
{
    const uint32_t second = osnma_second(time), then = osnma_week(time) * OF_WEEK + second / 30u;
    uint32_t left;
    if (second % 30u != 0 || second / 30u >= OF_WEEK)
        return;
    if (now == NO_HALF_MINUTE)
        now = then;
    if (then > now || (then < now && restarted)) {
        decide();
        for (left = SETTLED; left > 0 && now + 1u < then; left--) {
            now++;
            decide();
        }
        now = then;
    }
    restarted = 0;
}

static void start(const uint8_t r[256])
{
    struct osnma_settings settings;
    enum osnma_answer answer;
    settings.ns = r[1];
    settings.key_id = r[2];
    settings.key_type = r[3];
    settings.maclt = r[4];
    memcpy(settings.marks, r + 5, OSNMA_MARKS);
    memcpy(settings.tree_root, r + 33, OSNMA_TREE_ROOT);
    memcpy(settings.key, r + 65, OSNMA_KEY);
    answer = osnma_start(&core, &settings);
    valve_gate_started(&gate, answer);
    if (answer == OSNMA_DONE) {
        restarted = 1;
        noted = NO_HALF_MINUTE;
    }
}

/* The gate is shown what the core answers; a sub-frame is noted unless both halves are refused with 1 to 4. */
static void take_subframe(const uint8_t r[256], uint16_t marks)
{
    const struct osnma_halves answer =
        osnma_subframe_marked(&core, r[1], time_of(r), marks, r + 6, records);
    const int refused = answer.hkroot >= OSNMA_WRONG_LENGTH && answer.hkroot <= OSNMA_STOPPED;
    valve_gate_subframe(&gate, answer);
    if (!(refused && answer.mack == answer.hkroot))
        noted = now;
}

/* Takes a record after a start. */
static void take(const uint8_t r[256])
{
    switch (r[0]) {
    case WORD:
        pass_to(time_of(r));
        valve_gate_answered(&gate, osnma_word(&core, r[1], time_of(r), r + 6));
        break;
    case SUBFRAME:
        pass_to(time_of(r));
        take_subframe(r, OSNMA_ALL_RECEIVED);
        break;
    case SUBFRAME_MARKED:
        pass_to(time_of(r));
        take_subframe(r, (uint16_t)(r[81] << 8 | r[82]));
        break;
    case VERDICT:
        valve_gate_answered(&gate, osnma_verdict(&core, r[1], r[2], r + 3, r + 48));
        break;
    default:
        break;
    }
}

static void print_totals(const char *name, const struct group *group)
{
    printf("%s: free after %lu, changes to closed %lu\n", name, group->free, group->closings);
}

int main(void)
{
    static uint8_t r[256];
    int started = 0;
    if (valve_gate_begin(&gate) != OSNMA_DONE)
        return 1;
    while (fread(r, 1, sizeof r, stdin) == sizeof r) {
        if (r[0] == START) {
            start(r);
            started |= restarted;
        } else if (started) {
            take(r);
        }
    }
    if (now != NO_HALF_MINUTE)
        decide();
    printf("decisions: %lu\n", decisions);
    print_totals("centre", &centre);
    print_totals("outer", &outer);
    return fflush(stdout) == 0 && !ferror(stdin) && !ferror(stdout) ? 0 : 1;
}
