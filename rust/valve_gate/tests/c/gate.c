/*
 * The calls of include/valve_gate.h from C: every answer of the core, every run of six moves, any bytes,
 * wrong counts, and decisions that ask a core. After every call the whole state is compared with what it
 * must hold. Stops with a message and a status other than 0 at the first difference. Compiles as C99 and
 * as C++.
 *
 * What a run must give is 02's rule over the history of a limit: after a change to closed a valve stays
 * closed for two further decisions, else it is free exactly when its limit is met.
 */
#include <valve_gate.h>

#include <stdio.h>
#include <stdlib.h>
#include <string.h>

static struct valve_gate gate, want;
static struct osnma_core core;
static unsigned long calls, checks;

static void check(int holds, const char *what, int line)
{
    checks++;
    if (!holds) {
        fprintf(stderr, "gate.c:%d: %s\n", line, what);
        exit(1);
    }
}

#define CHECK(condition) check((condition) != 0, #condition " does not hold", __LINE__)

/* A call was made; the gate holds what it must. */
static void check_gate(int line)
{
    calls++;
    check(memcmp(&gate, &want, sizeof gate) == 0, "the state differs", line);
}

#define LEAVES(call)                                                                               \
    do {                                                                                           \
        call;                                                                                      \
        check_gate(__LINE__);                                                                      \
    } while (0)

static void fill(int byte)
{
    memset(&gate, byte, sizeof gate);
    memset(&want, byte, sizeof want);
}

static int outer(unsigned valve)
{
    return valve <= 6 || valve >= 43;
}

/* All valves of each kind are in one state. */
static void want_valves(uint8_t centre, uint8_t of_outer)
{
    unsigned valve;
    for (valve = 1; valve <= 48; valve++)
        want.state[valve - 1] = outer(valve) ? of_outer : centre;
}

/* The bits of a decision that frees all valves of a kind. */
static uint64_t bits(int centre, int of_outer)
{
    uint64_t free = 0;
    unsigned valve;
    for (valve = 48; valve >= 1; valve--)
        free = 2 * free + (uint64_t)(outer(valve) ? of_outer : centre);
    return free;
}

static void begin(void)
{
    memset(&want, 0, sizeof want);
    CHECK(valve_gate_begin(&gate) == OSNMA_DONE);
    check_gate(__LINE__);
}

/* ---- what the core answers */

static struct osnma_halves halves(unsigned hkroot, unsigned mack)
{
    struct osnma_halves answer;
    answer.hkroot = (enum osnma_answer)hkroot;
    answer.mack = (enum osnma_answer)mack;
    answer.records = 4;
    return answer;
}

/* Every number from a state with this byte for all valves and this one for the stop. */
static void test_answers_from(uint8_t valves, uint8_t stopped)
{
    unsigned first, second;
    fill(valves);
    for (first = 0; first <= OSNMA_FIELDS_MISSING; first++) {
        gate.state[48] = stopped;
        want.state[48] = first == 0 ? 0 : stopped;
        LEAVES(valve_gate_started(&gate, (enum osnma_answer)first));
        gate.state[48] = stopped;
        want.state[48] = first == 4 ? 1 : stopped;
        LEAVES(valve_gate_answered(&gate, (enum osnma_answer)first));
        for (second = 0; second <= OSNMA_FIELDS_MISSING; second++) {
            gate.state[48] = stopped;
            want.state[48] = first == 4 || second == 4 ? 1 : stopped;
            LEAVES(valve_gate_subframe(&gate, halves(first, second)));
            CHECK(valve_gate_is_stopped(&gate) == (want.state[48] != 0));
        }
    }
}

static void test_answers(void)
{
    static const uint8_t stops[] = {0, 1, 2, 255};
    unsigned i, valves;
    for (i = 0; i < sizeof stops; i++)
        for (valves = 0; valves < 5; valves++)
            test_answers_from((uint8_t)valves, stops[i]);
}

/* ---- runs of decisions */

#define MOVES 6
#define RUNS 46656 /* 6 to the power 6 */

/* Whether the valves of a kind were free, decision by decision. */
struct history {
    int free[MOVES];
};

/* Decision `at` was a change to closed. All valves begin closed, which is no change. */
static int closed_at(const struct history *of, int at)
{
    return at >= 1 && of->free[at - 1] && !of->free[at];
}

/* Adds a decision, and gives the state after it. */
static uint8_t decide(struct history *of, int at, int met)
{
    of->free[at] = met && !closed_at(of, at - 1) && !closed_at(of, at - 2);
    if (of->free[at])
        return VALVE_GATE_FREE;
    return closed_at(of, at) ? VALVE_GATE_CLOSED_2
                             : closed_at(of, at - 1) ? VALVE_GATE_CLOSED_1 : VALVE_GATE_CLOSED;
}

static void check_decision(uint64_t free, const struct history *centre, const struct history *edge, int at)
{
    unsigned valve;
    CHECK(free == bits(centre->free[at], edge->free[at]));
    CHECK(valve_gate_centre(free) == centre->free[at] && valve_gate_outer(free) == edge->free[at]);
    for (valve = 1; valve <= 48; valve++)
        CHECK(valve_gate_is_free(free, valve) == (valve_gate_read(&gate, valve) == VALVE_GATE_FREE));
}

/* Moves 0 to 3 are decisions by two answers; 4 stops the core, 5 starts it. */
static void test_run(unsigned run)
{
    struct history centre, edge;
    int decided = 0, stopped = 0;
    unsigned left;
    begin();
    for (left = MOVES; left > 0; left--, run /= 6) {
        const int move = (int)(run % 6);
        if (move < 4) {
            const int met20 = move & 1, met10 = move >> 1;
            uint64_t free;
            want_valves(decide(&centre, decided, met20 && !stopped),
                        decide(&edge, decided, met10 && !stopped));
            LEAVES(free = valve_gate_decide_told(&gate, met20, met10));
            check_decision(free, &centre, &edge, decided);
            decided++;
        } else {
            stopped = move == 4;
            want.state[48] = (uint8_t)stopped;
            if (stopped)
                LEAVES(valve_gate_answered(&gate, OSNMA_STOPPED));
            else
                LEAVES(valve_gate_started(&gate, OSNMA_DONE));
        }
    }
}

/* 1 says yes, any other number no. */
static void test_told(void)
{
    static const int numbers[] = {0, 1, 2, 3, 255, 256, 257, -1, -255, 65537};
    unsigned i, k;
    for (i = 0; i < sizeof numbers / sizeof numbers[0]; i++)
        for (k = 0; k < sizeof numbers / sizeof numbers[0]; k++) {
            begin();
            want_valves(numbers[i] == 1 ? 3 : 0, numbers[k] == 1 ? 3 : 0);
            CHECK(valve_gate_decide_told(&gate, numbers[i], numbers[k]) == bits(numbers[i] == 1, numbers[k] == 1));
            check_gate(__LINE__);
        }
}

/* Any 49 bytes are a state: a valve of another number than 1 to 3 is closed, with no further decisions. */
static void test_any_bytes(void)
{
    unsigned byte, met, stop;
    for (byte = 0; byte < 256; byte++)
        for (met = 0; met < 2; met++)
            for (stop = 0; stop < 256; stop += byte % 5 + 1) {
                const uint8_t unmet = byte == 3 ? 2 : byte == 2 ? 1 : 0;
                const int yes = met && !stop;
                const uint8_t then = yes && byte != 1 && byte != 2 ? 3 : unmet;
                uint64_t free;
                fill((int)byte);
                gate.state[48] = want.state[48] = (uint8_t)stop;
                CHECK(valve_gate_is_stopped(&gate) == (stop != 0));
                CHECK(valve_gate_read(&gate, 1) == (byte < 4 ? byte : 0));
                want_valves(then, then);
                LEAVES(free = valve_gate_decide_told(&gate, (int)met, (int)met));
                CHECK(free == bits(then == 3, then == 3));
            }
}

/* ---- valves by number */

static void test_valves(void)
{
    static const uint32_t none[] = {0u, 49u, 64u, 65u, 256u, 257u, 0xFFFFFFFFu};
    const uint64_t all = bits(1, 1);
    unsigned i, valve;
    CHECK(all == 0xFFFFFFFFFFFFu);
    fill(3);
    for (i = 0; i < sizeof none / sizeof none[0]; i++)
        CHECK(!valve_gate_is_free(~(uint64_t)0, none[i]) && !valve_gate_is_outer(none[i]) &&
              valve_gate_read(&gate, none[i]) == VALVE_GATE_CLOSED);
    for (valve = 1; valve <= 48; valve++) {
        const uint64_t one = (uint64_t)1 << (valve - 1);
        CHECK(valve_gate_is_free(one, valve) && !valve_gate_is_free(~one, valve));
        CHECK(valve_gate_is_outer(valve) == outer(valve));
        CHECK(valve_gate_centre(all - one) == outer(valve) && valve_gate_outer(all - one) == !outer(valve));
        CHECK(!valve_gate_centre(one) && !valve_gate_outer(one));
        gate.state[valve - 1] = 1;
        CHECK(valve_gate_read(&gate, valve) == VALVE_GATE_CLOSED_1);
        gate.state[valve - 1] = 3;
    }
    CHECK(valve_gate_centre(all) && valve_gate_outer(all) && !valve_gate_centre(0) && !valve_gate_outer(0));
    CHECK(valve_gate_centre(bits(1, 0)) && !valve_gate_outer(bits(1, 0)));
    CHECK(valve_gate_outer(bits(0, 1)) && !valve_gate_centre(bits(0, 1)));
}

/* ---- decisions that ask a core */

static void start(void)
{
    static struct osnma_settings settings;
    settings.ns = 36;
    begin();
    CHECK(osnma_start(&core, &settings) == OSNMA_DONE);
    LEAVES(valve_gate_started(&gate, OSNMA_DONE));
}

/* `count` satellites have a set, of this age in half minutes against the last sub-frame that was noted. */
static void hold(unsigned count, uint32_t age)
{
    unsigned prn;
    core.clocks[0] = osnma_gst(947, 432000) + 1;
    for (prn = 1; prn <= OSNMA_SATELLITES; prn++)
        core.arrivals[prn - 1] = prn > 36 - count ? osnma_gst(947, 432000 - 30 * age) + 1 : 0;
}

/* A first decision frees what this age meets, after a silence of so many half minutes. */
static void check_first(unsigned count, uint32_t age, uint32_t silence)
{
    const struct osnma_core before = core;
    const int met20 = count >= 4 && silence <= 20 && age <= 20 - silence;
    const int met10 = count >= 4 && silence <= 10 && age <= 10 - silence;
    begin();
    want_valves(met20 ? 3 : 0, met10 ? 3 : 0);
    CHECK(valve_gate_decide_silent(&gate, &core, silence) == bits(met20, met10));
    check_gate(__LINE__);
    if (silence == 0) {
        memset(&gate, 0, sizeof gate);
        CHECK(valve_gate_decide(&gate, &core) == bits(met20, met10));
        check_gate(__LINE__);
    }
    CHECK(memcmp(&before, &core, sizeof core) == 0);
}

static void test_core(void)
{
    static const unsigned counts[] = {0, 3, 4, 5, 36};
    unsigned i;
    uint32_t age, silence;
    start();
    CHECK(valve_gate_decide(&gate, &core) == 0);
    for (i = 0; i < 5; i++)
        for (age = 0; age < 23; age++) {
            hold(counts[i], age);
            for (silence = 0; silence < 23; silence++)
                check_first(counts[i], age, silence);
            check_first(counts[i], age, 0xFFFFFFFFu);
        }
    /* Decisions follow each other: an age of 15 closes the outer valves, one of 21 all, a stop all. */
    start();
    hold(4, 0);
    CHECK(valve_gate_decide(&gate, &core) == bits(1, 1));
    hold(4, 15);
    CHECK(valve_gate_decide(&gate, &core) == bits(1, 0));
    CHECK(valve_gate_read(&gate, 6) == VALVE_GATE_CLOSED_2 && valve_gate_read(&gate, 7) == VALVE_GATE_FREE);
    hold(4, 21);
    CHECK(valve_gate_decide(&gate, &core) == 0);
    hold(4, 10);
    CHECK(valve_gate_decide(&gate, &core) == 0);
    CHECK(valve_gate_decide(&gate, &core) == bits(0, 1));
    CHECK(valve_gate_decide(&gate, &core) == bits(1, 1));
    valve_gate_subframe(&gate, halves(OSNMA_DONE, OSNMA_STOPPED));
    CHECK(valve_gate_decide(&gate, &core) == 0 && valve_gate_is_stopped(&gate));
}

/* ---- wrong counts: 1, nothing changed and no valve free */

#define REFUSED(call)                                                                              \
    do {                                                                                           \
        free = 5;                                                                                  \
        CHECK((call) == OSNMA_WRONG_LENGTH && free == 0);                                          \
        check_gate(__LINE__);                                                                      \
    } while (0)

static void test_counts(void)
{
    static const size_t wrong[] = {0, 1, 48, 50, 63};
    /* Room for each count that is lent. */
    uint8_t state[64];
    uint32_t clocks[OSNMA_CLOCKS_COUNT + 1] = {1}, arrivals[OSNMA_ARRIVALS_COUNT + 1] = {1, 1, 1, 1};
    uint64_t free;
    unsigned i;
    fill(3);
    memset(state, 3, sizeof state);
    for (i = 0; i < 5; i++) {
        const size_t n = wrong[i];
        CHECK(valve_gate_state_begin(state, n) == OSNMA_WRONG_LENGTH);
        CHECK(valve_gate_state_started(state, n, OSNMA_DONE) == OSNMA_WRONG_LENGTH);
        CHECK(valve_gate_state_answered(state, n, OSNMA_STOPPED) == OSNMA_WRONG_LENGTH);
        CHECK(valve_gate_state_subframe(state, n, OSNMA_STOPPED, OSNMA_STOPPED) == OSNMA_WRONG_LENGTH);
        free = 5;
        CHECK(valve_gate_state_decide(state, n, 0, 0, &free) == OSNMA_WRONG_LENGTH && free == 0);
        free = 5;
        CHECK(valve_gate_core_decide(state, n, clocks, 73, arrivals, 108, &free) == OSNMA_WRONG_LENGTH &&
              free == 0);
        memcpy(&gate, state, sizeof gate);
        check_gate(__LINE__);
        CHECK(state[49] == 3 && state[63] == 3);
    }
    REFUSED(valve_gate_core_decide(gate.state, 49, clocks, 72, arrivals, 108, &free));
    REFUSED(valve_gate_core_decide(gate.state, 49, clocks, 74, arrivals, 108, &free));
    REFUSED(valve_gate_core_decide(gate.state, 49, clocks, 73, arrivals, 107, &free));
    REFUSED(valve_gate_core_decide(gate.state, 49, clocks, 73, arrivals, 109, &free));
    REFUSED(valve_gate_core_decide(gate.state, 49, clocks, 0, arrivals, 0, &free));
    /* The same with the right ones. */
    begin();
    want_valves(3, 3);
    CHECK(valve_gate_core_decide(gate.state, 49, clocks, 73, arrivals, 108, &free) == OSNMA_DONE &&
          free == bits(1, 1));
    check_gate(__LINE__);
}

int main(void)
{
    unsigned run;
    CHECK(sizeof(struct valve_gate) == 49);
    test_answers();
    for (run = 0; run < RUNS; run++)
        test_run(run);
    test_told();
    test_any_bytes();
    test_valves();
    test_core();
    test_counts();
    printf("%lu calls, %lu checks\n", calls, checks);
    return 0;
}
