/*
 * The valve gate of a boom sprayer with 48 valves, above the core of osnma.h, for C99 and C++.
 *
 * Once a half minute it decides for each valve: closed, or free to follow the dose map. It goes by what
 * the core answers and by nothing inside it.
 *   - The centre valves, 7 to 42, are free with four satellites whose data tags showed to be authentic,
 *     none of it older than 20 sub-frames of 30 seconds.
 *   - The outer six on each side, 1 to 6 and 43 to 48, are free only with an age of at most 10.
 *   - After a change to closed a valve stays closed for two further decisions, met or not; else it is
 *     free exactly when its limit is met. A limit that is unmet in those two does not begin them anew.
 *   - All valves begin closed, which is no change: the first decision may free them.
 *   - A stopped core closes all at the next decision, and a decision made then counts as limit unmet.
 * So no valve is free after a decision at which its limit was unmet, and one whose limit is met at three
 * decisions running is free at the third.
 *
 * Machine: libvalve_gate.a is x86-64 ELF code. It needs nothing, neither a C library nor libosnma.a.
 *
 * The caller owns all memory: one struct valve_gate, lent to each call for as long as the call runs. No
 * call allocates, keeps a pointer, has state of its own or waits, and every call returns, whatever bytes
 * and numbers it is given.
 *
 *     static struct valve_gate gate;
 *
 *     valve_gate_begin(&gate)                   once, before the core's start or with it
 *     valve_gate_started(&gate, answer)         what osnma_start answered
 *   in each half minute, as the core answers
 *     valve_gate_subframe(&gate, answer)        what osnma_subframe or osnma_subframe_marked did
 *     valve_gate_answered(&gate, answer)        what osnma_word, osnma_verdict or osnma_verdict_on did
 *   and at its end, when the fields of ALL satellites are lent
 *     free = valve_gate_decide(&gate, &core)    the valves that are free until the next decision
 *     free = valve_gate_decide_silent(&gate, &core, half_minutes)    the same where no sub-frame came
 *
 * What the controller must do itself, since no call can (docs/BOOM.md says how and why):
 *   - Show the gate the answer to every start, sub-frame, word and verdict. It knows of a stop by these
 *     alone: one that is begun beside a core that is stopped already, or that missed the answer 4, learns
 *     of the stop from the next answer 4. With osnma_collector.h these are what `told` is given and what
 *     osnma_collector_lend answers.
 *   - Decide once a half minute by a clock of its own that the signal cannot set, also where no sub-frame
 *     came. What a decision freed stays free until the next: valves shut up to 30 seconds after their
 *     limit was last met or the core stopped. A controller that wants a stop to shut sooner decides at
 *     once when an answer is OSNMA_STOPPED; that is a decision like any other, and counts as one of two
 *     further.
 *   - Count by that clock the half minutes since a sub-frame was last noted (lent, and not refused with 1
 *     to 4 in both halves). The core's ages stand still while none is noted, and valve_gate_decide goes on
 *     to free what it freed: valve_gate_decide_silent is told of the silence.
 *   - Shut the valves by a watchdog where no decision was made in time: no call shuts what its caller
 *     does not ask for.
 *   - What osnma.h asks of a receiver. A free valve says nothing of where the boom is: the position must
 *     be computed from the bytes that osnma_read_set gives.
 *
 * Duties of the caller, for every call: those of osnma.h. No pointer is null, each is good for the whole
 * of what it points to; what a call writes overlaps nothing else that is lent to it; one call at a time
 * for one gate.
 */
#ifndef VALVE_GATE_H
#define VALVE_GATE_H

#include <osnma.h>

/* ---- version and layout */

/** The version of this header and of the calls (CHANGELOG.md). */
#define VALVE_GATE_VERSION "0.6.0"

/**
 * The number of the layout: it rises whenever the state or the parameters of an exported function change,
 * and with the core's, of which a decision is lent two regions. The archive exports a function whose name
 * ends in it, and valve_gate_begin and each decision call that function, so that a header and an archive
 * of different layouts do not link. A new export alone does not raise it.
 */
#define VALVE_GATE_LAYOUT 1
#define VALVE_GATE_LAYOUT_EXPORT OSNMA_JOIN(valve_gate_layout_, VALVE_GATE_LAYOUT)

#if OSNMA_LAYOUT != 2
#error "this valve_gate.h is made for a core of layout 2: take the osnma.h and the valve_gate.h of one version"
#endif

#ifdef __cplusplus
extern "C" {
#endif

/** Returns VALVE_GATE_LAYOUT. */
uint32_t VALVE_GATE_LAYOUT_EXPORT(void);

/* ---- numbers */

#define VALVE_GATE_VALVES 48u /**< valves 1 to 48 */
#define VALVE_GATE_OUTER 6u   /**< outer valves on each side: 1 to 6 and 43 to 48 */
#define VALVE_GATE_STATE 49u  /**< bytes of the state */

/** The ages, in sub-frames of 30 seconds, that satellites may have for the centre and the outer valves. */
#define VALVE_GATE_CENTRE_LIMIT 20u
#define VALVE_GATE_OUTER_LIMIT 10u

/** What a valve is after a decision: a byte of the state. Any other number counts as 0. */
enum valve_gate_valve {
    /** Closed; the next decision frees it if its limit is met. */
    VALVE_GATE_CLOSED = 0,
    /** Closed; it stays closed for one further decision, met or not. */
    VALVE_GATE_CLOSED_1 = 1,
    /** Closed by this decision; it stays closed for two further ones, met or not. */
    VALVE_GATE_CLOSED_2 = 2,
    /** Free to follow the dose map. */
    VALVE_GATE_FREE = 3
};

/** A few words for a byte of the state, for logs. Never null. */
static inline const char *valve_gate_text(uint32_t valve)
{
    static const char *const text[] = {
        "closed", "closed for 1 further decision", "closed for 2 further decisions", "free"};
    return text[valve < sizeof text / sizeof text[0] ? valve : 0u];
}

/* ---- the gate */

/**
 * The state of a gate. It can be copied as a whole, kept, and taken up again by a library of the same
 * layout on any machine. Any 49 bytes are a state, on which each call has a stated effect.
 *
 * Bytes 0 to 47 are valves 1 to 48, each an enum valve_gate_valve. Byte 48 is not 0 where the core is
 * known to be stopped.
 */
struct valve_gate {
    uint8_t state[VALVE_GATE_STATE];
};

/** Whether the core is known to be stopped: an answer told so, and no start was accepted since. */
static inline int valve_gate_is_stopped(const struct valve_gate *gate)
{
    return gate->state[VALVE_GATE_STATE - 1u] != 0;
}

/** What a valve is, 1 to 48. No other number is a valve; it is VALVE_GATE_CLOSED. */
static inline enum valve_gate_valve valve_gate_read(const struct valve_gate *gate, uint32_t valve)
{
    const uint32_t byte = valve >= 1u && valve <= VALVE_GATE_VALVES ? gate->state[valve - 1u] : 0u;
    return byte <= VALVE_GATE_FREE ? (enum valve_gate_valve)byte : VALVE_GATE_CLOSED;
}

/* ---- the valves that a decision frees: valve 1 in bit 0, valve 48 in bit 47, 1 for free */

/** Whether a valve, 1 to 48, is free. No other number is a valve, and none of them is free. */
static inline int valve_gate_is_free(uint64_t free, uint32_t valve)
{
    return valve >= 1u && valve <= VALVE_GATE_VALVES && (free >> (valve - 1u) & 1u) != 0;
}

/** Whether a valve is one of the outer six on a side. */
static inline int valve_gate_is_outer(uint32_t valve)
{
    return (valve >= 1u && valve <= VALVE_GATE_OUTER) ||
           (valve > VALVE_GATE_VALVES - VALVE_GATE_OUTER && valve <= VALVE_GATE_VALVES);
}

/** Whether all valves of a kind are free; those of a kind decide alike, and where not all are, none is. */
static inline int valve_gate_all_free(uint64_t free, int outer)
{
    uint32_t valve;
    for (valve = 1; valve <= VALVE_GATE_VALVES; valve++)
        if (valve_gate_is_outer(valve) == outer && !valve_gate_is_free(free, valve))
            return 0;
    return 1;
}

/** Whether all 36 centre valves are free. */
static inline int valve_gate_centre(uint64_t free)
{
    return valve_gate_all_free(free, 0);
}

/** Whether all twelve outer valves are free. */
static inline int valve_gate_outer(uint64_t free)
{
    return valve_gate_all_free(free, 1);
}

/* ---- the calls */

/**
 * All valves closed, which is no change, and no stop of the core known.
 *
 * Lent: the gate, of any contents.
 *
 * OSNMA_DONE          All of the state is written.
 * OSNMA_WRONG_LENGTH  The gate stays. The archive has this layout's name and not its number; with such an
 *                     archive every decision frees no valve.
 */
static inline enum osnma_answer valve_gate_begin(struct valve_gate *gate);

/**
 * What the core answered to a start. OSNMA_DONE ends a stop and changes nothing else: valves stay as they
 * are, and further decisions go on to count. Any other answer changes nothing.
 */
static inline void valve_gate_started(struct valve_gate *gate, enum osnma_answer answer);

/**
 * What the core answered to a word or to a verdict. OSNMA_STOPPED says that the core is stopped; any other
 * answer changes nothing.
 */
static inline void valve_gate_answered(struct valve_gate *gate, enum osnma_answer answer);

/**
 * What the core answered to a sub-frame. OSNMA_STOPPED in either half says that the core is stopped; any
 * other answers change nothing.
 */
static inline void valve_gate_subframe(struct valve_gate *gate, struct osnma_halves answer);

/**
 * Decides, and gives the valves that are free until the next decision. The core is asked for both limits,
 * which stand in the proved code.
 *
 * Lent: the gate; the core, which is read.
 *
 * NO TIME PASSES FOR THE CORE BUT BY SUB-FRAMES THAT ARE NOTED (osnma_four): where none comes any more,
 * this goes on to free what it freed. A controller that cannot rule that out calls the next one.
 */
static inline uint64_t valve_gate_decide(struct valve_gate *gate, const struct osnma_core *core);

/**
 * The same in a silence: `half_minutes` are the whole ones since a sub-frame was last noted, by a clock
 * that the signal cannot set. They are taken off both limits, and a limit that they are more than is
 * unmet. With 0 it is valve_gate_decide.
 *
 * Lent: the gate; the core, which is read.
 */
static inline uint64_t valve_gate_decide_silent(struct valve_gate *gate, const struct osnma_core *core,
                                                uint32_t half_minutes);

/**
 * Decides by the core's answers for an age of 20 sub-frames and for one of 10 (osnma_four), for a
 * controller that these are sent to: 1 says yes, any other number no.
 *
 * Lent: the gate.
 */
static inline uint64_t valve_gate_decide_told(struct valve_gate *gate, int met20, int met10);

/* ---- the same calls over bytes */

/**
 * What the library exports, and what the calls above use. Nobody else needs them but bindings for other
 * languages. Each is lent the state as a pointer and a count of bytes, and answers OSNMA_DONE; where a
 * count is wrong the answer is OSNMA_WRONG_LENGTH, and all that is lent stays, but for `free`, which is 0.
 * valve_gate_core_decide is lent the two regions of struct osnma_core that osnma_regions_four is, and
 * passes them on to that question alone. The numbers of `met20` and `met10` are 1 for yes, any other for
 * no. The duties are those above, and each pointer is aligned for its type.
 */
uint32_t valve_gate_state_begin(uint8_t *gate, size_t gate_count);

uint32_t valve_gate_state_started(uint8_t *gate, size_t gate_count, uint32_t number);

uint32_t valve_gate_state_answered(uint8_t *gate, size_t gate_count, uint32_t number);

uint32_t valve_gate_state_subframe(uint8_t *gate, size_t gate_count, uint32_t hkroot, uint32_t mack);

uint32_t valve_gate_state_decide(
    uint8_t *gate, size_t gate_count,
    uint8_t met20, uint8_t met10,
    uint64_t *free);

uint32_t valve_gate_core_decide(
    uint8_t *gate, size_t gate_count,
    const uint32_t *clocks, size_t clocks_count,
    const uint32_t *arrivals, size_t arrivals_count,
    uint64_t *free);

/* ---- the calls over a gate, by those over its bytes */

static inline enum osnma_answer valve_gate_begin(struct valve_gate *gate)
{
    if (VALVE_GATE_LAYOUT_EXPORT() != VALVE_GATE_LAYOUT)
        return OSNMA_WRONG_LENGTH;
    return (enum osnma_answer)valve_gate_state_begin(gate->state, VALVE_GATE_STATE);
}

static inline void valve_gate_started(struct valve_gate *gate, enum osnma_answer answer)
{
    valve_gate_state_started(gate->state, VALVE_GATE_STATE, (uint32_t)answer);
}

static inline void valve_gate_answered(struct valve_gate *gate, enum osnma_answer answer)
{
    valve_gate_state_answered(gate->state, VALVE_GATE_STATE, (uint32_t)answer);
}

static inline void valve_gate_subframe(struct valve_gate *gate, struct osnma_halves answer)
{
    valve_gate_state_subframe(gate->state, VALVE_GATE_STATE, (uint32_t)answer.hkroot,
                              (uint32_t)answer.mack);
}

static inline uint64_t valve_gate_decide(struct valve_gate *gate, const struct osnma_core *core)
{
    uint64_t free = 0;
    if (VALVE_GATE_LAYOUT_EXPORT() == VALVE_GATE_LAYOUT)
        valve_gate_core_decide(gate->state, VALVE_GATE_STATE, core->clocks, OSNMA_CLOCKS_COUNT,
                               core->arrivals, OSNMA_ARRIVALS_COUNT, &free);
    return free;
}

static inline uint64_t valve_gate_decide_told(struct valve_gate *gate, int met20, int met10)
{
    uint64_t free = 0;
    if (VALVE_GATE_LAYOUT_EXPORT() == VALVE_GATE_LAYOUT)
        valve_gate_state_decide(gate->state, VALVE_GATE_STATE, met20 == 1, met10 == 1, &free);
    return free;
}

static inline uint64_t valve_gate_decide_silent(struct valve_gate *gate, const struct osnma_core *core,
                                                uint32_t half_minutes)
{
    const int met20 = half_minutes <= VALVE_GATE_CENTRE_LIMIT &&
                      osnma_four(core, VALVE_GATE_CENTRE_LIMIT - half_minutes);
    const int met10 = half_minutes <= VALVE_GATE_OUTER_LIMIT &&
                      osnma_four(core, VALVE_GATE_OUTER_LIMIT - half_minutes);
    return valve_gate_decide_told(gate, met20, met10);
}

#ifdef __cplusplus
}
#endif

#endif
