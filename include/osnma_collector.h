/*
 * A half minute as it comes off the air, lent to a core in the core's order. For C99 and C++.
 *
 * The core wants the authentication fields of ALL satellites of a half minute before the words of ANY
 * (osnma.h). On the air words come between the fields. A collector takes pages, or words and fields, as
 * they come, and lends them half minute by half minute: the fields of all satellites with the marks of
 * what came, then the words of all.
 *
 *     static struct osnma_collector collector;
 *     osnma_collector_begin(&collector);                 with each accepted start of the core
 *
 *     for each page whose CRC is right, PRN `prn`, whose even part began at `second` of `week`:
 *         time = osnma_page_time(week, second);
 *         page = osnma_page_number(second);
 *         while (osnma_collector_page(&collector, prn, time, page, even, odd) == OSNMA_OVER)
 *             osnma_collector_lend(&collector, &core, records, told, user);
 *
 * Only what passed its CRC is given to it, and only what the receiver's own clock allows: one page with
 * a time far ahead makes all that follow late. What it is not given counts as lost. It allocates nothing
 * and keeps no pointer; it is not proved, but tested: recordings that are cut into pages in the order of
 * the air give the records of the recording; pages that are lost, late, twice or in any order give what
 * a second, plain statement of these rules says.
 */
#ifndef OSNMA_COLLECTOR_H
#define OSNMA_COLLECTOR_H

#include "osnma.h"

#ifdef __cplusplus
extern "C" {
#endif

#define OSNMA_PAGES 15u /**< pages of a sub-frame */
#define OSNMA_PART 15u  /**< bytes of a part of an E1-B page: 120 bits */
#define OSNMA_FIELD 5u  /**< bytes of the authentication field of a page: 40 bits */

/** What a collector did with what it was given. All but OSNMA_TAKEN: nothing was taken. */
enum osnma_collected {
    /** It was taken. */
    OSNMA_TAKEN = 0,
    /** It belongs to a later half minute than the one that is collected, which is over. Lend that one,
        then give it again. */
    OSNMA_OVER = 1,
    /** It belongs to a half minute before the one that is collected, or to one that was lent. It counts
        as lost. */
    OSNMA_LATE = 2,
    /** PRN not 1 to 36, a time that is no start of a sub-frame, or a page above 14. */
    OSNMA_NOT_IN_RANGE = 3,
    /** Not the even and the odd part of a nominal page: given in another order, or an alert page. */
    OSNMA_NOT_NOMINAL = 4,
    /** A word 4 that names another satellite: the receiver's channel follows another than it says. */
    OSNMA_OTHER_SATELLITE = 5
};

/** A few words for what a collector answered. Never null. */
static inline const char *osnma_collected_text(uint32_t answer)
{
    static const char *const text[] = {
        "taken",
        "the half minute that is collected is over",
        "its half minute was lent or left",
        "an argument is out of its range",
        "not the even and odd part of a nominal page",
        "the word names another satellite"};
    return answer < sizeof text / sizeof text[0] ? text[answer] : "a number that is not listed";
}

/** What a satellite sent in the half minute. */
struct osnma_sent {
    uint16_t marks;               /**< of the fields that came */
    uint8_t types;                /**< bit n - 1: a word of type n came */
    uint8_t fields[OSNMA_FIELDS]; /**< as osnma_subframe_marked takes them */
    uint8_t words[5][OSNMA_WORD]; /**< by type, from 1: the last that came */
};

/** All memory of a collector. */
struct osnma_collector {
    uint32_t time; /**< GST_SF of the half minute that is collected, or OSNMA_NO_TIME */
    uint32_t lent; /**< GST_SF of the last that was lent, or OSNMA_NO_TIME */
    struct osnma_sent sent[OSNMA_SATELLITES];
};

/** The size of a collector; never more. */
#define OSNMA_COLLECTOR_SIZE 5696u

/** Does not compile where a collector is larger than its stated size. */
typedef char osnma_collector_has_its_size
    [sizeof(struct osnma_collector) <= OSNMA_COLLECTOR_SIZE ? 1 : -1];

/**
 * Is told what each sub-frame answered, with the area of its records. It may ask the core and give a
 * verdict; it lends no fields and no words, and does not call the collector.
 */
typedef void osnma_told(void *user, uint8_t prn, uint32_t time, struct osnma_halves answer,
                        const uint8_t records[OSNMA_RECORDS]);

/**
 * GST_SF of the sub-frame of the E1-B page whose even part begins at this second of this week;
 * OSNMA_NO_TIME where none does. The first page of a sub-frame begins a second after it, so these
 * seconds are odd; the last odd part ends in the next half minute.
 */
static inline uint32_t osnma_page_time(uint32_t week, uint32_t second)
{
    return second < 604800u && second % 2u == 1u ? osnma_gst(week, second - 1u - (second - 1u) % 30u)
                                                 : OSNMA_NO_TIME;
}

/** The place of that page in its sub-frame, 0 to 14. */
static inline uint32_t osnma_page_number(uint32_t second)
{
    return second % 30u / 2u;
}

/** Nothing is collected, nothing was lent. What was collected before is dropped. */
static inline void osnma_collector_begin(struct osnma_collector *collector)
{
    uint32_t i;
    collector->time = collector->lent = OSNMA_NO_TIME;
    for (i = 0; i < OSNMA_SATELLITES; i++) {
        collector->sent[i].marks = 0;
        collector->sent[i].types = 0;
    }
}

/* ---- parts of the calls below */

/* Eight bits of a byte string, from any bit on. */
static inline uint8_t osnma_bits_from(const uint8_t *bytes, uint32_t bit)
{
    const uint32_t two = (uint32_t)bytes[bit / 8u] << 8 | bytes[bit / 8u + 1u];
    return (uint8_t)(two >> (8u - bit % 8u));
}

static inline int osnma_in_range(uint8_t prn, uint32_t time, uint32_t page)
{
    const uint32_t second = osnma_second(time);
    return prn >= 1 && prn <= OSNMA_SATELLITES && second <= 604770u && second % 30u == 0u &&
           page < OSNMA_PAGES;
}

/* A word 4 names its satellite. */
static inline int osnma_word_is_of(const uint8_t word[OSNMA_WORD], uint8_t prn)
{
    return word[0] >> 2 != 4 || word[2] >> 2 == prn;
}

/* Whether what came at `time` is of the half minute that is collected; where none is, it begins one. */
static inline enum osnma_collected osnma_belongs(struct osnma_collector *collector, uint32_t time)
{
    if (collector->time != OSNMA_NO_TIME && time != collector->time)
        return time > collector->time ? OSNMA_OVER : OSNMA_LATE;
    if (collector->time == OSNMA_NO_TIME && collector->lent != OSNMA_NO_TIME && time <= collector->lent)
        return OSNMA_LATE;
    collector->time = time;
    return OSNMA_TAKEN;
}

static inline void osnma_take_field(struct osnma_sent *sent, uint32_t page,
                                    const uint8_t field[OSNMA_FIELD])
{
    uint32_t i;
    for (i = 0; i < OSNMA_FIELD; i++)
        sent->fields[OSNMA_FIELD * page + i] = field[i];
    sent->marks = (uint16_t)(sent->marks | OSNMA_RECEIVED(page));
}

static inline void osnma_take_word(struct osnma_sent *sent, const uint8_t word[OSNMA_WORD])
{
    const uint32_t type = word[0] >> 2;
    uint32_t i;
    if (type < 1u || type > 5u)
        return;
    for (i = 0; i < OSNMA_WORD; i++)
        sent->words[type - 1u][i] = word[i];
    sent->types = (uint8_t)(sent->types | 1u << (type - 1u));
}

/* ---- the calls */

/**
 * A nominal page of a satellite: its even and its odd part, 120 bits each, the flag of even and odd in
 * bit 0. `time` is the GST_SF of the sub-frame that it belongs to, `page` its place there, from 0 to 14.
 * The word and the authentication field are taken; of a page that comes twice the later one counts.
 * Nothing else of the page is read, its CRC neither.
 *
 * The first of OSNMA_NOT_IN_RANGE, OSNMA_NOT_NOMINAL, OSNMA_OTHER_SATELLITE that holds, then OSNMA_OVER
 * or OSNMA_LATE, or it is taken.
 */
static inline enum osnma_collected osnma_collector_page(struct osnma_collector *collector, uint8_t prn,
                                                        uint32_t time, uint32_t page,
                                                        const uint8_t even[OSNMA_PART],
                                                        const uint8_t odd[OSNMA_PART])
{
    enum osnma_collected answer;
    uint8_t word[OSNMA_WORD], field[OSNMA_FIELD];
    uint32_t i;
    if (!osnma_in_range(prn, time, page))
        return OSNMA_NOT_IN_RANGE;
    if (even[0] >> 6 != 0 || odd[0] >> 6 != 2)
        return OSNMA_NOT_NOMINAL;
    /* 112 bits of the word in the even part, 16 in the odd one, each from bit 2; then the field. */
    for (i = 0; i < 14u; i++)
        word[i] = osnma_bits_from(even, 2u + 8u * i);
    for (i = 0; i < 2u; i++)
        word[14u + i] = osnma_bits_from(odd, 2u + 8u * i);
    for (i = 0; i < OSNMA_FIELD; i++)
        field[i] = osnma_bits_from(odd, 18u + 8u * i);
    if (!osnma_word_is_of(word, prn))
        return OSNMA_OTHER_SATELLITE;
    answer = osnma_belongs(collector, time);
    if (answer == OSNMA_TAKEN) {
        osnma_take_field(&collector->sent[prn - 1], page, field);
        osnma_take_word(&collector->sent[prn - 1], word);
    }
    return answer;
}

/**
 * The authentication field of a page alone, 40 bits: OSNMA_NOT_IN_RANGE, or OSNMA_OVER or OSNMA_LATE, or it
 * is taken.
 */
static inline enum osnma_collected osnma_collector_field(struct osnma_collector *collector, uint8_t prn,
                                                         uint32_t time, uint32_t page,
                                                         const uint8_t field[OSNMA_FIELD])
{
    enum osnma_collected answer;
    if (!osnma_in_range(prn, time, page))
        return OSNMA_NOT_IN_RANGE;
    answer = osnma_belongs(collector, time);
    if (answer == OSNMA_TAKEN)
        osnma_take_field(&collector->sent[prn - 1], page, field);
    return answer;
}

/**
 * A word alone. Of two words of one type in a half minute the later one counts; words of other types
 * than 1 to 5 are not kept. OSNMA_NOT_IN_RANGE, OSNMA_OTHER_SATELLITE, or OSNMA_OVER or OSNMA_LATE, or it is
 * taken.
 */
static inline enum osnma_collected osnma_collector_word(struct osnma_collector *collector, uint8_t prn,
                                                        uint32_t time, const uint8_t word[OSNMA_WORD])
{
    enum osnma_collected answer;
    if (!osnma_in_range(prn, time, 0))
        return OSNMA_NOT_IN_RANGE;
    if (!osnma_word_is_of(word, prn))
        return OSNMA_OTHER_SATELLITE;
    answer = osnma_belongs(collector, time);
    if (answer == OSNMA_TAKEN)
        osnma_take_word(&collector->sent[prn - 1], word);
    return answer;
}

/**
 * The half minute is over: lends the fields of all satellites of which any came, then the words of all,
 * by rising PRN, the words of a satellite by rising type. `told`, unless it is null, is told what each
 * sub-frame answered. Then nothing is collected. Where nothing was, nothing is lent.
 *
 * Called at OSNMA_OVER, or earlier, when the receiver's own clock says that no page of the half minute
 * can come any more.
 *
 * Answers OSNMA_DONE, or the first refusal of a word; all are lent all the same. OSNMA_STOPPED, or
 * OSNMA_OUT_OF_ORDER where the core was lent a later word by somebody else.
 */
static inline enum osnma_answer osnma_collector_lend(struct osnma_collector *collector,
                                                     struct osnma_core *core,
                                                     uint8_t records[OSNMA_RECORDS], osnma_told *told,
                                                     void *user)
{
    const uint32_t time = collector->time;
    enum osnma_answer first = OSNMA_DONE;
    uint8_t prn, type;
    if (time == OSNMA_NO_TIME)
        return OSNMA_DONE;
    for (prn = 1; prn <= OSNMA_SATELLITES; prn++) {
        const struct osnma_sent *sent = &collector->sent[prn - 1];
        if (sent->marks != 0) {
            const struct osnma_halves answer =
                osnma_subframe_marked(core, prn, time, sent->marks, sent->fields, records);
            if (told)
                told(user, prn, time, answer, records);
        }
    }
    for (prn = 1; prn <= OSNMA_SATELLITES; prn++) {
        const struct osnma_sent *sent = &collector->sent[prn - 1];
        for (type = 1; type <= 5; type++)
            if (sent->types >> (type - 1) & 1) {
                const enum osnma_answer answer = osnma_word(core, prn, time, sent->words[type - 1]);
                first = first == OSNMA_DONE ? answer : first;
            }
    }
    osnma_collector_begin(collector);
    collector->lent = time;
    return first;
}

#ifdef __cplusplus
}
#endif

#endif
