/*
 * A receiver's loop around the core: pages as they come off the air in, what the core says out.
 *
 *     receiver < PAGES
 *
 * PAGES are records of 256 bytes, as `signal air NAME` of the bench signal writes them
 * (rust/signal/src/air.rs): starts and verdicts as in a recording (docs/RECORDING.md), and pages or
 * their words and fields. A verdict is the chip's answer; on the bench it comes with the file. For each
 * start and verdict a line is printed with its number; for each sub-frame one with its satellite and
 * time, its two numbers and the count of its tag records, then these; after each half minute whether
 * four satellites have authentic data that is at most 10 and 20 sub-frames old and, while no chain is in
 * force, how far along each message is, where that has changed; at the end whether the core is stopped
 * and has a chain in force, and each authentic set.
 */
#include <osnma_collector.h>

#include <stdio.h>
#include <string.h>

enum kind {
    START = 1,
    WORD = 2,
    SUBFRAME = 3,
    VERDICT = 4,
    SUBFRAME_MARKED = 6,
    PAGE = 80,
    WORD_ALONE = 81,
    END = 82,
    FIELD = 83
};

static struct osnma_core core;
static struct osnma_collector collector;
static uint8_t records[OSNMA_RECORDS];
/* How far along each message was when it was printed last. */
static struct osnma_dsm_progress shown[OSNMA_DSM_IDS];

static uint32_t time_of(const uint8_t r[256])
{
    return (uint32_t)r[2] << 24 | (uint32_t)r[3] << 16 | (uint32_t)r[4] << 8 | r[5];
}

/* Told by the collector after each sub-frame. */
static void told(void *user, uint8_t prn, uint32_t time, struct osnma_halves answer,
                 const uint8_t area[OSNMA_RECORDS])
{
    uint32_t i;
    (void)user;
    printf("E%02u %lu/%lu: %u %u %lu\n", prn, (unsigned long)osnma_week(time),
           (unsigned long)osnma_second(time), (unsigned)answer.hkroot, (unsigned)answer.mack,
           (unsigned long)answer.records);
    for (i = 0; i < answer.records; i++) {
        const struct osnma_tag_record tag = osnma_record(area, i);
        printf("%02X%02X%02X%02X%02X%02X%04X%08lX\n", (unsigned)tag.outcome, tag.sender, tag.prn, tag.adkd,
               tag.block, tag.position, tag.iodnav, (unsigned long)tag.time);
    }
}

/* What a valve may be opened by; a stopped core's answer is not used. Who opens one also watches a clock
 * that the signal cannot set, which a file does not have: osnma.h says how. */
static int may_open(uint32_t limit)
{
    return !osnma_is_stopped(&core) && osnma_four(&core, limit);
}

/* For who waits at a cold start. */
static void print_gathering(void)
{
    struct osnma_dsm_progress now[OSNMA_DSM_IDS];
    unsigned id;
    if (osnma_chain_in_force(&core))
        return;
    osnma_progress(&core, now);
    for (id = 0; id < OSNMA_DSM_IDS; id++) {
        if (now[id].held == shown[id].held && now[id].missing == shown[id].missing)
            continue;
        if (now[id].missing == OSNMA_UNKNOWN_TOTAL)
            printf("DSM %u: %u held, total unknown\n", id, now[id].held);
        else
            printf("DSM %u: %u held, %u missing\n", id, now[id].held, now[id].missing);
        shown[id] = now[id];
    }
}

/* The half minute is over. A refused word is a stopped core, which its sub-frames tell. */
static void lend(void)
{
    (void)osnma_collector_lend(&collector, &core, records, told, NULL);
    printf("four within 10: %d, within 20: %d\n", may_open(10), may_open(20));
    print_gathering();
}

static enum osnma_answer start(const uint8_t r[256])
{
    struct osnma_settings settings;
    settings.ns = r[1];
    settings.key_id = r[2];
    settings.key_type = r[3];
    settings.maclt = r[4];
    memcpy(settings.marks, r + 5, OSNMA_MARKS);
    memcpy(settings.tree_root, r + 33, OSNMA_TREE_ROOT);
    memcpy(settings.key, r + 65, OSNMA_KEY);
    return osnma_start(&core, &settings);
}

/* Takes a record after a start. */
static void take(const uint8_t r[256])
{
    const uint32_t time = time_of(r);
    switch (r[0]) {
    /* What comes off the air goes to the collector. */
    case PAGE: {
        const uint32_t second = osnma_second(time), page = osnma_page_number(second);
        const uint32_t subframe = osnma_page_time(osnma_week(time), second);
        while (osnma_collector_page(&collector, r[1], subframe, page, r + 6, r + 21) == OSNMA_OVER)
            lend();
        break;
    }
    case FIELD:
        while (osnma_collector_field(&collector, r[1], time, r[6], r + 7) == OSNMA_OVER)
            lend();
        break;
    case WORD_ALONE:
        while (osnma_collector_word(&collector, r[1], time, r + 6) == OSNMA_OVER)
            lend();
        break;
    case END:
        lend();
        osnma_collector_begin(&collector);
        break;
    /* The chip's answer, on a message that osnma_read_message handed out. */
    case VERDICT:
        printf("verdict: %u\n", (unsigned)osnma_verdict(&core, r[1], r[2], r + 3, r + 48));
        break;
    /* What stands in the file as a recording has it. */
    case WORD:
        (void)osnma_word(&core, r[1], time, r + 6);
        break;
    case SUBFRAME:
        told(NULL, r[1], time, osnma_subframe(&core, r[1], time, r + 6, records), records);
        break;
    case SUBFRAME_MARKED: {
        const uint16_t marks = (uint16_t)(r[81] << 8 | r[82]);
        told(NULL, r[1], time, osnma_subframe_marked(&core, r[1], time, marks, r + 6, records), records);
        break;
    }
    default:
        break;
    }
}

static void print_end(void)
{
    unsigned prn, i;
    printf("stopped: %d\nchain in force: %d\n", osnma_is_stopped(&core), osnma_chain_in_force(&core));
    for (prn = 1; prn <= OSNMA_SATELLITES; prn++) {
        uint8_t set[OSNMA_SET];
        uint16_t iodnav;
        uint32_t time;
        if (osnma_read_set(&core, (uint8_t)prn, set, &iodnav, &time) == OSNMA_DONE) {
            printf("E%02u IODnav %u %lu/%lu ", prn, iodnav, (unsigned long)osnma_week(time),
                   (unsigned long)osnma_second(time));
            for (i = 0; i < OSNMA_SET; i++)
                printf("%02X", set[i]);
            printf("\n");
        }
    }
}

int main(void)
{
    static uint8_t r[256];
    int started = 0;
    osnma_collector_begin(&collector);
    while (fread(r, 1, sizeof r, stdin) == sizeof r) {
        if (r[0] == START) {
            const enum osnma_answer answer = start(r);
            if (answer == OSNMA_DONE) {
                started = 1;
                osnma_collector_begin(&collector);
                osnma_progress(&core, shown);
            }
            printf("start: %u\n", (unsigned)answer);
        } else if (started) {
            take(r);
        }
    }
    if (started) {
        lend();
        print_end();
    }
    return fflush(stdout) == 0 && !ferror(stdin) && !ferror(stdout) ? 0 : 1;
}
