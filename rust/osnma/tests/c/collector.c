/*
 * What a collector answers and lends: reads the records of rust/osnma/tests/collector.rs and prints for
 * each page, field and word what the collector answered. Where a half minute is lent: what each
 * sub-frame answered, each word of it that the core holds then with its last byte, and what the lending
 * answered.
 */
#include <osnma_collector.h>

#include <stdio.h>
#include <string.h>

enum kind { START = 1, PAGE = 2, FIELD = 3, WORD = 4, LEND = 5, WORD_OF_ANOTHER = 6, STOP = 7 };

static struct osnma_core core;
static struct osnma_collector collector;
static uint8_t records[OSNMA_RECORDS];

static void start(void)
{
    struct osnma_settings settings;
    memset(&settings, 0, sizeof settings);
    settings.ns = 36;
    if (osnma_start(&core, &settings) != OSNMA_DONE)
        printf("no start\n");
    osnma_collector_begin(&collector);
}

static void told(void *user, uint8_t prn, uint32_t time, struct osnma_halves answer,
                 const uint8_t area[OSNMA_RECORDS])
{
    if (area != records)
        printf("another area\n");
    fprintf((FILE *)user, "E%02u %lu/%lu: %u %u\n", prn, (unsigned long)osnma_week(time),
            (unsigned long)osnma_second(time), (unsigned)answer.hkroot, (unsigned)answer.mack);
}

static void lend(osnma_told *tell)
{
    const uint32_t time = collector.time;
    const enum osnma_answer answer = osnma_collector_lend(&collector, &core, records, tell, stdout);
    unsigned i;
    for (i = 0; i < OSNMA_STAMPS_COUNT; i++)
        if (time != OSNMA_NO_TIME && core.stamps[i] == time + 1u)
            printf("E%02u word %u: %u\n", i / 5u + 1u, i % 5u + 1u, core.words[OSNMA_WORD * i + 15u]);
    printf("lent: %u\n", (unsigned)answer);
}

static void take(const uint8_t r[256])
{
    const uint32_t time = (uint32_t)r[2] << 24 | (uint32_t)r[3] << 16 | (uint32_t)r[4] << 8 | r[5];
    switch (r[0]) {
    case START:
        start();
        break;
    case PAGE:
        printf("%u\n", (unsigned)osnma_collector_page(&collector, r[1], time, r[6], r + 7, r + 22));
        break;
    case FIELD:
        printf("%u\n", (unsigned)osnma_collector_field(&collector, r[1], time, r[6], r + 7));
        break;
    case WORD:
        printf("%u\n", (unsigned)osnma_collector_word(&collector, r[1], time, r + 6));
        break;
    case LEND:
        lend(r[1] ? told : NULL);
        break;
    case WORD_OF_ANOTHER:
        (void)osnma_word(&core, r[1], time, r + 6);
        break;
    case STOP:
        core.config[OSNMA_CONFIG_COUNT - 1u] = 1;
        break;
    default:
        break;
    }
}

int main(void)
{
    uint8_t r[256];
    while (fread(r, 1, sizeof r, stdin) == sizeof r)
        take(r);
    return 0;
}
