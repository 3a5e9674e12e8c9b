/*
 * What osnma.h and osnma_collector.h have beside the calls: prints version, layout, texts, lengths and
 * times, which the test compares with those of the Rust binding.
 */
#include <osnma_collector.h>

#include <stdio.h>

int main(void)
{
    static const uint32_t times[] = {0u, 0x3B369762u, 0xFFF93A62u, 0xFFFFFFFFu};
    static const uint32_t seconds[] = {0u, 1u, 2u, 29u, 30u, 31u, 432001u, 432029u, 604799u, 604801u};
    uint8_t message[OSNMA_MESSAGE] = {0};
    unsigned i;
    printf("version %s, layout %u\n", OSNMA_VERSION, (unsigned)OSNMA_LAYOUT);
    printf("authentic at %u bits\n", (unsigned)OSNMA_AUTHENTIC_BITS);
    printf("%u DSM IDs, unknown total %u\n", (unsigned)OSNMA_DSM_IDS, (unsigned)OSNMA_UNKNOWN_TOTAL);
    for (i = 0; i < 20; i++)
        printf("answer %u: %s\n", i, osnma_answer_text(i));
    for (i = 0; i < 11; i++)
        printf("outcome %u: %s\n", i, osnma_outcome_text(i));
    for (i = 0; i < 8; i++)
        printf("collected %u: %s\n", i, osnma_collected_text(i));
    for (i = 0; i < 16; i++) {
        message[2] = (uint8_t)(i << 4 | 15u);
        printf("KS %u: %u bytes signed\n", i, (unsigned)osnma_message_length(message));
    }
    for (i = 0; i < 6; i++)
        printf("key type %u: signature %u, key %u\n", i, (unsigned)osnma_signature_length((uint8_t)i),
               (unsigned)osnma_key_length((uint8_t)i));
    for (i = 0; i < sizeof times / sizeof times[0]; i++)
        printf("%lu/%lu\n", (unsigned long)osnma_week(times[i]), (unsigned long)osnma_second(times[i]));
    for (i = 0; i < sizeof seconds / sizeof seconds[0]; i++) {
        const uint32_t time = osnma_page_time(947, seconds[i]);
        if (time == OSNMA_NO_TIME)
            printf("no page at %lu\n", (unsigned long)seconds[i]);
        else
            printf("page at %lu: %lu, %lu\n", (unsigned long)seconds[i], (unsigned long)osnma_second(time),
                   (unsigned long)osnma_page_number(seconds[i]));
    }
    return 0;
}
