/*
 * What valve_gate.h has beside the calls: prints version, layout, numbers and texts, which the test
 * compares with those of the Rust binding.
 */
#include <valve_gate.h>

#include <stdio.h>

int main(void)
{
    uint32_t i;
    printf("version %s, layout %u, core layout %u\n", VALVE_GATE_VERSION, (unsigned)VALVE_GATE_LAYOUT,
           (unsigned)OSNMA_LAYOUT);
    printf("%u valves, %u bytes\n", (unsigned)VALVE_GATE_VALVES, (unsigned)VALVE_GATE_STATE);
    printf("limits %u and %u\n", (unsigned)VALVE_GATE_CENTRE_LIMIT, (unsigned)VALVE_GATE_OUTER_LIMIT);
    for (i = 0; i < 6; i++)
        printf("%u: %s\n", (unsigned)i, valve_gate_text(i));
    for (i = 0; i < 50; i++)
        printf("valve %u: %d\n", (unsigned)i, valve_gate_is_outer(i));
    return 0;
}
