/* The header alone. */
#include <valve_gate.h>

int main(void)
{
    return 0;
}
