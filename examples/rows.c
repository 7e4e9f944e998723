/* The rows of a round of tasks that the program itself lays out: a microphone is read every 4 ticks, and every 6 ticks it is read and written to flash memory.
 * Of the round of 12 ticks, which is repeated for ever, it prints what each device does in every tick. */
#include <stdio.h>

#include "floebucket.h"

/* docs/FILE.md says how the bytes of a request are laid out. */
static const uint8_t request[] = {
    0, 0,                     /* the horizon comes from the tasks */
    2,                        /* two devices: T, Pw, Ps, P0 */
    1, 0, 15, 0, 1, 0, 6,     /* microphone */
    1, 0, 42, 0, 2, 0, 16,    /* flash memory */
    2,                        /* two tasks: period, running time, devices */
    0, 4, 0, 1, 1,            /* the microphone is device 0, whose bit is 1 */
    0, 6, 0, 2, 3,            /* 1 + 2: both */
    0,                        /* no other jobs */
};

enum { DEVICES = 2, JOBS = 12 / 4 + 12 / 6, TICKS = 12 };

int main(void) {
    uint8_t starts[2 * JOBS], rows[DEVICES * TICKS], result[FLOE_RESULT];
    int refusal = floe_least(request, sizeof request, UINT32_MAX, NULL, 0, starts, sizeof starts, result, sizeof result);
    if (refusal == 0) refusal = floe_rows(request, sizeof request, starts, sizeof starts, rows, sizeof rows, result, sizeof result);
    if (refusal != 0) {
        printf("refused %d\n", refusal);
        return 1;
    }
    for (int device = 0; device < DEVICES; device++) printf("device %d %.*s\n", device, TICKS, (const char *)rows + device * TICKS);
    return 0;
}
