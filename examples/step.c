/* A recorder that steps its devices by itself, through a round whose start times it was given: it holds no file and no rows, only seven bytes of figures and a record of
 * six bytes for each device. It prints what each device has spent. */
#include <stdio.h>

#include "floebucket.h"

enum { DEVICES = 5, JOBS = 8, HORIZON = 45 };

/* T, Pw, Ps, P0: the same for all. */
static const uint8_t device[FLOE_DEVICE] = {1, 0, 5, 0, 1, 0, 3};

/* The jobs in running order: when each starts, how long it runs, and which devices it uses, device k by bit k. */
static const struct {
    uint16_t start, run;
    uint8_t uses;
} jobs[JOBS] = {{0, 3, 4}, {3, 7, 2}, {11, 6, 17}, {20, 4, 8}, {24, 5, 21}, {30, 3, 0}, {33, 4, 19}, {40, 2, 0}};

/* One device through the round, event by event. Returns the first number that is not 0. */
static int round_of(int k, uint8_t record[FLOE_RECORD]) {
    uint16_t now = 0;
    for (int j = 0; j < JOBS; j++) {
        uint16_t end = jobs[j].start + jobs[j].run, until = HORIZON;
        uint8_t uses = jobs[j].uses >> k & 1, next = 0;
        if (j + 1 < JOBS) {
            until = jobs[j + 1].start;
            next = jobs[j + 1].uses >> k & 1;
        }
        uint16_t pause = until - end;
        int number = floe_step_pass(device, sizeof device, jobs[j].start - now, record, FLOE_RECORD);
        if (number == 0) number = floe_step_start(device, sizeof device, uses, next, pause, record, FLOE_RECORD);
        if (number == 0) number = floe_step_pass(device, sizeof device, jobs[j].run, record, FLOE_RECORD);
        if (number == 0) number = floe_step_end(device, sizeof device, uses, next, pause, record, FLOE_RECORD);
        if (number != 0) return number;
        now = end;
    }
    return floe_step_pass(device, sizeof device, HORIZON - now, record, FLOE_RECORD);
}

int main(void) {
    for (int k = 0; k < DEVICES; k++) {
        uint8_t record[FLOE_RECORD] = {0}; /* at work, nothing spent */
        int number = round_of(k, record);
        if (number != 0) {
            printf("refused %d\n", number);
            return 1;
        }
        printf("device %d spends %u\n", k, (unsigned)record[2] << 24 | record[3] << 16 | record[4] << 8 | record[5]);
    }
    return 0;
}
