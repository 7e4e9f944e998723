/* Plans the request on standard input, as a bench program would: prints energy, vertices, start times and rows, or says why there is no plan. */
#include <stdio.h>

#include "floebucket.h"

enum { JOBS = 16, DEVICES = 8, TICKS = 4096, BUDGET = 1000000 };

static uint8_t file[256], sizes[FLOE_SIZES], starts[2 * JOBS], rows[DEVICES * TICKS], result[FLOE_RESULT];

static unsigned number(const uint8_t *bytes, int count) {
    unsigned value = 0;
    for (int i = 0; i < count; i++) value = value * 256 + bytes[i];
    return value;
}

static const char *reason(int refusal) {
    if (refusal <= 13 || refusal == 26) return "the file is not a request";
    if (refusal <= 15) return "a buffer has the wrong size";
    if (refusal <= 18) return "the start times are not feasible";
    return refusal == 19 ? "no schedule meets all deadlines" : "the budget is too small to tell";
}

int main(void) {
    size_t size = fread(file, 1, sizeof file, stdin);
    int refusal = floe_search(file, size, BUDGET, starts, sizeof starts, result, sizeof result);
    if (refusal != 0) {
        printf("refused %d: %s\n", refusal, reason(refusal));
        return 1;
    }
    printf("energy %u\nvertices %u\n", number(result + 3, 4), number(result + 7, 4));

    floe_sizes(file, size, sizes, sizeof sizes, result, sizeof result);
    unsigned devices = sizes[0], jobs = sizes[2], horizon = number(result + 1, 2);
    for (unsigned job = 0; job < jobs; job++)
        printf("job %u start %u\n", job, number(starts + 2 * job, 2));

    floe_rows(file, size, starts, 2 * jobs, rows, sizeof rows, result, sizeof result);
    for (unsigned device = 0; device < devices; device++)
        printf("device %u %.*s\n", device, (int)horizon, (const char *)rows + device * horizon);
    return 0;
}
