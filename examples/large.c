/* Plans the request on standard input, however large it is: lends the search a memory, and prints energy, start times and rows, or says why there is no plan. */
#include <stdio.h>
#include <stdlib.h>

#include "floebucket.h"

enum { JOBS = 16, DEVICES = 8, TICKS = 4096 };

/* 64 MiB: with more it is faster, with less slower, and the plan is the same. */
static const size_t WORDS = (size_t)8 << 20;

static uint8_t file[256], sizes[FLOE_SIZES], starts[2 * JOBS], rows[DEVICES * TICKS], result[FLOE_RESULT];

static unsigned number(const uint8_t *bytes, int count) {
    unsigned value = 0;
    for (int i = 0; i < count; i++) value = value * 256 + bytes[i];
    return value;
}

static const char *reason(int refusal) {
    if (refusal == 19) return "no schedule meets all deadlines";
    return refusal == 20 ? "given up: there is a plan, and lending more memory may help" : "the file is not a request";
}

int main(void) {
    uint64_t *memory = malloc(WORDS * sizeof *memory); /* whatever it holds */
    size_t words = memory == NULL ? 0 : WORDS;         /* without any it goes on, slowly */
    size_t size = fread(file, 1, sizeof file, stdin);
    int refusal = floe_least(file, size, UINT32_MAX, memory, words, starts, sizeof starts, result, sizeof result);
    free(memory);
    if (refusal != 0) {
        printf("refused %d: %s\n", refusal, reason(refusal));
        return 1;
    }
    printf("energy %u\n", number(result + 3, 4));

    floe_sizes(file, size, sizes, sizeof sizes, result, sizeof result);
    unsigned devices = sizes[0], jobs = sizes[2], horizon = number(result + 1, 2);
    for (unsigned job = 0; job < jobs; job++)
        printf("job %u start %u\n", job, number(starts + 2 * job, 2));

    floe_rows(file, size, starts, 2 * jobs, rows, sizeof rows, result, sizeof result);
    for (unsigned device = 0; device < devices; device++)
        printf("device %u %.*s\n", device, (int)horizon, (const char *)rows + device * horizon);
    return 0;
}
