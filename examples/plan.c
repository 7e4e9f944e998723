/* The plan of least energy of the request on standard input: its energy and the start of each job. */
#include <stdio.h>

#include "floebucket.h"

static uint64_t memory[1 << 17]; /* 1 MiB to remember in, whatever it holds; examples/large.c lends more */

int main(void) {
    uint8_t file[FLOE_FILE + 1], starts[FLOE_STARTS], sizes[FLOE_SIZES], result[FLOE_RESULT];
    size_t size = fread(file, 1, sizeof file, stdin);
    int refusal = floe_least(file, size, UINT32_MAX, memory, sizeof memory / sizeof *memory, starts, sizeof starts, result, sizeof result);
    if (refusal != 0) {
        printf("refused %d\n", refusal);
        return 1;
    }
    printf("energy %u\n", (unsigned)result[3] << 24 | result[4] << 16 | result[5] << 8 | result[6]);
    floe_sizes(file, size, sizes, sizeof sizes, result, sizeof result); /* how many devices, tasks and jobs */
    for (int job = 0; job < sizes[2]; job++)
        printf("job %d start %d\n", job, starts[2 * job] * 256 + starts[2 * job + 1]);
    return 0;
}
