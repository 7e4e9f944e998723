/* Calls the library in several threads at once, on requests whose files are named, and holds every answer and every byte to what the same call gives alone;
 * then with NULL for every buffer of length 0. Prints how many calls agree. */
#include <pthread.h>
#include <stdio.h>
#include <stdlib.h>
#include <string.h>

#include "floebucket.h"

enum { THREADS = 8, ROUNDS = 40, CALLS = 14, FILES = 16, WORDS = 1 << 12, OUT = FLOE_ROWS + 8 };

typedef struct {
    uint8_t bytes[FLOE_FILE];
    size_t size;
} Request;

/* All that a call can write to. */
typedef struct {
    int number;
    uint8_t starts[FLOE_STARTS], out[OUT], moved[6 * FLOE_JOBS], result[FLOE_PLACE + 2];
} Answer;

static Request requests[FILES];
static int count;
static Answer *alone[FILES][CALLS];

/* One of the calls, on fresh buffers. The later ones take the start times of the first plan. */
static void call(const Request *r, int which, Answer *a) {
    uint64_t memory[WORDS];
    uint8_t given[FLOE_STARTS], sizes[FLOE_SIZES] = {0}, told[FLOE_RESULT];
    memset(a, 0xAA, sizeof *a);
    memset(memory, 0x55, sizeof memory);
    memset(given, 0, sizeof given);
    floe_first(r->bytes, r->size, given, sizeof given, told, sizeof told);
    floe_sizes(r->bytes, r->size, sizes, sizeof sizes, told, sizeof told);
    size_t jobs = sizes[2];
    switch (which) {
    case 0: a->number = floe_check(r->bytes, r->size, a->result, sizeof a->result); break;
    case 1: a->number = floe_search(r->bytes, r->size, 20000, a->starts, sizeof a->starts, a->result, sizeof a->result); break;
    case 2: a->number = floe_least(r->bytes, r->size, 20000, memory, WORDS, a->starts, sizeof a->starts, a->result, sizeof a->result); break;
    case 3: a->number = floe_first(r->bytes, r->size, a->starts, sizeof a->starts, a->result, sizeof a->result); break;
    case 4: a->number = floe_rows(r->bytes, r->size, given, 2 * jobs, a->out, sizeof a->out, a->result, sizeof a->result); break;
    case 5: a->number = door_verdict(r->bytes, r->size, given, 2 * jobs, a->result, sizeof a->result); break;
    case 6: a->number = door_possible(r->bytes, r->size, 20000, a->starts, sizeof a->starts, a->result, sizeof a->result); break;
    case 7: a->number = door_mend(r->bytes, r->size, given, 2 * jobs, a->starts, sizeof a->starts, a->moved, sizeof a->moved, a->result, sizeof a->result); break;
    case 8: a->number = door_export_plan(r->bytes, r->size, given, 2 * jobs, a->out, sizeof a->out, a->result, sizeof a->result); break;
    case 9: a->number = floe_sizes(r->bytes, r->size, a->out, sizeof a->out, a->result, sizeof a->result); break;
    case 10: a->number = floe_fault(r->bytes, r->size - 1, a->result, sizeof a->result); break;
    case 11: a->number = door_step(r->bytes, r->size, given, 2 * jobs, a->out, sizeof a->out, a->result, sizeof a->result); break;
    case 12: {
        static const uint8_t device[FLOE_DEVICE] = {1, 0, 5, 0, 1, 0, 3};
        memset(a->out, 0, FLOE_RECORD);
        floe_step_start(device, sizeof device, 0, 1, (uint16_t)jobs, a->out, FLOE_RECORD);
        floe_step_end(device, sizeof device, 1, 0, (uint16_t)jobs, a->out, FLOE_RECORD);
        a->number = floe_step_pass(device, sizeof device, (uint16_t)r->size, a->out, FLOE_RECORD);
        break;
    }
    default: a->number = door_tables(r->bytes, r->size, a->out, sizeof a->out, a->result, sizeof a->result); break;
    }
}

/* How many calls of a thread do not agree. The threads begin at different calls. */
static void *work(void *argument) {
    size_t first = (size_t)argument, wrong = 0;
    Answer *answer = malloc(sizeof *answer);
    for (size_t i = 0; i < (size_t)ROUNDS * CALLS * count; i++) {
        size_t at = (i + first) % (CALLS * count);
        call(&requests[at / CALLS], at % CALLS, answer);
        wrong += memcmp(answer, alone[at / CALLS][at % CALLS], sizeof *answer) != 0;
    }
    free(answer);
    return (void *)wrong;
}

static void hold(int given, int wanted, const char *what) {
    if (given == wanted) return;
    printf("threads: %s gives %d and not %d\n", what, given, wanted);
    exit(1);
}

/* Of the first request, which has one job and one device. */
static void without_buffers(void) {
    const Request *r = &requests[0];
    uint8_t starts[2], result[FLOE_RESULT], place[FLOE_PLACE];
    size_t room = sizeof result;
    hold(floe_check(NULL, 0, result, room), 1, "floe_check without a file");
    hold(floe_check(r->bytes, r->size, NULL, 0), 15, "floe_check without a result");
    hold(floe_sizes(r->bytes, r->size, NULL, 0, result, room), 15, "floe_sizes without room");
    hold(floe_fault(NULL, 0, place, sizeof place), 1, "floe_fault without a file");
    hold(door_fault(NULL, 0, place, sizeof place), FLOE_SHUT, "door_fault without tables");
    hold(door_order_fault(NULL, 0, NULL, 0, place, FLOE_COUNTED), 0, "door_order_fault without parts");
    hold(door_devices_fault(NULL, 0, place, FLOE_COUNTED), 0, "door_devices_fault without lines");
    hold(door_jobs_fault(NULL, 0, NULL, 0), FLOE_SHUT, "door_jobs_fault without room");
    hold(floe_search(r->bytes, r->size, 1000, NULL, 0, result, room), 15, "floe_search without start times");
    hold(floe_first(r->bytes, r->size, NULL, 0, result, room), 15, "floe_first without start times");
    hold(floe_least(r->bytes, r->size, 1000, NULL, 0, starts, sizeof starts, result, room), 0, "floe_least without a memory");
    hold(floe_rows(r->bytes, r->size, NULL, 0, NULL, 0, result, room), 14, "floe_rows without start times");
    hold(floe_rows(r->bytes, r->size, starts, sizeof starts, NULL, 0, result, room), 15, "floe_rows without room");
    hold(door_verdict(r->bytes, r->size, NULL, 0, result, room), 14, "door_verdict without start times");
    hold(door_verdict(r->bytes, r->size, starts, sizeof starts, NULL, 0), FLOE_SHUT, "door_verdict without a result");
    hold(door_margins(r->bytes, r->size, starts, sizeof starts, NULL, 0, result, room), 15, "door_margins without room");
    hold(door_possible(r->bytes, r->size, 1000, NULL, 0, result, room), 15, "door_possible without start times");
    hold(door_mend(r->bytes, r->size, starts, sizeof starts, NULL, 0, NULL, 0, result, room), 15, "door_mend without room");
    hold(door_step(r->bytes, r->size, starts, sizeof starts, NULL, 0, result, room), 15, "door_step without room");
    hold(floe_step_start(NULL, 0, 0, 0, 0, NULL, 0), FLOE_SHUT, "floe_step_start without a device");
    hold(floe_step_end(NULL, 0, 0, 0, 0, NULL, 0), FLOE_SHUT, "floe_step_end without a device");
    hold(floe_step_pass(NULL, 0, 0, NULL, 0), FLOE_SHUT, "floe_step_pass without a device");
    hold(door_write(NULL, 0, NULL, 0, result, room), FLOE_SHUT, "door_write without tables");
    hold(door_tables(r->bytes, r->size, NULL, 0, result, room), 15, "door_tables without room");
    hold(door_build(NULL, 0, NULL, 0, NULL, 0, NULL, 0, result, room), FLOE_SHUT, "door_build without tables");
    hold(door_import_devices(NULL, 0, NULL, 0, result, room), 0, "door_import_devices without a text");
    hold(door_import_jobs(NULL, 0, NULL, 0, result, room), 0, "door_import_jobs without a text");
    hold(door_export_devices(NULL, 0, NULL, 0, result, room), 0, "door_export_devices without parts");
    hold(door_export_jobs(NULL, 0, NULL, 0, result, room), 0, "door_export_jobs without jobs");
    hold(door_export_plan(r->bytes, r->size, starts, sizeof starts, NULL, 0, result, room), 15, "door_export_plan without room");
}

int main(int words, char **word) {
    for (count = 0; count < words - 1 && count < FILES; count++) {
        FILE *file = fopen(word[count + 1], "rb");
        if (file == NULL) return 1;
        requests[count].size = fread(requests[count].bytes, 1, FLOE_FILE, file);
        fclose(file);
    }
    for (int r = 0; r < count; r++)
        for (int which = 0; which < CALLS; which++) {
            alone[r][which] = malloc(sizeof(Answer));
            call(&requests[r], which, alone[r][which]);
        }
    pthread_t threads[THREADS];
    for (size_t t = 0; t < THREADS; t++)
        if (pthread_create(&threads[t], NULL, work, (void *)(t * 7)) != 0) return 1;
    size_t wrong = 0;
    for (int t = 0; t < THREADS; t++) {
        void *own;
        pthread_join(threads[t], &own);
        wrong += (size_t)own;
    }
    if (count == 0 || wrong > 0) {
        printf("threads: %zu calls beside others are not what they are alone\n", wrong);
        return 1;
    }
    without_buffers();
    printf("threads: %d calls in %d threads at once agree, and 30 with NULL for an empty buffer\n", THREADS * ROUNDS * CALLS * count, THREADS);
    return 0;
}
