/* The stack that each function needs in all: the least with which a thread that calls it still ends, in KiB, over the requests whose files are named. Each try
 * is a process of its own, which a thread without enough stack ends. */
#define _GNU_SOURCE
#include <pthread.h>
#include <stdio.h>
#include <stdlib.h>
#include <string.h>
#include <sys/mman.h>
#include <sys/wait.h>
#include <unistd.h>

#include "floebucket.h"

enum { PAGE = 4096, MOST = 1 << 20, WORDS = 1 << 17, BUDGET = 100000 };

static uint8_t file[FLOE_FILE], starts[FLOE_STARTS], out[FLOE_ROWS], moved[6 * FLOE_JOBS], tables[256], result[FLOE_RESULT];
static size_t size, given, tabled;
static uint64_t memory[WORDS];
static const char parts[] = "\"00417\",1,5,1,3\r\n", jobs[] = "0,5,2,1\r\n";
static uint8_t catalogue[15], records[7];

static void nothing(void) {}
static void check(void) { floe_check(file, size, result, sizeof result); }
static void sizes(void) { floe_sizes(file, size, out, sizeof out, result, sizeof result); }
static void fault(void) { floe_fault(file, size - 1, out, sizeof out); }
static void search(void) { floe_search(file, size, BUDGET, out, sizeof starts, result, sizeof result); }
static void search_in(void) { floe_search_in(file, size, BUDGET, memory, WORDS, out, sizeof starts, result, sizeof result); }
static void least(void) { floe_least(file, size, BUDGET, memory, WORDS, out, sizeof starts, result, sizeof result); }
static void first(void) { floe_first(file, size, out, sizeof starts, result, sizeof result); }
static void rows(void) { floe_rows(file, size, starts, given, out, sizeof out, result, sizeof result); }
static void verdict(void) { door_verdict(file, size, starts, given, result, sizeof result); }
static void margins(void) { door_margins(file, size, starts, given, out, sizeof out, result, sizeof result); }
static void write_(void) { door_write(tables, tabled, out, sizeof out, result, sizeof result); }
static void fault_of_tables(void) { door_fault(tables, tabled, out, sizeof out); }
static void tables_(void) { door_tables(file, size, out, sizeof out, result, sizeof result); }
static void build(void) {
    static const uint8_t none[] = {1, 0, 5, 0, 0, 0, 0, 0, 0};
    door_build(catalogue, sizeof catalogue, catalogue, 8, none, sizeof none, out, sizeof out, result, sizeof result);
}
static void order_fault(void) { door_order_fault(catalogue, sizeof catalogue, catalogue, 8, out, sizeof out); }
static void possible(void) { door_possible(file, size, BUDGET, out, sizeof starts, result, sizeof result); }
static void mend(void) { door_mend(file, size, starts, given, out, sizeof starts, moved, sizeof moved, result, sizeof result); }
static void import_devices(void) { door_import_devices((const uint8_t *)parts, sizeof parts - 1, out, sizeof out, result, sizeof result); }
static void devices_fault(void) { door_devices_fault((const uint8_t *)parts, sizeof parts - 1, out, sizeof out); }
static void export_devices(void) { door_export_devices(catalogue, sizeof catalogue, out, sizeof out, result, sizeof result); }
static void import_jobs(void) { door_import_jobs((const uint8_t *)jobs, sizeof jobs - 1, out, sizeof out, result, sizeof result); }
static void jobs_fault(void) { door_jobs_fault((const uint8_t *)jobs, sizeof jobs - 1, out, sizeof out); }
static void export_jobs(void) { door_export_jobs(records, sizeof records, out, sizeof out, result, sizeof result); }
static void export_plan(void) { door_export_plan(file, size, starts, given, out, sizeof out, result, sizeof result); }
static uint8_t record[FLOE_RECORD];
static const uint8_t part[FLOE_DEVICE] = {1, 0, 5, 0, 1, 0, 3};
static void step_start(void) { floe_step_start(part, sizeof part, 0, 1, 4, record, sizeof record); }
static void step_end(void) { floe_step_end(part, sizeof part, 1, 0, 4, record, sizeof record); }
static void step_pass(void) { floe_step_pass(part, sizeof part, 3, record, sizeof record); }
static void step(void) { door_step(file, size, starts, given, out, sizeof out, result, sizeof result); }

#define CALL(name) {#name, name}
static const struct {
    const char *name;
    void (*call)(void);
} CALLS[] = {CALL(nothing), CALL(check), CALL(sizes), CALL(fault), CALL(search), CALL(search_in), CALL(least), CALL(first), CALL(rows), CALL(verdict), CALL(margins), {"write", write_}, {"door_fault", fault_of_tables}, {"tables", tables_},
             CALL(build), CALL(order_fault), CALL(possible), CALL(mend), CALL(import_devices), CALL(devices_fault), CALL(export_devices), CALL(import_jobs), CALL(jobs_fault), CALL(export_jobs), CALL(export_plan), CALL(step), CALL(step_start), CALL(step_end), CALL(step_pass)};

static void *thread(void *call) {
    (*(void (**)(void))call)();
    return NULL;
}

/* Whether a thread with so much stack ends. Below it is a page that nobody may touch. */
static int ends(void (*call)(void), size_t stack) {
    fflush(stdout);
    pid_t child = fork();
    if (child == 0) {
        pthread_attr_t attributes;
        pthread_t own;
        char *place = mmap(NULL, stack + PAGE, PROT_NONE, MAP_PRIVATE | MAP_ANONYMOUS, -1, 0);
        if (place == MAP_FAILED || mprotect(place + PAGE, stack, PROT_READ | PROT_WRITE) != 0) _exit(2);
        pthread_attr_init(&attributes);
        if (pthread_attr_setstack(&attributes, place + PAGE, stack) != 0) _exit(3);
        if (pthread_create(&own, &attributes, thread, &call) != 0) _exit(4);
        pthread_join(own, NULL);
        _exit(0);
    }
    int status = 0;
    waitpid(child, &status, 0);
    return status == 0;
}

int main(int words, char **word) {
    size_t most[sizeof CALLS / sizeof *CALLS] = {0};
    for (int w = 1; w < words; w++) {
        FILE *request = fopen(word[w], "rb");
        if (request == NULL) return 1;
        size = fread(file, 1, sizeof file, request);
        fclose(request);
        memset(starts, 0xFF, sizeof starts);
        if (floe_first(file, size, starts, sizeof starts, result, sizeof result) != 0) return 1;
        for (given = 0; given < sizeof starts && (starts[given] & starts[given + 1]) != 0xFF; given += 2) {}
        door_tables(file, size, tables, sizeof tables, result, sizeof result);
        tabled = result[9] * 256u + result[10];
        door_import_devices((const uint8_t *)parts, sizeof parts - 1, catalogue, sizeof catalogue, result, sizeof result);
        door_import_jobs((const uint8_t *)jobs, sizeof jobs - 1, records, sizeof records, result, sizeof result);
        for (size_t c = 0; c < sizeof CALLS / sizeof *CALLS; c++) {
            size_t low = PTHREAD_STACK_MIN - PAGE, high = MOST;
            while (high - low > PAGE) {
                size_t middle = (low + high) / 2 / PAGE * PAGE;
                if (ends(CALLS[c].call, middle)) high = middle;
                else low = middle;
            }
            if (high > most[c]) most[c] = high;
        }
    }
    for (size_t c = 0; c < sizeof CALLS / sizeof *CALLS; c++) printf("%-16s %4zu KiB\n", CALLS[c].name, most[c] / 1024);
    return 0;
}
