/* For tests/stores, which counts the stores into the rows.
 *
 *     stores SHAPE H DEVICES T JOBS TICKS     has floe_rows write the rows of such a plan, and prints where they stand and how many bytes they are
 *     stores tally ADDRESS BYTES              reads valgrind's trace of that run, and says how many of the bytes were stored once
 *
 * SHAPE is list or round, for a file of the first kind, or deep-list or deep-round, for one of the third, whose devices have four levels.
 * The rows stand in a buffer into which nothing but the library stores. */
#include "floebucket.h"
#include <stdio.h>
#include <stdlib.h>
#include <string.h>

#define MOST (8 * 4096)

static uint8_t rows[MOST];

static uint8_t file[256];
static size_t length;

static void put(unsigned value, int bytes)
{
    if (bytes > 1)
        file[length++] = (uint8_t)(value >> 8);
    file[length++] = (uint8_t)value;
}

struct shape {
    int round, deep;
    unsigned horizon, devices, transition, jobs, ticks;
};

static void put_devices(const struct shape *shape)
{
    put(shape->devices, 1);
    for (unsigned k = 0; k < shape->devices; k++) {
        put(shape->transition, 1);
        put(50, 2);
        if (!shape->deep)
            put(1, 2);
        put(9, 2);
        if (shape->deep) {
            put(4, 1);
            for (unsigned level = 1; level <= 4; level++)
                put(8 - 2 * level, 2);
        }
    }
}

/* The devices that the jobs use: all, but for the last one of a round, which sleeps throughout. */
static unsigned used(const struct shape *shape)
{
    return shape->round ? shape->devices - 1 : shape->devices;
}

static size_t put_start(uint8_t *starts, size_t place, unsigned start)
{
    starts[place] = (uint8_t)(start >> 8);
    starts[place + 1] = (uint8_t)start;
    return place + 2;
}

/* Each job has its share of the horizon, and stands in its middle. */
static size_t put_list(const struct shape *shape, unsigned share, uint8_t *starts)
{
    size_t place = 0;
    put(0, 1);
    put(shape->jobs, 1);
    for (unsigned j = 0; j < shape->jobs; j++) {
        put(j * share, 2);
        put((j + 1) * share, 2);
        put(shape->ticks, 2);
        put((1u << used(shape)) - 1, 1);
        place = put_start(starts, place, j * share + (share - shape->ticks) / 2);
    }
    return place;
}

/* The jobs are one task's, and stand behind the middle, so that a move goes over the seam; another task, whose one job is the second by number, has
 * the whole round for its period. */
static size_t put_round(const struct shape *shape, unsigned share, uint8_t *starts)
{
    size_t place = 0;
    put(2, 1);
    put(share, 2);
    put(shape->ticks, 2);
    put((1u << used(shape)) - 1, 1);
    put(shape->horizon, 2);
    put(1, 2);
    put(0, 1);
    put(0, 1);
    for (unsigned j = 0; j < shape->jobs; j++) {
        place = put_start(starts, place, j * share + 3 * (share - shape->ticks) / 4);
        if (j == 0)
            place = put_start(starts, place, 0);
    }
    return place;
}

/* A round moves over its seam, and its last device is never at work; a deep device goes down to its fourth level. */
static int is_as_said(const struct shape *shape)
{
    size_t size = (size_t)shape->horizon * shape->devices;
    const uint8_t *last = rows + size - shape->horizon;
    if (shape->round && (rows[0] != 'D' || rows[shape->horizon - 1] != 'D' || memchr(last, 'W', shape->horizon) != NULL))
        return 0;
    return !shape->deep || memchr(rows, '4', size) != NULL;
}

static int plan(const struct shape *shape)
{
    uint8_t starts[32], result[FLOE_RESULT];
    if (shape->deep) {
        put(0xFF, 1);
        put(3, 1);
    }
    put(shape->round ? 0 : shape->horizon, 2);
    put_devices(shape);
    unsigned share = shape->jobs > 0 ? shape->horizon / shape->jobs : shape->horizon;
    size_t given = shape->round ? put_round(shape, share, starts) : put_list(shape, share, starts);
    if (floe_rows(file, length, starts, given, rows, sizeof rows, result, sizeof result) != 0 || !is_as_said(shape)) {
        fputs("stores: the library refuses the plan, or its rows are of another shape\n", stderr);
        return 1;
    }
    printf("%p %u\n", (void *)rows, shape->devices * shape->horizon);
    return 0;
}

static int tally(unsigned long long first, unsigned long long bytes)
{
    static unsigned stores[MOST];
    unsigned long long at, wide, once = 0, beyond = 0;
    char line[128], kind;
    if (bytes > MOST)
        return 1;
    while (fgets(line, sizeof line, stdin))
        if (sscanf(line, " %c %llx,%llu", &kind, &at, &wide) == 3 && (kind == 'S' || kind == 'M'))
            for (; wide > 0; at++, wide--) {
                if (first <= at && at < first + bytes)
                    stores[at - first]++;
                else if (first <= at && at < first + MOST)
                    beyond++;
            }
    for (unsigned long long k = 0; k < bytes; k++)
        once += stores[k] == 1;
    printf("%llu of %llu bytes stored once, %llu stores beyond the rows\n", once, bytes, beyond);
    return once == bytes && beyond == 0 ? 0 : 1;
}

int main(int count, char **words)
{
    if (count == 4 && strcmp(words[1], "tally") == 0)
        return tally(strtoull(words[2], NULL, 16), strtoull(words[3], NULL, 10));
    if (count != 7)
        return 2;
    struct shape shape = {
        .round = strstr(words[1], "round") != NULL,
        .deep = strstr(words[1], "deep") != NULL,
        .horizon = (unsigned)atoi(words[2]),
        .devices = (unsigned)atoi(words[3]),
        .transition = (unsigned)atoi(words[4]),
        .jobs = (unsigned)atoi(words[5]),
        .ticks = (unsigned)atoi(words[6]),
    };
    return plan(&shape);
}
