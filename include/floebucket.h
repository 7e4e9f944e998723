/* Floebucket for C and C++: plans a request with proved functions. Link target/lib/libfloebucket.a, which ./library builds.
 *
 * Every buffer is a pointer and a length. Every function returns the number of its answer: 0, or the refusal (docs/MANUAL.md lists them). All but those that tell
 * a place (floe_fault, door_fault and the like) and the steps of a device (floe_step_..), which say below what they write, put the rest of the answer into the
 * result buffer, FLOE_RESULT bytes or more, the high byte of a number first:
 *
 *     byte 0        job        of 16, 17 and 18: the job at fault
 *     bytes 1, 2    horizon    on success
 *     bytes 3 - 6   energy     on success of floe_search, floe_search_in and floe_least, of the rows, the verdict and the stepping
 *     bytes 7 - 10  count      of floe_search, floe_search_in and door_possible: the vertices; of 20: the budget; of other doors what is said there
 *
 * What does not apply is 0. The result buffer is the one place that a refusal writes to, besides the memory that is lent to floe_least, with 20, and to
 * floe_search_in, with 19 and 20. Bytes after the eleventh stay as they were. So do the bytes of any other buffer that the answer does not need.
 *
 * There are two groups of functions, which differ in what they do with a result buffer that is too short: under FLOE_RESULT bytes, or FLOE_PLACE or FLOE_COUNTED
 * where a place is told. For floe_.. it is a refusal 15, after the file's own refusals and after 14, and then nothing at all is written. A door, door_.., is shut: it returns FLOE_SHUT and does nothing. It is also shut to an
 * odd number of bytes of start times, and to bytes that are not what it wants: tables of another length or kind. Both groups are proved.
 *
 * A length of 0 goes with any pointer, NULL too: nothing is read or written there. With a length of 1 or more the pointer leads to so many bytes. A pointer
 * that does not, or buffers that overlap: then nothing is promised.
 *
 * The functions share nothing: they have no variables of their own, keep no pointer, and call nothing but memcpy and memset. They may run in several threads
 * at once, as long as no buffer that is written to is lent to two calls.
 *
 * Stack that a call needs in all, measured as the least with which a thread that makes it still ends (x86-64; it changes a little with the request): floe_search
 * 248 KiB, floe_search_in 152 KiB, floe_first 140 KiB, door_possible 112 KiB, floe_least 308 KiB with the examples and up to 332 with other recorders of 16 jobs,
 * the rest at most the 16 KiB that every thread has. With 420 KiB floe_least has enough for every request: its tables take 257 KiB, and at most 281 calls of 0.5
 * KiB stand on each other. */
#ifndef FLOEBUCKET_H
#define FLOEBUCKET_H

#include <stddef.h>
#include <stdint.h>

/* The bytes of a result buffer, of what floe_sizes writes, of the result buffer of floe_fault and door_fault, and of that of the doors which tell a part or a
 * line. */
#define FLOE_RESULT 11
#define FLOE_SIZES 3
#define FLOE_PLACE 18
#define FLOE_COUNTED 8

/* What is enough for every request: the most jobs and devices, the most bytes of start times (two for each job), of rows (8 devices x 4,096 ticks), and of a
 * request file, and of the tables of one. */
#define FLOE_JOBS 16
#define FLOE_DEVICES 8
#define FLOE_STARTS 32
#define FLOE_ROWS 32768
#define FLOE_FILE 231
#define FLOE_TABLES 233

/* The bytes of a device and of its record, of the steps of a device. */
#define FLOE_DEVICE 7
#define FLOE_RECORD 6

/* What a door returns that is shut, and a step to which bytes are handed that are no device or no record. */
#define FLOE_SHUT 255

#ifdef __cplusplus
extern "C" {
#endif

/* Whether the file is a request, and its horizon. */
uint8_t floe_check(const uint8_t *file, size_t file_len, uint8_t *result, size_t result_len);

/* How large the request is: `sizes` gets the number of its devices, of its tasks and of its jobs, a byte each, and the horizon is in the result. The jobs are those
 * that are planned, which tasks release too: so many start times a plan has. `sizes` has at least FLOE_SIZES bytes; what follows stays as it was. */
uint8_t floe_sizes(const uint8_t *file, size_t file_len, uint8_t *sizes, size_t sizes_len, uint8_t *result, size_t result_len);

/* Where the file is refused: returns the number that floe_check returns, and puts the first place at fault into a result buffer of FLOE_PLACE bytes or more:
 *
 *     byte 0          what it is   1 horizon, 2 device count, 3 device, 4 task count, 5 task, 6 job count, 7 job, 8 what follows the last section
 *     byte 1          its number   of a device, a task or a job, else 0
 *     bytes 2 - 9     first byte   counted from 0, the mark of a file of the second or the third kind among them
 *     bytes 10 - 17   end          the byte after its last; a file that is cut short may end before it
 *
 * 10, 11 and 12 are told at the job count, with which they are judged. Of a file that is accepted all are 0. A shorter buffer is a 15 as above. */
uint8_t floe_fault(const uint8_t *file, size_t file_len, uint8_t *result, size_t result_len);

/* The plan of least energy: its start times by job number, two bytes each, if the budget covers the vertices of the search. `starts` has at least two bytes
 * for each job; what follows the last job's stays as it was. */
uint8_t floe_search(const uint8_t *file, size_t file_len, uint32_t budget, uint8_t *starts, size_t starts_len, uint8_t *result, size_t result_len);

/* The same, with a memory of so many words that is lent: of any length, 0 too, and whatever it holds. The answer is that of floe_search, its count too. Only where
 * more than 256 vertices are counted the memory is written to, and what it then holds means nothing; so with every number but 0, 19 and 20 it is as it was.
 * floe_search has 96 KiB on its stack for this; more is faster where there are many devices. */
uint8_t floe_search_in(const uint8_t *file, size_t file_len, uint32_t budget, uint64_t *memory, size_t words, uint8_t *starts, size_t starts_len,
                       uint8_t *result, size_t result_len);

/* The same plan, for requests of any size, with a memory of so many words that may be of any length, 0 too, and may hold anything. With 0 and 20 what it holds
 * afterwards means nothing; with every other number it is as it was. More memory is faster and gives no other plan; 8,388,608 words (64 MiB) are enough for most
 * requests of 1,000 ticks to take under a second. Nothing is counted, so that the count is 0. It may be given up, 20, but only where floe_search with this budget
 * is too; UINT32_MAX vertices take hours. Then there is a plan, and `starts` is as it was. `starts` as above. */
uint8_t floe_least(const uint8_t *file, size_t file_len, uint32_t budget, uint64_t *memory, size_t words, uint8_t *starts, size_t starts_len, uint8_t *result,
                   size_t result_len);

/* Whether there is any plan: the start times of the first of all, whatever it costs, or 19 if there is none. No request takes longer than some milliseconds, so
 * that there is no budget, and count and energy are 0. `starts` as above. */
uint8_t floe_first(const uint8_t *file, size_t file_len, uint8_t *starts, size_t starts_len, uint8_t *result, size_t result_len);

/* For start times that are feasible, two bytes each and exactly one for each job: the row of every device, one letter a tick (W working, D going down,
 * S asleep, or in a file of the third kind 1 to 4 for the level, U coming up), that of device k from byte k x horizon on. `rows` has at least devices x horizon
 * bytes; the rest stays as it was. */
uint8_t floe_rows(const uint8_t *file, size_t file_len, const uint8_t *starts, size_t starts_len, uint8_t *rows, size_t rows_len, uint8_t *result,
                  size_t result_len);

/* ---- doors: the other operations. Beside each stand the numbers that it can give: those of a file are 1 to 13 and 26. A buffer that is too short for the answer
 * gets nothing, and the number is 15. */

/* Whether the start times, two bytes each, are feasible, with the energy of the plan. Those of a file, 14, 16, 17, 18. */
uint8_t door_verdict(const uint8_t *file, size_t file_len, const uint8_t *starts, size_t starts_len, uint8_t *result, size_t result_len);

/* The margin of each job for any start times: four bytes each, a negative one by its two's complement. Those of a file, 14, 15. */
uint8_t door_margins(const uint8_t *file, size_t file_len, const uint8_t *starts, size_t starts_len, uint8_t *out, size_t out_len, uint8_t *result,
                     size_t result_len);

/* Tables as bytes: kind (1 byte: 1, 2 or 3), horizon field, device count, task count and job count (2 each), then the first 8 device records at most, the
 * first 8 tasks and the first 16 jobs, as in a file of that kind: a device has 7 bytes in the first kind, 10 in the second, and in the third 6 and two for
 * each level that it says it has, but at most 14. To tables of another length or kind the doors are shut.
 *
 * The file that the tables make, FLOE_FILE bytes at most; the count of the answer is its bytes. 3 to 13, 15, 26. */
uint8_t door_write(const uint8_t *tables, size_t tables_len, uint8_t *out, size_t out_len, uint8_t *result, size_t result_len);

/* Where tables are refused: the number that door_write gives but for 15, and the first place at fault in the file that they make, as floe_fault tells it. The door
 * is also shut to a result buffer under FLOE_PLACE bytes. */
uint8_t door_fault(const uint8_t *tables, size_t tables_len, uint8_t *result, size_t result_len);

/* The tables of a file, FLOE_TABLES bytes at most; the count of the answer is their bytes. Those of a file, 15. */
uint8_t door_tables(const uint8_t *file, size_t file_len, uint8_t *out, size_t out_len, uint8_t *result, size_t result_len);

/* The file of the wanted parts: 15 bytes for each part of the catalogue, 8 of number and 7 of device record, and 8 for each part that is wanted. The tables
 * are of kind 1 and have no devices, else the door is shut. The count of the answer is the bytes of the file. 21, 22, 23, then 3 to 13, 15. */
uint8_t door_build(const uint8_t *catalogue, size_t catalogue_len, const uint8_t *wanted, size_t wanted_len, const uint8_t *tables, size_t tables_len,
                   uint8_t *out, size_t out_len, uint8_t *result, size_t result_len);

/* For which part door_build refuses: the number 21, 22 or 23, and in eight bytes the part, of 23 the wanted part, counted from 0. 0 and eight zeros where
 * it refuses for none. With 22 it is the second of two parts that have one number. The door is shut to a result buffer under FLOE_COUNTED bytes. */
uint8_t door_order_fault(const uint8_t *catalogue, size_t catalogue_len, const uint8_t *wanted, size_t wanted_len, uint8_t *result, size_t result_len);

/* The start times of the first of all plans, two bytes each, if the budget covers the vertices visited till then, which are the count. Those of a file, 15, 19
 * and 20. floe_first gives the same plan without a budget. */
uint8_t door_possible(const uint8_t *file, size_t file_len, uint32_t budget, uint8_t *starts, size_t starts_len, uint8_t *result, size_t result_len);

/* The start times mended. `out`: the new ones by job number, two bytes each. `moved`: six bytes for each job that moved, two each for its number, its given
 * start and its new one, and room for six a job; the count of the answer is how many moved. Those of a file, 14, 15, 17. */
uint8_t door_mend(const uint8_t *file, size_t file_len, const uint8_t *starts, size_t starts_len, uint8_t *out, size_t out_len, uint8_t *moved,
                  size_t moved_len, uint8_t *result, size_t result_len);

/* Step by step on the recorder, for start times that are feasible. `out`: what each device spends, four bytes each, of which the energy of the answer is the sum.
 * Those of a file, 14 to 18, 24, 25. */
uint8_t door_step(const uint8_t *file, size_t file_len, const uint8_t *starts, size_t starts_len, uint8_t *out, size_t out_len, uint8_t *result,
                  size_t result_len);

/* The same one step at a time, for a recorder that runs its round by itself and holds no file. `device`: the FLOE_DEVICE bytes of a device as in a file of the first
 * kind, T (1), Pw (2), Ps (2), P0 (2). `record`: FLOE_RECORD bytes, which a step reads and writes:
 *
 *     byte 0        what the device does   0 works, 1 sleeps, 2 goes down, 3 comes up
 *     byte 1        ticks left of a move, else 0
 *     bytes 2 - 5   the energy that it has spent
 *
 * A round begins with a record of zeros. At the start and at the completion of a job `uses` is whether this job uses the device (any byte but 0), `next` whether the
 * next job does, and `pause` how many ticks after this job's end the next one starts; after the last job none is used, and the pause lasts to the horizon. Between
 * two of these events, and after the last up to the horizon, floe_step_pass lets the ticks pass. Of a completion and a start at one tick the completion is first.
 * So stepped, with start times that door_step accepts, a device has spent what door_step says.
 *
 * 0: the record is that after the step. FLOE_SHUT: these are no device and no record, or its first byte is over 3; 4: T is 0; 25: not Ps < P0 < Pw; 15, of
 * floe_step_pass alone: the energy no longer fits four bytes. Then nothing is written. */
uint8_t floe_step_start(const uint8_t *device, size_t device_len, uint8_t uses, uint8_t next, uint16_t pause, uint8_t *record, size_t record_len);
uint8_t floe_step_end(const uint8_t *device, size_t device_len, uint8_t uses, uint8_t next, uint16_t pause, uint8_t *record, size_t record_len);
uint8_t floe_step_pass(const uint8_t *device, size_t device_len, uint16_t ticks, uint8_t *record, size_t record_len);

/* Sheets: comma-separated text, a line for each device, job or job of a plan, lines ending in CR LF.
 *
 * The catalogue of a sheet of devices (part number, T, Pw, Ps, P0): 15 bytes a part, 960 at most. The count of the answer is the lines. 27, 28, 29, then 21, 22,
 * 15. */
uint8_t door_import_devices(const uint8_t *text, size_t text_len, uint8_t *out, size_t out_len, uint8_t *result, size_t result_len);

/* For which line door_import_devices refuses: its number but for 15, and in eight bytes the line, counted from 0; 0 and eight zeros where it does not. The door
 * is shut to a result buffer under FLOE_COUNTED bytes. */
uint8_t door_devices_fault(const uint8_t *text, size_t text_len, uint8_t *result, size_t result_len);

/* The sheet of a catalogue, 2,176 bytes at most. The count of the answer is the bytes of the text, here and below. 21, 22, 15. */
uint8_t door_export_devices(const uint8_t *catalogue, size_t catalogue_len, uint8_t *out, size_t out_len, uint8_t *result, size_t result_len);

/* The job records of a sheet of jobs (release, deadline, running time, device set): 7 bytes each as in a file, 112 at most. The count is the lines. 27, 28, 29,
 * then 12, 15. */
uint8_t door_import_jobs(const uint8_t *text, size_t text_len, uint8_t *out, size_t out_len, uint8_t *result, size_t result_len);

/* The same for door_import_jobs. */
uint8_t door_jobs_fault(const uint8_t *text, size_t text_len, uint8_t *result, size_t result_len);

/* The sheet of job records, 368 bytes at most. 12, 1, 15. */
uint8_t door_export_jobs(const uint8_t *records, size_t records_len, uint8_t *out, size_t out_len, uint8_t *result, size_t result_len);

/* The sheet of a plan (job number, start, margin) for start times, two bytes each, 240 bytes at most. Those of a file, 14, 16, 17, 18, then 15. */
uint8_t door_export_plan(const uint8_t *file, size_t file_len, const uint8_t *starts, size_t starts_len, uint8_t *out, size_t out_len, uint8_t *result,
                         size_t result_len);

#ifdef __cplusplus
}
#endif

#endif
