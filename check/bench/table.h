/* A plain C planner by the table algorithm, with the interface of trench_plan_in: what the proved planner is timed against. */
#ifndef TABLE_H
#define TABLE_H

#include <stddef.h>
#include <stdint.h>

/* The words of the forecast are set to 0 behind the work alone: it reads none that it has not written. */
int32_t table_plan_in(const uint8_t *job, size_t job_len, uint32_t *work, size_t work_len, uint8_t *out, size_t out_len);

/* Writes the record that the program crates/table_rounds reads: so many rounds, and the frame of the centre of a group. Groups are
 * counted from 0 in the order of their first runs. Gives its length, or 0 where the job is refused or has no such group. */
enum { TABLE_FRAME = 1546 };
size_t table_frame(const uint8_t *job, size_t job_len, uint32_t group, uint32_t rounds, uint8_t out[TABLE_FRAME]);

/* Fills the table of a group and traces the walk in it so many times, over words that are not cleared. Gives what is saved, and
 * in sum a number that needs every walk; both are 0 where the job is refused or has no such group. */
uint32_t table_rounds(const uint8_t *job, size_t job_len, uint32_t group, uint32_t rounds, uint32_t *sum);

#endif
