/* The survey of a swim log, for programs in C and C++. docs/LINKING.md says how to build and link it. */
#ifndef KULZABENY_H
#define KULZABENY_H

#include <stddef.h>
#include <stdint.h>

#ifdef __cplusplus
extern "C" {
#endif

/* The most bytes that a log has. A longer one is refused, whatever stands past one byte more. */
#define KULZABENY_LONGEST_LOG 7684

/* The most bytes that a report has: a buffer with so much room is always large enough. */
#define KULZABENY_LONGEST_REPORT 6690

/*
 * Reads a log and puts its report into a buffer. docs/LOG.md has the bytes of both.
 *
 * Answers the length of the report in bytes. If that is at most out_length, the report stands at the start of out, and what
 * stands after it there is as it was. Else out is as it was: call again with as much room as was answered.
 * Every log has a report: one that cannot be read has a report that says why.
 *
 * What crosses: log points to log_length bytes, which are read and not kept; out points to out_length bytes, which
 * may be written. Neither pointer may be null, also where its length is 0, and the two may not overlap. No text ends with a
 * zero byte here, and no zero byte is added.
 *
 * It keeps nothing between calls and allocates nothing, so that any number of threads may call it at once, each with an out
 * of its own. It needs less than 100 KiB of stack.
 */
size_t kulzabeny_survey(const uint8_t *log, size_t log_length, uint8_t *out, size_t out_length);

#ifdef __cplusplus
}
#endif

#endif
