/* Tries buffers that are too small, just large enough and larger, on the swim log in a file, and looks at every byte in and
 * around them:
 *     rooms FILE
 * The status is 0 if each call did what kulzabeny.h says.
 */
#include "kulzabeny.h"
#include <stdio.h>
#include <string.h>

/* So much stands before and after the buffer that is lent. */
enum { AROUND = 64 };

static uint8_t log_bytes[KULZABENY_LONGEST_LOG + 1];
static uint8_t report[KULZABENY_LONGEST_REPORT];
static uint8_t before[AROUND + KULZABENY_LONGEST_REPORT + AROUND];
static uint8_t after[sizeof before];

static int fails(size_t log_length, size_t length, size_t room)
{
    for (size_t i = 0; i < sizeof before; i++) {
        before[i] = (uint8_t)(i * 31 + 7);
    }
    memcpy(after, before, sizeof before);
    size_t answer = kulzabeny_survey(log_bytes, log_length, after + AROUND, room);
    if (length <= room) {
        memcpy(before + AROUND, report, length);
    }
    if (answer == length && memcmp(before, after, sizeof before) == 0) {
        return 0;
    }
    fprintf(stderr, "room for %zu of %zu bytes: answered %zu, or wrote other bytes than it should\n", room, length, answer);
    return 1;
}

int main(int argc, char **argv)
{
    FILE *file = argc == 2 ? fopen(argv[1], "rb") : NULL;
    if (file == NULL) {
        fprintf(stderr, "usage: %s FILE\n", argv[0]);
        return 2;
    }
    size_t log_length = fread(log_bytes, 1, sizeof log_bytes, file);
    fclose(file);
    size_t length = kulzabeny_survey(log_bytes, log_length, report, sizeof report);
    size_t rooms[] = {0, 1, length / 2, length - 1, length, length + 1, sizeof report};
    int failed = 0;
    for (size_t i = 0; i < sizeof rooms / sizeof rooms[0]; i++) {
        failed |= fails(log_length, length, rooms[i]);
    }
    return failed;
}
