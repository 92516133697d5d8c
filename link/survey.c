/* Prints the report of the swim log in a file:
 *     survey FILE
 */
#include "kulzabeny.h"
#include <stdio.h>

int main(int argc, char **argv)
{
    /* One byte past the longest log is enough to see that a file is longer. */
    static uint8_t log[KULZABENY_LONGEST_LOG + 1];
    static uint8_t report[KULZABENY_LONGEST_REPORT];

    if (argc != 2) {
        fprintf(stderr, "usage: %s FILE\n", argv[0]);
        return 2;
    }
    FILE *file = fopen(argv[1], "rb");
    if (file == NULL) {
        perror(argv[1]);
        return 1;
    }
    size_t log_length = fread(log, 1, sizeof log, file);
    if (ferror(file)) {
        perror(argv[1]);
        return 1;
    }
    fclose(file);

    size_t length = kulzabeny_survey(log, log_length, report, sizeof report);
    if (fwrite(report, 1, length, stdout) != length || fflush(stdout) != 0) {
        perror("standard output");
        return 1;
    }
    return 0;
}
