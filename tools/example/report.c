/* How a program in C uses the bench: the report of a run file on standard output, or why the file is refused.
 *
 *     (cd crates/stepbench && rt lib)
 *     gcc -Iinclude tools/example/report.c crates/stepbench/out/libstepbench.a -o report_in_c
 *     ./report_in_c runs/r1.run
 *
 * Exit status: 0 done, 1 refused, 2 used wrongly, 3 reading or writing failed. */
#include "stepbench.h"

#include <stdio.h>

/* A byte more than the longest run file there is, so that a longer one is not cut down to a good one: it is refused 1. */
static uint8_t file[STEPBENCH_FILE_ROOM + 1];
static uint8_t report[STEPBENCH_REPORT_ROOM];

int main(int words, char **word) {
    if (words != 2) {
        fprintf(stderr, "usage: %s FILE\n", word[0]);
        return 2;
    }
    FILE *in = fopen(word[1], "rb");
    if (in == NULL) {
        perror(word[1]);
        return 3;
    }
    size_t length = fread(file, 1, sizeof file, in);
    if (ferror(in)) {
        perror(word[1]);
        return 3;
    }
    fclose(in);
    uint64_t told = stepbench_report(file, length, report, sizeof report);
    if (STEPBENCH_REFUSED(told) != 0) {
        printf("refused %u %u\n", STEPBENCH_REFUSED(told), (unsigned)STEPBENCH_K(told));
        return 1;
    }
    if (fwrite(report, 1, STEPBENCH_LENGTH(told), stdout) != STEPBENCH_LENGTH(told) || fflush(stdout) != 0) {
        perror("standard output");
        return 3;
    }
    return 0;
}
