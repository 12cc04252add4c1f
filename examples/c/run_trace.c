/*
 * Runs the trace in the file named on the command line, or in standard input,
 * and prints what the program `bench` prints.
 *
 *   cc -std=c99 -Wall -Wextra -Werror -Iinclude examples/c/run_trace.c \
 *      -Ltarget/staticlib -lghindulza -o run_trace
 */

#include <inttypes.h>
#include <stdio.h>

#include "ghindulza.h"

#define INPUT_LIMIT 65536

int main(int argc, char **argv) {
    static uint8_t trace[INPUT_LIMIT + 1];
    uint32_t report[4 * GHINDULZA_PROCESSES];
    uint32_t fields[5];
    uint8_t starts[GHINDULZA_PROCESSES];
    uint64_t rest[2];
    uint32_t number, record, i;
    size_t len;
    FILE *file = argc > 1 ? fopen(argv[1], "rb") : stdin;

    if (file == NULL) {
        perror(argv[1]);
        return 1;
    }
    len = fread(trace, 1, sizeof trace, file);
    if (ferror(file)) {
        perror("reading the trace");
        return 1;
    }
    if (file != stdin)
        fclose(file);

    if (len > INPUT_LIMIT) {
        printf("input over %d\n", INPUT_LIMIT);
        return 0;
    }
    number = ghindulza_run(trace, len, report, 4 * GHINDULZA_PROCESSES, &record);
    if (number != 0) {
        printf("refused %" PRIu32 " at record %" PRIu32 "\n", number, record);
        return 0;
    }
    ghindulza_read_setup(trace, len, fields, starts, rest);
    printf("kind %" PRIu32 " processes %" PRIu32 " records %" PRIu32 "\n",
           fields[0], fields[1], record);
    for (i = 0; i < fields[1]; i++)
        printf("%" PRIu32 " %" PRIu32 " %" PRIu32 " %" PRIu32 " %" PRIu32 "\n",
               i + 1, report[4 * i], report[4 * i + 1], report[4 * i + 2],
               report[4 * i + 3]);
    return 0;
}
