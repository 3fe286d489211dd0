/* Reads the record of a plan from a file and prints the step at each tick given.
 *   step FILE TICK...
 */
#include <errno.h>
#include <inttypes.h>
#include <stdio.h>
#include <stdlib.h>

#include "nofjerm.h"

/* the longest record: a kind, a number of segments, and 1,024 segments of a step and ticks, each number up to five bytes */
enum { LONGEST = 1 + 5 + 1024 * 10 };

int main(int argc, char **argv) {
    static uint8_t record[LONGEST + 1];
    if (argc < 3) {
        fprintf(stderr, "usage: %s FILE TICK...\n", argv[0]);
        return 2;
    }
    FILE *file = fopen(argv[1], "rb");
    if (file == NULL) {
        perror(argv[1]);
        return 1;
    }
    size_t length = fread(record, 1, sizeof record, file);
    fclose(file);
    for (int i = 2; i < argc; i++) {
        char *end;
        errno = 0;
        uint64_t tick = strtoull(argv[i], &end, 10);
        if (errno != 0 || end == argv[i] || *end != '\0') {
            fprintf(stderr, "%s is no tick\n", argv[i]);
            return 2;
        }
        uint32_t answer = nofjerm_step_at(record, length, tick);
        if (answer <= 15) {
            printf("tick %" PRIu64 ": step %" PRIu32 "\n", tick, answer);
        } else {
            printf("tick %" PRIu64 ": refused %" PRIu32 "\n", tick, answer);
        }
    }
    return 0;
}
