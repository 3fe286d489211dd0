/* Compares the machine's call with known answers. Each line of standard input has a record in hexadecimal (- for none), a tick and
 * the answer that must come. Prints how many were tried, and each that came out otherwise. */
#include <inttypes.h>
#include <stdio.h>
#include <stdlib.h>
#include <string.h>

#include "nofjerm.h"

enum { LONGEST = 1 << 16 };

/* the bytes that the hexadecimal text stands for, in memory of exactly that size, so that a read past it is found */
static uint8_t *bytes_of(const char *text, size_t *length) {
    *length = strcmp(text, "-") == 0 ? 0 : strlen(text) / 2;
    uint8_t *bytes = malloc(*length + 1);
    if (bytes == NULL) {
        abort();
    }
    for (size_t i = 0; i < *length; i++) {
        unsigned byte;
        sscanf(text + 2 * i, "%2x", &byte);
        bytes[i] = (uint8_t)byte;
    }
    return bytes;
}

int main(void) {
    static char text[LONGEST];
    uint64_t tick;
    uint32_t expected;
    unsigned long tried = 0, wrong = 0;
    while (scanf("%65535s %" SCNu64 " %" SCNu32, text, &tick, &expected) == 3) {
        size_t length;
        uint8_t *bytes = bytes_of(text, &length);
        uint32_t answer = nofjerm_step_at(bytes, length, tick);
        free(bytes);
        tried++;
        if (answer != expected) {
            wrong++;
            printf("record %s, tick %" PRIu64 ": %" PRIu32 " in place of %" PRIu32 "\n", text, tick, answer, expected);
        }
    }
    printf("%lu records tried, %lu answered otherwise\n", tried, wrong);
    return tried == 0 || wrong != 0;
}
