#include "damage.h"

#include <fcntl.h>
#include <inttypes.h>
#include <signal.h>
#include <stdio.h>
#include <stdlib.h>
#include <string.h>
#include <sys/mman.h>
#include <unistd.h>

static uint64_t state = 1;

void seed_dice(uint64_t seed) {
    state = seed * 0x9e3779b97f4a7c15u ^ 0xd1b54a32d192ed03u;
    if (state == 0) {
        state = 1;
    }
    for (int i = 0; i < 8; i++) {
        dice();
    }
}

uint64_t dice(void) {
    state ^= state >> 12;
    state ^= state << 25;
    state ^= state >> 27;
    return state * 0x2545f4914f6cdd1du;
}

uint64_t below(uint64_t bound) {
    return (dice() >> 11) % bound;
}

uint64_t from_to(uint64_t low, uint64_t high) {
    return low + below(high - low + 1);
}

bool one_in(uint64_t bound) {
    return below(bound) == 0;
}

void text_insert(struct text *t, size_t at, const uint8_t *bytes, size_t length) {
    if (at > t->length || length > LONGEST - t->length) {
        return;
    }
    memmove(t->bytes + at + length, t->bytes + at, t->length - at);
    memcpy(t->bytes + at, bytes, length);
    t->length += length;
}

void text_remove(struct text *t, size_t at, size_t length) {
    if (at > t->length || length > t->length - at) {
        return;
    }
    memmove(t->bytes + at, t->bytes + at + length, t->length - at - length);
    t->length -= length;
}

void text_add(struct text *t, const char *bytes, size_t length) {
    text_insert(t, t->length, (const uint8_t *)bytes, length);
}

void change_bytes(struct text *t) {
    uint8_t run[64];
    uint8_t byte = one_in(4) ? 0 : (uint8_t)dice();
    size_t at = below(t->length + 1);
    size_t left = t->length - at;
    size_t length = left == 0 ? 0 : from_to(1, left < sizeof run ? left : sizeof run);
    if (one_in(3) && length > 4) {
        length = from_to(1, 4);
    }
    switch (below(9)) {
    case 0:
    case 1:
        if (left > 0) {
            t->bytes[at] ^= (uint8_t)(1u << below(8));
        }
        break;
    case 2:
        if (left > 0) {
            t->bytes[at] = byte;
        }
        break;
    case 3:
        text_insert(t, at, &byte, 1);
        break;
    case 4:
        text_remove(t, at, left > 0);
        break;
    case 5:
        text_remove(t, at, length);
        break;
    case 6: /* a run of bytes once more, there or elsewhere */
        memcpy(run, t->bytes + at, length);
        text_insert(t, one_in(2) ? at : below(t->length + 1), run, length);
        break;
    case 7:
        t->length = at;
        break;
    case 8:
        memset(run, one_in(2) ? 0 : byte, sizeof run);
        if (left > 0 && one_in(2)) {
            memcpy(t->bytes + at, run, length);
        } else {
            text_insert(t, at, run, from_to(1, 8));
        }
        break;
    }
}

struct walled make_walled(size_t room) {
    size_t page = (size_t)sysconf(_SC_PAGESIZE);
    size_t inside = (room + page - 1) / page * page;
    uint8_t *all = mmap(NULL, inside + 2 * page, PROT_NONE, MAP_PRIVATE | MAP_ANONYMOUS, -1, 0);
    if (all == MAP_FAILED || mprotect(all + page, inside, PROT_READ | PROT_WRITE) != 0) {
        perror("damage");
        exit(2);
    }
    return (struct walled){all + page, inside};
}

uint8_t *place(const struct walled *w, size_t length, bool at_end) {
    return at_end ? w->first + w->room - length : w->first;
}

struct trial trial;

/* only calls that a handler of signals may make */
static void put(int file, const char *text) {
    if (write(file, text, strlen(text)) < 0) {
        _exit(3);
    }
}

static void put_number(int file, uint64_t value) {
    char digits[21];
    char *first = digits + sizeof digits - 1;
    *first = 0;
    do {
        *--first = (char)('0' + value % 10);
        value /= 10;
    } while (value > 0);
    put(file, first);
}

_Noreturn void difference(const char *why) {
    int file = open(trial.file, O_WRONLY | O_CREAT | O_TRUNC, 0644);
    for (size_t i = 0; i < trial.length; i++) {
        const char *hexadecimal = "0123456789abcdef";
        char pair[3] = {hexadecimal[trial.input[i] >> 4], hexadecimal[trial.input[i] & 15], 0};
        put(file, pair);
    }
    put(file, "\n");
    close(file);
    put(1, "damage: ");
    put(1, trial.what);
    put(1, ": ");
    put(1, why);
    put(1, " at input ");
    put_number(1, trial.index);
    put(1, " of seed ");
    put_number(1, trial.seed);
    put(1, ", with ");
    put_number(1, trial.other);
    put(1, " as its room or tick; the input is in ");
    put(1, trial.file);
    put(1, "\n");
    _exit(1);
}

static void stopped(int signal) {
    difference(signal == SIGALRM ? "no answer in ten seconds" : "stopped by a signal");
}

void watch(void) {
    static uint8_t stack[65536];
    stack_t other = {.ss_sp = stack, .ss_size = sizeof stack};
    sigaltstack(&other, NULL);
    struct sigaction action = {.sa_handler = stopped, .sa_flags = SA_ONSTACK};
    int signals[] = {SIGSEGV, SIGBUS, SIGILL, SIGFPE, SIGABRT, SIGALRM};
    for (size_t i = 0; i < sizeof signals / sizeof *signals; i++) {
        sigaction(signals[i], &action, NULL);
    }
}

void still_going(void) {
    alarm(10);
}

struct arguments read_arguments(int count, char **words) {
    struct arguments a = {.count = 1000000, .seed = 1, .file = "difference.hex"};
    int at = 1;
    for (; at + 1 < count && strncmp(words[at], "--", 2) == 0; at += 2) {
        if (strcmp(words[at], "--count") == 0) {
            a.count = strtoull(words[at + 1], NULL, 10);
        } else if (strcmp(words[at], "--seed") == 0) {
            a.seed = strtoull(words[at + 1], NULL, 10);
        } else if (strcmp(words[at], "--file") == 0) {
            a.file = words[at + 1];
        } else {
            fprintf(stderr, "usage: %s [--count N] [--seed S] [--file FILE] [INPUT...]\n", words[0]);
            exit(2);
        }
    }
    a.files = count - at;
    a.names = words + at;
    return a;
}

bool read_file(const char *name, struct text *t) {
    FILE *file = fopen(name, "rb");
    if (file == NULL) {
        perror(name);
        return false;
    }
    t->length = fread(t->bytes, 1, LONGEST, file);
    fclose(file);
    return true;
}
