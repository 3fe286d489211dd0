/* What the two damage tests share: dice, changes to bytes, memory with walls, and the report of a difference. */
#ifndef DAMAGE_H
#define DAMAGE_H

#include <stdbool.h>
#include <stddef.h>
#include <stdint.h>

/* room for the longest input that is made, more than a sheet may have */
enum { LONGEST = 40960 };

/* numbers that look thrown and follow from the seed alone */
void seed_dice(uint64_t seed);
uint64_t dice(void);
/* from 0 to bound - 1 */
uint64_t below(uint64_t bound);
/* from low to high */
uint64_t from_to(uint64_t low, uint64_t high);
bool one_in(uint64_t bound);

/* an input under way */
struct text {
    size_t length;
    uint8_t bytes[LONGEST];
};
/* each does nothing where it finds no room or nothing to change */
void text_insert(struct text *t, size_t at, const uint8_t *bytes, size_t length);
void text_remove(struct text *t, size_t at, size_t length);
void text_add(struct text *t, const char *bytes, size_t length);

/* changes that any bytes can take: a bit, a byte, a run of bytes, the end */
void change_bytes(struct text *t);

/* memory between two pages that nobody may touch: a read or write past either end stops the program, whoever makes it */
struct walled {
    uint8_t *first;
    size_t room;
};
struct walled make_walled(size_t room);
/* `length` bytes that end at the second page, or begin after the first */
uint8_t *place(const struct walled *w, size_t length, bool at_end);

/* what is being tried, for the report */
struct trial {
    const char *what;
    const char *file;
    uint64_t seed;
    uint64_t index;
    uint64_t other; /* the room or the tick */
    const uint8_t *input;
    size_t length;
};
extern struct trial trial;

/* reports a stop by a signal, or an input that takes over ten seconds, as a difference */
void watch(void);
/* once in a while: the time limit begins anew */
void still_going(void);
/* writes the input in hexadecimal to the trial's file, says so and ends the program */
_Noreturn void difference(const char *why);

/* the common arguments: --count, --seed, --file, then the names of files with inputs */
struct arguments {
    uint64_t count;
    uint64_t seed;
    const char *file;
    int files;
    char **names;
};
struct arguments read_arguments(int count, char **words);
bool read_file(const char *name, struct text *t);

#endif
