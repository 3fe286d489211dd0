/* Tries the machine's call on damaged records and compares each answer with that of a reader written apart from it. */
#include <inttypes.h>
#include <stdio.h>
#include <stdlib.h>
#include <string.h>

#include "damage.h"
#include "nofjerm.h"

uint32_t reference_step_at(const uint8_t *record, size_t length, uint64_t tick);

enum { MOST_BASES = 256 };

static void add_number(struct text *t, uint64_t value) {
    while (value > 127) {
        text_add(t, (char[]){(char)((value & 127) | 128)}, 1);
        value >>= 7;
    }
    text_add(t, (char[]){(char)value}, 1);
}

static uint64_t number_of_ticks(void) {
    switch (below(24)) {
    case 0:
        return from_to(1, 2);
    case 1:
        return from_to(126, 129);
    case 2:
        return from_to(16382, 16386);
    case 3:
        return 1008000000 - from_to(0, 2) + from_to(0, 2);
    case 4:
        return (dice() >> from_to(28, 60)) + 1;
    default:
        return from_to(1, 100000);
    }
}

/* a record that is most often lawful; answers a tick near one where a segment ends */
static uint64_t make_record(struct text *t) {
    t->length = 0;
    text_add(t, (char[]){(char)(one_in(30) ? dice() : from_to(1, 127))}, 1);
    uint64_t count = one_in(200) ? from_to(1000, 1026) : below(12);
    add_number(t, one_in(40) ? count + 1 : count);
    uint64_t step = below(16), sum = 0, tick = 0;
    for (uint64_t i = 0; i < count; i++) {
        uint64_t ticks = one_in(500) ? 0 : count > 500 ? from_to(1, 980000) : number_of_ticks();
        step = one_in(400) ? step : one_in(400) ? dice() >> from_to(29, 63) : (step + from_to(1, 15)) % 16;
        add_number(t, step);
        add_number(t, ticks);
        sum += ticks;
        if (one_in(3)) {
            tick = sum;
        }
    }
    return tick;
}

int main(int count, char **words) {
    struct arguments a = read_arguments(count, words);
    static struct text bases[MOST_BASES];
    static const uint8_t known[] = {1, 4, 0, 0xb0, 0x27, 1, 0xb0, 0x27, 0, 0xb0, 0x27, 1, 0xb0, 0x27};
    size_t filled = 1;
    text_add(&bases[0], (const char *)known, sizeof known);
    for (int i = 0; i < a.files && filled < MOST_BASES; i++) {
        if (!read_file(a.names[i], &bases[filled++])) {
            return 2;
        }
    }
    struct walled memory = make_walled(LONGEST);
    static struct text record;
    static uint64_t answers[64];
    trial = (struct trial){.what = "records", .file = a.file, .seed = a.seed, .input = record.bytes};
    seed_dice(a.seed);
    watch();
    for (uint64_t i = 0; i < a.count; i++) {
        if (i % 4096 == 0) {
            still_going();
        }
        uint64_t tick = 20160;
        if (one_in(4)) {
            const struct text *base = &bases[below(filled)];
            record.length = base->length;
            memcpy(record.bytes, base->bytes, base->length);
        } else {
            tick = make_record(&record);
        }
        for (uint64_t changes = one_in(3) ? 0 : from_to(1, 3); changes > 0; changes--) {
            change_bytes(&record);
        }
        switch (below(8)) {
        case 0:
            tick = dice() >> below(64);
            break;
        case 1:
            tick = 0;
            break;
        case 2:
            tick = UINT64_MAX - below(2);
            break;
        case 3:
            tick += (uint64_t)1 << 32;
            break;
        default:
            tick = tick + from_to(0, 2) - (tick > 0);
        }
        trial.index = i;
        trial.other = tick;
        trial.length = record.length;
        uint8_t *given = place(&memory, record.length, i % 2 == 0);
        memcpy(given, record.bytes, record.length);
        uint32_t answer = nofjerm_step_at(given, record.length, tick);
        if (memcmp(given, record.bytes, record.length) != 0) {
            difference("the record was changed");
        }
        uint32_t expected = reference_step_at(record.bytes, record.length, tick);
        if (answer != expected) {
            printf("records: %" PRIu32 " in place of %" PRIu32 "\n", answer, expected);
            fflush(stdout);
            difference("another answer");
        }
        answers[answer < 16 ? 0 : answer < 64 ? answer : 63]++;
    }
    printf("records: %" PRIu64 " tried, no difference; a step %" PRIu64, a.count, answers[0]);
    for (int i = 1; i < 64; i++) {
        if (answers[i] > 0) {
            printf(", refused %d: %" PRIu64, i, answers[i]);
        }
    }
    printf("\n");
    return 0;
}
