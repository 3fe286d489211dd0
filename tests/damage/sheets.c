/* Tries the plan of a sheet on damaged sheets: the answer and the whole output buffer must be those of a planner written apart. */
#include <inttypes.h>
#include <stdarg.h>
#include <stdio.h>
#include <stdlib.h>
#include <string.h>

#include "damage.h"

size_t nofjerm_plan_sheet(const uint8_t *sheet, size_t length, uint8_t *out, size_t room);
size_t reference_plan_sheet(const uint8_t *sheet, size_t length, uint8_t *out, size_t room);

enum { MOST_BASES = 512, ROOM = 16384, MOST_ROOM = 40960, LONGEST_SHEET = 32768 };

static const char *const known[] = {
    "T 0 0\nT 2 4\nJ 0 2 2 1\nJ 0 4 2 2\nP\n",
    "T 0 10\nT 1 12\nT 2 20\nT 4 60\nP\n",
    "T 0 10\nT 1 12\nT 2 20\nT 4 60\nJ 0 2 3 1\nP\n",
    "T 0 10\nT 1 12\nT 2 20\nT 4 60\nJ 3 4 4 1\nP\n",
    "T 0 10\nT 1 12\nT 2 20\nT 4 60\nJ 3 4 5 1\nP\n",
    "T 0 10\nT 1 12\nT 2 20\nT 4 60\nJ 0 1 2 1\nJ 0 3 1 2\nP\n",
    "T 0 0\nT 2 4\nJ 0 11 1 1\nJ 1 11 1 2\nP\n",
    "T 0 0\nT 7 7\nT 11 19\nJ 0 1 1 1\nJ 0 1 10 2\nP\n",
    "T 0 0\nT 5 1\nT 10 3\nT 40 30\nJ 3 11 4 1\nJ 6 11 5 2\nP\n",
    "T 0 0\nT 5 1\nT 10 3\nT 40 30\nJ 0 1 10 1\nJ 0 2 1 2\nJ 0 12 29 3\nJ 10 14 1 4\nP\n",
    "T 0 5\nT 1000 1000000\nJ 199999 200000 1000 64\nP\n",
    "P\n",
    "",
};

__attribute__((format(printf, 2, 3))) static void add(struct text *t, const char *form, ...) {
    char line[256];
    va_list values;
    va_start(values, form);
    int length = vsnprintf(line, sizeof line, form, values);
    va_end(values);
    text_add(t, line, (size_t)length);
}

/* a sheet that is most often lawful and most often has a plan */
static void make_sheet(struct text *t) {
    static const uint64_t gaps[] = {1, 1, 1, 2, 2, 3, 4, 5, 6, 7, 8, 9, 10, 12, 14, 15, 16, 18, 20, 21, 24, 30, 35, 36, 40, 42, 60, 63, 72, 80, 105, 120, 144, 240, 252, 280, 315};
    t->length = 0;
    uint64_t steps = one_in(60) ? below(19) : one_in(4) ? 16 : from_to(2, 6);
    uint64_t speed = 0, power = one_in(3) ? 0 : below(1000), bend = 0;
    uint64_t steep = one_in(3) ? 40 : 6, few = one_in(2) ? 10 : sizeof gaps / sizeof *gaps;
    for (uint64_t i = 0; i < steps; i++) {
        add(t, "T %" PRIu64 " %" PRIu64 "\n", speed, power);
        uint64_t gap = gaps[below(few)];
        bend += below(steep);
        speed += gap;
        power += bend * gap;
        if (one_in(400)) {
            power += 1;
        }
    }
    uint64_t top = speed < 4000 ? speed : 4000;
    uint64_t jobs = one_in(500) ? from_to(200, 258) : one_in(20) ? below(64) : below(9);
    uint64_t spread = one_in(3) ? 3 : one_in(2) ? 12 : 700, longest = one_in(2) ? spread * 3 : 40, load = from_to(1, 8);
    uint64_t arrival = one_in(2) ? 0 : below(spread), deadline = 0;
    for (uint64_t i = 0; i < jobs; i++) {
        if (!one_in(3)) {
            arrival += below(spread);
        }
        uint64_t next = arrival + from_to(1, longest);
        deadline = next > deadline ? next : deadline;
        uint64_t most = top * (deadline - arrival) / load;
        most = most > 1000000 ? 1000000 : most;
        add(t, "J %" PRIu64 " %" PRIu64 " %" PRIu64 " %" PRIu64 "\n", arrival, deadline, from_to(1, most > 0 ? most : 1), from_to(1, 64));
    }
    add(t, "P\n");
}

/* the start of the line that has the byte, and its length with byte 10 */
static size_t line_at(const struct text *t, size_t at, size_t *length) {
    size_t start = at, end = at;
    while (start > 0 && t->bytes[start - 1] != '\n') {
        start--;
    }
    while (end < t->length && t->bytes[end] != '\n') {
        end++;
    }
    *length = end - start + (end < t->length);
    return start;
}

/* the first digits from the byte on; length 0 if there are none */
static size_t digits_at(const struct text *t, size_t at, size_t *length) {
    while (at < t->length && (t->bytes[at] < '0' || t->bytes[at] > '9')) {
        at++;
    }
    size_t end = at;
    while (end < t->length && t->bytes[end] >= '0' && t->bytes[end] <= '9') {
        end++;
    }
    *length = end - at;
    return at;
}

static void change_number(struct text *t) {
    static const char *const numbers[] = {
        "0", "1", "2", "15", "16", "17", "64", "65", "255", "256", "4000", "4001", "5040", "65535", "65536", "199999", "200000", "200001",
        "999999", "1000000", "1000001", "2147483648", "4294967295", "4294967296", "4294967297", "9999999999", "10000000000",
        "18446744073709551615", "18446744073709551616", "99999999999999999999", "00", "01", "0000000001", "-1", "+1", "1.5", "0x1", "",
    };
    size_t length, at = digits_at(t, below(t->length + 1), &length);
    if (length == 0) {
        return;
    }
    char text[32];
    const char *new = text;
    uint64_t value = 0;
    for (size_t i = 0; i < length; i++) {
        value = value * 10 + (t->bytes[at + i] - '0');
    }
    switch (below(6)) {
    case 0:
        t->bytes[at + below(length)] = (uint8_t)('0' + below(10));
        return;
    case 1:
        text_insert(t, at, (const uint8_t *)"0000000000", from_to(1, 10));
        return;
    case 2:
        snprintf(text, sizeof text, "%" PRIu64, value + 1);
        break;
    case 3:
        snprintf(text, sizeof text, "%" PRIu64, value - (value > 0));
        break;
    case 4:
        snprintf(text, sizeof text, "%" PRIu64, below(value < 10000000000 ? 2 * value + 2 : 10));
        break;
    default:
        new = numbers[below(sizeof numbers / sizeof *numbers)];
    }
    text_remove(t, at, length);
    text_insert(t, at, (const uint8_t *)new, strlen(new));
}

static void change_lines(struct text *t) {
    uint8_t line[512], pad[70];
    size_t length, at = line_at(t, below(t->length + 1), &length);
    if (length > sizeof line) {
        return;
    }
    memcpy(line, t->bytes + at, length);
    size_t other_length, other;
    switch (below(7)) {
    case 0: /* out of its place, into another */
        text_remove(t, at, length);
        other = line_at(t, below(t->length + 1), &other_length);
        text_insert(t, other, line, length);
        break;
    case 1:
        other = line_at(t, below(t->length + 1), &other_length);
        text_insert(t, other, line, length);
        break;
    case 2:
        text_remove(t, at, length);
        break;
    case 3: /* as long as a line may be, or nearly so */
        if (length > 0 && length < 60) {
            memset(pad, one_in(2) ? '0' : ' ', sizeof pad);
            text_insert(t, at + length - 1, pad, from_to(62, 67) - length);
        }
        break;
    case 4:
        if (t->length > 0) {
            t->length--;
        }
        break;
    case 5: {
        static const char *const lines[] = {"\n", "P\n", "T 1 1\n", "T 0 0\n", "J 0 1 1 1\n", "P \n", "P", " P\n", "p\n", "P\r\n", "#\n", "T\n", "J \n"};
        const char *new = lines[below(sizeof lines / sizeof *lines)];
        text_insert(t, at, (const uint8_t *)new, strlen(new));
        break;
    }
    default: { /* a letter or a blank */
        size_t place = at + below(length + 1);
        if (place < t->length) {
            t->bytes[one_in(2) ? at : place] = (uint8_t) "TJP \n\t,;tjp0"[below(12)];
        }
    }
    }
}

/* about as long as a sheet may be */
static void grow(struct text *t) {
    size_t wanted = LONGEST_SHEET - 3 + below(7);
    uint8_t fill = (uint8_t) "\n\n\nx0 "[below(6)];
    while (t->length < wanted) {
        size_t half = t->length < wanted - t->length ? t->length : wanted - t->length;
        if (fill == 'x' && half > 0) {
            text_insert(t, t->length, t->bytes, half);
        } else {
            memset(t->bytes + t->length, fill, wanted - t->length);
            t->length = wanted;
        }
    }
}

static size_t room_of_output(void) {
    if (!one_in(16)) {
        return ROOM;
    }
    static const size_t rooms[] = {0, 1, 11, 12, 13, 14, 64, ROOM - 1, ROOM + 1, 20000, 32768, MOST_ROOM};
    return rooms[below(sizeof rooms / sizeof *rooms)];
}

int main(int count, char **words) {
    struct arguments a = read_arguments(count, words);
    static struct text bases[MOST_BASES];
    size_t filled = 0;
    for (; filled < sizeof known / sizeof *known; filled++) {
        text_add(&bases[filled], known[filled], strlen(known[filled]));
    }
    for (int i = 0; i < a.files && filled < MOST_BASES; i++) {
        if (!read_file(a.names[i], &bases[filled++])) {
            return 2;
        }
    }
    struct walled memory = make_walled(LONGEST), output = make_walled(MOST_ROOM);
    static struct text sheet;
    static uint8_t expected[MOST_ROOM];
    static uint64_t answers[64], nothing;
    trial = (struct trial){.what = "sheets", .file = a.file, .seed = a.seed, .input = sheet.bytes};
    seed_dice(a.seed);
    watch();
    for (uint64_t i = 0; i < a.count; i++) {
        if (i % 256 == 0) {
            still_going();
        }
        if (one_in(3)) {
            const struct text *base = &bases[below(one_in(8) ? filled : sizeof known / sizeof *known)];
            sheet.length = base->length;
            memcpy(sheet.bytes, base->bytes, base->length);
        } else {
            make_sheet(&sheet);
        }
        for (uint64_t changes = one_in(3) ? 0 : from_to(1, 3); changes > 0; changes--) {
            switch (below(4)) {
            case 0:
                change_bytes(&sheet);
                break;
            case 1:
                change_lines(&sheet);
                break;
            default:
                change_number(&sheet);
            }
        }
        if (one_in(400)) {
            grow(&sheet);
        }
        size_t room = room_of_output();
        trial.index = i;
        trial.other = room;
        trial.length = sheet.length;
        uint8_t *given = place(&memory, sheet.length, i % 2 == 0);
        uint8_t *out = place(&output, room, i % 4 < 2);
        memcpy(given, sheet.bytes, sheet.length);
        uint8_t pattern = (uint8_t)(0x80 | i);
        memset(out, pattern, room);
        memset(expected, pattern, room);
        size_t length = nofjerm_plan_sheet(given, sheet.length, out, room);
        if (memcmp(given, sheet.bytes, sheet.length) != 0) {
            difference("the sheet was changed");
        }
        size_t expected_length = reference_plan_sheet(sheet.bytes, sheet.length, expected, room);
        if (length != expected_length) {
            printf("sheets: %zu bytes in place of %zu\n", length, expected_length);
            fflush(stdout);
            difference("another length");
        }
        if (memcmp(out, expected, room) != 0) {
            difference(memcmp(out, expected, length) != 0 ? "another text" : "a byte after the text was changed");
        }
        if (length == 0) {
            nothing++;
        } else if (memcmp(out, "refused ", 8) == 0) {
            answers[((out[8] - '0') * 10 + (out[9] - '0')) & 63]++;
        } else {
            answers[0]++;
        }
    }
    printf("sheets: %" PRIu64 " tried, no difference; a plan %" PRIu64, a.count, answers[0]);
    for (int i = 1; i < 64; i++) {
        if (answers[i] > 0) {
            printf(", refused %d: %" PRIu64, i, answers[i]);
        }
    }
    printf(", no room for an answer: %" PRIu64 "\n", nothing);
    return 0;
}
