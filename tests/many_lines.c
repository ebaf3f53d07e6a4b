/* Answers the lines of a file by the calls for many lines, in rooms of several sizes, and says `all right` where that is what the
 * calls for one line answer, one line after the other. */
#include <riichi_desk.h>
#include <stdio.h>
#include <stdlib.h>
#include <string.h>

typedef size_t one_call(uint32_t, const uint8_t *, size_t, uint8_t *, size_t);
typedef size_t many_call(uint32_t, const uint8_t *, size_t, uint8_t *, size_t, size_t *);

enum { MOST_TEXT = 1 << 22, MOST = RIICHI_MOST_JSON + 1 };
static uint8_t text[MOST_TEXT], wanted[1 << 25], told[1 << 25];

static void fail(const char *why, size_t room) {
    printf("%s, with a room of %zu bytes\n", why, room);
    exit(1);
}

static size_t by_one(one_call *call, one_call *more, uint32_t rules, size_t length) {
    size_t filled = 0, start = 0;
    while (start < length) {
        const uint8_t *line = text + start, *feed = memchr(line, '\n', length - start);
        size_t size = feed ? (size_t)(feed - line) : length - start;
        start += size + 1;
        if (size > 0 && line[size - 1] == '\r') size--;
        size_t needed = call(rules, line, size, wanted + filled, MOST);
        if (needed == 0) continue;
        filled += needed;
        wanted[filled++] = '\n';
        if (more) filled += more(rules, line, size, wanted + filled, MOST);
    }
    return filled;
}

static void compare(many_call *call, uint32_t rules, size_t length, size_t all, size_t room_len) {
    uint8_t *room = malloc(room_len);
    size_t filled = 0, start = 0;
    while (start < length) {
        size_t taken, more = call(rules, text + start, length - start, room, room_len, &taken);
        if (taken == 0 || more > room_len) fail("no line is taken", room_len);
        memcpy(told + filled, room, more);
        filled += more, start += taken;
    }
    if (filled != all || memcmp(told, wanted, all) != 0) fail("other bytes", room_len);
    free(room);
}

int main(int count, char **words) {
    FILE *file = count > 1 ? fopen(words[1], "rb") : NULL;
    if (!file) return 2;
    size_t length = fread(text, 1, MOST_TEXT, file), taken = 1;
    one_call *ones[] = {riichi_answer, riichi_json, riichi_answer}, *more[] = {NULL, NULL, riichi_explain};
    many_call *many[] = {riichi_answer_lines, riichi_json_lines, riichi_explain_lines};
    for (int at = 0; at < 3; at++) {
        for (uint32_t rules = 1; rules <= 2; rules++) {
            size_t all = by_one(ones[at], more[at], rules, length);
            for (size_t room = MOST; room < 20000; room += 977) compare(many[at], rules, length, all, room);
            compare(many[at], rules, length, all, 1 << 20);
        }
        if (many[at](3, text, length, told, sizeof told, &taken) != 0 || taken != 0) fail("other rules", 0);
        if (many[at](1, text, length, told, 0, &taken) != 0) fail("no room", 0);
    }
    puts("all right");
    return 0;
}
