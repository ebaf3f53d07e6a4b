/* game_lines TEXT ANSWERS: has the file TEXT of games answered by pieces in rooms of several sizes, and says `all right` where they
 * are those of the file ANSWERS, and where other rules, other places and no room are told as riichi_desk.h says. */
#include <riichi_desk.h>
#include <stdio.h>
#include <stdlib.h>
#include <string.h>

enum { MOST_TEXT = 1 << 18, MOST = RIICHI_MOST_ANSWER + 1 };
static uint8_t text[MOST_TEXT], wanted[1 << 22], told[1 << 22];

static void fail(const char *why, size_t room) {
    printf("%s, with a room of %zu bytes\n", why, room);
    exit(1);
}

static size_t read_file(const char *name, uint8_t *place, size_t most) {
    FILE *file = fopen(name, "rb");
    if (!file) exit(2);
    size_t length = fread(place, 1, most, file);
    fclose(file);
    return length;
}

/* All pieces, in rooms of this size that lie in no other memory. */
static void compare(size_t length, size_t all, size_t room_len) {
    uint8_t *room = malloc(room_len), *given = malloc(length ? length : 1);
    memcpy(given, text, length);
    size_t filled = 0, from = 0;
    while (from <= length) {
        size_t start = from, more = riichi_game_lines(RIICHI_RULES_ONE, given, length, start, room, room_len, &from);
        if (from <= start || more > room_len) fail("no line is taken", room_len);
        memcpy(told + filled, room, more);
        filled += more;
    }
    if (from != length + 1) fail("another end", room_len);
    if (filled != all || memcmp(told, wanted, all) != 0) fail("other bytes", room_len);
    free(room);
    free(given);
}

/* A call that tells nothing goes on where it began. */
static void tells_nothing(const char *why, uint32_t rules, size_t length, size_t from, size_t room_len) {
    uint8_t room[64];
    size_t taken = 7;
    memset(room, 7, sizeof room);
    if (riichi_game_lines(rules, text, length, from, room, room_len, &taken) != 0 || taken != from) fail(why, room_len);
    for (size_t at = 0; at < sizeof room; at++)
        if (room[at] != 7) fail(why, room_len);
}

int main(int count, char **words) {
    if (count != 3) return 2;
    size_t length = read_file(words[1], text, sizeof text), all = read_file(words[2], wanted, sizeof wanted);
    for (size_t room = MOST; room < 8000; room += 97) compare(length, all, room);
    compare(length, all, 1 << 20);
    tells_nothing("other rules", 3, length, 0, 64);
    tells_nothing("other rules from a place", 0, length, 5, 64);
    tells_nothing("behind the text", RIICHI_RULES_TWO, length, length + 1, 64);
    tells_nothing("far behind the text", RIICHI_HOUSE_ONE, length, SIZE_MAX, 64);
    memcpy(text, "game\ndraw", 9);
    tells_nothing("no room", RIICHI_RULES_ONE, 9, 0, 0);
    tells_nothing("a room of a byte too few", RIICHI_RULES_ONE, 9, 0, 24);
    tells_nothing("no room for the end", RIICHI_RULES_ONE, 9, 9, 64);
    memset(text, '#', 5000);
    memcpy(wanted, "refused G1\n", 11);
    compare(5000, 11, MOST);
    compare(0, 0, 1);
    puts("all right");
    return 0;
}
