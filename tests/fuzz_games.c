/* fuzz_games SECONDS SEED FILE: asks the call for texts of games of random texts, made of the lines of FILE, and compares the
 * answers by pieces, in rooms of random sizes, with those by one call. Ends at the first difference, with the seed that shows it. */
#include "random_lines.h"
#include <riichi_desk.h>
#include <time.h>

enum { MOST_LINES = 40, MOST_MADE = (MOST_LINES + 1) * 5010, MOST_TOLD = (MOST_LINES + 1) * RIICHI_MOST_ANSWER };

struct text {
    uint32_t rules;
    uint8_t *bytes;
    size_t length;
};

static uint8_t wanted[MOST_TOLD];

/* One call in a room of this size that is lent: it fills the front alone, and goes on behind a line. */
static size_t ask(const struct text *text, size_t from, uint8_t *room, size_t room_len, size_t *taken) {
    *taken = 12345;
    size_t filled = riichi_game_lines(text->rules, text->bytes, text->length, from, room, room_len, taken);
    CHECK(filled <= room_len && is_untouched(room + filled, room_len - filled));
    CHECK(*taken >= from && (filled == 0 || *taken > from || text->length == 0));
    CHECK(*taken == from || *taken == text->length || *taken == text->length + 1 || text->bytes[*taken - 1] == '\n');
    CHECK(filled == 0 || room[filled - 1] == '\n');
    return filled;
}

/* The answers in rooms of random sizes, one after the other, are those of one call. */
static void try_pieces(const struct text *text, struct lender *rooms, size_t all) {
    size_t from = 0, told = 0;
    while (from <= text->length) {
        size_t room_len = below(3) == 0 ? RIICHI_MOST_ANSWER + 1 : below(800), taken;
        uint8_t *room = lend(rooms, room_len, 1);
        size_t filled = ask(text, from, room, room_len, &taken);
        CHECK(told + filled <= all && memcmp(room, wanted + told, filled) == 0);
        CHECK(taken > from || room_len <= RIICHI_MOST_ANSWER);
        told += filled, from = taken;
    }
    CHECK(told == all && from == text->length + 1);
}

/* From any place the call ends; from behind a line its answers are the last of all. */
static void try_places(const struct text *text, struct lender *rooms, size_t all) {
    size_t from = below(text->length + 3), taken;
    uint8_t *room = lend(rooms, MOST_TOLD, 1);
    size_t filled = ask(text, from, room, MOST_TOLD, &taken);
    if (from > text->length) CHECK(filled == 0 && taken == from);
    if (from > 0 && from <= text->length && text->bytes[from - 1] == '\n')
        CHECK(filled <= all && memcmp(room, wanted + all - filled, filled) == 0);
}

static void try_text(struct lender *texts, struct lender *rooms) {
    static uint8_t made[MOST_MADE];
    size_t length = 0;
    for (size_t n = below(MOST_LINES); n > 0; n--) length += put_line(made + length, below(2) ? "game" : "end");
    if (length > 0 && below(3) == 0) length--;
    struct text text = {1 + (uint32_t)below(2), lend(texts, length, 1), length};
    memcpy(text.bytes, made, length);
    size_t taken, all = riichi_game_lines(text.rules, text.bytes, length, 0, wanted, sizeof wanted, &taken);
    CHECK(taken == length + 1);
    try_pieces(&text, rooms, all);
    try_places(&text, rooms, all);
    text.rules = 3;
    uint8_t *room = lend(rooms, 100, 1);
    CHECK(ask(&text, below(length + 3), room, 100, &taken) == 0 && is_untouched(room, 100));
    CHECK(memcmp(text.bytes, made, length) == 0);
}

int main(int count, char **words) {
    if (count != 4) { fprintf(stderr, "games SECONDS SEED FILE\n"); return 2; }
    time_t end = time(NULL) + atoi(words[1]);
    seed_of_try = strtoull(words[2], NULL, 10);
    read_lines(words[3]);
    struct lender texts = new_lender(), rooms = new_lender();
    unsigned long long tries = 0;
    for (; tries == 0 || tries % 256 != 0 || time(NULL) < end; tries++, seed_of_try++) {
        state = seed_of_try;
        try_text(&texts, &rooms);
    }
    printf("%llu texts, no difference\n", tries);
    return 0;
}
