/* fuzz_lines SECONDS SEED FILE: asks the calls for many lines, and that for rows, of random texts, made of the lines of FILE, in
 * rooms of random sizes, and compares each with calls of one line. Ends at the first difference, with the seed that shows it. */
#include "random_lines.h"
#include <riichi_desk.h>
#include <time.h>

typedef size_t one_call(uint32_t, const uint8_t *, size_t, uint8_t *, size_t);
typedef size_t many_call(uint32_t, const uint8_t *, size_t, uint8_t *, size_t, size_t *);

/* What one line is answered, with its line feed, and what is behind it where it is explained. */
static size_t told_of(int kind, uint32_t rules, const uint8_t *line, size_t length, uint8_t *told) {
    size_t most = RIICHI_MOST_JSON + 1;
    one_call *const calls[4] = {riichi_answer, riichi_json, riichi_answer, riichi_explain_json};
    size_t filled = calls[kind](rules, line, length, told, most);
    if (filled == 0) return 0;
    told[filled++] = '\n';
    return kind == 2 ? filled + riichi_explain(rules, line, length, told + filled, most) : filled;
}

/* A profile, or rules of a house. */
static uint32_t random_rules(void) {
    return below(2) ? 1 + (uint32_t)below(2) : RIICHI_HOUSE | (uint32_t)below(RIICHI_URA * 2);
}

static void try_text(struct lender *texts, struct lender *rooms) {
    static uint8_t made[1 << 18], wanted[RIICHI_MOST_JSON * 2 + 2];
    static many_call *const calls[4] = {
        riichi_answer_lines, riichi_json_lines, riichi_explain_lines, riichi_explain_json_lines};
    size_t length = 0;
    for (size_t n = below(12); n > 0; n--) length += put_line(made + length, "rules 2");
    if (length > 0 && below(3) == 0) length--;
    int kind = (int)below(4);
    uint32_t rules = random_rules();
    size_t room_len = below(3) == 0 ? below(20000) : below(3) == 0 ? below(300) : below(100);
    uint8_t *text = lend(texts, length, 1), *room = lend(rooms, room_len, 1);
    memcpy(text, made, length);
    size_t taken = 12345, filled = calls[kind](rules, text, length, room, room_len, &taken);
    CHECK(memcmp(text, made, length) == 0);
    CHECK(taken <= length && filled <= room_len && is_untouched(room + filled, room_len - filled));
    CHECK(taken == 0 || taken == length || made[taken - 1] == '\n');
    size_t at = 0, told = 0;
    while (at < length) {
        uint8_t *feed = memchr(made + at, '\n', length - at);
        size_t line = feed ? (size_t)(feed - made) - at : length - at, next = at + line + (feed != NULL);
        if (line > 0 && made[at + line - 1] == '\r') line--;
        size_t needed = told_of(kind, rules, made + at, line, wanted);
        if (at == taken) { CHECK(told + needed > room_len); break; }
        CHECK(told + needed <= filled && memcmp(room + told, wanted, needed) == 0);
        told += needed, at = next;
    }
    CHECK(at == taken && told == filled);
    uint32_t other = below(2) ? 0 : 3 + (uint32_t)random_number() % 1000;
    memset(room, UNTOUCHED, room_len);
    CHECK(calls[kind](other, text, length, room, room_len, &taken) == 0 && taken == 0 && is_untouched(room, room_len));
}

/* Rows with their offsets, some of which go back or beyond the bytes. */
static void try_rows(struct lender *lenders) {
    static uint8_t made[1 << 18], wanted[RIICHI_MOST_ANSWER + 1];
    int64_t offsets[16] = {0};
    size_t length = 0, rows = below(12), left = below(4) == 0 ? below(5) : 0;
    for (size_t i = 0; i < rows; i++) {
        length += put_line(made + length, "rules 2");
        if (below(8)) length--;
        offsets[i + 1] = (int64_t)length;
    }
    if (below(3) == 0) offsets[below(rows + 1)] = below(2) ? (int64_t)random_number() : (int64_t)below(length + 3) - 1;
    size_t given_offsets = below(10) == 0 ? 0 : rows + 1, places = below(3) ? rows + 1 + left : below(rows + 2);
    size_t room_len = below(3) == 0 ? below(20000) : below(3) == 0 ? below(300) : below(100);
    uint32_t rules = below(4) ? random_rules() : (uint32_t)below(4);
    uint8_t *bytes = lend(&lenders[0], length, 1), *room = lend(&lenders[1], room_len, 1);
    int64_t *lent = lend(&lenders[2], given_offsets * 8, 8), *told = lend(&lenders[3], places * 8, 8);
    memcpy(bytes, made, length);
    memcpy(lent, offsets, given_offsets * 8);
    size_t done = riichi_answer_rows(rules, bytes, length, lent, given_offsets, room, room_len, told, places);
    CHECK(memcmp(bytes, made, length) == 0 && memcmp(lent, offsets, given_offsets * 8) == 0);
    size_t filled = 0, row = 0;
    if (places > 0) CHECK(told[0] == 0);
    for (; row + 1 < given_offsets && row + 1 < places; row++) {
        int64_t from = offsets[row], to = offsets[row + 1];
        if (from < 0 || to < from || (uint64_t)to > length) break;
        size_t needed = riichi_answer(rules, made + from, (size_t)(to - from), wanted, sizeof wanted);
        if (needed > room_len - filled) break;
        CHECK(row < done && memcmp(room + filled, wanted, needed) == 0);
        filled += needed;
        CHECK(told[row + 1] == (int64_t)filled);
    }
    CHECK(row == done && is_untouched(room + filled, room_len - filled));
    if (places > 0) CHECK(is_untouched((uint8_t *)(told + done + 1), (places - done - 1) * 8));
}

int main(int count, char **words) {
    if (count != 4) { fprintf(stderr, "lines SECONDS SEED FILE\n"); return 2; }
    time_t end = time(NULL) + atoi(words[1]);
    seed_of_try = strtoull(words[2], NULL, 10);
    read_lines(words[3]);
    struct lender texts = new_lender(), rooms = new_lender(), of_rows[4];
    for (int i = 0; i < 4; i++) of_rows[i] = new_lender();
    unsigned long long tries = 0;
    for (; tries == 0 || tries % 256 != 0 || time(NULL) < end; tries++, seed_of_try++) {
        state = seed_of_try;
        try_text(&texts, &rooms);
        try_rows(of_rows);
    }
    printf("%llu texts, no difference\n", tries);
    return 0;
}
