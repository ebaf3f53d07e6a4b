
/* The calls of riichi_desk.h for arrays. Each row is answered alone, so they are answered piece by piece, as many rows as the places
 * below have room for. */

enum { MOST_HANDS = 480, MOST_DISCARDS = 240 };
/* Each array has a place of its own, which is large enough for a piece of it. */
enum { COUNTS = GIVEN, PLACE_GIVEN = PAGE / 4, MELDS = COUNTS + PLACE_GIVEN, SEEN = MELDS + PLACE_GIVEN, THROWN = SEEN + PLACE_GIVEN };
enum { COLUMN_0 = TOLD, COLUMN_1 = TOLD + PAGE, COLUMN_2 = COLUMN_1 + PAGE, COLUMN_3 = COLUMN_2 + PAGE };

/* An array that a call is given, or a column that it fills: where, how many rows, and of how many bytes each. */
struct given { const void *rows; size_t len, width; };
struct column { void *rows; size_t len, width; };

static size_t lesser(size_t a, size_t b) { return a < b ? a : b; }

/* Copies what there is of these rows: how many. */
static size_t lend(uint8_t *place, struct given given, size_t start, size_t hands) {
    if (given.len <= start) return 0;
    size_t lent = lesser(given.len - start, hands);
    memcpy(place, (const uint8_t *)given.rows + start * given.width, lent * given.width);
    return lent;
}

typedef u64 call_of_piece(size_t hands, size_t melds, size_t seen);

static size_t ask_rows(
    call_of_piece *call, size_t most, const struct given given[4], const struct column *columns, int columns_len) {
    uint8_t *own = memory();
    size_t rows = given[0].len;
    for (int i = 0; i < columns_len; i++) rows = lesser(rows, columns[i].len);
    for (size_t start = 0, hands; start < rows; start += hands) {
        hands = lesser(rows - start, most);
        size_t lent[4];
        for (int i = 0; i < 4; i++) lent[i] = lend(own + COUNTS + i * PLACE_GIVEN, given[i], start, hands);
        call(hands, lent[1], lent[2]);
        for (int i = 0; i < columns_len; i++) {
            size_t width = columns[i].width;
            memcpy((uint8_t *)columns[i].rows + start * width, own + COLUMN_0 + i * PAGE, hands * width);
        }
    }
    return rows;
}

static u64 shantens_of(size_t hands, size_t melds, size_t seen) {
    (void)seen;
    assert(hands <= MOST_HANDS);
    return Z_deskZ_riichi_shantens(&module, COUNTS, hands, MELDS, melds, COLUMN_0, hands);
}

size_t riichi_shantens(const uint8_t (*counts)[34], size_t counts_len, const uint8_t (*melds)[4], size_t melds_len,
    int8_t *shanten, size_t shanten_len) {
    const struct given given[4] = {{counts, counts_len, 34}, {melds, melds_len, 4}, {NULL, 0, 34}};
    const struct column columns[] = {{shanten, shanten_len, 1}};
    return ask_rows(shantens_of, MOST_HANDS, given, columns, 1);
}

static u64 shapes_of(size_t hands, size_t melds, size_t seen) {
    assert(hands <= MOST_HANDS);
    return Z_deskZ_riichi_shapes(
        &module, COUNTS, hands, MELDS, melds, SEEN, seen, COLUMN_0, hands, COLUMN_1, hands, COLUMN_2, hands);
}

size_t riichi_shapes(const uint8_t (*counts)[34], size_t counts_len, const uint8_t (*melds)[4], size_t melds_len,
    const uint8_t (*seen)[34], size_t seen_len, int8_t *shanten, size_t shanten_len, uint64_t *accepts, size_t accepts_len,
    uint8_t (*live)[34], size_t live_len) {
    const struct given given[4] = {{counts, counts_len, 34}, {melds, melds_len, 4}, {seen, seen_len, 34}};
    const struct column columns[] = {{shanten, shanten_len, 1}, {accepts, accepts_len, 8}, {live, live_len, 34}};
    return ask_rows(shapes_of, MOST_HANDS, given, columns, 3);
}

static u64 discards_of(size_t hands, size_t melds, size_t seen) {
    assert(hands <= MOST_DISCARDS);
    return Z_deskZ_riichi_discards(
        &module, COUNTS, hands, MELDS, melds, SEEN, seen, COLUMN_0, hands, COLUMN_1, hands, COLUMN_2, hands, COLUMN_3, hands);
}

size_t riichi_discards(const uint8_t (*counts)[34], size_t counts_len, const uint8_t (*melds)[4], size_t melds_len,
    const uint8_t (*seen)[34], size_t seen_len, int8_t *shanten, size_t shanten_len, uint64_t *kinds, size_t kinds_len,
    uint64_t (*accepts)[34], size_t accepts_len, uint8_t (*live)[34], size_t live_len) {
    const struct given given[4] = {{counts, counts_len, 34}, {melds, melds_len, 4}, {seen, seen_len, 34}};
    const struct column columns[] = {
        {shanten, shanten_len, 1}, {kinds, kinds_len, 8}, {accepts, accepts_len, 8 * 34}, {live, live_len, 34}};
    return ask_rows(discards_of, MOST_DISCARDS, given, columns, 4);
}

static u64 deeper_of(size_t hands, size_t melds, size_t seen) {
    assert(hands <= MOST_HANDS);
    return Z_deskZ_riichi_deeper(
        &module, COUNTS, hands, MELDS, melds, SEEN, seen, COLUMN_0, hands, COLUMN_1, hands, COLUMN_2, hands);
}

size_t riichi_deeper(const uint8_t (*counts)[34], size_t counts_len, const uint8_t (*melds)[4], size_t melds_len,
    const uint8_t (*seen)[34], size_t seen_len, int8_t *shanten, size_t shanten_len, uint16_t *second, size_t second_len,
    uint8_t *good, size_t good_len) {
    const struct given given[4] = {{counts, counts_len, 34}, {melds, melds_len, 4}, {seen, seen_len, 34}};
    const struct column columns[] = {{shanten, shanten_len, 1}, {second, second_len, 2}, {good, good_len, 1}};
    return ask_rows(deeper_of, MOST_HANDS, given, columns, 3);
}

static u64 calls_of(size_t hands, size_t melds, size_t seen) {
    assert(hands <= MOST_DISCARDS);
    return Z_deskZ_riichi_calls(&module, COUNTS, hands, MELDS, melds, SEEN, seen, THROWN, hands, COLUMN_0, hands, COLUMN_1, hands,
        COLUMN_2, hands);
}

size_t riichi_calls(const uint8_t (*counts)[34], size_t counts_len, const uint8_t (*melds)[4], size_t melds_len,
    const uint8_t (*seen)[34], size_t seen_len, const uint8_t (*thrown)[2], size_t thrown_len, uint8_t (*called)[4], size_t called_len,
    uint64_t (*kinds)[4], size_t kinds_len, uint8_t (*live)[4][34], size_t live_len) {
    const struct given given[4] = {
        {counts, lesser(counts_len, thrown_len), 34}, {melds, melds_len, 4}, {seen, seen_len, 34}, {thrown, thrown_len, 2}};
    const struct column columns[] = {{called, called_len, 4}, {kinds, kinds_len, 4 * 8}, {live, live_len, 4 * 34}};
    return ask_rows(calls_of, MOST_DISCARDS, given, columns, 3);
}

static u64 waits_of(size_t hands, size_t melds, size_t seen) {
    (void)seen;
    return Z_deskZ_riichi_waits_of(&module, COUNTS, hands, MELDS, melds, COLUMN_0, hands);
}

size_t riichi_waits_of(const uint8_t (*counts)[34], size_t counts_len, const uint8_t (*melds)[4], size_t melds_len,
    uint64_t *kinds, size_t kinds_len) {
    const struct given given[4] = {{counts, counts_len, 34}, {melds, melds_len, 4}, {NULL, 0, 34}};
    const struct column columns[] = {{kinds, kinds_len, 8}};
    return ask_rows(waits_of, MOST_HANDS, given, columns, 1);
}

size_t riichi_wins(
    uint32_t rules, const struct riichi_win *wins, size_t wins_len, struct riichi_score *scores, size_t scores_len) {
    uint8_t *own = memory();
    size_t rows = lesser(wins_len, scores_len);
    for (size_t start = 0, some; start < rows; start += some) {
        some = lesser(rows - start, MOST_HANDS);
        memcpy(own + COUNTS, wins + start, some * sizeof *wins);
        if (Z_deskZ_riichi_wins(&module, rules, COUNTS, some, COLUMN_0, some) < some) return start;
        memcpy(scores + start, own + COLUMN_0, some * sizeof *scores);
    }
    return rows;
}

size_t riichi_answer_rows(uint32_t rules, const uint8_t *bytes, size_t bytes_len, const int64_t *offsets, size_t offsets_len,
    uint8_t *room, size_t room_len, int64_t *answer_offsets, size_t answer_offsets_len) {
    if (answer_offsets_len == 0) return 0;
    answer_offsets[0] = 0;
    size_t rows = lesser(offsets_len > 0 ? offsets_len - 1 : 0, answer_offsets_len - 1), filled = 0;
    for (size_t row = 0; row < rows; row++) {
        /* (an offset below 0 is one far beyond the bytes) */
        uint64_t start = (uint64_t)offsets[row], end = (uint64_t)offsets[row + 1];
        if (start > end || end > bytes_len) return row;
        size_t left = room_len - filled;
        size_t needed = riichi_answer(rules, bytes + start, (size_t)(end - start), room + filled, left);
        if (needed > left) return row;
        filled += needed;
        answer_offsets[row + 1] = (int64_t)filled;
    }
    return rows;
}
