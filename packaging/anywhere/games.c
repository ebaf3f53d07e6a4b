
/* The calls of riichi_desk.h for a game of four. */

enum { TABLE = GIVEN, PROGRESS = GIVEN + 64, ASKED = GIVEN + 128, MOST_OUTCOMES = 240, MOST_GAMES = TOLD - GIVEN };
enum { TOLD_MOVES = TOLD + 64 };

static uint8_t *lend_table(const struct riichi_table *table) {
    uint8_t *own = memory();
    memcpy(own + TABLE, table, sizeof *table);
    return own;
}

/* Lends a game, and what is asked of it: so many bytes. */
static uint8_t *lend_game(
    const struct riichi_table *table, const struct riichi_progress *progress, const void *asked, size_t asked_len) {
    uint8_t *own = lend_table(table);
    memcpy(own + PROGRESS, progress, sizeof *progress);
    memcpy(own + ASKED, asked, asked_len);
    return own;
}

uint32_t riichi_game_table(uint32_t name, struct riichi_table *table) {
    uint8_t *own = memory();
    uint32_t told = Z_deskZ_riichi_game_table(&module, name, TABLE);
    if (told == 0) memcpy(table, own + TABLE, sizeof *table);
    return told;
}

uint32_t riichi_game_table_fault(const struct riichi_table *table) {
    lend_table(table);
    return Z_deskZ_riichi_game_table_fault(&module, TABLE);
}

uint32_t riichi_game_first(const struct riichi_table *table, struct riichi_progress *progress) {
    uint8_t *own = lend_table(table);
    uint32_t told = Z_deskZ_riichi_game_first(&module, TABLE, PROGRESS);
    if (told == 0) memcpy(progress, own + PROGRESS, sizeof *progress);
    return told;
}

/* (by pieces of the outcomes; without any, the call says whether table and progress say something) */
size_t riichi_game_after(const struct riichi_table *table, struct riichi_progress *progress, const struct riichi_outcome *outcomes,
    size_t outcomes_len, uint32_t *fault) {
    size_t accepted = 0, some, more;
    do {
        some = lesser(outcomes_len - accepted, MOST_OUTCOMES);
        uint8_t *own = lend_game(table, progress, outcomes + accepted, some * sizeof *outcomes);
        more = (size_t)Z_deskZ_riichi_game_after(&module, TABLE, PROGRESS, ASKED, some, TOLD);
        memcpy(progress, own + PROGRESS, sizeof *progress);
        memcpy(fault, own + TOLD, sizeof *fault);
        accepted += more;
    } while (*fault == 0 && accepted < outcomes_len);
    return accepted;
}

uint32_t riichi_game_moves(const struct riichi_table *table, const struct riichi_progress *progress,
    const struct riichi_outcome *outcome, struct riichi_move *moves, size_t moves_len, struct riichi_changes *changes) {
    uint8_t *own = lend_game(table, progress, outcome, sizeof *outcome);
    uint32_t told = Z_deskZ_riichi_game_moves(&module, TABLE, PROGRESS, ASKED, TOLD_MOVES, RIICHI_MOST_MOVES, TOLD);
    if (told != 0) return told;
    memcpy(changes, own + TOLD, sizeof *changes);
    memcpy(moves, own + TOLD_MOVES, lesser(changes->moves, moves_len) * sizeof *moves);
    return 0;
}

uint32_t riichi_game_finals(
    const struct riichi_table *table, const struct riichi_progress *progress, struct riichi_finals *finals) {
    uint8_t *own = lend_game(table, progress, NULL, 0);
    uint32_t told = Z_deskZ_riichi_game_finals(&module, TABLE, PROGRESS, TOLD);
    if (told == 0) memcpy(finals, own + TOLD, sizeof *finals);
    return told;
}

uint32_t riichi_game_needs(const struct riichi_table *table, const struct riichi_progress *progress,
    const struct riichi_question *question, struct riichi_needs *needs) {
    uint8_t *own = lend_game(table, progress, question, sizeof *question);
    uint32_t told = Z_deskZ_riichi_game_needs(&module, TABLE, PROGRESS, ASKED, TOLD);
    if (told == 0) memcpy(needs, own + TOLD, sizeof *needs);
    return told;
}

uint32_t riichi_game_worth(const struct riichi_table *table, const struct riichi_progress *progress, uint32_t winner, uint32_t by,
    const struct riichi_win *hand, struct riichi_worth *worth) {
    uint8_t *own = lend_game(table, progress, hand, sizeof *hand);
    uint32_t told = Z_deskZ_riichi_game_worth(&module, TABLE, PROGRESS, winner, by, ASKED, TOLD);
    if (told == RIICHI_WON) memcpy(worth, own + TOLD, sizeof *worth);
    return told;
}

uint32_t riichi_game_base(uint32_t rules, uint32_t by, uint32_t han, uint32_t fu) {
    memory();
    return Z_deskZ_riichi_game_base(&module, rules, by, han, fu);
}

enum { MOST_BOOK = MOST_GAMES - PAGE, LINE = GIVEN + MOST_BOOK };

/* A book that is longer than its room is none here. */
static size_t tell_judged(uint8_t *own, size_t needed, uint8_t *room, size_t room_len, struct riichi_judged *judged) {
    memcpy(judged, own + TAKEN - 64, sizeof *judged);
    if (needed <= room_len) memcpy(room, own + TOLD, needed);
    return needed;
}

size_t riichi_hall_hand_in(uint32_t rules, const uint8_t *book, size_t book_len, uint64_t number, const uint8_t *line, size_t line_len,
    uint8_t *room, size_t room_len, struct riichi_judged *judged) {
    uint8_t *own = memory();
    size_t given = book_len <= MOST_BOOK ? book_len : 0, words = lesser(line_len, MOST_LINE);
    memcpy(own + GIVEN, book, given);
    memcpy(own + LINE, line, words);
    size_t needed = (size_t)Z_deskZ_riichi_hall_hand_in(&module, rules, GIVEN, given, number, LINE, words, TOLD, ROOM - 64, TAKEN - 64);
    return tell_judged(own, needed, room, room_len, judged);
}

size_t riichi_hall_withdraw(uint32_t rules, const uint8_t *book, size_t book_len, uint64_t number, uint8_t *room, size_t room_len,
    struct riichi_judged *judged) {
    uint8_t *own = memory();
    size_t given = book_len <= MOST_BOOK ? book_len : 0;
    memcpy(own + GIVEN, book, given);
    size_t needed = (size_t)Z_deskZ_riichi_hall_withdraw(&module, rules, GIVEN, given, number, TOLD, ROOM - 64, TAKEN - 64);
    return tell_judged(own, needed, room, room_len, judged);
}

/* (the whole text by each call: one that is longer than its room has no answer here) */
size_t riichi_game_lines(
    uint32_t rules, const uint8_t *text, size_t text_len, size_t from, uint8_t *room, size_t room_len, size_t *taken) {
    uint8_t *own = memory();
    uint64_t start, place = from;
    size_t filled = 0;
    if (text_len <= MOST_GAMES) memcpy(own + GIVEN, text, text_len);
    do {
        start = place;
        if (start > text_len || text_len > MOST_GAMES) break;
        size_t left = lesser(room_len - filled, ROOM);
        size_t more = (size_t)Z_deskZ_riichi_game_lines(&module, rules, GIVEN, text_len, start, TOLD, left, TAKEN);
        memcpy(room + filled, own + TOLD, more);
        memcpy(&place, own + TAKEN, sizeof place);
        filled += more;
    } while (place > start);
    *taken = (size_t)place;
    return filled;
}
