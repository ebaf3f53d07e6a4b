
/* The call of riichi_desk.h for a player's questions. The hands that a hand may come to stand in places of the module's own memory, 512
 * at most, whatever the caller lends: what such places hold is the library's alone. */

enum { PLACES = TAKEN + 8, ROWS = PLACES + MOST_PLACES * sizeof(riichi_hand_place), WORTHS = ROWS + MOST_PLACES * sizeof(riichi_hand_rows) };

static u64 lent(size_t len) { return lesser(len, MOST_PLACES); }

size_t riichi_study(const uint8_t *line, size_t line_len, riichi_hand_place *places, size_t places_len, riichi_hand_rows *rows,
    size_t rows_len, riichi_worth_row *worths, size_t worths_len, uint8_t *room, size_t room_len) {
    (void)places, (void)rows, (void)worths;
    uint8_t *own = memory();
    size_t given = lesser(line_len, MOST_LINE);
    memcpy(own + GIVEN, line, given);
    size_t needed = (size_t)Z_deskZ_riichi_study(
        &module, GIVEN, given, PLACES, lent(places_len), ROWS, lent(rows_len), WORTHS, lent(worths_len), TOLD, ROOM);
    if (needed <= room_len) memcpy(room, own + TOLD, needed);
    return needed;
}
