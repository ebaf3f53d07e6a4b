/* calls: what each call of riichi_desk.h tells, and what it leaves as it is, by values worked by hand. Ends with `all right`. */
#include <riichi_desk.h>
#include <stdio.h>
#include <stdlib.h>
#include <string.h>

#define CHECK(fact) do { if (!(fact)) { printf("line %d: not %s\n", __LINE__, #fact); exit(1); } } while (0)

enum { FILL = 7, SPACE = 512 };

typedef size_t (*Call)(uint32_t, const uint8_t *, size_t, uint8_t *, size_t);
typedef size_t (*LinesCall)(uint32_t, const uint8_t *, size_t, uint8_t *, size_t, size_t *);

static const uint8_t *bytes_of(const char *text) { return (const uint8_t *)text; }

static int is_filled(const void *from, size_t length) {
    const uint8_t *byte = from;
    while (length--)
        if (*byte++ != FILL) return 0;
    return 1;
}

/* A call tells this text of the line, in a room of just its length; a room with a byte less stays as it is. */
static void tells(Call call, uint32_t rules, const char *line, const char *text) {
    uint8_t room[SPACE];
    size_t needed = strlen(text);
    CHECK(needed < sizeof room);
    memset(room, FILL, sizeof room);
    if (needed > 0) CHECK(call(rules, bytes_of(line), strlen(line), room, needed - 1) == needed);
    CHECK(is_filled(room, sizeof room));
    size_t told = call(rules, bytes_of(line), strlen(line), room, needed);
    if (told != needed || memcmp(room, text, needed) != 0) printf("%s: %.*s\n", line, (int)(told < SPACE ? told : SPACE), room);
    CHECK(told == needed && memcmp(room, text, needed) == 0);
    CHECK(is_filled(room + needed, sizeof room - needed));
}

/* A call takes so much of the text in a room of this size, and tells this of it. */
static void fills(LinesCall call, uint32_t rules, const char *text, size_t room_len, size_t taken, const char *answers) {
    uint8_t room[SPACE];
    size_t up_to = 99, filled = strlen(answers);
    memset(room, FILL, sizeof room);
    CHECK(call(rules, bytes_of(text), strlen(text), room, room_len, &up_to) == filled);
    CHECK(up_to == taken && memcmp(room, answers, filled) == 0);
    CHECK(is_filled(room + filled, sizeof room - filled));
}

static void try_lines(void) {
    const char *red = "win 123406789m22s34p on=2p by=ron seat=S round=E";
    tells(riichi_answer, 1, "waits 1112345678999m", "waits 123456789m");
    tells(riichi_answer, 2, red, "won 4 han 30 fu 8000 gain 8000 pinfu pure-straight dora 1");
    tells(riichi_answer, 3, red, "refused rules");
    tells(riichi_answer, 0x107F1, red, "won 4 han 30 fu 7700 gain 7700 pinfu pure-straight dora 1");
    tells(riichi_answer, 0x10FF0, "win 234m567m345p67s99s on=5s by=ron seat=S round=E flags=first",
        "won yakuman 32000 gain 32000 blessing-of-man");
    tells(riichi_answer, 0x11000, red, "refused rules");
    tells(riichi_answer, 1, "# table three", "");
    tells(riichi_answer, 1, "waits 8z", "refused N5 hand at 0");
    tells(riichi_json, 1, "waits 123456789m1134p", "{\"answer\":\"waits\",\"kinds\":[\"2p\",\"5p\"]}");
    tells(riichi_json, 1, "waits 8z", "{\"answer\":\"refused\",\"code\":\"N5\",\"text\":\"hand\",\"place\":0,\"key\":\"hand\","
        "\"at\":6,\"length\":2,\"words\":\"honours are 1z to 7z\"}");
    tells(riichi_json, 3, "waits 8z", "{\"answer\":\"refused\",\"code\":\"rules\"}");
    tells(riichi_json, 1, "# table three", "");
    uint8_t room[17];
    CHECK(riichi_version(room, sizeof room) == 17 && memcmp(room, "riichi_desk 0.1.0", 17) == 0);
}

static const char *const NO_YAKU = "{\"answer\":\"no yaku\",\"why\":{\"others\":[{\"reading\":{\"form\":\"standard\","
    "\"sets\":[\"456m\",\"234p\"],\"pair\":\"22s\",\"completed\":\"234p\"}}]}}";

static void try_reasons(void) {
    const char *open = "win 456m22s34p open=chi:123m,chi:678p on=2p by=ron seat=S round=E";
    const char *waits = "  2p 4 left, two-sided (ryanmen); 5p 4 left, two-sided (ryanmen)\n";
    tells(riichi_explain_json, 1, open, NO_YAKU);
    tells(riichi_explain_json, 1, "waits 123456789m1134p", "{\"answer\":\"waits\",\"kinds\":[\"2p\",\"5p\"]}");
    tells(riichi_explain_json, 3, open, "{\"answer\":\"refused\",\"code\":\"rules\"}");
    tells(riichi_explain, 1, "shape 123456789m1134p", "  shanten sets and a pair 0, seven pairs 5, thirteen orphans 9\n");
    tells(riichi_explain, 1, "waits 123456789m1134p", waits);
    tells(riichi_explain, 1, "waits 147m258p369s1234z", "  no tile that is left completes the hand\n");
    tells(riichi_explain, 1, "# table three", "");
    tells(riichi_explain, 3, "shape 123456789m1134p", "refused rules");
    char lines[SPACE];
    snprintf(lines, sizeof lines, "%s\n", NO_YAKU);
    fills(riichi_explain_json_lines, 1, open, 256, strlen(open), lines);
    snprintf(lines, sizeof lines, "waits 25p\n%s", waits);
    fills(riichi_explain_lines, 1, "waits 123456789m1134p\n", 128, 22, lines);
    fills(riichi_explain_lines, 0, "waits 123456789m1134p\n", 128, 0, "");
}

static void try_texts(void) {
    const char *text = "waits 123456789m1134p\r\n# c\nrules 2\nwaits 1m";
    fills(riichi_answer_lines, 1, text, 38, strlen(text), "waits 25p\nrefused H2\nrefused H8\n");
    fills(riichi_answer_lines, 1, text, 20, 27, "waits 25p\n");
    fills(riichi_answer_lines, 3, text, 38, 0, "");
    fills(riichi_json_lines, 1, "waits 123456789m1134p\n", 128, 22, "{\"answer\":\"waits\",\"kinds\":[\"2p\",\"5p\"]}\n");
    fills(riichi_json_lines, 0, "waits 123456789m1134p\n", 128, 0, "");
}

static void try_rows_of_text(void) {
    const char *bytes = "waits 123456789m1134p# cwaits 8z";
    const int64_t offsets[5] = {0, 21, 24, 32, 31};
    const int64_t wanted[6] = {0, 9, 9, 29, 9, 9};
    uint8_t room[30];
    int64_t places[6] = {9, 9, 9, 9, 9, 9};
    CHECK(riichi_answer_rows(1, bytes_of(bytes), 32, offsets, 5, room, 30, places, 6) == 3);
    CHECK(memcmp(places, wanted, sizeof places) == 0);
    CHECK(memcmp(room, "waits 25prefused N5 hand at 0", 29) == 0);
    CHECK(riichi_answer_rows(1, bytes_of(bytes), 32, offsets, 5, room, 20, places, 6) == 2);
    CHECK(riichi_answer_rows(1, bytes_of(bytes), 32, offsets, 5, room, 20, places, 0) == 0);
}

/* The text of a game is answered from this place on as far as `taken`, and its answers are those from one place to another. */
static void plays(uint32_t rules, size_t from, size_t room_len, size_t taken, size_t first, size_t end) {
    static const char text[] = "game\ndraw\n", answers[] = "game 1 2 3 4 start 30000\n"
        "east 1 counters 0 sticks 0 changes 0 0 0 0 points 30000 30000 30000 30000\n"
        "stands east 2 counters 1 sticks 0 points 30000 30000 30000 30000\n";
    uint8_t room[SPACE];
    size_t up_to = 99;
    CHECK(riichi_game_lines(rules, bytes_of(text), strlen(text), from, room, room_len, &up_to) == end - first);
    CHECK(up_to == taken && memcmp(room, answers + first, end - first) == 0);
}

static void try_text_of_games(void) {
    plays(1, 0, 200, 11, 0, 164);
    plays(1, 0, 100, 10, 0, 99);
    plays(1, 10, 65, 11, 99, 164);
    plays(1, 10, 64, 10, 0, 0);
    plays(1, 0, 24, 0, 0, 0);
    plays(1, 11, 200, 11, 0, 0);
    plays(3, 0, 200, 0, 0, 0);
    plays(3, 5, 200, 5, 0, 0);
}

/* The number of the rules that a text names, and the place of its first wrong word, 99 where it has none. */
static void reads(const char *text, uint32_t number, size_t place) {
    size_t wrong = 99;
    CHECK(riichi_rules(bytes_of(text), strlen(text), &wrong) == number);
    CHECK(wrong == place);
}

static void try_rules(void) {
    reads("1", 0x107F0, 99);
    reads("2", 0x107F3, 99);
    reads("1+red-fives-ura", 0x103F1, 99);
    reads("2-red-fives-raise+ura-ura", 0x103F0, 99);
    reads("", 0, 0);
    reads("3", 0, 0);
    reads("1+red-five", 0, 2);
    reads("1+red-fives-", 0, 12);
    reads("1 +ura", 0, 0);
}

/* 123456789m1134p, which waits for 2p and 5p. */
static const uint8_t READY[34] = {1, 1, 1, 1, 1, 1, 1, 1, 1, 2, 0, 1, 1};
static const uint64_t WAITS = (UINT64_C(1) << 10) + (UINT64_C(1) << 13);

static void try_shapes(void) {
    uint8_t counts[2][34] = {{0}}, live[2][34];
    int8_t shanten[3] = {FILL, FILL, FILL};
    uint64_t kinds[3] = {FILL, FILL, FILL}, accepts[34];
    const uint8_t (*rows)[34] = (const uint8_t (*)[34])counts;
    memcpy(counts[0], READY, sizeof READY);
    CHECK(riichi_shantens(rows, 2, NULL, 0, shanten, 3) == 2);
    CHECK(shanten[0] == 0 && shanten[1] == -128 && shanten[2] == FILL);
    CHECK(riichi_waits_of(rows, 2, NULL, 0, kinds, 3) == 2);
    CHECK(kinds[0] == WAITS && kinds[1] == UINT64_MAX && kinds[2] == FILL);
    memset(live, FILL, sizeof live);
    shanten[0] = FILL;
    CHECK(riichi_shapes(rows, 1, NULL, 0, NULL, 0, shanten, 1, accepts, 1, live, 2) == 1);
    CHECK(shanten[0] == 0 && accepts[0] == WAITS && live[0][10] == 4 && live[0][9] == 0 && live[1][9] == FILL);
    counts[0][33] = 1;
    CHECK(riichi_discards(rows, 1, NULL, 0, NULL, 0, shanten, 1, kinds, 1, &accepts, 1, live, 1) == 1);
    CHECK(shanten[0] == 0 && kinds[0] == UINT64_C(1) << 33);
    CHECK(accepts[33] == WAITS && live[0][33] == 8 && accepts[0] == 0);
}

/* 234m45678p34s558s, 123m4467p23557s1z and 1357m245p2346s77z. */
static const uint8_t FAR[3][34] = {
    {0, 1, 1, 1, [12] = 1, 1, 1, 1, 1, [20] = 1, 1, 2, 0, 0, 1},
    {1, 1, 1, [12] = 2, 0, 1, 1, [19] = 1, 1, 0, 2, 0, 1, [27] = 1},
    {1, 0, 1, 0, 1, 0, 1, [10] = 1, 0, 1, 1, [19] = 1, 1, 1, 0, 1, [33] = 2},
};

static void try_outlooks(void) {
    const uint16_t wanted_second[3] = {165, 384, 160};
    const uint8_t wanted_good[3] = {20, 24, 16};
    int8_t shanten[5] = {FILL, FILL, FILL, FILL, FILL};
    uint16_t second[5];
    uint8_t good[5], rows[5][34] = {{0}};
    memcpy(rows, FAR, sizeof FAR);
    memcpy(rows[3], READY, sizeof READY);
    CHECK(riichi_deeper((const uint8_t (*)[34])rows, 5, NULL, 0, NULL, 0, shanten, 5, second, 5, good, 5) == 5);
    CHECK(shanten[0] == 1 && memcmp(second, wanted_second, sizeof wanted_second) == 0 && memcmp(good, wanted_good, 3) == 0);
    CHECK(shanten[3] == 0 && second[3] == 0 && good[3] == 0);
    CHECK(shanten[4] == RIICHI_NO_HAND && second[4] == 0 && good[4] == 0);
    CHECK(riichi_deeper(FAR, 3, NULL, 0, NULL, 0, shanten, 1, second, 5, good, 5) == 1);
}

/* A tile thrown by the player before brings the first of these hands nearer for this claim alone, or for none, and these discards are best. */
static void calls_one(uint8_t tile, uint8_t by, int claim, uint8_t meld, uint64_t best) {
    const uint8_t thrown[1][2] = {{tile, by}};
    uint8_t called[1][4], live[1][4][34], wanted[4] = {0};
    uint64_t kinds[1][4];
    CHECK(riichi_calls(FAR, 1, NULL, 0, NULL, 0, thrown, 1, called, 1, kinds, 1, live, 1) == 1);
    if (meld != 0) wanted[claim] = meld;
    CHECK(memcmp(called[0], wanted, 4) == 0);
    CHECK(kinds[0][claim] == best);
}

static void try_calls(void) {
    const uint64_t five = UINT64_C(1) << 22, eight = UINT64_C(1) << 25;
    calls_one(11, RIICHI_FROM_LEFT, 2, RIICHI_CHI(11), five | eight);
    calls_one(17, RIICHI_FROM_LEFT, 0, RIICHI_CHI(15), five | eight);
    calls_one(19, RIICHI_FROM_LEFT, 2, RIICHI_CHI(19), eight);
    calls_one(11, RIICHI_FROM_ACROSS, 2, 0, 0);
    calls_one(11, 3, 2, 0, 0);
    calls_one(34, RIICHI_FROM_LEFT, 2, 0, 0);
    calls_one(22, RIICHI_FROM_RIGHT, 3, 0, 0);
    const uint8_t thrown[1][2] = {{11, RIICHI_FROM_LEFT}};
    uint8_t called[1][4], live[1][4][34];
    uint64_t kinds[1][4];
    CHECK(riichi_calls(FAR, 1, NULL, 0, NULL, 0, thrown, 1, called, 1, kinds, 1, live, 1) == 1);
    CHECK(live[0][2][25] == 6 && live[0][2][22] == 3 && live[0][2][24] == 0);
}

static riichi_hand_place places[512];
static riichi_hand_rows place_rows[512];
static riichi_worth_row worth_rows[512];

/* Whether the answer to a question of a player has these words, where so many hands have room. */
static int has_words(const char *line, size_t hands, const char *words) {
    static uint8_t room[RIICHI_MOST_STUDY + 1];
    const size_t needed = riichi_study((const uint8_t *)line, strlen(line), places, hands, place_rows, hands, worth_rows, hands, room, RIICHI_MOST_STUDY);
    room[needed] = 0;
    return strstr((const char *)room, words) != NULL;
}

static void try_studies(void) {
    CHECK(has_words("chances 123456789m1134p turns=2", 1, "\"win\":{\"part\":\"316\",\"whole\":\"2501\",\"chance\":0.1263}"));
    CHECK(has_words("chances 123m4467p23557s1z turns=3", 512, "\"ready\":{\"part\":\"20864\",\"whole\":\"302621\""));
    CHECK(has_words("chances 123m4467p23557s1z turns=3", 1, "{\"answer\":\"refused\",\"code\":\"places\"}"));
    CHECK(has_words("chances 123m4467p23557s1z turns=3", 0, "{\"answer\":\"refused\",\"code\":\"places\"}"));
    CHECK(has_words("shape 234m45678p34s558s", 0, "\"second\":165"));
    CHECK(has_words("chances 1m turns=3", 0, "\"answer\":\"refused\""));
    CHECK(has_words("worth 123456789m1134p turns=1 seat=S round=E", 1, "\"points\":520,\"part\":\"40\",\"whole\":\"123\",\"worth\":520.3252}"));
    CHECK(has_words("worth 123m4467p23557s1z turns=3 seat=S round=E", 1, "{\"answer\":\"refused\",\"code\":\"places\"}"));
    CHECK(has_words("worth 123m4467p23557s1z turns=3 seat=S round=E", 512, "\"counted\":true,\"points\":"));
    CHECK(riichi_study((const uint8_t *)"# none", 6, places, 0, place_rows, 0, worth_rows, 0, (uint8_t *)place_rows, 0) == 0);
}

/* `win 123406789m22s34p on=2p by=ron seat=S round=E`, which has pinfu and pure straight. */
static const struct riichi_win STRAIGHT = {
    .concealed = {1, 1, 1, 1, 1, 1, 1, 1, 1, [11] = 1, 1, [19] = 2}, .winning = 10, .seat = RIICHI_SOUTH, .reds = {1}};
static const uint64_t STRAIGHT_YAKU = (1 << 4) + (1 << 16);

static int is_same(const void *one, const void *other, size_t length) { return memcmp(one, other, length) == 0; }

static void try_wins(void) {
    struct riichi_win wins[2] = {STRAIGHT, STRAIGHT};
    wins[1].by = RIICHI_TSUMO, wins[1].seat = RIICHI_EAST, wins[1].riichi = 1, wins[1].counters = 2, wins[1].sticks = 1;
    wins[1].dora[1] = wins[1].dora[2] = RIICHI_INDICATOR(0);
    struct riichi_score scores[3];
    memset(scores, FILL, sizeof scores);
    CHECK(riichi_wins(2, wins, 2, scores, 3) == 2);
    struct riichi_score won = {.yaku = STRAIGHT_YAKU, .base = 2000, .gain = 8000, .discarder = 8000, .told = RIICHI_WON,
        .han = 4, .fu = 30, .dora = 1};
    CHECK(is_same(&scores[0], &won, sizeof won));
    struct riichi_score drawn = {.yaku = STRAIGHT_YAKU + (1 << 0) + (1 << 3), .base = 4000, .gain = 3 * 8200 + 1000, .other = 8200,
        .told = RIICHI_WON, .han = 8, .fu = 20, .dora = 3};
    CHECK(is_same(&scores[1], &drawn, sizeof drawn));
    CHECK(is_filled(&scores[2], sizeof scores[2]));
    CHECK(riichi_wins(3, wins, 1, scores, 3) == 0 && scores[0].fu == 30);
}

/* A row is told just so, and nothing else of it. */
static void is_told(const struct riichi_win *win, uint8_t told) {
    struct riichi_score score, wanted = {.told = told};
    memset(&score, FILL, sizeof score);
    CHECK(riichi_wins(2, win, 1, &score, 1) == 1);
    CHECK(is_same(&score, &wanted, sizeof wanted));
}

static void try_refused_wins(void) {
    struct riichi_win win = STRAIGHT;
    win.winning = 34, is_told(&win, 4), win = STRAIGHT;
    win.by = 2, is_told(&win, 4), win = STRAIGHT;
    win.melds[1] = 8, is_told(&win, 4), win = STRAIGHT;
    win.dora[0] = 35, is_told(&win, 4), win = STRAIGHT;
    memset(win.ura, 5, sizeof win.ura), is_told(&win, 4), win = STRAIGHT;
    win.winning = 33, is_told(&win, RIICHI_NO_WIN), win = STRAIGHT;
    win.melds[0] = 1, is_told(&win, 8), win = STRAIGHT;
    win.ippatsu = 9, is_told(&win, 11), win = STRAIGHT;
    win.reds[0] = 2, is_told(&win, 16);
}

/* The rules of a club, and a game before its first deal. */
static void begin(struct riichi_table *table, struct riichi_progress *progress) {
    CHECK(riichi_game_table(RIICHI_CLUB, table) == 0);
    CHECK(riichi_game_first(table, progress) == 0);
}

static void try_tables(void) {
    struct riichi_table table;
    struct riichi_progress progress;
    memset(&table, FILL, sizeof table);
    memset(&progress, FILL, sizeof progress);
    CHECK(riichi_game_table(4, &table) == RIICHI_NO_TABLE && is_filled(&table, sizeof table));
    CHECK(riichi_game_table_fault(&table) == RIICHI_NO_TABLE);
    CHECK(riichi_game_table(RIICHI_ONLINE, &table) == 0 && riichi_game_table_fault(&table) == 0);
    CHECK(table.uma[0] == 20000 && table.uma[1] == 10000 && table.uma[2] == -10000 && table.uma[3] == -20000);
    CHECK(table.extra == 30000 && table.ron == RIICHI_RON_TWO && table.bust == 1);
    table.start = 30100;
    CHECK(riichi_game_table_fault(&table) == 3);
    CHECK(riichi_game_first(&table, &progress) == RIICHI_NO_TABLE && is_filled(&progress, sizeof progress));
}

static void try_outcomes(void) {
    struct riichi_table table;
    struct riichi_progress progress;
    begin(&table, &progress);
    const struct riichi_outcome rows[4] = {
        {.kind = RIICHI_RON, .player = 2, .wins = {[1] = {.base = 240, .kind = RIICHI_BASE}}},
        {.kind = RIICHI_DRAW, .ready = {1, 1}, .riichi = {1}},
        {.kind = RIICHI_DRAW, .riichi = {0, 0, 1}},
        {.kind = RIICHI_RON, .player = 2, .wins = {[1] = {.base = 240, .kind = RIICHI_BASE}}},
    };
    uint32_t fault = FILL;
    CHECK(riichi_game_after(&table, &progress, rows, 4, &fault) == 2 && fault == RIICHI_NOT_READY);
    const int32_t points[4] = {30500, 32500, 27500, 28500};
    CHECK(is_same(progress.state.points, points, sizeof points));
    CHECK(progress.state.dealer == 1 && progress.state.counters == 1 && progress.state.sticks == 1);
    CHECK(riichi_game_after(&table, &progress, NULL, 0, &fault) == 0 && fault == 0);
    const struct riichi_outcome strange = {.kind = 8};
    CHECK(riichi_game_after(&table, &progress, &strange, 1, &fault) == 0 && fault == RIICHI_NO_OUTCOME);
    progress.state.round = 4;
    CHECK(riichi_game_after(&table, &progress, &strange, 1, &fault) == 0 && fault == RIICHI_NO_PROGRESS);
}

static void try_moves(void) {
    struct riichi_table table;
    struct riichi_progress progress;
    begin(&table, &progress);
    struct riichi_outcome drawn = {.kind = RIICHI_DRAW, .ready = {0, 1, 1, 1}, .riichi = {0, 1}};
    struct riichi_move moves[2];
    struct riichi_changes changes;
    CHECK(riichi_game_moves(&table, &progress, &drawn, moves, 2, &changes) == 0);
    const int64_t points[4] = {-3000, 0, 1000, 1000};
    CHECK(is_same(changes.points, points, sizeof points) && changes.sticks == 1 && changes.moves == 4);
    CHECK(moves[0].from == 1 && moves[0].to == RIICHI_THE_TABLE && moves[0].why == RIICHI_FOR_BET);
    CHECK(moves[1].from == 0 && moves[1].to == 1 && moves[1].points == 1000 && moves[1].why == RIICHI_FOR_READY);
    memset(drawn.ready, 0, sizeof drawn.ready);
    CHECK(riichi_game_moves(&table, &progress, &drawn, moves, 2, &changes) == RIICHI_NOT_READY && changes.moves == 4);
}

static void try_finals(void) {
    struct riichi_table table;
    struct riichi_progress progress;
    struct riichi_finals finals;
    begin(&table, &progress);
    const struct riichi_outcome rows[2] = {
        {.kind = RIICHI_STANDS, .state = {.points = {40000, 30000, 28000, 20000}, .round = 1, .sticks = 2}}, {.kind = RIICHI_END}};
    uint32_t fault;
    CHECK(riichi_game_after(&table, &progress, rows, 2, &fault) == 2 && progress.over == 1);
    CHECK(riichi_game_finals(&table, &progress, &finals) == 0);
    CHECK(finals.players[0].points == 42000 && finals.players[0].place == 1);
    CHECK(finals.players[0].total == 27000 && finals.players[1].total == 5000);
    CHECK(finals.players[2].total == -7000 && finals.players[3].total == -25000);
}

static void try_needs(void) {
    struct riichi_table table;
    struct riichi_progress progress;
    struct riichi_needs needs;
    begin(&table, &progress);
    const struct riichi_outcome stands = {
        .kind = RIICHI_STANDS, .state = {.points = {28000, 38000, 30000, 23000}, .counters = 1, .sticks = 1}};
    struct riichi_question question = {.player = 2, .place = 1};
    uint32_t fault;
    CHECK(riichi_game_after(&table, &progress, &stands, 1, &fault) == 1);
    CHECK(riichi_game_needs(&table, &progress, &question, &needs) == 0);
    CHECK(needs.off[1].strictly.discarder == 3600 + 300 && needs.off[1].with_tie.discarder == 3200 + 300);
    CHECK(needs.off[0].strictly.discarder == 7100 + 300);
    const struct riichi_need none = {.strictly = {.base = 0}};
    CHECK(is_same(&needs.off[2], &none, sizeof none));
    CHECK(needs.by_tsumo.strictly.other == 1500 + 100 && needs.by_tsumo.strictly.dealer == 2900 + 100);
    question.place = 5;
    CHECK(riichi_game_needs(&table, &progress, &question, &needs) == RIICHI_NO_QUESTION);
    question.place = 1, progress.over = 1;
    CHECK(riichi_game_needs(&table, &progress, &question, &needs) == RIICHI_GAME_OVER);
}

static void try_worth(void) {
    struct riichi_table table;
    struct riichi_progress progress;
    struct riichi_worth worth;
    struct riichi_win no_win = STRAIGHT;
    begin(&table, &progress);
    table.rules = RIICHI_RULES_TWO;
    CHECK(riichi_game_worth(&table, &progress, 1, RIICHI_RON, &STRAIGHT, &worth) == RIICHI_WON);
    CHECK(worth.base == 2000 && worth.kind == RIICHI_BASE);
    no_win.winning = 33, worth.base = FILL;
    CHECK(riichi_game_worth(&table, &progress, 1, RIICHI_RON, &no_win, &worth) == RIICHI_NO_WIN);
    CHECK(riichi_game_worth(&table, &progress, 4, RIICHI_RON, &STRAIGHT, &worth) == RIICHI_NO_QUESTION && worth.base == FILL);
    CHECK(riichi_game_base(1, RIICHI_RON, 1, 20) == 0 && riichi_game_base(1, RIICHI_TSUMO, 258, 30) == 0);
    CHECK(riichi_game_base(1, RIICHI_TSUMO, 4, 30) == 1920);
}

int main(void) {
    try_lines();
    try_reasons();
    try_texts();
    try_rows_of_text();
    try_text_of_games();
    try_rules();
    try_shapes();
    try_outlooks();
    try_calls();
    try_studies();
    try_wins();
    try_refused_wins();
    try_tables();
    try_outcomes();
    try_moves();
    try_finals();
    try_needs();
    try_worth();
    puts("all right");
}
