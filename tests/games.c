/* games SEED GAMES: plays so many games at random by the calls of riichi_desk.h, under rules at random, and tests of each outcome that
 * what is refused changes nothing, that the points and sticks add up, that the moves are the changes, and that many outcomes by one call
 * come to the same as one by one. It ends with how many outcomes were accepted, and `no difference`. */
#include <stdio.h>
#include <stdlib.h>
#include <string.h>

#include "riichi_desk.h"

/* (no struct has padding, so its bytes are its value) */
typedef char sizes[sizeof(struct riichi_table) == 48 && sizeof(struct riichi_state) == 20 && sizeof(struct riichi_progress) == 40
    && sizeof(struct riichi_worth) == 6 && sizeof(struct riichi_outcome) == 64 && sizeof(struct riichi_move) == 12
    && sizeof(struct riichi_changes) == 40 && sizeof(struct riichi_final) == 32 && sizeof(struct riichi_finals) == 128
    && sizeof(struct riichi_question) == 6 && sizeof(struct riichi_paid) == 16 && sizeof(struct riichi_needs) == 160 ? 1 : -1];

#define CHECK(fact) do { if (!(fact)) { printf("line %d: not %s\n", __LINE__, #fact); exit(1); } } while (0)

static uint64_t state_of_chance;

static uint32_t draw(uint32_t below) {
    state_of_chance = state_of_chance * 6364136223846793005u + 1442695040888963407u;
    return (uint32_t)(state_of_chance >> 33) % below;
}

static int is_same(const void *one, const void *other, size_t length) { return memcmp(one, other, length) == 0; }

static void draw_flags(uint8_t flags[4], uint32_t rare) {
    for (int i = 0; i < 4; i++) flags[i] = draw(rare) == 0;
}

static void draw_rules(struct riichi_table *table) {
    CHECK(riichi_game_table(RIICHI_CLUB + draw(3), table) == 0);
    uint8_t *const two[] = {&table->ties, &table->counters, &table->sticks, &table->liable, &table->nagashi, &table->renchan,
        &table->length, &table->bust, &table->stop, &table->left};
    for (size_t i = 0; i < sizeof two / sizeof *two; i++) *two[i] = (uint8_t)draw(2);
    table->ron = (uint8_t)draw(3);
    if (draw(2)) table->chombo = RIICHI_CHOMBO_MANGAN;
    CHECK(riichi_game_table_fault(table) == 0);
}

static struct riichi_worth draw_worth(const struct riichi_table *table, uint32_t by) {
    struct riichi_worth worth = {0};
    worth.kind = (uint8_t)(draw(8) ? RIICHI_BASE : RIICHI_YAKUMAN);
    worth.base = (uint16_t)riichi_game_base(table->rules, by, 1 + draw(6), 10 * (2 + draw(6)));
    if (worth.kind == RIICHI_YAKUMAN) {
        worth.limits = (uint8_t)(1 + draw(2));
        worth.liable = (uint8_t)draw(5);
        worth.liable_limits = 1;
    }
    return worth;
}

static struct riichi_outcome draw_outcome(const struct riichi_table *table) {
    struct riichi_outcome outcome;
    memset(&outcome, 0, sizeof outcome);
    uint32_t sort = draw(40);
    outcome.kind = (uint16_t)(sort < 16 ? RIICHI_RON : sort < 26 ? RIICHI_TSUMO : sort < 36 ? RIICHI_DRAW : draw(sort < 39 ? 7 : 9));
    outcome.player = (uint16_t)draw(4);
    outcome.points = 100 * draw(100);
    draw_flags(outcome.riichi, 6);
    if (outcome.kind == RIICHI_DRAW) {
        draw_flags(outcome.ready, 2);
        draw_flags(outcome.nagashi, 20);
    }
    for (uint32_t i = 0; i < 4; i++) {
        if (outcome.kind == RIICHI_TSUMO ? i == outcome.player : outcome.kind == RIICHI_RON && draw(3) == 0)
            outcome.wins[i] = draw_worth(table, outcome.kind);
    }
    if (outcome.kind == RIICHI_STANDS) {
        for (int i = 0; i < 4; i++) outcome.state.points[i] = (int32_t)table->start;
        outcome.state.round = (uint8_t)draw(3);
    }
    /* (now and then a byte that says nothing) */
    if (draw(50) == 0) ((uint8_t *)&outcome)[draw(sizeof outcome)] = (uint8_t)draw(256);
    return outcome;
}

static int64_t total(const struct riichi_state *state) {
    return (int64_t)state->points[0] + state->points[1] + state->points[2] + state->points[3] + 1000 * (int64_t)state->sticks;
}

/* The moves of an outcome are its changes, and these lead from the one state to the other. */
static void try_moves(const struct riichi_table *table, const struct riichi_progress *before, const struct riichi_outcome *outcome,
    const struct riichi_progress *after) {
    struct riichi_move moves[RIICHI_MOST_MOVES];
    struct riichi_changes changes;
    CHECK(riichi_game_moves(table, before, outcome, moves, RIICHI_MOST_MOVES, &changes) == 0);
    CHECK(changes.moves <= RIICHI_MOST_MOVES);
    int64_t given[5] = {0};
    for (uint32_t i = 0; i < changes.moves; i++) {
        CHECK(moves[i].from <= RIICHI_THE_TABLE && moves[i].to <= RIICHI_THE_TABLE && moves[i].why <= RIICHI_FOR_OWN_BET);
        given[moves[i].from] -= moves[i].points;
        given[moves[i].to] += moves[i].points;
    }
    for (int i = 0; i < 4 && outcome->kind != RIICHI_STANDS; i++) {
        CHECK(given[i] == changes.points[i]);
        CHECK((int64_t)after->state.points[i] - before->state.points[i] == changes.points[i]);
    }
    CHECK(outcome->kind == RIICHI_STANDS || changes.sticks == after->state.sticks);
}

static void try_needs(const struct riichi_table *table, const struct riichi_progress *progress) {
    struct riichi_question question = {(uint8_t)draw(5), (uint8_t)draw(6), {0}};
    struct riichi_needs needs;
    memset(&needs, 7, sizeof needs);
    uint32_t told = riichi_game_needs(table, progress, &question, &needs);
    int is_asked = question.player < 4 && question.place >= 1 && question.place <= 4;
    CHECK(told == (progress->over ? RIICHI_GAME_OVER : is_asked ? 0 : RIICHI_NO_QUESTION));
    if (told != 0) return;
    struct riichi_paid none;
    memset(&none, 0, sizeof none);
    CHECK(is_same(&needs.off[question.player].strictly, &none, sizeof none));
    for (int i = 0; i < 4; i++) {
        uint32_t strictly = needs.off[i].strictly.base, with_tie = needs.off[i].with_tie.base;
        CHECK(strictly == 0 || (with_tie != 0 && with_tie <= strictly));
    }
}

static void try_finals(const struct riichi_table *table, const struct riichi_progress *progress) {
    struct riichi_finals finals;
    CHECK(riichi_game_finals(table, progress, &finals) == 0);
    int64_t sum = table->left == RIICHI_LEFT_LOST ? 1000 * (int64_t)progress->state.sticks : 0;
    for (int i = 0; i < 4; i++) {
        CHECK(finals.players[i].place >= 1 && finals.players[i].place <= 4);
        CHECK(finals.players[i].penalty == progress->penalties[i]);
        sum += finals.players[i].total + finals.players[i].penalty;
    }
    CHECK(sum == 0);
}

static size_t play_game(void) {
    enum { MOST = 300 };
    static struct riichi_outcome outcomes[MOST];
    struct riichi_table table;
    struct riichi_progress progress, together;
    uint32_t fault;
    draw_rules(&table);
    CHECK(riichi_game_first(&table, &progress) == 0);
    size_t accepted = 0;
    for (int i = 0; i < MOST; i++) {
        const struct riichi_progress before = progress;
        const struct riichi_outcome outcome = draw_outcome(&table);
        size_t more = riichi_game_after(&table, &progress, &outcome, 1, &fault);
        CHECK(more == (fault == 0));
        if (fault != 0) {
            CHECK((fault >= RIICHI_NOBODY_WINS && fault <= RIICHI_GAME_OVER) || fault == RIICHI_NO_OUTCOME);
            CHECK(is_same(&before, &progress, sizeof before));
            struct riichi_changes changes;
            struct riichi_move move;
            CHECK(riichi_game_moves(&table, &before, &outcome, &move, 1, &changes) == fault);
            continue;
        }
        CHECK(total(&progress.state) == 4 * (int64_t)table.start);
        try_moves(&table, &before, &outcome, &progress);
        outcomes[accepted++] = outcome;
        try_needs(&table, &progress);
    }
    try_finals(&table, &progress);
    CHECK(riichi_game_first(&table, &together) == 0);
    CHECK(riichi_game_after(&table, &together, outcomes, accepted, &fault) == accepted && fault == 0);
    CHECK(is_same(&together, &progress, sizeof progress));
    return accepted;
}

/* Rows that say nothing are told so, and nothing is changed. */
static void try_strange_rows(void) {
    struct riichi_table table;
    struct riichi_progress progress, kept;
    struct riichi_worth worth;
    struct riichi_outcome outcome;
    const struct riichi_win none = {{0}, {0}, 0, 0, 0, 0, 0, 0, 0, 0, 0, 0, 0, 0, {0}, {0}, {0}, 0};
    uint32_t fault = 7;
    memset(&table, 7, sizeof table);
    memset(&progress, 7, sizeof progress);
    memset(&outcome, 0, sizeof outcome);
    kept = progress;
    CHECK(riichi_game_table(0, &table) == RIICHI_NO_TABLE && riichi_game_table_fault(&table) == RIICHI_NO_TABLE);
    CHECK(riichi_game_first(&table, &progress) == RIICHI_NO_TABLE && is_same(&kept, &progress, sizeof kept));
    CHECK(riichi_game_after(&table, &progress, &outcome, 1, &fault) == 0 && fault == RIICHI_NO_TABLE);
    CHECK(riichi_game_table(RIICHI_LEAGUE, &table) == 0);
    CHECK(riichi_game_after(&table, &progress, &outcome, 0, &fault) == 0 && fault == RIICHI_NO_PROGRESS);
    CHECK(riichi_game_first(&table, &progress) == 0 && progress.state.points[3] == 25000);
    CHECK(riichi_game_worth(&table, &progress, 0, 2, &none, &worth) == RIICHI_NO_QUESTION);
    CHECK(riichi_game_worth(&table, &progress, 0, RIICHI_RON, &none, &worth) == 8);
}

int main(int count, char **words) {
    if (count != 3) return 2;
    state_of_chance = strtoull(words[1], NULL, 10);
    size_t accepted = 0;
    try_strange_rows();
    for (long game = strtol(words[2], NULL, 10); game > 0; game--) accepted += play_game();
    printf("%zu outcomes, no difference\n", accepted);
    return 0;
}
