/* fuzz_arrays SECONDS SEED: asks the calls for hands and wins as arrays of random rows, hands and what is none, in arrays of random
 * lengths, and compares each row with the answer to the line that says the same. Ends at the first difference, with the seed that shows it.
 * In no second it makes sixteen calls of each. */
#include "lent.h"
#include <riichi_desk.h>
#include <time.h>

#define MOST_ROWS 600

struct row {
    uint8_t counts[34], melds[4], seen[34];
};

struct told {
    int is_shape, tiles, shanten;
    uint64_t accepts, kinds, after[34], waits;
    uint8_t copies[34], live[34];
};

static struct row rows[MOST_ROWS];
static struct told wanted[MOST_ROWS];
static size_t melds_given, seen_given;

/* ---- random rows */

static void put_melds(struct row *row, int *left) {
    memset(row->melds, 0, 4);
    int place = 0;
    for (size_t n = below(3) == 0 ? 1 + below(4) : 0; n > 0; n--) {
        int kind = (int)below(34), sort = (int)below(4);
        if (sort == 0 && (kind >= 27 || kind % 9 > 6)) sort = 1;
        for (int i = 0; i < 3 && sort == 0; i++) if (left[kind + i] < 1) sort = 4;
        if (sort == 0) for (int i = 0; i < 3; i++) left[kind + i]--;
        else if (sort == 4 || left[kind] < (sort == 1 ? 3 : 4)) continue;
        else left[kind] -= sort == 1 ? 3 : 4;
        const uint8_t bytes[4] = {RIICHI_CHI(kind), RIICHI_PON(kind), RIICHI_KAN(kind), RIICHI_ANKAN(kind)};
        row->melds[place++] = bytes[sort];
    }
    if (place < 4 && place > 0 && below(4) == 0) row->melds[3] = row->melds[0], row->melds[0] = 0;
}

static void take(uint8_t *counts, int *left, size_t tiles) {
    for (size_t tries = 0; tiles > 0 && tries < 4000; tries++) {
        /* now and then of one suit alone, so that sets come about */
        int kind = (int)(state % 3 == 0 ? below(9) : below(34));
        if (left[kind] > 0) left[kind]--, counts[kind]++, tiles--;
    }
}

static void put_row(struct row *row) {
    int left[34];
    for (int kind = 0; kind < 34; kind++) left[kind] = 4;
    memset(row, 0, sizeof *row);
    put_melds(row, left);
    size_t melds = 0;
    for (int i = 0; i < 4; i++) melds += row->melds[i] != 0;
    take(row->counts, left, 13 + below(2) - 3 * melds);
    if (below(3) == 0) take(row->seen, left, below(60));
    switch (below(16)) {
    case 0: row->counts[below(34)] = (uint8_t)random_number(); break;
    case 1: row->seen[below(34)] = (uint8_t)below(7); break;
    case 2: row->melds[below(4)] = (uint8_t)random_number(); break;
    case 3: for (int i = 0; i < 34; i++) row->counts[i] = (uint8_t)random_number(); break;
    case 4: row->counts[below(34)]++; break;
    }
}

/* ---- what the line says */

static size_t put_tiles(char *line, const uint8_t *counts) {
    size_t length = 0;
    for (int suit = 0; suit < 4; suit++) {
        size_t before = length;
        for (int at = 0; at < (suit < 3 ? 9 : 7); at++)
            for (int n = counts[suit * 9 + at]; n > 0; n--) line[length++] = (char)('1' + at);
        if (length > before) line[length++] = "mpsz"[suit];
    }
    return length;
}

/* ` open=..` of these melds, nothing for none: where it ends; NULL where a byte is no meld. */
static char *put_open(char *at, const uint8_t melds[4]) {
    static const char *const names[4] = {"chi:", "pon:", "kan:", "ankan:"};
    const char *join = " open=";
    for (int i = 0; i < 4; i++) {
        if (melds[i] == 0) continue;
        int sort = melds[i] / 64, kind = melds[i] % 64 - 1;
        if (kind < 0 || kind > 33 || (sort == 0 && (kind >= 27 || kind % 9 > 6))) return NULL;
        uint8_t counts[34] = {0};
        for (int j = 0; j < 3; j++) counts[sort == 0 ? kind + j : kind]++;
        if (sort > 1) counts[kind]++;
        at += sprintf(at, "%s%s", join, names[sort]);
        at += put_tiles(at, counts);
        join = ",";
    }
    return at;
}

/* The line of a row; 0 where the row can't be written. */
static size_t put_line(char *line, const char *job, const struct row *row, int is_melded, int is_seen) {
    for (int kind = 0; kind < 34; kind++) if (row->counts[kind] > 4 || (is_seen && row->seen[kind] > 4)) return 0;
    char *at = line + sprintf(line, "%s ", job);
    size_t tiles = put_tiles(at, row->counts);
    if (tiles == 0) return 0;
    at += tiles;
    if (is_melded && !(at = put_open(at, row->melds))) return 0;
    uint8_t none[34] = {0};
    if (is_seen && memcmp(row->seen, none, 34) != 0) {
        at += sprintf(at, " seen=");
        at += put_tiles(at, row->seen);
    }
    return (size_t)(at - line);
}

static int kind_at(const char *text) {
    return text[0] - '1' + 9 * (text[1] == 'm' ? 0 : text[1] == 'p' ? 1 : text[1] == 's' ? 2 : 3);
}

/* `2p:4 5p:4 live 8`, or `- live 0` */
static char *read_kinds(char *at, uint64_t *kinds, uint8_t *copies, long *live) {
    for (*kinds = 0; strncmp(at, "live ", 5) != 0; at++) {
        if (*at == '-') { at++; continue; }
        int kind = kind_at(at);
        *kinds |= (uint64_t)1 << kind;
        long n = strtol(at + 3, &at, 10);
        if (copies) copies[kind] = (uint8_t)n;
    }
    *live = strtol(at + 5, &at, 10);
    return at;
}

static char *answer_of(const char *line, size_t length) {
    static char answer[RIICHI_MOST_ANSWER + 1];
    size_t filled = riichi_answer(RIICHI_RULES_ONE, (const uint8_t *)line, length, (uint8_t *)answer, RIICHI_MOST_ANSWER);
    answer[filled] = 0;
    return answer;
}

static void read_told(struct told *told, const struct row *row, int is_melded, int is_seen) {
    char line[4096];
    long live;
    memset(told, 0, sizeof *told);
    told->waits = RIICHI_NO_WAITS, told->shanten = RIICHI_NO_HAND;
    size_t length = put_line(line, "waits", row, is_melded, 0);
    if (length > 0) {
        char *at = answer_of(line, length);
        if (strncmp(at, "waits ", 6) == 0) {
            told->waits = 0;
            for (at += 6; *at && *at != '-'; at++) {
                char *suit = at;
                while (*suit >= '1' && *suit <= '9') suit++;
                for (; at < suit; at++) {
                    char text[3] = {*at, *suit, 0};
                    told->waits |= (uint64_t)1 << kind_at(text);
                }
            }
        }
    }
    length = put_line(line, "shape", row, is_melded, is_seen);
    if (length == 0) return;
    char *at = answer_of(line, length);
    if (strncmp(at, "shanten ", 8) != 0) return;
    told->is_shape = 1;
    told->shanten = (int)strtol(at + 8, &at, 10);
    told->tiles = strncmp(at, " accepts ", 9) == 0 ? 13 : 14;
    if (told->tiles == 13) {
        read_kinds(at + 9, &told->accepts, told->copies, &live);
        return;
    }
    while (strncmp(at, " discard ", 9) == 0) {
        int kind = kind_at(at + 9);
        told->kinds |= (uint64_t)1 << kind;
        at = read_kinds(at + 9 + 2 + 9, &told->after[kind], NULL, &live);
        told->live[kind] = (uint8_t)live;
    }
    CHECK(*at == 0);
}

/* ---- the calls */

static size_t some_rows(size_t hands) {
    return below(3) ? hands : below(2) ? hands + below(5) : below(hands + 1);
}

static size_t lesser(size_t a, size_t b) { return a < b ? a : b; }

static struct lender lenders[7];
static const uint8_t (*counts)[34], (*melds)[4], (*seen)[34];

static void lend_rows(size_t hands) {
    uint8_t *at = lend(&lenders[0], hands * 34, 1), *of_melds = lend(&lenders[1], melds_given * 4, 1);
    uint8_t *of_seen = lend(&lenders[2], seen_given * 34, 1);
    for (size_t i = 0; i < hands; i++) memcpy(at + i * 34, rows[i].counts, 34);
    for (size_t i = 0; i < melds_given; i++) memcpy(of_melds + i * 4, rows[i % (hands + 1)].melds, 4);
    for (size_t i = 0; i < seen_given; i++) memcpy(of_seen + i * 34, rows[i % (hands + 1)].seen, 34);
    counts = (const void *)at, melds = (const void *)of_melds, seen = (const void *)of_seen;
}

static void try_shantens(size_t hands) {
    size_t places = some_rows(hands), done = lesser(hands, places);
    int8_t *shanten = lend(&lenders[3], places, 1);
    CHECK(riichi_shantens(counts, hands, melds, melds_given, shanten, places) == done);
    for (size_t i = 0; i < done; i++) {
        struct told alone;
        read_told(&alone, &rows[i], i < melds_given, 0);
        CHECK(shanten[i] == alone.shanten);
    }
    CHECK(is_untouched((uint8_t *)shanten + done, places - done));
}

static void try_waits(size_t hands) {
    size_t places = some_rows(hands), done = lesser(hands, places);
    uint64_t *kinds = lend(&lenders[3], places * 8, 8);
    CHECK(riichi_waits_of(counts, hands, melds, melds_given, kinds, places) == done);
    for (size_t i = 0; i < done; i++) CHECK(kinds[i] == wanted[i].waits);
    CHECK(is_untouched((uint8_t *)(kinds + done), (places - done) * 8));
}

static void try_shapes(size_t hands) {
    size_t n[3], done = hands;
    for (int i = 0; i < 3; i++) n[i] = some_rows(hands), done = lesser(done, n[i]);
    int8_t *shanten = lend(&lenders[3], n[0], 1);
    uint64_t *accepts = lend(&lenders[4], n[1] * 8, 8);
    uint8_t (*live)[34] = lend(&lenders[5], n[2] * 34, 1);
    CHECK(riichi_shapes(counts, hands, melds, melds_given, seen, seen_given, shanten, n[0], accepts, n[1], live, n[2]) == done);
    for (size_t i = 0; i < done; i++) {
        const struct told *told = &wanted[i];
        int is = told->is_shape && told->tiles == 13;
        CHECK(shanten[i] == (is ? told->shanten : RIICHI_NO_HAND));
        CHECK(accepts[i] == told->accepts && memcmp(live[i], told->copies, 34) == 0);
    }
    CHECK(is_untouched((uint8_t *)shanten + done, n[0] - done) && is_untouched((uint8_t *)(accepts + done), (n[1] - done) * 8));
    CHECK(is_untouched((uint8_t *)(live + done), (n[2] - done) * 34));
}

static void try_discards(size_t hands) {
    size_t n[4], done = hands;
    for (int i = 0; i < 4; i++) n[i] = some_rows(hands), done = lesser(done, n[i]);
    int8_t *shanten = lend(&lenders[3], n[0], 1);
    uint64_t *kinds = lend(&lenders[4], n[1] * 8, 8), (*accepts)[34] = lend(&lenders[5], n[2] * 34 * 8, 8);
    uint8_t (*live)[34] = lend(&lenders[6], n[3] * 34, 1);
    size_t told_rows = riichi_discards(
        counts, hands, melds, melds_given, seen, seen_given, shanten, n[0], kinds, n[1], accepts, n[2], live, n[3]);
    CHECK(told_rows == done);
    for (size_t i = 0; i < done; i++) {
        const struct told *told = &wanted[i];
        int is = told->is_shape && told->tiles == 14;
        CHECK(shanten[i] == (is ? told->shanten : RIICHI_NO_HAND) && kinds[i] == told->kinds);
        CHECK(memcmp(accepts[i], told->after, sizeof told->after) == 0 && memcmp(live[i], told->live, 34) == 0);
    }
    CHECK(is_untouched((uint8_t *)shanten + done, n[0] - done) && is_untouched((uint8_t *)(kinds + done), (n[1] - done) * 8));
    CHECK(is_untouched((uint8_t *)(accepts + done), (n[2] - done) * 34 * 8));
    CHECK(is_untouched((uint8_t *)(live + done), (n[3] - done) * 34));
}

static void try_rows(void) {
    size_t hands = below(20) == 0 ? below(MOST_ROWS) : below(40);
    melds_given = some_rows(hands), seen_given = below(2) ? 0 : some_rows(hands);
    for (size_t i = 0; i < hands; i++) put_row(&rows[i]);
    memset(&rows[hands], 0, sizeof rows[hands]);
    for (size_t i = 0; i < hands; i++) read_told(&wanted[i], &rows[i], i < melds_given, i < seen_given);
    lend_rows(hands);
    try_shantens(hands);
    try_waits(hands);
    try_shapes(hands);
    try_discards(hands);
    for (size_t i = 0; i < hands; i++) CHECK(memcmp(counts[i], rows[i].counts, 34) == 0);
}

/* ---- wins */

static struct riichi_win wins[MOST_ROWS];

static int take_set(uint8_t *counts, int *left) {
    int kind = (int)below(34), is_run = kind < 27 && kind % 9 < 7 && below(3) > 0;
    for (int i = 0; i < 3; i++) if (left[is_run ? kind + i : kind] < (is_run ? 1 : 3)) return 0;
    for (int i = 0; i < 3; i++) counts[is_run ? kind + i : kind]++, left[is_run ? kind + i : kind]--;
    return 1;
}

static void take_pairs(uint8_t *counts, int *left, size_t pairs) {
    while (pairs > 0) {
        size_t kind = below(34);
        if (left[kind] >= 2 && counts[kind] == 0) left[kind] -= 2, counts[kind] += 2, pairs--;
    }
}

static void put_indicators(uint8_t *bytes, int *left) {
    for (size_t n = below(6), tries = 0; n > 0 && tries < 100; tries++) {
        size_t kind = below(34);
        if (left[kind] > 0) left[kind]--, bytes[--n] = RIICHI_INDICATOR(kind);
    }
}

static void put_circumstances(struct riichi_win *win) {
    win->by = (uint8_t)below(2), win->seat = (uint8_t)below(4), win->round = (uint8_t)below(4);
    win->riichi = (uint8_t)(below(2) ? below(3) : 0);
    uint8_t *const flags[5] = {&win->ippatsu, &win->rinshan, &win->chankan, &win->last, &win->first};
    for (size_t i = below(3) == 0 ? 1 + below(2) : 0; i > 0; i--) *flags[below(5)] = (uint8_t)(1 + below(below(2) ? 1 : 255));
    if (below(3) == 0) win->counters = (uint8_t)below(101), win->sticks = (uint8_t)below(101);
    for (int suit = 0; suit < 3; suit++) win->reds[suit] = (uint8_t)(below(2) ? 0 : below(below(4) ? 2 : 6));
}

static void put_win(struct riichi_win *win) {
    int left[34];
    for (int kind = 0; kind < 34; kind++) left[kind] = 4;
    struct row row;
    memset(win, 0, sizeof *win);
    put_melds(&row, left);
    memcpy(win->melds, row.melds, 4);
    size_t sets = 4;
    for (int i = 0; i < 4; i++) sets -= row.melds[i] != 0;
    int is_pairs = sets == 4 && below(8) == 0;
    for (size_t tries = 0; !is_pairs && sets > 0 && tries < 1000; tries++) sets -= (size_t)take_set(win->concealed, left);
    take_pairs(win->concealed, left, is_pairs ? 7 : 1);
    if (below(8) == 0) take(win->concealed, left, 1), win->concealed[below(34)] /= 2;
    for (size_t kind = below(34), tries = 0; tries < 34; kind = (kind + 1) % 34, tries++) {
        if (win->concealed[kind] == 0) continue;
        win->concealed[kind]--, win->winning = (uint8_t)kind;
        break;
    }
    put_circumstances(win);
    put_indicators(win->dora, left);
    if (win->riichi > 0 || below(16) == 0) put_indicators(win->ura, left);
    if (below(8) == 0) ((uint8_t *)win)[below(sizeof *win)] = (uint8_t)(below(2) ? random_number() : below(36));
}

/* The indicators of a row as counts; 0 where a byte is none. */
static int read_indicators(uint8_t *counts, const uint8_t bytes[5]) {
    memset(counts, 0, 34);
    for (int i = 0; i < 5; i++) {
        if (bytes[i] > 34) return 0;
        if (bytes[i] > 0 && ++counts[bytes[i] - 1] > 4) return 0;
    }
    return 1;
}

/* Writes so many fives of a text as red ones: how many are left. */
static void put_reds(char *text, uint8_t reds[3]) {
    for (char *at = text; *at; at++) {
        if (*at != '5') continue;
        const char *letter = at;
        while (*letter >= '0' && *letter <= '9') letter++;
        int suit = *letter == 'm' ? 0 : *letter == 'p' ? 1 : *letter == 's' ? 2 : 3;
        if (suit < 3 && reds[suit] > 0) *at = '0', reds[suit]--;
    }
}

/* The line of a win, and how many red fives it has no five for; 0 where a number is in no table. */
static size_t put_win_line(char *line, const struct riichi_win *win, int *reds_over) {
    static const char *const flag_names[5] = {"ippatsu", "rinshan", "chankan", "last", "first"};
    uint8_t on[34] = {0}, dora[34], ura[34], reds[3], none[34] = {0};
    if (win->winning > 33 || win->by > 1 || win->seat > 3 || win->round > 3 || win->zero != 0) return 0;
    if (!read_indicators(dora, win->dora) || !read_indicators(ura, win->ura)) return 0;
    for (int kind = 0; kind < 34; kind++) if (win->concealed[kind] > 4) return 0;
    for (int suit = 0; suit < 3; suit++) if ((reds[suit] = win->reds[suit]) > 4) return 0;
    on[win->winning] = 1;
    char *at = line + sprintf(line, "win ");
    at += put_tiles(at, win->concealed);
    at += sprintf(at, " on=");
    at += put_tiles(at, on);
    if (!(at = put_open(at, win->melds))) return 0;
    *at = 0;
    put_reds(line, reds);
    *reds_over = reds[0] + reds[1] + reds[2];
    at += sprintf(at, " by=%s seat=%c round=%c", win->by ? "tsumo" : "ron", "ESWN"[win->seat], "ESWN"[win->round]);
    if (win->riichi) at += sprintf(at, " riichi=%d", win->riichi);
    const uint8_t flags[5] = {win->ippatsu, win->rinshan, win->chankan, win->last, win->first};
    const char *join = " flags=";
    for (int i = 0; i < 5; i++) if (flags[i]) at += sprintf(at, "%s%s", join, flag_names[i]), join = ",";
    if (memcmp(dora, none, 34) != 0) at += sprintf(at, " dora="), at += put_tiles(at, dora);
    if (memcmp(ura, none, 34) != 0) at += sprintf(at, " ura="), at += put_tiles(at, ura);
    if (win->counters) at += sprintf(at, " counters=%d", win->counters);
    if (win->sticks) at += sprintf(at, " sticks=%d", win->sticks);
    return (size_t)(at - line);
}

/* The number behind a name; 0 without one. */
static uint32_t number_at(const char *object, const char *name) {
    const char *at = strstr(object, name);
    return at ? (uint32_t)strtol(at + strlen(name), NULL, 10) : 0;
}

static struct riichi_score score_of(uint32_t rules, const struct riichi_win *win) {
    static char line[4096], object[RIICHI_MOST_JSON + 1];
    struct riichi_score score;
    memset(&score, 0, sizeof score);
    int reds_over = 0;
    size_t length = put_win_line(line, win, &reds_over);
    score.told = 4;
    if (length == 0) return score;
    if (line[4] == ' ') { /* (no line has an empty hand) */
        if (win->riichi <= 2 && win->counters <= 99 && win->sticks <= 99) score.told = 8;
        return score;
    }
    object[riichi_json(rules, (const uint8_t *)line, length, (uint8_t *)object, RIICHI_MOST_JSON)] = 0;
    if ((score.told = (uint8_t)number_at(object, "\"code\":\"H")) > 0) return score;
    if (reds_over > 0 && rules == RIICHI_RULES_TWO) score.told = 16;
    else if (strstr(object, "no win")) score.told = RIICHI_NO_WIN;
    else if (strstr(object, "no yaku")) score.told = RIICHI_NO_YAKU;
    else CHECK(strstr(object, "\"won\""));
    if (score.told > 0) return score;
    score.told = RIICHI_WON;
    score.han = (uint8_t)number_at(object, "\"han\":"), score.fu = (uint8_t)number_at(object, "\"fu\":");
    score.dora = (uint8_t)number_at(object, "\"dora\":"), score.base = number_at(object, "\"base\":");
    score.gain = number_at(object, "\"gain\":"), score.discarder = number_at(object, "\"discarder\":");
    score.dealer = number_at(object, "\"dealer\":");
    score.other = number_at(object, "\"each_other\":") + number_at(object, "\"each\":");
    for (const char *at = object; (at = strstr(at, "\"number\":")); at++) score.yaku |= (uint64_t)1 << number_at(at, "\"number\":");
    return score;
}

static void try_wins(void) {
    size_t hands = below(20) == 0 ? below(MOST_ROWS) : below(40), places = some_rows(hands), done = lesser(hands, places);
    uint32_t rules = (uint32_t)(1 + below(2));
    for (size_t i = 0; i < hands; i++) put_win(&wins[i]);
    struct riichi_win *rows_of_wins = lend(&lenders[0], hands * sizeof *wins, 1);
    struct riichi_score *scores = lend(&lenders[3], places * sizeof *scores, 8);
    memcpy(rows_of_wins, wins, hands * sizeof *wins);
    CHECK(riichi_wins(3, rows_of_wins, hands, scores, places) == 0 && is_untouched((uint8_t *)scores, places * sizeof *scores));
    CHECK(riichi_wins(rules, rows_of_wins, hands, scores, places) == done);
    for (size_t i = 0; i < done; i++) {
        struct riichi_score wanted_score = score_of(rules, &wins[i]);
        CHECK(memcmp(&scores[i], &wanted_score, sizeof wanted_score) == 0);
    }
    CHECK(is_untouched((uint8_t *)(scores + done), (places - done) * sizeof *scores));
    CHECK(memcmp(rows_of_wins, wins, hands * sizeof *wins) == 0);
}

int main(int count, char **words) {
    if (count != 3) { fprintf(stderr, "arrays SECONDS SEED\n"); return 2; }
    time_t end = time(NULL) + atoi(words[1]);
    seed_of_try = strtoull(words[2], NULL, 10);
    for (int i = 0; i < 7; i++) lenders[i] = new_lender();
    unsigned long long tries = 0;
    for (; tries == 0 || tries % 16 != 0 || time(NULL) < end; tries++, seed_of_try++) {
        state = seed_of_try;
        try_rows();
        try_wins();
    }
    printf("%llu calls of each, no difference\n", tries);
    return 0;
}
