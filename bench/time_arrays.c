/* time_arrays LINES13 LINES14 WINLINES COUNTS13 COUNTS14 WINS: what a hand costs in C by each kind of call, as `NAME NANOSECONDS` lines.
 * The files have the same hands as lines and as 34 bytes each, and the same wins as lines and as 64 bytes each. Each figure is the least processor time of RUNS. */
#include <riichi_desk.h>
#include <stdio.h>
#include <stdlib.h>
#include <string.h>
#include <time.h>

#define RUNS 5

struct file { uint8_t *bytes; size_t length; };

static struct file read_file(const char *path) {
    FILE *file = fopen(path, "rb");
    if (!file) { perror(path); exit(2); }
    fseek(file, 0, SEEK_END);
    struct file it = {NULL, (size_t)ftell(file)};
    rewind(file);
    it.bytes = malloc(it.length + 1);
    if (fread(it.bytes, 1, it.length, file) != it.length) exit(2);
    fclose(file);
    return it;
}

static double now(void) {
    struct timespec time;
    clock_gettime(CLOCK_PROCESS_CPUTIME_ID, &time);
    return (double)time.tv_sec * 1e9 + (double)time.tv_nsec;
}

static uint8_t room[1 << 20];
static size_t hands;
static const uint8_t (*counts)[34], melds[1][4], seen[1][34];
static struct file text;
static int8_t *shanten;
static uint64_t *kinds, (*after)[34];
static uint8_t (*live)[34];

static void call_a_line(void) {
    for (uint8_t *at = text.bytes, *end = at + text.length, *feed; at < end; at = feed + 1) {
        feed = memchr(at, '\n', (size_t)(end - at));
        riichi_answer(RIICHI_RULES_ONE, at, (size_t)(feed - at), room, sizeof room);
    }
}

static void many_lines(void) {
    for (size_t start = 0, taken; start < text.length; start += taken)
        riichi_answer_lines(RIICHI_RULES_ONE, text.bytes + start, text.length - start, room, sizeof room, &taken);
}

static void call_a_hand(void) {
    for (size_t i = 0; i < hands; i++) riichi_shapes(counts + i, 1, melds, 0, seen, 0, shanten + i, 1, kinds + i, 1, live + i, 1);
}

static void shantens(void) { riichi_shantens(counts, hands, melds, 0, shanten, hands); }
static void waits(void) { riichi_waits_of(counts, hands, melds, 0, kinds, hands); }
static void shapes(void) { riichi_shapes(counts, hands, melds, 0, seen, 0, shanten, hands, kinds, hands, live, hands); }

static void discards(void) {
    riichi_discards(counts, hands, melds, 0, seen, 0, shanten, hands, kinds, hands, after, hands, live, hands);
}

static struct riichi_score *scores;

static void win_a_call(void) {
    for (size_t i = 0; i < hands; i++) riichi_wins(RIICHI_RULES_ONE, (const struct riichi_win *)counts + i, 1, scores + i, 1);
}

static void wins(void) { riichi_wins(RIICHI_RULES_ONE, (const struct riichi_win *)counts, hands, scores, hands); }

/* Each two wins as a deal with two hands: two players win off a third, in a game that begins anew each time. */
static void deals(void) {
    struct riichi_table table;
    struct riichi_progress first, progress;
    const struct riichi_win *hand = (const struct riichi_win *)counts;
    uint32_t fault;
    riichi_game_table(RIICHI_CLUB, &table);
    riichi_game_first(&table, &first);
    for (size_t i = 0; i + 1 < hands; i += 2) {
        struct riichi_outcome ron = {.kind = RIICHI_RON, .player = 2};
        riichi_game_worth(&table, &first, 0, RIICHI_RON, hand + i, &ron.wins[0]);
        riichi_game_worth(&table, &first, 1, RIICHI_RON, hand + i + 1, &ron.wins[1]);
        progress = first;
        riichi_game_after(&table, &progress, &ron, 1, &fault);
    }
}

static void tell(const char *name, void (*work)(void)) {
    double least = 1e30;
    for (int run = 0; run < RUNS; run++) {
        double start = now();
        work();
        double spent = now() - start;
        if (spent < least) least = spent;
    }
    printf("%s\t%.1f\n", name, least / (double)hands);
}

static void use(const char *lines, const char *bytes, size_t width) {
    struct file rows = read_file(bytes);
    text = read_file(lines);
    counts = (const void *)rows.bytes;
    hands = rows.length / width;
    scores = malloc(hands * sizeof *scores);
    shanten = malloc(hands), kinds = malloc(hands * 8), live = malloc(hands * 34), after = malloc(hands * 34 * 8);
}

int main(int count, char **words) {
    if (count != 7) { fprintf(stderr, "time_arrays LINES13 LINES14 WINLINES COUNTS13 COUNTS14 WINS\n"); return 2; }
    use(words[1], words[4], 34);
    tell("C, lines of 13 tiles, a call each", call_a_line);
    tell("C, lines of 13 tiles, one call", many_lines);
    tell("C, shapes of 13 tiles, a call each", call_a_hand);
    tell("C, shapes of 13 tiles, one call", shapes);
    tell("C, shanten of 13 tiles, one call", shantens);
    tell("C, waits of 13 tiles, one call", waits);
    use(words[2], words[5], 34);
    tell("C, lines of 14 tiles, a call each", call_a_line);
    tell("C, lines of 14 tiles, one call", many_lines);
    tell("C, discards of 14 tiles, one call", discards);
    tell("C, shanten of 14 tiles, one call", shantens);
    use(words[3], words[6], sizeof(struct riichi_win));
    tell("C, lines of wins, a call each", call_a_line);
    tell("C, lines of wins, one call", many_lines);
    tell("C, wins, a call each", win_a_call);
    tell("C, wins, one call", wins);
    tell("C, wins, two a deal of a game", deals);
    return 0;
}
