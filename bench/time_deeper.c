/* time_deeper [DEALS]: what second and good of all best discards of fourteen tiles cost beside the shape of these tiles, and what the
 * calls of one thrown tile do, by shanten: of hands dealt from a fixed seed, many a call and a call each. Processor time, the least of
 * RUNS. The script time_deeper builds it; README.md has what it told. */
#include <riichi_desk.h>
#include <stdio.h>
#include <stdlib.h>
#include <string.h>
#include <time.h>

#define RUNS 5
#define MOST 1000

typedef uint8_t counts_row[34];

static counts_row hands[MOST], rests[MOST * 14], thrown_seen[MOST * 14], called[MOST];
static uint8_t no_melds[1][4], none_seen[1][34], thrown[MOST][2];
static size_t count, rest_count, ends[MOST];

static int8_t shanten[MOST * 14];
static uint64_t best[MOST], after[MOST][34], call_kinds[MOST][4];
static uint8_t live[MOST][34], good[MOST * 14], melds_called[MOST][4], call_live[MOST][4][34];
static uint16_t second[MOST * 14];

static uint64_t state = 88172645463325252u;

static unsigned below(unsigned bound) {
    state ^= state << 13, state ^= state >> 7, state ^= state << 17;
    return (unsigned)((state >> 33) % bound);
}

static void deal(uint8_t *hand) {
    memset(hand, 0, 34);
    for (int held = 0; held < 14;) {
        unsigned kind = below(34);
        if (below(4) < 4u - hand[kind]) hand[kind]++, held++;
    }
}

/* Hands of this shanten, as many as so many deals bring; what each best discard leaves; and a tile that such a rest accepts. */
static void gather(int wanted, size_t deals) {
    count = rest_count = 0;
    for (size_t i = 0; i < deals && count < MOST; i++) {
        deal(hands[count]);
        riichi_discards(hands + count, 1, no_melds, 0, none_seen, 0, shanten, 1, best + count, 1, after + count, 1, live + count, 1);
        if (shanten[0] != wanted) continue;
        uint64_t accepted = 0;
        for (unsigned kind = 0; kind < 34; kind++) {
            if (!(best[count] >> kind & 1)) continue;
            memcpy(rests[rest_count], hands[count], 34);
            memset(thrown_seen[rest_count], 0, 34);
            rests[rest_count][kind]--, thrown_seen[rest_count][kind]++;
            if (!accepted && after[count][kind]) {
                accepted = after[count][kind];
                memcpy(called[count], rests[rest_count], 34);
            }
            rest_count++;
        }
        unsigned tile = below(34);
        while (!(accepted >> tile & 1)) tile = (tile + 1) % 34;
        thrown[count][0] = (uint8_t)tile, thrown[count][1] = RIICHI_FROM_LEFT;
        ends[count++] = rest_count;
    }
}

static void shapes(void) {
    riichi_discards(hands, count, no_melds, 0, none_seen, 0, shanten, count, best, count, after, count, live, count);
}

static void outlooks(void) {
    riichi_deeper(rests, rest_count, no_melds, 0, thrown_seen, rest_count, shanten, rest_count, second, rest_count, good, rest_count);
}

static void calls(void) {
    riichi_calls(called, count, no_melds, 0, none_seen, 0, thrown, count, melds_called, count, call_kinds, count, call_live, count);
}

static void shape_a_call(void) {
    for (size_t i = 0; i < count; i++)
        riichi_discards(hands + i, 1, no_melds, 0, none_seen, 0, shanten, 1, best + i, 1, after + i, 1, live + i, 1);
}

static void outlooks_a_call(void) {
    for (size_t i = 0, start = 0; i < count; start = ends[i++]) {
        size_t rows = ends[i] - start;
        riichi_deeper(rests + start, rows, no_melds, 0, thrown_seen + start, rows, shanten, rows, second, rows, good, rows);
    }
}

static void calls_a_call(void) {
    for (size_t i = 0; i < count; i++)
        riichi_calls(called + i, 1, no_melds, 0, none_seen, 0, thrown + i, 1, melds_called, 1, call_kinds, 1, call_live, 1);
}

/* Nanoseconds of each hand. */
static double least(void (*work)(void)) {
    double least = 1e30;
    for (int run = 0; run < RUNS; run++) {
        struct timespec start, end;
        clock_gettime(CLOCK_PROCESS_CPUTIME_ID, &start);
        work();
        clock_gettime(CLOCK_PROCESS_CPUTIME_ID, &end);
        double spent = (double)(end.tv_sec - start.tv_sec) * 1e9 + (double)(end.tv_nsec - start.tv_nsec);
        if (spent < least) least = spent;
    }
    return least / (double)count;
}

static void tell(int wanted, const char *how, double shape, double outlook, double call) {
    printf("| %d, %s | %zu | %.0f ns | %.0f ns, %.1f | %.0f ns, %.1f |\n", wanted, how, count, shape, shape + outlook, (shape + outlook) / shape,
        call, call / shape);
}

int main(int words, char **word) {
    size_t deals = words > 1 ? strtoul(word[1], NULL, 10) : 200000;
    printf("| Shanten | Hands | A shape | With second and good of all best discards, times | Calls of one tile, times |\n|---|---|---|---|---|\n");
    for (int wanted = 1; wanted < 5; wanted++) {
        gather(wanted, deals);
        if (!count) continue;
        tell(wanted, "many a call", least(shapes), least(outlooks), least(calls));
        tell(wanted, "a call each", least(shape_a_call), least(outlooks_a_call), least(calls_a_call));
    }
    return 0;
}
