/* riichi_desk for C and C++: the answers of the command `line`, a line or many lines a call, many hands or wins a call as arrays,
 * and the ledger of a game of four, as values and as a text.
 *
 * Link with libriichi_desk_c.a and the C library: they run on every processor of x86-64 under Linux. No call keeps anything or takes
 * memory, so any thread may make any of them at any time, where what it fills is its own and its stack has the space that the call
 * names. Of the C library they use memcpy, memmove and memset alone, and of the compiler's own library, which each compiler links by
 * itself, what divides numbers of 128 bits.
 *
 * Each pointer must be valid for as many bytes, or rows of an array, as its length says, and not null even where that is 0. What a
 * call fills must overlap nothing else that is lent, and no other thread may use it meanwhile. The library can't test these.
 */
#ifndef RIICHI_DESK_H
#define RIICHI_DESK_H

#include <stddef.h>
#include <stdint.h>

#ifdef __cplusplus
extern "C" {
#endif

/* No answer takes more bytes, so a room of this size always has space for it. */
#define RIICHI_MOST_ANSWER 3072

/* No answer takes more bytes as JSON. */
#define RIICHI_MOST_JSON 12288

/* No explanation takes more bytes. */
#define RIICHI_MOST_EXPLANATION 4608

/* No answer to a question of a player takes more bytes. */
#define RIICHI_MOST_STUDY 65536

/* The rule profiles, as docs/RULES.md has them. */
#define RIICHI_RULES_ONE 1
#define RIICHI_RULES_TWO 2

/* The rules of a house: RIICHI_HOUSE and each of these that is on, joined by |. docs/RULES.md has each with a hand. Those of the
 * first profile are RIICHI_HOUSE_ONE, so RIICHI_HOUSE_ONE | RIICHI_RED_FIVES is the first profile with red fives, and
 * RIICHI_HOUSE_ONE & ~RIICHI_URA the first without the indicators below. */
#define RIICHI_HOUSE            0x10000
#define RIICHI_RED_FIVES        0x001
#define RIICHI_RAISE            0x002
#define RIICHI_ADD_YAKUMAN      0x004
#define RIICHI_DOUBLE_YAKUMAN   0x008
#define RIICHI_COUNTED_YAKUMAN  0x010
#define RIICHI_DOUBLE_WIND_PAIR 0x020
#define RIICHI_KONG_DRAW_FU     0x040
#define RIICHI_OPEN_SIMPLES     0x080
#define RIICHI_OPEN_PINFU_FU    0x100
#define RIICHI_IPPATSU          0x200
#define RIICHI_URA              0x400
#define RIICHI_BLESSING_OF_MAN  0x800
#define RIICHI_HOUSE_ONE        0x107f0

/* The number of the rules that a text names, as answers and the option --rules have them: `2`, or a profile with changes, as
 * `1+red-fives-ura`. It is that of the rules of a house, also for a profile. Where the text names none it is 0, and `*wrong` is set
 * to the place of the first wrong word, in bytes from 0; else that stays as it is. */
uint32_t riichi_rules(const uint8_t *text, size_t text_len, size_t *wrong);

/* Answers one line: a win, a hand's waits or a shape, as docs/NOTATION.md says them.
 *
 *   rules     RIICHI_RULES_ONE, RIICHI_RULES_TWO or rules of a house. Any other number is answered by `refused rules`.
 *   line      The bytes of the line, without its line feed and a carriage return before that. Any bytes are answered, those
 *             of no hand by `refused ..`.
 *   room      Where the answer goes, without a line feed and without a final zero.
 *
 * Returns how many bytes the answer takes; 0 where the line is a comment or blank, and has no answer. Where the answer is
 * longer than `room_len`, the room stays as it is, and a call with a room of the returned size gives it.
 *
 * A line `rules 2` is no profile here, but a line like any other, and refused: a program passes the number.
 */
size_t riichi_answer(uint32_t rules, const uint8_t *line, size_t line_len, uint8_t *room, size_t room_len);

/* Answers one line as `riichi_answer` does, but as one object of JSON, on one line and without a final zero:
 *
 *   {"answer":"waits","kinds":["2p","5p"]}
 *
 * docs/NOTATION.md says what each member means, and docs/answer.schema.json is the JSON Schema. What is refused is an
 * object too, with the code, the key and the place of the line that are at fault where it has them, and what may stand there:
 *
 *   {"answer":"refused","code":"H4","key":"seat","at":44,"length":6,"words":"a seat is E, S, W or N"}
 *
 * Where `rules` is neither a profile's number nor rules of a house it is `{"answer":"refused","code":"rules"}`; that of a win under the rules of a house names
 * them: `{"answer":"no win","rules":"1+red-fives"}`. Sizes and returns are as above.
 */
size_t riichi_json(uint32_t rules, const uint8_t *line, size_t line_len, uint8_t *room, size_t room_len);

/* Answers one line as `riichi_json` does, and says of a win why it is answered so: its object has one member more at its end,
 *
 *   {"answer":"no win","why":{"waits":["2p","5p"],"shanten":{"standard":0,"seven_pairs":5,"thirteen_orphans":10}}}
 *
 * docs/NOTATION.md has the members of `why`, of a hand that scores the reading, the rows that add up to its score, and what each
 * other reading is worth. Sizes and returns are as above, and no object takes more than RIICHI_MOST_JSON bytes.
 */
size_t riichi_explain_json(uint32_t rules, const uint8_t *line, size_t line_len, uint8_t *room, size_t room_len);

/* Says why one line is answered as it is: the lines that the command `explain` writes behind its answer, each of which begins
 * with two spaces and ends with a line feed (docs/NOTATION.md, "Explanations"). Rules, line and room are those of `riichi_answer`.
 *
 * Returns how many bytes these lines take; 0 where the line is no record.
 */
size_t riichi_explain(uint32_t rules, const uint8_t *line, size_t line_len, uint8_t *room, size_t room_len);

/* A place for a hand that another may come to, and the numbers of such a hand. What they hold is the library's; before the first call
 * all of their bytes are 0, as calloc leaves them. */
typedef struct riichi_hand_place {
    uint16_t held[564];
} riichi_hand_place;

typedef struct riichi_hand_rows {
    uint64_t held[152];
} riichi_hand_rows;

typedef struct riichi_worth_row {
    uint64_t held[57];
} riichi_worth_row;

/* Answers one question of a player as one object of JSON (docs/NOTATION.md, "Questions of a player"; docs/study.schema.json): what stands
 * beyond a hand's next step, which calls bring it nearer, what is safe, how likely it is to be ready, and to win, or what it is worth:
 *
 *   chances 123456789m1134p turns=2
 *
 *   line      The bytes of the line, as for `riichi_answer`; a line `rules 2` is refused like any other that asks nothing.
 *   places    Room for the hands that a hand may come to: places and rows for a question of chances, places and worths for one of a
 *   rows      worth; other questions want none. Of each two the lesser number counts, and no more than 65,535 of them. For two-shanten
 *   worths    512 do for nearly each hand, and for three-shanten 5,120. Where a hand may come to more, the object is
 *             {"answer":"refused","code":"places"}: it is asked once more with more.
 *   room      Where the object goes, as for `riichi_json`.
 *
 * Returns how many bytes the object takes; 0 where the line is a comment or blank. Each call has some 560 kB on the stack.
 */
size_t riichi_study(const uint8_t *line, size_t line_len, riichi_hand_place *places, size_t places_len, riichi_hand_rows *rows,
    size_t rows_len, riichi_worth_row *worths, size_t worths_len, uint8_t *room, size_t room_len);

/* Answers the lines of a text, from its start, as many as have room: each answer with a line feed behind it, and nothing for a
 * comment or a blank line. So what stands in the room is what the command `line` writes of these lines.
 *
 *   rules     RIICHI_RULES_ONE, RIICHI_RULES_TWO or rules of a house. Under any other number no line is answered.
 *   text      Lines, each ended by a line feed, the last maybe by the end of the text; one carriage return before that is no
 *             part of the line. A caller that reads in pieces cuts them behind a line feed. Unlike `line`, which takes the
 *             profile from a first line `rules 2`, the number alone says the profile here: such a line is refused.
 *   room      A call stops before the first line whose answer and line feed don't fit, or with the text. A room of
 *             RIICHI_MOST_ANSWER + 1 bytes always takes one line further; more is only faster.
 *   taken     Is set to how many bytes of the text are answered: whole lines. Where it is less than `text_len`, a call with
 *             the text from there on, and the room emptied, goes on. Where it is 0 and there is a text, the room is too
 *             small, or `rules` neither a profile's number nor rules of a house.
 *
 * Returns how many bytes of the room are filled; those behind them stay as they are. Each call has some 150 kB on the stack.
 *
 *     size_t start = 0, taken, filled;
 *     do {
 *         filled = riichi_answer_lines(RIICHI_RULES_ONE, text + start, length - start, room, sizeof room, &taken);
 *         fwrite(room, 1, filled, stdout);
 *         start += taken;
 *     } while (taken > 0 && start < length);
 */
size_t riichi_answer_lines(
    uint32_t rules, const uint8_t *text, size_t text_len, uint8_t *room, size_t room_len, size_t *taken);

/* The same, each answer as one object of JSON (`riichi_json`). A room of RIICHI_MOST_JSON + 1 bytes always takes one line
 * further. */
size_t riichi_json_lines(
    uint32_t rules, const uint8_t *text, size_t text_len, uint8_t *room, size_t room_len, size_t *taken);

/* The same as `riichi_answer_lines`, and behind each answer the lines that explain it (`riichi_explain`): what the command
 * `explain` writes. A room of RIICHI_MOST_ANSWER + 1 + RIICHI_MOST_EXPLANATION bytes always takes one line further. */
size_t riichi_explain_lines(
    uint32_t rules, const uint8_t *text, size_t text_len, uint8_t *room, size_t room_len, size_t *taken);

/* The same as `riichi_json_lines`, and each win with its reasons (`riichi_explain_json`): what `explain --json` writes. */
size_t riichi_explain_json_lines(
    uint32_t rules, const uint8_t *text, size_t text_len, uint8_t *room, size_t room_len, size_t *taken);

/* Answers the rows of an array of texts, one line each: the answer of each, without a line feed, and no bytes for a comment or a blank
 * line. Both arrays lie as Arrow's large_utf8 and large_binary do (polars, pyarrow, DuckDB, pandas' Arrow strings): row i of n has the
 * bytes from offsets[i] to offsets[i + 1], so there are n + 1 offsets.
 *
 *   rules     RIICHI_RULES_ONE, RIICHI_RULES_TWO or rules of a house. Under any other number each row is answered by `refused rules`.
 *   bytes     The texts, one behind the other. A row is a line without its line feed: with one in it, or a carriage return, it is refused, but a comment or a blank line has no answer.
 *   offsets   n + 1 numbers; `offsets_len` 0 or 1 is no row.
 *   room      Where the answers go, one behind the other.
 *   answer_offsets   Where each answer begins, and the last one ends: one place more than rows to be answered. The first is set to 0.
 *
 * Returns how many rows are answered, from the first on. Where these are fewer than n and than `answer_offsets_len` - 1, the next answer
 * has no room, or the next two offsets go back or beyond `bytes_len`. In a room with RIICHI_MOST_ANSWER bytes left it is the second. A call
 * with `offsets + rows` and another room goes on: what each call fills is an array of its own, a chunk. What is null by a validity
 * bitmap is the caller's matter.
 */
size_t riichi_answer_rows(uint32_t rules, const uint8_t *bytes, size_t bytes_len, const int64_t *offsets, size_t offsets_len,
    uint8_t *room, size_t room_len, int64_t *answer_offsets, size_t answer_offsets_len);

/* ---- Many hands as arrays
 *
 * These calls answer many hands at once, without any text: what `shape` and `waits` say of each, in columns.
 *
 * A hand is 34 counts, one for each kind: 1m to 9m, 1p to 9p, 1s to 9s, then East, South, West, North, white, green, red. So the
 * kind of 2p is 10, and bit 10 of a set of kinds says that 2p is in it. Counts are those of the concealed tiles: a meld counts
 * as three tiles, so beside one meld ten tiles are a hand of thirteen.
 *
 *   counts    The hands.
 *   melds     Four bytes for each hand, each a meld (RIICHI_CHI and so on) or 0 for none. Which tiles are melded counts: it
 *             says how many of a kind are left. Hands past the end have no melds, so `melds_len` 0 says that none has any.
 *   seen      34 counts for each hand, of the tiles seen elsewhere; none of its own tiles or melds. Past the end none is seen.
 *
 * Each length counts rows, not bytes. As many hands are answered as `counts` and each array that is filled have rows, from the
 * first on; the call returns how many, and leaves what lies behind them. A row that is no hand (a count above four, a meld that is
 * none, another number of tiles, a fifth tile of a kind) says so by a value of its own, and the others are answered all the same.
 *
 * A call of riichi_shantens or riichi_shapes for 128 hands or more, of riichi_discards for 16 or more, or of riichi_deeper or
 * riichi_calls for 4 or more, keeps what it finds of a suit for the next hands: one call for a thousand hands is several times faster than a thousand calls. For that it has some 440 kB
 * on its stack, which is more than a thread of musl has unless it is told otherwise; calls for fewer hands have 10 kB.
 * riichi_desk_portable.c answers by pieces of 480 hands, or 240 with discards or calls, and keeps nothing for the next piece.
 */

/* What a row that is no hand has for its shanten, and for its waits. */
#define RIICHI_NO_HAND (-128)
#define RIICHI_NO_WAITS UINT64_MAX

/* A meld as a byte: a chow by its lowest kind, a pung, an open kong, a concealed kong. */
#define RIICHI_CHI(kind) ((uint8_t)(1 + (kind)))
#define RIICHI_PON(kind) ((uint8_t)(65 + (kind)))
#define RIICHI_KAN(kind) ((uint8_t)(129 + (kind)))
#define RIICHI_ANKAN(kind) ((uint8_t)(193 + (kind)))

/* The shanten of hands of thirteen or fourteen tiles: -1 of a complete one, 0 of one that is ready, up to 6.
 *
 *     const uint8_t counts[1][34] = {{1, 1, 1, 1, 1, 1, 1, 1, 1, 2, 0, 1, 1}};      123456789m1134p
 *     const uint8_t melds[1][4] = {{0}};
 *     int8_t shanten[1];
 *     riichi_shantens(counts, 1, melds, 0, shanten, 1);                             shanten[0] is 0
 */
size_t riichi_shantens(const uint8_t (*counts)[34], size_t counts_len, const uint8_t (*melds)[4], size_t melds_len,
    int8_t *shanten, size_t shanten_len);

/* What hands of thirteen tiles accept.
 *
 *   shanten   As above; RIICHI_NO_HAND also where the row has fourteen tiles.
 *   accepts   The kinds that bring the hand nearer and of which a tile is left, a bit for each; 0 where the row is no hand.
 *   live      For each of these kinds how many tiles are neither in the hand, nor melded, nor seen; 0 for every other.
 */
size_t riichi_shapes(const uint8_t (*counts)[34], size_t counts_len, const uint8_t (*melds)[4], size_t melds_len,
    const uint8_t (*seen)[34], size_t seen_len, int8_t *shanten, size_t shanten_len, uint64_t *accepts, size_t accepts_len,
    uint8_t (*live)[34], size_t live_len);

/* Which tile to discard from hands of fourteen tiles.
 *
 *   shanten   As above; RIICHI_NO_HAND also where the row has thirteen tiles.
 *   kinds     The kinds whose discard leaves the least shanten, a bit for each; 0 where the row is no hand.
 *   accepts   For each of these kinds, at its place, the kinds that the rest then accepts, a bit for each; 0 for every other.
 *   live      For each of these kinds how many tiles of those are left in all; 0 for every other.
 */
size_t riichi_discards(const uint8_t (*counts)[34], size_t counts_len, const uint8_t (*melds)[4], size_t melds_len,
    const uint8_t (*seen)[34], size_t seen_len, int8_t *shanten, size_t shanten_len, uint64_t *kinds, size_t kinds_len,
    uint64_t (*accepts)[34], size_t accepts_len, uint8_t (*live)[34], size_t live_len);

/* The kinds that hands of thirteen tiles wait for, a bit for each; RIICHI_NO_WAITS where the row is no such hand. */
size_t riichi_waits_of(const uint8_t (*counts)[34], size_t counts_len, const uint8_t (*melds)[4], size_t melds_len,
    uint64_t *kinds, size_t kinds_len);

/* What stands beyond the next step of hands of thirteen tiles that aren't ready.
 *
 *   shanten   As above; RIICHI_NO_HAND also where the row has fourteen tiles. Where it is 0 or less, `second` and `good` are 0.
 *   second    The sum over the accepted kinds of their live copies times the most live copies that a best discard then leaves: of
 *             all ordered pairs of unseen tiles those of which each brings the hand nearer.
 *   good      How many live copies the accepted kinds have after which a best discard leaves at least five.
 *
 * After a discard of fourteen tiles the row is that of the other thirteen, and the discarded tile is one of those seen.
 */
size_t riichi_deeper(const uint8_t (*counts)[34], size_t counts_len, const uint8_t (*melds)[4], size_t melds_len,
    const uint8_t (*seen)[34], size_t seen_len, int8_t *shanten, size_t shanten_len, uint16_t *second, size_t second_len,
    uint8_t *good, size_t good_len);

/* Which calls of a tile that another player throws bring hands of thirteen tiles nearer.
 *
 *   thrown    For each hand the kind, and who throws it: RIICHI_FROM_LEFT and so on. It is not yet one of those seen.
 *   called    Four bytes for each hand: the meld for a run of which the tile is the highest, for one of which it is the middle, for one
 *             of which it is the lowest, and for a triplet; 0 where some discard after the call leaves the hand no nearer, where the
 *             hand lacks the other tiles, where it may not be called so, or where the row says no hand or no tile that is left.
 *   kinds     For each of the four the kinds whose discard is then best, a bit for each.
 *   live      For each of these kinds how many copies of what is then accepted are live; 0 for every other.
 *
 * A discard that the rule against swap calling forbids is never among these kinds. A kong brings no hand nearer.
 */
size_t riichi_calls(const uint8_t (*counts)[34], size_t counts_len, const uint8_t (*melds)[4], size_t melds_len,
    const uint8_t (*seen)[34], size_t seen_len, const uint8_t (*thrown)[2], size_t thrown_len, uint8_t (*called)[4], size_t called_len,
    uint64_t (*kinds)[4], size_t kinds_len, uint8_t (*live)[4][34], size_t live_len);

/* Who throws a tile, seen from the hand: the player before, from whom alone a run may be called; across; the player after. */
#define RIICHI_FROM_LEFT 0
#define RIICHI_FROM_ACROSS 1
#define RIICHI_FROM_RIGHT 2

/* ---- Many wins as arrays
 *
 * What wins are worth, as `win` says it of a line, many a call and without any text.
 */

/* A kind as one of a win's indicators. */
#define RIICHI_INDICATOR(kind) ((uint8_t)(1 + (kind)))

/* A win: 64 bytes. What isn't said is 0, so a win begins as `struct riichi_win win = {0};`. */
struct riichi_win {
    uint8_t concealed[34]; /* How many tiles of each kind are concealed, without the winning tile. */
    uint8_t melds[4];      /* RIICHI_CHI and so on; 0 for none. */
    uint8_t winning;       /* The kind of the winning tile. */
    uint8_t by;            /* RIICHI_RON or RIICHI_TSUMO. */
    uint8_t seat;          /* The winner's wind, RIICHI_EAST and so on; East is the dealer. */
    uint8_t round;         /* The prevalent wind. */
    uint8_t riichi;        /* 1, or 2 for double riichi. */
    uint8_t ippatsu;       /* Each of these five is set where it isn't 0: within a turn of riichi; */
    uint8_t rinshan;       /*   on the tile drawn after a kong; */
    uint8_t chankan;       /*   on the tile that another player adds to a triplet for a kong; */
    uint8_t last;          /*   on the last tile drawn or discarded; */
    uint8_t first;         /*   on the first draw, before any call. */
    uint8_t counters;      /* On the table, 0 to 99, each worth 300 points. */
    uint8_t sticks;        /* The riichi sticks on the table, 0 to 99. */
    uint8_t reds[3];       /* The red fives of m, p and s among all its tiles; those are counted above as well. */
    uint8_t dora[5];       /* The dora indicators, RIICHI_INDICATOR(kind) each; 0 for none. */
    uint8_t ura[5];        /* The indicators under them. */
    uint8_t zero;          /* Always 0. */
};

#define RIICHI_RON 0
#define RIICHI_TSUMO 1
#define RIICHI_EAST 0
#define RIICHI_SOUTH 1
#define RIICHI_WEST 2
#define RIICHI_NORTH 3

/* What is told of a win: 32 bytes. All but `told` is 0 where that isn't RIICHI_WON. */
struct riichi_score {
    uint64_t yaku;      /* Bit n for the yaku with number n (docs/RULES.md, "Yaku" and "Yakuman"). */
    uint32_t base;      /* The base points; of a yakuman, whose han, fu and dora are 0, 8000 for each limit. */
    uint32_t gain;      /* All that the winner gains, in points, with counters and sticks. */
    uint32_t discarder; /* What the discarder pays; 0 by self-draw. */
    uint32_t dealer;    /* What the dealer pays for another's self-draw; else 0. */
    uint32_t other;     /* What each who isn't the dealer pays for a self-draw; else 0. */
    uint8_t told;       /* RIICHI_WON, RIICHI_NO_YAKU, RIICHI_NO_WIN, or n where the row is refused as `refused Hn`. */
    uint8_t han;        /* With the dora. */
    uint8_t fu;
    uint8_t dora;       /* How many of the han are dora. */
};

/* A win; a hand that is complete and has no yaku; one that isn't complete. */
#define RIICHI_WON 100
#define RIICHI_NO_YAKU 101
#define RIICHI_NO_WIN 102

/* What wins are worth: of as many as both arrays have rows, from the first on; it returns how many, and leaves what lies behind them.
 *
 *   rules     RIICHI_RULES_ONE, RIICHI_RULES_TWO or rules of a house. Under any other number no row is answered.
 *   wins      The wins. A row is refused for the same faults as a line (docs/NOTATION.md, H8 to H16), and with 4 where a number is
 *             in no table: a count above four, a byte that is no meld, a kind above 33, by above 1, seat or round above 3, riichi
 *             above 2, counters or sticks above 99, more than four red fives of a suit, five equal indicators, a last byte that
 *             isn't 0. The others are answered all the same.
 *   scores    What is told of each.
 *
 * Each call has some 10 kB on the stack.
 *
 *     struct riichi_win win = {{1, 1, 1, 1, 1, 1, 1, 1, 1, [11] = 1, 1, [19] = 2}, .winning = 10, .seat = RIICHI_SOUTH};
 *     struct riichi_score score;                                                    123456789m22s34p on=2p by=ron
 *     riichi_wins(RIICHI_RULES_ONE, &win, 1, &score, 1);                            score.han is 3, score.gain 3900
 */
size_t riichi_wins(
    uint32_t rules, const struct riichi_win *wins, size_t wins_len, struct riichi_score *scores, size_t scores_len);

/* ---- A game of four players
 *
 * The ledger of a game, as docs/GAME.md has it: who pays whom after each deal, who deals next, when the game is over, the final points
 * and what a player needs. The caller holds the rules, how far the game has come, and the list of outcomes; to take the last one back,
 * the outcomes before it are played again, or the progress before it was kept.
 *
 * Players have the numbers 0 to 3, by their first seats: 0 sits East when the game begins. An array of four has something for each of
 * them, in this order. All points are points, not thousands. A flag is set where it isn't 0. No struct has padding. Each call has some
 * 10 kB on the stack.
 */

/* The rules of a table: 48 bytes. A program takes those of a name by `riichi_game_table` and changes some. */
struct riichi_table {
    uint32_t rules;   /* How hands are valued: RIICHI_RULES_ONE, RIICHI_RULES_TWO or rules of a house. */
    uint32_t start;   /* What each player begins with: whole hundreds from 100 to 1000000. */
    uint32_t returns; /* The points that count as 0 at the end: whole hundreds up to 1000000, not fewer than the start. */
    uint32_t extra;   /* Where nobody has so many at the end of the last round, one round more is played; or RIICHI_NO_EXTRA. */
    uint32_t chombo;  /* What a dead hand costs off the final points, or RIICHI_CHOMBO_MANGAN: a mangan paid to the others at once. */
    int32_t uma[4];   /* The bonus of each place, in whole thousands up to 1000000 either way; none is greater than the one before. */
    uint8_t ties;     /* RIICHI_TIES_SHARE or RIICHI_TIES_SEAT: players with equal points. */
    uint8_t ron;      /* RIICHI_RON_ALL, RIICHI_RON_NEAREST or RIICHI_RON_TWO: who wins on one discard. */
    uint8_t counters; /* RIICHI_COUNTERS_NEAREST or RIICHI_COUNTERS_EACH: to whom of several winners they are paid. */
    uint8_t sticks;   /* RIICHI_STICKS_NEAREST or RIICHI_STICKS_OWN: who of several winners takes them. */
    uint8_t liable;   /* A flag: there is responsibility for a yakuman (pao). */
    uint8_t nagashi;  /* A flag: a draw may have a nagashi mangan. */
    uint8_t renchan;  /* RIICHI_RENCHAN_READY or RIICHI_RENCHAN_WIN: when the dealer stays at a draw. */
    uint8_t length;   /* RIICHI_LENGTH_SOUTH or RIICHI_LENGTH_EAST: the last round. */
    uint8_t bust;     /* A flag: the game is over as soon as somebody has less than 0. */
    uint8_t stop;     /* A flag: it is over where the last dealer stays and is first. */
    uint8_t left;     /* RIICHI_LEFT_FIRST or RIICHI_LEFT_LOST: who has the sticks that lie at the end. */
    uint8_t zero;     /* Always 0. */
};

#define RIICHI_CLUB 1
#define RIICHI_LEAGUE 2
#define RIICHI_ONLINE 3
#define RIICHI_NO_EXTRA UINT32_MAX
#define RIICHI_CHOMBO_MANGAN UINT32_MAX
#define RIICHI_TIES_SHARE 0       /* They have the same place and share its bonuses; */
#define RIICHI_TIES_SEAT 1        /*   the earlier first seat is ahead. */
#define RIICHI_RON_ALL 0
#define RIICHI_RON_NEAREST 1      /* The first in turn behind the discarder alone; */
#define RIICHI_RON_TWO 2          /*   both of two, while three make the deal an abort. */
#define RIICHI_COUNTERS_NEAREST 0
#define RIICHI_COUNTERS_EACH 1
#define RIICHI_STICKS_NEAREST 0
#define RIICHI_STICKS_OWN 1       /* Each takes the own bet of the deal back, the nearest the rest. */
#define RIICHI_RENCHAN_READY 0    /* Where ready; */
#define RIICHI_RENCHAN_WIN 1      /*   never, by a win alone. */
#define RIICHI_LENGTH_SOUTH 0
#define RIICHI_LENGTH_EAST 1
#define RIICHI_LEFT_FIRST 0
#define RIICHI_LEFT_LOST 1        /* Nobody has them. */

/* What the table shows between two deals: 20 bytes. */
struct riichi_state {
    int32_t points[4]; /* They may be less than 0. */
    uint8_t round;     /* RIICHI_EAST and so on: the prevalent wind. */
    uint8_t dealer;    /* The player who deals, and sits East. */
    uint8_t counters;  /* How many lie on the table, 0 to 99. */
    uint8_t sticks;    /* The riichi sticks on the table, 0 to 99. */
};

/* How far a game has come: 40 bytes. */
struct riichi_progress {
    struct riichi_state state;
    uint32_t penalties[4]; /* The points off the final points, those for dead hands with them. */
    uint32_t over;         /* 1 where the game is over, else 0. */
};

/* What a player wins: 6 bytes. All is 0 where the player doesn't win. `riichi_game_base` says the base points of han and fu,
 * `riichi_game_worth` makes one of a hand. */
struct riichi_worth {
    uint16_t base;         /* Of RIICHI_BASE: the base points, 8000 at most; RIICHI_MANGAN and so on are those of limit hands. */
    uint8_t limits;        /* Of RIICHI_YAKUMAN: how many limits of 8000 base points. */
    uint8_t kind;          /* 0 where the player doesn't win, RIICHI_BASE or RIICHI_YAKUMAN. */
    uint8_t liable;        /* RIICHI_LIABLE(player): who is liable for a yakuman; 0 for nobody. */
    uint8_t liable_limits; /* For how many of its limits. */
};

#define RIICHI_BASE 1
#define RIICHI_YAKUMAN 2
#define RIICHI_MANGAN 2000
#define RIICHI_HANEMAN 3000
#define RIICHI_BAIMAN 4000
#define RIICHI_SANBAIMAN 6000
#define RIICHI_LIABLE(player) ((uint8_t)(1 + (player)))

/* How a deal ended, or another entry of the ledger: 64 bytes. What an outcome of its kind doesn't have is 0, so one begins as
 * `struct riichi_outcome outcome = {.kind = RIICHI_DRAW};`. */
struct riichi_outcome {
    uint16_t kind;               /* RIICHI_RON, RIICHI_TSUMO, or one of the six below. */
    uint16_t player;             /* The discarder of a ron, the winner of a self-draw; whose hand is dead; who has the penalty. */
    uint8_t riichi[4];           /* Flags: who has bet in the deal; not who declared with the very discard that was won on. */
    uint8_t ready[4];            /* Of a draw, flags: who is ready. */
    uint8_t nagashi[4];          /* Of a draw, flags: who has a nagashi mangan. */
    struct riichi_worth wins[4]; /* Of a ron what all win who said it, whether or not the rules let them; of a self-draw the winner's. */
    uint32_t points;             /* Of a penalty: how many. */
    struct riichi_state state;   /* Of RIICHI_STANDS: what the table shows. */
};

#define RIICHI_DRAW 2
#define RIICHI_ABORT 3   /* By four winds, nine terminals, four bets or four kongs. */
#define RIICHI_CHOMBO 4  /* A dead hand: the deal is played again, and its bets go back. */
#define RIICHI_PENALTY 5 /* Points off the final points, also behind the end. */
#define RIICHI_STANDS 6  /* The state as it is written: of a game that begins elsewhere, or a correction. */
#define RIICHI_END 7

/* The faults of an outcome, in the order in which they are looked for: the first that holds is told. docs/GAME.md has the rules. */
#define RIICHI_NOBODY_WINS 1     /* A ron without a winner. */
#define RIICHI_DISCARDER_WINS 2
#define RIICHI_WINNER_LIABLE 3
#define RIICHI_NO_SUCH_WORTH 4   /* Over 8000 base points, or more limits than the rules allow, or none. */
#define RIICHI_LIABLE_LIMITS 5   /* Liable for no limit, or for more than the hand has. */
#define RIICHI_LIABLE_OFF 6
#define RIICHI_NAGASHI_OFF 7
#define RIICHI_BET_OF_TOO_FEW 8  /* A bet with fewer than 1000 points, where the game ends below 0. */
#define RIICHI_NOT_READY 9       /* A bet at a draw of a player who isn't ready. */
#define RIICHI_STANDS_SUM 10     /* A written state whose points, with 1000 for each stick, aren't four times the start. */
#define RIICHI_STANDS_ROUND 11   /* A written state in a round that the rules don't have. */
#define RIICHI_OVER_COUNTERS 12  /* There would be more than 99 counters; */
#define RIICHI_OVER_STICKS 13    /*   more than 99 sticks; */
#define RIICHI_OVER_POINTS 14    /*   a player with more than 1000000000 points, up or down, or so many penalties. */
#define RIICHI_GAME_OVER 15
/* Faults of what a call is given. */
#define RIICHI_NO_TABLE 200      /* Numbers that say nothing, rules with a fault, or no such name. */
#define RIICHI_NO_PROGRESS 201   /* A round or a dealer above 3. */
#define RIICHI_NO_OUTCOME 202    /* A kind, a player, a worth or a state that says nothing; a self-draw without what is won. */
#define RIICHI_NO_QUESTION 203   /* A player above 3, a place that isn't 1 to 4, or a way to win that there is not. */

/* Puts the rules of a name into `table`: RIICHI_CLUB, the defaults of docs/GAME.md, RIICHI_LEAGUE or RIICHI_ONLINE. Hands are valued by
 * RIICHI_RULES_ONE. Returns 0, or RIICHI_NO_TABLE, and then leaves the table as it is. */
uint32_t riichi_game_table(uint32_t name, struct riichi_table *table);

/* Why no game may have these rules: 0 where one may; 1 where points are above 1000000 or no whole hundreds, 2 a start below 100, 3 a
 * return below the start, 4 a bonus that is no whole thousands or above 1000000 either way, 5 a bonus that is greater than the one
 * before, 6 bonuses that don't add up to 0; RIICHI_NO_TABLE where a number says nothing. */
uint32_t riichi_game_table_fault(const struct riichi_table *table);

/* Puts how far a game is before its first deal into `progress`. Returns 0, or RIICHI_NO_TABLE, and then leaves it as it is. */
uint32_t riichi_game_first(const struct riichi_table *table, struct riichi_progress *progress);

/* Goes on by outcomes, one after the other, up to the first that is refused.
 *
 *   progress  How far the game has come, by `riichi_game_first` or such a call; is set to how far it comes by what is accepted.
 *   fault     Is set to the number of the fault of the outcome that is refused, and to 0 where none is.
 *
 * Returns how many outcomes are accepted. An outcome that is refused changes nothing: the game stands as before it.
 *
 *     struct riichi_table table;
 *     struct riichi_progress progress;
 *     uint32_t fault;
 *     riichi_game_table(RIICHI_CLUB, &table);
 *     riichi_game_first(&table, &progress);
 *     const struct riichi_outcome ron = {.kind = RIICHI_RON, .player = 2,
 *         .wins = {[1] = {.kind = RIICHI_BASE, .base = (uint16_t)riichi_game_base(table.rules, RIICHI_RON, 1, 30)}}};
 *     riichi_game_after(&table, &progress, &ron, 1, &fault);                        progress.state.points[1] is 31000
 */
size_t riichi_game_after(const struct riichi_table *table, struct riichi_progress *progress, const struct riichi_outcome *outcomes,
    size_t outcomes_len, uint32_t *fault);

/* Something that an outcome moves: 12 bytes. */
struct riichi_move {
    uint32_t points; /* From the one to the other; 1000 for each stick. */
    uint32_t sticks; /* How many are put on the table, or taken from it. */
    uint8_t from;    /* Who gives: a player, or RIICHI_THE_TABLE. */
    uint8_t to;      /* Who gets. */
    uint16_t why;    /* RIICHI_FOR_RON and so on. */
};

#define RIICHI_THE_TABLE 4
#define RIICHI_FOR_RON 0
#define RIICHI_FOR_TSUMO 1
#define RIICHI_FOR_LIABLE 2     /* The limits of a yakuman that the payer is liable for. */
#define RIICHI_FOR_OTHER_HALF 3 /* The discarder's half of what another is liable for. */
#define RIICHI_FOR_COUNTERS 4
#define RIICHI_FOR_READY 5
#define RIICHI_FOR_NAGASHI 6
#define RIICHI_FOR_CHOMBO 7
#define RIICHI_FOR_BET 8        /* A player puts a stick on the table. */
#define RIICHI_FOR_STICKS 9     /* A winner takes those that lie. */
#define RIICHI_FOR_OWN_BET 10   /* One of several winners takes the own bet back. */

/* What all moves of an outcome change: 40 bytes. */
struct riichi_changes {
    int64_t points[4]; /* What the points of each player change, counted from before the bets. */
    uint32_t sticks;   /* How many lie on the table afterwards. */
    uint32_t moves;    /* How many moves there are, whether or not they have a place. */
};

/* No outcome moves more. */
#define RIICHI_MOST_MOVES 40

/* Says what an outcome moves, where the game has come so far: who pays whom how many points, and why, and what all of it changes. The
 * sum of the moves is the change. A penalty, a written state and the end move nothing.
 *
 *   moves     The moves in the order in which they are told, as many as have a place; what lies behind them stays.
 *   changes   What all of them change.
 *
 * Returns 0; or the number of the fault for which the outcome is refused, and then nothing is told.
 */
uint32_t riichi_game_moves(const struct riichi_table *table, const struct riichi_progress *progress,
    const struct riichi_outcome *outcome, struct riichi_move *moves, size_t moves_len, struct riichi_changes *changes);

/* What a player has at the end: 32 bytes. */
struct riichi_final {
    int64_t points;   /* With the sticks that the rules give. */
    int64_t bonus;    /* Of the place, or the part of a shared one. */
    int64_t total;    /* The final points: points less the return, with the bonus, less the penalty. */
    uint32_t penalty; /* Penalties, and points for dead hands. */
    uint32_t place;   /* 1 to 4; players who share one have the same. */
};

/* What the four players have at the end: 128 bytes. */
struct riichi_finals {
    struct riichi_final players[4];
};

/* Says what each player has where the game ends there, whether or not it is over. Returns 0, RIICHI_NO_TABLE or RIICHI_NO_PROGRESS. */
uint32_t riichi_game_finals(
    const struct riichi_table *table, const struct riichi_progress *progress, struct riichi_finals *finals);

/* Which place a player is to reach in the next deal: 6 bytes. */
struct riichi_question {
    uint8_t player;
    uint8_t place;     /* 1 to 4: that place or a better one. */
    uint8_t riichi[4]; /* Flags: who bets in the deal. The player's own bet comes back and changes nothing. */
};

/* A row of the table of payments: 16 bytes. All is 0 where no row up to one yakuman is enough. */
struct riichi_paid {
    uint32_t base;      /* The base points; `riichi_game_base` says which han and fu have these. */
    uint32_t discarder; /* What each pays, with the counters, as in `struct riichi_score`. */
    uint32_t dealer;
    uint32_t other;
};

/* What a player needs by one way of winning: 32 bytes. */
struct riichi_need {
    struct riichi_paid strictly; /* The least row after which fewer others than the place have as many points or more. */
    struct riichi_paid with_tie; /* The least after which fewer others than the place are ahead, by the rules' ties. */
};

/* What a player needs: 160 bytes. */
struct riichi_needs {
    struct riichi_need off[4];   /* By ron off each player; all 0 for the own discard. */
    struct riichi_need by_tsumo;
};

/* Says the least rows of the table of payments that bring a player to a place, who wins the next deal alone and with nobody liable.
 * Every greater row does too, and no lesser one. Returns 0, RIICHI_NO_TABLE, RIICHI_NO_PROGRESS, RIICHI_NO_QUESTION, or
 * RIICHI_GAME_OVER of a game that has no next deal. */
uint32_t riichi_game_needs(const struct riichi_table *table, const struct riichi_progress *progress,
    const struct riichi_question *question, struct riichi_needs *needs);

/* Says what a hand is worth that a player wins in the next deal, as a part of its outcome.
 *
 *   winner, by   The player, and RIICHI_RON or RIICHI_TSUMO.
 *   hand         The hand. Its `by`, `seat`, `round`, `counters` and `sticks` may be 0: those of the game hold. Its `riichi` is a bet
 *                only where the outcome names it.
 *   worth        Is set to the worth, with nobody liable.
 *
 * Returns RIICHI_WON; or RIICHI_NO_YAKU, RIICHI_NO_WIN, n where the hand is refused as `refused Hn`, RIICHI_NO_TABLE,
 * RIICHI_NO_PROGRESS or RIICHI_NO_QUESTION, and then nothing is set.
 */
uint32_t riichi_game_worth(const struct riichi_table *table, const struct riichi_progress *progress, uint32_t winner, uint32_t by,
    const struct riichi_win *hand, struct riichi_worth *worth);

/* The base points of a hand of so many han and fu, won by RIICHI_RON or RIICHI_TSUMO; 0 where no hand has so many, or `rules` are
 * none. */
uint32_t riichi_game_base(uint32_t rules, uint32_t by, uint32_t han, uint32_t fu);

/* Answers the lines of a text of games as the command `game` does, from a place on, as many as have room: each answer with a line
 * feed behind it, and behind the last line what is told of the end of the last game. docs/GAME.md has the lines and their answers.
 *
 *   rules     How hands are valued in a game that names no rules: RIICHI_RULES_ONE, RIICHI_RULES_TWO or rules of a house. Under
 *             any other number nothing is answered.
 *   text      The whole text, by each call: the library keeps nothing, so a call plays the lines before `from` again.
 *   from      0, and then what `taken` was set to: how many bytes of the text are answered. It is no place within a line, which
 *             would be taken for two.
 *   room      A call stops before the first line whose answer and line feed don't fit, or before the end where that doesn't. A
 *             room of RIICHI_MOST_ANSWER + 1 bytes always takes one of them further; in a larger one fewer calls play the lines.
 *   taken     Is set to where the next call goes on, and to `text_len` + 1 where all is told, the end too. Where it is `from` and
 *             no more than `text_len`, the room is too small, or `rules` neither a profile's number nor rules of a house.
 *
 * Returns how many bytes of the room are filled; those behind them stay as they are. From a place behind the text nothing is told.
 * Each call has some 100 kB on the stack. riichi_desk_portable.c takes texts of 256 KiB at most, and answers nothing of a longer
 * one.
 *
 *     size_t from = 0, start, filled;
 *     do {
 *         start = from;
 *         filled = riichi_game_lines(RIICHI_RULES_ONE, text, length, start, room, sizeof room, &from);
 *         fwrite(room, 1, filled, stdout);
 *     } while (from > start && from <= length);
 */
size_t riichi_game_lines(
    uint32_t rules, const uint8_t *text, size_t text_len, size_t from, uint8_t *room, size_t room_len, size_t *taken);

/* What a message to a table's book comes to (docs/HALL.md): 24 bytes. */
struct riichi_judged {
    uint64_t next;    /* The number that the book gave to the next deal before the message. */
    uint64_t place;   /* Where in the book's text the deal of the number begins, or would. */
    uint32_t verdict; /* RIICHI_HALL_TAKEN and so on; RIICHI_HALL_NO_BOOK, and the others 0, where the text is no book's. */
    uint32_t nothing; /* 0. */
};

#define RIICHI_HALL_NO_BOOK 0
#define RIICHI_HALL_TAKEN 1
#define RIICHI_HALL_AGAIN 2
#define RIICHI_HALL_ANOTHER 3
#define RIICHI_HALL_EARLY 4
#define RIICHI_HALL_REFUSED 5
#define RIICHI_HALL_GONE 6
#define RIICHI_HALL_WITHDRAWN 7
#define RIICHI_HALL_GONE_ALREADY 8
#define RIICHI_HALL_NOT_LAST 9
#define RIICHI_HALL_NO_DEAL 10

/* Says what a line comes to that is handed in as the deal of a number, by the text of the table's book: the line `game`, and a line a
 * deal behind it, each ended by a line feed, a withdrawn one with `# withdrawn ` before it. The library keeps nothing: the caller keeps
 * the book, and where the verdict is RIICHI_HALL_TAKEN puts the line and a line feed into its text at `place`.
 *
 *   rules     How hands are valued in a game that names no rules. Under a number that is none of any rules the answer is
 *             `refused rules`.
 *   number    From 1 on.
 *   room      The answer is put at its start if all of it fits there; RIICHI_MOST_ANSWER bytes always do. Where the text is no book's
 *             it is `refused book`.
 *   judged    Is set in any case.
 *
 * Returns how many bytes the answer takes. */
size_t riichi_hall_hand_in(uint32_t rules, const uint8_t *book, size_t book_len, uint64_t number, const uint8_t *line, size_t line_len,
    uint8_t *room, size_t room_len, struct riichi_judged *judged);

/* Says so what the withdrawal of a number does. Where the verdict is RIICHI_HALL_WITHDRAWN the caller puts `# withdrawn ` into the text
 * at `place`. */
size_t riichi_hall_withdraw(uint32_t rules, const uint8_t *book, size_t book_len, uint64_t number, uint8_t *room, size_t room_len,
    struct riichi_judged *judged);

/* The name and version, such as `riichi_desk 0.1.0`, into the room as above. Returns how many bytes it takes. */
size_t riichi_version(uint8_t *room, size_t room_len);

#ifdef __cplusplus
}
#endif

#endif
