/* fuzz_hall SECONDS SEED FILE: keeps books of random messages, made of the lines of FILE, and looks at what each comes to: what is taken
 * and withdrawn changes the book where the call says, and is answered as before when it comes again; all else changes nothing, and the
 * call for texts of games takes the book. Ends at the first difference, with the seed that shows it. */
#include "random_lines.h"
#include <riichi_desk.h>
#include <time.h>

enum { MESSAGES = 24, MOST_BOOK = 2 * MESSAGES * 5010, WITHDRAWAL = 12 };

static const char withdrawn[] = "# withdrawn ";

struct book {
    uint8_t text[MOST_BOOK];
    size_t length;
    uint64_t next;
};

struct message {
    uint64_t number;
    int is_line;
    uint8_t line[5010];
    size_t length;
};

struct told {
    struct riichi_judged judged;
    size_t needed;
    uint8_t text[RIICHI_MOST_ANSWER];
};

static struct lender texts, lines, rooms;

/* One call, in a room of this size that is lent. */
static size_t ask(const struct book *book, const struct message *message, uint8_t *room, size_t room_len, struct riichi_judged *judged) {
    uint8_t *text = lend(&texts, book->length, 1), *line = lend(&lines, message->length, 1);
    memcpy(text, book->text, book->length);
    memcpy(line, message->line, message->length);
    memset(judged, UNTOUCHED, sizeof *judged);
    size_t needed = message->is_line
        ? riichi_hall_hand_in(1, text, book->length, message->number, line, message->length, room, room_len, judged)
        : riichi_hall_withdraw(1, text, book->length, message->number, room, room_len, judged);
    CHECK(memcmp(text, book->text, book->length) == 0 && memcmp(line, message->line, message->length) == 0);
    size_t filled = needed <= room_len ? needed : 0;
    CHECK(is_untouched(room + filled, room_len - filled));
    return needed;
}

/* What a message comes to; in a room of any other size it is the same. */
static struct told tell(const struct book *book, const struct message *message) {
    struct told told;
    uint8_t *room = lend(&rooms, RIICHI_MOST_ANSWER, 1);
    told.needed = ask(book, message, room, RIICHI_MOST_ANSWER, &told.judged);
    CHECK(told.needed <= RIICHI_MOST_ANSWER && told.judged.nothing == 0 && told.judged.place <= book->length);
    memcpy(told.text, room, told.needed);
    struct riichi_judged again;
    size_t size = below(told.needed + 3);
    room = lend(&rooms, size, 1);
    CHECK(ask(book, message, room, size, &again) == told.needed && memcmp(&again, &told.judged, sizeof again) == 0);
    CHECK(size < told.needed || memcmp(room, told.text, told.needed) == 0);
    return told;
}

static void put(struct book *book, size_t place, const void *more, size_t length) {
    memmove(book->text + place + length, book->text + place, book->length - place);
    memcpy(book->text + place, more, length);
    book->length += length;
}

/* What was taken is there again, with the same answer; or that of a number that was withdrawn is told so. */
static void try_again(const struct book *book, const struct message *message, const struct told *first, uint32_t wanted) {
    struct told again = tell(book, message);
    CHECK(again.judged.verdict == wanted && again.judged.next == book->next && again.judged.place == first->judged.place);
    CHECK(again.needed == first->needed && memcmp(again.text, first->text, first->needed) == 0);
}

static void try_message(struct book *book) {
    static struct message message;
    message.number = below(4) == 0 ? below(book->next + 3) : book->next - (below(3) == 0 && book->next > 1);
    message.is_line = below(4) != 0;
    message.length = message.is_line ? put_line(message.line, below(20) ? "draw" : "end") - 1 : 0;
    struct told told = tell(book, &message);
    CHECK(told.judged.next == book->next && told.judged.verdict != RIICHI_HALL_NO_BOOK && told.judged.verdict <= RIICHI_HALL_NO_DEAL);
    if (told.judged.verdict == RIICHI_HALL_TAKEN) {
        CHECK(message.is_line && message.number == book->next && told.judged.place == book->length);
        put(book, book->length, message.line, message.length);
        put(book, book->length, "\n", 1);
        book->next++;
        try_again(book, &message, &told, RIICHI_HALL_AGAIN);
    } else if (told.judged.verdict == RIICHI_HALL_WITHDRAWN) {
        CHECK(!message.is_line && message.number < book->next);
        put(book, (size_t)told.judged.place, withdrawn, WITHDRAWAL);
        try_again(book, &message, &told, RIICHI_HALL_GONE_ALREADY);
    } else {
        try_again(book, &message, &told, told.judged.verdict);
    }
}

/* The call for texts of games refuses no line of a book. */
static void try_answers(const struct book *book) {
    static uint8_t told[(MESSAGES + 2) * RIICHI_MOST_ANSWER];
    size_t taken, filled = riichi_game_lines(1, book->text, book->length, 0, told, sizeof told, &taken);
    CHECK(taken == book->length + 1);
    for (size_t at = 0; at < filled; at = (size_t)((uint8_t *)memchr(told + at, '\n', filled - at) - told) + 1)
        CHECK(filled - at < 8 || memcmp(told + at, "refused ", 8) != 0);
}

/* Any bytes are a book or none. */
static void try_bytes(void) {
    static struct book book;
    static struct message message;
    for (book.length = 0; book.length < 20000 && below(8) != 0;) book.length += put_line(book.text + book.length, "game");
    message.is_line = 0;
    message.number = random_number();
    struct told told = tell(&book, &message);
    if (told.judged.verdict == RIICHI_HALL_NO_BOOK)
        CHECK(told.judged.next == 0 && told.judged.place == 0 && told.needed == 12 && memcmp(told.text, "refused book", 12) == 0);
}

static void try_book(void) {
    static struct book book;
    static const char game[] = "game Anna Bo Cyd Dee\n";
    book.next = 1;
    memcpy(book.text, game, book.length = strlen(game));
    for (size_t n = below(MESSAGES); n > 0; n--) try_message(&book);
    try_answers(&book);
    try_bytes();
}

int main(int count, char **words) {
    if (count != 4) { fprintf(stderr, "fuzz_hall SECONDS SEED FILE\n"); return 2; }
    time_t end = time(NULL) + atoi(words[1]);
    seed_of_try = strtoull(words[2], NULL, 10);
    read_lines(words[3]);
    texts = new_lender(), lines = new_lender(), rooms = new_lender();
    unsigned long long tries = 0;
    for (; tries == 0 || tries % 256 != 0 || time(NULL) < end; tries++, seed_of_try++) {
        state = seed_of_try;
        try_book();
    }
    printf("%llu books, no difference\n", tries);
    return 0;
}
