// What has to hold of each call of the static library, for libFuzzer (tests/fuzz-call). An input's first byte chooses the
// profile, the next two the size of a room; the line is the rest. Line and room each lie beside a page that can't be touched,
// before it or behind it, and AddressSanitizer sees each copy of the C library: so no byte beyond them goes unseen.
#include <riichi_desk.h>
#include <sanitizer/asan_interface.h>
#include <stdio.h>
#include <stdlib.h>
#include <string.h>
#include <sys/mman.h>

enum { PAGE = 4096, SPACE = 8 * PAGE, FILL = 0xA5 };

typedef size_t (*Call)(uint32_t, const uint8_t *, size_t, uint8_t *, size_t);

// A call, and the most bytes that it writes.
typedef struct {
    Call call;
    size_t most;
} Told;
static const Told TOLD[] = {{riichi_answer, RIICHI_MOST_ANSWER}, {riichi_explain, RIICHI_MOST_EXPLANATION}};

// libFuzzer keeps an input that sets one of these anew: here each word of an answer has one.
__attribute__((section("__libfuzzer_extra_counters"))) static uint8_t words[1 << 14];

static void find(const char *what) {
    fprintf(stderr, "call: %s\n", what);
    abort();
}

// Memory between two pages that can't be touched.
static uint8_t *guarded(void) {
    uint8_t *whole = mmap(NULL, SPACE + 2 * PAGE, PROT_NONE, MAP_PRIVATE | MAP_ANONYMOUS, -1, 0);
    if (whole == MAP_FAILED || mprotect(whole + PAGE, SPACE, PROT_READ | PROT_WRITE)) exit(1);
    return whole + PAGE;
}

// So many bytes at one end of that memory; the rest of it is closed for AddressSanitizer.
static uint8_t *lent(uint8_t *space, size_t length, int is_front) {
    uint8_t *start = is_front ? space : space + SPACE - length;
    ASAN_POISON_MEMORY_REGION(space, SPACE);
    ASAN_UNPOISON_MEMORY_REGION(start, length);
    memset(start, FILL, length);
    return start;
}

static int is_filled(const uint8_t *from, size_t count) {
    while (count--)
        if (*from++ != FILL) return 0;
    return 1;
}

static int is_text(const uint8_t *from, size_t count) {
    for (; count--; from++)
        if ((*from < 0x20 || *from > 0x7E) && *from != '\n') return 0;
    return 1;
}

static void note_words(const uint8_t *text, size_t length, uint32_t hash) {
    uint32_t word = hash;
    for (size_t at = 0; at <= length; at++) {
        if (at == length || text[at] == ' ') {
            words[word % sizeof words] = 1;
            word = hash;
        } else {
            word = (word ^ text[at]) * 16777619u;
        }
    }
}

// One call in a room that has space for each answer, and one in a room of this size.
static void try_call(const Told *told, uint32_t rules, const uint8_t *line, size_t length, size_t size, int is_front) {
    static uint8_t *space, whole[1 << 16];
    if (!space) space = guarded();
    uint8_t *room = lent(space, told->most, is_front);
    size_t needed = told->call(rules, line, length, room, told->most);
    if (needed > told->most) find("longer than the most");
    if (!is_filled(room + needed, told->most - needed)) find("written behind the text");
    if (!is_text(room, needed)) find("no text");
    memcpy(whole, room, needed);
    note_words(whole, needed, (uint32_t)(2166136261u + (told - TOLD)));
    size_t small = size % (needed + 3);
    room = lent(space, small, is_front);
    if (told->call(rules, line, length, room, small) != needed) find("another length");
    if (small < needed && !is_filled(room, small)) find("a small room was touched");
    if (small >= needed && memcmp(room, whole, needed)) find("another text");
    if (small >= needed && !is_filled(room + needed, small - needed)) find("written behind the text of a room that fits");
}

int LLVMFuzzerTestOneInput(const uint8_t *input, size_t length) {
    static uint8_t *space;
    if (length < 3 || length > SPACE) return 0;
    if (!space) space = guarded();
    int is_front = input[0] & 4;
    uint8_t *line = lent(space, length - 3, is_front);
    memcpy(line, input + 3, length - 3);
    for (size_t at = 0; at < sizeof TOLD / sizeof *TOLD; at++)
        try_call(&TOLD[at], input[0] & 3, line, length - 3, input[1] | input[2] << 8, is_front);
    if (memcmp(line, input + 3, length - 3)) find("the line was changed");
    return 0;
}
