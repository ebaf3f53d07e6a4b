/* The calls of riichi_desk.h: each copies what it is given into the memory of its thread's module, and the answer out of it. */

OF_THREAD Z_desk_instance_t module;
OF_THREAD int is_ready;

enum { GIVEN = PAGES * PAGE, TOLD = GIVEN + PAGES_GIVEN * PAGE, TAKEN = TOLD + PAGES_TOLD * PAGE - 8 };
/* A line of more than 4096 bytes is refused whatever follows. */
enum { MOST_LINE = 4200, MOST_TEXT = PAGE, ROOM = TAKEN - TOLD };

static uint8_t *memory(void) {
    if (!is_ready) {
        Z_desk_init_module();
        Z_desk_instantiate(&module, NULL); /* (vectors need no state) */
        is_ready = 1;
    }
    return Z_deskZ_memory(&module)->data;
}

typedef u64 one_call(Z_desk_instance_t *, u32, u64, u64, u64, u64);

static size_t ask(one_call *call, uint32_t rules, const uint8_t *line, size_t line_len, uint8_t *room, size_t room_len) {
    uint8_t *own = memory();
    size_t given = line_len < MOST_LINE ? line_len : MOST_LINE;
    memcpy(own + GIVEN, line, given);
    size_t needed = (size_t)call(&module, rules, GIVEN, given, TOLD, ROOM);
    if (needed <= room_len) memcpy(room, own + TOLD, needed);
    return needed;
}

size_t riichi_answer(uint32_t rules, const uint8_t *line, size_t line_len, uint8_t *room, size_t room_len) {
    return ask(Z_deskZ_riichi_answer, rules, line, line_len, room, room_len);
}

size_t riichi_json(uint32_t rules, const uint8_t *line, size_t line_len, uint8_t *room, size_t room_len) {
    return ask(Z_deskZ_riichi_json, rules, line, line_len, room, room_len);
}

size_t riichi_explain_json(uint32_t rules, const uint8_t *line, size_t line_len, uint8_t *room, size_t room_len) {
    return ask(Z_deskZ_riichi_explain_json, rules, line, line_len, room, room_len);
}

size_t riichi_explain(uint32_t rules, const uint8_t *line, size_t line_len, uint8_t *room, size_t room_len) {
    return ask(Z_deskZ_riichi_explain, rules, line, line_len, room, room_len);
}

size_t riichi_version(uint8_t *room, size_t room_len) {
    uint8_t *own = memory();
    size_t needed = (size_t)Z_deskZ_riichi_version(&module, TOLD, ROOM);
    if (needed <= room_len) memcpy(room, own + TOLD, needed);
    return needed;
}

/* (a text that is longer than its room names no rules here) */
uint32_t riichi_rules(const uint8_t *text, size_t text_len, size_t *wrong) {
    uint8_t *own = memory();
    uint64_t place = MOST_TEXT;
    uint32_t rules = 0;
    if (text_len <= MOST_TEXT) {
        memcpy(own + GIVEN, text, text_len);
        rules = Z_deskZ_riichi_rules(&module, GIVEN, text_len, TAKEN);
        memcpy(&place, own + TAKEN, sizeof place);
    }
    if (rules == 0) *wrong = (size_t)place;
    return rules;
}

/* How much of a text one call is given: whole lines; of a line that is longer than its room, so much that it is refused. */
static size_t front_of(const uint8_t *text, size_t text_len) {
    size_t front = text_len < MOST_TEXT ? text_len : MOST_TEXT;
    if (front == text_len) return front;
    while (front > 0 && text[front - 1] != '\n') front--;
    return front > 0 ? front : MOST_LINE;
}

typedef u64 call_of_lines(Z_desk_instance_t *, u32, u64, u64, u64, u64, u64);

static size_t ask_lines(
    call_of_lines *call, uint32_t rules, const uint8_t *text, size_t text_len, uint8_t *room, size_t room_len, size_t *taken) {
    uint8_t *own = memory();
    size_t start = 0, filled = 0;
    while (start < text_len) {
        size_t front = front_of(text + start, text_len - start), left = room_len - filled;
        memcpy(own + GIVEN, text + start, front);
        size_t more = (size_t)call(&module, rules, GIVEN, front, TOLD, left < ROOM ? left : ROOM, TAKEN);
        uint64_t done;
        memcpy(&done, own + TAKEN, sizeof done);
        if (done == 0) break;
        memcpy(room + filled, own + TOLD, more);
        filled += more, start += (size_t)done;
        if (text[start - 1] == '\n' || start == text_len) continue;
        const uint8_t *feed = memchr(text + start, '\n', text_len - start);
        start = feed ? (size_t)(feed - text) + 1 : text_len;
    }
    *taken = start;
    return filled;
}

size_t riichi_answer_lines(
    uint32_t rules, const uint8_t *text, size_t text_len, uint8_t *room, size_t room_len, size_t *taken) {
    return ask_lines(Z_deskZ_riichi_answer_lines, rules, text, text_len, room, room_len, taken);
}

size_t riichi_json_lines(
    uint32_t rules, const uint8_t *text, size_t text_len, uint8_t *room, size_t room_len, size_t *taken) {
    return ask_lines(Z_deskZ_riichi_json_lines, rules, text, text_len, room, room_len, taken);
}

size_t riichi_explain_json_lines(
    uint32_t rules, const uint8_t *text, size_t text_len, uint8_t *room, size_t room_len, size_t *taken) {
    return ask_lines(Z_deskZ_riichi_explain_json_lines, rules, text, text_len, room, room_len, taken);
}

size_t riichi_explain_lines(
    uint32_t rules, const uint8_t *text, size_t text_len, uint8_t *room, size_t room_len, size_t *taken) {
    return ask_lines(Z_deskZ_riichi_explain_lines, rules, text, text_len, room, room_len, taken);
}
