/* Random lines, made of the lines of a file. */
#ifndef RANDOM_LINES_H
#define RANDOM_LINES_H

#include "lent.h"

static uint8_t *given;
static size_t given_len, lines_given, *starts;

static void read_lines(const char *path) {
    FILE *file = fopen(path, "rb");
    if (!file) { perror(path); exit(2); }
    given = malloc(1 << 24);
    given_len = fread(given, 1, 1 << 24, file);
    fclose(file);
    starts = malloc((given_len + 1) * sizeof *starts);
    for (size_t at = 0; at < given_len; lines_given++) {
        starts[lines_given] = at;
        uint8_t *feed = memchr(given + at, '\n', given_len - at);
        at = feed ? (size_t)(feed - given) + 1 : given_len;
    }
    starts[lines_given] = given_len;
    if (lines_given == 0) exit(2);
}

/* A random line behind `text`, with what ends it, now and then this one: how many bytes. */
static size_t put_line(uint8_t *text, const char *often) {
    size_t length = 0;
    switch (below(12)) {
    case 0: break;
    case 1: length = below(20); memset(text, ' ', length); break;
    case 2: length = 4090 + below(12); memset(text, below(2) ? '#' : 'w', length); break;
    case 3: length = below(40); for (size_t i = 0; i < length; i++) text[i] = (uint8_t)random_number(); break;
    case 4: memcpy(text, often, length = strlen(often)); break;
    default: {
        size_t line = below(lines_given);
        length = starts[line + 1] - starts[line];
        if (length > 5000) length = 5000;
        memcpy(text, given + starts[line], length);
        while (length > 0 && (text[length - 1] == '\n' || text[length - 1] == '\r')) length--;
        for (size_t n = below(8) == 0 ? 1 + below(3) : 0; n > 0 && length > 0; n--) text[below(length)] = (uint8_t)random_number();
    }
    }
    for (size_t n = below(6) == 0 ? 1 + below(2) : 0; n > 0; n--) text[length++] = '\r';
    text[length++] = '\n';
    return length;
}

#endif
