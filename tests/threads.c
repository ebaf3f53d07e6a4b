/* Four threads answer the lines of a file at once, each all of them, and the program prints those of the first if the
 * others are the same. */
#define _POSIX_C_SOURCE 200809L
#include <pthread.h>
#include <riichi_desk.h>
#include <stdio.h>
#include <stdlib.h>
#include <string.h>
#include <sys/types.h>

static const char *file;

static void *answer_all(void *unused) {
    (void)unused;
    FILE *input = fopen(file, "r");
    char *text = NULL, *line = NULL;
    size_t length = 0, size = 0;
    FILE *output = open_memstream(&text, &length);
    ssize_t given;
    uint8_t room[RIICHI_MOST_ANSWER];
    while ((given = getline(&line, &size, input)) > 0) {
        if (line[given - 1] == '\n') given--;
        size_t needed = riichi_answer(RIICHI_RULES_ONE, (const uint8_t *)line, (size_t)given, room, sizeof room);
        if (needed > 0) fprintf(output, "%.*s\n", (int)needed, (const char *)room);
    }
    fclose(input);
    fclose(output);
    free(line);
    return text;
}

int main(int count, char **words) {
    if (count != 2) return 2;
    file = words[1];
    pthread_t threads[4];
    void *texts[4];
    for (int i = 0; i < 4; i++)
        if (pthread_create(&threads[i], NULL, answer_all, NULL)) return 4;
    for (int i = 0; i < 4; i++) pthread_join(threads[i], &texts[i]);
    for (int i = 1; i < 4; i++)
        if (strcmp(texts[0], texts[i])) return 1;
    fputs(texts[0], stdout);
    return 0;
}
