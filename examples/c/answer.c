/* Answers the lines of standard input, each under the first profile, and with the word `explain` says why:
 *   cc -I. examples/c/answer.c libriichi_desk_c.a -o answer
 *   ./answer < FILE
 *   ./answer explain < FILE
 * in the folder of a release; in that of the sources, -Iinclude and bin/libriichi_desk_c.a.
 */
#define _POSIX_C_SOURCE 200809L
#include <riichi_desk.h>
#include <stdio.h>
#include <stdlib.h>
#include <string.h>
#include <sys/types.h>

int main(int count, char **words) {
    int explains = count > 1 && strcmp(words[1], "explain") == 0;
    char *line = NULL;
    size_t size = 0;
    ssize_t length;
    uint8_t room[RIICHI_MOST_ANSWER];
    while ((length = getline(&line, &size, stdin)) >= 0) {
        if (length > 0 && line[length - 1] == '\n') length--;
        if (length > 0 && line[length - 1] == '\r') length--;
        size_t needed = riichi_answer(RIICHI_RULES_ONE, (const uint8_t *)line, (size_t)length, room, sizeof room);
        if (needed > 0) {
            fwrite(room, 1, needed, stdout);
            putchar('\n');
        }
        if (explains) {
            needed = riichi_explain(RIICHI_RULES_ONE, (const uint8_t *)line, (size_t)length, room, sizeof room);
            fwrite(room, 1, needed, stdout);
        }
    }
    free(line);
    return ferror(stdin) || fflush(stdout) ? 3 : 0;
}
