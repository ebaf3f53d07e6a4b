// judge PROGRAM COMMAND FILE: runs the command `line`, `replay` or `score` of the program on the bytes of FILE, and ends
// by a signal where it doesn't end as the README says: with the status 0 or 1, one answer line for each line that has
// one, and no more memory than its bound. tests/fuzz gives it to a fuzzer, for which a signal is a find.
#include <fcntl.h>
#include <stdio.h>
#include <stdlib.h>
#include <string.h>
#include <sys/resource.h>
#include <sys/wait.h>
#include <unistd.h>

// The most memory of a run, in KiB: texts of a fuzzer are small.
enum { MOST_MEMORY = 65536 };

typedef struct {
    const char *bytes;
    size_t length;
} Text;

static void find(const char *what) {
    fprintf(stderr, "judge: %s\n", what);
    abort();
}

static Text read_all(int file) {
    size_t room = 1 << 16, length = 0;
    char *bytes = malloc(room);
    ssize_t count;
    while (bytes && (count = read(file, bytes + length, room - length)) > 0)
        if ((length += count) == room) bytes = realloc(bytes, room *= 2);
    if (!bytes) exit(1);
    return (Text){bytes, length};
}

static int is_printed(Text line) {
    for (size_t at = 0; at < line.length; at++)
        if (line.bytes[at] < 0x20 || line.bytes[at] > 0x7E) return 0;
    return 1;
}

// Whether the line sets a profile, where it is the first of a text of records.
static int is_profile(Text line) {
    char words[3][8] = {{0}}, all[4097];
    if (line.length > 4096 || !is_printed(line)) return 0;
    memcpy(all, line.bytes, line.length);
    all[line.length] = 0;
    return sscanf(all, "%7s %7s %7s", words[0], words[1], words[2]) == 2 && !strcmp(words[0], "rules") &&
           (!strcmp(words[1], "1") || !strcmp(words[1], "2"));
}

static int has_answer(Text line, int is_first, int is_script) {
    if (line.length && line.bytes[line.length - 1] == '\r') line.length--;
    if (line.length > (is_script ? 8192 : 4096)) return 1;
    if (line.length && line.bytes[0] == '#') return 0;
    if (!is_script && is_first && is_profile(line)) return 0;
    for (size_t at = 0; at < line.length; at++)
        if (line.bytes[at] != ' ') return 1;
    return 0;
}

static long count_answers(Text text, int is_script) {
    long answers = 0;
    size_t from = 0;
    while (from < text.length) {
        const char *end = memchr(text.bytes + from, '\n', text.length - from);
        size_t to = end ? (size_t)(end - text.bytes) : text.length;
        answers += has_answer((Text){text.bytes + from, to - from}, from == 0, is_script);
        from = to + 1;
    }
    return answers;
}

static void run_program(char **words, int pipe_end) {
    int input = open(words[3], O_RDONLY);
    dup2(pipe_end, 1);
    if (!strcmp(words[2], "line")) {
        dup2(input, 0);
        execl(words[1], words[1], "line", (char *)0);
    } else {
        execl(words[1], words[1], words[2], words[3], (char *)0);
    }
    _exit(126);
}

int main(int count, char **words) {
    int ends[2], status;
    struct rusage used;
    if (count != 4 || pipe(ends)) return 2;
    pid_t child = fork();
    if (child == 0) close(ends[0]), run_program(words, ends[1]);
    close(ends[1]);
    Text said = read_all(ends[0]);
    if (wait4(child, &status, 0, &used) < 0) return 2;
    Text text = read_all(open(words[3], O_RDONLY));
    if (!WIFEXITED(status) || WEXITSTATUS(status) > 1) find("another status");
    if (used.ru_maxrss > MOST_MEMORY) find("more memory than its bound");
    long wanted = count_answers(text, !strcmp(words[2], "replay")) + !strcmp(words[2], "score"), lines = 0;
    for (size_t at = 0; at < said.length; at++) lines += said.bytes[at] == '\n';
    if (lines != wanted || (said.length && said.bytes[said.length - 1] != '\n')) find("another number of answers");
    return 0;
}
