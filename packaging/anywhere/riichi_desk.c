/* riichi_desk where the proved program has no home: its commands over riichi_desk.h, in C99 with its library, `open` and `read`, but
 * for those that --help names as not here. Link it with the static library for the system, or with riichi_desk_portable.c.
 */
#include "riichi_desk.h"
#include <errno.h>
#include <fcntl.h>
#include <stdio.h>
#include <stdlib.h>
#include <string.h>
#ifdef _WIN32
#include <io.h>
#define read _read
#define open _open
#define close _close
#define isatty _isatty
#define READ_ONLY (_O_RDONLY | _O_BINARY)
#else
#include <unistd.h>
#define READ_ONLY O_RDONLY
#endif

static const char help[] =
    "Usage: riichi_desk COMMAND\n\n"
    "Commands:\n"
    "  win [--rules R] HAND KEY=VALUE..      prints what a winning hand is worth\n"
    "  waits HAND [open=..]                  prints the kinds that complete a hand\n"
    "  shape HAND [open=..] [seen=..]        prints how far a hand is from ready, and what brings it nearer\n"
    "  line [--json] [--number] [--rules R] [--file FILE..]\n"
    "                                        answers the lines of standard input or of files\n"
    "  explain [--json] [--number] [--rules R] [--file FILE..] [LINE..]\n"
    "                                        answers lines, and says below each answer why it is so\n"
    "  score [--number] [--rules R] FILE..   answers files of lines, each a table\n"
    "  game [--rules R] [FILE..]             keeps the points of games of four, once all lines are read\n\n"
    "  --number    puts the number of its line before each answer\n"
    "  --rules R   the rules of lines that are given no others: 1, 2, or with changes, as 1+red-fives-ura\n"
    "  --workers N, --quiet   are taken and change nothing: one thread answers, and no progress is shown\n"
    "  --version   the name and version of the library\n"
    "A first line `rules 2` sets the rules of its text too. The file - is standard input.\n\n"
    "Not here: need, seats, standings, study, replay; explain --all (explain --json has every reading); game --explain,\n"
    "--json, --number and --sheet. The program for Linux on x86-64 has them, on Windows under WSL. help-codes, help-rules\n"
    "and help-yaku are tables of NOTATION.md and RULES.md.\n\n"
    "Exit status: 0 answered, 1 answered and something was refused, 2 wrong words, 3 input or output failed, 4 no memory\n";

typedef size_t answer_call(uint32_t, const uint8_t *, size_t, uint8_t *, size_t, size_t *);

/* What is asked for: the options, and the words that are none. `line` is the number of the next line, `name` the text at hand. */
static struct {
    uint32_t rules;
    const char *rules_word, *name;
    int is_json, is_numbered, is_of_files, has_workers, refused, count;
    unsigned long line;
    char **words;
    answer_call *call;
} asked = {RIICHI_RULES_ONE, NULL, "standard input", 0, 0, 0, 0, 0, 0, 1, NULL, riichi_answer_lines};

static int wrong(const char *word) {
    fprintf(stderr, "riichi_desk: %s?\n%s", word, help);
    return 2;
}

static int absent(const char *word, const char *where) {
    fprintf(stderr, "riichi_desk: %s is not here: %s\n", word, where);
    return 2;
}

/* ---- one text */

/* Whether an answer among these is a refusal. */
static int has_refused(const uint8_t *answers, size_t length) {
    static const char text[] = "refused", json[] = "{\"answer\":\"refused\"";
    size_t at = 0;
    while (at < length) {
        const uint8_t *line = answers + at, *feed = memchr(line, '\n', length - at);
        size_t size = (size_t)(feed - line);
        if (size >= sizeof text - 1 && memcmp(line, text, sizeof text - 1) == 0) return 1;
        if (size >= sizeof json - 1 && memcmp(line, json, sizeof json - 1) == 0) return 1;
        at += size + 1;
    }
    return 0;
}

/* How many bytes of a text its first line takes, with its line feed. */
static size_t first_line(const uint8_t *text, size_t length) {
    const uint8_t *feed = memchr(text, '\n', length);
    return feed ? (size_t)(feed - text) + 1 : length;
}

/* Answers lines; where answers are numbered one a call, of an object the number is the first member. */
static void answer(const uint8_t *text, size_t length) {
    static uint8_t room[1 << 18];
    size_t taken;
    for (; length > 0; text += taken, length -= taken) {
        size_t size = asked.is_numbered ? first_line(text, length) : length;
        size_t filled = asked.call(asked.rules, text, size, room, sizeof room, &taken), brace = 0;
        asked.refused = asked.refused || has_refused(room, filled);
        if (asked.is_numbered && filled > 0) {
            brace = (size_t)asked.is_json;
            printf(brace ? "{\"line\":%lu," : "%lu:", asked.line);
        }
        fwrite(room + brace, 1, filled - brace, stdout);
        if (asked.is_numbered) asked.line++;
    }
}

/* The rules of a text such as `2` or `1+red-fives-ura`; 0 where it has none. */
static uint32_t rules_of(const char *text) {
    size_t wrong;
    return riichi_rules((const uint8_t *)text, strlen(text), &wrong);
}

/* Whether a line is ` rules N `, the words of a profile; it is then set. */
static int is_profile(const uint8_t *line, size_t length) {
    size_t at = 0, spaces;
    while (at < length && line[at] == ' ') at++;
    if (length - at < 5 || memcmp(line + at, "rules", 5) != 0) return 0;
    for (at += 5, spaces = at; at < length && line[at] == ' ';) at++;
    if (at == spaces || at == length || (line[at] != '1' && line[at] != '2')) return 0;
    uint32_t rules = (uint32_t)(line[at] - '0');
    for (at++; at < length && line[at] == ' ';) at++;
    if (at != length) return 0;
    asked.rules = rules;
    return 1;
}

/* How many bytes of a text its first line takes, with its line feed, where that is a profile; else 0. */
static size_t profile_of(const uint8_t *text, size_t length) {
    size_t size = first_line(text, length);
    size_t kept = size > 0 && text[size - 1] == '\n' ? size - 1 : size;
    if (kept > 0 && text[kept - 1] == '\r') kept--;
    if (kept > 4096 || !is_profile(text, kept)) return 0;
    asked.line = 2;
    return size;
}

/* Says how a text was saved, where none of its first line can be read for that. */
static void tell_sign(const uint8_t *text, size_t length) {
    if (length >= 3 && memcmp(text, "\xEF\xBB\xBF", 3) == 0) {
        fprintf(stderr, "riichi_desk: %s: a byte order mark stands before the first line, which is not read as it looks; save the text as UTF-8 "
            "without one (in Notepad `UTF-8`, not `UTF-8 with BOM`; in PowerShell `Set-Content -Encoding ascii`)\n", asked.name);
    } else if (length >= 2 && (memcmp(text, "\xFF\xFE", 2) == 0 || memcmp(text, "\xFE\xFF", 2) == 0)) {
        fprintf(stderr, "riichi_desk: %s: the text is UTF-16, and no line of it can be read; save it as UTF-8 (in Notepad `UTF-8`; in "
            "PowerShell `Get-Content OLD | Set-Content -Encoding ascii NEW`)\n", asked.name);
    }
}

/* A line of more than 4096 bytes is refused whatever follows, so more of it is not kept. */
enum { MOST_LINE = 4200, MOST_TEXT = 1 << 16 };

/* Answers the lines of a stream as they come, which may set rules of their own; whether it could be read. */
static int answer_stream(int stream) {
    static uint8_t text[MOST_TEXT];
    uint32_t given = asked.rules;
    size_t held = 0;
    int is_first = 1, more;
    asked.line = 1;
    do {
        more = (int)read(stream, text + held, (unsigned)(sizeof text - held));
        if (more < 0) return 0;
        size_t length = held + (size_t)more, whole = length, start = 0;
        while (more > 0 && whole > 0 && text[whole - 1] != '\n') whole--;
        if (is_first && whole > 0) tell_sign(text, whole), start = profile_of(text, whole), is_first = 0;
        answer(text + start, whole - start);
        fflush(stdout);
        held = length - whole;
        memmove(text, text + whole, held);
        if (held == sizeof text) held = MOST_LINE;
    } while (more > 0);
    asked.rules = given;
    return 1;
}

/* ---- files */

static int fails(const char *what, const char *name) {
    fprintf(stderr, "riichi_desk: %s%s\nriichi_desk: %s: %s\n", what, strcmp(what, "fault F1") == 0 ? "" : name, name, strerror(errno));
    return 3;
}

/* Opens a file; `-` is standard input. Less than 0 where it can't be opened. */
static int opened(const char *name) {
    asked.name = strcmp(name, "-") == 0 ? "standard input" : name;
    return strcmp(name, "-") == 0 ? 0 : open(name, READ_ONLY);
}

static int ended(int status) { return fflush(stdout) || ferror(stdout) ? 3 : status ? status : asked.refused; }

/* The line before the answers of a table; in its name `?` stands for what isn't printed ASCII. */
static void put_head(int table) {
    printf("table %d", table);
    for (const char *at = asked.is_numbered ? asked.words[table] : ""; *at; at++) {
        if (at == asked.words[table]) putchar(' ');
        putchar(*at >= ' ' && *at <= '~' ? *at : '?');
    }
    putchar('\n');
}

/* Answers the files that are named, in turn; of `score` each is a table. */
static int answer_files(int are_tables) {
    for (int at = 0; at < asked.count; at++) {
        int stream = opened(asked.words[at]);
        if (stream < 0) return ended(fails("cannot open ", asked.words[at]));
        if (are_tables) put_head(at);
        int is_read = answer_stream(stream);
        if (stream != 0) close(stream);
        if (!is_read) return ended(fails("fault F1", asked.name));
    }
    return ended(0);
}

/* ---- the commands */

/* The words from one on, with a space between, as one text. */
static char *joined(const char *front, char **words, int count) {
    size_t length = strlen(front) + 1;
    for (int at = 0; at < count; at++) length += strlen(words[at]) + 1;
    char *text = malloc(length);
    if (text == NULL) return NULL;
    strcpy(text, front);
    for (int at = 0; at < count; at++) {
        if (*text) strcat(text, " ");
        strcat(text, words[at]);
    }
    return text;
}

/* Says on a terminal below the answer to a line what its refusal means, or which command explains it. */
static void tell_beside(const char *line) {
    static uint8_t room[RIICHI_MOST_ANSWER + RIICHI_MOST_EXPLANATION + 2];
    if (!asked.refused) {
        fprintf(stderr, "  why: riichi_desk explain %s%s%s%s\n", asked.rules_word ? "--rules " : "", asked.rules_word ? asked.rules_word : "",
            asked.rules_word ? " " : "", line);
        return;
    }
    size_t taken, filled = riichi_explain_lines(asked.rules, (const uint8_t *)line, strlen(line), room, sizeof room, &taken);
    size_t first = first_line(room, filled);
    fwrite(room + first, 1, filled - first, stderr);
}

/* One line, whose job is the command. */
static int record(const char *command) {
    if (asked.count == 0) return wrong(command);
    char *line = joined(command, asked.words, asked.count);
    if (line == NULL) return 4;
    answer((const uint8_t *)line, strlen(line));
    int status = ended(0);
    if (isatty(2)) tell_beside(line);
    free(line);
    return status;
}

static int is_job(const char *word) { return strcmp(word, "win") == 0 || strcmp(word, "waits") == 0 || strcmp(word, "shape") == 0; }

/* The words are one line where the first is a job, else each is one. */
static int explain_words(void) {
    int is_one = is_job(asked.words[0]);
    for (int at = 0; at < (is_one ? 1 : asked.count); at++) {
        char *line = is_one ? joined("", asked.words, asked.count) : asked.words[at];
        if (line == NULL) return 4;
        answer((const uint8_t *)line, strlen(line));
        if (is_one) free(line);
    }
    return ended(0);
}

static int lines(const char *command) {
    int explains = strcmp(command, "explain") == 0;
    if (asked.has_workers && asked.is_numbered) return wrong("--workers with --number");
    if (!explains && !asked.is_of_files && asked.count > 0) return wrong(asked.words[0]);
    asked.call = explains ? (asked.is_json ? riichi_explain_json_lines : riichi_explain_lines) : asked.is_json ? riichi_json_lines : riichi_answer_lines;
    if (asked.is_of_files) return asked.count > 0 ? answer_files(0) : wrong("--file");
    if (asked.count > 0) return explain_words();
    return ended(answer_stream(0) ? 0 : fails("fault F1", "standard input"));
}

/* That each file can be opened is seen before anything is answered, and that there are no more than the proved program takes. */
static int score(const char *command) {
    if (asked.count == 0) return wrong(command);
    if (asked.count > 64) {
        fprintf(stderr, "riichi_desk: fault B1\n  %d files: `score` takes 64 at most; run it twice, or `line --file`, which takes any number\n", asked.count);
        return 2;
    }
    for (int at = 0; at < asked.count; at++) {
        int stream = open(asked.words[at], READ_ONLY);
        if (stream < 0) return fails("cannot open ", asked.words[at]);
        close(stream);
    }
    return answer_files(1);
}

/* Answers a whole text of games. */
static int answer_games(const uint8_t *text, size_t length) {
    static uint8_t room[1 << 16];
    size_t from = 0, start, filled;
    do {
        start = from;
        filled = riichi_game_lines(asked.rules, text, length, start, room, sizeof room, &from);
        asked.refused = asked.refused || has_refused(room, filled);
        fwrite(room, 1, filled, stdout);
    } while (from > start && from <= length);
    if (from > length) return 0;
    fprintf(stderr, "riichi_desk: %s: the text is too long for this program\n", asked.name);
    return 2;
}

/* Reads a file of games to its end, and answers it. */
static int game_file(const char *name) {
    int stream = opened(name), more, status = 0;
    size_t length = 0, most = MOST_TEXT;
    uint8_t *text = malloc(most), *larger = text;
    if (stream < 0) status = fails("cannot open ", name);
    while (status == 0 && larger != NULL && (more = (int)read(stream, text + length, MOST_TEXT / 2)) != 0) {
        if (more < 0) status = fails("fault F1", asked.name);
        length += more < 0 ? 0 : (size_t)more;
        if (most - length < MOST_TEXT / 2 && (larger = realloc(text, most *= 2)) != NULL) text = larger;
    }
    if (larger == NULL) status = 4;
    if (stream > 0) close(stream);
    if (status == 0) tell_sign(text, length), status = answer_games(text, length);
    free(text);
    return status;
}

static int game(const char *command) {
    (void)command;
    int status = asked.count == 0 ? game_file("-") : 0;
    for (int at = 0; at < asked.count && status == 0; at++) status = game_file(asked.words[at]);
    return ended(status);
}

enum { JSON = 1, NUMBER = 2, RULES = 4, FILES = 8, PACE = 16 };

static const struct command {
    const char *name;
    int options;
    int (*run)(const char *);
} commands[] = {
    {"win", RULES, record}, {"waits", 0, record}, {"shape", 0, record}, {"line", JSON | NUMBER | RULES | FILES | PACE, lines},
    {"explain", JSON | NUMBER | RULES | FILES, lines}, {"score", NUMBER | RULES | PACE, score}, {"game", RULES, game},
};

/* ---- the command line */

/* What of the program's commands and options isn't here, and where it is. */
static int is_absent(const char *command, const char *word) {
    static const char elsewhere[] = "the program for Linux on x86-64 has it, on Windows under WSL";
    static const char *const others[] = {"need", "seats", "standings", "study", "replay"};
    for (size_t at = 0; at < sizeof others / sizeof *others; at++)
        if (strcmp(command, others[at]) == 0) return absent(command, elsewhere);
    if (strcmp(command, "help-codes") == 0) return absent(command, "NOTATION.md has what each refusal means");
    if (strcmp(command, "help-rules") == 0 || strcmp(command, "help-yaku") == 0) return absent(command, "RULES.md has the rules and the yaku");
    if (strcmp(command, "explain") == 0 && strcmp(word, "--all") == 0) return absent("explain --all", "explain --json has every reading");
    if (strcmp(command, "game") != 0) return 0;
    for (const char *const *it = (const char *const[]){"--explain", "--json", "--number", "--sheet", NULL}; *it; it++)
        if (strcmp(word, *it) == 0) return absent(word, elsewhere);
    return 0;
}

/* Takes the option that stands at a place: how many words it has, and 0 where the command has none such. */
static int option(int options, char **words, int count) {
    if (strcmp(words[0], "--json") == 0 && options & JSON) return asked.is_json = 1;
    if (strcmp(words[0], "--number") == 0 && options & NUMBER) return asked.is_numbered = 1;
    if (strcmp(words[0], "--quiet") == 0 && options & PACE) return 1;
    if (strcmp(words[0], "--file") == 0 && options & FILES) return asked.is_of_files = 1;
    if (count < 2) return 0;
    if (strcmp(words[0], "--workers") == 0 && options & PACE && atoi(words[1]) >= 1 && atoi(words[1]) <= 16) {
        asked.has_workers = 1;
        return 2;
    }
    if (strcmp(words[0], "--rules") != 0 || !(options & RULES) || rules_of(words[1]) == 0) return 0;
    asked.rules = rules_of(words[1]);
    asked.rules_word = words[1];
    return 2;
}

/* Takes the options of a command, and keeps its other words: 0, or the status for a word that is wrong. */
static int read_words(const struct command *command, char **words, int count) {
    asked.words = words;
    for (int at = 0, took; at < count; at += took) {
        took = 1;
        if (words[at][0] == '-' && words[at][1] != '\0') {
            int status = is_absent(command->name, words[at]);
            if (status != 0) return status;
            if ((took = option(command->options, words + at, count - at)) == 0) return wrong(words[at]);
        } else {
            asked.words[asked.count++] = words[at];
        }
    }
    return 0;
}

static int version(void) {
    uint8_t room[64];
    fwrite(room, 1, riichi_version(room, sizeof room), stdout);
    putchar('\n');
    return fflush(stdout) ? 3 : 0;
}

int main(int count, char **words) {
#ifdef _WIN32
    _setmode(0, _O_BINARY);
    _setmode(1, _O_BINARY);
#endif
    const char *command = count > 1 ? words[1] : "";
    if (strcmp(command, "--version") == 0) return version();
    for (int at = 1; at < count; at++)
        if (strcmp(words[at], "--help") == 0) return fputs(help, stdout) < 0 || fflush(stdout) ? 3 : 0;
    for (size_t at = 0; at < sizeof commands / sizeof *commands; at++) {
        if (strcmp(command, commands[at].name) != 0) continue;
        int status = read_words(commands + at, words + 2, count - 2);
        return status ? status : commands[at].run(command);
    }
    return is_absent(command, "") ? 2 : wrong(command);
}
