/* Plays the statements of requests over a file of laboratories, by the C library alone, and prints what each part of the play took.
 *
 *     plays FILE <PLAY
 *
 * A play is text; bench/statements.py writes it. It has a line for each of these:
 *
 *     text SQL           a statement; the first has the number 0. It is prepared before the first part, and kept
 *     part NAME          here begins what is measured under this name, and the part before it ends
 *     request            here begins one more request of the part
 *     some AT VALUE ..   the statement of that number is run with these values, and shows a row at least
 *     any AT VALUE ..    it may also show none
 *     set AT VALUE ..    it changes one row
 *
 * A value is - for NULL, i and a whole number, t and the bytes of a text in hexadecimal, or b and those of a blob. All lines are read
 * before the first part begins. Each column of a row is asked for, as a caller does. For each part a line is printed: its name, how
 * many requests it had, and the processor's seconds of this process that they took. Under `valgrind --tool=callgrind
 * --instr-atstart=no` the instructions of each part are dumped besides, by its name.
 *
 * The file is held as `labdesk serve` holds it: alone, with a log that is synced, and with its arrows looked after.
 */
#include <sqlite3.h>
#include <stdio.h>
#include <stdlib.h>
#include <string.h>
#include <time.h>
#if __has_include(<valgrind/callgrind.h>)
#include <valgrind/callgrind.h>
#else
#define CALLGRIND_START_INSTRUMENTATION
#define CALLGRIND_STOP_INSTRUMENTATION
#define CALLGRIND_ZERO_STATS
#define CALLGRIND_DUMP_STATS_AT(name)
#endif

enum { MOST_TEXTS = 64, MOST_VALUES = 32 };

struct value {
    char kind;
    sqlite3_int64 number;
    unsigned char *bytes;
    int length;
};

/* A line of the play: how it begins (p, r, s, a or t for set), the name of a part, or the number and the values of a statement. */
struct line {
    char kind;
    char *name;
    int at;
    int count;
    struct value *values;
};

static sqlite3 *base;
static sqlite3_stmt *kept[MOST_TEXTS];
static int texts;
static struct line *lines;
static size_t count, room;
/* What the columns come to, so that no compiler leaves them out. */
static volatile sqlite3_int64 seen;

static void stop(const char *what) {
    fprintf(stderr, "plays: %s: %s\n", what, base ? sqlite3_errmsg(base) : "");
    exit(1);
}

static void *taken(void *memory) {
    if (!memory) {
        stop("out of memory");
    }
    return memory;
}

/* ---- the play */

static unsigned digit(char one) {
    return one <= '9' ? one - '0' : one - 'a' + 10;
}

static struct value value_of(const char *word) {
    struct value made = {.kind = word[0]};
    if (word[0] == 'i') {
        made.number = strtoll(word + 1, NULL, 10);
    } else if (word[0] != '-') {
        made.length = (int)strlen(word + 1) / 2;
        made.bytes = taken(malloc(made.length + 1));
        for (int at = 0; at < made.length; at++) {
            made.bytes[at] = digit(word[1 + 2 * at]) << 4 | digit(word[2 + 2 * at]);
        }
    }
    return made;
}

static void add_text(const char *sql) {
    if (texts == MOST_TEXTS || sqlite3_prepare_v3(base, sql, -1, SQLITE_PREPARE_PERSISTENT, &kept[texts], NULL) != SQLITE_OK) {
        stop(sql);
    }
    texts++;
}

static struct line line_of(const char *word, char *rest) {
    struct line made = {.kind = word[0]};
    if (!strcmp(word, "part")) {
        made.name = taken(strdup(rest));
    } else if (!strcmp(word, "set")) {
        made.kind = 't';
    }
    if (made.kind != 'p' && made.kind != 'r') {
        struct value found[MOST_VALUES];
        made.at = atoi(strtok(rest, " "));
        for (char *one; (one = strtok(NULL, " "));) {
            if (made.count == MOST_VALUES) {
                stop("too many values");
            }
            found[made.count++] = value_of(one);
        }
        made.values = taken(malloc(sizeof found));
        memcpy(made.values, found, sizeof found[0] * made.count);
    }
    return made;
}

static void read_play(void) {
    char *text = NULL;
    size_t size = 0;
    for (ssize_t length; (length = getline(&text, &size, stdin)) > 0;) {
        text[length - 1] = 0;
        char *rest = strchr(text, ' ');
        rest = rest ? (*rest = 0, rest + 1) : text + strlen(text);
        if (!strcmp(text, "text")) {
            add_text(rest);
            continue;
        }
        if (count == room) {
            room = room ? 2 * room : 1024;
            lines = taken(realloc(lines, room * sizeof *lines));
        }
        lines[count++] = line_of(text, rest);
    }
    free(text);
}

/* ---- what is played */

static void bind(sqlite3_stmt *one, int at, const struct value *value) {
    int told;
    switch (value->kind) {
    case '-': told = sqlite3_bind_null(one, at); break;
    case 'i': told = sqlite3_bind_int64(one, at, value->number); break;
    case 't': told = sqlite3_bind_text(one, at, (char *)value->bytes, value->length, SQLITE_STATIC); break;
    default: told = sqlite3_bind_blob(one, at, value->bytes, value->length, SQLITE_STATIC);
    }
    if (told != SQLITE_OK) {
        stop("a value");
    }
}

static void look(sqlite3_stmt *one) {
    for (int at = 0, columns = sqlite3_column_count(one); at < columns; at++) {
        if (sqlite3_column_type(one, at) == SQLITE_INTEGER) {
            seen += sqlite3_column_int64(one, at);
        } else {
            seen += sqlite3_column_blob(one, at) ? sqlite3_column_bytes(one, at) : 0;
        }
    }
}

static void run(const struct line *line) {
    sqlite3_stmt *one = kept[line->at];
    int rows = 0, told;
    for (int at = 0; at < line->count; at++) {
        bind(one, at + 1, &line->values[at]);
    }
    for (; (told = sqlite3_step(one)) == SQLITE_ROW; rows++) {
        look(one);
    }
    if (told != SQLITE_DONE || (line->kind == 's' && !rows) || (line->kind == 't' && sqlite3_changes(base) != 1)) {
        stop(sqlite3_sql(one));
    }
    sqlite3_reset(one);
}

static double spent(void) {
    struct timespec now;
    clock_gettime(CLOCK_PROCESS_CPUTIME_ID, &now);
    return now.tv_sec + now.tv_nsec / 1e9;
}

/* Plays the part that begins there, and answers where the next one begins. */
static size_t play(size_t at) {
    const char *name = lines[at].name;
    int requests = 0;
    CALLGRIND_ZERO_STATS;
    double begun = spent();
    for (at++; at < count && lines[at].kind != 'p'; at++) {
        if (lines[at].kind == 'r') {
            requests++;
        } else {
            run(&lines[at]);
        }
    }
    double took = spent() - begun;
    CALLGRIND_DUMP_STATS_AT(name);
    printf("%s %d %.9f\n", name, requests, took);
    return at;
}

static void open_file(const char *path) {
    static const char *rules = "PRAGMA locking_mode = EXCLUSIVE; PRAGMA journal_mode = WAL; PRAGMA synchronous = EXTRA; "
                               "PRAGMA foreign_keys = ON";
    if (sqlite3_open_v2(path, &base, SQLITE_OPEN_READWRITE, NULL) != SQLITE_OK || sqlite3_exec(base, rules, NULL, NULL, NULL) != SQLITE_OK) {
        stop(path);
    }
}

int main(int words, char **word) {
    if (words != 2) {
        stop("usage: plays FILE <PLAY");
    }
    open_file(word[1]);
    read_play();
    CALLGRIND_START_INSTRUMENTATION;
    for (size_t at = 0; at < count;) {
        at = play(at);
    }
    CALLGRIND_STOP_INSTRUMENTATION;
    for (int at = 0; at < texts; at++) {
        sqlite3_finalize(kept[at]);
    }
    return sqlite3_close(base) == SQLITE_OK ? 0 : 1;
}
