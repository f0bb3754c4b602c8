/* Writes the inspection copy of all records of a laboratory, read from a file by the C library, as docs/COPIES.md has the lines.
 *
 *     copies FILE LAB >COPY
 *
 * It stands beside `labdesk copy` in bench/copying.py. It reads the same rows by the same keys, a version after the other, and hashes
 * each version's text; what it leaves out is every check of what it reads. It knows records with no more than two signatures and
 * format 2, as tests/model/files.py writes them. Nobody asked for the copy, so the row that says when it was made is another.
 */
#include <sqlite3.h>
#include <stdint.h>
#include <stdio.h>
#include <stdlib.h>
#include <string.h>
#include <time.h>

/* ---- SHA-256, as FIPS 180-4 has it */

static const uint32_t ROUND[64] = {
    0x428a2f98, 0x71374491, 0xb5c0fbcf, 0xe9b5dba5, 0x3956c25b, 0x59f111f1, 0x923f82a4, 0xab1c5ed5, 0xd807aa98, 0x12835b01, 0x243185be,
    0x550c7dc3, 0x72be5d74, 0x80deb1fe, 0x9bdc06a7, 0xc19bf174, 0xe49b69c1, 0xefbe4786, 0x0fc19dc6, 0x240ca1cc, 0x2de92c6f, 0x4a7484aa,
    0x5cb0a9dc, 0x76f988da, 0x983e5152, 0xa831c66d, 0xb00327c8, 0xbf597fc7, 0xc6e00bf3, 0xd5a79147, 0x06ca6351, 0x14292967, 0x27b70a85,
    0x2e1b2138, 0x4d2c6dfc, 0x53380d13, 0x650a7354, 0x766a0abb, 0x81c2c92e, 0x92722c85, 0xa2bfe8a1, 0xa81a664b, 0xc24b8b70, 0xc76c51a3,
    0xd192e819, 0xd6990624, 0xf40e3585, 0x106aa070, 0x19a4c116, 0x1e376c08, 0x2748774c, 0x34b0bcb5, 0x391c0cb3, 0x4ed8aa4a, 0x5b9cca4f,
    0x682e6ff3, 0x748f82ee, 0x78a5636f, 0x84c87814, 0x8cc70208, 0x90befffa, 0xa4506ceb, 0xbef9a3f7, 0xc67178f2};

struct hash {
    uint32_t state[8];
    uint64_t length;
    unsigned char block[64];
};

static uint32_t turned(uint32_t word, int by) {
    return word >> by | word << (32 - by);
}

static void mix(struct hash *one) {
    uint32_t w[64], s[8];
    for (int at = 0; at < 16; at++) {
        const unsigned char *b = one->block + 4 * at;
        w[at] = (uint32_t)b[0] << 24 | b[1] << 16 | b[2] << 8 | b[3];
    }
    for (int at = 16; at < 64; at++) {
        uint32_t a = w[at - 15], b = w[at - 2];
        w[at] = w[at - 16] + w[at - 7] + (turned(a, 7) ^ turned(a, 18) ^ a >> 3) + (turned(b, 17) ^ turned(b, 19) ^ b >> 10);
    }
    memcpy(s, one->state, sizeof s);
    for (int at = 0; at < 64; at++) {
        uint32_t first = s[7] + (turned(s[4], 6) ^ turned(s[4], 11) ^ turned(s[4], 25)) + ((s[4] & s[5]) ^ (~s[4] & s[6])) + ROUND[at] + w[at];
        uint32_t second = (turned(s[0], 2) ^ turned(s[0], 13) ^ turned(s[0], 22)) + ((s[0] & s[1]) ^ (s[0] & s[2]) ^ (s[1] & s[2]));
        memmove(s + 1, s, 7 * sizeof *s);
        s[4] += first;
        s[0] = first + second;
    }
    for (int at = 0; at < 8; at++) {
        one->state[at] += s[at];
    }
}

static void start(struct hash *one) {
    static const uint32_t first[8] = {0x6a09e667, 0xbb67ae85, 0x3c6ef372, 0xa54ff53a, 0x510e527f, 0x9b05688c, 0x1f83d9ab, 0x5be0cd19};
    memcpy(one->state, first, sizeof first);
    one->length = 0;
}

static void add(struct hash *one, const void *bytes, size_t length) {
    for (const unsigned char *from = bytes; length > 0;) {
        size_t used = one->length % 64, part = 64 - used < length ? 64 - used : length;
        memcpy(one->block + used, from, part);
        one->length += part, from += part, length -= part;
        if (used + part == 64) {
            mix(one);
        }
    }
}

static void finish(struct hash *one, char digits[65]) {
    unsigned char end[72] = {0x80}, bits[8];
    for (int at = 0; at < 8; at++) {
        bits[at] = 8 * one->length >> (56 - 8 * at);
    }
    add(one, end, 1 + (119 - one->length % 64) % 64);
    add(one, bits, 8);
    for (int at = 0; at < 8; at++) {
        sprintf(digits + 8 * at, "%08x", one->state[at]);
    }
}

/* An item of a version's text. */
static void item(struct hash *text, const char *bytes) {
    char head[24];
    size_t length = strlen(bytes);
    add(text, head, sprintf(head, "%zu:", length));
    add(text, bytes, length);
    add(text, "\n", 1);
}

static void number_item(struct hash *text, int number) {
    char digits[12];
    sprintf(digits, "%d", number);
    item(text, digits);
}

/* ---- the file */

static sqlite3 *base;

static void stop(const char *what) {
    fprintf(stderr, "copies: %s: %s\n", what, base ? sqlite3_errmsg(base) : "");
    exit(1);
}

static sqlite3_stmt *prepared(const char *sql) {
    sqlite3_stmt *made;
    if (sqlite3_prepare_v3(base, sql, -1, SQLITE_PREPARE_PERSISTENT, &made, NULL) != SQLITE_OK) {
        stop(sql);
    }
    return made;
}

static sqlite3_stmt *asked(sqlite3_stmt *one, sqlite3_int64 first) {
    sqlite3_reset(one);
    sqlite3_bind_int64(one, 1, first);
    return one;
}

static int row(sqlite3_stmt *one) {
    int told = sqlite3_step(one);
    if (told != SQLITE_ROW && told != SQLITE_DONE) {
        stop(sqlite3_sql(one));
    }
    return told == SQLITE_ROW;
}

/* A text, which is empty for NULL. */
static const char *text_at(sqlite3_stmt *one, int at) {
    const unsigned char *text = sqlite3_column_text(one, at);
    return text ? (const char *)text : "";
}

/* ---- lines */

static void field(const char *text) {
    if (!strpbrk(text, ",\"\r\n")) {
        fputs(text, stdout);
        return;
    }
    putchar('"');
    for (; *text; text++) {
        if (*text == '"') {
            putchar('"');
        }
        putchar(*text);
    }
    putchar('"');
}

static void line(int count, const char *const *fields) {
    for (int at = 0; at < 13; at++) {
        field(at < count ? fields[at] : "");
        putchar(at < 12 ? ',' : '\n');
    }
}

#define LINE(...) line(sizeof((const char *[]){__VA_ARGS__}) / sizeof(char *), (const char *[]){__VA_ARGS__})

static const char *moment(sqlite3_int64 seconds, char text[24]) {
    time_t at = seconds;
    struct tm parts;
    strftime(text, 24, "%Y-%m-%dT%H:%M:%SZ", gmtime_r(&at, &parts));
    return text;
}

static const char *hexadecimal(sqlite3_stmt *one, int at, char digits[65]) {
    const unsigned char *bytes = sqlite3_column_blob(one, at);
    for (int byte = 0; byte < 32; byte++) {
        sprintf(digits + 2 * byte, "%02x", bytes[byte]);
    }
    return digits;
}

/* ---- records */

static sqlite3_stmt *records, *versions, *entries, *signatures;
static const char *lab;
static int rows_told, signatures_told, versions_told;

static void prepare(void) {
    records = prepared("SELECT records.id, sample, form_code, version, approval FROM records, forms WHERE records.lab = ?1 AND number = ?2 "
                       "AND forms.id = form");
    versions = prepared("SELECT versions.id, number, persons.code, opened, reason, (SELECT count(*) FROM entries WHERE version = versions.id), "
                        "(SELECT count(*) FROM signatures WHERE version = versions.id) FROM versions, persons WHERE record = ?1 AND "
                        "persons.id = opener ORDER BY number");
    entries = prepared("SELECT key, value, unit, code, moment, reason FROM entries, persons WHERE version = ?1 AND persons.id = person "
                       "ORDER BY place");
    signatures = prepared("SELECT meaning, code, signatures.name, moment, reason, digest, seal FROM signatures, persons WHERE version = ?1 "
                          "AND persons.id = person ORDER BY place");
}

/* The digest of the version at hand, after that of the one before. */
static void hash_version(const char *number, const char *previous, char digest[65]) {
    struct hash text;
    char when[24];
    start(&text);
    item(&text, "labrecord 2");
    item(&text, lab);
    item(&text, number);
    number_item(&text, sqlite3_column_int(versions, 1));
    item(&text, text_at(records, 2));
    item(&text, text_at(records, 3));
    item(&text, sqlite3_column_int(records, 4) ? "yes" : "no");
    item(&text, text_at(records, 1));
    item(&text, previous);
    item(&text, text_at(versions, 4));
    item(&text, text_at(versions, 2));
    item(&text, moment(sqlite3_column_int64(versions, 3), when));
    number_item(&text, sqlite3_column_int(versions, 5));
    for (asked(entries, sqlite3_column_int64(versions, 0)); row(entries);) {
        for (int at = 0; at < 4; at++) {
            item(&text, text_at(entries, at));
        }
        item(&text, moment(sqlite3_column_int64(entries, 4), when));
        item(&text, text_at(entries, 5));
    }
    finish(&text, digest);
}

static void write_version(const char *number, char digest[65]) {
    static const char *states[] = {"open", "signed", "released"};
    char previous[65], at[12], when[24], digits[65], seal[65];
    strcpy(previous, digest);
    hash_version(number, previous, digest);
    sprintf(at, "%d", sqlite3_column_int(versions, 1));
    LINE("version", lab, number, at, "2", states[sqlite3_column_int(versions, 6)], "", text_at(versions, 2), "",
         moment(sqlite3_column_int64(versions, 3), when), text_at(versions, 4), digest);
    for (asked(entries, sqlite3_column_int64(versions, 0)); row(entries); rows_told++) {
        LINE("entry", lab, number, at, text_at(entries, 0), text_at(entries, 1), text_at(entries, 2), text_at(entries, 3), "",
             moment(sqlite3_column_int64(entries, 4), when), text_at(entries, 5));
    }
    for (asked(signatures, sqlite3_column_int64(versions, 0)); row(signatures); signatures_told++) {
        LINE("signature", lab, number, at, "", text_at(signatures, 0), "", text_at(signatures, 1), text_at(signatures, 2),
             moment(sqlite3_column_int64(signatures, 3), when), text_at(signatures, 4), hexadecimal(signatures, 5, digits),
             hexadecimal(signatures, 6, seal));
    }
    versions_told++;
}

static void write_record(sqlite3_int64 at, int number) {
    char digits[12], digest[65] = "-";
    sprintf(digits, "%d", number);
    asked(records, at);
    sqlite3_bind_int(records, 2, number);
    if (!row(records)) {
        stop("no such record");
    }
    LINE("record", lab, digits, text_at(records, 3), text_at(records, 2), text_at(records, 1));
    for (asked(versions, sqlite3_column_int64(records, 0)); row(versions);) {
        write_version(digits, digest);
    }
}

int main(int words, char **word) {
    static char buffer[65536];
    char count[12], all[3][12];
    setvbuf(stdout, buffer, _IOFBF, sizeof buffer);
    if (words != 3 || sqlite3_open_v2(word[1], &base, SQLITE_OPEN_READONLY, NULL) != SQLITE_OK) {
        stop("usage: copies FILE LAB");
    }
    prepare();
    lab = word[2];
    sqlite3_stmt *one = prepared("SELECT id, name, records FROM labs WHERE code = ?1");
    sqlite3_bind_text(one, 1, lab, -1, SQLITE_STATIC);
    if (!row(one)) {
        stop("no such laboratory");
    }
    sprintf(count, "%d", sqlite3_column_int(one, 2));
    puts("kind,lab,record,version,key,value,unit,person,name,moment,reason,digest,seal");
    LINE("copy", lab, "1", count, "2", "", "", "", text_at(one, 1), "1970-01-01T00:00:00Z");
    for (int number = 1; number <= sqlite3_column_int(one, 2); number++) {
        write_record(sqlite3_column_int64(one, 0), number);
    }
    sprintf(all[0], "%d", versions_told);
    sprintf(all[1], "%d", rows_told);
    sprintf(all[2], "%d", signatures_told);
    LINE("end", lab, count, all[0], all[1], all[2]);
    return fflush(stdout) == 0 ? 0 : 1;
}
