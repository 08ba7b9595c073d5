/* The C interface used as a rack's controller would use it: every file of runs/ is reported, printed, parsed back, read
 * and written again, in buffers with guard bytes on both sides; with exact room, with a byte too little, and damaged.
 *     rack RUNS-FOLDER
 * One line a check, then `ok`; exit 1 and `FAILED` at the end if a check fails. */
#include "stepbench.h"
#include <stdarg.h>
#include <stdbool.h>
#include <stdio.h>
#include <stdlib.h>
#include <string.h>

enum { GUARD = 64, UNTOUCHED = 0xa5, ROOM = 160000 };

static int failures;

static void check(bool holds, const char *form, ...) {
    va_list arguments;
    va_start(arguments, form);
    printf("%s ", holds ? "ok  " : "FAIL");
    vprintf(form, arguments);
    putchar('\n');
    va_end(arguments);
    failures += !holds;
}

/* Lent memory: a buffer of exactly `room` bytes between guards, all of it UNTOUCHED. */
struct lent {
    uint8_t *whole;
    uint8_t *bytes;
    size_t room;
};

static struct lent lend(size_t room) {
    struct lent l = {malloc(GUARD + room + GUARD), NULL, room};
    if (!l.whole) {
        perror("malloc");
        exit(2);
    }
    memset(l.whole, UNTOUCHED, GUARD + room + GUARD);
    l.bytes = l.whole + GUARD;
    return l;
}

static bool untouched(const uint8_t *from, const uint8_t *to) {
    while (from < to)
        if (*from++ != UNTOUCHED)
            return false;
    return true;
}

/* No byte changed but the first `length` of the buffer. */
static bool only(const struct lent *l, size_t length) {
    return length <= l->room && untouched(l->whole, l->bytes) &&
           untouched(l->bytes + length, l->bytes + l->room + GUARD);
}

struct file {
    uint8_t bytes[ROOM];
    size_t length;
};

static bool load(const char *folder, int number, const char *end, struct file *file) {
    char path[4096];
    snprintf(path, sizeof path, "%s/r%d.%s", folder, number, end);
    FILE *stream = fopen(path, "rb");
    if (!stream) {
        perror(path);
        return false;
    }
    file->length = fread(file->bytes, 1, sizeof file->bytes, stream);
    return fclose(stream) == 0;
}

typedef uint64_t turned(const uint8_t *from, size_t from_len, uint8_t *out, size_t out_len);

/* The answer in a buffer of `room` bytes is this word, and the buffer then holds these bytes and no others. What is given
 * stands among guards too, in a block of just its length, and stays as it was. */
static bool gives(turned *function, const struct file *from, size_t room, uint64_t word, const uint8_t *bytes) {
    struct lent l = lend(room), given = lend(from->length);
    memcpy(given.bytes, from->bytes, from->length);
    uint64_t answer = function(given.bytes, from->length, l.bytes, room);
    size_t length = STEPBENCH_LENGTH(word);
    bool same = answer == word && only(&l, length) && (length == 0 || memcmp(l.bytes, bytes, length) == 0) &&
                only(&given, from->length) && memcmp(given.bytes, from->bytes, from->length) == 0;
    free(l.whole);
    free(given.whole);
    return same;
}

static uint64_t refusal(unsigned number, uint32_t k) { return (uint64_t)number << 56 | (uint64_t)k << 32; }

/* With ample room, with just enough, and with one byte too little. */
static void in_every_room(const char *name, int number, turned *function, const struct file *from,
                          const struct file *output, size_t enough) {
    size_t length = output->length;
    check(gives(function, from, enough, length, output->bytes), "r%d: %s, room %zu", number, name, enough);
    check(gives(function, from, length, length, output->bytes), "r%d: %s, room %zu", number, name, length);
    check(gives(function, from, length - 1, refusal(STEPBENCH_SHORT, 0), NULL), "r%d: %s, room %zu: refused 14", number,
          name, length - 1);
    check(gives(function, from, 0, refusal(STEPBENCH_SHORT, 0), NULL), "r%d: %s, room 0: refused 14", number, name);
}

/* The numbers of a file, lent as four numbers among guards. */
struct numbers {
    uint64_t before;
    uint32_t x, n;
    uint64_t between;
    size_t q, t;
    uint64_t after;
};

static uint64_t numbers_of(const struct file *file, struct numbers *r) {
    memset(r, UNTOUCHED, sizeof *r);
    return stepbench_read(file->bytes, file->length, &r->x, &r->n, &r->q, &r->t);
}

static bool guarded(const struct numbers *r) {
    const uint64_t guard = 0xa5a5a5a5a5a5a5a5;
    return r->before == guard && r->between == guard && r->after == guard;
}

static bool unread(const struct numbers *r) {
    return guarded(r) && r->x == 0xa5a5a5a5 && r->n == 0xa5a5a5a5 && r->q == 0xa5a5a5a5a5a5a5a5 &&
           r->t == 0xa5a5a5a5a5a5a5a5;
}

static uint64_t written(const struct numbers *r, const uint8_t *parts, size_t table_len, struct lent *l) {
    return stepbench_write(r->x, r->n, parts, table_len, parts + table_len, r->t, l->bytes, l->room);
}

/* The parts of a good file are read out of it and written into the same file again. */
static void read_and_written(int number, const struct file *file) {
    struct numbers r;
    uint64_t read = numbers_of(file, &r);
    check(read == 0 && guarded(&r) && 16 + r.t + 12 * r.q == file->length,
          "r%d: read: x %u, n %u, q %zu, t %zu", number, r.x, r.n, r.q, r.t);
    for (size_t room = file->length - 1; room <= file->length + 1; room++) {
        struct lent l = lend(room);
        uint64_t word = written(&r, file->bytes, 12 * r.q, &l);
        bool fits = room >= file->length;
        bool same = fits ? word == file->length && only(&l, file->length) &&
                               memcmp(l.bytes, file->bytes, file->length) == 0
                         : word == refusal(STEPBENCH_SHORT, 0) && only(&l, 0);
        check(same, "r%d: written again, room %zu%s", number, room, fits ? "" : ": refused 14");
        free(l.whole);
    }
}

/* A refused file: the same refusal by report, print and read, and nothing changed. */
static void refused(const char *what, const struct file *file, unsigned number, uint32_t k) {
    uint64_t word = refusal(number, k);
    struct numbers r;
    bool same = gives(stepbench_report, file, STEPBENCH_REPORT_ROOM, word, NULL) &&
                gives(stepbench_report, file, 0, word, NULL) &&
                gives(stepbench_print, file, STEPBENCH_TEXT_ROOM, word, NULL) && numbers_of(file, &r) == word && unread(&r);
    check(same, "%s: refused %u %u", what, number, k);
}

/* One byte of a good file changed. */
static void damaged(const struct file *good, const char *what, size_t at, uint8_t byte, unsigned number, uint32_t k) {
    struct file file = *good;
    file.bytes[at] = byte;
    refused(what, &file, number, k);
}

/* R1 has 2 stations, 3 calls and 22 turns: 36 + 22 + 16 bytes. */
static void damage(const struct file *r1) {
    struct file file = *r1;
    for (file.length = 0; file.length < 16; file.length++)
        refused("a file that is too short", &file, STEPBENCH_BAD_LENGTH, 0);
    file.length = STEPBENCH_FILE_ROOM + 1;
    refused("a file that is too long", &file, STEPBENCH_BAD_LENGTH, 0);
    size_t trailer = r1->length - 16;
    damaged(r1, "form 2", trailer + 5, 2, STEPBENCH_BAD_FORM, 0);
    damaged(r1, "no station", trailer + 4, 0, STEPBENCH_BAD_STATIONS, 0);
    damaged(r1, "33 stations", trailer + 4, 33, STEPBENCH_BAD_STATIONS, 0);
    damaged(r1, "1,027 calls", trailer + 7, 4, STEPBENCH_MANY_CALLS, 0);
    damaged(r1, "65,558 turns", trailer + 14, 1, STEPBENCH_MANY_TURNS, 0);
    damaged(r1, "23 turns claimed", trailer + 12, 23, STEPBENCH_DISAGREE, 0);
    damaged(r1, "kind 3 in call 2", 12 + 2, 3, STEPBENCH_BAD_CALL, 2);
    damaged(r1, "a value in the read, call 3", 24 + 4, 1, STEPBENCH_BAD_CALL, 3);
    damaged(r1, "turn 22 of station 3", 36 + 21, 3, STEPBENCH_BAD_TURN, 22);
    file = *r1;
    memmove(file.bytes + 1, r1->bytes, r1->length);
    file.length = r1->length + 1;
    refused("a byte put in front", &file, STEPBENCH_DISAGREE, 0);
}

static void one_write(const char *what, uint32_t n, const uint8_t *table, size_t table_len, const uint8_t *turns,
                      size_t turns_len, uint64_t word) {
    struct lent l = lend(STEPBENCH_FILE_ROOM);
    uint64_t answer = stepbench_write(4, n, table, table_len, turns, turns_len, l.bytes, l.room);
    check(answer == word && only(&l, 0), "write, %s: refused %u %u", what, STEPBENCH_REFUSED(word), STEPBENCH_K(word));
    free(l.whole);
}

static void refused_writes(const struct file *r1) {
    static const uint8_t none[12 * 1025 > 40961 ? 12 * 1025 : 40961];
    const uint8_t *turns = r1->bytes + 36;
    one_write("no station", 0, r1->bytes, 36, turns, 22, refusal(STEPBENCH_BAD_STATIONS, 0));
    one_write("256 stations", 256, r1->bytes, 36, turns, 22, refusal(STEPBENCH_BAD_STATIONS, 0));
    one_write("1,025 calls", 2, none, 12 * 1025, turns, 22, refusal(STEPBENCH_MANY_CALLS, 0));
    one_write("40,961 turns", 2, r1->bytes, 36, none, 40961, refusal(STEPBENCH_MANY_TURNS, 0));
    one_write("a table of 35 bytes", 2, r1->bytes, 35, turns, 22, refusal(STEPBENCH_DISAGREE, 0));
    one_write("station 2 of 1 in call 2", 1, r1->bytes, 36, turns, 22, refusal(STEPBENCH_BAD_CALL, 2));
    one_write("turn 1 of station 0", 2, r1->bytes, 36, none, 40960, refusal(STEPBENCH_BAD_TURN, 1));
}

static void one_text(const char *text, unsigned expected, uint32_t line) {
    struct file file = {.length = strlen(text)};
    memcpy(file.bytes, text, file.length);
    check(gives(stepbench_parse, &file, STEPBENCH_FILE_ROOM, refusal(expected, line), NULL),
          "a text refused: expected %u in line %u", expected, line);
}

static void refused_texts(void) {
    one_text("", 1, 1);
    one_text("start 4294967296\n", 2, 1);
    one_text("start 4 5\n", 3, 1);
    one_text("start 4\n\n# no stations\n", 4, 4);
    one_text("start 4\nstations 33\n", 5, 2);
    one_text("start 4\nstations 2\n3 read\n", 6, 3);
    one_text("start 4\nstations 2\n1 raed\n", 7, 3);
    one_text("start 4\nstations 2\nturns\n1 2\n3", 8, 5);
}

/* A text of so many empty lines, and then a word that is not expected. */
static void late_text(size_t lines, uint32_t line) {
    uint8_t *text = malloc(lines + 1);
    if (!text) {
        perror("malloc");
        exit(2);
    }
    memset(text, '\n', lines);
    text[lines] = 'x';
    struct lent l = lend(STEPBENCH_FILE_ROOM);
    uint64_t word = stepbench_parse(text, lines + 1, l.bytes, l.room);
    check(word == refusal(1, line) && only(&l, 0), "a text refused after %zu lines: in line %u", lines, line);
    free(l.whole);
    free(text);
}

/* The widest words: the longest text there is, of a file that is as long as it can be. */
static void longest(void) {
    static struct file file, text;
    static uint8_t parts[12 * 1024 + 40960];
    for (size_t call = 0; call < 1024; call++) {
        uint8_t *record = parts + 12 * call;
        memset(record, 0xff, 12);
        record[0] = 32, record[1] = 0, record[2] = 2, record[3] = 0;
    }
    memset(parts + 12 * 1024, 32, 40960);
    struct lent l = lend(STEPBENCH_FILE_ROOM), page = lend(STEPBENCH_TEXT_ROOM);
    uint64_t word =
        stepbench_write(UINT32_MAX, 32, parts, 12 * 1024, parts + 12 * 1024, 40960, l.bytes, l.room);
    check(word == STEPBENCH_FILE_ROOM && only(&l, l.room), "the longest file: %zu bytes", STEPBENCH_LENGTH(word));
    file.length = l.room;
    memcpy(file.bytes, l.bytes, l.room);
    word = stepbench_print(file.bytes, file.length, page.bytes, page.room);
    text.length = STEPBENCH_LENGTH(word);
    check(word == text.length && only(&page, text.length), "its text: %zu bytes", text.length);
    memcpy(text.bytes, page.bytes, text.length);
    in_every_room("the longest text parsed", 0, stepbench_parse, &text, &file, STEPBENCH_FILE_ROOM);
    free(l.whole);
    free(page.whole);
}

/* A report: the bytes of rN.report, or the refusal that it tells. */
static void reported(int number, const struct file *file, const struct file *report) {
    unsigned n, k;
    if (sscanf((const char *)report->bytes, "refused %u %u", &n, &k) == 2) {
        char name[32];
        snprintf(name, sizeof name, "r%d", number);
        refused(name, file, n, k);
        return;
    }
    in_every_room("report", number, stepbench_report, file, report, STEPBENCH_REPORT_ROOM);
    read_and_written(number, file);
}

static void printed_and_parsed(int number, const struct file *file, const struct file *written_by_hand) {
    static struct file text;
    struct lent l = lend(STEPBENCH_TEXT_ROOM);
    uint64_t word = stepbench_print(file->bytes, file->length, l.bytes, l.room);
    if (STEPBENCH_REFUSED(word) == 0) {
        memset(&text, 0, sizeof text);
        text.length = STEPBENCH_LENGTH(word);
        memcpy(text.bytes, l.bytes, text.length);
        in_every_room("print", number, stepbench_print, file, &text, STEPBENCH_TEXT_ROOM);
        in_every_room("parse", number, stepbench_parse, &text, file, STEPBENCH_FILE_ROOM);
        in_every_room("parse by hand", number, stepbench_parse, written_by_hand, file, STEPBENCH_FILE_ROOM);
    }
    free(l.whole);
}

int main(int count, char **words) {
    static struct file file, report, text;
    if (count != 2) {
        fprintf(stderr, "usage: rack RUNS-FOLDER\n");
        return 2;
    }
    for (int number = 1; number <= 8; number++) {
        memset(&report, 0, sizeof report);
        if (!load(words[1], number, "run", &file) || !load(words[1], number, "report", &report) ||
            !load(words[1], number, "txt", &text))
            return 2;
        reported(number, &file, &report);
        printed_and_parsed(number, &file, &text);
    }
    if (!load(words[1], 1, "run", &file))
        return 2;
    damage(&file);
    refused_writes(&file);
    refused_texts();
    late_text(16777213, 16777214);
    late_text(16777214, 16777215);
    late_text(16777215, 16777215);
    late_text(17000000, 16777215);
    longest();
    puts(failures ? "FAILED" : "ok");
    return failures != 0;
}
