/* The library's functions by request, for a program that can't link the archive: it is for x86-64, and the caller may be for
 * another processor. A request on standard input, all numbers little-endian:
 *     a letter: r report, p print, t parse, w write, d read
 *     five numbers of 4 bytes: x, n, the length of the first part, the length of the second, the bytes to lend
 *     the first part (the file, the text or the call table), then the second (the turns, of w alone)
 * The answer on standard output:
 *     the function's word, 8 bytes; then a byte, 1 where no byte was changed but the output's, 0 where one was;
 *     a number of 4 bytes and so many bytes: the output (of d: x and n in 4 bytes each, q and t in 8 each)
 * The buffer lent has guard bytes on both sides. It ends with the input. */
#include "stepbench.h"

#include <stdio.h>
#include <stdlib.h>
#include <string.h>

#define GUARD 64u
#define UNTOUCHED 0xa5

static uint32_t number(const uint8_t *from) {
    return (uint32_t)from[0] | (uint32_t)from[1] << 8 | (uint32_t)from[2] << 16 | (uint32_t)from[3] << 24;
}

static void put(uint8_t *to, uint64_t x, size_t width) {
    for (size_t i = 0; i < width; i++) to[i] = (uint8_t)(x >> (8 * i));
}

static void *room(size_t bytes) {
    void *got = malloc(bytes + 1);
    if (got == NULL) {
        fputs("serve: no memory\n", stderr);
        exit(3);
    }
    return got;
}

static void need(size_t got, size_t wanted) {
    if (got == wanted) return;
    fputs("serve: the request is cut, or the answer can't be written\n", stderr);
    exit(3);
}

/* Whether all bytes from `from` up to `to` are untouched. */
static int clean(const uint8_t *buffer, size_t from, size_t to) {
    for (size_t i = from; i < to; i++)
        if (buffer[i] != UNTOUCHED) return 0;
    return 1;
}

static size_t numbers(const uint8_t *file, size_t len, uint8_t *out, uint64_t *word) {
    uint32_t x = 0, n = 0;
    size_t q = 0, t = 0;
    *word = stepbench_read(file, len, &x, &n, &q, &t);
    put(out, x, 4);
    put(out + 4, n, 4);
    put(out + 8, q, 8);
    put(out + 16, t, 8);
    return 24;
}

int main(void) {
    uint8_t head[21];
    while (fread(head, 1, 1, stdin) == 1) {
        need(fread(head + 1, 1, 20, stdin), 20);
        uint32_t x = number(head + 1), n = number(head + 5);
        size_t first = number(head + 9), second = number(head + 13), lent = number(head + 17);
        uint8_t *part = room(first + second), *buffer = room(lent + 2 * GUARD + 24), *out = buffer + GUARD;
        need(fread(part, 1, first + second, stdin), first + second);
        memset(buffer, UNTOUCHED, lent + 2 * GUARD);
        uint64_t word = 0;
        size_t length = 0;
        switch (head[0]) {
        case 'r': word = stepbench_report(part, first, out, lent); break;
        case 'p': word = stepbench_print(part, first, out, lent); break;
        case 't': word = stepbench_parse(part, first, out, lent); break;
        case 'w': word = stepbench_write(x, n, part, first, part + first, second, out, lent); break;
        case 'd': length = numbers(part, first, out, &word); break;
        default: need(0, 1);
        }
        if (head[0] != 'd') length = STEPBENCH_LENGTH(word) <= lent ? STEPBENCH_LENGTH(word) : 0;
        uint8_t answer[13];
        put(answer, word, 8);
        answer[8] = head[0] == 'd' || (clean(buffer, 0, GUARD) && clean(buffer, GUARD + length, lent + 2 * GUARD));
        put(answer + 9, length, 4);
        need(fwrite(answer, 1, 13, stdout), 13);
        need(fwrite(out, 1, length, stdout), length);
        need((size_t)fflush(stdout), 0);
        free(part);
        free(buffer);
    }
    return 0;
}
