/* The console's scripts (docs/CONSOLE.md) through the C interface. Two devices get every call, one by the functions' names and one
 * by rocker_call, and must agree in what they give and, now and then and at the end, in every byte. What the first gives is printed as the
 * console prints it. */
#include <inttypes.h>
#include <stdbool.h>
#include <stdio.h>
#include <stdlib.h>
#include <string.h>

#include "rocker.h"

static struct rocker named, called;
static bool made;
static uint8_t memory[2][1 << 20], buffer[2][65536], frame[65536];
static uint16_t list[2][1024];
static size_t size;
static unsigned long line_number;

static void same(bool agrees)
{
    if (!agrees) {
        fprintf(stderr, "line %lu: rocker_call differs\n", line_number);
        exit(1);
    }
}

/* Every byte, now and then: it takes long. */
static void same_all(void)
{
    same(memcmp(&named, &called, sizeof named) == 0 && memcmp(memory[0], memory[1], size) == 0);
    same(memcmp(buffer[0], buffer[1], sizeof buffer[0]) == 0 && memcmp(list[0], list[1], sizeof list[0]) == 0);
}

static uint32_t call(uint64_t kind, uint64_t a, uint64_t b, uint64_t c, size_t frame_length, size_t room, size_t list_length,
                     struct rocker_outcome *o)
{
    memset(o, 9, sizeof *o);
    return rocker_call(&called, kind, a, b, c, memory[1], size, frame, frame_length, buffer[1], room, list[1], list_length, o);
}

static bool number(const char *s, uint64_t *n)
{
    unsigned base = 10, digit;
    if (strncmp(s, "0x", 2) == 0) {
        base = 16;
        s += 2;
    }
    if (*s == 0)
        return false;
    for (*n = 0; *s; s++) {
        digit = *s >= '0' && *s <= '9' ? (unsigned)(*s - '0') : *s >= 'a' && *s <= 'f' ? (unsigned)(*s - 'a' + 10)
              : *s >= 'A' && *s <= 'F' ? (unsigned)(*s - 'A' + 10) : 99;
        if (digit >= base || *n > (UINT64_MAX - digit) / base)
            return false;
        *n = *n * base + digit;
    }
    return true;
}

/* The bytes of hexadecimal digits, "-" for none; -1 if there are none such. */
static long bytes(const char *s, uint8_t *to)
{
    size_t n = strlen(s);
    if (strcmp(s, "-") == 0)
        return 0;
    if (n == 0 || n % 2 || strspn(s, "0123456789abcdefABCDEF") != n)
        return -1;
    for (size_t i = 0; i < n; i += 2) {
        const char digits[3] = {s[i], s[i + 1], 0};
        to[i / 2] = (uint8_t)strtoul(digits, NULL, 16);
    }
    return (long)(n / 2);
}

static void print_bytes(const uint8_t *s, uint64_t n)
{
    if (n == 0)
        putchar('-');
    for (uint64_t i = 0; i < n; i++)
        printf("%02x", s[i]);
}

static void read_register(uint64_t width, uint64_t offset)
{
    struct rocker_outcome o;
    uint64_t value;
    uint32_t answer = rocker_read(&named, offset, width, &value);
    same(call(ROCKER_READ, offset, width, 0, 0, 0, 0, &o) == answer && o.value == value);
    same(!o.raised && !o.completed && !o.bytes && !o.outputs && !o.reset);
    printf("%" PRIu32 " %" PRIu64 "\n", answer, value);
}

static void write_register(uint64_t width, uint64_t offset, uint64_t value)
{
    struct rocker_outcome o, p;
    uint32_t answer;
    memset(&o, 9, sizeof o);
    answer = rocker_write(&named, offset, width, value, &o);
    same(call(ROCKER_WRITE, offset, width, value, 0, 0, 0, &p) == answer && memcmp(&o, &p, sizeof o) == 0);
    same(!o.value && !o.completed && !o.bytes && !o.outputs);
    printf("%" PRIu32 " %s\n", answer, o.raised ? "0" : "-");
}

static void set_link(uint64_t port, uint64_t up)
{
    struct rocker_outcome o;
    uint32_t answer = rocker_link(&named, port, up);
    same(call(ROCKER_LINK, port, up, 0, 0, 0, 0, &o) == answer);
    same(!o.value && !o.raised && !o.completed && !o.bytes && !o.outputs && !o.reset);
    printf("%" PRIu32 "\n", answer);
}

static void process(uint64_t room)
{
    struct rocker_outcome o, p;
    uint32_t answer = rocker_process(&named, memory[0], size, buffer[0], room, &o);
    same(call(ROCKER_PROCESS, 0, 0, 0, 0, room, 0, &p) == answer && memcmp(&o, &p, sizeof o) == 0);
    same(memcmp(buffer[0], buffer[1], o.bytes) == 0);
    printf("%" PRIu32 " %s ", answer, o.raised ? "0" : "-");
    print_bytes(buffer[0], o.bytes);
    putchar('\n');
}

static void header(uint64_t room)
{
    struct rocker_outcome o, p;
    uint32_t answer = rocker_header(&named, buffer[0], room, &o);
    same(call(ROCKER_HEADER, 0, 0, 0, 0, room, 0, &p) == answer && memcmp(&o, &p, sizeof o) == 0);
    same(memcmp(buffer[0], buffer[1], o.bytes) == 0);
    printf("%" PRIu32 " ", answer);
    print_bytes(buffer[0], o.bytes);
    putchar('\n');
}

static void frame_in(uint64_t port, size_t length, uint64_t room)
{
    struct rocker_outcome o;
    uint64_t outputs;
    uint32_t answer = rocker_frame(&named, port, frame, length, list[0], room, &outputs);
    same(call(ROCKER_FRAME, port, 0, 0, length, 0, room, &o) == answer && o.outputs == outputs && !o.value && !o.raised && !o.completed
         && !o.bytes && !o.reset);
    same(memcmp(list[0], list[1], 2 * ROCKER_OUTPUT * outputs) == 0);
    printf("%" PRIu32 " %" PRIu64, answer, outputs);
    for (uint64_t i = 0; i < ROCKER_OUTPUT * outputs; i++)
        printf(" %d", list[0][i]);
    putchar('\n');
}

static bool is(char **w, size_t words, const char *name, size_t arguments)
{
    return words == arguments + 1 && strcmp(w[0], name) == 0;
}

static void run(char **w, size_t words)
{
    uint64_t a = 0, b = 0, c = ROCKER_LIST;
    long n;
    bool one = words > 1 && number(w[1], &a), two = one && words > 2 && number(w[2], &b);
    if (is(w, words, "memory", 1) && one && a <= sizeof memory[0]) {
        size = a;
        memset(memory, 0, sizeof memory);
    } else if (is(w, words, "poke", 2) && one && (n = bytes(w[2], frame)) >= 0 && (size_t)n <= size && a <= size - (size_t)n) {
        memcpy(memory[0] + a, frame, (size_t)n);
        memcpy(memory[1] + a, frame, (size_t)n);
    } else if (is(w, words, "peek", 2) && two && b <= size && a <= size - b) {
        print_bytes(memory[0] + a, b);
        putchar('\n');
    } else if (is(w, words, "fresh", 2) && two) {
        uint32_t answer = rocker_fresh(&named, a, b);
        same(rocker_fresh(&called, a, b) == answer);
        made = made || answer == 0;
        printf("%" PRIu32 "\n", answer);
    } else if (!made) {
        return;
    } else if (is(w, words, "read", 2) && two) {
        read_register(a, b);
    } else if (is(w, words, "write", 3) && two && number(w[3], &c)) {
        write_register(a, b, c);
    } else if (is(w, words, "link", 2) && two && b <= 1) {
        set_link(a, b);
    } else if (is(w, words, "work", 1) && one && a <= sizeof buffer[0]) {
        process(a);
    } else if (is(w, words, "header", 1) && one && a <= sizeof buffer[0]) {
        header(a);
    } else if ((is(w, words, "frame", 2) || (is(w, words, "frame", 3) && number(w[3], &c) && c <= 1024)) && one && (n = bytes(w[2], frame)) >= 0) {
        frame_in(a, (size_t)n, c);
    }
}

int main(void)
{
    static char line[1 << 18];
    if (rocker_size() != sizeof named)
        return 1;
    while (fgets(line, sizeof line, stdin)) {
        char *words[5] = {line};
        size_t count = 1;
        line_number++;
        size_t end = strcspn(line, "\n");
        if (end > 65535)
            continue;
        if (line[end] == '\n' && end > 0 && line[end - 1] == '\r')
            end--;
        line[end] = 0;
        if (line[0] == 0 || line[0] == '#')
            continue;
        for (char *at = line; (at = strchr(at, ' ')) && count < 5; count++) {
            *at++ = 0;
            words[count] = at;
        }
        run(words, count);
        if (line_number % 256 == 0)
            same_all();
    }
    same_all();
    return 0;
}
