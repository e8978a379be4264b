/*
 * Answers a stream of stored cases through include/bogsilver.h, a line each: `cases frame` those of frame_cases (`r` and `R`
 * read, in the loose and in the strict profile, `w` write, `s` handshake, `a` agreed version), `cases payload` those of
 * payload_cases (`l` and `s`, a walk in the loose and in the strict profile, `L` and `S`, the same by one loop, `o` sort).
 * Before each write the buffer is filled with a pattern, and a byte that should have stayed and did not is said in the line.
 */
#include "bogsilver.h"

#include <inttypes.h>
#include <stdio.h>
#include <string.h>

#define LARGEST_BODY 131072
#define FILL 0xA5

static uint8_t body[LARGEST_BODY];
static uint8_t out[LARGEST_BODY];

static uint32_t number_at(size_t at)
{
    return body[at] | (uint32_t)body[at + 1] << 8 | (uint32_t)body[at + 2] << 16 | (uint32_t)body[at + 3] << 24;
}

static void print_value(const struct bogsilver_content *value)
{
    switch (value->kind) {
    case BOGSILVER_NOTHING: printf("-"); break;
    case BOGSILVER_INTEGER: printf("i%" PRId64, value->integer); break;
    case BOGSILVER_TEXT: printf("t%zu,%zu", value->start, value->length); break;
    case BOGSILVER_PART: printf("p%zu,%zu", value->start, value->length); break;
    case BOGSILVER_VERSIONS: printf("h%" PRIu32 ",%" PRIu32, value->min, value->max); break;
    default: printf("unknown value"); break;
    }
}

static void print_reading(struct bogsilver_answer a)
{
    /* a line names the message of a value off its format too */
    int message = a.kind == BOGSILVER_MESSAGE || a.code == BOGSILVER_OFF_FORMAT;
    const char *kind = message ? "m" : a.kind == BOGSILVER_HANDSHAKE ? "h" : "-";
    printf("%u %zu %zu %s %u %" PRIu32 " ", a.code, a.offset, a.consumed, kind, a.key, a.tag);
    print_value(&a.value);
    printf("\n");
}

static void fill(size_t room)
{
    for (size_t i = 0; i < room; i++)
        out[i] = FILL;
}

/* the bytes at the front of the buffer, and the first one after them that is not as it was */
static void print_bytes(size_t count, size_t room)
{
    if (count > 0)
        printf(" ");
    for (size_t i = 0; i < count; i++)
        printf("%02x", out[i]);
    for (size_t i = count; i < room; i++)
        if (out[i] != FILL) {
            printf(" byte %zu changed", i);
            break;
        }
    printf("\n");
}

static void print_written(struct bogsilver_write_answer w, size_t room)
{
    printf("%u %zu", w.code, w.count);
    print_bytes(w.count, room);
}

static int print_message(size_t length)
{
    if (length < 21 || number_at(17) > sizeof out)
        return 0;
    uint64_t integer = number_at(5) | (uint64_t)number_at(9) << 32;
    size_t room = number_at(17);
    fill(room);
    print_written(bogsilver_write(number_at(0), body[4], (int64_t)integer, body + 21, length - 21, number_at(13), out, room),
                  room);
    return 1;
}

static int print_handshake(size_t length)
{
    if (length != 12 || number_at(8) > sizeof out)
        return 0;
    size_t room = number_at(8);
    fill(room);
    print_written(bogsilver_write_handshake(number_at(0), number_at(4), out, room), room);
    return 1;
}

static int print_sorted(size_t length)
{
    if (length < 4 || number_at(0) > sizeof out)
        return 0;
    size_t room = number_at(0);
    fill(room);
    struct bogsilver_sort_answer s = bogsilver_sort(body + 4, length - 4, out, room);
    printf("%u %zu %zu", s.code, s.offset, s.count);
    print_bytes(s.count, room);
    return 1;
}

static int print_walk(struct bogsilver_walk_answer w)
{
    printf("%u %zu\n", w.code, w.offset);
    return 1;
}

static int answer_payload(int operation, size_t length)
{
    switch (operation) {
    case 'l': return print_walk(bogsilver_walk(body, length, false));
    case 's': return print_walk(bogsilver_walk(body, length, true));
    case 'L': return print_walk(bogsilver_walk_flat(body, length, false));
    case 'S': return print_walk(bogsilver_walk_flat(body, length, true));
    case 'o': return print_sorted(length);
    default: return 0;
    }
}

static int answer_frame(int operation, size_t length)
{
    switch (operation) {
    case 'r': print_reading(bogsilver_read(body, length)); return 1;
    case 'R': print_reading(bogsilver_read_strict(body, length)); return 1;
    case 'w': return print_message(length);
    case 's': return print_handshake(length);
    case 'a':
        if (length != 16)
            return 0;
        printf("%" PRIu32 "\n", bogsilver_agreed_version(number_at(0), number_at(4), number_at(8), number_at(12)));
        return 1;
    default: return 0;
    }
}

int main(int count, char **words)
{
    if (count != 2 || (strcmp(words[1], "frame") != 0 && strcmp(words[1], "payload") != 0)) {
        fputs("usage: cases frame|payload\n", stderr);
        return 2;
    }
    int (*answer)(int, size_t) = words[1][0] == 'f' ? answer_frame : answer_payload;
    for (;;) {
        uint8_t head[5];
        size_t got = fread(head, 1, sizeof head, stdin);
        if (got == 0)
            return 0;
        size_t length = head[1] | (size_t)head[2] << 8 | (size_t)head[3] << 16 | (size_t)head[4] << 24;
        if (got < sizeof head || length > sizeof body || fread(body, 1, length, stdin) != length || !answer(head[0], length)) {
            printf("case fault\n");
            return 0;
        }
    }
}
