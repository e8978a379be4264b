/*
 * Prints what a daemon said: reads a capture of frames, joined end to end, from standard input and writes a line for each.
 * Linked with libbogsilver.a.
 * Memory is bounded: no frame that the library takes is longer than half the buffer.
 */
#include <inttypes.h>
#include <stdio.h>
#include <stdlib.h>
#include <string.h>

#include "bogsilver.h"

/* Indexed by number; the name of an unlisted key stands in its frame. */
static const char *const KEYS[] = {
    "",
    "automap", "autostart", "bad-format", "directory", "downlimit",
    "failed", "get-downlimit", "get-status-all", "get-uplimit", "info",
    "noop", "not-supported", "pex", "port", "remove",
    "start", "status", "stop", "succeeded", "uplimit"};

static struct {
    uint8_t bytes[2 * BOGSILVER_LARGEST_FRAME];
    size_t start, end; /* the bytes that are not used yet */
    uint64_t offset;   /* of the first of them in the capture */
    int ended;
} input;

/* Makes sure that a whole frame stands in the buffer, unless the input ends. */
static void fill(void)
{
    if (input.ended || input.end - input.start >= BOGSILVER_LARGEST_FRAME)
        return;
    memmove(input.bytes, input.bytes + input.start, input.end - input.start);
    input.end -= input.start;
    input.start = 0;
    size_t room = sizeof input.bytes - input.end;
    size_t count = fread(input.bytes + input.end, 1, room, stdin);
    input.end += count;
    input.ended = count < room;
}

/* Uses up bytes of the input: false if it ends before. */
static int skip(uint64_t count)
{
    while (count > 0) {
        fill();
        size_t step = input.end - input.start;
        if (step == 0)
            return 0;
        if (step > count)
            step = (size_t)count;
        input.start += step;
        input.offset += step;
        count -= step;
    }
    return 1;
}

static void print_text(const uint8_t *text, size_t length)
{
    putchar('"');
    for (size_t i = 0; i < length; i++) {
        if (text[i] < ' ' || text[i] > '~' || text[i] == '"' || text[i] == '\\')
            printf("\\x%02x", text[i]);
        else
            putchar(text[i]);
    }
    putchar('"');
}

/* Prints the string at the front of sound bytes, and gives its length with its head. */
static size_t print_string(const uint8_t *bytes)
{
    size_t at = 0, length = 0;
    for (; bytes[at] != ':'; at++)
        length = 10 * length + (size_t)(bytes[at] - '0');
    print_text(bytes + at + 1, length);
    return at + 1 + length;
}

/* Prints the integer at the front of sound bytes without its `i` and `e`. */
static size_t print_integer(const uint8_t *bytes)
{
    size_t at = 1;
    for (; bytes[at] != 'e'; at++)
        putchar(bytes[at]);
    return at + 1;
}

/* Prints sound bytes: lists as [a, b], dictionaries as {"key": value}. */
static void print_encoded(const uint8_t *bytes, size_t length)
{
    struct {
        uint8_t opened;
        size_t items;
    } levels[BOGSILVER_LARGEST_DEPTH + 1] = {{'l', 0}}; /* the first is around all */
    size_t depth = 0, at = 0;
    while (at < length) {
        uint8_t byte = bytes[at];
        if (byte == 'e') {
            putchar(levels[depth].opened == 'd' ? '}' : ']');
            depth--;
            at++;
            continue;
        }
        if (levels[depth].items > 0)
            fputs(levels[depth].opened == 'd' && levels[depth].items % 2 == 1 ? ": " : ", ", stdout);
        levels[depth].items++;
        if (byte == 'l' || byte == 'd') {
            putchar(byte == 'd' ? '{' : '[');
            depth++;
            levels[depth].opened = byte;
            levels[depth].items = 0;
            at++;
        } else {
            at += byte == 'i' ? print_integer(bytes + at) : print_string(bytes + at);
        }
    }
}

static void print_tag(uint32_t tag)
{
    if (tag != 0)
        printf(" tag %" PRIu32, tag);
}

static void print_message(const uint8_t *frame, const struct bogsilver_answer *answer)
{
    const struct bogsilver_content *value = &answer->value;
    if (answer->key == BOGSILVER_UNLISTED)
        print_string(frame + BOGSILVER_HEADER_LENGTH + 1);
    else
        fputs(KEYS[answer->key], stdout);
    if (value->kind != BOGSILVER_NOTHING)
        putchar(' ');
    if (value->kind == BOGSILVER_INTEGER)
        printf("%" PRId64, value->integer);
    if (value->kind == BOGSILVER_TEXT)
        print_text(frame + value->start, value->length);
    if (value->kind == BOGSILVER_PART)
        print_encoded(frame + value->start, value->length);
    print_tag(answer->tag);
}

static void print_answer(const uint8_t *frame, const struct bogsilver_answer *answer)
{
    printf("%" PRIu64 ": ", input.offset);
    if (answer->kind == BOGSILVER_MESSAGE) {
        print_message(frame, answer);
    } else if (answer->kind == BOGSILVER_HANDSHAKE) {
        printf("handshake %" PRIu32 " to %" PRIu32, answer->value.min, answer->value.max);
    } else {
        printf("refused %u at %zu", (unsigned)answer->code, answer->offset);
        if (answer->code == BOGSILVER_OFF_FORMAT) {
            printf(", %s", KEYS[answer->key]);
            print_tag(answer->tag);
        }
    }
    putchar('\n');
}

/* The length of a frame whose header is sound. */
static uint64_t frame_length(const uint8_t *frame)
{
    char header[BOGSILVER_HEADER_LENGTH + 1] = {0};
    memcpy(header, frame, BOGSILVER_HEADER_LENGTH);
    return BOGSILVER_HEADER_LENGTH + (uint64_t)strtoull(header, NULL, 16);
}

/* Prints a line for the next frame: false where no further one can be read. */
static int print_frame(void)
{
    const uint8_t *frame = input.bytes + input.start;
    size_t length = input.end - input.start;
    uint64_t offset = input.offset;
    struct bogsilver_answer answer = bogsilver_read(frame, length);
    if (answer.code == BOGSILVER_INCOMPLETE) {
        printf("%" PRIu64 ": cut after %zu bytes\n", offset, length);
        return 0;
    }
    print_answer(frame, &answer);
    if (answer.code == BOGSILVER_NO_DIGIT || answer.code == BOGSILVER_OVER_PROTOCOL) {
        printf("%" PRIu64 ": stopped, no next frame is known\n", offset);
        return 0;
    }
    if (skip(answer.code == BOGSILVER_ACCEPTED ? answer.consumed : frame_length(frame)))
        return 1;
    printf("%" PRIu64 ": cut after %" PRIu64 " bytes\n", offset, input.offset - offset);
    return 0;
}

int main(void)
{
    for (fill(); input.start < input.end && print_frame(); fill())
        ;
    if (ferror(stdin) || fflush(stdout) != 0 || ferror(stdout)) {
        fputs("console: standard input or output failed\n", stderr);
        return EXIT_FAILURE;
    }
    return EXIT_SUCCESS;
}
