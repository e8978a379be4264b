/*
 * Bogsilver for C: reads and writes frames of Transmission's IPC protocol, version 2, and puts payloads in order.
 *
 * Link with libbogsilver.a, which tools/library.sh builds (Linux, x86-64-v2). The functions allocate nothing, keep nothing
 * between calls and end on every input. They are proved to answer as the rules say. The caller sees to this:
 * - bytes and out are never NULL, even where the length is 0, and have the length that is handed in, at most PTRDIFF_MAX;
 * - out does not overlap bytes, and nothing else writes to either during the call.
 */
#ifndef BOGSILVER_H
#define BOGSILVER_H

#include <stdbool.h>
#include <stddef.h>
#include <stdint.h>

#ifdef __cplusplus
extern "C" {
#endif

/* Limits. */
#define BOGSILVER_HEADER_LENGTH 8
#define BOGSILVER_LARGEST_PAYLOAD 32768
#define BOGSILVER_LARGEST_FRAME (BOGSILVER_HEADER_LENGTH + BOGSILVER_LARGEST_PAYLOAD)
/* The protocol's own limit of a payload. */
#define BOGSILVER_LARGEST_PROTOCOL_PAYLOAD 2147483640
#define BOGSILVER_LARGEST_DEPTH 16
#define BOGSILVER_LARGEST_TAG 2147483647
#define BOGSILVER_LARGEST_TORRENT_ID 2147483647
#define BOGSILVER_LARGEST_VERSION 2147483647
#define BOGSILVER_LARGEST_PORT 65535

/* Codes of the reader; the walker has 5 to 11 of them, the sorter 4 to 10. */
enum {
    BOGSILVER_ACCEPTED = 0,
    BOGSILVER_INCOMPLETE = 1,      /* the frame is not all there */
    BOGSILVER_NO_DIGIT = 2,        /* a header byte is no hex digit */
    BOGSILVER_OVER_PROTOCOL = 3,   /* longer than the protocol's limit */
    BOGSILVER_OVER_LIMIT = 4,      /* longer than the largest payload */
    BOGSILVER_SYNTAX = 5,          /* a byte cannot stand there, or the payload ends too soon */
    BOGSILVER_RANGE = 6,           /* an integer is outside the range */
    BOGSILVER_DEPTH = 7,           /* a 17th level opens */
    BOGSILVER_REPEATED_KEY = 8,    /* a key comes twice in one dictionary */
    BOGSILVER_TRAILING = 9,        /* bytes follow the value */
    BOGSILVER_ILL_FORMED_KEY = 10, /* a dictionary's key is not well-formed UTF-8, or has a zero byte */
    BOGSILVER_UNSORTED_KEY = 11,   /* in the strict profile alone: a key is not above all earlier ones of its dictionary */
    BOGSILVER_NO_MESSAGE = 20,     /* neither a message nor a dictionary */
    BOGSILVER_NO_HANDSHAKE = 21,   /* a dictionary that is no handshake */
    BOGSILVER_OFF_FORMAT = 22      /* a listed key's value is off its format */
};

/* Codes of the writers; 0 is accepted. The sorter has 44 too. */
enum {
    BOGSILVER_KEY_NOT_WRITTEN = 40,
    BOGSILVER_VALUE_REFUSED = 41,   /* off the format, or no range of versions */
    BOGSILVER_TAG_REFUSED = 42,
    BOGSILVER_PAYLOAD_TOO_LONG = 43,
    BOGSILVER_NO_ROOM = 44
};

/* What is read; a refusal is of no kind. */
enum { BOGSILVER_NO_KIND = 0, BOGSILVER_MESSAGE = 1, BOGSILVER_HANDSHAKE = 2 };

/* Kinds of value in an answer. */
enum {
    BOGSILVER_NOTHING = 0,
    BOGSILVER_INTEGER = 1,
    BOGSILVER_TEXT = 2,     /* a string's text */
    BOGSILVER_PART = 3,     /* a whole list, or the value of an unlisted key, as it is encoded */
    BOGSILVER_VERSIONS = 4  /* of a handshake */
};

/* Kinds of value for bogsilver_write; any other number is refused by 41. */
enum { BOGSILVER_GIVEN_NOTHING = 0, BOGSILVER_GIVEN_INTEGER = 1, BOGSILVER_GIVEN_BYTES = 2 };

/*
 * Numbers of the keys, and the format of each one's value. Where it is ignored, an answer names nothing and nothing is
 * handed in.
 */
enum {
    BOGSILVER_UNLISTED = 0,       /* any value, as it is encoded; the key itself is the string at offset 9 of the frame */
    BOGSILVER_AUTOMAP = 1,        /* integer 0 or 1 */
    BOGSILVER_AUTOSTART = 2,      /* integer 0 or 1 */
    BOGSILVER_BAD_FORMAT = 3,     /* ignored */
    BOGSILVER_DIRECTORY = 4,      /* text */
    BOGSILVER_DOWNLIMIT = 5,      /* integer */
    BOGSILVER_FAILED = 6,         /* text */
    BOGSILVER_GET_DOWNLIMIT = 7,  /* ignored */
    BOGSILVER_GET_STATUS_ALL = 8, /* list of strings; read, not written */
    BOGSILVER_GET_UPLIMIT = 9,    /* ignored */
    BOGSILVER_INFO = 10,          /* list of torrents; read, not written */
    BOGSILVER_NOOP = 11,          /* ignored */
    BOGSILVER_NOT_SUPPORTED = 12, /* ignored */
    BOGSILVER_PEX = 13,           /* integer 0 or 1 */
    BOGSILVER_PORT = 14,          /* integer 0 to 65535 */
    BOGSILVER_REMOVE = 15,        /* list of torrent IDs, as it is encoded: `li3ei8ee` */
    BOGSILVER_START = 16,         /* list of torrent IDs */
    BOGSILVER_STATUS = 17,        /* list of torrents; read, not written */
    BOGSILVER_STOP = 18,          /* list of torrent IDs */
    BOGSILVER_SUCCEEDED = 19,     /* ignored */
    BOGSILVER_UPLIMIT = 20        /* integer */
};

/* The value of an answer. What the kind does not name is 0. */
struct bogsilver_content {
    uint8_t kind;
    uint32_t min; /* versions: the range */
    uint32_t max;
    size_t start; /* text and part: the bytes of the frame, counted from its first byte */
    size_t length;
    int64_t integer; /* integer: in two's complement */
};

/* The reader's answer. What it does not name is 0. */
struct bogsilver_answer {
    uint8_t code;
    uint8_t kind;    /* 0 for every refusal, code 22 too */
    uint8_t key;     /* also for code 22 */
    uint32_t tag;    /* 0: none; also for code 22 */
    size_t offset;   /* of the fault: for code 2 in the header, for 5 to 11 from the payload's start */
    size_t consumed; /* the frame's bytes where it is accepted */
    struct bogsilver_content value;
};

/* Where a payload's fault is: its code, 5 to 11, and its offset; or 0 and the payload's length. */
struct bogsilver_walk_answer {
    uint8_t code;
    size_t offset;
};

/* A writer's answer: code 0 and the frame's byte count, or the refusal's code and 0. */
struct bogsilver_write_answer {
    uint8_t code;
    size_t count;
};

/* The sorter's answer: code 0 and the bytes written, or the refusal's code, 4 to 10 or 44, its offset, and count 0. */
struct bogsilver_sort_answer {
    uint8_t code;
    size_t offset; /* of the fault: for 5 to 10, from the payload's start */
    size_t count;
};

/*
 * Reads the frame at the front of the bytes. Bytes after it are left for the next read. An accepted frame is a message or a
 * handshake; a refusal is of no kind, and names a key and a tag for code 22 alone, where the message's value is off its key's
 * format. A refusal consumes nothing: after 1 call again with more bytes; after 4 to 22 the next frame starts
 * BOGSILVER_HEADER_LENGTH and the header's number of bytes further; after 2 and 3 no next frame can be found.
 */
struct bogsilver_answer bogsilver_read(const uint8_t *bytes, size_t length);

/*
 * Reads as bogsilver_read, in the strict profile: the keys of each dictionary rise as raw bytes. A key is refused by 10, then
 * 8, then 11, at its first length digit. A frame that is not refused by 11 has the answer of bogsilver_read.
 */
struct bogsilver_answer bogsilver_read_strict(const uint8_t *bytes, size_t length);

/*
 * Walks a payload, of any length and with no header: says where its fault is, if it is not one bencoded value. Strict: the
 * keys of a dictionary rise, too.
 */
struct bogsilver_walk_answer bogsilver_walk(const uint8_t *bytes, size_t length, bool strict);

/*
 * Walks as bogsilver_walk, by one loop: the same answer on every input. No function in it calls itself, even through others,
 * and as built here for x86-64-v2 it needs at most 1,224 bytes of stack, whatever the payload. For callers with little stack.
 */
struct bogsilver_walk_answer bogsilver_walk_flat(const uint8_t *bytes, size_t length, bool strict);

/*
 * Writes a message at the front of out. The value is by its kind nothing, the integer, or the bytes as the reader would
 * name them: a text, or a list as it is encoded. A tag of 0 is none. Refused in this order: 40, 41, 42, 43, 44. A
 * refusal leaves out as it was; else the bytes after the frame are as they were.
 */
struct bogsilver_write_answer bogsilver_write(uint32_t key, uint32_t kind, int64_t integer, const uint8_t *bytes,
                                              size_t length, uint32_t tag, uint8_t *out, size_t room);

/* Writes a handshake with a range of versions at the front of out. Refused by 41, then 44; out as above. */
struct bogsilver_write_answer bogsilver_write_handshake(uint32_t min, uint32_t max, uint8_t *out, size_t room);

/*
 * Writes a payload, one bencoded value with no header, at the front of out, with its dictionaries sorted by the raw bytes of
 * their keys at every level. It has as many bytes then as before. Two payloads come out as equal bytes exactly when they mean
 * the same value, dictionaries compared as maps. Refused in this order: 4 over BOGSILVER_LARGEST_PAYLOAD bytes; 5 to 10 as in
 * a walk that is not strict; 44 where room is below length. out as above.
 */
struct bogsilver_sort_answer bogsilver_sort(const uint8_t *bytes, size_t length, uint8_t *out, size_t room);

/* The largest version in both ranges, or 0 if there is none or if either is no range. */
uint32_t bogsilver_agreed_version(uint32_t min, uint32_t max, uint32_t min2, uint32_t max2);

#ifdef __cplusplus
}
#endif

#endif
