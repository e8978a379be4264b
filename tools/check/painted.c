/*
 * Measures the stack that bogsilver_walk (operations `l` and `s`) and bogsilver_walk_flat (`L` and `S`) use on a stream of
 * stored cases: each call runs on a stack of its own, filled with a pattern before, and the lowest byte that changed is looked
 * for. Prints the most bytes of each, the return address with them. For gcc on x86-64.
 */
#include "bogsilver.h"

#include <stdio.h>
#include <string.h>

#define LARGEST_BODY 131072
#define ROOM 65536
#define FILL 0xA5

typedef struct bogsilver_walk_answer walker(const uint8_t *bytes, size_t length, bool strict);

static uint8_t body[LARGEST_BODY];
static uint8_t room[ROOM] __attribute__((aligned(16)));

/* Calls a walker with the stack pointer at the end of the room. */
static void call(walker *walk, size_t length, bool strict)
{
    register const uint8_t *bytes __asm__("rdi") = body;
    register size_t count __asm__("rsi") = length;
    register unsigned long mode __asm__("rdx") = strict;
    __asm__ volatile("mov %%rsp, %%rbx\n\t"
                     "mov %3, %%rsp\n\t"
                     "call *%4\n\t"
                     "mov %%rbx, %%rsp"
                     : "+r"(bytes), "+r"(count), "+r"(mode)
                     : "r"(room + ROOM), "r"(walk)
                     : "rax", "rbx", "rcx", "r8", "r9", "r10", "r11", "memory", "cc", "xmm0", "xmm1", "xmm2", "xmm3",
                       "xmm4", "xmm5", "xmm6", "xmm7", "xmm8", "xmm9", "xmm10", "xmm11", "xmm12", "xmm13", "xmm14", "xmm15");
}

static size_t used(walker *walk, size_t length, bool strict)
{
    memset(room, FILL, ROOM);
    call(walk, length, strict);
    size_t at = 0;
    while (at < ROOM && room[at] == FILL)
        at++;
    return ROOM - at;
}

int main(void)
{
    size_t nested = 0, flat = 0;
    uint8_t head[5];
    while (fread(head, 1, sizeof head, stdin) == sizeof head) {
        size_t length = head[1] | (size_t)head[2] << 8 | (size_t)head[3] << 16 | (size_t)head[4] << 24;
        if (length > sizeof body || fread(body, 1, length, stdin) != length)
            break;
        bool one_loop = head[0] == 'L' || head[0] == 'S';
        if (!one_loop && head[0] != 'l' && head[0] != 's')
            continue;
        size_t *most = one_loop ? &flat : &nested;
        size_t bytes = used(one_loop ? bogsilver_walk_flat : bogsilver_walk, length, head[0] == 's' || head[0] == 'S');
        if (bytes > *most)
            *most = bytes;
    }
    printf("bogsilver_walk_flat %zu\nbogsilver_walk %zu\n", flat, nested);
    return 0;
}
