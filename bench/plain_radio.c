/* The search of change request 2026-11 in plain C as a firmware engineer would write it for speed: it looks at the byte where 4D
   would stand, and steps on by as many bytes as that one rules out. Only the bench uses it. Built twice, as -DPREFIX=plain2_ and
   -DPREFIX=plain3_. */

#include <stddef.h>
#include <stdint.h>
#include <string.h>

#define JOINED(prefix, name) prefix##name
#define JOIN(prefix, name) JOINED(prefix, name)
#define CALL(name) JOIN(PREFIX, name)

enum { ANSWER_LEN = 24 };

static void store32(uint8_t *p, uint32_t n)
{
    p[0] = (uint8_t)(n >> 24);
    p[1] = (uint8_t)(n >> 16);
    p[2] = (uint8_t)(n >> 8);
    p[3] = (uint8_t)n;
}

uint32_t CALL(radio_find)(const uint8_t *received, size_t received_len, uint8_t *answer, size_t answer_len)
{
    size_t at = 4; /* where 4D would stand; a length byte must follow */
    if (answer_len != ANSWER_LEN) return 1;
    memset(answer, 0, ANSWER_LEN);
    if ((uint64_t)received_len > 4294967295u) {
        store32(answer, 60);
        return 60;
    }
    while (at + 1 < received_len) {
        uint8_t byte = received[at];
        if (byte == 0) at += 2;         /* the pattern's third 00 may stand here */
        else if (byte == 0xB2) at += 1; /* it may end one byte on */
        else if (byte == 0x4D && received[at - 1] == 0xB2 && !received[at - 2] && !received[at - 3] && !received[at - 4]) {
            store32(answer + 8, 1);
            store32(answer + 12, (uint32_t)(at - 2));
            store32(answer + 16, (uint32_t)(at + 1));
            return 0;
        } else at += 5;                 /* it ends at none of the next four */
    }
    return 0;
}
