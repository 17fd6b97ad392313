// What one writes in C: the checks of all blocks, added; and bytes copied or moved through the payloads of blocks in a row, each block written sealed.
#include <stddef.h>
#include <stdint.h>
#include <string.h>

enum { BLOCK = 512, PAYLOAD = 480 };

static uint32_t check(const uint8_t *b)
{
    uint32_t s = 0;
    for (uint32_t i = 0; i < 508; i++) s += (i + 1) * b[i];
    return s;
}

uint64_t plain_check(const uint8_t *arena, size_t len)
{
    uint64_t all = 0;
    for (size_t k = 0; k < len / BLOCK; k++) all += check(arena + BLOCK * k);
    return all;
}

void plain_read(const uint8_t *blocks, size_t place, uint8_t *out, size_t len)
{
    for (size_t done = 0; done < len;) {
        size_t at = (place + done) % PAYLOAD, n = PAYLOAD - at < len - done ? PAYLOAD - at : len - done;
        memcpy(out + done, blocks + (place + done) / PAYLOAD * BLOCK + 24 + at, n);
        done += n;
    }
}

void plain_seal(uint8_t *b)
{
    uint32_t s = check(b);
    for (int i = 0; i < 4; i++) b[508 + i] = (uint8_t)(s >> (8 * i));
}

void plain_write(uint8_t *blocks, size_t place, const uint8_t *data, size_t len)
{
    for (size_t done = 0; done < len;) {
        size_t at = (place + done) % PAYLOAD, n = PAYLOAD - at < len - done ? PAYLOAD - at : len - done;
        uint8_t *b = blocks + (place + done) / PAYLOAD * BLOCK;
        memcpy(b + 24 + at, data + done, n);
        plain_seal(b);
        done += n;
    }
}

// bytes moved inside the file, block by block and each block sealed once: falling where they go up, rising where they go down
void plain_move(uint8_t *blocks, size_t from, size_t to, size_t len)
{
    uint8_t room[PAYLOAD];
    for (size_t done = 0; done < len;) {
        size_t end = from < to ? to + len - done : to + done, b, at, n;
        if (from < to) {
            b = (end - 1) / PAYLOAD, at = b * PAYLOAD < to ? to : b * PAYLOAD, n = end - at;
        } else {
            b = end / PAYLOAD, at = end, n = (b + 1) * PAYLOAD - at;
            if (n > len - done) n = len - done;
        }
        plain_read(blocks, at - to + from, room, n);
        memcpy(blocks + b * BLOCK + 24 + at % PAYLOAD, room, n);
        plain_seal(blocks + b * BLOCK);
        done += n;
    }
}
