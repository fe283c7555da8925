/* The same steps as ours, in C: pending bits and delivery in one buffer, the blocks at a place divided two at once, and asked or, right behind a frame,
   mended by what they leave, else 39 places asked at once; check bits by long division. */
#include "plain.h"

/* What two blocks side by side leave on division, each in the low ten bits of its 26. */
static uint64_t remainders(uint64_t blocks)
{
    uint64_t p = blocks & 0xFFFF003FFFC00, h = p >> 2, u = h ^ h >> 1, a = u ^ u >> 2 ^ h >> 4, q = (p ^ a ^ a >> 9) & 0x3FF0000FFC00, w = q ^ q << 1;
    return ((q ^ w << 3 ^ q << 5 ^ w << 7) >> 10 ^ blocks) & 0xFFC0003FF;
}

static int both_pass(uint64_t x, unsigned first, unsigned second)
{
    return remainders(x >> 12) == ((uint64_t)first << 26 | second);
}

/* Bit k is 1 only where the 26 bits from bit k up may be a block A. */
static uint64_t marks(uint64_t u)
{
    uint64_t e = u ^ u >> 1, t = e ^ u >> 2 ^ u >> 7 ^ u >> 11 ^ u >> 16, v = t ^ u >> 19, w = v ^ u >> 21, z = t >> 10 ^ e ^ u >> 26;
    return t >> 7 & (t >> 7 ^ t >> 8) & v >> 5 & w >> 2 & w >> 3 & w >> 4 & (v >> 4 ^ t >> 6) & (t >> 7 ^ t >> 9 ^ u) & (t >> 7 ^ z) & z >> 1;
}

static const unsigned offset_of[4] = {0x0FC, 0x198, 0x168, 0x1B4};

static uint64_t four(const uint8_t *b, size_t i)
{
    return (uint64_t)b[i] << 24 | (uint64_t)b[i + 1] << 16 | (uint64_t)b[i + 2] << 8 | b[i + 3];
}

static uint64_t eight(const uint8_t *b, size_t i)
{
    return four(b, i) << 32 | four(b, i + 4);
}

static uint64_t window(const uint8_t *b, size_t from)
{
    size_t i = from / 8;
    unsigned s = from % 8;
    return (four(b, i) << (32 + s)) + (four(b, i + 4) << s) + (uint64_t)(b[i + 8] >> (8 - s));
}

static void put_eight(uint8_t *out, uint64_t x)
{
    for (int i = 0; i < 8; i++)
        out[i] = (uint8_t)(x >> (56 - 8 * i));
}

/* The first place from `from` on that is marked, or the last. */
static size_t open_from(const uint8_t *b, size_t from, size_t last)
{
    while (from < last) {
        uint64_t m = marks(window(b, from)) & 0x7FFFFFFFFF;
        if (m != 0) {
            from += (size_t)__builtin_clzll(m) - 25;
            return from < last ? from : last;
        }
        from += 39;
    }
    return last;
}

static unsigned block_check(uint32_t info)
{
    unsigned rest = 0;
    for (int left = 25; left >= 0; left--) {
        rest = rest * 2 + (info << 10 >> left) % 2;
        if (rest >= 1024)
            rest ^= 0x5B9;
    }
    return rest;
}

static void blocks_of(uint64_t x, uint32_t *blocks)
{
    blocks[0] = (uint32_t)(x >> 38);
    blocks[1] = (uint32_t)(x >> 12) & 0x3FFFFFF;
}

/* Whether a frame stands at a place, and its blocks. */
static int frame_at(const uint8_t *b, size_t from, uint32_t *blocks)
{
    uint64_t x = window(b, from);
    if (!both_pass(x, offset_of[0], offset_of[1]))
        return 0;
    uint64_t y = window(b, from + 52);
    if (!both_pass(y, offset_of[2], offset_of[3]))
        return 0;
    blocks_of(x, blocks);
    blocks_of(y, blocks + 2);
    return 1;
}

/* How many of two blocks were mended, by what both leave less the offset words; 5 where one can't be. */
static unsigned both_mended(uint64_t x, unsigned first, unsigned second, uint32_t *blocks)
{
    uint64_t rests = remainders(x >> 12) ^ ((uint64_t)first << 26 | second);
    uint32_t left = (uint32_t)(rests >> 26), right = (uint32_t)rests & 0x3FF;
    if ((left != 0 && table_change[left] == 0) || (right != 0 && table_change[right] == 0))
        return 5;
    blocks_of(x, blocks);
    blocks[0] ^= table_change[left];
    blocks[1] ^= table_change[right];
    return (left != 0) + (right != 0);
}

/* How many of the four blocks at a place were mended; 5 where one can't be. */
static unsigned mended_at(const uint8_t *b, size_t from, uint32_t *blocks)
{
    unsigned first = both_mended(window(b, from), offset_of[0], offset_of[1], blocks);
    if (first == 5)
        return 5;
    unsigned second = both_mended(window(b, from + 52), offset_of[2], offset_of[3], blocks + 2);
    return second == 5 ? 5 : first + second;
}

int same_receive(struct plain_receiver *r, const uint8_t *delivery, size_t n, uint8_t *out, size_t room, uint8_t *counts, size_t room_for_counts)
{
    if (r->count > 103)
        return -28;
    if (n > 512)
        return -11;
    if (room < 320 || room_for_counts < 40)
        return -10;
    uint8_t b[536] = {0};
    put_eight(b, r->high);
    put_eight(b + 8, r->low);
    for (size_t i = 0; i < n; i++)
        b[16 + i] = delivery[i];
    size_t end = (16 + n) * 8, from = 128 - r->count;
    int frames = 0, follows = r->follows != 0;
    while (from + 104 <= end) {
        uint32_t f[4];
        unsigned changed = frame_at(b, from, f) ? 0 : follows ? mended_at(b, from, f) : 5;
        follows = changed < 5;
        if (follows) {
            put_eight(out + 8 * frames, (uint64_t)(f[0] >> 10) << 48 | (uint64_t)(f[1] >> 10) << 32 | (uint64_t)(f[2] >> 10) << 16 | f[3] >> 10);
            counts[frames] = (uint8_t)changed;
            frames++;
            from += 104;
        } else {
            from = open_from(b, from + 1, end - 103);
        }
    }
    unsigned left = (unsigned)(end - from);
    uint64_t low = eight(b, end / 8 - 8), high = eight(b, end / 8 - 16);
    r->high = left > 64 ? high & (((uint64_t)1 << (left - 64)) - 1) : 0;
    r->low = left >= 64 ? low : low & (((uint64_t)1 << left) - 1);
    r->count = left;
    r->follows = (uint8_t)follows;
    return frames;
}

uint16_t same_packet_check(const uint8_t *bytes, size_t n)
{
    uint16_t reg = 0xFFFF;
    for (size_t i = 0; i < n; i++) {
        reg ^= (uint16_t)(bytes[i] << 8);
        uint16_t x = reg >> 8, y = x ^ x >> 4;
        reg = (uint16_t)(reg << 8 ^ y << 12 ^ y << 5 ^ y);
    }
    return reg;
}

#define ON_AIR same_on_air
#define CHECK same_packet_check
#include "send.h"
