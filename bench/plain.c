/* Both divisions as the standard writes them: bit by bit, the generator taken off wherever its highest bit stands. */
#include "plain.h"

static uint32_t rest_of(uint32_t block)
{
    for (int i = 25; i >= 10; i--)
        if (block >> i & 1)
            block ^= (uint32_t)0x5B9 << (i - 10);
    return block;
}

static int valid(uint32_t block, unsigned offset)
{
    return rest_of(block) == offset;
}

/* Tries every change within five neighbouring bits. */
static int mended(uint32_t *block, unsigned offset)
{
    for (int low = 0; low < 22; low++)
        for (uint32_t five = 1; five < 32; five++)
            if (rest_of(*block ^ five << low) == offset) {
                *block ^= five << low;
                return 1;
            }
    return 0;
}

static unsigned block_check(uint32_t info)
{
    return rest_of(info << 10);
}

#define RECEIVE plain_receive
#include "rule.h"

uint16_t plain_packet_check(const uint8_t *bytes, size_t n)
{
    uint16_t reg = 0xFFFF;
    for (size_t i = 0; i < n; i++) {
        reg ^= (uint16_t)(bytes[i] << 8);
        for (int k = 0; k < 8; k++)
            reg = reg & 0x8000 ? (uint16_t)(reg << 1 ^ 0x1021) : (uint16_t)(reg << 1);
    }
    return reg;
}

#define ON_AIR plain_on_air
#define CHECK plain_packet_check
#include "send.h"
