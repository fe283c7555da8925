/* The same rule with the divisions looked up: two tables of 256 for a block, one of 256 for the packet check, and one of 1,024 for mending. */
#include "plain.h"

static uint16_t high[256], low[256], crc[256];
uint32_t table_change[1024];

static uint16_t divided(uint32_t info)
{
    uint32_t rest = info << 10;
    for (int i = 25; i >= 10; i--)
        if (rest >> i & 1)
            rest ^= (uint32_t)0x5B9 << (i - 10);
    return (uint16_t)rest;
}

void table_prepare(void)
{
    for (uint32_t b = 0; b < 256; b++) {
        high[b] = divided(b << 8);
        low[b] = divided(b);
        uint16_t reg = (uint16_t)(b << 8);
        for (int k = 0; k < 8; k++)
            reg = reg & 0x8000 ? (uint16_t)(reg << 1 ^ 0x1021) : (uint16_t)(reg << 1);
        crc[b] = reg;
    }
    for (uint32_t place = 0; place < 22; place++)
        for (uint32_t five = 1; five < 32; five++) {
            uint32_t change = five << place;
            table_change[divided(change >> 10) ^ (change & 0x3FF)] = change;
        }
}

static unsigned block_check(uint32_t info)
{
    return high[info >> 8] ^ low[info & 0xFF];
}

static int valid(uint32_t block, unsigned offset)
{
    return (block_check(block >> 10) ^ (block & 0x3FF)) == offset;
}

static int mended(uint32_t *block, unsigned offset)
{
    uint32_t change = table_change[block_check(*block >> 10) ^ (*block & 0x3FF) ^ offset];
    *block ^= change;
    return change != 0;
}

#define RECEIVE table_receive
#include "rule.h"

uint16_t table_packet_check(const uint8_t *bytes, size_t n)
{
    uint16_t reg = 0xFFFF;
    for (size_t i = 0; i < n; i++)
        reg = (uint16_t)(reg << 8 ^ crc[(reg >> 8 ^ bytes[i]) & 0xFF]);
    return reg;
}

#define ON_AIR table_on_air
#define CHECK table_packet_check
#include "send.h"
