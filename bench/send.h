/* A packet on air, for a `block_check` and a packet check (CHECK) that the file that includes it has. */
static unsigned carried(const uint8_t *packet, size_t n, unsigned check, size_t i)
{
    if (i < n)
        return packet[i];
    return i == n ? check >> 8 : i == n + 1 ? check & 0xFF : 0xFF;
}

int ON_AIR(const uint8_t *packet, size_t n, unsigned level, unsigned version, uint8_t *out, size_t room)
{
    static const unsigned offsets[4] = {0x0FC, 0x198, 0x168, 0x1B4};
    if (n < 2 || n > 250 || n != ((packet[0] & 7u) << 8 | packet[1]) + 2)
        return -20;
    if (level == 0 || level > 6)
        return -13;
    if (version > 31)
        return -27;
    size_t frames = (n + 5) / 4;
    if (room < 13 * frames)
        return -10;
    unsigned check = CHECK(packet, n);
    for (size_t k = 0; k < frames; k++) {
        uint32_t words[4] = {
            (uint32_t)(level << 13 | version << 8 | frames << 2 | k >> 4),
            (uint32_t)(0xB000 | (k & 15)),
            carried(packet, n, check, 4 * k) << 8 | carried(packet, n, check, 4 * k + 1),
            carried(packet, n, check, 4 * k + 2) << 8 | carried(packet, n, check, 4 * k + 3),
        };
        uint64_t bits = 0;
        int held = 0;
        for (int b = 0; b < 4; b++) {
            bits = bits << 26 | words[b] << 10 | (block_check(words[b]) ^ offsets[b]);
            for (held += 26; held >= 8; held -= 8)
                *out++ = (uint8_t)(bits >> (held - 8));
        }
    }
    return (int)frames;
}
