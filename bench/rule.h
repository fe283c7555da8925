/* The rule itself, a bit at a time, for a `valid` and a `mended` that the file that includes it has: whenever 104 bits are pending they are a frame and go
   out, right behind a frame with its blocks mended where they have to be, or the first of them is given up. */
static const unsigned offset_of[4] = {0x0FC, 0x198, 0x168, 0x1B4};

static void put_frame(uint8_t *out, uint64_t words)
{
    for (int i = 0; i < 8; i++)
        out[i] = (uint8_t)(words >> (56 - 8 * i));
}

/* Block k of the 104 bits pending. */
static uint32_t pending_block(uint64_t high, uint64_t low, int k)
{
    int above = 78 - 26 * k;
    uint64_t bits = above >= 64 ? high >> (above - 64) : above == 0 ? low : high << (64 - above) | low >> above;
    return (uint32_t)bits & 0x3FFFFFF;
}

int RECEIVE(struct plain_receiver *r, const uint8_t *delivery, size_t n, uint8_t *out, size_t room, uint8_t *counts, size_t room_for_counts)
{
    if (r->count > 103)
        return -28;
    if (n > 512)
        return -11;
    if (room < 320 || room_for_counts < 40)
        return -10;
    uint64_t high = r->high, low = r->low;
    unsigned count = r->count;
    int frames = 0, follows = r->follows != 0;
    for (size_t i = 0; i < n; i++) {
        for (int k = 7; k >= 0; k--) {
            high = high << 1 | low >> 63;
            low = low << 1 | (delivery[i] >> k & 1);
            if (++count < 104)
                continue;
            count = 103;
            uint64_t words = 0;
            int letter = 0;
            uint8_t changed = 0;
            for (; letter < 4; letter++) {
                uint32_t block = pending_block(high, low, letter);
                if (!valid(block, offset_of[letter])) {
                    if (!follows || !mended(&block, offset_of[letter]))
                        break;
                    changed++;
                }
                words = words << 16 | block >> 10;
            }
            follows = letter == 4;
            if (follows) {
                /* 512 bytes and 103 bits pending make no more than 40 frames */
                put_frame(out + 8 * frames, words);
                counts[frames] = changed;
                frames++;
                count = 0;
            }
        }
    }
    r->high = count > 64 ? high & (((uint64_t)1 << (count - 64)) - 1) : 0;
    r->low = count >= 64 ? low : low & (((uint64_t)1 << count) - 1);
    r->count = count;
    r->follows = (uint8_t)follows;
    return frames;
}
