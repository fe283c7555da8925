/* Packets read and written by ours and by plain C: first that they agree, then how long each takes. See docs/PERFORMANCE.md. */
#include "packet.h"
#include "shared.h"

extern void *memcpy(void *to, const void *from, size_t n);

enum { MOST = 250, CODE_DIGITS = 322, BODY = 2100, TRIES = 40000 };

/* Fields of a type with what is lent for them, as plain C takes them and as ours does. */
struct story {
    struct plain_fields f;
    struct codec_fields mine;
    uint8_t codes[CODE_DIGITS + 23], body[BODY];
    size_t codes_lent, lent;
};

static void some_digits(uint8_t *d, size_t n)
{
    for (size_t i = 0; i < n; i++)
        d[i] = (uint8_t)chance(10);
}

static void some_bytes(uint8_t *b, size_t n)
{
    for (size_t i = 0; i < n; i++)
        b[i] = (uint8_t)chance(256);
}

static unsigned kind_named(unsigned type)
{
    return type < 4 || (type >= 12 && type <= 15) || type == 21 ? type : 4;
}

/* Fields that make a packet where n codes and k of what is counted fit: all of a type's own numbers right. */
static void make_story(struct story *s, unsigned type, size_t n, size_t k)
{
    unsigned kind = kind_named(type);
    struct plain_content c = {(uint8_t)kind, {0}, 0};
    for (size_t i = 0; i < sizeof *s; i++)
        ((uint8_t *)s)[i] = 0;
    s->f.kind = (uint8_t)type;
    s->f.codes = n;
    s->f.time = chance(0xFFFFFFFF);
    s->codes_lent = 23 * n;
    some_digits(s->codes, s->codes_lent);
    some_digits(s->f.certificate, 12);
    some_bytes(s->f.signature, 64);
    some_digits(s->f.digits, kind == 1 ? 23 : kind == 12 ? 6 : kind == 14 || kind == 15 ? 35 : 0);
    if (kind <= 1 || kind == 15)
        c.count = k;
    if (kind <= 1 || kind == 15 || kind == 4)
        s->lent = kind == 0 ? 8 * k : k;
    some_bytes(s->body, s->lent);
    for (size_t i = 0; kind == 0 && i < s->lent; i += 8) {
        s->body[i] |= 1;
        some_digits(s->body + i + 2, 6);
    }
    if (kind == 2 || kind == 3)
        c.numbers[kind == 2] = chance(65536);
    static const uint8_t most[5] = {12, 28, 23, 59, 59};
    for (int i = 0; kind == 3 && i < 5; i++)
        c.numbers[i + 1] = 1 + chance(most[i]);
    if (kind == 12 || kind == 14 || kind == 15 || kind == 2 || kind == 21)
        c.numbers[0] = kind == 2 ? chance(2) : kind == 21 ? chance(256) : 1 + chance(kind == 15 ? 3 : 2);
    if (kind == 15)
        c.numbers[1] = chance(5);
    s->f.content = c;
}

/* Ours as plain C has them, and back. */
static void plainly(struct plain_fields *f, const struct codec_fields *c)
{
    f->kind = c->kind;
    f->codes = c->codes;
    f->content = c->content;
    f->time = c->time;
    memcpy(f->certificate, c->certificate, 12);
    memcpy(f->signature, c->signature, 64);
}

static void ours(struct codec_fields *c, const struct plain_fields *f)
{
    c->kind = f->kind;
    c->codes = f->codes;
    c->content = f->content;
    c->time = f->time;
    memcpy(c->certificate, f->certificate, 12);
    memcpy(c->signature, f->signature, 64);
}

static int same_fields(const struct plain_fields *a, const struct plain_fields *b)
{
    const struct plain_content *c = &a->content, *d = &b->content;
    return a->kind == b->kind && a->codes == b->codes && a->time == b->time && memcmp(a->digits, b->digits, 35) == 0
        && memcmp(a->certificate, b->certificate, 12) == 0 && memcmp(a->signature, b->signature, 64) == 0
        && c->kind == d->kind && c->count == d->count && memcmp(c->numbers, d->numbers, sizeof c->numbers) == 0;
}

/* An array that was lent for a packet that is refused: as it was; then zeros, as plain C leaves its own. */
static void untouched(uint8_t *b, size_t n)
{
    for (size_t i = 0; i < n; i++) {
        if (b[i] != (uint8_t)(i + 1))
            differ("what was lent for a packet that is refused", i);
        b[i] = 0;
    }
}

static void lend(uint8_t *b, size_t n)
{
    for (size_t i = 0; i < n; i++)
        b[i] = (uint8_t)(i + 1);
}

static unsigned read_alike(const uint8_t *p, size_t n)
{
    static struct plain_opened theirs, mine;
    lend(mine.codes, sizeof mine.codes);
    lend(mine.entries, sizeof mine.entries);
    lend(mine.fields.digits, sizeof mine.fields.digits);
    struct codec_told told = codec_read(p, n, mine.codes, mine.entries, mine.fields.digits);
    mine.answer = told.answer;
    plainly(&mine.fields, &told.fields);
    if (told.answer != 0) {
        untouched(mine.codes, sizeof mine.codes);
        untouched(mine.entries, sizeof mine.entries);
        untouched(mine.fields.digits, sizeof mine.fields.digits);
    }
    plain_read(p, n, &theirs);
    if (mine.answer != theirs.answer || !same_fields(&mine.fields, &theirs.fields) || memcmp(mine.codes, theirs.codes, 322) != 0 || memcmp(mine.entries, theirs.entries, 272) != 0)
        differ("a packet read", n);
    return mine.answer;
}

static unsigned written_alike(const struct story *s, size_t room, uint8_t *mine, size_t *length)
{
    static uint8_t theirs[MOST + 10];
    for (size_t i = 0; i < sizeof theirs; i++)
        mine[i] = theirs[i] = (uint8_t)i;
    struct codec_fields f;
    ours(&f, &s->f);
    struct plain_written a = codec_write(f, s->f.digits, s->codes, s->codes_lent, s->body, s->lent, mine, room);
    struct plain_written b = plain_write(&s->f, s->codes, s->codes_lent, s->body, s->lent, theirs, room);
    if (a.answer != b.answer || a.length != b.length || memcmp(mine, theirs, sizeof theirs) != 0)
        differ("a packet written", s->f.kind);
    *length = a.length;
    return a.answer;
}

/* One thing wrong with the fields. */
static void spoil(struct story *s)
{
    uint8_t *places[6] = {&s->f.kind, &s->f.content.kind, s->f.digits + chance(35), s->f.certificate + chance(12), s->codes, s->body + chance(16)};
    static const uint8_t edges[9] = {0, 1, 2, 3, 9, 10, 16, 32, 255};
    static const uint32_t more[4] = {0, 256, 65536, 0xFFFF0000};
    size_t place = chance(11);
    if (place < 2)
        s->f.content.numbers[place == 0 ? 0 : 1 + chance(5)] = (chance(2) ? edges[chance(9)] : chance(32)) + more[chance(4)];
    else if (place < 8)
        *places[place - 2] = chance(2) ? edges[chance(9)] : (uint8_t)chance(32);
    else if (place == 8)
        s->f.codes += chance(2) ? 1 : 256;
    else if (place == 9)
        s->f.content.count += chance(2) ? 1 : 256;
    else
        s->lent += chance(2);
}

/* A packet with a bit turned, or longer or shorter, its length field right or not. */
static size_t damage(uint8_t *p, size_t n)
{
    for (uint32_t k = chance(3); k > 0; k--)
        p[chance(2) ? chance(30) : chance((uint32_t)n)] ^= (uint8_t)(1 << chance(8));
    if (chance(4) == 0) {
        n = n + chance(5) - 2;
        p[0] = (uint8_t)((p[0] & 0xF8) | (n - 2) >> 8);
        p[1] = (uint8_t)(n - 2);
    }
    return n;
}

/* Fields of every type, right and with one thing wrong, written by both; what is written read by both, whole and damaged. Each answer has to come. */
int packets_agree(void)
{
    static struct story s;
    static uint8_t packet[MOST + 10];
    unsigned read[32] = {0}, written[32] = {0};
    size_t length;
    for (size_t i = 0; i < TRIES; i++) {
        size_t n = chance(4) ? chance(3) : chance(16);
        make_story(&s, (unsigned)(i % 32), i % 32 == 1 && chance(8) ? 0 : n, chance(4) ? chance(20) : chance(180));
        unsigned answer = written_alike(&s, chance(8) ? MOST : 70 + chance(MOST - 70), packet, &length);
        written[answer]++;
        if (answer == 0) {
            read[read_alike(packet, length)]++;
            if (i / 32 % 8 == 0)
                packet[0] = (uint8_t)(16 << 3 | (packet[0] & 7));
            length = damage(packet, length);
            read[read_alike(packet, length)]++;
        }
        spoil(&s);
        written[written_alike(&s, MOST, packet, &length)]++;
    }
    static const uint8_t listed[9] = {0, 10, 20, 23, 24, 25, 26, 27};
    for (int k = 0; k < 8; k++)
        if ((listed[k] != 10 && read[listed[k]] == 0) || (listed[k] != 24 && written[listed[k]] == 0))
            differ("an answer that never came", listed[k]);
    return 0;
}

/* ---- what is timed: a text of 141 bytes with a code, and 34 entries with none */
enum { TEXT_ROW, ENTRIES_ROW };
static struct story stories[2];
static uint8_t packets[2][MOST];
static size_t lengths[2];
static void make_rows(void)
{
    make_story(&stories[TEXT_ROW], 15, 1, 141);
    make_story(&stories[ENTRIES_ROW], 0, 0, 34);
    for (int row = 0; row < 2; row++) {
        const struct story *s = &stories[row];
        lengths[row] = plain_write(&s->f, s->codes, s->codes_lent, s->body, s->lent, packets[row], MOST).length;
    }
}

/* `way` 0 is ours. The signature changes from turn to turn, and the sum keeps the work from being left out. Both fill what is the loop's own: a record
   that is given back by value is not copied once more. */
static size_t reading(int way, int row, size_t times)
{
    size_t sum = 0;
    for (size_t i = 0; i < times; i++) {
        packets[row][lengths[row] - 1] = (uint8_t)i;
        if (way == 0) {
            uint8_t codes[CODE_DIGITS], entries[272], digits[35];
            const struct codec_told t = codec_read(packets[row], lengths[row], codes, entries, digits);
            sum += (size_t)t.answer + t.fields.signature[63] + codes[3] + entries[7] + digits[3];
        } else {
            struct plain_opened o;
            plain_read(packets[row], lengths[row], &o);
            sum += (size_t)o.answer + o.fields.signature[63] + o.codes[3] + o.entries[7] + o.fields.digits[3];
        }
    }
    return sum;
}

static size_t writing(int way, int row, size_t times)
{
    static uint8_t out[MOST];
    struct story *s = &stories[row];
    size_t sum = 0;
    ours(&s->mine, &s->f);
    for (size_t i = 0; i < times; i++) {
        s->f.signature[63] = s->mine.signature[63] = (uint8_t)i;
        struct plain_written w = way == 0 ? codec_write(s->mine, s->f.digits, s->codes, s->codes_lent, s->body, s->lent, out, MOST)
                                          : plain_write(&s->f, s->codes, s->codes_lent, s->body, s->lent, out, MOST);
        sum += w.answer + w.length + out[w.length - 1];
    }
    return sum;
}

size_t packets_only(int way, int kind, size_t times)
{
    make_rows();
    return kind < 2 ? reading(way, kind, times) : writing(way, kind - 2, times);
}

void measure_packets(size_t times)
{
    static const char *const names[4] = {"read, a text of 141 bytes", "read, 34 entries", "written, a text of 141 bytes", "written, 34 entries"};
    make_rows();
    printf("\n| %zu packets                  | ours, ms | plain C  | /plain | ours, ns a packet |\n|---|---|---|---|---|\n", times);
    for (int kind = 0; kind < 4; kind++) {
        double taken[2][ROUNDS], m[2];
        for (int round = -1; round < ROUNDS; round++)
            for (int turn = 0; turn < 2; turn++) {
                int way = (turn + round + 2) % 2;
                double start = now();
                volatile size_t sink = kind < 2 ? reading(way, kind, times) : writing(way, kind - 2, times);
                (void)sink;
                if (round >= 0)
                    taken[way][round] = now() - start;
            }
        for (int way = 0; way < 2; way++)
            m[way] = median(taken[way]);
        printf("| %-28s | %8.2f | %8.2f | %6.2f | %.0f |\n", names[kind], m[0], m[1], m[0] / m[1], m[0] * 1e6 / (double)times);
    }
}
