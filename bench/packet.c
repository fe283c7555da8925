/* The packet reader and the packet writer in plain C: paper 01's "Packet" and "Numbers given back", with K13 of paper 02, as one writes them down. */
#include "packet.h"

extern void *memcpy(void *to, const void *from, size_t n);
extern void *memset(void *to, int byte, size_t n);

enum { FREQUENCIES = 0, ADDRESS = 1, KEEP = 2, CLOCK = 3, RAW = 4, RESET = 12, FACTORY = 13, DRILL = 14, TEXT = 15, COMMAND = 16, HOLD = 21, NONE = 255 };
enum { LEAST = 77, MOST = 250, CODE = 12, DIGITS = 23, ENTRY = 5, NUMBERS = 8 };

/* The kind of a type: itself where it is opened, raw, or none. */
static unsigned kind_of(unsigned type)
{
    switch (type) {
    case FREQUENCIES: case ADDRESS: case KEEP: case CLOCK: case RESET: case FACTORY: case DRILL: case TEXT: case HOLD:
        return type;
    case 4: case 5: case 6: case 7: case 8: case 11: case COMMAND: case 22: case 23: case 24:
        return RAW;
    default:
        return NONE;
    }
}

static int is_clock(const uint32_t *numbers)
{
    unsigned year = (uint16_t)numbers[0];
    uint8_t t[5];
    for (int i = 0; i < 5; i++)
        t[i] = (uint8_t)numbers[i + 1];
    static const uint8_t days[12] = {31, 28, 31, 30, 31, 30, 31, 31, 30, 31, 30, 31};
    if (t[0] < 1 || t[0] > 12 || t[1] < 1 || t[2] > 23 || t[3] > 59 || t[4] > 59)
        return 0;
    int leap = (year % 4 == 0 && year % 100 != 0) || year % 400 == 0;
    return t[1] <= days[t[0] - 1] + (t[0] == 2 && leap);
}

/* ---- reading: a place in the packet, and which of 24, 25 and 27 were due on the way */
struct walk {
    const uint8_t *at;
    int reserved, digit, field;
};

static void ones(struct walk *w, unsigned bits)
{
    if ((*w->at & bits) != bits)
        w->reserved = 1;
}

/* n digits; the first is the low half of a byte where n is odd. */
static void digits(struct walk *w, uint8_t *to, unsigned n)
{
    if (n % 2) {
        *to = *w->at++ & 15;
        w->digit |= *to++ > 9;
    }
    for (unsigned k = 0; k < n / 2; k++) {
        *to = *w->at >> 4;
        w->digit |= *to++ > 9;
        *to = *w->at++ & 15;
        w->digit |= *to++ > 9;
    }
}

static uint8_t number(struct walk *w, unsigned least, unsigned most)
{
    uint8_t x = *w->at++;
    w->field |= x < least || x > most;
    return x;
}

static int right_length(unsigned kind, const uint8_t *content, size_t size)
{
    switch (kind) {
    case FREQUENCIES: return size >= 1 && size == 1 + (size_t)ENTRY * content[0];
    case ADDRESS: return size >= 1 && size == 13 + (size_t)content[0];
    case KEEP: return size == 3;
    case CLOCK: return size == 7;
    case RESET: return size == 4;
    case FACTORY: return size == 1;
    case DRILL: return size == 19;
    case TEXT: return size >= 20 && size == 20 + (size_t)content[19];
    case HOLD: return size == 2;
    default: return 1;
    }
}

/* Type 0, 1 or 15: what is counted, and what stands beside it. */
static void counted(struct walk *w, struct plain_opened *o)
{
    struct plain_content *c = &o->fields.content;
    if (c->kind == TEXT) {
        c->numbers[0] = *w->at >> 4;
        c->numbers[1] = *w->at++ & 15;
        w->field |= c->numbers[0] < 1 || c->numbers[0] > 3 || c->numbers[1] > 4;
        ones(w, 0xF0);
        digits(w, o->fields.digits, 35);
    }
    c->count = *w->at++;
    if (c->kind == FREQUENCIES) {
        for (uint8_t *e = o->entries; e < o->entries + NUMBERS * c->count; e += NUMBERS) {
            e[0] = number(w, 1, 255);
            e[1] = *w->at++;
            digits(w, e + 2, 6);
        }
        return;
    }
    w->at += c->count;
    if (c->kind == ADDRESS) {
        ones(w, 0xF0);
        digits(w, o->fields.digits, DIGITS);
    }
}

static void content(struct walk *w, struct plain_opened *o, size_t size)
{
    struct plain_content *c = &o->fields.content;
    switch (c->kind) {
    case FREQUENCIES: case ADDRESS: case TEXT:
        counted(w, o);
        break;
    case KEEP:
        c->numbers[0] = number(w, 0, 1);
        c->numbers[1] = (uint16_t)(w->at[0] << 8 | w->at[1]);
        w->at += 2;
        break;
    case CLOCK:
        c->numbers[0] = (uint16_t)(w->at[0] << 8 | w->at[1]);
        for (int i = 1; i < 6; i++)
            c->numbers[i] = w->at[i + 1];
        w->field |= !is_clock(c->numbers);
        w->at += 7;
        break;
    case RESET: case FACTORY:
        c->numbers[0] = c->kind == RESET ? *w->at >> 4 & 3 : 0;
        w->field |= *w->at >> 6 != 1 || (c->kind == RESET && (c->numbers[0] < 1 || c->numbers[0] > 2));
        ones(w, c->kind == RESET ? 0x0F : 0x3F);
        w->at++;
        if (c->kind == RESET)
            digits(w, o->fields.digits, 6);
        break;
    case DRILL:
        c->numbers[0] = *w->at & 15;
        w->field |= *w->at++ >> 4 != 1 || c->numbers[0] < 1 || c->numbers[0] > 2;
        ones(w, 0xF0);
        digits(w, o->fields.digits, 35);
        break;
    case HOLD:
        c->numbers[0] = *w->at++;
        ones(w, 0xFF);
        w->at++;
        break;
    default:
        w->at += size;
    }
}

static int judged(const uint8_t *b, size_t n, struct plain_opened *o)
{
    if (n < LEAST || n > MOST || n != ((b[0] & 7u) << 8 | b[1]) + 2u || n < LEAST + (size_t)CODE * b[2])
        return 20;
    unsigned kind = kind_of(b[0] >> 3);
    if (kind == NONE)
        return 23;
    size_t size = n - LEAST - (size_t)CODE * b[2];
    if (!right_length(kind, b + 3 + CODE * b[2], size))
        return 26;
    struct walk w = {b + 3, 0, 0, 0};
    struct plain_fields *f = &o->fields;
    f->kind = b[0] >> 3;
    f->codes = b[2];
    f->content.kind = (uint8_t)kind;
    for (size_t k = 0; k < f->codes; k++) {
        ones(&w, 0xF0);
        digits(&w, o->codes + DIGITS * k, DIGITS);
    }
    content(&w, o, size);
    f->time = (uint32_t)w.at[0] << 24 | (uint32_t)w.at[1] << 16 | (uint32_t)w.at[2] << 8 | w.at[3];
    w.at += 4;
    digits(&w, f->certificate, 12);
    memcpy(f->signature, w.at, 64);
    return w.reserved ? 24 : w.digit ? 25 : w.field ? 27 : 0;
}

void plain_read(const uint8_t *packet, size_t n, struct plain_opened *o)
{
    memset(o, 0, sizeof *o);
    int answer = judged(packet, n, o);
    if (answer != 0) {
        memset(o, 0, sizeof *o);
        o->fields.content.kind = RAW;
    }
    o->answer = (uint8_t)answer;
}

/* ---- writing */
/* How many numbers of the body make one of the count; 0 for a content that has none. */
static size_t row_of(unsigned kind)
{
    return kind == FREQUENCIES ? NUMBERS : kind == ADDRESS || kind == TEXT ? 1 : 0;
}

static int count_bad(const struct plain_fields *f, size_t codes_lent, size_t lent)
{
    if (f->codes > 255 || codes_lent != DIGITS * f->codes)
        return 1;
    size_t row = row_of(kind_of(f->content.kind));
    return row != 0 && (f->content.count > 255 || lent != row * f->content.count);
}

static int above_nine(const uint8_t *d, size_t n)
{
    int above = 0;
    for (size_t i = 0; i < n; i++)
        above |= d[i] > 9;
    return above;
}

static int digit_bad(const struct plain_fields *f, const uint8_t *codes, size_t codes_lent, const uint8_t *body, size_t lent)
{
    if (above_nine(f->digits, 35) || above_nine(codes, codes_lent) || above_nine(f->certificate, 12))
        return 1;
    if (f->content.kind == FREQUENCIES)
        for (size_t i = 0; i < lent; i += NUMBERS)
            if (above_nine(body + i + 2, 6))
                return 1;
    return 0;
}

/* Numbers outside their lists and ranges; one that is too large for its field counts by its low bytes. */
static int out_of_range(const struct plain_content *c, const uint8_t *body, size_t lent)
{
    uint8_t first = (uint8_t)c->numbers[0], second = (uint8_t)c->numbers[1];
    switch (c->kind) {
    case FREQUENCIES:
        for (size_t i = 0; i < lent; i += NUMBERS)
            if (body[i] == 0)
                return 1;
        return 0;
    case KEEP: return first > 1;
    case CLOCK: return !is_clock(c->numbers);
    case RESET: case DRILL: return first < 1 || first > 2;
    case TEXT: return first < 1 || first > 3 || second > 4;
    default: return 0;
    }
}

/* Another type's content, or what could not be read back. */
static int not_taken(const struct plain_fields *f, const uint8_t *body, size_t lent, unsigned kind)
{
    unsigned used = kind == ADDRESS ? DIGITS : kind == RESET ? 6 : kind == DRILL || kind == TEXT ? 35 : 0;
    if (kind_of(f->kind) != kind || (f->kind == ADDRESS && f->codes != 0) || (lent != 0 && row_of(kind) == 0 && kind != RAW))
        return 1;
    for (unsigned i = used; i < 35; i++)
        if (f->digits[i] != 0)
            return 1;
    return out_of_range(&f->content, body, lent);
}

static size_t size_of(unsigned kind, size_t count, size_t lent)
{
    static const uint8_t sizes[22] = {[FREQUENCIES] = 1, [ADDRESS] = 13, [KEEP] = 3, [CLOCK] = 7, [RESET] = 4, [FACTORY] = 1, [DRILL] = 19, [TEXT] = 20, [HOLD] = 2};
    return kind == RAW ? lent : sizes[kind] + (row_of(kind) == NUMBERS ? ENTRY * count : row_of(kind) * count);
}

/* n digits, behind four ones where n is odd. */
static uint8_t *put_digits(uint8_t *to, const uint8_t *d, unsigned n)
{
    if (n % 2)
        *to++ = (uint8_t)(0xF0 | *d++);
    for (unsigned k = 0; k < n / 2; k++, d += 2)
        *to++ = (uint8_t)(d[0] << 4 | d[1]);
    return to;
}

static uint8_t *put_bytes(uint8_t *to, const uint8_t *b, size_t n)
{
    memcpy(to, b, n);
    return to + n;
}

static uint8_t *put_content(uint8_t *to, const struct plain_fields *f, const uint8_t *body, size_t lent, unsigned kind)
{
    const struct plain_content *c = &f->content;
    switch (kind) {
    case FREQUENCIES:
        *to++ = (uint8_t)c->count;
        for (size_t i = 0; i < lent; i += NUMBERS)
            to = put_digits(put_bytes(to, body + i, 2), body + i + 2, 6);
        return to;
    case ADDRESS:
        *to++ = (uint8_t)c->count;
        return put_digits(put_bytes(to, body, lent), f->digits, DIGITS);
    case KEEP:
        *to++ = (uint8_t)c->numbers[0];
        *to++ = (uint8_t)(c->numbers[1] >> 8);
        *to++ = (uint8_t)c->numbers[1];
        return to;
    case CLOCK:
        *to++ = (uint8_t)(c->numbers[0] >> 8);
        for (int i = 0; i < 6; i++)
            *to++ = (uint8_t)c->numbers[i];
        return to;
    case RESET:
        *to++ = (uint8_t)(0x4F | c->numbers[0] << 4);
        return put_digits(to, f->digits, 6);
    case FACTORY:
        *to++ = 0x7F;
        return to;
    case DRILL:
        *to++ = (uint8_t)(0x10 | c->numbers[0]);
        return put_digits(to, f->digits, 35);
    case TEXT:
        *to++ = (uint8_t)(c->numbers[0] << 4 | c->numbers[1]);
        to = put_digits(to, f->digits, 35);
        *to++ = (uint8_t)c->count;
        return put_bytes(to, body, lent);
    case HOLD:
        *to++ = (uint8_t)c->numbers[0];
        *to++ = 0xFF;
        return to;
    default:
        return put_bytes(to, body, lent);
    }
}

static void put_packet(const struct plain_fields *f, const uint8_t *codes, const uint8_t *body, size_t lent, unsigned kind, size_t size, uint8_t *to)
{
    *to++ = (uint8_t)(f->kind << 3 | (size - 2) >> 8);
    *to++ = (uint8_t)(size - 2);
    *to++ = (uint8_t)f->codes;
    for (size_t k = 0; k < f->codes; k++)
        to = put_digits(to, codes + DIGITS * k, DIGITS);
    to = put_content(to, f, body, lent, kind);
    for (int shift = 24; shift >= 0; shift -= 8)
        *to++ = (uint8_t)(f->time >> shift);
    put_bytes(put_digits(to, f->certificate, 12), f->signature, 64);
}

struct plain_written plain_write(const struct plain_fields *f, const uint8_t *codes, size_t codes_lent, const uint8_t *body, size_t lent, uint8_t *out, size_t room)
{
    struct plain_written w = {0, 0};
    unsigned kind = f->content.kind == COMMAND || kind_of(f->content.kind) == NONE ? RAW : kind_of(f->content.kind);
    size_t size = 0;
    if (kind_of(f->kind) == NONE || f->kind == COMMAND)
        w.answer = 23;
    else if (count_bad(f, codes_lent, lent))
        w.answer = 26;
    else if (digit_bad(f, codes, codes_lent, body, lent))
        w.answer = 25;
    else if (not_taken(f, body, lent, kind))
        w.answer = 27;
    else if ((size = LEAST + CODE * f->codes + size_of(kind, f->content.count, lent)) > MOST)
        w.answer = 20;
    else if (room < size)
        w.answer = 10;
    if (w.answer == 0) {
        put_packet(f, codes, body, lent, kind, size, out);
        w.length = size;
    }
    return w;
}
