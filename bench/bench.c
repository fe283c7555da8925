/* Ours beside plain C: the same inputs to both, first that they agree, then how long each takes. See docs/PERFORMANCE.md. */
#include "packet.h"
#include "plain.h"
#include "shared.h"

/* Ours, from the static library of crates/radio. A slice is its first byte's address and its length. */
struct radio {
    uint64_t high, low;
    uint32_t count;
    uint8_t follows;
};
struct heard {
    uint8_t answer;
    size_t frames;
    struct radio radio;
};
struct radio radio_fresh(void);
struct heard radio_receive(struct radio r, const uint8_t *delivery, size_t n, uint8_t *out, size_t room, uint8_t *counts, size_t room_for_counts);
uint16_t radio_packet_check(const uint8_t *bytes, size_t n);
uint32_t radio_letter(uint32_t bits);
struct sent {
    uint8_t answer;
    size_t frames;
};
struct sent radio_on_air(const uint8_t *packet, size_t n, uint8_t level, uint8_t version, uint8_t *out, size_t room);
struct plain_decided radio_decide(struct plain_pair state, const double *symbol, size_t n);

/* The little of the C library that is used; a cross compiler may come without its headers. */
struct timespec {
    long seconds, nanos;
};
extern int clock_gettime(int clock, struct timespec *now);
extern int strcmp(const char *a, const char *b);
enum { OWN_TIME = 2 };

enum { PIECE = 512, MOST = 2000 * PIECE, ROOM = 320, COUNTS = 40 };
static uint8_t air[MOST];

static uint64_t seed = 0x9E3779B97F4A7C15;
uint32_t chance(uint32_t below)
{
    seed ^= seed << 13;
    seed ^= seed >> 7;
    seed ^= seed << 17;
    return (uint32_t)(seed >> 32) % below;
}

/* Air is made bit by bit. */
static size_t at;
static void put_bits(uint32_t bits, int n, size_t size)
{
    for (int k = n - 1; k >= 0 && at < size * 8; k--, at++) {
        uint8_t bit = (uint8_t)(0x80 >> at % 8);
        if (bits >> k & 1)
            air[at / 8] |= bit;
        else
            air[at / 8] &= (uint8_t)~bit;
    }
}

static uint32_t block(uint32_t info, unsigned offset)
{
    uint32_t rest = info << 10;
    for (int i = 25; i >= 10; i--)
        if (rest >> i & 1)
            rest ^= (uint32_t)0x5B9 << (i - 10);
    return info << 10 | (rest ^ offset);
}

static const unsigned offsets[4] = {0x0FC, 0x198, 0x168, 0x1B4};
static void put_frame(size_t size, uint32_t wrong)
{
    for (int k = 0; k < 4; k++)
        put_bits(block(chance(65536), offsets[k]) ^ (k == 2 ? wrong : 0), 26, size);
}

static void clean(size_t size)
{
    at = 0;
    while (at < size * 8)
        put_frame(size, 0);
}

static void noise(size_t size)
{
    at = 0;
    while (at < size * 8)
        put_bits(chance(256), 8, size);
}

/* One to eight frames, the last of them with a wrong bit every second time, then up to 399 bits of noise. */
static void mixture(size_t size)
{
    at = 0;
    while (at < size * 8) {
        for (uint32_t k = chance(8); k > 0; k--)
            put_frame(size, 0);
        put_frame(size, chance(2) << chance(26));
        for (uint32_t k = chance(400); k > 0; k--)
            put_bits(chance(2), 1, size);
    }
}

/* Frames one behind the other, each block but those of the first with a burst of up to five bits. */
static void bursts(size_t size)
{
    at = 0;
    put_frame(size, 0);
    while (at < size * 8)
        for (int k = 0; k < 4; k++)
            put_bits(block(chance(65536), offsets[k]) ^ (chance(31) + 1) << chance(22), 26, size);
}

/* A block A begins at every tenth bit, and no frame anywhere: the ten check bits of each are the first of the next but one. */
static void false_starts(size_t size)
{
    at = 0;
    uint32_t last = block(0x1234, 0x0FC);
    put_bits(last, 26, size);
    while (at < size * 8) {
        last = block(last & 0xFFFF, 0x0FC);
        put_bits(last & 0x3FF, 10, size);
    }
}

/* A run over the first `size` bytes of air in deliveries of `piece`: how many frames. */
static size_t ours(size_t size, size_t piece)
{
    uint8_t out[ROOM], counts[COUNTS];
    size_t frames = 0;
    struct radio r = radio_fresh();
    for (size_t i = 0; i < size; i += piece) {
        struct heard h = radio_receive(r, air + i, size - i < piece ? size - i : piece, out, ROOM, counts, COUNTS);
        r = h.radio;
        frames += h.frames;
    }
    return frames;
}

typedef int receive_fn(struct plain_receiver *, const uint8_t *, size_t, uint8_t *, size_t, uint8_t *, size_t);
static size_t in_c(receive_fn *receive, size_t size, size_t piece)
{
    uint8_t out[ROOM], counts[COUNTS];
    size_t frames = 0;
    struct plain_receiver r = {0, 0, 0, 0};
    for (size_t i = 0; i < size; i += piece)
        frames += (size_t)receive(&r, air + i, size - i < piece ? size - i : piece, out, ROOM, counts, COUNTS);
    return frames;
}

static int wrong;
void differ(const char *where, size_t place)
{
    printf("DIFFERENT: %s, at %zu\n", where, place);
    wrong = 1;
}

/* Every delivery: answer, frames, both lent outputs whole, and the receiver left. */
static void agree(const char *where, receive_fn *receive, size_t size, size_t piece)
{
    uint8_t mine[ROOM], theirs[ROOM], my_counts[COUNTS], their_counts[COUNTS];
    struct radio r = radio_fresh();
    struct plain_receiver p = {0, 0, 0, 0};
    for (size_t i = 0; i < ROOM; i++)
        mine[i] = theirs[i] = (uint8_t)i;
    for (size_t i = 0; i < COUNTS; i++)
        my_counts[i] = their_counts[i] = (uint8_t)i;
    for (size_t i = 0; i < size && !wrong; i += piece) {
        size_t n = size - i < piece ? size - i : piece;
        struct heard h = radio_receive(r, air + i, n, mine, ROOM, my_counts, COUNTS);
        int frames = receive(&p, air + i, n, theirs, ROOM, their_counts, COUNTS);
        r = h.radio;
        if (h.answer != 0 || frames < 0 || h.frames != (size_t)frames || memcmp(mine, theirs, ROOM) != 0 || memcmp(my_counts, their_counts, COUNTS) != 0)
            differ(where, i);
        if (r.high != p.high || r.low != p.low || r.count != p.count || r.follows != p.follows)
            differ(where, i);
    }
}

static void agree_all(const char *where, size_t size)
{
    static const size_t pieces[5] = {512, 511, 13, 7, 1};
    for (int k = 0; k < 5; k++) {
        agree(where, plain_receive, size, pieces[k]);
        agree(where, table_receive, size, pieces[k]);
        agree(where, same_receive, size, pieces[k]);
    }
}

static void checks_agree(void)
{
    for (size_t n = 0; n <= 600; n++)
        for (size_t from = 0; from < 4000; from += 997) {
            uint16_t mine = radio_packet_check(air + from, n);
            if (mine != plain_packet_check(air + from, n) || mine != table_packet_check(air + from, n) || mine != same_packet_check(air + from, n))
                differ("packet check", n);
        }
}

/* Every letter's block, with a bit turned or not, and numbers that are no 26 bits. */
static void letters_agree(void)
{
    static const unsigned five[5] = {0x0FC, 0x198, 0x168, 0x350, 0x1B4};
    for (uint32_t n = 0; n < 60000; n++) {
        uint32_t bits = block(chance(65536), five[n % 5]) ^ chance(2) << chance(28), due = 0;
        for (uint32_t k = 0; k < 5; k++)
            if (bits < 1u << 26 && block(bits >> 10, five[k]) == bits)
                due = k + 1;
        if (radio_letter(bits) != due)
            differ("letter", bits);
    }
}

/* Every size, refused ones too; the length field right or one more; levels and versions at their edges; room that is just enough or a byte short. */
typedef int on_air_fn(const uint8_t *, size_t, unsigned, unsigned, uint8_t *, size_t);
enum { AIR_ROOM = 63 * 13 };
static uint8_t packet[260];
static void a_packet(size_t field)
{
    for (size_t i = 0; i < sizeof packet; i++)
        packet[i] = (uint8_t)chance(256);
    packet[0] = (uint8_t)((packet[0] & 0xF8) | field >> 8);
    packet[1] = (uint8_t)field;
}

static int ours_on_air(const uint8_t *bytes, size_t n, unsigned level, unsigned version, uint8_t *out, size_t room)
{
    struct sent s = radio_on_air(bytes, n, (uint8_t)level, (uint8_t)version, out, room);
    return s.answer == 0 ? (int)s.frames : -(int)s.answer;
}

static on_air_fn *const on_airs[4] = {ours_on_air, plain_on_air, table_on_air, same_on_air};
static void on_air_agrees(void)
{
    static const unsigned levels[4] = {0, 1, 6, 7}, versions[3] = {0, 31, 32};
    static uint8_t outs[4][AIR_ROOM];
    for (size_t n = 0; n <= 255; n++)
        for (int k = 0; k < 24; k++) {
            size_t need = (n + 5) / 4 * 13, room = k % 4 == 0 ? need - 1 : need;
            if (room > AIR_ROOM)
                room = AIR_ROOM;
            a_packet(n - 2 + (k == 23));
            int answers[4];
            for (int way = 0; way < 4; way++) {
                for (size_t i = 0; i < AIR_ROOM; i++)
                    outs[way][i] = (uint8_t)i;
                answers[way] = on_airs[way](packet, n, levels[(k + 1) % 4], versions[k / 4 % 3], outs[way], room);
            }
            for (int way = 1; way < 4; way++)
                if (answers[way] != answers[0] || memcmp(outs[way], outs[0], AIR_ROOM) != 0)
                    differ("on air", n);
        }
}

static void refusals_agree(void)
{
    uint8_t out[ROOM], counts[COUNTS];
    struct plain_receiver p = {0, 0, 104, 0}, q = {0, 0, 0, 0};
    struct radio r = {0, 0, 104, 0};
    if (radio_receive(r, air, 1, out, ROOM, counts, COUNTS).answer != -plain_receive(&p, air, 1, out, ROOM, counts, COUNTS))
        differ("104 bits pending", 0);
    if (radio_receive(radio_fresh(), air, 513, out, ROOM, counts, COUNTS).answer != -plain_receive(&q, air, 513, out, ROOM, counts, COUNTS))
        differ("513 bytes", 0);
    if (radio_receive(radio_fresh(), air, 512, out, 319, counts, COUNTS).answer != -plain_receive(&q, air, 512, out, 319, counts, COUNTS))
        differ("an output of 319", 0);
    if (radio_receive(radio_fresh(), air, 512, out, ROOM, counts, 39).answer != -plain_receive(&q, air, 512, out, ROOM, counts, 39))
        differ("a second output of 39", 0);
}

/* Symbols: whole samples of any size or small ones, a row of 32 numbers each; now and then what is no sample, a state that is none, another count. */
enum { SYMBOLS = 4096, NUMBERS = 32 };
static double symbols[SYMBOLS][NUMBERS];
static void make_symbols(void)
{
    for (size_t i = 0; i < SYMBOLS; i++)
        for (size_t k = 0; k < NUMBERS; k++)
            symbols[i][k] = i % 4 == 0 ? (double)chance(5) - 2 : (double)chance(65536) - 32768;
}

static int same_double(double a, double b)
{
    return (a != a && b != b) || memcmp(&a, &b, sizeof a) == 0;
}

static void decided_alike(struct plain_pair state, const double *symbol, size_t n, size_t place)
{
    struct plain_decided a = radio_decide(state, symbol, n), b = plain_decide(state, symbol, n);
    if (a.answer != b.answer || a.verdict != b.verdict || !same_double(a.product, b.product) || !same_double(a.state.inphase, b.state.inphase) || !same_double(a.state.quadrature, b.state.quadrature))
        differ("a symbol", place);
}

static void symbols_agree(void)
{
    static const double odd[12] = {0.5, -0.5, 32768, -32769, 524280, -524280, 524281, -524281, 9007199254740992.0, 1e300, __builtin_inf(), __builtin_nan("")};
    struct plain_pair state = {0, 0};
    for (size_t i = 0; i < SYMBOLS; i++) {
        double *x = &symbols[i][chance(NUMBERS)], kept = *x;
        struct plain_pair other = {odd[i % 12], odd[i / 12 % 12]};
        decided_alike(state, symbols[i], NUMBERS, i);
        decided_alike(state, symbols[i], chance(33), i);
        decided_alike(other, symbols[i], NUMBERS, i);
        *x = odd[i % 12];
        decided_alike(state, symbols[i], NUMBERS, i);
        *x = kept;
        state = plain_decide(state, symbols[i], NUMBERS).state;
    }
}

double now(void)
{
    struct timespec t;
    clock_gettime(OWN_TIME, &t);
    return (double)t.seconds * 1e3 + (double)t.nanos / 1e6;
}

double median(double *times)
{
    for (int i = 1; i < ROUNDS; i++)
        for (int k = i; k > 0 && times[k] < times[k - 1]; k--) {
            double t = times[k];
            times[k] = times[k - 1];
            times[k - 1] = t;
        }
    return times[ROUNDS / 2];
}

/* What is timed, one of four at a time; `way` 0 is ours. */
enum { WAYS = 4 };
typedef size_t work_fn(int way, size_t a, size_t b);

static receive_fn *const receives[WAYS] = {0, plain_receive, table_receive, same_receive};
static size_t receiving(int way, size_t size, size_t piece)
{
    return way == 0 ? ours(size, piece) : in_c(receives[way], size, piece);
}

typedef uint16_t check_fn(const uint8_t *, size_t);
static check_fn *const packet_checks[WAYS] = {radio_packet_check, plain_packet_check, table_packet_check, same_packet_check};

static size_t checking(int way, size_t length, size_t times)
{
    size_t sum = 0;
    for (size_t i = 0; i < times; i++)
        sum += packet_checks[way](air + i % 64, length);
    return sum;
}

static size_t sending(int way, size_t length, size_t times)
{
    static uint8_t out[AIR_ROOM];
    size_t sum = 0;
    a_packet(length - 2);
    for (size_t i = 0; i < times; i++) {
        packet[2] = (uint8_t)i;
        sum += (size_t)on_airs[way](packet, length, 1, (unsigned)(i % 32), out, sizeof out) + out[12];
    }
    return sum;
}

/* All in turn, ROUNDS times, after one turn that is not counted; the medians, and ours over each of the others. */
static void measure(const char *what, work_fn *work, size_t a, size_t b, double units)
{
    double times[WAYS][ROUNDS];
    for (int round = -1; round < ROUNDS; round++)
        for (int turn = 0; turn < WAYS; turn++) {
            int way = (turn + round + WAYS) % WAYS;
            double start = now();
            volatile size_t sink = work(way, a, b);
            (void)sink;
            if (round >= 0)
                times[way][round] = now() - start;
        }
    double m[WAYS];
    for (int way = 0; way < WAYS; way++)
        m[way] = median(times[way]);
    printf("| %-25s | %8.2f | %8.2f | %8.2f | %8.2f | %6.2f | %6.2f | %6.2f | %6.2f |\n", what, m[0], m[1], m[2], m[3], m[0] / m[1], m[0] / m[2], m[0] / m[3], m[0] * 1e6 / units);
}

/* Every symbol behind the one before it, so many times over; `way` 0 is ours. The sum keeps the work from being left out. */
static size_t deciding(int way, size_t times)
{
    size_t sum = 0;
    for (size_t t = 0; t < times; t++) {
        struct plain_pair state = {0, 0};
        for (size_t i = 0; i < SYMBOLS; i++) {
            struct plain_decided d = way == 0 ? radio_decide(state, symbols[i], NUMBERS) : plain_decide(state, symbols[i], NUMBERS);
            state = d.state;
            sum += d.verdict;
        }
    }
    return sum;
}

static void measure_symbols(size_t times)
{
    double taken[2][ROUNDS], m[2];
    for (int round = -1; round < ROUNDS; round++)
        for (int turn = 0; turn < 2; turn++) {
            int way = (turn + round + 2) % 2;
            double start = now();
            volatile size_t sink = deciding(way, times);
            (void)sink;
            if (round >= 0)
                taken[way][round] = now() - start;
        }
    for (int way = 0; way < 2; way++)
        m[way] = median(taken[way]);
    printf("\n| symbols                   | ours, ms | plain C  | /plain | ours, millions a second | plain C's |\n|---|---|---|---|---|---|\n");
    printf("| %-25zu | %8.2f | %8.2f | %6.2f | %.2f | %.2f |\n", times * SYMBOLS, m[0], m[1], m[0] / m[1], (double)(times * SYMBOLS) / m[0] / 1e3, (double)(times * SYMBOLS) / m[1] / 1e3);
}

static void head(const char *unit)
{
    printf("\n| %-25s | ours, ms | plain C  | table C  | same C   | /plain | /table | /same  | ns a %s |\n", "", unit);
    printf("|---------------------------|----------|----------|----------|----------|--------|--------|--------|--------|\n");
}

typedef void make_fn(size_t size);
enum { KINDS = 5 };
static make_fn *const kinds[KINDS] = {clean, noise, mixture, false_starts, bursts};
static const char *const names[KINDS] = {"clean air", "noise", "mixture", "an A every 10 bits", "every block damaged"};
static const char *const doubled[KINDS][4] = {
    {"clean air, 128000 bytes", "clean air, 256000 bytes", "clean air, 512000 bytes", "clean air, 1024000 bytes"},
    {"noise, 128000 bytes", "noise, 256000 bytes", "noise, 512000 bytes", "noise, 1024000 bytes"},
    {"mixture, 128000 bytes", "mixture, 256000 bytes", "mixture, 512000 bytes", "mixture, 1024000 bytes"},
    {"A's, 128000 bytes", "A's, 256000 bytes", "A's, 512000 bytes", "A's, 1024000 bytes"},
    {"damaged, 128000 bytes", "damaged, 256000 bytes", "damaged, 512000 bytes", "damaged, 1024000 bytes"},
};
static const char *const pieces[5] = {"deliveries of 32 bytes", "deliveries of 64 bytes", "deliveries of 128 bytes", "deliveries of 256 bytes", "deliveries of 512 bytes"};
static const size_t lengths[8] = {2, 77, 250, 64, 128, 256, 512, 1024};
static const char *const check_names[8] = {"packet check of 2 bytes", "packet check of 77 bytes", "packet check of 250 bytes", "64 bytes", "128 bytes", "256 bytes", "512 bytes", "1024 bytes"};

/* For counting instructions: one way, one kind of work, so many deliveries or packets, and no word. */
static int only(int way, int kind, size_t times)
{
    kinds[kind % 3](16 * PIECE);
    if (kind > 4)
        return packets_only(way, kind - 5, times) > (size_t)1 << 40;
    size_t sum = kind < 3 ? receiving(way, times * PIECE, PIECE) : kind == 3 ? checking(way, 250, times) : sending(way, 250, times);
    return sum > (size_t)1 << 40;
}

int main(int argc, char **argv)
{
    table_prepare();
    if (argc == 5 && strcmp(argv[1], "--only") == 0)
        return only(argv[2][0] - '0', argv[3][0] - '0', (size_t)(argv[4][0] - '0'));
    for (int k = 0; k < KINDS; k++) {
        kinds[k](128 * 1000);
        agree_all(names[k], 128 * 1000);
        printf("%s: %zu frames in 128000 bytes\n", names[k], ours(128 * 1000, PIECE));
    }
    noise(8192);
    checks_agree();
    letters_agree();
    on_air_agrees();
    refusals_agree();
    make_symbols();
    symbols_agree();
    packets_agree();
    if (wrong)
        return 1;
    printf("ours and the three C programs agree; symbols are decided alike, packets are read and written alike\n");
    if (argc > 1 && strcmp(argv[1], "--same") == 0)
        return 0;
    if (argc > 1 && strcmp(argv[1], "--symbols") == 0) {
        measure_symbols(250);
        return 0;
    }
    if (argc > 1 && strcmp(argv[1], "--packets") == 0) {
        measure_packets(20000);
        return 0;
    }
    head("bit");
    for (int k = 0; k < KINDS; k++) {
        kinds[k](MOST);
        for (size_t d = 0, size = MOST / 8; size <= MOST; d++, size *= 2)
            measure(doubled[k][d], receiving, size, PIECE, (double)size * 8);
    }
    mixture(MOST);
    for (size_t d = 0; d < 5; d++)
        measure(pieces[d], receiving, MOST / 8, (size_t)32 << d, (double)MOST);
    head("byte");
    for (int k = 0; k < 8; k++) {
        size_t times = k == 0 ? 500000 : 4000000 / lengths[k];
        measure(check_names[k], checking, lengths[k], times, (double)(times * lengths[k]));
    }
    measure("on air, 10000 of 77", sending, 77, 10000, 770000);
    measure("on air, 10000 of 250", sending, 250, 10000, 2500000);
    measure_symbols(250);
    measure_packets(20000);
    return 0;
}
