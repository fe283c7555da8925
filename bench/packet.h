/* The packet reader and the packet writer in plain C, and the records that ours and theirs share. */
#include <stddef.h>
#include <stdint.h>

/* A content: the type that names its kind, 4 for a raw one; its numbers in the order of its lines, then zeros; its count. */
struct plain_content {
    uint8_t kind;
    uint32_t numbers[6];
    size_t count;
};
struct plain_fields {
    uint8_t kind;
    size_t codes;
    struct plain_content content;
    uint8_t digits[35];
    uint32_t time;
    uint8_t certificate[12], signature[64];
};
struct plain_opened {
    uint8_t answer;
    struct plain_fields fields;
    uint8_t codes[322], entries[272];
};
struct plain_written {
    uint8_t answer;
    size_t length;
};

void plain_read(const uint8_t *packet, size_t n, struct plain_opened *o);
struct plain_written plain_write(const struct plain_fields *f, const uint8_t *codes, size_t codes_lent, const uint8_t *body, size_t lent, uint8_t *out, size_t room);

/* Ours, from the static library of crates/codec: fields but for the digits beside the content, which are lent as codes and entries are. */
struct codec_fields {
    uint8_t kind;
    size_t codes;
    struct plain_content content;
    uint32_t time;
    uint8_t certificate[12], signature[64];
};
struct codec_told {
    uint8_t answer;
    struct codec_fields fields;
};
struct codec_told codec_read(const uint8_t *packet, size_t n, uint8_t codes[322], uint8_t entries[272], uint8_t digits[35]);
struct plain_written codec_write(struct codec_fields f, const uint8_t digits[35], const uint8_t *codes, size_t codes_lent, const uint8_t *body, size_t lent, uint8_t *out, size_t room);

/* bench/packets.c: that both agree, how long each takes, and one of them alone for counting. */
int packets_agree(void);
void measure_packets(size_t times);
size_t packets_only(int way, int kind, size_t times);
