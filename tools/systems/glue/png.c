/* A picture as a PNG file whose pixels are not packed. Nothing here is proved. */
#include <string.h>
#include "exe.h"

enum { MOST_STORED = 65535, ADLER = 65521 };

static void add_word(struct bytes *to, uint32_t word) {
    unsigned char bytes[4] = {word >> 24, word >> 16, word >> 8, word};
    add_bytes(to, bytes, 4);
}

static uint32_t crc_of(const unsigned char *bytes, size_t size) {
    uint32_t crc = ~0u;
    for (size_t i = 0; i < 8 * size; i++) {
        crc ^= i % 8 ? 0 : bytes[i / 8];
        crc = crc >> 1 ^ (crc & 1 ? 0xedb88320 : 0);
    }
    return ~crc;
}

static void add_chunk(struct bytes *to, const char *kind, const struct bytes *data) {
    add_word(to, data->size);
    size_t from = to->size;
    add_bytes(to, kind, 4);
    add_bytes(to, data->at, data->size);
    add_word(to, crc_of(to->at + from, to->size - from));
}

static uint32_t sum_of(const struct bytes *data) {
    uint32_t low = 1, high = 0;
    for (size_t i = 0; i < data->size; i++) low = (low + data->at[i]) % ADLER, high = (high + low) % ADLER;
    return high << 16 | low;
}

/* A stream of zlib's form, in which bytes are as they are. */
static struct bytes stored(const struct bytes *data) {
    struct bytes found = {0};
    add_bytes(&found, "\x78\x01", 2);
    for (size_t at = 0; at < data->size; at += MOST_STORED) {
        unsigned size = data->size - at < MOST_STORED ? data->size - at : MOST_STORED;
        unsigned char head[5] = {at + size == data->size, size, size >> 8, ~size, ~size >> 8};
        add_bytes(&found, head, 5);
        add_bytes(&found, data->at + at, size);
    }
    add_word(&found, sum_of(data));
    return found;
}

struct bytes png_of(int width, int height, const unsigned char *rgb) {
    struct bytes head = {0}, rows = {0}, none = {0}, found = {0};
    add_word(&head, width), add_word(&head, height);
    add_bytes(&head, "\x08\x02\0\0\0", 5);
    for (int y = 0; y < height; y++) {
        add_bytes(&rows, "", 1);
        add_bytes(&rows, rgb + 3 * width * y, 3 * width);
    }
    struct bytes pixels = stored(&rows);
    add_bytes(&found, "\x89PNG\r\n\x1a\n", 8);
    add_chunk(&found, "IHDR", &head), add_chunk(&found, "IDAT", &pixels), add_chunk(&found, "IEND", &none);
    return found;
}
