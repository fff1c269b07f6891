/*
 * Checks of the refusals in C: rdp6_refusal_text has a text for each and for no other number; rdp6_decode and rdp6_decode_pixels refuse each
 * definition and each loss level that FORMAT 8 does not allow, also one whose last byte is an allowed number; the functions that take a
 * layout know four and refuse every other number in its place, changing nothing; unpacking a stream has no header byte that it refuses with
 * 3. `make header` runs this program.
 */
#include <inttypes.h>
#include <stdio.h>
#include <string.h>

#include "rdp6.h"

static const enum rdp6_refusal refusals[] = {
    RDP6_ZERO_SIZE,
    RDP6_TOO_LARGE,
    RDP6_LOSS_LEVEL,
    RDP6_INVALID_UNCOMPRESSED_DATA_SIZE,
    RDP6_SHORT_WORK,
    RDP6_SHORT_IMAGE,
    RDP6_READ_COMPRESSED_DATA,
    RDP6_INVALID_SEGMENT_HEADER,
    RDP6_SEGMENT_DO_NOT_FIT_SCANLINE,
    RDP6_SHORT_PLANE,
    RDP6_NOT_ENOUGH_BYTES,
    RDP6_BUFFER_TOO_SMALL,
    RDP6_EMPTY_STREAM,
    RDP6_MISSING_PAD,
};

enum { REFUSALS = sizeof refusals / sizeof refusals[0] };

static int failed = 0;

static void expect(bool right, const char *what, int64_t number)
{
    if (!right) {
        printf("C: %s: not so for %" PRId64 "\n", what, number);
        failed++;
    }
}

static bool has_text(int64_t number)
{
    return strcmp(rdp6_refusal_text(number), "no refusal has this number") != 0;
}

static void check_texts(void)
{
    static const int64_t others[] = {0, -1, -3, -14, 15, 256 + 3, INT64_C(1) << 32, (INT64_C(1) << 32) + 3, INT64_MAX, INT64_MIN};
    for (size_t i = 0; i < REFUSALS; i++) {
        expect(refusals[i] == (int64_t)i + 1, "the refusals are numbered from 1 on", refusals[i]);
        expect(has_text(refusals[i]), "a refusal has a text", refusals[i]);
        for (size_t other = 0; other < i; other++)
            expect(strcmp(rdp6_refusal_text(refusals[i]), rdp6_refusal_text(refusals[other])) != 0, "each text differs", refusals[i]);
    }
    for (size_t i = 0; i < sizeof others / sizeof others[0]; i++)
        expect(!has_text(others[i]), "no other number has a text", others[i]);
}

/* The answer for a raw picture of one pixel, the same of three bytes and of four, and that a refusal leaves its image unchanged. */
static int64_t decode(uint32_t definition, uint32_t level)
{
    static const uint8_t body[] = {1, 2, 3};
    uint8_t image[3] = {0xEE, 0xEE, 0xEE}, pixel[4] = {0xEE, 0xEE, 0xEE, 0xEE};
    int64_t answer = rdp6_decode(false, false, definition, level, false, body, sizeof body, NULL, 0, image, sizeof image, 1, 1);
    expect(answer == 3 || memcmp(image, "\xEE\xEE\xEE", 3) == 0, "a refusal leaves the image unchanged", answer);
    int64_t four = rdp6_decode_pixels(false, false, definition, level, false, RDP6_LAYOUT_RGBA, body, sizeof body, NULL, 0, pixel,
                                      sizeof pixel, 1, 1);
    expect(four == (answer == 3 ? 4 : answer), "four bytes are refused as three are", four);
    expect(four == 4 || memcmp(pixel, "\xEE\xEE\xEE\xEE", 4) == 0, "a refusal leaves the pixels unchanged", four);
    return answer;
}

static void check_wide_numbers(void)
{
    static const uint32_t levels[] = {0, 8, 128, 255, 256, 257, 263, 264, 0x10001, 0x1000001, 0x80000001, 0xFFFFFFFF};
    static const uint32_t definitions[] = {2, 255, 256, 257, 0x10000, 0x10001, 0x1000000, 0x1000001, 0x80000000, 0x80000001, 0xFFFFFFFF};
    for (uint32_t level = 1; level <= 7; level++)
        expect(decode(RDP6_AYCOCG, level) == 3, "AYCoCg has the levels 1 to 7", level);
    for (size_t i = 0; i < sizeof levels / sizeof levels[0]; i++) {
        expect(decode(RDP6_AYCOCG, levels[i]) == -RDP6_LOSS_LEVEL, "AYCoCg has no other level", levels[i]);
        expect(decode(RDP6_ARGB, levels[i]) == 3, "ARGB ignores the level", levels[i]);
    }
    for (size_t i = 0; i < sizeof definitions / sizeof definitions[0]; i++) {
        for (uint32_t level = 0; level <= 8; level++)
            expect(decode(definitions[i], level) == -RDP6_LOSS_LEVEL, "there is no other definition", definitions[i]);
        size_t size = rdp6_work_size(true, definitions[i], true, 3, 2);
        expect(size == rdp6_work_size(true, RDP6_AYCOCG, true, 3, 2), "another definition has the work area of AYCoCg", definitions[i]);
        size = rdp6_pixels_work_size(true, true, definitions[i], true, 3, 2);
        expect(size == 6 + 2 * 2 + 6, "another definition has the work area of AYCoCg for pixels", definitions[i]);
    }
}

/* The functions that take a layout: the four packers have one type, and the two that unpack get one here. */
typedef int64_t packer(uint32_t layout, const uint8_t *src, size_t src_len, uint8_t *dst, size_t dst_len, bool rle, size_t width,
                       size_t height);
typedef int64_t unpacker(uint32_t layout, const uint8_t *stream, size_t stream_len, uint8_t *work, size_t work_len, uint8_t *image,
                         size_t image_len, size_t width, size_t height);

static packer *const packers[] = {rdp6_stream_encode_bitmap, rdp6_stream_encode_bitmap_alpha, rdp6_encode_bitmap, rdp6_encode_bitmap_alpha};

/* rdp6_decode_pixels with the body of an RLE stream of ARGB with alpha. */
static int64_t decode_pixels_of_stream(uint32_t layout, const uint8_t *stream, size_t stream_len, uint8_t *work, size_t work_len,
                                       uint8_t *image, size_t image_len, size_t width, size_t height)
{
    return rdp6_decode_pixels(true, true, RDP6_ARGB, 0, false, layout, stream + 1, stream_len - 1, work, work_len, image, image_len, width,
                              height);
}

static unpacker *const unpackers[] = {rdp6_stream_decode_pixels, decode_pixels_of_stream};

/* Two pixels, A 1 and 2, R 3 and 4, G 5 and 6, B 7 and 8: their bytes in each layout, and their stream. */
static const uint8_t two_pixels[4][8] = {
    {7, 5, 3, 1, 8, 6, 4, 2}, /* BGRA */
    {3, 5, 7, 1, 4, 6, 8, 2}, /* RGBA */
    {1, 3, 5, 7, 2, 4, 6, 8}, /* ARGB */
    {1, 7, 5, 3, 2, 8, 6, 4}, /* ABGR */
};
static const uint8_t their_stream[] = {0x10, 0x20, 1, 2, 0x20, 3, 4, 0x20, 5, 6, 0x20, 7, 8};

static bool unchanged(const uint8_t *bytes, size_t count)
{
    for (size_t i = 0; i < count; i++)
        if (bytes[i] != 0xEE)
            return false;
    return true;
}

/* The answer of an unpacker, and that it changes nothing. */
static int64_t refused_unpacking(size_t i, uint32_t layout, size_t stream_len, size_t work_len, size_t image_len, size_t width, size_t height)
{
    uint8_t work[8], image[8];
    memset(work, 0xEE, sizeof work);
    memset(image, 0xEE, sizeof image);
    int64_t answer = unpackers[i](layout, their_stream, stream_len, work, work_len, image, image_len, width, height);
    expect(unchanged(work, sizeof work) && unchanged(image, sizeof image), "a refusal changes nothing", layout);
    return answer;
}

/* The answer of a packer, the same for RLE and raw, and that it changes nothing. */
static int64_t refused_packing(size_t i, uint32_t layout, size_t src_len, size_t dst_len, size_t width, size_t height)
{
    uint8_t dst[20];
    memset(dst, 0xEE, sizeof dst);
    int64_t rle = packers[i](layout, two_pixels[0], src_len, dst, dst_len, true, width, height);
    int64_t raw = packers[i](layout, two_pixels[0], src_len, dst, dst_len, false, width, height);
    expect(rle == raw, "RLE and raw are refused with the same number", layout);
    expect(unchanged(dst, sizeof dst), "a refusal changes nothing", layout);
    return rle;
}

/* Each layout, by each function, RLE and raw. */
static void check_layouts(void)
{
    static const uint8_t raw[] = {0x20, 1, 2, 3, 4, 5, 6, 7, 8, 0}, raw_alpha[] = {0x00, 1, 2, 3, 4, 5, 6, 7, 8, 0};
    const size_t all = sizeof their_stream;
    expect(RDP6_LAYOUT_BGRA == 0 && RDP6_LAYOUT_RGBA == 1 && RDP6_LAYOUT_ARGB == 2 && RDP6_LAYOUT_ABGR == 3, "the layouts are 0 to 3", 4);
    for (uint32_t layout = 0; layout < 4; layout++) {
        for (size_t i = 0; i < 2; i++) {
            uint8_t work[8] = {0}, image[9];
            memset(image, 0xEE, sizeof image);
            int64_t answer = unpackers[i](layout, their_stream, sizeof their_stream, work, sizeof work, image, sizeof image, 2, 1);
            expect(answer == 8 && memcmp(image, two_pixels[layout], 8) == 0 && image[8] == 0xEE, "unpacking knows the layout", layout);
            expect(memcmp(work, "\3\4\5\6\7\10\1\2", 8) == 0, "alpha is behind the colour planes of the work area", layout);
            expect(refused_unpacking(i, layout, all, 7, 8, 2, 1) == -RDP6_SHORT_WORK, "the work area has a place for alpha", layout);
            expect(refused_unpacking(i, layout, all, 8, 7, 2, 1) == -RDP6_SHORT_IMAGE, "the image has four bytes a pixel", layout);
        }
        uint8_t image[8];
        int64_t raw_answer = rdp6_stream_decode_pixels(layout, raw_alpha, sizeof raw_alpha, NULL, 0, image, sizeof image, 2, 1);
        expect(raw_answer == 8 && memcmp(image, two_pixels[layout], 8) == 0, "unpacking raw pixels knows the layout", layout);
        for (size_t i = 0; i < 4; i++) {
            bool stream = i < 2, alpha = i % 2 == 1;
            uint8_t dst[11], expected[11];
            memset(dst, 0xEE, sizeof dst);
            memset(expected, 0xEE, sizeof expected);
            size_t count = 0;
            if (stream)
                expected[count++] = raw[0];
            for (size_t at = alpha ? 1 : 3; at < sizeof raw; at++)
                expected[count++] = raw[at];
            int64_t answer = packers[i](layout, two_pixels[layout], 8, dst, sizeof dst, false, 2, 1);
            expect(answer == (int64_t)count && memcmp(dst, expected, sizeof dst) == 0, "packing knows the layout", layout);
        }
    }
}

/* 3 comes behind 13, 14, 1 and 2 and before 4, 5, 6, 11 and 12, whatever the last byte of the number is. */
static void check_other_layouts(void)
{
    static const uint32_t others[] = {4,       5,       255,       256,       257,        258,        259,       260,
                                      0x10000, 0x10001, 0x1000002, 0x1000003, 0x80000000, 0x80000003, 0xFFFFFFFC, 0xFFFFFFFF};
    const size_t all = sizeof their_stream;
    for (size_t at = 0; at < sizeof others / sizeof others[0]; at++) {
        uint32_t layout = others[at];
        for (size_t i = 0; i < 2; i++) {
            expect(refused_unpacking(i, layout, all, 8, 8, 2, 1) == -RDP6_LOSS_LEVEL, "there is no other layout", layout);
            expect(refused_unpacking(i, layout, 1, 8, 8, 2, 1) == -RDP6_LOSS_LEVEL, "3 comes before 4", layout);
            expect(refused_unpacking(i, layout, all, 7, 8, 2, 1) == -RDP6_LOSS_LEVEL, "3 comes before 5", layout);
            expect(refused_unpacking(i, layout, all, 8, 7, 2, 1) == -RDP6_LOSS_LEVEL, "3 comes before 6", layout);
            expect(refused_unpacking(i, layout, 1, 0, 0, 2, 1) == -RDP6_LOSS_LEVEL, "3 comes before all of them", layout);
            expect(refused_unpacking(i, layout, all, 8, 8, 0, 8193) == -RDP6_ZERO_SIZE, "3 comes behind 1", layout);
            expect(refused_unpacking(i, layout, all, 8, 8, 2, 8193) == -RDP6_TOO_LARGE, "3 comes behind 2", layout);
        }
        expect(refused_unpacking(0, layout, 0, 8, 8, 2, 1) == -RDP6_EMPTY_STREAM, "3 comes behind 13", layout);
        uint8_t image[8];
        int64_t answer = rdp6_stream_decode_pixels(layout, (const uint8_t *)"\40", 1, NULL, 0, image, sizeof image, 2, 1);
        expect(answer == -RDP6_MISSING_PAD, "3 comes behind 14", layout);
        for (size_t i = 0; i < 4; i++) {
            expect(refused_packing(i, layout, 8, 20, 2, 1) == -RDP6_LOSS_LEVEL, "there is no other layout", layout);
            expect(refused_packing(i, layout, 7, 20, 2, 1) == -RDP6_LOSS_LEVEL, "3 comes before 11", layout);
            expect(refused_packing(i, layout, 8, 0, 2, 1) == -RDP6_LOSS_LEVEL, "3 comes before 12", layout);
            expect(refused_packing(i, layout, 8, 20, 0, 8193) == -RDP6_ZERO_SIZE, "3 comes behind 1", layout);
            expect(refused_packing(i, layout, 8, 20, 2, 8193) == -RDP6_TOO_LARGE, "3 comes behind 2", layout);
        }
    }
}

/* Every header byte, with no body and with one that is long enough for each. */
static void check_header_bytes(void)
{
    for (int byte = 0; byte < 256; byte++) {
        uint8_t stream[] = {(uint8_t)byte, 0x10, 1, 0x10, 2, 0x10, 3, 0x10, 4}, work[4], image[4];
        int64_t short_answer = (byte & 0x10) != 0 ? -RDP6_INVALID_UNCOMPRESSED_DATA_SIZE : -RDP6_MISSING_PAD;
        int64_t answer = rdp6_stream_decode(stream, 1, work, sizeof work, image, sizeof image, 1, 1);
        expect(answer == short_answer, "a stream of one byte is refused", byte);
        answer = rdp6_stream_decode(stream, sizeof stream, work, sizeof work, image, sizeof image, 1, 1);
        expect(answer == 3, "every header byte is accepted", byte);
        for (uint32_t layout = 0; layout < 4; layout++) {
            answer = rdp6_stream_decode_pixels(layout, stream, 1, work, sizeof work, image, sizeof image, 1, 1);
            expect(answer == short_answer, "a stream of one byte is refused for pixels too", byte);
            answer = rdp6_stream_decode_pixels(layout, stream, sizeof stream, work, sizeof work, image, sizeof image, 1, 1);
            expect(answer == 4, "every header byte is accepted for pixels too", byte);
        }
    }
    expect(rdp6_stream_decode(NULL, 0, NULL, 0, NULL, 0, 0, 0) == -RDP6_EMPTY_STREAM, "an empty stream is refused first", 0);
}

int main(void)
{
    check_texts();
    check_wide_numbers();
    check_layouts();
    check_other_layouts();
    check_header_bytes();
    if (failed == 0)
        printf("C: %d refusals with a text each; other definitions, loss levels and layouts are refused, whatever their last byte is; every "
               "header byte is accepted\n",
               REFUSALS);
    return failed == 0 ? 0 : 1;
}
