/*
 * Packs a picture and unpacks it; then truncates what was packed to half its length, and shows what can still be unpacked.
 *
 *   pack_unpack_cut [PICTURE.ppm [FOLDER]]
 *
 * The picture is examples/racking.ppm by default. The program writes unpacked.ppm and cut.ppm to the folder, by default target/examples.
 * The expected result of unpacking a truncated plane is computed from the picture and the packing rules (FORMAT 9), not from what the
 * unpacker returns, and every byte is compared with it. If something differs the program says so and exits with status 1.
 */
#include <inttypes.h>

#include "ppm.h"
#include "rdp6.h"

static size_t width, height, area;
static struct picture picture; /* as read */
static struct picture image;   /* as unpacked */
static uint8_t *pixels;        /* B, G, R, A */
static uint8_t *packed;        /* a stream, or a plane: at most two bytes a sample, and the header byte */
static uint8_t *work;          /* three planes */

static void make_buffers(void)
{
    width = picture.width;
    height = picture.height;
    area = width * height;
    image = (struct picture){width, height, allocate(3 * area)};
    pixels = allocate(4 * area);
    packed = allocate(6 * area + 1);
    work = allocate(3 * area);
}

static void write_image(const char *what, const char *folder, const char *name)
{
    char path[4096];
    if (snprintf(path, sizeof path, "%s/%s", folder, name) >= (int)sizeof path)
        fail("The path of the folder for %s is too long", name);
    write_ppm(path, image);
    printf("%s: %s\n", what, path);
}

/* Packs the picture from its pixels into a stream, R, G and B as RLE planes, and returns the number of bytes. */
static size_t pack_picture(void)
{
    for (size_t i = 0; i < area; i++) {
        for (size_t channel = 0; channel < 3; channel++)
            pixels[4 * i + channel] = picture.rgb[3 * i + 2 - channel];
        pixels[4 * i + 3] = 255;
    }
    int64_t answer = rdp6_stream_encode_bitmap(RDP6_LAYOUT_BGRA, pixels, 4 * area, packed, 6 * area + 1, true, width, height);
    if (answer < 0)
        fail("DIFFERENT: packing the picture gave refusal %" PRId64 ": %s", -answer, rdp6_refusal_text(-answer));
    printf("Packed as an RLE stream: %" PRId64 " bytes, %.1f %% of that\n", answer, 100.0 * (double)answer / (3.0 * (double)area));
    return (size_t)answer;
}

static int64_t unpack_picture(size_t length)
{
    size_t work_len = rdp6_stream_work_size(packed, length, width, height);
    return rdp6_stream_decode(packed, length, work, work_len, image.rgb, 3 * area, width, height);
}

static void unpack_complete(size_t length)
{
    int64_t answer = unpack_picture(length);
    if (answer != (int64_t)(3 * area) || memcmp(image.rgb, picture.rgb, 3 * area) != 0)
        fail("DIFFERENT: the unpacked picture is not the one that was packed; the answer is %" PRId64, answer);
}

/* A truncated picture is refused, and the image is unchanged. It is tried with two fillings of the image: each written byte differs from one. */
static void unpack_half(size_t length)
{
    size_t half = length / 2, minimum = 1 + 3 * height * ((width + 46) / 47);
    int64_t refusal = half < minimum ? RDP6_INVALID_UNCOMPRESSED_DATA_SIZE : RDP6_READ_COMPRESSED_DATA;
    for (int fill = 0; fill <= 255; fill += 255) {
        memset(image.rgb, fill, 3 * area);
        int64_t answer = unpack_picture(half);
        if (answer != -refusal)
            fail("DIFFERENT: half of the packed picture must give refusal %" PRId64 "; the answer is %" PRId64, refusal, answer);
        for (size_t i = 0; i < 3 * area; i++)
            if (image.rgb[i] != fill)
                fail("DIFFERENT: refusal %" PRId64 " changed byte %zu of the image", refusal, i);
    }
    printf("The packed picture truncated to %zu bytes: refusal %" PRId64 ", %s; the image is unchanged\n", half, refusal,
           rdp6_refusal_text(refusal));
}

/* Packs the first rows of a plane, and returns the number of bytes. They are the first bytes of the packing of the plane. */
static size_t pack_rows(const uint8_t *samples, size_t rows)
{
    if (rows == 0)
        return 0;
    int64_t answer = rdp6_compress_8bpp_plane(samples, rows * width, packed, 2 * area, width, rows);
    if (answer < 0)
        fail("DIFFERENT: packing %zu rows of a plane gave refusal %" PRId64 ": %s", rows, -answer, rdp6_refusal_text(-answer));
    return (size_t)answer;
}

/* The number of rows that are complete within the first bytes of the plane's packing. */
static size_t rows_within(const uint8_t *samples, size_t length)
{
    size_t low = 0, high = height;
    while (low < high) {
        size_t middle = high - (high - low) / 2;
        if (pack_rows(samples, middle) <= length)
            low = middle;
        else
            high = middle - 1;
    }
    return low;
}

/* The number of values of the segments that are complete within these bytes. */
static size_t values_within(const uint8_t *bytes, size_t length)
{
    size_t values = 0, at = 0;
    while (at < length) {
        size_t raw = bytes[at] >> 4, run = bytes[at] & 15;
        bool long_run = run == 1 || run == 2; /* then there are no raw bytes, and the high bits belong to the run */
        at += long_run ? 1 : 1 + raw;
        if (at <= length)
            values += raw + (long_run ? 16 * run : run);
    }
    return values;
}

/* The coded value of a sample: itself in the first row, else the delta code of the difference from the sample above. */
static uint8_t coded_value(const uint8_t *samples, size_t i)
{
    if (i < width)
        return samples[i];
    int difference = (uint8_t)(samples[i] - samples[i - width]);
    return (uint8_t)(difference < 128 ? 2 * difference : 2 * (255 - difference) + 1);
}

/* Unpacks the first bytes of a plane's packing into a plane filled with one value; exactly these rows and values must be written. */
static void unpack_truncated(const uint8_t *samples, size_t length, uint8_t *plane, uint8_t fill, size_t rows, size_t values)
{
    memset(plane, fill, area);
    int64_t answer = rdp6_decompress_8bpp_plane(packed, length, plane, area, width, height);
    if (answer != -RDP6_READ_COMPRESSED_DATA)
        fail("DIFFERENT: the first %zu bytes of a packed plane must give refusal 7; the answer is %" PRId64, length, answer);
    for (size_t i = 0; i < area; i++) {
        uint8_t expected = i < rows * width ? samples[i] : i < rows * width + values ? coded_value(samples, i) : fill;
        if (plane[i] != expected)
            fail("DIFFERENT: row %zu, column %zu of a truncated plane must be %d and is %d", i / width, i % width, expected, plane[i]);
    }
}

/* Packs a channel as a plane, truncates the packing to half its length, and puts what can be unpacked into the image, the rest magenta. */
static void truncate_plane(size_t channel)
{
    static const uint8_t magenta[3] = {255, 0, 255};
    uint8_t *samples = work, *plane = work + area;
    for (size_t i = 0; i < area; i++)
        samples[i] = picture.rgb[3 * i + channel];
    size_t half = pack_rows(samples, height) / 2, rows = rows_within(samples, half), start = pack_rows(samples, rows);
    size_t length = pack_rows(samples, height), values = values_within(packed + start, half - start);
    unpack_truncated(samples, half, plane, (uint8_t)~magenta[channel], rows, values); /* two values, as above */
    unpack_truncated(samples, half, plane, magenta[channel], rows, values);
    for (size_t i = 0; i < area; i++)
        image.rgb[3 * i + channel] = plane[i];
    printf("  %c, %zu of %zu bytes: refusal 7; %zu of %zu rows are complete, the next has %zu coded values, the rest is unchanged\n",
           "RGB"[channel], half, length, rows, height, values);
}

int main(int argc, char **argv)
{
    const char *path = argc > 1 ? argv[1] : "examples/racking.ppm", *folder = argc > 2 ? argv[2] : "target/examples";
    picture = read_ppm(path);
    make_buffers();
    printf("%s: %zu x %zu pixels, %zu bytes of R, G and B\n", path, width, height, 3 * area);
    size_t length = pack_picture();
    unpack_complete(length);
    write_image("Unpacked, identical to the picture that was packed", folder, "unpacked.ppm");
    unpack_half(length);
    printf("Its planes, each packed by itself and truncated to half:\n");
    for (size_t channel = 0; channel < 3; channel++)
        truncate_plane(channel);
    write_image("What was unpacked of them, the rest magenta", folder, "cut.ppm");
    printf("Proved for every input (README.md, \"What is proved\"):\n"
           "  a picture is unpacked completely or not at all: no refusal changes the image;\n"
           "  of a truncated plane every row whose bytes are all there is unpacked, and nothing behind the next row is changed;\n"
           "  each call returns, and reads and writes nothing outside its buffers.\n");
    return 0;
}
