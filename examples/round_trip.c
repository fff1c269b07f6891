/*
 * Draws a picture in BGRA, packs it into two streams, RLE without alpha and raw with alpha, unpacks both, and checks that R, G and B are
 * the same. Then writes what was unpacked as a PPM file to the path given or to target/examples/round_trip.ppm.
 */
#include <inttypes.h>
#include <stdio.h>
#include <stdlib.h>
#include <string.h>

#include "ppm.h"
#include "rdp6.h"

enum { WIDTH = 160, HEIGHT = 120, AREA = WIDTH * HEIGHT };

struct color {
    uint8_t r, g, b;
};

static uint8_t pixels[4 * AREA]; /* B, G, R, A */
/* Always enough for the two streams: three planes of at most two bytes a sample, or four raw ones and the pad byte; and the header byte. */
static uint8_t stream[1 + 6 * AREA];
static uint8_t work[3 * AREA];  /* always enough */
static uint8_t image[3 * AREA]; /* R, G, B */

static bool within(size_t value, size_t first, size_t last)
{
    return first <= value && value <= last;
}

/* Four bays with three shelves each, one place of them empty. */
static struct color color_at(size_t x, size_t y)
{
    static const struct color boxes[3] = {{196, 154, 96}, {70, 130, 90}, {170, 60, 50}};
    struct color sky = {(uint8_t)(90 + y), (uint8_t)(150 + y / 2), (uint8_t)(255 - y / 4)};
    if (y < 24)
        return sky;
    size_t bay = x / 39, in_bay = x % 39, shelf = (y - 24) / 32, in_shelf = (y - 24) % 32;
    if (in_bay < 4)
        return (struct color){30, 70, 150}; /* an upright */
    if (in_shelf > 28)
        return (struct color){230, 110, 20}; /* a beam */
    if (!within(in_bay, 9, 33) || in_shelf < 6 || (bay == 2 && shelf == 1))
        return sky;
    if (in_shelf > 25)
        return (struct color){120, 85, 50}; /* a pallet */
    if (within(in_bay, 18, 24) && within(in_shelf, 12, 16))
        return (struct color){250, 250, 240}; /* the label of a box */
    return boxes[(bay + shelf) % 3];
}

static void draw(void)
{
    for (size_t i = 0; i < AREA; i++) {
        struct color color = color_at(i % WIDTH, i / WIDTH);
        pixels[4 * i] = color.b;
        pixels[4 * i + 1] = color.g;
        pixels[4 * i + 2] = color.r;
        pixels[4 * i + 3] = 255;
    }
}

/* The number of bytes. A refusal ends the program. */
static size_t counted(int64_t answer)
{
    if (answer < 0) {
        printf("refusal %" PRId64 ": %s\n", -answer, rdp6_refusal_text(-answer));
        exit(1);
    }
    return (size_t)answer;
}

/* Unpacks the stream, of so many bytes. Its header byte says in which form it is. */
static void unpack(const char *what, size_t length)
{
    size_t work_len = rdp6_stream_work_size(stream, length, WIDTH, HEIGHT);
    printf("%s: %zu bytes, work area %zu bytes\n", what, length, work_len);
    memset(image, 0, sizeof image);
    counted(rdp6_stream_decode(stream, length, work, work_len, image, sizeof image, WIDTH, HEIGHT));
    for (size_t i = 0; i < AREA; i++) {
        const uint8_t *in = pixels + 4 * i, *out = image + 3 * i;
        if (out[0] != in[2] || out[1] != in[1] || out[2] != in[0]) {
            printf("pixel %zu differs\n", i);
            exit(1);
        }
    }
    printf("  unpacked, with the same R, G and B\n");
}

int main(int argc, char **argv)
{
    draw();
    printf("%d x %d pixels, %zu bytes\n", WIDTH, HEIGHT, sizeof pixels);
    size_t length =
        counted(rdp6_stream_encode_bitmap(RDP6_LAYOUT_BGRA, pixels, sizeof pixels, stream, sizeof stream, true, WIDTH, HEIGHT));
    unpack("R, G, B in RLE", length);
    length =
        counted(rdp6_stream_encode_bitmap_alpha(RDP6_LAYOUT_BGRA, pixels, sizeof pixels, stream, sizeof stream, false, WIDTH, HEIGHT));
    stream[0] &= 0xDF; /* clears bit 5, which the packer sets for four planes too: there is an alpha plane */
    unpack("A, R, G, B raw", length);
    const char *path = argc > 1 ? argv[1] : "target/examples/round_trip.ppm";
    write_ppm(path, (struct picture){WIDTH, HEIGHT, image});
    printf("%s written\n", path);
    return 0;
}
