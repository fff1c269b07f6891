/*
 * Blends an overlay into a frame. The overlay is drawn in RGBA and packed with its alpha; the frame is in BGRA, so the stream is unpacked to
 * BGRA, with alpha. Then the same overlay packed without alpha: each A is 255, so that it covers the frame.
 */
#include <inttypes.h>
#include <stdio.h>
#include <stdlib.h>
#include <string.h>

#include "rdp6.h"

enum { WIDTH = 4, HEIGHT = 2, AREA = WIDTH * HEIGHT };

/* Orange, the first row less and less opaque, the second more and more: R, G, B, A. */
static const uint8_t drawn[4 * AREA] = {
    230, 110, 20, 255, 230, 110, 20, 192, 230, 110, 20, 64,  230, 110, 20, 0,
    230, 110, 20, 0,   230, 110, 20, 64,  230, 110, 20, 192, 230, 110, 20, 255,
};

static uint8_t frame[4 * AREA];      /* B, G, R, A */
static uint8_t overlay[4 * AREA];    /* B, G, R, A */
static uint8_t work[4 * AREA];       /* always enough: three colour planes and alpha */
static uint8_t stream[1 + 8 * AREA]; /* always enough: the header byte, and four planes of at most two bytes a sample */

/* The number of bytes. A refusal ends the program. */
static size_t counted(int64_t answer)
{
    if (answer < 0) {
        printf("refusal %" PRId64 ": %s\n", -answer, rdp6_refusal_text(-answer));
        exit(1);
    }
    return (size_t)answer;
}

static void print_pixels(const char *what, const uint8_t *pixels)
{
    printf("%s\n", what);
    for (size_t i = 0; i < AREA; i++) {
        const uint8_t *p = pixels + 4 * i;
        printf("%s%3d %3d %3d %3d%s", i % WIDTH == 0 ? "  " : "   ", p[0], p[1], p[2], p[3], i % WIDTH == WIDTH - 1 ? "\n" : "");
    }
}

/* Unpacks the stream, of so many bytes, and blends it into a frame of one blue. */
static void blend(const char *what, size_t length)
{
    static const uint8_t blue[4] = {150, 70, 30, 255};
    size_t work_len = rdp6_stream_pixels_work_size(stream, length, WIDTH, HEIGHT);
    size_t image_len = rdp6_pixels_image_size(WIDTH, HEIGHT);
    printf("%s: %zu bytes, work area %zu bytes, image %zu bytes\n", what, length, work_len, image_len);
    counted(rdp6_stream_decode_pixels(RDP6_LAYOUT_BGRA, stream, length, work, work_len, overlay, image_len, WIDTH, HEIGHT));
    print_pixels("  unpacked, B G R A", overlay);
    for (size_t i = 0; i < AREA; i++) {
        const uint8_t *over = overlay + 4 * i;
        memcpy(frame + 4 * i, blue, 4);
        for (size_t channel = 0; channel < 3; channel++)
            frame[4 * i + channel] = (uint8_t)((over[channel] * over[3] + blue[channel] * (255 - over[3]) + 127) / 255);
    }
    print_pixels("  the frame", frame);
}

int main(void)
{
    size_t length =
        counted(rdp6_stream_encode_bitmap_alpha(RDP6_LAYOUT_RGBA, drawn, sizeof drawn, stream, sizeof stream, true, WIDTH, HEIGHT));
    stream[0] &= 0xDF; /* clears bit 5, which the packer sets for four planes too: there is an alpha plane */
    blend("With alpha", length);
    length = counted(rdp6_stream_encode_bitmap(RDP6_LAYOUT_RGBA, drawn, sizeof drawn, stream, sizeof stream, true, WIDTH, HEIGHT));
    blend("Without alpha", length);
    return 0;
}
