/*
 * Unpacks a small picture from its body, as a program with a parser of its own for the header byte does: 3 x 2 pixels in AYCoCg with alpha,
 * loss level 1, subsampled, RLE. Then the same truncated in the second row of Y, and with an invalid loss level. Both are refused, and the
 * image is unchanged. round_trip.c shows whole streams.
 */
#include <inttypes.h>
#include <stdio.h>
#include <stdlib.h>
#include <string.h>

#include "rdp6.h"

enum { WIDTH = 3, HEIGHT = 2 };

/* Alpha, Y, Co and Cg as RLE planes: the sides of the last two are 2 and 1. */
static const uint8_t body[] = {
    0x30, 0xFF, 0xFF, 0xFF, 0x03, /* alpha: a row of FF, and a row like it */
    0x30, 0x64, 0x64, 0xC8, 0x03, /* Y: 100 100 200, twice */
    0x20, 0x0A, 0x00,             /* Co: 10 for the left four pixels, 0 for the others */
    0x20, 0x14, 0x00,             /* Cg: 20 and 0 */
};

static void print_image(const uint8_t *image)
{
    for (size_t row = 0; row < HEIGHT; row++)
        for (size_t column = 0; column < WIDTH; column++) {
            const uint8_t *pixel = image + 3 * (row * WIDTH + column);
            printf("%3d %3d %3d%s", pixel[0], pixel[1], pixel[2], column + 1 == WIDTH ? "\n" : "   ");
        }
}

/* The buffers are made once, for the largest picture, and used by each call. */
static void unpack(uint8_t *work, size_t work_len, uint8_t *image, size_t image_len, size_t body_len, uint32_t level)
{
    int64_t answer = rdp6_decode(true, true, RDP6_AYCOCG, level, true, body, body_len, work, work_len, image, image_len, WIDTH, HEIGHT);
    if (answer < 0)
        printf("refusal %" PRId64 ": %s\n", -answer, rdp6_refusal_text(-answer));
    else
        printf("%" PRId64 " bytes written\n", answer);
    print_image(image);
}

int main(void)
{
    size_t work_len = rdp6_work_size(true, RDP6_AYCOCG, true, WIDTH, HEIGHT);
    size_t image_len = rdp6_image_size(WIDTH, HEIGHT);
    uint8_t *work = malloc(work_len);
    uint8_t *image = calloc(image_len, 1);
    if (work == NULL || image == NULL)
        return 1;
    printf("work area %zu bytes, image %zu bytes\n", work_len, image_len);
    unpack(work, work_len, image, image_len, sizeof body, 1);
    memset(image, 0, image_len);
    unpack(work, work_len, image, image_len, 9, 1);
    unpack(work, work_len, image, image_len, sizeof body, 8);
    free(work);
    free(image);
    return 0;
}
