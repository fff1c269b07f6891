/*
 * Packs the plane of example 14 of docs/FORMAT.md, a row of 9 above a row of 10, and prints its packing. Then unpacks that, complete and
 * truncated to 6 bytes, and prints the destination. Then packs again into a destination of 5 bytes.
 */
#include <inttypes.h>
#include <stdio.h>
#include <string.h>

#include "rdp6.h"

enum { WIDTH = 17, HEIGHT = 2, AREA = WIDTH * HEIGHT };

static void print_answer(int64_t answer, const char *what)
{
    if (answer < 0)
        printf("refusal %" PRId64 ": %s\n", -answer, rdp6_refusal_text(-answer));
    else
        printf("%" PRId64 " bytes %s\n", answer, what);
}

static void print_bytes(const uint8_t *bytes, size_t count)
{
    for (size_t i = 0; i < count; i++)
        printf("%02X%c", bytes[i], i + 1 == count ? '\n' : ' ');
}

static int64_t pack(const uint8_t *samples, uint8_t *packed, size_t room)
{
    memset(packed, 0xEE, room);
    int64_t answer = rdp6_compress_8bpp_plane(samples, AREA, packed, room, WIDTH, HEIGHT);
    print_answer(answer, "written");
    print_bytes(packed, answer < 0 ? room : (size_t)answer);
    return answer;
}

static void unpack(const uint8_t *body, size_t length)
{
    uint8_t plane[AREA];
    memset(plane, 0xEE, sizeof plane);
    print_answer(rdp6_decompress_8bpp_plane(body, length, plane, sizeof plane, WIDTH, HEIGHT), "read");
    for (size_t row = 0; row < HEIGHT; row++)
        print_bytes(plane + row * WIDTH, WIDTH);
}

int main(void)
{
    uint8_t samples[AREA];
    memset(samples, 9, WIDTH);
    memset(samples + WIDTH, 10, WIDTH);
    uint8_t packed[2 * AREA]; /* always enough: a packing has at most two bytes a sample */
    int64_t length = pack(samples, packed, sizeof packed);
    if (length < 0)
        return 1;
    unpack(packed, (size_t)length);
    unpack(packed, 6);
    pack(samples, packed, 5);
    return 0;
}
