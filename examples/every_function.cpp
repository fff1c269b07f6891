// Calls every function of the library and of the header from C++, on pictures small enough to be packed by hand, and checks what it
// returns and writes.
#include <cstdio>
#include <string>
#include <vector>

#include "rdp6.h"

namespace {

typedef std::vector<uint8_t> Bytes;

bool all_right = true;

void expect(const char *function, bool right)
{
    if (!right) {
        std::printf("C++: %s does not return or write what is expected\n", function);
        all_right = false;
    }
}

Bytes bytes(const uint8_t *first, size_t count)
{
    return Bytes(first, first + count);
}

// Whether exactly these bytes were written, at the start of a buffer filled with EE, and counted.
bool is_written(int64_t answer, const Bytes &buffer, const Bytes &expected)
{
    Bytes filled(expected);
    filled.resize(buffer.size(), 0xEE);
    return answer == static_cast<int64_t>(expected.size()) && buffer == filled;
}

// One pixel, B 1, G 2, R 3, A 4.
void packing_streams()
{
    const uint8_t pixel[] = {1, 2, 3, 4}, *b = pixel, *g = pixel + 1, *r = pixel + 2, *a = pixel + 3;
    const uint8_t raw[] = {0x20, 3, 2, 1, 0}, raw_alpha[] = {0x20, 4, 3, 2, 1, 0};
    const uint8_t rle[] = {0x30, 0x10, 3, 0x10, 2, 0x10, 1}, rle_alpha[] = {0x30, 0x10, 4, 0x10, 3, 0x10, 2, 0x10, 1};
    Bytes stream(10, 0xEE);
    int64_t answer = rdp6_stream_encode_bitmap(RDP6_LAYOUT_BGRA, pixel, 4, &stream[0], stream.size(), true, 1, 1);
    expect("rdp6_stream_encode_bitmap", is_written(answer, stream, bytes(rle, 7)));
    stream.assign(10, 0xEE);
    answer = rdp6_stream_encode_bitmap_alpha(RDP6_LAYOUT_BGRA, pixel, 4, &stream[0], stream.size(), false, 1, 1);
    expect("rdp6_stream_encode_bitmap_alpha", is_written(answer, stream, bytes(raw_alpha, 6)));
    stream.assign(10, 0xEE);
    answer = rdp6_stream_encode_channels(r, 1, g, 1, b, 1, &stream[0], stream.size(), false, 1, 1);
    expect("rdp6_stream_encode_channels", is_written(answer, stream, bytes(raw, 5)));
    stream.assign(10, 0xEE);
    answer = rdp6_stream_encode_channels_alpha(r, 1, g, 1, b, 1, a, 1, &stream[0], stream.size(), true, 1, 1);
    expect("rdp6_stream_encode_channels_alpha", is_written(answer, stream, bytes(rle_alpha, 9)));
    answer = rdp6_stream_encode_bitmap(RDP6_LAYOUT_BGRA, pixel, 4, NULL, 0, true, 1, 1);
    expect("rdp6_stream_encode_bitmap", answer == -RDP6_BUFFER_TOO_SMALL);
    answer = rdp6_stream_encode_bitmap_alpha(256, pixel, 4, NULL, 0, true, 1, 1);
    expect("rdp6_stream_encode_bitmap_alpha", answer == -RDP6_LOSS_LEVEL);
}

// Loss level 1, with alpha raw and without alpha in RLE: Y 100, Co 10, Cg 20, as in example 15 of docs/FORMAT.md.
void unpacking_streams()
{
    const uint8_t raw[] = {0x01, 255, 100, 10, 20, 0}, rle[] = {0x31, 0x10, 100, 0x10, 10, 0x10, 20};
    const uint8_t with_alpha[] = {90, 120, 70}, without[] = {70, 120, 90};
    Bytes image(4, 0xEE), work(rdp6_stream_work_size(rle, 7, 1, 1), 0xEE);
    int64_t answer = rdp6_stream_decode(raw, 6, NULL, 0, &image[0], image.size(), 1, 1);
    expect("rdp6_stream_decode", is_written(answer, image, bytes(with_alpha, 3)));
    image.assign(4, 0xEE);
    answer = rdp6_stream_decode(rle, 7, &work[0], work.size(), &image[0], image.size(), 1, 1);
    expect("rdp6_stream_decode", is_written(answer, image, bytes(without, 3)));
    expect("rdp6_stream_decode", rdp6_stream_decode(NULL, 0, NULL, 0, NULL, 0, 1, 1) == -RDP6_EMPTY_STREAM);
    expect("rdp6_stream_decode", rdp6_stream_decode(raw, 1, NULL, 0, NULL, 0, 1, 1) == -RDP6_MISSING_PAD);
    expect("rdp6_stream_work_size", work.size() == 3);
    expect("rdp6_stream_work_size", rdp6_stream_work_size(raw, 6, 1, 1) == 0 && rdp6_stream_work_size(NULL, 0, 1, 1) == 0);
}

// One pixel, A 4, R 3, G 2, B 1, as a stream and as a body, in each layout; then without alpha.
void unpacking_pixels()
{
    const uint8_t rle[] = {0x10, 0x10, 4, 0x10, 3, 0x10, 2, 0x10, 1}, raw[] = {0x20, 3, 2, 1, 0};
    const uint8_t pixels[4][4] = {{1, 2, 3, 4}, {3, 2, 1, 4}, {4, 3, 2, 1}, {4, 1, 2, 3}}, opaque[] = {1, 2, 3, 255};
    const size_t size = rdp6_pixels_image_size(1, 1), work_size = rdp6_stream_pixels_work_size(rle, 9, 1, 1);
    expect("rdp6_pixels_image_size", size == 4 && rdp6_pixels_image_size(3, 2) == 4 * 3 * 2 && rdp6_pixels_image_size(8193, 1) == 0);
    expect("rdp6_stream_pixels_work_size", work_size == 4 && rdp6_stream_pixels_work_size(raw, 5, 1, 1) == 0);
    expect("rdp6_pixels_work_size", rdp6_pixels_work_size(true, true, RDP6_AYCOCG, true, 3, 2) == 6 + 2 + 2 + 6);
    expect("rdp6_pixels_work_size", rdp6_pixels_work_size(true, false, RDP6_ARGB, true, 3, 2) == 6 + 6 + 6);
    for (uint32_t layout = RDP6_LAYOUT_BGRA; layout <= RDP6_LAYOUT_ABGR; layout++) {
        Bytes image(size + 1, 0xEE), work(work_size + 1, 0xEE);
        int64_t answer = rdp6_stream_decode_pixels(layout, rle, 9, &work[0], work.size(), &image[0], image.size(), 1, 1);
        expect("rdp6_stream_decode_pixels", is_written(answer, image, bytes(pixels[layout], 4)));
        expect("rdp6_stream_decode_pixels", is_written(4, work, bytes(pixels[RDP6_LAYOUT_RGBA], 4)));
        image.assign(size + 1, 0xEE);
        answer = rdp6_decode_pixels(true, true, RDP6_ARGB, 0, false, layout, rle + 1, 8, &work[0], work.size(), &image[0], image.size(), 1,
                                    1);
        expect("rdp6_decode_pixels", is_written(answer, image, bytes(pixels[layout], 4)));
    }
    Bytes image(size + 1, 0xEE);
    int64_t answer = rdp6_stream_decode_pixels(RDP6_LAYOUT_BGRA, raw, 5, NULL, 0, &image[0], image.size(), 1, 1);
    expect("rdp6_stream_decode_pixels", is_written(answer, image, bytes(opaque, 4)));
    image.assign(size + 1, 0xEE);
    answer = rdp6_decode_pixels(false, false, RDP6_ARGB, 0, false, 4, raw + 1, 3, NULL, 0, &image[0], image.size(), 1, 1);
    expect("rdp6_decode_pixels", answer == -RDP6_LOSS_LEVEL && image == Bytes(size + 1, 0xEE));
    answer = rdp6_stream_decode_pixels(257, raw, 5, NULL, 0, &image[0], image.size(), 1, 1);
    expect("rdp6_stream_decode_pixels", answer == -RDP6_LOSS_LEVEL && image == Bytes(size + 1, 0xEE));
}

void planes()
{
    const uint8_t samples[] = {7, 7, 7, 7}, packing[] = {0x13, 7};
    Bytes packed(8, 0xEE), plane(5, 0xEE);
    int64_t answer = rdp6_compress_8bpp_plane(samples, 4, &packed[0], packed.size(), 4, 1);
    expect("rdp6_compress_8bpp_plane", is_written(answer, packed, bytes(packing, 2)));
    answer = rdp6_decompress_8bpp_plane(packing, 2, &plane[0], plane.size(), 4, 1);
    expect("rdp6_decompress_8bpp_plane", answer == 2 && is_written(4, plane, bytes(samples, 4)));
    answer = rdp6_decompress_8bpp_plane(packing, 2, NULL, 0, 4, 1);
    expect("rdp6_decompress_8bpp_plane", answer == -RDP6_SHORT_PLANE);
}

// One pixel, B 1, G 2, R 3, A 4.
void packing_bodies()
{
    const uint8_t pixel[] = {1, 2, 3, 4}, *b = pixel, *g = pixel + 1, *r = pixel + 2, *a = pixel + 3;
    const uint8_t raw[] = {3, 2, 1, 0}, raw_alpha[] = {4, 3, 2, 1, 0};
    const uint8_t rle[] = {0x10, 3, 0x10, 2, 0x10, 1}, rle_alpha[] = {0x10, 4, 0x10, 3, 0x10, 2, 0x10, 1};
    Bytes body(9, 0xEE);
    int64_t answer = rdp6_encode_bitmap(RDP6_LAYOUT_BGRA, pixel, 4, &body[0], body.size(), false, 1, 1);
    expect("rdp6_encode_bitmap", is_written(answer, body, bytes(raw, 4)));
    body.assign(9, 0xEE);
    answer = rdp6_encode_bitmap_alpha(RDP6_LAYOUT_BGRA, pixel, 4, &body[0], body.size(), true, 1, 1);
    expect("rdp6_encode_bitmap_alpha", is_written(answer, body, bytes(rle_alpha, 8)));
    expect("rdp6_encode_bitmap", rdp6_encode_bitmap(4294967295u, pixel, 4, NULL, 0, false, 1, 1) == -RDP6_LOSS_LEVEL);
    body.assign(9, 0xEE);
    answer = rdp6_encode_channels(r, 1, g, 1, b, 1, &body[0], body.size(), true, 1, 1);
    expect("rdp6_encode_channels", is_written(answer, body, bytes(rle, 6)));
    body.assign(9, 0xEE);
    answer = rdp6_encode_channels_alpha(r, 1, g, 1, b, 1, a, 1, &body[0], body.size(), false, 1, 1);
    expect("rdp6_encode_channels_alpha", is_written(answer, body, bytes(raw_alpha, 5)));
}

// Example 15 of docs/FORMAT.md, with alpha and without: Y 100, Co 10, Cg 20.
void unpacking_bodies()
{
    const uint8_t body[] = {255, 100, 10, 20}, with_alpha[] = {90, 120, 70}, without[] = {70, 120, 90};
    Bytes image(4, 0xEE);
    int64_t answer = rdp6_decode(false, true, RDP6_AYCOCG, 1, false, body, 4, NULL, 0, &image[0], image.size(), 1, 1);
    expect("rdp6_decode", is_written(answer, image, bytes(with_alpha, 3)));
    image.assign(4, 0xEE);
    answer = rdp6_decode(false, false, RDP6_AYCOCG, 1, false, body + 1, 3, NULL, 0, &image[0], image.size(), 1, 1);
    expect("rdp6_decode", is_written(answer, image, bytes(without, 3)));
    answer = rdp6_decode(false, false, RDP6_AYCOCG, 257, false, body + 1, 3, NULL, 0, &image[0], image.size(), 1, 1);
    expect("rdp6_decode", answer == -RDP6_LOSS_LEVEL);
    expect("rdp6_refusal_text", std::string(rdp6_refusal_text(RDP6_ZERO_SIZE)) == "the width or the height is 0");
    expect("rdp6_work_size", rdp6_work_size(true, RDP6_AYCOCG, true, 3, 2) == 6 + 2 + 2);
    expect("rdp6_image_size", rdp6_image_size(3, 2) == 3 * 3 * 2);
}

} // namespace

int main()
{
    packing_streams();
    unpacking_streams();
    unpacking_pixels();
    packing_bodies();
    unpacking_bodies();
    planes();
    if (all_right)
        std::printf("C++: each of the 20 functions returns and writes what is expected\n");
    return all_right ? 0 : 1;
}
