/*
 * The stack of the first call of a function, in a program that binds memmove and memset lazily, and of later calls. The first call takes more:
 * the dynamic linker looks the two functions up on the caller's stack. `differential/bench --stack` builds this with -z lazy and prints
 * its table.
 *
 * Each function is called in a process of its own, on a stack whose bytes all have one value before the call. The lowest byte that has
 * another value afterwards gives the depth. The depth of a function that does nothing is subtracted. This program does not call memmove or
 * memset itself, or they would be bound before the measurement.
 */
#include <stdio.h>
#include <stdlib.h>
#include <sys/mman.h>
#include <sys/wait.h>
#include <ucontext.h>
#include <unistd.h>

#include "rdp6.h"

enum { STACK = 1 << 18, WIDTH = 300, HEIGHT = 3, SAMPLES = WIDTH * HEIGHT };

/* What one process prepares is read by the others. */
static struct buffers {
    uint8_t samples[4 * SAMPLES], plane[2 * SAMPLES], stream[6 * SAMPLES + 1], work[8 * SAMPLES + 1], image[4 * SAMPLES];
    size_t plane_len, stream_len;
} *b;

static void *allocate(size_t size)
{
    void *bytes = mmap(NULL, size, PROT_READ | PROT_WRITE, MAP_SHARED | MAP_ANONYMOUS, -1, 0);
    if (bytes == MAP_FAILED) {
        perror("mmap");
        exit(1);
    }
    return bytes;
}

static void prepare(void)
{
    b->plane_len = (size_t)rdp6_compress_8bpp_plane(b->samples, SAMPLES, b->plane, sizeof b->plane, WIDTH, HEIGHT);
    b->stream_len = (size_t)rdp6_stream_encode_bitmap(RDP6_LAYOUT_BGRA, b->samples, sizeof b->samples, b->stream, sizeof b->stream, true, WIDTH,
                                                      HEIGHT);
}

static void nothing(void)
{
}

static void unpack_plane(void)
{
    rdp6_decompress_8bpp_plane(b->plane, b->plane_len, b->image, sizeof b->image, WIDTH, HEIGHT);
}

static void unpack_picture(void)
{
    rdp6_decode(true, false, RDP6_ARGB, 0, false, b->stream + 1, b->stream_len - 1, b->work, sizeof b->work, b->image, sizeof b->image,
                WIDTH, HEIGHT);
}

static void unpack_stream(void)
{
    rdp6_stream_decode(b->stream, b->stream_len, b->work, sizeof b->work, b->image, sizeof b->image, WIDTH, HEIGHT);
}

static void unpack_picture_to_pixels(void)
{
    rdp6_decode_pixels(true, false, RDP6_ARGB, 0, false, RDP6_LAYOUT_RGBA, b->stream + 1, b->stream_len - 1, b->work, sizeof b->work, b->image,
                       sizeof b->image, WIDTH, HEIGHT);
}

static void unpack_stream_to_pixels(void)
{
    rdp6_stream_decode_pixels(RDP6_LAYOUT_RGBA, b->stream, b->stream_len, b->work, sizeof b->work, b->image, sizeof b->image, WIDTH, HEIGHT);
}

static void pack_plane(void)
{
    rdp6_compress_8bpp_plane(b->samples, sizeof b->samples, b->work, sizeof b->work, WIDTH, HEIGHT);
}

static void pack_picture(void)
{
    rdp6_encode_channels_alpha(b->samples, SAMPLES, b->samples, SAMPLES, b->samples, SAMPLES, b->samples, SAMPLES, b->work, sizeof b->work,
                               true, WIDTH, HEIGHT);
}

static void pack_pixels(void)
{
    rdp6_encode_bitmap_alpha(RDP6_LAYOUT_RGBA, b->samples, sizeof b->samples, b->work, sizeof b->work, true, WIDTH, HEIGHT);
}

static void pack_stream(void)
{
    rdp6_stream_encode_channels_alpha(b->samples, SAMPLES, b->samples, SAMPLES, b->samples, SAMPLES, b->samples, SAMPLES, b->work,
                                      sizeof b->work, true, WIDTH, HEIGHT);
}

/* The number of bytes of stack that a call changes, if all have this value before it. */
static size_t depth(void (*call)(void), unsigned char value)
{
    static ucontext_t here, there;
    volatile unsigned char *stack = allocate(STACK);
    size_t unchanged;
    for (size_t i = 0; i < STACK; i++)
        stack[i] = value;
    getcontext(&there);
    there.uc_stack.ss_sp = (void *)stack;
    there.uc_stack.ss_size = STACK;
    there.uc_link = &here;
    makecontext(&there, call, 0);
    swapcontext(&here, &there);
    for (unchanged = 0; unchanged < STACK && stack[unchanged] == value; unchanged++)
        ;
    return STACK - unchanged;
}

static const struct measured {
    const char *name;
    void (*call)(void);
} functions[] = {
    {"rdp6_decompress_8bpp_plane", unpack_plane},
    {"rdp6_decode", unpack_picture},
    {"rdp6_stream_decode", unpack_stream},
    {"rdp6_decode_pixels", unpack_picture_to_pixels},
    {"rdp6_stream_decode_pixels", unpack_stream_to_pixels},
    {"rdp6_compress_8bpp_plane", pack_plane},
    {"rdp6_encode_channels_alpha", pack_picture},
    {"rdp6_encode_bitmap_alpha", pack_pixels},
    {"rdp6_stream_encode_channels_alpha", pack_stream},
};

static const struct measured *next = functions;

static void measure(void)
{
    size_t none = depth(nothing, 0xA5), first = depth(next->call, 0xA5);
    size_t second = depth(next->call, 0xA5), third = depth(next->call, 0x5A);
    printf("| `%s` | %zu | %zu |\n", next->name, first - none, (second > third ? second : third) - none);
}

static void in_another_process(void (*work)(void))
{
    int status = 1;
    pid_t child;
    fflush(stdout);
    child = fork();
    if (child == 0) {
        work();
        fflush(stdout);
        _exit(0);
    }
    if (child < 0 || waitpid(child, &status, 0) < 0 || status != 0)
        exit(1);
}

int main(void)
{
    b = allocate(sizeof *b);
    for (size_t i = 0; i < sizeof b->samples; i++)
        b->samples[i] = (uint8_t)(i / 12 % 40 < 20 ? i / 60 : i * i % 7); /* runs, and raw bytes */
    in_another_process(prepare);
    printf("| C function, RLE | First call, bytes | Later calls, bytes |\n|---|---|---|\n");
    for (size_t i = 0; i < sizeof functions / sizeof functions[0]; i++, next++)
        in_another_process(measure);
    return 0;
}
