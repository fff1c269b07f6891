/*
 * RDP 6.0 planar bitmaps: the C interface of librdp6.a. docs/FORMAT.md specifies the format and the behaviour; "FORMAT 2.4" is a
 * section of it.
 *
 * Every function of the library is proved, for every input, to return, to stay inside its buffers, and to do what its contract in
 * crates/rdp6/src/lib.rt says. README.md lists what the compiler, the linker and the caller must get right.
 *
 * Buffers. A buffer is a pointer and its length in bytes. It belongs to the caller and is used only during the call; nothing is kept,
 * freed or allocated. No alignment is needed. A buffer that is written must not overlap any other buffer of the call; buffers that
 * are only read may overlap each other. All bytes of a buffer must be readable, and writable where the pointer is not const; its
 * length is at most PTRDIFF_MAX. If the length is 0, the pointer may be NULL. Bytes behind what a function writes are unchanged.
 *
 * Results. An int64_t is a number of bytes or, if it is negative, the negated number of a refusal, that is of an error. A refusal
 * changes only what the function's comment says. rdp6_refusal_text has a text for each.
 *
 * Arguments. A bool must be 0 or 1. C and C++ convert to that by themselves; a caller in another language must do so too. Every other
 * number may have any value. None is cut to a byte: layout 256 is refused, and is not layout 0.
 *
 * Streams and bodies. A stream is a header byte and a body (FORMAT 1). The functions rdp6_stream_NAME read and write streams; most callers
 * need no others. rdp6_NAME does the same for a body, for a caller with a parser of its own for the header byte.
 *
 * Three bytes or four. rdp6_stream_decode and rdp6_decode write R, G and B of each pixel. rdp6_stream_decode_pixels and rdp6_decode_pixels
 * write R, G, B and A, in a layout that the caller chooses. They need a larger image and, for an RLE picture with alpha, a larger work
 * area.
 *
 * Header byte. The first byte of a stream:
 *
 *   bits 0 to 2 (0x07)   the loss level; 0 is ARGB, 1 to 7 are AYCoCg
 *   bit 3 (0x08)         AYCoCg: the chroma planes are subsampled. ARGB: 0 when written, ignored when read
 *   bit 4 (0x10)         the planes are RLE planes, else raw samples
 *   bit 5 (0x20)         there is no alpha plane
 *   bits 6 and 7         0 when written, ignored when read
 *
 * Pad byte. The last byte of a raw stream. It is 0 when written and ignored when read. An RLE stream has none.
 *
 * Four planes. A stream packer writes 0x30 (RLE) or 0x20 (raw) before four planes too, as IronRDP does. These say that there is no alpha
 * plane, so a receiver takes A for R, R for G and G for B. To tell receivers of the alpha plane, clear bit 5 of the stream's first byte:
 * dst[0] &= 0xDF. A body of four planes is sent with the header byte 0x10 (RLE) or 0x00 (raw); whoever unpacks it passes alpha as true.
 *
 * Row order. The first row in a stream or a body is the first row of the image. RDP bitmap updates carry their rows bottom up: flip the rows
 * after unpacking one, and before packing one. Other codecs, such as FreeRDP's, flip them by themselves (FORMAT 1.5).
 *
 * Threads. There is no state: any number of threads may call at once, each with its own buffers.
 *
 * Stack. A call that packs takes at most 26,280 bytes, one that unpacks at most 26,377, whatever the sides. In a program that binds
 * lazily the first call takes more, since the dynamic linker looks up memmove and memset on the same stack: about 3,300 bytes, measured with
 * glibc 2.36. Linking with -z now avoids that.
 *
 * Backtraces. The library has no unwind tables (.eh_frame). A backtrace taken during a call, by a debugger, a profiler or a signal
 * handler, stops at a function of the library: its callers are missing, and gdb may print frames there that do not exist.
 */
#ifndef RDP6_H
#define RDP6_H

#include <stdbool.h>
#include <stddef.h>
#include <stdint.h>

#ifdef __cplusplus
extern "C" {
#endif

/* The largest width and the largest height. */
#define RDP6_MAX_SIDE 8192

/*
 * The refusals (FORMAT 8). A function returns one of these negated; its comment says which, and in which order they are checked. Refusal 3
 * for an unknown layout is the C interface's own refusal, not one of the format; the comments mark it "C's own".
 */
enum rdp6_refusal {
    RDP6_ZERO_SIZE = 1,                        /* the width or the height is 0 */
    RDP6_TOO_LARGE = 2,                        /* the width or the height is over 8192 */
    RDP6_LOSS_LEVEL = 3,                       /* the loss level of AYCoCg is not 1 to 7, or the plane definition or the layout is unknown */
    RDP6_INVALID_UNCOMPRESSED_DATA_SIZE = 4,   /* the body is shorter than its minimum size */
    RDP6_SHORT_WORK = 5,                       /* the work area is shorter than its minimum size */
    RDP6_SHORT_IMAGE = 6,                      /* the image is shorter than its minimum size */
    RDP6_READ_COMPRESSED_DATA = 7,             /* a control byte or a raw byte is missing */
    RDP6_INVALID_SEGMENT_HEADER = 8,           /* a control byte is 0 */
    RDP6_SEGMENT_DO_NOT_FIT_SCANLINE = 9,      /* a segment overruns its row */
    RDP6_SHORT_PLANE = 10,                     /* the destination is shorter than width * height bytes */
    RDP6_NOT_ENOUGH_BYTES = 11,                /* a source has fewer than width * height samples or complete pixels */
    RDP6_BUFFER_TOO_SMALL = 12,                /* the next segment, or the raw body, does not fit into the destination */
    RDP6_EMPTY_STREAM = 13,                    /* the stream is empty */
    RDP6_MISSING_PAD = 14                      /* a raw stream has no pad byte */
};

/*
 * The text for a refusal, by its number as in enum rdp6_refusal: for a negative result, rdp6_refusal_text(-result). For any other number
 * the text is "no refusal has this number"; it is never NULL. This function is C, defined here: the library does not export it.
 */
static inline const char *rdp6_refusal_text(int64_t number)
{
    switch (number) {
    case RDP6_ZERO_SIZE:
        return "the width or the height is 0";
    case RDP6_TOO_LARGE:
        return "the width or the height is over 8192";
    case RDP6_LOSS_LEVEL:
        return "the loss level of AYCoCg is not 1 to 7, or the plane definition or the layout is unknown";
    case RDP6_INVALID_UNCOMPRESSED_DATA_SIZE:
        return "the body is shorter than its minimum size";
    case RDP6_SHORT_WORK:
        return "the work area is shorter than its minimum size";
    case RDP6_SHORT_IMAGE:
        return "the image is shorter than its minimum size";
    case RDP6_READ_COMPRESSED_DATA:
        return "a control byte or a raw byte is missing";
    case RDP6_INVALID_SEGMENT_HEADER:
        return "a control byte is 0";
    case RDP6_SEGMENT_DO_NOT_FIT_SCANLINE:
        return "a segment overruns its row";
    case RDP6_SHORT_PLANE:
        return "the destination is shorter than width * height bytes";
    case RDP6_NOT_ENOUGH_BYTES:
        return "a source has fewer than width * height samples or complete pixels";
    case RDP6_BUFFER_TOO_SMALL:
        return "the next segment, or the raw body, does not fit into the destination";
    case RDP6_EMPTY_STREAM:
        return "the stream is empty";
    case RDP6_MISSING_PAD:
        return "a raw stream has no pad byte";
    default:
        return "no refusal has this number";
    }
}

/*
 * The layouts: the order of the four bytes of a pixel, which is that of the letters. Any other number, 256 and 257 too, is refusal 3, the C
 * interface's own. It is checked behind 13, 14, 1 and 2 and before every other, and changes nothing.
 */
enum rdp6_layout {
    RDP6_LAYOUT_BGRA = 0, /* B, G, R, A */
    RDP6_LAYOUT_RGBA = 1, /* R, G, B, A */
    RDP6_LAYOUT_ARGB = 2, /* A, R, G, B */
    RDP6_LAYOUT_ABGR = 3  /* A, B, G, R */
};

/* Streams. */

/*
 * Unpacks a picture (FORMAT 2, 6; MS-RDPEGDI 2.2.2.5.1, 3.1.9.1) from its stream into the first 3 * width * height bytes of image: R, G and
 * B of each pixel, row by row. Returns that number. The body is what follows the header byte, in a raw stream without the pad byte. It is
 * unpacked as rdp6_decode does: the comment there has its minimum size, the order of colours, and what is in work afterwards.
 *
 * The minimum lengths are
 *
 *   stream_len  RLE: 1 + the minimum size of the body; raw: 2 + that, for the pad byte. A longer stream is accepted: what follows the last
 *               plane has no effect
 *   work_len    what rdp6_stream_work_size returns. A raw picture does not use work, which may be NULL with length 0
 *   image_len   3 * width * height, which rdp6_image_size computes
 *
 * Refusals, checked in this order. None of them changes image:
 *   13  stream_len is 0                                      }
 *   14  the stream is raw and stream_len is 1: no pad byte   }
 *    1  width or height is 0                                 }
 *    2  width or height is over 8192                         }  work is unchanged too
 *    4  the body is shorter than its minimum size            }
 *    5  work_len is below its minimum (RLE only)             }
 *    6  image_len is below its minimum                       }
 *    7  a control byte or a raw byte is missing   }  RLE only. In work the colour planes before are complete, the refused plane is as
 *    8  a control byte is 0                       }  rdp6_decompress_8bpp_plane leaves it. If it is the first colour plane, the part
 *    9  a segment overruns its row                }  that it did not write still has alpha, if there is any
 * Refusal 3 never occurs: a header byte has no loss level but 0, which is ARGB, and 1 to 7. A raw stream of two bytes has an empty body,
 * which is refusal 4.
 */
int64_t rdp6_stream_decode(const uint8_t *stream, size_t stream_len, uint8_t *work, size_t work_len, uint8_t *image, size_t image_len,
                           size_t width, size_t height);

/*
 * The minimum work_len for rdp6_stream_decode: the size of the picture's three colour planes, or 0 if it is raw. Only the header byte is
 * read, so the first byte of a stream is enough. Returns 0 for an empty stream and for sides that are refused.
 */
size_t rdp6_stream_work_size(const uint8_t *stream, size_t stream_len, size_t width, size_t height);

/* The minimum image_len for rdp6_stream_decode and rdp6_decode, 3 * width * height. Returns 0 for sides that are refused. */
size_t rdp6_image_size(size_t width, size_t height);

/*
 * Unpacks a picture from its stream as rdp6_stream_decode does, but into four bytes a pixel: the first 4 * width * height bytes of image, row
 * by row, in the layout. Returns that number. R, G and B of each pixel are those that rdp6_stream_decode writes. A is the sample of the alpha
 * plane, or 255 if there is no alpha plane. The comment of rdp6_decode_pixels says where alpha is in work.
 *
 * The minimum lengths are
 *
 *   stream_len  as for rdp6_stream_decode
 *   work_len    what rdp6_stream_pixels_work_size returns. A raw picture does not use work, which may be NULL with length 0
 *   image_len   4 * width * height, which rdp6_pixels_image_size computes
 *
 * Refusals, checked in this order. None of them changes image:
 *   13  stream_len is 0                                      }
 *   14  the stream is raw and stream_len is 1: no pad byte   }
 *    1  width or height is 0                                 }
 *    2  width or height is over 8192                         }
 *    3  layout is over 3 (C's own)                           }  work is unchanged too
 *    4  the body is shorter than its minimum size            }
 *    5  work_len is below its minimum (RLE only)             }
 *    6  image_len is below its minimum                       }
 *    7  a control byte or a raw byte is missing   }  RLE only. In work the planes before are complete, alpha too; the refused plane is as
 *    8  a control byte is 0                       }  rdp6_decompress_8bpp_plane leaves it; the rest is unchanged
 *    9  a segment overruns its row                }
 * Refusal 3 never occurs with a layout of enum rdp6_layout. Where both functions have room, refusals 1, 2, 4, 7, 8, 9, 13 and 14 are those of
 * rdp6_stream_decode.
 */
int64_t rdp6_stream_decode_pixels(uint32_t layout, const uint8_t *stream, size_t stream_len, uint8_t *work, size_t work_len, uint8_t *image,
                                  size_t image_len, size_t width, size_t height);

/*
 * The minimum work_len for rdp6_stream_decode_pixels: the size of the picture's planes, alpha included, or 0 if it is raw. Only the header
 * byte is read, so the first byte of a stream is enough. Returns 0 for an empty stream and for sides that are refused.
 */
size_t rdp6_stream_pixels_work_size(const uint8_t *stream, size_t stream_len, size_t width, size_t height);

/* The minimum image_len for rdp6_stream_decode_pixels and rdp6_decode_pixels, 4 * width * height. Returns 0 for sides that are refused. */
size_t rdp6_pixels_image_size(size_t width, size_t height);

/*
 * Packs a picture (FORMAT 7; MS-RDPEGDI 2.2.2.5.1) from its R, G and B into a stream, the first bytes of dst, and returns the number of bytes
 * written, with the header byte. Behind the header byte is the body that rdp6_encode_channels writes.
 *
 *   r, g, b   one channel each, one byte a pixel, row by row. What follows the first width * height bytes is not read
 *   rle       true: 0x30, then three RLE planes, at most 6 * width * height + 1 bytes: with a dst of that size there is no refusal 12
 *             false: 0x20, then the samples of the three planes, then the pad byte: 3 * width * height + 2 bytes
 *
 * Refusals, checked in this order. None of them changes dst[0], since the header byte is written last:
 *    1  width or height is 0                             }
 *    2  width or height is over 8192                     }  dst is unchanged
 *   11  r_len, g_len or b_len is below width * height    }
 *   12  RLE: dst is empty, or the next segment does not fit into it: the segments before it are written, from dst[1] on, the rest of dst is
 *       unchanged
 *       raw: the stream does not fit into dst, which is unchanged
 */
int64_t rdp6_stream_encode_channels(const uint8_t *r, size_t r_len, const uint8_t *g, size_t g_len, const uint8_t *b, size_t b_len,
                                    uint8_t *dst, size_t dst_len, bool rle, size_t width, size_t height);

/*
 * The same with an alpha plane, which is the first: A, R, G, B. An RLE stream has at most 8 * width * height + 1 bytes, a raw stream 4 *
 * width * height + 2. Refusal 11 is checked for a_len too. The header byte is 0x30 or 0x20 here too ("Four planes" above).
 */
int64_t rdp6_stream_encode_channels_alpha(const uint8_t *r, size_t r_len, const uint8_t *g, size_t g_len, const uint8_t *b, size_t b_len,
                                          const uint8_t *a, size_t a_len, uint8_t *dst, size_t dst_len, bool rle, size_t width,
                                          size_t height);

/*
 * The same as rdp6_stream_encode_channels, from pixels: src has four bytes a pixel, in the layout, row by row. A is not packed. What follows
 * the first width * height pixels is not read.
 *
 * Refusals, checked in this order. None of them changes dst[0]:
 *    1  width or height is 0                    }
 *    2  width or height is over 8192            }  dst is unchanged
 *    3  layout is over 3 (C's own)              }
 *   11  src_len / 4 is below width * height     }
 *   12  as rdp6_stream_encode_channels has it
 */
int64_t rdp6_stream_encode_bitmap(uint32_t layout, const uint8_t *src, size_t src_len, uint8_t *dst, size_t dst_len, bool rle, size_t width,
                                  size_t height);

/* The same with alpha: the stream is that of rdp6_stream_encode_channels_alpha. */
int64_t rdp6_stream_encode_bitmap_alpha(uint32_t layout, const uint8_t *src, size_t src_len, uint8_t *dst, size_t dst_len, bool rle,
                                        size_t width, size_t height);

/* Bodies. */

/* What the colour planes of a picture are. */
enum rdp6_definition {
    RDP6_ARGB = 0,   /* R, G and B */
    RDP6_AYCOCG = 1  /* Y, Co and Cg, with a loss level and optional subsampling */
};

/*
 * Unpacks a picture (FORMAT 2, 6; MS-RDPEGDI 2.2.2.5.1, 3.1.9.1) from its body, which is what follows the header byte, into the first
 * 3 * width * height bytes of image: R, G and B of each pixel, row by row. Returns that number. The first five arguments are what the
 * header byte says:
 *
 *   rle                 the planes are RLE planes; else they are raw samples
 *   alpha               there is an alpha plane before the colour planes: true for four planes. It is not part of the image
 *   definition          RDP6_ARGB or RDP6_AYCOCG; any other number, 256 and 257 too, is refusal 3
 *   color_loss_level    AYCoCg: 1 to 7; any other number, 256 and 257 too, is refusal 3. Ignored for ARGB
 *   chroma_subsampling  the chroma planes have half the sides; ignored for ARGB
 *
 * With chroma = ((width + 1) / 2) * ((height + 1) / 2) for a subsampled AYCoCg picture, else width * height, the minimum lengths are
 *
 *   body_len    raw: (1 + alpha) * width * height + 2 * chroma
 *               RLE: (1 + alpha) * rle_min(width, height) + 2 * rle_min(the chroma sides), where rle_min(w, h) = h * ((w + 46) / 47);
 *               a longer body is accepted: what follows the last plane has no effect
 *   work_len    RLE: width * height + 2 * chroma, which rdp6_work_size computes; raw: 0
 *   image_len   3 * width * height, which rdp6_image_size computes
 *
 * An AYCoCg picture without alpha carries R and B exchanged; they are exchanged back (FORMAT 6.5).
 *
 * An RLE picture is unpacked into work, which then has its three colour planes one after the other; the first overwrites alpha. A raw
 * picture does not use work, which may be NULL with length 0.
 *
 * Refusals, checked in this order. None of them changes image:
 *    1  width or height is 0                                          }
 *    2  width or height is over 8192                                  }
 *    3  AYCoCg with a level other than 1 to 7; another definition     }  work is unchanged too
 *    4  body_len is below its minimum                                 }
 *    5  work_len is below its minimum (RLE only)                      }
 *    6  image_len is below its minimum                                }
 *    7  a control byte or a raw byte is missing   }  RLE only. In work the colour planes before are complete, the refused plane is as
 *    8  a control byte is 0                       }  rdp6_decompress_8bpp_plane leaves it. If it is the first colour plane, the part
 *    9  a segment overruns its row                }  that it did not write still has alpha, if there is any
 */
int64_t rdp6_decode(bool rle, bool alpha, uint32_t definition, uint32_t color_loss_level, bool chroma_subsampling, const uint8_t *body,
                    size_t body_len, uint8_t *work, size_t work_len, uint8_t *image, size_t image_len, size_t width, size_t height);

/*
 * The minimum work_len for rdp6_decode: the size of the picture's three colour planes, or 0 if it is raw. Returns 0 for sides that are
 * refused. A definition that rdp6_decode refuses has the size of AYCoCg.
 */
size_t rdp6_work_size(bool rle, uint32_t definition, bool chroma_subsampling, size_t width, size_t height);

/*
 * Unpacks a picture from its body as rdp6_decode does, but into four bytes a pixel: the first 4 * width * height bytes of image, row by row,
 * in the layout, which follows what the header byte says. Returns that number. R, G and B of each pixel are those that rdp6_decode writes. A
 * is the sample of the alpha plane, or 255 if alpha is false.
 *
 * With full = width * height, and chroma as for rdp6_decode, the minimum lengths are
 *
 *   body_len    as for rdp6_decode
 *   work_len    RLE: full + 2 * chroma, and full more with alpha, which rdp6_pixels_work_size computes; raw: 0
 *   image_len   4 * full, which rdp6_pixels_image_size computes
 *
 * An RLE picture is unpacked into work, which then has its three colour planes one after the other and behind them, from offset full + 2 *
 * chroma on, the alpha plane, if there is one. Alpha is the first plane of the body and is unpacked first; no colour plane overwrites it. A
 * raw picture does not use work, which may be NULL with length 0.
 *
 * Refusals, checked in this order. None of them changes image:
 *    1  width or height is 0                                          }
 *    2  width or height is over 8192                                  }
 *    3  layout is over 3 (C's own)                                    }
 *    3  AYCoCg with a level other than 1 to 7; another definition     }  work is unchanged too
 *    4  body_len is below its minimum                                 }
 *    5  work_len is below its minimum (RLE only)                      }
 *    6  image_len is below its minimum                                }
 *    7  a control byte or a raw byte is missing   }  RLE only. In work the planes before are complete, alpha too; the refused plane is as
 *    8  a control byte is 0                       }  rdp6_decompress_8bpp_plane leaves it; the rest is unchanged. So a refused alpha
 *    9  a segment overruns its row                }  plane leaves the colour planes' part unchanged
 * Where both functions have room, and the layout is one of enum rdp6_layout, refusals 1 to 4 and 7 to 9 are those of rdp6_decode.
 */
int64_t rdp6_decode_pixels(bool rle, bool alpha, uint32_t definition, uint32_t color_loss_level, bool chroma_subsampling, uint32_t layout,
                           const uint8_t *body, size_t body_len, uint8_t *work, size_t work_len, uint8_t *image, size_t image_len,
                           size_t width, size_t height);

/*
 * The minimum work_len for rdp6_decode_pixels: the size of the picture's planes, alpha included, or 0 if it is raw. Returns 0 for sides that
 * are refused. A definition that rdp6_decode_pixels refuses has the size of AYCoCg.
 */
size_t rdp6_pixels_work_size(bool rle, bool alpha, uint32_t definition, bool chroma_subsampling, size_t width, size_t height);

/*
 * Packs a picture (FORMAT 7; MS-RDPEGDI 2.2.2.5.1) from its R, G and B into the first bytes of dst, and returns the number of bytes
 * written. They are the body; the caller sends a header byte before it.
 *
 *   r, g, b   one channel each, one byte a pixel, row by row. What follows the first width * height bytes is not read
 *   rle       true: three RLE planes, each as rdp6_compress_8bpp_plane packs it, at most 6 * width * height bytes: with a dst of that size
 *             there is no refusal 12
 *             false: the samples of the three planes, then one zero byte: 3 * width * height + 1 bytes
 *
 * The header byte for the body is 0x30 for RLE and 0x20 for raw: ARGB, no alpha.
 *
 * Refusals, checked in this order:
 *    1  width or height is 0                             }
 *    2  width or height is over 8192                     }  dst is unchanged
 *   11  r_len, g_len or b_len is below width * height    }
 *   12  RLE: the next segment does not fit into dst: the segments before it are written, the rest of dst is unchanged
 *       raw: the body does not fit into dst, which is unchanged
 */
int64_t rdp6_encode_channels(const uint8_t *r, size_t r_len, const uint8_t *g, size_t g_len, const uint8_t *b, size_t b_len,
                             uint8_t *dst, size_t dst_len, bool rle, size_t width, size_t height);

/*
 * The same with an alpha plane, which is the first: A, R, G, B. An RLE body has at most 8 * width * height bytes, a raw body 4 *
 * width * height + 1. Refusal 11 is checked for a_len too.
 *
 * The header byte for the body is 0x10 for RLE and 0x00 for raw: ARGB with alpha.
 */
int64_t rdp6_encode_channels_alpha(const uint8_t *r, size_t r_len, const uint8_t *g, size_t g_len, const uint8_t *b, size_t b_len,
                                   const uint8_t *a, size_t a_len, uint8_t *dst, size_t dst_len, bool rle, size_t width, size_t height);

/*
 * The same as rdp6_encode_channels, from pixels: src has four bytes a pixel, in the layout, row by row. A is not packed. What follows the
 * first width * height pixels is not read.
 *
 * Refusals, checked in this order:
 *    1  width or height is 0                    }
 *    2  width or height is over 8192            }  dst is unchanged
 *    3  layout is over 3 (C's own)              }
 *   11  src_len / 4 is below width * height     }
 *   12  as rdp6_encode_channels has it
 */
int64_t rdp6_encode_bitmap(uint32_t layout, const uint8_t *src, size_t src_len, uint8_t *dst, size_t dst_len, bool rle, size_t width,
                           size_t height);

/* The same with alpha: the body is that of rdp6_encode_channels_alpha. */
int64_t rdp6_encode_bitmap_alpha(uint32_t layout, const uint8_t *src, size_t src_len, uint8_t *dst, size_t dst_len, bool rle, size_t width,
                                 size_t height);

/* Planes. */

/*
 * Unpacks an RLE plane of width * height samples (FORMAT 4; MS-RDPEGDI 3.1.9.2) from src into the first width * height bytes of dst,
 * and returns the number of bytes that its segments take. What follows them in src may be read, but has no effect.
 *
 * Refusals, checked in this order:
 *    1  width or height is 0          }
 *    2  width or height is over 8192  }  dst is unchanged
 *   10  dst_len < width * height      }
 *    7  a control byte or a raw byte is missing   }  the rows before are complete; the refused row has the coded values of its
 *    8  a control byte is 0                       }  earlier segments, the row above not yet added; the rest of dst is unchanged
 *    9  a segment overruns its row                }  (coded values: FORMAT 4.1)
 * Within one segment: missing control byte (7), control byte 0 (8), missing raw bytes (7), then 9.
 */
int64_t rdp6_decompress_8bpp_plane(const uint8_t *src, size_t src_len, uint8_t *dst, size_t dst_len, size_t width, size_t height);

/*
 * Packs a plane (FORMAT 5), the first width * height bytes of src, row by row, into the first bytes of dst, and returns the number of
 * bytes written. What follows the samples in src is not read. At most two bytes a sample are written: with a dst of 2 * width *
 * height bytes there is no refusal 12.
 *
 * Refusals, checked in this order:
 *    1  width or height is 0          }
 *    2  width or height is over 8192  }  dst is unchanged
 *   11  src_len < width * height      }
 *   12  the next segment does not fit into dst: the segments before it are written, the rest of dst is unchanged
 */
int64_t rdp6_compress_8bpp_plane(const uint8_t *src, size_t src_len, uint8_t *dst, size_t dst_len, size_t width, size_t height);

#ifdef __cplusplus
}
#endif

#endif
