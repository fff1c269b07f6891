//! The functions of the library. tests/header.rs compares these declarations with include/rdp6.h: keep the names and the order of functions
//! and parameters. The comparison with IronRDP (differential/rust/ours) uses this file too.

/// The type of the functions that pack three channels.
pub type EncodeChannels = unsafe extern "C" fn(
    r: *const u8,
    r_len: usize,
    g: *const u8,
    g_len: usize,
    b: *const u8,
    b_len: usize,
    dst: *mut u8,
    dst_len: usize,
    rle: bool,
    width: usize,
    height: usize,
) -> i64;

/// The type of the functions that pack four channels.
pub type EncodeChannelsAlpha = unsafe extern "C" fn(
    r: *const u8,
    r_len: usize,
    g: *const u8,
    g_len: usize,
    b: *const u8,
    b_len: usize,
    a: *const u8,
    a_len: usize,
    dst: *mut u8,
    dst_len: usize,
    rle: bool,
    width: usize,
    height: usize,
) -> i64;

/// The type of the functions that pack pixels.
pub type EncodeBitmap = unsafe extern "C" fn(
    layout: u32,
    src: *const u8,
    src_len: usize,
    dst: *mut u8,
    dst_len: usize,
    rle: bool,
    width: usize,
    height: usize,
) -> i64;

extern "C" {
    pub fn rdp6_stream_decode(
        stream: *const u8,
        stream_len: usize,
        work: *mut u8,
        work_len: usize,
        image: *mut u8,
        image_len: usize,
        width: usize,
        height: usize,
    ) -> i64;

    pub fn rdp6_stream_work_size(stream: *const u8, stream_len: usize, width: usize, height: usize) -> usize;

    pub fn rdp6_image_size(width: usize, height: usize) -> usize;

    pub fn rdp6_stream_decode_pixels(
        layout: u32,
        stream: *const u8,
        stream_len: usize,
        work: *mut u8,
        work_len: usize,
        image: *mut u8,
        image_len: usize,
        width: usize,
        height: usize,
    ) -> i64;

    pub fn rdp6_stream_pixels_work_size(stream: *const u8, stream_len: usize, width: usize, height: usize) -> usize;

    pub fn rdp6_pixels_image_size(width: usize, height: usize) -> usize;

    pub fn rdp6_stream_encode_channels(
        r: *const u8,
        r_len: usize,
        g: *const u8,
        g_len: usize,
        b: *const u8,
        b_len: usize,
        dst: *mut u8,
        dst_len: usize,
        rle: bool,
        width: usize,
        height: usize,
    ) -> i64;

    pub fn rdp6_stream_encode_channels_alpha(
        r: *const u8,
        r_len: usize,
        g: *const u8,
        g_len: usize,
        b: *const u8,
        b_len: usize,
        a: *const u8,
        a_len: usize,
        dst: *mut u8,
        dst_len: usize,
        rle: bool,
        width: usize,
        height: usize,
    ) -> i64;

    pub fn rdp6_stream_encode_bitmap(
        layout: u32,
        src: *const u8,
        src_len: usize,
        dst: *mut u8,
        dst_len: usize,
        rle: bool,
        width: usize,
        height: usize,
    ) -> i64;

    pub fn rdp6_stream_encode_bitmap_alpha(
        layout: u32,
        src: *const u8,
        src_len: usize,
        dst: *mut u8,
        dst_len: usize,
        rle: bool,
        width: usize,
        height: usize,
    ) -> i64;

    pub fn rdp6_decode(
        rle: bool,
        alpha: bool,
        definition: u32,
        color_loss_level: u32,
        chroma_subsampling: bool,
        body: *const u8,
        body_len: usize,
        work: *mut u8,
        work_len: usize,
        image: *mut u8,
        image_len: usize,
        width: usize,
        height: usize,
    ) -> i64;

    pub fn rdp6_work_size(rle: bool, definition: u32, chroma_subsampling: bool, width: usize, height: usize) -> usize;

    pub fn rdp6_decode_pixels(
        rle: bool,
        alpha: bool,
        definition: u32,
        color_loss_level: u32,
        chroma_subsampling: bool,
        layout: u32,
        body: *const u8,
        body_len: usize,
        work: *mut u8,
        work_len: usize,
        image: *mut u8,
        image_len: usize,
        width: usize,
        height: usize,
    ) -> i64;

    pub fn rdp6_pixels_work_size(
        rle: bool,
        alpha: bool,
        definition: u32,
        chroma_subsampling: bool,
        width: usize,
        height: usize,
    ) -> usize;

    pub fn rdp6_encode_channels(
        r: *const u8,
        r_len: usize,
        g: *const u8,
        g_len: usize,
        b: *const u8,
        b_len: usize,
        dst: *mut u8,
        dst_len: usize,
        rle: bool,
        width: usize,
        height: usize,
    ) -> i64;

    pub fn rdp6_encode_channels_alpha(
        r: *const u8,
        r_len: usize,
        g: *const u8,
        g_len: usize,
        b: *const u8,
        b_len: usize,
        a: *const u8,
        a_len: usize,
        dst: *mut u8,
        dst_len: usize,
        rle: bool,
        width: usize,
        height: usize,
    ) -> i64;

    pub fn rdp6_encode_bitmap(
        layout: u32,
        src: *const u8,
        src_len: usize,
        dst: *mut u8,
        dst_len: usize,
        rle: bool,
        width: usize,
        height: usize,
    ) -> i64;

    pub fn rdp6_encode_bitmap_alpha(
        layout: u32,
        src: *const u8,
        src_len: usize,
        dst: *mut u8,
        dst_len: usize,
        rle: bool,
        width: usize,
        height: usize,
    ) -> i64;

    pub fn rdp6_decompress_8bpp_plane(
        src: *const u8,
        src_len: usize,
        dst: *mut u8,
        dst_len: usize,
        width: usize,
        height: usize,
    ) -> i64;

    pub fn rdp6_compress_8bpp_plane(
        src: *const u8,
        src_len: usize,
        dst: *mut u8,
        dst_len: usize,
        width: usize,
        height: usize,
    ) -> i64;
}
