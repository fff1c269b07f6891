//! The entries of the library, by their names in C.

#[derive(Clone, Copy, Debug, PartialEq, Eq)]
pub enum Entry {
    Unpack,
    Pack,
    Decode,
    /// Both functions that size slices.
    Sizes,
    DecodePixels,
    /// Both functions that size slices for four-byte pixels.
    PixelsSizes,
    Channels,
    ChannelsAlpha,
    Bitmap,
    BitmapAlpha,
    StreamDecode,
    StreamWorkSize,
    StreamDecodePixels,
    StreamPixelsWorkSize,
    StreamChannels,
    StreamChannelsAlpha,
    StreamBitmap,
    StreamBitmapAlpha,
}

pub const ENTRIES: [Entry; 18] = [
    Entry::Unpack,
    Entry::Pack,
    Entry::Decode,
    Entry::Sizes,
    Entry::DecodePixels,
    Entry::PixelsSizes,
    Entry::Channels,
    Entry::ChannelsAlpha,
    Entry::Bitmap,
    Entry::BitmapAlpha,
    Entry::StreamDecode,
    Entry::StreamWorkSize,
    Entry::StreamDecodePixels,
    Entry::StreamPixelsWorkSize,
    Entry::StreamChannels,
    Entry::StreamChannelsAlpha,
    Entry::StreamBitmap,
    Entry::StreamBitmapAlpha,
];

impl Entry {
    pub fn name(self) -> &'static str {
        match self {
            Entry::Unpack => "rdp6_decompress_8bpp_plane",
            Entry::Pack => "rdp6_compress_8bpp_plane",
            Entry::Decode => "rdp6_decode",
            Entry::Sizes => "rdp6_work_size",
            Entry::DecodePixels => "rdp6_decode_pixels",
            Entry::PixelsSizes => "rdp6_pixels_work_size",
            Entry::Channels => "rdp6_encode_channels",
            Entry::ChannelsAlpha => "rdp6_encode_channels_alpha",
            Entry::Bitmap => "rdp6_encode_bitmap",
            Entry::BitmapAlpha => "rdp6_encode_bitmap_alpha",
            Entry::StreamDecode => "rdp6_stream_decode",
            Entry::StreamWorkSize => "rdp6_stream_work_size",
            Entry::StreamDecodePixels => "rdp6_stream_decode_pixels",
            Entry::StreamPixelsWorkSize => "rdp6_stream_pixels_work_size",
            Entry::StreamChannels => "rdp6_stream_encode_channels",
            Entry::StreamChannelsAlpha => "rdp6_stream_encode_channels_alpha",
            Entry::StreamBitmap => "rdp6_stream_encode_bitmap",
            Entry::StreamBitmapAlpha => "rdp6_stream_encode_bitmap_alpha",
        }
    }

    pub fn of_name(name: &str) -> Option<Entry> {
        ENTRIES.into_iter().find(|entry| entry.name() == name)
    }
}
