// Included behind the picture decoder, in its module: what it uses is private there.

/// What `decode_bitmap_stream_to_rgb24` does once the header is parsed.
pub(crate) fn init_and_decode<'a>(
    bitmap: BitmapStreamPdu<'a>,
    width: usize,
    height: usize,
    dst: &mut Vec<u8>,
    aux_buffer: &'a mut Vec<u8>,
) -> Result<(), BitmapDecodeError> {
    BitmapStreamDecoderImpl::init(bitmap, width, height)?.decode(dst, aux_buffer)
}

impl BitmapStreamDecoder {
    /// A decoder with this buffer for the planes.
    pub(crate) fn with_planes(planes_buffer: Vec<u8>) -> Self {
        Self { planes_buffer }
    }

    pub(crate) fn into_planes(self) -> Vec<u8> {
        self.planes_buffer
    }
}
