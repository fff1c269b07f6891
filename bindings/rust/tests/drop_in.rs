//! A program for IronRDP's names, tests/drop_in/program.rs, compiles with this crate and prints what it prints with IronRDP: only the `use`
//! lines differ. tests/drop_in/expected.txt was printed with IronRDP's decoder and encoder, over a stand-in for its code of the header byte. The
//! comparison with IronRDP (differential/) runs it there too.

mod program {
    use rdp6::bitmap_stream::decoder::BitmapStreamDecoder;
    use rdp6::bitmap_stream::encoder::{
        ABgrChannels, ARgbChannels, BgrAChannels, BitmapStreamEncoder, PixelAlpha, PixelFormat, RgbAChannels,
    };

    include!("drop_in/program.rs");
}

#[test]
fn the_program_prints_what_it_prints_over_ironrdp() {
    let (printed, expected) = (program::run(), include_str!("drop_in/expected.txt"));
    for (number, (printed, expected)) in printed.lines().zip(expected.lines()).enumerate() {
        assert_eq!(printed, expected, "line {} of expected.txt", number + 1);
    }
    assert_eq!(printed.len(), expected.len());
}
