//! The program that bindings/rust/tests/drop_in.rs runs with the binding prints the same text with IronRDP: only the `use` lines differ.

mod program {
    use original::rdp6::bitmap_stream::decoder::BitmapStreamDecoder;
    use original::rdp6::bitmap_stream::encoder::{
        ABgrChannels, ARgbChannels, BgrAChannels, BitmapStreamEncoder, PixelAlpha, PixelFormat, RgbAChannels,
    };

    include!("../../../../bindings/rust/tests/drop_in/program.rs");
}

#[test]
fn the_program_prints_what_is_expected_of_the_binding() {
    let expected = include_str!("../../../../bindings/rust/tests/drop_in/expected.txt");
    for (number, (printed, expected)) in program::run().lines().zip(expected.lines()).enumerate() {
        assert_eq!(printed, expected, "line {} of expected.txt", number + 1);
    }
    assert_eq!(program::run().len(), expected.len());
}
