//! Bytes fed to a stream.

use hpsdr::{Stream, OUTPUT_LEAST};

/// Sizes of pieces, which come again and again.
pub const CUTTINGS: [&[usize]; 9] = [
    &[4096],
    &[1],
    &[2, 0, 1],
    &[3],
    &[511],
    &[512],
    &[513, 1],
    &[515],
    &[0, 1000],
];

/// The frames found, and the record left, when the bytes are read in pieces of these sizes, again and again.
pub fn read_in_pieces(bytes: &[u8], sizes: &[usize]) -> (Vec<u8>, Stream) {
    let (mut rest, mut frames) = (bytes, Vec::new());
    let mut stream = Stream::fresh();
    for &size in sizes.iter().cycle() {
        let (piece, later) = rest.split_at(size.min(rest.len()));
        let mut output = [0xEE; OUTPUT_LEAST];
        let found = stream.feed(piece, &mut output).unwrap();
        let (found, untouched) = output.split_at(512 * found);
        frames.extend_from_slice(found);
        assert!(untouched.iter().all(|&byte| byte == 0xEE));
        assert!(stream.sound());
        if later.is_empty() {
            break;
        }
        rest = later;
    }
    (frames, stream)
}
