//! What the header's calls return, all 32 bits of it: the answer in bits 7 to 0, what was found in bits 15 to 8, and the
//! place in bits 31 to 16, which are 0 but beside refusals 6, 7 and 8. The plain reader's 64 have two counts above them,
//! and a reason's 64 its detail.

mod common;

use common::frame;
use hpsdr::raw;

/// A status record of zeros.
const STATUS: [u32; raw::STATUS_CELLS] = [0; raw::STATUS_CELLS];

/// A call that reads radio frames, for so many receivers, into room for so many values of I and Q and the microphone.
fn read(
    call: raw::RadioRead,
    input: &[u8],
    receivers: usize,
    (iq, mic): (usize, usize),
    status: &[u32],
) -> u32 {
    let (mut iq, mut mic, mut status) = (vec![7; iq], vec![8; mic], status.to_vec());
    // SAFETY: the call is one of the two of `raw`; each pointer and number are those of one slice, and none overlaps.
    unsafe {
        call(
            input.as_ptr(),
            input.len(),
            receivers,
            iq.as_mut_ptr(),
            iq.len(),
            mic.as_mut_ptr(),
            mic.len(),
            status.as_mut_ptr(),
            status.len(),
        )
    }
}

fn radio_read(frame: &[u8], receivers: usize) -> u32 {
    read(raw::hpsdr_radio_read, frame, receivers, (160, 63), &STATUS)
}

fn transfer(input: &[u8], receivers: usize) -> u32 {
    let (call, room) = (raw::hpsdr_radio_read_transfer, (8 * 160, 8 * 63));
    read(call, input, receivers, room, &STATUS)
}

fn host_read(frame: &[u8], audio: usize, host: &[u32]) -> u32 {
    let (mut audio, mut host) = (vec![7; audio], host.to_vec());
    // SAFETY: each pointer and number are those of one slice, and none overlaps another.
    unsafe {
        raw::hpsdr_host_read(
            frame.as_ptr(),
            frame.len(),
            audio.as_mut_ptr(),
            audio.len(),
            host.as_mut_ptr(),
            host.len(),
        )
    }
}

/// A frame of word 0 in which these bytes are 1.
fn with_ones(places: &[usize]) -> [u8; 512] {
    let mut frame = frame([0; 5]);
    places.iter().for_each(|&place| frame[place] = 1);
    frame
}

#[test]
fn places_of_a_radio_read() {
    let cases: [(&[usize], usize, u32); 11] = [
        (&[0], 1, 0x0000_0006),
        (&[1], 2, 0x0001_0006),
        (&[2], 8, 0x0002_0006),
        (&[0, 1, 2, 511], 3, 0x0000_0006),
        (&[1, 2, 508], 3, 0x0001_0006),
        (&[508], 3, 0x01FC_0007),
        (&[507, 509, 511], 3, 0x01FD_0007),
        (&[511], 4, 0x01FF_0007),
        (&[488, 511], 5, 0x01E8_0007),
        (&[492, 500], 7, 0x01EC_0007),
        (&[507, 508], 8, 0x01FC_0007),
    ];
    for (places, receivers, returned) in cases {
        let got = radio_read(&with_ones(places), receivers);
        assert_eq!(got, returned, "{places:?} of {receivers}");
    }
}

/// Words 1 to 3 with levels above 4,095, alone and in each frame of a transfer, by the numbers of their causes; then
/// with padding that is not 0, and without a byte of sync. Words that carry no level have no cause.
#[test]
fn places_of_levels() {
    let cases = [
        ([0x08, 0x9C, 0x40, 0x00, 0x00], 0x0005_0008),
        ([0x0F, 0x9C, 0x40, 0x9C, 0x40], 0x0005_0008),
        ([0x08, 0x0F, 0xFF, 0x10, 0x00], 0x0006_0008),
        ([0x10, 0x80, 0x00, 0xFF, 0xFF], 0x0007_0008),
        ([0x17, 0x00, 0x00, 0x20, 0x00], 0x0008_0008),
        ([0x18, 0x40, 0x00, 0x0F, 0xFF], 0x0009_0008),
        ([0x1B, 0x0F, 0xFF, 0xFF, 0xFF], 0x000A_0008),
    ];
    for (control, returned) in cases {
        let mut frame = frame(control);
        assert_eq!(radio_read(&frame, 3), returned);
        for frames in 0..8 {
            let mut input = [with_ones(&[]); 8];
            input[frames] = frame;
            let got = transfer(&input.concat(), 3);
            assert_eq!(got, returned | (frames as u32) << 8);
        }
        frame[510] = 1;
        assert_eq!(radio_read(&frame, 3), 0x01FE_0007);
        frame[1] = 0;
        assert_eq!(radio_read(&frame, 3), 0x0001_0006);
    }
    for address in [0, 4, 5, 16, 31] {
        let frame = frame([address << 3, 0xFF, 0xFF, 0xFF, 0xFF]);
        assert_eq!(radio_read(&frame, 3), u32::from(address) << 8);
    }
}

/// The cells of the six levels, 16 to 21: a read takes up to 65,535 in each, and a write up to 4,095.
#[test]
fn cells_of_levels() {
    let call = raw::hpsdr_radio_read;
    for cell in 16..22 {
        for (level, read_gives, write_gives) in [
            (4095, 0, 0),
            (4096, 0, 9),
            (65_535, 0, 9),
            (65_536, 1, 1),
            (u32::MAX, 1, 1),
        ] {
            let mut status = STATUS;
            status[cell] = level;
            let got = read(call, &frame([0; 5]), 3, (150, 25), &status);
            assert_eq!(got, read_gives, "{level} in cell {cell}");
            for word in 0..5 {
                let got = radio_write_of(&status, word, 3, &[0; 150], 25, 512);
                assert_eq!(got, write_gives, "{level} in cell {cell}, word {word}");
            }
        }
    }
}

/// Frame 3 of eight is damaged, and frame 5.
#[test]
fn places_of_a_transfer() {
    let cases: [(&[usize], usize, u32); 6] = [
        (&[0], 1, 0x0000_0306),
        (&[1, 2], 2, 0x0001_0306),
        (&[2, 511], 8, 0x0002_0306),
        (&[509], 3, 0x01FD_0307),
        (&[488, 511], 5, 0x01E8_0307),
        (&[511], 7, 0x01FF_0307),
    ];
    for (places, receivers, returned) in cases {
        let mut frames = [with_ones(&[]); 8];
        frames[3] = with_ones(places);
        frames[5] = with_ones(&[0, 1, 2, 508, 509, 510, 511]);
        let got = transfer(&frames.concat(), receivers);
        assert_eq!(got, returned, "{places:?} of {receivers}");
    }
}

/// Each cause, and then without its third byte of sync, without its last two, and without any.
#[test]
fn places_of_a_host_read() {
    let cases = [
        ([0x00, 0x0C, 0, 0, 0x00], 0x0001_0008),
        ([0x00, 0x0C, 0, 0, 0x03], 0x0001_0008),
        ([0x00, 0x08, 0, 0, 0x03], 0x0002_0008),
        ([0x12, 0x0C, 0, 0, 0x83], 0x0003_0008),
        ([0x14, 0x8C, 0, 0, 0x83], 0x0004_0008),
    ];
    for (control, returned) in cases {
        let mut frame = frame(control);
        assert_eq!(host_read(&frame, 252, &[0; 62]), returned);
        for byte in [2, 1, 0] {
            frame[byte] = 0;
            let returned = (byte as u32) << 16 | 6;
            assert_eq!(host_read(&frame, 252, &[0; 62]), returned);
        }
    }
}

/// Accepted, or refused for what is not in a frame, there is no place, whatever the frame has.
#[test]
fn no_place_of_a_radio_read() {
    let call = raw::hpsdr_radio_read;
    assert_eq!(radio_read(&frame([0; 5]), 3), 0);
    assert_eq!(radio_read(&frame([31 << 3, 0, 0, 0, 0]), 3), 31 << 8);
    for bad in [with_ones(&[1, 510]), with_ones(&[510])] {
        assert_eq!(read(call, &bad, 3, (150, 25), &STATUS[1..]), 1);
        assert_eq!(read(call, &bad, 3, (150, 25), &[2; 26]), 1);
        for receivers in [0, 9, usize::MAX] {
            assert_eq!(read(call, &bad, receivers, (150, 25), &STATUS), 2);
        }
        assert_eq!(read(call, &bad[..511], 3, (150, 25), &STATUS), 3);
        assert_eq!(read(call, &bad.repeat(2), 3, (150, 25), &STATUS), 3);
        assert_eq!(read(call, &bad, 3, (149, 25), &STATUS), 4);
        assert_eq!(read(call, &bad, 3, (150, 24), &STATUS), 4);
    }
}

#[test]
fn no_place_of_a_transfer() {
    let call = raw::hpsdr_radio_read_transfer;
    for frames in 1..=8 {
        let got = transfer(&frame([0; 5]).repeat(frames), 3);
        assert_eq!(got, (frames as u32) << 8);
    }
    for bad in [with_ones(&[1, 510]), with_ones(&[510])] {
        let bad = bad.repeat(2);
        assert_eq!(read(call, &bad, 3, (300, 50), &STATUS[1..]), 1);
        assert_eq!(read(call, &bad, 3, (300, 50), &[2; 26]), 1);
        for receivers in [0, 9, usize::MAX] {
            assert_eq!(read(call, &bad, receivers, (300, 50), &STATUS), 2);
        }
        assert_eq!(read(call, &bad[1..], 3, (300, 50), &STATUS), 3);
        assert_eq!(read(call, &[], 3, (300, 50), &STATUS), 3);
        assert_eq!(read(call, &bad, 3, (299, 50), &STATUS), 4);
        assert_eq!(read(call, &bad, 3, (300, 49), &STATUS), 4);
    }
}

#[test]
fn no_place_of_a_host_read() {
    assert_eq!(host_read(&frame([0; 5]), 252, &[0; 62]), 0);
    let last = frame([0xFE, 0x8C, 0, 0, 0x83]);
    assert_eq!(host_read(&last, 252, &[0; 62]), 127 << 8);
    let reserved = frame([0, 0x0C, 0, 0, 0x03]);
    for bad in [with_ones(&[1]), reserved] {
        assert_eq!(host_read(&bad, 252, &[0; 61]), 1);
        assert_eq!(host_read(&bad, 252, &[2; 62]), 1);
        assert_eq!(host_read(&bad[..511], 252, &[0; 62]), 3);
        assert_eq!(host_read(&bad, 251, &[0; 62]), 4);
    }
}

fn radio_write(word: usize, receivers: usize, iq: &[i32], mic: usize, frame: usize) -> u32 {
    radio_write_of(&STATUS, word, receivers, iq, mic, frame)
}

fn radio_write_of(
    status: &[u32],
    word: usize,
    receivers: usize,
    iq: &[i32],
    mic: usize,
    frame: usize,
) -> u32 {
    let (mic, mut frame) = (vec![0; mic], vec![0; frame]);
    // SAFETY: each pointer and number are those of one slice, and none overlaps another.
    unsafe {
        raw::hpsdr_radio_write(
            status.as_ptr(),
            status.len(),
            word,
            receivers,
            iq.as_ptr(),
            iq.len(),
            mic.as_ptr(),
            mic.len(),
            frame.as_mut_ptr(),
            frame.len(),
        )
    }
}

#[test]
fn no_place_of_a_radio_write() {
    let mut iq = [0; 150];
    assert_eq!(radio_write(4, 3, &iq, 25, 512), 0);
    assert_eq!(radio_write(4, 9, &iq, 25, 512), 2);
    assert_eq!(radio_write(4, 3, &iq, 25, 511), 3);
    assert_eq!(radio_write(4, 3, &iq, 24, 512), 4);
    assert_eq!(radio_write(5, 3, &iq, 25, 512), 9);
    iq[149] = 1 << 23;
    assert_eq!(radio_write(4, 3, &iq, 25, 512), 9);
}

/// Of a fresh host record but for its outputs, with a turn.
fn build(turn: u32, outputs: u32, audio: usize, frame: usize) -> u32 {
    let mut builder = [0; raw::BUILDER_CELLS];
    (builder[7], builder[16], builder[62]) = (outputs, 1, turn);
    let (audio, mut frame) = (vec![0; audio], vec![0; frame]);
    // SAFETY: each pointer and number are those of one slice or array, and none overlaps another.
    unsafe {
        raw::hpsdr_build(
            builder.as_mut_ptr(),
            builder.len(),
            audio.as_ptr(),
            audio.len(),
            frame.as_mut_ptr(),
            frame.len(),
        )
    }
}

#[test]
fn no_place_of_a_build() {
    assert_eq!(build(10, 127, 252, 512), 0);
    assert_eq!(build(11, 127, 252, 512), 1);
    assert_eq!(build(10, 127, 252, 511), 3);
    assert_eq!(build(10, 127, 251, 512), 4);
    assert_eq!(build(10, 128, 252, 512), 9);
}

fn feed(total: u64, piece: &[u8], output: usize) -> u32 {
    let (mut counts, mut held) = ([0, 0, total, total], [0; raw::HELD]);
    let mut output = vec![0; output];
    // SAFETY: each pointer and number are those of one slice or array, and none overlaps another.
    unsafe {
        raw::hpsdr_stream_feed(
            counts.as_mut_ptr(),
            counts.len(),
            held.as_mut_ptr(),
            held.len(),
            piece.as_ptr(),
            piece.len(),
            output.as_mut_ptr(),
            output.len(),
        )
    }
}

/// In bytes that are all 7F a frame begins every 512.
#[test]
fn no_place_of_a_feed() {
    let mut piece = [0x7F; 4097];
    assert_eq!(feed(0, &piece[..2 * 512 + 3], 4096), 2 << 8);
    assert_eq!(feed(0, &piece[..4096], 4096), 7 << 8);
    assert_eq!(feed((1 << 48) + 1, &piece[..3], 4096), 1);
    assert_eq!(feed(0, &piece, 4096), 3);
    assert_eq!(feed(0, &piece[..512], 4095), 4);
    assert_eq!(feed((1 << 48) - 2, &piece[..3], 4096), 5);
    piece[512] = 0;
    assert_eq!(feed(0, &piece[..515], 4096), 0);
}

fn plain_read(input: &[u8], output: usize) -> u64 {
    let mut output = vec![0; output];
    // SAFETY: each pointer and number are those of one slice, and they do not overlap.
    unsafe {
        raw::hpsdr_plain_read(
            input.as_ptr(),
            input.len(),
            output.as_mut_ptr(),
            output.len(),
        )
    }
}

/// In bytes that are all 7F a frame begins every 512; in those without 7F all but 514 are skipped. 65,022 is FD FE.
#[test]
fn counts_of_a_plain_read() {
    let sync = [0x7F; 65_537];
    assert_eq!(plain_read(&[], 0), 0);
    assert_eq!(plain_read(&sync[..514], 514), 0x0202_0000_0000_0000);
    assert_eq!(plain_read(&sync[..515], 515), 0x0003_0000_0000_0100);
    assert_eq!(plain_read(&sync[..65_536], 65_536), 0x0200_0000_0000_7F00);
    assert_eq!(plain_read(&[0; 515], 600), 0x0202_0001_0000_0000);
    assert_eq!(plain_read(&[0; 65_536], 65_536), 0x0202_FDFE_0000_0000);
    assert_eq!(plain_read(&sync, 65_537), 3);
    assert_eq!(plain_read(&sync, 0), 3);
    assert_eq!(plain_read(&sync[..515], 514), 4);
}

fn why_byte(input: &[u8], place: usize) -> u64 {
    // SAFETY: the pointer and the number are those of one slice.
    unsafe { raw::hpsdr_why_byte(input.as_ptr(), input.len(), place) }
}

/// In bytes that are all 7F a frame begins every 512, the last at 64,512, which is FC 00. Then with one of the bytes 512 to
/// 514 at 0: it is one of the far sync of place 0, and of the near sync of the places up to it.
#[test]
fn details_of_a_reason() {
    let sync = [0x7F; 65_537];
    assert_eq!(why_byte(&sync[..515], 0), 0x0000_0000_0000_0100);
    assert_eq!(why_byte(&sync[..515], 514), 0x0000_0000_0000_0400);
    assert_eq!(why_byte(&sync[..65_536], 65_023), 0x0000_FC00_0000_0100);
    assert_eq!(why_byte(&sync[..65_536], 65_535), 0x0000_0000_0000_0400);
    for byte in 0..3 {
        let mut wrong = sync;
        wrong[512 + byte] = 0;
        let detail = (byte as u64) << 32;
        assert_eq!(why_byte(&wrong[..515], 0), detail | 0x0300);
        assert_eq!(why_byte(&wrong[512..][..515], 0), detail | 0x0200);
    }
    assert_eq!(why_byte(&sync, 0), 3);
    assert_eq!(why_byte(&sync, 65_537), 3);
    assert_eq!(why_byte(&sync[..65_536], 65_536), 9);
    assert_eq!(why_byte(&[], 0), 9);
}

#[test]
fn no_place_of_a_layout() {
    let mut row = [0; raw::ROW_CELLS];
    for (receivers, returned) in [(0, 2), (1, 0), (8, 0), (9, 2)] {
        // SAFETY: the pointer and the number are those of one array.
        let got = unsafe { raw::hpsdr_layout(receivers, row.as_mut_ptr(), row.len()) };
        assert_eq!(got, returned);
    }
}
