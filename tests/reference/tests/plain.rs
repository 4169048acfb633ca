//! The plain reader, on inputs whose reading was worked out by hand.

mod common;

use common::*;
use reference::*;

#[test]
fn fewer_than_515_bytes_are_left() {
    for length in [0, 1, 2, 3, 511, 512, 513, 514] {
        let bytes = vec![0x7F; length];
        assert_eq!(read_at_once(&bytes), (vec![], 0, bytes));
    }
}

#[test]
fn an_output_of_just_the_inputs_length_is_enough() {
    let (input, mut output) = ([0x7F; 515], [0xEE; 515]);
    let reading = PlainReading {
        frames: 1,
        skipped: 0,
        left: 3,
    };
    assert_eq!(plain_read(&input, &mut output), Ok(reading));
    assert_eq!(output[..512], input[..512]);
    assert_eq!(output[512..], [0xEE; 3]);
    let nothing = PlainReading {
        frames: 0,
        skipped: 0,
        left: 0,
    };
    assert_eq!(plain_read(&[], &mut []), Ok(nothing));
}

#[test]
fn each_of_six_bytes_is_tested_and_no_other() {
    let good = [filled(11), SYNC.to_vec()].concat();
    for place in 0..515 {
        for wrong in [0x7E, 0xFF, 0x3F] {
            let mut bytes = good.clone();
            bytes[place] = wrong;
            let expected = match place {
                0..=2 | 512..=514 => (vec![], 1, bytes[1..].to_vec()),
                _ => (bytes[..512].to_vec(), 0, SYNC.to_vec()),
            };
            assert!(read_at_once(&bytes) == expected, "{wrong:02X} at {place}");
        }
    }
}

#[test]
fn frames_stand_one_after_another_and_the_last_needs_sync_behind_it() {
    let bytes = [&filled(11)[..], &filled(22), &filled(33), &SYNC].concat();
    for length in 515..=1539 {
        let bytes = &bytes[..length];
        let frames = (length - 3) / 512;
        let (handed_out, left) = bytes.split_at(512 * frames);
        let expected = (handed_out.to_vec(), 0, left.to_vec());
        assert!(read_at_once(bytes) == expected, "{length} bytes");
    }
}

#[test]
fn damage_between_frames_is_skipped_byte_by_byte() {
    // The first frame is good by the sync that the damage begins with.
    let damage = [&SYNC[..], &[1, 2, 0x7F, 0x7F, 4]].concat();
    let bytes = [&filled(11)[..], &damage, &filled(22), &filled(33), &SYNC].concat();
    let frames = [filled(11), filled(22), filled(33)].concat();
    assert_eq!(read_at_once(&bytes), (frames, 8, SYNC.to_vec()));
    // Without it the first frame is skipped too: 512 and 8.
    let mut lost = bytes;
    lost[512] = 0;
    let frames = [filled(22), filled(33)].concat();
    assert_eq!(read_at_once(&lost), (frames, 520, SYNC.to_vec()));
}

#[test]
fn a_good_frame_inside_one_handed_out_is_passed_by() {
    // Sync at 0, 100, 512 and 612: the reading goes on at 512, where 103 bytes remain.
    let mut bytes = [filled(11), filled(22)].concat();
    bytes[100..103].copy_from_slice(&SYNC);
    bytes[612..615].copy_from_slice(&SYNC);
    let expected = (bytes[..512].to_vec(), 0, bytes[512..615].to_vec());
    assert_eq!(read_at_once(&bytes[..615]), expected);
}

#[test]
fn in_bytes_of_7f_every_place_begins_a_good_frame() {
    // The last place read has at least 515 bytes: 65,024 is 127 times 512, and 514 are too few.
    for (length, frames) in [
        (515, 1),
        (1026, 1),
        (1027, 2),
        (65_026, 126),
        (65_027, 127),
        (65_536, 127),
    ] {
        let bytes = vec![0x7F; length];
        let (handed_out, left) = bytes.split_at(512 * frames);
        assert!(read_at_once(&bytes) == (handed_out.to_vec(), 0, left.to_vec()));
    }
}

#[test]
fn the_longest_input_has_65_536_bytes() {
    // All but 514 are skipped.
    let bytes = vec![0; INPUT_MOST + 1];
    assert_eq!(bytes.len(), 65_537);
    let expected = (vec![], 65_022, vec![0; 514]);
    assert_eq!(read_at_once(&bytes[..65_536]), expected);
    let refused = plain_read(&bytes, &mut vec![0; 65_537]);
    assert_eq!(refused, Err(Refusal::Length));
}
