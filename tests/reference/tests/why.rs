//! Why a byte was thrown out, or where it went, on inputs whose reading was
//! worked out by hand.

mod common;

use common::*;
use reference::Reason::*;
use reference::*;

/// Asks of every place; gives the runs of places that have the same reason.
fn reasons(bytes: &[u8]) -> Vec<(Reason, usize)> {
    let mut runs: Vec<(Reason, usize)> = Vec::new();
    for place in 0..bytes.len() {
        let reason = explain(bytes, place).unwrap();
        match runs.last_mut() {
            Some((last, count)) if *last == reason => *count += 1,
            _ => runs.push((reason, 1)),
        }
    }
    runs
}

const NEAR: [Reason; 3] = [
    NearSync { byte: 0 },
    NearSync { byte: 1 },
    NearSync { byte: 2 },
];
const FAR: [Reason; 3] = [
    FarSync { byte: 0 },
    FarSync { byte: 1 },
    FarSync { byte: 2 },
];

fn inside(start: usize) -> Reason {
    Inside { start }
}

/// A frame, good by the sync after it.
fn good() -> Vec<u8> {
    [filled(11), SYNC.to_vec()].concat()
}

#[test]
fn fewer_than_515_bytes_are_held() {
    for length in [1, 2, 3, 511, 512, 513, 514] {
        assert_eq!(reasons(&vec![0x7F; length]), [(Held, length)]);
        assert_eq!(reasons(&vec![0; length]), [(Held, length)]);
    }
}

#[test]
fn of_515_bytes_the_first_is_settled() {
    assert_eq!(reasons(&good()), [(inside(0), 512), (Held, 3)]);
    assert_eq!(reasons(&filled(11)[..]), [(Held, 512)]);
    assert_eq!(reasons(&[0; 515]), [(NEAR[0], 1), (Held, 514)]);
    assert_eq!(reasons(&[0; 516]), [(NEAR[0], 2), (Held, 514)]);
}

#[test]
fn the_first_wrong_byte_of_both_syncs_is_named() {
    let tested = [0, 1, 2, 512, 513, 514];
    let names = [NEAR, FAR].concat();
    for set in 1..64_usize {
        for wrong in [0x7E, 0xFF, 0x3F, 0] {
            let mut bytes = good();
            let chosen = (0..6).filter(|i| set >> i & 1 == 1);
            chosen.for_each(|i| bytes[tested[i]] = wrong);
            let first = names[set.trailing_zeros() as usize];
            let expected = [(first, 1), (Held, 514)];
            assert_eq!(reasons(&bytes), expected, "{wrong:02X}, {set:b}");
        }
    }
}

#[test]
fn no_other_byte_is_tested() {
    for place in 3..512 {
        let mut bytes = good();
        bytes[place] = 0x7E;
        assert_eq!(explain(&bytes, 0), Ok(inside(0)), "7E at {place}");
    }
}

#[test]
fn frames_in_a_row_are_told_apart() {
    let bytes = [&filled(11)[..], &filled(22), &filled(33), &SYNC].concat();
    let frames = [(inside(0), 512), (inside(512), 512), (inside(1024), 512)];
    assert_eq!(reasons(&bytes), [&frames[..], &[(Held, 3)]].concat());
    // One byte short, the last frame is held; so it is without all of that sync.
    let expected = [&frames[..2], &[(Held, 514)]].concat();
    assert_eq!(reasons(&bytes[..1538]), expected);
    let expected = [&frames[..2], &[(Held, 512)]].concat();
    assert_eq!(reasons(&bytes[..1536]), expected);
}

#[test]
fn bytes_before_a_frame_are_skipped_one_by_one() {
    let bytes = [&[1, 0x7F, 0x7F, 2, 0x7F], &good()[..]].concat();
    let expected = [
        (NEAR[0], 1), // 01
        (NEAR[2], 1), // 7F 7F 02
        (NEAR[1], 1), // 7F 02
        (NEAR[0], 1), // 02
        (FAR[0], 1),  // 7F 7F 7F, and 512 bytes later the frame's last byte, 11
        (inside(5), 512),
        (Held, 3),
    ];
    assert_eq!(reasons(&bytes), expected);
}

#[test]
fn damage_between_frames_is_told_byte_by_byte() {
    let damage = [&SYNC[..], &[1, 2, 0x7F, 0x7F, 4]].concat();
    let bytes = [&filled(11)[..], &damage, &filled(22), &filled(33), &SYNC].concat();
    let skipped = [
        (FAR[0], 1),  // 1024 is inside the second frame
        (NEAR[2], 1), // 7F 7F 01
        (NEAR[1], 1),
        (NEAR[0], 2), // 01 and 02
        (NEAR[2], 1), // 7F 7F 04
        (NEAR[1], 1),
        (NEAR[0], 1),
    ];
    let after = [(inside(520), 512), (inside(1032), 512), (Held, 3)];
    let expected = [&[(inside(0), 512)], &skipped[..], &after].concat();
    assert_eq!(reasons(&bytes), expected);
    // Without the sync that the damage begins with, the first frame is skipped too: its sync by
    // the byte that is wrong 512 bytes later.
    for (wrong, far) in [(512, FAR[0]), (513, FAR[1]), (514, FAR[2])] {
        let mut lost = bytes.clone();
        lost[wrong] = 0;
        assert_eq!(explain(&lost, 0), Ok(far));
        let near = [1, 2, 3, 511].map(|place| explain(&lost, place));
        assert_eq!(near, [NEAR[2], NEAR[1], NEAR[0], NEAR[0]].map(Ok));
        assert_eq!(explain(&lost, wrong), Ok(NEAR[0]));
        assert_eq!(explain(&lost, 520), Ok(inside(520)));
    }
}

#[test]
fn a_good_frame_inside_one_handed_out_has_that_ones_start() {
    // Sync at 0, 100, 512 and 612: the reading goes on at 512, where 103 bytes remain.
    let mut bytes = [filled(11), filled(22)].concat();
    bytes[100..103].copy_from_slice(&SYNC);
    bytes[612..615].copy_from_slice(&SYNC);
    assert_eq!(reasons(&bytes[..615]), [(inside(0), 512), (Held, 103)]);
}

#[test]
fn a_good_frame_is_lost_to_a_false_one() {
    // A stray 7F, and the first frame ends with 7F: 0 begins a good frame, which ends before that
    // byte. There sync stands, and 512 bytes later is the second frame's last byte.
    let mut first = filled(11);
    first[511] = 0x7F;
    let bytes = [&[0x7F], &first[..], &filled(22), &filled(33), &SYNC].concat();
    let expected = [
        (inside(0), 512),
        (FAR[0], 1),
        (inside(513), 512),
        (inside(1025), 512),
        (Held, 3),
    ];
    assert_eq!(reasons(&bytes), expected);
}

#[test]
fn held_bytes_are_not_looked_at() {
    // Sync stands at 512, 513 and 514 of 1026 bytes, and 514 and fewer remain.
    let mut bytes = vec![0; 1026];
    bytes[512..517].fill(0x7F);
    assert_eq!(reasons(&bytes), [(NEAR[0], 512), (Held, 514)]);
    // With one byte more there is one to look at: 512, and 512 bytes later is a 0.
    bytes.push(0);
    let expected = [(NEAR[0], 512), (FAR[0], 1), (Held, 514)];
    assert_eq!(reasons(&bytes), expected);
}

#[test]
fn in_bytes_of_7f_every_frame_begins_at_a_multiple_of_512() {
    // 65,024 is 127 times 512, and 512 bytes are too few.
    let bytes = vec![0x7F; 65_536];
    for (place, start) in [(0, 0), (511, 0), (512, 512), (1023, 512), (65_023, 64_512)] {
        assert_eq!(explain(&bytes, place), Ok(inside(start)));
    }
    for place in [65_024, 65_025, 65_535] {
        assert_eq!(explain(&bytes, place), Ok(Held));
    }
}

#[test]
fn the_longest_input_has_65_536_bytes() {
    // The last place with 515 bytes is 65,021.
    let bytes = vec![0; 65_537];
    for place in [0, 1, 65_020, 65_021] {
        assert_eq!(explain(&bytes[..65_536], place), Ok(NEAR[0]));
    }
    for place in [65_022, 65_535] {
        assert_eq!(explain(&bytes[..65_536], place), Ok(Held));
    }
    assert_eq!(explain(&bytes[..65_536], 65_536), Err(Refusal::Range));
    for place in [0, 65_536, 65_537, usize::MAX] {
        assert_eq!(explain(&bytes, place), Err(Refusal::Length));
    }
}

#[test]
fn no_byte_has_no_reason() {
    for place in [0, 1, 514, 1 << 63, usize::MAX] {
        assert_eq!(explain(&[], place), Err(Refusal::Range));
    }
}

#[test]
fn the_reasons_add_up_to_the_plain_readers_counts() {
    let mut noise = Noise(7);
    for _ in 0..40 {
        let mut bytes = noise.bytes(2_000);
        for _ in 0..noise.below(12) {
            let near = noise.below(2_000 - 514);
            for place in [near, near + 512] {
                bytes[place..place + 3].copy_from_slice(&SYNC);
            }
        }
        let (frames, skipped, left) = read_at_once(&bytes);
        let mut counts = [0; 3];
        for (reason, count) in reasons(&bytes) {
            let kind = match reason {
                Inside { .. } => 0,
                NearSync { .. } | FarSync { .. } => 1,
                Held => 2,
            };
            counts[kind] += count;
        }
        assert_eq!(counts, [frames.len(), skipped as usize, left.len()]);
    }
}
