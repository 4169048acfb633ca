//! Why a byte was thrown out: by document 01's rule, and held against the plain reader.

mod common;
#[path = "common/noise.rs"]
mod noise;
#[path = "common/recording.rs"]
mod recording;

use hpsdr::{explain, read_at_once, Reason, FRAME, INPUT_MOST};
use noise::mostly_sync;
use recording::{numbered, recording};
use std::collections::HashSet;

const SYNC: [u8; 3] = [0x7F; 3];

const fn inside(start: usize) -> Reason {
    Reason::Inside { start }
}

const fn near(byte: u8) -> Reason {
    Reason::NearSync { byte }
}

const fn far(byte: u8) -> Reason {
    Reason::FarSync { byte }
}

/// The reason of each of these places.
fn gives(input: &[u8], reasons: &[(usize, Reason)]) {
    for &(place, reason) in reasons {
        assert_eq!(explain(input, place), Ok(reason), "place {place}");
    }
}

/// 515 bytes with sync at 0 and 512, but for these.
fn window_without(places: &[usize]) -> [u8; 515] {
    let mut window = [0x11; 515];
    window[..3].fill(0x7F);
    window[512..].fill(0x7F);
    places.iter().for_each(|&place| window[place] = 0x7E);
    window
}

/// Rows j, k and l of document 01, and one byte.
#[test]
fn rows() {
    gives(&[0x7F], &[(0, Reason::Held)]);
    let row_k = window_without(&[]);
    gives(&row_k[..514], &[(0, Reason::Held), (513, Reason::Held)]);
    gives(&row_k, &[(0, inside(0)), (511, inside(0))]);
    gives(&row_k, &[(512, Reason::Held), (514, Reason::Held)]);
    let row_l = window_without(&[512, 513, 514]);
    gives(&row_l, &[(0, far(0)), (1, Reason::Held)]);
}

/// Each byte of the two syncs alone, and two or more of them: the near ones first, and of these the first.
#[test]
fn the_first_wrong_byte() {
    let cases: [(&[usize], Reason); 11] = [
        (&[0], near(0)),
        (&[1], near(1)),
        (&[2], near(2)),
        (&[512], far(0)),
        (&[513], far(1)),
        (&[514], far(2)),
        (&[0, 1, 2, 512, 513, 514], near(0)),
        (&[1, 2], near(1)),
        (&[2, 512], near(2)),
        (&[512, 514], far(0)),
        (&[513, 514], far(1)),
    ];
    for (places, reason) in cases {
        let window = window_without(places);
        gives(&window, &[(0, reason), (1, Reason::Held)]);
    }
}

/// Place 0 has 7F 7F 7F, and 512 bytes later stands the frame's last byte: it is 1, or 7F.
#[test]
fn stray_sync_byte_before_a_frame() {
    let mut bytes = [&[0x7F], numbered(1).as_slice(), &SYNC].concat();
    gives(&bytes, &[(0, far(0)), (1, inside(1)), (512, inside(1))]);
    gives(&bytes, &[(513, Reason::Held)]);
    bytes[512] = 0x7F;
    gives(&bytes, &[(0, inside(0)), (511, inside(0))]);
    gives(&bytes, &[(512, Reason::Held)]);
}

/// The 40 bytes begin at 512 and have sync at their 0 and 20; the 300 begin at 1,576, with sync. 512 bytes after each of
/// the three are sample bytes.
#[test]
fn a_damaged_recording() {
    let bytes = recording();
    gives(&bytes, &[(0, inside(0)), (511, inside(0))]);
    gives(&bytes, &[(512, far(0)), (513, near(2)), (514, near(1))]);
    gives(&bytes, &[(515, near(0)), (530, near(0)), (531, near(0))]);
    gives(&bytes, &[(532, far(0)), (533, near(2)), (551, near(0))]);
    for start in [552, 1064, 1876, 2388, 2900] {
        let both = [start, start + 511];
        gives(&bytes, &both.map(|place| (place, inside(start))));
    }
    gives(&bytes, &[(1576, far(0)), (1577, near(2)), (1875, near(0))]);
    gives(&bytes, &[(3412, Reason::Held), (3414, Reason::Held)]);
}

/// 128 frames, of which the last has no sync after it; and without their first byte.
#[test]
fn the_longest_input() {
    let input = (128..=255).flat_map(numbered).collect::<Vec<_>>();
    assert_eq!(input.len(), INPUT_MOST);
    for start in (0..127).map(|number| 512 * number) {
        let both = [start, start + 511];
        gives(&input, &both.map(|place| (place, inside(start))));
    }
    gives(&input, &[(65_024, Reason::Held), (65_535, Reason::Held)]);
    gives(&input[1..], &[(0, near(2)), (1, near(1)), (510, near(0))]);
    gives(&input[1..], &[(511, inside(511)), (1022, inside(511))]);
    let zeros = [0; INPUT_MOST];
    gives(&zeros, &[(0, near(0)), (65_021, near(0))]);
    gives(&zeros, &[(65_022, Reason::Held), (65_535, Reason::Held)]);
}

/// The first of three bytes that is not 7F.
fn first_wrong(bytes: &[u8]) -> Option<u8> {
    (0..3).find(|&byte| bytes[usize::from(byte)] != 0x7F)
}

/// The reasons of all places, each held to document 01's rule; and that they add up to the plain reader's counts.
fn by_the_rule(input: &[u8]) -> HashSet<Reason> {
    let reasons = (0..input.len()).map(|place| explain(input, place).unwrap());
    let reasons: Vec<_> = reasons.collect();
    let mut place = 0;
    while input.len() - place >= 515 {
        let (due, step) = match (
            first_wrong(&input[place..]),
            first_wrong(&input[place + 512..]),
        ) {
            (None, None) => (inside(place), FRAME),
            (None, Some(byte)) => (far(byte), 1),
            (Some(byte), _) => (near(byte), 1),
        };
        assert_eq!(reasons[place..place + step], vec![due; step]);
        place += step;
    }
    assert_eq!(reasons[place..], vec![Reason::Held; input.len() - place]);
    let reading = read_at_once(input, &mut vec![0; input.len()]).unwrap();
    let count = |is: fn(&&Reason) -> bool| reasons.iter().filter(is).count();
    let in_frames = count(|reason| matches!(reason, Reason::Inside { .. }));
    let held = count(|&&reason| reason == Reason::Held);
    assert_eq!((in_frames, held), (FRAME * reading.frames, reading.left));
    assert_eq!(reasons.len() - in_frames - held, reading.skipped);
    reasons.into_iter().collect()
}

/// In noise each byte of each sync is told, and frames at more places than a few.
#[test]
fn every_place_of_noise() {
    let noise = mostly_sync(INPUT_MOST);
    let told = by_the_rule(&noise);
    for byte in 0..3 {
        assert!(told.contains(&near(byte)) && told.contains(&far(byte)));
    }
    assert!(told.len() > 50, "{} reasons", told.len());
    by_the_rule(&recording());
    for length in (0..2200).step_by(110) {
        by_the_rule(&noise[length..2 * length]);
    }
}

fn says(reason: Reason, text: &str) {
    assert_eq!(reason.to_string(), text);
}

#[test]
fn texts() {
    let frame = "inside the frame handed out that begins at byte";
    says(inside(0), &format!("{frame} 0"));
    says(inside(1024), &format!("{frame} 1024"));
    for byte in 0..3 {
        let skipped = format!("skipped: byte {byte} of the sync");
        says(near(byte), &format!("{skipped} at this place is not 7F"));
        says(far(byte), &format!("{skipped} 512 bytes later is not 7F"));
    }
    says(Reason::Held, "still held");
}
