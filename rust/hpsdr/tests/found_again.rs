//! What is found again after a false match (T-13), in an input of any content: where a place begins a good frame and none
//! of the up to 511 places before it does, that frame is handed out, and so is each good frame that follows directly.

mod common;
#[path = "common/pieces.rs"]
mod pieces;
#[path = "common/recording.rs"]
mod recording;

use hpsdr::{read_at_once, FRAME, INPUT_MOST};
use pieces::{read_in_pieces, CUTTINGS};
use recording::{numbered, recording};

/// The frames of an input, and how many bytes are skipped and left.
#[derive(Debug, PartialEq)]
struct Reading {
    frames: Vec<u8>,
    skipped: usize,
    left: usize,
}

fn at_once(input: &[u8]) -> Reading {
    let mut frames = vec![0xEE; input.len()];
    let reading = read_at_once(input, &mut frames).unwrap();
    frames.truncate(FRAME * reading.frames);
    Reading {
        frames,
        skipped: reading.skipped,
        left: reading.left,
    }
}

fn in_pieces(input: &[u8], sizes: &[usize]) -> Reading {
    let (frames, stream) = read_in_pieces(input, sizes);
    Reading {
        frames,
        skipped: stream.counts.skipped as usize,
        left: stream.counts.held as usize,
    }
}

fn has_sync(input: &[u8], place: usize) -> bool {
    input.get(place..place + 3) == Some(&[0x7F; 3])
}

fn begins_good(input: &[u8], place: usize) -> bool {
    has_sync(input, place) && has_sync(input, place + FRAME)
}

fn good_places(input: &[u8]) -> Vec<usize> {
    let places = 0..input.len();
    places.filter(|&place| begins_good(input, place)).collect()
}

/// Those that begin a good frame, with none among the up to 511 places before them.
fn clear_places(input: &[u8]) -> Vec<usize> {
    let good = good_places(input);
    let clear = |place: usize| !good.iter().any(|&q| q < place && place - q <= 511);
    good.iter().copied().filter(|&place| clear(place)).collect()
}

/// The promise at one clear place, of what a reader hands out of the whole input. Which frame it is the reading of the
/// bytes up to 514 behind the place tells: it comes just to the place.
fn found_at(input: &[u8], place: usize, whole: &Reading, read: &impl Fn(&[u8]) -> Reading) {
    let before = read(&input[..place + 514]);
    let number = before.frames.len() / FRAME;
    assert_eq!(before.skipped + FRAME * number, place, "comes to it");
    assert_eq!(before.left, 514, "from {place} on");
    assert!(whole.frames.starts_with(&before.frames), "before {place}");
    let row = (place..).step_by(FRAME);
    for (number, place) in (number..).zip(row.take_while(|&place| begins_good(input, place))) {
        let frame = whole.frames.get(FRAME * number..FRAME * (number + 1));
        assert_eq!(frame, Some(&input[place..place + FRAME]), "at {place}");
    }
}

/// At every clear place.
fn all_found(input: &[u8], read: impl Fn(&[u8]) -> Reading) {
    let whole = read(input);
    for place in clear_places(input) {
        found_at(input, place, &whole, &read);
    }
}

/// Where the first of the true frames stands in an imitation's input.
const TRUE: usize = 2 * FRAME + DAMAGED;
const DAMAGED: usize = 1100;

/// Frames 1 and 2; 1,100 damaged bytes that begin with sync, so that frame 2 is good; frames 3 to 5 and sync. So many
/// places before frame 3 a good frame is imitated.
fn imitated(distance: usize) -> Vec<u8> {
    let mut damaged = [0x11; DAMAGED];
    damaged[..3].fill(0x7F);
    let parts: [&[u8]; 4] = [
        &[1, 2].map(numbered).concat(),
        &damaged,
        &[3, 4, 5].map(numbered).concat(),
        &[0x7F; 3],
    ];
    let mut input = parts.concat();
    for place in [TRUE - distance, TRUE - distance + FRAME] {
        input[place..place + 3].fill(0x7F);
    }
    input
}

/// The false frame, at q, is handed out, and the reading goes on 512 later. Up to a distance of 511 that is inside frame 3,
/// which is lost: the 1,100 less the distance are skipped before q, and as many as the distance behind it. At 512 it is
/// frame 3's place, and 588 are skipped before q.
fn due(input: &[u8], distance: usize) -> Reading {
    let place = TRUE - distance;
    let found = if distance <= 511 { TRUE + FRAME } else { TRUE };
    let parts = [
        &input[..2 * FRAME],
        &input[place..place + FRAME],
        &input[found..TRUE + 3 * FRAME],
    ];
    Reading {
        frames: parts.concat(),
        skipped: if distance <= 511 { 1100 } else { 588 },
        left: 3,
    }
}

/// The distances at which frame 3 is not handed out.
fn lost(read: impl Fn(&[u8], usize) -> Reading) -> Vec<usize> {
    let is_lost = |&distance: &usize| {
        let input = imitated(distance);
        let reading = read(&input, distance);
        let mut frames = reading.frames.chunks(FRAME);
        !frames.any(|frame| frame == &input[TRUE..TRUE + FRAME])
    };
    (1..=512).filter(is_lost).collect()
}

/// Frames 1 and 2 are clear, and so are the false one, and frames 4 and 5: before each stands a good one just 512 places
/// before, or none. Frame 3 is clear where the false one is 512 before it.
#[test]
fn clear_in_an_imitation() {
    for distance in 1..=512 {
        let input = imitated(distance);
        let place = TRUE - distance;
        assert!(begins_good(&input, place) && begins_good(&input, TRUE));
        let mut clear = vec![0, 512, place, TRUE + 512, TRUE + 1024];
        if distance == 512 {
            clear.insert(3, TRUE);
        }
        assert_eq!(clear_places(&input), clear, "distance {distance}");
    }
}

#[test]
fn after_an_imitation_at_once() {
    for distance in 1..=512 {
        let input = imitated(distance);
        assert_eq!(at_once(&input), due(&input, distance), "{distance}");
        all_found(&input, at_once);
    }
    let up_to_511: Vec<usize> = (1..=511).collect();
    assert_eq!(lost(|input, _| at_once(input)), up_to_511);
}

/// The longer pieces in their turn, and all cuttings at some distances.
#[test]
fn after_an_imitation_in_pieces() {
    let longer = &CUTTINGS[4..];
    let in_turn = |distance: usize| longer[distance % longer.len()];
    let check = |distance: usize, sizes: &[usize]| {
        let input = imitated(distance);
        let fed = in_pieces(&input, sizes);
        assert_eq!(fed, due(&input, distance), "{distance}, {sizes:?}");
        all_found(&input, |input| in_pieces(input, sizes));
    };
    (1..=512).for_each(|distance| check(distance, in_turn(distance)));
    for distance in [1, 2, 256, 511, 512] {
        CUTTINGS.iter().for_each(|sizes| check(distance, sizes));
    }
    let up_to_511: Vec<usize> = (1..=511).collect();
    let lost = lost(|input, distance| in_pieces(input, in_turn(distance)));
    assert_eq!(lost, up_to_511);
}

/// A 7F before a frame that ends with 7F is a false match at distance 1, and again from frame to frame while they end so:
/// frames 1 and 2 are lost, and frames 3 and 4 found.
#[test]
fn frames_that_end_with_sync() {
    let mut frames = [1, 2, 3, 4].map(numbered);
    frames[0][511] = 0x7F;
    frames[1][511] = 0x7F;
    let input = [&[0x7F], frames.concat().as_slice(), &[0x7F; 3]].concat();
    assert_eq!(clear_places(&input), [0, 1025, 1537]);
    let due = Reading {
        frames: [&input[..1024], &input[1025..2049]].concat(),
        skipped: 1,
        left: 3,
    };
    assert_eq!(at_once(&input), due);
    all_found(&input, at_once);
    for sizes in CUTTINGS {
        assert_eq!(in_pieces(&input, sizes), due, "pieces of {sizes:?}");
        all_found(&input, |input| in_pieces(input, sizes));
    }
}

/// A damaged recording without a false match: every good frame is clear. The 40 and the 300 bytes stand before 552 and 1876.
#[test]
fn in_a_damaged_recording() {
    let input = recording();
    assert_eq!(clear_places(&input), [0, 552, 1064, 1876, 2388, 2900]);
    assert_eq!(at_once(&input).frames.len(), 6 * FRAME);
    all_found(&input, at_once);
    for sizes in CUTTINGS {
        all_found(&input, |input| in_pieces(input, sizes));
    }
}

/// The longest input, with rows of one to three good frames at places without order, many of them inside others.
fn without_order() -> Vec<u8> {
    let mut input: Vec<u8> = (0..INPUT_MOST).map(|at| (at % 113) as u8).collect();
    for number in 0..100 {
        let place = 7919 * number * number % (INPUT_MOST - 3 * FRAME - 3);
        for place in (place..).step_by(FRAME).take(2 + number % 3) {
            input[place..place + 3].fill(0x7F);
        }
    }
    input
}

/// Some good frames are clear, some are not and are handed out all the same, and some are lost.
#[test]
fn good_frames_without_order() {
    let input = without_order();
    let (good, clear) = (good_places(&input), clear_places(&input));
    let whole = at_once(&input);
    let handed_out = whole.frames.len() / FRAME;
    assert!(10 < clear.len() && clear.len() < handed_out && handed_out < good.len());
    assert!(clear.iter().any(|place| good.contains(&(place + FRAME))));
    all_found(&input, at_once);
    all_found(&input, |input| in_pieces(input, &[4096, 1, 513]));
    for sizes in CUTTINGS {
        assert_eq!(in_pieces(&input, sizes), whole, "pieces of {sizes:?}");
    }
}
