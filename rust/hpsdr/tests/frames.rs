//! The frames of a reader, however it gives its bytes.

mod common;
#[path = "common/noise.rs"]
mod noise;
#[path = "common/recording.rs"]
mod recording;

use hpsdr::{frames, Counts, Frames, Samples, Status, Stream, FRAME, OUTPUT_LEAST, PIECE_MOST};
use noise::mostly_sync;
use recording::{numbered, recording};
use std::io::{self, ErrorKind, Read};
use std::iter::Cycle;
use std::slice::Iter;

const SYNC: [u8; 3] = [0x7F; 3];

/// What a read gives: up to so many bytes, or an error.
type Step = Result<usize, ErrorKind>;

/// A reader that takes its steps again and again.
struct Steps<'a> {
    rest: &'a [u8],
    steps: Cycle<Iter<'a, Step>>,
}

impl Read for Steps<'_> {
    fn read(&mut self, to: &mut [u8]) -> io::Result<usize> {
        let most = (*self.steps.next().unwrap())?.min(to.len());
        self.rest.read(&mut to[..most])
    }
}

fn in_steps<'a>(rest: &'a [u8], steps: &'a [Step]) -> Frames<Steps<'a>> {
    let steps = steps.iter().cycle();
    frames(Steps { rest, steps })
}

const INTERRUPTED: Step = Err(ErrorKind::Interrupted);

const WAYS: [&[Step]; 10] = [
    &[Ok(usize::MAX)],
    &[Ok(1)],
    &[Ok(3), Ok(1)],
    &[Ok(511)],
    &[Ok(512)],
    &[Ok(513)],
    &[Ok(514), Ok(513)],
    &[Ok(1000), INTERRUPTED],
    &[INTERRUPTED, Ok(1)],
    &[INTERRUPTED, INTERRUPTED, Ok(515), INTERRUPTED, Ok(70_000)],
];

/// Frame, place and skipped, as they are directly after each frame.
fn listed(frames: &mut Frames<impl Read>) -> Vec<([u8; FRAME], u64, u64)> {
    let mut list = Vec::new();
    while let Some(frame) = frames.next() {
        let (place, counts) = (frames.place().unwrap(), frames.counts());
        list.push((frame.unwrap(), place, counts.skipped));
        assert_eq!(counts.frames, list.len() as u64);
        assert_eq!(counts.total, place + 512 + counts.held);
        assert!(counts.held <= 514);
    }
    list
}

/// 40 bytes are skipped before frame 2, and 300 before frame 4.
#[test]
fn frames_and_places_of_a_damaged_recording() {
    let recording = recording();
    let expected = [
        (numbered(1), 0, 0),
        (numbered(2), 552, 40),
        (numbered(3), 1064, 40),
        (numbered(4), 1876, 340),
        (numbered(5), 2388, 340),
        (numbered(6), 2900, 340),
    ];
    let counts = Counts {
        held: 3,
        frames: 6,
        skipped: 340,
        total: 3415,
    };
    for steps in WAYS {
        let mut frames = in_steps(&recording, steps);
        assert_eq!(listed(&mut frames), expected, "{steps:?}");
        assert_eq!(frames.counts(), counts);
        assert_eq!(frames.place(), Some(2900));
    }
}

/// The frames of the bytes, and the counts, by `Stream::feed`.
fn fed_by_hand(bytes: &[u8]) -> (Vec<u8>, Counts) {
    let (mut stream, mut output) = (Stream::fresh(), [0; OUTPUT_LEAST]);
    let mut frames = Vec::new();
    for piece in bytes.chunks(PIECE_MOST) {
        let found = stream.feed(piece, &mut output).unwrap();
        frames.extend_from_slice(&output[..FRAME * found]);
    }
    (frames, stream.counts)
}

#[test]
fn as_fed_by_hand() {
    // More than one block of 64 KiB, both.
    let recordings = [recording().repeat(50), mostly_sync(200_000)];
    for bytes in &recordings {
        let (by_hand, counts) = fed_by_hand(bytes);
        assert!(counts.frames > 200 && counts.skipped > 200);
        for steps in WAYS {
            let mut frames = in_steps(bytes, steps);
            let list = listed(&mut frames);
            assert!(list.iter().flat_map(|(frame, ..)| frame).eq(&by_hand));
            assert_eq!(frames.counts(), counts, "{steps:?}");
            for (frame, place, _) in list {
                let place = place as usize;
                assert!(frame == bytes[place..place + FRAME], "{place}");
            }
        }
    }
}

/// Of the 603 bytes after the frame 514 are held in the end. The others are skipped, and none of them before the frame is
/// handed out.
#[test]
fn skipped_after_the_last_frame() {
    let recording = [&numbered(1)[..], &SYNC, &[0; 600]].concat();
    for steps in WAYS {
        let mut frames = in_steps(&recording, steps);
        assert_eq!(listed(&mut frames), [(numbered(1), 0, 0)], "{steps:?}");
        assert_eq!((frames.counts().skipped, frames.counts().held), (89, 514));
        assert_eq!(frames.place(), Some(0));
    }
}

#[test]
fn nothing_read() {
    let mut frames = frames(io::empty());
    let none = (Stream::fresh().counts, None);
    assert_eq!((frames.counts(), frames.place()), none);
    assert!(frames.next().is_none());
    assert_eq!((frames.counts(), frames.place()), none);
}

/// Frame 1 is found in the first 700 bytes; the error comes once, and the reading goes on behind it.
#[test]
fn an_error_between() {
    let recording = recording();
    let steps = [Ok(700), Err(ErrorKind::TimedOut), Ok(5000), Ok(0)];
    let mut frames = in_steps(&recording, &steps);
    assert_eq!(frames.next().unwrap().unwrap(), numbered(1));
    assert_eq!(
        frames.next().unwrap().unwrap_err().kind(),
        ErrorKind::TimedOut
    );
    assert_eq!((frames.counts().total, frames.place()), (700, Some(0)));
    for number in 2..=6 {
        assert_eq!(frames.next().unwrap().unwrap(), numbered(number));
    }
    assert!(frames.next().is_none());
    assert_eq!((frames.counts().held, frames.counts().total), (3, 3415));
}

/// A file that grows: the first end is not the last.
#[test]
fn more_after_the_end() {
    let bytes = [numbered(1), numbered(2)].concat();
    let mut frames = in_steps(&bytes, &[Ok(514), Ok(0), Ok(510)]);
    assert!(frames.next().is_none());
    assert_eq!((frames.counts().held, frames.place()), (514, None));
    assert_eq!(frames.next().unwrap().unwrap(), numbered(1));
    assert!(frames.next().is_none());
    assert_eq!((frames.counts().held, frames.place()), (512, Some(0)));
}

#[test]
fn last_frame_is_held_until_sync_follows() {
    let recording = [numbered(1), numbered(2)].concat();
    let mut held = frames(recording.as_slice());
    assert_eq!(listed(&mut held), [(numbered(1), 0, 0)]);
    assert_eq!(held.counts().held, 512);

    let mut two = frames(recording.chain(&SYNC[..2]));
    assert_eq!(listed(&mut two).len(), 1);
    assert_eq!(two.counts().held, 514);

    let mut released = frames(recording.chain(&SYNC[..]));
    let both = [(numbered(1), 0, 0), (numbered(2), 512, 0)];
    assert_eq!(listed(&mut released), both);
    assert_eq!(released.counts().held, 3);
}

/// Frame B has lost six bytes, so that C begins at 512 + 506 = 1018, and C's bytes 6 to 8, at 1024, are 7F: sync where
/// B's successor should begin. Then sync stands at 1024 and not at 1536, in D, and C's remaining 506 bytes are skipped.
#[test]
fn sync_by_chance_after_a_loss() {
    let [a, b, mut c, d] = [1, 2, 3, 4].map(numbered);
    c[6..9].fill(0x7F);
    let b = [&b[..100], &b[106..]].concat();
    let recording = [&a[..], &b, &c, &d, &SYNC].concat();
    let mixed: [u8; FRAME] = [&b, &c[..6]].concat().try_into().unwrap();
    for steps in WAYS {
        let got = listed(&mut in_steps(&recording, steps));
        assert_eq!(got, [(a, 0, 0), (mixed, 512, 0), (d, 1530, 506)]);
    }
    // Two receivers have no padding, so it reads.
    let got = Status::fresh().read_frame(&mixed, 2, &mut Samples::fresh());
    assert!(got.is_ok());
}

/// The stray byte and the frame's first two are sync, and so are its last byte and the first two of the next. What is
/// handed out begins one byte early; the frame's last byte is skipped, and the next is found.
#[test]
fn stray_sync_byte_before_a_frame_that_ends_in_one() {
    let [mut first, second] = [1, 2].map(numbered);
    first[511] = 0x7F;
    let recording = [&[0x7F][..], &first, &second, &SYNC].concat();
    let shifted: [u8; FRAME] = [&[0x7F], &first[..511]].concat().try_into().unwrap();
    for steps in WAYS {
        let got = listed(&mut in_steps(&recording, steps));
        assert_eq!(got, [(shifted, 0, 0), (second, 513, 1)]);
    }
}
