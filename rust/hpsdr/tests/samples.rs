//! Where each sample of a radio frame stands, for all eight layouts.

mod common;

use hpsdr::{layout, Refusal, Samples, Status, Word, MOST_IQ, MOST_MIC};

/// A sample like no other of its frame, with both signs.
fn sample(at: usize) -> i32 {
    (at as i32 + 1) * 50_021 - 4_000_000
}

fn microphone_value(slot: usize) -> i16 {
    500 - 13 * slot as i16
}

/// The frame of `n` receivers with those samples, by the drawing: I then Q of each receiver, then the microphone.
fn drawn(n: usize, slots: usize) -> [u8; 512] {
    let mut frame = common::frame([0x08, 0, 0, 0, 0]);
    let mut place = 8;
    let mut put = |bytes: &[u8]| {
        frame[place..place + bytes.len()].copy_from_slice(bytes);
        place += bytes.len();
    };
    for slot in 0..slots {
        for at in 2 * n * slot..2 * n * (slot + 1) {
            let value = sample(at);
            put(&[(value >> 16) as u8, (value >> 8) as u8, value as u8]);
        }
        let value = microphone_value(slot);
        put(&[(value >> 8) as u8, value as u8]);
    }
    frame
}

#[test]
fn every_sample_of_every_layout() {
    for receivers in 1..=8 {
        let slots = layout(receivers).unwrap().slots;
        let iq: Vec<i32> = (0..2 * receivers * slots).map(sample).collect();
        let mic: Vec<i16> = (0..slots).map(microphone_value).collect();
        let frame = drawn(receivers, slots);

        let (mut read_iq, mut read_mic) = (vec![77; iq.len() + 1], vec![88; mic.len() + 1]);
        let got = Status::fresh().read(&frame, receivers, &mut read_iq, &mut read_mic);
        assert_eq!(got, Ok(Word::ForwardPower));
        assert_eq!(read_iq, [iq.as_slice(), &[77]].concat());
        assert_eq!(read_mic, [mic.as_slice(), &[88]].concat());

        let mut written = [0xEE; 512];
        let got = Status::fresh().write(Word::ForwardPower, receivers, &iq, &mic, &mut written);
        assert_eq!(got, Ok(()));
        assert_eq!(written, frame, "{receivers} receivers");
    }
}

/// Receiver r's pair stands after r others in its slot, and 2 · n values a slot. The same `Samples` takes the frames of
/// all counts, so that what is left of a longer one would be seen.
#[test]
fn every_sample_by_receiver() {
    let mut samples = Samples::fresh();
    for receivers in (1..=8).chain((1..8).rev()) {
        let slots = layout(receivers).unwrap().slots;
        let frame = drawn(receivers, slots);
        let got = Status::fresh().read_frame(&frame, receivers, &mut samples);
        assert_eq!(got, Ok(Word::ForwardPower));
        assert_eq!(samples.receivers(), receivers);
        let (iq, mic) = (samples.iq().iter().copied(), samples.mic().iter().copied());
        assert!(iq.eq((0..2 * receivers * slots).map(sample)));
        assert!(mic.eq((0..slots).map(microphone_value)));

        let pair = |receiver: usize, slot: usize| {
            let at = 2 * receivers * slot + 2 * receiver;
            (sample(at), sample(at + 1))
        };
        for receiver in 0..receivers {
            let own = samples.receiver(receiver).unwrap();
            assert_eq!(own.len(), slots);
            assert!(own.eq((0..slots).map(|slot| pair(receiver, slot))));
        }
        for receiver in [receivers, 8, usize::MAX] {
            assert!(samples.receiver(receiver).is_none());
        }
        let firsts = samples.by_receiver().map(|mut own| own.next().unwrap());
        assert!(firsts.eq((0..receivers).map(|receiver| pair(receiver, 0))));
    }
}

#[test]
fn no_samples_yet() {
    let samples = Samples::fresh();
    assert_eq!((samples.receivers(), samples.by_receiver().len()), (0, 0));
    assert!(samples.iq().is_empty() && samples.mic().is_empty());
    assert!(samples.receiver(0).is_none());
}

#[test]
fn the_most_of_all_layouts() {
    let slots = |receivers| layout(receivers).unwrap().slots;
    assert_eq!((1..=8).map(slots).max(), Some(MOST_MIC));
    let iq = |receivers| 2 * receivers * slots(receivers);
    assert_eq!((1..=8).map(iq).max(), Some(MOST_IQ));
}

/// A frame of two receivers has no padding. Its last five bytes are the last Q, 3,203,024 or 30 DF D0, and the microphone
/// value 45, and the padding of three begins with that DF. One receiver has none, and a microphone value where the
/// second's I begins.
#[test]
fn wrong_counts() {
    let (frame, mut samples) = (drawn(2, 36), Samples::fresh());
    let mut read = |receivers| Status::fresh().read_frame(&frame, receivers, &mut samples);
    assert_eq!(read(3), Err(Refusal::Padding { byte: 508 }));
    assert_eq!(read(1), Ok(Word::ForwardPower));
    assert_eq!(samples.iq()[..2], [sample(0), sample(1)]);
    assert_eq!(samples.mic()[0], (sample(2) >> 8) as i16);
}

/// Their padding is the same four bytes.
#[test]
fn three_receivers_read_as_eight() {
    let mut samples = Samples::fresh();
    let got = Status::fresh().read_frame(&drawn(3, 25), 8, &mut samples);
    assert_eq!((got, samples.receivers()), (Ok(Word::ForwardPower), 8));
}
