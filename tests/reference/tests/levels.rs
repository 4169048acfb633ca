//! Levels are twelve bits, as request T-08 has it.

mod common;

use common::*;
use reference::Cause::*;
use reference::Refusal::*;
use reference::*;

/// The words that carry levels, and their two, in the order of [`levels`].
const WORDS: [(u8, [Cause; 2]); 3] = [(1, [Ain5, Ain1]), (2, [Ain2, Ain3]), (3, [Ain4, Ain6])];

/// C0 to C4 of a word with these levels, its keys off.
fn control(word: u8, [first, second]: [u16; 2]) -> [u8; 5] {
    let ([c1, c2], [c3, c4]) = (first.to_be_bytes(), second.to_be_bytes());
    [word << 3, c1, c2, c3, c4]
}

fn read(control: [u8; 5]) -> Result<u8, Refusal> {
    read_radio_into(&mut Status::fresh(), &frame(control))
}

fn write(status: &Status, word: usize) -> Result<[u8; 512], Refusal> {
    let mut frame = [0xEE; 512];
    let answer = radio_write(status, word, 1, &[0; 126], &[0; 63], &mut frame);
    answer.map(|()| frame)
}

#[test]
fn a_forward_power_of_40_000() {
    let mut status = Status::fresh();
    let answer = read_radio_into(&mut status, &frame([0x0F, 0x9C, 0x40, 0, 0]));
    assert_eq!(answer, Err(Reserved { cause: Ain5 }));
    assert_eq!(status, Status::fresh());
    assert_eq!(write(&status_of([40_000, 0, 0, 0, 0, 0]), 1), Err(Range));
}

#[test]
fn every_number_of_every_level() {
    for (place, (word, causes)) in (0..).step_by(2).zip(WORDS) {
        for number in 0..=65_535 {
            for (second, cause) in [(0, causes[0]), (1, causes[1])] {
                let mut pair = [0; 2];
                pair[second] = number;
                let mut status = Status::fresh();
                let answer = read_radio_into(&mut status, &frame(control(word, pair)));
                let mut expected = [0; 6];
                if number <= 4_095 {
                    assert_eq!(answer, Ok(word));
                    expected[place + second] = number;
                } else {
                    assert_eq!(answer, Err(Reserved { cause }));
                }
                assert_eq!(levels(&status), expected);
            }
        }
    }
}

#[test]
fn the_first_level_is_named() {
    for (word, [first, second]) in WORDS {
        for wide in [4_096, 8_192, 16_384, 32_768, 40_000, 65_535] {
            let named = |levels| read(control(word, levels));
            assert_eq!(named([wide, wide]), Err(Reserved { cause: first }));
            assert_eq!(named([wide, 4_095]), Err(Reserved { cause: first }));
            assert_eq!(named([4_096, wide]), Err(Reserved { cause: first }));
            assert_eq!(named([4_095, wide]), Err(Reserved { cause: second }));
        }
        assert_eq!(read(control(word, [4_095; 2])), Ok(word));
    }
}

#[test]
fn a_bit_alone_is_refused_only_in_the_top_four_of_a_level() {
    for address in 0..=31 {
        let causes = WORDS.into_iter().find(|(word, _)| *word == address);
        for bit in 0..32 {
            let [c1, c2, c3, c4] = (1_u32 << bit).to_be_bytes();
            let refusal = causes.and_then(|(_, [first, second])| match bit {
                28..=31 => Some(Reserved { cause: first }),
                12..=15 => Some(Reserved { cause: second }),
                _ => None,
            });
            let answer = read([address << 3, c1, c2, c3, c4]);
            assert_eq!(answer.err(), refusal, "bit {bit} of word {address}");
        }
    }
}

/// A level that a record was lent with is not the read's to refuse.
#[test]
fn a_level_of_the_record_stays_until_its_word_comes() {
    for address in 0..=31 {
        let mut status = status_of([65_535, 40_000, 4_096, 8_192, 16_384, 32_768]);
        let mut expected = levels(&status);
        if let Some(place) = WORDS.iter().position(|(word, _)| *word == address) {
            expected[2 * place..][..2].copy_from_slice(&[4_095, 257]);
        }
        let control = control(address, [4_095, 257]);
        assert_eq!(read_radio_into(&mut status, &frame(control)), Ok(address));
        assert_eq!(levels(&status), expected);
    }
}

#[test]
fn a_write_tests_every_level_whichever_word_is_due() {
    for word in 0..=4 {
        for place in 0..6 {
            let mut levels = [4_095; 6];
            assert!(write(&status_of(levels), word).is_ok());
            for wide in [4_096, 8_191, 8_192, 16_384, 32_768, 65_535] {
                levels[place] = wide;
                let written = write(&status_of(levels), word);
                assert_eq!(written, Err(Range), "{levels:?} at {word}");
            }
        }
    }
}
