//! The stream reader: whether a record is sound, one feeding, and a whole input in pieces.

use crate::call::{argument, After, Call, Found, Given, Ran};
use crate::kind;
use differential::both::{self, Both};
use differential::lent::Lent;
use differential::model::Parts;

pub static SOUND: Call = Call {
    name: "stream_sound",
    arguments: &[
        argument("counts", &kind::COUNTS),
        argument("held", &kind::BYTES),
    ],
    found: Found::Counts(&[]),
    run: sound,
};

fn sound(given: &Given) -> Result<Ran, String> {
    let (mut counts, mut held) = (given.lend("counts"), given.lend("held"));
    let both = both::stream_sound(&mut counts, &mut held);
    let after = vec![counts.into(), held.into()];
    Ok(Ran { both, after })
}

pub static FEED: Call = Call {
    name: "stream_feed",
    arguments: &[
        argument("counts", &kind::COUNTS),
        argument("held", &kind::BYTES),
        argument("piece", &kind::BYTES),
        argument("output", &kind::BYTES),
    ],
    found: Found::Counts(&["frames"]),
    run: feed,
};

fn feed(given: &Given) -> Result<Ran, String> {
    let (mut counts, mut held) = (given.lend("counts"), given.lend("held"));
    let (mut piece, mut output) = (given.lend("piece"), given.lend("output"));
    let both = both::stream_feed(&mut counts, &mut held, &mut piece, &mut output);
    let after = vec![counts.into(), held.into(), piece.into(), output.into()];
    Ok(Ran { both, after })
}

/// One feeding after another, of an input in pieces of the given lengths, which together are its length.
/// The frames handed out stand one after another at the start of `handed`. It ends at a refusal.
pub static PIECES: Call = Call {
    name: "stream_pieces",
    arguments: &[
        argument("counts", &kind::COUNTS),
        argument("held", &kind::BYTES),
        argument("input", &kind::BYTES),
        argument("pieces", &kind::LENGTHS),
        argument("handed", &kind::BYTES),
    ],
    found: Found::Counts(&["frames"]),
    run: pieces,
};

const FRAME: usize = 512;
/// A little longer than needed, and filled with a mark.
const OUTPUT: [u8; 4100] = [0xEE; 4100];

/// What one side has given so far.
struct Side {
    handed: Vec<u8>,
    frames: u32,
    refusal: u32,
}

impl Side {
    fn new(handed: Vec<u8>) -> Side {
        Side {
            handed,
            frames: 0,
            refusal: 0,
        }
    }

    fn take(&mut self, returned: u64, output: &[u8]) -> Result<(), String> {
        let Parts {
            answer,
            found: frames,
            place,
            ..
        } = Parts::of(returned);
        if place != 0 {
            return Err(format!("answer {answer} and place {place}"));
        }
        self.refusal = answer;
        let (new, rest) = output
            .split_at_checked(frames as usize * FRAME)
            .ok_or("more frames than the output has room for")?;
        if rest != &OUTPUT[new.len()..] {
            return Err("the output past the frames has changed".to_owned());
        }
        let start = self.frames as usize * FRAME;
        let room = self.handed.get_mut(start..start + new.len());
        room.ok_or("more frames than 'handed' has room for")?
            .copy_from_slice(new);
        self.frames += frames;
        Ok(())
    }

    fn returned(&self) -> u64 {
        match self.refusal {
            0 => u64::from(self.frames) << 8,
            refusal => refusal.into(),
        }
    }
}

fn pieces(given: &Given) -> Result<Ran, String> {
    let (mut counts, mut held) = (given.lend("counts"), given.lend("held"));
    let input: Vec<u8> = given.typed("input");
    let mut sides = [
        Side::new(given.typed("handed")),
        Side::new(given.typed("handed")),
    ];
    let mut rest = &input[..];
    for length in given.typed::<usize>("pieces") {
        let (piece, later) = rest
            .split_at_checked(length)
            .ok_or("the pieces are longer than the input")?;
        feed_piece(given, piece, &mut counts, &mut held, &mut sides)?;
        rest = later;
        if sides.iter().any(|side| side.refusal != 0) {
            break;
        }
    }
    let [library, reference] = sides;
    if library.refusal == 0 && !rest.is_empty() {
        return Err("the pieces are shorter than the input".to_owned());
    }
    let both = Both {
        library: library.returned(),
        reference: reference.returned(),
    };
    let handed = After::of("handed", &library.handed, &reference.handed);
    let after = vec![counts.into(), held.into(), handed];
    Ok(Ran { both, after })
}

fn feed_piece(
    given: &Given,
    piece: &[u8],
    counts: &mut Lent<u64>,
    held: &mut Lent<u8>,
    [library, reference]: &mut [Side; 2],
) -> Result<(), String> {
    let mut piece = given.guards.lend("piece", piece);
    let mut output = given.guards.lend("output", &OUTPUT);
    let both = both::stream_feed(counts, held, &mut piece, &mut output);
    let of = |side: &str, fault: String| format!("{side}: {fault}");
    library
        .take(both.library, output.left())
        .map_err(|fault| of("door", fault))?;
    reference
        .take(both.reference, output.reference())
        .map_err(|fault| of("reference", fault))?;
    let strays = [After::from(piece).stray, After::from(output).stray];
    match strays.into_iter().flatten().next() {
        Some(stray) => Err(stray),
        None => Ok(()),
    }
}
