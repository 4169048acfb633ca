//! Bytes in which frames are imitated: sync stands 512 bytes apart and is not a true frame's, and the place overlaps true
//! frames.

use crate::case::Draw;
use crate::text::{frames, stretch};
use crate::twist::{FRAME, SYNC};

/// So many in one stream, so that a short run comes to each distance too.
const IMITATIONS: usize = 8;

/// An imitated frame that is handed out, and true frames, of which it takes the first.
struct Imitation {
    /// Damaged bytes before it. With none it is the rest of a frame that lost bytes, and the beginning of the next.
    skipped: usize,
    /// From it to the true frame that it overlaps; at 512 it stands directly before that one.
    distance: usize,
    /// True frames that are each overlapped by an imitated one.
    chain: usize,
    /// True frames behind these. With one at least the next imitation is come to.
    more: usize,
}

/// Noise without 7F: it imitates nothing, and breaks no imitation.
fn still(length: usize, draw: &mut Draw) -> Vec<u8> {
    let mut bytes = draw.random.bytes(length);
    for byte in &mut bytes {
        *byte &= 0xfe;
    }
    bytes
}

/// Whatever of it is behind the end comes with the bytes that follow, which begin with sync.
fn put_sync(bytes: &mut [u8], place: usize) {
    for (byte, sync) in bytes.iter_mut().skip(place).zip(SYNC) {
        *byte = sync;
    }
}

impl Imitation {
    fn drawn(distance: usize, draw: &mut Draw) -> Imitation {
        // The damaged bytes begin with sync, and that is not the imitated frame's.
        let some = SYNC.len() + 1 + draw.random.below(300);
        let mut skipped = draw.random.pick(&[0, some]);
        if skipped > 0 && skipped + distance == FRAME {
            // That would be a frame that is not damaged.
            skipped += 1;
        }
        Imitation {
            skipped,
            distance,
            chain: draw.random.pick(&[1, 1, 2, 3]),
            more: 1 + draw.random.below(2),
        }
    }

    /// They begin with sync, since true frames stand before them.
    fn bytes(&self, draw: &mut Draw) -> Vec<u8> {
        let first = self.skipped + self.distance;
        let mut bytes = still(first + (self.chain + self.more) * FRAME, draw);
        put_sync(&mut bytes, 0);
        for place in (first..bytes.len()).step_by(FRAME) {
            put_sync(&mut bytes, place);
        }
        let mut distance = self.distance;
        for overlapped in 0..self.chain {
            let place = first + overlapped * FRAME - distance;
            put_sync(&mut bytes, place);
            put_sync(&mut bytes, place + FRAME);
            // The next one is not overlapped by this one.
            let nearer = 1 + draw.random.below(distance);
            distance = draw.random.pick(&[distance, nearer]);
        }
        bytes
    }
}

/// Damaged bytes of any kind and frames, with imitated frames anywhere among them.
fn anywhere(draw: &mut Draw) -> Vec<u8> {
    let (length, count) = (draw.random.below(1600), 1 + draw.random.below(3));
    let mut bytes = stretch(length, draw);
    bytes.extend(frames(count, draw));
    put_sync(&mut bytes, 0);
    for _ in 0..1 + draw.random.below(4) {
        let place = draw.random.below(bytes.len());
        put_sync(&mut bytes, place);
        put_sync(&mut bytes, place + FRAME);
    }
    bytes
}

/// Some imitations, each distance from 1 to 512 in its turn, and now and then any others.
pub fn middle(draw: &mut Draw) -> Vec<u8> {
    let mut bytes = Vec::new();
    for imitation in 0..IMITATIONS {
        let distance = 1 + (draw.turn * IMITATIONS + imitation) % FRAME;
        bytes.extend(Imitation::drawn(distance, draw).bytes(draw));
    }
    if draw.random.one_in(3) {
        bytes.extend(anywhere(draw));
    }
    bytes
}

/// One imitation in few bytes.
pub fn short_middle(draw: &mut Draw) -> Vec<u8> {
    let imitation = Imitation {
        skipped: 0,
        distance: 1 + draw.random.below(60),
        chain: 1,
        more: 0,
    };
    imitation.bytes(draw)
}
