use crate::{MOST_IQ, MOST_MIC};

/// The samples of one radio frame, with room for those of any number of receivers.
/// [`Status::read_frame`](crate::Status::read_frame) fills it, again and again.
///
/// ```
/// use hpsdr::{Samples, Status, FRAME};
///
/// // Three receivers. In the second slot, which begins at 8 + 20, receiver 2 has I = 1 and Q = -2.
/// let mut frame = [0; FRAME];
/// frame[..3].fill(0x7F);
/// frame[28 + 6..28 + 12].copy_from_slice(&[0, 0, 1, 0xFF, 0xFF, 0xFE]);
///
/// let mut samples = Samples::fresh();
/// Status::fresh().read_frame(&frame, 3, &mut samples)?;
/// let second: Vec<(i32, i32)> = samples.receiver(1).unwrap().collect();
/// assert_eq!((second.len(), &second[..3]), (25, &[(0, 0), (1, -2), (0, 0)][..]));
/// assert!(samples.receiver(3).is_none());
/// # Ok::<(), hpsdr::Refusal>(())
/// ```
#[derive(Clone, Debug)]
pub struct Samples {
    /// I and Q of receiver 1 to the last, slot by slot. What stands after them is of no meaning.
    pub(crate) pairs: [[i32; 2]; MOST_IQ / 2],
    /// One value a slot, and after them as above.
    pub(crate) mic: [i16; MOST_MIC],
    pub(crate) receivers: usize,
    pub(crate) slots: usize,
}

impl Samples {
    /// Those of no frame yet: no receiver and no value.
    pub fn fresh() -> Samples {
        Samples {
            pairs: [[0; 2]; MOST_IQ / 2],
            mic: [0; MOST_MIC],
            receivers: 0,
            slots: 0,
        }
    }

    /// The number of receivers that the frame was read for, 1 to 8; 0 if none was read.
    pub fn receivers(&self) -> usize {
        self.receivers
    }

    /// I and Q of one receiver, one pair a slot, in the order in which they came. The index counts from 0, as that of
    /// an array: `receiver(0)` is what the protocol calls receiver 1. None if there is no such receiver.
    pub fn receiver(&self, index: usize) -> Option<impl ExactSizeIterator<Item = (i32, i32)> + '_> {
        self.by_receiver().nth(index)
    }

    /// Every receiver's I and Q, from receiver 1 to the last, each as [`receiver`](Samples::receiver) gives them.
    pub fn by_receiver(
        &self,
    ) -> impl ExactSizeIterator<Item = impl ExactSizeIterator<Item = (i32, i32)> + '_> + '_ {
        (0..self.receivers).map(|first| {
            let own = self.pairs()[first..].iter().step_by(self.receivers);
            own.map(|&[i, q]| (i, q))
        })
    }

    /// The microphone values, one a slot.
    pub fn mic(&self) -> &[i16] {
        &self.mic[..self.slots]
    }

    /// I and Q of receiver 1 to the last, slot by slot, as [`Status::read`](crate::Status::read) gives them.
    pub fn iq(&self) -> &[i32] {
        self.pairs().as_flattened()
    }

    fn pairs(&self) -> &[[i32; 2]] {
        &self.pairs[..self.receivers * self.slots]
    }
}
