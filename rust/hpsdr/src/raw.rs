//! The calls of the header `hpsdr.h`, as they are. The wrappers of this crate are built on them.
//!
//! A record is lent as a pointer to its cells and their number. What a call returns has three parts: its answer in
//! bits 7 to 0 (0, or a refusal's number); what it found in bits 15 to 8, where this is said below; the place in bits 31
//! to 16, beside the refusals 6, 7 and 8. For 6 and 7 the place is a byte of the frame, counted from 0: the first of the
//! bytes 0 to 2 that is not 7F, and the first padding byte that is not 0. For 8 it is the number of a
//! [`Cause`](crate::Cause). Beside every other answer it is 0. On a refusal a call found 0, but for the frames that
//! [`hpsdr_radio_read_transfer`] read before the refused one.
//!
//! Two calls return 64 bits. Above these 32 [`hpsdr_plain_read`] has the number of bytes skipped, in bits 47 to 32, and the
//! number of bytes left, in bits 63 to 48; [`hpsdr_why_byte`] has a detail of what it found, in bits 63 to 32. On a refusal
//! they are 0.
//!
//! ```
//! use hpsdr::raw;
//!
//! // A frame of three receivers, of zeros but for sync and padding byte 509, read into 150 and 25 values.
//! let (mut frame, mut iq, mut mic, mut status) = ([0; 512], [0; 150], [0; 25], [0; raw::STATUS_CELLS]);
//! frame[..3].fill(0x7F);
//! frame[509] = 1;
//! // SAFETY: each pointer is to an array of so many elements, and none overlaps another.
//! let got = unsafe {
//!     let (iq, mic, status) = (iq.as_mut_ptr(), mic.as_mut_ptr(), status.as_mut_ptr());
//!     raw::hpsdr_radio_read(frame.as_ptr(), 512, 3, iq, 150, mic, 25, status, raw::STATUS_CELLS)
//! };
//! assert_eq!((got & 0xFF, got >> 8 & 0xFF, got >> 16), (7, 0, 509));
//! ```
//!
//! # Safety
//!
//! Of every call: a pointer is not null and is aligned for its type, even where the number of its elements is 0; the
//! elements are the caller's for the time of the call; and what the call may write overlaps nothing else that it is
//! lent. A call checks all the rest, and keeps no pointer.

/// Cells of a row.
pub const ROW_CELLS: usize = 3;
/// Cells of a status record.
pub const STATUS_CELLS: usize = 26;
/// Cells of a host record.
pub const HOST_CELLS: usize = 62;
/// Cells of a builder: those of its host record, and its turn.
pub const BUILDER_CELLS: usize = 63;
/// Cells of a stream's counts, 64 bits each.
pub const COUNTS_CELLS: usize = 4;
/// Bytes that a stream may hold.
pub const HELD: usize = 514;

/// The form of the two calls that read radio frames.
pub type RadioRead = unsafe extern "C" fn(
    input: *const u8,
    input_length: usize,
    receivers: usize,
    iq: *mut i32,
    iq_length: usize,
    mic: *mut i16,
    mic_length: usize,
    status: *mut u32,
    status_cells: usize,
) -> u32;

extern "C" {
    /// The row of a number of receivers.
    pub fn hpsdr_layout(receivers: usize, row: *mut u32, row_cells: usize) -> u32;

    /// The status record that all-zero words give.
    pub fn hpsdr_status_fresh(status: *mut u32, status_cells: usize) -> u32;

    /// Reads a radio frame; found is the word's address. Beside refusals 6, 7 and 8 stands the place.
    pub fn hpsdr_radio_read(
        frame: *const u8,
        frame_length: usize,
        receivers: usize,
        iq: *mut i32,
        iq_length: usize,
        mic: *mut i16,
        mic_length: usize,
        status: *mut u32,
        status_cells: usize,
    ) -> u32;

    /// Reads 1 to 8 radio frames, one after another; found, on a refusal too, is the number of frames read. Beside
    /// refusals 6, 7 and 8 this is the refused frame's index, counted from 0, and the place is the one that
    /// [`hpsdr_radio_read`] gives for that frame.
    pub fn hpsdr_radio_read_transfer(
        input: *const u8,
        input_length: usize,
        receivers: usize,
        iq: *mut i32,
        iq_length: usize,
        mic: *mut i16,
        mic_length: usize,
        status: *mut u32,
        status_cells: usize,
    ) -> u32;

    /// Writes the radio frame that carries a word of the record.
    pub fn hpsdr_radio_write(
        status: *const u32,
        status_cells: usize,
        word: usize,
        receivers: usize,
        iq: *const i32,
        iq_length: usize,
        mic: *const i16,
        mic_length: usize,
        frame: *mut u8,
        frame_length: usize,
    ) -> u32;

    /// The host record that all-zero words give.
    pub fn hpsdr_host_fresh(host: *mut u32, host_cells: usize) -> u32;

    /// Reads a host frame; found is the word's address. Beside refusals 6 and 8 stands the place.
    pub fn hpsdr_host_read(
        frame: *const u8,
        frame_length: usize,
        audio: *mut i16,
        audio_length: usize,
        host: *mut u32,
        host_cells: usize,
    ) -> u32;

    /// A fresh host record, and turn 0.
    pub fn hpsdr_builder_fresh(builder: *mut u32, builder_cells: usize) -> u32;

    /// Writes the host frame whose word is due, and moves the turn on.
    pub fn hpsdr_build(
        builder: *mut u32,
        builder_cells: usize,
        audio: *const i16,
        audio_length: usize,
        frame: *mut u8,
        frame_length: usize,
    ) -> u32;

    /// The record of a stream of which nothing has been read.
    pub fn hpsdr_stream_fresh(
        counts: *mut u64,
        counts_cells: usize,
        held: *mut u8,
        held_length: usize,
    ) -> u32;

    /// Whether a record is sound.
    pub fn hpsdr_stream_sound(
        counts: *const u64,
        counts_cells: usize,
        held: *const u8,
        held_length: usize,
    ) -> u32;

    /// Reads the held bytes and then the piece; found is the number of frames.
    pub fn hpsdr_stream_feed(
        counts: *mut u64,
        counts_cells: usize,
        held: *mut u8,
        held_length: usize,
        piece: *const u8,
        piece_length: usize,
        output: *mut u8,
        output_length: usize,
    ) -> u32;

    /// Reads an input of at most 65,536 bytes at once; found is the number of frames, 0 to 127. In bits 47 to 32 are the
    /// bytes skipped, at most 65,022, in bits 63 to 48 the bytes left, at most 514.
    pub fn hpsdr_plain_read(
        input: *const u8,
        input_length: usize,
        output: *mut u8,
        output_length: usize,
    ) -> u64;

    /// Tells why a byte of an input of at most 65,536 bytes was handed out, skipped or held; found is the number of the
    /// reason: 1 inside a frame, 2 the near sync, 3 the far sync, 4 held. In bits 63 to 32 is the detail: the frame's start
    /// for 1, the byte of the sync for 2 and 3, and 0 for 4.
    pub fn hpsdr_why_byte(input: *const u8, input_length: usize, place: usize) -> u64;
}
