//! The state machine of `state_machine.c`, whose calls have the form of the header's.

/// Declares each call, and the type that it has in common with the library's.
macro_rules! calls {
    ($($form:ident $name:ident($($argument:ident: $type:ty),* $(,)?) -> $returned:ty;)*) => {
        $(pub type $form = unsafe extern "C" fn($($argument: $type),*) -> $returned;)*

        extern "C" {
            $(pub fn $name($($argument: $type),*) -> $returned;)*
        }
    };
}

calls! {
    RadioRead machine_radio_read(
        frame: *const u8,
        frame_length: usize,
        receivers: usize,
        iq: *mut i32,
        iq_length: usize,
        mic: *mut i16,
        mic_length: usize,
        status: *mut u32,
        status_cells: usize,
    ) -> u32;
    HostRead machine_host_read(
        frame: *const u8,
        frame_length: usize,
        audio: *mut i16,
        audio_length: usize,
        host: *mut u32,
        host_cells: usize,
    ) -> u32;
    StreamFeed machine_stream_feed(
        counts: *mut u64,
        counts_cells: usize,
        held: *mut u8,
        held_length: usize,
        piece: *const u8,
        piece_length: usize,
        output: *mut u8,
        output_length: usize,
    ) -> u32;
    PlainRead machine_plain_read(
        input: *const u8,
        input_length: usize,
        output: *mut u8,
        output_length: usize,
    ) -> u64;
}
