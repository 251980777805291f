//! The library's C functions, and all unsafe code of this crate.

extern "C" {
    fn pietrunel_call(
        table: *mut u8,
        table_len: usize,
        time_ms: u64,
        command: *const u8,
        command_len: usize,
        reply: *mut u8,
        reply_cap: usize,
        reply_len: *mut usize,
    ) -> u32;

    fn pietrunel_current_value(
        table: *const u8,
        table_len: usize,
        time_ms: u64,
        command: *const u8,
        command_len: usize,
        in_command: *mut bool,
        start: *mut usize,
        len: *mut usize,
    ) -> bool;

    fn pietrunel_shared_call(
        party: u32,
        boundary: usize,
        table: *mut u8,
        table_len: usize,
        time_ms: u64,
        command: *const u8,
        command_len: usize,
        reply: *mut u8,
        reply_cap: usize,
        reply_len: *mut usize,
    ) -> u32;

    fn pietrunel_shared_current_value(
        party: u32,
        boundary: usize,
        table: *const u8,
        table_len: usize,
        time_ms: u64,
        command: *const u8,
        command_len: usize,
        in_command: *mut bool,
        start: *mut usize,
        len: *mut usize,
    ) -> bool;

    fn pietrunel_feed(
        held: *mut u8,
        held_cap: usize,
        held_len: *mut usize,
        piece: *const u8,
        piece_len: usize,
        taken: *mut usize,
        table: *mut u8,
        table_len: usize,
        time_ms: u64,
        reply: *mut u8,
        reply_cap: usize,
        reply_len: *mut usize,
    ) -> u32;

    fn pietrunel_begin_command(command: *mut u8, cap: usize, words: usize) -> usize;

    fn pietrunel_add_word(
        command: *mut u8,
        cap: usize,
        len: usize,
        word: *const u8,
        word_len: usize,
    ) -> usize;
}

/// Where a current value stands: in the command, or else in the table.
#[derive(Debug, PartialEq)]
pub struct Shown {
    pub in_command: bool,
    pub start: usize,
    pub len: usize,
}

impl Shown {
    /// Values that no call gives, so that it shows if the library did not write them.
    const UNWRITTEN: Shown = Shown { in_command: true, start: usize::MAX, len: usize::MAX };

    /// The bytes that are shown.
    pub fn part<'a>(&self, table: &'a [u8], command: &'a [u8]) -> &'a [u8] {
        let whole = if self.in_command { command } else { table };
        &whole[self.start..self.start + self.len]
    }

    /// What the library wrote, if a value is shown.
    fn if_any(self, any: bool) -> Option<Shown> {
        if any {
            return Some(self);
        }
        assert_eq!(self, Shown { in_command: false, start: 0, len: 0 }, "nothing is shown");
        None
    }
}

/// The number and the reply's length.
pub fn call(table: &mut [u8], time_ms: u64, command: &[u8], reply: &mut [u8]) -> (u32, usize) {
    // No length, so that it shows if the library did not write it.
    let mut len = usize::MAX;
    // SAFETY: each pointer comes from a slice with the length beside it, or from `len`, and the
    // mutable ones are borrowed alone. The library is proved to read and write only there; it
    // keeps no pointer.
    let number = unsafe {
        pietrunel_call(
            table.as_mut_ptr(),
            table.len(),
            time_ms,
            command.as_ptr(),
            command.len(),
            reply.as_mut_ptr(),
            reply.len(),
            &mut len,
        )
    };
    (number, len)
}

/// Where the current value stands, if one is shown.
pub fn current_value(table: &[u8], time_ms: u64, command: &[u8]) -> Option<Shown> {
    let mut shown = Shown::UNWRITTEN;
    // SAFETY: each pointer comes from a slice with the length beside it, which is only read, or
    // from a field of `shown`. The library keeps no pointer; a `bool` of C is one of Rust.
    let any = unsafe {
        pietrunel_current_value(
            table.as_ptr(),
            table.len(),
            time_ms,
            command.as_ptr(),
            command.len(),
            &mut shown.in_command,
            &mut shown.start,
            &mut shown.len,
        )
    };
    shown.if_any(any)
}

/// The number and the reply's length, of the call of a party with this number.
pub fn shared_call(
    party: u32,
    boundary: usize,
    table: &mut [u8],
    time_ms: u64,
    command: &[u8],
    reply: &mut [u8],
) -> (u32, usize) {
    let mut len = usize::MAX;
    // SAFETY: each pointer comes from a slice with the length beside it, or from `len`, and the
    // mutable ones are borrowed alone. The library is proved to read and write only there, whatever
    // party and boundary are; it keeps no pointer.
    let number = unsafe {
        pietrunel_shared_call(
            party,
            boundary,
            table.as_mut_ptr(),
            table.len(),
            time_ms,
            command.as_ptr(),
            command.len(),
            reply.as_mut_ptr(),
            reply.len(),
            &mut len,
        )
    };
    (number, len)
}

/// Where the current value stands in the part of a party with this number, if one is shown.
pub fn shared_current_value(
    party: u32,
    boundary: usize,
    table: &[u8],
    time_ms: u64,
    command: &[u8],
) -> Option<Shown> {
    let mut shown = Shown::UNWRITTEN;
    // SAFETY: each pointer comes from a slice with the length beside it, which is only read, or
    // from a field of `shown`. The library keeps no pointer; a `bool` of C is one of Rust.
    let any = unsafe {
        pietrunel_shared_current_value(
            party,
            boundary,
            table.as_ptr(),
            table.len(),
            time_ms,
            command.as_ptr(),
            command.len(),
            &mut shown.in_command,
            &mut shown.start,
            &mut shown.len,
        )
    };
    shown.if_any(any)
}

/// The number, how many bytes of the piece were taken, and the reply's length.
pub fn feed(
    held: &mut [u8],
    held_len: &mut usize,
    piece: &[u8],
    table: &mut [u8],
    time_ms: u64,
    reply: &mut [u8],
) -> (u32, usize, usize) {
    let (mut taken, mut len) = (usize::MAX, usize::MAX);
    // SAFETY: each pointer comes from a slice with the length beside it, from `held_len`, or from
    // `taken` or `len`, and the mutable ones are borrowed alone. The library is proved to read and
    // write only there, whatever `held_len` is; it keeps no pointer.
    let number = unsafe {
        pietrunel_feed(
            held.as_mut_ptr(),
            held.len(),
            held_len,
            piece.as_ptr(),
            piece.len(),
            &mut taken,
            table.as_mut_ptr(),
            table.len(),
            time_ms,
            reply.as_mut_ptr(),
            reply.len(),
            &mut len,
        )
    };
    (number, taken, len)
}

/// Begins a command of so many words; its length, or 0 where it is refused.
pub fn begin_command(command: &mut [u8], words: usize) -> usize {
    // SAFETY: the pointer comes from a slice with the length beside it, borrowed alone. The library
    // is proved to read and write only there; it keeps no pointer.
    unsafe { pietrunel_begin_command(command.as_mut_ptr(), command.len(), words) }
}

/// Adds a word to a command of so many bytes; the new length, or 0 where it is refused.
pub fn add_word(command: &mut [u8], len: usize, word: &[u8]) -> usize {
    // SAFETY: each pointer comes from a slice with the length beside it, and the mutable one is
    // borrowed alone. The library is proved to read and write only there; it keeps no pointer.
    unsafe {
        pietrunel_add_word(command.as_mut_ptr(), command.len(), len, word.as_ptr(), word.len())
    }
}
