//! The library, the rival and a call that does nothing, all called alike.

use std::hint::black_box;

/// A call: table, time, command and reply buffer; gives back the number.
pub type Call = fn(&mut [u8], u64, &[u8], &mut [u8]) -> u32;

/// The order in which the contenders stand in every list.
pub const CONTENDERS: [Call; 3] = [library, rival, nothing];

#[inline(never)]
pub fn library(table: &mut [u8], time: u64, command: &[u8], reply: &mut [u8]) -> u32 {
    pietrunel::call(table, time, command, reply).number()
}

#[inline(never)]
pub fn rival(table: &mut [u8], time: u64, command: &[u8], reply: &mut [u8]) -> u32 {
    rival::call(table, time, command, reply).0
}

/// What measuring costs: subtracted from the others.
#[inline(never)]
pub fn nothing(table: &mut [u8], time: u64, command: &[u8], reply: &mut [u8]) -> u32 {
    black_box((table, time, command, reply));
    0
}
