//! Replies in RESP2.

use crate::bytes::*;

/// Error replies 5 to 17.
pub static ERRORS: [&[u8]; 13] = [
    b"-ERR unknown command\r\n",
    b"-ERR wrong number of arguments\r\n",
    b"-ERR string exceeds maximum allowed size\r\n",
    b"-ERR syntax error\r\n",
    b"-ERR value is not an integer or out of range\r\n",
    b"-ERR invalid expire time\r\n",
    b"-ERR min or max is specified, but not valid\r\n",
    b"-ERR update version is stale\r\n",
    b"-ERR stored value is not an integer\r\n",
    b"-ERR increment or decrement would overflow\r\n",
    b"-ERR version would overflow\r\n",
    b"-ERR string exceeds maximum allowed size\r\n",
    b"-ERR table is full\r\n",
];

/// Writes the reply from its start; never past what it says (at most 127 bytes).
pub struct Reply {
    pub at: *mut u8,
}

impl Reply {
    #[inline(always)]
    pub unsafe fn text<const N: usize>(&mut self, text: &[u8; N]) {
        (self.at as *mut [u8; N]).write_unaligned(*text);
        self.at = self.at.add(N);
    }
    #[inline(always)]
    pub unsafe fn crlf(&mut self) {
        self.text(b"\r\n");
    }
    #[inline(always)]
    pub unsafe fn unsigned(&mut self, v: u64) {
        *self.at = b':';
        self.at = put_unsigned(self.at.add(1), v);
        self.crlf();
    }
    #[inline(always)]
    pub unsafe fn signed(&mut self, v: i64) {
        *self.at = b':';
        self.at = put_signed(self.at.add(1), v);
        self.crlf();
    }
    /// A record's value, as bulk string.
    #[inline(always)]
    pub unsafe fn value(&mut self, r: *const u8) {
        let len = *r.add(2) as usize;
        *self.at = b'$';
        self.at = put_unsigned(self.at.add(1), len as u64);
        self.crlf();
        copy64(self.at, r.add(48), len);
        self.at = self.at.add(len);
        self.crlf();
    }
}
