//! The archive's four functions, each behind one that takes slices. All that is unsafe is here.

/// Numbers of a reply, and its bytes: the refusal, the kind and the index of its position, and three of the call's own.
const NUMBERS: usize = 6;
const REPLY_BYTES: usize = 8 * NUMBERS;

/// What a refused firing returns beyond the refusal's number.
pub(crate) const REFUSED: u32 = 1 << 31;

#[rustfmt::skip]
extern "C" {
    fn wulthrein_check(net: *const u8, net_length: usize, sheet: *const u8, sheet_length: usize,
                       scratch: *mut u8, scratch_length: usize, reply: *mut u8, reply_length: usize) -> u32;
    fn wulthrein_run(net: *const u8, net_length: usize, sheet: *const u8, sheet_length: usize,
                     record: *const u8, record_length: usize, out: *mut u8, out_length: usize,
                     scratch: *mut u8, scratch_length: usize, reply: *mut u8, reply_length: usize) -> u32;
    fn wulthrein_short_form(net: *const u8, net_length: usize, sheet: *const u8, sheet_length: usize,
                            out: *mut u8, out_length: usize, scratch: *mut u8, scratch_length: usize,
                            reply: *mut u8, reply_length: usize) -> u32;
    fn wulthrein_fire(net: *const u8, net_length: usize, sheet: *const u8, sheet_length: usize,
                      node: u32, transition: u32, scratch: *mut u8, scratch_length: usize) -> u32;
}

/// The six numbers that a call replied.
pub(crate) struct Reply([u8; REPLY_BYTES]);

impl Reply {
    /// None is beyond the length of a buffer that was lent or a limit, so that each fits.
    pub(crate) fn numbers(&self) -> [usize; NUMBERS] {
        let mut numbers = [0; NUMBERS];
        for (number, bytes) in numbers.iter_mut().zip(self.0.chunks_exact(8)) {
            *number = bytes.iter().rev().fold(0, |number, &byte| number << 8 | usize::from(byte));
        }
        numbers
    }
}

// SAFETY, of each call below: every pointer is that of a slice, so it is not null, and the slice's length follows it. A slice that is
// written is borrowed mutably and overlaps no other.

#[rustfmt::skip]
pub(crate) fn check(net: &[u8], sheet: &[u8], scratch: &mut [u8]) -> Reply {
    let mut reply = [0; REPLY_BYTES];
    unsafe {
        wulthrein_check(net.as_ptr(), net.len(), sheet.as_ptr(), sheet.len(),
                        scratch.as_mut_ptr(), scratch.len(), reply.as_mut_ptr(), reply.len())
    };
    Reply(reply)
}

#[rustfmt::skip]
pub(crate) fn run(net: &[u8], sheet: &[u8], record: &[u8], out: &mut [u8], scratch: &mut [u8]) -> Reply {
    let mut reply = [0; REPLY_BYTES];
    unsafe {
        wulthrein_run(net.as_ptr(), net.len(), sheet.as_ptr(), sheet.len(), record.as_ptr(), record.len(), out.as_mut_ptr(), out.len(),
                      scratch.as_mut_ptr(), scratch.len(), reply.as_mut_ptr(), reply.len())
    };
    Reply(reply)
}

#[rustfmt::skip]
pub(crate) fn short_form(net: &[u8], sheet: &[u8], out: &mut [u8], scratch: &mut [u8]) -> Reply {
    let mut reply = [0; REPLY_BYTES];
    unsafe {
        wulthrein_short_form(net.as_ptr(), net.len(), sheet.as_ptr(), sheet.len(), out.as_mut_ptr(), out.len(),
                             scratch.as_mut_ptr(), scratch.len(), reply.as_mut_ptr(), reply.len())
    };
    Reply(reply)
}

#[rustfmt::skip]
pub(crate) fn fire(net: &[u8], sheet: &[u8], node: u32, transition: u32, scratch: &mut [u8]) -> u32 {
    unsafe {
        wulthrein_fire(net.as_ptr(), net.len(), sheet.as_ptr(), sheet.len(), node, transition, scratch.as_mut_ptr(), scratch.len())
    }
}
