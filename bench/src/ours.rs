//! The proved listing, linked from the archive that `rt lib` writes in crates/cabi.

#[repr(C)]
struct Filled {
    end: usize,
    more: bool,
}

extern "C" {
    fn nomutanku_list(table: *const u8, length: usize, out: *mut u8, room: usize) -> Filled;
}

/// How many bytes of the buffer the listing fills. The buffer must hold all of it.
#[inline(never)]
pub fn list(table: &[u8], out: &mut [u8]) -> usize {
    // SAFETY: the call asks nothing but that its slices are valid and apart, and a & and a &mut are.
    let filled = unsafe { nomutanku_list(table.as_ptr(), table.len(), out.as_mut_ptr(), out.len()) };
    assert!(!filled.more, "the listing is longer than the buffer");
    filled.end
}
