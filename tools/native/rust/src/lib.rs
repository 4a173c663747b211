//! A safe wrapper: Rust's own borrow rules give what the entries ask (valid, aligned, no overlap of what is written).
#[repr(C)]
#[derive(Debug, Clone, Copy, PartialEq, Eq)]
pub struct Outcome {
    pub number: u32,
    pub line: u32,
    pub length: usize,
}

/// An outcome, and the bytes of the image that are written.
#[repr(C)]
#[derive(Debug, Clone, Copy, PartialEq, Eq)]
pub struct Saved {
    pub number: u32,
    pub line: u32,
    pub length: usize,
    pub image_length: usize,
}

/// The tables lent: words of each, and bytes of output.
pub struct Lent<'a> {
    pub sp: &'a mut [u32],
    pub spp: &'a mut [u32],
    pub states: &'a mut [u32],
    pub members: &'a mut [u32],
    pub transitions: &'a mut [u32],
    pub pending: &'a mut [u32],
    pub scratch: &'a mut [u32],
    pub output: &'a mut [u8],
}

/// Declares an entry, with its slices before the lent ones, and a safe function of the same arguments: `const` is read, `mut` written.
macro_rules! entry {
    ($(#[$doc:meta])* $name:ident = $symbol:ident($($slice:ident: $how:tt),+) -> $out:ty) => {
        $(#[$doc])*
        pub fn $name($($slice: entry!(@slice $how),)+ lent: Lent) -> $out {
            extern "C" {
                fn $symbol(
                    $($slice: *$how u8, _: usize,)+
                    sp: *mut u32,
                    sp_len: usize,
                    spp: *mut u32,
                    spp_len: usize,
                    states: *mut u32,
                    states_len: usize,
                    members: *mut u32,
                    members_len: usize,
                    transitions: *mut u32,
                    transitions_len: usize,
                    pending: *mut u32,
                    pending_len: usize,
                    scratch: *mut u32,
                    scratch_len: usize,
                    output: *mut u8,
                    output_len: usize,
                ) -> $out;
            }
            // Sound: each pair is a live slice, and `&mut` slices do not overlap.
            unsafe {
                $symbol(
                    $(entry!(@pointer $how $slice), $slice.len(),)+
                    lent.sp.as_mut_ptr(),
                    lent.sp.len(),
                    lent.spp.as_mut_ptr(),
                    lent.spp.len(),
                    lent.states.as_mut_ptr(),
                    lent.states.len(),
                    lent.members.as_mut_ptr(),
                    lent.members.len(),
                    lent.transitions.as_mut_ptr(),
                    lent.transitions.len(),
                    lent.pending.as_mut_ptr(),
                    lent.pending.len(),
                    lent.scratch.as_mut_ptr(),
                    lent.scratch.len(),
                    lent.output.as_mut_ptr(),
                    lent.output.len(),
                )
            }
        }
    };
    (@slice const) => { &[u8] };
    (@slice mut) => { &mut [u8] };
    (@pointer const $slice:ident) => { $slice.as_ptr() };
    (@pointer mut $slice:ident) => { $slice.as_mut_ptr() };
}

entry! {
    /// Runs a book.
    run = netcheck_run(book: const) -> Outcome
}
entry! {
    /// Runs a book and writes its tables to `image`.
    save = netcheck_save(book: const, image: mut) -> Saved
}
entry! {
    /// Reads `image` and continues with a book that has no header line.
    resume = netcheck_resume(image: const, book: const) -> Outcome
}
entry! {
    /// Reads `image`, continues, and writes the tables to `next`.
    resume_save = netcheck_resume_save(image: const, book: const, next: mut) -> Saved
}
