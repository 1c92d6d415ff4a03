//! The proved library: the one declaration of its function, and the one call of it.

/// Whether the proved library is linked into this build.
pub const LINKED: bool = cfg!(proved);

#[cfg(proved)]
mod linked {
    extern "C" {
        fn rekdeuy_replay(input: *const u8, input_len: usize, output: *mut u8, output_len: usize) -> usize;
    }

    pub fn replay(input: &[u8], output: &mut [u8]) -> usize {
        // SAFETY: both pointers come from slices that live through the call, with their own lengths; the
        // library reads the first and writes the second within these, and keeps neither.
        unsafe { rekdeuy_replay(input.as_ptr(), input.len(), output.as_mut_ptr(), output.len()) }
    }
}

/// Puts a whole script to the proved library; answers the number of bytes written.
#[cfg(proved)]
pub fn replay(input: &[u8], output: &mut [u8]) -> usize {
    linked::replay(input, output)
}

/// Without the library there is no answer to any script.
#[cfg(not(proved))]
pub fn replay(_input: &[u8], _output: &mut [u8]) -> usize {
    0
}
