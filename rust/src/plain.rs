//! The plain C interpreter (bench/plain.c), for accepted modules only.

use crate::host::Answer;
use crate::state::OUTPUT_BYTES;

/// The C struct, of which only pointers are known here.
#[repr(C)]
struct Opaque {
    _private: [u8; 0],
}

extern "C" {
    fn plain_prepare(file: *const u8, file_len: usize) -> *mut Opaque;
    fn plain_release(plain: *mut Opaque);
    fn plain_open(plain: *mut Opaque, arguments: *const u8, arguments_len: usize);
    fn plain_go(
        plain: *mut Opaque,
        form: *const u8,
        form_len: usize,
        output: *mut u8,
        budget: u64,
        answer: *mut u64,
    );
}

/// A prepared module with its state.
pub struct Plain(*mut Opaque);

impl Plain {
    /// Opens a module that the checker accepts, with an argument for each parameter.
    pub fn open(file: &[u8], arguments: &[u8]) -> Plain {
        let plain = unsafe { plain_prepare(file.as_ptr(), file.len()) };
        assert!(!plain.is_null(), "no memory");
        unsafe { plain_open(plain, arguments.as_ptr(), arguments.len()) };
        Plain(plain)
    }

    /// Goes on from a running state.
    pub fn go(&mut self, form: &[u8], output: &mut [u8], budget: u64) -> Answer {
        assert_eq!(output.len(), OUTPUT_BYTES);
        let mut answer = [u64::MAX; 4];
        unsafe {
            plain_go(
                self.0,
                form.as_ptr(),
                form.len(),
                output.as_mut_ptr(),
                budget,
                answer.as_mut_ptr(),
            )
        };
        answer
    }
}

impl Drop for Plain {
    fn drop(&mut self) {
        unsafe { plain_release(self.0) };
    }
}
