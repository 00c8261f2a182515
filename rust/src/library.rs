//! The proved library through its C interface, built with the feature `librcm` and the folder of
//! `librcm.a` in the environment variable RCM_LIB_DIR.

use crate::compare::Interface;
use crate::host::Answer;

#[allow(non_camel_case_types)]
type size_t = usize;

extern "C" {
    fn rcm_check(file: *const u8, file_len: size_t, answer: *mut u64);
    fn rcm_open(
        file: *const u8,
        file_len: size_t,
        arguments: *const u8,
        arguments_len: size_t,
        state: *mut u8,
        state_len: size_t,
        answer: *mut u64,
    );
    fn rcm_go(
        file: *const u8,
        file_len: size_t,
        form: *const u8,
        form_len: size_t,
        state: *mut u8,
        state_len: size_t,
        output: *mut u8,
        output_len: size_t,
        budget: u64,
        answer: *mut u64,
    );
    fn rcm_test(
        file: *const u8,
        file_len: size_t,
        state: *const u8,
        state_len: size_t,
        answer: *mut u64,
    );
    fn rcm_object(
        file: *const u8,
        file_len: size_t,
        state: *const u8,
        state_len: size_t,
        address: u32,
        answer: *mut u64,
    );
}

/// An answer that no call gives, so that entries left unwritten show.
const UNWRITTEN: Answer = [u64::MAX; 4];

/// The proved library.
pub struct Library;

// The slices are valid for their lengths, not null and apart from one another and the answer.
impl Interface for Library {
    fn check(&mut self, file: &[u8]) -> Answer {
        let mut answer = UNWRITTEN;
        unsafe { rcm_check(file.as_ptr(), file.len(), answer.as_mut_ptr()) };
        answer
    }

    fn open(&mut self, file: &[u8], arguments: &[u8], state: &mut [u8]) -> Answer {
        let mut answer = UNWRITTEN;
        unsafe {
            rcm_open(
                file.as_ptr(),
                file.len(),
                arguments.as_ptr(),
                arguments.len(),
                state.as_mut_ptr(),
                state.len(),
                answer.as_mut_ptr(),
            )
        };
        answer
    }

    fn go(
        &mut self,
        file: &[u8],
        form: &[u8],
        state: &mut [u8],
        output: &mut [u8],
        budget: u64,
    ) -> Answer {
        let mut answer = UNWRITTEN;
        unsafe {
            rcm_go(
                file.as_ptr(),
                file.len(),
                form.as_ptr(),
                form.len(),
                state.as_mut_ptr(),
                state.len(),
                output.as_mut_ptr(),
                output.len(),
                budget,
                answer.as_mut_ptr(),
            )
        };
        answer
    }

    fn test(&mut self, file: &[u8], state: &[u8]) -> Answer {
        let mut answer = UNWRITTEN;
        unsafe {
            rcm_test(file.as_ptr(), file.len(), state.as_ptr(), state.len(), answer.as_mut_ptr())
        };
        answer
    }

    fn object(&mut self, file: &[u8], state: &[u8], address: u32) -> Answer {
        let mut answer = UNWRITTEN;
        unsafe {
            rcm_object(
                file.as_ptr(),
                file.len(),
                state.as_ptr(),
                state.len(),
                address,
                answer.as_mut_ptr(),
            )
        };
        answer
    }
}
