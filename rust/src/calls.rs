//! The five calls as tests and cases make them: of this interpreter and, with the feature `librcm`, of the proved library on
//! copies of the same buffers, which must give the same answer and leave the same bytes.

#[cfg(not(feature = "librcm"))]
pub use crate::host::{check, go, object, open, test};

#[cfg(feature = "librcm")]
pub use both::{check, go, object, open, test};

#[cfg(feature = "librcm")]
mod both {
    use crate::compare::Interface;
    use crate::host::{self, Answer};
    use crate::library::Library;

    pub fn check(file: &[u8]) -> Answer {
        let answer = host::check(file);
        assert_eq!(Library.check(file), answer, "the library's verdict");
        answer
    }

    pub fn open(file: &[u8], arguments: &[u8], state: &mut [u8]) -> Answer {
        let mut copy = state.to_vec();
        let answer = host::open(file, arguments, state);
        assert_eq!(Library.open(file, arguments, &mut copy), answer, "the library's opening");
        assert!(copy == state, "the library's opening leaves another state");
        answer
    }

    pub fn go(
        file: &[u8],
        form: &[u8],
        state: &mut [u8],
        output: &mut [u8],
        budget: u64,
    ) -> Answer {
        let (mut state_copy, mut output_copy) = (state.to_vec(), output.to_vec());
        let answer = host::go(file, form, state, output, budget);
        let other = Library.go(file, form, &mut state_copy, &mut output_copy, budget);
        assert_eq!(other, answer, "the library's going on");
        assert!(state_copy == state, "the library's going on leaves another state");
        assert!(output_copy == output, "the library's going on leaves another output");
        answer
    }

    pub fn test(file: &[u8], state: &[u8]) -> Answer {
        let answer = host::test(file, state);
        assert_eq!(Library.test(file, state), answer, "the library's state test");
        answer
    }

    pub fn object(file: &[u8], state: &[u8], address: u32) -> Answer {
        let answer = host::object(file, state, address);
        assert_eq!(Library.object(file, state, address), answer, "the library's reader of states");
        answer
    }
}
