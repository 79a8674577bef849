// SPDX-License-Identifier: Apache-2.0
use crate::raw::{self, OfText, Owner, done, kept_text, yuglemit_session_text};
use crate::{Error, Refused};

/// The output of the command `tw`, and its exit status.
#[derive(Clone, Debug, PartialEq, Eq)]
#[non_exhaustive]
pub struct Reply {
    pub status: u8,
    pub text: Vec<u8>,
}

/// The status that leaves the handle as it was.
const NO_MEMORY: u8 = 5;

/// Returns what the command `tw` answers to these arguments if it reads this input; a run is in turn. An argument with a NUL in it is two.
///
/// ```
/// let reply = yuglemit::session(&["run", "--text"], b"proc control write int\nregs int\nINT v0 7\nSTORE d0 v0\nRET\n");
/// assert!(reply.text.starts_with(b"out 0 int 7\n"));
/// ```
pub fn session(words: &[&str], input: &[u8]) -> Reply {
    let ended: String = words.iter().flat_map(|word| [word, "\0"]).collect();
    let output = Owner::<OfText>::new();
    // Each pointer is a slice's or the owner's own.
    let status = unsafe { yuglemit_session_text(ended.as_ptr(), ended.len(), input.as_ptr(), input.len(), output.at()) };
    let text = if status == NO_MEMORY { b"memory\n".to_vec() } else { kept_text(&output).expect("the handle holds the output") };
    Reply { status, text }
}

/// Returns the explanation of a code, as `V04`, if there is such a code: what it means, what is required, the usual mistake and its correction.
///
/// ```
/// assert!(yuglemit::explain("V10").is_some_and(|text| text.starts_with("V10: ")));
/// assert_eq!((yuglemit::explain("V99"), yuglemit::explain("--help")), (None, None));
/// ```
pub fn explain(code: &str) -> Option<String> {
    let is_code = code.starts_with(|first: char| first.is_ascii_alphabetic());
    let reply = session(&["explain", code], b"");
    (is_code && reply.status == 0).then(|| String::from_utf8(reply.text).expect("texts are UTF-8"))
}

/// Verifies a program's bytes, and returns how many engines and workers its targets need.
///
/// ```
/// let Err(yuglemit::Error::Refused(refused)) = yuglemit::verify(b"TWB") else { panic!() };
/// assert_eq!((refused.code().as_str(), refused.place), ("F03", 3));
/// ```
pub fn verify(bytes: &[u8]) -> Result<(u8, u8), Error> {
    let mut verdict = [0; 9];
    // The pointers are the slice's own, and the local's.
    match unsafe { raw::yuglemit_raw_verify(bytes.as_ptr(), bytes.len(), verdict.as_mut_ptr(), verdict.len()) } {
        raw::code::REJECTED => Err(Error::Refused(Refused::of(&verdict))),
        code => done(code).map(|()| (verdict[2] as u8, verdict[3] as u8)),
    }
}
