//! The file that a state is kept in.

use std::ffi::OsStr;

use crate::answer::Answer;
use crate::files::{replace, Source};
use crate::live::sound;
use crate::live::words::{State, STATE_WORDS};
use crate::print::Form;
use crate::response::Response;

const WORD_BYTES: usize = 8;

/// Bytes of a state's file.
pub const STATE_BYTES: usize = STATE_WORDS * WORD_BYTES;

#[derive(Clone, Copy)]
pub struct StateFile<'a>(Source<'a>);

impl<'a> StateFile<'a> {
    pub fn new(argument: &'a OsStr) -> Result<StateFile<'a>, Response> {
        let file = Source::new(argument);
        if file.is_standard_input() {
            let why = "the state is a file of its own and cannot be standard input; \
                       a file called - is ./-";
            return Err(Response::misunderstood(why));
        }
        Ok(StateFile(file))
    }

    /// All words, and those in use; or what is said where they cannot be read or are not sound.
    pub fn read(&self) -> Result<(Vec<u64>, State), Response> {
        let bytes = self.0.read(STATE_BYTES)?;
        let words = words(&bytes).ok_or_else(|| self.unsound())?;
        let state = sound::state(&words).ok_or_else(|| self.unsound())?;
        Ok((words, state))
    }

    /// Keeps these words, or the ones before.
    pub fn replace(&self, words: &[u64]) -> Result<(), Response> {
        let bytes: Vec<u8> = words.iter().flat_map(|word| word.to_le_bytes()).collect();
        replace(self.0.name(), &bytes)
    }

    fn unsound(&self) -> Response {
        let rest = "this is no sound state of a live box: it was damaged or is another file; \
                    make a fresh one, or bring back one that was kept.";
        let refusal = (Answer::refused(20, 0), rest.to_string());
        Response::refused(Form::Live, Some(self.0.name()), &[refusal])
    }
}

/// Nothing if there are more or fewer bytes than a state has.
fn words(bytes: &[u8]) -> Option<Vec<u64>> {
    let (words, _) = bytes.as_chunks::<WORD_BYTES>();
    let words = words.iter().map(|word| u64::from_le_bytes(*word));
    (bytes.len() == STATE_BYTES).then(|| words.collect())
}
