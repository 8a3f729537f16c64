use crate::{ffi, Refusal};

/// Which of the ids from a start on have been noted: says when no earlier id is still out.
#[derive(Clone, Debug)]
pub struct IdSequence {
    words: [u64; 64],
    sequence: ffi::Sequence,
}

impl IdSequence {
    /// Nothing noted yet.
    pub fn new(start: u64) -> IdSequence {
        // Not zeros: a new sequence may begin over words that hold anything, and a test would see it if it could not.
        IdSequence { words: [u64::MAX; 64], sequence: unsafe { ffi::awirbesh_sequence_new(start) } }
    }

    /// Notes an id.
    pub fn note(&mut self, id: u64) -> Result<(), Refusal> {
        let noted = unsafe { ffi::awirbesh_sequence_note(self.words.as_mut_ptr(), self.sequence, id) };
        self.sequence = noted.sequence;
        Refusal::test(noted.number, 0)
    }

    /// Whether no id from the first start to the highest noted is missing, so also before any note.
    pub fn complete(&self) -> bool {
        unsafe { ffi::awirbesh_sequence_complete(self.sequence) != 0 }
    }

    /// The first id that has not been passed yet.
    pub fn start(&self) -> u64 {
        self.sequence.start
    }

    /// One past the highest id noted, or the start.
    pub fn after(&self) -> u64 {
        self.sequence.after
    }
}
