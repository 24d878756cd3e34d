//! The functions of the archive as they are. `ikhzorvan.h` says the same for C.

use crate::Step;

extern "C" {
    /// Grades a text. Returns the refusal number, 0 to 7, and writes the record; the answer is written only if it is 0.
    ///
    /// `record` must be 11 bytes ([`crate::Record`]); at any other length 255 is returned and nothing at all is written.
    /// `answer` must be 1,024 bytes; any other length is refusal 1.
    ///
    /// # Safety
    /// Each pointer must be good for as many bytes as the length after it says: `text` for reads, `answer` and `record`
    /// for reads and writes. No two of them may overlap. A pointer before a length of 0 may be null. The calling thread
    /// must have [`crate::STACK`] bytes of stack left.
    pub fn ikhzorvan_grade(
        text: *const u8,
        text_len: usize,
        answer: *mut u8,
        answer_len: usize,
        record: *mut u8,
        record_len: usize,
    ) -> u8;

    /// Writes the bytes that the grading program prints for a text, and returns how many they are.
    ///
    /// If `out` is shorter than that, nothing is written, and the needed length is returned all the same. Bytes of `out`
    /// past the session are untouched.
    ///
    /// # Safety
    /// As for [`ikhzorvan_grade`], with `text` for reads and `out` for reads and writes.
    pub fn ikhzorvan_session(text: *const u8, text_len: usize, out: *mut u8, out_len: usize) -> usize;

    /// Writes the reason for the grade of a method under a held set into a list of steps. Returns 0 and writes the steps; or
    /// returns the refusal number, 2 to 7 as [`ikhzorvan_grade`] does, 10 if there is no such method or it has no such held
    /// set, or else 11 if the list is too short. A refusal leaves the list untouched, and so are steps past the written ones.
    ///
    /// `page` must be 13 bytes ([`crate::Page`]); at any other length 255 is returned and nothing at all is written.
    ///
    /// # Safety
    /// As for [`ikhzorvan_grade`], with `text` for reads, `steps` and `page` for reads and writes. `steps` must be good for
    /// `steps_len` steps, and aligned for them.
    pub fn ikhzorvan_explain(
        text: *const u8,
        text_len: usize,
        method: usize,
        set: usize,
        steps: *mut Step,
        steps_len: usize,
        page: *mut u8,
        page_len: usize,
    ) -> u8;
}
