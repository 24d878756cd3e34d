//! The safe functions.

use crate::raw::{ikhzorvan_explain, ikhzorvan_grade, ikhzorvan_session};
use crate::{
    Accepted, Page, Record, Refusal, Step, Verdict, ANSWER_LEN, LONGEST_SESSION, MOST_STEPS, PAGE_LEN, RECORD_LEN,
};

/// The number by which explaining asks for a longer list.
const TOO_SHORT: u8 = 11;

/// Room enough for most reasons.
const FIRST_STEPS: usize = 64;

/// Grades a text into an answer: entry number h of method m at 16m + h, every other byte 0. A refusal leaves the answer
/// untouched.
///
/// ```
/// use ikhzorvan::{grade, Refusal, ANSWER_LEN};
///
/// // One method, the main, of one node: a plain value.
/// let text = b"0101000001\n040000010000000000000000000000000000000000\n03000000000000000000000000\n";
/// let mut answer = [0; ANSWER_LEN];
/// let accepted = grade(text, &mut answer)?;
/// assert_eq!((accepted.methods, answer[0]), (1, 0));
///
/// let refusal = grade(b"01 01\n", &mut answer).unwrap_err();
/// assert_eq!(refusal, Refusal::Malformed { line: 1 });
/// # Ok::<(), Refusal>(())
/// ```
pub fn grade(text: &[u8], answer: &mut [u8; ANSWER_LEN]) -> Result<Accepted, Refusal> {
    match grade_into(text, answer) {
        Verdict::Accepted(accepted) => Ok(accepted),
        Verdict::Refused(refusal) => Err(refusal),
    }
}

/// Grades a text into a slice, which is refused if it is not 1,024 bytes long.
pub fn grade_into(text: &[u8], answer: &mut [u8]) -> Verdict {
    let mut record = [0; RECORD_LEN];
    // SAFETY: the three slices are each good for their length, and borrowed apart from each other.
    let number = unsafe {
        ikhzorvan_grade(text.as_ptr(), text.len(), answer.as_mut_ptr(), answer.len(), record.as_mut_ptr(), record.len())
    };
    let verdict = Verdict::from_record(&record).expect("a record is that of a verdict");
    assert_eq!(verdict.number(), number, "the record begins with the number that is returned");
    verdict
}

/// What the grading program prints for a text.
///
/// ```
/// let text = b"0101000001\n040000010000000000000000000000000000000000\n03000000000000000000000000\n";
/// assert_eq!(ikhzorvan::session(text), b"10010000\n11000000\n");
/// assert_eq!(ikhzorvan::session(b""), b"1F0400010000000000\n");
/// ```
pub fn session(text: &[u8]) -> Vec<u8> {
    let mut out = vec![0; LONGEST_SESSION];
    // SAFETY: both slices are good for their length, and borrowed apart from each other.
    let len = unsafe { ikhzorvan_session(text.as_ptr(), text.len(), out.as_mut_ptr(), out.len()) };
    assert!(len <= out.len(), "no session is longer than {LONGEST_SESSION} bytes");
    out.truncate(len);
    out
}

/// Gives the reason for the grade of a method under a held set, bit j of which says that the method's lock name j is held. The
/// first step is the method's root; each goes on to the part of its node that made the grade, and the last says what is at the
/// bottom of it.
///
/// ```
/// use ikhzorvan::{explain, rule, Refusal, Step};
///
/// // One method, the main, which reads a field without a guard.
/// let text = b"0101010002\n020003\n040000020000000000000000000000000000000000\n\
///     03000000000000000000000000\n03010000000000000000000000\n";
/// let steps = explain(text, 0, 0)?;
/// assert_eq!(steps, [Step { method: 0, node: 1, set: 0, round: 1, grade: 2, rule: rule::ACCESS }]);
///
/// assert_eq!(explain(text, 1, 0), Err(Refusal::NoEntry));
/// # Ok::<(), Refusal>(())
/// ```
pub fn explain(text: &[u8], method: usize, set: usize) -> Result<Vec<Step>, Refusal> {
    let mut steps = vec![Step::default(); FIRST_STEPS];
    let (mut number, mut page) = explain_into(text, method, set, &mut steps);
    if number == TOO_SHORT {
        steps.resize(count(&page), Step::default());
        (number, page) = explain_into(text, method, set, &mut steps);
    }
    if number == 0 {
        steps.truncate(count(&page));
        return Ok(steps);
    }
    Err(refusal(&page))
}

/// What the archive returns, and the page.
fn explain_into(text: &[u8], method: usize, set: usize, steps: &mut [Step]) -> (u8, Page) {
    let mut page = [0; PAGE_LEN];
    // SAFETY: the three slices are each good for their length, and borrowed apart from each other.
    let number = unsafe {
        ikhzorvan_explain(
            text.as_ptr(),
            text.len(),
            method,
            set,
            steps.as_mut_ptr(),
            steps.len(),
            page.as_mut_ptr(),
            page.len(),
        )
    };
    assert_eq!(page[0], number, "the page begins with the number that is returned");
    (number, page)
}

/// How many steps were written, or are needed.
fn count(page: &Page) -> usize {
    let count = usize::from(u16::from_be_bytes([page[RECORD_LEN], page[RECORD_LEN + 1]]));
    assert!(count <= MOST_STEPS, "no reason has more than {MOST_STEPS} steps");
    count
}

/// The refusal that a page stands for, 2 to 7 or 10.
fn refusal(page: &Page) -> Refusal {
    let record: &Record = page.first_chunk().expect("a page begins with a record");
    match Verdict::from_record(record) {
        Some(Verdict::Refused(refusal)) => refusal,
        None if page[0] == Refusal::NoEntry.number() => Refusal::NoEntry,
        _ => panic!("a page is that of a refusal: {page:?}"),
    }
}
