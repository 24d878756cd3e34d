//! Those that explain grades, each behind `ikhzorvan_explain` of `include/ikhzorvan.h`.

use crate::bridge::Bridge;
use crate::graders::{Oracle, BAD_RECORD};
use ikhzorvan::{Page, Refusal, Step, Verdict, PAGE_LEN, RECORD_LEN};

/// The number of a list that is too short.
pub const TOO_SHORT: u8 = 11;

/// What is asked of a text: a method, and a held set of its.
#[derive(Clone, Copy, Debug, PartialEq, Eq)]
pub struct Question {
    pub method: usize,
    pub set: usize,
}

/// One implementation of the function.
pub trait Explainer {
    fn name(&self) -> &'static str;
    fn explain(&self, text: &[u8], question: Question, steps: &mut [Step], page: &mut [u8]) -> u8;
}

/// Lays a reason into the room for it as the function does: a page of wrong length and a list too short are refused.
pub fn laid_out(reason: &Result<Vec<Step>, Refusal>, steps: &mut [Step], page: &mut [u8]) -> u8 {
    if page.len() != PAGE_LEN {
        return BAD_RECORD;
    }
    let due = match (reason, steps.get_mut(..reason.as_ref().map_or(0, Vec::len))) {
        (Err(refusal), _) => page_of(Verdict::Refused(*refusal).record(), 0),
        (Ok(reason), None) => {
            let mut record = [0; RECORD_LEN];
            record[0] = TOO_SHORT;
            page_of(record, reason.len())
        }
        (Ok(reason), Some(room)) => {
            room.copy_from_slice(reason);
            page_of([0; RECORD_LEN], reason.len())
        }
    };
    page.copy_from_slice(&due);
    due[0]
}

fn page_of(record: [u8; RECORD_LEN], steps: usize) -> Page {
    let mut page = [0; PAGE_LEN];
    page[..RECORD_LEN].copy_from_slice(&record);
    page[RECORD_LEN..].copy_from_slice(&(steps as u16).to_be_bytes());
    page
}

impl Explainer for Oracle {
    fn name(&self) -> &'static str {
        "oracle"
    }

    fn explain(&self, text: &[u8], question: Question, steps: &mut [Step], page: &mut [u8]) -> u8 {
        laid_out(&oracle::explain(text, question.method, question.set), steps, page)
    }
}

#[cfg(feature = "engine")]
impl Explainer for crate::graders::Engine {
    fn name(&self) -> &'static str {
        "engine"
    }

    fn explain(&self, text: &[u8], question: Question, steps: &mut [Step], page: &mut [u8]) -> u8 {
        // SAFETY: the slices are each good for their length, and borrowed apart from each other.
        unsafe {
            ikhzorvan::raw::ikhzorvan_explain(
                text.as_ptr(),
                text.len(),
                question.method,
                question.set,
                steps.as_mut_ptr(),
                steps.len(),
                page.as_mut_ptr(),
                page.len(),
            )
        }
    }
}

/// The proved checker, if it is linked.
pub fn linked() -> Vec<Box<dyn Explainer>> {
    vec![
        #[cfg(feature = "engine")]
        Box::new(crate::graders::Engine),
    ]
}

/// That, and the proved checker where only a bridge leads to it.
pub fn all() -> Vec<Box<dyn Explainer>> {
    let bridge = Bridge::of_environment().map(|bridge| Box::new(bridge) as Box<dyn Explainer>);
    linked().into_iter().chain(bridge).collect()
}
