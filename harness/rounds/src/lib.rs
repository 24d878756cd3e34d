//! The paper's rules, with W-204, as an ordinary Rust programmer would write them for speed, round by round, without tricks.
//!
//! The baseline of the benchmarks, and a second check on the oracle: it shares no code with it.

mod read;
mod session;
mod solve;

use ikhzorvan::{Accepted, Refusal, Verdict, ANSWER_LEN};
use read::Program;
use solve::Tables;

pub use session::session;
pub use solve::Way;

/// Grades a text into a lent answer, which a refusal leaves untouched.
pub fn grade(way: Way, text: &[u8], answer: &mut [u8]) -> Verdict {
    if answer.len() != ANSWER_LEN {
        return Verdict::Refused(Refusal::WrongLength);
    }
    match accepted(way, text) {
        Err(refusal) => Verdict::Refused(refusal),
        Ok((_, tables, accepted)) => {
            // Entries that a method doesn't have are 0 in its table too.
            answer.fill(0);
            for (room, table) in answer.chunks_exact_mut(16).zip(&tables) {
                room.copy_from_slice(table);
            }
            Verdict::Accepted(accepted)
        }
    }
}

/// The program, the tables and the numbers of an accepted text.
fn accepted(way: Way, text: &[u8]) -> Result<(Program, Tables, Accepted), Refusal> {
    let program = read::program(text)?;
    let (tables, rounds) = solve::lowest(way, &program);
    if let Some(broken) = solve::first_broken(way, &program, &tables) {
        return Err(Refusal::Broken(broken));
    }
    let methods = program.methods.len() as u8;
    Ok((program, tables, Accepted { methods, rounds }))
}
