//! What the grading program prints.

use crate::{accepted, Way};
use ikhzorvan::{Refusal, Verdict, LONGEST_SESSION};

const DIGITS: &[u8; 16] = b"0123456789ABCDEF";

/// Writes the session of a text into `out`, if there is room for all of it, and tells how many bytes it has.
pub fn session(way: Way, text: &[u8], out: &mut [u8]) -> usize {
    let mut lines = Vec::with_capacity(LONGEST_SESSION);
    match accepted(way, text) {
        Err(refusal) => refusal_line(&mut lines, refusal),
        Ok((program, tables, accepted)) => {
            let [high, low] = accepted.rounds.to_be_bytes();
            line(&mut lines, &[0x10, accepted.methods, high, low], &[]);
            for (number, (method, table)) in program.methods.iter().zip(&tables).enumerate() {
                line(&mut lines, &[0x11, number as u8, method.k], &table[..method.entries()]);
            }
        }
    }
    if let Some(room) = out.get_mut(..lines.len()) {
        room.copy_from_slice(&lines);
    }
    lines.len()
}

fn refusal_line(lines: &mut Vec<u8>, refusal: Refusal) {
    // The refusal frame has the numbers of a record up to the held set, in the same order.
    line(lines, &[0x1F], &Verdict::Refused(refusal).record()[..8]);
}

fn line(lines: &mut Vec<u8>, head: &[u8], rest: &[u8]) {
    for &byte in head.iter().chain(rest) {
        lines.push(DIGITS[usize::from(byte / 16)]);
        lines.push(DIGITS[usize::from(byte % 16)]);
    }
    lines.push(b'\n');
}
