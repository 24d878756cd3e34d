//! Ways to damage a text.

use crate::program::{frames_of_text, op, text_of_frames, Program, NO_NAME};
use crate::rng::Rng;

/// Values that stand at some limit of the paper, or just past it.
const TELLING: [u8; 16] = [0, 1, 2, 3, 4, 5, 9, 10, 15, 16, 63, 64, 65, 128, 254, 255];

/// Damages a text in one to three ways.
pub fn damaged(rng: &mut Rng, text: &[u8]) -> Vec<u8> {
    let mut text = text.to_vec();
    for _ in 0..rng.pick(&[1, 1, 1, 2, 3]) {
        text = damaged_once(rng, text);
    }
    text
}

fn damaged_once(rng: &mut Rng, text: Vec<u8>) -> Vec<u8> {
    match rng.below(16) {
        0 => any_byte(rng, text),
        1 => another_digit(rng, text),
        2 => lower_case(rng, text),
        3 => cut(rng, text),
        4 => with_lines(rng, text, |rng, lines| swap(rng, lines)),
        5 => with_lines(rng, text, double),
        6 => with_lines(rng, text, remove),
        7 => with_lines(rng, text, |rng, lines| carriage_return(rng, lines)),
        8 => with_lines(rng, text, empty_line),
        9 => with_lines(rng, text, |rng, lines| cut_line(rng, lines)),
        10 => byte_taken_or_put(rng, text),
        _ => frame_value(rng, text),
    }
}

/// Changes one operand of one node to something that it may just not name, or just may.
pub fn misnamed(rng: &mut Rng, program: &mut Program) {
    let names: Vec<u8> = program.methods.iter().map(|method| method.k).collect();
    let (methods, fields) = (program.methods.len() as u8, program.fields.len() as u8);
    let in_method = rng.below(program.methods.len());
    let method = &mut program.methods[in_method];
    let own = rng.below(method.nodes.len());
    let node = &mut method.nodes[own];
    let callee_names = names.get(usize::from(node.u)).map_or(0, |&k| usize::from(k));
    match rng.below(8) {
        0 => node.op = rng.below(11) as u8,
        // Any operand, listed or not.
        1 => node.children[rng.below(3)] = rng.pick(&[0, 1, 256, own as u16]),
        2 => node.u = rng.pick(&[0, 1, fields, methods]),
        3 => node.t[rng.below(4)] = rng.pick(&[0, 1, method.k, NO_NAME]),
        // A listed operand.
        4 if op::children(node.op) > 0 => {
            let (child, below) = (rng.below(op::children(node.op)), rng.below(own + 1) as u16);
            node.children[child] = rng.pick(&[own as u16, node.children[0], below]);
        }
        5 => node.u = if matches!(node.op, op::CALL | op::FORK) { methods } else { fields },
        6 => node.t[0] = rng.pick(&[method.k, NO_NAME]),
        _ => node.t[callee_names % 4] = rng.pick(&[0, 1, NO_NAME]),
    }
}

fn any_byte(rng: &mut Rng, mut text: Vec<u8>) -> Vec<u8> {
    if !text.is_empty() {
        let at = rng.below(text.len());
        text[at] = rng.byte();
    }
    text
}

fn another_digit(rng: &mut Rng, mut text: Vec<u8>) -> Vec<u8> {
    if !text.is_empty() {
        let at = rng.below(text.len());
        text[at] = rng.pick(b"0123456789ABCDEF");
    }
    text
}

/// Makes one digit that has a lower case lower.
fn lower_case(rng: &mut Rng, mut text: Vec<u8>) -> Vec<u8> {
    let letters: Vec<usize> = (0..text.len()).filter(|&at| text[at].is_ascii_uppercase()).collect();
    if !letters.is_empty() {
        text[rng.pick(&letters)].make_ascii_lowercase();
    }
    text
}

/// Keeps only the beginning: any of it, or whole lines.
fn cut(rng: &mut Rng, mut text: Vec<u8>) -> Vec<u8> {
    text.truncate(rng.below(text.len() + 1));
    if rng.percent(50) {
        let end = text.iter().rposition(|&byte| byte == b'\n').map_or(0, |last| last + 1);
        text.truncate(end);
    }
    text
}

fn byte_taken_or_put(rng: &mut Rng, mut text: Vec<u8>) -> Vec<u8> {
    let at = rng.below(text.len() + 1);
    if at < text.len() && rng.percent(50) {
        text.remove(at);
    } else {
        text.insert(at, rng.pick(b"0F\n\r a\0"));
    }
    text
}

/// Changes the text as a list of lines, each with its 0A.
fn with_lines(rng: &mut Rng, text: Vec<u8>, change: impl Fn(&mut Rng, &mut Vec<Vec<u8>>)) -> Vec<u8> {
    let mut lines: Vec<Vec<u8>> = text.split_inclusive(|&byte| byte == b'\n').map(<[u8]>::to_vec).collect();
    if !lines.is_empty() {
        change(rng, &mut lines);
    }
    lines.concat()
}

fn swap(rng: &mut Rng, lines: &mut [Vec<u8>]) {
    let first = rng.below(lines.len());
    // Neighbours are most often of one kind, so that the text goes on being read.
    let second = if rng.percent(50) { (first + 1) % lines.len() } else { rng.below(lines.len()) };
    lines.swap(first, second);
}

fn double(rng: &mut Rng, lines: &mut Vec<Vec<u8>>) {
    let at = rng.below(lines.len());
    lines.insert(at, lines[at].clone());
}

fn remove(rng: &mut Rng, lines: &mut Vec<Vec<u8>>) {
    lines.remove(rng.below(lines.len()));
}

/// Ends one line, or each, by CR LF.
fn carriage_return(rng: &mut Rng, lines: &mut [Vec<u8>]) {
    let only = rng.percent(50).then(|| rng.below(lines.len()));
    for (number, line) in lines.iter_mut().enumerate() {
        if only.is_none_or(|only| only == number) && line.ends_with(b"\n") {
            line.insert(line.len() - 1, b'\r');
        }
    }
}

fn empty_line(rng: &mut Rng, lines: &mut Vec<Vec<u8>>) {
    lines.insert(rng.below(lines.len() + 1), b"\n".to_vec());
}

/// Takes digits off a line's end, or puts digits there.
fn cut_line(rng: &mut Rng, lines: &mut [Vec<u8>]) {
    let at = rng.below(lines.len());
    let line = &mut lines[at];
    let digits = line.len() - 1;
    let count = rng.between(1, 4);
    if rng.percent(50) {
        line.drain(digits.saturating_sub(count)..digits);
    } else {
        line.splice(digits..digits, vec![b'0'; count]);
    }
}

/// Gives one byte of one frame another value, a telling one most often.
fn frame_value(rng: &mut Rng, text: Vec<u8>) -> Vec<u8> {
    let Some(mut frames) = frames_of_text(&text).filter(|frames| !frames.is_empty()) else {
        return another_digit(rng, text);
    };
    // The lines before the nodes are few: they get as much of the damage.
    let nodes = frames.iter().position(|frame| frame[0] == 3).unwrap_or(frames.len());
    let line = if nodes > 0 && rng.percent(50) { rng.below(nodes) } else { rng.below(frames.len()) };
    // A number of methods or fields is the first that no U may have.
    let count = frames[0].get(rng.between(1, 2)).copied().unwrap_or(0);
    let frame = &mut frames[line];
    let at = rng.below(frame.len());
    frame[at] = match rng.below(5) {
        0 => frame[at].wrapping_add(1),
        1 => frame[at].wrapping_sub(1),
        2 => count,
        _ => rng.pick(&TELLING),
    };
    text_of_frames(&frames)
}
