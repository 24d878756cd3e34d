//! Programs rich in calls with FF: suppliers with declared tables, and methods that call them without a name for each lock.

use crate::program::{op, Field, Method, Node, Program, NO_NAME};
use crate::random::{declare, Declare};
use crate::rng::Rng;

/// What the suppliers' tables do as more is held.
#[derive(Clone, Copy, Debug, PartialEq, Eq)]
pub enum Slope {
    /// Somewhere a lock held makes it worse: most such programs show the difference between W-204 and 01.
    Rising,
    /// Nowhere does it, so that none shows the difference.
    Falling,
}

/// The one field: narrow and write-guarded, so that a read of it is 1 with its lock held and 2 without.
const FIELD: Field = Field { wide: 0, guard: 2 };

/// A random program: the main, suppliers, which are declared and do nothing, and undeclared methods that call them and each
/// other. Some of those are then declared too.
pub fn program(rng: &mut Rng, slope: Slope) -> Program {
    let others = if rng.percent(3) { rng.between(12, 63) } else { rng.between(3, 8) };
    let a_supplier = rng.between(1, others);
    let signatures: Vec<Signature> = (0..=others).map(|number| signature(rng, number, a_supplier)).collect();
    let methods = signatures.iter().enumerate().map(|(number, own)| match own.is_supplier {
        true => Method { declared: Some(table(rng, own.k, slope)), ..Method::idle(own.k) },
        false if number == 0 && rng.percent(60) => Method::idle(0),
        false => caller(rng, &signatures, own.k),
    });
    let mut program = Program { fields: vec![FIELD], methods: methods.collect() };
    match (rng.below(6), slope) {
        (0, _) => declare(rng, &mut program, Declare::Found, 40),
        (1, Slope::Falling) => declare(rng, &mut program, Declare::Looser, 40),
        (1 | 2, Slope::Rising) => declare(rng, &mut program, Declare::Anyhow, 30),
        _ => {}
    }
    program
}

/// What is settled of a method before its body is.
#[derive(Clone, Copy)]
struct Signature {
    k: u8,
    is_supplier: bool,
}

fn signature(rng: &mut Rng, number: usize, a_supplier: usize) -> Signature {
    match number {
        0 => Signature { k: 0, is_supplier: false },
        _ if number == a_supplier || rng.percent(30) => {
            Signature { k: rng.pick(&[1, 2, 2, 3, 4, 4]), is_supplier: true }
        }
        _ => Signature { k: rng.pick(&[0, 1, 1, 2, 3, 4]), is_supplier: false },
    }
}

/// A low table, but worse where one of some names is held, or all of them, or just they. The first two, read from the other
/// end, fall as more is held.
fn table(rng: &mut Rng, k: u8, slope: Slope) -> Vec<u8> {
    let mut grades = vec![rng.below(2) as u8; 1 << k];
    for _ in 0..rng.between(1, 2) {
        let names = rng.between(1, grades.len() - 1);
        let worse = rng.pick(&[1, 2, 2, 3, 3, 3, 4, 4]);
        let is_worse: fn(usize, usize) -> bool = match (rng.below(3), slope) {
            (0, _) => |held, names| held & names != 0,
            (1, Slope::Rising) => |held, names| held == names,
            _ => |held, names| held & names == names,
        };
        for held in (0..grades.len()).filter(|&held| is_worse(held, names)) {
            grades[held] = grades[held].max(worse);
        }
    }
    if slope == Slope::Falling {
        grades.reverse();
    }
    grades
}

fn caller(rng: &mut Rng, signatures: &[Signature], k: u8) -> Method {
    let mut body = Body { rng, signatures, method: Method::new(k) };
    // Unnamed nodes come before the root's tree; what they call has no effect on grades.
    if body.rng.percent(10) {
        body.call_alone();
    }
    let mut root = match body.rng.percent(90) {
        true => body.call_alone(),
        false => body.method.push(Node::default()),
    };
    for _ in 0..body.rng.below(3) {
        root = body.above(root);
    }
    body.method
}

/// A caller's body while it grows.
struct Body<'a> {
    rng: &'a mut Rng,
    signatures: &'a [Signature],
    method: Method,
}

impl Body<'_> {
    /// Some wanted method, but for the main, if there is one.
    fn pick(&mut self, is_wanted: impl Fn(&Signature) -> bool) -> Option<usize> {
        let wanted: Vec<usize> =
            (1..self.signatures.len()).filter(|&number| is_wanted(&self.signatures[number])).collect();
        (!wanted.is_empty()).then(|| self.rng.pick(&wanted))
    }

    fn call_alone(&mut self) -> u16 {
        let plain = self.method.push(Node::default());
        self.call(plain)
    }

    /// Calls a supplier most times.
    fn call(&mut self, before: u16) -> u16 {
        let wants_any = self.rng.percent(30);
        let callee = self.pick(|method| method.is_supplier || wants_any).expect("there is a supplier");
        let free = self.rng.pick(&[20, 50, 50, 100]);
        let locks: Vec<u8> = (0..self.signatures[callee].k).map(|_| self.lock(free)).collect();
        self.method.push(Node::of(op::CALL, &[before]).naming(callee as u8, &locks))
    }

    /// FF so many times in a hundred, else any name of the method's: several callee names may get the same one.
    fn lock(&mut self, free: usize) -> u8 {
        match self.method.k {
            0 => NO_NAME,
            _ if self.rng.percent(free) => NO_NAME,
            k => self.rng.below(usize::from(k)) as u8,
        }
    }

    /// Forks a method that is no supplier if it can: the grades of such a method hang on the rule.
    fn fork(&mut self, before: u16) -> Node {
        let caller = self.pick(|method| method.k > 0 && !method.is_supplier);
        let forked = caller.or_else(|| self.pick(|method| method.is_supplier)).expect("there is a supplier");
        Node::of(op::FORK, &[before]).naming(forked as u8, &[])
    }

    /// Puts a node or more above a root.
    fn above(&mut self, root: u16) -> u16 {
        let node = match self.rng.below(12) {
            0..=2 => return self.call(root),
            3 | 4 => Node::of(op::SEQUENCE, &[root, self.call_alone()]),
            5 => Node::of(op::CHOICE, &[self.method.push(Node::default()), root, self.call_alone()]),
            6 => Node::of(op::LOOP, &[root, self.call_alone()]),
            7 if self.method.k > 0 => Node::of(op::SYNCHRONISED, &[root]).naming(0, &[self.lock(0)]),
            8 => Node::of(op::ASSERT, &[root]),
            9 | 10 => self.fork(root),
            _ => Node::of(op::READ, &[root]).naming(0, &[self.lock(30)]),
        };
        self.method.push(node)
    }
}

#[cfg(test)]
mod tests {
    use super::*;
    use oracle::{grade_as, Reading};

    /// In how many of 500 programs W-204 and 01 give another outcome.
    fn shown(slope: Slope) -> usize {
        let rng = &mut Rng::of_seed(204);
        let outcome = |reading: Reading, text: &[u8]| {
            let mut answer = [0; ikhzorvan::ANSWER_LEN];
            (grade_as(reading, text, &mut answer), answer)
        };
        let texts = (0..500).map(|_| program(rng, slope).text());
        texts.filter(|text| outcome(Reading::W204, text) != outcome(Reading::Of01, text)).count()
    }

    #[test]
    fn most_programs_with_rising_tables_show_the_difference_between_the_rules() {
        let shown = shown(Slope::Rising);
        assert!(shown > 350, "{shown}");
    }

    #[test]
    fn no_program_with_falling_tables_shows_it() {
        assert_eq!(shown(Slope::Falling), 0);
    }
}
