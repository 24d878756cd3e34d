//! The three laws, by test on random accepted programs, and two that hold W-204 against 01, on refused ones too.

use crate::compare::Outcome;
use crate::graders::Grader;
use ikhzorvan::{Verdict, ANSWER_LEN, RECORD_LEN};
use oracle::{graded_as, Graded, Reading};
use std::fmt;
use texts::program::{op, Node, NO_NAME};
use texts::random::{self, declare, undeclared, Declare, Shape};
use texts::unnamed::{self, Slope};
use texts::{Program, Rng};

type Answer = [u8; ANSWER_LEN];

/// How often each law has been tried, and how often there was something to see.
#[derive(Default)]
pub struct Tried {
    pub programs: usize,
    /// Times that some declared grade was worse where more is held, so that law (a) says nothing.
    pub rising: usize,
    /// Methods whose grade falls somewhere as more locks are held.
    pub falling: usize,
    /// Programs whose declarations were struck out, and those of which some grade fell.
    pub struck: usize,
    pub better: usize,
    /// Methods whose found grades were declared.
    pub declared: usize,
    /// Programs graded by both rules, and those of which some grade was higher by W-204.
    pub graded_twice: usize,
    pub higher: usize,
    /// Programs without a declared grade that is worse where more is held, those that were refused, and those with a call
    /// whose grade hangs on what is chosen for its FF names.
    pub alike: usize,
    pub alike_refused: usize,
    pub alike_with_choice: usize,
}

impl Tried {
    /// Was there enough to see? Laws (d) and (e) say nothing of a program without calls with FF.
    pub fn is_enough(&self) -> bool {
        4 * self.higher >= self.graded_twice && 3 * self.alike_with_choice >= self.alike
    }
}

impl fmt::Display for Tried {
    fn fmt(&self, out: &mut fmt::Formatter) -> fmt::Result {
        let Tried { programs, rising, falling, struck, better, declared, .. } = self;
        let Tried { graded_twice, higher, alike, alike_refused, alike_with_choice, .. } = self;
        writeln!(out, "  {programs} accepted programs, each grader")?;
        writeln!(
            out,
            "  (a) more locks held, no grade worse, unless declared so ({rising} times); {falling} methods have grades that fall"
        )?;
        writeln!(
            out,
            "  (b) {struck} times declarations struck out, no grade worse; {better} times some grade better"
        )?;
        writeln!(out, "  (c) {declared} times found grades declared, every grade the same")?;
        writeln!(
            out,
            "  (d) {graded_twice} programs, no grade lower by W-204 than by 01; {higher} have one that is higher"
        )?;
        writeln!(out, "  (e) {alike} programs, {alike_refused} refused, no declared grade worse where more is held:")?;
        write!(out, "      each grader's outcome is that of 01; in {alike_with_choice} the choices for FF differ")
    }
}

/// Tries each law on so many programs, or tells how one fails.
pub fn run(seed: u64, count: usize, graders: &[Box<dyn Grader>]) -> Result<Tried, String> {
    let mut tried = Tried::default();
    let rng = &mut Rng::of_seed(seed);
    try_three(rng, count, graders, &mut tried)?;
    while tried.graded_twice < count {
        let program = if rng.percent(50) { unnamed::program(rng, Slope::Rising) } else { random::program(rng) };
        nowhere_lower(&program, &mut tried).map_err(|law| broken(law, "oracle", &program))?;
    }
    while tried.alike < count {
        let program = if rng.percent(50) { unnamed::program(rng, Slope::Falling) } else { program(rng) };
        if !has_rising(&program) {
            alike_by_both(&program, graders, &mut tried)?;
        }
    }
    Ok(tried)
}

/// Tries the three laws on so many accepted programs.
fn try_three(rng: &mut Rng, count: usize, graders: &[Box<dyn Grader>], tried: &mut Tried) -> Result<(), String> {
    while tried.programs < count {
        let program = if rng.percent(30) { unnamed::program(rng, Slope::Rising) } else { program(rng) };
        let mut is_accepted = false;
        for grader in graders {
            if let Some(answer) = accepted(grader.as_ref(), &program) {
                is_accepted = true;
                let mut laws = Laws { grader: grader.as_ref(), program: &program, answer, tried };
                laws.try_each(rng).map_err(|law| broken(law, grader.name(), &program))?;
            }
        }
        tried.programs += usize::from(is_accepted);
    }
    Ok(())
}

/// A program whose declared tables are no worse where more locks are held.
fn program(rng: &mut Rng) -> Program {
    let shape = Shape { careless: rng.below(3), ..Shape::random(rng) };
    let mut program = undeclared(rng, shape);
    declare(rng, &mut program, Declare::Looser, 40);
    program
}

fn broken(law: &str, grader: &str, program: &Program) -> String {
    format!("{grader}: law {law} fails on\n{}", String::from_utf8_lossy(&program.text()))
}

/// The answer, if the program is accepted.
fn accepted(grader: &dyn Grader, program: &Program) -> Option<Answer> {
    let (mut answer, mut record) = ([0; ANSWER_LEN], [0; RECORD_LEN]);
    (grader.grade(&program.text(), &mut answer, &mut record) == 0).then_some(answer)
}

fn table<'a>(answer: &'a Answer, program: &Program, method: usize) -> &'a [u8] {
    &answer[16 * method..][..program.methods[method].entries()]
}

fn is_no_worse<T: PartialOrd>(one: &[T], other: &[T]) -> bool {
    one.iter().zip(other).all(|(one, other)| one <= other)
}

/// Is no entry of a table worse than one with less held?
fn is_no_worse_with_more(table: &[u8]) -> bool {
    let one_more = |held: usize| (0..4).map(move |name| held | 1 << name).filter(|&more| more < table.len());
    (0..table.len()).all(|held| one_more(held).all(|more| table[more] <= table[held]))
}

/// Is some declared grade worse where more is held?
fn has_rising(program: &Program) -> bool {
    program.methods.iter().flat_map(|method| &method.declared).any(|table| !is_no_worse_with_more(table))
}

/// (d) The lowest grades by W-204 are nowhere below those by 01, so that it accepts nothing that 01 refuses.
fn nowhere_lower(program: &Program, tried: &mut Tried) -> Result<(), &'static str> {
    let [w204, of_01] = [Reading::W204, Reading::Of01].map(|reading| lowest(reading, program));
    let mut tables = w204.tables.iter().zip(&of_01.tables);
    if !tables.all(|(table, of_01)| is_no_worse(of_01, table)) {
        return Err("(d), no grade lower");
    }
    if matches!((w204.verdict, of_01.verdict), (Verdict::Accepted(_), Verdict::Refused(_))) {
        return Err("(d), nothing accepted that 01 refuses");
    }
    tried.graded_twice += 1;
    tried.higher += usize::from(w204.tables != of_01.tables);
    Ok(())
}

/// (e) Where no declared grade is worse with more held, both rules give the same outcome: "not held" is then the worst choice.
fn alike_by_both(program: &Program, graders: &[Box<dyn Grader>], tried: &mut Tried) -> Result<(), String> {
    let text = program.text();
    let of_01 = Outcome::of(Reading::Of01, &text);
    if let Some(grader) = graders.iter().find(|grader| Outcome::by(grader.as_ref(), &text) != of_01) {
        return Err(broken("(e)", grader.name(), program));
    }
    tried.alike += 1;
    tried.alike_refused += usize::from(of_01.verdict.number() != 0);
    tried.alike_with_choice += usize::from(has_choice(program));
    Ok(())
}

fn lowest(reading: Reading, program: &Program) -> Graded {
    graded_as(reading, &program.text()).expect("the program can be read")
}

/// Is there a call with FF of a method that has another grade with that name held than without?
fn has_choice(program: &Program) -> bool {
    let tables = lowest(Reading::W204, program).tables;
    let differs = |node: &Node, name: usize| {
        let table = &tables[usize::from(node.u)];
        node.t[name] == NO_NAME && (0..table.len()).any(|held| table[held & !(1 << name)] != table[held | 1 << name])
    };
    let mut calls = program.methods.iter().flat_map(|method| &method.nodes).filter(|node| node.op == op::CALL);
    calls.any(|node| (0..4).any(|name| differs(node, name)))
}

/// An accepted program, to try the laws on.
struct Laws<'a> {
    grader: &'a dyn Grader,
    program: &'a Program,
    answer: Answer,
    tried: &'a mut Tried,
}

impl Laws<'_> {
    fn try_each(&mut self, rng: &mut Rng) -> Result<(), &'static str> {
        self.more_locks_held()?;
        self.declarations_struck_out(rng)?;
        self.found_grades_declared(rng)
    }

    /// (a) No method's grade gets worse when more locks are held, if no declared one does.
    fn more_locks_held(&mut self) -> Result<(), &'static str> {
        if has_rising(self.program) {
            self.tried.rising += 1;
            return Ok(());
        }
        for method in 0..self.program.methods.len() {
            let table = table(&self.answer, self.program, method);
            if !is_no_worse_with_more(table) {
                return Err("(a)");
            }
            self.tried.falling += usize::from(table.last() < table.first());
        }
        Ok(())
    }

    /// (b) With any declarations struck out the program is accepted, and no grade is worse.
    fn declarations_struck_out(&mut self, rng: &mut Rng) -> Result<(), &'static str> {
        let mut struck = self.program.clone();
        let percent = rng.pick(&[30, 60, 100]);
        for method in &mut struck.methods {
            if rng.percent(percent) {
                method.declared = None;
            }
        }
        if struck == *self.program {
            return Ok(());
        }
        let answer = accepted(self.grader, &struck).ok_or("(b), accepted")?;
        self.tried.struck += 1;
        self.tried.better += usize::from(answer != self.answer);
        is_no_worse(&answer, &self.answer).then_some(()).ok_or("(b), no grade worse")
    }

    /// (c) With a method's found grades as its declaration the program is accepted, and every grade is the same.
    fn found_grades_declared(&mut self, rng: &mut Rng) -> Result<(), &'static str> {
        let mut declared = self.program.clone();
        let only = rng.percent(50).then(|| rng.below(declared.methods.len()));
        for (number, method) in declared.methods.iter_mut().enumerate() {
            if only.is_none_or(|only| only == number) {
                method.declared = Some(table(&self.answer, self.program, number).to_vec());
                self.tried.declared += 1;
            }
        }
        let answer = accepted(self.grader, &declared).ok_or("(c), accepted")?;
        (answer == self.answer).then_some(()).ok_or("(c), every grade the same")
    }
}
