//! A program as trees, and what each node means.

use crate::grade::{Grade, Held};

/// One grade for each held set of a method's lock names, by the number of the entry.
pub type Table = Vec<Grade>;

/// A program whose text has been read without refusal.
#[derive(Debug)]
pub struct Program {
    pub methods: Vec<Method>,
}

#[derive(Debug)]
pub struct Method {
    /// How many lock names the method has: the paper's k.
    pub names: usize,
    /// The declared table, if the method is declared.
    pub declared: Option<Table>,
    /// The tree of the method's last node. Trees that no node names have no effect on grades, and are not kept.
    pub root: Node,
    /// Every fork node of the method, named or not, in node order.
    pub forks: Vec<Fork>,
}

/// A fork node: its number within its method, and the method that it forks.
#[derive(Clone, Copy, Debug, PartialEq, Eq)]
pub struct Fork {
    pub node: usize,
    pub method: usize,
}

/// A lock as a node names it: one of the method's own names, or none that is constant (FF). At an access FF "means not
/// held"; what it means at a call, [`Reading`] says.
pub type Lock = Option<usize>;

/// Whose rule a call's FF is read by.
#[derive(Clone, Copy, Debug, PartialEq, Eq)]
pub enum Reading {
    /// The rule in force: the callee's name may be held or not.
    W204,
    /// 01's reading, for comparison: "such a lock counts as not held".
    Of01,
}

/// A node of a method's tree: its number, counted from 0 within the method, and what it does.
#[derive(Debug)]
pub struct Node {
    pub number: usize,
    pub op: Op,
}

#[derive(Debug)]
pub enum Op {
    Plain,
    Read(Box<Node>, Access),
    Write(Box<Node>, Box<Node>, Access),
    Sequence(Box<Node>, Box<Node>),
    Choice(Box<Node>, Box<Node>, Box<Node>),
    Loop { test: Box<Node>, body: Box<Node> },
    Synchronised(usize, Box<Node>),
    Assert(Box<Node>),
    Call(Box<Node>, Call),
    Fork(Box<Node>),
}

/// A callee, and the caller's lock for each of the callee's names.
#[derive(Debug)]
pub struct Call {
    pub method: usize,
    pub locks: Vec<Lock>,
    pub reading: Reading,
}

#[derive(Clone, Copy, Debug)]
pub struct Field {
    pub wide: bool,
    pub guard: Guard,
}

#[derive(Clone, Copy, Debug, PartialEq, Eq)]
pub enum Guard {
    Final,
    Guarded,
    WriteGuarded,
    None,
}

impl Guard {
    /// Does an access to such a field name a lock?
    pub fn names_a_lock(self) -> bool {
        matches!(self, Guard::Guarded | Guard::WriteGuarded)
    }
}

/// A field, and the lock that an access to it names.
#[derive(Clone, Copy, Debug)]
pub struct Access {
    pub field: Field,
    pub lock: Lock,
}

impl Field {
    /// "2 for a narrow field and 3 for a wide one".
    fn unprotected(self) -> Grade {
        if self.wide {
            Grade::Cmpd
        } else {
            Grade::Atomic
        }
    }
}

impl Access {
    /// Is the access's lock held? "FF at a guarded or write-guarded access also means not held."
    fn is_locked(self, held: Held) -> bool {
        self.lock.is_some_and(|name| held.has(name))
    }

    pub fn read(self, held: Held) -> Grade {
        match (self.field.guard, self.is_locked(held)) {
            (Guard::Final, _) => Grade::Const,
            (Guard::Guarded | Guard::WriteGuarded, true) => Grade::Mover,
            (Guard::Guarded, false) => Grade::Error,
            (Guard::WriteGuarded, false) | (Guard::None, _) => self.field.unprotected(),
        }
    }

    pub fn write(self, held: Held) -> Grade {
        match (self.field.guard, self.is_locked(held)) {
            (Guard::Final, _) => Grade::Error,
            (Guard::Guarded, true) => Grade::Mover,
            (Guard::Guarded | Guard::WriteGuarded, false) => Grade::Error,
            (Guard::WriteGuarded, true) | (Guard::None, _) => self.field.unprotected(),
        }
    }
}

impl Call {
    /// "A call takes the largest callee entry over all choices for its FF names, each chosen apart."
    fn grade(&self, held: Held, callee: &mut impl FnMut(usize, Held) -> Grade) -> Grade {
        self.grade_from(0, Held::NONE, held, callee)
    }

    /// The same once the callee's names below `name` are settled, and those in `settled` are held.
    fn grade_from(
        &self,
        name: usize,
        settled: Held,
        held: Held,
        callee: &mut impl FnMut(usize, Held) -> Grade,
    ) -> Grade {
        let Some(lock) = self.locks.get(name) else {
            return callee(self.method, settled);
        };
        let mut branch = |is_held: bool| {
            let settled = if is_held { settled.with(name) } else { settled };
            self.grade_from(name + 1, settled, held, callee)
        };
        match (lock, self.reading) {
            // "Callee name j is held exactly if Tj is in H."
            (Some(lock), _) => branch(held.has(*lock)),
            // "Document 000 joins both branches."
            (None, Reading::W204) => branch(false).join(branch(true)),
            (None, Reading::Of01) => branch(false),
        }
    }
}

impl Node {
    /// The node's grade under a held set, where `callee(m, h)` is method m's grade under h.
    pub fn grade(&self, held: Held, callee: &mut impl FnMut(usize, Held) -> Grade) -> Grade {
        match &self.op {
            Op::Plain => Grade::Const,
            Op::Read(x, access) => x.grade(held, callee).then(access.read(held)),
            Op::Write(x, y, access) => {
                let before = x.grade(held, callee).then(y.grade(held, callee));
                before.then(access.write(held))
            }
            Op::Sequence(x, y) => x.grade(held, callee).then(y.grade(held, callee)),
            Op::Choice(x, y, z) => {
                let either = y.grade(held, callee).join(z.grade(held, callee));
                x.grade(held, callee).then(either)
            }
            Op::Loop { test, body } => {
                let test = test.grade(held, callee);
                test.then(body.grade(held, callee).then(test).repeated())
            }
            Op::Synchronised(lock, x) if held.has(*lock) => x.grade(held, callee),
            Op::Synchronised(lock, x) => x.grade(held.with(*lock), callee).locked(),
            Op::Assert(x) => x.grade(held, callee).asserted(),
            Op::Call(x, call) => x.grade(held, callee).then(call.grade(held, callee)),
            Op::Fork(x) => x.grade(held, callee).then(Grade::Atomic),
        }
    }
}

impl Method {
    /// "There are 2^k entries, from none held to all held."
    pub fn entries(&self) -> usize {
        1 << self.names
    }

    /// The root's table, for given tables of all methods.
    pub fn root_table(&self, tables: &[Table]) -> Table {
        let grade = |entry| self.root.grade(Held::of_entry(entry), &mut |method, held| tables[method][held.entry()]);
        (0..self.entries()).map(grade).collect()
    }
}
