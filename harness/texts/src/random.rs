//! Random programs that can be read: refusals 1 to 6 never come of them, unless they are damaged afterwards.

use crate::program::{op, Field, Method, Node, Program, NO_NAME};
use crate::rng::Rng;
use oracle::Grade;

/// How large a program is, and how carefully it locks.
#[derive(Clone, Copy, Debug)]
pub struct Shape {
    pub methods: usize,
    /// At least as many as methods.
    pub nodes: usize,
    pub fields: usize,
    /// The fewest and the most lock names that a method has, but for the main, which has none.
    pub fewest_names: u8,
    pub names: u8,
    /// How many times in a hundred a node does not care which locks are held.
    pub careless: usize,
    /// How many times in a hundred a node with one child is a call, whatever else it could be.
    pub calls: usize,
}

impl Shape {
    /// A shape of random size: most are small, few fill every limit.
    pub fn random(rng: &mut Rng) -> Shape {
        let careless = rng.pick(&[0, 0, 0, 1, 5, 30]);
        let (methods, nodes, fields) = match rng.below(100) {
            0..=29 => (3, 10, 4),
            30..=79 => (8, 40, 6),
            80..=97 => (20, 150, 12),
            _ => (64, 1024, 64),
        };
        let methods = rng.between(1, methods);
        let nodes = rng.between(methods, nodes.max(methods));
        Shape {
            methods,
            nodes,
            fields: rng.between(0, fields),
            fewest_names: 0,
            names: rng.between(1, 4) as u8,
            careless,
            calls: rng.pick(&[0, 0, 40, 80]),
        }
    }

    /// 64 methods, 64 fields, 1,024 nodes, and 4 lock names wherever they may be.
    pub fn full() -> Shape {
        Shape { methods: 64, nodes: 1024, fields: 64, fewest_names: 4, names: 4, careless: 1, calls: 0 }
    }
}

/// What a body must know of a method that it calls.
#[derive(Clone, Copy)]
struct Signature {
    k: u8,
    /// The names that a caller had better hold, as a held set.
    needs: usize,
}

/// A random program, in which no method is declared.
pub fn undeclared(rng: &mut Rng, shape: Shape) -> Program {
    let fields: Vec<Field> = (0..shape.fields).map(|_| field(rng)).collect();
    let signatures: Vec<Signature> = (0..shape.methods).map(|number| signature(rng, number, shape)).collect();
    let sizes = parts(rng, shape.nodes, shape.methods);
    let methods = signatures.iter().zip(sizes);
    let methods = methods.map(|(own, size)| method(rng, *own, &signatures, &fields, size, shape)).collect();
    Program { fields, methods }
}

fn field(rng: &mut Rng) -> Field {
    Field { wide: u8::from(rng.percent(25)), guard: rng.pick(&[0, 1, 1, 1, 2, 2, 3]) }
}

fn signature(rng: &mut Rng, number: usize, shape: Shape) -> Signature {
    let names = rng.pick(&[0, 1, 1, 2, 3, 4, 4]).clamp(shape.fewest_names, shape.names);
    let k = if number == 0 { 0 } else { names };
    let needs = if rng.percent(50) { rng.below(1 << k) } else { 0 };
    Signature { k, needs }
}

/// Cuts a whole into random parts of at least 1.
fn parts(rng: &mut Rng, whole: usize, count: usize) -> Vec<usize> {
    let mut sizes = vec![1; count];
    for _ in count..whole {
        sizes[rng.below(count)] += 1;
    }
    sizes
}

fn method(
    rng: &mut Rng,
    own: Signature,
    signatures: &[Signature],
    fields: &[Field],
    size: usize,
    shape: Shape,
) -> Method {
    let mut body = Body { rng, own, signatures, fields, shape, method: Method::new(own.k) };
    let mut left = size;
    // Trees that no node names come before the root's.
    while left > 1 && body.rng.percent(10) {
        let unnamed = body.rng.between(1, left - 1);
        body.tree(unnamed, own.needs);
        left -= unnamed;
    }
    body.tree(left, own.needs);
    body.method
}

/// A method's body while it grows.
struct Body<'a> {
    rng: &'a mut Rng,
    own: Signature,
    signatures: &'a [Signature],
    fields: &'a [Field],
    shape: Shape,
    method: Method,
}

/// A tree that has been added: the number of its root, and a guess at its grade where all goes well.
#[derive(Clone, Copy)]
struct Tree {
    root: u16,
    guess: Grade,
}

impl Body<'_> {
    /// Adds a tree of exactly so many nodes, where the locks `held` may be taken to be held.
    fn tree(&mut self, size: usize, held: usize) -> Tree {
        match self.op(size) {
            op::PLAIN => self.add(Node::default(), Grade::Const),
            op::SYNCHRONISED => self.synchronised(size, held),
            op::ASSERT => self.assert(size, held),
            op => {
                let trees = self.children(op, size - 1, held);
                let children: Vec<u16> = trees.iter().map(|tree| tree.root).collect();
                let inside = trees.iter().fold(Grade::Const, |guess, tree| guess.then(tree.guess));
                self.above(Node::of(op, &children), inside, held)
            }
        }
    }

    /// An op that a tree of so many nodes can have.
    fn op(&mut self, size: usize) -> u8 {
        const UNARY: [u8; 10] = [
            op::READ,
            op::READ,
            op::READ,
            op::CALL,
            op::CALL,
            op::CALL,
            op::SYNCHRONISED,
            op::SYNCHRONISED,
            op::ASSERT,
            op::FORK,
        ];
        const BINARY: [u8; 5] = [op::WRITE, op::WRITE, op::SEQUENCE, op::SEQUENCE, op::LOOP];
        let arity = match size {
            1 => 0,
            2 => 1,
            3 => self.rng.pick(&[1, 2]),
            _ => self.rng.pick(&[1, 1, 2, 2, 2, 3]),
        };
        let op = match arity {
            0 => op::PLAIN,
            1 if self.rng.percent(self.shape.calls) => op::CALL,
            1 => self.rng.pick(&UNARY),
            2 => self.rng.pick(&BINARY),
            _ => op::CHOICE,
        };
        let is_possible = match op {
            op::READ | op::WRITE => !self.fields.is_empty(),
            op::SYNCHRONISED => self.own.k > 0,
            op::FORK => self.signatures.iter().any(|method| method.k > 0),
            _ => true,
        };
        match (is_possible, arity) {
            (true, _) => op,
            (false, 1) => op::CALL,
            (false, _) => op::SEQUENCE,
        }
    }

    fn add(&mut self, node: Node, guess: Grade) -> Tree {
        Tree { root: self.method.push(node), guess }
    }

    /// Adds the children of an op. They need not stand in the order in which the op names them.
    fn children(&mut self, op: u8, size: usize, held: usize) -> Vec<Tree> {
        let sizes = parts(self.rng, size, op::children(op));
        let mut trees: Vec<Tree> = sizes.into_iter().map(|size| self.tree(size, held)).collect();
        if self.rng.percent(30) {
            trees.reverse();
        }
        trees
    }

    /// Adds a node above children whose guess is `inside`.
    fn above(&mut self, node: Node, inside: Grade, held: usize) -> Tree {
        match node.op {
            op::READ | op::WRITE => self.access(node, inside, held),
            op::CALL => self.call(node, inside, held),
            op::FORK => self.fork(node, inside),
            op::LOOP => self.add(node, inside.repeated()),
            _ => self.add(node, inside),
        }
    }

    fn is_careless(&mut self) -> bool {
        self.rng.percent(self.shape.careless)
    }

    /// Any lock of the method's, or none.
    fn any_lock(&mut self) -> u8 {
        match self.rng.below(usize::from(self.own.k) + 1) {
            0 => NO_NAME,
            name => (name - 1) as u8,
        }
    }

    /// A lock of those held, if there is one.
    fn held_lock(&mut self, held: usize) -> Option<u8> {
        let held: Vec<u8> = (0..4).filter(|name| held >> name & 1 == 1).collect();
        (!held.is_empty()).then(|| self.rng.pick(&held))
    }

    fn access(&mut self, node: Node, inside: Grade, held: usize) -> Tree {
        let fits = |field: &Field| match (node.op, field.guard) {
            (op::WRITE, 0) => false,
            (op::READ, 2) => true,
            (_, guard) => held != 0 || guard == 0 || guard == 3,
        };
        let fitting: Vec<usize> = (0..self.fields.len()).filter(|&number| fits(&self.fields[number])).collect();
        let number = match fitting.is_empty() || self.is_careless() {
            true => self.rng.below(self.fields.len()),
            false => self.rng.pick(&fitting),
        };
        let field = self.fields[number];
        let is_guarded = field.guard == 1 || field.guard == 2;
        let lock = match is_guarded {
            false => 0,
            true if self.is_careless() => self.any_lock(),
            true => self.held_lock(held).unwrap_or_else(|| self.any_lock()),
        };
        let is_mover = is_guarded && held != 0 && (node.op, field.guard) != (op::WRITE, 2);
        let unprotected = if field.wide == 1 { Grade::Cmpd } else { Grade::Atomic };
        let own = if is_mover { Grade::Mover } else { unprotected };
        self.add(node.naming(number as u8, &[lock]), inside.then(own))
    }

    fn call(&mut self, node: Node, inside: Grade, held: usize) -> Tree {
        let fits = |method: &Signature| method.needs == 0 || held != 0;
        let fitting: Vec<usize> = (0..self.signatures.len()).filter(|&number| fits(&self.signatures[number])).collect();
        let number = match fitting.is_empty() || self.is_careless() {
            true => self.rng.below(self.signatures.len()),
            false => self.rng.pick(&fitting),
        };
        let callee = self.signatures[number];
        let locks: Vec<u8> = (0..callee.k).map(|name| self.lock_for(callee, name, held)).collect();
        let guess = if callee.needs != 0 { Grade::Mover } else { Grade::Atomic };
        self.add(node.naming(number as u8, &locks), inside.then(guess))
    }

    /// The caller's lock for a callee's name.
    fn lock_for(&mut self, callee: Signature, name: u8, held: usize) -> u8 {
        let is_needed = callee.needs >> name & 1 == 1;
        match is_needed && !self.is_careless() {
            true => self.held_lock(held).unwrap_or_else(|| self.any_lock()),
            false => self.any_lock(),
        }
    }

    fn fork(&mut self, node: Node, inside: Grade) -> Tree {
        let forkable = |careless: bool| move |method: &Signature| method.k > 0 && (careless || method.needs <= 1);
        let careless = self.is_careless();
        let mut fitting = self.forked(forkable(careless));
        if fitting.is_empty() {
            fitting = self.forked(forkable(true));
        }
        let number = self.rng.pick(&fitting);
        self.add(node.naming(number as u8, &[]), inside.then(Grade::Atomic))
    }

    fn forked(&self, fits: impl Fn(&Signature) -> bool) -> Vec<usize> {
        (0..self.signatures.len()).filter(|&number| fits(&self.signatures[number])).collect()
    }

    fn synchronised(&mut self, size: usize, held: usize) -> Tree {
        let lock = self.rng.below(usize::from(self.own.k));
        let inside = self.tree(size - 1, held | 1 << lock);
        let is_held = held >> lock & 1 == 1;
        let guess = if is_held { inside.guess } else { inside.guess.locked() };
        self.add(Node::of(op::SYNCHRONISED, &[inside.root]).naming(0, &[lock as u8]), guess)
    }

    /// Asserts what is likely atomic. Anything else gets a call above it instead.
    fn assert(&mut self, size: usize, held: usize) -> Tree {
        let inside = self.tree(size - 1, held);
        if inside.guess <= Grade::Atomic || self.is_careless() {
            return self.add(Node::of(op::ASSERT, &[inside.root]), inside.guess);
        }
        self.above(Node::of(op::CALL, &[inside.root]), inside.guess, held)
    }
}

/// How the declared methods of a program come by their tables.
#[derive(Clone, Copy, Debug, PartialEq, Eq)]
pub enum Declare {
    /// The grades that were found.
    Found,
    /// Those or larger ones, and never larger where more is held.
    Looser,
    /// Those, larger ones, smaller ones, or any.
    Anyhow,
}

/// Declares some of the methods of a program that can be read.
pub fn declare(rng: &mut Rng, program: &mut Program, how: Declare, percent: usize) {
    let Ok(graded) = oracle::graded(&program.text()) else { return };
    for (method, table) in program.methods.iter_mut().zip(graded.tables) {
        if rng.percent(percent) {
            let found: Vec<u8> = table.iter().map(|grade| grade.number()).collect();
            method.declared = Some(declared(rng, found, how));
        }
    }
}

fn declared(rng: &mut Rng, mut grades: Vec<u8>, how: Declare) -> Vec<u8> {
    let way = match how {
        Declare::Found => 0,
        Declare::Looser => rng.below(2),
        Declare::Anyhow => rng.below(4),
    };
    match way {
        0 => {}
        1 => {
            let limit = rng.below(grades.len());
            let floor = rng.between(1, 3) as u8;
            // Raising all subsets of a set keeps the table antitone.
            let raised = (0..grades.len()).filter(|entry| entry & !limit == 0).collect::<Vec<_>>();
            raised.into_iter().for_each(|entry| grades[entry] = grades[entry].max(floor));
        }
        2 => {
            let entry = rng.below(grades.len());
            grades[entry] = grades[entry].saturating_sub(1);
        }
        _ => {
            let entry = rng.below(grades.len());
            grades[entry] = rng.below(5) as u8;
        }
    }
    grades
}

/// A random program of random shape, with declared methods or without.
pub fn program(rng: &mut Rng) -> Program {
    let shape = Shape::random(rng);
    let mut program = undeclared(rng, shape);
    match rng.below(6) {
        0 | 1 => {}
        2 => declare(rng, &mut program, Declare::Found, 30),
        3 => declare(rng, &mut program, Declare::Looser, 30),
        4 => declare(rng, &mut program, Declare::Anyhow, 20),
        _ => declare(rng, &mut program, Declare::Anyhow, 60),
    }
    program
}
