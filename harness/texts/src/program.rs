//! A program as its frames have it, for making and changing texts. Nothing here says that the program can be read.

/// FF, "no constant name".
pub const NO_NAME: u8 = 0xFF;

#[derive(Clone, Debug, PartialEq, Eq)]
pub struct Program {
    pub fields: Vec<Field>,
    pub methods: Vec<Method>,
}

#[derive(Clone, Copy, Debug, PartialEq, Eq)]
pub struct Field {
    pub wide: u8,
    pub guard: u8,
}

#[derive(Clone, Debug, PartialEq, Eq)]
pub struct Method {
    /// How many lock names the method has.
    pub k: u8,
    /// The declared grades, as many as there are entries.
    pub declared: Option<Vec<u8>>,
    pub nodes: Vec<Node>,
}

#[derive(Clone, Copy, Debug, Default, PartialEq, Eq)]
pub struct Node {
    pub op: u8,
    pub children: [u16; 3],
    pub u: u8,
    pub t: [u8; 4],
}

/// The ops by the paper's numbers.
pub mod op {
    pub const PLAIN: u8 = 0;
    pub const READ: u8 = 1;
    pub const WRITE: u8 = 2;
    pub const SEQUENCE: u8 = 3;
    pub const CHOICE: u8 = 4;
    pub const LOOP: u8 = 5;
    pub const SYNCHRONISED: u8 = 6;
    pub const ASSERT: u8 = 7;
    pub const CALL: u8 = 8;
    pub const FORK: u8 = 9;

    /// How many children an op lists.
    pub fn children(op: u8) -> usize {
        match op {
            PLAIN => 0,
            CHOICE => 3,
            WRITE | SEQUENCE | LOOP => 2,
            _ => 1,
        }
    }
}

impl Node {
    /// A node with these children, and neither U nor locks.
    pub fn of(op: u8, children: &[u16]) -> Node {
        let mut node = Node { op, ..Node::default() };
        node.children[..children.len()].copy_from_slice(children);
        node
    }

    /// The same with U and locks; an access has one, a call up to four.
    pub fn naming(self, u: u8, locks: &[u8]) -> Node {
        let mut node = Node { u, ..self };
        node.t[..locks.len()].copy_from_slice(locks);
        node
    }

    /// The children that the op lists.
    pub fn named(&self) -> &[u16] {
        &self.children[..op::children(self.op)]
    }
}

impl Method {
    pub fn new(k: u8) -> Method {
        Method { k, declared: None, nodes: Vec::new() }
    }

    /// A method that does nothing.
    pub fn idle(k: u8) -> Method {
        Method { nodes: vec![Node::default()], ..Method::new(k) }
    }

    /// Adds a node and tells its number.
    pub fn push(&mut self, node: Node) -> u16 {
        self.nodes.push(node);
        (self.nodes.len() - 1) as u16
    }

    pub fn entries(&self) -> usize {
        1 << self.k
    }
}

impl Program {
    pub fn node_count(&self) -> usize {
        self.methods.iter().map(|method| method.nodes.len()).sum()
    }

    /// The program's frames, one for each line.
    pub fn frames(&self) -> Vec<Vec<u8>> {
        let [high, low] = (self.node_count() as u16).to_be_bytes();
        let mut frames = vec![vec![1, self.methods.len() as u8, self.fields.len() as u8, high, low]];
        frames.extend(self.fields.iter().map(|field| vec![2, field.wide, field.guard]));
        frames.extend(self.methods.iter().map(method_frame));
        frames.extend(self.methods.iter().flat_map(|method| &method.nodes).map(node_frame));
        frames
    }

    pub fn text(&self) -> Vec<u8> {
        text_of_frames(&self.frames())
    }

    /// The program of a text whose lines are frames in their order, whatever values they have.
    pub fn of_text(text: &[u8]) -> Option<Program> {
        let frames = frames_of_text(text)?;
        let mut frames = frames.iter();
        let header = frames.next().filter(|frame| frame.len() == 5)?;
        let mut due = |kind: u8, len: usize| frames.next().filter(|frame| frame[0] == kind && frame.len() == len);
        let fields = (0..header[2])
            .map(|_| due(2, 3).map(|frame| Field { wide: frame[1], guard: frame[2] }))
            .collect::<Option<Vec<_>>>()?;
        let signatures = (0..header[1]).map(|_| due(4, 21).cloned()).collect::<Option<Vec<_>>>()?;
        let mut methods = Vec::new();
        for signature in signatures {
            let mut method = Method::new(signature[1].min(4));
            if signature[4] == 1 {
                method.declared = Some(signature[5..5 + method.entries()].to_vec());
            }
            for _ in 0..u16::from_be_bytes([signature[2], signature[3]]) {
                method.push(node_of_frame(due(3, 13)?));
            }
            methods.push(method);
        }
        Some(Program { fields, methods })
    }
}

fn method_frame(method: &Method) -> Vec<u8> {
    let [high, low] = (method.nodes.len() as u16).to_be_bytes();
    let mut frame = vec![4, method.k, high, low, u8::from(method.declared.is_some())];
    frame.extend(method.declared.iter().flatten());
    frame.resize(21, 0);
    frame
}

fn node_frame(node: &Node) -> Vec<u8> {
    let mut frame = vec![3, node.op];
    frame.extend(node.children.iter().flat_map(|child| child.to_be_bytes()));
    frame.push(node.u);
    frame.extend(node.t);
    frame
}

fn node_of_frame(frame: &[u8]) -> Node {
    Node {
        op: frame[1],
        children: [2, 4, 6].map(|at| u16::from_be_bytes([frame[at], frame[at + 1]])),
        u: frame[8],
        t: [frame[9], frame[10], frame[11], frame[12]],
    }
}

/// Frames as lines of digits, each ended by byte 0A.
pub fn text_of_frames(frames: &[Vec<u8>]) -> Vec<u8> {
    let line = |frame: &Vec<u8>| frame.iter().map(|byte| format!("{byte:02X}")).collect::<String>() + "\n";
    frames.iter().map(line).collect::<String>().into_bytes()
}

/// The frames of a text, if each of its lines is one.
pub fn frames_of_text(text: &[u8]) -> Option<Vec<Vec<u8>>> {
    let text = std::str::from_utf8(text).ok()?;
    text.lines().map(frame_of_line).collect()
}

fn frame_of_line(line: &str) -> Option<Vec<u8>> {
    if line.is_empty() || line.len() % 2 == 1 || !line.is_ascii() {
        return None;
    }
    (0..line.len()).step_by(2).map(|at| u8::from_str_radix(&line[at..at + 2], 16).ok()).collect()
}
