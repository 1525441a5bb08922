//! The text, read in one pass into a flat graph.
use crate::functions::{Analysis, ID, Mixer};
use std::hash::Hasher;

/// No fact, no index.
pub const NONE: u16 = u16::MAX;
pub const NIL: u32 = u32::MAX;

/// What an assigned variable gets. A difference is a sum.
pub enum Effect {
    Number(u64),
    Copy(u16),
    Sum(u16, u64),
    Unknown,
    Mix(u16, u16),
}

#[derive(Clone, Copy, PartialEq, Eq)]
pub enum Kind {
    /// Goes on by the identity.
    Pass,
    /// The start: goes on, and `@result` and the locals receive from `@zero`.
    Enter,
    /// Goes on; `target` receives from `one` and `two` by the function `arg`.
    Assign,
    /// Goes to the exit at `arg`; `target` receives from `one`.
    Give,
    /// Goes to `arg`.
    Goto,
    /// Goes on, and to `arg`.
    Branch,
    /// The call `arg`.
    Call,
    Exit,
}

#[derive(Clone, Copy)]
pub struct Node {
    pub kind: Kind,
    pub target: u16,
    pub one: u16,
    pub two: u16,
    pub arg: u32,
}

const PASS: Node = Node {
    kind: Kind::Pass,
    target: NONE,
    one: NONE,
    two: NONE,
    arg: 0,
};

pub struct Proc {
    name: u32,
    /// The number of its start, and how many nodes it has.
    pub start: u32,
    pub nodes: u32,
    /// How many facts have names in it, and how many parameters it has.
    pub facts: u32,
    pub params: u32,
    /// Where its facts begin in a list of the facts of all procedures.
    pub fact0: u32,
    /// The names of its parameters and locals.
    pub own: u32,
    /// Its calls.
    pub calls: (u32, u32),
    /// Where its events begin, and how many words the events of a fact take.
    pub event0: u32,
    pub words: u32,
}

pub struct Call {
    pub proc: u32,
    pub pos: u32,
    pub target: u16,
    args: (u32, u32),
    callees: (u32, u32),
}

pub struct Graph<'a> {
    pub globals: u32,
    pub procs: Vec<Proc>,
    pub nodes: Vec<Node>,
    pub calls: Vec<Call>,
    args: Vec<u16>,
    callees: Vec<u32>,
    /// The calls that state each procedure.
    sites: Vec<u32>,
    site0: Vec<u32>,
    /// For each fact of each procedure, a bit at each node at which it does more than to go on to the next one.
    events: Vec<u64>,
    own_names: Vec<u32>,
    global_names: Vec<u32>,
    names: Vec<(u32, u32)>,
    text: &'a [u8],
}

impl Graph<'_> {
    pub fn args(&self, call: &Call) -> &[u16] {
        &self.args[call.args.0 as usize..call.args.1 as usize]
    }

    pub fn callees(&self, call: &Call) -> &[u32] {
        &self.callees[call.callees.0 as usize..call.callees.1 as usize]
    }

    /// The calls that state the procedure.
    pub fn sites(&self, proc: usize) -> &[u32] {
        &self.sites[self.site0[proc] as usize..self.site0[proc + 1] as usize]
    }

    pub fn events(&self, proc: &Proc, fact: u32) -> &[u64] {
        let begin = (proc.event0 + fact * proc.words) as usize;
        &self.events[begin..begin + proc.words as usize]
    }

    pub fn procedure_named(&self, name: &[u8]) -> Option<usize> {
        self.procs.iter().position(|p| self.bytes(p.name) == name)
    }

    fn bytes(&self, name: u32) -> &[u8] {
        let (begin, length) = self.names[name as usize];
        &self.text[begin as usize..(begin + length) as usize]
    }

    pub fn fact_name(&self, proc: &Proc, fact: u32) -> &[u8] {
        match fact {
            0 => b"@zero",
            _ if fact <= self.globals => self.bytes(self.global_names[fact as usize - 1]),
            _ if fact == self.globals + 1 => b"@result",
            _ => self.bytes(self.own_names[(proc.own + fact - self.globals - 2) as usize]),
        }
    }
}

/// The names of the text, numbered.
struct Names {
    places: Vec<(u32, u32)>,
    slots: Vec<u32>,
}

impl Names {
    fn number(&mut self, text: &[u8], begin: usize, end: usize) -> usize {
        if self.places.len() * 2 >= self.slots.len() {
            self.grow(text);
        }
        let name = &text[begin..end];
        let mask = self.slots.len() - 1;
        let mut slot = hash(name) & mask;
        loop {
            let number = self.slots[slot];
            if number == NIL {
                self.slots[slot] = self.places.len() as u32;
                self.places.push((begin as u32, (end - begin) as u32));
                return self.places.len() - 1;
            }
            let (at, length) = self.places[number as usize];
            if &text[at as usize..(at + length) as usize] == name {
                return number as usize;
            }
            slot = (slot + 1) & mask;
        }
    }

    fn grow(&mut self, text: &[u8]) {
        let size = (self.slots.len() * 2).max(256);
        self.slots.clear();
        self.slots.resize(size, NIL);
        for (number, (at, length)) in self.places.iter().enumerate() {
            let mut slot = hash(&text[*at as usize..(at + length) as usize]) & (size - 1);
            while self.slots[slot] != NIL {
                slot = (slot + 1) & (size - 1);
            }
            self.slots[slot] = number as u32;
        }
    }
}

fn hash(name: &[u8]) -> usize {
    let mut h = Mixer::default();
    for part in name.chunks(8) {
        let mut word = 0;
        for b in part {
            word = word << 8 | u64::from(*b);
        }
        h.write_u64(word);
    }
    h.finish() as usize
}

fn number(text: &[u8]) -> u64 {
    text.iter().fold(0, |n, b| n * 10 + u64::from(b - b'0'))
}

/// The tokens of a line: where each begins and ends.
struct Line<'a> {
    text: &'a [u8],
    tokens: Vec<(usize, usize)>,
}

impl Line<'_> {
    fn token(&self, index: usize) -> &[u8] {
        let (begin, end) = self.tokens[index];
        &self.text[begin..end]
    }
}

/// What the names stand for: facts, positions of labels, procedures.
struct Scope {
    names: Names,
    facts: Vec<u16>,
    labels: Vec<u32>,
    procs: Vec<u32>,
}

impl Scope {
    fn name(&mut self, line: &Line, index: usize) -> usize {
        let (begin, end) = line.tokens[index];
        let name = self.names.number(line.text, begin, end);
        if name >= self.facts.len() {
            self.facts.resize(name + 1, 0);
            self.labels.resize(name + 1, 0);
            self.procs.resize(name + 1, 0);
        }
        name
    }

    fn fact(&mut self, line: &Line, index: usize) -> u16 {
        let name = self.name(line, index);
        self.facts[name]
    }
}

pub fn read<'a, A: Analysis>(text: &'a [u8], a: &mut A) -> Graph<'a> {
    let mut s = Scope {
        names: Names {
            places: Vec::new(),
            slots: Vec::new(),
        },
        facts: Vec::new(),
        labels: Vec::new(),
        procs: Vec::new(),
    };
    let mut g = Graph {
        globals: 0,
        procs: Vec::new(),
        nodes: Vec::new(),
        calls: Vec::new(),
        args: Vec::new(),
        callees: Vec::new(),
        sites: Vec::new(),
        site0: Vec::new(),
        events: Vec::new(),
        own_names: Vec::new(),
        global_names: Vec::new(),
        names: Vec::new(),
        text,
    };
    let mut line = Line {
        text,
        tokens: Vec::new(),
    };
    let mut jumps = Vec::new();
    let mut begin = 0;
    let mut fact0 = 0;
    while begin < text.len() {
        line.tokens.clear();
        let mut at = begin;
        loop {
            let b = text[at];
            if b <= b' ' {
                line.tokens.push((begin, at));
                begin = at + 1;
                if b == b'\n' {
                    break;
                }
            }
            at += 1;
        }
        let count = line.tokens.len();
        let first = line.token(0);
        match first {
            b"global" => {
                let name = s.name(&line, 1);
                g.globals += 1;
                s.facts[name] = g.globals as u16;
                g.global_names.push(name as u32);
            }
            b"proc" => {
                let name = s.name(&line, 1);
                s.procs[name] = g.procs.len() as u32;
                let own = g.own_names.len() as u32;
                for i in 2..count {
                    let name = s.name(&line, i);
                    s.facts[name] = (g.globals + i as u32) as u16;
                    g.own_names.push(name as u32);
                }
                let calls = g.calls.len() as u32;
                g.procs.push(Proc {
                    name: name as u32,
                    start: g.nodes.len() as u32,
                    nodes: 0,
                    facts: g.globals + count as u32,
                    params: count as u32 - 2,
                    fact0,
                    own,
                    calls: (calls, calls),
                    event0: 0,
                    words: 0,
                });
                g.nodes.push(Node {
                    kind: Kind::Enter,
                    ..PASS
                });
            }
            b"var" => {
                let name = s.name(&line, 1);
                let p = g.procs.last_mut().unwrap();
                s.facts[name] = p.facts as u16;
                p.facts += 1;
                g.own_names.push(name as u32);
            }
            b"end" => {
                let p = g.procs.last_mut().unwrap();
                let nodes = &mut g.nodes[p.start as usize..];
                let exit = nodes.len() as u32;
                for (node, label) in jumps.drain(..) {
                    let node: &mut Node = &mut nodes[node as usize - p.start as usize];
                    node.arg = if label == NIL {
                        exit
                    } else {
                        s.labels[label as usize]
                    };
                }
                // a jump to the next node is none
                for (pos, node) in nodes.iter_mut().enumerate() {
                    if node.arg == pos as u32 + 1 {
                        match node.kind {
                            Kind::Goto | Kind::Branch => *node = PASS,
                            Kind::Give => {
                                *node = Node {
                                    kind: Kind::Assign,
                                    arg: ID,
                                    ..*node
                                }
                            }
                            _ => {}
                        }
                    }
                }
                g.nodes.push(Node {
                    kind: Kind::Exit,
                    ..PASS
                });
                p.nodes = exit + 1;
                p.calls.1 = g.calls.len() as u32;
                fact0 += p.facts;
            }
            b"skip" => g.nodes.push(PASS),
            b"at" => {
                let name = s.name(&line, 1);
                s.labels[name] = g.nodes.len() as u32 - g.procs.last().unwrap().start;
                g.nodes.push(PASS);
            }
            b"goto" | b"branch" => {
                let kind = if first.len() == 4 {
                    Kind::Goto
                } else {
                    Kind::Branch
                };
                jumps.push((g.nodes.len() as u32, s.name(&line, 1) as u32));
                g.nodes.push(Node { kind, ..PASS });
            }
            b"return" => {
                jumps.push((g.nodes.len() as u32, NIL));
                g.nodes.push(match count {
                    1 => Node {
                        kind: Kind::Goto,
                        ..PASS
                    },
                    _ => Node {
                        kind: Kind::Give,
                        target: (g.globals + 1) as u16,
                        one: s.fact(&line, 1),
                        ..PASS
                    },
                });
            }
            b"call" => read_call(&mut g, &mut s, &line, 1, NONE),
            _ => {
                let target = s.fact(&line, 0);
                let word = line.token(2);
                if word == b"call" {
                    read_call(&mut g, &mut s, &line, 3, target);
                } else {
                    let effect = if word[0].is_ascii_digit() {
                        Effect::Number(number(word))
                    } else if word == b"?" {
                        Effect::Unknown
                    } else if word == b"mix" {
                        Effect::Mix(s.fact(&line, 3), s.fact(&line, 4))
                    } else if count == 3 {
                        Effect::Copy(s.fact(&line, 2))
                    } else {
                        let n = number(line.token(4));
                        let minus = line.token(3) == b"-";
                        Effect::Sum(s.fact(&line, 2), if minus { n.wrapping_neg() } else { n })
                    };
                    let (one, two, arg) = a.received(effect);
                    g.nodes.push(Node {
                        kind: Kind::Assign,
                        target,
                        one,
                        two,
                        arg,
                    });
                }
            }
        }
    }
    for callee in &mut g.callees {
        *callee = s.procs[*callee as usize];
    }
    g.names = s.names.places;
    list_sites(&mut g);
    list_events(&mut g);
    g
}

/// Reads a call whose first callee is the token at an index.
fn read_call(g: &mut Graph, s: &mut Scope, line: &Line, mut at: usize, target: u16) {
    let callees = g.callees.len() as u32;
    g.callees.push(s.name(line, at) as u32);
    at += 1;
    while at < line.tokens.len() && line.token(at) == b"|" {
        g.callees.push(s.name(line, at + 1) as u32);
        at += 2;
    }
    let args = g.args.len() as u32;
    for i in at..line.tokens.len() {
        g.args.push(s.fact(line, i));
    }
    let proc = g.procs.len() as u32 - 1;
    let pos = g.nodes.len() as u32 - g.procs[proc as usize].start;
    g.nodes.push(Node {
        kind: Kind::Call,
        target,
        arg: g.calls.len() as u32,
        ..PASS
    });
    g.nodes.push(PASS);
    g.calls.push(Call {
        proc,
        pos,
        target,
        args: (args, g.args.len() as u32),
        callees: (callees, g.callees.len() as u32),
    });
}

fn list_sites(g: &mut Graph) {
    g.site0 = vec![0; g.procs.len() + 1];
    for callee in &g.callees {
        g.site0[*callee as usize + 1] += 1;
    }
    for i in 0..g.procs.len() {
        g.site0[i + 1] += g.site0[i];
    }
    let mut next = g.site0.clone();
    g.sites = vec![0; g.callees.len()];
    for (index, call) in g.calls.iter().enumerate() {
        for callee in &g.callees[call.callees.0 as usize..call.callees.1 as usize] {
            let place = &mut next[*callee as usize];
            g.sites[*place as usize] = index as u32;
            *place += 1;
        }
    }
}

fn list_events(g: &mut Graph) {
    let mut shared: Vec<u64> = Vec::new();
    for i in 0..g.procs.len() {
        let p = &mut g.procs[i];
        let words = p.nodes.div_ceil(64) as usize;
        p.words = words as u32;
        p.event0 = g.events.len() as u32;
        let nodes = &g.nodes[p.start as usize..(p.start + p.nodes) as usize];
        shared.clear();
        shared.resize(words, 0);
        for (pos, node) in nodes.iter().enumerate() {
            if matches!(
                node.kind,
                Kind::Goto | Kind::Branch | Kind::Give | Kind::Exit
            ) {
                shared[pos >> 6] |= 1 << (pos & 63);
            }
        }
        let begin = g.events.len();
        for _ in 0..p.facts {
            g.events.extend_from_slice(&shared);
        }
        let events = &mut g.events[begin..];
        let mut add = |fact: u16, pos: usize| {
            if fact != NONE {
                events[fact as usize * words + (pos >> 6)] |= 1 << (pos & 63);
            }
        };
        for (pos, node) in nodes.iter().enumerate() {
            match node.kind {
                Kind::Enter => add(0, pos),
                Kind::Assign if node.one == node.target && node.arg == ID => {
                    // x = x, or x = mix x z: x stays
                    add(node.two, pos);
                }
                Kind::Assign => {
                    add(node.target, pos);
                    add(node.one, pos);
                    add(node.two, pos);
                }
                Kind::Call => {
                    let call = &g.calls[node.arg as usize];
                    for fact in 0..=g.globals as u16 {
                        add(fact, pos);
                    }
                    for arg in &g.args[call.args.0 as usize..call.args.1 as usize] {
                        add(*arg, pos);
                    }
                    add(call.target, pos);
                }
                _ => {}
            }
        }
    }
}
