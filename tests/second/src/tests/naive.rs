//! The rules read off one tick at a time on a tree, to hold the calls to.

use super::*;

/// A record and, of a block, its parts.
#[derive(Clone, Debug)]
pub(crate) struct Node {
    pub head: Raw,
    pub parts: Vec<Vec<Node>>,
}

pub(crate) fn leaf(head: Raw) -> Node {
    Node { head, parts: Vec::new() }
}

pub(crate) fn block(head: Raw, parts: Vec<Vec<Node>>) -> Node {
    Node { head, parts }
}

fn word(head: &Raw, at: usize) -> u32 {
    u32::from_le_bytes([head[at], head[at + 1], head[at + 2], head[at + 3]])
}

fn count(head: &Raw) -> u32 {
    word(head, 8)
}

pub(crate) fn flat(nodes: &[Node], out: &mut Vec<Raw>) {
    for node in nodes {
        out.push(node.head);
        for (number, part) in node.parts.iter().enumerate() {
            if number == 1 {
                out.push(bare(ELSE));
            }
            flat(part, out);
        }
        if !node.parts.is_empty() {
            out.push(bare(END));
        }
    }
}

/// Reads records up to the end of the part; answers where it ended.
pub(crate) fn tree(file: &[Raw], at: &mut usize) -> Vec<Node> {
    let mut nodes = Vec::new();
    while *at < file.len() && file[*at][0] != ELSE && file[*at][0] != END {
        let head = file[*at];
        *at += 1;
        let mut parts = Vec::new();
        if [IF, WHILE, TIMES].contains(&head[0]) {
            parts.push(tree(file, at));
            if file[*at][0] == ELSE {
                *at += 1;
                parts.push(tree(file, at));
            }
            *at += 1;
        }
        nodes.push(Node { head, parts });
    }
    nodes
}

fn ticks(settings: &[u8], head: &Raw) -> u32 {
    let Numbers { set, multiply, read, write, beat, save, .. } = numbers(settings);
    match head[0] {
        SKIP => count(head),
        SET if [3, 19].contains(&head[1]) => multiply,
        SET => set,
        READ => read,
        WRITE => write,
        BEAT => beat,
        SAVE => save,
        _ => 1,
    }
}

pub(crate) fn time(settings: &[u8], nodes: &[Node]) -> u128 {
    let part = |node: &Node, number: usize| time(settings, &node.parts[number]);
    nodes
        .iter()
        .map(|node| match node.head[0] {
            IF => 1 + part(node, 0).max(part(node, 1)),
            WHILE => u128::from(count(&node.head)) * (part(node, 0) + 1) + 1,
            TIMES => u128::from(count(&node.head)) * part(node, 0) + 1,
            _ => ticks(settings, &node.head).into(),
        })
        .sum()
}

/// Neighbouring SKIPs of one part become one, inner parts first.
fn merged(nodes: Vec<Node>) -> Vec<Node> {
    let mut out: Vec<Node> = Vec::new();
    for mut node in nodes {
        node.parts = node.parts.into_iter().map(merged).collect();
        if node.head[0] == SKIP {
            if count(&node.head) == 0 {
                continue;
            }
            if let Some(last) = out.last_mut().filter(|last| last.head[0] == SKIP) {
                last.head = skip(count(&last.head) + count(&node.head));
                continue;
            }
        }
        out.push(node);
    }
    out
}

fn even(settings: &[u8], node: &Node) -> Node {
    let mut parts: Vec<Vec<Node>> = node
        .parts
        .iter()
        .map(|part| part.iter().map(|inner| even(settings, inner)).collect())
        .collect();
    let times: Vec<u128> = parts.iter().map(|part| time(settings, part)).collect();
    match node.head[0] {
        IF => {
            let longest = times[0].max(times[1]);
            for (part, time) in parts.iter_mut().zip(times) {
                part.push(leaf(skip((longest - time) as u32)));
            }
            block(node.head, parts)
        }
        WHILE => {
            let (mut rounds, mut choice) = (node.head, node.head);
            rounds[0] = TIMES;
            choice[0] = IF;
            choice[8..].fill(0);
            parts.push(vec![leaf(skip(times[0] as u32))]);
            block(rounds, vec![vec![block(choice, parts)]])
        }
        _ => node.clone(),
    }
}

pub(crate) fn equal(settings: &[u8], nodes: &[Node]) -> Vec<Node> {
    merged(nodes.iter().map(|node| even(settings, node)).collect())
}

pub(crate) struct Numbers {
    set: u32,
    multiply: u32,
    read: u32,
    write: u32,
    beat: u32,
    save: u32,
    k: u32,
    h: u32,
    pub p: u32,
}

/// Settings of either form: in two records every number but P is twice as wide,
/// and the ticks of a multiply stand after P.
pub(crate) fn numbers(settings: &[u8]) -> Numbers {
    let width = settings.len() / 12;
    let number = |at: usize, bytes: usize| {
        let bytes = settings[at..at + bytes].iter().rev();
        bytes.fold(0, |above, &byte| 256 * above + u32::from(byte))
    };
    let small = |place: usize| number(width * place, width);
    Numbers {
        set: small(0),
        multiply: if width == 2 { number(20, 4) } else { small(0) },
        read: small(1),
        write: small(2),
        beat: small(3),
        save: small(4),
        k: small(5),
        h: number(6 * width, 2 * width),
        p: number(8 * width, 4),
    }
}

/// The commands due before a step at this tick.
fn commands(settings: &[u8], tick: &mut u32, out: &mut Vec<Node>) {
    let Numbers { beat: b, save: s, k, h, .. } = numbers(settings);
    let start = *tick;
    if start.is_multiple_of(h) {
        out.push(leaf(beat(1)));
        *tick += b;
        if u64::from(start).is_multiple_of(u64::from(k) * u64::from(h)) {
            out.push(leaf(bare(SAVE)));
            *tick += s;
        }
    }
}

fn lay_step(settings: &[u8], head: Raw, tick: &mut u32, out: &mut Vec<Node>) {
    let length = ticks(settings, &head);
    let h = numbers(settings).h;
    commands(settings, tick, out);
    while *tick % h + length > h {
        out.push(leaf(skip(1)));
        *tick += 1;
        commands(settings, tick, out);
    }
    out.push(leaf(head));
    *tick += length;
}

fn lay(settings: &[u8], nodes: &[Node], tick: &mut u32, out: &mut Vec<Node>) {
    for node in nodes {
        match node.head[0] {
            SKIP => {
                for _ in 0..count(&node.head) {
                    lay_step(settings, skip(1), tick, out);
                }
            }
            TIMES => {
                for _ in 0..count(&node.head) {
                    lay(settings, &node.parts[0], tick, out);
                }
                let mut check = node.head;
                check[0] = CHECK;
                check[8..].fill(0);
                lay_step(settings, check, tick, out);
            }
            IF => {
                lay_step(settings, node.head, tick, out);
                out.pop();
                out.push(block(node.head, lay_sides(settings, &node.parts, tick)));
            }
            _ => lay_step(settings, node.head, tick, out),
        }
    }
}

/// Both sides from one tick, the earlier to end filled.
fn lay_sides(settings: &[u8], parts: &[Vec<Node>], tick: &mut u32) -> Vec<Vec<Node>> {
    let mut sides = [Vec::new(), Vec::new()];
    let mut ends = [*tick, *tick];
    for side in 0..2 {
        lay(settings, &parts[side], &mut ends[side], &mut sides[side]);
    }
    *tick = ends[0].max(ends[1]);
    for side in 0..2 {
        while ends[side] < *tick {
            lay_step(settings, skip(1), &mut ends[side], &mut sides[side]);
        }
        assert_eq!(ends[side], *tick);
    }
    sides.into()
}

/// The laid tree and its total, whatever the period; the value of the last
/// BEAT is 0 where the total is above it.
pub(crate) fn lay_all(settings: &[u8], nodes: &[Node]) -> (Vec<Node>, u32) {
    let Numbers { beat: b, h, p, .. } = numbers(settings);
    let (mut out, mut tick) = (Vec::new(), 0);
    commands(settings, &mut tick, &mut out);
    lay(settings, nodes, &mut tick, &mut out);
    while !tick.is_multiple_of(h) {
        out.push(leaf(skip(1)));
        tick += 1;
    }
    let total = tick + b;
    let value = (0..).find(|value| total + value * h >= p).unwrap();
    out.push(leaf(beat(value)));
    (merged(out), total)
}

/// The state after each step of a run, the first entry before any.
#[derive(Clone)]
pub(crate) struct Moment {
    pub tick: u32,
    pub variables: [u32; 16],
    pub levels: [u32; 8],
    pub marks: [u8; 8],
    /// Whether the step was a SAVE.
    pub saved: bool,
}

pub(crate) struct Trace<'a> {
    pub settings: &'a [u8],
    pub inputs: [u32; 8],
    pub moments: Vec<Moment>,
}

impl Trace<'_> {
    fn done(&mut self, head: &Raw, ticks: u32) {
        let mut now = self.moments.last().unwrap().clone();
        let (two, three) = (usize::from(head[2]), usize::from(head[3]));
        now.tick += ticks;
        now.saved = head[0] == SAVE;
        match head[0] {
            SET => {
                let left = u64::from(now.variables[three]);
                let right = u64::from(self.right(head));
                let result = match head[1] % 16 {
                    0 => right,
                    1 => left + right,
                    2 => left + (1 << 32) - right,
                    _ => left * right,
                };
                now.variables[two] = (result % (1 << 32)) as u32;
            }
            READ => now.variables[two] = self.inputs[three],
            WRITE => {
                now.levels[three] = now.variables[two];
                now.marks[three] = 1;
            }
            _ => {}
        }
        self.moments.push(now);
    }

    fn right(&self, head: &Raw) -> u32 {
        let value = word(head, 4);
        if head[1] >= 16 {
            self.moments.last().unwrap().variables[value as usize]
        } else {
            value
        }
    }

    fn tested(&mut self, head: &Raw) -> bool {
        self.done(&bare(CHECK), 1);
        let left = self.moments.last().unwrap().variables[usize::from(head[3])];
        let order = left.cmp(&self.right(head));
        match head[1] % 16 {
            0 => order.is_eq(),
            1 => order.is_ne(),
            2 => order.is_lt(),
            3 => order.is_le(),
            4 => order.is_gt(),
            _ => order.is_ge(),
        }
    }

    /// Runs the part and answers whether it overran.
    pub fn run(&mut self, nodes: &[Node]) -> bool {
        nodes.iter().any(|node| match node.head[0] {
            IF => {
                let side = if self.tested(&node.head) { 0 } else { 1 };
                self.run(&node.parts[side])
            }
            WHILE => self.run_while(node),
            TIMES => {
                (0..count(&node.head)).any(|_| self.run(&node.parts[0])) || self.tested(&node.head)
            }
            CHECK => self.tested(&node.head),
            _ => {
                self.done(&node.head, ticks(self.settings, &node.head));
                false
            }
        })
    }

    fn run_while(&mut self, node: &Node) -> bool {
        for _ in 0..count(&node.head) {
            if !self.tested(&node.head) {
                return false;
            }
            if self.run(&node.parts[0]) {
                return true;
            }
        }
        self.tested(&node.head)
    }
}
