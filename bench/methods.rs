// The methods that are compared: the machine itself, called in its library, and others, each written for this bench
// from its published description.

use crate::judges::{FAILS, Judge};
use std::collections::HashMap;

// A judge of so many parts, and how many questions it was asked.
pub struct Asked<'a> {
    pub parts: u64,
    judge: &'a dyn Judge,
    pub questions: u64,
}

impl<'a> Asked<'a> {
    pub fn new(parts: u64, judge: &'a dyn Judge) -> Asked<'a> {
        Asked {
            parts,
            judge,
            questions: 0,
        }
    }

    pub fn says(&mut self, subset: &[u64]) -> u64 {
        self.questions += 1;
        self.judge.says(subset)
    }

    fn fails(&mut self, subset: &[u64]) -> bool {
        self.says(subset) == FAILS
    }

    fn all(&self) -> Vec<u64> {
        (0..self.parts).collect()
    }
}

// What is left of a method's run; None where all together don't fail.
pub type Left = Option<Vec<u64>>;

// ---- the machine, in its library

const ASK: u64 = 0;
const LEFT: u64 = 1;
const SOUND: u64 = 2;

pub const PARTS: u64 = 0;
pub const SAID: u64 = 1;

#[repr(C)]
#[derive(Clone, Copy)]
pub struct Answer {
    kind: u64,
    number: u64,
}

unsafe extern "C" {
    fn hidlombe_step(
        memory: *mut u64,
        memory_length: usize,
        kind: u64,
        number: u64,
        out: *mut u64,
        out_length: usize,
    ) -> Answer;
}

pub struct Machine {
    memory: [u64; 72],
    row: [u64; 4096],
}

impl Machine {
    pub fn new() -> Machine {
        Machine {
            memory: [0; 72],
            row: [0; 4096],
        }
    }

    pub fn step(&mut self, kind: u64, number: u64) -> Answer {
        let Machine { memory, row } = self;
        // SAFETY: each pointer is to as many numbers as it says, which nothing else uses during the call.
        unsafe {
            hidlombe_step(
                memory.as_mut_ptr(),
                memory.len(),
                kind,
                number,
                row.as_mut_ptr(),
                row.len(),
            )
        }
    }

    // What it asks of, while it asks.
    pub fn question(&self, told: Answer) -> Option<&[u64]> {
        (told.kind == ASK).then(|| &self.row[..told.number as usize])
    }

    pub fn left(&self, told: Answer) -> Left {
        match told.kind {
            LEFT => Some(self.row[..told.number as usize].to_vec()),
            SOUND => None,
            _ => panic!("the machine refused: {} {}", told.kind, told.number),
        }
    }
}

pub fn machine(asked: &mut Asked) -> Left {
    let mut machine = Machine::new();
    let mut told = machine.step(PARTS, asked.parts);
    while let Some(question) = machine.question(told) {
        let verdict = asked.says(question);
        told = machine.step(SAID, verdict);
    }
    machine.left(told)
}

// ---- the machine's rules with other cuts

// A row of which so many members are undecided, with what is known of it.
#[derive(Clone, Copy)]
pub struct Place {
    lo: u64,
    row: u64,
    found: u64,
    begun: u64,
    spent: u64,
}

impl Place {
    fn middle(self) -> u64 {
        self.lo + (self.row - self.lo - 1) / 2
    }

    fn guess(self) -> u64 {
        let Place {
            lo,
            row,
            found,
            begun,
            spent,
        } = self;
        if lo > 0 || found == 0 || row <= 4 || spent > 13 * found {
            return self.middle();
        }
        let members = (7 * (begun - row) / (10 * found)).max(1);
        if 4 * members >= row { 0 } else { row - members }
    }
}

// The rules as docs/MACHINE.md has them, cut in any way.
fn by_rules(asked: &mut Asked, cut: fn(Place) -> u64) -> Left {
    let mut held = asked.all();
    if !asked.fails(&held) {
        return None;
    }
    loop {
        let begun = held.len() as u64;
        let mut row = held;
        // The last found first.
        let mut needed = Vec::new();
        let (mut lo, mut spent, mut sure) = (0, 0, 0);
        while !row.is_empty() {
            if lo == row.len() as u64 {
                needed.push(row.pop().unwrap());
                (lo, sure) = (0, sure + 1);
                continue;
            }
            let c = cut(Place {
                lo,
                row: row.len() as u64,
                found: needed.len() as u64,
                begun,
                spent,
            });
            let mut question = row[..c as usize].to_vec();
            question.extend(needed.iter().rev());
            spent += 1;
            if asked.fails(&question) {
                row.truncate(c as usize);
                sure = 0;
            } else {
                lo = c + 1;
            }
        }
        needed.reverse();
        held = needed;
        let smaller = (sure..held.len())
            .map(|i| without(&held, i..i + 1))
            .find(|it| asked.fails(it));
        match smaller {
            Some(it) => held = it,
            None => return Some(held),
        }
    }
}

// The same search with halving only.
pub fn halving(asked: &mut Asked) -> Left {
    by_rules(asked, Place::middle)
}

// The machine's own cuts: it must ask what the library asks.
pub fn rules(asked: &mut Asked) -> Left {
    by_rules(asked, Place::guess)
}

fn without(list: &[u64], range: std::ops::Range<usize>) -> Vec<u64> {
    [&list[..range.start], &list[range.end..]].concat()
}

// ---- ddmin

// Answers by the subsets they were given of, as words of bits.
struct Cache<'a, 'b> {
    asked: &'a mut Asked<'b>,
    answers: HashMap<Vec<u64>, bool>,
}

impl Cache<'_, '_> {
    fn fails(&mut self, subset: &[u64]) -> bool {
        let mut words = vec![0; self.asked.parts as usize / 64 + 1];
        for &part in subset {
            words[part as usize / 64] |= 1 << (part % 64);
        }
        *self
            .answers
            .entry(words)
            .or_insert_with(|| self.asked.fails(subset))
    }
}

// So many chunks, as long as each other or one longer.
fn chunk_ends(length: usize, chunks: usize) -> Vec<usize> {
    (0..=chunks).map(|i| i * length / chunks).collect()
}

// Written for this bench from: A. Zeller and R. Hildebrandt, "Simplifying and Isolating Failure-Inducing Input", IEEE
// Transactions on Software Engineering 28(2), 2002. What was asked before isn't asked again, and doesn't count. The
// description leaves open which complement is tried first: here the one behind what was left out last. That asks fewer
// than to begin in front again, where the parts stand that were found needed. It takes it that nothing alone doesn't
// fail.
pub fn ddmin(asked: &mut Asked) -> Left {
    let mut held = asked.all();
    let mut cache = Cache {
        asked,
        answers: HashMap::new(),
    };
    if !cache.fails(&held) {
        return None;
    }
    let mut chunks = 2;
    let mut first = 0;
    while held.len() > 1 {
        chunks = chunks.min(held.len());
        let ends = chunk_ends(held.len(), chunks);
        let range = |i: usize| ends[i]..ends[i + 1];
        if let Some(i) = (0..chunks).find(|&i| cache.fails(&held[range(i)])) {
            held = held[range(i)].to_vec();
            (chunks, first) = (2, 0);
            continue;
        }
        let mut order = (0..chunks).map(|j| (first + j) % chunks);
        if let Some(i) = order.find(|&i| cache.fails(&without(&held, range(i)))) {
            held = without(&held, range(i));
            chunks = (chunks - 1).max(2);
            first = i % chunks;
        } else if chunks < held.len() {
            let more = (2 * chunks).min(held.len());
            first = first * more / chunks;
            chunks = more;
        } else {
            break;
        }
    }
    Some(held)
}

// ---- QuickXplain

// Written for this bench from: U. Junker, "QUICKXPLAIN: Preferred Explanations and Relaxations for Over-Constrained
// Problems", AAAI 2004; a conflict is a subset that fails. It takes it that failing is monotone and that nothing alone
// doesn't fail.
pub fn quickxplain(asked: &mut Asked) -> Left {
    let all = asked.all();
    if !asked.fails(&all) {
        return None;
    }
    let mut left = explain(asked, &mut Vec::new(), false, &all);
    left.sort_unstable();
    Some(left)
}

// Of the candidates those that are needed beside the background, to which something was added last or not.
fn explain(
    asked: &mut Asked,
    background: &mut Vec<u64>,
    added: bool,
    candidates: &[u64],
) -> Vec<u64> {
    if added && asked.fails(background) {
        return Vec::new();
    }
    if candidates.len() <= 1 {
        return candidates.to_vec();
    }
    let (front, back) = candidates.split_at(candidates.len() / 2);
    let length = background.len();
    background.extend(front);
    let of_back = explain(asked, background, true, back);
    background.truncate(length);
    background.extend(&of_back);
    let mut needed = explain(asked, background, !of_back.is_empty(), front);
    background.truncate(length);
    needed.extend(of_back);
    needed
}

// ---- chunks

// Leaves out chunks of a size, one behind the other, then of half that, down to 1; the last size is repeated until
// nothing goes.
fn leave_out(asked: &mut Asked, mut size: usize) -> Left {
    let mut held = asked.all();
    if !asked.fails(&held) {
        return None;
    }
    loop {
        let mut start = 0;
        let before = held.len();
        while start < held.len() {
            let end = (start + size).min(held.len());
            let smaller = without(&held, start..end);
            if asked.fails(&smaller) {
                held = smaller;
            } else {
                start = end;
            }
        }
        if size > 1 {
            size /= 2;
        } else if held.len() == before {
            return Some(held);
        }
    }
}

// Written for this bench from the manual of Lithium, the reducer of test cases of the Mozilla project: the first chunks
// are as long as the largest power of two below n.
pub fn chunks(asked: &mut Asked) -> Left {
    let size = (asked.parts.max(2) as usize).next_power_of_two() / 2;
    leave_out(asked, size)
}

// The plainest method: each part by itself, again and again until none goes.
pub fn one_by_one(asked: &mut Asked) -> Left {
    leave_out(asked, 1)
}
