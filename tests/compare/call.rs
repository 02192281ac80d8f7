//! One call of an entry point: how it is sent, what the second program answers, and what came back.

use crate::answers::{Check, Firm, Lean, Lit, Pick, Point, Read, Ready, Touch, Written};
use crate::chance::Chance;
use crate::flat;
use second::firm::firm;
use second::lean::known_lean;
use second::p4;
use second::pick::pick;
use second::ready::{check, walk_from, Handed};
use second::session::asked_by;
use second::solid::{Sizes, Solid, Stack};
use second::touch::touch;

/// A lent buffer in the middle of a larger one, so that a write beside it shows.
#[derive(Clone)]
pub struct Lent {
    whole: Vec<u8>,
    from: usize,
    len: usize,
}

impl Lent {
    pub fn new(chance: &mut Chance, len: usize) -> Lent {
        let from = chance.len_to(9);
        let pattern = chance.byte();
        let whole = (0..from + len + 16).map(|i| pattern.wrapping_add(37 * i as u8)).collect();
        Lent { whole, from, len }
    }

    fn part(&mut self) -> &mut [u8] {
        &mut self.whole[self.from..self.from + self.len]
    }
}

/// Which walk is asked for.
#[derive(Clone, Copy)]
pub enum Walk {
    Pick,
    Touch,
    /// A check, then the walk from what it hands back.
    InARow,
    /// From a ready start: the start asked about, and this.
    From(Handed),
    /// No walk: how firm this answer's footing is, wherever the start asked about lies.
    Firm(Pick),
}

impl Walk {
    /// What the second program answers. "The two in a row give the old answer": the pick's.
    pub fn second<S: Solid>(self, solid: &S, start: [i64; 3], frame: i64, reach: i64) -> Answer {
        let picked = || flat::pick(pick(solid, start, frame, reach));
        match self {
            Walk::Pick => Answer::Pick(picked()),
            Walk::Touch => Answer::Touch(flat::touch(touch(solid, start, frame, reach))),
            Walk::InARow => {
                Answer::InARow(flat::check(check(solid, start, frame, reach)), picked())
            }
            Walk::From(handed) => {
                let ready = second::ready::Ready { start, handed };
                Answer::Pick(flat::pick(walk_from(solid, ready, frame, reach)))
            }
            Walk::Firm(answer) => {
                Answer::Firm(flat::firm(firm(solid, flat::handed(answer), frame, reach)))
            }
        }
    }

    /// The bridge's letter for it.
    fn letter(self) -> u8 {
        match self {
            Walk::Pick => b'p',
            Walk::Touch => b't',
            Walk::InARow => b'c',
            Walk::From(_) => b'f',
            Walk::Firm(_) => b'u',
        }
    }

    fn told(self) -> String {
        match self {
            Walk::Pick => "pick".into(),
            Walk::Touch => "touch".into(),
            Walk::InARow => "check and walk".into(),
            Walk::From(handed) => format!("walk from {handed:?}"),
            Walk::Firm(answer) => format!("footing of {answer:?}"),
        }
    }
}

/// What a walk on a stack is asked.
#[derive(Clone)]
pub struct OnStack {
    pub sizes: [i32; 3],
    pub bytes: Vec<u8>,
    pub start: [i32; 3],
    pub frame: i32,
    pub reach: i32,
}

impl OnStack {
    /// As a line asks a wedge.
    pub fn asked_by<'a, A>(&'a self, ask: impl FnOnce(&Stack<'a>, [i64; 3], i64, i64) -> A) -> A {
        let stack = Stack { sizes: sizes_of(self.sizes), bytes: &self.bytes };
        ask(&stack, self.start.map(i64::from), self.frame.into(), self.reach.into())
    }
}

#[derive(Clone)]
pub enum Call {
    /// a b c h, p, frame, R.
    Wedge(Walk, [i32; 9]),
    Stack(Walk, OnStack),
    /// The input is the front of a longer text, so that a reader that runs on meets something.
    Read {
        text: Vec<u8>,
        len: usize,
        lent: Lent,
    },
    Write {
        sizes: [i32; 3],
        bytes: Vec<u8>,
        lent: Lent,
    },
    Display([i32; 3]),
    /// Of an answer, with the reach.
    Lean(Pick, i32),
}

/// An answer with the whole of the lent buffer and what surrounds it.
#[derive(PartialEq)]
pub enum Answer {
    Pick(Pick),
    Touch(Touch),
    /// The check's, and the pick's that the two give.
    InARow(Check, Pick),
    Read(Read, Vec<u8>),
    Written(Written, Vec<u8>),
    /// The floats' bits, so that -0 is not 0.
    Lit(u32, [u32; 3]),
    Lean(Lean),
    Firm(Firm),
}

impl Answer {
    pub fn number(&self) -> u32 {
        match self {
            Answer::Pick(pick) | Answer::InARow(_, pick) => pick.number,
            Answer::Touch(touch) => touch.number,
            Answer::Read(read, _) => read.number,
            Answer::Written(written, _) => written.number,
            Answer::Lit(number, _) => *number,
            Answer::Lean(lean) => lean.number,
            Answer::Firm(firm) => firm.number,
        }
    }

    /// What is counted beside the number: how many axes are level in an accepted pick (the parts of
    /// its normal that are 0) or in a ready start, an accepted touch, the axis of a corner that is
    /// not filled, and whether there is a bound, or no footing at all.
    pub fn mark(&self) -> Option<&'static str> {
        match self {
            Answer::Pick(Pick { number: 0, normal: Point { x, y, z }, .. }) => {
                let level = [x, y, z].iter().filter(|&&&part| part == 0).count();
                [None, Some("level1"), Some("level2")][level]
            }
            Answer::InARow(Check { number: 0, ready, .. }, _) => {
                Some(["ready", "ready1", "ready2"][ready.level.count_ones() as usize])
            }
            Answer::Touch(Touch { number: 0, .. }) => Some("guess"),
            // The third look, after p and q, is at axis 0's.
            Answer::Touch(Touch { number: 11, looks, .. }) => {
                Some(["11x", "11y", "11z"][*looks as usize - 3])
            }
            Answer::Firm(Firm { number: 0, power: 0, .. }) => Some("loose"),
            Answer::Firm(Firm { number: 0, part, whole, .. })
            | Answer::Lean(Lean { number: 0, part, whole }) => {
                Some(if part < whole { "bound" } else { "unbound" })
            }
            _ => None,
        }
    }

    /// In words; the buffer only where it differs from the other answer's.
    pub fn told(&self, other: &Answer) -> String {
        match (self, other) {
            (Answer::Pick(pick), _) => format!("{pick:?}"),
            (Answer::Touch(touch), _) => format!("{touch:?}"),
            (Answer::InARow(check, pick), _) => format!("{check:?} {pick:?}"),
            (Answer::Read(read, ours), Answer::Read(_, theirs)) => {
                format!("{read:?} {}", difference(ours, theirs))
            }
            (Answer::Written(written, ours), Answer::Written(_, theirs)) => {
                format!("{written:?} {}", difference(ours, theirs))
            }
            (Answer::Lit(number, bits), _) => {
                format!("{number} {:?}", bits.map(f32::from_bits))
            }
            (Answer::Lean(lean), _) => format!("{lean:?}"),
            (Answer::Firm(firm), _) => format!("{firm:?}"),
            _ => "an answer of another kind".into(),
        }
    }
}

fn difference(ours: &[u8], theirs: &[u8]) -> String {
    match ours.iter().zip(theirs).position(|(a, b)| a != b) {
        Some(at) => format!("byte {at} of the buffer and its margins is {}", ours[at]),
        None => "buffers equal".into(),
    }
}

fn sizes_of([width, height, depth]: [i32; 3]) -> Sizes {
    Sizes { width: width.into(), height: height.into(), depth: depth.into() }
}

impl Call {
    /// The same with this walk asked for.
    pub fn asking(self, walk: Walk) -> Call {
        match self {
            Call::Wedge(_, line) => Call::Wedge(walk, line),
            Call::Stack(_, on) => Call::Stack(walk, on),
            other => other,
        }
    }

    /// The reach that a walk is asked with.
    pub fn reach(&self) -> Option<i32> {
        match self {
            Call::Wedge(_, line) => Some(line[8]),
            Call::Stack(_, on) => Some(on.reach),
            _ => None,
        }
    }

    /// Whether it asks for a footing that this answer has, but not to the last power.
    pub fn is_firm_partly(&self, answer: &Answer) -> bool {
        match (answer, self.reach()) {
            (Answer::Firm(firm), Some(reach)) => firm.power > 0 && (firm.power as i32) < reach,
            _ => false,
        }
    }

    /// Whether it reads a file with a comment at once after the first magic.
    pub fn has_touching_comment(&self) -> bool {
        matches!(self, Call::Read { text, len, .. } if text[..*len].starts_with(b"P4#"))
    }

    /// What the second program answers.
    pub fn second(&self) -> Answer {
        match self {
            Call::Wedge(walk, line) => {
                asked_by(line.map(i64::from), |wedge, start, frame, reach| {
                    walk.second(wedge, start, frame, reach)
                })
            }
            Call::Stack(walk, on) => {
                on.asked_by(|stack, start, frame, reach| walk.second(stack, start, frame, reach))
            }
            Call::Read { text, len, lent } => {
                let mut lent = lent.clone();
                let answer = flat::read(p4::read(&text[..*len], lent.part()));
                Answer::Read(answer, lent.whole)
            }
            Call::Write { sizes, bytes, lent } => {
                let mut lent = lent.clone();
                let answer = flat::written(p4::write(sizes_of(*sizes), bytes, lent.part()));
                Answer::Written(answer, lent.whole)
            }
            Call::Display(normal) => {
                let Lit { number, x, y, z } = flat::lit(normal.map(i64::from));
                Answer::Lit(number, [x, y, z].map(f32::to_bits))
            }
            Call::Lean(answer, reach) => {
                Answer::Lean(flat::lean(known_lean(flat::handed(*answer), (*reach).into())))
            }
        }
    }

    /// About how many bytes it takes to hold.
    pub fn size(&self) -> usize {
        100 + match self {
            Call::Wedge(..) | Call::Display(_) | Call::Lean(..) => 0,
            Call::Stack(_, on) => on.bytes.len(),
            Call::Read { text, lent, .. } => text.len() + lent.whole.len(),
            Call::Write { bytes, lent, .. } => bytes.len() + lent.whole.len(),
        }
    }

    /// As the bridge takes it.
    pub fn send(&self, batch: &mut Batch) {
        match self {
            Call::Wedge(walk, line) => {
                batch.ints(b'w', line);
                batch.walk(*walk);
            }
            Call::Stack(walk, on) => {
                let ([w, h, d], [x, y, z]) = (on.sizes, on.start);
                batch.ints(b's', &[w, h, d, x, y, z, on.frame, on.reach]);
                batch.walk(*walk);
                batch.bytes(&on.bytes);
            }
            Call::Read { text, len, lent } => {
                batch.ints(b'r', &[*len, lent.from, lent.len].map(|number| number as i32));
                batch.bytes(text);
                batch.bytes(&lent.whole);
            }
            Call::Write { sizes: [w, h, d], bytes, lent } => {
                batch.ints(b'o', &[*w, *h, *d, lent.from as i32, lent.len as i32]);
                batch.bytes(bytes);
                batch.bytes(&lent.whole);
            }
            Call::Display(normal) => batch.ints(b'd', normal),
            Call::Lean(answer, reach) => {
                batch.ints(b'l', &[*reach]);
                batch.pick(*answer);
            }
        }
    }

    /// What the library answered.
    pub fn receive(&self, reply: &mut Reply) -> Answer {
        match self {
            Call::Wedge(walk, _) | Call::Stack(walk, _) => reply.walked(*walk),
            Call::Read { lent, .. } => {
                let (number, value) = (reply.take(), reply.take_long());
                let (width, height, depth) = (reply.take(), reply.take(), reply.take());
                let read = Read { number, value, width, height, depth };
                Answer::Read(read, reply.bytes(lent.whole.len()))
            }
            Call::Write { lent, .. } => {
                let written = Written { number: reply.take(), value: reply.take_long() };
                Answer::Written(written, reply.bytes(lent.whole.len()))
            }
            Call::Display(_) => {
                Answer::Lit(reply.take(), [reply.take(), reply.take(), reply.take()])
            }
            Call::Lean(..) => Answer::Lean(Lean {
                number: reply.take(),
                part: reply.take_long(),
                whole: reply.take_long(),
            }),
        }
    }

    /// The call in words, with its numbers and the front of its bytes.
    pub fn told(&self) -> String {
        let front = |bytes: &[u8]| bytes[..bytes.len().min(300)].escape_ascii().to_string();
        match self {
            Call::Wedge(walk, line) => {
                format!("{} on wedge {}", walk.told(), line.map(|n| n.to_string()).join(" "))
            }
            Call::Stack(walk, OnStack { sizes, bytes, start, frame, reach }) => {
                let (walk, len) = (walk.told(), bytes.len());
                format!(
                    "{walk} on stack {sizes:?} of {len} bytes, start {start:?}, {frame}, {reach}"
                )
            }
            Call::Read { text, len, lent } => {
                format!("read of {len} bytes into {}: {}", lent.len, front(&text[..*len]))
            }
            Call::Write { sizes, bytes, lent } => {
                let len = bytes.len();
                format!("write {sizes:?} of {len} bytes into {}: {}", lent.len, front(bytes))
            }
            Call::Display(normal) => format!("display {normal:?}"),
            Call::Lean(answer, reach) => format!("known lean of {answer:?}, {reach}"),
        }
    }
}

/// Calls on their way to the bridge.
#[derive(Default)]
pub struct Batch {
    pub text: Vec<u8>,
}

impl Batch {
    fn put(&mut self, number: u32) {
        self.text.extend(number.to_le_bytes());
    }

    fn ints(&mut self, kind: u8, numbers: &[i32]) {
        self.put(kind.into());
        numbers.iter().for_each(|&number| self.put(number as u32));
    }

    fn walk(&mut self, walk: Walk) {
        self.put(walk.letter().into());
        if let Walk::From(Handed { apex, level, looks }) = walk {
            apex.iter().for_each(|&part| self.put(part as u32));
            self.put(level);
            self.put(looks);
        }
        if let Walk::Firm(answer) = walk {
            self.pick(answer);
        }
    }

    /// In the order of the header's struct.
    fn pick(&mut self, answer: Pick) {
        let Pick { number, place, steps, looks, normal, m0, m1, m2, apex } = answer;
        self.put(number);
        self.point(place);
        self.put(steps);
        self.put(looks);
        [normal, m0, m1, m2, apex].iter().for_each(|point| self.point(*point));
    }

    fn point(&mut self, Point { x, y, z }: Point) {
        [x, y, z].iter().for_each(|&part| self.put(part as u32));
    }

    /// Runs that are not all zero, 64 bytes at a time.
    fn bytes(&mut self, bytes: &[u8]) {
        const PIECE: usize = 64;
        self.put(bytes.len() as u32);
        let runs_at = self.text.len();
        self.put(0);
        let mut runs = 0u32;
        let mut at = 0;
        while at < bytes.len() {
            let filled = |piece: &[u8]| piece.iter().fold(0, |all, &byte| all | byte) != 0;
            let pieces = bytes[at..].chunks(PIECE).take_while(|piece| filled(piece)).count();
            let end = (at + pieces * PIECE).min(bytes.len());
            if pieces > 0 {
                self.put(at as u32);
                self.put((end - at) as u32);
                self.text.extend(&bytes[at..end]);
                runs += 1;
            }
            at = end + PIECE * usize::from(pieces == 0);
        }
        self.text[runs_at..runs_at + 4].copy_from_slice(&runs.to_le_bytes());
    }
}

/// Answers that came back.
pub struct Reply {
    pub text: Vec<u8>,
    pub at: usize,
}

impl Reply {
    fn bytes(&mut self, len: usize) -> Vec<u8> {
        self.at += len;
        self.text[self.at - len..self.at].to_vec()
    }

    fn take(&mut self) -> u32 {
        u32::from_le_bytes(self.bytes(4).try_into().expect("four bytes"))
    }

    fn take_long(&mut self) -> u64 {
        u64::from_le_bytes(self.bytes(8).try_into().expect("eight bytes"))
    }

    fn point(&mut self) -> Point {
        let [x, y, z] = [self.take(), self.take(), self.take()].map(|part| part as i32);
        Point { x, y, z }
    }

    fn walked(&mut self, walk: Walk) -> Answer {
        match walk {
            Walk::Pick | Walk::From(_) => Answer::Pick(self.pick()),
            Walk::Touch => Answer::Touch(Touch::of(self.take(), self.pick())),
            Walk::InARow => Answer::InARow(self.check(), self.pick()),
            Walk::Firm(_) => Answer::Firm(self.firm()),
        }
    }

    fn check(&mut self) -> Check {
        let (number, place, looks) = (self.take(), self.point(), self.take());
        Check { number, place, looks, ready: self.ready() }
    }

    fn ready(&mut self) -> Ready {
        let (start, apex) = (self.point(), self.point());
        Ready { start, apex, level: self.take(), looks: self.take() }
    }

    fn firm(&mut self) -> Firm {
        Firm {
            number: self.take(),
            place: self.point(),
            power: self.take(),
            looks: self.take(),
            part: self.take_long(),
            whole: self.take_long(),
        }
    }

    /// In the order of the header's struct.
    fn pick(&mut self) -> Pick {
        Pick {
            number: self.take(),
            place: self.point(),
            steps: self.take(),
            looks: self.take(),
            normal: self.point(),
            m0: self.point(),
            m1: self.point(),
            m2: self.point(),
            apex: self.point(),
        }
    }
}
