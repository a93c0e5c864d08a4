//! The comparison of two heads over histories: every answer, and after every call all that can be read.

use std::fmt;

use crate::calls::{Answer, Bytes, Call, Head};

/// Gives a fresh head.
pub type Make<'a> = &'a dyn Fn() -> Box<dyn Head>;

/// Every parameter of every block.
pub const PARAMETERS: [(u8, &[u8]); 6] = [
    (0, &[18]),
    (1, &[1, 5, 6, 7, 10, 11, 12, 13, 16, 17, 18, 19, 21, 23, 25, 27]),
    (2, &[1, 5, 6, 10, 13, 14, 15, 16]),
    (3, &[1, 5, 6, 11, 23, 24, 25, 36, 37, 38]),
    (4, &[1, 5, 6, 10, 15, 20, 21]),
    (5, &[1, 5, 6, 10, 15, 20, 21, 22]),
];

/// A call that two heads answer differently after the calls before it.
#[derive(Clone, Debug)]
pub struct Difference {
    /// The last call is the one answered differently.
    pub history: Vec<Call>,
    pub left: Answer,
    pub right: Answer,
}

/// A call script; the answers to its last line follow as remarks.
impl fmt::Display for Difference {
    fn fmt(&self, f: &mut fmt::Formatter) -> fmt::Result {
        self.history.iter().try_for_each(|call| writeln!(f, "{call}"))?;
        writeln!(f, "# left:  {}\n# right: {}", self.left, self.right)
    }
}

/// Runs a history on both heads up to the first difference.
pub fn run(left: Make, right: Make, history: &[Call]) -> Option<Difference> {
    let (mut left, mut right) = (left(), right());
    let (left, right) = (&mut *left, &mut *right);
    for (index, call) in history.iter().enumerate() {
        if let Some((probe, left, right)) = step(left, right, call) {
            let mut history = history[..=index].to_vec();
            history.extend(probe);
            return Some(Difference { history, left, right });
        }
    }
    // Reads that are refused cannot depend on the state of a right head; once per history is enough.
    let blocks = [0, 1, 2, 3, 4, 5, 6, 7, 128, 255];
    let all = blocks.iter().flat_map(|&block| (0..=255).map(move |parameter| Call::Read(block, parameter)));
    for call in all {
        let answers = (call.on(left), call.on(right));
        if answers.0 != answers.1 {
            let history = history.iter().cloned().chain([call]).collect();
            return Some(Difference { history, left: answers.0, right: answers.1 });
        }
    }
    None
}

/// One call, then all reads, the image and the total. Gives the reading call, unless the call itself differs.
fn step(left: &mut dyn Head, right: &mut dyn Head, call: &Call) -> Option<(Option<Call>, Answer, Answer)> {
    let answers = (call.on(left), call.on(right));
    if answers.0 != answers.1 {
        return Some((None, answers.0, answers.1));
    }
    let mut probe = None;
    for (block, parameters) in PARAMETERS {
        for &parameter in parameters {
            if left.read(block, parameter) != right.read(block, parameter) {
                probe = probe.or(Some(Call::Read(block, parameter)));
            }
        }
    }
    let mut images = [[0; 19]; 2];
    if left.image(&mut images[0]) != right.image(&mut images[1]) || images[0] != images[1] {
        probe = probe.or(Some(Call::Image(19)));
    }
    if left.total() != right.total() {
        probe = probe.or(Some(Call::Total));
    }
    probe.map(|probe| {
        let answers = (probe.on(left), probe.on(right));
        (Some(probe), answers.0, answers.1)
    })
}

/// Compares over histories, and shrinks the first difference. Gives the number of calls made.
pub fn compare(left: Make, right: Make, histories: impl Iterator<Item = Vec<Call>>) -> Result<usize, Box<Difference>> {
    let mut calls = 0;
    for history in histories {
        if let Some(difference) = run(left, right, &history) {
            return Err(Box::new(shrink(left, right, difference)));
        }
        calls += history.len();
    }
    Ok(calls)
}

/// Calls that shrinking may make; a long silence that is really needed would otherwise keep it busy for ever.
const MOST_SHRINKING_CALLS: usize = 4_000_000;

/// A shorter and simpler history that still differs (perhaps in another way).
pub fn shrink(left: Make, right: Make, difference: Difference) -> Difference {
    let mut shrinking = Shrinking { left, right, best: difference, calls_left: MOST_SHRINKING_CALLS };
    while shrinking.remove() | shrinking.simplify() {}
    shrinking.best
}

struct Shrinking<'a> {
    left: Make<'a>,
    right: Make<'a>,
    best: Difference,
    calls_left: usize,
}

impl Shrinking<'_> {
    /// No calls are left for a further attempt.
    fn spent(&self) -> bool {
        self.calls_left < self.best.history.len()
    }

    /// Takes a history over if it still differs.
    fn attempt(&mut self, history: &[Call]) -> bool {
        self.calls_left = self.calls_left.saturating_sub(history.len());
        match run(self.left, self.right, history) {
            // A reading may be added at the end, so a history that was to become simpler might stay as it was.
            Some(found) if found.history.len() <= history.len() && found.history != self.best.history => {
                self.best = found;
                true
            }
            _ => false,
        }
    }

    /// Removes runs of calls, from half of all down to single ones.
    fn remove(&mut self) -> bool {
        let mut removed = false;
        let mut size = self.best.history.len() / 2;
        while size > 0 {
            let mut start = 0;
            while start + size <= self.best.history.len() && !self.spent() {
                let history = &self.best.history;
                let shorter = [&history[..start], &history[start + size..]].concat();
                if self.attempt(&shorter) {
                    removed = true;
                } else {
                    start += size;
                }
            }
            size /= 2;
        }
        removed
    }

    fn simplify(&mut self) -> bool {
        let mut simplified = false;
        let mut index = 0;
        while index < self.best.history.len() && !self.spent() {
            let call = self.best.history[index].clone();
            for simpler in simpler(&call) {
                let mut history = self.best.history.clone();
                if index < history.len() && history[index] == call && simpler != call {
                    history[index] = simpler;
                    simplified |= self.attempt(&history);
                }
            }
            index += 1;
        }
        simplified
    }
}

/// Simpler calls of the same kind. Each is nearer to an end (fewer bits, plain statuses), so that simplifying ends.
fn simpler(call: &Call) -> Vec<Call> {
    let floats = |bits: u32| {
        let masks = [0, 0xFF80_0000, 0xFFFF_0000, 0xFFFF_F000].map(|mask| bits & mask);
        masks.into_iter().filter(move |&masked| masked != bits)
    };
    let mut calls = Vec::new();
    match *call {
        Call::Tick { fault, ain, tot, di } => {
            let tick = |fault, ain, tot, di| Call::Tick { fault, ain, tot, di };
            calls.push(tick(false, (0, 0x80), (0, 0x80), (0, 0x80)));
            calls.push(tick(fault, ain, (0, 0x80), (0, 0x80)));
            calls.push(tick(fault, (0, 0x80), tot, (0, 0x80)));
            calls.push(tick(fault, (0, 0x80), (0, 0x80), di));
            calls.push(tick(fault, (0, 0x80), tot, di));
            calls.push(tick(fault, ain, (0, 0x80), di));
            calls.push(tick(fault, ain, tot, (0, 0x80)));
            calls.push(tick(fault, (ain.0, 0x80), tot, di));
            calls.push(tick(fault, ain, (tot.0, 0x80), di));
            calls.push(tick(fault, ain, tot, (di.0, 0x80)));
            calls.push(tick(fault, ain, tot, (di.0.min(2), di.1)));
            calls.push(tick(fault, ain, tot, (0, di.1)));
            calls.push(tick(false, ain, tot, di));
            calls.extend(floats(ain.0).map(|bits| tick(fault, (bits, ain.1), tot, di)));
            calls.extend(floats(tot.0).map(|bits| tick(fault, ain, (bits, tot.1), di)));
        }
        Call::Telegram(input, bytes) => match *bytes {
            [a, b, c, d, status] => {
                let bits = u32::from_be_bytes([a, b, c, d]);
                let telegram = |bits: u32, status: u8| {
                    let [a, b, c, d] = bits.to_be_bytes();
                    Call::Telegram(input, Bytes::new(&[a, b, c, d, status]))
                };
                calls.extend(floats(bits).map(|bits| telegram(bits, status)));
                calls.push(telegram(bits, 0x80));
            }
            [value, status] => {
                let telegram = |value: u8, status: u8| Call::Telegram(input, Bytes::new(&[value, status]));
                calls.push(telegram(0, status));
                calls.push(telegram(value.min(2), status));
                calls.push(telegram(value, 0x80));
            }
            _ => {}
        },
        Call::Write(block, parameter, w1, w2) => {
            calls.extend(floats(w1).map(|w1| Call::Write(block, parameter, w1, w2)));
            calls.extend(floats(w2).map(|w2| Call::Write(block, parameter, w1, w2)));
        }
        Call::Load(ref bytes) => {
            // Half of the pairs, then all but one, then plainer floats; bytes that are no whole pair stay.
            let pairs = bytes.len() / 8;
            let removals =
                [(0, pairs / 2), (pairs / 2, pairs)].into_iter().chain((0..pairs).map(|pair| (pair, pair + 1)));
            for (from, to) in removals.filter(|(from, to)| from < to) {
                calls.push(Call::Load([&bytes[..8 * from], &bytes[8 * to..]].concat().into()));
            }
            for (word, old) in bytes.chunks_exact(4).enumerate() {
                for bits in floats(u32::from_be_bytes([old[0], old[1], old[2], old[3]])) {
                    let mut bytes = bytes.clone();
                    bytes[4 * word..][..4].copy_from_slice(&bits.to_be_bytes());
                    calls.push(Call::Load(bytes));
                }
            }
        }
        _ => {}
    }
    calls
}
