//! Random and hostile histories. Drawn evenly, nearly every write would be refused and no value would ever lie at a
//! limit; so each history has a profile of weights, and the maker keeps a model of its own to see what is in force.
//! A history is a plain list of calls and depends on its seed and index alone.

use crate::calls::{Answer, Bytes, Call};
use crate::compare::PARAMETERS;
use crate::model::Model;
use crate::random::Random;

/// Histories of a default run, about six million calls.
pub const HISTORIES: u64 = 20_480;
/// One history in so many is a long one: a silence past 65,535 ticks, or as many writes.
const LONG_EVERY: u64 = 1_024;

pub fn histories(seed: u64, number: u64) -> impl Iterator<Item = Vec<Call>> {
    (0..number).map(move |index| history(seed, index))
}

pub fn history(seed: u64, index: u64) -> Vec<Call> {
    let mut maker = Maker {
        random: Random::new(seed ^ index.wrapping_mul(0xD134_2543_DE82_EF95)),
        model: Model::factory(),
        calls: Vec::new(),
        table: Vec::new(),
        profile: &PROFILES[(index % PROFILES.len() as u64) as usize],
    };
    if index % LONG_EVERY == LONG_EVERY - 1 {
        match index / LONG_EVERY % 4 {
            1 => maker.many_writes(),
            _ => maker.long_silence(),
        }
    } else {
        let length = maker.random.pick(&[10, 30, 60, 100, 150, 300, 1000]);
        maker.opening();
        while maker.calls.len() < length {
            maker.call();
        }
    }
    maker.calls
}

struct Profile {
    /// Weights of tick, telegram, write, read, warm start, factory, image, part, total and load.
    calls: [u32; 10],
    /// Weights of the blocks in writes.
    blocks: [u32; 6],
    /// Per cent of writes and telegrams that are meant to be refused.
    hostile: u32,
    /// Per cent of ticks with the fault flag.
    fault: u32,
    /// Per cent of statuses that are not plainly Good.
    odd: u32,
    /// Per cent of floats from the far ends: NaNs, infinities, subnormals, the largest.
    wild: u32,
    /// Per cent of scales left plain, so that a value can be aimed at a limit exactly.
    plain: u32,
    /// Totals near ±10^12 and rates of that size.
    great: bool,
    /// Per cent of histories that open with a linearisation table in use.
    table: u32,
}

const BASE: Profile = Profile {
    calls: [1000, 120, 250, 20, 3, 1, 3, 3, 3, 3],
    blocks: [1, 8, 8, 8, 6, 8],
    hostile: 4,
    fault: 2,
    odd: 25,
    wild: 4,
    plain: 50,
    great: false,
    table: 20,
};

const PROFILES: [Profile; 15] = [
    BASE,
    // AIN: limits and hysteresis rewritten under standing alarms.
    Profile { calls: [1000, 5, 350, 20, 4, 1, 3, 1, 1, 3], blocks: [1, 60, 2, 2, 1, 1], odd: 12, plain: 80, ..BASE },
    // AIN: filter and scales.
    Profile { calls: [1000, 5, 200, 20, 4, 1, 3, 1, 1, 3], blocks: [1, 60, 2, 2, 1, 1], odd: 30, plain: 20, ..BASE },
    // AIN: the linearisation table, then one with floats from the far ends.
    Profile { calls: [1000, 5, 120, 5, 6, 1, 3, 1, 1, 12], blocks: [1, 60, 2, 2, 1, 1], plain: 80, table: 90, ..BASE },
    Profile { calls: [1000, 5, 120, 5, 6, 1, 3, 1, 1, 12], blocks: [1, 60, 2, 2, 1, 1], wild: 30, table: 90, ..BASE },
    // TOT: small rates, then great ones.
    Profile { calls: [1000, 5, 200, 20, 4, 1, 3, 1, 9, 1], blocks: [1, 2, 60, 2, 1, 1], odd: 30, ..BASE },
    Profile { calls: [1000, 5, 120, 20, 4, 1, 3, 1, 9, 1], blocks: [1, 2, 60, 2, 1, 1], odd: 15, great: true, ..BASE },
    // AO: telegrams and silence.
    Profile { calls: [1000, 250, 150, 20, 4, 1, 3, 1, 1, 1], blocks: [1, 2, 2, 60, 1, 1], odd: 30, ..BASE },
    Profile { calls: [1000, 120, 60, 20, 10, 1, 3, 1, 1, 1], blocks: [1, 2, 2, 60, 1, 1], odd: 20, wild: 1, ..BASE },
    // DI: contacts that fail, each FSAFE_TYPE, INVERT.
    Profile { calls: [1000, 5, 250, 20, 25, 3, 3, 1, 1, 1], blocks: [1, 1, 1, 1, 60, 2], odd: 40, table: 0, ..BASE },
    // DO: telegrams and silence, then with more of the silence.
    Profile { calls: [1000, 250, 200, 20, 15, 3, 3, 1, 1, 1], blocks: [1, 1, 1, 2, 2, 60], odd: 30, table: 0, ..BASE },
    Profile { calls: [1000, 100, 80, 20, 15, 3, 3, 1, 1, 1], blocks: [1, 1, 1, 20, 2, 60], odd: 20, table: 0, ..BASE },
    // Refusals of all kinds, often locked.
    Profile { calls: [300, 200, 600, 200, 5, 5, 60, 60, 5, 40], blocks: [8, 8, 8, 8, 8, 8], hostile: 50, ..BASE },
    // The far ends of the floats.
    Profile { calls: [1000, 120, 350, 20, 4, 1, 3, 3, 3, 5], wild: 45, plain: 60, odd: 15, ..BASE },
    // Modes: faults, Man, O/S, warm starts.
    Profile { calls: [1000, 150, 450, 20, 30, 3, 3, 3, 3, 3], fault: 12, ..BASE },
];

#[rustfmt::skip]
const FAR_ENDS: [u32; 22] = [
    0x0000_0000, 0x8000_0000, // zeros
    0x0000_0001, 0x8000_0001, 0x007F_FFFF, 0x0080_0000, 0x8080_0000, // around the least normal
    0x7F7F_FFFF, 0xFF7F_FFFF, 0x7F00_0000, 0xFF00_0000, 0x7E80_0000, 0x7F61_B1E6, 0xFF61_B1E6, // the largest, ±3e38
    0x7F80_0000, 0xFF80_0000, // infinities
    0x7FC0_0000, 0xFFC0_0000, 0x7F80_0001, 0xFF80_0001, 0x7FFF_FFFF, 0xFFFF_FFFF, // NaNs
];

/// The infinities and NaNs of them.
const NOT_FINITE: &[u32] = FAR_ENDS.split_at(14).1;

const PLAIN_SCALES: [(f32, f32); 4] = [(0.0, 1.0), (0.0, 64.0), (0.0, 100.0), (-32.0, 32.0)];
#[rustfmt::skip]
const OTHER_SCALES: [(f32, f32); 12] = [
    (4.0, 20.0), (3.0, 15.0), (-50.0, 50.0), (100.0, 0.0), (20.0, 4.0), (-0.0, 100.0), (-0.0, -100.0), (0.1, 0.7),
    (1e-45, 0.0), (-3e38, 3e38), (3e38, -3e38), (1.0, 1e-30),
];

/// The bytes of a load.
fn bytes(pairs: &[(f32, f32)]) -> Vec<u8> {
    pairs.iter().flat_map(|&(x, y)| [x.to_be_bytes(), y.to_be_bytes()]).flatten().collect()
}

/// The pairs of a load that was accepted.
fn pairs(bytes: &[u8]) -> Vec<(f32, f32)> {
    let float = |at: &[u8]| f32::from_be_bytes([at[0], at[1], at[2], at[3]]);
    bytes.chunks_exact(8).map(|pair| (float(&pair[..4]), float(&pair[4..]))).collect()
}

struct Maker {
    random: Random,
    model: Model,
    calls: Vec<Call>,
    /// The pairs loaded last, x and y.
    table: Vec<(f32, f32)>,
    profile: &'static Profile,
}

impl Maker {
    fn push(&mut self, call: Call) {
        match (&call, call.on(&mut self.model)) {
            (Call::Load(bytes), Answer::Ok) => self.table = pairs(bytes),
            (Call::Factory, _) => self.table.clear(),
            _ => {}
        }
        self.calls.push(call);
    }

    /// First word of a parameter that exists, as a float.
    fn in_force(&self, block: u8, parameter: u8) -> f32 {
        f32::from_bits(self.model.read(block, parameter).map_or(0, |words| words.0))
    }

    fn scale_in_force(&self, block: u8, parameter: u8) -> (f64, f64) {
        let (low, high) = self.model.read(block, parameter).unwrap_or((0, 1));
        (f32::from_bits(low).into(), f32::from_bits(high).into())
    }

    /// Some accepted writes, so that a history does not start with the defaults.
    fn opening(&mut self) {
        for _ in 0..self.random.below(12) {
            self.allowed_write();
        }
        if self.random.chance(self.profile.table) {
            self.load();
            self.write(1, 13, (1, 0));
        }
        if self.random.chance(self.profile.blocks[5]) {
            // With FSAFE_TIME 0 a telegram is followed in one tick alone.
            let words = self.words(5, 22);
            self.write(5, 22, words);
        }
    }

    fn call(&mut self) {
        match self.random.weighted(&self.profile.calls) {
            0 => self.ticks(),
            1 => self.telegram(),
            2 if self.random.chance(self.profile.hostile) => self.hostile_write(),
            2 => self.allowed_write(),
            3 => {
                let (block, parameter) = self.parameter();
                let unknown = (self.random.below(8) as u8, self.random.byte());
                let read = if self.random.chance(70) { (block, parameter) } else { unknown };
                self.push(Call::Read(read.0, read.1));
            }
            4 => self.start(),
            5 => self.push(Call::Factory),
            6 => {
                let length = self.random.pick(&[0, 1, 5, 10, 14, 15, 17, 18, 18, 19, 19, 19, 20, 21, 64]);
                self.push(Call::Image(length));
            }
            7 => {
                let block = if self.random.chance(90) { self.random.below(7) as u8 } else { self.random.byte() };
                let some = self.random.below(65) as u8;
                let length = self.random.pick(&[some, some, 14, 15, 16, 17, 18, 19, 20]);
                self.push(Call::Part(block, length));
            }
            8 => self.push(Call::Total),
            _ if self.random.chance(30 + self.profile.hostile) => self.hostile_load(),
            _ => self.load(),
        }
    }

    // Ticks

    fn ticks(&mut self) {
        let fault = self.random.chance(self.profile.fault);
        self.ticks_with(fault);
    }

    fn ticks_with(&mut self, fault: bool) {
        let ain = (self.transducer_value(), self.status());
        let tot = (self.rate(), self.status());
        let di = if self.random.chance(self.profile.odd / 4) {
            self.failed_contact()
        } else {
            (self.contact(), self.status())
        };
        self.ticks_by(fault, ain, tot, di);
    }

    fn ticks_by(&mut self, fault: bool, ain: (u32, u8), tot: (u32, u8), di: (u8, u8)) {
        let times = if self.random.chance(10) { 1 + self.random.below(6) } else { 1 };
        for _ in 0..times {
            self.push(Call::Tick { fault, ain, tot, di });
        }
    }

    fn status(&mut self) -> u8 {
        if !self.random.chance(self.profile.odd) {
            return 0x80;
        }
        match self.random.below(5) {
            0 => 0x80 | self.random.byte() & 0x3F,
            1 => 0x40 | self.random.byte() & 0x3F,
            2 => self.random.byte() & 0x3F,
            _ => self.random.byte(),
        }
    }

    /// A float next to `value`, most often itself.
    fn near(&mut self, value: f64) -> u32 {
        let bits = (value as f32).to_bits();
        match self.random.below(8) {
            0 => bits.wrapping_add(1),
            1 => bits.wrapping_sub(1),
            2 => bits.wrapping_add(self.random.below(17)).wrapping_sub(8),
            _ => bits,
        }
    }

    fn wild(&mut self) -> Option<u32> {
        match self.random.chance(self.profile.wild) {
            true if self.random.chance(15) => Some(self.random.bits()),
            true => Some(self.random.pick(&FAR_ENDS)),
            false => None,
        }
    }

    /// A value between (and a little past) two ends, often a round one.
    fn between(&mut self, low: f64, high: f64) -> f64 {
        let at = self.random.unit() * 1.2 - 0.1;
        let value = low + at * (high - low);
        if self.random.chance(50) {
            (value * 4.0).round() / 4.0
        } else {
            value
        }
    }

    /// A value of AIN's OUT that matters: at a limit, where an alarm falls, OUT itself, an end of the scale.
    fn out_that_matters(&mut self) -> f64 {
        let limit = self.random.pick(&[21, 23, 25, 27]);
        let at = f64::from(self.in_force(1, limit));
        let hys = f64::from(self.in_force(1, 19)) * if limit < 25 { -1.0 } else { 1.0 };
        let (low, high) = self.scale_in_force(1, 12);
        match self.random.below(8) {
            0..=2 if at.is_finite() => at,
            3..=5 if at.is_finite() => at + hys,
            6 => self.in_force(1, 10).into(),
            _ => self.random.pick(&[low, high]),
        }
    }

    fn transducer_value(&mut self) -> u32 {
        if let Some(bits) = self.wild() {
            return bits;
        }
        if self.linearised() && self.random.chance(65) {
            return self.at_the_table();
        }
        let (pv_low, pv_high) = self.scale_in_force(1, 11);
        if self.random.chance(50) {
            return (self.between(pv_low, pv_high) as f32).to_bits();
        }
        // Backwards through filter and scaling, so that OUT comes to lie where it matters.
        let mut wanted = self.out_that_matters();
        let ftime = f64::from(self.in_force(1, 16));
        if ftime < 10.0 && self.random.chance(50) {
            let old = f64::from(self.in_force(1, 10));
            wanted = old + (wanted - old) * (ftime * 10.0 + 1.0);
        }
        let (low, high) = self.scale_in_force(1, 12);
        let x = (wanted - low) / (high - low) * (pv_high - pv_low) + pv_low;
        let x = if self.linearised() { self.before_the_table(x) } else { x };
        self.near(x)
    }

    fn linearised(&self) -> bool {
        self.model.read(1, 13) == Ok((1, 0))
    }

    /// An input at which the table matters: an x of it, the floats next to that, the middle of a segment.
    fn at_the_table(&mut self) -> u32 {
        let at = self.random.below(self.table.len() as u32) as usize;
        let x = self.table[at].0;
        let next = self.table[(at + 1).min(self.table.len() - 1)].0;
        let input = match self.random.below(10) {
            0..=2 => x,
            3 => x.next_up(),
            4 => x.next_down(),
            5 => (f64::from(x) / 2.0 + f64::from(next) / 2.0) as f32,
            6 | 7 => (f64::from(x) + self.random.unit() * (f64::from(next) - f64::from(x))) as f32,
            // The other zero, or past an end.
            _ if x == 0.0 => -x,
            8 => self.table[0].0 - self.random.pick(&[0.25, 1.0, 1e30]),
            _ => self.table[self.table.len() - 1].0 + self.random.pick(&[0.25, 1.0, 1e30]),
        };
        input.to_bits()
    }

    /// Backwards through the table: an input that it takes to a value, or near it.
    fn before_the_table(&self, wanted: f64) -> f64 {
        let held = |two: &[(f32, f32)]| {
            let [(x0, y0), (x1, y1)] = [two[0], two[1]].map(|(x, y)| (f64::from(x), f64::from(y)));
            let at = (wanted - y0) / (y1 - y0);
            (0.0..=1.0).contains(&at).then_some(x0 + at * (x1 - x0))
        };
        self.table.windows(2).find_map(held).unwrap_or(wanted)
    }

    fn rate(&mut self) -> u32 {
        if let Some(bits) = self.wild() {
            return bits;
        }
        let sign = if self.random.chance(40) { -1.0 } else { 1.0 };
        let size = match self.random.below(6) {
            _ if self.profile.great && self.random.chance(70) => {
                1e7 * self.random.pick(&[0.5, 0.9999, 1.0, 1.0, 2.0, 1e30, 3.4e31])
            }
            0 => f64::from(self.random.below(1000)) / 100.0,
            1 => f64::from(self.random.below(1000)) / 64.0,
            2 => self.random.unit() / 50.0,
            3 => self.random.unit() * 1000.0,
            4 => self.random.unit() * 1e7,
            _ => self.random.pick(&[0.0, 0.29, 0.015625, 0.01, 1.0]),
        };
        self.near(sign * size)
    }

    /// A discrete value, now and then one that is none.
    fn contact(&mut self) -> u8 {
        match self.random.below(16) {
            0 => self.over_1(),
            1 if self.random.chance(self.profile.wild) => self.random.byte(),
            drawn => u8::from(drawn % 2 == 0),
        }
    }

    fn over_1(&mut self) -> u8 {
        self.random.pick(&[2, 2, 3, 7, 128, 129, 254, 255])
    }

    /// A pair for DI that is not usable: by its quality, by its value or by both.
    fn failed_contact(&mut self) -> (u8, u8) {
        let status = self.random.byte();
        let usable = (0x40..0xC0).contains(&status);
        let value = if usable || self.random.chance(50) { self.over_1() } else { self.random.below(2) as u8 };
        (value, status)
    }

    // Starts

    /// A warm start; after some of them DI has no usable value and DO no usable telegram for a while.
    fn start(&mut self) {
        self.push(Call::Warm);
        if self.random.chance(self.profile.blocks[4].max(self.profile.blocks[5])) {
            for _ in 0..1 + self.random.below(8) {
                match self.random.below(6) {
                    0 => {
                        let (block, parameter) =
                            self.random.pick(&[(4, 15), (4, 20), (4, 21), (5, 15), (5, 20), (5, 21)]);
                        let words = self.words(block, parameter);
                        self.write(block, parameter, words);
                    }
                    1 => {
                        let (input, value) = (2 + self.random.below(2) as u8, self.contact());
                        let status = self.random.pick(&[0xA0, 0xE3, 0x4C, 0x20]);
                        self.push(Call::Telegram(input, Bytes::new(&[value, status])));
                    }
                    _ => {
                        let (bits, rate, di) = (self.transducer_value(), self.rate(), self.failed_contact());
                        self.ticks_by(false, (bits, 0x80), (rate, 0x80), di);
                    }
                }
            }
        }
    }

    // Telegrams

    /// To AO or to DO, as often as the profile has writes to them.
    fn telegram(&mut self) {
        let block = if self.random.weighted(&[self.profile.blocks[3], self.profile.blocks[5]]) == 0 { 3 } else { 5 };
        self.telegram_to(block);
    }

    fn telegram_to(&mut self, block: u8) {
        let remote = self.model.read(block, 5) == Ok((0x02, 0));
        let first = if block == 3 { 0 } else { 2 };
        let input = first + u8::from(remote != self.random.chance(30));
        let value = if block == 3 { self.setpoint().to_be_bytes().to_vec() } else { vec![self.contact()] };
        let status = self.telegram_status();
        let bytes = [&value[..], &[status]].concat();
        if self.random.chance(self.profile.hostile) {
            return self.hostile_telegram(input, bytes);
        }
        self.push(Call::Telegram(input, Bytes::new(&bytes)));
    }

    fn setpoint(&mut self) -> u32 {
        match self.wild() {
            Some(bits) => bits,
            None if self.random.chance(5) => self.random.pick(&FAR_ENDS),
            None => {
                let (low, high) = self.scale_in_force(3, 11);
                let value = self.between(low, high);
                self.near(value)
            }
        }
    }

    fn telegram_status(&mut self) -> u8 {
        match self.random.below(100) {
            0..=49 => 0x80,
            50..=64 => 0xC0,
            // IFS, with all limit bits.
            65..=79 => self.random.pick(&[0xA0, 0xE0]) | self.random.byte() & 3,
            // Its neighbours.
            80..=84 => self.random.pick(&[0x9C, 0xA4, 0xDC, 0xE4, 0x20, 0x60]),
            _ => self.random.byte(),
        }
    }

    /// Another input, another length, or both.
    fn hostile_telegram(&mut self, mut input: u8, mut bytes: Vec<u8>) {
        match self.random.below(4) {
            0 => input = self.random.pick(&[4, 5, 255]),
            1 => input = self.random.below(5) as u8,
            2 => input = self.random.byte(),
            _ => {}
        }
        match self.random.below(3) {
            0 => bytes.resize(self.random.pick(&[0, 1, 2, 3, 4, 5, 6]), 0x42),
            1 => bytes.resize(self.random.below(65) as usize, 0x42),
            _ => {}
        }
        self.push(Call::Telegram(input, Bytes::new(&bytes)));
    }

    // Writes

    fn parameter(&mut self) -> (u8, u8) {
        let (block, parameters) = PARAMETERS[self.random.weighted(&self.profile.blocks)];
        (block, self.random.pick(parameters))
    }

    fn write(&mut self, block: u8, parameter: u8, words: (u32, u32)) {
        self.push(Call::Write(block, parameter, words.0, words.1));
    }

    fn allowed_write(&mut self) {
        if self.model.read(0, 18) == Ok((0, 0)) && self.random.chance(30) {
            self.write(0, 18, (2457, 0));
        }
        let (block, mut parameter) = self.parameter();
        if block > 0 && (parameter < 8 || self.random.chance(8)) {
            // Two of three numbers below 8 are R: the mode is wanted.
            parameter = 5;
        }
        if parameter == 5 && self.random.chance(20) {
            return self.through_man(block);
        }
        let mut words = self.words(block, parameter);
        if self.random.chance(self.profile.wild / 4) {
            words.0 = self.random.pick(&FAR_ENDS);
        }
        let by_operator = matches!((block, parameter), (1 | 2 | 4 | 5, 10) | (3, 37));
        if by_operator && self.random.chance(90) {
            self.write(block, 5, (0x10, 0));
            self.write(block, parameter, words);
            if self.random.chance(70) {
                self.ticks();
            }
            if self.random.chance(80) {
                self.write(block, 5, (0x08, 0));
            }
        } else {
            self.write(block, parameter, words);
        }
    }

    /// Into Man from another target, then what may come before the Man tick, and most often out again.
    fn through_man(&mut self, block: u8) {
        const MAN: (u32, u32) = (0x10, 0);
        let others: &[u32] = if block == 3 || block == 5 { &[0x08, 0x02, 0x80] } else { &[0x08, 0x08, 0x80] };
        let other = (self.random.pick(others), 0);
        self.write(block, 5, other);
        if self.random.chance(70) {
            let fault = self.random.chance(15);
            self.ticks_with(fault);
        }
        self.write(block, 5, MAN);
        for _ in 0..self.random.below(5) {
            match self.random.below(8) {
                0 | 1 => {
                    // The operator's write, or another.
                    let (_, parameters) = PARAMETERS[usize::from(block)];
                    let out = if block == 3 { 37 } else { 10 };
                    let parameter = if self.random.chance(50) { out } else { self.random.pick(parameters) };
                    let words = self.words(block, parameter);
                    self.write(block, parameter, words);
                }
                2 => self.write(block, 5, MAN),
                3 => {
                    // Left and entered again.
                    self.write(block, 5, other);
                    if self.random.chance(40) {
                        self.ticks();
                    }
                    self.write(block, 5, MAN);
                }
                4 => {
                    // A target that is refused.
                    let target = self.random.pick(&[MAN, other]);
                    if self.random.chance(30) {
                        self.write(block, 5, (target.0, 1));
                    } else {
                        self.write(0, 18, (0, 0));
                        self.write(block, 5, target);
                        self.write(0, 18, (2457, 0));
                    }
                }
                5 => self.ticks_with(true),
                6 if block == 1 => self.load(),
                6 => self.telegram_to(if block == 5 { 5 } else { 3 }),
                _ if self.random.chance(30) => self.push(Call::Warm),
                _ => self.ticks(),
            }
        }
        self.ticks();
        if self.random.chance(80) {
            self.write(block, 5, (0x08, 0));
        }
    }

    /// Words that are allowed, but for a few from the far ends and of LIN_TYPE.
    fn words(&mut self, block: u8, parameter: u8) -> (u32, u32) {
        match (block, parameter) {
            (0, _) => (if self.random.chance(60) { 2457 } else { 0 }, 0),
            (3, 5) => (self.random.pick(&[0x08, 0x08, 0x08, 0x02, 0x02, 0x10, 0x80]), 0),
            (5, 5) => (self.random.pick(&[0x08, 0x08, 0x02, 0x02, 0x10, 0x80]), 0),
            (_, 5) => (self.random.pick(&[0x08, 0x08, 0x08, 0x08, 0x08, 0x10, 0x80]), 0),
            (1, 10) => {
                let value = self.out_that_matters();
                (self.near(value), self.random.byte().into())
            }
            (2, 10) => (self.amount(), self.random.byte().into()),
            (4 | 5, 10) => (self.random.below(2), self.random.byte().into()),
            (3, 37) => (self.setting(3, 38), self.random.byte().into()),
            (1, 11 | 12) | (3, 11 | 38) => self.scale(),
            (1, 16) => {
                let some = self.random.unit() as f32 * 3.0;
                let ftime = self.random.pick(&[0.0, -0.0, 0.1, 0.1, 1.5, 0.5, some, 3600.0, 1e-40]);
                (ftime.to_bits(), 0)
            }
            (1, 17) | (3, 24) | (2, 15) | (4 | 5, 20) => (self.random.below(3), 0),
            (1, 13) => (self.random.pick(&[0, 0, 1, 1, 1, 1, 1, 1, 1, 2]), 0),
            (2, 13) => (self.random.pick(&[0, 0, 0, 0, 1, 2]), 0),
            (2, 14) => (self.random.pick(&[0, 0, 0, 1, 2, 3]), 0),
            (1, 18) => (self.setting(1, 12), 0),
            (3, 25) => (self.setting(3, 11), 0),
            (1, 19) => {
                let some = self.random.unit() as f32;
                let hysteresis = self.random.pick(&[0.0, -0.0, 0.5, 0.5, 0.25, 0.01, 2.0, some, 3e38]);
                (hysteresis.to_bits(), 0)
            }
            (1, _) => {
                let off = if parameter < 25 { f32::INFINITY } else { f32::NEG_INFINITY };
                match self.random.below(6) {
                    0 => (off.to_bits(), 0),
                    1 | 2 => {
                        let out = f64::from(self.in_force(1, 10));
                        (self.near(out), 0)
                    }
                    _ => (self.setting(1, 12), 0),
                }
            }
            (2, _) => (self.amount(), 0),
            (3, 23) | (5, 22) => {
                let ticks = self.random.below(8);
                (self.random.pick(&[ticks, ticks, ticks, ticks, 20, 100, 65_535]), 0)
            }
            _ => (self.random.below(2), 0),
        }
    }

    /// A value within a scale in force.
    fn setting(&mut self, block: u8, scale: u8) -> u32 {
        if let Some(bits) = self.wild() {
            return bits;
        }
        let (low, high) = self.scale_in_force(block, scale);
        (self.between(low, high) as f32).to_bits()
    }

    fn scale(&mut self) -> (u32, u32) {
        if self.random.chance(self.profile.plain) {
            let (low, high) = self.random.pick(&PLAIN_SCALES);
            return (low.to_bits(), high.to_bits());
        }
        match self.random.below(4) {
            0 => {
                let low = self.random.unit() as f32 * 200.0 - 100.0;
                (low.to_bits(), (low + self.random.unit() as f32 * 100.0).to_bits())
            }
            1 if self.random.chance(self.profile.wild) => (self.random.pick(&FAR_ENDS), self.random.pick(&FAR_ENDS)),
            _ => {
                let (low, high) = self.random.pick(&OTHER_SCALES);
                (low.to_bits(), high.to_bits())
            }
        }
    }

    /// A total or preset.
    fn amount(&mut self) -> u32 {
        if let Some(bits) = self.wild() {
            return bits;
        }
        let sign = if self.random.chance(50) { -1.0 } else { 1.0 };
        let size = match self.random.below(5) {
            _ if self.profile.great && self.random.chance(70) => self.random.pick(&[1e9, 1e9, 999_999_936.0, 9e8]),
            0 => self.random.unit() * 10.0,
            1 => f64::from(self.random.below(1000)) / 100.0,
            2 => 16_777.0 + self.random.unit(),
            3 => self.random.unit() * 1e9,
            _ => self.random.pick(&[0.0, 0.29, 0.0019, 1e9]),
        };
        self.near(sign * size)
    }

    fn hostile_write(&mut self) {
        let (block, parameter) = self.parameter();
        let words = self.words(block, parameter);
        match self.random.below(8) {
            0 => {
                let block = 6 + self.random.below(250) as u8;
                self.write(block, parameter, words);
            }
            1 => {
                let parameter = self.random.byte();
                self.write(block, parameter, words);
            }
            2 => {
                let parameter = self.random.pick(&[1, 6, 7]);
                self.write(block, parameter, words);
            }
            3 => self.write(0, 18, (0, 0)),
            4 => {
                let second = words.1 ^ 1 << self.random.below(32);
                self.write(block, parameter, (words.0, second));
            }
            // A parameter of another block.
            5 => {
                let block = self.random.below(6) as u8;
                self.write(block, parameter, words);
            }
            _ => {
                let words = self.words_at_the_edge(block, parameter, words);
                self.write(block, parameter, words);
            }
        }
    }

    /// Words just within or just outside what is allowed.
    fn words_at_the_edge(&mut self, block: u8, parameter: u8, allowed: (u32, u32)) -> (u32, u32) {
        #[rustfmt::skip]
        const CODES: [u32; 18] = [
            0, 1, 2, 3, 4, 8, 0x10, 0x20, 0x80, 0x88, 0x102, 0x108, 0x0001_0008, 0x0800_0000, 0x8000_0000, 65_535,
            65_536, u32::MAX,
        ];
        match (block, parameter) {
            (0, _) => (self.random.pick(&[0, 1, 2456, 2457, 2458, 32_768, 65_535, 2457 + 65_536]), 0),
            (1, 11 | 12) | (3, 11 | 38) => match self.random.below(4) {
                0 => (allowed.0, allowed.0),
                1 => (0, 0x8000_0000),
                2 => (allowed.0, allowed.0 ^ 1),
                _ => (self.random.pick(&FAR_ENDS), self.random.pick(&FAR_ENDS)),
            },
            (_, 5) | (1, 13 | 17) | (2, 13..=15) | (3, 23 | 24 | 36) | (4 | 5, 15 | 20..=22) => {
                (self.random.pick(&CODES), 0)
            }
            (4 | 5, 10) if self.random.chance(70) => (self.random.pick(&CODES), allowed.1),
            (4 | 5, 10) => (allowed.0, self.random.pick(&[0, 255, 256, 0x180, u32::MAX])),
            (1 | 2, 10) | (3, 37) => match self.random.below(3) {
                0 => (allowed.0, self.random.pick(&[0, 255, 256, 0x180, u32::MAX])),
                1 => (self.random.pick(&FAR_ENDS), allowed.1),
                _ => (self.random.pick(&[0x4E6E_6B28, 0x4E6E_6B29, 0xCE6E_6B28, 0xCE6E_6B29]), allowed.1),
            },
            (1, 16) if self.random.chance(50) => (self.random.pick(&[0x4561_0000, 0x4561_0001, 0x8000_0001]), 0),
            (2, 16) if self.random.chance(50) => {
                (self.random.pick(&[0x4E6E_6B28, 0x4E6E_6B29, 0xCE6E_6B28, 0xCE6E_6B29]), 0)
            }
            _ => (self.random.pick(&FAR_ENDS), 0),
        }
    }

    // Loads

    fn load_pairs(&mut self, pairs: &[(f32, f32)]) {
        self.push(Call::Load(bytes(pairs).into()));
    }

    fn load(&mut self) {
        let count = match self.random.below(8) {
            0..=2 => self.random.pick(&[2, 3, 4]),
            3 => self.random.pick(&[20, 21]),
            4 => 21,
            _ => 2 + self.random.below(20) as usize,
        };
        // Seldom the same once more.
        let again = !self.table.is_empty() && self.random.chance(8);
        let table = if again { self.table.clone() } else { self.rising_pairs(count) };
        self.load_pairs(&table);
    }

    /// Pairs that make a table, as many as wanted or, where their x fall together, fewer.
    fn rising_pairs(&mut self, count: usize) -> Vec<(f32, f32)> {
        let finite = |bits: u32| Some(f32::from_bits(bits)).filter(|value| value.is_finite());
        let far = self.random.chance(self.profile.wild);
        let kind = self.random.below(6);
        let start = self.random.pick(&[0.0, -0.0, -4.0, 1.0, 100.0, 1e-40, -1e-44]);
        let step = self.random.pick(&[0.25, 1.0, 5.0, 1e-3, 1e6]);
        let mut xs = Vec::new();
        let mut x: f32 = start;
        for _ in 0..count {
            xs.push(x);
            x = match kind {
                // Even steps, uneven ones, the very next float, random ones.
                0 | 1 => x + step,
                2 | 3 => x + step * (1.0 + self.random.below(8) as f32 / 4.0),
                4 => x.next_up(),
                _ => self.random.unit() as f32 * 200.0 - 100.0,
            };
        }
        if far {
            // Some or all of them from the far ends, with spans that overflow.
            for x in &mut xs {
                if self.random.chance(60) {
                    *x = finite(self.random.pick(&FAR_ENDS)).unwrap_or(*x);
                } else if self.random.chance(30) {
                    *x = finite(self.random.bits()).unwrap_or(*x);
                }
            }
        }
        xs.sort_by(|a, b| a.total_cmp(b));
        xs.dedup_by(|a, b| a == b);
        if xs.len() < 2 {
            xs = vec![start, start + 1e3];
        }
        let (low, high) = self.scale_in_force(1, 11);
        let shape = self.random.below(5);
        let mut y = self.between(low, high);
        let ys = (0..xs.len()).map(|index| {
            let far = far && self.random.chance(40);
            match shape {
                _ if far => finite(self.random.pick(&FAR_ENDS)).unwrap_or(-0.0),
                // Over the scale, like a weir's; rising or falling by steps; level; as they come.
                0 => (low + (high - low) * (index as f64 / (xs.len() - 1) as f64).powf(1.5)) as f32,
                1 | 2 => {
                    y += (high - low) / 16.0 * f64::from(self.random.below(9)) * if shape == 1 { 1.0 } else { -1.0 };
                    y as f32
                }
                3 => self.random.pick(&[y as f32, y as f32, 0.0, -0.0]),
                _ => self.between(low, high) as f32,
            }
        });
        let ys: Vec<f32> = ys.map(|y| if y.is_finite() { y } else { f32::MAX }).collect();
        xs.into_iter().zip(ys).collect()
    }

    /// Bytes that make no table, or nearly not.
    fn hostile_load(&mut self) {
        if self.random.chance(15) {
            self.write(0, 18, (0, 0));
        }
        let count = self.random.pick(&[2, 3, 5, 20, 21]);
        let mut table = self.rising_pairs(count);
        let last = table.len() - 1;
        // Two neighbours: the first two, the last two or others.
        let at = self.random.pick(&[0, last - 1, last / 2]);
        match self.random.below(7) {
            0 => {
                // A wrong length, though the pairs rise also where there are too many.
                let mut table = bytes(&self.rising_pairs(32));
                table.resize(256, 0x3F);
                let some = self.random.below(257) as usize;
                let lengths = [0, 0, 1, 7, 8, 9, 15, 15, 16, 17, 17, 24, 160, 167, 168, 169, 176, 176, 184, 256, some];
                let length = self.random.pick(&lengths);
                return self.push(Call::Load(table[..length].into()));
            }
            1 if self.random.chance(30) => table[last].0 = f32::INFINITY,
            1 if self.random.chance(30) => table[0].0 = f32::NEG_INFINITY,
            1 => table[self.random.pick(&[0, at, last])].0 = f32::from_bits(self.random.pick(NOT_FINITE)),
            2 => table[self.random.pick(&[0, at, last])].1 = f32::from_bits(self.random.pick(NOT_FINITE)),
            3 => table[at + 1].0 = table[at].0,
            4 => (table[at].0, table[at + 1].0) = (table[at + 1].0, table[at].0),
            5 => {
                // Both zeros, with x that rise around them.
                for (index, pair) in table.iter_mut().enumerate() {
                    pair.0 = index as f32 - at as f32;
                }
                for pair in &mut table[at + 2..] {
                    pair.0 -= 1.0;
                }
                (table[at].0, table[at + 1].0) = self.random.pick(&[(-0.0, 0.0), (-0.0, 0.0), (0.0, -0.0)]);
            }
            _ => table[at + 1].0 = self.random.pick(&[table[at].0.next_up(), table[at].0.next_down(), -table[at].0]),
        }
        let mut table = bytes(&table);
        if self.random.chance(20) {
            // A few bytes more or less.
            let length = table.len() - 4 + self.random.below(9) as usize;
            table.resize(length, 0);
        }
        self.push(Call::Load(table.into()));
    }

    // Long histories

    /// Silence up to and past FSAFE_TIME, and past 65,536 ticks.
    fn long_silence(&mut self) {
        self.opening();
        self.write(0, 18, (2457, 0));
        let time = self.random.pick(&[65_535, 65_535, 65_535, 65_534, 40_000]);
        let mode = self.random.pick(&[0x08, 0x02]);
        for (parameter, word) in [(5, mode), (23, time), (24, 0), (25, 0x3F80_0000)] {
            self.write(3, parameter, (word, 0));
        }
        let (time, mode) = (self.random.pick(&[time, 65_535, 65_534]), self.random.pick(&[0x08, 0x02]));
        for (parameter, word) in [(5, mode), (22, time), (20, 0), (21, 1), (15, 0)] {
            self.write(5, parameter, (word, 0));
        }
        for scale in [11, 38] {
            self.write(3, scale, (0, 0x42C8_0000));
        }
        for input in [0, 1] {
            self.push(Call::Telegram(input, Bytes::new(&[0x42, 0x48, 0, 0, 0x80])));
            self.push(Call::Telegram(2 + input, Bytes::new(&[0, 0x80])));
        }
        for _ in 0..65_536 + 20 {
            let draw = self.random.below(4000);
            match draw {
                // Telegrams that count for nothing.
                0 => self.push(Call::Telegram(0, Bytes::new(&[0x42, 0x48, 0, 0, 0x4C]))),
                1 => self.push(Call::Telegram(1, Bytes::new(&[0x7F, 0xC0, 0, 0, 0x80]))),
                3 => self.push(Call::Telegram(2, Bytes::new(&[1, 0x4C]))),
                4 => self.push(Call::Telegram(3, Bytes::new(&[2, 0x80]))),
                _ => {}
            }
            let ain = (draw << 18, 0x80);
            let di = ((draw % 2) as u8, 0x80);
            self.push(Call::Tick { fault: draw == 2, ain, tot: (0x3C80_0000, 0x80), di });
        }
        for _ in 0..100 {
            self.call();
        }
    }

    /// ST_REV past its end, by equal and unequal writes, and in AIN by loads too.
    fn many_writes(&mut self) {
        self.opening();
        self.write(0, 18, (2457, 0));
        let (block, parameter) = self.random.pick(&[(1, 17), (2, 15), (3, 24), (4, 20), (5, 20)]);
        for _ in 0..65_536 + 20 {
            if block == 1 && self.random.chance(25) {
                self.load_pairs(&[(0.0, 0.0), (1.0, 10.0)]);
                continue;
            }
            let code = if self.random.chance(50) { 1 } else { self.random.below(3) };
            self.write(block, parameter, (code, 0));
        }
        for _ in 0..100 {
            self.call();
        }
    }
}
