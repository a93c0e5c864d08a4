//! The intake head as a plain state machine, written from the paper alone. Sentences of the paper are quoted.
//!
//! A float that is stored is never a NaN (no range lets one in, and outputs are tested), so an `f32` keeps its
//! bits. A transducer value and a telegram may be NaNs and are taken as bits. So with DI and DO: a discrete value that
//! is stored is 0 or 1, and one that comes in may be any byte.

use crate::calls::{Head, Order, Orders};

const OUT_OF_SERVICE: u8 = 0x80;
const MAN: u8 = 0x10;
const AUTO: u8 = 0x08;
const RCAS: u8 = 0x02;

/// Fresh, after a warm start, and in O/S.
const PASSIVE: u8 = 0x1F;
/// Of an operator's pair that no one has set.
const SET_BY_NO_ONE: u8 = 0x4C;

const HI_HI: u8 = 1;
const HI: u8 = 2;
const LO: u8 = 4;
const LO_LO: u8 = 8;

/// A table has 2 to 21 pairs of eight bytes.
const MOST_PAIRS: usize = 21;
const PAIR_BYTES: usize = 8;

/// Five bytes each for AIN, TOT and AO, two each for DI and DO.
const IMAGE_BYTES: usize = 19;

const MOST_INCREMENT: i64 = 1_000_000_000;
const MOST_TOTAL: i64 = 1_000_000_000_000;

/// What a block gives: a float, or in DI and DO a byte that is 0 or 1. What comes in may be no such value.
trait Value: Copy {
    const ZERO: Self;
    /// The status of a transducer's value that is none, where its quality is 1 or 2.
    const BAD: u8;

    /// It is finite, or 0 or 1.
    fn is_value(self) -> bool;
}

impl Value for f32 {
    const ZERO: f32 = 0.0;
    const BAD: u8 = 0x10;

    fn is_value(self) -> bool {
        self.is_finite()
    }
}

/// "another value counts in DI as Bad 0x04 [..], stands for the rest [..] where AIN or AO has one not finite"
impl Value for u8 {
    const ZERO: u8 = 0;
    const BAD: u8 = 0x04;

    fn is_value(self) -> bool {
        self <= 1
    }
}

#[derive(Clone, Copy)]
struct Pair<V = f32> {
    value: V,
    status: u8,
}

impl<V: Value> Pair<V> {
    const FRESH: Pair<V> = Pair { value: V::ZERO, status: PASSIVE };
    const SET_BY_NO_ONE: Pair<V> = Pair { value: V::ZERO, status: SET_BY_NO_ONE };
}

#[derive(Clone, Copy)]
struct Scale {
    low: f32,
    high: f32,
}

impl Scale {
    const DEFAULT: Scale = Scale { low: 0.0, high: 100.0 };

    fn fraction(self, x: f32) -> f32 {
        (x - self.low) / (self.high - self.low)
    }

    fn value(self, fraction: f32) -> f32 {
        fraction * (self.high - self.low) + self.low
    }
}

/// A pair of the linearisation table.
#[derive(Clone, Copy)]
struct Point {
    x: f32,
    y: f32,
}

/// The linearisation table. All its floats are finite and the x rise strictly.
#[derive(Clone)]
struct Table {
    points: [Point; MOST_PAIRS],
    /// Pairs loaded; 0 while there is no table.
    pairs: usize,
}

impl Table {
    const NONE: Table = Table { points: [Point { x: 0.0, y: 0.0 }; MOST_PAIRS], pairs: 0 };

    /// Grounds 9 and 10.
    fn from_bytes(bytes: &[u8]) -> Result<Table, u8> {
        let pairs = bytes.len() / PAIR_BYTES;
        if bytes.len() % PAIR_BYTES != 0 || !(2..=MOST_PAIRS).contains(&pairs) {
            return Err(9);
        }
        let mut table = Table { pairs, ..Table::NONE };
        for (point, bytes) in table.points.iter_mut().zip(bytes.chunks_exact(PAIR_BYTES)) {
            let float = |at: usize| f32::from_be_bytes([bytes[at], bytes[at + 1], bytes[at + 2], bytes[at + 3]]);
            *point = Point { x: float(0), y: float(4) };
        }
        let points = table.loaded();
        let finite = points.iter().all(|point| point.x.is_finite() && point.y.is_finite());
        let rising = points.windows(2).all(|two| two[0].x < two[1].x);
        (finite && rising).then_some(table).ok_or(10)
    }

    fn loaded(&self) -> &[Point] {
        &self.points[..self.pairs]
    }

    /// "The pair used is the last with its x at or below the input." As the x rise, those come first, and a search by
    /// halves counts them.
    fn value(&self, x: f32) -> f32 {
        if !x.is_finite() {
            return x;
        }
        let points = self.loaded();
        match points.partition_point(|point| point.x <= x) {
            0 => points[0].y,
            count if count == points.len() => points[count - 1].y,
            count => {
                let (from, to) = (points[count - 1], points[count]);
                from.y + (x - from.x) * (to.y - from.y) / (to.x - from.x)
            }
        }
    }
}

/// What blocks 1 to 5 have alike.
#[derive(Clone)]
struct Common {
    st_rev: u16,
    target: u8,
    actual: u8,
}

impl Common {
    const FRESH: Common = Common { st_rev: 0, target: AUTO, actual: OUT_OF_SERVICE };

    /// An accepted static write.
    fn count(&mut self) {
        self.st_rev = self.st_rev.wrapping_add(1);
    }

    fn set_actual(&mut self, fault: bool) -> u8 {
        self.actual = if fault { OUT_OF_SERVICE } else { self.target };
        self.actual
    }
}

#[derive(Clone)]
struct Ain {
    common: Common,
    alarms: u8,
    out: Pair,
    operator: Pair,
    pv_scale: Scale,
    out_scale: Scale,
    lin_type: u8,
    table: Table,
    pv_ftime: f32,
    fsafe_type: u8,
    fsafe_value: f32,
    alarm_hys: f32,
    hi_hi_lim: f32,
    hi_lim: f32,
    lo_lim: f32,
    lo_lo_lim: f32,
    filter: Option<f32>,
    last_usable: Option<f32>,
}

#[derive(Clone)]
struct Tot {
    common: Common,
    given: Pair,
    operator_status: u8,
    set_tot: u8,
    mode_tot: u8,
    fail_tot: u8,
    preset_tot: f32,
    /// Thousandths.
    total: i64,
    /// By the rate of the last Auto tick that was usable, before MODE_TOT.
    last_increment: Option<i64>,
}

/// The telegrams of one setpoint input since start.
#[derive(Clone)]
struct Input<V> {
    last_usable: Option<V>,
    /// Ticks made when it came.
    came: u64,
    /// O5: an IFS came, and no usable one after it.
    ifs: bool,
}

impl<V> Input<V> {
    const SILENT: Input<V> = Input { last_usable: None, came: 0, ifs: false };
}

/// What is driven, and so how a setpoint becomes OUT.
trait Drive {
    type Value: Value;

    fn out(&self, w: Self::Value) -> Self::Value;
}

#[derive(Clone)]
struct Valve {
    pv_scale: Scale,
    out_scale: Scale,
    increase_close: u8,
}

#[derive(Clone)]
struct Sluice {
    invert: u8,
}

/// AO with its valve, or DO with its sluice: OUT is OUT_D there, and FSAFE_VALUE is FSAFE_VAL_D.
#[derive(Clone)]
struct Output<D: Drive> {
    common: Common,
    out: Pair<D::Value>,
    operator: Pair<D::Value>,
    drive: D,
    fsafe_time: u32,
    fsafe_type: u8,
    fsafe_value: D::Value,
    inputs: [Input<D::Value>; 2],
    ticks: u64,
}

type Ao = Output<Valve>;
type Dout = Output<Sluice>;

#[derive(Clone)]
struct Di {
    common: Common,
    out_d: Pair<u8>,
    operator: Pair<u8>,
    invert: u8,
    fsafe_type: u8,
    fsafe_val_d: u8,
    last_usable: Option<u8>,
}

#[derive(Clone)]
pub struct Model {
    write_locking: u32,
    ain: Ain,
    tot: Tot,
    ao: Ao,
    di: Di,
    dout: Dout,
}

/// A5: by quality 3, by quality 0, by a value that is not finite, or not 0 or 1.
fn bad_status<V: Value>(value: V, status: u8) -> Option<u8> {
    match status >> 6 {
        3 => Some(0x04),
        0 => Some(status),
        _ if !value.is_value() => Some(V::BAD),
        _ => None,
    }
}

/// AIN and DI in an Auto tick that is not usable. `value` is the input's, scaled or inverted, and may be none; `old` is
/// OUT's.
fn fail_safe<V: Value>(fsafe_type: u8, fsafe_value: V, last_usable: Option<V>, value: V, old: V, bad: u8) -> Pair<V> {
    match fsafe_type {
        0 => Pair { value: fsafe_value, status: 0x48 },
        1 => match last_usable {
            Some(value) => Pair { value, status: 0x44 },
            None => Pair { value: V::ZERO, status: 0x4C },
        },
        _ => Pair { value: if value.is_value() { value } else { old }, status: bad },
    }
}

/// "INVERT exchanges 0 and 1"
fn inverted(value: u8, invert: u8) -> u8 {
    match (invert, value) {
        (1, 0) => 1,
        (1, 1) => 0,
        _ => value,
    }
}

impl Ain {
    fn tick(&mut self, fault: bool, (bits, status): (u32, u8)) {
        match self.common.set_actual(fault) {
            OUT_OF_SERVICE => {
                self.out.status = PASSIVE;
                self.alarms = 0;
                self.filter = None;
            }
            MAN => {
                self.out = self.operator;
                self.filter = None;
                self.move_alarms();
            }
            _ => self.auto(f32::from_bits(bits), status),
        }
    }

    /// From a linearised value that is not finite no finite one is scaled, so it needs no test of its own.
    fn auto(&mut self, x: f32, status: u8) {
        let linear = if self.lin_type == 1 { self.table.value(x) } else { x };
        let scaled = self.out_scale.value(self.pv_scale.fraction(linear));
        let pv = match self.filter {
            Some(old) if self.pv_ftime != 0.0 => old + (scaled - old) / (self.pv_ftime * 10.0 + 1.0),
            _ => scaled,
        };
        let computed = scaled.is_finite() && pv.is_finite();
        let bad = bad_status(x, status).or(if computed { None } else { Some(0x04) });
        let Some(bad) = bad else {
            self.out = Pair { value: pv, status };
            self.filter = Some(pv);
            self.last_usable = Some(pv);
            self.move_alarms();
            if status >> 6 == 2 {
                self.out.status = self.alarm_status(status);
            }
            return;
        };
        self.out = fail_safe(self.fsafe_type, self.fsafe_value, self.last_usable, scaled, self.out.value, bad);
        self.move_alarms();
    }

    /// A rise and a fall exclude each other: ALARM_HYS is at least 0 and rounding is monotone.
    fn move_alarms(&mut self) {
        let (out, hys, old) = (self.out.value, self.alarm_hys, self.alarms);
        let high = |bit: u8, limit: f32| {
            if out >= limit {
                bit
            } else if out < limit - hys {
                0
            } else {
                old & bit
            }
        };
        let low = |bit: u8, limit: f32| {
            if out <= limit {
                bit
            } else if out > limit + hys {
                0
            } else {
                old & bit
            }
        };
        self.alarms =
            high(HI_HI, self.hi_hi_lim) | high(HI, self.hi_lim) | low(LO, self.lo_lim) | low(LO_LO, self.lo_lo_lim);
    }

    fn alarm_status(&self, input: u8) -> u8 {
        match self.alarms {
            0 => input,
            a if a & HI_HI != 0 => 0x8E,
            a if a & LO_LO != 0 => 0x8D,
            a if a & HI != 0 => 0x8A,
            _ => 0x89,
        }
    }
}

/// T2: what a rate adds. `as` cuts toward zero and takes an infinity to the end of the type. (A NaN gives 0, which is
/// not used.)
fn increment(rate: f32) -> i64 {
    ((rate * 100.0) as i64).clamp(-MOST_INCREMENT, MOST_INCREMENT)
}

/// "× 1000 cut toward zero"
fn thousandths(value: f32) -> i64 {
    (value * 1000.0) as i64
}

/// T10: the total as a float, of its magnitude only the highest 24 bits.
fn given_value(total: i64) -> f32 {
    let magnitude = total.unsigned_abs();
    let cleared = (64 - magnitude.leading_zeros()).saturating_sub(24);
    let cut = (magnitude >> cleared << cleared) as i64;
    (if total < 0 { -cut } else { cut }) as f32 / 1000.0
}

impl Tot {
    fn tick(&mut self, fault: bool, (bits, status): (u32, u8)) {
        self.given.status = match self.common.set_actual(fault) {
            OUT_OF_SERVICE => {
                self.given.status = PASSIVE;
                return;
            }
            MAN => self.operator_status,
            _ => self.auto(f32::from_bits(bits), status),
        };
        self.given.value = given_value(self.total);
    }

    /// Moves the total and gives the status.
    fn auto(&mut self, rate: f32, status: u8) -> u8 {
        let bad = bad_status(rate, status);
        let increment = increment(rate);
        if bad.is_none() {
            self.last_increment = Some(increment);
        }
        let run_status = bad.unwrap_or(status);
        match self.set_tot {
            1 => self.total = 0,
            2 => self.total = thousandths(self.preset_tot),
            _ if bad.is_none() => self.add(increment),
            _ => match self.fail_tot {
                0 if rate.is_finite() => self.add(increment),
                0 => {}
                1 => return 0x40,
                _ => match self.last_increment {
                    Some(last) => {
                        self.add(last);
                        return 0x44;
                    }
                    None => return 0x4C,
                },
            },
        }
        run_status
    }

    fn add(&mut self, increment: i64) {
        let wanted = match self.mode_tot {
            0 => increment,
            1 => increment.max(0),
            2 => increment.min(0),
            _ => 0,
        };
        self.total = (self.total + wanted).clamp(-MOST_TOTAL, MOST_TOTAL);
    }
}

impl Drive for Valve {
    type Value = f32;

    fn out(&self, w: f32) -> f32 {
        let mut f = self.pv_scale.fraction(w);
        if self.increase_close == 1 {
            f = 1.0 - f;
        }
        self.out_scale.value(f)
    }
}

/// w is 0 or 1, and so is OUT_D.
impl Drive for Sluice {
    type Value = u8;

    fn out(&self, w: u8) -> u8 {
        inverted(w, self.invert)
    }
}

impl<D: Drive> Output<D> {
    fn fresh(drive: D, fsafe_type: u8) -> Output<D> {
        Output {
            common: Common::FRESH,
            out: Pair::FRESH,
            operator: Pair::SET_BY_NO_ONE,
            drive,
            fsafe_time: 0,
            fsafe_type,
            fsafe_value: D::Value::ZERO,
            inputs: [Input::SILENT; 2],
            ticks: 0,
        }
    }

    fn tick(&mut self, fault: bool) -> Order<D::Value> {
        let now = self.ticks;
        self.ticks += 1;
        match self.common.set_actual(fault) {
            OUT_OF_SERVICE => {
                self.out.status = PASSIVE;
                Order::Rest
            }
            MAN => {
                self.out = self.operator;
                Order::Position(self.out.value)
            }
            actual => self.follow(usize::from(actual == RCAS), now),
        }
    }

    fn follow(&mut self, index: usize, now: u64) -> Order<D::Value> {
        let input = &self.inputs[index];
        let silent = now - input.came > u64::from(self.fsafe_time);
        let (w, status) = match input.last_usable {
            Some(value) if !silent && !input.ifs => (value, 0x80),
            last_usable => match (self.fsafe_type, last_usable) {
                (0, _) => (self.fsafe_value, 0x48),
                (1, Some(value)) => (value, 0x44),
                (1, None) => {
                    self.out.status = 0x4C;
                    return Order::Position(self.out.value);
                }
                _ => {
                    self.out.status = 0x00;
                    return Order::Safe;
                }
            },
        };
        let value = self.drive.out(w);
        if value.is_value() {
            self.out = Pair { value, status };
        } else {
            self.out.status = 0x04;
        }
        Order::Position(self.out.value)
    }

    fn telegram(&mut self, index: usize, value: D::Value, status: u8) {
        if status >> 6 < 2 {
            return;
        }
        if status >> 2 & 15 == 8 {
            self.inputs[index].ifs = true;
        } else if value.is_value() {
            self.inputs[index] = Input { last_usable: Some(value), came: self.ticks, ifs: false };
        }
    }

    fn set_target(&mut self, words: Words) -> Result<(), u8> {
        let target = words.mode(true)?;
        self.operator = operators_pair(self.common.target, target, self.out, self.operator);
        self.common.target = target;
        Ok(())
    }
}

impl Di {
    fn tick(&mut self, fault: bool, (value, status): (u8, u8)) {
        match self.common.set_actual(fault) {
            OUT_OF_SERVICE => self.out_d.status = PASSIVE,
            MAN => self.out_d = self.operator,
            _ => self.auto(value, status),
        }
    }

    /// The last usable value is kept as it was given, inverted or not.
    fn auto(&mut self, input: u8, status: u8) {
        let value = inverted(input, self.invert);
        self.out_d = match bad_status(input, status) {
            None => {
                self.last_usable = Some(value);
                Pair { value, status }
            }
            Some(bad) => fail_safe(self.fsafe_type, self.fsafe_val_d, self.last_usable, value, self.out_d.value, bad),
        };
    }
}

/// The two words of a write, given out as what they stand for, or refused as 5.
#[derive(Clone, Copy)]
struct Words(u32, u32);

impl Words {
    /// P7: the value is the first word, and the second is 0.
    fn one(self) -> Result<u32, u8> {
        (self.1 == 0).then_some(self.0).ok_or(5)
    }

    fn up_to(self, most: u32) -> Result<u32, u8> {
        self.one().ok().filter(|&word| word <= most).ok_or(5)
    }

    fn code(self, most: u8) -> Result<u8, u8> {
        self.up_to(most.into()).map(|word| word as u8)
    }

    fn float(self, allowed: impl Fn(f32) -> bool) -> Result<f32, u8> {
        float(self.one()?, allowed)
    }

    fn scale(self) -> Result<Scale, u8> {
        let (low, high) = (float(self.0, f32::is_finite)?, float(self.1, f32::is_finite)?);
        (low != high).then_some(Scale { low, high }).ok_or(5)
    }

    fn pair(self, allowed: impl Fn(f32) -> bool) -> Result<Pair, u8> {
        let value = float(self.0, allowed)?;
        Ok(Pair { value, status: u8::try_from(self.1).map_err(|_| 5)? })
    }

    /// OUT_D: 0 or 1 and a status.
    fn discrete(self) -> Result<Pair<u8>, u8> {
        match (u8::try_from(self.0), u8::try_from(self.1)) {
            (Ok(value), Ok(status)) if value.is_value() => Ok(Pair { value, status }),
            _ => Err(5),
        }
    }

    fn mode(self, with_rcas: bool) -> Result<u8, u8> {
        match self.one()? {
            word @ (0x80 | 0x10 | 0x08) => Ok(word as u8),
            0x02 if with_rcas => Ok(RCAS),
            _ => Err(5),
        }
    }
}

/// A NaN has to fail `allowed`: every one below is put so that it does.
fn float(bits: u32, allowed: impl Fn(f32) -> bool) -> Result<f32, u8> {
    Some(f32::from_bits(bits)).filter(|&value| allowed(value)).ok_or(5)
}

fn within_total(value: f32) -> bool {
    (-1e9..=1e9).contains(&value)
}

#[derive(Clone, Copy, PartialEq)]
enum Class {
    Static,
    Kept,
    Dynamic,
    ReadOnly,
}

/// Grounds 1 and 2.
fn class(block: u8, parameter: u8) -> Result<Class, u8> {
    match (block, parameter) {
        (1..=5, 1 | 6) | (1, 7) => Ok(Class::ReadOnly),
        (1..=5, 5) => Ok(Class::Static),
        (1, 11..=13 | 16..=19 | 21 | 23 | 25 | 27) => Ok(Class::Static),
        (2, 15 | 16) => Ok(Class::Static),
        (3, 11 | 23..=25 | 36 | 38) => Ok(Class::Static),
        (4 | 5, 15 | 20 | 21) | (5, 22) => Ok(Class::Static),
        (0, 18) | (2, 10 | 13 | 14) => Ok(Class::Kept),
        (1, 10) | (3, 37) | (4 | 5, 10) => Ok(Class::Dynamic),
        (0..=5, _) => Err(2),
        _ => Err(1),
    }
}

/// Ground 6.
fn only_in_man(target: u8) -> Result<(), u8> {
    (target == MAN).then_some(()).ok_or(6)
}

/// Request 2, for AIN, AO, DI and DO: the operator's pair after an accepted write of the target. Where that changes it
/// to Man from another target, it is the pair last given, as a read of OUT gives it, 0x1F too. Otherwise it stays.
fn operators_pair<V>(old: u8, new: u8, given: Pair<V>, operator: Pair<V>) -> Pair<V> {
    if new == MAN && old != MAN {
        given
    } else {
        operator
    }
}

impl Model {
    pub fn factory() -> Model {
        Model {
            write_locking: 2457,
            ain: Ain {
                common: Common::FRESH,
                alarms: 0,
                out: Pair::FRESH,
                operator: Pair::SET_BY_NO_ONE,
                pv_scale: Scale::DEFAULT,
                out_scale: Scale::DEFAULT,
                lin_type: 0,
                table: Table::NONE,
                pv_ftime: 0.0,
                fsafe_type: 1,
                fsafe_value: 0.0,
                alarm_hys: 0.5,
                hi_hi_lim: f32::INFINITY,
                hi_lim: f32::INFINITY,
                lo_lim: f32::NEG_INFINITY,
                lo_lo_lim: f32::NEG_INFINITY,
                filter: None,
                last_usable: None,
            },
            tot: Tot {
                common: Common::FRESH,
                given: Pair::FRESH,
                operator_status: SET_BY_NO_ONE,
                set_tot: 0,
                mode_tot: 0,
                fail_tot: 0,
                preset_tot: 0.0,
                total: 0,
                last_increment: None,
            },
            ao: Output::fresh(Valve { pv_scale: Scale::DEFAULT, out_scale: Scale::DEFAULT, increase_close: 0 }, 1),
            di: Di {
                common: Common::FRESH,
                out_d: Pair::FRESH,
                operator: Pair::SET_BY_NO_ONE,
                invert: 0,
                fsafe_type: 0,
                fsafe_val_d: 0,
                last_usable: None,
            },
            dout: Output::fresh(Sluice { invert: 0 }, 0),
        }
    }

    pub fn tick(&mut self, fault: bool, ain: (u32, u8), tot: (u32, u8), di: (u8, u8)) -> Orders {
        self.ain.tick(fault, ain);
        self.tot.tick(fault, tot);
        self.di.tick(fault, di);
        Orders { ao: self.ao.tick(fault).map(f32::to_bits), dout: self.dout.tick(fault) }
    }

    pub fn telegram(&mut self, input: u8, bytes: &[u8]) -> Result<(), u8> {
        match (input, bytes) {
            (0 | 1, &[a, b, c, d, status]) => self.ao.telegram(input.into(), f32::from_be_bytes([a, b, c, d]), status),
            (2 | 3, &[value, status]) => self.dout.telegram(usize::from(input) - 2, value, status),
            (0..=3, _) => return Err(7),
            _ => return Err(8),
        }
        Ok(())
    }

    /// R17: what a warm start forgets. Under target Man too the operator's pairs are the fresh ones after it.
    pub fn warm_start(&mut self) {
        let Model { ain, tot, ao, di, dout, .. } = self;
        for common in [&mut ain.common, &mut tot.common, &mut ao.common, &mut di.common, &mut dout.common] {
            common.actual = OUT_OF_SERVICE;
        }
        let outputs = [&mut ain.out.status, &mut tot.given.status, &mut ao.out.status];
        for status in outputs.into_iter().chain([&mut di.out_d.status, &mut dout.out.status]) {
            *status = PASSIVE;
        }
        ain.operator = Pair::SET_BY_NO_ONE;
        tot.operator_status = SET_BY_NO_ONE;
        ao.operator = Pair::SET_BY_NO_ONE;
        di.operator = Pair::SET_BY_NO_ONE;
        dout.operator = Pair::SET_BY_NO_ONE;
        ain.alarms = 0;
        ain.filter = None;
        ain.last_usable = None;
        tot.last_increment = None;
        ao.inputs = [Input::SILENT; 2];
        di.last_usable = None;
        dout.inputs = [Input::SILENT; 2];
    }

    pub fn write(&mut self, block: u8, parameter: u8, w1: u32, w2: u32) -> Result<(), u8> {
        let class = class(block, parameter)?;
        if class == Class::ReadOnly {
            return Err(3);
        }
        if self.write_locking == 0 && (block, parameter) != (0, 18) {
            return Err(4);
        }
        let words = Words(w1, w2);
        let common = match block {
            0 => {
                self.write_locking = match words.one()? {
                    word @ (0 | 2457) => word,
                    _ => return Err(5),
                };
                return Ok(());
            }
            1 => self.ain.write(parameter, words)?,
            2 => self.tot.write(parameter, words)?,
            3 => self.ao.write(parameter, words)?,
            4 => self.di.write(parameter, words)?,
            _ => self.dout.write(parameter, words)?,
        };
        if class == Class::Static {
            common.count();
        }
        Ok(())
    }

    pub fn load(&mut self, bytes: &[u8]) -> Result<(), u8> {
        if self.write_locking == 0 {
            return Err(4);
        }
        self.ain.table = Table::from_bytes(bytes)?;
        self.ain.common.count();
        Ok(())
    }

    pub fn read(&self, block: u8, parameter: u8) -> Result<(u32, u32), u8> {
        class(block, parameter)?;
        let common = match block {
            0 => return Ok((self.write_locking, 0)),
            1 => &self.ain.common,
            2 => &self.tot.common,
            3 => &self.ao.common,
            4 => &self.di.common,
            _ => &self.dout.common,
        };
        Ok(match (block, parameter) {
            (_, 1) => (common.st_rev.into(), 0),
            (_, 5) => (common.target.into(), 0),
            (_, 6) => (common.actual.into(), 0),
            (1, _) => self.ain.read(parameter),
            (2, _) => self.tot.read(parameter),
            (3, _) => self.ao.read(parameter),
            (4, _) => self.di.read(parameter),
            _ => self.dout.read(parameter),
        })
    }

    pub fn image(&self, buf: &mut [u8]) -> Result<(), u8> {
        if buf.len() < IMAGE_BYTES {
            return Err(7);
        }
        let (analog, discrete) = buf.split_at_mut(15);
        for (part, pair) in analog.chunks_exact_mut(5).zip([self.ain.out, self.tot.given, self.ao.out]) {
            part[..4].copy_from_slice(&pair.value.to_be_bytes());
            part[4] = pair.status;
        }
        for (part, pair) in discrete.chunks_exact_mut(2).zip([self.di.out_d, self.dout.out]) {
            part.copy_from_slice(&[pair.value, pair.status]);
        }
        Ok(())
    }

    pub fn part(block: u8, buf: &[u8]) -> &[u8] {
        match block {
            _ if buf.len() < IMAGE_BYTES => &buf[..0],
            1 => &buf[..5],
            2 => &buf[5..10],
            3 => &buf[10..15],
            4 => &buf[15..17],
            5 => &buf[17..19],
            _ => &buf[..0],
        }
    }

    pub fn total(&self) -> i64 {
        self.tot.total
    }
}

impl Ain {
    /// Grounds 5 and 6, then the field.
    fn write(&mut self, parameter: u8, words: Words) -> Result<&mut Common, u8> {
        let finite_or = |end: f32| move |v: f32| v.is_finite() || v == end;
        match parameter {
            5 => {
                let target = words.mode(false)?;
                self.operator = operators_pair(self.common.target, target, self.out, self.operator);
                self.common.target = target;
            }
            10 => {
                let pair = words.pair(f32::is_finite)?;
                only_in_man(self.common.target)?;
                self.operator = pair;
            }
            11 => self.pv_scale = words.scale()?,
            12 => self.out_scale = words.scale()?,
            13 => {
                let code = words.code(1)?;
                if code == 1 && self.table.pairs == 0 {
                    return Err(5);
                }
                self.lin_type = code;
            }
            16 => self.pv_ftime = words.float(|v| (0.0..=3600.0).contains(&v))?,
            17 => self.fsafe_type = words.code(2)?,
            18 => self.fsafe_value = words.float(f32::is_finite)?,
            19 => self.alarm_hys = words.float(|v| v.is_finite() && v >= 0.0)?,
            21 => self.hi_hi_lim = words.float(finite_or(f32::INFINITY))?,
            23 => self.hi_lim = words.float(finite_or(f32::INFINITY))?,
            25 => self.lo_lim = words.float(finite_or(f32::NEG_INFINITY))?,
            27 => self.lo_lo_lim = words.float(finite_or(f32::NEG_INFINITY))?,
            _ => unreachable!("class has named the parameters"),
        }
        Ok(&mut self.common)
    }

    fn read(&self, parameter: u8) -> (u32, u32) {
        let one = |value: f32| (value.to_bits(), 0);
        match parameter {
            7 => (self.alarms.into(), 0),
            10 => (self.out.value.to_bits(), self.out.status.into()),
            11 => (self.pv_scale.low.to_bits(), self.pv_scale.high.to_bits()),
            12 => (self.out_scale.low.to_bits(), self.out_scale.high.to_bits()),
            13 => (self.lin_type.into(), 0),
            16 => one(self.pv_ftime),
            17 => (self.fsafe_type.into(), 0),
            18 => one(self.fsafe_value),
            19 => one(self.alarm_hys),
            21 => one(self.hi_hi_lim),
            23 => one(self.hi_lim),
            25 => one(self.lo_lim),
            27 => one(self.lo_lo_lim),
            _ => unreachable!("class has named the parameters"),
        }
    }
}

impl Tot {
    fn write(&mut self, parameter: u8, words: Words) -> Result<&mut Common, u8> {
        match parameter {
            5 => self.common.target = words.mode(false)?,
            10 => {
                let pair = words.pair(within_total)?;
                only_in_man(self.common.target)?;
                self.total = thousandths(pair.value);
                self.operator_status = pair.status;
            }
            13 => self.set_tot = words.code(2)?,
            14 => self.mode_tot = words.code(3)?,
            15 => self.fail_tot = words.code(2)?,
            16 => self.preset_tot = words.float(within_total)?,
            _ => unreachable!("class has named the parameters"),
        }
        Ok(&mut self.common)
    }

    fn read(&self, parameter: u8) -> (u32, u32) {
        match parameter {
            10 => (self.given.value.to_bits(), self.given.status.into()),
            13 => (self.set_tot.into(), 0),
            14 => (self.mode_tot.into(), 0),
            15 => (self.fail_tot.into(), 0),
            16 => (self.preset_tot.to_bits(), 0),
            _ => unreachable!("class has named the parameters"),
        }
    }
}

impl Ao {
    fn write(&mut self, parameter: u8, words: Words) -> Result<&mut Common, u8> {
        match parameter {
            5 => self.set_target(words)?,
            11 => self.drive.pv_scale = words.scale()?,
            23 => self.fsafe_time = words.up_to(65_535)?,
            24 => self.fsafe_type = words.code(2)?,
            25 => self.fsafe_value = words.float(f32::is_finite)?,
            36 => self.drive.increase_close = words.code(1)?,
            37 => {
                let pair = words.pair(f32::is_finite)?;
                only_in_man(self.common.target)?;
                self.operator = pair;
            }
            38 => self.drive.out_scale = words.scale()?,
            _ => unreachable!("class has named the parameters"),
        }
        Ok(&mut self.common)
    }

    fn read(&self, parameter: u8) -> (u32, u32) {
        let Valve { pv_scale, out_scale, increase_close } = &self.drive;
        match parameter {
            11 => (pv_scale.low.to_bits(), pv_scale.high.to_bits()),
            23 => (self.fsafe_time, 0),
            24 => (self.fsafe_type.into(), 0),
            25 => (self.fsafe_value.to_bits(), 0),
            36 => ((*increase_close).into(), 0),
            37 => (self.out.value.to_bits(), self.out.status.into()),
            38 => (out_scale.low.to_bits(), out_scale.high.to_bits()),
            _ => unreachable!("class has named the parameters"),
        }
    }
}

impl Di {
    fn write(&mut self, parameter: u8, words: Words) -> Result<&mut Common, u8> {
        match parameter {
            5 => {
                let target = words.mode(false)?;
                self.operator = operators_pair(self.common.target, target, self.out_d, self.operator);
                self.common.target = target;
            }
            10 => {
                let pair = words.discrete()?;
                only_in_man(self.common.target)?;
                self.operator = pair;
            }
            15 => self.invert = words.code(1)?,
            20 => self.fsafe_type = words.code(2)?,
            21 => self.fsafe_val_d = words.code(1)?,
            _ => unreachable!("class has named the parameters"),
        }
        Ok(&mut self.common)
    }

    fn read(&self, parameter: u8) -> (u32, u32) {
        match parameter {
            10 => (self.out_d.value.into(), self.out_d.status.into()),
            15 => (self.invert.into(), 0),
            20 => (self.fsafe_type.into(), 0),
            21 => (self.fsafe_val_d.into(), 0),
            _ => unreachable!("class has named the parameters"),
        }
    }
}

impl Dout {
    fn write(&mut self, parameter: u8, words: Words) -> Result<&mut Common, u8> {
        match parameter {
            5 => self.set_target(words)?,
            10 => {
                let pair = words.discrete()?;
                only_in_man(self.common.target)?;
                self.operator = pair;
            }
            15 => self.drive.invert = words.code(1)?,
            20 => self.fsafe_type = words.code(2)?,
            21 => self.fsafe_value = words.code(1)?,
            22 => self.fsafe_time = words.up_to(65_535)?,
            _ => unreachable!("class has named the parameters"),
        }
        Ok(&mut self.common)
    }

    fn read(&self, parameter: u8) -> (u32, u32) {
        match parameter {
            10 => (self.out.value.into(), self.out.status.into()),
            15 => (self.drive.invert.into(), 0),
            20 => (self.fsafe_type.into(), 0),
            21 => (self.fsafe_value.into(), 0),
            22 => (self.fsafe_time, 0),
            _ => unreachable!("class has named the parameters"),
        }
    }
}

impl Head for Model {
    fn factory(&mut self) {
        *self = Model::factory();
    }

    fn tick(&mut self, fault: bool, ain: (u32, u8), tot: (u32, u8), di: (u8, u8)) -> Orders {
        self.tick(fault, ain, tot, di)
    }

    fn telegram(&mut self, input: u8, bytes: &[u8]) -> Result<(), u8> {
        self.telegram(input, bytes)
    }

    fn write(&mut self, block: u8, parameter: u8, w1: u32, w2: u32) -> Result<(), u8> {
        self.write(block, parameter, w1, w2)
    }

    fn read(&self, block: u8, parameter: u8) -> Result<(u32, u32), u8> {
        self.read(block, parameter)
    }

    fn warm_start(&mut self) {
        self.warm_start();
    }

    fn image(&self, buf: &mut [u8]) -> Result<(), u8> {
        self.image(buf)
    }

    fn part<'a>(&self, block: u8, buf: &'a [u8]) -> &'a [u8] {
        Model::part(block, buf)
    }

    fn total(&self) -> i64 {
        self.total()
    }

    fn load(&mut self, bytes: &[u8]) -> Result<(), u8> {
        self.load(bytes)
    }
}
