//! What the calls cost. `bench archive|model TIMES` plays histories TIMES times over on that head and prints the number of
//! ticks in them and the time of one in nanoseconds; the calls between the ticks are not measured. AIN has LIN_TYPE 0 in
//! them; with `table` after TIMES it has LIN_TYPE 1, by a table of 21 pairs. `bench calls` prints for each function of the
//! archive its name, how often it was called and its deepest stack in bytes, and `bench size` the size of a device, the
//! archive's and the model's.

use std::arch::asm;
use std::hint::black_box;
use std::mem::size_of;
use std::time::Instant;

use comparison::archive::{Archive, Device, Discrete, Pair, PACKED_BYTES};
use comparison::calls::{Call, Head};
use comparison::histories::histories;
use comparison::model::Model;
use comparison::random::Random;

/// A tick of the archive, as C makes it. One from before request 3 has no third pair; to measure it over these histories,
/// `di` is left out here and in `Head::tick` of its own tests/rust/src/archive.rs, where DO's order is `Rest`.
macro_rules! archive_tick {
    ($head:expr, $fault:expr, $ain:expr, $tot:expr, $di:expr) => {
        $head.tick_in_numbers(
            $fault,
            Pair { bits: $ain.0, status: $ain.1 },
            Pair { bits: $tot.0, status: $tot.1 },
            Discrete { value: $di.0, status: $di.1 },
        )
    };
}

/// A head whose ticks are measured, each in its own form.
trait Measured: Head {
    fn measured_tick(&mut self, fault: bool, ain: (u32, u8), tot: (u32, u8), di: (u8, u8));
}

impl Measured for Archive {
    #[inline(always)]
    fn measured_tick(&mut self, fault: bool, ain: (u32, u8), tot: (u32, u8), di: (u8, u8)) {
        black_box(archive_tick!(self, fault, ain, tot, di));
    }
}

impl Measured for Model {
    #[inline(always)]
    fn measured_tick(&mut self, fault: bool, ain: (u32, u8), tot: (u32, u8), di: (u8, u8)) {
        black_box(Model::tick(self, fault, ain, tot, di));
    }
}

/// The measured function: a tick and nothing else. Not inlined, so that callgrind counts it by its name.
#[inline(never)]
fn tick_of<H: Measured>(head: &mut H, fault: bool, ain: (u32, u8), tot: (u32, u8), di: (u8, u8)) {
    head.measured_tick(fault, ain, tot, di);
}

/// Pairs of the table, the most that it may have, and its last x.
const PAIRS: u8 = 21;
const LAST_X: f32 = 100.0;

/// A table like a weir's: discharge grows with the stage to the power of 3/2.
fn table() -> Call {
    let part = |pair: u8| f32::from(pair) / f32::from(PAIRS - 1);
    let pairs = (0..PAIRS).map(|pair| [LAST_X * part(pair), LAST_X * part(pair).powf(1.5)]);
    Call::Load(pairs.flatten().flat_map(f32::to_be_bytes).collect())
}

/// A history with LIN_TYPE 0 in all its ticks: without its loads and its writes of LIN_TYPE.
fn without_table(history: &[Call]) -> Vec<Call> {
    history.iter().filter(|call| !matches!(call, Call::Load(_) | Call::Write(1, 13, ..))).cloned().collect()
}

/// The same with LIN_TYPE 1 in all its ticks: a table is loaded at the beginning and after each factory call, and AIN's
/// inputs are spread over it.
fn with_table(history: &[Call], random: &mut Random) -> Vec<Call> {
    let opening = [table(), Call::Write(1, 13, 1, 0)];
    let mut calls = opening.to_vec();
    for call in without_table(history) {
        match call {
            Call::Tick { fault, ain: (_, status), tot, di } => {
                let x = random.unit() as f32 * LAST_X;
                calls.push(Call::Tick { fault, ain: (x.to_bits(), status), tot, di });
            }
            Call::Factory => {
                calls.push(call);
                calls.extend(opening.clone());
            }
            _ => calls.push(call),
        }
    }
    calls
}

/// Plays the histories some times over; gives the number of ticks, and their time in the quickest round, less what
/// reading the clock takes.
fn play<H: Measured>(fresh: impl Fn() -> H, calls: &[Vec<Call>], times: usize) -> (u64, f64) {
    let clock = (0..1000).map(|_| Instant::now().elapsed().as_secs_f64()).sum::<f64>() / 1000.0;
    let (mut ticks, mut quickest) = (0, f64::INFINITY);
    for _ in 0..times {
        ticks = 0;
        let mut seconds = 0.0;
        for history in calls {
            let mut head = fresh();
            let mut rest = &history[..];
            while let Some(call) = rest.first() {
                let run = rest.iter().take_while(|call| matches!(call, Call::Tick { .. })).count();
                if run == 0 {
                    call.on(&mut head);
                    rest = &rest[1..];
                    continue;
                }
                let start = Instant::now();
                for call in &rest[..run] {
                    if let Call::Tick { fault, ain, tot, di } = *call {
                        tick_of(&mut head, fault, ain, tot, di);
                    }
                }
                seconds += start.elapsed().as_secs_f64() - clock;
                ticks += run as u64;
                rest = &rest[run..];
            }
        }
        quickest = quickest.min(seconds);
    }
    (ticks, quickest)
}

const PAINT: u64 = 0xA5C3_3C5A_96E1_1E69;
/// Words of the stack that are painted: far more than a call may use.
const PAINTED: usize = 2048;

/// The stack pointer of the function that this is inlined into.
#[inline(always)]
fn stack_pointer() -> usize {
    let pointer;
    unsafe { asm!("mov {}, rsp", out(reg) pointer, options(nomem, nostack, preserves_flags)) };
    pointer
}

/// Has the stack reach as far down as `paint` goes.
#[inline(never)]
fn grow() {
    black_box([0u64; 2 * PAINTED]);
}

/// Fills the words below an address with a pattern. Inlined, so that it leaves no word of its own there.
#[inline(always)]
fn paint(top: usize) {
    for index in 1..=PAINTED {
        // SAFETY: below the stack pointer no word is in use, and `grow` has made the stack as large.
        unsafe { ((top - 8 * index) as *mut u64).write_volatile(PAINT) };
    }
}

/// How far below an address the lowest word lies that is painted no longer.
#[inline(always)]
fn touched(top: usize) -> usize {
    let painted = |index: &usize| {
        // SAFETY: as in `paint`.
        let word = unsafe { ((top - 8 * index) as *const u64).read_volatile() };
        word == PAINT
    };
    8 * (PAINTED - (1..=PAINTED).rev().take_while(painted).count())
}

/// A function of the archive: how often it was called, and its deepest stack.
#[derive(Clone, Copy, Default)]
struct Cost {
    called: usize,
    deepest: usize,
}

/// The costs of the archive's functions over the histories. Before each call the stack is painted, and after it the lowest
/// word that changed is looked for: what lies between it and the caller is the call's, its return address included. A
/// device is also packed and unpacked now and then.
fn costs(calls: &[Vec<Call>]) -> [(&'static str, Cost); 12] {
    let [mut factory, mut tick, mut telegram, mut write, mut warm_start, mut read] = [Cost::default(); 6];
    let [mut image, mut total, mut load, mut version, mut pack, mut unpack] = [Cost::default(); 6];
    macro_rules! measured {
        ($cost:ident, $call:expr) => {{
            let top = stack_pointer();
            paint(top);
            let given = $call;
            $cost.deepest = $cost.deepest.max(touched(top));
            $cost.called += 1;
            given
        }};
    }
    grow();
    let mut room = [0; 64];
    let mut packed = [0; PACKED_BYTES];
    for history in calls {
        let mut head = measured!(factory, Archive::factory());
        for (index, call) in history.iter().enumerate() {
            match *call {
                Call::Tick { fault, ain, tot, di } => {
                    black_box(measured!(tick, archive_tick!(head, fault, ain, tot, di)));
                }
                Call::Telegram(input, ref bytes) => {
                    black_box(measured!(telegram, head.telegram_in_numbers(input, bytes)));
                }
                Call::Write(block, parameter, first, second) => {
                    black_box(measured!(write, head.write_in_numbers(block, parameter, first, second)));
                }
                Call::Read(block, parameter) => {
                    black_box(measured!(read, head.read_in_numbers(block, parameter)));
                }
                Call::Warm => {
                    black_box(measured!(warm_start, head.warm_start_in_numbers()));
                }
                Call::Factory => head = measured!(factory, Archive::factory()),
                Call::Image(length) => {
                    black_box(measured!(image, head.image_in_numbers(&mut room[..length.into()])));
                }
                Call::Total => {
                    black_box(measured!(total, head.total_in_numbers()));
                }
                Call::Load(ref bytes) => {
                    black_box(measured!(load, head.load_in_numbers(bytes)));
                }
                // has no function in the archive
                Call::Part(..) => {}
            }
            if index % 16 == 0 {
                black_box(measured!(version, Archive::version()));
                black_box(measured!(pack, head.pack(&mut packed)));
                black_box(measured!(unpack, head.unpack(&packed)));
            }
        }
    }
    [
        ("serkoviu_factory", factory),
        ("serkoviu_tick", tick),
        ("serkoviu_telegram", telegram),
        ("serkoviu_write", write),
        ("serkoviu_warm_start", warm_start),
        ("serkoviu_read", read),
        ("serkoviu_image", image),
        ("serkoviu_total", total),
        ("serkoviu_load", load),
        ("serkoviu_version", version),
        ("serkoviu_pack", pack),
        ("serkoviu_unpack", unpack),
    ]
}

fn main() {
    let arguments: Vec<String> = std::env::args().skip(1).collect();
    let times = arguments.get(1).and_then(|times| times.parse().ok()).unwrap_or(1);
    let seed = std::env::var("SERKOVIU_SEED").map_or(1, |seed| seed.parse().expect("a number"));
    let calls: Vec<_> = histories(seed, 400).collect();
    let measured = || -> Vec<_> {
        let mut random = Random::new(seed);
        match arguments.get(2).map(String::as_str) {
            None => calls.iter().map(|history| without_table(history)).collect(),
            Some("table") => calls.iter().map(|history| with_table(history, &mut random)).collect(),
            Some(word) => panic!("bench archive|model TIMES, with nothing or `table` after it: {word}"),
        }
    };
    let (ticks, seconds) = match arguments.first().map(String::as_str) {
        Some("archive") => play(Archive::factory, &measured(), times),
        Some("model") => play(Model::factory, &measured(), times),
        Some("calls") => {
            for (name, cost) in costs(&calls[..100]) {
                println!("{name} {} {}", cost.called, cost.deepest);
            }
            return;
        }
        Some("size") => {
            println!("{} {}", size_of::<Device>(), size_of::<Model>());
            return;
        }
        _ => panic!("bench archive|model TIMES [table], bench calls, or bench size"),
    };
    println!("{ticks} {:.2}", seconds / ticks as f64 * 1e9);
}
