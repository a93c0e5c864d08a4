//! The condition on the caller's MXCSR, shown once: with its default the archive gives what the rule gives, and with
//! another rounding, with flush-to-zero or with denormals-are-zero it does not. So the condition cannot be dropped from
//! the header.

use std::arch::asm;

use comparison::archive::{Archive, Discrete, Pair};
use comparison::calls::Head;
use comparison::model::Model;

/// Rounding to nearest, exceptions masked, nothing flushed: what a process starts with.
const DEFAULT: u32 = 0x1F80;
const ROUND_UP: u32 = DEFAULT | 0x4000;
const FLUSH_TO_ZERO: u32 = DEFAULT | 0x8000;
const DENORMALS_ARE_ZERO: u32 = DEFAULT | 0x0040;

/// A tick of the archive alone under this MXCSR; what stood in it before stands in it after.
fn tick_under(mxcsr: u32, head: &mut Archive, ain: Pair) {
    let (tot, di) = (Pair { bits: 0, status: 0x80 }, Discrete { value: 0, status: 0x80 });
    let mut before = 0u32;
    // SAFETY: between the two loads stands the call of the archive, and no float operation of Rust's.
    unsafe {
        asm!("stmxcsr [{}]", in(reg) &mut before, options(nostack));
        asm!("ldmxcsr [{}]", in(reg) &mxcsr, options(nostack));
    }
    head.tick_in_numbers(false, ain, tot, di);
    unsafe { asm!("ldmxcsr [{}]", in(reg) &before, options(nostack)) };
}

/// OUT of AIN after a Good input, both scales from 0 to `high`.
fn out_under(mxcsr: u32, high: f32, input: u32) -> u32 {
    let mut head = Archive::factory();
    head.write(1, 11, 0, high.to_bits()).expect("a scale");
    head.write(1, 12, 0, high.to_bits()).expect("a scale");
    tick_under(mxcsr, &mut head, Pair { bits: input, status: 0x80 });
    head.read(1, 10).expect("OUT").0
}

fn out_by_the_model(high: f32, input: u32) -> u32 {
    let mut head = Model::factory();
    head.write(1, 11, 0, high.to_bits()).expect("a scale");
    head.write(1, 12, 0, high.to_bits()).expect("a scale");
    head.tick(false, (input, 0x80), (0, 0x80), (0, 0x80));
    head.read(1, 10).expect("OUT").0
}

#[test]
fn another_mxcsr_gives_another_value() {
    // (MXCSR, high end, input, OUT by the rule, OUT under that MXCSR)
    let cases = [
        // 8.9 / 100 and that × 100, each rounded up in place of to nearest
        (ROUND_UP, 100.0, 0x410E_6666, 0x410E_6666, 0x410E_6667),
        // 2^-126 / 100 is 83,886.08 × 2^-149, which rounds to 83,886 of them; × 100 these are 8,388,600, or 0 once flushed
        (FLUSH_TO_ZERO, 100.0, 0x0080_0000, 8_388_600, 0),
        // a subnormal input, which scales from 0 to 1 leave as it is
        (DENORMALS_ARE_ZERO, 1.0, 0x0040_0000, 0x0040_0000, 0),
    ];
    for (mxcsr, high, input, rule, other) in cases {
        assert_eq!(out_by_the_model(high, input), rule, "the model, {input:08X}");
        assert_eq!(out_under(DEFAULT, high, input), rule, "the archive by default, {input:08X}");
        assert_eq!(out_under(mxcsr, high, input), other, "the archive, MXCSR {mxcsr:04X}, {input:08X}");
    }
}
