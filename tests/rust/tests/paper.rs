//! Vectors worked by hand from the paper: its points B to I, and a case for each reading that tells two readings apart.
//!
//! They are written in the call script with a few shorter forms: `50f`, `inf` and `nan` are float bits; `ain X S`,
//! `tot X S` and `di X S` are ticks with that pair (the others being 0, 0x80), `off` is a tick with the fault flag,
//! `sp X S`, `rcas X S`, `sp_d X S` and `rcas_d X S` are telegrams, `table X Y X Y ..` loads these floats. After `=>`
//! stands the answer: for `ain`, `tot` and `off` AO's order alone, for `di` DO's, for `tick` both; the words of a read
//! stand there alone, and a second word 0 may be left out. Without `=>` the call must not be refused. `7 * call` makes a
//! call seven times.

use comparison::archive::Archive;
use comparison::calls::{parse, replay, Answer, Head, Line};
use comparison::model::Model;

fn bits(word: &str) -> Option<u32> {
    match word {
        "nan" => Some(0x7FC0_0000),
        "inf" => Some(f32::INFINITY.to_bits()),
        "-inf" => Some(f32::NEG_INFINITY.to_bits()),
        _ => word.strip_suffix('f').and_then(|number| number.parse::<f32>().ok()).map(f32::to_bits),
    }
}

/// Floats as hexadecimal words.
fn with_bits(text: &str) -> Vec<String> {
    text.split_whitespace().map(|word| bits(word).map_or(word.into(), |bits| format!("{bits:#010X}"))).collect()
}

fn number(word: &str) -> u32 {
    match word.strip_prefix("0x") {
        Some(digits) => u32::from_str_radix(digits, 16).expect(word),
        None => word.parse().expect(word),
    }
}

fn line(call: &str) -> String {
    let words = with_bits(call);
    let telegram = |input: u8| {
        let bytes = number(&words[1]).to_be_bytes().map(|byte| byte.to_string());
        format!("telegram {input} {} {}", bytes.join(" "), words[2])
    };
    match &*words[0] {
        "ain" => format!("tick 0 {} {} 0 0x80 0 0x80", words[1], words[2]),
        "tot" => format!("tick 0 0 0x80 {} {} 0 0x80", words[1], words[2]),
        "di" => format!("tick 0 0 0x80 0 0x80 {} {}", words[1], words[2]),
        "off" => "tick 1 0 0x80 0 0x80 0 0x80".into(),
        "sp" => telegram(0),
        "rcas" => telegram(1),
        "sp_d" => format!("telegram 2 {} {}", words[1], words[2]),
        "rcas_d" => format!("telegram 3 {} {}", words[1], words[2]),
        "table" => {
            let bytes = words[1..].iter().flat_map(|word| number(word).to_be_bytes());
            bytes.fold("load".into(), |line, byte| format!("{line} {byte}"))
        }
        _ => words.join(" "),
    }
}

fn expected(text: &str) -> String {
    let words = with_bits(text);
    if words[0].starts_with(|c: char| c.is_ascii_digit()) {
        let second = words.get(1).map_or(0, |word| number(word));
        return format!("words {:#010X} {second:#010X}", number(&words[0]));
    }
    words.join(" ")
}

/// The part of an answer that a call has after `=>`.
fn shown(call: &str, answer: Answer) -> String {
    let text = answer.to_string();
    let words: Vec<&str> = text.split(' ').collect();
    let (ao, dout) = words.split_at(if words[0] == "position" { 2 } else { 1 });
    match call.split_whitespace().next() {
        Some("ain" | "tot" | "off") => ao.join(" "),
        Some("di") => dout.join(" "),
        _ => text,
    }
}

/// Plays calls on a fresh model, and on a fresh device of the archive's.
fn play(script: &str) {
    play_on(&mut Model::factory(), script);
    play_on(&mut Archive::factory(), script);
}

fn play_on(head: &mut dyn Head, script: &str) {
    for text in script.split(['\n', ';']).map(|text| text.split("//").next().unwrap().trim()) {
        if text.is_empty() {
            continue;
        }
        let (call, wanted) = match text.split_once("=>") {
            Some((call, wanted)) => (call, Some(wanted)),
            None => (text, None),
        };
        let (times, call) = match call.split_once(" * ") {
            Some((times, call)) => (number(times.trim()), call),
            None => (1, call),
        };
        let Line::Call(parsed) = parse(line(call).as_bytes()) else { panic!("not a call: {text}") };
        for _ in 0..times {
            let answer = parsed.on(head);
            match wanted {
                Some(wanted) => assert_eq!(shown(call, answer), expected(wanted), "{text} in:\n{script}"),
                None => assert!(!matches!(answer, Answer::Refused(_)), "{text}: {answer} in:\n{script}"),
            }
        }
    }
}

// Points on the curve

#[test]
fn point_b() {
    play("write 1 11 4f 20f; ain 12f 0x80; image 19 => bytes 42 48 00 00 80 00 00 00 00 80 00 00 00 00 4C 00 80 00 48");
}

#[test]
fn point_c() {
    play(
        "write 1 11 0f 64f; write 1 12 0f 64f; write 1 16 1.5f 0; ain 0f 0x80
         ain 32f 0x80; read 1 10 => 2f 0x80",
    );
}

#[test]
fn point_d() {
    play(
        "write 1 11 0f 1f; write 1 12 0f 1f; write 1 23 80f 0
         ain 80f 0x80; read 1 7 => 2; ain 79.5f 0x80; read 1 7 => 2; read 1 10 => 79.5f 0x8A
         ain 79.25f 0x80; read 1 7 => 0; read 1 10 => 79.25f 0x80",
    );
}

#[test]
fn points_e_and_f() {
    play("tot 0.015625f 0x80; total => total 1; 2 * tot -0.015625f 0x80; total => total -1");
}

/// 16,777,217 = 16,000,000 + 777,212 + 5.
#[test]
fn point_g() {
    play(
        "write 2 5 0x10 0; write 2 10 16000f 0x80; write 2 5 8 0; total => total 16000000
         tot 7772.125f 0x80; tot 0.0546875f 0x80; total => total 16777217
         read 2 10 => 16777.216f 0x80",
    );
}

#[test]
fn point_h() {
    play(
        "write 3 23 2 0; sp 50f 0x80; 3 * ain 0f 0x80 => position 50f; read 3 37 => 50f 0x80
         ain 0f 0x80 => position 50f; read 3 37 => 50f 0x44",
    );
}

#[test]
fn point_i() {
    play("65535 * write 1 17 1 0; read 1 1 => 65535; write 1 17 1 0; read 1 1 => 0; write 1 17 1 0; read 1 1 => 1");
}

// Head and arithmetic

#[test]
fn no_update_event() {
    play("write 1 17 2 0; ain 50f 0x80; read 1 10 => 50f 0x80");
}

#[test]
fn rounding() {
    play(
        "write 1 12 -50f 50f
         ain 0x410E6666 0x80; read 1 10 => 0xC2246666 0x80 // fused C2246667
         ain 0x4164CCCD 0x80; read 1 10 => 0xC20ECCCC 0x80 // multiplying first C20ECCCD",
    );
    // 80 − 0.01 = 429FFAE1, met exactly by the operator.
    play(
        "write 1 23 80f 0; write 1 19 0.01f 0; write 1 5 0x10 0; write 1 10 80f 0; ain 0f 0x80; read 1 7 => 2
         write 1 10 0x429FFAE1 0; ain 0f 0x80; read 1 7 => 2
         write 1 10 0x429FFAE0 0; ain 0f 0x80; read 1 7 => 0",
    );
    // A tie goes to the even one: 2^24 + 1.
    play("write 1 11 0f 1f; write 1 12 1f 2f; ain 16777216f 0x80; read 1 10 => 16777216f 0x80");
    // A span of one subnormal is kept.
    play("write 1 11 0 1; write 1 12 0f 1f; ain 0x00000003 0x80; read 1 10 => 3f 0x80");
}

#[test]
fn equal_scales_are_no_identity() {
    play("ain 30f 0x80; read 1 10 => 0x41F00001 0x80; sp 30f 0x80; ain 0f 0x80 => position 0x41F00001");
}

#[test]
fn sign_of_zero() {
    play("write 1 12 -0f 100f; ain -0f 0x80; read 1 10 => 0x80000000 0x80");
    play("write 3 38 -0f -100f; sp 0f 0x80; ain 0f 0x80 => position 0x80000000");
    play("ain -0f 0x80; read 1 10 => 0 0x80; tot -0f 0x80; read 2 10 => 0 0x80");
    play("write 2 5 0x10 0; write 2 10 -0f 0x80; ain 0f 0x80; read 2 10 => 0 0x80");
}

#[test]
fn order_of_the_second_half() {
    play("write 1 12 50f 100f; ain 50f 0x80; read 1 10 => 75f 0x80");
}

// Calls and parameters

#[test]
fn only_the_target_at_the_tick_counts() {
    play("write 1 5 0x80 0; write 1 12 0f 10f; write 1 5 8 0; ain 50f 0x80; read 1 10 => 5f 0x80; read 1 6 => 8");
}

#[test]
fn telegrams_are_no_writes() {
    play(
        "write 0 18 0 0; sp 50f 0x80 => ok; sp 50f 0x4C => ok; sp nan 0x80 => ok; rcas 50f 0 => ok
         ain 0f 0x80 => position 50f",
    );
}

#[test]
fn lacking_parameters() {
    for (block, parameters) in [
        (0, &[18][..]),
        (1, &[1, 5, 6, 7, 10, 11, 12, 13, 16, 17, 18, 19, 21, 23, 25, 27]),
        (2, &[1, 5, 6, 10, 13, 14, 15, 16]),
        (3, &[1, 5, 6, 11, 23, 24, 25, 36, 37, 38]),
        (4, &[1, 5, 6, 10, 15, 20, 21]),
        (5, &[1, 5, 6, 10, 15, 20, 21, 22]),
    ] {
        for parameter in 0..=255 {
            let head = &mut Model::factory();
            let known = parameters.contains(&parameter);
            assert_eq!(head.read(block, parameter).err(), if known { None } else { Some(2) }, "{block} {parameter}");
            assert_eq!(head.write(block, parameter, 0xFFFF_FFFF, 0xFFFF_FFFF) == Err(2), !known, "{block} {parameter}");
        }
    }
    for block in 6..=255 {
        assert_eq!(Model::factory().read(block, 1), Err(1));
        assert_eq!(Model::factory().write(block, 1, 0, 0), Err(1));
    }
}

#[test]
fn defaults() {
    play(
        "read 0 18 => 2457
         read 1 1 => 0; read 1 5 => 8; read 1 6 => 0x80; read 1 7 => 0; read 1 10 => 0f 0x1F
         read 1 11 => 0f 100f; read 1 12 => 0f 0x42C80000; read 1 13 => 0; read 1 16 => 0f; read 1 17 => 1; read 1 18 => 0f
         read 1 19 => 0.5f; read 1 21 => 0x7F800000; read 1 23 => 0x7F800000; read 1 25 => 0xFF800000
         read 1 27 => 0xFF800000
         read 2 1 => 0; read 2 5 => 8; read 2 6 => 0x80; read 2 10 => 0f 0x1F; read 2 13 => 0; read 2 14 => 0
         read 2 15 => 0; read 2 16 => 0f
         read 3 1 => 0; read 3 5 => 8; read 3 6 => 0x80; read 3 11 => 0f 100f; read 3 23 => 0; read 3 24 => 1
         read 3 25 => 0f; read 3 36 => 0; read 3 37 => 0f 0x1F; read 3 38 => 0f 100f; total => total 0
         read 4 1 => 0; read 4 5 => 8; read 4 6 => 0x80; read 4 10 => 0 0x1F; read 4 15 => 0; read 4 20 => 0
         read 4 21 => 0
         read 5 1 => 0; read 5 5 => 8; read 5 6 => 0x80; read 5 10 => 0 0x1F; read 5 15 => 0; read 5 20 => 0
         read 5 21 => 0; read 5 22 => 0",
    );
    // The operator's pairs: 0, 0x4C. Entered on a fresh device, all but TOT have taken theirs from OUT.
    play(
        "write 1 5 0x10 0; write 2 5 0x10 0; write 3 5 0x10 0; write 4 5 0x10 0; write 5 5 0x10 0
         tick 0 50f 0x80 50f 0x80 1 0x80 => position 0f position 0
         image 19 => bytes 00 00 00 00 1F 00 00 00 00 4C 00 00 00 00 1F 00 1F 00 1F; warm
         tick 0 50f 0x80 50f 0x80 1 0x80 => position 0f position 0
         image 19 => bytes 00 00 00 00 4C 00 00 00 00 4C 00 00 00 00 4C 00 4C 00 4C",
    );
}

#[test]
fn scale_words() {
    play(
        "write 1 11 0 0x80000000 => refused 5; write 1 11 7f 7f => refused 5; write 1 11 nan 7f => refused 5
         write 1 11 7f inf => refused 5; write 1 11 100f 0f => ok; write 1 11 0 1 => ok; read 1 11 => 0 1
         write 1 11 -3e38f 3e38f => ok; write 3 38 100f 0f => ok; write 3 11 1f 1f => refused 5; read 1 1 => 3
         read 3 1 => 1",
    );
}

#[test]
fn ranges() {
    // −0 where 0 passes, but only as a float.
    play(
        "write 1 16 -0f 0 => ok; read 1 16 => 0x80000000; write 1 19 -0f 0 => ok; read 1 19 => 0x80000000
         write 1 17 -0f 0 => refused 5; write 2 13 -0f 0 => refused 5; write 1 16 -1e-45f 0 => refused 5
         write 1 19 -1e-45f 0 => refused 5; write 1 16 3600f 0 => ok; write 1 16 0x45610001 0 => refused 5
         write 1 19 inf 0 => refused 5; write 1 19 3e38f 0 => ok",
    );
    // A NaN is in no range.
    for nan in ["nan", "0x7F800001", "0xFFFFFFFF"] {
        for parameter in ["1 16", "1 18", "1 19", "1 21", "1 23", "1 25", "1 27", "2 16", "3 25"] {
            play(&format!("write {parameter} {nan} 0 => refused 5"));
        }
        for block in [1, 2, 3] {
            let parameter = if block == 3 { 37 } else { 10 };
            play(&format!("write {block} 5 0x10 0; write {block} {parameter} {nan} 0 => refused 5"));
        }
    }
    // Limits: the infinity of their own side.
    play(
        "write 1 21 -inf 0 => refused 5; write 1 23 -inf 0 => refused 5; write 1 25 inf 0 => refused 5
         write 1 27 inf 0 => refused 5; write 1 21 inf 0 => ok; write 1 27 -inf 0 => ok; write 1 23 -3e38f 0 => ok",
    );
    // ±10^9.
    play(
        "write 2 16 0x4E6E6B28 0 => ok; write 2 16 0x4E6E6B29 0 => refused 5; write 2 16 0xCE6E6B28 0 => ok
         write 2 16 0xCE6E6B29 0 => refused 5; write 2 5 0x10 0; write 2 10 0x4E6E6B28 255 => ok
         write 2 10 0x4E6E6B29 0 => refused 5; write 2 10 0f 256 => refused 5",
    );
    // Codes and second words.
    play(
        "write 1 5 8 1 => refused 5; write 1 5 2 0 => refused 5; write 2 5 2 0 => refused 5; write 3 5 2 0 => ok
         write 1 5 0x108 0 => refused 5; write 1 17 3 0 => refused 5; write 2 13 3 0 => refused 5
         write 2 14 3 0 => ok; write 2 14 4 0 => refused 5; write 2 15 3 0 => refused 5; write 3 23 65535 0 => ok
         write 3 23 65536 0 => refused 5; write 3 24 3 0 => refused 5; write 3 36 1 0 => ok
         write 3 36 2 0 => refused 5; write 0 18 32768 0 => refused 5; write 0 18 0 1 => refused 5
         write 0 18 67993 0 => refused 5",
    );
    // LIN_TYPE: 1 with a table alone.
    play(
        "write 1 13 0 0 => ok; write 1 13 1 0 => refused 5; write 1 13 2 0 => refused 5; write 1 13 0 1 => refused 5
         write 1 13 -0f 0 => refused 5; table 0f 0f 1f 10f; write 1 13 1 0 => ok; write 1 13 2 0 => refused 5
         write 1 13 1 1 => refused 5; write 1 13 0x101 0 => refused 5; read 1 13 => 1; write 1 13 0 0 => ok; read 1 13 => 0",
    );
}

#[test]
fn what_an_operator_writes_shows_with_the_tick() {
    play("write 1 5 0x10 0; write 1 10 7f 0x83; read 1 10 => 0f 0x1F; ain 0f 0x80; read 1 10 => 7f 0x83");
    play(
        "tot 1f 0x80; write 2 5 0x10 0; write 2 10 0.29f 0xA7; read 2 10 => 0.1f 0x80; total => total 290
         off; read 2 10 => 0.1f 0x1F; write 2 5 8 0; tot 0f 0x81; read 2 10 => 0.29f 0x81
         write 2 5 0x10 0; tot 0f 0x80; read 2 10 => 0.29f 0xA7 // kept through Auto and O/S
         warm; read 2 10 => 0.29f 0x1F; tot 0f 0x80; read 2 10 => 0.29f 0x4C",
    );
}

#[test]
fn revisions() {
    play(
        "write 1 5 8 0; write 1 5 0x10 0; write 1 10 0f 0; read 1 1 => 2
         write 2 5 0x10 0; write 2 10 0f 0; write 2 13 1 0; write 2 14 1 0; read 2 1 => 1; write 2 15 0 0; read 2 1 => 2
         write 0 18 2457 0; write 1 17 9 0 => refused 5; read 1 1 => 2; read 2 1 => 2; read 3 1 => 0
         warm; read 1 1 => 2; read 2 1 => 2",
    );
}

// Mode

#[test]
fn modes() {
    // RCas at once, and in fail-safe.
    play("write 3 5 2 0; ain 0f 0x80 => position 0f; read 3 6 => 2; read 3 37 => 0f 0x4C");
    // O/S keeps the last usable value, the rate and the telegrams, and n goes on.
    play(
        "write 2 15 2 0; write 3 23 2 0; sp 50f 0x80; tick 0 50f 0x80 1f 0x80 1 0x80 => position 50f position 0
         off => rest; image 19 => bytes 42 48 00 00 1F 3D CC CC CD 1F 42 48 00 00 1F 01 1F 00 1F; read 1 6 => 0x80; read 2 6 => 0x80
         read 3 6 => 0x80; read 1 5 => 8
         tick 0 0f 0 0f 0 0 0 => position 50f position 0; read 1 10 => 50f 0x44; read 2 10 => 0.2f 0x44; read 3 37 => 50f 0x80
         ain 0f 0; read 3 37 => 50f 0x44",
    );
    // At once after a warm start.
    play(
        "write 1 23 40f 0; tick 0 50f 0x80 1f 0x80 0 0x80; read 1 7 => 2; warm; read 1 10 => 50f 0x1F; read 1 6 => 0x80
         read 1 7 => 0; read 2 10 => 0.1f 0x1F; read 3 6 => 0x80; total => total 100; warm; read 1 10 => 50f 0x1F
         ain 0f 0; read 1 10 => 0f 0x4C",
    );
    // AO keeps its value over a warm start, the operator's pair goes.
    play(
        "write 3 5 0x10 0; write 3 37 33f 0x80; ain 0f 0x80 => position 33f; warm; write 3 5 8 0
         ain 0f 0x80 => position 33f; read 3 37 => 33f 0x4C; write 3 5 0x10 0; ain 0f 0x80 => position 33f; warm
         ain 0f 0x80 => position 0f; read 3 37 => 0f 0x4C",
    );
    // A fault does not refuse the operator.
    play("write 1 5 0x10 0; off; write 1 10 7f 0x80 => ok; ain 0f 0x80; read 1 10 => 7f 0x80");
}

// Entering Man

/// The pair last given stands, whatever its status, and what comes in does not move it.
#[test]
fn entering_man() {
    // AIN from Auto: usable, with an alarm's status, fail-safe. The write itself gives nothing.
    play(
        "ain 50f 0x83; write 1 5 0x10 0; read 1 10 => 50f 0x83; read 1 6 => 8; ain 75f 0x40; read 1 10 => 50f 0x83
         read 1 6 => 0x10; ain nan 0; read 1 10 => 50f 0x83",
    );
    play("write 1 23 40f 0; ain 50f 0x80; write 1 5 0x10 0; write 1 23 inf 0; ain 0f 0x80; read 1 10 => 50f 0x8A; read 1 7 => 0");
    play("write 1 17 0 0; write 1 18 7f 0; ain 50f 0x80; ain 50f 0; write 1 5 0x10 0; ain 50f 0x80; read 1 10 => 7f 0x48");
    // The latest of several ticks.
    play("ain 25f 0x80; ain 50f 0x81; ain 75f 0x40; write 1 5 0x10 0; ain 25f 0x80; read 1 10 => 75f 0x40");
    // AO from Auto and from RCas: OUT, neither the setpoint nor the telegram's status.
    play(
        "write 3 38 0f 200f; sp 50f 0xC7; ain 0f 0x80 => position 100f; write 3 5 0x10 0; read 3 37 => 100f 0x80
         ain 0f 0x80 => position 100f; read 3 37 => 100f 0x80; read 3 6 => 0x10",
    );
    play(
        "sp 50f 0x80; rcas 25f 0x80; write 3 5 2 0; ain 0f 0x80 => position 25f; write 3 5 0x10 0
         ain 0f 0x80 => position 25f; read 3 37 => 25f 0x80",
    );
    // Silent, without a usable telegram, scaling failed.
    play("sp 50f 0x80; 2 * ain 0f 0x80; write 3 5 0x10 0; ain 0f 0x80 => position 50f; read 3 37 => 50f 0x44");
    play("ain 0f 0x80; write 3 5 0x10 0; ain 0f 0x80 => position 0f; read 3 37 => 0f 0x4C");
    play(
        "sp 50f 0x80; ain 0f 0x80; write 3 38 -3e38f 3e38f; sp 25f 0x80; ain 0f 0x80; write 3 5 0x10 0
         ain 0f 0x80 => position 50f; read 3 37 => 50f 0x04",
    );
    // Each block for itself.
    play(
        "write 3 23 9 0; sp 50f 0x80; ain 25f 0x80; write 1 5 0x10 0; sp 75f 0x80; ain 50f 0x80 => position 75f
         read 1 10 => 25f 0x80; write 1 5 8 0; write 3 5 0x10 0; ain 50f 0x81; read 1 10 => 50f 0x81; read 3 37 => 75f 0x80",
    );
}

/// The status last given is 0x1F: in O/S by a fault or by the target, fresh, after a warm start.
#[test]
fn entering_man_from_out_of_service() {
    play(
        "ain 50f 0x80; off; write 1 5 0x10 0; ain 75f 0x80; read 1 10 => 50f 0x1F; ain 75f 0x80; read 1 10 => 50f 0x1F",
    );
    play("sp 50f 0x80; ain 0f 0x80; off => rest; write 3 5 0x10 0; ain 0f 0x80 => position 50f; read 3 37 => 50f 0x1F");
    play("ain 50f 0x80; write 1 5 0x80 0; ain 75f 0x80; write 1 5 0x10 0; ain 75f 0x80; read 1 10 => 50f 0x1F");
    play(
        "sp 50f 0x80; ain 0f 0x80; write 3 5 0x80 0; ain 0f 0x80 => rest; write 3 5 0x10 0
         ain 0f 0x80 => position 50f; read 3 37 => 50f 0x1F",
    );
    // From the target O/S without a tick in it.
    play(
        "sp 50f 0x80; ain 25f 0x81; write 1 5 0x80 0; write 3 5 0x80 0; write 1 5 0x10 0; write 3 5 0x10 0
         ain 0f 0x80 => position 50f; read 1 10 => 25f 0x81; read 3 37 => 50f 0x80",
    );
    play("write 1 5 0x10 0; write 3 5 0x10 0; ain 50f 0x80 => position 0f; read 1 10 => 0f 0x1F; read 3 37 => 0f 0x1F");
    play(
        "sp 50f 0x80; ain 25f 0x80; warm; write 1 5 0x10 0; write 3 5 0x10 0; ain 75f 0x80 => position 50f
         read 1 10 => 25f 0x1F; read 3 37 => 50f 0x1F",
    );
    // A usable tick after it takes 0x1F away again.
    play("ain 50f 0x80; off; ain 75f 0x40; write 1 5 0x10 0; ain 0f 0x80; read 1 10 => 75f 0x40");
}

/// It leaves the pair and counts in ST_REV.
#[test]
fn man_over_man() {
    play(
        "ain 50f 0x80; write 1 5 0x10 0; write 1 10 70f 0x81; write 1 5 0x10 0; read 1 1 => 2; ain 0f 0x80
         read 1 10 => 70f 0x81; off; read 1 10 => 70f 0x1F; write 1 5 0x10 0; read 1 1 => 3; ain 0f 0x80
         read 1 10 => 70f 0x81",
    );
    play(
        "sp 50f 0x80; ain 0f 0x80; write 3 5 0x10 0; off; write 3 5 0x10 0; ain 0f 0x80 => position 50f
         read 3 37 => 50f 0x80; write 3 37 70f 0x81; write 3 5 0x10 0; ain 0f 0x80 => position 70f
         read 3 37 => 70f 0x81; read 3 1 => 3",
    );
}

#[test]
fn man_left_and_entered_again() {
    // Without a tick between, what the operator wrote was never given.
    play(
        "ain 50f 0x80; write 1 5 0x10 0; write 1 10 70f 0x81; write 1 5 8 0; write 1 5 0x10 0; ain 0f 0x80
         read 1 10 => 50f 0x80; read 1 1 => 3",
    );
    play(
        "sp 50f 0x80; ain 0f 0x80; write 3 5 0x10 0; write 3 37 70f 0x81; write 3 5 2 0; write 3 5 0x10 0
         ain 0f 0x80 => position 50f; read 3 37 => 50f 0x80",
    );
    // With one in Man it was; with one in Auto that pair is the last.
    play(
        "ain 50f 0x80; write 1 5 0x10 0; write 1 10 70f 0x81; ain 0f 0x80; write 1 5 8 0; write 1 5 0x10 0; ain 0f 0x80
         read 1 10 => 70f 0x81; write 1 5 8 0; ain 25f 0x82; write 1 5 0x10 0; ain 0f 0x80; read 1 10 => 25f 0x82",
    );
    play(
        "write 3 23 9 0; sp 50f 0x80; write 3 5 0x10 0; write 3 37 70f 0x81; ain 0f 0x80 => position 70f
         write 3 5 0x80 0; write 3 5 0x10 0; ain 0f 0x80 => position 70f; read 3 37 => 70f 0x81; write 3 5 8 0
         ain 0f 0x80 => position 50f; write 3 5 0x10 0; ain 0f 0x80 => position 50f; read 3 37 => 50f 0x80",
    );
}

#[test]
fn a_refused_target_takes_no_pair() {
    // In Man with a pair not yet given, and after a fault.
    for refused in ["8 0", "0x10 0", "0x80 0", "0x10 1"] {
        play(&format!(
            "sp 50f 0x80; ain 50f 0x80; write 1 5 0x10 0; write 1 10 70f 0x81; write 3 5 0x10 0; write 3 37 75f 0x82
             write 0 18 0 0; write 1 5 {refused} => refused 4; write 3 5 {refused} => refused 4
             ain 0f 0x80 => position 75f; read 1 10 => 70f 0x81; read 3 37 => 75f 0x82; off
             write 1 5 {refused} => refused 4; write 3 5 {refused} => refused 4
             ain 0f 0x80 => position 75f; read 1 10 => 70f 0x81; read 3 37 => 75f 0x82; read 1 1 => 1; read 3 1 => 1",
        ));
    }
    for refused in ["0x10 1", "0x20 0", "0 0", "0x110 0", "0x08 0x10"] {
        play(&format!(
            "sp 50f 0x80; ain 50f 0x80; write 1 5 0x10 0; write 1 10 70f 0x81; write 3 5 0x10 0; write 3 37 75f 0x82
             write 1 5 {refused} => refused 5; write 3 5 {refused} => refused 5; write 1 5 2 0 => refused 5
             ain 0f 0x80 => position 75f; read 1 10 => 70f 0x81; read 3 37 => 75f 0x82; read 1 1 => 1; read 3 1 => 1",
        ));
    }
    // A refused leaving is none: Man over Man after it. A refused entry is none: the later one takes.
    play(
        "sp 50f 0x80; ain 50f 0x80; write 1 5 0x10 0; write 1 10 70f 0x81; write 3 5 0x10 0; write 3 37 75f 0x82
         write 0 18 0 0; write 1 5 8 0 => refused 4; write 3 5 2 0 => refused 4; write 0 18 2457 0; write 1 5 0x10 0
         write 3 5 0x10 0; ain 0f 0x80 => position 75f; read 1 10 => 70f 0x81; read 3 37 => 75f 0x82",
    );
    play(
        "ain 50f 0x80; write 0 18 0 0; write 1 5 0x10 0 => refused 4; ain 75f 0x81; read 1 10 => 75f 0x81
         write 0 18 2457 0; write 1 5 0x10 1 => refused 5; ain 25f 0x82; write 1 5 0x10 0; ain 0f 0x80
         read 1 10 => 25f 0x82; read 1 1 => 1",
    );
}

/// Between the entry and the Man tick nothing but a write of OUT moves the pair.
#[test]
fn the_pair_taken_stays() {
    play(
        "ain 50f 0x81; write 1 5 0x10 0; off; sp 25f 0x80; write 1 12 0f 200f; write 1 17 0 0; write 1 18 9f 0
         table 0f 0f 1f 10f; write 1 13 1 0; write 2 5 0x10 0; write 3 5 0x10 0; write 1 10 nan 0 => refused 5
         write 1 10 7f 256 => refused 5; read 1 10 => 50f 0x1F; ain 75f 0; read 1 10 => 50f 0x81; read 1 1 => 6",
    );
    play(
        "sp 50f 0x80; ain 0f 0x80; write 3 5 0x10 0; off => rest; sp 25f 0x80; rcas 75f 0xA0; write 3 38 0f 200f
         write 3 36 1 0; write 3 24 2 0; write 3 25 9f 0; write 1 5 0x10 0; image 19; read 3 37 => 50f 0x1F
         ain 0f 0x80 => position 50f; read 3 37 => 50f 0x80; off; ain 0f 0x80 => position 50f; read 3 37 => 50f 0x80",
    );
    // Written before the tick, the operator's own pair is given.
    play("ain 50f 0x80; write 1 5 0x10 0; write 1 10 7f 0x83; ain 0f 0x80; read 1 10 => 7f 0x83");
    play("sp 50f 0x80; ain 0f 0x80; write 3 5 0x10 0; write 3 37 7f 0x83; ain 0f 0x80 => position 7f; read 3 37 => 7f 0x83");
}

/// Fail-safe by type 2: the drive leaves Safe for the value that OUT kept.
#[test]
fn from_safe_to_man() {
    play(
        "sp 50f 0x80; ain 0f 0x80 => position 50f; write 3 24 2 0; ain 0f 0x80 => safe; read 3 37 => 50f 0
         write 3 5 0x10 0; ain 0f 0x80 => position 50f; read 3 37 => 50f 0; ain 0f 0x80 => position 50f",
    );
}

#[test]
fn tot_takes_nothing() {
    play(
        "tot 1f 0x80; read 2 10 => 0.1f 0x80; write 2 5 0x10 0; read 2 1 => 1; tot 1f 0x80; read 2 10 => 0.1f 0x4C
         total => total 100; write 2 10 5f 0xA7; write 2 5 8 0; tot 1f 0x81; read 2 10 => 5.1f 0x81; write 2 5 0x10 0
         tot 1f 0x80; read 2 10 => 5.1f 0xA7; write 2 5 8 0; off; write 2 5 0x10 0; tot 0f 0x80; read 2 10 => 5.1f 0xA7",
    );
}

/// The fresh pair, also where the target is Man.
#[test]
fn a_warm_start_in_man() {
    play(
        "ain 50f 0x80; write 1 5 0x10 0; ain 0f 0x80; warm; read 1 5 => 0x10; read 1 10 => 50f 0x1F; ain 75f 0x80
         read 1 10 => 0f 0x4C",
    );
    play("sp 50f 0x80; ain 0f 0x80; write 3 5 0x10 0; warm; ain 0f 0x80 => position 0f; read 3 37 => 0f 0x4C");
    // Man over Man after it takes nothing; an entry takes the value kept.
    play("ain 50f 0x80; write 1 5 0x10 0; warm; write 1 5 0x10 0; ain 75f 0x80; read 1 10 => 0f 0x4C");
    play(
        "sp 50f 0x80; ain 0f 0x80; write 3 5 0x10 0; warm; write 3 5 8 0; write 3 5 0x10 0
         ain 0f 0x80 => position 50f; read 3 37 => 50f 0x1F",
    );
}

#[test]
fn alarms_on_the_pair_taken() {
    play(
        "write 1 23 80f 0; ain 50f 0x80; write 1 5 0x10 0; write 1 23 40f 0; read 1 7 => 0; ain 0f 0x80; read 1 7 => 2
         read 1 10 => 50f 0x80; write 1 23 50.5f 0; ain 99f 0x80; read 1 7 => 2; write 1 23 51f 0; ain 99f 0x80
         read 1 7 => 0",
    );
    // After a fault, on the value under 0x1F.
    play(
        "write 1 25 60f 0; ain 50f 0x80; read 1 10 => 50f 0x89; off; read 1 7 => 0; write 1 5 0x10 0; read 1 7 => 0
         ain 99f 0x80; read 1 7 => 4; read 1 10 => 50f 0x1F",
    );
}

// AIN

/// Scales that leave a value as it is, but for −0.
const PLAIN: &str = "write 1 11 0f 1f; write 1 12 0f 1f\n";

fn play_plain(script: &str) {
    play(&[PLAIN, script].concat());
}

#[test]
fn filter() {
    play_plain("write 1 16 -0f 0; ain 1e8f 0x80; ain 1f 0x80; read 1 10 => 1f 0x80");
    // Filled with PV_FTIME 0 and by quality 1; not emptied by an unusable tick.
    play_plain("ain 10f 0x40; write 1 16 0.1f 0; ain nan 0x80; ain 20f 0x80; read 1 10 => 15f 0x80");
    // Emptied by Man and O/S.
    play_plain("write 1 16 0.1f 0; ain 10f 0x80; write 1 5 0x10 0; ain 0f 0x80; write 1 5 8 0; ain 20f 0x80; read 1 10 => 20f 0x80");
    play_plain("write 1 16 0.1f 0; ain 10f 0x80; off; ain 20f 0x80; read 1 10 => 20f 0x80");
    // Not by Man entered and left again between two ticks.
    play_plain("write 1 16 0.1f 0; ain 10f 0x80; write 1 5 0x10 0; write 1 5 8 0; ain 20f 0x80; read 1 10 => 15f 0x80");
    // Left as it was when a scale changes.
    play_plain("ain 10f 0x80; write 1 16 0.1f 0; write 1 12 0f 2f; ain 10f 0x80; read 1 10 => 15f 0x80");
}

#[test]
fn input_status() {
    play(
        "write 1 17 2 0; ain nan 0x0D; read 1 10 => 0f 0x0D; ain inf 0x83; read 1 10 => 0f 0x10
         ain 40f 0xC3; read 1 10 => 40f 0x04; ain -inf 0xE0; read 1 10 => 40f 0x04; ain 25f 0x1C; read 1 10 => 25f 0x1C",
    );
    // Filtered not finite: the filter keeps the old PV.
    play_plain(
        "write 1 17 2 0; write 1 16 0.1f 0; ain 3e38f 0x80; ain -3e38f 0x80; read 1 10 => -3e38f 0x04
         ain 3e38f 0x80; read 1 10 => 3e38f 0x80",
    );
    // Scaled not finite: old OUT.
    play_plain("write 1 17 2 0; ain 5f 0x80; write 1 12 0f 1e30f; ain 1e30f 0x80; read 1 10 => 5f 0x04");
}

#[test]
fn fail_safe_types() {
    play(
        "write 1 11 0f 64f; write 1 12 0f 64f; write 1 17 2 0; write 1 16 1.5f 0; ain 0f 0x80
          ain 64f 0; read 1 10 => 64f 0; ain 32f 0x80; read 1 10 => 2f 0x80 // not put into the filter",
    );
    play("ain 50f 0x80; write 1 12 0f 200f; ain 10f 0; read 1 10 => 50f 0x44");
    // A Man value is no Auto value; without one 0, not the old OUT.
    play(
        "write 1 5 0x10 0; write 1 10 7f 0x80; ain 0f 0x80; write 1 5 8 0; ain 0f 0; read 1 10 => 0f 0x4C
         ain 50f 0x40; read 1 10 => 50f 0x40; write 1 5 0x10 0; write 1 10 7f 0x80; ain 0f 0x80
         read 1 10 => 7f 0x80; off; write 1 5 8 0; ain 0f 0; read 1 10 => 50f 0x44",
    );
    play("write 1 17 0 0; write 1 18 7f 0; ain 50f 0x80; ain 0f 0; read 1 10 => 7f 0x48; write 1 17 1 0; ain 0f 0; read 1 10 => 50f 0x44");
}

#[test]
fn alarms() {
    // In Man, and on fail-safe values.
    play("write 1 23 80f 0; write 1 5 0x10 0; write 1 10 90f 0x80; ain 0f 0x80; read 1 7 => 2; read 1 10 => 90f 0x80");
    play("write 1 25 20f 0; ain 50f 0; read 1 7 => 4; read 1 10 => 0f 0x4C");
    // A limit or hysteresis write alone moves none; an infinite limit lets one fall at the next tick.
    play_plain(
        "write 1 23 80f 0; ain 90f 0x80; write 1 23 inf 0; write 1 19 0f 0; read 1 7 => 2; ain 90f 0x80; read 1 7 => 0
         write 1 23 80f 0; read 1 7 => 0",
    );
    // A hysteresis that overflows: it never falls by value.
    play_plain(
        "write 1 19 3e38f 0; write 1 23 -3e38f 0; ain 0f 0x80; ain -3.4e38f 0x80; read 1 7 => 2; off; read 1 7 => 0",
    );
    play_plain("write 1 19 3e38f 0; write 1 25 3e38f 0; ain 0f 0x80; ain 3.4e38f 0x80; read 1 7 => 4");
    // HI_HI, LO_LO, HI, LO.
    play_plain(
        "write 1 21 80f 0; write 1 23 70f 0; write 1 25 75f 0; write 1 27 72f 0
         ain 80f 0x80; read 1 7 => 3; read 1 10 => 80f 0x8E
         ain 71f 0x80; read 1 7 => 14; read 1 10 => 71f 0x8D
         ain 74f 0x80; read 1 7 => 6; read 1 10 => 74f 0x8A
         ain 60f 0x80; read 1 7 => 12; read 1 10 => 60f 0x8D
         write 1 27 -inf 0; ain 60f 0x80; read 1 7 => 4; read 1 10 => 60f 0x89",
    );
    // The whole byte is replaced, or stays; quality 1 keeps its own.
    play_plain(
        "write 1 23 80f 0; ain 50f 0x83; read 1 10 => 50f 0x83; ain 50f 0xA1; read 1 10 => 50f 0xA1
         ain 80f 0x83; read 1 10 => 80f 0x8A; ain 80f 0x43; read 1 10 => 80f 0x43; read 1 7 => 2",
    );
    // Limits compare as numbers.
    play_plain("write 1 23 -0f 0; ain 0f 0x80; read 1 7 => 2");
}

#[test]
fn overflowing_spans() {
    play("write 1 11 -3e38f 3e38f; write 1 12 7f 9f; ain 0f 0x80; read 1 10 => 7f 0x80");
    play("write 1 17 2 0; write 1 12 -3e38f 3e38f; ain 0f 0x80; read 1 10 => 0f 0x04; ain 50f 0x80; read 1 10 => 0f 0x04");
}

// AIN's linearisation table

/// Of the readings' example: 1.9 lies in the second of its segments, 10 + 0.9 × 60 / 3.
const WEIR: &str = "table 0f 0f 1f 10f 4f 70f 7f 100f; write 1 13 1 0\n";

fn play_weir(script: &str) {
    play(&[PLAIN, WEIR, script].concat());
}

/// 16 to 168 bytes; `pairs` rise, whatever their number.
#[test]
fn sizes_of_a_table() {
    let pairs = |count: usize| {
        let floats: Vec<String> = (0..count).map(|index| format!("{index}f {}f", 3 * index)).collect();
        floats.join(" ")
    };
    for count in [0, 1, 22, 23, 32] {
        play(&format!("table {} => refused 9; read 1 1 => 0; write 1 13 1 0 => refused 5", pairs(count)));
    }
    for count in 2..=21 {
        // At each x, the last one too, and past it.
        let ticks: Vec<String> = (0..count).map(|x| format!("ain {x}f 0x80; read 1 10 => {}f 0x80\n", 3 * x)).collect();
        let past = format!("ain 99f 0x80; read 1 10 => {}f 0x80", 3 * count - 3);
        play_plain(&format!("table {} => ok; write 1 13 1 0; {}{past}", pairs(count), ticks.concat()));
    }
    for length in 0..=256 {
        let zeros = vec!["0"; length].join(" ");
        // Whole pairs of zeros are refused by their x.
        let number = if length % 8 == 0 && (16..=168).contains(&length) { 10 } else { 9 };
        play(&format!("load {zeros} => refused {number}"));
    }
}

#[test]
fn grounds_of_a_load() {
    // 4, 9, 10, each also where a later ground is met.
    play(
        "write 0 18 0 0; table 0f 0f 1f 10f => refused 4; table 0f 0f 1f => refused 4; table 1f 0f 0f 10f => refused 4
         load => refused 4; write 1 13 0 0 => refused 4; write 0 18 2457 0; write 1 13 1 0 => refused 5; read 1 1 => 0
         table nan 0f nan => refused 9; table 1f 0f 0f 10f => refused 10; read 1 1 => 0; table 0f 0f 1f 10f => ok
         write 1 13 1 0 => ok; read 1 1 => 2",
    );
}

#[test]
fn values_of_a_table() {
    // The x as numbers, so both zeros are equal; the y in any order.
    play(
        "table 0x80000000 0f 0x00000000 1f => refused 10; table 0f 0f 0x80000000 1f => refused 10
         table -1f 0f -0f 0f 0f 0f 1f 0f => refused 10; table 0f 0f 0f 1f => refused 10
         table 0f 0f 2f 1f 1f 2f => refused 10; table 0f 0f 2f 1f 1f 2f 3f 3f => refused 10
         table -1f 0f -2f 0f => refused 10; table -2f 0f -1f 0f => ok; table 0f 5f 1f 5f 2f 3f => ok
         table 0 0f 1 1f => ok; table -3e38f 3e38f 3e38f -3e38f => ok; table -0f -0f 1f 0f => ok; read 1 1 => 5",
    );
    for bad in ["nan", "inf", "-inf", "0x7F800001", "0xFFFFFFFF"] {
        for table in
            ["BAD 0f 1f 1f", "0f 0f BAD 1f", "0f BAD 1f 1f", "0f 0f 1f BAD", "0f 0f 1f 1f BAD 2f", "0f 0f 1f 1f 2f BAD"]
        {
            play(&format!("table {} => refused 10; read 1 1 => 0", table.replace("BAD", bad)));
        }
    }
}

#[test]
fn which_pair() {
    play_weir(
        "ain 0f 0x80; read 1 10 => 0f 0x80; ain 0.5f 0x80; read 1 10 => 5f 0x80; ain 1f 0x80; read 1 10 => 10f 0x80
         ain 2.5f 0x80; read 1 10 => 40f 0x80; ain 4f 0x80; read 1 10 => 70f 0x80; ain 5.5f 0x80; read 1 10 => 85f 0x80
         ain 7f 0x80; read 1 10 => 100f 0x80; ain 7.5f 0x80; read 1 10 => 100f 0x80; ain 3e38f 0x80; read 1 10 => 100f 0x80
         ain -0f 0x80; read 1 10 => 0f 0x80; ain -1e-45f 0x80; read 1 10 => 0f 0x80; ain -3e38f 0x80; read 1 10 => 0f 0x80",
    );
    // Below the first x its y, not 0.
    play_plain("table 2f 30f 3f 40f; write 1 13 1 0; ain 1.5f 0x80; read 1 10 => 30f 0x80; ain 2.5f 0x80; read 1 10 => 35f 0x80");
    // At the first x the formula: −0 + 0 = +0, −0 + −0 = −0. Below it the y, −0.
    play(
        "write 1 12 -0f 100f; table 0f -0f 1f 10f; write 1 13 1 0; ain 0f 0x80; read 1 10 => 0x00000000 0x80
         ain -0f 0x80; read 1 10 => 0x80000000 0x80; ain -1f 0x80; read 1 10 => 0x80000000 0x80",
    );
    // At an inner x too; at the last one the y itself.
    play(
        "write 1 12 -0f 100f; table -1f 5f 0f -0f 1f -0f; write 1 13 1 0; ain 0f 0x80; read 1 10 => 0x00000000 0x80
         ain 1f 0x80; read 1 10 => 0x80000000 0x80; ain 2f 0x80; read 1 10 => 0x80000000 0x80",
    );
}

#[test]
fn product_then_quotient_then_sum() {
    play_weir("ain 0x3FF33333 0x80; read 1 10 => 0x41E00000 0x80"); // slope first: 41DFFFFF
                                                                    // A tie of the sum: 2^24 + 1; and a product that overflows though the quotient would not.
    play_plain("table 0f 16777216f 2f 16777218f; write 1 13 1 0; ain 1f 0x80; read 1 10 => 16777216f 0x80");
    play_plain("write 1 17 2 0; table 0f 0f 1e30f 1e30f; write 1 13 1 0; ain 5e29f 0x80; read 1 10 => 0f 0x04");
    // Subnormals are kept: three quarters of 8. But the product of two of them is 0.
    play_plain("table 0 0f 4 8f; write 1 13 1 0; ain 0x00000003 0x80; read 1 10 => 6f 0x80");
    play_plain("table 0 0 3 3; write 1 13 1 0; ain 2 0x80; read 1 10 => 0 0x80; ain 3 0x80; read 1 10 => 3 0x80");
}

#[test]
fn not_finite_by_a_table() {
    // Spans that overflow: 0 × infinity at the first x, infinity after it; the ends hold.
    play_plain(
        "write 1 17 2 0; table 0f -3e38f 2f 3e38f; write 1 13 1 0; ain 0f 0x80; read 1 10 => 0f 0x04
         ain 1f 0x80; read 1 10 => 0f 0x04; ain nan 0x80; read 1 10 => 0f 0x10; ain inf 0x80; read 1 10 => 0f 0x10
         ain -inf 0x83; read 1 10 => 0f 0x10; ain 2f 0x80; read 1 10 => 3e38f 0x80; ain 1f 0x80; read 1 10 => 3e38f 0x04
         ain -1f 0x80; read 1 10 => -3e38f 0x80; ain nan 0x80; read 1 10 => -3e38f 0x10
         ain 1f 0x0D; read 1 10 => -3e38f 0x0D; ain 1f 0xC0; read 1 10 => -3e38f 0x04; ain inf 0x0D; read 1 10 => -3e38f 0x0D",
    );
    // A span of x that overflows gives the pair's y.
    play_plain("table -3e38f 5f 3e38f 6f; write 1 13 1 0; ain 0f 0x80; read 1 10 => 5f 0x80");
    // Types 0 and 1, and the filter, which keeps the old PV.
    play_plain(
        "table 0f -3e38f 2f 3e38f 3f 7f 4f 17f; write 1 13 1 0; ain 1f 0x80; read 1 10 => 0f 0x4C; ain 3f 0x80
         read 1 10 => 7f 0x80; ain 1f 0x80; read 1 10 => 7f 0x44; write 1 17 0 0; write 1 18 9f 0; ain 1f 0x80
         read 1 10 => 9f 0x48; write 1 16 0.1f 0; ain 4f 0x80; read 1 10 => 12f 0x80",
    );
}

#[test]
fn inputs_not_usable_are_linearised() {
    play_weir(
        "write 1 17 2 0; ain 0x3FF33333 0x0D; read 1 10 => 28f 0x0D; ain 0x3FF33333 0xC3; read 1 10 => 28f 0x04
         ain 9f 0; read 1 10 => 100f 0; ain nan 0x0D; read 1 10 => 100f 0x0D; ain inf 0xC0; read 1 10 => 100f 0x04",
    );
    // By the default scales too.
    play(&[WEIR, "write 1 17 2 0; ain 0x3FF33333 0x0D; read 1 10 => 28f 0x0D"].concat());
}

#[test]
fn linearised_before_scaling() {
    play(&[WEIR, "write 1 12 0f 50f; ain 4f 0x80; read 1 10 => 35f 0x80"].concat());
    play(&["write 1 11 70f 170f; write 1 12 5f 6f; ", WEIR, "ain 4f 0x80; read 1 10 => 5f 0x80"].concat());
    // TOT's rate is not, nor an operator's value.
    play_weir("tick 0 4f 0x80 4f 0x80 0 0x80; total => total 400; write 1 5 0x10 0; write 1 10 4f 0x80; ain 4f 0x80; read 1 10 => 4f 0x80");
    // Alarms go by the linearised OUT.
    play_weir("write 1 23 70f 0; ain 3.5f 0x80; read 1 7 => 0; ain 4f 0x80; read 1 7 => 2; read 1 10 => 70f 0x8A");
}

#[test]
fn lin_type() {
    play("write 1 13 1 0 => refused 5; table 0f 0f 1f 10f; read 1 13 => 0; write 1 13 1 0 => ok; read 1 13 => 1");
    // Without it a table does nothing; 0 and 1 again need no new load.
    play_plain(
        "table 0f 0f 1f 10f; ain 0.5f 0x80; read 1 10 => 0.5f 0x80; write 1 13 1 0; ain 0.5f 0x80; read 1 10 => 5f 0x80
         write 1 13 0 0; ain 0.5f 0x80; read 1 10 => 0.5f 0x80; write 1 13 1 0 => ok; ain 0.5f 0x80; read 1 10 => 5f 0x80",
    );
    // Fresh again.
    play_weir("factory; read 1 13 => 0; write 1 13 1 0 => refused 5; read 1 1 => 0");
}

#[test]
fn loads() {
    // One each in AIN's ST_REV, an equal table too; a refused one counts for nothing.
    play("table 0f 0f 1f 10f; table 0f 0f 1f 10f; read 1 1 => 2; read 2 1 => 0; read 3 1 => 0");
    play(&format!("{WEIR} read 1 1 => 2; load 1 => refused 9; table 1f 0f 1f 0f => refused 10; read 1 1 => 2"));
    play("65535 * table 0f 0f 1f 10f; read 1 1 => 65535; table 0f 0f 1f 10f; read 1 1 => 0; write 1 17 1 0; read 1 1 => 1");
    // A new table acts at the next tick, a shorter one whole; a refused one leaves the old.
    play_weir(
        "ain 4f 0x80; read 1 10 => 70f 0x80; table 0f 0f 8f 16f; read 1 10 => 70f 0x80; ain 4f 0x80; read 1 10 => 8f 0x80
         table 0f 0f 0f 1f => refused 10; load 0 => refused 9; ain 4f 0x80; read 1 10 => 8f 0x80; ain 9f 0x80
         read 1 10 => 16f 0x80; write 0 18 0 0; table 0f 1f 1f 1f => refused 4; ain 4f 0x80; read 1 10 => 8f 0x80",
    );
    // Filter, last usable value and alarms stay.
    play_weir("write 1 16 0.1f 0; ain 1f 0x80; table 0f 20f 1f 30f; ain 1f 0x80; read 1 10 => 20f 0x80");
    play_weir("ain 4f 0x80; table 0f 20f 1f 30f; ain 4f 0; read 1 10 => 70f 0x44");
    play_weir("write 1 23 70f 0; ain 4f 0x80; read 1 7 => 2; table 0f 20f 1f 30f; read 1 7 => 2; read 1 10 => 70f 0x8A; ain 4f 0x80; read 1 7 => 0");
    // In any mode.
    play_weir("write 1 5 0x80 0; table 0f 20f 1f 30f => ok; off; table 0f 0f 1f 8f => ok; write 1 5 8 0; ain 0.5f 0x80; read 1 10 => 4f 0x80");
}

#[test]
fn a_warm_start_keeps_the_table() {
    play_weir(
        "ain 4f 0x80; warm; read 1 13 => 1; read 1 1 => 4; ain 4f 0x80; read 1 10 => 70f 0x80; write 1 13 0 0; warm
         write 1 13 1 0 => ok; ain 4f 0x80; read 1 10 => 70f 0x80",
    );
    // Also one that was never used.
    play_plain("table 0f 0f 1f 10f; warm; write 1 13 1 0 => ok; ain 0.5f 0x80; read 1 10 => 5f 0x80");
}

// TOT

#[test]
fn increments() {
    play("tot 2e7f 0x80; total => total 1000000000; tot -2e7f 0x80; total => total 0");
    play("tot 0x3E947AE1 0x80; total => total 29"); // exactly 28.999…
    play("write 2 13 2 0; write 2 16 0x3E947AE1 0; tot 0f 0x80; total => total 290; read 2 10 => 0.29f 0x80");
    play("tot 3.4e38f 0x80; total => total 1000000000; tot -3.4e38f 0x80; total => total 0");
    play("tot inf 0x80; total => total 0; read 2 10 => 0f 0x10");
    play("tot 1f 0xC3; total => total 100; read 2 10 => 0.1f 0x04; tot 1f 0x0D; total => total 200; read 2 10 => 0.2f 0x0D");
    play("tot nan 0x0D; read 2 10 => 0f 0x0D; tot nan 0xC0; read 2 10 => 0f 0x04; total => total 0");
}

#[test]
fn fail_tot() {
    play("tot 1f 0x80; tot nan 0x80; read 2 10 => 0.1f 0x10");
    play("write 2 15 1 0; tot 1f 0x80; tot 1f 0; read 2 10 => 0.1f 0x40; tot nan 0x80; read 2 10 => 0.1f 0x40");
    play("write 2 15 2 0; tot 1f 0; read 2 10 => 0f 0x4C; tot 1f 0x40; tot 7f 0; read 2 10 => 0.2f 0x44; warm; tot 7f 0; read 2 10 => 0.2f 0x4C");
    // MODE_TOT now, not then.
    play(
        "write 2 15 2 0; write 2 14 1 0; tot -2f 0x80; total => total 0; write 2 14 0 0; tot 0f 0; total => total -200",
    );
    // The rate of a reset tick is remembered, that of a Man tick is not.
    play(
        "write 2 15 2 0; write 2 13 1 0; tot 1f 0x80; write 2 13 0 0; write 2 5 0x10 0; tot 9f 0x80; write 2 5 8 0
         tot 0f 0; total => total 100",
    );
}

#[test]
fn reset_and_preset() {
    for fail_tot in [0, 1, 2] {
        play(&format!(
            "write 2 15 {fail_tot} 0; tot 9f 0x80; write 2 14 3 0; write 2 16 5f 0; write 2 13 2 0
             tot 1f 0x83; read 2 10 => 5f 0x83; tot 1f 0x0D; read 2 10 => 5f 0x0D; tot nan 0x80; read 2 10 => 5f 0x10
             write 2 13 1 0; tot 1f 0xC0; read 2 10 => 0f 0x04"
        ));
    }
    // Not in Man or O/S.
    play("tot 1f 0x80; write 2 13 1 0; off; total => total 100; write 2 5 0x10 0; tot 1f 0x80; total => total 100");
}

#[test]
fn mode_tot() {
    play("write 2 14 3 0; tot 1f 0x83; read 2 10 => 0f 0x83");
    play("write 2 14 1 0; tot 1f 0x80; tot -1f 0x80; total => total 100; write 2 14 2 0; tot 5f 0x80; tot -3f 0x80; total => total -200");
    play("tot 1f 0; tot 1f 0x80; read 2 10 => 0.2f 0x80"); // no trace of the Bad tick
}

#[test]
fn value_given() {
    // 16,777,219 = 16,000,000 + 777,212 + 7, then 32 more.
    play(
        "write 2 5 0x10 0; write 2 10 16000f 0x80; write 2 5 8 0; tot 7772.125f 0x80; tot 0.078125f 0x80
         total => total 16777219; read 2 10 => 0x46831270 0x80 // nearest: 46831271
         tot 0.328125f 0x80; total => total 16777251; read 2 10 => 0x46831280 0x80 // all bits divided: 46831281",
    );
    play(
        "write 2 5 0x10 0; write 2 10 -16000f 0x80; write 2 5 8 0; tot -7772.125f 0x80; tot -0.078125f 0x80
         total => total -16777219; read 2 10 => 0xC6831270 0x80",
    );
    play(
        "write 2 13 2 0; write 2 16 1e9f 0; tot 0f 0x80; total => total 999999995904; read 2 10 => 0x4E6E6B28 0x80
          write 2 13 0 0; tot 1e7f 0x80; total => total 1000000000000; read 2 10 => 0x4E6E6B28 0x80",
    );
    play("write 2 13 2 0; write 2 16 -1e9f 0; tot 0f 0x80; write 2 13 0 0; 2 * tot -1e7f 0x80; total => total -1000000000000");
    play("write 2 5 0x10 0; write 2 10 -0.0019f 0x80; tot 0f 0x80; total => total -1; read 2 10 => 0xBA83126F 0x80");
}

// AO

#[test]
fn usable_telegrams() {
    play("sp 50f 0x4C; ain 0f 0x80; read 3 37 => 0f 0x4C");
    play("sp 50f 0xC0; ain 0f 0x80; read 3 37 => 50f 0x80");
    play("write 3 5 2 0; rcas 50f 0x80; ain 0f 0x80; read 3 37 => 50f 0x80");
    for status in ["0x84", "0xFC", "0x81", "0xA8", "0x9F"] {
        play(&format!("sp 50f {status}; ain 0f 0x80; read 3 37 => 50f 0x80"));
    }
    // IFS whatever the value; a good byte with a NaN ends nothing.
    for status in ["0xA0", "0xA3", "0xE0", "0xE3"] {
        play(&format!(
            "write 3 23 9 0; sp 50f 0x80; sp nan {status}; ain 0f 0x80; read 3 37 => 50f 0x44
             sp nan 0x80; sp inf 0xC0; sp 1f 0x4C; ain 0f 0x80; read 3 37 => 50f 0x44
             sp 25f 0x80; ain 0f 0x80; read 3 37 => 25f 0x80"
        ));
    }
    play("sp 50f 0xA0; ain 0f 0x80; read 3 37 => 0f 0x4C"); // no usable one
    play("sp 50f 0x80; sp 25f 0x80; sp 10f 0x40; ain 0f 0x80 => position 25f"); // no queue
    play("write 3 5 2 0; write 3 23 9 0; sp 50f 0x80; ain 0f 0x80 => position 0f; read 3 37 => 0f 0x4C");
    // SP does not stand in
}

#[test]
fn silence() {
    play("sp 50f 0x80; ain 0f 0x80; read 3 37 => 50f 0x80; ain 0f 0x80; read 3 37 => 50f 0x44");
    // In any mode, and for both inputs; an unusable telegram does not restart n.
    play("write 3 23 2 0; sp 50f 0x80; off; write 3 5 0x10 0; ain 0f 0x80; sp 1f 0x40; write 3 5 8 0; ain 0f 0x80; read 3 37 => 50f 0x80
          sp nan 0x80; ain 0f 0x80; read 3 37 => 50f 0x44");
    play(
        "write 3 23 2 0; rcas 50f 0x80; 2 * ain 0f 0x80; sp 25f 0x80; write 3 5 2 0; ain 0f 0x80; read 3 37 => 50f 0x80
          ain 0f 0x80; read 3 37 => 50f 0x44; write 3 5 8 0; ain 0f 0x80; read 3 37 => 25f 0x80",
    );
    // n past 16 bits.
    play("write 3 23 65535 0; sp 50f 0x80; 65536 * ain 0f 0x80; read 3 37 => 50f 0x80; ain 0f 0x80; read 3 37 => 50f 0x44; 65536 * ain 0f 0x80; read 3 37 => 50f 0x44");
    // Not latched.
    play("sp 50f 0x80; 3 * ain 0f 0x80; read 3 37 => 50f 0x44; write 3 23 3 0; ain 0f 0x80; read 3 37 => 50f 0x80; ain 0f 0x80; read 3 37 => 50f 0x44");
}

#[test]
fn fail_safe_of_ao() {
    // The last usable setpoint is scaled by the scale of now; the cases without a value keep OUT.
    play("sp 50f 0x80; ain 0f 0x80; write 3 38 0f 200f; ain 0f 0x80 => position 100f; read 3 37 => 100f 0x44");
    play("sp 50f 0x80; ain 0f 0x80; write 3 38 0f 200f; write 3 24 2 0; ain 0f 0x80 => safe; read 3 37 => 50f 0; off => rest");
    play("write 3 24 0 0; write 3 25 50f 0; write 3 38 0f 200f; ain 0f 0x80 => position 100f; read 3 37 => 100f 0x48; write 3 36 1 0; write 3 25 25f 0; ain 0f 0x80 => position 150f");
    play("write 3 5 0x10 0; write 3 37 33f 0x80; ain 0f 0x80 => position 33f; write 3 5 8 0; write 3 24 2 0; ain 0f 0x80 => safe; read 3 37 => 33f 0");
    // Scaling fails: old OUT, 0x04, following or not.
    play(
        "sp 50f 0x80; ain 0f 0x80; write 3 38 -3e38f 3e38f; write 3 23 9 0; sp 25f 0x80; ain 0f 0x80 => position 50f
         read 3 37 => 50f 0x04; sp 25f 0xA0; ain 0f 0x80 => position 50f; read 3 37 => 50f 0x04; write 3 24 0 0
         ain 0f 0x80 => position 50f; read 3 37 => 50f 0x04; write 3 24 2 0; ain 0f 0x80 => safe; read 3 37 => 50f 0",
    );
}

#[test]
fn scaling_of_ao() {
    play("write 3 36 1 0; sp 0x3F333333 0x80; ain 0f 0x80 => position 0x42C69999"); // (high − w): 42C6999A
    play("write 3 11 4f 20f; write 3 38 3f 15f; sp 15f 0x80; ain 0f 0x80 => position 11.25f");
    play("write 3 36 1 0; write 3 5 0x10 0; write 3 37 33f 0x80; ain 0f 0x80 => position 33f");
    // never in Man
}

// DI

#[test]
fn contact() {
    // Usable: the value with the input's status; INVERT acts with the next tick.
    play(
        "di 1 0x80; read 4 10 => 1 0x80; read 4 6 => 8; di 0 0x43; read 4 10 => 0 0x43; di 1 0xBF; read 4 10 => 1 0xBF
         di 1 0x40; read 4 10 => 1 0x40; write 4 15 1 0; read 4 10 => 1 0x40; di 1 0x80; read 4 10 => 0 0x80
         di 0 0x81; read 4 10 => 1 0x81; write 4 15 0 0; di 0 0x81; read 4 10 => 0 0x81",
    );
    // By its own pair.
    play("write 4 20 2 0; tick 0 50f 0x41 1f 0x42 1 0x83; read 1 10 => 50f 0x41; read 2 10 => 0.1f 0x42; read 4 10 => 1 0x83");
    play("write 4 20 2 0; tick 0 nan 0 nan 0 1 0x80; read 4 10 => 1 0x80; tick 0 50f 0x80 1f 0x80 7 0x80; read 1 10 => 50f 0x80; read 4 10 => 1 0x04");
}

/// Type 2 shows the Bad status: a quality 0 as it is, else 0x04, whatever the value.
#[test]
fn input_status_of_di() {
    play(
        "write 4 20 2 0; di 1 0x80; di 7 0x80; read 4 10 => 1 0x04; di 7 0x0D; read 4 10 => 1 0x0D; di 0 0xC3
         read 4 10 => 0 0x04; di 1 0x1C; read 4 10 => 1 0x1C; di 2 0xC0; read 4 10 => 1 0x04; di 255 0x40; read 4 10 => 1 0x04",
    );
    for status in 0..=255 {
        let bad = if status < 0x40 { status } else { 0x04 };
        for value in [2, 3, 128, 254, 255] {
            play(&format!("write 4 20 2 0; di 1 0x80; di {value} {status}; read 4 10 => 1 {bad}"));
        }
        let (one, usable) = (if (0x40..0xC0).contains(&status) { status } else { bad }, (0x40..0xC0).contains(&status));
        let after = if usable { "1 0x44" } else { "0 0x4C" };
        play(&format!(
            "write 4 20 2 0; di 1 {status}; read 4 10 => 1 {one}; write 4 20 1 0; di 0 0; read 4 10 => {after}"
        ));
    }
}

#[test]
fn fail_safe_of_di() {
    // Type 0, the default: FSAFE_VAL_D, which INVERT leaves.
    play(
        "di 1 0x80; di 1 0; read 4 10 => 0 0x48; write 4 21 1 0; di 0 0; read 4 10 => 1 0x48; write 4 15 1 0; di 0 0
         read 4 10 => 1 0x48; di 9 0x80; read 4 10 => 1 0x48; di 1 0xC0; read 4 10 => 1 0x48",
    );
    // Type 1: the last usable OUT_D as it was given, of quality 1 too; without one 0, whatever INVERT says.
    play(
        "write 4 20 1 0; write 4 15 1 0; di 1 0; read 4 10 => 0 0x4C; write 4 15 0 0; di 1 0; read 4 10 => 0 0x4C
         di 1 0x40; read 4 10 => 1 0x40; di 0 0; read 4 10 => 1 0x44; write 4 15 1 0; di 0 0; read 4 10 => 1 0x44
         di 1 0x80; read 4 10 => 0 0x80; write 4 15 0 0; di 1 0; read 4 10 => 0 0x44; di 2 0x80; read 4 10 => 0 0x44",
    );
    // Not the old OUT_D: an operator's value is none, nor is one of type 2.
    play("write 4 5 0x10 0; write 4 10 1 0x80; di 0 0x80; read 4 10 => 1 0x80; write 4 5 8 0; write 4 20 1 0; di 1 0; read 4 10 => 0 0x4C");
    play("write 4 20 2 0; di 1 0; read 4 10 => 1 0; write 4 20 1 0; di 1 0; read 4 10 => 0 0x4C");
    // Kept through Man, O/S and a value over 1; a warm start forgets it.
    play(
        "write 4 20 1 0; di 1 0x80; write 4 5 0x10 0; write 4 10 0 0x80; di 0 0x80; off; write 4 5 8 0; di 7 0x80
         read 4 10 => 1 0x44; warm; read 4 10 => 1 0x1F; di 1 0; read 4 10 => 0 0x4C",
    );
    // Type 2: the value inverted, or where it is none the old OUT_D, which is not.
    play(
        "write 4 20 2 0; write 4 15 1 0; di 5 0x0D; read 4 10 => 0 0x0D; di 1 0x0D; read 4 10 => 0 0x0D; di 0 0x0D
         read 4 10 => 1 0x0D; di 5 0x0D; read 4 10 => 1 0x0D; di 2 0x80; read 4 10 => 1 0x04; di 3 0x80; read 4 10 => 1 0x04",
    );
}

#[test]
fn modes_of_di() {
    play(
        "di 1 0x80; off; read 4 10 => 1 0x1F; read 4 6 => 0x80; read 4 5 => 8; write 4 5 0x80 0; di 0 0x80
         read 4 10 => 1 0x1F; write 4 5 8 0; di 0 0x80; read 4 10 => 0 0x80; write 4 5 2 0 => refused 5",
    );
    // INVERT has no part in Man.
    play("write 4 15 1 0; write 4 5 0x10 0; write 4 10 0 0xC3; di 0 0x80; read 4 10 => 0 0xC3; write 4 10 1 0; read 4 10 => 0 0xC3; di 0 0x80; read 4 10 => 1 0");
    play("di 1 0x80; warm; read 4 10 => 1 0x1F; read 4 6 => 0x80; write 4 15 1 0; warm; read 4 15 => 1; read 4 1 => 1; read 4 10 => 1 0x1F");
}

// DO

#[test]
fn fresh_do() {
    play("di 0 0x80 => position 0; read 5 10 => 0 0x48; read 5 6 => 8");
    play("write 5 15 1 0; di 0 0x80 => position 1; read 5 10 => 1 0x48");
    play("write 5 5 2 0; di 0 0x80 => position 0; read 5 6 => 2; read 5 10 => 0 0x48");
}

#[test]
fn usable_telegrams_of_do() {
    play("sp_d 1 0x80; di 0 0x80 => position 1; read 5 10 => 1 0x80");
    play("sp_d 1 0xC7; di 0 0x80 => position 1; read 5 10 => 1 0x80");
    play("write 5 5 2 0; rcas_d 1 0x80; di 0 0x80 => position 1; read 5 10 => 1 0x80");
    for status in ["0x84", "0xFC", "0x81", "0xA8", "0x9F"] {
        play(&format!("sp_d 1 {status}; di 0 0x80 => position 1; read 5 10 => 1 0x80"));
    }
    // Another quality, or another value, counts for nothing.
    for telegram in ["1 0x4C", "1 0", "1 0x7F", "5 0x80", "2 0x80", "255 0xC0", "3 0x40"] {
        play(&format!("sp_d {telegram}; di 0 0x80 => position 0; read 5 10 => 0 0x48"));
        play(&format!("write 5 22 9 0; sp_d 1 0x80; sp_d {telegram}; di 0 0x80 => position 1; read 5 10 => 1 0x80"));
    }
    // IFS, whatever the value; a good byte with another value ends nothing.
    for ifs in ["1 0xA0", "0 0xA3", "5 0xA0", "5 0xE3", "2 0xE0"] {
        play(&format!(
            "write 5 22 9 0; write 5 20 1 0; sp_d 1 0x80; sp_d {ifs}; di 0 0x80 => position 1; read 5 10 => 1 0x44
             sp_d 5 0x80; sp_d 2 0xC0; sp_d 0 0x4C; di 0 0x80 => position 1; read 5 10 => 1 0x44
             sp_d 0 0x80; di 0 0x80 => position 0; read 5 10 => 0 0x80"
        ));
        play(&format!("sp_d {ifs}; di 0 0x80 => position 0; read 5 10 => 0 0x48"));
    }
    // No queue.
    play("sp_d 1 0x80; sp_d 0 0x80; sp_d 1 0x40; di 0 0x80 => position 0; read 5 10 => 0 0x80");
    // Each input for itself.
    play(
        "write 5 22 9 0; write 5 20 1 0; sp_d 1 0x80; rcas_d 0 0xA0; di 0 0x80 => position 1; read 5 10 => 1 0x80
         write 5 5 2 0; di 0 0x80 => position 1; read 5 10 => 1 0x4C; rcas_d 0 0x80; sp_d 1 0xA0; di 0 0x80 => position 0
         read 5 10 => 0 0x80; write 5 5 8 0; di 0 0x80 => position 1; read 5 10 => 1 0x44",
    );
    // AO's inputs are others.
    play("sp_d 1 0x80; rcas_d 1 0x80; ain 0f 0x80 => position 0f; read 3 37 => 0f 0x4C");
    play("sp 50f 0x80; rcas 50f 0x80; tick 0 0f 0x80 0f 0x80 0 0x80 => position 50f position 0; read 5 10 => 0 0x48");
}

#[test]
fn silence_of_do() {
    // As point H.
    play(
        "write 5 20 1 0; write 5 22 2 0; sp_d 1 0x80; 3 * di 0 0x80 => position 1; read 5 10 => 1 0x80
         di 0 0x80 => position 1; read 5 10 => 1 0x44",
    );
    play("write 5 20 1 0; sp_d 1 0x80; di 0 0x80; read 5 10 => 1 0x80; di 0 0x80; read 5 10 => 1 0x44");
    // In any mode; what counts for nothing does not restart n, nor does AO's telegram or one on the other input.
    play(
        "write 5 22 2 0; sp_d 1 0x80; off; write 5 5 0x10 0; di 0 0x80; sp_d 0 0x40; write 5 5 8 0; di 0 0x80 => position 1
         read 5 10 => 1 0x80; sp_d 2 0x80; sp 50f 0x80; rcas_d 1 0x80; di 0 0x80 => position 0; read 5 10 => 0 0x48",
    );
    play(
        "write 5 20 1 0; write 5 22 2 0; rcas_d 1 0x80; 2 * di 0 0x80; sp_d 0 0x80; write 5 5 2 0; di 0 0x80 => position 1
         read 5 10 => 1 0x80; di 0 0x80 => position 1; read 5 10 => 1 0x44; write 5 5 8 0; di 0 0x80 => position 0
         read 5 10 => 0 0x80",
    );
    play("write 3 23 2 0; sp 50f 0x80; 2 * ain 0f 0x80; sp_d 1 0x80; ain 0f 0x80; read 3 37 => 50f 0x80; sp_d 1 0x80; ain 0f 0x80; read 3 37 => 50f 0x44");
    // By its own FSAFE_TIME.
    play("write 3 23 9 0; write 5 20 1 0; sp_d 1 0x80; 2 * di 0 0x80; read 5 10 => 1 0x44");
    // n past 16 bits.
    play("write 5 20 1 0; write 5 22 65535 0; sp_d 1 0x80; 65536 * di 0 0x80; read 5 10 => 1 0x80; di 0 0x80; read 5 10 => 1 0x44; 65536 * di 0 0x80; read 5 10 => 1 0x44");
    // Not latched.
    play("write 5 20 1 0; sp_d 1 0x80; 3 * di 0 0x80; read 5 10 => 1 0x44; write 5 22 3 0; di 0 0x80; read 5 10 => 1 0x80; di 0 0x80; read 5 10 => 1 0x44");
}

#[test]
fn fail_safe_of_do() {
    // Every w is inverted, by the INVERT of now: a telegram followed, FSAFE_VAL_D, the last usable one.
    play(
        "write 5 22 9 0; write 5 15 1 0; sp_d 1 0x80; di 0 0x80 => position 0; read 5 10 => 0 0x80; write 5 15 0 0
         read 5 10 => 0 0x80; di 0 0x80 => position 1; read 5 10 => 1 0x80; sp_d 0 0x80; write 5 15 1 0
         di 0 0x80 => position 1; read 5 10 => 1 0x80",
    );
    play(
        "write 5 21 1 0; di 0 0x80 => position 1; read 5 10 => 1 0x48; write 5 15 1 0; di 0 0x80 => position 0
         read 5 10 => 0 0x48; write 5 21 0 0; di 0 0x80 => position 1; read 5 10 => 1 0x48",
    );
    play(
        "write 5 20 1 0; sp_d 1 0x80; di 0 0x80 => position 1; write 5 15 1 0; di 0 0x80 => position 0; read 5 10 => 0 0x44
         write 5 15 0 0; di 0 0x80 => position 1; read 5 10 => 1 0x44",
    );
    // Type 1 without one: the old OUT_D, not inverted, be it an operator's.
    play("write 5 20 1 0; di 0 0x80 => position 0; read 5 10 => 0 0x4C; write 5 15 1 0; di 0 0x80 => position 0; read 5 10 => 0 0x4C");
    play(
        "write 5 5 0x10 0; write 5 10 1 0x80; di 0 0x80 => position 1; write 5 5 8 0; write 5 20 1 0; write 5 15 1 0
         di 0 0x80 => position 1; read 5 10 => 1 0x4C; di 0 0x80 => position 1; warm; di 0 0x80 => position 1; read 5 10 => 1 0x4C",
    );
    // Type 2: Safe, whether there is one or not; INVERT leaves the old OUT_D.
    play(
        "sp_d 1 0x80; di 0 0x80 => position 1; write 5 20 2 0; di 0 0x80 => safe; read 5 10 => 1 0; write 5 15 1 0
         di 0 0x80 => safe; read 5 10 => 1 0; tick 1 0 0x80 0 0x80 0 0x80 => rest rest; read 5 10 => 1 0x1F
         sp_d 1 0x80; di 0 0x80 => position 0; read 5 10 => 0 0x80; warm; di 0 0x80 => safe; read 5 10 => 0 0",
    );
    // Both orders of a tick, each by its own block.
    play("write 3 24 2 0; tick 0 0 0x80 0 0x80 0 0x80 => safe position 0; write 5 20 2 0; tick 0 0 0x80 0 0x80 0 0x80 => safe safe");
    play("write 3 5 0x80 0; write 5 20 2 0; tick 0 0 0x80 0 0x80 0 0x80 => rest safe; write 5 5 0x80 0; tick 0 0 0x80 0 0x80 0 0x80 => rest rest");
}

#[test]
fn modes_of_do() {
    // INVERT has no part in Man.
    play("write 5 15 1 0; write 5 5 0x10 0; write 5 10 0 0xC3; di 0 0x80 => position 0; read 5 10 => 0 0xC3; read 5 6 => 0x10");
    play(
        "write 5 22 9 0; sp_d 1 0x80; di 0 0x80; write 5 5 0x80 0; sp_d 0 0x80; tick 0 0 0x80 0 0x80 0 0x80 => position 0f rest
         read 5 10 => 1 0x1F; read 5 6 => 0x80; write 5 5 8 0; di 0 0x80 => position 0; read 5 10 => 0 0x80",
    );
    // A warm start keeps OUT_D and the settings, and forgets the telegrams.
    play(
        "write 5 22 9 0; write 5 20 1 0; sp_d 1 0x80; rcas_d 0 0x80; di 0 0x80 => position 1; warm; read 5 10 => 1 0x1F
         read 5 6 => 0x80; read 5 22 => 9; read 5 1 => 2; di 0 0x80 => position 1; read 5 10 => 1 0x4C; write 5 5 2 0
         di 0 0x80 => position 1; read 5 10 => 1 0x4C",
    );
    // A telegram is no write.
    play("write 0 18 0 0; sp_d 1 0x80 => ok; rcas_d 9 0 => ok; di 0 0x80 => position 1; read 5 1 => 0");
}

// DI and DO

/// The pair last given stands, as in AIN and AO.
#[test]
fn di_and_do_entering_man() {
    play("di 1 0x80; write 4 5 0x10 0; read 4 10 => 1 0x80; read 4 6 => 8; di 0 0x40; read 4 10 => 1 0x80; read 4 6 => 0x10");
    play("write 4 15 1 0; di 0 0x83; write 4 5 0x10 0; di 0 0x80; read 4 10 => 1 0x83; write 4 15 0 0; di 0 0x80; read 4 10 => 1 0x83");
    play("write 4 21 1 0; di 0 0; write 4 5 0x10 0; di 0 0x80; read 4 10 => 1 0x48; di 7 0x80; read 4 10 => 1 0x48");
    play("sp_d 1 0xC7; di 0 0x80; write 5 5 0x10 0; di 0 0x80 => position 1; read 5 10 => 1 0x80; di 0 0x80 => position 1");
    play("write 5 15 1 0; sp_d 0 0x80; di 0 0x80; write 5 5 0x10 0; di 0 0x80 => position 1; write 5 15 0 0; di 0 0x80 => position 1; read 5 10 => 1 0x80");
    play("rcas_d 1 0x80; write 5 5 2 0; di 0 0x80; write 5 5 0x10 0; di 0 0x80 => position 1; read 5 10 => 1 0x80");
    // Under 0x1F: after a fault, by the target, fresh, after a warm start.
    play(
        "sp_d 1 0x80; di 1 0x80; off; write 4 5 0x10 0; write 5 5 0x10 0; di 0 0x80 => position 1; read 4 10 => 1 0x1F
         read 5 10 => 1 0x1F",
    );
    play(
        "sp_d 1 0x80; di 1 0x80; write 4 5 0x80 0; write 5 5 0x80 0; di 0 0x80 => rest; write 4 5 0x10 0; write 5 5 0x10 0
         di 0 0x80 => position 1; read 4 10 => 1 0x1F; read 5 10 => 1 0x1F",
    );
    play("write 4 5 0x10 0; write 5 5 0x10 0; di 1 0x80 => position 0; read 4 10 => 0 0x1F; read 5 10 => 0 0x1F");
    play("sp_d 1 0x80; di 1 0x80; warm; write 4 5 0x10 0; write 5 5 0x10 0; di 0 0x80 => position 1; read 4 10 => 1 0x1F; read 5 10 => 1 0x1F");
    // The fresh pair after a warm start where the target is Man.
    play("sp_d 1 0x80; di 1 0x80; write 4 5 0x10 0; write 5 5 0x10 0; warm; di 1 0x80 => position 0; read 4 10 => 0 0x4C; read 5 10 => 0 0x4C");
    // Man over Man leaves the pair and counts.
    play(
        "di 1 0x80; write 4 5 0x10 0; write 4 10 0 0x81; write 4 5 0x10 0; di 1 0x80; read 4 10 => 0 0x81; off
         write 4 5 0x10 0; di 1 0x80; read 4 10 => 0 0x81; read 4 1 => 3",
    );
    play(
        "sp_d 1 0x80; di 0 0x80; write 5 5 0x10 0; write 5 10 0 0x81; write 5 5 0x10 0; di 0 0x80 => position 0
         read 5 10 => 0 0x81; off; write 5 5 0x10 0; di 0 0x80 => position 0; read 5 10 => 0 0x81; read 5 1 => 3",
    );
    // Left and entered again without a tick: what was written was never given.
    play("di 1 0x80; write 4 5 0x10 0; write 4 10 0 0x81; write 4 5 8 0; write 4 5 0x10 0; di 0 0x80; read 4 10 => 1 0x80");
    play("sp_d 1 0x80; di 0 0x80; write 5 5 0x10 0; write 5 10 0 0x81; write 5 5 2 0; write 5 5 0x10 0; di 0 0x80 => position 1; read 5 10 => 1 0x80");
    // Refused, it takes none.
    play(
        "sp_d 1 0x80; di 1 0x80; write 4 5 0x10 0; write 4 10 0 0x81; write 5 5 0x10 0; write 5 10 0 0x82; write 0 18 0 0
         write 4 5 8 0 => refused 4; write 5 5 0x10 0 => refused 4; write 0 18 2457 0; write 4 5 0x10 1 => refused 5
         write 5 5 0x20 0 => refused 5; di 1 0x80 => position 0; read 4 10 => 0 0x81; read 5 10 => 0 0x82",
    );
    // From Safe the drive goes to the value that OUT_D kept.
    play(
        "sp_d 1 0x80; di 0 0x80; write 5 20 2 0; di 0 0x80 => safe; write 5 5 0x10 0; di 0 0x80 => position 1
         read 5 10 => 1 0; di 0 0x80 => position 1",
    );
    // Each block for itself.
    play(
        "write 5 22 9 0; sp_d 1 0x80; di 1 0x80; write 4 5 0x10 0; sp_d 0 0x80; di 0 0x80 => position 0; read 4 10 => 1 0x80
         write 4 5 8 0; write 5 5 0x10 0; sp_d 1 0x80; di 0 0x81 => position 0; read 4 10 => 0 0x81; read 5 10 => 0 0x80",
    );
}

#[test]
fn words_of_di_and_do() {
    for block in [4, 5] {
        for parameter in [15, 21] {
            play(&format!(
                "write {block} {parameter} 1 0 => ok; read {block} {parameter} => 1; write {block} {parameter} 2 0 => refused 5
                 write {block} {parameter} 0 1 => refused 5; write {block} {parameter} 256 0 => refused 5
                 write {block} {parameter} 0 0 => ok; read {block} {parameter} => 0; read {block} 1 => 2"
            ));
        }
        play(&format!(
            "write {block} 20 2 0 => ok; read {block} 20 => 2; write {block} 20 1 0 => ok; write {block} 20 3 0 => refused 5
             write {block} 20 1 1 => refused 5; write {block} 20 258 0 => refused 5; read {block} 20 => 1; read {block} 1 => 2"
        ));
        // OUT_D: 5 before 6, and it is not counted.
        play(&format!(
            "write {block} 10 2 0 => refused 5; write {block} 10 0 256 => refused 5; write {block} 10 1 0x80 => refused 6
             write {block} 5 0x10 0; write {block} 10 2 0 => refused 5; write {block} 10 256 0 => refused 5
             write {block} 10 1f 0x80 => refused 5; write {block} 10 0 256 => refused 5; write {block} 10 1 255 => ok
             read {block} 10 => 0 0x1F; di 0 0x80; read {block} 10 => 1 255; read {block} 1 => 1
             write {block} 5 8 0; read {block} 6 => 0x10; write {block} 10 0 0x80 => refused 6"
        ));
        // 1 to 4.
        play(&format!(
            "write {block} 1 0 0 => refused 3; write {block} 6 8 0 => refused 3; write {block} 7 0 0 => refused 2
             write {block} 18 0 0 => refused 2; write {block} 19 0 0 => refused 2; read {block} 7 => refused 2
             read {block} 18 => refused 2; read {block} 19 => refused 2; write 0 18 0 0; write {block} 1 0 0 => refused 3
             write {block} 7 0 0 => refused 2; write {block} 15 1 0 => refused 4; write {block} 15 9 9 => refused 4
             write {block} 10 2 0 => refused 4; write {block} 5 0x10 0 => refused 4; read {block} 1 => 0"
        ));
        play(&format!("65535 * write {block} 15 1 0; read {block} 1 => 65535; write {block} 15 1 0; read {block} 1 => 0; read {} 1 => 0", 9 - block));
    }
    play(
        "read 4 22 => refused 2; write 4 22 0 0 => refused 2; write 5 22 65535 0 => ok; read 5 22 => 65535
         write 5 22 65536 0 => refused 5; write 5 22 0 1 => refused 5; read 5 1 => 1",
    );
    play(
        "write 4 5 2 0 => refused 5; write 5 5 2 0 => ok; write 4 5 0x88 0 => refused 5; write 5 5 8 1 => refused 5
         read 6 1 => refused 1; write 6 5 8 0 => refused 1; read 255 10 => refused 1; write 0 18 0 0; write 6 5 8 0 => refused 1",
    );
}

#[test]
fn lengths_of_telegrams() {
    play(
        "telegram 2 => refused 7; telegram 2 1 => refused 7; telegram 2 1 128 0 => refused 7; telegram 3 1 2 3 4 5 => refused 7
         telegram 2 0 0 0 0 128 => refused 7; telegram 0 1 128 => refused 7; telegram 1 1 128 => refused 7
         telegram 4 1 128 => refused 8; telegram 4 => refused 8; telegram 4 1 2 3 4 5 => refused 8
         telegram 255 1 128 => refused 8; di 0 0x80 => position 0; read 5 10 => 0 0x48
         telegram 2 1 128 => ok; telegram 3 0 0 => ok; di 0 0x80 => position 1",
    );
}

// Bus image and refusals

#[test]
fn image_and_part() {
    play(
        "image 18 => refused 7; image 15 => refused 7; image 0 => refused 7; write 1 5 0x10 0; write 1 10 7f 0x80
         write 5 5 0x10 0; write 5 10 1 0x84; tick 0 0f 0x80 1f 0x80 1 0x81 => position 0f position 1
         write 1 10 8f 0x80; write 5 10 0 0x85
         image 20 => bytes 40 E0 00 00 80 3D CC CC CD 80 00 00 00 00 4C 01 81 01 84 A5
         warm; image 19 => bytes 40 E0 00 00 1F 3D CC CC CD 1F 00 00 00 00 1F 01 1F 01 1F
         part 1 19 => bytes 00 01 02 03 04; part 2 19 => bytes 05 06 07 08 09; part 3 19 => bytes 0A 0B 0C 0D 0E
         part 4 19 => bytes 0F 10; part 5 19 => bytes 11 12; part 3 64 => bytes 0A 0B 0C 0D 0E; part 4 64 => bytes 0F 10
         part 5 64 => bytes 11 12; part 0 19 => bytes; part 6 64 => bytes; part 255 64 => bytes",
    );
    // The empty part counts from 19 for every block.
    for block in 0..=6 {
        for length in [0, 5, 14, 15, 17, 18] {
            play(&format!("part {block} {length} => bytes"));
        }
    }
}

#[test]
fn refusals() {
    play(
        "read 6 1 => refused 1; read 2 7 => refused 2; write 1 1 0 0 => refused 3; write 1 5 0x02 0 => refused 5
          write 1 10 0 0 => refused 6; telegram 0 1 2 3 4 => refused 7; telegram 4 1 2 3 4 5 => refused 8",
    );
    // The order of the grounds.
    play(
        "write 0 18 0 0; write 1 5 8 0 => refused 4; write 1 1 0 0 => refused 3; write 1 5 2 0 => refused 4
         write 1 8 0 0 => refused 2; write 9 18 0 0 => refused 1; write 1 18 0 0 => refused 4; write 0 5 0 0 => refused 2
         write 0 18 1 0 => refused 5; write 0 18 0 0 => ok; write 0 18 2457 0 => ok; write 1 5 8 0 => ok",
    );
    play("write 1 10 nan 0 => refused 5; write 1 10 0f 256 => refused 5; write 2 10 2e9f 0 => refused 5; write 3 37 inf 0 => refused 5");
    play("telegram 4 1 2 3 4 => refused 8; telegram 0 1 2 3 4 5 6 => refused 7; telegram 1 => refused 7; telegram 255 => refused 8");
    play(
        "load 1 2 3 => refused 9; table 1f 0f 0f 0f => refused 10; write 1 13 1 0 => refused 5; write 0 18 0 0
         table 1f 0f 0f 0f => refused 4; load => refused 4; write 1 13 1 0 => refused 4; write 1 13 9 9 => refused 4
         write 2 13 0 0 => refused 4; write 3 13 0 0 => refused 2; write 0 13 0 0 => refused 2",
    );
    // 6 goes by the target.
    play("write 1 5 0x10 0; read 1 6 => 0x80; write 1 10 1f 0 => ok; ain 0f 0x80; write 1 5 8 0; read 1 6 => 0x10; write 1 10 1f 0 => refused 6");
}

// The call script

#[test]
fn script_lines() {
    let replayed = |script: &[u8]| {
        let mut out = Vec::new();
        replay(&mut Model::factory(), script, &mut out).unwrap();
        String::from_utf8(out).unwrap()
    };
    assert_eq!(replayed(b""), "");
    assert_eq!(replayed(b"\n  \n# tick\n#\n"), "");
    assert_eq!(
        replayed(b"  read   1  0x0005 \nread 1 5"),
        "words 0x00000008 0x00000000\nwords 0x00000008 0x00000000\n"
    );
    assert_eq!(
        replayed(b"read 0x000000000000000001 00000000000000000005\nread 1 0xa\n"),
        "words 0x00000008 0x00000000\nwords 0x00000000 0x0000001F\n"
    );
    for line in [
        " # x",
        "reads 1 5",
        "READ 1 5",
        "read",
        "read 1",
        "read 1 5 5",
        "read 256 5",
        "read 257 5",
        "read 1 -5",
        "read 1 +5",
        "read 1 0x",
        "read 1 0X5",
        "read 1 5h",
        "read 1\t5",
        "read 1 5\r",
        "\r",
        "\0",
        "tick 2 0 0 0 0 0 0",
        "tick 0 4294967296 0 0 0 0 0",
        "tick 0 0 256 0 0 0 0",
        "tick 0 0 0 0 256 0 0",
        "tick 0 0 0 0 0 256 0",
        "tick 0 0 0 0 0 0 256",
        "tick 0 0 0 0 0",
        "tick 0 0 0 0 0 0",
        "tick 0 0 0 0 0 0 0 0",
        "image 65",
        "image",
        "part 1 65",
        "part 256 15",
        "total 0",
        "warm 1",
        "factory 1",
        "telegram",
        "telegram 256",
        "telegram 0 256",
        "load 256",
        "load -1",
        "load x",
        "loads 1",
        "Load 1",
        "write 1 5 8",
        "write 1 5 8 0 0",
        "write 1 5 0x100000000 0",
        "read 1 18446744073709551621",
        "read 1 0x10000000000000005",
    ] {
        assert_eq!(replayed(line.as_bytes()), "error\n", "{line:?}");
        assert_eq!(replayed(format!("{line}\ntotal").as_bytes()), "error\ntotal 0\n", "{line:?}");
    }
    assert_eq!(replayed(b"read 1 \xFF\n"), "error\n");
    assert_eq!(
        replayed(format!("telegram 0{}\ntelegram 0{}", " 1".repeat(64), " 1".repeat(65)).as_bytes()),
        "refused 7\nerror\n"
    );
    assert_eq!(
        replayed(format!("load\nload  0x01 \nload{}\nload{}", " 1".repeat(256), " 1".repeat(257)).as_bytes()),
        "refused 9\nrefused 9\nrefused 9\nerror\n"
    );
    assert_eq!(
        replayed(
            b"load 0 0 0 0 0 0 0 0 63 0x80 0 0 0x41 32 0 00\nwrite 1 13 1 0\ntick 0 0x3F000000 0x80 0 0 0 0\nread 1 10"
        ),
        "ok\nok\nposition 0x00000000 position 0\nwords 0x40A00000 0x00000080\n"
    );
    // 4,096 bytes are a line, one more is none, with or without the end.
    let padded = |length: usize| format!("total{}", " ".repeat(length - 5));
    assert_eq!(replayed(padded(4096).as_bytes()), "total 0\n");
    assert_eq!(replayed(padded(4097).as_bytes()), "error\n");
    assert_eq!(
        replayed(format!("{}\n{}\ntotal\n", padded(4096), padded(4097)).as_bytes()),
        "total 0\nerror\ntotal 0\n"
    );
    assert_eq!(replayed(format!("{}\ntotal\n", padded(100_000)).as_bytes()), "error\ntotal 0\n");
    assert_eq!(
        replayed(b"tick 0 0x42480000 0x80 0 128 7 0x80\ntick 1 0 0 0 0 0 0\nwrite 3 24 2 0\ntick 0 0 0 0 0 255 0xff\n"),
        "position 0x00000000 position 0\nrest rest\nok\nsafe position 0\n"
    );
    assert_eq!(
        replayed(b"telegram 2 1 128\ntick 0 0 0 0 0 0 0\nwrite 5 20 2 0\nwrite 3 5 128 0\ntick 0 0 0 0 0 0 0\n"),
        "ok\nposition 0x00000000 position 1\nok\nok\nrest safe\n"
    );
    assert_eq!(
        replayed(b"write 2 17 0 0\nwrite 2 13 1 0\nfactory\nread 2 13\nwarm\n"),
        "refused 2\nok\nok\nwords 0x00000000 0x00000000\nok\n"
    );
}
