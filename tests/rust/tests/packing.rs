//! The packed form of the archive's devices: its words are the fields of the struct in order, it goes there and back, and
//! whatever bytes are unpacked, a device comes out that every call takes, or the bytes are refused.

use comparison::archive::{AoInput, Archive, Device, Discrete, DoInput, Kept, Pair, Scale, PACKED_BYTES};
use comparison::calls::{Call, Head};
use comparison::compare::PARAMETERS;
use comparison::histories::histories;
use comparison::random::Random;

const LAYOUT_VERSION: u32 = 3;
const WRONG_LENGTH: u8 = 7;
const NOT_A_DEVICE: u8 = 255;

fn pair(p: Pair) -> [u32; 2] {
    [p.bits, p.status.into()]
}

fn scale(s: Scale) -> [u32; 2] {
    [s.low.to_bits(), s.high.to_bits()]
}

fn kept(k: Kept) -> [u32; 2] {
    [k.some.into(), k.value.to_bits()]
}

fn input(i: AoInput) -> [u32; 4] {
    [i.some.into(), i.value.to_bits(), i.silence, i.ifs.into()]
}

fn discrete(d: Discrete) -> [u32; 2] {
    [d.value.into(), d.status.into()]
}

fn discrete_input(i: DoInput) -> [u32; 4] {
    [i.some.into(), i.value.into(), i.silence, i.ifs.into()]
}

/// The packed form as it is described: the version, then each field in order, a total as two words.
fn described(d: &Device) -> Vec<u8> {
    let (s, t) = (&d.ain.settings, &d.ain.state);
    let mut words = vec![LAYOUT_VERSION, d.write_locking, s.target];
    words.extend([scale(s.pv_scale), scale(s.out_scale)].concat());
    words.extend([s.lin_type, s.pv_ftime.to_bits(), s.fsafe_type, s.fsafe_value.to_bits(), s.alarm_hys.to_bits()]);
    words.extend([s.hi_hi_lim, s.hi_lim, s.lo_lim, s.lo_lo_lim].map(f32::to_bits));
    words.extend(pair(t.out));
    words.push(t.mode);
    words.extend([kept(t.filter), kept(t.last), pair(t.operator)].concat());
    words.extend([t.alarms.hi_hi, t.alarms.hi, t.alarms.lo, t.alarms.lo_lo].map(u32::from));
    words.extend([d.ain.st_rev.into(), d.ain.table.count]);
    words.extend(d.ain.table.points.map(|point| [point.x.to_bits(), point.y.to_bits()]).concat());

    let (s, t) = (&d.tot.settings, &d.tot.state);
    words.extend([s.target, s.set_tot, s.mode_tot, s.fail_tot, s.preset_tot.to_bits()]);
    words.extend([(t.total >> 32) as u32, t.total as u32]);
    words.extend(pair(t.out));
    words.push(t.mode);
    words.extend(kept(t.rate));
    words.extend([u32::from(t.operator_status), d.tot.st_rev.into()]);

    let (s, t) = (&d.ao.settings, &d.ao.state);
    words.push(s.target);
    words.extend([scale(s.pv_scale), scale(s.out_scale)].concat());
    words.extend([s.fsafe_time, s.fsafe_type, s.fsafe_value.to_bits(), s.increase_close]);
    words.extend(pair(t.out));
    words.push(t.mode);
    words.extend(pair(t.operator));
    words.extend([input(t.sp), input(t.rcas_in)].concat());
    words.push(d.ao.st_rev.into());

    let (s, t) = (&d.di.settings, &d.di.state);
    words.extend([s.target, s.invert, s.fsafe_type, s.fsafe_val_d]);
    words.extend(discrete(t.out));
    words.extend([t.mode, t.last.some.into(), t.last.value.into()]);
    words.extend(discrete(t.operator));
    words.push(d.di.st_rev.into());

    let (s, t) = (&d.dout.settings, &d.dout.state);
    words.extend([s.target, s.invert, s.fsafe_type, s.fsafe_val_d, s.fsafe_time]);
    words.extend(discrete(t.out));
    words.push(t.mode);
    words.extend(discrete(t.operator));
    words.extend([discrete_input(t.sp), discrete_input(t.rcas_in)].concat());
    words.push(d.dout.st_rev.into());
    words.into_iter().flat_map(u32::to_be_bytes).collect()
}

fn packed(head: &Archive) -> Vec<u8> {
    let mut bytes = vec![0xA5; PACKED_BYTES];
    assert_eq!(head.pack(&mut bytes), 0);
    bytes
}

/// Devices that histories reach, some of each.
fn reached(count: u64) -> impl Iterator<Item = Archive> {
    histories(7, count).flat_map(|history| {
        let mut head = Archive::factory();
        let mut devices = vec![Archive::factory()];
        for (index, call) in history.iter().enumerate() {
            call.on(&mut head);
            if index % 37 == 0 || index + 1 == history.len() {
                devices.push(Archive { device: head.device });
            }
        }
        devices
    })
}

#[test]
fn a_device_packs_to_its_fields_and_back() {
    let mut devices = 0;
    for head in reached(300) {
        let bytes = packed(&head);
        assert_eq!(bytes, described(&head.device));
        let mut back = Archive::factory();
        assert_eq!(back.unpack(&bytes), 0);
        assert_eq!(described(&back.device), bytes);
        devices += 1;
    }
    assert!(devices > 1000, "{devices} devices");
}

#[test]
fn other_lengths_are_refused() {
    let head = reached(3).last().expect("a device");
    let bytes = packed(&head);
    for length in (0..PACKED_BYTES + 40).filter(|&length| length != PACKED_BYTES) {
        let mut room = vec![0xA5; length];
        let fits = length > PACKED_BYTES;
        assert_eq!(head.pack(&mut room), if fits { 0 } else { WRONG_LENGTH }, "a buffer of {length} bytes");
        let (front, rest) = room.split_at(if fits { PACKED_BYTES } else { 0 });
        assert!(front == &bytes[..front.len()] && rest.iter().all(|&byte| byte == 0xA5), "a buffer of {length} bytes");
        let mut other = Archive::factory();
        let lent = [&bytes[..], &[0; 40]].concat();
        assert_eq!(other.unpack(&lent[..length]), WRONG_LENGTH, "{length} bytes");
        assert_eq!(packed(&other), packed(&Archive::factory()));
    }
}

/// Unpacks onto a fresh device. A refused call leaves it; an accepted one gives a device that packs to these bytes, and
/// every call can be made on it. Gives whether it was accepted.
fn unpack_any(bytes: &[u8]) -> bool {
    let mut head = Archive::factory();
    match head.unpack(bytes) {
        0 => assert_eq!(packed(&head), bytes),
        NOT_A_DEVICE => {
            assert_eq!(packed(&head), packed(&Archive::factory()));
            return false;
        }
        other => panic!("refused as {other}"),
    }
    for _ in 0..3 {
        head.tick(false, (50.0f32.to_bits(), 0x80), (1.0f32.to_bits(), 0x80), (1, 0x80));
        head.telegram(0, &[0x42, 0x48, 0, 0, 0x80]).expect("five bytes");
        head.telegram(2, &[1, 0x80]).expect("two bytes");
    }
    for (block, parameters) in PARAMETERS {
        for &parameter in parameters {
            head.read(block, parameter).expect("a parameter");
        }
    }
    Call::Image(19).on(&mut head);
    head.total();
    head.write(0, 18, 2457, 0).expect("never locked");
    head.warm_start();
    true
}

/// The kind of each word: V version, W any word, F float, S status or discrete value, B flag, R ST_REV.
fn kinds() -> String {
    let table = "FF".repeat(21);
    let analog = ["VW", "WFFFFWFWFFFFFFWSWBFBFWSBBBBR", "W", &table, "WWWWFWWWSWBFSR", "WFFFFWWFWWSWWSBFWBBFWBR"];
    [&analog.concat(), "WWWWSSWBSSSR", "WWWWWSSWSSBSWBBSWBR"].concat()
}

/// What is refused of a word, by its kind alone.
#[test]
fn a_word_is_refused_by_its_kind() {
    let kinds = kinds();
    assert_eq!(4 * kinds.len(), PACKED_BYTES);
    let words = [0, 1, 2, 0x80, 255, 256, 0xFFFF, 0x1_0000, 0x7F7F_FFFF, 0x7F80_0000, 0x7F80_0001, 0x7FC0_0000]
        .into_iter()
        .chain([0x7FC0_0001, 0x8000_0000, 0xFF80_0000, 0xFF80_0001, 0xFFC0_0000, 0xFFFF_FFFF]);
    for head in reached(5) {
        for ((index, kind), word) in kinds.char_indices().flat_map(|kind| words.clone().map(move |word| (kind, word))) {
            let mut bytes = packed(&head);
            bytes[4 * index..][..4].copy_from_slice(&u32::to_be_bytes(word));
            let allowed = match kind {
                'V' => word == LAYOUT_VERSION,
                'F' => word == 0x7FC0_0000 || !f32::from_bits(word).is_nan(),
                'S' => word <= 255,
                'B' => word <= 1,
                'R' => word <= 65_535,
                _ => true,
            };
            assert_eq!(unpack_any(&bytes), allowed, "word {index}, {kind}: {word:08X}");
        }
    }
}

#[test]
fn a_flipped_bit_is_refused_or_gives_a_device() {
    let head = reached(20).last().expect("a device");
    let bytes = packed(&head);
    let mut accepted = 0;
    for bit in 0..8 * PACKED_BYTES {
        let mut flipped = bytes.clone();
        flipped[bit / 8] ^= 1 << (bit % 8);
        let taken = unpack_any(&flipped);
        assert!(bit >= 32 || !taken, "another version");
        accepted += u32::from(taken);
    }
    // most bits lie within a value and are not seen: what is stored needs a checksum beside it
    assert!(accepted > 1000, "{accepted} accepted");
}

#[test]
fn any_bytes_are_refused_or_give_a_device() {
    let mut random = Random::new(11);
    let head = reached(20).last().expect("a device");
    let good = packed(&head);
    let (mut accepted, mut refused) = (0, 0);
    for _ in 0..20_000 {
        // words of a device, some of them changed to any word
        let mut bytes = good.clone();
        for _ in 0..1 + random.below(4) {
            let word = 4 * random.below(PACKED_BYTES as u32 / 4) as usize;
            bytes[word..word + 4].copy_from_slice(&random.bits().to_be_bytes());
        }
        *(if unpack_any(&bytes) { &mut accepted } else { &mut refused }) += 1;
    }
    assert!(accepted > 1000 && refused > 1000, "{accepted} accepted, {refused} refused");
}
