//! Every struct that crosses to C lies in memory as the Rattle source, the header and the declarations of
//! src/archive.rs say, in the same way; and the archive was compiled so.

use std::collections::BTreeMap;
use std::fs;
use std::mem::offset_of;

use comparison::archive::{Archive, Device, Discrete, DoBlock, Kept, KeptD, Pair, Point, Scale, LAYOUTS, PACKED_BYTES};
use comparison::calls::{Head, Order, Orders};

const CRATES: [&str; 11] =
    ["wire", "scaling", "linearisation", "blocks", "ain", "tot", "ao", "di", "dout", "device", "capi"];

fn file(path: &str) -> String {
    fs::read_to_string(format!("../../{path}")).unwrap_or_else(|error| panic!("{path}: {error}"))
}

/// The text between two marks, and what follows.
fn between<'a>(text: &'a str, open: &str, close: &str) -> Option<(&'a str, &'a str)> {
    text.split_once(open).and_then(|(_, rest)| rest.split_once(close))
}

/// A struct of a crate, by its name in src/archive.rs.
fn mirrored(of_crate: &str, name: &str) -> String {
    match (of_crate, name) {
        ("ain" | "tot" | "ao" | "di", "Settings" | "State" | "Input") => {
            format!("{}{}{name}", of_crate[..1].to_uppercase(), &of_crate[1..])
        }
        // `do` is a keyword, so the crate is `dout`; within a longer name it may stand.
        ("dout", "Settings" | "State" | "Input") => format!("Do{name}"),
        (_, "DoutBlock") => "DoBlock".into(),
        ("di", "Kept") => "KeptD".into(),
        ("capi", "DiscreteOrderNumbers") => "OrderDNumbers".into(),
        _ => name.into(),
    }
}

/// An array's element and length; another type has no length.
fn element(of_type: &str) -> (&str, Option<&str>) {
    match between(of_type, "[", "]").and_then(|(array, _)| array.split_once("; ")) {
        Some((element, length)) => (element, Some(length)),
        None => (of_type, None),
    }
}

/// Fields and their types, in order, of each struct.
type Structs = BTreeMap<String, Vec<(String, String)>>;

fn structs_of_the_source() -> Structs {
    let mut structs = Structs::new();
    for name in CRATES {
        let source = file(&format!("crates/{name}/src/lib.rt"));
        let is_code = |line: &&str| !line.trim_start().starts_with("//") && !line.starts_with("#[derive(");
        let code: Vec<&str> = source.lines().filter(is_code).collect();
        let code = code.join("\n");
        let mut rest = &code[..];
        while let Some((title, after)) = between(rest, "#[repr(C)]\npub struct ", " {\n") {
            let (body, after) = after.split_once("\n}").expect("the end of a struct");
            let fields = body.lines().map(|line| {
                let (field, of_type) =
                    line.trim().trim_start_matches("pub ").trim_end_matches(',').split_once(": ").expect(line);
                let of_type = match of_type.split_once("::") {
                    Some((other, of_type)) => mirrored(other, of_type),
                    None => mirrored(name, of_type),
                };
                (field.to_string(), of_type)
            });
            let fields: Vec<_> = fields.collect();
            assert!(structs.insert(mirrored(name, title), fields).is_none(), "{title} stands twice");
            rest = after;
        }
    }
    structs
}

/// Those that an exported function takes or gives, and those inside them.
fn that_cross_to_c(structs: Structs) -> Structs {
    let capi = file("crates/capi/src/lib.rt");
    let signatures =
        capi.split("pub extern \"C\" fn ").skip(1).map(|rest| rest.split("ensures").next().expect("a contract"));
    let words = signatures.flat_map(|text| text.split(|c: char| !c.is_alphanumeric() && c != '_'));
    let mut names: Vec<String> = words.map(String::from).filter(|word| structs.contains_key(word)).collect();
    let mut crossing = Structs::new();
    while let Some(name) = names.pop() {
        if let Some(fields) = structs.get(&name) {
            names.extend(fields.iter().map(|field| element(&field.1).0.to_string()));
            crossing.insert(name, fields.clone());
        }
    }
    crossing
}

#[test]
fn declarations_are_those_of_the_source() {
    let source = that_cross_to_c(structs_of_the_source());
    let declared: Structs = LAYOUTS
        .iter()
        .map(|layout| {
            let fields = layout.fields.iter().map(|field| (field.0.to_string(), field.1.to_string()));
            (layout.name.to_string(), fields.collect())
        })
        .collect();
    assert_eq!(source, declared);
}

/// A struct or field by its name in the header.
fn in_c(name: &str) -> String {
    let plain = match name {
        "u8" | "u16" | "u32" => return format!("uint{}_t", &name[1..]),
        "i64" => return "int64_t".into(),
        "f32" => return "float".into(),
        "bool" => return "bool".into(),
        _ => name.trim_end_matches("Numbers"),
    };
    let mut snake = String::from("serkoviu");
    for letter in plain.chars() {
        if letter.is_uppercase() {
            snake.push('_');
        }
        snake.extend(letter.to_lowercase());
    }
    snake
}

#[test]
fn header_has_the_same_structs_and_numbers() {
    let header = file("include/serkoviu.h");
    for layout in LAYOUTS {
        let name = in_c(layout.name);
        let (body, _) =
            between(&header, &format!("typedef struct {name} {{\n"), &format!("\n}} {name};")).expect(&name);
        // `operator` is a word of C++'s.
        let field_in_c =
            |field: &str| if field == "operator" { "operator_pair".to_string() } else { field.to_string() };
        let wanted: Vec<_> = layout
            .fields
            .iter()
            .map(|(field, of_type, _)| {
                let (element, length) = element(of_type);
                let places = length.map_or(String::new(), |length| format!("[{length}]"));
                format!("    {} {}{places};", in_c(element), field_in_c(field))
            })
            .collect();
        assert_eq!(body, wanted.join("\n"), "{name}");
        let mut numbers = vec![format!("SERKOVIU_LAYOUT({name}, {}, {});", layout.size, layout.alignment)];
        for (field, _, offset) in layout.fields {
            numbers.push(format!("SERKOVIU_FIELD({name}, {}, {offset});", field_in_c(field)));
        }
        let stands = header.lines().filter(|line| line.contains(&format!("({name}, ")));
        assert_eq!(stands.collect::<Vec<_>>(), numbers, "{name}");
    }
    assert_eq!(header.matches("typedef struct ").count(), LAYOUTS.len());
    assert!(header.contains(&format!("#define SERKOVIU_PACKED_BYTES {PACKED_BYTES}\n")));
}

/// The device that a call gives is written whole and nothing beyond it.
#[test]
fn the_archive_gives_as_many_bytes() {
    mod by_pointer {
        #[allow(clashing_extern_declarations)]
        extern "C" {
            // A struct of this size is returned through a pointer that is the hidden first argument.
            pub fn serkoviu_factory(device: *mut u8) -> *mut u8;
        }
    }
    const SIZE: usize = size_of::<Device>();
    let mut room = [[0xA5u8; SIZE + 64]; 2];
    room[1].fill(0x5A);
    for room in &mut room {
        assert_eq!(unsafe { by_pointer::serkoviu_factory(room.as_mut_ptr()) }, room.as_mut_ptr());
    }
    let last_field = offset_of!(Device, dout) + offset_of!(DoBlock, st_rev);
    assert_eq!(room.map(|room| room[last_field..][..2].to_vec()), [[0, 0], [0, 0]], "ST_REV of DO, fresh");
    assert_eq!(room.map(|room| room[SIZE..].to_vec()), [[0xA5; 64], [0x5A; 64]], "what lies behind the device");
}

/// The calls on a device write nothing beside it.
#[test]
fn calls_keep_to_the_device() {
    #[repr(C)]
    struct Room {
        before: [u8; 64],
        head: Archive,
        after: [u8; 64],
    }
    let mut room = Room { before: [0xA5; 64], head: Archive::factory(), after: [0x5A; 64] };
    let mut bytes = [0; PACKED_BYTES];
    room.head.tick(false, (0, 0x80), (0, 0x80), (1, 0x80));
    room.head.telegram(0, &[0x42, 0x48, 0, 0, 0x80]).expect("five bytes");
    room.head.telegram(3, &[1, 0x80]).expect("two bytes");
    room.head.write(3, 23, 7, 0).expect("a number of ticks");
    room.head.write(5, 22, 7, 0).expect("a number of ticks");
    let pairs: Vec<u8> = (0..42u8).flat_map(|number| f32::from(number).to_be_bytes()).collect();
    room.head.load(&pairs).expect("21 pairs");
    room.head.warm_start();
    assert_eq!((room.head.pack(&mut bytes), room.head.unpack(&bytes)), (0, 0));
    assert_eq!((room.before, room.after), ([0xA5; 64], [0x5A; 64]));
}

fn pair(value: f32, status: u8) -> Pair {
    Pair { bits: value.to_bits(), status }
}

fn discrete(value: u8, status: u8) -> Discrete {
    Discrete { value, status }
}

fn scale(low: f32, high: f32) -> Scale {
    Scale { low, high }
}

/// Every field that can be read, set from outside to a value of its own.
#[test]
fn the_archive_reads_each_field_where_it_is_declared() {
    let mut head = Archive::factory();
    let d = &mut head.device;
    d.write_locking = 0;
    let s = &mut d.ain.settings;
    s.target = 0x10;
    (s.pv_scale, s.out_scale) = (scale(1.0, 2.0), scale(3.0, 4.0));
    (s.lin_type, s.pv_ftime, s.fsafe_type, s.fsafe_value, s.alarm_hys) = (1, 5.0, 2, 6.0, 7.0);
    (s.hi_hi_lim, s.hi_lim, s.lo_lim, s.lo_lo_lim) = (8.0, 9.0, 10.0, 11.0);
    (d.ain.state.out, d.ain.state.mode, d.ain.st_rev) = (pair(12.0, 0x81), 0x08, 1301);
    let s = &mut d.tot.settings;
    (s.target, s.set_tot, s.mode_tot, s.fail_tot, s.preset_tot) = (0x80, 1, 3, 2, 14.0);
    (d.tot.state.total, d.tot.state.out) = (-0x0123_4567_89AB, pair(15.0, 0x82));
    (d.tot.state.mode, d.tot.st_rev) = (0x10, 1602);
    let s = &mut d.ao.settings;
    s.target = 0x02;
    (s.pv_scale, s.out_scale) = (scale(17.0, 18.0), scale(19.0, 20.0));
    (s.fsafe_time, s.fsafe_type, s.fsafe_value, s.increase_close) = (21_000, 0, 22.0, 1);
    (d.ao.state.out, d.ao.state.mode, d.ao.st_rev) = (pair(23.0, 0x83), 0x02, 2403);
    // Words need not be allowed ones to be read: each has a value of its own.
    let s = &mut d.di.settings;
    (s.target, s.invert, s.fsafe_type, s.fsafe_val_d) = (0x11, 31, 32, 33);
    (d.di.state.out, d.di.state.mode, d.di.st_rev) = (discrete(34, 0x84), 0x12, 3504);
    let s = &mut d.dout.settings;
    (s.target, s.invert, s.fsafe_type, s.fsafe_val_d, s.fsafe_time) = (0x13, 41, 42, 43, 44);
    (d.dout.state.out, d.dout.state.mode, d.dout.st_rev) = (discrete(45, 0x85), 0x14, 4605);

    let float = |value: f32| value.to_bits();
    let expected: [(u8, u8, u32, u32); 49] = [
        (0, 18, 0, 0),
        (1, 1, 1301, 0),
        (1, 5, 0x10, 0),
        (1, 6, 0x08, 0),
        (1, 10, float(12.0), 0x81),
        (1, 11, float(1.0), float(2.0)),
        (1, 12, float(3.0), float(4.0)),
        (1, 13, 1, 0),
        (1, 16, float(5.0), 0),
        (1, 17, 2, 0),
        (1, 18, float(6.0), 0),
        (1, 19, float(7.0), 0),
        (1, 21, float(8.0), 0),
        (1, 23, float(9.0), 0),
        (1, 25, float(10.0), 0),
        (1, 27, float(11.0), 0),
        (2, 1, 1602, 0),
        (2, 5, 0x80, 0),
        (2, 6, 0x10, 0),
        (2, 10, float(15.0), 0x82),
        (2, 13, 1, 0),
        (2, 14, 3, 0),
        (2, 15, 2, 0),
        (2, 16, float(14.0), 0),
        (3, 1, 2403, 0),
        (3, 5, 0x02, 0),
        (3, 6, 0x02, 0),
        (3, 11, float(17.0), float(18.0)),
        (3, 23, 21_000, 0),
        (3, 24, 0, 0),
        (3, 25, float(22.0), 0),
        (3, 36, 1, 0),
        (3, 37, float(23.0), 0x83),
        (3, 38, float(19.0), float(20.0)),
        (4, 1, 3504, 0),
        (4, 5, 0x11, 0),
        (4, 6, 0x12, 0),
        (4, 10, 34, 0x84),
        (4, 15, 31, 0),
        (4, 20, 32, 0),
        (4, 21, 33, 0),
        (5, 1, 4605, 0),
        (5, 5, 0x13, 0),
        (5, 6, 0x14, 0),
        (5, 10, 45, 0x85),
        (5, 15, 41, 0),
        (5, 20, 42, 0),
        (5, 21, 43, 0),
        (5, 22, 44, 0),
    ];
    for (block, parameter, first, second) in expected {
        assert_eq!(head.read(block, parameter), Ok((first, second)), "read {block} {parameter}");
    }
    assert_eq!(head.total(), -0x0123_4567_89AB);
    let mut image = [0; 19];
    head.image(&mut image).expect("long enough");
    assert_eq!(image[..15], [0x41, 0x40, 0, 0, 0x81, 0x41, 0x70, 0, 0, 0x82, 0x41, 0xB8, 0, 0, 0x83]);
    assert_eq!(image[15..], [34, 0x84, 45, 0x85]);

    for alarm in 0..4 {
        let mut head = Archive::factory();
        let alarms = &mut head.device.ain.state.alarms;
        *[&mut alarms.hi_hi, &mut alarms.hi, &mut alarms.lo, &mut alarms.lo_lo][alarm] = true;
        assert_eq!(head.read(1, 7), Ok((1 << alarm, 0)));
    }
}

/// Fields that no read gives, each by the tick that shows it.
#[test]
fn the_archive_ticks_by_each_field_where_it_is_declared() {
    const BAD: (u32, u8) = (0, 0x00);
    let tick = |device: Device, ain: (u32, u8)| {
        let mut head = Archive { device };
        let Orders { ao, .. } = head.tick(false, ain, BAD, (0, 0x00));
        (head.device, ao)
    };
    let discrete_tick = |device: Device, di: (u8, u8)| {
        let mut head = Archive { device };
        let Orders { dout, .. } = head.tick(false, BAD, BAD, di);
        (head.device, dout)
    };
    let fresh = Archive::factory().device;
    let some = |value| Kept { some: true, value };

    let mut d = fresh;
    d.ain.state.operator = pair(3.25, 0x83);
    d.ain.settings.target = 0x10;
    assert_eq!(tick(d, BAD).0.ain.state.out, pair(3.25, 0x83));
    let mut d = fresh;
    d.ain.state.last = some(7.5);
    assert_eq!(tick(d, BAD).0.ain.state.out, pair(7.5, 0x44));
    let mut d = fresh;
    d.ain.state.filter = some(10.0);
    (d.ain.settings.pv_scale, d.ain.settings.out_scale) = (scale(0.0, 1.0), scale(0.0, 1.0));
    d.ain.settings.pv_ftime = 0.1;
    let next = tick(d, (20.0f32.to_bits(), 0x80)).0.ain.state;
    assert_eq!((next.out, next.filter, next.last), (pair(15.0, 0x80), some(15.0), some(15.0)));

    // each place of the table by an input that is its x
    let mut d = fresh;
    (d.ain.settings.pv_scale, d.ain.settings.out_scale) = (scale(0.0, 1.0), scale(0.0, 1.0));
    d.ain.settings.lin_type = 1;
    for count in [2, 20, 21] {
        d.ain.table.count = count;
        for (place, point) in d.ain.table.points.iter_mut().enumerate() {
            *point = Point { x: place as f32, y: 30.5 - place as f32 };
        }
        for place in 0..count {
            let next = tick(d, ((place as f32).to_bits(), 0x80)).0.ain;
            assert_eq!((next.state.out, next.table), (pair(30.5 - place as f32, 0x80), d.ain.table));
        }
        let after_the_last = tick(d, (25.0f32.to_bits(), 0x80)).0.ain.state.out;
        assert_eq!(after_the_last, pair(31.5 - count as f32, 0x80));
    }

    let mut d = fresh;
    d.tot.state.operator_status = 0xA7;
    d.tot.settings.target = 0x10;
    assert_eq!(tick(d, BAD).0.tot.state.out, pair(0.0, 0xA7));
    let mut d = fresh;
    d.tot.state.rate = some(0.0625);
    d.tot.settings.fail_tot = 2;
    let next = tick(d, BAD).0.tot.state;
    assert_eq!((next.total, next.out.status, next.rate), (6, 0x44, some(0.0625)));

    let mut d = fresh;
    d.ao.state.operator = pair(4.25, 0x84);
    d.ao.settings.target = 0x10;
    let (next, order) = tick(d, BAD);
    assert_eq!((next.ao.state.out, order), (pair(4.25, 0x84), Order::Position(4.25f32.to_bits())));
    for (target, value) in [(0x08, 50.0f32), (0x02, 25.0)] {
        for (silence, ifs, status) in [(3, false, 0x80), (4, false, 0x44), (3, true, 0x44)] {
            let mut d = fresh;
            d.ao.settings.target = target;
            d.ao.settings.fsafe_time = 3;
            let input = if target == 0x08 { &mut d.ao.state.sp } else { &mut d.ao.state.rcas_in };
            (input.some, input.value, input.silence, input.ifs) = (true, value, silence, ifs);
            let (next, order) = tick(d, BAD);
            assert_eq!((next.ao.state.out, order), (pair(value, status), Order::Position(value.to_bits())));
            let input = if target == 0x08 { next.ao.state.sp } else { next.ao.state.rcas_in };
            assert_eq!((input.some, input.value, input.silence, input.ifs), (true, value, silence + 1, ifs));
        }
    }

    let mut d = fresh;
    d.di.state.operator = discrete(1, 0x86);
    d.di.settings.target = 0x10;
    assert_eq!(discrete_tick(d, (0, 0x00)).0.di.state.out, discrete(1, 0x86));
    for value in [0, 1] {
        let mut d = fresh;
        d.di.settings.fsafe_type = 1;
        d.di.state.last = KeptD { some: true, value };
        assert_eq!(discrete_tick(d, (1 - value, 0x00)).0.di.state.out, discrete(value, 0x44));
        let next = discrete_tick(d, (1 - value, 0x87)).0.di.state;
        assert_eq!((next.out, next.last), (discrete(1 - value, 0x87), KeptD { some: true, value: 1 - value }));
    }

    let mut d = fresh;
    d.dout.state.operator = discrete(1, 0x88);
    d.dout.settings.target = 0x10;
    let (next, order) = discrete_tick(d, (0, 0x80));
    assert_eq!((next.dout.state.out, order), (discrete(1, 0x88), Order::Position(1)));
    for (target, value) in [(0x08, 1), (0x02, 1), (0x08, 0), (0x02, 0)] {
        for (silence, ifs, status) in [(3, false, 0x80), (4, false, 0x44), (3, true, 0x44)] {
            let mut d = fresh;
            d.dout.settings.target = target;
            (d.dout.settings.fsafe_type, d.dout.settings.fsafe_time) = (1, 3);
            d.dout.state.out.value = 1 - value;
            let input = if target == 0x08 { &mut d.dout.state.sp } else { &mut d.dout.state.rcas_in };
            (input.some, input.value, input.silence, input.ifs) = (true, value, silence, ifs);
            let (next, order) = discrete_tick(d, (0, 0x80));
            assert_eq!((next.dout.state.out, order), (discrete(value, status), Order::Position(value)));
            let input = if target == 0x08 { next.dout.state.sp } else { next.dout.state.rcas_in };
            assert_eq!((input.some, input.value, input.silence, input.ifs), (true, value, silence + 1, ifs));
        }
    }
}
