//! The comparison itself: it finds nothing between a head and itself, and its histories reach what they are made for.

use std::collections::{BTreeMap, BTreeSet};

use comparison::calls::{parse, Answer, Call, Head, Line, Order, Orders};
use comparison::compare::{compare, run, shrink};
use comparison::histories::{histories, history, HISTORIES};
use comparison::model::Model;

fn model() -> Box<dyn Head> {
    Box::new(Model::factory())
}

#[test]
fn a_head_equals_itself() {
    let calls = compare(&model, &model, histories(3, 2000)).unwrap_or_else(|difference| panic!("{difference}"));
    assert!(calls >= 200_000, "{calls}");
}

#[test]
fn the_same_seed_gives_the_same_history() {
    assert_eq!(history(5, 3), history(5, 3));
    assert_ne!(history(5, 3), history(6, 3));
    assert_ne!(history(5, 3), history(5, 13));
}

#[test]
fn calls_and_their_lines() {
    for call in histories(2, 100).flatten() {
        assert_eq!(parse(call.to_string().as_bytes()), Line::Call(call.clone()), "{call}");
    }
}

/// Every refusal, mode, status rule and order is met often, and no kind of call is nearly always refused.
#[test]
fn histories_reach_all_cases() {
    let mut seen: BTreeMap<String, usize> = BTreeMap::new();
    let mut accepted: BTreeSet<(u8, u8)> = BTreeSet::new();
    let (mut writes, mut refused_writes) = (0, 0);
    // Tables that another replaced, those of them that saw less than 20 ticks, Auto ticks by a table.
    let (mut replaced, mut young, mut linearised) = (0, 0, 0);
    for history in histories(1, HISTORIES) {
        let mut head = Model::factory();
        let (mut table, mut age) = (Vec::new(), 0);
        let mut by_hand = [ByHand::default(); 4];
        let mut contact = Contact::default();
        let mut heard = [Heard::default(); 2];
        let long = history.len() > 10_000;
        for call in history {
            let targets = BY_HAND.map(|(block, _)| head.read(block, 5).unwrap().0);
            let answer = call.on(&mut head);
            let mut see = |what: String| *seen.entry(what).or_default() += 1;
            for ((block, out), (target, man)) in BY_HAND.into_iter().zip(targets.into_iter().zip(&mut by_hand)) {
                for what in man.after(&call, answer, &head, block, out, target) {
                    see(format!("block {block} {what}"));
                }
            }
            contact.after(&call, &head).into_iter().for_each(&mut see);
            for (input, heard) in heard.iter_mut().enumerate() {
                heard.after(&call, &head, input as u8).into_iter().for_each(&mut see);
            }
            match (&call, answer) {
                (Call::Load(_), Answer::Refused(number)) => see(format!("load refused {number}")),
                (Call::Write(block, ..), Answer::Refused(number)) if *block > 3 && number > 1 => {
                    see(format!("write to block {block} refused {number}"));
                }
                (_, Answer::Refused(number)) => see(format!("refused {number}")),
                (_, Answer::Orders(Orders { ao, dout })) => {
                    see(format!("AO {:?}", ao.map(|_| ())));
                    see(format!("DO {dout:?}"));
                }
                (&Call::Write(block, parameter, ..), Answer::Ok) => _ = accepted.insert((block, parameter)),
                (Call::Load(bytes), Answer::Ok) => {
                    see(format!("load of {} pairs", bytes.len() / 8));
                    if !table.is_empty() && !long {
                        replaced += 1;
                        young += usize::from(age < 20);
                    }
                    (table, age) = (pairs(bytes), 0);
                }
                (Call::Factory, _) => table.clear(),
                _ => {}
            }
            match call {
                Call::Write(..) => {
                    writes += 1;
                    refused_writes += usize::from(answer != Answer::Ok);
                }
                Call::Telegram(input, bytes) => see(format!("telegram of {} bytes on input {input}", bytes.len())),
                Call::Image(length) => see(format!("image of {length} bytes")),
                Call::Part(block, length) => see(format!("part {block} of {length} bytes")),
                Call::Tick { ain, .. } => {
                    for (block, parameter) in [(1, 10), (2, 10), (3, 37), (4, 10), (5, 10)] {
                        let mode = head.read(block, 6).unwrap().0;
                        see(format!("block {block} in {mode:02X}"));
                        if mode & 0x0A != 0 {
                            see(format!("block {block} status {:02X}", head.read(block, parameter).unwrap().1));
                        }
                    }
                    see(format!("alarms {}", head.read(1, 7).unwrap().0));
                    see(format!("input status {}", ain.1));
                    see(format!("end of the total {}", head.total() / 1_000_000_000_000));
                    age += 1;
                    if head.read(1, 13) == Ok((1, 0)) && head.read(1, 6) == Ok((8, 0)) {
                        linearised += 1;
                        let usable = head.read(1, 10).unwrap().1 >= 0x80;
                        see(format!("{} by the table, usable: {usable}", place(&table, f32::from_bits(ain.0))));
                        let settings = [16, 17].map(|parameter| head.read(1, parameter).unwrap().0);
                        let filter = if settings[0] << 1 == 0 { "no filter" } else { "filter" };
                        see(format!("{filter}, type {}, quality {} by the table", settings[1], ain.1 >> 6));
                    }
                }
                _ => {}
            }
        }
    }
    let mut wanted: Vec<String> = (1..=8).map(|number| format!("refused {number}")).collect();
    wanted.extend([4, 9, 10].map(|number| format!("load refused {number}")));
    wanted.extend((2..=21).map(|pairs| format!("load of {pairs} pairs")));
    for place in PLACES {
        // A value that is not finite is never usable, nor is a result that is not.
        wanted.extend([true, false].map(|usable| format!("{place} by the table, usable: {usable}")));
    }
    wanted.push("not finite by the table, usable: false".into());
    wanted.push("no finite value by the table, usable: false".into());
    for filter in ["no filter", "filter"] {
        for fsafe_type in 0..3 {
            wanted.extend((0..4).map(|quality| format!("{filter}, type {fsafe_type}, quality {quality} by the table")));
        }
    }
    wanted.extend(
        ["AO Position(())", "AO Safe", "AO Rest", "end of the total 1", "end of the total -1"].map(String::from),
    );
    wanted.extend(["DO Position(0)", "DO Position(1)", "DO Safe", "DO Rest"].map(String::from));
    for block in [4, 5] {
        wanted.extend((2..=6).map(|number| format!("write to block {block} refused {number}")));
    }
    for (input, length) in (0..5).flat_map(|input| [0, 1, 2, 3, 4, 5, 6].map(|length| (input, length))) {
        wanted.push(format!("telegram of {length} bytes on input {input}"));
    }
    wanted.extend([14, 15, 17, 18, 19, 20].map(|length| format!("image of {length} bytes")));
    for block in 0..7 {
        wanted.extend([15, 18, 19, 20].map(|length| format!("part {block} of {length} bytes")));
    }
    wanted.extend(Contact::all());
    wanted.extend(Heard::all());
    wanted.extend((0..16).map(|alarms| format!("alarms {alarms}")));
    wanted.extend((0..256).map(|status| format!("input status {status}")));
    for block in 1..=5 {
        wanted.extend([0x80, 0x10, 0x08].map(|mode| format!("block {block} in {mode:02X}")));
    }
    wanted.extend([3, 5].map(|block| format!("block {block} in 02")));
    let ain = [0x8E, 0x8D, 0x8A, 0x89, 0x48, 0x44, 0x4C, 0x10, 0x04];
    wanted.extend(ain.map(|status| format!("block 1 status {status:02X}")));
    wanted.extend([0x40, 0x44, 0x4C, 0x10, 0x04, 0x80].map(|status| format!("block 2 status {status:02X}")));
    wanted.extend([0x80, 0x48, 0x44, 0x4C, 0x00, 0x04].map(|status| format!("block 3 status {status:02X}")));
    wanted.extend([0x48, 0x44, 0x4C, 0x04, 0x80, 0x40].map(|status| format!("block 4 status {status:02X}")));
    wanted.extend([0x80, 0x48, 0x44, 0x4C, 0x00].map(|status| format!("block 5 status {status:02X}")));
    let with_rcas = &[0x08, 0x02, 0x80][..];
    for (block, targets) in [(1, &[0x08, 0x80][..]), (3, with_rcas), (4, &[0x08, 0x80]), (5, with_rcas)] {
        wanted.extend(targets.iter().map(|target| format!("block {block} into Man from {target:02X}")));
        wanted.extend(IN_MAN.map(|what| format!("block {block} {what}")));
    }
    let times = |what: &String| seen.get(what).copied().unwrap_or(0);
    let seldom: Vec<_> = wanted.iter().filter(|what| times(what) < 100).map(|what| (what, times(what))).collect();
    assert!(seldom.is_empty(), "of {} cases less than 100 times: {seldom:#?}", wanted.len());
    println!("{} cases", wanted.len());
    assert_eq!(wanted.iter().collect::<BTreeSet<_>>().len(), wanted.len(), "each case once");
    assert_eq!(accepted.len(), 1 + 13 + 6 + 8 + 5 + 6, "every parameter but those that are R: {accepted:?}");
    assert!(refused_writes * 2 < writes, "{refused_writes} of {writes} writes refused");
    assert!(young * 3 < replaced, "{young} of {replaced} tables replaced soon");
    assert!(linearised >= 500_000, "{linearised} ticks by a table");
}

/// AIN, AO, DI and DO with the number of OUT.
const BY_HAND: [(u8, u8); 4] = [(1, 10), (3, 37), (4, 10), (5, 10)];

/// What is to be seen of each of them in Man, besides the targets from which they enter it.
const IN_MAN: [&str; 8] = [
    "into Man under 1F",
    "into Man again without a tick",
    "in Man over Man",
    "in Man as entered",
    "in Man as entered before a fault",
    "in Man as written",
    "in Man after a refused target",
    "in Man after a warm start",
];

/// What came to a block since it entered Man.
#[derive(Clone, Copy, Default)]
struct ByHand {
    entered: bool,
    written: bool,
    ticked: bool,
    fault: bool,
    refused: bool,
}

impl ByHand {
    /// What is to be seen of a call, `target` being the one before it.
    fn after(&mut self, call: &Call, answer: Answer, head: &Model, block: u8, out: u8, target: u32) -> Vec<String> {
        let mut seen = Vec::new();
        match *call {
            Call::Factory | Call::Warm => *self = ByHand::default(),
            Call::Write(to, 5, mode, _) if to == block => {
                if answer != Answer::Ok {
                    self.refused = true;
                } else if mode == 0x10 && target == 0x10 {
                    seen.push("in Man over Man".into());
                } else if mode == 0x10 {
                    seen.push(format!("into Man from {target:02X}"));
                    seen.extend((head.read(block, out).unwrap().1 == 0x1F).then(|| "into Man under 1F".into()));
                    seen.extend((self.entered && !self.ticked).then(|| "into Man again without a tick".into()));
                    *self = ByHand { entered: true, ..ByHand::default() };
                }
            }
            Call::Write(to, number, ..) if (to, number) == (block, out) && answer == Answer::Ok => self.written = true,
            Call::Tick { fault, .. } => {
                self.ticked = true;
                self.fault |= fault;
                if head.read(block, 6) == Ok((0x10, 0)) {
                    let kind = match (self.entered, self.written, self.fault) {
                        (_, true, _) => "in Man as written",
                        (true, false, true) => "in Man as entered before a fault",
                        (true, false, false) => "in Man as entered",
                        (false, false, _) => "in Man after a warm start",
                    };
                    seen.push(kind.into());
                    seen.extend(self.refused.then(|| "in Man after a refused target".into()));
                }
            }
            _ => {}
        }
        seen
    }
}

/// DI's last usable value since start, by the calls alone.
#[derive(Clone, Copy, Default)]
struct Contact {
    last_usable: Option<u8>,
}

/// What DI's input is, by its quality and value.
fn input_of_di((value, status): (u8, u8)) -> String {
    format!("quality {}, {}", status >> 6, if value > 1 { "over 1" } else { "0 or 1" })
}

/// What it does with it: the input when it is not usable, FSAFE_TYPE, INVERT and whether there is a last usable value.
fn failed(input: &str, fsafe_type: u32, invert: u32, last: Option<u8>) -> String {
    let last = if last.is_some() { "a last value" } else { "none" };
    format!("DI {input}: type {fsafe_type}, INVERT {invert}, {last}")
}

impl Contact {
    /// What is to be seen of a call: an Auto tick of DI.
    fn after(&mut self, call: &Call, head: &Model) -> Option<String> {
        let word = |parameter| head.read(4, parameter).unwrap().0;
        match *call {
            Call::Factory | Call::Warm => *self = Contact::default(),
            Call::Tick { di, .. } if word(6) == 0x08 => {
                let (input, invert) = (input_of_di(di), word(15));
                if di.0 > 1 || !(1..=2).contains(&(di.1 >> 6)) {
                    return Some(failed(&input, word(20), invert, self.last_usable));
                }
                self.last_usable = Some(di.0);
                return Some(format!("DI {input}: {}, INVERT {invert}", di.0));
            }
            _ => {}
        }
        None
    }

    fn all() -> Vec<String> {
        let mut all = Vec::new();
        for (quality, invert) in (0..4).flat_map(|quality| [(quality, 0), (quality, 1)]) {
            let [one, over] = [1, 2].map(|value| input_of_di((value, quality << 6)));
            let usable = quality == 1 || quality == 2;
            if usable {
                all.extend([0, 1].map(|value| format!("DI {one}: {value}, INVERT {invert}")));
            }
            for (input, fsafe_type) in [&one, &over].into_iter().skip(usize::from(usable)).flat_map(each_type) {
                all.extend([Some(0), None].map(|last| failed(input, fsafe_type, invert, last)));
            }
        }
        all
    }
}

/// The same with each FSAFE_TYPE.
fn each_type<T: Copy>(what: T) -> [(T, u32); 3] {
    [0, 1, 2].map(|fsafe_type| (what, fsafe_type))
}

/// The telegrams on SP_D or RCAS_IN_D since start, by the calls alone.
#[derive(Clone, Copy, Default)]
struct Heard {
    usable: bool,
    n: u32,
    ifs: bool,
}

const CAUSES: [&str; 5] = ["no telegram", "IFS alone", "silence", "IFS", "IFS and silence"];

/// A telegram to DO by what its status and its value are.
fn telegram_to_do(value: u8, status: u8) -> String {
    let class = match (status >> 6, status >> 2 & 15) {
        (2 | 3, 8) => "IFS",
        (2 | 3, _) => "good",
        _ => "not good",
    };
    format!("{class}, {}", if value > 1 { "over 1" } else { "0 or 1" })
}

impl Heard {
    /// What is to be seen of a call: a telegram on this input, or a tick that goes by it.
    fn after(&mut self, call: &Call, head: &Model, input: u8) -> Vec<String> {
        let word = |parameter| head.read(5, parameter).unwrap().0;
        let mode = [0x08, 0x02][usize::from(input)];
        let mut seen = Vec::new();
        match *call {
            Call::Factory | Call::Warm => *self = Heard::default(),
            Call::Telegram(to, bytes) if to == 2 + input => {
                let [value, status] = *bytes else { return seen };
                let what = telegram_to_do(value, status);
                match &*what {
                    "good, 0 or 1" => *self = Heard { usable: true, ..Heard::default() },
                    "IFS, 0 or 1" | "IFS, over 1" => self.ifs = true,
                    _ => {}
                }
                seen.push(format!("DO in {mode:02X} hears {what}"));
            }
            Call::Tick { .. } => {
                if word(6) == mode {
                    let late = self.n > word(22);
                    let cause = match (self.usable, self.ifs, late) {
                        (false, false, _) => CAUSES[0],
                        (false, true, _) => CAUSES[1],
                        (true, false, true) => CAUSES[2],
                        (true, true, false) => CAUSES[3],
                        (true, true, true) => CAUSES[4],
                        (true, false, false) => "",
                    };
                    let settings = format!("INVERT {}, FSAFE_VAL_D {}", word(15), word(21));
                    seen.push(match cause {
                        "" => format!("DO in {mode:02X} follows, INVERT {}, OUT_D {}", word(15), word(10)),
                        _ => format!("DO in {mode:02X} by {cause}, type {}, {settings}", word(20)),
                    });
                    if self.usable && !self.ifs && [word(22), word(22) + 1].contains(&self.n) {
                        seen.push(format!("DO in {mode:02X} at the end of FSAFE_TIME, late: {late}"));
                    }
                }
                self.n += 1;
            }
            _ => {}
        }
        seen
    }

    fn all() -> Vec<String> {
        let mut all = Vec::new();
        for mode in ["08", "02"] {
            for class in ["IFS", "good", "not good"] {
                all.extend(["0 or 1", "over 1"].map(|value| format!("DO in {mode} hears {class}, {value}")));
            }
            all.extend([false, true].map(|late| format!("DO in {mode} at the end of FSAFE_TIME, late: {late}")));
            for (invert, bit) in [(0, 0), (0, 1), (1, 0), (1, 1)] {
                all.push(format!("DO in {mode} follows, INVERT {invert}, OUT_D {bit}"));
                for (cause, kind) in CAUSES.into_iter().flat_map(each_type) {
                    all.push(format!("DO in {mode} by {cause}, type {kind}, INVERT {invert}, FSAFE_VAL_D {bit}"));
                }
            }
        }
        all
    }
}

/// The pairs of a load that was accepted.
fn pairs(bytes: &[u8]) -> Vec<(f32, f32)> {
    let float = |at: &[u8]| f32::from_be_bytes(at.try_into().unwrap());
    bytes.chunks(8).map(|pair| (float(&pair[..4]), float(&pair[4..]))).collect()
}

#[rustfmt::skip]
const PLACES: [&str; 10] = [
    "below the first x", "next below the first x", "at the first x", "at an inner x", "next below an inner x",
    "next above an x", "within a segment", "next below the last x", "at the last x", "above the last x",
];

/// Where an input lies in a table.
fn place(table: &[(f32, f32)], x: f32) -> &'static str {
    let (first, last) = (table[0].0, table[table.len() - 1].0);
    let inner = &table[1..table.len() - 1];
    let used = table.iter().rposition(|pair| pair.0 <= x);
    let overflowed = used
        .and_then(|used| Some((table[used], *table.get(used + 1)?)))
        .is_some_and(|((x0, y0), (x1, y1))| !(y0 + (x - x0) * (y1 - y0) / (x1 - x0)).is_finite());
    match x {
        x if !x.is_finite() => "not finite",
        _ if overflowed => "no finite value",
        x if x == first => "at the first x",
        x if x == last => "at the last x",
        x if inner.iter().any(|pair| pair.0 == x) => "at an inner x",
        x if x.next_up() == first => "next below the first x",
        x if x.next_up() == last => "next below the last x",
        x if inner.iter().any(|pair| x.next_up() == pair.0) => "next below an inner x",
        x if x < first => "below the first x",
        x if x > last => "above the last x",
        x if table.iter().any(|pair| x.next_down() == pair.0) => "next above an x",
        _ => "within a segment",
    }
}

/// A head that goes wrong at the third tick with HI standing; the report is the shortest script that shows it.
#[test]
fn a_difference_is_shrunk() {
    struct Wrong(Model, u32);
    impl Head for Wrong {
        fn factory(&mut self) {
            *self = Wrong(Model::factory(), 0);
        }
        fn tick(&mut self, fault: bool, ain: (u32, u8), tot: (u32, u8), di: (u8, u8)) -> Orders {
            let orders = self.0.tick(fault, ain, tot, di);
            self.1 += u32::from(self.0.read(1, 7) == Ok((2, 0)));
            if self.1 == 3 {
                Orders { ao: Order::Safe, ..orders }
            } else {
                orders
            }
        }
        fn telegram(&mut self, input: u8, bytes: &[u8]) -> Result<(), u8> {
            self.0.telegram(input, bytes)
        }
        fn write(&mut self, block: u8, parameter: u8, w1: u32, w2: u32) -> Result<(), u8> {
            self.0.write(block, parameter, w1, w2)
        }
        fn read(&self, block: u8, parameter: u8) -> Result<(u32, u32), u8> {
            self.0.read(block, parameter)
        }
        fn warm_start(&mut self) {
            self.0.warm_start();
        }
        fn image(&self, buf: &mut [u8]) -> Result<(), u8> {
            self.0.image(buf)
        }
        fn part<'a>(&self, block: u8, buf: &'a [u8]) -> &'a [u8] {
            Model::part(block, buf)
        }
        fn total(&self) -> i64 {
            self.0.total()
        }
        fn load(&mut self, bytes: &[u8]) -> Result<(), u8> {
            self.0.load(bytes)
        }
    }
    let wrong = || -> Box<dyn Head> { Box::new(Wrong(Model::factory(), 0)) };
    let found = compare(&model, &wrong, histories(1, 20)).expect_err("a difference");
    assert_eq!(found.history.len(), 4, "{found}");
    let tick = "tick 0 0x00000000 0x80 0x00000000 0x80 0 0x80\n";
    let answers = "# left:  position 0x00000000 position 0\n# right: safe position 0\n";
    assert_eq!(found.to_string(), format!("write 1 23 0x00000000 0x00000000\n{tick}{tick}{tick}{answers}"));
    // What is found may be played again and shrunk again, with no change.
    let again = run(&model, &wrong, &found.history).expect("the same");
    assert_eq!(shrink(&model, &wrong, again).history, found.history);
}
