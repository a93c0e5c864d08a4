//! Calls on a head, their answers, and the text form of both: the call script.

use std::fmt;
use std::io::{self, BufRead, BufReader, Read, Write};
use std::ops::Deref;

/// A drive order. AO's position is given by its bits, DO's is 0 or 1.
#[derive(Clone, Copy, PartialEq, Eq, Debug)]
pub enum Order<V = u32> {
    Position(V),
    Safe,
    Rest,
}

impl<V> Order<V> {
    pub fn map<W>(self, position: impl Fn(V) -> W) -> Order<W> {
        match self {
            Order::Position(value) => Order::Position(position(value)),
            Order::Safe => Order::Safe,
            Order::Rest => Order::Rest,
        }
    }
}

/// What a tick gives.
#[derive(Clone, Copy, PartialEq, Eq, Debug)]
pub struct Orders {
    pub ao: Order,
    pub dout: Order<u8>,
}

/// An implementation of the head. A refused call gives its number.
pub trait Head {
    /// Takes a fresh device.
    fn factory(&mut self);
    /// The transducers' pairs are value and status; AIN's and TOT's values are given by their bits.
    fn tick(&mut self, fault: bool, ain: (u32, u8), tot: (u32, u8), di: (u8, u8)) -> Orders;
    fn telegram(&mut self, input: u8, bytes: &[u8]) -> Result<(), u8>;
    fn write(&mut self, block: u8, parameter: u8, w1: u32, w2: u32) -> Result<(), u8>;
    fn read(&self, block: u8, parameter: u8) -> Result<(u32, u32), u8>;
    fn warm_start(&mut self);
    fn image(&self, buf: &mut [u8]) -> Result<(), u8>;
    fn part<'a>(&self, block: u8, buf: &'a [u8]) -> &'a [u8];
    fn total(&self) -> i64;
    /// Loads AIN's linearisation table.
    fn load(&mut self, bytes: &[u8]) -> Result<(), u8>;
}

/// Most bytes of a telegram or buffer in a script.
pub const MOST_BYTES: usize = 64;
/// Most bytes of a load in a script.
pub const MOST_LOADED: usize = 256;
/// Longest line of a script, its 0x0A not counted.
pub const LONGEST_LINE: usize = 4096;
/// What the buffer of an `image` call holds before it.
const FILLER: u8 = 0xA5;

/// Up to 64 bytes; those past the end are 0, so that equal contents are equal.
#[derive(Clone, Copy, PartialEq, Eq, Debug)]
pub struct Bytes {
    bytes: [u8; MOST_BYTES],
    length: u8,
}

impl Bytes {
    pub fn new(from: &[u8]) -> Bytes {
        let mut bytes = [0; MOST_BYTES];
        bytes[..from.len()].copy_from_slice(from);
        Bytes { bytes, length: from.len() as u8 }
    }
}

impl Deref for Bytes {
    type Target = [u8];

    fn deref(&self) -> &[u8] {
        &self.bytes[..self.length.into()]
    }
}

/// A load is seldom made and up to four times as long as a telegram, so its bytes lie elsewhere.
#[derive(Clone, PartialEq, Eq, Debug)]
pub enum Call {
    Tick { fault: bool, ain: (u32, u8), tot: (u32, u8), di: (u8, u8) },
    Telegram(u8, Bytes),
    Write(u8, u8, u32, u32),
    Read(u8, u8),
    Warm,
    Factory,
    Image(u8),
    Part(u8, u8),
    Total,
    Load(Box<[u8]>),
}

#[derive(Clone, Copy, PartialEq, Eq, Debug)]
pub enum Answer {
    Ok,
    Refused(u8),
    Orders(Orders),
    Words(u32, u32),
    Bytes(Bytes),
    Total(i64),
    /// No head may do this; it is an answer so that a comparison meets and shrinks it like any other.
    Breach(&'static str),
}

impl Call {
    /// Makes the call on a head. Lengths are at most 64.
    pub fn on(&self, head: &mut dyn Head) -> Answer {
        let accepted = |result| match result {
            Ok(()) => Answer::Ok,
            Err(number) => Answer::Refused(number),
        };
        match *self {
            Call::Tick { fault, ain, tot, di } => Answer::Orders(head.tick(fault, ain, tot, di)),
            Call::Telegram(input, ref bytes) => accepted(head.telegram(input, bytes)),
            Call::Write(block, parameter, w1, w2) => accepted(head.write(block, parameter, w1, w2)),
            Call::Read(block, parameter) => match head.read(block, parameter) {
                Ok((w1, w2)) => Answer::Words(w1, w2),
                Err(number) => Answer::Refused(number),
            },
            Call::Warm => {
                head.warm_start();
                Answer::Ok
            }
            Call::Factory => {
                head.factory();
                Answer::Ok
            }
            Call::Image(length) => {
                let mut room = [FILLER; MOST_BYTES];
                let buf = &mut room[..length.into()];
                match head.image(buf) {
                    Ok(()) => Answer::Bytes(Bytes::new(buf)),
                    Err(number) if buf.iter().all(|&b| b == FILLER) => Answer::Refused(number),
                    Err(_) => Answer::Breach("refused image call wrote into the buffer"),
                }
            }
            Call::Part(block, length) => {
                let room: [u8; MOST_BYTES] = std::array::from_fn(|i| i as u8);
                let buf = &room[..length.into()];
                let part = head.part(block, buf);
                let lent = buf.as_ptr_range();
                let own = part.as_ptr_range();
                if part.is_empty() || (lent.start <= own.start && own.end <= lent.end) {
                    Answer::Bytes(Bytes::new(part))
                } else {
                    Answer::Breach("part is not of the caller's buffer")
                }
            }
            Call::Total => Answer::Total(head.total()),
            Call::Load(ref bytes) => accepted(head.load(bytes)),
        }
    }
}

/// The line of the call script, without 0x0A.
impl fmt::Display for Call {
    fn fmt(&self, f: &mut fmt::Formatter) -> fmt::Result {
        let write_bytes =
            |f: &mut fmt::Formatter, bytes: &[u8]| bytes.iter().try_for_each(|byte| write!(f, " {byte:#04X}"));
        match self {
            Call::Tick { fault, ain, tot, di } => {
                write!(f, "tick {}", u8::from(*fault))?;
                write!(f, " {:#010X} {:#04X} {:#010X} {:#04X}", ain.0, ain.1, tot.0, tot.1)?;
                write!(f, " {} {:#04X}", di.0, di.1)
            }
            Call::Telegram(input, bytes) => {
                write!(f, "telegram {input}")?;
                write_bytes(f, bytes)
            }
            Call::Write(block, parameter, w1, w2) => {
                write!(f, "write {block} {parameter} {:#010X} {:#010X}", *w1, *w2)
            }
            Call::Read(block, parameter) => write!(f, "read {block} {parameter}"),
            Call::Warm => write!(f, "warm"),
            Call::Factory => write!(f, "factory"),
            Call::Image(length) => write!(f, "image {length}"),
            Call::Part(block, length) => write!(f, "part {block} {length}"),
            Call::Total => write!(f, "total"),
            Call::Load(bytes) => {
                write!(f, "load")?;
                write_bytes(f, bytes)
            }
        }
    }
}

impl fmt::Display for Answer {
    fn fmt(&self, f: &mut fmt::Formatter) -> fmt::Result {
        match self {
            Answer::Ok => write!(f, "ok"),
            Answer::Refused(number) => write!(f, "refused {number}"),
            Answer::Orders(Orders { ao, dout }) => {
                match ao {
                    Order::Position(bits) => write!(f, "position {:#010X} ", *bits)?,
                    Order::Safe => write!(f, "safe ")?,
                    Order::Rest => write!(f, "rest ")?,
                }
                match dout {
                    Order::Position(value) => write!(f, "position {value}"),
                    Order::Safe => write!(f, "safe"),
                    Order::Rest => write!(f, "rest"),
                }
            }
            Answer::Words(w1, w2) => write!(f, "words {:#010X} {:#010X}", *w1, *w2),
            Answer::Bytes(bytes) => {
                write!(f, "bytes")?;
                bytes.iter().try_for_each(|byte| write!(f, " {byte:02X}"))
            }
            Answer::Total(total) => write!(f, "total {total}"),
            Answer::Breach(what) => write!(f, "breach: {what}"),
        }
    }
}

/// What a line of a script is.
#[derive(Clone, PartialEq, Eq, Debug)]
pub enum Line {
    Call(Call),
    /// No word or a remark: no answer.
    Nothing,
    /// Answered `error`.
    Malformed,
}

/// Reads a line, given without its 0x0A.
pub fn parse(line: &[u8]) -> Line {
    if line.len() > LONGEST_LINE {
        return Line::Malformed;
    }
    let mut words = line.split(|&byte| byte == b' ').filter(|word| !word.is_empty());
    match words.next() {
        None => Line::Nothing,
        Some(_) if line[0] == b'#' => Line::Nothing,
        Some(name) => parse_call(name, words).map_or(Line::Malformed, Line::Call),
    }
}

fn parse_call<'a>(name: &[u8], mut words: impl Iterator<Item = &'a [u8]>) -> Option<Call> {
    let mut number = |most: u32| number(words.next()?, most);
    let call = match name {
        b"tick" => Call::Tick {
            fault: number(1)? == 1,
            ain: (number(u32::MAX)?, number(255)? as u8),
            tot: (number(u32::MAX)?, number(255)? as u8),
            di: (number(255)? as u8, number(255)? as u8),
        },
        b"telegram" => {
            let input = number(255)? as u8;
            Call::Telegram(input, Bytes::new(&bytes(&mut words, MOST_BYTES)?))
        }
        b"write" => Call::Write(number(255)? as u8, number(255)? as u8, number(u32::MAX)?, number(u32::MAX)?),
        b"read" => Call::Read(number(255)? as u8, number(255)? as u8),
        b"warm" => Call::Warm,
        b"factory" => Call::Factory,
        b"image" => Call::Image(number(MOST_BYTES as u32)? as u8),
        b"part" => Call::Part(number(255)? as u8, number(MOST_BYTES as u32)? as u8),
        b"total" => Call::Total,
        b"load" => Call::Load(bytes(&mut words, MOST_LOADED)?.into()),
        _ => return None,
    };
    words.next().is_none().then_some(call)
}

/// All words that are left, as bytes.
fn bytes<'a>(words: &mut impl Iterator<Item = &'a [u8]>, most: usize) -> Option<Vec<u8>> {
    let bytes: Option<Vec<u8>> = words.map(|word| number(word, 255).map(|byte| byte as u8)).collect();
    bytes.filter(|bytes| bytes.len() <= most)
}

/// Decimal, or hexadecimal after `0x`; any number of leading zeros.
fn number(word: &[u8], most: u32) -> Option<u32> {
    let (digits, radix) = match word.strip_prefix(b"0x") {
        Some(digits) => (digits, 16),
        None => (word, 10),
    };
    if digits.is_empty() {
        return None;
    }
    digits.iter().try_fold(0u32, |value, &digit| {
        let digit = char::from(digit).to_digit(radix)?;
        value.checked_mul(radix)?.checked_add(digit).filter(|&value| value <= most)
    })
}

/// Makes the calls of a script on a head and writes the answers. No more than one line is ever held.
pub fn replay(head: &mut dyn Head, input: impl Read, output: &mut dyn Write) -> io::Result<()> {
    let mut input = BufReader::new(input);
    let mut line = Vec::new();
    loop {
        if input.buffer().is_empty() {
            // Nothing more is at hand: whoever sends the calls may be waiting for the answers.
            output.flush()?;
        }
        line.clear();
        input.by_ref().take(LONGEST_LINE as u64 + 1).read_until(b'\n', &mut line)?;
        if line.is_empty() {
            return output.flush();
        }
        if line.last() == Some(&b'\n') {
            line.pop();
        } else if line.len() > LONGEST_LINE {
            input.skip_until(b'\n')?;
        }
        match parse(&line) {
            Line::Call(call) => writeln!(output, "{}", call.on(head))?,
            Line::Nothing => {}
            Line::Malformed => writeln!(output, "error")?,
        }
    }
}
