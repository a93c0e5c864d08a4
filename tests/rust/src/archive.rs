//! The proved head: the calls that `libcapi.a` exports, declared as `include/serkoviu.h` declares them.

use std::fmt::Debug;
use std::mem::{align_of, offset_of, size_of};

use crate::calls::{Head, Order, Orders};
use crate::model::Model;

/// How a struct lies in memory.
pub struct Layout {
    pub name: &'static str,
    pub size: usize,
    pub alignment: usize,
    /// Name, type and offset.
    pub fields: &'static [(&'static str, &'static str, usize)],
}

/// Declares structs as C lays them out, and `LAYOUTS`, a list of their layouts.
macro_rules! c_structs {
    ($($name:ident { $($field:ident: $type:ty),* })*) => {
        $(#[repr(C)]
        #[derive(Clone, Copy, Debug, PartialEq)]
        pub struct $name { $(pub $field: $type),* })*

        pub const LAYOUTS: &[Layout] = &[$(Layout {
            name: stringify!($name),
            size: size_of::<$name>(),
            alignment: align_of::<$name>(),
            fields: &[$((stringify!($field), stringify!($type), offset_of!($name, $field))),*],
        }),*];
    };
}

c_structs! {
    Pair { bits: u32, status: u8 }
    Scale { low: f32, high: f32 }
    Kept { some: bool, value: f32 }
    Discrete { value: u8, status: u8 }
    KeptD { some: bool, value: u8 }
    AinSettings {
        target: u32, pv_scale: Scale, out_scale: Scale, lin_type: u32, pv_ftime: f32, fsafe_type: u32, fsafe_value: f32,
        alarm_hys: f32, hi_hi_lim: f32, hi_lim: f32, lo_lim: f32, lo_lo_lim: f32
    }
    Alarms { hi_hi: bool, hi: bool, lo: bool, lo_lo: bool }
    AinState { out: Pair, mode: u32, filter: Kept, last: Kept, operator: Pair, alarms: Alarms }
    Point { x: f32, y: f32 }
    Table { count: u32, points: [Point; 21] }
    TotSettings { target: u32, set_tot: u32, mode_tot: u32, fail_tot: u32, preset_tot: f32 }
    TotState { total: i64, out: Pair, mode: u32, rate: Kept, operator_status: u8 }
    AoSettings {
        target: u32, pv_scale: Scale, out_scale: Scale, fsafe_time: u32, fsafe_type: u32, fsafe_value: f32,
        increase_close: u32
    }
    AoInput { some: bool, value: f32, silence: u32, ifs: bool }
    AoState { out: Pair, mode: u32, operator: Pair, sp: AoInput, rcas_in: AoInput }
    DiSettings { target: u32, invert: u32, fsafe_type: u32, fsafe_val_d: u32 }
    DiState { out: Discrete, mode: u32, last: KeptD, operator: Discrete }
    DoSettings { target: u32, invert: u32, fsafe_type: u32, fsafe_val_d: u32, fsafe_time: u32 }
    DoInput { some: bool, value: u8, silence: u32, ifs: bool }
    DoState { out: Discrete, mode: u32, operator: Discrete, sp: DoInput, rcas_in: DoInput }
    AinBlock { settings: AinSettings, state: AinState, st_rev: u16, table: Table }
    TotBlock { settings: TotSettings, state: TotState, st_rev: u16 }
    AoBlock { settings: AoSettings, state: AoState, st_rev: u16 }
    DiBlock { settings: DiSettings, state: DiState, st_rev: u16 }
    DoBlock { settings: DoSettings, state: DoState, st_rev: u16 }
    Device { write_locking: u32, ain: AinBlock, tot: TotBlock, ao: AoBlock, di: DiBlock, dout: DoBlock }
    OrderNumbers { kind: u8, value: f32 }
    OrderDNumbers { kind: u8, value: u8 }
    OrdersNumbers { ao: OrderNumbers, dout: OrderDNumbers }
    ReadingNumbers { answer: u8, first: u32, second: u32 }
}

#[link(name = "capi", kind = "static")]
extern "C" {
    fn serkoviu_factory() -> Device;
    fn serkoviu_tick(device: *mut Device, fault: bool, ain: Pair, tot: Pair, di: Discrete) -> OrdersNumbers;
    fn serkoviu_telegram(device: *mut Device, input: u8, bytes: *const u8, length: usize) -> u8;
    fn serkoviu_write(device: *mut Device, block: u8, parameter: u8, first: u32, second: u32) -> u8;
    fn serkoviu_warm_start(device: *mut Device) -> u8;
    fn serkoviu_read(device: *const Device, block: u8, parameter: u8) -> ReadingNumbers;
    fn serkoviu_image(device: *const Device, buffer: *mut u8, length: usize) -> u8;
    fn serkoviu_total(device: *const Device) -> i64;
    fn serkoviu_load(device: *mut Device, bytes: *const u8, length: usize) -> u8;
    fn serkoviu_version() -> u32;
    fn serkoviu_pack(device: *const Device, buffer: *mut u8, length: usize) -> u8;
    fn serkoviu_unpack(device: *mut Device, bytes: *const u8, length: usize) -> u8;
}

/// The length of a packed device.
pub const PACKED_BYTES: usize = 564;

/// A device of the archive's.
pub struct Archive {
    pub device: Device,
}

/// An order from its numbers; a kind that has no value comes with 0.
fn order<V: Debug + Default + PartialEq>(kind: u8, value: V) -> Order<V> {
    match (kind, value == V::default()) {
        (0, _) => Order::Position(value),
        (1, true) => Order::Safe,
        (2, true) => Order::Rest,
        _ => panic!("no such order: {kind}, {value:?}"),
    }
}

fn accepted(answer: u8) -> Result<(), u8> {
    match answer {
        0 => Ok(()),
        number => Err(number),
    }
}

// The calls as C makes them; inlined, so that nothing stands between a caller and the archive. They are safe: the archive's
// contracts ask nothing of their arguments, and a reference is a valid pointer.
impl Archive {
    #[inline(always)]
    pub fn factory() -> Archive {
        Archive { device: unsafe { serkoviu_factory() } }
    }

    #[inline(always)]
    pub fn tick_in_numbers(&mut self, fault: bool, ain: Pair, tot: Pair, di: Discrete) -> OrdersNumbers {
        unsafe { serkoviu_tick(&mut self.device, fault, ain, tot, di) }
    }

    #[inline(always)]
    pub fn telegram_in_numbers(&mut self, input: u8, bytes: &[u8]) -> u8 {
        unsafe { serkoviu_telegram(&mut self.device, input, bytes.as_ptr(), bytes.len()) }
    }

    #[inline(always)]
    pub fn write_in_numbers(&mut self, block: u8, parameter: u8, first: u32, second: u32) -> u8 {
        unsafe { serkoviu_write(&mut self.device, block, parameter, first, second) }
    }

    #[inline(always)]
    pub fn warm_start_in_numbers(&mut self) -> u8 {
        unsafe { serkoviu_warm_start(&mut self.device) }
    }

    #[inline(always)]
    pub fn read_in_numbers(&self, block: u8, parameter: u8) -> ReadingNumbers {
        unsafe { serkoviu_read(&self.device, block, parameter) }
    }

    #[inline(always)]
    pub fn image_in_numbers(&self, buffer: &mut [u8]) -> u8 {
        unsafe { serkoviu_image(&self.device, buffer.as_mut_ptr(), buffer.len()) }
    }

    #[inline(always)]
    pub fn total_in_numbers(&self) -> i64 {
        unsafe { serkoviu_total(&self.device) }
    }

    #[inline(always)]
    pub fn load_in_numbers(&mut self, bytes: &[u8]) -> u8 {
        unsafe { serkoviu_load(&mut self.device, bytes.as_ptr(), bytes.len()) }
    }

    #[inline(always)]
    pub fn version() -> u32 {
        unsafe { serkoviu_version() }
    }

    #[inline(always)]
    pub fn pack(&self, buffer: &mut [u8]) -> u8 {
        unsafe { serkoviu_pack(&self.device, buffer.as_mut_ptr(), buffer.len()) }
    }

    #[inline(always)]
    pub fn unpack(&mut self, bytes: &[u8]) -> u8 {
        unsafe { serkoviu_unpack(&mut self.device, bytes.as_ptr(), bytes.len()) }
    }
}

impl Head for Archive {
    fn factory(&mut self) {
        *self = Archive::factory();
    }

    fn tick(&mut self, fault: bool, ain: (u32, u8), tot: (u32, u8), di: (u8, u8)) -> Orders {
        let [ain, tot] = [ain, tot].map(|(bits, status)| Pair { bits, status });
        let di = Discrete { value: di.0, status: di.1 };
        let OrdersNumbers { ao, dout } = self.tick_in_numbers(fault, ain, tot, di);
        Orders { ao: order(ao.kind, ao.value.to_bits()), dout: order(dout.kind, dout.value) }
    }

    fn telegram(&mut self, input: u8, bytes: &[u8]) -> Result<(), u8> {
        accepted(self.telegram_in_numbers(input, bytes))
    }

    fn write(&mut self, block: u8, parameter: u8, w1: u32, w2: u32) -> Result<(), u8> {
        accepted(self.write_in_numbers(block, parameter, w1, w2))
    }

    fn read(&self, block: u8, parameter: u8) -> Result<(u32, u32), u8> {
        match self.read_in_numbers(block, parameter) {
            ReadingNumbers { answer: 0, first, second } => Ok((first, second)),
            ReadingNumbers { answer, first: 0, second: 0 } => Err(answer),
            other => panic!("a refused read with words: {other:?}"),
        }
    }

    fn warm_start(&mut self) {
        assert_eq!(self.warm_start_in_numbers(), 0, "a warm start is never refused");
    }

    fn image(&self, buf: &mut [u8]) -> Result<(), u8> {
        accepted(self.image_in_numbers(buf))
    }

    /// Has no export: a returned part of a buffer does not cross to C. The model's own stands in, which compares nothing.
    fn part<'a>(&self, block: u8, buf: &'a [u8]) -> &'a [u8] {
        Model::part(block, buf)
    }

    fn total(&self) -> i64 {
        self.total_in_numbers()
    }

    fn load(&mut self, bytes: &[u8]) -> Result<(), u8> {
        accepted(self.load_in_numbers(bytes))
    }
}
