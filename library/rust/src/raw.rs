//! The exported functions as they are: ../crackledray.h has the words of each. A slice is a pointer and a length.

/// What crackledray_version() gives where the archive is this one's: major, minor and patch, 8 bits each.
pub const VERSION: u32 = 0x00_0800;
pub const STATE: usize = 399;
/// The first number of a state: which layout it has.
pub const STATE_VERSION: u64 = 3;
pub const STORE: usize = 4096;
/// Samples of a block, at most, under the first edition.
pub const COUNT: usize = 128;
/// And under the second.
pub const LONG_COUNT: usize = 1024;
/// Bytes of a schedule file that is written, at most.
pub const FILE_LENGTH: usize = 17867;
/// Numbers that keep a reader of a file between two parts.
pub const CARD_LENGTH: usize = 408;
/// The first of them: which layout they have.
pub const CARD_VERSION: u64 = 1;
/// Bytes of a reader's window.
pub const WINDOW_LENGTH: usize = 65538;
/// Bytes of a part, at most.
pub const PART_LENGTH: usize = 65536;

extern "C" {
    pub fn crackledray_version() -> u32;
    pub fn crackledray_make(
        state: *mut u64,
        state_length: usize,
        min: f32,
        default: f32,
        max: f32,
        k_rate: bool,
    ) -> u32;
    pub fn crackledray_make_under(
        state: *mut u64,
        state_length: usize,
        min: f32,
        default: f32,
        max: f32,
        k_rate: bool,
        edition: u64,
    ) -> u32;
    pub fn crackledray_set(state: *mut u64, state_length: usize, value: f32) -> u32;
    pub fn crackledray_step(state: *mut u64, state_length: usize, value: f32, time: f64) -> u32;
    pub fn crackledray_linear(state: *mut u64, state_length: usize, value: f32, time: f64) -> u32;
    pub fn crackledray_exponential(
        state: *mut u64,
        state_length: usize,
        value: f32,
        time: f64,
    ) -> u32;
    pub fn crackledray_target(
        state: *mut u64,
        state_length: usize,
        value: f32,
        time: f64,
        constant: f64,
    ) -> u32;
    pub fn crackledray_curve(
        state: *mut u64,
        state_length: usize,
        values: *const f32,
        values_length: usize,
        time: f64,
        duration: f64,
        store: *mut f32,
        store_length: usize,
    ) -> u32;
    pub fn crackledray_cancel(
        state: *mut u64,
        state_length: usize,
        time: f64,
        store: *mut f32,
        store_length: usize,
    ) -> u32;
    pub fn crackledray_hold(
        state: *mut u64,
        state_length: usize,
        time: f64,
        store: *mut f32,
        store_length: usize,
    ) -> u32;
    pub fn crackledray_block(
        state: *mut u64,
        state_length: usize,
        time: f64,
        period: f64,
        count: usize,
        input: *const f32,
        input_length: usize,
        output: *mut f32,
        output_length: usize,
        store: *mut f32,
        store_length: usize,
        steps: *mut usize,
        current: *mut f32,
        one: *mut bool,
    ) -> u32;
    pub fn crackledray_card_write(
        state: *const u64,
        state_length: usize,
        store: *const f32,
        store_length: usize,
        out: *mut u8,
        out_length: usize,
        at: *mut usize,
    ) -> u32;
    pub fn crackledray_card_open(
        card: *mut u64,
        card_length: usize,
        numbers: *mut f32,
        numbers_length: usize,
        k_rate: bool,
        edition: u64,
    ) -> u32;
    pub fn crackledray_card_part(
        card: *mut u64,
        card_length: usize,
        window: *mut u8,
        window_length: usize,
        numbers: *mut f32,
        numbers_length: usize,
        part: *const u8,
        part_length: usize,
    ) -> u32;
    pub fn crackledray_card_end(
        card: *const u64,
        card_length: usize,
        window: *const u8,
        window_length: usize,
        numbers: *mut f32,
        numbers_length: usize,
        state: *mut u64,
        state_length: usize,
        store: *mut f32,
        store_length: usize,
        at: *mut usize,
    ) -> u32;
}
