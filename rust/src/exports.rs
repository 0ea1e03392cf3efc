//! The library's nine functions as C sees them. Their contracts are proved. That the declarations here
//! match them is not: compare them with `crates/tns/src/`, and the answers with `crates/answer_call/src/`
//! and `crates/answer_block/src/`.

/// The answer of a call. Refusal 0 means accepted.
#[derive(Clone, Copy)]
#[repr(C)]
pub struct Answer {
    pub refusal: u16,
    pub place: u16,
    pub found: u16,
    pub bits: u16,
}

/// The answer of a call on a block.
#[derive(Clone, Copy)]
#[repr(C)]
pub struct BlockAnswer {
    pub refusal: u16,
    pub records: u16,
}

/// The answer of the rescue of a block.
#[derive(Clone, Copy)]
#[repr(C)]
pub struct RescueAnswer {
    pub refusal: u16,
    pub number: u16,
}

extern "C" {
    pub fn tns_encode(
        duration: u8,
        bandwidth: u8,
        bits: u64,
        near_nyquist: bool,
        lines: *mut f32,
        lines_len: usize,
        side: *mut [u8; 20],
        coefficients: *mut [f32; 16],
        gains: *mut [f32; 4],
        on: *mut [u8; 2],
    ) -> Answer;
    pub fn tns_decode(
        duration: u8,
        bandwidth: u8,
        filters: u8,
        orders: *const u8,
        orders_len: usize,
        indices: *const u8,
        indices_len: usize,
        lines: *mut f32,
        lines_len: usize,
    ) -> Answer;
    pub fn tns_decode_save(
        duration: u8,
        bandwidth: u8,
        filters: u8,
        orders: *const u8,
        orders_len: usize,
        indices: *const u8,
        indices_len: usize,
        spectrum: *const f32,
        spectrum_len: usize,
        output: *mut f32,
        output_len: usize,
        n: usize,
        states: *mut [f32; 8],
    ) -> Answer;
    pub fn tns_decode_restart(
        duration: u8,
        bandwidth: u8,
        filters: u8,
        orders: *const u8,
        orders_len: usize,
        indices: *const u8,
        indices_len: usize,
        spectrum: *const f32,
        spectrum_len: usize,
        output: *mut f32,
        output_len: usize,
        n: usize,
        states: *const [f32; 8],
    ) -> Answer;
    pub fn tns_cost(
        weighting: u8,
        filters: u8,
        orders: *const u8,
        orders_len: usize,
        indices: *const u8,
        indices_len: usize,
    ) -> Answer;
    pub fn tns_cost_2048ths(
        weighting: u8,
        filters: u8,
        orders: *const u8,
        orders_len: usize,
        indices: *const u8,
        indices_len: usize,
        parts: *mut [u32; 2],
    ) -> Answer;
    pub fn tns_block_write(
        number: u64,
        records: *const u8,
        records_len: usize,
        block: *mut [u8; 512],
    ) -> BlockAnswer;
    pub fn tns_block_read(
        number: u64,
        block: *const u8,
        block_len: usize,
        records: *mut [u8; 480],
    ) -> BlockAnswer;
    pub fn tns_block_rescue(
        number: u64,
        bytes: *const u8,
        bytes_len: usize,
        block: *mut [u8; 512],
    ) -> RescueAnswer;
}
