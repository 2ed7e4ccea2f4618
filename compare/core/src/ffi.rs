//! The C interface of `libqcow2_c.a`. Each call answers 0 for done, 1 to 999
//! for a refusal, or one of the codes below, and stores each number that it is
//! lent, 0 for a refusal; nothing is allocated and nothing global is touched. The
//! calls without a backing file are inline functions of the C header over these.

pub const STOPPED: u32 = 1001;
pub const LEAKS: u32 = 1004;
pub const BAD_L1: u32 = 1005;
pub const BAD_L2: u32 = 1006;
pub const SHARED: u32 = 1007;
pub const SHORT: u32 = 1008;
pub const SNAPSHOT_BAD_L1: u32 = 1009;
pub const SNAPSHOT_BAD_L2: u32 = 1010;
pub const MARK_L1: u32 = 1011;
pub const MARK_L2: u32 = 1012;
pub const MORE: u32 = 1013;
pub const BATCH_ENDS: u32 = 1014;

extern "C" {
    pub fn qcow2_backed_geometry(
        image: *const u8,
        n: usize,
        backing: *const u8,
        b: usize,
        cluster_bits: *mut u64,
        size: *mut u64,
        clusters: *mut u64,
    ) -> u32;
    pub fn qcow2_backing_name(image: *const u8, n: usize, at: *mut u64, len: *mut u64) -> u32;
    pub fn qcow2_backed_translate(
        image: *const u8,
        n: usize,
        backing: *const u8,
        b: usize,
        offset: u64,
        host: *mut u64,
    ) -> u32;
    pub fn qcow2_backed_read(
        image: *const u8,
        n: usize,
        backing: *const u8,
        b: usize,
        offset: u64,
        out: *mut u8,
        out_len: usize,
    ) -> u32;
    pub fn qcow2_backed_read_snapshot(
        image: *const u8,
        n: usize,
        backing: *const u8,
        b: usize,
        snapshot: u64,
        offset: u64,
        out: *mut u8,
        out_len: usize,
    ) -> u32;
    pub fn qcow2_backed_lookup(
        image: *const u8,
        n: usize,
        backing: *const u8,
        b: usize,
        offset: u64,
    ) -> usize;
    pub fn qcow2_backed_runs(
        image: *const u8,
        n: usize,
        backing: *const u8,
        b: usize,
        offset: u64,
        len: u64,
        rows: *mut u64,
        m: usize,
        count: *mut u64,
    ) -> u32;
    pub fn qcow2_backed_write(
        image: *mut u8,
        n: usize,
        backing: *const u8,
        b: usize,
        offset: u64,
        data: *const u8,
        len: usize,
        allowance: u64,
        units: *mut u64,
    ) -> u32;
    pub fn qcow2_backed_discard(
        image: *mut u8,
        n: usize,
        backing: *const u8,
        b: usize,
        cluster: u64,
        allowance: u64,
        units: *mut u64,
    ) -> u32;
    pub fn qcow2_backed_repair(
        image: *mut u8,
        n: usize,
        backing: *const u8,
        b: usize,
        scratch: *mut u8,
        m: usize,
        allowance: u64,
        units: *mut u64,
    ) -> u32;
    pub fn qcow2_extend(image: *mut u8, n: usize, old: u64, allowance: u64, units: *mut u64)
        -> u32;
    pub fn qcow2_backed_write_steps(
        image: *const u8,
        n: usize,
        backing: *const u8,
        b: usize,
        offset: u64,
        len: u64,
        rows: *mut u64,
        m: usize,
        count: *mut u64,
    ) -> u32;
    pub fn qcow2_backed_discard_steps(
        image: *const u8,
        n: usize,
        backing: *const u8,
        b: usize,
        cluster: u64,
        rows: *mut u64,
        m: usize,
        count: *mut u64,
    ) -> u32;
    pub fn qcow2_backed_repair_steps(
        image: *const u8,
        n: usize,
        backing: *const u8,
        b: usize,
        scratch: *mut u8,
        scratch_len: usize,
        rows: *mut u64,
        m: usize,
        count: *mut u64,
    ) -> u32;
    pub fn qcow2_backed_batch_write(
        image: *const u8,
        n: usize,
        backing: *const u8,
        b: usize,
        offset: u64,
        len: u64,
        rows: *mut u64,
        m: usize,
        held: u64,
        count: *mut u64,
    ) -> u32;
    pub fn qcow2_backed_batch_discard(
        image: *const u8,
        n: usize,
        backing: *const u8,
        b: usize,
        cluster: u64,
        rows: *mut u64,
        m: usize,
        held: u64,
        count: *mut u64,
    ) -> u32;
    pub fn qcow2_backed_batch_repair(
        image: *const u8,
        n: usize,
        backing: *const u8,
        b: usize,
        scratch: *mut u8,
        scratch_len: usize,
        rows: *mut u64,
        m: usize,
        held: u64,
        count: *mut u64,
    ) -> u32;
    pub fn qcow2_backed_check(
        image: *const u8,
        n: usize,
        backing: *const u8,
        b: usize,
        scratch: *mut u8,
        m: usize,
        first: *mut u64,
        second: *mut u64,
        third: *mut u64,
    ) -> u32;
    pub fn qcow2_backed_check_portion(
        image: *const u8,
        n: usize,
        backing: *const u8,
        b: usize,
        state: *mut u8,
        scratch: *mut u8,
        m: usize,
        may: u64,
        first: *mut u64,
        second: *mut u64,
        third: *mut u64,
    ) -> u32;
    pub fn qcow2_difference(stored: u64, figure: u16) -> i32;
}
