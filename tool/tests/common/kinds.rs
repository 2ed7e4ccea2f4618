//! An image with an entry of each kind, and calls on them.

use ::made::image::{Kind, Made, AUTOCLEAR};
use ::made::plan::bench_image;
use ::made::rng::Rng;
use qstore::call::Call;

pub const TABLE: usize = 64;

/// Of the guest clusters from 64 on the first has data, the second a zero mark
/// and a place, the third a zero mark. Free clusters hold old bytes.
pub fn image(bits: u64) -> Made {
    let mut made = bench_image();
    let table = made.add_table(1).expect("room");
    for (index, kind) in
        [Kind::Data, Kind::ZerosWithPlace, Kind::ZerosWithoutPlace].into_iter().enumerate()
    {
        assert!(made.add_entry(table, index, kind, &mut Rng::new(1)));
    }
    made.bytes[7 * 512..].fill(0xEE);
    made.put64(AUTOCLEAR, bits);
    made
}

pub fn write_to(guest: usize) -> Call<'static> {
    Call::Write { offset: 512 * guest as u64, data: &[0x5A; 300] }
}

pub fn discard_of(guest: usize) -> Call<'static> {
    Call::Discard { cluster: guest as u64 }
}
