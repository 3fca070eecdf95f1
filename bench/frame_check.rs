//! Times frame checks of the same bytes, one body beside the other in one process.

mod eight_tables;
mod timing;

use eight_tables::{by_eight_tables, past_byte};
use std::ffi::{c_uint, c_ulong};
use timing::best_times;

unsafe extern "C" {
    /// The proved body: `frame_check` of the crate `trdp_fcs`.
    fn proved_frame_check(bytes: *const u8, length: usize) -> u32;
    /// That of zlib.
    fn crc32(check: c_ulong, bytes: *const u8, length: c_uint) -> c_ulong;
}

#[inline(never)]
fn by_one_table(bytes: &[u8]) -> u32 {
    !bytes.iter().fold(u32::MAX, past_byte)
}

fn proved(bytes: &[u8]) -> u32 {
    unsafe { proved_frame_check(bytes.as_ptr(), bytes.len()) }
}

fn zlib(bytes: &[u8]) -> u32 {
    unsafe { crc32(0, bytes.as_ptr(), bytes.len() as c_uint) as u32 }
}

fn main() {
    let bodies: [(&str, fn(&[u8]) -> u32); 4] = [
        ("proved", proved),
        ("eight tables", by_eight_tables),
        ("one table", by_one_table),
        ("zlib", zlib),
    ];
    println!("bytes  body            ns a check  proved body");
    for length in [36, 112, 1472] {
        let bytes: Vec<u8> = (0..length).map(|i| (i * 7 + 3) as u8).collect();
        let best = best_times(
            bodies.map(|(_, check)| check),
            &bytes,
            (50, 4_000_000 / length),
        );
        for ((name, _), time) in bodies.iter().zip(best) {
            println!(
                "{length:5}  {name:14} {time:11.1} {:8.2} times",
                best[0] / time
            );
        }
    }
}
