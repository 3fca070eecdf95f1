//! Times the readers of telegrams, the proved beside the plain in one process.

mod eight_tables;
mod folded;
mod plain_heads;
mod timing;

use eight_tables::by_eight_tables;
use plain_heads::{HeadFault, MdHead, MdKind, PdHead, PdKind, Topo, Uri, read_md, read_pd};
use std::hint::black_box;
use timing::best_times;

unsafe extern "C" {
    /// `read_pd` of the crate `trdp_head`, what it answers folded into a number.
    fn proved_read_pd(bytes: *const u8, length: usize) -> u64;
    /// `read_md` likewise.
    fn proved_read_md(bytes: *const u8, length: usize) -> u64;
}

fn proved_pd(bytes: &[u8]) -> u64 {
    unsafe { proved_read_pd(bytes.as_ptr(), bytes.len()) }
}

fn proved_md(bytes: &[u8]) -> u64 {
    unsafe { proved_read_md(bytes.as_ptr(), bytes.len()) }
}

fn plain_pd(bytes: &[u8]) -> u64 {
    match read_pd(bytes) {
        Ok(view) => folded::pd_number(&view.head, view.payload),
        Err(fault) => folded::fault_number(fault),
    }
}

fn plain_md(bytes: &[u8]) -> u64 {
    match read_md(bytes) {
        Ok(view) => folded::md_number(&view.head, view.payload),
        Err(fault) => folded::fault_number(fault),
    }
}

/// A telegram of so many bytes with a header of `size` bytes, but for its frame check; each field has a number of its own.
fn telegram(kind: &[u8; 2], size: usize, length: usize) -> Vec<u8> {
    let mut bytes: Vec<u8> = (0..length).map(|i| (i * 7 + 3) as u8).collect();
    bytes[4..6].copy_from_slice(&[1, 0]);
    bytes[6..8].copy_from_slice(kind);
    bytes[20..24].copy_from_slice(&((length - size) as u32).to_be_bytes());
    bytes
}

/// The bytes with their frame check at the end of the header of `size` bytes.
fn with_check(mut bytes: Vec<u8>, size: usize) -> Vec<u8> {
    let check = by_eight_tables(&bytes[..size - 4]);
    bytes[size - 4..size].copy_from_slice(&check.to_le_bytes());
    bytes
}

fn process_data(length: usize) -> Vec<u8> {
    with_check(telegram(b"Pd", 40, length), 40)
}

fn message_data(length: usize) -> Vec<u8> {
    let mut bytes = telegram(b"Mr", 116, length);
    bytes[48..80].copy_from_slice(b"driverDisplay.cab1\0\0\0\0\0\0\0\0\0\0\0\0\0\0");
    bytes[80..112].copy_from_slice(b"doorControl.car0203\0\0\0\0\0\0\0\0\0\0\0\0\0");
    with_check(bytes, 116)
}

/// Reads a telegram that many times: by the words proved or plain, 0 (process data) or 1 (message data), and how often.
fn read_often(words: &[String]) {
    let bodies: [fn(&[u8]) -> u64; 4] = [proved_pd, plain_pd, proved_md, plain_md];
    let is_message = words[1] == "1";
    let body = bodies[2 * usize::from(is_message) + usize::from(words[0] == "plain")];
    let bytes = if is_message { message_data(120) } else { process_data(48) };
    let turns = words[2].parse().unwrap();
    for _ in 0..turns {
        black_box(body(black_box(&bytes)));
    }
}

fn main() {
    let words: Vec<String> = std::env::args().skip(1).collect();
    if !words.is_empty() {
        return read_often(&words);
    }
    let pd: [fn(&[u8]) -> u64; 2] = [proved_pd, plain_pd];
    let md: [fn(&[u8]) -> u64; 2] = [proved_md, plain_md];
    let cases = [
        ("process data", pd, process_data(48)),
        ("process data", pd, process_data(1472)),
        ("message data", md, message_data(120)),
        ("message data", md, message_data(1472)),
        ("message data", md, message_data(65504)),
    ];
    println!("telegram      bytes  check    proved     plain  proved body");
    for (name, bodies, valid) in cases {
        let mut wrong = valid.clone();
        wrong[0] ^= 1;
        for (check, bytes) in [("right", &valid), ("wrong", &wrong)] {
            let [proved, plain] = best_times(bodies, bytes, (400, 5_000));
            println!(
                "{name}  {:5}  {check}  {proved:8.1}  {plain:8.1} {:6.2} times",
                bytes.len(),
                proved / plain
            );
        }
    }
}
