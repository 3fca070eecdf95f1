//! What a reader answers, folded into one number, so that a caller needs all of it.

use crate::{HeadFault, MdHead, MdKind, PdHead, PdKind, Topo, Uri};

/// Two numbers side by side.
fn pair(high: u32, low: u32) -> u64 {
    u64::from(high) << 32 | u64::from(low)
}

fn topo_number(topo: Topo) -> u64 {
    pair(topo.etb, topo.op_trn)
}

fn pd_kind_number(kind: PdKind) -> u64 {
    match kind {
        PdKind::Data => 1,
        PdKind::PullReply => 2,
        PdKind::PullRequest => 3,
        PdKind::Error => 4,
    }
}

fn md_kind_number(kind: MdKind) -> u64 {
    match kind {
        MdKind::Notify => 1,
        MdKind::Request => 2,
        MdKind::Reply => 3,
        MdKind::Query => 4,
        MdKind::Confirm => 5,
        MdKind::Error => 6,
    }
}

/// The two halves, added without carry.
fn halves(number: u128) -> u64 {
    (number >> 64) as u64 ^ (number % (1 << 64)) as u64
}

fn uri_number(uri: &Uri) -> u64 {
    let (front, back) = uri.field().split_at(16);
    halves(u128_of(front)) ^ halves(u128_of(back)).rotate_left(1)
}

fn u128_of(bytes: &[u8]) -> u128 {
    match bytes.first_chunk::<16>() {
        Some(chunk) => u128::from_be_bytes(*chunk),
        None => 0,
    }
}

fn payload_number(payload: &[u8], kind: u64) -> u64 {
    payload.len() as u64 ^ kind.rotate_right(8)
}

/// The fields of a process data header and the length of its payload.
pub fn pd_number(head: &PdHead, payload: &[u8]) -> u64 {
    pair(head.counter, head.com_id)
        ^ topo_number(head.topo).rotate_left(1)
        ^ pair(head.reply_com_id, head.reply_ip.0).rotate_left(2)
        ^ payload_number(payload, pd_kind_number(head.kind)).rotate_left(3)
}

/// The fields of a message data header and the length of its payload.
pub fn md_number(head: &MdHead, payload: &[u8]) -> u64 {
    pair(head.counter, head.com_id)
        ^ topo_number(head.topo).rotate_left(1)
        ^ pair(head.status.cast_unsigned(), head.timeout).rotate_left(2)
        ^ payload_number(payload, md_kind_number(head.kind)).rotate_left(3)
        ^ halves(head.session.0).rotate_left(4)
        ^ uri_number(&head.source_uri).rotate_left(5)
        ^ uri_number(&head.dest_uri).rotate_left(6)
}

/// The fault in its place in the order of the tests, from 1.
pub fn fault_number(fault: HeadFault) -> u64 {
    match fault {
        HeadFault::Short => 1,
        HeadFault::TooLong => 2,
        HeadFault::Fcs => 3,
        HeadFault::Version => 4,
        HeadFault::Kind => 5,
        HeadFault::Length => 6,
    }
}
