//! Readers of telegrams in plain Rust: the tests and the fields of trdp_head's `read_pd` and `read_md`, in its order.

use crate::eight_tables::by_eight_tables;

#[derive(Clone, Copy)]
pub enum PdKind {
    Data,
    PullReply,
    PullRequest,
    Error,
}

#[derive(Clone, Copy)]
pub enum MdKind {
    Notify,
    Request,
    Reply,
    Query,
    Confirm,
    Error,
}

#[derive(Clone, Copy)]
pub enum HeadFault {
    Short,
    TooLong,
    Fcs,
    Version,
    Kind,
    Length,
}

#[derive(Clone, Copy)]
pub struct Topo {
    pub etb: u32,
    pub op_trn: u32,
}

#[derive(Clone, Copy)]
pub struct Ip(pub u32);

#[derive(Clone, Copy)]
pub struct SessionId(pub u128);

#[derive(Clone, Copy)]
pub struct Uri {
    field: [u8; 32],
}

impl Uri {
    /// The bytes before the first zero byte, and zeros behind them.
    fn from_field(field: &[u8; 32]) -> Uri {
        let end = field.iter().position(|byte| *byte == 0).unwrap_or(32);
        let mut whole = [0; 32];
        whole[..end].copy_from_slice(&field[..end]);
        Uri { field: whole }
    }

    pub fn field(&self) -> &[u8] {
        &self.field
    }
}

pub struct PdHead {
    pub counter: u32,
    pub kind: PdKind,
    pub com_id: u32,
    pub topo: Topo,
    pub reply_com_id: u32,
    pub reply_ip: Ip,
}

pub struct PdView<'a> {
    pub head: PdHead,
    pub payload: &'a [u8],
}

pub struct MdHead {
    pub counter: u32,
    pub kind: MdKind,
    pub com_id: u32,
    pub topo: Topo,
    pub status: i32,
    pub session: SessionId,
    pub timeout: u32,
    pub source_uri: Uri,
    pub dest_uri: Uri,
}

pub struct MdView<'a> {
    pub head: MdHead,
    pub payload: &'a [u8],
}

fn bytes_at<const N: usize>(bytes: &[u8], offset: usize) -> &[u8; N] {
    bytes[offset..].first_chunk().unwrap()
}

fn u32_at(bytes: &[u8], offset: usize) -> u32 {
    u32::from_be_bytes(*bytes_at(bytes, offset))
}

/// The header of so many bytes and what follows it, if its frame check and version are right.
fn checked_head<const SIZE: usize>(
    bytes: &[u8],
    longest: usize,
) -> Result<(&[u8; SIZE], &[u8]), HeadFault> {
    let (head, rest) = bytes.split_first_chunk().ok_or(HeadFault::Short)?;
    if bytes.len() > longest {
        return Err(HeadFault::TooLong);
    }
    let (checked, check) = head.split_at(SIZE - 4);
    if check != by_eight_tables(checked).to_le_bytes() {
        return Err(HeadFault::Fcs);
    }
    if head[4] != 1 {
        return Err(HeadFault::Version);
    }
    Ok((head, rest))
}

fn payload_of<'a>(head: &[u8], rest: &'a [u8]) -> Result<&'a [u8], HeadFault> {
    rest.get(..u32_at(head, 20) as usize)
        .ok_or(HeadFault::Length)
}

fn topo_of(head: &[u8]) -> Topo {
    Topo {
        etb: u32_at(head, 12),
        op_trn: u32_at(head, 16),
    }
}

pub fn read_pd(bytes: &[u8]) -> Result<PdView<'_>, HeadFault> {
    let (head, rest) = checked_head::<40>(bytes, 1472)?;
    let kind = match bytes_at(head, 6) {
        b"Pd" => PdKind::Data,
        b"Pp" => PdKind::PullReply,
        b"Pr" => PdKind::PullRequest,
        b"Pe" => PdKind::Error,
        _ => return Err(HeadFault::Kind),
    };
    let payload = payload_of(head, rest)?;
    let head = PdHead {
        counter: u32_at(head, 0),
        kind,
        com_id: u32_at(head, 8),
        topo: topo_of(head),
        reply_com_id: u32_at(head, 28),
        reply_ip: Ip(u32_at(head, 32)),
    };
    Ok(PdView { head, payload })
}

pub fn read_md(bytes: &[u8]) -> Result<MdView<'_>, HeadFault> {
    let (head, rest) = checked_head::<116>(bytes, 65504)?;
    let kind = match bytes_at(head, 6) {
        b"Mn" => MdKind::Notify,
        b"Mr" => MdKind::Request,
        b"Mp" => MdKind::Reply,
        b"Mq" => MdKind::Query,
        b"Mc" => MdKind::Confirm,
        b"Me" => MdKind::Error,
        _ => return Err(HeadFault::Kind),
    };
    let payload = payload_of(head, rest)?;
    let head = MdHead {
        counter: u32_at(head, 0),
        kind,
        com_id: u32_at(head, 8),
        topo: topo_of(head),
        status: u32_at(head, 24).cast_signed(),
        session: SessionId(u128::from_be_bytes(*bytes_at(head, 28))),
        timeout: u32_at(head, 44),
        source_uri: Uri::from_field(bytes_at(head, 48)),
        dest_uri: Uri::from_field(bytes_at(head, 80)),
    };
    Ok(MdView { head, payload })
}
