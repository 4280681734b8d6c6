//! Message records.

pub const TRANSFER_BYTES: usize = 141;
pub const CLOSE_BYTES: usize = 4;
pub const CLAIM_BYTES: usize = 35;
pub const ANSWER_BYTES: usize = 6;

pub const TRANSFER_HEADER: [u8; 4] = [139, 0, 1, 0];
pub const CLOSE_HEADER: [u8; 4] = [2, 0, 2, 0];
pub const CLAIM_HEADER: [u8; 4] = [33, 0, 3, 0];

pub type Line = [u8; 64];

pub struct Transfer<'a> {
    pub sender: u8,
    pub receiver: u8,
    pub security: u8,
    pub class: u8,
    pub code: u8,
    pub par: u32,
    pub lines: [&'a Line; 2],
}

pub struct Claim {
    pub claim_type: u8,
    pub outcome: u8,
    pub payer: u8,
    pub payee: u8,
    pub security: u8,
    pub row: u8,
    pub transfer: u32,
    pub interest: u64,
    pub principal: u64,
    pub release: u32,
    pub slot: u8,
}

/// The transfer at the message's start.
pub fn read_transfer(message: &[u8]) -> Option<Transfer<'_>> {
    let record: &[u8; TRANSFER_BYTES] = message.first_chunk()?;
    if record[..4] != TRANSFER_HEADER {
        return None;
    }
    let [_, _, _, _, sender, receiver, security, class, code, p0, p1, p2, p3, lines @ ..] = record;
    let (lines, _) = lines.as_chunks();
    Some(Transfer {
        sender: *sender,
        receiver: *receiver,
        security: *security,
        class: *class,
        code: *code,
        par: u32::from_le_bytes([*p0, *p1, *p2, *p3]),
        lines: [&lines[0], &lines[1]],
    })
}

pub fn is_close(message: &[u8]) -> bool {
    message.starts_with(&CLOSE_HEADER)
}

impl Claim {
    pub fn bytes(&self) -> [u8; CLAIM_BYTES] {
        let mut bytes = [0; CLAIM_BYTES];
        bytes[..4].copy_from_slice(&CLAIM_HEADER);
        bytes[4..10].copy_from_slice(&[self.claim_type, self.outcome, self.payer, self.payee, self.security, self.row]);
        bytes[10..14].copy_from_slice(&self.transfer.to_le_bytes());
        bytes[14..22].copy_from_slice(&self.interest.to_le_bytes());
        bytes[22..30].copy_from_slice(&self.principal.to_le_bytes());
        bytes[30..34].copy_from_slice(&self.release.to_le_bytes());
        bytes[34] = self.slot;
        bytes
    }
}

/// The answer record of a number.
pub fn answer(number: u16) -> [u8; ANSWER_BYTES] {
    let [low, high] = number.to_le_bytes();
    [4, 0, 4, 0, low, high]
}
