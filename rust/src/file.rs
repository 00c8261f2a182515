//! The module file: blocks, their checks and records, and refusals 1 to 3 (document 01, "The
//! module file").

pub const BLOCK_BYTES: usize = 512;
pub const MAX_BLOCKS: usize = 64;
pub const RECORDS_PER_BLOCK: usize = 63;
pub const RECORD_BYTES: usize = 8;
/// The first record's byte in a block.
pub const RECORDS_AT: usize = 4;
/// The check's byte in a block.
pub const CHECK_AT: usize = 508;

/// A refusal's number and place, and for people what was asked there.
#[derive(Clone, Copy, Debug)]
pub struct Refusal {
    pub number: u8,
    pub place: usize,
    pub asked: &'static str,
}

/// The words do not count.
impl PartialEq for Refusal {
    fn eq(&self, other: &Refusal) -> bool {
        (self.number, self.place) == (other.number, other.place)
    }
}

impl Eq for Refusal {}

impl Refusal {
    pub fn at(number: u8, place: usize) -> Refusal {
        Refusal { number, place, asked: "" }
    }

    pub fn asking(number: u8, place: usize, asked: &'static str) -> Refusal {
        Refusal { number, place, asked }
    }
}

/// Eight bytes: the kind, a, b, c, and d in four.
#[derive(Clone, Copy, PartialEq, Eq, Debug)]
pub struct Record(pub [u8; RECORD_BYTES]);

impl Record {
    pub fn kind(&self) -> u8 {
        self.0[0]
    }

    pub fn a(&self) -> u8 {
        self.0[1]
    }

    pub fn b(&self) -> u8 {
        self.0[2]
    }

    pub fn c(&self) -> u8 {
        self.0[3]
    }

    pub fn d(&self) -> u32 {
        u32::from_le_bytes(self.d_bytes())
    }

    pub fn d_bytes(&self) -> [u8; 4] {
        [self.0[4], self.0[5], self.0[6], self.0[7]]
    }

    /// Bytes 1 to 7, the list that records 6, 8, 9 and 35 hold.
    pub fn list(&self) -> [u8; 7] {
        let b = &self.0;
        [b[1], b[2], b[3], b[4], b[5], b[6], b[7]]
    }
}

/// The sum over i = 0..507 of (i + 1) times byte i.
pub fn block_check(block: &[u8]) -> u32 {
    let weighted = |(i, &byte): (usize, &u8)| (i as u32 + 1) * u32::from(byte);
    block[..CHECK_AT].iter().enumerate().map(weighted).sum()
}

/// The records of a file, or refusal 1, 2 or 3: block by block, 2 before 3 in a block.
pub fn records(file: &[u8]) -> Result<Vec<Record>, Refusal> {
    let count = file.len() / BLOCK_BYTES;
    if !file.len().is_multiple_of(BLOCK_BYTES) || count == 0 || count > MAX_BLOCKS {
        return Err(Refusal::asking(1, 0, "a file has 1 to 64 blocks of 512 bytes"));
    }
    let mut records = Vec::with_capacity(count * RECORDS_PER_BLOCK);
    for (place, block) in file.chunks_exact(BLOCK_BYTES).enumerate() {
        let written_place = usize::from(u16::from_le_bytes([block[0], block[1]]));
        let written_count = usize::from(u16::from_le_bytes([block[2], block[3]]));
        if written_place != place || written_count != count {
            return Err(Refusal::asking(
                2,
                place,
                "a block says its place and the number of blocks",
            ));
        }
        if block[CHECK_AT..] != block_check(block).to_le_bytes() {
            return Err(Refusal::asking(
                3,
                place,
                "a block ends with the sum of its weighted bytes",
            ));
        }
        for bytes in block[RECORDS_AT..CHECK_AT].chunks_exact(RECORD_BYTES) {
            records.push(Record(bytes.try_into().expect("chunks of eight bytes")));
        }
    }
    Ok(records)
}
