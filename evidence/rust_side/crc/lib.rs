//! What sctp-proto needs of the crate `crc`, by its names: CRC-32C by sixteen tables. With the feature `zero` each sum is 0, and takes nothing.
use std::marker::PhantomData;

/// The Castagnoli polynomial, bits reversed (RFC 9260, appendix A).
const POLYNOMIAL: u32 = 0x82f6_3b78;

pub struct Algorithm;
pub const CRC_32_ISCSI: Algorithm = Algorithm;

pub struct Table<const TABLES: usize>;

pub struct Crc<W, I>(PhantomData<(W, I)>);

const fn tables() -> [[u32; 256]; 16] {
    let mut all = [[0u32; 256]; 16];
    let mut byte = 0;
    while byte < 256 {
        let mut sum = byte as u32;
        let mut bit = 0;
        while bit < 8 {
            sum = (sum >> 1) ^ if sum & 1 == 1 { POLYNOMIAL } else { 0 };
            bit += 1;
        }
        all[0][byte] = sum;
        byte += 1;
    }
    let mut place = 256;
    while place < 16 * 256 {
        let before = all[place / 256 - 1][place % 256];
        all[place / 256][place % 256] = (before >> 8) ^ all[0][(before & 255) as usize];
        place += 1;
    }
    all
}

static TABLES: [[u32; 256]; 16] = tables();

impl Crc<u32, Table<16>> {
    pub const fn new(_: &Algorithm) -> Self {
        Crc(PhantomData)
    }

    pub const fn digest(&self) -> Digest {
        Digest(!0)
    }
}

pub struct Digest(u32);

impl Digest {
    pub fn update(&mut self, bytes: &[u8]) {
        if cfg!(feature = "zero") {
            return;
        }
        let mut sum = self.0;
        let (blocks, rest) = bytes.as_chunks::<16>();
        for b in blocks {
            let front = sum ^ u32::from_le_bytes([b[0], b[1], b[2], b[3]]);
            sum = TABLES[15][(front & 255) as usize]
                ^ TABLES[14][(front >> 8 & 255) as usize]
                ^ TABLES[13][(front >> 16 & 255) as usize]
                ^ TABLES[12][(front >> 24) as usize]
                ^ TABLES[11][b[4] as usize]
                ^ TABLES[10][b[5] as usize]
                ^ TABLES[9][b[6] as usize]
                ^ TABLES[8][b[7] as usize]
                ^ TABLES[7][b[8] as usize]
                ^ TABLES[6][b[9] as usize]
                ^ TABLES[5][b[10] as usize]
                ^ TABLES[4][b[11] as usize]
                ^ TABLES[3][b[12] as usize]
                ^ TABLES[2][b[13] as usize]
                ^ TABLES[1][b[14] as usize]
                ^ TABLES[0][b[15] as usize];
        }
        for b in rest {
            sum = (sum >> 8) ^ TABLES[0][((sum as u8) ^ b) as usize];
        }
        self.0 = sum;
    }

    pub fn finalize(self) -> u32 {
        if cfg!(feature = "zero") { 0 } else { !self.0 }
    }
}
