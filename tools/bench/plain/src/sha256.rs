/// A SHA-256 digest.
pub type Digest = [u8; 32];

/// How many bytes are worked into the state at once.
const BLOCK_LEN: usize = 64;

/// Where the length of the message stands in the last block.
const LENGTH_OFFSET: usize = 56;

/// The first 32 bits of the fractional parts of the square roots of the first 8 primes.
const START: [u32; 8] = [
    0x6a09e667, 0xbb67ae85, 0x3c6ef372, 0xa54ff53a, 0x510e527f, 0x9b05688c, 0x1f83d9ab, 0x5be0cd19,
];

/// The first 32 bits of the fractional parts of the cube roots of the first 64 primes.
#[rustfmt::skip]
const ROUNDS: [u32; 64] = [
    0x428a2f98, 0x71374491, 0xb5c0fbcf, 0xe9b5dba5, 0x3956c25b, 0x59f111f1, 0x923f82a4, 0xab1c5ed5,
    0xd807aa98, 0x12835b01, 0x243185be, 0x550c7dc3, 0x72be5d74, 0x80deb1fe, 0x9bdc06a7, 0xc19bf174,
    0xe49b69c1, 0xefbe4786, 0x0fc19dc6, 0x240ca1cc, 0x2de92c6f, 0x4a7484aa, 0x5cb0a9dc, 0x76f988da,
    0x983e5152, 0xa831c66d, 0xb00327c8, 0xbf597fc7, 0xc6e00bf3, 0xd5a79147, 0x06ca6351, 0x14292967,
    0x27b70a85, 0x2e1b2138, 0x4d2c6dfc, 0x53380d13, 0x650a7354, 0x766a0abb, 0x81c2c92e, 0x92722c85,
    0xa2bfe8a1, 0xa81a664b, 0xc24b8b70, 0xc76c51a3, 0xd192e819, 0xd6990624, 0xf40e3585, 0x106aa070,
    0x19a4c116, 0x1e376c08, 0x2748774c, 0x34b0bcb5, 0x391c0cb3, 0x4ed8aa4a, 0x5b9cca4f, 0x682e6ff3,
    0x748f82ee, 0x78a5636f, 0x84c87814, 0x8cc70208, 0x90befffa, 0xa4506ceb, 0xbef9a3f7, 0xc67178f2,
];

/// SHA-256 (FIPS 180-4) of bytes that come in pieces, without instructions that only some processors have.
#[derive(Clone)]
pub struct Sha256 {
    state: [u32; 8],
    /// The bytes behind the last whole block: the first `len % BLOCK_LEN` of these.
    block: [u8; BLOCK_LEN],
    len: u64,
}

impl Sha256 {
    pub fn new() -> Sha256 {
        Sha256 {
            state: START,
            block: [0; BLOCK_LEN],
            len: 0,
        }
    }

    /// Puts a piece behind those that came before.
    pub fn update(&mut self, mut piece: &[u8]) {
        let held = self.held();
        self.len += piece.len() as u64;
        if held > 0 {
            let (front, behind) = piece.split_at(piece.len().min(BLOCK_LEN - held));
            self.block[held..held + front.len()].copy_from_slice(front);
            if held + front.len() < BLOCK_LEN {
                return;
            }
            compress(&mut self.state, &self.block);
            piece = behind;
        }
        while let Some((block, behind)) = piece.split_first_chunk() {
            compress(&mut self.state, block);
            piece = behind;
        }
        self.block[..piece.len()].copy_from_slice(piece);
    }

    /// The digest of all pieces.
    pub fn finish(mut self) -> Digest {
        let bits = self.len * 8;
        self.update(&[0x80]);
        while self.held() != LENGTH_OFFSET {
            self.update(&[0]);
        }
        self.update(&bits.to_be_bytes());
        let mut digest = [0; 32];
        for (bytes, word) in digest.chunks_exact_mut(4).zip(self.state) {
            bytes.copy_from_slice(&word.to_be_bytes());
        }
        digest
    }

    fn held(&self) -> usize {
        (self.len % BLOCK_LEN as u64) as usize
    }
}

/// The words of a block, and the 48 that are made of them.
fn schedule(block: &[u8; BLOCK_LEN]) -> [u32; 64] {
    let mut words = [0; 64];
    for (word, bytes) in words.iter_mut().zip(block.chunks_exact(4)) {
        *word = u32::from_be_bytes([bytes[0], bytes[1], bytes[2], bytes[3]]);
    }
    for t in 16..64 {
        let (early, late) = (words[t - 15], words[t - 2]);
        let small0 = early.rotate_right(7) ^ early.rotate_right(18) ^ (early >> 3);
        let small1 = late.rotate_right(17) ^ late.rotate_right(19) ^ (late >> 10);
        words[t] = words[t - 16]
            .wrapping_add(small0)
            .wrapping_add(words[t - 7])
            .wrapping_add(small1);
    }
    words
}

/// Works a block into the state.
fn compress(state: &mut [u32; 8], block: &[u8; BLOCK_LEN]) {
    let [mut a, mut b, mut c, mut d, mut e, mut f, mut g, mut h] = *state;
    for (word, round) in schedule(block).into_iter().zip(ROUNDS) {
        let big1 = e.rotate_right(6) ^ e.rotate_right(11) ^ e.rotate_right(25);
        let choice = (e & f) ^ (!e & g);
        let first = h
            .wrapping_add(big1)
            .wrapping_add(choice)
            .wrapping_add(round)
            .wrapping_add(word);
        let big0 = a.rotate_right(2) ^ a.rotate_right(13) ^ a.rotate_right(22);
        let majority = (a & b) ^ (a & c) ^ (b & c);
        let second = big0.wrapping_add(majority);
        (h, g, f, e) = (g, f, e, d.wrapping_add(first));
        (d, c, b, a) = (c, b, a, first.wrapping_add(second));
    }
    for (kept, worked) in state.iter_mut().zip([a, b, c, d, e, f, g, h]) {
        *kept = kept.wrapping_add(worked);
    }
}
