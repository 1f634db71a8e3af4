//! Checks application images without instructions of the processor for the digest.

const ROUNDS: [u32; 64] = rounds();

/// The first 32 bits of the fraction of the cube root of each of the first 64 primes.
const fn rounds() -> [u32; 64] {
    let mut all = [0; 64];
    let mut prime = 2u128;
    let mut n = 0;
    while n < 64 {
        let mut divisor = 2;
        while divisor * divisor <= prime && prime % divisor != 0 {
            divisor += 1;
        }
        if divisor * divisor > prime {
            // The greatest root with root * root * root <= prime << 96 has 32 bits of fraction.
            let mut root = 0u128;
            let mut bit = 1u128 << 36;
            while bit > 0 {
                let next = root + bit;
                if next * next * next <= prime << 96 {
                    root = next;
                }
                bit >>= 1;
            }
            all[n] = root as u32;
            n += 1;
        }
        prime += 1;
    }
    all
}

/// The first 32 bits of the fraction of the square root of each of the first 8 primes.
fn start() -> [u32; 8] {
    [2u128, 3, 5, 7, 11, 13, 17, 19].map(|prime| {
        let mut root = 0u128;
        for bit in (0..36).rev() {
            let next = root + (1 << bit);
            if next * next <= prime << 64 {
                root = next;
            }
        }
        root as u32
    })
}

fn take_block(state: &mut [u32; 8], block: &[u8]) {
    let mut words = [0u32; 64];
    for (word, bytes) in words.iter_mut().zip(block.chunks_exact(4)) {
        *word = u32::from_be_bytes(bytes.try_into().unwrap());
    }
    for i in 16..64 {
        let (a, b) = (words[i - 15], words[i - 2]);
        let first = a.rotate_right(7) ^ a.rotate_right(18) ^ (a >> 3);
        let second = b.rotate_right(17) ^ b.rotate_right(19) ^ (b >> 10);
        words[i] = words[i - 16].wrapping_add(first).wrapping_add(words[i - 7]).wrapping_add(second);
    }
    let [mut a, mut b, mut c, mut d, mut e, mut f, mut g, mut h] = *state;
    for i in 0..64 {
        let sum = e.rotate_right(6) ^ e.rotate_right(11) ^ e.rotate_right(25);
        let one = h.wrapping_add(sum).wrapping_add((e & f) ^ (!e & g)).wrapping_add(ROUNDS[i]).wrapping_add(words[i]);
        let sum = a.rotate_right(2) ^ a.rotate_right(13) ^ a.rotate_right(22);
        let two = sum.wrapping_add((a & b) ^ (a & c) ^ (b & c));
        (h, g, f, e, d, c, b, a) = (g, f, e, d.wrapping_add(one), c, b, a, one.wrapping_add(two));
    }
    for (old, new) in state.iter_mut().zip([a, b, c, d, e, f, g, h]) {
        *old = old.wrapping_add(new);
    }
}

fn sha256(bytes: &[u8]) -> String {
    let mut state = start();
    let blocks = bytes.chunks_exact(64);
    let mut tail = blocks.remainder().to_vec();
    blocks.for_each(|block| take_block(&mut state, block));
    tail.push(0x80);
    tail.resize(tail.len().next_multiple_of(64) + if tail.len() % 64 > 56 { 64 } else { 0 }, 0);
    let end = tail.len();
    tail[end - 8..].copy_from_slice(&(8 * bytes.len() as u64).to_be_bytes());
    tail.chunks_exact(64).for_each(|block| take_block(&mut state, block));
    state.iter().map(|word| format!("{word:08x}")).collect()
}

/// The length of the image that bytes begin with, and whether its checksum and its digest are those that it has.
pub fn check(image: &[u8]) -> (usize, bool, bool) {
    let (mut end, mut sum) = (24, 0xEF);
    for _ in 0..image[1] {
        let length = u32::from_le_bytes(image[end + 4..end + 8].try_into().unwrap()) as usize;
        sum = image[end + 8..end + 8 + length].iter().fold(sum, |sum, byte| sum ^ byte);
        end += 8 + length;
    }
    let foot = (end / 16 + 1) * 16;
    let stored: String = image[foot..foot + 32].iter().map(|byte| format!("{byte:02x}")).collect();
    (foot + 32, sum == image[foot - 1], sha256(&image[..foot]) == stored)
}
