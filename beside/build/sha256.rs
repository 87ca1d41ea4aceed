//! SHA-256 (FIPS 180-4) of a whole file. The constants are computed as the standard says: the first 32 bits of the
//! fractional parts of the cube roots, and of the square roots, of the first primes.

/// The first 32 bits of the fractional part of the `degree`-th root of `n`, by search on integers.
fn root_bits(n: u128, degree: u32) -> u32 {
    let (mut low, mut high) = (0u128, 1u128 << 37);
    let scaled = |x: u128| -> bool {
        // x / 2^32 is at most the root: x^degree <= n * 2^(32 degree)
        if degree == 2 { x * x <= n << 64 } else { x * x * x <= n << 96 }
    };
    while low + 1 < high {
        let middle = (low + high) / 2;
        if scaled(middle) {
            low = middle;
        } else {
            high = middle;
        }
    }
    low as u32
}

fn primes(count: usize) -> Vec<u128> {
    (2u128..).filter(|n| (2..*n).all(|d| n % d != 0)).take(count).collect()
}

fn padded(text: &[u8]) -> Vec<u8> {
    let mut bytes = text.to_vec();
    bytes.push(0x80);
    while bytes.len() % 64 != 56 {
        bytes.push(0);
    }
    bytes.extend((text.len() as u64 * 8).to_be_bytes());
    bytes
}

fn extended(block: &[u8]) -> [u32; 64] {
    let mut w = [0u32; 64];
    for (i, word) in block.chunks(4).enumerate() {
        w[i] = u32::from_be_bytes(word.try_into().expect("a block has words of 4 bytes"));
    }
    for i in 16..64 {
        let a = w[i - 15].rotate_right(7) ^ w[i - 15].rotate_right(18) ^ (w[i - 15] >> 3);
        let b = w[i - 2].rotate_right(17) ^ w[i - 2].rotate_right(19) ^ (w[i - 2] >> 10);
        w[i] = w[i - 16].wrapping_add(a).wrapping_add(w[i - 7]).wrapping_add(b);
    }
    w
}

fn compress(state: &mut [u32; 8], block: &[u8], keys: &[u32]) {
    let w = extended(block);
    let mut s = *state;
    for i in 0..64 {
        let [a, b, c, _, e, f, g, h] = s;
        let first = h
            .wrapping_add(e.rotate_right(6) ^ e.rotate_right(11) ^ e.rotate_right(25))
            .wrapping_add((e & f) ^ (!e & g))
            .wrapping_add(keys[i])
            .wrapping_add(w[i]);
        let second =
            (a.rotate_right(2) ^ a.rotate_right(13) ^ a.rotate_right(22)).wrapping_add((a & b) ^ (a & c) ^ (b & c));
        s.rotate_right(1);
        s[0] = first.wrapping_add(second);
        s[4] = s[4].wrapping_add(first);
    }
    for (old, new) in state.iter_mut().zip(s) {
        *old = old.wrapping_add(new);
    }
}

/// The sum of a text, in lower-case hexadecimal.
pub fn hex(text: &[u8]) -> String {
    let primes = primes(64);
    let keys: Vec<u32> = primes.iter().map(|&p| root_bits(p, 3)).collect();
    let mut state = [0u32; 8];
    for (s, &p) in state.iter_mut().zip(&primes) {
        *s = root_bits(p, 2);
    }
    for block in padded(text).chunks(64) {
        compress(&mut state, block, &keys);
    }
    state.iter().map(|word| format!("{word:08x}")).collect()
}
