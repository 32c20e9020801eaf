//! SHA-256, so that the build needs no tool beside cargo.

/// The first 32 bits of the fractional part of a root of each of the first primes.
fn fractions(count: usize, root: fn(f64) -> f64, refine: fn(u128, u32) -> bool) -> Vec<u32> {
    let mut primes = (2u32..).filter(|n| (2..*n).take_while(|d| d * d <= *n).all(|d| n % d != 0));
    (0..count)
        .map(|_| {
            let prime = primes.next().unwrap();
            // floor(root * 2^32), mended to the exact value after rounding.
            let mut scaled = (root(f64::from(prime)) * 4294967296.0) as u128;
            while refine(scaled + 1, prime) {
                scaled += 1;
            }
            while !refine(scaled, prime) {
                scaled -= 1;
            }
            scaled as u32
        })
        .collect()
}

pub fn hexadecimal(bytes: &[u8]) -> String {
    let round = fractions(64, f64::cbrt, |x, p| x * x * x <= u128::from(p) << 96);
    let mut state = fractions(8, f64::sqrt, |x, p| x * x <= u128::from(p) << 64);

    let mut message = bytes.to_vec();
    message.push(0x80);
    while message.len() % 64 != 56 {
        message.push(0);
    }
    message.extend((bytes.len() as u64 * 8).to_be_bytes());

    for block in message.chunks_exact(64) {
        let mut words: Vec<u32> = block
            .chunks_exact(4)
            .map(|b| u32::from_be_bytes(b.try_into().unwrap()))
            .collect();
        for i in 16..64 {
            let (a, b) = (words[i - 15], words[i - 2]);
            let s0 = a.rotate_right(7) ^ a.rotate_right(18) ^ (a >> 3);
            let s1 = b.rotate_right(17) ^ b.rotate_right(19) ^ (b >> 10);
            words.push(
                words[i - 16]
                    .wrapping_add(s0)
                    .wrapping_add(words[i - 7])
                    .wrapping_add(s1),
            );
        }
        let mut v = state.clone();
        for i in 0..64 {
            let s1 = v[4].rotate_right(6) ^ v[4].rotate_right(11) ^ v[4].rotate_right(25);
            let choice = (v[4] & v[5]) ^ (!v[4] & v[6]);
            let t1 = v[7]
                .wrapping_add(s1)
                .wrapping_add(choice)
                .wrapping_add(round[i])
                .wrapping_add(words[i]);
            let s0 = v[0].rotate_right(2) ^ v[0].rotate_right(13) ^ v[0].rotate_right(22);
            let majority = (v[0] & v[1]) ^ (v[0] & v[2]) ^ (v[1] & v[2]);
            v.rotate_right(1);
            v[4] = v[4].wrapping_add(t1);
            v[0] = t1.wrapping_add(s0).wrapping_add(majority);
        }
        for (s, v) in state.iter_mut().zip(v) {
            *s = s.wrapping_add(v);
        }
    }
    state.iter().map(|word| format!("{word:08x}")).collect()
}
