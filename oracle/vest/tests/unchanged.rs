//! The three texts are those of the order, byte for byte.

const TEXTS: [(&str, &[u8], &str); 3] = [
    (
        "ast.rs",
        include_bytes!("../src/ast.rs"),
        "58537bde61be31ab7b5c0d9d6e6b407deecfca1f234c3e9bef1c25fa75bac5d7",
    ),
    (
        "elab.rs",
        include_bytes!("../src/elab.rs"),
        "c111699aa04f37d7d426854129c8d0781789e50900a7f3567365257458c40a35",
    ),
    (
        "utils.rs",
        include_bytes!("../src/utils.rs"),
        "54351ce5f4b3d28c45f44e7856af0e79ff5502087e966adc052954800502b61b",
    ),
];

#[test]
fn texts_have_their_sha_256() {
    for (name, text, digest) in TEXTS {
        assert_eq!(hex(&sha256(text)), digest, "{name}");
    }
}

#[test]
fn sha_256_answers_the_published_examples() {
    let empty = "e3b0c44298fc1c149afbf4c8996fb92427ae41e4649b934ca495991b7852b855";
    let abc = "ba7816bf8f01cfea414140de5dae2223b00361a396177a9cb410ff61f20015ad";
    assert_eq!(hex(&sha256(b"")), empty);
    assert_eq!(hex(&sha256(b"abc")), abc);
}

fn hex(bytes: &[u8]) -> String {
    bytes.iter().map(|byte| format!("{byte:02x}")).collect()
}

/// FIPS 180-4. The constants are computed: the first 32 bits of the fractional
/// parts of the cube roots (`k`) and square roots (`h`) of the first primes.
fn sha256(message: &[u8]) -> [u8; 32] {
    let primes: Vec<u128> = (2u128..312)
        .filter(|n| (2..*n).all(|d| n % d != 0))
        .collect();
    let k: Vec<u32> = primes[..64]
        .iter()
        .map(|p| root(*p << 96, 3) as u32)
        .collect();
    let mut h: Vec<u32> = primes[..8]
        .iter()
        .map(|p| root(*p << 64, 2) as u32)
        .collect();
    for block in padded(message).chunks(64) {
        compress(&mut h, block, &k);
    }
    let mut digest = [0; 32];
    for (bytes, word) in digest.chunks_mut(4).zip(h) {
        bytes.copy_from_slice(&word.to_be_bytes());
    }
    digest
}

/// The whole part of the `degree`-th root.
fn root(value: u128, degree: u32) -> u128 {
    let (mut low, mut high) = (0u128, 1u128 << 40);
    while high - low > 1 {
        let middle = (low + high) / 2;
        match middle.checked_pow(degree) {
            Some(power) if power <= value => low = middle,
            _ => high = middle,
        }
    }
    low
}

fn padded(message: &[u8]) -> Vec<u8> {
    let mut padded = message.to_vec();
    padded.push(0x80);
    while padded.len() % 64 != 56 {
        padded.push(0);
    }
    padded.extend((message.len() as u64 * 8).to_be_bytes());
    padded
}

fn compress(h: &mut [u32], block: &[u8], k: &[u32]) {
    let mut w: Vec<u32> = block
        .chunks(4)
        .map(|b| u32::from_be_bytes([b[0], b[1], b[2], b[3]]))
        .collect();
    for t in 16..64 {
        let s0 = w[t - 15].rotate_right(7) ^ w[t - 15].rotate_right(18) ^ (w[t - 15] >> 3);
        let s1 = w[t - 2].rotate_right(17) ^ w[t - 2].rotate_right(19) ^ (w[t - 2] >> 10);
        w.push(
            w[t - 16]
                .wrapping_add(s0)
                .wrapping_add(w[t - 7])
                .wrapping_add(s1),
        );
    }
    let mut s: Vec<u32> = h.to_vec();
    for t in 0..64 {
        let s1 = s[4].rotate_right(6) ^ s[4].rotate_right(11) ^ s[4].rotate_right(25);
        let choice = (s[4] & s[5]) ^ (!s[4] & s[6]);
        let t1 = s[7]
            .wrapping_add(s1)
            .wrapping_add(choice)
            .wrapping_add(k[t])
            .wrapping_add(w[t]);
        let s0 = s[0].rotate_right(2) ^ s[0].rotate_right(13) ^ s[0].rotate_right(22);
        let majority = (s[0] & s[1]) ^ (s[0] & s[2]) ^ (s[1] & s[2]);
        s.rotate_right(1);
        s[4] = s[4].wrapping_add(t1);
        s[0] = t1.wrapping_add(s0).wrapping_add(majority);
    }
    for (word, add) in h.iter_mut().zip(s) {
        *word = word.wrapping_add(add);
    }
}
