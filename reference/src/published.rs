//! The published vectors, read from the repository's own copies.

pub const AES_FILE: &str = include_str!("../vectors/aes-fips197.txt");
pub const MILENAGE_FILE: &str = include_str!("../vectors/milenage-ts35208.txt");

/// One block of FIPS 197 or SP 800-38A, its fields in hex.
pub struct AesVector {
    pub key: &'static str,
    pub plaintext: &'static str,
    pub ciphertext: &'static str,
}

/// One set of TS 35.208, its fields in hex.
pub struct MilenageVector {
    pub k: &'static str,
    pub rand: &'static str,
    pub sqn: &'static str,
    pub amf: &'static str,
    pub op: &'static str,
    pub opc: &'static str,
    pub f1: &'static str,
    pub f1_star: &'static str,
    pub f2: &'static str,
    pub f5: &'static str,
    pub f3: &'static str,
    pub f4: &'static str,
    pub f5_star: &'static str,
}

/// The fields of each line that is not a comment.
fn rows<const N: usize>(file: &'static str) -> Vec<[&'static str; N]> {
    let data = file.lines().filter(|line| !line.starts_with('#'));
    data.map(|line| {
        let fields: Vec<&str> = line.split(' ').collect();
        fields.try_into().expect("a vector of another shape")
    })
    .collect()
}

pub fn aes() -> Vec<AesVector> {
    rows(AES_FILE)
        .into_iter()
        .map(|[key, plaintext, ciphertext]| AesVector {
            key,
            plaintext,
            ciphertext,
        })
        .collect()
}

pub fn milenage() -> Vec<MilenageVector> {
    rows(MILENAGE_FILE)
        .into_iter()
        .map(
            |[k, rand, sqn, amf, op, opc, f1, f1_star, f2, f5, f3, f4, f5_star]| MilenageVector {
                k,
                rand,
                sqn,
                amf,
                op,
                opc,
                f1,
                f1_star,
                f2,
                f5,
                f3,
                f4,
                f5_star,
            },
        )
        .collect()
}
