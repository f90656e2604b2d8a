//! Fields in one run of bytes, with a checksum over all of it: the form of the files that the tool
//! writes for itself. First 8 bytes of kind and version, then each field with its length (32 bits)
//! in front, then the digest of all that.

/// FNV-1a with 64 bits. Any change of a single byte changes it.
pub fn digest(bytes: &[u8]) -> u64 {
    bytes.iter().fold(0xcbf2_9ce4_8422_2325, |hash, byte| {
        (hash ^ u64::from(*byte)).wrapping_mul(0x0000_0100_0000_01b3)
    })
}

pub fn seal(kind: &[u8; 8], fields: &[&[u8]]) -> Vec<u8> {
    let mut bytes = kind.to_vec();
    for field in fields {
        bytes.extend(with_length(field));
    }
    bytes.extend_from_slice(&digest(&bytes).to_le_bytes());
    bytes
}

/// A field as it stands in a file.
pub fn with_length(field: &[u8]) -> Vec<u8> {
    let length = u32::try_from(field.len()).expect("a field is a path or at most a memory");
    [&length.to_le_bytes(), field].concat()
}

/// Why bytes are not what `seal` makes of a kind.
#[derive(Clone, Copy, Debug, PartialEq, Eq)]
pub enum Broken {
    Damaged,
    /// Whole, and of the kind, but with another version: the kind's last byte.
    Version,
}

/// The fields, if the bytes are exactly what `seal` makes of this kind and number.
pub fn unseal<'a, const N: usize>(
    kind: &[u8; 8],
    bytes: &'a [u8],
) -> Result<[&'a [u8]; N], Broken> {
    let (body, mark) = bytes.split_last_chunk::<8>().ok_or(Broken::Damaged)?;
    if digest(body) != u64::from_le_bytes(*mark) {
        return Err(Broken::Damaged);
    }
    match body.strip_prefix(kind) {
        Some(rest) => match fields_of(rest) {
            Some((fields, [])) => Ok(fields),
            _ => Err(Broken::Damaged),
        },
        None if body.len() >= 8 && body.starts_with(&kind[..7]) => Err(Broken::Version),
        None => Err(Broken::Damaged),
    }
}

/// So many fields, and what follows them.
pub fn fields_of<const N: usize>(mut rest: &[u8]) -> Option<([&[u8]; N], &[u8])> {
    let mut fields = [&[][..]; N];
    for field in &mut fields {
        let (length, after) = rest.split_first_chunk::<4>()?;
        let length = u32::from_le_bytes(*length) as usize;
        (*field, rest) = after.split_at_checked(length)?;
    }
    Some((fields, rest))
}

#[cfg(test)]
mod tests {
    use super::*;

    // The published values of FNV-1a.
    #[test]
    fn digest_is_fnv_1a() {
        assert_eq!(digest(b""), 0xcbf2_9ce4_8422_2325);
        assert_eq!(digest(b"a"), 0xaf63_dc4c_8601_ec8c);
        assert_eq!(digest(b"foobar"), 0x8594_4171_f739_67e8);
    }

    #[test]
    fn fields_come_back() {
        let bytes = seal(b"testing1", &[b"one", b"", b"three"]);
        let fields: [&[u8]; 3] = unseal(b"testing1", &bytes).expect("sealed");
        assert_eq!(fields, [&b"one"[..], b"", b"three"]);
        let broken = |kind| unseal::<3>(kind, &bytes).expect_err("of another kind");
        assert_eq!(broken(b"testing2"), Broken::Version);
        assert_eq!(broken(b"tasting1"), Broken::Damaged);
        assert_eq!(unseal::<2>(b"testing1", &bytes), Err(Broken::Damaged));
        assert_eq!(unseal::<4>(b"testing1", &bytes), Err(Broken::Damaged));
    }

    #[test]
    fn every_flip_and_every_cut_is_seen() {
        let bytes = seal(b"testing1", &[b"one", b"two"]);
        for at in 0..bytes.len() {
            let cut = unseal::<2>(b"testing1", &bytes[..at]);
            assert_eq!(cut, Err(Broken::Damaged));
            for bit in 0..8 {
                let mut other = bytes.clone();
                other[at] ^= 1 << bit;
                let flipped = unseal::<2>(b"testing1", &other);
                assert_eq!(flipped, Err(Broken::Damaged));
            }
        }
    }
}
