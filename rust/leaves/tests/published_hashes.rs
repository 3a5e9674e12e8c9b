//! The published examples of hashes, at the proved library.

use leaves::hash::{hmac, sha256, sha256_of_two, sha3_224, sha3_256, HmacKey};
use leaves::vectors::{
    hex, Coded, Hashed, FIPS_180_4, FIPS_198_1, FIPS_202, NIST_ADDITIONAL, NIST_SHORT, RFC_4231,
};

fn digests(list: &[Hashed]) {
    for (place, vector) in list.iter().enumerate() {
        let message = vector.message.bytes();
        let (a, b) = message.split_at(message.len() / 3);
        assert_eq!(hex(&sha256(&message).unwrap()), vector.digest, "{place}");
        assert_eq!(
            hex(&sha256_of_two(a, b).unwrap()),
            vector.digest,
            "{place}, in two parts"
        );
    }
}

fn codes(list: &[Coded]) {
    for (place, vector) in list.iter().enumerate() {
        let (key, message) = (vector.key.bytes(), vector.message.bytes());
        let kept = HmacKey::new(&key).unwrap();
        let digits = vector.code.len();
        assert_eq!(
            hex(&hmac(&key, &message).unwrap())[..digits],
            *vector.code,
            "{place}"
        );
        assert_eq!(
            hex(&kept.mac(&message).unwrap())[..digits],
            *vector.code,
            "{place}, key kept"
        );
    }
}

#[test]
fn fips_180_4() {
    digests(FIPS_180_4);
}

#[test]
fn nist_additional() {
    digests(NIST_ADDITIONAL);
}

#[test]
fn nist_short() {
    digests(NIST_SHORT);
}

#[test]
fn rfc_4231() {
    codes(RFC_4231);
}

#[test]
fn fips_198_1() {
    codes(FIPS_198_1);
}

#[test]
fn fips_202() {
    for (place, vector) in FIPS_202.iter().enumerate() {
        let message = vector.message.bytes();
        assert_eq!(hex(&sha3_224(&message)), vector.sha3_224, "{place}");
        assert_eq!(hex(&sha3_256(&message)), vector.sha3_256, "{place}");
    }
}
