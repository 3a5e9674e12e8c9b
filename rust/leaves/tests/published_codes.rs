//! The published examples of AES and CMAC, at the proved library and at portable Rust.

use leaves::mac::{cmac, AesKey, CmacKey};
use leaves::vectors::{hex, unhex, FIPS_197, SP_800_38A, SP_800_38B, SP_800_38_MESSAGE};

#[test]
fn blocks() {
    for (place, v) in FIPS_197.iter().chain(SP_800_38A).enumerate() {
        let (key, block) = (unhex(v.key), unhex(v.block).try_into().unwrap());
        let proved = AesKey::new(&key).unwrap().encrypt(&block);
        assert_eq!(hex(&proved), v.cipher, "{place}");
        let portable = portable_aes::AesKey::new(&key).unwrap().encrypt(&block);
        assert_eq!(hex(&portable), v.cipher, "{place}, portable");
    }
}

#[test]
fn codes() {
    for (place, v) in SP_800_38B.iter().enumerate() {
        let (key, message) = (unhex(v.key), &unhex(SP_800_38_MESSAGE)[..v.len]);
        assert_eq!(hex(&cmac(&key, message).unwrap()), v.code, "{place}");
        let kept = CmacKey::new(&key).unwrap();
        assert_eq!(hex(&kept.mac(message)), v.code, "{place}, key kept");
        let portable = portable_aes::cmac(&key, message).unwrap();
        assert_eq!(hex(&portable), v.code, "{place}, portable");
    }
}
