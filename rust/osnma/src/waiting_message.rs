//! What the signature chip is handed.

use crate::{KEY_LEN, MESSAGE_LEN, SIGNATURE_LEN};

/// A message that waits for a verdict of the signature chip. Short parts are followed by zeros, which
/// are not signed: a chip is handed [`signed`](WaitingMessage::signed),
/// [`signature_bytes`](WaitingMessage::signature_bytes) and [`key_bytes`](WaitingMessage::key_bytes).
/// [`Core::verdict_on`](crate::Core::verdict_on) takes the whole back.
#[derive(Clone, Debug, PartialEq, Eq)]
pub struct WaitingMessage {
    /// What is signed: the NMA header, then the DSM-KROOT from CIDKR through KROOT.
    pub message: [u8; MESSAGE_LEN],
    /// Of 56, 64, 96 or 132 bytes by the key's type.
    pub signature: [u8; SIGNATURE_LEN],
    /// The public key to verify it under.
    pub key: [u8; KEY_LEN],
    /// The key's ID, 0 to 15.
    pub key_id: u8,
    /// The key's type, 0 to 3.
    pub key_type: u8,
}

/// By KS: bytes of the root key (000, table 12).
const ROOT_KEY_LEN: [usize; 9] = [12, 13, 14, 15, 16, 20, 24, 28, 32];
/// Bytes of the NMA header and of the DSM-KROOT from CIDKR through alpha.
const BEFORE_ROOT_KEY: usize = 13;
/// By key type: ECDSA P-224, P-256, P-384, P-521 (000, 5.1).
const SIGNATURE_LENS: [usize; 4] = [56, 64, 96, 132];
/// By key type: a compressed point.
const KEY_LENS: [usize; 4] = [29, 33, 49, 67];

/// The first bytes of a part, as many as the table says; none past its end.
fn front<'a>(part: &'a [u8], lens: &[usize], code: u8) -> &'a [u8] {
    let len = lens.get(usize::from(code)).copied().unwrap_or(0);
    part.get(..len).unwrap_or(part)
}

impl WaitingMessage {
    /// The signed bytes: the message without the zeros after it. Which hash the chip takes goes by the
    /// key's type, not by the chain: SHA-224, SHA-256, SHA-384 or SHA-512.
    pub fn signed(&self) -> &[u8] {
        let [_, _, sizes, ..] = self.message;
        let root_key = ROOT_KEY_LEN.get(usize::from(sizes >> 4));
        let len = root_key.map_or(0, |len| len.saturating_add(BEFORE_ROOT_KEY));
        self.message.get(..len).unwrap_or(&self.message)
    }

    /// The signature without the zeros after it: r and s, of equal lengths.
    pub fn signature_bytes(&self) -> &[u8] {
        front(&self.signature, &SIGNATURE_LENS, self.key_type)
    }

    /// The public key without the zeros after it: a compressed point.
    pub fn key_bytes(&self) -> &[u8] {
        front(&self.key, &KEY_LENS, self.key_type)
    }
}

#[cfg(test)]
mod tests {
    use super::*;

    #[test]
    fn lengths() {
        let mut waiting = WaitingMessage {
            message: [7; MESSAGE_LEN],
            signature: [8; SIGNATURE_LEN],
            key: [9; KEY_LEN],
            key_id: 0,
            key_type: 0,
        };
        for (ks, root_key) in [(0, 12), (4, 16), (5, 20), (8, 32)] {
            waiting.message[2] = ks << 4 | 15;
            assert_eq!(Some(waiting.signed()), waiting.message.get(..13 + root_key));
        }
        waiting.message[2] = 9 << 4;
        assert_eq!(waiting.signed(), [0; 0]);
        for (key_type, signature, key) in [(0, 56, 29), (1, 64, 33), (2, 96, 49), (3, 132, 67)] {
            waiting.key_type = key_type;
            assert_eq!(waiting.signature_bytes().len(), signature);
            assert_eq!(waiting.key_bytes().len(), key);
        }
        waiting.key_type = 4;
        assert_eq!(
            (waiting.signature_bytes(), waiting.key_bytes()),
            (&[][..], &[][..])
        );
    }
}
