//! The vectors of 000, Annex A, through the proved leaves, with the repairs of our copy.

#[path = "../../second_receiver/tests/common/mod.rs"]
mod common;

use common::annex::*;
use common::{hex, upper};
use leaves::chain::Chain;
use leaves::kroot::kroot_judge;
use leaves::navdata::{set_issue, status_and_set, Nav};
use leaves::pkr::pkr_judge;
use leaves::public_keys::Pubkeys;
use leaves::tag_codes::{mac_bits, tag_matches};
use leaves::tags::Tag;
use leaves::times::Slots;

/// The annex's chain: NS 36, NMACK 2, root of week 947, hour 120; KS 128, MS 12.
fn annex_chain() -> Chain {
    Chain {
        slots: Slots {
            ns: 36,
            nmack: 2,
            root: 947 * 604_800 + 120 * 3_600,
        },
        alpha: hex(ALPHA).try_into().unwrap(),
        hf: 0,
        width: 16,
        ms: 12,
    }
}

/// 32 bytes that begin with a printed key.
fn key_32(text: &str) -> [u8; 32] {
    let mut key = [0xA5; 32];
    key[..16].copy_from_slice(&hex(text));
    key
}

// Table 24: keys 108, 73, 72, 71, 2, 1 and 0 among them, from the seed key, K414721.
#[test]
fn table_24_key_chain() {
    let chain = annex_chain();
    let (mut key, mut slot) = (key_32(SEED), 414_721);
    for (position, tow, bits) in KEYS {
        chain.walk(slot - position, position, &mut key).unwrap();
        slot = position;
        assert_eq!(key, key_32(bits), "key {position}");
        let seconds = chain.slots.slot_seconds(position);
        assert_eq!(seconds, Some(947 * 604_800 + u64::from(tow)));
    }
}

// Each key of table 24 fits beside each other one at its own slot, and at no other.
#[test]
fn keys_of_table_24_fit() {
    let chain = annex_chain();
    let low: Vec<_> = KEYS.into_iter().filter(|key| key.0 <= 108).collect();
    for &(held_slot, _, held) in &low {
        for &(slot, _, key) in &low {
            for sent in [slot, slot + 1] {
                assert_eq!(
                    chain.key_fits(held_slot, &key_32(held), sent, &key_32(key)),
                    Some(sent == slot),
                    "{key} at {sent}, {held_slot} held"
                );
            }
        }
    }
}

// A.1.4: what waits for a verdict after the DSM-KROOT of table 25.
#[test]
fn a_1_4_dsm_kroot() {
    let mut keys = Pubkeys([0; 1088]);
    let mut offer = [0xA5; 179];
    let mut config = [0; 63];
    config[1] = 11;
    assert_eq!(
        kroot_judge(&keys, &config, &mut offer, HEADER_A, &hex(DSM_KROOT)),
        Some(7)
    );
    assert_eq!(offer, [0xA5; 179]);
    keys.add(0, 1, &[2; 33]).unwrap();
    assert_eq!(
        kroot_judge(&keys, &config, &mut offer, HEADER_A, &hex(DSM_KROOT)),
        Some(0)
    );
    assert_eq!(offer[..2], [1, 0]);
    assert_eq!(upper(&offer[2..31]), SIGNED_MESSAGE);
    assert_eq!(offer[31..47], [0; 16]);
    assert_eq!(upper(&offer[47..111]), SIGNATURE);
    assert_eq!(offer[111..], [0; 68]);
}

// A.1.5: the set of E18's words ends the message of MAC0.
#[test]
fn a_1_5_set_in_the_message() {
    let mut nav = Nav {
        words: [0xA5; 2880],
        stamps: [0; 180],
    };
    for (word, kind) in words_of_e18().iter().zip(1..) {
        nav.store(18, kind, word, (947 << 20 | 432_000) + 1)
            .unwrap();
    }
    let t = 947 << 20 | 432_030;
    assert_eq!(nav.usable(18, t), Some(true));
    assert_eq!(nav.usable(18, t - 30), Some(false));
    let set = nav.set_of(18).unwrap();
    assert_eq!(set_issue(&set), 0x50);
    let mut message = hex("123B36979E01");
    message.resize(75, 0xA5);
    status_and_set(2, &set, &mut message, 6).unwrap();
    assert_eq!(upper(&message), mac0_message());
}

// A.1.7: each leaf of table 29 with its four nodes gives the root of table 28, and its key is held. Leaf
// 15 is an emergency message with ID 15, which is 6 (01).
#[test]
fn a_1_7_leaves_and_root() {
    let leaves = leaves();
    let root = levels(&leaves)[4][0];
    let (level, index, printed) = NODES[0];
    let right = NODE_REPAIRS
        .iter()
        .find(|repair| (repair.0, repair.1) == (level, index))
        .map(|repair| repair.2.apply(printed));
    assert_eq!(right, Some(upper(&root)));
    let mut keys = Pubkeys([0; 1088]);
    for (id, leaf) in leaves.iter().enumerate() {
        let dsm = dsm_pkr(&leaves, id);
        let mut other = dsm.clone();
        other[1 + 32 * (id % 4)] ^= 1;
        let mut expected = keys.clone();
        let number = if id == 15 { 6 } else { 0 };
        let wrong = if id == 15 { 6 } else { 10 };
        assert_eq!(pkr_judge(&mut keys, &root, &other), Some((wrong, false)));
        assert_eq!(keys, expected);
        assert_eq!(pkr_judge(&mut keys, &root, &dsm), Some((number, false)));
        if number == 0 {
            expected
                .add(leaf[0] & 15, leaf[0] >> 4, &leaf[1..])
                .unwrap();
        }
        assert_eq!(keys, expected, "leaf {id}");
    }
}

// A.1.5: tag0 of E18 under key 73, by its printed message and by its set; a tag that differs in its last bit does not match.
#[test]
fn tag0_of_e18() {
    let key = hex(KEYS.into_iter().find(|key| key.0 == 73).unwrap().2);
    assert_eq!(mac_bits(0, 12, &key, &hex(&mac0_message())), Some(0xE58));
    let mut nav = Nav {
        words: [0; 2880],
        stamps: [0; 180],
    };
    for (word, kind) in words_of_e18().iter().zip(1..) {
        nav.store(18, kind, word, 1).unwrap();
    }
    let set = nav.set_of(18).unwrap();
    let tag0 = |bits| Tag {
        sender: 18,
        prn: 18,
        adkd: 0,
        block: 1,
        position: 1,
        time: 0x3B36_979E,
        status: 2,
        bits,
    };
    assert_eq!(
        tag_matches(0, 12, &key, true, &tag0(0xE58), &set),
        Some(true)
    );
    assert_eq!(
        tag_matches(0, 12, &key, true, &tag0(0xE59), &set),
        Some(false)
    );
    assert_eq!(
        tag_matches(0, 12, &key, false, &tag0(0xE58), &set),
        Some(false)
    );
}

// A.1.5: MACSEQ of the same section.
#[test]
fn macseq_of_e18() {
    let key = hex(KEYS.into_iter().find(|key| key.0 == 73).unwrap().2);
    assert_eq!(
        mac_bits(0, 12, &key, &hex("123B36979EFF4012B0")),
        Some(0xC24)
    );
}
