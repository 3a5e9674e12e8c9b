//! The test vectors of 000, Annex A. Where our copy prints a value wrongly, the test shows that the
//! printed one does not fit and that the repaired one does.

mod common;

use common::annex::*;
use common::*;
use portable_hash::{hmac_sha256, sha256};
use second_receiver::chain::TeslaKey;
use second_receiver::gather::header_cid;
use second_receiver::kroot::RootFields;
use second_receiver::mack::{Field, Section};
use second_receiver::navdata::NavSet;
use second_receiver::pkr::{self, tree_root, Proved};
use second_receiver::public_keys::PublicKey;
use second_receiver::tags::{ProvedSection, Tag};
use second_receiver::times::{Gst, RootTime};

// Table 24 from the seed key, K414721, down to KROOT.
#[test]
fn a_1_2_key_chain() {
    let chain = chain();
    let (mut key, mut slot) = (TeslaKey::new(&hex(SEED)), 414721);
    for (position, tow, bits) in KEYS {
        key = chain.hash_down(&key, slot, position);
        slot = position;
        assert_eq!(upper(key.as_slice()), bits, "key {position}");
        assert_eq!(
            chain.slots.time(position),
            Gst::new(947, tow),
            "time of {position}"
        );
    }
    assert_eq!(key, chain.root);
}

// A.1.3: both messages and hashes. The second message prints the time twice; alpha belongs there.
#[test]
fn a_1_3_key_verification() {
    let k2 = "22B30FBEE8C6C4A43480AF28A67D4A65";
    let k1 = "81AEE575195E13C06961A705A191B9CD";
    let first = hex("22B30FBEE8C6C4A43480AF28A67D4A653B369780F1CA3856A975");
    assert_eq!(first, [hex(k2), hex("3B369780"), hex(ALPHA)].concat());
    let hash_1 = "81AEE575195E13C06961A705A191B9CDBD04D00EF3867C1B82D2E62FB7357B19";
    assert_eq!(upper(&sha256(&first)), hash_1);
    let hash_0 = "EE6772D9AB8396866DC57EADA1D29637F96908257E39FAD6898BB8230327E714";
    let printed = "81AEE575195E13C06961A705A191B9CD3B3697623B369762";
    let right = repair(40, "3B369762", ALPHA).apply(printed);
    assert_eq!(hex(&right), [hex(k1), hex("3B369762"), hex(ALPHA)].concat());
    assert_ne!(upper(&sha256(&hex(printed))), hash_0);
    assert_eq!(upper(&sha256(&hex(&right))), hash_0);
    let chain = chain();
    assert_eq!(
        chain.hash_down(&TeslaKey::new(&hex(k2)), 2, 1),
        TeslaKey::new(&hex(k1))
    );
    assert_eq!(chain.hash_down(&TeslaKey::new(&hex(k2)), 2, 0), chain.root);
}

// Table 25 and the signed message. The signature itself is the chip's affair.
#[test]
fn a_1_4_dsm_kroot() {
    let dsm = hex(DSM_KROOT);
    assert_eq!(dsm.len(), 8 * 13);
    assert_eq!((dsm[0] >> 4, dsm[0] & 15), (2, 0), "NB, PKID");
    let fields = RootFields::read(&dsm[1..]);
    let p = &fields.parameters;
    // The table's rows are CIDKR, NMACK, HF, "MS" (which is MF), KS, MS, MACLT.
    assert_eq!((p.cid, p.nmack, p.hf, p.mf), (0, 2, 0, 0));
    assert_eq!(
        (p.ks_code, p.ms_code, p.maclt, fields.rsvd, p.mo),
        (4, 1, 11, 0, 0)
    );
    assert_eq!((p.key_bits(), p.tag_bits()), (Some(128), Some(12)));
    assert_eq!(
        fields.time,
        RootTime {
            week: 947,
            hour: 0b01111000
        }
    );
    assert_eq!(upper(&p.alpha), ALPHA);

    let mut bench = Bench::started(&annex_start());
    assert_eq!(bench.dsm(18, gst(947, 431_760), HEADER_A, 0, &dsm), 0);
    let waiting = bench.receiver.waiting_message().unwrap();
    assert_eq!(waiting.key_id, 0);
    assert_eq!(upper(&waiting.message), SIGNED_MESSAGE);
    assert_eq!(upper(&waiting.signature), SIGNATURE);
    // P1 is the start of the hash of message and signature (000, 5.1).
    let padding = sha256(&[hex(SIGNED_MESSAGE), hex(SIGNATURE)].concat());
    assert_eq!(upper(&padding[..11]), "A442FF8199A7D3C8CEF9B2");
    assert_eq!(dsm[93..], padding[..11]);

    assert_eq!(bench.good(0, &hex(SIGNED_MESSAGE), &hex(SIGNATURE)), 0);
    let chain = bench.receiver.chain().unwrap();
    assert_eq!(upper(chain.root.as_slice()), KROOT);
    assert_eq!(header_cid(HEADER_A), chain.parameters.cid);
}

/// The CRC of an I/NAV page (OS SIS ICD, CRC-24Q) over even part, bits 0 to 113, and odd part, bits
/// 0 to 81.
fn crc_holds(even: &str, odd: &str) -> bool {
    if (even.len(), odd.len()) != (30, 30) {
        return false;
    }
    let (even, odd) = (binary(&hex(even)), binary(&hex(odd)));
    let mut crc = 0u32;
    for bit in [&even[..114], &odd[..82]].concat().bytes() {
        crc ^= u32::from(bit - b'0') << 23;
        crc = if crc >> 23 == 1 {
            crc << 1 ^ 0x186_4CFB
        } else {
            crc << 1
        };
    }
    u32::from_str_radix(&odd[82..106], 2) == Ok(crc)
}

// Table 26: every page's CRC holds after the repairs, and only then.
#[test]
fn table_26_pages() {
    let pages = pages();
    for (i, parts) in pages.chunks(2).enumerate() {
        assert!(
            crc_holds(&parts[0], &parts[1]),
            "page parts {} and {}",
            2 * i + 1,
            2 * i + 2
        );
        let repaired = PAGE_REPAIRS.iter().any(|(part, _)| *part == 2 * i + 1);
        assert_eq!(
            crc_holds(PAGES[2 * i], PAGES[2 * i + 1]),
            !repaired,
            "printed part {}",
            2 * i + 1
        );
    }
    // No other single digit of page part 1 mends its CRC.
    for at in 0..30 {
        for digit in "0123456789ABCDEF".chars() {
            let changed = format!("{}{digit}{}", &PAGES[0][..at], &PAGES[0][at + 1..]);
            assert_eq!(
                crc_holds(&changed, PAGES[1]),
                changed == pages[0],
                "{changed}"
            );
        }
    }
}

// A.1.5: the message of MAC0, its MAC, the tag, the message of MACSEQ and its MAC.
#[test]
fn a_1_5_mac0_and_macseq() {
    let key = hex("4E0E2DA7F80F547B874D4A2533316389");
    let set = NavSet::pack(&words_of_e18());
    let tag = Tag {
        sender: 18,
        prn: 18,
        adkd: 0,
        block: 1,
        position: 1,
        time: Gst::new(947, 432_030),
        status: 2,
        bits: 0b1110_0101_1000,
    };
    let message = upper(&tag.message(&set));
    assert_ne!(message, MAC0_MESSAGE);
    assert_eq!(message, mac0_message());
    let mac = "E5819AB582F2269E68FCB6AB5B368041E4E87F25320905E08EB48113ADEE997A";
    assert_eq!(upper(&hmac_sha256(&key, &hex(&message))), mac);
    assert_ne!(upper(&hmac_sha256(&key, &hex(MAC0_MESSAGE))), mac);
    let section = Section {
        fields: [0xC240, 0xFF40, 0x12B0, 0]
            .into_iter()
            .zip(1..)
            .map(|(info, position)| Field {
                block: 1,
                position,
                tag: 0,
                info,
            })
            .collect(),
        keys: Vec::new(),
    };
    let proved = ProvedSection {
        sender: 18,
        time: tag.time,
        status: 2,
        section: &section,
        tag_bits: 12,
    };
    let marks: [u8; 14] = annex_start().marks_30.try_into().unwrap();
    assert_eq!(upper(&proved.macseq_message(&marks)), "123B36979EFF4012B0");
    let macseq = "C24C7E4C55A29896758A48657E858425C396C648B3AAC2B199E594F88F40E4B3";
    assert_eq!(
        upper(&hmac_sha256(&key, &proved.macseq_message(&marks))),
        macseq
    );
    // With word 2 as printed the tag does not match.
    let mut printed_words = words_of_e18();
    printed_words[1][4] ^= 0x38;
    let printed_bits = [
        &binary(&hex(PAGES[0]))[2..114],
        &binary(&hex(PAGES[1]))[2..18],
    ]
    .concat();
    assert_eq!(packed(&printed_bits), printed_words[1]);
    let printed_message = tag.message(&NavSet::pack(&printed_words));
    assert_ne!(hmac_sha256(&key, &printed_message)[..2], hex(mac)[..2]);
}

/// NS 36, MACLT 11 with the four fields a block that the annex's chain has: 00S,FLX,FLX,00E then
/// 00S,00E,00E,00E.
fn annex_start() -> Start {
    let mut marks = vec![0; 14];
    (marks[1], marks[2]) = (255, 255);
    Start {
        ns: 36,
        key_id: 0,
        maclt: 11,
        marks_0: marks.clone(),
        marks_30: marks,
        ..Start::default()
    }
}

// A.1.5 through the receiver: E18's section at 947/432030, keys of slots 90 and 126, tag key 73.
#[test]
fn a_1_5_through_the_receiver() {
    let chain = chain();
    let key_126 = chain.hash_down(&TeslaKey::new(&hex(SEED)), 414_721, 126);
    let key_90 = chain.hash_down(&key_126, 126, 90);
    let run = |change: fn(&mut String)| {
        let mut bench = Bench::started(&annex_start());
        assert_eq!(
            bench.dsm(18, gst(947, 431_760), HEADER_A, 0, &hex(DSM_KROOT)),
            0
        );
        let waiting = bench.receiver.waiting_message().unwrap().clone();
        assert_eq!(bench.good(0, &waiting.message, &waiting.signature), 0);
        bench.words(18, gst(947, 432_000), &words_of_e18());
        let mut bits = "111001011000110000100100".to_string() + "0000";
        bits += "000000000000"; // The second tag's bits are not given.
        bits += "1111111101000000";
        bits += "000000000000"; // Nor the third's, which waits.
        bits += "0001001010110000";
        bits += &"0".repeat(28);
        change(&mut bits);
        bits += &binary(key_90.as_slice());
        bits += &"0".repeat(112);
        bits += &binary(key_126.as_slice());
        let (number, records) = bench.section(18, gst(947, 432_030), HEADER_A, &packed(&bits));
        assert_eq!(number, 0);
        (bench, records)
    };
    let (bench, records) = run(|_| {});
    assert_eq!(outcomes(&records)[..4], [9, 4, 5, 4]);
    assert_eq!(
        upper(&records[0]),
        "091212000101".to_string() + "0050" + "3B36979E"
    );
    // One tag of 12 bits: its set is a candidate.
    assert_eq!(bench.read(18), Err(16));
    let candidate = bench.receiver.candidate(18).unwrap();
    assert_eq!(candidate.set.0[..], set(&words_of_e18()));
    assert_eq!((candidate.total(), candidate.latest().0), (12, 0x3B36_979E));
    assert_eq!(bench.receiver.chain().unwrap().held_slot, 126);
    // A bit of the tag, of MACSEQ, of the second MAC-Info.
    assert_eq!(
        outcomes(&run(|bits| bits.replace_range(11..12, "1")).1)[..3],
        [2, 4, 5]
    );
    assert_eq!(
        outcomes(&run(|bits| bits.replace_range(23..24, "1")).1)[..3],
        [9, 4, 6]
    );
    assert_eq!(
        outcomes(&run(|bits| bits.replace_range(40..41, "0")).1)[..3],
        [9, 4, 6]
    );
}

// Tables 28 and 29: all 31 nodes follow from the 16 leaves after the repairs; each value printed
// wrongly does not.
#[test]
fn tables_28_and_29_tree() {
    let levels = levels(&leaves());
    for (level, index, printed) in NODES {
        let right = upper(&levels[level][index]);
        match NODE_REPAIRS
            .iter()
            .find(|(l, i, _)| (*l, *i) == (level, index))
        {
            None => assert_eq!(printed, right, "x{level},{index}"),
            Some((_, _, repair)) => {
                assert_ne!(printed, right, "x{level},{index}");
                assert_eq!(repair.apply(printed), right, "x{level},{index}");
            }
        }
    }
    let x_0_14 = NODES
        .iter()
        .find(|node| (node.0, node.1) == (0, 14))
        .unwrap()
        .2;
    assert_ne!(upper(&sha256(&hex(LEAVES[14].2))), x_0_14);
    assert_eq!(upper(&sha256(&leaves()[14])), x_0_14);
}

// Table 27: the message as printed lacks a digit; repaired, it is that of leaf 0.
#[test]
fn a_1_7_dsm_pkr() {
    assert_eq!(DSM_PKR.len(), 2 * 169 - 1);
    let itn_3 = "75943C3286BA8222E1B6437D12507436C0BF38BBB5FD856D9D948EF8FB3BAEC";
    assert_eq!(&DSM_PKR[194..257], itn_3);
    let right = repair(194 + 41, "", "B").apply(DSM_PKR);
    let dsm = hex(&right);
    assert_eq!(dsm, dsm_pkr(&leaves(), 0));
    assert_eq!((dsm[0] >> 4, dsm[0] & 15), (7, 0), "NB, MID");
    assert_eq!(upper(&dsm[97..129]), repair(41, "", "B").apply(itn_3));
    assert_eq!(upper(&dsm[159..]), "19148C51B7F0EED951EA");
    let root = levels(&leaves())[4][0];
    assert_eq!(tree_root(0, &dsm[129..159], dsm[1..129].chunks(32)), root);
    let key = hex("02D25BDF123D1CB876022BD071BC2372E4132DC62E627C1988D4E72726");
    let proved = Proved::Key(PublicKey {
        id: 0,
        key_type: 0,
        bytes: key,
    });
    assert_eq!(pkr::judge(&dsm, &root), Ok(proved));
    // The digit could be lost nowhere else: a node that is not the repaired one does not give the
    // root.
    let mut other = dsm.clone();
    other[97] ^= 1;
    assert_eq!(pkr::judge(&other, &root), Err(10));
}

// Every leaf of table 29 through the receiver. Leaf 15 is an emergency message with ID 15 and 33
// bytes of key: as a DSM-PKR it is 6 (01, row 6), as a bare leaf it gives the root.
#[test]
fn a_1_7_every_leaf_through_the_receiver() {
    let leaves = leaves();
    let root = levels(&leaves)[4][0];
    let start = Start {
        key_id: 0,
        tree_root: root.to_vec(),
        ..annex_start()
    };
    let mut bench = Bench::started(&start);
    let mut time = gst(947, 0);
    for (message_id, (key_type, id, _)) in LEAVES.into_iter().enumerate() {
        let dsm = dsm_pkr(&leaves, message_id);
        let number = bench.dsm(18, time, HEADER_A, 12 + message_id as u8 % 4, &dsm);
        time = later(time, 16);
        // Key 0 is held with other bytes; emergency needs ID 0.
        let expected = [(0, 9), (15, 6)]
            .into_iter()
            .find(|e| e.0 == message_id)
            .map_or(0, |e| e.1);
        assert_eq!(number, expected, "leaf {message_id}");
        if number == 0 {
            let key = bench.receiver.public_keys().last().unwrap();
            assert_eq!(
                (key.key_type, key.id, &key.bytes[..]),
                (key_type, id, &leaves[message_id][1..])
            );
        }
        let nodes = dsm[1..129].chunks(32);
        assert_eq!(
            tree_root(message_id as u8, &leaves[message_id], nodes),
            root
        );
    }
    assert_eq!(bench.receiver.public_keys().len(), 15);
}
