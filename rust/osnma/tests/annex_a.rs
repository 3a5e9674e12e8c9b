//! 000, Annex A, through the core: the DSM-KROOT of A.1.4 and its verdict, E18's words and section of A.1.5, and
//! every DSM-PKR of A.1.7, with the repairs of our copy.

#[path = "../../second_receiver/tests/common/mod.rs"]
mod common;

use common::annex::*;
use common::{binary, fields, gst, hex, hkroot, later, packed, set, upper};
use osnma::collector::Collector;
use osnma::{Core, Gst, Outcome, Refusal, Settings, TagRecord, FLEXIBLE, NO_RECORDS, SET_LEN};
use second_receiver::chain::TeslaKey;
use second_receiver::times::SATELLITES;

/// NS 36, MACLT 11, key 0 of type 1, and the four fields a block that the annex's chain has: 00S,FLX,FLX,00E
/// then 00S,00E,00E,00E.
fn started(tree_root: [u8; 32]) -> Core {
    let mut marks = [[0; 14]; 2];
    for list in &mut marks {
        (list[1], list[2]) = (FLEXIBLE, FLEXIBLE);
    }
    let mut core = Core::new();
    let settings = Settings {
        ns: 36,
        key_id: 0,
        key_type: 1,
        maclt: 11,
        marks,
        tree_root,
        key: [2; 67],
    };
    assert_eq!(core.start(&settings), Ok(()));
    core
}

/// Both halves and the records of a sub-frame.
fn subframe(
    core: &mut Core,
    prn: u8,
    time: u32,
    hkroot: &[u8],
    section: &[u8],
) -> ([Result<(), Refusal>; 2], Vec<TagRecord>) {
    let mut records = NO_RECORDS;
    let fields = fields(hkroot, section).try_into().unwrap();
    let answer = core.subframe(prn, Gst::from_bits(time), &fields, &mut records);
    ([answer.hkroot, answer.mack], answer.tags.collect())
}

/// All blocks of a message, a half minute apart from one satellite: what the last one's HKROOT half answers. Nothing else
/// is gathered.
fn message(core: &mut Core, time: u32, id: u8, dsm: &[u8]) -> Result<(), Refusal> {
    let (mut last, total) = (Ok(()), (dsm.len() / 13) as u8);
    for (block, k) in dsm.chunks(13).zip(0u8..) {
        assert_eq!(last, Ok(()), "block {k}");
        let hkroot = hkroot(HEADER_A, id, k, block);
        let ([first, second], tags) =
            subframe(core, 18, later(time, k.into()), &hkroot, &[0x77; 60]);
        assert_eq!((second, tags), (Err(Refusal::NotInForce), vec![]));
        last = first;
        for message in core.progress() {
            let missing = total - (k + 1);
            let right = match message.dsm_id == id && missing > 0 {
                true => (k + 1, Some(missing)),
                false => (0, None),
            };
            assert_eq!((message.held, message.missing), right, "{message:?}");
        }
    }
    last
}

/// The annex's root is vouched for.
fn vouched() -> Core {
    let mut core = started([0; 32]);
    assert_eq!(
        message(&mut core, gst(947, 431_760), 0, &hex(DSM_KROOT)),
        Ok(())
    );
    let waiting = core.read_message().unwrap();
    assert_eq!(upper(&waiting.message[..29]), SIGNED_MESSAGE);
    assert_eq!(waiting.message[29..], [0; 16]);
    assert_eq!(upper(&waiting.signature[..64]), SIGNATURE);
    assert_eq!(waiting.signature[64..], [0; 68]);
    assert_eq!((waiting.key_id, waiting.key_type), (0, 1));
    assert_eq!(upper(waiting.signed()), SIGNED_MESSAGE);
    assert_eq!(upper(waiting.signature_bytes()), SIGNATURE);
    let refused = core.clone().verdict_on(&waiting, false);
    assert_eq!(refused, Err(Refusal::VerdictBad));
    assert_eq!(core.verdict_on(&waiting, true), Ok(()));
    assert_eq!(upper(&core.regions().heldkey[..16]), KROOT);
    core
}

/// The same, and E18's words have come.
fn ready() -> Core {
    let mut core = vouched();
    for word in words_of_e18() {
        let time = Gst::from_bits(gst(947, 432_000));
        assert_eq!(core.word(18, time, &word), Ok(()));
    }
    core
}

/// E18's section at 947/432030: tag0, MACSEQ and MAC-Info of the annex, the keys of slots 90 and 126; what the
/// annex does not print is 0.
fn section(change: impl Fn(&mut String)) -> Vec<u8> {
    let chain = chain();
    let key_126 = chain.hash_down(&TeslaKey::new(&hex(SEED)), 414_721, 126);
    let key_90 = chain.hash_down(&key_126, 126, 90);
    let mut bits = "111001011000110000100100".to_string() + "0000";
    bits += &("0".repeat(12) + "1111111101000000");
    bits += &("0".repeat(12) + "0001001010110000");
    bits += &"0".repeat(28);
    change(&mut bits);
    bits += &binary(key_90.as_slice());
    bits += &"0".repeat(112);
    bits += &binary(key_126.as_slice());
    packed(&bits)
}

fn outcomes(tags: &[TagRecord]) -> Vec<u8> {
    tags.iter().map(|tag| tag.outcome.number()).collect()
}

/// The places of E18's candidate: its set, the stamp of its latest tag, and its total.
const CANDIDATE: (usize, usize, usize) = (
    SET_LEN * (SATELLITES + 17),
    SATELLITES + 17,
    2 * SATELLITES + 17,
);

// A.1.5: tag0 matches under key 73, the third field's tag waits, MACSEQ holds. Twelve bits make a candidate.
#[test]
fn a_1_5_section() {
    let mut core = ready();
    let time = gst(947, 432_030);
    let block = hkroot(HEADER_A, 0, 0, &hex(DSM_KROOT)[..13]);
    let (halves, tags) = subframe(&mut core, 18, time, &block, &section(|_| {}));
    assert_eq!(halves, [Ok(()), Ok(())]);
    assert_eq!(outcomes(&tags), [9, 4, 5, 4, 4, 4, 4, 4]);
    let right = TagRecord {
        outcome: Outcome::Agrees,
        sender: 18,
        prn: 18,
        adkd: 0,
        block: 1,
        position: 1,
        iodnav: 0x50,
        time: Gst::from_bits(0x3B36_979E),
    };
    assert_eq!(tags[0], right);
    assert_eq!(core.read_set(18), Err(Refusal::NoSet));
    let regions = core.regions();
    let (place, stamp, total) = CANDIDATE;
    assert_eq!(regions.sets[place..place + SET_LEN], set(&words_of_e18()));
    assert_eq!(
        (regions.arrivals[stamp], regions.arrivals[total]),
        (0x3B36_979F, 12)
    );
    assert_eq!(regions.numbers, [126, 1]);
}

// The same where tags of 28 bits agreed with the set before: with tag0's twelve it is authentic.
#[test]
fn a_1_5_forty_bits() {
    let mut core = ready();
    let (place, stamp, total) = CANDIDATE;
    let regions = core.regions_mut();
    regions.sets[place..place + SET_LEN].copy_from_slice(&set(&words_of_e18()));
    regions.arrivals[stamp] = gst(947, 432_000) + 1;
    regions.arrivals[total] = 28;
    let block = hkroot(HEADER_A, 0, 0, &hex(DSM_KROOT)[..13]);
    let time = gst(947, 432_030);
    let (halves, tags) = subframe(&mut core, 18, time, &block, &section(|_| {}));
    assert_eq!(halves, [Ok(()), Ok(())]);
    assert_eq!(outcomes(&tags), [1, 4, 5, 4, 4, 4, 4, 4]);
    let read = core.read_set(18).unwrap();
    assert_eq!(read.bytes[..], set(&words_of_e18()));
    assert_eq!((read.iodnav, read.time.bits()), (0x50, 0x3B36_979E));
    let arrivals = &core.regions().arrivals;
    assert_eq!((arrivals[stamp], arrivals[total]), (0, 0));
}

// A bit of the tag, of MACSEQ, of the second MAC-Info, of the first key.
#[test]
fn a_1_5_changed() {
    let block = hkroot(HEADER_A, 0, 0, &hex(DSM_KROOT)[..13]);
    for (at, right) in [(11, [2, 4, 5]), (23, [9, 4, 6]), (40, [9, 4, 6])] {
        let turned = |bits: &mut String| {
            let bit = if &bits[at..=at] == "0" { "1" } else { "0" };
            bits.replace_range(at..=at, bit);
        };
        let (halves, tags) = subframe(
            &mut ready(),
            18,
            gst(947, 432_030),
            &block,
            &section(turned),
        );
        assert_eq!(halves, [Ok(()), Ok(())]);
        assert_eq!(outcomes(&tags)[..3], right, "bit {at}");
    }
    let mut changed = section(|_| {});
    changed[14] ^= 1;
    let (halves, tags) = subframe(&mut ready(), 18, gst(947, 432_030), &block, &changed);
    assert_eq!(halves, [Ok(()), Err(Refusal::KeyUnfit)]);
    assert_eq!(tags, []);
}

// A.1.7: every leaf of table 29. Key 0 is held with other bytes; leaf 15 is an emergency message with ID 15.
#[test]
fn a_1_7_every_leaf() {
    let leaves = leaves();
    let mut core = started(levels(&leaves)[4][0]);
    let mut time = gst(947, 0);
    for (id, leaf) in leaves.iter().enumerate() {
        let answer = message(&mut core, time, 12 + id as u8 % 4, &dsm_pkr(&leaves, id));
        time = later(time, 16);
        let right = match id {
            0 => Err(Refusal::NotNewer),
            15 => Err(Refusal::BlockUnfit),
            _ => Ok(()),
        };
        assert_eq!(answer, right, "leaf {id}");
        let place = &core.regions().pubkeys[68 * (id % 15)..][..68];
        if right.is_ok() {
            assert_eq!(place[0], (leaf[0] >> 4) + 1, "leaf {id}");
            assert_eq!(place[1..leaf.len()], leaf[1..], "leaf {id}");
        }
    }
    let mut other = dsm_pkr(&leaves, 3);
    other[40] ^= 1;
    assert_eq!(
        message(&mut core, time, 12, &other),
        Err(Refusal::TreeUnfit)
    );
}

// Table 26: E18's half minute as it was sent, through the collector. Its fields are of another chain; its words are those
// that A.1.5's tag matches.
#[test]
fn table_26_pages() {
    let (mut core, mut collector) = (vouched(), Collector::new());
    let parts: Vec<Vec<u8>> = pages().iter().map(|part| hex(part)).collect();
    for (place, parts) in (0..).zip(parts.chunks_exact(2)) {
        let (time, page) = Gst::of_page(947, 432_001 + 2 * place).unwrap();
        let (even, odd) = (&parts[0][..], &parts[1][..]);
        let taken = collector.page(
            18,
            time,
            page,
            even.try_into().unwrap(),
            odd.try_into().unwrap(),
        );
        assert_eq!((page, taken), (place, Ok(())));
    }
    let mut lent = Vec::new();
    let words = collector.lend(&mut core, &mut NO_RECORDS.clone(), |prn, time, answer| {
        lent.push((prn, time.bits(), answer.tags.len()));
    });
    assert_eq!((words, lent), (Ok(()), vec![(18, gst(947, 432_000), 0)]));
    let block = hkroot(HEADER_A, 0, 0, &hex(DSM_KROOT)[..13]);
    let time = gst(947, 432_030);
    let (halves, tags) = subframe(&mut core, 18, time, &block, &section(|_| {}));
    assert_eq!(halves, [Ok(()), Ok(())]);
    assert_eq!(outcomes(&tags)[..3], [9, 4, 5]);
    let candidate = &core.regions().sets[CANDIDATE.0..][..SET_LEN];
    assert_eq!(candidate, set(&words_of_e18()));
}
