//! The core against the definitions themselves (crates/rules/specs/Calls.antt), also on region
//! contents that no start leaves and that the second receiver cannot have: the definitions give an
//! answer for any.

mod common;

use common::twin::{garbage, Call, Kind};
use common::{draw, driver, stamps, stores};
use osnma::regions::{Regions, View};
use osnma::Marks;
use rules_runner::machine::with_large_stack;
use rules_runner::program::Hashes;
use rules_runner::rules::{self, Rules};
use second_receiver::bits::BitString;
use second_receiver::chain::{Chain, TeslaKey};
use second_receiver::hash;
use second_receiver::mac::MacKey;
use second_receiver::mack::Layout;
use second_receiver::navdata::NavSet;
use second_receiver::tags::Tag;
use second_receiver::Receiver;
use signal::rng::Rng;
use signal::scenario::{Functions, Pages};
use signal::subframe;
use signal::time::Gst;
use std::collections::BTreeMap;
use std::path::Path;

const CALLS: u64 = if cfg!(debug_assertions) { 100 } else { 3_000 };

fn list<T: Copy + Into<u64>>(region: &[T]) -> Vec<u64> {
    region.iter().map(|&element| element.into()).collect()
}

/// The regions as lists of numbers.
fn lists(r: &Regions) -> rules::Regions {
    [
        list(&r.config),
        list(&r.clocks),
        list(&r.words),
        list(&r.stamps),
        list(&r.blocks),
        list(&r.headers),
        list(&r.present),
        list(&r.since),
        list(&r.pubkeys),
        list(&r.offer),
        list(&r.chain),
        list(&r.numbers),
        list(&r.heldkey),
        list(&r.waiting),
        list(&r.sets),
        list(&r.arrivals),
    ]
}

/// Changes some of what decides a call to other values, mostly such that no start leaves.
fn spoil(r: &mut Regions, rng: &mut Rng) {
    for _ in 0..rng.below(4) {
        let any = rng.number();
        match rng.below(15) {
            0 => r.config[0] = any as u8,
            1 => r.config[1] ^= 1,
            2 => r.config[62] = *rng.pick(&[0, 1, 2, 255]),
            3 => r.offer[0] = *rng.pick(&[0, 1, 2, 255]),
            4 => r.offer[1] = any as u8,
            5 => r.chain[0] = *rng.pick(&[0, 1, 2, 3, 255]),
            6 => r.chain[rng.range(1, 12) as usize] = any as u8,
            7 => r.numbers[0] = any >> rng.below(64),
            8 => r.numbers[1] = *rng.pick(&[0, 1, 2, 3, 255, 256, 257, 1 << 32, u64::MAX]),
            9 => r.pubkeys[68 * rng.below(16) as usize] = rng.below(7) as u8,
            // Stamps of authentic sets and of candidates, and totals.
            10 => {
                let number = *rng.pick(&[0, 1, 39, 40, any as u32, u32::MAX]);
                r.arrivals[rng.below(108) as usize] = number;
            }
            11 => {
                r.clocks[36 + rng.range(1, 36) as usize] = *rng.pick(&[0, 1, any as u32, u32::MAX])
            }
            12 => rng.fill(&mut r.waiting),
            13 => rng.fill(&mut r.sets),
            _ => rng.fill(&mut r.pubkeys),
        }
    }
}

/// A message waits: that of the regions, or one like the contents put in force last.
fn offer(r: &mut Regions, rng: &mut Rng) {
    r.offer[0] = 1;
    if rng.once_in(2) {
        let contents = r.chain;
        r.offer[3..47].copy_from_slice(&contents[1..]);
        // Status 1, 2 or 3, and mostly CIDKR as CID.
        r.offer[2] = (rng.range(1, 3) << 6) as u8 | contents[1] >> 6 << 4;
        match rng.below(6) {
            0 => r.offer[8] = r.offer[8].wrapping_add(1),
            1 => r.offer[8] = r.offer[8].wrapping_sub(1),
            2 => r.offer[7] = r.offer[7].wrapping_add(1),
            3 => r.offer[rng.range(2, 46) as usize] ^= 1 << rng.below(8),
            _ => {}
        }
    }
}

/// A verdict on what the regions say that waits, or almost that.
fn verdict(r: &Regions, rng: &mut Rng) -> Call {
    let (mut message, mut signature) = ([0; 45], [0; 132]);
    message.copy_from_slice(&r.offer[2..47]);
    signature.copy_from_slice(&r.offer[47..]);
    if rng.once_in(8) {
        message[rng.below(45) as usize] ^= 1 << rng.below(8);
    }
    Call::Verdict {
        good: *rng.pick(&[0, 1, 1, 1, 1, 1, 1, 2]),
        key_id: match rng.below(8) {
            0 => rng.number() as u8,
            _ => r.offer[1] % 16,
        },
        message,
        signature,
    }
}

/// What is held of a satellite that may have these 69 bytes as its set: authentic or candidate, with stamps around one
/// and totals around 40.
fn hold(r: &mut Regions, rng: &mut Rng, prn: u8, set: &[u8; 69], stamp: u32) {
    let at = usize::from(prn) - 1;
    for place in [at, 36 + at] {
        if rng.once_in(2) {
            r.sets[69 * place..69 * (place + 1)].copy_from_slice(set);
        }
        let (before, after) = (stamp.saturating_sub(30), stamp.saturating_add(30));
        r.arrivals[place] = *rng.pick(&[0, before, stamp, after]);
    }
    let any = rng.number() as u32;
    r.arrivals[72 + at] = *rng.pick(&[0, 1, 12, 24, 28, 29, 30, 36, 39, 40, any, u32::MAX]);
}

/// A set of this satellite that is usable at this time.
fn usable_set(r: &mut Regions, rng: &mut Rng, prn: u8, time: u32) -> NavSet {
    let at = 5 * (usize::from(prn) - 1);
    let words = &mut r.words[16 * at..16 * (at + 5)];
    // IODnav is bits 6 to 15 of words 1 to 4.
    let iodnav = [words[0] & 3, words[1]];
    for word in words.chunks_exact_mut(16).take(4) {
        (word[0], word[1]) = (word[0] & !3 | iodnav[0], iodnav[1]);
    }
    r.stamps[at..at + 5].fill_with(|| rng.range(1, u64::from(time).max(1)) as u32);
    NavSet::pack(&std::array::from_fn(|k| {
        std::array::from_fn(|i| r.words[16 * (at + k) + i])
    }))
}

/// A tag that matches this set under the chain, if its MAC function takes its key.
fn right_bits(chain: &Chain, layout: &Layout, tag: &Tag, set: &NavSet) -> Option<u64> {
    let slot = tag.key_slot(&chain.slots);
    let key = chain.hash_down(&chain.held, chain.held_slot, slot);
    let key = MacKey::new(chain.parameters.mf, key.as_slice())?;
    Some(key.code(&tag.message(set), layout.tag_bits))
}

/// Due tags of any sets that match them, for any PRNs, in place of what waits.
fn due_tags(r: &mut Regions, rng: &mut Rng, chain: &Chain, layout: &Layout, tag: &Tag) {
    let count = rng.below(6) as usize;
    r.numbers[1] = count as u64;
    for entry in 0..count {
        let tag = Tag {
            sender: rng.number() as u8,
            prn: match rng.below(6) {
                0 => *rng.pick(&[0, 37, 255]),
                1 => rng.range(1, 36) as u8,
                _ => tag.prn,
            },
            position: rng.range(2, 14) as u8,
            status: rng.below(4) as u8,
            ..tag.clone()
        };
        // Mostly of one satellite and one set, so that they are summed.
        let mut set = NavSet([entry as u8 / 3; 69]);
        if rng.once_in(4) {
            set = NavSet(rng.array());
        }
        let Some(bits) = right_bits(chain, layout, &tag, &set) else {
            continue;
        };
        if (1..=36).contains(&tag.prn) && rng.once_in(3) {
            hold(r, rng, tag.prn, &set.0, tag.time.0.saturating_add(1));
        }
        let place = &mut r.waiting[84 * entry..84 * (entry + 1)];
        place[..5].copy_from_slice(&[tag.sender, tag.prn, tag.adkd, tag.block, tag.position]);
        place[5..9].copy_from_slice(&tag.time.0.to_be_bytes());
        place[9] = tag.status;
        place[10..15].copy_from_slice(&bits.to_be_bytes()[3..]);
        place[15..].copy_from_slice(&set.0);
    }
}

/// A section with any fields, or fields whose tags match, whose keys are those below the held one, if the regions say a
/// chain; the held key becomes that of the section's last slot or of one above it.
fn section(r: &mut Regions, rng: &mut Rng, prn: u8, time: u32, status: u8) -> Option<[u8; 60]> {
    let ns = Some(r.config[0]).filter(|ns| (1..=36).contains(ns));
    let mut chain = Chain::new(&r.chain[1..], ns.unwrap_or(1));
    // A section of another HF, or with keys longer than a digest, has no keys: row 8 lets no such chain come into force.
    let hf = chain.parameters.hf;
    let layout = Layout::of(&chain.parameters)
        .filter(|layout| layout.fields > 0 && hash::is_taken(hf, layout.key_bits))?;
    let time = second_receiver::times::Gst(time);
    let (seconds, slots) = (time.seconds(), chain.slots);
    if seconds < slots.start || !(1..=36).contains(&prn) {
        return None;
    }
    chain.held_slot = slots.of_key(seconds, layout.blocks, prn) + rng.below(40);
    chain.held = TeslaKey::new(&r.heldkey[..layout.key_bits / 8]);
    r.numbers[0] = chain.held_slot;
    let mut tag = Tag {
        sender: prn,
        prn,
        adkd: 0,
        block: 1,
        position: 1,
        time,
        status,
        bits: 0,
    };
    let right = rng.once_in(2);
    if right && rng.once_in(2) {
        due_tags(r, rng, &chain, &layout, &tag);
    }
    let mut bits = BitString::default();
    for block in 1..=layout.blocks {
        let fields = layout.fields * (layout.tag_bits + 16);
        let slot = slots.of_key(seconds, block, prn);
        let key = chain.hash_down(&chain.held, chain.held_slot, slot);
        if !right {
            bits.push_bits(&rng.bytes(60), 0, fields);
        }
        for position in (1..=layout.fields).filter(|_| right) {
            // Mostly the sender's own, so that tags of one satellite are summed.
            let first = block == 1 && position == 1;
            let other = !first && rng.once_in(4);
            tag.prn = if other { rng.range(1, 36) as u8 } else { prn };
            (tag.block, tag.position) = (block, position as u8);
            let set = usable_set(r, rng, tag.prn, time.0);
            let at = usize::from(block - 1) * layout.fields + position - 1;
            for list in 0..2 {
                r.config[2 + 14 * list + at] = 0;
            }
            if first || rng.once_in(8) {
                hold(r, rng, tag.prn, &set.0, time.0.saturating_add(1));
            }
            let any = rng.number() >> (64 - layout.tag_bits);
            let right = right_bits(&chain, &layout, &tag, &set).filter(|_| !rng.once_in(8));
            bits.push(right.unwrap_or(any), layout.tag_bits);
            bits.push(u64::from(tag.prn) << 8 | rng.below(16), 16);
        }
        bits.push_bits(key.as_slice(), 0, layout.key_bits);
        bits.push_bits(&[0; 60], 0, layout.block_bits - layout.key_bits - fields);
    }
    bits.into_bytes().try_into().ok()
}

/// A block of any DSM ID; often of a message that it completes with the bytes that are held.
fn block(r: &mut Regions, rng: &mut Rng, header: u8, time: u32) -> [u8; 15] {
    let mut hkroot = rng.array::<15>();
    hkroot[0] = header;
    let (id, k) = (usize::from(hkroot[1] >> 4), usize::from(hkroot[1] & 15));
    if !rng.once_in(3) {
        let count = rng.range(7, 16);
        let first = &mut r.blocks[208 * id];
        *first = *first & 15 | ((count - 6) << 4) as u8;
        r.present[id] = ((1u32 << count) - 1) as u16 & !(1 << k);
        (r.headers[id], r.since[id]) = (header, time);
        hkroot[2..].copy_from_slice(&r.blocks[208 * id + 13 * k..][..13]);
    }
    hkroot
}

/// A sub-frame near the root and the held key, so that the definitions, which walk anew for each tag, do not
/// walk far.
fn subframe(r: &mut Regions, rng: &mut Rng) -> Call {
    r.numbers[0] %= 200;
    let week = u16::from_be_bytes([r.chain[4] & 15, r.chain[5]]);
    let root = 604_800 * u64::from(week) + 3_600 * u64::from(r.chain[6]);
    let mut time = Gst::from_seconds(root + 30 * rng.below(3)).0;
    let prn = draw::prn(rng);
    if rng.once_in(8) {
        time ^= 1 << rng.below(32);
        r.chain[0] = 2;
    }
    for clock in &mut r.clocks {
        *clock = (*clock).min(time.saturating_sub(rng.below(2) as u32));
    }
    let header = match rng.below(4) {
        0 => rng.number() as u8,
        _ => (rng.range(1, 2) << 6) as u8 | r.chain[1] >> 6 << 4,
    };
    let hkroot = block(r, rng, header, time);
    let any = rng.array();
    let right = (!rng.once_in(4))
        .then(|| section(r, rng, prn, time, header >> 6))
        .flatten();
    let fields = match rng.below(16) {
        0 => [0; 75],
        _ => subframe::join(&hkroot, &right.unwrap_or(any)),
    };
    // Flexible fields in any place, the first too.
    if rng.once_in(4) {
        r.config[rng.range(2, 29) as usize] = 255;
    }
    let marks = None;
    let call = Call::Subframe {
        prn,
        time,
        marks,
        fields,
    };
    draw::with_marks(rng, call)
}

/// What a call gives: its number, the bytes read and the numbers read; of a sub-frame the count of records,
/// the record area, and the numbers of both halves.
type Given = (u64, Vec<u8>, [u64; 2]);

/// What is in the record area before a sub-frame.
const AREA: [u8; 3240] = [0x5A; 3240];
/// What is in the bytes for the progress of messages before the question.
const PAIRS: [u8; 32] = [0x5A; 32];

fn by_core(r: &mut Regions, call: &Call) -> Given {
    let mut lent = r.lend();
    let told = |number: u32| (u64::from(number), vec![], [0; 2]);
    match call {
        Call::Start(s) => {
            let marks = s.marks.as_flattened();
            told(lent.start(
                s.ns,
                s.key_id,
                s.key_type,
                s.maclt,
                marks,
                &s.tree_root,
                &s.key,
            ))
        }
        Call::Word { prn, time, word } => told(lent.word(*prn, *time, word)),
        Call::Subframe {
            prn,
            time,
            marks,
            fields,
        } => {
            let (mut area, mut hkroot, mut mack) = (AREA, 77, 77);
            let marks = marks.unwrap_or(Marks::ALL.bits());
            let count = lent.subframe(
                &mut area,
                *prn,
                *time,
                marks,
                fields,
                &mut hkroot,
                &mut mack,
            );
            (count.into(), area.to_vec(), [hkroot.into(), mack.into()])
        }
        Call::Verdict {
            good,
            key_id,
            message,
            signature,
        } => told(lent.verdict(*good, *key_id, message, signature)),
        Call::ReadSet(prn) => {
            let (mut set, mut iodnav, mut time) = ([0; 69], 1, 1);
            let number = lent.view().read_set(*prn, &mut set, &mut iodnav, &mut time);
            (number.into(), set.to_vec(), [iodnav.into(), time.into()])
        }
        Call::ReadMessage => {
            let (mut message, mut signature, mut key) = ([0; 45], [0; 132], [0; 67]);
            let (mut id, mut kind) = (1, 1);
            let view = lent.view();
            let number =
                view.read_message(&mut message, &mut signature, &mut key, &mut id, &mut kind);
            let bytes = [&message[..], &signature, &key].concat();
            (number.into(), bytes, [id.into(), kind.into()])
        }
        Call::Four(limit) => {
            let mut yes = 77;
            let number = lent.view().four(*limit, &mut yes);
            (number.into(), vec![], [yes.into(), 0])
        }
        Call::Progress => {
            let mut pairs = PAIRS;
            let number = lent.view().progress(&mut pairs);
            (number.into(), pairs.to_vec(), [0; 2])
        }
    }
}

fn by_rules(run: &mut rules::Run, call: &Call) -> Given {
    let told = |number| (number, vec![], [0; 2]);
    match call {
        Call::Start(s) => {
            let marks = s.marks.as_flattened();
            told(run.start(
                s.ns,
                s.key_id,
                s.key_type,
                s.maclt,
                marks,
                &s.tree_root,
                &s.key,
            ))
        }
        Call::Word { prn, time, word } => told(run.word(*prn, *time, word)),
        Call::Subframe {
            prn,
            time,
            marks,
            fields,
        } => {
            run.lend_area(&AREA);
            let told = run.subframe(*prn, *time, marks.unwrap_or(rules::ALL_CAME), fields);
            (told.records as u64, run.area(), [told.hkroot, told.mack])
        }
        Call::Verdict {
            good,
            key_id,
            message,
            signature,
        } => told(run.verdict(*good, *key_id, message, signature)),
        Call::ReadSet(prn) => {
            let read = run.read_set(*prn);
            (read.number, read.set, [read.iodnav, read.time])
        }
        Call::ReadMessage => {
            let read = run.read_offer();
            let bytes = [read.message, read.signature, read.key].concat();
            (read.number, bytes, [read.id, read.key_type])
        }
        Call::Four(limit) => {
            let read = run.four(*limit);
            (read.number, vec![], [read.yes, 0])
        }
        Call::Progress => {
            let read = run.progress(&PAIRS);
            (read.number, read.pairs, [0; 2])
        }
    }
}

/// Whether four satellites have a recent set, with a limit mostly around the least that is enough, and how far along each
/// message is.
fn ask(r: &mut Regions, run: &mut rules::Run, asks: &mut Rng) {
    let four = Call::Four(stamps::limit(asks, stamps::least_limit_of(r)));
    for call in [four, Call::Progress] {
        assert_eq!(by_core(r, &call), by_rules(run, &call), "{call:?}");
    }
}

// A core's regions have the lengths that the definitions name.
#[test]
fn lengths_of_the_regions() {
    let crates = Path::new(env!("CARGO_MANIFEST_DIR")).join("../../crates");
    let lengths = with_large_stack(|| {
        let rules = Rules::load(&crates, Hashes::Portable).unwrap_or_else(|e| panic!("{e}"));
        rules.lengths()
    });
    let regions = Regions::zeroed();
    assert_eq!(lists(&regions).map(|region| region.len()), lengths);
}

/// Elements lent with another length: the definitions say of any.
fn resized<T: Copy + From<u8>>(elements: &[T], rng: &mut Rng) -> Vec<T> {
    let mut elements = elements.to_vec();
    if rng.once_in(8) {
        let len = elements.len();
        let len = *rng.pick(&[0, 1, len - 1, len, len + 1, 2 * len]);
        elements.resize(len, 1.into());
    }
    elements
}

// Whether four satellites have a recent set, on clocks and arrivals of any contents and lengths.
#[test]
fn four_on_any_stamps() {
    let crates = Path::new(env!("CARGO_MANIFEST_DIR")).join("../../crates");
    let told = with_large_stack(|| {
        let rules = Rules::load(&crates, Hashes::Portable).unwrap_or_else(|e| panic!("{e}"));
        let (mut rng, mut told) = (Rng::new(12), BTreeMap::new());
        let mut regions = Regions::zeroed();
        for at in 0..10 * CALLS {
            let limit = stamps::draw(&mut rng, &mut regions);
            let clocks = resized(&regions.clocks, &mut rng);
            let arrivals = resized(&regions.arrivals, &mut rng);
            let mut yes = 77;
            let view = View {
                clocks: &clocks,
                arrivals: &arrivals,
                ..regions.view()
            };
            let number = view.four(limit, &mut yes);
            let mut lists = lists(&regions);
            (lists[1], lists[15]) = (list(&clocks), list(&arrivals));
            let right = rules.run_on(&lists).four(limit);
            let given = (number.into(), yes.into());
            assert_eq!(given, (right.number, right.yes), "question {at}");
            *told.entry(given).or_insert(0u64) += 1;
        }
        told
    });
    println!("{told:?}");
    let answers: Vec<(u64, u64)> = told.into_keys().collect();
    assert_eq!(answers, [(0, 0), (0, 1), (1, 0)]);
}

// How far along each message is, on blocks and marks of any contents and lengths, in lent bytes of any length.
#[test]
fn progress_on_any_blocks() {
    let crates = Path::new(env!("CARGO_MANIFEST_DIR")).join("../../crates");
    let (answers, told) = with_large_stack(|| {
        let rules = Rules::load(&crates, Hashes::Portable).unwrap_or_else(|e| panic!("{e}"));
        let (mut rng, mut answers) = (Rng::new(14), BTreeMap::new());
        let (mut regions, mut told) = (Regions::zeroed(), stores::Told::default());
        for at in 0..CALLS {
            stores::draw(&mut rng, &mut regions);
            let blocks = resized(&regions.blocks, &mut rng);
            let present = resized(&regions.present, &mut rng);
            let mut pairs = resized(&rng.array::<32>(), &mut rng);
            let mut lists = lists(&regions);
            (lists[4], lists[6]) = (list(&blocks), list(&present));
            let right = rules.run_on(&lists).progress(&pairs);
            let view = View {
                blocks: &blocks,
                present: &present,
                ..regions.view()
            };
            let number = u64::from(view.progress(&mut pairs));
            assert_eq!(
                (number, pairs),
                (right.number, right.pairs),
                "question {at}"
            );
            let after = [list(&blocks), list(&present)];
            assert!(
                after == [lists[4].clone(), lists[6].clone()],
                "question {at}"
            );
            *answers.entry(number).or_insert(0u64) += 1;
            if number == 0 {
                stores::tell(&regions, &mut told);
            }
        }
        (answers, told)
    });
    println!("{answers:?} {told:?}");
    assert_eq!(answers.into_keys().collect::<Vec<_>>(), [0, 1]);
    assert!(told.iter().all(|&count| count > 0), "{told:?}");
}

#[test]
fn any_contents() {
    let crates = Path::new(env!("CARGO_MANIFEST_DIR")).join("../../crates");
    let (answers, outcomes) = with_large_stack(|| {
        let rules = Rules::load(&crates, Hashes::Portable).unwrap_or_else(|e| panic!("{e}"));
        let (mut rng, mut asks) = (Rng::new(11), Rng::new(13));
        let tree = draw::tree(&mut rng);
        let states = driver::states(11, 2, Functions::ALL, Pages::Lost)
            .unwrap_or_else(|error| panic!("{error}"));
        let mut answers: BTreeMap<(Kind, [u64; 2]), u64> = BTreeMap::new();
        let mut outcomes: BTreeMap<u8, u64> = BTreeMap::new();
        for at in 0..CALLS {
            let mut regions = match rng.below(8) {
                0 => garbage(&mut rng),
                _ => rng.pick(&states).twin.core.regions().clone(),
            };
            spoil(&mut regions, &mut rng);
            let call = match rng.below(12) {
                0 if rng.once_in(2) => Call::Start(draw::bad_settings(&mut rng, &tree)),
                0 => Call::Start(draw::settings(&mut rng, &tree)),
                1 => Call::ReadSet(draw::prn(&mut rng)),
                2 => Call::ReadMessage,
                3 | 4 => draw::word(&mut rng, &Receiver::new()),
                5..=8 => subframe(&mut regions, &mut rng),
                _ => {
                    offer(&mut regions, &mut rng);
                    verdict(&regions, &mut rng)
                }
            };
            let mut run = rules.run_on(&lists(&regions));
            let (given, right) = (by_core(&mut regions, &call), by_rules(&mut run, &call));
            assert_eq!(given, right, "call {at}: {call:?}");
            ask(&mut regions, &mut run, &mut asks);
            assert!(lists(&regions) == run.regions(), "call {at}: {call:?}");
            let numbers = match call {
                Call::Subframe { .. } => given.2,
                _ => [given.0, 0],
            };
            *answers.entry((call.kind(), numbers)).or_default() += 1;
            if matches!(call, Call::Subframe { .. }) {
                let records = given.1.chunks_exact(12).take(given.0 as usize);
                for record in records {
                    *outcomes.entry(record[0]).or_default() += 1;
                }
            }
        }
        (answers, outcomes)
    });
    println!("{answers:?}\noutcomes {outcomes:?}");
    if CALLS >= 3_000 {
        for outcome in [1, 2, 9] {
            assert!(outcomes.contains_key(&outcome), "no outcome {outcome}");
        }
    }
}
