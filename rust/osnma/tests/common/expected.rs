//! The regions that a state of the second receiver stands for (crates/rules/specs/State.antt).
//!
//! The second receiver does not keep what no rule reads again. These parts are held to be as they
//! were before the call: the bytes of a word, block, authentic set or candidate that is not there,
//! the header and first time of a DSM ID without a block, what lies past the count of waiting tags,
//! and after a drop the chain's contents but for its root's time, the held key and its slot. An
//! accepted start leaves zeros in all of them. Of a block that completes a message and of a candidate
//! that goes in the section in which it came, the bytes are written though they are not there then.

use osnma::regions::Regions;
use second_receiver::gather::Hkroot;
use second_receiver::tags::WaitingTag;
use second_receiver::times::Gst;
use second_receiver::Receiver;

/// Bytes of a waiting tag's entry.
pub const ENTRY: usize = 84;

/// A time as it is stored.
fn stamp(time: Option<Gst>) -> u32 {
    time.map_or(0, |time| time.0 + 1)
}

/// `short` followed by zeros.
fn put_filled(place: &mut [u8], short: &[u8]) {
    let (head, tail) = place.split_at_mut(short.len());
    head.copy_from_slice(short);
    tail.fill(0);
}

/// Sender, PRN, ADKD, block, position, GST_SF, status, tag in 5 bytes, set.
fn entry(waiting: &WaitingTag) -> [u8; ENTRY] {
    let (tag, mut entry) = (&waiting.tag, [0; ENTRY]);
    let head = [tag.sender, tag.prn, tag.adkd, tag.block, tag.position];
    entry[..5].copy_from_slice(&head);
    entry[5..9].copy_from_slice(&tag.time.0.to_be_bytes());
    entry[9] = tag.status;
    entry[10..15].copy_from_slice(&tag.bits.to_be_bytes()[3..]);
    entry[15..].copy_from_slice(&waiting.set.0);
    entry
}

/// The block of a sub-frame, if it is one that is stored. The second receiver takes a complete message
/// out whole; the region keeps the bytes of its blocks, of the one that completed it too.
pub struct Block(Option<Hkroot>);

impl Block {
    /// The receiver is as it was before the sub-frame.
    pub fn of(fields: &[u8; 75], time: u32, receiver: &Receiver) -> Block {
        let new = Hkroot::read(&std::array::from_fn(|at| fields[5 * at]));
        let stored = receiver.dsm(new.dsm_id).is_some_and(|store| {
            let age_is_known = receiver
                .last_subframe()
                .is_none_or(|last| last <= Gst(time));
            age_is_known && store.clone().add(&new, Gst(time)).is_ok()
        });
        Block(stored.then_some(new))
    }

    /// The sub-frame is past check 5, and no field of it is lost.
    pub fn write(&self, regions: &mut Regions) {
        if let Some(new) = &self.0 {
            let place = 208 * usize::from(new.dsm_id) + 13 * usize::from(new.block_id);
            regions.blocks[place..place + 13].copy_from_slice(&new.block);
        }
    }
}

/// The place of a satellite's candidate: behind the authentic sets of all.
fn candidate_of(prn: u8, regions: &mut Regions) -> &mut [u8] {
    &mut regions.sets[69 * (35 + usize::from(prn))..][..69]
}

/// Writes what stood as candidates while a section's tags were judged; those that are gone leave their
/// bytes. The section was answered 0.
pub fn write_candidates_that_stood(receiver: &Receiver, regions: &mut Regions) {
    for prn in 1..=36 {
        if let Some(set) = receiver.stood_as_candidate(prn) {
            candidate_of(prn, regions).copy_from_slice(&set.0);
        }
    }
}

/// Writes all that the receiver knows; the rest of `regions` stays. The receiver is started.
pub fn write_known(receiver: &Receiver, regions: &mut Regions) {
    write_settings(receiver, regions);
    for prn in 1..=36 {
        write_satellite(receiver, prn, regions);
    }
    for id in 0..16 {
        write_blocks(receiver, id, regions);
    }
    write_keys(receiver, regions);
    write_offer(receiver, regions);
    write_chain(receiver, regions);
    write_waiting(receiver, regions);
}

fn write_settings(receiver: &Receiver, regions: &mut Regions) {
    let setup = receiver.setup().expect("the receiver is started");
    regions.config[0] = setup.ns;
    regions.config[1] = setup.maclt;
    regions.config[2..16].copy_from_slice(&setup.marks.second_0);
    regions.config[16..30].copy_from_slice(&setup.marks.second_30);
    regions.config[30..62].copy_from_slice(&setup.tree_root);
    regions.config[62] = u8::from(receiver.is_stopped());
}

/// Clocks, words, authentic set and candidate.
fn write_satellite(receiver: &Receiver, prn: u8, regions: &mut Regions) {
    let (at, held) = (usize::from(prn), receiver.words(prn).expect("PRN 1 to 36"));
    regions.clocks[0] = stamp(receiver.last_subframe());
    regions.clocks[at] = stamp(receiver.subframe_clock(prn));
    regions.clocks[36 + at] = stamp(held.clock);
    for (kind, word) in held.words.iter().enumerate() {
        let place = (at - 1) * 5 + kind;
        regions.stamps[place] = stamp(word.as_ref().map(|word| word.time));
        if let Some(word) = word {
            regions.words[16 * place..16 * (place + 1)].copy_from_slice(&word.bytes);
        }
    }
    let authentic = receiver.authentic_set(prn);
    regions.arrivals[at - 1] = stamp(authentic.map(|set| set.time));
    if let Some(authentic) = authentic {
        regions.sets[69 * (at - 1)..69 * at].copy_from_slice(&authentic.set.0);
    }
    let candidate = receiver.candidate(prn);
    regions.arrivals[35 + at] = stamp(candidate.map(|candidate| candidate.latest()));
    regions.arrivals[71 + at] = candidate.map_or(0, |candidate| candidate.total() as u32);
    if let Some(candidate) = candidate {
        candidate_of(prn, regions).copy_from_slice(&candidate.set.0);
    }
}

fn write_blocks(receiver: &Receiver, id: u8, regions: &mut Regions) {
    let (at, store) = (usize::from(id), receiver.dsm(id).expect("DSM ID 0 to 15"));
    regions.present[at] = store.present();
    if let Some(header) = store.header {
        regions.headers[at] = header;
    }
    let blocks = store.blocks.iter().flatten();
    if let Some(first) = blocks.map(|block| block.time).min() {
        regions.since[at] = first.0;
    }
    for (k, block) in store.blocks.iter().enumerate() {
        if let Some(block) = block {
            let place = 208 * at + 13 * k;
            regions.blocks[place..place + 13].copy_from_slice(&block.bytes);
        }
    }
}

fn write_keys(receiver: &Receiver, regions: &mut Regions) {
    regions.pubkeys.fill(0);
    for key in receiver.public_keys() {
        let place = &mut regions.pubkeys[68 * usize::from(key.id)..][..68];
        place[0] = key.key_type + 1;
        put_filled(&mut place[1..], &key.bytes);
    }
}

fn write_offer(receiver: &Receiver, regions: &mut Regions) {
    regions.offer.fill(0);
    if let Some(waiting) = receiver.waiting_message() {
        regions.offer[0] = 1;
        regions.offer[1] = waiting.key_id;
        put_filled(&mut regions.offer[2..47], &waiting.message);
        put_filled(&mut regions.offer[47..], &waiting.signature);
    }
}

/// The chain, its held key and the key's slot.
fn write_chain(receiver: &Receiver, regions: &mut Regions) {
    match (receiver.chain(), receiver.last_root()) {
        (Some(chain), _) => {
            regions.chain[0] = 1;
            put_filled(&mut regions.chain[1..], &chain.contents);
            put_filled(&mut regions.heldkey, chain.held.as_slice());
            regions.numbers[0] = chain.held_slot;
        }
        // A drop leaves the contents; of them only the root's time counts again.
        (None, Some(last)) => {
            let [high, low] = last.week.to_be_bytes();
            regions.chain[0] = 2;
            regions.chain[4] = regions.chain[4] & 0xF0 | high;
            regions.chain[5] = low;
            regions.chain[6] = last.hour;
        }
        (None, None) => {
            regions.chain.fill(0);
            regions.heldkey.fill(0);
            regions.numbers[0] = 0;
        }
    }
}

fn write_waiting(receiver: &Receiver, regions: &mut Regions) {
    let tags = receiver.waiting_tags();
    regions.numbers[1] = tags.len() as u64;
    for (place, tag) in regions.waiting.chunks_exact_mut(ENTRY).zip(tags) {
        place.copy_from_slice(&entry(tag));
    }
}

/// The first element in which two lists of regions differ.
pub fn difference(got: &Regions, want: &Regions) -> Option<String> {
    macro_rules! first {
        ($($name:ident)*) => {
            $(if got.$name != want.$name {
                let at = got.$name.iter().zip(&want.$name).position(|(a, b)| a != b)?;
                let (a, b) = (got.$name[at], want.$name[at]);
                return Some(format!("{}[{at}] is {a}, not {b}", stringify!($name)));
            })*
        };
    }
    first!(
        config clocks words stamps blocks headers present since
        pubkeys offer chain numbers heldkey waiting sets arrivals
    );
    None
}
