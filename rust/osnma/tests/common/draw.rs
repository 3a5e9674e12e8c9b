//! Calls drawn at random: valid ones, and ones of which a number, a bit or a time is wrong.

use super::twin::Call;
use osnma::{Settings, FLEXIBLE};
use second_receiver::kroot::ChainParameters;
use second_receiver::verdict::filled;
use second_receiver::Receiver;
use signal::chain::{hash_takes, AES_KEYS, KEY_BITS, TAG_BITS};
use signal::dsm::{self, Tree};
use signal::rng::Rng;
use signal::scenario::Functions;
use signal::subframe;
use signal::time::Gst;

/// Public keys by tree leaf: IDs 0 to 14 of types 0 to 3, then an emergency message.
pub fn tree(rng: &mut Rng) -> Tree {
    let mut leaves: Vec<Vec<u8>> = (0..15)
        .map(|id| {
            let kind = rng.below(4) as u8;
            let key = rng.bytes(dsm::KEY_LEN[usize::from(kind)]);
            dsm::leaf(kind, id, &key)
        })
        .collect();
    leaves.push(dsm::leaf(dsm::EMERGENCY, 0, &rng.bytes(13)));
    Tree::new(leaves)
}

/// A PRN, mostly of a satellite.
pub fn prn(rng: &mut Rng) -> u8 {
    match rng.below(12) {
        0 => *rng.pick(&[0, 37, 38, 63, 64, 65, 100, 128, 255]),
        1 => rng.number() as u8,
        _ => rng.range(1, 36) as u8,
    }
}

/// A time by one noted before.
fn time(rng: &mut Rng, last: Option<u32>) -> u32 {
    let base = Gst(last.unwrap_or_else(|| valid_time(rng)));
    match rng.below(24) {
        0..=5 => base.0,
        6..=11 => Gst::from_seconds((base.seconds() + 30 * rng.below(4)).min(LAST)).0,
        12..=14 => Gst::from_seconds(base.seconds().saturating_sub(30 * rng.below(4))).0,
        15 => Gst::from_seconds((base.seconds() + 30 * rng.below(40_000)).min(LAST)).0,
        16 => base.0 ^ 1 << rng.below(32),
        17 => base.0.wrapping_add(rng.range(1, 29) as u32),
        // Multiples of 30 and others past the last sub-frame of a week.
        18 => Gst::new(base.week(), 604_770 + 30 * rng.below(14_793) as u32).0,
        19 => Gst::new(base.week(), rng.range(604_771, 0xF_FFFF) as u32).0,
        20 => *rng.pick(&[0, 30, 29, 1, 0xFFFF_FFFF, 0xFFF9_3A62, 0xFFF9_3A80]),
        21 => rng.number() as u32,
        _ => valid_time(rng),
    }
}

/// Seconds of the last sub-frame that GST_SF can name.
const LAST: u64 = 4095 * 604_800 + 604_770;

fn valid_time(rng: &mut Rng) -> u32 {
    Gst::new(
        rng.range(940, 950) as u32,
        30 * rng.below(604_800 / 30) as u32,
    )
    .0
}

/// A word, mostly of a type that is held and with its satellite's SVID.
pub fn word(rng: &mut Rng, receiver: &Receiver) -> Call {
    let prn = prn(rng);
    let last = receiver.words(prn).and_then(|held| held.clock);
    let mut word: [u8; 16] = rng.array();
    let kind = match rng.below(16) {
        0 => rng.below(64) as u8,
        1 => *rng.pick(&[0, 6, 63]),
        _ => rng.range(1, 5) as u8,
    };
    word[0] = word[0] & 3 | kind << 2;
    if kind == 4 && !rng.once_in(8) {
        word[2] = word[2] & 3 | prn << 2;
    }
    let time = time(rng, last.map(|time| time.0));
    Call::Word { prn, time, word }
}

/// Settings of an accepted start.
pub fn settings(rng: &mut Rng, tree: &Tree) -> Settings {
    let mut marks = [[0; 14]; 2];
    for mark in marks.iter_mut().flat_map(|list| &mut list[1..]) {
        *mark = if rng.once_in(2) {
            FLEXIBLE
        } else {
            rng.below(16) as u8
        };
    }
    let mut key = rng.array();
    let mut key_id = rng.below(16) as u8;
    let mut key_type = rng.below(4) as u8;
    // Mostly a key of the tree, of a low ID, so that others can be added.
    if !rng.once_in(4) {
        key_id = rng.below(6) as u8;
        let leaf = tree.leaf(usize::from(key_id));
        key_type = leaf[0] >> 4;
        key[..leaf.len() - 1].copy_from_slice(&leaf[1..]);
    }
    Settings {
        ns: rng.range(1, 36) as u8,
        key_id,
        key_type,
        maclt: rng.number() as u8,
        marks,
        tree_root: if rng.once_in(8) {
            rng.array()
        } else {
            tree.root()
        },
        key,
    }
}

/// A start to be refused by one thing, rarely by more.
pub fn bad_settings(rng: &mut Rng, tree: &Tree) -> Settings {
    let mut s = settings(rng, tree);
    for _ in 0..rng.range(1, 8) / 7 + 1 {
        let (list, at) = (rng.below(2) as usize, rng.below(14) as usize);
        match rng.below(6) {
            0 => s.ns = *rng.pick(&[0, 37, 38, 64, 128, 255]),
            1 => s.key_id = rng.range(16, 255) as u8,
            2 => s.key_type = *rng.pick(&[4, 5, 15, 16, 255]),
            3 => s.marks[list][at] = rng.range(16, 254) as u8,
            4 => s.marks[list][0] = rng.range(1, 15) as u8,
            _ => s.marks[list][0] = FLEXIBLE,
        }
    }
    s
}

/// A verdict, mostly on what waits.
pub fn verdict(rng: &mut Rng, receiver: &Receiver) -> Call {
    let (mut good, mut key_id) = (u8::from(!rng.once_in(5)), rng.below(16) as u8);
    let (mut message, mut signature): ([u8; 45], [u8; 132]) = (rng.array(), rng.array());
    if let Some(waiting) = receiver.waiting_message() {
        key_id = waiting.key_id;
        message = filled(&waiting.message);
        signature = filled(&waiting.signature);
    }
    match rng.below(12) {
        0 => good = rng.range(2, 255) as u8,
        1 => key_id = rng.range(16, 255) as u8,
        2 => key_id = rng.below(16) as u8,
        3 => message[rng.below(45) as usize] ^= 1 << rng.below(8),
        4 => signature[rng.below(132) as usize] ^= 1 << rng.below(8),
        _ => {}
    }
    Call::Verdict {
        good,
        key_id,
        message,
        signature,
    }
}

/// The parameters of a root and its root key's bytes: of the chain in force, its neighbours, or
/// another.
struct Root {
    header: u8,
    parameters: ChainParameters,
    rsvd: u8,
    week: u16,
    hour: u8,
    root: Vec<u8>,
}

/// Whether a chain of this key size may name CMAC-AES here.
fn can_be_cmac(functions: Functions, ks: u8) -> bool {
    functions.cmac && AES_KEYS.contains(&ks)
}

/// A hash that a chain of this key size may name here.
fn any_hash(rng: &mut Rng, functions: Functions, ks: u8) -> u8 {
    let drawn = if functions.sha3 { rng.below(3) } else { 0 } as u8;
    if hash_takes(drawn, ks) {
        drawn
    } else {
        0
    }
}

/// Parameters that pass the checks of a DSM-KROOT.
fn parameters(rng: &mut Rng, maclt: u8, functions: Functions) -> ChainParameters {
    loop {
        let (nmack, ks, ms) = (rng.range(1, 3), rng.below(9), rng.below(10));
        if 480 / nmack as usize >= KEY_BITS[ks as usize] + TAG_BITS[ms as usize] + 16 {
            return ChainParameters {
                cid: rng.below(4) as u8,
                nmack: nmack as u8,
                hf: any_hash(rng, functions, ks as u8),
                mf: u8::from(can_be_cmac(functions, ks as u8) && rng.once_in(2)),
                ks_code: ks as u8,
                ms_code: ms as u8,
                maclt,
                mo: 0,
                alpha: rng.array(),
            };
        }
    }
}

impl Root {
    fn draw(rng: &mut Rng, receiver: &Receiver, functions: Functions) -> Root {
        let maclt = receiver.setup().map_or(0, |setup| setup.maclt);
        let now = receiver.last_subframe().map_or(Gst(0), |time| Gst(time.0));
        let hour = now.seconds() / 3600;
        let mut root = Root {
            header: 0,
            parameters: parameters(rng, maclt, functions),
            rsvd: rng.below(4) as u8,
            week: 0,
            hour: 0,
            root: rng.bytes(32),
        };
        let last = receiver
            .last_root()
            .map_or(hour, |last| last.seconds() / 3600);
        if let Some(chain) = receiver.chain() {
            // The same chain, or one of which one parameter differs, or the same contents.
            if !rng.once_in(3) {
                root.parameters = chain.parameters.clone();
                root.rsvd = chain.contents[3] >> 6;
                root.root = chain.contents[12..].to_vec();
            }
            match rng.below(8) {
                0 => root.parameters.cid ^= rng.range(1, 3) as u8,
                1 => root.parameters.alpha[rng.below(6) as usize] ^= 1 << rng.below(8),
                2 => root.rsvd ^= rng.range(1, 3) as u8,
                3 => {
                    let at = rng.below(root.root.len() as u64) as usize;
                    root.root[at] ^= 1 << rng.below(8);
                }
                4 if can_be_cmac(functions, root.parameters.ks_code) => root.parameters.mf ^= 1,
                // The reserved one too, and SHA3-224 with a key of 256 bits.
                5 if functions.sha3 => root.parameters.hf ^= rng.range(1, 3) as u8,
                _ => {}
            }
        }
        let near = *rng.pick(&[last, last, last, hour, hour + 1]);
        let hour = match rng.below(8) {
            0 => near.saturating_sub(1),
            1 => near + 1,
            2 => near.saturating_sub(rng.below(400)),
            3 => near + rng.below(400),
            _ => near,
        };
        let hour = hour.clamp(1, 4095 * 168 + 167);
        (root.week, root.hour) = ((hour / 168) as u16, (hour % 168) as u8);
        let cid = match rng.below(4) {
            0 => rng.below(4) as u8,
            _ => root.parameters.cid,
        };
        let status = *rng.pick(&[0, 1, 1, 1, 2, 2, 2, 3, 3]);
        root.header = dsm::header(status, cid, rng.below(8) as u8) | rng.below(2) as u8;
        root
    }

    /// The DSM-KROOT with the least number of blocks.
    fn dsm(&self, key_id: u8, signature: &[u8]) -> Vec<u8> {
        let p = &self.parameters;
        let params = signal::chain::Params {
            cid: p.cid,
            nmack: p.nmack,
            hf: p.hf,
            mf: p.mf,
            ks: p.ks_code,
            ms: p.ms_code,
            maclt: p.maclt,
            rsvd: self.rsvd,
            mo: p.mo,
            alpha: p.alpha,
        };
        let mut root = self.root.clone();
        root.resize(params.key_len(), 0x77);
        // A chain of no keys: only its parameters and its root are sent.
        let (week, hour) = (u32::from(self.week), u32::from(self.hour));
        let chain = signal::chain::Chain::new(params, 1, week, hour, 0, &root);
        dsm::kroot_of(self.header, key_id, &chain, &root, signature, None)
    }
}

/// Whether sections of the chain in force at this time make both walk far.
fn walks_far(receiver: &Receiver, header: u8, time: u32) -> bool {
    let time = second_receiver::times::Gst(time);
    receiver.chain().is_some_and(|chain| {
        let judged = matches!(header >> 6, 1 | 2) && header >> 4 & 3 == chain.parameters.cid;
        judged && time.seconds() >= chain.slots.start && {
            let slot = chain.slots.of_key(time.seconds(), 3, 36);
            (400..1_100_000).contains(&slot.abs_diff(chain.held_slot))
        }
    })
}

/// The next sub-frame's time, if there is one.
fn next(receiver: &Receiver, rng: &mut Rng) -> Option<u32> {
    match receiver.last_subframe() {
        None => Some(valid_time(rng)),
        Some(last) if last.seconds() + 30 <= LAST => Some(Gst::from_seconds(last.seconds() + 30).0),
        Some(_) => None,
    }
}

/// The blocks of a message at one time, each from another satellite, with sections of any bytes; the last
/// one first.
fn blocks(rng: &mut Rng, header: u8, id: u8, message: &[u8], time: u32) -> Vec<Call> {
    let (count, first) = (dsm::blocks(message), rng.range(1, 20) as u8);
    let calls = (0..count).rev().map(|block| {
        let section = rng.array();
        Call::Subframe {
            prn: first + block as u8,
            time,
            marks: None,
            fields: subframe::join(&dsm::hkroot(header, id, message, block), &section),
        }
    });
    calls.collect()
}

/// A DSM-KROOT under a held key, or one of which a bit is turned over; the last block first.
pub fn root_message(rng: &mut Rng, receiver: &Receiver, functions: Functions) -> Vec<Call> {
    let root = Root::draw(rng, receiver, functions);
    let key = rng.pick(receiver.public_keys()).clone();
    let signature = rng.bytes(dsm::SIGNATURE_LEN[usize::from(key.key_type)]);
    let mut message = root.dsm(key.id, &signature);
    if rng.once_in(4) {
        message[rng.below(13) as usize] ^= 1 << rng.below(8);
    }
    match next(receiver, rng) {
        Some(time) if !walks_far(receiver, root.header, time) => {
            let id = rng.below(12) as u8;
            blocks(rng, root.header, id, &message, time)
        }
        _ => Vec::new(),
    }
}

/// A DSM-PKR: a public key or an emergency message, or one of which a bit is turned over; the last block
/// first.
pub fn key_message(rng: &mut Rng, receiver: &Receiver, tree: &Tree, emergency: bool) -> Vec<Call> {
    let leaf = if emergency {
        15
    } else {
        let highest = receiver.public_keys().iter().map(|key| key.id).max();
        let above = highest.map_or(0, |id| u64::from(id) + 1);
        match rng.below(4) {
            0 => rng.below(15) as usize,
            _ => rng.range(above, above + 3).min(14) as usize,
        }
    };
    let (mut message, id) = (tree.pkr(leaf), rng.range(12, 15) as u8);
    if rng.once_in(4) {
        let at = rng.below(message.len() as u64) as usize;
        message[at] ^= 1 << rng.below(8);
    }
    match next(receiver, rng) {
        Some(time) => blocks(rng, rng.clone().number() as u8, id, &message, time),
        None => Vec::new(),
    }
}

/// A sub-frame of any bytes, zeros, or a block and section by the chain in force.
pub fn subframe(rng: &mut Rng, receiver: &Receiver) -> Call {
    let prn = prn(rng);
    let last = receiver.last_subframe().map(|last| last.0);
    let mut time = match rng.below(4) {
        0 => time(rng, last),
        1 => last.unwrap_or_else(|| valid_time(rng)),
        _ => next(receiver, rng).unwrap_or(0),
    };
    let mut fields = rng.array();
    if let (Some(chain), false) = (receiver.chain(), rng.once_in(4)) {
        fields[0] = (rng.range(1, 2) << 6) as u8 | chain.parameters.cid << 4;
    }
    if walks_far(receiver, fields[0], time) && !rng.once_in(2000) {
        time = last.unwrap_or(0);
    }
    match rng.below(12) {
        0 => fields = [0; 75],
        1 => {
            // Block 0 of a reserved NB, or any.
            fields[5] &= 0xF0;
            fields[10] = *rng.pick(&[0x00, 0xB0, 0xF0, 0x10, 0xA0]);
        }
        _ => {}
    }
    Call::Subframe {
        prn,
        time,
        marks: None,
        fields,
    }
}

/// Half of the sub-frames with marks: mostly all fields came, else one or two are lost, sometimes any. Any bytes in
/// those that are lost.
pub fn with_marks(rng: &mut Rng, mut call: Call) -> Call {
    if let Call::Subframe { marks, fields, .. } = &mut call {
        if marks.is_none() && rng.once_in(2) {
            let drawn = match rng.below(16) {
                0 => rng.number() as u16,
                _ => subframe::under_trees(rng),
            };
            subframe::spoil(rng, drawn, fields);
            *marks = Some(drawn);
        }
    }
    call
}

/// The blocks of a message, half of the messages with marks; of every eighth of these one block loses a field.
pub fn message_with_marks(rng: &mut Rng, calls: &mut [Call]) {
    if !rng.once_in(2) {
        return;
    }
    let lossy = match rng.below(8) {
        0 => rng.below(calls.len() as u64) as usize,
        _ => calls.len(),
    };
    for (at, call) in calls.iter_mut().enumerate() {
        if let Call::Subframe { marks, fields, .. } = call {
            let drawn = match at == lossy {
                true => subframe::without(&[rng.below(15) as usize]),
                false => subframe::ALL_CAME | rng.below(2) as u16,
            };
            subframe::spoil(rng, drawn, fields);
            *marks = Some(drawn);
        }
    }
}

/// A call as it is, or one time in four with a bit turned over or another satellite.
pub fn damaged(rng: &mut Rng, mut call: Call) -> Call {
    if !rng.once_in(4) {
        return call;
    }
    match &mut call {
        Call::Word { prn, word, .. } => match rng.below(4) {
            0 => *prn = self::prn(rng),
            _ => word[rng.below(16) as usize] ^= 1 << rng.below(8),
        },
        Call::Subframe {
            prn, marks, fields, ..
        } => match rng.below(6) {
            0 => *prn = self::prn(rng),
            5 if marks.is_some() => *marks = marks.map(|bits| bits ^ 1 << rng.below(16)),
            // A bit of the block, or of the section.
            1 => fields[5 * rng.below(15) as usize] ^= 1 << rng.below(8),
            _ => fields[rng.below(75) as usize] ^= 1 << rng.below(8),
        },
        Call::Verdict { message, .. } => message[rng.below(45) as usize] ^= 1 << rng.below(8),
        _ => {}
    }
    call
}
