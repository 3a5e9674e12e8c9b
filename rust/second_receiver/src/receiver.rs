//! The calls of 01 over the whole state. Each gives its numbers in 01's order of checks.

use crate::chain::Chain;
use crate::four;
use crate::gather::{nma_status, Dsm, DsmStore, Gathered, Hkroot, HKROOT_LEN};
use crate::kroot;
use crate::mack::{self, Layout, Missing, Section, SECTION_LEN};
use crate::navdata::{svid, word_type, NavSet, SatelliteWords, Words, SET_LEN, WORD_LEN};
use crate::numbers::*;
use crate::pkr::{self, Proved, NODE_LEN};
use crate::progress::Progress;
use crate::public_keys::{is_key_id, key_len, PublicKey, PublicKeys, MAX_KEY_LEN};
use crate::received::{Received, FIELDS, FIELD_LEN};
use crate::sets::{AuthenticSet, Candidate, SatelliteSets, Sets};
use crate::tags::{Marks, ProvedSection, Record, WaitingTag, MARKS, RECORD_LEN};
use crate::times::{is_prn, Gst, RootTime, SATELLITES};
use crate::verdict::{filled, Vouched, WaitingMessage, MESSAGE_LEN, SIGNATURE_LEN};

/// The authentication fields of a sub-frame: 15 of five bytes.
pub const FIELDS_LEN: usize = FIELDS * FIELD_LEN;
/// The lent record area: 256 due tags and 14 of the section's own.
pub const RECORDS_LEN: usize = 3_240;

/// What a start gives.
#[derive(Clone, Debug, PartialEq, Eq)]
pub struct Setup {
    pub ns: u8,
    pub maclt: u8,
    pub marks: Marks,
    pub tree_root: [u8; NODE_LEN],
}

/// The answer to a sub-frame.
#[derive(Clone, Copy, Debug, PartialEq, Eq)]
pub struct SubframeAnswer {
    pub hkroot: Number,
    pub mack: Number,
    /// Tag records written to the record area.
    pub records: usize,
}

/// The answer to a read of an authentic set; IODnav and time are 0 if it is refused.
#[derive(Clone, Copy, Debug, PartialEq, Eq)]
pub struct SetAnswer {
    pub number: Number,
    pub iodnav: u16,
    /// GST_SF of the tag.
    pub time: u32,
}

/// The answer to a read of what waits; key ID and type are 0 if it is refused.
#[derive(Clone, Copy, Debug, PartialEq, Eq)]
pub struct WaitingAnswer {
    pub number: Number,
    pub key_id: u8,
    pub key_type: u8,
}

/// A receiver. Before an accepted start, words, sub-frames and verdicts are 11 and reads find
/// nothing.
#[derive(Clone, Debug, Default, PartialEq, Eq)]
pub struct Receiver {
    setup: Option<Setup>,
    stopped: bool,
    words: Words,
    last_subframe: Option<Gst>,
    subframe_clocks: Clocks,
    gathered: Gathered,
    keys: PublicKeys,
    waiting_message: Option<WaitingMessage>,
    vouched: Vouched,
    sets: Sets,
}

/// The time of each satellite's last sub-frame.
#[derive(Clone, Debug, PartialEq, Eq)]
struct Clocks([Option<Gst>; SATELLITES]);

impl Default for Clocks {
    fn default() -> Self {
        Clocks([None; SATELLITES])
    }
}

fn number(result: Result<(), Number>) -> Number {
    result.err().unwrap_or(ACCEPTED)
}

fn require(condition: bool, otherwise: Number) -> Result<(), Number> {
    if condition {
        Ok(())
    } else {
        Err(otherwise)
    }
}

/// The first byte of each five goes to HKROOT, the rest to MACK.
fn split(fields: &[u8; FIELDS_LEN]) -> ([u8; HKROOT_LEN], [u8; SECTION_LEN]) {
    let (mut hkroot, mut section) = ([0; HKROOT_LEN], [0; SECTION_LEN]);
    for (i, field) in fields.chunks_exact(5).enumerate() {
        hkroot[i] = field[0];
        section[4 * i..4 * i + 4].copy_from_slice(&field[1..]);
    }
    (hkroot, section)
}

impl Receiver {
    pub fn new() -> Receiver {
        Receiver::default()
    }

    /// Begins a new list that holds only what is given here. `key` is lent in 67 bytes; what
    /// follows a short key is not read. A refused start leaves all as before (A7); a stopped
    /// receiver can be started (A8).
    #[allow(clippy::too_many_arguments)]
    pub fn start(
        &mut self,
        ns: u8,
        key_id: u8,
        key_type: u8,
        maclt: u8,
        marks_0: &[u8],
        marks_30: &[u8],
        tree_root: &[u8],
        key: &[u8],
    ) -> Number {
        let (Ok(second_0), Ok(second_30), Ok(tree_root), MAX_KEY_LEN) = (
            <[u8; MARKS]>::try_from(marks_0),
            marks_30.try_into(),
            tree_root.try_into(),
            key.len(),
        ) else {
            return WRONG_LENGTH;
        };
        let marks_are_valid = Marks::are_valid(marks_0) && Marks::are_valid(marks_30);
        let ns_is_valid = (1..=SATELLITES as u8).contains(&ns);
        let Some(len) = key_len(key_type) else {
            return OUT_OF_RANGE;
        };
        if !ns_is_valid || !is_key_id(key_id) || !marks_are_valid {
            return OUT_OF_RANGE;
        }
        *self = Receiver {
            setup: Some(Setup {
                ns,
                maclt,
                marks: Marks {
                    second_0,
                    second_30,
                },
                tree_root,
            }),
            keys: PublicKeys::new(PublicKey {
                id: key_id,
                key_type,
                bytes: key[..len].to_vec(),
            }),
            ..Receiver::default()
        };
        ACCEPTED
    }

    /// An I/NAV word of 16 bytes, in the sub-frame of `gst`. Checks 1, 2, 4, 3.
    pub fn word(&mut self, prn: u8, gst: u32, word: &[u8]) -> Number {
        number(self.checked_word(prn, Gst(gst), word))
    }

    fn checked_word(&mut self, prn: u8, time: Gst, word: &[u8]) -> Result<(), Number> {
        require(self.is_started(), NO_CHAIN)?;
        let word: &[u8; WORD_LEN] = word.try_into().map_err(|_| WRONG_LENGTH)?;
        let svid_is_wrong = word_type(word) == 4 && svid(word) != u64::from(prn);
        require(
            is_prn(prn) && time.is_valid() && !svid_is_wrong,
            OUT_OF_RANGE,
        )?;
        require(!self.stopped, STOPPED)?;
        require(!self.words.of(prn).is_out_of_order(time), OUT_OF_ORDER)?;
        self.words.of_mut(prn).hold(time, word);
        Ok(())
    }

    /// The 75 bytes of authentication fields of a sub-frame. Tag records are written to `records`,
    /// 3,240 bytes of which those past the records stay. Checks 1, 2, 4, 3, 5, then the HKROOT
    /// half, then the MACK half.
    pub fn subframe(
        &mut self,
        prn: u8,
        gst: u32,
        fields: &[u8],
        records: &mut [u8],
    ) -> SubframeAnswer {
        self.subframe_received(prn, gst, Received::ALL, fields, records)
    }

    /// The same with a mark for each field, 1 for received (02, P3). Each half's first check is 17.
    pub fn subframe_received(
        &mut self,
        prn: u8,
        gst: u32,
        received: Received,
        fields: &[u8],
        records: &mut [u8],
    ) -> SubframeAnswer {
        let time = Gst(gst);
        let (hkroot, section) = match self.admit(prn, time, received, fields, records.len()) {
            Ok(fields) => split(&fields),
            Err(number) => {
                return SubframeAnswer {
                    hkroot: number,
                    mack: number,
                    records: 0,
                }
            }
        };
        let hkroot = Hkroot::read(&hkroot);
        let hkroot_number = number(self.hkroot_half(&hkroot, received, time));
        // The sub-frame of a proved emergency message returns 0 and 4 (A37).
        if self.stopped {
            return SubframeAnswer {
                hkroot: hkroot_number,
                mack: STOPPED,
                records: 0,
            };
        }
        match self.mack_half(prn, time, received, hkroot.header, &section) {
            Ok(list) => {
                for (place, record) in records.chunks_exact_mut(RECORD_LEN).zip(&list) {
                    place.copy_from_slice(record);
                }
                SubframeAnswer {
                    hkroot: hkroot_number,
                    mack: ACCEPTED,
                    records: list.len(),
                }
            }
            Err(number) => SubframeAnswer {
                hkroot: hkroot_number,
                mack: number,
                records: 0,
            },
        }
    }

    /// Checks 1, 2, 4, 3, 5. The time is noted by all that pass 3 (A10, A11). Gives the fields, zero
    /// where they did not come.
    fn admit(
        &mut self,
        prn: u8,
        time: Gst,
        received: Received,
        fields: &[u8],
        records_len: usize,
    ) -> Result<[u8; FIELDS_LEN], Number> {
        require(self.is_started(), NO_CHAIN)?;
        let fields: &[u8; FIELDS_LEN] = fields.try_into().map_err(|_| WRONG_LENGTH)?;
        require(records_len == RECORDS_LEN, WRONG_LENGTH)?;
        require(is_prn(prn) && time.is_valid(), OUT_OF_RANGE)?;
        require(!self.stopped, STOPPED)?;
        let clock = &mut self.subframe_clocks.0[usize::from(prn) - 1];
        let earlier = self.last_subframe.is_some_and(|last| time < last);
        let not_later = clock.is_some_and(|last| time <= last);
        require(!earlier && !not_later, OUT_OF_ORDER)?;
        *clock = Some(time);
        self.last_subframe = Some(time);
        // 5 is judged on the fields that came, if any (B10).
        let came = received.only(fields);
        let all_zero = received.has_any() && came == [0; FIELDS_LEN];
        require(!all_zero, ZERO_FIELDS)?;
        Ok(came)
    }

    /// Check 17: each field brings one byte of HKROOT, and all are needed (B9b). Then gathers a
    /// block; judges a complete DSM: KROOT 7, 8, 6; PKR 6, 10, 9.
    fn hkroot_half(
        &mut self,
        hkroot: &Hkroot,
        received: Received,
        time: Gst,
    ) -> Result<(), Number> {
        require(received.has_all(), FIELDS_MISSING)?;
        let Some(setup) = &self.setup else {
            return Err(NO_CHAIN);
        };
        match self.gathered.add(hkroot, time)? {
            None => {}
            Some(Dsm::Kroot(dsm)) => {
                let waiting = kroot::judge(hkroot.header, &dsm, &self.keys, setup.maclt)?;
                self.waiting_message = Some(waiting);
            }
            Some(Dsm::Pkr(dsm)) => match pkr::judge(&dsm, &setup.tree_root)? {
                Proved::Key(key) => self.keys.add(key)?,
                Proved::Emergency => self.stopped = true,
            },
        }
        Ok(())
    }

    /// Checks 17 where the first field, with status and CID, is missing (B9); 11, then block by
    /// block 13, 12; then the tags.
    fn mack_half(
        &mut self,
        prn: u8,
        time: Gst,
        received: Received,
        header: u8,
        section: &[u8; SECTION_LEN],
    ) -> Result<Vec<Record>, Number> {
        require(received.has(0), FIELDS_MISSING)?;
        let setup = self.setup.as_ref().ok_or(NO_CHAIN)?;
        let chain = mack::applicable(self.vouched.chain.as_mut(), header, time)?;
        let layout = Layout::of(&chain.parameters).ok_or(NO_CHAIN)?;
        let section = Section::read(section, &layout);
        let missing = Missing::of(received, &layout);
        mack::prove_received_keys(chain, &section, &missing, prn, time)?;
        let proved = ProvedSection {
            sender: prn,
            time,
            status: nma_status(header),
            section: &section,
            tag_bits: layout.tag_bits,
        };
        let waiting = &mut self.vouched.waiting_tags;
        Ok(proved.judge_received(
            &missing,
            chain,
            &setup.marks,
            &self.words,
            waiting,
            &mut self.sets,
        ))
    }

    /// The signature chip's verdict, 1 good or 0 bad (A38), on a message of 45 bytes and a
    /// signature of 132, short ones followed by zeros. Checks 1, 2, 4, 14, 15, 11, 9.
    pub fn verdict(&mut self, verdict: u8, key_id: u8, message: &[u8], signature: &[u8]) -> Number {
        number(self.checked_verdict(verdict, key_id, message, signature))
    }

    fn checked_verdict(
        &mut self,
        verdict: u8,
        key_id: u8,
        message: &[u8],
        signature: &[u8],
    ) -> Result<(), Number> {
        let ns = self.setup.as_ref().ok_or(NO_CHAIN)?.ns;
        let lengths = (message.len(), signature.len());
        require(lengths == (MESSAGE_LEN, SIGNATURE_LEN), WRONG_LENGTH)?;
        require(verdict <= 1 && is_key_id(key_id), OUT_OF_RANGE)?;
        require(!self.stopped, STOPPED)?;
        // Every verdict past 14 ends the wait (A40b).
        let waiting = self
            .waiting_message
            .take_if(|waiting| waiting.is(key_id, message, signature))
            .ok_or(NOT_WAITING)?;
        require(verdict == 1, BAD_VERDICT)?;
        self.vouched
            .good_verdict(&waiting, &mut self.keys, &mut self.sets, ns)
    }

    /// Reads a satellite's authentic set into 69 lent bytes. Checks 1, 2, 16.
    pub fn read_set(&self, prn: u8, set: &mut [u8]) -> SetAnswer {
        let refused = |number| SetAnswer {
            number,
            iodnav: 0,
            time: 0,
        };
        if set.len() != SET_LEN {
            return refused(WRONG_LENGTH);
        }
        if !is_prn(prn) {
            return refused(OUT_OF_RANGE);
        }
        match self.authentic_set(prn) {
            None => refused(NO_SET),
            Some(held) => {
                set.copy_from_slice(&held.set.0);
                SetAnswer {
                    number: ACCEPTED,
                    iodnav: held.set.iodnav(),
                    time: held.time.0,
                }
            }
        }
    }

    /// Reads what waits for a verdict into 45, 132 and 67 lent bytes, short ones followed by zeros
    /// (A9). Checks 1, 14.
    pub fn read_waiting(
        &self,
        message: &mut [u8],
        signature: &mut [u8],
        key: &mut [u8],
    ) -> WaitingAnswer {
        let refused = |number| WaitingAnswer {
            number,
            key_id: 0,
            key_type: 0,
        };
        let lengths = (message.len(), signature.len(), key.len());
        if lengths != (MESSAGE_LEN, SIGNATURE_LEN, MAX_KEY_LEN) {
            return refused(WRONG_LENGTH);
        }
        // What waits always has its key held: keys go only with a verdict that also ends the wait.
        let waiting = self.waiting_message.as_ref();
        let Some((waiting, public)) = waiting.and_then(|w| Some((w, self.keys.get(w.key_id)?)))
        else {
            return refused(NOT_WAITING);
        };
        message.copy_from_slice(&filled::<MESSAGE_LEN>(&waiting.message));
        signature.copy_from_slice(&filled::<SIGNATURE_LEN>(&waiting.signature));
        key.copy_from_slice(&filled::<MAX_KEY_LEN>(&public.bytes));
        WaitingAnswer {
            number: ACCEPTED,
            key_id: public.id,
            key_type: public.key_type,
        }
    }

    /// Whether at least four satellites have an authentic set whose tag came within `limit`
    /// sub-frames of the last one noted (02, P5).
    pub fn four(&self, limit: u32) -> bool {
        four::met(self.least_limit(), limit)
    }

    /// The least limit with which [`Receiver::four`] says yes, if there is one.
    pub fn least_limit(&self) -> Option<u64> {
        // Candidates do not count (B33).
        let sets = (1..=SATELLITES as u8).filter_map(|prn| self.authentic_set(prn));
        four::least_limit(self.last_subframe, sets.map(|held| held.time))
    }

    /// How far along the message of each DSM ID is (02, P9), as the blocks stand: old ones count until
    /// the next of their ID comes, and those of a complete message are gone (B65).
    pub fn progress(&self) -> [Progress; 16] {
        let stores = self.gathered.stores.each_ref();
        stores.map(|store| {
            let blocks = store.blocks.each_ref();
            Progress::of(blocks.map(|block| block.as_ref().map(|block| &block.bytes)))
        })
    }
}

/// The state, for comparison with another receiver. PRNs and IDs out of range give `None`.
impl Receiver {
    /// What the last accepted start gave.
    pub fn setup(&self) -> Option<&Setup> {
        self.setup.as_ref()
    }

    pub fn is_started(&self) -> bool {
        self.setup.is_some()
    }

    /// Whether an emergency message stopped it.
    pub fn is_stopped(&self) -> bool {
        self.stopped
    }

    /// The words of a satellite with their times, and its word clock.
    pub fn words(&self, prn: u8) -> Option<&SatelliteWords> {
        is_prn(prn).then(|| self.words.of(prn))
    }

    /// The time of the last sub-frame noted, over all satellites.
    pub fn last_subframe(&self) -> Option<Gst> {
        self.last_subframe
    }

    /// The time of the last sub-frame noted of one satellite.
    pub fn subframe_clock(&self, prn: u8) -> Option<Gst> {
        is_prn(prn)
            .then(|| self.subframe_clocks.0[usize::from(prn) - 1])
            .flatten()
    }

    /// The blocks gathered under a DSM ID, with first times, header and marks.
    pub fn dsm(&self, id: u8) -> Option<&DsmStore> {
        self.gathered.stores.get(usize::from(id))
    }

    /// In rising order of ID.
    pub fn public_keys(&self) -> &[PublicKey] {
        self.keys.all()
    }

    pub fn waiting_message(&self) -> Option<&WaitingMessage> {
        self.waiting_message.as_ref()
    }

    /// The chain in force: parameters, root, held key and its slot.
    pub fn chain(&self) -> Option<&Chain> {
        self.vouched.chain.as_ref()
    }

    /// The time of the last root put in force since start.
    pub fn last_root(&self) -> Option<RootTime> {
        self.vouched.last_root
    }

    /// In the order in which they came.
    pub fn waiting_tags(&self) -> &[WaitingTag] {
        &self.vouched.waiting_tags
    }

    pub fn authentic_set(&self, prn: u8) -> Option<&AuthenticSet> {
        self.sets_of(prn)?.authentic.as_ref()
    }

    /// The set of a satellite with which tags agree, short of 40 bits.
    pub fn candidate(&self, prn: u8) -> Option<&Candidate> {
        self.sets_of(prn)?.candidate.as_ref()
    }

    /// The last set that stood as a satellite's candidate in the last section judged, though it may
    /// be gone since.
    pub fn stood_as_candidate(&self, prn: u8) -> Option<&NavSet> {
        self.sets.stood(prn)
    }

    fn sets_of(&self, prn: u8) -> Option<&SatelliteSets> {
        is_prn(prn).then(|| self.sets.of(prn))
    }
}
