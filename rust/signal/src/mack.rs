//! MACK sections: tags, MACSEQ and keys in their 60 bytes (000, 4, 5.5 and 5.6; 01, MACK).

use crate::bits;
use crate::chain::{Chain, Params};
use crate::navdata::Authenticated;
use crate::subframe::Mack;
use crate::time::Gst;
use portable_aes::CmacKey;
use portable_hash::HmacKey;
use std::ops::Range;

/// One list of marks of a start: 0 to 15 a fixed ADKD, 255 flexible.
pub type Marks = [u8; 14];
/// The mark of a flexible field.
pub const FLEXIBLE: u8 = 255;

/// The MAC-Info of a field (000, table 18). Of the section's first field only the IOD is sent.
#[derive(Clone, Copy, Debug, PartialEq, Eq)]
pub struct Info {
    /// Satellite whose data is authenticated.
    pub prn: u8,
    /// What is authenticated, and the delay of its key.
    pub adkd: u8,
    /// Four bits that enter MACSEQ alone.
    pub iod: u8,
}

impl Info {
    /// These three values.
    pub fn new(prn: u8, adkd: u8, iod: u8) -> Self {
        Info { prn, adkd, iod }
    }

    fn word(self) -> u16 {
        u16::from(self.prn) << 8 | u16::from(self.adkd & 15) << 4 | u16::from(self.iod & 15)
    }
}

/// Where the fields, keys and spare bits of a section stand. Fields are counted from 0 through all blocks, blocks
/// from 1. Each answer is a range of bits of the 60 bytes, so that any of them can be damaged by [`bits::flip`].
#[derive(Clone, Copy, Debug, PartialEq, Eq)]
pub struct Layout {
    /// Blocks of the section.
    pub blocks: usize,
    /// Fields of one block.
    pub per_block: usize,
    key: usize,
    tag: usize,
}

impl Layout {
    /// None if a code is reserved or a block has no room for one field.
    pub fn new(params: &Params) -> Option<Self> {
        let (blocks, key, tag) = (
            usize::from(params.nmack),
            params.key_bits(),
            params.tag_bits(),
        );
        if !(1..=3).contains(&blocks) || key == 0 || tag == 0 {
            return None;
        }
        let per_block = (480 / blocks).checked_sub(key)? / (tag + 16);
        (per_block > 0).then_some(Layout {
            blocks,
            per_block,
            key,
            tag,
        })
    }

    /// Fields of the section.
    pub fn fields(&self) -> usize {
        self.blocks * self.per_block
    }

    /// The block (from 1) and the position in it (from 1) of a field.
    pub fn position(&self, field: usize) -> (u8, u8) {
        (
            (field / self.per_block) as u8 + 1,
            (field % self.per_block) as u8 + 1,
        )
    }

    fn block(&self, block: u8) -> usize {
        (usize::from(block) - 1) * (480 / self.blocks)
    }

    /// A field's tag.
    pub fn tag(&self, field: usize) -> Range<usize> {
        let at = self.block(self.position(field).0) + field % self.per_block * (self.tag + 16);
        at..at + self.tag
    }

    /// A field's PRN.
    pub fn prn(&self, field: usize) -> Range<usize> {
        let at = self.tag(field).end;
        at..at + 8
    }

    /// A field's ADKD.
    pub fn adkd(&self, field: usize) -> Range<usize> {
        let at = self.prn(field).end;
        at..at + 4
    }

    /// A field's IOD.
    pub fn iod(&self, field: usize) -> Range<usize> {
        let at = self.adkd(field).end;
        at..at + 4
    }

    /// MACSEQ stands where other fields have their PRN and ADKD.
    pub fn macseq(&self) -> Range<usize> {
        self.prn(0).start..self.adkd(0).end
    }

    /// A block's key.
    pub fn key(&self, block: u8) -> Range<usize> {
        let at = self.block(block) + self.per_block * (self.tag + 16);
        at..at + self.key
    }

    /// The zero bits after a block's key; may be empty.
    pub fn spare(&self, block: u8) -> Range<usize> {
        self.key(block).end..self.block(block + 1)
    }
}

/// Sub-frames from a tag's arrival to that of its key; none for an ADKD that is no tag over words 1 to 5.
pub fn delay(adkd: u8) -> Option<u64> {
    match adkd {
        0 => Some(0),
        11 => Some(1),
        12 => Some(10),
        _ => None,
    }
}

/// The message of a tag (000, 5.5); `prn` is none for tag0.
pub fn tag_message(
    prn: Option<u8>,
    sender: u8,
    gst: Gst,
    ctr: u8,
    status: u8,
    set: &Authenticated,
) -> Vec<u8> {
    let mut message: Vec<u8> = prn
        .into_iter()
        .chain([sender])
        .chain(gst.bytes())
        .chain([ctr])
        .collect();
    let at = message.len() * 8;
    message.resize(message.len() + 69, 0);
    bits::put(&mut message, at, 2, u64::from(status));
    bits::copy(&mut message, at + 2, set, 0, 549);
    message
}

/// The message of a MACSEQ over the flexible fields (000, 5.6).
pub fn macseq_message(sender: u8, gst: Gst, flexible: impl Iterator<Item = Info>) -> Vec<u8> {
    let mut message = vec![sender];
    message.extend(gst.bytes());
    for info in flexible {
        message.extend(info.word().to_be_bytes());
    }
    message
}

/// A key under the MAC function that its chain names (000, table 11; 02, P1). Where that function does not take the
/// key, or is reserved, HMAC-SHA-256 stands in: a receiver refuses such a root.
enum MacKey {
    Hmac(HmacKey),
    Cmac(CmacKey),
}

impl MacKey {
    fn new(params: &Params, key: &[u8]) -> Self {
        let cmac = params.is_cmac().then(|| CmacKey::new(key)).flatten();
        cmac.map_or_else(|| MacKey::Hmac(HmacKey::new(key)), MacKey::Cmac)
    }

    /// The code of a message: 32 or 16 bytes.
    fn mac(&self, message: &[u8]) -> Vec<u8> {
        match self {
            MacKey::Hmac(key) => key.mac(message).to_vec(),
            MacKey::Cmac(key) => key.mac(message).to_vec(),
        }
    }
}

/// What a satellite sends in one sub-frame.
#[derive(Clone, Copy)]
pub struct Sending<'a> {
    /// The chain whose keys it sends.
    pub chain: &'a Chain,
    /// PRN of the satellite.
    pub sender: u8,
    /// Time of the sub-frame.
    pub gst: Gst,
    /// NMA status of this sub-frame's header.
    pub status: u8,
    /// The list of marks for this half minute.
    pub marks: &'a Marks,
    /// One entry a field, the first for tag0.
    pub infos: &'a [Info],
}

impl Sending<'_> {
    /// The section, with correct tags over the sets that `set` gives, MACSEQ, keys and zero spare bits. A field
    /// without a set, with an ADKD that is no tag over words 1 to 5, or whose key the chain does not have, has a zero
    /// tag.
    pub fn section(&self, set: impl Fn(u8) -> Option<Authenticated>) -> Mack {
        let layout = Layout::new(&self.chain.params).expect("a block has room for a field");
        let (mut out, mut keys) = (
            [0; 60],
            TagKeys {
                chain: self.chain,
                known: Vec::new(),
            },
        );
        for field in 0..layout.fields() {
            let info = self.infos.get(field).copied().unwrap_or(Info::new(0, 0, 0));
            let (block, ctr) = layout.position(field);
            let (prn, adkd) = if field == 0 {
                (self.sender, 0)
            } else {
                (info.prn, info.adkd)
            };
            if let (Some(delay), Some(set)) = (delay(adkd), set(prn)) {
                let slot = self.chain.tag_slot(self.gst, delay, block);
                if slot <= self.chain.top() {
                    let named = (field > 0).then_some(prn);
                    let message = tag_message(named, self.sender, self.gst, ctr, self.status, &set);
                    let mac = keys.get(slot).mac(&message);
                    bits::copy(&mut out, layout.tag(field).start, &mac, 0, layout.tag);
                }
            }
            bits::put(
                &mut out,
                layout.prn(field).start,
                16,
                u64::from(info.word()),
            );
        }
        bits::put(
            &mut out,
            layout.macseq().start,
            12,
            self.macseq(&layout, &mut keys),
        );
        for block in 1..=layout.blocks as u8 {
            let key = self
                .chain
                .key(self.chain.slot(self.sender, self.gst, block));
            bits::copy(&mut out, layout.key(block).start, &key, 0, layout.key);
        }
        out
    }

    fn macseq(&self, layout: &Layout, keys: &mut TagKeys) -> u64 {
        let fields = layout.fields().min(self.marks.len());
        let flexible = (1..fields).filter(|&n| self.marks[n] == FLEXIBLE);
        let message = macseq_message(
            self.sender,
            self.gst,
            flexible.filter_map(|n| self.infos.get(n).copied()),
        );
        let key = keys.get(self.chain.lowest_slot(self.gst, 1));
        bits::get(&key.mac(&message), 0, 12)
    }
}

/// The keys of a section's tags, each computed once.
struct TagKeys<'a> {
    chain: &'a Chain,
    known: Vec<(u64, MacKey)>,
}

impl TagKeys<'_> {
    fn get(&mut self, slot: u64) -> &MacKey {
        let at = self
            .known
            .iter()
            .position(|k| k.0 == slot)
            .unwrap_or_else(|| {
                let key = MacKey::new(&self.chain.params, &self.chain.key(slot));
                self.known.push((slot, key));
                self.known.len() - 1
            });
        &self.known[at].1
    }
}

#[cfg(test)]
mod tests {
    use super::*;
    use crate::navdata::NavSet;
    use portable_hash::hmac_sha256;

    fn hex(bytes: &[u8]) -> String {
        bytes.iter().map(|b| format!("{b:02X}")).collect()
    }

    fn word(text: &str) -> [u8; 16] {
        let mut out = [0; 16];
        for (i, b) in out.iter_mut().enumerate() {
            *b = u8::from_str_radix(&text[2 * i..2 * i + 2], 16).unwrap();
        }
        out
    }

    /// The I/NAV word of an even and an odd page part of table 26: bits 2 to 113 of the first, 2 to 17 of the second
    /// (OS SIS ICD, nominal page).
    fn page(even: &str, odd: &str) -> [u8; 16] {
        let (mut e, mut o) = ([0; 16], [0; 16]);
        e[..15].copy_from_slice(&word(&format!("{even}00"))[..15]);
        o[..15].copy_from_slice(&word(&format!("{odd}00"))[..15]);
        let mut out = [0; 16];
        bits::copy(&mut out, 0, &e, 2, 112);
        bits::copy(&mut out, 112, &o, 2, 16);
        out
    }

    fn e18() -> NavSet {
        NavSet {
            words: [
                page(
                    "01141C203347000D00000000AA0480",
                    "B4A48540AD06C02AAAAA5C8FF248C0",
                ),
                // Digit 9 of word 2 is printed 4; A is what gives the printed message of MAC0.
                page(
                    "0214287BFAA489F49F4A0000000000",
                    "80006091123D022AAAAA4CCEED08C0",
                ),
                page(
                    "031400000000000000000000000000",
                    "8006707E8D4EF8EAAAAA765C45C8C0",
                ),
                page(
                    "041412000000007080000000000000",
                    "800040D2C280096AAAAA63755748C0",
                ),
                page(
                    "0532000000000000000766D2F32A80",
                    "AAAA9844C78F936AAAAA7121B188C0",
                ),
            ],
        }
    }

    fn annex_chain() -> Chain {
        let seed = 0xFEAE_8911_880E_FFFC_C81F_FA45_F427_F6EAu128.to_be_bytes();
        let params = Params::new(0, 2, 4, 1, 11, [0xF1, 0xCA, 0x38, 0x56, 0xA9, 0x75]);
        Chain::new(params, 36, 947, 120, 414_721, &seed)
    }

    // A.1.5: message (two zeros too many in print), its HMAC, MACSEQ, and the section's first fields.
    #[test]
    fn annex_section() {
        let chain = annex_chain();
        let gst = Gst::new(947, 432_030);
        let set = e18().authenticated();
        let message = tag_message(None, 18, gst, 1, 2, &set);
        let printed = "123B36979E018507080CD1C003400000002A812D29050A1EFEA9227D27D280000000000\
                       005000000000000000000000000000001914120000000070800000000000000032000000000000000";
        let zeros = printed.find("00000000000000000000000000000").unwrap();
        assert_eq!(
            hex(&message),
            [&printed[..zeros], &printed[zeros + 2..]].concat()
        );
        let mac = hmac_sha256(&chain.key(73), &message);
        assert_eq!(
            hex(&mac),
            "E5819AB582F2269E68FCB6AB5B368041E4E87F25320905E08EB48113ADEE997A"
        );

        let mut marks = [0; 14];
        marks[1..3].fill(FLEXIBLE);
        let (first, second) = (Info::new(255, 4, 0), Info::new(18, 11, 0));
        let message = macseq_message(18, gst, [first, second].into_iter());
        assert_eq!(hex(&message), "123B36979EFF4012B0");
        let mac = hmac_sha256(&chain.key(73), &message);
        assert_eq!(
            hex(&mac),
            "C24C7E4C55A29896758A48657E858425C396C648B3AAC2B199E594F88F40E4B3"
        );

        let infos = [Info::new(0, 0, 0), first, second];
        let sending = Sending {
            chain: &chain,
            sender: 18,
            gst,
            status: 2,
            marks: &marks,
            infos: &infos,
        };
        let section = sending.section(|prn| (prn == 18).then_some(set));
        assert_eq!(
            bits::get(&section, 0, 28),
            0b1110_0101_1000_1100_0010_0100_0000
        );
        let layout = Layout::new(&chain.params).unwrap();
        assert_eq!(bits::get(&section, layout.prn(1).start, 16), 0xFF40);
        assert_eq!(section[14..30], chain.key(90)[..]);
        assert_eq!(section[44..60], chain.key(126)[..]);
    }

    // With MF 1 the tag and MACSEQ are the first bits of the CMAC codes of the same messages, under the same keys.
    #[test]
    fn cmac_section() {
        let hmac = annex_chain();
        let mut chain = hmac.clone();
        chain.params = hmac.params.with_cmac();
        let (gst, set) = (Gst::new(947, 432_030), e18().authenticated());
        let (marks, infos) = ([0; 14], [Info::new(0, 0, 0), Info::new(18, 0, 0)]);
        let sections = [&hmac, &chain].map(|chain| {
            let sending = Sending {
                chain,
                sender: 18,
                gst,
                status: 2,
                marks: &marks,
                infos: &infos,
            };
            sending.section(|prn| (prn == 18).then_some(set))
        });
        let layout = Layout::new(&chain.params).unwrap();
        let code = |message: &[u8]| portable_aes::cmac(&chain.key(73), message).unwrap();
        let bits_at = |range: Range<usize>| bits::get(&sections[1], range.start, range.len());
        let tag0 = tag_message(None, 18, gst, 1, 2, &set);
        assert_eq!(bits_at(layout.tag(0)), bits::get(&code(&tag0), 0, 12));
        let tag1 = tag_message(Some(18), 18, gst, 2, 2, &set);
        assert_eq!(bits_at(layout.tag(1)), bits::get(&code(&tag1), 0, 12));
        let macseq = macseq_message(18, gst, [].into_iter());
        assert_eq!(bits_at(layout.macseq()), bits::get(&code(&macseq), 0, 12));
        assert_ne!(sections[0][..14], sections[1][..14]);
        assert_eq!(sections[0][14..30], sections[1][14..30], "the same keys");
    }

    // 01, Known points.
    #[test]
    fn known_layouts() {
        let fields = |nmack, ks, ms| {
            Layout::new(&Params::new(0, nmack, ks, ms, 0, [0; 6])).map(|l| l.per_block)
        };
        assert_eq!(fields(2, 4, 1), Some(4));
        assert_eq!(fields(3, 4, 3), Some(1));
        assert_eq!(fields(3, 4, 4), None);
        assert_eq!(fields(1, 0, 0), Some(14));
        assert_eq!(fields(0, 0, 0), None);
        assert_eq!(fields(1, 9, 0), None);
        assert_eq!(fields(1, 0, 10), None);
    }

    // Fields, keys and spare bits lie side by side and fill the section.
    #[test]
    fn layouts_fill_the_section() {
        for nmack in 1..=3 {
            for ks in 0..9 {
                for ms in 0..10 {
                    let Some(l) = Layout::new(&Params::new(0, nmack, ks, ms, 0, [0; 6])) else {
                        continue;
                    };
                    let mut at = 0;
                    for block in 1..=l.blocks as u8 {
                        for n in 0..l.per_block {
                            let field = (usize::from(block) - 1) * l.per_block + n;
                            for part in [l.tag(field), l.prn(field), l.adkd(field), l.iod(field)] {
                                assert_eq!(part.start, at);
                                at = part.end;
                            }
                        }
                        for part in [l.key(block), l.spare(block)] {
                            assert_eq!(part.start, at);
                            at = part.end;
                        }
                    }
                    assert_eq!(at, 480);
                }
            }
        }
    }
}
