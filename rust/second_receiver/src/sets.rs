//! Each satellite's authentic set and the candidate beside it (01, MACK; 02, P4).

use crate::navdata::NavSet;
use crate::times::{Gst, SATELLITES};
use std::collections::BTreeMap;

/// Tag bits at which a set is called authentic.
pub const ENOUGH_BITS: usize = 40;

/// A set that tags showed to be authentic.
#[derive(Clone, Debug, PartialEq, Eq)]
pub struct AuthenticSet {
    pub set: NavSet,
    /// GST_SF of its tag's arrival.
    pub time: Gst,
}

/// What counts of a tag that agrees with a set.
#[derive(Clone, Copy, Debug, PartialEq, Eq)]
pub struct AgreeingTag {
    /// GST_SF of arrival.
    pub time: Gst,
    pub bits: usize,
}

/// A set with which tags agree that have too few bits together.
#[derive(Clone, Debug, PartialEq, Eq)]
pub struct Candidate {
    pub set: NavSet,
    /// At least one, in the order in which they were judged.
    pub tags: Vec<AgreeingTag>,
}

impl Candidate {
    /// The bits of its tags.
    pub fn total(&self) -> usize {
        self.tags.iter().map(|tag| tag.bits).sum()
    }

    /// GST_SF of its latest tag: the latest to come, not the last judged (B18).
    pub fn latest(&self) -> Gst {
        let times = self.tags.iter().map(|tag| tag.time);
        times.max().expect("a candidate has a tag")
    }
}

/// The sets of one satellite.
#[derive(Clone, Debug, Default, PartialEq, Eq)]
pub struct SatelliteSets {
    pub authentic: Option<AuthenticSet>,
    pub candidate: Option<Candidate>,
}

impl SatelliteSets {
    /// Counts a tag that agrees with `set`; whether the set is authentic with it.
    fn agree(&mut self, set: &NavSet, tag: AgreeingTag) -> bool {
        let held = self.authentic.as_ref();
        if held.is_some_and(|held| held.set == *set) {
            // It touches no candidate; the set's time goes on as in 01 (B17).
            self.replace(set, tag.time);
            return true;
        }
        match &mut self.candidate {
            Some(candidate) if candidate.set == *set => candidate.tags.push(tag),
            // Bits of neither while the candidate's latest tag came later: it counts nowhere (B19).
            Some(candidate) if candidate.latest() > tag.time => return false,
            candidate => {
                *candidate = Some(Candidate {
                    set: set.clone(),
                    tags: vec![tag],
                });
            }
        }
        let complete = self.candidate.take_if(|held| held.total() >= ENOUGH_BITS);
        if let Some(candidate) = &complete {
            self.replace(&candidate.set, candidate.latest());
        }
        complete.is_some()
    }

    /// Replaces the authentic set unless that set's tag came later (A68, B20, B22).
    fn replace(&mut self, set: &NavSet, time: Gst) {
        let held = self.authentic.as_ref();
        if held.is_none_or(|held| held.time <= time) {
            self.authentic = Some(AuthenticSet {
                set: set.clone(),
                time,
            });
        }
    }
}

/// The sets of all satellites.
#[derive(Clone, Debug, PartialEq, Eq)]
pub struct Sets {
    satellites: Vec<SatelliteSets>,
    /// By PRN, what stood as candidate in the last section judged, though it may be gone since. No
    /// rule reads it: a core that keeps sets in places of its own leaves these bytes there.
    stood: BTreeMap<u8, NavSet>,
}

impl Default for Sets {
    fn default() -> Self {
        Sets {
            satellites: vec![SatelliteSets::default(); SATELLITES],
            stood: BTreeMap::new(),
        }
    }
}

impl Sets {
    pub fn of(&self, prn: u8) -> &SatelliteSets {
        &self.satellites[usize::from(prn) - 1]
    }

    /// The last set that stood as this satellite's candidate in the last section judged.
    pub fn stood(&self, prn: u8) -> Option<&NavSet> {
        self.stood.get(&prn)
    }

    /// The tags of a section are judged from here on.
    pub fn begin_section(&mut self) {
        self.stood.clear();
    }

    /// Counts a tag that agrees with `set` of a satellite; whether the set is authentic with it.
    pub fn agree(&mut self, prn: u8, set: &NavSet, tag: AgreeingTag) -> bool {
        let sets = &mut self.satellites[usize::from(prn) - 1];
        let enough = sets.agree(set, tag);
        if let Some(candidate) = &sets.candidate {
            self.stood.insert(prn, candidate.set.clone());
        }
        enough
    }

    /// A new chain or a drop clears candidates; authentic sets stay (A46, B23).
    pub fn clear_candidates(&mut self) {
        for sets in &mut self.satellites {
            sets.candidate = None;
        }
    }
}
