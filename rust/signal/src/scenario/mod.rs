//! Whole runs: realistic, adversarial and random ones.
//!
//! Every scenario is built from a seed, which gives its keys, α, navigation bits and signatures; the same seed gives
//! the same bytes. What a run intends stands in [`Run::expects`].

mod bench;
mod boom;
mod candidates;
mod cmac;
mod four;
mod gathering;
mod lost;
mod parameters;
mod progress;
mod random;
mod realistic;
mod refusals;
mod sha3;
mod tags;

use crate::replay::Run;

pub use parameters::section_after_gap;
pub use random::{random, random_with, Functions, Pages};

/// A named scenario.
#[derive(Clone, Copy)]
pub struct Scenario {
    /// What `signal NAME` takes.
    pub name: &'static str,
    /// One line.
    pub about: &'static str,
    build: fn(&str, &str, u64) -> Run,
}

impl Scenario {
    /// Builds the run.
    pub fn run(&self, seed: u64) -> Run {
        (self.build)(self.name, self.about, seed)
    }
}

/// The seed of a run when none is asked for. What the runs intend is checked with it; with another seed a wrong tag
/// of few bits can match by chance.
pub const SEED: u64 = 1;

/// All named scenarios.
pub fn all() -> &'static [Scenario] {
    ALL
}

/// The scenario of this name.
pub fn find(name: &str) -> Option<&'static Scenario> {
    ALL.iter().find(|s| s.name == name)
}

const fn scenario(
    name: &'static str,
    about: &'static str,
    build: fn(&str, &str, u64) -> Run,
) -> Scenario {
    Scenario { name, about, build }
}

const ALL: &[Scenario] = &[
    scenario(
        "nominal",
        "eight satellites, twelve minutes, one data change",
        realistic::nominal,
    ),
    scenario(
        "floating_root",
        "a later root of the same chain; slow tags that stay and that go",
        realistic::floating_root,
    ),
    scenario(
        "chain_renewal",
        "a new chain at its hour, announced before",
        realistic::chain_renewal,
    ),
    scenario(
        "chain_revoked",
        "status 3 drops the chain; only a later root counts",
        realistic::chain_revoked,
    ),
    scenario(
        "new_public_key",
        "a public key by DSM-PKR, a root under it, lower keys dropped",
        realistic::new_public_key,
    ),
    scenario(
        "emergency",
        "an emergency message stops the receiver until a new start",
        realistic::emergency,
    ),
    scenario(
        "stopped",
        "reads after an emergency message still give the authentic sets",
        realistic::stopped,
    ),
    scenario(
        "data_change",
        "a repeater's words replace a set while its slow tag waits",
        realistic::data_change,
    ),
    scenario(
        "newer_set_stays",
        "an old slow tag does not replace a newer authentic set",
        realistic::newer_set_stays,
    ),
    scenario(
        "week_change",
        "sections and slow tags across the end of a week",
        realistic::week_change,
    ),
    scenario(
        "last_week",
        "the last half minutes of week 4095",
        realistic::last_week,
    ),
    scenario(
        "fitter",
        "half an hour, 12 satellites, a repeater's words in the middle",
        realistic::fitter,
    ),
    scenario(
        "full_sky",
        "half an hour of 36 satellites",
        realistic::full_sky,
    ),
    scenario(
        "places_full",
        "256 slow tags waiting, and 270 records from one section",
        realistic::places_full,
    ),
    scenario(
        "words",
        "words refused for every reason, alone and in pairs; other types",
        refusals::words,
    ),
    scenario(
        "subframes",
        "sub-frames refused for every reason, alone and in pairs",
        refusals::subframes,
    ),
    scenario(
        "sections",
        "MACK sections refused for every reason, alone and in pairs, block by block",
        refusals::sections,
    ),
    scenario(
        "root_messages",
        "DSM-KROOT refused for every reason, alone and in pairs",
        refusals::root_messages,
    ),
    scenario(
        "root_sizes",
        "DSM-KROOT of every key type and KS: the least number of blocks",
        refusals::root_sizes,
    ),
    scenario(
        "key_messages",
        "DSM-PKR refused for every reason, alone and in pairs",
        refusals::key_messages,
    ),
    scenario(
        "keys_kept",
        "which calls drop public keys and which do not",
        refusals::keys_kept,
    ),
    scenario(
        "key_identities",
        "public keys of the highest ID, and of the same ID and bytes under another type",
        refusals::key_identities,
    ),
    scenario(
        "emergencies",
        "emergency messages of 11 to 16 blocks",
        refusals::emergencies,
    ),
    scenario(
        "verdicts",
        "verdicts refused for every reason, alone and in pairs",
        refusals::verdicts,
    ),
    scenario(
        "starts",
        "starts refused for every reason; calls before a start",
        refusals::starts,
    ),
    scenario(
        "records",
        "records of every other kind, and bytes that are not read",
        refusals::records,
    ),
    scenario(
        "short_record",
        "a last record of 255 bytes",
        refusals::short_record,
    ),
    scenario(
        "gathering_drops",
        "blocks that go by age, header or other bytes",
        gathering::drops,
    ),
    scenario(
        "gathering_counts",
        "reserved NB, block IDs too high, block 0 that comes late",
        gathering::counts,
    ),
    scenario(
        "gathering_ids",
        "sixteen DSM IDs side by side, messages that replace each other",
        gathering::identities,
    ),
    scenario(
        "outcomes",
        "every outcome of a tag, by fixed and flexible fields",
        tags::outcomes,
    ),
    scenario(
        "outcome_order",
        "outcomes in pairs, so that their order shows",
        tags::outcome_order,
    ),
    scenario(
        "no_flexible",
        "MACSEQ without a flexible field",
        tags::no_flexible,
    ),
    scenario(
        "flexible_blocks",
        "flexible fields in every block",
        tags::flexible_blocks,
    ),
    scenario(
        "usable_sets",
        "sets that are not whole, mixed, or came too late",
        tags::usable_sets,
    ),
    scenario(
        "word_bits",
        "each bit of words 1 to 5 turned over",
        tags::word_bits,
    ),
    scenario(
        "field_bits",
        "each bit of a sub-frame's field turned over",
        tags::field_bits,
    ),
    scenario(
        "waiting_sets",
        "words that change while slow tags wait",
        tags::waiting_sets,
    ),
    scenario(
        "same_time_sets",
        "two sections of one time that saw different sets",
        tags::same_time_sets,
    ),
    scenario(
        "waiting_tags",
        "slow tags over new roots, new chains, drops and refused sections",
        tags::waiting_tags,
    ),
    scenario(
        "changed_sizes",
        "MS, NMACK or KS alone changes while slow tags wait",
        tags::changed_sizes,
    ),
    scenario(
        "sizes_1",
        "every KS and MS with one block",
        parameters::sizes_1,
    ),
    scenario(
        "sizes_2",
        "every KS and MS with two blocks",
        parameters::sizes_2,
    ),
    scenario(
        "sizes_3",
        "every KS and MS with three blocks",
        parameters::sizes_3,
    ),
    scenario("every_ns", "every NS from 1 to 36", parameters::every_ns),
    scenario(
        "gaps",
        "keys 1,000,000 and 1,000,001 slots past the one held",
        parameters::gaps,
    ),
    scenario(
        "held_key",
        "from which key a gap is counted after equal contents and after a new root",
        parameters::held_key,
    ),
    scenario(
        "gap_full",
        "256 slow tags due at the end of a gap of 1,000,000",
        parameters::gap_full,
    ),
    scenario(
        "wide_slots",
        "slots and seconds past 32 bits",
        parameters::wide_slots,
    ),
    scenario(
        "message_bits",
        "bits of verdicts, DSM-KROOT and DSM-PKR turned over",
        parameters::message_bits,
    ),
    scenario(
        "cmac_128",
        "CMAC-AES with KS 128: eight satellites, twelve minutes, one data change",
        cmac::nominal_128,
    ),
    scenario("cmac_192", "the same with KS 192", cmac::nominal_192),
    scenario("cmac_256", "the same with KS 256", cmac::nominal_256),
    scenario(
        "cmac_data_change",
        "CMAC-AES: a repeater's words replace a set while its slow tag waits",
        cmac::data_change,
    ),
    scenario(
        "cmac_sizes",
        "CMAC-AES with every KS that it takes, every MS and number of blocks",
        cmac::sizes,
    ),
    scenario(
        "cmac_damaged",
        "CMAC-AES: each bit of a sub-frame's field turned over, and tags of HMAC-SHA-256",
        cmac::damaged,
    ),
    scenario("mac_functions", "every MF with every KS", cmac::functions),
    scenario(
        "mf_changes",
        "the MAC function changes while slow tags wait",
        cmac::mf_changes,
    ),
    scenario(
        "sha3_224",
        "SHA3-224 with KS 128: eight satellites, twelve minutes, one data change",
        sha3::nominal_224,
    ),
    scenario(
        "sha3_224_whole",
        "the same with KS 224, the whole digest",
        sha3::nominal_224_whole,
    ),
    scenario(
        "sha3_256",
        "the same with SHA3-256 and KS 256",
        sha3::nominal_256,
    ),
    scenario(
        "sha3_cmac",
        "the same with SHA3-256, CMAC-AES and KS 192",
        sha3::nominal_cmac,
    ),
    scenario(
        "sha3_data_change",
        "SHA3-224: a repeater's words replace a set while its slow tag waits",
        sha3::data_change,
    ),
    scenario(
        "sha3_sizes",
        "SHA3-224 and SHA3-256 with every KS and number of blocks, both MAC functions",
        sha3::sizes,
    ),
    scenario(
        "sha3_keys",
        "keys above and below the held one, each bit of a key turned over, keys of another hash",
        sha3::keys,
    ),
    scenario(
        "sha3_gaps",
        "keys 1,000,000 and 1,000,001 slots past the one held, and slow tags due on the way",
        sha3::gaps,
    ),
    scenario("hash_functions", "every HF with every KS", sha3::functions),
    scenario(
        "hf_changes",
        "the hash function changes while slow tags wait",
        sha3::hf_changes,
    ),
    scenario(
        "trees",
        "half an hour under trees: a field or two of a sub-frame lost now and then",
        realistic::trees,
    ),
    scenario(
        "trees_1",
        "the same with one block and CMAC-AES",
        realistic::trees_1,
    ),
    scenario("trees_3", "the same with three blocks", realistic::trees_3),
    scenario(
        "lost_fields_1",
        "each field of a sub-frame lost in turn, every KS and MS with one block",
        lost::fields_1,
    ),
    scenario("lost_fields_2", "the same with two blocks", lost::fields_2),
    scenario(
        "lost_fields_3",
        "the same with three blocks",
        lost::fields_3,
    ),
    scenario(
        "lost_keys",
        "keys lost: slow tags, far keys, spare bits, damaged keys",
        lost::keys,
    ),
    scenario(
        "lost_parts",
        "tags, MAC-Info and MACSEQ lost, where other outcomes hold too",
        lost::parts,
    ),
    scenario(
        "lost_blocks",
        "messages whose blocks lose bytes, and zeros where fields are lost",
        lost::blocks,
    ),
    scenario(
        "tag_sizes",
        "every MS and number of blocks: how many tags make a set authentic",
        candidates::tag_sizes,
    ),
    scenario(
        "two_sets",
        "a satellite that goes from one set to another and back, with every MS",
        candidates::two_sets,
    ),
    scenario(
        "slow_tags_between",
        "slow tags of an older set beside candidates and authentic sets",
        candidates::slow_tags_between,
    ),
    scenario(
        "same_time_candidates",
        "tags of one time on two sets of a satellite",
        candidates::same_time,
    ),
    scenario(
        "candidates_over_roots",
        "candidates over later roots, other chains, refused verdicts and a drop",
        candidates::over_roots,
    ),
    scenario(
        "thin_tags",
        "half an hour, tags of 10 bits, data that changes often and goes back",
        candidates::thin_tags,
    ),
    scenario(
        "four_ages",
        "four sets that grow old while only refused sections note the time",
        four::ages,
    ),
    scenario(
        "four_week_end",
        "four sets of a week's end, seen from the next weeks",
        four::week_end,
    ),
    scenario(
        "four_candidates",
        "four satellites with candidates alone, and beside their sets",
        four::candidates,
    ),
    scenario(
        "four_stopped",
        "four sets and an emergency message, whose time is noted",
        four::stopped,
    ),
    scenario(
        "four_starts",
        "four sets, refused starts and accepted ones",
        four::starts,
    ),
    scenario(
        "progress_cold_start",
        "a root's blocks in any order, repeats, block 0 first and last; taken or refused when complete",
        progress::cold_start,
    ),
    scenario(
        "progress_ids",
        "messages of all DSM IDs side by side, DSM-PKR among them",
        progress::identities,
    ),
    scenario(
        "progress_drops",
        "blocks that go by header, other bytes, a lower count or age",
        progress::drops,
    ),
    scenario(
        "progress_refused",
        "blocks with a reserved NB, too high or not whole, and sub-frames that are refused",
        progress::refused,
    ),
    scenario(
        "progress_stopped",
        "half a message, an emergency message, refused starts and accepted ones",
        progress::stopped,
    ),
    scenario(
        "boom_lost_sky",
        "the boom's valves while four satellites grow old, come back, and are not heard for half an hour",
        boom::lost_sky,
    ),
    scenario(
        "boom_stop_and_start",
        "the boom's valves around emergency messages, refused starts and accepted ones",
        boom::stop_and_start,
    ),
];

#[cfg(test)]
mod tests {
    use super::*;
    use crate::replay::RECORD;

    /// Runs whose chains have a million slots and more; without optimisation they take minutes to build.
    const LONG: [&str; 5] = ["sections", "gaps", "held_key", "gap_full", "sha3_gaps"];

    // Each run has whole records, is the same from the same seed, and states answers to records that it has.
    #[test]
    fn structure() {
        for (n, s) in ALL.iter().enumerate() {
            assert!(
                ALL[n + 1..].iter().all(|other| other.name != s.name),
                "{} stands twice",
                s.name
            );
            if cfg!(debug_assertions) && LONG.contains(&s.name) {
                continue;
            }
            let run = s.run(SEED);
            assert_eq!((run.name.as_str(), run.about.as_str()), (s.name, s.about));
            assert_eq!(
                run.bytes.len() % RECORD,
                if s.name == "short_record" { 255 } else { 0 },
                "{}",
                s.name
            );
            assert_eq!(run.bytes, s.run(SEED).bytes, "{}", s.name);
            assert!(!run.expects.answers.is_empty(), "{}", s.name);
            let places = run.bytes.len().div_ceil(RECORD);
            assert!(
                run.expects
                    .answers
                    .iter()
                    .all(|a| (1..=places).contains(&a.0)),
                "{}",
                s.name
            );
        }
    }

    #[test]
    fn another_seed_is_another_signal() {
        let nominal = find("nominal").unwrap();
        assert_ne!(nominal.run(1).bytes, nominal.run(2).bytes);
        assert!(find("nothing").is_none());
    }

    #[test]
    fn random_runs() {
        let mut seen = Vec::new();
        for seed in 0..8 {
            let run = random(seed);
            assert_eq!(run.bytes, random(seed).bytes, "seed {seed}");
            assert!(
                seed % 4 > 0 || run.bytes.len().is_multiple_of(RECORD),
                "seed {seed}"
            );
            assert!(run.places() > 10, "seed {seed}");
            assert!(!seen.contains(&run.bytes), "seed {seed} repeats another");
            seen.push(run.bytes);
        }
    }
}
