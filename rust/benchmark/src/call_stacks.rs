//! The deepest stack of each call of the core.

use crate::sky::{calls, part, settings, time};
use crate::stack::of_call;
use osnma::regions::Regions;
use osnma::{Marks, Records, NO_RECORDS};

/// A message with this NMA header: CIDKR 1, NMACK 1, KS 128, MS 40, MACLT 27, at this hour of week 1000.
fn message(header: u8, hour: u8) -> [u8; 45] {
    let mut message = [0; 45];
    message[..7].copy_from_slice(&[header, 0x50, 0x49, 27, 0x03, 0xE8, hour]);
    message[7..29].fill(0x6B);
    message
}

/// The deepest stack of verdicts: a first root, a later one at which 256 waiting tags are looked at, the
/// same again, a bad verdict, and a drop of the chain.
fn verdicts(core: &mut Regions) -> usize {
    let signature = [0x2A; 132];
    let told = [
        (1, 0x50, 1),
        (1, 0x50, 2),
        (1, 0x50, 2),
        (0, 0x50, 3),
        (1, 0xD0, 3),
    ];
    let mut deepest = 0;
    for (good, header, hour) in told {
        let message = message(header, hour);
        core.offer[..2].copy_from_slice(&[1, 0]);
        core.offer[2..47].copy_from_slice(&message);
        core.offer[47..].copy_from_slice(&signature);
        core.numbers[1] = 256;
        let bytes = of_call(core, |core| {
            let answer = core.lend().verdict(good, 0, &message, &signature);
            assert_eq!(answer, if good == 1 { 0 } else { 15 });
        });
        deepest = deepest.max(bytes);
    }
    deepest
}

/// A core and a record area.
#[derive(Clone)]
struct Memory {
    core: Regions,
    area: Records,
}

/// Every message and refusal, and 270 tags of one section.
const RUNS: [&str; 7] = [
    "nominal",
    "new_public_key",
    "emergencies",
    "key_messages",
    "root_messages",
    "outcomes",
    "places_full",
];

/// Chains of either SHA3.
const SHA3_RUNS: [&str; 2] = ["sha3_224", "sha3_256"];

/// The deepest stack of the sub-frames of these runs.
fn subframes(runs: &[&'static str]) -> usize {
    let mut memory = Box::new(Memory {
        core: Regions::zeroed(),
        area: NO_RECORDS,
    });
    let mut deepest = 0;
    for call in runs.iter().copied().flat_map(calls) {
        let mut lent = memory.core.lend();
        match call[0] {
            1 => {
                let s = settings(&call);
                let (marks, root) = (s.marks.as_flattened(), &s.tree_root);
                lent.start(s.ns, s.key_id, s.key_type, s.maclt, marks, root, &s.key);
            }
            2 => {
                lent.word(call[1], time(&call), part::<16>(&call, 6));
            }
            3 => {
                let depth = of_call(&mut *memory, |Memory { core, area }| {
                    let (mut hkroot, mut mack) = (0, 0);
                    let fields = part::<75>(&call, 6);
                    core.lend().subframe(
                        area,
                        call[1],
                        time(&call),
                        Marks::ALL.bits(),
                        fields,
                        &mut hkroot,
                        &mut mack,
                    );
                });
                deepest = deepest.max(depth);
            }
            _ => {
                let (message, signature) = (part::<45>(&call, 3), part::<132>(&call, 48));
                lent.verdict(call[1], call[2], message, signature);
            }
        }
    }
    deepest
}

/// Prints a Markdown table.
pub fn stacks() {
    let mut marks = [255; 28];
    (marks[0], marks[14]) = (0, 0);
    let (root, key) = ([3; 32], [5; 67]);
    let mut core = Box::new(Regions::zeroed());
    let core = &mut *core;
    let time = 1000 << 20;

    let start = of_call(core, |core| {
        assert_eq!(core.lend().start(36, 0, 1, 27, &marks, &root, &key), 0);
    });

    let mut word = 0;
    for kind in 1..=6u8 {
        let mut bytes = [0; 16];
        bytes[0] = kind << 2;
        bytes[2] = 11 << 2; // the SVID of word 4
        let bytes = of_call(core, |core| {
            assert_eq!(core.lend().word(11, time, &bytes), 0);
        });
        word = word.max(bytes);
    }

    core.arrivals[10] = time + 1;
    let read_set = of_call(core, |core| {
        let (mut set, mut issue, mut at) = ([0; 69], 0, 0);
        let view = core.view();
        assert_eq!(view.read_set(11, &mut set, &mut issue, &mut at), 0);
    });

    core.offer[0] = 1;
    let read_message = of_call(core, |core| {
        let (mut told, mut signed, mut public) = ([0; 45], [0; 132], [0; 67]);
        let (mut id, mut kind) = (0, 0);
        let view = core.view();
        let answer = view.read_message(&mut told, &mut signed, &mut public, &mut id, &mut kind);
        assert_eq!(answer, 0);
    });

    core.clocks[0] = time + 1;
    let four = of_call(core, |core| {
        let mut yes = 77;
        assert_eq!((core.view().four(20, &mut yes), yes), (0, 0));
    });

    (core.present, core.blocks) = ([1; 16], [0x10; 3328]);
    let progress = of_call(core, |core| {
        let mut pairs = [[77; 2]; 16];
        let answer = core.view().progress(pairs.as_flattened_mut());
        assert_eq!((answer, pairs), (0, [[1, 6]; 16]));
    });

    println!("| Call | Deepest stack, bytes |");
    println!("|---|---|");
    for (name, bytes) in [
        ("start", start),
        ("word", word),
        ("sub-frame", subframes(&RUNS)),
        ("sub-frame, chain of SHA3", subframes(&SHA3_RUNS)),
        ("verdict", verdicts(core)),
        ("read of an authentic set", read_set),
        ("read of what waits", read_message),
        ("four satellites, or not yet", four),
        ("how far along each message is", progress),
    ] {
        println!("| {name} | {bytes} |");
    }
    println!("\nA core has {} bytes.", size_of::<Regions>());
}
