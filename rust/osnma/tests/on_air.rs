//! The collector, in Rust and in C: every named run of the bench signal, cut into pages in the order of the air, gives
//! what the recording gives: the numbers and tag records of every sub-frame, start and verdict, whether four satellites
//! have authentic sets that are not too old, how far along each message is, and these sets at the end. Pages as a receiver hears them, lost, twice, late
//! or in any order, give what `heard` says. The programs are `examples/receiver.rs` and `examples/receiver.c`.

mod compiled;
#[path = "on_air/heard.rs"]
mod heard;
#[path = "../../../examples/receiver.rs"]
mod receiver;

use compiled::{build, cpp_compilers, run, C99, CPP17};
use heard::{disturbed, heard};
use second_receiver::replay::{answer, replay};
use second_receiver::Receiver;
use signal::air::{cut, END, FIELD, PAGE};
use signal::replay::RECORD;
use signal::rng::Rng;
use signal::scenario::{all, find, SEED};
use std::fmt::Write;
use std::path::Path;
use std::sync::atomic::{AtomicUsize, Ordering::Relaxed};
use std::sync::Mutex;
use std::thread;

/// Week and second of a GST_SF.
fn of_week(time: u32) -> String {
    format!("{}/{}", time >> 20, time & 0xF_FFFF)
}

/// What the examples say of four satellites, by what the second receiver holds.
fn four(receiver: &Receiver) -> String {
    let seconds = |time: u32| u64::from(time >> 20) * 604_800 + u64::from(time & 0xF_FFFF);
    let count = |limit: u64| {
        let last = seconds(receiver.last_subframe()?.0);
        let is_recent = |prn: &u8| {
            let read = receiver.read_set(*prn, &mut [0; 69]);
            read.number == 0 && last - seconds(read.time) <= 30 * limit
        };
        Some((1..=36).filter(is_recent).count())
    };
    let yes = |limit| u8::from(!receiver.is_stopped() && count(limit) >= Some(4));
    format!("four within 10: {}, within 20: {}", yes(10), yes(20))
}

/// Blocks held and missing of each DSM ID.
type Gathering = [(u8, Option<u8>); 16];

/// What a start leaves.
const NO_BLOCKS: Gathering = [(0, None); 16];

/// Where no chain is in force.
fn gathering(receiver: &Receiver) -> Option<Gathering> {
    let waits = receiver.chain().is_none();
    waits.then(|| receiver.progress().map(|of| (of.held, of.missing)))
}

/// What the examples say of messages that have changed since what they showed.
fn changed(now: &Gathering, shown: &Gathering) -> Vec<String> {
    let line = |id: usize| match now[id] {
        (held, None) => format!("DSM {id}: {held} held, total unknown"),
        (held, Some(missing)) => format!("DSM {id}: {held} held, {missing} missing"),
    };
    let differs = |&id: &usize| now[id] != shown[id];
    (0..16).filter(differs).map(line).collect()
}

/// Both, after each whole record of a recording.
fn asked(recording: &[u8]) -> Vec<(String, Option<Gathering>)> {
    let (mut receiver, mut area) = (Receiver::new(), [0; 3240]);
    let records = recording.chunks_exact(RECORD);
    let after = |record: &[u8]| {
        answer(
            &mut receiver,
            record.try_into().expect("a record"),
            &mut area,
        );
        (four(&receiver), gathering(&receiver))
    };
    records.map(after).collect()
}

/// What the examples print.
struct Printed {
    lines: String,
    /// Of each line: what stands of four satellites behind it, if that does, and what messages are gathered then.
    asked: Vec<(String, Option<Gathering>)>,
}

/// The second receiver's answers as the examples print them, from the first accepted start on and without those of words,
/// and what it holds at the end.
fn wanted(recording: &[u8]) -> Printed {
    let mut asked = asked(recording).into_iter();
    let mut after = Vec::new();
    let mut lines = Vec::new();
    let receiver = replay(recording, &mut lines).expect("lines");
    let lines = String::from_utf8(lines).expect("text");
    let mut lines = lines.lines();
    let (mut want, mut started) = (String::new(), false);
    for record in recording.chunks_exact(RECORD) {
        let (then, begun) = (asked.next().expect("as many"), want.len());
        let line = lines.next().expect("a line");
        let (_place, answers) = line.split_once(' ').expect("a place");
        let (first, rest) = answers.split_once(' ').expect("two answers");
        started |= record[0] == 1 && first == "0";
        match record[0] {
            1 => writeln!(want, "start: {first}").unwrap(),
            4 if started => writeln!(want, "verdict: {first}").unwrap(),
            3 | 6 if started => {
                let time = u32::from_be_bytes(record[2..6].try_into().expect("4 bytes"));
                writeln!(want, "E{:02} {}: {answers}", record[1], of_week(time)).unwrap();
            }
            _ => {}
        }
        let (_second, count) = rest.split_once(' ').expect("a count");
        for _ in 0..count.parse().expect("a count") {
            writeln!(want, "{}", lines.next().expect("a tag record")).unwrap();
        }
        after.resize(after.len() + want[begun..].lines().count(), then);
    }
    if started {
        let (stopped, chain) = (receiver.is_stopped(), receiver.chain().is_some());
        writeln!(want, "stopped: {}", u8::from(stopped)).unwrap();
        writeln!(want, "chain in force: {}", u8::from(chain)).unwrap();
    }
    for prn in 1..=36 {
        let mut set = [0; 69];
        let read = receiver.read_set(prn, &mut set);
        if read.number == 0 {
            let time = of_week(read.time);
            write!(want, "E{prn:02} IODnav {} {time} ", read.iodnav).unwrap();
            set.iter()
                .for_each(|byte| write!(want, "{byte:02X}").unwrap());
            want.push('\n');
        }
    }
    Printed {
        lines: want,
        asked: after,
    }
}

/// The first difference of what an example prints; else how many half minutes it says no and yes of, and how many lines it
/// has on messages.
fn compared(got: &str, want: &Printed) -> Result<[usize; 3], String> {
    let (mut lines, mut sums) = (String::new(), [0; 3]);
    let (mut place, mut shown) = (0, NO_BLOCKS);
    let mut got = got.lines().peekable();
    while let Some(line) = got.next() {
        if !line.starts_with("four ") {
            writeln!(lines, "{line}").unwrap();
            place += 1;
            if line == "start: 0" {
                shown = NO_BLOCKS;
            }
            continue;
        }
        let (four, gathering) = want.asked.get(place - 1).ok_or("too many lines")?;
        let now = gathering.as_ref().unwrap_or(&shown);
        let told: Vec<&str> =
            std::iter::from_fn(|| got.next_if(|line| line.starts_with("DSM "))).collect();
        if four != line || told != changed(now, &shown) {
            return Err(format!("after line {place}: {line}, {told:?}"));
        }
        sums[usize::from(line.ends_with('1'))] += 1;
        sums[2] += told.len();
        shown = *now;
    }
    first_difference(&lines, &want.lines).map_or(Ok(sums), Err)
}

fn first_difference(got: &str, want: &str) -> Option<String> {
    let mut pairs = got.lines().zip(want.lines()).enumerate();
    let different = pairs.find(|(_, (got, want))| got != want);
    let place = different.map(|(at, (got, want))| format!("line {}: {got}, not {want}", at + 1));
    place.or_else(|| (got != want).then(|| format!("{} bytes, not {}", got.len(), want.len())))
}

fn in_rust(air: &[u8]) -> String {
    let mut lines = Vec::new();
    receiver::run(&mut &air[..], &mut lines).expect("lines");
    String::from_utf8(lines).expect("text")
}

/// How many records of these kinds.
fn count(air: &[u8], kinds: &[u8]) -> usize {
    let records = air.chunks_exact(RECORD);
    records.filter(|record| kinds.contains(&record[0])).count()
}

/// Runs that are as the air is: every sub-frame comes by pages, and no half minute is cut but by the verdict and the end.
const LIKE_THE_AIR: [&str; 5] = ["fitter", "full_sky", "nominal", "trees", "cmac_256"];

/// Both languages give of the air what the second receiver gives of the recording. Gives that, and what `compared` counts.
fn compare(name: &str, recording: &[u8], air: &[u8], program: &Path) -> (String, [usize; 3]) {
    let want = wanted(recording);
    let in_rust = compared(&in_rust(air), &want);
    let in_c = compared(&run(program, &[], air), &want);
    assert_eq!(in_rust, in_c, "{name}");
    let sums = in_rust.unwrap_or_else(|difference| panic!("{name}: {difference}"));
    (want.lines, sums)
}

/// How many lines are tag records that begin so.
fn tags(lines: &str, outcome: &str) -> usize {
    let tags = lines.lines().filter(|line| !line.contains(' '));
    tags.filter(|line| line.starts_with(outcome)).count()
}

/// Half minutes of the sub-frames that were answered, one after another.
fn half_minutes(lines: &str) -> usize {
    let time = |line: &str| Some(line.strip_prefix('E')?.split_once(": ")?.0[3..].to_string());
    let mut times: Vec<String> = lines.lines().filter_map(time).collect();
    times.dedup();
    times.len()
}

/// Compares a recording with itself cut; gives how many pages it has, how many sub-frames that no page can bring, and what
/// `compared` counts.
fn compare_cut(name: &str, recording: &[u8], program: &Path) -> [usize; 5] {
    let air = cut(recording);
    let (want, [no, yes, told]) = compare(name, recording, &air, program);
    let direct = count(&air, &[3, 6]);
    if LIKE_THE_AIR.contains(&name) {
        let ends = count(&air, &[END]);
        assert!(direct == 0 && ends <= 3, "{name}: {direct}, {ends}");
        assert!(tags(&want, "") > 1000);
        // Once a half minute.
        let asked = half_minutes(&want)..=half_minutes(&want) + ends + 1;
        assert!(asked.contains(&(no + yes)), "{name}: {no}, {yes}");
    }
    [count(&air, &[PAGE, FIELD]), direct, no, yes, told]
}

#[test]
fn every_run() {
    let program = build("cc", C99, "examples/receiver.c", "receiver_c99");
    let (next, sums) = (AtomicUsize::new(0), Mutex::new([0; 5]));
    let work = || {
        while let Some(scenario) = all().get(next.fetch_add(1, Relaxed)) {
            let recording = scenario.run(SEED).bytes;
            let counts = compare_cut(scenario.name, &recording, &program);
            let mut sums = sums.lock().expect("no other thread failed");
            sums.iter_mut().zip(counts).for_each(|(sum, n)| *sum += n);
        }
    };
    let threads = thread::available_parallelism().map_or(1, usize::from);
    thread::scope(|scope| {
        (0..threads).for_each(|_| {
            scope.spawn(work);
        });
    });
    let [pages, direct, no, yes, told] = sums.into_inner().expect("no thread failed");
    println!("{pages} pages, {direct} sub-frames that no page can bring");
    println!("four satellites in {yes} half minutes, not in {no}");
    println!("{told} lines on messages");
    assert!(no > 100 && yes > 100 && told > 100, "{no}, {yes}, {told}");
    assert!(
        pages > 15 * 100 * direct,
        "{pages} pages, {direct} sub-frames"
    );
}

// A chain that was dropped is not in force: recordings that end with each of their verdicts.
#[test]
fn after_each_verdict() {
    let program = build("cc", C99, "examples/receiver.c", "receiver_verdicts");
    let recording = find("chain_revoked").expect("a scenario").run(SEED).bytes;
    let kinds = recording.chunks_exact(RECORD).map(|record| record[0]);
    let verdicts = (1..).zip(kinds).filter(|&(_, kind)| kind == 4);
    for (records, _) in verdicts {
        let name = format!("{records} records");
        compare_cut(&name, &recording[..RECORD * records], &program);
    }
}

// Pages that are lost, come twice, late, in any order or at wrong times, satellites that rise or set within a half minute,
// and a receiver that is turned on in the middle of one. Tags are judged all the same, of each outcome that losses bring.
#[test]
fn disturbed_air() {
    let program = build("cc", C99, "examples/receiver.c", "receiver_disturbed");
    let (mut outcomes, mut sums) = ([0; 9], [0; 3]);
    for name in ["fitter", "trees", "week_change", "cmac_256"] {
        let air = cut(&find(name).expect("a scenario").run(SEED).bytes);
        for seed in 0..6 {
            let air = disturbed(&air, &mut Rng::new(seed));
            let name = format!("{name}, disturbed by {seed}");
            let (want, asked) = compare(&name, &heard(&air), &air, &program);
            sums.iter_mut().zip(asked).for_each(|(sum, n)| *sum += n);
            for (outcome, sum) in outcomes.iter_mut().enumerate() {
                *sum += tags(&want, &format!("{outcome:02X}"));
            }
        }
    }
    println!("outcomes: {outcomes:?}");
    let [no, yes, _] = sums;
    println!("four satellites in {yes} half minutes, not in {no}");
    assert!(no > 100 && yes > 100, "{no}, {yes}");
    for outcome in [1, 2, 3, 5, 8] {
        assert!(outcomes[outcome] > 100, "{outcomes:?}");
    }
}

#[test]
fn in_cpp() {
    let recording = find("fitter").expect("a scenario").run(SEED).bytes;
    let (want, air) = (wanted(&recording), cut(&recording));
    for compiler in cpp_compilers() {
        let name = format!("receiver_{compiler}");
        let program = build(compiler, CPP17, "examples/receiver.c", &name);
        let got = run(&program, &[], &air);
        assert_eq!(compared(&got, &want).err(), None, "{compiler}");
    }
}

/// How many tags are authentic where the records of each half minute are lent in the order of a key.
fn authentic(recording: &[u8], key: fn(&[u8]) -> (u8, u8)) -> usize {
    let records: Vec<&[u8]> = recording.chunks_exact(RECORD).collect();
    // A start or verdict is a half minute of its own.
    let half_minute = |r: &&[u8]| match r[0] {
        2 | 3 => Some(r[2..6].to_vec()),
        _ => None,
    };
    let together =
        |a: &&[u8], b: &&[u8]| half_minute(a).is_some() && half_minute(a) == half_minute(b);
    let mut lent = Vec::new();
    for chunk in records.chunk_by(together) {
        let mut chunk = chunk.to_vec();
        chunk.sort_by_key(|r| key(r));
        lent.extend(chunk.concat());
    }
    let mut lines = Vec::new();
    replay(&lent[..], &mut lines).expect("lines");
    tags(&String::from_utf8(lines).expect("text"), "01")
}

// What docs/INTEGRATION.md says of the order: fields before words; satellite by satellite; words before fields.
#[test]
fn order_of_a_half_minute() {
    const WORD: u8 = 2;
    let recording = find("fitter").expect("a scenario").run(SEED).bytes;
    let fields_first = authentic(&recording, |r| (u8::from(r[0] == WORD), r[1]));
    let by_satellite = authentic(&recording, |r| (r[1], u8::from(r[0] == WORD)));
    let words_first = authentic(&recording, |r| (u8::from(r[0] != WORD), r[1]));
    assert_eq!([fields_first, by_satellite, words_first], [5_050, 3_109, 0]);
}
