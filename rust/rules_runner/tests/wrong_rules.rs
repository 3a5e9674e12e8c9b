//! Wrong rules of which neither the claim nor a table of 01 says that they are wrong: each is noticed where the definitions
//! are run beside the second receiver, on the run that its file names.

mod common;

use common::{beside_second, crates};
use rules_runner::machine::with_large_stack;
use rules_runner::program::Hashes;
use rules_runner::rules::Rules;
use signal::scenario;
use std::fs;
use std::path::{Path, PathBuf};
use std::thread;

/// The crates whose definitions are run.
const DEFINED: [&str; 7] = ["aes", "cmac", "hmac", "laws", "rules", "sha256", "sha3"];

/// A definition changed, and a run on which that shows: a recorded one or one of the bench signal.
struct WrongRule {
    name: String,
    file: String,
    old: String,
    new: String,
    run: String,
}

/// Gone with its value. It stands outside the repository, where every file of definitions must be a crate's.
struct Folder(PathBuf);

impl Drop for Folder {
    fn drop(&mut self) {
        fs::remove_dir_all(&self.0).unwrap();
    }
}

fn here() -> &'static Path {
    Path::new(env!("CARGO_MANIFEST_DIR"))
}

impl WrongRule {
    fn read(path: &Path) -> WrongRule {
        let text = fs::read_to_string(path).unwrap();
        let part = |name: &str| {
            let mut lines = text.lines().filter_map(|line| line.strip_prefix(name));
            let (Some(part), None) = (lines.next(), lines.next()) else {
                panic!("{}: not one '{name}'", path.display());
            };
            part.to_string()
        };
        WrongRule {
            name: path.file_stem().unwrap().to_string_lossy().into_owned(),
            file: part("file: "),
            old: part("old: "),
            new: part("new: "),
            run: part("run: "),
        }
    }

    /// A folder of crates with this rule.
    fn crates(&self) -> Folder {
        let name = format!("wrong_rules_{}_{}", std::process::id(), self.name);
        let folder = std::env::temp_dir().join(name);
        for name in DEFINED {
            let to = folder.join(name).join("specs");
            fs::create_dir_all(&to).unwrap();
            for entry in fs::read_dir(crates().join(name).join("specs")).unwrap() {
                let from = entry.unwrap().path();
                fs::copy(&from, to.join(from.file_name().unwrap())).unwrap();
            }
        }
        let path = folder.join(&self.file);
        let text = fs::read_to_string(&path).unwrap();
        assert_eq!(text.matches(&self.old).count(), 1, "{}", self.name);
        fs::write(path, text.replace(&self.old, &self.new)).unwrap();
        Folder(folder)
    }

    fn input(&self) -> Vec<u8> {
        let cases = here().join("../second_receiver/tests/cases");
        let recorded = cases.join(&self.run).with_extension("in");
        if recorded.exists() {
            return fs::read(recorded).unwrap();
        }
        let scenario = scenario::find(&self.run);
        let scenario = scenario.unwrap_or_else(|| panic!("{}: no run {}", self.name, self.run));
        scenario.run(scenario::SEED).bytes
    }

    fn is_noticed(&self) -> bool {
        let (folder, input) = (self.crates(), self.input());
        let rules = Rules::load(&folder.0, Hashes::Portable);
        let rules = rules.unwrap_or_else(|error| panic!("{}: {error}", self.name));
        beside_second(&rules, &input).is_some()
    }
}

#[test]
fn each_is_noticed() {
    let files = fs::read_dir(here().join("tests/wrong_rules")).unwrap();
    let rules: Vec<WrongRule> = files
        .map(|entry| WrongRule::read(&entry.unwrap().path()))
        .collect();
    assert!(rules.len() > 40, "{} wrong rules", rules.len());
    let unnoticed = |rules: &[WrongRule]| {
        let unnoticed = rules.iter().filter(|rule| !rule.is_noticed());
        unnoticed.map(|rule| rule.name.clone()).collect()
    };
    let (some, others) = rules.split_at(rules.len() / 2);
    let (some, others): (Vec<String>, Vec<String>) = thread::scope(|scope| {
        let some = scope.spawn(|| with_large_stack(|| unnoticed(some)));
        let others = with_large_stack(|| unnoticed(others));
        (some.join().unwrap(), others)
    });
    assert_eq!([some, others].concat(), Vec::<String>::new(), "unnoticed");
}
