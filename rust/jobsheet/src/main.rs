//! `jobsheet RECORDING [-o FILE] [--text | --csv] [--zone ZONE]`: the job sheet of a recording.

#![forbid(unsafe_code)]

use jobsheet::csv::Rows;
use jobsheet::history::History;
use jobsheet::sheet::Sheet;
use jobsheet::time::Zone;
use jobsheet::{html, replay, text, Output};
use std::ffi::OsString;
use std::fmt::Display;
use std::fs::File;
use std::io::{self, BufReader, BufWriter, Write};
use std::path::{Path, PathBuf};
use std::process::ExitCode;
use std::time::{Duration, Instant};

const USAGE: &str = "\
Usage: jobsheet RECORDING [-o FILE] [--text | --csv] [--zone ZONE]

Shows which data of which satellite was authentic when, and what each mark rests on.
RECORDING has the 256-byte records of the replay program.

  (neither)     one page of HTML, to RECORDING with the ending .html
  --text        the same as text, to standard output
  --csv         every tag record, to standard output
  -o FILE       to this file instead; - is standard output. Links are followed, a device
                or pipe is written into; a file is whole or as before, and keeps its mode
  --zone ZONE   times of the sheet in local time: UTC, +2, +02:00, -0330. Without it they
                are Galileo System Time (GST), which is UTC + 18 s

Exit status: 0 the sheet is written; 1 it could not be written; 2 bad input or usage,
nothing is written; 3 it is written, of a recording that is cut short.

Memory: at most 160 MB, however long the recording is. Eight hours of a start are shown
half minute by half minute, longer ones in cells of several half minutes; of many starts
the last have a part (64, or eight such days).
";

/// The sheet could not be written.
const NOT_WRITTEN: u8 = 1;
/// Bad input or usage.
const BAD_INPUT: u8 = 2;
/// The sheet is of a recording that is cut short.
const CUT_SHORT: u8 = 3;

#[derive(Clone, Copy, PartialEq, Eq)]
enum Form {
    Html,
    Text,
    Csv,
}

struct Options {
    recording: PathBuf,
    form: Form,
    /// None is standard output.
    output: Option<PathBuf>,
    zone: Option<Zone>,
}

/// What went wrong, with the exit status.
struct Failure(u8, String);

fn bad(text: impl Into<String>) -> Failure {
    Failure(BAD_INPUT, text.into())
}

fn options(args: impl Iterator<Item = OsString>) -> Result<Options, Failure> {
    let (mut recording, mut form, mut output, mut zone) = (None, None, None, None);
    let mut args = args;
    while let Some(arg) = args.next() {
        let again = match arg.to_str() {
            Some("-o") => {
                let file = args.next().ok_or_else(|| bad("-o needs a file"))?;
                output.replace(PathBuf::from(file)).is_some()
            }
            Some("--zone") => {
                let text = args.next().unwrap_or_default();
                let given = text.to_str().and_then(|text| text.parse().ok());
                let needed = "--zone needs a zone: UTC, +2, +02:00, -0330";
                zone.replace(given.ok_or_else(|| bad(needed))?).is_some()
            }
            Some("--text") => form.replace(Form::Text).is_some(),
            Some("--csv") => form.replace(Form::Csv).is_some(),
            Some(other) if other.starts_with('-') => {
                return Err(bad(format!("no option {other}\n{USAGE}")))
            }
            _ => recording.replace(PathBuf::from(arg)).is_some(),
        };
        if again {
            return Err(bad(format!(
                "one recording, one form, one output, one zone\n{USAGE}"
            )));
        }
    }
    let recording = recording.ok_or_else(|| bad(USAGE))?;
    let form = form.unwrap_or(Form::Html);
    let output = match output {
        Some(file) => (file != Path::new("-")).then_some(file),
        None => (form == Form::Html).then(|| recording.with_extension("html")),
    };
    Ok(Options {
        recording,
        form,
        output,
        zone,
    })
}

/// To standard error; nobody can be told where that is closed.
fn tell(text: impl Display) {
    let _ = writeln!(io::stderr(), "jobsheet: {text}");
}

/// Tells the records so far once a second, from the second second on; of how many, where that is
/// known.
fn progress(total: u64) -> impl FnMut(&History) {
    let mut next = Instant::now() + Duration::from_secs(2);
    let of = match total {
        0 => String::new(),
        total => format!(" of {total}"),
    };
    move |history| {
        let records = history.records;
        if records.is_multiple_of(1_024) && Instant::now() >= next {
            tell(format!("{records}{of} records"));
            next = Instant::now() + Duration::from_secs(1);
        }
    }
}

impl Options {
    /// Reads the recording; `each` is shown what is known after every record.
    fn read(&self, mut each: impl FnMut(&History)) -> Result<History, Failure> {
        let path = self.recording.display();
        let trouble = |what: &dyn Display| bad(format!("{path} {what}"));
        let unreadable = |error| trouble(&format!("cannot be read: {error}"));
        let file = File::open(&self.recording).map_err(unreadable)?;
        let mut progress = progress(file.metadata().map_err(unreadable)?.len() / 256);
        let input = BufReader::with_capacity(1 << 18, file);
        let history = replay(input, |history| {
            progress(history);
            each(history);
        });
        history.map_err(|error| trouble(&error))
    }

    fn open(&self) -> Result<Output, Failure> {
        match &self.output {
            None => Ok(Output::standard()),
            Some(path) => Output::to(path).map_err(|error| self.not_written(error)),
        }
    }

    fn not_written(&self, error: io::Error) -> Failure {
        let what = match &self.output {
            None => "standard output".into(),
            Some(path) => path.display().to_string(),
        };
        Failure(NOT_WRITTEN, format!("{what} cannot be written: {error}"))
    }

    /// Writes the tag records as they come.
    fn rows(&self) -> Result<History, Failure> {
        let mut rows = Rows::new(BufWriter::new(self.open()?));
        let history = self.read(|history| rows.note(history))?;
        let output = rows.finish().and_then(|rows| Ok(rows.into_inner()?));
        let written = output.and_then(Output::finish);
        written.map_err(|error| self.not_written(error))?;
        Ok(history)
    }

    /// Writes the page or the text.
    fn sheet(&self) -> Result<History, Failure> {
        let history = self.read(|_| ())?;
        let name = self.recording.file_name().unwrap_or_default();
        let sheet = Sheet::of(&name.to_string_lossy(), &history, self.zone);
        let text = match self.form {
            Form::Text => text::sheet(&sheet),
            _ => html::page(&sheet),
        };
        let written = self.open()?.write_whole(&text);
        written.map_err(|error| self.not_written(error))?;
        Ok(history)
    }
}

/// Whether the two name the same file.
fn same(a: &Path, b: &Path) -> bool {
    matches!((a.canonicalize(), b.canonicalize()), (Ok(a), Ok(b)) if a == b)
}

fn run() -> Result<u8, Failure> {
    let args: Vec<OsString> = std::env::args_os().skip(1).collect();
    if args.iter().any(|arg| arg == "--help" || arg == "-h") {
        let written = Output::standard().write_whole(USAGE);
        let failure = |error| Failure(NOT_WRITTEN, format!("standard output: {error}"));
        return written.map(|()| 0).map_err(failure);
    }
    let options = options(args.into_iter())?;
    let replaces = |output: &PathBuf| same(output, &options.recording);
    if options.output.as_ref().is_some_and(replaces) {
        return Err(bad(
            "the sheet would replace the recording; name another file with -o",
        ));
    }
    let history = match options.form {
        Form::Csv => options.rows(),
        Form::Html | Form::Text => options.sheet(),
    }?;
    if let Some(path) = &options.output {
        tell(format!("{} is written", path.display()));
    }
    Ok(match history.cut {
        None => 0,
        Some(cut) => {
            tell(format!(
                "{} is CUT SHORT in record {}: only the records before it are shown",
                options.recording.display(),
                cut.place
            ));
            CUT_SHORT
        }
    })
}

fn main() -> ExitCode {
    match run() {
        Ok(status) => ExitCode::from(status),
        Err(Failure(status, text)) => {
            tell(text);
            ExitCode::from(status)
        }
    }
}
