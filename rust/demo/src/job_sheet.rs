//! The job sheet of the fitter's half hour: a page beside the build, and its strips as text.

use jobsheet::sheet::Sheet;
use jobsheet::{html, text, Output};
use std::path::Path;

/// Where the page goes: from the top of the repository, a folder that git leaves alone.
const PAGE: &str = "rust/target/job_sheet.html";

/// Writes the sheet of a recording and gives its text without the bytes, or says why not.
pub fn written(recording: &[u8]) -> Result<Vec<String>, String> {
    let history = jobsheet::replay(recording, |_| ()).map_err(|e| format!("the recording {e}"))?;
    let sheet = Sheet::of("the fitter's half hour", &history, None);
    Output::to(Path::new(PAGE))
        .and_then(|output| output.write_whole(&html::page(&sheet)))
        .map_err(|e| format!("{PAGE}: {e}"))?;
    let mut lines: Vec<String> = text::summary(&sheet).lines().map(Into::into).collect();
    lines.push(String::new());
    lines.push(format!("With the marked bytes, to open and print: {PAGE}"));
    Ok(lines)
}
