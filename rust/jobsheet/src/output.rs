//! Where a sheet goes: standard output, a device or pipe as it is, or a file that is whole or not
//! there.

use std::fs::{self, File, OpenOptions};
use std::io::{self, Write};
use std::path::{Path, PathBuf};

/// Links that are followed, as many as Linux follows.
const LINKS: usize = 40;

/// A sheet on its way out.
pub enum Output {
    /// To standard output.
    Standard(io::Stdout),
    /// Into a device or a pipe, which stays what it is.
    Device(File),
    /// Into a temporary file beside the one named.
    Beside(Part),
}

/// A temporary file that becomes the file beside it, or goes.
pub struct Part {
    file: File,
    path: PathBuf,
    target: PathBuf,
}

impl Drop for Part {
    fn drop(&mut self) {
        // After a rename there is none.
        let _ = fs::remove_file(&self.path);
    }
}

/// The file that a path leads to, through links that lead to none yet, too.
fn followed(path: &Path) -> io::Result<PathBuf> {
    let mut path = path.to_path_buf();
    for _ in 0..LINKS {
        let Ok(link) = fs::read_link(&path) else {
            return Ok(path);
        };
        // A link is read from its own folder; one from the top is taken as it is.
        path = path.parent().unwrap_or(Path::new("")).join(link);
    }
    Err(io::Error::other("too many links"))
}

/// A new file beside `target`, under a name that no other has.
fn beside(target: &Path) -> io::Result<Part> {
    let name = target
        .file_name()
        .ok_or_else(|| io::Error::other("this names no file"))?;
    for n in 0..100 {
        let mut other = name.to_os_string();
        other.push(format!(".{}-{n}.part", std::process::id()));
        let path = target.with_file_name(other);
        match OpenOptions::new().write(true).create_new(true).open(&path) {
            Ok(file) => {
                return Ok(Part {
                    file,
                    path,
                    target: target.into(),
                })
            }
            Err(error) if error.kind() == io::ErrorKind::AlreadyExists => {}
            Err(error) => return Err(error),
        }
    }
    Err(io::Error::other("no free name for a temporary file"))
}

impl Output {
    /// To a path. Links are followed. A device or pipe is written into; a file is made by way of a
    /// temporary one beside it, with the mode of the one that it replaces.
    ///
    /// # Errors
    /// Those of the file system.
    pub fn to(path: &Path) -> io::Result<Output> {
        let known = fs::metadata(path).ok();
        match &known {
            Some(known) if known.is_dir() => return Err(io::Error::other("this is a folder")),
            Some(known) if !known.is_file() => {
                return Ok(Output::Device(OpenOptions::new().write(true).open(path)?))
            }
            _ => {}
        }
        let part = beside(&followed(path)?)?;
        if let Some(known) = known {
            part.file.set_permissions(known.permissions())?;
        }
        Ok(Output::Beside(part))
    }

    /// To standard output.
    pub fn standard() -> Output {
        Output::Standard(io::stdout())
    }

    /// The end: what was written stays. Without it a file is as it was before.
    ///
    /// # Errors
    /// Those of the file system.
    pub fn finish(mut self) -> io::Result<()> {
        self.flush()?;
        match self {
            Output::Beside(part) => {
                part.file.sync_all()?;
                fs::rename(&part.path, &part.target)
            }
            Output::Standard(_) | Output::Device(_) => Ok(()),
        }
    }

    /// Writes all of a sheet.
    ///
    /// # Errors
    /// Those of the file system.
    pub fn write_whole(mut self, text: &str) -> io::Result<()> {
        self.write_all(text.as_bytes())?;
        self.finish()
    }

    fn inner(&mut self) -> &mut dyn Write {
        match self {
            Output::Standard(out) => out,
            Output::Device(file) => file,
            Output::Beside(part) => &mut part.file,
        }
    }
}

impl Write for Output {
    fn write(&mut self, bytes: &[u8]) -> io::Result<usize> {
        self.inner().write(bytes)
    }

    fn flush(&mut self) -> io::Result<()> {
        self.inner().flush()
    }
}
