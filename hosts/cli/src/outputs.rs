//! Where bytes go to: files and standard output.

use crate::failure::Failure;
use crate::inputs::Input;
use multisize::{netpbm, png, Picture};
use std::ffi::{OsStr, OsString};
use std::fs::{self, File};
use std::io::{self, Write};
use std::os::unix::fs::MetadataExt;
use std::path::{Path, PathBuf};
use std::process;

/// Endings of what a picture is written as, and of what isn't written.
const PICTURES: [&str; 4] = ["png", "ppm", "pgm", "pnm"];
const OTHERS: [&str; 17] = [
    "jpg", "jpeg", "gif", "webp", "bmp", "tif", "tiff", "heic", "heif", "avif", "jxl", "svg",
    "pdf", "ico", "pbm", "pam", "xpm",
];
const TEXTS: [&str; 3] = ["multi", "csv", "json"];

/// A file to write, or `-` for standard output.
pub struct Output(pub OsString);

impl Output {
    pub fn is_standard(&self) -> bool {
        self.0 == "-"
    }

    /// Whether the name ends so, after a point.
    fn ends(&self, ending: &str) -> bool {
        let name = self.0.to_ascii_lowercase();
        let point = format!(".{ending}");
        name.as_encoded_bytes().ends_with(point.as_bytes())
    }

    /// The place of a picture, whose name promises none that isn't written.
    pub fn of_picture(self) -> Result<Output, Failure> {
        if OTHERS.iter().chain(&TEXTS).any(|ending| self.ends(ending)) {
            let name = self.0.to_string_lossy();
            let written = ".png is written as PNG, .ppm, .pgm and .pnm as Netpbm";
            let text = format!("a picture can't be named {name}: {written}");
            return Err(Failure::Usage(text));
        }
        Ok(self)
    }

    /// The place of a text, whose name doesn't promise a picture.
    pub fn of_text(self, what: &str) -> Result<Output, Failure> {
        if OTHERS
            .iter()
            .chain(&PICTURES)
            .any(|ending| self.ends(ending))
        {
            let name = self.0.to_string_lossy();
            let text = format!("{what} isn't a picture and can't be named {name}");
            return Err(Failure::Usage(text));
        }
        Ok(self)
    }

    /// Judges that it isn't a file that is read, by whatever name.
    pub fn apart_from(&self, input: &Input) -> Result<(), Failure> {
        if self.is_standard() || input.is_standard() {
            return Ok(());
        }
        let file = |name: &OsStr| fs::metadata(name).ok().filter(|file| file.is_file());
        let place = |file: fs::Metadata| (file.dev(), file.ino());
        let (own, other) = (file(&self.0).map(place), file(&input.0).map(place));
        if own.is_some() && own == other {
            let name = self.0.to_string_lossy();
            let text = format!("{name} is read and can't be written too");
            return Err(Failure::Usage(text));
        }
        Ok(())
    }

    /// Writes the bytes, to a file whole or not at all.
    pub fn write(&self, bytes: &[u8]) -> Result<(), Failure> {
        if self.is_standard() {
            return print(bytes);
        }
        let name = self.0.to_string_lossy().into_owned();
        write_whole(Path::new(&self.0), bytes).map_err(|error| Failure::File { name, error })
    }

    /// Writes a picture: PNG where the name ends in `.png`, otherwise Netpbm.
    pub fn picture(&self, picture: &Picture) -> Result<(), Failure> {
        if self.ends("png") {
            return self.write(&png::write(picture));
        }
        self.write(&netpbm::write(picture))
    }
}

/// Writes to standard output.
pub fn print(bytes: &[u8]) -> Result<(), Failure> {
    let mut out = io::stdout().lock();
    let written = out.write_all(bytes).and_then(|()| out.flush());
    let name = "standard output".to_string();
    written.map_err(|error| Failure::File { name, error })
}

/// Writes a temporary file beside the file and renames it. A link is followed, so that
/// it stays one; a device or a pipe is written as it is.
fn write_whole(path: &Path, bytes: &[u8]) -> io::Result<()> {
    let before = match fs::metadata(path) {
        Ok(before) if !before.is_file() => return fs::write(path, bytes),
        Ok(before) => Some(before),
        Err(error) if error.kind() == io::ErrorKind::NotFound => None,
        Err(error) => return Err(error),
    };
    let path = match before {
        Some(_) => fs::canonicalize(path)?,
        None => followed(path)?,
    };
    let (temporary, file) = beside(&path)?;
    let written = fill(file, bytes, before).and_then(|()| fs::rename(&temporary, &path));
    if written.is_err() {
        // The first error is the one to tell.
        let _ = fs::remove_file(&temporary);
    }
    written
}

/// Where a name leads that leads to no file yet: over links to the last name.
fn followed(path: &Path) -> io::Result<PathBuf> {
    let mut place = path.to_path_buf();
    for _ in 0..40 {
        let Ok(to) = fs::read_link(&place) else {
            return Ok(place);
        };
        place = place.parent().unwrap_or(Path::new("")).join(to);
    }
    Err(io::Error::other("too many links"))
}

/// Fills the new file, with the permissions of the file that it replaces.
fn fill(mut file: File, bytes: &[u8], before: Option<fs::Metadata>) -> io::Result<()> {
    file.write_all(bytes)?;
    if let Some(before) = before {
        file.set_permissions(before.permissions())?;
    }
    file.sync_all()
}

/// A new temporary file in the same folder. A run that was killed leaves one behind,
/// and another process may have the same number: then a further name is taken.
fn beside(path: &Path) -> io::Result<(PathBuf, File)> {
    let names = (0..1000).map(|at| format!(".multisize-{}-{at}.tmp", process::id()));
    for name in names {
        let temporary = path.with_file_name(name);
        match File::create_new(&temporary) {
            Err(error) if error.kind() == io::ErrorKind::AlreadyExists => continue,
            made => return made.map(|file| (temporary, file)),
        }
    }
    Err(io::Error::other(
        "there are too many files .multisize-*.tmp beside it",
    ))
}
