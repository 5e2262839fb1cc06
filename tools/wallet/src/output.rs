//! Where output goes: to standard output, or to a file, which is written whole or
//! not at all.

use std::fs::{self, File, OpenOptions};
use std::io::{self, ErrorKind, Write};
use std::os::unix::fs::MetadataExt;
use std::path::{Path, PathBuf};
use std::process;

use crate::arguments::Source;
use crate::closed;
use crate::commands::Pieces;
use crate::failure::{Failure, Wrong};

/// The most symbolic links that lead from one to the next.
const MOST_LINKS: usize = 40;

/// Writes pieces to a file or to standard output, and tells whether the checker
/// has refused what they are about.
pub fn write(pieces: Pieces, output: Option<&Path>) -> Result<bool, Failure> {
    let Some(path) = output else {
        return to_standard_output(pieces);
    };
    let done = match is_replaceable(path) {
        true => to_file(pieces, &followed(path)),
        // A device or a pipe takes what comes.
        false => to_open_file(pieces, OpenOptions::new().append(true).open(path)),
    };
    done.map_err(|error| Wrong::of(&Source::File(path.to_path_buf()), error).into())
}

/// That an output is none of the files that are read.
pub fn spares(output: &Path, sources: &[Source]) -> Result<(), Failure> {
    let same = |source: &Source| match source {
        Source::File(path) => is_same(path, output),
        Source::Standard => is_same(Path::new("/dev/stdin"), output),
    };
    if sources.iter().any(same) {
        let message = "the output would overwrite what is read; name another file";
        return Err(Wrong::of(&Source::File(output.to_path_buf()), message).into());
    }
    Ok(())
}

/// Whether two paths lead to the same ordinary file.
fn is_same(one: &Path, other: &Path) -> bool {
    match (fs::metadata(one), fs::metadata(other)) {
        (Ok(one), Ok(other)) => {
            one.is_file() && (one.dev(), one.ino()) == (other.dev(), other.ino())
        }
        _ => false,
    }
}

fn to_standard_output(pieces: Pieces) -> Result<bool, Failure> {
    let wrong = |message: String| {
        let file = Some("standard output".to_string());
        Failure::Wrong(Wrong {
            file,
            ..Wrong::new(message)
        })
    };
    if closed::is_closed() {
        return Err(wrong("it is closed".to_string()));
    }
    written(pieces, &mut io::stdout().lock()).map_err(|error| match error.kind() {
        ErrorKind::BrokenPipe => Failure::Unread,
        _ => wrong(error.to_string()),
    })
}

/// Whether an output is put into the place of a file, or of none. What lies below
/// `/dev` and `/proc` may stand for a file that is open.
fn is_replaceable(path: &Path) -> bool {
    let special = path.starts_with("/dev") || path.starts_with("/proc");
    !special && fs::metadata(path).map_or(true, |there| there.is_file())
}

/// The path to which symbolic links lead.
fn followed(path: &Path) -> PathBuf {
    let mut path = path.to_path_buf();
    for _ in 0..MOST_LINKS {
        let Ok(link) = fs::read_link(&path) else {
            break;
        };
        path = path.parent().unwrap_or(Path::new("")).join(link);
    }
    path
}

/// Writes to a new file beside the one that is meant, and puts it in its place
/// when all is written.
fn to_file(pieces: Pieces, path: &Path) -> io::Result<bool> {
    let permissions = match fs::metadata(path) {
        Ok(there) => {
            // A file that may not be written is not replaced either.
            OpenOptions::new().write(true).open(path)?;
            Some(there.permissions())
        }
        Err(_) => None,
    };
    let part = path.with_file_name(format!(".wallet-{}.part", process::id()));
    let done = to_open_file(pieces, File::create_new(&part)).and_then(|refused| {
        if let Some(permissions) = permissions {
            fs::set_permissions(&part, permissions)?;
        }
        fs::rename(&part, path)?;
        Ok(refused)
    });
    if done.is_err() {
        let _ = fs::remove_file(&part);
    }
    done
}

fn to_open_file(pieces: Pieces, file: io::Result<File>) -> io::Result<bool> {
    written(pieces, &mut file?)
}

/// Writes pieces as they are made, up to the first that cannot be written; tells
/// whether the checker has refused what they are about.
fn written(pieces: Pieces, out: &mut impl Write) -> io::Result<bool> {
    let mut refused = false;
    for piece in pieces {
        refused |= piece.refused;
        out.write_all(&piece.bytes)?;
    }
    out.flush()?;
    Ok(refused)
}
