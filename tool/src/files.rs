//! Files read up to a limit, and files written whole or not at all.

use std::ffi::OsStr;
use std::fs::{self, File, OpenOptions};
use std::io::{Error, ErrorKind, Read, Result, Write};
use std::path::{Path, PathBuf};

use crate::limits;

/// What stands for standard input or standard output.
pub const STANDARD: &str = "-";

/// Reads a constraint or data text, one byte past the limit at most.
///
/// A text over the limit is refused with 1 whatever it holds, and so are its first 16,385 bytes.
pub fn read_text(name: &OsStr) -> Result<Vec<u8>> {
    read(name, limits::TEXT + 1)
}

/// Reads a table, one byte past the longest at most.
///
/// A table is exactly as long as its header says, at most 65,536 bytes. So a longer file is refused
/// with 12 whatever it holds, and so are its first 65,537 bytes.
pub fn read_table(name: &OsStr) -> Result<Vec<u8>> {
    read(name, limits::TABLE + 1)
}

/// Reads a file or standard input up to its end, or up to so many bytes.
fn read(name: &OsStr, most: usize) -> Result<Vec<u8>> {
    let mut bytes = Vec::new();
    if name == STANDARD {
        std::io::stdin().lock().take(most as u64).read_to_end(&mut bytes)?;
    } else {
        File::open(name)?.take(most as u64).read_to_end(&mut bytes)?;
    }
    Ok(bytes)
}

/// Writes a file whole or not at all, or to standard output.
pub fn write(name: &OsStr, bytes: &[u8]) -> Result<()> {
    if name == STANDARD {
        return write_standard(bytes);
    }
    let target = Path::new(name);
    match fs::metadata(target) {
        Ok(old) if old.is_dir() => Err(Error::from(ErrorKind::IsADirectory)),
        Ok(old) if old.is_file() => {
            // a file that may not be written is not replaced either
            OpenOptions::new().write(true).open(target)?;
            // through a link, the file that it leads to is replaced, and the link stays
            replace(&fs::canonicalize(target)?, bytes, Some(old.permissions()))
        }
        Ok(_) => write_through(target, bytes),
        Err(error) if error.kind() == ErrorKind::NotFound && !is_link(target) => replace(target, bytes, None),
        Err(error) => Err(error),
    }
}

/// Writes bytes to standard output and sees that they are taken.
pub fn write_standard(bytes: &[u8]) -> Result<()> {
    let mut out = std::io::stdout().lock();
    out.write_all(bytes)?;
    out.flush()
}

/// Whether a name is a link, though it may lead nowhere.
fn is_link(name: &Path) -> bool {
    fs::symlink_metadata(name).is_ok_and(|found| found.is_symlink())
}

/// Writes into a device or a pipe: there is nothing to replace.
fn write_through(target: &Path, bytes: &[u8]) -> Result<()> {
    OpenOptions::new().write(true).open(target)?.write_all(bytes)
}

/// Puts a new file in a target's place, written beside it first.
fn replace(target: &Path, bytes: &[u8], permissions: Option<fs::Permissions>) -> Result<()> {
    let (beside, file) = create_beside(target)?;
    let placed = fill(file, bytes, permissions).and_then(|()| fs::rename(&beside, target));
    if placed.is_err() {
        let _ = fs::remove_file(&beside);
    }
    placed
}

/// Writes a new file and sees it on the disk.
fn fill(mut file: File, bytes: &[u8], permissions: Option<fs::Permissions>) -> Result<()> {
    file.write_all(bytes)?;
    if let Some(permissions) = permissions {
        file.set_permissions(permissions)?;
    }
    file.sync_all()
}

/// Creates a file that wasn't there, in the target's folder.
fn create_beside(target: &Path) -> Result<(PathBuf, File)> {
    if target.file_name().is_none() {
        return Err(Error::from(ErrorKind::NotFound));
    }
    let mut count = 0u32;
    loop {
        let beside = target.with_file_name(format!(".dubrakosh.{}.{count}", std::process::id()));
        match OpenOptions::new().write(true).create_new(true).open(&beside) {
            Ok(file) => return Ok((beside, file)),
            Err(error) if error.kind() == ErrorKind::AlreadyExists && count < 100 => count += 1,
            Err(error) => return Err(error),
        }
    }
}

/// Why a file couldn't be read or written, in words.
pub fn reason(error: &Error) -> String {
    match error.kind() {
        ErrorKind::NotFound => "no such file or directory".to_string(),
        ErrorKind::PermissionDenied => "no permission".to_string(),
        ErrorKind::IsADirectory => "is a directory".to_string(),
        ErrorKind::NotADirectory => "not a directory".to_string(),
        _ => error.to_string(),
    }
}

#[cfg(test)]
mod tests {
    use super::*;

    #[test]
    fn common_reasons_are_plain_words() {
        assert_eq!(reason(&Error::from(ErrorKind::NotFound)), "no such file or directory");
        assert_eq!(reason(&Error::from(ErrorKind::PermissionDenied)), "no permission");
        assert_eq!(reason(&Error::from(ErrorKind::IsADirectory)), "is a directory");
    }
}
