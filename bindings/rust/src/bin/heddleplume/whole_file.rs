//! A file that is written whole or not at all: a new file beside it, which then takes its name.
use std::fs::{self, File, OpenOptions, Permissions};
use std::io::{self, ErrorKind, Write};
use std::path::{Path, PathBuf};
use std::process;

/// Makes these bytes the file of this name. Where that fails, what stood there stands there still, and the new file is gone.
pub fn write(path: &Path, bytes: &[u8]) -> io::Result<()> {
    let old = fs::metadata(path).ok();
    // A folder, a device or a pipe would be replaced too.
    if old.as_ref().is_some_and(|old| !old.is_file()) {
        return Err(io::Error::other("it is no plain file"));
    }
    // A link stays: the file that it leads to is the one that is written.
    let path = if old.is_some() { fs::canonicalize(path)? } else { path.into() };
    let (beside, file) = created(&path)?;
    let written = filled(file, bytes, old.map(|old| old.permissions())).and_then(|()| fs::rename(&beside, &path));
    if written.is_err() {
        // Why the file was not written is told; this only tidies up.
        let _ = fs::remove_file(&beside);
    }
    written
}

/// A new file beside `path`, of a name that no other has, not even one that an earlier run left behind.
fn created(path: &Path) -> io::Result<(PathBuf, File)> {
    let mut number = 0u64;
    loop {
        let mut name = path.as_os_str().to_owned();
        name.push(format!(".new-{}-{number}", process::id()));
        match OpenOptions::new().write(true).create_new(true).open(&name) {
            Err(error) if error.kind() == ErrorKind::AlreadyExists => number += 1,
            opened => return opened.map(|file| (name.into(), file)),
        }
    }
}

/// Fills the new file, and waits until the disk has it: a name given before that could lead to an empty file after a power cut.
fn filled(mut file: File, bytes: &[u8], permissions: Option<Permissions>) -> io::Result<()> {
    file.write_all(bytes)?;
    if let Some(permissions) = permissions {
        file.set_permissions(permissions)?;
    }
    file.sync_all()
}

#[cfg(test)]
mod tests {
    use super::*;

    #[test]
    fn what_an_earlier_run_left_behind_stays() {
        let folder = std::env::temp_dir().join(format!("heddleplume-whole-file-{}", process::id()));
        fs::create_dir_all(&folder).unwrap();
        let (path, left) = (folder.join("north"), folder.join(format!("north.new-{}-0", process::id())));
        fs::write(&left, b"half").unwrap();
        for bytes in [&b"one"[..], b"other"] {
            write(&path, bytes).unwrap();
            assert_eq!((fs::read(&path).unwrap(), fs::read(&left).unwrap()), (bytes.to_vec(), b"half".to_vec()));
            assert_eq!(fs::read_dir(&folder).unwrap().count(), 2);
        }
        fs::remove_dir_all(&folder).unwrap();
    }
}
