//! Files that are replaced as a whole.
use std::fs::{self, File};
use std::io::{self, ErrorKind, Write};
use std::path::{Path, PathBuf};
use std::process;
use std::sync::atomic::{AtomicU64, Ordering};

/// Writes a file, in the place of one that is there: under a name of its own first. What fails leaves nothing behind.
pub(super) fn replace(path: &Path, bytes: &[u8]) -> io::Result<()> {
    let (mut file, beside) = new_beside(path)?;
    let written = file.write_all(bytes).and_then(|()| file.sync_data());
    let replaced = written.and_then(|()| fs::rename(&beside, path));
    if replaced.is_err() {
        let _ = fs::remove_file(&beside);
    }
    replaced
}

/// A file that nobody else writes. (Another host's process may have this one's number, and one that ended may have left a file.)
fn new_beside(path: &Path) -> io::Result<(File, PathBuf)> {
    static NUMBER: AtomicU64 = AtomicU64::new(0);
    loop {
        let number = NUMBER.fetch_add(1, Ordering::Relaxed);
        let mut beside = path.to_path_buf().into_os_string();
        beside.push(format!(".{}-{number}.new", process::id()));
        match File::create_new(&beside) {
            Err(why) if why.kind() == ErrorKind::AlreadyExists => (),
            made => return Ok((made?, beside.into())),
        }
    }
}
