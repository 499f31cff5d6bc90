//! Files that exporters replace: whole at any time, of the mode that files have, and nothing beside them.
#![forbid(unsafe_code)]
use kotskhin::metrics::{ExportError, FileExporter, PushExporter, SdkMeterProvider};
use kotskhin::{Export, ExportHead};
use std::os::unix::fs::PermissionsExt;
use std::path::{Path, PathBuf};
use std::{env, fs, process, thread};

type Done = Result<(), ExportError>;

/// A folder of a test's own.
struct Folder(PathBuf);

impl Folder {
    fn new(name: &str) -> Result<Folder, ExportError> {
        let path = env::temp_dir().join(format!("kotskhin-{name}-{}", process::id()));
        fs::create_dir(&path)?;
        Ok(Folder(path))
    }

    fn names(&self) -> Result<Vec<String>, ExportError> {
        let there = fs::read_dir(&self.0)?.collect::<Result<Vec<_>, _>>()?;
        let names = there
            .iter()
            .map(|entry| entry.file_name().to_string_lossy().into_owned());
        Ok(names.collect())
    }
}

impl Drop for Folder {
    fn drop(&mut self) {
        let _ = fs::remove_dir_all(&self.0);
    }
}

fn export() -> Result<Export, ExportError> {
    let provider = SdkMeterProvider::builder().build();
    let requests = provider.meter("app").u64_counter("requests").build();
    requests.add(7, &[]);
    Ok(provider.collect()?)
}

fn head_in(path: &Path) -> Result<ExportHead, ExportError> {
    Ok(Export::decode(&fs::read(path)?)?.head()?)
}

/// The mode that the system gives new files, less what the umask of this process takes.
fn mode() -> Result<u32, ExportError> {
    let status = fs::read_to_string("/proc/self/status")?;
    let mut lines = status.lines();
    let umask = lines.find_map(|line| line.strip_prefix("Umask:"));
    Ok(0o666 & !u32::from_str_radix(umask.ok_or("there is no umask")?.trim(), 8)?)
}

#[test]
fn a_file_has_the_mode_that_files_have() -> Done {
    let (folder, export) = (Folder::new("mode")?, export()?);
    let path = folder.0.join("shop.kts");
    FileExporter::new(&path).export(&export)?;
    assert_eq!(fs::metadata(&path)?.permissions().mode() & 0o777, mode()?);
    // (also in the place of one that has another)
    fs::set_permissions(&path, fs::Permissions::from_mode(0o600))?;
    FileExporter::new(&path).export(&export)?;
    assert_eq!(fs::metadata(&path)?.permissions().mode() & 0o777, mode()?);
    assert_eq!(folder.names()?, ["shop.kts"]);
    Ok(())
}

#[test]
fn two_that_write_one_file_do_not_meet() -> Done {
    let (folder, export) = (Folder::new("two")?, export()?);
    let path = folder.0.join("shop.kts");
    FileExporter::new(&path).export(&export)?;
    let write = || -> Done {
        let mut exporter = FileExporter::new(&path);
        for _ in 0..50 {
            exporter.export(&export)?;
            head_in(&path)?;
        }
        Ok(())
    };
    let told: Vec<Done> = thread::scope(|scope| {
        let threads: Vec<_> = (0..4).map(|_| scope.spawn(write)).collect();
        let told = threads.into_iter();
        told.map(|thread| thread.join().unwrap_or_else(|_| Err("it panicked".into())))
            .collect()
    });
    told.into_iter().collect::<Done>()?;
    assert_eq!(head_in(&path)?.points, 1);
    assert_eq!(folder.names()?, ["shop.kts"]);
    Ok(())
}

#[test]
fn what_fails_leaves_nothing_behind() -> Done {
    let (folder, export) = (Folder::new("fails")?, export()?);
    let taken = folder.0.join("taken");
    fs::create_dir(&taken)?;
    assert!(FileExporter::new(&taken).export(&export).is_err());
    let refusing = FileExporter::new(folder.0.join("other"));
    let mut refusing = refusing.with_encoding(|_| Err("it is not to be".into()));
    assert!(refusing.export(&export).is_err());
    let nowhere = folder.0.join("nowhere").join("shop.kts");
    assert!(FileExporter::new(nowhere).export(&export).is_err());
    assert_eq!(folder.names()?, ["taken"]);
    assert!(fs::read_dir(&taken)?.next().is_none());
    Ok(())
}
