//! Files that are replaced whole. A new file is written beside the old one under a name of its own, synced, given the old one's mode and owner,
//! and moved onto the old name; then the folder is synced. At every moment the name holds the old contents or the new.
//!
//! Writers lock the file that the name holds. Since the name may hold another file by the time the lock is had, it is looked at again.

use std::ffi::OsString;
use std::fs::{self, File, OpenOptions, TryLockError};
use std::io::{self, Read, Write};
use std::os::unix::ffi::OsStrExt;
use std::os::unix::fs::{fchown, MetadataExt, OpenOptionsExt, PermissionsExt};
use std::path::{Path, PathBuf};
use std::sync::atomic::{AtomicU64, Ordering};

/// Why contents were not stored.
#[derive(Debug)]
pub enum Unstored {
    /// The file is as it was.
    Unchanged(io::Error),
    /// The name holds the new contents, and it is not known whether they would outlive a crash of the machine.
    Unsynced(io::Error),
}

/// A file that this process alone may replace, as long as this lives.
#[derive(Debug)]
pub struct Locked {
    file: File,
    path: PathBuf,
}

/// Behind the names of files that are on their way.
const SUFFIX: &str = ".tulakkez-new";

/// Only the owner may look into a file that is on its way.
const PRIVATE: u32 = 0o600;
const MODE_BITS: u32 = 0o7777;

impl Locked {
    /// Opens and locks a regular file, through links. `waiting` is told if another writer has it; if it says no, that is the error.
    ///
    /// # Errors
    /// What the system says, or that it is no regular file.
    pub fn open(path: &Path, mut waiting: impl FnMut() -> bool) -> io::Result<Locked> {
        loop {
            let path = replaceable(path)?;
            let file = OpenOptions::new().read(true).write(true).open(&path)?;
            match file.try_lock() {
                Ok(()) => (),
                Err(TryLockError::WouldBlock) if waiting() => file.lock()?,
                Err(TryLockError::WouldBlock) => return Err(io::Error::from(io::ErrorKind::WouldBlock)),
                Err(TryLockError::Error(error)) => return Err(error),
            }
            let (held, named) = (file.metadata()?, fs::metadata(&path));
            if named.is_ok_and(|named| (named.dev(), named.ino()) == (held.dev(), held.ino())) {
                return Ok(Locked { file, path });
            }
        }
    }

    /// All bytes, if they are not more than so many.
    ///
    /// # Errors
    /// What the system says.
    pub fn read(&mut self, most: usize) -> io::Result<Vec<u8>> {
        read_some(&mut self.file, most)
    }

    /// # Errors
    /// What the system says, and whether the file was changed.
    pub fn replace(&self, bytes: &[u8]) -> Result<(), Unstored> {
        self.sweep();
        let fresh = Fresh::write(&self.path, bytes).map_err(Unstored::Unchanged)?;
        fresh.take_after(&self.file).map_err(Unstored::Unchanged)?;
        fresh.settle().map_err(Unstored::Unchanged)?;
        fs::rename(&fresh.path, &self.path).map_err(Unstored::Unchanged)?;
        sync_folder(&self.path).map_err(Unstored::Unsynced)
    }

    /// Takes away what writers that were cut off have left beside the file. As long as the name holds the file that is locked, nobody else
    /// writes it. That this fails harms nothing.
    fn sweep(&self) {
        let (Some(folder), Some(prefix)) = (self.path.parent(), prefix(&self.path)) else { return };
        for entry in fs::read_dir(folder).into_iter().flatten().flatten() {
            let name = entry.file_name();
            let inner = name
                .as_bytes()
                .strip_prefix(prefix.as_bytes())
                .and_then(|name| name.strip_suffix(SUFFIX.as_bytes()));
            // Of another file whose name goes on with a dot there is a dot here too.
            if inner.is_some_and(|inner| inner.iter().all(|byte| byte.is_ascii_digit() || *byte == b'-')) {
                let _ = fs::remove_file(entry.path());
            }
        }
    }
}

/// Makes a file that is not there yet.
///
/// # Errors
/// What the system says: that it is there already, too.
pub fn create(path: &Path, bytes: &[u8]) -> Result<(), Unstored> {
    let folder = fs::canonicalize(folder(path)).map_err(Unstored::Unchanged)?;
    let nameless = || Unstored::Unchanged(io::Error::new(io::ErrorKind::InvalidInput, "this names no file"));
    let name = path.file_name().ok_or_else(nameless)?;
    let path = folder.join(name);
    if is_there(&path) {
        return Err(Unstored::Unchanged(io::Error::from(io::ErrorKind::AlreadyExists)));
    }
    let fresh = Fresh::write(&path, bytes).map_err(Unstored::Unchanged)?;
    fresh.open_up().map_err(Unstored::Unchanged)?;
    fresh.settle().map_err(Unstored::Unchanged)?;
    fresh.name(&path).map_err(Unstored::Unchanged)?;
    drop(fresh);
    sync_folder(&path).map_err(Unstored::Unsynced)
}

/// The name, without links, of a regular file.
///
/// # Errors
/// What the system says, or that it is no regular file.
pub fn replaceable(path: &Path) -> io::Result<PathBuf> {
    let path = fs::canonicalize(path).map_err(|error| match error.kind() {
        io::ErrorKind::NotFound if is_there(path) => {
            io::Error::new(error.kind(), "it is a symbolic link to a file that is not there")
        }
        _ => error,
    })?;
    regular(&fs::metadata(&path)?)?;
    Ok(path)
}

/// Whether something has the name, if only a link that leads nowhere.
pub fn is_there(path: &Path) -> bool {
    fs::symlink_metadata(path).is_ok()
}

/// Whether two names hold one file, through links.
pub fn same(one: &Path, other: &Path) -> bool {
    let held = |path| fs::metadata(path).ok().map(|metadata| (metadata.dev(), metadata.ino()));
    held(one).is_some_and(|one| held(other) == Some(one))
}

/// The bytes of a regular file, through links, if they are not more than so many.
///
/// # Errors
/// What the system says, or that it is no regular file or longer.
pub fn read(path: &Path, most: usize) -> io::Result<Vec<u8>> {
    let metadata = fs::metadata(path)?;
    if metadata.is_dir() {
        return Err(io::Error::from(io::ErrorKind::IsADirectory));
    }
    read_some(&mut File::open(path)?, most)
}

fn read_some(file: &mut File, most: usize) -> io::Result<Vec<u8>> {
    let mut bytes = Vec::new();
    file.take(most as u64 + 1).read_to_end(&mut bytes)?;
    match bytes.len() > most {
        true => Err(io::Error::new(io::ErrorKind::FileTooLarge, format!("it has over {most} bytes"))),
        false => Ok(bytes),
    }
}

fn regular(metadata: &fs::Metadata) -> io::Result<()> {
    match metadata.is_file() {
        true => Ok(()),
        false => Err(io::Error::new(io::ErrorKind::InvalidInput, "it is no regular file")),
    }
}

/// A file on its way: it is gone when this is, unless it was moved.
struct Fresh {
    file: File,
    path: PathBuf,
}

impl Fresh {
    fn write(beside: &Path, bytes: &[u8]) -> io::Result<Fresh> {
        let path = beside.with_file_name(unique(beside)?);
        let file = OpenOptions::new().write(true).create_new(true).mode(PRIVATE).open(&path)?;
        let mut fresh = Fresh { file, path };
        fresh.file.write_all(bytes)?;
        Ok(fresh)
    }

    /// Mode and owner of the file that is replaced.
    fn take_after(&self, old: &File) -> io::Result<()> {
        let (old, own) = (old.metadata()?, self.file.metadata()?);
        if (old.uid(), old.gid()) != (own.uid(), own.gid()) {
            fchown(&self.file, Some(old.uid()), Some(old.gid()))?;
        }
        self.file.set_permissions(fs::Permissions::from_mode(old.mode() & MODE_BITS))
    }

    /// The mode that a new file has here by the process's mask.
    fn open_up(&self) -> io::Result<()> {
        extern "C" {
            fn umask(mask: u32) -> u32;
        }
        const EVERYONE: u32 = 0o666;
        // SAFETY: umask only swaps a number. It is put back at once, before anything else is created.
        let mask = unsafe {
            let mask = umask(PRIVATE ^ 0o777);
            umask(mask);
            mask
        };
        self.file.set_permissions(fs::Permissions::from_mode(EVERYONE & !mask))
    }

    fn settle(&self) -> io::Result<()> {
        self.file.sync_all()
    }

    /// Gives the file a name that nothing has. Where a folder knows no second names for a file, the name is taken first.
    fn name(&self, path: &Path) -> io::Result<()> {
        match fs::hard_link(&self.path, path) {
            Ok(()) => Ok(()),
            Err(_) if fs::symlink_metadata(path).is_ok() => Err(io::Error::from(io::ErrorKind::AlreadyExists)),
            Err(_) => {
                OpenOptions::new().write(true).create_new(true).open(path)?;
                fs::rename(&self.path, path).inspect_err(|_| {
                    let _ = fs::remove_file(path);
                })
            }
        }
    }
}

impl Drop for Fresh {
    fn drop(&mut self) {
        let _ = fs::remove_file(&self.path);
    }
}

fn folder(path: &Path) -> &Path {
    match path.parent() {
        Some(folder) if !folder.as_os_str().is_empty() => folder,
        _ => Path::new("."),
    }
}

/// Some file systems do not sync folders, and say so.
fn sync_folder(path: &Path) -> io::Result<()> {
    match File::open(folder(path))?.sync_all() {
        Err(error) if matches!(error.kind(), io::ErrorKind::InvalidInput | io::ErrorKind::Unsupported) => Ok(()),
        synced => synced,
    }
}

fn prefix(path: &Path) -> Option<OsString> {
    let mut prefix = OsString::from(".");
    prefix.push(path.file_name()?);
    prefix.push(".");
    Some(prefix)
}

/// A name that no other writer takes: the process, the time and a count are in it, as digits.
fn unique(path: &Path) -> io::Result<OsString> {
    static COUNT: AtomicU64 = AtomicU64::new(0);
    let mut name = prefix(path).ok_or_else(|| io::Error::from(io::ErrorKind::InvalidInput))?;
    let time =
        std::time::SystemTime::now().duration_since(std::time::UNIX_EPOCH).map_or(0, |time| time.as_nanos());
    name.push(format!("{}-{time}-{}{SUFFIX}", std::process::id(), COUNT.fetch_add(1, Ordering::Relaxed)));
    Ok(name)
}
