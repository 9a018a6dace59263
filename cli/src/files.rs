//! Books and plans in files: read where they are plain files, made whole or not at all, and replaced in one step.

use crate::frame::MOST_BYTES;
use crate::leftovers;
use crate::sys;
use crate::tables::LONGEST as LONGEST_TABLES;
use crate::text::{plain, reason};
use crate::trouble::Trouble;
use std::ffi::{CString, OsStr};
use std::fs::{self, File, OpenOptions};
use std::io::{self, Read, Write};
use std::os::unix::ffi::OsStrExt;
use std::os::unix::fs::{fchown, MetadataExt, OpenOptionsExt, PermissionsExt};
use std::path::{Path, PathBuf};
use std::thread::sleep;
use std::time::{Duration, Instant};

/// The name that stands for standard input, and how that is called.
const STANDARD_INPUT: (&str, &str) = ("-", "standard input");
/// The longest text.
const MOST_TEXT: usize = 65_535;
/// After this time a change says for what it waits.
const QUIET: Duration = Duration::from_secs(1);
/// After this time a change gives up waiting.
const PATIENCE: Duration = Duration::from_secs(30);
/// How often a waiting change looks again.
const LOOK: Duration = Duration::from_millis(5);
/// The mode of a file that is made anew, less what the user's mask takes away.
const NEW_MODE: u32 = 0o666;
/// The bits of a mode that say who may do what.
const MODE_BITS: u32 = 0o7777;

/// Says that a file failed.
fn failed(path: &Path, what: impl std::fmt::Display) -> Trouble {
    Trouble::Failed(format!("{}: {what}", plain(path)))
}

/// Turns a system's error on a file into trouble.
fn on(path: &Path) -> impl Fn(io::Error) -> Trouble + '_ {
    move |e| failed(path, reason(&e))
}

/// Opens a plain file, and nothing else; no other kind is even touched.
fn open_plain(path: &Path, write: bool) -> Result<File, Trouble> {
    if path.as_os_str().is_empty() {
        return Err(Trouble::Failed("the name of a file is empty".into()));
    }
    must_be_plain(path, &fs::metadata(path).map_err(on(path))?)?;
    let mut how = OpenOptions::new();
    how.read(true).write(write).custom_flags(sys::NONBLOCK);
    let file = how.open(path).map_err(on(path))?;
    must_be_plain(path, &file.metadata().map_err(on(path))?)?;
    Ok(file)
}

fn must_be_plain(path: &Path, found: &fs::Metadata) -> Result<(), Trouble> {
    if found.is_file() {
        return Ok(());
    }
    let kind = if found.is_dir() { "is a folder" } else { "is no plain file" };
    Err(failed(path, format!("{kind}: nothing is read from it")))
}

/// Reads up to `most` bytes.
fn read_up_to(input: &mut impl Read, most: usize) -> io::Result<Vec<u8>> {
    let mut bytes = Vec::with_capacity(most);
    input.take(most as u64).read_to_end(&mut bytes)?;
    Ok(bytes)
}

/// Reads a book's bytes, as many as the engine takes: more than a lawful book has.
pub fn read_book(path: &Path) -> Result<Vec<u8>, Trouble> {
    read_up_to(&mut open_plain(path, false)?, MOST_BYTES).map_err(on(path))
}

/// Reads a book's bytes whole for what is named, as long as a length of two bytes can say.
pub fn read_image(path: &Path, what: &str) -> Result<Vec<u8>, Trouble> {
    let most = usize::from(u16::MAX);
    let mut bytes = read_up_to(&mut open_plain(path, false)?, most + 1).map_err(on(path))?;
    if most < bytes.len() {
        return Err(failed(path, format!("is too long for {what}: over {most} bytes")));
    }
    bytes.shrink_to_fit();
    Ok(bytes)
}

/// Reads tables, and one byte more than the longest have, where there is one.
pub fn read_tables(path: &Path) -> Result<Vec<u8>, Trouble> {
    read_up_to(&mut open_plain(path, false)?, LONGEST_TABLES + 1).map_err(on(path))
}

/// The name that stands for standard input.
fn is_standard_input(path: &Path) -> bool {
    path == Path::new(STANDARD_INPUT.0)
}

/// What a text is called: by its name, or standard input.
pub fn called(path: &Path) -> String {
    if is_standard_input(path) {
        return STANDARD_INPUT.1.into();
    }
    plain(path)
}

/// Reads what a person typed, a plan or a list: a plain file, or standard input where the name is -.
pub fn read_text(path: &Path, what: &str) -> Result<Vec<u8>, Trouble> {
    let (path, bytes) = if is_standard_input(path) {
        let path = Path::new(STANDARD_INPUT.1);
        if sys::is_deaf() {
            return Err(failed(path, "is closed: nothing is read from it"));
        }
        (path, read_up_to(&mut io::stdin().lock(), MOST_TEXT + 1))
    } else {
        (path, read_up_to(&mut open_plain(path, false)?, MOST_TEXT + 1))
    };
    let bytes = bytes.map_err(on(path))?;
    if MOST_TEXT < bytes.len() {
        return Err(failed(
            path,
            format!("the {what} is too long: it has at most {MOST_TEXT} bytes"),
        ));
    }
    Ok(bytes)
}

/// A path as the C library takes it.
fn c_path(path: &Path) -> io::Result<CString> {
    CString::new(path.as_os_str().as_bytes()).map_err(io::Error::other)
}

/// The folder that a file stands in.
fn folder_of(path: &Path) -> &Path {
    path.parent().filter(|folder| !folder.as_os_str().is_empty()).unwrap_or(Path::new("."))
}

/// A file with all its bytes on the disk, and not yet the name that it will have.
pub struct Made {
    file: File,
    /// The name that it has for now; none where the file system makes files without one.
    beside: Option<PathBuf>,
}

impl Made {
    /// A new empty file in the folder, nobody else's, and for now with no name where that can be.
    fn empty(folder: &Path, bytes: &[u8], mode: u32) -> io::Result<Made> {
        let mut how = OpenOptions::new();
        how.read(true).write(true).mode(mode);
        if let Ok(file) = how.clone().custom_flags(sys::TMPFILE).open(folder) {
            return Ok(Made { file, beside: None });
        }
        let beside = folder.join(leftovers::name(bytes)?);
        let file = how.create_new(true).open(&beside)?;
        Ok(Made { file, beside: Some(beside) })
    }

    /// Writes the bytes, whole and on the disk; the file is locked as long as this program uses it.
    fn write(folder: &Path, bytes: &[u8], mode: u32) -> io::Result<Made> {
        let mut made = Made::empty(folder, bytes, mode)?;
        while !sys::lock(&made.file)? {
            sleep(LOOK);
        }
        made.file.write_all(bytes)?;
        Ok(made)
    }

    /// Takes this name, where it is free.
    fn name(mut self, path: &Path) -> io::Result<()> {
        self.file.sync_all()?;
        let Some(beside) = self.beside.take() else {
            return sys::give_name(&self.file, &c_path(path)?);
        };
        let named = sys::rename_to_free(&c_path(&beside)?, &c_path(path)?);
        match named {
            Err(e) if sys::is_unknown(&e) => {
                self.beside = Some(beside.clone());
                fs::hard_link(&beside, path)
            }
            Err(e) => {
                self.beside = Some(beside);
                Err(e)
            }
            Ok(()) => Ok(()),
        }
    }

    /// Takes the place of the file of this name.
    fn replace(mut self, path: &Path, bytes: &[u8]) -> io::Result<()> {
        self.file.sync_all()?;
        if self.beside.is_none() {
            let beside = folder_of(path).join(leftovers::name(bytes)?);
            sys::give_name(&self.file, &c_path(&beside)?)?;
            self.beside = Some(beside);
        }
        fs::rename(self.beside.as_ref().expect("it has a name"), path)?;
        self.beside = None;
        Ok(())
    }
}

impl Drop for Made {
    /// What was made and not used goes again.
    fn drop(&mut self) {
        if let Some(beside) = &self.beside {
            let _ = fs::remove_file(beside);
        }
    }
}

/// Makes a file that holds the bytes, or none; a file of that name stays as it is.
pub fn make(path: &Path, bytes: &[u8]) -> Result<(), Trouble> {
    if path.file_name().is_none() || path.as_os_str().as_bytes().ends_with(b"/") {
        return Err(failed(path, "is no name for a file"));
    }
    if fs::symlink_metadata(path).is_ok() {
        return Err(failed(path, "File exists; it is never replaced"));
    }
    let folder = folder_of(path);
    let opened = File::open(folder).map_err(on(path))?;
    let made = Made::write(folder, bytes, NEW_MODE).map_err(on(path))?;
    made.name(path).map_err(on(path))?;
    opened.sync_all().map_err(|e| unsettled(path, "made", &e))
}

/// Says that a change of names may not outlast a power cut.
fn unsettled(path: &Path, what: &str, e: &io::Error) -> Trouble {
    let what = format!("{what}, but its folder could not be synced, so a power cut may undo it");
    failed(path, format!("{what}: {}", reason(e)))
}

/// A book that nobody else changes as long as this lives.
pub struct Held {
    path: PathBuf,
    shown: PathBuf,
    file: File,
    folder: File,
    pub bytes: Vec<u8>,
}

impl Held {
    /// Waits until no other change of the book is under way, and reads it.
    pub fn open(shown: &OsStr) -> Result<Held, Trouble> {
        let shown = PathBuf::from(shown);
        open_plain(&shown, false)?;
        let path = fs::canonicalize(&shown).map_err(on(&shown))?;
        let mut file = lock(&path, &shown)?;
        let links = file.metadata().map_err(on(&shown))?.nlink();
        if links != 1 {
            let said = format!("has {links} names (hard links); a change would part them");
            return Err(failed(&shown, format!("{said}, so nothing is changed")));
        }
        let folder = File::open(folder_of(&path))
            .map_err(|e| failed(&shown, format!("its folder cannot be read: {}", reason(&e))))?;
        leftovers::sweep(folder_of(&path));
        let bytes = read_up_to(&mut file, MOST_BYTES).map_err(on(&shown))?;
        Ok(Held { path, shown, file, folder, bytes })
    }

    /// Puts the bytes in the place of the book: with its owner, mode and attributes, or not at all.
    pub fn replace(self, bytes: &[u8]) -> Result<(), Trouble> {
        let shown = &self.shown;
        let made = Made::write(folder_of(&self.path), bytes, 0o600).map_err(on(shown))?;
        dress(&self.file, &made.file).map_err(|e| {
            let said = "its owner, mode or attributes cannot be kept, so nothing is changed";
            failed(shown, format!("{said}: {}", reason(&e)))
        })?;
        made.replace(&self.path, bytes).map_err(on(shown))?;
        self.folder.sync_all().map_err(|e| unsettled(shown, "changed", &e))
    }
}

/// Opens the book of this name and locks it; a book that was replaced meanwhile is opened anew.
fn lock(path: &Path, shown: &Path) -> Result<File, Trouble> {
    let start = Instant::now();
    let mut told = false;
    loop {
        let mut how = OpenOptions::new();
        how.read(true).write(true).custom_flags(sys::NONBLOCK | sys::NOFOLLOW);
        let file = how.open(path).map_err(on(shown))?;
        let own = file.metadata().map_err(on(shown))?;
        must_be_plain(shown, &own)?;
        if sys::lock(&file).map_err(on(shown))? {
            let named = fs::symlink_metadata(path).map_err(on(shown))?;
            if (own.dev(), own.ino()) == (named.dev(), named.ino()) {
                return Ok(file);
            }
            continue;
        }
        if PATIENCE <= start.elapsed() {
            let said = "another change of this book is under way, and did not end in half a minute";
            return Err(failed(shown, format!("{said}; nothing is changed")));
        }
        if !told && QUIET <= start.elapsed() {
            eprintln!("lindurask: {}: waiting for another change of this book", plain(shown));
            told = true;
        }
        sleep(LOOK);
    }
}

/// Gives the new file the owner, group, mode, access list and extended attributes of the old one.
fn dress(old: &File, new: &File) -> io::Result<()> {
    let was = old.metadata()?;
    let is = new.metadata()?;
    if (was.uid(), was.gid()) != (is.uid(), is.gid()) {
        fchown(new, Some(was.uid()), Some(was.gid()))?;
    }
    new.set_permissions(fs::Permissions::from_mode(was.mode() & MODE_BITS))?;
    let kept = sys::attributes(old)?;
    for name in sys::attributes(new)?.iter().filter(|name| !kept.contains(name)) {
        sys::remove_attribute(new, name)?;
    }
    for name in &kept {
        let value = sys::attribute(old, name)?;
        if sys::attribute(new, name).ok().as_ref() != Some(&value) {
            sys::set_attribute(new, name, &value)?;
        }
    }
    let is = new.metadata()?;
    if (was.uid(), was.gid(), was.mode()) != (is.uid(), is.gid(), is.mode()) {
        return Err(io::Error::other("the file system keeps others"));
    }
    Ok(())
}
