//! What is done to a disk, one step after the other.
use super::stores::Store;
use std::fs::{self, File, OpenOptions};
use std::io::{self, Write};
use std::os::unix::fs::FileExt;
use std::path::{Path, PathBuf};

/// Asked before each step that changes the disk or makes sure of a change. A test ends the work at any of them, as a
/// stopped process does.
pub trait Steps {
    /// Lets the next step be taken.
    ///
    /// # Errors
    /// It may not be taken.
    fn next(&mut self) -> io::Result<()>;
}

/// Lets all steps be taken.
#[derive(Clone, Copy, Debug, Default)]
pub struct All;

impl Steps for All {
    fn next(&mut self) -> io::Result<()> {
        Ok(())
    }
}

/// Stores single bytes in their order. The disk is made sure of what was cleared before the record begins, of the
/// record before its last byte, and of that byte.
///
/// # Errors
/// A step fails, and none after it is taken.
pub fn store_all(
    file: &File,
    stores: impl Iterator<Item = Store>,
    steps: &mut dyn Steps,
) -> io::Result<()> {
    let mut stores = stores.peekable();
    let mut cleared = false;
    while let Some(store) = stores.next() {
        let ends = stores.peek().is_none();
        if ends || (cleared && store.byte != 0) {
            sync(file, steps)?;
        }
        cleared = store.byte == 0;
        steps.next()?;
        file.write_all_at(&[store.byte], store.place as u64)?;
    }
    sync(file, steps)
}

fn sync(file: &File, steps: &mut dyn Steps) -> io::Result<()> {
    steps.next()?;
    file.sync_all()
}

/// Makes a file that is not there yet. If that fails, there is none.
///
/// # Errors
/// A step fails.
pub fn create(path: &Path, bytes: &[u8], steps: &mut dyn Steps) -> io::Result<()> {
    steps.next()?;
    let file = OpenOptions::new().write(true).create_new(true).open(path)?;
    let written = write(file, bytes, steps).and_then(|()| sync_folder(path, steps));
    tidied(path, written, steps)
}

/// Puts a file in place of another one: a second file is written whole, and then renamed. Whenever this is stopped, the
/// path has all of the old bytes or all of the new ones.
///
/// # Errors
/// A step fails.
pub fn replace(path: &Path, bytes: &[u8], steps: &mut dyn Steps) -> io::Result<()> {
    let second = beside(path, "new");
    steps.next()?;
    let file = File::create(&second)?;
    let renamed = write(file, bytes, steps).and_then(|()| {
        steps.next()?;
        fs::rename(&second, path)
    });
    tidied(&second, renamed, steps)?;
    sync_folder(path, steps)
}

fn write(mut file: File, bytes: &[u8], steps: &mut dyn Steps) -> io::Result<()> {
    steps.next()?;
    file.write_all(bytes)?;
    sync(&file, steps)
}

/// Removes what a failed step left. What is told is why it failed.
fn tidied(path: &Path, result: io::Result<()>, steps: &mut dyn Steps) -> io::Result<()> {
    if result.is_err() && steps.next().is_ok() {
        let _ = fs::remove_file(path);
    }
    result
}

/// A name in a folder is sure once the folder is.
fn sync_folder(path: &Path, steps: &mut dyn Steps) -> io::Result<()> {
    let folder = path
        .parent()
        .filter(|folder| !folder.as_os_str().is_empty());
    steps.next()?;
    File::open(folder.unwrap_or(Path::new(".")))?.sync_all()
}

/// Returns the path of a file beside another one, with a word more at its end.
#[must_use]
pub fn beside(path: &Path, word: &str) -> PathBuf {
    let mut name = path.as_os_str().to_os_string();
    name.push(".");
    name.push(word);
    name.into()
}
