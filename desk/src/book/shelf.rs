//! The files of a book, and what is done to them.
use super::disk::{self, Steps, beside};
use super::names::Names;
use super::stores::Stores;
use crate::name::Name;
use cocklesway::{Book, Refusal, Shape, log_entry, log_pack};
use std::fs::{File, OpenOptions, TryLockError};
use std::io::{self, Read};
use std::path::{Path, PathBuf};

/// The most bytes that a book may have. Every store asks the library about the whole book.
pub const MOST_BYTES: usize = 16 << 20;

/// A book on disk.
#[derive(Clone, Debug)]
pub struct Shelf {
    book: PathBuf,
    names: PathBuf,
    lock: PathBuf,
}

/// A shape of a book.
#[derive(Clone, Debug, PartialEq, Eq)]
pub struct Held {
    /// The number of its record.
    pub number: u16,
    /// The name of that number, if the file of names has it.
    pub name: Option<Name>,
    /// Its corners.
    pub corners: Vec<[i32; 2]>,
    /// Its floor.
    pub floor: u32,
}

/// Why a book was left as it was, or an addition was stopped.
#[derive(Debug)]
pub enum Failed {
    /// The library refuses it.
    Refused(Refusal),
    /// A step of the work with this file failed.
    File(PathBuf, io::Error),
    /// The file of names cannot be used.
    Names(PathBuf, String),
    /// The book has more bytes than a book may have.
    Long(PathBuf),
    /// Another program is changing the book.
    Locked(PathBuf),
    /// All 65,536 numbers have names.
    NoNumber,
    /// No record has the name.
    NoName(Name),
}

type Done<T> = Result<T, Failed>;

/// The lock of a book, which is given back when this is dropped: also if a child process still has the file open.
struct Lock(File);

impl Drop for Lock {
    fn drop(&mut self) {
        // If this fails, closing the file gives the lock back.
        let _ = self.0.unlock();
    }
}

impl From<Refusal> for Failed {
    fn from(refusal: Refusal) -> Failed {
        Failed::Refused(refusal)
    }
}

impl Shelf {
    /// Takes the files of a book by the path of its bytes.
    #[must_use]
    pub fn at(path: &Path) -> Shelf {
        Shelf {
            book: path.to_path_buf(),
            names: beside(path, "names"),
            lock: beside(path, "lock"),
        }
    }

    /// Makes a new book: a file of zeros that is not there yet.
    ///
    /// # Errors
    /// The file is there, or cannot be made.
    pub fn init(&self, bytes: usize, steps: &mut dyn Steps) -> Done<()> {
        if bytes > MOST_BYTES {
            return Err(Failed::Long(self.book.clone()));
        }
        let made = disk::create(&self.book, &vec![0; bytes], steps);
        made.map_err(|error| failed(&self.book, error))
    }

    /// Adds a shape under a name.
    ///
    /// # Errors
    /// It is refused, or a step fails. Then every name reads as before, unless the very last step failed.
    pub fn add(&self, name: &Name, shape: Shape<'_>, steps: &mut dyn Steps) -> Done<()> {
        let _lock = self.locked()?;
        let file = OpenOptions::new().read(true).write(true).open(&self.book);
        let file = file.map_err(|error| failed(&self.book, error))?;
        let log = bounded(&file, &self.book)?;
        let mut names = self.names()?;
        let known = names.number(name);
        let number = known.or_else(|| names.add(name)).ok_or(Failed::NoNumber)?;
        let stores = Stores::of(&log, number, shape)?;
        // A name without a record is no harm; a record without a name would be.
        if known.is_none() {
            self.write_names(&names, steps)?;
        }
        disk::store_all(&file, stores, steps).map_err(|error| failed(&self.book, error))
    }

    /// Returns the current shapes, in the order of the book.
    ///
    /// # Errors
    /// The files cannot be read, or a record of the book is bad.
    pub fn list(&self) -> Done<Vec<Held>> {
        // Names are written before their records, so the names that are read after the book have all of its numbers.
        let log = self.bytes()?;
        let names = self.names()?;
        let mut out = vec![[0; 2]; cocklesway::limits().corners as usize];
        let mut held = Vec::new();
        loop {
            match log_entry(&log, held.len(), &mut out) {
                Ok((number, shape)) => held.push(Held {
                    number,
                    name: names.name(number).cloned(),
                    corners: shape.corners.to_vec(),
                    floor: shape.floor,
                }),
                Err(Refusal::TooFew) => return Ok(held),
                Err(refusal) => return Err(refusal.into()),
            }
        }
    }

    /// Returns the latest shape of a name.
    ///
    /// # Errors
    /// The files cannot be read, a record of the book is bad, or no record has the name.
    pub fn read(&self, name: &Name) -> Done<Held> {
        let mut log = self.bytes()?;
        let names = self.names()?;
        let number = names.number(name).ok_or(Failed::NoName(name.clone()))?;
        let mut out = vec![[0; 2]; cocklesway::limits().corners as usize];
        match Book::new(&mut log).read(number, &mut out) {
            Ok(shape) => Ok(Held {
                number,
                name: Some(name.clone()),
                corners: shape.corners.to_vec(),
                floor: shape.floor,
            }),
            Err(Refusal::NoRecord) => Err(Failed::NoName(name.clone())),
            Err(refusal) => Err(refusal.into()),
        }
    }

    /// Packs the book: older records go, and with them the records of a name. The new book has as many bytes as are
    /// asked for, or as many as the old one. Returns how many bytes records had before and have now.
    ///
    /// # Errors
    /// It is refused, or a step fails; then the book is as it was.
    pub fn pack(
        &self,
        without: Option<&Name>,
        bytes: Option<usize>,
        steps: &mut dyn Steps,
    ) -> Done<[usize; 2]> {
        let _lock = self.locked()?;
        let old = self.bytes()?;
        let names = self.names()?;
        let but = without
            .map(|name| self.held_number(name, &names))
            .transpose()?;
        let length = bytes.unwrap_or(old.len());
        if length > MOST_BYTES {
            return Err(Failed::Long(self.book.clone()));
        }
        let mut new = vec![0; length];
        // With as many stores as the new run has bytes a packing is finished.
        let _ = log_pack(&old, &mut new, but, length)?;
        self.writable()?;
        disk::replace(&self.book, &new, steps).map_err(|error| failed(&self.book, error))?;
        Ok([used(&old), used(&new)])
    }

    /// The number of a name that a record has.
    fn held_number(&self, name: &Name, names: &Names) -> Done<u16> {
        let number = names.number(name).ok_or(Failed::NoName(name.clone()))?;
        let held = self.list()?.iter().any(|held| held.number == number);
        held.then_some(number).ok_or(Failed::NoName(name.clone()))
    }

    /// Returns the bytes of the book.
    ///
    /// # Errors
    /// They cannot be read, or are too many.
    pub fn bytes(&self) -> Done<Vec<u8>> {
        let file = File::open(&self.book).map_err(|error| failed(&self.book, error))?;
        bounded(&file, &self.book)
    }

    /// Returns the names of the book's records: none if there is no such file.
    ///
    /// # Errors
    /// The file cannot be read or used.
    pub fn names(&self) -> Done<Names> {
        let text = match std::fs::read(&self.names) {
            Ok(text) => text,
            Err(error) if error.kind() == io::ErrorKind::NotFound => return Ok(Names::default()),
            Err(error) => return Err(failed(&self.names, error)),
        };
        Names::read(&text).map_err(|bad| {
            let why = format!("line {} {}", bad.line, bad.why);
            Failed::Names(self.names.clone(), why)
        })
    }

    fn write_names(&self, names: &Names, steps: &mut dyn Steps) -> Done<()> {
        let written = disk::replace(&self.names, names.text().as_bytes(), steps);
        written.map_err(|error| failed(&self.names, error))
    }

    /// A book that may not be written is not replaced either, though its folder may be written.
    fn writable(&self) -> Done<()> {
        let opened = OpenOptions::new().write(true).open(&self.book);
        opened.map(drop).map_err(|error| failed(&self.book, error))
    }

    /// Keeps other programs from changing the book until the lock is dropped. Its file stays.
    fn locked(&self) -> Done<Lock> {
        // Without a book there is nothing to lock.
        File::open(&self.book).map_err(|error| failed(&self.book, error))?;
        let mut options = OpenOptions::new();
        let opened = options
            .create(true)
            .truncate(false)
            .write(true)
            .open(&self.lock);
        let file = opened.map_err(|error| failed(&self.lock, error))?;
        match file.try_lock() {
            Ok(()) => Ok(Lock(file)),
            Err(TryLockError::WouldBlock) => Err(Failed::Locked(self.book.clone())),
            Err(TryLockError::Error(error)) => Err(failed(&self.lock, error)),
        }
    }
}

fn failed(path: &Path, error: io::Error) -> Failed {
    Failed::File(path.to_path_buf(), error)
}

fn bounded(mut file: &File, path: &Path) -> Done<Vec<u8>> {
    let mut bytes = Vec::new();
    let read = file
        .by_ref()
        .take(MOST_BYTES as u64 + 1)
        .read_to_end(&mut bytes);
    read.map_err(|error| failed(path, error))?;
    if bytes.len() > MOST_BYTES {
        return Err(Failed::Long(path.to_path_buf()));
    }
    Ok(bytes)
}

/// How many bytes there are up to the last that is not 0.
fn used(bytes: &[u8]) -> usize {
    bytes
        .iter()
        .rposition(|&byte| byte != 0)
        .map_or(0, |last| last + 1)
}
