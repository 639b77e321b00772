//! The table of commands, and how each of them ends.
use crate::commands::{
    ask, book, check, diff, draw, drive, export, gaps, import, nearest, passes, serve, stands,
};
use crate::escape::quoted;
use crate::help;
use crate::name::most_like;
use crate::options::{self, Arguments, Known, Misuse};
use crate::session::defined_twice;
use crate::source::{self, NotRead, Source};
use std::ffi::OsString;
use std::io::{self, Read, Write};
use std::process::ExitCode;
use std::sync::Arc;

/// How a command ended.
#[derive(Clone, Copy, Debug, PartialEq, Eq, PartialOrd, Ord)]
pub enum Status {
    /// All was answered.
    Fine,
    /// Something was refused.
    Refused,
    /// Wrong use, an unreadable file or an unreadable line.
    Wrong,
}

/// What a command reads and writes.
pub struct Console<'a> {
    /// Standard input, until it is read.
    pub input: Option<&'a mut dyn Read>,
    /// Standard output.
    pub output: &'a mut dyn Write,
    /// Standard error.
    pub errors: &'a mut dyn Write,
}

/// What ends a command before its end.
#[derive(Debug)]
pub enum Trouble {
    /// The arguments cannot be used.
    Misuse(Misuse),
    /// A file could not be written.
    Unwritten(Arc<str>, io::Error),
    /// All was said already.
    Said(Status),
}

/// A command: how it is called, and what it does.
pub struct Command {
    /// Its name.
    pub name: &'static str,
    /// What it takes besides its options.
    pub takes: &'static str,
    /// What it does, in one line.
    pub does: &'static str,
    /// Its options.
    pub options: &'static [Known],
    /// The page of its help, below its options.
    pub page: &'static str,
    /// Runs it.
    pub run: fn(&Arguments, &mut Console<'_>) -> Result<Status, Trouble>,
}

/// The commands. A new one is a row here and a module of `commands`.
pub const COMMANDS: &[Command] = &[
    ask::COMMAND,
    check::COMMAND,
    gaps::COMMAND,
    passes::COMMAND,
    stands::COMMAND,
    drive::COMMAND,
    nearest::COMMAND,
    diff::COMMAND,
    draw::COMMAND,
    import::COMMAND,
    export::COMMAND,
    book::COMMAND,
    serve::COMMAND,
];

impl Status {
    /// Returns the number of the exit status.
    #[must_use]
    pub fn number(self) -> u8 {
        match self {
            Status::Fine => 0,
            Status::Refused => 1,
            Status::Wrong => 2,
        }
    }
}

impl From<Status> for ExitCode {
    fn from(status: Status) -> ExitCode {
        ExitCode::from(status.number())
    }
}

impl From<Misuse> for Trouble {
    fn from(misuse: Misuse) -> Trouble {
        Trouble::Misuse(misuse)
    }
}

/// A failure to write standard output.
impl From<io::Error> for Trouble {
    fn from(error: io::Error) -> Trouble {
        Trouble::Unwritten("standard output".into(), error)
    }
}

/// Runs the program with its arguments, without its name.
pub fn run(arguments: &[OsString], console: &mut Console<'_>) -> Status {
    let ended = dispatched(arguments, console).and_then(|status| {
        console.output.flush()?;
        Ok(status)
    });
    match ended {
        Ok(status) => status,
        Err(Trouble::Said(status)) => {
            // What was answered before is still to be written.
            let flushed = console.output.flush();
            match flushed {
                Ok(()) => status,
                Err(error) => failed(console, &Trouble::from(error)),
            }
        }
        Err(trouble) => failed(console, &trouble),
    }
}

/// Says what ended a command.
fn failed(console: &mut Console<'_>, trouble: &Trouble) -> Status {
    match trouble {
        Trouble::Misuse(misuse) => complain(console, &format!("{misuse}; see `cocklesway --help`")),
        Trouble::Unwritten(file, error) => {
            complain(console, &format!("{file}: cannot be written: {error}"));
        }
        Trouble::Said(status) => return *status,
    }
    Status::Wrong
}

/// Writes a line to standard error. If even that fails, the status is all that is left.
fn complain(console: &mut Console<'_>, text: &str) {
    let _ = writeln!(console.errors, "cocklesway: {text}");
    let _ = console.errors.flush();
}

fn dispatched(arguments: &[OsString], console: &mut Console<'_>) -> Result<Status, Trouble> {
    let Some((first, rest)) = arguments.split_first() else {
        return Err(Misuse::Other("a command is needed".to_string()).into());
    };
    match &*first.to_string_lossy() {
        "-h" | "--help" => said(console, &help::overview()),
        "-V" | "--version" => said(console, &help::version()),
        "help" => helped(rest, console),
        name => {
            let command = find(name)?;
            let arguments = options::parse(command.options, rest)?;
            if arguments.help {
                return said(console, &help::of_command(command));
            }
            (command.run)(&arguments, console)
        }
    }
}

fn find(name: &str) -> Result<&'static Command, Misuse> {
    let found = COMMANDS.iter().find(|command| command.name == name);
    found.ok_or_else(|| {
        let like = most_like(name, COMMANDS.iter().map(|command| command.name));
        let meant = like.map_or(String::new(), |like| format!(" (did you mean `{like}`?)"));
        Misuse::Other(format!("there is no command {}{meant}", quoted(name)))
    })
}

/// The page of a command or of a subject.
fn helped(subjects: &[OsString], console: &mut Console<'_>) -> Result<Status, Trouble> {
    match subjects {
        [] => said(console, &help::overview()),
        [subject] if subject == "help" => said(console, &help::overview()),
        [subject] => {
            let subject = subject.to_string_lossy();
            match help::subject(&subject) {
                Some(page) => said(console, &page),
                None => said(console, &help::of_command(find(&subject)?)),
            }
        }
        _ => Err(Misuse::Other("`help` takes one command or subject".to_string()).into()),
    }
}

fn said(console: &mut Console<'_>, page: &str) -> Result<Status, Trouble> {
    console.output.write_all(page.as_bytes())?;
    Ok(Status::Fine)
}

impl Console<'_> {
    /// Writes a line to standard output.
    ///
    /// # Errors
    /// It cannot be written.
    pub fn say(&mut self, line: &str) -> Result<(), Trouble> {
        writeln!(self.output, "{line}")?;
        Ok(())
    }

    /// Writes a message to standard error, after what was written to standard output before it.
    ///
    /// # Errors
    /// Standard output cannot be written.
    pub fn complain(&mut self, message: &str) -> Result<(), Trouble> {
        self.output.flush()?;
        complain(self, message);
        Ok(())
    }

    /// Reads all files, which are no maps.
    ///
    /// # Errors
    /// There is none, or one cannot be read; all that is wrong is said.
    pub fn files(&mut self, files: &[OsString]) -> Result<Vec<Source>, Trouble> {
        if files.is_empty() {
            return Err(Misuse::NoFile.into());
        }
        let mut sources = Vec::new();
        for file in files {
            let read = if file == "-" {
                match self.input.take() {
                    Some(input) => source::read(file, Some(input)),
                    None => Err(NotRead::Twice),
                }
            } else {
                source::read(file, None)
            };
            match read {
                Ok(source) => sources.push(source),
                Err(why) => self.complain(&format!("{}: {why}", source::shown(file)))?,
            }
        }
        if sources.len() < files.len() {
            return Err(Trouble::Said(Status::Wrong));
        }
        Ok(sources)
    }

    /// Reads all maps before anything is answered.
    ///
    /// # Errors
    /// There is none, one cannot be read, or two define the same name; all that is wrong is said.
    pub fn sources(&mut self, files: &[OsString]) -> Result<Vec<Source>, Trouble> {
        let sources = self.files(files)?;
        let again = defined_twice(&sources);
        for (place, fault) in &again {
            self.complain(&format!("{place}: {fault}"))?;
        }
        if !again.is_empty() {
            return Err(Trouble::Said(Status::Wrong));
        }
        Ok(sources)
    }
}
