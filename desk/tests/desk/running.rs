//! The program run inside the test.
use desk::command::{Console, run};
use std::ffi::OsString;
use std::fs;
use std::path::{Path, PathBuf};
use std::sync::atomic::{AtomicUsize, Ordering};

/// What a run wrote, and its status.
#[derive(Debug, PartialEq, Eq)]
pub struct Ran {
    pub status: u8,
    pub output: String,
    pub errors: String,
}

/// Runs the program with arguments and standard input.
pub fn with_input(arguments: &[&str], input: &[u8]) -> Ran {
    let arguments: Vec<OsString> = arguments.iter().map(OsString::from).collect();
    let (mut input, mut output, mut errors) = (input, Vec::new(), Vec::new());
    let mut console = Console {
        input: Some(&mut input),
        output: &mut output,
        errors: &mut errors,
    };
    let status = run(&arguments, &mut console).number();
    let text = |bytes| String::from_utf8(bytes).expect("what is written is text");
    Ran {
        status,
        output: text(output),
        errors: text(errors),
    }
}

/// Runs the program on lines of standard input.
pub fn asked(lines: &str) -> Ran {
    with_input(&["ask", "-"], lines.as_bytes())
}

/// A folder for files, which is removed at the end.
pub struct Folder(PathBuf);

impl Folder {
    pub fn new() -> Folder {
        static NUMBER: AtomicUsize = AtomicUsize::new(0);
        let number = NUMBER.fetch_add(1, Ordering::Relaxed);
        let name = format!("cocklesway-desk-{}-{number}", std::process::id());
        let path = std::env::temp_dir().join(name);
        fs::create_dir_all(&path).expect("a folder for the test");
        Folder(path)
    }

    /// Writes a file, and returns its path.
    pub fn file(&self, name: &str, text: &str) -> String {
        let path = self.path(name);
        fs::write(&path, text).expect("a file for the test");
        path
    }

    pub fn path(&self, name: &str) -> String {
        let path: &Path = &self.0;
        path.join(name)
            .to_str()
            .expect("a path of text")
            .to_string()
    }
}

impl Drop for Folder {
    fn drop(&mut self) {
        let _ = fs::remove_dir_all(&self.0);
    }
}
