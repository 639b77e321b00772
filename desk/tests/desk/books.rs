//! Books on disk: what people do with them, and what is left when the work is stopped at any step.
use crate::running::{Folder, Ran, with_input};
use cocklesway::Shape;
use desk::book::disk::{All, Steps};
use desk::book::shelf::{Failed, Held, Shelf};
use desk::name::Name;
use std::fs::{self, OpenOptions, Permissions};
use std::io;
use std::os::unix::fs::PermissionsExt;
use std::os::unix::process::CommandExt;
use std::path::Path;
use std::process::{Command, Output};

const BED: &[[i32; 2]] = &[[0, 0], [2000, 0], [2000, 900], [0, 900]];
const WALL: &[[i32; 2]] = &[[0, 5000], [12000, 5000]];
const LONG_BED: &[[i32; 2]] = &[[0, 0], [2200, 0], [2200, 900], [0, 900]];

fn run(arguments: &[&str]) -> Ran {
    with_input(arguments, b"")
}

/// Runs a command that must succeed, and returns what it wrote.
fn fine(arguments: &[&str]) -> String {
    let ran = run(arguments);
    assert_eq!(
        (ran.status, ran.errors.as_str()),
        (0, ""),
        "{arguments:?} {}",
        ran.output
    );
    ran.output
}

#[test]
fn shapes_are_kept_replaced_taken_off_and_packed() {
    let folder = Folder::new();
    let book = &folder.path("floor.book");
    fine(&["book", "init", book, "--bytes", "200"]);
    fine(&[
        "book", "add", book, "bed", "@2", "0", "0", "2000", "0", "2000", "900", "0", "900",
    ]);
    fine(&["book", "add", book, "wall", "0", "5000", "12000", "5000"]);
    fine(&["book", "add", book, "bed", "@3", "-5", "0", "5", "0"]);
    assert_eq!(
        fine(&["book", "list", book]),
        "wall: 2 corners on floor 0\nbed: 2 corners on floor 3\n"
    );
    assert_eq!(
        fine(&["book", "read", book, "bed"]),
        "shape | bed | @3 -5 0 5 0\n"
    );
    assert_eq!(
        fine(&["book", "pack", book]),
        format!("{book} is packed: its records had 91 bytes and have 50\n")
    );
    fine(&["book", "remove", book, "wall"]);
    assert_eq!(fine(&["book", "read", book]), "shape | bed | @3 -5 0 5 0\n");
    let gone = run(&["book", "read", book, "wall"]);
    assert_eq!((gone.status, gone.errors.as_str()), (1, ""));
    assert_eq!(
        gone.output,
        format!("refused (19): no record of {book} is called wall\n")
    );
    let json = fine(&["book", "read", book, "bed", "--json"]);
    assert!(
        json.starts_with(r#"{"name":"bed","number":0,"floor":3,"corners":[[-5,0],[5,0]]"#),
        "{json}"
    );
}

#[test]
fn a_map_goes_in_and_comes_out() {
    let folder = Folder::new();
    let (book, map) = (
        &folder.path("floor.book"),
        "shape | bed | @2 0 0 9 0\nshape | wall | @3 0 5 7 5\n",
    );
    let file = &folder.file(
        "map.txt",
        &format!("{map}outline | cart | 0 0 6 0 6 9 0 9\n"),
    );
    fine(&["book", "init", book, "--bytes", "500"]);
    fine(&["book", "add", book, "--map", file]);
    assert_eq!(fine(&["book", "read", book]), map);
}

#[test]
fn what_is_wrong_is_said_and_changes_nothing() {
    let folder = Folder::new();
    let book = &folder.path("floor.book");
    let missing = run(&["book", "list", book]);
    assert_eq!(missing.status, 2);
    assert!(
        missing.errors.contains("No such file"),
        "{}",
        missing.errors
    );
    fine(&["book", "init", book, "--bytes", "60"]);
    fine(&["book", "add", book, "bed", "0", "0", "9", "0"]);
    let (bytes, names) = (
        fs::read(book).expect("a book"),
        fs::read(format!("{book}.names")).expect("names"),
    );
    for (arguments, status, part) in [
        (&["init", book, "--bytes", "60"][..], 2, "exists"),
        (&["init", book], 2, "--bytes N"),
        (
            &["add", book, "wall", "0", "0", "9", "0", "9", "9", "0", "9"],
            1,
            "refused (16)",
        ),
        (&["add", book, "wall", "0", "0", "0", "0"], 1, ""),
        (&["add", book, "wall", "0", "x"], 2, "not a number"),
        (&["add", book, "wall", "0 | 0"], 2, ""),
        (&["add", book, "7", "0", "0"], 2, "no name"),
        (&["add", book], 2, "--map MAP"),
        (&["remove", book, "wall"], 1, "refused (19)"),
        (&["pack", book, "--bytes", "20"], 1, "refused (16)"),
        (&["pack", book, "--bytes", "-1"], 2, ""),
        (&["pack", book, "--bytes", "99999999999"], 2, "16 MiB"),
        (&["tear", book], 2, "no `tear`"),
        (&["list"], 2, "a file"),
    ] {
        let all: Vec<&str> = ["book"]
            .into_iter()
            .chain(arguments.iter().copied())
            .collect();
        let ran = run(&all);
        let said = format!("{}{}", ran.output, ran.errors);
        assert_eq!(ran.status, status, "{all:?} {said}");
        assert!(!said.is_empty() && said.contains(part), "{all:?} {said}");
        assert_eq!(fs::read(book).expect("a book"), bytes, "{all:?}");
        assert_eq!(
            fs::read(format!("{book}.names")).expect("names"),
            names,
            "{all:?}"
        );
    }
}

/// Lets some steps be taken, and then none.
struct Upto {
    left: usize,
    kind: io::ErrorKind,
}

impl Steps for Upto {
    fn next(&mut self) -> io::Result<()> {
        match self.left.checked_sub(1) {
            None => Err(self.kind.into()),
            Some(left) => {
                self.left = left;
                Ok(())
            }
        }
    }
}

fn name(word: &str) -> Name {
    Name::read(word).expect("a name")
}

/// A book with a bed and a wall, and the end of an addition that was cut.
fn begun(folder: &Folder) -> Shelf {
    let path = folder.path("floor.book");
    for end in ["", ".names", ".new", ".names.new"] {
        let _ = fs::remove_file(format!("{path}{end}"));
    }
    let shelf = Shelf::at(Path::new(&path));
    shelf.init(260, &mut All).expect("a new book");
    shelf
        .add(&name("bed"), Shape::new(BED, 2), &mut All)
        .expect("room");
    shelf
        .add(&name("wall"), Shape::new(WALL, 2), &mut All)
        .expect("room");
    let mut bytes = fs::read(&path).expect("a book");
    for (at, byte) in [23, 0, 2, 0, 7, 0x5A, 0x5A, 0x5A].into_iter().enumerate() {
        bytes[66 + at] = byte;
    }
    fs::write(&path, bytes).expect("a torn end");
    shelf
}

fn corners(shelf: &Shelf, word: &str) -> Option<Vec<[i32; 2]>> {
    match shelf.read(&name(word)) {
        Ok(Held { corners, .. }) => Some(corners),
        Err(Failed::NoName(_)) => None,
        Err(other) => panic!("{word} cannot be read: {other:?}"),
    }
}

/// Stops work at every one of its steps, and returns how many it has.
fn stopped_everywhere(
    kind: io::ErrorKind,
    work: impl Fn(&Shelf, &mut dyn Steps) -> bool,
    is_right: impl Fn(&Shelf, bool),
) -> usize {
    let folder = Folder::new();
    for left in 0.. {
        let shelf = begun(&folder);
        let finished = work(&shelf, &mut Upto { left, kind });
        is_right(&shelf, finished);
        // Nothing that was left keeps the next work from being done.
        shelf
            .add(&name("chair"), Shape::new(&[[1, 1]], 2), &mut All)
            .expect("room");
        assert_eq!(corners(&shelf, "chair"), Some(vec![[1, 1]]));
        is_right(&shelf, finished);
        if finished {
            return left;
        }
    }
    unreachable!("some number of steps is enough")
}

#[test]
fn an_addition_may_be_stopped_at_every_store_and_sync() {
    for word in ["bed", "table"] {
        let before = (word == "bed").then(|| BED.to_vec());
        let steps = stopped_everywhere(
            io::ErrorKind::Interrupted,
            |shelf, steps| {
                shelf
                    .add(&name(word), Shape::new(LONG_BED, 2), steps)
                    .is_ok()
            },
            |shelf, finished| {
                assert_eq!(corners(shelf, "wall").as_deref(), Some(WALL));
                let now = corners(shelf, word);
                // The very last step only makes sure of what is stored whole.
                assert!(now == before || now.as_deref() == Some(LONG_BED), "{now:?}");
                assert!(!finished || now.as_deref() == Some(LONG_BED), "{now:?}");
            },
        );
        assert!(steps > 20, "{steps}");
    }
}

#[test]
fn a_packing_may_be_stopped_at_every_step() {
    for without in [None, Some("bed")] {
        let steps = stopped_everywhere(
            io::ErrorKind::Interrupted,
            |shelf, steps| shelf.pack(without.map(name).as_ref(), None, steps).is_ok(),
            |shelf, finished| {
                assert_eq!(corners(shelf, "wall").as_deref(), Some(WALL));
                let bed = corners(shelf, "bed");
                let gone = bed.is_none() && without.is_some();
                assert!(gone || bed.as_deref() == Some(BED), "{bed:?}");
                assert!(!finished || gone == without.is_some());
            },
        );
        assert!(steps >= 5, "{steps}");
    }
}

#[test]
fn a_full_disk_changes_no_shape() {
    let before = |shelf: &Shelf| {
        assert_eq!(corners(shelf, "bed").as_deref(), Some(BED));
        assert_eq!(corners(shelf, "wall").as_deref(), Some(WALL));
    };
    stopped_everywhere(
        io::ErrorKind::StorageFull,
        |shelf, steps| {
            shelf
                .add(&name("table"), Shape::new(&[[3, 3]], 2), steps)
                .is_ok()
        },
        |shelf, _| before(shelf),
    );
    stopped_everywhere(
        io::ErrorKind::StorageFull,
        |shelf, steps| shelf.pack(None, None, steps).is_ok(),
        |shelf, _| before(shelf),
    );
}

/// A shell that may write files of at most 4 KiB stands for a full disk.
#[test]
fn a_file_that_cannot_grow_is_said_and_removed() {
    let folder = Folder::new();
    let book = folder.path("floor.book");
    let script = "trap '' XFSZ; ulimit -f 8; exec \"$0\" book init \"$1\" --bytes 100000";
    let output = Command::new("sh")
        .args(["-c", script, env!("CARGO_BIN_EXE_cocklesway"), &book])
        .output()
        .expect("a shell");
    let said = String::from_utf8_lossy(&output.stderr).to_string();
    assert_eq!(output.status.code(), Some(2), "{said}");
    assert!(said.contains("floor.book: "), "{said}");
    assert!(!Path::new(&book).exists());
}

#[test]
fn a_locked_book_is_left_alone() {
    let folder = Folder::new();
    let book = &folder.path("floor.book");
    fine(&["book", "init", book, "--bytes", "60"]);
    fine(&["book", "add", book, "bed", "0", "0"]);
    let lock = OpenOptions::new()
        .write(true)
        .open(format!("{book}.lock"))
        .expect("the lock");
    lock.lock().expect("a free lock");
    for arguments in [
        &["book", "add", book, "bed", "1", "1"][..],
        &["book", "pack", book],
    ] {
        let ran = run(arguments);
        assert_eq!(ran.status, 2, "{}", ran.output);
        assert!(ran.errors.contains("another program"), "{}", ran.errors);
    }
    assert_eq!(fine(&["book", "read", book]), "shape | bed | @0 0 0\n");
    drop(lock);
    fine(&["book", "add", book, "bed", "1", "1"]);
}

/// Runs the program as a user who may not write, also where the test is run by one who may write everything.
fn as_nobody(folder: &Folder, arguments: &[&str]) -> Output {
    const NOBODY: u32 = 65534;
    let program = folder.path("program");
    fs::copy(env!("CARGO_BIN_EXE_cocklesway"), &program).expect("a copy");
    fs::set_permissions(&program, Permissions::from_mode(0o755)).expect("permissions");
    let command = || {
        let mut command = Command::new(&program);
        command.args(arguments);
        command
    };
    let output = command().uid(NOBODY).gid(NOBODY).output();
    output
        .or_else(|_| command().output())
        .expect("the program runs")
}

#[test]
fn a_read_only_book_is_said_and_left_alone() {
    let folder = Folder::new();
    let book = &folder.path("floor.book");
    fine(&["book", "init", book, "--bytes", "60"]);
    fine(&["book", "add", book, "bed", "0", "0"]);
    for file in ["", ".names", ".lock"].map(|end| format!("{book}{end}")) {
        let mode = if file.ends_with(".lock") {
            0o666
        } else {
            0o444
        };
        fs::set_permissions(file, Permissions::from_mode(mode)).expect("permissions");
    }
    let bytes = fs::read(book).expect("a book");
    for arguments in [
        &["book", "add", book, "bed", "1", "1"][..],
        &["book", "pack", book],
    ] {
        let output = as_nobody(&folder, arguments);
        let said = String::from_utf8_lossy(&output.stderr).to_string();
        assert_eq!(output.status.code(), Some(2), "{arguments:?} {said}");
        assert!(said.contains("denied"), "{arguments:?} {said}");
        assert_eq!(fs::read(book).expect("a book"), bytes);
    }
    let list = as_nobody(&folder, &["book", "list", book]);
    assert_eq!(list.status.code(), Some(0));
}
