//! Files that are replaced, and files that are not.

use super::*;
use crate::input;
use std::env::temp_dir;
use std::os::unix::fs::{symlink, PermissionsExt};

const DESIGN: &str = "SC\0";

/// A folder of the test's own with an input in it, gone with the test.
struct Folder {
    path: PathBuf,
    input: Input,
}

impl Folder {
    fn new(name: &str) -> Self {
        let path = temp_dir().join(format!("cantaribol-{name}-{}", process::id()));
        fs::create_dir_all(&path).expect("a folder");
        let file = path.join("in");
        fs::write(&file, DESIGN).expect("a file");
        let input = input::load(file.as_os_str()).expect("an input");
        Folder { path, input }
    }

    fn put(&self, name: &str, text: &str) {
        fs::write(self.path.join(name), text).expect("a file");
    }

    fn allow(&self, name: &str, mode: u32) {
        let permissions = fs::Permissions::from_mode(mode);
        fs::set_permissions(self.path.join(name), permissions).expect("it is ours");
    }

    fn text(&self, name: &str) -> String {
        fs::read_to_string(self.path.join(name)).expect("a text")
    }

    fn mode(&self, name: &str) -> u32 {
        let found = fs::metadata(self.path.join(name)).expect("a file");
        found.permissions().mode() & 0o777
    }

    fn names(&self) -> Vec<String> {
        let entries = fs::read_dir(&self.path).expect("a folder");
        let name = |entry: fs::DirEntry| entry.file_name().display().to_string();
        let mut names: Vec<String> = entries.map(|entry| name(entry.expect("a name"))).collect();
        names.sort();
        names
    }

    /// Tells the text's length.
    fn write(&self, path: impl AsRef<Path>, text: &str) -> Done<usize> {
        let path = self.path.join(path);
        write_beside(&self.input, path.as_os_str(), |out| {
            out.write_all(text.as_bytes())?;
            Ok(text.len())
        })
    }
}

impl Drop for Folder {
    fn drop(&mut self) {
        let _ = fs::remove_dir_all(&self.path);
    }
}

#[track_caller]
fn words(done: Done<usize>) -> String {
    match done {
        Err(Fault::Io(words)) => words,
        other => panic!("{other:?}"),
    }
}

#[test]
fn a_new_file_and_an_old_one() {
    let folder = Folder::new("new-and-old");
    // More than is held back.
    let long = "x".repeat(100_000);
    for text in [&long[..], "short"] {
        assert_eq!(folder.write("out", text), Ok(text.len()));
        assert_eq!(folder.text("out"), text);
        assert_eq!(folder.names(), ["in", "out"]);
    }
    assert_eq!(folder.text("in"), DESIGN);
}

/// Who may not read the old file may not read the new one, not even by half.
#[test]
fn permissions() {
    let folder = Folder::new("permissions");
    folder.put("out", "old");
    folder.allow("out", 0o600);
    let path = folder.path.join("out");
    let done = write_beside(&folder.input, path.as_os_str(), |_| {
        let names = folder.names();
        let half = names.iter().find(|name| name.starts_with('.'));
        Ok(half.map(|name| folder.mode(name)))
    });
    assert_eq!(done, Ok(Some(0o600)));
    assert_eq!(folder.mode("out"), 0o600);
}

/// Where all files may be written by whoever tests, there is none.
#[test]
fn an_old_file_that_may_not_be_written() {
    let folder = Folder::new("read-only");
    folder.put("out", "old");
    folder.allow("out", 0o444);
    let path = folder.path.join("out");
    if OpenOptions::new().write(true).open(&path).is_err() {
        let words = words(folder.write("out", "new"));
        assert!(words.starts_with(&path.display().to_string()), "{words}");
        assert_eq!(folder.text("out"), "old");
        assert_eq!(folder.names(), ["in", "out"]);
    }
}

/// What is there while the file is filled stays where that fails.
#[test]
fn what_fails_leaves_all_as_it_was() {
    let folder = Folder::new("fails");
    folder.put("old", "old");
    for name in ["old", "new"] {
        for fault in [|| Fault::Io("enough".to_string()), || Fault::Interrupted] {
            let path = folder.path.join(name);
            let done: Done<()> = write_beside(&folder.input, path.as_os_str(), |out| {
                out.write_all(&[b'x'; 100_000])?;
                assert_eq!(folder.text("old"), "old");
                assert_eq!(folder.names().len(), 3);
                Err(fault())
            });
            assert_eq!(done, Err(fault()));
            assert_eq!(folder.text("old"), "old");
            assert_eq!(folder.names(), ["in", "old"]);
        }
    }
}

/// A folder that goes away before the renaming.
#[test]
fn a_folder_that_is_removed() {
    let folder = Folder::new("removed");
    let inner = folder.path.join("inner");
    fs::create_dir(&inner).expect("a folder");
    let path = inner.join("out");
    let words = words(write_beside(&folder.input, path.as_os_str(), |_| {
        fs::remove_dir_all(&inner).expect("a folder");
        Ok(0)
    }));
    assert!(words.starts_with(&path.display().to_string()), "{words}");
}

/// By whichever name it was read, and by whichever it would be written.
#[test]
fn never_over_the_input() {
    let mut folder = Folder::new("itself");
    fs::hard_link(folder.path.join("in"), folder.path.join("hard")).expect("a link");
    symlink("in", folder.path.join("soft")).expect("a link");
    let all = ["in", "hard", "soft", "./in"];
    for from in all {
        folder.input = input::load(folder.path.join(from).as_os_str()).expect("an input");
        for to in all {
            let words = words(folder.write(to, "new"));
            let message = "this is the input, which is not written over";
            let message = format!("{}: {message}", folder.path.join(to).display());
            assert_eq!(words, message, "read as {from}");
        }
    }
    assert_eq!(folder.text("in"), DESIGN);
    assert_eq!(folder.names(), ["hard", "in", "soft"]);
}

/// A link stays one, and what it leads to is written, there or not.
#[test]
fn through_links() {
    let folder = Folder::new("links");
    fs::create_dir(folder.path.join("inner")).expect("a folder");
    for (link, leads) in [("a", "b"), ("b", "inner/out"), ("inner/out", "../out")] {
        symlink(leads, folder.path.join(link)).expect("a link");
    }
    for text in ["first", "second"] {
        assert_eq!(folder.write("a", text), Ok(text.len()));
        assert_eq!(folder.text("out"), text);
        assert!(folder.path.join("inner/out").is_symlink());
        assert_eq!(folder.names(), ["a", "b", "in", "inner", "out"]);
    }
}

/// Links without an end are a fault and no loop.
#[test]
fn links_in_a_circle() {
    let folder = Folder::new("circle");
    symlink("b", folder.path.join("a")).expect("a link");
    symlink("a", folder.path.join("b")).expect("a link");
    words(folder.write("a", "new"));
    assert_eq!(folder.names(), ["a", "b", "in"]);
}

#[test]
fn what_is_no_plain_file() {
    let folder = Folder::new("plain");
    assert_eq!(folder.write("/dev/null", "new"), Ok(3));
    assert!(!fs::metadata("/dev/null").expect("a device").is_file());
    for path in [".", "none/out", "in/out", "out/"] {
        let words = words(folder.write(path, "new"));
        assert!(words.contains(path), "{words}");
    }
    let nowhere: Done<usize> = write_beside(&folder.input, "".as_ref(), |_| Ok(0));
    words(nowhere);
    assert_eq!(folder.names(), ["in"]);
}

#[cfg(target_os = "linux")]
#[test]
fn an_open_file_that_has_lost_its_name() {
    use std::os::fd::AsRawFd;
    let folder = Folder::new("lost");
    folder.put("out", "old, and long");
    let file = File::open(folder.path.join("out")).expect("a file");
    fs::remove_file(folder.path.join("out")).expect("a file");
    let path = format!("/proc/self/fd/{}", file.as_raw_fd());
    assert_eq!(folder.write(path, "new"), Ok(3));
    assert_eq!(io::read_to_string(file).expect("a text"), "new");
    assert_eq!(folder.names(), ["in"]);
}

/// A file of that name may be anybody's.
#[test]
fn names_that_are_taken() {
    let folder = Folder::new("taken");
    let name = |number: u32| format!(".cantaribol-{}-{number}", process::id());
    folder.put(&name(0), "taken");
    assert_eq!(folder.write("out", "new"), Ok(3));
    assert_eq!(folder.names(), [&name(0)[..], "in", "out"]);
    for number in 1..100 {
        folder.put(&name(number), "taken");
    }
    let words = words(folder.write("out", "newer"));
    assert!(words.ends_with("out: no name is free for a new file beside it"));
    assert_eq!(folder.text("out"), "new");
    assert!((0..100).all(|number| folder.text(&name(number)) == "taken"));
}
