//! `convert`: between assembly, hex and binary.

mod common;
use common::*;
use generator::bundle::bundle;
use std::ffi::OsStr;
use std::fs;
use std::os::unix::fs::{symlink, MetadataExt, PermissionsExt};
use std::path::Path;

fn converted(from: &Path, to: &Path) -> Said {
    let words: [&OsStr; 4] = [
        "convert".as_ref(),
        from.as_ref(),
        "-o".as_ref(),
        to.as_ref(),
    ];
    said(&words)
}

#[track_caller]
fn is_fine(said: Said) {
    let fine = (Some(0), "", "");
    assert_eq!((said.status, &said.out[..], &said.err[..]), fine);
}

/// From each form to each, by the endings.
#[test]
fn all_ways() {
    let folder = empty_folder("convert/all-ways");
    let endings = ["bin", "hex", "txt", "asm"];
    for design in bundle() {
        let name = design.name;
        let file = design.text.bytes();
        fs::write(folder.join("0.bin"), &file).expect("a file");
        for (turn, ending) in endings.iter().chain(&endings).chain(&["bin"]).enumerate() {
            for other in endings {
                let from = folder.join(format!("{turn}.{ending}"));
                is_fine(converted(
                    &from,
                    &folder.join(format!("{}.{other}", turn + 1)),
                ));
            }
        }
        assert_eq!(
            fs::read(folder.join("9.bin")).expect("a file"),
            file,
            "{name}"
        );
        let shown = said_of(&["show", "-"], &file).out;
        for ending in ["txt", "asm"] {
            let text = fs::read_to_string(folder.join("9").with_extension(ending));
            assert_eq!(text.expect("a text"), shown, "{name}");
        }
        let hex = fs::read_to_string(folder.join("9.hex")).expect("a text");
        let letters: String = hex.split_whitespace().collect();
        let pairs: String = file.iter().map(|byte| format!("{byte:02X}")).collect();
        assert_eq!(letters, pairs, "{name}");
    }
    assert!(names(&folder).iter().all(|name| !name.starts_with('.')));
}

#[test]
fn to_standard_output() {
    let hex = said_of(&["convert", "-", "-o", "-", "--to", "hex"], P10);
    assert_eq!((hex.status, &hex.err[..]), (Some(0), ""));
    assert!(hex.out.starts_with("52 47 05 00 00 00\n55 4D\n52 4C "));
    let shown = said_of(&["convert", "-", "--to=asm", "-o", "-"], hex.out.as_bytes());
    assert_eq!(shown, said_of(&["show", "-"], P10));
    let bytes = said_of(
        &["convert", "-", "--to=bin", "-o", "-"],
        shown.out.as_bytes(),
    );
    assert_eq!(bytes.out.as_bytes(), P10);
}

/// `--to` decides, whatever the ending.
#[test]
fn to_another_ending() {
    let out = empty_folder("convert/endings").join("design.hex");
    let path = out.to_str().expect("a plain path");
    is_fine(said_of(&["convert", "-", "-o", path, "--to", "bin"], P10));
    assert_eq!(fs::read(&out).expect("a file"), P10);
}

/// By its name, another name, a link, or as what standard input reads.
#[test]
fn never_over_the_input() {
    let folder = empty_folder("convert/input");
    let file = folder.join("design.bin");
    fs::write(&file, P10).expect("a file");
    fs::hard_link(&file, folder.join("other.hex")).expect("a name");
    symlink("design.bin", folder.join("link.txt")).expect("a link");
    let before = names(&folder);
    for out in ["design.bin", "../input/design.bin", "other.hex", "link.txt"] {
        let out = folder.join(out);
        let standard = command()
            .args([
                "convert".as_ref(),
                "-".as_ref(),
                "-o".as_ref(),
                out.as_os_str(),
            ])
            .stdin(fs::File::open(&file).expect("a file"))
            .output();
        for said in [converted(&file, &out), standard.expect("it runs").into()] {
            assert_eq!((said.status, &said.out[..]), (Some(2), ""));
            let message = "this is the input, which is not written over\n";
            let message = format!("cantaribol: {}: {message}", out.display());
            assert_eq!(said.err, message);
        }
    }
    assert_eq!(fs::read(&file).expect("a file"), P10);
    assert_eq!(names(&folder), before);
}

/// What was there is replaced as a whole: its other names keep what it held,
/// a link stays one, and the new file may be read by whom the old one might.
#[test]
fn over_another_file() {
    let folder = empty_folder("convert/other");
    let (file, out) = (folder.join("design.bin"), folder.join("out.hex"));
    fs::write(&file, P10).expect("a file");
    fs::write(&out, "old").expect("a file");
    fs::set_permissions(&out, fs::Permissions::from_mode(0o640)).expect("permissions");
    fs::hard_link(&out, folder.join("kept")).expect("a name");
    symlink("out.hex", folder.join("link.hex")).expect("a link");
    is_fine(converted(&file, &folder.join("link.hex")));
    assert_eq!(fs::read(folder.join("kept")).expect("a file"), b"old");
    let link = fs::symlink_metadata(folder.join("link.hex")).expect("a link");
    assert!(link.is_symlink());
    assert!(fs::read(&out).expect("a file").starts_with(b"52 47 05"));
    let mode = fs::metadata(&out).expect("a file").mode();
    assert_eq!(mode & 0o777, 0o640);
    assert_eq!(
        names(&folder),
        ["design.bin", "kept", "link.hex", "out.hex"]
    );
}

/// Where it cannot be written, or is no design, nothing changes.
#[test]
fn nothing_by_half() {
    let folder = empty_folder("convert/half");
    let (file, out) = (folder.join("design.bin"), folder.join("out.hex"));
    fs::write(&file, P10).expect("a file");
    fs::create_dir(folder.join("folder.hex")).expect("a folder");
    fs::write(&out, "old").expect("a file");
    let before = names(&folder);
    for out in ["folder.hex", "missing/out.hex", "out.hex/out.hex"] {
        let said = converted(&file, &folder.join(out));
        assert_eq!((said.status, &said.out[..]), (Some(2), ""));
        assert!(said.err.contains(out), "{}", said.err);
    }
    fs::write(&file, &P10[..20]).expect("a file");
    let said = converted(&file, &out);
    assert_eq!((said.status, &said.out[..]), (Some(1), "REFUSED 2 8\n"));
    assert_eq!(fs::read(&out).expect("a file"), b"old");
    assert_eq!(names(&folder), before);
}

/// A device is written to and stays a device.
#[cfg(target_os = "linux")]
#[test]
fn devices() {
    let file = designs().join("p10.hex");
    let words = ["convert", "-", "--to", "hex", "-o"];
    is_fine(said_of(&[&words[..], &["/dev/null"]].concat(), P10));
    let null = fs::metadata("/dev/null").expect("a device");
    assert!(!null.is_file());
    let full = said_of(&[&words[..], &["/dev/full"]].concat(), P10);
    assert_eq!((full.status, &full.out[..]), (Some(2), ""));
    assert!(
        full.err.starts_with("cantaribol: /dev/full: "),
        "{}",
        full.err
    );
    let words: [&OsStr; 6] = [
        "convert".as_ref(),
        file.as_ref(),
        "-o".as_ref(),
        "/dev/stdout".as_ref(),
        "--to".as_ref(),
        "asm".as_ref(),
    ];
    assert_eq!(said(&words), said_of(&["show", "-"], P10));
}
