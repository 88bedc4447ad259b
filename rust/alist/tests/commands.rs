//! The commands, over the reference: what they write where, and their status.

mod common;

use alist::{run, Streams};
use common::{damaged, hamming, normal, text_of};
use compare::codes::{records, tiny_code, Code};
use compare::random::Random;
use interface::{Alist, BytesAnswer};
use reference::SOUND;
use std::ffi::OsString;
use std::fs::{self, OpenOptions};
use std::io::{self, Read, Write};
use std::path::{Path, PathBuf};
use std::process::Command;

/// Status, standard output and messages.
type Result = (u8, Vec<u8>, String);

fn run_over(library: &dyn Alist, line: &[&str], input: &[u8]) -> Result {
    let arguments: Vec<OsString> = line.iter().map(OsString::from).collect();
    let (mut output, mut messages) = (Vec::new(), Vec::new());
    let mut streams = Streams {
        input: &mut &input[..],
        output: &mut output,
        messages: &mut messages,
    };
    let status = run(library, &arguments, &mut streams);
    (status, output, String::from_utf8(messages).expect("text"))
}

fn alist(line: &[&str], input: &[u8]) -> Result {
    run_over(&SOUND, line, input)
}

/// An empty directory for a test.
fn directory(name: &str) -> PathBuf {
    let path = Path::new(env!("CARGO_TARGET_TMPDIR")).join(name);
    let _ = fs::remove_dir_all(&path);
    fs::create_dir_all(&path).expect("a directory");
    path
}

fn silent(bytes: &[u8]) -> Result {
    (0, bytes.to_vec(), String::new())
}

#[test]
fn import_and_export_are_silent() {
    let (text, code) = (normal(&hamming()), records(&hamming()));
    assert_eq!(alist(&["import"], &text), silent(&code));
    assert_eq!(alist(&["export", "-"], &code), silent(&text));
}

#[test]
fn files_are_read_and_written() {
    let directory = directory("files");
    let path = |name: &str| directory.join(name).display().to_string();
    let (text, code) = (normal(&hamming()), records(&hamming()));
    fs::write(path("text"), &text).unwrap();
    assert_eq!(
        alist(&["import", &path("text"), &path("code")], b""),
        silent(b"")
    );
    assert_eq!(fs::read(path("code")).unwrap(), code);
    assert_eq!(alist(&["export", &path("code"), "-"], b""), silent(&text));
    let names = fs::read_dir(&directory).unwrap().count();
    assert_eq!(names, 2, "a file beside was left");
}

#[test]
fn a_refusal_leaves_the_file_as_it_was() {
    let directory = directory("refusal");
    let path = |name: &str| directory.join(name).display().to_string();
    fs::write(path("text"), "7 3\n3 x\n").unwrap();
    fs::write(path("code"), "old").unwrap();
    let (status, output, messages) = alist(&["import", &path("text"), &path("code")], b"");
    assert_eq!((status, output.len()), (1, 0));
    let due = ":2:3: \"x\" stands where only digits, spaces and line feeds may \
               (18: not a strict alist text)\n";
    assert_eq!(messages, path("text") + due);
    assert_eq!(fs::read(path("code")).unwrap(), b"old");
    assert_eq!(alist(&["import", &path("text"), &path("new")], b"").0, 1);
    assert!(!Path::new(&path("new")).exists());
}

#[test]
fn a_file_is_repaired_in_its_place() {
    let directory = directory("place");
    let path = directory.join("text").display().to_string();
    fs::write(&path, text_of(&hamming()).replace('\n', "\r\n")).unwrap();
    let (status, output, messages) = alist(&["repair", &path, &path], b"");
    assert_eq!((status, output.len()), (0, 0));
    assert_eq!(
        messages,
        format!("{path}:1:4: line end CR LF made LF, 14 times, here first\n")
    );
    assert_eq!(fs::read(&path).unwrap(), normal(&hamming()));
}

#[cfg(unix)]
#[test]
fn links_and_permissions_stay() {
    use std::os::unix::fs::{symlink, PermissionsExt};
    let directory = directory("links");
    let (file, link) = (directory.join("file"), directory.join("link"));
    fs::write(&file, "old").unwrap();
    fs::set_permissions(&file, fs::Permissions::from_mode(0o640)).unwrap();
    symlink(&file, &link).unwrap();
    let text = normal(&hamming());
    let line = ["import", "-", &link.display().to_string()];
    let done = alist(&line, &text);
    let stayed = fs::symlink_metadata(&link).unwrap().is_symlink();
    // Gone before anything can fail: the gate refuses a tree that holds a link.
    fs::remove_file(&link).unwrap();
    assert_eq!(done, silent(b""));
    assert!(stayed);
    assert_eq!(fs::read(&file).unwrap(), records(&hamming()));
    assert_eq!(
        fs::metadata(&file).unwrap().permissions().mode() & 0o777,
        0o640
    );
}

/// What is no plain file is not replaced.
#[cfg(unix)]
#[test]
fn a_pipe_is_written_to() {
    use std::os::unix::fs::FileTypeExt;
    let path = directory("pipe").join("pipe");
    let made = Command::new("mkfifo").arg(&path).status();
    assert!(made.expect("mkfifo").success());
    // Open for both, it waits for no other side.
    let open = OpenOptions::new().read(true).write(true).open(&path);
    let (text, due) = (normal(&hamming()), records(&hamming()));
    let line = ["import", "-", &path.display().to_string()];
    assert_eq!(alist(&line, &text), silent(b""));
    assert!(fs::metadata(&path).unwrap().file_type().is_fifo());
    let mut written = vec![0; due.len()];
    open.expect("a pipe").read_exact(&mut written).unwrap();
    assert_eq!(written, due);
}

#[test]
fn strict_text_stays_as_it_is() {
    let text = text_of(&hamming()).replace(' ', "   ");
    let message = "standard input: strict already, nothing changed\n";
    let due = (0, text.clone().into_bytes(), message.to_string());
    assert_eq!(alist(&["repair"], text.as_bytes()), due);
}

#[test]
fn import_points_to_repair_where_that_helps() {
    let text = text_of(&hamming()).replace("1 2 4 6", "6 4 2 1");
    let (status, _, messages) = alist(&["import"], text.as_bytes());
    let due = "standard input:13:3: row 2 does not rise: 4 stands after 6 \
               (6: an index not above the one before)\n\
               standard input: alist repair makes a strict text of it\n";
    assert_eq!((status, messages.as_str()), (1, due));
    let text = text.replace("6 4 2 1", "6 4 2 2");
    let (_, _, messages) = alist(&["import"], text.as_bytes());
    assert!(!messages.contains("repair"), "{messages}");
}

#[test]
fn a_text_that_cannot_be_repaired_is_refused() {
    let text = text_of(&hamming()).replace("1 2 4 6", "6 4 2 2");
    let (status, output, messages) = alist(&["repair"], text.as_bytes());
    assert_eq!((status, output.len()), (1, 0));
    let due = "standard input:5:3: column 1 names row 2, but row 2 does not name column 1 \
               (19: columns and rows do not name the same places)\n\
               standard input: not repaired\n";
    assert_eq!(messages, due);
}

#[test]
fn show_takes_text_and_records() {
    let due = "bits n                  7\n\
               checks m                3\n\
               triples T               6\n\
               variables V             10\n\
               rate, at least          4/7 = 0.5714\n\
               ones                    12\n\
               columns of degree 1     3\n\
               columns of degree 2     3\n\
               columns of degree 3     1\n\
               rows of degree 4        3\n\
               bytes of records        39\n\
               bytes of text           94\n";
    let (text, code) = (normal(&hamming()), records(&hamming()));
    assert_eq!(text.len(), 94);
    assert_eq!(alist(&["show"], &code), silent(due.as_bytes()));
    let wide = text_of(&hamming()).replace(' ', "  ");
    assert_eq!(alist(&["show"], wide.as_bytes()), silent(due.as_bytes()));
}

#[test]
fn a_check_of_two_bits_is_shown_as_one_triple() {
    let code = Code {
        bits: 4,
        checks: vec![vec![0, 1], vec![0, 1, 2, 3], vec![2, 3]],
    };
    let (status, output, _) = alist(&["show"], &records(&code));
    let shown = String::from_utf8(output).unwrap();
    assert_eq!(status, 0);
    for due in [
        "triples T               4\n",
        "variables V             5\n",
        "rows of degree 2        2\n",
    ] {
        assert!(shown.contains(due), "{shown}");
    }
}

#[test]
fn refused_records_are_explained() {
    let code = records(&hamming());
    let edited = |at: usize, byte: u8| {
        let mut code = code.clone();
        code[at] = byte;
        code
    };
    let longer = [&code[..], b"L"].concat();
    for (code, due) in [
        (
            code[..20].to_vec(),
            "20: the bytes end where an index of check 1 is due (1: ",
        ),
        (
            edited(7, b'X'),
            "6: 4C 58 stands where 4C 43, the mark of check 0, is due (2: ",
        ),
        (edited(3, 2), "2: n is 2; 3 to 4096 are allowed (3: "),
        (edited(4, 9), "4: m is 2307; 1 to 2048 are allowed (3: "),
        (
            edited(8, 1),
            "8: check 0 has degree 1; 2 to 32 are allowed (4: a degree outside 2..32)",
        ),
        (
            edited(16, 9),
            "15: check 0 names bit 9, but the last bit is 6 (5: ",
        ),
        (
            edited(14, 1),
            "13: check 0 names bit 1, which is not above the one before (6: ",
        ),
        (edited(3, 8), "39: bit 7 is in no check (8: "),
        (longer, "39: bytes stand after the last check (9: "),
    ] {
        for command in ["export", "show"] {
            let (status, output, messages) = alist(&[command], &code);
            assert_eq!((status, output.len()), (1, 0));
            let start = format!("standard input: offset {due}");
            assert!(messages.starts_with(&start), "{messages}");
        }
    }
}

#[test]
fn text_and_records_are_not_mistaken_for_each_other() {
    let (text, code) = (normal(&hamming()), records(&hamming()));
    let (status, _, messages) = alist(&["export"], &text);
    assert_eq!(status, 1);
    assert!(messages.ends_with("alist text: show and import take it\n"));
    for command in ["import", "repair"] {
        let (status, _, messages) = alist(&[command], &code);
        assert_eq!(status, 1);
        assert!(messages.ends_with("code records: show and export take them\n"));
    }
    let (status, _, messages) = alist(&["export"], b"");
    assert!(status == 1 && !messages.contains("text"), "{messages}");
}

/// Damaged texts and records, and any bytes, get an answer; each refusal has its place.
#[test]
fn a_place_is_found_for_each_refusal() {
    let mut random = Random::new(9);
    let mut statuses = [0; 2];
    for _ in 0..3_000 {
        let code = tiny_code(&mut random);
        let text = damaged(&mut random, &normal(&code));
        let records = damaged(&mut random, &records(&code));
        let any: Vec<u8> = (0..random.below(30)).map(|_| random.any() as u8).collect();
        for input in [text, records, any] {
            for command in ["import", "export", "show", "repair"] {
                let (status, _, messages) = alist(&[command], &input);
                assert!(
                    !messages.contains("no place was found"),
                    "{messages}{input:?}"
                );
                statuses[usize::from(status)] += 1;
            }
        }
    }
    assert!(statuses[0] > 300 && statuses[1] > 1_000, "{statuses:?}");
}

/// A library with other numbers than the reference.
struct Other;

impl Alist for Other {
    fn import(&self, _: &[u8], _: &mut [u8]) -> BytesAnswer {
        BytesAnswer {
            number: 19,
            bytes: 0,
        }
    }

    fn export(&self, _: &[u8], _: &mut [u8]) -> BytesAnswer {
        self.export_size(&[])
    }

    fn export_size(&self, _: &[u8]) -> BytesAnswer {
        BytesAnswer {
            number: 7,
            bytes: 0,
        }
    }
}

#[test]
fn the_librarys_number_is_told_even_where_no_place_is_found() {
    let (text, code) = (normal(&hamming()), records(&hamming()));
    let import = "standard input: refused (19: columns and rows do not name the same places); \
                  no place was found\n";
    let export = "standard input: refused (7: more than 8192 triples); no place was found\n";
    for (command, input, due) in [
        ("import", &text, import),
        ("import", &b"7 3\tx".to_vec(), import),
        ("repair", &text, import),
        ("export", &code, export),
        ("show", &code, export),
    ] {
        let (status, output, messages) = run_over(&Other, &[command], input);
        assert_eq!((status, output.len()), (1, 0));
        assert!(messages.starts_with(due), "{messages}");
    }
}

#[test]
fn wrong_lines_and_files_have_status_2() {
    let directory = directory("missing").join("none").display().to_string();
    let text = normal(&hamming());
    let due = format!("alist: cannot read {directory}: ");
    let (status, _, messages) = alist(&["import", &directory], b"");
    assert!(status == 2 && messages.starts_with(&due), "{messages}");
    let file = directory + "/file";
    let due = format!("alist: cannot write {file}: ");
    let (status, _, messages) = alist(&["import", "-", &file], &text);
    assert!(status == 2 && messages.starts_with(&due), "{messages}");
    let (status, output, messages) = alist(&["inport"], b"");
    assert_eq!((status, output.len()), (2, 0));
    assert_eq!(messages, "alist: no command inport; see alist --help\n");
}

#[test]
fn help_goes_to_standard_output() {
    let (status, output, messages) = alist(&["--help"], b"");
    assert_eq!((status, messages.as_str()), (0, ""));
    let text = String::from_utf8(output).expect("text");
    for command in ["import", "export", "show", "repair"] {
        assert!(text.contains(&format!("alist {command} ")));
    }
}

/// A stream that fails.
struct Broken;

impl Read for Broken {
    fn read(&mut self, _: &mut [u8]) -> io::Result<usize> {
        Err(io::Error::other("broken"))
    }
}

impl Write for Broken {
    fn write(&mut self, _: &[u8]) -> io::Result<usize> {
        Err(io::Error::other("broken"))
    }

    fn flush(&mut self) -> io::Result<()> {
        Ok(())
    }
}

#[test]
fn streams_that_fail_have_status_2() {
    let text = normal(&hamming());
    for (line, broken_input) in [("import", true), ("import", false), ("--help", false)] {
        let mut messages = Vec::new();
        let mut streams = Streams {
            input: if broken_input {
                &mut Broken
            } else {
                &mut &text[..]
            },
            output: &mut Broken,
            messages: &mut messages,
        };
        assert_eq!(run(&SOUND, &[line.into()], &mut streams), 2);
        let messages = String::from_utf8(messages).expect("text");
        assert!(messages.ends_with("broken\n"), "{messages}");
    }
    let mut streams = Streams {
        input: &mut Broken,
        output: &mut Broken,
        messages: &mut Broken,
    };
    assert_eq!(run(&SOUND, &["show".into()], &mut streams), 2);
}
