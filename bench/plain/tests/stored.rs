//! The programs print what is stored beside the verified ones: the lines of the sample sheets, the run of `sequence`, and the sheet that is
//! converted. So do the functions on the tables of texts.

use plain::Refused;
use std::fs::{read, read_dir, File};
use std::path::Path;
use std::process::Command;

fn printed(program: &str, input: &Path) -> Vec<u8> {
    Command::new(program).stdin(File::open(input).unwrap()).output().unwrap().stdout
}

fn repository() -> &'static Path {
    Path::new(concat!(env!("CARGO_MANIFEST_DIR"), "/../.."))
}

#[test]
fn sample_sheets() {
    let all = read_dir(repository().join("sheets")).unwrap().map(|entry| entry.unwrap().path());
    let sheets: Vec<_> = all.filter(|path| path.extension().is_some_and(|e| e == "sheet")).collect();
    assert!(sheets.len() >= 10);
    for sheet in sheets {
        let lines = read(sheet.with_extension("lines")).unwrap();
        assert!(printed(env!("CARGO_BIN_EXE_worksheet"), &sheet) == lines, "{sheet:?}");
    }
}

#[test]
fn stored_run() {
    let run = repository().join("crates/sequence");
    assert!(printed(env!("CARGO_BIN_EXE_sequence"), &run.join("stdin")) == read(run.join("stdout")).unwrap());
}

#[test]
fn older_sheets() {
    let sheets = repository().join("sheets");
    for entry in read_dir(sheets.join("old")).unwrap() {
        let old = entry.unwrap().path();
        let today = sheets.join(old.file_name().unwrap());
        assert!(printed(env!("CARGO_BIN_EXE_convert"), &old) == read(today).unwrap(), "{old:?}");
    }
}

/// A table of texts, each after a line `#NAME`; of each its name, the answer, and what is given for one that is accepted.
fn stored_texts(table: &str, given: impl Fn(&[u8]) -> Result<String, Refused>) {
    let folder = repository().join("crates").join(table);
    let stdin = read(folder.join("stdin")).unwrap();
    let mut out = String::new();
    for case in stdin.split(|b| *b == b'#').skip(1) {
        let end = case.iter().position(|b| *b == b'\n').unwrap();
        let (number, line, more) = match given(&case[end + 1..]) {
            Ok(more) => (0, 0, more),
            Err((number, line)) => (number, line, "\n".to_string()),
        };
        out += &format!("{}: {number},{line}{more}", String::from_utf8_lossy(&case[..end]));
    }
    assert!(!out.is_empty() && out.into_bytes() == read(folder.join("stdout")).unwrap());
}

#[test]
fn texts() {
    stored_texts("texts", |text| {
        Ok(plain::worksheet(&plain::read(text)?).iter().map(|line| format!(" {line}")).collect::<String>() + "\n")
    });
}

#[test]
fn texts_of_older_forms() {
    stored_texts("converts", |text| {
        let mut out = [0; 1024];
        let length = plain::convert(text, &mut out)?;
        Ok(format!("\n{}", String::from_utf8_lossy(&out[..length])))
    });
}
