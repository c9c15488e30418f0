//! This crate and include/ say the same: functions, layout, answers, sizes, version.

use super::ffi::{Opened, Session};
use super::{Key, Nonce, Tag16, Tag32, MAX_BYTES};
use crate::Error;
use core::mem::offset_of;
use std::format;
use std::fs::read_to_string;
use std::string::{String, ToString};
use std::vec::Vec;

fn file(name: &str) -> String {
    let path = format!("{}/{name}", env!("CARGO_MANIFEST_DIR"));
    read_to_string(&path).unwrap_or_else(|e| panic!("{path}: {e}"))
}

/// The numbers and texts that a header defines under names that start so, without that start.
fn defined(header: &str, start: &str) -> Vec<(String, String)> {
    let lines = header.lines().filter_map(|line| line.strip_prefix("#define ")?.strip_prefix(start));
    lines
        .filter_map(|line| {
            let (name, rest) = line.split_once(' ')?;
            Some((name.to_string(), rest.split("/*").next()?.trim().to_string()))
        })
        .collect()
}

fn value(header: &str, name: &str) -> String {
    let found: Vec<_> = defined(header, name).into_iter().filter(|(rest, _)| rest.is_empty()).collect();
    assert_eq!(found.len(), 1, "{name} is defined once");
    found[0].1.clone()
}

/// What stands between the comments, the lines of the preprocessor left out.
fn code(header: &str) -> String {
    let mut text = String::new();
    for part in header.split("/*") {
        text += part.split_once("*/").map_or(part, |(_, after)| after);
    }
    text.lines().filter(|line| !line.starts_with('#')).collect::<Vec<_>>().join(" ")
}

/// A prototype of C, in the words of ffi.rs.
fn in_rust(prototype: &str) -> Option<String> {
    let (front, arguments) = prototype.trim().strip_suffix(')')?.split_once('(')?;
    let (result, name) = front.rsplit_once(' ')?;
    let result = match result.rsplit_once(' ').map_or(result, |(_, last)| last) {
        "uint8_t" => "u8",
        "aegis128l_opened" => "Opened",
        other => panic!("{name} returns {other}"),
    };
    let argument = |text: &str| match text.split_whitespace().collect::<Vec<_>>()[..] {
        ["const", "uint8_t", name] => format!("{}: In", &name[1..]),
        ["uint8_t", name] => format!("{}: Out", &name[1..]),
        ["size_t", name] => format!("{name}: Len"),
        ["struct", "aegis128l_session", name] => format!("{}: *mut Session", &name[1..]),
        _ => panic!("{name}: {text}"),
    };
    Some(format!("{name}({}) -> {result}", arguments.split(',').map(argument).collect::<Vec<_>>().join(", ")))
}

#[test]
fn the_same_functions_with_the_same_arguments() {
    let header = code(&file("../include/aegis128l.h"));
    let declared: Vec<_> = header.split(';').filter(|text| text.contains("WODZERIM_NODISCARD")).filter_map(in_rust).collect();
    let ours = file("src/aegis128l/ffi.rs").split_whitespace().collect::<Vec<_>>().join(" ");
    let ours: Vec<_> = ours.split("pub fn ").skip(1).map(|text| text.split(';').next().expect("its end").to_string()).collect();
    assert_eq!(declared.len(), 20);
    assert_eq!(declared, ours);
}

fn size_of_field<R, F>(_: impl FnOnce(&R) -> &F) -> usize {
    size_of::<F>()
}

#[test]
fn the_same_layout() {
    let header = file("../include/aegis128l.h");
    let lines = header.lines().filter_map(|line| line.strip_suffix(");"));
    let said: Vec<_> = lines.filter_map(|line| Some(line.strip_prefix("AEGIS128L_LAYOUT(")?.to_string())).collect();
    macro_rules! fields {
        ($record:ident $name:literal: $($field:ident)*) => {
            [$(format!("{}, {}, {}, {}", $name, stringify!($field), offset_of!($record, $field), size_of_field(|r: &$record| &r.$field))),*]
        };
    }
    let session = fields!(Session "aegis128l_session": blocks buf fill ad_len msg_len tag_size mark room written);
    let opened = fields!(Opened "aegis128l_opened": answer count);
    assert_eq!(said, [&session[..], &opened[..]].concat());
}

#[test]
fn the_same_answers() {
    let answers = defined(&file("../include/wodzerim_answers.h"), "WODZERIM_");
    let answers: Vec<_> = answers.into_iter().filter_map(|(name, number)| Some((name, number.parse::<u8>().ok()?))).collect();
    assert_eq!(answers.len(), 12);
    assert_eq!(answers[0], ("DONE".to_string(), 0));
    for (name, number) in &answers[1..] {
        let error = format!("{:?}", Error::from_number(*number).expect("an answer"));
        let words = error.chars().enumerate().flat_map(|(i, c)| {
            let between = if i > 0 && c.is_uppercase() { "_" } else { "" };
            between.chars().chain([c.to_ascii_uppercase()])
        });
        assert_eq!(*name, words.collect::<String>());
    }
}

#[test]
fn the_same_sizes_and_version() {
    let header = file("../include/aegis128l.h");
    let size = |name: &str| value(&header, name).parse::<usize>().expect("a number");
    assert_eq!(size("AEGIS128L_KEYBYTES"), size_of::<Key>());
    assert_eq!(size("AEGIS128L_NONCEBYTES"), size_of::<Nonce>());
    assert_eq!(size("AEGIS128L_TAGBYTES_SHORT"), size_of::<Tag16>());
    assert_eq!(size("AEGIS128L_TAGBYTES_LONG"), size_of::<Tag32>());
    assert_eq!(value(&header, "AEGIS128L_BYTES_MAX"), format!("{:#x}u", MAX_BYTES));
    assert_eq!(value(&header, "AEGIS128L_VERSION"), format!("{:?}", env!("CARGO_PKG_VERSION")));
}
