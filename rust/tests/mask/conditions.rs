//! What a call asks of its caller is tested: where a condition is just broken the call panics and says what it needs and
//! what it was given, and where it is just met the call doesn't panic. The conditions are read in the sources, so that none
//! is left out.

mod buffers;
mod kernels;
mod masks;

use crate::said;
use row_mask::{BitBuffer, Mask};
use std::cell::RefCell;
use std::fmt::Debug;
use std::fs;
use std::panic;
use std::path::{Path, PathBuf};

/// A call, one of its conditions (by no name where it is the only one), what it says where that is broken, calls that
/// break that one and none before it with what is said behind that, and calls that meet all.
type Row =
    (&'static str, &'static str, &'static str, &'static [(fn(), &'static str)], &'static [fn()]);

/// Conditions that no program can break, with the reason.
const NEVER_BROKEN: [(&str, &str, &str); 6] = [
    (
        "BitBuffer::new_with_offset",
        "fits",
        "`covered` is tested before, and no bytes have as many bits",
    ),
    ("BitBufferMut::try_append_buffer", "", "both lists lie in memory"),
    ("BitBufferMut::try_push_word", "fits", "the list lies in memory"),
    ("Steps::deposit", "room", "so many steps take centuries"),
    ("Steps::select", "room", "so many steps take centuries"),
    ("Steps::word", "room", "so many steps take centuries"),
];

fn bits(text: &str) -> BitBuffer {
    text.bytes().map(|it| it == b'1').collect()
}

fn mask(text: &str) -> Mask {
    text.bytes().map(|it| it == b'1').collect()
}

/// So many values, of which each third is true.
fn thirds(len: usize) -> BitBuffer {
    (0..len).map(|i| i % 3 == 0).collect()
}

fn done<T>(_: T) {}

fn ok<T, E: Debug>(answer: Result<T, E>) {
    done(answer.unwrap());
}

thread_local! {
    /// The file that this thread's last panic told as its place.
    static PLACE: RefCell<String> = const { RefCell::new(String::new()) };
}

/// Has each panic note its place, and do then what it did.
fn note_places() {
    let before = panic::take_hook();
    panic::set_hook(Box::new(move |told| {
        let file = told.location().map_or("", |it| it.file());
        PLACE.set(file.into());
        before(told);
    }));
}

/// A condition as the sources have it: the call, the name of the clause in its documentation, and what is said first
/// where it is broken.
struct Condition {
    call: String,
    name: String,
    needs: String,
}

/// The conditions that are tested in a file or in a folder's files.
fn conditions(path: &Path, found: &mut Vec<Condition>) {
    if path.is_dir() {
        let mut files: Vec<PathBuf> =
            fs::read_dir(path).unwrap().map(|it| it.unwrap().path()).collect();
        files.sort();
        return files.iter().for_each(|it| conditions(it, found));
    }
    let text = fs::read_to_string(path).unwrap();
    for (at, test) in text.match_indices("conditions::need_") {
        let lines: Vec<&str> = text[..at].lines().collect();
        let is_head = |it: &&str| it.trim_start().trim_start_matches("pub ").starts_with("fn ");
        let head = lines.iter().rposition(is_head).unwrap();
        let before = lines[head..].concat().matches(test).count();
        let needs = String::from(text[at..].split('"').nth(1).unwrap());
        let name = String::from(clauses(&lines[..head])[before]);
        found.push(Condition { call: call(&lines[..=head]), name, needs });
    }
}

/// The name of a call, of which these lines end with the head.
fn call(lines: &[&str]) -> String {
    let [.., head] = lines else { unreachable!() };
    let name = head.split("fn ").nth(1).unwrap().split(['(', '<']).next().unwrap();
    if !head.starts_with(' ') {
        return String::from(name);
    }
    let of = lines.iter().rfind(|it| it.starts_with("impl") || it.contains("trait ")).unwrap();
    let of = of.split("trait ").last().unwrap().trim_start_matches("impl<'a>");
    let of = of.trim_start_matches("impl").trim_start();
    format!("{}::{name}", of.split([' ', '<', ':']).next().unwrap())
}

/// The names of the clauses that the documentation has under "Panics unless", which ends with these lines.
fn clauses<'a>(lines: &[&'a str]) -> Vec<&'a str> {
    let starts = lines.iter().rposition(|it| it.contains("/// # Panics unless")).unwrap();
    let listed = lines[starts + 1..].iter().map(|it| it.trim_start());
    let listed = listed.take_while(|it| it.starts_with("///") && !it.starts_with("/// #"));
    let clauses = listed.filter_map(|it| it.strip_prefix("/// - "));
    clauses.map(|it| it.strip_prefix('*').map_or("", |it| it.split('*').next().unwrap())).collect()
}

#[test]
fn each_condition_is_tested() {
    let mut found = Vec::new();
    conditions(&Path::new(env!("CARGO_MANIFEST_DIR")).join("src/proved"), &mut found);
    let only = |it: &Condition| found.iter().filter(|other| other.call == it.call).count() == 1;
    let mut named: Vec<(&str, &str, &str)> = found
        .iter()
        .map(|it| (&*it.call, if only(it) { "" } else { &*it.name }, &*it.needs))
        .collect();
    let rows = || [buffers::ROWS, masks::ROWS, kernels::ROWS].into_iter().flatten();
    let mut stated: Vec<(&str, &str, &str)> = rows().map(|it| (it.0, it.1, it.2)).collect();
    for it in &named {
        assert!(stated.contains(it), "{it:?} has no row");
    }
    for it in &stated {
        assert!(named.contains(it), "{it:?} is no condition");
    }
    named.sort_unstable();
    stated.sort_unstable();
    assert_eq!(stated, named);

    note_places();
    for (call, name, needs, broken, met) in rows().chain(masks::BY_HAND) {
        let is_never_broken = NEVER_BROKEN.iter().any(|it| (it.0, it.1) == (*call, *name));
        assert!(broken.is_empty() == is_never_broken && !met.is_empty(), "{call} {name}");
        for (i, (breaks, values)) in broken.iter().enumerate() {
            let wanted = Some(format!("row_mask: {needs}{values}"));
            assert_eq!(said(breaks), wanted, "{call} {name}: call {i} that breaks it");
            let place = PLACE.take();
            assert!(
                place.contains("mask/conditions/"),
                "{call} {name}: its caller's place, not {place}"
            );
        }
        for (i, meets) in met.iter().enumerate() {
            assert_eq!(said(meets), None, "{call} {name}: call {i} that meets it");
        }
    }
}
