//! docs/PROMISES.md is held to the tree: the files, wrong programs and names that it cites are there, every wrong program is
//! cited, and each says why it is wrong.
//!
//! A line of the page cites files by their whole paths, wrong programs as `crates/x/must-fail: a, b; crates/y/must-fail: c`,
//! and names in back quotes. A name stands outside comments in a file that its line cites, or in any source where that cites
//! none; or it is a crate's.
mod common;

use std::collections::BTreeMap;
use std::fs;

const PAGE: &str = "docs/PROMISES.md";

/// The folders whose files may be cited.
const FOLDERS: [&str; 4] = ["bindings", "crates", "docs", "include"];

/// Paths of the repository, each with the file's text without comments.
type Tree = BTreeMap<String, String>;

/// What a line of the page cites.
#[derive(Default)]
struct Cited {
    files: Vec<String>,
    edits: Vec<String>,
    names: Vec<String>,
}

/// Whether a word is meant as a path, whole or not.
fn is_path(word: &str) -> bool {
    let whole = word.split_once('/').is_some_and(|(folder, _)| FOLDERS.contains(&folder));
    whole || [".antt", ".rt", ".rs", ".edit"].iter().any(|end| word.ends_with(end))
}

fn cited(line: &str) -> Cited {
    let parts: Vec<&str> = line.split('`').collect();
    let mut cited = Cited { names: parts.iter().skip(1).step_by(2).map(|name| name.to_string()).collect(), ..Cited::default() };
    let mut folder = None;
    for word in parts.iter().step_by(2).flat_map(|part| part.split_whitespace()) {
        let bare = word.trim_start_matches('(').trim_end_matches([',', ';', '.', ')']);
        if let Some(edits) = folder {
            cited.edits.push(format!("{edits}/{bare}.edit"));
            folder = folder.filter(|_| word.ends_with(','));
        } else if bare.ends_with("/must-fail:") {
            folder = bare.strip_suffix(':');
        } else if is_path(bare) {
            cited.files.push(bare.into());
        }
    }
    cited
}

/// Whether a name stands in a text as a whole word.
fn has_name(text: &str, name: &str) -> bool {
    let part = |c: Option<char>| c.is_some_and(|c| c.is_alphanumeric() || "_-·′'".contains(c));
    let whole = |at: usize| !part(text[..at].chars().next_back()) && !part(text[at + name.len()..].chars().next());
    !name.is_empty() && text.match_indices(name).any(|(at, _)| whole(at))
}

fn is_source(path: &str) -> bool {
    path.starts_with("crates/") && (path.ends_with(".antt") || path.ends_with(".rt"))
}

/// Whether a name stands in one of the files, or in any source where there are none, or is a crate's.
fn is_named(tree: &Tree, files: &[String], name: &str) -> bool {
    let meant = |path: &String| if files.is_empty() { is_source(path) } else { files.contains(path) };
    let is_crate = tree.keys().any(|path| path.starts_with(&format!("crates/{name}/")));
    is_crate || tree.iter().any(|(path, text)| meant(path) && has_name(text, name))
}

/// What a page cites that is not in the tree.
fn missing(tree: &Tree, page: &str) -> Vec<String> {
    let mut faults = Vec::new();
    for (k, line) in page.lines().enumerate() {
        let Cited { files, edits, names } = cited(line);
        let paths = files.iter().chain(&edits).filter(|path| !tree.contains_key(*path));
        faults.extend(paths.map(|path| format!("{PAGE}:{}: {path} is not there", k + 1)));
        let place = if files.is_empty() { "any source" } else { "the files of its line" };
        let unknown = names.iter().filter(|name| !is_named(tree, &files, name));
        faults.extend(unknown.map(|name| format!("{PAGE}:{}: `{name}` is not in {place}", k + 1)));
    }
    faults
}

/// The wrong programs of a tree, each with its text.
fn edits(tree: &Tree) -> impl Iterator<Item = (&String, &String)> {
    tree.iter().filter(|(path, _)| path.ends_with(".edit"))
}

/// The wrong programs that a page does not cite.
fn uncited(tree: &Tree, page: &str) -> Vec<String> {
    let cited: Vec<String> = page.lines().flat_map(|line| cited(line).edits).collect();
    edits(tree).filter(|(path, _)| !cited.contains(path)).map(|(path, _)| format!("{path} is not cited in {PAGE}")).collect()
}

/// The wrong programs that do not say why they are wrong, in a line that begins with `why: `.
fn without_why(tree: &Tree) -> Vec<String> {
    let says_why = |text: &str| {
        let whys: Vec<&str> = text.lines().filter_map(|line| line.strip_prefix("why: ")).collect();
        whys.len() == 1 && !whys[0].trim().is_empty()
    };
    edits(tree).filter(|(_, text)| !says_why(text)).map(|(path, _)| format!("{path} does not say why, in one line")).collect()
}

/// A file's text without comments.
fn code(path: &str, text: &str) -> String {
    let comment = match path.rsplit_once('.') {
        Some((_, "antt")) => "--",
        Some((_, "rt" | "rs")) => "//",
        _ => return text.into(),
    };
    text.lines().map(|line| line.split(comment).next().unwrap_or("")).collect::<Vec<_>>().join("\n")
}

/// Adds the files of a folder and of the folders in it, but for the folders `out`, which rt makes.
fn add_folder(tree: &mut Tree, folder: &str) {
    for entry in fs::read_dir(common::place(folder)).unwrap_or_else(|error| panic!("{folder}: {error}")) {
        let path = format!("{folder}/{}", entry.expect("an entry").file_name().to_string_lossy());
        if path.ends_with("/out") {
            continue;
        }
        if common::place(&path).is_dir() {
            add_folder(tree, &path);
        } else {
            let text = code(&path, &common::read(&path));
            tree.insert(path, text);
        }
    }
}

fn repository() -> Tree {
    let mut tree = Tree::new();
    FOLDERS.iter().for_each(|folder| add_folder(&mut tree, folder));
    tree
}

#[track_caller]
fn none(faults: Vec<String>) {
    assert!(faults.is_empty(), "\n{}", faults.join("\n"));
}

#[test]
fn what_the_page_cites_is_there() {
    none(missing(&repository(), &common::read(PAGE)));
}

#[test]
fn every_wrong_program_is_cited() {
    none(uncited(&repository(), &common::read(PAGE)));
}

#[test]
fn every_wrong_program_says_why() {
    none(without_why(&repository()));
}

#[test]
fn every_fault_is_found() {
    let (a, x, y) = ("crates/p/specs/A.antt", "crates/p/must-fail/x.edit", "crates/p/must-fail/y.edit");
    let files = [(a, "promise-12 : Set -- promise-1"), (x, "why: too many\n"), (y, "why: \n")];
    let tree: Tree = files.map(|(path, text)| (path.into(), code(path, text))).into();
    let page = format!("| `promise-12` of `p` | {a} | crates/p/must-fail: x |");
    none(missing(&tree, &page));
    assert_eq!(uncited(&tree, &page), [format!("{y} is not cited in {PAGE}")]);
    assert_eq!(without_why(&tree), [format!("{y} does not say why, in one line")]);
    for (cited, fault) in [
        ("crates/p/specs/B.antt", "crates/p/specs/B.antt is not there"),
        ("crates/p/specs/A.antt, A.antt", "A.antt is not there"),
        ("(crates/p/must-fail: x, z)", "crates/p/must-fail/z.edit is not there"),
        ("`promise-1` in crates/p/specs/A.antt", "`promise-1` is not in the files of its line"),
        ("`promise-1`", "`promise-1` is not in any source"),
    ] {
        assert_eq!(missing(&tree, cited), [format!("{PAGE}:1: {fault}")]);
    }
}
