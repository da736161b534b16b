//! Holds crates.txt and the drawing in docs/ARCHITECTURE.md. Run in the repository's root:
//!
//!     floors              writes the drawing
//!     floors --check      says what is not so, and changes nothing; the status is 1 where anything is not
//!
//! crates.txt has a heading for each floor. A crate names those that its sources cite and, since the prover asks for it, may name those whose types
//! reach its code through these, and no others; all of them stand before it. A crate of the library names none of the border, of the theorems and of
//! the drivers. The drawing has for each crate the crates that it names, without those that it also reaches through another one.
use std::collections::{BTreeMap, BTreeSet};
use std::fs;
use std::path::{Path, PathBuf};
use std::process::exit;

const LIST: &str = "crates.txt";
const PAGE: &str = "docs/ARCHITECTURE.md";
const BEGINS: &str = "<!-- made by .ci/floors.rs from crates.txt -->\n";
const ENDS: &str = "<!-- end of what is made -->\n";
/// What the border, theorems and drivers begin with.
const PREFIXES: [&str; 3] = ["ffi_", "thm_", "test_"];
const PROGRAMS: &str = "programs";
const WIDTH: usize = 148;

struct Crate {
    name: String,
    uses: Vec<String>,
}

struct Floor {
    title: String,
    crates: Vec<Crate>,
}

fn read(path: &Path) -> String {
    fs::read_to_string(path).unwrap_or_else(|e| panic!("{}: {e}", path.display()))
}

/// The floors: a comment after an empty line is the heading of one.
fn floors() -> Vec<Floor> {
    let text = read(Path::new(LIST));
    let mut found: Vec<Floor> = Vec::new();
    for block in text.split("\n\n").skip(1) {
        let title = block.lines().next().and_then(|line| line.strip_prefix("# ")).expect("a heading for each floor");
        let parts = block.lines().filter_map(|line| line.split_once(':')).filter(|(name, _)| !name.starts_with('#'));
        // What a static library's line says after its name is left out.
        let bare = |name: &str| name.split_whitespace().next().unwrap_or("").to_string();
        let one = |(name, uses): (&str, &str)| Crate { name: bare(name), uses: uses.split_whitespace().map(String::from).collect() };
        found.push(Floor { title: title.into(), crates: parts.map(one).collect() });
    }
    found
}

fn files(folder: &Path) -> Vec<PathBuf> {
    let mut found = Vec::new();
    for entry in fs::read_dir(folder).into_iter().flatten() {
        let path = entry.expect("an entry").path();
        match path.is_dir() {
            // What rt keeps of a crate is none of its files.
            true if path.ends_with("out") => {}
            true => found.extend(files(&path)),
            false => found.push(path),
        }
    }
    found
}

fn is_name(c: char) -> bool {
    c.is_ascii_alphanumeric() || c == '_'
}

/// The names before `::` in code, and the modules that it declares or has from std.
fn paths_in(text: &str) -> (BTreeSet<String>, BTreeSet<String>) {
    let code: Vec<&str> = text.lines().map(|line| line.split("//").next().unwrap_or("")).collect();
    let modules = code.iter().filter_map(|line| line.trim().trim_start_matches("pub ").strip_prefix("mod ")).map(|m| m.trim_end_matches(';').into());
    let mut names = BTreeSet::new();
    for line in &code {
        for (at, _) in line.match_indices("::") {
            let start = line[..at].rfind(|c| !is_name(c)).map_or(0, |i| i + 1);
            if !line[..start].ends_with(':') {
                names.insert(line[start..at].to_string());
            }
        }
    }
    let items = uses_in(&format!("\n{text}"));
    let of_std = items.iter().filter(|item| item.starts_with("std::")).flat_map(|item| item.split(|c| !is_name(c))).map(String::from);
    (names, modules.chain(of_std).collect())
}

/// The names that a crate's sources cite, those of crates among them.
fn cited(name: &str) -> BTreeSet<String> {
    let (mut found, mut modules) = (BTreeSet::new(), BTreeSet::new());
    for path in files(&Path::new("crates").join(name)) {
        let is = |extension: &str| path.extension().is_some_and(|x| x == extension);
        if !is("rt") && !is("antt") {
            continue;
        }
        let text = read(&path);
        found.extend(text.split("Rattle.").skip(1).filter_map(|rest| rest.split(|c| !is_name(c)).next()).map(String::from));
        if is("rt") {
            let (names, own) = paths_in(&text);
            found.extend(names);
            modules.extend(own);
        }
    }
    found.into_iter().filter(|used| !modules.contains(used) && used != name).collect()
}

/// The `use` items of a source, each without its first word and its semicolon.
fn uses_in(text: &str) -> Vec<String> {
    let items = text.split("\nuse ").skip(1).map(|rest| rest.split(';').next().unwrap_or(""));
    items.map(|item| item.split_whitespace().collect::<Vec<_>>().join(" ")).collect()
}

/// The crates whose types a crate's code names in its `use` items.
fn types_in(name: &str) -> BTreeSet<String> {
    let sources = files(&Path::new("crates").join(name).join("src"));
    let items: Vec<String> = sources.iter().flat_map(|path| uses_in(&format!("\n{}", read(path)))).collect();
    let is_type =
        |item: &&String| item.split("::").last().is_some_and(|names| names.split(['{', '}', ',', ' ']).any(|w| w.starts_with(char::is_uppercase)));
    items.iter().filter(is_type).filter_map(|item| item.split("::").next()).map(String::from).collect()
}

/// The crates whose types may reach a crate's code through those that it cites.
fn reached(cites: &BTreeSet<String>) -> BTreeSet<String> {
    let mut found = cites.clone();
    let mut todo: Vec<String> = cites.iter().cloned().collect();
    while let Some(name) = todo.pop() {
        todo.extend(types_in(&name).into_iter().filter(|used| found.insert(used.clone())));
    }
    found
}

fn has_prefix(name: &str) -> bool {
    PREFIXES.iter().any(|prefix| name.starts_with(prefix))
}

/// What is wrong with the list.
fn wrong(floors: &[Floor]) -> Vec<String> {
    let mut found = Vec::new();
    let all: BTreeSet<&str> = floors.iter().flat_map(|floor| &floor.crates).map(|c| c.name.as_str()).collect();
    let kit = ["io", "libc", "os", "bytes", "check"];
    let mut before: BTreeSet<&str> = kit.into();
    for (floor, one) in floors.iter().flat_map(|floor| floor.crates.iter().map(move |one| (floor, one))) {
        let cites: BTreeSet<String> =
            cited(&one.name).into_iter().filter(|used| all.contains(used.as_str()) || kit.contains(&used.as_str())).collect();
        let named: BTreeSet<String> = one.uses.iter().cloned().collect();
        let list = |names: BTreeSet<&String>| names.into_iter().cloned().collect::<Vec<_>>().join(" ");
        // Theorems have no code that a value could reach.
        let allowed = if one.name.starts_with("thm_") { cites.clone() } else { reached(&cites) };
        let (more, fewer) = (list(named.difference(&allowed).collect()), list(cites.difference(&named).collect()));
        if !more.is_empty() || !fewer.is_empty() {
            found.push(format!("{LIST}: {} names and does not use: {more}; it cites and does not name: {fewer}", one.name));
        }
        for used in one.uses.iter().filter(|used| !before.contains(used.as_str())) {
            found.push(format!("{LIST}: {} uses {used}, which does not stand before it", one.name));
        }
        let is_library = !has_prefix(&one.name) && floor.title != PROGRAMS;
        for used in one.uses.iter().filter(|used| is_library && has_prefix(used)) {
            found.push(format!("{LIST}: {} is of the library and uses {used}", one.name));
        }
        before.insert(&one.name);
    }
    found
}

/// Of the crates that one uses, those that it does not also reach through another.
fn nearest(one: &Crate, reached: &BTreeMap<String, BTreeSet<String>>) -> Vec<String> {
    let through = |used: &String| one.uses.iter().any(|other| reached.get(other).is_some_and(|set| set.contains(used)));
    one.uses.iter().filter(|used| reached.contains_key(*used) && !through(used)).cloned().collect()
}

fn drawing(floors: &[Floor]) -> String {
    let mut reached: BTreeMap<String, BTreeSet<String>> = BTreeMap::new();
    let mut lines = Vec::new();
    let widest = floors.iter().flat_map(|floor| &floor.crates).map(|c| c.name.len()).max().unwrap_or(0);
    for floor in floors {
        lines.push(String::new());
        lines.push(format!("    {}", floor.title));
        for one in &floor.crates {
            let uses = nearest(one, &reached).join(" ");
            let arrow = if uses.is_empty() { String::new() } else { format!("{:1$}  --> {uses}", "", widest - one.name.len()) };
            lines.push(format!("      {}{arrow}", one.name));
            let below = one.uses.iter().flat_map(|used| reached.get(used).into_iter().flatten().cloned().chain([used.clone()]));
            let below: BTreeSet<String> = below.collect();
            reached.insert(one.name.clone(), below);
        }
    }
    assert!(lines.iter().all(|line| line.len() <= WIDTH), "a line of the drawing is too long");
    lines.join("\n") + "\n\n"
}

fn main() {
    let is_check = std::env::args().nth(1).is_some_and(|word| word == "--check");
    let floors = floors();
    let mut wrong = wrong(&floors);
    let page = read(Path::new(PAGE));
    let start = page.find(BEGINS).unwrap_or_else(|| panic!("{PAGE} has no line {BEGINS}")) + BEGINS.len();
    let end = start + page[start..].find(ENDS).unwrap_or_else(|| panic!("{PAGE} has no line {ENDS}"));
    let made = drawing(&floors);
    if page[start..end] != made {
        match is_check {
            true => wrong.push(format!("{PAGE}: the drawing is not that of {LIST}: compile .ci/floors.rs and run it")),
            false => fs::write(PAGE, format!("{}{made}{}", &page[..start], &page[end..])).expect("the page written"),
        }
    }
    wrong.iter().for_each(|line| eprintln!("{line}"));
    if !wrong.is_empty() {
        exit(1);
    }
    println!("floors: {} crates on {} floors name what they use", floors.iter().map(|floor| floor.crates.len()).sum::<usize>(), floors.len());
}
