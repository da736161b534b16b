// The second reading shares nothing with the machine but what Shared names: in the files below a name of another crate is a type or one of its
// constructors, a definition that thm_any_calls/specs/Shared.antt or thm_host_calls/specs/Shared.antt holds by theorems, or a call that a statement is about.
use std::collections::BTreeSet;
use std::fs;
use std::path::{Path, PathBuf};

// Crates of the second reading: their own names are free.
const READING: [&str; 5] = ["thm_any_calls", "thm_page_shown", "thm_host_calls", "thm_server_done", "thm_unpublished"];
// Files of them that illustrate by literal cases, list the modules, or are the list itself.
const LEFT_OUT: [&str; 3] = ["Lib.antt", "Shared.antt", "Mixed.antt"];
// What the statements are about: calls, and what a host reads of their contracts.
const SUBJECTS: [&str; 23] = [
    "step_of",
    "advance_of",
    "open_of",
    "already_open_of",
    "report_of",
    "error_part_of",
    "shown_by",
    "next_step_of",
    "words_of",
    "lent",
    "standing",
    "step_call",
    "open_call",
    "already_open_call",
    "report_call",
    "report_each_call",
    "state_call",
    "metrics_call",
    "position_call",
    "last_sent_call",
    "error_part_call",
    "next_step_call",
    "page_call",
];

fn read(path: &Path) -> String {
    fs::read_to_string(path).unwrap_or_else(|e| panic!("{}: {e}", path.display()))
}

// One `use` of another crate: the crate, the module, and the names, or the alias under which the module is used.
struct Use {
    krate: String,
    module: String,
    names: Vec<String>,
    alias: Option<String>,
}

fn used(line: &str) -> Option<Use> {
    let rest = line.strip_prefix("use Rattle.")?;
    let (krate, rest) = rest.split_once(".specs.")?;
    // The libraries of the kit are everyone's.
    if rest.starts_with("declared.") || !specs(krate).is_dir() {
        return None;
    }
    if let Some((module, alias)) = rest.split_once(" as ") {
        if !module.contains('{') {
            return Some(Use { krate: krate.into(), module: module.into(), names: Vec::new(), alias: Some(alias.trim().into()) });
        }
    }
    let (module, names) = rest.split_once(".{")?;
    let names = names.trim_end_matches('}').split(", ");
    let names = names.map(|n| n.split(" as ").next().unwrap().trim().to_string());
    Some(Use { krate: krate.into(), module: module.into(), names: names.collect(), alias: None })
}

// The types of a module and their constructors: `data` and `record` with what stands below them, and names of types.
fn types(krate: &str, module: &str) -> BTreeSet<String> {
    let text = read(&specs(krate).join(format!("{}.antt", module.replace('.', "/"))));
    let mut found = BTreeSet::new();
    let mut inside = false;
    for line in text.lines() {
        let plain = line.trim_start_matches("pub ");
        if plain.starts_with("data ") || plain.starts_with("record ") {
            inside = plain.starts_with("data ");
            found.extend(plain.split(' ').nth(1).map(str::to_string));
        } else if inside && line.starts_with("  ") && !line.starts_with("   ") {
            let names = line.split(" : ").next().unwrap_or("");
            found.extend(names.split_whitespace().map(str::to_string));
        } else if !line.starts_with(' ') && !line.is_empty() {
            inside = false;
            if let Some((name, _)) = line.split_once(" : Type 0") {
                found.extend(name.split(' ').last().map(str::to_string));
            }
        }
    }
    found
}

// Every name that a module's alias brings into a file.
fn through(text: &str, alias: &str) -> BTreeSet<String> {
    let mark = format!("{alias}.");
    let code = text.lines().filter(|l| !l.starts_with("--") && !l.starts_with("use "));
    let mut found = BTreeSet::new();
    for line in code {
        for (at, _) in line.match_indices(&mark) {
            let before = line[..at].chars().next_back();
            if before.is_none_or(|c| !c.is_alphanumeric() && c != '.') {
                let name = line[at + mark.len()..].split([' ', ')', ',', ';', '}', '.']).next();
                found.extend(name.map(str::to_string));
            }
        }
    }
    found
}

type Held = BTreeSet<(String, String, String)>;

fn specs(krate: &str) -> PathBuf {
    ["crates", krate, "specs"].iter().collect()
}

// The wording of a statement: from the line that declares its name to the next empty one.
fn wording(text: &str, name: &str) -> String {
    let declares = |line: &&str| line.split(" : ").next().is_some_and(|left| left.split(' ').any(|word| word == name)) && !line.starts_with(' ');
    let from_there = text.lines().skip_while(|line| !declares(line));
    from_there.take_while(|line| !line.is_empty()).flat_map(|line| [line, "\n"]).collect()
}

fn mentions(text: &str, name: &str) -> bool {
    text.split(|c: char| !c.is_alphanumeric() && !"_'".contains(c)).any(|word| word == name)
}

// Of the names that a list has in backquotes, those that a statement which it cites is about: crate, module and definition.
fn held_by(statement: &Use, list: &str) -> Vec<(String, String, String)> {
    let text = read(&specs(&statement.krate).join(format!("{}.antt", statement.module.replace('.', "/"))));
    let code: String = text.lines().filter(|line| !line.starts_with("use ")).flat_map(|line| [line, "\n"]).collect();
    // A statement's wording, with that of what it cites in its file.
    let (mut about, mut todo, mut seen) = (String::new(), statement.names.clone(), BTreeSet::new());
    while let Some(name) = todo.pop() {
        let words = wording(&code, &name);
        let cites = words.split(|c: char| !c.is_alphanumeric() && !"_'".contains(c)).filter(|word| word.starts_with(char::is_uppercase));
        todo.extend(cites.map(String::from).filter(|word| seen.insert(word.clone())));
        about.push_str(&words);
    }
    let quoted = list.lines().filter(|line| line.trim_start().starts_with("-- ")).flat_map(|line| line.split('`').skip(1).step_by(2));
    let mut found = Vec::new();
    for name in quoted.filter(|name| mentions(&about, name)) {
        let brought = text.lines().filter_map(used).find(|u| u.names.iter().any(|n| n == name));
        found.extend(brought.map(|u| (u.krate, u.module, name.to_string())));
        if !wording(&code, name).is_empty() {
            found.push((statement.krate.clone(), statement.module.clone(), name.to_string()));
        }
    }
    found
}

// What the lists name: crate, module and definition. A name that only statements need is in backquotes, since no file uses it.
fn held() -> Held {
    let mut held = BTreeSet::new();
    for path in READING.iter().map(|krate| specs(krate).join("Shared.antt")).filter(|path| path.exists()) {
        let list = read(&path);
        for u in list.lines().filter_map(used) {
            held.extend(held_by(&u, &list));
            held.extend(u.names.into_iter().map(|name| (u.krate.clone(), u.module.clone(), name)));
        }
    }
    held
}

// The names of other crates in a file, and those of them that nothing holds.
fn look(path: &Path, held: &Held, wrong: &mut Vec<String>) -> usize {
    let text = read(path);
    let mut looked = 0;
    // A definition that stands among a crate's proofs is held by no list.
    let ours =
        |line: &&str| line.strip_prefix("use Rattle.").and_then(|rest| rest.split_once(".proofs.")).is_some_and(|(krate, _)| specs(krate).is_dir());
    let proofs = text.lines().filter(ours);
    wrong.extend(proofs.map(|line| format!("{}: `{line}`", path.display())));
    for u in text.lines().filter_map(used).filter(|u| !READING.contains(&&*u.krate)) {
        let types = types(&u.krate, &u.module);
        let names = match &u.alias {
            Some(alias) => through(&text, alias).into_iter().collect(),
            None => u.names,
        };
        looked += names.len();
        for name in names {
            let shared = held.contains(&(u.krate.clone(), u.module.clone(), name.clone()));
            if !types.contains(&name) && !shared && !SUBJECTS.contains(&&*name) {
                wrong.push(format!("{}: `{name}` of {}", path.display(), u.krate));
            }
        }
    }
    looked
}

fn main() {
    let (held, mut wrong, mut looked) = (held(), Vec::new(), 0);
    for krate in READING {
        for entry in fs::read_dir(specs(krate)).unwrap() {
            let path = entry.unwrap().path();
            let name = path.file_name().unwrap().to_string_lossy().into_owned();
            if path.is_file() && !LEFT_OUT.contains(&name.as_str()) && !name.ends_with("Cases.antt") {
                looked += look(&path, &held, &mut wrong);
            }
        }
    }
    for line in &wrong {
        eprintln!("{line} is shared with the machine, and no list of Shared holds it");
    }
    if !wrong.is_empty() {
        std::process::exit(1);
    }
    println!("shared: {looked} names of other crates are types, held by theorems, or what the statements are about");
}
