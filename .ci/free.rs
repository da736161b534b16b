//! Finds definitions that nothing but the code holds. Run in the repository's root:
//!
//!     free [--sample N] [--each N] [--seed S] [--name NAME] [--own] [--list] [--noticed] CRATE ..
//!
//! It changes one definition of a crate's specs/ at a time, of those that a public function's contract cites, directly or through definitions, and
//! checks all theorems, laws and cases again, with no function beside them: a copy in a temporary folder has the declared types, specs/ and the
//! theorem files of proofs/ alone. So what fails is never a function's own contract. First the crate itself is checked, over what it uses; what is
//! free there is tried on each library that uses the crate, one after the other. A change that no statement notices is printed, `free FILE:LINE NAME
//! change`: a program that is wrong in that way can be proved. `noticed` is no proof of strength, since a proof may fail where the statement still
//! holds; `unfit` is a change after which the definition has no type. `.ci/free.txt` lists changes that mean the same as before, each with its reason.
//!
//! --sample N takes N changes of each crate, --each N of each definition, drawn by the seed S (1); --name takes those of one definition; --own leaves
//! the crates above out; --list prints the changes and checks nothing; --noticed prints by what each change was noticed. The status is 1 where a
//! change is free and not excepted, where an exception is stale, and where nothing was noticed. FREE_WORK names another folder for the copy, so that
//! two runs can go side by side.
use std::collections::{BTreeMap, BTreeSet};
use std::fs;
use std::ops::Range;
use std::path::{Path, PathBuf};
use std::process::{exit, Command};

const EXCEPTIONS: &str = ".ci/free.txt";
// Libraries without a statement about a promise: the archive's functions, the benchmark and what test programs share.
const LEFT_OUT: [&str; 4] = ["ffi_export", "ffi_bench", "test_lines", "test_playing"];

fn read(path: &Path) -> String {
    fs::read_to_string(path).unwrap_or_else(|e| panic!("{}: {e}", path.display()))
}

/// The folder of the copy, outside of the repository, in which `rt ci` refuses one.
fn work() -> PathBuf {
    let here = std::env::current_dir().expect("a folder");
    std::env::var("FREE_WORK").map_or(std::env::temp_dir().join("rufflesquash_free"), |folder| here.join(folder))
}

fn write(path: &Path, text: &str) {
    fs::create_dir_all(path.parent().expect("a folder")).expect("a folder made");
    fs::write(path, text).unwrap_or_else(|e| panic!("{}: {e}", path.display()));
}

/// The files of a folder and below it with an extension, in order.
fn files(folder: &Path, extension: &str) -> Vec<PathBuf> {
    let Ok(entries) = fs::read_dir(folder) else { return Vec::new() };
    let mut all: Vec<PathBuf> = entries.map(|entry| entry.expect("an entry").path()).collect();
    all.sort();
    let below = |path: PathBuf| match path.is_dir() {
        true if path.ends_with("out") => Vec::new(),
        true => files(&path, extension),
        false => Vec::from_iter(path.extension().is_some_and(|x| x == extension).then_some(path)),
    };
    all.into_iter().flat_map(below).collect()
}

fn is_name(c: char) -> bool {
    c.is_alphanumeric() || c == '_'
}

/// Whether a word stands in a text of Rattle.
fn has_word(text: &str, word: &str) -> bool {
    text.split(|c| !is_name(c)).any(|w| w == word)
}

// ---- the libraries of the repository

/// A library and the libraries of the repository that it uses, in the order of crates.txt.
struct Library {
    name: String,
    uses: Vec<String>,
}

fn libraries() -> Vec<Library> {
    let list = read(Path::new("crates.txt"));
    let lines = list.lines().filter(|line| !line.starts_with('#')).filter_map(|line| line.split_once(':'));
    let there = |name: &str| !LEFT_OUT.contains(&name) && Path::new("crates").join(name).join("src/lib.rt").exists();
    let bare = |name: &str| name.split_whitespace().next().unwrap_or("").to_string();
    let library = |(name, uses): (&str, &str)| Library { name: bare(name), uses: uses.split_whitespace().map(String::from).collect() };
    lines.filter(|(name, _)| there(name)).map(library).collect()
}

/// The libraries that reach or are reached from a crate, itself among them.
fn closure(all: &[Library], start: &str, above: bool) -> BTreeSet<String> {
    let mut found = BTreeSet::from([start.to_string()]);
    loop {
        let mut more = found.clone();
        for library in all {
            if above && library.uses.iter().any(|used| found.contains(used)) {
                more.insert(library.name.clone());
            } else if !above && found.contains(&library.name) {
                more.extend(library.uses.iter().cloned());
            }
        }
        if more == found {
            return found;
        }
        found = more;
    }
}

// ---- Rattle files without functions

/// An item of a file of Rattle: its first word (`struct`, `use`, ..), its name, and its text. A function has no text.
struct Item {
    kind: String,
    name: String,
    text: String,
}

/// The place after the bracket that closes the one at `open`; comments, texts and characters are passed over.
fn closing(text: &str, open: usize) -> usize {
    let bytes = text.as_bytes();
    let (mut at, mut depth) = (open, 0);
    loop {
        match bytes[at] {
            b'/' if bytes[at + 1] == b'/' => at += text[at..].find('\n').expect("a line's end"),
            b'\'' if bytes[at - 1] == b'b' && bytes[at + 2] == b'\'' => at += 2,
            b'\'' if bytes[at - 1] == b'b' && bytes[at + 1] == b'\\' && bytes[at + 3] == b'\'' => at += 3,
            b'"' => at += 1 + text[at + 1..].find('"').expect("a text's end"),
            b'{' => depth += 1,
            b'}' if depth == 1 => return at + 1,
            b'}' => depth -= 1,
            _ => {}
        }
        at += 1;
    }
}

/// The end of an item that begins at `at` with a word.
fn item_end(text: &str, at: usize, kind: &str) -> usize {
    let semicolon = || text[at..].find(';').map_or(text.len(), |i| at + i + 1);
    match kind {
        "fn" => {
            let mut from = at;
            loop {
                let open = from + text[from..].find('{').expect("a body");
                // A clause may have a name.
                let is_clause = {
                    let mut before = text[from..open].split_whitespace().rev().map(|word| word.trim_end_matches('*'));
                    let clauses = ["ensures", "requires", "ghost"];
                    before.next().is_some_and(|word| clauses.contains(&word)) || before.next().is_some_and(|word| clauses.contains(&word))
                };
                from = closing(text, open);
                if !is_clause {
                    return from;
                }
            }
        }
        "const" => {
            let mut depth = 0;
            for (i, c) in text[at..].char_indices() {
                depth += i32::from("[{(".contains(c)) - i32::from("]})".contains(c));
                if c == ';' && depth == 0 {
                    return at + i + 1;
                }
            }
            text.len()
        }
        "use" | "ghost" | "type" => semicolon(),
        _ => match text[at..].find('{').map(|i| at + i) {
            Some(open) if open < semicolon() => closing(text, open),
            _ => semicolon(),
        },
    }
}

/// The items of a file of Rattle.
fn items(text: &str) -> Vec<Item> {
    let mut found = Vec::new();
    let mut at = 0;
    while let Some(skipped) = text[at..].find(|c: char| !c.is_whitespace()) {
        at += skipped;
        if text[at..].starts_with("//") || text[at..].starts_with('#') {
            at += text[at..].find('\n').unwrap_or(text.len() - at);
            continue;
        }
        let words = text[at..].split(|c: char| c.is_whitespace() || c == '(' || c == ':' || c == ';' || c == ')').filter(|w| !w.is_empty());
        let mut words = words.skip_while(|w| ["pub", "crate", "extern", "\"C\""].contains(w));
        let (kind, name) = (words.next().expect("an item").to_string(), words.next().unwrap_or("").to_string());
        let end = item_end(text, at, &kind);
        found.push(Item { text: text[at..end].to_string(), kind, name });
        at = end;
    }
    found
}

/// A `use` item with those of its names that stand in a text, if there are some.
fn used_in(text: &str, types: &str) -> Option<String> {
    let whole = text.split_whitespace().collect::<Vec<_>>().join(" ");
    let last = |name: &str| name.trim_end_matches(';').rsplit(|c: char| !is_name(c)).next().unwrap_or("").to_string();
    let Some((path, names)) = whole.split_once('{') else { return has_word(types, &last(&whole)).then_some(whole) };
    let names = names.split('}').next().unwrap_or("").split(',').map(str::trim).filter(|name| !name.is_empty() && has_word(types, &last(name)));
    let names = names.collect::<Vec<_>>().join(", ");
    (!names.is_empty()).then(|| format!("{path}{{{names}}};"))
}

/// Of each library the files of Rattle: path below src/ and items.
type Sources = BTreeMap<String, Vec<(PathBuf, Vec<Item>)>>;

/// The names of declared types that files of specs and proofs cite.
fn cited_types(texts: &[&String]) -> BTreeSet<String> {
    let mut found = BTreeSet::new();
    for line in texts.iter().flat_map(|text| text.lines()).filter(|line| line.starts_with("use ")) {
        if let Some((_, path)) = line.split_once("declared.") {
            let path = path.split(|c: char| c.is_whitespace() || c == '{').next().unwrap_or("");
            found.extend(path.split('.').filter(|part| !part.is_empty()).map(String::from));
        }
    }
    found
}

/// The names of the types and constants that are kept: those cited, and those that a kept one mentions.
fn kept_names(sources: &Sources, mut names: BTreeSet<String>) -> BTreeSet<String> {
    loop {
        let kept = sources.values().flatten().flat_map(|(_, items)| items).filter(|item| names.contains(&item.name));
        let words = kept.flat_map(|item| item.text.split(|c| !is_name(c))).filter(|w| w.starts_with(char::is_uppercase));
        let more: BTreeSet<String> = words.map(String::from).collect();
        if more.is_subset(&names) {
            return names;
        }
        names.extend(more);
    }
}

/// The modules of a library that hold a kept item, and those above them: the paths of their files without the extension.
fn kept_modules(files: &[(PathBuf, Vec<Item>)], kept: &BTreeSet<String>) -> BTreeSet<PathBuf> {
    let holds = |items: &[Item]| items.iter().any(|item| is_kept(item, kept));
    let with = files.iter().filter(|(_, items)| holds(items)).map(|(path, _)| path.with_extension(""));
    with.flat_map(|path| path.ancestors().map(PathBuf::from).collect::<Vec<_>>()).collect()
}

fn is_kept(item: &Item, kept: &BTreeSet<String>) -> bool {
    ["struct", "enum", "const", "type"].contains(&item.kind.as_str()) && kept.contains(&item.name)
}

/// Writes a library's files of Rattle with the kept types and constants alone.
fn write_types(library: &str, files: &[(PathBuf, Vec<Item>)], kept: &BTreeSet<String>) {
    let modules = kept_modules(files, kept);
    for (path, items) in files {
        let own = path.with_extension("");
        let is_root = own == Path::new("lib");
        if !is_root && !modules.contains(&own) {
            continue;
        }
        let types = items.iter().filter(|item| is_kept(item, kept)).map(|item| item.text.as_str()).collect::<Vec<_>>().join("\n");
        let below = if is_root { PathBuf::new() } else { own };
        let stays = |item: &Item| match item.kind.as_str() {
            "use" => used_in(&item.text, &types),
            "mod" => (item.text.ends_with(';') && modules.contains(&below.join(&item.name))).then(|| item.text.clone()),
            _ => is_kept(item, kept).then(|| item.text.clone()),
        };
        let text = items.iter().filter_map(stays).collect::<Vec<_>>().join("\n");
        write(&work().join("crates").join(library).join("src").join(path), &format!("{text}\n"));
    }
}

// ---- the copy that is checked

/// The files of specs/ and of proofs/ that hold no function's proof: library, folder, module and text.
struct Theory {
    library: String,
    folder: &'static str,
    module: String,
    text: String,
}

fn theories(all: &[Library]) -> Vec<Theory> {
    let mut found = Vec::new();
    for library in all {
        for folder in ["specs", "proofs"] {
            let at = Path::new("crates").join(&library.name).join(folder);
            for path in files(&at, "antt").into_iter().filter(|path| path.parent() == Some(&at)) {
                let module = path.file_stem().expect("a name").to_string_lossy().to_string();
                found.push(Theory { library: library.name.clone(), folder, module, text: read(&path) });
            }
        }
    }
    found
}

/// The library of the repository and the module of its proofs/ that a line uses.
fn used_proof(line: &str) -> Option<(String, String)> {
    let (library, module) = line.strip_prefix("use Rattle.")?.split_once(".proofs.")?;
    let end = |c: char| c == '.' || c.is_whitespace();
    let ours = Path::new("crates").join(library).exists();
    ours.then(|| (library.to_string(), module.split(end).next().unwrap_or("").to_string()))
}

/// Leaves out the theorem files that cite a function's contract, which the copy has not, and those that cite such a file.
fn without_functions(mut theories: Vec<Theory>) -> Vec<Theory> {
    loop {
        let proofs = theories.iter().filter(|t| t.folder == "proofs").map(|t| (t.library.clone(), t.module.clone()));
        let there: BTreeSet<(String, String)> = proofs.collect();
        let before = theories.len();
        theories.retain(|t| t.text.lines().filter_map(used_proof).all(|used| there.contains(&used)));
        if theories.len() == before {
            return theories;
        }
    }
}

/// A root file lists the modules that are there.
fn listed(theory: &Theory, there: &BTreeSet<(String, String)>) -> String {
    let stays = |line: &&str| match line.split_once("mod ") {
        Some((_, module)) if theory.module == "Lib" && theory.folder == "proofs" => there.contains(&(theory.library.clone(), module.to_string())),
        _ => true,
    };
    theory.text.lines().filter(stays).map(|line| format!("{line}\n")).collect()
}

fn write_copy(all: &[Library]) {
    let _ = fs::remove_dir_all(work().join("crates"));
    let theories = without_functions(theories(all));
    let proofs = theories.iter().filter(|t| t.folder == "proofs").map(|t| (t.library.clone(), t.module.clone()));
    let there: BTreeSet<(String, String)> = proofs.collect();
    for theory in &theories {
        let at = work().join("crates").join(&theory.library).join(theory.folder).join(format!("{}.antt", theory.module));
        write(&at, &listed(theory, &there));
    }
    let mut sources = Sources::new();
    for library in all {
        let at = Path::new("crates").join(&library.name).join("src");
        let parsed = files(&at, "rt").into_iter().map(|path| (path.strip_prefix(&at).expect("below src/").to_path_buf(), items(&read(&path))));
        sources.insert(library.name.clone(), parsed.collect());
    }
    let kept = kept_names(&sources, cited_types(&theories.iter().map(|t| &t.text).collect::<Vec<_>>()));
    sources.iter().for_each(|(library, files)| write_types(library, files, &kept));
    write(&work().join("crates/top/src/lib.rt"), "#![tactic(auto)]\n");
    write(&work().join("crates.txt"), "top:\n");
}

/// What a check of the copy says: nothing, or the places of its errors.
enum Verdict {
    Proved,
    Refused(Vec<(String, usize, String)>),
    NoVerdict(String),
}

/// Checks these libraries of the copy as sources, beside an empty crate, in one run over what earlier ones kept.
fn check(libraries: &BTreeSet<String>) -> Verdict {
    let here = work();
    let mut command = Command::new("rt");
    command.current_dir(here.join("crates/top")).arg("check").arg("--jobs").arg("1");
    for library in libraries {
        command.arg("--lib").arg(format!("{library}={}", here.join("crates").join(library).join("src/lib.rt").display()));
    }
    let output = command.output().expect("rt");
    let said = String::from_utf8_lossy(&output.stdout).to_string() + &String::from_utf8_lossy(&output.stderr);
    if output.status.success() {
        return Verdict::Proved;
    }
    if !said.lines().any(|line| line.starts_with("logic=not-proved")) {
        return Verdict::NoVerdict(said);
    }
    Verdict::Refused(said.lines().filter_map(error_at).collect())
}

/// The file, the line and the name of an error's line.
fn error_at(line: &str) -> Option<(String, usize, String)> {
    let (place, said) = line.split_once(": error")?;
    let mut parts = place.rsplitn(3, ':');
    let (_, row, file) = (parts.next()?, parts.next()?, parts.next()?);
    let name = said.split('`').nth(1).unwrap_or("").to_string();
    let file = file.rsplit_once("/crates/").map_or(file, |(_, rest)| rest);
    Some((file.to_string(), row.parse().ok()?, name))
}

// ---- definitions

/// A word of antt with its place; a bracket has the index of the one that closes it.
#[derive(Clone)]
struct Token {
    text: String,
    at: Range<usize>,
    close: usize,
}

/// The words of a part of a text, without comments.
fn tokens(text: &str, part: Range<usize>) -> Vec<Token> {
    let mut found: Vec<Token> = Vec::new();
    let mut open = Vec::new();
    let mut at = part.start;
    while at < part.end {
        let rest = &text[at..part.end];
        let c = rest.chars().next().expect("a character");
        let word = |c: char| c.is_whitespace() || "(){};,".contains(c);
        let len = match c {
            _ if c.is_whitespace() => c.len_utf8(),
            '-' if rest.starts_with("-- ") => rest.find('\n').unwrap_or(rest.len()),
            '"' => 2 + rest[1..].find('"').expect("a text's end"),
            _ if word(c) => 1,
            // A field and what it is of are two words; a name behind a module's is one.
            '.' => 1 + rest[1..].find(|c: char| word(c) || c == '.').unwrap_or(rest.len() - 1),
            _ if c.is_lowercase() || c == '_' => rest.find(|c: char| word(c) || c == '.').unwrap_or(rest.len()),
            _ => rest.find(word).unwrap_or(rest.len()),
        };
        if !c.is_whitespace() && !rest.starts_with("-- ") {
            match c {
                '(' | '{' => open.push(found.len()),
                ')' | '}' => {
                    let here = found.len();
                    open.pop().into_iter().for_each(|from: usize| found[from].close = here);
                }
                _ => {}
            }
            found.push(Token { text: rest[..len].to_string(), at: at..at + len, close: found.len() });
        }
        at += len;
    }
    found
}

/// One clause of a definition: its head without the name, and its body.
struct Clause {
    head: Range<usize>,
    body: Range<usize>,
}

/// A definition that is no statement: its lines counted from 1, the types of its arguments, the type of its answer, its clauses.
struct Definition {
    name: String,
    lines: Range<usize>,
    whole: Range<usize>,
    takes: Vec<String>,
    gives: String,
    is_statement: bool,
    clauses: Vec<Clause>,
}

/// A file of specs/: what each name that it uses stands for (library, module, name), and its definitions.
struct Spec {
    library: String,
    module: String,
    text: String,
    uses: BTreeMap<String, (String, String, String)>,
    definitions: Vec<Definition>,
    constructors: BTreeMap<String, (Vec<String>, String)>,
}

/// The types of a signature's arguments, and that of the answer.
fn types(signature: &str) -> (Vec<String>, String) {
    let words = tokens(signature, 0..signature.len());
    let (mut parts, mut from, mut at) = (Vec::new(), 0, 0);
    while at < words.len() {
        if words[at].text == "→" {
            parts.push(from..at);
            from = at + 1;
        }
        at = words[at].close.max(at) + 1;
    }
    let text = |range: Range<usize>| words[range].iter().map(|w| w.text.as_str()).collect::<Vec<_>>().join(" ");
    let mut takes = Vec::new();
    for part in parts {
        let mut at = part.start;
        let colon = |at: usize| (at..words[at].close).find(|i| words[*i].text == ":");
        if words[at].text != "(" || colon(at).is_none() {
            takes.extend((words[at].text != "{").then(|| text(part)));
            continue;
        }
        while at < part.end && words[at].text == "(" {
            let colon = colon(at).unwrap_or(at + 1);
            takes.extend((at + 1..colon).map(|_| text(colon + 1..words[at].close)));
            at = words[at].close + 1;
        }
    }
    (takes, text(from..words.len()))
}

/// The pieces of a file that begin at a line's start, each with what is indented below it.
fn pieces(text: &str) -> Vec<Range<usize>> {
    let mut starts = Vec::new();
    let mut at = 0;
    for line in text.split_inclusive('\n') {
        if !line.starts_with(' ') {
            starts.push(at);
        }
        at += line.len();
    }
    let ends = starts.iter().skip(1).copied().chain([text.len()]);
    starts.iter().zip(ends).map(|(start, end)| *start..start + text[*start..end].trim_end().len()).filter(|r| !r.is_empty()).collect()
}

/// The name that a piece declares, with its signature.
fn declared(piece: &str) -> Option<(&str, &str)> {
    let piece = piece.strip_prefix("abbrev ").or(piece.strip_prefix("unfoldable ")).unwrap_or(piece);
    let (name, signature) = piece.strip_prefix("pub ").unwrap_or(piece).split_once(" : ")?;
    (!name.contains(char::is_whitespace)).then_some((name, signature))
}

fn definitions(text: &str) -> Vec<Definition> {
    let mut found: Vec<Definition> = Vec::new();
    let line = |at: usize| text[..at].matches('\n').count() + 1;
    for piece in pieces(text) {
        let whole = &text[piece.clone()];
        if whole.starts_with("--") || whole.starts_with("use ") || whole.starts_with("unfolding ") {
            continue;
        }
        if let Some((name, signature)) = declared(whole) {
            let (takes, gives) = types(signature);
            let is_statement = gives.starts_with("Type ") || signature.contains('≡');
            let lines = line(piece.start)..line(piece.end) + 1;
            found.push(Definition { name: name.into(), lines, whole: piece, takes, gives, is_statement, clauses: Vec::new() });
            continue;
        }
        let Some(last) = found.last_mut() else { continue };
        let Some(rest) = whole.strip_prefix(last.name.as_str()).filter(|rest| rest.starts_with(' ')) else { continue };
        let Some(equals) = rest.find(" =\n").or(rest.find(" = ")).map(|first| rest.find(" = ").map_or(first, |second| first.min(second))) else {
            continue;
        };
        let start = piece.start + last.name.len();
        last.clauses.push(Clause { head: start..start + equals, body: start + equals + 3..piece.end });
        last.lines.end = line(piece.end) + 1;
        last.whole.end = piece.end;
    }
    found
}

/// What a `use` line of another file of definitions brings: each name with its library, its module and its own name. A module's short name has "".
fn brought(line: &str) -> Vec<(String, (String, String, String))> {
    let Some((library, path)) = line.trim_end_matches(';').split_once("use Rattle.").and_then(|(_, rest)| rest.split_once(".specs.")) else {
        return Vec::new();
    };
    let library = library.to_string();
    if let Some((module, names)) = path.split_once(".{") {
        let one = |name: &str| {
            let (own, here) = name.trim().split_once(" as ").unwrap_or((name.trim(), name.trim()));
            (here.trim_matches('◌').to_string(), (library.clone(), module.to_string(), own.to_string()))
        };
        return names.trim_end_matches('}').split(',').map(one).collect();
    }
    let module = |(module, short): (&str, &str)| (short.trim().to_string(), (library.clone(), module.to_string(), String::new()));
    path.split_once(" as ").map(module).into_iter().collect()
}

/// The constructors of the types that a file declares, each with the types of its arguments and its own.
fn constructors(text: &str) -> BTreeMap<String, (Vec<String>, String)> {
    let texts = pieces(text).into_iter().map(|piece| &text[piece]);
    let of_data = texts.filter(|text| text.starts_with("pub data ") || text.starts_with("data "));
    let lines = of_data.flat_map(|text| text.lines().skip(1)).filter_map(|line| line.strip_prefix("  ")).filter(|line| !line.starts_with([' ', '-']));
    let named = lines.filter_map(|line| line.split_once(" : "));
    named.flat_map(|(names, held)| names.split(' ').map(|name| (name.to_string(), types(held))).collect::<Vec<_>>()).collect()
}

fn specs(all: &[Library]) -> Vec<Spec> {
    let mut found = Vec::new();
    for theory in theories(all).into_iter().filter(|t| t.folder == "specs") {
        let uses = theory.text.lines().filter(|line| line.starts_with("use ")).flat_map(brought).collect();
        let (definitions, constructors) = (definitions(&theory.text), constructors(&theory.text));
        found.push(Spec { library: theory.library, module: theory.module, text: theory.text, uses, definitions, constructors });
    }
    found
}

/// What a word of a file stands for, where it is a definition's name.
fn meant(spec: &Spec, word: &str) -> Option<(String, String, String)> {
    let word = word.trim_end_matches('.');
    if spec.definitions.iter().any(|d| d.name.trim_matches('◌') == word) {
        return Some((spec.library.clone(), spec.module.clone(), word.to_string()));
    }
    if let Some(used) = spec.uses.get(word).filter(|used| !used.2.is_empty()) {
        return Some(used.clone());
    }
    let (module, name) = word.split_once('.')?;
    spec.uses.get(module).filter(|used| used.2.is_empty()).map(|used| (used.0.clone(), used.1.clone(), name.to_string()))
}

/// The contracts of the public functions among these items, methods too.
fn contracts(items: &[Item]) -> Vec<String> {
    let mut found = Vec::new();
    for item in items {
        let text = &item.text;
        if item.kind == "impl" {
            let inside = text.find('{').map_or("", |open| &text[open + 1..text.len() - 1]);
            found.extend(contracts(&self::items(inside)));
        } else if item.kind == "fn" && (text.starts_with("pub fn") || text.starts_with("pub extern")) {
            found.push(text.split("\n{").next().unwrap_or("").split("\n    {").next().unwrap_or("").to_string());
        }
    }
    found
}

/// The definitions that the contracts of a file's public functions cite.
fn cited(text: &str) -> Vec<(String, String, String)> {
    let lines = text.lines().filter(|line| line.starts_with("ghost use "));
    let names: BTreeMap<String, (String, String, String)> = lines.flat_map(brought).collect();
    let words: Vec<Token> = contracts(&items(text)).iter().flat_map(|contract| tokens(contract, 0..contract.len())).collect();
    let full = |(module, name): (&str, &str)| names.get(module).map(|used| (used.0.clone(), used.1.clone(), name.to_string()));
    words.iter().filter_map(|word| names.get(&word.text).cloned().or_else(|| word.text.split_once('.').and_then(full))).collect()
}

/// The definitions that the contracts of the libraries' public functions cite, directly or through other definitions.
fn reached(specs: &[Spec]) -> BTreeSet<(String, String, String)> {
    let sources = files(Path::new("crates"), "rt").into_iter().filter(|path| path.iter().any(|part| part == "src"));
    let of_library = |path: &PathBuf| !path.iter().nth(1).is_some_and(|name| Path::new("crates").join(name).join("src/main.rt").exists());
    let mut todo: Vec<(String, String, String)> = sources.filter(of_library).flat_map(|path| cited(&read(&path))).collect();
    let mut found = BTreeSet::new();
    while let Some(next) = todo.pop() {
        let Some(spec) = specs.iter().find(|s| s.library == next.0 && s.module == next.1) else { continue };
        if !found.insert(next.clone()) {
            continue;
        }
        for definition in spec.definitions.iter().filter(|d| d.name.trim_matches('◌') == next.2.trim_matches('◌')) {
            todo.extend(tokens(&spec.text, definition.whole.clone()).iter().filter_map(|word| meant(spec, &word.text)));
        }
    }
    found
}

// ---- types, as far as they are seen from the words

/// What is known of names: of each definition and constructor its arguments' types and its answer's, of each variant of a declared type too, of each
/// field its type.
#[derive(Default)]
struct Known {
    definitions: BTreeMap<(String, String, String), (Vec<String>, String)>,
    variants: BTreeMap<String, (Vec<String>, String)>,
    fields: BTreeMap<String, String>,
}

impl Known {
    /// What a file's word takes and gives, where it is a definition, a constructor or a variant.
    fn of(&self, spec: &Spec, word: &str) -> Option<&(Vec<String>, String)> {
        let own = || (spec.library.clone(), spec.module.clone(), word.to_string());
        let name = meant(spec, word).or_else(|| spec.constructors.contains_key(word).then(own));
        let variant = || word.rsplit('.').next().filter(|name| name.starts_with(char::is_uppercase)).and_then(|name| self.variants.get(name));
        name.and_then(|name| self.definitions.get(&name)).or_else(variant)
    }
}

/// The type of antt for one of Rattle.
fn type_of(rattle: &str) -> String {
    match rattle.trim().trim_start_matches("pub ") {
        "u8" | "u16" | "u32" | "u64" | "usize" => "ℕ".into(),
        "i8" | "i16" | "i32" | "i64" => "ℤ".into(),
        "bool" => "Bool".into(),
        other if other.starts_with("[u") => "List ℕ".into(),
        other => other.rsplit("::").next().unwrap_or(other).into(),
    }
}

/// The variants of an enum, each with the types that it holds.
fn variants(text: &str) -> Vec<(String, Vec<String>)> {
    let mut found: Vec<(String, Vec<String>)> = Vec::new();
    let lines = text.lines().skip(1).map(|line| line.trim().trim_end_matches(',')).filter(|line| !line.starts_with("//"));
    for line in lines.filter(|line| !line.is_empty() && *line != "}") {
        match (line.split_once(": "), line.split_once('(')) {
            (Some((_, held)), _) => found.iter_mut().last().into_iter().for_each(|(_, types)| types.push(type_of(held))),
            (_, Some((name, held))) => found.push((name.into(), held.trim_end_matches(')').split(',').map(type_of).collect())),
            _ => found.push((line.trim_end_matches(" {").into(), Vec::new())),
        }
    }
    found
}

/// Learns the fields and constructors of a declared type. A field's name with two types is known to have none.
fn learn_type(known: &mut Known, item: &Item) {
    let lines = item.text.lines().filter(|line| !line.trim_start().starts_with("//"));
    match item.kind.as_str() {
        "enum" => known.variants.extend(variants(&item.text).into_iter().map(|(name, takes)| (name, (takes, item.name.clone())))),
        "struct" => {
            for (name, held) in lines.filter_map(|line| line.trim().trim_end_matches(',').split_once(": ")) {
                let name = format!(".{}", name.trim_start_matches("pub "));
                let held = type_of(held);
                let same = known.fields.get(&name).is_none_or(|before| *before == held);
                known.fields.insert(name, if same { held } else { String::new() });
            }
        }
        _ => {}
    }
}

fn known(all: &[Library], specs: &[Spec]) -> Known {
    let mut known = Known::default();
    for library in all {
        let sources = files(&Path::new("crates").join(&library.name).join("src"), "rt");
        sources.iter().flat_map(|path| items(&read(path))).for_each(|item| learn_type(&mut known, &item));
    }
    for spec in specs {
        let place = |name: &String| (spec.library.clone(), spec.module.clone(), name.clone());
        known.definitions.extend(spec.constructors.iter().map(|(name, held)| (place(name), held.clone())));
        for d in &spec.definitions {
            let name = (spec.library.clone(), spec.module.clone(), d.name.trim_matches('◌').to_string());
            known.definitions.insert(name, (d.takes.clone(), d.gives.clone()));
        }
    }
    known
}

const OPERATORS: [&str; 11] = ["+", "-", "*", "/", "%", "^", "++", "∷", "→", "×", "=="];

/// A clause's body, word by word, with the types of the variables of its head and of those that it binds.
struct Body<'a> {
    spec: &'a Spec,
    known: &'a Known,
    words: Vec<Token>,
    variables: Vec<(String, String)>,
    lets: Vec<(String, String)>,
}

/// The variables that `let` binds, with their types.
fn lets(words: &[Token]) -> Vec<(String, String)> {
    let mut found = Vec::new();
    for at in (0..words.len()).filter(|i| words[*i].text == "let" && words.get(i + 2).is_some_and(|word| word.text == ":")) {
        let held: Vec<&str> = words[at + 3..].iter().map(|word| word.text.as_str()).take_while(|word| *word != "=").collect();
        found.push((words[at + 1].text.clone(), held.join(" ")));
    }
    found
}

impl Body<'_> {
    fn text(&self, range: &Range<usize>) -> &str {
        &self.spec.text[self.place(range)]
    }

    fn place(&self, range: &Range<usize>) -> Range<usize> {
        self.words[range.start].at.start..self.words[range.end - 1].at.end
    }

    /// The parts of a range between these words, brackets passed over.
    fn split(&self, range: Range<usize>, at_words: &[&str]) -> Vec<Range<usize>> {
        let (mut parts, mut from, mut at) = (Vec::new(), range.start, range.start);
        while at < range.end {
            if at_words.contains(&self.words[at].text.as_str()) {
                parts.push(from..at);
                from = at + 1;
            }
            at = self.words[at].close.max(at) + 1;
        }
        parts.push(from..range.end);
        parts.into_iter().filter(|part| !part.is_empty()).collect()
    }

    /// The insides of all brackets, and the whole.
    fn insides(&self) -> Vec<Range<usize>> {
        let brackets = (0..self.words.len()).filter(|i| self.words[*i].close > *i);
        [0..self.words.len()].into_iter().chain(brackets.map(|i| i + 1..self.words[i].close)).filter(|r| !r.is_empty()).collect()
    }

    /// The arguments that follow a word: names and brackets, up to an operator.
    fn arguments(&self, head: usize, end: usize) -> Vec<Range<usize>> {
        let (mut found, mut at) = (Vec::new(), head + 1);
        while at < end {
            let word = self.words[at].text.as_str();
            if OPERATORS.contains(&word) || [")", "}", ",", ";", "in", "=", "let", "λ", ":"].contains(&word) || word.starts_with('.') {
                break;
            }
            let next = self.behind(at);
            found.push(at..next);
            at = next;
        }
        found
    }

    /// The place behind a word or bracket and the fields that are read of it.
    fn behind(&self, at: usize) -> usize {
        let mut next = self.words[at].close.max(at) + 1;
        while self.words.get(next).is_some_and(|word| word.text.starts_with('.') && word.at.start == self.words[next - 1].at.end) {
            next += 1;
        }
        next
    }

    fn type_of_name(&self, word: &str) -> Option<(Vec<String>, String)> {
        if let Some((_, held)) = self.variables.iter().chain(&self.lets).find(|(name, _)| name == word) {
            return (!held.is_empty()).then(|| (Vec::new(), held.clone()));
        }
        let builtin = |count: usize, gives: &str| Some((vec![String::new(); count], gives.to_string()));
        match word {
            "true" | "false" => builtin(0, "Bool"),
            "ltb" | "leb" | "eqb" | "nat_lt" | "nat_le" | "nat_eq" => builtin(2, "Bool"),
            "length" => builtin(1, "ℕ"),
            "take" | "drop" => builtin(2, "List"),
            "[]" => builtin(0, "List"),
            "min" | "max" => builtin(2, "ℕ"),
            "get_or" => builtin(3, "ℕ"),
            "slice_index" => builtin(2, "ℕ"),
            _ => self.known.of(self.spec, word).cloned(),
        }
    }

    /// The type of a term, where a look at it tells.
    fn guess(&self, range: &Range<usize>) -> Option<String> {
        let first = &self.words[range.start];
        if first.text == "(" && first.close + 1 == range.end {
            return match self.split(range.start + 1..first.close, &[","]).len() {
                1 => self.guess(&(range.start + 1..first.close)),
                _ => Some("×".into()),
            };
        }
        let parts = self.split(range.clone(), &OPERATORS);
        if parts.len() > 1 {
            if self.split(range.clone(), &["=="]).len() > 1 {
                return Some("Bool".into());
            }
            let is_list = range.clone().any(|i| ["∷", "++"].contains(&self.words[i].text.as_str()));
            return Some(if is_list { "List" } else { "ℕ" }.into());
        }
        let last = &self.words[range.end - 1];
        if last.text.starts_with('.') {
            return self.known.fields.get(&last.text).filter(|held| !held.is_empty()).cloned();
        }
        if numeral(&first.text).is_some() {
            return Some("ℕ".into());
        }
        let (takes, gives) = self.type_of_name(&first.text)?;
        (takes.len() == self.arguments(range.start, range.end).len()).then_some(gives)
    }

    /// Two terms whose types are not known to differ, and whose texts differ.
    fn exchangeable(&self, a: &Range<usize>, b: &Range<usize>) -> bool {
        let alike = match (self.guess(a), self.guess(b)) {
            (Some(a), Some(b)) => a == b || [&a, &b].iter().any(|one| *one == "List") && a.starts_with("List") && b.starts_with("List"),
            _ => true,
        };
        alike && self.text(a) != self.text(b)
    }
}

fn numeral(word: &str) -> Option<u128> {
    let plain = word.replace('_', "");
    match plain.strip_prefix("0x") {
        Some(hex) => u128::from_str_radix(hex, 16).ok(),
        None => plain.parse().ok(),
    }
}

/// The words of a pattern that stand beside each other, a bracket as one.
fn atoms(words: &[Token]) -> Vec<Range<usize>> {
    let (mut found, mut at) = (Vec::new(), 0);
    while at < words.len() {
        let next = words[at].close.max(at) + 1;
        found.push(at..next);
        at = next;
    }
    found
}

/// The variables of a clause's head, each with its type, "" where that is not known.
fn variables(known: &Known, spec: &Spec, clause: &Clause, takes: &[String]) -> Vec<(String, String)> {
    let text = &spec.text;
    let words = tokens(text, clause.head.clone());
    let mut found = Vec::new();
    for (place, atom) in atoms(&words).iter().enumerate() {
        let pattern = &text[words[atom.start].at.start..words[atom.end - 1].at.end];
        bind(known, spec, pattern, takes.get(place).map_or("", |held| held.as_str()), &mut found);
    }
    found
}

/// The variables of one pattern of a type.
fn bind(known: &Known, spec: &Spec, pattern: &str, held: &str, found: &mut Vec<(String, String)>) {
    let words = tokens(pattern, 0..pattern.len());
    let Some(first) = words.first() else { return };
    if words.len() == 1 {
        let is_constructor =
            known.of(spec, &first.text).is_some() || first.text.rsplit('.').next().is_some_and(|w| w.starts_with(char::is_uppercase));
        if !is_constructor && !["[]", "_", ",", "true", "false", "zero", "none"].contains(&first.text.as_str()) {
            found.push((first.text.clone(), held.to_string()));
        }
    } else if first.close + 1 == words.len() {
        bind(known, spec, &pattern[first.at.end..words[first.close].at.start], held, found);
    } else if let Some(cons) = atoms(&words).iter().find(|atom| words[atom.start].text == "∷") {
        let element = held.strip_prefix("List ").unwrap_or("").trim_matches(['(', ')', ' ']);
        bind(known, spec, &pattern[..words[cons.start].at.start], element, found);
        bind(known, spec, &pattern[words[cons.start].at.end..], held, found);
    } else {
        let takes = known.of(spec, &first.text).map(|(takes, _)| takes);
        for (place, atom) in atoms(&words).iter().enumerate().skip(usize::from(!words.iter().any(|w| w.text == ","))) {
            let held = takes.and_then(|takes| takes.get(place - 1)).map_or("", |held| held.as_str());
            bind(known, spec, &pattern[words[atom.start].at.start..words[atom.end - 1].at.end], held, found);
        }
    }
}

// ---- changes

/// A change of one definition: the kind with its number among those of the kind, and what is written where.
struct Change {
    library: String,
    file: String,
    name: String,
    line: usize,
    lines: Range<usize>,
    added: Range<usize>,
    what: String,
    text: String,
}

/// What is written where, and in a few words what it says before and after.
struct Edit {
    kind: &'static str,
    said: String,
    parts: Vec<(Range<usize>, String)>,
}

/// A text on one line, its beginning alone where it is long.
fn short(text: &str) -> String {
    let line = text.split_whitespace().collect::<Vec<_>>().join(" ");
    match line.char_indices().nth(48) {
        Some((at, _)) => format!("{}..", &line[..at]),
        None => line,
    }
}

fn replaced(kind: &'static str, old: &str, at: Range<usize>, new: String) -> Edit {
    Edit { kind, said: format!("{} -> {}", short(old), short(&new)), parts: vec![(at, new)] }
}

impl Body<'_> {
    fn exchange(&self, kind: &'static str, a: &Range<usize>, b: &Range<usize>) -> Edit {
        let said = format!("{} <-> {}", short(self.text(a)), short(self.text(b)));
        Edit { kind, said, parts: vec![(self.place(a), self.text(b).into()), (self.place(b), self.text(a).into())] }
    }

    /// Each term exchanged with the next that may be exchanged with it.
    fn neighbours(&self, kind: &'static str, terms: &[Range<usize>]) -> Vec<Edit> {
        let next = |i: usize| terms[i + 1..].iter().find(|b| self.exchangeable(&terms[i], b)).map(|b| self.exchange(kind, &terms[i], b));
        (0..terms.len()).filter_map(next).collect()
    }

    /// A number by one; a test, a truth value, an operation for another; a text with a letter more.
    fn words_changed(&self) -> Vec<Edit> {
        let pairs = [("ltb", "leb"), ("nat_lt", "nat_le"), ("true", "false"), ("min", "max"), ("+", "-")];
        let other = |word: &str| pairs.iter().find_map(|(a, b)| if word == *a { Some(*b) } else { (word == *b).then_some(*a) });
        let is_field = |i: usize| self.words.get(i + 1).is_some_and(|next| next.text == "=");
        let mut found = Vec::new();
        for (i, word) in self.words.iter().enumerate().filter(|(i, _)| !is_field(*i)) {
            if let Some(n) = numeral(&word.text) {
                found.push(replaced("number", &word.text, word.at.clone(), (n + 1).to_string()));
            } else if let Some(new) = other(&word.text) {
                found.push(replaced("word", &word.text, word.at.clone(), new.into()));
            } else if word.text.starts_with('"') {
                let is_letter = i > 0 && self.words[i - 1].text == "code";
                let other = if word.text == "\"x\"" { "\"y\"".into() } else { "\"x\"".into() };
                let longer = format!("{}x\"", word.text.trim_end_matches('"'));
                found.push(replaced("text", &word.text, word.at.clone(), if is_letter { other } else { longer }));
            }
        }
        found
    }

    /// The two branches of a test exchanged.
    fn branches(&self) -> Vec<Edit> {
        let picks = (0..self.words.len()).filter(|i| self.words[*i].text == "pick");
        let three = |i: usize| self.arguments(i, self.words.len()).get(1..3).map(|ab| (ab[0].clone(), ab[1].clone()));
        let different = |(a, b): &(Range<usize>, Range<usize>)| self.text(a) != self.text(b);
        picks.filter_map(three).filter(different).map(|(a, b)| self.exchange("branches", &a, &b)).collect()
    }

    /// Fields of a record, parts of a pair, elements of a list exchanged.
    fn parts(&self) -> Vec<Edit> {
        let mut found = Vec::new();
        for inside in self.insides() {
            let before = |n: usize| inside.start.checked_sub(n).map_or("", |i| self.words[i].text.as_str());
            if before(1) == "{" && before(2) == "record" {
                let fields = self.split(inside.clone(), &[";"]).into_iter().map(|field| field.start + 2..field.end);
                found.extend(self.neighbours("fields", &fields.filter(|field| !field.is_empty()).collect::<Vec<_>>()));
                continue;
            }
            let parts = self.split(inside.clone(), &[","]);
            if before(1) == "(" && parts.len() > 1 {
                found.extend(self.neighbours("pair", &parts));
            }
            for line in self.split(inside, &[",", ";", "=", "in", "++"]) {
                let elements = self.split(line, &["∷"]);
                found.extend(self.neighbours("elements", &elements[..elements.len().saturating_sub(1)]));
            }
        }
        found
    }

    /// Arguments of one type exchanged where a definition, or a test of order, is applied.
    fn applied(&self) -> Vec<Edit> {
        let mut found = Vec::new();
        for head in 0..self.words.len() {
            let word = self.words[head].text.as_str();
            let takes = match word {
                "ltb" | "leb" | "nat_lt" | "nat_le" => vec!["ℕ".to_string(); 2],
                "pick" => continue,
                _ => self.type_of_name(word).map_or(Vec::new(), |(takes, _)| takes),
            };
            let arguments = self.arguments(head, self.words.len());
            for i in 0..takes.len().min(arguments.len()) {
                let same = |j: &usize| takes[*j] == takes[i] && !takes[i].is_empty() && self.text(&arguments[i]) != self.text(&arguments[*j]);
                let next = (i + 1..takes.len().min(arguments.len())).find(same);
                found.extend(next.map(|j| self.exchange("arguments", &arguments[i], &arguments[j])));
            }
        }
        found
    }

    /// The places of a variable, none where the body binds its name again.
    fn places(&self, name: &str) -> Vec<usize> {
        let after = |i: usize| self.words.get(i + 1).map_or("", |word| word.text.as_str());
        let all: Vec<usize> = (0..self.words.len()).filter(|i| self.words[*i].text == name && after(*i) != "=").collect();
        let again = self.words.iter().any(|word| word.text == format!("{name}.")) || all.iter().any(|i| after(*i) == ":");
        all.into_iter().filter(|_| !again).collect()
    }

    /// An argument that is not looked at: zero or nothing in its place, or another argument of its type.
    fn dropped(&self) -> Vec<Edit> {
        let mut found = Vec::new();
        for (i, (name, held)) in self.variables.iter().enumerate() {
            let places = self.places(name);
            let others = self.variables[i + 1..].iter().chain(&self.variables[..i]);
            let other = others.filter(|(_, other)| other == held && !held.is_empty()).map(|(name, _)| name.clone()).next();
            for new in zero(held).into_iter().map(String::from).chain(other).filter(|_| !places.is_empty()) {
                let parts = places.iter().map(|i| (self.words[*i].at.clone(), new.clone())).collect();
                found.push(Edit { kind: "argument", said: format!("{name} -> {new}"), parts });
            }
        }
        found
    }

    /// The body with other texts at these words.
    fn with(&self, range: &Range<usize>, parts: &[(Range<usize>, &str)]) -> String {
        let mut text = self.text(range).to_string();
        let from = self.place(range).start;
        for (words, new) in parts.iter().rev() {
            let place = self.place(words);
            text.replace_range(place.start - from..place.end - from, new);
        }
        text
    }

    /// A range cut out of a domain: from 1000 on and below 2000 the answer for 0, at a length of 1000 the answer for no element.
    fn cut(&self) -> Vec<Edit> {
        let whole = 0..self.words.len();
        let mut found = Vec::new();
        let mut cut = |tested: &str, parts: &[(Range<usize>, &str)]| {
            let (old, other) = (self.text(&whole), self.with(&whole, parts));
            let is_list = parts[0].1 == "[]";
            let new = match is_list {
                true => format!("pick (eqb (length {tested}) 1000) ({other}) ({old})"),
                false => format!("pick (ltb {tested} 1000) ({old}) (pick (ltb {tested} 2000) ({other}) ({old}))"),
            };
            let said = format!("{tested} {}", if is_list { "of 1000 as none" } else { "from 1000 to 1999 as 0" });
            found.push(Edit { kind: "cut", said, parts: vec![(self.place(&whole), new)] });
        };
        for (name, held) in &self.variables {
            let places = self.places(name);
            let alone = |zero: &'static str| places.iter().map(|i| (*i..*i + 1, zero)).collect::<Vec<_>>();
            match held.as_str() {
                _ if places.is_empty() => {}
                "ℕ" => cut(name, &alone("0")),
                "Lsn" | "Moment" => cut(&format!("{name}.0"), &self.as_zero(&places)),
                _ if held.starts_with("List ") => cut(name, &alone("[]")),
                _ => self.numbers_of(&places).into_iter().for_each(|(field, at)| cut(&format!("{name}{field}"), &at)),
            }
        }
        found
    }

    /// A position or moment at these places as 0, and its number.
    fn as_zero(&self, places: &[usize]) -> Vec<(Range<usize>, &'static str)> {
        let number = |i: usize| self.words.get(i + 1).is_some_and(|next| next.text == ".0");
        places.iter().map(|i| if number(*i) { (*i..*i + 2, "0") } else { (*i..*i + 1, "(record { 0 = 0 })") }).collect()
    }

    /// The fields of a variable that are numbers, with the places where each is read.
    fn numbers_of(&self, places: &[usize]) -> BTreeMap<String, Vec<(Range<usize>, &'static str)>> {
        let mut found: BTreeMap<String, Vec<(Range<usize>, &'static str)>> = BTreeMap::new();
        let is_field = |i: usize| self.words.get(i).is_some_and(|word| word.text.starts_with('.'));
        for i in places.iter().copied().filter(|i| is_field(i + 1) && !is_field(i + 2)) {
            let field = &self.words[i + 1].text;
            if self.known.fields.get(field).is_some_and(|held| held == "ℕ") {
                found.entry(field.clone()).or_default().push((i..i + 2, "0"));
            }
        }
        found
    }
}

/// What stands for nothing in a type.
fn zero(held: &str) -> Option<&'static str> {
    match held {
        "ℕ" => Some("0"),
        "Bool" => Some("false"),
        _ => held.starts_with("List ").then_some("[]"),
    }
}

/// The answers of neighbouring clauses exchanged, and one clause answered as the next.
fn answers(spec: &Spec, bodies: &[Body], clauses: &[Clause]) -> Vec<Edit> {
    let mut found = Vec::new();
    for i in 1..bodies.len() {
        let (a, b) = (&bodies[i - 1], &bodies[i]);
        let fits = |from: &Body, to: &Body| {
            let mut own = from.variables.iter().filter(|(name, _)| from.words.iter().any(|word| word.text == *name));
            own.all(|(name, _)| to.variables.iter().any(|(other, _)| other == name))
        };
        let (at_a, at_b) = (clauses[i - 1].body.clone(), clauses[i].body.clone());
        let (text_a, text_b) = (&spec.text[at_a.clone()], &spec.text[at_b.clone()]);
        if text_a == text_b {
            continue;
        }
        if fits(a, b) && fits(b, a) {
            let parts = vec![(at_a.clone(), text_b.to_string()), (at_b.clone(), text_a.to_string())];
            found.push(Edit { kind: "clauses", said: format!("{} <-> {}", short(text_a), short(text_b)), parts });
        }
        if fits(b, a) {
            found.push(replaced("clause", text_a, at_a, text_b.into()));
        } else if fits(a, b) {
            found.push(replaced("clause", text_b, at_b, text_a.into()));
        }
    }
    found
}

// Words that a change may bring into a file, with the names and modules that they are used from.
const LIBRARY: [(&str, &str, &str); 14] = [
    ("pick", "pick", "Rattle.wire.specs.Bytes"),
    ("ltb", "ltb", PRELUDE),
    ("leb", "leb", PRELUDE),
    ("nat_lt", "nat_lt", PRELUDE),
    ("nat_le", "nat_le", PRELUDE),
    ("eqb", "eqb", PRELUDE),
    ("length", "length", PRELUDE),
    ("[]", "[]", PRELUDE),
    ("true", "true", PRELUDE),
    ("false", "false", PRELUDE),
    ("min", "min", PRELUDE),
    ("max", "max", PRELUDE),
    ("+", "◌+◌", PRELUDE),
    ("-", "◌-◌", PRELUDE),
];
const PRELUDE: &str = "Rattle.std.specs.Prelude";

/// The names that a change needs and the file lacks, as `use` lines.
fn lacking(spec: &Spec, edit: &Edit) -> String {
    let there = |name: &str| {
        let listed = |line: &str| line.starts_with("use ") && line.split(|c: char| " {},".contains(c)).any(|word| word == name);
        spec.text.lines().any(listed) || spec.definitions.iter().any(|d| d.name == name)
    };
    let new: Vec<Token> = edit.parts.iter().flat_map(|(_, new)| tokens(new, 0..new.len())).collect();
    let needed = LIBRARY.iter().filter(|(word, name, _)| new.iter().any(|token| token.text == *word) && !there(name));
    needed.map(|(_, name, module)| format!("use {module}.{{{name}}}\n")).collect()
}

/// All changes of a definition.
fn changes(spec: &Spec, known: &Known, definition: &Definition) -> Vec<Change> {
    let body = |clause: &Clause| {
        let variables = variables(known, spec, clause, &definition.takes);
        let words = tokens(&spec.text, clause.body.clone());
        Body { spec, known, lets: lets(&words), words, variables }
    };
    let bodies: Vec<Body> = definition.clauses.iter().map(body).collect();
    let mut edits = answers(spec, &bodies, &definition.clauses);
    for body in bodies.iter().filter(|body| !body.words.is_empty()) {
        edits.extend([body.words_changed(), body.branches(), body.parts(), body.applied(), body.dropped(), body.cut()].into_iter().flatten());
    }
    let mut counts: BTreeMap<&str, usize> = BTreeMap::new();
    let mut change = |mut edit: Edit| {
        let count = counts.entry(edit.kind).or_default();
        *count += 1;
        edit.parts.sort_by_key(|(at, _)| at.start);
        let line = spec.text[..edit.parts[0].0.start].matches('\n').count() + 1;
        let mut text = spec.text.clone();
        edit.parts.iter().rev().for_each(|(at, new)| text.replace_range(at.clone(), new));
        let more = lacking(spec, &edit);
        let (shift, longer) = (more.lines().count(), text.lines().count() - spec.text.lines().count().min(text.lines().count()));
        let lines = definition.lines.start + shift..definition.lines.end + shift + longer;
        let start = text.find("\nuse ").map_or(0, |at| at + 1);
        let first = text[..start].matches('\n').count() + 1;
        text.insert_str(start, &more);
        let what = format!("{} {count}, {}", edit.kind, edit.said);
        let (library, file, name) = (spec.library.clone(), format!("{}.antt", spec.module), definition.name.clone());
        Change { library, file, name, line, lines, added: first..first + shift, what, text }
    };
    edits.into_iter().map(&mut change).collect()
}

// ---- the run

/// Whether a change is the one that an exception names, in which `*` stands for any number.
fn names(exception: &Key, change: &Key) -> bool {
    let is_what = match exception.3.split_once('*') {
        None => exception.3 == change.3,
        Some((before, after)) => change.3.strip_prefix(before).is_some_and(|rest| rest.trim_start_matches(|c: char| c.is_ascii_digit()) == after),
    };
    is_what && (&exception.0, &exception.1, &exception.2) == (&change.0, &change.1, &change.2)
}

/// A change by library, file, name and what it does.
type Key = (String, String, String, String);

/// The exceptions, changes that mean the same, each with its reason.
fn exceptions() -> BTreeMap<Key, String> {
    let mut found = BTreeMap::new();
    let text = fs::read_to_string(EXCEPTIONS).unwrap_or_default();
    for line in text.lines().filter(|line| !line.starts_with('#') && !line.trim().is_empty()) {
        let (change, reason) = line.split_once(" | ").unwrap_or_else(|| panic!("{EXCEPTIONS}: no reason: {line}"));
        let mut words = change.splitn(4, ' ').map(|word| word.trim().to_string());
        let mut word = || words.next().unwrap_or_else(|| panic!("{EXCEPTIONS}: not CRATE FILE NAME CHANGE: {line}"));
        found.insert((word(), word(), word(), word()), reason.to_string());
    }
    found
}

impl Change {
    fn key(&self) -> Key {
        (self.library.clone(), self.file.clone(), self.name.clone(), self.what.clone())
    }

    fn path(&self) -> PathBuf {
        work().join("crates").join(&self.library).join("specs").join(&self.file)
    }

    fn shown(&self) -> String {
        format!("crates/{}/specs/{}:{} {} {}", self.library, self.file, self.line, self.name, self.what)
    }
}

/// How a change ends.
enum End {
    Free,
    Noticed(String),
    Unfit,
}

/// A set of libraries that are checked together, and whether they were seen to be proved without a change.
struct Set {
    libraries: BTreeSet<String>,
    proved: bool,
}

impl Set {
    fn prove(&mut self, library: &str) {
        if !self.proved {
            proved_first(&self.libraries, library);
            self.proved = true;
        }
    }
}

/// Checks libraries with a change in one file, set after set until one of them notices it, and writes the file back. The number of that set.
fn tried(change: &Change, sets: &mut [Set]) -> (End, usize) {
    let old = read(&change.path());
    let mut found = (End::Free, sets.len());
    for (i, set) in sets.iter_mut().enumerate() {
        set.prove(&change.library);
        write(&change.path(), &change.text);
        let end = ended(change, check(&set.libraries));
        write(&change.path(), &old);
        if !matches!(end, End::Free) {
            found = (end, i);
            break;
        }
    }
    found
}

/// How a change ends by a check's verdict.
fn ended(change: &Change, verdict: Verdict) -> End {
    let own = format!("{}/specs/{}", change.library, change.file);
    let is_own = |file: &str, line: &usize| file == own && (change.lines.contains(line) || change.added.contains(line));
    match verdict {
        Verdict::Proved => End::Free,
        Verdict::NoVerdict(_) => End::Unfit,
        Verdict::Refused(errors) if errors.iter().any(|(file, line, _)| is_own(file, line)) => End::Unfit,
        Verdict::Refused(errors) => End::Noticed(errors.first().map_or(String::new(), |(file, line, name)| format!("{file}:{line} {name}"))),
    }
}

/// Draws `count` of the changes by a seed, in their order.
fn drawn(mut all: Vec<Change>, count: usize, seed: u64) -> Vec<Change> {
    let mut state = seed.wrapping_mul(0x9E37_79B9_7F4A_7C15) | 1;
    while all.len() > count {
        state ^= state << 13;
        state ^= state >> 7;
        state ^= state << 17;
        all.remove((state % all.len() as u64) as usize);
    }
    all
}

/// Draws of each definition as many changes as are asked for.
fn drawn_each(all: Vec<Change>, asked: &Asked) -> Vec<Change> {
    let Some(count) = asked.each else { return all };
    let mut of: Vec<Vec<Change>> = Vec::new();
    for change in all {
        match of.last_mut() {
            Some(last) if last[0].name == change.name && last[0].file == change.file => last.push(change),
            _ => of.push(vec![change]),
        }
    }
    of.into_iter().flat_map(|changes| drawn(changes, count, asked.seed)).collect()
}

/// What is asked for.
struct Asked {
    sample: Option<usize>,
    each: Option<usize>,
    seed: u64,
    name: Option<String>,
    own: bool,
    list: bool,
    noticed: bool,
    crates: Vec<String>,
}

fn asked() -> Asked {
    let mut asked = Asked { sample: None, each: None, seed: 1, name: None, own: false, list: false, noticed: false, crates: Vec::new() };
    let mut words = std::env::args().skip(1);
    while let Some(word) = words.next() {
        let mut number = || words.next().and_then(|n| n.parse().ok()).unwrap_or_else(|| panic!("{word} takes a number"));
        match word.as_str() {
            "--sample" => asked.sample = Some(number() as usize),
            "--each" => asked.each = Some(number() as usize),
            "--seed" => asked.seed = number(),
            "--name" => asked.name = words.next(),
            "--own" => asked.own = true,
            "--list" => asked.list = true,
            "--noticed" => asked.noticed = true,
            _ => asked.crates.push(word),
        }
    }
    asked
}

/// The changes of one crate and the number of the definitions that they change.
fn of_crate(library: &str, specs: &[Spec], known: &Known, reached: &BTreeSet<(String, String, String)>) -> (usize, Vec<Change>) {
    let mut found = (0, Vec::new());
    for spec in specs.iter().filter(|spec| spec.library == library) {
        let cited = |d: &&Definition| !d.is_statement && reached.contains(&(spec.library.clone(), spec.module.clone(), d.name.clone()));
        for definition in spec.definitions.iter().filter(cited) {
            let made = changes(spec, known, definition);
            found.0 += usize::from(!made.is_empty());
            found.1.extend(made);
        }
    }
    found
}

/// What came of a crate's changes.
#[derive(Default)]
struct Count {
    own: usize,
    above: usize,
    excepted: usize,
    free: usize,
    unfit: usize,
    stale: usize,
}

fn proved_first(libraries: &BTreeSet<String>, library: &str) {
    match check(libraries) {
        Verdict::Proved => {}
        Verdict::Refused(errors) => panic!("{library}: the theorems are not proved without a change: {errors:?}"),
        Verdict::NoVerdict(said) => panic!("{library}: no verdict without a change: {said}"),
    }
}

/// The libraries that are checked: the crate over what it uses, then each crate above it, in their order.
fn sets(library: &str, all: &[Library], asked: &Asked) -> Vec<Set> {
    let above = closure(all, library, true);
    let users = all.iter().filter(|user| !asked.own && user.name != library && above.contains(&user.name)).map(|user| user.name.as_str());
    [library].into_iter().chain(users).map(|name| Set { libraries: closure(all, name, false), proved: false }).collect()
}

/// Tries the changes of one crate.
fn run(library: &str, all: &[Library], todo: &[Change], asked: &Asked) -> Count {
    let exceptions = exceptions();
    let mut sets = sets(library, all, asked);
    let mut count = Count::default();
    for change in todo {
        let (end, set) = tried(change, &mut sets);
        let excepted = exceptions.iter().find(|(key, _)| names(key, &change.key())).map(|(_, reason)| reason);
        match (&end, excepted) {
            (End::Unfit, _) => count.unfit += 1,
            (End::Noticed(_), _) if set == 0 => count.own += 1,
            (End::Noticed(_), _) => count.above += 1,
            (End::Free, Some(_)) => count.excepted += 1,
            (End::Free, None) => count.free += 1,
        }
        report(change, &end, excepted, asked, &mut count);
    }
    count
}

fn report(change: &Change, end: &End, excepted: Option<&String>, asked: &Asked, count: &mut Count) {
    match (end, excepted) {
        (End::Free, None) => println!("free {}", change.shown()),
        (End::Free, Some(reason)) => println!("same {}: {reason}", change.shown()),
        (End::Noticed(_), Some(_)) => {
            count.stale += 1;
            println!("{EXCEPTIONS}: stale, a statement notices it: {}", change.shown());
        }
        (End::Noticed(by), None) if asked.noticed => println!("noticed {}, by {by}", change.shown()),
        (End::Unfit, None) if asked.noticed => println!("unfit {}", change.shown()),
        _ => {}
    }
}

/// The exceptions that no change has, of the crates in the repository.
fn without_change(changes: &BTreeMap<String, (usize, Vec<Change>)>) -> usize {
    let keys: Vec<Key> = changes.values().flat_map(|(_, all)| all.iter().map(Change::key)).collect();
    let stale: Vec<Key> = exceptions().into_keys().filter(|key| !keys.iter().any(|change| names(key, change))).collect();
    stale.iter().for_each(|(library, file, name, what)| println!("{EXCEPTIONS}: stale, there is no such change: {library} {file} {name} {what}"));
    stale.len()
}

fn main() {
    let asked = asked();
    let all = libraries();
    let specs = specs(&all);
    let (known, reached) = (known(&all, &specs), reached(&specs));
    let mut changes: BTreeMap<String, (usize, Vec<Change>)> =
        all.iter().map(|l| (l.name.clone(), of_crate(&l.name, &specs, &known, &reached))).collect();
    let mut wrong = without_change(&changes);
    let mut noticed = 0;
    if !asked.list {
        write_copy(&all);
    }
    for name in &asked.crates {
        let (definitions, mut todo) = changes.remove(name).unwrap_or_else(|| panic!("{name} is no library, or named twice"));
        todo.retain(|change| asked.name.as_ref().is_none_or(|name| change.name == *name));
        let made = todo.len();
        let todo = drawn(drawn_each(todo, &asked), asked.sample.unwrap_or(made), asked.seed);
        if asked.list {
            todo.iter().for_each(|change| println!("{}", change.shown()));
            continue;
        }
        let Count { own, above, excepted, free, unfit, stale } = run(name, &all, &todo, &asked);
        println!(
            "{name}: {definitions} definitions, {made} changes, {} tried: {own} noticed in the crate, {above} above, {free} free, \
             {excepted} the same, {unfit} unfit",
            todo.len()
        );
        wrong += free + stale;
        noticed += own + above;
    }
    if wrong > 0 || !asked.list && noticed == 0 {
        exit(1);
    }
}
