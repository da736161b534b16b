//! Makes the border of the archive from its one source, the comments, constants and exported functions of Rattle: the C header, the declarations of
//! the Rust crate, and the tables of docs/SCOPE.md, section 9. Run in the repository's root. It writes the three; with `--check` it compares them
//! with what is stored, and tells the first difference.
//!
//! What it reads: `// ---- title: remark` begins a group, with paragraphs of its own where they follow an empty comment line. The comment of a
//! constant or function stands above it. A group of constants whose title begins with "inside" is the inside of opaque words, of which no name
//! crosses the border. A paragraph that begins with a hyphen is an item of a list. A name in backquotes must be one that crosses.
//!
//! In the page a table stands between two comments. The first names its form and the titles of its groups: `numbers` and `calls` have a row for each
//! constant or function, `inside` has one for each group, `remarks` is text. Every group stands in one of them.
use std::collections::{BTreeMap, BTreeSet};
use std::fs;
use std::path::{Path, PathBuf};

/// The crate that exports functions, and its modules that have some, in the order of the header.
const EXPORT: &str = "crates/ffi_export/src";
const MODULES: [&str; 9] = ["lib", "cells", "client", "server", "calendar", "row", "touched_files", "generated", "caches"];
/// What holds of every call, and the lists of words.
const LISTS: [&str; 6] = [
    "crates/ffi_export/src/abi.rt",
    "crates/ffi_words/src/layout.rt",
    "crates/hours/src/layout.rt",
    "crates/rows/src/layout.rt",
    "crates/load/src/layout.rt",
    "crates/packed_relations/src/layout.rt",
];
/// What is made.
const HEADER: &str = "host/include/rufflesquash.h";
const BINDINGS: &str = "host/src/ffi/bindings.rs";
const PAGE: &str = "docs/SCOPE.md";
/// Where the names are read, or need not cross.
const READERS: [&str; 3] = ["host/src", "host/tests", "host/examples"];

const MEND: &str = "mkdir -p target && rustc --edition 2021 -o target/border .ci/border.rs && target/border";
const WIDTH: usize = 150;
/// What every name has before it in C.
const PREFIX: &str = "RUFFLESQUASH_";
const BEGIN: &str = "<!-- made by .ci/border.rs: ";
const END: &str = "<!-- end -->";

/// Paragraphs and items of a list.
type Comment = Vec<String>;
type Answer<T> = Result<T, String>;

struct Constant {
    name: String,
    of: String,
    number: u64,
    comment: Comment,
}

/// What an argument is: a word, a place of one, an array with its length, or a slice.
enum Shape {
    Word(String),
    Place(String),
    Array(String, String),
    Slice(String),
}

struct Argument {
    name: String,
    shape: Shape,
    /// Whether the call writes to it.
    out: bool,
}

struct Function {
    name: String,
    arguments: Vec<Argument>,
    answer: Option<String>,
    comment: Comment,
}

#[derive(Default)]
struct Group {
    title: String,
    remark: String,
    more: Comment,
    constants: Vec<Constant>,
    functions: Vec<Function>,
}

impl Group {
    fn inside(&self) -> bool {
        self.title.starts_with("inside ")
    }

    /// Title and remark.
    fn label(&self) -> String {
        if self.remark.is_empty() {
            self.title.clone()
        } else {
            format!("{}: {}", self.title, self.remark)
        }
    }

    /// Title and remark as a sentence after some hyphens, and the paragraphs of the group.
    fn comment(&self, hyphens: &str) -> Comment {
        let label = self.label();
        let (first, rest) = label.split_at(1);
        let mut all = vec![format!("{hyphens}{}{}.", first.to_uppercase(), rest.trim_end_matches('.'))];
        all.extend(self.more.iter().cloned());
        all
    }
}

// ---- reading

/// The paragraphs of the lines of a comment.
fn paragraphs(lines: &[&str]) -> Comment {
    let (mut all, mut open) = (Comment::new(), false);
    for line in lines.iter().map(|line| line.trim_start_matches('/').trim()) {
        match all.last_mut() {
            Some(last) if open && !line.is_empty() && !line.starts_with("- ") => *last = format!("{last} {line}"),
            _ if !line.is_empty() => all.push(line.to_string()),
            _ => {}
        }
        open = !line.is_empty();
    }
    all
}

/// The group that a heading begins.
fn heading(lines: &[&str]) -> Group {
    let mut more = paragraphs(lines);
    let label = more.remove(0).trim_start_matches("---- ").to_string();
    let (title, remark) = label.split_once(": ").unwrap_or((&label, ""));
    Group { title: title.into(), remark: remark.into(), more, ..Group::default() }
}

fn constant(line: &str, comment: Comment) -> Option<Constant> {
    let (name, rest) = line.strip_prefix("pub const ")?.split_once(": ")?;
    let (of, number) = rest.strip_suffix(';')?.split_once(" = ")?;
    Some(Constant { name: name.into(), of: of.into(), number: number.replace('_', "").parse().ok()?, comment })
}

/// The parts between commas that stand in no bracket.
fn parts(list: &str) -> Vec<String> {
    let (mut all, mut depth) = (vec![String::new()], 0);
    for c in list.chars() {
        depth += i32::from("([".contains(c)) - i32::from(")]".contains(c));
        match (c, depth) {
            (',', 0) => all.push(String::new()),
            _ => all.last_mut().expect("one at least").push(c),
        }
    }
    all.iter().map(|part| part.trim().to_string()).filter(|part| !part.is_empty()).collect()
}

fn argument(text: &str) -> Option<Argument> {
    let (name, of) = text.split_once(':')?;
    let (of, lent, out) = match (of.trim().strip_prefix("&mut "), of.trim().strip_prefix('&')) {
        (Some(of), _) => (of, true, true),
        (None, Some(of)) => (of, true, false),
        (None, None) => (of.trim(), false, false),
    };
    let shape = match of.strip_prefix('[').and_then(|of| of.strip_suffix(']')) {
        None if !lent => Shape::Word(of.into()),
        None => Shape::Place(of.into()),
        Some(inner) => match inner.split_once(';') {
            Some((word, length)) => Shape::Array(word.into(), length.trim().rsplit("::").next()?.into()),
            None => Shape::Slice(if inner == "&[u8]" { "text".into() } else { inner.into() }),
        },
    };
    Some(Argument { name: name.trim().into(), shape, out })
}

/// The function that a text begins with.
fn function(text: &str, comment: Comment) -> Option<Function> {
    let (name, rest) = text.strip_prefix("pub extern \"C\" fn ")?.split_once('(')?;
    let (arguments, rest) = rest.split_once("\n)").filter(|_| rest.starts_with('\n')).or_else(|| rest.split_once(')'))?;
    let answer = rest.trim_start().strip_prefix("->").and_then(|rest| rest.split_whitespace().next()).map(String::from);
    let arguments = parts(arguments).iter().map(|part| argument(part)).collect::<Option<_>>()?;
    Some(Function { name: name.into(), arguments, answer, comment })
}

/// The groups of a source.
fn groups(path: &str) -> Answer<Vec<Group>> {
    let text = fs::read_to_string(path).map_err(|e| format!("{path}: {e}"))?;
    let (mut all, mut lines, mut at): (Vec<Group>, Vec<&str>, usize) = (Vec::new(), Vec::new(), 0);
    for line in text.lines() {
        let rest = &text[at..];
        at += line.len() + 1;
        let headed = lines.first().is_some_and(|first| first.starts_with("// ---- "));
        if line.starts_with("//") {
            lines.push(line);
            continue;
        }
        let above = std::mem::take(&mut lines);
        let comment = paragraphs(&above);
        let wrong = |what: &str| format!("{path}: {what}: {line}");
        if line.is_empty() && headed {
            all.push(heading(&above));
        } else if line.starts_with("pub const ") || line == "#[unsafe(no_mangle)]" {
            let group = all.last_mut().ok_or_else(|| wrong("no group before"))?;
            if headed || comment.is_empty() && !group.inside() {
                return Err(wrong("no comment of its own before"));
            }
            match line.strip_prefix("#[unsafe(no_mangle)]") {
                Some(_) => group.functions.push(function(rest[line.len()..].trim_start(), comment).ok_or_else(|| wrong("no function after"))?),
                None => group.constants.push(constant(line, comment).ok_or_else(|| wrong("no constant"))?),
            }
        }
    }
    Ok(all)
}

/// The files below a folder with one of the extensions, without what rt keeps.
fn files(folder: &Path, extensions: &[&str], into: &mut Vec<PathBuf>) {
    for path in fs::read_dir(folder).into_iter().flatten().flatten().map(|entry| entry.path()) {
        if path.is_dir() && !path.ends_with("out") {
            files(&path, extensions, into);
        } else if path.extension().is_some_and(|x| extensions.iter().any(|e| x == *e)) {
            into.push(path);
        }
    }
}

/// The words of the programs that read the names.
fn words_read() -> BTreeSet<String> {
    let mut all = Vec::new();
    READERS.iter().for_each(|folder| files(Path::new(folder), &["rs", "c"], &mut all));
    let mut words = BTreeSet::new();
    for path in all.iter().filter(|path| !path.ends_with(BINDINGS)) {
        let text = fs::read_to_string(path).unwrap_or_default();
        words.extend(text.split(|c: char| !c.is_alphanumeric() && c != '_').map(|word| word.trim_start_matches(PREFIX).to_string()));
    }
    words
}

struct Border {
    lists: Vec<Group>,
    calls: Vec<Group>,
}

impl Border {
    fn read() -> Answer<Border> {
        let modules: Vec<String> = MODULES.iter().map(|module| format!("{EXPORT}/{module}.rt")).collect();
        let mut all = Vec::new();
        files(Path::new("crates"), &["rt"], &mut all);
        for path in all.iter().filter_map(|path| path.to_str()) {
            let text = || fs::read_to_string(path).unwrap_or_default();
            if path.starts_with(EXPORT) && !modules.iter().any(|module| module == path) && text().contains("#[unsafe(no_mangle)]") {
                return Err(format!("{path} exports a function, and .ci/border.rs does not list it"));
            }
            if path.ends_with("/layout.rt") && !LISTS.contains(&path) {
                return Err(format!("{path} is a list of words, and .ci/border.rs does not list it"));
            }
        }
        let read = |paths: &[&str]| paths.iter().map(|path| groups(path)).collect::<Answer<Vec<_>>>().map(|all| all.into_iter().flatten().collect());
        let border = Border { lists: read(&LISTS)?, calls: read(&modules.iter().map(String::as_str).collect::<Vec<_>>())? };
        border.judged()
    }

    fn constants(&self) -> impl Iterator<Item = &Constant> {
        self.lists.iter().filter(|group| !group.inside()).flat_map(|group| &group.constants)
    }

    fn functions(&self) -> impl Iterator<Item = &Function> {
        self.calls.iter().flat_map(|group| &group.functions)
    }

    /// The border, if each name stands once and is read, and arrays and comments name only what crosses.
    fn judged(self) -> Answer<Border> {
        let mut names = BTreeSet::new();
        for name in self.constants().map(|c| &c.name).chain(self.functions().map(|f| &f.name)) {
            if !names.insert(name.as_str()) {
                return Err(format!("{name} stands in two places"));
            }
        }
        let read = words_read();
        if let Some(name) = names.iter().find(|name| !read.contains(**name)) {
            return Err(format!("{name} crosses the border, and no program reads it: {}", READERS.join(", ")));
        }
        let arguments: Vec<&Argument> = self.functions().flat_map(|f| &f.arguments).collect();
        let mut lengths = arguments.iter().filter_map(|a| if let Shape::Array(_, length) = &a.shape { Some(length) } else { None });
        if let Some(length) = lengths.find(|length| !names.contains(length.as_str())) {
            return Err(format!("the length {length} does not cross the border"));
        }
        let groups = || self.lists.iter().chain(&self.calls);
        let comments = groups().map(|group| group.comment("")).chain(self.constants().map(|c| c.comment.clone()));
        for text in comments.chain(self.functions().map(|f| f.comment.clone())).flatten() {
            for (i, part) in text.split('`').enumerate() {
                if i % 2 == 1 && part.len() > 1 && !names.contains(part) {
                    return Err(format!("no constant or function `{part}` crosses the border: {text}"));
                }
            }
        }
        if names.is_empty() {
            return Err("nothing was read".into());
        }
        Ok(self)
    }
}

// ---- writing

/// A comment in lines that begin with a text; the lines of an item after its first are indented. A paragraph is parted from the next.
fn wrapped(comment: &Comment, begin: &str, width: usize) -> String {
    let mut all: Vec<String> = Vec::new();
    for (i, paragraph) in comment.iter().enumerate() {
        let item = paragraph.starts_with("- ");
        if i > 0 && !(item && comment[i - 1].starts_with("- ")) {
            all.push(begin.trim_end().to_string());
        }
        let indent = if item { format!("{begin}  ") } else { begin.to_string() };
        let mut line = begin.to_string();
        for word in paragraph.split(' ') {
            if line.trim_end() != begin.trim_end() && line.len() + 1 + word.len() > width {
                all.push(std::mem::replace(&mut line, indent.clone()));
            }
            if line.len() > begin.len() && !line.ends_with(' ') {
                line.push(' ');
            }
            line.push_str(word);
        }
        all.push(line);
    }
    all.join("\n")
}

/// A comment of C: names with their prefix, a letter in quotes.
fn for_c(comment: &Comment) -> Comment {
    let spelled = |(i, part): (usize, &str)| match part {
        _ if i % 2 == 0 => part.to_string(),
        _ if part.len() == 1 => format!("'{part}'"),
        _ if part.starts_with(char::is_uppercase) => format!("{PREFIX}{part}"),
        _ => part.to_string(),
    };
    comment.iter().map(|text| text.split('`').enumerate().map(spelled).collect()).collect()
}

fn c_comment(comment: &Comment) -> String {
    // The sign that ends a comment stands in its last line.
    wrapped(&for_c(comment), " * ", WIDTH - 3).replacen(" * ", "/* ", 1) + " */"
}

fn c_word(of: &str) -> String {
    let named = BTreeMap::from([("u8", "uint8_t"), ("u32", "uint32_t"), ("u64", "uint64_t"), ("i32", "int32_t"), ("i64", "int64_t")]);
    let others = BTreeMap::from([("usize", "size_t"), ("bool", "bool"), ("text", "struct rufflesquash_bytes")]);
    named.get(of).or(others.get(of)).unwrap_or_else(|| panic!("border: no type of C for {of}")).to_string()
}

fn c_argument(a: &Argument) -> String {
    let lent = if a.out { "" } else { "const " };
    let name = &a.name;
    match &a.shape {
        Shape::Word(of) => format!("{} {name}", c_word(of)),
        Shape::Place(of) => format!("{lent}{} *{name}", c_word(of)),
        Shape::Array(of, length) => format!("{lent}{} {name}[{PREFIX}{length}]", c_word(of)),
        Shape::Slice(of) => format!("{lent}{} *{name}, size_t {name}_len", c_word(of)),
    }
}

fn c_function(f: &Function) -> String {
    let mut text = format!("{} {}(", f.answer.as_deref().map_or("void".into(), c_word), f.name);
    let indent = text.len();
    let arguments = f.arguments.iter().flat_map(|a| c_argument(a).split(", ").map(String::from).collect::<Vec<_>>()).collect::<Vec<_>>();
    let mut column = indent;
    for (i, argument) in arguments.iter().enumerate() {
        let last = i + 1 == arguments.len();
        if i > 0 && column + argument.len() + 3 > WIDTH {
            text = format!("{}\n{:indent$}", text.trim_end(), "");
            column = indent;
        }
        text += &format!("{argument}{}", if last { "" } else { ", " });
        column += argument.len() + 2;
    }
    text + if arguments.is_empty() { "void);\n" } else { ");\n" }
}

/// The constants of a group, their comments beside them, or above where the line would be too long.
fn c_constants(group: &Group) -> String {
    let width = group.constants.iter().map(|c| c.name.len() + c.number.to_string().len()).max().unwrap_or_default();
    let mut text = format!("{}\n", c_comment(&group.comment("")));
    for c in &group.constants {
        let space = width - c.name.len() - c.number.to_string().len();
        let beside = format!("#define {PREFIX}{} {}{:space$} {}", c.name, c.number, "", c_comment(&c.comment));
        text += &match beside.contains('\n') || beside.len() > WIDTH {
            false => format!("{beside}\n"),
            true => format!("{}\n#define {PREFIX}{} {}\n", c_comment(&c.comment), c.name, c.number),
        };
    }
    text + "\n"
}

fn header(border: &Border) -> String {
    let archive = EXPORT.split('/').nth(1).unwrap_or_default();
    let mut head = vec![format!(
        "Made by .ci/border.rs from the Rattle sources, where changes are made: the functions of lib{archive}.a, for C. Rust programs use the \
         crate beside this file. What each call does is docs/SCOPE.md, section 9."
    )];
    head.extend(border.lists.iter().filter(|group| group.constants.is_empty()).flat_map(|group| group.more.clone()));
    let mut text = c_comment(&head) + "\n#ifndef RUFFLESQUASH_H\n#define RUFFLESQUASH_H\n\n";
    text += "#include <stdbool.h>\n#include <stddef.h>\n#include <stdint.h>\n\n#ifdef __cplusplus\nextern \"C\" {\n#endif\n\n";
    border.lists.iter().filter(|group| !group.inside() && !group.constants.is_empty()).for_each(|group| text += &c_constants(group));
    text += "/* A text in a list of texts. */\nstruct rufflesquash_bytes {\n    const uint8_t *at;\n    size_t len;\n};\n\n";
    for group in &border.calls {
        text += &format!("{}\n\n", c_comment(&group.comment("---- ")));
        group.functions.iter().for_each(|f| text += &format!("{}\n{}\n", c_comment(&f.comment), c_function(f)));
    }
    text + "#ifdef __cplusplus\n}\n#endif\n\n#endif\n"
}

fn rust_argument(a: &Argument) -> String {
    let pointer = if a.out { "*mut" } else { "*const" };
    let (name, word) = (&a.name, |of: &str| if of == "text" { "Bytes".to_string() } else { of.to_string() });
    match &a.shape {
        Shape::Word(of) => format!("{name}: {of}"),
        Shape::Place(of) => format!("{name}: {pointer} {of}"),
        Shape::Array(of, length) => format!("{name}: {pointer} [{of}; {length}]"),
        Shape::Slice(of) => format!("{name}: {pointer} {}, {name}_len: usize", word(of)),
    }
}

/// A declaration as rustfmt lays it out.
fn rust_function(f: &Function) -> String {
    let answer = f.answer.as_ref().map_or(String::new(), |of| format!(" -> {of}"));
    let arguments = f.arguments.iter().map(rust_argument).collect::<Vec<_>>().join(", ");
    let line = format!("    pub fn {}({arguments}){answer};", f.name);
    let lines = || arguments.split(", ").map(|argument| format!("        {argument},\n")).collect::<String>();
    let declared = if line.len() <= WIDTH { line } else { format!("    pub fn {}(\n{}    ){answer};", f.name, lines()) };
    format!("{}\n{declared}\n", wrapped(&f.comment, "    /// ", WIDTH))
}

fn bindings(border: &Border) -> String {
    let mut text =
        String::from("//! Made by .ci/border.rs from the Rattle sources, where changes are made: the constants and functions of the archive.\n");
    text += "//!\n//! In a declaration a slice is a pointer and a length, an array a thin pointer.\n";
    text += "// A host in C reads names that this crate does not.\n#![allow(dead_code)]\n\n";
    for group in border.lists.iter().filter(|group| !group.inside() && !group.constants.is_empty()) {
        text += &format!("{}\n\n", wrapped(&group.comment("---- "), "// ", WIDTH));
        for c in &group.constants {
            text += &format!("{}\npub const {}: {} = {};\n", wrapped(&c.comment, "/// ", WIDTH), c.name, c.of, c.number);
        }
        text += "\n";
    }
    text +=
        "/// A text in a list of texts.\n#[derive(Clone, Copy)]\n#[repr(C)]\npub struct Bytes {\n    /// Where it begins.\n    pub at: *const u8,\n";
    text += "    /// How many bytes it has.\n    pub len: usize,\n}\n\nextern \"C\" {\n";
    let mut blocks = Vec::new();
    for group in &border.calls {
        blocks.push(wrapped(&group.comment("---- "), "    // ", WIDTH) + "\n");
        blocks.extend(group.functions.iter().map(rust_function));
    }
    text + &blocks.join("\n") + "}\n"
}

// ---- the page

/// The title of a group, or none where the row above has the same.
fn rows(group: &Group, each: Vec<String>) -> String {
    each.iter().enumerate().map(|(i, row)| format!("| {} | {row} |\n", if i == 0 { group.label() } else { String::new() })).collect()
}

fn numbers(groups: &[&Group]) -> String {
    let row = |c: &Constant| format!("`{}` | {} | {}", c.name, c.number, c.comment.join(" "));
    let table = groups.iter().map(|group| rows(group, group.constants.iter().map(row).collect())).collect::<String>();
    format!("| of | name | number | |\n|---|---|---|---|\n{table}")
}

/// Of a function the first paragraph; after the table the paragraphs of its groups.
fn calls(groups: &[&Group]) -> String {
    let row = |f: &Function| format!("`{}` | {}", f.name, f.comment[0]);
    let table = groups.iter().map(|group| rows(group, group.functions.iter().map(row).collect())).collect::<String>();
    let more: String = groups.iter().filter(|group| !group.more.is_empty()).map(|group| format!("\n{}\n", wrapped(&group.more, "", WIDTH))).collect();
    format!("| calls | name | |\n|---|---|---|\n{table}{more}")
}

/// Of opaque words, which words a group has: up to the next group of the same words, or to the last word.
fn inside(border: &Border, groups: &[&Group]) -> Answer<String> {
    let mut text = String::from("| of | words | hold |\n|---|---|---|\n");
    for (i, group) in groups.iter().enumerate() {
        let first = group.constants.first().ok_or_else(|| format!("{}: no constant", group.label()))?;
        let length = format!("{}_WORDS", first.name.split('_').next().unwrap_or_default());
        let words = border.constants().find(|c| c.name == length).ok_or_else(|| format!("no constant {length}"))?.number;
        let next = groups.get(i + 1).filter(|next| next.title == group.title).and_then(|next| next.constants.first());
        let last = next.map_or(words, |next| next.number) - 1;
        let range = if last == first.number { last.to_string() } else { format!("{} to {last}", first.number) };
        text += &format!("| {} | {range} | {} |\n", group.title.trim_start_matches("inside "), group.remark);
    }
    Ok(text)
}

fn form(border: &Border, name: &str, groups: &[&Group]) -> Answer<String> {
    match name {
        "numbers" => Ok(numbers(groups)),
        "calls" => Ok(calls(groups)),
        "inside" => inside(border, groups),
        "remarks" => Ok(groups.iter().map(|group| wrapped(&group.more, "", WIDTH) + "\n").collect::<Vec<_>>().join("\n")),
        _ => Err(format!("{PAGE}: no form {name}")),
    }
}

/// The page with its tables made anew.
fn page(border: &Border, stored: &str) -> Answer<String> {
    let (mut text, mut rest, mut left) = (String::new(), stored, BTreeSet::new());
    left.extend(border.lists.iter().map(|group| (false, group.title.clone())));
    left.extend(border.calls.iter().map(|group| (true, group.title.clone())));
    while let Some((before, after)) = rest.split_once(BEGIN) {
        let (asked, after) = after.split_once(" -->\n").ok_or("an unfinished comment")?;
        let (_, after) = after.split_once(END).ok_or_else(|| format!("{PAGE}: {asked}: no {END}"))?;
        let (name, titles) = asked.split_once(' ').ok_or_else(|| format!("{PAGE}: {asked}: no title"))?;
        let mut groups = Vec::new();
        for title in titles.split("; ") {
            let all = if name == "calls" { &border.calls } else { &border.lists };
            let title = if name == "inside" { format!("{name} {title}") } else { title.to_string() };
            groups.extend(all.iter().filter(|group| group.title == title));
            if !left.remove(&(name == "calls", title)) {
                return Err(format!("{PAGE}: {asked}: a title that no group has, or that stands in two tables"));
            }
        }
        text += &format!("{before}{BEGIN}{asked} -->\n\n{}\n{END}", form(border, name, &groups)?);
        rest = after;
    }
    match left.first() {
        Some((_, title)) => Err(format!("{PAGE}: no table has the group: {title}")),
        None => Ok(text + rest),
    }
}

/// The first line in which two texts differ.
fn difference(path: &str, stored: &str, made: &str) -> Option<String> {
    let (mut a, mut b) = (stored.split('\n'), made.split('\n'));
    (1..).map(|line| (line, a.next(), b.next())).take_while(|(_, x, y)| x.is_some() || y.is_some()).find(|(_, x, y)| x != y).map(|(line, x, y)| {
        let shown = |text: Option<&str>| text.unwrap_or("(no line)").to_string();
        format!("{path}:{line} is not what the Rattle sources make of it\n  stored: {}\n  made:   {}\n  to write it: {MEND}", shown(x), shown(y))
    })
}

fn run(check: bool) -> Answer<String> {
    let border = Border::read()?;
    let stored = |path: &str| fs::read_to_string(path).unwrap_or_default();
    let made = [(HEADER, header(&border)), (BINDINGS, bindings(&border)), (PAGE, page(&border, &stored(PAGE))?)];
    for (path, text) in &made {
        match difference(path, &stored(path), text) {
            Some(told) if check => return Err(told),
            Some(_) => fs::write(path, text).map_err(|e| format!("{path}: {e}"))?,
            None => {}
        }
    }
    let (functions, constants) = (border.functions().count(), border.constants().count());
    Ok(format!("{functions} functions and {constants} constants stand in the header, the Rust declarations and SCOPE 9 as in the Rattle sources"))
}

fn main() {
    let check = match std::env::args().skip(1).collect::<Vec<_>>().as_slice() {
        [] => false,
        [word] if word == "--check" => true,
        _ => {
            eprintln!("border [--check]");
            std::process::exit(2)
        }
    };
    match run(check) {
        Ok(told) => println!("border: {told}"),
        Err(told) => {
            eprintln!("border: {told}");
            std::process::exit(1)
        }
    }
}
