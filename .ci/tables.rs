//! Holds the documents against the repository: the files, names, must-fail edits and sections that they cite are there, every edit and every
//! crate is named, statements stand in specs/, links lead somewhere, each exported function has the contract and the statement that are listed for it.
//! The table of crate `utf8` is what is printed of it. Run in the repository's root.
use std::collections::{BTreeMap, BTreeSet};
use std::fs;
use std::path::{Path, PathBuf};

/// A page of history, which sets old texts and files beside today's.
const PORT: &str = "docs/PORT.md";

/// Of each crate its files of Rattle and of proofs, with their contents.
type Crates = BTreeMap<String, Vec<(PathBuf, String)>>;

/// The files below a folder with one of the extensions, with their contents, without what is built and kept.
fn files(folder: &Path, extensions: &[&str], into: &mut Vec<(PathBuf, String)>) {
    let Ok(entries) = fs::read_dir(folder) else { return };
    for path in entries.map(|entry| entry.expect("a folder's entry").path()) {
        if path.is_dir() && !path.ends_with("target") && !path.ends_with("out") {
            files(&path, extensions, into);
        } else if path.extension().is_some_and(|x| extensions.iter().any(|e| x == *e)) {
            into.push((path.clone(), fs::read_to_string(&path).expect("a text")));
        }
    }
}

fn read(page: &str) -> String {
    fs::read_to_string(page).unwrap_or_else(|_| panic!("no page {page}"))
}

/// The lines of crates.txt: each crate with those of this repository that it uses.
fn uses() -> BTreeMap<String, Vec<String>> {
    let list = read("crates.txt");
    let split = list.lines().filter(|line| !line.starts_with('#')).filter_map(|line| line.split_once(':'));
    // What a static library's line says after its name is left out.
    let bare = |name: &str| name.split_whitespace().next().unwrap_or("").to_string();
    let all: BTreeMap<String, Vec<String>> = split.map(|(name, of)| (bare(name), of.split_whitespace().map(String::from).collect())).collect();
    let here: BTreeSet<String> = all.keys().cloned().collect();
    all.into_iter().map(|(name, of)| (name, of.into_iter().filter(|x| here.contains(x)).collect())).collect()
}

fn crates(uses: &BTreeMap<String, Vec<String>>) -> Crates {
    let with_files = |name: &String| {
        let mut all = Vec::new();
        ["src", "specs", "proofs"].iter().for_each(|part| files(&Path::new("crates").join(name).join(part), &["antt", "rt"], &mut all));
        (name.clone(), all)
    };
    uses.keys().map(with_files).collect()
}

/// Whether a file defines a name: a function or type of Rattle, or what stands before a colon in a definition's first line.
fn defines(path: &Path, text: &str, name: &str) -> bool {
    let word = |words: &str| words.split(|c: char| c.is_whitespace() || "(){}".contains(c)).any(|w| w == name);
    let defining = |line: &str| match path.extension().is_some_and(|x| x == "rt") {
        true => {
            ["fn ", "struct ", "enum ", "const "].iter().any(|key| line.contains(key))
                && line.split(|c: char| !c.is_alphanumeric() && c != '_').any(|w| w == name)
        }
        false => line.trim_start().starts_with("pub record ") && word(line) || line.split_once(" :").is_some_and(|(left, _)| word(left)),
    };
    text.lines().any(defining)
}

/// What a cell speaks of: a file by its path or its name alone, or a crate.
#[derive(Clone)]
enum Place {
    File(String),
    Crate(String),
}

impl Place {
    fn holds(&self, crates: &Crates, name: &str) -> bool {
        let name = name.rsplit("::").next().unwrap_or(name);
        let in_files =
            |all: &[(PathBuf, String)], right: &dyn Fn(&Path) -> bool| all.iter().any(|(path, text)| right(path) && defines(path, text, name));
        match self {
            Place::Crate(of) => in_files(&crates[of], &|_| true),
            Place::File(named) => {
                let bare = named.trim_end_matches(".antt").trim_end_matches(".rt");
                crates.values().any(|all| in_files(all, &|path| path.with_extension("").ends_with(bare)))
            }
        }
    }
}

/// The names of a cell that stand after a file and a colon, or after a crate, and are not defined there.
fn missing_names(crates: &Crates, cell: &str) -> Vec<String> {
    let (mut missing, mut place) = (Vec::new(), None);
    let mut inner = false;
    for (i, part) in cell.split('`').enumerate() {
        if i % 2 == 0 {
            // A name in brackets is a field of what stands before it.
            inner = part.ends_with('(');
            for word in part.split_whitespace() {
                place = match word.strip_suffix(':') {
                    Some(file) if file.contains('/') || file.starts_with(char::is_uppercase) => Some(Place::File(file.to_string())),
                    _ if crates.contains_key(word) => Some(Place::Crate(word.to_string())),
                    _ if word.ends_with(';') || word == "must-fail" => None,
                    _ => place,
                };
            }
        } else if let Some(place) = &place {
            let name = part.chars().all(|c| c.is_alphanumeric() || "_-:'".contains(c));
            if name && !inner && !place.holds(crates, part) {
                missing.push(part.to_string());
            }
        }
    }
    missing
}

/// The words of a line that may be paths.
fn words(line: &str) -> impl Iterator<Item = &str> {
    line.split(|c: char| c.is_whitespace() || "`|;,()[]<>\"'".contains(c)).map(|w| w.trim_end_matches([':', '.', '?', '!']))
}

/// The paths of a line into crates that lead nowhere, and files cited by line numbers, which an edit of a comment would move.
fn missing_paths(line: &str) -> Vec<String> {
    let cited = words(line).filter(|w| ["/specs/", "/proofs/", "/src/", "/must-fail/"].iter().any(|part| w.contains(part)) && !w.contains('*'));
    let there = |path: &str| {
        let ends = ["", ".antt", ".rt", ".rs"];
        ["", "crates/"].iter().any(|root| ends.iter().any(|end| Path::new(&format!("{root}{path}{end}")).exists()))
    };
    cited.filter(|w| !there(w)).map(String::from).collect()
}

/// Edits named as `must-fail crate/edit, edit` that are not there.
fn missing_edits(line: &str, edits: &BTreeSet<String>) -> Vec<String> {
    let mut missing = Vec::new();
    for cited in line.split("must-fail ").skip(1) {
        let Some((of, named)) = cited.split(['|', ';']).next().unwrap_or("").split_once('/') else { continue };
        let name = |e: &&str| e.chars().all(|c| c.is_alphanumeric() || c == '_') && !e.is_empty();
        missing.extend(named.split(", ").map(str::trim).filter(name).map(|e| format!("{of}/{e}")).filter(|e| !edits.contains(e)));
    }
    missing
}

/// Every must-fail edit, as `crate/edit`.
fn edits(uses: &BTreeMap<String, Vec<String>>) -> BTreeSet<String> {
    let mut all = BTreeSet::new();
    for name in uses.keys() {
        let mut found = Vec::new();
        files(&Path::new("crates").join(name).join("must-fail"), &["edit"], &mut found);
        all.extend(found.iter().map(|(path, _)| format!("{name}/{}", path.file_stem().and_then(|x| x.to_str()).unwrap_or_default())));
    }
    all
}

/// The cells of a table's column, each with its line's number.
fn column(text: &str, heading: &str) -> Vec<(usize, String)> {
    let (mut place, mut cells) = (None, Vec::new());
    for (i, line) in text.lines().enumerate() {
        let row: Vec<&str> = line.split('|').map(str::trim).collect();
        if !line.starts_with('|') {
            place = None;
        } else if let Some(at) = row.iter().position(|cell| *cell == heading) {
            place = Some(at);
        } else if let (Some(at), false) = (place, line.starts_with("|---")) {
            cells.push((i + 1, row.get(at).unwrap_or(&"").to_string()));
        }
    }
    cells
}

/// PROMISES names an edit for each family, each edit that it names is there, and it names all that are there.
fn wrong_families(page: &str, edits: &BTreeSet<String>, wrong: &mut Vec<String>) {
    let mut named = BTreeSet::new();
    for (line, cell) in column(&read(page), "edits") {
        let cited: Vec<String> = words(&cell).filter(|w| w.contains('/')).map(String::from).collect();
        if cited.is_empty() {
            wrong.push(format!("{page}:{line}: an edit of this family"));
        }
        wrong.extend(cited.iter().filter(|e| !edits.contains(*e)).map(|e| format!("{page}:{line}: the edit {e}")));
        named.extend(cited);
    }
    wrong.extend(edits.iter().filter(|e| !named.contains(*e)).map(|e| format!("{page}: a family with the edit {e}")));
}

/// The one statement that stands beside its proof: a must-fail edit changes what it rests on, and specs/ has to read all the same.
const BESIDE_ITS_PROOF: &str = "lsn/proofs/PositionLaws.antt";

/// What PROMISES cites as a definition, or as what a definition is held against, stands in specs/, not in proofs/.
fn wrong_statements(page: &str, wrong: &mut Vec<String>) {
    let text = read(page);
    let cells = ["definition or statement", "held against"].iter().flat_map(|heading| column(&text, heading));
    let in_proofs = |cell: &str| cell.replace(BESIDE_ITS_PROOF, "").contains("/proofs/");
    wrong.extend(cells.filter(|(_, cell)| in_proofs(cell)).map(|(line, _)| format!("{page}:{line}: a statement in specs/")));
}

/// Whether a name stands in a text as a word of its own.
fn mentions(text: &str, name: &str) -> bool {
    text.split(|c: char| !c.is_alphanumeric() && !"-_'".contains(c)).any(|w| w == name)
}

/// The contract of each function that `ffi_export` exports: what stands between its name and its body.
fn contracts(crates: &Crates) -> BTreeMap<String, String> {
    let mut all = BTreeMap::new();
    for (path, text) in &crates["ffi_export"] {
        if path.extension().is_some_and(|x| x == "rt") {
            for exported in text.split("pub extern \"C\" fn ").skip(1) {
                let head = exported.split("\n{").next().unwrap_or("");
                let name = head.split('(').next().unwrap_or("").to_string();
                let lines: Vec<&str> = head.lines().skip_while(|line| !line.trim_start().starts_with("ensures ")).collect();
                let ensures = lines.join("\n");
                all.insert(name, ensures);
            }
        }
    }
    all
}

/// The files and names of a cell, in their order: `FILE: `NAME`, `NAME`; FILE: `NAME``. Names in brackets are left out.
fn cited(cell: &str) -> Vec<(String, String)> {
    let (mut file, mut all, mut inner) = (String::new(), Vec::new(), false);
    for (i, part) in cell.split('`').enumerate() {
        if i % 2 == 0 {
            inner = part.ends_with('(') || inner && !part.contains(')');
            if let Some(named) = part.split_whitespace().filter_map(|word| word.strip_suffix(':')).next_back() {
                file = named.to_string();
            }
        } else if !inner {
            all.push((file.clone(), part.to_string()));
        }
    }
    all
}

/// The wording of a statement or of what it is made of: from the line that defines its name to the next empty one.
fn wording(file: &str, name: &str) -> String {
    let path = Path::new("crates").join(file);
    let text = fs::read_to_string(&path).unwrap_or_default();
    let from_there = text.lines().skip_while(|line| !defines(&path, line, name));
    from_there.take_while(|line| !line.is_empty()).flat_map(|line| [line, "\n"]).collect()
}

/// What a row about an exported function lacks: the definition in the function's contract, the statement in specs/ with a proof, and the definition in
/// the wording of the statement or of what else the cell names.
fn wrong_row(crates: &Crates, contract: &str, definition: &str, statement: &str) -> Vec<String> {
    let (definitions, statements) = (cited(definition), cited(statement));
    let ([(_, name)], Some((of, stated))) = (&definitions[..], statements.first()) else { return vec!["one definition, and a statement".into()] };
    let mut wrong = Vec::new();
    if !mentions(contract, name) {
        wrong.push(format!("`{name}` in this function's ensures"));
    }
    let proves = |line: &str| line.starts_with("pub ") && line.ends_with(&format!(" : {stated}"));
    let holds = of.split('/').next().and_then(|name| crates.get(name)).is_some_and(|all| {
        let in_proofs = |path: &Path| path.components().any(|part| part.as_os_str() == "proofs");
        all.iter().any(|(path, text)| in_proofs(path) && text.lines().any(proves))
    });
    if !of.contains("/specs/") || !holds {
        wrong.push(format!("a statement in specs/ with a proof of `{stated}`"));
    }
    if !statements.iter().any(|(file, stated)| mentions(&wording(file, stated), name)) {
        wrong.push(format!("`{name}` in the wording of what is stated"));
    }
    wrong
}

/// PROMISES leads from each exported function, once, to its contract's definition and to the statement of its words.
fn wrong_exports(page: &str, crates: &Crates, wrong: &mut Vec<String>) {
    let text = read(page);
    let mut left = contracts(crates);
    let rows =
        column(&text, "exported function").into_iter().zip(column(&text, "contract's definition")).zip(column(&text, "statement of its words"));
    for (((line, function), (_, definition)), (_, statement)) in rows {
        let name = function.trim_matches('`');
        let lacks = left.remove(name).map_or(vec![format!("one exported function {name}")], |c| wrong_row(crates, &c, &definition, &statement));
        wrong.extend(lacks.into_iter().map(|what| format!("{page}:{line}: {what}")));
    }
    wrong.extend(left.keys().map(|name| format!("{page}: a row for {name}")));
}

/// The numbers of SCOPE's sections.
fn sections() -> BTreeSet<String> {
    let number = |line: &str| {
        let title = line.strip_prefix("### ").or(line.strip_prefix("## "))?;
        Some(title.split_whitespace().next()?.to_string())
    };
    read("docs/SCOPE.md").lines().filter_map(number).filter(|n| n.starts_with(|c: char| c.is_ascii_digit())).collect()
}

/// The sections cited in a text as `SCOPE 3.1` or `SCOPE 3.1, 3.2`.
fn cited_sections(line: &str) -> Vec<String> {
    let is_section = |w: &&str| w.starts_with(|c: char| c.is_ascii_digit()) && w.chars().all(|c| c.is_ascii_digit() || c == '.');
    let mut cited = Vec::new();
    for after in line.split("SCOPE ").skip(1) {
        let mut numbers =
            after.split(", ").map(|w| w.split(|c: char| c.is_whitespace() || ";:)\"`|".contains(c)).next().unwrap_or("").trim_end_matches('.'));
        let Some(first) = numbers.next().filter(is_section) else { continue };
        cited.push(first.to_string());
        cited.extend(numbers.take_while(|w| is_section(w) && w.contains('.')).map(String::from));
    }
    cited
}

/// Every citation of a section, in sources and pages, leads to one.
fn wrong_sections(wrong: &mut Vec<String>) {
    let known = sections();
    let mut all = Vec::new();
    ["crates", "docs", "host", "compare", "vectors", "bench"]
        .iter()
        .for_each(|folder| files(Path::new(folder), &["antt", "rt", "rs", "md", "h", "c", "edit"], &mut all));
    all.push((PathBuf::from("README.md"), read("README.md")));
    for (path, text) in &all {
        for (i, line) in text.lines().enumerate() {
            let unknown = cited_sections(line).into_iter().filter(|n| !known.contains(n));
            wrong.extend(unknown.map(|n| format!("{}:{}: SCOPE {n}", path.display(), i + 1)));
        }
    }
    for (line, cell) in column(&read("docs/SENTENCES.md"), "SCOPE") {
        let numbers = cell.split([',', ' ']).map(str::trim).filter(|n| !n.is_empty());
        wrong.extend(numbers.filter(|n| !known.contains(*n)).map(|n| format!("docs/SENTENCES.md:{line}: SCOPE {n}")));
    }
}

/// A heading as a link names it.
fn slug(heading: &str) -> String {
    let plain = heading.trim_start_matches('#').trim().to_lowercase();
    plain.chars().filter(|c| c.is_alphanumeric() || " -_".contains(*c)).map(|c| if c == ' ' { '-' } else { c }).collect()
}

/// The links and page names of a line that lead nowhere.
fn missing_links(page: &Path, line: &str) -> Vec<String> {
    let folder = page.parent().unwrap_or(Path::new(""));
    let mut missing = Vec::new();
    for link in line.split("](").skip(1).filter_map(|rest| rest.split(')').next()).filter(|link| !link.contains("://")) {
        let (file, anchor) = link.split_once('#').unwrap_or((link, ""));
        let target = if file.is_empty() { page.to_path_buf() } else { folder.join(file) };
        let text = fs::read_to_string(&target).unwrap_or_default();
        if !target.exists() || !anchor.is_empty() && !text.lines().any(|l| l.starts_with('#') && slug(l) == anchor) {
            missing.push(format!("the link {link}"));
        }
    }
    let named = words(line).filter(|w| w.ends_with(".md") && w.len() > 3 && !w.contains('*'));
    missing.extend(named.filter(|w| !Path::new(w).exists() && !folder.join(w).exists()).map(|w| format!("the page {w}")));
    let quoted = line.split('`').skip(1).step_by(2).filter(|w| !w.contains(' ') && !w.contains(['*', '.', ':', '=']));
    let top = |w: &&str| w.split('/').next().is_some_and(|first| first != "target" && w.contains('/') && Path::new(first).is_dir());
    missing.extend(quoted.filter(top).filter(|w| !Path::new(w).exists()).map(|w| format!("the path {w}")));
    missing
}

fn wrong_links(wrong: &mut Vec<String>) {
    let mut pages = vec![(PathBuf::from("README.md"), read("README.md")), (PathBuf::from("NOTICE"), read("NOTICE"))];
    ["docs", "vectors", "compare", "host"].iter().for_each(|folder| files(Path::new(folder), &["md"], &mut pages));
    pages.retain(|(page, _)| page != Path::new(PORT));
    for (page, text) in &pages {
        for (i, line) in text.lines().enumerate() {
            wrong.extend(missing_links(page, line).into_iter().map(|what| format!("{}:{}: {what}", page.display(), i + 1)));
        }
    }
}

/// A line of prose stands once in a page: one that stands twice is what a merge left.
fn wrong_twice(wrong: &mut Vec<String>) {
    let mut pages = vec![(PathBuf::from("README.md"), read("README.md"))];
    ["docs", "vectors", "compare", "attacks"].iter().for_each(|folder| files(Path::new(folder), &["md"], &mut pages));
    pages.retain(|(page, _)| page != Path::new(PORT));
    for (page, text) in &pages {
        let mut seen = BTreeSet::new();
        let is_heading = |i: usize| text.lines().nth(i + 1).is_some_and(|next| next.starts_with("|---"));
        for (i, line) in text.lines().enumerate().filter(|(_, line)| line.chars().filter(|c| c.is_alphabetic()).count() >= 30) {
            if !seen.insert(line.trim()) && !is_heading(i) {
                wrong.push(format!("{}:{}: a line that stands once in its page", page.display(), i + 1));
            }
        }
    }
}

/// The 2,048 numbers that the program `utf8_table` prints are those of the constant of the crate `utf8`.
fn wrong_entries(wrong: &mut Vec<String>) {
    let page = "crates/utf8/src/lib.rt";
    let source = read(page);
    let constant = source.split_once("const NEXT: [u8; 2048] = [").and_then(|(_, rest)| rest.split_once("];")).map_or("", |(entries, _)| entries);
    let bare: String = constant.lines().map(|line| line.split("//").next().unwrap_or("")).collect();
    let numbers = |text: &str| -> Vec<u8> { text.split([',', ' ', '\n']).filter(|x| !x.is_empty()).map(|x| x.parse().unwrap_or(u8::MAX)).collect() };
    if numbers(&bare).len() != 2048 || numbers(&bare) != numbers(&read("crates/utf8_table/stdout")) {
        wrong.push(format!("{page}: what utf8_table prints"));
    }
}

/// ARCHITECTURE's table of the floors has every crate.
fn wrong_floors(uses: &BTreeMap<String, Vec<String>>, wrong: &mut Vec<String>) {
    let page = "docs/ARCHITECTURE.md";
    let told: BTreeSet<String> = column(&read(page), "crate").into_iter().map(|(_, name)| name).collect();
    wrong.extend(uses.keys().filter(|name| !told.contains(*name)).map(|name| format!("{page}: the crate {name}")));
    wrong.extend(told.iter().filter(|name| !uses.contains_key(*name)).map(|name| format!("{page}: a line of crates.txt for {name}")));
}

fn main() {
    let uses = uses();
    let (crates, edits) = (crates(&uses), edits(&uses));
    let mut wrong = Vec::new();
    // A page, and how many first columns of its tables are prose.
    for (page, prose) in [("docs/SENTENCES.md", 2), ("docs/PROMISES.md", 1), ("docs/DECISIONS.md", 2), ("docs/ARCHITECTURE.md", 1)] {
        for (i, line) in read(page).lines().enumerate() {
            let mut cited = missing_paths(line);
            cited.extend(missing_edits(line, &edits));
            if line.starts_with('|') {
                line.split('|').skip(prose + 1).for_each(|cell| cited.extend(missing_names(&crates, cell)));
            }
            wrong.extend(cited.into_iter().map(|what| format!("{page}:{}: {what}", i + 1)));
        }
    }
    wrong_families("docs/PROMISES.md", &edits, &mut wrong);
    wrong_statements("docs/PROMISES.md", &mut wrong);
    wrong_exports("docs/PROMISES.md", &crates, &mut wrong);
    wrong_sections(&mut wrong);
    wrong_links(&mut wrong);
    wrong_twice(&mut wrong);
    wrong_entries(&mut wrong);
    wrong_floors(&uses, &mut wrong);
    wrong.iter().for_each(|line| eprintln!("tables: {line} is not there"));
    std::process::exit(!wrong.is_empty() as i32)
}
