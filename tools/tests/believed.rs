//! `docs/BELIEVED.md`: the definitions that the contracts of the entry points and the theorems
//! named in `docs/ASSURANCE.md` rest on, computed from the files. Each of them stands where a
//! reader looks for it: in a crate's `specs`, and not below `specs/Inner`.

use std::collections::{BTreeMap, BTreeSet, HashMap};
use std::path::Path;

const ROOT: &str = concat!(env!("CARGO_MANIFEST_DIR"), "/..");

/// The public functions whose contracts are read, besides all that C may call.
const ENTRIES: [&str; 29] = [
    "checking::check",
    "part::part",
    "trial::trial",
    "tidying::tidy",
    "settle::settle",
    "expand::expand",
    "expand::execute",
    "expand::quote::quote",
    "response::response",
    "strategy::strategy",
    "claim::claim",
    "certify::certify",
    "clauses::clauses",
    "outer::outer",
    "reduce::reduce",
    "sort_compare::sort::sort",
    "sort_compare::compare::compare",
    "solve::solve",
    "solve::line::line_for",
    "force::force",
    "guards::guards",
    "decide::decide",
    "join::join",
    "split::split",
    "resume::resume",
    "conversion::to_wide",
    "conversion::to_narrow",
    "reader::qdimacs",
    "step_list::numbers::follow_numbers",
];

const INTRODUCTION: &str = "\
# What a reader must believe

This page lists every definition that the contracts of the entry points and the theorems named in \
[ASSURANCE](ASSURANCE.md) rest on: those that their statements name, those that these are made \
of, and so on. Whoever believes that they say what documents 01 and 02 say needs to believe no \
other definition: what else is defined is used inside proofs alone. The logic's own library is \
left out. Nobody writes this page: `tools/tests/believed.rs` computes it, and the gate fails if \
it isn't what is computed, or if one of the definitions stands among proofs or below \
`specs/Inner`. At its end stand the shorthands that some theorems have beside them, for a term over \
their own parameters.
";

/// A declaration of a file of antt.
struct Declaration {
    name: String,
    /// The constructors, if it is a data type.
    constructors: Vec<String>,
    /// Whether it is a record or a data type: then its parts are fields or constructors, and
    /// clauses if it isn't.
    is_type: bool,
    /// Whether it is a name for a term over the parameters of the module around it, of use to the
    /// theorems there alone: a part of their statements.
    is_shorthand: bool,
    /// Whether it can't be unfolded: as a claim it is a theorem, and its type is all it says.
    is_sealed: bool,
    /// The parameters of the modules around it.
    around: Vec<String>,
    head: Vec<String>,
    parts: Vec<Vec<String>>,
    lines: usize,
}

/// A file: what it declares, and for each word that it may use from elsewhere where it is from.
#[derive(Default)]
struct File {
    declared: Vec<Declaration>,
    /// A word, and the module and the name that it stands for.
    imported: HashMap<String, (String, String)>,
    /// A short name, and the module that it stands for.
    modules: HashMap<String, String>,
}

/// The files by their paths from the repository's folder.
type Files = BTreeMap<String, File>;

/// A definition: its file, and which of the declarations there it is.
type Place = (String, usize);

/// What a word stands for.
enum Meaning {
    Defined(Place),
    /// A struct or an enum of the code: its crate, its path there, and whether a variant is meant.
    Coded(String, String, bool),
    /// A name that should be declared in a file, and isn't.
    Lost(String),
}

/// The words of a text, with each bracket, `;`, `,` and the dot behind a binder as its own.
fn words(text: &str) -> Vec<String> {
    let mut words: Vec<String> = Vec::new();
    for run in text.split_whitespace() {
        let mut word = String::new();
        for c in run.chars() {
            if "(){};,".contains(c) {
                words.extend((!word.is_empty()).then(|| std::mem::take(&mut word)));
                words.push(c.to_string());
            } else {
                word.push(c);
            }
        }
        match word.strip_suffix('.') {
            Some(front) if !front.is_empty() => words.extend([front.to_string(), ".".to_string()]),
            _ => words.extend((!word.is_empty()).then_some(word)),
        }
    }
    words
}

/// The words by which a name is used: an operator's are what stands between its operands.
fn spoken(name: &str) -> Vec<&str> {
    if name.contains('◌') {
        name.split('◌').filter(|part| !part.is_empty()).chain([name]).collect()
    } else {
        vec![name]
    }
}

/// What a word projects from, whose fields stand behind it, each with a dot: all of it if it has
/// none.
fn base(word: &str) -> &str {
    word.split('.').next().unwrap_or(word)
}

/// Takes in `Module.{a, b as c}` or `Module as short`.
fn import(file: &mut File, text: &str) {
    if let Some((module, names)) = text.split_once(".{") {
        for name in names.trim_end_matches([';', '}']).split(',').map(str::trim) {
            let (name, own) = name.split_once(" as ").unwrap_or((name, name));
            for word in spoken(own) {
                let from = (module.to_string(), name.to_string());
                file.imported.insert(word.to_string(), from);
            }
        }
    } else if let Some((module, short)) = text.split_once(" as ") {
        file.modules.insert(short.to_string(), module.to_string());
    }
}

/// A block of declarations: how far it stands in, the parameters of the modules around it, and
/// whether all in it can be unfolded.
#[derive(Clone, Default)]
struct Block {
    margin: usize,
    around: Vec<String>,
    unfolds: bool,
}

/// Reads a file of antt.
fn read(text: &str) -> File {
    let code = |line: &str| line.split(" -- ").next().unwrap_or("").trim_end().to_string();
    let lines: Vec<(usize, String)> = text
        .lines()
        .filter(|line| !line.trim().is_empty() && !line.trim_start().starts_with("--"))
        .map(|line| (line.len() - line.trim_start().len(), code(line)))
        .collect();
    let mut file = File::default();
    let mut blocks = vec![Block::default()];
    let mut i = 0;
    while i < lines.len() {
        let (margin, line) = (lines[i].0, lines[i].1.trim());
        blocks.retain(|block| block.margin <= margin);
        let block = blocks.last().expect("the file's own block").clone();
        let mut end = i + 1;
        if line.starts_with("module ") || line.ends_with("mutual") {
            let opened = |line: &str| line.ends_with("where") || line.ends_with("mutual");
            while !opened(&lines[end - 1].1) {
                end += 1;
            }
            let inner = lines.get(end).map_or(margin + 1, |line| line.0);
            let header = lines[i..end].iter().flat_map(|line| words(&line.1));
            let around = block.around.iter().cloned().chain(header).collect();
            let unfolds = block.unfolds || line.starts_with("unfoldable");
            blocks.push(Block { margin: inner, around, unfolds });
        } else {
            while lines.get(end).is_some_and(|line| line.0 > margin) {
                end += 1;
            }
            take(&mut file, &block, &lines[i..end]);
        }
        i = end;
    }
    file
}

/// Takes in a line of a block with those that stand further in below it.
fn take(file: &mut File, block: &Block, lines: &[(usize, String)]) {
    let all: Vec<String> = lines.iter().flat_map(|line| words(&line.1)).collect();
    let modifiers = all.iter().take_while(|word| is_modifier(word)).count();
    let rest: Vec<&str> = all[modifiers..].iter().map(String::as_str).collect();
    let new = |name: &str, is_type: bool| Declaration {
        name: name.to_string(),
        constructors: Vec::new(),
        is_type,
        is_sealed: !is_type && !block.unfolds && all[..modifiers].iter().all(|word| word == "pub"),
        is_shorthand: modifiers == 1 && all[0] == "abbrev" && !block.around.is_empty(),
        around: block.around.clone(),
        head: Vec::new(),
        parts: Vec::new(),
        lines: lines.len(),
    };
    match rest[..] {
        ["use", ..] => {
            let item = lines[0].1.split_once("use ").expect("what is used").1;
            import(file, item);
        }
        ["mod" | "infix" | "infixl" | "infixr" | "unfolding", ..] => {}
        ["record" | "data", name, ..] => {
            let mut declaration = new(name, true);
            let head = 1 + lines.iter().position(|line| line.1.ends_with("where")).unwrap_or(0);
            let text = lines[..head].iter().flat_map(|line| words(&line.1));
            declaration.head = text.skip(modifiers + 2).collect();
            declaration.parts = parts(&lines[head..]);
            if rest[0] == "data" {
                let names = declaration.parts.iter().flat_map(|part| labels(part).to_vec());
                declaration.constructors = names.collect();
            }
            file.declared.push(declaration);
        }
        [name, ":", ..] => {
            let mut declaration = new(name, false);
            declaration.head = all[modifiers + 2..].to_vec();
            file.declared.push(declaration);
        }
        _ => {
            let declaration = file.declared.last_mut().expect("a declaration before its clauses");
            declaration.lines += lines.len();
            declaration.parts.push(all);
        }
    }
}

fn is_modifier(word: &str) -> bool {
    ["pub", "abbrev", "unfoldable"].contains(&word)
}

/// The fields of a record, or the lines of constructors, each with what stands further in below it.
fn parts(lines: &[(usize, String)]) -> Vec<Vec<String>> {
    let mut parts: Vec<Vec<String>> = Vec::new();
    for (margin, line) in lines {
        let more = words(line).into_iter().filter(|word| !is_modifier(word));
        if *margin == lines[0].0 {
            parts.push(more.collect());
        } else {
            parts.last_mut().expect("a first line").extend(more);
        }
    }
    parts
}

/// The names in front of a part's colon.
fn labels(part: &[String]) -> &[String] {
    &part[..part.iter().position(|word| word == ":").unwrap_or(0)]
}

/// The libraries of the toolchain that definitions name as they name a crate's.
const KIT: [&str; 1] = ["std"];

/// The file of a module, from the repository's folder; none if it is the logic's library.
fn path_of(module: &str) -> Option<String> {
    let (name, path) = module.strip_prefix("Rattle.")?.split_once('.')?;
    let is_ours = !KIT.contains(&name);
    is_ours.then(|| format!("crates/{name}/{}.antt", path.replace('.', "/")))
}

/// What a module's name stands for; nothing if it is of the logic's library.
fn meaning_in(files: &Files, module: &str, name: &str) -> Option<Meaning> {
    let path = path_of(module)?;
    if let Some((start, declared)) = path.split_once("/specs/declared/") {
        let of = declared.trim_end_matches(".antt");
        let is_variant = of.ends_with("/TheVariants");
        let of = of.trim_end_matches("/TheVariants").replace('/', "::");
        return Some(Meaning::Coded(
            start.trim_start_matches("crates/").to_string(),
            of,
            is_variant,
        ));
    }
    let found = files.get(&path).and_then(|file| declared_in(file, name, usize::MAX));
    Some(match found {
        Some(at) => Meaning::Defined((path, at)),
        None => Meaning::Lost(format!("{module}.{name}")),
    })
}

/// The declaration that a word stands for at a place of a file: the last one so far, or the next.
fn declared_in(file: &File, word: &str, here: usize) -> Option<usize> {
    let is = |name: &String| spoken(name).contains(&word);
    let mut found = None;
    for (at, declaration) in file.declared.iter().enumerate() {
        let named = is(&declaration.name) || declaration.constructors.iter().any(is);
        if named && (at <= here || found.is_none()) {
            found = Some(at);
        }
    }
    found
}

/// What a word stands for at a place of a file: what is declared there, or what is imported.
fn meaning(files: &Files, path: &str, here: usize, word: &str) -> Option<Meaning> {
    let file = &files[path];
    if let Some(at) = declared_in(file, word, here) {
        return Some(Meaning::Defined((path.to_string(), at)));
    }
    if let Some((module, name)) = file.imported.get(word) {
        return meaning_in(files, module, name);
    }
    let (short, name) = word.split_once('.').filter(|(short, _)| !short.is_empty())?;
    match file.modules.get(short) {
        Some(module) => meaning_in(files, module, name),
        None => meaning(files, path, here, short),
    }
}

fn is_constructor(files: &Files, path: &str, here: usize, word: &str) -> bool {
    match meaning(files, path, here, word) {
        Some(Meaning::Defined((path, at))) => {
            let name = word.rsplit('.').next().unwrap_or(word);
            let names = &files[&path].declared[at].constructors;
            names.iter().any(|constructor| spoken(constructor).contains(&name))
        }
        Some(Meaning::Coded(_, _, is_variant)) => is_variant,
        _ => false,
    }
}

/// The names that are bound behind an opening bracket: all in front of a colon.
fn bound_behind(text: &[String]) -> &[String] {
    let is_name =
        |word: &&String| !["(", ")", "{", "}", ";", ",", ".", ":"].contains(&word.as_str());
    let names = text.iter().take_while(is_name).count();
    let binds = text.get(names).is_some_and(|word| word == ":");
    &text[..if binds { names } else { 0 }]
}

/// The names that a text uses and doesn't bind. What it binds outside of brackets stays bound.
fn free(text: &[String], bound: &mut Vec<String>) -> Vec<String> {
    let mut used = Vec::new();
    let mut open: Vec<(usize, &[String])> = Vec::new();
    let mut lambda = None;
    let mut i = 0;
    while i < text.len() {
        let word = &text[i];
        let before = i.checked_sub(1).map_or("", |before| &text[before]);
        let equals = text.get(i + 1).is_some_and(|word| word == "=");
        match word.as_str() {
            "(" | "{" => {
                let names = bound_behind(&text[i + 1..]);
                open.push((bound.len(), names));
                i += names.len();
            }
            ")" | "}" => {
                let (so_far, names) = open.pop().unwrap_or((bound.len(), &[]));
                bound.truncate(so_far);
                bound.extend(names.iter().cloned());
            }
            "λ" => lambda = Some(open.len()),
            "." => lambda = None,
            _ if equals && ["{", ";"].contains(&before) => {}
            _ if equals && before == "let" => bound.push(word.clone()),
            _ if lambda == Some(open.len()) => bound.push(word.clone()),
            _ if word.starts_with('.') || bound.iter().any(|name| name == base(word)) => {}
            _ => used.push(word.clone()),
        }
        i += 1;
    }
    used
}

/// A clause's words in front of its `=`.
fn pattern(clause: &[String]) -> &[String] {
    let mut depth = 0;
    for (i, word) in clause.iter().enumerate() {
        match word.as_str() {
            "(" | "{" => depth += 1,
            ")" | "}" => depth -= 1,
            "=" if depth == 0 => return &clause[..i],
            _ => {}
        }
    }
    clause
}

/// The names that a declaration uses: in its statement, or in all that it says.
fn names_in(files: &Files, (path, at): &Place, whole: bool) -> Vec<String> {
    let declaration = &files[path].declared[*at];
    let mut bound = Vec::new();
    let mut used = free(&declaration.around, &mut bound);
    let around = bound.len();
    used.extend(free(&declaration.head, &mut bound));
    if !declaration.is_type {
        bound.truncate(around);
    }
    for part in declaration.parts.iter().filter(|_| whole) {
        let mut inner = bound.clone();
        if declaration.is_type {
            let names = labels(part);
            used.extend(free(&part[names.len()..], &mut inner));
            bound.extend(names.iter().cloned());
        } else {
            let pattern = pattern(part);
            for word in pattern {
                let uses = is_constructor(files, path, *at, word);
                if uses { &mut used } else { &mut inner }.push(word.clone());
            }
            used.extend(free(&part[pattern.len()..], &mut inner));
        }
    }
    used
}

/// Names used at a place of a file, and by what.
struct Use {
    by: String,
    path: String,
    here: usize,
    names: Vec<String>,
}

/// All that is reached from some names: definitions, each with what reaches it first, and types of
/// the code by crate; and the names that nothing declares.
#[derive(Default)]
struct Reached {
    definitions: BTreeMap<Place, String>,
    types: BTreeSet<(String, String)>,
    lost: Vec<String>,
}

fn reach(files: &Files, mut uses: Vec<Use>) -> Reached {
    let mut reached = Reached::default();
    uses.reverse();
    while let Some(Use { by, path, here, names }) = uses.pop() {
        for name in names {
            match meaning(files, &path, here, &name) {
                Some(Meaning::Defined(place)) if !reached.definitions.contains_key(&place) => {
                    let names = names_in(files, &place, true);
                    let own = files[&place.0].declared[place.1].name.clone();
                    uses.push(Use { by: own, path: place.0.clone(), here: place.1, names });
                    reached.definitions.insert(place, by.clone());
                }
                Some(Meaning::Coded(name, of, _)) => drop(reached.types.insert((name, of))),
                Some(Meaning::Lost(name)) => reached.lost.push(format!("{name}, used by {by}")),
                _ => {}
            }
        }
    }
    reached
}

/// Whether a file is one of those that a reader is told to believe.
fn is_open(path: &str) -> bool {
    let mut parts = path.split('/').skip(2);
    parts.next() == Some("specs") && parts.all(|part| part != "Inner" && part != "Inner.antt")
}

/// The definitions reached that stand where no reader looks for them.
fn hidden(files: &Files, reached: &Reached) -> Vec<String> {
    let outside = reached
        .definitions
        .iter()
        .filter(|((path, at), _)| !is_open(path) && !files[path].declared[*at].is_shorthand);
    outside
        .map(|((path, at), by)| format!("{path}: {}, used by {by}", files[path].declared[*at].name))
        .collect()
}

fn text_of(path: &str) -> String {
    std::fs::read_to_string(Path::new(ROOT).join(path)).unwrap_or_else(|e| panic!("{path}: {e}"))
}

/// The files with an ending in a folder and below it, by their paths from the repository's folder.
fn below(folder: &str, ending: &str) -> Vec<String> {
    let mut found = Vec::new();
    let mut folders = vec![folder.to_string()];
    while let Some(folder) = folders.pop() {
        let Ok(entries) = std::fs::read_dir(Path::new(ROOT).join(&folder)) else { continue };
        for entry in entries {
            let entry = entry.expect("an entry");
            let path = format!("{folder}/{}", entry.file_name().to_string_lossy());
            if entry.path().is_dir() {
                folders.push(path);
            } else if path.ends_with(ending) {
                found.push(path);
            }
        }
    }
    found.sort();
    found
}

/// The crates, lower ones first.
fn crates() -> Vec<String> {
    let text = text_of("crates.txt");
    let lines = text.lines().filter(|line| !line.starts_with('#'));
    let names = lines.filter_map(|line| line.split_once(':')?.0.split_whitespace().next());
    names.map(str::to_string).collect()
}

fn all_files() -> Files {
    let folders = crates()
        .into_iter()
        .flat_map(|name| ["specs", "proofs"].map(|part| format!("crates/{name}/{part}")));
    let paths = folders.flat_map(|folder| below(&folder, ".antt"));
    paths.map(|path| (path.clone(), read(&text_of(&path)))).collect()
}

/// What a function returns, in its clauses.
const RESULT: &str = "result";

/// Clauses without the names that they have where there are several.
fn without_names(clauses: &str) -> String {
    let lines = clauses.lines().map(|line| match line.split_once(" {") {
        Some((head, clause)) if line.starts_with("    ") && !line.starts_with("     ") => {
            let kind = head.split_whitespace().next().unwrap_or(head);
            format!("{kind} {{{clause}\n")
        }
        _ => format!("{line}\n"),
    });
    lines.collect()
}

/// What the contract of a function uses, whose text begins with its name.
fn contract(path: &str, function: &str) -> Use {
    let name = function.split(['(', '<']).next().unwrap_or("");
    let end = function.find("\n{").unwrap_or_else(|| panic!("{path}: {name} has no body"));
    let clauses = ["\n    requires ", "\n    ensures "];
    let start = clauses.iter().filter_map(|clause| function[..end].find(clause)).min();
    let start = start.unwrap_or_else(|| panic!("{path}: {name} has no contract"));
    let ends_name = |front: &str| front.rsplit([' ', '(', '\n']).next().unwrap_or("").to_string();
    let parameters = function[..start].split(':').map(ends_name);
    let mut bound = parameters.chain([RESULT.to_string()]).collect();
    let names = free(&words(&without_names(&function[start..end])), &mut bound);
    Use { by: format!("the contract of {name} in {path}"), path: path.to_string(), here: 0, names }
}

/// The contracts of the entry points; the files of the code join the others, for their imports.
fn contracts(files: &mut Files) -> Vec<Use> {
    let mut uses = Vec::new();
    let mut take = |path: &str, start: &str, name: &str| {
        let text = text_of(path);
        let file = files.entry(path.to_string()).or_default();
        for line in text.lines().filter_map(|line| line.strip_prefix("ghost use ")) {
            import(file, line);
        }
        let heads = [format!("{start}{name}("), format!("{start}{name}<")];
        let at = heads.iter().find_map(|head| text.find(head));
        let at = at.unwrap_or_else(|| panic!("{path} has no public function {name}"));
        uses.push(contract(path, &text[at + start.len()..]));
    };
    let for_c = crates().into_iter().filter(|name| name.starts_with("capi"));
    for path in for_c.flat_map(|name| below(&format!("crates/{name}/src"), ".rt")) {
        let text = text_of(&path);
        let start = "#[unsafe(no_mangle)]\npub extern \"C\" fn ";
        for function in text.split(start).skip(1) {
            take(&path, start, function.split('(').next().unwrap_or(""));
        }
    }
    for entry in ENTRIES {
        let parts: Vec<&str> = entry.split("::").collect();
        let file = if parts.len() == 2 { "lib" } else { parts[1] };
        let path = format!("crates/{}/src/{file}.rt", parts[0]);
        take(&path, "pub fn ", parts[parts.len() - 1]);
    }
    uses
}

/// The claims of the table in `docs/ASSURANCE.md`: the places of what it names, and the words that
/// name nothing.
fn claims(files: &Files) -> (Vec<Place>, Vec<String>) {
    let text = text_of("docs/ASSURANCE.md");
    let section = text.split("\n## What is proved\n").nth(1).expect("the section");
    let section = section.split("\n## ").next().unwrap_or(section);
    let (mut places, mut unknown) = (Vec::new(), Vec::new());
    let mut last = String::new();
    for row in section.lines().filter(|line| line.starts_with("| ")).skip(1) {
        let cell = row.split(" | ").nth(1).expect("a second column");
        let pieces: Vec<&str> = cell.split('`').collect();
        let before = last.clone();
        let named = pieces.iter().skip(1).step_by(2).filter(|word| is_path(word));
        let paths: Vec<String> = named.map(|word| path_said(&mut last, word)).collect();
        let mut from = None;
        for pair in pieces.chunks_exact(2).filter(|pair| !is_path(pair[1])) {
            let (joint, word) = (pair[0], pair[1]);
            if is_code(word, &paths) {
                continue;
            }
            let found = find(files, word, &paths, &before);
            match (found.first(), from) {
                (None, _) => unknown.push(word.to_string()),
                (Some(to), Some(from)) if joint == " to " => places.extend(alike(files, from, to)),
                _ => {}
            }
            from = found.first().cloned();
            places.extend(found);
        }
    }
    (places, unknown)
}

/// Those between two declarations of a file whose names differ from theirs in the last part alone.
fn alike(files: &Files, from: Place, to: &Place) -> Vec<Place> {
    let name = |at: usize| &files[&to.0].declared[at].name;
    let stem = |at: usize| name(at).rsplit_once(['-', '_']).map(|parts| parts.0);
    let between = from.1 + 1..to.1;
    between.filter(|at| stem(*at) == stem(to.1)).map(|at| (to.0.clone(), at)).collect()
}

/// Whether a word names a function: an entry point, or one in a file that its row names.
fn is_code(word: &str, paths: &[String]) -> bool {
    let heads = [format!("fn {word}("), format!("fn {word}<")];
    let holds = |path: &String| heads.iter().any(|head| text_of(path).contains(head));
    ENTRIES.iter().any(|entry| entry.rsplit("::").next() == Some(word))
        || paths.iter().any(|path| path.ends_with(".rt") && holds(path))
}

fn is_path(word: &str) -> bool {
    word.contains('/') || word.ends_with(".antt") || word.ends_with(".rt")
}

/// The path that a word says: its own, or of a bare file's name one in the folder named last.
fn path_said(last: &mut String, word: &str) -> String {
    let path = match (word.contains('/'), last.rsplit_once('/')) {
        (false, Some((folder, _))) => format!("{folder}/{word}"),
        _ => word.to_string(),
    };
    if !path.ends_with(".rt") && Path::new(ROOT).join(&path).exists() {
        *last = path.clone();
    }
    path
}

/// Where a word of a row is declared: in what the row names, in what was named before it, among
/// the proofs over formulas and sheets, or else in one place alone.
fn find(files: &Files, word: &str, paths: &[String], before: &str) -> Vec<Place> {
    let among = |tests: &[&str]| -> Vec<Place> {
        let is_in = |path: &str| tests.iter().any(|test| path.starts_with(test));
        let all = files.iter().filter(|(path, _)| is_in(path));
        let places = all.flat_map(|(path, file)| {
            let declared = file.declared.iter().enumerate();
            let named = declared.filter(|(_, declaration)| declaration.name == word);
            named.map(|(at, _)| (path.clone(), at))
        });
        places.collect()
    };
    let paths: Vec<&str> = paths.iter().map(String::as_str).collect();
    let near = [&paths[..], &[before], &["crates/formula/proofs/", "crates/sheet/proofs/"]];
    let found = near.iter().map(|tests| among(tests)).find(|found| !found.is_empty());
    found.unwrap_or_else(|| Some(among(&[""])).filter(|all| all.len() == 1).unwrap_or_default())
}

/// The claims as uses: of a theorem what its statement names, of a definition itself.
fn claimed(files: &Files, places: Vec<Place>) -> Vec<Use> {
    let mut uses = Vec::new();
    for place in places {
        let declaration = &files[&place.0].declared[place.1];
        let names = match declaration.is_sealed {
            true => names_in(files, &place, false),
            false => vec![declaration.name.clone()],
        };
        let by = format!("{} in {}", declaration.name, place.0);
        uses.push(Use { by, path: place.0, here: place.1, names });
    }
    uses
}

/// The page.
fn page(files: &Files, reached: &Reached) -> String {
    let mut listed: BTreeMap<&str, (usize, Vec<String>)> = BTreeMap::new();
    let mut shorthands: BTreeMap<&str, (usize, Vec<String>)> = BTreeMap::new();
    for (path, at) in reached.definitions.keys() {
        let declaration = &files[path].declared[*at];
        let of = if declaration.is_shorthand { &mut shorthands } else { &mut listed };
        let entry = of.entry(path).or_default();
        entry.0 += declaration.lines;
        entry.1.push(format!("`{}`", declaration.name));
    }
    let lines: usize = listed.values().map(|entry| entry.0).sum();
    let definitions: usize = listed.values().map(|entry| entry.1.len()).sum();
    let count = listed.len();
    let mut page = format!("{INTRODUCTION}\n{definitions} definitions in {count} files, ");
    page += &format!("{lines} lines without blank ones and comments.\n");
    let mut types = String::new();
    for name in crates() {
        let start = format!("crates/{name}/");
        let own: Vec<_> = listed.iter().filter(|(path, _)| path.starts_with(&start)).collect();
        if !own.is_empty() {
            page += &format!("\n## {name}\n\n");
        }
        for (path, (lines, names)) in own {
            page += &format!("- `{path}`, {lines} lines: {}\n", names.join(", "));
        }
        let own = reached.types.iter().filter(|(of, _)| *of == name);
        let own: Vec<String> = own.map(|(_, path)| format!("`{path}`")).collect();
        if !own.is_empty() {
            types += &format!("- {name}: {}\n", own.join(", "));
        }
    }
    page += "\n## Types of the code\n\n";
    page += &types;
    page += "\n## Shorthands beside theorems\n\n";
    for (path, (lines, names)) in shorthands {
        page += &format!("- `{path}`, {lines} lines: {}\n", names.join(", "));
    }
    page
}

#[test]
fn what_is_believed_is_listed() {
    let mut files = all_files();
    let mut uses = contracts(&mut files);
    let (places, unknown) = claims(&files);
    println!("{} contracts, {} claims", uses.len(), places.len());
    assert!(unknown.is_empty(), "named in ASSURANCE, declared nowhere: {}", unknown.join(", "));
    uses.extend(claimed(&files, places));
    let reached = reach(&files, uses);
    let page = page(&files, &reached);
    let path = "docs/BELIEVED.md";
    if std::env::var_os("BELIEVED_WRITE").is_some() {
        std::fs::write(Path::new(ROOT).join(path), &page).expect("the page written");
    }
    let hidden = hidden(&files, &reached);
    assert!(reached.lost.is_empty(), "declared nowhere:\n{}", reached.lost.join("\n"));
    assert!(hidden.is_empty(), "outside specs, or below Inner:\n{}", hidden.join("\n"));
    let same = Path::new(ROOT).join(path).exists() && text_of(path) == page;
    assert!(same, "{path} isn't what is computed; BELIEVED_WRITE=1 writes it anew");
}

#[test]
fn what_is_hidden_is_found() {
    let specs = "
-- a type, and a name for it
pub data Shape : Type 0 where
  round square : Shape

abbrev pub Many : Type 0
Many = Shape
";
    let proofs = "
use Rattle.shapes.specs.Base.{Shape, round, Many}

abbrev pub kept : Many → Shape
kept s = s

abbrev pub unused : Shape
unused = round

module _ (s : Shape) where
  -- a name that is bound is not the one declared above, and a proof is no statement
  pub law : (unused : Shape) → kept s ≡ kept unused
  unfolding kept
  law r = proof unused
";
    let (base, laws) = ("crates/shapes/specs/Base.antt", "crates/shapes/proofs/Laws.antt");
    let files: Files =
        [(base, specs), (laws, proofs)].map(|(path, text)| (path.to_string(), read(text))).into();
    let law = find(&files, "law", &[], "");
    let reached = reach(&files, claimed(&files, law));
    let definitions = reached.definitions.keys();
    let names: Vec<&str> =
        definitions.map(|(path, at)| files[path].declared[*at].name.as_str()).collect();
    assert_eq!(names, ["kept", "Shape", "Many"]);
    assert_eq!(hidden(&files, &reached), [format!("{laws}: kept, used by law in {laws}")]);
    assert!(is_open(base) && !is_open(laws));
    assert!(!is_open("crates/shapes/specs/Inner/Base.antt"));
    assert!(!is_open("crates/shapes/specs/Inner.antt"));
}
