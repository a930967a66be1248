//! The pages that lead through the repository name what is there: must-fail edits, definitions and functions, crates.

use std::collections::{BTreeMap, BTreeSet};
use std::fs;
use std::path::{Path, PathBuf};

const PAGES: [&str; 7] =
    ["README.md", "docs/ARCHITECTURE.md", "docs/DECISIONS.md", "docs/PROOF.md", "docs/PROVING.md", "docs/TRACE.md", "docs/WAITING.md"];

fn at(path: &str) -> PathBuf {
    Path::new(env!("CARGO_MANIFEST_DIR")).join("../..").join(path)
}

fn text(path: &str) -> String {
    fs::read_to_string(at(path)).unwrap_or_else(|why| panic!("{path}: {why}"))
}

/// The crates as crates.txt lists them, each with those that it uses.
fn uses() -> BTreeMap<String, Vec<String>> {
    let listed = text("crates.txt");
    let lines = listed.lines().filter(|line| !line.starts_with('#')).filter_map(|line| line.split_once(':'));
    // (a static library's line has that word behind the name)
    let name = |said: &str| said.split_whitespace().next().expect("a name").to_string();
    lines.map(|(said, used)| (name(said), used.split_whitespace().map(str::to_string).collect())).collect()
}

fn crates() -> BTreeSet<String> {
    uses().into_keys().collect()
}

/// README: the store stands on the standard library alone.
#[test]
fn the_crates_use_one_another_alone() {
    let uses = uses();
    let others: BTreeSet<_> = uses.values().flatten().filter(|name| !uses.contains_key(*name)).collect();
    assert!(uses.len() >= 40 && others.is_empty(), "{others:?}");
}

/// What stands between backquotes, line by line.
fn quoted(page: &str) -> Vec<Vec<String>> {
    page.lines().map(|line| line.split('`').skip(1).step_by(2).map(str::to_string).collect()).collect()
}

/// The words of a text: names of Rattle, and of its proofs, which may have -, _ and ₛ in them.
fn words(text: &str) -> BTreeSet<&str> {
    let words = text.split(|c: char| !(c.is_alphanumeric() || "-_".contains(c)));
    words.filter(|word| !word.is_empty()).collect()
}

fn is_edit(name: &str) -> bool {
    !name.is_empty() && name.bytes().all(|byte| byte.is_ascii_lowercase() || byte.is_ascii_digit() || byte == b'_')
}

/// Every must-fail edit, as CRATE/NAME.
fn edits() -> BTreeSet<String> {
    let mut all = BTreeSet::new();
    for name in crates() {
        let Ok(folder) = fs::read_dir(at(&format!("crates/{name}/must-fail"))) else { continue };
        all.extend(folder.map(|entry| format!("{name}/{}", entry.unwrap().path().file_stem().unwrap().to_string_lossy())));
    }
    all
}

/// docs/TRACE.md names every must-fail edit, and none that is not there. In a line the crate stands before the first of its edits.
#[test]
fn every_edit_has_its_sentence() {
    let (there, crates) = (edits(), crates());
    let mut named = BTreeSet::new();
    for line in quoted(&text("docs/TRACE.md")) {
        let mut last = String::new();
        for item in line {
            match item.split_once('/') {
                Some((owner, name)) if crates.contains(owner) && is_edit(name) => {
                    last = owner.to_string();
                    assert!(there.contains(&item), "there is no edit {item}");
                    named.insert(item);
                }
                _ => named.extend(Some(format!("{last}/{item}")).filter(|name| there.contains(name))),
            }
        }
    }
    let unnamed: Vec<_> = there.difference(&named).collect();
    assert!(unnamed.is_empty(), "docs/TRACE.md does not name {unnamed:?}");
    assert!(there.len() >= 195);
}

/// What a source file of Rattle declares or passes on.
fn declared(source: &str) -> BTreeSet<&str> {
    let mut names = BTreeSet::new();
    for line in source.lines() {
        let line = line.trim_start_matches("pub ").trim_start_matches("extern \"C\" ");
        let item = ["fn ", "struct ", "enum ", "const ", "type "].iter().find_map(|kind| line.strip_prefix(kind));
        let passed_on = line.strip_prefix("use ").and_then(|path| path.rsplit("::").next());
        names.extend(item.or(passed_on).and_then(|rest| rest.split(|c: char| !(c.is_alphanumeric() || c == '_')).next()));
    }
    names
}

/// Where a page's name leads, and what has to stand there: `spec/Rows: cells`, `spec/proofs/Accord: wait-first` or `crates/spec/specs/Rows.antt` to a
/// file of definitions or proofs, `rows::append_row` to the source of a crate.
fn leads_to<'a>(item: &'a str, crates: &BTreeSet<String>) -> Option<(String, &'a str)> {
    let path = item.strip_prefix("crates/").unwrap_or(item);
    let (place, names) = path.split_once(": ").unwrap_or((path, ""));
    if let Some((owner, name)) = path.split_once("::").filter(|(owner, _)| crates.contains(*owner)) {
        let file = if owner == "step" { "main" } else { "lib" };
        return Some((format!("crates/{owner}/src/{file}.rt"), name.split('(').next().unwrap()));
    }
    let (owner, file) = place.split_once('/').filter(|(owner, _)| crates.contains(*owner))?;
    let (folder, file) = file.split_once('/').unwrap_or(("specs", file));
    let named = file.starts_with(|c: char| c.is_ascii_uppercase()) && !file.ends_with('…');
    named.then(|| (format!("crates/{owner}/{folder}/{}.antt", file.trim_end_matches(".antt")), names))
}

/// What the pages name is there.
#[test]
fn what_the_pages_name_is_there() {
    let crates = crates();
    let (mut files, mut functions, mut missing) = (0, 0, Vec::new());
    for page in PAGES {
        for item in quoted(&text(page)).into_iter().flatten() {
            let Some((place, names)) = leads_to(&item, &crates) else { continue };
            let there = fs::read_to_string(at(&place)).unwrap_or_default();
            let known = if place.ends_with(".rt") { declared(&there) } else { words(&there) };
            *(if place.ends_with(".rt") { &mut functions } else { &mut files }) += 1;
            if there.is_empty() || !words(names).is_subset(&known) {
                missing.push(format!("{page}: `{item}`"));
            }
        }
    }
    assert!(missing.is_empty(), "{missing:#?}");
    assert!(files >= 150 && functions >= 60, "{files} files, {functions} functions");
}

/// Every file of definitions and proofs: its name without the ending, and its text.
fn antt_files() -> Vec<(String, String, String)> {
    let mut found = Vec::new();
    for (owner, folder) in crates().into_iter().flat_map(|name| [(name.clone(), "specs"), (name, "proofs")]) {
        let Ok(entries) = fs::read_dir(at(&format!("crates/{owner}/{folder}"))) else { continue };
        for path in entries.map(|entry| entry.unwrap().path()).filter(|path| path.extension().is_some_and(|ending| ending == "antt")) {
            let name = path.file_stem().unwrap().to_string_lossy().into_owned();
            found.push((format!("{owner}/{folder}"), name, fs::read_to_string(path).unwrap()));
        }
    }
    found
}

/// In the argument in words a law is named by its file: `Deeds.no-share`.
#[test]
fn what_the_argument_cites_is_there() {
    let files = antt_files();
    let (mut cited, mut missing) = (0, Vec::new());
    for item in quoted(&text("docs/PROOF.md")).into_iter().flatten() {
        let Some((file, names)) = item.split_once('.').or(item.split_once(": ")) else { continue };
        let named: Vec<_> = files.iter().filter(|(_, name, _)| name == file).collect();
        if !named.is_empty() && names != "antt" {
            cited += 1;
            missing.extend(Some(item.clone()).filter(|_| !named.iter().any(|(_, _, text)| words(names).is_subset(&words(text)))));
        }
    }
    assert!(missing.is_empty(), "{missing:?}");
    assert!(cited >= 30, "{cited}");
}

/// A public name of definitions and laws stands in one file. (Fields of records may be called alike, and so is each function's theorem.)
#[test]
fn a_public_name_stands_once() {
    let mut places = BTreeMap::<String, BTreeSet<String>>::new();
    for (folder, file, text) in antt_files().iter().filter(|(_, file, _)| file != "Lib") {
        let depth = |line: &str| line.len() - line.trim_start().len();
        let mut above: Vec<&str> = Vec::new();
        for line in text.lines().filter(|line| !line.trim().is_empty() && !line.trim_start().starts_with("--")) {
            above.retain(|outer| depth(outer) < depth(line));
            let in_record = above.last().is_some_and(|outer| outer.trim_start().trim_start_matches("pub ").starts_with("record "));
            let rest = line.trim_start().trim_start_matches("abbrev ").trim_start_matches("unfoldable ");
            if let Some(rest) = rest.strip_prefix("pub ").filter(|_| !in_record) {
                let name = rest.trim_start_matches("record ").trim_start_matches("data ").trim_start_matches("ruleset ").split(' ').next().unwrap();
                places.entry(name.to_string()).or_default().insert(format!("{folder}/{file}"));
            }
            above.push(line);
        }
    }
    assert!(places.len() >= 900, "{}", places.len());
    places.retain(|_, files| files.len() > 1);
    assert!(places.is_empty(), "{places:#?}");
}

/// The picture in docs/ARCHITECTURE.md shows every crate, and nothing else, above those that it uses: a crate is the first word of its line.
#[test]
fn the_picture_shows_the_crates() {
    let page = text("docs/ARCHITECTURE.md");
    let picture = page.lines().filter_map(|line| line.strip_prefix("    "));
    let firsts = picture.filter(|line| !line.starts_with("         ") && !line.starts_with("  |          "));
    let shown: Vec<_> = firsts.filter_map(|line| line.split_whitespace().find(|word| word.starts_with(|c: char| c.is_alphanumeric()))).collect();
    assert_eq!(shown.iter().map(|name| name.to_string()).collect::<BTreeSet<_>>(), crates());
    let place = |name: &str| shown.iter().position(|other| *other == name);
    for (name, used) in uses() {
        for other in used.iter().filter(|other| crates().contains(*other)) {
            assert!(place(&name) < place(other), "{name} uses {other}, which does not stand below it");
        }
    }
}
