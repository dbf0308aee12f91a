//! Scripts that stand with the replies of `poolrun`: those of its own tests, and random ones.
use replay::{Player, Reply};
use std::fs;
use std::path::{Path, PathBuf};

/// How scripts came out: those that were played to their end, those that were left at a line that the crate cannot express,
/// and those lines.
#[derive(Default, Debug)]
struct Outcome {
    whole: usize,
    left: usize,
    lines: usize,
}

/// The lines of one script, each with its reply.
type Script = Vec<(String, String)>;

fn play(name: &str, script: &Script, outcome: &mut Outcome) {
    let mut player = Player::default();
    for (at, (line, expected)) in script.iter().enumerate() {
        match player.play(line) {
            Some(Reply::Said(reply)) => {
                assert_eq!(reply.trim_end_matches('\n'), expected, "{name}, line {}: {line}", at + 1);
            }
            Some(Reply::NotExpressible) => {
                println!("{name}, line {}: {line}: not to be expressed", at + 1);
                outcome.left += 1;
                return;
            }
            other => panic!("{name}, line {}: {line}: {other:?}", at + 1),
        }
        outcome.lines += 1;
    }
    outcome.whole += 1;
}

/// The scripts of a text: lines with their replies, which a pool line begins.
fn scripts_of(text: &str) -> Vec<Script> {
    let mut scripts: Vec<Script> = Vec::new();
    for line in text.lines() {
        let Some((line, reply)) = line.split_once(" => ") else {
            continue;
        };
        let is_opening = ["pool ", "unmanaged ", "config "].iter().any(|word| line.starts_with(word));
        if is_opening {
            scripts.push(Script::new());
        }
        if let Some(script) = scripts.last_mut() {
            script.push((line.into(), reply.into()));
        }
    }
    scripts
}

fn below(folder: &Path, found: &mut Vec<PathBuf>) {
    for entry in fs::read_dir(folder).expect("a folder").flatten() {
        let path = entry.path();
        if path.is_dir() {
            below(&path, found);
        } else if path.extension().is_some_and(|it| it == "rt") {
            found.push(path);
        }
    }
}

/// The text literals of a source of Rattle that have scripts: each is a constant's.
fn literals_of(source: &str) -> Vec<String> {
    let begins = source.match_indices(": &str = \"\\\n").map(|(at, word)| at + word.len());
    begins
        .filter_map(|begin| source[begin..].split_once("\n\";"))
        .map(|(text, _)| text.replace("\\n", "\n").replace("\\\"", "\"").replace("\\\\", "\\"))
        .collect()
}

/// A script once, or once for each of the texts that `$KIND` stands for in it.
fn kinds_of(script: &str) -> Vec<String> {
    match script.lines().find_map(|line| line.strip_prefix("@each KIND ")) {
        None => vec![script.into()],
        Some(texts) => texts.split('|').map(|text| script.replace("$KIND", text)).collect(),
    }
}

/// The texts of the library's tests that have scripts, each with its file.
fn texts_of_tests() -> Vec<(PathBuf, String)> {
    let top = Path::new(env!("CARGO_MANIFEST_DIR")).join("../..");
    let mut files = Vec::new();
    below(&top.join("crates/test_support/src/scripts"), &mut files);
    let mut texts = Vec::new();
    for file in files {
        let source = fs::read_to_string(&file).expect("a source");
        texts.extend(literals_of(&source).into_iter().map(|text| (file.clone(), text)));
    }
    let told = top.join("tests/test_poolrun/texts/told.txt");
    let source = fs::read_to_string(&told).expect("scripts");
    texts.extend(source.split("\n\n").flat_map(kinds_of).map(|script| (told.clone(), script)));
    texts
}

#[test]
fn the_scripts_of_its_tests_have_their_replies() {
    let mut outcome = Outcome::default();
    for (file, text) in texts_of_tests() {
        for script in scripts_of(&text) {
            play(&file.display().to_string(), &script, &mut outcome);
        }
    }
    println!("{outcome:?}");
    // (the README has these numbers)
    assert_eq!((outcome.whole, outcome.left), (137, 11), "{outcome:?}");
}

#[test]
fn random_scripts_have_their_replies() {
    let folder = Path::new(env!("CARGO_MANIFEST_DIR")).join("scripts");
    let mut outcome = Outcome::default();
    for name in ["managed.txt", "unmanaged.txt"] {
        let text = fs::read_to_string(folder.join(name)).expect("stored scripts");
        for (number, script) in scripts_of(&text).iter().enumerate() {
            play(&format!("{name}, script {number}"), script, &mut outcome);
        }
    }
    println!("{outcome:?}");
    assert_eq!((outcome.whole, outcome.left), (2_924, 76), "{outcome:?}");
}
