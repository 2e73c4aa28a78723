//! Writes a small repository: a copy of the model, and a crate that claims of each trial that the
//! model says what 01 and the crate say. The claims are proved by computing.

use std::fs;
use std::io::Result;
use std::path::Path;

use crate::antt;
use crate::trials::{Said, Trial};

const TRIALS: &str = include_str!("../antt/Trials.txt");
const HEADER: &str = include_str!("../antt/Cases.txt");
const NUMBERS: &str = "use Rattle.std.specs.Prelude.{ℕ}\n";
const TO_A_FILE: usize = 50;

pub fn write(vectors: &[(Trial, Said)], model: &Path, place: &Path) -> Result<()> {
    let crates = place.join("crates");
    let specs = crates.join("vectors/specs");
    if crates.exists() {
        fs::remove_dir_all(&crates)?;
    }
    fs::create_dir_all(&specs)?;
    fs::create_dir_all(crates.join("vectors/src"))?;
    fs::write(crates.join("vectors/src/lib.rt"), "")?;
    fs::write(place.join("crates.txt"), "model:\nvectors: model\n")?;
    copy(model, &crates.join("model"))?;

    let mut modules = vec!["Trials".to_string()];
    fs::write(specs.join("Trials.antt"), TRIALS)?;
    write_bundles(&crates.join("model/specs"), &specs, &mut modules)?;
    for (number, part) in vectors.chunks(TO_A_FILE).enumerate() {
        let name = format!("Cases{:03}", number + 1);
        fs::write(specs.join(format!("{name}.antt")), claims(part, number * TO_A_FILE + 1))?;
        modules.push(name);
    }
    let lines: String = modules.iter().map(|name| format!("pub mod {name}\n")).collect();
    fs::write(specs.join("Lib.antt"), lines)
}

fn copy(from: &Path, to: &Path) -> Result<()> {
    fs::create_dir_all(to)?;
    for item in fs::read_dir(from)? {
        let item = item?;
        if item.file_name() == "out" {
            continue; // what rt keeps of its checks
        }
        let target = to.join(item.file_name());
        if item.path().is_dir() {
            copy(&item.path(), &target)?;
        } else {
            fs::write(target, fs::read(item.path())?)?;
        }
    }
    Ok(())
}

/// One claim for each vector, so that a refusal names the case.
fn claims(vectors: &[(Trial, Said)], first: usize) -> String {
    let mut text = HEADER.to_string();
    for (number, (trial, said)) in (first..).zip(vectors) {
        let claim = format!("found ({}) ≡ {}", antt::trial(trial), antt::said(said));
        text += &format!("\npub case{number} : {claim}\nunfolding everything\ncase{number} = refl\n");
    }
    text
}

/// One module for each of the model's, whose name unfolds what is `unfoldable` there, and `everything` for all of them.
fn write_bundles(model: &Path, specs: &Path, modules: &mut Vec<String>) -> Result<()> {
    let mut everything = NUMBERS.to_string();
    let mut bundles = Vec::new();
    for stem in stems(model)? {
        let text = fs::read_to_string(model.join(format!("{stem}.antt")))?;
        let names = unfoldable(&text);
        if !names.is_empty() {
            let used = format!("use Rattle.model.specs.{stem}.{{{}}}\n", names.join(", "));
            let name = format!("in_{}", stem.to_lowercase());
            let bundle = unfolding(&name, &names.join(" "));
            fs::write(specs.join(format!("In{stem}.antt")), NUMBERS.to_string() + &used + &bundle)?;
            everything += &format!("use Rattle.vectors.specs.In{stem}.{{{name}}}\n");
            bundles.push(name);
            modules.push(format!("In{stem}"));
        }
    }
    modules.push("Everything".to_string());
    fs::write(specs.join("Everything.antt"), everything + &unfolding("everything", &bundles.join(" ")))
}

/// The names of a folder's modules.
fn stems(folder: &Path) -> Result<Vec<String>> {
    let mut found = Vec::new();
    for item in fs::read_dir(folder)? {
        let name = item?.file_name().to_string_lossy().into_owned();
        found.extend(name.strip_suffix(".antt").map(str::to_string));
    }
    found.sort();
    Ok(found)
}

/// A definition that unfolds others where it is unfolded.
fn unfolding(name: &str, others: &str) -> String {
    format!("\nunfoldable pub {name} : ℕ\nunfolding {others}\n{name} = 0\n")
}

/// The names that a module marks `unfoldable pub`, those of `unfoldable mutual` blocks included.
fn unfoldable(module: &str) -> Vec<&str> {
    let mut names = Vec::new();
    let mut block = false;
    for line in module.lines().filter(|line| !line.trim().is_empty()) {
        let indented = line.starts_with(' ');
        block = line.starts_with("unfoldable mutual") || (block && indented);
        let rest = if block { line.trim_start().strip_prefix("pub ") } else { line.strip_prefix("unfoldable pub ") };
        names.extend(rest.and_then(|rest| rest.split_whitespace().next()));
    }
    names
}
