//! The stored cases: NAME.words holds an input, NAME.out the text that the program prints.
//!
//! An input is written as decimal 16-bit words between blanks, a word of 32 bits as its low half and
//! its high half; `#` starts a comment that ends with the line. A line `bytes N` cuts the input to N
//! bytes, or fills it up with zero bytes.

use crate::tester::{difference, Tester};
use reference::forms::bytes_of;
use reference::report;
use std::collections::BTreeMap;
use std::fs;
use std::path::Path;
use support::Checked;

/// A stored case.
pub struct Case {
    pub name: String,
    pub input: Vec<u8>,
    pub text: String,
}

/// Runs each case. The plain implementation, which drawn inputs are compared with, has to give the
/// stored text too.
pub fn check(tester: &mut Tester, cases: &[Case]) -> Checked<()> {
    for case in cases {
        let plain = report(&case.input).text;
        if plain != case.text {
            let what = difference(case.text.as_bytes(), plain.as_bytes());
            return Err(format!("plain Rust differs in case {}\n{what}", case.name));
        }
        tester.check(&case.title(), &case.input, &case.text)?;
    }
    Ok(())
}

impl Case {
    /// What a message calls the case.
    pub fn title(&self) -> String {
        format!("case {}", self.name)
    }
}

/// All cases of a folder, by name. A file without its pair is an error, and so is an empty folder.
pub fn read_folder(folder: &Path) -> Checked<Vec<Case>> {
    let mut names: BTreeMap<String, usize> = BTreeMap::new();
    let listed = fs::read_dir(folder).map_err(|error| format!("{}: {error}", folder.display()))?;
    for file in listed {
        let path = file.map_err(|error| error.to_string())?.path();
        let name = path.file_stem().map(|stem| stem.to_string_lossy());
        match path.extension().and_then(|extension| extension.to_str()) {
            Some("words" | "out") => {
                *names.entry(name.unwrap_or_default().into()).or_default() += 1
            }
            _ => return Err(format!("{}: not a case", path.display())),
        }
    }
    if let Some((name, _)) = names.iter().find(|(_, &count)| count != 2) {
        return Err(format!("{name}: a case is two files, .words and .out"));
    }
    if names.is_empty() {
        return Err(format!("{}: no cases", folder.display()));
    }
    names.into_keys().map(|name| read(folder, name)).collect()
}

/// One case.
fn read(folder: &Path, name: String) -> Checked<Case> {
    let file = |extension: &str| {
        let path = folder.join(format!("{name}.{extension}"));
        fs::read_to_string(&path).map_err(|error| format!("{}: {error}", path.display()))
    };
    let input = input_of(&file("words")?).map_err(|message| format!("{name}.words: {message}"))?;
    let text = file("out")?;
    Ok(Case { name, input, text })
}

/// The bytes that a text of words stands for.
fn input_of(text: &str) -> Checked<Vec<u8>> {
    let mut words: Vec<u16> = Vec::new();
    let mut length = None;
    for line in text.lines() {
        let line = line.split('#').next().unwrap_or_default();
        let parts: Vec<&str> = line.split_whitespace().collect();
        if let ["bytes", number] = parts[..] {
            let number = number.parse().map_err(|_| format!("bytes {number}"))?;
            if length.replace(number).is_some() {
                return Err("more than one length".into());
            }
            continue;
        }
        for part in parts {
            words.push(part.parse().map_err(|_| format!("{part}: not a word"))?);
        }
    }
    let mut bytes = bytes_of(words);
    let length = length.unwrap_or(bytes.len());
    bytes.resize(length, 0);
    Ok(bytes)
}
