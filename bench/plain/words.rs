//! The program's words.

use crate::driver::Policy;

#[derive(Clone, Copy, PartialEq, Eq, Debug)]
pub enum SkipRule { All, Dead }

#[derive(Debug)]
pub struct Replay {
    pub root: String,
    pub policy: Policy,
    pub exe: String,
    pub rule: SkipRule,
}

#[derive(Debug)]
pub enum Command {
    Run(Replay),
    Chain { root: String, exe: String, layers: String },
    Gen { number: u64, calls: u32 },
    Soak { replay: Replay, number: u64, calls: u32 },
}

const OPTIONS: [&str; 6] = ["root", "driver", "exe", "layers", "number", "calls"];

fn decimal(text: &str) -> Option<u64> {
    let plain = !text.is_empty() && text.bytes().all(|b| b.is_ascii_digit());
    if !plain || (text.len() > 1 && text.starts_with('0')) {
        return None;
    }
    text.parse().ok()
}

/// `None` is `Usage`.
pub fn parse(words: &[String]) -> Option<Command> {
    let (command, rest) = words.split_first()?;
    let (allowed, flag): (&[&str], bool) = match command.as_str() {
        "run" => (&["root", "driver", "exe"], true),
        "chain" => (&["root", "exe", "layers"], false),
        "gen" => (&["number", "calls"], false),
        "soak" => (&["root", "driver", "exe", "number", "calls"], true),
        _ => return None,
    };
    let mut values: [Option<String>; 6] = Default::default();
    let mut keep_going = false;
    let mut rest = rest.iter();
    while let Some(word) = rest.next() {
        let body = word.strip_prefix("--")?;
        if body == "keep-going" {
            if !flag || keep_going {
                return None;
            }
            keep_going = true;
            continue;
        }
        let (name, value) = match body.split_once('=') {
            Some((name, value)) if !value.is_empty() => (name, value.to_owned()),
            Some(_) => return None,
            None => {
                let value = rest.next()?;
                if value.is_empty() || value.starts_with('-') {
                    return None;
                }
                (body, value.clone())
            }
        };
        if !allowed.contains(&name) {
            return None;
        }
        let slot = &mut values[OPTIONS.iter().position(|o| *o == name)?];
        if slot.is_some() {
            return None;
        }
        *slot = Some(value);
    }
    let [root, driver, exe, layers, number, calls] = values;
    let replay = Replay {
        root: root.unwrap_or_default(),
        policy: match driver.as_deref() {
            None | Some("fresh") => Policy::Fresh,
            Some("reuse") => Policy::Reuse,
            Some("share") => Policy::Share,
            Some(_) => return None,
        },
        exe: exe.unwrap_or_default(),
        rule: if keep_going { SkipRule::Dead } else { SkipRule::All },
    };
    let generated = || -> Option<(u64, u32)> {
        let number = decimal(number.as_deref()?)?;
        let calls = decimal(calls.as_deref()?).filter(|c| *c <= 1_000_000)?;
        Some((number, calls as u32))
    };
    Some(match command.as_str() {
        "run" => Command::Run(replay),
        "chain" => Command::Chain { root: replay.root, exe: replay.exe, layers: layers.unwrap_or_default() },
        "gen" => {
            let (number, calls) = generated()?;
            Command::Gen { number, calls }
        }
        _ => {
            let (number, calls) = generated()?;
            Command::Soak { replay, number, calls }
        }
    })
}
