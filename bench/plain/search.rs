//! The search of manifests in the file system.

use crate::filters::{split_paths, Env, FilterList, Kind};
use crate::manifest::{self, Fault};
use std::collections::HashSet;
use std::fs::{self, File};
use std::io::{ErrorKind, Read};

const MAX_FILES: usize = 4096;
const MAX_BYTES: u64 = 1_048_576;

pub enum SearchError { Tree, TooMany }

#[derive(Clone, Copy)]
pub enum NoteKind { Manifest(Fault), Absent, TooLarge, DeviceType }

pub struct Note { pub kind: NoteKind, pub path: String }

pub struct FoundDriver { pub path: String, pub library: String }

pub struct FoundLayer { pub path: String, pub entry: manifest::Layer }

#[derive(Default)]
pub struct LayerList { pub list: Vec<FoundLayer>, pub notes: Vec<Note> }

#[derive(Default)]
pub struct Drivers { pub list: Vec<FoundDriver>, pub notes: Vec<Note> }

pub struct Tree<'a> { pub root: &'a str }

enum Got { Data(Vec<u8>), Absent, TooLarge }

impl Tree<'_> {
    fn real(&self, path: &str) -> String {
        if path.starts_with('/') { format!("{}{}", self.root, path) } else { path.to_owned() }
    }

    fn list(&self, folder: &str) -> Result<Vec<String>, SearchError> {
        let gone = |k: ErrorKind| matches!(k, ErrorKind::NotFound | ErrorKind::NotADirectory);
        let entries = match fs::read_dir(self.real(folder)) {
            Ok(entries) => entries,
            Err(e) if gone(e.kind()) => return Ok(Vec::new()),
            Err(_) => return Err(SearchError::Tree),
        };
        let mut names = Vec::new();
        for entry in entries {
            let entry = entry.map_err(|_| SearchError::Tree)?;
            if let Ok(name) = entry.file_name().into_string() {
                names.push(name);
            }
        }
        Ok(names)
    }

    fn read(&self, path: &str) -> Result<Got, SearchError> {
        let file = match File::open(self.real(path)) {
            Ok(file) => file,
            Err(e) if matches!(e.kind(), ErrorKind::NotFound | ErrorKind::NotADirectory) => return Ok(Got::Absent),
            Err(_) => return Err(SearchError::Tree),
        };
        let mut bytes = Vec::new();
        file.take(MAX_BYTES + 1).read_to_end(&mut bytes).map_err(|_| SearchError::Tree)?;
        Ok(if bytes.len() as u64 > MAX_BYTES { Got::TooLarge } else { Got::Data(bytes) })
    }
}

enum Entry { File(String), Folder(String) }

/// The folder list with its suffix.
fn folders(env: &Env, suffix: &str) -> Vec<Entry> {
    let home = env.filled("HOME");
    let or_home = |name: &str, tail: &str| -> String {
        match (env.filled(name), home) {
            (Some(v), _) => v.to_owned(),
            (None, Some(h)) => format!("{h}{tail}"),
            (None, None) => String::new(),
        }
    };
    let values = [
        or_home("XDG_CONFIG_HOME", "/.config"),
        env.filled("XDG_CONFIG_DIRS").unwrap_or("/etc/xdg").to_owned(),
        "/etc".to_owned(),
        or_home("XDG_DATA_HOME", "/.local/share"),
        env.filled("XDG_DATA_DIRS").unwrap_or("/usr/local/share:/usr/share").to_owned(),
    ];
    values.iter().flat_map(|v| split_paths(v)).map(|f| Entry::Folder(format!("{f}{suffix}"))).collect()
}

fn written(value: &str) -> impl Iterator<Item = Entry> + '_ {
    split_paths(value).map(|p| {
        if p.ends_with(".json") { Entry::File(p.to_owned()) } else { Entry::Folder(p.to_owned()) }
    })
}

/// The manifest files of one search, each path once.
fn paths(tree: &Tree, entries: &[Entry]) -> Result<Vec<String>, SearchError> {
    let mut seen = HashSet::new();
    let mut out = Vec::new();
    let mut meet = |path: String| -> Result<(), SearchError> {
        if seen.insert(path.clone()) {
            if out.len() == MAX_FILES {
                return Err(SearchError::TooMany);
            }
            out.push(path);
        }
        Ok(())
    };
    for entry in entries {
        match entry {
            Entry::File(path) => meet(path.clone())?,
            Entry::Folder(folder) => {
                let mut names = tree.list(folder)?;
                names.retain(|n| n.ends_with(".json"));
                names.sort_unstable();
                for name in names {
                    meet(format!("{folder}/{name}"))?;
                }
            }
        }
    }
    Ok(out)
}

fn with_variables(env: &Env, suffix: &str, replacing: &[&str], adding: &str) -> Vec<Entry> {
    for name in replacing {
        if let Some(value) = env.filled(name) {
            return written(value).collect();
        }
    }
    let mut entries: Vec<Entry> = env.filled(adding).map(|v| written(v).collect()).unwrap_or_default();
    entries.extend(folders(env, suffix));
    entries
}

pub fn file_name(path: &str) -> &str {
    path.rsplit('/').next().unwrap_or(path)
}

pub fn find_drivers(tree: &Tree, env: &Env) -> Result<Drivers, SearchError> {
    let entries = with_variables(env, "/vulkan/icd.d", &["VK_DRIVER_FILES", "VK_ICD_FILENAMES"], "VK_ADD_DRIVER_FILES");
    let select = FilterList::of(env, "VK_LOADER_DRIVERS_SELECT");
    let disable = FilterList::of(env, "VK_LOADER_DRIVERS_DISABLE");
    let mut found = Drivers::default();
    for path in paths(tree, &entries)? {
        let kind = match tree.read(&path)? {
            Got::Absent => NoteKind::Absent,
            Got::TooLarge => NoteKind::TooLarge,
            Got::Data(bytes) => match manifest::read_driver(&bytes) {
                Err(fault) => NoteKind::Manifest(fault),
                Ok(driver) => {
                    let name = file_name(&path);
                    if (select.is_empty() || select.hits(name)) && !disable.hits(name) {
                        found.list.push(FoundDriver { path, library: driver.library });
                    }
                    continue;
                }
            },
        };
        found.notes.push(Note { kind, path });
    }
    Ok(found)
}

/// With `only` these folders alone are searched.
pub fn find_layers(tree: &Tree, env: &Env, kind: Kind, only: Option<&[String]>) -> Result<LayerList, SearchError> {
    let entries = match (only, kind) {
        (Some(only), _) => only.iter().cloned().map(Entry::Folder).collect(),
        (None, Kind::Explicit) => with_variables(env, "/vulkan/explicit_layer.d", &["VK_LAYER_PATH"], "VK_ADD_LAYER_PATH"),
        (None, Kind::Implicit) => folders(env, "/vulkan/implicit_layer.d"),
    };
    let mut found = LayerList::default();
    let mut names = HashSet::new();
    for path in paths(tree, &entries)? {
        let note = match tree.read(&path)? {
            Got::Absent => NoteKind::Absent,
            Got::TooLarge => NoteKind::TooLarge,
            Got::Data(bytes) => match manifest::read_layers(&bytes, kind) {
                Err(fault) => NoteKind::Manifest(fault),
                Ok(layers) => {
                    for entry in layers.entries {
                        if names.insert(entry.name.clone()) {
                            found.list.push(FoundLayer { path: path.clone(), entry });
                        }
                    }
                    for _ in 0..layers.device_type {
                        found.notes.push(Note { kind: NoteKind::DeviceType, path: path.clone() });
                    }
                    continue;
                }
            },
        };
        found.notes.push(Note { kind: note, path });
    }
    Ok(found)
}
