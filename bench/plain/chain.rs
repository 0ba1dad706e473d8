//! The setup that a machine and its variables give, and the chain that an application's names make of it.

use crate::filters::{split_names, split_paths, Env, FilterList, Kind};
use crate::manifest::{Layer, OVERRIDE};
use crate::out::Lines;
use crate::search::{self, file_name, FoundDriver, FoundLayer, Note, NoteKind, SearchError, Tree};
use std::collections::{HashMap, HashSet};

const MAX_LAYERS: usize = 64;
const MAX_DEPTH: u32 = 8;

#[derive(Clone, Copy, PartialEq, Eq, Debug)]
pub enum Part { Threads, Lifetimes, Unique }

/// A layer of the setup with what is known of it before any application's names.
struct Node {
    kind: Kind,
    layer: FoundLayer,
    off: bool,
    /// 0 for a plain layer; `None` where it is unusable.
    depth: Option<u32>,
    /// For a meta-layer, its components in order.
    components: Vec<Option<u32>>,
}

pub struct Setup {
    pub notes: Vec<Note>,
    pub drivers: Vec<FoundDriver>,
    nodes: Vec<Node>,
    by_name: HashMap<String, u32>,
    /// Implicit layers that are on and the environment's layers, in order, not yet expanded.
    front: Vec<u32>,
    env_missing: Vec<String>,
}

pub enum Answer {
    Chain { layers: Vec<u32>, parts: Vec<(Part, u32)>, off: Vec<String> },
    LayerNotPresent(String),
    NoDriver,
    Unguarded(String),
}

pub struct TooLong;

fn parts_of(library: &str) -> &'static [Part] {
    match file_name(library) {
        "libVkLayer_khronos_validation.so" => &[Part::Threads, Part::Lifetimes, Part::Unique],
        "libVkLayer_thread_safety.so" => &[Part::Threads],
        "libVkLayer_object_lifetimes.so" => &[Part::Lifetimes],
        "libVkLayer_unique_objects.so" => &[Part::Unique],
        _ => &[],
    }
}

struct Filters<'e> {
    env: &'e Env,
    disable: FilterList,
    enable: FilterList,
    allow: FilterList,
}

impl Filters<'_> {
    fn disabled(&self, name: &str, kind: Kind) -> bool {
        self.disable.hits_disable(name, kind) && !self.enable.hits(name) && !self.allow.hits(name)
    }

    fn implicit_on(&self, layer: &Layer) -> bool {
        if self.disabled(&layer.name, Kind::Implicit) {
            return false;
        }
        if layer.disable.as_ref().is_some_and(|(name, _)| self.env.get(name).is_some()) {
            return false;
        }
        match &layer.enable {
            None => true,
            Some((name, value)) => self.env.get(name) == Some(value) || self.enable.hits(&layer.name),
        }
    }
}

fn is_override(layer: &FoundLayer) -> bool {
    layer.entry.name == OVERRIDE && layer.entry.library.is_none()
}

pub fn read_setup(root: &str, env: &Env, exe: &str) -> Result<Setup, SearchError> {
    let tree = Tree { root };
    let drivers = search::find_drivers(&tree, env)?;
    let mut explicit = search::find_layers(&tree, env, Kind::Explicit, None)?;
    let mut implicit = search::find_layers(&tree, env, Kind::Implicit, None)?;
    let filters = Filters {
        env,
        disable: FilterList::of(env, "VK_LOADER_LAYERS_DISABLE"),
        enable: FilterList::of(env, "VK_LOADER_LAYERS_ENABLE"),
        allow: FilterList::of(env, "VK_LOADER_LAYERS_ALLOW"),
    };

    let mut blacklist = HashSet::new();
    if let Some(at) = implicit.list.iter().position(is_override) {
        let over = &implicit.list[at].entry;
        if filters.implicit_on(over) && (over.app_keys.is_empty() || over.app_keys.iter().any(|k| k == exe)) {
            blacklist.extend(over.blacklist.iter().cloned());
            if !over.override_paths.is_empty() {
                explicit = search::find_layers(&tree, env, Kind::Explicit, Some(&over.override_paths))?;
                explicit.list.retain(|l| l.entry.name != OVERRIDE);
            }
        } else {
            implicit.list.remove(at);
        }
    }

    let mut notes = drivers.notes;
    notes.append(&mut explicit.notes);
    notes.append(&mut implicit.notes);

    let mut nodes = Vec::new();
    let mut by_name = HashMap::new();
    for (kind, list) in [(Kind::Explicit, explicit.list), (Kind::Implicit, implicit.list)] {
        for layer in list {
            let name = &layer.entry.name;
            by_name.entry(name.clone()).or_insert(nodes.len() as u32);
            let off = filters.disabled(name, kind) || (kind == Kind::Explicit && blacklist.contains(name));
            let depth = layer.entry.library.as_ref().map(|_| 0);
            nodes.push(Node { kind, layer, off, depth, components: Vec::new() });
        }
    }
    measure(&mut nodes, &by_name);

    let mut front: Vec<u32> = Vec::new();
    let mut last = None;
    for (i, node) in nodes.iter().enumerate() {
        if node.kind == Kind::Implicit && node.depth.is_some() && filters.implicit_on(&node.layer.entry) {
            if is_override(&node.layer) { last = Some(i as u32) } else { front.push(i as u32) }
        }
    }
    front.extend(last);
    let mut env_missing = Vec::new();
    for name in split_paths(env.get("VK_INSTANCE_LAYERS").unwrap_or("")) {
        match by_name.get(name).filter(|i| nodes[**i as usize].depth.is_some()) {
            None => env_missing.push(name.to_owned()),
            Some(i) if !nodes[*i as usize].off => front.push(*i),
            Some(_) => {}
        }
    }
    for (i, node) in nodes.iter().enumerate() {
        let name = &node.layer.entry.name;
        if node.kind == Kind::Explicit && node.depth.is_some() && !node.off && filters.enable.hits(name) {
            front.push(i as u32);
        }
    }
    Ok(Setup { notes, drivers: drivers.list, nodes, by_name, front, env_missing })
}

/// Resolves the components of meta-layers and gives each usable one its depth: in round d those
/// whose components are all plain or of a lesser depth. What is left after round 8 is unusable.
fn measure(nodes: &mut [Node], by_name: &HashMap<String, u32>) {
    let mut metas: Vec<usize> = (0..nodes.len()).filter(|i| nodes[*i].depth.is_none()).collect();
    for i in &metas {
        nodes[*i].components = nodes[*i].layer.entry.components.iter().map(|c| by_name.get(c).copied()).collect();
    }
    for depth in 1..=MAX_DEPTH {
        let (ready, rest): (Vec<usize>, Vec<usize>) = metas.into_iter().partition(|i| {
            nodes[*i].components.iter().all(|c| c.is_some_and(|c| nodes[c as usize].depth.is_some()))
        });
        for i in ready {
            nodes[i].depth = Some(depth);
        }
        metas = rest;
    }
}

/// Plain layers in order of their first place; a meta-layer met again adds nothing.
struct Expansion<'s> {
    setup: &'s Setup,
    names: HashSet<&'s str>,
    metas: HashSet<u32>,
    layers: Vec<u32>,
}

impl Expansion<'_> {
    fn add(&mut self, i: u32) {
        let node = &self.setup.nodes[i as usize];
        if node.layer.entry.library.is_none() {
            if self.metas.insert(i) {
                for c in node.components.iter().flatten() {
                    self.add(*c);
                }
            }
        } else if !node.off && self.names.insert(&node.layer.entry.name) {
            self.layers.push(i);
        }
    }
}

impl Setup {
    /// `app_layers` are the application's names, split at `,`.
    pub fn build(&self, app_layers: &str) -> Result<Answer, TooLong> {
        let mut all = Expansion { setup: self, names: HashSet::new(), metas: HashSet::new(), layers: Vec::new() };
        for i in &self.front {
            all.add(*i);
        }
        let mut off = Vec::new();
        for name in split_names(app_layers) {
            match self.by_name.get(name).filter(|i| self.nodes[**i as usize].depth.is_some()) {
                None => return Ok(Answer::LayerNotPresent(name.to_owned())),
                Some(i) if self.nodes[*i as usize].off => off.push(name.to_owned()),
                Some(i) => all.add(*i),
            }
        }
        let layers = all.layers;
        if self.drivers.is_empty() {
            return Ok(Answer::NoDriver);
        }
        if layers.len() > MAX_LAYERS {
            return Err(TooLong);
        }
        let mut parts = Vec::new();
        for (place, i) in layers.iter().enumerate() {
            let library = self.nodes[*i as usize].layer.entry.library.as_deref().unwrap_or("");
            parts.extend(parts_of(library).iter().map(|p| (*p, place as u32)));
        }
        let guarded = parts.iter().rposition(|(p, _)| *p == Part::Unique).unwrap_or(0);
        if let Some((_, place)) = parts[guarded..].iter().find(|(p, _)| *p != Part::Unique) {
            return Ok(Answer::Unguarded(self.name(layers[*place as usize]).to_owned()));
        }
        Ok(Answer::Chain { layers, parts, off })
    }

    fn name(&self, i: u32) -> &str {
        &self.nodes[i as usize].layer.entry.name
    }

    pub fn note_lines(&self, out: &mut impl Lines) {
        for note in &self.notes {
            let out = out.text("note ");
            use crate::manifest::Fault::*;
            let out = match note.kind {
                NoteKind::Manifest(NotJson) => out.text("NotJson"),
                NoteKind::Manifest(NoVersion) => out.text("NoVersion"),
                NoteKind::Manifest(BadVersion) => out.text("BadVersion"),
                NoteKind::Manifest(Missing(key)) => out.text("Missing:").text(key),
                NoteKind::Manifest(WrongKind(key)) => out.text("WrongKind:").text(key),
                NoteKind::Manifest(OtherArch) => out.text("OtherArch"),
                NoteKind::Absent => out.text("Absent"),
                NoteKind::TooLarge => out.text("TooLarge"),
                NoteKind::DeviceType => out.text("DeviceType"),
            };
            out.text(" ").text(&note.path).end();
        }
    }

    pub fn chain_lines(&self, call: u64, answer: &Answer, out: &mut impl Lines) {
        let head = out.text("chain ").number(call);
        match answer {
            Answer::LayerNotPresent(name) => head.text(" layer-not-present ").text(name).end(),
            Answer::NoDriver => head.text(" no-driver").end(),
            Answer::Unguarded(name) => head.text(" unguarded ").text(name).end(),
            Answer::Chain { layers, parts, off } => {
                head.text(" ok layers=").number(layers.len() as u64);
                out.text(" parts=").number(parts.len() as u64);
                out.text(" drivers=").number(self.drivers.len() as u64).end();
                for name in &self.env_missing {
                    out.text("note EnvMissing ").text(name).end();
                }
                for name in off {
                    out.text("note Off ").text(name).end();
                }
                for (n, i) in layers.iter().enumerate() {
                    let layer = &self.nodes[*i as usize].layer;
                    out.text("layer ").number(n as u64 + 1).text(" ").text(&layer.entry.name);
                    out.text(" ").text(&layer.path).end();
                }
                for (n, (part, place)) in parts.iter().enumerate() {
                    let kind = match part {
                        Part::Threads => " threads ",
                        Part::Lifetimes => " lifetimes ",
                        Part::Unique => " unique ",
                    };
                    out.text("part ").number(n as u64 + 1).text(kind).text(self.name(layers[*place as usize])).end();
                }
                for (n, driver) in self.drivers.iter().enumerate() {
                    out.text("driver ").number(n as u64 + 1).text(" ").text(&driver.path).text(" ");
                    if !driver.library.starts_with('/') && driver.library.contains('/') {
                        let folder = driver.path.rfind('/').map_or("", |at| &driver.path[..at]);
                        out.text(folder).text("/");
                    }
                    out.text(&driver.library).end();
                }
            }
        }
    }
}
