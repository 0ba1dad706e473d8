//! What manifests say.

use crate::filters::Kind;
use crate::json::{self, Object, Value};

pub const OVERRIDE: &str = "VK_LAYER_LUNARG_override";

#[derive(Clone, Copy, PartialEq, Eq, Debug)]
pub enum Fault {
    NotJson,
    NoVersion,
    BadVersion,
    Missing(&'static str),
    WrongKind(&'static str),
    OtherArch,
}
use Fault::*;

pub struct Driver {
    pub library: String,
}

pub struct Layer {
    pub name: String,
    /// `None` for a meta-layer.
    pub library: Option<String>,
    pub components: Vec<String>,
    pub disable: Option<(String, String)>,
    pub enable: Option<(String, String)>,
    pub blacklist: Vec<String>,
    pub app_keys: Vec<String>,
    pub override_paths: Vec<String>,
}

#[derive(Default)]
pub struct Layers {
    pub entries: Vec<Layer>,
    pub device_type: u64,
}

fn top(bytes: &[u8]) -> Result<Object, Fault> {
    let Some(Value::Object(map)) = json::read(bytes) else { return Err(NotJson) };
    match map.get("file_format_version") {
        None => Err(NoVersion),
        Some(v) if is_version(v) => Ok(map),
        Some(_) => Err(BadVersion),
    }
}

fn is_version(v: &Value) -> bool {
    let Value::Text(s) = v else { return false };
    let mut parts = 0;
    s.split('.').all(|n| {
        parts += 1;
        parts <= 4 && (1..=9).contains(&n.len()) && n.bytes().all(|b| b.is_ascii_digit())
    })
}

fn text(v: &Value) -> Option<&str> {
    v.as_str().filter(|s| s.bytes().all(|b| b >= 0x20))
}

fn texts(v: &Value) -> Option<Vec<String>> {
    v.as_array()?.iter().map(|t| text(t).map(str::to_owned)).collect()
}

/// A key that must be there; `read` gives `None` for a wrong kind.
fn need<'v, T>(map: &'v Object, key: &'static str, read: impl FnOnce(&'v Value) -> Option<T>) -> Result<T, Fault> {
    read(map.get(key).ok_or(Missing(key))?).ok_or(WrongKind(key))
}

fn may<'v, T>(map: &'v Object, key: &'static str, read: impl FnOnce(&'v Value) -> Option<T>) -> Result<Option<T>, Fault> {
    map.get(key).map(|v| read(v).ok_or(WrongKind(key))).transpose()
}

fn filled(v: &Value) -> Option<&str> {
    text(v).filter(|s| !s.is_empty())
}

fn version(v: &Value) -> Option<()> {
    is_version(v).then_some(())
}

/// The first member of an object, by the bytes of the names.
fn pair(v: &Value) -> Option<(String, String)> {
    let (name, value) = v.as_object()?.iter().next()?;
    Some((name.clone(), text(value)?.to_owned()))
}

pub fn read_driver(bytes: &[u8]) -> Result<Driver, Fault> {
    let map = top(bytes)?;
    let icd = need(&map, "ICD", Value::as_object)?;
    let library = need(icd, "library_path", filled)?.to_owned();
    need(icd, "api_version", version)?;
    let arch = may(icd, "library_arch", |v| match v.as_str() {
        Some("32") => Some(32),
        Some("64") => Some(64),
        _ => None,
    })?;
    may(icd, "is_portability_driver", Value::as_bool)?;
    if arch == Some(32) {
        return Err(OtherArch);
    }
    Ok(Driver { library })
}

pub fn read_layers(bytes: &[u8], kind: Kind) -> Result<Layers, Fault> {
    let map = top(bytes)?;
    let mut out = Layers::default();
    if let Some(list) = map.get("layers") {
        let list = list.as_array().ok_or(WrongKind("layers"))?;
        if list.iter().any(|entry| entry.as_object().is_none()) {
            return Err(WrongKind("layers"));
        }
        for entry in list {
            read_layer(entry.as_object().ok_or(WrongKind("layers"))?, kind, &mut out)?;
        }
    } else {
        read_layer(need(&map, "layer", Value::as_object)?, kind, &mut out)?;
    }
    Ok(out)
}

fn read_layer(map: &Object, kind: Kind, out: &mut Layers) -> Result<(), Fault> {
    let name = need(map, "name", |v| {
        v.as_str().filter(|s| (1..=255).contains(&s.len()) && s.bytes().all(|b| (0x21..=0x7e).contains(&b)))
    })?
    .to_owned();
    let device = need(map, "type", |v| match v.as_str() {
        Some("INSTANCE" | "GLOBAL") => Some(false),
        Some("DEVICE") => Some(true),
        _ => None,
    })?;
    if device {
        out.device_type += 1;
        return Ok(());
    }
    let meta = map.contains_key("component_layers");
    let library = if meta {
        may(map, "library_path", filled)?
    } else {
        Some(need(map, "library_path", filled)?)
    }
    .map(str::to_owned);
    let components = may(map, "component_layers", texts)?;
    if components.is_some() && library.is_some() {
        return Err(WrongKind("component_layers"));
    }
    need(map, "api_version", version)?;
    need(map, "implementation_version", text)?;
    need(map, "description", Value::as_str)?;
    let (disable, enable) = match kind {
        Kind::Implicit => (Some(need(map, "disable_environment", pair)?), may(map, "enable_environment", pair)?),
        Kind::Explicit => (may(map, "disable_environment", pair)?, None),
    };
    let (mut blacklist, mut app_keys, mut override_paths) = Default::default();
    if kind == Kind::Implicit && meta && name == OVERRIDE {
        blacklist = may(map, "blacklisted_layers", texts)?.unwrap_or_default();
        app_keys = may(map, "app_keys", texts)?.unwrap_or_default();
        override_paths = may(map, "override_paths", texts)?.unwrap_or_default();
    }
    out.entries.push(Layer {
        name,
        library,
        components: components.unwrap_or_default(),
        disable,
        enable,
        blacklist,
        app_keys,
        override_paths,
    });
    Ok(())
}
