//! Reads worlds from standard input and prints a line for each command, in the lines of the program `worlds`
//! (docs/FORMAT.md). What the Rust cannot be asked is answered `outside`: numbers that do not exist, more names or `super`
//! than a path of the port can have, path text, rows and piles. A panic is answered `panic PLACE`, PLACE being the last part
//! of its text, a question of too many steps `endless`.

use std::fmt::Write as _;
use std::io::{BufRead, Write};
use std::panic::{AssertUnwindSafe, catch_unwind};

use crate::item_scope::{BuiltinShadowMode, GlobId, ImportId, ImportOrExternCrate, ImportOrGlob, PerNsGlobImports};
use crate::mod_path::{ModPath, PathKind};
use crate::nameres::{MacroSubNs, MapNumber};
use crate::outside::Idx;
use crate::per_ns::{Item, PerNs};
use crate::visibility::{Visibility, VisibilityExplicitness};
use crate::*;

#[derive(Default)]
struct Reading {
    world: World,
    globs: PerNsGlobImports,
    loaded: bool,
    crates: Vec<Edition>,
    blocks: Vec<(u32, u32)>,
    names: u32,
    macros: Vec<MacroCallStyles>,
    rows: Vec<Vec<String>>,
}

type Parsed<T> = Option<T>;

fn number(word: &str) -> Parsed<u32> {
    word.parse().ok()
}

fn optional(word: &str) -> Parsed<Option<u32>> {
    if word == "-" { Some(None) } else { number(word).map(Some) }
}

fn import_id(n: u32) -> ImportId {
    ImportId { use_: UseId(n), idx: Idx(0, std::marker::PhantomData) }
}

fn glob_id(n: u32) -> GlobId {
    GlobId { use_: UseId(n), idx: Idx(0, std::marker::PhantomData) }
}

fn import(word: &str) -> Parsed<Option<ImportOrExternCrate>> {
    if word == "-" {
        return Some(None);
    }
    let (kind, n) = word.split_once(':')?;
    let n = number(n)?;
    Some(Some(match kind {
        "glob" => ImportOrExternCrate::Glob(glob_id(n)),
        "import" => ImportOrExternCrate::Import(import_id(n)),
        "extern" => ImportOrExternCrate::ExternCrate(ExternCrateId(n)),
        _ => return None,
    }))
}

const BUILTINS: u32 = 19;

impl Reading {
    fn module(&self, n: u32) -> Parsed<ModuleId> {
        ((n as usize) < self.world.modules.len()).then(|| module_id(n))
    }

    fn name(&self, n: u32) -> Parsed<Name> {
        (n < self.names).then_some(Name(n))
    }

    fn krate(&self, n: u32) -> Parsed<Crate> {
        ((n as usize) < self.world.crates.len()).then_some(Crate(n))
    }

    fn makro(&self, n: u32) -> Parsed<MacroId> {
        self.macros.get(n as usize).map(|&styles| macro_id(n, styles))
    }

    fn visibility(&self, word: &str) -> Parsed<Visibility> {
        let words: Vec<&str> = word.split(':').collect();
        Some(match words[..] {
            ["pub"] => Visibility::Public,
            ["crate", n] => Visibility::PubCrate(self.krate(number(n)?)?),
            ["in", n, mark] => {
                let mark = match mark {
                    "e" => VisibilityExplicitness::Explicit,
                    "i" => VisibilityExplicitness::Implicit,
                    _ => return None,
                };
                Visibility::Module(self.module(number(n)?)?, mark)
            }
            _ => return None,
        })
    }

    fn def(&self, word: &str) -> Parsed<ModuleDefId> {
        let (kind, n) = word.split_once(':')?;
        let n = number(n)?;
        Some(match kind {
            "mod" => self.module(n)?.into(),
            "fn" => FunctionId(n).into(),
            "struct" => StructId(n).into(),
            "union" => UnionId(n).into(),
            "enum" if (n as usize) < self.world.enums.len() => EnumId(n).into(),
            "variant" => EnumVariantId(n).into(),
            "const" => ConstId(n).into(),
            "static" => StaticId(n).into(),
            "trait" => TraitId(n).into(),
            "alias" => TypeAliasId(n).into(),
            "builtin" if n < BUILTINS => BuiltinType::all_builtin_types()[n as usize].1.into(),
            "macro" => self.makro(n)?.into(),
            _ => return None,
        })
    }

    fn entry(&self, word: &str) -> Parsed<Option<(ModuleDefId, Visibility, Option<ImportOrExternCrate>)>> {
        if word == "-" {
            return Some(None);
        }
        let words: Vec<&str> = word.split(',').collect();
        let [def, visibility, brought] = words[..] else { return None };
        Some(Some((self.def(def)?, self.visibility(visibility)?, import(brought)?)))
    }

    fn map(&self, word: &str) -> Parsed<MapNumber> {
        let n = number(word.get(1..)?)?;
        match &word[..1] {
            "c" if (n as usize) < self.world.crates.len() => Some(MapNumber::Crate(n)),
            "b" if (n as usize) < self.world.blocks.len() => Some(MapNumber::Block(n)),
            _ => None,
        }
    }

    /// One table line.
    fn row(&mut self, words: &[&str]) -> Parsed<()> {
        match words {
            ["crate", edition] => self.crates.push(match *edition {
                "2015" => Edition::Edition2015,
                "2018" => Edition::Edition2018,
                "2021" => Edition::Edition2021,
                "2024" => Edition::Edition2024,
                _ => return None,
            }),
            ["module", krate, block, parent] => self.world.modules.push(ModuleRow {
                krate: Crate(number(krate)?),
                block: optional(block)?.map(block_id),
                parent: optional(parent)?.map(module_id),
            }),
            ["block", root, outside] => self.blocks.push((number(root)?, number(outside)?)),
            ["names", n] => self.names = number(n)?,
            ["enums", n] => self.world.enums.resize_with(number(n)? as usize, Default::default),
            ["macro", letters] => {
                let mut styles = MacroCallStyles::empty();
                for letter in letters.chars() {
                    match letter {
                        'f' => styles.set(MacroCallStyles::FN_LIKE, true),
                        'a' => styles.set(MacroCallStyles::ATTR, true),
                        'd' => styles.set(MacroCallStyles::DERIVE, true),
                        '-' => (),
                        _ => return None,
                    }
                }
                self.macros.push(styles);
            }
            ["extern" | "macrouse" | "legacy" | "variant", _, _, _, _]
            | ["legacy", _, _, _]
            | ["prelude", _, _] => self.rows.push(words.iter().map(|word| word.to_string()).collect()),
            ["rows" | "make" | "list", _] => (),
            _ => return None,
        }
        Some(())
    }

    /// The maps, and the rows that name numbers; the worlds are well-formed.
    fn load(&mut self) -> Parsed<()> {
        self.world.styles = self.macros.clone();
        for (krate, &edition) in self.crates.iter().enumerate() {
            let root = self.world.modules.iter().position(|module| {
                module.krate == Crate(krate as u32) && module.block.is_none() && module.parent.is_none()
            })?;
            self.world.add_crate(edition, module_id(root as u32));
        }
        for (root, outside) in self.blocks.clone() {
            let (root, outside) = (self.module(root)?, self.module(outside)?);
            self.world.add_block(root, outside);
        }
        self.world.fill_maps();
        for row in std::mem::take(&mut self.rows) {
            let words: Vec<&str> = row.iter().map(String::as_str).collect();
            match words[..] {
                ["extern", krate, name, root, item] => {
                    let krate = self.krate(number(krate)?)?.0;
                    let (name, root) = (self.name(number(name)?)?, self.module(number(root)?)?);
                    self.world.add_extern(krate, name, root, optional(item)?.map(ExternCrateId));
                }
                ["macrouse", map, name, id, item] => {
                    let (map, name, id) = (self.map(map)?, self.name(number(name)?)?, self.makro(number(id)?)?);
                    self.world.add_macro_use(map, name, id, optional(item)?.map(ExternCrateId));
                }
                ["prelude", map, module] => {
                    let (map, module) = (self.map(map)?, self.module(number(module)?)?);
                    self.world.set_prelude(map, module);
                }
                ["legacy", module, name, id] => {
                    let (module, name) = (self.module(number(module)?)?, self.name(number(name)?)?);
                    let id = number(id)?;
                    // The told one is the last of that name; another one stands before it.
                    let before = self.makro((id + 1) % self.macros.len() as u32)?;
                    let id = self.makro(id)?;
                    self.world.scope_mut(module).define_legacy_macro(name, before);
                    self.world.scope_mut(module).define_legacy_macro(name, id);
                }
                ["variant", of, name, variant, constructor] => {
                    let name = self.name(number(name)?)?;
                    let row = (EnumVariantId(number(variant)?), signatures::FieldsShape(constructor == "1"));
                    self.world.enums.get_mut(number(of)? as usize)?.variants.insert(name, row);
                }
                _ => return None,
            }
        }
        self.loaded = true;
        Some(())
    }

    fn deliver(&mut self, words: &[&str]) -> Parsed<String> {
        let [module, name, types, values, macros, brought] = words[..] else { return None };
        let (module, name) = (self.module(number(module)?)?, self.name(number(name)?)?);
        let types = self.entry(types)?.map(|(def, vis, import)| Item { def, vis, import });
        let values = self.entry(values)?.map(|(def, vis, import)| Item {
            def,
            vis,
            import: import.and_then(ImportOrExternCrate::import_or_glob),
        });
        let macros = match self.entry(macros)? {
            None => None,
            Some((ModuleDefId::MacroId(def), vis, import)) => Some(Item { def, vis, import }),
            Some(_) => return None,
        };
        let brought = import(brought)?;
        let scope = self.world.scope_mut(module);
        let changed = scope.push_res_with_import(&mut self.globs, (module, name), PerNs { types, values, macros }, brought);
        Some(if changed { "deliver changed".into() } else { "deliver same".into() })
    }

    fn ask(&self, words: &[&str]) -> Parsed<String> {
        let [mode, module, kind, names, shadow, expected] = words[..] else { return None };
        let import = match mode {
            "import" => true,
            "other" => false,
            _ => return None,
        };
        let module = self.module(number(module)?)?;
        let kind = match kind.split_once(':') {
            None => match kind {
                "plain" => PathKind::Plain,
                "abs" => PathKind::Abs,
                "crate" => PathKind::Crate,
                _ => return None,
            },
            Some(("super", level)) => PathKind::Super(level.parse().ok()?),
            Some(("dollar", krate)) => PathKind::DollarCrate(self.krate(number(krate)?)?),
            _ => return None,
        };
        let names: Vec<Name> = match names {
            "-" => Vec::new(),
            _ => names.split('.').map(|name| self.name(number(name)?)).collect::<Option<_>>()?,
        };
        let shadow = match shadow {
            "module" => BuiltinShadowMode::Module,
            "other" => BuiltinShadowMode::Other,
            _ => return None,
        };
        let expected = match expected {
            "-" => None,
            "bang" => Some(MacroSubNs::Bang),
            "attr" => Some(MacroSubNs::Attr),
            _ => return None,
        };
        let path = ModPath::from_segments(kind, names);
        let answer = self.world.ask(import, module, &path, shadow, expected);
        let mut flags = String::new();
        if answer.differing_crate {
            flags.push('d');
        }
        if answer.enum_variant {
            flags.push('e');
        }
        if flags.is_empty() {
            flags.push('-');
        }
        let index = answer.index.map_or("-".to_owned(), |index| index.to_string());
        Some(format!("ask {} {} {index} {flags}", entries(answer.found), if answer.yes { "yes" } else { "no" }))
    }

    fn command(&mut self, words: &[&str]) -> Parsed<String> {
        match words {
            ["deliver", rest @ ..] => self.deliver(rest),
            ["ask", rest @ ..] => self.ask(rest),
            ["place", module, name] => {
                let (module, name) = (self.module(number(module)?)?, self.name(number(name)?)?);
                Some(format!("place {}", entries(self.world.place(module, name))))
            }
            ["sight", visibility, module] => {
                let (visibility, module) = (self.visibility(visibility)?, self.module(number(module)?)?);
                let (one, other) = self.world.sees(visibility, module);
                Some(format!("sight {} {}", one as u8, other as u8))
            }
            _ => None,
        }
    }
}

fn write_def(out: &mut String, def: ModuleDefId) {
    let (kind, n) = match def {
        ModuleDefId::ModuleId(it) => ("mod", it.0),
        ModuleDefId::FunctionId(it) => ("fn", it.0),
        ModuleDefId::AdtId(AdtId::StructId(it)) => ("struct", it.0),
        ModuleDefId::AdtId(AdtId::UnionId(it)) => ("union", it.0),
        ModuleDefId::AdtId(AdtId::EnumId(it)) => ("enum", it.0),
        ModuleDefId::EnumVariantId(it) => ("variant", it.0),
        ModuleDefId::ConstId(it) => ("const", it.0),
        ModuleDefId::StaticId(it) => ("static", it.0),
        ModuleDefId::TraitId(it) => ("trait", it.0),
        ModuleDefId::TypeAliasId(it) => ("alias", it.0),
        ModuleDefId::BuiltinType(it) => {
            ("builtin", BuiltinType::all_builtin_types().iter().position(|&(_, builtin)| builtin == it).unwrap() as u32)
        }
        ModuleDefId::MacroId(MacroId::Macro2Id(Macro2Id(n)))
        | ModuleDefId::MacroId(MacroId::MacroRulesId(MacroRulesId(n)))
        | ModuleDefId::MacroId(MacroId::ProcMacroId(ProcMacroId(n))) => ("macro", n),
    };
    write!(out, "{kind}:{n},").unwrap();
}

fn write_entry(out: &mut String, def: ModuleDefId, vis: Visibility, import: Option<ImportOrExternCrate>) {
    write_def(out, def);
    match vis {
        Visibility::Public => out.push_str("pub"),
        Visibility::PubCrate(it) => write!(out, "crate:{}", it.0).unwrap(),
        Visibility::Module(it, VisibilityExplicitness::Explicit) => write!(out, "in:{}:e", it.0).unwrap(),
        Visibility::Module(it, VisibilityExplicitness::Implicit) => write!(out, "in:{}:i", it.0).unwrap(),
    }
    match import {
        None => out.push_str(",-"),
        Some(ImportOrExternCrate::Glob(it)) => write!(out, ",glob:{}", it.use_.0).unwrap(),
        Some(ImportOrExternCrate::Import(it)) => write!(out, ",import:{}", it.use_.0).unwrap(),
        Some(ImportOrExternCrate::ExternCrate(it)) => write!(out, ",extern:{}", it.0).unwrap(),
    }
}

fn entries(found: PerNs) -> String {
    let mut out = String::new();
    match found.types {
        Some(it) => write_entry(&mut out, it.def, it.vis, it.import),
        None => out.push('-'),
    }
    out.push(' ');
    match found.values {
        Some(it) => write_entry(&mut out, it.def, it.vis, it.import.map(ImportOrExternCrate::from)),
        None => out.push('-'),
    }
    out.push(' ');
    match found.macros {
        Some(it) => write_entry(&mut out, it.def.into(), it.vis, it.import),
        None => out.push('-'),
    }
    out
}

/// Where a panic came from, by the file and the text.
static LAST: std::sync::Mutex<String> = std::sync::Mutex::new(String::new());

pub fn main() {
    std::panic::set_hook(Box::new(|info| {
        let place = info.location().map_or(String::new(), |at| format!("{}:{}", at.file(), at.line()));
        *LAST.lock().unwrap() = place;
    }));
    let tell = std::env::args().nth(1).as_deref() == Some("--tell");
    let stdin = std::io::stdin().lock();
    let mut out = std::io::BufWriter::new(std::io::stdout().lock());
    let mut reading = Reading::default();
    let mut bad = false;
    for (at, line) in stdin.lines().enumerate() {
        let line = line.unwrap();
        if line.is_empty() || line.starts_with('#') {
            continue;
        }
        if line.starts_with("world ") || line == "world" {
            writeln!(out, "{line}").unwrap();
            reading = Reading::default();
            bad = false;
            continue;
        }
        let words: Vec<&str> = line.split(' ').collect();
        if bad {
            writeln!(out, "outside").unwrap();
        } else if reading.loaded {
            reading.world.steps.set(0);
            let answer = match catch_unwind(AssertUnwindSafe(|| reading.command(&words))) {
                Ok(Some(answer)) => answer,
                Ok(None) => "outside".into(),
                Err(payload) if payload.is::<Endless>() => "endless".into(),
                Err(_) if tell => format!("panic {}", LAST.lock().unwrap()),
                Err(_) => "panic".into(),
            };
            writeln!(out, "{answer}").unwrap();
        } else if words == ["go"] {
            if reading.load().is_none() {
                bad = true;
                writeln!(out, "outside").unwrap();
            }
        } else if reading.row(&words).is_none() {
            writeln!(out, "bad line {}", at + 1).unwrap();
        }
    }
}
