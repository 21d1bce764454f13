//! The benchmark's side of the Rust: reads a world in the numbers that `world.py` writes, and then times its load, its deliveries and its
//! questions, as `crates/bench` does. `run.py` compiles it in the place of the oracle's driver.

use std::time::{Duration, Instant};

use crate::item_scope::{BuiltinShadowMode, GlobId, ImportId, ImportOrExternCrate, PerNsGlobImports};
use crate::mod_path::{ModPath, PathKind};
use crate::nameres::{MacroSubNs, MapNumber};
use crate::outside::Idx;
use crate::per_ns::{Item, PerNs};
use crate::visibility::{Visibility, VisibilityExplicitness};
use crate::*;

const TRIES: u32 = 5;

struct Numbers {
    numbers: std::vec::IntoIter<u32>,
}

impl Numbers {
    fn next(&mut self) -> u32 {
        self.numbers.next().expect("the input ends too early")
    }

    fn optional(&mut self) -> Option<u32> {
        self.next().checked_sub(1)
    }

    fn list<T>(&mut self, mut read: impl FnMut(&mut Numbers) -> T) -> Vec<T> {
        (0..self.next()).map(|_| read(self)).collect()
    }

    fn map(&mut self) -> MapNumber {
        let is_block = self.next() != 0;
        let number = self.next();
        if is_block { MapNumber::Block(number) } else { MapNumber::Crate(number) }
    }
}

/// The tables of a world, before any map is made.
struct Tables {
    crates: Vec<(Edition, u32)>,
    modules: Vec<(u32, Option<u32>, Option<u32>)>,
    blocks: Vec<(u32, u32)>,
    enums: usize,
    styles: Vec<MacroCallStyles>,
    externs: Vec<(u32, u32, u32, Option<u32>)>,
    macro_uses: Vec<(MapNumber, u32, u32, Option<u32>)>,
    preludes: Vec<(MapNumber, u32)>,
    legacy: Vec<(u32, u32, u32)>,
    variants: Vec<(u32, u32, u32, bool)>,
    rows: u32,
}

fn styles_of(sum: u32) -> MacroCallStyles {
    let mut styles = MacroCallStyles::empty();
    styles.set(MacroCallStyles::FN_LIKE, sum & 1 != 0);
    styles.set(MacroCallStyles::ATTR, sum & 2 != 0);
    styles.set(MacroCallStyles::DERIVE, sum & 4 != 0);
    styles
}

fn read_tables(numbers: &mut Numbers) -> Tables {
    let crates = numbers.list(|n| {
        let edition = match n.next() {
            2015 => Edition::Edition2015,
            2018 => Edition::Edition2018,
            2021 => Edition::Edition2021,
            _ => Edition::Edition2024,
        };
        (edition, n.next())
    });
    let modules = numbers.list(|n| (n.next(), n.optional(), n.optional()));
    let blocks = numbers.list(|n| (n.next(), n.next()));
    let _names = numbers.next();
    Tables {
        crates,
        modules,
        blocks,
        enums: numbers.next() as usize,
        styles: numbers.list(|n| styles_of(n.next())),
        externs: numbers.list(|n| (n.next(), n.next(), n.next(), n.optional())),
        macro_uses: numbers.list(|n| (n.map(), n.next(), n.next(), n.optional())),
        preludes: numbers.list(|n| (n.map(), n.next())),
        legacy: numbers.list(|n| (n.next(), n.next(), n.next())),
        variants: numbers.list(|n| (n.next(), n.next(), n.next(), n.next() != 0)),
        rows: numbers.next(),
    }
}

fn load(tables: &Tables) -> World {
    let mut world = World::default();
    world.styles = tables.styles.clone();
    world.enums.resize_with(tables.enums, Default::default);
    for &(krate, block, parent) in &tables.modules {
        world.modules.push(ModuleRow { krate: Crate(krate), block: block.map(block_id), parent: parent.map(module_id) });
    }
    for &(edition, root) in &tables.crates {
        world.add_crate(edition, module_id(root));
    }
    for &(root, outside) in &tables.blocks {
        world.add_block(module_id(root), module_id(outside));
    }
    world.fill_maps();
    for &(krate, name, root, item) in &tables.externs {
        world.add_extern(krate, Name(name), module_id(root), item.map(ExternCrateId));
    }
    for &(map, name, number, item) in &tables.macro_uses {
        let id = macro_id(number, tables.styles[number as usize]);
        world.add_macro_use(map, Name(name), id, item.map(ExternCrateId));
    }
    for &(map, module) in &tables.preludes {
        world.set_prelude(map, module_id(module));
    }
    for &(module, name, number) in &tables.legacy {
        let id = macro_id(number, tables.styles[number as usize]);
        world.scope_mut(module_id(module)).define_legacy_macro(Name(name), id);
    }
    for &(of, name, variant, constructor) in &tables.variants {
        let row = (EnumVariantId(variant), signatures::FieldsShape(constructor));
        world.enums[of as usize].variants.insert(Name(name), row);
    }
    world
}

fn def_of(tables: &Tables, kind: u32, n: u32) -> ModuleDefId {
    match kind {
        1 => module_id(n).into(),
        2 => FunctionId(n).into(),
        3 => StructId(n).into(),
        4 => UnionId(n).into(),
        5 => EnumId(n).into(),
        6 => EnumVariantId(n).into(),
        7 => ConstId(n).into(),
        8 => StaticId(n).into(),
        9 => TraitId(n).into(),
        10 => TypeAliasId(n).into(),
        11 => BuiltinType::all_builtin_types()[n as usize].1.into(),
        12 => macro_id(n, tables.styles[n as usize]).into(),
        _ => panic!("{kind} is no kind of a def"),
    }
}

fn entry(tables: &Tables, numbers: &mut Numbers) -> Option<(ModuleDefId, Visibility)> {
    let kind = numbers.next();
    if kind == 0 {
        return None;
    }
    let def = def_of(tables, kind, numbers.next());
    let (kind, n) = (numbers.next(), numbers.next());
    let vis = match kind {
        0 => Visibility::Public,
        1 => Visibility::PubCrate(Crate(n)),
        2 => Visibility::Module(module_id(n), VisibilityExplicitness::Explicit),
        _ => Visibility::Module(module_id(n), VisibilityExplicitness::Implicit),
    };
    Some((def, vis))
}

struct Delivery {
    at: (ModuleId, Name),
    entries: PerNs,
    import: Option<ImportOrExternCrate>,
}

fn delivery(tables: &Tables, numbers: &mut Numbers) -> Delivery {
    let at = (module_id(numbers.next()), Name(numbers.next()));
    let types = entry(tables, numbers).map(|(def, vis)| Item { def, vis, import: None });
    let values = entry(tables, numbers).map(|(def, vis)| Item { def, vis, import: None });
    let macros = entry(tables, numbers).map(|(def, vis)| match def {
        ModuleDefId::MacroId(def) => Item { def, vis, import: None },
        _ => panic!("a macro was expected"),
    });
    let kind = numbers.next();
    let import = if kind == 0 {
        None
    } else {
        let idx = Idx(0, std::marker::PhantomData);
        Some(match (kind, numbers.next()) {
            (1, n) => ImportOrExternCrate::Glob(GlobId { use_: UseId(n), idx }),
            (2, n) => ImportOrExternCrate::Import(ImportId { use_: UseId(n), idx: Idx(0, std::marker::PhantomData) }),
            (_, n) => ImportOrExternCrate::ExternCrate(ExternCrateId(n)),
        })
    };
    Delivery { at, entries: PerNs { types, values, macros }, import }
}

struct Asked {
    import: bool,
    module: ModuleId,
    shadow: BuiltinShadowMode,
    expected: Option<MacroSubNs>,
    path: ModPath,
}

fn asked(numbers: &mut Numbers) -> Asked {
    let import = numbers.next() == 0;
    let module = module_id(numbers.next());
    let shadow = if numbers.next() == 0 { BuiltinShadowMode::Module } else { BuiltinShadowMode::Other };
    let expected = match numbers.next() {
        0 => None,
        1 => Some(MacroSubNs::Bang),
        _ => Some(MacroSubNs::Attr),
    };
    let kind = match (numbers.next(), numbers.next()) {
        (0, _) => PathKind::Plain,
        (1, _) => PathKind::Abs,
        (2, _) => PathKind::Crate,
        (3, level) => PathKind::Super(level as u8),
        (_, krate) => PathKind::DollarCrate(Crate(krate)),
    };
    let names = numbers.list(|n| Name(n.next()));
    Asked { import, module, shadow, expected, path: ModPath::from_segments(kind, names) }
}

fn filled(found: &PerNs) -> u64 {
    found.types.is_some() as u64 + found.values.is_some() as u64 + found.macros.is_some() as u64
}

fn ask_all(world: &World, group: &[Asked]) -> u64 {
    let mut entries = 0;
    for one in group {
        world.steps.set(0);
        let answer = world.ask(one.import, one.module, &one.path, one.shadow, one.expected);
        entries += filled(&answer.found);
    }
    entries
}

fn tell(what: &str, of: usize, outcome: u64, time: Duration) {
    println!("{what} {of} {outcome} {}", time.as_nanos());
}

pub fn main() {
    let words: Vec<String> = std::env::args().collect();
    let text = std::fs::read_to_string(words.last().unwrap()).unwrap();
    let all: Vec<u32> = text.split_ascii_whitespace().map(|word| word.parse().unwrap()).collect();
    let mut numbers = Numbers { numbers: all.into_iter() };
    let tables = read_tables(&mut numbers);
    let made = numbers.list(|n| delivery(&tables, n));
    let groups = numbers.list(|n| (n.next(), n.list(asked)));
    if words[1] == "input" {
        return;
    }

    let start = Instant::now();
    let mut world = load(&tables);
    tell("load", tables.rows as usize, 0, start.elapsed());

    let start = Instant::now();
    let mut globs = PerNsGlobImports::default();
    let mut changed = 0;
    for one in &made {
        let scope = world.scope_mut(one.at.0);
        changed += scope.push_res_with_import(&mut globs, one.at, one.entries, one.import) as u64;
    }
    tell("deliver", made.len(), changed, start.elapsed());

    for (rounds, group) in &groups {
        let (mut shortest, mut entries) = (Duration::MAX, 0);
        for _ in 0..TRIES {
            let start = Instant::now();
            entries = 0;
            for _ in 0..*rounds {
                entries += std::hint::black_box(ask_all(&world, std::hint::black_box(group)));
            }
            shortest = shortest.min(start.elapsed());
        }
        tell("ask", group.len(), entries, shortest);
    }
}
