//! Stands in for what the files of the crate lean on: other crates under their names, and the crate's own modules that
//! are not taken. `build.py` puts this file, its neighbours and the crate's text into one folder and compiles it.
#![allow(warnings)]

extern crate self as base_db;
extern crate self as bitflags;
extern crate self as cov_mark;
extern crate self as either;
extern crate self as hir_expand;
extern crate self as indexmap;
extern crate self as intern;
extern crate self as rustc_hash;
extern crate self as span;
extern crate self as stdx;

use std::collections::{HashMap, HashSet};
use std::hash::{BuildHasher, Hasher};
use std::marker::PhantomData;

// The crate's text.

#[path = "whole_builtin_type.rs"]
pub mod builtin_type;
#[path = "whole_per_ns.rs"]
pub mod per_ns;
#[path = "maps.rs"]
pub mod nameres;

pub mod visibility {
    use crate::nameres::DefMap;
    use crate::{Crate, ModuleId, ModuleIdLt, SourceDatabase};
    pub use crate::item_tree::{RawVisibility, VisibilityExplicitness};
    include!("cut_visibility.rs");
}

pub mod item_scope {
    use std::sync::LazyLock;

    use crate::outside::*;
    use crate::per_ns::{Item, MacrosItem, PerNs, TypesItem, ValuesItem};
    use crate::visibility::Visibility;
    use crate::*;
    use indexmap::map::Entry;
    include!("cut_item_scope.rs");
}

include!("cut_lib.rs");

use builtin_type::BuiltinType;
use nameres::{DefMap, DefMapPair, LocalDefMap, block_def_map, crate_def_map, crate_local_def_map};

mod driver;

fn main() {
    driver::main();
}

// The database: one world, whose maps are made when its tables are read.

pub trait SourceDatabase {
    fn world(&self) -> &World;
}

#[derive(Default)]
pub struct World {
    pub crates: Vec<DefMapPair>,
    pub blocks: Vec<DefMap>,
    pub modules: Vec<ModuleRow>,
    pub enums: Vec<signatures::EnumVariants>,
    pub styles: Vec<MacroCallStyles>,
    pub steps: std::cell::Cell<u64>,
}

pub struct ModuleRow {
    pub krate: Crate,
    pub block: Option<BlockId>,
    pub parent: Option<ModuleId>,
}

impl SourceDatabase for World {
    fn world(&self) -> &World {
        self
    }
}

/// The payload of the panic with which a question ends that takes too many steps.
pub struct Endless;

pub const STEPS: u64 = 2_000_000;

impl World {
    pub fn step(&self) {
        self.steps.set(self.steps.get() + 1);
        if self.steps.get() > STEPS {
            std::panic::panic_any(Endless);
        }
    }
}

// Numbers.

macro_rules! numbers {
    ($($id:ident)*) => { $(
        #[derive(Debug, Clone, Copy, PartialEq, Eq, PartialOrd, Ord, Hash)]
        pub struct $id(pub u32);
    )* };
}

numbers! {
    Crate FunctionId StructId UnionId EnumId EnumVariantId ConstId StaticId TraitId TypeAliasId
    Macro2Id MacroRulesId ProcMacroId UseId ExternCrateId ImplId ExternBlockId BuiltinDeriveImplId
}

#[derive(Debug, Clone, Copy, PartialEq, Eq, PartialOrd, Ord, Hash)]
pub struct BlockIdLt<'db>(pub u32, pub PhantomData<&'db ()>);
pub type BlockId = BlockIdLt<'static>;

#[derive(Debug, Clone, Copy, PartialEq, Eq, PartialOrd, Ord, Hash)]
pub struct ModuleIdLt<'db>(pub u32, pub PhantomData<&'db ()>);
pub type ModuleId = ModuleIdLt<'static>;

impl<'db> ModuleIdLt<'db> {
    pub fn krate(self, db: &dyn SourceDatabase) -> Crate {
        db.world().step();
        db.world().modules[self.0 as usize].krate
    }
    pub fn block(self, db: &'db dyn SourceDatabase) -> Option<BlockIdLt<'db>> {
        db.world().modules[self.0 as usize].block
    }
}

pub fn module_id(number: u32) -> ModuleId {
    ModuleIdLt(number, PhantomData)
}

pub fn block_id(number: u32) -> BlockId {
    BlockIdLt(number, PhantomData)
}

// Names and paths.

#[derive(Debug, Clone, Copy, PartialEq, Eq, Hash)]
pub struct Symbol(pub u32);

pub mod sym {
    use crate::Symbol;
    macro_rules! symbols {
        ($($name:ident $number:literal)*) => { $(pub const $name: Symbol = Symbol($number);)* };
    }
    symbols! {
        char 0 bool 1 str 2 isize 3 i8 4 i16 5 i32 6 i64 7 i128 8 usize 9 u8 10 u16 11 u32 12 u64 13 u128 14
        f16 15 f32 16 f64 17 f128 18
    }
}

pub mod name {
    #[derive(Debug, Clone, Copy, PartialEq, Eq, PartialOrd, Ord, Hash)]
    pub struct Name(pub u32);

    impl Name {
        pub fn new_symbol_root(symbol: crate::Symbol) -> Name {
            Name(symbol.0)
        }
    }

    pub trait AsName {
        fn as_name(&self) -> Name;
    }
}
pub use name::Name;

pub mod mod_path {
    use crate::{Crate, Name};

    #[derive(Debug, Clone, Copy, PartialEq, Eq, Hash)]
    pub enum PathKind {
        Plain,
        Super(u8),
        Crate,
        Abs,
        DollarCrate(Crate),
    }

    impl PathKind {
        pub const SELF: PathKind = PathKind::Super(0);
    }

    #[derive(Debug, Clone, PartialEq, Eq, Hash)]
    pub struct ModPath {
        pub kind: PathKind,
        segments: Vec<Name>,
    }

    impl ModPath {
        pub fn from_segments(kind: PathKind, segments: impl IntoIterator<Item = Name>) -> ModPath {
            ModPath { kind, segments: segments.into_iter().collect() }
        }
        pub fn segments(&self) -> &[Name] {
            &self.segments
        }
    }
}

#[derive(Debug, Clone, Copy, PartialEq, Eq, PartialOrd, Ord, Hash)]
pub enum Edition {
    Edition2015,
    Edition2018,
    Edition2021,
    Edition2024,
}

pub mod item_tree {
    use crate::mod_path::ModPath;

    #[derive(Debug, Clone, Copy, PartialEq, Eq, Hash)]
    pub enum VisibilityExplicitness {
        Explicit,
        Implicit,
    }

    #[derive(Debug, Clone, PartialEq, Eq, Hash)]
    pub enum RawVisibility {
        Module(ModPath, VisibilityExplicitness),
        PubSelf(VisibilityExplicitness),
        Public,
        PubCrate,
    }
}

// Macros and enums.

bitflags! {
    #[derive(Debug, Clone, Copy, PartialEq, Eq, Hash)]
    pub struct MacroCallStyles: u8 {
        const FN_LIKE = 1 << 0;
        const ATTR = 1 << 1;
        const DERIVE = 1 << 2;
    }
}

#[derive(Debug, Clone, Copy, PartialEq, Eq, Hash)]
pub enum ProcMacroKind {
    CustomDerive,
    Bang,
    Attr,
}

macro_rules! nothings {
    ($($name:ident)*) => { $(
        #[derive(Debug, Default, Clone, Copy, PartialEq, Eq, PartialOrd, Ord, Hash)]
        pub struct $name;
    )* };
}

nothings! { BuiltinFnLikeExpander BuiltinAttrExpander BuiltinDeriveExpander EagerExpander }

pub struct MacroLoc {
    pub expander: MacroExpander,
}

pub struct ProcMacroLoc {
    pub kind: ProcMacroKind,
}

pub trait Lookup {
    type Data;
    fn lookup(&self, db: &dyn SourceDatabase) -> Self::Data;
}

impl Lookup for Macro2Id {
    type Data = MacroLoc;
    fn lookup(&self, db: &dyn SourceDatabase) -> MacroLoc {
        MacroLoc { expander: MacroExpander::Declarative { styles: db.world().styles[self.0 as usize] } }
    }
}

impl Lookup for MacroRulesId {
    type Data = MacroLoc;
    fn lookup(&self, db: &dyn SourceDatabase) -> MacroLoc {
        Macro2Id(self.0).lookup(db)
    }
}

impl Lookup for ProcMacroId {
    type Data = ProcMacroLoc;
    fn lookup(&self, db: &dyn SourceDatabase) -> ProcMacroLoc {
        let styles = db.world().styles[self.0 as usize];
        let kind = if styles == MacroCallStyles::FN_LIKE {
            ProcMacroKind::Bang
        } else if styles == MacroCallStyles::ATTR {
            ProcMacroKind::Attr
        } else {
            assert!(styles == MacroCallStyles::DERIVE);
            ProcMacroKind::CustomDerive
        };
        ProcMacroLoc { kind }
    }
}

/// The makes of macros take turns: a macro of one style is a procedural one at each third number, one by `macro` at
/// another third; all else are by `macro_rules`.
pub fn macro_id(number: u32, styles: MacroCallStyles) -> MacroId {
    let one = [MacroCallStyles::FN_LIKE, MacroCallStyles::ATTR, MacroCallStyles::DERIVE].contains(&styles);
    match number % 3 {
        1 if one => MacroId::ProcMacroId(ProcMacroId(number)),
        2 => MacroId::Macro2Id(Macro2Id(number)),
        _ => MacroId::MacroRulesId(MacroRulesId(number)),
    }
}

pub mod signatures {
    use crate::{EnumVariantId, FxIndexMap, Name};

    #[derive(Debug, Clone, Copy, PartialEq, Eq)]
    pub struct FieldsShape(pub bool);

    impl FieldsShape {
        pub fn has_value_ns_ctor(self) -> bool {
            self.0
        }
    }

    #[derive(Debug, Default)]
    pub struct EnumVariants {
        pub variants: FxIndexMap<Name, (EnumVariantId, FieldsShape)>,
    }
}

impl EnumId {
    pub fn enum_variants(self, db: &dyn SourceDatabase) -> &signatures::EnumVariants {
        &db.world().enums[self.0 as usize]
    }
}

pub enum AssocItemId {
    FunctionId(FunctionId),
    ConstId(ConstId),
    TypeAliasId(TypeAliasId),
}

// Maps and lists.

#[derive(Debug, Default, Clone, Copy)]
pub struct FxBuildHasher;

#[derive(Default)]
pub struct FxHasher(u64);

impl BuildHasher for FxBuildHasher {
    type Hasher = FxHasher;
    fn build_hasher(&self) -> FxHasher {
        FxHasher(0)
    }
}

impl FxHasher {
    fn add(&mut self, word: u64) {
        self.0 = (self.0.rotate_left(5) ^ word).wrapping_mul(0x51_7c_c1_b7_27_22_0a_95);
    }
}

impl Hasher for FxHasher {
    fn write(&mut self, bytes: &[u8]) {
        for &byte in bytes {
            self.add(byte as u64);
        }
    }
    fn write_u32(&mut self, word: u32) {
        self.add(word as u64);
    }
    fn write_u64(&mut self, word: u64) {
        self.add(word);
    }
    fn write_usize(&mut self, word: usize) {
        self.add(word as u64);
    }
    fn finish(&self) -> u64 {
        self.0.rotate_left(26)
    }
}

pub type FxHashMap<K, V> = HashMap<K, V, FxBuildHasher>;
pub type FxHashSet<K> = HashSet<K, FxBuildHasher>;
pub type IndexMap<K, V, S> = HashMap<K, V, S>;

pub mod map {
    pub use std::collections::hash_map::Entry;
}

/// What item scopes keep beside their entries; it is never filled here.
pub mod outside {
    use std::marker::PhantomData;

    pub type ThinVec<T> = Vec<T>;
    pub type SmallVec<A> = Vec<<A as Array>::Item>;

    pub trait Array {
        type Item;
    }
    impl<T, const N: usize> Array for [T; N] {
        type Item = T;
    }

    #[derive(Debug, Clone, Copy, PartialEq, Eq, PartialOrd, Ord, Hash)]
    pub struct Idx<T>(pub u32, pub PhantomData<T>);

    #[derive(Debug, Clone, Copy, PartialEq, Eq, Hash)]
    pub struct AstId<T>(pub u32, pub PhantomData<T>);

    #[derive(Debug, Clone, Copy, PartialEq, Eq, Hash)]
    pub struct FileAstId<T>(pub u32, pub PhantomData<T>);

    pub mod ast {
        nothings! { UseTree Item MacroCall Adt Module BlockExpr }
    }

    nothings! { AttrId MacroCallId ErasedAstId EditionedFileId TreeId DefDiagnostic UnstableFeatures }
}

#[derive(Debug, Clone, Copy, PartialEq, Eq, Hash)]
pub enum Either<L, R> {
    Left(L),
    Right(R),
}

pub trait TupleExt {
    type Head;
    fn head(self) -> Self::Head;
}

impl<A, B> TupleExt for (A, B) {
    type Head = A;
    fn head(self) -> A {
        self.0
    }
}

pub struct Span;

impl Span {
    pub fn entered(self) -> Span {
        self
    }
}

// Macros of other crates.

macro_rules! hit {
    ($($word:tt)*) => {};
}

macro_rules! always {
    ($condition:expr) => {
        assert!($condition)
    };
}

macro_rules! impl_from {
    ($from:ident { $($variant:ident),* $(,)? } for $to:ident) => {
        impl From<$from> for $to {
            fn from(it: $from) -> $to {
                match it {
                    $($from::$variant(it) => $to::$variant(it),)*
                }
            }
        }
    };
    ($($variant:ident $(($($inner:ident),*))?),* $(,)? for $to:ident) => { $(
        impl From<$variant> for $to {
            fn from(it: $variant) -> $to {
                $to::$variant(it)
            }
        }
        $($(
            impl From<$inner> for $to {
                fn from(it: $inner) -> $to {
                    $to::$variant($variant::$inner(it))
                }
            }
        )*)?
    )* };
}

macro_rules! flags {
    ($(#[$mark:meta])* $see:vis struct $name:ident : $word:ident {
        $(const $flag:ident = $value:expr;)*
    }) => {
        $(#[$mark])*
        $see struct $name($word);

        impl $name {
            $($see const $flag: $name = $name($value);)*
            $see fn empty() -> $name {
                $name(0)
            }
            $see fn all() -> $name {
                $name(0 $(| $value)*)
            }
            $see fn contains(&self, other: $name) -> bool {
                self.0 & other.0 == other.0
            }
            $see fn set(&mut self, other: $name, value: bool) {
                if value {
                    self.0 |= other.0;
                } else {
                    self.0 &= !other.0;
                }
            }
        }
    };
}

pub(crate) use {always, flags as bitflags, hit, impl_from};
