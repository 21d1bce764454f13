//! Stands in for the rest of the module `nameres`: the queries that find a map, and the making of maps.

use std::ops::{Deref, DerefMut, Index, IndexMut};
use std::sync::Arc;

use crate::item_scope::{BuiltinShadowMode, ItemScope};
use crate::mod_path::ModPath;
use crate::outside::*;
use crate::per_ns::PerNs;
use crate::visibility::{Visibility, VisibilityExplicitness};
use crate::*;

#[path = "whole_path_resolution.rs"]
mod path_resolution;

pub use self::path_resolution::ResolvePathResultPrefixInfo;
use self::path_resolution::{ReachedFixedPoint, ResolveMode};

include!("cut_nameres.rs");

pub mod assoc {
    use crate::{AssocItemId, Name, SourceDatabase, TraitId};

    pub struct TraitItems;

    impl TraitItems {
        pub fn query(_: &dyn SourceDatabase, _: TraitId) -> TraitItems {
            TraitItems
        }
        pub fn assoc_item_by_name(&self, _: &Name) -> Option<AssocItemId> {
            None
        }
    }
}

pub struct DefMapPair {
    def_map: DefMap,
    local: LocalDefMap,
}

impl DefMapPair {
    pub fn def_map<'db>(&'db self, _: &'db dyn SourceDatabase) -> &'db DefMap {
        &self.def_map
    }
    pub fn local<'db>(&'db self, _: &'db dyn SourceDatabase) -> &'db LocalDefMap {
        &self.local
    }
}

pub fn crate_local_def_map(db: &dyn SourceDatabase, krate: Crate) -> &DefMapPair {
    &db.world().crates[krate.0 as usize]
}

pub fn block_def_map<'db>(db: &'db dyn SourceDatabase, block: BlockIdLt<'db>) -> &'db DefMap {
    &db.world().blocks[block.0 as usize]
}

// What the driver makes and asks.

fn new_map(krate: Crate, edition: Edition, root: ModuleId, block: Option<BlockInfo>) -> DefMap {
    DefMap {
        krate,
        block,
        root,
        modules: ModulesMap::new(),
        prelude: None,
        macro_use_prelude: Default::default(),
        derive_helpers_in_scope: Default::default(),
        macro_def_to_macro_id: Default::default(),
        diagnostics: Vec::new(),
        data: Arc::new(DefMapCrateData {
            exported_derives: Default::default(),
            fn_proc_macro_mapping: Default::default(),
            fn_proc_macro_mapping_back: Default::default(),
            registered_tools: Vec::new(),
            unstable_features: UnstableFeatures,
            rustc_coherence_is_core: false,
            no_core: false,
            no_std: false,
            edition,
            recursion_limit: None,
        }),
    }
}

/// Where a map's macro-use prelude and prelude module are told.
#[derive(Clone, Copy, PartialEq, Eq, Hash)]
pub enum MapNumber {
    Crate(u32),
    Block(u32),
}

pub struct Answer {
    pub found: PerNs,
    pub yes: bool,
    pub index: Option<usize>,
    pub differing_crate: bool,
    pub enum_variant: bool,
}

impl World {
    pub fn add_crate(&mut self, edition: Edition, root: ModuleId) {
        let krate = Crate(self.crates.len() as u32);
        let def_map = new_map(krate, edition, root, None);
        self.crates.push(DefMapPair { def_map, local: LocalDefMap::default() });
    }

    /// After all crates.
    pub fn add_block(&mut self, root: ModuleId, parent: ModuleId) {
        let block = block_id(self.blocks.len() as u32);
        let krate = self.modules[root.0 as usize].krate;
        let edition = self.crates[krate.0 as usize].def_map.data.edition;
        self.blocks.push(new_map(krate, edition, root, Some(BlockInfo { block, parent })));
    }

    /// After all crates and blocks.
    pub fn fill_maps(&mut self) {
        for number in 0..self.modules.len() {
            let ModuleRow { krate, block, parent } = self.modules[number];
            let origin = ModuleOrigin::CrateRoot { definition: EditionedFileId };
            let data = ModuleData::new(origin, Visibility::Public, parent);
            let map = match block {
                Some(block) => &mut self.blocks[block.0 as usize],
                None => &mut self.crates[krate.0 as usize].def_map,
            };
            map.modules.insert(module_id(number as u32), data);
        }
    }

    fn map_mut(&mut self, map: MapNumber) -> &mut DefMap {
        match map {
            MapNumber::Crate(number) => &mut self.crates[number as usize].def_map,
            MapNumber::Block(number) => &mut self.blocks[number as usize],
        }
    }

    pub fn scope_mut(&mut self, module: ModuleId) -> &mut ItemScope {
        let ModuleRow { krate, block, .. } = self.modules[module.0 as usize];
        let map = self.map_mut(block.map_or(MapNumber::Crate(krate.0), |block| MapNumber::Block(block.0)));
        &mut map[module].scope
    }

    pub fn add_extern(&mut self, krate: u32, name: Name, root: ModuleId, item: Option<ExternCrateId>) {
        self.crates[krate as usize].local.extern_prelude.insert(name, (root, item));
    }

    pub fn add_macro_use(&mut self, map: MapNumber, name: Name, id: MacroId, item: Option<ExternCrateId>) {
        self.map_mut(map).macro_use_prelude.insert(name, (id, item));
    }

    pub fn set_prelude(&mut self, map: MapNumber, module: ModuleId) {
        self.map_mut(map).prelude = Some((module, None));
    }

    pub fn ask(
        &self,
        import: bool,
        module: ModuleId,
        path: &ModPath,
        shadow: BuiltinShadowMode,
        expected: Option<MacroSubNs>,
    ) -> Answer {
        let db: &dyn SourceDatabase = self;
        let mode = if import { ResolveMode::Import } else { ResolveMode::Other };
        let result = module.def_map(db).resolve_path_fp_with_macro(
            module.only_local_def_map(db),
            db,
            mode,
            module,
            path,
            shadow,
            expected,
        );
        Answer {
            found: result.resolved_def,
            yes: result.reached_fixedpoint == ReachedFixedPoint::Yes,
            index: result.segment_index,
            differing_crate: result.prefix_info.differing_crate,
            enum_variant: result.prefix_info.enum_variant,
        }
    }

    pub fn place(&self, module: ModuleId, name: Name) -> PerNs {
        let db: &dyn SourceDatabase = self;
        module.def_map(db)[module].scope.get(&name)
    }

    /// Both tests of who may see.
    pub fn sees(&self, visibility: Visibility, module: ModuleId) -> (bool, bool) {
        let db: &dyn SourceDatabase = self;
        let other = visibility.is_visible_from_def_map(db, module.def_map(db), module);
        (visibility.is_visible_from(db, module), other)
    }
}
