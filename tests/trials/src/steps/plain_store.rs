//! A store of the plainest kind, the twin of the one that nodes have: for each slot a list of its keys.

use byte_string::ByteString;
use hash::Hash;
use key_slot::{Slot, slot};
use keyspace::{FieldChanges, Pair, Plan, Store, TreeStore, Value, commit, leaves_keys};
use repl_stream::Replaces;
use slot_store::{Part, SlotParts};
use std::alloc::{AllocError, Global};

/// The keys of a slot with their values, in the byte order of the keys.
#[derive(Drop)]
pub struct PlainPart {
    pairs: Vec<(ByteString, Value)>,
}

impl PlainPart {
    fn new(alloc: Global) -> PlainPart {
        PlainPart {
            pairs: Vec::new(alloc),
        }
    }

    // Where the key stands, or else where it would.
    fn place_of(&self, key: &ByteString) -> Result<usize, usize> {
        for (place, (other, _)) in self.pairs.iter().enumerate() {
            if other == key {
                return Ok(place);
            }
            if other.as_slice() > key.as_slice() {
                return Err(place);
            }
        }
        Err(self.pairs.len())
    }

    // The same keys with their values in a map.
    fn tree(&self) -> Result<TreeStore, AllocError> {
        let mut tree = TreeStore::new(*self.pairs.allocator());
        for (key, value) in &self.pairs {
            let _none = tree.insert(key.clone()?, value.clone()?)?;
        }
        Ok(tree)
    }
}

impl Store for PlainPart {
    ghost use Rattle.keyspace.specs.Keyspace.{keyspace_of};

    ghost contents = { λ part. keyspace_of part.pairs.items };

    fn get(&self, key: &ByteString) -> Option<&Value> {
        let place = self.place_of(key).ok()?;
        Some(&self.pairs[place].1)
    }

    fn insert(&mut self, key: ByteString, value: Value) -> Result<Option<Value>, AllocError> {
        match self.place_of(&key) {
            Ok(place) => {
                let (_key, old) = self.pairs.remove(place);
                self.pairs.insert(place, (key, value))?;
                Ok(Some(old))
            }
            Err(place) => {
                self.pairs.insert(place, (key, value))?;
                Ok(None)
            }
        }
    }

    fn remove(&mut self, key: &ByteString) {
        if let Ok(place) = self.place_of(key) {
            let _old = self.pairs.remove(place);
        }
    }

    fn change_fields(&mut self, key: ByteString, changes: FieldChanges) -> Result<(), AllocError> {
        let mut hash = match self.get(&key) {
            None => Hash::new(*changes.allocator()),
            Some(Value::Hash(hash)) => hash.clone()?,
            Some(Value::Str(_)) => return Ok(()),
        };
        hash.change(changes)?;
        if hash.is_empty() {
            self.remove(&key);
            return Ok(());
        }
        let _old = self.insert(key, Value::Hash(hash))?;
        Ok(())
    }

    fn append(
        &mut self,
        alloc: Global,
        key: ByteString,
        bytes: ByteString,
    ) -> Result<(), AllocError> {
        let string = match self.get(&key) {
            None => bytes,
            Some(Value::Str(string)) => {
                let mut longer = string.clone()?;
                longer.append(alloc, bytes.as_slice())?;
                longer
            }
            Some(Value::Hash(_)) => return Ok(()),
        };
        let _old = self.insert(key, Value::Str(string))?;
        Ok(())
    }
}

impl Part for PlainPart {
    fn push_keys(&self, keys: &mut Vec<ByteString>) -> Result<(), AllocError> {
        for (key, _) in &self.pairs {
            keys.push(key.clone()?)?;
        }
        Ok(())
    }

    fn push_pairs(&self, pairs: &mut Vec<Pair>) -> Result<(), AllocError> {
        for (key, value) in &self.pairs {
            pairs.push(Pair::new(key.clone()?, value.clone()?))?;
        }
        Ok(())
    }

    fn has_only(&self, keys: &[ByteString]) -> bool {
        self.pairs
            .iter()
            .all(|(key, _)| keys.iter().any(|other| other == key))
    }

    // How a plan keeps its changes is private, so a map of the same keys is asked. Memory isn't refused in the trial.
    fn leaves_keys(&self, plan: &Plan) -> bool {
        leaves_keys(&self.tree().unwrap(), plan)
    }
}

/// A part for each slot.
#[derive(Drop)]
pub struct PlainStore {
    parts: Vec<PlainPart>,
}

impl PlainStore {
    fn part_of(&mut self, key: &ByteString) -> &mut PlainPart {
        &mut self.parts[slot(key.as_slice()).index()]
    }
}

impl Store for PlainStore {
    ghost use Rattle.std.specs.Prelude.{map};
    ghost use Rattle.std.specs.List.{concat};
    ghost use Rattle.keyspace.specs.Keyspace.{keyspace_of};

    ghost contents = { λ store. keyspace_of (concat (map (λ part. part.pairs.items) store.parts.items)) };

    fn get(&self, key: &ByteString) -> Option<&Value> {
        self.part(slot(key.as_slice())).get(key)
    }

    fn insert(&mut self, key: ByteString, value: Value) -> Result<Option<Value>, AllocError> {
        self.part_of(&key).insert(key, value)
    }

    fn remove(&mut self, key: &ByteString) {
        self.part_of(key).remove(key);
    }

    fn change_fields(&mut self, key: ByteString, changes: FieldChanges) -> Result<(), AllocError> {
        self.part_of(&key).change_fields(key, changes)
    }

    fn append(
        &mut self,
        alloc: Global,
        key: ByteString,
        bytes: ByteString,
    ) -> Result<(), AllocError> {
        self.part_of(&key).append(alloc, key, bytes)
    }
}

impl SlotParts for PlainStore {
    type Part = PlainPart;

    fn count_in_slot(&self, slot: Slot) -> usize {
        self.part(slot).pairs.len()
    }

    fn keys_in_slot(
        &self,
        alloc: Global,
        slot: Slot,
        count: usize,
    ) -> Result<Vec<ByteString>, AllocError> {
        let mut found = Vec::new(alloc);
        for (key, _) in self.part(slot).pairs.iter().take(count) {
            found.push(key.clone()?)?;
        }
        Ok(found)
    }

    fn part(&self, slot: Slot) -> &PlainPart {
        &self.parts[slot.index()]
    }

    fn commit_in_slot(&mut self, alloc: Global, slot: Slot, plan: Plan) -> Result<(), AllocError> {
        commit(alloc, &mut self.parts[slot.index()], plan)
    }

    fn clear_slot(&mut self, slot: Slot) {
        self.parts[slot.index()].pairs.clear();
    }
}

impl Replaces for PlainStore {
    fn empty(alloc: Global) -> Result<PlainStore, AllocError> {
        let mut parts = Vec::with_capacity(alloc, Slot::COUNT)?;
        for _ in 0..Slot::COUNT {
            parts.push(PlainPart::new(alloc))?;
        }
        Ok(PlainStore { parts })
    }
}
