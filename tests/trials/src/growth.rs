//! What refused memory leaves of a hash and of a map that grow past a block and a list: all that was there, so that a second try
//! succeeds.
use byte_string::ByteString;
use hash::Hash;
use key_map::KeyMap;
use std::alloc::{AllocError, Global};

// With this many fields, or keys, they no longer lie in a list.
const MANY: u8 = 10;

// The length of a field's value. So many of them as MANY don't lie in one block.
const LONG: usize = 255;

/// Whether a field that is refused leaves a hash as it was, and is set at a second try.
pub fn hash_is_unchanged(alloc: Global) -> Result<bool, AllocError> {
    let mut hash = Hash::new(alloc);
    for number in 0..MANY {
        if set(alloc, &mut hash, number).is_err() {
            if !has_fields(&hash, number) {
                return Ok(false);
            }
            set(alloc, &mut hash, number)?;
        }
        if !has_fields(&hash, number + 1) {
            return Ok(false);
        }
    }
    Ok(true)
}

fn set(alloc: Global, hash: &mut Hash, number: u8) -> Result<(), AllocError> {
    let mut changes = Vec::with_capacity(alloc, 1)?;
    let value = ByteString::copy_from_slice(alloc, &[number; LONG])?;
    changes.push((text(number), Some(value)))?;
    hash.change(changes)
}

// Whether the hash has the fields below this one, and no other.
fn has_fields(hash: &Hash, count: u8) -> bool {
    for number in 0..count {
        let Some(value) = hash.get(&text(number)) else {
            return false;
        };
        if value.as_slice() != [number; LONG].as_slice() {
            return false;
        }
    }
    hash.len() == usize::from(count)
}

/// Whether a key that is refused leaves a map as it was, and is put there at a second try. The last key comes first.
pub fn map_is_unchanged(alloc: Global) -> Result<bool, AllocError> {
    let mut map = KeyMap::new(alloc);
    for count in 0..MANY {
        let number = MANY - count;
        if map.insert(text(number), number).is_err() {
            if !has_keys(&map, count) {
                return Ok(false);
            }
            let _none = map.insert(text(number), number)?;
        }
        if !has_keys(&map, count + 1) {
            return Ok(false);
        }
    }
    Ok(true)
}

// Whether the map has so many of the last keys, in order, and no other.
fn has_keys(map: &KeyMap<u8>, count: u8) -> bool {
    let mut number = MANY.saturating_sub(count);
    for key in map.keys() {
        number = number.saturating_add(1);
        if key != &text(number) || map.get(key) != Some(&number) {
            return false;
        }
    }
    number == MANY && map.len() == usize::from(count)
}

fn text(number: u8) -> ByteString {
    ByteString::inline(&[number])
}
