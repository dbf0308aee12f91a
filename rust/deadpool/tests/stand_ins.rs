//! What stands in for Rattle's list, ring and slab keeps to their contracts, as its comments tell them: beside a model of plain
//! lists, and where no memory is found.
#[path = "../src/rattle/mod.rs"]
#[allow(unused_imports)]
mod rattle;
#[path = "common/refusing.rs"]
mod refusing;

use rattle::{AllocError, Global, HeapCircularBuffer, Slab};
use refusing::refusing;
use std::collections::BTreeMap;

/// The numbers of a simple generator.
struct Dice(u64);

impl Dice {
    fn below(&mut self, limit: usize) -> usize {
        self.0 = self.0.wrapping_mul(6_364_136_223_846_793_005).wrapping_add(1_442_695_040_888_963_407);
        usize::try_from(self.0 >> 33).expect("31 bits") % limit
    }
}

/// What a call gives, which must take no memory.
fn without_memory<R>(call: impl FnOnce() -> R) -> R {
    let (result, was_refused) = refusing(0, call);
    assert!(!was_refused, "it takes memory");
    result
}

/// What a call gives whose first allocation is refused.
fn refused<R>(call: impl FnOnce() -> R) -> R {
    let (result, was_refused) = refusing(0, call);
    assert!(was_refused, "it takes no memory");
    result
}

fn ring_of(capacity: usize, items: &[usize]) -> HeapCircularBuffer<usize> {
    let mut ring = HeapCircularBuffer::with_capacity(Global, capacity).expect("memory");
    items.iter().for_each(|item| assert_eq!(ring.push_back(*item), None));
    ring
}

fn assert_ring(ring: &HeapCircularBuffer<usize>, items: &[usize], capacity: usize) {
    let there: Vec<usize> = (0..).map_while(|at| ring.get(at)).copied().collect();
    assert_eq!((there, ring.capacity()), (items.to_vec(), capacity));
    assert_eq!((ring.len(), ring.is_empty(), ring.get(items.len())), (items.len(), items.is_empty(), None));
}

#[test]
fn a_ring_finds_memory_for_its_capacity_or_is_not_made() {
    for capacity in [0, 1, 2, 3, 17, 100] {
        let mut ring = HeapCircularBuffer::with_capacity(Global, capacity).expect("memory");
        assert_ring(&ring, &[], capacity);
        without_memory(|| (0..3 * capacity).for_each(|item| _ = ring.push_back(item)));
        assert_eq!(ring.len(), capacity);
    }
    for capacity in [usize::MAX, isize::MAX as usize] {
        assert_eq!(HeapCircularBuffer::<u64>::with_capacity(Global, capacity).err(), Some(AllocError));
    }
    assert_eq!(refused(|| HeapCircularBuffer::<u64>::with_capacity(Global, 3).err()), Some(AllocError));
}

#[test]
fn a_full_ring_gives_up_its_first_item() {
    let mut ring = ring_of(2, &[1, 2]);
    assert_eq!(ring.push_back(3), Some(1));
    assert_ring(&ring, &[2, 3], 2);
    let mut none = ring_of(0, &[]);
    assert_eq!(none.push_back(1), Some(1));
    assert_ring(&none, &[], 0);
}

#[test]
fn a_ring_keeps_its_items_in_order() {
    let mut dice = Dice(1);
    for capacity in 0..6 {
        let (mut ring, mut items, mut capacity) = (ring_of(capacity, &[]), Vec::new(), capacity);
        for turn in 0..2000 {
            match dice.below(40) {
                0..20 => {
                    items.push(turn);
                    let leaves = (items.len() > capacity).then(|| items.remove(0));
                    assert_eq!(ring.push_back(turn), leaves);
                }
                20..28 => assert_eq!(ring.pop_front(), (!items.is_empty()).then(|| items.remove(0))),
                28..36 => assert_eq!(ring.pop_back(), items.pop()),
                36..38 => {
                    let len = dice.below(7);
                    ring.truncate_front(len);
                    items.drain(..items.len().saturating_sub(len));
                }
                38 => {
                    capacity = items.len() + dice.below(3);
                    assert_eq!(ring.resize(capacity), Ok(()));
                }
                _ => {
                    ring.clear();
                    items.clear();
                }
            }
            assert_ring(&ring, &items, capacity);
        }
    }
}

#[test]
fn a_ring_that_is_resized_has_memory_for_all_or_is_as_before() {
    let mut ring = ring_of(2, &[1, 2]);
    for capacity in [usize::MAX, isize::MAX as usize] {
        assert_eq!(ring.resize(capacity), Err(AllocError));
        assert_ring(&ring, &[1, 2], 2);
    }
    assert_eq!(refused(|| ring.resize(50)), Err(AllocError));
    assert_ring(&ring, &[1, 2], 2);
    assert_eq!(ring.push_back(3), Some(1));
    assert_eq!(ring.resize(50), Ok(()));
    without_memory(|| (4..52).for_each(|item| assert_eq!(ring.push_back(item), None)));
    assert_ring(&ring, &(2..52).collect::<Vec<_>>(), 50);
    assert_eq!(ring.push_back(52), Some(2));
    ring.truncate_front(3);
    assert_eq!(without_memory(|| ring.resize(4)), Ok(()));
    assert_ring(&ring, &[50, 51, 52], 4);
}

/// A slab as a map, with the keys that are vacant, of which the last is the next.
#[derive(Default)]
struct Keys {
    values: BTreeMap<usize, usize>,
    vacant: Vec<usize>,
    given: usize,
}

impl Keys {
    fn next(&self) -> usize {
        self.vacant.last().copied().unwrap_or(self.given)
    }

    fn assert_same(&self, slab: &mut Slab<usize>) {
        for key in 0..self.given + 2 {
            let mut value = self.values.get(&key).copied();
            assert_eq!(slab.get(key), value.as_ref(), "key {key}");
            assert_eq!(slab.get_mut(key), value.as_mut(), "key {key}");
        }
        assert_eq!((slab.len(), slab.vacant_key()), (self.values.len(), self.next()));
        assert_eq!(slab.get(slab.vacant_key()), None);
    }
}

#[test]
fn a_slab_has_each_value_under_its_key() {
    let mut dice = Dice(2);
    let mut slab = without_memory(|| Slab::new(Global));
    let mut keys = Keys::default();
    keys.assert_same(&mut slab);
    for turn in 0..3000 {
        let key = dice.below(keys.given + 2);
        match dice.below(5) {
            0 | 1 => {
                let next = keys.next();
                let was_vacant = keys.vacant.pop().is_some();
                keys.given += usize::from(!was_vacant);
                keys.values.insert(next, turn);
                let mut insert = || slab.insert(turn);
                assert_eq!(if was_vacant { without_memory(insert) } else { insert() }, Ok(next));
            }
            2 | 3 => {
                let value = keys.values.remove(&key);
                assert_eq!(slab.try_remove(key), value);
                keys.vacant.extend(value.map(|_| key));
            }
            _ => {
                if let Some(value) = slab.get_mut(key) {
                    *value = turn;
                    keys.values.insert(key, turn);
                }
            }
        }
        keys.assert_same(&mut slab);
    }
    assert!(keys.given > 20);
}

#[test]
fn a_slab_without_memory_gives_a_value_back_and_is_as_before() {
    let mut slab = Slab::new(Global);
    let mut keys = Keys::default();
    let mut times_refused = 0;
    for turn in 0..100 {
        let (inserted, was_refused) = refusing(0, || slab.insert(turn));
        if was_refused {
            times_refused += 1;
            assert_eq!(inserted, Err(turn));
            keys.assert_same(&mut slab);
            assert_eq!(slab.insert(turn), Ok(turn));
        } else {
            assert_eq!(inserted, Ok(turn));
        }
        keys.values.insert(turn, turn);
        keys.given += 1;
        keys.assert_same(&mut slab);
    }
    assert!(times_refused > 1);
}

#[test]
fn a_slab_with_room_for_values_takes_them_without_memory_under_keys_below_it() {
    for (kept, gone, more) in [(0, 0, 5), (3, 0, 4), (4, 2, 1), (4, 2, 10), (0, 6, 3)] {
        let mut slab = Slab::new(Global);
        (0..kept + gone).for_each(|value| assert_eq!(slab.insert(value), Ok(value)));
        (kept..kept + gone).for_each(|key| assert_eq!(slab.try_remove(key), Some(key)));
        let next = slab.vacant_key();
        for additional in [usize::MAX, isize::MAX as usize] {
            assert_eq!(slab.reserve_exact(additional), Err(AllocError));
        }
        assert_eq!(slab.reserve_exact(more), Ok(()));
        assert_eq!((slab.len(), slab.vacant_key()), (kept, next));
        let room = slab.capacity();
        assert!(kept + more <= room);
        for value in kept..room {
            let key = without_memory(|| slab.insert(value)).expect("room");
            assert!(key < room);
        }
        assert_eq!((slab.len(), slab.capacity()), (room, room));
        assert_eq!(refused(|| slab.reserve_exact(1)), Err(AllocError));
        assert_eq!(without_memory(|| slab.reserve_exact(0)), Ok(()));
    }
}

fn list_of(items: &[usize]) -> rattle::Vec<usize> {
    let mut list = rattle::Vec::new(Global);
    items.iter().for_each(|item| assert_eq!(list.push(*item), Ok(())));
    list
}

#[test]
fn a_list_finds_memory_for_its_capacity_or_is_not_made() {
    for capacity in [0, 1, 5, 100] {
        let mut list = rattle::Vec::with_capacity(Global, capacity).expect("memory");
        assert_eq!(list.as_slice(), &[0usize; 0]);
        without_memory(|| (0..capacity).for_each(|item| assert_eq!(list.push(item), Ok(()))));
        assert_eq!(list.as_slice(), (0..capacity).collect::<Vec<_>>());
        let mut list = rattle::Vec::with_capacity(Global, capacity).expect("memory");
        without_memory(|| (0..capacity).for_each(|item| assert_eq!(list.insert(0, item), Ok(()))));
        assert_eq!(list.as_slice(), (0..capacity).rev().collect::<Vec<_>>());
    }
    for capacity in [usize::MAX, isize::MAX as usize] {
        assert_eq!(rattle::Vec::<u64>::with_capacity(Global, capacity), Err(AllocError));
    }
    assert_eq!(refused(|| rattle::Vec::<u64>::with_capacity(Global, 1)), Err(AllocError));
    assert_eq!(without_memory(|| rattle::Vec::<u64>::with_capacity(Global, 0)), Ok(rattle::Vec::new(Global)));
}

#[test]
fn a_list_without_memory_gives_an_item_back_and_stays() {
    for is_inserted in [false, true] {
        let mut times_refused = 0;
        let mut list = rattle::Vec::new(Global);
        for item in 0..100 {
            let before = list.as_slice().to_vec();
            let (ended, was_refused) = refusing(0, || if is_inserted { list.insert(0, item) } else { list.push(item) });
            assert_eq!(ended, if was_refused { Err(item) } else { Ok(()) });
            if was_refused {
                times_refused += 1;
                assert_eq!(list.as_slice(), before);
                assert_eq!(list.push(item), Ok(()));
            }
            assert_eq!(list.len(), item + 1);
        }
        assert!(times_refused > 1);
        assert_eq!(refused(|| list.clone()), Err(AllocError));
    }
}

#[test]
fn a_list_has_its_items_in_order() {
    for at in 0..=3 {
        let (mut list, mut items) = (list_of(&[0, 1, 2]), vec![0, 1, 2]);
        assert_eq!(list.insert(at, 9), Ok(()));
        items.insert(at, 9);
        assert_eq!(list.as_slice(), items);
        assert_eq!((list.remove(at), list.as_slice()), (9, &[0, 1, 2][..]));
        if at < 3 {
            assert_eq!(list.remove(at), at);
        }
    }
    let mut list = list_of(&[4, 5]);
    assert_eq!(list.push(6), Ok(()));
    assert_eq!((list.pop(), list.as_slice(), list.len(), list[1]), (Some(6), &[4, 5][..], 2, 5));
    list[0] = 7;
    assert_eq!(((&list).into_iter().copied().collect::<Vec<_>>(), list.clone()), (vec![7, 5], Ok(list_of(&[7, 5]))));
    assert_eq!((list.clone() == Ok(list_of(&[7])), list.into_iter().collect::<Vec<_>>()), (false, vec![7, 5]));
    let mut list = list_of(&[1]);
    list.clear();
    assert_eq!((list.pop(), list.as_slice()), (None, &[0usize; 0][..]));
}

#[test]
fn memory_is_from_one_place() {
    let (ring, list) = (ring_of(1, &[]), list_of(&[]));
    let Global = *ring.allocator();
    let Global = *list.allocator();
}
