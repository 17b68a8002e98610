//! Samples of long lists of cases.

use std::{
    collections::{BTreeMap, BTreeSet, HashSet},
    hash::Hash,
};

use cases::Numbers;

/// A case whose size and subjects count when samples are taken.
pub trait Sampled {
    /// How many bytes it takes in the file.
    fn size(&self) -> usize;
    /// What it is about: rules and refusals; 0 for neither.
    fn groups(&self) -> BTreeSet<u32>;
}

/// How often one tree is mended at most.
pub const MOST_MENDED: usize = 40;

/// The cases in their order, each once.
pub fn none_twice<T: Clone + Eq + Hash>(mut cases: Vec<T>) -> Vec<T> {
    let mut held = HashSet::new();
    cases.retain(|case| held.insert(case.clone()));
    cases
}

/// The list in another order, which a fixed seed gives.
pub fn shuffled<T>(mut list: Vec<T>) -> Vec<T> {
    let mut numbers = Numbers(0x2545_F491_4F6C_DD1D);
    for at in (1..list.len()).rev() {
        list.swap(at, numbers.below(at as u32 + 1) as usize);
    }
    list
}

/// One of each list by turns, until all are at their end.
pub fn by_turns<T>(lists: Vec<Vec<T>>) -> Vec<T> {
    let mut lists: Vec<_> = lists.into_iter().map(Vec::into_iter).collect();
    let longest = lists.iter().map(ExactSizeIterator::len).max().unwrap_or(0);
    (0..longest)
        .flat_map(|_| {
            lists
                .iter_mut()
                .filter_map(Iterator::next)
                .collect::<Vec<_>>()
        })
        .collect()
}

/// Cases of `pool` of at most so many bytes, such that each subject is that of
/// about as many of them: the one that is behind takes its next case, again
/// and again.
pub fn even<T: Sampled>(pool: Vec<T>, mut bytes: usize) -> Vec<T> {
    let mut waiting: BTreeMap<u32, Vec<usize>> = BTreeMap::new();
    for (index, case) in pool.iter().enumerate().rev() {
        for group in case.groups() {
            waiting.entry(group).or_default().push(index);
        }
    }
    let mut counts: BTreeMap<u32, usize> = waiting.keys().map(|&group| (group, 0)).collect();
    let mut taken = BTreeSet::new();
    while let Some((&group, _)) = counts.iter().min_by_key(|(_, &count)| count) {
        let Some(index) = waiting.get_mut(&group).and_then(Vec::pop) else {
            counts.remove(&group);
            continue;
        };
        if pool[index].size() > bytes {
            break;
        }
        if taken.insert(index) {
            bytes -= pool[index].size();
            for group in pool[index].groups() {
                counts.entry(group).and_modify(|count| *count += 1);
            }
        }
    }
    let picked = pool.into_iter().enumerate();
    picked
        .filter(|(index, _)| taken.contains(index))
        .map(|(_, case)| case)
        .collect()
}

#[cfg(test)]
mod tests {
    use super::*;

    #[test]
    fn turns() {
        let lists = vec![vec![1, 2, 3], vec![], vec![4], vec![5, 6]];
        assert_eq!(by_turns(lists), [1, 4, 5, 2, 6, 3]);
        let mut list = shuffled((0..100).collect());
        assert!(!list.is_sorted());
        list.sort_unstable();
        assert!(list.into_iter().eq(0..100));
    }
}
