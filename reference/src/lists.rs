//! Lists of duty sets. A set is its number; a list has its sets in ascending order, none containing another one.

pub const MOST_SETS: usize = 32;

pub type Set = u32;

#[derive(Clone, PartialEq, Eq, PartialOrd, Ord, Debug)]
pub struct List(Vec<Set>);

#[derive(Clone, Copy, PartialEq, Eq, Debug)]
pub struct TooWide;

/// A list, or that one was too wide on the way to it.
pub type Width = Result<List, TooWide>;

impl List {
    /// What asks for nothing.
    pub fn met() -> List {
        List(vec![0])
    }

    /// What cannot be met.
    pub fn lost() -> List {
        List(Vec::new())
    }

    pub fn duty(number: usize) -> List {
        List(vec![1 << number])
    }

    pub fn is_lost(&self) -> bool {
        self.0.is_empty()
    }

    pub fn sets(&self) -> &[Set] {
        &self.0
    }
}

pub fn or(left: &Width, right: &Width) -> Width {
    let (left, right) = (left.as_ref().map_err(|_| TooWide)?, right.as_ref().map_err(|_| TooWide)?);
    smallest(left.0.iter().chain(&right.0).copied().collect())
}

pub fn and(left: &Width, right: &Width) -> Width {
    let (left, right) = (left.as_ref().map_err(|_| TooWide)?, right.as_ref().map_err(|_| TooWide)?);
    smallest(left.0.iter().flat_map(|a| right.0.iter().map(move |b| a | b)).collect())
}

/// Keeps the sets that contain no other one. Sets with fewer duties come first, so a set is kept for good.
fn smallest(mut sets: Vec<Set>) -> Width {
    sets.sort_unstable_by_key(|set| (set.count_ones(), *set));
    let mut kept: Vec<Set> = Vec::new();
    for set in sets {
        if !kept.iter().any(|small| small & set == *small) {
            kept.push(set);
        }
        if kept.len() > MOST_SETS {
            return Err(TooWide);
        }
    }
    kept.sort_unstable();
    Ok(List(kept))
}
