//! Lists that only grow at their ends, in a shared pool.
//!
//! Appending leaves all older lists as they are, so a copy of a list costs
//! nothing and shares what both have in common.

/// A list in a pool.
#[derive(Clone, Copy, Debug, PartialEq, Eq)]
pub struct Chain {
    last: u32,
    length: u32,
}

/// Before the first link of a list.
const NONE: u32 = u32::MAX;

impl Chain {
    pub const EMPTY: Chain = Chain {
        last: NONE,
        length: 0,
    };

    pub fn len(self) -> usize {
        self.length as usize
    }

    pub fn is_empty(self) -> bool {
        self.length == 0
    }
}

/// The links of many lists.
#[derive(Clone, Debug)]
pub struct Pool<T> {
    /// An element, and where the one before it is.
    links: Vec<(T, u32)>,
    /// The number of links at which unused ones are dropped next, and the least
    /// such number.
    full: usize,
    least: usize,
}

impl<T: Copy> Pool<T> {
    /// A pool that is tidied at so many links, or twice those in use.
    pub fn new(least: usize) -> Pool<T> {
        Pool {
            links: Vec::new(),
            full: least,
            least,
        }
    }

    /// Lets unused links be dropped as soon as there can be any.
    pub fn tidy_often(&mut self) {
        (self.full, self.least) = (0, 0);
    }

    pub fn append(&mut self, chain: &mut Chain, element: T) {
        let link = self.links.len() as u32;
        self.links.push((element, chain.last));
        chain.last = link;
        chain.length += 1;
    }

    /// Appends all elements of another list.
    pub fn append_all(&mut self, chain: &mut Chain, other: Chain) {
        if chain.is_empty() {
            *chain = other;
            return;
        }
        // Lists run from their ends: first as many links, then their elements.
        let first = self.links.len();
        let mut from = other.last;
        for _ in 0..other.len() {
            let element = self.links[from as usize].0;
            self.append(chain, element);
        }
        for link in (first..self.links.len()).rev() {
            let (element, before) = self.links[from as usize];
            self.links[link].0 = element;
            from = before;
        }
    }

    /// The elements of a list, the last one first.
    pub fn iter(&self, chain: Chain) -> impl Iterator<Item = &T> {
        self.newest(chain, chain.len())
    }

    /// The last `count` elements of a list, the last one first.
    pub fn newest(&self, chain: Chain, count: usize) -> impl Iterator<Item = &T> {
        let mut at = chain.last;
        (0..count).map(move |_| {
            let (element, before) = &self.links[at as usize];
            at = *before;
            element
        })
    }

    /// Whether it is time to drop links that no list uses.
    pub fn is_full(&self) -> bool {
        self.links.len() >= self.full
    }

    /// Drops all links but those of the lists given, which go on sharing.
    pub fn tidy<'a>(&mut self, chains: impl Iterator<Item = &'a mut Chain>) {
        let old = std::mem::take(&mut self.links);
        let mut moved = vec![NONE; old.len()];
        let mut due = Vec::new();
        for chain in chains {
            let mut at = chain.last;
            while at != NONE && moved[at as usize] == NONE {
                due.push(at as usize);
                at = old[at as usize].1;
            }
            let mut before = moved.get(at as usize).copied().unwrap_or(NONE);
            for link in due.drain(..).rev() {
                moved[link] = self.links.len() as u32;
                self.links.push((old[link].0, before));
                before = moved[link];
            }
            chain.last = before;
        }
        self.full = self.least.max(2 * self.links.len());
    }
}

/// Notes, of which the last few are kept.
#[derive(Clone, Debug)]
pub struct Notes<T> {
    kept: Vec<T>,
    /// How many were dropped before these.
    dropped: u64,
}

/// As many notes as are kept before all are dropped.
const NOTES: usize = 1 << 10;

impl<T> Notes<T> {
    pub fn new() -> Notes<T> {
        Notes {
            kept: Vec::new(),
            dropped: 0,
        }
    }

    pub fn note(&mut self, note: T) {
        if self.kept.len() == NOTES {
            self.dropped += NOTES as u64;
            self.kept.clear();
        }
        self.kept.push(note);
    }

    /// How many notes there were.
    pub fn count(&self) -> u64 {
        self.dropped + self.kept.len() as u64
    }

    /// The notes after the first `seen`, if they are kept.
    pub fn since(&self, seen: u64) -> Option<&[T]> {
        Some(&self.kept[seen.checked_sub(self.dropped)? as usize..])
    }
}

#[cfg(test)]
mod tests {
    use super::*;

    fn elements(pool: &Pool<u8>, chain: Chain) -> Vec<u8> {
        let mut elements: Vec<u8> = pool.iter(chain).copied().collect();
        elements.reverse();
        elements
    }

    #[test]
    fn lists_share_and_survive_tidying() {
        let mut pool = Pool::new(0);
        let mut a = Chain::EMPTY;
        for element in 1..4 {
            pool.append(&mut a, element);
        }
        let mut b = a;
        pool.append(&mut a, 4);
        pool.append(&mut b, 5);
        let mut c = Chain::EMPTY;
        pool.append_all(&mut c, a);
        pool.append_all(&mut c, b);
        pool.append_all(&mut c, Chain::EMPTY);
        let mut empty = Chain::EMPTY;
        for _ in 0..2 {
            assert_eq!(elements(&pool, a), [1, 2, 3, 4]);
            assert_eq!(elements(&pool, b), [1, 2, 3, 5]);
            assert_eq!(elements(&pool, c), [1, 2, 3, 4, 1, 2, 3, 5]);
            assert_eq!(pool.newest(c, 2).copied().collect::<Vec<_>>(), [5, 3]);
            assert!(elements(&pool, empty).is_empty());
            pool.tidy([&mut b, &mut empty, &mut c, &mut a].into_iter());
        }
        // 1, 2, 3 are shared by all; c goes on from a.
        assert_eq!(pool.links.len(), 3 + 1 + 1 + 4);
    }
}
