//! Cuts down an input on which two programs differ, part by part.

use std::io;
use std::time::{Duration, Instant};

/// An input is cut down for so long at most.
const PATIENCE: Duration = Duration::from_secs(30);
/// A list is tried without each of about so many chunks of one size.
const MOST_CHUNKS: usize = 128;

/// Cuts down lists of parts as long as `differs` says that the two programs differ on them.
pub struct Shrinker<F> {
    differs: F,
    deadline: Instant,
}

impl<F: Fn(&[Vec<u8>]) -> io::Result<bool>> Shrinker<F> {
    pub fn new(differs: F) -> Shrinker<F> {
        Shrinker { differs, deadline: Instant::now() + PATIENCE }
    }

    /// The fewest parts found that still differ, each as simple as `simpler` makes it.
    pub fn shortest(
        &self,
        mut parts: Vec<Vec<u8>>,
        simpler: impl Fn(&[u8]) -> Vec<Vec<u8>>,
    ) -> io::Result<Vec<Vec<u8>>> {
        loop {
            let fewer = self.remove(parts)?;
            parts = self.simplify(fewer.clone(), &simpler)?;
            // Simpler parts may make others needless.
            if parts == fewer || !self.in_time() {
                return Ok(parts);
            }
        }
    }

    fn in_time(&self) -> bool {
        Instant::now() < self.deadline
    }

    /// Removes chunks of parts, from halves to single ones, as long as the two still differ.
    fn remove(&self, mut parts: Vec<Vec<u8>>) -> io::Result<Vec<Vec<u8>>> {
        let mut size = parts.len().div_ceil(2);
        loop {
            let before = parts.len();
            let mut start = 0;
            while start < parts.len() && self.in_time() {
                let end = (start + size).min(parts.len());
                let fewer = [&parts[..start], &parts[end..]].concat();
                if (self.differs)(&fewer)? {
                    parts = fewer;
                } else {
                    start = end;
                }
            }
            if size <= 1 && parts.len() == before {
                return Ok(parts);
            }
            size = size.div_ceil(2);
        }
    }

    /// Puts simpler parts in the place of parts, as long as the two still differ.
    fn simplify(
        &self,
        mut parts: Vec<Vec<u8>>,
        simpler: &impl Fn(&[u8]) -> Vec<Vec<u8>>,
    ) -> io::Result<Vec<Vec<u8>>> {
        let mut place = 0;
        while place < parts.len() {
            match self.simpler_part(&parts, place, simpler)? {
                Some(part) => parts[place] = part,
                None => place += 1,
            }
        }
        Ok(parts)
    }

    fn simpler_part(
        &self,
        parts: &[Vec<u8>],
        place: usize,
        simpler: &impl Fn(&[u8]) -> Vec<Vec<u8>>,
    ) -> io::Result<Option<Vec<u8>>> {
        let mut changed = parts.to_vec();
        for part in simpler(&parts[place]) {
            if !self.in_time() {
                break;
            }
            changed[place] = part;
            if (self.differs)(&changed)? {
                return Ok(Some(changed.swap_remove(place)));
            }
        }
        Ok(None)
    }
}

/// The list without one of its chunks, from the whole down to single items or to chunks of which a
/// long list has many.
pub fn without_chunks<T: Clone>(list: &[T]) -> Vec<Vec<T>> {
    let mut shorter = Vec::new();
    let mut size = list.len();
    while size > list.len() / MOST_CHUNKS {
        for start in (0..list.len()).step_by(size) {
            let end = (start + size).min(list.len());
            shorter.push([&list[..start], &list[end..]].concat());
        }
        size /= 2;
    }
    shorter
}
