//! Pairs of pages under construction.

use super::draft::{Case, Draft};

/// Pages, and which of them are compared. A page can serve in several pairs.
pub struct Pairs {
    pages: Vec<Case>,
    /// Places in `pages`, that of the older first.
    pairs: Vec<(usize, usize)>,
}

impl Pairs {
    pub fn new() -> Pairs {
        Pairs {
            pages: Vec::new(),
            pairs: Vec::new(),
        }
    }

    /// Adds a page and says its place.
    pub fn page(&mut self, page: Case) -> usize {
        self.pages.push(page);
        self.pages.len() - 1
    }

    /// Adds a pair of pages by their places.
    pub fn pair(&mut self, older: usize, newer: usize) {
        self.pairs.push((older, newer));
    }

    /// Two pages, each as the older once.
    pub fn both_ways(&mut self, one: usize, other: usize) {
        self.pair(one, other);
        self.pair(other, one);
    }

    pub fn pages(&self) -> &[Case] {
        &self.pages
    }

    /// The pairs in order, older and newer.
    pub fn pairs(&self) -> impl Iterator<Item = (&Case, &Case)> {
        let pairs = self.pairs.iter();
        pairs.map(move |&(older, newer)| (&self.pages[older], &self.pages[newer]))
    }
}

/// A good page of one with these identifiers. The other values of a descriptor
/// go with its identifier, wherever it stands.
pub fn holding(identifiers: &[u32]) -> Draft {
    let mut draft = Draft::list(1, identifiers.len() as u32);
    for (k, &identifier) in identifiers.iter().enumerate() {
        draft = draft
            .identifier(k, identifier)
            .element_type(k, 0x01)
            .health(k, (identifier % 0xD0) as u8)
            .capacity(k, u64::from(identifier) + 7);
    }
    draft
}
