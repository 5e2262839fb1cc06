//! Proofs and where they are kept.
//!
//! They stand one after the other and name their sub-proofs by number, so that
//! millions of them take little room, and all of it is given back at once.

use reference::Number;

/// The number of a proof in its store.
pub type Id = u32;

/// A proof: a credential, and proofs of what it asks for. Which goal it proves
/// is told by where it stands.
#[derive(Clone, Copy)]
pub struct Proof {
    /// The number of the credential, and the middle.
    #[cfg_attr(not(test), allow(dead_code, reason = "only tests write proofs down"))]
    node: (Number, Number),
    /// Where the proofs of the premises are named, and how many they are.
    subproofs: (u32, u8),
    /// The used set: credential i counts 2^(i-1).
    pub used: u32,
    /// The automata of the used credentials: automaton i counts 2^(i-1).
    pub constraints: u8,
    /// The automata that reject one of the words.
    pub rejecting: u8,
}

impl Proof {
    /// A proof that has no sub-proofs yet, with the automaton of its credential
    /// and the automata that reject its word, if it ends one.
    pub fn new(credential: Number, middle: Number, constraints: u8, rejecting: u8) -> Proof {
        Proof {
            node: (credential, middle),
            subproofs: (0, 0),
            used: 1 << (credential - 1),
            constraints,
            rejecting,
        }
    }

    /// Makes another proof a part of this one.
    pub fn join(&mut self, subproof: &Proof) {
        self.used |= subproof.used;
        self.constraints |= subproof.constraints;
        self.rejecting |= subproof.rejecting;
    }
}

/// Where proofs are kept.
#[derive(Default)]
pub struct Store {
    proofs: Vec<Proof>,
    /// The sub-proofs of all of them.
    subproofs: Vec<Id>,
}

impl Store {
    /// The proof with this number.
    pub fn proof(&self, id: Id) -> &Proof {
        &self.proofs[id as usize]
    }

    /// Keeps a proof with these sub-proofs, at most four, and tells its number.
    pub fn keep(&mut self, mut proof: Proof, subproofs: &[Id]) -> Id {
        proof.subproofs = (self.subproofs.len() as u32, subproofs.len() as u8);
        self.subproofs.extend(subproofs);
        self.proofs.push(proof);
        self.proofs.len() as Id - 1
    }

    /// Adds the record of a proof to some numbers.
    #[cfg(test)]
    pub fn write(&self, id: Id, record: &mut Vec<Number>) {
        let Proof {
            node, subproofs, ..
        } = *self.proof(id);
        record.extend([node.0, node.1]);
        let first = subproofs.0 as usize;
        for &subproof in &self.subproofs[first..first + usize::from(subproofs.1)] {
            self.write(subproof, record);
        }
    }
}
