//! Names that are too long to be shown again and again, shortened.

use std::collections::BTreeMap;

use crate::names::Names;
use crate::rows::width;
use crate::Wallet;

/// Names of more characters than this are shortened.
pub const LONGEST: usize = 120;
/// So many characters remain at the front, and so many at the end.
const FRONT: usize = 70;
const END: usize = 40;

/// A wallet whose long names are shortened in their middle.
pub fn with_short_names(wallet: &Wallet) -> Wallet {
    let names = &wallet.names;
    Wallet {
        names: Names {
            principals: all_short(&names.principals),
            roles: all_short(&names.roles),
            constraints: all_short(&names.constraints),
            states: all_short(&names.states),
        },
        ..wallet.clone()
    }
}

fn all_short<Key: Clone + Ord>(names: &BTreeMap<Key, String>) -> BTreeMap<Key, String> {
    let names = names.iter();
    let short = names.map(|(key, name)| (key.clone(), short(name)));
    short.collect()
}

/// A name, or its front and its end.
fn short(name: &str) -> String {
    let count = width(name);
    if count <= LONGEST {
        return name.to_string();
    }
    let front: String = name.chars().take(FRONT).collect();
    let end: String = name.chars().skip(count - END).collect();
    format!("{front}\u{2026}{end}")
}
