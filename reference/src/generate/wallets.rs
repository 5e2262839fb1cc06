//! Wallets: tables in which a query has minimal sets, often several.
//!
//! A wallet is built from the goal down. A credential is added for a goal that
//! is asked for, and asks for further goals; some goals get several. Roles are
//! put on levels, and a credential asks only for roles of higher levels than
//! its own. So no role comes twice on a branch, and every such credential is
//! used in some derivation: it bears on the query. Other credentials, which
//! define roles that nothing asks for, are mixed in.

use crate::generate::{constraints, policies};
use crate::query::{Query, DEEPEST};
use crate::random::Random;
use crate::records::{CellRecord, CredentialRecord, Head, Records};
use crate::Number;

/// So many roles are tried for a premise.
const TRIES: usize = 4;

/// A table with a query.
#[derive(Clone, Debug, PartialEq, Eq)]
pub struct Wallet {
    /// The table as written.
    pub records: Records,
    /// The query.
    pub query: Query,
}

/// What a wallet is to be like.
#[derive(Clone, Copy, Debug, PartialEq, Eq)]
pub struct Plan {
    /// How many credentials bear on the query, at least 1.
    pub bearing: Number,
    /// How many others there are; 20 with the former at most.
    pub others: Number,
    /// Which numbers the others get.
    pub place: Place,
}

/// Which numbers the credentials get that do not bear on the query.
#[derive(Clone, Copy, Debug, PartialEq, Eq)]
pub enum Place {
    /// The lowest.
    Low,
    /// The highest.
    High,
    /// Any.
    Anywhere,
}

impl Place {
    /// Every place that there is.
    pub const ALL: [Place; 3] = [Place::Low, Place::High, Place::Anywhere];
}

/// A wallet of any size, often with automata, and a depth limit for which some
/// derivations may be too deep.
pub fn made_up(random: &mut Random) -> Wallet {
    let limit = Head::LIMITS.credentials;
    let size = if random.one_in(2) {
        limit
    } else {
        random.between(1, limit)
    };
    of_size(random, size)
}

/// A wallet of so many credentials, a third to all of which bear on the query,
/// often with automata.
pub fn of_size(random: &mut Random, size: Number) -> Wallet {
    let bearing = random.between(size.div_ceil(3), size);
    let plan = Plan {
        bearing,
        others: size - bearing,
        place: Place::Anywhere,
    };
    let mut wallet = planned(random, plan);
    constraints::attach(random, &mut wallet.records);
    wallet
}

/// A wallet by plan, without automata. The depth limit is that of the deepest
/// goal, or at times another.
pub fn planned(random: &mut Random, plan: Plan) -> Wallet {
    let mut draft = Draft::new(random);
    draft.fill(random, plan.bearing);
    let others = (0..plan.others).map(|_| draft.other(random)).collect();
    let levels = draft.levels();
    let depth = match random.below(4) {
        0 => DEEPEST,
        1 => random.between(1, levels),
        _ => levels,
    };
    let (principal, (owner, name)) = draft.asked[0].goal;
    let query = Query {
        principal,
        owner,
        name,
        depth,
    };
    let credentials = mixed(random, draft.credentials, others, plan.place);
    let records = Records {
        credentials,
        cells: draft.cells,
        automata: Vec::new(),
        edges: Vec::new(),
    };
    Wallet { records, query }
}

/// All credentials, those that bear on the query in any order.
fn mixed(
    random: &mut Random,
    mut bearing: Vec<CredentialRecord>,
    others: Vec<CredentialRecord>,
    place: Place,
) -> Vec<CredentialRecord> {
    random.shuffle(&mut bearing);
    match place {
        Place::Low => [others, bearing].concat(),
        Place::High => [bearing, others].concat(),
        Place::Anywhere => {
            let mut all = [bearing, others].concat();
            random.shuffle(&mut all);
            all
        }
    }
}

/// A role's owner and name, as written.
type Role = (Number, Number);

/// A principal in a role, as written.
type Goal = (Number, Role);

/// A goal that is asked for, and its role's level.
#[derive(Clone, Copy)]
struct Asked {
    goal: Goal,
    level: Number,
    /// Whether a credential has been added for it.
    proved: bool,
}

/// A wallet in the making.
struct Draft {
    /// The principals, and the names of roles that may be asked for.
    principals: Vec<Number>,
    names: Vec<Number>,
    /// Names of which no role is asked for.
    other_names: Vec<Number>,
    /// Whether the goal asked for last mostly asks for the next one, so that
    /// derivations become deep.
    tall: bool,
    credentials: Vec<CredentialRecord>,
    cells: Vec<CellRecord>,
    /// The goals that are asked for, the query's first.
    asked: Vec<Asked>,
}

impl Draft {
    /// A draft in which one goal is asked for.
    fn new(random: &mut Random) -> Draft {
        let tall = random.one_in(4);
        let principals = policies::distinct(random, 6);
        let mut names = policies::distinct(random, 10);
        let other_names = names.split_off(7);
        let goal = (principals[0], (principals[1], names[0]));
        let asked = Asked {
            goal,
            level: 1,
            proved: false,
        };
        Draft {
            principals,
            names,
            other_names,
            tall,
            credentials: Vec::new(),
            cells: Vec::new(),
            asked: vec![asked],
        }
    }

    /// The highest level of a role.
    fn levels(&self) -> Number {
        let levels = self.asked.iter().map(|asked| asked.level);
        levels.max().unwrap_or(1)
    }

    /// Adds credentials until there are so many and every goal has one.
    fn fill(&mut self, random: &mut Random, count: Number) {
        while self.credentials.len() < count as usize {
            let left = count as usize - self.credentials.len();
            let open = self.asked.iter().filter(|asked| !asked.proved).count();
            let index = self.chosen(random, left == open);
            let still_open = open - usize::from(!self.asked[index].proved);
            self.asked[index].proved = true;
            self.add(random, self.asked[index], left - 1 - still_open);
        }
    }

    /// The index of a goal for a new credential: one that has none, if need
    /// be, and mostly if there is one.
    fn chosen(&self, random: &mut Random, needed: bool) -> usize {
        let all = 0..self.asked.len();
        let open: Vec<usize> = all.filter(|&index| !self.asked[index].proved).collect();
        let again = random.one_in(if self.tall { 12 } else { 2 });
        if needed || (!open.is_empty() && !again) {
            *random.pick(&open)
        } else {
            random.below(self.asked.len())
        }
    }

    /// Adds a credential for a goal, which may ask for at most so many goals
    /// that nothing has asked for yet. Kind 1 asks for none.
    fn add(&mut self, random: &mut Random, asked: Asked, new: usize) {
        let before = (self.asked.len(), self.cells.len());
        let added = match random.below(8) {
            0..=6 if self.tall => self.all_of(random, asked),
            0 => None,
            1 | 2 => self.all_of(random, asked),
            3 | 4 => self.linked(random, asked),
            _ => self.in_every(random, asked),
        };
        let (principal, (owner, name)) = asked.goal;
        let (kind, first, second) = match added {
            Some(added) if self.asked.len() <= before.0 + new => added,
            _ => {
                self.asked.truncate(before.0);
                self.cells.truncate(before.1);
                (1, principal, 0)
            }
        };
        self.credentials.push([owner, name, kind, first, second, 0]);
    }

    /// Kind 2: whoever is in another role.
    fn all_of(&mut self, random: &mut Random, asked: Asked) -> Option<(Number, Number, Number)> {
        let role = self.premise(random, asked.goal.0, asked.level, None)?;
        Some((2, role.0, role.1))
    }

    /// Kind 3: by way of some middle.
    fn linked(&mut self, random: &mut Random, asked: Asked) -> Option<(Number, Number, Number)> {
        let (principal, (owner, _)) = asked.goal;
        let middle = *random.pick(&self.principals);
        let linking = self.premise(random, middle, asked.level, Some(owner))?;
        let linked = self.premise(random, principal, asked.level, Some(middle))?;
        Some((3, linking.1, linked.1))
    }

    /// Kind 4: two to four parts, if there is room for so many cells.
    fn in_every(&mut self, random: &mut Random, asked: Asked) -> Option<(Number, Number, Number)> {
        let parts = random.between(2, 4);
        let first = self.cells.len() as Number + 1;
        if first + parts > Head::LIMITS.cells {
            return None;
        }
        for part in 1..=parts {
            let role = self.premise(random, asked.goal.0, asked.level, None)?;
            let next = if part == parts {
                0
            } else {
                self.cells.len() as Number + 2
            };
            self.cells.push([role.0, role.1, next]);
        }
        Some((4, first, 0))
    }

    /// A role of a higher level in which a principal is asked to be, and which
    /// this owner owns if one is named.
    fn premise(
        &mut self,
        random: &mut Random,
        principal: Number,
        level: Number,
        owner: Option<Number>,
    ) -> Option<Role> {
        let fits = |asked: &&Asked| {
            let (member, role) = asked.goal;
            let owned = owner.is_none_or(|owner| owner == role.0);
            member == principal && asked.level > level && owned
        };
        let known: Vec<Role> = self.asked.iter().filter(fits).map(|a| a.goal.1).collect();
        if !known.is_empty() && random.one_in(2) {
            return Some(*random.pick(&known));
        }
        let owner = owner.unwrap_or(*random.pick(&self.principals));
        let names = [0; TRIES].map(|_| *random.pick(&self.names));
        let mut roles = names.into_iter().map(|name| (owner, name));
        roles.find_map(|role| self.ask((principal, role), level))
    }

    /// Asks for a goal from a level, and tells its role. There is nothing to
    /// tell if the role is not of a higher level, or would be too deep.
    fn ask(&mut self, goal: Goal, from: Number) -> Option<Role> {
        let same_role = self.asked.iter().find(|asked| asked.goal.1 == goal.1);
        let level = same_role.map_or(from + 1, |asked| asked.level);
        if level <= from || level > DEEPEST {
            return None;
        }
        if !self.asked.iter().any(|asked| asked.goal == goal) {
            self.asked.push(Asked {
                goal,
                level,
                proved: false,
            });
        }
        Some(goal.1)
    }

    /// A credential that defines a role for which nothing asks, and itself asks
    /// for any roles.
    fn other(&mut self, random: &mut Random) -> CredentialRecord {
        let [owner, other] = [0; 2].map(|_| *random.pick(&self.principals));
        let name = *random.pick(&self.other_names);
        let all = [&self.names[..], &self.other_names].concat();
        let [first, second] = [0; 2].map(|_| *random.pick(&all));
        let cell = self.cells.len() as Number + 1;
        let room = cell < Head::LIMITS.cells;
        match random.below(4) {
            0 => [owner, name, 2, other, first, 0],
            1 => [owner, name, 3, first, second, 0],
            2 if room => {
                self.cells
                    .extend([[owner, first, cell + 1], [other, second, 0]]);
                [owner, name, 4, cell, 0, 0]
            }
            _ => [owner, name, 1, other, 0, 0],
        }
    }
}
