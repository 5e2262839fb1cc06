//! What the library answers, as a JSON object.

use bwlchareg::Number;

use crate::answer::Answer;
use crate::derivation::Judged;
use crate::json::{Object, Value};
use crate::objects::{constraint, query, runs, set, unlisted};
use crate::why::names::name;
use crate::why::{By, KeptOff, Least, Lone, Near, Obstacle, Sort, Unmet, Why};
use crate::words::words;
use crate::Wallet;

/// The object of `why`.
pub fn object(wallet: &Wallet, why: &Why, object: Object) -> Object {
    let unmet = |all: &[Unmet]| all.iter().map(|own| unmet(wallet, own)).collect::<Value>();
    let lone = why.lone.iter().map(|own| lone(wallet, own));
    let mut object = object
        .with("query", query(wallet, why.query))
        .with_some("set_numbers", numbers(&why.answer))
        .with_some("refusal", unlisted(wallet, why.query, &why.answer))
        .with_some("least_depth", least(why.least))
        .with_some("least_depth_unconstrained", least(why.least_unconstrained));
    if let Some(own) = &why.deeper {
        let inner = Object::default()
            .with("depth", own.depth)
            .with("set_numbers", own.sets.clone());
        object = object.with("deeper", inner);
    }
    if let Some(own) = &why.unconstrained {
        let sets = own.kept_off.iter().map(|own| kept_off(wallet, own));
        let inner = Object::default()
            .with("more", own.is_cut)
            .with("set_numbers", own.sets.clone())
            .with("kept_off_count", own.kept_off_count)
            .with("kept_off", sets.collect::<Value>());
        object = object.with("unconstrained", inner);
    }
    object
        .with("undefined", unmet(&why.undefined))
        .with("missing", unmet(&why.missing))
        .with("lone", lone.collect::<Value>())
        .with("cut_short", why.cut_short)
}

/// The numbers of the sets of an answer.
fn numbers(answer: &Answer) -> Option<Vec<u32>> {
    match answer {
        Answer::Sets(sets) => Some(sets.clone()),
        Answer::Refused(_) => None,
    }
}

/// A least depth limit; 0 where there is none.
fn least(least: Option<Least>) -> Option<Number> {
    least.map(|least| match least {
        Least::At(depth) => depth,
        Least::Nowhere => 0,
    })
}

/// A set that constraints keep off the list.
fn kept_off(wallet: &Wallet, own: &KeptOff) -> Object {
    let shown = own
        .judged
        .as_ref()
        .map(|judged| (judged, words(wallet, judged)));
    let obstacle = |own: &Obstacle| {
        let object = match &shown {
            Some((judged, words)) => runs(wallet, judged, words, own.automaton, !own.rejects),
            None => constraint(wallet, own.automaton),
        };
        object.with("enough", own.is_enough)
    };
    let record = own.judged.as_ref().map(Judged::numbers);
    set(wallet, own.set).with_some("record", record).with(
        "constraints",
        own.obstacles.iter().map(obstacle).collect::<Value>(),
    )
}

/// A role that is asked for, and that credentials do not give.
fn unmet(wallet: &Wallet, own: &Unmet) -> Object {
    let by = |by: &By| match by {
        By::Query => Object::default()
            .with("query", true)
            .with_some("line", wallet.lines.query),
        By::Credential(number) => Object::default()
            .with("credential", *number)
            .with_some("line", wallet.lines.credential(*number)),
    };
    let members = own.others.iter();
    let members = members.map(|own| wallet.names.principal(*own));
    Object::default()
        .with("role", wallet.names.role(own.role))
        .with("asked_by", own.by.iter().map(by).collect::<Value>())
        .with("members", members.collect::<Value>())
}

/// A name that stands on one line only.
fn lone(wallet: &Wallet, lone: &Lone) -> Object {
    let sort = match lone.sort {
        Sort::Principal => "principal",
        Sort::RoleName => "role name",
    };
    let near = lone.near.as_ref().map(|Near { number, answer }| {
        let object = Object::default().with("text", name(wallet, lone.sort, *number));
        match answer {
            None => object,
            Some((asked, answer)) => object
                .with("query", query(wallet, *asked))
                .with_some("set_numbers", numbers(answer))
                .with_some("refusal", unlisted(wallet, *asked, answer)),
        }
    });
    Object::default()
        .with("text", name(wallet, lone.sort, lone.number))
        .with("sort", sort)
        .with_some("line", lone.line)
        .with_some("near", near)
}
