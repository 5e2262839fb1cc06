//! A credential's line: `A.r <- D`, `A.r <- B.s`, `A.r <- A.s.t` or
//! `A.r <- B.s & C.t`, at the end `at cell 1` and `under c`.

use crate::limits::PARTS;
use crate::mistake::{quoted, Mistake};
use crate::parse::line::{cell_number, role};
use crate::parse::reader::{Numeral, Reader};
use crate::parse::statement::{BodyWords, RoleWords, Statement};

/// Reads the line.
pub fn read(mut reader: Reader) -> Result<Statement, Mistake> {
    let defined = role(&mut reader)?;
    reader.expect("<-")?;
    let body = body(&mut reader, &defined)?;
    let under = match reader.passes("under") {
        true => Some(reader.name("a constraint")?),
        false => None,
    };
    if reader.is_at("at") {
        let (wrong, instead) = match body {
            BodyWords::Parts(..) => ("`at cell` follows `under`", "write it before `under`"),
            _ => (
                "only an intersection of 2 to 4 roles has part cells",
                "leave out `at cell`",
            ),
        };
        return Err(reader.place().mistake(wrong, instead));
    }
    reader.end()?;
    Ok(Statement::Credential(defined, body, under))
}

/// What follows the arrow, but for `under`.
fn body(reader: &mut Reader, defined: &RoleWords) -> Result<BodyWords, Mistake> {
    let first = reader.name("a principal or a role's owner")?;
    if !reader.passes(".") {
        return match reader.is_at("&") {
            true => Err(first.place.mistake(
                format_args!("{} is a principal, not a role", quoted(&first.text)),
                "write roles on both sides of `&`, like `B.s & C.t`",
            )),
            false => Ok(BodyWords::Member(first)),
        };
    }
    let name = reader.name("a role name")?;
    let role = RoleWords { owner: first, name };
    if reader.is_at(".") {
        linked(reader, role, defined)
    } else if reader.is_at("&") {
        parts(reader, role)
    } else {
        Ok(BodyWords::Contained(role))
    }
}

/// A linked role, from its second dot on.
fn linked(
    reader: &mut Reader,
    first: RoleWords,
    defined: &RoleWords,
) -> Result<BodyWords, Mistake> {
    reader.pass();
    let second = reader.name("a role name")?;
    if reader.is_at(".") {
        return Err(reader.place().mistake(
            "a linked role has an owner and two names",
            "define a role for the first step in another credential, and link to that",
        ));
    }
    if reader.is_at("&") {
        return Err(linked_part(reader));
    }
    if first.owner.text != defined.owner.text {
        let own = &defined.owner.text;
        let (name, second) = (&first.name.text, &second.text);
        return Err(first.owner.place.mistake(
            format_args!(
                "a linked role belongs to the owner of the role before the arrow, {}",
                quoted(own)
            ),
            format_args!("write {}", quoted(&format!("{own}.{name}.{second}"))),
        ));
    }
    Ok(BodyWords::Linked(first, second))
}

/// An intersection, from its first `&` on.
fn parts(reader: &mut Reader, first: RoleWords) -> Result<BodyWords, Mistake> {
    let mut roles = vec![first];
    while reader.is_at("&") {
        if roles.len() == *PARTS.end() {
            return Err(reader.place().mistake(
                "an intersection has at most 4 roles",
                "define a role for some of them in another credential, and use that here",
            ));
        }
        reader.pass();
        if roles.len() < *PARTS.start() && reader.next().is_none() {
            return Err(reader.place().mistake(
                "an intersection has at least 2 roles",
                "write another role after `&`, or leave out `&`",
            ));
        }
        roles.push(role(reader)?);
        if reader.is_at(".") {
            return Err(linked_part(reader));
        }
    }
    let cell = at_cell(reader)?;
    Ok(BodyWords::Parts(roles, cell))
}

/// The mistake that a linked role stands beside `&`.
fn linked_part(reader: &Reader) -> Mistake {
    reader.place().mistake(
        "a linked role cannot be part of an intersection",
        "define a role for it in another credential, and use that here",
    )
}

/// `at cell 1`, if it is there.
fn at_cell(reader: &mut Reader) -> Result<Option<Numeral>, Mistake> {
    if !reader.passes("at") {
        return Ok(None);
    }
    reader.expect("cell")?;
    cell_number(reader).map(Some)
}
