//! A proof record that is given apart from a wallet's text: two numbers for each
//! node, a credential and a middle in turn, separated by spaces, commas or line
//! ends. A middle may be written as the name that the wallet has for it.

use bwlchareg::Number;

use crate::decimal::decimal;
use crate::mistake::{quoted, Mistake, Place};
use crate::parse::decoded;
use crate::parse::numbering::Sort;
use crate::parse::query;
use crate::parse::reader::Word;
use crate::tokens::is_name;
use crate::Wallet;

/// Reads a record about a wallet, or tells its first mistake. Whether it proves
/// anything is not looked at here.
pub fn record(wallet: &Wallet, text: &[u8]) -> Result<Vec<Number>, Mistake> {
    let text = text.strip_prefix("\u{FEFF}".as_bytes()).unwrap_or(text);
    let mut record = Vec::new();
    // A comma after which nothing has come yet.
    let mut comma = None;
    for (line, bytes) in (1..).zip(text.split(|byte| *byte == b'\n')) {
        for (column, piece) in pieces(decoded(line, bytes)?) {
            let (place, next) = (Place { line, column }, record.len() + 1);
            if piece != "," {
                record.push(number(wallet, piece, place, next)?);
                comma = None;
            } else if record.is_empty() || comma.replace(place).is_some() {
                return Err(missing(place, next));
            }
        }
    }
    match comma {
        Some(place) => Err(missing(place, record.len() + 1)),
        None => Ok(record),
    }
}

/// The words and commas of a line, with their columns.
fn pieces(line: &str) -> Vec<(usize, &str)> {
    let mut pieces = Vec::new();
    // The word that has begun: its column and its first byte.
    let mut word = None;
    let ends = line.char_indices().chain([(line.len(), ' ')]);
    for (column, (byte, character)) in (1..).zip(ends) {
        if character != ',' && !character.is_whitespace() {
            word.get_or_insert((column, byte));
            continue;
        }
        if let Some((column, begin)) = word.take() {
            pieces.push((column, &line[begin..byte]));
        }
        if character == ',' {
            pieces.push((column, ","));
        }
    }
    pieces
}

/// The number that a word of a record stands for, which is the one at this
/// place of the record, counted from 1.
fn number(wallet: &Wallet, word: &str, place: Place, at: usize) -> Result<Number, Mistake> {
    if let Some(number) = decimal(word).and_then(|number| Number::try_from(number).ok()) {
        return Ok(number);
    }
    let wrong = format!("{} is not a number from 0 to 65535", quoted(word));
    let (what, read) = match at % 2 {
        1 => {
            let instead = "write the number of a credential";
            ("credential", Err(place.mistake(wrong, instead)))
        }
        _ if is_name(word) => {
            let text = word.to_string();
            let principal = query::number(&wallet.names, Sort::Principal, &Word { text, place });
            ("middle", principal)
        }
        _ => {
            let instead = "write one, or the name of a principal";
            ("middle", Err(place.mistake(wrong, instead)))
        }
    };
    read.map_err(|mistake| Mistake {
        message: format!("number {at} of the record, a {what}: {}", mistake.message),
        ..mistake
    })
}

/// The mistake that a number is missing beside a comma.
fn missing(comma: Place, at: usize) -> Mistake {
    comma.mistake(
        format_args!("number {at} of the record is missing beside a comma"),
        "write it, or leave out the comma",
    )
}

#[cfg(test)]
mod tests {
    use super::{pieces, record};
    use crate::parse::parse;
    use bwlchareg::Number;

    /// Reads a record about a wallet with the principals Shop, School and Éva-1.
    fn read(text: impl AsRef<[u8]>) -> Result<Vec<Number>, String> {
        let wallet = "Shop.rest <- Shop.accredited.student\nprincipals School = 2, Éva-1 = 64\n";
        let wallet = parse(wallet.as_bytes()).expect("a wallet");
        record(&wallet, text.as_ref()).map_err(|mistake| mistake.to_string())
    }

    #[test]
    fn pieces_have_their_columns() {
        let expected = [(2, "1"), (3, ","), (5, "é2"), (8, "3"), (9, ",")];
        assert_eq!(pieces(" 1, é2\t3,"), expected);
        assert_eq!(pieces(",,"), [(1, ","), (2, ",")]);
        assert_eq!(pieces(" \r"), []);
    }

    #[test]
    fn numbers_are_separated_by_spaces_commas_or_line_ends() {
        for text in [
            "1 2 65535",
            " 1 , 2,\t65535 ",
            "1\n2\n\n65535\n",
            "1 2\r\n65535\r\n",
            "1,\n2\n,65535",
            "\u{FEFF}001 2 0065535",
        ] {
            assert_eq!(read(text), Ok(vec![1, 2, 65535]), "{text:?}");
        }
        for text in ["", "\n\r\n\t ", "\u{FEFF}"] {
            assert_eq!(read(text), Ok(vec![]), "{text:?}");
        }
    }

    #[test]
    fn a_middle_may_be_a_name() {
        assert_eq!(read("1,Shop,\n2 Éva-1"), Ok(vec![1, 1, 2, 64]));
        assert_eq!(read("65535 School"), Ok(vec![65535, 2]));
    }

    #[test]
    fn mistakes_are_told_with_their_places() {
        let cases = r"
            1 65536 :: line 1, column 3: number 2 of the record, a middle: `65536` RANGE one, or the name of a principal
            1 2; :: line 1, column 3: number 2 of the record, a middle: `2;` RANGE one, or the name of a principal
            1 in :: line 1, column 3: number 2 of the record, a middle: `in` RANGE one, or the name of a principal
            -1 :: line 1, column 1: number 1 of the record, a credential: `-1` RANGE the number of a credential
            1 2\n Shop :: line 2, column 2: number 3 of the record, a credential: `Shop` RANGE the number of a credential
            1 school :: line 1, column 3: number 2 of the record, a middle: `school` is not a principal of the wallet; write one of its principals: `School`, `Shop`, `Éva-1`
            1 0 2 rest :: line 1, column 7: number 4 of the record, a middle: `rest` is a role name of the wallet, not a principal; write one of its principals: `Shop`, `Éva-1`, `School`
            1,,2 :: line 1, column 3: number 2 of the record COMMA
            ,1 :: line 1, column 1: number 1 of the record COMMA
            1\n,\n,2 :: line 3, column 1: number 2 of the record COMMA
            1, 2,\n :: line 1, column 5: number 3 of the record COMMA";
        let comma = "is missing beside a comma; write it, or leave out the comma";
        for case in cases.lines().skip(1) {
            let (text, told) = case.trim_start().split_once(" :: ").expect("a mistake");
            let told = told.replace("RANGE", "is not a number from 0 to 65535; write");
            let expected = Err(told.replace("COMMA", comma));
            assert_eq!(read(text.replace("\\n", "\n")), expected, "{text}");
        }
        let byte = "line 1, column 3: the byte 0xE9 is not UTF-8; write the text as UTF-8";
        assert_eq!(read(b"\xef\xbb\xbf\xc3\xa9 \xe9"), Err(byte.to_string()));
    }
}
