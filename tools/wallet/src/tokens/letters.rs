//! The characters of names: letters, marks on letters and joiners between them.
//! Names that look the same must be written with the same characters.

use std::collections::BTreeMap;
use std::sync::LazyLock;

const NON_JOINER: char = '\u{200C}';
const JOINER: char = '\u{200D}';

/// Whether a character is a letter of some script.
pub fn is_letter(character: char) -> bool {
    character.is_alphabetic() && !is_mark(character) && !is_blank(character)
}

/// Whether a character is a mark on the one before it, and takes no column of
/// its own. The standard library has no test for these, but escapes them, as
/// extended grapheme code points, at the beginning of a text only.
pub fn is_mark(character: char) -> bool {
    is_escaped(character) && is_seen(character)
}

/// Whether a character is escaped at the beginning of a text. In names only
/// marks and joiners are.
fn is_escaped(character: char) -> bool {
    !character.is_ascii() && character.escape_debug().len() > 1
}

/// Whether a character shows something, other than a space or a control.
pub fn is_seen(character: char) -> bool {
    let unescaped = || format!("x{character}").escape_debug().count() == 2;
    match character.is_ascii() {
        true => character.is_ascii_graphic(),
        false => !is_blank(character) && unescaped(),
    }
}

/// Whether a letter or mark is a filler, or only chooses another's shape.
fn is_blank(character: char) -> bool {
    matches!(
        character,
        '\u{34F}' | '\u{115F}' | '\u{1160}' | '\u{17B4}' | '\u{17B5}' | '\u{180B}'..='\u{180F}'
            | '\u{3164}' | '\u{FE00}'..='\u{FE0F}' | '\u{FFA0}' | '\u{16FE4}'
            | '\u{E0100}'..='\u{E01EF}'
    )
}

/// Whether a character is a joiner or a non-joiner.
pub fn is_joiner(character: char) -> bool {
    matches!(character, NON_JOINER | JOINER)
}

/// How many characters the name has that these begin with.
pub fn name_width(characters: &[char]) -> usize {
    match characters {
        [first, ..] if is_letter(*first) => (1..).find(|&at| !goes_on(characters, at)).unwrap_or(1),
        _ => 0,
    }
}

/// Whether a character other than a mark may be within a name.
pub fn is_inner(character: char) -> bool {
    is_letter(character) || character.is_ascii_digit() || character == '_'
}

/// Whether a name goes on at a place after its first character.
fn goes_on(characters: &[char], at: usize) -> bool {
    let (before, after) = (characters[at - 1], characters.get(at + 1).copied());
    match characters.get(at).copied() {
        Some('-') => after.is_some_and(is_inner),
        Some(NON_JOINER) if is_arabic(before) => after.is_some_and(is_arabic),
        Some(NON_JOINER | JOINER) => is_virama(before),
        Some(mark) if is_mark(mark) => is_letter(before) || is_mark(before),
        Some(character) => is_inner(character),
        None => false,
    }
}

/// Whether a character is an Arabic letter or a mark on one.
fn is_arabic(character: char) -> bool {
    let block = matches!(character, '\u{620}'..='\u{6FF}' | '\u{750}'..='\u{77F}');
    block && (is_letter(character) || is_mark(character))
}

/// Whether a character is the virama of one of the ten Indic scripts whose
/// letters take joiners.
fn is_virama(character: char) -> bool {
    let code = u32::from(character);
    (0x900..0xD80).contains(&code) && code % 0x80 == 0x4D || code == 0xDCA
}

/// Whether two names look the same and have other characters: the same letters
/// with the same marks, in one character or several, in any order, and with or
/// without joiners.
pub fn alike(one: &str, other: &str) -> bool {
    one != other && !one.is_ascii() && !other.is_ascii() && apart(one) == apart(other)
}

/// The letters and marks of a name one by one, the marks of a letter in order.
fn apart(name: &str) -> Vec<char> {
    let mut characters = Vec::new();
    for character in name.chars().filter(|character| !is_joiner(*character)) {
        take_apart(character, &mut characters);
    }
    for letter in characters.chunk_by_mut(|_, next| is_escaped(*next)) {
        letter[1..].sort_unstable();
    }
    characters
}

/// Adds the letters and marks that a character is made of.
fn take_apart(character: char, into: &mut Vec<char>) {
    if let Some((letter, mark)) = MADE_OF.get(&character) {
        take_apart(*letter, into);
        return into.push(*mark);
    }
    let letters = match u32::from(character).wrapping_sub(0xAC00) {
        // A Korean syllable is made of two letters or three, in numerical order.
        syllable @ 0..11172 => [
            Some(0x1100 + syllable / 588),
            Some(0x1161 + syllable % 588 / 28),
            Some(0x11A7 + syllable % 28).filter(|last| *last > 0x11A7),
        ],
        _ => [Some(u32::from(character)), None, None],
    };
    into.extend(letters.into_iter().flatten().filter_map(char::from_u32));
}

/// The letter and the mark that each character of the table is made of.
static MADE_OF: LazyLock<BTreeMap<char, (char, char)>> = LazyLock::new(|| {
    let capital = |small: char| match small.to_uppercase().collect::<Vec<_>>()[..] {
        [capital] => capital,
        _ => small,
    };
    let mut made_of = BTreeMap::new();
    for group in TABLE.split(' ') {
        let group: Vec<char> = group.chars().collect();
        for pair in group[1..].chunks(2) {
            made_of.insert(capital(pair[1]), (capital(pair[0]), group[0]));
            made_of.insert(pair[1], (pair[0], group[0]));
        }
    }
    made_of
});

/// Marks, each with pairs: a letter, and the character that is this letter with
/// the mark. These are all that Unicode has in Latin, Greek (with one accent),
/// Cyrillic and kana, but for capitals.
const TABLE: &str = "\
    \u{300}aàeèiìoòuùüǜnǹēḕōṑwẁâầăằêềôồơờưừyỳеѐиѝ \u{301}aáeéiíoóuúyýcćlĺnńrŕsśzźüǘgǵåǻæǽøǿçḉēḗ\
    ïḯkḱmḿõṍōṓpṕũṹwẃâấăắêếôốơớưứϊΐαάεέηήιίϋΰοόυύωώϒϓгѓкќ \u{302}aâeêiîoôuûcĉgĝhĥjĵsŝwŵyŷzẑạậẹệọộ \
    \u{303}aãnñoõiĩuũvṽâẫăẵeẽêễôỗơỡưữyỹ \u{304}aāeēiīoōuūüǖäǟȧǡæǣǫǭöȫõȭȯȱyȳgḡиӣуӯḷḹṛṝ \u{306}aă\
    eĕgğiĭoŏuŭȩḝийуўжӂаӑеӗạặ \u{307}cċeėgġIİzżaȧoȯbḃdḋfḟhḣmṁnṅpṗrṙsṡśṥšṧtṫwẇxẋyẏſẛṣṩ \u{308}aäeë\
    iïoöuüyÿhḧõṏūṻwẅxẍtẗιϊυϋϒϔеёіїаӓәӛжӝзӟиӥоӧөӫэӭуӱчӵыӹ \u{309}aảâẩăẳeẻêểiỉoỏôổơởuủưửyỷ \u{30a}aå\
    uůwẘyẙ \u{30b}oőuűуӳ \u{30c}cčdďeělľnňrřsštťzžaǎiǐoǒuǔüǚgǧkǩʒǯjǰhȟ \u{30f}aȁeȅiȉoȍrȑuȕѵѷ \
    \u{311}aȃeȇiȋoȏrȓuȗ \u{31b}oơuư \u{323}bḅdḍhḥkḳlḷmṃnṇrṛsṣtṭvṿwẉzẓaạeẹiịoọơợuụưựyỵ \u{324}uṳ \
    \u{325}aḁ \u{326}sștț \u{327}cçgģkķlļnņrŗsştţeȩdḑhḩ \u{328}aąeęiįuųoǫ \u{32d}dḓeḙlḽnṋtṱuṷ \
    \u{32e}hḫ \u{330}eḛiḭuṵ \u{331}bḇdḏkḵlḻnṉrṟtṯzẕhẖ \u{3099}かがきぎくぐけげこごさざしじすず\
    せぜそぞただちぢつづてでとどはばひびふぶへべほぼうゔゝゞカガキギクグケゲコゴサザシジスズセゼ\
    ソゾタダチヂツヅテデトドハバヒビフブヘベホボウヴワヷヰヸヱヹヲヺヽヾ \u{309a}はぱひぴふぷ\
    へぺほぽハパヒピフプヘペホポ";

#[cfg(test)]
mod tests {
    use super::{alike, is_letter, is_mark, is_seen, name_width, MADE_OF};

    fn is_whole(name: &str) -> bool {
        let characters: Vec<char> = name.chars().collect();
        name_width(&characters) == characters.len()
    }

    #[test]
    fn names_of_many_scripts() {
        let names = "été Cafe\u{301} x\u{323}\u{302}y Αθήνα Київ हिन्दी বাংলা தமிழ் తెలుగు മലയാളം ภาษาไทยที่นี่ \
            ລາວ ខ្មែរ မြန်မာ שָׁלוֹם مُحَمَّد አማርኛ 日本語 か\u{3099} 한국어 می\u{200C}خواهم ශ්\u{200D}රී क्\u{200C}ष";
        for name in names.split(' ') {
            assert!(is_whole(name), "{name}");
        }
        let others = "\u{301}a a1\u{301} a_\u{301} a-\u{301}b a\u{200D}b ab\u{200C} می\u{200C} क\u{200D}ष \
            क्\u{200D}\u{200D}ष a\u{FE0F} a\u{34F}\u{301} a\u{200B} a\u{202E}b a\u{3164} a\u{AD}b a\u{E0100} १";
        for other in others.split(' ') {
            assert!(!is_whole(other), "{}", other.escape_unicode());
        }
    }

    #[test]
    fn marks_and_what_is_seen() {
        assert!("\u{301}\u{93C}\u{94D}\u{5B8}\u{64E}\u{E48}"
            .chars()
            .all(is_mark));
        assert!(!"a1_é हद\u{200D}\u{FE0F}\u{34F}\n".contains(is_mark));
        assert!("a\"'\\é“←\u{301}".chars().all(is_seen));
        assert!(
            !" \t\u{A0}\u{7F}\u{85}\u{200B}\u{200D}\u{202E}\u{3164}\u{E0100}".contains(is_seen)
        );
    }

    #[test]
    fn names_that_look_alike() {
        for (one, other) in [
            ("Café", "Cafe\u{301}"),
            ("ẤẬİ", "A\u{302}\u{301}Â\u{323}I\u{307}"),
            ("Київ", "Киі\u{308}в"),
            ("ΐά", "ι\u{308}\u{301}α\u{301}"),
            ("パガ", "ハ\u{309A}カ\u{3099}"),
            ("한구", "\u{1112}\u{1161}\u{11AB}\u{1100}\u{116E}"),
            ("م\u{64E}\u{651}", "م\u{651}\u{64E}"),
            ("ශ්\u{200D}රී", "ශ්රී"),
        ] {
            assert!(alike(one, other) && alike(other, one), "{one}");
            assert!(!alike(one, one), "{one}");
        }
        for pair in [
            "Cafe Cafe\u{301}",
            "Café Cafè",
            "É é",
            "가 각",
            "é e\u{301}\u{301}",
        ] {
            let (one, other) = pair.split_once(' ').expect("two names");
            assert!(!alike(one, other), "{pair}");
        }
    }

    #[test]
    fn the_table_has_letters_and_marks() {
        // As many as Unicode has.
        assert_eq!(MADE_OF.len(), 629);
        for (made, (letter, mark)) in MADE_OF.iter() {
            assert!(
                is_letter(*made) && is_letter(*letter) && is_mark(*mark),
                "{made}"
            );
        }
    }
}
