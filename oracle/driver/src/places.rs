//! Books that do not read, with the place of the fault (document 02 a): every
//! kind of item there is, missing, cut and wrong.

use crate::cases::seal;
use crate::stop::Refusal;

pub struct Placed {
    pub name: String,
    pub bytes: Vec<u8>,
    pub refusal: Refusal,
}

/// Faults of the contents; then faults of bodies, each body alone, before
/// another one and behind another one.
pub fn places() -> Vec<Placed> {
    let contents = rows(CONTENTS).map(|[row, name]| {
        let (bytes, at) = marked(row);
        Placed {
            name: name.to_string(),
            bytes,
            refusal: Refusal { code: 3, at },
        }
    });
    let deep = deep();
    let bodies = rows(BODIES).chain(rows(&deep)).flat_map(among_others);
    contents.chain(bodies).collect()
}

/// The rows of a table; lines that are none are left out.
fn rows<const COLUMNS: usize>(table: &str) -> impl Iterator<Item = [&str; COLUMNS]> {
    table.lines().filter_map(|line| {
        let cells: Vec<&str> = line.split('|').map(str::trim).collect();
        cells.try_into().ok()
    })
}

fn among_others([kind, code, row, name]: [&str; 4]) -> [Placed; 3] {
    let [kind, code] = [kind, code].map(|digit| hex(digit).iter().sum::<u8>());
    let (body, at) = marked(row);
    let faulty = || (kind, body.clone());
    let sound = || (3, vec![2, 0, b'a', b'b']);
    let placed = |among: &str, bodies: &[(u8, Vec<u8>)], before: usize| Placed {
        name: format!("{name}, {among}"),
        bytes: seal(bodies),
        refusal: Refusal {
            code,
            at: 2 + 6 * bodies.len() + before + at,
        },
    };
    [
        placed("alone", &[faulty()], 0),
        placed("before another body", &[faulty(), sound()], 0),
        placed("behind another body", &[sound(), faulty()], 4),
    ]
}

/// Bytes in hexadecimal, and the place of the mark `>` among them.
fn marked(row: &str) -> (Vec<u8>, usize) {
    let (before, behind) = row.split_once('>').unwrap_or((row, ""));
    let at = hex(before).len();
    ([hex(before), hex(behind)].concat(), at)
}

fn hex(text: &str) -> Vec<u8> {
    let digits: Vec<u8> = text
        .chars()
        .filter_map(|digit| Some(digit.to_digit(16)? as u8))
        .collect();
    let byte = |pair: &[u8]| pair.iter().fold(0, |byte, digit| 16 * byte + digit);
    digits.chunks(2).map(byte).collect()
}

/// A book, `>` before the item at fault; its name. All of them are 3.
const CONTENTS: &str = "
>                                                  | no bytes
>00                                                | half a count
>0102                                              | a count of 513
>FFFF 0300 0800 0000                               | a count of 65535
0100 >                                             | no entry
0100 >0200 0800 00                                 | an entry cut
0200 >0300 0E00                                    | an entry cut, of two
0200 >0300 0E00 0500                               | a second entry that is not there
0100 >0000 0800 0200 0000                          | kind 0
0100 >0500 0800 0200 0000                          | kind 5
0100 >0301 0800 0200 0000                          | a second byte of 1
0100 >0300 0700 0200 0000                          | an offset too small
0100 >0300 0900 0200 0000                          | an offset too large
0100 >0300 0800 0300 0000                          | a range past the end
0100 >0300 0800 FFFF 0000                          | a range past all books
0200 0300 0E00 0200 >0900 1000 0200 0000 0000      | a second entry's kind
0200 0300 0E00 0200 >03FF 1000 0200 0000 0000      | a second entry's second byte
0200 0300 0E00 0200 >0300 0E00 0200 0000 0000      | a second entry's offset
0200 0300 0E00 0200 >0300 1000 0300 0000 0000      | a second entry's range
0200 >0000 0E00 0200 0000 1000 0200 0000 0000      | the first of two bad entries
0200 0200 0E00 0400 >0900 1200 0200 012E 0000 0000 | a second entry before the first body's name
0000 >00                                           | a byte behind no definitions
0100 0300 0800 0200 0000 >0000                     | bytes behind the last body
0100 0200 0800 0400 012E 0000 >09                  | a byte behind the last body before that body's name
";

/// Kind and code; a body, `>` before the item at fault; its name.
const BODIES: &str = "
3 | 3 | >                                            | a text that is not there
3 | 3 | >00                                          | half a text's length
3 | 3 | >0300 6162                                   | a text past its body
3 | 3 | 0000 >00                                     | a byte behind a text
3 | 3 | 0100 61 >0100 61                             | bytes behind a text

2 | 3 | >                                            | a constant's name that is not there
2 | 3 | >02 61                                       | a constant's name past its body
2 | 3 | >03 FFFF                                     | a cut name that is not UTF-8
2 | 4 | >02 61FF 0000                                | a constant's name that is not UTF-8
2 | 4 | >03 612E62 0000                              | a constant's name with '.'
2 | 4 | >01 2E                                       | a name with '.' and no text behind it
2 | 3 | 01 61 >                                      | a constant's text that is not there
2 | 3 | 01 61 >02                                    | half a constant's text's length
2 | 3 | 01 61 >0200 61                               | a constant's text past its body
2 | 3 | 00 0000 >FF                                  | a byte behind a constant

1 | 3 | >                                            | a format's name that is not there
1 | 3 | >FF 6D                                       | a format's name past its body
1 | 4 | >01 2E 0000 0D0000 00                        | a format's name with '.'
1 | 3 | 00 >                                         | no count of parameters
1 | 3 | 00 >01                                       | half a count of parameters
1 | 3 | 00 0100 >                                    | a parameter that is not there
1 | 4 | 00 0100 >01 2E 0D0000 0D0000 00              | a parameter with '.'
1 | 4 | 00 0900 01 6E 0D0000 >01 80                  | a second parameter's name
1 | 3 | 00 0100 01 6E >                              | a type that is not there
1 | 3 | 00 0100 01 6E >00 0000                       | a type's tag
1 | 3 | 00 0100 01 6E 01 >0500 75                    | a type's text

1 | 3 | 00 0000 >                                    | a tag that is not there
1 | 3 | 00 0000 >00 0000 00                          | tag 0
1 | 3 | 00 0000 >11 0000 00                          | tag 17
1 | 3 | 00 0000 >FF                                  | tag 255
1 | 3 | 00 0000 0D >                                 | a leaf's text that is not there
1 | 3 | 00 0000 06 >00                               | half a leaf's text's length
1 | 3 | 00 0000 0B >0400 616263                      | a leaf's text past its body
1 | 3 | 00 0000 0D0000 >                             | no chain flag
1 | 3 | 00 0000 0D0000 >02                           | a chain flag of 2
1 | 3 | 00 0000 0D0000 >FF 0D0000 00                 | a chain flag of 255
1 | 3 | 00 0000 0D0000 01 >                          | a chained tag that is not there
1 | 3 | 00 0000 0D0000 01 >00 0000 00                | a chained tag
1 | 3 | 00 0000 0D0000 01 0D0000 >02                 | a chained one's chain flag
1 | 3 | 00 0000 0D0000 00 >0000                      | bytes behind a format

1 | 3 | 00 0000 04 >                                 | no count of fields
1 | 3 | 00 0000 04 >01                               | half a count of fields
1 | 3 | 00 0000 04 0100 >                            | a field kind that is not there
1 | 3 | 00 0000 04 0100 >00 00 0D0000 00 00          | field kind 0
1 | 3 | 00 0000 04 0100 >04 00 0D0000 00 00          | field kind 4
1 | 3 | 00 0000 04 0200 01 00 0D0000 00 >09          | a second field's kind
1 | 3 | 00 0000 04 0100 01 >                         | a label that is not there
1 | 3 | 00 0000 04 0100 02 >05 61                    | a label past its body
1 | 4 | 00 0000 04 0100 01 >01 2E 0D0000 00 00       | a label with '.'
1 | 4 | 00 0000 04 0100 02 >01 FF 0D0000 00 00       | a Dependent's label
1 | 4 | 00 0000 04 0100 03 >02 C080 0000 00          | a Const's label
1 | 3 | 00 0000 04 0100 03 00 >                      | a Const's text that is not there
1 | 3 | 00 0000 04 0100 03 00 >0100                  | a Const's text past its body
1 | 3 | 00 0000 04 0100 01 00 >                      | a field's tag that is not there
1 | 3 | 00 0000 04 0100 02 00 >11 0000 00 00         | a field's tag
1 | 3 | 00 0000 04 0100 01 00 0D0000 >03 00          | a field's chain flag
1 | 3 | 00 0000 04 0000 >                            | a struct's chain flag

1 | 3 | 00 0000 05 >0100                             | a Wrap's first text
1 | 3 | 00 0000 05 0000 >00                          | a Wrap's tag
1 | 3 | 00 0000 05 0000 0D0000 00 >                  | a Wrap's second text, not there
1 | 3 | 00 0000 05 0000 0D0000 00 >0200 00           | a Wrap's second text

1 | 3 | 00 0000 07 >                                 | a selector flag that is not there
1 | 3 | 00 0000 07 >02 01 0000 00                    | a selector flag of 2
1 | 3 | 00 0000 07 01 >                              | a selector that is not there
1 | 3 | 00 0000 07 01 >05 6E                         | a selector past its body
1 | 4 | 00 0000 07 01 >02 6EFF 01 0000 00            | a selector that is not UTF-8
1 | 3 | 00 0000 07 00 >                              | a case kind that is not there
1 | 3 | 00 0000 07 00 >00 0000 00                    | case kind 0
1 | 3 | 00 0000 07 01 03 6E2E78 >04 0000 00          | case kind 4 behind a selector with '.'
1 | 3 | 00 0000 07 00 01 >                           | no count of cases
1 | 3 | 00 0000 07 00 02 >00                         | half a count of cases
1 | 3 | 00 0000 07 00 01 0100 >                      | a case's label that is not there
1 | 4 | 00 0000 07 00 01 0100 >01 2E 0D0000 00 00    | a case's label with '.'
1 | 3 | 00 0000 07 00 02 0100 >0100                  | an Ints case's text
1 | 3 | 00 0000 07 00 03 0100 >01                    | an Arrays case's text
1 | 3 | 00 0000 07 00 02 0100 0000 >00 00            | a case's tag
1 | 4 | 00 0000 07 00 01 0200 00 0D0000 00 >01 2E    | a second case's label

1 | 3 | 00 0000 08 >                                 | a Vec's tag that is not there
1 | 3 | 00 0000 0C >12 0000 00 00                    | an Option's tag
1 | 3 | 00 0000 09 >01                               | half a count of an Array's roots
1 | 4 | 00 0000 09 0100 >03 6E2E78 0000 0D0000 00 00 | an Array's root with '.'
1 | 3 | 00 0000 09 0000 >0900                        | an Array's text
1 | 3 | 00 0000 09 0000 0000 >                       | an Array's tag that is not there
1 | 3 | 00 0000 0A >                                 | no count of roots
1 | 4 | 00 0000 0A 0200 01 6E >01 FF 0000 00         | a second root
1 | 3 | 00 0000 0A 0100 >03 6E                       | a root past its body
1 | 3 | 00 0000 0A 0000 >                            | a length's text that is not there

1 | 3 | 00 0000 0F >                                 | a called name that is not there
1 | 4 | 00 0000 0F >01 2E 0000 00                    | a called name with '.'
1 | 3 | 00 0000 0F 00 >01                            | half a count of arguments
1 | 3 | 00 0000 0F 00 0200 01 6E >                   | a second argument that is not there
1 | 4 | 00 0000 0F 00 0100 >01 C3 00                 | an argument that is not UTF-8
1 | 3 | 00 0000 0F 00 0100 03 6E2E78 >05             | a chain flag behind an argument with '.'
1 | 4 | 00 0000 10 >01 2E 0000 00                    | a called macro's name with '.'
1 | 3 | 00 0000 10 00 >                              | no count of macro arguments
1 | 3 | 00 0000 10 00 0100 >                         | a macro argument that is not there
1 | 3 | 00 0000 10 00 0200 0D0000 >00 00             | a second macro argument's tag

4 | 4 | >01 2E 0000 0D0000 00                        | a macro's name with '.'
4 | 3 | 00 0100 >                                    | a macro's parameter that is not there
4 | 4 | 00 0300 >01 2E                               | 4 among parameters whose count is too high
4 | 3 | 00 0100 01 61 0D0000 >02                     | a macro's chain flag
";

/// The same of formats with a tag at level 65, or where one would stand.
fn deep() -> String {
    let row = |code: u8, before: &str, level: &str, tag: &str, name: &str| {
        format!("1 | {code} | {before}{}{tag} | {name}\n", level.repeat(64))
    };
    [
        row(5, "000000", "08", ">0D", "a tag at level 65"),
        row(5, "000000", "0C", ">0D0000 00", "the same with its text"),
        row(5, "000100 016E", "08", ">01", "a type at level 65"),
        row(5, "000000", "10000100", ">10", "an argument at level 65"),
        row(5, "000000", "0D000001", ">06", "a chain at level 65"),
        row(3, "000000", "08", ">11", "an unknown tag at level 65"),
        row(3, "000000", "08", ">", "no tag at level 65"),
    ]
    .concat()
}
