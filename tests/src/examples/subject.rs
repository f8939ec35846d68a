//! Subject lines, as order 14 of document 02 has them.

use super::{gives, refuses, Group, Reading, Writing};

pub fn readings() -> Vec<Group<Reading>> {
    let aaa = |count: usize, rest: &[u8]| [b"=?utf-7?Q?", &vec![b'a'; count][..], rest].concat();
    let lines = vec![
        gives("an empty line", b"", &[]),
        gives("a space and a pair", b"=?utf-7?Q?a_b=3F?=", &[0x61, 0x20, 0x62, 0x3F]),
        gives("a run ends with its word", b"=?utf-7?Q?+AKM?=\r\n =?utf-7?Q?a?=", &[0xA3, 0x61]),
        gives("a surrogate pair in two words", b"=?utf-7?Q?+2D0-?=\r\n =?utf-7?Q?+3gk-?=", &[0xD83D, 0xDE09]),
        gives("pairs for any byte", b"=?utf-7?Q?=61=2BAK=4D?=", &[0x61, 0xA3]),
        gives("63 characters", &aaa(63, b"?="), &[0x61; 63]),
        gives("a pair to the 63rd", &aaa(60, b"=61?="), &[0x61; 61]),
    ];
    let words = vec![
        refuses("a 64th character", &aaa(64, b"?="), 21, 73),
        refuses("a pair past the 63rd", &aaa(61, b"=61?="), 21, 71),
        refuses("an empty word", b"=?utf-7?Q??=", 21, 10),
        refuses("a capital", b"=?UTF-7?Q?a?=", 21, 2),
        refuses("a small q", b"=?utf-7?q?a?=", 21, 8),
        refuses("a bare space behind a word", b"=?utf-7?Q?a?= ", 21, 13),
        refuses("no space between words", b"=?utf-7?Q?a?=\r\n=?utf-7?Q?a?=", 21, 15),
        refuses("nothing behind the space", b"=?utf-7?Q?a?=\r\n ", 21, 16),
        refuses("a bare byte over 127", b"=?utf-7?Q?a\x80?=", 21, 11),
        refuses("a bare space", b"=?utf-7?Q?+ ?=", 21, 11),
        refuses("a small hex digit", b"=?utf-7?Q?a=8b?=", 21, 13),
        refuses("no hex digit", b"=?utf-7?Q?a==?=", 21, 12),
        refuses("an early end, where 2 would be", b"=?utf-7?Q?+", 21, 11),
        refuses("an early end in a pair", b"=?utf-7?Q?a=8", 21, 13),
    ];
    let own = vec![
        refuses("1 at a pair's `=`", b"=?utf-7?Q?a=80?=", 1, 11),
        refuses("1 before a later 21", b"=?utf-7?Q?a=80 ?=", 1, 11),
        refuses("2 at a word's `?`, before 21 behind it", b"=?utf-7?Q?+??", 2, 11),
        refuses("3 at the byte", b"=?utf-7?Q?a~?=", 3, 11),
        refuses("4 at a pair's `=`", b"=?utf-7?Q?+AKN=2E?=", 4, 14),
        refuses("4 at a word's `?`", b"=?utf-7?Q?+AKN?=", 4, 14),
    ];
    vec![
        Group { name: "lines", what: "lines that are accepted", examples: lines },
        Group { name: "words", what: "bad words", examples: words },
        Group { name: "own", what: "the reader's own numbers, at the place in the line", examples: own },
    ]
}

pub fn writings() -> Vec<Group<Writing>> {
    let units = |count: usize, rest: &[u32]| [&vec![0x61; count][..], rest].concat();
    let line = |count: usize, rest: &[u8]| [b"=?utf-7?Q?", &vec![b'a'; count][..], rest].concat();
    let spellings = vec![
        gives("no units", &[], b""),
        gives("blanks", &[0x61, 0x20, 0x3F, 0x0D, 0x0A, 0x09], b"=?utf-7?Q?a_=3F=0D=0A=09?="),
        gives("a sign and a run", &[0x2B, 0x2E, 0x3D], b"=?utf-7?Q?+-.+AD0-?="),
        refuses("no unit", &[0xFFFF, 0x10000], 10, 1),
    ];
    let shares = vec![
        gives("64 units", &units(64, &[]), &line(63, b"?=\r\n =?utf-7?Q?a?=")),
        gives("a surrogate pair that fits", &units(55, &[0xD83D, 0xDE09]), &line(55, b"+2D3eCQ-?=")),
        gives("one that does not", &units(58, &[0xD83D, 0xDE09]), &line(58, b"?=\r\n =?utf-7?Q?+2D3eCQ-?=")),
        gives("half of one", &units(58, &[0xD83D, 0x61]), &line(58, b"+2D0-?=\r\n =?utf-7?Q?a?=")),
    ];
    vec![
        Group { name: "spellings", what: "how units are spelled", examples: spellings },
        Group { name: "shares", what: "how units are shared among words", examples: shares },
    ]
}
