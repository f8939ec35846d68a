//! Examples of page files: that of the worked page of document 01, and files that are not quite it.

use std::fmt::{self, Display, Formatter};

use super::page::worked_page;
use crate::second::page::State;
use crate::second::{Answer, LIMIT};

/// A file, the lengths of the buffers that its reading is lent, and its answer.
pub struct Filed {
    pub name: &'static str,
    pub file: Vec<u8>,
    pub rooms: [usize; 3],
    pub answer: Answer,
}

/// A page, the bytes that it is kept with, the room, and the answer.
pub struct Keeping {
    pub name: &'static str,
    pub state: State,
    pub arrived: Vec<u8>,
    pub room: usize,
    pub answer: Answer,
}

impl Display for Filed {
    fn fmt(&self, f: &mut Formatter) -> fmt::Result {
        write!(f, "{}, \"{}\" read into {:?}", self.name, self.file.escape_ascii(), self.rooms)
    }
}

impl Display for Keeping {
    fn fmt(&self, f: &mut Formatter) -> fmt::Result {
        write!(f, "{}, kept with \"{}\" in {}", self.name, self.arrived.escape_ascii(), self.room)
    }
}

/// The file of the worked page of document 01, when the one cell at 1 is replaced and nothing was saved.
pub const WORKED: &str = "form=1
kind=utf7b
opening=00004
length=00004
used=00005
done=00005
saved=00000
arrived=412B496D49446B512E
text=000000410000003D000003910000002E
history=000000010000000100000001000022620000003D
";

/// The same in form 2, which was not due.
const WORKED_2: &str = "form=2
kind=utf7b
opening=0000004
length=0000004
used=0000005
done=0000005
saved=0000000
arrived=412B496D49446B512E
text=000000410000003D000003910000002E
history=000000010000000100000001000022620000003D
";

/// The bytes that it was opened on.
pub const ARRIVED: &[u8] = b"A+ImIDkQ.";

/// Its lists just fit these.
const ROOMS: [usize; 3] = [9, 4, 5];

/// The worked file with one part in the place of another.
fn with(part: &str, other: &str) -> Vec<u8> {
    replaced(WORKED, part, other)
}

fn replaced(file: &str, part: &str, other: &str) -> Vec<u8> {
    assert_eq!(file.matches(part).count(), 1, "{part}");
    file.replace(part, other).into_bytes()
}

fn read(name: &'static str, file: Vec<u8>, rooms: [usize; 3], number: u32, place: usize) -> Filed {
    Filed { name, file, rooms, answer: Answer { number, place } }
}

/// Readings of the worked file and of others.
pub fn readings() -> Vec<Filed> {
    bad_form().into_iter().chain(second_form()).chain(in_form()).collect()
}

/// Files that are in form, in the order of the numbers.
fn in_form() -> Vec<Filed> {
    let worked = || WORKED.as_bytes().to_vec();
    let given = |name, part, other, number, place| read(name, with(part, other), ROOMS, number, place);
    let undone = WORKED.replace("done=00005", "done=00000").replace("0000003D000003", "00002262000003").into_bytes();
    let over = [[LIMIT + 1, 0, 0], [0, LIMIT + 1, 0], [0, 0, LIMIT + 1]];
    let over = over.map(|rooms| read("a buffer over the limit, and no page file", b"x".to_vec(), rooms, 16, LIMIT));
    let rest = vec![
        read("the worked file", worked(), ROOMS, 0, 9),
        read("the worked file in longer buffers", worked(), [10, 7, 300], 0, 9),
        read("no room for anything", worked(), [0, 0, 0], 9, 9),
        read("no room for the arrived bytes", worked(), [8, 4, 5], 9, 9),
        read("no room for the text and the history", worked(), [9, 3, 4], 9, 4),
        read("no room for the history", worked(), [9, 4, 4], 9, 5),
        read("no room, and a page that is not sound", with("done=00005", "done=00004"), [9, 4, 4], 9, 5),
        given("done within a record", "done=00005", "done=00004", 14, 0),
        given("done past the records", "done=00005", "done=00006", 14, 0),
        given("an opening length over the text buffer", "opening=00004", "opening=65536", 14, 0),
        given("a mark within a record", "saved=00000", "saved=00003", 14, 0),
        given("a mark past the records", "saved=00000", "saved=65536", 14, 0),
        given("a mark at the end of a record", "saved=00000", "saved=00005", 0, 9),
        given("no mark", "saved=00000", "saved=none", 0, 9),
        given("no mark that is sound, and other bytes", "saved=00000\narrived=41", "saved=00001\narrived=7E", 14, 0),
        given("another style", "kind=utf7b", "kind=utf7h", 0, 9),
        given("another kind", "kind=utf7b", "kind=jp2", 15, 0),
        given("other bytes for as many cells, and a step stands", "412B496D49446B512E", "61626364", 0, 4),
        given("bytes for more cells", "412B496D49446B512E", "6162636465", 15, 0),
        given("bytes for fewer cells", "412B496D49446B512E", "616263", 15, 0),
        given("bytes that do not read", "412B496D49446B512E", "6162637E", 15, 0),
        given("no bytes", "412B496D49446B512E", "", 15, 0),
        given("a cell of another kind", "00000391", "FFFFFFFF", 0, 9),
        given("nothing stands, and the text is another", "done=00005", "done=00000", 15, 0),
        read("nothing stands, and the text is the reading", undone, ROOMS, 0, 9),
    ];
    over.into_iter().chain(rest).collect()
}

/// Files that are not in form: each fails at the first byte that no page file has there.
fn bad_form() -> Vec<Filed> {
    let bad = |name, part, other, place| read(name, with(part, other), ROOMS, 18, place);
    let all = |name, file: String, place| read(name, file.into_bytes(), ROOMS, 18, place);
    vec![
        all("nothing", String::new(), 0),
        all("no LF at the end", WORKED.trim_end().to_string(), 192),
        all("a LF more", format!("{WORKED}\n"), 193),
        all("the file twice", format!("{WORKED}{WORKED}"), 193),
        all("a mark of the encoding", format!("\u{FEFF}{WORKED}"), 0),
        bad("another form", "form=1", "form=3", 5),
        bad("form 2 with five digits", "form=1", "form=2", 31),
        bad("another form with more digits", "form=1", "form=10", 6),
        bad("CR before LF", "form=1\n", "form=1\r\n", 6),
        bad("a capital in a key", "kind", "Kind", 7),
        bad("another kind", "utf7b", "utf7c", 16),
        bad("a kind with capitals", "utf7b", "UTF7B", 12),
        bad("a mailbox name", "utf7b", "mailbox", 12),
        bad("a kind cut off", "utf7b", "utf7", 16),
        bad("a kind and more", "utf7b", "utf7bh", 17),
        bad("a space before a number", "opening=00004", "opening= 0004", 26),
        bad("a sign before a number", "opening=00004", "opening=+0004", 26),
        bad("four digits", "opening=00004", "opening=0004", 30),
        bad("six digits", "opening=00004", "opening=000004", 31),
        bad("a hex digit", "opening=00004", "opening=0000A", 30),
        bad("a number over the bound by its first digit", "opening=00004", "opening=70000", 26),
        bad("a number over the bound by its second digit", "opening=00004", "opening=66000", 27),
        bad("a number over the bound by its fourth digit", "opening=00004", "opening=65540", 29),
        bad("a number over the bound by its last digit", "opening=00004", "opening=65537", 30),
        bad("no number", "opening=00004", "opening=none", 26),
        bad("a mark that is no number", "saved=00000", "saved=nope", 75),
        bad("a mark and more", "saved=00000", "saved=nonee", 77),
        bad("a mark over the bound", "saved=00000", "saved=65537", 77),
        bad("no mark at all", "saved=00000", "saved=", 73),
        bad("a small hex digit", "arrived=412B", "arrived=412b", 90),
        bad("a space between bytes", "arrived=412B", "arrived=41 2B", 89),
        bad("half a byte", "512E\n", "512\n", 104),
        bad("a cell too few", "0000002E\n", "\n", 135),
        bad("half a cell", "0000002E\n", "0000\n", 139),
        bad("a cell too many", "0000002E\n", "0000002E0000002E\n", 143),
        bad("a letter past the hex digits", "0000002E\n", "0000002G\n", 142),
        bad("a word fewer than are used", "used=00005", "used=00006", 192),
        bad("a word more than are used", "used=00005", "used=00004", 184),
        bad("more cells than can be", "length=00004", "length=65537", 43),
        bad("two lines swapped", "used=00005\ndone=00005", "done=00005\nused=00005", 45),
        bad("a line left out", "used=00005\n", "", 45),
        bad("a line twice", "used=00005\n", "used=00005\nused=00005\n", 56),
        bad("a line led by a space", "used", " used", 45),
        bad("another name", "history", "histories", 150),
    ]
}

/// Files in form 2. Where nothing in them is over 65,536, they fail at the LF that ends the arrived bytes; else they are
/// in form, whatever the page is.
fn second_form() -> Vec<Filed> {
    let with = |part: &str, other: &str| replaced(WORKED_2, part, other);
    let bad = |name, part, other, place| read(name, with(part, other), ROOMS, 18, place);
    let not_sound = |name, part, other| read(name, with(part, other), ROOMS, 14, 0);
    let saved =
        |arrived: &str| WORKED_2.replace("saved=0000000", "saved=0065537").replace("412B496D49446B512E", arrived);
    vec![
        read("form 2 where form 1 was due", WORKED_2.as_bytes().to_vec(), ROOMS, 18, 115),
        bad("the form alone is another", "form=2", "form=1", 31),
        bad("form 2 with no mark", "saved=0000000", "saved=none", 112),
        bad("form 2 with no bytes", "412B496D49446B512E", "", 97),
        bad("form 2 with half a byte", "512E\n", "512\n", 114),
        bad("form 2, and a fault in the text", "0000002E\n", "0000002G\n", 115),
        bad("form 2 with an opening length of 65,536", "opening=0000004", "opening=0065536", 115),
        bad("form 2 with a mark of 65,536", "saved=0000000", "saved=0065536", 115),
        bad("form 2 with 65,536 words done", "done=0000005", "done=0065536", 115),
        bad("six digits", "opening=0000004", "opening=065537", 32),
        bad("eight digits", "opening=0000004", "opening=00065537", 33),
        bad("over the bound by the first digit", "opening=0000004", "opening=2000000", 26),
        bad("over the bound by the second digit", "opening=0000004", "opening=1100000", 27),
        bad("over the bound by the third digit", "opening=0000004", "opening=1050000", 28),
        bad("over the bound by the fourth digit", "opening=0000004", "opening=1049000", 29),
        bad("over the bound by the last digit but one", "opening=0000004", "opening=1048580", 31),
        bad("over the bound by the last digit", "opening=0000004", "opening=1048577", 32),
        bad("more cells than can be", "length=0000004", "length=1048577", 47),
        bad("a mark over the bound", "saved=0000000", "saved=1048577", 87),
        bad("fewer cells than it says", "length=0000004", "length=0065537", 153),
        bad("fewer words than it says", "used=0000005", "used=0065537", 202),
        not_sound("an opening length of 65,537", "opening=0000004", "opening=0065537"),
        not_sound("an opening length of 1,048,576", "opening=0000004", "opening=1048576"),
        not_sound("65,537 words done", "done=0000005", "done=0065537"),
        not_sound("a mark of 65,537", "saved=0000000", "saved=0065537"),
        not_sound("a mark of 1,048,576", "saved=0000000", "saved=1048576"),
        read("a mark of 65,537, and no bytes", saved("").into_bytes(), ROOMS, 14, 0),
        read("a mark of 65,537, and bytes that do not read", saved("7E").into_bytes(), ROOMS, 14, 0),
        read("a mark of 65,537, and no room", saved("41").into_bytes(), [1, 3, 5], 9, 4),
    ]
}

/// Keepings of the worked page and of others, in the order of the numbers.
pub fn keepings() -> Vec<Keeping> {
    let given = |name, state: State, arrived: &[u8], room, number, place| Keeping {
        name,
        state,
        arrived: arrived.to_vec(),
        room,
        answer: Answer { number, place },
    };
    let changed = |change: fn(&mut State)| {
        let mut state = worked_page();
        change(&mut state);
        state
    };
    let long = vec![0x80; LIMIT + 1];
    vec![
        given("the worked page", worked_page(), ARRIVED, 193, 0, 193),
        given("the worked page with more room", worked_page(), ARRIVED, 200, 0, 193),
        given("no room", worked_page(), ARRIVED, 192, 9, 193),
        given("no room at all", worked_page(), ARRIVED, 0, 9, 193),
        given("other bytes for as many cells, and a step stands", worked_page(), b"abcd", 183, 0, 183),
        given("bytes for more cells, and no room", worked_page(), b"abcde", 0, 15, 0),
        given("bytes that do not read", worked_page(), b"abc~", 193, 15, 0),
        given("no mark", changed(|state| state.page.saved = None), ARRIVED, 192, 0, 192),
        given("nothing stands, and the text is another", changed(|state| state.page.done = 0), ARRIVED, 193, 15, 0),
        given("a number of no kind", changed(|state| state.page.kind = 3), b"~", 0, 14, 0),
        given("a mark within a record", changed(|state| state.page.saved = Some(4)), b"~", 0, 14, 0),
        given("a cell past the length", changed(|state| state.text[4] = 1), b"~", 0, 14, 0),
        given("a word past those used", changed(|state| state.history[5] = 1), b"~", 0, 14, 0),
        given("bytes over the limit", changed(|state| state.page.done = 1), &long, 0, 16, LIMIT),
        given("a text buffer over the limit", changed(|state| state.text.resize(LIMIT + 1, 1)), b"~", 0, 16, LIMIT),
        given("a history over the limit", changed(|state| state.history.resize(LIMIT + 1, 1)), b"~", 0, 16, LIMIT),
    ]
}
