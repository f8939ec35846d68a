//! Page files to read: of small pages with every change of a sort, at the limit, and seeded.

use std::ops::Range;

use super::{blank, seeded, List, Move, Reading};
use crate::lent::filled;
use crate::rng::Rng;
use crate::second::page::{left, Page, State};
use crate::second::page_file::{self, Content, Form, FORM_1, FORM_2};
use crate::second::{Call, Kind, LIMIT};
use crate::texts;
use crate::trial::{quote, Input};

/// A file, and the lengths of the buffers that its reading is lent: for arrived bytes, for the text and the history.
#[derive(Clone)]
pub struct Filed {
    pub file: Vec<u8>,
    pub rooms: [usize; 3],
}

impl Filed {
    /// The buffers as they are before the reading; the page is none that it is lent.
    pub fn buffers(&self) -> (State, Vec<u8>) {
        let [arrived, cells, words] = self.rooms;
        (blank(cells, words), filled(arrived))
    }

    /// The same buffers for another file.
    fn with(&self, file: Vec<u8>) -> Filed {
        Filed { file, ..*self }
    }
}

impl Input for Filed {
    fn length(&self) -> usize {
        self.file.len()
    }

    fn without(&self, parts: Range<usize>) -> Filed {
        self.with(crate::trial::without(&self.file, parts))
    }

    fn show(&self) -> String {
        let [arrived, cells, words] = self.rooms;
        let file = if self.file.len() < 2_000 { self.file.escape_ascii().to_string() } else { quote(&self.file) };
        format!("\"{file}\", read into {arrived} bytes, {cells} cells and {words} words")
    }
}

/// Bytes of every sort that the rules tell apart, and their neighbours.
pub const TELLING: &[u8] = b"0123456789AFGafg@`/:= \n\r\0+-nohejpubtN\x7F\x80\xFF";

/// Files of small pages of a kind, read into buffers with a little room: one of an empty text, one that is only opened,
/// one with a step that was saved and one that is undone, and one whose text is gone and whose mark is none.
pub fn small(kind: Kind) -> Vec<Filed> {
    let arrived: &[u8] = if kind == Kind::Jp2 { b"A\x1B$B$\"\x1B(B." } else { b"A+ImIDkQ." };
    let cells = kind.read(arrived).expect("a whole text").len();
    let replace =
        |place, count, added: &[u8]| Call::Replace { place, count, cells: kind.read(added).expect("a whole text") };
    let save = || Call::Save { arrived: arrived.to_vec(), room: 40 };
    let saved = vec![replace(1, 1, b"="), save(), replace(0, 0, b"x="), Call::Undo];
    let unmarked = vec![replace(0, cells, b""), replace(0, 0, b"x"), save(), Call::Undo, replace(0, 0, b"")];
    let courses = [(&b""[..], vec![]), (arrived, vec![]), (arrived, saved), (arrived, unmarked)];
    courses.into_iter().map(|(arrived, calls)| edited(kind, arrived, calls)).collect()
}

/// The file of a page after these calls, all of which are accepted.
fn edited(kind: Kind, arrived: &[u8], calls: Vec<Call>) -> Filed {
    let opened = Call::Open { kind, arrived: arrived.to_vec() };
    let state = [opened].into_iter().chain(calls).fold(blank(8, 24), |state, call| {
        let left = left(&state, &call, &vec![0; call.room()]);
        assert_eq!(left.answer.number, 0, "{call}");
        left.state
    });
    let file = page_file::keep(&state, arrived).expect("a page that can be kept");
    Filed { file, rooms: [arrived.len() + 1, state.text.len(), state.history.len()] }
}

/// The file with each byte changed to each of these.
pub fn bytes_changed<'a>(filed: &'a Filed, others: &'a [u8]) -> impl Iterator<Item = Filed> + 'a {
    let changes = (0..filed.file.len()).flat_map(move |index| others.iter().map(move |&other| (index, other)));
    changes.filter(|&(index, other)| filed.file[index] != other).map(|(index, other)| {
        let mut changed = filed.clone();
        changed.file[index] = other;
        changed
    })
}

/// The file with each byte left out or doubled, and with a byte of each sort put before each byte and behind the last.
pub fn bytes_moved(filed: &Filed) -> impl Iterator<Item = Filed> + '_ {
    let file = &filed.file;
    let put = |index: usize, byte: u8| filed.with([&file[..index], &[byte], &file[index..]].concat());
    let left_out = (0..file.len()).map(|index| filed.without(index..index + 1));
    let doubled = (0..file.len()).map(move |index| put(index, file[index]));
    let added = (0..=file.len()).flat_map(move |index| b"0F \n\r=\0n".iter().map(move |&byte| put(index, byte)));
    left_out.chain(doubled).chain(added)
}

/// Every beginning of the file, and the file itself.
pub fn beginnings(filed: &Filed) -> impl Iterator<Item = Filed> + '_ {
    (0..=filed.file.len()).map(|length| filed.with(filed.file[..length].to_vec()))
}

/// Its lines, each with what ends it.
fn lines(file: &[u8]) -> Vec<&[u8]> {
    file.split_inclusive(|&byte| byte == b'\n').collect()
}

/// The file with a line left out or doubled, ended by CR LF or by nothing, or led by a space; and with two lines
/// swapped.
pub fn lines_moved(filed: &Filed) -> Vec<Filed> {
    let whole = lines(&filed.file);
    let mut files = Vec::new();
    for (index, &line) in whole.iter().enumerate() {
        let (before, behind) = (whole[..index].concat(), whole[index + 1..].concat());
        let unended = &line[..line.len() - 1];
        let others: [&[&[u8]]; 5] = [&[], &[line, line], &[unended, b"\r\n"], &[unended], &[b" ", line]];
        files.extend(others.map(|other| [&before[..], &other.concat(), &behind].concat()));
        for second in 0..index {
            let mut swapped = whole.clone();
            swapped.swap(second, index);
            files.push(swapped.concat());
        }
    }
    files.into_iter().map(|file| filed.with(file)).collect()
}

/// Each file with a line of each of the others in the place of its own.
pub fn lines_mixed(files: &[Filed]) -> Vec<Filed> {
    let mut mixed = Vec::new();
    for one in files {
        for other in files {
            let (whole, others) = (lines(&one.file), lines(&other.file));
            for index in 0..whole.len() {
                let file = [&whole[..index], &others[index..=index], &whole[index + 1..]].concat().concat();
                mixed.push(Filed { file, rooms: other.rooms });
            }
        }
    }
    mixed
}

/// What may stand where a number is due.
const VALUES: [&str; 34] = [
    "", "0", "0000", "00000", "000000", "00001", "00002", "00003", "00004", "00005", "00006", "00008", "00009", "0001",
    "000001", "00010", "+0001", "-0001", " 0001", "0001 ", "0x001", "10000", "59999", "60000", "65535", "65536",
    "65537", "65540", "65600", "66000", "70000", "99999", "none", "NONE",
];

/// What may stand where a number of form 2 is due.
const VALUES_2: [&str; 24] = [
    "000000", "0000000", "00000000", "0000001", "0000004", "0000005", "0000006", "+000001", " 000001", "000001 ",
    "0x00001", "00005", "0065535", "0065536", "0065537", "065537", "00065537", "1048575", "1048576", "1048577",
    "1048580", "1048600", "1100000", "9999999",
];

/// The file with each of these in the place of a line's value.
pub fn values_changed(filed: &Filed) -> Vec<Filed> {
    let whole = lines(&filed.file);
    let key = |line: &[u8]| line.iter().position(|&byte| byte == b'=').expect("a key") + 1;
    let with = |index: usize, value: &str| {
        let line = [&whole[index][..key(whole[index])], value.as_bytes(), b"\n"].concat();
        filed.with([&whole[..index].concat(), &line[..], &whole[index + 1..].concat()].concat())
    };
    let forms = ["1", "2", "3", "01", "02", "0", "utf7h", "utf7b", "jp2", "jp", "utf7", "UTF7H", "jp2 "];
    // Lists that would have to be as long as can be take long, and are tried elsewhere.
    let is_long = |index, value: &str| matches!(index, 3 | 4) && ["1048575", "1048576"].contains(&value);
    let in_line = |index| {
        let values = forms.iter().chain(&VALUES).chain(&VALUES_2).filter(move |value| !is_long(index, value));
        values.map(move |value| with(index, value))
    };
    (0..whole.len()).flat_map(in_line).collect()
}

/// The kind of which all is tried that takes long, and has little to do with the kind.
pub const MOST_TRIED: Kind = Kind::Utf7Body;

/// Form 2's small files of a kind: in none of them anything is over 65,536 but the mark, so none is sound, and one is
/// not even in form.
pub fn small_in_form_2(kind: Kind) -> Vec<Filed> {
    let marks = [Some(65_537), Some(LIMIT), Some(65_536)];
    let changed = small(kind).into_iter().rev().zip(marks).map(|(filed, saved)| {
        let content = page_file::content(&filed.file).expect("a page file");
        filed.with(Content { page: Page { saved, ..content.page }, ..content }.file_in(FORM_2))
    });
    changed.collect()
}

/// Files in which one of the six numbers (opening, length, used, done, saved and the arrived length) is at the bound of
/// a form or beside it, and the others are small; each in both forms, with lists as long as it says.
pub fn forms(kind: Kind) -> impl Iterator<Item = Filed> {
    let near = |bound: usize| [bound - 1, bound, bound + 1];
    let small = (0..6).flat_map(move |index| near(65_536).map(|number| (index, number)));
    // Some of these have long lists: of each sort one, and of one kind.
    let large = [(0, LIMIT), (3, LIMIT), (4, LIMIT), (4, LIMIT + 1), (1, LIMIT), (2, LIMIT + 1), (5, LIMIT)];
    small.chain(large.into_iter().filter(move |_| kind == MOST_TRIED)).flat_map(move |(index, number)| {
        let content = one_number(kind, index, number);
        [FORM_1, FORM_2].map(|form| filed_in(&content, form))
    })
}

/// A content of which one number is this one, and the others are 0.
fn one_number(kind: Kind, index: usize, number: usize) -> Content {
    let mut numbers = [0; 6];
    numbers[index] = number;
    let [opening, length, used, done, saved, arrived] = numbers;
    let page = Page { kind: kind.number(), opening, length, used, done, saved: Some(saved) };
    Content { page, arrived: vec![b'a'; arrived], text: vec![0; length], history: vec![0; used] }
}

/// The file of a content in a form, read into buffers that its lists just fit, where these can be lent.
fn filed_in(content: &Content, form: Form) -> Filed {
    let lists = [content.arrived.len(), content.text.len(), content.history.len()];
    Filed { file: content.file_in(form), rooms: lists.map(|length| length.min(LIMIT)) }
}

/// Pages on both sides of 65,536, kept and read again, and gone on with: by the arrived length, by the cells of the
/// text, and by the words of the history. Where there are few steps, demand 3 can be asked of them.
pub fn on_both_sides(kind: Kind) -> Vec<List> {
    let source = texts::of_kind(kind);
    let cell = cell(kind);
    let add = |count: usize| Call::Replace { place: 0, count: 0, cells: vec![cell; count] };
    let texts = (65_535..=65_538).flat_map(|length| source.texts_of_length(length));
    let by_text = texts.filter(|text| kind.read(text).is_ok()).map(|arrived| {
        let open = Call::Open { kind, arrived: arrived.clone() };
        // Some texts have as many cells as bytes, and others fewer.
        with_keepings(blank(65_540, 20), &arrived, vec![open, add(1), add(1), Call::Undo, Call::Undo])
    });
    by_text.chain([by_length(kind, 65_536), by_length(kind, 65_535)]).collect()
}

/// A text that grows by steps past so many cells, and shrinks again.
fn by_length(kind: Kind, length: usize) -> List {
    let cell = cell(kind);
    let arrived = vec![b'a'; length];
    let replace = |place, count, added| Call::Replace { place, count, cells: vec![cell; added] };
    let save = Call::Save { arrived: arrived.clone(), room: LIMIT };
    let open = Call::Open { kind, arrived: arrived.clone() };
    let calls = vec![open, replace(7, 1, 2), save, replace(0, 2, 0), Call::Undo, Call::Undo, Call::Redo];
    with_keepings(blank(65_540, 20), &arrived, calls)
}

/// Steps that change nothing or add a cell, so that there are as many words as one likes: all of them done, or some, or
/// none, with marks on both sides of 65,536.
pub fn with_words(kind: Kind) -> Vec<List> {
    let cell = cell(kind);
    let ends = [0, 65_533, 65_535, 65_536, 65_537, 65_538];
    let stepped = |used: usize| {
        // Steps of four words first, of three then.
        let adding = used % 3;
        let history = [[0, 0, 1, cell].repeat(adding), vec![0; used - 4 * adding]].concat();
        let reached = |done: usize| if done == 0 { 0 } else { adding };
        let is_end = move |end: usize| end == 0 || (end >= 4 * adding && (end - 4 * adding) % 3 == 0 && end <= used);
        let pages = ends.into_iter().filter(move |&done| is_end(done)).flat_map(move |done| {
            let marks = ends.into_iter().filter(move |&mark| is_end(mark)).map(Some).chain([None]);
            marks.map(move |saved| (done, saved))
        });
        let lists = pages.map(move |(done, saved)| {
            let length = reached(done);
            let page = Page { kind: kind.number(), opening: 0, length, used, done, saved };
            let text = [vec![cell; length], vec![0; 9 - length]].concat();
            let start = State { page, text, history: [&history[..], &[0; 9]].concat() };
            let first = Call::Keep { arrived: vec![], room: 0 };
            with_keepings(start, b"", vec![first, Call::Undo, Call::Redo])
        });
        lists.collect::<Vec<List>>()
    };
    [65_535, 65_536, 65_537, 65_538].into_iter().flat_map(stepped).collect()
}

/// These calls, with a keeping and a reading of what was kept after each.
fn with_keepings(start: State, arrived: &[u8], moves: Vec<Call>) -> List {
    let (cells, words) = (start.text.len(), start.history.len());
    let keep = Call::Keep { arrived: arrived.to_vec(), room: 113 + 2 * arrived.len() + 8 * (cells + words) };
    let read = Move::Read(Reading { before: 0, arrived: arrived.len() + 1, cells, words });
    let turn = |call: Call| [Move::Call(call), Move::Call(keep.clone()), read.clone()];
    List { start, moves: moves.into_iter().flat_map(turn).collect() }
}

/// Small files as they are, with a page that is not sound, with bytes that are not its own, with both, and with no
/// form: each in buffers of every length about that of its list, and in buffers that are as long as can be, or longer.
pub fn in_rooms(kind: Kind) -> impl Iterator<Item = Filed> {
    let files = small(kind).into_iter().flat_map(|filed| {
        let content = page_file::content(&filed.file).expect("a page file");
        let unsound = Page { done: content.page.done + 1, ..content.page };
        let foreign = [&content.arrived[..], b"~"].concat();
        let damaged = Content { page: unsound, ..content.clone() };
        let both = Content { arrived: foreign.clone(), ..damaged.clone() };
        let formless = [&filed.file[..], b"\n"].concat();
        let other = Content { arrived: foreign, ..content };
        [filed.file.clone(), damaged.file(), other.file(), both.file(), formless].map(|file| filed.with(file))
    });
    files.enumerate().flat_map(|(number, filed)| {
        let lists = lists(&filed);
        let lengths = |index: usize| {
            let list = lists[index];
            [0, list.saturating_sub(1), list, list + 1, filed.rooms[index] + 3].map(move |room| (index, room))
        };
        let about = product(lengths(0), lengths(1), lengths(2));
        let long = (0..3).flat_map(|index| [LIMIT, LIMIT + 1].map(|length| with_room(filed.rooms, index, length)));
        let over = [[LIMIT + 1; 3], [LIMIT; 3], [0, 0, LIMIT + 1], [LIMIT + 1, 0, 0]];
        // Long buffers take long: of one page, the third.
        let rooms = long.chain(over).filter(|_| number / 5 == 2);
        let rooms: Vec<[usize; 3]> = about.into_iter().chain(rooms).collect();
        rooms.into_iter().map(move |rooms| Filed { rooms, ..filed.clone() }).collect::<Vec<Filed>>()
    })
}

/// The lengths of the lists of a file, or of its buffers if it has no form.
fn lists(filed: &Filed) -> [usize; 3] {
    page_file::content(&filed.file)
        .map_or(filed.rooms, |found| [found.arrived.len(), found.text.len(), found.history.len()])
}

fn with_room(mut rooms: [usize; 3], index: usize, length: usize) -> [usize; 3] {
    rooms[index] = length;
    rooms
}

fn product(first: [(usize, usize); 5], second: [(usize, usize); 5], third: [(usize, usize); 5]) -> Vec<[usize; 3]> {
    let pairs = first.into_iter().flat_map(|one| second.map(|two| (one, two)));
    pairs.flat_map(|((_, one), (_, two))| third.map(|(_, three)| [one, two, three])).collect()
}

/// Files with as many arrived bytes, cells and words as can be, and with more; and one cut off, with a byte too many and
/// with a wrong one near its end. They are made one by one, since they are long; of two kinds only those
/// that are accepted are.
pub fn at_limit(kind: Kind) -> impl Iterator<Item = Filed> {
    let all = kind == MOST_TRIED;
    let rooms = [[LIMIT; 3], [LIMIT, LIMIT - 1, LIMIT], [LIMIT, LIMIT, LIMIT - 1], [LIMIT - 1; 3], [LIMIT + 1, 0, 0]];
    let in_rooms = move |content: Content| {
        let file = content.file();
        rooms.into_iter().take(if all { 5 } else { 1 }).map(move |rooms| Filed { file: file.clone(), rooms })
    };
    let whole = full(kind).into_iter().flat_map(in_rooms);
    let damaged = (0..if all { 3 } else { 0 }).map(move |change| {
        let mut file = content(kind, [0, 0, LIMIT, 0], None, 0, 0, &vec![0; LIMIT]).file();
        let end = file.len();
        match change {
            0 => file.truncate(end - 1),
            1 => file.push(b'0'),
            _ => file[end - 2] = b'G',
        }
        Filed { file, rooms: [LIMIT; 3] }
    });
    let over = (0..if all { OVER } else { 0 })
        .map(move |number| Filed { file: over(kind, number).file_in(FORM_2), rooms: [LIMIT; 3] });
    whole.chain(damaged).chain(over)
}

/// A page that is only opened, one with as many steps as can be, and that with all of them undone.
fn full(kind: Kind) -> Vec<Content> {
    // One step adds a cell to the text, and many more change nothing.
    let words = [&[0, 0, 1, cell(kind)][..], &vec![0; LIMIT - 4]].concat();
    let opened = content(kind, [LIMIT, LIMIT, 0, 0], Some(0), LIMIT, LIMIT, &[]);
    let stepped = content(kind, [LIMIT - 1, LIMIT, LIMIT, LIMIT], Some(LIMIT), LIMIT - 1, LIMIT, &words);
    let undone = content(kind, [LIMIT - 1, LIMIT - 1, LIMIT, 0], None, LIMIT - 1, LIMIT - 1, &words);
    vec![opened, stepped, undone]
}

/// How many files with too much there are.
const OVER: usize = 7;

/// Each of them has one number, or one list, that is too long.
fn over(kind: Kind, number: usize) -> Content {
    let (zeros, more) = (|| vec![0; LIMIT], LIMIT + 1);
    match number {
        0 => content(kind, [more, more, 0, 0], Some(0), more, more, &[]),
        1 => content(kind, [LIMIT, LIMIT, 0, 0], None, more, LIMIT, &[]),
        2 => content(kind, [LIMIT, LIMIT, 0, 0], None, LIMIT, more, &[]),
        3 => content(kind, [0, 0, more, 0], None, 0, 0, &vec![0; more]),
        4 => content(kind, [0, 0, LIMIT, 0], None, 0, 0, &vec![0; more]),
        5 => content(kind, [0, 0, LIMIT, more], None, 0, 0, &zeros()),
        _ => content(kind, [0, 0, LIMIT, 0], Some(more), 0, 0, &zeros()),
    }
}

/// What a file has with these numbers of a page, so many bytes and cells of one sort, and these words.
fn content(
    kind: Kind,
    [opening, length, used, done]: [usize; 4],
    saved: Option<usize>,
    arrived: usize,
    cells: usize,
    words: &[u32],
) -> Content {
    let page = Page { kind: kind.number(), opening, length, used, done, saved };
    Content { page, arrived: vec![b'a'; arrived], text: vec![cell(kind); cells], history: words.to_vec() }
}

/// The cell that `a` is read as.
fn cell(kind: Kind) -> u32 {
    kind.read(b"a").expect("a whole text")[0]
}

/// So many files of pages that were opened and edited, made by hand, or of any numbers; with their bytes or others, a
/// third of them damaged; read into buffers about as long as is needed.
pub fn seeded(seed: u64, kind: Kind, count: usize) -> impl Iterator<Item = Filed> {
    let mut rng = Rng::new(seed, &format!("files {}", kind.name()));
    (0..count).map(move |_| one(&mut rng, kind))
}

/// One such file.
pub fn one(rng: &mut Rng, kind: Kind) -> Filed {
    let draft = seeded::some_page(rng, kind);
    let rooms = [draft.arrived.len() + 2, draft.state.text.len(), draft.state.history.len()];
    let mut filed = Filed { file: draft.file(rng), rooms };
    if rng.one_in(2) {
        let lists = lists(&filed);
        let index = rng.below(3);
        filed.rooms = with_room(rooms, index, (lists[index] + rng.below(3)).saturating_sub(1));
    }
    if rng.one_in(3) {
        damage(rng, &mut filed.file);
    }
    filed
}

/// Changes a byte, leaves some out, doubles some, or cuts the file off.
pub fn damage(rng: &mut Rng, file: &mut Vec<u8>) {
    let at = rng.below(file.len());
    let end = (at + rng.between(1, 9)).min(file.len());
    match rng.below(6) {
        0..=2 => file[at] = rng.pick(TELLING),
        3 => drop(file.drain(at..end)),
        4 => drop(file.splice(at..at, file[at..end].to_vec())),
        _ => file.truncate(at),
    }
}

#[cfg(test)]
mod tests {
    use super::*;

    /// The answer to reading a file.
    fn answer(filed: &Filed) -> (u32, usize) {
        let (buffers, arrived) = filed.buffers();
        let answer = page_file::left(&filed.file, &buffers, &arrived).answer;
        (answer.number, answer.place)
    }

    #[test]
    fn small_files_are_read() {
        for kind in Kind::ALL {
            for filed in small(kind) {
                assert_eq!(answer(&filed), (0, filed.rooms[0] - 1), "{}", filed.show());
            }
        }
    }

    #[test]
    fn a_beginning_fails_at_its_length() {
        for filed in Kind::ALL.into_iter().flat_map(small) {
            let (last, shorter) = (filed.file.len(), beginnings(&filed).filter(|other| other.file != filed.file));
            let lengths = shorter.map(|shorter| (answer(&shorter), shorter.file.len()));
            assert!(lengths.take(last).all(|(answer, length)| answer == (18, length)));
        }
    }

    #[test]
    fn files_at_the_limit_are_read() {
        let answers: Vec<(u32, usize)> = at_limit(MOST_TRIED).map(|filed| answer(&filed)).collect();
        assert_eq!(answers[..5], [(0, LIMIT), (9, LIMIT), (0, LIMIT), (9, LIMIT), (16, LIMIT)]);
        assert_eq!(answers[5..10], [(0, LIMIT - 1), (9, LIMIT), (9, LIMIT), (9, LIMIT), (16, LIMIT)]);
        assert_eq!(answers[10..15], [(0, LIMIT - 1), (14, 0), (9, LIMIT), (9, LIMIT), (16, LIMIT)]);
        assert_eq!(answers[15..].iter().map(|(number, _)| *number).collect::<Vec<u32>>(), vec![18; 3 + OVER]);
        for kind in [Kind::Utf7Header, Kind::Jp2] {
            assert!(at_limit(kind).all(|filed| answer(&filed).0 == 0));
        }
    }

    /// The answers to the files of one number, in form 1 and in form 2.
    fn answers(number: usize) -> Vec<[(u32, usize); 2]> {
        let content = |index| one_number(Kind::Utf7Body, index, number);
        let in_form = |content: &Content| [FORM_1, FORM_2].map(|form| answer(&filed_in(content, form)));
        (0..6).map(|index| in_form(&content(index))).collect()
    }

    #[test]
    fn one_form_is_due() {
        // Form 2 ends its arrived bytes here if there are none; 65,536 are 131,072 digits more.
        let (end, arrived) = (97, 131_072);
        let small = |read: [(u32, usize); 6]| -> Vec<[(u32, usize); 2]> {
            let ends = [end, end, end, end, end, end + arrived];
            read.into_iter().zip(ends).map(|(answer, end)| [answer, (18, end)]).collect()
        };
        // An opening length or words done of which there are no records, and a mark at none of their ends; a text that
        // was not opened; empty steps, one of them cut off; and bytes that are not the text.
        assert_eq!(answers(65_536), small([(14, 0), (14, 0), (14, 0), (14, 0), (14, 0), (15, 0)]));
        // In form 1 the fifth digit is at fault, or the 131,073rd.
        let places = [30, 43, 54, 65, 77, 87 + arrived];
        let read = [(14, 0), (14, 0), (14, 0), (14, 0), (14, 0), (15, 0)];
        let large: Vec<_> = places.into_iter().zip(read).map(|(place, answer)| [(18, place), answer]).collect();
        assert_eq!(answers(65_537), large);
    }

    #[test]
    fn pages_are_kept_on_both_sides() {
        for kind in Kind::ALL {
            let mut counts = [0, 0];
            for list in on_both_sides(kind) {
                let mut state = list.start.clone();
                for item in &list.moves {
                    let Move::Call(call) = item else { continue };
                    let left = left(&state, call, &vec![0; call.room()]);
                    if let Some(file) = left.file(call) {
                        let is_form_2 = page_file::content(&file).expect("a page file").form() == FORM_2;
                        counts[usize::from(is_form_2)] += 1;
                    }
                    state = left.state;
                }
            }
            assert!(counts.iter().all(|&count| count >= 20), "{counts:?}");
        }
    }

    #[test]
    fn seeded_files_are_read_now_and_then() {
        for kind in Kind::ALL {
            let numbers: Vec<u32> = seeded(1, kind, 2_000).map(|filed| answer(&filed).0).collect();
            for number in [0, 9, 14, 15, 18] {
                let count = numbers.iter().filter(|&&other| other == number).count();
                assert!(count > 60, "{number}: {count}");
            }
        }
    }
}
