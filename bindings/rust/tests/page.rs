//! The page: document 01's worked page, and seeded calls compared with a list of texts.

use qalithonda::{jp2, mailbox, utf7, Kind, Page, Refusal, Refused, LIMIT};

const P2: &[u8] = b"A+ImIDkQ.";

fn refused<T>(refusal: Refusal, place: usize) -> Result<T, Refused> {
    Err(Refused { refusal, place })
}

/// Opening, length, words used and words done.
fn numbers(page: &Page) -> [usize; 4] {
    [page.opening(), page.length(), page.used(), page.done()]
}

#[test]
fn the_worked_page() {
    let mut page = Page::open(Kind::Utf7Body, P2, 5, 6).unwrap();
    assert_eq!((page.kind(), page.arrived()), (Kind::Utf7Body, P2));
    assert_eq!((page.text(), page.history()), (&[0x41, 0x2262, 0x391, 0x2E][..], &[][..]));
    assert_eq!(numbers(&page), [4, 4, 0, 0]);
    assert_eq!((page.saved(), page.is_unchanged()), (Some(0), true));

    assert_eq!(page.replace(1, 1, &[0x3D]), Ok(4));
    assert_eq!((page.text(), page.history()), (&[0x41, 0x3D, 0x391, 0x2E][..], &[1, 1, 1, 0x2262, 0x3D][..]));
    assert_eq!(numbers(&page), [4, 4, 5, 5]);
    assert_eq!((page.saved(), page.is_unchanged()), (Some(0), false));
    assert_eq!(page.save_to_vec(), Ok(b"A=+A5E-.".to_vec()));
    assert_eq!((page.saved(), page.is_unchanged()), (Some(5), true));

    assert_eq!(page.undo(), Ok(4));
    assert_eq!(numbers(&page), [4, 4, 5, 0]);
    assert_eq!((page.saved(), page.is_unchanged()), (Some(5), false));
    assert_eq!(page.save_to_vec(), Ok(P2.to_vec()));
    assert_eq!((page.saved(), page.is_unchanged()), (Some(0), true));
    assert_eq!(page.undo(), refused(Refusal::NothingLeft, 0));

    assert_eq!(page.redo(), Ok(4));
    assert_eq!(page.text(), [0x41, 0x3D, 0x391, 0x2E]);
    assert_eq!(page.redo(), refused(Refusal::NothingLeft, 0));
}

#[test]
fn a_replacement_drops_a_mark_that_could_be_redone() {
    let mut page = Page::open(Kind::Utf7Body, P2, 5, 9).unwrap();
    page.replace(1, 1, &[0x3D]).unwrap();
    page.save_to_vec().unwrap();
    page.undo().unwrap();
    page.redo().unwrap();
    assert!(page.is_unchanged());
    page.undo().unwrap();
    page.replace(1, 1, &[0x3D]).unwrap();
    assert_eq!((page.saved(), page.is_unchanged()), (None, false));
    page.save_to_vec().unwrap();
    assert_eq!((page.saved(), page.is_unchanged()), (Some(5), true));
}

#[test]
fn bytes_that_were_not_put_do_not_count_as_saved() {
    let mut page = Page::open(Kind::Utf7Body, P2, 5, 9).unwrap();
    page.replace(1, 1, &[0x3D]).unwrap();
    assert_eq!(page.save_with(|_| refused::<()>(Refusal::NoRoom, 1)), refused(Refusal::NoRoom, 1));
    assert_eq!((page.saved(), page.is_unchanged()), (Some(0), false));
    let mut put = Vec::new();
    assert_eq!(page.save_with(|bytes| Ok::<_, Refused>(put.extend(bytes))), Ok(()));
    assert_eq!((page.saved(), page.is_unchanged(), put), (Some(5), true, b"A=+A5E-.".to_vec()));
}

/// Three steps: '!' after "Hi", then '?' and '!' in its place; saved before the last of them.
fn three_steps() -> Page {
    let mut page = Page::open(Kind::Utf7Body, b"Hi", 9, 20).unwrap();
    page.replace(2, 0, &[0x21]).unwrap();
    page.replace(2, 1, &[0x3F]).unwrap();
    page.save_to_vec().unwrap();
    page.replace(2, 1, &[0x21]).unwrap();
    assert_eq!((numbers(&page), page.saved()), ([2, 3, 14, 14], Some(9)));
    page
}

#[test]
fn the_oldest_steps_are_folded_into_one() {
    let mut page = three_steps();
    page.undo().unwrap();
    assert_eq!(page.squeeze(2), Ok(13));
    assert_eq!((numbers(&page), page.text()), ([2, 3, 13, 8], &[0x48, 0x69, 0x3F][..]));
    assert_eq!(page.history(), [0, 2, 3, 0x48, 0x69, 0x48, 0x69, 0x3F, 2, 1, 1, 0x3F, 0x21]);
    assert_eq!(page.undo(), Ok(2));
    assert_eq!(page.text(), [0x48, 0x69]);
    assert_eq!(page.undo(), refused(Refusal::NothingLeft, 0));
    assert_eq!((page.redo(), page.redo(), page.redo()), (Ok(3), Ok(3), refused(Refusal::NothingLeft, 0)));
    assert_eq!(page.text(), [0x48, 0x69, 0x21]);
}

#[test]
fn a_mark_within_a_fold_is_lost_and_a_later_one_moves_along() {
    let mut page = three_steps();
    assert_eq!(page.squeeze(3), Ok(8));
    assert_eq!((page.saved(), page.is_unchanged()), (None, false));
    let mut page = three_steps();
    assert_eq!(page.squeeze(2), Ok(13));
    assert_eq!((page.saved(), page.is_unchanged()), (Some(8), false));
    page.undo().unwrap();
    assert!(page.is_unchanged());
    page.undo().unwrap();
    page.save_to_vec().unwrap();
    page.redo().unwrap();
    page.redo().unwrap();
    page.replace(0, 3, &[]).unwrap();
    assert_eq!(page.squeeze(3), Ok(5));
    assert_eq!((page.saved(), page.history()), (Some(0), &[0, 2, 0, 0x48, 0x69][..]));
}

#[test]
fn squeeze_is_refused_and_changes_nothing() {
    let mut page = Page::open(Kind::Utf7Body, P2, 5, 20).unwrap();
    page.replace(0, 1, &[]).unwrap();
    page.replace(0, 0, &[]).unwrap();
    page.replace(0, 0, &[]).unwrap();
    for steps in [0, 1, 4, usize::MAX] {
        assert_eq!(page.squeeze(steps), refused(Refusal::BeyondLength, 0));
    }
    // Ten words would become ten.
    assert_eq!(page.squeeze(3), refused(Refusal::NoGain, 0));
    assert_eq!((numbers(&page), page.history()), ([4, 3, 10, 10], &[0, 1, 0, 0x41, 0, 0, 0, 0, 0, 0][..]));
    page.replace(0, 1, &[]).unwrap();
    assert_eq!(page.squeeze(4), Ok(9));
}

/// The worked page's file, one line a part.
const KEPT: [&str; 10] = [
    "form=1\n",
    "kind=utf7b\n",
    "opening=00004\n",
    "length=00004\n",
    "used=00005\n",
    "done=00005\n",
    "saved=00000\n",
    "arrived=412B496D49446B512E\n",
    "text=000000410000003D000003910000002E\n",
    "history=000000010000000100000001000022620000003D\n",
];

/// That file with one line changed.
fn kept_with(line: usize, changed: &str) -> Vec<u8> {
    let mut lines = KEPT;
    lines[line] = changed;
    lines.concat().into_bytes()
}

#[test]
fn a_page_is_kept_and_goes_on() {
    let mut page = Page::open(Kind::Utf7Body, P2, 5, 6).unwrap();
    page.replace(1, 1, &[0x3D]).unwrap();
    let file = page.keep().unwrap();
    assert_eq!((&file[..], file.capacity()), (KEPT.concat().as_bytes(), file.len()));
    assert_eq!((page.saved(), page.is_unchanged()), (Some(0), false));

    let mut page = Page::read(&file, 5, 6).unwrap();
    assert_eq!((page.kind(), page.arrived(), page.saved()), (Kind::Utf7Body, P2, Some(0)));
    assert_eq!((page.text(), page.history()), (&[0x41, 0x3D, 0x391, 0x2E][..], &[1, 1, 1, 0x2262, 0x3D][..]));
    assert_eq!((numbers(&page), page.is_unchanged()), ([4, 4, 5, 5], false));
    assert_eq!(page.keep().unwrap(), file);
    page.save_to_vec().unwrap();
    page.undo().unwrap();

    // The steps that can be redone and the mark are kept too.
    let mut page = Page::read(&page.keep().unwrap(), 5, 6).unwrap();
    assert_eq!((numbers(&page), page.saved(), page.text()), ([4, 4, 5, 0], Some(5), &[0x41, 0x2262, 0x391, 0x2E][..]));
    assert_eq!(page.redo(), Ok(4));
    assert!(page.is_unchanged());
    page.undo().unwrap();
    page.replace(0, 1, &[]).unwrap();
    let page = Page::read(&page.keep().unwrap(), 5, 6).unwrap();
    assert_eq!((page.saved(), page.is_unchanged()), (None, false));
}

#[test]
fn a_page_of_each_kind_is_kept() {
    for (kind, arrived) in [(Kind::Utf7Header, P2), (Kind::Utf7Body, b""), (Kind::Jp2, b"\x1b$B$\"\x1b(B")] {
        let page = Page::open(kind, arrived, 9, 9).unwrap();
        let read = Page::read(&page.keep().unwrap(), 9, 9).unwrap();
        assert_eq!((read.kind(), read.arrived(), read.text()), (kind, arrived, page.text()));
        assert_eq!((numbers(&read), read.saved()), (numbers(&page), Some(0)));
    }
}

#[test]
fn a_kept_page_is_read_into_other_rooms() {
    let mut page = Page::open(Kind::Utf7Body, P2, 4, 5).unwrap();
    page.replace(1, 1, &[0x3D]).unwrap();
    assert_eq!(page.replace(0, 0, &[0x41]), refused(Refusal::NoRoom, 5));
    let mut page = Page::read(&page.keep().unwrap(), LIMIT, LIMIT).unwrap();
    assert_eq!(page.replace(0, 0, &[0x41]), Ok(5));
    page.undo().unwrap();
    let file = page.keep().unwrap();
    assert_eq!(Page::read(&file, 4, 9).map(drop), refused(Refusal::Unsound, 0));
    assert_eq!(numbers(&Page::read(&file, 5, 9).unwrap()), [4, 4, 9, 5]);
    assert_eq!(Page::read(&file, 3, 8).map(drop), refused(Refusal::NoRoom, 4));
    assert_eq!(Page::read(&file, 5, 8).map(drop), refused(Refusal::NoRoom, 9));
    for room in [LIMIT + 1, usize::MAX] {
        assert_eq!(Page::read(&file, room, 9).map(drop), refused(Refusal::OverLimit, LIMIT));
        assert_eq!(Page::read(b"", 9, room).map(drop), refused(Refusal::OverLimit, LIMIT));
    }
}

#[test]
fn a_long_page_is_kept_in_form_2() {
    for (length, start, rest) in [(65_536, "form=1\n", 103), (65_537, "form=2\n", 113), (LIMIT, "form=2\n", 113)] {
        let page = Page::open(Kind::Utf7Body, vec![b'A'; length], LIMIT, LIMIT).unwrap();
        let file = page.keep().unwrap();
        assert!(file.starts_with(start.as_bytes()));
        assert_eq!(file.len(), 10 * length + rest);
        assert_eq!(Page::read(&file, LIMIT, 0).unwrap().arrived(), page.arrived());
    }
}

#[test]
fn what_is_no_page_file_is_refused() {
    let read = |file: &[u8]| Page::read(file, 9, 9).map(drop);
    let file = KEPT.concat().into_bytes();
    assert_eq!(read(&file), Ok(()));
    for end in 0..file.len() {
        assert_eq!(read(&file[..end]), refused(Refusal::BadPageFile, end));
    }
    assert_eq!(read(&[&file[..], b"\n"].concat()), refused(Refusal::BadPageFile, file.len()));
    let place = |line: usize| KEPT[..line].concat().len();
    let cases = [
        (0, "form=3\n", 5),
        (0, "form=2\n", 31),
        (1, "kind=utf7x\n", 9),
        (2, "opening=65537\n", 12),
        (3, "length=4\n", 8),
        (6, "saved=never\n", 7),
        (7, "arrived=412b496D49446B512E\n", 11),
        (7, "arrived=41 2B496D49446B512E\n", 10),
        (8, "text=000000410000003D00000391\n", 29),
    ];
    for (line, changed, at) in cases {
        assert_eq!(read(&kept_with(line, changed)), refused(Refusal::BadPageFile, place(line) + at), "{changed}");
    }
}

#[test]
fn a_page_file_is_judged() {
    let read = |file: &[u8]| Page::read(file, 9, 9).map(drop);
    assert_eq!(read(&kept_with(5, "done=00004\n")), refused(Refusal::Unsound, 0));
    assert_eq!(read(&kept_with(6, "saved=00001\n")), refused(Refusal::Unsound, 0));
    assert_eq!(read(&kept_with(7, "arrived=41\n")), refused(Refusal::NotTheText, 0));
    // With a step standing the text is not judged. Undone, it is not what the arrived bytes read as.
    let mut page = Page::read(&kept_with(8, "text=000000420000003D000003910000002E\n"), 9, 9).unwrap();
    assert_eq!(page.undo(), Ok(4));
    assert_eq!(page.save_to_vec(), refused(Refusal::NotTheText, 0));
    assert_eq!(page.keep(), refused(Refusal::NotTheText, 0));
}

#[test]
fn four_words_of_history() {
    let mut page = Page::open(Kind::Utf7Body, P2, 5, 4).unwrap();
    assert_eq!(page.replace(1, 1, &[0x3D]), refused(Refusal::HistoryFull, 5));
    assert_eq!((numbers(&page), page.text().len()), ([4, 4, 0, 0], 4));
}

#[test]
fn kinds_read_and_write_in_their_own_way() {
    let mut header = Page::open(Kind::Utf7Header, P2, 5, 6).unwrap();
    header.replace(1, 1, &[0x3D]).unwrap();
    assert_eq!(header.save_to_vec(), Ok(b"A+AD0DkQ-.".to_vec()));
    let mut jp2 = Page::open(Kind::Jp2, P2, 20, 20).unwrap();
    assert_eq!(jp2.length(), 9);
    jp2.replace(1, 7, &[0x572422]).unwrap();
    assert_eq!(jp2.save_to_vec(), Ok(b"A\x1b$B$\"\x1b(B.".to_vec()));
    assert_eq!((header.kind(), jp2.kind()), (Kind::Utf7Header, Kind::Jp2));
}

#[test]
fn open_is_refused() {
    let open = |kind, arrived: &[u8], text, history| Page::open(kind, arrived, text, history).map(|page| page.length());
    assert_eq!(open(Kind::Utf7Body, b"+AKN-", 9, 9), refused(Refusal::LeftOverBits, 4));
    assert_eq!(open(Kind::Jp2, b"\x1b$B$\"", 9, 9), refused(Refusal::NotAscii, 5));
    assert_eq!(open(Kind::Utf7Body, P2, 3, 9), refused(Refusal::NoRoom, 4));
    assert_eq!(open(Kind::Utf7Body, b"", 0, 0), Ok(0));
    let full = vec![b'A'; LIMIT];
    assert_eq!(open(Kind::Utf7Body, &full, LIMIT, LIMIT), Ok(LIMIT));
    assert_eq!(open(Kind::Utf7Body, &[full, vec![b'A']].concat(), LIMIT, LIMIT), refused(Refusal::OverLimit, LIMIT));
}

#[test]
fn rooms_over_the_limit_are_refused_and_not_allocated() {
    for room in [LIMIT + 1, usize::MAX] {
        assert_eq!(Page::open(Kind::Jp2, P2, room, 9).map(drop), refused(Refusal::OverLimit, LIMIT));
        assert_eq!(Page::open(Kind::Jp2, P2, 9, room).map(drop), refused(Refusal::OverLimit, LIMIT));
    }
}

#[test]
fn replace_is_refused_and_changes_nothing() {
    let mut page = Page::open(Kind::Utf7Body, P2, 5, 9).unwrap();
    assert_eq!(page.replace(5, 0, &[]), refused(Refusal::BeyondLength, 4));
    assert_eq!(page.replace(usize::MAX, usize::MAX, &[]), refused(Refusal::BeyondLength, 4));
    assert_eq!(page.replace(0, 0, &[0x41, 0x10000]), refused(Refusal::Unwritable, 1));
    assert_eq!(page.replace(0, 0, &[0x41, 0x42]), refused(Refusal::NoRoom, 6));
    assert_eq!(page.replace(0, 4, &[0x41; 4]), refused(Refusal::HistoryFull, 11));
    assert_eq!(page.replace(0, 0, &vec![0x41; LIMIT + 1]), refused(Refusal::OverLimit, LIMIT));
    assert_eq!((numbers(&page), page.text()), ([4, 4, 0, 0], &[0x41, 0x2262, 0x391, 0x2E][..]));
}

#[test]
fn save_fills_a_slice_as_far_as_the_count() {
    let mut page = Page::open(Kind::Utf7Body, P2, 5, 20).unwrap();
    page.replace(0, 0, &[]).unwrap();
    assert_eq!(page.save(&mut []), refused(Refusal::NoRoom, 10));
    assert_eq!(page.saved(), Some(0));
    page.undo().unwrap();
    let mut out = [7; 11];
    assert_eq!(page.save(&mut out[..8]), refused(Refusal::NoRoom, 9));
    assert_eq!(out, [7; 11]);
    assert_eq!(page.save(&mut out), Ok(9));
    assert_eq!((&out[..9], &out[9..]), (P2, &[7, 7][..]));
    assert_eq!(page.save_to_vec().unwrap().capacity(), 9);
}

#[test]
fn a_clone_goes_its_own_way() {
    let mut page = Page::open(Kind::Utf7Body, P2, 5, 9).unwrap();
    page.replace(0, 1, &[]).unwrap();
    let mut other = page.clone();
    other.undo().unwrap();
    assert_eq!((page.length(), other.length()), (3, 4));
}

#[test]
fn pages_and_steps_go_to_other_threads() {
    fn sent<T: Send + Sync>(_: &T) {}
    sent(&Page::open(Kind::Jp2, b"", 0, 0).unwrap());
    sent(&utf7::steps(b""));
    sent(&jp2::steps(b""));
    sent(&mailbox::steps(b""));
}

/// A number below a bound, of a sequence that is the same each time (xorshift).
fn below(seed: &mut u64, bound: usize) -> usize {
    *seed ^= *seed << 13;
    *seed ^= *seed >> 7;
    *seed ^= *seed << 17;
    (*seed % bound as u64) as usize
}

/// The answer to a squeeze, by the texts so far and the words of the step that led to each.
fn squeezed(texts: &[Vec<u32>], words: &[usize], now: usize, steps: usize) -> Result<usize, Refused> {
    if steps < 2 || steps > now {
        return refused(Refusal::BeyondLength, 0);
    }
    let (old, new) = (words[..=steps].iter().sum::<usize>(), 3 + texts[0].len() + texts[steps].len());
    if old <= new {
        return refused(Refusal::NoGain, 0);
    }
    Ok(words.iter().sum::<usize>() - old + new)
}

/// Every text so far is kept, with the words of the step that led to each; undo and redo go to and fro between them, a
/// squeeze forgets those that it folds, and one of them may be the saved one. Kept and read back, nothing is changed.
fn follow(kind: Kind, cells: &[u32], seed: &mut u64) {
    let mut page = Page::open(kind, P2, 12, 60).unwrap();
    let read = if kind == Kind::Jp2 { jp2::read_to_vec } else { utf7::read_to_vec };
    let mut texts = vec![page.text().to_vec()];
    let mut words = vec![0];
    let (mut now, mut saved) = (0, Some(0));
    for _ in 0..200 {
        match below(seed, 8) {
            0 => {
                assert_eq!(page.undo().is_ok(), now > 0);
                now -= usize::from(now > 0);
            }
            1 => {
                let more = now + 1 < texts.len();
                assert_eq!(page.redo().is_ok(), more);
                now += usize::from(more);
            }
            2 => {
                assert_eq!(read(&page.save_to_vec().unwrap()).unwrap(), texts[now]);
                saved = Some(now);
            }
            3 => {
                let file = page.keep().unwrap();
                page = Page::read(&file, 12, 60).unwrap();
                assert_eq!(page.keep().unwrap(), file);
            }
            4 => {
                let steps = below(seed, 7);
                let answer = page.squeeze(steps);
                assert_eq!(answer, squeezed(&texts, &words, now, steps));
                if answer.is_ok() {
                    words.splice(1..=steps, [3 + texts[0].len() + texts[steps].len()]);
                    texts.drain(1..steps);
                    now -= steps - 1;
                    saved = saved.filter(|saved| !(1..steps).contains(saved));
                    saved = saved.map(|saved| if saved == 0 { 0 } else { saved - (steps - 1) });
                }
            }
            _ => {
                let (place, count) = (below(seed, 14), below(seed, 4));
                let added: Vec<u32> = (0..below(seed, 4)).map(|_| cells[below(seed, cells.len())]).collect();
                if page.replace(place, count, &added).is_ok() {
                    words.truncate(now + 1);
                    words.push(3 + count + added.len());
                    let mut text = texts[now].clone();
                    text.splice(place..place + count, added);
                    texts.truncate(now + 1);
                    texts.push(text);
                    saved = saved.filter(|saved| *saved <= now);
                    now += 1;
                }
            }
        }
        assert_eq!(page.text(), texts[now]);
        assert_eq!((page.used(), page.done()), (words.iter().sum(), words[..=now].iter().sum()));
        assert_eq!((page.is_unchanged(), page.saved().is_some()), (saved == Some(now), saved.is_some()));
        assert_eq!(read(&page.clone().save_to_vec().unwrap()).unwrap(), texts[now]);
    }
}

#[test]
fn seeded_calls_agree_with_a_list_of_texts() {
    let mut seed = 2152;
    for _ in 0..50 {
        follow(Kind::Utf7Header, &[0x41, 0x3D, 0x2262, 0xFFFF], &mut seed);
        follow(Kind::Utf7Body, &[0x41, 0x3D, 0x2262, 0xFFFF], &mut seed);
        follow(Kind::Jp2, &[0x060041, 0x06000D, 0x06000A, 0x572422, 0x640041], &mut seed);
    }
}
