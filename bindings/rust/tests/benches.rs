//! Two benches: a letter on each, and seeded calls compared with a page for each.

use qalithonda::{Benches, Kind, Letter, Page, Refusal, Refused, LIMIT};

const P2: &[u8] = b"A+ImIDkQ.";

fn refused<T>(refusal: Refusal, place: usize) -> Result<T, Refused> {
    Err(Refused { refusal, place })
}

fn letter(kind: Kind, arrived: &[u8], text_room: usize) -> Letter<'_> {
    Letter { kind, arrived, text_room }
}

/// P2 on bench 0 and "Hi" on bench 1, with room for five cells each.
fn opened(history_room: usize) -> Benches {
    Benches::open([letter(Kind::Utf7Body, P2, 5), letter(Kind::Jp2, b"Hi", 5)], history_room).unwrap()
}

/// Opening, length and standing steps of each.
fn numbers(benches: &Benches) -> [[usize; 3]; 2] {
    benches.both().map(|bench| [bench.opening, bench.text.len(), bench.standing])
}

#[test]
fn one_goes_on_while_the_other_undoes_to_the_bottom() {
    let mut benches = opened(30);
    let [first, second] = benches.both();
    assert_eq!((first.kind, first.arrived, first.text), (Kind::Utf7Body, P2, &[0x41, 0x2262, 0x391, 0x2E][..]));
    assert_eq!((second.kind, second.arrived, second.text), (Kind::Jp2, &b"Hi"[..], &[0x060048, 0x060069][..]));
    assert_eq!((numbers(&benches), benches.history()), ([[4, 4, 0], [2, 2, 0]], &[][..]));
    assert_eq!((benches.is_unchanged(0), benches.is_unchanged(1)), (Ok(true), Ok(true)));

    assert_eq!(benches.replace(0, 1, 1, &[0x3D]), Ok(4));
    assert_eq!(benches.replace(1, 2, 0, &[0x060021]), Ok(3));
    assert_eq!(benches.replace(0, 4, 0, &[0x21]), Ok(5));
    let records = [0, 1, 1, 1, 0x2262, 0x3D, 1, 2, 0, 1, 0x060021, 0, 4, 0, 1, 0x21];
    assert_eq!((numbers(&benches), benches.history()), ([[4, 5, 2], [2, 3, 1]], &records[..]));

    // Bench 0 to the bottom, bench 1 one step on: the undone steps stay where they are.
    assert_eq!((benches.undo(0), benches.undo(0), benches.undo(0)), (Ok(4), Ok(4), refused(Refusal::NothingLeft, 0)));
    assert_eq!(benches.replace(1, 3, 0, &[0x060021]), Ok(4));
    assert_eq!(benches.history(), [&records[..], &[1, 3, 0, 1, 0x060021]].concat());
    assert_eq!((numbers(&benches), benches.both()[0].text), ([[4, 4, 0], [2, 4, 2]], &[0x41, 0x2262, 0x391, 0x2E][..]));
    assert_eq!((benches.is_unchanged(0), benches.is_unchanged(1)), (Ok(true), Ok(false)));

    // Bench 0 does one again, and replaces: its other undone step is dropped from between those of bench 1.
    assert_eq!((benches.redo(0), benches.replace(0, 0, 1, &[0x42])), (Ok(4), Ok(4)));
    let left = [0, 1, 1, 1, 0x2262, 0x3D, 1, 2, 0, 1, 0x060021, 1, 3, 0, 1, 0x060021, 0, 0, 1, 1, 0x41, 0x42];
    assert_eq!((numbers(&benches), benches.history()), ([[4, 4, 2], [2, 4, 2]], &left[..]));
    assert_eq!((benches.save_to_vec(0), benches.save_to_vec(1)), (Ok(b"B=+A5E-.".to_vec()), Ok(b"Hi!!".to_vec())));
    assert_eq!(benches.both().map(|bench| bench.saved), [Some(2), Some(2)]);
}

#[test]
fn each_bench_has_its_own_mark() {
    let mut benches = opened(30);
    let saved = |benches: &Benches| benches.both().map(|bench| bench.saved);
    benches.replace(0, 1, 1, &[0x3D]).unwrap();
    assert_eq!(benches.save_to_vec(1), Ok(b"Hi".to_vec()));
    assert_eq!((saved(&benches), benches.is_unchanged(0)), ([Some(0), Some(0)], Ok(false)));
    assert_eq!(benches.save_to_vec(0), Ok(b"A=+A5E-.".to_vec()));
    benches.replace(1, 0, 1, &[]).unwrap();
    assert_eq!((saved(&benches), benches.is_unchanged(0)), ([Some(1), Some(0)], Ok(true)));
    benches.undo(0).unwrap();
    benches.replace(0, 0, 0, &[]).unwrap();
    assert_eq!((saved(&benches), benches.is_unchanged(0)), ([None, Some(0)], Ok(false)));
}

#[test]
fn bytes_that_were_not_put_do_not_count_as_saved() {
    let mut benches = opened(30);
    benches.replace(0, 1, 1, &[0x3D]).unwrap();
    assert_eq!(benches.save_with(0, |_| refused::<()>(Refusal::NoRoom, 1)), refused(Refusal::NoRoom, 1));
    assert_eq!(benches.is_unchanged(0), Ok(false));
    let mut put = Vec::new();
    assert_eq!(benches.save_with(0, |bytes| Ok::<_, Refused>(put.extend(bytes))), Ok(()));
    assert_eq!((benches.is_unchanged(0), put), (Ok(true), b"A=+A5E-.".to_vec()));
    let mut out = [7; 9];
    assert_eq!(benches.save(0, &mut out[..7]), refused(Refusal::NoRoom, 8));
    assert_eq!((benches.save(0, &mut out), &out), (Ok(8), b"A=+A5E-.\x07"));
}

#[test]
fn room_is_all_that_they_share() {
    let mut benches = opened(11);
    benches.replace(0, 1, 1, &[0x3D]).unwrap();
    benches.replace(1, 2, 0, &[0x060021]).unwrap();
    assert_eq!(benches.replace(1, 3, 0, &[0x060021]), refused(Refusal::HistoryFull, 16));
    // What the other could redo stays, and takes its room; what the caller could redo is dropped.
    benches.undo(0).unwrap();
    assert_eq!(benches.replace(1, 3, 0, &[0x060021]), refused(Refusal::HistoryFull, 16));
    assert_eq!(benches.replace(0, 0, 0, &[0x41, 0x41]), refused(Refusal::NoRoom, 6));
    assert_eq!(benches.replace(0, 0, 2, &[0x41]), refused(Refusal::HistoryFull, 12));
    assert_eq!(benches.replace(0, 0, 1, &[0x42]), Ok(4));
    assert_eq!(benches.history(), [1, 2, 0, 1, 0x060021, 0, 0, 1, 1, 0x41, 0x42]);
}

#[test]
fn there_are_two_benches() {
    let mut benches = opened(30);
    for bench in [2, usize::MAX] {
        assert_eq!(benches.replace(bench, 9, 9, &[]), refused(Refusal::NoSuchBench, 0));
        assert_eq!(benches.undo(bench), refused(Refusal::NoSuchBench, 0));
        assert_eq!(benches.redo(bench), refused(Refusal::NoSuchBench, 0));
        assert_eq!(benches.save_to_vec(bench), refused(Refusal::NoSuchBench, 0));
        assert_eq!(benches.is_unchanged(bench), refused(Refusal::NoSuchBench, 0));
        assert_eq!(benches.replace(bench, 0, 0, &vec![0; LIMIT + 1]), refused(Refusal::OverLimit, LIMIT));
    }
    assert_eq!((numbers(&benches), benches.history()), ([[4, 4, 0], [2, 2, 0]], &[][..]));
}

#[test]
fn open_is_refused_as_two_opens_would_be() {
    let good = letter(Kind::Utf7Body, P2, 4);
    let faults = [
        (letter(Kind::Utf7Body, b"+AKN-", 9), Refused { refusal: Refusal::LeftOverBits, place: 4 }),
        (letter(Kind::Jp2, b"\x1b$B$\"", 9), Refused { refusal: Refusal::NotAscii, place: 5 }),
        (letter(Kind::Utf7Header, P2, 3), Refused { refusal: Refusal::NoRoom, place: 4 }),
        (letter(Kind::Utf7Body, b"", LIMIT + 1), Refused { refusal: Refusal::OverLimit, place: LIMIT }),
        (letter(Kind::Utf7Body, b"", usize::MAX), Refused { refusal: Refusal::OverLimit, place: LIMIT }),
    ];
    for (bad, told) in faults {
        assert_eq!(Benches::open([bad, good], 9).map(drop), Err(told));
        assert_eq!(Benches::open([good, bad], 9).map(drop), Err(told));
        for (other, _) in faults {
            assert_eq!(Benches::open([bad, other], 9).map(drop), Err(told));
        }
    }
    assert_eq!(Benches::open([good, good], LIMIT + 1).map(drop), refused(Refusal::OverLimit, LIMIT));
    let benches = Benches::open([letter(Kind::Utf7Body, b"", 0), letter(Kind::Jp2, b"", 0)], 0).unwrap();
    assert_eq!(numbers(&benches), [[0, 0, 0], [0, 0, 0]]);
}

/// A number below a bound, of a sequence that is the same each time (xorshift).
fn below(seed: &mut u64, bound: usize) -> usize {
    *seed ^= *seed << 13;
    *seed ^= *seed >> 7;
    *seed ^= *seed << 17;
    (*seed % bound as u64) as usize
}

/// Each bench does what a page of its own, with room for all steps, does with the same calls; the words used are those
/// of both pages, and one more for each step.
fn follow(kinds: [Kind; 2], seed: &mut u64) {
    const ROOM: usize = 80;
    let mut benches = Benches::open(kinds.map(|kind| letter(kind, P2, 12)), ROOM).unwrap();
    let mut pages = kinds.map(|kind| Page::open(kind, P2, 12, 9999).unwrap());
    for _ in 0..200 {
        let bench = below(seed, 2);
        let page = &mut pages[bench];
        match below(seed, 6) {
            0 => assert_eq!(benches.undo(bench), page.undo()),
            1 => assert_eq!(benches.redo(bench), page.redo()),
            2 => assert_eq!(benches.save_to_vec(bench), page.save_to_vec()),
            _ => {
                let (place, count) = (below(seed, 14), below(seed, 4));
                let cells: &[u32] = match kinds[bench] {
                    Kind::Jp2 => &[0x060041, 0x06000D, 0x06000A, 0x572422, 0x640041, 0x41],
                    _ => &[0x41, 0x3D, 0x2262, 0xFFFF, 0x10000],
                };
                let added: Vec<u32> = (0..below(seed, 4)).map(|_| cells[below(seed, cells.len())]).collect();
                match benches.replace(bench, place, count, &added) {
                    Err(Refused { refusal: Refusal::HistoryFull, place }) => assert!(place > ROOM),
                    answer => assert_eq!(answer, page.replace(place, count, &added)),
                }
            }
        }
        for (at, (page, here)) in pages.iter().zip(benches.both()).enumerate() {
            assert_eq!((here.text, benches.is_unchanged(at)), (page.text(), Ok(page.is_unchanged())));
            assert_eq!(here.saved.is_some(), page.saved().is_some());
        }
        let steps = steps_of(benches.history());
        assert_eq!(benches.history().len(), pages[0].used() + steps[0] + pages[1].used() + steps[1]);
    }
}

/// How many steps of each bench the records are of.
fn steps_of(mut history: &[u32]) -> [usize; 2] {
    let mut steps = [0; 2];
    while let [bench, _, removed, added, ..] = *history {
        steps[bench as usize] += 1;
        history = &history[4 + (removed + added) as usize..];
    }
    steps
}

#[test]
fn seeded_calls_agree_with_a_page_for_each() {
    let mut seed = 1554;
    for _ in 0..50 {
        follow([Kind::Utf7Header, Kind::Utf7Body], &mut seed);
        follow([Kind::Utf7Body, Kind::Jp2], &mut seed);
    }
}

#[test]
fn benches_go_to_other_threads() {
    fn sent<T: Send + Sync>(_: &T) {}
    sent(&opened(0));
}
