//! Reading, writing and the tally: that each function is the right one, and what it leaves.

use qalithonda::utf7::Style;
use qalithonda::{jp2, mailbox, subject, utf7, Refusal, Refused, LIMIT};

const P2: &[u8] = b"A+ImIDkQ.";
const P2_CELLS: [u32; 4] = [0x41, 0x2262, 0x391, 0x2E];
const P9: &[u8] = b"\x1b$B$\"\x1b(B";
const NAME: &[u8] = b"~peter/mail/&U,BTFw-/&ZeVnLIqe-";

fn refused<T>(refusal: Refusal, place: usize) -> Result<T, Refused> {
    Err(Refused { refusal, place })
}

#[test]
fn utf7_reads() {
    assert_eq!(utf7::read_to_vec(b""), Ok(vec![]));
    assert_eq!(utf7::read_to_vec(P2), Ok(P2_CELLS.to_vec()));
    assert_eq!(utf7::read_to_vec(b"+-"), Ok(vec![0x2B]));
    assert_eq!(utf7::read_to_vec(b"a\x80"), refused(Refusal::HighByte, 1));
    assert_eq!(utf7::read_to_vec(b"+"), refused(Refusal::LoneSign, 1));
    assert_eq!(utf7::read_to_vec(b"~"), refused(Refusal::StrayByte, 0));
    assert_eq!(utf7::read_to_vec(b"+AKN-"), refused(Refusal::LeftOverBits, 4));
    assert_eq!(utf7::read_to_vec(b"+A-"), refused(Refusal::LeftOverBits, 2));
}

#[test]
fn utf7_writes_in_both_styles() {
    assert_eq!(utf7::write_to_vec(Style::Body, &P2_CELLS), Ok(b"A+ImIDkQ-.".to_vec()));
    assert_eq!(utf7::write_to_vec(Style::Body, &[0x3D]), Ok(b"=".to_vec()));
    assert_eq!(utf7::write_to_vec(Style::Header, &[0x3D]), Ok(b"+AD0-".to_vec()));
    assert_eq!(utf7::write_to_vec(Style::Header, &[]), Ok(vec![]));
    assert_eq!(utf7::write_to_vec(Style::Header, &[0x41, 0x10000]), refused(Refusal::Unwritable, 1));
}

#[test]
fn jp2_reads() {
    assert_eq!(jp2::read_to_vec(b""), Ok(vec![]));
    assert_eq!(jp2::read_to_vec(P9), Ok(vec![0x572422]));
    assert_eq!(jp2::read_to_vec(b"\x1b.A\n\x1bNA"), Ok(vec![0x06000A, 0x640041]));
    assert_eq!(jp2::read_to_vec(b"\x1b\xff"), refused(Refusal::HighByte, 1));
    assert_eq!(jp2::read_to_vec(b"\x1b$B "), refused(Refusal::StrayByte, 3));
    assert_eq!(jp2::read_to_vec(b"\x1b$(B"), refused(Refusal::UnknownEscape, 3));
    assert_eq!(jp2::read_to_vec(b"\x1b.A\r\n\x1bNA"), refused(Refusal::EmptyG2, 6));
    assert_eq!(jp2::read_to_vec(&P9[..4]), refused(Refusal::CutShort, 4));
    assert_eq!(jp2::read_to_vec(&P9[..5]), refused(Refusal::NotAscii, 5));
}

#[test]
fn jp2_plain_reads_as_jp2_reads() {
    let long = [b'a'; jp2::PLAIN_LIMIT + 1];
    let most = &long[1..];
    for text in [b"".as_slice(), P9, &P9[..4], &P9[..5], b"\x1b.A\r\n\x1bNA", b"\x1b$(B", b"\x1b$B ", most] {
        assert_eq!(jp2::plain_read_to_vec(text), jp2::read_to_vec(text));
    }
    assert_eq!(jp2::plain_read_to_vec(&long), refused(Refusal::OverLimit, 512));
    let mut cells = [7; 3];
    assert_eq!(jp2::plain_read(b"ab\x1b$B$\"\x1b(Bc", &mut cells), refused(Refusal::NoRoom, 4));
    assert_eq!(cells, [7; 3]);
}

#[test]
fn jp2_writes_and_counts() {
    assert_eq!(jp2::write_to_vec(&[0x572422]), Ok(P9.to_vec()));
    assert_eq!(jp2::write_to_vec(&[0x952121]), Ok(b"\x1b$(C!!\x1b(B".to_vec()));
    assert_eq!(jp2::write_to_vec(&[0x060041, 0x41]), refused(Refusal::Unwritable, 1));
    assert_eq!(jp2::tally(&[]), Ok([0; 9]));
    assert_eq!(jp2::tally(&[0x060041, 0x41]), refused(Refusal::Unwritable, 1));
    for (index, set) in jp2::SETS.into_iter().enumerate() {
        let code = if [6, 14, 100, 126].contains(&set) { 0x41 } else { 0x2422 };
        let mut counts = [0; 9];
        counts[index] = 2;
        assert_eq!(jp2::tally(&[set << 16 | code; 2]), Ok(counts));
    }
}

#[test]
fn subject_reads() {
    assert_eq!(subject::read_to_vec(b""), Ok(vec![]));
    assert_eq!(subject::read_to_vec(b"=?utf-7?Q?a_b=3F?="), Ok(vec![0x61, 0x20, 0x62, 0x3F]));
    let parted = b"=?utf-7?Q?+2D0-?=\r\n =?utf-7?Q?+3gk-?=";
    assert_eq!(subject::read_to_vec(parted), Ok(vec![0xD83D, 0xDE09]));
    assert_eq!(subject::read_to_vec(b"=?utf-7?Q?a=80?="), refused(Refusal::HighByte, 11));
    assert_eq!(subject::read_to_vec(b"=?utf-7?Q?+?="), refused(Refusal::LoneSign, 11));
    assert_eq!(subject::read_to_vec(b"=?utf-7?Q?a=7E?="), refused(Refusal::StrayByte, 11));
    assert_eq!(subject::read_to_vec(b"=?utf-7?Q?+AKN?="), refused(Refusal::LeftOverBits, 14));
    assert_eq!(subject::read_to_vec(b"=?utf-7?Q?a\x80?="), refused(Refusal::BadWord, 11));
    assert_eq!(subject::read_to_vec(b"=?utf-7?Q?a=a8?="), refused(Refusal::BadWord, 12));
    assert_eq!(subject::read_to_vec(b"=?utf-7?Q?+"), refused(Refusal::BadWord, 11));
    assert_eq!(subject::read_to_vec(&vec![b'a'; LIMIT + 1]), refused(Refusal::OverLimit, LIMIT));
}

#[test]
fn subject_writes() {
    assert_eq!(subject::write_to_vec(&[]), Ok(vec![]));
    let cells: Vec<u32> = [0x61; 58].into_iter().chain([0xD83D, 0xDE09]).collect();
    let line = [b"=?utf-7?Q?", &[b'a'; 58][..], b"?=\r\n =?utf-7?Q?+2D3eCQ-?="].concat();
    assert_eq!(subject::write_to_vec(&cells), Ok(line.clone()));
    assert_eq!(subject::read_to_vec(&line), Ok(cells));
    assert_eq!(subject::write_to_vec(&[0x41, 0x10000]), refused(Refusal::Unwritable, 1));
    assert_eq!(subject::write_to_vec(&vec![0x41; LIMIT + 1]), refused(Refusal::OverLimit, LIMIT));
}

#[test]
fn mailbox_reads() {
    assert_eq!(mailbox::read_to_vec(b""), Ok(vec![]));
    let cells: Vec<u32> = "~peter/mail/台北/日本語".encode_utf16().map(u32::from).collect();
    assert_eq!(mailbox::read_to_vec(NAME), Ok(cells));
    assert_eq!(mailbox::read_to_vec(b"&-"), Ok(vec![0x26]));
    assert_eq!(mailbox::read_to_vec(b"&AKM-&-"), Ok(vec![0xA3, 0x26]));
    assert_eq!(mailbox::read_to_vec(b"+-"), Ok(vec![0x2B, 0x2D]));
    assert_eq!(mailbox::read_to_vec(b"a\x80"), refused(Refusal::HighByte, 1));
    assert_eq!(mailbox::read_to_vec(b"&"), refused(Refusal::LoneSign, 1));
    assert_eq!(mailbox::read_to_vec(b"&AKN!"), refused(Refusal::StrayByte, 4));
    assert_eq!(mailbox::read_to_vec(b"\t"), refused(Refusal::StrayByte, 0));
    assert_eq!(mailbox::read_to_vec(b"&AKN-"), refused(Refusal::LeftOverBits, 4));
    assert_eq!(mailbox::read_to_vec(b"&AKN"), refused(Refusal::CutShort, 4));
    assert_eq!(mailbox::read_to_vec(b"&ACY-"), refused(Refusal::NeedlessShift, 3));
    assert_eq!(mailbox::read_to_vec(b"&AKM-&AKM-"), refused(Refusal::NeedlessShift, 6));
    assert_eq!(mailbox::read_to_vec(b"&A-"), refused(Refusal::NeedlessShift, 2));
}

#[test]
fn mailbox_writes() {
    assert_eq!(mailbox::write_to_vec(&[]), Ok(vec![]));
    assert_eq!(mailbox::write_to_vec(&mailbox::read_to_vec(NAME).unwrap()), Ok(NAME.to_vec()));
    assert_eq!(mailbox::write_to_vec(&P2_CELLS), Ok(b"A&ImIDkQ-.".to_vec()));
    assert_eq!(mailbox::write_to_vec(&[0x26, 0x2B, 0x09]), Ok(b"&-+&AAk-".to_vec()));
    assert_eq!(mailbox::write_to_vec(&[0x41, 0x10000]), refused(Refusal::Unwritable, 1));
}

/// Calls with every room up to two elements more than are needed: too little leaves the output as it was, and enough
/// fills the first elements and no others.
fn fills<T: Copy + Default + PartialEq + std::fmt::Debug>(
    full: &[T],
    mark: T,
    call: impl Fn(&mut [T]) -> Result<usize, Refused>,
) {
    for room in 0..full.len() + 3 {
        let mut output = vec![mark; room];
        if room < full.len() {
            assert_eq!(call(&mut output), refused(Refusal::NoRoom, full.len()));
            assert_eq!(output, vec![mark; room]);
        } else {
            assert_eq!(call(&mut output), Ok(full.len()));
            assert_eq!(output[..full.len()], *full);
            assert_eq!(output[full.len()..], vec![mark; room - full.len()]);
        }
    }
}

#[test]
fn outputs_are_filled_as_far_as_the_count() {
    fills(&P2_CELLS, 7, |cells| utf7::read(P2, cells));
    fills(b"A+ImIDkQ-.", 7, |out| utf7::write(Style::Body, &P2_CELLS, out));
    fills(b"A+ImIDkQ-.", 7, |out| utf7::write(Style::Header, &P2_CELLS, out));
    fills(&[0x572422], 7, |cells| jp2::read(P9, cells));
    fills(P9, 7, |out| jp2::write(&[0x572422], out));
    fills(&P2_CELLS, 7, |cells| mailbox::read(b"A&ImIDkQ-.", cells));
    fills(b"A&ImIDkQ-.", 7, |out| mailbox::write(&P2_CELLS, out));
}

#[test]
fn a_fault_leaves_the_output_as_it_was() {
    let (mut cells, mut out) = ([7; 9], [7; 9]);
    assert_eq!(utf7::read(b"A+ImIDkQ~", &mut cells), refused(Refusal::StrayByte, 8));
    assert_eq!(jp2::read(&P9[..5], &mut cells), refused(Refusal::NotAscii, 5));
    assert_eq!(mailbox::read(b"a&ImIDkQ", &mut cells), refused(Refusal::CutShort, 8));
    assert_eq!(cells, [7; 9]);
    assert_eq!(utf7::write(Style::Body, &[0x41, 0x10000], &mut out), refused(Refusal::Unwritable, 1));
    assert_eq!(jp2::write(&[0x060041, 0], &mut out), refused(Refusal::Unwritable, 1));
    assert_eq!(mailbox::write(&[0x41, 0x10000], &mut out), refused(Refusal::Unwritable, 1));
    assert_eq!(out, [7; 9]);
}

#[test]
fn vectors_have_exactly_the_room_needed() {
    let cells = utf7::read_to_vec(P2).unwrap();
    assert_eq!((cells.len(), cells.capacity()), (4, 4));
    let bytes = jp2::write_to_vec(&[0x572422; 5]).unwrap();
    assert_eq!((bytes.len(), bytes.capacity()), (16, 16));
}

#[test]
fn the_limit_is_within() {
    for (length, expected) in [(LIMIT, Ok(LIMIT)), (LIMIT + 1, refused(Refusal::OverLimit, LIMIT))] {
        let (text, units, cells) = (vec![b'A'; length], vec![0x41; length], vec![0x060041; length]);
        assert_eq!(utf7::read_to_vec(&text).map(|cells| cells.len()), expected);
        assert_eq!(jp2::read_to_vec(&text).map(|cells| cells.len()), expected);
        assert_eq!(utf7::write_to_vec(Style::Header, &units).map(|bytes| bytes.len()), expected);
        assert_eq!(utf7::write_to_vec(Style::Body, &units).map(|bytes| bytes.len()), expected);
        assert_eq!(jp2::write_to_vec(&cells).map(|bytes| bytes.len()), expected);
        assert_eq!(jp2::tally(&cells).map(|counts| counts[0] as usize), expected);
        assert_eq!(mailbox::read_to_vec(&text).map(|cells| cells.len()), expected);
        assert_eq!(mailbox::write_to_vec(&units).map(|bytes| bytes.len()), expected);
    }
}

#[test]
fn the_room_that_the_papers_name_is_enough() {
    let units: Vec<u32> = [0x391, 0x41].repeat(50);
    assert!(utf7::write_to_vec(Style::Body, &units).unwrap().len() <= 5 * units.len());
    let shifts: Vec<u32> = [0x640041, 0x7E0041].repeat(50);
    assert_eq!(jp2::write_to_vec(&shifts).unwrap().len(), 6 * shifts.len());
    assert_eq!(jp2::write_to_vec(&[0x952121]).unwrap().len(), 6 + 3);
    assert_eq!(mailbox::write_to_vec(&[0xA3]).unwrap().len(), 5);
    assert!(mailbox::write_to_vec(&units).unwrap().len() <= 5 * units.len());
}
