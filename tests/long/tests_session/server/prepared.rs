//! Pieces that may be fed at once: asking whether they may changes no reply.

use super::dialogues::*;
use super::*;

fn prepare<K: Kernel>(server: &mut ServerCore<K>, id: u64, piece: &[u8]) -> bool {
    server.prepare(id, piece)
}

#[test]
fn a_piece_of_no_session_may_be_fed(rt: HostRuntime) -> Result<(), Fail> {
    let mut server = server(rt.alloc(), Plain, &RECORDS, 1)?;
    assert!(rt; prepare(&mut server, 7, QUERY));
    assert!(rt; prepare(&mut server, 7, PUBLISH));
    assert!(rt; !has_session(&server, 7));
    // One that was taken away is none.
    assert!(rt; close_session(&mut server, 0));
    assert!(rt; prepare(&mut server, 0, QUERY));
    assert!(rt; !has_session(&server, 0));
    Ok(())
}

// A short query, a refused one, one of another scheme, an edit and a publication: each may be fed
// at once, and asking twice is as asking once.
#[test]
fn short_frames_may_be_fed(rt: HostRuntime) -> Result<(), Fail> {
    short_frames_may_be_fed_on(&rt, rt.alloc(), Plain)?;
    short_frames_may_be_fed_on(&rt, rt.alloc(), Lanes)
}

const DIALOGUE: Dialogue = &[
    (&[QUERY], &[REFUSED, &[2]]),
    (&[GREETING, ONES], &[WELCOME, ZEROS]),
    (&[QUERY], &[ANSWER]),
    (&[PUBLISH], &[REFUSED, &[8]]),
    (&[EDIT], &[DONE_1]),
    (&[ODD_QUERY], &[ODD_ANSWER]),
    (&[PUBLISH], &[DONE_2]),
    (&[QUERY], &[STALE]),
    (&[BYE], &[]),
    (&[QUERY], &[]),
];

fn short_frames_may_be_fed_on<K: Kernel>(
    rt: &impl Abort,
    alloc: Global,
    kernel: K,
) -> Result<(), Fail> {
    let mut server = server(alloc, kernel, &RECORDS, 1)?;
    open_session(&mut server, 1)?;
    for (asked, reported) in DIALOGUE {
        let piece = joined(alloc, asked)?;
        assert!(rt; prepare(&mut server, 0, &piece));
        assert!(rt; prepare(&mut server, 1, &piece));
        assert!(rt; prepare(&mut server, 0, &piece));
        check(rt, alloc, &mut server, 0, asked, reported)?;
    }
    Ok(())
}

// A query in two pieces: neither is one that has to wait.
#[test]
fn a_part_of_a_query_may_be_fed(rt: HostRuntime) -> Result<(), Fail> {
    for cut in 0..=QUERY.len() {
        let mut server = server(rt.alloc(), Plain, &RECORDS, 1)?;
        check(&rt, rt.alloc(), &mut server, 0, &[GREETING, ZEROS], &[WELCOME, ZEROS])?;
        let (piece, rest) = QUERY.split_at(cut);
        let mut out = Vec::new(rt.alloc());
        for part in [piece, rest] {
            assert!(rt; prepare(&mut server, 0, part));
            feed(&mut server, 0, part, &mut out)?;
        }
        assert_eq!(rt; out.as_slice(), ANSWER);
    }
    Ok(())
}
