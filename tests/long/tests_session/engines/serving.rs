//! The server's side.

use super::helpers::*;
use super::*;

// Serves the parts as session 0, whole and a few bytes at a time, and compares what was said and
// how it ended.
fn check<K: Kernel>(
    rt: &impl Abort,
    alloc: Global,
    parts: &[&[u8]],
    said: &[&[u8]],
    ended: Result<Ending, ServeFault>,
    kernel: K,
) -> Result<(), Fail> {
    let bytes = joined(alloc, parts)?;
    let wanted = joined(alloc, said)?;
    for most in [1, 7, PIECE] {
        let mut server = server(alloc, kernel)?;
        let mut reader = Input {
            bytes: &bytes,
            most,
            fails: false,
        };
        let mut writer = Output {
            bytes: Vec::new(alloc),
            room: PIECE,
            fails: false,
        };
        let result = serve_all(alloc, &mut server, 0, &mut reader, &mut writer, TURNS);
        assert_eq!(rt; result, ended, "{most} bytes a read");
        assert_eq!(rt;
            writer.bytes.as_slice(),
            wanted.as_slice(),
            "{most} bytes a read"
        );
        assert_eq!(rt; server.has_session(0), false, "{most} bytes a read");
    }
    Ok(())
}

#[test]
fn a_greeting_is_answered_and_a_bye_closes(rt: HostRuntime) -> Result<(), Fail> {
    a_greeting_is_answered_and_a_bye_closes_on(&rt, rt.alloc(), Plain)?;
    a_greeting_is_answered_and_a_bye_closes_on(&rt, rt.alloc(), Lanes)
}

fn a_greeting_is_answered_and_a_bye_closes_on<K: Kernel>(
    rt: &impl Abort,
    alloc: Global,
    kernel: K,
) -> Result<(), Fail> {
    check(
        rt,
        alloc,
        &[GREETING, &ZEROS, BYE],
        &[WELCOME, &ZEROS],
        Ok(Ending::Closed),
        kernel,
    )
}

#[test]
fn the_input_may_end_anywhere(rt: HostRuntime) -> Result<(), Fail> {
    the_input_may_end_anywhere_on(&rt, rt.alloc(), Plain)?;
    the_input_may_end_anywhere_on(&rt, rt.alloc(), Lanes)
}

fn the_input_may_end_anywhere_on<K: Kernel>(
    rt: &impl Abort,
    alloc: Global,
    kernel: K,
) -> Result<(), Fail> {
    check(rt, alloc, &[], &[], Ok(Ending::EndOfInput), kernel)?;
    check(
        rt,
        alloc,
        &[GREETING, &ZEROS, HINT_ASK, &HINT_ASK[..17]],
        &[WELCOME, &ZEROS, HINT_PART],
        Ok(Ending::EndOfInput),
        kernel,
    )
}

#[test]
fn what_can_not_be_read_closes(rt: HostRuntime) -> Result<(), Fail> {
    what_can_not_be_read_closes_on(&rt, rt.alloc(), Plain)?;
    what_can_not_be_read_closes_on(&rt, rt.alloc(), Lanes)
}

fn what_can_not_be_read_closes_on<K: Kernel>(
    rt: &impl Abort,
    alloc: Global,
    kernel: K,
) -> Result<(), Fail> {
    let faults: [&[u8]; 3] = [&[1, 0, 0, 1], &[0, 0, 0, 0, 0x7f], DONE];
    for fault in faults {
        check(
            rt,
            alloc,
            &[GREETING, &ZEROS, fault],
            &[WELCOME, &ZEROS, REFUSED],
            Ok(Ending::Closed),
            kernel,
        )?;
    }
    Ok(())
}

#[test]
fn nothing_is_read_after_the_piece_that_closes(rt: HostRuntime) -> Result<(), Fail> {
    nothing_is_read_after_the_piece_that_closes_on(&rt, rt.alloc(), Plain)?;
    nothing_is_read_after_the_piece_that_closes_on(&rt, rt.alloc(), Lanes)
}

fn nothing_is_read_after_the_piece_that_closes_on<K: Kernel>(
    rt: &impl Abort,
    alloc: Global,
    kernel: K,
) -> Result<(), Fail> {
    let mut server = server(alloc, kernel)?;
    let mut reader = Input {
        bytes: BYE,
        most: PIECE,
        fails: true,
    };
    let mut writer = Vec::new(alloc);
    let result = serve_all(alloc, &mut server, 0, &mut reader, &mut writer, 1);
    assert_eq!(rt; result, Ok(Ending::Closed));
    Ok(())
}

#[test]
fn a_reader_that_fails(rt: HostRuntime) -> Result<(), Fail> {
    a_reader_that_fails_on(&rt, rt.alloc(), Plain)?;
    a_reader_that_fails_on(&rt, rt.alloc(), Lanes)
}

fn a_reader_that_fails_on<K: Kernel>(
    rt: &impl Abort,
    alloc: Global,
    kernel: K,
) -> Result<(), Fail> {
    let input = joined(alloc, &[GREETING, &ONES, EDIT])?;
    let said = joined(alloc, &[WELCOME, &ZEROS, DONE])?;
    for len in 0..50 {
        let owed = match len {
            0..39 => 0,
            39..49 => 58,
            _ => 71,
        };
        let mut server = server(alloc, kernel)?;
        let mut reader = Input {
            bytes: input.get(..len).unwrap_or(&[]),
            most: 5,
            fails: true,
        };
        let mut writer = Vec::new(alloc);
        let result = serve_all(alloc, &mut server, 0, &mut reader, &mut writer, TURNS);
        assert_eq!(rt; result, Err(ServeFault::Read), "{len}");
        assert_eq!(rt; Some(writer.as_slice()), said.get(..owed), "{len}");
        assert_eq!(rt; server.has_session(0), false, "{len}");
    }
    Ok(())
}

#[test]
fn all_turns_are_used_up(rt: HostRuntime) -> Result<(), Fail> {
    all_turns_are_used_up_on(&rt, rt.alloc(), Plain)?;
    all_turns_are_used_up_on(&rt, rt.alloc(), Lanes)
}

fn all_turns_are_used_up_on<K: Kernel>(
    rt: &impl Abort,
    alloc: Global,
    kernel: K,
) -> Result<(), Fail> {
    let bytes = joined(alloc, &[GREETING, &ZEROS, HINT_ASK])?;
    let welcome = joined(alloc, &[WELCOME, &ZEROS])?;
    for (turns, said) in [(0, &[][..]), (38, &[][..]), (39, welcome.as_slice())] {
        let mut server = server(alloc, kernel)?;
        let mut reader = Input {
            bytes: &bytes,
            most: 1,
            fails: false,
        };
        let mut writer = Vec::new(alloc);
        let result = serve_all(alloc, &mut server, 0, &mut reader, &mut writer, turns);
        assert_eq!(rt; result, Err(ServeFault::TurnsUsedUp), "{turns}");
        assert_eq!(rt; writer.as_slice(), said, "{turns}");
        assert_eq!(rt;
            reader.bytes.len() as u64 + turns,
            bytes.len() as u64,
            "{turns}"
        );
        assert_eq!(rt; server.has_session(0), false, "{turns}");
    }
    Ok(())
}

#[test]
fn a_writer_that_fails_stops_before_the_next_frame(rt: HostRuntime) -> Result<(), Fail> {
    a_writer_that_fails_stops_before_the_next_frame_on(&rt, rt.alloc(), Plain)?;
    a_writer_that_fails_stops_before_the_next_frame_on(&rt, rt.alloc(), Lanes)
}

fn a_writer_that_fails_stops_before_the_next_frame_on<K: Kernel>(
    rt: &impl Abort,
    alloc: Global,
    kernel: K,
) -> Result<(), Fail> {
    let input = joined(alloc, &[GREETING, &ONES, EDIT])?;
    let said = joined(alloc, &[WELCOME, &ZEROS, DONE])?;
    for room in 0..71 {
        let mut server = server(alloc, kernel)?;
        let mut reader = input.as_slice();
        let mut writer = Output {
            bytes: Vec::new(alloc),
            room,
            fails: room % 2 == 0,
        };
        let result = serve_all(alloc, &mut server, 7, &mut reader, &mut writer, TURNS);
        assert_eq!(rt; result, Err(ServeFault::Write), "{room}");
        assert_eq!(rt; Some(writer.bytes.as_slice()), said.get(..room), "{room}");
        assert_eq!(rt; server.has_session(7), false, "{room}");
        // The edit is looked at once the Welcome is written, and accepted whatever becomes of its
        // Done.
        let welcomed = room >= WELCOME.len() + ZEROS.len();
        assert_eq!(rt; publish(&mut server).is_ok(), welcomed, "{room}");
    }
    Ok(())
}

#[test]
fn a_writer_that_takes_nothing(rt: HostRuntime) -> Result<(), Fail> {
    a_writer_that_takes_nothing_on(&rt, rt.alloc(), Plain)?;
    a_writer_that_takes_nothing_on(&rt, rt.alloc(), Lanes)
}

fn a_writer_that_takes_nothing_on<K: Kernel>(
    rt: &impl Abort,
    alloc: Global,
    kernel: K,
) -> Result<(), Fail> {
    let input = joined(alloc, &[GREETING, &ZEROS])?;
    let mut server = server(alloc, kernel)?;
    let mut reader = input.as_slice();
    let mut writer = Output {
        bytes: Vec::new(alloc),
        room: 0,
        fails: false,
    };
    let result = serve_all(alloc, &mut server, 0, &mut reader, &mut writer, TURNS);
    assert_eq!(rt; result, Err(ServeFault::Write));
    Ok(())
}

#[test]
fn a_session_of_this_number_is_left_alone(rt: HostRuntime) -> Result<(), Fail> {
    a_session_of_this_number_is_left_alone_on(&rt, rt.alloc(), Plain)?;
    a_session_of_this_number_is_left_alone_on(&rt, rt.alloc(), Lanes)
}

fn a_session_of_this_number_is_left_alone_on<K: Kernel>(
    rt: &impl Abort,
    alloc: Global,
    kernel: K,
) -> Result<(), Fail> {
    for turns in [0, TURNS] {
        let mut server = server(alloc, kernel)?;
        open_session(&mut server, 3)?;
        let mut reader = BYE;
        let mut writer = Vec::new(alloc);
        let result = serve_all(alloc, &mut server, 3, &mut reader, &mut writer, turns);
        assert_eq!(rt; result, Err(ServeFault::IdInUse));
        assert_eq!(rt; reader, BYE);
        assert_eq!(rt; server.is_open(3), true);
    }
    Ok(())
}
