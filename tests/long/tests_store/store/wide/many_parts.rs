//! The hint of a wide store in more parts than an ordinary one has.
//! Run by `tests/long/run --slow`.

use super::*;

// A hint of 65 parts: 32,768 rows of 129 words are 512 words more than 64 parts have.
#[test]
fn a_hint_of_more_than_64_parts(rt: HostRuntime) -> Result<(), Fail> {
    let header = Header {
        dimension: 129,
        ..header(129, 32_768, 32_768)
    };
    let snapshot = header.with_records(records(rt.alloc(), 129, 32_768)?);
    let store = open(rt.alloc(), Lanes, snapshot)?;
    for (part, wanted) in [(0, 65_536), (63, 65_536), (64, 32_768), (65, 0)] {
        let words = store.hint_words(Scheme::Simple, part);
        assert_eq!(rt; words.map_or(0, |words| words.len()), wanted, "{part}");
    }
    let last = store.hint_words(Scheme::Simple, 64);
    let row = store.hint_row(32_767);
    assert_eq!(rt; last.map(|words| &words[words.len() - 129..]), Some(row));
    Ok(())
}
