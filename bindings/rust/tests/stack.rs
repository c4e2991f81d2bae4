//! That a reading, however deep its source is nested, runs in a small stack.

use nurl::{read, rows_enough, tokens_enough, Answer};

/// Reads a source on a thread with a stack of 256 KiB.
fn read_on_a_small_stack(source: String) -> Answer {
    let thread = std::thread::Builder::new().stack_size(256 << 10);
    let reading = move || {
        let mut tokens = vec![0; tokens_enough(source.len())];
        let mut rows = vec![0; rows_enough(source.len())];
        read(source.as_bytes(), b"", &mut tokens, &mut rows)
    };
    thread.spawn(reading).unwrap().join().unwrap()
}

#[test]
fn the_deepest_blocks_need_no_more() {
    let nested = |times| format!("@ g → v {}{}", "{".repeat(times), "}".repeat(times));
    let accepted = read_on_a_small_stack(nested(198));
    assert!(matches!(accepted, Answer::Accepted { .. }), "{accepted:?}");
    for times in [199, 10_000, 500_000] {
        let refused = read_on_a_small_stack(nested(times));
        assert!(matches!(refused, Answer::Refused { number: 7, .. }));
    }
}
