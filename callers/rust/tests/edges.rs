//! The edges of what may be lent: nothing, too little, just enough, and memory full of rubbish.

use jorehyi::{judge, parse, session, verdict, Answer, Edge, Session, Verdict};

const SAME: &[u8] = b"lines\t1\nH\t0\nH\t0\n=\n";
const FIVE_PUTS: &[u8] = b"put\t0\t1\nput\t1\t1\nput\t2\t1\nput\t3\t1\nput\t4\t1\n";
const PUT_ANSWER: &[u8] = b"ok\t0\n";
const UNTOUCHED: u8 = 0xa5;
const STORE: usize = 2048 * 16;

fn no(fault: u8, line: u64) -> Answer {
    Answer::No { fault, line }
}

fn empty_session() -> Session {
    Session {
        code: 0,
        lines: 0,
        bytes: 0,
        count: 0,
        registers: [None; 16],
    }
}

/// A session that only puts constants, on no store and an output of `len` bytes.
fn puts(len: usize) -> (Session, Vec<u8>) {
    let mut out = vec![UNTOUCHED; len];
    let result = session(FIVE_PUTS, &mut [], &mut [], &mut out);
    (result, out)
}

#[test]
fn empty_text() {
    let mut out = [UNTOUCHED; 32];
    let result = session(b"", &mut [0; 64], &mut [0; 8], &mut out);
    assert_eq!(result, empty_session());
    assert_eq!(out, [UNTOUCHED; 32]);
    assert_eq!(judge(b"", 2048), no(10, 1));
}

#[test]
fn nothing_lent_at_all() {
    assert_eq!(
        session(b"", &mut [], &mut [], &mut []),
        empty_session(),
        "no line exists, so none is stopped before"
    );
    assert_eq!(
        verdict(b"", &mut [], &mut [], &mut []),
        Verdict { code: 9, bytes: 0 }
    );
}

#[test]
fn session_output_too_short_for_a_line() {
    for len in [0, 15] {
        let (result, out) = puts(len);
        assert_eq!(
            result,
            Session {
                code: 9,
                ..empty_session()
            }
        );
        assert!(out.iter().all(|&b| b == UNTOUCHED));
    }
}

#[test]
fn session_output_for_some_lines() {
    // An answer has 5 bytes here, and a line is begun while 16 remain.
    for (len, lines, code) in [(16, 1, 9), (21, 2, 9), (31, 4, 9), (32, 4, 9), (36, 5, 0)] {
        let (result, out) = puts(len);
        assert_eq!((result.code, result.lines), (code, lines), "{len} bytes");
        let written = 5 * lines as usize;
        assert_eq!(result.bytes, written as u64);
        assert!(out[..written].chunks(5).all(|answer| answer == PUT_ANSWER));
        assert!(out[written..].iter().all(|&b| b == UNTOUCHED));
        for (i, register) in result.registers.iter().enumerate() {
            let one = Some(Edge { weight: 1, node: 0 });
            assert_eq!(*register, if i < lines as usize { one } else { None });
        }
    }
}

#[test]
fn verdict_output() {
    for len in [0, 15, 16, 31] {
        for text in [SAME, b"", b"nonsense"] {
            let mut out = vec![UNTOUCHED; len];
            let result = verdict(text, &mut [0; STORE], &mut [0; 8], &mut out);
            assert_eq!(result, Verdict { code: 9, bytes: 0 });
            assert!(out.iter().all(|&b| b == UNTOUCHED));
        }
    }
    for len in [32, 33] {
        let mut out = vec![UNTOUCHED; len];
        let result = verdict(SAME, &mut [0; STORE], &mut [0; 8], &mut out);
        assert_eq!(result, Verdict { code: 0, bytes: 5 });
        assert_eq!(&out[..5], b"same\n");
        assert!(out[5..].iter().all(|&b| b == UNTOUCHED));
    }
}

#[test]
fn empty_store() {
    let mut out = [0; 64];
    let text = b"put\t0\t65536\ngate\t1\tX\t0\nat\t0\t0\n";
    let result = session(text, &mut [], &mut [0; 64], &mut out);
    assert_eq!(&out[..result.bytes as usize], b"ok\t0\nno\t8\nv\t65536\n");
    assert_eq!(judge(SAME, 0), no(8, 1));
}

#[test]
fn capacity_is_rounded_down() {
    for (bytes, answer) in [(47, b"no\t8\n"), (48, b"ok\t3\n"), (63, b"ok\t3\n")] {
        let mut out = [0; 16];
        let result = session(b"unit\t0\t1", &mut vec![0; bytes], &mut [], &mut out);
        assert_eq!(&out[..result.bytes as usize], answer, "{bytes} bytes");
    }
}

#[test]
fn the_cache_changes_no_answer() {
    for words in [0, 1, 3, 4, 5, 8, 4096] {
        let mut out = [0; 32];
        let result = verdict(SAME, &mut [0; STORE], &mut vec![0; words], &mut out);
        assert_eq!(&out[..result.bytes as usize], b"same\n", "{words} words");
    }
}

#[test]
fn rubbish_in_the_lent_memory() {
    let rubbish = [0xff, 0x01, 0x10];
    for byte in rubbish {
        let mut store = [byte; STORE];
        let mut cache = [u64::from_ne_bytes([byte; 8]); 64];
        let mut out = [byte; 32];
        let result = verdict(SAME, &mut store, &mut cache, &mut out);
        assert_eq!(&out[..result.bytes as usize], b"same\n");
        // and again on what the first run left
        let text = b"lines\t2\nCX\t0\t1\n=\nCX\t1\t0\n";
        let result = verdict(text, &mut store, &mut cache, &mut out);
        assert_eq!(&out[..result.bytes as usize], b"differ\n");
    }
}

#[test]
fn faulty_texts() {
    let cases: [(&[u8], Answer); 12] = [
        (b"\n", no(10, 1)),
        (b"lines\t0\n=\n", no(10, 1)),
        (b"lines\t9\n=\n", no(10, 1)),
        (b"lines 1\n=\n", no(10, 1)),
        (b"lines\t1\nh\t0\n=\n", no(11, 2)),
        (b"lines\t1\nH\t00\n=\n", no(11, 2)),
        (b"lines\t1\n=\nH\t0\r\n", no(11, 3)),
        (b"lines\t1\n=\n\n", no(11, 3)),
        (b"lines\t2\nX\t0\nCX\t0\t2\n=\n", no(12, 3)),
        (b"lines\t2\nCX\t1\t1\n=\n", no(13, 2)),
        (b"lines\t1\n=\n=\n", no(14, 3)),
        (b"lines\t1\nH\t0", no(14, 3)),
    ];
    for (text, answer) in cases {
        assert_eq!(judge(text, 2048), answer, "{}", text.escape_ascii());
    }
}

#[test]
fn a_capacity_beyond_the_largest() {
    assert_eq!(judge(SAME, usize::MAX), Answer::Same);
}

#[test]
fn only_answers_are_parsed() {
    assert_eq!(parse(b"same\n"), Some(Answer::Same));
    assert_eq!(parse(b"factor\t65536\n"), Some(Answer::Factor(65_536)));
    assert_eq!(parse(b"differ\n"), Some(Answer::Differ));
    assert_eq!(parse(b"no\t14\t1048577\n"), Some(no(14, 1_048_577)));
    let others: [&[u8]; 15] = [
        b"",
        b"same",
        b"same\n\n",
        b"same\t\n",
        b"Same\n",
        b"factor\n",
        b"factor\t1\n",
        b"factor\t65537\n",
        b"factor\t+2\n",
        b"factor 2\n",
        b"no\t9\t1\n",
        b"no\t010\t1\n",
        b"no\t10\t0\n",
        b"no\t10\t1\t\n",
        b"\xff\n",
    ];
    for line in others {
        assert_eq!(parse(line), None, "{}", line.escape_ascii());
    }
}
