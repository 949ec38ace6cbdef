//! Request A8: fragments, the limit, the finish and states that are none.

use paper::stream::{feed, finish, fresh, Fed, Stream, STATE};

const STEP: &str = "S|T|6|2000000|6|2006586|-15832|-4363|-9706\n";
const A1: &str = "P|A1|1|1|6|2000000|-113105165410|623631179950|71174811140\n";
const MOVED: &str = "P|A1|1|1|6|2006586|-113105181242|623631175587|71174801434\n";

fn tabs(text: &str) -> Vec<u8> {
    text.replace('|', "\t").into_bytes()
}

/// Everything that is answered when a sheet comes in pieces of that many bytes, with the closing state.
fn pieces(text: &[u8], length: usize) -> (Vec<String>, [i64; STATE], [u8; 200]) {
    let (mut state, mut room) = (fresh(), [0; 200]);
    let mut answers = Vec::new();
    for mut piece in text.chunks(length) {
        while !piece.is_empty() {
            let fed = feed(&mut state, &mut room, piece).expect("open");
            piece = &piece[fed.taken..];
            answers.extend(fed.answer);
        }
    }
    answers.push(finish(&mut state, &mut room).expect("open"));
    (answers, state, room)
}

#[test]
fn cuts_do_not_matter() {
    let long = format!("S{}\n", "x".repeat(300));
    for text in [
        format!("{STEP}{A1}\nx{A1}"),
        format!("E|2009\n{STEP}{A1}"),
        format!("{STEP}{long}{A1}{}", A1.trim_end()),
        format!("{A1}{}", "A".repeat(400)),
        String::new(),
    ] {
        let text = tabs(&text);
        let whole = pieces(&text, usize::MAX);
        assert_eq!(whole.0.concat().into_bytes(), paper::sheet::sheet(&text));
        for length in 1..60 {
            assert_eq!(pieces(&text, length), whole);
        }
    }
}

#[test]
fn one_answer_a_call() {
    let mut stream = Stream::default();
    let both = tabs(&format!("{STEP}{A1}"));
    let fed = |taken: usize, answer: Option<&str>| {
        Ok(Fed { taken, answer: answer.map(|text| text.replace('|', "\t")) })
    };
    assert_eq!(stream.feed(&both), fed(STEP.len(), Some("")));
    assert_eq!(stream.feed(&both[STEP.len()..STEP.len() + 9]), fed(9, None));
    assert_eq!(stream.feed(b""), fed(0, None));
    assert_eq!(stream.feed(&both[STEP.len() + 9..]), fed(A1.len() - 9, Some(MOVED)));
    assert_eq!(stream.feed(b"\n\n"), fed(1, Some("R|3|19|0\n")));
    assert_eq!(stream.feed(b"P"), fed(1, None));
    assert_eq!(stream.finish(), Ok("R\t4\t18\t1\n".to_string()));
    assert_eq!(stream.finish(), Err(29));
    assert_eq!(stream.feed(b""), Err(29));
}

/// A line of 199 bytes and its line feed is a line; one byte more is skipped to the line feed and answered once.
#[test]
fn long_lines() {
    for (length, answer) in [(199, "19|0"), (200, "18|200"), (201, "18|200"), (1000, "18|200")] {
        let line = [b"X".repeat(length), b"\n".to_vec()].concat();
        assert_eq!(pieces(&line, 7).0, [format!("R\t1\t{}\n", answer.replace('|', "\t")), String::new()]);
    }
    for letter in ["S", "E", "P"] {
        let text = tabs(&format!("{letter}{}\n{A1}", "x".repeat(250)));
        let last = if letter == "P" { A1.replace('|', "\t") } else { "R\t2\t8\t0\n".to_string() };
        assert_eq!(pieces(&text, 100).0, ["R\t1\t18\t200\n", &last, ""]);
    }
    let open = "A".repeat(250);
    assert_eq!(pieces(open.as_bytes(), 100).0, ["R\t1\t18\t200\n"]);
}

/// A million lines, the last one too, also where it is left open; each further one is 28 and moves nothing.
#[test]
fn the_limit() {
    let at = |lines: i64| {
        let mut state = fresh();
        state[0] = lines;
        (state, [0; 200])
    };
    let (mut state, mut room) = at(999_999);
    assert_eq!(
        feed(&mut state, &mut room, b"S\n").expect("open").answer.as_deref(),
        Some("R\t1000000\t20\t1\n")
    );
    assert_eq!(state[..3], [1_000_000, 0, 1]);
    for line in
        [b"P\tA\n".to_vec(), b"\n".to_vec(), b"S\n".to_vec(), [b"S".repeat(300), b"\n".to_vec()].concat()]
    {
        let (mut state, mut room) = at(1_000_000);
        let before = state;
        let fed = feed(&mut state, &mut room, &line).expect("open");
        assert_eq!(fed, Fed { taken: line.len(), answer: Some("R\t1000001\t28\t0\n".to_string()) });
        assert_eq!((state, room), (before, [0; 200]));
    }
    for (lines, answer) in [(999_999, "R\t1000000\t18\t1\n"), (1_000_000, "R\t1000001\t28\t0\n")] {
        let (mut state, mut room) = at(lines);
        feed(&mut state, &mut room, b"S").expect("open");
        assert_eq!(finish(&mut state, &mut room), Ok(answer.to_string()));
        assert_eq!(state[..5], [1_000_000, 0, 1_000_000 - lines, 0, 1]);
    }
}

#[test]
fn states_that_are_none() {
    let good = {
        let (mut state, mut room) = (fresh(), [0; 200]);
        feed(&mut state, &mut room, &tabs(STEP)).expect("open");
        state
    };
    assert_eq!(good[5..20], [2021, 1, 84, 0, 6, 2000000, 6, 2006586, -15832, -4363, -9706, 0, 0, 0, 0]);
    let changes: [(usize, i64); 16] = [
        (0, -1),
        (0, 1_000_001),
        (1, -1),
        (1, 201),
        (2, 2),
        (3, -1),
        (4, 1),
        (4, 2),
        (5, 2010),
        (5, 2009),
        (6, -1),
        (6, 2),
        (6, 9),
        (7, 0),
        (10, 0),
        (13, 100_000_001),
    ];
    for (place, number) in changes {
        let mut state = good;
        state[place] = number;
        let mut room = [b'P'; 200];
        let before = state;
        assert_eq!(feed(&mut state, &mut room, b"\n"), Err(29), "{place} {number}");
        assert_eq!(feed(&mut state, &mut room, b""), Err(29));
        assert_eq!(finish(&mut state, &mut room), Err(29));
        assert_eq!((state, room), (before, [b'P'; 200]));
    }
    // Bytes kept that no sheet leaves there: a line feed among them is a byte like others.
    for (kept, last, answers) in
        [(200, b'\n', "R\t2\t18\t200\n"), (9, b'\n', "R\t2\t19\t0\n"), (0, b'\n', "R\t2\t19\t0\n")]
    {
        let (mut state, mut room) = (good, [last; 200]);
        state[1] = kept;
        assert_eq!(feed(&mut state, &mut room, b"\n").expect("open").answer.as_deref(), Some(answers));
        let (mut state, mut room) = (good, [last; 200]);
        state[1] = kept;
        let open = if kept == 0 { String::new() } else { format!("R\t2\t18\t{kept}\n") };
        assert_eq!(finish(&mut state, &mut room), Ok(open));
        assert_eq!(room, [0; 200]);
    }
    // Numbers that a T step does not use, and steps past the count, are not examined; they stay.
    let mut state = good;
    (state[8], state[19], state[21], state[110]) = (-5, i64::MAX, 99, i64::MIN);
    let mut room = [7; 200];
    assert_eq!(feed(&mut state, &mut room, &tabs(A1)).expect("open").answer, Some(MOVED.replace('|', "\t")));
    assert_eq!((state[8], state[19], state[21], state[110]), (-5, i64::MAX, 99, i64::MIN));
    assert_eq!((state[3], room), (1, [0; 200]));
}
