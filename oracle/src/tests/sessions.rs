//! Whole sessions: the long one of docs/session, whose answers were worked out
//! from the paper, and those for measuring speed.

use super::answers;
use crate::bench;

#[test]
fn the_long_session_answers_as_written() {
    let expected = include_str!("../../../crates/chaldrev/stdout");
    let answers = answers(include_bytes!("../../../crates/chaldrev/stdin"));
    for (place, (answer, expected)) in answers.iter().zip(expected.lines()).enumerate() {
        let line = place + 1;
        assert_eq!(answer, expected, "docs/session/unfold --why {line}");
    }
    assert_eq!(answers.len(), expected.lines().count());
}

fn bench_session(kind: &str, lines: u64) -> Vec<(String, String)> {
    let mut text = Vec::new();
    let kind = bench::kind(kind).expect("a kind that there is");
    bench::write_session(&kind, lines, &mut text).expect("memory");
    let answers = answers(&text);
    let text = String::from_utf8(text).expect("text");
    assert_eq!(text.lines().count() as u64, lines);
    text.lines().map(str::to_owned).zip(answers).collect()
}

#[test]
fn every_raise_and_mondo_of_a_bench_session_is_delivered() {
    for kind in ["mix", "raise", "mondo", "seams", "hit"] {
        for (line, answer) in bench_session(kind, 20_000) {
            let slip = line.contains("a8 200 5") || line.contains("14 3c 40 2");
            let hit = bench::HITS_REFUSED.contains(&line.as_str());
            let refused = slip || hit || line == bench::SENT_TWICE;
            assert!(refused || answer.starts_with('0'), "{line}: {answer}");
            assert!(
                !line.starts_with("raise") || answer == "0 2 0 0 0",
                "{line}: {answer}"
            );
        }
    }
}

#[test]
fn the_hits_of_a_bench_session_are_counted() {
    let mut session = bench_session("hit", 20_000);
    let refused = |line: &str| bench::HITS_REFUSED.contains(&line);
    for (line, answer) in &session {
        assert!(!refused(line) || answer == "6 0 0 0 0", "{line}: {answer}");
    }
    session.retain(|(line, _)| line.starts_with("load"));
    let read = session.len();
    session.retain(|(_, answer)| answer != "0 0 0 0 0");
    assert!(2 * session.len() > read, "{} of {read}", session.len());
}

#[test]
fn a_list_that_is_left_in_a_bench_session_is_sent_again() {
    let mut session = bench_session("mondo", 20_000);
    session.retain(|(line, _)| line == bench::SENT_TWICE);
    let answers: Vec<&str> = session.iter().map(|(_, answer)| answer.as_str()).collect();
    assert!(answers.len() > 200);
    for pair in answers.chunks_exact(2).skip(1) {
        assert_eq!(pair, ["9 0 0 0 0", "0 0 0 0 0"]);
    }
}
