//! Tests on the session's text.

mod beyond;
mod coverage;
mod draft;
mod examples;
mod fault_kinds;
mod faults;
mod hit_kinds;
mod hits;
mod plan;
mod plan_kinds;
mod readings;
mod resent;
mod resent_kinds;
mod rules;
mod seam_kinds;
mod seams;
mod sessions;
mod target_kinds;
mod targets;
mod text;
mod write;

use crate::model::{Event, Host};
use crate::session::{self, parse, Line};

/// Two guests with one page and one source each, from the paper's session.
const IMAGE: &str =
    "image 12 221 0000000 0001 0000 0000100 0b 121 0000000 0001 0001 0000200 0b -> 0\n";

/// All groups of guest 0, with group 2 at 2.0.
const VERSIONS: &str = "call 0 0 ff 0 0 1 -> 0 0 0 0 0
call 0 0 ff 0 1 1 -> 0 0 0 0 0
call 0 0 ff 0 2 2 -> 0 0 0 0 0
call 0 0 ff 0 200 1 -> 0 0 0 0 0\n";

fn answers(input: &[u8]) -> Vec<String> {
    let mut output = Vec::new();
    session::run(input, &mut output).expect("reading from and writing to memory");
    let output = String::from_utf8(output).expect("answers are text");
    assert!(output.is_empty() || output.ends_with('\n'));
    output.lines().map(str::to_owned).collect()
}

/// Each line of the script is a line of input, an arrow and its answer. Only
/// the status need be given where all values are 0.
fn check(script: &str) {
    let pairs: Vec<(&str, &str)> = script
        .lines()
        .map(|line| line.split_once(" -> ").expect("an arrow"))
        .collect();
    let input: String = pairs.iter().map(|(line, _)| format!("{line}\n")).collect();
    let answers = answers(input.as_bytes());
    assert_eq!(answers.len(), pairs.len());
    for ((line, expected), answer) in pairs.iter().zip(answers) {
        assert_eq!(answer, in_full(line, expected), "{line}");
    }
}

/// The answer with its values: an image has two, an event four.
fn in_full(line: &str, expected: &str) -> String {
    let zeros = match line.starts_with("image") {
        true => " 0 0",
        false => " 0 0 0 0",
    };
    match expected == "bad" || expected.contains(' ') {
        true => expected.to_owned(),
        false => format!("{expected}{zeros}"),
    }
}

/// Hands the events of a session over one by one, each to be answered on the
/// host. Left out are those that find too little memory: all are refused.
fn each_event(text: &[u8], mut answer: impl FnMut(&mut Host, &Event)) {
    let mut host = Host::new();
    for line in text.split(|&byte| byte == b'\n') {
        match parse(line) {
            Some(Line::Image(image)) => _ = host.load_image(&image),
            Some(Line::Event(event)) if host.tables.host_end <= host.memory.len() as u64 => {
                answer(&mut host, &event)
            }
            _ => (),
        }
    }
}

/// A script after the image and the versions.
fn check_prepared(script: &str) {
    check(&format!("{IMAGE}{VERSIONS}{script}"));
}
