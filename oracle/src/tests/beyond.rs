//! What a session cannot show, over longer memory: docs/session/beyond.txt, as
//! the program `test_beyond` runs it. Of what is tried on tables that were changed
//! by hand, only whether it is 101 is compared: the model has no such tables.

use super::draft::Draft;
use crate::model::{Event, Host};
use crate::session::{parse, write_loaded, write_outcome, Line};
use crate::tables::TsbList;

const MEMORY: usize = 256 * 1024;
const FILL: u8 = 0xa5;
/// The tables break a rule, and nothing is changed.
const BROKEN: &str = "65 0 0 0 0 nothing";

struct Bench {
    host: Host,
    /// What is not lent of the memory.
    kept_back: Vec<u8>,
    /// What was set by hand: record, field and value.
    set: Vec<[u64; 3]>,
}

enum Answer {
    Is(String),
    Breaks(bool),
}

#[test]
fn what_a_session_cannot_show() {
    let lines = include_str!("../../../crates/test_beyond/stdin").lines();
    let answers = include_str!("../../../crates/test_beyond/stdout").lines();
    assert_eq!(lines.clone().count(), answers.clone().count());
    let mut bench = Bench {
        host: Host::new(),
        kept_back: Vec::new(),
        set: Vec::new(),
    };
    bench.host.memory = vec![FILL; MEMORY];
    for (line, expected) in lines.zip(answers) {
        match bench.answer(line) {
            Answer::Is(answer) => assert_eq!(answer, expected, "{line}"),
            Answer::Breaks(rule) => assert_eq!(rule, expected == BROKEN, "{line}: {expected}"),
        }
    }
}

impl Bench {
    fn answer(&mut self, line: &str) -> Answer {
        if let Some(field) = line.strip_prefix("also ") {
            self.set_field(field);
            return Answer::Is("set".to_owned());
        }
        if let Some(field) = line.strip_prefix("hand ") {
            self.set_field(field);
            return Answer::Breaks(self.breaks());
        }
        if let Some(event) = line.strip_prefix("try ") {
            return match self.set.is_empty() {
                true => Answer::Is(self.try_event(event)),
                false => Answer::Breaks(self.breaks()),
            };
        }
        if let Some(cpu) = line.strip_prefix("ctx0 ") {
            return Answer::Is(self.list_of(cpu, 0));
        }
        if let Some(cpu) = line.strip_prefix("ctxnon0 ") {
            return Answer::Is(self.list_of(cpu, 1));
        }
        Answer::Is(match line {
            "zeros" => self.zeros(),
            "ctx0" => self.list(0, 0, 0),
            "ctxnon0" => self.list(0, 0, 1),
            "other" => self.list(0, 1, 0),
            "short" => self.lend(MEMORY - 1),
            "exact" => self.lend(MEMORY),
            "none" => self.lend(0),
            _ => self.plain(line),
        })
    }

    fn set_field(&mut self, line: &str) {
        let Some(Line::Event(Event::Store {
            guest,
            address,
            value,
        })) = parse(line.as_bytes())
        else {
            panic!("no field: {line}");
        };
        self.set.push([guest, address.0, value]);
    }

    /// Whether the draft breaks a rule. It is dropped.
    fn breaks(&mut self) -> bool {
        let mut draft = Draft::of(&self.host);
        for [record, field, value] in self.set.drain(..) {
            draft.set(record, field, value);
        }
        draft.breaks_a_rule(&self.host)
    }

    fn lend(&mut self, length: usize) -> String {
        let memory = &mut self.host.memory;
        memory.append(&mut self.kept_back);
        self.kept_back = memory.split_off(length);
        format!("{length:x}")
    }

    /// Leaves tables and memory as they were.
    fn try_event(&mut self, event: &str) -> String {
        let tables = self.host.tables.clone();
        let memory = self.host.memory.clone();
        let answer = self.plain(event);
        self.host.tables = tables;
        self.host.memory = memory;
        answer
    }

    fn plain(&mut self, line: &str) -> String {
        let tables = format!("{:?}", self.host.tables);
        let memory = self.host.memory.clone();
        let mut text = Vec::new();
        let event = match parse(line.as_bytes()) {
            Some(Line::Event(event)) => event,
            Some(Line::Image(image)) => {
                write_loaded(self.host.load_image(&image), &mut text);
                return String::from_utf8(text).expect("text");
            }
            None => panic!("no line of a session: {line}"),
        };
        let outcome = self.host.event(&event);
        let changed = match (
            tables != format!("{:?}", self.host.tables),
            memory != self.host.memory,
        ) {
            (true, true) => "both",
            (true, false) => "tables",
            (false, true) => "memory",
            (false, false) => "nothing",
        };
        write_outcome(outcome, &mut text);
        format!("{} {changed}", String::from_utf8(text).expect("text"))
    }

    /// Where the zeros begin and end, how many there are, and how many bytes
    /// are neither zero nor as they were filled.
    fn zeros(&self) -> String {
        let memory = &self.host.memory;
        let first = memory.iter().position(|&byte| byte == 0);
        let last = memory.iter().rposition(|&byte| byte == 0);
        let count = memory.iter().filter(|&&byte| byte == 0).count();
        let others = memory.iter().filter(|&&byte| byte != 0 && byte != FILL);
        format!(
            "{:x} {:x} {count:x} {:x}",
            first.unwrap_or(0),
            last.map_or(0, |last| last + 1),
            others.count()
        )
    }

    fn list_of(&self, cpu: &str, which: usize) -> String {
        let Some(Line::Event(Event::Load { guest, address })) = parse(cpu.as_bytes()) else {
            panic!("no guest and cpu: {cpu}");
        };
        self.list(guest as usize, address.0 as usize, which)
    }

    /// Associativity and context index are not kept by the model: an accepted
    /// descriptor has 1 and 0.
    fn list(&self, guest: usize, cpuid: usize, which: usize) -> String {
        let list: &TsbList = &self.host.tables.guests[guest].cpus[cpuid].tsb_lists[which];
        let mut text = format!("{:x}", list.iter().flatten().count());
        for place in list {
            text += &match place {
                None => ", 0 0 0 0 0 0".to_owned(),
                Some(t) => format!(
                    ", {:x} 1 {:x} 0 {:x} {:x}",
                    t.page_index, t.entries, t.page_mask, t.base.0
                ),
            };
        }
        text
    }
}
