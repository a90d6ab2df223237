//! One line of a list of calls or of runs, with what a subject answers.

use crate::call::Call;
use crate::plain::takes;
use crate::subject::{Answer, Caller, Subject};

/// One run: the caller, the file, what is lent and the budget; then what is returned, and the three slices as they are
/// left. A run from before request 9 has no budget and does not tell whether it stopped: it is given as many records as
/// its file has.
pub fn run<S: Subject>(line: &str) -> String {
    let question = line.split(" = ").next().expect("a text has a first part");
    let words: Vec<&str> = question.split(' ').collect();
    let number = |k: usize| -> usize { words[k].parse().expect("a number") };
    assert_eq!([words[2], words[4], words[6], words[8]], ["fill", "arena", "table", "answers"], "{line}");
    let caller = match words[0] {
        "run" => Caller::Upload,
        "panel" => Caller::Panel,
        other => panic!("no such run: {other}"),
    };
    let file = bytes(words[1]);
    let budget = match words.get(10) {
        Some(&word) => {
            assert_eq!(word, "budget", "{line}");
            Some(words[11].parse().expect("a number of 32 bits"))
        }
        None => None,
    };
    let lent = |k: usize| vec![number(3) as u8; number(k)];
    let (mut arena, mut table, mut answers) = (lent(5), lent(7), lent(9));
    let given = budget.unwrap_or(takes::judge(&file).map_or(0, |(_, count)| count as u32));
    let ran = caller.run::<S>(&file, &mut arena, &mut table, &mut answers, given);
    let stopped = budget.map_or(String::new(), |_| format!("{} ", u8::from(ran.stopped)));
    let registers = ran.registers.map(|register| register.to_string()).join(" ");
    let slices = [answers, arena, table].map(|slice| hexadecimal(&slice)).join(" ");
    format!("{question} = {} {} {stopped}{registers} {slices}", ran.number, ran.count)
}

/// The answer in a line that has one: what follows `=`, or the bytes of a buffer.
pub fn answer(line: &str) -> Option<String> {
    let (_, answer) =
        line.split_once(" = ").or_else(|| line.split_once("arena ")).or_else(|| line.split_once("table "))?;
    Some(format!("{answer}\n"))
}

/// Buffers of the largest size, and how much of each is lent.
pub struct Heap {
    arena: Vec<u8>,
    table: Vec<u8>,
    lent: (usize, usize),
}

impl Heap {
    pub fn new() -> Heap {
        Heap { arena: vec![0; 65_536], table: vec![0; 4_096], lent: (0, 0) }
    }

    fn buffers(&mut self) -> (&mut [u8], &mut [u8]) {
        (&mut self.arena[..self.lent.0], &mut self.table[..self.lent.1])
    }

    /// One line, with what the subject answers.
    pub fn line<S: Subject>(&mut self, line: &str) -> String {
        let question = line.split(" = ").next().expect("a text has a first part");
        let words: Vec<&str> = question.split(' ').collect();
        let numbers: Vec<u32> = words[1..].iter().filter_map(|word| word.parse().ok()).collect();
        match (words[0], &numbers[..]) {
            ("heap", &[m]) => self.heap::<S>(m),
            ("only", &[arena, table]) => self.lent = (arena as usize, table as usize),
            ("poke", &[slot, entry]) => self.table[slot as usize] = entry as u8,
            ("arena", _) => return format!("arena {}", hexadecimal(self.buffers().0)),
            ("table", _) => return format!("table {}", hexadecimal(self.buffers().1)),
            ("show", &[p]) => {
                let (arena, table) = self.buffers();
                let part = S::show(arena, table, p);
                let shown = hexadecimal(&arena[part.offset as usize..][..part.length as usize]);
                return format!("{question} = {} {shown}", part.number);
            }
            (operation, arguments) => {
                let answer = self.call::<S>(operation, arguments);
                return format!("{question} = {} {}", answer.number, answer.value);
            }
        }
        line.to_string()
    }

    /// Lends buffers of order m and makes them fresh: what they held before must not show.
    fn heap<S: Subject>(&mut self, m: u32) {
        self.lent = (1 << m, 1 << (m - 4));
        let (arena, table) = self.buffers();
        arena.fill(0xA5);
        table.fill(0xA5);
        assert_eq!(S::fresh(arena, table), Answer { number: 0, value: 0 }, "heap {m}");
    }

    fn call<S: Subject>(&mut self, operation: &str, arguments: &[u32]) -> Answer {
        let byte = |v: u32| u8::try_from(v).expect("a byte");
        let (arena, table) = self.buffers();
        let call = match (operation, arguments) {
            ("fresh", []) => return S::fresh(arena, table),
            ("check", &[h, i]) => return S::check(arena, table, h, i),
            ("get", &[n]) => Call::Get { n },
            ("give", &[p]) => Call::Give { p },
            ("step", &[p, i]) => Call::Step { p, i },
            ("read", &[p, w]) => Call::Read { p, w: byte(w) },
            ("write", &[p, w, v]) => Call::Write { p, w: byte(w), v },
            ("left", &[p]) => Call::Left { p },
            ("copy", &[p, q, n]) => Call::Copy { p, q, n },
            ("fill", &[p, v, n]) => Call::Fill { p, v: byte(v), n },
            ("lock", &[p]) => Call::Lock { p },
            ("unlock", &[p]) => Call::Unlock { p },
            ("grid", &[p, rows, columns, row, column]) => {
                Call::Grid { p, rows: byte(rows), columns: byte(columns), row: byte(row), column: byte(column) }
            }
            _ => panic!("no such call: {operation} {arguments:?}"),
        };
        call.make::<S>(arena, table)
    }
}

/// The bytes of a hexadecimal word, `-` for none.
fn bytes(word: &str) -> Vec<u8> {
    let digits = if word == "-" { "" } else { word };
    let byte = |at: usize| u8::from_str_radix(&digits[at..at + 2], 16).expect("two hexadecimal digits");
    (0..digits.len()).step_by(2).map(byte).collect()
}

fn hexadecimal(bytes: &[u8]) -> String {
    if bytes.is_empty() {
        return "-".to_string();
    }
    bytes.iter().map(|byte| format!("{byte:02x}")).collect()
}
