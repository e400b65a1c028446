//! One call with all that it is given, as plain numbers and bytes.

mod call;
mod state;
mod text;

pub use call::*;
pub use state::*;

use model::house::{later, REFRESH_BYTES};
use model::sent::TICK;
use Call::*;

/// Whole records of 4 bytes only.
pub fn records(bytes: &[u8]) -> Vec<[u8; 4]> {
    let record = |x: &[u8]| [x[0], x[1], x[2], x[3]];
    bytes.chunks_exact(4).map(record).collect()
}

/// Transactions of so many bytes each, whole ones only, in 8 bytes: those of 4 arrive at 0.
pub fn in_eight(bytes: &[u8], of_record: usize) -> Vec<[u8; 8]> {
    let record = |x: &[u8]| std::array::from_fn(|at| x.get(at).copied().unwrap_or(0));
    bytes.chunks_exact(of_record).map(record).collect()
}

/// Transactions that arrive at 0.
pub fn at_once(list: &[[u8; 4]]) -> Vec<[u8; 8]> {
    list.iter().map(|&x| later(x, 0)).collect()
}

pub fn arrival(x: &[u8; 8]) -> u32 {
    u32::from_le_bytes([x[4], x[5], x[6], x[7]])
}

/// A command as cycle, kind, bank and number; of another size its bytes.
fn command(x: &[u8]) -> Vec<u32> {
    match *x {
        [a, b, c, d, kind, bank, e, f] => {
            let cycle = u32::from_le_bytes([a, b, c, d]);
            let number = u16::from_le_bytes([e, f]);
            vec![cycle, kind.into(), bank.into(), number.into()]
        }
        _ => x.iter().map(|&b| b.into()).collect(),
    }
}

/// Of a capture record.
pub fn is_tick(x: &[u8; 4]) -> bool {
    x[2..] == [TICK.0, TICK.1]
}

/// Of a capture record.
pub fn stamp(x: &[u8; 4]) -> u16 {
    u16::from_le_bytes([x[0], x[1]])
}

#[derive(Debug, Clone, PartialEq, Eq)]
pub struct Case {
    pub call: Call,
    /// Made of the second engine.
    pub straight: bool,
    /// The expected edition, for a call that is lent a table.
    pub expected: u16,
    /// The table's bytes; for the calls that write one its sixteen or twenty numbers.
    pub table: Vec<u8>,
    /// The list, the schedule, the pattern, the capture, or the one record to be read.
    pub bytes: Vec<u8>,
    /// The schedule that is to serve the list.
    pub schedule: Vec<u8>,
    /// What is passed as plain numbers, in the order of the parameters.
    pub values: [u32; 5],
    /// The size of the lent bytes.
    pub room: usize,
    /// The number of lent finishing cycles, or of places to decode into.
    pub slots: usize,
    pub state: State,
    /// Where the noise starts that the lent buffers are filled with.
    pub filling: u16,
    /// Where the buffers lie: 0 at the end of their pages, 1 at the start, 2 within.
    pub lies: u8,
}

impl Case {
    pub fn new(call: Call) -> Case {
        Case {
            call,
            straight: false,
            expected: 7,
            table: Vec::new(),
            bytes: Vec::new(),
            schedule: Vec::new(),
            values: [0; 5],
            room: 0,
            slots: 0,
            state: fresh(7),
            filling: 0,
            lies: 0,
        }
    }

    /// The call's name, of its engine.
    pub fn name(&self) -> &'static str {
        match self.call.in_straight() {
            Some(at) if self.straight => STRAIGHT[at].1,
            _ => self.call.name(),
        }
    }

    /// The same by the second engine, or by the plain one.
    pub fn by(&self, straight: bool) -> Case {
        let mut case = self.clone();
        case.straight = straight;
        case
    }

    /// The transactions of the bytes.
    pub fn list(&self) -> Vec<[u8; 8]> {
        in_eight(&self.bytes, self.call.of_record())
    }

    /// Gives it a list, without the arrivals where its records have none.
    pub fn lend(&mut self, list: &[[u8; 8]]) {
        let size = self.call.of_record();
        self.bytes = list.iter().flat_map(|x| &x[..size]).copied().collect();
    }

    /// The transaction that is written.
    pub fn written(&self) -> [u8; 8] {
        let [kind, start, bi, bc, arrival] = self.values;
        later([kind, start, bi, bc].map(|n| n as u8), arrival)
    }

    /// The transactions that the call is given: its list, or the one to be read or written.
    fn given(&self) -> Vec<[u8; 8]> {
        match self.call {
            WriteTransaction | WriteLater => vec![self.written()],
            ReadTransaction | ReadLater => self.list(),
            call if call.is_given_a_list() => self.list(),
            _ => Vec::new(),
        }
    }

    /// Those of them that go on at bank 0 after the last: for each whether it takes all banks.
    pub fn wraps(&self) -> Vec<bool> {
        let banks = match self.call.expects() {
            true => self.numbers()[1],
            false => 16,
        };
        let over = |x: &&[u8; 8]| u16::from(x[1]) + u16::from(x[2]) > banks;
        let all = |x: &[u8; 8]| u16::from(x[2]) == banks;
        self.given().iter().filter(over).map(all).collect()
    }

    /// Whether there is a refresh among them.
    pub fn refreshes(&self) -> bool {
        self.given().iter().any(|x| x[..4] == REFRESH_BYTES)
    }

    /// Whether one of them arrives after cycle 0.
    pub fn arrives(&self) -> bool {
        self.given().iter().any(|x| arrival(x) > 0)
    }

    /// Of a run: whether it is lent transactions that were not lent before.
    pub fn lends_more(&self) -> bool {
        self.call.runs() && (self.state[LENT] as usize) < self.list().len()
    }

    /// Of a capture, how many records are ticks, and how often the stamp goes round.
    pub fn ticks_and_wraps(&self) -> (usize, usize) {
        let records = records(&self.bytes);
        let ticks = records.iter().filter(|x| is_tick(x)).count();
        let goes_round = |pair: &&[[u8; 4]]| stamp(&pair[1]) < stamp(&pair[0]);
        (ticks, records.windows(2).filter(goes_round).count())
    }

    /// The records of the bytes and of the schedule, for a reader: commands as cycle, kind, bank and number; capture records as stamp, kind and bank; transactions
    /// of 8 bytes with their arrival.
    pub fn shown(&self) -> Vec<Vec<u32>> {
        let record = |x: &[u8]| match *x {
            [a, b, kind, bank] if self.call == JudgeCapture => {
                let stamp = u16::from_le_bytes([a, b]);
                vec![stamp.into(), kind.into(), bank.into()]
            }
            [kind, start, bi, bc, a, b, c, d] if self.call.is_given_a_list() => {
                let four = [kind, start, bi, bc].map(u32::from);
                [&four[..], &[u32::from_le_bytes([a, b, c, d])]].concat()
            }
            _ => command(x),
        };
        let records = self.bytes.chunks(self.call.record()).map(record);
        records
            .chain(self.schedule.chunks(8).map(command))
            .collect()
    }

    /// The numbers of the table, 0 for each that its bytes don't reach.
    pub fn numbers(&self) -> [u16; 20] {
        let mut numbers = [0; 20];
        for (number, pair) in numbers.iter_mut().zip(self.table.chunks_exact(2)) {
            *number = u16::from_le_bytes([pair[0], pair[1]]);
        }
        numbers
    }

    /// The sixteen numbers that are written as a table of 32 bytes.
    pub fn sixteen(&self) -> [u16; 16] {
        let numbers = self.numbers();
        std::array::from_fn(|i| numbers[i])
    }

    /// The table's edition.
    pub fn edition(&self) -> u16 {
        self.numbers()[0]
    }

    /// The same with the table's own edition expected.
    pub fn agreeing(&self) -> Case {
        let mut case = self.clone();
        case.expected = case.edition();
        case
    }

    /// Of finishing cycles, or of places to decode into.
    pub fn bytes_of_slots(&self) -> usize {
        self.slots * if self.call.decodes() { 8 } else { 4 }
    }

    /// The cycles asked for of a call that runs.
    pub fn count(&self) -> u32 {
        if self.call == Step {
            1
        } else {
            self.values[0]
        }
    }
}
