//! "From a fresh state, any cutting without refusal, run to the end, gives the commands of the whole list."

use super::*;
use crate::desk::tests::refusals::told;
use crate::records::EDITION;

/// Runs, one after the other: what they wrote, and how many cycles they took.
struct Runs<'a> {
    table: &'a [u16],
    list: &'a [[u8; 8]],
    controller: Controller,
    commands: Vec<u8>,
    cycles: u32,
}

impl<'a> Runs<'a> {
    fn new(table: &'a [u16], list: &'a [[u8; 8]]) -> Runs<'a> {
        let (_, controller) = start(table[EDITION], &bytes_of(table));
        Runs {
            table,
            list,
            controller,
            commands: Vec::new(),
            cycles: 0,
        }
    }

    /// A run that is lent the first so many.
    fn run(&mut self, size: usize, count: u32) -> Result<(), Refusal> {
        let (edition, table) = (self.table[EDITION], bytes_of(self.table));
        let list = &self.list[..size];
        let mut room = vec![0; room_for(list)];
        let bytes = list.concat();
        let c = &mut self.controller;
        let told = run_later_bytes(c, edition, &table, &bytes, count, &mut room)?;
        assert_eq!(c.lent as usize, size);
        self.commands.extend(&room[..8 * told.commands as usize]);
        self.cycles += told.cycles;
        Ok(())
    }

    fn piece(&mut self, size: usize, count: u32) {
        self.run(size, count).expect("it's in time");
    }

    /// How many cycles there are to the arrival of the first that is not among so many.
    fn in_time(&self, size: usize) -> u32 {
        let next = self.list.get(size).map(|x| Transaction::of(x).arrival);
        next.map_or(u32::MAX, |arrival| arrival - self.controller.cycle)
    }

    fn same(&self, other: &Runs) {
        assert_eq!(self.commands, other.commands);
        assert_eq!(self.controller, other.controller);
        assert_eq!(self.cycles, other.cycles);
    }
}

fn at_once<'a>(table: &'a [u16], list: &'a [[u8; 8]], count: u32) -> Runs<'a> {
    let mut runs = Runs::new(table, list);
    runs.piece(list.len(), count);
    runs
}

/// Cut in two at every place, the first run of several counts up to the one that ends at the next arrival.
#[test]
fn cut_at_every_place() {
    let mut numbers = Numbers(91);
    for round in 0..400 {
        let (table, list) = any(round, &mut numbers);
        let whole = at_once(&table, &list, u32::MAX);
        assert_eq!(whole.commands, built_later(&table, &list).0);
        for at in 0..=list.len() {
            let most = Runs::new(&table, &list).in_time(at);
            for count in [0, 1, 2, 7, most / 2, most.saturating_sub(1), most] {
                let mut runs = Runs::new(&table, &list);
                runs.piece(at, count.min(most));
                runs.piece(list.len(), u32::MAX);
                runs.same(&whole);
            }
        }
    }
}

/// Any pieces, empty ones among them, and any counts, 0 too: to the end or not, they give one run of as many cycles, and to the end the built
/// schedule.
#[test]
fn any_pieces() {
    let mut numbers = Numbers(97);
    let mut ended = 0;
    for round in 0..1500 {
        let (table, list) = any(round, &mut numbers);
        let mut runs = Runs::new(&table, &list);
        let mut size = 0;
        for _ in 0..numbers.below(9) {
            size += numbers.below(1 + list.len() - size);
            let count = numbers.of(&[0, 1, 3, 20, 100, u32::MAX]);
            let count = count.min(runs.in_time(size));
            runs.piece(size, count);
        }
        let served = runs.commands.len() == room_for(&list);
        let up_to_here = at_once(&table, &list, runs.cycles);
        assert_eq!(runs.commands, up_to_here.commands);
        // What was not lent yet is all that sets them apart.
        let mut state = runs.controller.clone();
        state.lent = list.len() as u32;
        assert_eq!(state, up_to_here.controller);
        if !served {
            runs.piece(list.len(), u32::MAX);
        } else if size == list.len() {
            ended += 1;
            runs.same(&up_to_here);
        }
        assert_eq!(runs.commands, built_later(&table, &list).0);
        let last = commands_of(&runs.commands).last().map(|c| c.cycle);
        assert_eq!(runs.cycles, last.map_or(0, |cycle| cycle + 1));
    }
    assert!(ended > 100, "{ended}");
}

/// A cycle at a time, each transaction lent when it arrives and not before.
#[test]
fn as_they_arrive() {
    let mut numbers = Numbers(101);
    for round in 0..300 {
        let (table, list) = any(round, &mut numbers);
        let whole = at_once(&table, &list, u32::MAX);
        let mut runs = Runs::new(&table, &list);
        for cycle in 0..=whole.cycles {
            let arrived = |x: &&[u8; 8]| Transaction::of(*x).arrival <= cycle;
            let size = list.iter().take_while(arrived).count();
            // Where what has arrived is served the run stops, and the next piece is still in time.
            runs.piece(size, cycle + 1 - runs.controller.cycle);
        }
        runs.piece(list.len(), u32::MAX);
        runs.same(&whole);
    }
}

/// A run goes on beyond the next arrival: the piece is refused as late, and all stays; what was lent goes on, and nothing else.
#[test]
fn late_pieces() {
    let mut numbers = Numbers(103);
    let mut late = 0;
    for round in 0..600 {
        let (table, list) = any(round, &mut numbers);
        for at in 0..list.len() {
            let mut runs = Runs::new(&table, &list);
            let count = runs.in_time(at) + 1;
            runs.piece(at, count);
            let arrival = Transaction::of(&list[at]).arrival;
            let (before, cycle) = (runs.controller.clone(), runs.controller.cycle);
            let answer = runs.run(list.len(), 9);
            if cycle > arrival {
                assert_eq!(told(answer), (12, 0, table[EDITION]));
                assert_eq!(runs.controller, before);
                late += 1;
                runs.piece(at, u32::MAX);
                assert_eq!(runs.commands, built_later(&table, &list[..at]).0);
            } else {
                // It was served before that cycle.
                assert!(answer.is_ok());
            }
        }
    }
    assert!(late > 200, "{late}");
}

/// "The 4-byte record is arrival 0, so a new 4-byte transaction after cycle 0 is late; n cycles then m of one list lends nothing new".
#[test]
fn four_bytes() {
    let a = bytes_of(&TABLE_A);
    let list = [WRITE, READ].concat();
    for (first, then) in [(0, None), (1, Some((12, 0, 7)))] {
        let (_, mut c) = start(7, &a);
        let mut room = [0; 32];
        run_bytes(&mut c, 7, &a, &list[..4], first, &mut room).expect("nothing is refused");
        let answer = run_bytes(&mut c, 7, &a, &list, 9, &mut room);
        assert_eq!(answer.err().map(|_| told(answer)), then);
    }
    let (_, mut c) = start(7, &a);
    let mut room = [0; 32];
    for _ in 0..3 {
        run_bytes(&mut c, 7, &a, &list, 5, &mut room).expect("nothing new is lent");
    }
    assert_eq!((c.cycle, c.lent), (15, 2));
    // The list of 4 bytes and that of 8 are one list.
    let laters = arriving(&[WRITE, READ], &[0, 0]).concat();
    let told = run_later_bytes(&mut c, 7, &a, &laters, u32::MAX, &mut room);
    assert_eq!(told.map(|told| told.cycles), Ok(40));
}
