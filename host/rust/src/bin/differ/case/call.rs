//! The calls, and what each can be refused by.

use model::house::due;

use super::{in_eight, is_tick, records};

#[derive(Debug, Clone, Copy, PartialEq, Eq)]
pub enum Call {
    ReadTable,
    WriteTable,
    WriteGroupTable,
    ReadTransaction,
    WriteTransaction,
    ReadLater,
    WriteLater,
    ReadCommand,
    WriteCommand,
    ReadCaptureRecord,
    WriteCaptureRecord,
    ReadTransactions,
    ReadLaterTransactions,
    Schedule,
    ScheduleBytes,
    ScheduleLaterBytes,
    Judge,
    JudgePattern,
    JudgeCapture,
    Serves,
    ServesBytes,
    ServesLaterBytes,
    ShortestPattern,
    Bound,
    Start,
    Run,
    Step,
    RunBytes,
    RunLaterBytes,
}

use Call::*;

pub const COUNT: usize = 29;

/// In the order of the header.
pub const CALLS: [(Call, &str); COUNT] = [
    (ReadTable, "skv_read_table"),
    (WriteTable, "skv_write_table"),
    (WriteGroupTable, "skv_write_group_table"),
    (ReadTransaction, "skv_read_transaction"),
    (WriteTransaction, "skv_write_transaction"),
    (ReadLater, "skv_read_later"),
    (WriteLater, "skv_write_later"),
    (ReadCommand, "skv_read_command"),
    (WriteCommand, "skv_write_command"),
    (ReadCaptureRecord, "skv_read_capture_record"),
    (WriteCaptureRecord, "skv_write_capture_record"),
    (ReadTransactions, "skv_read_transactions"),
    (ReadLaterTransactions, "skv_read_later_transactions"),
    (Schedule, "skv_schedule"),
    (ScheduleBytes, "skv_schedule_bytes"),
    (ScheduleLaterBytes, "skv_schedule_later_bytes"),
    (Judge, "skv_judge"),
    (JudgePattern, "skv_judge_pattern"),
    (JudgeCapture, "skv_judge_capture"),
    (Serves, "skv_serves"),
    (ServesBytes, "skv_serves_bytes"),
    (ServesLaterBytes, "skv_serves_later_bytes"),
    (ShortestPattern, "skv_shortest_pattern"),
    (Bound, "skv_bound"),
    (Start, "skv_start"),
    (Run, "skv_run"),
    (Step, "skv_step"),
    (RunBytes, "skv_run_bytes"),
    (RunLaterBytes, "skv_run_later_bytes"),
];

/// Those that the second engine has too, in the order of its header.
pub const STRAIGHT: [(Call, &str); 7] = [
    (Schedule, "skv_schedule_straight"),
    (ScheduleBytes, "skv_schedule_straight_bytes"),
    (ScheduleLaterBytes, "skv_schedule_straight_later_bytes"),
    (Run, "skv_run_straight"),
    (Step, "skv_step_straight"),
    (RunBytes, "skv_run_straight_bytes"),
    (RunLaterBytes, "skv_run_straight_later_bytes"),
];

impl Call {
    pub fn name(self) -> &'static str {
        CALLS[self as usize].1
    }

    /// Where it stands among those of the second engine.
    pub fn in_straight(self) -> Option<usize> {
        STRAIGHT.iter().position(|(call, _)| *call == self)
    }

    pub fn runs(self) -> bool {
        matches!(self, Run | Step | RunBytes | RunLaterBytes)
    }

    pub fn builds(self) -> bool {
        matches!(self, Schedule | ScheduleBytes | ScheduleLaterBytes)
    }

    /// Whether it is given a schedule beside a list.
    pub fn serves(self) -> bool {
        matches!(self, Serves | ServesBytes | ServesLaterBytes)
    }

    /// Whether transactions are lent that are decoded.
    pub fn decoded(self) -> bool {
        matches!(self, Schedule | Serves | Run | Step)
    }

    /// Whether transactions are decoded into places that are lent.
    pub fn decodes(self) -> bool {
        matches!(self, ReadTransactions | ReadLaterTransactions)
    }

    /// Whether it is given a list of transactions.
    pub fn is_given_a_list(self) -> bool {
        self.runs() || self.builds() || self.decodes() || self.serves()
    }

    /// The bytes of one transaction that it is given: decoded ones lie in as many as those of 8.
    pub fn of_record(self) -> usize {
        match self {
            ReadLater | WriteLater | ReadLaterTransactions => 8,
            ScheduleLaterBytes | ServesLaterBytes | RunLaterBytes => 8,
            call if call.decoded() => 8,
            _ => 4,
        }
    }

    /// Whether a table is lent, and with it an edition expected: all but the first, which read and write one record.
    pub fn expects(self) -> bool {
        self as usize >= ReadTransactions as usize
    }

    /// The numbers that it can be refused by, in the order of the checks.
    pub fn refusals(self) -> &'static [usize] {
        match self {
            ReadTable | WriteTable | WriteGroupTable => &[1, 2],
            ReadTransaction | WriteTransaction | ReadLater | WriteLater => &[3, 4],
            ReadCommand | ReadCaptureRecord => &[7],
            WriteCommand | WriteCaptureRecord => &[5],
            ReadTransactions | ReadLaterTransactions => &[1, 2, 10, 3, 4],
            Schedule | ScheduleBytes | ScheduleLaterBytes => &[1, 2, 10, 3, 4, 5, 6],
            Judge => &[1, 2, 10, 7],
            JudgePattern => &[1, 2, 10, 7, 8],
            JudgeCapture => &[1, 2, 10, 7, 11, 5],
            Serves | ServesBytes | ServesLaterBytes => &[1, 2, 10, 3, 4, 7],
            ShortestPattern => &[1, 2, 10, 4, 5, 13],
            Bound => &[1, 2, 10, 4],
            Start => &[1, 2, 10],
            Run | Step | RunBytes | RunLaterBytes => &[1, 2, 10, 3, 4, 5, 9, 12],
        }
    }

    /// The size of what `bytes` holds.
    pub fn record(self) -> usize {
        match self {
            Judge | JudgePattern => 8,
            ReadTransaction | ReadLater | ReadCommand | ReadCaptureRecord => 1,
            call => call.of_record(),
        }
    }

    /// How many commands there must be room for with such bytes: those due, or those of a capture.
    pub fn room_in_commands(self, bytes: &[u8]) -> usize {
        match self {
            JudgeCapture => records(bytes).iter().filter(|x| !is_tick(x)).count(),
            _ => due(&in_eight(bytes, self.of_record())),
        }
    }
}
