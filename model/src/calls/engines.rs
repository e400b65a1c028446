//! The calls that build and run, each of the plain engine and then of the second one, which must write the same.

use super::cases::Case;
use super::told::*;
use crate::desk::*;

/// Of a list whose entries are `T`: transactions, or bytes.
type Build<T> = fn(u16, &[u8], &[T], &mut [u8], &mut [u32]) -> Result<Scheduled, Refusal>;
type Run<T> = fn(&mut Controller, u16, &[u8], &[T], u32, &mut [u8]) -> Result<Ran, Refusal>;
type Step = fn(&mut Controller, u16, &[u8], &[Transaction], &mut [u8]) -> Result<Ran, Refusal>;

pub fn builds(out: &mut Lines, case: &Case) {
    let list = &case.list[..];
    built_by(out, "skv_schedule", schedule, case, list);
    built_by(out, "skv_schedule_straight", schedule_straight, case, list);
    let builds: [(&str, Build<u8>); 4] = [
        ("skv_schedule_bytes", schedule_bytes),
        ("skv_schedule_straight_bytes", schedule_straight_bytes),
        ("skv_schedule_later_bytes", schedule_later_bytes),
        (
            "skv_schedule_straight_later_bytes",
            schedule_straight_later_bytes,
        ),
    ];
    for (name, build) in builds {
        built_by(out, name, build, case, case.bytes);
    }
}

/// The line of one call that builds.
fn built_by<T>(out: &mut Lines, name: &str, build: Build<T>, case: &Case, list: &[T]) {
    let (mut room, mut finishes) = ([0; 96], [9; 4]);
    let answer = build(case.expected, &case.table(), list, &mut room, &mut finishes);
    let answer = answer.map(|s| (s.edition, s.commands, 0));
    let rest = [spaced(&finishes), hex(&room)].join(" ");
    out.line(name, &[host(answer), rest]);
}

pub fn runs(out: &mut Lines, case: &Case) {
    let (expected, table, list) = (case.expected, case.table(), case.list);
    let (answer, fresh) = start(expected, &table);
    let answer = answer.map(|e| (e, 0, 0));
    out.line("start", &[desk(answer, 1), state(&fresh)]);
    out.line("skv_start", &[host(answer), state(&fresh)]);
    let (_, begun) = start(case.started_as, &table);
    let told = |r: Ran| (r.edition, r.commands, r.cycles);

    let (mut ran, mut room) = (begun.clone(), [0; 96]);
    let answer = run(&mut ran, expected, &table, &list, case.count, &mut room).map(told);
    out.line("run", &[desk(answer, 3), state(&ran), hex(&room)]);
    let (mut ran, mut room) = (begun.clone(), [0; 9]);
    let answer = step(&mut ran, expected, &table, &list, &mut room).map(told);
    out.line("step", &[desk(answer, 3), state(&ran), hex(&room)]);

    let runs: [(&str, Run<Transaction>); 2] =
        [("skv_run", run), ("skv_run_straight", run_straight)];
    for (name, run) in runs {
        ran_by(out, name, &begun, &mut [0; 96], |c, room| {
            run(c, expected, &table, &list, case.count, room)
        });
    }
    let steps: [(&str, Step); 2] = [("skv_step", step), ("skv_step_straight", step_straight)];
    for (name, step) in steps {
        ran_by(out, name, &begun, &mut [0; 9], |c, room| {
            step(c, expected, &table, &list, room)
        });
    }
    let runs: [(&str, Run<u8>); 4] = [
        ("skv_run_bytes", run_bytes),
        ("skv_run_straight_bytes", run_straight_bytes),
        ("skv_run_later_bytes", run_later_bytes),
        ("skv_run_straight_later_bytes", run_straight_later_bytes),
    ];
    for (name, run) in runs {
        ran_by(out, name, &begun, &mut [0; 96], |c, room| {
            run(c, expected, &table, case.bytes, case.count, room)
        });
    }
}

/// The line of one call that runs, into that room.
fn ran_by(
    out: &mut Lines,
    name: &str,
    begun: &Controller,
    room: &mut [u8],
    run: impl Fn(&mut Controller, &mut [u8]) -> Result<Ran, Refusal>,
) {
    let mut ran = begun.clone();
    let answer = run(&mut ran, room).map(|r| (r.edition, r.commands, r.cycles));
    out.line(name, &[host(answer), state(&ran), hex(room)]);
}
