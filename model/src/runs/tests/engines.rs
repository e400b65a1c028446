//! The stored builds and runs once more by the second engine: what is told, written and left is the same.

use super::*;

type Build = fn(u16, &[u8], &[u8], &mut [u8], &mut [u32]) -> Result<Scheduled, Refusal>;

const BUILDS: [[Build; 2]; 2] = [
    [schedule_bytes, schedule_later_bytes],
    [schedule_straight_bytes, schedule_straight_later_bytes],
];
const RUNS: [[Call; 2]; 2] = [
    [run_bytes, run_later_bytes],
    [run_straight_bytes, run_straight_later_bytes],
];

#[test]
fn the_stored_cases() {
    let input = cases();
    let (mut builds, mut runs) = (0, 0);
    for case in stored::read(&input, first_case).0 {
        let (expected, table) = (case.expected, case.table);
        match case.asked {
            Asked::Build(b) => {
                let [plain, straight] = BUILDS.map(|[four, eight]| {
                    let build = plain_or(b.of_record, four, eight);
                    let (mut room, mut finishes) = (vec![9; b.room], vec![9; b.slots]);
                    let told = build(expected, table, b.list, &mut room, &mut finishes);
                    (told, room, finishes)
                });
                assert_eq!(straight, plain);
                builds += 1;
            }
            Asked::Run(r) => {
                let [plain, straight] = RUNS.map(|[four, eight]| {
                    let run = plain_or(r.of_record, four, eight);
                    let (mut c, mut room) = (r.state.clone(), vec![9; r.room]);
                    let told = run(&mut c, expected, table, r.list, r.count, &mut room);
                    (told, room, c)
                });
                assert_eq!(straight, plain);
                runs += 1;
            }
            Asked::Bound(..) => (),
        }
    }
    assert!(builds > 100 && runs > 100, "{builds}, {runs}");
}
