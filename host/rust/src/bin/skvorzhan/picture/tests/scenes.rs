use skvorzhan::Command;

use super::super::{svg, Broken, Finish, Scene};
use super::well_formed::elements;
use super::{commands, example_5, fifth_act_early, scene, Numbers, TABLE_A};

fn drawn(scene: &Scene) -> String {
    let text = svg(scene);
    if let Err(wrong) = elements(&text) {
        panic!("{wrong}");
    }
    text
}

#[test]
fn example_5_shows_every_command_and_the_finish() {
    let text = drawn(&example_5());
    assert_eq!(text.matches("<g class=\"mark\">").count(), 12);
    for words in [
        "cycle 19: ACT to bank 3, transaction 0, record 6",
        "cycle 38: RDA to bank 3, transaction 0, record 11",
        "bank 3 open from cycle 19, precharge starts at 47",
        "pins held by a read in cycles 48 to 51",
        "finishes at 52, promised by 89",
    ] {
        assert!(text.contains(words), "{words}");
    }
    assert!(!text.contains("left out"));
}

#[test]
fn the_broken_record_is_shown_with_its_rule_and_its_ghost() {
    let text = drawn(&fifth_act_early());
    for words in [
        "Record 4 breaks rule 7",
        "An ACT less than FAW after the fourth ACT before it.",
        "record 4 at cycle 27, 27 cycles after record 0",
        "legal from cycle 32 on, 32 cycles after it",
        "red-head",
        "class=\"ghost\"",
        "window red-window",
    ] {
        assert!(text.contains(words), "{words}");
    }
}

#[test]
fn an_open_bank_at_the_end_is_red() {
    let mut scene = scene(TABLE_A, commands(&[(0, 0, 0, 0), (10, 1, 0, 0)]));
    scene.broken = Some(Broken {
        record: 2,
        rule: 10,
        sentence: "At the end bank 0 is open.".into(),
        near: None,
        legal: None,
    });
    let text = drawn(&scene);
    assert!(text.contains("class=\"left-open\"") && text.contains("At the end, record"));
}

/// Pairs of ACT and RDA, 19 cycles apart.
fn long() -> Scene {
    let one = |i: u32| Command {
        cycle: i * 19,
        kind: (i % 2 * 2) as u8,
        bank: (i / 2 % 8) as u8,
        number: (i / 2) as u16,
    };
    scene(TABLE_A, (0..69_632).map(one).collect())
}

#[test]
fn a_long_schedule_is_shown_from_its_start() {
    let text = drawn(&long());
    assert!(text.contains("of 69,632; the others are left out."));
    assert!(text.contains("Shown are records 0 to ") && text.contains("records more"));
    assert!(text.len() < 1_000_000);
}

#[test]
fn a_long_refused_schedule_is_shown_around_the_broken_record() {
    let mut scene = long();
    scene.broken = Some(Broken {
        record: 40_000,
        rule: 4,
        sentence: "An ACT too early.".into(),
        near: Some(7),
        legal: Some(760_001),
    });
    let text = drawn(&scene);
    assert!(text.contains("and record 7; the others are left out."));
    assert!(text.contains("cycle 760,000: ACT to bank 0") && text.contains("red-ring"));
    assert!(text.contains("cycle 133: RDA to bank 3"));
}

#[test]
fn twenty_million_idle_cycles_take_one_gap() {
    let all = [
        (0, 0, 0, 0),
        (10, 2, 0, 0),
        (20_000_000, 0, 1, 1),
        (20_000_010, 2, 1, 1),
    ];
    let text = drawn(&scene(TABLE_A, commands(&all)));
    assert_eq!(text.matches("<g class=\"gap\">").count(), 1);
    assert!(text.contains(" cycles left out"));
}

fn hostile(numbers: &mut Numbers) -> Scene {
    let most = [40, 1_024, 65_536][numbers.below(3) as usize];
    let table = [(); 20].map(|()| numbers.below(most) as u16);
    let (count, wild) = (numbers.below(70), numbers.below(2) == 0);
    let command = |_| Command {
        cycle: numbers.below(if wild { 1 << 32 } else { 300 }) as u32,
        kind: numbers.below(if wild { 256 } else { 6 }) as u8,
        bank: numbers.below(if wild { 256 } else { 8 }) as u8,
        number: numbers.below(4) as u16,
    };
    let mut scene = scene(table, (0..count).map(command).collect());
    scene.title = "<&\"'\u{0}\u{ffff}]]> ".repeat(numbers.below(20) as usize);
    let finish = |transaction| Finish {
        transaction,
        kind: numbers.below(4) as u8,
        arrival: numbers.cycle(),
        finish: numbers.cycle(),
        promised: numbers.cycle(),
    };
    scene.finishes = (0..5).chain([usize::MAX, 0]).map(finish).collect();
    let records = [0, count / 2, count, u64::MAX];
    scene.broken = (numbers.below(3) > 0).then(|| Broken {
        record: records[numbers.below(4) as usize] as usize,
        rule: numbers.below(14) as u32,
        sentence: scene.title.clone(),
        near: Some(records[numbers.below(4) as usize] as usize),
        legal: Some(numbers.cycle()),
    });
    scene
}

#[test]
fn nothing_that_is_handed_in_breaks_the_picture() {
    let mut numbers = Numbers(2);
    for _ in 0..400 {
        drawn(&hostile(&mut numbers));
    }
    drawn(&scene(TABLE_A, Vec::new()));
    drawn(&scene([0; 20], Vec::new()));
    drawn(&scene(
        [u16::MAX; 20],
        commands(&[(u32::MAX, 4, 255, u16::MAX)]),
    ));
}
