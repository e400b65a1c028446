use super::super::xml::{escaped, grouped, number, width_of, wrapped};

#[test]
fn what_markup_is_made_of_is_escaped() {
    let words = "<a b=\"c\" d='e'>&amp;</a>]]>";
    let right = "&lt;a b=&quot;c&quot; d=&apos;e&apos;&gt;&amp;amp;&lt;/a&gt;]]&gt;";
    assert_eq!(escaped(words), right);
    assert_eq!(escaped("bank 0 · 七"), "bank 0 · 七");
}

#[test]
fn what_xml_cannot_hold_is_replaced() {
    assert_eq!(
        escaped("a\0b\u{1b}c\u{fffe}d"),
        "a\u{fffd}b\u{fffd}c\u{fffd}d"
    );
    assert_eq!(escaped("a\tb\r\nc"), "a b  c");
}

#[test]
fn places_are_plain_numbers() {
    let all = [
        0.0,
        -0.0,
        1.0,
        0.04,
        -0.06,
        12.35,
        -3.25,
        f64::NAN,
        f64::INFINITY,
    ];
    let right = ["0", "0", "1", "0", "-0.1", "12.4", "-3.3", "0", "0"];
    assert_eq!(all.map(number), right);
}

#[test]
fn counts_are_grouped_by_threes() {
    let all = [0, 7, 999, 1_000, 20_000_000, 4_294_967_295, -1_234];
    let right = [
        "0",
        "7",
        "999",
        "1,000",
        "20,000,000",
        "4,294,967,295",
        "-1,234",
    ];
    assert_eq!(all.map(grouped), right);
}

#[test]
fn lines_keep_their_width_and_all_words() {
    let words = "An ACT comes less than FAW after the fourth ACT before it";
    let lines = wrapped(words, 10.0, 120.0, 8);
    assert!(lines.len() > 1);
    assert!(lines.iter().all(|line| width_of(line, 10.0) <= 120.0));
    assert_eq!(lines.join(" "), words);
    let long = "w".repeat(100);
    assert_eq!(wrapped(&long, 10.0, 120.0, 8).concat(), long);
}

#[test]
fn too_many_lines_end_in_dots() {
    let lines = wrapped(&"word ".repeat(1_000), 10.0, 120.0, 3);
    assert_eq!(lines.len(), 3);
    assert!(lines[2].ends_with('…'));
    assert_eq!(wrapped("", 10.0, 120.0, 3), [""]);
}
