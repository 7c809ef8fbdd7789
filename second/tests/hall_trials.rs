//! The generated hall recordings and loads, and the commands that play them.

mod programs;

use programs::{print_the_usage, printed, program, second};

use second::hall::STRETCH_LEN;
use second::record::RECORD_LEN;
use second::state::{NodeNo, MAX_BLOCKS};
use second::trials::compare_hall::hall_text;
use second::trials::coverage::hall_pairs;
use second::trials::hall_examples::{example, EXAMPLES};
use second::trials::hall_load::{hall_load, HALL_NODES};
use second::trials::hall_recordings::hall_recording;
use second::trials::hall_tally::{HallTally, ENOUGH};
use second::{final_names, well_shaped, Hall};

const SEED: u64 = 1;
const HEAD_LEN: usize = 2;
/// Answers up to 22.
const ANSWERS: usize = 23;

fn text_of(input: &[u8]) -> String {
    String::from_utf8(hall_text(input).unwrap()).unwrap()
}

/// The number of stretches, the last of which may be short.
fn stretches(recording: &[u8]) -> usize {
    (recording.len() - HEAD_LEN).div_ceil(STRETCH_LEN)
}

/// "Fewer than a third faulty", read from a head.
fn few_faulty(recording: &[u8]) -> bool {
    let (n, honest) = (u32::from(recording[0]), recording[1].count_ones());
    3 * (n - honest) < n
}

/// Every rise of a local epoch, and final blocks that came late.
fn met_often(tally: &HallTally) -> bool {
    let mut rises = tally.rises.all();
    rises.all(|(_, times)| times >= ENOUGH) && tally.late >= ENOUGH / 20
}

#[test]
fn all_is_met_and_few_faulty_never_make_a_no() {
    let mut tally = HallTally::default();
    let (mut answers, mut refused, mut no, mut few) = ([0; ANSWERS], 0, 0, 0);
    for index in 0..ENOUGH {
        let input = hall_recording(SEED, index, &mut tally);
        let text = text_of(&input);
        if text == "setup 15\n" {
            refused += 1;
            continue;
        }
        assert_eq!(text.lines().count(), stretches(&input), "{index}");
        if few_faulty(&input) {
            few += 1;
            assert!(!text.contains(" no\n"), "{index}");
        }
        for (at, line) in text.lines().enumerate() {
            let words: Vec<&str> = line.split(' ').collect();
            assert_eq!(words[0], (at + 1).to_string());
            answers[words[1].parse::<usize>().unwrap()] += 1;
            no += u64::from(words[2] == "no");
        }
    }
    assert_eq!(tally.missing(), Vec::<String>::new(), "{tally}");
    assert!(few >= 150 && tally.forked >= 10 && tally.torn >= 5 && tally.full >= 20);
    assert!(met_often(&tally), "{tally}");
    // What was counted is what `hall` prints.
    assert_eq!((tally.recordings, tally.refused_heads), (ENOUGH, refused));
    assert_eq!((tally.no, tally.broken), (no, 0));
    assert_eq!(tally.yes + tally.no, tally.records());
    for (answer, times) in answers.into_iter().enumerate() {
        let counted: u64 = (0..=6).map(|kind| tally.times(answer as u8, kind)).sum();
        assert_eq!(counted, times, "answer {answer}");
    }
    // No start leads to answer 1, and none is 15 to 19.
    for answer in [1, 15, 16, 17, 18, 19] {
        assert_eq!(answers[answer], 0);
    }
}

/// Of any two honest final lists one begins the other, by the words alone.
fn all_agree(hall: &Hall) -> bool {
    let states = (0..8).filter_map(|node| hall.gateway(NodeNo(node)));
    let lists: Vec<Vec<[u8; 32]>> = states.map(final_names).collect();
    let mut pairs = lists
        .iter()
        .flat_map(|one| lists.iter().map(move |other| (one, other)));
    pairs.all(|(one, other)| one.starts_with(other) || other.starts_with(one))
}

#[test]
fn yes_and_no_are_what_all_pairs_of_lists_give() {
    let mut forks = 0;
    for index in (0..300).filter(|index| index % 16 != 15) {
        let input = hall_recording(SEED + 1, index, &mut HallTally::default());
        let mut hall = Hall::start(input[0], input[1]).unwrap();
        let mut agreed = true;
        for stretch in input[HEAD_LEN..].chunks(STRETCH_LEN) {
            let to = NodeNo(u32::from(stretch[0]));
            let kept = hall.gateway(to).map(|state| state.kept);
            hall.hear(to, &stretch[1..], &mut [0; RECORD_LEN]);
            if hall.gateway(to).map(|state| state.kept) != kept {
                agreed = all_agree(&hall);
            }
            assert_eq!(hall.agree(), agreed, "{index}");
        }
        assert_eq!(hall.agree(), all_agree(&hall), "{index}");
        forks += u32::from(!agreed);
        let mut states = (0..8).filter_map(|node| hall.gateway(NodeNo(node)));
        assert!(states.all(well_shaped), "{index}");
    }
    assert!(forks >= 5, "{forks}");
}

#[test]
fn a_seed_and_an_index_give_the_same_recording() {
    for index in 0..40 {
        let first = hall_recording(SEED, index, &mut HallTally::default());
        let again = hall_recording(SEED, index, &mut HallTally::default());
        let other = hall_recording(SEED + 1, index, &mut HallTally::default());
        assert!(first == again, "{index}");
        let short = first.len() <= HEAD_LEN + STRETCH_LEN;
        assert!(short || first != other, "{index}");
    }
}

#[test]
fn nothing_played_misses_everything_once_it_is_enough() {
    let mut tally = HallTally::default();
    assert_eq!(tally.missing(), Vec::<String>::new());
    tally.recordings = ENOUGH;
    let missing = tally.missing();
    // 15, yes, no and a late final block; 3 rises of a local epoch; 4 shares of faulty;
    // 7 meetings; 12 renamings; n; last lengths.
    let all = hall_pairs().count() + 4 + 3 + 4 + 7 + 12 + 8 + 97;
    assert_eq!(missing.len(), all);
    for words in [
        "answer 0 for kind 5",
        "answer 20 for kind 0",
        "answer 21 for kind 2",
        "answer 22 for kind 4",
        "answer 15",
        "no",
        "the local epoch rose by clocks that differ",
        "a final block came late",
        "22: own, another's table, only the parent differs",
        "n = 8",
        "a last record of 0 bytes",
    ] {
        assert!(missing.contains(&words.to_owned()), "{words}");
    }
}

#[test]
fn a_program_that_prints_the_same_passes() {
    let same = program("hall-same", "hall", "");
    let output = second(&["compare-hall", &same, "30", "3"]);
    assert!(output.status.success(), "{}", printed(&output));
    assert!(printed(&output).starts_with("30 hall recordings, "));
    let last = printed(&output).lines().last().unwrap();
    assert_eq!(last, "never no with fewer than a third faulty: true");
}

#[test]
fn the_first_difference_is_shown_and_kept() {
    let wrong = program("hall-wrong", "hall", "| sed 's/ 21 / 22 /'");
    let output = second(&["compare-hall", &wrong, "5", "2"]);
    assert_eq!(output.status.code(), Some(1));
    let lines: Vec<&str> = printed(&output).lines().collect();
    let kept = lines[1].strip_prefix("kept as ").unwrap();
    assert!(std::fs::read(kept).unwrap() == example("liar").unwrap());
    assert_eq!(lines[0], "hall example liar: another text, exit status: 0");
    assert_eq!(lines[2], "expected \"3 21 yes\\n\"");
    assert_eq!(lines[3], "printed  \"3 22 yes\\n\"");
    assert_eq!(lines.len(), 4);
    std::fs::remove_file(kept).unwrap();
}

#[test]
fn other_lines_or_another_end_differ() {
    for (name, change) in [
        ("hall-no", "| sed 's/yes/no/'"),
        ("hall-end", "; echo end"),
        ("hall-fails", "; exit 3"),
    ] {
        let program = program(name, "hall", change);
        let output = second(&["compare-hall", &program, "1", "4"]);
        assert_eq!(output.status.code(), Some(1), "{name}");
        assert!(printed(&output).contains("another text, "), "{name}");
    }
}

#[test]
fn a_hall_load_fills_the_tables_near_its_end() {
    for n in HALL_NODES {
        let recording = hall_load(n);
        assert_eq!(recording.len(), HEAD_LEN + 10_000 * STRETCH_LEN);
        let faulty = n / 4;
        assert_eq!(recording[0], n as u8);
        assert_eq!(recording[1].count_ones(), n - faulty);
        assert!(few_faulty(&recording));
        let mut hall = Hall::start(recording[0], recording[1]).unwrap();
        let (mut met, mut full_after) = ([0; ANSWERS], 0);
        for stretch in recording[HEAD_LEN..].chunks(STRETCH_LEN) {
            let full = hall.gateway(NodeNo(0)).unwrap().count == MAX_BLOCKS;
            full_after += usize::from(!full);
            let to = NodeNo(u32::from(stretch[0]));
            let answer = hall.hear(to, &stretch[1..], &mut [0; RECORD_LEN]);
            met[usize::from(answer)] += 1;
        }
        assert!((8_000..9_500).contains(&full_after), "{n}: {full_after}");
        assert!((8_000..9_500).contains(&met[0]), "{n}: {met:?}");
        for answer in [8, 12, 13, 14, 20, 21, 22] {
            assert!(met[answer] > 50, "{n}: {answer}, {met:?}");
        }
        let lists: Vec<Vec<[u8; 32]>> = (0..n - faulty)
            .map(|node| final_names(hall.gateway(NodeNo(node)).unwrap()))
            .collect();
        assert!(hall.agree() && lists.iter().all(|list| *list == lists[0]));
        assert_eq!(lists[0].len(), MAX_BLOCKS - 1);
    }
}

#[test]
fn the_commands_write_the_librarys_recordings() {
    for n in HALL_NODES {
        let output = second(&["hall-recording", &n.to_string()]);
        assert!(output.status.success());
        assert!(output.stdout == hall_load(n));
    }
    for name in EXAMPLES {
        let output = second(&["hall-example", name]);
        assert!(output.status.success());
        assert!(output.stdout == example(name).unwrap());
    }
}

#[test]
fn other_words_print_the_usage() {
    print_the_usage(&[
        &["hall", "more"],
        &["hall-example"],
        &["hall-example", "other"],
        &["hall-recording", "5"],
        &["compare-hall", "program", "1"],
        &["compare-hall", "program", "many", "1"],
        &["bench-hall"],
    ]);
}

#[cfg(debug_assertions)]
#[test]
fn a_build_that_is_not_optimised_is_not_timed() {
    let untimed = program("hall-untimed", "hall", "");
    let output = second(&["bench-hall", &untimed]);
    assert_eq!(output.status.code(), Some(1));
    assert!(output
        .stderr
        .starts_with(b"second: only an optimised build"));
}
