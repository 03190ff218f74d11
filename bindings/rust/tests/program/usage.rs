//! Words that are no question, help, and outputs that fail.
use std::ffi::OsStr;
use std::fs::OpenOptions;
use std::os::unix::ffi::OsStrExt;

use super::{Folder, asked, ended, program};

fn misused(words: &str, what: &str) {
    let (status, printed, said) = asked(words);
    assert_eq!((status, printed.as_str()), (Some(2), ""), "{words}");
    assert!(said.starts_with(&format!("heddleplume: {what}")) && said.contains("heddleplume --help"), "{words}: {said}");
}

#[test]
fn words_that_are_no_question() {
    misused("", "what is the question?");
    misused("where", "there is no question `where`");
    misused("--pentagon", "there is no question `--pentagon`");
    misused("help where", "there is no question `where`");
    misused("place", "LEVEL is missing\nusage: heddleplume place LEVEL X Y Z\nfor example: heddleplume place 9 0.6 0 0.8\n");
    misused("place 9 0.6 0", "Z is missing");
    misused("place 9 0.6 0 0.8 1", "`1` is one word too many");
    misused("place -9 0.6 0 0.8", "LEVEL is `-9`, which is no whole number");
    misused("margin", "LEVEL is missing\nusage: heddleplume margin LEVEL X Y Z\nfor example: heddleplume margin 9 0.6 0 0.8\n");
    misused("margin 0.5 0.5", "LEVEL is `0.5`, which is no whole number");
    misused("margin 9 0.6 0", "Z is missing");
    misused("margin 9 0.6 0 0.8 1", "`1` is one word too many");
    misused("nearest 0,6 0 0,8", "X is `0,6`, which is no decimal");
    misused("turn 0 1 0 0 left", "`left` stands where ccw or cw belongs");
    misused("border 0 1 1 0 0 0", "LENGTH is missing");
    misused("root", "X is missing\nusage: heddleplume root X\nfor example: heddleplume root 2\n");
    misused("globe6 0 1 1 0 0 0", "LENGTH is missing");
    misused("sphere 0 0 0", "Y is missing");
    misused("same 0 1 1 0 0 1 1 0", "K is missing\nusage: heddleplume same LEVEL FACE I J K FACE I J K\n");
    misused("first 0 0 1 1", "K is missing\nusage: heddleplume first FACE LEVEL I J K\n");
    misused("batch", "LEVEL is missing");
    misused("batch nine", "LEVEL is `nine`");
    misused(
        "batch 9 vectors.csv",
        "`vectors.csv` is one word too many\nusage: heddleplume batch LEVEL\nfor example: heddleplume batch 9 <",
    );
    misused("region", "write, check, has or list is missing\nusage: heddleplume region write LEVEL [FILE]\n");
    misused("region open north.region", "there is no question `region open`\nusage: heddleplume region write LEVEL [FILE]\n");
    misused("region write", "LEVEL is missing\nusage: heddleplume region write LEVEL [FILE]\n");
    misused("region write nine", "LEVEL is `nine`, which is no whole number");
    misused("region write 9 north.region south.region", "`south.region` is one word too many");
    misused("region check", "FILE is missing\nusage: heddleplume region check FILE\n");
    misused("region check north.region 9", "`9` is one word too many");
    misused("region has", "FILE is missing\nusage: heddleplume region has FILE FACE I J K\n");
    misused("region has north.region 3 9433 0", "K is missing");
    misused("region has north.region 3 -1 0 0", "I is `-1`, which is no whole number");
    misused("region has north.region 3 9433 0 4829 0", "`0` is one word too many");
    misused("region list", "FILE is missing\nusage: heddleplume region list FILE\n");
    misused("help region open", "there is no question `region open`");
    let (status, _, said) = ended(program("round").arg(OsStr::from_bytes(b"\xff")).output().unwrap());
    assert!(status == Some(2) && said.contains("is no text"), "{said}");
}

#[test]
fn help_and_version() {
    let (status, help, said) = asked("--help");
    assert_eq!((status, said.as_str()), (Some(0), ""));
    assert!(help.contains("x = cos(lat) cos(lon), y = cos(lat) sin(lon), z = sin(lat)"));
    assert!(help.lines().all(|line| line.chars().count() <= 120));
    for same in ["-h", "help", "place --help"] {
        assert_eq!(asked(same).1, help);
    }
    assert_eq!(asked("--version"), (Some(0), format!("heddleplume {}\n", env!("CARGO_PKG_VERSION")), String::new()));
}

/// Every question that the help lists can be asked as its example says.
#[test]
fn examples_of_the_help() {
    let help = asked("--help").1;
    let first_words = |line: &str, count| line.split(' ').take(count).collect::<Vec<_>>().join(" ");
    let is_question = |name: &String| asked(&format!("help {name}")).0 == Some(0);
    let listed = help.lines().filter_map(|line| line.strip_prefix("  "));
    let named = listed.filter_map(|line| [first_words(line, 2), first_words(line, 1)].into_iter().find(is_question));
    let names: Vec<String> = named.collect();
    assert_eq!(names.len(), 25, "{names:?}");
    // The first of those on a region writes the file that the others ask.
    let folder = Folder::of("examples");
    for name in names {
        let on = asked(&format!("help {name}")).1;
        let example = on.lines().find_map(|line| line.strip_prefix("for example: heddleplume ")).expect("there is one");
        let words = example.split('<').next().unwrap_or_default();
        assert_eq!(folder.asked(words).0, Some(0), "{example}");
    }
    assert_eq!(asked("help region").1.matches("usage: ").count(), 4);
}

#[test]
fn an_answer_that_cannot_be_written() {
    let full = || OpenOptions::new().write(true).open("/dev/full").expect("Linux has it");
    let (status, _, said) = ended(program("round 0 0").stdout(full()).output().unwrap());
    assert_eq!(status, Some(1));
    assert!(said.starts_with("heddleplume: the output could not be written and is not whole: "), "{said}");
    let (status, ..) = ended(program("round 0 0").stdout(full()).stderr(full()).output().unwrap());
    assert_eq!(status, Some(1));
    let (status, ..) = ended(program("where").stderr(full()).output().unwrap());
    assert_eq!(status, Some(2));
}
