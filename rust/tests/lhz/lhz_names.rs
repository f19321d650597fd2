//! The command `lhz show --line --names`: the words of a line's lists, from both kinds of text.

use crate::support::command::*;
use crate::support::files::repository;

/// The lists of a line, each once and in the line's order, with their words.
#[test]
fn words_of_lists() {
    let folder = Folder::with_sample();
    for (names, words) in [
        ("1 silver\n2 oath\n", ["silver", "oath"]),
        ("2 oath\n\n# 1 bell\n1\tsilver # spent\n3 more\n", ["silver", "oath"]),
        ("# list 0: starts\n1:0\n# list 1: silver\n1:2\n# list 2: oath\n-\n", ["silver", "oath"]),
        ("# list 1: silver\r\n1:2\r\n2 an oath\r\n", ["silver", "an oath"]),
        ("\u{feff}1 \u{e9}toile\n", ["\u{e9}toile", "(no word)"]),
        ("", ["(no word)"; 2]),
        ("# lists without words\n1:0 1:6\n1:2\n", ["(no word)"; 2]),
    ] {
        folder.write("names.txt", names);
        for (line, lists) in
            [("[1 2;b 0 1]", &[1, 2][..]), ("[2]&[1]|[2]", &[2, 1]), ("[2 2]", &[2])]
        {
            let told = lists.iter().map(|&list| format!("{list} {}\n", words[list - 1]));
            let expected = format!("{line}\n{}", told.collect::<String>());
            let written = run(folder.command(LHZ).args(["plan", "--line", line, "some.plan"]));
            written.answer();
            for asked in [
                "show --line --names names.txt titles.vol some.plan",
                "show --names names.txt titles.vol some.plan --line",
                "show titles.vol --line some.plan --names names.txt",
            ] {
                assert_eq!(folder.lhz(asked).answer(), expected, "{names:?}");
            }
            let asked = "show --line --names - titles.vol some.plan";
            assert_eq!(folder.lhz_given(asked, names.as_bytes()).answer(), expected, "{names:?}");
        }
    }
}

/// The sample evening's text of lists names them.
#[test]
fn words_of_the_sample_evening() {
    let folder = Folder::new();
    let evening = repository("examples/evening");
    let line = "[14 7;n 0 1 3]![8]";
    let ended = run(folder
        .command(LHZ)
        .args(["show", "--line", "--names"])
        .args([evening.join("lists.txt"), evening.join("evening.vol")])
        .args(["--line", line]));
    assert_eq!(ended.answer(), format!("{line}\n14 silver\n7 oath\n8 oaths\n"));
}

/// A mistake in the names is told with its line and column, behind all that is refused. Nothing is
/// printed.
#[test]
fn mistakes_in_names() {
    let folder = Folder::with_sample();
    folder.write("unknown.plan", [12, 0, 0, 0].repeat(4));
    for (names, mistake) in [
        ("1 silver\n2 oath\n1 gold\n", "3:3: list 1 is `silver` already"),
        ("# list 1: silver\n1:2\n1 gold\n", "3:3: list 1 is `silver` already"),
        ("1 silver\nsilver\n", "2:1: `silver` is no posting of a list and no number of one"),
        ("  1\n", "1:4: the word of list 1 is missing"),
        ("1:2 x", "1:5: `x` is no scene:place"),
        ("1024 word", "1:1: `1024` is over 1023, the last list"),
    ] {
        folder.write("names.txt", names);
        let ended = folder.lhz("show --line --names names.txt titles.vol sample.plan");
        assert_eq!(ended.failure(1, ""), format!("names.txt:{mistake}"));
        let ended =
            folder.lhz_given("show --line --names - titles.vol sample.plan", names.as_bytes());
        assert_eq!(ended.failure(1, ""), format!("standard input:{mistake}"));
        let ended = folder.lhz("show --line --names names.txt titles.vol unknown.plan");
        assert!(ended.failure(1, "refused 10 0\n").starts_with("unknown.plan: "));
    }
    folder.write("names.txt", b"1 silver\n2 \xff\n");
    let ended = folder.lhz("show --line --names names.txt titles.vol sample.plan");
    assert_eq!(ended.failure(1, ""), "names.txt:2:3: the text is not in UTF-8");
    let ended = folder.lhz("show --line --names absent.txt titles.vol sample.plan");
    assert!(ended.failure(2, "").starts_with("absent.txt: "));
}
