//! The C header: C programs that include it link the library and get document 01's answers.

use crate::support::cc::compile;
use std::process::Command;

/// What the program `tests/c/NAME.c` prints.
fn printed(name: &str) -> String {
    let program = compile(&format!("rust/tests/c/{name}.c"), name, &[])
        .unwrap_or_else(|told| panic!("{told}"));
    let ran = Command::new(program).output().expect("the program runs");
    assert!(ran.status.success());
    String::from_utf8_lossy(&ran.stdout).into_owned()
}

#[test]
fn volumes() {
    let expected = "\
limits 512 126 8192 4194304 1032192 1024
write 18 0 0
write 20 0 0
out 7 7
write 0 0 1
out 0 1 64 7
check 0 0 3 8
check 2 1 0 0
read 0 0 2: 65536 65542 7 7
read 0 0 3: 65541 65543 131081 7
read 16 0 0: 7 7 7 7
read 17 0 0: 7 7 7 7
read 2 0 0: 7 7 7 7
";
    assert_eq!(printed("volume"), expected);
}

#[test]
fn joins() {
    let expected = "\
join answer 16: 0 4 8 12
join 0 0 0 1, kept
check 0 0 3 11
list 0: 1:0 1:6 3:0
list 1: 1:2 1:8 2:4 3:4 12:7
list 2: 1:5 1:7 2:9
join 0 0 0 1, kept
check 0 0 3 11
list 0: 1:0 1:6 65526:0
list 1: 1:2 1:8 2:4 65526:4 65535:7
list 2: 1:5 1:7 2:9
join 25 0 0 0, kept
join 25 0 0 0, kept
join 25 0 0 0, kept
join 20 0 0 0, kept
join 25 0 0 0, kept
join 1 0 1 0, kept
join 1 0 2 0, kept
join 1 0 1 0, kept
join 3 1 2 0, kept
join 3 0 1 0, kept
join 24 0 0 0, kept
join 24 0 0 0, kept
join 0 0 0 1, kept
check 0 0 1 0
list 0:
";
    assert_eq!(printed("join"), expected);
}

#[test]
fn plans() {
    let expected = "\
check answer 16: 0 4 8 12
rows answer 8: 0 4
limits 4 64 256 8 8
kinds 1 2 3 4 5 6 7 8 9 10 11
limits 0: 0 0
limits 262153: 4 9
limits 65535: 0 65535
limits 4294901759: 65534 65535
limits 4294967295: 65535 65535
limits 131075: 2 3
no row: 9 0 0 0
open: 14 0 0 0
rows of 0: 0 0
sample: 0 0 1 2
a word less: 9 0 0 0
rows of 0: 0 20
rows of 1: 0 0
rows of 4294967295: 0 0
two answers: 14 0 0 0
two patterns: 0 0 2 3
rows of 0: 0 20
rows of 1: 20 16
rows of 2: 0 0
c of NEAR: 10 6 0 0
rows of 1: 0 0
list: 11 5 0 0
variable: 13 6 0 0
two patterns: 0 0 2 3
APART: 0 0 2 3
least over most: 10 6 0 0
variable of APART: 13 6 0 0
AT LEAST with a pattern open: 13 6 0 0
kind 12: 10 6 0 0
BOTH: 0 0 2 3
EITHER: 0 0 2 3
AT LEAST 2 2: 0 0 2 3
AT LEAST 3 3: 13 9 0 0
AT LEAST 3 2: 10 9 0 0
AT LEAST 0 2: 10 9 0 0
AT LEAST 1 1: 10 9 0 0
AT LEAST 1 9: 10 9 0 0
c of AT LEAST: 10 9 0 0
AT LEAST 1 2: 0 0 2 3
checksum: 3 0 0 0
checksum, no row: 3 0 0 0
rows of 0: 0 0
nine variables: 12 8 0 0
65 rows: 9 0 0 0
";
    assert_eq!(printed("plan"), expected);
}

#[test]
fn searches() {
    let expected = "\
test answer 12: 0 4 8
list answer 20: 0 4 8 12 16
matches answer 56: 0 4 8 16 20
DONE 65536, NO START 65536
list 9 0 0 0 0
test 9 0 0
matches 9 0 0 0, 0 0 0 0 0 0 0 0
list 14 0 0 0 0
sample, 6 words
list 0 0 1 6 65536: 1 1 2 0 5 0
done 1 6
sample, 9 words
list 0 0 1 6 65536: 1 1 2 0 5 0
done 1 6
sample, 12 words
list 0 0 1 6 65536: 1 1 2 0 5 0
done 1 6
sample, 5 words
list 16 0 0 0 0
sample, 4 words
list 16 0 0 0 0
sample, 0 words
list 16 0 0 0 0
list 0 0 0 2 65536
list 0 0 0 0 65536
list 0 0 0 0 65536
list 15 0 0 0 0
list 15 0 0 0 0
test 0 0 1
test 0 0 0
test 0 0 0
test 0 0 0
test 17 0 0
test 17 0 0
test 17 0 0
test 17 0 0
all of 0 in 1, 2 words
matches 0 0 1 0, 0 0 0 0 0 0 0 0: 2 5
done 1
matches 0 0 1 0, 0 0 0 0 0 0 0 0: 2 5
matches 0 0 0 0, 0 0 0 0 0 0 0 0
matches 0 0 0 0, 0 0 0 0 0 0 0 0
matches 17 0 0 0, 0 0 0 0 0 0 0 0
matches 17 0 0 0, 0 0 0 0 0 0 0 0
matches 17 0 0 0, 0 0 0 0 0 0 0 0
matches 17 0 0 0, 0 0 0 0 0 0 0 0
matches 17 0 0 0, 0 0 0 0 0 0 0 0
matches 16 0 0 0, 0 0 0 0 0 0 0 0
matches 16 0 0 0, 0 0 0 0 0 0 0 0
SAME TITLE 0 0, 6 words
list 0 0 1 6 65536: 1 1 2 0 5 0
done 1 6
test 0 0 1
test 0 0 0
BEFORE, 6 words
list 0 0 1 4 2: 1 1 2 0 5 0
list 0 0 1 2 65536: 2 1 4 65536 9 65536
done 2 6
BEFORE, 12 words
list 0 0 2 6 65536: 1 1 2 0 5 0: 2 1 4 65536 9 65536
done 2 6
list 0 0 1 2 65536: 2 1 4 65536 9 65536
test 0 0 1
FIRST NOT SECOND, 11 words
list 0 0 1 12 65536: 2 1 4 65536 9 65536 0 0 0 0 0
done 1 12
EITHER, 11 words
list 0 0 1 8 2: 1 1 2 0 5 0 1 7 6 8 6
list 0 0 1 4 65536: 2 1 4 65536 9 65536 0 0 0 0 0
done 2 12
test 0 0 1
all of 0 in 1, 2 words
matches 0 0 1 1, 2 7 0 0 0 0 0 0: 2 5
matches 0 0 1 0, 0 0 0 0 0 0 0 0: 2 7
done 2
all of 0 in 1, 5 words
matches 0 0 2 0, 0 0 0 0 0 0 0 0: 2 5: 2 7
done 2
all of 1 in 1, 2 words
matches 0 0 1 0, 0 0 0 0 0 0 0 0: 7 8
done 1
all of 1 in 2, 2 words
matches 0 0 0 0, 0 0 0 0 0 0 0 0
done 0
matches 17 0 0 0, 0 0 0 0 0 0 0 0
list 10 9 0 0 0
APART 2 4, 12 words
list 0 0 2 6 65536: 1 1 2 0 5 0: 2 1 4 65536 9 65536
done 2 6
test 0 0 1
test 0 0 1
test 0 0 0
APART 3 3, 12 words
list 0 0 0 6 65536
done 0 6
APART 4 and no upper end, 12 words
list 0 0 2 6 65536: 1 1 2 0 7 6: 2 1 4 65536 9 65536
done 2 6
list 10 2 0 0 0
matches 10 2 0 0, 0 0 0 0 0 0 0 0
AT LEAST 1 3, 14 words
list 0 0 1 10 2: 1 1 2 0 5 0 1 2 0 0 0 0 0 0
list 0 0 1 5 65536: 2 1 4 65536 9 65536 0 0 0 0 0 0 0 0
done 2 15
AT LEAST 2 3, 14 words
list 0 0 1 15 65536: 1 1 2 0 5 0 1 2 0 0 0 0 0 0
done 1 15
all of 1 in 1, 100 words
matches 0 0 2 0, 0 0 0 0 0 0 0 0: 2: 8
done 2
AT LEAST 3 3, 14 words
list 0 0 0 15 65536
done 0 15
list 10 11 0 0 0
list 13 11 0 0 0
all of 0 in 1, 1 words
matches 0 0 1 1, 7 0 0 0 0 0 0 0: 5
matches 0 0 1 0, 0 0 0 0 0 0 0 0: 7
done 2
all of 0 in 1, 3 words
matches 0 0 1 1, 5 8 0 0 0 0 0 0: 5 2
matches 0 0 1 1, 7 2 0 0 0 0 0 0: 5 8
matches 0 0 1 1, 7 8 0 0 0 0 0 0: 7 2
matches 0 0 1 0, 0 0 0 0 0 0 0 0: 7 8
done 4
all of 0 in 1, 8 words
matches 0 0 4 0, 0 0 0 0 0 0 0 0: 5 2: 5 8: 7 2: 7 8
done 4
all of 0 in 2, 8 words
matches 0 0 1 0, 0 0 0 0 0 0 0 0: 9 4 4 4 4 4 4 4
done 1
matches 0 0 1 1, 7 8 2 2 2 2 2 8: 7 8 2 2 2 2 2 2
matches 16 0 0 0, 0 0 0 0 0 0 0 0
late title, 8 words
list 0 0 1 9 65536: 1 1 2 65536 8 6 5 65536
done 1 9
late title, 7 words
list 16 0 0 0 0
late title, and a word in a title, 21 words
list 0 0 1 12 65536: 1 1 2 65536 8 6 5 65536 1 7 6
done 1 12
list 3 0 0 0 0
test 3 0 0
matches 3 0 0 0, 0 0 0 0 0 0 0 0
";
    assert_eq!(printed("search"), expected);
}

#[test]
fn lines() {
    let expected = "\
read answer 12: 0 4 8
line answer 12: 0 4 8
limits 2048 8
[1 2;b 0 1;t 0 1]
read 0 0 20: 1 1 0 0: 1 2 0 0: 3 0 1 0: 4 0 1 0: 6 0 0 0
read 0 0 20: 1 1 0 0: 1 2 0 0: 3 0 1 0: 4 0 1 0: 6 0 0 0
read 16 0 0
read 16 0 0
line 0 0 17: [1 2;b 0 1;t 0 1]
line 0 0 17: [1 2;b 0 1;t 0 1]
line 16 0 0
line 16 0 0
[1 2;b 0 1]|([2]&[1])
read 0 0 40: 1 1 0 0: 1 2 0 0: 3 0 1 0: 6 0 0 0: 1 2 0 0: 6 0 0 0: 1 1 0 0: 6 0 0 0: 7 0 0 0: \
8 0 0 0
line 0 0 19: [1 2;b 0 1]|[2]&[1]
((([1]|[2])))!([1]&[2])
read 0 0 44: 1 1 0 0: 6 0 0 0: 1 2 0 0: 6 0 0 0: 8 0 0 0: 1 1 0 0: 6 0 0 0: 1 2 0 0: 6 0 0 0: \
7 0 0 0: 9 0 0 0
line 0 0 19: ([1]|[2])!([1]&[2])
[2 1;n 1 0 65535;s 65536;a 0 1 0 65535]
read 0 0 24: 1 2 0 0: 1 1 0 0: 2 1 0 65535: 5 0 0 65536: 10 0 1 65535: 6 0 0 0
line 0 0 39: [2 1;n 1 0 65535;s 65536;a 0 1 0 65535]
(<2:[1],([2]|[1]),<1:[2],[1]>>)![2]
read 0 0 64: 1 1 0 0: 6 0 0 0: 1 2 0 0: 6 0 0 0: 1 1 0 0: 6 0 0 0: 8 0 0 0: 1 2 0 0: 6 0 0 0: \
1 1 0 0: 6 0 0 0: 11 1 2 0: 11 2 3 0: 1 2 0 0: 6 0 0 0: 9 0 0 0
line 0 0 31: <2:[1],[2]|[1],<1:[2],[1]>>![2]
line 0 0 31: <2:[1],[2]|[1],<1:[2],[1]>>![2]
line 16 0 0
[1]&[3]
read 0 0 20: 1 1 0 0: 6 0 0 0: 1 3 0 0: 6 0 0 0: 7 0 0 0
line 11 2 0
[1 2;b 2 65536]
read 0 0 16: 1 1 0 0: 1 2 0 0: 3 2 65536 0: 6 0 0 0
line 13 2 0
[1;s 0]
read 0 0 12: 1 1 0 0: 5 0 0 0: 6 0 0 0
line 10 1 0
line 3 0 0
line 9 0 0

read 21 0 0
[65537
read 21 5 0
[65536
read 21 6 0
[655360]
read 21 6 0
[01]
read 21 2 0
[1 ]
read 21 3 0
[1;n 0 1]
read 21 8 0
[1;n 0 1 2 3]
read 21 10 0
[1;a 0 1 65535 65536]
read 21 19 0
[1]

read 21 3 0
[1]]
read 21 3 0
read 0 0 8: 1 1 0 0: 6 0 0 0
(((((((([1]))))))))
read 0 0 8: 1 1 0 0: 6 0 0 0
((((((((([1])))))))))
read 22 8 0
(((((((([1](
read 21 11 0
((((((((x(
read 21 8 0
<
read 21 1 0
<9:[1],[2]>
read 21 1 0
<2:[1]>
read 21 6 0
<3:[1],[2]>
read 21 10 0
<8:[1],[1],[1],[1],[1],[1],[1],[1],[1]>
read 21 34 0
[1],[2]
read 21 3 0
<1:[1],(((((((<1:[1],[2]>
read 22 14 0
read 0 0 256
read 16 0 0
read 23 0 0
read 23 0 0
read 23 0 0
read 21 2047 0
read 21 2048 0
read 21 0 0
read 21 2048 0
";
    assert_eq!(printed("line"), expected);
}

/// Each name of a refusal is the number that its cause has, and the longest row is reached.
#[test]
fn refusals() {
    let expected = "\
LHZ_REFUSED_LENGTH 1: 1 0
LHZ_REFUSED_LENGTH 1: 1 0
LHZ_REFUSED_BLOCK_NUMBER 2: 2 1
LHZ_REFUSED_CHECKSUM 3: 3 1
LHZ_REFUSED_VERSION 4: 4 0
LHZ_REFUSED_LIST_COUNT 5: 5 0
LHZ_REFUSED_BLOCK_COUNT 6: 6 0
LHZ_REFUSED_LIST_ORDER 7: 7 1
LHZ_REFUSED_PADDING 8: 8 134
LHZ_REFUSED_PLAN_LENGTH 9: 9 0
LHZ_REFUSED_PLAN_LENGTH 9: 9 0
LHZ_REFUSED_UNFINISHED 14: 14 0
LHZ_REFUSED_ROW_FORM 10: 10 1
LHZ_REFUSED_ROW_FORM 10: 10 1
LHZ_REFUSED_ROW_FORM 10: 10 0
LHZ_REFUSED_ROW_ORDER 13: 13 0
LHZ_REFUSED_ROW_LIST 11: 11 0
LHZ_REFUSED_ROW_TOO_MANY 12: 12 8
LHZ_REFUSED_ROW_ORDER 13: 13 1
longest row 120: 7 56
LHZ_REFUSED_START 15: 15 0
LHZ_REFUSED_SHORT_BUFFER 16: 16 0
LHZ_REFUSED_SHORT_BUFFER 16: 16 0
LHZ_REFUSED_OUT_OF_RANGE 17: 17 0
LHZ_REFUSED_OUT_OF_RANGE 17: 17 0
LHZ_REFUSED_OUT_OF_RANGE 17: 17 0
LHZ_REFUSED_OUT_OF_RANGE 17: 17 0
LHZ_REFUSED_SHORT_BUFFER 16: 16 0
LHZ_REFUSED_COUNT_SUM 18: 18 0
LHZ_REFUSED_SHORT_OUTPUT 20: 20 0
LHZ_REFUSED_TOO_LARGE 19: 19 0
LHZ_REFUSED_LINE_FORM 21: 21 2048
LHZ_REFUSED_LINE_FORM 21: 21 0
LHZ_REFUSED_LINE_FORM 21: 21 12
LHZ_REFUSED_LINE_FORM 21: 21 15
LHZ_REFUSED_SHORT_BUFFER 16: 16 0
LHZ_REFUSED_SHORT_BUFFER 16: 16 0
LHZ_REFUSED_UNFINISHED 14: 14 0
LHZ_REFUSED_LINE_FORM 21: 21 8
LHZ_REFUSED_LINE_DEPTH 22: 22 8
LHZ_REFUSED_LINE_DEPTH 22: 22 8
LHZ_REFUSED_LINE_ROWS 23: 23 0
LHZ_REFUSED_LISTS_DIFFER 24: 24 0
LHZ_REFUSED_RAISE 25: 25 0
LHZ_REFUSED_RAISE 25: 25 0
LHZ_REFUSED_SHORT_OUTPUT 20: 20 0
LHZ_REFUSED_TOO_LARGE 19: 19 0
LHZ_REFUSED_BLOCK_NUMBER 2: 2 0
";
    assert_eq!(printed("refusals"), expected);
}

/// The library calls memcpy and memset and no other function.
#[test]
fn nothing_else_has_to_be_linked() {
    let flags = ["-nostdlib", "-static", "-fno-stack-protector", "-Wl,-e,main"];
    let linked = compile("rust/tests/c/freestanding.c", "freestanding", &flags);
    linked.unwrap_or_else(|told| panic!("{told}"));
}
