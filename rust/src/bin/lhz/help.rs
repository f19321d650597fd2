//! What `--help` prints.

/// The page of all commands.
pub const ALL: &str = "\
lhz checks, reads, writes, joins and searches the volumes of a surtitle archive.

  lhz check VOLUME [PLAN]                         check a volume, and a plan
  lhz list VOLUME PLAN                            list the true scenes
  lhz list --names FILE VOLUME PLAN               list them in words
  lhz list --json [--names FILE] VOLUME PLAN      list them as JSON
  lhz matches VOLUME PLAN FIGURE SCENE [PLACE..]  print every passing choice
  lhz read VOLUME [LIST]                          print one list, or all
  lhz test VOLUME PLAN FIGURE SCENE PLACE..       ask whether places pass
  lhz write TEXT VOLUME                           write a volume from a text
  lhz join FIRST SECOND H VOLUME                  make one volume of two
  lhz plan PLANTEXT PLAN                          write a plan from its text
  lhz plan --line LINE PLAN                       write a plan from a typed line
  lhz show PLAN                                   print a plan as text
  lhz show VOLUME PLAN FIGURE                     print one figure's own rows
  lhz show --line [--names FILE] VOLUME PLAN      print a plan as a typed line
  lhz COMMAND --help                              more on one, with examples
  lhz --version

Wherever a plan is read, `--line LINE`, anywhere among the arguments, stands in
place of PLAN: a plan as it is typed, such as '[1 2;b 0 1]|([3]&[4])'. How that
is done is told by lhz plan --help.
`-` stands for standard input, or for standard output where a file is written.
What is refused is printed as `refused`, document 01's number and place; a
sentence on it goes to standard error.
Exit status: 0 answered; 1 refused, or a mistake in a text; 2 wrong arguments,
or a file that cannot be read or written.

Examples, from lists to scenes, by a typed line and by a plan:

  lhz write lists.txt titles.vol
  lhz list titles.vol --line '[1 2;b 0 1]'
  lhz plan wording.txt wording.plan
  lhz list titles.vol wording.plan
";

/// How a page shows that its command is used: its lines up to the first that is empty.
pub fn uses(page: &str) -> impl Iterator<Item = &str> {
    page.lines().take_while(|line| !line.is_empty())
}

/// The page of one command.
pub fn page(command: &str) -> Option<&'static str> {
    Some(match command {
        "check" => CHECK,
        "list" => LIST,
        "matches" => MATCHES,
        "read" => READ,
        "test" => TEST,
        "write" => WRITE,
        "join" => JOIN,
        "plan" => PLAN,
        "show" => SHOW,
        _ => return None,
    })
}

const CHECK: &str = "\
lhz check VOLUME [PLAN]

Checks every byte of a volume, and a plan over it if one is given. Prints the
number of lists and of postings, then the number of figures and of voices, or
`refused`, document 01's number and place. `--line LINE` may stand in place of
PLAN (lhz plan --help).

  $ lhz check titles.vol sample.plan
  lists 3 postings 8
  figures 1 voices 2
  $ lhz check titles.vol --line '[1]|[2 1;n 0 1 3]'
  lists 3 postings 8
  figures 2 voices 3
";

const LIST: &str = r#"lhz list VOLUME PLAN
lhz list --names FILE VOLUME PLAN
lhz list --json [--names FILE] VOLUME PLAN

Lists all true scenes of a plan, rising, each once. A line is `scene`, the
scene, and for each figure 1 and two numbers for each of its voices, or 0 and
zeros where the figure is not found in that scene. The two numbers are the
voice's earliest place, and the place at which its title starts, or 65536 where
it is in no title. The last line is `done` and the number of postings of the
voices' lists; without it the listing is not whole. `--line LINE` may stand in
place of PLAN (lhz plan --help).

  $ lhz list titles.vol sample.plan
  scene 1 1 2 0 5 0
  done 6
  $ lhz list titles.vol --line '[1 2;b 0 1]![2 1;n 0 1 0]'
  scene 2 1 4 65536 9 65536 0 0 0 0 0
  done 12
  $ lhz list titles.vol --line '<2:[1;t 0 0],[2],[2 1;n 0 1 0]>'
  scene 1 1 2 0 1 5 0 1 7 6 8 6
  done 12

With --names each scene is told in words, with a line for each figure. FILE
tells the words by lines `N word`, or is a text of lists, with comments
`# list N: word`. A list without a word is told by its number.

  $ cat words.txt
  1 silver
  $ lhz list --names words.txt titles.vol --line '[1]|[2;t 0 0]'
  scene 1
    figure 0: silver at place 2 in the title from 0
    figure 1: list 2 at place 5 in the title from 0
  scene 2
    figure 0: silver at place 4 in no title
    figure 1: not found
  done 6

With --json each line is an object of JSON, for programs. In the objects of
scenes, `title` is null where a place is in no title, and a figure that is not
found is {"found":false}. With --names each place whose list has a word has it
as `word`. The object with `done` is the last. What is refused is printed as
without --json.

  $ lhz list --json titles.vol --line '[1]'
  {"scene":1,"figures":[{"found":true,"places":[{"place":2,"title":0}]}]}
  {"scene":2,"figures":[{"found":true,"places":[{"place":4,"title":null}]}]}
  {"done":true,"tally":3}
"#;

const MATCHES: &str = "\
lhz matches VOLUME PLAN FIGURE SCENE [PLACE..]

Prints every choice of places that passes for a figure in a scene, each once. A
line is `places` and a place for each voice of the figure, in the order of its
voices. The lines rise by the first place, those that agree in it by the second,
and so on. The last line is `done` and the number of choices printed; without it
they are not all. Figures are numbered from 0 in the order in which they open.

Without PLACE.. the first line has the earliest places. lhz list shows them too
if the scene is true. With PLACE.., one for each voice, choices before those
places are left out. The places given need not pass. If they do, they come
first. `--line LINE` may stand in place of PLAN (lhz plan --help).

  $ lhz matches titles.vol sample.plan 0 1
  places 2 5
  done 1
  $ lhz matches titles.vol sample.plan 0 1 2 6     # behind place 5 of voice 1
  done 0
  $ lhz matches titles.vol --line '[1 2;b 0 1]' 0 1
  places 2 5
  places 2 7
  done 2
";

const READ: &str = "\
lhz read VOLUME [LIST]

Prints the postings of a list as scene:place, or of all lists, one list a line;
`-` is an empty list. List 0 holds the places at which titles start.

  $ lhz read titles.vol 1
  1:2 1:8 2:4
  $ lhz read titles.vol > lists.txt     # the text that lhz write reads
";

const TEST: &str = "\
lhz test VOLUME PLAN FIGURE SCENE PLACE..

Asks whether places pass: one place for each voice of the figure, in the order
of its voices. Figures are numbered from 0 in the order in which they open.
Prints yes or no. `--line LINE` may stand in place of PLAN (lhz plan --help).

  $ lhz test titles.vol sample.plan 0 1 2 5
  yes
  $ lhz test titles.vol sample.plan 0 1 2 7     # a title starts at 6
  no
  $ lhz test titles.vol sample.plan 0 2 4 9     # no title starts in scene 2
  no
  $ lhz test titles.vol --line '[1 2;b 0 1]' 0 2 4 9
  yes
";

const WRITE: &str = "\
lhz write TEXT VOLUME

Writes the volume of the lists in a text. Each line is one list, list 0 first,
as scene:place with blanks between, or `-` for an empty list. A line that starts
with # is a comment and no list; behind postings a comment starts at #.
Scenes and places are 0 to 65535, and each list rises. A mistake is told with
its line and column, and the old file stays.

  $ cat lists.txt
  # where titles start
  1:0 1:6
  1:2 1:8 2:4   # a word
  1:5 1:7 2:9   # another word
  $ lhz write lists.txt titles.vol
  lists 3 postings 8 blocks 1
";

const JOIN: &str = "\
lhz join FIRST SECOND H VOLUME

Writes one volume of two: each list is FIRST's list, then SECOND's with H added
to each scene. A search of it lists the scenes of FIRST, then those of SECOND,
raised by H. The two must have equally many lists, which is checked, and list N
must belong to one word in both, which is not.

Raised, every scene of SECOND must be above every scene of FIRST, and at most
65535. Any other H is refused, and the least H that would do is told. VOLUME is
a file of its own, neither FIRST nor SECOND. On a refusal the old file stays.

  $ lhz join titles.vol titles.vol 2 twice.vol     # scenes 1 2, and then 3 4
  lists 3 postings 16 blocks 1
";

const PLAN: &str = "\
lhz plan PLANTEXT PLAN
lhz plan --line LINE PLAN

Writes a plan from its text, one row a line. Voices are numbered from 0 in each
figure. What follows # is skipped, and so are empty lines.

  VOICE list           a voice of the figure, opening one where none is open
  NEAR a b c           voices a and b, at most c places between them
  BEFORE a b           the place of voice a before that of voice b
  SAME TITLE a b       voices a and b in one title. Places before a scene's
                       first title are in none, so that SAME TITLE a a asks
                       whether voice a stands in a title at all
  SPAN c               all voices of the figure within c places
  APART a b least most voice b behind voice a, with least to most places between
                       them; a most of 65535 sets no upper end
  END                  closes the figure: is it found?
  BOTH, EITHER, FIRST NOT SECOND    join the last two answers into one
  AT LEAST a b         joins the last b answers into one: are a or more of them
                       yes? b is 2 to 8, and a is 1 to b

A row may also be its four numbers: kind, a, b, c. Whether the plan is in order
is told by lhz check VOLUME PLAN.

  $ cat sample.txt
  VOICE 1
  VOICE 2
  BEFORE 0 1
  SAME TITLE 0 1
  END
  $ lhz plan sample.txt sample.plan
  rows 5

With --line it writes the plan of a typed line, which is one argument, in single
quotes. A figure stands in square brackets: the lists of its voices, then its
conditions, each behind a semicolon.

  [1 2;b 0 1]          VOICE 1, VOICE 2, BEFORE 0 1, END
  ;n a b c             NEAR a b c
  ;b a b               BEFORE a b
  ;t a b               SAME TITLE a b
  ;s c                 SPAN c
  ;a a b least most    APART a b least most
  LINE|LINE            EITHER
  LINE&LINE            BOTH
  LINE!LINE            FIRST NOT SECOND
  (LINE)               what belongs together
  <2:LINE,LINE,LINE>   AT LEAST 2 3: two to eight lines, and how many of them at
                       least

& and ! bind tighter than |, and all of them join from left to right. One space
parts words and stands nowhere else. Numbers have no leading zero and are at
most 65536, least and most at most 65535. A line has at most 2048 bytes, eight
brackets ( or < open at one place, and 64 rows. A line that is refused at a byte
is shown with a mark under it, and what could stand there is told.

  $ lhz plan --line '<2:[1],[2],[1 2;n 0 1 0]>' some.plan
  rows 9
  $ lhz plan --line '[1 2;b 0 1;t 0 1]' sample.plan
  rows 5
";

const SHOW: &str = "\
lhz show PLAN
lhz show VOLUME PLAN FIGURE
lhz show --line [--names FILE] VOLUME PLAN

Prints a plan as the text that lhz plan reads, or one figure's own rows of a
plan that is in order, from its first VOICE to its END.

With --line it prints a plan that is in order as a line, with no bracket that
could be dropped. With --names each list of the line follows with its word, one
a line. FILE tells the words by lines `N word`, or is a text of lists, with
comments `# list N: word`.

Here too a typed line may stand in place of PLAN: --line in front of an argument
that starts with [ ( or < is that line. In front of any other, or at the end, it
asks for the line of a plan.

  $ lhz show sample.plan
  VOICE 1
  VOICE 2
  BEFORE 0 1
  SAME TITLE 0 1
  END
  $ lhz show --line titles.vol sample.plan
  [1 2;b 0 1;t 0 1]
  $ cat words.txt
  1 silver
  2 oath
  $ lhz show --line --names words.txt titles.vol sample.plan
  [1 2;b 0 1;t 0 1]
  1 silver
  2 oath
  $ lhz show --line '[1]&[2]'
  VOICE 1
  END
  VOICE 2
  END
  BOTH
  $ lhz show --line '<1:[1],[2]>'
  VOICE 1
  END
  VOICE 2
  END
  AT LEAST 1 2
  $ lhz show titles.vol --line '[1]&[2]' 1
  VOICE 2
  END
  $ lhz show --line titles.vol --line '([1]&[2])|[1]'
  [1]&[2]|[1]
";
