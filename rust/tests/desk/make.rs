//! The Makefile and the layout of the tests: what `make install` puts where and `make uninstall`
//! removes, which tool is missing, what has to be built again, and what `make mutants` counts. No
//! prover runs: where `rt` is called, it is a stub.

use crate::support::command::{run, Ended, LHZ};
use crate::support::files::{files, names, repository, text, Folder};
use std::env;
use std::ffi::{OsStr, OsString};
use std::fs::{self, Permissions};
use std::os::unix::fs::{symlink, PermissionsExt};
use std::path::{Path, PathBuf};
use std::process::Command;

/// The library, as the Makefile names it.
const LIBRARY: &str = "target/staticlib/liblihambozy.a";
const HEADER: &str = "include/lihambozy.h";

/// `make` in a folder. It is not part of a `make` that runs this test, and takes no compiler and no
/// folder from the environment.
fn make(folder: &Path) -> Command {
    let mut command = Command::new("make");
    command.arg("--no-print-directory").current_dir(folder);
    for name in ["MAKEFLAGS", "MAKELEVEL", "MFLAGS", "CC", "DESTDIR", "PREFIX"] {
        command.env_remove(name);
    }
    command
}

/// A name and a value, as `make` takes them.
fn set(name: &str, value: impl AsRef<OsStr>) -> OsString {
    let mut word = OsString::from(format!("{name}="));
    word.push(value);
    word
}

/// A folder with the Makefile, `tools`, one crate and the library, made in this order.
fn small_repository() -> Folder {
    let folder = Folder::new();
    fs::copy(repository("Makefile"), folder.path("Makefile")).unwrap();
    fs::create_dir(folder.path("tools")).unwrap();
    fs::copy(repository("tools/mutants"), folder.path("tools/mutants")).unwrap();
    for name in ["crates/one/src", "crates/one/must-fail", "target/staticlib"] {
        fs::create_dir_all(folder.path(name)).unwrap();
    }
    folder.write("crates/one/src/lib.rt", "");
    folder.write("crates/one/src/other.rt", "");
    folder.write("crates/one/must-fail/first.edit", "");
    folder.write("crates.txt", "one:\n");
    folder.write(LIBRARY, "");
    folder
}

/// A program of the shell.
fn write_program(path: &Path, text: &str) {
    fs::write(path, format!("#!/bin/sh\n{text}")).unwrap();
    fs::set_permissions(path, Permissions::from_mode(0o755)).unwrap();
}

/// Runs a program that was just written. While another thread starts a process, the file may still
/// be open for writing there.
fn run_written(command: &mut Command) -> Ended {
    loop {
        let ended = run(command);
        if !ended.stderr.contains("Text file busy") {
            return ended;
        }
    }
}

#[test]
fn what_is_installed_is_there_and_is_removed() {
    let installed: [(&str, PathBuf); 3] = [
        ("bin/lhz", LHZ.into()),
        (HEADER, repository(HEADER)),
        ("lib/liblihambozy.a", repository(LIBRARY)),
    ];
    for (root, prefix) in [("", "a folder's \"name\" with $$signs"), ("a root", "/usr")] {
        let folder = Folder::new();
        let into = match root {
            "" => folder.path(prefix.replace("$$", "$")),
            root => folder.path(root).join("usr"),
        };
        let settings = match root {
            "" => vec![set("PREFIX", folder.path(prefix))],
            root => vec![set("DESTDIR", folder.path(root)), set("PREFIX", prefix)],
        };
        let in_make = |goal| {
            let mut command = make(&repository(""));
            let ended = run(command.arg(goal).args(&settings).arg(set("COMMAND", LHZ)));
            assert_eq!((ended.status, &ended.stderr[..]), (0, ""), "{goal}");
        };

        in_make("install");
        let names: Vec<&str> = installed.iter().map(|(name, _)| *name).collect();
        assert_eq!(files(&into), names);
        for (name, from) in &installed {
            let path = into.join(name);
            assert!(fs::read(&path).unwrap() == fs::read(from).unwrap(), "{name}");
            let mode = fs::metadata(&path).unwrap().permissions().mode() & 0o777;
            assert_eq!(mode, if *name == "bin/lhz" { 0o755 } else { 0o644 }, "{name}");
        }
        let lhz = run(Command::new(into.join("bin/lhz")).arg("--version"));
        assert_eq!(lhz.status, 0, "{}", lhz.stderr);

        fs::write(into.join("bin/other"), "").unwrap();
        in_make("uninstall");
        assert_eq!(files(&into), ["bin/other"]);
        assert_eq!(folder.names().len(), 1, "only the folder itself was made");
    }
}

#[test]
fn nothing_is_installed_before_it_is_built() {
    let folder = small_repository();
    for missing in [LIBRARY, "rust/target/release/lhz"] {
        if missing == LIBRARY {
            fs::remove_file(folder.path(LIBRARY)).unwrap();
            fs::create_dir_all(folder.path("rust/target/release")).unwrap();
            folder.write("rust/target/release/lhz", "");
        } else {
            folder.write(LIBRARY, "");
            fs::remove_file(folder.path(missing)).unwrap();
        }
        let ended = run(make(&folder.0).arg("install").arg(set("PREFIX", folder.path("to"))));
        let told = format!("make: {missing} is absent: run make first\n");
        assert!(ended.status == 2 && ended.stderr.starts_with(&told), "{}", ended.stderr);
        assert!(!folder.path("to").exists());
    }
}

/// Where a program of this name is found.
fn found(name: &str) -> PathBuf {
    let path = env::var_os("PATH").unwrap();
    let mut found = env::split_paths(&path).map(|folder| folder.join(name));
    found.find(|file| file.is_file()).unwrap_or_else(|| panic!("no {name}"))
}

#[test]
fn a_missing_tool_is_told_before_anything_is_done() {
    let folder = small_repository();
    fs::create_dir(folder.path("bin")).unwrap();
    for name in ["make", "bash", "find"] {
        symlink(found(name), folder.path("bin").join(name)).unwrap();
    }
    let tools = ["rt", "cargo", "cc"];
    let tool = |name: &str| folder.path("bin").join(name);
    let run_with = |words: &[&str]| run(make(&folder.0).args(words).env("PATH", tool("")));
    tools.iter().for_each(|name| write_program(&tool(name), "echo run >ran"));
    for words in [&["tools"][..], &["tools", "CARGO=cargo +stable", "CC=cc -O2"]] {
        assert_eq!(run_with(words).told(), (0, "", ""), "{words:?}");
    }
    for missing in tools {
        fs::remove_file(tool(missing)).unwrap();
        for goal in ["all", "test", "mutants", "bench", "soak"] {
            let ended = run_with(&[goal]);
            let (status, stdout, stderr) = ended.told();
            let first = stderr.lines().next().unwrap_or_default();
            let told = first.strip_prefix(&format!("make: {missing} is missing: "));
            assert!(status == 2 && stdout.is_empty(), "{goal}: {status}, {stdout}");
            assert!(told.is_some_and(|use_of| !use_of.is_empty()), "{goal}: {stderr}");
        }
        write_program(&tool(missing), "echo run >ran");
    }
    assert!(!folder.path("ran").exists() && !folder.path("build").exists());
}

#[test]
fn the_library_is_built_again_where_a_crate_has_changed() {
    let folder = small_repository();
    let is_built = |goal: &str| {
        let ended = run(make(&folder.0).args(["--dry-run", goal]));
        assert_eq!(ended.status, 0, "{}", ended.stderr);
        ended.told().1.contains("cd crates/lihambozy && rt lib")
    };
    let as_built = || folder.write(LIBRARY, "");
    let edit = || folder.write("crates/one/must-fail/second.edit", "");
    let change = || folder.write("crates/one/src/lib.rt", "fn one() {}");
    let remove = || fs::remove_file(folder.path("crates/one/src/other.rt")).unwrap();
    let list = || folder.write("crates.txt", "one: two\n");
    let lose = || fs::remove_file(folder.path(LIBRARY)).unwrap();
    let keep = || {
        fs::create_dir(folder.path("crates/one/out")).unwrap();
        folder.write("crates/one/out/one", "");
    };
    let cases: [(&str, &dyn Fn(), bool); 7] = [
        ("nothing", &|| {}, false),
        ("an edit", &edit, false),
        ("what rt keeps", &keep, false),
        ("a file", &change, true),
        ("a file less", &remove, true),
        ("the list of crates", &list, true),
        ("no library", &lose, true),
    ];
    for (what, change, expected) in cases {
        as_built();
        // Times of files are told apart by some milliseconds.
        std::thread::sleep(std::time::Duration::from_millis(20));
        change();
        for goal in ["all", "bench", "soak"] {
            assert_eq!(is_built(goal), expected, "{what}, {goal}");
        }
    }
    // Behind the gate it is built in any case.
    as_built();
    assert!(is_built("test"));
}

/// `rt` as `make mutants` calls it: edits named `refused` are refused, others are not.
const RT: &str = r#"
case $1 in
check) mkdir -p out ;;
must-fail)
    echo "$@" >>"$LOG"
    for edit in crates/*/must-fail/*.edit; do
        case $edit in
        */refused*) echo "rt: must-fail $edit: refused, as it must be (1 s)" ;;
        *.edit) echo "rt: must-fail $edit: BAD EDIT: its text is absent"; status=1 ;;
        esac
    done
    exit "${status:-0}"
    ;;
esac
"#;

#[test]
fn every_mutant_is_refused_or_told() {
    let folder = small_repository();
    fs::create_dir(folder.path("bin")).unwrap();
    write_program(&folder.path("bin/rt"), RT);
    let mut paths = vec![folder.path("bin")];
    paths.extend(env::split_paths(&env::var_os("PATH").unwrap()));
    let path = env::join_paths(paths).unwrap();
    let mutants = |crates: &str| {
        let mut command = make(&folder.0);
        command.arg("mutants").arg(set("CRATES", crates));
        command.env("PATH", &path).env("LOG", folder.path("log"));
        run_written(&mut command)
    };
    let fails = |crates: &str, told: &str| {
        let ended = mutants(crates);
        assert!(ended.status == 2 && ended.stderr.starts_with(told), "{:?}", ended.told());
        let stdout = ended.told().1;
        assert!(!stdout.contains("mutants refused"), "{stdout}");
    };
    let counts = |crates: &str, status: i32, last: &str| {
        let ended = mutants(crates);
        let (of_make, stdout, stderr) = ended.told();
        assert_eq!((of_make, stdout.lines().last()), (status, Some(last)), "{stdout}{stderr}");
    };
    let add = |name: &str| {
        let path = folder.path("crates").join(name);
        fs::create_dir_all(path.parent().unwrap()).unwrap();
        fs::write(path, "").unwrap();
    };

    fails("", "mutants: there is nothing to try\n");
    fails("one", "mutants: there is no crates/one/mutants\n");
    add("one/mutants/refused.edit");
    counts("one", 0, "1 mutants refused, 0 not refused");
    fails("one other", "mutants: there is no crates/other/mutants\n");
    add("other/must-fail/first.edit");
    add("other/mutants/refused.edit");
    add("other/mutants/refused_too.edit");
    counts("", 0, "3 mutants refused, 0 not refused");
    counts("other", 0, "2 mutants refused, 0 not refused");
    add("other/mutants/does_not_apply.edit");
    counts("", 2, "3 mutants refused, 1 not refused");
    counts("one", 0, "1 mutants refused, 0 not refused");
    add("other/mutants/refused.txt");
    fails("other", "mutants: crates/other/mutants/refused.txt is no edit\n");
    let tried = fs::read_to_string(folder.path("log")).unwrap();
    let expected = "must-fail one\nmust-fail one other\nmust-fail other\nmust-fail one other\n";
    assert_eq!(tried, format!("{expected}must-fail one\n"));
}

/// A file of tests that its folder's `main.rs` did not name would not be run.
#[test]
fn every_file_of_tests_is_run() {
    let tests = repository("rust/tests");
    let mut count = 0;
    for topic in names(&tests) {
        let folder = tests.join(&topic);
        assert!(folder.is_dir(), "{topic} stands in no folder");
        if !folder.join("main.rs").is_file() {
            continue;
        }
        let main = text(folder.join("main.rs"));
        for file in files(&folder).iter().filter(|file| *file != "main.rs") {
            let name = file.strip_suffix(".rs").expect("a file of Rust");
            let named = main.lines().any(|line| line == format!("mod {name};"));
            assert!(named, "{topic}/main.rs does not name {name}");
            count += 1;
        }
    }
    assert!(count > 25, "{count} files");
}
