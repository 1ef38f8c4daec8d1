//! The command `./views`: its status, its lines and what it says on standard error.

use std::env;
use std::fs;
use std::os::unix::fs::symlink;
use std::path::{Path, PathBuf};
use std::process::Command;
use trial::known::{kiln, KILN_LINES};
use trial::write::{lettered, lettered_with, rule, sheet, M, NOT};

/// A folder of this test's own, with a sheet of the user's and a link to the command.
fn folder() -> PathBuf {
    let folder = PathBuf::from(env!("CARGO_TARGET_TMPDIR")).join("command");
    let _ = fs::remove_dir_all(&folder);
    fs::create_dir_all(folder.join("a folder")).expect("a folder");
    fs::write(folder.join("my sheet"), kiln()).expect("a sheet");
    let views = PathBuf::from(env!("CARGO_MANIFEST_DIR")).join("../../views");
    symlink(fs::canonicalize(views).expect("views"), folder.join("views")).expect("a link");
    folder
}

/// A line for the shell in that folder: its status, what was printed, and what was said on standard error.
fn shell(folder: &Path, line: &str) -> (Option<i32>, String, String) {
    let output = Command::new("bash").args(["-c", line]).current_dir(folder).output().expect("bash starts");
    let text = |bytes| String::from_utf8(bytes).expect("text");
    (output.status.code(), text(output.stdout), text(output.stderr))
}

const LISTED: [&str; 5] = [
    "./views 'my sheet' < /dev/null",
    "./views -- 'my sheet'",
    "./views - < 'my sheet'",
    "cat 'my sheet' | ./views",
    "cp 'my sheet' ./-x; ./views -- -x <&- 2>&-",
];

/// What has status 2, and what is said.
const FAILED: [(&str, &str); 12] = [
    ("./views none", "views: 'none' is not there\n"),
    ("./views ''", "views: '' is not there\n"),
    ("./views 'a folder'", "views: 'a folder' is a folder\n"),
    ("./views none none", "views: one sheet at a time; --help says more\n"),
    ("./views -x", "views: there is no option -x; --help says what there is\n"),
    ("./views - < .", "views: the sheet can't be read\n"),
    ("./views - <&-", "views: the sheet can't be read\n"),
    ("./views 'my sheet' >&-", "views: standard output is closed\n"),
    ("./views 'my sheet' > /dev/full", "views: the output is not whole\n"),
    ("./views --help > /dev/full", "views: the output is not whole\n"),
    ("./views 'my sheet' | true; exit ${PIPESTATUS[0]}", ""),
    ("trap '' PIPE; ./views 'my sheet' | true; exit ${PIPESTATUS[0]}", ""),
];

/// All in one test, since each run asks `rt` first whether the program is built.
#[test]
fn the_command() {
    let folder = folder();
    for line in LISTED {
        assert_eq!(shell(&folder, line), (Some(0), KILN_LINES.to_string(), String::new()), "{line}");
    }
    refused_in_words(&folder);
    for (line, said) in FAILED {
        assert_eq!(shell(&folder, line), (Some(2), String::new(), said.to_string()), "{line}");
    }
    let (status, text, said) = shell(&folder, "./views --help");
    assert!(status == Some(0) && text.starts_with("use: views") && said.is_empty(), "{text}{said}");
    without_rt(&folder);
    let (status, text, said) = shell(&folder, "PATH=$PWD/tools ./views 'my sheet'");
    assert!(status == Some(2) && text.is_empty() && said.starts_with("views: rt is missing"), "{text}{said}");
}

fn refused_in_words(folder: &Path) {
    let refused: [(&str, Vec<u8>); 12] = [
        ("1 0", vec![]),
        ("1 1", vec![0]),
        ("1 2", vec![0, 0]),
        ("2 0", vec![16]),
        ("2 1", vec![0, 65]),
        ("2 2", vec![0, 0, 8]),
        ("3 7", sheet(&["kiln", "Kiln"], &[])),
        ("4 8", sheet(&["kiln", "b", "kiln"], &[])),
        ("5 10", lettered(2, &[rule(&[(NOT, 4)])])),
        ("6 48", [kiln(), vec![0; 2_000]].concat()),
        ("7 0", lettered(13, &[rule(&[(M, 0x1FFF)])])),
        ("15 9", lettered_with(3, &[], &[[0, 3]])),
    ];
    for (numbers, sheet) in refused {
        fs::write(folder.join("bad"), &sheet).expect("a file");
        let words = budkarv::list(&sheet).expect_err("a refusal");
        let expected = (Some(1), format!("refused {numbers}\n"), format!("views: {words}\n"));
        assert_eq!(shell(folder, "./views bad"), expected);
    }
}

/// Makes the folder `tools` with what the command calls before `rt`, and no more.
fn without_rt(folder: &Path) {
    fs::create_dir(folder.join("tools")).expect("a folder");
    let path = env::var_os("PATH").expect("PATH");
    for name in ["bash", "realpath", "dirname", "head", "base64"] {
        let tool = env::split_paths(&path).map(|folder| folder.join(name)).find(|tool| tool.is_file());
        symlink(tool.expect(name), folder.join("tools").join(name)).expect("a link");
    }
}
