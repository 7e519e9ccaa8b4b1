//! The program as its users meet it: what it prints, and its status.

mod common;

use std::io::Write;
use std::path::Path;
use std::process::{Command, Stdio};

use common::folder;

const GOVERNOR: &str = concat!(env!("CARGO_MANIFEST_DIR"), "/../examples/governor/script.lua");

struct Ended {
    status: i32,
    out: String,
    said: String,
}

fn waldimu(arguments: &[&str]) -> Ended {
    with_input(arguments, "")
}

fn with_input(arguments: &[&str], input: &str) -> Ended {
    let mut child = Command::new(env!("CARGO_BIN_EXE_waldimu"))
        .args(arguments)
        .stdin(Stdio::piped())
        .stdout(Stdio::piped())
        .stderr(Stdio::piped())
        .spawn()
        .expect("the program");
    let mut pipe = child.stdin.take().expect("a pipe");
    // A command that reads no input may be gone by now.
    let _ = pipe.write_all(input.as_bytes());
    drop(pipe);
    let output = child.wait_with_output().expect("it ends");
    Ended {
        status: output.status.code().expect("a status"),
        out: String::from_utf8_lossy(&output.stdout).into_owned(),
        said: String::from_utf8_lossy(&output.stderr).into_owned(),
    }
}

#[test]
fn check_says_where_and_what() {
    let ended = waldimu(&["check", GOVERNOR]);
    assert_eq!(ended.status, 1);
    let expected = format!(
        "{GOVERNOR}:8:19: local 'trim' is read while it has no value; declared without one at line 3, column 15\n\
         {GOVERNOR}:10:7: the first value of local 'rack' is overwritten and never read; declared here\n\
         {GOVERNOR}:18:3: the value written to local 'rack' is overwritten and never read; declared at line 10, column 7\n\
         1 script, 1 block: 3 findings\n"
    );
    assert_eq!(ended.out, expected);
    assert_eq!(ended.said, "");
}

#[test]
fn check_marks_the_names() {
    let ended = with_input(&["check", "--marks", "-"], "local x\nprint(x)\n");
    assert_eq!(ended.status, 1);
    let lines: Vec<&str> = ended.out.lines().collect();
    assert_eq!(lines[1], "     2 | print(x)");
    assert_eq!(lines[2], "       |       ^");
}

#[test]
fn statuses() {
    assert_eq!(with_input(&["check", "-"], "print(1)").status, 0);
    assert_eq!(with_input(&["check", "-"], "local x print(x)").status, 1);
    assert_eq!(with_input(&["check", "-"], "local").status, 2);
    assert_eq!(with_input(&["check", "-"], &"f() ".repeat(1_025)).status, 2);
    assert_eq!(waldimu(&["check", "no such file.lua"]).status, 2);
    assert_eq!(with_input(&["check", "-"], "goto x").status, 1);
    for wrong in [
        &[][..],
        &["check"],
        &["nothing"],
        &["check", "--nothing", "-"],
        &["run", GOVERNOR],
        &["run", GOVERNOR, "0"],
        &["run", GOVERNOR, "999"],
        &["sheet", GOVERNOR, GOVERNOR],
        &["sheet", "--function", "1", GOVERNOR],
        &["sheet", "--function", GOVERNOR],
        &["sheet", "--json", GOVERNOR],
        &["run", "--json", GOVERNOR, "1"],
        &["graph", "--text", GOVERNOR],
        &["check", "--function", "0", GOVERNOR],
    ] {
        let ended = waldimu(wrong);
        assert_eq!(ended.status, 2, "{wrong:?}");
        assert!(!ended.said.is_empty(), "{wrong:?}");
    }
    for asked in [&["--help"][..], &["help"], &["check", "--help"], &["run", GOVERNOR, "-h"]] {
        let help = waldimu(asked);
        assert_eq!((help.status, help.out.starts_with("usage: waldimu check")), (0, true));
    }
}

#[test]
fn an_option_that_a_command_does_not_take_is_named() {
    let ended = waldimu(&["run", "--json", GOVERNOR, "1"]);
    assert!(ended.said.starts_with("waldimu: run takes no --json\n"), "{}", ended.said);
}

/// Nothing can be said there, and the status still is.
#[test]
#[cfg(target_os = "linux")]
fn a_full_standard_error_gives_no_panic() {
    for arguments in [&["sheet", "no such file.lua"][..], &["nothing"], &["run", GOVERNOR, "999"]] {
        let full = std::fs::OpenOptions::new().write(true).open("/dev/full").expect("the device");
        let ended = Command::new(env!("CARGO_BIN_EXE_waldimu"))
            .args(arguments)
            .stdin(Stdio::null())
            .stderr(full)
            .status()
            .expect("the program");
        assert_eq!(ended.code(), Some(2), "{arguments:?}");
    }
}

/// Silence means clean, so a link to nothing is named. Links to folders and to what is no file are
/// no scripts.
#[test]
#[cfg(unix)]
fn what_cannot_be_looked_at_is_named() {
    let room = folder("links");
    std::fs::create_dir_all(room.join("inner")).expect("a folder");
    let link = |to: &str, name: &str| {
        std::os::unix::fs::symlink(to, room.join(name)).expect("a link");
    };
    link("nowhere.lua", "broken.lua");
    link("..", "inner/around.lua");
    link("/dev/null", "inner/device.lua");
    let ended = waldimu(&["check", &room.to_string_lossy()]);
    let broken = room.join("broken.lua").display().to_string();
    let lines: Vec<&str> = ended.out.lines().collect();
    assert_eq!((ended.status, lines.len()), (2, 2), "{}", ended.out);
    assert!(lines[0].starts_with(&format!("{broken}: cannot be read: ")), "{}", ended.out);
    assert_eq!(lines[1], "1 script, 0 blocks: 0 findings, 1 script or block not checked");
    let ended = waldimu(&["check", &broken, &broken]);
    assert_eq!(
        ended.out.lines().last(),
        Some("2 scripts, 0 blocks: 0 findings, 2 scripts or blocks not checked")
    );
}

#[test]
fn a_broken_script_does_not_stop_the_others() {
    let room = folder("others");
    std::fs::create_dir_all(room.join("a/b")).expect("folders");
    let write = |name: &str, text: &str| std::fs::write(room.join(name), text).expect("a file");
    write("a/b/one.lua", "local x print(x)");
    write("a/two.lua", "local local");
    write("a/three.luau", "local x x += 1");
    write("a/notes.txt", "local x print(x)");
    write("zero.lua", "print(1)");
    let ended = waldimu(&["check", &room.to_string_lossy()]);
    assert_eq!(ended.status, 2);
    let name = |name: &str| room.join(name).display().to_string();
    let starts = [
        format!("{}:1:9: local 'x' is read while", name("a/three.luau")),
        format!("{}:1:7: expected a name, found 'local'", name("a/two.lua")),
        format!("{}:1:15: local 'x' is read while", name("a/b/one.lua")),
        "4 scripts, 3 blocks: 2 findings, 1 script or block not checked".to_owned(),
    ];
    let lines: Vec<&str> = ended.out.lines().collect();
    assert_eq!(lines.len(), starts.len(), "{}", ended.out);
    for start in &starts {
        assert!(
            lines.iter().any(|line| line.starts_with(start.as_str())),
            "{start}\n{}",
            ended.out
        );
    }
    assert!(lines[3].starts_with("4 scripts"));
}

#[test]
fn objects_for_tools() {
    let source = "local x\nprint(x)\ngoto \"\nlocal";
    let ended = with_input(&["check", "--json", "-"], source);
    assert_eq!(ended.status, 2);
    assert_eq!(
        ended.out,
        "{\"kind\":\"syntax\",\"file\":\"-\",\"line\":3,\"column\":6,\"end_line\":3,\"end_column\":7,\
         \"message\":\"expected \\\" to close this string, found the end of the line\"}\n\
         {\"kind\":\"summary\",\"scripts\":1,\"blocks\":0,\"findings\":0,\"unchecked\":1}\n"
    );
    let ended = with_input(&["check", "--json", "-"], "local x\nprint(x)\n");
    assert_eq!(
        ended.out.lines().next(),
        Some(
            "{\"kind\":\"unassigned\",\"file\":\"-\",\"line\":2,\"column\":7,\"end_line\":2,\"end_column\":8,\
             \"local\":\"x\",\"declared_line\":1,\"declared_column\":7,\"initial\":false,\
             \"message\":\"local 'x' is read while it has no value; declared without one at line 1, column 7\"}"
        )
    );
}

/// Those of docs/EXPORTING.md that the test before does not have.
#[test]
fn objects_of_other_kinds() {
    let ended = with_input(&["labels", "--json", "-"], "goto x");
    let label = "{\"kind\":\"label\",\"file\":\"-\",\"line\":1,\"column\":1,\"end_line\":1,\"end_column\":7,\
                 \"message\":\"goto 'x' finds no label in the blocks around it\"}";
    assert_eq!(ended.out.lines().next(), Some(label));
    let ended = with_input(&["check", "--json", "-"], &"f() ".repeat(1_025));
    let unchecked = "{\"kind\":\"unchecked\",\"file\":\"-\",\"line\":1,\"column\":1,\"end_line\":1,\"end_column\":1,\
                     \"message\":\"the script's own block was not checked: 1,025 items, and the unit takes 1,024\"}";
    assert_eq!(ended.out.lines().next(), Some(unchecked));
    let ended = waldimu(&["check", "--json", "no\tsuch\"file\".lua"]);
    let unreadable = "{\"kind\":\"unreadable\",\"file\":\"no\\tsuch\\\"file\\\".lua\",\"message\":\"cannot be read: ";
    assert!(ended.out.starts_with(unreadable), "{}", ended.out);
    let ended = with_input(&["check", "--json", "-"], "local x = 1 x = 2 print(x)");
    assert!(
        ended.out.contains("\"kind\":\"overwritten\"") && ended.out.contains("\"initial\":true")
    );
}

#[test]
fn the_dialect_by_option_or_ending() {
    let source = "local x = 1\nx += 1\nprint(x)\n";
    assert_eq!(with_input(&["check", "-"], source).status, 2);
    assert_eq!(with_input(&["check", "--luau", "-"], source).status, 0);
    let room = folder("dialect");
    let file = room.join("x.luau");
    std::fs::write(&file, source).expect("a file");
    assert_eq!(waldimu(&["check", &file.to_string_lossy()]).status, 0);
}

fn stored(name: &str) -> Vec<u8> {
    let path = Path::new(GOVERNOR).with_file_name(name);
    std::fs::read(path).expect("a stored sheet")
}

/// The governor's sheet was written by hand, long before this program could.
#[test]
fn the_governors_sheet_is_the_stored_one() {
    let output = Command::new(env!("CARGO_BIN_EXE_waldimu"))
        .args(["sheet", GOVERNOR])
        .output()
        .expect("the program");
    assert_eq!(output.stdout, stored("sheet.bin"));
    let text = waldimu(&["sheet", "--text", GOVERNOR]).out;
    let stored = String::from_utf8(stored("sheet.txt")).expect("text");
    let lines = |text: &str| -> Vec<String> {
        let is_line = |line: &&str| !line.starts_with('#') && !line.starts_with('=');
        text.lines().filter(is_line).map(str::to_owned).collect()
    };
    assert_eq!(lines(&text), lines(&stored));
}

#[test]
fn sheets_of_functions() {
    let source = "local x\nfunction f() return 1 end\n";
    let all = with_input(&["sheet", "--text", "-"], source);
    assert_eq!(all.status, 0);
    assert!(all.out.starts_with("# the script itself\nouter 34\nlocal 0 0-7"));
    assert!(all.out.contains("\n# function 1: f, line 2\nouter 30\nreturn 1 21-29"));
    let one = with_input(&["sheet", "--text", "--function", "1", "-"], source);
    assert!(one.out.starts_with("# function 1: f, line 2\n"));
    assert!(!one.out.contains("the script itself"));
}

#[test]
fn whether_a_place_can_run() {
    let answer = |place: &str| {
        let ended = waldimu(&["run", GOVERNOR, place]);
        (ended.status, ended.out.trim_end().trim_start_matches(GOVERNOR).to_owned())
    };
    assert_eq!(answer("16"), (1, ":16:5: cannot run: no path leads here".to_owned()));
    assert_eq!(answer("18:5"), (0, ":18:5: can run".to_owned()));
    assert_eq!(answer("21:15"), (0, ":21:15: can run: no code follows in this block".to_owned()));
    let source =
        "do return end\nlocal function f()\n  g()\nend\nfunction h()\n  error()\n  g()\nend";
    let run = |place: &str| {
        let ended = with_input(&["run", "-", place], source);
        (ended.status, ended.out)
    };
    assert_eq!(
        run("3"),
        (1, "-:3:3: cannot run: no path leads to its function on line 2\n".to_owned())
    );
    assert_eq!(run("7"), (1, "-:7:3: cannot run: no path leads here\n".to_owned()));
    assert_eq!(run("1").0, 0);
    // The function around the one around it is what cannot be reached.
    let source = "function f()\n  do return end\n  local function g()\n    return function()\n      h()\n    end\n  end\nend";
    let ended = with_input(&["run", "-", "5"], source);
    let expected = "-:5:7: cannot run: no path leads to its function on line 3\n";
    assert_eq!((ended.status, ended.out.as_str()), (1, expected));
}

#[test]
fn labels_by_place() {
    let ended = with_input(&["labels", "-"], "do goto a end\n::b:: ::b::\n");
    assert_eq!(ended.status, 1);
    assert_eq!(
        ended.out,
        "-:1:4: goto 'a' finds no label in the blocks around it\n\
         -:2:7: label 'b' stands in this block already, at line 2, column 3\n\
         1 script, 1 block: 2 label faults\n"
    );
    assert_eq!(with_input(&["labels", "-"], "do goto a end ::a::").status, 0);
}

#[test]
fn pictures() {
    let ended = waldimu(&["graph", GOVERNOR]);
    assert_eq!(ended.status, 0);
    assert!(ended.out.starts_with("<svg ") && ended.out.ends_with("</svg>\n"));
    for shown in ["exit Error", "cut_fuel()", "line 16, unreachable", "entry"] {
        assert!(ended.out.contains(shown), "{shown}");
    }
    let ended = with_input(&["graph", "--function", "1", "-"], "function f() return 'in f' end");
    assert!(ended.out.contains("return 'in f'"));
    assert_eq!(with_input(&["graph", "-"], &"f() ".repeat(1_025)).status, 2);
}
