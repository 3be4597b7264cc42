//! The command as a process: statuses, what goes to standard error, files, and outputs that are closed or full.

use std::fs::{self, File};
use std::io::{Read, Write};
use std::os::unix::fs::{MetadataExt, PermissionsExt};
use std::path::PathBuf;
use std::process::{Command, Stdio};

/// A table that is open after 100,000 corrections and has a witness after 131,076.
const SLOW: &str = "fffffaaae8a8a0a0eaeaa8a0a0a08000a8a0808080800000a0a0000000000000";

fn command(arguments: &[&str]) -> Command {
    let mut command = Command::new(env!("CARGO_BIN_EXE_threshold"));
    command.args(arguments).stdin(Stdio::null());
    command
}

/// The status, and what is written to standard output and to standard error.
fn ran(arguments: &[&str], input: &[u8]) -> (i32, Vec<u8>, String) {
    let mut child = command(arguments).stdin(Stdio::piped()).stdout(Stdio::piped()).stderr(Stdio::piped()).spawn().unwrap();
    child.stdin.take().unwrap().write_all(input).unwrap();
    let output = child.wait_with_output().unwrap();
    (output.status.code().unwrap(), output.stdout, String::from_utf8(output.stderr).unwrap())
}

/// A folder for one test.
fn folder(name: &str) -> PathBuf {
    let folder = std::env::temp_dir().join(format!("threshold-{name}-{}", std::process::id()));
    fs::create_dir_all(&folder).unwrap();
    folder
}

#[test]
fn statuses_tell_the_verdicts() {
    for (arguments, status) in [
        (&["e8"][..], 0),
        (&["f888"], 1),
        (&["e8", "f888", "e8"], 1),
        (&[SLOW], 3),
        (&["f888", SLOW, "e8"], 3),
        (&[SLOW, "--budget", "1000000"], 1),
        (&["check", "e8: 1 1 1 >= 2"], 0),
        (&["check", "e8: 1 1 1 >= 2", "e8: 1 1 1 >= 1"], 1),
        (&["6"], 1),
        (&["0b-110"], 0),
        (&["6@7", "06@0f"], 1),
        (&["6", "--cares", "!(x1 x2)"], 0),
        (&["check", "e0@f7: 1 1 1 >= 2"], 0),
        (&["check", "06@0f: 1 2 = 0 7"], 1),
        (&["--help"], 0),
    ] {
        let (found, output, errors) = ran(arguments, b"");
        assert_eq!((found, errors.as_str()), (status, ""), "{arguments:?}");
        assert!(!output.is_empty());
    }
}

#[test]
fn a_wrong_call_has_a_hint_and_no_output() {
    for arguments in [&[][..], &["e8", "zz"], &["-e", "x1 +"], &["check", "e8"], &["many", "--jobs", "none"], &["on"], &["--rows"]] {
        let (status, output, errors) = ran(arguments, b"");
        assert_eq!((status, output.len()), (2, 0), "{arguments:?}");
        assert!(errors.starts_with("threshold: ") && errors.ends_with("\nthreshold --help shows what can be asked\n"), "{errors}");
    }
}

#[test]
fn a_job_is_saved_and_carried_on() {
    let folder = folder("job");
    let file = folder.join("job.bin");
    let name = file.to_str().unwrap();
    assert_eq!(ran(&["--save", name, SLOW, "e8"], b"").0, 3);
    let (status, output, _) = ran(&["on", name, "--budget", "31075"], b"");
    assert_eq!(status, 3);
    assert!(String::from_utf8(output).unwrap().contains("131,075 corrections made"));
    let (status, output, _) = ran(&["on", name, "--budget", "1"], b"");
    assert_eq!(status, 1);
    assert!(String::from_utf8(output).unwrap().contains("found after 131,076 corrections"));
    let listed = format!("{SLOW}: 222 225 = 217 230\ne8: 2 3 3 >= 4\n");
    assert_eq!(ran(&["list", name], b""), (0, listed.into_bytes(), String::new()));
    assert_eq!(fs::read_dir(&folder).unwrap().count(), 1);
    fs::remove_dir_all(folder).unwrap();
}

#[test]
fn a_job_with_rows_not_cared_for_is_saved_and_carried_on() {
    let folder = folder("partial");
    let file = folder.join("job.bin");
    let name = file.to_str().unwrap();
    let told = format!("    not saved: no record carries a gate or a witness where rows are not cared for\n    {name} has the ");
    // An open job is of kind 6, and a table that is decided stays one of kind 5.
    assert_eq!(ran(&["--save", name, "--budget", "5", "6@7", "0@0"], b"").0, 3);
    let open = fs::read(&file).unwrap();
    assert_eq!((open[0], &open[open.len() - 4..]), (6, &[5, 2, 0, 0][..]));
    assert_eq!(ran(&["list", name], b"").1, b"6@7: open at K 5\n0@0\n");
    // The end of the job is told, and told again: the file keeps the job.
    for _ in 0..2 {
        let (status, output, _) = ran(&["on", name], b"");
        let output = String::from_utf8(output).unwrap();
        assert_eq!((status, output.matches(&told).count()), (0, 2));
        assert!(
            output.contains(&format!("{told}open job still: threshold on {name} comes to this again, with enough budget\n")),
            "{output}"
        );
        assert!(output.ends_with(&format!("{told}table\n")), "{output}");
        assert!(output.contains("\n    found after 9 corrections\n"), "{output}");
        assert_eq!(fs::read(&file).unwrap(), open);
    }
    // One that stays open goes on.
    assert_eq!(ran(&["on", name, "--budget", "1"], b"").0, 3);
    assert_eq!(ran(&["list", name], b"").1, b"6@7: open at K 6\n0@0\n");
    fs::remove_dir_all(folder).unwrap();
}

#[test]
fn a_file_without_an_open_job_is_left_as_it_is() {
    let folder = folder("closed");
    let file = folder.join("closed.bin");
    let name = file.to_str().unwrap();
    for lines in ["e8\n", "e8: 1 1 1 >= 2\nf888: 3 12 = 5 10\n2/1\n", ""] {
        let (_, records, _) = ran(&["pack"], lines.as_bytes());
        fs::write(&file, &records).unwrap();
        let before = fs::metadata(&file).unwrap();
        let (status, output, errors) = ran(&["on", name], b"");
        assert_eq!((status, output.len()), (4, 0), "{lines}");
        let why = if lines.is_empty() {
            "no record is in it".to_string()
        } else {
            format!("no open job is in it; threshold list {name} shows what is")
        };
        assert_eq!(errors, format!("threshold: {name}: {why}\n"));
        let after = fs::metadata(&file).unwrap();
        assert_eq!((after.ino(), after.modified().unwrap()), (before.ino(), before.modified().unwrap()));
        assert_eq!(fs::read(&file).unwrap(), records);
    }
    fs::remove_dir_all(folder).unwrap();
}

#[test]
fn a_file_in_which_nothing_changes_is_not_written() {
    // The job at the cap of docs/FORMAT.md.
    let job = [4, 0, 0, 0xc0, 0x84, 0x3d, 0xff, 0x95, 0x0f, 0xff, 0x9e, 0x49, 1, 0, 0xc0, 0x84, 0x1d];
    let folder = folder("cap");
    let file = folder.join("job.bin");
    fs::write(&file, job).unwrap();
    let before = fs::metadata(&file).unwrap();
    let (status, output, _) = ran(&["on", file.to_str().unwrap()], b"");
    let lines =
        ["0/0, 0 inputs: given up so far", "1,000,000 corrections made, of at most 1,000,000", "the cap is reached: this job cannot go on"];
    assert_eq!((status, String::from_utf8(output).unwrap()), (3, lines.join("\n    ") + "\n"));
    let after = fs::metadata(&file).unwrap();
    assert_eq!((after.ino(), after.modified().unwrap()), (before.ino(), before.modified().unwrap()));
    fs::remove_dir_all(folder).unwrap();
}

#[test]
fn a_file_keeps_its_mode() {
    let folder = folder("mode");
    let file = folder.join("job.bin");
    let name = file.to_str().unwrap();
    assert_eq!(ran(&["--save", name, "--budget", "1", SLOW], b"").0, 3);
    for mode in [0o600, 0o664] {
        fs::set_permissions(&file, fs::Permissions::from_mode(mode)).unwrap();
        let before = fs::read(&file).unwrap();
        assert_eq!(ran(&["on", name, "--budget", "1"], b"").0, 3);
        assert_ne!(fs::read(&file).unwrap(), before);
        assert_eq!(fs::metadata(&file).unwrap().permissions().mode() & 0o7777, mode);
    }
    fs::remove_dir_all(folder).unwrap();
}

#[test]
fn verdicts_are_saved_before_they_are_told() {
    let folder = folder("save");
    let file = folder.join("saved.bin");
    let name = file.to_str().unwrap();
    let full = File::options().write(true).open("/dev/full").unwrap();
    assert_eq!(command(&["--save", name, "e8", "f888"]).stdout(full).stderr(Stdio::null()).status().unwrap().code(), Some(4));
    assert_eq!(ran(&["list", name], b"").1, b"e8: 2 3 3 >= 4\nf888: 3 12 = 6 9\n");
    fs::remove_dir_all(folder).unwrap();
}

#[test]
fn hex_digits_that_look_binary_are_told_in_a_call_and_not_in_lines() {
    let (status, output, errors) = ran(&["0b10", "0b10/1"], b"");
    assert_eq!((status, errors.as_str()), (1, "threshold: 0b10 is read as hex digits; in binary: 0b10/1\n"));
    let output = String::from_utf8(output).unwrap();
    assert!(output.starts_with("0b10, 4 inputs: no gate") && output.contains("\n2/1, 1 input: one gate"), "{output}");
    let (_, _, errors) = ran(&["many"], b"0b10\n");
    assert!(errors.starts_with("1 table, "), "{errors}");
}

#[test]
fn gates_past_all_limits_are_refused() {
    for gate in ["e8: 4000000000 x1 - 3000000000 x1 + x1 + x2 + x3 >= 2", "e8: 3000000000 x1 - 2147483646 x1 + x2 + x3 >= 2"] {
        let (status, output, errors) = ran(&["check", gate], b"");
        assert_eq!((status, output.len()), (2, 0), "{gate}");
        assert!(errors.contains("refused by 7: a weight or the threshold is beyond 1,000,000"), "{errors}");
    }
}

#[test]
fn where_memory_is_short_fewer_threads_work() {
    let script = "ulimit -v 300000 && exec \"$0\" many --jobs 200";
    let mut limited = Command::new("sh");
    limited.args(["-c", script, env!("CARGO_BIN_EXE_threshold")]).stdin(Stdio::piped()).stdout(Stdio::piped()).stderr(Stdio::null());
    let mut child = limited.spawn().unwrap();
    child.stdin.take().unwrap().write_all("e8\n".repeat(10_000).as_bytes()).unwrap();
    let output = child.wait_with_output().unwrap();
    assert_eq!((output.status.code(), output.stdout), (Some(0), "e8: 2 3 3 >= 4\n".repeat(10_000).into_bytes()));
}

#[test]
fn lines_are_packed_and_listed() {
    let lines = b"2/1\ne8\ne0@f7\ne8: 2 3 3 >= 4\nf888: 3 12 = 5 10\n";
    let (status, records, _) = ran(&["pack"], lines);
    assert_eq!((status, &records[..6]), (0, &[1, 1, 0x02, 1, 3, 0xe8][..]));
    assert_eq!(ran(&["list"], &records), (0, lines.to_vec(), String::new()));
    let (status, output, errors) = ran(&["list"], &[1, 1, 0x02, 1, 1, 0x04]);
    assert_eq!((status, output), (4, b"2/1\n".to_vec()));
    assert_eq!(errors, "threshold: standard input: record 2, at byte 3, is refused by 3: a spare bit of the table is set\n");
    let (status, output, errors) = ran(&["pack"], b"e0@f7: 1 1 1 >= 2\n");
    assert_eq!((status, output.len()), (4, 0));
    let told = "no record carries a gate or a witness where rows are not cared for";
    assert_eq!(errors, format!("threshold: standard input, line 1: {told}\n"));
    let (status, output, errors) = ran(&["pack"], b"e8\n\nzz\n");
    assert_eq!((status, output.len()), (4, 0));
    assert_eq!(errors, "threshold: standard input, line 3: \"zz\" is no table: 'z' is not a hex digit\n");
}

#[test]
fn a_wrong_line_of_many_is_told_and_the_rest_answered() {
    let (status, output, errors) = ran(&["many"], b"e8\nzz\n8\n");
    assert_eq!((status, output), (4, b"e8: 2 3 3 >= 4\n8: 2 3 >= 4\n".to_vec()));
    let told = "threshold: line 2: \"zz\" is no table: 'z' is not a hex digit\n";
    assert_eq!(errors, format!("{told}2 tables, 2 distinct, in under 1 s: 2 with a gate, 0 without, 0 given up; 1 wrong line\n"));
}

#[test]
fn lines_with_rows_not_cared_for_are_answered_and_checked() {
    let (status, output, errors) = ran(&["many"], b"6\n0b-110\n6@7\n06@0f\n0@0\n");
    let answers = "6: 1 2 = 0 3\n6@7: 2 2 >= 1\n6@7: 2 2 >= 1\n06@0f: 1 2 = 0 3\n0@0: 0 0 >= 0\n";
    assert_eq!((status, String::from_utf8(output).unwrap()), (0, answers.to_string()));
    assert!(errors.starts_with("5 tables, 4 distinct, "), "{errors}");
    let (status, output, _) = ran(&["check"], answers.as_bytes());
    assert_eq!((status, output.split(|&byte| byte == b'\n').filter(|line| line.starts_with(b"holds ")).count()), (0, 5));
}

#[test]
fn what_cannot_be_read_is_told() {
    for arguments in [["on", "/nowhere/job"], ["list", "/nowhere/records"], ["many", "/nowhere/tables"], ["pack", "/"], ["many", "/"]] {
        let (status, output, errors) = ran(&arguments, b"");
        assert_eq!((status, output.len()), (4, 0), "{arguments:?}");
        assert!(errors.starts_with(&format!("threshold: {}: ", arguments[1])), "{errors}");
    }
}

#[test]
fn a_full_disk_is_told() {
    let full = || File::options().write(true).open("/dev/full").unwrap();
    for arguments in [&["e8"][..], &["--help"], &["check", "e8: 1 1 1 >= 2"], &["many"], &["pack"]] {
        let mut child = command(arguments).stdin(Stdio::piped()).stdout(full()).stderr(Stdio::piped()).spawn().unwrap();
        // Some of these do not read it, and may have ended.
        let _ = child.stdin.take().unwrap().write_all(b"e8\n");
        let output = child.wait_with_output().unwrap();
        let errors = String::from_utf8(output.stderr).unwrap();
        assert_eq!(output.status.code(), Some(4), "{arguments:?}");
        assert!(errors.starts_with("threshold: standard output: No space left"), "{errors}");
    }
    assert_eq!(ran(&["e8", "--save", "/dev/full"], b"").0, 4);
}

#[test]
fn a_closed_pipe_ends_the_work_quietly() {
    let mut child = command(&["many"]).stdin(Stdio::piped()).stdout(Stdio::piped()).stderr(Stdio::piped()).spawn().unwrap();
    let mut input = child.stdin.take().unwrap();
    drop(child.stdout.take());
    // The command ends before it has read all of this, and its input is closed then.
    let _ = (0..100_000).try_for_each(|_| input.write_all(b"e8e8e8e8e8e8e8e8\n"));
    drop(input);
    let mut errors = String::new();
    child.stderr.take().unwrap().read_to_string(&mut errors).unwrap();
    assert_eq!((child.wait().unwrap().code(), errors.as_str()), (Some(4), ""));
}
