//! The command as it is typed: what it prints, what it says is wrong, and its exit status.
use std::fs;
use std::io::Write;
use std::path::PathBuf;
use std::process::{Command, Output, Stdio};

fn tongsvale(arguments: &[&str]) -> Command {
    let mut command = Command::new(env!("CARGO_BIN_EXE_tongsvale"));
    command.args(arguments);
    command
}

fn run(arguments: &[&str]) -> Output {
    tongsvale(arguments).stdin(Stdio::null()).output().unwrap()
}

fn run_on(arguments: &[&str], input: &[u8]) -> Output {
    let mut child = tongsvale(arguments).stdin(Stdio::piped()).stdout(Stdio::piped()).stderr(Stdio::piped()).spawn().unwrap();
    child.stdin.take().unwrap().write_all(input).unwrap();
    child.wait_with_output().unwrap()
}

#[track_caller]
fn prints(output: &Output, status: i32, expected: &str) {
    let said = String::from_utf8_lossy(&output.stdout);
    let complained = String::from_utf8_lossy(&output.stderr);
    assert_eq!((output.status.code(), said.as_ref()), (Some(status), expected), "{complained}");
}

/// A file that holds a vocabulary; each test has one of its own.
fn vocabulary(name: &str, text: &[u8]) -> PathBuf {
    let file = PathBuf::from(env!("CARGO_TARGET_TMPDIR")).join(name);
    fs::write(&file, text).unwrap();
    file
}

#[test]
fn a_house_is_known() {
    prints(&run(&["打开客厅灯"]), 0, "打开 / 客厅灯\n");
    prints(&run(&["打开客厅灯", "关掉卧室电视"]), 0, "打开 / 客厅灯\n关掉 / 卧室电视\n");
}

#[test]
fn sentences_are_read_line_by_line() {
    prints(&run_on(&["-s", " "], "打开客厅灯\r\n\n调低空调温度26度".as_bytes()), 0, "打开 客厅灯\n\n调低 空调 温度 26 度\n");
    let output = run_on(&[], b"\xB4\xF2\xBF\xAA\n");
    prints(&output, 1, "");
    assert_eq!(String::from_utf8_lossy(&output.stderr), "tongsvale: a sentence that is not UTF-8\n");
}

#[test]
fn the_three_cuts() {
    prints(&run(&["--mode", "cut", "打开卧室电视"]), 0, "打开 / 卧室电视\n");
    prints(&run(&["--mode", "all", "打开卧室电视"]), 0, "打开 / 开 / 卧室 / 卧室电视 / 电视\n");
    prints(&run(&["--mode", "search", "打开卧室电视"]), 0, "打开 / 卧室 / 电视 / 卧室电视\n");
}

#[test]
fn words_and_vocabularies_are_given() {
    prints(&run(&["-w", "阳台鱼缸=50", "打开阳台鱼缸"]), 0, "打开 / 阳台鱼缸\n");
    prints(&run(&["-w", "a b=5", "a b"]), 0, "a /   / b\n");
    let [rooms, devices] = [vocabulary("rooms.txt", "客厅 2\n".as_bytes()), vocabulary("devices.txt", "鱼缸 3".as_bytes())];
    let files = ["-d", rooms.to_str().unwrap(), "-d", devices.to_str().unwrap()];
    // The house's own words are not there then.
    prints(&run(&[&files[..], &["打开客厅鱼缸"]].concat()), 0, "打 / 开 / 客厅 / 鱼缸\n");
    // Words without frequencies will do.
    let bare = vocabulary("bare.txt", "打\n打开\r\n灯\n客厅灯".as_bytes());
    prints(&run(&["-d", bare.to_str().unwrap(), "打开客厅灯"]), 0, "打开 / 客厅灯\n");
    let broken = vocabulary("broken.txt", "灯 1\n门 x\n".as_bytes());
    let output = run(&["-d", broken.to_str().unwrap(), "灯"]);
    prints(&output, 1, "");
    let message = format!("tongsvale: {}:2: its frequency is no number from 0 to 4294967295\n", broken.display());
    assert_eq!(String::from_utf8_lossy(&output.stderr), message);
}

#[test]
fn a_table_is_aligned() {
    let expected =
        "start  end  frequency  word\n    0    2        400  打开\n    2    4          -  TV\n    4    5          -  !\n";
    prints(&run(&["--table", "打开TV!"]), 0, expected);
}

#[test]
fn areas_grow() {
    let text: String = (1..=40).map(|n| "甲".repeat(n) + " 1\n").collect();
    let file = vocabulary("alike.txt", text.as_bytes());
    let output = run(&["-d", file.to_str().unwrap(), "--mode", "all", "-s", " ", &"甲".repeat(60)]);
    assert_eq!(output.status.code(), Some(0));
    let words = String::from_utf8(output.stdout).unwrap().split_whitespace().count();
    assert_eq!(words, (1..=40).map(|n| 61 - n).sum::<usize>());
    let output = run(&["-d", file.to_str().unwrap(), &"甲".repeat(60)]);
    prints(&output, 0, &format!("{} / {}\n", "甲".repeat(40), "甲".repeat(20)));
}

#[test]
fn a_cut_is_explained() {
    let expected = "0 打  打开 400              takes 打开\n1 开  开 200\n2 客  客厅 300, 客厅灯 120  takes 客厅灯\n3 厅  no word\n4 灯  灯 500\n打开 / 客厅灯\n";
    prints(&run(&["--explain", "打开客厅灯"]), 0, expected);
}

#[test]
fn ties_are_explained() {
    let tie = vocabulary("tie.txt", "甲 16\n乙 16\n甲乙 4\n丙 28\n".as_bytes());
    let expected = "0 甲  甲 16, 甲乙 4  takes 甲乙  (tie with 甲, equally likely: the longer step wins)\n1 乙  乙 16\n2 !   no word        takes !\n甲乙 / !\n";
    prints(&run(&["-d", tie.to_str().unwrap(), "--explain", "甲乙!"]), 0, expected);
    let zeros = vocabulary("zeros.txt", "甲 0\n甲乙 0\n".as_bytes());
    let expected = "0 甲  甲 0, 甲乙 0  takes 甲  (all frequencies are 0, so nothing can be weighed: the shortest word wins)\n1 乙  no word       takes 乙\n甲 / 乙\n";
    prints(&run(&["-d", zeros.to_str().unwrap(), "--explain", "甲乙"]), 0, expected);
}

#[test]
fn a_vocabulary_is_checked() {
    let mut text = "\u{FEFF}灯 5\nＴＶ 3\n灯１ 2\n灯（左） 1\n空调·主卧 4\nA/C 4\nカーテン 5\n灯\n书房 0\n书房 7\n书房\n"
        .as_bytes()
        .to_vec();
    text.extend(b"\xB5\xC6 5\n\xE9\x97\xA8 x\nTV 9");
    let file = vocabulary("owner.txt", &text);
    let output = run(&["check", file.to_str().unwrap()]);
    let name = file.display().to_string();
    let said = String::from_utf8(output.stdout).unwrap().replace(&name, "owner.txt");
    let expected = "\
owner.txt:1: warning: a byte-order mark becomes part of the first word, which is then never found
owner.txt:1: warning: \\u{feff}灯 is never found: no word of a cut has \\u{feff} (U+FEFF) in it
owner.txt:2: warning: ＴＶ is never found: no word of a cut has Ｔ (U+FF34) in it
owner.txt:3: warning: 灯１ is never found: no word of a cut has １ (U+FF11) in it
owner.txt:4: warning: 灯（左） is never found: no word of a cut has （ (U+FF08) in it
owner.txt:5: warning: 空调·主卧 is never found: no word of a cut has · (U+00B7) in it
owner.txt:6: warning: A/C is never found: no word of a cut has / (U+002F) in it
owner.txt:7: warning: カーテン is never found: no word of a cut has カ (U+30AB) in it
owner.txt:9: warning: 书房 has the frequency 0: that does not remove it, and every other word is likelier
owner.txt:10: warning: 书房 stands at owner.txt:9 too, with the frequency 0: the later one, 7, counts
owner.txt:11: warning: 书房 stands at owner.txt:10 too, with the frequency 7: the later one, 1, counts
owner.txt:12: refused: not UTF-8: saved as GBK?
owner.txt:13: refused: its frequency is no number from 0 to 4294967295
2 refused, 11 warnings
10 words, total 35
sizes: 65536 root entries, 32 slots (17 taken), 10 records: 524992 bytes
";
    assert_eq!((output.status.code(), said.as_str()), (Some(1), expected));
}

#[test]
fn the_house_is_without_fault() {
    let house = concat!(env!("CARGO_MANIFEST_DIR"), "/../examples/house.txt");
    let output = run(&["check", house]);
    assert_eq!(output.status.code(), Some(0));
    assert!(String::from_utf8(output.stdout).unwrap().starts_with("0 refused, 0 warnings\n"));
}

#[test]
fn bad_usage_ends_with_2() {
    for arguments in [&["--nothing"][..], &["check"], &["check", "no such file"], &["-w", "灯", "灯"], &["--mode", "hmm", "灯"]]
    {
        assert_eq!(run(arguments).status.code(), Some(2), "{arguments:?}");
    }
    assert_eq!(run(&["--explain", "--mode", "all", "灯"]).status.code(), Some(2));
}
