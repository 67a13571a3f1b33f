//! Arguments that are wrong, and help.

use crate::place::Place;

const GRID: &str = "--rows 3 --columns 5 --bands 2 --bits 8 --mode B --block-rows 2 --block-columns 4";

/// The complaint about the arguments of `info`.
fn wrong(words: &str) -> String {
    let ran = Place::new().run(&format!("info {words}"));
    ran.failed(2, &["gezdunar info: ", "\ntry: gezdunar info --help\n"]);
    let line = ran.err.lines().next().unwrap_or_default();
    line.strip_prefix("gezdunar info: ").unwrap_or_default().to_owned()
}

/// The grid's options with another text in the place of one.
fn with(old: &str, new: &str) -> String {
    assert!(GRID.contains(old));
    GRID.replace(old, new)
}

#[test]
fn help_is_shown_for_the_tool_and_for_each_command() {
    let place = Place::new();
    for words in ["--help", "-h", "help"] {
        let text = place.run(words).done();
        assert!(text.contains("usage: gezdunar COMMAND") && text.contains("exit codes"), "{text}");
    }
    for name in ["info", "block", "window", "pack", "mask"] {
        let text = place.run(&format!("{name} --help")).done();
        assert!(text.starts_with(&format!("gezdunar {name}: ")), "{text}");
        assert!(text.contains("--block-columns N") && text.contains("NPPBH") && text.contains("example"), "{text}");
        assert_eq!(place.run(&format!("help {name}")).done(), text);
        assert_eq!(place.run(&format!("{name} --rows x -h")).done(), text);
    }
    let text = place.run("subheader --help").done();
    assert!(
        text.starts_with("gezdunar subheader: ") && text.contains("--bands N") && text.contains("example"),
        "{text}"
    );
    assert_eq!(place.run("help subheader").done(), text);
    assert_eq!(place.run("--version").done(), concat!("gezdunar ", env!("CARGO_PKG_VERSION"), "\n"));
}

#[test]
fn no_command_and_other_commands() {
    let place = Place::new();
    place.run("").failed(2, &["usage: gezdunar COMMAND", "commands:"]);
    place.run("unpack --rows 3").failed(2, &["gezdunar: there is no command 'unpack'; the commands are info, block"]);
    place.run("help unpack").failed(2, &["there is no command 'unpack'", "try: gezdunar --help"]);
}

#[test]
fn options_that_are_wrong() {
    assert_eq!(wrong(&format!("{GRID} --colour 1")), "there is no option --colour");
    assert_eq!(wrong(&format!("{GRID} -r 1")), "there is no option -r");
    assert_eq!(wrong(&format!("{GRID} image")), "'image' is not an option; options begin with --");
    assert_eq!(wrong(&format!("{GRID} --rows 3")), "--rows is given twice");
    assert_eq!(wrong(&format!("{GRID} --rows=3")), "--rows is given twice");
    assert_eq!(wrong(&with("--bits 8", "--bits")), "--bits has no value (an empty one is written --bits \"\")");
    assert_eq!(wrong("--rows"), "--rows has no value (an empty one is written --rows \"\")");
    assert_eq!(wrong(&with("--bits 8", "")), "--bits is missing");
    assert_eq!(wrong(&with("--mode B", "")), "--mode is missing");
    assert_eq!(
        wrong("--rows 3 --columns 5 --bands 2 --bits 8"),
        "--mode, --block-rows and --block-columns are missing"
    );
}

#[test]
fn values_that_are_wrong() {
    let not = |text: &str| format!("--rows: '{text}' is not a whole number in digits, 0 to 4294967295");
    for text in ["-3", "+3", "3.0", "x", "0x3", "3,000", "\u{0663}"] {
        assert_eq!(wrong(&with("--rows 3", &format!("--rows {text}"))), not(text));
    }
    assert_eq!(wrong(&with("--rows 3", "--rows \"\"")), not(""));
    assert_eq!(wrong(&with("--rows 3", "--rows=")), not(""));
    let large = |text: &str| format!("--rows: {text} is too large; it takes at most 4294967295");
    for text in ["4294967296", "18446744073709551616", "99999999999999999999999999"] {
        assert_eq!(wrong(&with("--rows 3", &format!("--rows {text}"))), large(text));
    }
    for text in ["b", "X", "BP", "1"] {
        let told = format!("--mode: '{text}' is not one of the capital letters B, P, R and S");
        assert_eq!(wrong(&with("--mode B", &format!("--mode {text}"))), told);
    }
}

#[test]
fn a_value_may_stand_after_an_equals_sign() {
    let place = Place::new();
    let apart = place.run(&format!("info {GRID}")).done();
    assert_eq!(place.run(&format!("info {}", GRID.replace(' ', "=").replace("=--", " --"))).done(), apart);
}

#[test]
fn lists_and_other_values_that_are_wrong() {
    let place = Place::with("image", &[0; 64]);
    let block = format!("block {GRID} --image image --row 0 --column 0");
    for list in [",", "0,", "0,,1", "0;1", "-1", "all"] {
        place.run(&format!("{block} --list {list}")).failed(2, &["--list: '", "' is not a whole number in digits"]);
    }
    place.run(&format!("{block} --list 0,4294967296")).failed(2, &["--list: 4294967296 is too large"]);
    place.run(&format!("{block} --list")).failed(2, &["--list has no value (an empty one is written --list \"\")"]);
    place.run(&format!("{block} --offset -1")).failed(2, &["--offset: '-1' is not", "0 to 9223372036854775807"]);
    place.run(&format!("{block} --offset 9223372036854775808")).failed(2, &["--offset: ", "is too large"]);
    place.run(&format!("{block} --stretch")).failed(2, &["--stretch is only for --preview"]);
    place.run(&format!("{block} --preview x --stretch=1")).failed(2, &["--stretch takes no value"]);
    place.run(&format!("{block} --output x --preview y")).failed(2, &["--output and --preview cannot stand together"]);
    assert_eq!(place.names(), ["image"]);
}

#[cfg(unix)]
#[test]
fn arguments_that_are_no_text() {
    use crate::place::Ran;
    use std::ffi::OsStr;
    use std::os::unix::ffi::OsStrExt;
    let place = Place::with("image", &[0; 64]);
    let with = |words: &[&[u8]]| {
        let mut tool = place.tool(&format!("block {GRID} --image image --row 0 --column 0"));
        Ran::new(tool.args(words.iter().map(|word| OsStr::from_bytes(word))).output().expect("the tool can be started"))
    };
    with(&[b"--list", b"\xFF"]).failed(2, &["--list: '"]);
    with(&[b"\xFF"]).failed(2, &["is not an option"]);
    with(&[b"--list=\xFF"]).failed(2, &["is not UTF-8; write the value apart"]);
    assert_eq!(with(&[b"--output", b"\xFF"]).code, Some(0));
    assert_eq!(place.names().len(), 2);
}
