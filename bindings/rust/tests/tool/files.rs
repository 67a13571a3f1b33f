//! Files that cannot be read or written, and what is left behind.

use crate::common::{counting, small};
use crate::place::{options, Place, Ran};
use gezdunar::{EdgeRule, Grid, InterleaveMode};
use std::fs;
use std::process::{Command, Stdio};

fn block(more: &str) -> String {
    format!("block --image image --row 0 --column 0 {} {more}", options(&small(InterleaveMode::B)))
}

fn place() -> Place {
    Place::with("image", &counting(64))
}

#[test]
fn inputs_that_cannot_be_read() {
    let (place, grid) = (Place::new(), options(&small(InterleaveMode::B)));
    let commands = [block(""), format!("pack --input image --output out {grid}"), format!("mask --table image {grid}")];
    for words in &commands {
        place.run(words).failed(3, &["cannot read image: No such file"]);
    }
    fs::create_dir(place.path("image")).expect("a directory can be made");
    for words in &commands {
        place.run(words).failed(3, &["cannot read image: "]);
    }
    assert_eq!(place.names(), ["image"]);
}

#[test]
fn outputs_that_cannot_be_written() {
    let place = place();
    fs::create_dir(place.path("inside")).expect("a directory can be made");
    place.run(&block("--output none/out")).failed(3, &["cannot write none/out: there is no directory none"]);
    place.run(&block("--output image/out")).failed(3, &["cannot write image/out: Not a directory"]);
    place.run(&block("--output inside")).failed(3, &["cannot write inside: it is a directory"]);
    for name in ["\"\"", "inside/..", "inside/", "new/"] {
        place.run(&block(&format!("--output {name}"))).failed(2, &["names no file"]);
    }
    let long = "x".repeat(300);
    place.run(&block(&format!("--output {long}"))).failed(3, &["cannot write xxx", "name too long"]);
    assert_eq!(place.names(), ["image", "inside"]);
}

#[test]
fn an_output_that_is_the_input_is_refused() {
    let place = place();
    for name in ["image", "./image", "../image"] {
        let name = name.replace("..", &place.path("").to_string_lossy());
        place.run(&block(&format!("--output {name}"))).failed(2, &["--output: ", " is a file that is read"]);
    }
    place.run(&block("--list 0 --preview image")).failed(2, &["--preview: image is a file that is read"]);
    let grid = options(&small(InterleaveMode::B));
    place.run(&format!("pack --input image --output image {grid}")).failed(2, &["is a file that is read"]);
    assert_eq!((place.get("image"), place.names()), (counting(64).to_vec(), vec!["image".to_owned()]));
}

#[test]
fn a_refused_read_keeps_the_old_file() {
    let place = place();
    place.put("out", b"old");
    for more in ["--output out --list 2", "--preview out --list 2", "--output out --length 3"] {
        place.run(&block(more)).failed(1, &["refused with "]);
        assert_eq!((place.get("out"), place.names()), (b"old".to_vec(), vec!["image".to_owned(), "out".to_owned()]));
    }
    place.run(&block("--output out")).done();
    assert_eq!(place.get("out"), &counting(16)[..]);
}

#[cfg(unix)]
#[test]
fn a_link_is_followed_and_permissions_are_kept() {
    use std::os::unix::fs::{symlink, PermissionsExt};
    let place = place();
    place.put("target", b"old");
    fs::set_permissions(place.path("target"), fs::Permissions::from_mode(0o640)).expect("permissions can be set");
    symlink("target", place.path("link")).expect("a link can be made");
    assert!(place.run(&block("--output link")).done().starts_with("wrote link: "));
    assert_eq!(place.get("target"), &counting(16)[..]);
    let target = fs::symlink_metadata(place.path("target")).expect("the target is there");
    assert_eq!((target.is_file(), target.permissions().mode() & 0o777), (true, 0o640));
    assert!(fs::symlink_metadata(place.path("link")).expect("the link is there").is_symlink());
    symlink("image", place.path("same")).expect("a link can be made");
    place.run(&block("--output same")).failed(2, &["is a file that is read"]);
    symlink("nothing", place.path("lost")).expect("a link can be made");
    place.run(&block("--output lost")).failed(3, &["cannot write lost: No such file"]);
    assert_eq!(place.names(), ["image", "link", "lost", "same", "target"]);
}

#[cfg(unix)]
#[test]
fn what_is_no_regular_file_is_kept() {
    use std::os::unix::fs::FileTypeExt;
    use std::os::unix::net::UnixListener;
    let place = place();
    let _listener = UnixListener::bind(place.path("socket")).expect("a socket can be made");
    place.run(&block("--output socket")).failed(3, &["cannot write socket: it is not a regular file"]);
    assert!(fs::symlink_metadata(place.path("socket")).expect("the socket is there").file_type().is_socket());
}

#[test]
fn a_read_only_file_is_kept() {
    let place = place();
    place.put("out", b"old");
    let mut permissions = fs::metadata(place.path("out")).expect("the file is there").permissions();
    permissions.set_readonly(true);
    fs::set_permissions(place.path("out"), permissions).expect("permissions can be set");
    place.run(&block("--output out")).failed(3, &["cannot write out: it is read-only"]);
    assert_eq!(place.get("out"), b"old");
}

#[cfg(unix)]
#[test]
fn a_file_that_cannot_be_written_to_its_end_is_removed() {
    let grid = Grid::new(1000, 1000, 1, 8, InterleaveMode::B, EdgeRule::Full, 1000, 1000);
    let place = Place::with("image", &vec![1; 1_000_000]);
    place.put("old", b"old");
    let read = format!("block --image image --row 0 --column 0 {}", options(&grid));
    for output in ["--output new", "--output old", "--preview new"] {
        // A limit on the size of files, with the signal that goes with it ignored.
        let tool = place.tool(&format!("{read} {output}"));
        let mut limited = Command::new("sh");
        limited.args(["-c", "trap '' XFSZ; ulimit -f 100; exec \"$0\" \"$@\""]).arg(tool.get_program());
        limited.args(tool.get_args()).current_dir(place.path(""));
        let ran = Ran::new(limited.output().expect("the shell can be started"));
        ran.failed(3, &["cannot write ", ": File too large"]);
        assert_eq!((place.get("old"), place.names()), (b"old".to_vec(), vec!["image".to_owned(), "old".to_owned()]));
    }
}

/// Runs the tool with a standard output that nobody reads.
fn unread(place: &Place, words: &str) -> Ran {
    let mut tool = place.tool(words);
    let mut child = tool.stdout(Stdio::piped()).stderr(Stdio::piped()).spawn().expect("the tool can be started");
    drop(child.stdout.take());
    Ran::new(child.wait_with_output().expect("the tool ends"))
}

#[test]
fn a_reader_that_goes_away_is_no_panic() {
    let grid = Grid::new(1000, 1000, 1, 8, InterleaveMode::B, EdgeRule::Full, 1000, 1000);
    let place = Place::with("image", &vec![1; 1_000_000]);
    let read = format!("block --image image --row 0 --column 0 {}", options(&grid));
    for words in [format!("info {}", options(&grid)), "--help".to_owned(), format!("{read} --output raw")] {
        let ran = unread(&place, &words);
        assert_eq!((ran.code, ran.err.as_str()), (Some(0), ""), "{words}");
    }
    assert_eq!(place.get("raw").len(), 1_000_000);
    unread(&place, &format!("{read} --output -")).failed(3, &["cannot write to standard output: "]);
}

#[cfg(target_os = "linux")]
#[test]
fn a_full_device_is_told() {
    let place = place();
    for words in [block("--output -"), block(""), "--help".to_owned()] {
        let full = fs::OpenOptions::new().write(true).open("/dev/full").expect("/dev/full is there");
        let ran = Ran::new(place.tool(&words).stdout(full).output().expect("the tool can be started"));
        ran.failed(3, &["cannot write to standard output: No space left"]);
    }
}
