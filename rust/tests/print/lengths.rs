//! Inputs of every length around those that matter: none, a whole sheet, the longest sheet, the 9,639 bytes that are
//! read at most, and far more.

use super::program::{assert_printed, check, end, refuses, start, write};
use crate::common::examples::{plain, sheet_a, FEWEST, MOST};
use crate::common::layout::{entries, offset, KIND};
use crate::common::printing::{refusal_line, MOST_READ};
use crate::common::rng::Rng;
use crate::common::sheet::Sheet;
use std::fs::{self, File};
use std::io::{Read, Seek, Write};
use std::os::fd::OwnedFd;
use std::os::unix::net::UnixStream;
use std::path::{Path, PathBuf};
use std::process::{Child, Stdio};
use std::thread;
use std::time::{Duration, Instant};

fn longest() -> Vec<u8> {
    let sheet = plain(MOST).encode();
    assert_eq!(sheet.len(), 9_638);
    sheet
}

/// The sheet with zeros behind it, up to this length.
fn padded(sheet: &[u8], len: usize) -> Vec<u8> {
    let mut input = sheet.to_vec();
    input.resize(len, 0);
    input
}

#[test]
fn no_input() {
    let output = end(start(Stdio::null()));
    assert_printed(&output, "refused 10\n", format_args!("/dev/null"));
}

/// Every length of the shortest sheet, and of sheet A with a few bytes behind it.
#[test]
fn cut_at_every_length() {
    for sheet in [plain(FEWEST).encode(), sheet_a().encode()] {
        let input = padded(&sheet, sheet.len() + 4);
        for len in 0..=input.len() {
            let number = check(&input[..len], format_args!("{len} bytes"));
            let due = match len {
                0..=45 => 10,
                _ if len == sheet.len() => 0,
                _ => 13,
            };
            assert_eq!(number, due, "{len} bytes");
        }
    }
}

/// The longest sheet needs 262,144 cells; each fault that it has besides comes first.
#[test]
fn the_longest_sheet() {
    refuses(20, &longest(), format_args!("the longest sheet"));
    for (number, field, value) in [(11, KIND, 2), (12, entries(7), 4_095), (13, offset(7), 0)] {
        let mut input = longest();
        field.put(&mut input, value);
        refuses(number, &input, format_args!("{field} set to {value}"));
    }
    let with = |change: fn(&mut Sheet)| {
        let mut sheet = plain(MOST);
        change(&mut sheet);
        sheet.encode()
    };
    for (number, input) in [
        (14, with(|sheet| sheet.rules[31].least = 13)),
        (15, with(|sheet| sheet.doors = vec![sheet.doors[0]; 64])),
        (16, with(|sheet| sheet.tasks.fill(-9))),
        (17, with(|sheet| sheet.pairs[31] = (1, 0))),
    ] {
        assert_eq!(input.len(), 9_638);
        refuses(number, &input, format_args!("the longest sheet changed"));
    }
}

/// Lengths around those of the longest sheet and of what is read, around the room in a pipe, that are right in their low
/// 16 bits, and a megabyte, which the program leaves unread for the most part.
fn long_lengths(sheet: &[u8]) -> Vec<usize> {
    let wrapped = 65_536 + sheet.len();
    let mut lengths: Vec<usize> = (9_636..=9_642).collect();
    lengths.extend([
        9_647, 19_277, 65_535, 65_536, 65_537, wrapped, 131_072, 1_000_000,
    ]);
    lengths
}

#[test]
fn bytes_behind_the_longest_sheet() {
    let sheet = longest();
    for len in long_lengths(&sheet) {
        let number = match len {
            9_638 => 20,
            _ => 13,
        };
        refuses(number, &padded(&sheet, len), format_args!("{len} bytes"));
    }
    // A sheet behind the sheet is not one more sheet.
    let twice = [&sheet[..], &sheet[..]].concat();
    refuses(13, &twice, format_args!("the longest sheet twice"));
}

#[test]
fn bytes_behind_a_short_sheet() {
    let sheet = sheet_a().encode();
    for len in long_lengths(&sheet) {
        refuses(13, &padded(&sheet, len), format_args!("{len} bytes"));
    }
    for more in [1, 2, 102] {
        let twice = [&sheet[..], &sheet[..more]].concat();
        refuses(13, &twice, format_args!("A and {more} bytes of A"));
    }
}

/// The kind stands first, so zeros are refused with 11, and with the kind 1 before them with 12.
#[test]
fn long_inputs_that_are_no_sheets() {
    for len in long_lengths(&[]) {
        refuses(11, &padded(&[], len), format_args!("{len} zeros"));
        let case = format_args!("1 and zeros, {len} bytes");
        refuses(12, &padded(&[1], len), case);
        let noise = Rng::new(len as u64).bytes(len);
        refuses(11, &noise, format_args!("{len} random bytes"));
    }
}

/// A file whose place in its bytes is shared with the program shows how many bytes the program read.
struct Shared(PathBuf);

impl Shared {
    fn new(name: &str, bytes: &[u8]) -> Shared {
        let path = Path::new(env!("CARGO_TARGET_TMPDIR")).join(name);
        fs::write(&path, bytes).expect("a file for the input");
        Shared(path)
    }

    /// What the program prints for the file, and how many bytes it read.
    fn read_by_program(&self) -> (String, u64) {
        let mut file = File::open(&self.0).expect("the file of the input");
        let same = file.try_clone().expect("the same file once more");
        let output = end(start(same));
        let printed = String::from_utf8_lossy(&output.stdout).into_owned();
        (printed, file.stream_position().expect("its place"))
    }
}

impl Drop for Shared {
    fn drop(&mut self) {
        // What is left of a failed test does no harm.
        let _ = fs::remove_file(&self.0);
    }
}

#[test]
fn no_more_is_read_than_9639_bytes() {
    let (a, longest) = (sheet_a().encode(), longest());
    for (number, sheet, len) in [
        (20, &longest, 9_638),
        (13, &longest, 9_639),
        (13, &longest, 9_640),
        (13, &longest, 300_000),
        (13, &a, 9_639),
        (13, &a, 9_640),
        (13, &a, 300_000),
        (11, &vec![], 300_000),
    ] {
        let file = Shared::new(&format!("print_{number}_{len}"), &padded(sheet, len));
        let (printed, read) = file.read_by_program();
        assert_eq!(printed, refusal_line(number), "{len} bytes");
        assert!(
            read <= MOST_READ as u64,
            "{read} bytes were read of {len} bytes"
        );
    }
    let (printed, read) = Shared::new("print_a", &a).read_by_program();
    assert!(printed.starts_with("cost 92\n"), "{printed}");
    assert_eq!(read, 102, "bytes of sheet A were read");
}

/// What the program does not read of a stream is still there for the next reader.
#[test]
fn what_stands_behind_9639_bytes_is_left() {
    let input = [padded(&longest(), MOST_READ), b"behind".to_vec()].concat();
    let (mut ours, its) = UnixStream::pair().expect("two ends of a stream");
    let mut behind = its.try_clone().expect("the program's end once more");
    ours.write_all(&input).expect("room for all of the input");
    drop(ours);
    let output = end(start(OwnedFd::from(its)));
    assert_printed(&output, "refused 13\n", format_args!("a stream"));
    let mut left = Vec::new();
    behind
        .read_to_end(&mut left)
        .expect("the rest of the input");
    assert_eq!(left, b"behind");
}

/// Ends the program if it does not end by itself.
fn ends_by_itself(program: &mut Child) -> bool {
    let until = Instant::now() + Duration::from_secs(20);
    while Instant::now() < until {
        if program.try_wait().expect("the program's state").is_some() {
            return true;
        }
        thread::sleep(Duration::from_millis(1));
    }
    program.kill().expect("the program can be ended");
    false
}

/// Once 9,639 bytes are there, the program does not wait for the input's end.
#[test]
fn the_answer_comes_before_the_end_of_a_long_input() {
    for (number, sheet) in [(13, longest()), (13, sheet_a().encode()), (11, vec![])] {
        let mut program = start(Stdio::piped());
        let mut pipe = program.stdin.take().expect("a pipe to the program");
        write(&mut pipe, &padded(&sheet, MOST_READ));
        let ended = ends_by_itself(&mut program);
        drop(pipe);
        assert!(ended, "the program waits for more than {MOST_READ} bytes");
        let case = format_args!("{MOST_READ} bytes, and no end");
        assert_printed(&end(program), &refusal_line(number), case);
    }
}
