//! Inputs that come in pieces: what is printed is the same as for the whole at once.

use super::program::{assert_printed, due, end, run_in_pieces, start};
use super::sheets::small_or_refused;
use crate::common::check::hex;
use crate::common::examples::{plain, sheet_a, sheet_a_with_pairs, MOST};
use crate::common::rng::Rng;
use crate::common::valid::{valid, Size, ANY};
use std::io::ErrorKind;
use std::os::fd::OwnedFd;
use std::os::unix::net::UnixDatagram;
use std::thread;
use std::time::Duration;

/// The program prints what is due for the whole of these pieces.
fn check_pieces(input: &[u8], pieces: &[usize], pause: Duration) {
    let output = run_in_pieces(cut(input, pieces), || thread::sleep(pause));
    let case = format_args!("in pieces of {pieces:?}: {}", hex(input));
    assert_printed(&output, &due(input).1, case);
}

/// The input in pieces of these lengths, in turn.
fn cut<'a>(input: &'a [u8], lengths: &'a [usize]) -> impl Iterator<Item = &'a [u8]> {
    let mut rest = input;
    let mut lengths = lengths.iter().cycle();
    std::iter::from_fn(move || {
        let len = rest.len().min(*lengths.next()?);
        let (piece, behind) = rest.split_at(len);
        rest = behind;
        (len > 0).then_some(piece)
    })
}

/// In the short pause the program may or may not read what is there; in the long one it has the time.
const SHORT: Duration = Duration::from_micros(1);
const LONG: Duration = Duration::from_millis(1);

/// Sheets that are planned and sheets that are refused.
fn some_inputs() -> Vec<Vec<u8>> {
    let a = sheet_a().encode();
    vec![
        a.clone(),
        sheet_a_with_pairs(&[(1, 0)]).encode(),
        sheet_a_with_pairs(&[(0, 0)]).encode(),
        a[..45].to_vec(),
        a[..101].to_vec(),
        [&a[..], &[0]].concat(),
        vec![0; 60],
    ]
}

#[test]
fn one_byte_at_a_time() {
    for input in some_inputs() {
        check_pieces(&input, &[1], SHORT);
    }
    for seed in 0..20 {
        let input = small_or_refused(&mut Rng::new(seed)).encode();
        check_pieces(&input, &[1], SHORT);
    }
}

#[test]
fn one_byte_at_a_time_with_pauses() {
    check_pieces(&sheet_a().encode(), &[1], LONG);
    check_pieces(&sheet_a_with_pairs(&[(0, 0)]).encode(), &[1], LONG);
    check_pieces(&sheet_a().encode()[..45], &[1], LONG);
}

/// A pause at every place of the sheet.
#[test]
fn two_pieces() {
    for input in [sheet_a().encode(), vec![1; 50]] {
        for first in 1..input.len() {
            check_pieces(&input, &[first, input.len()], LONG);
        }
    }
}

#[test]
fn odd_pieces() {
    for (input, seed) in some_inputs().into_iter().zip(0..) {
        let mut rng = Rng::new(seed);
        for pieces in [&[2][..], &[3], &[7], &[45, 1], &[46, 3], &[1, 100]] {
            check_pieces(&input, pieces, LONG);
        }
        let any: Vec<usize> = (0..9).map(|_| rng.between(1, 20)).collect();
        check_pieces(&input, &any, LONG);
    }
}

/// A sheet of several thousand bytes that is planned: six tasks and 64 points, exactly 4,096 cells.
fn long_and_planned() -> Vec<u8> {
    let size = Size {
        tasks: (6, 6),
        points: (64, 64),
        ..ANY
    };
    let input = valid(&mut Rng::new(1), size).encode();
    assert!(input.len() > 8_192 && due(&input).0 == 0);
    input
}

/// The longest sheet, and inputs that go on behind the 9,639 bytes that are read.
fn long_inputs() -> Vec<Vec<u8>> {
    let longest = plain(MOST).encode();
    let behind = |more: usize| [&longest[..], &vec![0; more]].concat();
    vec![
        long_and_planned(),
        behind(0),
        behind(1),
        behind(2),
        behind(400),
    ]
}

#[test]
fn long_inputs_one_byte_at_a_time() {
    for input in &long_inputs()[..3] {
        check_pieces(input, &[1], SHORT);
    }
}

#[test]
fn long_inputs_in_odd_pieces() {
    for input in long_inputs() {
        for pieces in [
            &[4_096, 1][..],
            &[4_095],
            &[1_000, 1, 77],
            &[512],
            &[9_637, 1],
            &[9_638, 1],
            &[9_639, 1],
        ] {
            check_pieces(&input, pieces, LONG);
        }
    }
}

/// A socket for packets, from which the program gets one byte each time that it reads, whatever it asks for. An empty
/// packet stands for the input's end.
fn check_packets(input: &[u8]) {
    let (ours, its) = UnixDatagram::pair().expect("two ends of a socket");
    let program = start(OwnedFd::from(its));
    for packet in input.chunks(1).chain([&[][..]]) {
        match ours.send(packet) {
            Ok(_) => {}
            // The program has ended, since it has read as much as it reads at most.
            Err(error) if error.kind() == ErrorKind::ConnectionRefused => break,
            Err(error) if error.kind() == ErrorKind::BrokenPipe => break,
            Err(error) if error.kind() == ErrorKind::ConnectionReset => break,
            Err(error) => panic!("sending to the program: {error}"),
        }
    }
    let case = format_args!("in packets of a byte: {}", hex(input));
    assert_printed(&end(program), &due(input).1, case);
}

#[test]
fn one_byte_for_each_read() {
    for input in some_inputs().into_iter().chain(long_inputs()) {
        check_packets(&input);
    }
    check_packets(&[]);
}
