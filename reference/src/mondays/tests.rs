use super::*;

/// The bytes of lines, each a restart number and its moves.
fn file(lines: &[(u32, u32)]) -> Vec<u8> {
    let words: Vec<u32> = lines.iter().flat_map(|line| [line.0, line.1]).collect();
    words::to_bytes(&words)
}

/// Lines numbered from `first` on.
fn numbered(first: u32, moves: &[u32]) -> Vec<(u32, u32)> {
    (first..).zip(moves.iter().copied()).collect()
}

/// The file's answer, which both forms give.
fn printed(file: &[u8]) -> String {
    let mut output = Vec::new();
    run(&mut &file[..], &mut output).expect("memory can be read and written");
    let printed = answer(file);
    assert_eq!(String::from_utf8_lossy(&output), printed);
    printed
}

#[test]
fn under_64_lines_give_nothing() {
    for count in [0, 1, 63] {
        assert_eq!(printed(&file(&numbered(0, &vec![5; count]))), "");
    }
}

#[test]
fn every_64_consecutive_lines_are_a_window() {
    let mut moves = [1; 66];
    assert_eq!(printed(&file(&numbered(7, &moves[..64]))), "64 1\n");
    moves[0] = 9;
    moves[65] = 4;
    let answer = "72 9\n64 1\n67 4\n";
    assert_eq!(printed(&file(&numbered(7, &moves))), answer);
}

#[test]
fn the_greatest_leaves_with_its_line() {
    let moves: Vec<u32> = (0..67).map(|line| 128 - line).collect();
    let sum = |first: u32| (first..first + 64).map(|line| 128 - line).sum::<u32>();
    let expected: String = (0..4)
        .map(|first| format!("{} {}\n", sum(first), 128 - first))
        .collect();
    assert_eq!(printed(&file(&numbered(1, &moves))), expected);
}

#[test]
fn moves_are_at_most_128() {
    assert_eq!(printed(&file(&numbered(0, &[128; 64]))), "8192 128\n");
    assert_eq!(printed(&file(&[(0, 129)])), "number 25\n");
    assert_eq!(printed(&file(&[(0, u32::MAX)])), "number 25\n");
    assert_eq!(printed(&file(&numbered(0, &[0; 64]))), "0 0\n");
}

#[test]
fn restart_numbers_ascend_strictly() {
    assert_eq!(printed(&file(&[(0, 1), (u32::MAX, 1)])), "");
    assert_eq!(printed(&file(&[(3, 1), (3, 1)])), "number 24\n");
    assert_eq!(printed(&file(&[(3, 1), (2, 1)])), "number 24\n");
    assert_eq!(printed(&file(&[(u32::MAX, 1), (0, 1)])), "number 24\n");
    assert_eq!(printed(&file(&[(1 << 31, 1), (1, 1)])), "number 24\n");
    assert_eq!(printed(&file(&[(255, 1), (256, 1), (65536, 1)])), "");
}

#[test]
fn a_line_out_of_sequence_is_24_whatever_its_moves() {
    assert_eq!(printed(&file(&[(3, 1), (3, 500)])), "number 24\n");
    assert_eq!(printed(&file(&[(3, 500), (3, 1)])), "number 25\n");
}

#[test]
fn a_line_cut_short_is_24() {
    let whole = file(&numbered(0, &[1; 65]));
    for cut in 1..8 {
        let expected = "64 1\nnumber 24\n";
        assert_eq!(printed(&whole[..65 * 8 - cut]), expected);
        assert_eq!(printed(&[0xff; 8][..cut]), "number 24\n");
        assert_eq!(printed(&[0; 8][..cut]), "number 24\n");
    }
}

#[test]
fn the_first_bad_line_speaks_after_the_windows_before_it() {
    let mut lines = numbered(10, &[2; 70]);
    lines[66].1 = 129;
    lines[68].0 = 0;
    assert_eq!(printed(&file(&lines)), "128 2\n128 2\n128 2\nnumber 25\n");
    lines[63].0 = 0;
    assert_eq!(printed(&file(&lines)), "number 24\n");
}

/// Gives some bytes and then fails.
struct Failing<'a>(&'a [u8]);

impl Read for Failing<'_> {
    fn read(&mut self, buffer: &mut [u8]) -> io::Result<usize> {
        match self.0.read(buffer)? {
            0 => Err(io::Error::other("broken")),
            count => Ok(count),
        }
    }
}

#[test]
fn a_failed_read_is_no_end() {
    let whole = file(&numbered(0, &[3; 65]));
    for length in [64 * 8, 64 * 8 + 5] {
        let mut output = Vec::new();
        let read = run(&mut Failing(&whole[..length]), &mut output);
        assert!(read.is_err());
        assert_eq!(output, b"192 3\n");
    }
}
