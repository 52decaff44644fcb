//! The boards and sheets of document 01 with what they give, for the tests of this implementation and of the wrapper.

/// Board T with these carriers and headings in its two zones.
pub fn t(first: [u8; 2], second: [u8; 2]) -> Vec<u8> {
    vec![0, 12, 1, 2, 0, 2, 0, 1, first[0], first[1], 0, 1, second[0], second[1]]
}

/// Board K: T with carrier 7 in zone 0.
pub fn k() -> Vec<u8> {
    t([7, 0], [0, 0])
}

/// The turn, with this carrier and heading in zone 1.
pub fn turn(carrier: u8, heading: u8) -> Vec<u8> {
    vec![0, 16, 1, 3, 0, 3, 0, 1, 5, 0, 1, 2, carrier, heading, 1, 2, 0, 0]
}

pub fn far_loop() -> Vec<u8> {
    vec![0, 20, 1, 4, 0, 4, 0, 1, 5, 0, 1, 2, 6, 0, 2, 3, 0, 0, 2, 3, 0, 0]
}

/// A board with its verdict, plan and blocked carriers.
pub type Row = (Vec<u8>, u32, &'static [u16], &'static [u16]);

/// The starred boards.
pub fn starred() -> [Row; 8] {
    [
        (t([0, 0], [0, 0]), 0, &[], &[]),
        (k(), 0, &[7, 2, 0, 3], &[]),
        (t([7, 1], [9, 1]), 0, &[7, 1, 1, 9, 1, 3], &[]),
        (t([7, 0], [9, 1]), 0, &[9, 1, 3, 7, 2, 0, 3], &[]),
        (t([7, 0], [9, 0]), 20, &[], &[7, 9]),
        (turn(0, 0), 0, &[5, 4, 0, 2, 5, 1], &[]),
        (turn(6, 1), 20, &[], &[5, 6]),
        (far_loop(), 20, &[], &[5, 6]),
    ]
}

/// The input of each of the rows 1 to 9, in their order. Row 6's own has equal ends, which request c of document 02 allows: an end that is
/// not below P stands for it. Row 3's own has version 2, which request i reads, and gives 5: version 3 stands for it.
pub fn refused() -> [Vec<u8>; 9] {
    let with = |at: usize, bytes: &[u8]| {
        let mut board = t([0, 0], [0, 0]);
        board[at..at + bytes.len()].copy_from_slice(bytes);
        board
    };
    [
        vec![0, 12, 1],
        t([0, 0], [0, 0])[..13].to_vec(),
        with(2, &[3]),
        with(3, &[1]),
        with(5, &[3]),
        with(10, &[0, 2, 0, 0]),
        t([7, 0], [7, 0]),
        vec![0, 16, 1, 3, 0, 3, 0, 1, 0, 0, 0, 1, 0, 0, 1, 2, 0, 0],
        vec![0, 20, 1, 4, 0, 4, 0, 1, 0, 0, 0, 1, 0, 0, 2, 3, 0, 0, 2, 3, 0, 0],
    ]
}

/// Sheets for board K with their marks.
pub const SHEETS_FOR_K: [(&[u16], u32); 9] = [
    (&[0, 7, 2, 0, 3], 0),
    (&[], 30),
    (&[2], 30),
    (&[0, 8, 1, 0], 31),
    (&[0, 263, 2, 0, 3], 31),
    (&[0, 7, 2, 0, 2], 32),
    (&[0, 7, 1, 0], 33),
    (&[0], 34),
    (&[1, 7], 35),
];
