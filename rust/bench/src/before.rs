//! This library's time against that of an older build, whose functions are linked with `before_` before their names.

use crate::{row, times};
use std::ffi::c_void;
use std::hint::black_box;

// As in include/nizkabel.h, but that the older list has bytes or words, and the key's out two numbers or three.
extern "C" {
    fn before_nizkabel_key(board: *const u8, board_len: usize, plan: *mut u16, plan_len: usize, list: *mut c_void, list_len: usize, out: *mut u32) -> u32;
    fn before_nizkabel_collapse(board: *const u8, board_len: usize, list: *mut c_void, list_len: usize, out: *mut u32) -> u32;
    fn before_nizkabel_mark(board: *const u8, board_len: usize, sheet: *const u16, sheet_len: usize) -> u32;
}

/// Verdict, words of the plan and numbers in the list, which every build gives.
fn key(board: &[u8], plan: &mut [u16], list: &mut [u16]) -> [u32; 3] {
    let mut out = [0u32; 3];
    let list_start: *mut c_void = list.as_mut_ptr().cast();
    // SAFETY: each pointer comes with the length of the slice that it points to, whose elements are no smaller than those asked for, and out
    // has no fewer elements than any build writes.
    let verdict = unsafe { before_nizkabel_key(board.as_ptr(), board.len(), plan.as_mut_ptr(), plan.len(), list_start, list.len(), out.as_mut_ptr()) };
    [verdict, out[0], out[1]]
}

fn collapse(board: &[u8], list: &mut [u16]) -> [u32; 2] {
    let mut out = [0u32; 1];
    // SAFETY: as for key; out has one element.
    let number = unsafe { before_nizkabel_collapse(board.as_ptr(), board.len(), list.as_mut_ptr().cast(), list.len(), out.as_mut_ptr()) };
    [number, out[0]]
}

fn mark(board: &[u8], sheet: &[u16]) -> u32 {
    // SAFETY: as for key; nothing is written.
    unsafe { before_nizkabel_mark(board.as_ptr(), board.len(), sheet.as_ptr(), sheet.len()) }
}

type Pair<'a> = (&'a Vec<u8>, &'a Vec<u16>);

/// Nine measurements by turns, in each of which a build goes over all inputs so many times; the row has the median of their ratios.
fn measured<T>(name: &str, what: &str, repeats: usize, inputs: &[T], mut ours: impl FnMut(&T), mut before: impl FnMut(&T)) {
    let [ours, before] = times(9, repeats * inputs.len(), [
        &mut || (0..repeats).for_each(|_| inputs.iter().for_each(&mut ours)),
        &mut || (0..repeats).for_each(|_| inputs.iter().for_each(&mut before)),
    ]);
    row(name, what, &ours, &[("before", &before)]);
}

/// The rows of a group of boards in version 1 with right sheets, on which both builds give the same.
pub fn group(name: &str, pairs: &[Pair], rounds: usize) {
    let (mut plan, mut list) = (vec![0u16; 96 * 194], vec![0u16; 96]);
    let (mut plan2, mut list2) = (plan.clone(), list.clone());
    for (board, sheet) in pairs {
        let ours = nizkabel::key(board, &mut plan, &mut list);
        assert_eq!(key(board, &mut plan2, &mut list2), [ours.verdict, ours.planned as u32, ours.listed as u32]);
        assert_eq!(plan2, plan);
        assert_eq!(mark(board, sheet), 0);
    }
    measured(
        name, "key", rounds / 10, pairs,
        |(b, _)| { black_box(nizkabel::key(black_box(b), &mut plan, &mut list)); },
        |(b, _)| { black_box(key(black_box(b), &mut plan2, &mut list2)); },
    );
    collapses(name, &pairs.iter().map(|(board, _)| *board).collect::<Vec<_>>(), rounds);
    measured(
        name, "mark", rounds, pairs,
        |(b, s)| { black_box(nizkabel::mark(black_box(b), s)); },
        |(b, s)| { black_box(mark(black_box(b), s)); },
    );
}

/// The row of the collapse, on boards in version 1.
pub fn collapses(name: &str, boards: &[&Vec<u8>], rounds: usize) {
    let (mut list, mut list2) = (vec![0u16; 96], vec![0u16; 96]);
    for board in boards {
        let ours = nizkabel::collapse(board, &mut list);
        assert_eq!(collapse(board, &mut list2), [ours.number, ours.listed as u32]);
    }
    measured(
        name, "collapse", rounds, boards,
        |b| { black_box(nizkabel::collapse(black_box(b), &mut list)); },
        |b| { black_box(collapse(black_box(b), &mut list2)); },
    );
}
