//! The reference held against the lines of vectors/calls.py, one call to a line, fields parted by semicolons.
use crate::reference::{Bank, Recording, Route};
use std::fmt::Debug;
use std::str::FromStr;

/// A list of numbers parted by commas; nothing for an empty one.
fn list<T: FromStr>(field: &str) -> Vec<T> {
    field.split(',').filter(|f| !f.is_empty()).map(number).collect()
}

fn number<T: FromStr>(field: &str) -> T {
    field.parse().unwrap_or_else(|_| panic!("not a number: {field}"))
}

fn route(field: &str) -> Route {
    match field {
        "direct" => Route::Direct,
        "short" => Route::Short,
        "double" => Route::Double,
        _ => panic!("not a route: {field}"),
    }
}

fn recording([n, hops, order]: [&str; 3]) -> Recording {
    Recording { n: number(n), hops: number(hops), order: number(order) }
}

/// A buffer's content after a call: "=" says that it is what it was.
fn after<T: FromStr + Clone>(field: &str, before: &[T]) -> Vec<T> {
    if field == "=" {
        before.to_vec()
    } else {
        list(field)
    }
}

/// Calls on a buffer of the stated length, and compares the number and the buffer.
fn agrees<T: FromStr + Clone + PartialEq + Debug + From<u8>>(length: &str, code: &str, out: &str, call: impl FnOnce(&mut [T]) -> u32) -> bool {
    let before: Vec<T> = (0..number::<usize>(length)).map(|i| T::from((i % 100) as u8)).collect();
    let mut buffer = before.clone();
    call(&mut buffer) == number(code) && buffer == after(out, &before)
}

/// Whether the reference answers as the line says.
fn holds(bank: &Bank, line: &str) -> bool {
    let fields: Vec<&str> = line.split(';').collect();
    match fields[..] {
        ["C", t, value] => bank.c(number(t)) == number(value),
        ["W", n, left, right, i, value] => bank.w(number(n), (number(left), number(right)), number(i)) == number(value),
        ["K", n, i, k, value] => bank.k(number(n), number(i), number(k)) == number(value),
        ["L", n, i, k, value] => bank.l(number(n), number(i), number(k)) == number(value),
        ["analyse", r, n, left, right, x, length, code, out] => {
            agrees(length, code, out, |b| bank.analyse(route(r), number(n), (number(left), number(right)), &list(x), b))
        }
        ["stream_fresh", n, state, code, after_state] => {
            let before: Vec<i64> = list(state);
            let mut now = before.clone();
            bank.stream_fresh(number(n), &mut now) == number(code) && now == after(after_state, &before)
        }
        ["stream_step", state, block, left, right, x, length, code, out, after_state] => {
            let before: Vec<i64> = list(state);
            let mut now = before.clone();
            let shapes = (number(left), number(right));
            agrees(length, code, out, |b| bank.stream_step(&mut now, number(block), shapes, &list(x), b)) && now == after(after_state, &before)
        }
        _ => recording_holds(bank, &fields) || steps_hold(bank, &fields) || share_holds(bank, &fields) || floats_hold(bank, &fields),
    }
}

/// The same of the calls over recordings.
fn recording_holds(bank: &Bank, fields: &[&str]) -> bool {
    match *fields {
        ["analyse_recording", r, n, hops, order, x, length, code, out] => {
            agrees(length, code, out, |b| bank.analyse_recording(route(r), recording([n, hops, order]), &list(x), b))
        }
        ["synthesise_recording", n, hops, order, x, length, code, out] => {
            agrees(length, code, out, |b| bank.synthesise_recording(recording([n, hops, order]), &list(x), b))
        }
        ["page", n, hops, order, x, length, code, out] => agrees(length, code, out, |b| bank.page(recording([n, hops, order]), &list(x), b)),
        ["reorder", n, hops, to, x, length, code, out] => agrees(length, code, out, |b| bank.reorder(recording([n, hops, to]), &list(x), b)),
        ["largest_share_recording", n, hops, order, original, changed, hop, place, length, code, out] => {
            let (told, original, changed) = (recording([n, hops, order]), list(original), list(changed));
            agrees(length, code, out, |b| bank.largest_share_recording(told, [&original, &changed], number(hop), number(place), b))
        }
        ["coarsest_step", n, hops, x, allowed, budget, length, code, out] => {
            agrees(length, code, out, |b| bank.coarsest_step(number(n), number(hops), &list(x), number(allowed), number(budget), b))
        }
        _ => false,
    }
}

/// The same of the calls over step tables.
fn steps_hold(bank: &Bank, fields: &[&str]) -> bool {
    match *fields {
        ["stream_step_levels", state, block, left, right, table, levels, length, code, out, after_state] => {
            let before: Vec<i64> = list(state);
            let mut now = before.clone();
            let (shapes, table, levels) = ((number(left), number(right)), list(table), list(levels));
            agrees(length, code, out, |b| bank.stream_step_levels(&mut now, number(block), shapes, &table, &levels, b))
                && now == after(after_state, &before)
        }
        ["quantise", n, table, x, length, code, out] => agrees(length, code, out, |b| bank.quantise(number(n), &list(table), &list(x), b)),
        ["dequantise", n, table, levels, length, code, out] => {
            agrees(length, code, out, |b| bank.dequantise(number(n), &list(table), &list(levels), b))
        }
        ["told_distance", n, r, table, length, code, out] => {
            agrees(length, code, out, |b| bank.told_distance(number(n), number(r), &list(table), b))
        }
        _ => false,
    }
}

/// The same of the calls that give floats, which stand as their patterns.
fn floats_hold(bank: &Bank, fields: &[&str]) -> bool {
    match *fields {
        ["floats", n, x, length, code, out] => agrees(length, code, out, |b| bank.floats(number(n), &list(x), b)),
        ["highest_lowest", n, x, length, code, out] => agrees(length, code, out, |b| bank.highest_lowest(number(n), &list(x), b)),
        _ => false,
    }
}

/// The same of the call on shares.
fn share_holds(bank: &Bank, fields: &[&str]) -> bool {
    let ["largest_share", n, shape, first, first_changed, second, second_changed, place, length, code, out] = *fields else {
        return false;
    };
    let lists: [Vec<i32>; 4] = [first, first_changed, second, second_changed].map(list);
    let changes = lists.each_ref().map(Vec::as_slice);
    agrees(length, code, out, |b| bank.largest_share(number(n), number(shape), changes, number(place), b))
}

/// Reads the lines of standard input; the number of lines that hold, or the first that does not.
pub fn run(bank: &Bank) -> Result<usize, String> {
    let mut count = 0;
    for line in std::io::stdin().lines() {
        let line = line.map_err(|e| e.to_string())?;
        if !holds(bank, &line) {
            return Err(line);
        }
        count += 1;
    }
    Ok(count)
}
