//! Step tables and levels to call with. A line is first coefficient, last coefficient, step.
use crate::inputs::Random;
use crate::reference::{COEFFICIENT_LIMIT, LARGEST_STEP};

pub type Line = (i64, i64, i64);

pub fn printed((first, last, step): Line) -> Vec<u8> {
    format!("{first},{last},{step}\n").into_bytes()
}

pub fn text(lines: &[Line]) -> Vec<u8> {
    lines.iter().flat_map(|&line| printed(line)).collect()
}

pub fn step(random: &mut Random) -> i64 {
    let top = random.pick(&[20, 300, LARGEST_STEP]);
    let any = random.between(1, top);
    random.pick(&[1, 2, 3, 15, 16, 17, 31, 32, 9999, 10_000, LARGEST_STEP - 1, LARGEST_STEP, any, any, any, any])
}

/// Lines that cover 0 to m - 1: a single one, one for each coefficient, or cut anywhere.
pub fn lines(random: &mut Random, m: usize) -> Vec<Line> {
    let often = random.pick(&[1, 2, 5, 2 * m]);
    let single = random.one_in(8);
    let mut lines = Vec::new();
    let mut first = 0;
    for last in 0..m as i64 {
        if last == m as i64 - 1 || !single && random.one_in(often) {
            lines.push((first, last, step(random)));
            first = last + 1;
        }
    }
    lines
}

/// A table that is taken for m coefficients.
pub fn table(random: &mut Random, m: usize) -> Vec<u8> {
    text(&lines(random, m))
}

/// A byte: one that a table has, one that stands beside those, or any.
pub fn byte(random: &mut Random) -> u8 {
    let any = random.bits() as u8;
    let own = random.pick(b"0123456789,-\n");
    random.pick(&[own, own, own, own, b' ', b'\r', b'+', b';', b'/', b':', b'\t', 0, 0x8a, 0xb1, 255, any])
}

/// A table with a byte replaced, taken out or put in, or without its last line feed. Some are still taken.
pub fn damaged(random: &mut Random, mut table: Vec<u8>) -> Vec<u8> {
    let at = random.below(table.len());
    match random.below(7) {
        0 | 1 => table[at] = byte(random),
        2 | 3 => drop(table.remove(at)),
        4 | 5 => table.insert(random.below(table.len() + 1), byte(random)),
        _ => drop(table.pop()),
    }
    table
}

/// A table that is turned away, for any cause.
pub fn wrong_table(random: &mut Random, m: usize) -> (Vec<u8>, u32) {
    let mut lines = lines(random, m);
    let at = random.below(lines.len());
    match random.below(4) {
        0 => {
            let faults = faulty_lines(m, lines[at]);
            let fault = faults[random.below(faults.len())].clone();
            ([text(&lines[..at]), fault, text(&lines[at + 1..])].concat(), 9)
        }
        1 => (text(&lines)[..text(&lines).len() - 1].to_vec(), 9),
        2 => {
            lines.remove(at);
            (text(&lines), 10)
        }
        _ => {
            lines.insert(at, lines[at]);
            (text(&lines), 11)
        }
    }
}

/// What is no number of the listing's form.
const NO_NUMBERS: [&[u8]; 20] = [
    b"", b"-", b"+1", b"01", b"00", b"-0", b"-01", b"--1", b"1-", b" 1", b"1 ", b"1.0", b"1e1", b"0x1", b"100000", b"000001", b"4294967297",
    b"18446744073709551617", b"\xb1", b"1\0",
];

/// Lines to put in the place of one, each of which is 9 whatever stands about it.
pub fn faulty_lines(m: usize, (first, last, step): Line) -> Vec<Vec<u8>> {
    let m = m as i64;
    let fields = [first, last, step].map(|z| z.to_string().into_bytes());
    let mut faults: Vec<Vec<u8>> = Vec::new();
    for place in 0..3 {
        for wrong in NO_NUMBERS {
            let mut line = fields.clone();
            line[place] = wrong.to_vec();
            faults.push([&line.join(&b','), &b"\n"[..]].concat());
        }
    }
    let numbers = [
        (first, last, 0), (first, last, -1), (first, last, -step), (first, last, LARGEST_STEP + 1), (first, last, 99_999),
        (-1, last, step), (-99_999, last, step), (last + 1, last, step), (m, m, step), (m, last, step), (99_999, last, step),
        (first, first - 1, step), (first, -1, step), (first, m, step), (first, m + 1, step), (first, 99_999, step), (0, m, 0),
    ];
    faults.extend(numbers.map(printed));
    let whole = fields.join(&b',');
    let about: [(&[u8], &[u8]); 13] = [
        (b"", b"\r\n"), (b"", b" \n"), (b" ", b"\n"), (b"", b",\n"), (b",", b"\n"), (b"", b",1\n"), (b"0,", b"\n"), (b"", b";\n"), (b"", b"\0\n"),
        (b"\n", b"\n"), (b"", b"\n\n"), (b"\"", b"\"\n"), (b"\xef\xbb\xbf", b"\n"),
    ];
    faults.extend(about.map(|(before, behind)| [before, &whole, behind].concat()));
    let (two, parted) = (fields[..2].join(&b','), |with: u8| [&fields.join(&with), &b"\n"[..]].concat());
    faults.extend([parted(b';'), parted(b' '), [&two, &b"\n"[..]].concat(), b"\n".to_vec(), b"-\n".to_vec(), b",,\n".to_vec()]);
    faults
}

/// Tables with something wrong where line `at` meets the ones beside it, and the number due to each.
pub fn faulty_joints(lines: &[Line], at: usize) -> Vec<(Vec<u8>, u32)> {
    let (first, last, step) = lines[at];
    let (before, behind) = (&lines[..at], &lines[at + 1..]);
    let put = |middle: &[Line]| text(&[before, middle, behind].concat());
    let own = lines[at];
    let mut tables = vec![(put(&[]), 10), (put(&[own, own]), 11), (put(&[own, (0, 0, 1)]), 11)];
    if first < last {
        tables.push((put(&[(first + 1, last, step)]), 10));
        tables.push((put(&[(first, last - 1, step)]), 10));
        tables.push((put(&[(first, first, step), (first, last, step)]), 11));
        tables.push((put(&[(first, last, step), (last, last, step)]), 11));
    }
    if at > 0 {
        tables.push((put(&[(first - 1, last, step)]), 11));
        tables.push((put(&[(0, last, step)]), 11));
    }
    if let Some(&next) = behind.first() {
        tables.push((put(&[(first, next.0, step)]), 11));
        tables.push((put(&[(first, next.1, step)]), 11));
        // two lines in each other's place
        tables.push((text(&[before, &[next, own], &behind[1..]].concat()), 10));
    }
    tables
}

/// So many bytes: any, or those of a table, or digits alone.
pub fn bytes(random: &mut Random, count: usize) -> Vec<u8> {
    match random.below(4) {
        0 => (0..count).map(|_| random.bits() as u8).collect(),
        1 => (0..count).map(|_| byte(random)).collect(),
        2 => (0..count).map(|_| random.pick(b"01,\n")).collect(),
        _ => (0..count).map(|_| random.pick(b"0123456789")).collect(),
    }
}

/// Routes for C that there are none of, some equal to one in their low bits.
pub const NO_ROUTES: [u32; 9] = [3, 4, 256, 257, 258, 1 << 31, (1 << 31) + 1, (1 << 31) + 2, u32::MAX];

/// Any number is a level: both ends, about the coefficients' limit at this step, small ones, and any.
pub fn one_level(random: &mut Random, step: i64) -> i32 {
    let edge = i64::from(COEFFICIENT_LIMIT) / step;
    let near = random.between(edge - 1, edge + 1) as i32;
    let any = random.bits() as i32;
    random.pick(&[i32::MIN, i32::MIN + 1, i32::MAX, i32::MAX - 1, near, -near, near, -near, -1, 0, 1, any, any >> 12, any >> 20])
}

pub fn levels(random: &mut Random, count: usize) -> Vec<i32> {
    let step = step(random);
    (0..count).map(|_| one_level(random, step)).collect()
}

/// Coefficients about the half between two levels, by the step of each.
pub fn half_way(random: &mut Random, steps: &[i64]) -> Vec<i32> {
    let limit = i64::from(COEFFICIENT_LIMIT);
    let mut one = |&step: &i64| {
        let edge = limit / step;
        let top = random.pick(&[1, 2, edge]);
        let whole = random.between(-top, top) * step;
        let beside = random.pick(&[-1, 0, 1]);
        (whole + random.pick(&[step / 2, (step + 1) / 2, -step / 2]) + beside).clamp(-limit, limit) as i32
    };
    steps.iter().map(&mut one).collect()
}
