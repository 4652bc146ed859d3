//! Holds the library against an independent implementation of the documents (--cfg library), or that implementation against the lines
//! of vectors/calls.py.
#[cfg(library)]
mod compare;
#[cfg(library)]
mod inputs;
#[cfg(library)]
mod library;
mod reference;
#[cfg(library)]
mod tables;
#[cfg(not(library))]
mod vectors;

#[cfg(library)]
fn main() {
    let seed = std::env::args().nth(1).map_or(1, |s| s.parse().expect("a seed is a number"));
    let calls = compare::run(reference::Bank::new(), seed);
    println!("differential: {calls} calls answered alike, seed {seed}");
}

#[cfg(not(library))]
fn main() {
    match vectors::run(&reference::Bank::new()) {
        Ok(lines) if lines > 0 => println!("differential: {lines} lines answered alike"),
        Ok(_) => {
            println!("differential: no lines");
            std::process::exit(1);
        }
        Err(line) => {
            println!("differential: the reference answers otherwise:\n{line}");
            std::process::exit(1);
        }
    }
}
