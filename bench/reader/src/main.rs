//! One program and query read by the verified reader and by the second checker's: nanoseconds for each byte, and their ratio.
//!
//! Each figure is the least of many rounds, taken in turn, so that both readers meet the same machine. The verified reader is
//! lent its tables; the second checker's makes its own, as it does in every run.

use second::reader::{read_program, read_query_for};
use std::hint::black_box;
use std::time::Instant;
use verified::Tables;

const ROUNDS: usize = 300;

/// A number as a word of letters, so that names differ early and late.
fn word(first: char, number: usize) -> String {
    format!(
        "{first}{}_{number}",
        ["append", "list", "x", "member_of"][number % 4]
    )
}

/// A definition as programs have them: some hiding, a choice of two clauses, calls.
fn definition(number: usize) -> String {
    let (name, other) = (word('p', number), word('p', number / 2));
    format!(
        "{name}(X,Y,Z) :=\n  (E,X1,Z1 :\n    ( X = nil -> Z = Y\n    ; true -> X = cons(E,X1), {other}(X1,Y,Z1), Z = cons(E,Z1) )).\n"
    )
}

/// Definitions up to a length, the last one filled up with equations.
fn definitions(bytes: usize) -> String {
    let mut text = String::new();
    for number in 0..127 {
        let next = definition(number);
        if text.len() + next.len() > bytes {
            break;
        }
        text += &next;
    }
    // 127 definitions are less than 16 KiB
    if text.len() + 20 < bytes {
        text += "more(X) := X = X";
        while text.len() + 9 < bytes {
            text += ", X = X";
        }
        text += ".";
    }
    text
}

/// Brackets nested to the limit, again and again.
fn nested(bytes: usize) -> String {
    let each = |n: usize| format!("b{n} := {}true{}.\n", "(X : ".repeat(32), ")".repeat(32));
    let choice = |n: usize| format!("c{n} := {}true{}.\n", "(".repeat(32), " ? true)".repeat(32));
    let mut text = String::new();
    for n in 0.. {
        let next = if n % 2 == 0 { each(n) } else { choice(n) };
        if text.len() + next.len() > bytes {
            return text;
        }
        text += &next;
    }
    unreachable!("it is long enough at some time")
}

/// Many different names.
fn names(bytes: usize) -> String {
    let mut text = String::from("p(X) := X = a");
    for number in 0.. {
        let next = format!(
            ", X = {}",
            word((b'a' + (number % 26) as u8) as char, number)
        );
        if text.len() + next.len() + 1 > bytes {
            return text + ".";
        }
        text += &next;
    }
    unreachable!("it is long enough at some time")
}

/// Short calls, as many tokens as there may be.
fn flat(bytes: usize) -> String {
    let mut text = String::from("p(X) := p(X)");
    while text.len() + 6 <= bytes {
        text += ",p(X)";
    }
    text + "."
}

/// Half of it short definitions, as many as there may be, and half calls of the last.
fn last_called(bytes: usize) -> String {
    let mut text = String::new();
    let mut last = 0;
    while last < 126 && text.len() + 12 < bytes / 2 {
        last += 1;
        text += &format!("d{last}:=true.");
    }
    text += "p := true";
    let call = format!(",d{last}");
    while text.len() + call.len() < bytes {
        text += &call;
    }
    text + "."
}

/// Names that begin in as many ways as there are.
fn beginnings(bytes: usize) -> String {
    let letters = b"abcdefghijklmnopqrstuvwxyzABCDEFGHIJKLMNOPQRSTUVWXYZ0123456789_";
    let mut text = String::from("p(X) := X=a");
    for number in 0.. {
        let (first, second) = (number / 63 % 26, number % 63);
        let name = [letters[first], letters[second]].map(char::from);
        let next = format!(",X={}{}", name[0], name[1]);
        if text.len() + next.len() + 1 > bytes {
            return text + ".";
        }
        text += &next;
    }
    unreachable!("it is long enough at some time")
}

/// One hidden list.
fn hidden(bytes: usize) -> String {
    let mut text = String::from("p := (X");
    for number in 0.. {
        let next = format!(",X{number}");
        if text.len() + next.len() + 9 > bytes {
            return text + " : true).";
        }
        text += &next;
    }
    unreachable!("it is long enough at some time")
}

/// The least nanoseconds for each byte, of the verified reader and of the second checker's.
fn measure(program: &[u8], query: &[u8]) -> (f64, f64) {
    let mut tables = Tables::largest();
    let (mut ours, mut theirs) = (f64::INFINITY, f64::INFINITY);
    for _ in 0..ROUNDS {
        let begin = Instant::now();
        let answer = tables.read(black_box(program), black_box(query));
        ours = ours.min(begin.elapsed().as_secs_f64());
        assert_eq!(answer, 0, "read");

        let begin = Instant::now();
        let program = read_program(black_box(program)).expect("a program");
        let read = black_box(read_query_for(program, black_box(query)));
        theirs = theirs.min(begin.elapsed().as_secs_f64());
        assert!(read.is_ok(), "read");
    }
    let each = 1e9 / (program.len() + query.len()) as f64;
    (ours * each, theirs * each)
}

fn main() {
    let kinds: [(&str, fn(usize) -> String); 7] = [
        ("definitions as programs have them", definitions),
        ("brackets nested to the limit", nested),
        ("many names", names),
        ("many short calls", flat),
        ("calls of the last of up to 127 definitions", last_called),
        ("names with all beginnings", beginnings),
        ("one hidden list", hidden),
    ];
    println!("nanoseconds for each byte, verified / second checker = ratio, for programs of 1, 2, 4, 8 and 16 KiB");
    for (what, kind) in kinds {
        for size in [1_024, 2_048, 4_096, 8_192, 16_384] {
            let (ours, theirs) = measure(kind(size).as_bytes(), b"X = a.");
            print!("{ours:5.1} /{theirs:5.1} = {:4.2}  ", ours / theirs);
        }
        println!("{what}");
    }
}
