//! check TYPE FILE [BOUNDS [INDEX]]: how many rows the store has, or the row with this index, or what is wrong. The status is what
//! the call answers, 9 where the file can't be read.
//!
//!     rustc --edition 2021 -L FOLDER -l static=columnar_c -l static=libc_c check.rs
use std::process::ExitCode;

#[repr(C)]
#[derive(Default)]
struct Fault {
    rule: u32,
    mistake: u32,
    slice: u64,
    place: u64,
    wanted: u32,
}

extern "C" {
    fn columnar_rows(
        type_text: *const u8,
        type_length: usize,
        bounds: u32,
        bytes: *const u8,
        length: usize,
        rows: *mut u64,
        fault: *mut Fault,
    ) -> u32;

    fn columnar_row_json(
        type_text: *const u8,
        type_length: usize,
        bounds: u32,
        bytes: *const u8,
        length: usize,
        index: u64,
        out: *mut u8,
        capacity: usize,
        written: *mut u64,
        fault: *mut Fault,
    ) -> u32;
}

const NO_ROOM: u32 = 8;

/// What the library answers, the rows, and what is wrong.
fn count_rows(type_text: &str, bounds: u32, bytes: &[u8]) -> (u32, u64, Fault) {
    let mut rows = 0;
    let mut fault = Fault::default();
    // SAFETY: the slices are as long as is told, and nobody else has the two places.
    let answer = unsafe {
        columnar_rows(
            type_text.as_ptr(),
            type_text.len(),
            bounds,
            bytes.as_ptr(),
            bytes.len(),
            &mut rows,
            &mut fault,
        )
    };
    (answer, rows, fault)
}

/// What the library answers, the row as JSON, and what is wrong.
fn row_json(type_text: &str, bounds: u32, bytes: &[u8], index: u64) -> (u32, Vec<u8>, Fault) {
    let mut text = vec![0; 16];
    let mut size = 0;
    let mut fault = Fault::default();
    loop {
        // SAFETY: the slices are as long as is told, and nobody else has the places that the call writes.
        let answer = unsafe {
            columnar_row_json(
                type_text.as_ptr(),
                type_text.len(),
                bounds,
                bytes.as_ptr(),
                bytes.len(),
                index,
                text.as_mut_ptr(),
                text.len(),
                &mut size,
                &mut fault,
            )
        };
        text.resize(size as usize, 0);
        if answer != NO_ROOM {
            return (answer, text, fault);
        }
    }
}

fn main() -> ExitCode {
    let words: Vec<String> = std::env::args().skip(1).collect();
    if words.len() < 2 || words.len() > 4 {
        eprintln!("usage: check TYPE FILE [BOUNDS [INDEX]]");
        return ExitCode::from(9);
    }
    let Ok(bytes) = std::fs::read(&words[1]) else {
        eprintln!("failed: cannot read");
        return ExitCode::from(9);
    };
    let bounds = words.get(2).and_then(|it| it.parse().ok()).unwrap_or(0);
    let (answer, text, fault) = match words.get(3).and_then(|it| it.parse().ok()) {
        Some(index) => {
            let (answer, text, fault) = row_json(&words[0], bounds, &bytes, index);
            (answer, String::from_utf8_lossy(&text).into_owned(), fault)
        }
        None => {
            let (answer, rows, fault) = count_rows(&words[0], bounds, &bytes);
            (answer, format!("{rows} rows"), fault)
        }
    };
    match answer {
        0 => println!("{text}"),
        1 => println!("rule {} in slice {}", fault.rule, fault.slice),
        2 => println!("not a type: mistake {} at {}", fault.mistake, fault.place),
        3 => println!("no memory"),
        4 => println!("no bounds"),
        5 => println!("no such row"),
        7 => println!("an array has another length"),
        _ => println!("a string has no text"),
    }
    ExitCode::from(answer as u8)
}
