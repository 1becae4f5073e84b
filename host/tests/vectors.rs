//! Holds the reference against every worked vector: label, call, answer, parted by tabs.

use inkrowan_host::reference::{self, Refusal, Request};

const VECTORS: &str = include_str!("../vectors.tsv");
const HOW_MANY: usize = 120;

#[test]
fn the_reference_agrees_with_every_vector() {
    let mut wrong = vec![];
    let mut lines = 0;
    for line in VECTORS.lines() {
        lines += 1;
        let [label, call, wanted] = line.split('\t').collect::<Vec<_>>()[..] else {
            panic!("a vector has three parts: {line}");
        };
        let given = answer(call);
        if given != wanted {
            wrong.push(format!("{label}: wanted {wanted}, given {given}"));
        }
    }
    assert!(wrong.is_empty(), "{}", wrong.join("\n"));
    assert_eq!(lines, HOW_MANY);
}

fn answer(call: &str) -> String {
    let words: Vec<&str> = call.split(' ').collect();
    match words[..] {
        ["check", book] => match reference::check(&bytes(book)) {
            Ok(()) => "SOUND".to_string(),
            Err(broken) => format!("UNSOUND {} {}", broken.rule, broken.offset),
        },
        ["read", book, message, room] => {
            match reference::read(&bytes(book), &bytes(message), number(room)) {
                Ok(rows) => {
                    let texts: Vec<String> = rows.iter().map(|row| list(row, ",")).collect();
                    format!("OK {} {}", rows.len(), texts.join(";"))
                }
                Err(refusal) => refused(refusal),
            }
        }
        ["write", book, version, type_text, triples, values, room] => {
            let triples: Vec<u8> =
                numbers(triples).iter().flat_map(|number| number.to_le_bytes()).collect();
            let request = Request {
                version: version.parse().unwrap(),
                type_text: &bytes(type_text),
                triples: &triples,
                values: &bytes(values),
            };
            match reference::write(&bytes(book), request, number(room)) {
                Ok(message) => {
                    let hex: String = message.iter().map(|byte| format!("{byte:02x}")).collect();
                    format!("OK {} {hex}", message.len())
                }
                Err(refusal) => refused(refusal),
            }
        }
        ["find", index, count_row, instance, tag] => {
            let [count_row, instance, tag] =
                [count_row, instance, tag].map(|word| word.parse().unwrap());
            match reference::find(&numbers(index), count_row, instance, tag) {
                Some(row) => format!("ROW {row}"),
                None => "ABSENT".to_string(),
            }
        }
        ["value", index, message, row] => {
            let message = bytes(message);
            let part = reference::value(&numbers(index), &message, number(row));
            if part.is_empty() {
                return "0 0".to_string();
            }
            let start = part.as_ptr() as usize - message.as_ptr() as usize;
            format!("{start} {}", part.len())
        }
        ["walk", index, count_row] => {
            list(&reference::walk(&numbers(index), count_row.parse().unwrap()), ",")
        }
        ["program", input] => {
            String::from_utf8(reference::program(&bytes(input))).unwrap().replace('\n', "/")
        }
        _ => panic!("not a call: {call}"),
    }
}

fn refused(refusal: Refusal) -> String {
    format!("REFUSED {} {} {}", refusal.number, refusal.place, refusal.tag)
}

fn list<T: ToString>(items: &[T], between: &str) -> String {
    items.iter().map(T::to_string).collect::<Vec<_>>().join(between)
}

fn number(word: &str) -> usize {
    word.parse().unwrap()
}

/// Numbers parted by commas; `-` for none.
fn numbers(word: &str) -> Vec<u16> {
    if word == "-" {
        return vec![];
    }
    word.split(',').map(|number| number.parse().unwrap()).collect()
}

/// Bytes in hex; `-` for none.
fn bytes(word: &str) -> Vec<u8> {
    if word == "-" {
        return vec![];
    }
    assert!(word.len() % 2 == 0, "half a byte in {word}");
    (0..word.len())
        .step_by(2)
        .map(|at| u8::from_str_radix(&word[at..at + 2], 16).unwrap())
        .collect()
}
