//! The reference beside the vectors in data/vectors, which another brute force made.
//! Assumes that the folder stands at its place in the repository.

use host::reference::complement::reverse_complement_call;
use host::reference::line::{line, written_part};
use host::reference::output::output;
use host::reference::refusal::Refusal;
use host::reference::sketch::sketch;
use host::reference::start::start_call;
use host::reference::steps::{answers, refused_words};
use host::reference::store::load;
use host::reference::strike::{strike_call, strike_read_call};

use crate::vector_files::{
    complemented, complements, entries, judged_words, lines, lists, sessions, sketch_of, started, store, strikes, struck,
    written, written_lines,
};

#[test]
fn reverse_complements() {
    for (read, room, expected) in complements() {
        assert_eq!(complemented(&reverse_complement_call(&read, room)), expected, "{read:?}, room {room}");
    }
}

#[test]
fn lines_with_a_strand() {
    for vector in written_lines() {
        let line = line(vector.first, vector.last, vector.score, vector.m, vector.per_mille, vector.strand);
        assert_eq!(written_part(line, vector.room), vector.expected, "{vector:?}");
    }
}

#[test]
fn sketches() {
    for line in lines("sketch.tsv", 200) {
        let (k, w, letters, expected) = sketch_of(&line);
        assert_eq!(entries(&sketch(&letters, k, w)), expected, "{line:?}");
    }
}

#[test]
fn strikes_of_text_and_read() {
    for (at, vector) in strikes().into_iter().enumerate() {
        let (codes, positions, c, rooms) = (&vector.codes, &vector.positions, vector.c, vector.rooms);
        let answer = match &vector.text {
            Some(text) => strike_read_call(text, codes, positions, c, rooms.0, rooms.1),
            None => strike_call(codes, positions, c, rooms.0, rooms.1),
        };
        assert_eq!(struck(&answer), vector.expected, "strike {at}, c {c}, rooms {rooms:?}");
    }
}

#[test]
fn sessions_of_both_scores() {
    for (at, vector) in sessions().into_iter().enumerate() {
        let answer = start_call(&vector.task, vector.lent);
        assert_eq!(started(&answer), vector.started, "session {at}");
        if answer.is_ok() {
            let given: Vec<String> = answers(&vector.task, &vector.steps).0.iter().map(written).collect();
            assert_eq!(given, vector.expected, "session {at}");
        }
    }
}

#[test]
fn words_that_step_refuses() {
    for (words, refused) in judged_words() {
        assert_eq!(refused_words(words), refused, "{words:?}");
    }
}

#[test]
fn stores() {
    for line in lines("store.tsv", 200) {
        let (words, room, expected) = store(&line);
        let answer = match load(&words, room, room) {
            Ok(stored) => format!("loaded {} {} {}", stored.k, stored.w, entries(&stored.entries)),
            Err(Refusal { number, value }) => format!("refused {number} {}", value.expect("a second value")),
        };
        assert_eq!(answer.trim_end(), expected, "{line:?}");
    }
}

#[test]
fn printed() {
    for (name, input, expected) in lists() {
        assert_eq!(output(&input), expected, "{name}");
    }
}
