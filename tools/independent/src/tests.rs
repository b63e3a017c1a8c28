//! The examples of the pages.

use crate::deferred::Deferred;
use crate::in_place::InPlace;
use crate::memory::Memory;
use crate::output::run;

/// Runs memory calls written as on the page, `call -> answer; ..`, and compares every answer that is given.
fn memory_runs<M: Memory + Default>(text: &str) {
    let mut memory = M::default();
    for part in text.split(';') {
        let (call, expected) =
            part.split_once("->").map_or((part, None), |(call, answer)| (call, Some(answer.trim())));
        let words: Vec<&str> = call.split_whitespace().collect();
        let number = |k: usize| words[k].parse::<usize>().unwrap();
        let none = |()| None;
        let result = match words[0] {
            "look" => memory.look(number(1)).map(Some),
            "load" => memory.load(number(1), number(2)).map(Some),
            "store" => memory.store(number(1), number(2), number(3) as u16).map(none),
            "begin" => memory.begin(number(1)).map(none),
            "read" => memory.read(number(1), number(2)).map(Some),
            "write" => memory.write(number(1), number(2), number(3) as u16).map(none),
            "commit" => memory.commit(number(1)).map(none),
            "drop" => memory.drop_transaction(number(1)).map(none),
            other => panic!("no call {other}"),
        };
        let answer = match result {
            Ok(Some(value)) => value.to_string(),
            Ok(None) => "ok".to_string(),
            Err(fault) => fault.refusal.number().to_string(),
        };
        if let Some(expected) = expected {
            assert_eq!(answer, expected, "{call} in {text}");
        }
    }
}

#[test]
fn memory_examples() {
    let examples = [
        "look 137 -> 21; look 136 -> 0",
        "load 8 0 -> 21; load 7 0 -> 0",
        "begin 0 -> ok; begin 0 -> 22; load 0 5 -> 22; store 0 5 1 -> 22; commit 0 -> ok",
        "commit 0 -> 23; read 0 0 -> 23; drop 0 -> 23",
        "begin 0; write 0 5 9 -> ok; look 5 -> 0; read 0 5 -> 9; commit 0 -> ok; look 5 -> 9",
        "begin 0; write 0 5 9; drop 0 -> ok; look 5 -> 0",
        "begin 0; read 0 0 -> 0; store 1 0 7 -> ok; commit 0 -> 24; commit 0 -> 23; look 0 -> 7",
        "begin 0; write 0 0 3; load 1 0 -> 0; commit 0 -> 24; look 0 -> 0",
        "begin 0; read 0 0; load 1 0 -> 0; commit 0 -> ok",
        "begin 0; read 0 0; begin 1; write 1 0 4 -> ok; drop 0 -> ok; commit 1 -> ok; look 0 -> 4",
        "begin 0; store 1 0 4; begin 0 -> 22; commit 0 -> ok",
        "begin 0; read 0 1; store 1 1 4; load 0 2 -> 22; begin 0 -> 22; read 0 2 -> 24; load 0 2 -> 0",
        "begin 0; read 0 1; read 0 2; read 0 3; read 0 4; read 0 4 -> 0; read 0 5 -> 25; read 0 5 -> 23",
        "begin 0; write 0 1 1; write 0 2 1; write 0 3 1; write 0 4 1; write 0 4 2 -> ok; write 0 5 1 -> 25; \
         look 1 -> 0",
        "begin 0; write 0 1 8; read 0 2; read 0 3; read 0 4; read 0 5; read 0 1 -> 8; commit 0 -> ok; look 1 -> 8",
        "begin 0; read 0 1; store 1 1 4; read 0 200 -> 21; commit 0 -> 24",
    ];
    for example in examples {
        memory_runs::<Deferred>(example);
        memory_runs::<InPlace>(example);
    }
}

#[test]
fn no_refusal_dooms() {
    // Card 1's refused read (25), store (22) and write (23) leave card 0's transaction open.
    let refused = [
        "begin 0; write 0 9 1; begin 1; read 1 1; read 1 2; read 1 3; read 1 4; read 1 9 -> 25; commit 0 -> ok",
        "begin 0; read 0 9; begin 1; store 1 9 5 -> 22; commit 0 -> ok",
        "begin 0; read 0 9; write 1 9 5 -> 23; commit 0 -> ok",
        "begin 0; read 0 9; begin 1; write 1 1 1; write 1 2 1; write 1 3 1; write 1 4 1; write 1 9 1 -> 25; \
         commit 0 -> ok",
    ];
    for example in refused {
        memory_runs::<Deferred>(example);
        memory_runs::<InPlace>(example);
    }
}

fn prints(input: &str, output: &str) {
    let input = input.replace('/', "\n");
    let output = output.replace('/', "\n");
    assert_eq!(run::<Deferred>(input.as_bytes()), output);
    assert_eq!(run::<InPlace>(input.as_bytes()), output);
}

#[test]
fn schedule_examples() {
    prints(
        "3/1/1/1/9/w 0 0 0/s 0/s 0/s 0/s 0/a 0 1 0 2/a 0 1 0 2/s 0/s 0/",
        "1 ok/2 step/3 step/4 step/5 in/6 ok/7 ok/8 step/9 added 2/queue 0/",
    );
    prints("3/8/32/8/0/", "queue/");
    prints("", "bad 1 31/");
    prints("4/1/1/1/1/0/", "bad 1 31/");
    prints("3/8/33/8/0/", "refused 1/");
    prints("3/9/1/1/zzz/", "refused 1/");
    prints("3/9/1/x/", "bad 4 31/");
    prints("3/1/1/1/2001/s 0/", "bad 5 31/");
    prints("3/1/1/1/1/s 00/", "bad 6 31/");
    prints("3/1/1/1/1/s  0/", "bad 6 31/");
    prints("3/1/1/1/1/w 0 0 65536/", "bad 6 31/");
    prints("3/1/1/1/1/s 0", "bad 6 31/");
    prints("3/1/1/1/2/s 0/q 0/", "1 refused 5/bad 7 31/");
    prints("3/1/1/1/2/s 0/", "1 refused 5/bad 7 31/");
    prints("3/1/1/1/1/s 0/s 0/", "1 refused 5/bad 7 31/");
    prints("3/1/1/1/0/x", "bad 6 31/");
}

#[test]
fn length_limit() {
    let mut text = b"3\n1\n1\n1\n0\n".to_vec();
    text.resize(65_535, b' ');
    assert_eq!(run::<Deferred>(&text), "bad 6 31\n");
    text.push(b' ');
    assert_eq!(run::<Deferred>(&text), "bad 0 32\n");
}

#[test]
fn contested_entry() {
    prints(
        "3/2/2/1/35/w 0 0 0/r 1 0 1/s 0/s 0/s 0/s 1/s 1/s 0/w 0 0 0/s 1/s 1/s 0/s 0/s 1/s 1/s 1/s 0/s 0/s 1/s 0/\
         s 1/s 1/s 1/s 1/s 1/s 0/l 1 1/s 1/s 1/s 1/s 1/s 1/s 1/s 1/s 0/",
        "1 ok/2 ok/3 step/4 step/5 step/6 step/7 step/8 lost/9 ok/10 step/11 step/12 step/13 step/14 step/15 step/\
         16 step/17 step/18 step/19 lost/20 step/21 step/22 step/23 step/24 step/25 in/26 wait/27 ok/28 step/29 step/\
         30 step/31 step/32 step/33 step/34 out/35 in/queue 0/",
    );
}
