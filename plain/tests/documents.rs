//! The examples of document 01, and cases of T-01, T-03, T-04, T-06, T-08 and T-09, each by its sentence.

use plain::answer::{Answer, Call, Status};
use plain::author::{Author, Manner};
use plain::block;
use plain::configuration::Configuration;
use plain::lines::run;
use plain::logs::{CHAINED, CHAINED_64};
use plain::queries::Query;
use plain::random::Random;
use plain::table::{Awaited, Mark, State, Table};

const OUT: u8 = 255;
const START: u8 = 0;
const STOP: u8 = 1;
const END: u8 = 2;
const SIGNAL: u8 = 3;
const WAIT: u8 = 4;
const CLEAR: u8 = 5;
const ENTER: u8 = 6;
const EXIT: u8 = 7;
const SEND: u8 = 8;
const RETRIEVE: u8 = 9;
const ARM: u8 = 10;
const DISARM: u8 = 11;
const TICK: u8 = 12;

/// "Each starts fresh: priorities 5, 5, 2, two regions, one queue of bound 2."
fn fresh() -> Table {
    let configuration = Configuration {
        tasks: 3,
        regions: 2,
        queues: 1,
        priorities: &[5, 5, 2],
        bounds: &[2],
        marks: &[0, 0],
    };
    configuration.fresh().unwrap()
}

fn made(table: &mut Table, caller: u8, operation: u8, a: u32, b: u32, c: u32) -> Answer {
    let answer = table.call(&Call {
        caller,
        operation,
        a,
        b,
        c,
    });
    assert!(table.is_valid());
    answer
}

/// Status and elected task of one call.
fn short(table: &mut Table, caller: u8, operation: u8, a: u32, b: u32, c: u32) -> (u8, u8) {
    let answer = made(table, caller, operation, a, b, c);
    (answer.status as u8, answer.elected)
}

#[test]
fn p1_smaller_is_more_urgent_and_of_equals_the_lowest() {
    assert_eq!(short(&mut fresh(), 0, START, 2, 0, 0), (0, 2));
    assert_eq!(short(&mut fresh(), 0, START, 1, 0, 0), (0, 0));
}

#[test]
fn p2_election_takes_effect_at_the_last_exit() {
    let mut table = fresh();
    assert_eq!(short(&mut table, 0, ENTER, 0, 0, 0), (0, 0));
    assert_eq!(short(&mut table, 0, START, 2, 0, 0), (0, 0));
    assert_eq!(short(&mut table, 0, EXIT, 0, 0, 0), (0, 2));
}

#[test]
fn p3_all_and_any() {
    let mut table = fresh();
    assert_eq!(short(&mut table, 0, WAIT, 3, 0, 0), (1, OUT));
    assert_eq!(short(&mut table, OUT, SIGNAL, 0, 0, 0), (0, OUT));
    assert_eq!(short(&mut table, OUT, SIGNAL, 1, 0, 0), (0, 0));
    assert_eq!(table.tasks[0].arrived, 3);
    let mut table = fresh();
    assert_eq!(short(&mut table, 0, WAIT, 3, 1, 0), (1, OUT));
    assert_eq!(short(&mut table, OUT, SIGNAL, 0, 0, 0), (0, 0));
}

#[test]
fn p4_retrieve_takes_the_largest_criterion() {
    let mut table = fresh();
    assert_eq!(short(&mut table, 0, SEND, 0, 11, 3), (0, 0));
    assert_eq!(short(&mut table, 0, SEND, 0, 12, 9), (0, 0));
    assert_eq!(short(&mut table, 0, SEND, 0, 13, 3), (17, 0));
    let got = made(&mut table, 0, RETRIEVE, 0, 0, 16);
    assert_eq!((got.status, got.value, got.key), (Status::Done, 12, 9));
    let got = made(&mut table, 0, RETRIEVE, 0, 0, 3);
    assert_eq!((got.status, got.value, got.key), (Status::Done, 11, 3));
    assert_eq!(short(&mut table, 0, RETRIEVE, 0, 0, 3), (18, 0));
}

#[test]
fn p5_order_of_the_first_checks() {
    assert_eq!(short(&mut fresh(), 1, 13, 0, 0, 0), (11, 0));
    assert_eq!(short(&mut fresh(), 1, ENTER, 0, 0, 0), (12, 0));
    assert_eq!(short(&mut fresh(), OUT, START, 1, 0, 0), (13, 0));
}

#[test]
fn po1_to_po5_order_matters() {
    let signal = |table: &mut Table, task| short(table, OUT, SIGNAL, 0, task, 0).0;
    let mut table = fresh();
    assert_eq!(signal(&mut table, 1), 15);
    short(&mut table, 0, START, 1, 0, 0);
    assert_eq!(signal(&mut table, 1), 0);
    short(&mut table, 0, STOP, 1, 0, 0);
    assert_eq!(signal(&mut table, 1), 15);
    let mut table = fresh();
    assert_eq!(signal(&mut table, 0), 0);
    assert_eq!(short(&mut table, 0, WAIT, 1, 0, 0), (0, 0));
    short(&mut table, 0, CLEAR, 1, 0, 0);
    assert_eq!(table.tasks[0].arrived, 0);
    signal(&mut table, 0);
    assert_eq!(table.tasks[0].arrived, 1);
    short(&mut table, 0, END, 0, 0, 0);
    assert_eq!(signal(&mut table, 0), 15);
    assert_eq!(short(&mut fresh(), 0, WAIT, 1, 0, 0), (1, OUT));
}

#[test]
fn lists_operators_and_events_at_their_bounds() {
    assert_eq!(short(&mut fresh(), 0, WAIT, 65535, 0, 0), (1, OUT));
    assert_eq!(short(&mut fresh(), 0, WAIT, 65536, 0, 0), (14, 0));
    assert_eq!(short(&mut fresh(), 0, WAIT, 0, 2, 0), (14, 0));
    assert_eq!(short(&mut fresh(), 0, WAIT, 1, 2, 0), (19, 0));
    assert_eq!(short(&mut fresh(), 0, SIGNAL, 15, 0, 0), (0, 0));
    assert_eq!(short(&mut fresh(), 0, SIGNAL, 16, 0, 0), (14, 0));
    let mut table = fresh();
    short(&mut table, 0, ENTER, 0, 0, 0);
    assert_eq!(short(&mut table, 0, WAIT, 1, 0, 0), (16, 0));
}

#[test]
fn t01_timers_due_at_one_tick_signal_before_one_election() {
    let mut table = fresh();
    table.ticks = u32::MAX;
    assert_eq!(short(&mut table, 0, START, 2, 0, 0), (0, 2));
    assert_eq!(short(&mut table, 2, ARM, 1, 3, 2), (0, 2));
    assert_eq!(short(&mut table, 2, WAIT, 8, 0, 0), (1, 0));
    assert_eq!(short(&mut table, 0, ARM, 1, 3, 2), (15, 0));
    assert_eq!(short(&mut table, 0, ARM, 0, 0, 0), (14, 0));
    assert_eq!(short(&mut table, 0, ARM, 0, 0, 2_147_483_648), (14, 0));
    assert_eq!(short(&mut table, 0, ARM, 0, 0, 2), (0, 0));
    assert_eq!(short(&mut table, 0, WAIT, 1, 0, 0), (1, OUT));
    assert_eq!(short(&mut table, 0, TICK, 0, 0, 0), (12, OUT));
    assert_eq!(short(&mut table, OUT, TICK, 0, 0, 0), (0, OUT));
    assert_eq!(table.ticks, 0);
    assert_eq!(short(&mut table, OUT, TICK, 0, 0, 0), (0, 2));
    assert_eq!(short(&mut table, 2, TICK, 0, 0, 0), (13, 2));
    assert_eq!(short(&mut table, 2, DISARM, 1, 0, 0), (0, 2));
    short(&mut table, 2, ARM, 5, 0, 9);
    short(&mut table, 2, END, 0, 0, 0);
    assert_eq!(table.timers, Table::zeros().timers);
}

#[test]
fn queries_change_nothing_and_refuse_in_order() {
    let mut table = fresh();
    short(&mut table, 0, SIGNAL, 1, 0, 0);
    let asked = |query| {
        let answer = table.query(query);
        (answer.status as u8, answer.value)
    };
    let arrived = |caller, list, operator| asked(Query::Arrived { caller, list, operator });
    assert_eq!(arrived(0, 3, 0), (0, 0));
    assert_eq!(arrived(0, 3, 1), (0, 1));
    assert_eq!(arrived(OUT, 0, 2), (12, 0));
    assert_eq!(arrived(0, 0, 2), (14, 0));
    assert_eq!(arrived(0, 1, 2), (19, 0));
    assert_eq!(asked(Query::Empty { queue: 0 }), (0, 1));
    assert_eq!(asked(Query::Full { queue: 1 }), (14, 0));
    assert_eq!(asked(Query::Priority { task: 2 }), (0, 2));
    assert_eq!(asked(Query::State { task: 0 }), (0, 1));
}

#[test]
fn t03_blocks_come_back_and_others_are_not_touched() {
    let mut table = fresh();
    short(&mut table, 0, SEND, 0, 0xDEAD_BEEF, 7);
    short(&mut table, 0, ENTER, 1, 0, 0);
    short(&mut table, 0, ARM, 15, 2, 77);
    let bytes = table.packed();
    assert_eq!(bytes.len(), block::SIZE);
    assert_eq!(Table::unpacked(&bytes), Some(table));
    assert_eq!(block::query(&bytes, 5, 0, 0, 0), 11 | 255 << 24);
    let mut short_block = bytes[1..].to_vec();
    let tick = Call {
        caller: OUT,
        operation: TICK,
        a: 0,
        b: 0,
        c: 0,
    };
    assert_eq!(block::call(&mut short_block, &tick), 10 | 255 << 8 | 255 << 24);
    assert_eq!(short_block, &bytes[1..]);
    let mut unused = bytes.clone();
    unused[block::SIZE - 5] = 1;
    assert_eq!(block::query(&unused, 5, 0, 0, 0), 10 | 255 << 8 | 255 << 24);
}

#[test]
fn t04_a_region_is_free_only_at_the_matching_exit() {
    let mut table = fresh();
    for _ in 0..255 {
        assert_eq!(short(&mut table, 0, ENTER, 0, 0, 0), (0, 0));
    }
    assert_eq!(short(&mut table, 0, ENTER, 0, 0, 0), (22, 0));
    short(&mut table, 0, START, 2, 0, 0);
    for _ in 0..254 {
        assert_eq!(short(&mut table, 0, EXIT, 0, 0, 0), (0, 0));
    }
    assert_eq!(short(&mut table, 0, EXIT, 0, 0, 0), (0, 2));
}

#[test]
fn t06_an_exit_that_was_never_entered_gets_23() {
    let mut table = fresh();
    assert_eq!(short(&mut table, 0, EXIT, 0, 0, 0), (23, 0));
    assert_eq!(short(&mut table, 0, EXIT, 2, 0, 0), (14, 0));
    short(&mut table, 0, ENTER, 0, 0, 0);
    let held = table.clone();
    assert_eq!(short(&mut table, 0, EXIT, 1, 0, 0), (23, 0));
    assert_eq!(short(&mut table, 1, EXIT, 0, 0, 0), (12, 0));
    assert_eq!(table, held);
    assert_eq!(short(&mut table, 0, EXIT, 0, 0, 0), (0, 0));
    assert_eq!(short(&mut table, 0, EXIT, 0, 0, 0), (23, 0));
}

/// Elected and displaced task of a call that is accepted. Its c is 1, which ARM alone reads here: the delay.
fn pushed(table: &mut Table, caller: u8, operation: u8, a: u32, b: u32) -> (u8, u8) {
    let answer = made(table, caller, operation, a, b, 1);
    assert!(matches!(answer.status, Status::Done | Status::Waits), "{answer:?}");
    (answer.elected, answer.displaced)
}

#[test]
fn t08_the_former_elected_task_if_it_is_still_ready_and_no_longer_elected() {
    let mut table = fresh();
    assert_eq!(pushed(&mut table, 0, START, 2, 0), (2, 0));
    assert_eq!(pushed(&mut table, 2, WAIT, 1, 0), (0, OUT));
    assert_eq!(pushed(&mut table, 0, SIGNAL, 0, 2), (2, 0));
    assert_eq!(pushed(&mut table, 2, END, 0, 0), (0, OUT));
    // The holder stays elected, and is pushed aside at the last EXIT.
    assert_eq!(pushed(&mut table, 0, ENTER, 0, 0), (0, OUT));
    assert_eq!(pushed(&mut table, 0, START, 2, 0), (0, OUT));
    assert_eq!(made(&mut table, 2, CLEAR, 1, 0, 0), Answer::bare(Status::NotElected, 0));
    assert_eq!(pushed(&mut table, 0, EXIT, 0, 0), (2, 0));
    assert_eq!(pushed(&mut table, 2, STOP, 2, 0), (0, OUT));
    // A tick pushes aside as a signal does: of equals the lowest number.
    assert_eq!(pushed(&mut table, 0, START, 1, 0), (0, OUT));
    assert_eq!(pushed(&mut table, 0, ARM, 0, 0), (0, OUT));
    assert_eq!(pushed(&mut table, 0, WAIT, 1, 0), (1, OUT));
    assert_eq!(pushed(&mut table, OUT, TICK, 0, 0), (0, 1));
    // Nobody was elected before.
    let mut table = fresh();
    assert_eq!(pushed(&mut table, 0, WAIT, 1, 0), (OUT, OUT));
    assert_eq!(pushed(&mut table, OUT, SIGNAL, 0, 0), (0, OUT));
}

#[test]
fn t08_a_refusal_a_query_and_a_configuration_give_255() {
    let mut table = fresh();
    assert_eq!(made(&mut table, 0, START, 0, 0, 0).displaced, OUT);
    assert_eq!(table.query(Query::State { task: 0 }).displaced, OUT);
    let mut block = vec![0; block::SIZE];
    let configuration = |tasks| Configuration {
        tasks,
        regions: 0,
        queues: 0,
        priorities: &[5, 2],
        bounds: &[],
        marks: &[],
    };
    assert_eq!(block::fresh(&mut block, &configuration(0)), 20 | 255 << 8 | 255 << 24);
    assert_eq!(block::fresh(&mut block, &configuration(2)), 255 << 24);
    let start = Call {
        caller: 0,
        operation: START,
        a: 1,
        b: 0,
        c: 0,
    };
    assert_eq!(block::call(&mut block, &start), 1 << 8);
    assert_eq!(block::call(&mut block, &start), 12 | 1 << 8 | 255 << 24);
}

fn answered(input: &str) -> String {
    let mut output = Vec::new();
    run(input.as_bytes(), &mut output).unwrap();
    String::from_utf8(output).unwrap()
}

#[test]
fn whole_example_of_document_01() {
    let input = "030201050502020000\n0000000000020000000000000000\nFF03000000000000000100000000\n";
    assert_eq!(answered(input), "00000000000000FF\n0000000000000200\n0F000000000002FF\n");
    assert_eq!(answered(""), "");
}

#[test]
fn odd_first_lines() {
    for (line, status) in [
        ("\n", "15"),
        ("030201050502020000", "15"),
        ("030201050502020000\r\n", "15"),
        ("0302010505020a0000\n", "15"),
        ("01000\n", "15"),
        ("0000000\n", "15"),
        ("000000\n", "14"),
        ("21000000\n", "15"),
        ("41000000\n", "14"),
        ("030201050502\n", "15"),
        ("03020105050202\n", "15"),
        ("0302010505020200\n", "15"),
        ("03020105050202000000\n", "15"),
        ("030201050502000000\n", "14"),
        ("030201050502410000\n", "14"),
        ("030201050502020200\n", "14"),
        ("0302010505020200FF\n", "14"),
    ] {
        assert_eq!(answered(line), format!("{status}0000000000FFFF\n"), "{line:?}");
    }
    let long = "0".repeat(193) + "\n0000000000020000000000000000\nX\n";
    assert_eq!(answered(&long), "150000000000FFFF\n0A0000000000FFFF\n150000000000FFFF\n");
}

/// A fresh table without queues, of these priorities and marks.
fn marked(priorities: &[u8], marks: &[u8]) -> Table {
    let configuration = Configuration {
        tasks: priorities.len() as u8,
        regions: marks.len() as u8,
        queues: 0,
        priorities,
        bounds: &[],
        marks,
    };
    configuration.fresh().unwrap()
}

/// Status, elected and displaced task of one call, whose c is 0.
fn whole(table: &mut Table, caller: u8, operation: u8, a: u32, b: u32) -> (u8, u8, u8) {
    let answer = made(table, caller, operation, a, b, 0);
    (answer.status as u8, answer.elected, answer.displaced)
}

fn state(table: &Table, task: u32) -> u32 {
    table.query(Query::State { task }).value
}

#[test]
fn t09_marks_are_a_list_of_the_configuration() {
    let refused = |marks: &[u8]| {
        let configuration = Configuration {
            tasks: 1,
            regions: 2,
            queues: 0,
            priorities: &[5],
            bounds: &[],
            marks,
        };
        configuration.fresh().is_none()
    };
    assert!(refused(&[]) && refused(&[0]) && refused(&[0, 2]) && refused(&[255, 0]));
    assert!(!refused(&[1, 0]) && !refused(&[1, 1, 2]));
    assert_eq!(marked(&[5], &[0, 1]).regions[1].mark, Mark::OPEN);
    // 6 + 2 (64 + 8 + 16) digits: the longest first line.
    let line = "401008".to_string() + &"00".repeat(64) + &"01".repeat(8) + &"01".repeat(16) + "\n";
    assert_eq!(line.len(), 183);
    assert_eq!(answered(&line), "00000000000000FF\n");
}

/// 002's tournament: the holder of 40 runs with 10 while the task of 10 waits, and the region goes by urgency.
#[test]
fn t09_the_holder_takes_the_smallest_number_of_those_that_wait() {
    let mut table = marked(&[40, 10, 20, 30], &[1]);
    assert_eq!(whole(&mut table, 0, ENTER, 0, 0), (0, 0, OUT));
    // The least urgent comes first, so that the line is not in the order of coming.
    for (task, urgency) in [(3, 30), (2, 20), (1, 10)] {
        assert_eq!(whole(&mut table, 0, START, task, 0), (0, task as u8, 0));
        assert_eq!(whole(&mut table, task as u8, ENTER, 0, 0), (1, 0, OUT));
        assert_eq!((state(&table, task), state(&table, 0)), (3, 1));
        assert_eq!(table.urgencies()[0], urgency);
        assert_eq!(table.query(Query::Priority { task: 0 }).value, 40);
    }
    assert_eq!(whole(&mut table, 0, EXIT, 0, 0), (0, 1, 0));
    assert_eq!((table.regions[0].holder, table.regions[0].entries), (Some(1), 1));
    assert_eq!((state(&table, 1), state(&table, 2)), (1, 3));
    assert_eq!(whole(&mut table, 1, EXIT, 0, 0), (0, 1, OUT));
    assert_eq!(table.regions[0].holder, Some(2));
    assert_eq!(whole(&mut table, 1, END, 0, 0), (0, 2, OUT));
    assert_eq!(whole(&mut table, 2, EXIT, 0, 0), (0, 2, OUT));
    assert_eq!(whole(&mut table, 2, END, 0, 0), (0, 3, OUT));
    assert_eq!(whole(&mut table, 3, EXIT, 0, 0), (0, 3, OUT));
    assert_eq!((table.regions[0].holder, table.regions[0].entries), (None, 0));
}

/// "through any chain"; "lowest number of equals".
#[test]
fn t09_urgency_goes_through_a_chain_and_equals_go_by_number() {
    let mut table = marked(&[9, 8, 7, 6, 7], &[1, 1, 1]);
    whole(&mut table, 0, ENTER, 0, 0);
    whole(&mut table, 0, START, 1, 0);
    whole(&mut table, 1, ENTER, 1, 0);
    assert_eq!(whole(&mut table, 1, ENTER, 0, 0), (1, 0, OUT));
    whole(&mut table, 0, START, 4, 0);
    assert_eq!(whole(&mut table, 4, ENTER, 1, 0), (1, 0, OUT));
    // Task 2 has 7, as task 0 has through task 4: of equals the lowest number, so that task 0 is not pushed aside.
    assert_eq!(whole(&mut table, 0, START, 2, 0), (0, 0, OUT));
    assert_eq!(whole(&mut table, 0, START, 3, 0), (0, 3, 0));
    assert_eq!(whole(&mut table, 3, ENTER, 1, 0), (1, 0, OUT));
    assert_eq!(table.urgencies()[..5], [6, 6, 7, 6, 7]);
    // Task 1 is handed region 0, and is as urgent as task 3.
    assert_eq!(whole(&mut table, 0, EXIT, 0, 0), (0, 1, 0));
    assert_eq!(table.urgencies()[..5], [9, 6, 7, 6, 7]);
    // Region 1 goes to task 3, and not to task 4, which came first.
    assert_eq!(whole(&mut table, 1, EXIT, 1, 0), (0, 3, 1));
    assert_eq!(whole(&mut table, 3, ENTER, 0, 0), (1, 1, OUT));
    assert_eq!(table.urgencies()[..5], [9, 6, 7, 6, 7]);
    assert_eq!(whole(&mut table, 1, EXIT, 0, 0), (0, 3, 1));
    assert_eq!(whole(&mut table, 3, WAIT, 1, 0), (16, 3, OUT));
    // Two that are equally urgent wait: the lower number is first.
    let mut table = marked(&[9, 5, 5], &[1]);
    whole(&mut table, 0, ENTER, 0, 0);
    whole(&mut table, 0, START, 2, 0);
    assert_eq!(whole(&mut table, 2, ENTER, 0, 0), (1, 0, OUT));
    table.tasks[1].state = State::READY;
    table.tasks[1].awaits = Awaited::of(0);
    assert_eq!(whole(&mut table, 0, EXIT, 0, 0), (0, 1, 0));
}

/// An urgent task waits for a region of the least urgent one: a task between them doesn't run before the region is left.
#[test]
fn t09_no_task_between_holds_up_the_most_urgent() {
    let mut table = marked(&[9, 5, 1], &[1]);
    whole(&mut table, 0, ENTER, 0, 0);
    whole(&mut table, 0, START, 2, 0);
    assert_eq!(whole(&mut table, 2, ENTER, 0, 0), (1, 0, OUT));
    assert_eq!(whole(&mut table, 0, START, 1, 0), (0, 0, OUT));
    assert_eq!(whole(&mut table, 0, EXIT, 0, 0), (0, 2, 0));
    // Without anybody in line, an open region doesn't stop preemption.
    let mut table = marked(&[9, 5, 1], &[1]);
    whole(&mut table, 0, ENTER, 0, 0);
    assert_eq!(whole(&mut table, 0, START, 1, 0), (0, 1, 0));
    // A closed one does, also where its holder hands on an open one inside.
    let mut table = marked(&[9, 5, 1], &[1, 0]);
    whole(&mut table, 0, ENTER, 0, 0);
    whole(&mut table, 0, START, 1, 0);
    assert_eq!(whole(&mut table, 1, ENTER, 0, 0), (1, 0, OUT));
    whole(&mut table, 0, ENTER, 1, 0);
    assert_eq!(whole(&mut table, 0, START, 2, 0), (0, 0, OUT));
    assert_eq!(whole(&mut table, 0, EXIT, 0, 0), (0, 0, OUT));
    assert_eq!((table.regions[0].holder, state(&table, 1)), (Some(1), 1));
    assert_eq!(whole(&mut table, 0, EXIT, 1, 0), (0, 2, 0));
}

/// Two tasks that cross two regions, and four philosophers.
#[test]
fn t09_an_enter_that_would_close_a_circle_gets_24() {
    let mut table = marked(&[2, 1], &[1, 1]);
    whole(&mut table, 0, ENTER, 0, 0);
    whole(&mut table, 0, START, 1, 0);
    whole(&mut table, 1, ENTER, 1, 0);
    assert_eq!(whole(&mut table, 1, ENTER, 0, 0), (1, 0, OUT));
    let before = table.clone();
    assert_eq!(whole(&mut table, 0, ENTER, 1, 0), (24, 0, OUT));
    assert_eq!(table, before);
    assert_eq!(whole(&mut table, 0, EXIT, 0, 0), (0, 1, 0));

    let mut table = marked(&[4, 3, 2, 1], &[1; 4]);
    for philosopher in 0..4 {
        whole(&mut table, philosopher, ENTER, philosopher.into(), 0);
        if philosopher < 3 {
            whole(&mut table, philosopher, START, u32::from(philosopher) + 1, 0);
        }
    }
    // Each waits for its neighbour's fork, and lends 1 to the one that is elected next.
    assert_eq!(whole(&mut table, 3, ENTER, 0, 0), (1, 0, OUT));
    assert_eq!(whole(&mut table, 0, ENTER, 1, 0), (1, 1, OUT));
    assert_eq!(whole(&mut table, 1, ENTER, 2, 0), (1, 2, OUT));
    assert_eq!(whole(&mut table, 2, ENTER, 3, 0), (24, 2, OUT));
    assert_eq!(table.urgencies()[..4], [1, 1, 1, 1]);
}

#[test]
fn t09_what_a_holder_may_not_do() {
    // Of an open region: WAIT gets 16, even if it would pass; END and STOP get 25, by whomever.
    let mut table = marked(&[5, 2], &[1, 0, 1]);
    whole(&mut table, 0, ENTER, 0, 0);
    whole(&mut table, 0, SIGNAL, 0, 0);
    assert_eq!(whole(&mut table, 0, WAIT, 1, 0), (16, 0, OUT));
    assert_eq!(whole(&mut table, 0, WAIT, 1, 2), (19, 0, OUT));
    assert_eq!(whole(&mut table, 0, END, 0, 0), (25, 0, OUT));
    assert_eq!(whole(&mut table, 0, STOP, 0, 0), (25, 0, OUT));
    whole(&mut table, 0, START, 1, 0);
    assert_eq!(whole(&mut table, 1, STOP, 0, 0), (25, 1, OUT));
    // "16 now counts closed regions only": the region that is held is another task's, and open.
    assert_eq!(whole(&mut table, 1, WAIT, 1, 0), (1, 0, OUT));
    whole(&mut table, OUT, SIGNAL, 0, 1);
    // Inside a closed region: 16 before 24 and 25.
    whole(&mut table, 1, ENTER, 2, 0);
    whole(&mut table, 1, ENTER, 1, 0);
    assert_eq!(whole(&mut table, 1, ENTER, 0, 0), (16, 1, OUT));
    assert_eq!(whole(&mut table, 1, END, 0, 0), (16, 1, OUT));
    assert_eq!(whole(&mut table, 1, STOP, 1, 0), (16, 1, OUT));
    assert_eq!(whole(&mut table, 1, STOP, 0, 0), (25, 1, OUT));
    whole(&mut table, 1, EXIT, 1, 0);
    assert_eq!(whole(&mut table, 1, ENTER, 0, 0), (1, 0, OUT));
    assert_eq!(whole(&mut table, 0, ENTER, 1, 0), (0, 0, OUT));
    assert_eq!(whole(&mut table, 0, ENTER, 2, 0), (16, 0, OUT));
    whole(&mut table, 0, EXIT, 1, 0);
    assert_eq!(whole(&mut table, 0, ENTER, 2, 0), (24, 0, OUT));
    assert_eq!(whole(&mut table, 0, EXIT, 2, 0), (23, 0, OUT));
    // 22 is for the holder; another one waits, however often the region was entered.
    let mut table = marked(&[5, 2], &[1]);
    for _ in 0..255 {
        assert_eq!(whole(&mut table, 0, ENTER, 0, 0), (0, 0, OUT));
    }
    assert_eq!(whole(&mut table, 0, ENTER, 0, 0), (22, 0, OUT));
    whole(&mut table, 0, START, 1, 0);
    assert_eq!(whole(&mut table, 1, ENTER, 0, 0), (1, 0, OUT));
    for _ in 0..254 {
        assert_eq!(whole(&mut table, 0, EXIT, 0, 0), (0, 0, OUT));
    }
    assert_eq!(whole(&mut table, 0, EXIT, 0, 0), (0, 1, 0));
    assert_eq!(table.regions[0].entries, 1);
}

#[test]
fn t09_what_others_may_do_to_a_task_that_waits_for_a_region() {
    let mut table = marked(&[5, 2, 3], &[1]);
    whole(&mut table, 0, ENTER, 0, 0);
    whole(&mut table, 0, START, 1, 0);
    assert_eq!(made(&mut table, 1, ARM, 0, 3, 1).status, Status::Done);
    assert_eq!(whole(&mut table, 1, ENTER, 0, 0), (1, 0, OUT));
    assert_eq!(whole(&mut table, 0, START, 1, 0), (15, 0, OUT));
    // "a signal to such a task is only recorded", and so is a timer's.
    assert_eq!(whole(&mut table, OUT, SIGNAL, 7, 1), (0, 0, OUT));
    assert_eq!(whole(&mut table, OUT, TICK, 0, 0), (0, 0, OUT));
    assert_eq!((state(&table, 1), table.tasks[1].arrived), (3, 1 << 7 | 1 << 3));
    // While it waits, its urgency is the holder's; "a stopped task leaves its line".
    assert_eq!(whole(&mut table, 0, START, 2, 0), (0, 0, OUT));
    assert_eq!(whole(&mut table, 0, STOP, 1, 0), (0, 2, 0));
    assert_eq!((state(&table, 1), table.tasks[1].awaits), (0, Awaited::NONE));
    assert_eq!(whole(&mut table, 2, WAIT, 1, 0), (1, 0, OUT));
    assert_eq!(whole(&mut table, 0, EXIT, 0, 0), (0, 0, OUT));
    assert_eq!(table.regions[0].holder, None);
}

/// "no circle, a state 3 task waits for one occupied open region of another's, and no free region is waited for".
#[test]
fn t09_damaged_lines_are_not_valid() {
    // Tasks 0, 1, 2 hold regions 0, 1, 2; task 1 waits for region 0, task 2 for region 1; region 3 is closed, region 4 open and free.
    let mut table = marked(&[4, 3, 2, 1], &[1, 1, 1, 0, 1]);
    whole(&mut table, 0, ENTER, 0, 0);
    whole(&mut table, 0, START, 1, 0);
    whole(&mut table, 1, ENTER, 1, 0);
    whole(&mut table, 1, START, 2, 0);
    whole(&mut table, 2, ENTER, 2, 0);
    whole(&mut table, 2, ENTER, 1, 0);
    assert_eq!(whole(&mut table, 1, ENTER, 0, 0), (1, 0, OUT));
    let damaged = |damage: &dyn Fn(&mut Table)| {
        let mut table = table.clone();
        damage(&mut table);
        assert_eq!(
            table
                .call(&Call {
                    caller: OUT,
                    operation: TICK,
                    a: 0,
                    b: 0,
                    c: 0
                })
                .status,
            Status::NotValid
        );
    };
    // Circles of one, two and three tasks, with any task stored as elected.
    for (task, region) in [(0, 0), (1, 1), (0, 1), (0, 2)] {
        for elected in [None, Some(0), Some(1), Some(2), Some(3), Some(200)] {
            damaged(&|table| {
                table.tasks[task].awaits = Awaited::of(region);
                table.elected = elected;
            });
        }
    }
    // A region that is closed, free, not there, and not even in the table.
    for region in [3, 4, 5, 15, 16, 254] {
        damaged(&|table| table.tasks[2].awaits = Awaited::of(region));
    }
    damaged(&|table| table.regions[1].mark = Mark::CLOSED);
    damaged(&|table| table.regions[4].mark = Mark(2));
    damaged(&|table| table.regions[5].mark = Mark::OPEN);
    damaged(&|table| table.regions[0].holder = None);
    damaged(&|table| table.regions[0].holder = Some(3));
    damaged(&|table| table.regions[0].holder = Some(4));
    damaged(&|table| table.regions[0].entries = 0);
    damaged(&|table| table.tasks[0].awaits = Awaited::of(15));
    damaged(&|table| table.tasks[3].awaits = Awaited::of(0));
    damaged(&|table| table.tasks[4].awaits = Awaited::of(0));
    damaged(&|table| table.tasks[1].state = State::STOPPED);
    damaged(&|table| table.tasks[1].state = State::SUSPENDED);
    damaged(&|table| {
        table.tasks[1].state = State::WAITING;
        table.tasks[1].list = 1;
    });
    // The elected task is the one of least urgency, and not of least priority; the closed region's holder doesn't wait.
    damaged(&|table| table.elected = Some(2));
    damaged(&|table| {
        table.regions[3].holder = Some(2);
        table.regions[3].entries = 1;
        table.elected = Some(2);
    });
    let mut closed_too = table.clone();
    closed_too.regions[3].holder = Some(0);
    closed_too.regions[3].entries = 1;
    assert!(closed_too.is_valid());
}

/// A task's urgency asks its regions, and a region's asks its waiting tasks.
fn urgency_of_task(table: &Table, task: usize) -> u8 {
    let regions = (0..table.regions.len()).filter(|&region| table.regions[region].holder == Some(task as u8));
    regions
        .map(|region| urgency_of_region(table, region))
        .fold(table.tasks[task].priority, u8::min)
}

fn urgency_of_region(table: &Table, region: usize) -> u8 {
    let line = (0..table.tasks.len()).filter(|&task| table.tasks[task].awaits.region() == Some(region));
    line.map(|task| urgency_of_task(table, task)).fold(255, u8::min)
}

/// Over logs with many tasks in chains: urgencies as they are defined, valid tables, and blocks that come back.
#[test]
fn t09_logs_with_chains() {
    for (seed, configuration) in [CHAINED, CHAINED_64].iter().enumerate() {
        let manner = Manner {
            slip: 24,
            longest_delay: 12,
            kept_alive: 16,
            in_lines: 24,
        };
        let mut author = Author::new(configuration, manner, Random::new(seed as u64));
        let mut longest = 0;
        for _ in 0..10_000 {
            author.call();
            let table = author.table();
            assert!(table.is_valid());
            let urgencies = table.urgencies();
            for (task, &urgency) in urgencies.iter().enumerate() {
                assert_eq!(urgency, urgency_of_task(table, task));
                longest = longest.max(table.chain(task).count() - 1);
            }
            assert_eq!(Table::unpacked(&table.packed()).as_ref(), Some(table));
        }
        assert!(longest >= 6, "the longest chain has {longest} links");
    }
}

#[test]
fn t09_places_in_a_block() {
    let mut table = marked(&[5, 2], &[0, 1]);
    whole(&mut table, 0, ENTER, 1, 0);
    whole(&mut table, 0, START, 1, 0);
    whole(&mut table, 1, ENTER, 1, 0);
    let bytes = table.packed();
    assert_eq!(bytes.len(), 3272);
    assert_eq!((bytes[68], bytes[69]), (1, 1));
    let (awaits, holder, entries, opened) = (452, 516, 532, 548);
    assert_eq!([bytes[awaits], bytes[awaits + 1], bytes[awaits + 2]], [0, 2, 0]);
    assert_eq!([bytes[holder], bytes[holder + 1]], [0, 1]);
    assert_eq!([bytes[entries], bytes[entries + 1]], [0, 1]);
    assert_eq!([bytes[opened], bytes[opened + 1], bytes[opened + 2]], [0, 1, 0]);
    assert_eq!(block::query(&bytes, 4, 0, 1, 0), 3 << 32 | 255 << 24);
    // The size before T-09.
    assert_eq!(block::query(&bytes[..3192], 4, 0, 1, 0), 10 | 255 << 8 | 255 << 24);
}
