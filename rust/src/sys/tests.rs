//! The exports beside what their documentation says, and each request for memory refused in turn.

use super::*;
use std::cell::Cell;

thread_local! {
    // How many requests for memory are granted before one is refused, and how many blocks there are.
    static GRANTED: Cell<usize> = const { Cell::new(usize::MAX) };
    static BLOCKS: Cell<isize> = const { Cell::new(0) };
}

pub(super) fn is_refused() -> bool {
    let granted = GRANTED.get();
    GRANTED.set(granted.wrapping_sub(1));
    granted == 0
}

pub(super) fn count(blocks: isize) {
    BLOCKS.set(BLOCKS.get() + blocks);
}

// What the call answers where so many requests are granted, and whether that was enough for all of them.
fn granting<T>(granted: usize, call: impl FnOnce() -> T) -> (T, bool) {
    GRANTED.set(granted);
    let told = call();
    let was_enough = GRANTED.replace(usize::MAX) < usize::MAX / 2;
    assert_eq!(BLOCKS.get(), 0, "all memory is given back");
    (told, was_enough)
}

const LINKS: [Ends; 4] = [
    Ends { from: 2, to: 0 },
    Ends { from: 0, to: 1 },
    Ends { from: 1, to: 0 },
    Ends { from: 1, to: 1 },
];

// A call's status, its number, and what it wrote.
type Told = (u32, usize, String);

// Each call on three positions, with these links and so many flags and places.
fn called(links: &[Ends], flags: usize, places: usize) -> [Told; 6] {
    let (flags, set) = (vec![true; flags], [true; 3]);
    let told = |outcome: Outcome, written: String| (outcome.status, outcome.link, written);
    let mut reached = vec![true; places];
    let reach = super::reach(links, &flags, &set, true, &mut reached);
    let mut entered = vec![true; places];
    let roots = super::roots(links, &set, true, &mut entered);
    let (mut parted, mut firsts) = ([9; 3], vec![true; places]);
    let components = super::components(links, &flags, &mut parted, &mut firsts);
    let mut ordered = [9; 3];
    let order = super::order(links, &flags, &mut ordered);
    let mut round = [9; 3];
    let cycle = super::cycle(links, &flags, &mut round);
    let mut numbers = vec![9; places];
    let inside = super::links(links, &set, true, &mut numbers);
    assert_eq!(BLOCKS.get(), 0, "all memory is given back");
    [
        told(reach, format!("{reached:?}")),
        told(roots, format!("{entered:?}")),
        told(components, format!("{parted:?} {firsts:?}")),
        told(order, format!("{ordered:?}")),
        told(cycle.outcome, format!("{} {round:?}", cycle.len)),
        told(inside.outcome, format!("{} {numbers:?}", inside.len)),
    ]
}

fn statuses(told: &[Told; 6]) -> [u32; 6] {
    told.each_ref().map(|it| it.0)
}

const UNCHANGED: [&str; 6] = [
    "[true, true, true]",
    "[true, true, true]",
    "[9, 9, 9] [true, true, true]",
    "[9, 9, 9]",
    "0 [9, 9, 9]",
    "0 [9, 9, 9]",
];

#[test]
fn each_call_answers() {
    let told = called(&LINKS, 4, 3);
    assert_eq!(statuses(&told), [0, 0, 0, 0, 0, 7]);
    assert_eq!(told[0].2, "[true, true, true]");
    assert_eq!(told[1].2, "[false, false, true]");
    assert!(told[2].2.starts_with("[2, ") && told[2].2.ends_with("] [true, true, false]"));
    assert!(told[3].2.starts_with("[2, "));
    assert!(told[4].2.starts_with("2 "));
    assert_eq!(told[5].2, "4 [9, 9, 9]");
    let none = called(&[], 0, 3).map(|it| it.2);
    assert_eq!(none[1], "[true, true, true]");
    assert_eq!(none[4..], ["0 [9, 9, 9]", "0 [9, 9, 9]"]);
}

#[test]
fn what_does_not_fit_is_told_and_nothing_written() {
    let wrong = called(&LINKS, 3, 2);
    assert_eq!(statuses(&wrong), [1, 1, 1, 1, 1, 7]);
    let links = [LINKS[0], Ends { from: 3, to: 0 }, Ends { from: 0, to: 4 }];
    assert_eq!(
        called(&links, 3, 3),
        UNCHANGED.map(|it| (4, 1, it.to_owned()))
    );
    let links = [LINKS[0], LINKS[1], LINKS[0]];
    assert_eq!(
        called(&links, 3, 3),
        UNCHANGED.map(|it| (5, 2, it.to_owned()))
    );
}

#[test]
fn a_refused_request_for_memory_is_told_or_done_without() {
    let whole = called(&LINKS, 4, 3);
    let mut refusals = 0;
    for granted in 0.. {
        let (told, was_enough) = granting(granted, || called(&LINKS, 4, 3));
        let refused: Vec<usize> = (0..6).filter(|it| told[*it] != whole[*it]).collect();
        let is_told = |number: &usize| told[*number] == (6, 0, UNCHANGED[*number].to_owned());
        assert!(refused.iter().all(is_told), "{told:?}");
        refusals += refused.len();
        if was_enough {
            break;
        }
        assert!(refused.len() <= 1);
    }
    assert!(refusals > 100, "{refusals} refusals");
}

// A trace: the numbers shown, each with its answer.
type Trace = Vec<(usize, bool)>;

// The call's status, and whether it holds.
fn judged(links: &[Ends], starts: &[bool], trace: &Trace, set: &[bool]) -> (u32, bool) {
    let (shown, answers): (Vec<usize>, Vec<bool>) = trace.iter().copied().unzip();
    let judged = judge(links, starts, &shown, &answers, set, true);
    assert_eq!(judged.outcome.link, 0);
    assert_eq!(BLOCKS.get(), 0, "all memory is given back");
    (judged.outcome.status, judged.holds)
}

// The rules of a resolve, each looked at in the plainest way.
fn keeps_the_rules(links: &[Ends], starts: &[bool], trace: &Trace, set: &[bool]) -> bool {
    let near = |number: usize| links[number].from as usize;
    let is_in = |marks: &[bool], position: usize| marks.get(position) == Some(&true);
    let is_led_to = |before: &[(usize, bool)], position: usize| {
        let leads = |number: usize| links[number].to as usize == position;
        is_in(starts, position) || before.iter().any(|it| it.1 && leads(it.0))
    };
    let is_shown = |before: &[(usize, bool)], number| before.iter().any(|it| it.0 == number);
    trace.iter().all(|it| it.0 < links.len())
        && (0..trace.len()).all(|at| !is_shown(&trace[..at], trace[at].0))
        && (0..links.len()).all(|number| is_shown(trace, number) == is_in(set, near(number)))
        && (0..20).all(|position| is_in(set, position) == is_led_to(trace, position))
        && (0..trace.len()).all(|at| is_led_to(&trace[..at], near(trace[at].0)))
}

// Numbers that look like chance.
struct Chance(u64);

impl Chance {
    fn below(&mut self, limit: usize) -> usize {
        self.0 = self
            .0
            .wrapping_mul(6_364_136_223_846_793_005)
            .wrapping_add(1_442_695_040_888_963_407);
        (self.0 >> 33) as usize % limit
    }
}

// A walk that answers by chance, of links whose ends are positions.
fn walked(links: &[Ends], starts: &[bool], chance: &mut Chance) -> (Trace, Vec<bool>) {
    let (mut trace, mut set) = (Trace::new(), starts.to_vec());
    let is_open = |trace: &Trace, set: &[bool], number: usize| {
        set[links[number].from as usize] && trace.iter().all(|it| it.0 != number)
    };
    while let Some(number) = (0..links.len()).find(|it| is_open(&trace, &set, *it)) {
        trace.push((number, chance.below(3) > 0));
        set[links[number].to as usize] |= trace[trace.len() - 1].1;
    }
    (trace, set)
}

// Each walk holds, and each that was changed a little is judged as the rules say.
#[test]
fn a_resolve_is_judged_by_its_rules() {
    let (mut chance, mut counts) = (Chance(7), [0, 0]);
    for turn in 0..4_000 {
        let count = 1 + chance.below(5);
        let end = |chance: &mut Chance| chance.below(count) as u32;
        let mut links: Vec<Ends> = (0..chance.below(8))
            .map(|_| Ends {
                from: end(&mut chance),
                to: end(&mut chance),
            })
            .collect();
        let starts: Vec<bool> = (0..count).map(|_| chance.below(2) > 0).collect();
        let (mut trace, mut set) = walked(&links, &starts, &mut chance);
        assert_eq!(judged(&links, &starts, &trace, &set), (0, true), "{turn}");
        let (number, length) = (chance.below(8), trace.len().max(1));
        let (here, there) = (chance.below(length), chance.below(length));
        match chance.below(6) {
            0 => set[number % count] ^= true,
            1 => links.push(Ends { from: 9, to: 12 }),
            _ if trace.is_empty() => trace.push((number, true)),
            2 => trace.swap(here, there),
            3 => trace[here] = (number, true),
            4 => trace.insert(here, trace[there]),
            _ => links[trace[here].0].to = number as u32,
        }
        let holds = keeps_the_rules(&links, &starts, &trace, &set);
        let told = judged(&links, &starts, &trace, &set);
        assert_eq!(
            told,
            (0, holds),
            "{turn}: {links:?} {starts:?} {trace:?} {set:?}"
        );
        counts[usize::from(holds)] += 1;
    }
    assert!(counts[0] > 1_000 && counts[1] > 300, "{counts:?}");
}

#[test]
fn a_resolve_that_is_not_judged_does_not_hold() {
    let (starts, set) = ([false, false, true], [true, false, true]);
    let trace = vec![(0, true), (1, false)];
    assert_eq!(judged(&LINKS, &starts, &trace, &set), (0, true));
    assert_eq!(judged(&LINKS, &starts[..2], &trace, &set), (1, false));
    // A mark a link, and then a mark a position, twice.
    for granted in 0..3 {
        let (told, _) = granting(granted, || judged(&LINKS, &starts, &trace, &set));
        assert_eq!(told, (6, false));
    }
    let (told, _) = granting(3, || judged(&LINKS, &starts, &trace, &set));
    assert_eq!(told, (0, true));
}

#[test]
fn a_text_is_evaluated_on_a_platform() {
    let said = |text: &[u8], cfgs: &str| {
        let told = eval(text, b"linux", cfgs.as_bytes());
        assert_eq!(BLOCKS.get(), 0, "all memory is given back");
        (told.status, told.value, told.line)
    };
    let cfgs = "unix\ntarget_os=\"linux\"\n";
    for (text, value) in [
        ("cfg(unix)", 2),
        ("cfg(all(unix, target_os = \"linux\"))", 2),
        ("cfg(not(unix))", 0),
        ("linux", 2),
        ("windows", 0),
        ("cfg(unix", 1),
        ("", 0),
    ] {
        assert_eq!(said(text.as_bytes(), cfgs), (0, value, 0), "{text}");
    }
    assert_eq!(said(b"linux", "unix\n\ntest"), (1, 0, 1));
    assert_eq!(said(b"\xff", cfgs), (2, 0, 0));
    for granted in 0.. {
        let (told, was_enough) = granting(granted, || said(b"cfg(unix)", cfgs));
        if was_enough {
            assert_eq!(told, (0, 2, 0));
            assert!(granted > 4, "{granted} requests");
            break;
        }
        assert_eq!(told, (3, 0, 0));
    }
}

const JSON: &str = include_str!("../../../examples/metadata.json");
const PLATFORMS: &str = "built\0--platform\0x\0--cfgs\0unix\na=\"b\"\0--host\0y\0--host-cfgs\0";

// Both calls that write a text with so much room: status, length, and what was written.
fn written(json: &str, args: &str, room: usize) -> [(u32, usize, Vec<u8>); 2] {
    let (mut out, mut text) = (vec![b'?'; room], vec![b'?'; room]);
    let answer = answer(json.as_bytes(), args.as_bytes(), &mut out);
    let told = records(json.as_bytes(), true, &mut text);
    assert_eq!(BLOCKS.get(), 0, "all memory is given back");
    [
        (answer.status, answer.len, out),
        (told.status, told.len, text),
    ]
}

#[test]
fn a_text_is_written_where_there_is_room() {
    for (json, args, statuses) in [
        (JSON, "affected\0crates/core/x", [0, 0]),
        (JSON, "affected\0--ids", [1, 0]),
        (JSON, "reach\0forward\0nobody", [1, 0]),
        // What files have stands in the place of their names.
        (JSON, PLATFORMS, [0, 0]),
        (JSON, "built\0--platform\0x\0--cfgs\x002", [1, 0]),
        (JSON, "", [1, 0]),
        ("[", "order", [1, 4]),
        ("", "order", [1, 4]),
        ("{}", "order", [1, 5]),
        (r#"{"resolve": {"nodes": []}}"#, "order", [1, 1]),
    ] {
        let none = written(json, args, 0);
        for (call, status) in statuses.into_iter().enumerate() {
            let len = none[call].1;
            let (_, _, whole) = &written(json, args, len)[call];
            assert!(std::str::from_utf8(whole).is_ok() && !whole.contains(&b'?'));
            assert_eq!(written(json, args, len)[call].0, status);
            let (told, more, wide) = &written(json, args, len + 3)[call];
            assert_eq!((*told, *more), (status, len));
            assert_eq!(wide[..len], whole[..]);
            assert_eq!(wide[len..], *b"???");
            if len > 0 {
                let small = vec![b'?'; len - 1];
                assert_eq!(written(json, args, len - 1)[call], (2, len, small));
            }
        }
    }
    let [answer, _] = written(JSON, "affected\0crates/core/x", 100);
    assert_eq!(&answer.2[..answer.1], b"core\ntest-support\ncli\napp\n");
    let [answer, _] = written(JSON, PLATFORMS, 1000);
    let lines = std::str::from_utf8(&answer.2[..answer.1]).unwrap().lines();
    assert_eq!(
        lines.collect::<Vec<_>>(),
        [
            "app x",
            "cli x",
            "core x",
            "macros host",
            "test-support x",
            "unused x"
        ]
    );
}

#[test]
fn a_text_that_finds_no_memory_is_not_written() {
    for args in ["order", PLATFORMS] {
        let whole = written(JSON, args, 4000);
        let mut refusals = [0, 0];
        for granted in 0.. {
            let (told, was_enough) = granting(granted, || written(JSON, args, 4000));
            for call in (0..2).filter(|call| told[*call] != whole[*call]) {
                assert_eq!(told[call], (3, 0, vec![b'?'; 4000]));
                refusals[call] += 1;
            }
            if was_enough {
                break;
            }
        }
        // Where memory is wanting while the records are read one by one, they are read as a whole.
        assert!(refusals.iter().all(|it| *it > 5), "{refusals:?}");
    }
}

// Where the library finds no memory the process ends as where std finds none. This test is run a second time, in a
// process in which one request after the other is refused, until a call can't do without.
#[test]
fn without_memory_the_process_ends() {
    const FIND_NONE: &str = "GUPPY_FINDS_NO_MEMORY";
    if std::env::var_os(FIND_NONE).is_some() {
        for granted in 0..100 {
            GRANTED.set(granted);
            let _ = crate::proved::records("{}", false);
        }
        panic!("each time there is an answer");
    }
    let name = "sys::tests::without_memory_the_process_ends";
    let again = std::process::Command::new(std::env::current_exe().unwrap())
        .args(["--exact", name, "--nocapture"])
        .env(FIND_NONE, "1")
        .output()
        .unwrap();
    let told = String::from_utf8_lossy(&again.stderr);
    assert!(
        told.contains("memory allocation of 2 bytes failed"),
        "{told}"
    );
    assert_eq!(again.status.code(), None, "a signal ends it");
}

// A block keeps what it holds when it grows and shrinks.
#[test]
fn a_block_keeps_what_it_holds() {
    use super::memory::{rattle_alloc, rattle_dealloc, rattle_realloc};
    let small = 1 << 10;
    let mut block = rattle_alloc(small, 1).block;
    // SAFETY: the block is in use, and only its bytes are written and read.
    unsafe {
        block.write_bytes(7, small);
        for bytes in [1 << 24, 1 << 25, small + 1, small] {
            block = rattle_realloc(block, small, bytes, 1).block;
            block.add(small).write_bytes(9, bytes - small);
        }
        let kept = std::slice::from_raw_parts(block, small).to_vec();
        rattle_dealloc(block);
        assert_eq!(kept, vec![7; small]);
    }
}
