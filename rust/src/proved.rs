//! The answers of the proved library, as the rest of the crate asks for them.

use crate::sys::{self, Answer, Outcome};
use std::alloc::{handle_alloc_error, Layout};

pub(crate) use crate::sys::Ends;

impl Ends {
    /// The position that the link leads to, forward or the other way.
    pub(crate) fn far(self, forward: bool) -> usize {
        (if forward { self.to } else { self.from }) as usize
    }
}

/// Why links make no graph.
#[derive(Clone, Copy, Debug, PartialEq, Eq)]
pub(crate) enum LinkFault {
    /// There are too many positions or links.
    TooMany,
    /// The link with the number has an end that is no position, or the ends of an earlier one.
    At(usize),
}

// The library found no memory; std ends the process where it finds none, and so does this.
fn out_of_memory(bytes: usize) -> ! {
    handle_alloc_error(Layout::array::<u8>(bytes).unwrap_or(Layout::new::<u64>()))
}

// What the status says. Lengths fit in each call here.
fn ended(outcome: Outcome, links: &[Ends]) -> Result<(), LinkFault> {
    match outcome.status {
        0 => Ok(()),
        2 | 3 => Err(LinkFault::TooMany),
        4 | 5 => Err(LinkFault::At(outcome.link)),
        6 => out_of_memory(std::mem::size_of_val(links)),
        status => unreachable!("status {status} of slices whose lengths fit"),
    }
}

// The same, of links that made a graph before.
fn accepted(outcome: Outcome, links: &[Ends]) {
    ended(outcome, links).expect("these links make a graph");
}

/// All positions, component by component.
#[derive(Clone, Debug)]
pub(crate) struct Components {
    order: Vec<u32>,
    // Where each component begins, and the length of the order.
    begins: Vec<usize>,
    // The number of the component of each position.
    numbers: Vec<u32>,
}

impl Components {
    fn of(order: Vec<u32>, firsts: &[bool]) -> Self {
        let marked = firsts.iter().enumerate().filter(|(_, first)| **first);
        let ends = marked.skip(1).map(|(place, _)| place);
        let begins = [0].into_iter().chain(ends).chain([order.len()]).collect();
        // The first position begins the component with number 0.
        let begun = firsts.iter().skip(1).scan(0, |number, first| {
            *number += u32::from(*first);
            Some(*number)
        });
        let mut numbers = vec![0; order.len()];
        let numbered = order.iter().skip(1).zip(begun);
        numbered.for_each(|(position, number)| numbers[*position as usize] = number);
        Components {
            order,
            begins,
            numbers,
        }
    }

    /// Whether both positions are in one component.
    pub(crate) fn are_together(&self, one: usize, other: usize) -> bool {
        self.numbers[one] == self.numbers[other]
    }

    /// The component of the position.
    pub(crate) fn around(&self, position: usize) -> &[u32] {
        let number = self.numbers[position] as usize;
        &self.order[self.begins[number]..self.begins[number + 1]]
    }

    /// All positions, dependents first.
    pub(crate) fn order(&self) -> &[u32] {
        &self.order
    }

    /// The components, dependents first.
    pub(crate) fn iter(&self) -> impl DoubleEndedIterator<Item = &[u32]> {
        self.begins
            .windows(2)
            .map(|ends| &self.order[ends[0]..ends[1]])
    }
}

/// The components of the positions below the count, in an order by the flagged links.
pub(crate) fn components(
    links: &[Ends],
    flags: &[bool],
    count: usize,
) -> Result<Components, LinkFault> {
    let (mut order, mut firsts) = (vec![0; count], vec![false; count]);
    ended(
        sys::components(links, flags, &mut order, &mut firsts),
        links,
    )?;
    Ok(Components::of(order, &firsts))
}

/// A cycle over flagged links of the positions below the count.
pub(crate) fn cycle(links: &[Ends], flags: &[bool], count: usize) -> Option<Vec<u32>> {
    let mut list = vec![0; count];
    let cycle = sys::cycle(links, flags, &mut list);
    accepted(cycle.outcome, links);
    list.truncate(cycle.len);
    (!list.is_empty()).then_some(list)
}

/// The positions that flagged links lead to from the starts.
pub(crate) fn reach(links: &[Ends], flags: &[bool], starts: &[bool], forward: bool) -> Vec<bool> {
    let mut marks = vec![false; starts.len()];
    accepted(sys::reach(links, flags, starts, forward, &mut marks), links);
    marks
}

/// The roots of the set in the direction.
pub(crate) fn roots(links: &[Ends], set: &[bool], forward: bool) -> Vec<bool> {
    let mut marks = vec![false; set.len()];
    accepted(sys::roots(links, set, forward, &mut marks), links);
    marks
}

/// The numbers of the links inside the set, in the order of a walk from its roots.
pub(crate) fn links(links: &[Ends], set: &[bool], forward: bool) -> Vec<usize> {
    let mut numbers = vec![0; links.len()];
    let listed = sys::links(links, set, forward, &mut numbers);
    accepted(listed.outcome, links);
    numbers.truncate(listed.len);
    numbers
}

/// Whether a resolve from the starts shows the links with these numbers, in this order, with these answers, and
/// includes the set.
pub(crate) fn is_resolve(
    links: &[Ends],
    starts: &[bool],
    shown: &[usize],
    answers: &[bool],
    set: &[bool],
    forward: bool,
) -> bool {
    let judged = sys::judge(links, starts, shown, answers, set, forward);
    accepted(judged.outcome, links);
    judged.holds
}

/// Why there is no text.
#[derive(Clone, Debug, PartialEq, Eq)]
pub(crate) struct Refusal {
    pub(crate) kind: RefusalKind,
    pub(crate) text: String,
}

/// What is wrong with the JSON, where records are asked for; else it is `Other`.
#[derive(Clone, Copy, Debug, PartialEq, Eq)]
pub(crate) enum RefusalKind {
    /// It is no JSON.
    NotJson,
    /// Its dependencies aren't resolved.
    NotResolved,
    /// Anything else.
    Other,
}

// The text that a call writes, or why it refuses, told once more where the first room is too small.
fn text_of(room: usize, call: impl Fn(&mut [u8]) -> Answer) -> Result<String, Refusal> {
    let mut out = sys::zeros(room);
    let mut answer = call(&mut out);
    if answer.status == 2 {
        out = sys::zeros(answer.len);
        answer = call(&mut out);
    }
    out.truncate(answer.len);
    out.shrink_to_fit();
    let text = String::from_utf8(out).expect("texts are UTF-8");
    let refused = |kind| {
        Err(Refusal {
            kind,
            text: text.clone(),
        })
    };
    match answer.status {
        0 => Ok(text),
        1 => refused(RefusalKind::Other),
        3 => out_of_memory(room),
        4 => refused(RefusalKind::NotJson),
        5 => refused(RefusalKind::NotResolved),
        status => unreachable!("status {status} of a call with room for its text"),
    }
}

/// What `guppy-cargo` prints for these arguments of the workspace that the JSON describes, or the line that says why
/// it refuses. None of the arguments has a NUL.
pub(crate) fn answer(json: &str, args: &[&str]) -> Result<String, String> {
    let args = args.join("\0");
    let answer = text_of(1 << 12, |out| {
        sys::answer(json.as_bytes(), args.as_bytes(), out)
    });
    answer.map_err(|refusal| refusal.text)
}

/// The packages, links and workspace that the JSON describes as one text, with the details of packages and links or
/// without, or why there are none.
pub(crate) fn records(json: &str, details: bool) -> Result<String, Refusal> {
    text_of(json.len(), |out| {
        sys::records(json.as_bytes(), details, out)
    })
}

/// What a text says of a platform.
#[derive(Clone, Copy, Debug, PartialEq, Eq)]
pub(crate) enum Said {
    /// That it is another one.
    No,
    /// Nothing: it is no predicate and no name.
    Nothing,
    /// That it is this one.
    Yes,
}

/// What the text, as `cfg(unix)` or the name of a platform, says of the platform with the name, for which a compiler
/// prints these lines; or how many lines stand before the first that sets nothing.
pub(crate) fn said(text: &str, triple: &str, cfgs: &str) -> Result<Said, usize> {
    let told = sys::eval(text.as_bytes(), triple.as_bytes(), cfgs.as_bytes());
    match (told.status, told.value) {
        (0, 0) => Ok(Said::No),
        (0, 1) => Ok(Said::Nothing),
        (0, _) => Ok(Said::Yes),
        (1, _) => Err(told.line),
        (3, _) => out_of_memory(cfgs.len()),
        (status, _) => unreachable!("status {status} of texts in UTF-8"),
    }
}

#[cfg(test)]
mod tests {
    use super::*;
    use std::cell::Cell;

    #[test]
    fn a_text_is_asked_for_again_where_the_room_was_too_small() {
        let rooms = Cell::new([0; 2]);
        let asked = Cell::new(0);
        let text = text_of(3, |out| {
            let mut all = rooms.get();
            all[asked.get()] = out.len();
            rooms.set(all);
            asked.set(asked.get() + 1);
            let is_room = out.len() >= 5;
            if is_room {
                out[..5].copy_from_slice(b"hello");
            }
            Answer {
                status: if is_room { 0 } else { 2 },
                len: 5,
            }
        });
        assert_eq!((text.as_deref(), rooms.get()), (Ok("hello"), [3, 5]));
    }

    #[test]
    fn a_refusal_is_told() {
        for (status, kind) in [
            (1, RefusalKind::Other),
            (4, RefusalKind::NotJson),
            (5, RefusalKind::NotResolved),
        ] {
            let refused = text_of(4, |out| {
                out[..2].copy_from_slice(b"no");
                Answer { status, len: 2 }
            });
            let text = "no".to_owned();
            assert_eq!(refused, Err(Refusal { kind, text }));
        }
    }

    #[test]
    fn components_are_parted_where_one_begins() {
        let components = Components::of(vec![3, 0, 2, 1], &[true, true, false, true]);
        let listed: Vec<&[u32]> = components.iter().collect();
        assert_eq!(listed, [&[3][..], &[0, 2], &[1]]);
        let around = [0, 1, 2, 3].map(|position| components.around(position));
        assert_eq!(around, [&[0, 2][..], &[1], &[0, 2], &[3]]);
        assert!(components.are_together(0, 2) && !components.are_together(0, 3));
        let none = Components::of(Vec::new(), &[]);
        assert!(none.iter().all(<[u32]>::is_empty) && none.order().is_empty());
    }
}
