//! Generated graphs, each answer judged by one that is looked for in the plainest way.

mod common;

extern crate guppy_proved as guppy;

use common::{json_of, Link};
use guppy::graph::{DependencyDirection, PackageGraph, PackageLink, PackageMetadata, PackageSet};
use guppy::{Error, PackageId};
use std::collections::BTreeSet;
use DependencyDirection::{Forward, Reverse};

// Numbers that look drawn, from a seed.
struct Draw(u64);

impl Draw {
    fn below(&mut self, limit: usize) -> usize {
        self.0 ^= self.0 << 13;
        self.0 ^= self.0 >> 7;
        self.0 ^= self.0 << 17;
        (self.0 % limit as u64) as usize
    }
}

// A graph, and what it is made of.
struct Drawn {
    count: usize,
    links: Vec<Link>,
    graph: PackageGraph,
    // Which packages all links lead to from each, and which those that aren't dev-only do.
    all: Vec<Vec<bool>>,
    firm: Vec<Vec<bool>>,
}

impl Drawn {
    fn of(draw: &mut Draw) -> Self {
        let count = 1 + draw.below(8);
        let mut links: Vec<Link> = Vec::new();
        for _ in 0..draw.below(2 * count + 1) {
            let (from, to) = (draw.below(count), draw.below(count));
            if links.iter().all(|link| (link.0, link.1) != (from, to)) {
                links.push((from, to, ["normal", "dev", "build"][draw.below(3)]));
            }
        }
        Drawn {
            graph: PackageGraph::from_json(json_of(count, &links)).unwrap(),
            all: reached(count, &links, |_| true),
            firm: reached(count, &links, |link| link.2 != "dev"),
            count,
            links,
        }
    }

    fn told(&self) -> String {
        format!("{} packages, {:?}", self.count, self.links)
    }

    fn id(&self, package: usize) -> &PackageId {
        let member = self.graph.workspace().member_by_name(format!("p{package}"));
        member.unwrap().id()
    }

    fn numbers(&self, ids: &[&PackageId]) -> Vec<usize> {
        ids.iter()
            .map(|id| number(self.graph.metadata(id).unwrap()))
            .collect()
    }

    fn is_same(&self, one: usize, other: usize) -> bool {
        self.all[one][other] && self.all[other][one]
    }

    fn has_firm_cycle(&self) -> bool {
        let firm = self.links.iter().filter(|link| link.2 != "dev");
        firm.into_iter()
            .any(|(from, to, _)| from != to && self.firm[*to][*from])
    }

    // Marks of the packages.
    fn marks(&self, set: &PackageSet<'_>) -> Vec<bool> {
        (0..self.count)
            .map(|it| set.contains(self.id(it)).unwrap())
            .collect()
    }
}

// Follows each link once for each package that there is.
fn reached(count: usize, links: &[Link], is_followed: fn(&Link) -> bool) -> Vec<Vec<bool>> {
    let row = |from: usize| (0..count).map(|to| to == from).collect();
    let mut rows: Vec<Vec<bool>> = (0..count).map(row).collect();
    let followed = links.iter().filter(|link| is_followed(link));
    let often = followed.cycle().take(count * links.len());
    often.for_each(|(from, to, _)| rows.iter_mut().for_each(|row| row[*to] |= row[*from]));
    rows
}

fn number(package: PackageMetadata<'_>) -> usize {
    package.name()[1..].parse().unwrap()
}

// Draws graphs, and looks at each.
fn each(seed: u64, look: fn(&Drawn, &mut Draw)) {
    let mut draw = Draw(seed);
    (0..300).for_each(|_| look(&Drawn::of(&mut draw), &mut draw));
}

#[test]
fn walks_reach_what_links_lead_to() {
    each(0x9e37_79b9_7f4a_7c15, |drawn, _| {
        for start in 0..drawn.count {
            let forward = drawn.graph.query_forward([drawn.id(start)]).unwrap();
            let reverse = drawn.graph.query_reverse([drawn.id(start)]).unwrap();
            let back = |rows: &[Vec<bool>]| rows.iter().map(|row| row[start]).collect::<Vec<_>>();
            let is_firm = |link: PackageLink<'_>| !link.dev_only();
            let firm = forward.clone().resolve_with_fn(|_, link| is_firm(link));
            let firm_back = reverse.clone().resolve_with_fn(|_, link| is_firm(link));
            assert_eq!(
                drawn.marks(&forward.resolve()),
                drawn.all[start],
                "{}",
                drawn.told()
            );
            assert_eq!(
                drawn.marks(&reverse.resolve()),
                back(&drawn.all),
                "{}",
                drawn.told()
            );
            assert_eq!(drawn.marks(&firm), drawn.firm[start], "{}", drawn.told());
            assert_eq!(
                drawn.marks(&firm_back),
                back(&drawn.firm),
                "{}",
                drawn.told()
            );
        }
    });
}

#[test]
fn packages_depend_on_what_links_lead_to() {
    each(0x2545_f491_4f6c_dd1e, |drawn, _| {
        let mut cache = drawn.graph.new_depends_cache();
        let pairs = (0..drawn.count).flat_map(|one| (0..drawn.count).map(move |two| (one, two)));
        for (one, two) in pairs {
            let (from, to) = (drawn.id(one), drawn.id(two));
            let wanted = drawn.all[one][two];
            assert_eq!(
                drawn.graph.depends_on(from, to).unwrap(),
                wanted,
                "{}",
                drawn.told()
            );
            assert_eq!(
                cache.depends_on(from, to).unwrap(),
                wanted,
                "{}",
                drawn.told()
            );
            let is_linked = drawn
                .links
                .iter()
                .any(|link| (link.0, link.1) == (one, two));
            let directly = drawn.graph.directly_depends_on(from, to).unwrap();
            assert_eq!(directly, is_linked, "{}", drawn.told());
        }
    });
}

// Whatever is answered, each link that leaves the set is asked about once.
#[test]
fn visitors_are_asked_about_each_link() {
    each(0x1234_5678_9abc_def1, |drawn, draw| {
        let start = draw.below(drawn.count);
        let reverse = drawn.graph.query_reverse([drawn.id(start)]).unwrap();
        let mut asked = BTreeSet::new();
        let mut count = 0;
        let set = reverse.resolve_with_fn(|_, link| {
            count += 1;
            asked.insert(told(link));
            draw.below(2) > 0
        });
        let marks = drawn.marks(&set);
        let leaving = drawn.links.iter().filter(|link| marks[link.1]);
        assert_eq!(asked, leaving.copied().collect(), "{}", drawn.told());
        assert_eq!(asked.len(), count, "{}", drawn.told());
    });
}

#[test]
fn lists_are_in_order() {
    each(0x0f1e_2d3c_4b5a_6978, |drawn, _| {
        let all = drawn.graph.resolve_all();
        let order: Vec<usize> = all.packages(Forward).map(number).collect();
        let place = |package: usize| order.iter().position(|it| *it == package).unwrap();
        assert_eq!(
            order.iter().collect::<BTreeSet<_>>().len(),
            drawn.count,
            "{}",
            drawn.told()
        );
        for (from, to, kind) in &drawn.links {
            let leads_on = from == to || place(*from) < place(*to);
            assert!(
                leads_on || drawn.is_same(*from, *to),
                "{} {order:?}",
                drawn.told()
            );
            let is_loose = *kind == "dev" || drawn.has_firm_cycle();
            assert!(leads_on || is_loose, "{} {order:?}", drawn.told());
        }
    });
}

// Some packages of the graph.
fn chosen(drawn: &Drawn, draw: &mut Draw) -> Vec<usize> {
    (0..drawn.count).filter(|_| draw.below(3) > 0).collect()
}

fn turned(link: &Link, direction: DependencyDirection) -> (usize, usize) {
    match direction {
        Forward => (link.0, link.1),
        Reverse => (link.1, link.0),
    }
}

// The roots of some packages, ascending.
fn roots_of(drawn: &Drawn, chosen: &[usize], direction: DependencyDirection) -> Vec<usize> {
    let is_entered = |package: usize| {
        let ends = drawn.links.iter().map(|link| turned(link, direction));
        let mut inside = ends.filter(|(near, far)| chosen.contains(near) && chosen.contains(far));
        inside.any(|(near, far)| drawn.is_same(package, far) && !drawn.is_same(package, near))
    };
    chosen
        .iter()
        .copied()
        .filter(|package| !is_entered(*package))
        .collect()
}

#[test]
fn roots_are_entered_by_no_link() {
    each(0x7654_3210_fedc_ba98, |drawn, draw| {
        let chosen = chosen(drawn, draw);
        let set = drawn
            .graph
            .resolve_ids(chosen.iter().map(|it| drawn.id(*it)))
            .unwrap();
        for direction in [Forward, Reverse] {
            let roots: BTreeSet<usize> = set.root_packages(direction).map(number).collect();
            let wanted = roots_of(drawn, &chosen, direction);
            assert!(
                roots.iter().eq(&wanted),
                "{} {chosen:?} {direction:?}",
                drawn.told()
            );
        }
    });
}

#[test]
fn links_are_walked_from_the_roots() {
    each(0x1357_9bdf_0246_8ace, |drawn, draw| {
        let chosen = chosen(drawn, draw);
        let set = drawn
            .graph
            .resolve_ids(chosen.iter().map(|it| drawn.id(*it)))
            .unwrap();
        let is_inside = |it: &&Link| chosen.contains(&it.0) && chosen.contains(&it.1);
        let inside: BTreeSet<Link> = drawn.links.iter().filter(is_inside).copied().collect();
        let is_whole = (0..drawn.count)
            .all(|it| chosen.contains(&it) || chosen.iter().all(|one| !drawn.is_same(*one, it)));
        for direction in [Forward, Reverse] {
            let links: Vec<Link> = set.links(direction).map(told).collect();
            let listed: BTreeSet<Link> = links.iter().copied().collect();
            assert_eq!(listed.len(), links.len(), "{} {links:?}", drawn.told());
            assert!(listed.is_subset(&inside), "{} {links:?}", drawn.told());
            assert!(!is_whole || listed == inside, "{} {links:?}", drawn.told());
            let roots = roots_of(drawn, &chosen, direction);
            let is_led_to = |place: usize| {
                let near = turned(&links[place], direction).0;
                let mut before = links[..place].iter().map(|it| turned(it, direction));
                roots.contains(&near) || before.any(|(_, far)| far == near)
            };
            assert!(
                (0..links.len()).all(is_led_to),
                "{} {links:?}",
                drawn.told()
            );
        }
    });
}

#[test]
fn cycles_are_components() {
    each(0x0bad_cafe_dead_beef, |drawn, _| {
        let cycles: Vec<Vec<usize>> = drawn
            .graph
            .cycles()
            .all_cycles()
            .map(|ids| drawn.numbers(&ids))
            .collect();
        let is_linked = |it: usize| drawn.links.iter().any(|link| (link.0, link.1) == (it, it));
        let on_one = |one: usize, two: usize| {
            let mut others = (0..drawn.count).filter(|it| drawn.is_same(one, *it));
            drawn.is_same(one, two) && (others.any(|it| it != one) || is_linked(one))
        };
        for (one, two) in (0..drawn.count).flat_map(|it| (0..drawn.count).map(move |two| (it, two)))
        {
            let told = drawn.graph.cycles().is_cyclic(drawn.id(one), drawn.id(two));
            assert_eq!(
                told.unwrap(),
                on_one(one, two),
                "{} {one} {two}",
                drawn.told()
            );
            let with = |it: usize| cycles.iter().filter(move |cycle| cycle.contains(&it));
            let together = with(one).filter(|cycle| cycle.contains(&two)).count();
            assert_eq!(
                together,
                usize::from(on_one(one, two)),
                "{} {cycles:?}",
                drawn.told()
            );
        }
        let back: Vec<_> = drawn.graph.cycles().all_cycles().rev().collect();
        assert!(
            back.iter().rev().map(|ids| drawn.numbers(ids)).eq(cycles),
            "{}",
            drawn.told()
        );
    });
}

#[test]
fn members_are_published_in_order() {
    each(0x0ddb_a11d_eca5_e5ed, |drawn, _| {
        match drawn.graph.publish_order() {
            Ok(order) => {
                let order: Vec<usize> = order.into_iter().map(number).collect();
                let place = |package: usize| order.iter().position(|it| *it == package).unwrap();
                let mut firm = drawn
                    .links
                    .iter()
                    .filter(|link| link.2 != "dev" && link.0 != link.1);
                assert!(
                    !drawn.has_firm_cycle() && order.len() == drawn.count,
                    "{}",
                    drawn.told()
                );
                assert!(
                    firm.all(|link| place(link.0) > place(link.1)),
                    "{} {order:?}",
                    drawn.told()
                );
            }
            Err(Error::Cycle(ids)) => {
                let cycle = drawn.numbers(&ids.iter().collect::<Vec<_>>());
                let nexts = cycle.iter().skip(1).chain(cycle.first());
                let is_firm = |from: &usize, to: &usize| {
                    let mut links = drawn.links.iter().filter(|link| link.2 != "dev");
                    links.any(|link| (link.0, link.1) == (*from, *to))
                };
                assert!(
                    cycle.len() > 1 && drawn.has_firm_cycle(),
                    "{}",
                    drawn.told()
                );
                assert!(
                    cycle.iter().zip(nexts).all(|it| is_firm(it.0, it.1)),
                    "{}",
                    drawn.told()
                );
            }
            Err(error) => panic!("{error}"),
        }
    });
}

fn told(link: PackageLink<'_>) -> Link {
    let (from, to) = link.endpoints();
    let kinds = [
        (link.normal(), "normal"),
        (link.build(), "build"),
        (link.dev(), "dev"),
    ];
    let present: Vec<_> = kinds.iter().filter(|kind| kind.0.is_present()).collect();
    assert_eq!((link.dep_name(), present.len()), (to.name(), 1));
    (number(from), number(to), present[0].1)
}

#[test]
fn links_stand_at_both_of_their_ends() {
    each(0x2545_f491_4f6c_dd1d, |drawn, _| {
        for package in drawn.graph.packages() {
            let at = |end: fn(&Link) -> usize| {
                let at = drawn
                    .links
                    .iter()
                    .filter(|link| end(link) == number(package));
                at.copied().collect::<BTreeSet<_>>()
            };
            let (leaving, entering) = (at(|link| link.0), at(|link| link.1));
            assert_eq!(package.direct_links().len(), leaving.len());
            assert_eq!(
                package.direct_links().map(told).collect::<BTreeSet<_>>(),
                leaving
            );
            let back: Vec<Link> = package.reverse_direct_links().map(told).collect();
            assert_eq!(back.len(), entering.len());
            assert_eq!(back.into_iter().collect::<BTreeSet<_>>(), entering);
        }
    });
}

#[test]
fn a_long_chain_is_walked() {
    let links: Vec<Link> = (0..2000)
        .map(|package| (package, package + 1, "normal"))
        .collect();
    let graph = PackageGraph::from_json(json_of(2001, &links)).unwrap();
    let first = graph.workspace().member_by_name("p0").unwrap();
    let all = graph.query_forward([first.id()]).unwrap().resolve();
    assert!(all.packages(Forward).map(number).eq(0..=2000));
    assert!(all.root_packages(Reverse).map(number).eq([2000]));
}
