//! What a job shows of `*`, the branch for anything else: the corners that
//! generated jobs must meet.

use crate::answer::Answer;
use crate::corners::Shown;
use crate::generate::model::Sheet;
use crate::independent::closing::{called, compare, Graph, Leaving};
use crate::independent::suite::{edges, holds, meet};

/// Pairs that go on, by the names that stand against a `*`.
const SEVERAL_NEW: &str = "pairs with an old * against several new names";
const SEVERAL_OLD: &str = "pairs with a new * against several old names";
const BOTH: &str = "pairs with a * against names on both sides";
const OLD_ALONE: &str = "pairs with an old * alone against new names";
const NEW_ALONE: &str = "pairs with a new * alone against old names";
const STAR_GONE: &str = "pairs with an old * and no new one";
const NEW_WORD: &str = "pairs with a word of the new node for which the old one takes none";

/// Pairs by the words that make an edge dangerous.
const BY_NAME: &str = "pairs with an old * dangerous by a new name alone";
const BY_ONE_NAME: &str = "pairs with an old * dangerous by one new name, joined with another";
const BY_REST: &str = "pairs with an old * dangerous against *, joined with every new name";
const GONE_JOINED: &str = "pairs with an old * dangerous for want of a new one, joined with a name";
const NAME_PARTS: &str = "pairs with an old name dangerous against a new *";
const BOTH_WAYS: &str = "pairs with a new * that is a start and a counterpart";

/// Pairs by counterparts.
const NAME_JOINED: &str = "pairs with an old name joined with a new *";
const OLD_COUNTERPARTS: &str = "pairs with several counterparts of an old *";
const NEW_COUNTERPARTS: &str = "pairs with several counterparts of a new *";

/// Tests.
const CROSSED: &str = "left-off tests that crossed a *";
const ONE_BY_NAME: &str = "left-off tests with a 1 at a new * by a name";
const DOUBT: &str = "left-off tests with a ? by a *";
const REPEATED: &str = "tests repeated by a * alone";

/// Sheets.
const BROKEN_WORD: &str = "sheets that break rule 4 for one of several words of a * alone";
const BROKEN_NAME: &str = "sheets that break rule 4 for a name against a new * alone";
const PASSED: &str = "sheets that pass with a D for one of several words of a *";

/// In 20,000 jobs each of these must be met at least so often.
pub const MET: [(&str, u64); 23] = [
    (SEVERAL_NEW, 100),
    (SEVERAL_OLD, 100),
    (BOTH, 100),
    (OLD_ALONE, 150),
    (NEW_ALONE, 150),
    (STAR_GONE, 300),
    (NEW_WORD, 600),
    (BY_NAME, 150),
    (BY_ONE_NAME, 60),
    (BY_REST, 20),
    (GONE_JOINED, 120),
    (NAME_PARTS, 300),
    (BOTH_WAYS, 200),
    (NAME_JOINED, 250),
    (OLD_COUNTERPARTS, 130),
    (NEW_COUNTERPARTS, 120),
    (CROSSED, 3_000),
    (ONE_BY_NAME, 150),
    (DOUBT, 400),
    (REPEATED, 300),
    (BROKEN_WORD, 25),
    (BROKEN_NAME, 20),
    (PASSED, 100),
];

/// An old edge and the new one that is compared with it for some word.
type Compared<'g> = (&'g Leaving, Option<&'g Leaving>);

fn alike((edge, other): &Compared) -> bool {
    other.is_some_and(|other| other.class == edge.class)
}

/// The old edge is `*`, the new one has a name.
fn star_on_name((edge, other): &Compared) -> bool {
    edge.is_star() && other.is_some_and(|other| !other.is_star())
}

/// The old edge has a name, the new one is `*`.
fn name_on_star((edge, other): &Compared) -> bool {
    !edge.is_star() && other.is_some_and(Leaving::is_star)
}

/// The edges compared at a pair.
fn at_pair<'g>(old: &'g Graph, new: &'g Graph, (n, m): (u16, u16)) -> Vec<Compared<'g>> {
    let mut all = Vec::new();
    compare(old.leaving(n), new.leaving(m), |edge, other| {
        all.push((edge, other));
        true
    });
    all
}

/// Whether the exits of all callees of a pair are listed.
fn goes_on(
    old: &Graph,
    new: &Graph,
    pair: (u16, u16),
    listed: impl Fn((u16, u16)) -> bool,
) -> bool {
    called(old, new, pair).all(|(_, exits)| listed(exits))
}

/// Tells what the pairs of a job show.
pub fn tell(shown: &Shown, tell: &mut impl FnMut(&'static str, bool)) {
    let Shown { old, new, .. } = *shown;
    let pairs = &shown.closing.pairs;
    for &(n, m) in &pairs.list {
        if goes_on(old, new, (n, m), |(n, m)| pairs.contains(n, m)) {
            let all = at_pair(old, new, (n, m));
            tell_words(&all, (old.leaving(n), new.leaving(m)), tell);
            tell_dangers(&all, tell);
            tell_counterparts(&all, tell);
        }
    }
}

/// By the words of both nodes.
fn tell_words(
    all: &[Compared],
    (leaving, others): (&[Leaving], &[Leaving]),
    tell: &mut impl FnMut(&'static str, bool),
) {
    let count = |is: fn(&Compared) -> bool| all.iter().filter(|one| is(one)).count();
    let (new_names, old_names) = (count(star_on_name), count(name_on_star));
    tell(SEVERAL_NEW, new_names > 1);
    tell(SEVERAL_OLD, old_names > 1);
    tell(BOTH, new_names > 0 && old_names > 0);
    tell(OLD_ALONE, new_names > 0 && leaving.len() == 1);
    tell(NEW_ALONE, old_names > 0 && others.len() == 1);
    tell(
        STAR_GONE,
        all.iter()
            .any(|(edge, other)| edge.is_star() && other.is_none()),
    );
    let taken = |one: &Leaving| {
        let mut others = all.iter().filter_map(|(_, other)| *other);
        others.any(|other| other.edge == one.edge)
    };
    tell(NEW_WORD, others.iter().any(|other| !taken(other)));
}

/// By the words that make a danger.
fn tell_dangers(all: &[Compared], tell: &mut impl FnMut(&'static str, bool)) {
    let names: Vec<_> = all.iter().filter(|one| star_on_name(one)).collect();
    let joined = names.iter().any(|one| alike(one));
    let parted = names.iter().any(|one| !alike(one));
    // All words that neither node names.
    let rest = all.iter().find(|one| one.0.is_star() && !star_on_name(one));
    if let Some(rest) = rest {
        tell(BY_NAME, parted && alike(rest));
        tell(BY_ONE_NAME, parted && joined);
        tell(
            BY_REST,
            rest.1.is_some() && !alike(rest) && joined && !parted,
        );
        tell(GONE_JOINED, rest.1.is_none() && joined);
    }
    tell(
        NAME_PARTS,
        all.iter().any(|one| name_on_star(one) && !alike(one)),
    );
    let of_star = |one: &&Compared| one.1.is_some_and(Leaving::is_star);
    let start = all.iter().filter(of_star).any(|one| !alike(one));
    tell(BOTH_WAYS, start && all.iter().filter(of_star).any(alike));
}

/// By counterparts.
fn tell_counterparts(all: &[Compared], tell: &mut impl FnMut(&'static str, bool)) {
    tell(
        NAME_JOINED,
        all.iter().any(|one| name_on_star(one) && alike(one)),
    );
    let joined = all.iter().filter(|one| alike(one));
    let of_old = joined.clone().filter(|one| one.0.is_star()).count();
    let of_new = joined
        .filter(|one| one.1.is_some_and(Leaving::is_star))
        .count();
    tell(OLD_COUNTERPARTS, of_old > 1);
    tell(NEW_COUNTERPARTS, of_new > 1);
}

/// Tells what a test shows, by its row and its marks.
pub fn tell_test(
    shown: &Shown,
    row: &[u64],
    marks: &[u8],
    tell: &mut impl FnMut(&'static str, bool),
) {
    let Shown {
        old, new, closing, ..
    } = *shown;
    if meet(row, &closing.danger) {
        let mut dangers = edges(&closing.danger).filter(|&edge| holds(row, edge));
        tell(REPEATED, dangers.all(|edge| old.is_star(edge as u16)));
        return;
    }
    tell(CROSSED, edges(row).any(|edge| old.is_star(edge as u16)));
    let (mut one, mut doubt) = (false, false);
    for &(e, f) in shown
        .joined
        .iter()
        .filter(|joined| holds(row, joined.0 as usize))
    {
        let mark = marks[f as usize];
        one |= !old.is_star(e) && new.is_star(f) && mark == b'1';
        doubt |= old.is_star(e) && mark == b'?';
    }
    tell(ONE_BY_NAME, one);
    tell(DOUBT, doubt);
}

/// Tells what a sheet shows that passes, or that breaks rule 4.
pub fn tell_sheet(
    old: &Graph,
    new: &Graph,
    sheet: &Sheet,
    answer: Answer,
    tell: &mut impl FnMut(&'static str, bool),
) {
    let listed = |(n, m): (u16, u16)| sheet.pairs.contains(&(n as usize, m as usize));
    let kept = |(edge, other): &Compared| other.is_some_and(|other| listed((edge.end, other.end)));
    let is_danger = |edge: &Leaving| sheet.dangers.contains(&(edge.edge as usize));
    let (mut words, mut names, mut others, mut partly) = (false, false, false, false);
    for &(n, m) in &sheet.pairs {
        let pair = (n as u16, m as u16);
        if !goes_on(old, new, pair, listed) {
            continue;
        }
        let all = at_pair(old, new, pair);
        let star_kept = all.iter().any(|one| one.0.is_star() && kept(one));
        for one in all.iter().filter(|one| !kept(one)) {
            let of_several = one.0.is_star() && star_kept;
            match is_danger(one.0) {
                true => partly |= of_several,
                false if of_several => words = true,
                false if name_on_star(one) => names = true,
                false => others = true,
            }
        }
    }
    let broken = answer == Answer::new(12, 4) && !others;
    tell(BROKEN_WORD, broken && words && !names);
    tell(BROKEN_NAME, broken && names && !words);
    tell(PASSED, answer.is_success() && partly);
}
