//! What walks of named states (document 02, request 8) reach, told by `second`'s own desk.

use crate::additions::{self, bump_if};
use crate::histogram::{bump, Counts};
use second::bytes::check_rule;
use second::calls::read_walk;
use second::model::{MAX_DIVISIONS, MAX_RULES};
use second::states::{word, Desk, Said, State, Step, LAST_NAME};
use second::test::PIVOT_LIMIT;
use second::{refusal, Answer, Division, Rule};
use std::collections::{BTreeSet, HashMap};

/// What has to occur: calls before a start, starts, additions by their refusals, rows and pivots, and marks. No start
/// is empty or long: x = 0 and q = c / d meet every bound, and each pivot there settles a division.
pub const EVENTS: [&str; 112] = [
    "add before a start",
    "mark before a start",
    "name over 15 before a start",
    "back before a start",
    "start refused 1",
    "start refused 6",
    "start refused 7",
    "start refused 8",
    "start refused 9",
    "a bad ninth division is 9",
    "a bad division before the ninth",
    "start refused, state and marks kept",
    "back to a mark from before a refused start",
    "start again, marks gone",
    "back to a name from before a start",
    "1 axis",
    "2 axes",
    "3 axes",
    "4 axes",
    "5 axes",
    "6 axes",
    "7 axes",
    "8 axes",
    "0 divisions",
    "1 division",
    "2 divisions",
    "3 divisions",
    "4 divisions",
    "5 divisions",
    "6 divisions",
    "7 divisions",
    "8 divisions",
    "start point",
    "start wide",
    "start with pivots",
    "add point",
    "add empty",
    "add wide",
    "add long",
    "add refused 7",
    "add refused 8",
    "add refused 10",
    "7 before 8",
    "7 before 10",
    "8 before 10",
    "48th rule",
    "10 while empty",
    "10 while wide",
    "10 while long",
    "counted while empty",
    "counted while wide",
    "counted while long",
    "7 or 8 while empty",
    "7 or 8 while wide",
    "7 or 8 while long",
    "equality, point",
    "equality, empty",
    "as given, not tightened",
    "no row replaced",
    "1 row replaced",
    "2 rows replaced",
    "3 rows replaced",
    "over 3 rows replaced",
    "division replaced",
    "a coefficient waits on",
    "reduced while a coefficient waits",
    "not wide since it is reduced",
    "not wide since the lowest is first",
    "wide since the lowest is first",
    "row at the bound",
    "settled row beyond the bound",
    "new row wide",
    "new row wide at a later replacement",
    "new row alone beyond the bound",
    "replaced row alone beyond the bound",
    "waiting coefficient alone beyond the bound",
    "new row carried, point",
    "new row carried, empty",
    "new row carried, long",
    "new row carried, wide",
    "new row carried, small again",
    "carried in the pivots, point",
    "carried in the pivots, empty",
    "wide in the pivots",
    "no pivot",
    "200 pivots, not long",
    "over 200 pivots together, point",
    "over 200 pivots with those of the start, point",
    "long after pivots of earlier additions",
    "mark point",
    "mark empty",
    "mark wide",
    "mark long",
    "mark of name 15",
    "mark over 15",
    "mark moved",
    "mark moved past another",
    "back point",
    "back empty",
    "back wide",
    "back long",
    "back over 15",
    "back never marked",
    "back forgotten",
    "back to the newest",
    "back to an older one",
    "back to a moved one",
    "back again",
    "forgotten since it was moved",
    "kept since another was moved",
    "the same rules again after going back",
    "another rule after going back",
];

/// A walk that is looked at call by call.
#[derive(Default)]
struct Walk {
    desk: Desk,
    /// The names marked since the start.
    used: BTreeSet<u64>,
    /// Those marked before the start.
    old: BTreeSet<u64>,
    /// Those marked when a later start was refused.
    spared: BTreeSet<u64>,
    /// Those moved.
    moved: BTreeSet<u64>,
    /// The marks of a wrong program: a used name keeps its place in time.
    unmoved: Vec<u64>,
    /// The last mark gone back to, as long as that name is not marked again.
    last_back: Option<u64>,
    /// The pivots of the start.
    started: u32,
    /// The pivots of all additions up to a state, by its rules.
    pivots: HashMap<Vec<Rule>, u32>,
}

pub fn count(call: &str, counts: &mut Counts) {
    let Some(steps) = call.strip_prefix("states ").and_then(read_walk) else { return };
    let mut walk = Walk::default();
    for step in &steps {
        let before = walk.desk.clone();
        let said = walk.desk.take(step);
        match step {
            Step::Start(n, divisions) => walk.count_start(*n, divisions, said, counts),
            Step::Add(rule) => walk.count_add(before.now.as_ref(), rule, said, counts),
            Step::Mark(name) => walk.count_mark(&before, *name, said, counts),
            Step::Back(name) => walk.count_back(&before, *name, said, counts),
        }
    }
}

/// Whether it is one of the marks.
fn is_marked(desk: &Desk, name: u64) -> bool {
    desk.marks.iter().any(|(used, _)| *used == name)
}

fn counted(count: usize, one: &str, more: &str) -> String {
    format!("{count} {}", if count == 1 { one } else { more })
}

impl Walk {
    fn count_start(&mut self, n: u8, divisions: &[Division], said: Said, counts: &mut Counts) {
        let over = divisions.len() > MAX_DIVISIONS;
        if let Err(number) = said {
            bump(counts, &format!("start refused {number}"));
            let good = |d: &Division| State::start(n, std::slice::from_ref(d)).is_ok();
            bump_if(counts, &[
                ("a bad ninth division is 9", number == refusal::TOO_MANY_GIVEN && !good(&divisions[MAX_DIVISIONS])),
                ("a bad division before the ninth", over && number != refusal::TOO_MANY_GIVEN && n > 0 && n < 9),
                ("start refused, state and marks kept", !self.desk.marks.is_empty()),
            ]);
            self.spared.extend(self.desk.marks.iter().map(|(name, _)| *name));
            return;
        }
        let state = self.desk.now.as_ref().expect("a state");
        bump(counts, &counted(state.n, "axis", "axes"));
        bump(counts, &counted(divisions.len(), "division", "divisions"));
        bump(counts, &format!("start {}", word(state.says)));
        let columns = &state.tableau.columns;
        let started = columns.iter().filter(|&&variable| variable >= columns.len()).count() as u32;
        bump_if(counts, &[("start with pivots", started > 0), ("start again, marks gone", !self.used.is_empty())]);
        let (old, desk) = (std::mem::take(&mut self.used), std::mem::take(&mut self.desk));
        *self = Walk { old, desk, started, ..Walk::default() };
    }

    fn count_add(&mut self, before: Option<&State>, rule: &Rule, said: Said, counts: &mut Counts) {
        let Some(before) = before else { return bump(counts, "add before a start") };
        let full = before.basic.rules.len() == MAX_RULES;
        let says = word(before.says);
        let point = before.says == Answer::Point;
        bump_if(counts, &[("48th rule", said.is_ok() && before.basic.rules.len() + 1 == MAX_RULES)]);
        match said {
            Err(refusal::TOO_MANY_RESULTING) if point => bump(counts, "add refused 10"),
            Err(refusal::TOO_MANY_RESULTING) => bump(counts, &format!("10 while {says}")),
            Err(number) => {
                bump(counts, &format!("add refused {number}"));
                let mut small = rule.clone();
                small.axes.iter_mut().chain(&mut small.divs).for_each(|k| *k %= 32_768);
                let eight = check_rule(before.n, &before.basic, &small) == Err(refusal::ABSENT_PLACE);
                bump_if(counts, &[
                    ("7 before 8", number == refusal::NUMBER_RANGE && eight),
                    (&format!("{number} before 10"), full),
                    (&format!("7 or 8 while {says}"), !point),
                ]);
            }
            Ok(_) if !point => bump(counts, &format!("counted while {says}")),
            Ok(_) => self.count_addition(before, rule, counts),
        }
    }

    /// A rule that goes into the tableau, or is too wide for it.
    fn count_addition(&mut self, before: &State, rule: &Rule, counts: &mut Counts) {
        let after = self.desk.now.as_ref().expect("a state");
        let made = additions::count(before, rule, counts);
        let earlier = self.pivots.get(&before.basic.rules).copied().unwrap_or(0);
        bump(counts, &format!("add {}", word(after.says)));
        let point = after.says == Answer::Point;
        let again = self.pivots.insert(after.basic.rules.clone(), earlier + made).is_some();
        bump_if(counts, &[
            ("over 200 pivots together, point", point && earlier + made > PIVOT_LIMIT),
            ("over 200 pivots with those of the start, point", point && made + self.started > PIVOT_LIMIT),
            ("long after pivots of earlier additions", earlier > 0 && after.says == Answer::Long),
            ("the same rules again after going back", again),
            ("another rule after going back", !again && self.last_back.is_some()),
        ]);
    }

    fn count_mark(&mut self, before: &Desk, name: u64, said: Said, counts: &mut Counts) {
        let started = before.now.is_some();
        let says = match said {
            Ok(Some(says)) => says,
            Ok(None) => return bump(counts, "mark before a start"),
            Err(_) => return bump(counts, if started { "mark over 15" } else { "name over 15 before a start" }),
        };
        let again = is_marked(before, name);
        let newest = before.marks.last().is_some_and(|(used, _)| *used == name);
        bump(counts, &format!("mark {}", word(says)));
        bump_if(counts, &[
            ("mark of name 15", name == LAST_NAME),
            ("mark moved", again),
            ("mark moved past another", again && !newest),
        ]);
        if again {
            self.moved.insert(name);
        } else {
            self.moved.remove(&name);
        }
        if !self.unmoved.contains(&name) {
            self.unmoved.push(name);
        }
        self.used.insert(name);
        self.spared.remove(&name);
        self.last_back = self.last_back.filter(|&last| last != name);
    }

    fn count_back(&mut self, before: &Desk, name: u64, said: Said, counts: &mut Counts) {
        let Ok(Some(says)) = said else { return self.count_back_refused(before, name, counts) };
        let newest = before.marks.last().is_some_and(|(used, _)| *used == name);
        bump(counts, &format!("back {}", word(says)));
        bump_if(counts, &[
            ("back to the newest", newest),
            ("back to an older one", !newest),
            ("back to a moved one", self.moved.contains(&name)),
            ("back to a mark from before a refused start", self.spared.contains(&name)),
            ("back again", self.last_back == Some(name)),
            ("kept since another was moved", !self.unmoved.contains(&name)),
        ]);
        if let Some(place) = self.unmoved.iter().position(|&used| used == name) {
            self.unmoved.truncate(place + 1);
        }
        self.last_back = Some(name);
    }

    fn count_back_refused(&mut self, before: &Desk, name: u64, counts: &mut Counts) {
        let used = self.used.contains(&name);
        bump_if(counts, &[
            ("back before a start", before.now.is_none()),
            ("back over 15", name > LAST_NAME),
            ("back never marked", name <= LAST_NAME && !used),
            ("back forgotten", used),
            ("back to a name from before a start", !used && self.old.contains(&name)),
            ("forgotten since it was moved", self.unmoved.contains(&name)),
        ]);
    }
}
