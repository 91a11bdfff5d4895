//! Names (000).
use super::view::{Span, View, NO_SPAN};
use originals::Record;
use std::collections::{BTreeMap, BTreeSet, HashMap, HashSet};
use std::hash::{DefaultHasher, Hash, Hasher};

/// A span and a name.
type Pair = (Span, u16);

#[derive(Clone, Copy, PartialEq, Eq, PartialOrd, Ord, Hash)]
enum Abort {
    None,
    Loop,
    Function,
}

#[derive(Clone, PartialEq)]
struct Standing {
    definitely: bool,
    spans: BTreeSet<Span>,
}

type Standings = BTreeMap<u16, Standing>;

#[derive(Clone, Copy, PartialEq, Hash)]
enum Sort {
    Load = 1,
    Assign = 2,
    Argument = 3,
}

struct Scope {
    cant_set: Vec<Pair>,
    unbound: Vec<Pair>,
    used: HashSet<Pair>,
    settings: Vec<(Pair, Sort)>,
    standings: Standings,
    abort: Abort,
}

struct Walk<'a> {
    view: &'a View,
    scopes: Vec<Scope>,
    warned: HashSet<Pair>,
    /// Of each pair the node that the walk uses or sets first: the one that its record has (02, §4).
    first: HashMap<Pair, usize>,
    out: Vec<Record>,
    /// Enclosing for statements, through defs too.
    loops: usize,
    /// What the walk met, for the choice of the recorded list; no rule looks at it.
    met: BTreeSet<u64>,
}

fn walked(view: &View) -> Walk<'_> {
    let (warned, first, met) = (HashSet::new(), HashMap::new(), BTreeSet::new());
    let mut walk = Walk { view, scopes: vec![], warned, first, out: vec![], loops: 0, met };
    walk.enter();
    walk.statement(0);
    walk.leave();
    walk
}

pub fn list(view: &View) -> Vec<Record> {
    walked(view).out
}

/// Which cases of the rules a tree comes to.
pub fn cases(view: &View) -> BTreeSet<u64> {
    walked(view).met
}

/// What holds of a name after a branch, an absent name counting as Maybe.
fn after(a: Option<&Standing>, aborts: [bool; 2], b: Option<&Standing>) -> Standing {
    let sure = |s: Option<&Standing>| s.is_some_and(|s| s.definitely);
    let definitely = match aborts {
        [true, true] => true,
        [true, false] => sure(b),
        [false, true] => sure(a),
        [false, false] => sure(a) && sure(b),
    };
    let spans = [a, b].into_iter().flatten().flat_map(|s| s.spans.iter().copied()).collect();
    Standing { definitely, spans }
}

impl Walk<'_> {
    fn scope(&mut self) -> &mut Scope {
        self.scopes.last_mut().expect("a scope is open")
    }

    fn meet(&mut self, case: impl Hash) {
        let mut hasher = DefaultHasher::new();
        case.hash(&mut hasher);
        self.met.insert(hasher.finish());
    }

    fn warn(&mut self, code: u32, pair: Pair) {
        let first = self.warned.insert(pair);
        self.meet(("warn", code, first));
        if first {
            self.out.push(self.view.record(code, self.first[&pair], pair.1, None, NO_SPAN));
        }
    }

    /// The pair of a node that is used or set now.
    fn pair(&mut self, i: usize) -> Pair {
        let pair = (self.view.span(i), self.view.value(i));
        self.first.entry(pair).or_insert(i);
        pair
    }

    fn enter(&mut self) {
        self.scopes.push(Scope {
            cant_set: vec![],
            unbound: vec![],
            used: HashSet::new(),
            settings: vec![],
            standings: BTreeMap::new(),
            abort: Abort::None,
        });
    }

    fn leave(&mut self) {
        let scope = self.scopes.pop().expect("a scope is open");
        let module = self.scopes.is_empty();
        let set: HashSet<u16> = scope.settings.iter().map(|s| s.0 .1).collect();
        for pair in &scope.cant_set {
            self.meet(("can't set", set.contains(&pair.1), module, scope.unbound.contains(pair)));
            if set.contains(&pair.1) {
                self.warn(4, *pair);
            }
        }
        let unbound: HashSet<u16> = scope.unbound.iter().map(|p| p.1).collect();
        for (pair, sort) in &scope.settings {
            let standing = scope.standings.get(&pair.1);
            let still = standing.is_some_and(|s| s.spans.contains(&pair.0));
            let underscore = self.view.table(pair.1).1[0] == b'_';
            let kept = module && *sort == Sort::Assign && !underscore && still;
            let hidden = !module && underscore;
            let used = scope.used.contains(pair);
            self.meet(("left", *sort, used, unbound.contains(&pair.1), still, underscore, module));
            if !used && !unbound.contains(&pair.1) && !kept && !hidden {
                self.warn(*sort as u32, *pair);
            }
        }
        for pair in &scope.unbound {
            let given = self.view.globals.as_ref().map(|g| g.contains(&pair.1));
            self.meet(("unbound", set.contains(&pair.1), module, given));
        }
        let passed = scope.unbound.into_iter().filter(|p| !set.contains(&p.1));
        if !module {
            self.scope().unbound.extend(passed);
        } else if let Some(globals) = &self.view.globals {
            passed
                .filter(|p| !globals.contains(&p.1))
                .collect::<Vec<_>>()
                .into_iter()
                .for_each(|p| self.warn(5, p));
        }
    }

    fn set(&mut self, i: usize, sort: Sort) {
        let pair = self.pair(i);
        let level = self.scopes.len().min(3);
        let before = self.scope().standings.get(&pair.1).map(|s| (s.definitely, s.spans.len().min(2)));
        self.meet(("set", sort, before, level));
        let scope = self.scope();
        scope.settings.push((pair, sort));
        scope.standings.insert(pair.1, Standing { definitely: true, spans: [pair.0].into() });
    }

    fn use_of(&mut self, i: usize) {
        let pair = self.pair(i);
        let at = self.scopes.iter().rev().position(|s| s.standings.contains_key(&pair.1));
        let level = self.scopes.len().min(4);
        let found = self.scopes.iter_mut().rev().find(|s| s.standings.contains_key(&pair.1));
        let standing = found.as_ref().map(|s| &s.standings[&pair.1]);
        let case = standing.map(|s| (s.definitely, s.spans.len().min(3)));
        let maybe = found.map(|scope| {
            let standing = &scope.standings[&pair.1];
            scope.used.extend(standing.spans.iter().map(|s| (*s, pair.1)));
            !standing.definitely
        });
        self.meet(("use", at, level, case));
        if !self.scope().standings.contains_key(&pair.1) {
            self.scope().cant_set.push(pair);
        }
        match maybe {
            Some(true) => self.warn(6, pair),
            Some(false) => {}
            None => self.scope().unbound.push(pair),
        }
    }

    fn branch(&mut self, one: impl Fn(&mut Self), two: impl Fn(&mut Self)) {
        let (standings, abort) = (self.scope().standings.clone(), self.scope().abort);
        one(self);
        let first = std::mem::replace(&mut self.scope().standings, standings);
        let first_abort = std::mem::replace(&mut self.scope().abort, abort);
        two(self);
        self.meet_branch(abort, &first, first_abort);
        let scope = self.scope();
        let aborts = [first_abort != Abort::None, scope.abort != Abort::None];
        let names: BTreeSet<u16> = first.keys().chain(scope.standings.keys()).copied().collect();
        scope.standings =
            names.into_iter().map(|n| (n, after(first.get(&n), aborts, scope.standings.get(&n)))).collect();
        scope.abort = first_abort.min(scope.abort);
    }

    fn meet_branch(&mut self, before: Abort, first: &Standings, first_abort: Abort) {
        let (second, second_abort) = (self.scope().standings.clone(), self.scope().abort);
        self.meet(("aborts", before, first_abort, second_abort));
        for name in first.keys().chain(second.keys()) {
            let sides = [first, &second].map(|s| s.get(name).map(|s| s.definitely));
            let same = first.get(name) == second.get(name);
            self.meet(("branch", sides, first_abort, second_abort, same));
        }
    }

    fn target_expressions(&mut self, target: usize) {
        self.view.expressions(target).into_iter().for_each(|x| self.expression(x));
    }

    fn assigned(&mut self, target: usize) {
        self.target_expressions(target);
        self.view.target_names(target).into_iter().for_each(|x| self.set(x, Sort::Assign));
    }

    fn parameter_expressions(&mut self, i: usize) {
        let parameters = self.view.with_role(i, 0);
        parameters.into_iter().for_each(|p| self.target_expressions(p));
    }

    fn set_parameters(&mut self, i: usize) {
        let named = self.view.with_role(i, 0).into_iter().filter(|p| self.view.kind(*p) == 43);
        named.collect::<Vec<_>>().into_iter().for_each(|p| self.set(p, Sort::Argument));
    }

    fn role(&mut self, i: usize, role: u8) {
        if let Some(x) = self.view.only(i, role) {
            self.expression(x);
        }
    }

    fn expression(&mut self, i: usize) {
        match self.view.kind(i) {
            20 => self.use_of(i),
            24 => {
                self.parameter_expressions(i);
                self.enter();
                self.set_parameters(i);
                self.role(i, 1);
                self.leave();
            }
            25 | 26 => self.comprehension(i),
            _ => self.target_expressions(i),
        }
    }

    fn comprehension(&mut self, i: usize) {
        let clauses = self.view.with_role(i, 0);
        self.role(clauses[0], 4);
        self.enter();
        self.assigned(self.view.one(clauses[0], 5));
        for clause in &clauses[1..] {
            self.role(*clause, 4);
            if let Some(target) = self.view.only(*clause, 5) {
                self.assigned(target);
            }
        }
        self.role(i, 8);
        self.role(i, 4);
        self.leave();
    }

    fn statement(&mut self, i: usize) {
        let view = self.view;
        match view.kind(i) {
            1 | 2 => self.scope().abort = Abort::Loop,
            4 => {
                self.role(i, 4);
                self.scope().abort = Abort::Function;
            }
            5 => {
                self.role(i, 4);
                if view.is_fail(i) {
                    self.scope().abort = Abort::Function;
                }
            }
            6 => {
                self.role(i, 3);
                self.role(i, 4);
                self.assigned(view.one(i, 5));
            }
            7 => {
                self.role(i, 4);
                let target = view.one(i, 5);
                self.target_expressions(target);
                view.target_names(target).into_iter().for_each(|x| self.use_of(x));
                self.assigned(target);
            }
            8 => view.children(i).into_iter().for_each(|x| self.statement(x)),
            9 => {
                self.role(i, 4);
                self.branch(|me| me.statement(view.one(i, 1)), |_| ());
            }
            10 => {
                self.role(i, 4);
                self.branch(|me| me.statement(view.one(i, 1)), |me| me.statement(view.one(i, 2)));
            }
            11 => self.looped(i),
            12 => {
                self.parameter_expressions(i);
                self.role(i, 3);
                self.set(view.one(i, 6), Sort::Assign);
                self.enter();
                self.set_parameters(i);
                self.statement(view.one(i, 1));
                self.leave();
            }
            13 => view.children(i).into_iter().for_each(|x| self.set(x, Sort::Load)),
            _ => {}
        }
    }

    fn looped(&mut self, i: usize) {
        let (target, body) = (self.view.one(i, 5), self.view.one(i, 1));
        self.role(i, 4);
        self.loops += 1;
        for _ in 0..if self.loops <= 5 { 2 } else { 1 } {
            self.branch(
                |me| {
                    me.assigned(target);
                    me.statement(body);
                },
                |_| (),
            );
            self.meet(("loop", self.loops.min(7), self.scopes.last().map(|s| s.abort)));
            if self.scope().abort == Abort::Loop {
                self.scope().abort = Abort::None;
            }
        }
        self.loops -= 1;
    }
}
