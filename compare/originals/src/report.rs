//! The originals' warnings as document 01's records.
use crate::analysis::dubious::{self, Dubious};
use crate::analysis::flow::{self, FlowIssue};
use crate::analysis::incompatible::{self, Incompatibility};
use crate::analysis::names::{self, NameWarning};
use crate::analysis::types::{EvalSeverity, LintT, LintWarning};
use crate::codemap::Span;
use crate::syntax::AstModule;
use crate::tree::Tree;

const NONE: u16 = 65535;

/// Document 01's eight numbers, then the nodes that the first and the second span were read from
/// (02, §4). The Rust knows no nodes, but a span takes its node's number along.
pub type Record = [u32; 10];

fn record<T: LintWarning>(lint: &LintT<T>, code: u32, value: u16, more: &[Span]) -> Record {
    let disabled = matches!(code, 1 | 2 | 3 | 5 | 10 | 11);
    let wanted = if disabled { EvalSeverity::Disabled } else { EvalSeverity::Warning };
    assert!(lint.problem.severity() == wanted, "severity of code {code}");
    assert!(!lint.problem.to_string().is_empty());
    let Span { begin, end, at } = lint.location.span;
    let [second, third] = [0, 1].map(|i| more.get(i).map_or((0, 0), |s| (s.begin, s.end)));
    let second_at = more.first().map_or(NONE.into(), |s| s.at);
    [code, begin, end, value.into(), second.0, second.1, third.0, third.1, at, second_at]
}

/// The node that a printed expression stands for.
fn node(printed: &str) -> usize {
    printed.strip_prefix('#').expect("a node").parse().unwrap()
}

/// A def's, a use's or a setting's name as a value number.
struct Named<'a>(&'a Tree);

impl Named<'_> {
    fn names(&self, x: &LintT<NameWarning>) -> Record {
        let (code, name) = match &x.problem {
            NameWarning::UnusedLoad(s) => (1, s),
            NameWarning::UnusedAssign(s) => (2, s),
            NameWarning::UnusedArgument(s) => (3, s),
            NameWarning::UsingUnassigned(s) => (4, s),
            NameWarning::UsingUndefined(s) => (5, s),
            NameWarning::UsingMaybeUndefined(s) => (6, s),
        };
        record(x, code, self.0.name_number(name), &[])
    }

    fn flow(&self, x: &LintT<FlowIssue>) -> Record {
        match &x.problem {
            FlowIssue::MissingReturnExpression(s, def, reason) => {
                record(x, 7, self.0.name_number(s), &[def.span.0, reason.span.0])
            }
            FlowIssue::MissingReturn(s, reason) => record(x, 8, self.0.name_number(s), &[reason.span.0]),
            FlowIssue::Unreachable(_) => record(x, 9, NONE, &[]),
            FlowIssue::RedundantReturn => record(x, 10, NONE, &[]),
            FlowIssue::RedundantContinue => record(x, 11, NONE, &[]),
            FlowIssue::MisplacedLoad => record(x, 12, NONE, &[]),
            FlowIssue::NoEffect => record(x, 13, NONE, &[]),
        }
    }

    fn incompatible(&self, x: &LintT<Incompatibility>) -> Record {
        match &x.problem {
            Incompatibility::IncompatibleTypeCheck(whole, better) => {
                let name = match better.rsplit_once("type(").expect("a type call").1 {
                    "True)" => "bool",
                    "())" => "tuple",
                    "\"\")" => "str",
                    "[])" => "list",
                    "0)" => "int",
                    other => panic!("replacement {other}"),
                };
                let value = self.0.name_number(name);
                assert!(self.0.value_number(self.0.right(node(whole))) == value);
                record(x, 14, value, &[])
            }
            Incompatibility::DuplicateTopLevelAssign(s, first) => {
                record(x, 15, self.0.name_number(s), &[first.span])
            }
        }
    }

    fn dubious(&self, x: &LintT<Dubious>) -> Record {
        match &x.problem {
            Dubious::DuplicateKey(key, later) => record(x, 16, self.0.value_number(node(key)), &[later.span]),
            Dubious::IdentifierAsStatement(s) => record(x, 17, self.0.name_number(s), &[]),
        }
    }
}

/// How many warnings the named passes give over a valid tree file. No record is made: what is
/// measured is reading and the Rust. Panics on a file that isn't valid.
pub fn count(bytes: &[u8], passes: &[&str]) -> usize {
    let tree = Tree::read(bytes);
    let module = AstModule { root: tree.root() };
    let count = |pass: &&str| match *pass {
        "names" => names::lint(&module, tree.globals.as_ref()).len(),
        "flow" => flow::lint(&module).len(),
        "incompatible" => incompatible::lint(&module).len(),
        "dubious" => dubious::lint(&module).len(),
        other => panic!("no pass {other}"),
    };
    passes.iter().map(count).sum()
}

/// The records of names, flow, incompatible and dubious over a valid tree file,
/// each pass's in the Rust's order. Panics on a file that isn't valid.
pub fn records(bytes: &[u8]) -> [Vec<Record>; 4] {
    let tree = Tree::read(bytes);
    let module = AstModule { root: tree.root() };
    let by = Named(&tree);
    [
        names::lint(&module, tree.globals.as_ref()).iter().map(|x| by.names(x)).collect(),
        flow::lint(&module).iter().map(|x| by.flow(x)).collect(),
        incompatible::lint(&module).iter().map(|x| by.incompatible(x)).collect(),
        dubious::lint(&module).iter().map(|x| by.dubious(x)).collect(),
    ]
}
