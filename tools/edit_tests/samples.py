"""What several tests of ./edits look at: a small crate, what a check says of functions, and an edit in few words."""
from edit_files import parse_edit

SOURCE = """//! Small functions.
#![tactic(auto)]
ghost use Rattle.std.specs.Prelude.{◌≡◌, ◌≤◌, ◌<◌, ◌+◌};
ghost use Rattle.tiny.specs.Laws.{LeastIsSmall};

/// One more.
pub fn one_more(n: u64) -> u64
    requires { n < 100 }
    ensures { result ≡ n + 1 }
{
    n + 1
}

/// Two more.
pub fn two_more(n: u64) -> u64
    requires { n < 90 }
    ensures { result ≡ n + 2 }
{
    one_more(one_more(n))
}

/// A small number.
pub fn small() -> u64
    ensures { result ≤ 10 }
{
    3
}

/// A number, cut at ten.
pub fn cut(n: u64) -> u64
    ensures { result ≤ 10 }
{
    if n < 10 {
        n
    } else {
        10
    }
}

/// A thing.
#[derive(Drop)]
pub struct Thing;

/// What has a size.
pub trait Sized {
    /// Its size.
    fn size(&self) -> u64
        ensures { result ≤ 10 };
}

impl Sized for Thing {
    fn size(&self) -> u64 {
        7
    }
}

/// The least number is small.
pub fn least_is_small()
    ensures { LeastIsSmall }
{}
"""

OUTPUT = """./proofs/a/first/Answers.antt:9:4: error: `returns`: `omega`: the goal does not follow
  a line below
./proofs/a/third/Answers.antt:5:4: error: `goal.returns-x` is not in scope
./proofs/a/third/Answers.antt:7:4: error: `returns`: record `View` (nearest: .else-x)
  has no field `if-x`
note: src/a.rt:7:1: it is not proved that what the function ensures holds (`returns`)
fn tiny::a::first: not proved
fn tiny::a::second: no proof: it calls `tiny::a::first`, which is not proved
fn tiny::a::third: not proved
fn tiny::a::fourth: proved
only=4 proved=1
"""


def edit_of(name, old, new, file="src/lib.rt"):
    return parse_edit("tiny", name, f"file: {file}\nold: {old}\nnew: {new}\n")
