"""Tests of reached.py on a small tree: each name says by what it is reached, or that it isn't."""
import os
import tempfile

import reached

FILES = {
    "crates.txt": "low:\nmiddle: low\naire: middle\nsome_tests: low middle\n",
    "crates/low/src/lib.rt": "mod parts;\npub use parts::{handed_on, handed_on_and_left, unused, Kept, Double, Takes};\n",
    "crates/low/src/parts.rt": """
pub fn handed_on() -> u64 { of_its_file() }
pub fn of_its_file() -> u64 { 0 }
pub fn handed_on_and_left() -> u64 { 0 }
pub fn unused() -> u64 ensures { result ≡ handed_on_and_left } { alone() }
fn alone() -> u64 { 0 }
pub(crate) fn inner() -> u64 { 0 }
pub struct Kept { at: u64 }
impl Kept {
    pub fn new() -> Kept { Kept { at: 0 } }
    pub fn dotted(&self) -> u64 { self.at }
    pub fn undotted(&self) -> u64 { self.at }
}
pub trait Takes { fn taken(&self) -> u64; fn untaken(&self) -> u64; }
impl Takes for Kept {
    fn taken(&self) -> u64 { through_a_trait() }
    fn untaken(&self) -> u64 { through_nothing() }
}
pub fn through_a_trait() -> u64 { 0 }
pub fn through_nothing() -> u64 { 0 }
pub struct Double { at: u64 }
impl Double {
    pub fn for_tests() -> Double { Double { at: 0 } }
}
impl Takes for Double {
    fn taken(&self) -> u64 { through_a_double() }
    fn untaken(&self) -> u64 { 0 }
}
pub fn through_a_double() -> u64 { 0 }
pub const FROM_A_CONSTANT: u64 = in_a_constant();
pub const fn in_a_constant() -> u64 { 0 }
""",
    "crates/middle/src/lib.rt": """
pub use low::{handed_on as handed, handed_on_and_left};
use low::{Kept, Takes};
pub fn middle(kept: &Kept) -> u64
    requires at { kept.now.at ≡ low::parts::unused }
    ensures { result ≡ asked_in_a_contract kept }
{
    // commented_out()
    let text = "quoted_out()";
    let test = |n: u64| ensures { result ≡ asked_in_a_closure n } { n };
    kept.dotted() + kept.taken() + passed_on.map(as_a_value) + low::more::by_its_path()
}
pub fn asked_in_a_contract(kept: &Kept) -> u64 { 0 }
pub fn asked_in_a_closure(n: u64) -> u64 { n }
pub fn commented_out() -> u64 { 0 }
pub fn quoted_out() -> u64 { 0 }
pub fn as_a_value(n: u64) -> u64 { n }
""",
    "crates/low/src/more.rt": "pub fn by_its_path() -> u64 { crate::parts::FROM_A_CONSTANT }\n",
    "crates/aire/src/main.rt": """
use middle::{handed as given, middle};
use low::Kept;
fn main(rt: HostRuntime) -> ExitCode {
    given() + middle(&Kept::new())
}
""",
    "crates/some_tests/src/lib.rt": """
use low::{Double, unused};
#[test]
fn a_test() { unused(); Double::for_tests(); }
""",
}

# The public functions that `main` doesn't reach, and whether the test does.
WANTED = {
    "handed_on_and_left": False,
    "unused": True,
    "Kept::undotted": False,
    "Takes::untaken": False,
    "through_nothing": False,
    "Double::for_tests": True,
    "through_a_double": False,
    "asked_in_a_contract": False,
    "asked_in_a_closure": False,
    "commented_out": False,
    "quoted_out": False,
}


def faults():
    with tempfile.TemporaryDirectory() as top:
        for path, text in FILES.items():
            os.makedirs(os.path.dirname(f"{top}/{path}"), exist_ok=True)
            with open(f"{top}/{path}", "w", encoding="utf-8") as file:
                file.write(text)
        told, _ = reached.unreached(top)
    found = {name: is_of_tests for (_, name), is_of_tests in told.items()}
    for name in sorted(set(found) | set(WANTED)):
        if found.get(name) != WANTED.get(name):
            yield f"on a small tree {name} is {'unreached' if name in found else 'reached'}, and by tests {'too' if found.get(name) else 'not'}"
