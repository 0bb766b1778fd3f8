#!/usr/bin/env python3
"""Tries tools/dead.py on two small repositories, of which it is known what nothing cites, and what no code calls.

    python3 tools/tests/dead_test.py
"""
import os
import sys
import tempfile

sys.path.insert(0, os.path.dirname(os.path.dirname(os.path.abspath(__file__))))
from dead import dead, uncalled

FILES = {
    "crates/low/specs/Words.antt": """
use Rattle.std.specs.Prelude.{ℕ}

-- cited by a contract
abbrev pub size : ℕ → ℕ
size n = twice n

-- cited by `size` alone
abbrev pub twice : ℕ → ℕ
twice n = n + n

-- cited by a dead lemma alone
abbrev pub thrice : ℕ → ℕ
thrice n = n + twice n

-- cited by its constructor
pub data Kind : Type 0 where
  first : Kind
""",
    "crates/low/proofs/Lemmas.antt": """
use Rattle.low.specs.Words.{size, thrice, first}
use Rattle.low.specs.Words as W

-- only an import names it
pub imported : ℕ
imported = 0

pub dead_lemma : (n : ℕ) → thrice n ≡ thrice n
dead_lemma n = dead_lemma n

-- by a qualified name, in a list of lemmas, and by an attribute
pub qualified : W.Kind
qualified = first

pub listed : (n : ℕ) → size n ≡ size n
unfolding size
listed n = step n
  where
    step : (n : ℕ) → size n ≡ size n
    step n = refl

    spare : ℕ
    spare = 0

pub attribute : ℕ
attribute = zero

module _ (n : ℕ) (e : bound n) where
  open n use {H}

  pub of_section : ℕ
  of_section = n

  pub not_of_section : ℕ
  not_of_section = n

abbrev bound : ℕ → Type 0
bound n = n ≡ n
""",
    "crates/low/proofs/size/Answers.antt": """
use Rattle.low.proofs.Lemmas as L
use Rattle.low.proofs.Lemmas.{imported, listed, of_section}
use Rattle.low.proofs.size.Goals as goal

own : ℕ
own = of_section 0 refl

pub returns : goal.returns
returns c = grind (arith, listed, L.qualified, own)
""",
    "crates/low/proofs/Examples.antt": "example : ℕ\nexample = 0\n",
    "crates/low/src/lib.rt": """//! dead_lemma
ghost use Rattle.low.specs.Words.{size, thrice as unused};

#[tactic(auto, using(crate::proofs::Lemmas::attribute))]
pub fn f() -> u8
    ensures { result ≡ size 1 }
""",
}
# a small repository with calls, of which each that no code calls is named so
CALLS = {
    "crates.txt": "low:\nlink_tests: low\nlow_tests: low\nsctp_delivery: low\n",
    "docs/surface.txt": "# names\nlow\n    fixed(u8) -> u8\nlow::Host\n    listed(&self) -> u8\n",
    "crates/low/src/lib.rt": """
pub struct Host {
    held: u8,
}

impl Host {
    pub fn new() -> Host {
        Host { held: 0 }
    }

    /// `Host::uncalled_method` is only named.
    pub fn called(&self) -> u8 {
        self.own()
    }

    pub(crate) fn own(&self) -> u8 {
        self.held
    }

    pub fn uncalled_method(&self) -> u8 {
        self.called()
    }

    pub fn listed(&self) -> u8 {
        0
    }

    pub fn as_value(&self) -> u8 {
        0
    }
}

impl Clone for Host {
    fn clone(&self) -> Host {
        Host::new()
    }
}

pub fn fixed(at: u8) -> u8 {
    at
}

pub fn at_root(at: u8) -> u8 {
    at
}

/// Calls itself.
pub fn uncalled_function(at: u8) -> u8
    ensures same { at_most result at }
{
    uncalled_function(at)
}

#[test]
fn tests() {
    uncalled_function(0);
}
""",
    "crates/low/src/laws.rt": "pub fn holds(at: u8)\n    ensures { true }\n{\n}\n",
    "crates/link_tests/src/callers.rt": """
use low::Host;

pub fn example(host: &Host) -> u8 {
    host.called() + low::at_root(0) + apply(Host::as_value, "Host::uncalled_method")
}
""",
    "crates/sctp_delivery/src/lib.rt": "pub fn step(at: u8) -> u8 {\n    at\n}\n",
    "crates/low_tests/src/lib.rt": "pub fn tried(host: &Host) -> u8 {\n    host.uncalled_method()\n}\n",
}


def write(top, files):
    for path, text in files.items():
        os.makedirs(os.path.dirname(f"{top}/{path}"), exist_ok=True)
        with open(f"{top}/{path}", "w", encoding="utf-8") as it:
            it.write(text.lstrip("\n"))


def calls():
    """Returns the names of the uncalled ones, and how many are left out."""
    before = os.getcwd()
    with tempfile.TemporaryDirectory() as top:
        write(top, CALLS)
        os.chdir(top)
        try:
            found, exempt = uncalled()
        finally:
            os.chdir(before)
    return {it.title() for it in found}, sorted(it for it in exempt.values() if it)


def main():
    with tempfile.TemporaryDirectory() as top:
        write(top, FILES)
        found = {it.name: it.end - it.begin for it in dead(top)}
    assert found == {"thrice": 2, "imported": 2, "dead_lemma": 2, "spare": 2, "not_of_section": 2}, found
    found = calls()
    assert found == ({"low::Host::uncalled_method", "low::uncalled_function"}, [1, 1, 2]), found
    print("dead_test.py: as known")


main()
