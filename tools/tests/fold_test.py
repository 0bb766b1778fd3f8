#!/usr/bin/env python3
"""Tries tools/fold.py on a small crate, of which it is known how it folds, and what cannot be folded.

    python3 tools/tests/fold_test.py
"""
import os
import subprocess
import sys
import tempfile

LONG = "a_" + "long_" * 12 + "name"
HUGE = "a_" + "very_" * 32 + "long_name"
BEFORE = f"""
-- {"some words " * 16}end
use Rattle.std.proofs.Common.{{{", ".join(f"imported_{at}" for at in range(12))}}}
use Rattle.low.proofs.Short as short

pub arrows : (n : ℕ) → {LONG} n → ({LONG} n → {LONG} n × n ≡ n) → {LONG} n → n
    × n
arrows n = let a = {LONG} n in let b = {LONG} (n + 1) in {LONG} a b

fields : Fields
fields = record {{ first = {LONG} 1; second = λ m. {LONG} m; third = (1, {LONG} 2) }}

cases : IsEven → ℕ
cases e = elim ({LONG} {LONG} e) [
  | inl x ↦ sym ({LONG} x) ∙ {LONG} (a b x) ∙ {LONG} (λ y. x + y)
  | inr (y, z) ↦ y
]

helped : ℕ
helped = step {LONG} refl
  where
    step : (n : ℕ) → n ≡ n
    step n = apart (({LONG} n {LONG}) ({LONG} n))

whole : ℕ
whole = {HUGE}
"""
AFTER = f"""
-- {" ".join(["some words"] * 14)}
-- some words some words end
use Rattle.std.proofs.Common.{{{", ".join(f"imported_{at}" for at in range(10))}}}
use Rattle.std.proofs.Common.{{imported_10, imported_11}}
use Rattle.low.proofs.Short as short

pub arrows : (n : ℕ) → {LONG} n
    → ({LONG} n → {LONG} n × n ≡ n)
    → {LONG} n → n × n
arrows n = let a = {LONG} n in
    let b = {LONG} (n + 1) in {LONG} a b

fields : Fields
fields = record {{
  first = {LONG} 1;
  second = λ m. {LONG} m;
  third = (1, {LONG} 2);
}}

cases : IsEven → ℕ
cases e = elim ({LONG} {LONG} e) [
  | inl x ↦ sym ({LONG} x)
      ∙ {LONG} (a b x)
      ∙ {LONG} (λ y. x + y)
  | inr (y, z) ↦ y
]

helped : ℕ
helped = step {LONG} refl
  where
    step : (n : ℕ) → n ≡ n
    step n = apart (({LONG} n {LONG})
        ({LONG} n))

whole : ℕ
whole = {HUGE}
"""
NAME = "crates/low/proofs/Long.antt"


def folded(top, text):
    """Returns the file after the tool, what the tool says, and its exit status."""
    for name, content in (("crates.txt", "low:\n"), ("crates/low/src/lib.rt", "//! A crate.\n"), (NAME, text)):
        os.makedirs(os.path.dirname(f"{top}/{name}") or top, exist_ok=True)
        with open(f"{top}/{name}", "w", encoding="utf-8") as it:
            it.write(content)
    tool = os.path.join(os.path.dirname(os.path.dirname(os.path.abspath(__file__))), "fold.py")
    run = subprocess.run([sys.executable, tool, "low"], cwd=top, capture_output=True, text=True, check=False)
    with open(f"{top}/{NAME}", encoding="utf-8") as it:
        return it.read(), run.stdout.strip(), run.returncode


def main():
    before, after = BEFORE.lstrip("\n"), AFTER.lstrip("\n")
    lines = after.split("\n")
    long = (f"{NAME}:{len(lines) - 1}: {len(lines[-2])} characters", 1)
    broken = before.replace("elim (", "elim f (")
    with tempfile.TemporaryDirectory() as top:
        found = folded(top, before)
        assert found == (after, *long), found
        found = folded(top, after)
        assert found == (after, *long), found
        found = folded(top, after.replace(HUGE, LONG))
        assert found[1:] == ("fold.py: no line is over 160 characters", 0), found
        found = folded(top, after + "\n-- a line\n" * 400)
        assert found[1].endswith(f"{NAME}: {len(lines) + 799} lines"), found[1]
        found = folded(top, broken)
        assert found[0] == broken and found[1].startswith("crates/low: put back:") and found[2] == 1, found
    print("fold_test.py: as known")


main()
