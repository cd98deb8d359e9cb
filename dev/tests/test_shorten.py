"""dev/bench/shorten: texts of proofs as it reads them, what counts as cited, and runs over a crate of a few lines."""

from __future__ import annotations

import os
import shutil
import signal
import subprocess
import sys
import time
from pathlib import Path

from testing import PATIENCE, TOP, FolderTest, long_test, need_commands, run

from proof_stages import (  # noqa: E402
    Trial, cited_words, copy_lines, held_of, lemmas_cited, trials_of, with_copies, without, without_lets)
from proof_units import (  # noqa: E402
    Declaration, add_import, arguments_of, declarations_of, drop_imports, imports_of, is_narrow, patterns_of, types_of,
    with_joined_imports)
from proof_workshop import Outcome  # noqa: E402

COMMON = "Rattle.std.proofs.Common"
TEXT = """-- Numbers.
use Rattle.std.proofs.Common.{◌≡◌, ℕ, refl}
use Rattle.low.proofs.Sums.{sum_is,
    other}

record Pair : Type 0 where
  pub left : ℕ

-- a sum
-- on two lines
pub first : (a b : ℕ) {c : ℕ} → a ≡ b
    → b ≡ c → a ≡ c
first a _ {c} e f =
    let h : a ≡ b = e in
    let unused = f in
    sum_is h
  where
    inner : ℕ → ℕ
    inner zero = 0
    inner (suc n) = n

module _ (n : ℕ) where
  second : (k : ℕ) → Pair → ℕ × ℕ → k ≡ k
  unfolding wide
  second zero p q = refl
  -- the other case
  second (suc k) p q = record {
    a = first;
  }

  third : ℕ
  third = 4 -- first
"""


def trial_of(declaration: Declaration, body: list[str]) -> Trial:
    return Trial(declaration, "cc", body, body)


class Texts(FolderTest):
    def test_declarations_and_their_places(self) -> None:
        found = declarations_of(TEXT)
        self.assertEqual([(each.name, each.size, each.is_inner) for each in found],
                         [("first", 8, False), ("inner", 2, True), ("second", 5, False), ("third", 1, False)])
        first, _, second, _ = found
        self.assertEqual(first.lines[first.comment], "-- a sum")
        self.assertEqual(first.signature, "(a b : ℕ) {c : ℕ} → a ≡ b → b ≡ c → a ≡ c")
        self.assertEqual(second.equations[-1], "  }")

    def test_types(self) -> None:
        found, = types_of(TEXT)
        self.assertEqual((found.name, found.lines[found.first : found.end][1:]), ("Pair", ["  pub left : ℕ"]))

    def test_names_for_the_arguments(self) -> None:
        first, inner, second, third = declarations_of(TEXT)
        self.assertEqual(patterns_of(first), "a b {c} e f")
        self.assertEqual(patterns_of(inner), "h")
        self.assertEqual(patterns_of(second), "k h l")
        self.assertEqual(patterns_of(third), "")
        signature = "{A : Type 0} (x y : A) → (x : A) × P x → (n : ℕ) → ((k : ℕ) → A) → A"
        self.assertEqual(arguments_of(signature), ["x", "y", "", "n", ""])

    def test_imports(self) -> None:
        self.assertEqual(imports_of(TEXT)["other"], "Rattle.low.proofs.Sums")
        longer = add_import(TEXT, COMMON, "arith")
        self.assertIn("use Rattle.std.proofs.Common.{◌≡◌, ℕ, refl, arith}\n", longer)
        self.assertEqual(add_import(longer, COMMON, "arith"), longer)
        self.assertEqual(drop_imports(longer, ["arith", "refl"]), TEXT)
        self.assertNotIn("Sums", drop_imports(TEXT.replace("sum_is h", "h"), ["sum_is", "other"]))
        self.assertIn("    other}\nuse New.{a}\n", add_import(TEXT, "New", "a"))
        text = "use M.{◌<◌, ◌|◌by◌}\na = b < c | d\n"
        self.assertEqual(drop_imports(text, ["<", "by"]), text.replace(", ◌|◌by◌", ""))

    def test_imports_of_several_modules_on_one_line(self) -> None:
        text = "use L.{M.a, deep.N.b as c, ◌+◌}\nd = a + c\n"
        self.assertEqual(imports_of(text), {"a": "L.M", "c": "L.deep.N", "◌+◌": "L"})
        thinner = text.replace("a + c", "a + 1")
        self.assertEqual(drop_imports(thinner, ["a", "c"]), thinner.replace(", deep.N.b as c", ""))

    def test_imports_of_one_module_become_one_of_few_columns(self) -> None:
        names = [f"name_{number}" for number in range(20)]
        text = "".join(f"use M.{{{name}}}\n" for name in names) + "pub use M.{passed_on}\n"
        joined = with_joined_imports(text)
        self.assertEqual(joined.count("\n"), 3)
        self.assertTrue(is_narrow(joined))
        self.assertEqual(imports_of(joined), imports_of(text))

    def test_what_goes_takes_its_comment_and_its_imports_along(self) -> None:
        thinner = without(TEXT, declarations_of(TEXT)[:1])
        for word in ("a sum", "two lines", "sum_is", "inner"):
            self.assertNotIn(word, thinner)
        self.assertIn("  pub left : ℕ\n\nmodule _", thinner)


class Trials(FolderTest):
    def test_copies_stand_behind_their_declarations(self) -> None:
        first, _, second, _ = declarations_of(TEXT)
        trials = [trial_of(first, ["first a b e f = cc"]), trial_of(second, ["  second k h l = cc"])]
        lines, placed = with_copies(TEXT.split("\n"), trials)
        self.assertEqual(lines[placed[0].first - 1 : placed[0].last],
                         ["try0_first : (a b : ℕ) {c : ℕ} → a ≡ b", "    → b ≡ c → a ≡ c", "try0_first a b e f = cc"])
        self.assertEqual(lines[placed[1].first : placed[1].last], ["  unfolding wide", "  try0_second k h l = cc"])
        self.assertEqual([line for line in lines if "try" not in line and line in TEXT.split("\n")][0], "-- Numbers.")

    def test_an_inner_one_is_tried_in_a_copy_of_the_outer_one(self) -> None:
        first, inner, *_ = declarations_of(TEXT)
        trial, = trials_of(first, inner, iter([("search arith", True)]), 500)
        self.assertEqual(trial.declaration, first)
        self.assertEqual(trial.tried[-2:], ["    inner : ℕ → ℕ", "    inner h = search arith steps 500"])
        self.assertEqual(trial.body, [*trial.tried[:-1], "    inner h = search arith"])

    def test_every_equation_of_a_copy_has_its_name(self) -> None:
        second = declarations_of(TEXT)[2]
        copy = copy_lines(trial_of(second, second.equations), 3)
        self.assertEqual(sum("try3_second" in line for line in copy), 3)

    def test_lets_that_nothing_cites(self) -> None:
        first = declarations_of(TEXT)[0]
        self.assertEqual([len(first.equations) - len(body) for body in without_lets(first)], [1])
        self.assertNotIn("unused", "\n".join(next(without_lets(first))))

    def test_lemmas_that_a_body_cites(self) -> None:
        first, _, second, _ = declarations_of(TEXT)
        self.assertEqual(lemmas_cited(first, imports_of(TEXT), set(), set()), ["sum_is"])
        self.assertEqual(lemmas_cited(first, imports_of(TEXT), set(), {"sum_is"}), [])
        self.assertEqual(lemmas_cited(second, imports_of(TEXT), {"first"}, set()), ["first"])

    def test_the_first_body_that_was_not_refused(self) -> None:
        first = declarations_of(TEXT)[0]
        path = Path("proofs/A.antt")
        trials = [Trial(first, kind, [], [], 10 * number, 10 * number + 5) for number, kind in enumerate("abcd", 1)]
        told = "proofs/A.antt:12:3: error: no\n./proofs/A.antt:22:1: note: `search` has chosen a term\n"
        held = held_of({path: trials}, Outcome(1, told, 0.0))
        self.assertEqual(held[path, first.first].kind, "c")
        self.assertFalse(Outcome(0, "logic=not-proved\n", 0.0).is_proved)
        self.assertTrue(Outcome(0, "logic=proved functions=1\n", 0.0).is_proved)


class Cited(FolderTest):
    def test_what_counts(self) -> None:
        files = {
            "crates/low/proofs/A.antt": "use M.{imported}\nuse M.{old as new}\na : ℕ\na = said -- remarked\n",
            "crates/low/proofs/CallerLemmas.antt": "pub use Rattle.low.proofs.A.{passed_on,\n    too}\n",
            "crates/low/out/proofs/B.antt": "b = built\n",
            "crates/high/src/lib.rt": "#[tactic(auto, using(crate::proofs::A::handed))]\n",
            "crates/high/proofs/C.antt": "use Rattle.low.proofs.CallerLemmas.{asked_for}\n",
            "crates/high/must-fail/a.edit": "planted\n",
            "docs/PROOFS.md": "Plain words, and `A.documented`.\n"}
        for name, text in files.items():
            (self.folder / name).parent.mkdir(parents=True, exist_ok=True)
            (self.folder / name).write_text(text)
        words = cited_words(self.folder, "low")
        for word in ("said", "old", "passed_on", "too", "handed", "asked_for", "planted", "documented"):
            self.assertEqual(words[word], 1, word)
        for word in ("imported", "remarked", "built", "Plain"):
            self.assertEqual(words[word], 0, word)


NUMBERS = """-- Lemmas of a crate that is tried.
use Rattle.std.proofs.Common.{◌≡◌, ◌+◌, ◌≤◌, ◌∙◌, ℕ, arith, refl, ap}

-- a sum in three steps
pub kept : (a b c : ℕ) → a ≡ b → b ≡ c → a + 1 ≡ c + 1
kept a b c e f =
    let g : a ≡ c = e ∙ f in
    ap (λ (n : ℕ). n + 1) g

-- what nothing cites
pub idle : (a : ℕ) → a ≤ a + 1
idle a = omega arith

pub record Idle : Type 0 where
  pub one : ℕ
"""

TWICE = """//! A crate with two functions.
#![tactic(auto)]

ghost use Rattle.std.specs.Prelude.{◌+◌, ◌≡◌};
ghost use Rattle.tiny.specs.Twice.{twice};

/// A number as it is given.
pub fn same(n: u64) -> u64
ensures { result ≡ n }
{
    n
}

/// A number, of which twice is the sum with itself.
pub fn given(n: u64) -> u64
ensures { twice result ≡ n + n }
{
    n
}
"""

TWICE_SPEC = """-- Twice a number.
use Rattle.std.specs.Prelude.{ℕ, zero, suc}

unfoldable pub twice : ℕ → ℕ
twice zero = zero
twice (suc n) = suc (suc (twice n))
"""

TWICE_LEMMA = """use Rattle.std.proofs.Common.{◌≡◌, ◌+◌, ℕ, zero, suc, arith, refl}
use Rattle.tiny.specs.Twice.{twice}

pub is_sum : (n : ℕ) → twice n ≡ n + n
unfolding twice
is_sum zero = refl
is_sum (suc n) = omega (arith, is_sum n)
"""

ANSWERS = """use Rattle.{module}.{{{lemma}}}
use Rattle.tiny.proofs.{function}.Goals as goal

pub returns : goal.returns
returns c = {lemma}{argument}
"""


class Crates(FolderTest):
    """A crate of a few lines, in a repository of its own."""

    def setUp(self) -> None:
        super().setUp()
        need_commands("rt")
        for name in ("shorten", "proof_units.py", "proof_stages.py", "proof_workshop.py"):
            self.write(f"dev/bench/{name}", (TOP / "dev/bench" / name).read_text())
        self.write("crates.txt", "tiny:\n")
        self.write("crates/tiny/src/lib.rt", "//! A crate that is tried.\n#![tactic(auto)]\n")
        self.write("crates/tiny/specs/Lib.antt", "")
        self.write("crates/tiny/proofs/Lib.antt", "pub mod CallerLemmas\npub mod Numbers\n")
        self.write("crates/tiny/proofs/CallerLemmas.antt", "pub use Rattle.tiny.proofs.Numbers.{kept}\n")
        self.write("crates/tiny/proofs/Numbers.antt", NUMBERS)
        self.words = [sys.executable, str(self.folder / "dev/bench/shorten")]
        self.proofs = self.folder / "crates/tiny/proofs/Numbers.antt"

    def write(self, name: str, text: str) -> None:
        path = self.folder / name
        path.parent.mkdir(parents=True, exist_ok=True)
        path.write_text(text)

    def left_over(self) -> list[Path]:
        return list((self.folder / "crates/tiny/out").glob("shorten.*"))

    @long_test
    def test_a_lemma_gets_shorter_and_an_idle_one_goes(self) -> None:
        done = run(*self.words, "tiny")
        text = self.proofs.read_text()
        signature = "pub kept : (a b c : ℕ) → a ≡ b → b ≡ c → a + 1 ≡ c + 1"
        self.assertIn(f"-- a sum in three steps\n{signature}\nkept a b c e f = ", text)
        for word in ("idle", "nothing cites", "Idle", "try0", "steps 30000", "◌≤◌"):
            self.assertNotIn(word, text)
        self.assertRegex(done.stdout.decode(), r"tiny: 9 of 18 lines went, 50\.0 %")
        self.assertEqual(self.left_over(), [])
        again = run(*self.words, "--stages", "lu", "tiny", status=1)
        self.assertIn(b"tiny: 0 of 9 lines went", again.stdout)
        self.assertEqual(self.proofs.read_text(), text)

    @long_test
    def test_an_answer_that_the_search_finds_goes(self) -> None:
        shutil.rmtree(self.folder / "crates/tiny")
        needed = ANSWERS.format(module="tiny.proofs.Numbers", lemma="is_sum", function="given", argument=" c.args.n")
        idle = ANSWERS.format(module="std.proofs.Common", lemma="refl", function="same", argument="")
        self.write("crates/tiny/src/lib.rt", TWICE)
        self.write("crates/tiny/specs/Lib.antt", "pub mod Twice\n")
        self.write("crates/tiny/specs/Twice.antt", TWICE_SPEC)
        self.write("crates/tiny/proofs/Lib.antt", "pub mod Numbers\n")
        self.write("crates/tiny/proofs/Numbers.antt", TWICE_LEMMA)
        self.write("crates/tiny/proofs/given/Answers.antt", needed)
        self.write("crates/tiny/proofs/same/Answers.antt", idle)
        done = run(*self.words, "--quick", "--stages", "a", "tiny")
        self.assertIn(b"1 of 2 answers are not needed", done.stderr)
        self.assertEqual((self.folder / "crates/tiny/proofs/given/Answers.antt").read_text(), needed)
        self.assertFalse((self.folder / "crates/tiny/proofs/same").exists())

    def test_a_crate_that_is_not_proved_stays(self) -> None:
        wrong = NUMBERS.replace("a ≤ a + 1", "a + 1 ≤ a")
        self.proofs.write_text(wrong)
        done = run(*self.words, "tiny", status=2)
        self.assertIn(b"crates/tiny is not proved as it stands", done.stderr)
        self.assertEqual(self.proofs.read_text(), wrong)

    def test_an_interrupted_run_leaves_the_crate(self) -> None:
        process = subprocess.Popen([*self.words, "tiny"], stdout=subprocess.DEVNULL, stderr=subprocess.PIPE)
        while not self.left_over() and process.poll() is None:
            time.sleep(0.05)
        time.sleep(0.5)
        process.send_signal(signal.SIGTERM)
        told = process.communicate(timeout=PATIENCE)[1]
        self.assertEqual((process.returncode, self.proofs.read_text()), (130, NUMBERS), told)
        self.assertEqual(self.left_over(), [])

    def test_words_without_a_form(self) -> None:
        run(*self.words, status=2)
        run(*self.words, "--stages", "x", "tiny", status=2)
        self.assertIn(b"crates/none is no crate with proofs", run(*self.words, "none", status=2).stderr)
        self.assertNotIn(b"Traceback", run(*self.words, "tiny", status=2, PATH=os.defpath).stderr)
