#!/usr/bin/env python3
"""Tests of what tools/believed.py reads: python3 tools/test_believed.py"""
import os
import sys
import unittest

sys.path.insert(0, os.path.dirname(os.path.abspath(__file__)))
import antt
import believed
import rattle

SPEC = """-- A head.
use Lib.Numbers.{ℕ, zero, suc, ◌+◌, ◌≡◌, refl, List, [], ◌∷◌, Bool, true}
use Lib.Words as W

-- what is read
pub data Got (A : Type 0) : Type 0 where
  got seen : A → ℕ → Got A  -- a comment
  bad : Got A

pub record Codec (A : Type 0) : Type 1 where
  pub read : ℕ → Got A
  pub right : (x : A) → read 0 ≡ got x 0

module _ {A : Type 0} (C : Codec A) where
  -- twice
  abbrev pub twice : ℕ → Got A
  twice n = go (C.read n)
    where
      go : Got A → Got A
      go (got v m) = C.read (m + n)
      go bad = bad

infixr 40 ◌⊗◌
unfoldable pub ◌⊗◌ : ℕ → ℕ → ℕ
m ⊗ n = elim m [ zero ↦ n | suc refl' ↦ suc refl' + n ]

pub twice_lem : {A : Type 0} (C : Codec A) (n : ℕ) → twice C n ≡ bad → W.Never (λ zero_of. zero_of ⊗ n)
unfolding twice
twice_lem C n e = W.never refl

abbrev pub shadow : List ℕ → ℕ → ℕ
shadow [] twice = twice
shadow (x ∷ xs) twice = let shadowed : ℕ = x + (W.found xs).sum in shadow xs shadowed
"""

SOURCE = """// Head.
ghost use Rattle.x.specs.A.{◌≡◌, Good, one as uno};

use other::{Kind, deep::{Thing, put}};

// A kind.
#[derive(Clone)]
pub enum Answer { Good(Thing), Bad { at: usize }, None }

pub mod laws {
    // The law.
    pub fn holds()
        ensures { Good uno }
    {}
}

impl<const N: usize> Kind<N> {
    pub fn told(&self, list: &mut [u8; 4], other: (u8, u8)) -> [u8; 4]
        requires few { list.old ≡ uno }
        ensures { result ≡ uno }
    {
        [0; 4]
    }
}
"""


def example():
    file = antt.File("Rattle.x.specs.A", "A.antt", SPEC)
    antt.declare(file)
    antt.resolve(file, lambda module, name: name in antt.STD_CONSTRUCTORS)
    return file


class Antt(unittest.TestCase):
    def setUp(self):
        self.file = example()

    def names(self, item):
        return {name for _, name in self.file.by_name[item].uses}

    def test_items_and_lines(self):
        spans = {i.name: (i.first, i.last, i.kind) for i in self.file.items}
        self.assertEqual(spans["Got"], (5, 8, "data"))
        self.assertEqual(spans["Codec"], (10, 12, "record"))
        self.assertEqual(spans["twice"], (15, 21, "abbrev"))
        self.assertEqual(spans["◌⊗◌"], (23, 25, "unfoldable"))
        self.assertEqual(spans["twice_lem"][2], "plain")
        self.assertEqual([(h.first, h.last) for h in self.file.headers], [(14, 14)])

    def test_names_resolve(self):
        self.assertEqual([(i.name, i.unresolved) for i in self.file.items if i.unresolved], [])

    def test_scopes(self):
        self.assertEqual(self.names("twice"), {"ℕ", "Got", "Codec", "got", "bad", "◌+◌"})
        self.assertEqual(self.names("◌⊗◌"), {"ℕ", "zero", "suc", "◌+◌"})
        self.assertEqual(self.names("shadow"), {"List", "ℕ", "[]", "◌∷◌", "◌+◌", "found"})

    def test_modules_and_unfolding(self):
        lemma = self.file.by_name["twice_lem"]
        self.assertIn(("Lib.Words", "Never"), lemma.uses)
        self.assertIn((self.file.module, "◌⊗◌"), lemma.uses)
        self.assertEqual(lemma.unfolds, {"twice"})

    def test_codomain(self):
        self.assertEqual(believed.codomain("( x : A → B ) → C → D ( e → f )"), "D ( e → f )")


class Rattle(unittest.TestCase):
    def setUp(self):
        self.source = rattle.Source("x", [], "src/lib.rt", SOURCE)

    def test_functions(self):
        holds, told = self.source.functions
        self.assertEqual((holds.path, holds.parameters, holds.public), ("x::laws::holds", [], True))
        self.assertEqual((holds.first, holds.last), (11, 13))
        self.assertEqual((told.path, told.parameters), ("x::Kind::told", ["self", "list", "other"]))
        self.assertEqual([(c.word, c.name) for c in told.clauses], [("requires", "few"), ("ensures", None)])

    def test_imports(self):
        self.assertEqual(self.source.ghost_imports["uno"].name, "one")
        self.assertEqual(self.source.uses["Thing"], "other::deep::Thing")

    def test_types(self):
        answer = self.source.types[0]
        self.assertEqual((answer.first, answer.last), (6, 8))
        self.assertEqual(answer.variants, {"Good", "Bad", "None"})
        self.assertIn("Thing", answer.parts)
        self.assertNotIn("Good", answer.parts)


if __name__ == "__main__":
    unittest.main()
