#!/usr/bin/env python3
"""Tests of scripts/house, the reading of .antt and .rt, on a made-up tree. Usage: scripts/tests/house.py"""
import os
import sys
import unittest

sys.dont_write_bytecode = True
sys.path.insert(0, os.path.join(os.path.dirname(os.path.abspath(__file__)), ".."))
import house
from made_up import Tree

FILES = {
    "crates.txt": "low:\nterm: low\nterm_up: low term\n",
    "crates/low/src/lib.rt": """// Low.

// What is answered.
pub enum Answer {
    Found(usize, Place), // a comment
    None,
}

pub struct Place {
    pub at: [u64; 2],
}
""",
    "crates/low/specs/Lib.antt": "-- Low.\npub mod Lists\npub mod Facade\npub mod Deep\nmod Hidden\n",
    "crates/low/specs/Lists.antt": """-- Lists: a header, which belongs to no definition.
use Rattle.std.specs.Prelude.{ℕ, zero, suc}
use Rattle.std.specs.Prelude.{◌≡◌}

infixr 50 ◌⊕◌

-- The sum.
-- In two lines.
unfoldable pub ◌⊕◌ : ℕ → ℕ → ℕ
zero ⊕ n = n
(suc m) ⊕ n = suc (m ⊕ n)

-- A choice.
abbrev pub if◌then◌else◌ : ℕ → ℕ → ℕ → ℕ
if b then x else y = x ⊕ y

data Hue : Type 0 where
  red : Hue
  blue : Hue

-- A pair.
pub record Pair (A : Type 0) : Type 0 where
  -- its left
  pub left : A
  pub right : (left : A) → Hue → A

secret : ℕ
secret = 7

mutual
  pub even : ℕ → Hue
  even zero = red
  even (suc n) = odd n

  pub odd : ℕ → Hue
  odd zero = blue
  odd (suc n) = even n
""",
    "crates/low/specs/Facade.antt": """pub use Rattle.low.specs.Lists.{Pair, red as crimson}
use Rattle.low.specs.Lists.{secret}
""",
    "crates/low/specs/Deep.antt": """pub mod Below
pub use Below.*
use Below.{deepest as own}
use Rattle.low.specs as low
use low.Lists.{Hue}

by-child : Hue
by-child = own Below.value low.Lists.secret
""",
    "crates/low/specs/Deep/Below.antt": "pub deepest : ℕ\ndeepest = 1\n\npub value : ℕ\nvalue = 2\n",
    "crates/low/specs/Hidden.antt": "pub hidden : ℕ\nhidden = 1\n",
    "crates/term/src/lib.rt": """// Terms.
ghost use Rattle.std.specs.Prelude.{◌≡◌};
ghost use Rattle.term.specs.Uses.{
  plus, // a comment
  chosen as picked,
};
use low::Answer;
pub mod calls; // calls.rt
mod inner; // inner.rt

// The sum, with `picked` in a comment.
#[no_mangle]
pub extern "C" fn sum(m: u64, plus: u64) -> Answer
    requires { m ≡ picked }
    ensures { plus ≡ m }
{
    let inner = m;
}

fn unseen() -> u64 {
    0
}
""",
    "crates/term/src/calls.rt": """ghost use Rattle.term.specs.Uses.{plus};
pub fn call() -> u64
    ensures { plus result }
{
    0
}
""",
    "crates/term/src/inner.rt": "pub fn kept() -> u64 {\n    0\n}\n",
    "crates/term/specs/Lib.antt": "pub mod Uses\n",
    "crates/term/specs/Uses.antt": """use Rattle.std.specs.Prelude.{◌≡◌}
use Rattle.low.specs.Lists.{◌⊕◌, if◌then◌else◌ as choose◌by◌or◌, Pair as Two, Hue, red, blue as azure, even}
use Rattle.low.specs.Facade as facade
use Rattle.low.specs.Deep.{deepest, Below.value as inner}
use Rattle.low.specs.declared.Answer.{Answer}
use Rattle.low.specs.declared.Answer.TheVariants.{Found as found}

plus : ℕ → ℕ
plus n = n ⊕ 1

renamed : ℕ
renamed = choose 1 by 2 or 3

projected : Two ℕ → ℕ
projected p = p.left

-- A variable of the name of a definition, in every kind of binder.
shadowed : (plus : ℕ) → ℕ
shadowed plus = (λ even. even plus) 1

let-bound : ℕ
let-bound = let deepest : ℕ = inner in deepest

by-cases : Hue → ℕ
by-cases red = 0
by-cases azure = elim (plus 1) [ zero ↦ 0 | suc even ↦ even ]

literal : Two ℕ
literal = record { left = inner; plus = 1 }

implicit : {plus : ℕ} → ℕ
implicit = renamed {even = 1}

through : facade.Pair ℕ → Hue
through p = facade.crimson

whole : ℕ
whole = Rattle.low.specs.Deep.Below.deepest

chosen : Answer → ℕ
chosen (found n p) = n

pub section-free : ℕ
section-free = 1 -- plus in a comment
""",
    "crates/term/proofs/Lib.antt": "pub mod Laws\nmod Shut\n",
    "crates/term/proofs/Laws.antt": """module _ (A : Type 0) (n : ℕ) where
  private-law : A → A
  private-law a = a

  pub law : A → A
  law a = private-law a
""",
    "crates/term/proofs/Shut.antt": "shut : ℕ\nshut = 1\n",
    "crates/term/proofs/calls.antt": "pub mod Laws\n",
    "crates/term/proofs/calls/Laws.antt": "-- empty\n",
    "crates/term_up/src/lib.rt": "use term::calls;\npub fn up() -> u64 {\n    calls::call()\n}\n",
}


# Clauses with names and stars, a ghost value, a method, grouped imports, a variant that no `ghost use` names.
FORMS = """#![tactic(auto)]

use low::{Answer, lists as kept, deep::{self, Place as Spot}};
pub(crate) use low::all::*;

pub struct Pile {
    pub spots: [u64; 4],
}

impl Pile {
    ghost use Rattle.low.specs.Lists.{if◌then◌else◌};

    // The sum with the least.
    #[inline]
    pub fn least(&self, n: u64) -> Self
        ghost top: { Hue }
        requires low { n ≤ self.now.spots }
        requires high { n ≤ (record { of = top }).of }
        ensures* { ⌜ n ≡ n ⌝ }
        ensures picked { result ≡ if n then n else n }
    {
        if n == 0 { self } else { kept::none() }
    }
}

impl Display for Pile where Pile: Copy {
    fn least(&self) -> u64 {
        0
    }
}

pub(crate) fn inner(a: &[Spot]) -> u64
    ensures { result ≡ Answer.None a.now }
{
    0
}
"""


class Reading(unittest.TestCase):
    @classmethod
    def setUpClass(cls):
        cls.tree = Tree(FILES)
        cls.tree.__enter__()
        cls.house = house.House(cls.tree.root)
        cls.uses_module = cls.house.modules["term", "specs", ("Uses",)]

    @classmethod
    def tearDownClass(cls):
        cls.tree.__exit__()

    def decl(self, name, key=("term", "specs", ("Uses",))):
        return self.house.modules[key].own[name]

    def uses(self, name, *expected):
        self.assertEqual(sorted(d.name for d in self.house.uses(self.decl(name))), sorted(expected))

    def test_operators(self):
        self.uses("plus", "◌⊕◌")

    def test_imports_with_as(self):
        self.uses("renamed", "if◌then◌else◌")

    def test_fields_are_no_names(self):
        self.uses("projected", "Pair")
        self.uses("literal", "Pair", "value")

    def test_binders(self):
        self.uses("shadowed")
        self.uses("let-bound", "value")
        self.uses("implicit", "renamed")

    def test_constructors(self):
        self.uses("by-cases", "Hue", "plus")
        self.uses("chosen", "Answer")

    def test_pub_use_and_modules(self):
        self.uses("through", "Pair", "Hue")
        self.uses("whole", "deepest")

    def test_paths_from_children_and_names(self):
        decl = self.decl("by-child", ("low", "specs", ("Deep",)))
        self.assertEqual(sorted(d.name for d in self.house.uses(decl)), ["Hue", "deepest", "secret", "value"])

    def test_not_passed_on(self):
        facade = self.house.modules["low", "specs", ("Facade",)]
        self.assertIsNone(self.house.within(facade, ("secret",)))
        self.assertEqual(self.house.within(facade, ("crimson",)).name, "Hue")

    def test_comments_are_no_names(self):
        self.uses("section-free")

    def test_mutual_block_is_one(self):
        even = self.decl("even", ("low", "specs", ("Lists",)))
        self.assertIs(even, self.decl("odd", ("low", "specs", ("Lists",))))
        self.assertEqual([d.name for d in self.house.uses(even)], ["Hue"])
        self.assertEqual(len(even.lines), 7)

    def test_lines(self):
        lists = ("low", "specs", ("Lists",))
        self.assertEqual(len(self.decl("◌⊕◌", lists).lines), 5)
        self.assertEqual(len(self.decl("Pair", lists).lines), 5)
        self.assertEqual(len(self.decl("Hue", lists).lines), 3)

    def test_types_of_the_code(self):
        answer = self.house.types["low", "Answer"]
        self.assertEqual([d.name for d in self.house.uses(answer)], ["Place"])
        self.assertEqual(len(answer.lines), 5)

    def test_public_functions(self):
        found = self.house.public_functions("term")
        self.assertEqual([f.name for f in found], ["sum", "call"])
        self.assertEqual([kind for kind, _ in found[0].clauses], ["requires", "ensures"])
        self.assertEqual(len(found[0].lines), 5)
        # a parameter has the name of a definition; the clause's other name is imported under another
        self.assertEqual(sorted(d.name for d in self.house.contract(found[0])), ["Answer", "chosen"])
        self.assertEqual([d.name for d in self.house.contract(found[1])], ["plus"])

    def test_forms(self):
        with Tree(dict(FILES, **{"crates.txt": "low:\nforms staticlib: low\n", "crates/forms/src/lib.rt": FORMS})) as tree:
            here = house.House(tree.root)
            source = here.sources["forms", ()]
            self.assertEqual(source.imports, {
                "Answer": ("low", "Answer"), "kept": ("low", "lists"), "deep": ("low", "deep"),
                "Spot": ("low", "deep", "Place")})
            self.assertEqual(sorted(source.functions), ["<Pile as Display>::least", "Pile::least", "inner"])
            least, = here.public_functions("forms")
            self.assertEqual([kind for kind, _ in least.clauses], ["ghost", "requires", "requires", "ensures", "ensures"])
            self.assertEqual(len(least.lines), 8)
            self.assertEqual(sorted(d.name for d in here.contract(least)), ["Pile", "if◌then◌else◌"])
            # the code's path deep::Place has no file here; a variant is told by its type's own name
            self.assertEqual([d.name for d in here.contract(source.functions["inner"])], ["Answer"])
            self.assertEqual(here.named("forms"), {"low"})

    def test_closure(self):
        found = self.house.closure(self.house.contract(self.house.public_functions("term")[0]))
        self.assertEqual(sorted(d.name for d in found), ["Answer", "Place", "chosen"])

    def test_sections(self):
        laws = self.house.modules["term", "proofs", ("Laws",)]
        self.assertEqual([(d.name, d.public) for d in laws.decls], [("private-law", False), ("law", True)])
        self.assertEqual([d.name for d in self.house.uses(laws.own["law"])], ["private-law"])

    def test_reach(self):
        def reached(crate, part):
            return sorted(".".join(module.path) for module in self.house.reached(crate, part))

        self.assertEqual(reached("term", "proofs"), ["", "Laws", "calls", "calls.Laws"])
        self.assertEqual(reached("low", "specs"), ["", "Deep", "Deep.Below", "Facade", "Lists"])

    def test_words(self):
        found, comments = house.words('a.b (λ x. x .f) «in» "λ -- \\" x" -- c\n-- d\n{- e {- f -}\n -} g-h\n')
        self.assertEqual([(w.kind, w.text) for w in found if w.kind not in "()"], [
            ("name", "a.b"), ("name", "λ"), ("name", "x"), ("dot", "."), ("name", "x"), ("field", ".f"),
            ("name", "«in»"), ("text", '"λ -- \\" x"'), ("name", "g-h")])
        self.assertEqual(comments, {2, 3, 4})

    def test_floors(self):
        self.assertEqual(house.FLOORS[house.floor_of("term")][0], "Terms")
        self.assertEqual(house.FLOORS[house.floor_of("term_up")][0], "Terms")
        self.assertEqual(house.FLOORS[house.floor_of("needlevale_c")][0], "The library for C")
        with self.assertRaises(house.Fault):
            house.floor_of("nowhere")

    def test_faults(self):
        with Tree(dict(FILES, **{"crates/low/specs/Lists.antt": "strange\n"})) as tree:
            with self.assertRaisesRegex(house.Fault, "Lists.antt, line 1: 'strange ..' is no declaration"):
                house.House(tree.root).modules["low", "specs", ("Lists",)].decls
        with Tree(dict(FILES, **{"crates.txt": "low:\nlow wrong: low\n"})) as tree:
            with self.assertRaisesRegex(house.Fault, "line 2: 'NAME: DEP DEP ..' or 'NAME staticlib: DEP ..' is expected"):
                house.House(tree.root)
        with Tree(dict(FILES, **{"crates.txt": "low:\nlow:\n"})) as tree:
            with self.assertRaisesRegex(house.Fault, "line 2: low is listed twice"):
                house.House(tree.root)


unittest.main()
