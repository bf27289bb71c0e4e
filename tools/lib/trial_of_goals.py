"""What tools/test_cache tries of goals: an invariant refuses a body only where the edit says how the body breaks it, and
a goal that the right body has not refuses none that the right body's answer to another goal proves."""

from . import common

# A crate with a type that has an invariant, which a `search` does not prove.
KEPT = {
    "src/lib.rt": """//! A number beside its double.
#![tactic(auto)]

ghost use Rattle.std.specs.Prelude.{◌≡◌, ◌<◌, ◌+◌};
ghost use Rattle.kept.specs.Twice.{twice};

use std::marker::Model;

/// A number beside its double.
pub struct Pair {
    low: u64,
    high: u64,
}

impl Model for Pair {
    ghost use Rattle.std.specs.Prelude.{ℕ, ◌≡◌};
    ghost use Rattle.kept.specs.Twice.{twice};

    ghost Value = { ℕ };

    ghost view = { λ p. p.low };

    ghost invariant = { λ p. p.high ≡ twice p.low };
}

/// Returns the double.
pub fn double(x: u64) -> u64
    requires { x < 1000 }
    ensures { result ≡ twice x }
{
    x + x
}

/// Returns the double twice.
pub fn both(x: u64) -> (u64, u64)
    requires { x < 1000 }
    ensures { (result.0 ≡ twice x) × (result.1 ≡ twice x) }
{
    let twofold = double(x);
    (twofold, x + x)
}

impl Pair {
    /// Sets the number, and promises nothing of it.
    pub fn set(&mut self, x: u64)
        requires { x < 1000 }
        ensures { self.new ≡ self.new }
    {
        self.low = x;
        self.high = x + x;
    }

    /// Sets the number, and returns its double.
    pub fn set_and_double(&mut self, x: u64) -> u64
        requires { x < 1000 }
        ensures set { self.new ≡ x }
        ensures double { result ≡ twice x }
    {
        let sum = x + x;
        self.low = x;
        self.high = sum;
        double(x)
    }
}
""",
    "specs/Lib.antt": "pub mod Twice\n",
    "specs/Twice.antt": """use Rattle.std.specs.Prelude.{ℕ, zero, suc}

-- the double of a number
abbrev pub twice : ℕ → ℕ
twice zero = zero
twice (suc n) = suc (suc (twice n))
""",
    "proofs/Lib.antt": "mod TwiceIs\n",
    "proofs/TwiceIs.antt": """use Rattle.std.proofs.Common.{◌≡◌, ℕ, zero, suc, ◌+◌}
use native.Mathlib.Omega.{arith}
use Rattle.kept.specs.Twice.{twice}

pub twice_is : (n : ℕ) → n + n ≡ twice n
twice_is zero = grind arith
twice_is (suc n) = grind (arith, twice_is n)
""",
    "proofs/double/Answers.antt": """use Rattle.kept.proofs.TwiceIs.{twice_is}
use Rattle.kept.proofs.double.Goals as goal

pub returns : goal.returns
returns c = twice_is c.args.x
""",
    "proofs/both/Answers.antt": """use Rattle.kept.proofs.TwiceIs.{twice_is}
use Rattle.kept.proofs.both.Goals as goal

pub returns : goal.returns
returns c = (c.double-twofold.ensures, twice_is c.args.x)
""",
    **{
        f"proofs/Pair/{it}/Answers.antt": f"""use Rattle.kept.proofs.TwiceIs.{{twice_is}}
use Rattle.kept.proofs.Pair.{it}.Goals as goal

pub invariant_of-self : goal.invariant_of-self
invariant_of-self c = twice_is c.args.x
"""
        for it in ("set", "set_and_double")
    },
}
SET = "        self.high = x + x;"
BODY = "        double(x)"
CALL = "    let twofold = double(x);"
# The bodies that are tried, by their names: the line that changes, what stands in its place, what the edit says, and
# what is said of it.
INNER = "FAILED: is not judged: only an invariant is open"
TRIED = {
    "set_in_another_form": (SET, "        self.high = 2 * x;", "", INNER),
    "set_breaks_it": (SET, "        self.high = x;", "# breaks: After a call with 1 both numbers are 1.\n", "refused:"),
    "set_says_nothing": (SET, "        self.high = x;", "", INNER),
    "double_on_another_path": (BODY, "        if x > 5 { return x + x; } double(x)", "", "FAILED"),
    "both_without_the_call": (CALL, "    let twofold = x;", "", "refused:"),
    "double_is_wrong_there": (BODY, "        if x > 5 { return x; } double(x)", "", "refused:"),
}


def faults(room):
    """What differs where these bodies are tried."""
    files = {
        f"wrong_bodies/{name}.edit": f"{it[2]}file: src/lib.rt\nold: {it[0]}\nnew: {it[1]}\n" for name, it in TRIED.items()
    }
    for path, text in {**KEPT, **files}.items():
        common.write(f"{room.top}/crates/kept/{path}", text)
    room.change("crates.txt", "low:\n", "low:\nkept:\n")
    status, said = room.run("wrong_bodies", "--goals", "kept")
    missing = [name for name, it in TRIED.items() if f"kept: {name}: {it[3]}" not in said]
    # (what is left of the answer is at hand of the rest)
    edit = common.text_of(f"{room.top}/crates/kept/wrong_bodies/both_without_the_call.edit")
    missing += [] if "# at hand: all but c.double-twofold.ensures\n" in edit else ["its terms"]
    return [f"it ended with status {status}, not as wanted at {missing}, and said {said}"] if missing else []
