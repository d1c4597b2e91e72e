"""Shows of each check of files, and of most of what counts a program's words, that it can fail: it is given a small
made-up repository, or made-up words, with one thing wrong, and must find it. Of the other checks that run programs
nothing is shown. No prover is run."""
import tempfile
from pathlib import Path

import answers
import c
import cli
import contracts
import differences
import expected_cases
import rules
import rust
import toolchain
import verdict
from repository import Repository, Result

# The heading of a table of clauses, and a table of wrong programs without its rows.
HEAD = "| the original's function | clause | here | how |\n|---|---|---|---|\n"
WRONG = f"## {contracts.WRONG}\n\n| the original's function | what | why | the edit | what refuses it |\n|---|---|---|---|---|\n"

# A table of differences without its rows.
DIFFERENCES = "# Title\n\n| | input | the original | here | why | test |\n|---|---|---|---|---|---|\n"

# A repository in which every rule is content, with what a run of the prover would have left.
GOOD = {
    "crates.txt": "inner:   # a comment\nopen: inner\nopen_examples: open\nreplayframes_a staticlib:\nprints: open\n",
    "interfaces.txt": "# a comment\nopen\n",
    "crates/inner/src/lib.rt": "pub enum How {\n    Well,\n}\n\npub fn low(a: u8) -> u8\n    requires { a < 9 }\n{\n    a\n}\n",
    "crates/inner/specs/Lib.antt": "-- no axiom\npub mod Words\n",
    "crates/inner/specs/Words.antt": (
        "use Prim.Native.Nat.{ℕ, ◌<◌}\n\n-- pub gone : ℕ\nabbrev pub Low : ℕ → Type 0\nLow a = a < 9\n\n"
        "pub record Fits (a : ℕ) : Type 0 where\n  pub low : Low a\n\npub data Size : Type 0 where\n  Small : Size\n\n"
        "module _ (a : ℕ) where\n  pub law : Low a → Fits a\n  law l = record { low = l }\n"
    ),
    "docs/CONTRACTS.md": (
        f"# Title\n\n{WRONG}| `Set::get` | lies | no clause | `open/one.a`, `open/two.b` | `Fits.low` (crates/inner/specs/Words.antt) |\n"
        "| `Set::put` | lies | no clause | `one_yes_well` (crates/open_examples/proofs/Open.antt) | `Low` |\n"
        f"| `Set::put` | none | it is exact | none | `Low` |\n\n## src/a/b.rs\n\n{HEAD}"
        "| `Set::get`, `Set::put` | all | `inner::low`, `Fits.low`, `Size.Small`, `law` (crates/inner/specs/Words.antt), `inner` | same |\n"
        "| `Holds::held` | it holds | none | left out (as for `get`) |\n| `Steps::go`, `Steps::grow`, `top` | it ends | `Low` | stronger (more) |\n"
    ),
    "docs/DIFFERENCES.md": f"{DIFFERENCES}| F1 | a | b | c | d | `F1` |\n| | a | b | c | d | `one, of 3`, `2^64 - 1 of 0` |\n",
    "target/compare.txt": "ok: F1: 3 compared\nFAILED: F2: differs\nok: one, of 3: 1 compared\n2 passed, 1 failed\n",
    "upstream/src--a--b.rs.txt": (
        "impl<T: Holds> Set<T> where T: Holds {\n    pub open spec fn get(&self) -> nat { 0 }\n    // pub fn gone()\n    pub const fn put(self)\n"
        "        requires\n            true,\n    {\n    }\n    fn own() {}\n}\n\nimpl<T> Holds for Set<T> {\n    fn held() {}\n}\n\n"
        "pub trait Holds<T> {\n    fn held();\n}\n\ntokenized_state_machine! {\n    Steps {\n        #[invariant]\n        pub fn go(&self) -> bool { true }\n"
        "        transition! {\n            grow(n: nat) {\n                require(n > 0);\n            }\n        }\n    }\n}\n"
        "pub open spec(checked) fn top() -> bool {\n    true\n}\n"
    ),
    "crates/open/src/lib.rt": (
        "pub use inner::{How, Word};\n\n// pub fn gone() requires\npub enum Said {\n    Yes(How),\n    // Because.\n    No(Why),\n    Corrupt,\n}\n\n"
        "#[derive(Clone, Copy)]\npub enum Why {\n    TooMany,\n    TooFew { by: u8 },\n}\n\npub fn one(a: u8) -> Said\n"
        "    ensures said { OneSays {A = ℕ} result }\n    ensures more { g result }\n{\n    a\n}\n\n"
        '#[unsafe(no_mangle)]\npub extern "C" fn two(t: &[u16], o: &mut [u64], a: u8, v: &mut usize) -> u8 {\n    own(a)\n}\n\n'
        "fn own(a: u8) -> u8\n    requires { a < 9 }\n{\n    a\n}\n"
    ),
    "crates/open/src/kept.rt": "pub enum Kept<E> {\n    All,\n    No(E),\n}\n",
    "crates/open_examples/proofs/Lib.antt": "pub mod Open\n",
    "crates/open_examples/proofs/Open.antt": (
        "pub one_yes_well : OneSays (Said.Yes How.Well)\none_yes_well = tt\n\npub one_no_each : (w : Why)\n    → OneSays (Said.No w)\none_no_each w = tt\n\n"
        "pub one_corrupt_never : OneSays Said.Corrupt → ⊥\none_corrupt_never e = e\n\npub two : 1 ≡ 1\ntwo = refl\n"
    ),
    "crates/open/specs/Lib.antt": "-- What is said.\n",
    "crates/open/must-fail/one.a.edit": "file: src/lib.rt\nold: TooMany\nnew: Many\n",
    "crates/open/must-fail/one.b.edit": "file: specs/Lib.antt\nold: said\nnew: told\n",
    "crates/open/must-fail/two.a.edit": "file: src/lib.rt\nold: own(a)\nnew: own(0)\n",
    "crates/open/must-fail/two.b.edit": "file: src/lib.rt\nold: own(a)\nnew: own(1)\n",
    "crates/codes/src/lib.rt": "// It is done.\npub const RF_DONE: u32 = 0;\n",
    "crates/config_codes/src/lib.rt": (
        "fn four(r: Reason) -> Four {\n    match r {\n        Reason::UnknownKind(m, i) => together(m, i, 0, 0),\n    }\n}\n\n"
        "fn fault_number(f: Fault) -> usize {\n    match f {\n        Fault::NoPage => 1,\n    }\n}\n\n"
        "pub fn code_of(r: Reason) -> u32 {\n    match r {\n        Reason::TooShort(_) => 32,\n    }\n}\n"
    ),
    "crates/lending/src/lib.rt": "fn all() -> Sizes {\n    Sizes { table: 7, tree: 1 }\n}\n",
    "crates/machine_codes/src/lib.rt": "fn which_of(n: u64) -> Which {\n    match n {\n        0 => Which::Processors,\n    }\n}\n",
    "include/replayframes.h": (
        "/* uint8_t gone(void); */\n/* How many words. */\n#define RF_TABLE_WORDS 7\n"
        "enum rf_code {\n    /* Place: RF_GONE = 9. */\n    RF_DONE = 0,\n    RF_CONFIG_TOO_SHORT = 32\n};\n"
        "enum rf_fault { RF_FAULT_NOTHING = 0, RF_FAULT_NO_PAGE = 1 };\nenum rf_set { RF_SET_PROCESSORS = 0 };\n"
        "uint8_t two(const uint16_t *t, size_t t_len, uint64_t *o,\n            size_t o_len, uint8_t a, size_t *v);\n"
    ),
    "crates/prints/src/main.rt": "fn main() {}\n",
    "crates/prints/stdout": "# a title\n2^64 - 1 of 0: no: 1\n",
    "crates/bitmap_cases/stdin": "cap\n",
    "crates/bitmap_cases/stdout": "".join(
        f"\nwords: {words}\ncap: {frames}\n" for words, frames in [
            (1, 16), (17, 256), (273, 4096), (4369, 65536), (69905, 1048576), (0, "not full"), (18, "not full"), (272, "not full")
        ]
    ),
    # What `rt` made of a crate is none of its files.
    "crates/open/out/rlib/open.rlib/Lib.antt": "axiom pub made : ⊥\n",
    toolchain.SAID: (
        "== inner\nstatements libc: modules loaded=0 checked=0\nlogic=proved functions=1 sum=0\nrt: inner proved\n"
        "== open\nlibrary inner: modules loaded=1 checked=0\nlogic=proved functions=3 axioms=0 sum=0\nrt: open proved\n"
        "rt: open_examples is kept: an earlier run on this machine proved the same files over the same libraries\n"
        "== replayframes_a\naxioms std: none reached of the 2 declared\nlogic=proved functions=1 sum=0\nrt: replayframes_a proved\n"
        "== prints\nstatements libc: modules loaded=1 checked=0\nlogic=proved functions=1 axioms=1 sum=0\nrt: prints proved\n"
        "rt: open: trying its must-fail edits (4)\n"
        "rt: must-fail open/one.a.edit: refused, as it must be: ./proofs/one/Answers.antt:2:1: error: `returns`: `omega`: the goal does not follow\n"
        "rt: must-fail open/one.b.edit: refused, as it must be: note: src/lib.rt:9:1: it is not proved that what the function ensures holds\n"
        "rt: must-fail open/two.a.edit: refused, as it must be: ./proofs/Laws.antt:2:1: error: `law`: expected type `1 < 0`, but this has type `0 < 1`\n"
        "rt: must-fail open/two.b.edit: refused, as it must be: ./proofs/two/Answers.antt:2:1: error: `returns`: `search`: no proof of `0 < 0`\n"
    ),
}

SOURCE = "crates/open/src/lib.rt"
EXAMPLES = "crates/open_examples/proofs/Open.antt"
SHOWN = GOOD[EXAMPLES]
ONLY = "pub one_only : Sound b → OneSays r → "
TABLE = "docs/CONTRACTS.md"
HEADER = GOOD[c.HEADER]
ORIGINAL = "upstream/src--a--b.rs.txt"
WORDS = "(crates/inner/specs/Words.antt)"
PROVED = GOOD[toolchain.SAID]


def edit_told(told):
    """What `rt ci` printed, where this stands behind its words of a refusal of one edit."""
    head = f"rt: must-fail open/one.a.edit: {verdict.REFUSED}"
    return "".join(f"{head}{told}\n" if line.startswith(head) else line for line in PROVED.splitlines(True))


# (the rule, a file, what it holds instead or None if it is not there, a part of what the rule must say)
BAD = [
    (rules.assumes_nothing, SOURCE, 'extern "C" {\n    fn f();\n}\n', "declares a foreign function"),
    (rules.assumes_nothing, "crates/inner/specs/Lib.antt", "axiom pub wrong : ⊥\n", "Lib.antt has an axiom"),
    (rules.assumes_nothing, "crates/inner/specs/Lib.antt", "f = Prim.Axiom.lem\n", "Lib.antt has an axiom"),
    (rules.assumes_nothing, "crates.txt", "inner:\nopen: inner libc\n", "rests on libc"),
    (rules.interfaces_are_listed, "interfaces.txt", "open\nabsent\n", "is not in crates.txt"),
    (rules.no_requires, SOURCE, "pub fn one(a: u8)\n    requires { a < 9 }\n{\n}\n", "has a requires"),
    (rules.no_requires, SOURCE, "pub fn one(a: u8)\n    ensures { Says {a} result }\n    requires { a < 9 }\n{\n}\n", "has a requires"),
    (rules.no_requires, SOURCE, "pub fn one(a: u8)\n    ghost n: { ℕ }\n    requires bound { n < a }\n{\n}\n", "has a requires"),
    (rules.no_requires, SOURCE, "pub fn one()\n    requires { a < 9 }\n{\n}\n\nimpl One {\n    pub fn one() {}\n}\n", "has a requires"),
    (rules.no_requires, SOURCE, 'pub extern "C" fn two()\n    requires { a < 9 }\n{\n}\n', "has a requires"),
    (rules.no_requires, SOURCE, "pub use inner::low;\n", "hands on a function of another crate"),
    (rules.no_requires, SOURCE, "pub use inner::{Word, low};\n", "hands on a function of another crate"),
    (rules.no_requires, SOURCE, "pub use inner::{low as high};\n", "hands on a function of another crate"),
    (rules.no_requires, "crates/replayframes_a/src/lib.rt", 'pub extern "C" fn a()\n    requires { a < 9 }\n{\n}\n', "has a requires"),
    (rules.edits_attack_functions, SOURCE, "pub fn one() {}\npub fn two() {}\npub fn three() {}\n", "has 0"),
    (rules.edits_attack_functions, SOURCE, "pub fn one() {}\n", "has no public function two"),
    (rules.edits_keep_the_outline, "crates/open/must-fail/one.a.edit", "file: proofs/one/Answers.antt\nold: a\nnew: b\n", "edits a proof"),
    (rules.edits_keep_the_outline, "crates/open/must-fail/one.a.edit", "file: src/lib.rt\nold: {\nnew: ensures { a } {\n", "adds or drops a clause"),
    (rules.edits_find_their_text, "crates/open/must-fail/one.a.edit", "file: src/lib.rt\nold: {\nnew: [\n", "times in src/lib.rt"),
    (rules.edits_find_their_text, "crates/open/must-fail/one.b.edit", "file: specs/Lib.antt\nold: heard\nnew: told\n", "stands 0 times"),
    (contracts.cited_names_exist, TABLE, f"## src/a/b.rs\n{HEAD}| `Set::get` | all | `inner::high` | same |\n", "no crate defines it"),
    (contracts.cited_names_exist, TABLE, f"## src/a/b.rs\n{HEAD}| `Set::get` | all | `gone` | same |\n", "no crate defines it"),
    (contracts.cited_names_exist, TABLE, f"## src/a/b.rs\n{HEAD}| `Set::get` | all | `Fits.high` {WORDS} | same |\n", "does not define it"),
    (contracts.cited_names_exist, TABLE, f"## src/a/b.rs\n{HEAD}| `Set::get` | all | `Low` (crates/inner/specs/Gone.antt) | same |\n", "there is no"),
    (contracts.cited_names_exist, TABLE, f"## src/a/b.rs\n{HEAD}| `Set::get` | all | none | left out (`gone`) |\n", "neither a crate nor the original"),
    (contracts.original_is_covered, TABLE, f"## src/a/c.rs\n{HEAD}| `Set::get` | all | none | same |\n", "no row names it"),
    (contracts.original_is_covered, ORIGINAL, "impl Set {\n    pub proof fn more()\n        ensures\n            true,\n    {\n    }\n}\n", "no row names it"),
    (contracts.original_is_covered, ORIGINAL, "pub trait More {\n    spec fn more() -> bool;\n}\n", "no row names it"),
    (contracts.original_is_covered, ORIGINAL, "tokenized_state_machine! {\n    Steps {\n        init! { begin() {} }\n    }\n}\n", "no row names it"),
    (contracts.rows_say_how, TABLE, f"## src/a/b.rs\n{HEAD}| `Set::get` | all | none | perhaps |\n", "does not say how"),
    (contracts.rows_say_how, TABLE, f"## src/a/b.rs\n{HEAD}| `Set::get` | all | same |\n", "has 3 cells"),
    (answers.every_answer_has_its_example, EXAMPLES, SHOWN.replace("pub one_yes", "pub one_maybe"), "has no example, and no theorem"),
    (answers.every_answer_has_its_example, EXAMPLES, SHOWN.replace("OneSays (Said.Yes", "TwoOneSays (Said.Yes"), "does not speak of OneSays"),
    (answers.every_answer_has_its_example, EXAMPLES, SHOWN.replace("Said.Yes How.Well", "Said.Corrupt"), "does not speak of Well"),
    (answers.every_answer_has_its_example, EXAMPLES, SHOWN.replace("one_no_each", "one_each"), "has no example, and no theorem"),
    (answers.every_answer_has_its_example, EXAMPLES, SHOWN.replace("\n    → OneSays (Said.No w)", " × OneSays (Said.No w)"), "does not speak of →"),
    (answers.every_answer_has_its_example, EXAMPLES, SHOWN.replace("→ ⊥", "→ Unit"), "does not speak of ⊥"),
    (answers.every_answer_has_its_example, EXAMPLES, SHOWN.replace("OneSays Said.Corrupt →", "⊥ →"), "does not speak of OneSays"),
    (answers.every_answer_has_its_example, EXAMPLES, ONLY + "(r ≡ Yes) ⊎ (r ≡ TooFew)\n", "has no example"),
    (answers.every_answer_has_its_example, EXAMPLES, SHOWN.replace("pub one_corrupt_never", ONLY + "(r ≡ Yes)\n\npub one_gone"), "has no example"),
    (answers.every_answer_has_its_example, EXAMPLES, ONLY.replace("OneSays", "Other") + "(r ≡ Yes)\n", "has no example, and no theorem"),
    (answers.every_answer_has_its_example, "crates/open_examples/proofs/Lib.antt", "-- pub mod Open\n", "has no example, and no theorem"),
    (contracts.cited_names_exist, TABLE, f"{WRONG}| `Set::get` | lies | no clause | none | `Fits.high` {WORDS} |\n", "does not define it"),
    (contracts.wrong_programs_are_edits, TABLE, f"{WRONG}| `Set::get` | lies | no clause | `open/one.c` | `Low` |\n", "there is no edit open/one.c"),
    (contracts.wrong_programs_are_edits, TABLE, f"{WRONG}| `Set::get` | lies | no clause | `one_gone` ({EXAMPLES}) | `Low` |\n", "does not prove one_gone"),
    (contracts.wrong_programs_are_edits, TABLE, f"{WRONG}| `Set::get` | lies | no clause | `law` {WORDS} | `Low` |\n", "does not prove law"),
    (contracts.wrong_programs_are_edits, TABLE, f"{WRONG}| `Set::gone` | lies | no clause | `open/one.a` | `Low` |\n", "the original has no Set::gone"),
    (contracts.wrong_programs_are_edits, TABLE, f"{WRONG}| `Set::get` | lies | no clause | one.a | `Low` |\n", "names no edit and no law"),
    (contracts.wrong_programs_are_edits, TABLE, f"{WRONG}| `Set::get` | lies | `open/one.a` | `Low` |\n", "has 4 cells"),
    (contracts.wrong_programs_are_edits, TABLE, f"## src/a/b.rs\n{HEAD}| `Set::get` | all | none | same |\n", "has no table"),
    (contracts.wrong_programs_are_edits, "crates/open/must-fail/two.b.edit", None, "there is no edit open/two.b"),
    (differences.differences_are_tested, "docs/DIFFERENCES.md", f"{DIFFERENCES}| F2 | a | b | c | d | `F2` |\n", "no test F2 passed"),
    (differences.differences_are_tested, "docs/DIFFERENCES.md", f"{DIFFERENCES}| | a | b | c | d | `open/one.a` |\n", "no test open/one.a passed"),
    (differences.differences_are_tested, "docs/DIFFERENCES.md", f"{DIFFERENCES}| | a | b | c | d | `# a title` |\n", "no test # a title passed"),
    (differences.differences_are_tested, "target/compare.txt", None, "no test F1 passed"),
    (differences.differences_are_tested, "crates/prints/stdout", None, "no test 2^64 - 1 of 0 passed"),
    (differences.differences_are_tested, "crates/prints/src/main.rt", None, "no test 2^64 - 1 of 0 passed"),
    (differences.differences_are_tested, "docs/DIFFERENCES.md", f"{DIFFERENCES}| | a | b | c | d | |\n", "names no test"),
    (differences.differences_are_tested, "docs/DIFFERENCES.md", "# Title\n", "has no table with rows"),
    (differences.differences_are_tested, "docs/DIFFERENCES.md", f"{DIFFERENCES}| F1 | a | b | c | `F1` |\n", "has 5 cells, and not 6"),
    (expected_cases.results, "crates/bitmap_cases/stdout", "\nwords: 1\ncap: 17\n", "is not what the judge answers"),
    (verdict.rests_on_nothing, toolchain.SAID, PROVED.replace("axioms=0", "foreign=open::f"), "foreign=open::f"),
    (verdict.rests_on_nothing, toolchain.SAID, PROVED.replace("axioms=0", "axioms=1"), "axioms=1"),
    (verdict.rests_on_nothing, toolchain.SAID, PROVED.replace("none reached", "1 reached"), "axioms std: 1 reached"),
    (verdict.rests_on_nothing, toolchain.SAID, PROVED.replace("libc: modules loaded=0", "libc: modules loaded=2"), "rests on libc"),
    (verdict.rests_on_nothing, toolchain.SAID, PROVED.replace("inner proved", "inner NOT PROVED"), "is not proved"),
    (verdict.rests_on_nothing, toolchain.SAID, PROVED.replace("open_examples is kept", "open is kept"), "is not proved"),
    (verdict.rests_on_nothing, toolchain.SAID, None, "is not proved"),
    (verdict.refused_for_a_fact, toolchain.SAID, None, "is not refused: nothing is said of it"),
    (verdict.refused_for_a_fact, toolchain.SAID, PROVED.replace("refused, as it must be", "NOT REFUSED"), "is not refused: NOT REFUSED"),
    (verdict.refused_for_a_fact, toolchain.SAID, edit_told(""), "nothing says what is not proved"),
    (verdict.refused_for_a_fact, toolchain.SAID, edit_told(": note: src/lib.rt:1:1: the proof is long"), "nothing says what is not proved"),
    (verdict.refused_for_a_fact, toolchain.SAID, edit_told(" (only because a proof file names what is gone): x"), "is refused (only because"),
    (verdict.refused_for_a_fact, toolchain.SAID, edit_told(" (only by a limit of the prover): x"), "is refused (only by a limit"),
] + [
    (verdict.refused_for_a_fact, toolchain.SAID, edit_told(f": {file}:1:1: error: `{name}`: {error}"), "is refused for its shape")
    for file, name, error in [
        ("./proofs/f/Answers.antt", "returns", "`goal.returns-then`: module `Rattle.f.Goals` has no `returns-then` that can be named from here"),
        ("./proofs/f/Answers.antt", "returns", "record `Rattle.f.Lts.Start` has no field `before`"),
        ("./proofs/f/Answers.antt", "returns", "record `Rattle.f.Lts.After-a-place-of-a-longer-name`"),
        ("./proofs/f/Answers.antt", "returns", "`Took t k t'`"),
        ("./proofs/f/Answers.antt", "returns", "`Took (a.term.that.is + cut"),
        ("./proofs/f/Answers.antt", "returns", "`Took t k t'` is a declared record, built with `record { … }`, not a tuple"),
        ("./proofs/f/Answers.antt", "returns", "`low` was not admitted, so this cannot be checked"),
        ("./proofs/f/Answers.antt", "returns", "`goal.returns` takes 3 arguments"),
        ("./proofs/f/Answers.antt", "holds-loop", "expected a type, but `goal.holds-loop` has type `Invariant → Type 0`"),
        ("./proofs/f/Answers.antt", "returns", "this tuple has 2 components but its type has 3"),
        ("./proofs/f/Answers.antt", "returns", "a tuple is checked against `Took t k t'`"),
        ("./proofs/f/Answers.antt", "returns", "this λ is checked against `Took t k t'`"),
        ("./proofs/f/Answers.antt", "returns", "a dimension variable is expected here"),
        ("./proofs/f/Invariants.antt", "invariant-loop", "this pattern needs a function (or path) type to bind"),
        ("./proofs/Laws.antt", "law", "`low` is not a field of record `Lowest`, which has none"),
        ("./proofs/Laws.antt", "law", "expected type `Prim.Native.Nat.ℕ`, but this has type `Bool`"),
        ("./proofs/Laws.antt", "law", "expected type `List ℕ`, but this has type `ℕ`"),
        ("./proofs/Laws.antt", "law", "`nothing` is not in scope"),
        ("specs/Words.antt", "Low", "expected type `Bool`, but this has type `Type 0`"),
        ("src/lib.rt", "ensures-1", "expected type `Type 0`, but this has type `Bool`"),
    ]
] + [
    (c.header_declares_the_exports, c.HEADER, HEADER.replace(old, new), said)
    for old, new, said in [
        ("two", "three", "does not declare it"),
        ("two", "three", "no crate exports it"),
        ("const ", "", "and exported as"),
        ("size_t *v", "uint64_t *v", "and exported as"),
        (", size_t *v", "", "and exported as"),
        ("uint8_t a, size_t *v", "size_t *v, uint8_t a", "and exported as"),
        ("uint8_t two", "uint32_t two", "and exported as"),
    ]
] + [
    (c.header_has_the_numbers, c.HEADER, HEADER.replace(old, new), said)
    for old, new, said in [
        ("RF_DONE = 0", "RF_DONE = 1", f"is 1 in {c.HEADER}, and 0 in the sources"),
        ("RF_CONFIG_TOO_SHORT", "RF_SHORT", f"is nothing in {c.HEADER}, and 32 in the sources"),
        ("RF_DONE = 0", "RF_DONE = 0, RF_MORE = 7", f"is 7 in {c.HEADER}, and nothing in the sources"),
        ("RF_FAULT_NO_PAGE = 1", "RF_FAULT_NO_PAGE = 2", f"is 2 in {c.HEADER}, and 1 in the sources"),
        ("RF_SET_PROCESSORS = 0", "RF_SET_PROCESSORS = 1", f"is 1 in {c.HEADER}, and 0 in the sources"),
        ("RF_TABLE_WORDS 7", "RF_TABLE_WORDS 8", f"is 8 in {c.HEADER}, and 7 in the sources"),
        ("#define RF_TABLE_WORDS 7\n", "", f"is nothing in {c.HEADER}, and 7 in the sources"),
        ("enum rf_fault", "enum rf_more { RF_MORE = 5 };\nenum rf_fault", f"is 5 in {c.HEADER}, and nothing in the sources"),
    ]
]

# The ways to an answer of a type, as a crate of the good repository names it.
WAYS = [
    ("usize", [()]),
    ("bool", [("true",), ("false",)]),
    ("Option<(usize, usize)>", [("Some",), ("None",)]),
    ("Option<Why>", [("Some", "TooMany"), ("Some", "TooFew"), ("None",)]),
    ("Result<(), Why>", [("Ok",), ("TooMany",), ("TooFew",)]),
    ("Result<bool, inner::Gone>", [("true",), ("false",), ("Gone",)]),
    ("Result<Option<usize>, Kept<How>>", [("Some",), ("None",), ("All",), ("No", "Well")]),
]

# How `rt ci` ends and what it said, and how many passed and failed by that.
COUNTS = [
    (0, "rt: ok; handles allowed: none; must-fail edits: 1 refused; every proof was done\n2 passed, 0 failed\n", 2, 0),
    (0, "rt: ok; handles allowed: none; must-fail edits: 1 refused, 1 bad; every proof was done\n2 passed, 0 failed\n", 2, 1),
    (0, "2 passed, 0 failed\n", 2, 1),
    (1, "rt: FAILED: a\n2 passed, 1 failed\n", 2, 1),
    (2, "2 passed, 0 failed\n", 2, 1),
    (0, "2 passed, 0 failed\nrt: a\n", 0, 1),
    (2, "", 0, 1),
]

# What `nm -gP` says of an archive, and what is found wrong with it where `rf_a` is declared.
SYMBOLS = [
    ("x.a[a.o]:\nrf_a U         \nmemset U         \nx.a[b.o]:\nrf_a T 0 9\n", []),
    ("x.a[a.o]:\nrf_a T 0 9\nmalloc U         \n", ["leaves undefined what a program may not have: malloc"]),
    ("x.a[a.o]:\nrf_a T 0 9\nmalloc w         \n", ["leaves undefined what a program may not have: malloc"]),
    ("x.a[a.o]:\nmemset U         \n", [f"lacks what {c.HEADER} declares: rf_a"]),
    ("x.a[a.o]:\nrf_a T 0 9\nrf_b T 0 9\n", [f"has what {c.HEADER} does not declare: rf_b"]),
]

# What a program of tests said as it ended with a status, and how many passed and failed by that.
SAID = [
    (rust.counted, 0, "ok: a: 3 compared\n1 passed, 0 failed\n", 1, 0),
    (rust.counted, 1, "ok: a: 3 compared\nFAILED: b: differs\n1 passed, 1 failed\n", 1, 1),
    (rust.counted, 0, "ok: a: 3 compared\n2 passed, 0 failed\n", 1, 1),
    (rust.counted, 127, "", 0, 1),
    (cli.counted, 0, "test a::b ... ok\ntest result: ok. 1 passed; 0 failed; 0 ignored\n", 1, 0),
    (cli.counted, 101, "test a ... ok\ntest b ... FAILED\ntest result: FAILED. 1 passed; 1 failed; 0 ignored\n", 1, 1),
    (cli.counted, 0, "test a ... ok\ntest result: ok. 2 passed; 0 failed; 0 ignored\n", 1, 1),
    (cli.counted, 101, "", 0, 1),
    (cli.survived, 0, "toml: 9 inputs, 2 accepted\nseed 1: 0 crashes\n", 2, 0),
    (cli.survived, 0, "toml: 9 inputs, 0 accepted\nseed 1: 0 crashes\n", 1, 1),
    (cli.survived, 1, "toml: 9 inputs, 2 accepted\nseed 1: 1 crashes\n", 1, 1),
]

# Requests on sixteen frames, and what the judge of the cases answers.
REQUESTS = ["# a title", "insert 5 n", "alloc", "alloc_contiguous 2 3", "next h+1", "dealloc m", "test n-1", "put 0 0", "any", "check"]
ANSWERS = ["", "words: 1", "# a title", "insert 5 n: done", "alloc: frame 5", "alloc_contiguous 2 3: frame 8", "next h+1: frame 10"]
ANSWERS += ["dealloc m: outside", "test n-1: free", "put 0 0: done", "any: no", "check: sound"]


def within(files, asked):
    """What is answered of a repository of these files."""
    with tempfile.TemporaryDirectory() as folder:
        for file, text in files.items():
            if text is None:
                continue
            path = Path(folder) / file
            path.parent.mkdir(parents=True, exist_ok=True)
            path.write_text(text)
        return asked(Repository(folder))


def faults(rule, files):
    """What the rule finds wrong with a repository of these files."""
    return within(files, lambda repository: [result.fault for result in rule(repository) if result.fault])


def results(_):
    """Each check of files, and most of what counts a program's words, can fail."""
    files = rules.RULES + contracts.RULES + differences.RULES + answers.RULES + verdict.RULES + c.FILE_RULES
    for rule in files + [expected_cases.results]:
        yield Result(f"{rule.__name__} is content", "; ".join(faults(rule, GOOD)))
    for rule, file, text, said in BAD:
        found = faults(rule, {**GOOD, file: text})
        yield Result(f"{rule.__name__} finds: {said}", "" if any(said in fault for fault in found) else f"it found {found}")
    for kind, ways in WAYS:
        found = within(GOOD, lambda repository: answers.answers(repository, "open", kind))
        yield Result(f"the ways to {kind}", "" if found == ways else f"it found {found}")
    for status, said, passed, failed in COUNTS:
        counted = [bool(result.fault) for result in toolchain.counted(status, said)]
        yield Result(f"status {status} after {said!r}", "" if counted == [False] * passed + [True] * failed else f"counts as {counted}")
    for said, faulty in SYMBOLS:
        found = list(c.archive_faults(said, {"rf_a"}))
        yield Result(f"the symbols {said!r}", "" if found == faulty else f"it found {found}")
    for count, status, said, passed, failed in SAID:
        faults_counted = sum(bool(result.fault) for result in count(status, said))
        right = (len(list(count(status, said))) - faults_counted, faults_counted) == (passed, failed)
        yield Result(f"{count.__module__}.{count.__name__}: status {status} after {said!r}", "" if right else f"counts {faults_counted} faults")
    judged = list(expected_cases.answers(REQUESTS, [1]))
    yield Result("the judge answers requests", "" if judged == ANSWERS else f"it answers {judged}")


if __name__ == "__main__":
    for result in results(None):
        print("FAILED" if result.fault else "ok", result.what, result.fault)
