"""What a made file has in the place of what its source has. The tables below have what a pattern can say: the words of a
source, those of the made file, and why. `$a` is any words with their brackets closed, and KIT the kit's path. A rule applies
wherever its words stand: the made file has to have the other words there. These rules are code:

| What a source has | What the made file has | In |
|---|---|---|
| contracts, ghost items and fields, models, tactics, `Drop`, exports, what is marked `by hand` | nothing | `expected.py` |
| the allocator as an operand, a parameter or a field | nothing | `rewriting.without_alloc` |
| calls of laws, whose operands do nothing | nothing | `rewriting.without_laws` |
| imports | the same by the paths of the package, or nothing | `imports.place_of` |
| the modules of `mask_c` | also what each has, in public | `expected.form_mod` |
| a trait that is marked `lawful`, and its implementations | the same, `unsafe`, with the reason | `expected.py` |
| an error's texts | `Display` and `Error` | `errors.py` |
| a public call with conditions | one that tests them, and one that has the body, `.._proved` | `forms.public`, `clauses.py` |
| calls of such a call inside the package | calls of what has the body | `rewriting.by_body` |
| an iterator of a public call | all that can be gone through | `forms.widened` |
| a function that doesn't say how it is inlined | `#[inline]`, or always if a level stands on it | `forms.inlined` |
| a function with the mark of a level, or `copied by instruction` | also its copies | `forms.copies` |
| a lent test of rows | one that may count what it is asked | `functions.py` |
| methods, and paths to methods, with names of the table `METHODS` | the others there | `rewriting.renamed_methods` |
| a method with the name of another type's call with conditions | also one with that one's other name | `forms.by_types` |
| a public method with the mark `named` | that name; and what has the body, for the package's calls | `forms.public` |
| the same, where Rust's lists or pointers have that name | that name, and its own for the package's calls | `forms.under_own_name` |
| a program's calls of methods with that mark | calls by that name | `rewriting.by_public_name` |
| a method that is marked `by hand` | nothing | `forms.all` |
| a method that is hidden in documentation | the package's own | `forms.py` |
| a field that is marked `visible` | what the package sees | `expected.fields` |
| files of programs | also `#![no_implicit_prelude]` | `package.finished` |
| calls inside the package with a type that is marked `by instruction` | also with the mark's, where it is quick | `rewriting.quickest` |
| calls inside the package of what is marked `replaced by` | calls of what the mark says | `rewriting.all` |
| a module that is marked `replaced by` | an import of the one by hand | `expected.form_mod` |
"""
from collections import namedtuple

Crate = namedtuple("Crate", "place path inside")
# Each crate: where its files are, what `crate` of it is in the package, and whether it is in the package itself.
CRATES = {
    "mask_bits": Crate("src/proved/mask_bits", "crate::proved::mask_bits", True),
    "vortex_mask": Crate("src/proved/vortex_mask", "crate::proved::vortex_mask", True),
    "mask_c": Crate("src/proved/mask_c", "crate::proved::mask_c", True),
    "maskrun": Crate("src/bin/maskrun", "crate", False),
    "mask_tests": Crate("tests/calls", "crate", False),
    "mask_bench": Crate("tests/jobs", "crate", False),
}


def kit_of(crate):
    """The path of what stands in the place of Rattle's library, in files of a crate."""
    return "crate::kit" if CRATES[crate].inside else "::row_mask::kit"


# Files in folders of made ones that stand by hand: programs' own beginnings.
BY_HAND = {"src/bin/maskrun/main.rs", "src/bin/maskrun/unix.rs", "tests/calls/main.rs", "tests/jobs/main.rs"}

# Imports of what isn't there in Rust: the allocator, what a type is in contracts, and what derives an error's text.
NOT_IMPORTED = {"std::alloc::Global", "std::marker::Model", "std::rt::Env", "thiserror::Error"}
# Where names of other crates and of Rattle's library stand; and where such stand in programs alone.
IMPORTED = {
    "bytes::Bytes": "KIT::Bytes",
    "bytes::BytesMut": "KIT::BytesMut",
    "std::alloc::AllocError": "KIT::AllocError",
    "std::alloc::AllocFailed": "KIT::AllocFailed",
    "std::borrow::CowSlice": "KIT::CowSlice",
    "std::rc::Rc": "KIT::Arc",
    "std::simd::prelude::*": "KIT::lanes::*",
    "std::fmt": "::core::fmt",
    "std::fmt::Debug": "::core::fmt::Debug",
    "std::fmt::Display": "::core::fmt::Display",
    "std::marker::PhantomData": "::core::marker::PhantomData",
    "std::mem": "::core::mem",
    "std::mem::size_of_val": "::core::mem::size_of_val",
    "std::process::ExitCode": "::std::process::ExitCode",
}
IMPORTED_OUTSIDE = {
    "mask_bits::extract::extract": "::row_mask::intersect_by_rank::extract",
    "std::env": "crate::host::env",
    "std::io": "crate::host::io",
    "std::io::BufRead": "crate::host::BufRead",
    "std::io::BufReader": "crate::host::BufReader",
}
# What stands at the head of a file, above its own imports.
IN_SCOPE = {"mask_tests": ["crate::host::AllocGlobal", "crate::host::Input", "crate::host::Print"]}

# What the processor has, and the tests of conditions, in the package.
NATIVE, TESTS = "crate::native", "crate::conditions"
SAFETY = "// SAFETY: its answers are proved to be as the contract says."
FEATURES = '"avx2,bmi1,bmi2,f16c,fma,lzcnt,movbe,popcnt"'
MORE_FEATURES = {
    "v4": '"avx512f,avx512bw,avx512cd,avx512dq,avx512vl"',
    "vpopcntdq": '"avx512f,avx512bw,avx512cd,avx512dq,avx512vl,avx512vpopcntdq"',
}
ARM_FEATURES = '"sve2-bitperm"'

# Methods of Rust's own lists, texts and iterators that end the program where memory is refused: calls, definitions and
# paths of these names have others, of a proved type's own too, so that types tell which is meant.
METHODS = {
    "collect": "try_collected",
    "push": "try_push",
    "push_str": "try_push_str",
    "resize": "try_resize",
    "shrink_to_fit": "shrink_or_stay",
    "to_vec": "try_to_vec",
}
# Methods that Rust's lists, or pointers beside those of what they point to, have too: the package's own calls of such a name
# may be theirs, and so stand as they are.
KEPT = {
    *METHODS, "as_mut", "as_ref", "borrow", "borrow_mut", "clone", "cmp", "eq", "fmt", "ge", "gt", "hash", "into", "le", "lt",
    "max", "min", "ne", "partial_cmp", "to_string",
}
RULES = [
    ("vec![in alloc; $a; $b]", "KIT::filled($a, $b)", "a list of one item may be refused"),
    ("Vec::with_capacity(", "Vec::with_room(", "room may be refused"),
    ("String::with_capacity(", "String::with_room(", "the same of a text"),
    ("Rc::new(", "KIT::shared(", "what is shared may be refused"),
    ("Rc", "Arc", "masks go from thread to thread"),
    (": Clone", ": TryClone", "a clone may be refused"),
    ("+ Clone", "+ TryClone", "the same of one of several bounds"),
    ("std::mem::", "::core::mem::", "Rust has it there"),
    (
        "fn fmt<W: fmt::Write>(&self, f: &mut fmt::Formatter<W>)",
        "fn fmt(&self, f: &mut fmt::Formatter<'_>)",
        "Rust's own traits write to one type",
    ),
    ("println!(rt; ", "crate::host::println!(rt; ", "the program's handle is one of the tests'"),
    ("eprintln!(rt; ", "crate::host::eprintln!(rt; ", "the same of errors"),
    (", &test)", ", &mut { test })", "a test of rows may count what it is asked"),
    ("prove!($a);", "", "a step of a proof runs nothing"),
]
