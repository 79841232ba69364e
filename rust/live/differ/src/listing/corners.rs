//! Presets whose lines are easily printed wrong.
use crate::picked::{fixed, pieced, plain};
use crate::validate::corners::{A, B, K, X, Y};
use crate::{document, plan, records, validate};
use replay::generators::names;
use replay::harness::vector::document::Parts;

// An updater that goes nowhere, and the last block of all.
const U: &str = "[[component]]\nname = \"u\"\npackage = \"w\"\nupdater = true\nram = 0\n";
const Z: &str = "[[partition]]\nname = \"z\"\noffset = 0xFFFFE000\nsize = 4096\n";

/// Each in pieces.
pub const CORNERS: &[&[&str]] = &[
    // numbers: no digit, ten digits, an end that only 64 bits hold is refused
    &[A, X],
    &[A, Z, X],
    &[A, Z, "size = 8192\n", X],
    &[A, "size = 0x80000000\n", X],
    &[A, "size = 0xFFFFF000\n", X],
    // names: spaces, lines, quotes, none, and such as look like fields
    &[A, X, "name = \"\"\n"],
    &[A, X, "name = \"x y\"\n", K, "name = \"k\\nok\"\n"],
    &[A, X, "name = \"-\"\npackage = \"0\"\n"],
    &["[board]\nname = \"\"\n", A, X],
    &["[board]\nname = \"a\\r\\tb\"\n", A, X],
    &[
        "[[partition]]\nname = \" é 漢\"\noffset = 0\nsize = 4096\n",
        X,
        "partition = \" é 漢\"\n[apps.\"é \"]\npartition = \" é 漢\"\n",
    ],
    // references: as they are written, none, and one that is a dash
    &[A, X, "partition = \" a ;b; \"\n"],
    &[A, U, X],
    &[A, X, U, "partition = \"\"\n"],
    &[A, U, "partition = \";\"\n", X],
    &[
        "[[partition]]\nname = \"-\"\noffset = 0\nsize = 4096\n",
        X,
        "partition = \"-\"\n",
        U,
    ],
    // kinds
    &[
        A,
        B,
        X,
        "kind = \"pbp\"\n",
        Y,
        "kind = \"app\"\n",
        U,
        "kind = \"raw\"\n",
    ],
    // applications in byte order of key, not as they are written
    &[
        A,
        X,
        "[apps.b]\npartition = \"a\"\n[apps.B]\npartition = \"a\"\n[apps.\"\\n\"]\npartition = \"a\"\n[apps.ab]\npartition = \"a\"\n",
    ],
    // features: counted once each, the first use's, those of a PBP by themselves
    &[A, X, "features = \"f g,f  g\"\n"],
    &[A, X, "features = [\"f\", \"\", \"f\", \"f g\"]\n"],
    &[A, X, "features = \"f\"\npbp_package = \"q\"\n"],
    &[
        A,
        X,
        "features = \"f\"\npbp_features = \"g h\"\npbp_package = \"q\"\n",
    ],
    &[
        A,
        X,
        "features = \"f\"\npbp_features = \"g h\"\npbp_package = \"p\"\n",
    ],
    &[
        A,
        X,
        "features = \"f\"\n",
        U,
        "package = \"p\"\nfeatures = [\"f\"]\n",
    ],
    // builds: none, an empty package, no application's
    &[A, X, "package = \"\"\n"],
    &[
        A,
        "[[component]]\nname = \"f\"\nfile = \"f\"\npartition = \"a\"\n",
    ],
    &[A, X, K, "features = \"f\"\n"],
    // stems
    &[A, X, "kind = \"app\"\npackage = \"s t\"\n"],
    &[A, X, "kind = \"app\"\nbin = \"b\"\n"],
    &[
        A,
        "[[component]]\nname = \"f\"\nkind = \"app\"\nfile = \"d/é.x.y\"\npartition = \"a\"\n",
    ],
    &[
        A,
        "[[component]]\nname = \"f\"\nkind = \"app\"\nfile = \"..\"\npartition = \"a\"\n",
    ],
    // both chips; a chip word of the platform
    &["[board]\nchip = \"d21x\"\n", A, "size = 0x20000\n", X],
    &["[image]\nplatform = \"d21x\"\n", A, "size = 0x20000\n", X],
    // refused before anything is printed
    &[A],
    &[X],
    &["["],
    &["= 1\n", A, X],
    &["a = \"\\q\"\n", A, X],
    &["\"a.b\" = 1\n", A, X],
];

/// Presets with one odd name in all places, one for each; of every other one it is the package that is the stem.
pub fn odd() -> Vec<Parts> {
    let each = names::all().into_iter().enumerate();
    let texts: Vec<_> = each
        .map(|(i, name)| names::everywhere(&name, i % 2 == 0).0)
        .collect();
    plain(&texts)
}

/// The corners, odd names, those of planning and validation, and the limits of texts and lists.
pub fn picked() -> Vec<Parts> {
    let own = pieced(CORNERS).into_iter().chain(odd());
    let limits = fixed(document::corners::LIMITS);
    let lists = fixed(records::corners::LIMITS);
    let rules = plan::corners::picked()
        .into_iter()
        .chain(validate::corners::picked());
    own.chain(rules).chain(limits).chain(lists).collect()
}
