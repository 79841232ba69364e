//! Presets on which planners of this sort go wrong.
use crate::picked;
use crate::validate::corners::{A, B, K, X, Y};
use replay::generators::records::random::EXAMPLES;
use replay::harness::vector::document::Parts;

// An updater that goes nowhere, and a component of a file that leads.
const U: &str = "[[component]]\nname = \"u\"\npackage = \"w\"\nupdater = true\nram = 0\n";
const F: &str = "[[component]]\nname = \"f\"\nkind = \"app\"\npartition = \"a\"\nfile = ";

/// Each in pieces.
pub const CORNERS: &[&[&str]] = &[
    // refused before anything is planned
    &[A],
    &[A, B, Y, K],
    // where the application goes
    &[A, X, K],
    &[A, B, X, Y, K],
    &[A, U, X, K],
    &[A, U, U, "name = \"v\"\n", X, K],
    &[A, X, U, K],
    &[A, U, "partition = \" a;\"\n", X, K],
    // 81 at either entry, in bytes
    &[A, X, "[apps.x]\npartition = \"a\"\n", K],
    &[A, X, K, "name = \"x\"\n"],
    &[A, X, K, "[apps.z]\npartition = \"a\"\nname = \"x\"\n"],
    &[A, X, K, "name = \"X\"\n"],
    &[
        A,
        X,
        K,
        "name = \"x \"\n[apps.x]\npartition = \"a\"\nname = \"x.\"\n",
    ],
    &[A, X, "name = \"é\"\n", K, "name = \"é\"\n"],
    &[A, U, X, K, "name = \"u\"\n"],
    // keys that look like others
    &[
        A,
        X,
        "[apps.k-1]\npartition = \"a\"\n[apps.k]\npartition = \"a\"\nname = \"k1\"\n",
    ],
    &[A, X, "[apps.\"q r\"]\npartition = \"a\"\n"],
    &[A, X, "[apps.\"é\\n\"]\npartition = \"a\"\n"],
    &[A, X, "[apps.p]\npartition = \"a\"\n"],
    // builds: first use, and the bin of it
    &[
        A,
        X,
        "pbp_package = \"q\"\nfeatures = \"f\"\npbp_features = \"g\"\n",
        K,
    ],
    &[A, B, X, Y, "package = \"p\"\nbin = \"second\"\n"],
    &[A, B, X, "bin = \"first\"\n", Y, "package = \"p\"\n"],
    &[
        A,
        B,
        X,
        "bin = \"\"\n",
        Y,
        "package = \"p\"\nbin = \"second\"\n",
    ],
    &[A, B, X, "pbp_package = \"q\"\n", Y, "bin = \"late\"\n"],
    &[
        A,
        B,
        X,
        "pbp_package = \"p\"\nbin = \"b\"\nfeatures = \"f\"\npbp_features = \"g\"\n",
    ],
    &[A, X, "bin = \"b\"\n[apps.p]\npartition = \"a\"\n"],
    &[A, X, "pbp_package = \"k\"\n", K],
    &[A, U, X, "package = \"\"\npbp_package = \"w\"\n", K],
    &[A, X, "pbp = \"p\"\nprivate = \"./keys/x\"\n", K],
    &[A, X, "pbp = \"\"\nprivate = \"\"\n"],
    &[A, X, "pbp = \"/p\"\nprivate = \"/\"\n"],
    // stems
    &[A, X, "kind = \"app\"\n"],
    &[A, X, "kind = \"app\"\nbin = \"b\"\n", K],
    &[A, X, "kind = \"pbp\"\n"],
    &["[board]\nname = \"n\"\n", A, X],
    &[
        A,
        U,
        "kind = \"app\"\n",
        X,
        "kind = \"app\"\npackage = \"\"\n",
    ],
    &[A, B, X, Y, "kind = \"app\"\n"],
    &[A, F, "\"a/.b\"\n"],
    &[A, F, "\"x.tar.gz\"\n", K],
    &[A, F, "\"..\"\n", X, "kind = \"app\"\n"],
    &[A, F, "\".\"\n"],
    &[A, F, "\"\"\n"],
    &[A, F, "\"d/x.y/\"\nbin = \"b\"\n"],
    &[A, F, "\"..a\"\n"],
    &[A, F, "\"...\"\n"],
    &[A, F, "\"/x.\"\n"],
    &[A, F, "\"./x\"\n"],
    // references
    &[A, X, "partition = \"\u{3000}a\\t;b;c\"\n", K],
    &[A, B, X, Y, "partition = \"b;\"\n", K, "partition = \"b\"\n"],
    &[
        A,
        "[[partition]]\nname = \"a;b\"\noffset = 4096\nsize = 4096\n",
        X,
        K,
        "partition = \"a;b\"\n",
    ],
    &[
        A,
        "[[partition]]\nname = \" c\"\noffset = 4096\nsize = 4096\n",
        X,
        K,
        "partition = \" c\"\n",
    ],
    &[
        "[[partition]]\nname = \"app\"\noffset = 0\nsize = 4096\n",
        X,
        "partition = \"app\"\n[apps.k]\n",
    ],
    // locks: of a component's partition, of no application's, and of one whose name an application's begins with
    &[A, "locked = true\n", X],
    &[A, "locked = false\n", X, K],
    &[A, "locked = true\n", X, K],
    &[A, "locked = true\n", B, X, K, "partition = \"b\"\n"],
    &[
        A,
        "locked = true\n[[partition]]\nname = \"a;b\"\noffset = 4096\nsize = 4096\n",
        X,
        K,
        "partition = \"a;b\"\n",
    ],
];

/// The corners and the presets of the repository.
pub fn picked() -> Vec<Parts> {
    let corners = picked::pieced(CORNERS).into_iter();
    corners.chain(picked::plain(&EXAMPLES)).collect()
}
