//! Presets with locks on which readers and validators of this sort go wrong, each with what is told of it.

/// A partition, one after it, a component for each, an application.
pub const A: &str = "[[partition]]\nname = \"a\"\noffset = 0\nsize = 4096\n";
pub const B: &str = "[[partition]]\nname = \"b\"\noffset = 4096\nsize = 4096\n";
pub const X: &str = "[[component]]\nname = \"x\"\npackage = \"p\"\npartition = \"a\"\n";
pub const Y: &str = "[[component]]\nname = \"y\"\npackage = \"q\"\npartition = \"b\"\n";
pub const K: &str = "[apps.k]\npartition = \"a\"\n";
// One more, and what a partition says.
const L: &str = "[apps.l]\npartition = \"b\"\n";
const LOCKED: &str = "locked = true\n";
const OPEN: &str = "locked = false\n";

/// A preset in pieces, and the locks of its partitions one after the other, or its refusal.
pub type Corner = (&'static [&'static str], &'static str);

/// Those of which the original says nothing.
pub const CORNERS: &[Corner] = &[
    // absent, false, true; the last counts where it is said again
    (&[A, OPEN, X], "open"),
    (&[A, LOCKED, X], "locked"),
    (&[A, B, LOCKED, X, Y], "open locked"),
    (&[A, OPEN, B, LOCKED, X, Y, K], "open locked"),
    (&[A, LOCKED, OPEN, X, K], "open"),
    (&[A, "locked = 1\n", LOCKED, X], "locked"),
    (&[A, "locked.x = 1\n", OPEN, X, K], "open"),
    (&[A, LOCKED, "locked = 1\n", X], "refused 20 3 0"),
    (&[A, "\"locked\" = true\n", X], "locked"),
    // no other kind, at either entry
    (&[A, "locked = 1\n", X], "refused 20 3 0"),
    (&[A, "locked = 0\n", X], "refused 20 3 0"),
    (&[A, "locked = \"true\"\n", X], "refused 20 3 0"),
    (&[A, "locked = \"\"\n", X], "refused 20 3 0"),
    (&[A, "locked = []\n", X], "refused 20 3 0"),
    (&[A, "locked = [true]\n", X], "refused 20 3 0"),
    (&[A, "locked.locked = true\n", X], "refused 20 3 0"),
    (&[A, LOCKED, B, "locked = 1\n", X], "refused 20 3 1"),
    // name, offset and size before it, one entry before the next, all entries before the rules
    (
        &["[[partition]]\nlocked = 1\noffset = 0\nsize = 4096\n", X],
        "refused 24 3 0",
    ),
    (
        &["[[partition]]\nlocked = 1\nname = \"a\"\nsize = 4096\n", X],
        "refused 24 3 0",
    ),
    (
        &["[[partition]]\nlocked = 1\nname = \"a\"\noffset = 0\n", X],
        "refused 24 3 0",
    ),
    (&[A, "locked = 1\nsize = 4294967296\n", X], "refused 21 3 0"),
    (&[A, "locked = 1\nsize = -1\n", X], "refused 21 3 0"),
    (&[A, "locked = 1\noffset = true\n", X], "refused 20 3 0"),
    (&[A, "locked = 1\n[[partition]]\n", X], "refused 20 3 0"),
    (&[A, "[[partition]]\nlocked = 1\n", X], "refused 24 3 1"),
    (&[A, "locked = 1\nsize = 1\n"], "refused 20 3 0"),
    (
        &[A, "locked = 1\n[[component]]\nname = 1\n"],
        "refused 20 3 0",
    ),
    (&["partition = [1]\n", A, LOCKED, X], "refused 23 3 0"),
    // 67 at either application, also by the partition that it has where none is said
    (&[A, LOCKED, X, K], "refused 67 5 0"),
    (&[A, B, LOCKED, X, K, L], "refused 67 5 1"),
    (&[A, LOCKED, B, X, L, K], "refused 67 5 0"),
    (&[A, LOCKED, B, LOCKED, X, K, L], "refused 67 5 0"),
    (
        &[
            A,
            "[[partition]]\nname = \"app\"\noffset = 4096\nsize = 4096\n",
            LOCKED,
            X,
            "[apps.k]\n",
        ],
        "refused 67 5 0",
    ),
    // 61 to 64 and 60 before it, 65, 66 and 70 after it, one application before the next
    (&[A, LOCKED, X, K, "name = \"\"\n"], "refused 61 5 0"),
    (&[A, LOCKED, X, K, "filename = \"\"\n"], "refused 63 5 0"),
    (&[A, LOCKED, X, K, "partition = \"c\"\n"], "refused 64 5 0"),
    (
        &[
            A,
            LOCKED,
            X,
            "features = \"f\"\n[apps.p]\npartition = \"a\"\n",
        ],
        "refused 60 5 0",
    ),
    (
        &[A, B, LOCKED, X, K, "name = \"n\"\n", L, "name = \"n\"\n"],
        "refused 67 5 1",
    ),
    (
        &[A, LOCKED, B, X, K, "name = \"n\"\n", L, "name = \"n\"\n"],
        "refused 67 5 0",
    ),
    (
        &[
            A,
            B,
            "[[partition]]\nname = \"c\"\noffset = 8192\nsize = 4096\n",
            LOCKED,
            X,
            K,
            L,
            "name = \"k\"\n",
        ],
        "refused 65 5 1",
    ),
    (&[A, LOCKED, X, K, "load_address = 1\n"], "refused 67 5 0"),
    (
        &[A, B, LOCKED, X, K, "load_address = 1\n", L],
        "refused 66 5 0",
    ),
    (&[A, B, LOCKED, Y, L], "refused 67 5 0"),
    // exactly, as 64: nothing is cut or trimmed
    (
        &[
            A,
            LOCKED,
            B,
            "name = \"a;b\"\n",
            X,
            K,
            "partition = \"a;b\"\n",
        ],
        "locked open",
    ),
    (
        &[
            A,
            B,
            "name = \"a;b\"\n",
            LOCKED,
            X,
            K,
            "partition = \"a;b\"\n",
        ],
        "refused 67 5 0",
    ),
    (&[A, B, "name = \"a;b\"\n", LOCKED, X, K], "open locked"),
    (
        &[
            A,
            LOCKED,
            B,
            "name = \" a\"\n",
            X,
            K,
            "partition = \" a\"\n",
        ],
        "locked open",
    ),
    (&[A, LOCKED, X, K, "partition = \"a;\"\n"], "refused 64 5 0"),
    (&[A, LOCKED, X, K, "partition = \" a\"\n"], "refused 64 5 0"),
    (
        &[A, LOCKED, B, "name = \"A\"\n", X, K, "partition = \"A\"\n"],
        "locked open",
    ),
    // components in any of them, also in the first, cut and trimmed
    (&[A, LOCKED, B, LOCKED, X, Y], "locked locked"),
    (
        &[A, LOCKED, X, "kind = \"app\"\npartition = \" a;mtd\"\n"],
        "locked",
    ),
    (&[A, LOCKED, B, X, L], "locked open"),
    (&[A, LOCKED, B, Y], "refused 70 4 0"),
    (
        &[
            A,
            LOCKED,
            B,
            X,
            "[[component]]\nname = \"u\"\npackage = \"w\"\nupdater = true\nram = 0\n",
            L,
        ],
        "locked open",
    ),
    // the plural is read where there is no singular
    (
        &[
            "[[partitions]]\nname = \"a\"\noffset = 0\nsize = 4096\n",
            LOCKED,
            X,
            K,
        ],
        "refused 67 5 0",
    ),
    (
        &[
            "[[partitions]]\nname = \"a\"\noffset = 0\nsize = 4096\nlocked = 1\n",
            X,
        ],
        "refused 20 3 0",
    ),
    // names with lines and words of a listing in them
    (
        &[
            A,
            "name = \"a\\npart b 0 4096 open\"\n",
            LOCKED,
            X,
            "partition = \"a\\npart b 0 4096 open\"\n",
        ],
        "locked",
    ),
];

/// Those of which the original says the same, but for the word of each partition: no lock stands in the list that is
/// read.
pub const ELSEWHERE: &[Corner] = &[
    (&[A, X, K], "open"),
    (&[A, B, X, Y, K, L], "open open"),
    (
        &[A, X, K, "[[partitions]]\nname = \"a\"\nlocked = true\n"],
        "open",
    ),
    (&[A, X, K, "[[partitions]]\nlocked = 1\n"], "open"),
    (
        &["partition = []\n[[partitions]]\nlocked = 1\n", X],
        "refused 40 3 0",
    ),
    (
        &["partition = 1\n[[partitions]]\nlocked = 1\n", X],
        "refused 20 3 0",
    ),
    (
        &[A, "LOCKED = 1\nlock = 1\n\"locked \" = 1\n", X, K],
        "open",
    ),
    (&["locked = 1\n", A, X, LOCKED, K, LOCKED], "open"),
    (
        &[
            "[board]\nlocked = true\n[image]\nlocked = 1\n[locked]\n",
            A,
            X,
            K,
        ],
        "open",
    ),
    (&["[partition]\nlocked = true\n", X], "refused 20 3 0"),
    (
        &[
            A,
            "name = \"locked\"\n",
            X,
            "partition = \"locked\"\n",
            K,
            "partition = \"locked\"\n",
        ],
        "open",
    ),
];

/// All of them.
pub fn all() -> impl Iterator<Item = &'static Corner> {
    CORNERS.iter().chain(ELSEWHERE)
}
