//! Presets on which validators of this sort go wrong.
use crate::picked;
use replay::generators::locks;
pub(crate) use replay::generators::locks::{A, B, K, X, Y};
use replay::generators::random::Rng;
use replay::generators::records::random::EXAMPLES;
use replay::generators::validate::cases::CHIPS;
use replay::generators::validate::faults::FAULTS;
use replay::generators::validate::{plain, spelled};
use replay::harness::vector::document::Parts;

// 32 and 33 bytes.
const L32: &str = "éééééééééééééééé";
const L33: &str = "ééééééééééééééééx";

/// Each in pieces.
pub const CORNERS: &[&[&str]] = &[
    // board and image
    &[A, X],
    &["[image]\nmedia = \"spi-nand\"\n[board]\nprofile = \"\"\n"],
    &[
        "[board]\nchip = \"d21x\"\n[image]\nmedia = \"spi-nor\"\n",
        A,
        X,
    ],
    &[
        "[board]\nchip = \"d13x\"\nprofile = \"\"\n[image]\nplatform = \"d21x\"\n",
        A,
        X,
    ],
    &[
        "[board]\nchip = \"d13x\"\n[image]\nplatform = \"D13X\"\napp = \"",
        L33,
        "\"\n",
        A,
        X,
    ],
    &["[image]\nplatform = \"d21x\"\n", A, X],
    &[
        "[board]\nprofile = \"\"\ntarget = \"\"\n[image]\napp = \"",
        L33,
        "\"\n",
        A,
        X,
    ],
    &["[image]\napp = \"", L32, "\"\n", A, X],
    &[
        "[board]\ntarget = \"\"\n[image]\napp = \"",
        L33,
        "\"\n",
        A,
        X,
    ],
    &["[board]\ntarget = \"\"\n", X],
    &["[board]\ntarget = \"riscv\"\n", A, X],
    &["[board]\ntarget = \"riscv64-riscv32\"\n", A, X],
    &["[board]\ntarget = \"riscv64\"\n", X],
    &[
        "[board]\nchip = \"d21x\"\ntarget = \"riscv64-riscv32\"\n",
        A,
        X,
    ],
    // partitions
    &[""],
    &[X],
    &[
        "partition = []\n[[partitions]]\nname = \"a\"\noffset = 0\nsize = 4096\n",
        X,
    ],
    &["[[partition]]\nname = \"\"\noffset = 4096\nsize = 0\n"],
    &["[[partition]]\nname = \"\"\noffset = 0\nsize = 0\n"],
    &[A, "[[partition]]\nname = \"\"\noffset = 0\nsize = 0\n", X],
    &["[[partition]]\nname = \"a\"\noffset = 0\nsize = 0\n", X],
    &["[[partition]]\nname = \"a\"\noffset = 0\nsize = 4095\n", X],
    &["[[partition]]\nname = \"a\"\noffset = 0\nsize = 4097\n", X],
    &[
        "[[partition]]\nname = \"a\"\noffset = 0\nsize = 0xFFFF_F000\n",
        X,
    ],
    &[
        "[[partition]]\nname = \"a\"\noffset = 0\nsize = 0x1_0000_0000\n",
        X,
    ],
    &["[board]\nchip = \"d21x\"\n", A, X],
    &[
        "[board]\nchip = \"d21x\"\n[[partition]]\nname = \"a\"\noffset = 0\nsize = 0xFFFE_0000\n",
        X,
    ],
    &[
        "[board]\nchip = \"d21x\"\n[[partition]]\nname = \"a\"\noffset = 0\nsize = 0x20000\n",
        B,
        X,
    ],
    &[A, A, X],
    &[
        A,
        B,
        "[[partition]]\nname = \"b\"\noffset = 0\nsize = 0\n",
        A,
        X,
    ],
    &[
        A,
        "[[partition]]\nname = \"b\"\noffset = 4096\nsize = 0\n",
        A,
        X,
    ],
    &[
        A,
        "[[partition]]\nname = \"b\"\noffset = 4095\nsize = 4096\n",
        X,
    ],
    &[
        A,
        "[[partition]]\nname = \"b\"\noffset = 4097\nsize = 4095\n",
        X,
    ],
    &[
        A,
        "[[partition]]\nname = \"b\"\noffset = 0\nsize = 4095\n",
        X,
    ],
    &[
        A,
        "[[partition]]\nname = \"b\"\noffset = 0\nsize = 4096\n",
        X,
    ],
    &[
        A,
        "[[partition]]\nname = \"b\"\noffset = 0xFFFF_E000\nsize = 4096\n",
        X,
    ],
    &[
        A,
        "[[partition]]\nname = \"b\"\noffset = 0xFFFF_F000\nsize = 4096\n",
        X,
    ],
    &[
        A,
        "[[partition]]\nname = \"b\"\noffset = 0xFFFF_F000\nsize = 0xFFFF_F000\n",
        X,
    ],
    &[
        A,
        "[[partition]]\nname = \"b\"\noffset = 8192\nsize = 4096\n",
        X,
    ],
    // components
    &[A],
    &[A, K],
    &[
        "component = []\n",
        A,
        "[[components]]\nname = \"x\"\npackage = \"p\"\npartition = \"a\"\n",
    ],
    &[A, X, X],
    &[A, B, X, Y, "[[component]]\nname = \"y\"\n", X],
    &[A, X, "[[component]]\nname = \"y\"\n", X],
    &[
        A,
        "[[component]]\nname = \"\"\npackage = \"\"\npartition = \"a\"\n",
    ],
    &[
        A,
        "[[component]]\nname = \"",
        L32,
        "\"\npackage = \"p\"\npartition = \"a\"\n",
    ],
    &[A, "[[component]]\nname = \"", L33, "\"\n"],
    &[A, X, "package = \"\"\nfile = \"\"\n"],
    &[
        A,
        "[[component]]\nname = \"x\"\nfile = \"\"\npbp = \"\"\npbp_package = \"\"\n",
    ],
    &[
        A,
        "[[component]]\nname = \"x\"\nupdater = true\npbp = \"\"\npbp_package = \"\"\n",
    ],
    &[A, X, "updater = true\n"],
    &[A, X, "updater = true\nram = 0\n"],
    &[A, X, "partition = \"\"\n"],
    &[A, X, "partition = \"\"\nupdater = true\nram = 0\n"],
    &[A, X, "partition = \";a\"\nupdater = true\nram = 0\n"],
    &[A, X, "partition = \" \"\n"],
    &[A, X, "partition = \"\u{3000}a\\t;b;c\"\n"],
    &[A, X, "partition = \"a.\"\next_reserve = 1\n"],
    &[
        "[[partition]]\nname = \"a;b\"\noffset = 0\nsize = 4096\n",
        X,
        "partition = \"a;b\"\n",
    ],
    &[
        "[[partition]]\nname = \" a\"\noffset = 0\nsize = 4096\n",
        X,
        "partition = \" a\"\n",
    ],
    &[A, X, "ext_reserve = 512\nload_address = 1\n"],
    &[A, X, "ext_reserve = 513\n"],
    &[A, X, "ext_reserve = 0xFFFF_FFFF\n"],
    // feature sets
    &[A, B, X, Y, "package = \"p\"\nfeatures = \"f\"\n"],
    &[
        A,
        B,
        X,
        "features = \"f g\"\n",
        Y,
        "package = \"p\"\nfeatures = [\"g\", \"f\", \"g\"]\n",
    ],
    &[A, B, X, "features = [\"\"]\n", Y, "package = \"p\"\n"],
    &[
        A,
        B,
        X,
        "features = \"f\"\n",
        Y,
        "pbp_package = \"p\"\npbp_features = \"g\"\n",
    ],
    &[A, B, X, "pbp_package = \"q\"\npbp_features = \"f\"\n", Y],
    &[
        A,
        B,
        X,
        "pbp_package = \"p\"\nfeatures = \"f\"\npbp_features = \"g\"\n",
        Y,
    ],
    &[
        A,
        B,
        X,
        "pbp_package = \"p\"\nfeatures = \"f\"\npbp_features = \"g\"\n",
        Y,
        "package = \"p\"\nfeatures = \"f\"\n",
    ],
    &[
        A,
        X,
        "file = \"f\"\nfeatures = \"f\"\n[apps.p]\npartition = \"a\"\n",
    ],
    &[
        A,
        X,
        "features = \"f\"\n[apps.a]\nname = \"\"\n[apps.p]\npartition = \"a\"\n",
    ],
    &[
        A,
        X,
        "pbp_package = \"k\"\npbp_features = \"f\"\n",
        K,
        "features = \"f\"\n",
    ],
    &[
        A,
        X,
        "[apps.p]\nfeatures = \"f\"\npartition = \"a\"\n[apps.b]\nname = \"\"\n",
    ],
    // applications
    &[A, X, K],
    &[A, X, K, "name = \"\"\nfilename = \"\"\n"],
    &[A, X, K, "name = \"", L32, "\"\n"],
    &[A, X, K, "name = \"", L33, "\"\nfilename = \"\"\n"],
    &[A, X, "[apps.", L33, "]\npartition = \"a\"\n"],
    &[A, X, K, "filename = \"\"\npartition = \"z\"\n"],
    &[A, X, "[apps.k]\n"],
    &[A, X, K, "partition = \"a;b\"\n"],
    &[A, X, K, "partition = \" a\"\nload_address = 1\n"],
    &[
        A,
        X,
        K,
        "load_address = 2\n[apps.b]\nname = \"k\"\npartition = \"a\"\n",
    ],
    &[
        A,
        X,
        "[apps.b]\npartition = \"a\"\n[apps.a]\npartition = \"a\"\nname = \"b\"\n",
    ],
    &[A, X, K, "name = \"x\"\nload_address = 3\n"],
    &[A, X, K, "load_address = 0xFFFF_FFFC\n"],
    &[
        A,
        X,
        "[apps.\"] has an empty `name`\"]\npartition = \"a\"\nfilename = \"\"\n",
    ],
    // the first partition
    &[A, B, Y],
    &[A, B, Y, K, "load_address = 1\n"],
    &[
        A,
        B,
        Y,
        "[[component]]\nname = \"z\"\nfile = \"f\"\nupdater = true\nram = 1\n",
    ],
    &[
        A,
        B,
        Y,
        "[[component]]\nname = \"z\"\nfile = \"f\"\npartition = \" a;x\"\n",
    ],
];

/// The corners, those of locks, the presets of the repository, and two presets for each fault.
pub fn picked() -> Vec<Parts> {
    let corners = picked::pieced(CORNERS).into_iter();
    let corners = corners.chain(locked());
    let presets = picked::plain(&EXAMPLES);
    corners.chain(presets).chain(faults()).collect()
}

/// Presets with locks.
pub(crate) fn locked() -> Vec<Parts> {
    let pieces: Vec<_> = locks::all().map(|(pieces, _)| *pieces).collect();
    picked::pieced(&pieces)
}

// On both chips, at the second and the third entry.
fn faults() -> impl Iterator<Item = Parts> {
    let mut r = Rng::new(3);
    let each = FAULTS
        .iter()
        .flat_map(|(_, fault)| CHIPS.map(|chip| (fault, chip)));
    each.enumerate().map(move |(i, (fault, chip))| {
        let mut preset = plain::plain(chip, [3, 3, 3]);
        fault(&mut preset, 1 + i % 2, &mut r);
        vec![(spelled::text(&mut r, &preset).into_bytes(), 1)]
    })
}
