//! Mistakes in a preset with a locked partition: those that the rules refuse, then those that they accept.
use super::Mistake;

pub const ALL: &[Mistake] = &[
    Mistake {
        what: "an application is moved into the locked partition",
        edits: &[("partition    = \"trims\"", "partition    = \"calib\"")],
        told: &[
            "85: application 2 \"trim-editor\": refused 67: partition \"calib\" is locked; open are boot, env, \
             profiles, trims, logs",
        ],
    },
    Mistake {
        what: "an application goes to the locked partition with attributes",
        edits: &[("partition    = \"trims\"", "partition    = \"calib;mtd\"")],
        told: &[
            "85: application 2 \"trim-editor\": refused 64: unknown partition of an application: \"calib;mtd\" \
             (\"calib\"?); there are boot, env, calib (locked), profiles, trims, logs",
        ],
    },
    Mistake {
        what: "an application goes to the locked partition in capitals",
        edits: &[("partition    = \"trims\"", "partition    = \"CALIB\"")],
        told: &[
            "85: application 2 \"trim-editor\": refused 64: unknown partition of an application: \"CALIB\" \
             (\"calib\"?); there are boot, env, calib (locked), profiles, trims, logs",
        ],
    },
    Mistake {
        what: "an application's partition is lost, and the one named app is locked",
        edits: &[
            ("name   = \"calib\"", "name   = \"app\""),
            ("\"calib;mtd\"", "\"app;mtd\""),
            ("partition = \"logs\"\n", ""),
        ],
        told: &[
            "89: application 1 \"lamp-log\": refused 67: partition \"app\" is locked; it is taken where no \
             `partition` is written; open are boot, env, profiles, trims, logs",
        ],
    },
    Mistake {
        what: "the lock is pasted into the next partition too",
        edits: &[("size   = 0x200000", "size   = 0x200000\nlocked = true")],
        told: &[
            "80: application 0 \"follow-spot\": refused 67: partition \"profiles\" is locked; open are boot, \
             env, trims, logs",
        ],
    },
    Mistake {
        what: "everything is locked but what boots",
        edits: &[
            ("size   = 0x002000", "size   = 0x002000\nlocked = true"),
            ("size   = 0x200000", "size   = 0x200000\nlocked = true"),
            ("locked = false", "locked = true"),
            (
                "size   = 0x040000\n\n# ---",
                "size   = 0x040000\nlocked = true\n\n# ---",
            ),
        ],
        told: &[
            "82: application 0 \"follow-spot\": refused 67: partition \"profiles\" is locked; open is boot",
        ],
    },
    Mistake {
        what: "an application of a name that is taken is moved into the locked partition",
        edits: &[(
            "name      = \"lamp hours\"\npartition = \"logs\"",
            "name      = \"follow spot\"\npartition = \"calib\"",
        )],
        told: &[
            "91: application 1 \"lamp-log\": refused 67: partition \"calib\" is locked; open are boot, env, \
             profiles, trims, logs",
        ],
    },
    Mistake {
        what: "a lock in quotes",
        edits: &[("locked = true ", "locked = \"true\"")],
        told: &[
            "31: partition 2 \"calib\": refused 20: wrong kind of value: `locked` is a string; it wants true or \
             false: true",
        ],
    },
    Mistake {
        what: "a lock in quotes, by another word",
        edits: &[("locked = true ", "locked = \"yes\"")],
        told: &[
            "31: partition 2 \"calib\": refused 20: wrong kind of value: `locked` is a string; it wants true or \
             false: true",
        ],
    },
    Mistake {
        what: "a lock by a number",
        edits: &[("locked = true ", "locked = 1")],
        told: &[
            "31: partition 2 \"calib\": refused 20: wrong kind of value: `locked` is an integer; it wants true \
             or false: true",
        ],
    },
    Mistake {
        what: "a lock by another number",
        edits: &[("locked = false", "locked = 0")],
        told: &[
            "42: partition 4 \"trims\": refused 20: wrong kind of value: `locked` is an integer; it wants true \
             or false: false",
        ],
    },
    Mistake {
        what: "a lock by a word",
        edits: &[("locked = true ", "locked = yes")],
        told: &["31: refused 12: not an integer: `locked` wants true or false: true"],
    },
    Mistake {
        what: "a lock with a capital",
        edits: &[("locked = true ", "locked = True")],
        told: &["31: refused 12: not an integer: `locked` wants true or false: true"],
    },
    Mistake {
        what: "a lock for somebody",
        edits: &[("locked = true ", "locked = \"factory\"")],
        told: &[
            "31: partition 2 \"calib\": refused 20: wrong kind of value: `locked` is a string; it wants true or \
             false",
        ],
    },
    Mistake {
        what: "a lock in a list",
        edits: &[("locked = true ", "locked = [\"profiles\"]")],
        told: &[
            "31: partition 2 \"calib\": refused 20: wrong kind of value: `locked` is an array; it wants true or \
             false",
        ],
    },
    Mistake {
        what: "a lock without its value",
        edits: &[("locked = true ", "locked =")],
        told: &[
            "31: refused 12: not an integer: nothing stands after `=`; `locked` wants true or false",
        ],
    },
    Mistake {
        what: "a lock by its name alone",
        edits: &[("locked = true ", "locked")],
        told: &[
            "31: refused 5: neither a header nor an assignment: `=` is missing after `locked`, which wants true \
             or false",
        ],
    },
    Mistake {
        what: "a lock with a colon",
        edits: &[("locked = true ", "locked: true")],
        told: &["31: refused 5: neither a header nor an assignment: `=` is missing: locked = true"],
    },
    Mistake {
        what: "a lock in braces",
        edits: &[("locked = true ", "locked = { apps = true }")],
        told: &["31: refused 12: not an integer: `locked` wants true or false"],
    },
    Mistake {
        what: "a lock by a header",
        edits: &[("locked = true ", "[partition.locked]")],
        told: &[
            "33: refused 13: [[..]] over something not an array: `partition` is a table since line 31: \
             [partition.locked]",
        ],
    },
    Mistake {
        what: "a lock in quotes where the size is lost too",
        edits: &[("size   = 0x03E000\nlocked = true ", "locked = \"true\"")],
        told: &["27: partition 2 \"calib\": refused 24: missing name, offset or size: no `size`"],
    },
    Mistake {
        what: "the header of the locked partition is lost",
        edits: &[("[[partition]]\nname   = \"calib\"", "name   = \"calib\"")],
        told: &[
            "64: component 1 \"env\": refused 58: unknown partition \"env\"; there are boot, calib, profiles, \
             trims, logs",
            "27: note: partition 1 \"calib\": key \"name\" is assigned again, and 2 more up to line 29: is a \
             header such as [[partition]] lost before line 27? name: \"calib\" (line 27) counts, not \"env\" \
             (line 23); offset: 0x042000 (line 28) counts, not 0x040000 (line 24); size: 0x03E000 (line 29) \
             counts, not 0x002000 (line 25)",
        ],
    },
    Mistake {
        what: "the header after the locked partition is lost",
        edits: &[(
            "[[partition]]\nname   = \"profiles\"",
            "name   = \"profiles\"",
        )],
        told: &[
            "72: component 2 \"factory calibration\": refused 58: unknown partition \"calib\"; there are boot, \
             env, profiles, trims, logs",
            "33: note: partition 2 \"profiles\": key \"name\" is assigned again, and 2 more up to line 35: is a \
             header such as [[partition]] lost before line 33? name: \"profiles\" (line 33) counts, not \
             \"calib\" (line 28); offset: 0x080000 (line 34) counts, not 0x042000 (line 29); size: 0x200000 \
             (line 35) counts, not 0x03E000 (line 30)",
        ],
    },
    Mistake {
        what: "the header of the locked partition is in the plural",
        edits: &[(
            "[[partition]]\nname   = \"calib\"",
            "[[partitions]]\nname   = \"calib\"",
        )],
        told: &[
            "73: component 2 \"factory calibration\": refused 58: unknown partition \"calib\"; there are boot, \
             env, profiles, trims, logs",
            "27: note: key \"partitions\" is passed over, since there is \"partition\"",
        ],
    },
    Mistake {
        what: "a lock cut short",
        edits: &[("locked = true ", "lock = true")],
        told: &[
            "ok: d13x, spi-nor, 6 partitions, 3 components, 3 applications",
            "31: note: partition 2 \"calib\": unknown key \"lock\" is passed over (locked?)",
        ],
    },
    Mistake {
        what: "a lock in capitals",
        edits: &[("locked = true ", "LOCKED = true")],
        told: &[
            "ok: d13x, spi-nor, 6 partitions, 3 components, 3 applications",
            "31: note: partition 2 \"calib\": unknown key \"LOCKED\" is passed over (locked?)",
        ],
    },
    Mistake {
        what: "a lock with swapped letters",
        edits: &[("locked = true ", "lokced = true")],
        told: &[
            "ok: d13x, spi-nor, 6 partitions, 3 components, 3 applications",
            "31: note: partition 2 \"calib\": unknown key \"lokced\" is passed over (locked?)",
        ],
    },
    Mistake {
        what: "a lock by a longer word",
        edits: &[("locked = true ", "is_locked = true")],
        told: &[
            "ok: d13x, spi-nor, 6 partitions, 3 components, 3 applications",
            "31: note: partition 2 \"calib\": unknown key \"is_locked\" is passed over (locked?)",
        ],
    },
    Mistake {
        what: "a lock by another word",
        edits: &[("locked = true ", "read_only = true")],
        told: &[
            "ok: d13x, spi-nor, 6 partitions, 3 components, 3 applications",
            "31: note: partition 2 \"calib\": unknown key \"read_only\" is passed over",
        ],
    },
    Mistake {
        what: "a lock in a component",
        edits: &[(
            "filename  = \"calib.img\"",
            "filename  = \"calib.img\"\nlocked    = true",
        )],
        told: &[
            "ok: d13x, spi-nor, 6 partitions, 3 components, 3 applications",
            "73: note: component 2 \"factory calibration\": unknown key \"locked\" is passed over (a key of \
             [[partition]])",
        ],
    },
    Mistake {
        what: "a lock in an application",
        edits: &[(
            "partition    = \"trims\"",
            "partition    = \"trims\"\nlocked       = true",
        )],
        told: &[
            "ok: d13x, spi-nor, 6 partitions, 3 components, 3 applications",
            "86: note: application 2 \"trim-editor\": unknown key \"locked\" is passed over (a key of \
             [[partition]])",
        ],
    },
    Mistake {
        what: "a lock in the board",
        edits: &[("chip = \"d13x\"", "chip = \"d13x\"\nlocked = true")],
        told: &[
            "ok: d13x, spi-nor, 6 partitions, 3 components, 3 applications",
            "7: note: board: unknown key \"locked\" is passed over (a key of [[partition]])",
        ],
    },
    Mistake {
        what: "a lock before the first header",
        edits: &[("[board]", "locked = true\n[board]")],
        told: &[
            "ok: d13x, spi-nor, 6 partitions, 3 components, 3 applications",
            "4: note: unknown key \"locked\" is passed over (a key of [[partition]])",
        ],
    },
    Mistake {
        what: "a lock that is there twice",
        edits: &[("locked = true ", "locked = true\nlocked = true ")],
        told: &[
            "ok: d13x, spi-nor, 6 partitions, 3 components, 3 applications",
            "32: note: partition 2 \"calib\": key \"locked\" is assigned again: true (line 32) counts, the same \
             as before (line 31)",
        ],
    },
    Mistake {
        what: "a lock that is taken back",
        edits: &[("locked = true ", "locked = true\nlocked = false ")],
        told: &[
            "ok: d13x, spi-nor, 6 partitions, 3 components, 3 applications",
            "32: note: partition 2 \"calib\": key \"locked\" is assigned again: false (line 32) counts, not true \
             (line 31)",
        ],
    },
    Mistake {
        what: "a partition is named like the locked one, with a remark",
        edits: &[
            ("name   = \"trims\" ", "name   = \"calib;trims\""),
            ("partition    = \"trims\"", "partition    = \"calib;trims\""),
        ],
        told: &[
            "ok: d13x, spi-nor, 6 partitions, 3 components, 3 applications",
            "85: note: application 2 \"trim-editor\": it is planned into partition 2 \"calib\", which is locked: \
             its reference is cut at `;` and trimmed, and that leaves \"calib\", not partition 4 \"calib;trims\" \
             (line 39)",
            "85: note: application 2 \"trim-editor\": it shares partition \"calib\" with component 2 \"factory \
             calibration\" (line 73)",
        ],
    },
    Mistake {
        what: "a partition is named like the locked one, with a blank",
        edits: &[
            ("name   = \"trims\" ", "name   = \"calib \""),
            ("partition    = \"trims\"", "partition    = \"calib \""),
        ],
        told: &[
            "ok: d13x, spi-nor, 6 partitions, 3 components, 3 applications",
            "39: note: partition 4 \"calib \": its name differs only in white space at its ends from the name of \
             partition 2 \"calib\" (line 28)",
            "85: note: application 2 \"trim-editor\": it is planned into partition 2 \"calib\", which is locked: \
             its reference is cut at `;` and trimmed, and that leaves \"calib\", not partition 4 \"calib \" \
             (line 39)",
            "85: note: application 2 \"trim-editor\": it shares partition \"calib\" with component 2 \"factory \
             calibration\" (line 73)",
        ],
    },
    Mistake {
        what: "a partition is named like the locked one, with a capital",
        edits: &[
            ("name   = \"trims\" ", "name   = \"Calib\""),
            ("partition    = \"trims\"", "partition    = \"Calib\""),
        ],
        told: &[
            "ok: d13x, spi-nor, 6 partitions, 3 components, 3 applications",
            "39: note: partition 4 \"Calib\": its name differs only in case from the name of partition 2 \
             \"calib\" (line 28)",
        ],
    },
];
