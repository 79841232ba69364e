//! Mistakes that the rules refuse.
use super::Mistake;

pub const ALL: &[Mistake] = &[
    Mistake {
        what: "no quotes",
        edits: &[("chip    = \"d13x\"", "chip    = d13x")],
        told: &["6: refused 12: not an integer: `chip` wants text in double quotes: \"d13x\""],
    },
    Mistake {
        what: "single quotes",
        edits: &[("chip    = \"d13x\"", "chip    = 'd13x'")],
        told: &["6: refused 12: not an integer: `chip` wants text in double quotes: \"d13x\""],
    },
    Mistake {
        what: "curly quotes",
        edits: &[("chip    = \"d13x\"", "chip    = “d13x”")],
        told: &["6: refused 12: not an integer: `chip` wants text in double quotes: \"d13x\""],
    },
    Mistake {
        what: "quotes of a German keyboard",
        edits: &[("\"stage desk\"", "„stage desk“")],
        told: &[
            "12: refused 12: not an integer: `product` wants text in double quotes: \"stage desk\"",
        ],
    },
    Mistake {
        what: "backticks",
        edits: &[("\"release\"", "`release`")],
        told: &[
            "8: refused 12: not an integer: `profile` wants text in double quotes: \"release\"",
        ],
    },
    Mistake {
        what: "three single quotes",
        edits: &[("\"stage desk\"", "'''stage desk'''")],
        told: &[
            "12: refused 12: not an integer: `product` wants text in double quotes: \"stage desk\"",
        ],
    },
    Mistake {
        what: "only the first quote, a single one",
        edits: &[("\"stage desk\"", "'stage desk")],
        told: &[
            "12: refused 12: not an integer: `product` wants text in double quotes: \"stage desk\"",
        ],
    },
    Mistake {
        what: "no quotes, and capitals",
        edits: &[("chip    = \"d13x\"", "chip    = D13X")],
        told: &["6: refused 12: not an integer: `chip` wants text in double quotes: \"d13x\""],
    },
    Mistake {
        what: "a path without quotes",
        edits: &[("\"blobs/env.bin\"", "blobs/env.bin")],
        told: &[
            "88: refused 12: not an integer: `file` wants text in double quotes: \"blobs/env.bin\"",
        ],
    },
    Mistake {
        what: "a version without quotes",
        edits: &[("\"2.4.1\"", "2.4")],
        told: &["13: refused 12: not an integer: `version` wants text in double quotes: \"2.4\""],
    },
    Mistake {
        what: "a date",
        edits: &[("\"2.4.1\"", "2024-05-27")],
        told: &[
            "13: refused 12: not an integer: `version` wants text in double quotes: \"2024-05-27\"",
        ],
    },
    Mistake {
        what: "a word for yes where text belongs",
        edits: &[("\"release\"", "yes")],
        told: &["8: refused 12: not an integer: `profile` wants text in double quotes: \"yes\""],
    },
    Mistake {
        what: "True for a chip",
        edits: &[("chip    = \"d13x\"", "chip    = True")],
        told: &[
            "6: refused 12: not an integer: `chip` wants text in double quotes: \"d13x\" or \"d21x\"",
        ],
    },
    Mistake {
        what: "nothing after the equals sign",
        edits: &[("chip    = \"d13x\"", "chip    =")],
        told: &[
            "6: refused 12: not an integer: nothing stands after `=`; `chip` wants text in double quotes: \"d13x\" or \"d21x\"",
        ],
    },
    Mistake {
        what: "a value in the next line",
        edits: &[("= \"stage desk\"", "=\n  \"stage desk\"")],
        told: &[
            "12: refused 12: not an integer: nothing stands after `=`; `product` wants text in double quotes",
        ],
    },
    Mistake {
        what: "braces around a value",
        edits: &[("chip    = \"d13x\"", "chip    = {d13x}")],
        told: &["6: refused 12: not an integer: `chip` wants text in double quotes: \"d13x\""],
    },
    Mistake {
        what: "no second quote",
        edits: &[("chip    = \"d13x\"", "chip    = \"d13x")],
        told: &["6: refused 4: bracket or quote never closed: a `\"` has no second one: \"d13x\""],
    },
    Mistake {
        what: "no first quote",
        edits: &[("chip    = \"d13x\"", "chip    = d13x\"")],
        told: &["6: refused 4: bracket or quote never closed: a `\"` has no second one: \"d13x\""],
    },
    Mistake {
        what: "a curly quote at the end",
        edits: &[("chip    = \"d13x\"", "chip    = \"d13x”")],
        told: &["6: refused 4: bracket or quote never closed: a `\"` has no second one: \"d13x\""],
    },
    Mistake {
        what: "a single quote at the end",
        edits: &[("\"2.4.1\"", "\"2.4.1'")],
        told: &[
            "13: refused 4: bracket or quote never closed: a `\"` has no second one: \"2.4.1\"",
        ],
    },
    Mistake {
        what: "an item without its second quote",
        edits: &[("\"spi-nor\", ", "\"spi-nor, ")],
        told: &[
            "68: refused 4: bracket or quote never closed: line 70: a `\"` has no second one: \"spi-nor\"",
        ],
    },
    Mistake {
        what: "three double quotes",
        edits: &[("\"stage desk\"", "\"\"\"stage desk\"\"\"")],
        told: &[
            "12: refused 10: text after a string: one `\"` at each end is enough: \"stage desk\"",
        ],
    },
    Mistake {
        what: "quotes inside quotes",
        edits: &[("\"stage desk\"", "\"stage \"big\" desk\"")],
        told: &[
            "12: refused 10: text after a string: `big\" desk\"` stands after \"stage \"; a quote inside a string is written `\\\"`",
        ],
    },
    Mistake {
        what: "two strings side by side",
        edits: &[("\"stage desk\"", "\"stage\" \"desk\"")],
        told: &["12: refused 10: text after a string: `\"desk\"` stands after \"stage\""],
    },
    Mistake {
        what: "a word after a string",
        edits: &[("\"stage desk\"", "\"stage\" desk")],
        told: &["12: refused 10: text after a string: `desk` stands after \"stage\""],
    },
    Mistake {
        what: "strings joined by a plus",
        edits: &[("\"stage desk\"", "\"stage \" + \"desk\"")],
        told: &["12: refused 10: text after a string: `+ \"desk\"` stands after \"stage \""],
    },
    Mistake {
        what: "a path of Windows",
        edits: &[("\"blobs/env.bin\"", "\"blobs\\env.bin\"")],
        told: &[
            "88: refused 8: unknown escape in a string: `\\e`; a backslash is written `\\\\`, and in paths `/`: \"blobs/env.bin\"",
        ],
    },
    Mistake {
        what: "a character by its number",
        edits: &[("\"stage desk\"", "\"stage \\u0041\"")],
        told: &[
            "12: refused 8: unknown escape in a string: `\\u`; a backslash is written `\\\\`, and characters as they are",
        ],
    },
    Mistake {
        what: "two quotes at each end",
        edits: &[("chip    = \"d13x\"", "chip    = \"\"d13x\"\"")],
        told: &["6: refused 10: text after a string: one `\"` at each end is enough: \"d13x\""],
    },
    Mistake {
        what: "a quote too many",
        edits: &[("chip    = \"d13x\"", "chip    = \"d13x\"\"")],
        told: &["6: refused 4: bracket or quote never closed: a `\"` has no second one: \"d13x\""],
    },
    Mistake {
        what: "a drive of Windows",
        edits: &[("\"blobs/gobos-2.4.img\"", "\"C:\\blobs\\gobos-2.4.img\"")],
        told: &[
            "95: refused 8: unknown escape in a string: `\\b`; a backslash is written `\\\\`, and in paths `/`: \"C:/blobs/gobos-2.4.img\"",
        ],
    },
    Mistake {
        what: "a list in one string without its second quote",
        edits: &[("\"pan tilt zoom rgbw\"", "\"pan tilt zoom rgbw")],
        told: &[
            "111: refused 4: bracket or quote never closed: a `\"` has no second one: \"pan tilt zoom rgbw\"",
        ],
    },
    Mistake {
        what: "a blank without width",
        edits: &[("chip    = \"d13x\"", "chip    = \u{200b}\"d13x\"")],
        told: &["6: refused 12: not an integer: it has \\u{200b}, which is not seen"],
    },
    Mistake {
        what: "a comma at the end",
        edits: &[("chip    = \"d13x\"", "chip    = \"d13x\",")],
        told: &["6: refused 10: text after a string: `,` stands after \"d13x\""],
    },
    Mistake {
        what: "a semicolon at the end",
        edits: &[("\"release\"", "\"release\";")],
        told: &["8: refused 10: text after a string: `;` stands after \"release\""],
    },
    Mistake {
        what: "a comma after a number",
        edits: &[("0x00E000", "0x00E000,")],
        told: &["33: refused 12: not an integer: `size` wants a number: 0x00E000"],
    },
    Mistake {
        what: "a semicolon after true",
        edits: &[("updater      = true", "updater      = true;")],
        told: &["57: refused 12: not an integer: `updater` wants true or false: true"],
    },
    Mistake {
        what: "a comma after a list",
        edits: &[("\"gobo\"]", "\"gobo\"],")],
        told: &["105: refused 11: array not ended: `,` stands after the list"],
    },
    Mistake {
        what: "a remark of C after a string",
        edits: &[("chip    = \"d13x\"", "chip    = \"d13x\" // the chip")],
        told: &["6: refused 10: text after a string: a remark begins with `#`"],
    },
    Mistake {
        what: "a remark of C after a number",
        edits: &[("0x00E000", "0x00E000 // 56 KiB")],
        told: &["33: refused 12: not an integer: a remark begins with `#`"],
    },
    Mistake {
        what: "a remark of C after a word without quotes",
        edits: &[("chip    = \"d13x\"", "chip    = d13x // the chip")],
        told: &[
            "6: refused 12: not an integer: `chip` wants text in double quotes: \"d13x\"; a remark begins with `#`",
        ],
    },
    Mistake {
        what: "a remark of C after nothing",
        edits: &[("media_dev_id = 0", "media_dev_id = // none")],
        told: &[
            "15: refused 12: not an integer: `media_dev_id` wants a number: 4096 or 0x1000; a remark begins with `#`",
        ],
    },
    Mistake {
        what: "a remark of C after a list",
        edits: &[("\"gobo\"]", "\"gobo\"] // all")],
        told: &["105: refused 11: array not ended: a remark begins with `#`"],
    },
    Mistake {
        what: "a remark of C",
        edits: &[("# --- the flash", "// --- the flash")],
        told: &["18: refused 5: neither a header nor an assignment: a remark begins with `#`"],
    },
    Mistake {
        what: "a remark of INI files",
        edits: &[("# --- the flash", "; --- the flash")],
        told: &["18: refused 5: neither a header nor an assignment: a remark begins with `#`"],
    },
    Mistake {
        what: "two fields in one line",
        edits: &[(
            "= 0x042000\nsize   = 0x00E000",
            "= 0x042000 size = 0x00E000",
        )],
        told: &["32: refused 12: not an integer: `size = 0x00E000` stands in a line of its own"],
    },
    Mistake {
        what: "two fields in one line, with a comma",
        edits: &[("\"calibration\" ", "\"calibration\", offset = 0x042000 ")],
        told: &[
            "31: refused 10: text after a string: `offset = 0x042000` stands in a line of its own",
        ],
    },
    Mistake {
        what: "a colon for the equals sign",
        edits: &[("chip    = \"d13x\"", "chip: \"d13x\"")],
        told: &[
            "6: refused 5: neither a header nor an assignment: `=` is missing: chip = \"d13x\"",
        ],
    },
    Mistake {
        what: "no equals sign",
        edits: &[("offset = 0x042000", "offset 0x042000")],
        told: &[
            "32: refused 5: neither a header nor an assignment: `=` is missing: offset = 0x042000",
        ],
    },
    Mistake {
        what: "no equals sign and no quotes",
        edits: &[("chip    = \"d13x\"", "chip d13x")],
        told: &[
            "6: refused 5: neither a header nor an assignment: `=` is missing after `chip`, which wants text in double quotes: \"d13x\"",
        ],
    },
    Mistake {
        what: "a tab for the equals sign",
        edits: &[("chip    = \"d13x\"", "chip\t\"d13x\"")],
        told: &[
            "6: refused 5: neither a header nor an assignment: `=` is missing: chip = \"d13x\"",
        ],
    },
    Mistake {
        what: "lines of JSON",
        edits: &[("chip    = \"d13x\"", "\"chip\": \"d13x\",")],
        told: &[
            "6: refused 5: neither a header nor an assignment: `=` is missing: chip = \"d13x\"",
        ],
    },
    Mistake {
        what: "a key alone",
        edits: &[("updater      = true", "updater")],
        told: &[
            "57: refused 5: neither a header nor an assignment: `=` is missing after `updater`, which wants true or false",
        ],
    },
    Mistake {
        what: "a minus for the equals sign",
        edits: &[("chip    = \"d13x\"", "chip - \"d13x\"")],
        told: &[
            "6: refused 5: neither a header nor an assignment: `=` is missing: chip = \"d13x\"",
        ],
    },
    Mistake {
        what: "an equals sign in a remark",
        edits: &[("chip    = \"d13x\"", "chip # = \"d13x\"")],
        told: &[
            "6: refused 5: neither a header nor an assignment: what stands after `#` is a remark",
        ],
    },
    Mistake {
        what: "a remark that goes on in the next line",
        edits: &[("SPI-NOR with", "SPI-NOR\nwith")],
        told: &[
            "2: refused 5: neither a header nor an assignment: a line is a header in brackets, key = value, or a remark after `#`",
        ],
    },
    Mistake {
        what: "two equals signs",
        edits: &[("chip    = \"d13x\"", "chip    == \"d13x\"")],
        told: &["6: refused 12: not an integer: `==` is written `=`"],
    },
    Mistake {
        what: "an arrow for the equals sign",
        edits: &[("chip    = \"d13x\"", "chip    => \"d13x\"")],
        told: &["6: refused 12: not an integer: `=>` is written `=`"],
    },
    Mistake {
        what: "a header of YAML",
        edits: &[("[image]", "image:")],
        told: &["10: refused 5: neither a header nor an assignment: a header is written [image]"],
    },
    Mistake {
        what: "a field of YAML",
        edits: &[("version      = \"2.4.1\"", "version: 2.4.1")],
        told: &[
            "13: refused 5: neither a header nor an assignment: `=` is missing after `version`, which wants text in double quotes: \"2.4.1\"",
        ],
    },
    Mistake {
        what: "no key",
        edits: &[("chip    = \"d13x\"", "        = \"d13x\"")],
        told: &[
            "6: refused 6: nothing before the equals sign: keys of board are chip, name, target, profile",
        ],
    },
    Mistake {
        what: "a line that is no field",
        edits: &[("# --- the flash, 8 MiB", "the flash, 8 MiB")],
        told: &[
            "18: refused 5: neither a header nor an assignment: a line is a header in brackets, key = value, or a remark after `#`",
        ],
    },
    Mistake {
        what: "a size in K",
        edits: &[("0x00E000", "56K")],
        told: &["33: refused 12: not an integer: `size` wants a number: 56 KiB is 57344 or 0xE000"],
    },
    Mistake {
        what: "a size in KiB",
        edits: &[("0x00E000", "56 KiB")],
        told: &["33: refused 12: not an integer: `size` wants a number: 56 KiB is 57344 or 0xE000"],
    },
    Mistake {
        what: "a size in MB, in quotes",
        edits: &[("0x200000", "\"2MB\"")],
        told: &[
            "43: partition 4 \"gobos\": refused 20: wrong kind of value: `size` is a string; it wants a number: 2 MiB is 2097152 or 0x200000",
        ],
    },
    Mistake {
        what: "a size with its unit written out",
        edits: &[("0x00E000", "0xE000 bytes")],
        told: &["33: refused 12: not an integer: `size` wants a number: 0xE000"],
    },
    Mistake {
        what: "a product",
        edits: &[("0x00E000", "56 * 1024")],
        told: &["33: refused 12: not an integer: `size` wants a number: 4096 or 0x1000"],
    },
    Mistake {
        what: "a decimal",
        edits: &[("0x042000", "264.5")],
        told: &["32: refused 12: not an integer: `offset` wants a number: 4096 or 0x1000"],
    },
    Mistake {
        what: "commas between digits",
        edits: &[("0x00E000", "57,344")],
        told: &["33: refused 12: not an integer: `size` wants a number: 4096 or 0x1000"],
    },
    Mistake {
        what: "a number in quotes",
        edits: &[("0x00E000", "\"0x00E000\"")],
        told: &[
            "33: partition 2 \"calibration\": refused 20: wrong kind of value: `size` is a string; it wants a number: 0x00E000",
        ],
    },
    Mistake {
        what: "an octal number",
        edits: &[("media_dev_id = 0", "media_dev_id = 0o17")],
        told: &["15: refused 12: not an integer: `media_dev_id` wants a number: 4096 or 0x1000"],
    },
    Mistake {
        what: "a sum",
        edits: &[("0x042000", "0x040000 + 0x2000")],
        told: &["32: refused 12: not an integer: `offset` wants a number: 4096 or 0x1000"],
    },
    Mistake {
        what: "a minus before a hexadecimal number",
        edits: &[("0x042000", "-0x042000")],
        told: &["32: refused 12: not an integer: `offset` wants a number: 4096 or 0x1000"],
    },
    Mistake {
        what: "a suffix of C",
        edits: &[("0x3004_3000", "0x3004_3000UL")],
        told: &["58: refused 12: not an integer: `ram` wants a number: 0x3004_3000"],
    },
    Mistake {
        what: "hexadecimal digits without their 0x",
        edits: &[("0x00E000", "00E000")],
        told: &["33: refused 12: not an integer: `size` wants a number: 4096 or 0x1000"],
    },
    Mistake {
        what: "a negative number",
        edits: &[("0x042000", "-4096")],
        told: &[
            "32: partition 2 \"calibration\": refused 21: integer out of range: `offset` is -4096; it is from 0 to 4294967295",
        ],
    },
    Mistake {
        what: "a digit too many",
        edits: &[("0x7F0000", "0x7F00_00000")],
        told: &[
            "47: partition 5 \"logs\": refused 21: integer out of range: `offset` is 0x7F00_00000; it is from 0 to 0xFFFFFFFF",
        ],
    },
    Mistake {
        what: "far too many digits",
        edits: &[("0x7F0000", "99999999999999999999")],
        told: &["47: refused 12: not an integer: `offset` wants a number from 0 to 4294967295"],
    },
    Mistake {
        what: "a number where text belongs",
        edits: &[("\"2.4.1\"", "2")],
        told: &[
            "13: image: refused 20: wrong kind of value: `version` is an integer; it wants text in double quotes: \"2\"",
        ],
    },
    Mistake {
        what: "True",
        edits: &[("updater      = true", "updater      = True")],
        told: &["57: refused 12: not an integer: `updater` wants true or false: true"],
    },
    Mistake {
        what: "yes",
        edits: &[("with_ext        = true", "with_ext        = yes")],
        told: &["83: refused 12: not an integer: `with_ext` wants true or false: true"],
    },
    Mistake {
        what: "off",
        edits: &[("with_ext        = true", "with_ext        = OFF")],
        told: &["83: refused 12: not an integer: `with_ext` wants true or false: false"],
    },
    Mistake {
        what: "true in quotes",
        edits: &[("updater      = true", "updater      = \"true\"")],
        told: &[
            "57: component 0 \"psram\": refused 20: wrong kind of value: `updater` is a string; it wants true or false: true",
        ],
    },
    Mistake {
        what: "1 for true",
        edits: &[("updater      = true", "updater      = 1")],
        told: &[
            "57: component 0 \"psram\": refused 20: wrong kind of value: `updater` is an integer; it wants true or false: true",
        ],
    },
    Mistake {
        what: "items without quotes",
        edits: &[(
            "[\"pan\", \"tilt\", \"zoom\", \"iris\", \"gobo\"]",
            "[pan, tilt]",
        )],
        told: &[
            "105: refused 12: not an integer: `features` wants text in double quotes: [\"pan\", \"tilt\"]",
        ],
    },
    Mistake {
        what: "items in single quotes",
        edits: &[(
            "[\"pan\", \"tilt\", \"zoom\", \"iris\", \"gobo\"]",
            "['pan', 'tilt']",
        )],
        told: &[
            "105: refused 12: not an integer: `features` wants text in double quotes: [\"pan\", \"tilt\"]",
        ],
    },
    Mistake {
        what: "one item without quotes",
        edits: &[(
            "[\"pan\", \"tilt\", \"zoom\", \"iris\", \"gobo\"]",
            "[\"pan\", tilt]",
        )],
        told: &[
            "105: refused 12: not an integer: `features` wants text in double quotes: [\"pan\", \"tilt\"]",
        ],
    },
    Mistake {
        what: "a list without quotes",
        edits: &[("\"pan tilt zoom rgbw\"", "pan tilt")],
        told: &[
            "111: refused 12: not an integer: `features` wants text in double quotes: \"pan tilt\"",
        ],
    },
    Mistake {
        what: "a number among items",
        edits: &[(
            "[\"pan\", \"tilt\", \"zoom\", \"iris\", \"gobo\"]",
            "[\"pan\", 2]",
        )],
        told: &[
            "105: application 4 \"profile-spot\": refused 20: wrong kind of value: `features` has an item that is no string; it wants text in double quotes: [\"pan\", \"2\"]",
        ],
    },
    Mistake {
        what: "round brackets",
        edits: &[(
            "[\"pan\", \"tilt\", \"zoom\", \"iris\", \"gobo\"]",
            "(\"pan\", \"tilt\")",
        )],
        told: &["105: refused 12: not an integer: `features` wants \"a b\" or [\"a\", \"b\"]"],
    },
    Mistake {
        what: "braces around items",
        edits: &[(
            "[\"pan\", \"tilt\", \"zoom\", \"iris\", \"gobo\"]",
            "{\"pan\", \"tilt\"}",
        )],
        told: &["105: refused 12: not an integer: `features` wants \"a b\" or [\"a\", \"b\"]"],
    },
    Mistake {
        what: "no brackets",
        edits: &[(
            "[\"pan\", \"tilt\", \"zoom\", \"iris\", \"gobo\"]",
            "\"pan\", \"tilt\"",
        )],
        told: &[
            "105: refused 10: text after a string: a list stands in brackets: [\"pan\", \"tilt\"]",
        ],
    },
    Mistake {
        what: "no first bracket",
        edits: &[(
            "[\"pan\", \"tilt\", \"zoom\", \"iris\", \"gobo\"]",
            "\"pan\", \"tilt\"]",
        )],
        told: &[
            "105: refused 3: closing bracket too many: a list has one `[` and one `]`: [\"pan\", \"tilt\"]",
        ],
    },
    Mistake {
        what: "no last bracket",
        edits: &[(
            "[\"pan\", \"tilt\", \"zoom\", \"iris\", \"gobo\"]",
            "[\"pan\", \"tilt\"",
        )],
        told: &["105: refused 4: bracket or quote never closed: a list ends with `]`"],
    },
    Mistake {
        what: "a last bracket in a remark",
        edits: &[(
            "[\"pan\", \"tilt\", \"zoom\", \"iris\", \"gobo\"]",
            "[\"pan\", \"tilt\" # ]",
        )],
        told: &["105: refused 4: bracket or quote never closed: a `]` after `#` is a remark"],
    },
    Mistake {
        what: "no comma between items",
        edits: &[(
            "[\"pan\", \"tilt\", \"zoom\", \"iris\", \"gobo\"]",
            "[\"pan\" \"tilt\"]",
        )],
        told: &[
            "105: refused 10: text after a string: a comma is missing between \"pan\" and \"tilt\"",
        ],
    },
    Mistake {
        what: "a bracket too many below a list",
        edits: &[("    \"watchdog\",\n]", "    \"watchdog\",\n]\n]")],
        told: &["74: refused 3: closing bracket too many: a `]` has no `[` before it"],
    },
    Mistake {
        what: "items below a list that is closed",
        edits: &[("    \"watchdog\",\n]", "] # the rest:\n    \"watchdog\"]")],
        told: &["73: refused 3: closing bracket too many: a `]` has no `[` before it"],
    },
    Mistake {
        what: "a list that is closed too early",
        edits: &[(
            "[\"pan\", \"tilt\", \"zoom\", \"iris\", \"gobo\"]",
            "[\"pan\"], \"tilt\"]",
        )],
        told: &[
            "105: refused 3: closing bracket too many: a list has one `[` and one `]`: [\"pan\", \"tilt\"]",
        ],
    },
    Mistake {
        what: "a bracket in a key",
        edits: &[("entry_offset =", "entry_offset] =")],
        told: &["119: refused 3: closing bracket too many: a key has no brackets: entry_offset"],
    },
    Mistake {
        what: "a header's bracket in its middle",
        edits: &[("[apps.profile-bar]", "[apps].profile-bar]")],
        told: &["121: refused 3: closing bracket too many: a header is written [apps.profile-bar]"],
    },
    Mistake {
        what: "a header's end in a remark",
        edits: &[("[image]", "[image # ]")],
        told: &["10: refused 4: bracket or quote never closed: a `]` after `#` is a remark"],
    },
    Mistake {
        what: "a flag with one quote",
        edits: &[("updater      = true", "updater      = \"true")],
        told: &[
            "57: refused 4: bracket or quote never closed: `updater` wants true or false: true",
        ],
    },
    Mistake {
        what: "a letter before a string",
        edits: &[("\"blobs/env.bin\"", "r\"blobs/env.bin\"")],
        told: &[
            "88: refused 12: not an integer: `file` wants text in double quotes: \"blobs/env.bin\"",
        ],
    },
    Mistake {
        what: "a bracket after a number",
        edits: &[("0x00E000", "0x00E000]")],
        told: &["33: refused 3: closing bracket too many: `size` wants a number: 0x00E000"],
    },
    Mistake {
        what: "a bracket before a string",
        edits: &[("chip    = \"d13x\"", "chip    = [\"d13x\"")],
        told: &[
            "6: refused 4: bracket or quote never closed: `chip` wants text in double quotes: \"d13x\"",
        ],
    },
    Mistake {
        what: "a list where text belongs",
        edits: &[("\"stage desk\"", "[\"stage desk\"]")],
        told: &[
            "12: image: refused 20: wrong kind of value: `product` is an array; it wants text in double quotes: \"stage desk\"",
        ],
    },
    Mistake {
        what: "true for a list",
        edits: &[("\"pan tilt zoom rgbw\"", "true")],
        told: &[
            "111: application 6 \"profile-wash\": refused 20: wrong kind of value: `features` is a boolean; it wants \"a b\" or [\"a\", \"b\"]",
        ],
    },
    Mistake {
        what: "a header without its last bracket",
        edits: &[("[board]", "[board")],
        told: &["4: refused 4: bracket or quote never closed: a header is written [board]"],
    },
    Mistake {
        what: "a header without its first bracket",
        edits: &[("[board]", "board]")],
        told: &["4: refused 3: closing bracket too many: a header is written [board]"],
    },
    Mistake {
        what: "a list's header with one bracket too few at its end",
        edits: &[("0x00E000\n\n[[partition]]", "0x00E000\n\n[[partition]")],
        told: &["35: refused 4: bracket or quote never closed: a header is written [[partition]]"],
    },
    Mistake {
        what: "a list's header with one bracket too few at its start",
        edits: &[("0x00E000\n\n[[partition]]", "0x00E000\n\n[partition]]")],
        told: &["35: refused 3: closing bracket too many: a header is written [[partition]]"],
    },
    Mistake {
        what: "a list's header in single brackets",
        edits: &[("0x00E000\n\n[[partition]]", "0x00E000\n\n[partition]")],
        told: &[
            "40: refused 13: [[..]] over something not an array: `partition` is a table since line 35: [partition]",
        ],
    },
    Mistake {
        what: "the last header of a list in single brackets",
        edits: &[("0x200000\n\n[[partition]]", "0x200000\n\n[partition]")],
        told: &[
            "45: partitions: refused 20: wrong kind of value: `partition` is a table, not an array of tables; \
             its headers are [[partition]]",
            "45: note: key \"partition\" is replaced: is [[partition]] meant? a table (line 45) counts, not an \
             array of 5 tables (line 20)",
        ],
    },
    Mistake {
        what: "a header below a list",
        edits: &[("0x00E000\n", "0x00E000\n[partition.spare]\n")],
        told: &[
            "36: refused 13: [[..]] over something not an array: `partition` is a table since line 34: [partition.spare]",
        ],
    },
    Mistake {
        what: "a table's header in double brackets",
        edits: &[("[board]", "[[board]]")],
        told: &[
            "4: board: refused 20: wrong kind of value: `board` is an array, not a table; its header is [board]",
        ],
    },
    Mistake {
        what: "an application's header in double brackets",
        edits: &[("[apps.profile-bar]", "[[apps.profile-bar]]")],
        told: &[
            "121: application 1 \"profile-bar\": refused 23: entry is not a table: it is an array; its header is [apps.profile-bar]",
        ],
    },
    Mistake {
        what: "an application's header as a list's",
        edits: &[("[apps.lamp-log]", "[[apps]]")],
        told: &[
            "135: refused 13: [[..]] over something not an array: `apps` is a table since line 101: [apps.profile-spot]",
        ],
    },
    Mistake {
        what: "something after a header",
        edits: &[("[image]", "[image];")],
        told: &[
            "10: refused 5: neither a header nor an assignment: a header is written [image], alone in its line",
        ],
    },
    Mistake {
        what: "a blank between brackets",
        edits: &[("0x00E000\n\n[[partition]]", "0x00E000\n\n[[partition] ]")],
        told: &[
            "35: refused 5: neither a header nor an assignment: a header is written [[partition]], alone in its line",
        ],
    },
    Mistake {
        what: "a header without a name",
        edits: &[("[image]", "[]")],
        told: &["10: refused 7: empty or unfinished key: no name stands between the brackets"],
    },
    Mistake {
        what: "an application without a key",
        edits: &[("[apps.profile-bar]", "[apps.]")],
        told: &["121: refused 7: empty or unfinished key: `apps.` has an empty part"],
    },
    Mistake {
        what: "a dot in a key",
        edits: &[("[apps.profile-bar]", "[apps.\"profile.bar\"]")],
        told: &[
            "121: refused 9: string not ended: a dot parts a key, also between quotes: [apps.profile-bar]",
        ],
    },
    Mistake {
        what: "a key half in quotes",
        edits: &[("entry_offset =", "\"entry\"_offset =")],
        told: &["119: refused 7: empty or unfinished key: a key needs no quotes: entry_offset"],
    },
    Mistake {
        what: "an application in one line",
        edits: &[(
            "[apps.lamp-log]",
            "[apps]\nlamp = { name = \"lamp\" }\n[apps.lamp-log]",
        )],
        told: &[
            "136: refused 12: not an integer: a table has a header of its own, [apps.lamp], and its fields below",
        ],
    },
    Mistake {
        what: "a board in one line",
        edits: &[("[board]", "board = { chip = \"d13x\" }\n[board]")],
        told: &[
            "4: refused 12: not an integer: a table has a header of its own, [board], and its fields below",
        ],
    },
    Mistake {
        what: "partitions in a list",
        edits: &[("[board]", "partition = [{ name = \"boot\" }]\n[board]")],
        told: &[
            "4: refused 12: not an integer: a table has a header of its own, [[partition]], and its fields below",
        ],
    },
    Mistake {
        what: "an application that is a word",
        edits: &[(
            "[apps.lamp-log]",
            "[apps]\nlamp = \"logs\"\n[apps.lamp-log]",
        )],
        told: &[
            "136: application 0 \"lamp\": refused 23: entry is not a table: it is a string; its header is [apps.lamp]",
        ],
    },
    Mistake {
        what: "the value of a key that there is not",
        edits: &[("[image]", "serial = A17\n[image]")],
        told: &[
            "10: refused 12: not an integer: a value is text in double quotes, a whole number such as 4096 or 0x1000, true or false, or a list in brackets",
        ],
    },
    Mistake {
        what: "a byte order mark",
        edits: &[("# Fixture", "\u{feff}# Fixture")],
        told: &[
            "1: refused 5: neither a header nor an assignment: a UTF-8 byte order mark at the start of the file; save it without",
        ],
    },
    Mistake {
        what: "a byte order mark before a header",
        edits: &[(
            "# Fixture profiles for the stage desk: the small board, SPI-NOR with erase blocks of 4 KiB.\n",
            "\u{feff}[board]\n",
        )],
        told: &[
            "1: refused 5: neither a header nor an assignment: a UTF-8 byte order mark at the start of the file; save it without",
        ],
    },
    Mistake {
        what: "a chip misspelled",
        edits: &[("chip    = \"d13x\"", "chip    = \"d13\"")],
        told: &[
            "6: board: refused 22: unknown chip, media or kind: `chip` is \"d13\" (\"d13x\"?); there are d13x, d21x",
        ],
    },
    Mistake {
        what: "a chip in capitals",
        edits: &[("chip    = \"d13x\"", "chip    = \"D13X\"")],
        told: &[
            "6: board: refused 22: unknown chip, media or kind: `chip` is \"D13X\" (\"d13x\"?); there are d13x, d21x",
        ],
    },
    Mistake {
        what: "a media misspelled",
        edits: &[("\"spi-nor\"\nmedia_dev", "\"SPI_NOR\"\nmedia_dev")],
        told: &[
            "14: image: refused 22: unknown chip, media or kind: `media` is \"SPI_NOR\" (\"spi-nor\"?); there are spi-nor, spi-nand",
        ],
    },
    Mistake {
        what: "a media that there is not",
        edits: &[("\"spi-nor\"\nmedia_dev", "\"emmc\"\nmedia_dev")],
        told: &[
            "14: image: refused 22: unknown chip, media or kind: `media` is \"emmc\"; there are spi-nor, spi-nand",
        ],
    },
    Mistake {
        what: "a kind in capitals",
        edits: &[("\"pbp\"", "\"PBP\"")],
        told: &[
            "54: component 0 \"psram\": refused 22: unknown chip, media or kind: `kind` is \"PBP\" (\"pbp\"?); there are app, pbp, raw",
        ],
    },
    Mistake {
        what: "a kind that there is not",
        edits: &[("\"raw\"", "\"blob\"")],
        told: &[
            "94: component 3 \"gobo wheels\": refused 22: unknown chip, media or kind: `kind` is \"blob\"; there are app, pbp, raw",
        ],
    },
    Mistake {
        what: "the other chip's media",
        edits: &[("\"spi-nor\"\nmedia_dev", "\"spi-nand\"\nmedia_dev")],
        told: &[
            "14: image: refused 30: media is not the chip's: d13x boots from spi-nor, not spi-nand",
        ],
    },
    Mistake {
        what: "another chip on the board than in the image",
        edits: &[("chip    = \"d13x\"", "chip    = \"d21x\"")],
        told: &[
            "14: image: refused 30: media is not the chip's: d21x boots from spi-nand, not spi-nor",
        ],
    },
    Mistake {
        what: "another platform",
        edits: &[("platform     = \"d13x\"", "platform     = \"d13\"")],
        told: &["11: image: refused 31: platform is not the chip's name: \"d13\", not \"d13x\""],
    },
    Mistake {
        what: "an empty profile",
        edits: &[("\"release\"", "\"\"")],
        told: &["8: board: refused 32: empty profile"],
    },
    Mistake {
        what: "a long name of an application",
        edits: &[("\"spots\"  ", "\"the spots that the desk shows first\"  ")],
        told: &[
            "16: image: refused 33: name of the boot application too long: \"the spots that the desk shows first\" has 35 bytes; the most is 32",
        ],
    },
    Mistake {
        what: "a target misspelled",
        edits: &[("riscv32imafc", "risc-v32imafc")],
        told: &[
            "7: board: refused 34: target is neither riscv32 nor riscv64: \"risc-v32imafc-unknown-none-elf\"; d13x takes \"riscv32imafc-unknown-none-elf\"",
        ],
    },
    Mistake {
        what: "the other chip's target",
        edits: &[("riscv32imafc", "riscv64gc")],
        told: &[
            "7: board: refused 35: target of the wrong width for the chip: \"riscv64gc-unknown-none-elf\"; d13x takes \"riscv32imafc-unknown-none-elf\"",
        ],
    },
    Mistake {
        what: "no offset",
        edits: &[("offset = 0x042000\n", "")],
        told: &[
            "30: partition 2 \"calibration\": refused 24: missing name, offset or size: no `offset`",
        ],
    },
    Mistake {
        what: "the first partition not at 0",
        edits: &[("offset = 0x000000", "offset = 0x001000")],
        told: &[
            "22: partition 0 \"boot\": refused 41: first partition does not start at 0: `offset` is 0x001000",
        ],
    },
    Mistake {
        what: "partitions in another order",
        edits: &[
            (
                "name   = \"boot\"\noffset = 0x000000\nsize   = 0x040000",
                "name   = \"was env\"\noffset = 0x040000\nsize   = 0x002000",
            ),
            (
                "name   = \"env\"                          # one copy, one block behind it as a spare\noffset = 0x040000\nsize   = 0x002000",
                "name   = \"boot\"\noffset = 0x000000\nsize   = 0x040000",
            ),
        ],
        told: &[
            "22: partition 0 \"was env\": refused 41: first partition does not start at 0: `offset` is \
             0x040000; partition 1 \"boot\" starts at 0",
        ],
    },
    Mistake {
        what: "a partition without letters",
        edits: &[("\"gobos\" ", "\"\" ")],
        told: &["41: partition 4 \"\": refused 42: empty partition name"],
    },
    Mistake {
        what: "a partition's name twice",
        edits: &[("\"logs\"   ", "\"gobos\"   ")],
        told: &[
            "46: partition 5 \"gobos\": refused 43: duplicate partition name \"gobos\", the name of partition 4",
        ],
    },
    Mistake {
        what: "a size of 0",
        edits: &[("0x00E000", "0")],
        told: &[
            "33: partition 2 \"calibration\": refused 44: partition of size 0: the erase block of spi-nor is 0x1000",
        ],
    },
    Mistake {
        what: "an offset off the blocks",
        edits: &[("0x042000", "0x042800")],
        told: &[
            "32: partition 2 \"calibration\": refused 45: offset off the erase block: `offset` is 0x042800; the \
             erase block of spi-nor is 0x1000, so 0x42000 or 0x43000 fits",
        ],
    },
    Mistake {
        what: "a size off the blocks",
        edits: &[("0x00E000", "57_000")],
        told: &[
            "33: partition 2 \"calibration\": refused 46: size off the erase block: `size` is 57_000 (0xDEA8); \
             the erase block of spi-nor is 0x1000, so 0xD000 or 0xE000 fits",
        ],
    },
    Mistake {
        what: "partitions that overlap",
        edits: &[("0x550000", "0x54F000")],
        told: &[
            "42: partition 4 \"gobos\": refused 47: partition starts before the previous end: it starts at 0x54F000, partition 3 \"profiles\" ends at 0x550000",
        ],
    },
    Mistake {
        what: "a partition beyond 4 GiB",
        edits: &[("size   = 0x010000", "size   = 0xFFFF_F000")],
        told: &[
            "48: partition 5 \"logs\": refused 48: partition ends at or above 4 GiB: it ends at 0x1007EF000; the most is 0xFFFFFFFF",
        ],
    },
    Mistake {
        what: "a component's name twice",
        edits: &[("\"env\"\nfile", "\"loader\"\nfile")],
        told: &[
            "87: component 2 \"loader\": refused 51: duplicate component name \"loader\", the name of component 1",
        ],
    },
    Mistake {
        what: "a long name of a component",
        edits: &[(
            "\"gobo wheels\"",
            "\"gobo wheels of all the moving lights\"",
        )],
        told: &[
            "93: component 3 \"gobo wheels of all the moving lights\": refused 52: component name too long: \"gobo wheels of all the moving lights\" has 36 bytes; the most is 32",
        ],
    },
    Mistake {
        what: "a package and a file",
        edits: &[(
            "file      = \"blobs/env.bin\"",
            "file      = \"blobs/env.bin\"\npackage   = \"env\"",
        )],
        told: &["88: component 2 \"env\": refused 53: both package and file"],
    },
    Mistake {
        what: "neither a package nor a file",
        edits: &[("file      = \"blobs/env.bin\"\n", "")],
        told: &["86: component 2 \"env\": refused 54: neither package nor file"],
    },
    Mistake {
        what: "both ways to a PBP",
        edits: &[("pbp_package     =", "pbp = \"p.pbp\"\npbp_package     =")],
        told: &["68: component 1 \"loader\": refused 55: both pbp and pbp_package"],
    },
    Mistake {
        what: "an updater without its address",
        edits: &[("ram          = 0x3004_3000\n", "")],
        told: &["57: component 0 \"psram\": refused 56: updater without ram"],
    },
    Mistake {
        what: "a component without a partition",
        edits: &[("partition = \"env\"\n", "")],
        told: &["86: component 2 \"env\": refused 57: no partition and no updater"],
    },
    Mistake {
        what: "a partition misspelled",
        edits: &[("\"boot;mtd\"", "\"bot;mtd\"")],
        told: &[
            "75: component 1 \"loader\": refused 58: unknown partition \"bot\" (\"boot\"?); there are boot, env, calibration, profiles, gobos, logs",
        ],
    },
    Mistake {
        what: "a partition in capitals",
        edits: &[("partition = \"env\"", "partition = \"ENV\"")],
        told: &[
            "89: component 2 \"env\": refused 58: unknown partition \"ENV\" (\"env\"?); there are boot, env, calibration, profiles, gobos, logs",
        ],
    },
    Mistake {
        what: "a partition that there is not",
        edits: &[("partition = \"env\"", "partition = \"spare\"")],
        told: &[
            "89: component 2 \"env\": refused 58: unknown partition \"spare\"; there are boot, env, calibration, profiles, gobos, logs",
        ],
    },
    Mistake {
        what: "a reserve that is no multiple",
        edits: &[("0x4000\n", "0x4100\n")],
        told: &[
            "84: component 1 \"loader\": refused 59: ext_reserve not a multiple of 512: `ext_reserve` is 0x4100; 0x4000 or 0x4200 fits",
        ],
    },
    Mistake {
        what: "one package with two feature sets",
        edits: &[("\"pbp-common\"", "\"pbp-psram\"")],
        told: &[
            "67: component 1 \"loader\": refused 60: two feature sets for one package \"pbp-psram\": d13x, spi-nor here, d13x, psram-8m in component 0 \"psram\"",
        ],
    },
    Mistake {
        what: "nothing in the first partition",
        edits: &[("\"boot;mtd\"", "\"logs;mtd\"")],
        told: &["components: refused 70: no component in the first partition \"boot\""],
    },
    Mistake {
        what: "an application without letters",
        edits: &[("\"LED bars\"", "\"\"")],
        told: &["122: application 1 \"profile-bar\": refused 61: empty application name"],
    },
    Mistake {
        what: "a long name of an application's",
        edits: &[("\"LED bars\"", "\"LED bars and other strips of pixels\"")],
        told: &[
            "122: application 1 \"profile-bar\": refused 62: application name too long: \"LED bars and other strips of pixels\" has 35 bytes; the most is 32",
        ],
    },
    Mistake {
        what: "an empty file name",
        edits: &[("\"lamp-hours.aic\"", "\"\"")],
        told: &["138: application 0 \"lamp-log\": refused 63: empty file name of an application"],
    },
    Mistake {
        what: "an application's partition misspelled",
        edits: &[("\"logs\"\nfilename", "\"log\"\nfilename")],
        told: &[
            "137: application 0 \"lamp-log\": refused 64: unknown partition of an application: \"log\" (\"logs\"?); there are boot, env, calibration, profiles, gobos, logs",
        ],
    },
    Mistake {
        what: "an application's partition with attributes",
        edits: &[("\"logs\"\nfilename", "\"logs;mtd\"\nfilename")],
        told: &[
            "137: application 0 \"lamp-log\": refused 64: unknown partition of an application: \"logs;mtd\" (\"logs\"?); there are boot, env, calibration, profiles, gobos, logs",
        ],
    },
    Mistake {
        what: "an application without a partition",
        edits: &[("partition = \"logs\"\n", "")],
        told: &[
            "135: application 0 \"lamp-log\": refused 64: unknown partition of an application: \"app\", which is taken where no `partition` is written; there are boot, env, calibration, profiles, gobos, logs",
        ],
    },
    Mistake {
        what: "an application's name twice",
        edits: &[("\"washes\"", "\"spots\"")],
        told: &[
            "109: application 6 \"profile-wash\": refused 65: duplicate application name \"spots\", the name of application 4 \"profile-spot\"",
        ],
    },
    Mistake {
        what: "an address between two words",
        edits: &[("0x40700000\nentry", "0x40700002\nentry")],
        told: &[
            "118: application 2 \"profile-beam\": refused 66: load address not a multiple of 4: `load_address` is 0x40700002; 0x40700000 or 0x40700004 fits",
        ],
    },
    Mistake {
        what: "a number that was meant to be hexadecimal",
        edits: &[("offset = 0x050000", "offset = 050000")],
        told: &[
            "37: partition 3 \"profiles\": refused 45: offset off the erase block: `offset` is 050000 (0xC350); \
             the erase block of spi-nor is 0x1000, so 0xC000 or 0xD000 fits",
        ],
    },
    Mistake {
        what: "a media without its bus",
        edits: &[("media        = \"spi-nor\"", "media        = \"nor\"")],
        told: &[
            "14: image: refused 22: unknown chip, media or kind: `media` is \"nor\" (\"spi-nor\"?); there are \
             spi-nor, spi-nand",
        ],
    },
    Mistake {
        what: "attributes of a reference after a blank",
        edits: &[(
            "partition       = \"boot;mtd\"",
            "partition       = \"boot mtd\"",
        )],
        told: &[
            "75: component 1 \"loader\": refused 58: unknown partition \"boot mtd\" (\"boot\"?); there are \
             boot, env, calibration, profiles, gobos, logs",
        ],
    },
    Mistake {
        what: "an application's header without its key",
        edits: &[("[apps.profile-spot]", "[apps]")],
        told: &[
            "105: application 0 \"features\": refused 23: entry is not a table: it is an array; `features` is a \
             field of an application, whose header is [apps.KEY]",
        ],
    },
    Mistake {
        what: "a bracket too many after a list over many lines",
        edits: &[("    \"watchdog\",\n]", "    \"watchdog\"]]")],
        told: &["68: refused 3: closing bracket too many: a `]` has no `[` before it"],
    },
    Mistake {
        what: "a field in a header's line",
        edits: &[(
            "[[partition]]\nname   = \"env\"   ",
            "[[partition]] name   = \"env\"   ",
        )],
        told: &[
            "26: partition 0 \"boot\": refused 41: first partition does not start at 0: `offset` is 0x040000",
            "25: note: partition 0 \"boot\": unknown key \"[[partition]] name\" is passed over (a header stands \
             alone in its line)",
            "26: note: partition 0 \"boot\": key \"offset\" is assigned again, and 1 more up to line 27: are \
             lines there twice, or is a header such as [[partition]] lost before line 26? offset: 0x040000 \
             (line 26) counts, not 0x000000 (line 22); size: 0x002000 (line 27) counts, not 0x040000 (line 23)",
        ],
    },
];
