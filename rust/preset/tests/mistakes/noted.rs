//! Mistakes that the rules accept.
use super::Mistake;

pub const ALL: &[Mistake] = &[
    // Headers that are lost: what follows goes on with the entry above.
    Mistake {
        what: "the header of the last component is lost",
        edits: &[(
            "[[component]]\nname      = \"gobo wheels\"",
            "name      = \"gobo wheels\"",
        )],
        told: &[
            "ok: d13x, spi-nor, 6 partitions, 3 components, 7 applications",
            "92: note: component 2 \"gobo wheels\": key \"name\" is assigned again, and 2 more up to line 96: \
             is a header such as [[component]] lost before line 92? name: \"gobo wheels\" (line 92) counts, not \
             \"env\" (line 87); file: \"blobs/gobos-2.4.img\" (line 94) counts, not \"blobs/env.bin\" (line \
             88); partition: \" gobos ;mtd\" (line 96) counts, not \"env\" (line 89)",
        ],
    },
    Mistake {
        what: "a header is commented out",
        edits: &[(
            "[[component]]\nname      = \"gobo wheels\"",
            "# [[component]]\nname      = \"gobo wheels\"",
        )],
        told: &[
            "ok: d13x, spi-nor, 6 partitions, 3 components, 7 applications",
            "93: note: component 2 \"gobo wheels\": key \"name\" is assigned again, and 2 more up to line 97: \
             is a header such as [[component]] lost before line 93? name: \"gobo wheels\" (line 93) counts, not \
             \"env\" (line 87); file: \"blobs/gobos-2.4.img\" (line 95) counts, not \"blobs/env.bin\" (line \
             88); partition: \" gobos ;mtd\" (line 97) counts, not \"env\" (line 89)",
        ],
    },
    Mistake {
        what: "the header of a partition is lost",
        edits: &[(
            "[[partition]]\nname   = \"profiles\"",
            "name   = \"profiles\"",
        )],
        told: &[
            "ok: d13x, spi-nor, 5 partitions, 4 components, 7 applications",
            "35: note: partition 2 \"profiles\": key \"name\" is assigned again, and 2 more up to line 37: is a \
             header such as [[partition]] lost before line 35? name: \"profiles\" (line 35) counts, not \
             \"calibration\" (line 31); offset: 0x050000 (line 36) counts, not 0x042000 (line 32); size: \
             0x500000 (line 37) counts, not 0x00E000 (line 33)",
        ],
    },
    Mistake {
        what: "the header of an application is lost",
        edits: &[("[apps.profile-beam]\n", "")],
        told: &[
            "ok: d13x, spi-nor, 6 partitions, 4 components, 6 applications",
            "114: note: application 5 \"profile-wash\": key \"name\" is assigned again, and 3 more up to line \
             117: is a header such as [apps.KEY] lost before line 114? name: \"beams\" (line 114) counts, not \
             \"washes\" (line 109); partition: \"profiles\" (line 115) counts, the same as before (line 110); \
             features: \"pan,tilt,prism,frost\" (line 116) counts, not \"pan tilt zoom rgbw\" (line 111); \
             load_address: 0x40700000 (line 117) counts, the same as before (line 112)",
        ],
    },
    Mistake {
        what: "the header of the application that boots first is lost",
        edits: &[("[apps.profile-spot]\n", "")],
        told: &[
            "ok: d13x, spi-nor, 6 partitions, 4 components, 6 applications",
            "101: note: component 3 \"spots\": key \"name\" is assigned again, and 2 more up to line 103: is a \
             header such as [[component]] lost before line 101? name: \"spots\" (line 101) counts, not \"gobo \
             wheels\" (line 93); partition: \"profiles\" (line 102) counts, not \" gobos ;mtd\" (line 97); \
             filename: \"spots.aic\" (line 103) counts, not \"gobos.img\" (line 96)",
            "109: note: application 5 \"profile-wash\": it and 4 more applications share partition \"profiles\" \
             with component 3 \"spots\" (line 102)",
        ],
    },
    Mistake {
        what: "the header of the application after it is lost",
        edits: &[("[apps.profile-wash]\n", "")],
        told: &[
            "ok: d13x, spi-nor, 6 partitions, 4 components, 6 applications",
            "16: note: image: its app \"spots\" is the name of no application",
            "108: note: application 4 \"profile-spot\": key \"name\" is assigned again, and 3 more up to line \
             111: is a header such as [apps.KEY] lost before line 108? name: \"washes\" (line 108) counts, not \
             \"spots\" (line 102); partition: \"profiles\" (line 109) counts, the same as before (line 103); \
             features: \"pan tilt zoom rgbw\" (line 110) counts, not [\"pan\", \"tilt\", \"zoom\", \"iris\", \
             \"gobo\"] (line 105); load_address: 0x40700000 (line 111) counts, the same as before (line 106)",
        ],
    },
    Mistake {
        what: "the last header is lost",
        edits: &[("[apps.lamp-log]\n", "")],
        told: &[
            "ok: d13x, spi-nor, 6 partitions, 4 components, 6 applications",
            "135: note: application 2 \"profile-par\": key \"name\" is assigned again, and 1 more up to line \
             136: is a header such as [apps.KEY] lost before line 135? name: \"lamp hours\" (line 135) counts, \
             not \"PAR cans\" (line 132); partition: \"logs\" (line 136) counts, not \"profiles\" (line 133)",
        ],
    },
    Mistake {
        what: "two headers of applications are lost",
        edits: &[("[apps.profile-wash]\n", ""), ("[apps.profile-beam]\n", "")],
        told: &[
            "ok: d13x, spi-nor, 6 partitions, 4 components, 5 applications",
            "16: note: image: its app \"spots\" is the name of no application",
            "108: note: application 3 \"profile-spot\": key \"name\" is assigned again, and 3 more up to line \
             111: is a header such as [apps.KEY] lost before line 108? name: \"washes\" (line 108) replaces \
             \"spots\" (line 102), and line 113 counts; partition: \"profiles\" (line 109) replaces \
             \"profiles\" (line 103), and line 114 counts; features: \"pan tilt zoom rgbw\" (line 110) replaces \
             [\"pan\", \"tilt\", \"zoom\", \"iris\", \"gobo\"] (line 105), and line 115 counts; load_address: \
             0x40700000 (line 111) replaces 0x40700000 (line 106), and line 116 counts",
            "113: note: application 3 \"profile-spot\": key \"name\" is assigned again, and 3 more up to line \
             116: is a header such as [apps.KEY] lost before line 113? name: \"beams\" (line 113) counts, not \
             \"washes\" (line 108); partition: \"profiles\" (line 114) counts, the same as before (line 109); \
             features: \"pan,tilt,prism,frost\" (line 115) counts, not \"pan tilt zoom rgbw\" (line 110); \
             load_address: 0x40700000 (line 116) counts, the same as before (line 111)",
        ],
    },
    Mistake {
        what: "the header of the image is lost",
        edits: &[("[image]\n", "")],
        told: &[
            "ok: d13x, spi-nor, 6 partitions, 4 components, 7 applications",
            "10: note: board: unknown key \"platform\" is passed over (a key of [image])",
            "11: note: board: unknown key \"product\" is passed over (a key of [image])",
            "12: note: board: unknown key \"version\" is passed over (a key of [image])",
            "13: note: board: unknown key \"media\" is passed over (a key of [image])",
            "14: note: board: unknown key \"media_dev_id\" is passed over (a key of [image])",
            "15: note: board: unknown key \"app\" is passed over (a key of [image])",
        ],
    },
    Mistake {
        what: "the header of the board is lost",
        edits: &[("[board]\n", "")],
        told: &[
            "ok: d13x, spi-nor, 6 partitions, 4 components, 7 applications",
            "4: note: unknown key \"name\" is passed over (a key of [board], [[partition]], [[component]], \
             [apps.KEY])",
            "5: note: unknown key \"chip\" is passed over (a key of [board])",
            "6: note: unknown key \"target\" is passed over (a key of [board])",
            "7: note: unknown key \"profile\" is passed over (a key of [board])",
        ],
    },
    // Lines that are there twice.
    Mistake {
        what: "a line is there twice",
        edits: &[("size   = 0x002000", "size   = 0x002000\nsize   = 0x002000")],
        told: &[
            "ok: d13x, spi-nor, 6 partitions, 4 components, 7 applications",
            "29: note: partition 1 \"env\": key \"size\" is assigned again: 0x002000 (line 29) counts, the same \
             as before (line 28)",
        ],
    },
    Mistake {
        what: "a value is written below the old one",
        edits: &[(
            "profile = \"release\"",
            "profile = \"release\"\nprofile = \"debug\"",
        )],
        told: &[
            "ok: d13x, spi-nor, 6 partitions, 4 components, 7 applications",
            "9: note: board: key \"profile\" is assigned again: \"debug\" (line 9) counts, not \"release\" \
             (line 8)",
        ],
    },
    Mistake {
        what: "a new version stands at the end of its table",
        edits: &[(
            "app          = \"spots\" ",
            "version      = \"2.4.2\"\napp          = \"spots\" ",
        )],
        told: &[
            "ok: d13x, spi-nor, 6 partitions, 4 components, 7 applications",
            "16: note: image: key \"version\" is assigned again: \"2.4.2\" (line 16) counts, not \"2.4.1\" \
             (line 13)",
        ],
    },
    Mistake {
        what: "a chip is written again",
        edits: &[(
            "target  = \"riscv32",
            "chip    = \"d13x\"\ntarget  = \"riscv32",
        )],
        told: &[
            "ok: d13x, spi-nor, 6 partitions, 4 components, 7 applications",
            "7: note: board: key \"chip\" is assigned again: \"d13x\" (line 7) counts, the same as before (line \
             6)",
        ],
    },
    Mistake {
        what: "a feature list is written again in the other way",
        edits: &[(
            "load_address = 0x40700000\nentry_offset = 0x100",
            "load_address = 0x40700000\nentry_offset = 0x100\nfeatures     = [\"pan\", \"tilt\"]",
        )],
        told: &[
            "ok: d13x, spi-nor, 6 partitions, 4 components, 7 applications",
            "120: note: application 2 \"profile-beam\": key \"features\" is assigned again: [\"pan\", \"tilt\"] \
             (line 120) counts, not \"pan,tilt,prism,frost\" (line 117)",
        ],
    },
    Mistake {
        what: "a list over many lines is written again",
        edits: &[(
            "pbp_features    = \"d13x,spi-nor\"",
            "pbp_features    = \"d13x,spi-nor\"\nfeatures        = [\n    \"d13x\",\n    \"spi-nor\",\n]",
        )],
        told: &[
            "ok: d13x, spi-nor, 6 partitions, 4 components, 7 applications",
            "75: note: component 1 \"loader\": key \"features\" is assigned again: [\"d13x\", \"spi-nor\"] \
             (line 75) counts, not [\"d13x\", \"spi-nor\", \"watchdog\"] (line 68)",
        ],
    },
    Mistake {
        what: "an address is written three times",
        edits: &[(
            "ram             = 0x4010_0000",
            "ram             = 0x4010_0000\nram             = 0x4020_0000\nram             = 0x4030_0000",
        )],
        told: &[
            "ok: d13x, spi-nor, 6 partitions, 4 components, 7 applications",
            "78: note: component 1 \"loader\": key \"ram\" is assigned again: 0x4020_0000 (line 78) replaces \
             0x4010_0000 (line 77), and line 79 counts",
            "79: note: component 1 \"loader\": key \"ram\" is assigned again: 0x4030_0000 (line 79) counts, not \
             0x4020_0000 (line 78)",
        ],
    },
    Mistake {
        what: "a flag is turned off below where it is turned on",
        edits: &[(
            "with_ext        = true",
            "with_ext        = true\nwith_ext        = false",
        )],
        told: &[
            "ok: d13x, spi-nor, 6 partitions, 4 components, 7 applications",
            "84: note: component 1 \"loader\": key \"with_ext\" is assigned again: false (line 84) counts, not \
             true (line 83)",
        ],
    },
    Mistake {
        what: "a name is written again directly below",
        edits: &[(
            "name      = \"LED bars\"",
            "name      = \"LED bars\"\nname      = \"bars\"",
        )],
        told: &[
            "ok: d13x, spi-nor, 6 partitions, 4 components, 7 applications",
            "123: note: application 1 \"profile-bar\": key \"name\" is assigned again: \"bars\" (line 123) \
             counts, not \"LED bars\" (line 122)",
        ],
    },
    Mistake {
        what: "a name is written again at the end of its entry",
        edits: &[(
            "features  = \"dimmer strobe\"",
            "features  = \"dimmer strobe\"\nname      = \"strobes 2\"",
        )],
        told: &[
            "ok: d13x, spi-nor, 6 partitions, 4 components, 7 applications",
            "130: note: application 5 \"profile-strobe\": key \"name\" is assigned again: is a header such as \
             [apps.KEY] lost before line 130? \"strobes 2\" (line 130) counts, not \"strobes\" (line 127)",
        ],
    },
    Mistake {
        what: "lines of an entry are pasted twice",
        edits: &[(
            "attr      = \"mtd;optional\"\n\n[[component]]",
            "attr      = \"mtd;optional\"\npartition = \"env\"\nattr      = \"mtd;optional\"\n\n[[component]]",
        )],
        told: &[
            "ok: d13x, spi-nor, 6 partitions, 4 components, 7 applications",
            "91: note: component 2 \"env\": key \"partition\" is assigned again, and 1 more up to line 92: are \
             lines there twice? partition: \"env\" (line 91) counts, the same as before (line 89); attr: \
             \"mtd;optional\" (line 92) counts, the same as before (line 90)",
        ],
    },
    Mistake {
        what: "lines of a partition are pasted and edited without their header",
        edits: &[(
            "size   = 0x010000\n",
            "size   = 0x010000\noffset = 0x7E0000\nsize   = 0x020000\n",
        )],
        told: &[
            "ok: d13x, spi-nor, 6 partitions, 4 components, 7 applications",
            "49: note: partition 5 \"logs\": key \"offset\" is assigned again, and 1 more up to line 50: are \
             lines there twice, or is a header such as [[partition]] lost before line 49? offset: 0x7E0000 \
             (line 49) counts, not 0x7F0000 (line 47); size: 0x020000 (line 50) counts, not 0x010000 (line 48)",
        ],
    },
    Mistake {
        what: "a partition is pasted without its header",
        edits: &[(
            "size   = 0x00E000",
            "size   = 0x00E000\nname   = \"spare\"\noffset = 0x042000\nsize   = 0x001000",
        )],
        told: &[
            "ok: d13x, spi-nor, 6 partitions, 4 components, 7 applications",
            "34: note: partition 2 \"spare\": key \"name\" is assigned again, and 2 more up to line 36: is a \
             header such as [[partition]] lost before line 34? name: \"spare\" (line 34) counts, not \
             \"calibration\" (line 31); offset: 0x042000 (line 35) counts, the same as before (line 32); size: \
             0x001000 (line 36) counts, not 0x00E000 (line 33)",
        ],
    },
    Mistake {
        what: "a key is assigned with dots once more",
        edits: &[(
            "[apps.lamp-log]",
            "[apps]\nprofile-par.name = \"PARs\"\n\n[apps.lamp-log]",
        )],
        told: &[
            "ok: d13x, spi-nor, 6 partitions, 4 components, 7 applications",
            "136: note: application 3 \"profile-par\": key \"name\" is assigned again: \"PARs\" (line 136) \
             counts, not \"PAR cans\" (line 132)",
        ],
    },
    // Tables that come again.
    Mistake {
        what: "the board is written again at the end",
        edits: &[(
            "filename  = \"lamp-hours.aic\"\nattr      = \"mtd;optional\"\n",
            "filename  = \"lamp-hours.aic\"\nattr      = \"mtd;optional\"\n\n[board]\nprofile = \"debug\"\n",
        )],
        told: &[
            "ok: d13x, spi-nor, 6 partitions, 4 components, 7 applications",
            "141: note: [board] comes again and goes on with the table of line 4; key \"profile\" is assigned \
             again: \"debug\" (line 142) counts, not \"release\" (line 8)",
        ],
    },
    Mistake {
        what: "the image is gone on with at the end",
        edits: &[(
            "filename  = \"lamp-hours.aic\"\nattr      = \"mtd;optional\"\n",
            "filename  = \"lamp-hours.aic\"\nattr      = \"mtd;optional\"\n\n[image]\nmedia_id = \"x\"\n",
        )],
        told: &[
            "ok: d13x, spi-nor, 6 partitions, 4 components, 7 applications",
            "141: note: [image] comes again and goes on with the table of line 10",
        ],
    },
    Mistake {
        what: "an application is pasted and its key is not edited",
        edits: &[(
            "[apps.profile-strobe]",
            "[apps.profile-bar]\nname      = \"LED rings\"\npartition = \"profiles\"\nfeatures  = [\"rgbw\", \"ring\"]\n\n[apps.profile-strobe]",
        )],
        told: &[
            "ok: d13x, spi-nor, 6 partitions, 4 components, 7 applications",
            "126: note: [apps.profile-bar] comes again and goes on with the table of line 121; key \"name\" is \
             assigned again, and 2 more up to line 129: is another [apps.KEY] meant? name: \"LED rings\" (line \
             127) counts, not \"LED bars\" (line 122); partition: \"profiles\" (line 128) counts, the same as \
             before (line 123); features: [\"rgbw\", \"ring\"] (line 129) counts, not [\"rgbw\", \"pixel\"] \
             (line 124)",
        ],
    },
    Mistake {
        what: "the header of an application is there twice",
        edits: &[(
            "[apps.profile-strobe]\n",
            "[apps.profile-strobe]\n[apps.profile-strobe]\n",
        )],
        told: &[
            "ok: d13x, spi-nor, 6 partitions, 4 components, 7 applications",
            "127: note: [apps.profile-strobe] comes again and goes on with the table of line 126: is another \
             [apps.KEY] meant?",
        ],
    },
    Mistake {
        what: "an application is pasted twice as it is",
        edits: &[(
            "[apps.profile-par] ",
            "[apps.profile-strobe]\nname      = \"strobes\"\npartition = \"profiles\"\nfeatures  = \"dimmer strobe\"\n\n[apps.profile-par] ",
        )],
        told: &[
            "ok: d13x, spi-nor, 6 partitions, 4 components, 7 applications",
            "131: note: [apps.profile-strobe] comes again and goes on with the table of line 126; key \"name\" \
             is assigned again, and 2 more up to line 134: is another [apps.KEY] meant? name: \"strobes\" (line \
             132) counts, the same as before (line 127); partition: \"profiles\" (line 133) counts, the same as \
             before (line 128); features: \"dimmer strobe\" (line 134) counts, the same as before (line 129)",
        ],
    },
    // Keys that are misspelled.
    Mistake {
        what: "a key of the board is misspelled",
        edits: &[("profile = \"release\"", "profil  = \"release\"")],
        told: &[
            "ok: d13x, spi-nor, 6 partitions, 4 components, 7 applications",
            "8: note: board: unknown key \"profil\" is passed over (profile?)",
        ],
    },
    Mistake {
        what: "a key of the image is misspelled",
        edits: &[("product      =", "prodcut      =")],
        told: &[
            "ok: d13x, spi-nor, 6 partitions, 4 components, 7 applications",
            "12: note: image: unknown key \"prodcut\" is passed over (product?)",
        ],
    },
    Mistake {
        what: "a key has hyphens",
        edits: &[("media_dev_id = 0", "media-dev-id = 0")],
        told: &[
            "ok: d13x, spi-nor, 6 partitions, 4 components, 7 applications",
            "15: note: image: unknown key \"media-dev-id\" is passed over (media_dev_id?)",
        ],
    },
    Mistake {
        what: "a key of a component is misspelled",
        edits: &[(
            "load_address    = 0x40100000",
            "load_adress     = 0x40100000",
        )],
        told: &[
            "ok: d13x, spi-nor, 6 partitions, 4 components, 7 applications",
            "81: note: component 1 \"loader\": unknown key \"load_adress\" is passed over (load_address?)",
        ],
    },
    Mistake {
        what: "a key of a component has a plural",
        edits: &[("target_filename =", "target_filenames =")],
        told: &[
            "ok: d13x, spi-nor, 6 partitions, 4 components, 7 applications",
            "79: note: component 1 \"loader\": unknown key \"target_filenames\" is passed over \
             (target_filename?)",
        ],
    },
    Mistake {
        what: "a key of an application has a hyphen",
        edits: &[("entry_offset = 0x100", "entry-offset = 0x100")],
        told: &[
            "ok: d13x, spi-nor, 6 partitions, 4 components, 7 applications",
            "119: note: application 2 \"profile-beam\": unknown key \"entry-offset\" is passed over \
             (entry_offset?)",
        ],
    },
    Mistake {
        what: "a key of an application is misspelled",
        edits: &[(
            "filename  = \"lamp-hours.aic\"",
            "filname   = \"lamp-hours.aic\"",
        )],
        told: &[
            "ok: d13x, spi-nor, 6 partitions, 4 components, 7 applications",
            "138: note: application 0 \"lamp-log\": unknown key \"filname\" is passed over (filename?)",
        ],
    },
    Mistake {
        what: "a key has a singular",
        edits: &[(
            "features  = \"dimmer strobe\"",
            "feature   = \"dimmer strobe\"",
        )],
        told: &[
            "ok: d13x, spi-nor, 6 partitions, 4 components, 7 applications",
            "129: note: application 5 \"profile-strobe\": unknown key \"feature\" is passed over (features?)",
        ],
    },
    Mistake {
        what: "a key has a capital",
        edits: &[("name         = \"beams\"", "Name         = \"beams\"")],
        told: &[
            "ok: d13x, spi-nor, 6 partitions, 4 components, 7 applications",
            "115: note: application 2 \"profile-beam\": unknown key \"Name\" is passed over (name?)",
        ],
    },
    Mistake {
        what: "a key is in capitals",
        edits: &[(
            "attr         = \"ram;required\"",
            "ATTR         = \"ram;required\"",
        )],
        told: &[
            "ok: d13x, spi-nor, 6 partitions, 4 components, 7 applications",
            "59: note: component 0 \"psram\": unknown key \"ATTR\" is passed over (attr?)",
        ],
    },
    Mistake {
        what: "a key of a partition is misspelled beside the right one",
        edits: &[("size   = 0x00E000", "size   = 0x00E000\nsise   = 0x00F000")],
        told: &[
            "ok: d13x, spi-nor, 6 partitions, 4 components, 7 applications",
            "34: note: partition 2 \"calibration\": unknown key \"sise\" is passed over (size?)",
        ],
    },
    // Headers that are misspelled.
    Mistake {
        what: "the header of the board has a plural",
        edits: &[("[board]", "[boards]")],
        told: &[
            "ok: d13x, spi-nor, 6 partitions, 4 components, 7 applications",
            "4: note: unknown key \"boards\" is passed over (board?)",
        ],
    },
    Mistake {
        what: "the header of the board has a capital",
        edits: &[("[board]", "[Board]")],
        told: &[
            "ok: d13x, spi-nor, 6 partitions, 4 components, 7 applications",
            "4: note: unknown key \"Board\" is passed over (board?)",
        ],
    },
    Mistake {
        what: "the header of the image is misspelled",
        edits: &[("[image]", "[imgae]")],
        told: &[
            "ok: d13x, spi-nor, 6 partitions, 4 components, 7 applications",
            "10: note: unknown key \"imgae\" is passed over (image?)",
        ],
    },
    Mistake {
        what: "the header of a component is misspelled",
        edits: &[(
            "[[component]]\nname      = \"gobo wheels\"",
            "[[componant]]\nname      = \"gobo wheels\"",
        )],
        told: &[
            "ok: d13x, spi-nor, 6 partitions, 3 components, 7 applications",
            "92: note: unknown key \"componant\" is passed over (component?)",
        ],
    },
    Mistake {
        what: "the header of a component has a plural",
        edits: &[(
            "[[component]]\nname      = \"gobo wheels\"",
            "[[components]]\nname      = \"gobo wheels\"",
        )],
        told: &[
            "ok: d13x, spi-nor, 6 partitions, 3 components, 7 applications",
            "92: note: key \"components\" is passed over, since there is \"component\"",
        ],
    },
    Mistake {
        what: "the header of a partition is misspelled",
        edits: &[(
            "[[partition]]\nname   = \"calibration\"",
            "[[partion]]\nname   = \"calibration\"",
        )],
        told: &[
            "ok: d13x, spi-nor, 5 partitions, 4 components, 7 applications",
            "30: note: unknown key \"partion\" is passed over (partition?)",
        ],
    },
    Mistake {
        what: "the header of a partition has a plural",
        edits: &[(
            "[[partition]]\nname   = \"calibration\"",
            "[[partitions]]\nname   = \"calibration\"",
        )],
        told: &[
            "ok: d13x, spi-nor, 5 partitions, 4 components, 7 applications",
            "30: note: key \"partitions\" is passed over, since there is \"partition\"",
        ],
    },
    Mistake {
        what: "the header of an application has a singular",
        edits: &[("[apps.profile-bar]", "[app.profile-bar]")],
        told: &[
            "ok: d13x, spi-nor, 6 partitions, 4 components, 6 applications",
            "121: note: unknown key \"app\" is passed over (apps?)",
        ],
    },
    Mistake {
        what: "the header of an application has a capital",
        edits: &[("[apps.profile-bar]", "[Apps.profile-bar]")],
        told: &[
            "ok: d13x, spi-nor, 6 partitions, 4 components, 6 applications",
            "121: note: unknown key \"Apps\" is passed over (apps?)",
        ],
    },
    Mistake {
        what: "an application stands without `apps`",
        edits: &[("[apps.profile-bar]", "[profile-bar]")],
        told: &[
            "ok: d13x, spi-nor, 6 partitions, 4 components, 6 applications",
            "121: note: unknown key \"profile-bar\" is passed over",
        ],
    },
    // Keys in the wrong table.
    Mistake {
        what: "a key of the image stands in the board",
        edits: &[(
            "chip    = \"d13x\"",
            "chip    = \"d13x\"\nversion = \"2.4.1\"",
        )],
        told: &[
            "ok: d13x, spi-nor, 6 partitions, 4 components, 7 applications",
            "7: note: board: unknown key \"version\" is passed over (a key of [image])",
        ],
    },
    Mistake {
        what: "a key of the board stands in the image",
        edits: &[(
            "platform     = \"d13x\"",
            "platform     = \"d13x\"\nprofile      = \"debug\"",
        )],
        told: &[
            "ok: d13x, spi-nor, 6 partitions, 4 components, 7 applications",
            "12: note: image: unknown key \"profile\" is passed over (a key of [board])",
        ],
    },
    Mistake {
        what: "a key of a component stands in an application",
        edits: &[(
            "name      = \"LED bars\"",
            "name      = \"LED bars\"\nkind      = \"app\"",
        )],
        told: &[
            "ok: d13x, spi-nor, 6 partitions, 4 components, 7 applications",
            "123: note: application 1 \"profile-bar\": unknown key \"kind\" is passed over (a key of \
             [[component]])",
        ],
    },
    Mistake {
        what: "a key of a component stands in a partition",
        edits: &[(
            "size   = 0x00E000",
            "size   = 0x00E000\nattr   = \"mtd;optional\"",
        )],
        told: &[
            "ok: d13x, spi-nor, 6 partitions, 4 components, 7 applications",
            "34: note: partition 2 \"calibration\": unknown key \"attr\" is passed over (a key of \
             [[component]], [apps.KEY])",
        ],
    },
    Mistake {
        what: "a key of a partition stands in a component",
        edits: &[(
            "file      = \"blobs/env.bin\"",
            "file      = \"blobs/env.bin\"\nsize      = 0x2000",
        )],
        told: &[
            "ok: d13x, spi-nor, 6 partitions, 4 components, 7 applications",
            "89: note: component 2 \"env\": unknown key \"size\" is passed over (a key of [[partition]])",
        ],
    },
    Mistake {
        what: "a key of a component stands in another's place",
        edits: &[("entry_offset = 0x100", "entry_point  = 0x100")],
        told: &[
            "ok: d13x, spi-nor, 6 partitions, 4 components, 7 applications",
            "119: note: application 2 \"profile-beam\": unknown key \"entry_point\" is passed over (a key of \
             [[component]])",
        ],
    },
    Mistake {
        what: "a key stands before the first header",
        edits: &[("[board]\n", "chip = \"d21x\"\n\n[board]\n")],
        told: &[
            "ok: d13x, spi-nor, 6 partitions, 4 components, 7 applications",
            "4: note: unknown key \"chip\" is passed over (a key of [board])",
        ],
    },
    Mistake {
        what: "a table is made below an entry that has none",
        edits: &[(
            "[apps.profile-strobe]\n",
            "[apps.profile-bar.options]\nspeed = 3\n\n[apps.profile-strobe]\n",
        )],
        told: &[
            "ok: d13x, spi-nor, 6 partitions, 4 components, 7 applications",
            "126: note: application 1 \"profile-bar\": unknown key \"options\" is passed over",
        ],
    },
    // Partitions that are shared.
    Mistake {
        what: "an application goes to the boot partition",
        edits: &[("partition = \"logs\"", "partition = \"boot\"")],
        told: &[
            "ok: d13x, spi-nor, 6 partitions, 4 components, 7 applications",
            "137: note: application 0 \"lamp-log\": it shares partition \"boot\" with component 1 \"loader\" \
             (line 75)",
        ],
    },
    Mistake {
        what: "an application goes to a component's partition",
        edits: &[("partition = \"logs\"", "partition = \"env\"")],
        told: &[
            "ok: d13x, spi-nor, 6 partitions, 4 components, 7 applications",
            "137: note: application 0 \"lamp-log\": it shares partition \"env\" with component 2 \"env\" (line \
             89)",
        ],
    },
    Mistake {
        what: "two components go to one partition",
        edits: &[("partition = \"env\"\n", "partition = \"gobos\"\n")],
        told: &[
            "ok: d13x, spi-nor, 6 partitions, 4 components, 7 applications",
            "97: note: component 3 \"gobo wheels\": it shares partition \"gobos\" with component 2 \"env\" \
             (line 89)",
        ],
    },
    Mistake {
        what: "a component goes to the applications' partition",
        edits: &[("partition = \"env\"\n", "partition = \"profiles\"\n")],
        told: &[
            "ok: d13x, spi-nor, 6 partitions, 4 components, 7 applications",
            "103: note: application 4 \"profile-spot\": it and 5 more applications share partition \"profiles\" \
             with component 2 \"env\" (line 89)",
        ],
    },
    Mistake {
        what: "a component goes to an application's partition",
        edits: &[("partition = \" gobos ;mtd\"", "partition = \"logs\"")],
        told: &[
            "ok: d13x, spi-nor, 6 partitions, 4 components, 7 applications",
            "137: note: application 0 \"lamp-log\": it shares partition \"logs\" with component 3 \"gobo \
             wheels\" (line 97)",
        ],
    },
    // Names.
    Mistake {
        what: "a component's name ends in a space",
        edits: &[("name      = \"env\"", "name      = \"env \"")],
        told: &[
            "ok: d13x, spi-nor, 6 partitions, 4 components, 7 applications",
            "87: note: component 2 \"env \": its name has white space at its ends",
        ],
    },
    Mistake {
        what: "a partition's name ends in a space, and so does its reference",
        edits: &[
            ("name   = \"logs\"", "name   = \"logs \""),
            ("partition = \"logs\"", "partition = \"logs \""),
        ],
        told: &[
            "ok: d13x, spi-nor, 6 partitions, 4 components, 7 applications",
            "46: note: partition 5 \"logs \": its name has white space at its ends",
            "137: note: application 0 \"lamp-log\": it is planned into no partition: its reference is cut at \
             `;` and trimmed, and that leaves \"logs\", not partition 5 \"logs \" (line 46)",
        ],
    },
    Mistake {
        what: "a partition's name has a semicolon, and so has its reference",
        edits: &[
            ("name   = \"logs\"", "name   = \"logs;mtd\""),
            ("partition = \"logs\"", "partition = \"logs;mtd\""),
        ],
        told: &[
            "ok: d13x, spi-nor, 6 partitions, 4 components, 7 applications",
            "137: note: application 0 \"lamp-log\": it is planned into no partition: its reference is cut at \
             `;` and trimmed, and that leaves \"logs\", not partition 5 \"logs;mtd\" (line 46)",
        ],
    },
    Mistake {
        what: "a partition's name begins like another and has a semicolon",
        edits: &[
            ("name   = \"logs\"", "name   = \"env;mtd\""),
            ("partition = \"logs\"", "partition = \"env;mtd\""),
        ],
        told: &[
            "ok: d13x, spi-nor, 6 partitions, 4 components, 7 applications",
            "137: note: application 0 \"lamp-log\": it is planned into partition 1 \"env\": its reference is \
             cut at `;` and trimmed, and that leaves \"env\", not partition 5 \"env;mtd\" (line 46)",
            "137: note: application 0 \"lamp-log\": it shares partition \"env\" with component 2 \"env\" (line \
             89)",
        ],
    },
    Mistake {
        what: "two partitions differ in case",
        edits: &[("name   = \"calibration\"", "name   = \"Env\"")],
        told: &[
            "ok: d13x, spi-nor, 6 partitions, 4 components, 7 applications",
            "31: note: partition 2 \"Env\": its name differs only in case from the name of partition 1 \"env\" \
             (line 26)",
        ],
    },
    Mistake {
        what: "two components differ in case",
        edits: &[("name      = \"env\"", "name      = \"Loader\"")],
        told: &[
            "ok: d13x, spi-nor, 6 partitions, 4 components, 7 applications",
            "87: note: component 2 \"Loader\": its name differs only in case from the name of component 1 \
             \"loader\" (line 63)",
        ],
    },
    Mistake {
        what: "two components differ in a space",
        edits: &[("name      = \"env\"", "name      = \"loader \"")],
        told: &[
            "ok: d13x, spi-nor, 6 partitions, 4 components, 7 applications",
            "87: note: component 2 \"loader \": its name differs only in white space at its ends from the name \
             of component 1 \"loader\" (line 63)",
        ],
    },
    Mistake {
        what: "two applications have names that differ in case",
        edits: &[("name      = \"strobes\"", "name      = \"led bars\"")],
        told: &[
            "ok: d13x, spi-nor, 6 partitions, 4 components, 7 applications",
            "127: note: application 5 \"profile-strobe\": its name \"led bars\" differs only in case from \"LED \
             bars\", the name of application 1 \"profile-bar\" (line 122)",
        ],
    },
    Mistake {
        what: "two applications have keys that differ in case",
        edits: &[("[apps.profile-strobe]", "[apps.Profile-Bar]")],
        told: &[
            "ok: d13x, spi-nor, 6 partitions, 4 components, 7 applications",
            "126: note: application 0 \"Profile-Bar\": its key differs only in case from the key of application \
             2 \"profile-bar\" (line 121)",
        ],
    },
    Mistake {
        what: "an application's key has a space in its quotes",
        edits: &[("[apps.profile-strobe]", "[apps.\"profile-strobe \"]")],
        told: &[
            "ok: d13x, spi-nor, 6 partitions, 4 components, 7 applications",
            "126: note: application 5 \"profile-strobe \": its key has white space at its ends",
        ],
    },
    Mistake {
        what: "the image names its application in another case",
        edits: &[("app          = \"spots\" ", "app          = \"Spots\" ")],
        told: &[
            "ok: d13x, spi-nor, 6 partitions, 4 components, 7 applications",
            "16: note: image: its app \"Spots\" differs only in case from \"spots\", the name of application 4 \
             \"profile-spot\" (line 102)",
        ],
    },
    Mistake {
        what: "the image names no application",
        edits: &[("app          = \"spots\" ", "app          = \"spot\" ")],
        told: &[
            "ok: d13x, spi-nor, 6 partitions, 4 components, 7 applications",
            "16: note: image: its app \"spot\" is the name of no application",
        ],
    },
    Mistake {
        what: "the image names an application by its key",
        edits: &[(
            "app          = \"spots\" ",
            "app          = \"profile-spot\" ",
        )],
        told: &[
            "ok: d13x, spi-nor, 6 partitions, 4 components, 7 applications",
            "16: note: image: its app \"profile-spot\" is the key of application 4 \"profile-spot\", and not \
             its name \"spots\" (line 102)",
        ],
    },
    Mistake {
        what: "an application is renamed, and not where it is named",
        edits: &[(
            "name         = \"spots\"",
            "name         = \"moving heads\"",
        )],
        told: &[
            "ok: d13x, spi-nor, 6 partitions, 4 components, 7 applications",
            "16: note: image: its app \"spots\" is the name of no application",
        ],
    },
    Mistake {
        what: "an application has a component's name",
        edits: &[("name      = \"strobes\"", "name      = \"loader\"")],
        told: &[
            "ok: d13x, spi-nor, 6 partitions, 4 components, 7 applications",
            "127: note: application 5 \"profile-strobe\": it can never be planned (81): its name \"loader\" is \
             the name of component 1 (line 63)",
        ],
    },
    Mistake {
        what: "an application has a component's name by its key",
        edits: &[(
            "[apps.profile-strobe]\nname      = \"strobes\"\n",
            "[apps.psram]\n",
        )],
        told: &[
            "ok: d13x, spi-nor, 6 partitions, 4 components, 7 applications",
            "126: note: application 6 \"psram\": it can never be planned (81): its name \"psram\" is the name \
             of component 0 (line 53)",
        ],
    },
    Mistake {
        what: "a PBP is of its payload's package with other features",
        edits: &[(
            "pbp_package     = \"pbp-common\"",
            "pbp_package     = \"stage-loader\"",
        )],
        told: &[
            "ok: d13x, spi-nor, 6 partitions, 4 components, 7 applications",
            "74: note: component 1 \"loader\": its `pbp_features` for package \"stage-loader\" are d13x, \
             spi-nor; it is built with d13x, spi-nor, watchdog, the `features` of component 1 \"loader\" (line \
             68)",
        ],
    },
    Mistake {
        what: "an application has a component's name in capitals",
        edits: &[("name      = \"strobes\"", "name      = \"PSRAM\"")],
        told: &[
            "ok: d13x, spi-nor, 6 partitions, 4 components, 7 applications",
            "127: note: application 5 \"profile-strobe\": its name \"PSRAM\" differs only in case from the name \
             of component 0 \"psram\" (line 53)",
        ],
    },
    Mistake {
        what: "a list with one item for two",
        edits: &[(
            "features  = [\"rgbw\", \"pixel\"]",
            "features  = [\"rgbw pixel\"]",
        )],
        told: &[
            "ok: d13x, spi-nor, 6 partitions, 4 components, 7 applications",
            "124: note: application 1 \"profile-bar\": an item of `features` is \"rgbw pixel\", which is one \
             feature: is \"rgbw\", \"pixel\" meant?",
        ],
    },
];
