/* What libhost.a exports, for C and C++. docs/HOST.md says more of how it is called, docs/PROMISES.md what is proved.
   A slice is a pointer and its length; of one with length 0 the pointer is not looked at. No function has a
   precondition beyond live slices of which no lent room overlaps another slice, and none keeps any state. */
#ifndef PRESET_H
#define PRESET_H

#include <stdbool.h>
#include <stddef.h>
#include <stdint.h>

#ifdef __cplusplus
extern "C" {
#endif

/* The version of this header and of the crate `preset`. */
#define PRESET_VERSION "0.3.0"
#define PRESET_VERSION_MAJOR 0
#define PRESET_VERSION_MINOR 3
#define PRESET_VERSION_PATCH 0

/* The longest text. */
#define PRESET_TEXT_MAX 32768
/* A value's bytes in the tree room. */
#define PRESET_VALUE_SIZE 32
/* The least lengths of lent rooms; of the listing's output for a name of that length. */
#define PRESET_STORE_MIN 32768
#define PRESET_TREE_MIN (2048 * PRESET_VALUE_SIZE)
#define PRESET_SCRATCH_MIN 32769
#define PRESET_OUT_MIN(name_length) (142848 + 2 * (size_t)(name_length))
/* Enough for every fixed word. */
#define PRESET_WORD_MIN 32
/* The number of the fixed word `.aic`. */
#define PRESET_WORD_AIC 17
/* The parent of what hangs under the root of a tree; of what hangs under value number n it is n + 2. */
#define PRESET_ROOT 1

/* ---- the numbers that answers have; a number that is not named has no meaning */

/* `section` of a refusal. */
enum preset_section {
    PRESET_SECTION_TEXT = 0,
    PRESET_SECTION_BOARD = 1,
    PRESET_SECTION_IMAGE = 2,
    PRESET_SECTION_PARTITION = 3,
    PRESET_SECTION_COMPONENT = 4,
    PRESET_SECTION_APPLICATION = 5
};
/* `chip` of a board. */
enum preset_chip { PRESET_CHIP_D13X = 1, PRESET_CHIP_D21X = 2 };
/* `media` of an image. */
enum preset_media { PRESET_MEDIA_SPI_NOR = 1, PRESET_MEDIA_SPI_NAND = 2 };
/* `kind` of a component. */
enum preset_component_kind { PRESET_COMPONENT_APP = 1, PRESET_COMPONENT_PBP = 2, PRESET_COMPONENT_RAW = 3 };
/* `kind` of a preset_plan_source_view: none; a package, its binary and its features; a file. */
enum preset_source_kind { PRESET_SOURCE_NONE = 0, PRESET_SOURCE_PACKAGE = 1, PRESET_SOURCE_FILE = 2 };
/* `kind` of preset_bytes: absent; of the store; the lent name; a fixed word; of the store, and `.aic` after them. */
enum preset_bytes_kind {
    PRESET_BYTES_ABSENT = 0,
    PRESET_BYTES_STORE = 1,
    PRESET_BYTES_NAME = 2,
    PRESET_BYTES_WORD = 3,
    PRESET_BYTES_STORE_AIC = 4
};
/* `kind` of a preset_amount. */
enum preset_amount_kind { PRESET_AMOUNT_ABSENT = 0, PRESET_AMOUNT_NUMBER = 1 };
/* `kind` of preset_features: no list; the words of a string; the items of an array. */
enum preset_features_kind { PRESET_FEATURES_NONE = 0, PRESET_FEATURES_WORDS = 1, PRESET_FEATURES_ITEMS = 2 };
/* `kind` of a preset_tree_value; the last is an integer with a minus. */
enum preset_value_kind {
    PRESET_VALUE_NONE = 0,
    PRESET_VALUE_STRING = 1,
    PRESET_VALUE_INTEGER = 2,
    PRESET_VALUE_BOOLEAN = 3,
    PRESET_VALUE_ARRAY = 4,
    PRESET_VALUE_TABLE = 5,
    PRESET_VALUE_NEGATIVE = 6
};
/* `state` of preset_text_scanned: outside a string, inside, inside after a backslash. */
enum preset_string_state { PRESET_STRING_OUTSIDE = 0, PRESET_STRING_INSIDE = 1, PRESET_STRING_ESCAPED = 2 };
/* `kind` of a preset_text_line: none is left; a joined line; refused with 3 or with 4 at `line`. */
enum preset_line_kind {
    PRESET_LINE_NONE = 0,
    PRESET_LINE_JOINED = 1,
    PRESET_LINE_REFUSED_3 = 3,
    PRESET_LINE_REFUSED_4 = 4
};

/* ---- from a text */

/* number 0: accepted, with so many values made; else 01's refusal with its section and place: in
   PRESET_SECTION_TEXT the line from 1, elsewhere the entry from 0. */
typedef struct { uint32_t number, section, place, made; } preset_outcome;
/* The same, with the bytes that the listing has. */
typedef struct { uint32_t number, section, place, written; } preset_listed;

/* Reads a text to its tree, whatever its keys mean: refuses with 17 and 1 to 16. Where it accepts, both rooms hold
   the tree and then zeros; after any refusal, here and below, every lent room is zero to its end. */
preset_outcome document_read(const uint8_t *text, size_t text_n, uint8_t *store, size_t store_n,
                             uint8_t *tree, size_t tree_n);
/* Reads a preset's records: refuses with 20 to 25 too, and leaves the rooms as document_read does. The lent name is
   the board's where the text has none; one that is not UTF-8 counts as `board`. */
preset_outcome preset_read(const uint8_t *text, size_t text_n, const uint8_t *name, size_t name_n,
                           uint8_t *store, size_t store_n, uint8_t *tree, size_t tree_n);
/* The same, and holds them to the rules: refuses with 30 to 70 too. */
preset_outcome preset_validate(const uint8_t *text, size_t text_n, const uint8_t *name, size_t name_n,
                               uint8_t *store, size_t store_n, uint8_t *tree, size_t tree_n);
/* The same, and plans: refuses with 80 and 81 too. app 0: the boot chain, whatever the key; else the application of
   the key. The plan is read from the rooms by the views of a plan, with the same name and selection. */
preset_outcome preset_plan(const uint8_t *text, size_t text_n, const uint8_t *name, size_t name_n,
                           uint32_t app, const uint8_t *key, size_t key_n,
                           uint8_t *store, size_t store_n, uint8_t *tree, size_t tree_n);
/* Plans the boot chain and writes 01's lines, names in quotes, at the head of out, which has PRESET_OUT_MIN(name_n)
   bytes or more; after them it is as it was. Refuses as preset_validate does, and any name with 17 for which
   PRESET_OUT_MIN reaches 2^32. */
preset_listed preset_listing(const uint8_t *text, size_t text_n, const uint8_t *name, size_t name_n,
                             uint8_t *store, size_t store_n, uint8_t *tree, size_t tree_n,
                             uint8_t *out, size_t out_n);

/* ---- views of the rooms that an accepted call left, with its count of values made; found 0, and all else 0, where
   there is nothing to show */

/* Where a text's bytes are: by its kind len bytes of the store from `from` on, the lent name, or the fixed word
   number `word`. */
typedef struct { uint32_t kind, word; size_t from, len; } preset_bytes;
/* A number that may be absent. */
typedef struct { uint32_t kind, number; } preset_amount;
/* A feature list, to be handed to preset_feature as it is. */
typedef struct { uint32_t kind; size_t from, len; } preset_features;

typedef struct { uint32_t found, chip; preset_bytes name, target, profile; } preset_board_view;
typedef struct {
    uint32_t found, media, media_dev_id;
    preset_bytes platform, product, version, media_id, app;
} preset_image_view;
typedef struct { size_t partitions, components, applications; } preset_count_view;
/* Its name is len bytes of the store from `from` on; locked is 1 where no application may lie in it, else 0. */
typedef struct { uint32_t found, offset, size; size_t from, len; uint32_t locked; } preset_partition_view;
/* The fields of a component are in four groups: this and the next three. */
typedef struct { uint32_t found, kind; preset_bytes name, package, bin, file, filename; } preset_head_view;
typedef struct {
    uint32_t found;
    preset_features features, pbp_features;
    preset_bytes partition, attr, target_attr, target_filename;
} preset_role_view;
/* private_path is the field `private`. */
typedef struct {
    uint32_t found, updater;
    preset_amount ram;
    preset_bytes pbp, pbp_package, private_path;
} preset_boot_view;
typedef struct {
    uint32_t found, with_ext, ext_reserve;
    preset_amount load_address, entry_point, entry_offset, header_version;
} preset_load_view;
typedef struct {
    uint32_t found;
    preset_bytes package, name, partition, filename, attr;
    preset_features features;
    preset_amount load_address, entry_offset;
} preset_application_view;
/* An item of a feature list: len bytes of the store from `from` on. */
typedef struct { uint32_t found; size_t from, len; } preset_feature_view;

/* How many partitions, components and applications there are. */
preset_count_view preset_counts(const uint8_t *tree, size_t tree_n, const uint8_t *store, size_t store_n, size_t made);
/* The board's fields; the name as it was lent for reading. */
preset_board_view preset_board(const uint8_t *tree, size_t tree_n, const uint8_t *store, size_t store_n, size_t made,
                               const uint8_t *name, size_t name_n);
/* The image's fields. */
preset_image_view preset_image(const uint8_t *tree, size_t tree_n, const uint8_t *store, size_t store_n, size_t made);
/* Partition number i. */
preset_partition_view preset_partition(const uint8_t *tree, size_t tree_n, const uint8_t *store, size_t store_n,
                                       size_t made, size_t i);
/* What component number i is, and what it is made from. */
preset_head_view preset_component_head(const uint8_t *tree, size_t tree_n, const uint8_t *store, size_t store_n,
                                       size_t made, size_t i);
/* Its features, and where it goes to. */
preset_role_view preset_component_role(const uint8_t *tree, size_t tree_n, const uint8_t *store, size_t store_n,
                                       size_t made, size_t i);
/* Whether it is an updater, its memory, its PBP and its private file. */
preset_boot_view preset_component_boot(const uint8_t *tree, size_t tree_n, const uint8_t *store, size_t store_n,
                                       size_t made, size_t i);
/* Where it is loaded and entered, its header's version, and the loader after its PBP. */
preset_load_view preset_component_load(const uint8_t *tree, size_t tree_n, const uint8_t *store, size_t store_n,
                                       size_t made, size_t i);
/* Application number i in byte order of key. */
preset_application_view preset_application(const uint8_t *tree, size_t tree_n, const uint8_t *store, size_t store_n,
                                           size_t made, size_t i);
/* The next item of a feature list, given by its kind, from and len: with begun 0 the first in byte order, else the
   first above size bytes of the store from `last` on. */
preset_feature_view preset_feature(const uint8_t *tree, size_t tree_n, const uint8_t *store, size_t store_n,
                                   size_t made, uint32_t kind, size_t from, size_t len,
                                   uint32_t begun, size_t last, size_t size);
/* Writes the fixed word of that number, 1 to 17, at the head of out and zeros after it, and answers how many bytes it
   has; 0, and zeros alone, where there is none or out is shorter. */
size_t preset_word(uint32_t word, uint8_t *out, size_t out_n);

/* ---- views of a plan: the same rooms, with what was selected */

typedef struct {
    uint32_t kind;
    preset_bytes package, bin;
    preset_features features;
    preset_bytes file;
} preset_plan_source_view;
typedef struct { uint32_t found; preset_bytes package, bin; preset_features features; } preset_plan_build_view;
typedef struct { size_t components, builds; } preset_plan_count_view;

/* How many components and builds the plan has. */
preset_plan_count_view preset_plan_counts(const uint8_t *tree, size_t tree_n, const uint8_t *store, size_t store_n,
                                          size_t made, uint32_t app, const uint8_t *key, size_t key_n);
/* What component number i of the plan is, and what it is made from. */
preset_head_view preset_plan_head(const uint8_t *tree, size_t tree_n, const uint8_t *store, size_t store_n,
                                  size_t made, uint32_t app, const uint8_t *key, size_t key_n, size_t i);
/* Its features, and where it goes to. */
preset_role_view preset_plan_role(const uint8_t *tree, size_t tree_n, const uint8_t *store, size_t store_n,
                                  size_t made, uint32_t app, const uint8_t *key, size_t key_n, size_t i);
/* Whether it is an updater, its memory and its private file; its PBP is in preset_plan_pbp. */
preset_boot_view preset_plan_boot(const uint8_t *tree, size_t tree_n, const uint8_t *store, size_t store_n,
                                  size_t made, uint32_t app, const uint8_t *key, size_t key_n, size_t i);
/* Where it is loaded and entered, its header's version, and the loader after its PBP. */
preset_load_view preset_plan_load(const uint8_t *tree, size_t tree_n, const uint8_t *store, size_t store_n,
                                  size_t made, uint32_t app, const uint8_t *key, size_t key_n, size_t i);
/* Where the payload of component number i of the plan comes from. */
preset_plan_source_view preset_plan_source(const uint8_t *tree, size_t tree_n, const uint8_t *store, size_t store_n,
                                           size_t made, uint32_t app, const uint8_t *key, size_t key_n, size_t i);
/* Where its PBP comes from. */
preset_plan_source_view preset_plan_pbp(const uint8_t *tree, size_t tree_n, const uint8_t *store, size_t store_n,
                                        size_t made, uint32_t app, const uint8_t *key, size_t key_n, size_t i);
/* The partition that its reference finds. */
preset_partition_view preset_plan_partition(const uint8_t *tree, size_t tree_n, const uint8_t *store, size_t store_n,
                                            size_t made, uint32_t app, const uint8_t *key, size_t key_n, size_t i);
/* Build number i of the plan, in the order of first use. */
preset_plan_build_view preset_plan_build(const uint8_t *tree, size_t tree_n, const uint8_t *store, size_t store_n,
                                         size_t made, uint32_t app, const uint8_t *key, size_t key_n, size_t i);
/* The stem that the image's file is named by; the name as it was lent for planning. */
preset_bytes preset_plan_stem(const uint8_t *tree, size_t tree_n, const uint8_t *store, size_t store_n, size_t made,
                              const uint8_t *name, size_t name_n, uint32_t app, const uint8_t *key, size_t key_n);

/* ---- the tree room, value by value: parents are PRESET_ROOT, or n + 2 for value number n */

typedef struct { uint32_t found; size_t number; } preset_tree_at;
/* docs/ROOMS.md says what `data` is of each kind; the key is len bytes of the store from `key` on. */
typedef struct { uint32_t kind, parent, key, len; uint64_t data; } preset_tree_value;

/* PRESET_VALUE_SIZE, as the library has it. */
uint32_t preset_value_size(void);
/* Value number n as it stands in the room; PRESET_VALUE_NONE where the room is too short. */
preset_tree_value preset_tree_slot(const uint8_t *tree, size_t tree_n, size_t n);
/* The newest of the values made that hangs under the parent with that key. */
preset_tree_at preset_tree_find(const uint8_t *tree, size_t tree_n, const uint8_t *store, size_t store_n, size_t made,
                                uint16_t parent, const uint8_t *key, size_t key_n);
/* The first of the values made, from number `from` on, that hangs under the parent: an array's items in turn. */
preset_tree_at preset_tree_child(const uint8_t *tree, size_t tree_n, size_t made, uint16_t parent, size_t from);
/* The value under the parent with the least key (begun 0), or with the least above that of value number `after`. */
preset_tree_at preset_tree_next(const uint8_t *tree, size_t tree_n, const uint8_t *store, size_t store_n, size_t made,
                                uint16_t parent, uint32_t begun, size_t after);

/* ---- one value, string, key or integer; number 0: it is one, else the refusal */

typedef struct { uint32_t number; bool negative; uint64_t magnitude; } preset_value_number;
/* 8: at is the backslash's place. */
typedef struct { uint32_t number; size_t used, written, at; } preset_value_spelling;
typedef struct { uint32_t number; size_t count, used; } preset_value_segments;
typedef struct { uint32_t number; size_t used, made; } preset_value_made;

/* The integer that s is, by sign and magnitude, or 12; white space is not trimmed. */
preset_value_number preset_value_int(const uint8_t *s, size_t s_n);
/* Decodes the string whose opening quote stands before s, and says how much of s it takes with its closing quote; 8,
   9, or 17 where out is shorter than s. */
preset_value_spelling preset_value_string(const uint8_t *s, size_t s_n, uint8_t *out, size_t out_n);
/* Decodes a key's segments one after the other; 7, 8, 9, 15, or 17 where the store is shorter than s. */
preset_value_segments preset_value_key(const uint8_t *s, size_t s_n, uint8_t *store, size_t store_n);
/* Where segment i of that key ends among its bytes, 0 where there is none; the store is zero then. */
size_t preset_value_key_end(const uint8_t *s, size_t s_n, uint8_t *store, size_t store_n, size_t i);
/* Reads one value into both rooms, which are as long as for a text; or 17, 1, or what is wrong with it, and both are
   zero. */
preset_value_made preset_value_read(const uint8_t *s, size_t s_n, uint8_t *store, size_t store_n,
                                    uint8_t *tree, size_t tree_n);

/* ---- characters and joined lines */

typedef struct { size_t from, end; } preset_text_span;
typedef struct { uint8_t state; size_t opens, closes; } preset_text_scanned;
typedef struct { uint32_t number, section, place, lines; size_t used; } preset_text_laid;
/* The line begins in physical line `line` and is the bytes from `from` to before `end`; the next is asked for with
   `next` and `next_line`. */
typedef struct { uint32_t kind; size_t line, from, end, next, next_line; } preset_text_line;

/* s without White_Space at both ends. */
preset_text_span preset_text_trim(const uint8_t *s, size_t s_n);
/* Whether s is UTF-8. */
bool preset_text_valid(const uint8_t *s, size_t s_n);
/* How many bytes of a physical line stand before its comment. */
size_t preset_text_kept(const uint8_t *line, size_t line_n);
/* The string state after s, and how many brackets stand outside strings. */
preset_text_scanned preset_text_scan(const uint8_t *s, size_t s_n);
/* Lays a text without its comments into a scratch of PRESET_SCRATCH_MIN bytes or more, and counts its joined lines;
   or 17, 1, 2, 3, 4, and the scratch is zero. */
preset_text_laid preset_text_lines(const uint8_t *text, size_t text_n, uint8_t *scratch, size_t scratch_n);
/* The joined line of a laid text from the place `at` on, where physical line `line` begins: first 0 and 1. */
preset_text_line preset_text_next(const uint8_t *laid, size_t laid_n, size_t at, uint32_t line);

#ifdef __cplusplus
}
#endif

#endif
