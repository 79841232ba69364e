/* Plans a preset and prints what its plan has: example PRESET [APPLICATION], the boot chain where none is named. */
#include "preset.h"

#include <stdio.h>
#include <stdlib.h>
#include <string.h>

/* The two rooms; a program that never plans at once in two threads needs them once. */
static uint8_t store[PRESET_STORE_MIN], tree[PRESET_TREE_MIN];
static const uint8_t name[] = "board";
static const size_t name_n = sizeof name - 1;

/* A text's bytes: of the store, of the lent name, or a fixed word. */
static void print(preset_bytes b)
{
    uint8_t word[PRESET_WORD_MIN];
    uint32_t number = b.kind == PRESET_BYTES_STORE_AIC ? PRESET_WORD_AIC : b.word;
    if (b.kind == PRESET_BYTES_STORE || b.kind == PRESET_BYTES_STORE_AIC)
        fwrite(store + b.from, 1, b.len, stdout);
    if (b.kind == PRESET_BYTES_NAME)
        fwrite(name, 1, name_n, stdout);
    if (b.kind == PRESET_BYTES_WORD || b.kind == PRESET_BYTES_STORE_AIC)
        fwrite(word, 1, preset_word(number, word, sizeof word), stdout);
}

/* Each above the last in byte order. */
static void print_features(size_t made, preset_features list)
{
    preset_feature_view item = {0, 0, 0};
    for (uint32_t begun = 0;; begun = 1) {
        item = preset_feature(tree, sizeof tree, store, sizeof store, made, list.kind, list.from, list.len, begun,
                              item.from, item.len);
        if (!item.found)
            return;
        printf(" +%.*s", (int)item.len, (const char *)store + item.from);
    }
}

static void print_plan(size_t made, uint32_t app, const uint8_t *key, size_t key_n)
{
    preset_plan_count_view n = preset_plan_counts(tree, sizeof tree, store, sizeof store, made, app, key, key_n);
    printf("%zu values, stem ", made);
    print(preset_plan_stem(tree, sizeof tree, store, sizeof store, made, name, name_n, app, key, key_n));
    for (size_t i = 0; i < n.components; i++) {
        preset_head_view head = preset_plan_head(tree, sizeof tree, store, sizeof store, made, app, key, key_n, i);
        preset_partition_view at =
            preset_plan_partition(tree, sizeof tree, store, sizeof store, made, app, key, key_n, i);
        printf("\ncomponent ");
        print(head.name);
        if (at.found)
            printf(" at %u", (unsigned)at.offset);
    }
    for (size_t i = 0; i < n.builds; i++) {
        preset_plan_build_view build =
            preset_plan_build(tree, sizeof tree, store, sizeof store, made, app, key, key_n, i);
        printf("\nbuild ");
        print(build.package);
        print_features(made, build.features);
    }
    printf("\n");
}

int main(int argc, char **argv)
{
    /* One byte more than any preset may have, so that a longer one is refused with 1. */
    static uint8_t text[PRESET_TEXT_MAX + 1];
    FILE *file = argc > 1 ? fopen(argv[1], "rb") : NULL;
    if (!file)
        return fprintf(stderr, "usage: example PRESET [APPLICATION]\n"), 2;
    size_t n = fread(text, 1, sizeof text, file);
    fclose(file);
    /* The boot chain has no key. */
    uint32_t app = argc > 2;
    const uint8_t *key = app ? (const uint8_t *)argv[2] : NULL;
    size_t key_n = app ? strlen(argv[2]) : 0;
    preset_outcome got = preset_plan(text, n, name, name_n, app, key, key_n, store, sizeof store, tree, sizeof tree);
    if (got.number) {
        printf("refused %u %u %u\n", (unsigned)got.number, (unsigned)got.section, (unsigned)got.place);
        return 1;
    }
    print_plan(got.made, app, key, key_n);
    return 0;
}
