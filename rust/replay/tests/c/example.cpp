// Holds a preset to the rules and prints its partitions: example PRESET.
#include "preset.h"

#include <fstream>
#include <iostream>
#include <iterator>
#include <string>
#include <vector>

namespace {

// The two rooms with what an accepted call left in them.
struct rooms {
    std::vector<uint8_t> store = std::vector<uint8_t>(PRESET_STORE_MIN);
    std::vector<uint8_t> tree = std::vector<uint8_t>(PRESET_TREE_MIN);
    size_t made = 0;

    preset_outcome validate(const std::string &text, const std::string &name)
    {
        preset_outcome got = preset_validate(bytes(text), text.size(), bytes(name), name.size(), store.data(),
                                             store.size(), tree.data(), tree.size());
        made = got.made;
        return got;
    }

    preset_count_view counts() const
    {
        return preset_counts(tree.data(), tree.size(), store.data(), store.size(), made);
    }

    preset_board_view board(const std::string &name) const
    {
        return preset_board(tree.data(), tree.size(), store.data(), store.size(), made, bytes(name), name.size());
    }

    preset_partition_view partition(size_t i) const
    {
        return preset_partition(tree.data(), tree.size(), store.data(), store.size(), made, i);
    }

    std::string text(size_t from, size_t len) const { return {store.begin() + from, store.begin() + from + len}; }

    static const uint8_t *bytes(const std::string &s) { return reinterpret_cast<const uint8_t *>(s.data()); }
};

} // namespace

int main(int argc, char **argv)
{
    std::ifstream file(argc > 1 ? argv[1] : "", std::ios::binary);
    if (!file) {
        std::cerr << "usage: example PRESET\n";
        return 2;
    }
    const std::string text{std::istreambuf_iterator<char>(file), std::istreambuf_iterator<char>()};
    rooms lent;
    const preset_outcome got = lent.validate(text, "board");
    if (got.number != 0) {
        const char *where = got.section == PRESET_SECTION_TEXT ? "line" : "entry";
        std::cout << "refused " << got.number << " at " << where << ' ' << got.place << '\n';
        return 1;
    }
    std::cout << (lent.board("board").chip == PRESET_CHIP_D13X ? "d13x\n" : "d21x\n");
    for (size_t i = 0; i < lent.counts().partitions; i++) {
        const preset_partition_view at = lent.partition(i);
        std::cout << lent.text(at.from, at.len) << ' ' << at.offset << ' ' << at.size << '\n';
    }
    return 0;
}
