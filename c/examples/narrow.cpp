/* A filter chooses the rows 0, 3, 4, 5 and 7 of eight. A second one ran over these five. Prints the
 * rows of a column at the filter that stands for both. Of no rows none are chosen. */
#include "row_mask.h"

#include <cstdint>
#include <iostream>
#include <vector>

struct Bitmap {
    std::vector<std::uint8_t> bytes;
    std::size_t len;
};

static Bitmap narrowed(const Bitmap &rows, const Bitmap &ranks) {
    Bitmap both{std::vector<std::uint8_t>(row_mask_room(rows.len)), rows.len};
    row_mask_intersect_by_rank(
        rows.bytes.data(), rows.bytes.size(), 0, rows.len,
        ranks.bytes.data(), ranks.bytes.size(), 0, ranks.len, both.bytes.data(), both.bytes.size());
    return both;
}

static std::vector<std::uint64_t> chosen(const Bitmap &rows, const std::vector<std::uint64_t> &column) {
    const std::vector<std::uint8_t> &bytes = rows.bytes;
    std::vector<std::uint64_t> out(row_mask_count(bytes.data(), bytes.size(), 0, rows.len));
    row_mask_choose_8(
        bytes.data(), bytes.size(), 0, rows.len, column.data(), column.size(), out.data(), out.size());
    return out;
}

int main() {
    const Bitmap both = narrowed({{0xB9}, 8}, {{0x14}, 5});
    for (std::uint64_t row : chosen(both, {10, 11, 12, 13, 14, 15, 16, 17}))
        std::cout << row << '\n';
    return chosen(narrowed({{}, 0}, {{}, 0}), {}).empty() ? 0 : 1;
}
