// The header in a C++ program: the answers are those that C gets.
#include <rlp.h>

#include <cstdio>
#include <vector>

static bool reads_and_writes() {
    const std::vector<uint8_t> bytes = {0xc5, 0x83, 'c', 'a', 't', 0x05};
    size_t count = 0, len = 0;
    std::vector<rlp_item> items;
    if (rlp_flatten(bytes.data(), bytes.size(), 9, items.data(), items.size(), &count) != RLP_NO_ROOM) return false;
    items.resize(count);
    if (rlp_flatten(bytes.data(), bytes.size(), 9, items.data(), items.size(), &count) != RLP_OK) return false;
    std::vector<uint8_t> out(bytes.size());
    if (rlp_encode(items.data(), count, bytes.data(), bytes.size(), out.data(), out.size(), &len) != RLP_OK) return false;
    return count == 3 && items[1].payload_len == 3 && out == bytes && rlp_is_canonical(out.data(), len, 1);
}

int main() {
    bool holds = reads_and_writes();
    std::printf("%d passed, %d failed\n", holds, !holds);
    return !holds;
}
