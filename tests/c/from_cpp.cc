// The header from C++: one store, one call.
#include "jobtree.h"

#include <cstdint>
#include <cstdio>
#include <vector>

int main()
{
    std::vector<std::uint64_t> memory(jobtree_size(16, 256) / sizeof(std::uint64_t) + 1);
    jobtree tree;
    jobtree_stat stat;
    std::uint64_t links = 0;
    if (jobtree_cut(&tree, memory.data(), memory.size() * sizeof(std::uint64_t), 16, 256) != 0
        || jobtree_set_up(&tree, 16, 256) != JOBTREE_ACCEPTED)
        return 1;
    const std::uint32_t refusal = jobtree_metadata(&tree, "/", 1, &stat, &links);
    std::printf("from C++: metadata of / in a fresh store: %s\n", jobtree_refusal_text(refusal));
    return refusal == JOBTREE_NOT_FOUND ? 0 : 1;
}
