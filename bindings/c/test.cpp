/* Calls of gix_hash.h from C++: texts without a cast, and structs of their default values. The last line is 'N passed, M failed'. */
#include "gix_hash.h"
#include <cstdio>
#include <string>
#include <vector>

static int passed, failed;

static void check(int line, bool holds) {
    passed += holds, failed += !holds;
    if (!holds) std::printf("test.cpp:%d\n", line);
}

#define CHECK(holds) check(__LINE__, holds)

static std::string text_of(const gix_hash_id &id) {
    std::string text(65, '-');
    CHECK(gix_hash_id_to_text(&id, &text[0], text.size()) == GIX_HASH_OK);
    return text.c_str();
}

int main() {
    const std::string blob = "e69de29bb2d1d6434b8b29ae775ad8c2e48c5391";
    gix_hash_id read = {}, made = {};
    gix_hash_prefix prefix = {};
    gix_hash_hasher hasher = {};
    gix_hash_run run = {};
    size_t at = 0;
    CHECK(gix_hash_id_from_hex(blob.data(), blob.size(), &read) == GIX_HASH_OK && text_of(read) == blob);
    CHECK(gix_hash_id_from_hex("g", 1, &read) == GIX_HASH_BAD_LENGTH && text_of(read) == blob);
    CHECK(gix_hash_object_hasher(GIX_HASH_SHA1, GIX_HASH_BLOB, 0, &hasher) == GIX_HASH_OK);
    CHECK(gix_hash_hasher_finish(&hasher, &made) == GIX_HASH_OK && !gix_hash_id_cmp(&read, &made));
    CHECK(gix_hash_prefix_from_hex("e69", 3, &prefix) == GIX_HASH_OK && !gix_hash_prefix_cmp_id(&prefix, &made));
    const std::vector<uint8_t> table(made.bytes, made.bytes + 20);
    CHECK(gix_hash_check_sorted(GIX_HASH_SHA1, table.data(), table.size(), &at) == GIX_HASH_OK);
    CHECK(gix_hash_find(GIX_HASH_SHA1, table.data(), table.size(), &prefix, &run) == GIX_HASH_OK && !run.start && run.end == 1);
    CHECK(gix_hash_code_text(GIX_HASH_BAD_DIGIT) == std::string("a byte of the text is not a hex digit"));
    std::printf("%d passed, %d failed\n", passed, failed);
    return failed > 0;
}
