/* Tests of gix_hash.h: test DIRECTORY, where the directory has pack indexes. Expected values are those of FIPS 180-4,
   of `git show-index`, and of strcmp and strncmp over hex digits. The last line is 'N passed, M failed'. */
#define _DEFAULT_SOURCE
#include "gix_hash.h"
#include <stdio.h>
#include <stdlib.h>
#include <string.h>
#include <sys/mman.h>

#define ROWS(table) (sizeof table / sizeof *table)
#define CHECK(row, holds) check(__LINE__, (long)(row), holds)
#define EMPTY "e3b0c44298fc1c149afbf4c8996fb92427ae41e4649b934ca495991b7852b855"

static int passed, failed;

static void check(int line, long row, int holds) {
    passed += holds, failed += !holds;
    if (!holds) printf("test.c:%d: row %ld\n", line, row);
}

/* A copy of what a call is passed. Reading or writing past its end stops this program: sanitizers do not see
   into the library. Each region keeps its last copy. */
enum region { INPUT, STRUCT, INDEX };

static void *fenced(enum region region, const void *bytes, size_t len) {
    static uint8_t *regions[3];
    const size_t size = 1 << 16;
    if (!regions[region]) {
        regions[region] = mmap(NULL, 2 * size, PROT_READ | PROT_WRITE, MAP_PRIVATE | MAP_ANONYMOUS, -1, 0);
        if (regions[region] == MAP_FAILED || mprotect(regions[region] + size, size, PROT_NONE)) abort();
    }
    return memmove(regions[region] + size - len, bytes, len);
}

static const uint8_t *bytes_of(const char *text) { return fenced(INPUT, text, strlen(text)); }

static const char *text_of(const char *text, size_t len) { return fenced(INPUT, text, len); }

static int sign(int n) { return (n > 0) - (n < 0); }

static gix_hash_id id_of(const char *hex) {
    gix_hash_id id = {0};
    gix_hash_id_from_hex(text_of(hex, strlen(hex)), strlen(hex), &id);
    return id;
}

static gix_hash_prefix prefix_of(const char *hex, size_t len) {
    gix_hash_prefix prefix = {0};
    gix_hash_prefix_from_hex(text_of(hex, len), len, &prefix);
    return prefix;
}

/* The digits of an id, or an empty text. */
static const char *hex_of(const gix_hash_id *id) {
    static char digits[65];
    size_t len = id->kind == GIX_HASH_SHA1 ? 40 : 64;
    memset(digits, 0, sizeof digits);
    char *buffer = fenced(INPUT, digits, len);
    gix_hash_id_to_hex(fenced(STRUCT, id, sizeof *id), buffer, len);
    return memcpy(digits, buffer, len);
}

static const struct { uint32_t kind; const char *text, *hex; } digests[] = {
    {GIX_HASH_SHA1, "", "da39a3ee5e6b4b0d3255bfef95601890afd80709"},
    {GIX_HASH_SHA1, "abc", "a9993e364706816aba3e25717850c26c9cd0d89d"},
    {GIX_HASH_SHA1, "abcdbcdecdefdefgefghfghighijhijkijkljklmklmnlmnomnopnopq",
     "84983e441c3bd26ebaae4aa1f95129e5e54670f1"},
    {GIX_HASH_SHA256, "", EMPTY},
    {GIX_HASH_SHA256, "abc", "ba7816bf8f01cfea414140de5dae2223b00361a396177a9cb410ff61f20015ad"},
    {GIX_HASH_SHA256, "abcdbcdecdefdefgefghfghighijhijkijkljklmklmnlmnomnopnopq",
     "248d6a61d20638b8e5c026930c3e6039a33ce45964ff2167f6ecedd419db06c1"},
};

static void test_digests(void) {
    for (size_t i = 0; i < ROWS(digests); i++) {
        gix_hash_id id = {0}, read = id_of(digests[i].hex);
        CHECK(i, !gix_hash_digest(digests[i].kind, bytes_of(digests[i].text), strlen(digests[i].text), &id));
        CHECK(i, id.kind == digests[i].kind && !strcmp(hex_of(&id), digests[i].hex));
        CHECK(i, !memcmp(&id, &read, sizeof id)); /* zeros after the digest, too */
        for (size_t j = 0; j < ROWS(digests); j++) {
            gix_hash_id other = id_of(digests[j].hex);
            int order = id.kind == other.kind ? strcmp(digests[i].hex, digests[j].hex) : (int)id.kind - (int)other.kind;
            const gix_hash_id *one = fenced(INPUT, &id, sizeof id);
            CHECK(i, gix_hash_id_cmp(one, fenced(STRUCT, &other, sizeof other)) == sign(order));
            for (size_t len = 1; len <= strlen(digests[j].hex); len++) {
                gix_hash_prefix prefix = prefix_of(digests[j].hex, len);
                order = len > strlen(digests[i].hex) ? GIX_HASH_NO_ORDER : sign(strncmp(digests[j].hex, digests[i].hex, len));
                const gix_hash_prefix *copy = fenced(STRUCT, &prefix, sizeof prefix);
                CHECK(i, copy->hex_len == len && gix_hash_prefix_cmp_id(copy, fenced(INPUT, &id, sizeof id)) == order);
            }
        }
    }
}

/* Texts with the codes of reading their first len bytes as an id and as a prefix. */
static const struct { const char *text; size_t len; uint32_t id, prefix; } texts[] = {
    {EMPTY, 0, GIX_HASH_BAD_LENGTH, GIX_HASH_BAD_LENGTH}, {EMPTY, 1, GIX_HASH_BAD_LENGTH, GIX_HASH_OK},
    {EMPTY, 39, GIX_HASH_BAD_LENGTH, GIX_HASH_OK},        {EMPTY, 40, GIX_HASH_OK, GIX_HASH_OK},
    {EMPTY, 41, GIX_HASH_BAD_LENGTH, GIX_HASH_OK},        {EMPTY, 64, GIX_HASH_OK, GIX_HASH_OK},
    {EMPTY "0", 65, GIX_HASH_BAD_LENGTH, GIX_HASH_BAD_LENGTH},
    {"E69DE29BB2D1D6434B8B29AE775AD8C2E48C5391", 40, GIX_HASH_OK, GIX_HASH_OK},
    {"e69de29bb2d1d6434b8b29ae775ad8c2e48c539g", 40, GIX_HASH_BAD_DIGIT, GIX_HASH_BAD_DIGIT},
    {"g", 1, GIX_HASH_BAD_LENGTH, GIX_HASH_BAD_DIGIT},
};

static void test_texts(void) {
    for (size_t i = 0; i < ROWS(texts); i++) {
        gix_hash_id id, old_id;
        gix_hash_prefix prefix, old_prefix;
        memset(&old_id, 7, sizeof id), id = old_id;
        memset(&old_prefix, 7, sizeof prefix), prefix = old_prefix;
        const char *text = text_of(texts[i].text, texts[i].len);
        CHECK(i, gix_hash_id_from_hex(text, texts[i].len, &id) == texts[i].id);
        CHECK(i, !memcmp(&id, &old_id, sizeof id) == (texts[i].id != GIX_HASH_OK));
        CHECK(i, gix_hash_prefix_from_hex(text, texts[i].len, &prefix) == texts[i].prefix);
        CHECK(i, !memcmp(&prefix, &old_prefix, sizeof prefix) == (texts[i].prefix != GIX_HASH_OK));
    }
}

/* What a caller can get wrong, and what stays. */
static void test_errors(void) {
    gix_hash_id id = id_of(EMPTY), none = id, old = id;
    gix_hash_prefix prefix = prefix_of(EMPTY, 41), empty = {0};
    gix_hash_run run = {3, 4};
    gix_hash_entry entry = {.offset = 5};
    size_t number = 6;
    uint64_t detail = 7;
    char buffer[64] = "kept";
    uint8_t digests[60] = {1, [20] = 2, [40] = 1}, *fall = fenced(INPUT, digests, sizeof digests);
    none.kind = 3;
    CHECK(0, gix_hash_id_to_hex(&none, buffer, 64) == GIX_HASH_BAD_KIND);
    CHECK(0, gix_hash_id_to_hex(&id, buffer, 63) == GIX_HASH_NO_ROOM && !strcmp(buffer, "kept"));
    CHECK(0, gix_hash_id_cmp(&id, &none) == GIX_HASH_NO_ORDER && gix_hash_prefix_cmp_id(&prefix, &none) == GIX_HASH_NO_ORDER);
    CHECK(0, gix_hash_prefix_cmp_id(&empty, &id) == GIX_HASH_NO_ORDER);
    CHECK(0, gix_hash_find(1, fall, 40, &prefix, &run) == GIX_HASH_PREFIX_TOO_LONG);
    CHECK(0, gix_hash_find(1, fall, 40, &empty, &run) == GIX_HASH_BAD_LENGTH);
    CHECK(0, gix_hash_pack_find(1, fall, 60, &prefix, &run) == GIX_HASH_PREFIX_TOO_LONG);
    CHECK(0, gix_hash_pack_find(1, fall, 60, &empty, &run) == GIX_HASH_BAD_LENGTH);
    for (uint32_t kind = 0; kind < 4; kind++) {
        uint32_t code = kind == 1 || kind == 2 ? GIX_HASH_INDEX_TOO_SHORT : GIX_HASH_BAD_KIND;
        CHECK(kind, gix_hash_pack_check(kind, fall, 60, &detail) == code && detail == 7);
        CHECK(kind, gix_hash_pack_count(kind, fall, 60, &number) == code);
        CHECK(kind, gix_hash_pack_entry(kind, fall, 60, 0, &entry) == code && entry.offset == 5);
        CHECK(kind, gix_hash_pack_id(kind, fall, 60, 0, &id) == code && !memcmp(&id, &old, sizeof id));
        CHECK(kind, gix_hash_pack_abbreviate(kind, fall, 60, 0, &number) == code && number == 6);
    }
    CHECK(0, gix_hash_digest(0, fall, 60, &id) == GIX_HASH_BAD_KIND && !memcmp(&id, &old, sizeof id));
    CHECK(0, gix_hash_find(0, fall, 60, &empty, &run) == GIX_HASH_BAD_KIND && run.start == 3 && run.end == 4);
    CHECK(0, gix_hash_check_sorted(3, fall, 60, &number) == GIX_HASH_BAD_KIND && number == 6);
    CHECK(0, gix_hash_check_sorted(1, fall, 59, &number) == GIX_HASH_OK && number == 6);
    CHECK(0, gix_hash_check_sorted(1, fall, 60, &number) == GIX_HASH_UNSORTED && number == 2);
}

/* Numbers that no kind, and no prefix, has. In some the lowest byte is a good one. */
static const uint32_t bad_kinds[] = {0, 3, 255, 257, 0x01000000, 0x02000000, 0x80000001, 0xffffff02, 0xffffffff};
static const uint32_t bad_lens[] = {0, 65, 128, 257, 0x10000, 0x01000028, 0x80000028, 0xffffffff};

static void test_hostile(void) {
    gix_hash_id id = id_of(EMPTY), good = id;
    gix_hash_prefix prefix = prefix_of(EMPTY, 7);
    gix_hash_run run = {3, 4};
    gix_hash_entry entry = {.offset = 5};
    size_t number = 6;
    uint64_t detail = 7;
    const uint32_t code = GIX_HASH_BAD_KIND;
    char buffer[64] = {0};
    uint8_t zeros[60] = {0}, *bytes = fenced(INPUT, zeros, sizeof zeros);
    for (size_t i = 0; i < ROWS(bad_kinds); i++) {
        uint32_t kind = id.kind = bad_kinds[i];
        CHECK(kind, gix_hash_id_to_hex(&id, buffer, 64) == code && !buffer[0]);
        CHECK(kind, gix_hash_id_cmp(&id, &good) == GIX_HASH_NO_ORDER && gix_hash_id_cmp(&good, &id) == GIX_HASH_NO_ORDER);
        CHECK(kind, gix_hash_prefix_cmp_id(&prefix, &id) == GIX_HASH_NO_ORDER);
        CHECK(kind, gix_hash_digest(kind, bytes, 60, &good) == code && !strcmp(hex_of(&good), EMPTY));
        bytes = fenced(INPUT, zeros, sizeof zeros);
        CHECK(kind, gix_hash_check_sorted(kind, bytes, 60, &number) == code);
        CHECK(kind, gix_hash_find(kind, bytes, 60, &prefix, &run) == code);
        CHECK(kind, gix_hash_pack_check(kind, bytes, 60, &detail) == code);
        CHECK(kind, gix_hash_pack_count(kind, bytes, 60, &number) == code);
        CHECK(kind, gix_hash_pack_entry(kind, bytes, 60, 0, &entry) == code);
        CHECK(kind, gix_hash_pack_find(kind, bytes, 60, &prefix, &run) == code);
        CHECK(kind, gix_hash_pack_id(kind, bytes, 60, 0, &good) == code && !strcmp(hex_of(&good), EMPTY));
        CHECK(kind, gix_hash_pack_abbreviate(kind, bytes, 60, 0, &number) == code);
    }
    for (size_t i = 0; i < ROWS(bad_lens); i++) {
        prefix.hex_len = bad_lens[i];
        CHECK(i, gix_hash_prefix_cmp_id(&prefix, &good) == GIX_HASH_NO_ORDER);
        CHECK(i, gix_hash_find(2, bytes, 60, &prefix, &run) == GIX_HASH_BAD_LENGTH);
        CHECK(i, gix_hash_pack_find(2, bytes, 60, &prefix, &run) == GIX_HASH_BAD_LENGTH);
    }
    CHECK(0, run.start == 3 && run.end == 4 && entry.offset == 5 && number == 6 && detail == 7);
    prefix.hex_len = 7;
    for (size_t len = 0; len <= sizeof zeros; len++) {
        bytes = fenced(INPUT, zeros, len);
        CHECK(len, !gix_hash_check_sorted(1, bytes, len, &number) && !gix_hash_check_sorted(2, bytes, len, &number));
        CHECK(len, !gix_hash_find(1, bytes, len, &prefix, &run) && run.start == len / 20 && run.end == run.start);
    }
}

/* No bytes, at no address. */
static void test_nothing(void) {
    gix_hash_id id = id_of(EMPTY);
    gix_hash_prefix prefix = prefix_of(EMPTY, 7);
    gix_hash_run run = {3, 4};
    gix_hash_entry entry = {0};
    size_t number = 6;
    uint64_t detail = 7;
    uint32_t kind = 8, none = GIX_HASH_INDEX_TOO_SHORT;
    CHECK(0, gix_hash_id_from_hex(NULL, 0, &id) == GIX_HASH_BAD_LENGTH);
    CHECK(0, gix_hash_prefix_from_hex(NULL, 0, &prefix) == GIX_HASH_BAD_LENGTH);
    CHECK(0, gix_hash_id_to_hex(&id, NULL, 0) == GIX_HASH_NO_ROOM);
    CHECK(0, !gix_hash_digest(GIX_HASH_SHA256, NULL, 0, &id) && !strcmp(hex_of(&id), EMPTY));
    CHECK(0, !gix_hash_check_sorted(1, NULL, 0, &number) && number == 6);
    CHECK(0, !gix_hash_find(1, NULL, 0, &prefix, &run) && !run.start && !run.end);
    CHECK(0, gix_hash_pack_check(1, NULL, 0, &detail) == none && gix_hash_pack_kind(NULL, 0, &kind) == none && kind == 8);
    CHECK(0, gix_hash_pack_count(1, NULL, 0, &number) == none && gix_hash_pack_entry(1, NULL, 0, 0, &entry) == none);
    CHECK(0, gix_hash_pack_id(1, NULL, 0, 0, &id) == none && !strcmp(hex_of(&id), EMPTY));
    CHECK(0, gix_hash_pack_find(1, NULL, 0, &prefix, &run) == none && gix_hash_pack_abbreviate(1, NULL, 0, 0, &number) == none);
}

/* Copies of an index with one byte changed, and of another length, with the code and the detail. */
static const struct { size_t at; uint8_t byte; long cut; uint32_t code; uint64_t detail; } broken[] = {
    {0, 0, 0, GIX_HASH_BAD_MAGIC, 7},           {7, 3, 0, GIX_HASH_BAD_VERSION, 3},
    {0, 0xff, 1, GIX_HASH_WRONG_LENGTH, 7},     {0, 0xff, 900, GIX_HASH_INDEX_TOO_SHORT, 7},
    {1032, 0xff, 0, GIX_HASH_NAMES_FALL, 1},    {11, 9, 0, GIX_HASH_WRONG_COUNT, 0},
};

static uint8_t *bytes;
static char names[1000][65];

static void test_broken(uint32_t kind, size_t len) {
    uint64_t detail = 7;
    uint32_t last = GIX_HASH_WRONG_CHECKSUM, found = 7;
    for (size_t i = 0; i < ROWS(broken); i++) {
        uint8_t good = bytes[broken[i].at];
        bytes[broken[i].at] = broken[i].byte, detail = 7;
        size_t left = len - (size_t)broken[i].cut;
        CHECK(i, gix_hash_pack_check(kind, fenced(INPUT, bytes, left), left, &detail) == broken[i].code);
        CHECK(i, detail == broken[i].detail);
        CHECK(i, gix_hash_pack_kind(fenced(INPUT, bytes, left), left, &found) == broken[i].code && found == 7);
        bytes[broken[i].at] = good;
    }
    detail = 7, bytes[len - 1] ^= 1;
    CHECK(0, gix_hash_pack_check(kind, bytes, len, &detail) == last && detail == 7);
    CHECK(0, gix_hash_pack_kind(bytes, len, &found) == last && found == 7);
    bytes[len - 1] ^= 1;
    CHECK(0, gix_hash_pack_check(3 - kind, bytes, len, &detail) == GIX_HASH_OTHER_KIND && detail == kind);
    CHECK(0, !gix_hash_pack_kind(bytes, len, &found) && found == kind);
}

/* Of ids that fall, an abbreviation is still within the id. */
static void test_changed(uint32_t kind, size_t len, size_t count) {
    size_t size = kind == 1 ? 20 : 32;
    uint8_t good[64];
    memcpy(good, bytes + 1032, sizeof good);
    for (size_t at = 1; at < count; at++) {
        size_t hex_len = 0;
        memcpy(bytes + 1032, bytes + 1032 + at * size, size); /* the first name is another one */
        uint32_t code = gix_hash_pack_abbreviate(kind, bytes, len, 0, &hex_len);
        CHECK(at, code ? code == GIX_HASH_NOT_UNIQUE && !hex_len : hex_len >= 4 && hex_len <= 2 * size);
        memcpy(bytes + 1032, good, sizeof good);
    }
}

/* An index of any length, or with any tables, is safe: each call returns, and no index is at or after the count. */
static void test_any_bytes(uint32_t kind, size_t len, size_t count) {
    static const size_t far[] = {0, 1, SIZE_MAX / 32, SIZE_MAX / 20, SIZE_MAX / 2, SIZE_MAX - 1};
    uint64_t detail = 0, random = 1;
    gix_hash_prefix prefix = prefix_of("8", 1);
    gix_hash_entry entry = {0};
    gix_hash_id id = {0};
    for (size_t left = 0; left < len; left += 13) {
        uint8_t *cut = fenced(INPUT, bytes, left);
        size_t hex_len = 0;
        gix_hash_run run = {0};
        CHECK(left, gix_hash_pack_check(kind, cut, left, &detail) && gix_hash_pack_check(3 - kind, cut, left, &detail));
        CHECK(left, gix_hash_pack_find(kind, cut, left, &prefix, &run) || run.end <= count);
        CHECK(left, gix_hash_pack_entry(kind, cut, left, count, &entry) && gix_hash_pack_id(kind, cut, left, count, &id));
        CHECK(left, gix_hash_pack_abbreviate(kind, cut, left, count, &hex_len));
        uint8_t *any = fenced(INPUT, bytes, len);
        for (size_t at = 8; at < len - 8; at++) { /* but for the count, at 1028 */
            random = random * 6364136223846793005u + 1442695040888963407u;
            if (at / 4 != 1028 / 4) any[at] = (uint8_t)(random >> 56);
        }
        CHECK(left, gix_hash_pack_check(kind, any, len, &detail));
        CHECK(left, gix_hash_pack_find(kind, any, len, &prefix, &run) || (run.start <= run.end && run.end <= count));
        gix_hash_pack_entry(kind, any, len, left % count, &entry);
        CHECK(left, !gix_hash_pack_id(kind, any, len, left % count, &id) && id.kind == kind);
        CHECK(left, gix_hash_pack_abbreviate(kind, any, len, left % count, &hex_len) || hex_len <= (kind == 1 ? 40 : 64));
    }
    for (size_t i = 0; i < ROWS(far); i++) {
        size_t hex_len = 7, at = far[i] < count ? count + far[i] : far[i];
        CHECK(i, gix_hash_pack_entry(kind, bytes, len, at, &entry) == GIX_HASH_OUT_OF_RANGE);
        CHECK(i, gix_hash_pack_id(kind, bytes, len, at, &id) == GIX_HASH_OUT_OF_RANGE);
        CHECK(i, gix_hash_pack_abbreviate(kind, bytes, len, at, &hex_len) == GIX_HASH_OUT_OF_RANGE && hex_len == 7);
    }
}

/* The runs of the first 1 to 5 digits of a text, by all names. */
static void test_runs(uint32_t kind, size_t len, size_t count, const char *digits) {
    for (size_t hex_len = 1; hex_len < 6; hex_len++) {
        gix_hash_prefix prefix = prefix_of(digits, hex_len), *copy = fenced(STRUCT, &prefix, sizeof prefix);
        gix_hash_run run = {0}, table = {0};
        size_t start = 0, end = 0, size = (kind == 1 ? 20 : 32) * count;
        for (size_t k = 0; k < count; k++) {
            int order = strncmp(names[k], digits, hex_len);
            start += order < 0, end += order <= 0;
        }
        CHECK(hex_len, !gix_hash_pack_find(kind, bytes, len, copy, &run) && run.start == start && run.end == end);
        CHECK(hex_len, !gix_hash_find(kind, fenced(INPUT, bytes + 1032, size), size, copy, &table));
        CHECK(hex_len, table.start == start && table.end == end);
    }
}

/* Runs among names that are not where evenly spread ones would be: all but two of their bytes are the same, and each name
   occurs twice. */
static void test_uneven(uint32_t kind) {
    static uint8_t made[1 << 16] = {0xff, 't', 'O', 'c', [7] = 2};
    static const uint8_t same[] = {0, 1, 0x42, 0x7f, 0xfe, 0xff};
    const size_t count = 1000, size = kind == 1 ? 20 : 32, len = 1032 + (size + 8) * count + 2 * size;
    for (size_t i = 0; i < ROWS(same); i++) {
        for (size_t byte = 0; byte < 256; byte++) /* the counts, the highest byte first */
            memcpy(made + 8 + 4 * byte, byte < same[i] ? "\0\0\0" : "\0\0\3\350", 4);
        uint8_t *names_at = memset(made + 1032, same[i], size * count);
        for (size_t at = 0; at < count; at++)
            names_at[at * size + 9] = (uint8_t)(at / 2 >> 8), names_at[at * size + 10] = (uint8_t)(at / 2);
        for (size_t at = 0; at < count; at++) {
            gix_hash_prefix all = {18, {0}}, whole = {2 * (uint32_t)size, {0}};
            size_t first = at / 2 * 2, after = first + (same[i] % 2 ? 0 : 2);
            gix_hash_run run = {0};
            memcpy(all.bytes, names_at, 9), memcpy(whole.bytes, names_at + at * size, size);
            CHECK(at, !gix_hash_pack_find(kind, made, len, &all, &run) && !run.start && run.end == count);
            CHECK(at, !gix_hash_pack_find(kind, made, len, &whole, &run) && run.start == first && run.end == first + 2);
            whole.bytes[size - 1] ^= 1; /* no name */
            CHECK(at, !gix_hash_pack_find(kind, made, len, &whole, &run) && run.start == after && run.end == after);
        }
    }
}

/* All that an index has, as Git lists it. */
static void test_index(const char *directory, const char *name, uint32_t kind) {
    static uint8_t loaded[1 << 16];
    char path[4096], command[8192], line[200], ours[200];
    snprintf(path, sizeof path, "%s/%s", directory, name);
    snprintf(command, sizeof command, "git show-index --object-format=%s < '%s'", kind == 1 ? "sha1" : "sha256", path);
    FILE *file = fopen(path, "rb"), *git = popen(command, "r");
    size_t len = file ? fread(loaded, 1, sizeof loaded, file) : 0, count = 0, at = 0;
    uint64_t detail = 7;
    bytes = fenced(INDEX, loaded, len);
    CHECK(0, !gix_hash_pack_check(kind, bytes, len, &detail) && detail == 7);
    CHECK(0, !gix_hash_pack_count(kind, bytes, len, &count) && count > 0 && count < ROWS(names));
    if (!count || count >= ROWS(names)) return;
    for (; git && at < count && fgets(line, sizeof line, git); at++) {
        gix_hash_entry entry = {0};
        CHECK(at, !gix_hash_pack_entry(kind, bytes, len, at, &entry));
        strcpy(names[at], hex_of(&entry.id));
        snprintf(ours, sizeof ours, "%llu %s (%08x)\n", (unsigned long long)entry.offset, names[at], (unsigned)entry.crc);
        CHECK(at, !strcmp(ours, line));
        gix_hash_id id = {0};
        CHECK(at, !gix_hash_pack_id(kind, bytes, len, at, &id) && !memcmp(&id, &entry.id, sizeof id));
    }
    gix_hash_entry entry = {.offset = 5};
    CHECK(at, at == count && !fgets(line, sizeof line, git) && gix_hash_pack_entry(kind, bytes, len, at, &entry) == GIX_HASH_OUT_OF_RANGE && entry.offset == 5);
    for (at = 0; at < count; at++) {
        size_t hex_len = 0, shared = 3;
        for (size_t k = 0; k < count; k++)
            while (k != at && shared < strlen(names[at]) && !strncmp(names[k], names[at], shared + 1)) shared++;
        uint32_t code = gix_hash_pack_abbreviate(kind, bytes, len, at, &hex_len);
        CHECK(at, shared == strlen(names[at]) ? code == GIX_HASH_NOT_UNIQUE && !hex_len : !code && hex_len == shared + 1);
        test_runs(kind, len, count, names[at]);
    }
    test_runs(kind, len, count, "00000"), test_runs(kind, len, count, "fffff"), test_runs(kind, len, count, "80808");
    test_broken(kind, len), test_changed(kind, len, count), test_any_bytes(kind, len, count);
    if (file) fclose(file);
    if (git) pclose(git);
}

/* What reading, spelling and naming ids returns, leaves and writes. */
static void test_ids(void) {
    for (size_t i = 0; i < ROWS(digests); i++) {
        uint32_t kind = digests[i].kind;
        size_t size = kind == GIX_HASH_SHA1 ? 20 : 32;
        gix_hash_id id = id_of(digests[i].hex), old, made;
        memset(&old, 7, sizeof old);
        for (size_t len = 0; len < 68; len++) {
            char dashes[68], kept[68];
            memset(dashes, '-', sizeof dashes), memset(kept, '-', sizeof kept), made = old;
            char *text = fenced(INPUT, dashes, len);
            uint32_t code = len > 2 * size ? GIX_HASH_OK : GIX_HASH_NO_ROOM;
            if (!code) memcpy(kept, digests[i].hex, 2 * size + 1);
            CHECK(len, gix_hash_id_to_text(fenced(STRUCT, &id, sizeof id), text, len) == code && !memcmp(text, kept, len));
            size_t count = len % 33; /* bytes */
            code = count == size ? GIX_HASH_OK : GIX_HASH_BAD_LENGTH;
            CHECK(len, gix_hash_id_from_bytes(kind, fenced(INPUT, id.bytes, count), count, &made) == code);
            CHECK(len, !memcmp(&made, code ? &old : &id, sizeof made));
        }
    }
    char text[65] = "kept";
    gix_hash_id id = {0}, none = {.kind = 3}, zeros = {.kind = GIX_HASH_SHA256};
    CHECK(0, gix_hash_id_to_text(&none, text, 65) == GIX_HASH_BAD_KIND && !strcmp(text, "kept"));
    CHECK(0, gix_hash_id_to_text(&zeros, NULL, 0) == GIX_HASH_NO_ROOM);
    CHECK(0, gix_hash_id_from_bytes(GIX_HASH_SHA1, NULL, 0, &id) == GIX_HASH_BAD_LENGTH);
    CHECK(0, !gix_hash_id_null(GIX_HASH_SHA256, &id) && !memcmp(&id, &zeros, sizeof id));
    static const uint32_t unknown[] = {0, 5, 257, 0x80000001, UINT32_MAX}; /* as kinds, and as types */
    for (size_t i = 0; i < ROWS(unknown); i++) {
        uint32_t kind = unknown[i], bad = GIX_HASH_BAD_KIND;
        CHECK(i, gix_hash_id_null(kind, &id) == bad && gix_hash_id_from_bytes(kind, none.bytes, 20, &id) == bad);
        CHECK(i, gix_hash_id_empty_blob(kind, &id) == bad && gix_hash_id_empty_tree(kind, &id) == bad);
        CHECK(i, gix_hash_object_id(kind, 0, NULL, 0, &id) == bad);
        gix_hash_hasher hasher, kept;
        memset(&kept, 7, sizeof kept), hasher = kept;
        CHECK(i, gix_hash_object_hasher(kind, 0, 0, &hasher) == bad && !memcmp(&hasher, &kept, sizeof kept));
        bad = GIX_HASH_BAD_TYPE;
        CHECK(i, gix_hash_object_hasher(GIX_HASH_SHA1, kind, 0, &hasher) == bad && !memcmp(&hasher, &kept, sizeof kept));
        CHECK(i, gix_hash_object_id(GIX_HASH_SHA1, kind, NULL, 0, &id) == GIX_HASH_BAD_TYPE && !memcmp(&id, &zeros, sizeof id));
    }
    int number[3] = {0};
    CHECK(0, sscanf(GIX_HASH_VERSION, "%d.%d.%d", &number[0], &number[1], &number[2]) == 3);
    CHECK(0, gix_hash_version() == (uint32_t)(10000 * number[0] + 100 * number[1] + number[2]));
}

static uint8_t content[1 << 20];

/* The next of a row of numbers that look random. */
static uint32_t next_number(void) {
    static uint32_t seed = 1;
    return (seed = seed * 1664525 + 1013904223) >> 8;
}

/* Ids of objects of each type, as git hash-object prints them. */
static void test_objects(const char *name, uint32_t kind) {
    static const size_t sizes[] = {0, 1, 9, 10, 4095, 65536, sizeof content};
    char directory[] = "/tmp/gix-hash-XXXXXX", path[100], command[1000], line[100], text[65] = "";
    if (!mkdtemp(directory)) exit(2);
    for (size_t i = 0; i < ROWS(sizes); i++) {
        snprintf(path, sizeof path, "%s/%u", directory, (unsigned)i);
        FILE *file = fopen(path, "wb");
        CHECK(i, file && fwrite(content, 1, sizes[i], file) == sizes[i] && !fclose(file));
    }
    snprintf(command, sizeof command,
        "cd %s && git init -q --object-format=%s git 2>&1 && cd git && for i in 0 1 2 3 4 5 6; do for type in commit tree blob tag; do "
        "git hash-object --literally --no-filters -t $type ../$i; done; done; rm -rf %s", directory, name, directory);
    FILE *git = popen(command, "r");
    for (size_t i = 0; i < ROWS(sizes); i++)
        for (uint32_t type = GIX_HASH_COMMIT; type <= GIX_HASH_TAG; type++) {
            gix_hash_id id = {0}, empty = {0};
            CHECK(i, git && fgets(line, sizeof line, git) && !gix_hash_object_id(kind, type, content, sizes[i], &id));
            line[strcspn(line, "\n")] = 0;
            CHECK(i, !gix_hash_id_to_text(&id, text, sizeof text) && !strcmp(text, line));
            gix_hash_hasher hasher = {0};
            gix_hash_id chunked = {0};
            CHECK(i, !gix_hash_object_hasher(kind, type, sizes[i], &hasher));
            for (size_t at = 0, len; at < sizes[i]; at += len) {
                len = sizes[i] - at < 1000 ? sizes[i] - at : 1000;
                CHECK(i, !gix_hash_hasher_update(&hasher, content + at, len));
            }
            CHECK(i, !gix_hash_hasher_finish(&hasher, &chunked) && !memcmp(&chunked, &id, sizeof id));
            if (type == GIX_HASH_BLOB) CHECK(i, !gix_hash_id_empty_blob(kind, &empty) && !memcmp(&id, &empty, sizeof id) == !i);
            if (type == GIX_HASH_TREE) CHECK(i, !gix_hash_id_empty_tree(kind, &empty) && !memcmp(&id, &empty, sizeof id) == !i);
        }
    if (git) pclose(git);
}

/* What the hasher of an object was fed, for lengths of each number of digits. */
static void test_headers(uint32_t kind) {
    static const uint64_t lens[] = {0, 9, 10, 4294967295, 4294967296, UINT64_MAX - 1, UINT64_MAX};
    static const char *const types[] = {"commit", "tree", "blob", "tag"};
    for (size_t i = 0; i < ROWS(lens) * ROWS(types); i++) {
        char header[40];
        gix_hash_hasher hasher;
        gix_hash_id id = {0}, wanted = {0};
        int len = snprintf(header, sizeof header, "%s %llu", types[i % 4], (unsigned long long)lens[i / 4]) + 1;
        memset(&hasher, 7, sizeof hasher);
        CHECK(i, !gix_hash_object_hasher(kind, (uint32_t)(i % 4 + 1), lens[i / 4], &hasher));
        CHECK(i, !gix_hash_hasher_finish(&hasher, &id) && !gix_hash_digest(kind, fenced(INPUT, header, (size_t)len), (size_t)len, &wanted));
        CHECK(i, !memcmp(&id, &wanted, sizeof id) && hasher.count == (uint64_t)len);
    }
}

/* Messages in chunks of 0 to 199 bytes have the digests of their beginnings, also in copies. */
static void test_hashers(uint32_t kind) {
    for (size_t row = 0; row < 50; row++) {
        gix_hash_hasher hasher, copy;
        gix_hash_id id = {0}, whole = {0};
        memset(&hasher, 7, sizeof hasher);
        CHECK(row, !gix_hash_hasher_new(kind, &hasher) && !gix_hash_hasher_update(&hasher, NULL, 0));
        for (size_t at = 0; at < 2000;) {
            size_t len = next_number() % 200;
            copy = hasher;
            CHECK(row, !gix_hash_hasher_update(&copy, content + 1, 5));
            CHECK(row, !gix_hash_hasher_update(&hasher, fenced(INPUT, content + at, len), len));
            for (size_t k = 5; kind == GIX_HASH_SHA1 && k < 8; k++) CHECK(row, !copy.words[k] && !hasher.words[k]);
            at += len;
            CHECK(row, !gix_hash_hasher_finish(&hasher, &id) && !gix_hash_digest(kind, content, at, &whole));
            CHECK(row, !memcmp(&id, &whole, sizeof id));
        }
        CHECK(row, !gix_hash_hasher_finish(&copy, &id) && memcmp(&id, &whole, sizeof id));
    }
}

/* Any bytes are a hasher, also at the end of the count. The words that SHA-1 does not use are zeros once it was fed. A hasher
 * of no kind stays, and so does the id. */
static void test_any_hashers(void) {
    for (uint32_t i = 0; i < 3000; i++) {
        gix_hash_hasher hasher, old;
        gix_hash_id id = {0}, zeros = {0};
        for (size_t k = 0; k < sizeof hasher; k++) ((uint8_t *)&hasher)[k] = (uint8_t)next_number();
        hasher.kind = i % 3 ? i % 3 : i + 3;
        if (i % 5 == 0) hasher.count = UINT64_MAX - i % 64;
        old = hasher;
        uint32_t code = i % 3 ? GIX_HASH_OK : GIX_HASH_BAD_KIND;
        CHECK(i, gix_hash_hasher_finish(&hasher, &id) == code && !memcmp(&hasher, &old, sizeof old));
        CHECK(i, !memcmp(&id, &zeros, sizeof id) == (code != GIX_HASH_OK));
        CHECK(i, gix_hash_hasher_update(&hasher, content, i % 200) == code);
        CHECK(i, code ? !memcmp(&hasher, &old, sizeof old) : hasher.count == old.count + i % 200);
        for (size_t k = 5; hasher.kind == GIX_HASH_SHA1 && k < 8; k++) CHECK(i, !hasher.words[k]);
        old = hasher;
        CHECK(i, gix_hash_hasher_new(i + 3, &hasher) == GIX_HASH_BAD_KIND && !memcmp(&hasher, &old, sizeof old));
    }
}

int main(int count, char **words) {
    const char *directory = count > 1 ? words[1] : ".";
    test_digests(), test_texts(), test_errors(), test_hostile(), test_nothing();
    CHECK(0, !strcmp(gix_hash_code_text(GIX_HASH_NO_ROOM), "the buffer is too short"));
    CHECK(0, !strcmp(gix_hash_code_text(30), "not a code of gix_hash.h"));
    test_index(directory, "sha1.idx", GIX_HASH_SHA1), test_index(directory, "sha256.idx", GIX_HASH_SHA256);
    test_index(directory, "longs.idx", GIX_HASH_SHA1);
    test_uneven(GIX_HASH_SHA1), test_uneven(GIX_HASH_SHA256);
    for (size_t i = 0; i < sizeof content; i++) content[i] = (uint8_t)next_number();
    test_ids(), test_objects("sha1", GIX_HASH_SHA1), test_objects("sha256", GIX_HASH_SHA256);
    test_headers(GIX_HASH_SHA1), test_headers(GIX_HASH_SHA256);
    test_hashers(GIX_HASH_SHA1), test_hashers(GIX_HASH_SHA256), test_any_hashers();
    printf("%d passed, %d failed\n", passed, failed);
    return failed > 0;
}
