/* pack INDEX PREFIX: prints the offset and the id of each object of a pack whose id begins with the prefix. */
#define _POSIX_C_SOURCE 200809L
#include <fcntl.h>
#include <gix_hash.h>
#include <stdio.h>
#include <string.h>
#include <sys/mman.h>
#include <sys/stat.h>

static int fail(const char *what, uint32_t code) {
    fprintf(stderr, "%s: %s\n", what, gix_hash_code_text(code));
    return 2;
}

int main(int count, char **words) {
    if (count != 3) return fputs("usage: pack INDEX PREFIX\n", stderr), 2;
    struct stat about;
    int file = open(words[1], O_RDONLY);
    if (file < 0 || fstat(file, &about)) return perror(words[1]), 2;
    size_t len = (size_t)about.st_size;
    /* (an empty file cannot be mapped) */
    const uint8_t *bytes = len ? mmap(NULL, len, PROT_READ, MAP_PRIVATE, file, 0) : NULL;
    if (bytes == MAP_FAILED) return perror(words[1]), 2;
    uint32_t kind = 0, code = gix_hash_pack_kind(bytes, len, &kind); /* checks the index whole */
    if (code) return fail(words[1], code);
    gix_hash_prefix prefix = {0};
    gix_hash_run run = {0};
    code = gix_hash_prefix_from_hex(words[2], strlen(words[2]), &prefix);
    if (!code) code = gix_hash_pack_find(kind, bytes, len, &prefix, &run);
    if (code) return fail(words[2], code);
    for (size_t at = run.start; at < run.end; at++) {
        gix_hash_entry entry = {0};
        char digits[65] = "";
        code = gix_hash_pack_entry(kind, bytes, len, at, &entry);
        if (code) return fail(words[1], code);
        gix_hash_id_to_text(&entry.id, digits, sizeof digits);
        printf("%llu %s\n", (unsigned long long)entry.offset, digits);
    }
    return run.start == run.end;
}
