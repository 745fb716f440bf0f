/* hash: prints the SHA-256 digest of standard input, which is read in chunks. */
#include <gix_hash.h>
#include <stdio.h>

int main(void) {
    gix_hash_hasher hasher = {0};
    gix_hash_id id = {0};
    uint8_t chunk[4096];
    char text[65] = "";
    gix_hash_hasher_new(GIX_HASH_SHA256, &hasher);
    for (size_t len; (len = fread(chunk, 1, sizeof chunk, stdin)) > 0;) gix_hash_hasher_update(&hasher, chunk, len);
    if (ferror(stdin)) return perror("stdin"), 2;
    gix_hash_hasher_finish(&hasher, &id);
    gix_hash_id_to_text(&id, text, sizeof text);
    puts(text);
}
