#include <gix_hash.h>
#include <stdio.h>

int main(void) {
    gix_hash_id id = {0};
    char text[65] = "";
    gix_hash_object_id(GIX_HASH_SHA1, GIX_HASH_BLOB, NULL, 0, &id);
    gix_hash_id_to_text(&id, text, sizeof text);
    puts(text); /* the empty file: e69de29bb2d1d6434b8b29ae775ad8c2e48c5391 */
}
