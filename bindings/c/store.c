/* store PREFIX: prints each id of the repository in the current directory that begins with the prefix. It asks packtool. */
#define _POSIX_C_SOURCE 200809L
#include <gix_hash.h>
#include <stdio.h>
#include <string.h>
#include <sys/wait.h>

static int fail(const char *what, uint32_t code) {
    fprintf(stderr, "%s: %s\n", what, gix_hash_code_text(code));
    return 2;
}

int main(int count, char **words) {
    if (count != 2) return fputs("usage: store PREFIX\n", stderr), 2;
    gix_hash_prefix prefix = {0};
    uint32_t code = gix_hash_prefix_from_hex(words[1], strlen(words[1]), &prefix);
    if (code) return fail(words[1], code);
    char command[100], line[67];
    /* (the shell gets nothing but hex digits) */
    snprintf(command, sizeof command, "exec packtool find %s", words[1]);
    FILE *lines = popen(command, "r");
    if (!lines) return perror("packtool"), 2;
    while (!code && fgets(line, sizeof line, lines)) {
        gix_hash_id id = {0};
        char digits[65] = "";
        code = gix_hash_id_from_hex(line, strcspn(line, "\n"), &id);
        gix_hash_id_to_text(&id, digits, sizeof digits);
        if (!code) puts(digits);
    }
    int status = pclose(lines);
    if (code) return fail(line, code);
    /* 0 if ids were found, 1 if there are none, 2 after an error, which packtool has printed; 127 if the shell found no packtool */
    return WIFEXITED(status) ? WEXITSTATUS(status) : 2;
}
