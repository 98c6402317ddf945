/* Checks a package and, if it is accepted, says how long its proof is.
 *
 * cc -std=c99 -Wall -Wextra -O2 -I host/include host/examples/check.c crates/host_interface/out/libhost_interface.a -o check
 *
 * ./check policy.bin routine.bin
 */
#include <stdio.h>
#include <stdlib.h>

#include "pcc.h"

struct bytes {
    uint8_t *data;
    size_t length;
};

/* A package is never longer than this; one byte more is enough to be refused. */
enum { MOST = 65537 };

static struct bytes read_file(const char *path)
{
    struct bytes bytes = { malloc(MOST), 0 };
    FILE *file = fopen(path, "rb");
    if (file == NULL || bytes.data == NULL) {
        perror(path);
        exit(2);
    }
    bytes.length = fread(bytes.data, 1, MOST, file);
    fclose(file);
    return bytes;
}

int main(int count, char **arguments)
{
    static uint32_t workspace[PCC_WORKSPACE_WORDS];
    uint64_t answer[3], found[3];

    if (count != 3) {
        fprintf(stderr, "usage: check POLICY PACKAGE\n");
        return 2;
    }
    struct bytes policy = read_file(arguments[1]);
    struct bytes package = read_file(arguments[2]);

    pcc_check(workspace, PCC_WORKSPACE_WORDS, policy.data, policy.length,
              package.data, package.length, answer);
    printf("verdict=%llu place=%llu goals=%llu\n", (unsigned long long)answer[0],
           (unsigned long long)answer[1], (unsigned long long)answer[2]);
    size_t length = pcc_find_proof(package.data, package.length, found);
    if (found[0] == 0)
        printf("proof: %zu bytes at %llu\n", length, (unsigned long long)found[2]);

    free(policy.data);
    free(package.data);
    return answer[0] == 0 ? 0 : 1;
}
