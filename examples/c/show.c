/* Tells what an image file has, or writes one of its files to standard output: show IMAGE [NUMBER]. */
#include "rusziveg.h"

#include <stdio.h>
#include <stdlib.h>

/* All bytes of a file, or NULL. */
static uint8_t *read_all(const char *path, size_t *count)
{
    FILE *file = fopen(path, "rb");
    if (file == NULL)
        return NULL;
    uint8_t *bytes = NULL;
    long end = -1;
    if (fseek(file, 0, SEEK_END) == 0)
        end = ftell(file);
    if (end >= 0 && fseek(file, 0, SEEK_SET) == 0)
        bytes = malloc((size_t)end + 1);
    if (bytes != NULL && fread(bytes, 1, (size_t)end, file) != (size_t)end) {
        free(bytes);
        bytes = NULL;
    }
    fclose(file);
    *count = (size_t)end;
    return bytes;
}

static int write_file(const uint8_t *bytes, size_t count, uint32_t number, uint32_t block_bytes)
{
    uint32_t blocks = 0;
    uint8_t none;
    if (rusziveg_read_file(bytes, count, number, &none, 0, &blocks) != 0)
        return 1;
    size_t size = (size_t)blocks * block_bytes;
    uint8_t *out = malloc(size + 1);
    if (out == NULL)
        return 4;
    int failed = rusziveg_read_file(bytes, count, number, out, size, &blocks) != 0;
    if (!failed)
        failed = fwrite(out, 1, size, stdout) != size;
    free(out);
    return failed;
}

int main(int argc, char **argv)
{
    size_t count = 0;
    uint8_t *bytes = argc > 1 ? read_all(argv[1], &count) : NULL;
    if (bytes == NULL) {
        fprintf(stderr, "usage: show IMAGE [NUMBER]\n");
        return 2;
    }
    struct rusziveg_facts facts = {0};
    uint32_t refusal = rusziveg_check(bytes, count, &facts);
    int status = refusal != 0;
    if (refusal != 0)
        fprintf(stderr, "refused %u, fault %u\n", refusal, facts.fault);
    else if (argc > 2)
        status = write_file(bytes, count, (uint32_t)strtoul(argv[2], NULL, 10), facts.block_bytes);
    else
        printf("version %u total %u free %u of %u segments of %u blocks of %u bytes\n", facts.version, facts.valid_blocks,
               facts.free_segments, facts.segments, facts.segment_blocks, facts.block_bytes);
    free(bytes);
    return status;
}
