/* Image files of flash volumes, read from C. The library takes no lock, keeps nothing, and changes no image. */
#ifndef RUSZIVEG_H
#define RUSZIVEG_H

#include <stddef.h>
#include <stdint.h>

#ifdef __cplusplus
extern "C" {
#endif

/* What the last checkpoint of an image file has, and how large its volume is. */
struct rusziveg_facts {
    uint32_t version;
    uint32_t valid_blocks;
    uint32_t free_segments;
    uint32_t block_bytes;
    uint32_t segment_blocks;
    uint32_t segments;
    uint32_t fault; /* of an image that is refused, 1 to 10; else 0 */
};

/* Checks an image file, all of whose bytes are given. Answers 0 where its last checkpoint is lawful, and tells of it; else the number
   of the refusal (1 no memory, 9 no superblock, 10 no pack, 11 a fault). */
uint32_t rusziveg_check(const uint8_t *bytes, size_t count, struct rusziveg_facts *facts);

/* Reads a file by its number: as many whole blocks as out has room for, zeros where none was written. *blocks becomes its length in blocks, 0 where
   there is no such file. Answers 0, or the number of the refusal; then nothing is changed. */
uint32_t rusziveg_read_file(const uint8_t *bytes, size_t count, uint32_t number, uint8_t *out, size_t out_count, uint32_t *blocks);

#ifdef __cplusplus
}
#endif

#endif
