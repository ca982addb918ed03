/*
 * A card with blocks of 1,024 bytes. Its size code stands beside the superblock's block in every
 * volume; all else is as with blocks of 512 bytes. Prints each answer, and how much of it is used.
 *
 * Written so that it is C99 and C++98 at once. examples/run compiles and runs it as both.
 */
#include <inttypes.h>
#include <stdio.h>

#include "mfs.h"

#define BLOCKS 8300
#define BLOCK_BYTES MFS_BLOCK_BYTES(MFS_CODE_1024)

static uint8_t image[BLOCKS * BLOCK_BYTES];
static uint8_t work[MFS_WORK_BYTES(sizeof image)];
static uint8_t readings[1020]; /* as many as the first block of a file has room for */

static void tell(const char *what, mfs_refusal answer)
{
    printf("%s: %d, %s\n", what, (int)answer, mfs_refusal_text(answer));
}

static void print_usage(const mfs_volume *volume)
{
    uint64_t size, used, rest;
    if (mfs_usage(volume, &size, &used, &rest) == MFS_OK) {
        printf("  %" PRIu64 " of %" PRIu64 " blocks used\n", used / BLOCK_BYTES, size / BLOCK_BYTES);
    }
}

int main(void)
{
    mfs_volume card = {image, sizeof image, 8, MFS_CODE_1024, work, sizeof work, "/"};
    mfs_volume other = card;
    mfs_handle log;

    tell("format", mfs_format(&card));
    print_usage(&card);
    tell("create /log", mfs_create_file(&card, "/log", 1700000000, &log));
    tell("write 1020 bytes", mfs_write(&card, &log, readings, sizeof readings, 1700000060));
    print_usage(&card);
    tell("write one more", mfs_write(&card, &log, "1", 1, 1700000120));
    print_usage(&card);
    tell("check", mfs_check(&card));

    other.code = MFS_CODE_512;
    tell("check as a card with blocks of 512 bytes", mfs_check(&other));
    other.code = 2;
    tell("check as one of an unknown size", mfs_check(&other));
    return 0;
}
