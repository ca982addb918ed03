#include <stdio.h>

#include "mfs.h"

static uint8_t image[4200 * MFS_BLOCK_SIZE];
static uint8_t work[MFS_WORK_BYTES(sizeof image)];

int main(void)
{
    mfs_volume volume = {image, sizeof image, 8, MFS_CODE_512, work, sizeof work, "/"};
    mfs_handle water;
    char text[8];
    size_t bytes = 0;

    mfs_refusal r = mfs_format(&volume);
    if (r == MFS_OK) r = mfs_create_file(&volume, "/water", 1700000000, &water);
    if (r == MFS_OK) r = mfs_write(&volume, &water, "00000041", 8, 1700000060);
    if (r == MFS_OK) r = mfs_seek_start(&water, 0);
    if (r == MFS_OK) r = mfs_read(&volume, &water, text, sizeof text, &bytes);
    if (r != MFS_OK) {
        printf("refused %d: %s\n", (int)r, mfs_refusal_text(r));
        return 1;
    }
    printf("%.*s\n", (int)bytes, text);
    return 0;
}
