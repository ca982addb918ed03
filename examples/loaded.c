/*
 * Loads the shared library at run time, by the name that it is given, and formats a volume with it.
 * The version is compared before any other export is called.
 */
#include <dlfcn.h>
#include <stdio.h>
#include <string.h>

#include "mfs_c.h"

static uint8_t image[4200 * MFS_BLOCK_SIZE];

/* ISO C has no cast from what dlsym answers to a function. */
static void find(void *library, const char *name, void *function)
{
    void *found = dlsym(library, name);
    memcpy(function, &found, sizeof found);
}

int main(int count, char **word)
{
    uint32_t (*version)(void);
    uint32_t (*format)(uint8_t *img, size_t img_len, uint32_t k, uint32_t code);
    uint32_t (*usage)(const uint8_t *img, size_t img_len, uint32_t k, uint32_t code,
                      uint64_t *size, uint64_t *used, uint64_t *free);
    uint64_t size, used, rest;
    void *library = count == 2 ? dlopen(word[1], RTLD_NOW) : NULL;
    if (library == NULL) {
        puts("there is no such library");
        return 1;
    }
    find(library, "mfs_c_version", &version);
    if (version == NULL || version() != MFS_C_VERSION) {
        puts("the library has other exports than this program calls");
        return 1;
    }
    find(library, "mfs_c_format", &format);
    find(library, "mfs_c_usage", &usage);
    if (format(image, sizeof image, 8, MFS_CODE_512) != MFS_OK ||
        usage(image, sizeof image, 8, MFS_CODE_512, &size, &used, &rest) != MFS_OK) {
        puts("refused");
        return 1;
    }
    printf("%lu of %lu bytes used\n", (unsigned long)used, (unsigned long)size);
    return 0;
}
