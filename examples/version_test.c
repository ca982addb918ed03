/*
 * A library of another version is told apart by mfs_c.h alone. examples/run links this program with
 * no library: it has an mfs_c_version of its own, which answers what it likes.
 */
#include <stdio.h>

#include "mfs_c.h"

static uint32_t version;

uint32_t mfs_c_version(void)
{
    return version;
}

static int found_as(uint32_t library)
{
    version = library;
    return MFS_CHECK_VERSION();
}

int main(void)
{
    if (!found_as(MFS_C_VERSION) || found_as(MFS_C_VERSION + 1) || found_as(0)) {
        puts("versions are mixed up");
        return 1;
    }
    puts("versions are told apart");
    return 0;
}
