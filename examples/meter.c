/*
 * A collector of meter readings on a volume in memory: one counter to a file, and a log. Prints
 * each call with its answer, and ends at the first answer that it does not expect.
 *
 * Written so that it is C99 and C++98 at once. examples/run compiles and runs it as both.
 */
#include <inttypes.h>
#include <stdio.h>
#include <stdlib.h>

#include "mfs.h"

#define BLOCKS 4200
#define SUPERBLOCK 8 /* the superblock's block: blocks 0 to 7 are the device's own */

static uint8_t image[BLOCKS * MFS_BLOCK_SIZE];
static uint8_t work[MFS_WORK_BYTES(sizeof image)];
static uint8_t more_than_fits[sizeof image];

/* Prints what was tried and its answer. The program has no use for another answer than expected. */
static void tell(const char *what, mfs_refusal answer, mfs_refusal expected)
{
    if (answer == MFS_OK) {
        printf("%s: done\n", what);
    } else {
        printf("%s: refused %d, %s\n", what, (int)answer, mfs_refusal_text(answer));
    }
    if (answer != expected) {
        printf("expected %d\n", (int)expected);
        exit(EXIT_FAILURE);
    }
}

static void must(const char *what, mfs_refusal answer)
{
    tell(what, answer, MFS_OK);
}

/* Prints what the file holds from the handle's position on. */
static void print_rest(const mfs_volume *volume, mfs_handle *handle)
{
    char text[64];
    size_t bytes;
    must("read", mfs_read(volume, handle, text, sizeof text, &bytes));
    printf("  %d bytes: %.*s\n", (int)bytes, (int)bytes, text);
}

static char kind_letter(mfs_kind kind)
{
    return kind == MFS_KIND_DIR ? 'd' : kind == MFS_KIND_FILE ? 'f' : 'v';
}

static void print_records(const uint8_t *buf, size_t bytes)
{
    size_t at = 0;
    mfs_record record;
    while (mfs_record_next(buf, bytes, &at, &record)) {
        printf("  %c %" PRIu32 " %" PRIu64 " %.*s\n", kind_letter(record.kind), record.size,
               record.time, (int)record.name_len, record.name);
    }
}

/* Lists a directory of any length through a small buffer. */
static void print_directory(const mfs_volume *volume, const char *path)
{
    uint8_t buf[MFS_LIST_BYTES_MIN];
    char what[64];
    size_t bytes;
    uint32_t from, next = 0;
    do {
        from = next;
        snprintf(what, sizeof what, "list %s from entry %" PRIu32, path, from);
        must(what, mfs_list(volume, path, from, buf, sizeof buf, &bytes, &next));
        print_records(buf, bytes);
    } while (bytes > 0);
}

static void print_usage(const mfs_volume *volume)
{
    uint64_t size, used, rest;
    must("usage", mfs_usage(volume, &size, &used, &rest));
    printf("  %" PRIu64 " of %" PRIu64 " bytes used, %" PRIu64 " free\n", used, size, rest);
}

static void print_info(const mfs_volume *volume, const char *path)
{
    mfs_entry entry;
    must("info", mfs_info(volume, path, &entry));
    printf("  %c %" PRIu32 " %" PRIu64 " %s\n", kind_letter(entry.kind), entry.size, entry.time,
           entry.name);
}

/* A counter is replaced where it stands: a write at 0 of as many bytes. */
static void keep_a_counter(const mfs_volume *volume)
{
    mfs_handle water;
    must("create water", mfs_create_file(volume, "water", 1700000000, &water));
    must("write 00000041", mfs_write(volume, &water, "00000041", 8, 1700000060));
    must("seek to the start", mfs_seek_start(&water, 0));
    print_rest(volume, &water);
    must("seek to the start", mfs_seek_start(&water, 0));
    must("write 00000042", mfs_write(volume, &water, "00000042", 8, 1700000120));
    must("seek 2 back", mfs_seek_current(&water, -2));
    print_rest(volume, &water);
    tell("seek past the end", mfs_seek_end(&water, 1), MFS_BAD_SEEK);
    print_info(volume, "water");
}

/* The counters of a street stand in one file: one is renewed, and those behind it stay. */
static void keep_a_street(const mfs_volume *volume)
{
    mfs_handle street;
    must("create street", mfs_create_file(volume, "street", 1700000000, &street));
    must("write three counters", mfs_write(volume, &street, "000041000007000993", 18, 1700000060));
    must("seek to the second", mfs_seek_start(&street, 6));
    must("patch it", mfs_patch(volume, &street, "000008", 6, 1700000120));
    must("seek to the start", mfs_seek_start(&street, 0));
    print_rest(volume, &street);
    tell("patch past the end", mfs_patch(volume, &street, "000000", 6, 0), MFS_PAST_END);
    print_info(volume, "street");
    must("delete street", mfs_delete(volume, "street", 1700000180));
}

/* A log grows at its end. A handle that has not seen it grow is stale, and opening anew helps. */
static void keep_a_log(const mfs_volume *volume)
{
    mfs_handle log, other;
    char text[16];
    size_t bytes;
    must("create log", mfs_create_file(volume, "log", 1700000120, &log));
    must("open log once more", mfs_open(volume, "log", &other));
    must("write start;", mfs_write(volume, &log, "start;", 6, 1700000120));
    tell("write by the other handle", mfs_write(volume, &other, "lost?", 5, 1700000180), MFS_STALE);
    must("open log anew", mfs_open(volume, "log", &other));
    must("seek to the end", mfs_seek_end(&other, 0));
    must("write stop;", mfs_write(volume, &other, "stop;", 5, 1700000180));
    must("seek to the start", mfs_seek_start(&other, 0));
    print_rest(volume, &other);
    tell("write more than fits",
         mfs_write(volume, &other, more_than_fits, sizeof more_than_fits, 0), MFS_NO_ROOM);
    tell("write nothing", mfs_write(volume, &other, "", 0, 0), MFS_EMPTY_WRITE);
    print_directory(volume, "/meters");
    must("delete log", mfs_delete(volume, "log", 1700000240));
    tell("read by its handle", mfs_read(volume, &other, text, sizeof text, &bytes), MFS_STALE);
}

int main(void)
{
    mfs_volume volume = {image, sizeof image, SUPERBLOCK, MFS_CODE_512, work, sizeof work, "/"};
    mfs_handle none;

    tell("check of zeros", mfs_check(&volume), MFS_NOT_MFS);
    must("format", mfs_format(&volume));
    print_usage(&volume);
    must("create directory /meters", mfs_create_dir(&volume, "/meters", 1700000000));
    tell("create it again", mfs_create_dir(&volume, "/meters", 1700000000), MFS_EXISTS);

    volume.cwd = "/meters";
    keep_a_counter(&volume);
    keep_a_street(&volume);
    keep_a_log(&volume);
    tell("open gas", mfs_open(&volume, "gas", &none), MFS_NOT_FOUND);
    tell("delete /meters", mfs_delete(&volume, "/meters", 0), MFS_NOT_EMPTY);

    print_directory(&volume, "/");
    print_usage(&volume);
    must("check", mfs_check(&volume));
    return EXIT_SUCCESS;
}
