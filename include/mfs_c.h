/*
 * The exports of libmfs_c: the proved functions, on plain pointers and lengths, with their limits,
 * refusals and version. For C99 and C++98 and all later ones.
 *
 * Most programs want mfs.h, which stands over this header, and says what holds for every call.
 */
#ifndef MFS_C_H
#define MFS_C_H

#include <stddef.h>
#include <stdint.h>

#ifdef __cplusplus
extern "C" {
#endif

/* ---- Limits ---------------------------------------------------------------------------------- */

#define MFS_CODE_512 0               /* size code: blocks of 512 bytes */
#define MFS_CODE_1024 1              /* size code: blocks of 1,024 bytes */
#define MFS_BLOCK_SIZE 512           /* bytes of a block of code 0 */
#define MFS_IMAGE_MAX_BLOCKS 8388608 /* such blocks of the largest image (4 GiB, with any code) */
#define MFS_NAME_MAX 255             /* bytes of the longest name */
#define MFS_PATH_MAX 1024            /* bytes of the longest full path */
#define MFS_FILE_MAX 2147483647      /* bytes of the largest file */
#define MFS_DEPTH_MAX 16             /* depth of the deepest directory; the root is at 0 */

/* Bytes of a block, by the size code. */
#define MFS_BLOCK_BYTES(code) (MFS_BLOCK_SIZE << (code))

/* Bytes of work buffer that are enough for any volume in an image of image_len bytes. */
#define MFS_WORK_BYTES(image_len) (((image_len) / MFS_BLOCK_SIZE + 7) / 8)

/* Bytes of a record of a listing before its name. */
#define MFS_RECORD_HEADER 14
/* Bytes of a buffer for a listing that has room for any one record, which must be shorter. */
#define MFS_LIST_BYTES_MIN (MFS_RECORD_HEADER + MFS_NAME_MAX + 1)

/* ---- Refusals -------------------------------------------------------------------------------- */

/* Why a call is refused. N is n - K - 2: the blocks of bitmap and data area together. */
typedef enum mfs_refusal {
    MFS_OK = 0,           /* not refused */
    MFS_BAD_IMAGE = 1,    /* image empty, not whole blocks, over the limit, or no block K + 2 */
    MFS_NOT_MFS = 2,      /* unknown size code; another signature, version or code in block K */
    MFS_BAD_COUNT = 3,    /* n above the image's, N below 2, or N mod 4097 (code 1: 8193) = 1;
                             version 1: n above the image's, or N below 4097 */
    MFS_BAD_PATH = 4,     /* full path too long or a byte of it; a needed cwd without '/' first */
    MFS_NOT_FOUND = 5,    /* nothing of that name, or (not for create) an empty last name */
    MFS_WRONG_KIND = 6,   /* part of the path no directory; open of no file; list of no directory */
    MFS_EXISTS = 7,       /* create: the name is there */
    MFS_BAD_NAME = 8,     /* create: last name empty or over 255 bytes */
    MFS_NO_ROOM = 9,      /* fewer blocks free within reach than the call must add */
    MFS_TOO_LARGE = 10,   /* file would pass 2,147,483,647 bytes; open: it does */
    MFS_STALE = 11,       /* handle's own fields out of range, or no such file in its directory */
    MFS_BAD_SEEK = 12,    /* target below 0 or above the file's size */
    MFS_EMPTY_WRITE = 13, /* write or patch of no bytes */
    MFS_NOT_EMPTY = 14,   /* delete: the directory has entries */
    MFS_TOO_DEEP = 15,    /* the new directory would be at depth 17 */
    MFS_SHORT_WORK = 16,  /* work buffer shorter than ceil((n - D) / 8) bytes */
    MFS_DAMAGED = 17,     /* check, changing calls: not well formed; others: damage on the way */
    MFS_PAST_END = 19     /* patch: the bytes would go past the file's end */
} mfs_refusal;

/* What an entry is. */
typedef enum mfs_kind {
    MFS_KIND_DIR = 0,
    MFS_KIND_FILE = 1,
    MFS_KIND_DEVICE = 2
} mfs_kind;

/* ---- What the compiler is told --------------------------------------------------------------- */

#if defined(__GNUC__) || defined(__clang__)
/* No pointer may be NULL. */
#define MFS_NONNULL __attribute__((nonnull))
/* An answer that nobody looks at is a refusal that goes unseen. */
#define MFS_MUST_USE __attribute__((warn_unused_result))
#else
#define MFS_NONNULL
#define MFS_MUST_USE
#endif

/* ---- The version of the exports ---------------------------------------------------------------
 *
 * The library may be another than this header was made for: an older archive, or a shared library
 * that is found at run time. Its exports could have other parameters then, and no call of them but
 * this one would be sound. So ask once, before the first call:
 *
 *     if (!MFS_CHECK_VERSION()) {
 *         fputs("libmfs_c is not the version that this program was compiled for\n", stderr);
 *         return EXIT_FAILURE;
 *     }
 */
#define MFS_C_VERSION 2
#define MFS_CHECK_VERSION() (mfs_c_version() == MFS_C_VERSION)

/* The version of the library's exports: a constant, the library's MFS_C_VERSION. */
MFS_MUST_USE
uint32_t mfs_c_version(void);

/* ---- The exports -----------------------------------------------------------------------------
 *
 * A buffer is a pointer and the number of its bytes. A handle is three parameters: number (the
 * first address of the directory that holds the file, the file's first address, size, position),
 * name (255 bytes, zeros after the name) and len, the name's bytes. Out parameters are written
 * where the answer is 0, and stay as they were otherwise.
 *
 * k is the superblock's block and code the code of the block size, in which k and all addresses
 * count. The superblock cannot be found without it, so a code that is not known is refused before
 * the image is looked at: by 2, ahead of the refusals in the lists below. A superblock of another
 * code than the call's is refused by 2 in its place.
 */

/*
 * Makes the whole image a volume with an empty root directory: n is the image's block count.
 * Block K and blocks K + 2 to D are written, no other.
 * Refusals: 2 (the size code alone), 1, 3.
 */
MFS_NONNULL MFS_MUST_USE
uint32_t mfs_c_format(uint8_t *img, size_t img_len, uint32_t k, uint32_t code);

/*
 * Bytes of the volume, of its used blocks, and the rest, by the superblock's counts.
 * Refusals: 1, 2, 3, 17 (a used count above n).
 */
MFS_NONNULL MFS_MUST_USE
uint32_t mfs_c_usage(const uint8_t *img, size_t img_len, uint32_t k, uint32_t code,
                     uint64_t *size, uint64_t *used, uint64_t *free);

/*
 * Whether count blocks are free within reach: enough becomes 1 for yes, 0 for no. The bitmap is read
 * from its start up to the byte that has the last one asked for, or to the last byte in reach, and
 * bytes becomes the number of its bytes that were read. No block is looked at: an image that is
 * damaged elsewhere gets its answer.
 * Refusals: 1, 2, 3.
 */
MFS_NONNULL MFS_MUST_USE
uint32_t mfs_c_room(const uint8_t *img, size_t img_len, uint32_t k, uint32_t code, uint32_t count,
                    uint32_t *enough, uint32_t *bytes);

/*
 * Accepts exactly the images that are well-formed volumes.
 * Refusals: 1, 2, 3, 16, 17.
 */
MFS_NONNULL MFS_MUST_USE
uint32_t mfs_c_check(const uint8_t *img, size_t img_len, uint32_t k, uint32_t code,
                     uint8_t *work, size_t work_len);

/*
 * Opens the file at a path: number, name and len become a handle at position 0.
 * Refusals: 1, 2, 3, 4, the first of 5, 6, 17 on the way along the path, 10.
 */
MFS_NONNULL MFS_MUST_USE
uint32_t mfs_c_open(const uint8_t *img, size_t img_len, uint32_t k, uint32_t code,
                    const uint8_t *cwd, size_t cwd_len,
                    const uint8_t *path, size_t path_len,
                    uint32_t number[4], uint8_t name[255], size_t *len);

/*
 * Kind (an mfs_kind), size, time and name of what stands at a path. A directory's size is the sum
 * of 18 + name length over its entries. The path "/" gives the root: a directory, time 0, no name.
 * All 255 bytes of name are written, zeros after the name.
 * Refusals: 1, 2, 3, 4, the first of 5, 6, 17 on the way along the path.
 */
MFS_NONNULL MFS_MUST_USE
uint32_t mfs_c_info(const uint8_t *img, size_t img_len, uint32_t k, uint32_t code,
                    const uint8_t *cwd, size_t cwd_len,
                    const uint8_t *path, size_t path_len,
                    uint8_t *kind, uint32_t *size, uint64_t *time, uint8_t name[255], size_t *len);

/*
 * Lists the directory at a path from entry number i on, counted from 0. Records are put into buf as
 * long as all of them together are shorter than buf_len; the rest of buf stays. A record is kind (1
 * byte), size (4), time (8), name length (1) and name, with numbers big-endian. bytes counts what
 * was put into buf, and next is the number of the entry after it.
 *
 * With no entry left, bytes is 0 and next is i. A buffer that is too short for the next record gets
 * the same answer. A record has 14 + 255 bytes at most, so with a buffer of MFS_LIST_BYTES_MIN, 270
 * bytes, or more, 0 bytes are the end; with a shorter one, the end or a longer name.
 * Refusals: 1, 2, 3, 4, the first of 5, 6, 17 on the way along the path and through the entries, as
 * far as the record that does not fit.
 */
MFS_NONNULL MFS_MUST_USE
uint32_t mfs_c_list(const uint8_t *img, size_t img_len, uint32_t k, uint32_t code,
                    const uint8_t *cwd, size_t cwd_len,
                    const uint8_t *path, size_t path_len,
                    uint32_t i, uint8_t *buf, size_t buf_len, size_t *bytes, uint32_t *next);

/*
 * Reads from the position on, as many bytes as buf has room for and the file has. bytes counts
 * them; the rest of buf stays. The position in number moves behind them. At the file's end bytes
 * is 0.
 * Refusals: 1, 2, 3, 11 (the handle's own fields), the first of 11, 17 on the way through its
 * directory, 17 on the way through the file.
 */
MFS_NONNULL MFS_MUST_USE
uint32_t mfs_c_read(const uint8_t *img, size_t img_len, uint32_t k, uint32_t code,
                    uint32_t number[4], const uint8_t name[255], size_t len,
                    uint8_t *buf, size_t buf_len, size_t *bytes);

/*
 * Move the position in number: to `to`, by `by`, or to the size plus `by`. Targets from 0 to the
 * size are accepted. The size is the handle's; the image is not looked at.
 * Refusals: 11 (the handle's own fields), 12.
 */
MFS_NONNULL MFS_MUST_USE
uint32_t mfs_c_seek_start(uint32_t number[4], const uint8_t name[255], size_t len, uint32_t to);
MFS_NONNULL MFS_MUST_USE
uint32_t mfs_c_seek_current(uint32_t number[4], const uint8_t name[255], size_t len, int32_t by);
MFS_NONNULL MFS_MUST_USE
uint32_t mfs_c_seek_end(uint32_t number[4], const uint8_t name[255], size_t len, int32_t by);

/*
 * Creates a file of 0 bytes at a path and opens it: number, name and len become its handle. The
 * holding directory's own entry gets its new size and the time.
 * Refusals: 1, 2, 3, 16, 17, 4, 8, the first of 5, 6 on the way along the path, 7, 9.
 */
MFS_NONNULL MFS_MUST_USE
uint32_t mfs_c_create_file(uint8_t *img, size_t img_len, uint32_t k, uint32_t code,
                           const uint8_t *cwd, size_t cwd_len,
                           const uint8_t *path, size_t path_len,
                           uint64_t time, uint8_t *work, size_t work_len,
                           uint32_t number[4], uint8_t name[255], size_t *len);

/*
 * Creates an empty directory at a path. The holding directory's own entry gets its new size and the
 * time.
 * Refusals: 1, 2, 3, 16, 17, 4, 8, the first of 5, 6 on the way along the path, 15, 7, 9.
 */
MFS_NONNULL MFS_MUST_USE
uint32_t mfs_c_create_dir(uint8_t *img, size_t img_len, uint32_t k, uint32_t code,
                          const uint8_t *cwd, size_t cwd_len,
                          const uint8_t *path, size_t path_len,
                          uint64_t time, uint8_t *work, size_t work_len);

/*
 * Deletes the file, the device or the empty directory at a path. The holding directory's own entry
 * gets its new size and the time.
 * Refusals: 1, 2, 3, 16, 17, 4, the first of 5, 6 on the way along the path, 14.
 */
MFS_NONNULL MFS_MUST_USE
uint32_t mfs_c_delete(uint8_t *img, size_t img_len, uint32_t k, uint32_t code,
                      const uint8_t *cwd, size_t cwd_len,
                      const uint8_t *path, size_t path_len,
                      uint64_t time, uint8_t *work, size_t work_len);

/*
 * Writes all of buf at the position, or nothing. The file ends behind buf: bytes that followed are
 * gone. Its entry gets the new size and the time, number the new size and position, and bytes is
 * buf_len. Other handles on the file are stale from then on if its size has changed; if it has not,
 * they stay current.
 * Refusals: 1, 2, 3, 16, 17, 13, 11 (also for a directory not reached from the root), 10, 9.
 */
MFS_NONNULL MFS_MUST_USE
uint32_t mfs_c_write(uint8_t *img, size_t img_len, uint32_t k, uint32_t code,
                     uint32_t number[4], const uint8_t name[255], size_t len,
                     const uint8_t *buf, size_t buf_len,
                     uint64_t time, uint8_t *work, size_t work_len, size_t *bytes);

/*
 * Puts all of buf over bytes that the file has already, from the position on, or nothing. The file's
 * size, its blocks and its other bytes stay. Its entry gets the time, number the position behind
 * buf, and bytes is buf_len. Every handle on the file that was current stays current.
 * Refusals: 1, 2, 3, 16, 17, 13, 11 (also for a directory not reached from the root), 19.
 */
MFS_NONNULL MFS_MUST_USE
uint32_t mfs_c_patch(uint8_t *img, size_t img_len, uint32_t k, uint32_t code,
                     uint32_t number[4], const uint8_t name[255], size_t len,
                     const uint8_t *buf, size_t buf_len,
                     uint64_t time, uint8_t *work, size_t work_len, size_t *bytes);

#ifdef __cplusplus
}
#endif

#endif
