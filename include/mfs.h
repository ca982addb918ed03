/*
 * MFS, proved: the file system of MOROS on a lent image of 512-byte blocks, or of 1,024. For C99 and
 * C++98 and all later ones.
 *
 * Link with libmfs_c (x86-64; made by `scripts/archive`). It needs memcpy and memset and nothing
 * else: no allocation, no operating system, no global state.
 *
 * There are two layers. The exports, mfs_c_*, are the proved functions; mfs_c.h declares them, with
 * the limits and the refusals. They take plain pointers and lengths. Over them stand the small
 * inline functions of this header, mfs_*, that take a volume and paths as strings, and add no rule
 * of their own:
 *
 *     static uint8_t image[4200 * MFS_BLOCK_SIZE];
 *     static uint8_t work[MFS_WORK_BYTES(sizeof image)];
 *     mfs_volume volume = {image, sizeof image, 8, MFS_CODE_512, work, sizeof work, "/"};
 *     mfs_handle meter;
 *     mfs_refusal refusal = mfs_format(&volume);
 *     if (refusal == MFS_OK) refusal = mfs_create_file(&volume, "/water", 1700000000, &meter);
 *     if (refusal == MFS_OK) refusal = mfs_write(&volume, &meter, "00000041", 8, 1700000060);
 *
 * What holds for every call:
 *
 * - Answers. A call answers MFS_OK, which is 0, or the number of its refusal. Every image, path,
 *   handle and buffer gets an answer, also a damaged image and a handle with made-up fields:
 *   nothing has to be tested beforehand. Where several refusals apply, the call gives the first one
 *   in the order of its list, which stands with the export of its name in mfs_c.h.
 * - A refusal changes nothing. Image, handle, read buffer and every out parameter stay byte for
 *   byte as they were; only the work buffer may change, as the next point says.
 * - The work buffer is for the check of the whole volume, which the check itself and every changing
 *   call (create, delete, write, patch) run first. It has one bit for each block of the data area: with n
 *   blocks in the volume and D the first of its data area, ceil((n - D) / 8) bytes are used, and
 *   MFS_WORK_BYTES(image_len) is always enough. What stands in them on entry does not matter. They
 *   are zero after a call that reached the check, whatever it answers then. A call that is refused
 *   before (1, 2, 3, 16) leaves them untouched. The bytes behind them are never touched.
 * - Buffers belong to the caller, and no call keeps a pointer after it has returned. No pointer may
 *   be NULL, also where a length is 0: give the address of any byte then. Buffers must not overlap:
 *   one that a call may write (the image of a changing call, the work buffer, a read buffer, a
 *   handle, an out parameter) shares no byte with another buffer of that call.
 * - Handles. A call looks for a handle's file anew: in the handle's directory, a file of the
 *   handle's name, first address and size. Where there is none, the handle is stale (11): the file
 *   was deleted, or another handle's write gave it another size. Where there is one, the handle is
 *   current. So it stays current when another handle rewrites the file's bytes and leaves its size,
 *   and becomes current again when name, first address and size have all come back.
 * - Time is the caller's: a number of 64 bits that is stored in an entry and never looked at.
 * - Stack: allow 28 KiB for the check and the changing calls, 4 KiB for the others (measured on
 *   x86-64 with directories to depth 16: 25,312 and 3,088 bytes).
 * - Threads: calls may run at the same time where none changes a buffer that another one uses.
 *
 * The image is one addressable slice: a buffer, or a mapping of the file or the device. A call
 * changes the slice and stores nothing elsewhere; to bring the changed blocks to a device is the
 * caller's part. A power cut in the middle of that can leave some of them stored and others not.
 * After a create, a delete, or a write that adds or frees blocks, the volume may then be one that
 * the check refuses, and so every changing call (17); the bytes of the other files stand. Where
 * that must not happen, keep what the changed blocks held (a copy of the image, or a log of them
 * beside it) until all are stored, and put it back after a cut. A patch needs none of that: with any
 * of its blocks stored and the others not, the volume is well formed, and nothing but the patched
 * bytes and the time in the entry may be either the old or the new ones.
 *
 * K is the number of the block that holds the superblock (8,192 in MOROS itself). Blocks below K
 * and block K + 1 are never touched. The size code says in which blocks K and every address count.
 * Every call takes it beside K, since the superblock cannot be found without it. MFS_CODE_512 is that
 * of MOROS, and MFS_CODE_1024 that of larger cards; any other is refused before all else
 * (MFS_NOT_MFS), and so is a volume of another code than the call's where it is looked at.
 *
 * A path that starts with '/' is a full path. Another one is taken from the working directory, cwd,
 * which must start with '/' then. "." and ".." are plain names. Slashes at the end are dropped, but
 * not in a listing. An empty piece between two slashes is not found. mfs_refusal_text(MFS_BAD_PATH)
 * says which bytes a path may have.
 *
 * Allocation reaches 4096 * floor(n / 4096) blocks of the data area at most, so on a volume of
 * fewer than 4,096 blocks nothing can be created: MFS_NO_ROOM. In blocks of 1,024 bytes it is 8,192.
 */
#ifndef MFS_H
#define MFS_H

#include <stdbool.h>
#include <stddef.h>
#include <stdint.h>
#include <string.h>

#include "mfs_c.h"

/* Casts that compilers of C++ do not warn of. */
#ifdef __cplusplus
#define MFS_VALUE_AS(type, value) static_cast<type>(value)
#define MFS_POINTER_AS(type, pointer) reinterpret_cast<type>(pointer)
#else
#define MFS_VALUE_AS(type, value) ((type)(value))
#define MFS_POINTER_AS(type, pointer) ((type)(pointer))
#endif

#ifdef __cplusplus
extern "C" {
#endif

/* The reason of a refusal in words. Never NULL. */
static inline const char *mfs_refusal_text(uint32_t number)
{
    switch (number) {
    case MFS_OK:
        return "not refused";
    case MFS_BAD_IMAGE:
        return "the image is empty, not whole blocks, too long, or too short for K";
    case MFS_NOT_MFS:
        return "unknown size code, or no MFS superblock of that code and a known version in block K";
    case MFS_BAD_COUNT:
        return "the volume's block count is above the image's, or leaves no data area";
    case MFS_BAD_PATH:
        return "the path is over 1024 bytes, is not UTF-8 or has a control byte, or no '/' first";
    case MFS_NOT_FOUND:
        return "nothing has that name, or the name is empty";
    case MFS_WRONG_KIND:
        return "a part of the path is no directory, or what it leads to is of the wrong kind";
    case MFS_EXISTS:
        return "the name exists already";
    case MFS_BAD_NAME:
        return "the new name is empty or over 255 bytes";
    case MFS_NO_ROOM:
        return "fewer blocks are free within reach than the call must add";
    case MFS_TOO_LARGE:
        return "the file is, or would be, over 2147483647 bytes";
    case MFS_STALE:
        return "the handle is stale: its file was resized, replaced or deleted";
    case MFS_BAD_SEEK:
        return "the target is outside the file";
    case MFS_EMPTY_WRITE:
        return "there is no byte to write";
    case MFS_NOT_EMPTY:
        return "the directory to delete has entries";
    case MFS_TOO_DEEP:
        return "the new directory would be at depth 17";
    case MFS_SHORT_WORK:
        return "the work buffer has less than one bit for each block of the data area";
    case MFS_DAMAGED:
        return "the volume is damaged";
    case MFS_PAST_END:
        return "the bytes would go past the end of the file";
    default:
        return "no refusal has that number";
    }
}

/* ---- Volumes, handles and strings -------------------------------------------------------------
 *
 * Each function is the export of the same name, with its refusals in its order. A string ends with
 * a zero byte. A struct that a call fills in stays as it was where the call is refused.
 */

/*
 * A volume: where its image and its work buffer are, and the working directory. The caller fills it
 * in, and no call changes it. Check, usage, room, open, info, list and read leave the image as it is, and
 * only check, create, delete, write and patch use the work buffer.
 */
typedef struct mfs_volume {
    uint8_t *image;
    size_t image_len;
    uint32_t k;    /* the superblock's block */
    uint32_t code; /* the code of the block size: MFS_CODE_512 or MFS_CODE_1024 */
    uint8_t *work;
    size_t work_len; /* MFS_WORK_BYTES(image_len) is enough */
    const char *cwd; /* "/" for the root */
} mfs_volume;

/* A volume that is only read, as one in a mapping without write access: mfs_const_* take it. */
typedef struct mfs_const_volume {
    const uint8_t *image;
    size_t image_len;
    uint32_t k;
    uint32_t code;
    const char *cwd;
} mfs_const_volume;

/* An open file. Nothing is held open: a handle may be copied, kept for long and thrown away. */
typedef struct mfs_handle {
    uint32_t number[4];         /* first address of its directory, its own, size, position */
    uint8_t name[MFS_NAME_MAX]; /* not ended by a zero byte where it has 255 */
    size_t name_len;
} mfs_handle;

/* What is known of an entry. */
typedef struct mfs_entry {
    mfs_kind kind;
    uint32_t size;
    uint64_t time;
    char name[MFS_NAME_MAX + 1]; /* ended by a zero byte */
    size_t name_len;
} mfs_entry;

/* A record of a listing. */
typedef struct mfs_record {
    mfs_kind kind;
    uint32_t size;
    uint64_t time;
    const char *name; /* in the listing's buffer, not ended by a zero byte: print it by "%.*s" */
    size_t name_len;
} mfs_record;

/* The bytes of a string, for the exports. */
MFS_NONNULL
static inline const uint8_t *mfs_bytes_of(const char *text)
{
    return MFS_POINTER_AS(const uint8_t *, text);
}

/* An export's answer by its name. */
static inline mfs_refusal mfs_answer(uint32_t number)
{
    return MFS_VALUE_AS(mfs_refusal, number);
}

/* A volume for the calls that only read it. */
MFS_NONNULL
static inline mfs_const_volume mfs_const_of(const mfs_volume *volume)
{
    mfs_const_volume view;
    view.image = volume->image;
    view.image_len = volume->image_len;
    view.k = volume->k;
    view.code = volume->code;
    view.cwd = volume->cwd;
    return view;
}

/* ---- Calls that change nothing, on a const volume -------------------------------------------- */

/* Accepts exactly the images that are well-formed volumes. */
MFS_NONNULL MFS_MUST_USE
static inline mfs_refusal mfs_const_check(const mfs_const_volume *volume,
                                          uint8_t *work, size_t work_len)
{
    return mfs_answer(mfs_c_check(volume->image, volume->image_len, volume->k, volume->code,
                                  work, work_len));
}

/* Bytes of the volume, of its used blocks, and the rest. */
MFS_NONNULL MFS_MUST_USE
static inline mfs_refusal mfs_const_usage(const mfs_const_volume *volume,
                                          uint64_t *size, uint64_t *used, uint64_t *free)
{
    return mfs_answer(mfs_c_usage(volume->image, volume->image_len, volume->k, volume->code,
                                  size, used, free));
}

/* Whether count blocks are free: enough is 1 or 0, and bytes those of the bitmap that were read. */
MFS_NONNULL MFS_MUST_USE
static inline mfs_refusal mfs_const_room(const mfs_const_volume *volume, uint32_t count,
                                         uint32_t *enough, uint32_t *bytes)
{
    return mfs_answer(mfs_c_room(volume->image, volume->image_len, volume->k, volume->code,
                                 count, enough, bytes));
}

/* Opens a file, at position 0. */
MFS_NONNULL MFS_MUST_USE
static inline mfs_refusal mfs_const_open(const mfs_const_volume *volume, const char *path,
                                         mfs_handle *handle)
{
    return mfs_answer(mfs_c_open(volume->image, volume->image_len, volume->k, volume->code,
                                 mfs_bytes_of(volume->cwd), strlen(volume->cwd),
                                 mfs_bytes_of(path), strlen(path),
                                 handle->number, handle->name, &handle->name_len));
}

/* What stands at a path; "/" is the root. */
MFS_NONNULL MFS_MUST_USE
static inline mfs_refusal mfs_const_info(const mfs_const_volume *volume, const char *path,
                                         mfs_entry *entry)
{
    uint8_t kind;
    const uint32_t answer = mfs_c_info(volume->image, volume->image_len, volume->k, volume->code,
                                       mfs_bytes_of(volume->cwd), strlen(volume->cwd),
                                       mfs_bytes_of(path), strlen(path),
                                       &kind, &entry->size, &entry->time,
                                       MFS_POINTER_AS(uint8_t *, entry->name), &entry->name_len);
    if (answer == MFS_OK) {
        entry->kind = MFS_VALUE_AS(mfs_kind, kind);
        entry->name[MFS_NAME_MAX] = '\0';
    }
    return mfs_answer(answer);
}

/*
 * Lists a directory from entry number `from` on: begin with 0 and go on with *next for as long as
 * *bytes is above 0. Give it MFS_LIST_BYTES_MIN bytes or more: a shorter buffer gets 0 bytes at the
 * end, and also before a name that is too long for it. mfs_record_next walks the records.
 */
MFS_NONNULL MFS_MUST_USE
static inline mfs_refusal mfs_const_list(const mfs_const_volume *volume, const char *path,
                                         uint32_t from, uint8_t *buf, size_t buf_len,
                                         size_t *bytes, uint32_t *next)
{
    return mfs_answer(mfs_c_list(volume->image, volume->image_len, volume->k, volume->code,
                                 mfs_bytes_of(volume->cwd), strlen(volume->cwd),
                                 mfs_bytes_of(path), strlen(path),
                                 from, buf, buf_len, bytes, next));
}

/* Reads up to len bytes from the position on; *bytes counts them, and is 0 at the file's end. */
MFS_NONNULL MFS_MUST_USE
static inline mfs_refusal mfs_const_read(const mfs_const_volume *volume, mfs_handle *handle,
                                         void *buf, size_t len, size_t *bytes)
{
    return mfs_answer(mfs_c_read(volume->image, volume->image_len, volume->k, volume->code,
                                 handle->number, handle->name, handle->name_len,
                                 MFS_VALUE_AS(uint8_t *, buf), len, bytes));
}

/* ---- The same on a volume that may change ---------------------------------------------------- */

MFS_NONNULL MFS_MUST_USE
static inline mfs_refusal mfs_check(const mfs_volume *volume)
{
    const mfs_const_volume view = mfs_const_of(volume);
    return mfs_const_check(&view, volume->work, volume->work_len);
}

MFS_NONNULL MFS_MUST_USE
static inline mfs_refusal mfs_usage(const mfs_volume *volume,
                                    uint64_t *size, uint64_t *used, uint64_t *free)
{
    const mfs_const_volume view = mfs_const_of(volume);
    return mfs_const_usage(&view, size, used, free);
}

MFS_NONNULL MFS_MUST_USE
static inline mfs_refusal mfs_room(const mfs_volume *volume, uint32_t count,
                                   uint32_t *enough, uint32_t *bytes)
{
    const mfs_const_volume view = mfs_const_of(volume);
    return mfs_const_room(&view, count, enough, bytes);
}

MFS_NONNULL MFS_MUST_USE
static inline mfs_refusal mfs_open(const mfs_volume *volume, const char *path, mfs_handle *handle)
{
    const mfs_const_volume view = mfs_const_of(volume);
    return mfs_const_open(&view, path, handle);
}

MFS_NONNULL MFS_MUST_USE
static inline mfs_refusal mfs_info(const mfs_volume *volume, const char *path, mfs_entry *entry)
{
    const mfs_const_volume view = mfs_const_of(volume);
    return mfs_const_info(&view, path, entry);
}

MFS_NONNULL MFS_MUST_USE
static inline mfs_refusal mfs_list(const mfs_volume *volume, const char *path, uint32_t from,
                                   uint8_t *buf, size_t buf_len, size_t *bytes, uint32_t *next)
{
    const mfs_const_volume view = mfs_const_of(volume);
    return mfs_const_list(&view, path, from, buf, buf_len, bytes, next);
}

MFS_NONNULL MFS_MUST_USE
static inline mfs_refusal mfs_read(const mfs_volume *volume, mfs_handle *handle,
                                   void *buf, size_t len, size_t *bytes)
{
    const mfs_const_volume view = mfs_const_of(volume);
    return mfs_const_read(&view, handle, buf, len, bytes);
}

/* ---- Handles --------------------------------------------------------------------------------- */

/* Bytes of the file, as the handle knows it. */
MFS_NONNULL
static inline uint32_t mfs_size(const mfs_handle *handle)
{
    return handle->number[2];
}

/* Where the next read or write begins. */
MFS_NONNULL
static inline uint32_t mfs_position(const mfs_handle *handle)
{
    return handle->number[3];
}

/* The position becomes `to`. */
MFS_NONNULL MFS_MUST_USE
static inline mfs_refusal mfs_seek_start(mfs_handle *handle, uint32_t to)
{
    return mfs_answer(mfs_c_seek_start(handle->number, handle->name, handle->name_len, to));
}

/* The position moves by `by`. */
MFS_NONNULL MFS_MUST_USE
static inline mfs_refusal mfs_seek_current(mfs_handle *handle, int32_t by)
{
    return mfs_answer(mfs_c_seek_current(handle->number, handle->name, handle->name_len, by));
}

/* The position becomes the size plus `by`, which is 0 or below. */
MFS_NONNULL MFS_MUST_USE
static inline mfs_refusal mfs_seek_end(mfs_handle *handle, int32_t by)
{
    return mfs_answer(mfs_c_seek_end(handle->number, handle->name, handle->name_len, by));
}

/* ---- Calls that change the volume ------------------------------------------------------------ */

/* Makes the whole image a volume with an empty root directory. */
MFS_NONNULL MFS_MUST_USE
static inline mfs_refusal mfs_format(const mfs_volume *volume)
{
    return mfs_answer(mfs_c_format(volume->image, volume->image_len, volume->k, volume->code));
}

/*
 * Writes len bytes at the position, all or none; the file ends behind them. To replace a counter,
 * seek to 0 and write. To append, seek to the end and write.
 */
MFS_NONNULL MFS_MUST_USE
static inline mfs_refusal mfs_write(const mfs_volume *volume, mfs_handle *handle,
                                    const void *buf, size_t len, uint64_t time)
{
    size_t bytes; /* len, where the write is accepted */
    return mfs_answer(mfs_c_write(volume->image, volume->image_len, volume->k, volume->code,
                                  handle->number, handle->name, handle->name_len,
                                  MFS_VALUE_AS(const uint8_t *, buf), len,
                                  time, volume->work, volume->work_len, &bytes));
}

/*
 * Puts len bytes over those that the file has at the position, all or none; what follows them stays.
 * To renew one record in the middle of a file, seek to it and patch.
 */
MFS_NONNULL MFS_MUST_USE
static inline mfs_refusal mfs_patch(const mfs_volume *volume, mfs_handle *handle,
                                    const void *buf, size_t len, uint64_t time)
{
    size_t bytes; /* len, where the patch is accepted */
    return mfs_answer(mfs_c_patch(volume->image, volume->image_len, volume->k, volume->code,
                                  handle->number, handle->name, handle->name_len,
                                  MFS_VALUE_AS(const uint8_t *, buf), len,
                                  time, volume->work, volume->work_len, &bytes));
}

/* Creates a file of 0 bytes, and opens it. */
MFS_NONNULL MFS_MUST_USE
static inline mfs_refusal mfs_create_file(const mfs_volume *volume, const char *path, uint64_t time,
                                          mfs_handle *handle)
{
    return mfs_answer(mfs_c_create_file(volume->image, volume->image_len, volume->k, volume->code,
                                        mfs_bytes_of(volume->cwd), strlen(volume->cwd),
                                        mfs_bytes_of(path), strlen(path),
                                        time, volume->work, volume->work_len,
                                        handle->number, handle->name, &handle->name_len));
}

/* Creates an empty directory. */
MFS_NONNULL MFS_MUST_USE
static inline mfs_refusal mfs_create_dir(const mfs_volume *volume, const char *path, uint64_t time)
{
    return mfs_answer(mfs_c_create_dir(volume->image, volume->image_len, volume->k, volume->code,
                                       mfs_bytes_of(volume->cwd), strlen(volume->cwd),
                                       mfs_bytes_of(path), strlen(path),
                                       time, volume->work, volume->work_len));
}

/* Deletes a file, a device or an empty directory. */
MFS_NONNULL MFS_MUST_USE
static inline mfs_refusal mfs_delete(const mfs_volume *volume, const char *path, uint64_t time)
{
    return mfs_answer(mfs_c_delete(volume->image, volume->image_len, volume->k, volume->code,
                                   mfs_bytes_of(volume->cwd), strlen(volume->cwd),
                                   mfs_bytes_of(path), strlen(path),
                                   time, volume->work, volume->work_len));
}

/* ---- The records of a listing ---------------------------------------------------------------- */

/* The big-endian number in `width` bytes. */
MFS_NONNULL
static inline uint64_t mfs_number_at(const uint8_t *bytes, size_t width)
{
    uint64_t number = 0;
    size_t i;
    for (i = 0; i < width; i++) {
        number = number << 8 | bytes[i];
    }
    return number;
}

/*
 * Takes the record at *at from the bytes that a listing put into buf, and moves *at behind it.
 * False where there is none; *at and *record stay then.
 *
 *     size_t at = 0;
 *     mfs_record record;
 *     while (mfs_record_next(buf, bytes, &at, &record)) {
 *         printf("%.*s\n", (int)record.name_len, record.name);
 *     }
 */
MFS_NONNULL MFS_MUST_USE
static inline bool mfs_record_next(const uint8_t *buf, size_t bytes, size_t *at,
                                   mfs_record *record)
{
    const uint8_t *start;
    size_t name_len;
    if (*at > bytes || bytes - *at < MFS_RECORD_HEADER) {
        return false;
    }
    start = buf + *at;
    name_len = start[13];
    /* No listing has such a record, but bytes from elsewhere might. */
    if (start[0] > MFS_KIND_DEVICE || name_len == 0 ||
        bytes - *at - MFS_RECORD_HEADER < name_len) {
        return false;
    }
    record->kind = MFS_VALUE_AS(mfs_kind, start[0]);
    record->size = MFS_VALUE_AS(uint32_t, mfs_number_at(start + 1, 4));
    record->time = mfs_number_at(start + 5, 8);
    record->name = MFS_POINTER_AS(const char *, start + MFS_RECORD_HEADER);
    record->name_len = name_len;
    *at += MFS_RECORD_HEADER + name_len;
    return true;
}

#ifdef __cplusplus
}
#endif

#endif
