/*
 * What the inline functions of mfs.h promise beyond the exports: structs stay on a refusal, names
 * end with a zero byte, records are walked and never past the bytes given, a const volume answers as
 * the volume does, every number has its words. It has no cast, so that examples/run can see that the
 * headers have none that a compiler of C++ warns of.
 */
#include <stdio.h>
#include <stdlib.h>

#include "mfs.h"

static uint8_t image[4200 * MFS_BLOCK_SIZE];
static uint8_t work[MFS_WORK_BYTES(sizeof image)];
static const mfs_volume volume = {image, sizeof image, 8, MFS_CODE_512, work, sizeof work, "/"};

/* assert.h's assert is nothing where NDEBUG is set. */
#define EXPECT(condition) expect(condition, #condition, __LINE__)

static void expect(bool condition, const char *text, int line)
{
    if (!condition) {
        printf("line %d: not so: %s\n", line, text);
        exit(EXIT_FAILURE);
    }
}

static bool same_text(const char *text, const char *other)
{
    return strcmp(text, other) == 0;
}

/* A name of MFS_NAME_MAX bytes, and its zero byte. */
static void longest_name(char name[MFS_NAME_MAX + 1])
{
    memset(name, 'n', MFS_NAME_MAX);
    name[MFS_NAME_MAX] = '\0';
}

static void structs_stay_on_a_refusal(void)
{
    mfs_entry entry, entry_before;
    mfs_handle handle, handle_before;
    memset(&entry, 0xA5, sizeof entry);
    memset(&handle, 0xA5, sizeof handle);
    entry_before = entry;
    handle_before = handle;
    EXPECT(mfs_info(&volume, "/none", &entry) == MFS_NOT_FOUND);
    EXPECT(mfs_open(&volume, "/none", &handle) == MFS_NOT_FOUND);
    EXPECT(mfs_create_file(&volume, "/", 0, &handle) == MFS_BAD_NAME);
    EXPECT(mfs_write(&volume, &handle, "abc", 3, 0) == MFS_STALE);
    EXPECT(mfs_seek_start(&handle, 0) == MFS_STALE);
    EXPECT(memcmp(&entry, &entry_before, sizeof entry) == 0);
    EXPECT(memcmp(&handle, &handle_before, sizeof handle) == 0);
}

static void names_end_with_a_zero_byte(void)
{
    char name[MFS_NAME_MAX + 1];
    mfs_handle handle;
    mfs_entry entry;
    longest_name(name);
    memset(&entry, 0xA5, sizeof entry);
    EXPECT(mfs_create_file(&volume, name, 7, &handle) == MFS_OK);
    EXPECT(mfs_size(&handle) == 0 && mfs_position(&handle) == 0);
    EXPECT(mfs_write(&volume, &handle, "abc", 3, UINT64_MAX) == MFS_OK);
    EXPECT(mfs_size(&handle) == 3 && mfs_position(&handle) == 3);
    EXPECT(mfs_info(&volume, name, &entry) == MFS_OK);
    EXPECT(entry.kind == MFS_KIND_FILE && entry.size == 3 && entry.time == UINT64_MAX);
    EXPECT(same_text(entry.name, name) && entry.name_len == MFS_NAME_MAX);
    EXPECT(mfs_info(&volume, "/", &entry) == MFS_OK);
    EXPECT(entry.kind == MFS_KIND_DIR && entry.size == 18 + MFS_NAME_MAX && entry.time == 0);
    EXPECT(same_text(entry.name, "") && entry.name_len == 0);
}

static void seeks_go_from_start_position_and_end(void)
{
    mfs_handle handle;
    EXPECT(mfs_create_file(&volume, "/sought", 0, &handle) == MFS_OK);
    EXPECT(mfs_write(&volume, &handle, "abcde", 5, 0) == MFS_OK);
    EXPECT(mfs_seek_start(&handle, 1) == MFS_OK && mfs_position(&handle) == 1);
    EXPECT(mfs_seek_current(&handle, 2) == MFS_OK && mfs_position(&handle) == 3);
    EXPECT(mfs_seek_end(&handle, -1) == MFS_OK && mfs_position(&handle) == 4);
    EXPECT(mfs_delete(&volume, "/sought", 0) == MFS_OK);
}

/* The root has the file of the longest name now. Its record just fits into the smallest buffer. */
static void records_are_walked(void)
{
    uint8_t buf[MFS_LIST_BYTES_MIN];
    char name[MFS_NAME_MAX + 1];
    mfs_record record;
    size_t bytes, at = 0;
    uint32_t next;
    longest_name(name);
    EXPECT(mfs_list(&volume, "/", 0, buf, sizeof buf, &bytes, &next) == MFS_OK);
    EXPECT(bytes == sizeof buf - 1 && next == 1);
    EXPECT(mfs_record_next(buf, bytes, &at, &record));
    EXPECT(at == bytes);
    EXPECT(record.kind == MFS_KIND_FILE && record.size == 3 && record.time == UINT64_MAX);
    EXPECT(record.name_len == MFS_NAME_MAX && memcmp(record.name, name, MFS_NAME_MAX) == 0);
    EXPECT(!mfs_record_next(buf, bytes, &at, &record));
    EXPECT(at == bytes);
}

/* The calls that change nothing, each on the volume and on a const volume in the same image. */
static void a_const_volume_answers_the_same(void)
{
    const mfs_const_volume by_hand = {image, sizeof image, 8, MFS_CODE_512, "/"};
    const mfs_const_volume made = mfs_const_of(&volume);
    mfs_handle handle, other;
    mfs_entry entry, same;
    uint64_t totals[6];
    uint8_t buf[300], listed[300];
    char text[2], again[2];
    size_t bytes, count;
    uint32_t next, number, enough[2], read[2];
    EXPECT(made.image == image && made.image_len == sizeof image && made.k == 8);
    EXPECT(made.code == MFS_CODE_512);
    EXPECT(same_text(made.cwd, by_hand.cwd));
    EXPECT(mfs_const_check(&made, work, sizeof work) == MFS_OK);
    EXPECT(mfs_const_check(&made, work, 0) == MFS_SHORT_WORK);
    EXPECT(mfs_usage(&volume, totals, totals + 1, totals + 2) == MFS_OK);
    EXPECT(mfs_const_usage(&by_hand, totals + 3, totals + 4, totals + 5) == MFS_OK);
    EXPECT(memcmp(totals, totals + 3, 3 * sizeof *totals) == 0);
    EXPECT(mfs_room(&volume, 1, enough, read) == MFS_OK);
    EXPECT(mfs_const_room(&by_hand, 1, enough + 1, read + 1) == MFS_OK);
    EXPECT(enough[0] == 1 && enough[1] == 1 && read[0] == 1 && read[1] == 1);
    EXPECT(mfs_room(&volume, UINT32_MAX, enough, read) == MFS_OK);
    EXPECT(enough[0] == 0 && read[0] > 1);
    EXPECT(mfs_list(&volume, "/", 0, buf, sizeof buf, &bytes, &next) == MFS_OK);
    EXPECT(mfs_const_list(&by_hand, "/", 0, listed, sizeof listed, &count, &number) == MFS_OK);
    EXPECT(count == bytes && number == next && memcmp(listed, buf, bytes) == 0);
    EXPECT(mfs_create_file(&volume, "/both", 5, &handle) == MFS_OK);
    EXPECT(mfs_write(&volume, &handle, "ab", 2, 6) == MFS_OK);
    EXPECT(mfs_info(&volume, "/both", &entry) == MFS_OK);
    EXPECT(mfs_const_info(&by_hand, "/both", &same) == MFS_OK);
    EXPECT(same.kind == entry.kind && same.size == entry.size && same.time == entry.time);
    EXPECT(same_text(same.name, entry.name) && same.name_len == entry.name_len);
    EXPECT(mfs_open(&volume, "/both", &handle) == MFS_OK);
    EXPECT(mfs_const_open(&by_hand, "/both", &other) == MFS_OK);
    EXPECT(memcmp(other.number, handle.number, sizeof other.number) == 0);
    EXPECT(mfs_read(&volume, &handle, text, sizeof text, &bytes) == MFS_OK && bytes == 2);
    EXPECT(mfs_const_read(&by_hand, &other, again, sizeof again, &count) == MFS_OK && count == 2);
    EXPECT(memcmp(text, "ab", 2) == 0 && memcmp(again, "ab", 2) == 0);
    EXPECT(mfs_const_open(&by_hand, "/none", &other) == MFS_NOT_FOUND);
    EXPECT(mfs_delete(&volume, "/both", 7) == MFS_OK);
}

/* A buffer that is too short for the next record gets the answer of a directory's end. */
static void a_short_buffer_looks_like_the_end(void)
{
    uint8_t buf[MFS_LIST_BYTES_MIN];
    size_t bytes;
    uint32_t next;
    EXPECT(MFS_LIST_BYTES_MIN == 270);
    EXPECT(mfs_list(&volume, "/", 0, buf, sizeof buf - 1, &bytes, &next) == MFS_OK);
    EXPECT(bytes == 0 && next == 0);
    EXPECT(mfs_list(&volume, "/", 0, buf, sizeof buf, &bytes, &next) == MFS_OK);
    EXPECT(bytes == 269 && next == 1);
    EXPECT(mfs_list(&volume, "/", 1, buf, sizeof buf, &bytes, &next) == MFS_OK);
    EXPECT(bytes == 0 && next == 1);
}

/* Another handle's write of as many bytes leaves a handle current, one of more bytes does not. */
static void a_handle_is_current_while_the_size_stays(void)
{
    mfs_handle old, other;
    char text[3];
    size_t bytes;
    EXPECT(mfs_create_file(&volume, "/kept", 0, &other) == MFS_OK);
    EXPECT(mfs_write(&volume, &other, "abc", 3, 0) == MFS_OK);
    EXPECT(mfs_open(&volume, "/kept", &old) == MFS_OK);
    EXPECT(mfs_seek_start(&other, 0) == MFS_OK);
    EXPECT(mfs_write(&volume, &other, "xyz", 3, 1) == MFS_OK);
    EXPECT(mfs_read(&volume, &old, text, sizeof text, &bytes) == MFS_OK);
    EXPECT(bytes == 3 && memcmp(text, "xyz", 3) == 0);
    EXPECT(mfs_write(&volume, &other, "!", 1, 2) == MFS_OK);
    EXPECT(mfs_read(&volume, &old, text, sizeof text, &bytes) == MFS_STALE);
    EXPECT(mfs_delete(&volume, "/kept", 3) == MFS_OK);
}

static const uint8_t one_record[16] = {1,    0x81, 0x82, 0x83, 0x84, 0x91, 0x92, 0x93,
                                       0x94, 0x95, 0x96, 0x97, 0x98, 2,    'm',  '1'};

/* Whether a record is found in so many bytes of one_record with one byte changed. */
static bool walks(size_t bytes, size_t changed, uint8_t byte)
{
    uint8_t buf[sizeof one_record];
    mfs_record record = {MFS_KIND_DIR, 0, 0, "", 0};
    size_t at = 0;
    bool found;
    memcpy(buf, one_record, sizeof buf);
    buf[changed] = byte;
    found = mfs_record_next(buf, bytes, &at, &record);
    EXPECT(found ? at == sizeof buf : at == 0 && record.name_len == 0);
    EXPECT(!found || record.size == 0x81828384u);
    EXPECT(!found || record.time == 0x9192939495969798u);
    return found;
}

static void other_bytes_are_no_record(void)
{
    uint8_t twice[2 * sizeof one_record];
    size_t bytes, past = sizeof one_record;
    mfs_record record;
    EXPECT(walks(16, 0, 1) && walks(16, 0, 2) && walks(16, 15, '2'));
    for (bytes = 0; bytes < 16; bytes++) {
        EXPECT(!walks(bytes, 0, 1));
    }
    EXPECT(!walks(16, 0, 3));
    EXPECT(!walks(16, 13, 0));
    EXPECT(!walks(16, 13, 3));
    memcpy(twice, one_record, sizeof one_record);
    memcpy(twice + sizeof one_record, one_record, sizeof one_record);
    EXPECT(!mfs_record_next(twice, 15, &past, &record) && past == sizeof one_record);
}

static void every_number_has_its_words(void)
{
    const char *none = mfs_refusal_text(18);
    uint32_t number, other;
    EXPECT(same_text(none, "no refusal has that number"));
    EXPECT(same_text(none, mfs_refusal_text(UINT32_MAX)));
    /* No refusal has the number 18 any more. */
    for (number = MFS_OK; number <= MFS_PAST_END; number += number == MFS_DAMAGED ? 2 : 1) {
        EXPECT(!same_text(mfs_refusal_text(number), none));
        for (other = MFS_OK; other < number; other++) {
            EXPECT(!same_text(mfs_refusal_text(number), mfs_refusal_text(other)));
        }
    }
}

/* Bytes inside a file are changed, what follows them stays, and every handle on it is current. */
static void a_patch_keeps_the_tail(void)
{
    mfs_handle handle, other;
    mfs_entry entry;
    char text[6];
    size_t bytes;
    EXPECT(mfs_create_file(&volume, "/patched", 1, &handle) == MFS_OK);
    EXPECT(mfs_write(&volume, &handle, "abcde", 5, 2) == MFS_OK);
    EXPECT(mfs_open(&volume, "/patched", &other) == MFS_OK);
    EXPECT(mfs_seek_start(&handle, 1) == MFS_OK);
    EXPECT(mfs_patch(&volume, &handle, "XY", 2, 3) == MFS_OK);
    EXPECT(mfs_size(&handle) == 5 && mfs_position(&handle) == 3);
    EXPECT(mfs_info(&volume, "/patched", &entry) == MFS_OK && entry.size == 5 && entry.time == 3);
    EXPECT(mfs_read(&volume, &other, text, sizeof text, &bytes) == MFS_OK && bytes == 5);
    EXPECT(memcmp(text, "aXYde", 5) == 0);
    EXPECT(mfs_patch(&volume, &handle, "zz", 2, 4) == MFS_OK && mfs_position(&handle) == 5);
    EXPECT(mfs_patch(&volume, &handle, "!", 1, 5) == MFS_PAST_END);
    EXPECT(mfs_patch(&volume, &handle, "", 0, 5) == MFS_EMPTY_WRITE);
    EXPECT(mfs_position(&handle) == 5 && mfs_size(&handle) == 5);
    EXPECT(mfs_delete(&volume, "/patched", 0) == MFS_OK);
    EXPECT(mfs_patch(&volume, &handle, "!", 1, 5) == MFS_STALE);
}

/* An unknown size code is refused ahead of a length that no image has. */
static void every_call_names_the_size_code(void)
{
    mfs_volume other = volume;
    mfs_const_volume view;
    mfs_handle handle;
    mfs_entry entry;
    uint64_t totals[3];
    uint8_t buf[300];
    size_t bytes;
    uint32_t next, enough, read;
    EXPECT(mfs_create_file(&volume, "/coded", 0, &handle) == MFS_OK);
    other.code = 2;
    other.image_len = 511;
    view = mfs_const_of(&other);
    EXPECT(mfs_format(&other) == MFS_NOT_MFS);
    EXPECT(mfs_check(&other) == MFS_NOT_MFS);
    EXPECT(mfs_usage(&other, totals, totals + 1, totals + 2) == MFS_NOT_MFS);
    EXPECT(mfs_const_room(&view, 1, &enough, &read) == MFS_NOT_MFS);
    EXPECT(mfs_const_open(&view, "/coded", &handle) == MFS_NOT_MFS);
    EXPECT(mfs_info(&other, "/coded", &entry) == MFS_NOT_MFS);
    EXPECT(mfs_list(&other, "/", 0, buf, sizeof buf, &bytes, &next) == MFS_NOT_MFS);
    EXPECT(mfs_read(&other, &handle, buf, sizeof buf, &bytes) == MFS_NOT_MFS);
    EXPECT(mfs_write(&other, &handle, "x", 1, 0) == MFS_NOT_MFS);
    EXPECT(mfs_patch(&other, &handle, "x", 1, 0) == MFS_NOT_MFS);
    EXPECT(mfs_create_file(&other, "/new", 0, &handle) == MFS_NOT_MFS);
    EXPECT(mfs_create_dir(&other, "/new", 0) == MFS_NOT_MFS);
    EXPECT(mfs_delete(&other, "/coded", 0) == MFS_NOT_MFS);
    EXPECT(mfs_delete(&volume, "/coded", 0) == MFS_OK);
}

int main(void)
{
    EXPECT(sizeof work == 525);
    EXPECT(MFS_CHECK_VERSION());
    EXPECT(MFS_WORK_BYTES(8 * 512) == 1 && MFS_WORK_BYTES(9 * 512) == 2);
    EXPECT(mfs_format(&volume) == MFS_OK);
    structs_stay_on_a_refusal();
    names_end_with_a_zero_byte();
    seeks_go_from_start_position_and_end();
    records_are_walked();
    a_const_volume_answers_the_same();
    a_short_buffer_looks_like_the_end();
    a_handle_is_current_while_the_size_stays();
    other_bytes_are_no_record();
    every_number_has_its_words();
    a_patch_keeps_the_tail();
    every_call_names_the_size_code();
    EXPECT(mfs_check(&volume) == MFS_OK);
    puts("all so");
    return EXIT_SUCCESS;
}
