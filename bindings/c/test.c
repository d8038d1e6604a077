/* Tests the header and the archive from C: scenarios of document 01, each call once, refusals, and the journal. */
#include "oarhatchet.h"

#include <stdio.h>
#include <stdlib.h>
#include <string.h>

/* The set of all capabilities. */
#define FULL ((UINT64_C(1) << (OARHATCHET_CAP_LAST_CAP + 1)) - 1)
/* The set of one capability. */
#define ONLY(capability) (UINT64_C(1) << (capability))
/* The bytes of a line of a map that is read; how many namespaces and processes there may be, and how many levels. */
enum { LINE = 33, NAMESPACES = 64, PROCESSES = 128, LEVELS = 32 };

static uint64_t tables[OARHATCHET_TABLES];
static uint64_t before[OARHATCHET_TABLES];
static int checks;

/* Compares an answer with what it has to be, and ends the program where they differ. */
#define CHECK(answer, expected) check(__LINE__, #answer, (answer), (expected))

static void check(int line, const char *call, int64_t answer, int64_t expected)
{
    if (answer != expected) {
        fprintf(stderr, "test.c:%d: %s is %lld and not %lld\n", line, call, (long long)answer, (long long)expected);
        exit(1);
    }
    checks++;
}

static int64_t write_uid_map(uint64_t caller, uint64_t process, const char *text)
{
    return oarhatchet_write_uid_map(tables, caller, process, (const uint8_t *)text, strlen(text));
}

static int64_t write_gid_map(uint64_t caller, uint64_t process, const char *text)
{
    return oarhatchet_write_gid_map(tables, caller, process, (const uint8_t *)text, strlen(text));
}

static int64_t write_setgroups(uint64_t caller, uint64_t process, const char *text)
{
    return oarhatchet_write_setgroups(tables, caller, process, (const uint8_t *)text, strlen(text));
}

/* Whether the buffer starts with the text and then has only filling. */
static int64_t holds(const uint8_t *buffer, size_t length, const char *text)
{
    size_t i, end = strlen(text);
    if (end > length || memcmp(buffer, text, end) != 0)
        return 0;
    for (i = end; i < length; i++)
        if (buffer[i] != '.')
            return 0;
    return 1;
}

/* Process 2 is a fork of 1, set to group 1000 and then user 1000, and is in namespace 1, which it made. */
static void start(void)
{
    oarhatchet_initial(tables);
    CHECK(oarhatchet_fork(tables, 1), 2);
    CHECK(oarhatchet_setresgid(tables, 2, 1000, 1000, 1000), 0);
    CHECK(oarhatchet_setresuid(tables, 2, 1000, 1000, 1000), 0);
    CHECK(oarhatchet_unshare(tables, 2), 1);
}

static void a_member_maps_itself_once(void)
{
    uint8_t buffer[40];
    const char *text = "         0       1000          1\n";

    start();
    CHECK(write_uid_map(2, 2, "0 1000 1"), 0);
    memset(buffer, '.', sizeof buffer);
    CHECK(oarhatchet_read_uid_map(tables, 2, 2, buffer, LINE - 1), -OARHATCHET_ERANGE);
    CHECK(holds(buffer, sizeof buffer, ""), 1);
    CHECK(oarhatchet_read_uid_map(tables, 2, 2, buffer, sizeof buffer), LINE);
    CHECK(holds(buffer, sizeof buffer, text), 1);
    CHECK(write_uid_map(2, 2, "0 1000 1"), -OARHATCHET_EPERM);
}

static void a_member_maps_nothing_else(void)
{
    start();
    CHECK(write_uid_map(2, 2, "0 1000 2"), -OARHATCHET_EPERM);
    CHECK(write_uid_map(2, 2, "5 1001 1"), -OARHATCHET_EPERM);
}

static void a_member_maps_its_group_after_deny(void)
{
    uint8_t buffer[40];
    uint32_t list[1] = {0};

    start();
    CHECK(write_gid_map(2, 2, "0 1000 1"), -OARHATCHET_EPERM);
    CHECK(write_setgroups(2, 2, "deny"), 0);
    CHECK(write_gid_map(2, 2, "0 1000 1"), 0);
    CHECK(oarhatchet_setgroups(tables, 2, list, 1), -OARHATCHET_EPERM);
    memset(buffer, '.', sizeof buffer);
    CHECK(oarhatchet_read_gid_map(tables, 2, 2, buffer, sizeof buffer), LINE);
    CHECK(holds(buffer, sizeof buffer, "         0       1000          1\n"), 1);
    memset(buffer, '.', sizeof buffer);
    CHECK(oarhatchet_read_setgroups(tables, 2, 2, buffer, sizeof buffer), 5);
    CHECK(holds(buffer, sizeof buffer, "deny\n"), 1);
    CHECK(oarhatchet_read_setgroups(tables, 1, 1, buffer, 5), -OARHATCHET_ERANGE);
    CHECK(holds(buffer, sizeof buffer, "deny\n"), 1);
}

static void the_parent_maps_a_range(void)
{
    start();
    CHECK(oarhatchet_translate_uid_out(tables, 1, 1, 65535), OARHATCHET_UNMAPPED);
    CHECK(write_uid_map(1, 2, "0 100000 65536"), 0);
    CHECK(oarhatchet_translate_uid_out(tables, 1, 1, 65535), 165535);
    CHECK(oarhatchet_translate_uid_out(tables, 1, 1, 65536), OARHATCHET_UNMAPPED);
    CHECK(oarhatchet_translate_uid_back(tables, 2, 1, 165535), 65535);
    CHECK(oarhatchet_translate_uid_back(tables, 2, 1, 165536), OARHATCHET_UNMAPPED);
    CHECK(oarhatchet_translate_uid_out(tables, 1, 0, OARHATCHET_NO_ID - 1), INT64_C(4294967294));
    CHECK(oarhatchet_translate_gid_out(tables, 1, 1, 0), OARHATCHET_UNMAPPED);
    CHECK(write_gid_map(1, 2, "0 5 3"), 0);
    CHECK(oarhatchet_translate_gid_out(tables, 1, 1, 0), 5);
    CHECK(oarhatchet_translate_gid_back(tables, 1, 1, 7), 2);
    CHECK(oarhatchet_translate_gid_back(tables, 1, 1, 8), OARHATCHET_UNMAPPED);
}

static void the_text_of_a_map(void)
{
    static const char *const good[] = {
        "0 0 4294967295", "0 100000 10\n10 100010 5", "0 7 1\n1 8 1\n2 9 1\n3 10 1\n4 11 1\n"};
    static const char *const bad[] = {
        "1 0 4294967295", "0 4294967295 1", "0 1000 0", "0 100000 10\n5 200000 10", "0 100000 10\n20 100009 5",
        "0 7 1\n1 8 1\n2 9 1\n3 10 1\n4 11 1\n5 12 1\n", "", "0 0 1\n\n1 1 1"};
    size_t i;

    for (i = 0; i < sizeof good / sizeof *good; i++) {
        start();
        CHECK(write_uid_map(1, 2, good[i]), 0);
    }
    for (i = 0; i < sizeof bad / sizeof *bad; i++) {
        start();
        CHECK(write_uid_map(1, 2, bad[i]), -OARHATCHET_EINVAL);
    }
}

static void an_unmapped_process_makes_no_namespace(void)
{
    uint32_t ids[OARHATCHET_IDS];
    uint64_t space = 77;

    start();
    CHECK(oarhatchet_getids(tables, 2, ids), 0);
    CHECK(ids[0], OARHATCHET_OVERFLOW_ID);
    CHECK(oarhatchet_unshare(tables, 2), -OARHATCHET_EPERM);
    CHECK(oarhatchet_clone(tables, 2, &space), -OARHATCHET_EPERM);
    CHECK((int64_t)space, 77);
}

static void the_owner_in_the_parent_holds_capabilities(void)
{
    start();
    CHECK(oarhatchet_capable(tables, 1, 1, OARHATCHET_CAP_SYS_ADMIN), 1);
    CHECK(oarhatchet_capable(tables, 2, 0, OARHATCHET_CAP_SYS_ADMIN), 0);
    CHECK(oarhatchet_fork(tables, 1), 3);
    CHECK(oarhatchet_setresuid(tables, 3, 1000, 1000, 1000), 0);
    CHECK(oarhatchet_capable(tables, 3, 0, OARHATCHET_CAP_SYS_ADMIN), 0);
    CHECK(oarhatchet_capable(tables, 3, 1, OARHATCHET_CAP_SYS_ADMIN), 1);
    CHECK(oarhatchet_fork(tables, 1), 4);
    CHECK(oarhatchet_setresuid(tables, 4, 1001, 1001, 1001), 0);
    CHECK(oarhatchet_capable(tables, 4, 1, OARHATCHET_CAP_SYS_ADMIN), 0);
    CHECK(oarhatchet_setns(tables, 3, 1), 0);
    CHECK(oarhatchet_setns(tables, 3, 0), -OARHATCHET_EPERM);
    CHECK(oarhatchet_setns(tables, 3, 1), -OARHATCHET_EINVAL);
}

static void levels_reach_32(void)
{
    uint64_t level, space = 0;

    oarhatchet_initial(tables);
    for (level = 1; level <= LEVELS; level++) {
        CHECK(oarhatchet_clone(tables, level, &space), (int64_t)level + 1);
        CHECK((int64_t)space, (int64_t)level);
        CHECK(write_uid_map(level, level + 1, "0 0 4294967295"), 0);
        CHECK(write_gid_map(level, level + 1, "0 0 4294967295"), 0);
    }
    CHECK(oarhatchet_unshare(tables, LEVELS + 1), -OARHATCHET_EUSERS);
    CHECK(oarhatchet_translate_uid_out(tables, 1, LEVELS, 5), 5);
}

/* Document 02, L6. */
static void a_range_lies_whole_in_one_parent_line(void)
{
    const char *lines = "0 100000 10\n10 100010 5\n";
    uint64_t space = 0;

    oarhatchet_initial(tables);
    CHECK(oarhatchet_clone(tables, 1, &space), 2);
    CHECK(write_uid_map(1, 2, lines), 0);
    CHECK(write_gid_map(1, 2, lines), 0);
    CHECK(oarhatchet_setresgid(tables, 2, 0, 0, 0), 0);
    CHECK(oarhatchet_setresuid(tables, 2, 0, 0, 0), 0);
    CHECK(oarhatchet_clone(tables, 2, &space), 3);
    CHECK(write_uid_map(2, 3, "0 8 4"), -OARHATCHET_EPERM);
    CHECK(write_uid_map(2, 3, "0 8 2"), 0);
    CHECK(oarhatchet_translate_uid_out(tables, 1, 2, 1), 100009);
    CHECK(oarhatchet_translate_uid_out(tables, 1, 2, 2), OARHATCHET_UNMAPPED);
    CHECK(write_gid_map(2, 3, "0 10 6"), -OARHATCHET_EPERM);
    CHECK(write_gid_map(2, 3, "0 10 5"), 0);
}

static void full_tables_refuse(void)
{
    uint64_t space = 0;
    int64_t i;

    oarhatchet_initial(tables);
    for (i = 1; i < NAMESPACES; i++)
        CHECK(oarhatchet_clone(tables, 1, &space), i + 1);
    CHECK((int64_t)space, NAMESPACES - 1);
    CHECK(oarhatchet_unshare(tables, 1), -OARHATCHET_ENOSPC);
    for (i = NAMESPACES + 1; i <= PROCESSES; i++)
        CHECK(oarhatchet_fork(tables, 1), i);
    CHECK(oarhatchet_fork(tables, 1), -OARHATCHET_EAGAIN);
}

static void own_ids_and_sets(void)
{
    uint32_t ids[OARHATCHET_IDS];
    uint32_t list[OARHATCHET_MAX_GROUPS + 1] = {7, 100003, 7};
    size_t i;

    oarhatchet_initial(tables);
    CHECK(oarhatchet_setgroups(tables, 1, list, OARHATCHET_MAX_GROUPS + 1), -OARHATCHET_EINVAL);
    CHECK(oarhatchet_setgroups(tables, 1, list, 3), 0);
    CHECK(oarhatchet_setresgid(tables, 1, OARHATCHET_NO_ID, 5, OARHATCHET_NO_ID), 0);
    CHECK(oarhatchet_setresuid(tables, 1, OARHATCHET_NO_ID, OARHATCHET_NO_ID, 9), 0);
    memset(ids, 0xff, sizeof ids);
    CHECK(oarhatchet_getids(tables, 9, ids), -OARHATCHET_ESRCH);
    for (i = 0; i < OARHATCHET_IDS; i++)
        CHECK(ids[i], OARHATCHET_NO_ID);
    CHECK(oarhatchet_getids(tables, 1, ids), 3);
    CHECK(ids[2], 9);
    CHECK(ids[4], 5);
    CHECK(ids[6], 7);
    CHECK(ids[7], 100003);
    CHECK(ids[8], 7);
    for (i = 9; i < OARHATCHET_IDS; i++)
        CHECK(ids[i], 0);
    CHECK(oarhatchet_setgroups(tables, 1, list, 0), 0);
    CHECK(oarhatchet_getids(tables, 1, ids), 0);
    CHECK(oarhatchet_capset(tables, 1, ONLY(OARHATCHET_CAP_SETUID), 0), 0);
    CHECK(oarhatchet_capable(tables, 1, 0, OARHATCHET_CAP_SETUID), 0);
    CHECK(oarhatchet_capset(tables, 1, ONLY(OARHATCHET_CAP_SETUID), ONLY(OARHATCHET_CAP_SETUID)), 0);
    CHECK(oarhatchet_capable(tables, 1, 0, OARHATCHET_CAP_SETUID), 1);
    CHECK(oarhatchet_capable(tables, 1, 0, OARHATCHET_CAP_SETGID), 0);
    CHECK(oarhatchet_capable(tables, 1, 0, OARHATCHET_CAP_LAST_CAP + 1), -OARHATCHET_EINVAL);
    CHECK(oarhatchet_capset(tables, 1, FULL, 0), -OARHATCHET_EPERM);
    CHECK(oarhatchet_setresgid(tables, 1, 8, 8, 8), -OARHATCHET_EPERM);
}

/* A name that names nothing is refused by every call, and no word of the tables changes. */
static void names_that_name_nothing(void)
{
    uint64_t names[] = {0, 3, PROCESSES, PROCESSES + 1, UINT64_MAX};
    uint8_t buffer[4] = {'.', '.', '.', '.'};
    uint32_t ids[OARHATCHET_IDS] = {0};
    uint64_t space = 77;
    size_t i;

    start();
    memcpy(before, tables, sizeof tables);
    for (i = 0; i < sizeof names / sizeof *names; i++) {
        uint64_t name = names[i];
        CHECK(oarhatchet_fork(tables, name), -OARHATCHET_ESRCH);
        CHECK(oarhatchet_clone(tables, name, &space), -OARHATCHET_ESRCH);
        CHECK(oarhatchet_unshare(tables, name), -OARHATCHET_ESRCH);
        CHECK(oarhatchet_setns(tables, name, 1), -OARHATCHET_ESRCH);
        CHECK(write_uid_map(name, 2, "0 1000 1"), -OARHATCHET_ESRCH);
        CHECK(write_gid_map(1, name, "0 1000 1"), -OARHATCHET_ESRCH);
        CHECK(write_setgroups(1, name, "deny"), -OARHATCHET_ESRCH);
        CHECK(oarhatchet_read_uid_map(tables, name, 2, buffer, 4), -OARHATCHET_ESRCH);
        CHECK(oarhatchet_read_gid_map(tables, 1, name, buffer, 4), -OARHATCHET_ESRCH);
        CHECK(oarhatchet_read_setgroups(tables, 1, name, buffer, 4), -OARHATCHET_ESRCH);
        CHECK(oarhatchet_setresuid(tables, name, 0, 0, 0), -OARHATCHET_ESRCH);
        CHECK(oarhatchet_setresgid(tables, name, 0, 0, 0), -OARHATCHET_ESRCH);
        CHECK(oarhatchet_setgroups(tables, name, ids, 0), -OARHATCHET_ESRCH);
        CHECK(oarhatchet_capable(tables, name, 1, OARHATCHET_CAP_SYS_ADMIN), -OARHATCHET_ESRCH);
        CHECK(oarhatchet_capset(tables, name, 0, 0), -OARHATCHET_ESRCH);
        CHECK(oarhatchet_getids(tables, name, ids), -OARHATCHET_ESRCH);
        CHECK(oarhatchet_translate_uid_out(tables, name, 1, 0), -OARHATCHET_ESRCH);
    }
    CHECK(oarhatchet_setns(tables, 1, 2), -OARHATCHET_ESRCH);
    CHECK(oarhatchet_capable(tables, 1, NAMESPACES, OARHATCHET_CAP_SYS_ADMIN), -OARHATCHET_ESRCH);
    CHECK(oarhatchet_translate_gid_back(tables, 1, 2, 0), -OARHATCHET_ESRCH);
    CHECK(memcmp(before, tables, sizeof tables), 0);
    CHECK(holds(buffer, sizeof buffer, ""), 1);
    CHECK((int64_t)space, 77);
}

/* The first journal of docs/journal.md: a clone, a write of the child's user map, and the read of that map. */
static const uint8_t first_journal[64] = {
    1,
    0, 9, 0x11, 0, 0, 0, 0, 0, 0, 0, 1,
    0, 0x1b, 0x20, 0, 0, 0, 0, 0, 0, 0, 1, 0, 0, 0, 0, 0, 0, 0, 2, '0', ' ', '1', '0', '0', '0', '0', ' ', '5', '\n',
    0, 0x15, 0x23, 0, 0, 0, 0, 0, 0, 0, 1, 0, 0, 0, 0, 0, 0, 0, 2, 0, 0, 0, 0x28};

static uint8_t journal[OARHATCHET_MAX_RECORD];

/* Writes a record to the journal from a place on; its names and other numbers are given in order. */
static int64_t write_record(
    uint8_t call, uint64_t caller, uint64_t second, uint64_t third, uint32_t number, const char *text, uint64_t length,
    size_t at)
{
    uint64_t names[OARHATCHET_MAX_NAMES] = {caller, second, third};
    uint32_t numbers[OARHATCHET_MAX_NUMBERS] = {number, number + 1, number + 2};
    uint32_t list[2] = {5, 70000};
    return oarhatchet_write_record(
        call, names, numbers, (const uint8_t *)text, strlen(text), list, 2, length, journal, sizeof journal, at);
}

static void records_are_the_journals_bytes(void)
{
    static const uint8_t groups[19] = {0, 0x11, 0x32, 0, 0, 0, 0, 0, 0, 0, 1, 0, 0, 0, 5, 0, 1, 0x11, 0x70};
    static const uint8_t ids[23] = {
        0, 0x15, 0x30, 0, 0, 0, 0, 0, 0, 0, 1, 0, 0, 0, 7, 0, 0, 0, 8, 0, 0, 0, 9};
    static const uint8_t sets[27] = {
        0, 0x19, 0x33, 0, 0, 0, 0, 0, 0, 0, 1, 0, 0, 0, 0, 0, 0, 0, 2, 1, 2, 3, 4, 5, 6, 7, 8};
    static const uint8_t question[23] = {
        0, 0x15, 0x41, 0, 0, 0, 0, 0, 0, 0, 1, 0, 0, 0, 0, 0, 0, 0, 0, 0, 0, 0xff, 0xff};

    memset(journal, '.', sizeof journal);
    journal[0] = OARHATCHET_JOURNAL_VERSION;
    CHECK(write_record(OARHATCHET_CALL_CLONE, 1, 77, 77, 77, "none", 77, 1), 11);
    CHECK(write_record(OARHATCHET_CALL_WRITE_UID_MAP, 1, 2, 77, 77, "0 10000 5\n", 77, 12), 29);
    CHECK(write_record(OARHATCHET_CALL_READ_UID_MAP, 1, 2, 77, 77, "none", 40, 41), 23);
    CHECK(memcmp(journal, first_journal, sizeof first_journal), 0);
    CHECK(holds(journal + sizeof first_journal, sizeof journal - sizeof first_journal, ""), 1);

    CHECK(write_record(OARHATCHET_CALL_SETGROUPS, 1, 77, 77, 77, "none", 77, 0), sizeof groups);
    CHECK(memcmp(journal, groups, sizeof groups), 0);
    CHECK(write_record(OARHATCHET_CALL_SETRESUID, 1, 77, 77, 7, "none", 77, 0), sizeof ids);
    CHECK(memcmp(journal, ids, sizeof ids), 0);
    CHECK(write_record(OARHATCHET_CALL_CAPSET, 1, 2, UINT64_C(0x102030405060708), 77, "none", 77, 0), sizeof sets);
    CHECK(memcmp(journal, sets, sizeof sets), 0);
    CHECK(write_record(OARHATCHET_CALL_TRANSLATE_UID_OUT, 1, 0, 77, 65535, "none", 77, 0), sizeof question);
    CHECK(memcmp(journal, question, sizeof question), 0);
}

static void records_are_refused(void)
{
    static char text[65520];
    size_t room = sizeof journal;

    memset(journal, '.', sizeof journal);
    memset(text, ' ', sizeof text - 1);
    CHECK(write_record(0x12, 1, 0, 0, 0, "", 0, 0), -OARHATCHET_EINVAL);
    CHECK(write_record(OARHATCHET_CALL_WRITE_GID_MAP, 1, 2, 0, 0, text, 0, 0), -OARHATCHET_EINVAL);
    CHECK(write_record(OARHATCHET_CALL_READ_SETGROUPS, 1, 2, 0, 0, "", UINT64_C(1) << 32, 0), -OARHATCHET_EINVAL);
    CHECK(write_record(OARHATCHET_CALL_FORK, 1, 0, 0, 0, "", 0, room - 10), -OARHATCHET_ERANGE);
    CHECK(write_record(OARHATCHET_CALL_FORK, 1, 0, 0, 0, "", 0, SIZE_MAX), -OARHATCHET_ERANGE);
    CHECK(holds(journal, sizeof journal, ""), 1);
    CHECK(write_record(OARHATCHET_CALL_FORK, 1, 0, 0, 0, "", 0, room - 11), 11);
    text[65518] = 0;
    CHECK(write_record(OARHATCHET_CALL_WRITE_GID_MAP, 1, 2, 0, 0, text, 0, 0), OARHATCHET_MAX_RECORD);
}

/* The second journal of docs/journal.md: groups, own IDs, a translation, and a fork with a byte too many. */
static const uint8_t second_journal[66] = {
    1,
    0, 0x11, 0x32, 0, 0, 0, 0, 0, 0, 0, 1, 0, 0, 0, 5, 0, 1, 0x11, 0x70,
    0, 9, 0x34, 0, 0, 0, 0, 0, 0, 0, 1,
    0, 0x15, 0x41, 0, 0, 0, 0, 0, 0, 0, 1, 0, 0, 0, 0, 0, 0, 0, 0, 0, 0, 0xff, 0xff,
    0, 0x0a, 0x10, 0, 0, 0, 0, 0, 0, 0, 1, 0};

static uint64_t record[OARHATCHET_RECORD_WORDS];
static uint32_t list[OARHATCHET_MAX_IDS];
static uint8_t text[OARHATCHET_MAX_READ];
static uint32_t own[OARHATCHET_IDS];

/* Makes the call at an offset of a journal. */
static int64_t replay(const uint8_t *bytes, size_t length, size_t at)
{
    return oarhatchet_replay(tables, bytes, length, at, record, list, text, own);
}

/* Compares the words with twelve others, and counts one check. */
static void check_words(int line, const uint64_t expected[OARHATCHET_RECORD_WORDS])
{
    size_t i;
    for (i = 0; i < OARHATCHET_RECORD_WORDS; i++)
        if (record[i] != expected[i]) {
            fprintf(stderr, "test.c:%d: word %d is %llu\n", line, (int)i, (unsigned long long)record[i]);
            exit(1);
        }
    checks++;
}

#define CHECK_WORDS(...) \
    do { \
        const uint64_t expected[OARHATCHET_RECORD_WORDS] = {__VA_ARGS__}; \
        check_words(__LINE__, expected); \
    } while (0)

static void a_journal_is_replayed(void)
{
    size_t size = sizeof first_journal;

    oarhatchet_initial(tables);
    memset(text, '.', sizeof text);
    CHECK(replay(first_journal, size, 0), 2);
    CHECK_WORDS(OARHATCHET_CALL_CLONE, 1, 0, 0, 0, 0, 0, 12, 0, 0, 12, 1);
    CHECK(replay(first_journal, size, 12), 0);
    CHECK_WORDS(OARHATCHET_CALL_WRITE_UID_MAP, 1, 2, 0, 0, 0, 0, 31, 10, 0, 41, 0);
    CHECK(holds(text, sizeof text, ""), 1);
    CHECK(replay(first_journal, size, 41), LINE);
    CHECK_WORDS(OARHATCHET_CALL_READ_UID_MAP, 1, 2, 0, 40, 0, 0, 64, 0, 0, 64, 0);
    CHECK(holds(text, sizeof text, "         0      10000          5\n"), 1);
    CHECK(replay(first_journal, size, 64), 0);
    CHECK_WORDS(OARHATCHET_JOURNAL_END, 0, 0, 0, 0, 0, 0, 0, 0, 0, 64, 0);
    CHECK(oarhatchet_translate_uid_out(tables, 1, 1, 4), 10004);
}

static void a_bad_record_stops(void)
{
    size_t i, size = sizeof second_journal;

    oarhatchet_initial(tables);
    memset(own, 0xff, sizeof own);
    CHECK(replay(second_journal, size, 0), 0);
    CHECK_WORDS(OARHATCHET_CALL_SETGROUPS, 1, 0, 0, 0, 0, 0, 12, 0, 2, 20, 0);
    CHECK(list[0], 5);
    CHECK(list[1], 70000);
    CHECK(own[0], OARHATCHET_NO_ID);
    CHECK(replay(second_journal, size, 20), 2);
    CHECK_WORDS(OARHATCHET_CALL_GETIDS, 1, 0, 0, 0, 0, 0, 31, 0, 0, 31, 0);
    for (i = 0; i < OARHATCHET_IDS; i++)
        CHECK(own[i], i == 6 ? 5 : i == 7 ? 70000 : 0);
    CHECK(replay(second_journal, size, 31), 65535);
    CHECK_WORDS(OARHATCHET_CALL_TRANSLATE_UID_OUT, 1, 0, 0, 65535, 0, 0, 54, 0, 0, 54, 0);
    memcpy(before, tables, sizeof tables);
    CHECK(replay(second_journal, size, 54), 0);
    CHECK_WORDS(OARHATCHET_STOP_LEFTOVER, 0, 0, 0, 0, 0, 0, 0, 0, 0, 54, 0);
    CHECK(replay(second_journal, 65, 54), 0);
    CHECK_WORDS(OARHATCHET_STOP_CUT, 0, 0, 0, 0, 0, 0, 0, 0, 0, 54, 0);
    CHECK(replay(second_journal + 1, size - 1, 0), 0);
    CHECK_WORDS(OARHATCHET_STOP_VERSION, 0, 0, 0, 0, 0, 0, 0, 0, 0, 0, 0);
    CHECK(replay(first_journal, 2, 0), 0);
    CHECK_WORDS(OARHATCHET_STOP_CUT, 0, 0, 0, 0, 0, 0, 0, 0, 0, 1, 0);
    CHECK(memcmp(before, tables, sizeof tables), 0);
}

/* A call that is refused has its record, and its answer when it is made again. */
static void a_refused_call_is_replayed(void)
{
    size_t end = 1;

    journal[0] = OARHATCHET_JOURNAL_VERSION;
    end += (size_t)write_record(OARHATCHET_CALL_CLONE, 9, 0, 0, 0, "", 0, end);
    end += (size_t)write_record(OARHATCHET_CALL_READ_GID_MAP, 1, 1, 0, 0, "", LINE - 1, end);
    end += (size_t)write_record(OARHATCHET_CALL_CAPSET, 1, UINT64_MAX, FULL, 0, "", 0, end);
    oarhatchet_initial(tables);
    CHECK(replay(journal, end, 0), -OARHATCHET_ESRCH);
    CHECK_WORDS(OARHATCHET_CALL_CLONE, 9, 0, 0, 0, 0, 0, 12, 0, 0, 12, 0);
    memset(text, '.', sizeof text);
    CHECK(replay(journal, end, (size_t)record[OARHATCHET_WORD_NEXT]), -OARHATCHET_ERANGE);
    CHECK_WORDS(OARHATCHET_CALL_READ_GID_MAP, 1, 1, 0, LINE - 1, 0, 0, 35, 0, 0, 35, 0);
    CHECK(holds(text, sizeof text, ""), 1);
    CHECK(replay(journal, end, (size_t)record[OARHATCHET_WORD_NEXT]), -OARHATCHET_EPERM);
    CHECK_WORDS(OARHATCHET_CALL_CAPSET, 1, UINT64_MAX, FULL, 0, 0, 0, end, 0, 0, end, 0);
    CHECK(replay(journal, end, SIZE_MAX), 0);
    CHECK_WORDS(OARHATCHET_JOURNAL_END, 0, 0, 0, 0, 0, 0, 0, 0, 0, SIZE_MAX, 0);
}

int main(void)
{
    CHECK((int64_t)oarhatchet_words(), OARHATCHET_TABLES);
    a_member_maps_itself_once();
    a_member_maps_nothing_else();
    a_member_maps_its_group_after_deny();
    the_parent_maps_a_range();
    the_text_of_a_map();
    an_unmapped_process_makes_no_namespace();
    the_owner_in_the_parent_holds_capabilities();
    levels_reach_32();
    a_range_lies_whole_in_one_parent_line();
    full_tables_refuse();
    own_ids_and_sets();
    names_that_name_nothing();
    records_are_the_journals_bytes();
    records_are_refused();
    a_journal_is_replayed();
    a_bad_record_stops();
    a_refused_call_is_replayed();
    printf("c: %d checks passed\n", checks);
    return 0;
}
