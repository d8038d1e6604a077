/*
 * The tables of user namespaces and processes, and the calls on them.
 *
 * The tables are an array of OARHATCHET_TABLES words that the caller keeps and lends to each call.
 * oarhatchet_initial fills it; after that only these calls write it. A process or namespace may be named by any
 * number: one that names nothing is refused. The pages in docs/calls say in full what each call does.
 *
 * An answer of 0 or more is the call's own. A refusal is the negated number of an error, as -OARHATCHET_EPERM; it
 * changes no table and writes nothing to what is lent. Every call first finds the caller, then the process or
 * namespace named, and answers -OARHATCHET_ESRCH where there is none; the comments below name only the refusals
 * that come after that, in the order in which they are tested.
 *
 * No pointer is NULL, not even where its length is 0. What is lent to one call does not overlap. Calls on different
 * tables may run at the same time, and so may those that take the tables as const.
 */
#ifndef OARHATCHET_H
#define OARHATCHET_H

#include <stddef.h>
#include <stdint.h>

#ifdef __cplusplus
extern "C" {
#endif

/* The words of the tables. */
#define OARHATCHET_TABLES 6592
/* The most supplementary groups of a process. */
#define OARHATCHET_MAX_GROUPS 16
/* The words that oarhatchet_getids writes: six IDs, and a place for each group. */
#define OARHATCHET_IDS (6 + OARHATCHET_MAX_GROUPS)
/*
 * The value that means 'no ID', and is never mapped. In oarhatchet_setresuid and oarhatchet_setresgid it leaves an
 * ID as it is.
 */
#define OARHATCHET_NO_ID UINT32_C(4294967295)
/* The answer of a translation where the ID is not mapped. It is no ID, in any namespace. */
#define OARHATCHET_UNMAPPED ((int64_t)OARHATCHET_NO_ID)
/* What oarhatchet_getids shows for an ID that is not mapped in the caller's namespace. */
#define OARHATCHET_OVERFLOW_ID UINT32_C(65534)

/* The numbers of the capabilities that the calls ask for, and the highest that there is: capabilities(7). */
#define OARHATCHET_CAP_SETGID 6
#define OARHATCHET_CAP_SETUID 7
#define OARHATCHET_CAP_SYS_ADMIN 21
#define OARHATCHET_CAP_LAST_CAP 36

/* The numbers of refusals. */
enum oarhatchet_errno {
    OARHATCHET_EPERM = 1,   /* not permitted */
    OARHATCHET_ESRCH = 3,   /* no such process or namespace */
    OARHATCHET_EAGAIN = 11, /* 128 processes exist */
    OARHATCHET_EINVAL = 22, /* bad text, number or list; already a member */
    OARHATCHET_ENOSPC = 28, /* 64 namespaces exist */
    OARHATCHET_ERANGE = 34, /* read buffer short */
    OARHATCHET_EUSERS = 87  /* level 33 asked for */
};

/*
 * The journal of calls: docs/journal.md has the format. A journal is the version byte and then a record for each call.
 */
/* The first byte of a journal. */
#define OARHATCHET_JOURNAL_VERSION 1
/* The bytes of the longest record: a buffer of as many has room for any. */
#define OARHATCHET_MAX_RECORD 65537
/* The most names of a call, the caller among them, and the most other numbers. */
#define OARHATCHET_MAX_NAMES 3
#define OARHATCHET_MAX_NUMBERS 3
/* The most IDs that the list of a record has. */
#define OARHATCHET_MAX_IDS 16381
/* The bytes of the longest text that a read gives. */
#define OARHATCHET_MAX_READ 165
/* The words that oarhatchet_replay writes. */
#define OARHATCHET_RECORD_WORDS 12

/* The call bytes. */
enum oarhatchet_call {
    OARHATCHET_CALL_FORK = 0x10,
    OARHATCHET_CALL_CLONE = 0x11,
    OARHATCHET_CALL_UNSHARE = 0x14,
    OARHATCHET_CALL_SETNS = 0x17,
    OARHATCHET_CALL_WRITE_UID_MAP = 0x20,
    OARHATCHET_CALL_WRITE_GID_MAP = 0x21,
    OARHATCHET_CALL_WRITE_SETGROUPS = 0x22,
    OARHATCHET_CALL_READ_UID_MAP = 0x23,
    OARHATCHET_CALL_READ_GID_MAP = 0x24,
    OARHATCHET_CALL_READ_SETGROUPS = 0x25,
    OARHATCHET_CALL_SETRESUID = 0x30,
    OARHATCHET_CALL_SETRESGID = 0x31,
    OARHATCHET_CALL_SETGROUPS = 0x32,
    OARHATCHET_CALL_CAPSET = 0x33,
    OARHATCHET_CALL_GETIDS = 0x34,
    OARHATCHET_CALL_CAPABLE = 0x40,
    OARHATCHET_CALL_TRANSLATE_UID_OUT = 0x41,
    OARHATCHET_CALL_TRANSLATE_UID_BACK = 0x42,
    OARHATCHET_CALL_TRANSLATE_GID_OUT = 0x43,
    OARHATCHET_CALL_TRANSLATE_GID_BACK = 0x44
};

/* What stands at an offset of a journal where no call does: its end, or why the reading stops there. */
enum oarhatchet_stop {
    OARHATCHET_JOURNAL_END = 0,
    OARHATCHET_STOP_VERSION = 1,      /* version missing or unknown */
    OARHATCHET_STOP_CUT = 2,          /* record cut off */
    OARHATCHET_STOP_SHORT = 3,        /* short record */
    OARHATCHET_STOP_UNKNOWN_CALL = 4, /* unknown call byte */
    OARHATCHET_STOP_LEFTOVER = 5      /* leftover bytes */
};

/* The words that oarhatchet_replay writes, by their places. */
enum oarhatchet_word {
    OARHATCHET_WORD_CALL = 0,      /* the call byte, or one of enum oarhatchet_stop */
    OARHATCHET_WORD_NAMES = 1,     /* three places: the call's names in order, the caller first */
    OARHATCHET_WORD_NUMBERS = 4,   /* three places: its other numbers in order; of a read the length of its buffer */
    OARHATCHET_WORD_TAIL = 7,      /* the offset where these end, and its text or its list starts */
    OARHATCHET_WORD_TEXT = 8,      /* the bytes of its text */
    OARHATCHET_WORD_IDS = 9,       /* the IDs of its list */
    OARHATCHET_WORD_NEXT = 10,     /* the offset of the next record */
    OARHATCHET_WORD_NAMESPACE = 11 /* the namespace that a clone has made */
};

/* Answers OARHATCHET_TABLES, as the archive has it: a program may compare the two before its first call. */
uint64_t oarhatchet_words(void);

/*
 * Fills the array with the initial tables: process 1 in namespace 0, all its IDs 0, no groups, both capability sets
 * full.
 */
void oarhatchet_initial(uint64_t tables[OARHATCHET_TABLES]);

/*
 * Makes a copy of the caller and answers the child's number, the lowest unused one.
 * EAGAIN: 128 processes exist.
 */
int64_t oarhatchet_fork(uint64_t tables[OARHATCHET_TABLES], uint64_t caller);

/*
 * Makes a namespace below the caller's and a copy of the caller in it. Answers the child's number and stores the
 * namespace's, each the lowest unused one. The child has both capability sets full.
 * EUSERS: the caller's namespace has level 32. EPERM: the caller's effective user or group ID is not mapped in its
 * namespace. ENOSPC: 64 namespaces exist. EAGAIN: 128 processes exist.
 */
int64_t oarhatchet_clone(uint64_t tables[OARHATCHET_TABLES], uint64_t caller, uint64_t *new_namespace);

/*
 * Makes a namespace below the caller's, moves the caller into it with both capability sets full, and answers the
 * namespace's number.
 * EUSERS, EPERM, ENOSPC: as for oarhatchet_clone.
 */
int64_t oarhatchet_unshare(uint64_t tables[OARHATCHET_TABLES], uint64_t caller);

/*
 * Moves the caller into the namespace target, with both capability sets full, and answers 0.
 * EINVAL: the caller is in it already. EPERM: the caller does not hold OARHATCHET_CAP_SYS_ADMIN in it.
 */
int64_t oarhatchet_setns(uint64_t tables[OARHATCHET_TABLES], uint64_t caller, uint64_t target);

/*
 * Writes the user map (group map) of the namespace that the process is in, which is done once, and answers 0. The
 * text is one to five lines of inside start, parent start and count.
 * EPERM: that namespace is namespace 0, or the caller is neither in it nor in its parent. EINVAL: the text has 0 or
 * more than 4095 bytes. EPERM: the map is written already, or the caller does not hold OARHATCHET_CAP_SETUID, for a
 * group map OARHATCHET_CAP_SETGID, in the namespace. EINVAL: the text is bad. EPERM: the caller does not hold that
 * capability in the parent, and the text does more than map its own ID; or the parent side of a line does not lie
 * whole in one line of the parent's map.
 */
int64_t oarhatchet_write_uid_map(
    uint64_t tables[OARHATCHET_TABLES], uint64_t caller, uint64_t process, const uint8_t *text, size_t length);
int64_t oarhatchet_write_gid_map(
    uint64_t tables[OARHATCHET_TABLES], uint64_t caller, uint64_t process, const uint8_t *text, size_t length);

/*
 * Writes the setgroups setting of the namespace that the process is in, "allow" or "deny" with or without a
 * newline, and answers 0.
 * EPERM: the caller does not hold OARHATCHET_CAP_SYS_ADMIN in the namespace. EINVAL: the text is another. EPERM:
 * "deny" after the group map is written, or "allow" after "deny".
 */
int64_t oarhatchet_write_setgroups(
    uint64_t tables[OARHATCHET_TABLES], uint64_t caller, uint64_t process, const uint8_t *text, size_t length);

/*
 * Reads the user map (group map) of the namespace that the process is in, 33 bytes for each line, to the front of
 * the buffer, and answers the text's length, 0 for a map that is not written. Parent starts are shown as the caller
 * sees them. No byte is written after the text.
 * ERANGE: the buffer is shorter than the text.
 */
int64_t oarhatchet_read_uid_map(
    const uint64_t tables[OARHATCHET_TABLES], uint64_t caller, uint64_t process, uint8_t *buffer, size_t length);
int64_t oarhatchet_read_gid_map(
    const uint64_t tables[OARHATCHET_TABLES], uint64_t caller, uint64_t process, uint8_t *buffer, size_t length);

/*
 * Reads the setgroups setting of the namespace that the process is in, with a newline, to the front of the buffer,
 * and answers the text's length.
 * ERANGE: the buffer is shorter than the text.
 */
int64_t oarhatchet_read_setgroups(
    const uint64_t tables[OARHATCHET_TABLES], uint64_t caller, uint64_t process, uint8_t *buffer, size_t length);

/*
 * Sets the caller's real, effective and saved user IDs (group IDs), as IDs of its namespace, and answers 0.
 * OARHATCHET_NO_ID leaves one as it is. A caller whose user IDs leave ID 0 loses capabilities.
 * EINVAL: an ID is not mapped. EPERM: the caller does not hold OARHATCHET_CAP_SETUID, for group IDs
 * OARHATCHET_CAP_SETGID, in its namespace, and one of the new three is none of its present three.
 */
int64_t oarhatchet_setresuid(
    uint64_t tables[OARHATCHET_TABLES], uint64_t caller, uint32_t real, uint32_t effective, uint32_t saved);
int64_t oarhatchet_setresgid(
    uint64_t tables[OARHATCHET_TABLES], uint64_t caller, uint32_t real, uint32_t effective, uint32_t saved);

/*
 * Replaces the caller's supplementary groups by the list, in its order, and answers 0.
 * EPERM: the caller does not hold OARHATCHET_CAP_SETGID in its namespace, or the group map there is not written, or
 * the setting there is "deny". EINVAL: the list has over OARHATCHET_MAX_GROUPS IDs, or one is not mapped.
 */
int64_t oarhatchet_setgroups(uint64_t tables[OARHATCHET_TABLES], uint64_t caller, const uint32_t *list, size_t count);

/*
 * Answers 1 where the caller holds the capability of this number in the namespace target, else 0.
 * EINVAL: the number is over OARHATCHET_CAP_LAST_CAP.
 */
int64_t oarhatchet_capable(
    const uint64_t tables[OARHATCHET_TABLES], uint64_t caller, uint64_t target, uint32_t number);

/*
 * Sets the caller's permitted and effective capability sets, bit n for capability n, and answers 0.
 * EPERM: the permitted set gains a capability, or the effective set has one that the permitted set has not.
 */
int64_t oarhatchet_capset(
    uint64_t tables[OARHATCHET_TABLES], uint64_t caller, uint64_t permitted, uint64_t effective);

/*
 * Stores the caller's own IDs as its namespace shows them: real, effective and saved user ID, the same three of the
 * group, then the supplementary groups in order and zeros after the last. An ID that is not mapped shows as
 * OARHATCHET_OVERFLOW_ID. Answers the number of groups.
 */
int64_t oarhatchet_getids(const uint64_t tables[OARHATCHET_TABLES], uint64_t caller, uint32_t ids[OARHATCHET_IDS]);

/*
 * Translates a user ID (group ID) of the namespace target out to the initial namespace, or one of the initial
 * namespace back to target. Answers the ID, or OARHATCHET_UNMAPPED.
 */
int64_t oarhatchet_translate_uid_out(
    const uint64_t tables[OARHATCHET_TABLES], uint64_t caller, uint64_t target, uint32_t id);
int64_t oarhatchet_translate_uid_back(
    const uint64_t tables[OARHATCHET_TABLES], uint64_t caller, uint64_t target, uint32_t id);
int64_t oarhatchet_translate_gid_out(
    const uint64_t tables[OARHATCHET_TABLES], uint64_t caller, uint64_t target, uint32_t id);
int64_t oarhatchet_translate_gid_back(
    const uint64_t tables[OARHATCHET_TABLES], uint64_t caller, uint64_t target, uint32_t id);

/*
 * Writes the record of the call that has this call byte to the buffer from the place `at` on, and answers how many
 * bytes it has. The call's names, the caller first, and its other numbers stand in order in the two arrays, as
 * docs/journal.md lists them; of a read `length` is the length of its buffer. What the call does not have is not
 * looked at. No table is asked, so a call can be written before it is made.
 * EINVAL: no call has the call byte, or the text or the list is too long for a record, or the length of a read's
 * buffer is over 4294967295. ERANGE: the buffer has no room for the record at that place.
 */
int64_t oarhatchet_write_record(
    uint8_t call, const uint64_t names[OARHATCHET_MAX_NAMES], const uint32_t numbers[OARHATCHET_MAX_NUMBERS],
    const uint8_t *text, size_t text_length, const uint32_t *list, size_t count, uint64_t length, uint8_t *buffer,
    size_t buffer_length, size_t at);

/*
 * Reads the record at the offset `at` of a journal and makes its call on the tables. At 0 it reads the version byte
 * and the record after it. Answers as the call does; oarhatchet_getids answers the number of groups.
 *
 * Stores what stands there in the twelve words of enum oarhatchet_word, with 0 for all that a call does not have.
 * The IDs of the call's list are put into list, the text of a read to the front of buffer, and own IDs into ids, as
 * oarhatchet_getids stores them; a call that is refused has its words and its list too. A read is made with a buffer of
 * OARHATCHET_MAX_READ bytes at most, which has room for every text.
 *
 * At the journal's end and at a stop no call is made: the answer is 0, only the words are written, and the word
 * OARHATCHET_WORD_NEXT is the offset given at the end, and that of the bad record at a stop. So a loop goes on from
 * OARHATCHET_WORD_NEXT while OARHATCHET_WORD_CALL is a call byte: each is over OARHATCHET_STOP_LEFTOVER.
 */
int64_t oarhatchet_replay(
    uint64_t tables[OARHATCHET_TABLES], const uint8_t *journal, size_t length, size_t at,
    uint64_t record[OARHATCHET_RECORD_WORDS], uint32_t list[OARHATCHET_MAX_IDS], uint8_t buffer[OARHATCHET_MAX_READ],
    uint32_t ids[OARHATCHET_IDS]);

#ifdef __cplusplus
}
#endif

#endif
