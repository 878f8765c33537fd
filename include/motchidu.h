/*
 * The compiler, the checker, the machine and the comparison of seccomp filters, classic BPF as seccomp(2)
 * takes it: the filter of a profile, whether a filter is safe to run, why it is not, what it returns on a
 * call, and whether two filters return the same value on every call. Beside these: what decides a call under
 * a profile, the plain profile of a container engine's template, the default profile, and the names of calls.
 *
 * A profile is the JSON text of the linux.seccomp object of the OCI runtime specification 1.1. A filter is
 * the bytes of its struct sock_filter (linux/filter.h), 8 each, numbers little-endian: an array of these as
 * it is in memory on x86-64. A call is the 64 bytes of a struct seccomp_data (linux/seccomp.h) in memory.
 * docs/SEMANTICS.md of the project has each rule.
 *
 * What the functions return and write is proved, against the clauses of crates/motchidu_c that these
 * comments restate. No proof sees the caller, who has to ensure the following: each pointer points to
 * memory of the passed length, which may be read, and written if it is an output; an output overlaps with
 * nothing else that is passed; no other thread writes to what is passed before the function returns. An
 * array of length 0 may be NULL, and so may `at`; no other pointer may.
 *
 * A function that writes text or a filter gets room for it, and a length to set. If the room is large enough,
 * the first *length bytes of the room become the text, and the others are unchanged. If it is not, the answer
 * is MOTCHIDU_NO_ROOM, *length is the number of bytes that are needed, and nothing else is written. A text
 * does not end with a zero byte or a line's end.
 *
 * The functions take memory with malloc while they run, and release it with free; these two are C's own, or
 * keep C's promises. All but the four that look up names and numbers of calls take memory, and may return
 * MOTCHIDU_MEMORY. They keep nothing between two calls, and may run in many threads at once, but not in a
 * signal handler, nor in the forked child of a process with threads.
 *
 * Those that read JSON, which compile, explain and resolve, need 128 KiB of stack, because a text may have 127
 * nested objects: motchidu_compile took 119 KiB for these, and 26 KiB for profiles as engines write them, and
 * the others take as much. The others need 24 KiB (12 motchidu_verify, 17 motchidu_longest, 9 motchidu_run_all, 15
 * motchidu_compare).
 *
 * Link with -lmotchidu. The library is for x86-64, as of x86-64-v2.
 */
#ifndef MOTCHIDU_H
#define MOTCHIDU_H

#include <stdbool.h>
#include <stddef.h>
#include <stdint.h>

/* The version of the library, of the programs and of motchidu.pc. Its first number is that of the shared
 * library's name, libmotchidu.so.0. */
#define MOTCHIDU_VERSION "0.1.0"

#ifdef __cplusplus
extern "C" {
#endif

/* What a function returns. Names and order of the faults are those of the project's programs, and the
 * first fault in that order is returned. P marks those that have a place in a filter. Those from
 * MOTCHIDU_LENGTH to MOTCHIDU_UNSTORED are about filters, those from MOTCHIDU_NOT_JSON to MOTCHIDU_TOO_HEAVY
 * about profiles and templates. Only motchidu_compare returns those from MOTCHIDU_SAME to
 * MOTCHIDU_ARITHMETIC, which are about two filters, only motchidu_resolve and motchidu_resolve_with the three
 * after them, and only functions that get a version of Linux the last one. */
enum motchidu_status {
    MOTCHIDU_ACCEPTED = 0,        /* done; of a filter: it is sound, and may be run on any call */
    MOTCHIDU_LENGTH = 1,          /* its length is not a multiple of 8 */
    MOTCHIDU_TOO_LONG = 2,        /* more than 4,096 instructions */
    MOTCHIDU_BAD_CODE = 3,        /* P: a code that is not in the table of instructions */
    MOTCHIDU_EMPTY = 4,           /* no instructions */
    MOTCHIDU_BAD_OFFSET = 5,      /* P: a load from outside the call's data, or across two of its words */
    MOTCHIDU_BAD_JUMP = 6,        /* P: a jump to a place outside the filter */
    MOTCHIDU_BAD_WORD = 7,        /* P: a scratch word of number 16 or more */
    MOTCHIDU_BAD_SHIFT = 8,       /* P: a shift by 32 bits or more */
    MOTCHIDU_ZERO_DIVISOR = 9,    /* P: a division by the constant 0 */
    MOTCHIDU_NO_FINAL_RETURN = 10, /* the last instruction is not a return */
    MOTCHIDU_UNSTORED = 11,       /* P: a load of a scratch word that some walk to it did not store */
    MOTCHIDU_MEMORY = 12,         /* memory ran out; what was passed may have faults or none */
    MOTCHIDU_LENGTHS = 13,        /* the lengths of calls, values and steps don't agree; the filter was
                                     not checked. Only motchidu_run_all returns this */
    MOTCHIDU_NOT_JSON = 14,       /* the text is not JSON */
    MOTCHIDU_NOT_OBJECT = 15,     /* it is not an object */
    MOTCHIDU_MISSING = 16,        /* a required field is missing */
    MOTCHIDU_WRONG_TYPE = 17,     /* a field has another type */
    MOTCHIDU_UNKNOWN_ACTION = 18, /* an action that does not exist */
    MOTCHIDU_UNKNOWN_OP = 19,     /* an operator that does not exist */
    MOTCHIDU_BAD_INDEX = 20,      /* an argument's index above 5 */
    MOTCHIDU_EMPTY_NAMES = 21,    /* an entry that names no call */
    MOTCHIDU_REPEATED_INDEX = 22, /* an entry that tests an argument twice */
    MOTCHIDU_ERRNO_NOT_ALLOWED = 23, /* an errno for an action that returns none */
    MOTCHIDU_ERRNO_TOO_LARGE = 24, /* an errno above what its action can return */
    MOTCHIDU_UNKNOWN_CALL = 25,   /* an unknown call: one that was asked for, or in a profile one under an
                                     action that is stricter than the default */
    MOTCHIDU_NOTIFY = 26,         /* SCMP_ACT_NOTIFY, for which there is no listener */
    MOTCHIDU_TOO_LARGE = 27,      /* a text of more than 262,144 bytes, or a template whose profile has
                                     more */
    MOTCHIDU_TOO_HEAVY = 28,      /* too many entries, names and conditions for one filter */
    MOTCHIDU_NO_ROOM = 29,        /* the filter or the text is longer than the room for it */
    MOTCHIDU_SAME = 30,           /* both filters return the same value on every call that was asked about */
    MOTCHIDU_DIFFER = 31,         /* on one of those calls they return different values */
    MOTCHIDU_BUDGET = 32,         /* undecided: it takes more instructions than the budget allows */
    MOTCHIDU_ARITHMETIC = 33,     /* undecided: a filter computes with loaded data, or compares two words */
    MOTCHIDU_BOTH = 34,           /* two fields that exclude each other: name and names, or architectures
                                     and archMap */
    MOTCHIDU_UNKNOWN_ERRNO = 35,  /* an errno's name that does not exist */
    MOTCHIDU_BAD_KERNEL = 36,     /* a minKernel that is not a version of two numbers */
    MOTCHIDU_UNKNOWN_VERSION = 37 /* a number that names no version of Linux */
};

/* What decides a call under a profile. */
enum motchidu_decider {
    MOTCHIDU_BY_ENTRY = 0,        /* the first entry that names the call and whose conditions all hold */
    MOTCHIDU_BY_DEFAULT = 1,      /* defaultAction, since there is no such entry */
    MOTCHIDU_BY_ARCHITECTURE = 2, /* the call is not one of x86-64: it kills the process */
    MOTCHIDU_BY_X32 = 3           /* the call is one of x32, from number 2^30 on: it kills the process */
};

/* The version of Linux whose calls a profile can name. */
enum motchidu_version {
    MOTCHIDU_LINUX_5_8 = 0,       /* calls up to number 439 */
    MOTCHIDU_LINUX_6_12 = 1       /* calls up to number 462, and all calls of Linux 5.8 */
};

/*
 * Finds the name of the call of x86-64 with this number, such as read for 0.
 *
 * With MOTCHIDU_ACCEPTED the name is the first *length of the name_len bytes at name; 32 bytes are room for
 * any name. With MOTCHIDU_UNKNOWN_CALL no call of Linux 5.8 has the number, and nothing is written.
 */
enum motchidu_status motchidu_call_name(uint32_t number, char *name, size_t name_len, size_t *length);

/*
 * Finds the name of a call as motchidu_call_name does, among the calls of the version of Linux that calls
 * names, one of enum motchidu_version. With any other number the answer is MOTCHIDU_UNKNOWN_VERSION, and
 * nothing is written.
 */
enum motchidu_status motchidu_call_name_with(uint32_t calls, uint32_t number,
                                             char *name, size_t name_len, size_t *length);

/*
 * Finds the number of the call of x86-64 with this name, of name_len bytes, such as 0 for read.
 *
 * With MOTCHIDU_ACCEPTED *number becomes the number. With MOTCHIDU_UNKNOWN_CALL no call of Linux 5.8 has the
 * name, and nothing is written.
 */
enum motchidu_status motchidu_call_number(const void *name, size_t name_len, uint32_t *number);

/*
 * Finds the number of a call as motchidu_call_number does, among the calls of the version of Linux that calls
 * names. With any other number of a version the answer is MOTCHIDU_UNKNOWN_VERSION, and nothing is written.
 */
enum motchidu_status motchidu_call_number_with(uint32_t calls, const void *name, size_t name_len,
                                               uint32_t *number);

/*
 * Checks two filters, of first_len and of second_len bytes, and compares them on every call, or, with native,
 * on the calls of x86-64 whose number is below 2^30, so on none of x32. The values that they return are
 * compared: two values of one action with different data are not the same.
 *
 * With MOTCHIDU_SAME both return the same value on each of those calls. With MOTCHIDU_DIFFER the 64 bytes at
 * call become one of those calls, on which they do not, values[0] becomes the value that the first filter
 * returns on it, and values[1] that of the second. With MOTCHIDU_BUDGET and MOTCHIDU_ARITHMETIC both are
 * sound, and it is unknown whether they differ. Equal code is MOTCHIDU_SAME with any budget. Any other
 * answer is one of motchidu_verify, for the first filter, or for the second if the first is sound. Only with
 * MOTCHIDU_DIFFER is anything written.
 *
 * The comparison follows the ways that calls can take through both filters, by at most budget instructions
 * in all. seccheck allows 100,000,000, which take some 40 seconds if all of them are used.
 */
enum motchidu_status motchidu_compare(const void *first, size_t first_len,
                                      const void *second, size_t second_len,
                                      bool native, uint64_t budget,
                                      void *call, uint32_t values[2]);

/*
 * Compiles the profile of profile_len bytes to a sound filter. On every call the filter returns the value of
 * the profile's decision.
 *
 * With MOTCHIDU_ACCEPTED the filter is the first *length of the filter_len bytes at filter, and the others
 * are unchanged; 32,768 bytes are room for any filter. With MOTCHIDU_NO_ROOM *length is the number of bytes
 * of the filter, and nothing else is written. With any other answer *length is unchanged as well.
 */
enum motchidu_status motchidu_compile(const void *profile, size_t profile_len,
                                      void *filter, size_t filter_len, size_t *length);

/*
 * Compiles the profile as motchidu_compile does, with the same answers, and finds the place of a fault in the
 * profile's text.
 *
 * With an answer from MOTCHIDU_NOT_JSON to MOTCHIDU_TOO_LARGE *place_length becomes the number of bytes of
 * the place, such as 20 of syscalls[3].names[0]; if place_len is not smaller, the place becomes the first of
 * these bytes at place, and else nothing is written there. A place is never cut: 128 bytes are room for any.
 * It has 0 bytes where the fault is the whole text's, as with MOTCHIDU_NOT_JSON. With any other answer place
 * and *place_length are unchanged.
 */
enum motchidu_status motchidu_compile_at(const void *profile, size_t profile_len,
                                         void *filter, size_t filter_len, size_t *length,
                                         char *place, size_t place_len, size_t *place_length);

/*
 * Compiles the profile as motchidu_compile_at does, with the calls of a version of Linux: calls is the number
 * of the version, of enum motchidu_version. The calls of motchidu_compile_at are those of MOTCHIDU_LINUX_5_8.
 *
 * A name of a call that the version does not have is left out of its entry, or is MOTCHIDU_UNKNOWN_CALL if
 * the entry is stricter than the default. Answers and outputs are those of motchidu_compile_at. With any
 * other number the answer is MOTCHIDU_UNKNOWN_VERSION, and nothing is written.
 */
enum motchidu_status motchidu_compile_with(uint32_t calls, const void *profile, size_t profile_len,
                                           void *filter, size_t filter_len, size_t *length,
                                           char *place, size_t place_len, size_t *place_length);

/*
 * Writes the text of RuntimeDefault, the profile of a container whose manifest asks for it. The text is the
 * line that seccheck default prints, without its end.
 *
 * With MOTCHIDU_ACCEPTED the text is the first *length of the text_len bytes at text; 8,192 bytes are room
 * for it.
 */
enum motchidu_status motchidu_default(char *text, size_t text_len, size_t *length);

/*
 * Finds what decides the call of 64 bytes under the profile, and the value that the profile's filter returns
 * on it.
 *
 * With MOTCHIDU_ACCEPTED *decider becomes one of enum motchidu_decider, and *value the value. With
 * MOTCHIDU_BY_ENTRY *entry becomes the entry's index in syscalls, from 0; with any other decider it is
 * unchanged. With any other answer, which is that of motchidu_compile for a text that is not a profile,
 * nothing is written. A profile that is too heavy for a filter is explained too.
 */
enum motchidu_status motchidu_explain(const void *profile, size_t profile_len, const void *call,
                                      uint32_t *decider, size_t *entry, uint32_t *value);

/*
 * Finds what decides a call as motchidu_explain_with does: the call of x86-64 with this name, of name_len bytes,
 * and these arguments, made at address 0. With MOTCHIDU_UNKNOWN_CALL for a name that no call of the version has,
 * the profile is not read, and nothing is written.
 */
enum motchidu_status motchidu_explain_name(uint32_t calls, const void *profile, size_t profile_len,
                                           const void *name, size_t name_len, const uint64_t args[6],
                                           uint32_t *decider, size_t *entry, uint32_t *value);

/*
 * Finds what decides a call as motchidu_explain does, under a profile that is read with the calls of the
 * version of Linux that calls names, as by motchidu_compile_with. With any other number the answer is
 * MOTCHIDU_UNKNOWN_VERSION, and nothing is written.
 */
enum motchidu_status motchidu_explain_with(uint32_t calls, const void *profile, size_t profile_len,
                                           const void *call, uint32_t *decider, size_t *entry,
                                           uint32_t *value);

/*
 * Checks the filter of filter_len bytes as motchidu_verify does, with the same answers. With
 * MOTCHIDU_ACCEPTED *longest becomes the largest number of instructions on any way through the filter,
 * whatever the call: no run takes more steps.
 */
enum motchidu_status motchidu_longest(const void *filter, size_t filter_len,
                                      uint32_t *longest, size_t *at);

/*
 * Writes the plain profile that a template is for one container, as seccheck resolve prints it, without the
 * line's end. A template is a profile as Docker, podman and containerd keep them: entries of it have
 * includes and excludes.
 *
 * caps has a bit for each capability of the container: that of number n in linux/capability.h is bit n, as in
 * CapBnd of /proc/PID/status. Bits from 41 on have no effect. The kernel is of version
 * kernel_major.kernel_minor; UINT32_MAX for both is newer than any that a template asks for. The architecture
 * is x86-64, amd64 in templates. Names of calls that Linux 5.8 does not have are left out of entries that are
 * stricter than the default, since the profile would be refused for them.
 *
 * With MOTCHIDU_ACCEPTED the text is the first *length of the text_len bytes at text; 262,144 bytes are room
 * for any. With any other answer but MOTCHIDU_NO_ROOM nothing is written.
 */
enum motchidu_status motchidu_resolve(const void *template_text, size_t template_len,
                                      uint64_t caps, uint32_t kernel_major, uint32_t kernel_minor,
                                      char *text, size_t text_len, size_t *length);

/*
 * Resolves a template as motchidu_resolve does, with the calls of the version of Linux that calls names: names
 * of calls that this version does not have are left out. Read the text with the calls of the same version.
 * With any other number the answer is MOTCHIDU_UNKNOWN_VERSION, and nothing is written.
 */
enum motchidu_status motchidu_resolve_with(uint32_t calls, const void *template_text, size_t template_len,
                                           uint64_t caps, uint32_t kernel_major, uint32_t kernel_minor,
                                           char *text, size_t text_len, size_t *length);

/*
 * Checks the filter of filter_len bytes.
 *
 * If the answer has a place, *at becomes that place, counted in instructions from 0; else *at is unchanged.
 * If at is NULL, no place is written.
 */
enum motchidu_status motchidu_verify(const void *filter, size_t filter_len, size_t *at);

/*
 * Checks the filter of filter_len bytes once, and runs it on each call of a list.
 *
 * calls_len is in bytes, values_len and steps_len are in numbers, and there is one of each for a call:
 * calls_len is 64 * values_len, and steps_len is values_len; else the answer is MOTCHIDU_LENGTHS. With
 * MOTCHIDU_ACCEPTED, values[i] is the value that the filter returns on the call at calls + 64 * i (the
 * action in its upper 16 bits, seccomp(2)), and steps[i] the number of instructions that it executed, the
 * last one included, which is never above filter_len / 8. With any other answer nothing is written.
 */
enum motchidu_status motchidu_run_all(const void *filter, size_t filter_len,
                                      const void *calls, size_t calls_len,
                                      uint32_t *values, size_t values_len,
                                      uint32_t *steps, size_t steps_len);

/* The name of a status, as the project's programs print it; "Unknown" for a number that is not a status. */
static inline const char *motchidu_status_text(enum motchidu_status status)
{
    switch (status) {
    case MOTCHIDU_ACCEPTED: return "Accepted";
    case MOTCHIDU_LENGTH: return "Length";
    case MOTCHIDU_TOO_LONG: return "TooLong";
    case MOTCHIDU_BAD_CODE: return "BadCode";
    case MOTCHIDU_EMPTY: return "Empty";
    case MOTCHIDU_BAD_OFFSET: return "BadOffset";
    case MOTCHIDU_BAD_JUMP: return "BadJump";
    case MOTCHIDU_BAD_WORD: return "BadWord";
    case MOTCHIDU_BAD_SHIFT: return "BadShift";
    case MOTCHIDU_ZERO_DIVISOR: return "ZeroDivisor";
    case MOTCHIDU_NO_FINAL_RETURN: return "NoFinalReturn";
    case MOTCHIDU_UNSTORED: return "Unstored";
    case MOTCHIDU_MEMORY: return "Memory";
    case MOTCHIDU_LENGTHS: return "Lengths";
    case MOTCHIDU_NOT_JSON: return "NotJson";
    case MOTCHIDU_NOT_OBJECT: return "NotObject";
    case MOTCHIDU_MISSING: return "Missing";
    case MOTCHIDU_WRONG_TYPE: return "WrongType";
    case MOTCHIDU_UNKNOWN_ACTION: return "UnknownAction";
    case MOTCHIDU_UNKNOWN_OP: return "UnknownOp";
    case MOTCHIDU_BAD_INDEX: return "BadIndex";
    case MOTCHIDU_EMPTY_NAMES: return "EmptyNames";
    case MOTCHIDU_REPEATED_INDEX: return "RepeatedIndex";
    case MOTCHIDU_ERRNO_NOT_ALLOWED: return "ErrnoNotAllowed";
    case MOTCHIDU_ERRNO_TOO_LARGE: return "ErrnoTooLarge";
    case MOTCHIDU_UNKNOWN_CALL: return "UnknownCall";
    case MOTCHIDU_NOTIFY: return "Notify";
    case MOTCHIDU_TOO_LARGE: return "TooLarge";
    case MOTCHIDU_TOO_HEAVY: return "TooHeavy";
    case MOTCHIDU_NO_ROOM: return "NoRoom";
    case MOTCHIDU_SAME: return "Same";
    case MOTCHIDU_DIFFER: return "Differ";
    case MOTCHIDU_BUDGET: return "Budget";
    case MOTCHIDU_ARITHMETIC: return "Arithmetic";
    case MOTCHIDU_BOTH: return "Both";
    case MOTCHIDU_UNKNOWN_ERRNO: return "UnknownErrno";
    case MOTCHIDU_BAD_KERNEL: return "BadKernel";
    case MOTCHIDU_UNKNOWN_VERSION: return "UnknownVersion";
    }
    return "Unknown";
}

#ifdef __cplusplus
}
#endif

#endif
