/* Filtersets of cargo-nextest, for C and C++.
 *
 * Link with libfilterset.a or libfilterset.so. Both need only the C library.
 *
 * Texts are UTF-8 bytes with a length. They need no zero byte at the end, and no call keeps them.
 *
 * Handles are `filterset_workspace` and `filterset`. A handle is one word, and the caller owns it. Begin with a handle
 * that is all zeros, as `filterset f = {0};`: it is empty. A call that makes something stores it in a handle, and frees what
 * the handle held. Free each handle at the end with filterset_workspace_free or filterset_free, which empty it; an empty
 * handle may be freed again. Never copy a handle and use both, change its word, or pass one handle twice to one call.
 *
 * No two handles share anything: a workspace may be freed before the filtersets that were parsed with it.
 *
 * Errors. Most calls return a filterset_status. If it is not FILTERSET_OK, the call changed nothing, except that
 * FILTERSET_REJECTED may store faults in a handle, as the call says. If several arguments are wrong, the status is that of
 * the first in this order: a null pointer, or one handle passed twice (FILTERSET_INVALID_ARGUMENT); a handle
 * (FILTERSET_WRONG_HANDLE); a number, an index or a length (FILTERSET_INVALID_ARGUMENT); a text that is not UTF-8
 * (FILTERSET_NOT_UTF8). Other failures come only if all arguments are well.
 *
 * Threads. One handle is for one thread at a time, also if the calls only ask, and may move to another thread between calls.
 * Any two handles may be used, or freed, by two threads at the same time. So parse a filterset once for each thread that asks
 * about tests.
 *
 * Stack. Parsing, printing and freeing take up stack for each level of parentheses and negations. A workspace limits the
 * levels of a text: to FILTERSET_DEPTH_LIMIT, unless filterset_workspace_set_depth says otherwise.
 *
 * No call ends the process, waits, or starts a thread. Do not call from a signal handler.
 *
 * The functions trust their pointers. So the calls below are macros that check them first, and return
 * FILTERSET_INVALID_ARGUMENT for a null pointer (also if a length is 0), and for one handle that is passed twice. Define
 * FILTERSET_NO_CHECKS to call the functions directly. */
#ifndef FILTERSET_H
#define FILTERSET_H

#include <stddef.h>
#include <stdint.h>
#include <string.h>

#ifdef __cplusplus
extern "C" {
#endif

/* The version of this header: major * 1000000 + minor * 1000 + patch. */
#define FILTERSET_VERSION 1000

/* How a call ended. */
typedef uint8_t filterset_status;
enum {
    FILTERSET_OK = 0,
    FILTERSET_OUT_OF_MEMORY = 1,    /* there was not enough memory, which says nothing about the arguments */
    FILTERSET_WRONG_HANDLE = 2,     /* the handle is empty, or does not hold what the call takes */
    FILTERSET_NOT_UTF8 = 3,         /* a text is not UTF-8 */
    FILTERSET_REJECTED = 4,         /* the text has faults, or the bytes describe no workspace */
    FILTERSET_INVALID_ARGUMENT = 5  /* a number has no meaning, lengths differ, or a pointer is null */
};

/* The limit of levels of a new workspace, which fits a thread with a stack of 1 MiB. One with 256 KiB bears 64 levels. */
#define FILTERSET_DEPTH_LIMIT 256

/* Kinds of filtersets. Only FILTERSET_KIND_TEST may have `group(..)`; FILTERSET_KIND_DEFAULT_FILTER has no `default()`. */
enum {
    FILTERSET_KIND_TEST = 0,
    FILTERSET_KIND_TEST_ARCHIVE = 1,
    FILTERSET_KIND_OVERRIDE_FILTER = 2,
    FILTERSET_KIND_DEFAULT_FILTER = 3
};

/* The platform that a test binary is built for. */
enum { FILTERSET_PLATFORM_TARGET = 0, FILTERSET_PLATFORM_HOST = 1 };

/* Answers. FILTERSET_UNKNOWN is only for binaries: the answer depends on the names or groups of tests. */
enum { FILTERSET_NO = 0, FILTERSET_YES = 1, FILTERSET_UNKNOWN = 2 };

/* Texts of a fault. */
enum {
    FILTERSET_FAULT_CODE = 0,  /* a name for programs, such as ExpectedCloseParenthesis */
    FILTERSET_FAULT_LABEL = 1, /* what to write at the span */
    FILTERSET_FAULT_HELP = 2   /* what to write instead; most faults have none, and the text is empty */
};

/* What filtersets are parsed against: packages, test binaries, groups, and the default filter. */
typedef struct filterset_workspace {
    void *held;
} filterset_workspace;

/* A filterset, or the faults of a rejected text. */
typedef struct filterset {
    void *held;
} filterset;

typedef struct filterset_text {
    const uint8_t *bytes;
    size_t length;
} filterset_text;

/* A test binary, as `cargo nextest list` describes it: package-id, binary-id, binary-name, kind, build-platform. */
typedef struct filterset_binary {
    filterset_text package_id;
    filterset_text binary_id;
    filterset_text name;
    filterset_text kind;
    uint8_t platform;
} filterset_binary;

/* A test of a binary, and the name of the group that it is in: "@global" if it is in no other. */
typedef struct filterset_test {
    filterset_text name;
    filterset_text group;
} filterset_test;

/* A part of a text, in bytes. */
typedef struct filterset_span {
    size_t offset;
    size_t length;
} filterset_span;

/* Returns the version of the library, as FILTERSET_VERSION. */
uint32_t filterset_version(void);

/* ---- Workspaces */

/* Makes a workspace of what `cargo metadata --format-version 1` writes (without --no-deps), and stores it in `workspace`. It
 * has no custom groups, and the default filter all(). FILTERSET_REJECTED if the bytes are not such JSON. */
filterset_status filterset_workspace_from_cargo_metadata(const uint8_t *metadata, size_t length,
                                                         filterset_workspace *workspace);

/* Makes a workspace of the keys `packages` and `groups` of a record (docs/PROGRAM.md), and stores it in `workspace`. Its
 * default filter is all(). FILTERSET_REJECTED if the bytes are not a record. */
filterset_status filterset_workspace_from_record(const uint8_t *json, size_t length, filterset_workspace *workspace);

/* Sets the names of the custom groups. `@global` is always a group. */
filterset_status filterset_workspace_set_groups(filterset_workspace *workspace, const filterset_text *names,
                                                size_t count);

/* Sets how many levels of parentheses and negations a text may have that is parsed from then on; 0 if there is no limit. A
 * level is an open parenthesis of an expression, or a negation whose operand has not ended; operands of one level do not add
 * up. A text that passes the limit is rejected before it is parsed, with one fault, NestedTooDeeply, at the parenthesis or
 * negation that passes it. In a text that is no filterset, each `(`, `!` and `not` counts from some place on. */
filterset_status filterset_workspace_set_depth(filterset_workspace *workspace, size_t levels);

/* Parses a default filter, and sets it. It replaces `default()` in filtersets that are parsed from then on, and is parsed
 * again with each of them; those that were parsed before keep the one that they have. FILTERSET_REJECTED stores the faults of
 * the text in `faults`. */
filterset_status filterset_workspace_set_default_filter(filterset_workspace *workspace, const uint8_t *text,
                                                        size_t length, filterset *faults);

/* Frees what the handle holds, and empties it. */
void filterset_workspace_free(filterset_workspace *workspace);

/* ---- Filtersets */

/* Parses a filterset of this kind, and stores it in `parsed`. FILTERSET_REJECTED stores the faults of the text there.
 * On any other failure `parsed` keeps what it holds. */
filterset_status filterset_parse(filterset_workspace *workspace, const uint8_t *text, size_t length, uint8_t kind,
                                 filterset *parsed);

/* Decides a binary: FILTERSET_YES if the filterset matches all of its tests, FILTERSET_NO if it matches none, whatever tests
 * the binary has; else FILTERSET_UNKNOWN. */
filterset_status filterset_matches_binary(filterset *parsed, const filterset_binary *binary, uint8_t *answer);

/* Writes whether the filterset matches a test: FILTERSET_YES or FILTERSET_NO. */
filterset_status filterset_matches_test(filterset *parsed, const filterset_binary *binary, const filterset_test *test,
                                        uint8_t *answer);

/* Writes whether the filterset matches each test of a binary, in their order. `answer_count` must be `test_count`. This is
 * much faster than a call for each test. */
filterset_status filterset_matches_tests(filterset *parsed, const filterset_binary *binary, const filterset_test *tests,
                                         size_t test_count, uint8_t *answers, size_t answer_count);

/* Writes whether the filterset has a `group(..)`: FILTERSET_YES or FILTERSET_NO. If it has none, the groups of tests do not
 * matter. */
filterset_status filterset_needs_groups(filterset *parsed, uint8_t *answer);

/* Writes the filterset as text, as far as there is room, and the length of the whole text. The text parses to the same
 * filterset. */
filterset_status filterset_print(filterset *parsed, uint8_t *room, size_t size, size_t *length);

/* Frees what the handle holds, and empties it. */
void filterset_free(filterset *parsed);

/* ---- Faults */

/* Returns the number of faults that the handle holds, in the order in which they were found: 0 if it holds no faults. */
size_t filterset_fault_count(filterset *faults);

/* Writes where a fault is in the rejected text. FILTERSET_INVALID_ARGUMENT if there is no fault at this index. */
filterset_status filterset_fault_span(filterset *faults, size_t index, filterset_span *span);

/* Writes a text of a fault, as far as there is room, and the length of the whole text. FILTERSET_INVALID_ARGUMENT if there
 * is no fault at this index, or no such text. */
filterset_status filterset_fault_text(filterset *faults, size_t index, uint8_t part, uint8_t *room, size_t size,
                                      size_t *length);

/* ---- Help for callers */

/* Returns a text that ends at the zero byte. */
static inline filterset_text filterset_text_of(const char *text) {
    filterset_text made;
    made.bytes = (const uint8_t *)text;
    made.length = text ? strlen(text) : 0;
    return made;
}

#ifndef FILTERSET_NO_CHECKS

static inline int filterset_is_binary(const filterset_binary *binary) {
    return binary && binary->package_id.bytes && binary->binary_id.bytes && binary->name.bytes && binary->kind.bytes;
}

static inline int filterset_are_tests(const filterset_test *tests, size_t count) {
    size_t i;
    if (!tests) return 0;
    for (i = 0; i < count; i++)
        if (!tests[i].name.bytes || !tests[i].group.bytes) return 0;
    return 1;
}

static inline int filterset_are_texts(const filterset_text *texts, size_t count) {
    size_t i;
    if (!texts) return 0;
    for (i = 0; i < count; i++)
        if (!texts[i].bytes) return 0;
    return 1;
}

static inline filterset_status filterset_checked_from_cargo_metadata(const uint8_t *metadata, size_t length,
                                                                     filterset_workspace *workspace) {
    if (!metadata || !workspace) return FILTERSET_INVALID_ARGUMENT;
    return filterset_workspace_from_cargo_metadata(metadata, length, workspace);
}

static inline filterset_status filterset_checked_from_record(const uint8_t *json, size_t length,
                                                             filterset_workspace *workspace) {
    if (!json || !workspace) return FILTERSET_INVALID_ARGUMENT;
    return filterset_workspace_from_record(json, length, workspace);
}

static inline filterset_status filterset_checked_set_groups(filterset_workspace *workspace, const filterset_text *names,
                                                            size_t count) {
    if (!workspace || !filterset_are_texts(names, count)) return FILTERSET_INVALID_ARGUMENT;
    return filterset_workspace_set_groups(workspace, names, count);
}

static inline filterset_status filterset_checked_set_default_filter(filterset_workspace *workspace, const uint8_t *text,
                                                                    size_t length, filterset *faults) {
    if (!workspace || !text || !faults || (void *)workspace == (void *)faults) return FILTERSET_INVALID_ARGUMENT;
    return filterset_workspace_set_default_filter(workspace, text, length, faults);
}

static inline filterset_status filterset_checked_set_depth(filterset_workspace *workspace, size_t levels) {
    if (!workspace) return FILTERSET_INVALID_ARGUMENT;
    return filterset_workspace_set_depth(workspace, levels);
}

static inline void filterset_checked_workspace_free(filterset_workspace *workspace) {
    if (workspace) filterset_workspace_free(workspace);
}

static inline filterset_status filterset_checked_parse(filterset_workspace *workspace, const uint8_t *text,
                                                       size_t length, uint8_t kind, filterset *parsed) {
    if (!workspace || !text || !parsed || (void *)workspace == (void *)parsed) return FILTERSET_INVALID_ARGUMENT;
    return filterset_parse(workspace, text, length, kind, parsed);
}

static inline filterset_status filterset_checked_matches_binary(filterset *parsed, const filterset_binary *binary,
                                                                uint8_t *answer) {
    if (!parsed || !filterset_is_binary(binary) || !answer) return FILTERSET_INVALID_ARGUMENT;
    return filterset_matches_binary(parsed, binary, answer);
}

static inline filterset_status filterset_checked_matches_test(filterset *parsed, const filterset_binary *binary,
                                                              const filterset_test *test, uint8_t *answer) {
    if (!parsed || !filterset_is_binary(binary) || !filterset_are_tests(test, 1) || !answer)
        return FILTERSET_INVALID_ARGUMENT;
    return filterset_matches_test(parsed, binary, test, answer);
}

static inline filterset_status filterset_checked_matches_tests(filterset *parsed, const filterset_binary *binary,
                                                               const filterset_test *tests, size_t test_count,
                                                               uint8_t *answers, size_t answer_count) {
    if (!parsed || !filterset_is_binary(binary) || !filterset_are_tests(tests, test_count) || !answers)
        return FILTERSET_INVALID_ARGUMENT;
    return filterset_matches_tests(parsed, binary, tests, test_count, answers, answer_count);
}

static inline filterset_status filterset_checked_needs_groups(filterset *parsed, uint8_t *answer) {
    if (!parsed || !answer) return FILTERSET_INVALID_ARGUMENT;
    return filterset_needs_groups(parsed, answer);
}

static inline filterset_status filterset_checked_print(filterset *parsed, uint8_t *room, size_t size, size_t *length) {
    if (!parsed || !room || !length) return FILTERSET_INVALID_ARGUMENT;
    return filterset_print(parsed, room, size, length);
}

static inline void filterset_checked_free(filterset *parsed) {
    if (parsed) filterset_free(parsed);
}

static inline size_t filterset_checked_fault_count(filterset *faults) {
    return faults ? filterset_fault_count(faults) : 0;
}

static inline filterset_status filterset_checked_fault_span(filterset *faults, size_t index, filterset_span *span) {
    if (!faults || !span) return FILTERSET_INVALID_ARGUMENT;
    return filterset_fault_span(faults, index, span);
}

static inline filterset_status filterset_checked_fault_text(filterset *faults, size_t index, uint8_t part,
                                                            uint8_t *room, size_t size, size_t *length) {
    if (!faults || !room || !length) return FILTERSET_INVALID_ARGUMENT;
    return filterset_fault_text(faults, index, part, room, size, length);
}

#define filterset_workspace_from_cargo_metadata(...) filterset_checked_from_cargo_metadata(__VA_ARGS__)
#define filterset_workspace_from_record(...) filterset_checked_from_record(__VA_ARGS__)
#define filterset_workspace_set_groups(...) filterset_checked_set_groups(__VA_ARGS__)
#define filterset_workspace_set_depth(...) filterset_checked_set_depth(__VA_ARGS__)
#define filterset_workspace_set_default_filter(...) filterset_checked_set_default_filter(__VA_ARGS__)
#define filterset_workspace_free(...) filterset_checked_workspace_free(__VA_ARGS__)
#define filterset_parse(...) filterset_checked_parse(__VA_ARGS__)
#define filterset_matches_binary(...) filterset_checked_matches_binary(__VA_ARGS__)
#define filterset_matches_test(...) filterset_checked_matches_test(__VA_ARGS__)
#define filterset_matches_tests(...) filterset_checked_matches_tests(__VA_ARGS__)
#define filterset_needs_groups(...) filterset_checked_needs_groups(__VA_ARGS__)
#define filterset_print(...) filterset_checked_print(__VA_ARGS__)
#define filterset_free(...) filterset_checked_free(__VA_ARGS__)
#define filterset_fault_count(...) filterset_checked_fault_count(__VA_ARGS__)
#define filterset_fault_span(...) filterset_checked_fault_span(__VA_ARGS__)
#define filterset_fault_text(...) filterset_checked_fault_text(__VA_ARGS__)

#endif

#ifdef __cplusplus
}
#endif
#endif
