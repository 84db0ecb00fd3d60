/* Calls the functions with wrong arguments, one and several at a time. Prints each status that is not the header's. */
#include "filterset.h"
#include <stdio.h>
#include <string.h>

static int failures = 0;

static void check(const char *what, unsigned status, unsigned wanted) {
    if (status == wanted) return;
    printf("%s: %u, not %u\n", what, status, wanted);
    failures++;
}

static const uint8_t not_utf8[] = {'a', 0xff};
static const filterset_text bad = {not_utf8, 2};

static const uint8_t *bytes(const char *text) { return (const uint8_t *)text; }

static filterset_workspace workspace = {0};
static filterset parsed = {0}, faults = {0}, empty = {0};

/* Texts from which no workspace is made. */
static void try_sources(void) {
    const char *const record = "{\"filtersets\": []}";
    filterset_workspace made = {0};
    check("a record", filterset_workspace_from_record(bytes(record), strlen(record), &workspace), FILTERSET_OK);
    check("no JSON", filterset_workspace_from_record(bytes("{"), 1, &made), FILTERSET_REJECTED);
    check("no record", filterset_workspace_from_record(bytes("[]"), 2, &made), FILTERSET_REJECTED);
    check("no UTF-8", filterset_workspace_from_record(not_utf8, 2, &made), FILTERSET_NOT_UTF8);
    check("no bytes", filterset_workspace_from_record(bytes(""), 0, &made), FILTERSET_REJECTED);
    check("null", filterset_workspace_from_record(NULL, 0, &made), FILTERSET_INVALID_ARGUMENT);
    check("null with a length", filterset_workspace_from_record(NULL, 7, &made), FILTERSET_INVALID_ARGUMENT);
    check("no handle", filterset_workspace_from_record(bytes("{}"), 2, NULL), FILTERSET_INVALID_ARGUMENT);
    check("metadata: no JSON", filterset_workspace_from_cargo_metadata(bytes("}"), 1, &made), FILTERSET_REJECTED);
    check("metadata: no object", filterset_workspace_from_cargo_metadata(bytes("1"), 1, &made), FILTERSET_REJECTED);
    check("metadata: no UTF-8", filterset_workspace_from_cargo_metadata(not_utf8, 2, &made), FILTERSET_NOT_UTF8);
    check("nothing was made", made.held != NULL, 0);
}

static void try_workspaces(void) {
    filterset_text names[2];
    names[0] = filterset_text_of("serial");
    names[1] = bad;
    check("groups", filterset_workspace_set_groups(&workspace, names, 1), FILTERSET_OK);
    check("a group that is no UTF-8", filterset_workspace_set_groups(&workspace, names, 2), FILTERSET_NOT_UTF8);
    check("groups of faults", filterset_workspace_set_groups((filterset_workspace *)&faults, names, 2), FILTERSET_WRONG_HANDLE);
    check("groups: null", filterset_workspace_set_groups(&workspace, NULL, 0), FILTERSET_INVALID_ARGUMENT);
    check("levels of an empty handle", filterset_workspace_set_depth((filterset_workspace *)&empty, 1), FILTERSET_WRONG_HANDLE);
    check("a default filter", filterset_workspace_set_default_filter(&workspace, bytes("all()"), 5, &faults), FILTERSET_OK);
    check("a default filter of faults", filterset_workspace_set_default_filter((filterset_workspace *)&empty, not_utf8, 2, &faults), FILTERSET_WRONG_HANDLE);
    check("a default filter that is no UTF-8", filterset_workspace_set_default_filter(&workspace, not_utf8, 2, &faults), FILTERSET_NOT_UTF8);
    check("a default filter with faults", filterset_workspace_set_default_filter(&workspace, bytes("default()"), 9, &faults), FILTERSET_REJECTED);
    check("one handle twice", filterset_workspace_set_default_filter(&workspace, bytes("all()"), 5, (filterset *)&workspace), FILTERSET_INVALID_ARGUMENT);
}

static void try_parsing(void) {
    check("a filterset", filterset_parse(&workspace, bytes("test(a)"), 7, FILTERSET_KIND_TEST, &parsed), FILTERSET_OK);
    check("no kind, no UTF-8, no workspace", filterset_parse((filterset_workspace *)&parsed, not_utf8, 2, 9, &empty), FILTERSET_WRONG_HANDLE);
    check("no kind, no UTF-8", filterset_parse(&workspace, not_utf8, 2, 4, &empty), FILTERSET_INVALID_ARGUMENT);
    check("no UTF-8", filterset_parse(&workspace, not_utf8, 2, FILTERSET_KIND_TEST, &empty), FILTERSET_NOT_UTF8);
    check("a null text", filterset_parse(&workspace, NULL, 3, FILTERSET_KIND_TEST, &empty), FILTERSET_INVALID_ARGUMENT);
    check("nothing was stored", empty.held != NULL, 0);
    check("faults", filterset_parse(&workspace, bytes("test("), 5, FILTERSET_KIND_TEST, &faults), FILTERSET_REJECTED);
}

static void try_questions(void) {
    filterset_binary binary = {filterset_text_of("p"), filterset_text_of("p"), filterset_text_of("p"), filterset_text_of("lib"), 0};
    filterset_test tests[2];
    uint8_t answer = 7, answers[2] = {7, 7};
    tests[0].name = filterset_text_of("a");
    tests[0].group = filterset_text_of("@global");
    tests[1] = tests[0];
    check("a test", filterset_matches_test(&parsed, &binary, tests, &answer), FILTERSET_OK);
    check("its answer", answer, FILTERSET_YES);
    answer = 7;
    tests[1].group = bad;
    binary.platform = 2;
    binary.kind = bad;
    check("faults are asked", filterset_matches_test(&faults, &binary, &tests[1], &answer), FILTERSET_WRONG_HANDLE);
    check("no platform, no UTF-8", filterset_matches_test(&parsed, &binary, &tests[1], &answer), FILTERSET_INVALID_ARGUMENT);
    check("a binary: no platform, no UTF-8", filterset_matches_binary(&parsed, &binary, &answer), FILTERSET_INVALID_ARGUMENT);
    check("all tests: no platform, no UTF-8", filterset_matches_tests(&parsed, &binary, tests, 2, answers, 2), FILTERSET_INVALID_ARGUMENT);
    check("all tests: counts", filterset_matches_tests(&parsed, &binary, tests, 2, answers, 1), FILTERSET_INVALID_ARGUMENT);
    check("all tests: the handle first", filterset_matches_tests(&empty, &binary, tests, 2, answers, 1), FILTERSET_WRONG_HANDLE);
    binary.platform = 0;
    check("a binary: no UTF-8", filterset_matches_binary(&parsed, &binary, &answer), FILTERSET_NOT_UTF8);
    binary.kind = filterset_text_of("lib");
    check("a group that is no UTF-8", filterset_matches_test(&parsed, &binary, &tests[1], &answer), FILTERSET_NOT_UTF8);
    check("the last test is no UTF-8", filterset_matches_tests(&parsed, &binary, tests, 2, answers, 2), FILTERSET_NOT_UTF8);
    check("nothing was written", answer == 7 && answers[0] == 7 && answers[1] == 7, 1);
    binary.name.bytes = NULL;
    check("a null name", filterset_matches_binary(&parsed, &binary, &answer), FILTERSET_INVALID_ARGUMENT);
    check("no answer", filterset_needs_groups(&parsed, NULL), FILTERSET_INVALID_ARGUMENT);
    check("groups of faults", filterset_needs_groups(&faults, &answer), FILTERSET_WRONG_HANDLE);
    check("a workspace is asked", filterset_needs_groups((filterset *)&workspace, &answer), FILTERSET_WRONG_HANDLE);
}

static void try_faults(void) {
    filterset_span span = {1, 2};
    uint8_t room[8];
    size_t length = 3;
    check("a span", filterset_fault_span(&faults, 0, &span), FILTERSET_OK);
    check("no such fault", filterset_fault_span(&faults, 99, &span), FILTERSET_INVALID_ARGUMENT);
    check("a filterset has no faults", filterset_fault_span(&parsed, 0, &span), FILTERSET_INVALID_ARGUMENT);
    check("an empty handle", filterset_fault_span(&empty, 0, &span), FILTERSET_WRONG_HANDLE);
    check("no such text", filterset_fault_text(&faults, 0, 3, room, 8, &length), FILTERSET_INVALID_ARGUMENT);
    check("a text of no fault", filterset_fault_text(&faults, 99, 0, room, 8, &length), FILTERSET_INVALID_ARGUMENT);
    check("a text of an empty handle", filterset_fault_text(&empty, 99, 3, room, 8, &length), FILTERSET_WRONG_HANDLE);
    check("the length is kept", (unsigned)length, 3);
    check("a print of faults", filterset_print(&faults, room, 8, &length), FILTERSET_WRONG_HANDLE);
    check("faults of a workspace", (unsigned)filterset_fault_count((filterset *)&workspace), 0);
}

int main(void) {
    check("the version", filterset_version(), FILTERSET_VERSION);
    try_sources();
    try_workspaces();
    try_parsing();
    try_questions();
    try_faults();
    filterset_free(&parsed);
    check("it is freed", parsed.held != NULL, 0);
    filterset_free(&faults);
    filterset_free(&empty);
    filterset_free(NULL);
    filterset_workspace_free(&workspace);
    return failures != 0;
}
