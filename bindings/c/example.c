/* Parses filtersets against what `cargo metadata` writes, and asks them about tests.
 * Usage: example METADATA.json FILTERSET.. */
#include "filterset.h"
#include <stdio.h>
#include <stdlib.h>

/* Reads a whole file. Returns null if that fails. */
static uint8_t *read_file(const char *path, size_t *length) {
    FILE *file = fopen(path, "rb");
    uint8_t *bytes = NULL;
    long size;
    if (!file) return NULL;
    if (fseek(file, 0, SEEK_END) == 0 && (size = ftell(file)) >= 0 && fseek(file, 0, SEEK_SET) == 0 &&
        (bytes = malloc((size_t)size + 1)) != NULL) {
        *length = fread(bytes, 1, (size_t)size, file);
        if (ferror(file) || *length != (size_t)size) {
            free(bytes);
            bytes = NULL;
        }
    }
    fclose(file);
    return bytes;
}

/* Prints the faults of a rejected text. */
static filterset_status print_faults(filterset *rejected) {
    size_t count = filterset_fault_count(rejected), i;
    for (i = 0; i < count; i++) {
        filterset_span span;
        uint8_t code[64], label[512];
        size_t code_length, label_length;
        filterset_status status = filterset_fault_span(rejected, i, &span);
        if (!status) status = filterset_fault_text(rejected, i, FILTERSET_FAULT_CODE, code, sizeof code, &code_length);
        if (!status) status = filterset_fault_text(rejected, i, FILTERSET_FAULT_LABEL, label, sizeof label, &label_length);
        if (status) return status;
        if (code_length > sizeof code) code_length = sizeof code;
        if (label_length > sizeof label) label_length = sizeof label;
        printf("  %zu, %zu: %.*s: %.*s\n", span.offset, span.length, (int)code_length, (char *)code, (int)label_length,
               (char *)label);
    }
    return FILTERSET_OK;
}

/* Prints which tests of a binary the filterset matches. If the binary decides that, its tests are not asked about. */
static filterset_status print_answers(filterset *parsed) {
    const filterset_binary binary = {
        filterset_text_of("path+file:///w/parser#0.1.0"), filterset_text_of("parser"), filterset_text_of("parser"),
        filterset_text_of("lib"), FILTERSET_PLATFORM_TARGET};
    const filterset_test tests[] = {{filterset_text_of("tests::deep"), filterset_text_of("@global")},
                                    {filterset_text_of("tests::slow_sum"), filterset_text_of("serial")}};
    uint8_t answer, answers[2];
    filterset_status status = filterset_matches_binary(parsed, &binary, &answer);
    size_t i;
    if (status) return status;
    if (answer != FILTERSET_UNKNOWN) {
        printf("  %s\n", answer == FILTERSET_YES ? "all tests" : "no test");
        return FILTERSET_OK;
    }
    status = filterset_matches_tests(parsed, &binary, tests, 2, answers, 2);
    if (status) return status;
    for (i = 0; i < 2; i++)
        printf("  %.*s: %s\n", (int)tests[i].name.length, (const char *)tests[i].name.bytes, answers[i] ? "yes" : "no");
    return FILTERSET_OK;
}

int main(int argc, char **argv) {
    filterset_workspace workspace = {0};
    filterset parsed = {0};
    const filterset_text groups[] = {filterset_text_of("serial")};
    filterset_status status = FILTERSET_OK;
    size_t length = 0;
    uint8_t *metadata = argc > 1 ? read_file(argv[1], &length) : NULL;
    int i;
    if (!metadata) {
        fprintf(stderr, "usage: example METADATA.json FILTERSET..\n");
        return 2;
    }
    status = filterset_workspace_from_cargo_metadata(metadata, length, &workspace);
    free(metadata);
    if (!status) status = filterset_workspace_set_groups(&workspace, groups, 1);
    for (i = 2; i < argc && !status; i++) {
        filterset_text text = filterset_text_of(argv[i]);
        printf("%s\n", argv[i]);
        status = filterset_parse(&workspace, text.bytes, text.length, FILTERSET_KIND_TEST, &parsed);
        if (status == FILTERSET_REJECTED)
            status = print_faults(&parsed);
        else if (!status)
            status = print_answers(&parsed);
    }
    filterset_free(&parsed);
    filterset_workspace_free(&workspace);
    if (status) fprintf(stderr, "status %d\n", status);
    return status ? 1 : 0;
}
