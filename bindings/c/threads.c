/* Asks filtersets of one workspace, which has a default filter, on several threads at the same time. */
#include "filterset.h"
#include <pthread.h>
#include <stdio.h>
#include <string.h>

enum { THREADS = 4, ROUNDS = 20 };

static const char *const record =
    "{\"filtersets\": [], \"packages\": [{\"id\": \"p\", \"name\": \"p\", \"targets\": [{\"kind\": \"lib\", \"name\": \"p\"}]}]}";
static const char *const filter = "test(#*case_*) and not test(/slow_[0-9]+$/)";
static const char *const text = "default() and test(/^tests::(deep|flat)/) or package(p) and test(=tests::slow_1)";

static const char *const names[] = {"tests::deep::case_1", "tests::deep::case_slow_12", "tests::slow_1", "other::case_1"};
static const uint8_t wanted[] = {FILTERSET_YES, FILTERSET_NO, FILTERSET_YES, FILTERSET_NO};

typedef struct worker {
    pthread_t thread;
    filterset parsed;
    int failed;
} worker;

/* Asks one filterset in all ways, and frees it. */
static void *work(void *given) {
    worker *own = (worker *)given;
    const filterset_binary binary = {filterset_text_of("p"), filterset_text_of("p"), filterset_text_of("p"),
                                     filterset_text_of("lib"), FILTERSET_PLATFORM_TARGET};
    filterset_test tests[4];
    int round, i;
    for (i = 0; i < 4; i++) {
        tests[i].name = filterset_text_of(names[i]);
        tests[i].group = filterset_text_of("@global");
    }
    for (round = 0; round < ROUNDS; round++) {
        uint8_t answers[4], answer;
        if (filterset_matches_tests(&own->parsed, &binary, tests, 4, answers, 4) || memcmp(answers, wanted, 4)) own->failed = 1;
        for (i = 0; i < 4; i++)
            if (filterset_matches_test(&own->parsed, &binary, &tests[i], &answer) || answer != wanted[i]) own->failed = 1;
        if (filterset_matches_binary(&own->parsed, &binary, &answer) || answer != FILTERSET_UNKNOWN) own->failed = 1;
    }
    filterset_free(&own->parsed);
    return NULL;
}

static filterset_status parse(filterset_workspace *workspace, filterset *parsed) {
    return filterset_parse(workspace, (const uint8_t *)text, strlen(text), FILTERSET_KIND_TEST, parsed);
}

int main(void) {
    int failed = 0, i;
    filterset_workspace workspace = {0};
    filterset parsed = {0};
    worker workers[THREADS];
    filterset_status status;
    memset(workers, 0, sizeof workers);
    status = filterset_workspace_from_record((const uint8_t *)record, strlen(record), &workspace);
    if (!status)
        status = filterset_workspace_set_default_filter(&workspace, (const uint8_t *)filter, strlen(filter), &parsed);
    for (i = 0; i < THREADS && !status; i++) status = parse(&workspace, &workers[i].parsed);
    if (status) {
        fprintf(stderr, "status %d\n", status);
        return 1;
    }
    for (i = 0; i < THREADS; i++)
        if (pthread_create(&workers[i].thread, NULL, work, &workers[i])) return 2;
    /* (meanwhile this thread parses and frees) */
    for (i = 0; i < ROUNDS; i++)
        if (parse(&workspace, &parsed)) failed = 1;
    for (i = 0; i < THREADS; i++) {
        pthread_join(workers[i].thread, NULL);
        failed |= workers[i].failed;
    }
    filterset_free(&parsed);
    filterset_workspace_free(&workspace);
    puts(failed ? "a wrong answer" : "all answers are right");
    return failed;
}
