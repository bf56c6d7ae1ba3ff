/* Leads a socket of ours and one of usrsctp through all scenarios, each in a process of its own: `interop`, or `interop NAME`, or
 * `interop NAME NUMBER` for one variant, whose packets INTEROP_LOUD=1 prints. */
#define _POSIX_C_SOURCE 200809L
#include "scenarios.h"
#include <stdio.h>
#include <stdlib.h>
#include <string.h>
#include <sys/wait.h>
#include <unistd.h>

static const struct scenario {
    const char *name;
    bool (*run)(uint64_t which);
    uint64_t count;
} scenarios[] = {
    {"shake_hands", shake_hands, 36},
    {"lose_one", lose_one, 2 * LOST * 6},
    {"send_sizes", send_sizes, 24},
    {"interleave", interleave, 24},
    {"give_up", give_up, 64 * 9},
    {"reset_streams", reset_streams, 2 * LOST * 12},
    {"abort_one", abort_one, 24},
    {"restart", restart, 4 * LOST * 2},
    {"come_out_of_the_blue", come_out_of_the_blue, 6},
    {"rest", rest, 12},
    {"storm", storm, 1000},
};

enum { PASSED = 0, IS_NONE = 77 };

static long workers = 1;
static unsigned passed, none, failed;

/* A variant that runs, and the file that has what it says. */
static struct child {
    pid_t process;
    const struct scenario *scenario;
    uint64_t which;
    FILE *said;
} children[64];

static void end_of(struct child *child, int status) {
    char line[512];
    int code = WIFEXITED(status) ? WEXITSTATUS(status) : -1;
    if (code == PASSED)
        passed++;
    else if (code == IS_NONE)
        none++;
    else {
        failed++;
        printf("%s %llu: ", child->scenario->name, (unsigned long long)child->which);
        if (WIFSIGNALED(status))
            printf("ended by signal %d ", WTERMSIG(status));
        rewind(child->said);
        while (fgets(line, sizeof line, child->said) != NULL)
            fputs(line, stdout);
        if (WIFSIGNALED(status))
            printf("\n");
    }
    fclose(child->said);
    child->process = 0;
}

static void wait_for_one(void) {
    int status;
    pid_t process = wait(&status);
    for (long i = 0; i < workers; i++)
        if (children[i].process == process && process > 0)
            end_of(&children[i], status);
}

static void start(const struct scenario *scenario, uint64_t which) {
    long place = 0;
    for (place = 0; place < workers && children[place].process != 0; place++)
        continue;
    if (place == workers) {
        wait_for_one();
        start(scenario, which);
        return;
    }
    struct child *child = &children[place];
    *child = (struct child){0, scenario, which, tmpfile()};
    fflush(stdout);
    child->process = fork();
    if (child->process < 0 || child->said == NULL) {
        perror("fork");
        exit(2);
    }
    if (child->process == 0) {
        dup2(fileno(child->said), STDOUT_FILENO);
        dup2(fileno(child->said), STDERR_FILENO);
        alarm(60);
        bool is_one = scenario->run(which);
        fflush(stdout);
        _Exit(is_one ? PASSED : IS_NONE);
    }
}

int main(int count, char **words) {
    workers = sysconf(_SC_NPROCESSORS_ONLN);
    workers = workers < 1 ? 1 : workers > 64 ? 64 : workers;
    for (size_t i = 0; i < sizeof scenarios / sizeof *scenarios; i++) {
        const struct scenario *scenario = &scenarios[i];
        if (1 < count && strcmp(words[1], scenario->name) != 0)
            continue;
        if (2 < count) {
            bool is_one = scenario->run(strtoull(words[2], NULL, 10));
            printf("%s\n", is_one ? "passed" : "no such variant");
            return 0;
        }
        passed = none = failed = 0;
        for (uint64_t which = 0; which < scenario->count; which++)
            start(scenario, which);
        for (long k = 0; k < workers; k++)
            while (children[k].process != 0)
                wait_for_one();
        printf("%s: %u passed, %u failed\n", scenario->name, passed, failed);
    }
    return 0;
}
