// Runs a program once for each job: run_jobs PROGRAM. Standard input holds the jobs: 4 bytes the length, 4 bytes the size of the pieces
// in which it is written (0: whole, before the program starts), then the job, at most 60,000 bytes. For each job standard output
// gets 4 bytes the exit status (256 and the signal where one ended it, 1,000 where it did not end within 20 s), 4 bytes a length, and
// what the program wrote to its standard output and standard error together. Numbers are in the machine's order of bytes.
#define _GNU_SOURCE
#include <fcntl.h>
#include <poll.h>
#include <signal.h>
#include <spawn.h>
#include <stdint.h>
#include <stdio.h>
#include <stdlib.h>
#include <sys/wait.h>
#include <unistd.h>

enum { LONGEST = 60000, ROOM = 65536, TIMEOUT_MS = 20000, NOT_ENDED = 1000 };

static void fail(const char *what) {
    perror(what);
    exit(2);
}

static void write_whole(int fd, const uint8_t *bytes, size_t length, size_t piece) {
    for (size_t at = 0; at < length; at += piece) {
        size_t count = length - at < piece ? length - at : piece;
        if (write(fd, bytes + at, count) != (ssize_t)count) break; // the program has ended before it read all
        if (count < length) sched_yield();
    }
    close(fd);
}

// Starts the program with these ends of pipes.
static pid_t start(char *program, int input, int output) {
    posix_spawn_file_actions_t actions;
    char *arguments[] = {program, NULL}, *environment[] = {NULL};
    pid_t pid;
    posix_spawn_file_actions_init(&actions);
    posix_spawn_file_actions_adddup2(&actions, input, 0);
    posix_spawn_file_actions_adddup2(&actions, output, 1);
    posix_spawn_file_actions_adddup2(&actions, output, 2);
    if (posix_spawn(&pid, program, &actions, NULL, arguments, environment)) fail(program);
    posix_spawn_file_actions_destroy(&actions);
    return pid;
}

// What the program writes, up to its end; whether it ended in time.
static int read_output(int fd, uint8_t *bytes, uint32_t *length) {
    struct pollfd wait_for = {fd, POLLIN, 0};
    for (*length = 0;;) {
        if (poll(&wait_for, 1, TIMEOUT_MS) <= 0) return 0;
        ssize_t got = *length < ROOM ? read(fd, bytes + *length, ROOM - *length) : 0;
        if (got <= 0) return 1;
        *length += got;
    }
}

static uint32_t run(char *program, const uint8_t *job, uint32_t length, uint32_t piece, uint8_t *text, uint32_t *text_length) {
    int input[2], output[2], status;
    if (pipe2(input, O_CLOEXEC) || pipe2(output, O_CLOEXEC)) fail("pipe");
    if (piece == 0) write_whole(input[1], job, length, LONGEST);
    pid_t pid = start(program, input[0], output[1]);
    close(input[0]);
    close(output[1]);
    if (piece != 0) write_whole(input[1], job, length, piece);
    int ended = read_output(output[0], text, text_length);
    close(output[0]);
    if (!ended) kill(pid, SIGKILL);
    if (waitpid(pid, &status, 0) != pid) fail("waitpid");
    if (!ended) return NOT_ENDED;
    return WIFEXITED(status) ? WEXITSTATUS(status) : 256 + WTERMSIG(status);
}

int main(int count, char **arguments) {
    static uint8_t job[LONGEST], text[ROOM];
    uint32_t head[2];
    if (count != 2) {
        fprintf(stderr, "usage: run_jobs PROGRAM\n");
        return 2;
    }
    signal(SIGPIPE, SIG_IGN);
    while (fread(head, sizeof head, 1, stdin) == 1) {
        if (head[0] > LONGEST || fread(job, 1, head[0], stdin) != head[0]) {
            fprintf(stderr, "run_jobs: a job is too long or cut off\n");
            return 2;
        }
        uint32_t reply[2];
        reply[0] = run(arguments[1], job, head[0], head[1], text, &reply[1]);
        fwrite(reply, sizeof reply, 1, stdout);
        fwrite(text, 1, reply[1], stdout);
    }
    return fflush(stdout) ? 2 : 0;
}
