// live COUNTS K COMMAND .. -- PROGRAM ARGS: runs a program, and stops it as it begins its K-th call that names, reads or
// writes a file, while sh runs the command; K may be 0, which is no call, and there may be further pairs. If the command is
// the number of an error, the call fails with it instead. The calls of the loader, before the first of rt_sigaction, are not
// counted. The number of calls is written to the file COUNTS. The status is the program's, 124 after 30 seconds, and 125 if
// a command failed.
#define _GNU_SOURCE
#include <linux/filter.h>
#include <linux/seccomp.h>
#include <signal.h>
#include <stddef.h>
#include <stdio.h>
#include <stdlib.h>
#include <string.h>
#include <sys/prctl.h>
#include <sys/ptrace.h>
#include <sys/syscall.h>
#include <sys/user.h>
#include <sys/wait.h>
#include <unistd.h>

// The calls before which the program stops; the first is none of files.
static const unsigned calls[] = {
    SYS_rt_sigaction, SYS_open, SYS_openat, SYS_stat, SYS_lstat, SYS_fstat, SYS_newfstatat, SYS_statx, SYS_getdents64,
    SYS_read, SYS_pread64, SYS_lseek, SYS_readlink, SYS_readlinkat, SYS_getcwd, SYS_write, SYS_exit_group,
};
enum { CALLS = sizeof calls / sizeof *calls };

static pid_t program;

static void end_late(int number) {
    (void)number;
    kill(program, SIGKILL);
    _exit(124);
}

// Has the kernel stop this process before these calls, with the place of the call as a message, and before no other.
static int stop_before_calls(void) {
    struct sock_filter filter[2 * CALLS + 2] = {BPF_STMT(BPF_LD | BPF_W | BPF_ABS, offsetof(struct seccomp_data, nr))};
    for (unsigned at = 0; at < CALLS; at++) {
        filter[2 * at + 1] = (struct sock_filter)BPF_JUMP(BPF_JMP | BPF_JEQ | BPF_K, calls[at], 0, 1);
        filter[2 * at + 2] = (struct sock_filter)BPF_STMT(BPF_RET | BPF_K, SECCOMP_RET_TRACE | at);
    }
    filter[2 * CALLS + 1] = (struct sock_filter)BPF_STMT(BPF_RET | BPF_K, SECCOMP_RET_ALLOW);
    struct sock_fprog all = {2 * CALLS + 2, filter};
    return prctl(PR_SET_NO_NEW_PRIVS, 1, 0, 0, 0) == 0 && prctl(PR_SET_SECCOMP, SECCOMP_MODE_FILTER, &all) == 0;
}

// Makes the call that begins fail with an error. Returns whether that failed.
static int refuse(long error) {
    struct user_regs_struct registers;
    if (ptrace(PTRACE_GETREGS, program, 0, &registers) != 0) return 1;
    registers.orig_rax = -1;
    registers.rax = -error;
    return ptrace(PTRACE_SETREGS, program, 0, &registers) != 0;
}

int main(int words, char **word) {
    int last = 2;
    while (last < words && strcmp(word[last], "--") != 0) last++;
    if (last + 1 >= words || last % 2 != 0) return 125;
    program = fork();
    if (program == 0) {
        ptrace(PTRACE_TRACEME, 0, 0, 0);
        raise(SIGSTOP);
        if (stop_before_calls()) execvp(word[last + 1], word + last + 1);
        _exit(127);
    }
    signal(SIGALRM, end_late);
    alarm(30);
    int status, is_started = 0, failed = 0;
    long sent = 0, count = 0;
    waitpid(program, &status, 0);
    ptrace(PTRACE_SETOPTIONS, program, 0, PTRACE_O_EXITKILL | PTRACE_O_TRACESECCOMP);
    while (ptrace(PTRACE_CONT, program, 0, sent) == 0 && waitpid(program, &status, 0) > 0 && WIFSTOPPED(status)) {
        sent = 0;
        if (status >> 8 == (SIGTRAP | (PTRACE_EVENT_SECCOMP << 8))) {
            unsigned long call = 0;
            ptrace(PTRACE_GETEVENTMSG, program, 0, &call);
            is_started |= call == 0;
            if (!is_started || call == 0) continue;
            count++;
            for (int at = 2; at < last; at += 2) {
                long error = atol(word[at + 1]);
                if (atol(word[at]) == count) failed |= error > 0 ? refuse(error) : system(word[at + 1]) != 0;
            }
        } else if (WSTOPSIG(status) != SIGTRAP && WSTOPSIG(status) != SIGSTOP) {
            sent = WSTOPSIG(status);
        }
    }
    FILE *counts = fopen(word[1], "w");
    if (counts == NULL || fprintf(counts, "%ld\n", count) < 0 || fclose(counts) != 0 || failed) return 125;
    return WIFEXITED(status) ? WEXITSTATUS(status) : 128 + WTERMSIG(status);
}
