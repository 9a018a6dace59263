/* trace kill N PROGRAM WORDS..: runs the program and kills it at the start of its Nth system call, counted from 0.
   trace fail N ERROR PROGRAM WORDS..: makes its Nth system call fail with that error number; N may be a name of the
   list below, a colon and a number, as in fsync:1, and then only calls of that name count.
   trace hold N FILE PROGRAM WORDS..: before that call makes the file, and lets the call go on when the file is gone.
   trace list FILE PROGRAM WORDS..: writes to the file each call that changes names or brings bytes to the disk.
   Only the program itself is traced, not the programs that it starts.
   Exit status: the program's own; 125 killed here; 126 no such call was reached (kill, fail, hold); 127 not run or
   traced. */
#define _GNU_SOURCE
#include <elf.h>
#include <fcntl.h>
#include <signal.h>
#include <stdint.h>
#include <stdio.h>
#include <stdlib.h>
#include <string.h>
#include <sys/ptrace.h>
#include <sys/syscall.h>
#include <sys/types.h>
#include <sys/uio.h>
#include <sys/user.h>
#include <sys/wait.h>
#include <unistd.h>

enum { KILLED = 125, NOT_REACHED = 126, NOT_RUN = 127 };

/* The place in the list below of an opening that makes a file without a name. */
enum { UNNAMED = 0 };

/* What is known of a call: its name, and where its words stand; -1 for none. */
static const struct call {
    long number;
    const char *name;
    int file, old, new;
} calls[] = {
    {SYS_openat, "unnamed", -1, -1, 1},
    {SYS_flock, "flock", 0, -1, -1},
    {SYS_fsync, "fsync", 0, -1, -1},
    {SYS_fdatasync, "fdatasync", 0, -1, -1},
    {SYS_linkat, "linkat", -1, -1, 3},
    {SYS_renameat, "rename", -1, 1, 3},
    {SYS_renameat2, "rename", -1, 1, 3},
    {SYS_unlinkat, "unlink", -1, -1, 1},
#ifdef SYS_rename
    {SYS_rename, "rename", -1, 0, 1},
    {SYS_unlink, "unlink", -1, -1, 0},
#endif
};

/* Makes the call that is about to start no call at all. */
static void skip(pid_t child) {
#if defined(__aarch64__)
    int none = -1;
    struct iovec part = {&none, sizeof none};
    ptrace(PTRACE_SETREGSET, child, (void *)NT_ARM_SYSTEM_CALL, &part);
#else
    struct user_regs_struct regs;
    ptrace(PTRACE_GETREGS, child, NULL, &regs);
    regs.orig_rax = (unsigned long long)-1;
    ptrace(PTRACE_SETREGS, child, NULL, &regs);
#endif
}

/* Sets what the call that has ended gave back. */
static void give(pid_t child, long value) {
#if defined(__aarch64__)
    struct user_regs_struct regs;
    struct iovec part = {&regs, sizeof regs};
    ptrace(PTRACE_GETREGSET, child, (void *)NT_PRSTATUS, &part);
    regs.regs[0] = (unsigned long long)value;
    ptrace(PTRACE_SETREGSET, child, (void *)NT_PRSTATUS, &part);
#else
    struct user_regs_struct regs;
    ptrace(PTRACE_GETREGS, child, NULL, &regs);
    regs.rax = (unsigned long long)value;
    ptrace(PTRACE_SETREGS, child, NULL, &regs);
#endif
}

/* Writes a text of the program's memory. */
static void put_text(FILE *list, pid_t child, uint64_t at) {
    char name[32], text[4096] = "";
    snprintf(name, sizeof name, "/proc/%d/mem", (int)child);
    int memory = open(name, O_RDONLY);
    ssize_t got = pread(memory, text, sizeof text - 1, (off_t)at);
    close(memory);
    text[got > 0 ? got : 0] = 0;
    fprintf(list, " %s", text);
}

/* Writes the path of one of the program's open files. */
static void put_file(FILE *list, pid_t child, uint64_t number) {
    char name[64], path[4096];
    snprintf(name, sizeof name, "/proc/%d/fd/%d", (int)child, (int)number);
    ssize_t got = readlink(name, path, sizeof path - 1);
    path[got > 0 ? got : 0] = 0;
    fprintf(list, " %s", path);
}

/* The call that starts, where it is one of the list. */
static const struct call *known(const struct __ptrace_syscall_info *now) {
    for (size_t i = 0; i < sizeof calls / sizeof *calls; i++)
        if ((long)now->entry.nr == calls[i].number)
            return i == UNNAMED && (now->entry.args[2] & O_TMPFILE) != O_TMPFILE ? NULL : &calls[i];
    return NULL;
}

/* Writes the call that starts, where it is one of the list. */
static void put_call(FILE *list, pid_t child, const struct __ptrace_syscall_info *now) {
    const struct call *call = known(now);
    if (!call)
        return;
    fprintf(list, "%s", call->name);
    if (call->file >= 0)
        put_file(list, child, now->entry.args[call->file]);
    if (call->old >= 0)
        put_text(list, child, now->entry.args[call->old]);
    if (call->new >= 0)
        put_text(list, child, now->entry.args[call->new]);
    fprintf(list, "\n");
}

/* Whether the call that starts is one that counts: all do, or those of the name before a colon. */
static int counts(const char *which, const struct __ptrace_syscall_info *now) {
    const char *colon = strchr(which, ':');
    const struct call *call = known(now);
    return !colon || (call && strlen(call->name) == (size_t)(colon - which) && !strncmp(call->name, which, colon - which));
}

/* Makes the file, and waits until it is gone. */
static void wait_at(const char *name) {
    close(open(name, O_CREAT | O_WRONLY | O_CLOEXEC, 0600));
    while (access(name, F_OK) == 0)
        usleep(1000);
}

/* What is to be done, at which call, and what has come of it. */
struct task {
    char mode;
    const char *which, *word;
    long left;
    FILE *list;
    int reached, failing;
};

/* Starts the program, and stops it before its first call; 0 where it does not run. */
static pid_t started(char **program) {
    int state;
    pid_t child = fork();
    if (child == 0) {
        ptrace(PTRACE_TRACEME, 0, NULL, NULL);
        execv(program[0], program);
        _exit(NOT_RUN);
    }
    if (waitpid(child, &state, 0) != child || !WIFSTOPPED(state))
        return 0;
    ptrace(PTRACE_SETOPTIONS, child, NULL, PTRACE_O_TRACESYSGOOD | PTRACE_O_EXITKILL);
    return child;
}

/* Lets the program run until a call starts or ends: -1, or the exit status where the program has ended. */
static int run(pid_t child, struct __ptrace_syscall_info *now) {
    for (int state, deliver = 0;;) {
        ptrace(PTRACE_SYSCALL, child, NULL, deliver);
        if (waitpid(child, &state, 0) != child)
            return NOT_RUN;
        if (WIFEXITED(state))
            return WEXITSTATUS(state);
        if (WIFSIGNALED(state))
            return 128 + WTERMSIG(state);
        if (WSTOPSIG(state) == (SIGTRAP | 0x80))
            break;
        deliver = WSTOPSIG(state) == SIGTRAP ? 0 : WSTOPSIG(state);
    }
    ptrace(PTRACE_GET_SYSCALL_INFO, child, sizeof *now, now);
    return -1;
}

/* Does to the call that starts what the task says. */
static void act(struct task *task, pid_t child, const struct __ptrace_syscall_info *now) {
    if (task->mode == 'l')
        put_call(task->list, child, now);
    if (task->mode == 'l' || !counts(task->which, now) || task->left-- != 0)
        return;
    task->reached = 1;
    if (task->mode == 'h')
        wait_at(task->word);
    if (task->mode == 'k')
        kill(child, SIGKILL);
    if (task->mode != 'f')
        return;
    /* A file that fails to close is closed all the same. */
    if (now->entry.nr != SYS_close)
        skip(child);
    task->failing = 1;
}

int main(int count, char **words) {
    if (count < 4)
        return NOT_RUN;
    const char *colon = strchr(words[2], ':');
    struct task task = {.mode = words[1][0], .which = words[2], .word = words[3], .left = atol(colon ? colon + 1 : words[2])};
    task.list = task.mode == 'l' ? fopen(words[2], "we") : NULL;
    pid_t child = started(words + (task.mode == 'f' || task.mode == 'h' ? 4 : 3));
    struct __ptrace_syscall_info now;
    int status = child ? run(child, &now) : NOT_RUN;
    for (; status == -1; status = run(child, &now)) {
        if (now.op == PTRACE_SYSCALL_INFO_EXIT && task.failing) {
            give(child, -atol(task.word));
            task.failing = 0;
        }
        if (now.op == PTRACE_SYSCALL_INFO_ENTRY)
            act(&task, child, &now);
    }
    if (task.mode == 'l' || !child)
        return status;
    return !task.reached ? NOT_REACHED : task.mode == 'k' ? KILLED : status;
}
