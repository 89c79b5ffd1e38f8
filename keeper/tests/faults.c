/* Faults for the tests of keeper. Loaded by LD_PRELOAD, it wraps the calls by which Rust's library reads and writes
   files, and strikes one of them:

     FAULT="CALL NTH DEED NUMBER FILES"   the NTH time that CALL is about one of FILES, a pattern of names in the folder
                                          that the program is started in; "." is the folder
     SECOND_FAULT                         one more
     FAULT_COMMAND                        what `run` runs
     FAULT_LOG                            a file that gets a line for each call that was struck: the call, the name

     DEED   fail   the call does nothing, and fails with the error NUMBER
            short  the write takes half of the bytes, and the next one fails with the error NUMBER
            kill   the program is killed before the call
            after  the program is killed behind the call
            run    a command is run behind the call */
#define _GNU_SOURCE
#include <dirent.h>
#include <dlfcn.h>
#include <errno.h>
#include <fnmatch.h>
#include <limits.h>
#include <signal.h>
#include <stdatomic.h>
#include <stdio.h>
#include <stdlib.h>
#include <string.h>
#include <unistd.h>

static struct fault {
    char call[16], deed[16], files[256];
    int nth, number;
    atomic_int calls;
} faults[2];

static char folder[PATH_MAX];

__attribute__((constructor)) static void read_faults(void)
{
    const char *texts[] = {getenv("FAULT"), getenv("SECOND_FAULT")};
    if (!getcwd(folder, sizeof folder)) abort();
    for (int i = 0; i < 2; i++) {
        struct fault *f = &faults[i];
        if (texts[i] &&
            sscanf(texts[i], "%15s %d %15s %d %255s", f->call, &f->nth, f->deed, &f->number, f->files) != 5) abort();
    }
}

/* The path of an open file. Standard output and standard error, pipes and the like are none: they count as "/". */
static const char *opened(int file)
{
    static _Thread_local char path[PATH_MAX];
    char link[32];
    snprintf(link, sizeof link, "/proc/self/fd/%d", file);
    ssize_t n = file > 2 ? readlink(link, path, sizeof path - 1) : 0;
    path[n > 0 ? n : 0] = 0;
    return path[0] == '/' ? path : "/";
}

/* The name of a file in the folder; NULL for any other file. */
static const char *name_of(const char *path)
{
    size_t n = strlen(folder);
    if (path[0] == '/') {
        if (strncmp(path, folder, n) || (path[n] && path[n] != '/')) return NULL;
        path += n + (path[n] == '/');
    }
    if (!strncmp(path, "./", 2)) path += 2;
    return *path ? path : ".";
}

static int is(const struct fault *fault, const char *deed)
{
    return fault && !strcmp(fault->deed, deed);
}

/* The fault that is due at a call, if one is. */
static struct fault *due(const char *call, const char *path)
{
    const char *name = name_of(path), *log = getenv("FAULT_LOG");
    for (struct fault *fault = faults; name && fault < faults + 2; fault++) {
        if (strcmp(call, fault->call) || fnmatch(fault->files, name, 0) || ++fault->calls != fault->nth) continue;
        FILE *lines = log ? fopen(log, "a") : NULL;
        if (!lines) abort();
        fprintf(lines, "%s %s\n", call, name);
        fclose(lines);
        return fault;
    }
    return NULL;
}

/* Before a call: whether it has to fail. */
static int fails(const struct fault *fault)
{
    if (is(fault, "kill")) kill(getpid(), SIGKILL);
    if (is(fault, "fail")) errno = fault->number;
    return is(fault, "fail");
}

/* Behind a call. */
static void follow(const struct fault *fault)
{
    int number = errno;
    if (is(fault, "after")) kill(getpid(), SIGKILL);
    if (is(fault, "run")) {
        unsetenv("LD_PRELOAD");
        if (system(getenv("FAULT_COMMAND"))) abort();
    }
    errno = number;
}

/* How many bytes a write takes. */
static size_t taken(struct fault *fault, size_t bytes)
{
    if (!is(fault, "short")) return bytes;
    strcpy(fault->deed, "fail");
    fault->nth++;
    return bytes / 2;
}

#define WRAP(type, call, parameters, arguments, path, failure)                          \
    type call parameters                                                                \
    {                                                                                   \
        type(*real) parameters = (type(*) parameters)dlsym(RTLD_NEXT, #call);           \
        struct fault *fault = due(#call, path);                                         \
        if (fails(fault)) return failure;                                               \
        type answer = real arguments;                                                   \
        follow(fault);                                                                  \
        return answer;                                                                  \
    }

/* Without <fcntl.h>, so that the mode can be handed on: Rust's library always gives one. Without <sys/stat.h>, since
   Rust's library asks with no path whether there is a call statx at all. */
WRAP(int, open64, (const char *path, int flags, mode_t mode), (path, flags, mode), path, -1)
WRAP(ssize_t, read, (int file, void *bytes, size_t n), (file, bytes, n), opened(file), -1)
WRAP(ssize_t, write, (int file, const void *bytes, size_t n), (file, bytes, taken(fault, n)), opened(file), -1)
WRAP(int, fsync, (int file), (file), opened(file), -1)
WRAP(int, fchown, (int file, uid_t owner, gid_t group), (file, owner, group), opened(file), -1)
WRAP(int, fchmod, (int file, mode_t mode), (file, mode), opened(file), -1)
WRAP(int, rename, (const char *from, const char *to), (from, to), from, -1)
WRAP(int, unlink, (const char *path), (path), path, -1)
WRAP(char *, realpath, (const char *path, char *resolved), (path, resolved), path, NULL)
WRAP(int, statx, (int at, const char *path, int flags, unsigned mask, void *status),
     (at, path, flags, mask, status), path && *path ? path : opened(at), -1)
WRAP(DIR *, opendir, (const char *path), (path), path, NULL)
WRAP(struct dirent64 *, readdir64, (DIR *entries), (entries), opened(dirfd(entries)), NULL)
