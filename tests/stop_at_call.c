/* Stops a program at one of its calls of the system: that with the number in STOP, counted from 1. With LD_PRELOAD, for tests/saving.py.
   HOW is `kill`: the program is killed before the call; or `fail`: the call fails (EIO). Calls that open, write, sync, rename, remove or
   close are counted; at the end their number is written to the file COUNTED, where that is named.
   What it takes of the C library is declared here, so that a compiler without its headers will do. */
#define EIO 5
#define NULL ((void *)0)
#define O_CREAT 0100
#define RTLD_NEXT ((void *)-1L)
#define SIGKILL 9

typedef unsigned long size_t;
typedef long ssize_t;
typedef unsigned int mode_t;
typedef struct file FILE;
struct iovec;

int *__errno_location(void);
void *dlsym(void *library, const char *name);
char *getenv(const char *name);
int getpid(void);
int kill(int process, int signal);
int strcmp(const char *one, const char *other);
unsigned long strtoul(const char *text, char **end, int base);
FILE *fopen(const char *path, const char *mode);
int fprintf(FILE *file, const char *form, ...);
int fclose(FILE *file);

static unsigned long calls;

static int stops(void) {
    const char *number = getenv("STOP");
    const char *how = getenv("HOW");
    calls += 1;
    if (!number || calls != strtoul(number, NULL, 10)) {
        return 0;
    }
    if (how && !strcmp(how, "kill")) {
        kill(getpid(), SIGKILL);
    }
    *__errno_location() = EIO;
    return 1;
}

#define NEXT(result, name, ...) ((result (*)(__VA_ARGS__))dlsym(RTLD_NEXT, name))

int open(const char *path, int flags, ...) {
    __builtin_va_list rest;
    __builtin_va_start(rest, flags);
    mode_t mode = flags & O_CREAT ? __builtin_va_arg(rest, mode_t) : 0;
    __builtin_va_end(rest);
    return stops() ? -1 : NEXT(int, "open", const char *, int, ...)(path, flags, mode);
}

int openat(int folder, const char *path, int flags, ...) {
    __builtin_va_list rest;
    __builtin_va_start(rest, flags);
    mode_t mode = flags & O_CREAT ? __builtin_va_arg(rest, mode_t) : 0;
    __builtin_va_end(rest);
    return stops() ? -1 : NEXT(int, "openat", int, const char *, int, ...)(folder, path, flags, mode);
}

ssize_t write(int file, const void *bytes, size_t count) {
    return stops() ? -1 : NEXT(ssize_t, "write", int, const void *, size_t)(file, bytes, count);
}

ssize_t writev(int file, const struct iovec *parts, int count) {
    return stops() ? -1 : NEXT(ssize_t, "writev", int, const struct iovec *, int)(file, parts, count);
}

int fsync(int file) {
    return stops() ? -1 : NEXT(int, "fsync", int)(file);
}

int rename(const char *from, const char *to) {
    return stops() ? -1 : NEXT(int, "rename", const char *, const char *)(from, to);
}

int renameat(int old_folder, const char *from, int folder, const char *to) {
    return stops() ? -1 : NEXT(int, "renameat", int, const char *, int, const char *)(old_folder, from, folder, to);
}

int unlink(const char *path) {
    return stops() ? -1 : NEXT(int, "unlink", const char *)(path);
}

int unlinkat(int folder, const char *path, int flags) {
    return stops() ? -1 : NEXT(int, "unlinkat", int, const char *, int)(folder, path, flags);
}

int close(int file) {
    return stops() ? -1 : NEXT(int, "close", int)(file);
}

__attribute__((destructor)) static void count(void) {
    const char *path = getenv("COUNTED");
    unsigned long all = calls;
    FILE *file = path ? fopen(path, "w") : NULL;
    if (file) {
        fprintf(file, "%lu\n", all);
        fclose(file);
    }
}
