/* A writer that is full after so many bytes: ROOM_1 of standard output, ROOM_2 of standard error, ROOM_3 of any other file. With LD_PRELOAD,
   for tests/full.py. It takes at most STEP bytes a call. Full, it fails (EIO) where END is `fails`, is interrupted (EINTR) where it is
   `interrupts`, takes no byte where it is `takes_none`, and fails once and then takes all where it is `fails_once`.
   What it takes of the C library is declared here, so that a compiler without its headers will do. */
#define EINTR 4
#define EIO 5
#define NULL ((void *)0)
#define RTLD_NEXT ((void *)-1L)

typedef unsigned long size_t;
typedef long ssize_t;

int *__errno_location(void);
void *dlsym(void *library, const char *name);
char *getenv(const char *name);
int strcmp(const char *one, const char *other);
unsigned long strtoul(const char *text, char **end, int base);

static unsigned long rooms[4];
static int is_set;

static unsigned long number_of(const char *name, unsigned long other) {
    const char *number = getenv(name);
    return number ? strtoul(number, NULL, 10) : other;
}

static int is_end(const char *word) {
    const char *end = getenv("END");
    return end && !strcmp(end, word);
}

static void set_rooms(void) {
    if (!is_set) {
        is_set = 1;
        rooms[1] = number_of("ROOM_1", -1UL);
        rooms[2] = number_of("ROOM_2", -1UL);
        rooms[3] = number_of("ROOM_3", -1UL);
    }
}

static ssize_t full(unsigned long *room) {
    if (is_end("takes_none")) {
        return 0;
    }
    if (is_end("fails_once")) {
        *room = -1UL;
    }
    *__errno_location() = is_end("interrupts") ? EINTR : EIO;
    return -1;
}

ssize_t write(int file, const void *bytes, size_t count) {
    set_rooms();
    unsigned long *room = &rooms[file == 1 || file == 2 ? file : 3];
    unsigned long step = number_of("STEP", -1UL);
    size_t most = count < *room ? count : *room;
    most = most < step ? most : step;
    if (!most && count) {
        return full(room);
    }
    ssize_t taken = ((ssize_t (*)(int, const void *, size_t))dlsym(RTLD_NEXT, "write"))(file, bytes, most);
    if (taken > 0 && *room != -1UL) {
        *room -= taken;
    }
    return taken;
}
