/* Refuses one growth of memory: that with the number in REFUSE, counted from 1; or each one from the number in FROM on. With LD_PRELOAD,
   for tests/growth.py. At the end it writes how many growths there were to the file COUNTED, where that is named.
   What it takes of the C library is declared here, so that a compiler without its headers will do. */
#define ENOMEM 12
#define NULL ((void *)0)

typedef unsigned long size_t;
typedef struct file FILE;

int *__errno_location(void);
void *__libc_malloc(size_t size);
void *__libc_realloc(void *block, size_t size);
size_t malloc_usable_size(void *block);
char *getenv(const char *name);
unsigned long strtoul(const char *text, char **end, int base);
FILE *fopen(const char *path, const char *mode);
int fprintf(FILE *file, const char *form, ...);
int fclose(FILE *file);

static unsigned long growths;
static unsigned long refused;
static unsigned long from;
static int is_set;

static unsigned long number_of(const char *name) {
    const char *number = getenv(name);
    return number ? strtoul(number, NULL, 10) : 0;
}

static int refuses(void) {
    if (!is_set) {
        is_set = 1;
        refused = number_of("REFUSE");
        from = number_of("FROM");
    }
    growths += 1;
    return growths == refused || (from && from <= growths);
}

void *malloc(size_t size) {
    if (refuses()) {
        *__errno_location() = ENOMEM;
        return NULL;
    }
    return __libc_malloc(size);
}

void *realloc(void *block, size_t size) {
    if ((!block || malloc_usable_size(block) < size) && refuses()) {
        *__errno_location() = ENOMEM;
        return NULL;
    }
    return __libc_realloc(block, size);
}

__attribute__((destructor)) static void count(void) {
    const char *path = getenv("COUNTED");
    unsigned long all = growths;
    FILE *file = path ? fopen(path, "w") : NULL;
    if (file) {
        fprintf(file, "%lu\n", all);
        fclose(file);
    }
}
