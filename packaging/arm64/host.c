/* What the program calls of the kit's C, which the kit has for x86-64 alone: the heap over malloc, errno, and the words of the command
 * line. */
typedef _Bool bool;
typedef __SIZE_TYPE__ size_t;
typedef __PTRDIFF_TYPE__ ptrdiff_t;
typedef __UINT64_TYPE__ uint64_t;

void *malloc(size_t bytes);
void *realloc(void *p, size_t bytes);
void free(void *p);
int *__errno_location(void);

typedef struct {
    uint64_t ok;
    void *p;
} tried;

static char none[16];

static tried result_of(void *p) { return p ? (tried){1, p} : (tried){0, none}; }

/* Memory of so many bytes, which begins at a multiple of 16; never null. A size of 0 asks for as many bytes as the alignment. */
tried rattle_alloc(size_t bytes, size_t align) { return result_of(malloc(bytes ? bytes : align)); }

/* The block with so many bytes, of which the first `kept` are as they were. Where there is no memory it is as it was. */
tried rattle_realloc(void *p, size_t kept, size_t bytes, size_t align) {
    (void)kept;
    return result_of(realloc(p, bytes ? bytes : align));
}

void rattle_dealloc(void *p) { free(p); }

int rattle_errno(void) { return *__errno_location(); }

void rattle_set_errno(int number) { *__errno_location() = number; }

static int words;
static char **all;

__attribute__((constructor)) static void keep_words(int count, char **given) {
    words = count;
    all = given;
}

/* Puts word i at the start of the buffer. Its length, -1 where there is no such word, or -2 where it does not fit. */
ptrdiff_t rattle_arg(size_t i, char *to, size_t room) {
    if (i >= (size_t)words) return -1;
    for (size_t length = 0;; length++) {
        if (!all[i][length]) return (ptrdiff_t)length;
        if (length == room) return -2;
        to[length] = all[i][length];
    }
}
