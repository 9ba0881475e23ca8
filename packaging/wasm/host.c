/* What the proved program calls, for WebAssembly: a heap over memory.grow, the two streams of the page or of Node, and the
 * helpers for numbers of 128 bits that clang calls. The machine has no threads, no files and no sockets. */
typedef _Bool bool;
typedef __SIZE_TYPE__ size_t;
typedef __UINTPTR_TYPE__ uintptr_t;
typedef __UINT32_TYPE__ uint32_t;
typedef __UINT64_TYPE__ uint64_t;

#define IMPORT(name) __attribute__((import_module("host"), import_name(#name)))
#define PAGE 65536
#define EIO 5
#define EBADF 9
#define ESPIPE 29

/* As POSIX's read and write, of standard input and output: how many bytes, 0 at the end of the input, or -1. */
IMPORT(read) long host_read(void *to, size_t most);
IMPORT(write) long host_write(int descriptor, const void *from, size_t count);
/* What `ljserve` alone calls, and not `lj_run`: a word of the command line, of which as much as fits is put at the start of `to`, has this
 * length, or -1 where there is no such word. And an end with this exit status, which never returns. */
IMPORT(word) long host_word(size_t number, void *to, size_t room);
IMPORT(exit) _Noreturn void host_exit(int status);

static int error;

int rattle_errno(void) { return error; }

void rattle_set_errno(int number) { error = number; }

static long result_of(long count) {
    if (count < 0) error = EIO;
    return count;
}

long read(int descriptor, void *to, size_t most) {
    if (descriptor != 0) {
        error = EBADF;
        return -1;
    }
    return result_of(host_read(to, most));
}

long write(int descriptor, const void *from, size_t count) {
    if (descriptor != 1 && descriptor != 2) {
        error = EBADF;
        return -1;
    }
    return result_of(host_write(descriptor, from, count));
}

/* A stream has no position. */
long lseek(int descriptor, long offset, int from) {
    (void)descriptor, (void)offset, (void)from;
    error = ESPIPE;
    return -1;
}

/* Puts word i of the command line at the start of the buffer. Its length, -1 where there is no such word, or -2 where it does not fit. */
long rattle_arg(size_t i, char *to, size_t room) {
    long length = host_word(i, to, room);
    return length > (long)room ? -2 : length;
}

_Noreturn void _exit(int status) { host_exit(status); }

/* What `ljserve` calls for `replay` and `serve`, which have no files, sockets and threads here: each fails. The prototypes are those of
 * POSIX, as clang has to find them for a module that calls them so. */
#define ENOSYS 38
#define FAILS(type, name, ...)                                                                                                         \
    type name(__VA_ARGS__) {                                                                                                           \
        error = ENOSYS;                                                                                                                \
        return -1;                                                                                                                     \
    }

FAILS(int, open, const char *path, int flags, int mode)
FAILS(int, close, int descriptor)
FAILS(int, socket, int family, int type, int protocol)
FAILS(int, bind, int descriptor, const void *address, uint32_t length)
FAILS(int, listen, int descriptor, int most)
FAILS(int, accept4, int descriptor, void *address, uint32_t *length, int flags)
FAILS(int, setsockopt, int descriptor, int level, int option, const void *value, uint32_t length)
FAILS(int, shutdown, int descriptor, int how)
FAILS(long, recv, int descriptor, void *to, size_t most, int flags)
FAILS(long, send, int descriptor, const void *from, size_t count, int flags)
FAILS(int, clock_gettime, int clock, void *time)
FAILS(int, nanosleep, const void *time, void *left)
FAILS(long, syscall, long number, const void *rest)

#define EAGAIN 11
#define ANSWERS(type, name, what, ...)                                                                                                 \
    type name(__VA_ARGS__) { return what; }

ANSWERS(int, pthread_attr_init, 0, void *attributes)
ANSWERS(int, pthread_attr_destroy, 0, void *attributes)
ANSWERS(int, pthread_attr_setguardsize, 0, void *attributes, size_t bytes)
ANSWERS(int, pthread_attr_setstacksize, 0, void *attributes, size_t bytes)
ANSWERS(int, pthread_create, EAGAIN, void *thread, const void *attributes, void *begin, void *given)
ANSWERS(int, pthread_detach, 0, uintptr_t thread)
ANSWERS(int, pthread_join, EAGAIN, uintptr_t thread, void *result)
ANSWERS(uintptr_t, pthread_self, 1, void)
ANSWERS(int, sched_yield, 0, void)

_Noreturn void abort(void) { __builtin_trap(); }

/* The heap. A block has one of the sizes 16, 32, 48, 64, 80, 96, 112, 128, 160, 192, 224, 256, 320, ..: four for each doubling.
 * Blocks that were freed hang in a list for their size. */
#define SIZES 240

typedef struct block {
    size_t size; /* its place among the sizes */
    struct block *next;
} block;

typedef struct {
    uint64_t ok;
    void *p;
} tried;

extern unsigned char __heap_base;
static block *freed[SIZES];
static uintptr_t top, end;
static unsigned char none[16] __attribute__((aligned(16)));

/* The first size of at least so many bytes, and its place. */
static size_t size_of(size_t bytes, size_t *place) {
    size_t size = 64, step = 16, number = 4;
    if (bytes <= 64) {
        *place = bytes <= 16 ? 0 : (bytes - 1) / 16;
        return (*place + 1) * 16;
    }
    for (;; step *= 2)
        for (int part = 0; part < 4; part++) {
            size += step;
            if (bytes <= size) {
                *place = number;
                return size;
            }
            number++;
        }
}

static bool has_room(size_t bytes) {
    if (!top) {
        top = ((uintptr_t)&__heap_base + 15) & ~(uintptr_t)15;
        end = (uintptr_t)__builtin_wasm_memory_size(0) * PAGE;
    }
    if (bytes <= end - top) return 1;
    size_t pages = (bytes - (end - top) + PAGE - 1) / PAGE;
    if (__builtin_wasm_memory_grow(0, pages) == (size_t)-1) return 0;
    end += pages * PAGE;
    return 1;
}

/* Memory of so many bytes, which begins at a multiple of 16; never null. A size of 0 asks for as many bytes as the alignment, at
 * most 16. */
tried rattle_alloc(size_t bytes, size_t align) {
    size_t place;
    if (bytes >= (size_t)1 << 40) return (tried){0, none};
    size_t size = size_of(bytes ? bytes : align, &place);
    block *found = freed[place];
    if (found) {
        freed[place] = found->next;
    } else {
        if (!has_room(sizeof(block) + size)) return (tried){0, none};
        found = (block *)top;
        found->size = place;
        top += sizeof(block) + size;
    }
    return (tried){1, found + 1};
}

void rattle_dealloc(void *p) {
    block *it = (block *)p - 1;
    it->next = freed[it->size];
    freed[it->size] = it;
}

/* The block with so many bytes, of which the first `kept` are as they were. Where there is no memory it is as it was. */
tried rattle_realloc(void *p, size_t kept, size_t bytes, size_t align) {
    size_t place;
    size_of(bytes ? bytes : align, &place);
    if (((block *)p - 1)->size == place) return (tried){1, p};
    tried made = rattle_alloc(bytes, align);
    if (!made.ok) return made;
    __builtin_memcpy(made.p, p, kept < bytes ? kept : bytes);
    rattle_dealloc(p);
    return made;
}

/* As C has them, for the runtime of threads. */
void *malloc(size_t bytes) {
    tried made = rattle_alloc(bytes, 16);
    return made.ok ? made.p : 0;
}

void free(void *p) {
    if (p) rattle_dealloc(p);
}

/* Numbers of 128 bits. */
typedef unsigned __int128 wide;
typedef union {
    wide whole;
    struct {
        uint64_t low, high;
    } half;
} halves;

wide __ashlti3(wide number, int by) {
    halves n = {number}, r;
    if (by & 64) r.half.high = n.half.low << (by & 63), r.half.low = 0;
    else if (!by) return number;
    else r.half.high = n.half.high << by | n.half.low >> (64 - by), r.half.low = n.half.low << by;
    return r.whole;
}

wide __lshrti3(wide number, int by) {
    halves n = {number}, r;
    if (by & 64) r.half.low = n.half.high >> (by & 63), r.half.high = 0;
    else if (!by) return number;
    else r.half.low = n.half.low >> by | n.half.high << (64 - by), r.half.high = n.half.high >> by;
    return r.whole;
}

wide __multi3(wide a, wide b) {
    halves x = {a}, y = {b}, r;
    uint64_t xl = (uint32_t)x.half.low, xh = x.half.low >> 32, yl = (uint32_t)y.half.low, yh = y.half.low >> 32;
    uint64_t ll = xl * yl, lh = xl * yh, hl = xh * yl, middle = (ll >> 32) + (uint32_t)lh + (uint32_t)hl;
    r.half.low = middle << 32 | (uint32_t)ll;
    r.half.high = xh * yh + (lh >> 32) + (hl >> 32) + (middle >> 32) + x.half.low * y.half.high + x.half.high * y.half.low;
    return r.whole;
}

/* How many bits a number has that is not 0. */
static int length_of(halves n) { return n.half.high ? 128 - __builtin_clzll(n.half.high) : 64 - __builtin_clzll(n.half.low); }

/* Long division, a bit at a time from the highest one of the quotient; by is not 0. The compiler calls it for powers of 2 too. */
wide __udivti3(wide number, wide by) {
    halves n = {number}, d = {by};
    if (!(by & (by - 1))) return __lshrti3(number, length_of(d) - 1);
    if (!n.half.high && !d.half.high) return n.half.low / d.half.low;
    if (number < by) return 0;
    int bit = length_of(n) - length_of(d);
    wide quotient = 0, part = __ashlti3(by, bit);
    for (; bit >= 0; bit--, part >>= 1) {
        quotient <<= 1;
        if (number >= part) number -= part, quotient |= 1;
    }
    return quotient;
}

/* Division of numbers with signs, towards 0. */
__int128 __divti3(__int128 number, __int128 by) {
    wide quotient = __udivti3(number < 0 ? -(wide)number : (wide)number, by < 0 ? -(wide)by : (wide)by);
    return (__int128)((number < 0) != (by < 0) ? -quotient : quotient);
}
