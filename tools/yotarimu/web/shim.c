// What a proved program calls of the C library, for a host of WebAssembly: a heap, the error number, streams, words.
// There are no threads, no files, no environment and one processor.
typedef unsigned long long u64;
typedef unsigned char u8;

// ---- the heap: blocks of four sizes to each power of two, which are kept in lists once they are free

#define PAGE 65536ull
#define HEAD 16
#define SMALL 64
#define SMALL_CLASSES (SMALL / HEAD)
#define CLASSES 256
#define MOST_BYTES (1ull << 40)
extern u8 __heap_base;
static u64 next_free, memory_end;
static void *free_of_class[CLASSES];

static unsigned class_of(u64 size) {
    if (size <= SMALL) return (unsigned)((size + HEAD - 1) / HEAD);
    unsigned power = 63 - __builtin_clzll(size - 1);  // 2^power < size <= 2^(power + 1)
    u64 quarter = 1ull << (power - 2);
    return SMALL_CLASSES + 1 + (power - 6) * 4 + (unsigned)((size - 1 - (1ull << power)) / quarter);
}

static u64 size_of(unsigned class) {
    if (class <= SMALL_CLASSES) return (u64)HEAD * class;
    unsigned power = 6 + (class - SMALL_CLASSES - 1) / 4, quarters = (class - SMALL_CLASSES - 1) % 4 + 1;
    return (1ull << power) + quarters * (1ull << (power - 2));
}

static unsigned *class_before(void *block) { return (unsigned *)((u8 *)block - HEAD); }

// Grows the memory, by an eighth where that is more than is asked for; 0 where it can't. What a refused growth answers
// differs where the memory was lowered to 32 bits, so the size is read again.
static int has_memory(u64 end) {
    if (end <= memory_end) return 1;
    u64 wanted = (end - memory_end + PAGE - 1) / PAGE, ahead = memory_end / PAGE / 8;
    if (wanted < ahead) __builtin_wasm_memory_grow(0, ahead);
    memory_end = __builtin_wasm_memory_size(0) * PAGE;
    if (end > memory_end) __builtin_wasm_memory_grow(0, wanted);
    memory_end = __builtin_wasm_memory_size(0) * PAGE;
    return end <= memory_end;
}

void *malloc(u64 size) {
    if (size > MOST_BYTES) return 0;
    unsigned class = class_of(size ? size : 1);
    void **kept = free_of_class[class];
    if (kept) {
        free_of_class[class] = *kept;
        return kept;
    }
    if (!next_free) {
        next_free = ((u64)&__heap_base + HEAD - 1) / HEAD * HEAD;
        memory_end = __builtin_wasm_memory_size(0) * PAGE;
    }
    u64 end = next_free + HEAD + size_of(class);
    if (!has_memory(end)) return 0;
    void *block = (u8 *)next_free + HEAD;
    *class_before(block) = class;
    next_free = end;
    return block;
}

void free(void *block) {
    if (!block) return;
    unsigned class = *class_before(block);
    *(void **)block = free_of_class[class];
    free_of_class[class] = block;
}

void *realloc(void *block, u64 size) {
    if (!block) return malloc(size);
    u64 has = size_of(*class_before(block));
    if (size <= has && size * 4 >= has) return block;
    void *other = malloc(size);
    if (!other) return 0;
    __builtin_memcpy(other, block, has < size ? has : size);
    free(block);
    return other;
}

// The toolchain's own names: whether it was granted, and where.
typedef struct { u64 is_granted; void *block; } Granted;
static u8 nothing[HEAD] __attribute__((aligned(HEAD)));

static Granted granted(void *block) { return (Granted){block != 0, block ? block : nothing}; }

Granted rattle_alloc(u64 size, u64 alignment) {
    if (alignment > HEAD) return granted(0);
    return granted(malloc(size ? size : alignment));
}

Granted rattle_realloc(void *block, u64 kept, u64 size, u64 alignment) {
    if (alignment > HEAD) return granted(0);
    return granted(realloc(block, size ? size : alignment));
}

void rattle_dealloc(void *block) { free(block); }

// ---- bytes: the compiler may call these by name

#pragma clang diagnostic push
#pragma clang diagnostic ignored "-Wincompatible-library-redeclaration"
void *memcpy(void *to, const void *from, u64 size) { return __builtin_memcpy(to, from, size); }
void *memmove(void *to, const void *from, u64 size) { return __builtin_memmove(to, from, size); }
void *memset(void *to, int byte, u64 size) { return __builtin_memset(to, byte, size); }

int memcmp(const void *one, const void *two, u64 size) {
    for (u64 place = 0; place < size; place++) {
        int difference = ((const u8 *)one)[place] - ((const u8 *)two)[place];
        if (difference) return difference;
    }
    return 0;
}
#pragma clang diagnostic pop

// ---- errors and streams: the host's reads and writes fail with EIO, and a stream is no file

enum { NO_ENTRY = 2, IO_FAILS = 5, BAD_FILE = 9, TRY_AGAIN = 11, INVALID = 22, NO_SEEK = 29, NO_CALL = 38 };
static int last_error;

int rattle_errno(void) { return last_error; }
void rattle_set_errno(int error) { last_error = error; }
int __xpg_strerror_r(int error, void *text, u64 size) { return INVALID; }

#define HOST(name) __attribute__((import_module("host"), import_name(name)))
long long host_read(int file, void *to, u64 size) HOST("read");
long long host_write(int file, const void *from, u64 size) HOST("write");
u64 host_count_words(void) HOST("count_words");
long long host_word(u64 place, void *to, u64 size) HOST("word");
void host_exit(int status) HOST("exit");

static long long failed(int error) {
    last_error = error;
    return -1;
}

long long read(int file, void *to, u64 size) {
    long long count = host_read(file, to, size);
    return count < 0 ? failed(IO_FAILS) : count;
}

long long write(int file, const void *from, u64 size) {
    long long count = host_write(file, from, size);
    return count < 0 ? failed(IO_FAILS) : count;
}

long long __write(int file, const void *from, u64 size) { return write(file, from, size); }
long long lseek(int file, long long place, int from) { return failed(NO_SEEK); }
int open(const char *path, int flags, ...) { return (int)failed(NO_ENTRY); }
int close(int file) { return (int)failed(BAD_FILE); }

// ---- the words of the call; there is no environment

u64 rattle_arg_count(void) { return host_count_words(); }
long long rattle_arg(u64 place, void *to, u64 size) { return host_word(place, to, size); }
long long rattle_env(void *name, u64 length, u64 size) { return -1; }
long long rattle_env_at(u64 place, void *to, u64 size) { return -1; }

void _exit(int status) {
    host_exit(status);
    __builtin_trap();
}

void abort(void) { __builtin_trap(); }

// ---- processors and threads: none can be started, so whoever asks for one does that work itself

static unsigned no_feature[16] = {-1, -1, -1, -1, -1, -1, -1, -1, -1, -1, -1, -1, -1, -1, -1, -1};
void *__x86_get_cpuid_feature_leaf(int leaf) { return no_feature; }
long long sysconf(int name) { return 1; }
int sched_getaffinity(int process, u64 size, void *set) { return (int)failed(NO_CALL); }
int sched_yield(void) { return 0; }
u64 __sysv_signal(int number, u64 handler) { return 0; }
int pthread_create(void *thread, void *attributes, void *start, void *argument) { return TRY_AGAIN; }
int pthread_attr_init(void *attributes) { return 0; }
int pthread_attr_setguardsize(void *attributes, u64 size) { return 0; }
int pthread_attr_setstacksize(void *attributes, u64 size) { return 0; }
int pthread_attr_destroy(void *attributes) { return 0; }
u64 pthread_self(void) { return 1; }
int pthread_detach(u64 thread) { __builtin_trap(); }
int pthread_join(u64 thread, void *result) { __builtin_trap(); }

// A futex: a wake finds nobody. A wait with a time limit, as of a worker that lets others go on, ends at once, since
// nobody else runs; one without would never end.
enum { FUTEX = 202, FUTEX_WAIT = 0, FUTEX_WAKE = 1, FUTEX_KIND = 127, TIMED_OUT = 110 };
long long syscall(u64 number, void *place, u64 operation, u64 value, void *time, ...) {
    if (number == FUTEX && (operation & FUTEX_KIND) == FUTEX_WAKE) return 0;
    if (number == FUTEX && (operation & FUTEX_KIND) == FUTEX_WAIT && time) return failed(TIMED_OUT);
    __builtin_trap();
}
