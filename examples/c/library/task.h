/* Tasks in C. docs/guest/C.md is their guide.

   TASK(visit, uint32_t node, uint32_t length) { .. } defines a task. Its parameters are its three arguments and its
   timestamp, in this order. Those at the end may be left out, and one that isn't used needs no name. Each is a number
   of 32 bits, or a pointer to data. Returning ends the task.

   `visit` is then the task's entry: it is enqueued, and never called. For a task that is defined further below, in
   another file or in assembly, write `extern task_entry visit;`. */
#ifndef TASK_H
#define TASK_H
#include <stdint.h>

/* An entry is three instructions: a call of the body, and call 0, which ends the task. How many of its bytes are
   declared tells how many parameters the task has; of one that is declared as a task_entry alone that isn't known. */
struct task_code { uint8_t byte; };
typedef const struct task_code task_entry[];
#define TASK_BYTES(parameters) (8 + (parameters))

#define TASK(name, ...)                                                                                               \
    TASK_ASSERT(TASK_COUNT(__VA_ARGS__) <= 4, "a task has three arguments and its timestamp, and no more");           \
    TASK_ASSERT(TASK_ARE_WORDS(__VA_ARGS__),                                                                          \
                "a parameter of a task has 32 bits: it is a number or a pointer to data");                            \
    extern const struct task_code name[TASK_BYTES(TASK_COUNT(__VA_ARGS__))];                                          \
    /* No byte comes of the lines that begin with .cfi: they say that nobody calls a task. */                         \
    __asm__(".cfi_sections .debug_frame\n.pushsection .text.task." #name ",\"ax\",@progbits\n.balign 4\n"             \
            ".globl " #name "\n.type " #name ",@function\n" #name ":\n.cfi_startproc\n.cfi_undefined ra\n"            \
            " jal ra, " #name "_body\n li a7, 0\n ecall\n.cfi_endproc\n.size " #name ", . - " #name                   \
            "\n.popsection");                                                                                         \
    __attribute__((used)) static void name##_body(__VA_ARGS__) __asm__(#name "_body");                                \
    static void name##_body(__VA_ARGS__)

/* A child. What isn't given is 0: enqueue(visit, length, node, .hint = node) gives a timestamp, one argument and a
   hint. Each is a number of 32 bits; a pointer to data is given as at(pointer). A task is given no more arguments than
   it has parameters. */
#define enqueue(entry, ...)       TASK_ENQUEUE(1, entry, __VA_ARGS__) /* to the own domain */
#define enqueue_sub(entry, ...)   TASK_ENQUEUE(2, entry, __VA_ARGS__) /* to the subdomain */
#define enqueue_super(entry, ...) TASK_ENQUEUE(3, entry, __VA_ARGS__) /* to the superdomain */
struct task_child { uint32_t ts, a, b, c, hint; };

/* Parts the places from `place` up to `end` among at most 16 tasks `entry`, and is 1; where there are at most 16 places
   it does nothing, and is 0. So a task whose arguments are a range makes a tree, in which no task waits long for its
   creator and none has more children than it may:

       TASK(feed, uint32_t place, uint32_t end)
       {
           if (spread(feed, place, place, end))
               return;
           for (; place < end; place++)
               enqueue(visit, place, place);
       }

   `place` is a variable, from which `place / 16` is the hint of each part. `ts` is the timestamp of a part, and may be
   told by the part's first place. */
#define spread(entry, ts, place, end)                                                                                 \
    ({                                                                                                                \
        TASK_REFUSE_CUTS                                                                                              \
        const uint32_t task_end_ = (end);                                                                             \
        TASK_END_REFUSING                                                                                             \
        const uint32_t task_is_parted_ = task_end_ - (place) > TASK_PARTS;                                            \
        if (task_is_parted_) {                                                                                        \
            uint32_t task_part_ = TASK_PARTS;                                                                         \
            while ((task_end_ - (place) - 1) / TASK_PARTS >= task_part_)                                              \
                task_part_ *= TASK_PARTS;                                                                             \
            for (;; (place) += task_part_) {                                                                          \
                const uint32_t task_is_last_ = task_end_ - (place) <= task_part_;                                     \
                enqueue(entry, (ts), (place), task_is_last_ ? task_end_ : (place) + task_part_,                       \
                        .hint = (place) / TASK_PARTS);                                                                \
                if (task_is_last_)                                                                                    \
                    break;                                                                                            \
            }                                                                                                         \
        }                                                                                                             \
        task_is_parted_;                                                                                              \
    })
#define TASK_PARTS 16u

/* Makes the task's subdomain. */
#define make_subdomain(kind) TASK_CALL(4, kind)
enum domain_kind { UNORDERED, ORDERED };

/* Emits a byte. */
#define emit(byte) TASK_CALL(5, byte)

/* Ends the task, from any depth of calls. */
#define end_task()                                                                                                    \
    do {                                                                                                              \
        register uint32_t task_call_ __asm__("a7") = 0;                                                               \
        __asm__ volatile("ecall" : : "r"(task_call_) : "memory");                                                     \
        __builtin_unreachable();                                                                                      \
    } while (0)

/* Trap 8, at the line that asks for it, where the condition doesn't hold. */
#define require(condition)                                                                                            \
    do {                                                                                                              \
        if (!(condition)) {                                                                                           \
            __asm__ volatile("ebreak");                                                                               \
            __builtin_unreachable();                                                                                  \
        }                                                                                                             \
    } while (0)

/* A pointer as an argument of a child. One to a local is trap 8: the child would see its own stack there. */
#define at(pointer)                                                                                                   \
    ({                                                                                                                \
        const volatile void *task_pointer_ = (pointer);                                                               \
        require((uint32_t)task_pointer_ < TASK_STACK);                                                                \
        (uint32_t)task_pointer_;                                                                                      \
    })
/* Where the private stack of each task begins, in an image of version 2. */
#define TASK_STACK 0x20000000u

/* ---- What the names above are made of: their names begin with TASK_ or task_. All are macros, so that a trap is told
   at the line that uses them.

   A call of the machine changes no register, and nobody sees the task's memory before the task has ended. So a call has
   inputs alone, and values stay in registers across it. Arguments come before the registers are set, since a product
   or a quotient in one of them is a call of a function. */
#define TASK_ENQUEUE(call, entry, ...)                                                                                \
    do {                                                                                                              \
        TASK_ASSERT(TASK_IS_ENTRY(entry), "only a task can be enqueued: TASK(name, ..) makes one");                   \
        TASK_ASSERT(TASK_PLACED(__VA_ARGS__) <= 4, "a child has a timestamp and up to three arguments, and a hint is "\
                                                   "given as .hint = h");                                             \
        TASK_ASSERT(TASK_TAKES(entry, TASK_PLACED(__VA_ARGS__)), "the task `" #entry "` has fewer parameters than it "\
                                                                 "is given arguments");                               \
        const struct task_code *task_entry_ = (entry);                                                                \
        TASK_REFUSE_CUTS                                                                                              \
        struct task_child task_child_ = TASK_CHILD(__VA_ARGS__);                                                      \
        TASK_END_REFUSING                                                                                             \
        register uint32_t task_call_ __asm__("a7") = call;                                                            \
        register const struct task_code *task_a0_ __asm__("a0") = task_entry_;                                        \
        register uint32_t task_a1_ __asm__("a1") = task_child_.ts, task_a2_ __asm__("a2") = task_child_.a;            \
        register uint32_t task_a3_ __asm__("a3") = task_child_.b, task_a4_ __asm__("a4") = task_child_.c;             \
        register uint32_t task_a5_ __asm__("a5") = task_child_.hint;                                                  \
        __asm__ volatile("ecall" : : "r"(task_call_), "r"(task_a0_), "r"(task_a1_), "r"(task_a2_), "r"(task_a3_),     \
                         "r"(task_a4_), "r"(task_a5_));                                                               \
    } while (0)

#define TASK_CALL(call, value)                                                                                        \
    do {                                                                                                              \
        uint32_t task_value_ = (value);                                                                               \
        register uint32_t task_call_ __asm__("a7") = call;                                                            \
        register uint32_t task_a0_ __asm__("a0") = task_value_;                                                       \
        __asm__ volatile("ecall" : : "r"(task_call_), "r"(task_a0_));                                                 \
    } while (0)

#define TASK_COUNT(...) TASK_NINTH(, ##__VA_ARGS__, 7, 6, 5, 4, 3, 2, 1, 0)
#define TASK_NINTH(a, b, c, d, e, f, g, h, ninth, ...) ninth

/* How many words a child is given by their places, its timestamp among them. One by a name begins with a dot. */
#define TASK_PLACED(...)                                                                                              \
    TASK_NINTH(, ##__VA_ARGS__, TASK_PLACED_MANY, TASK_PLACED_MANY, TASK_PLACED_5, TASK_PLACED_4, TASK_PLACED_3,      \
               TASK_PLACED_2, TASK_PLACED_1, TASK_PLACED_0)(__VA_ARGS__)
#define TASK_PLACED_0()              0
#define TASK_PLACED_1(a)             (__builtin_strncmp(#a, ".", 1) != 0)
#define TASK_PLACED_2(a, b)          (TASK_PLACED_1(a) + TASK_PLACED_1(b))
#define TASK_PLACED_3(a, b, c)       (TASK_PLACED_2(a, b) + TASK_PLACED_1(c))
#define TASK_PLACED_4(a, b, c, d)    (TASK_PLACED_3(a, b, c) + TASK_PLACED_1(d))
#define TASK_PLACED_5(a, b, c, d, e) (TASK_PLACED_4(a, b, c, d) + TASK_PLACED_1(e))
#define TASK_PLACED_MANY(...)        8

#ifndef __cplusplus
#define TASK_ASSERT          _Static_assert
#define TASK_CHILD(...)      {__VA_ARGS__}
#define TASK_IS_ENTRY(entry) _Generic((entry), const struct task_code *: 1, default: 0)

/* Between these two a compiler refuses what would lose bits of a number on its way into 32. */
#define TASK_REFUSE_CUTS                                                                                              \
    _Pragma("GCC diagnostic push") _Pragma("GCC diagnostic error \"-Wconversion\"")                                   \
    _Pragma("GCC diagnostic error \"-Wfloat-conversion\"") _Pragma("GCC diagnostic error \"-Woverflow\"")             \
    _Pragma("GCC diagnostic ignored \"-Wsign-conversion\"")
#define TASK_END_REFUSING _Pragma("GCC diagnostic pop")

/* Whether a task has parameters enough for so many words, its timestamp among them. An array whose size isn't known is
   compatible with one of each size. */
#define TASK_HAS(entry, parameters)                                                                                   \
    __builtin_types_compatible_p(__typeof__(entry), const struct task_code[TASK_BYTES(parameters)])
#define TASK_TAKES(entry, given)                                                                                      \
    (TASK_HAS(entry, 0) + TASK_HAS(entry, 1) + TASK_HAS(entry, 2) != 1 ||                                             \
     (given) <= 1 + TASK_HAS(entry, 1) + 2 * TASK_HAS(entry, 2))

/* A compiler takes a parameter of fewer bits as it comes, and splits a longer one over two arguments. */
#define TASK_ARE_WORDS(...)                                                                                           \
    TASK_NINTH(, ##__VA_ARGS__, TASK_MANY, TASK_MANY, TASK_MANY, TASK_WORDS_4, TASK_WORDS_3, TASK_WORDS_2,            \
               TASK_IS_WORD, TASK_NONE)(__VA_ARGS__)
#define TASK_NONE()              1
#define TASK_WORDS_2(a, b)       (TASK_IS_WORD(a) && TASK_IS_WORD(b))
#define TASK_WORDS_3(a, b, c)    (TASK_WORDS_2(a, b) && TASK_IS_WORD(c))
#define TASK_WORDS_4(a, b, c, d) (TASK_WORDS_3(a, b, c) && TASK_IS_WORD(d))
#define TASK_MANY(...)           1
#define TASK_IS_WORD(parameter)                                                                                       \
    _Generic((void (*)(parameter))0, TASK_NO_WORD(_Bool), TASK_NO_WORD(char), TASK_NO_WORD(signed char),              \
             TASK_NO_WORD(unsigned char), TASK_NO_WORD(short), TASK_NO_WORD(unsigned short), TASK_NO_WORD(long long), \
             TASK_NO_WORD(unsigned long long), TASK_NO_WORD(float), TASK_NO_WORD(double), TASK_NO_WORD(long double),  \
             default: 1)
#define TASK_NO_WORD(type) void (*)(type): 0
#else

/* ---- The same in C++, which has neither _Generic nor a list of values in which only the last is named. */
#define TASK_ASSERT          static_assert
#define TASK_ARE_WORDS(...)  decltype(task_words_of((void (*)(__VA_ARGS__))nullptr))::are_words
#define TASK_IS_ENTRY(entry) task_is_entry<decltype(&*(entry))>::value
#define TASK_TAKES(entry, given) ((given) <= task_takes<decltype((entry))>::words)
/* What would lose bits is refused below, by its type. */
#define TASK_REFUSE_CUTS
#define TASK_END_REFUSING

template <typename T> struct task_is_word { static constexpr bool value = __is_enum(T) && sizeof(T) == 4; };
template <typename T> struct task_is_word<T *> { static constexpr bool value = true; };
template <> struct task_is_word<int> { static constexpr bool value = true; };
template <> struct task_is_word<unsigned> { static constexpr bool value = true; };
template <> struct task_is_word<long> { static constexpr bool value = true; };
template <> struct task_is_word<unsigned long> { static constexpr bool value = true; };
template <bool... are> struct task_all { static constexpr bool are_words = (are && ...); };
template <typename... T> task_all<task_is_word<T>::value...> task_words_of(void (*)(T...));

template <typename T> struct task_is_entry { static constexpr bool value = false; };
template <> struct task_is_entry<const task_code *> { static constexpr bool value = true; };

/* How many words a task takes, its timestamp among them. */
template <typename T> struct task_takes { static constexpr unsigned words = 4; };
template <unsigned bytes> struct task_takes<const task_code (&)[bytes]> {
    static constexpr unsigned words = bytes - TASK_BYTES(0) < 3 ? 1 + bytes - TASK_BYTES(0) : 4;
};

template <typename T> struct task_is_pointer { static constexpr bool value = false; };
template <typename T> struct task_is_pointer<T *> { static constexpr bool value = true; };
template <typename T> struct task_is_fraction { static constexpr bool value = false; };
template <> struct task_is_fraction<float> { static constexpr bool value = true; };

/* A word that a child is given. */
struct task_word {
    uint32_t value;
    constexpr task_word() : value(0) {}
    template <typename T> constexpr task_word(T given) : value((uint32_t)given)
    {
        static_assert(!task_is_pointer<T>::value, "a pointer is given as at(pointer)");
        static_assert(sizeof(T) <= 4 && !task_is_fraction<T>::value, "a child is given numbers of 32 bits");
    }
};

/* One of the words in a call of `enqueue`: by its place, or a hint by its name. */
struct task_piece { task_word value = {}, hint = {}; };

static constexpr task_child task_child_of(task_piece ts = {}, task_piece a = {}, task_piece b = {}, task_piece c = {},
                                          task_piece hint = {})
{
    return {ts.value.value, a.value.value, b.value.value, c.value.value,
            hint.value.value | ts.hint.value | a.hint.value | b.hint.value | c.hint.value | hint.hint.value};
}

#define TASK_CHILD(...)                                                                                               \
    task_child_of(TASK_NINTH(, ##__VA_ARGS__, TASK_MANY, TASK_MANY, TASK_PIECES_5, TASK_PIECES_4, TASK_PIECES_3,      \
                             TASK_PIECES_2, TASK_PIECE, TASK_NONE)(__VA_ARGS__))
#define TASK_NONE()
#define TASK_PIECE(a)                {a}
#define TASK_PIECES_2(a, b)          {a}, {b}
#define TASK_PIECES_3(a, b, c)       {a}, {b}, {c}
#define TASK_PIECES_4(a, b, c, d)    {a}, {b}, {c}, {d}
#define TASK_PIECES_5(a, b, c, d, e) {a}, {b}, {c}, {d}, {e}
#define TASK_MANY(...)               {__VA_ARGS__}, "a child has a timestamp, three arguments and a hint, and no more"
#endif

/* ---- Emits a text up to its zero, a number in decimal, and one in eight hexadecimal digits. */
#define TASK_INLINE static inline __attribute__((always_inline))

TASK_INLINE void emit_text(const char *text)
{
    while (*text)
        emit((unsigned char)*text++);
}

TASK_INLINE void emit_number(uint32_t number)
{
    /* A quotient would cost more than counting. */
    static const uint32_t powers[10] = {1000000000, 100000000, 10000000, 1000000, 100000, 10000, 1000, 100, 10, 1};
    uint32_t is_begun = 0;
    for (uint32_t place = 0; place < 10; place++) {
        uint32_t digit = 0;
        for (; number >= powers[place]; digit++)
            number -= powers[place];
        is_begun |= digit;
        if (is_begun || place == 9)
            emit('0' + digit);
    }
}

TASK_INLINE void emit_hex(uint32_t number)
{
    for (int shift = 28; shift >= 0; shift -= 4)
        emit("0123456789abcdef"[number >> shift & 15]);
}
#endif
