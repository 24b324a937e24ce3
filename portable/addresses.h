/* --- addresses ---
 *
 * The engine reads and writes the caller's own memory: an address is one of the process, in 64 bits, and a number in memory has its least byte
 * first. Where the processor has it otherwise, NISSY_BYTEWISE is 1, and numbers are put together byte by byte. */
#if !defined(NISSY_BYTEWISE)
#if defined(__BYTE_ORDER__) && defined(__ORDER_LITTLE_ENDIAN__)
#if __BYTE_ORDER__ == __ORDER_LITTLE_ENDIAN__
#define NISSY_BYTEWISE 0
#endif
#elif defined(_M_X64) || defined(_M_IX86) || defined(_M_ARM64)
#define NISSY_BYTEWISE 0
#endif
#endif
#if !defined(NISSY_BYTEWISE)
#define NISSY_BYTEWISE 1
#endif

/* The addresses of constants. Among the constants stand some, of eight bytes. Where a pointer isn't eight such bytes, NISSY_HIGH is 1, and those
 * of constants are at 2^63 and above, where no process has anything. */
#if !defined(NISSY_HIGH)
#define NISSY_HIGH (NISSY_BYTEWISE || UINTPTR_MAX != UINT64_MAX)
#endif
#if NISSY_HIGH
union word {
    unsigned char bytes[8];
};
#define POINTER(at)                                                                                                                                  \
    {                                                                                                                                                \
        { (at) & 255, (at) >> 8 & 255, (at) >> 16 & 255, (at) >> 24 & 255, 0, 0, 0, 128 }                                                            \
    }
#define CONSTANT(at) (0x8000000000000000ull + (at))
#else
union word {
    unsigned char bytes[8];
    const unsigned char *pointer;
};
#define POINTER(at)                                                                                                                                  \
    { .pointer = (const unsigned char *)constants + (at) }
#define CONSTANT(at) ((uint64_t)(uintptr_t)constants + (at))
#endif
