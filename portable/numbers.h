/* --- numbers --- */

/* what the proofs exclude */
#if defined(__GNUC__)
__attribute__((noreturn, cold))
#endif
static void
impossible(void) {
    abort();
}

static inline uint32_t clz32(uint32_t x) {
#if defined(__GNUC__)
    return x ? (uint32_t)__builtin_clz(x) : 32;
#else
    uint32_t n = 32;
    for (; x; x >>= 1) n -= 1;
    return n;
#endif
}

static inline uint64_t clz64(uint64_t x) {
#if defined(__GNUC__)
    return x ? (uint64_t)__builtin_clzll(x) : 64;
#else
    uint64_t n = 64;
    for (; x; x >>= 1) n -= 1;
    return n;
#endif
}

static inline uint32_t ctz32(uint32_t x) {
#if defined(__GNUC__)
    return x ? (uint32_t)__builtin_ctz(x) : 32;
#else
    uint32_t n = 0;
    for (; n < 32 && !(x & 1); x >>= 1) n += 1;
    return n;
#endif
}

static inline uint64_t ctz64(uint64_t x) {
#if defined(__GNUC__)
    return x ? (uint64_t)__builtin_ctzll(x) : 64;
#else
    uint64_t n = 0;
    for (; n < 64 && !(x & 1); x >>= 1) n += 1;
    return n;
#endif
}

static inline uint32_t popcnt32(uint32_t x) {
    uint32_t n = 0;
    for (; x; x &= x - 1) n += 1;
    return n;
}

static inline uint64_t popcnt64(uint64_t x) {
    uint64_t n = 0;
    for (; x; x &= x - 1) n += 1;
    return n;
}

static inline uint32_t rotl32(uint32_t x, uint32_t by) {
    by &= 31;
    return x << by | x >> (-by & 31);
}

static inline uint64_t rotl64(uint64_t x, uint64_t by) {
    by &= 63;
    return x << by | x >> (-by & 63);
}

static inline uint32_t rotr32(uint32_t x, uint32_t by) {
    by &= 31;
    return x >> by | x << (-by & 31);
}

static inline uint64_t rotr64(uint64_t x, uint64_t by) {
    by &= 63;
    return x >> by | x << (-by & 63);
}

static inline uint32_t div_u32(uint32_t x, uint32_t y) {
    if (y == 0) impossible();
    return x / y;
}

static inline uint64_t div_u64(uint64_t x, uint64_t y) {
    if (y == 0) impossible();
    return x / y;
}

static inline uint32_t rem_u32(uint32_t x, uint32_t y) {
    if (y == 0) impossible();
    return x % y;
}

static inline uint64_t rem_u64(uint64_t x, uint64_t y) {
    if (y == 0) impossible();
    return x % y;
}

static inline uint32_t div_s32(uint32_t x, uint32_t y) {
    if (y == 0 || ((int32_t)x == INT32_MIN && (int32_t)y == -1)) impossible();
    return (uint32_t)((int32_t)x / (int32_t)y);
}

static inline uint64_t div_s64(uint64_t x, uint64_t y) {
    if (y == 0 || ((int64_t)x == INT64_MIN && (int64_t)y == -1)) impossible();
    return (uint64_t)((int64_t)x / (int64_t)y);
}

static inline uint32_t rem_s32(uint32_t x, uint32_t y) {
    if (y == 0) impossible();
    return (int32_t)y == -1 ? 0 : (uint32_t)((int32_t)x % (int32_t)y);
}

static inline uint64_t rem_s64(uint64_t x, uint64_t y) {
    if (y == 0) impossible();
    return (int64_t)y == -1 ? 0 : (uint64_t)((int64_t)x % (int64_t)y);
}
