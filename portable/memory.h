/* --- memory --- */

static inline uint64_t address(const void *at) { return (uint64_t)(uintptr_t)at; }

/* what is read at an address */
static inline const unsigned char *behind(uint64_t at) {
#if NISSY_HIGH
    if (at >> 63) return (const unsigned char *)constants + (size_t)(at << 1 >> 1);
#endif
    return (const unsigned char *)(uintptr_t)at;
}

/* what is written there, which is no constant */
static inline unsigned char *at_own(uint64_t at) { return (unsigned char *)(uintptr_t)at; }

static inline uint32_t load1(uint64_t at) { return *behind(at); }

static inline uint32_t load2(uint64_t at) {
    const unsigned char *p = behind(at);
#if NISSY_BYTEWISE
    return (uint32_t)p[0] | (uint32_t)p[1] << 8;
#else
    uint16_t value;
    memcpy(&value, p, sizeof value);
    return value;
#endif
}

static inline uint32_t load4(uint64_t at) {
    const unsigned char *p = behind(at);
#if NISSY_BYTEWISE
    return (uint32_t)p[0] | (uint32_t)p[1] << 8 | (uint32_t)p[2] << 16 | (uint32_t)p[3] << 24;
#else
    uint32_t value;
    memcpy(&value, p, sizeof value);
    return value;
#endif
}

static inline uint64_t load8(uint64_t at) {
    const unsigned char *p = behind(at);
#if NISSY_BYTEWISE
    uint32_t low = (uint32_t)p[0] | (uint32_t)p[1] << 8 | (uint32_t)p[2] << 16 | (uint32_t)p[3] << 24;
    uint32_t high = (uint32_t)p[4] | (uint32_t)p[5] << 8 | (uint32_t)p[6] << 16 | (uint32_t)p[7] << 24;
    return (uint64_t)high << 32 | low;
#else
    uint64_t value;
    memcpy(&value, p, sizeof value);
    return value;
#endif
}

static inline void store1(uint64_t at, uint32_t value) { *at_own(at) = (unsigned char)value; }

static inline void store2(uint64_t at, uint32_t value) {
    unsigned char *p = at_own(at);
#if NISSY_BYTEWISE
    p[0] = (unsigned char)value;
    p[1] = (unsigned char)(value >> 8);
#else
    uint16_t stored = (uint16_t)value;
    memcpy(p, &stored, sizeof stored);
#endif
}

static inline void store4(uint64_t at, uint32_t value) {
    unsigned char *p = at_own(at);
#if NISSY_BYTEWISE
    for (int i = 0; i < 4; i += 1) p[i] = (unsigned char)(value >> 8 * i);
#else
    memcpy(p, &value, sizeof value);
#endif
}

static inline void store8(uint64_t at, uint64_t value) {
    unsigned char *p = at_own(at);
#if NISSY_BYTEWISE
    for (int i = 0; i < 8; i += 1) p[i] = (unsigned char)(value >> 8 * i);
#else
    memcpy(p, &value, sizeof value);
#endif
}

static inline void copy(uint64_t to, uint64_t from, uint64_t size) {
    if (size > 0) memmove(at_own(to), behind(from), (size_t)size);
}

static inline void fill(uint64_t to, uint32_t byte, uint64_t size) {
    if (size > 0) memset(at_own(to), (int)(byte & 255), (size_t)size);
}
