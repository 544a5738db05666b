/* What the bodies call: c/generate takes what a body names, and what that names. */

struct of_64_64 { uint64_t f0; uint64_t f1; };

struct of_64_1 { uint64_t f0; bool f1; };

static inline uint8_t load_8(const char *at) {
    uint8_t value;
    memcpy(&value, at, sizeof value);
    return value;
}

static inline uint16_t load_16(const char *at) {
    uint16_t value;
    memcpy(&value, at, sizeof value);
    return value;
}

static inline uint32_t load_32(const char *at) {
    uint32_t value;
    memcpy(&value, at, sizeof value);
    return value;
}

static inline uint64_t load_64(const char *at) {
    uint64_t value;
    memcpy(&value, at, sizeof value);
    return value;
}

static inline char *load_ptr(const char *at) {
    char *value;
    memcpy(&value, at, sizeof value);
    return value;
}

static inline void store_8(char *at, uint8_t value) {
    memcpy(at, &value, sizeof value);
}

static inline void store_16(char *at, uint16_t value) {
    memcpy(at, &value, sizeof value);
}

static inline void store_32(char *at, uint32_t value) {
    memcpy(at, &value, sizeof value);
}

static inline void store_64(char *at, uint64_t value) {
    memcpy(at, &value, sizeof value);
}

static inline void store_ptr(char *at, char *value) {
    memcpy(at, &value, sizeof value);
}

static inline uint32_t ctlz_32(uint32_t value) {
    return value ? (uint32_t)__builtin_clz(value) : 32u;
}

static inline uint64_t ctlz_64(uint64_t value) {
    return value ? (uint64_t)__builtin_clzll(value) : 64u;
}

static inline uint32_t cttz_32(uint32_t value) {
    return value ? (uint32_t)__builtin_ctz(value) : 32u;
}

static inline uint64_t cttz_64(uint64_t value) {
    return value ? (uint64_t)__builtin_ctzll(value) : 64u;
}

static struct of_64_64 rattle_alloc(uint64_t size, uint64_t align) {
    void *made = malloc(size ? size : align);
    return (struct of_64_64){made != NULL, (uintptr_t)made};
}

static struct of_64_64 rattle_realloc(char *held, uint64_t before, uint64_t size, uint64_t align) {
    void *made = realloc(held, size ? size : align);
    (void)before;
    return (struct of_64_64){made != NULL, (uintptr_t)made};
}

static void rattle_dealloc(char *held) {
    free(held);
}
