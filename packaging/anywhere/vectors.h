/* WebAssembly's vectors, 16 bytes each, and its instructions on them, by their names there: by the vectors of GNU's C where a
 * compiler has them, as gcc and clang do, and else lane by lane. */
#if defined(__GNUC__) && !defined(RIICHI_DESK_NO_VECTORS)

#define LANES __attribute__((vector_size(16)))
typedef u8 v128 LANES;
typedef u8 u8_lanes LANES;
typedef u16 u16_lanes LANES;
typedef u32 u32_lanes LANES;
typedef u64 u64_lanes LANES;
typedef s8 s8_lanes LANES;
typedef s16 s16_lanes LANES;
typedef s32 s32_lanes LANES;
typedef s64 s64_lanes LANES;
/* Of two vectors, or of one and a number, a vector whose lanes are RESULT of theirs: `a`, `b` and `n`. Here `a` and `b` are all lanes
 * at once. */
#define OF_TWO(name, type, result) \
    static inline v128 name(v128 x, v128 y) { \
        type##_lanes a = (type##_lanes)x, b = (type##_lanes)y; \
        return (v128)(result); \
    }
#define OF_NUMBER(name, type, number, result) \
    static inline v128 name(v128 x, number n) { \
        type##_lanes a = (type##_lanes)x; \
        return (v128)(result); \
    }
#define ONES_WHERE(condition) (condition)
#define EITHER(type, condition, a, b) (((type##_lanes)(condition) & a) | (~(type##_lanes)(condition) & b))
#define LANE(type, vector, at) (((type##_lanes)vector)[at])
#define WITH_LANE(type, vector, at, number) \
    type##_lanes lanes = (type##_lanes)vector; \
    lanes[at] = (type)number; \
    return (v128)lanes
#if defined(__clang__)
#define SHUFFLE(name, moved, ...) \
    static inline v128 name(v128 x, v128 y) { return __builtin_shufflevector(x, y, __VA_ARGS__); }
#elif defined(__x86_64__) && !defined(__SSSE3__)
typedef unsigned __int128 whole LANES;
#define KEPT(vector, low, high) ((v128)(vector) & (v128)(u64_lanes){low, high})
#define MOVED(vector, places, low, high) \
    KEPT((places) < 0 ? (whole)vector >> (-8 * (places) & 127) : (whole)vector << (8 * (places) & 127), low, high)
#define REPEATED(vector, lane, low, high) KEPT((v128){0} + vector[lane], low, high)
#define SHUFFLE(name, moved, ...) \
    static inline v128 name(v128 x, v128 y) { return (void)x, (void)y, moved; }
#else
#define SHUFFLE(name, moved, ...) \
    static inline v128 name(v128 x, v128 y) { return __builtin_shuffle(x, y, (v128){__VA_ARGS__}); }
#endif

#else

typedef struct { u8 bytes[16]; } v128;
#define OF_TWO(name, type, result) \
    static v128 name(v128 x, v128 y) { \
        for (size_t at = 0; at < 16; at += sizeof(type)) { \
            type a, b; \
            memcpy(&a, x.bytes + at, sizeof a), memcpy(&b, y.bytes + at, sizeof b); \
            a = (type)(result), memcpy(x.bytes + at, &a, sizeof a); \
        } \
        return x; \
    }
#define OF_NUMBER(name, type, number, result) \
    static v128 name(v128 x, number n) { \
        for (size_t at = 0; at < 16; at += sizeof(type)) { \
            type a; \
            memcpy(&a, x.bytes + at, sizeof a), a = (type)(result), memcpy(x.bytes + at, &a, sizeof a); \
        } \
        return x; \
    }
#define ONES_WHERE(condition) (-(condition))
#define EITHER(type, condition, a, b) ((condition) ? a : b)
#define LANE(type, vector, at) (*(type *)memcpy(&(type){0}, vector.bytes + (at) * sizeof(type), sizeof(type)))
#define WITH_LANE(type, vector, at, number) \
    type lane = (type)number; \
    memcpy(vector.bytes + (at) * sizeof lane, &lane, sizeof lane); \
    return vector
#define SHUFFLE(name, moved, ...) \
    static v128 name(v128 x, v128 y) { \
        static const u8 lanes[] = {__VA_ARGS__}; \
        v128 told; \
        for (int at = 0; at < 16; at++) told.bytes[at] = lanes[at] < 16 ? x.bytes[lanes[at]] : y.bytes[lanes[at] - 16]; \
        return told; \
    }

#endif

#define NO_VECTOR {0}
static const v128 zeros = NO_VECTOR;
enum { MOST = 255 }; /* of a byte */

static inline v128 v128_load(const wasm_rt_memory_t *memory, u64 at) {
    v128 told;
    memcpy(&told, memory->data + at, sizeof told);
    return told;
}

static inline void v128_store(wasm_rt_memory_t *memory, u64 at, v128 x) { memcpy(memory->data + at, &x, sizeof x); }

OF_TWO(v128_and, u64, a & b)
OF_TWO(v128_andnot, u64, a & ~b)
OF_TWO(v128_or, u64, a | b)
OF_TWO(v128_xor, u64, a ^ b)
static inline v128 v128_bitselect(v128 x, v128 y, v128 mask) { return v128_or(v128_and(mask, x), v128_andnot(y, mask)); }
static inline u32 v128_any_true(v128 x) { return (LANE(u64, x, 0) | LANE(u64, x, 1)) != 0; }

/* The instructions that each width of lanes has. */
#define OF_WIDTH(shape, u, s, number) \
    OF_TWO(shape##_add, u, a + b) \
    OF_TWO(shape##_sub, u, a - b) \
    OF_TWO(shape##_eq, u, ONES_WHERE(a == b)) \
    OF_TWO(shape##_ne, u, ONES_WHERE(a != b)) \
    OF_TWO(shape##_lt_u, u, ONES_WHERE(a < b)) \
    OF_TWO(shape##_gt_u, u, ONES_WHERE(a > b)) \
    OF_TWO(shape##_le_u, u, ONES_WHERE(a <= b)) \
    OF_TWO(shape##_ge_u, u, ONES_WHERE(a >= b)) \
    OF_TWO(shape##_lt_s, s, ONES_WHERE(a < b)) \
    OF_TWO(shape##_gt_s, s, ONES_WHERE(a > b)) \
    OF_TWO(shape##_le_s, s, ONES_WHERE(a <= b)) \
    OF_TWO(shape##_ge_s, s, ONES_WHERE(a >= b)) \
    OF_TWO(shape##_min_u, u, EITHER(u, a < b, a, b)) \
    OF_TWO(shape##_max_u, u, EITHER(u, a > b, a, b)) \
    OF_TWO(shape##_min_s, s, EITHER(s, a < b, a, b)) \
    OF_TWO(shape##_max_s, s, EITHER(s, a > b, a, b)) \
    OF_NUMBER(shape##_shl, u, u32, a << n % (8 * sizeof(u))) \
    OF_NUMBER(shape##_shr_u, u, u32, a >> n % (8 * sizeof(u))) \
    OF_NUMBER(shape##_shr_s, s, u32, a >> n % (8 * sizeof(u))) \
    OF_NUMBER(shape##_filled, u, number, a + (u)n) \
    static inline v128 shape##_splat(number n) { return shape##_filled(zeros, n); } \
    static inline v128 shape##_replace_lane(v128 x, number n, u32 at) { WITH_LANE(u, x, at, n); } \
    static inline v128 shape##_neg(v128 x) { return shape##_sub(zeros, x); } \
    static inline v128 shape##_abs(v128 x) { return shape##_max_s(x, shape##_neg(x)); } \
    static inline u32 shape##_all_true(v128 x) { return !v128_any_true(shape##_eq(x, zeros)); }
OF_WIDTH(i8x16, u8, s8, u32)
OF_WIDTH(i16x8, u16, s16, u32)
OF_WIDTH(i32x4, u32, s32, u32)
OF_WIDTH(i64x2, u64, s64, u64)
static inline v128 v128_not(v128 x) { return i64x2_eq(v128_and(x, zeros), zeros); }
/* (a u16 is made an int before it is multiplied, and the product of two may not fit one) */
OF_TWO(i16x8_mul, u16, 1u * a * b)
OF_TWO(i32x4_mul, u32, a * b)
OF_TWO(i64x2_mul, u64, a * b)
OF_TWO(i8x16_add_sat_u, u8, a + EITHER(u8, b < MOST - a, b, (MOST - a)))
OF_TWO(i8x16_sub_sat_u, u8, a - EITHER(u8, b < a, b, a))
static inline u32 i8x16_extract_lane_u(v128 x, u32 at) { return LANE(u8, x, at); }
static inline u32 i16x8_extract_lane_u(v128 x, u32 at) { return LANE(u16, x, at); }
static inline u32 i32x4_extract_lane(v128 x, u32 at) { return LANE(u32, x, at); }
static inline u64 i64x2_extract_lane(v128 x, u32 at) { return LANE(u64, x, at); }
static inline v128 i64x2_const(u64 low, u64 high) { return i64x2_replace_lane(i64x2_splat(low), high, 1); }
static inline v128 i64x2_alone(u64 low) { return i64x2_replace_lane(zeros, low, 0); }

/* The highest bit of each lane of eight. */
static inline u32 highest_bits(u64 lanes) { return (u32)((lanes & 0x8080808080808080) * 0x02040810204081 >> 56); }
static inline u32 i8x16_bitmask(v128 x) { return highest_bits(LANE(u64, x, 0)) | highest_bits(LANE(u64, x, 1)) << 8; }
static inline u32 i32x4_bitmask(v128 x) {
    return LANE(u32, x, 0) >> 31 | LANE(u32, x, 1) >> 31 << 1 | LANE(u32, x, 2) >> 31 << 2 | LANE(u32, x, 3) >> 31 << 3;
}

/* A half of the lanes, each twice as wide. */
#define HALF(name, number, shape, count, first) \
    static inline v128 name(v128 x) { \
        v128 told = NO_VECTOR; \
        for (u32 at = 0; at < count; at++) told = shape##_replace_lane(told, LANE(number, x, first + at), at); \
        return told; \
    }
#define WIDER(shape, narrow, u, s, count) \
    HALF(shape##_extend_low_##narrow##_u, u, shape, count, 0) \
    HALF(shape##_extend_high_##narrow##_u, u, shape, count, count) \
    HALF(shape##_extend_low_##narrow##_s, s, shape, count, 0) \
    HALF(shape##_extend_high_##narrow##_s, s, shape, count, count)
WIDER(i16x8, i8x16, u8, s8, 8)
WIDER(i32x4, i16x8, u16, s16, 4)
WIDER(i64x2, i32x4, u32, s32, 2)

/* The lanes of two vectors, each half as wide: a number that has no room there is the nearest one that has. */
#define NARROWER(name, shape, wide, count, least, most) \
    static inline v128 name(v128 x, v128 y) { \
        v128 told = NO_VECTOR; \
        for (u32 at = 0; at < 2 * count; at++) { \
            s32 lane = at < count ? LANE(wide, x, at) : LANE(wide, y, at - count); \
            told = shape##_replace_lane(told, (u32)(lane < least ? least : lane > most ? most : lane), at); \
        } \
        return told; \
    }
NARROWER(i16x8_narrow_i32x4_u, i16x8, s32, 4, 0, 65535)
NARROWER(i16x8_narrow_i32x4_s, i16x8, s32, 4, -32768, 32767)
NARROWER(i8x16_narrow_i16x8_u, i8x16, s16, 8, 0, MOST)
NARROWER(i8x16_narrow_i16x8_s, i8x16, s16, 8, -128, 127)

/* Lanes from memory, each a number of that width. */
#define LOAD_LANE(bits, shape) \
    static inline v128 v128_load##bits##_lane(const wasm_rt_memory_t *memory, u32 place, v128 x, u32 offset, u32 at) { \
        u##bits lane; \
        memcpy(&lane, memory->data + (u64)place + offset, sizeof lane); \
        return shape##_replace_lane(x, lane, at); \
    }
LOAD_LANE(8, i8x16)
LOAD_LANE(16, i16x8)
LOAD_LANE(32, i32x4)
LOAD_LANE(64, i64x2)
