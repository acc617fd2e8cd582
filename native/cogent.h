/*
 * cogent.h: what a text that `cogent build` writes needs of its surroundings, over malloc and free.
 *
 * docs/LANGUAGE.md, "The C subset", says what each built-in means. Nothing of this file is proved: that it does what is said
 * there, and that malloc and free do what the C standard says, is trusted.
 */
#ifndef COGENT_H
#define COGENT_H

#include <stddef.h>
#include <stdint.h>
#include <stdlib.h>

/*
 * The state of the allocator. It answers yes to a call for a cell as long as cells are left and malloc gives one, else no. A caller
 * makes one and hands on its address; CG_UNBOUNDED leaves all answers to malloc.
 */
struct SysState {
    uint64_t left;
};

#define CG_UNBOUNDED UINT64_MAX

/* The most elements that an array may have. */
#define CG_MOST_ELEMENTS 1048576u

/* Indices are mostly in range; compilers that take the hint lay out loops for that. */
#ifdef __GNUC__
#define CG_LIKELY(test) __builtin_expect(test, 1)
#else
#define CG_LIKELY(test) (test)
#endif

/* What values of a user's abstract types point to; whoever writes the abstract functions defines it. */
struct Foreign;

/* Takes the next answer, as far as it is ours. */
static inline int cg_answer(struct SysState *q)
{
    if (q->left == 0) {
        return 0;
    }
    q->left -= 1;
    return 1;
}

/* A cell for a struct, whose members are unset, or the null pointer. */
static inline void *cg_new(struct SysState *q, size_t size)
{
    return cg_answer(q) ? malloc(size) : NULL;
}

/* Gives the cell of a struct back. */
static inline void cg_free(struct SysState *q, void *p)
{
    (void)q;
    free(p);
}

/*
 * Arrays of words of N bits: struct WN, and
 *   cg_wN_create   an array of n zeros, or the null pointer, as it also is for too many elements
 *   cg_wN_free     gives it back
 *   cg_wN_length   how many elements it has
 *   cg_wN_get      the element at i; 0 where there is none
 *   cg_wN_put      writes the element at i; nothing where there is none
 */
#define CG_ARRAYS(N)                                                                  \
    struct W##N {                                                                     \
        uint32_t length;                                                              \
        uint##N##_t elements[];                                                       \
    };                                                                                \
                                                                                      \
    static inline struct W##N *cg_w##N##_create(struct SysState *q, uint32_t n)       \
    {                                                                                 \
        struct W##N *p = NULL;                                                        \
        if (cg_answer(q) && n <= CG_MOST_ELEMENTS) {                                  \
            p = calloc(1, sizeof(struct W##N) + n * sizeof(uint##N##_t));             \
        }                                                                             \
        if (p != NULL) {                                                              \
            p->length = n;                                                            \
        }                                                                             \
        return p;                                                                     \
    }                                                                                 \
                                                                                      \
    static inline void cg_w##N##_free(struct SysState *q, struct W##N *p)             \
    {                                                                                 \
        (void)q;                                                                      \
        free(p);                                                                      \
    }                                                                                 \
                                                                                      \
    static inline uint32_t cg_w##N##_length(const struct W##N *p)                     \
    {                                                                                 \
        return p->length;                                                             \
    }                                                                                 \
                                                                                      \
    static inline uint##N##_t cg_w##N##_get(const struct W##N *p, uint32_t i)         \
    {                                                                                 \
        return CG_LIKELY(i < p->length) ? p->elements[i] : 0;                         \
    }                                                                                 \
                                                                                      \
    static inline void cg_w##N##_put(struct W##N *p, uint32_t i, uint##N##_t v)       \
    {                                                                                 \
        if (CG_LIKELY(i < p->length)) {                                               \
            p->elements[i] = v;                                                       \
        }                                                                             \
    }

CG_ARRAYS(8)
CG_ARRAYS(16)
CG_ARRAYS(32)
CG_ARRAYS(64)

#undef CG_ARRAYS

#endif
