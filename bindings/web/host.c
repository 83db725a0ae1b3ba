/* What the module for browsers and Node has beside the library's own code: the heap that it asks
 * for memory, as it asks malloc elsewhere, and metres made nanometres, as numpy makes them for
 * Python. Nothing of this is proved, as malloc and numpy aren't.
 *
 * The heap. The memory from __heap_base on is a row of blocks, each with a head of 16 bytes and a
 * room of a multiple of 16, so that all rooms are aligned to 16. No two free blocks stand side by
 * side. Free ones stand in lists by their size: a list for each multiple of 16 below 256, and above
 * that sixteen for each power of two; a bit of each list says whether it has a block. So a block is
 * found, given back and joined in a few steps, whatever the heap holds. The row ends with a head
 * that has no room. The memory grows where no block is large enough, and never shrinks, since a
 * module can't give memory back. */

typedef unsigned long long u64;
typedef __SIZE_TYPE__ size_t;

/* -- what the kit and the library want of it, and what it has of them */

/* As the kit's own type of an answer: whether it went well, and the memory. */
typedef struct { u64 ok; void *at; } tried;

tried rattle_alloc(size_t bytes, size_t align);
tried rattle_realloc(void *at, size_t kept, size_t bytes, size_t align);
void rattle_dealloc(void *at);

/* Of the kit's linker: a call begins, and whether one before it trapped; it ends; and a trap. */
_Bool __rattle_enter(void);
void __rattle_leave(void);
void __rattle_trap(void);

extern unsigned char __heap_base;

#define EXPORT(name) __attribute__((export_name(#name))) name

static void enter(void) {
    if (__rattle_enter()) __rattle_trap();
}

/* -- blocks */

typedef struct block block;
struct block {
    block *below;         /* the block before it in memory, or null */
    u64 size;             /* its room in bytes, and 1 where it is free */
    block *next, **link;  /* of a free one, in its room: the next of its list, what points here */
};

enum { HEAD = 16, LEAST = 16, PAGE = 1 << 16, FINE = 16, LISTS = 656 };
static const u64 MOST = 1ull << 33;  /* the most bytes of one block */

static block *lists[LISTS];
static u64 filled[(LISTS + 63) / 64];
static block *end;                   /* the head that ends the row; null before the first block */
static u64 most_pages = 1ull << 48;  /* that the memory may have */

static u64 room(const block *it) { return it->size & ~1ull; }
static int is_free(const block *it) { return it->size & 1; }
static void *place(block *it) { return (char *)it + HEAD; }
static block *block_of(void *at) { return (block *)((char *)at - HEAD); }
static block *above(block *it) { return (block *)((char *)it + HEAD + room(it)); }
static u64 rounded(u64 bytes) { return bytes < LEAST ? LEAST : (bytes + 15) & ~15ull; }

/* The list of blocks of this room. */
static unsigned list_of(u64 size) {
    if (size < 256) return size / 16;
    unsigned power = 63 - __builtin_clzll(size);
    return FINE + (power - 8) * FINE + (size >> (power - 4) & (FINE - 1));
}

/* The first list of which every block has this room. */
static unsigned list_from(u64 size) {
    if (size < 256) return list_of(size);
    return list_of(size + (1ull << (63 - __builtin_clzll(size) - 4)) - 1);
}

static void put_in_list(block *it) {
    unsigned list = list_of(room(it));
    it->size |= 1;
    it->next = lists[list];
    it->link = &lists[list];
    if (it->next) it->next->link = &it->next;
    lists[list] = it;
    filled[list / 64] |= 1ull << list % 64;
}

static void take_from_list(block *it) {
    unsigned list = list_of(room(it));
    it->size &= ~1ull;
    *it->link = it->next;
    if (it->next) it->next->link = it->link;
    if (!lists[list]) filled[list / 64] &= ~(1ull << list % 64);
}

/* A free block with this room, or null. */
static block *find(u64 size) {
    unsigned list = list_from(size), word = list / 64;
    u64 some = filled[word] & ~0ull << list % 64;
    while (!some && ++word < sizeof filled / sizeof *filled) some = filled[word];
    return some ? lists[word * 64 + __builtin_ctzll(some)] : 0;
}

/* Gives a block the whole of the free one above it. */
static void join(block *it, block *up) {
    take_from_list(up);
    it->size += HEAD + room(up);
    above(it)->below = it;
}

/* Makes a block free, which stands in no list. */
static void give_back(block *it) {
    block *up = above(it), *down = it->below;
    if (is_free(up)) join(it, up);
    if (down && is_free(down)) {
        take_from_list(down);
        down->size += HEAD + room(it);
        above(down)->below = down;
        it = down;
    }
    put_in_list(it);
}

/* Makes free what a block has beyond this room, where that is a block. */
static void cut(block *it, u64 size) {
    u64 rest = room(it) - size;
    if (rest < HEAD + LEAST) return;
    block *up = above(it), *made;
    it->size = size;
    made = above(it);
    made->below = it;
    made->size = rest - HEAD;
    up->below = made;
    give_back(made);
}

/* Grows the memory by at least so many pages, and by an eighth of it where that can be had. */
static int grow(u64 least) {
    u64 pages = __builtin_wasm_memory_size(0), wish = pages / 8;
    if (pages + least > most_pages) return 0;
    if (wish > most_pages - pages) wish = most_pages - pages;
    if (wish > least && __builtin_wasm_memory_grow(0, wish) != ~(size_t)0) return 1;
    return __builtin_wasm_memory_grow(0, least) != ~(size_t)0;
}

/* Has a free block of this room at the end of the row, and answers whether it could. (Others may
 * have grown the memory meanwhile: the row then goes on behind the end that it had.) */
static int extend(u64 size) {
    u64 base = ((u64)&__heap_base + 15) & ~15ull;
    u64 from = end ? (u64)end : base;
    block *down = end ? end->below : 0;
    u64 has = down && is_free(down) ? HEAD + room(down) : 0;
    u64 wanted = from - has + 2 * HEAD + size;
    u64 now = (u64)__builtin_wasm_memory_size(0) * PAGE;
    if (wanted > now && !grow((wanted - now + PAGE - 1) / PAGE)) return 0;
    now = (u64)__builtin_wasm_memory_size(0) * PAGE;
    block *made = (block *)from;
    end = (block *)(now - HEAD);
    made->below = down;
    made->size = (u64)end - from - HEAD;
    end->below = made;
    end->size = 0;
    give_back(made);
    return 1;
}

static void *take(u64 bytes) {
    if (bytes > MOST) return 0;
    u64 size = rounded(bytes);
    block *it = find(size);
    /* (a list may begin below the room that is looked for, by a sixteenth of it) */
    if (!it && extend(size + size / 16 + LEAST)) it = find(size);
    if (!it) return 0;
    take_from_list(it);
    cut(it, size);
    return place(it);
}

/* Makes a block larger where it stands, and answers whether it could. */
static int widen(block *it, u64 size) {
    block *up = above(it);
    int is_last = up == end || (is_free(up) && above(up) == end);
    u64 has = room(it) + (is_free(up) ? HEAD + room(up) : 0);
    if (has < size && !(is_last && extend(size - room(it)))) return 0;
    up = above(it);
    if (!is_free(up) || room(it) + HEAD + room(up) < size) return 0;
    join(it, up);
    return 1;
}

/* -- the heap as the library has it. (All that it asks for is aligned to 16 at most.) */

tried rattle_alloc(size_t bytes, size_t align) {
    (void)align;
    void *at = take(bytes);
    return (tried){at != 0, at};
}

void rattle_dealloc(void *at) {
    if (at) give_back(block_of(at));
}

tried rattle_realloc(void *at, size_t kept, size_t bytes, size_t align) {
    (void)align;
    if (bytes > MOST) return (tried){0, 0};
    block *it = block_of(at);
    u64 size = rounded(bytes);
    if (size <= room(it) || widen(it, size)) {
        cut(it, size);
        return (tried){1, at};
    }
    void *made = take(bytes);
    if (!made) return (tried){0, 0};
    __builtin_memcpy(made, at, kept < bytes ? kept : bytes);
    give_back(it);
    return (tried){1, made};
}

/* -- the heap as the host has it */

/* A buffer of so many bytes, aligned to 16, or null. */
void *EXPORT(octofix_host_take)(size_t bytes) {
    enter();
    void *at = take(bytes);
    __rattle_leave();
    return at;
}

/* Gives a buffer back. */
void EXPORT(octofix_host_free)(void *at) {
    enter();
    rattle_dealloc(at);
    __rattle_leave();
}

/* From now on the memory has at most so many bytes, or those that it has already. */
void EXPORT(octofix_host_limit)(u64 bytes) {
    enter();
    most_pages = bytes / PAGE;
    __rattle_leave();
}

/* -- metres */

static const double NANOMETRES = 1e9, FAR = 1e16;

/* One point in whole nanometres, each number the nearest, to the even one of two; and whether all
 * are finite and below 10^16. `turn`, where there is one, has the rows of a matrix. The order of
 * the sum is that of bindings/python/octofix/_arrays.py, so that the same point comes out. */
static int place_of(const double metres[3], const double *turn, long long *at) {
    for (int axis = 0; axis < 3; axis++) {
        double way = metres[axis];
        if (turn) {
            const double *row = turn + 3 * axis;
            way = metres[0] * row[0] + metres[1] * row[1] + metres[2] * row[2];
        }
        double whole = __builtin_rint(way * NANOMETRES);
        if (!(__builtin_fabs(whole) < FAR)) return 0;
        at[axis] = (long long)whole;
    }
    return 1;
}

/* Points in metres, turned, as nanometres: each stands `step` numbers behind the one before it, and
 * its place `stride` numbers behind that of the one before. Answers how many are done: the number
 * of the first that isn't finite or is 10^7 m away, and else all. */
#define PLACES(name, number)                                                                    \
    u64 EXPORT(name)(const number *metres, u64 step, u64 count, const double *turn,             \
                     long long *places, u64 stride) {                                           \
        enter();                                                                                \
        u64 done = 0;                                                                           \
        for (; done < count; done++) {                                                          \
            const number *it = metres + step * done;                                            \
            const double wide[3] = {it[0], it[1], it[2]};                                       \
            if (!place_of(wide, turn, places + stride * done)) break;                           \
        }                                                                                       \
        __rattle_leave();                                                                       \
        return done;                                                                            \
    }
PLACES(octofix_host_places, double)
PLACES(octofix_host_places_32, float)
