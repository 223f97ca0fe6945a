/* The memory of the library in a page: three functions over memory.grow.

   A block has a head of 16 bytes with its class. Classes are the powers of two and the numbers half way between them; freed
   blocks of a class are in a list and serve again. */
typedef unsigned long u64;
_Static_assert(sizeof(u64) == 8 && sizeof(void *) == 8, "this is compiled for wasm64");

#define PAGE 65536ul
#define FEWEST_PAGES 64ul
#define HEAD 16ul
#define MOST (1ul << 40)

extern unsigned char __heap_base;

typedef struct head {
    u64 class;
    struct head *next;
} head;

static u64 top, end;
static head *freed[128];

/* The class of blocks that have room for so many bytes, the head among them; at least 32. */
static unsigned class_of(u64 bytes) {
    unsigned power = 63 - (unsigned)__builtin_clzl(bytes - 1);
    return 2 * power + (bytes > (3ul << (power - 1)));
}

static u64 size_of(u64 class) { return class & 1 ? 2ul << (class / 2) : 3ul << (class / 2 - 1); }

/* A block of memory that was never used; none where the memory doesn't grow. */
static head *fresh(u64 size) {
    if (top == 0) {
        top = ((u64)&__heap_base + HEAD - 1) & ~(HEAD - 1);
        end = __builtin_wasm_memory_size(0) * PAGE;
    }
    if (top + size > end) {
        u64 pages = (top + size - end + PAGE - 1) / PAGE;
        pages = pages < FEWEST_PAGES ? FEWEST_PAGES : pages;
        if (__builtin_wasm_memory_grow(0, pages) == ~0ul) {
            return 0;
        }
        end += pages * PAGE;
    }
    head *block = (head *)top;
    top += size;
    return block;
}

__attribute__((export_name("page_alloc"))) void *page_alloc(u64 bytes) {
    if (bytes > MOST) {
        return 0;
    }
    bytes = bytes < HEAD ? 2 * HEAD : bytes + HEAD;
    unsigned class = class_of(bytes);
    head *block = freed[class];
    if (block) {
        freed[class] = block->next;
    } else if (!(block = fresh(size_of(class)))) {
        return 0;
    }
    block->class = class;
    return block + 1;
}

__attribute__((export_name("page_free"))) void page_free(void *bytes) {
    if (bytes) {
        head *block = (head *)bytes - 1;
        block->next = freed[block->class];
        freed[block->class] = block;
    }
}

/* A block for so many bytes, with what was kept; the same one if it has room and isn't far too large. */
void *page_realloc(void *bytes, u64 kept, u64 wanted) {
    u64 room = size_of(((head *)bytes - 1)->class) - HEAD;
    if (wanted <= room && (wanted + HEAD < 2 * HEAD || 2 * wanted + 4 * HEAD > room)) {
        return bytes;
    }
    void *other = page_alloc(wanted);
    if (other) {
        __builtin_memcpy(other, bytes, kept < wanted ? kept : wanted);
        page_free(bytes);
    }
    return other;
}
