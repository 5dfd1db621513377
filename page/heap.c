// The heap of the module. No proof covers it.
//
// A block has a header of 16 bytes, which holds its class; every block is aligned to 16. Classes are 16 bytes apart up
// to 1024, and from there on four to each doubling. A block that is given back is kept for its class. New blocks are
// cut from pages that the memory grew by, one behind the other. Pages that somebody else grew are never touched.

typedef unsigned long long u64;
typedef unsigned char byte;

#define PAGE 65536ULL
#define HEADER 16ULL
#define FINE 1024ULL
#define FINE_CLASSES 64ULL
#define CLASSES 224ULL
// The memory grows by this many pages at least.
#define STEP 16ULL

// What the three functions answer: 1 and a block, or 0 and a pointer that is no block.
struct tried {
  u64 ok;
  byte *block;
};

struct header {
  u64 kind;
  struct header *next;
};

static struct header *kept[CLASSES];
// What is left of the pages that the memory last grew by.
static u64 front, end;

// The class of the smallest blocks that have so many bytes; `CLASSES` where there is none.
static u64 class_of(u64 size) {
  if (size <= FINE) return size == 0 ? 0 : (size - 1) / 16;
  u64 top = 63 - (u64)__builtin_clzll(size - 1);
  u64 quarter = (size - 1) >> (top - 2) & 3;
  u64 kind = FINE_CLASSES + (top - 10) * 4 + quarter;
  return kind < CLASSES ? kind : CLASSES;
}

static u64 size_of(u64 kind) {
  if (kind < FINE_CLASSES) return (kind + 1) * 16;
  u64 past = kind - FINE_CLASSES;
  return (5 + past % 4) << (past / 4 + 8);
}

// Has room for so many bytes at `front`, and answers whether it has.
static int make_room(u64 size) {
  if (end - front >= size) return 1;
  u64 pages = (size + PAGE - 1) / PAGE;
  if (pages < STEP) pages = STEP;
  u64 grown = __builtin_wasm_memory_grow(0, pages);
  if (grown == ~0ULL) return 0;
  // Behind the pages that the heap has already it goes on; else what is left of those is given up.
  if (grown * PAGE != end) front = grown * PAGE;
  end = (grown + pages) * PAGE;
  return 1;
}

static struct header *cut(u64 kind) {
  u64 size = HEADER + size_of(kind);
  if (!make_room(size)) return 0;
  struct header *made = (struct header *)front;
  front += size;
  made->kind = kind;
  return made;
}

static struct tried answer(struct header *found) {
  struct tried none = {0, (byte *)HEADER};
  struct tried some = {1, (byte *)found + HEADER};
  return found ? some : none;
}

struct tried rattle_alloc(u64 size, u64 align) {
  (void)align;
  u64 kind = class_of(size);
  if (kind == CLASSES) return answer(0);
  struct header *found = kept[kind];
  if (!found) return answer(cut(kind));
  kept[kind] = found->next;
  return answer(found);
}

void rattle_dealloc(byte *block) {
  struct header *given = (struct header *)(block - HEADER);
  given->next = kept[given->kind];
  kept[given->kind] = given;
}

struct tried rattle_realloc(byte *block, u64 used, u64 size, u64 align) {
  struct header *had = (struct header *)(block - HEADER);
  if (class_of(size) == had->kind) return answer(had);
  struct tried moved = rattle_alloc(size, align);
  if (!moved.ok) return moved;
  __builtin_memcpy(moved.block, block, used < size ? used : size);
  rattle_dealloc(block);
  return moved;
}
