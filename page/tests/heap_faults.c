// Takes, moves and gives blocks of the heap at random, beside pages that somebody else grows, and counts what went
// wrong.
#include "../heap.c"

#define BLOCKS 400
#define FOREIGN 64

static byte *blocks[BLOCKS];
static u64 sizes[BLOCKS];
static u64 salts[BLOCKS];
static byte *foreign[FOREIGN];
static u64 foreign_count, state = 88172645463325252ULL, bad;

static u64 drawn(u64 below) {
  state ^= state << 13;
  state ^= state >> 7;
  state ^= state << 17;
  return state % below;
}

static byte sign(u64 at, u64 place) { return (byte)(salts[at] + place * 7 + (place >> 8)); }

static void fill(u64 at, u64 from) {
  for (u64 place = from; place < sizes[at]; place++) blocks[at][place] = sign(at, place);
}

static void check(u64 at, u64 count) {
  for (u64 place = 0; place < count; place++) bad += blocks[at][place] != sign(at, place);
}

static u64 drawn_size(void) { return drawn(20) ? drawn(3000) : drawn(400000); }

static void take(u64 at) {
  sizes[at] = drawn_size();
  salts[at] = drawn(256);
  struct tried taken = rattle_alloc(sizes[at], 16);
  bad += !taken.ok || (u64)taken.block % 16;
  blocks[at] = taken.block;
  fill(at, 0);
}

static void move(u64 at) {
  u64 size = drawn_size(), kept = size < sizes[at] ? size : sizes[at];
  struct tried moved = rattle_realloc(blocks[at], kept, size, 16);
  bad += !moved.ok || (u64)moved.block % 16;
  blocks[at] = moved.block;
  check(at, kept);
  sizes[at] = size;
  fill(at, kept);
}

static void give(u64 at) {
  check(at, sizes[at]);
  rattle_dealloc(blocks[at]);
  blocks[at] = 0;
}

static void grow_page(void) {
  if (foreign_count == FOREIGN) return;
  byte *page = (byte *)(__builtin_wasm_memory_grow(0, 1) * PAGE);
  __builtin_memset(page, 90, PAGE);
  foreign[foreign_count++] = page;
}

u64 faults(u64 rounds) {
  for (u64 round = 0; round < rounds; round++) {
    u64 at = drawn(BLOCKS);
    if (drawn(1000) == 0) grow_page();
    if (!blocks[at]) take(at);
    else if (drawn(2)) move(at);
    else give(at);
  }
  for (u64 at = 0; at < BLOCKS; at++) if (blocks[at]) give(at);
  for (u64 at = 0; at < foreign_count; at++)
    for (u64 place = 0; place < PAGE; place++) bad += foreign[at][place] != 90;
  bad += rattle_alloc(1ULL << 50, 16).ok;
  return bad;
}
