/* The heap of the module in the playground: blocks with room for a power of two of bytes, over a
   memory that grows up to a limit. A block that was given back waits in the list of its order until
   one of that order is asked for. rattle_alloc, rattle_realloc and rattle_dealloc are what the
   library calls, as the kit's C part has them for other machines; host_alloc and host_free are for
   the page. */
typedef unsigned long long u64;
typedef unsigned char u8;

/* What the library is told: 1 and where the block is, or 0 and where nothing is. */
typedef struct {
  u64 done, at;
} Answer;

/* What stands before the room of a block, which is 2 to the power of `order`. */
typedef struct Block {
  u64 order;
  struct Block *next;
} Block;

enum { LEAST = 4, MOST = 30, PAGE = 16, MORE = 64 };

extern u8 __heap_base;
static Block *waiting[MOST + 1];
static u64 top;
static u8 nothing[16];

/* The least order that has room for so many bytes; one above MOST where none has. */
static u64 order_of(u64 bytes) {
  u64 order = LEAST;
  if (bytes > 1ull << MOST)
    return MOST + 1;
  while (1ull << order < bytes)
    order++;
  return order;
}

/* Whether memory reaches so far, or grows so far; the heap ends at 2 to the power of MOST. */
static int reaches(u64 end) {
  u64 pages = __builtin_wasm_memory_size(0), more;
  if (end > 1ull << MOST)
    return 0;
  if (end <= pages << PAGE)
    return 1;
  more = ((end - (pages << PAGE)) >> PAGE) + 1;
  return __builtin_wasm_memory_grow(0, more < MORE ? MORE : more) != -1ul;
}

/* A new block above all others. */
static Block *new_block(u64 order) {
  u64 size = sizeof(Block) + (1ull << order);
  Block *made;
  if (!top)
    top = ((u64)&__heap_base + 15) & ~15ull;
  if (!reaches(top + size))
    return 0;
  made = (Block *)top;
  top += size;
  made->order = order;
  return made;
}

u8 *host_alloc(u64 bytes) {
  u64 order = order_of(bytes);
  Block *found;
  if (order > MOST)
    return 0;
  found = waiting[order];
  if (found)
    waiting[order] = found->next;
  else
    found = new_block(order);
  return found ? (u8 *)(found + 1) : 0;
}

void host_free(u8 *at) {
  Block *block;
  if (!at)
    return;
  block = (Block *)at - 1;
  block->next = waiting[block->order];
  waiting[block->order] = block;
}

static Answer answer(u8 *at) {
  Answer told = {at != 0, (u64)(at ? at : nothing)};
  return told;
}

Answer rattle_alloc(u64 bytes, u64 align) { return answer(host_alloc(bytes ? bytes : align)); }

Answer rattle_realloc(u8 *at, u64 kept, u64 bytes, u64 align) {
  u64 wanted = bytes ? bytes : align;
  u8 *found;
  if (order_of(wanted) <= ((Block *)at - 1)->order)
    return answer(at);
  found = host_alloc(wanted);
  if (found) {
    __builtin_memcpy(found, at, kept);
    host_free(at);
  }
  return answer(found);
}

void rattle_dealloc(u8 *at) { host_free(at); }
