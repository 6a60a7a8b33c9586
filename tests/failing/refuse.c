/* Allocations that are refused, as the program itself asks. tests/failures lays this beside a
   program that `rt try` builds, whose calls of the allocator all go by two functions of the kit.

   refusals_begin(FIRST, STEP, MOST)  from here on refuses the allocation FIRST, counted from 1, and
                                      each STEP-th after it, but no more than MOST
   refusals_end()                     refuses nothing more, and gives how many were refused
   allocations_made()                 how many there were between these calls

   The sanitizer's `malloc` is in the program itself, so LD_PRELOAD can't come before it, and C that
   defines the kit's functions is not linked. So each of the two is led here by a jump in its place.
   For x86-64 alone, as the kit. */
#include <stdint.h>
#include <stdlib.h>
#include <string.h>
#include <sys/mman.h>
#include <unistd.h>

/* How the kit's functions give a block: whether there is one, and where. */
struct block {
  uint64_t is_there;
  void *at;
};

extern char rattle_alloc[], rattle_realloc[];

static int is_counting;
static uint64_t made, next, step, left, refused;

void refusals_begin(uint64_t first_one, uint64_t each, uint64_t most) {
  made = refused = 0;
  next = first_one;
  step = each;
  left = most;
  is_counting = 1;
}

uint64_t refusals_end(void) {
  is_counting = 0;
  return refused;
}

uint64_t allocations_made(void) { return made; }

static int is_refused(void) {
  if (!is_counting) return 0;
  made++;
  if (left == 0 || made != next) return 0;
  next += step;
  left--;
  refused++;
  return 1;
}

static struct block block_at(void *at) {
  static char nowhere;
  struct block block = {at != NULL, at ? at : &nowhere};
  return block;
}

static struct block allocate(size_t size, size_t align) {
  return block_at(is_refused() ? NULL : malloc(size ? size : align));
}

static struct block reallocate(void *old, size_t kept, size_t size, size_t align) {
  (void)kept;
  return block_at(is_refused() ? NULL : realloc(old, size ? size : align));
}

/* Writes `mov rax, TO; jmp rax` in the place of a function's first bytes. */
static void lead(char *from, void *to) {
  unsigned char jump[12] = {0x48, 0xb8, 0, 0, 0, 0, 0, 0, 0, 0, 0xff, 0xe0};
  uintptr_t page = (uintptr_t)sysconf(_SC_PAGESIZE), start = (uintptr_t)from & ~(page - 1);
  memcpy(jump + 2, &to, sizeof to);
  if (mprotect((void *)start, 2 * page, PROT_READ | PROT_WRITE | PROT_EXEC) != 0) abort();
  memcpy(from, jump, sizeof jump);
  mprotect((void *)start, 2 * page, PROT_READ | PROT_EXEC);
}

__attribute__((constructor)) static void lead_here(void) {
  lead(rattle_alloc, (void *)allocate);
  lead(rattle_realloc, (void *)reallocate);
}
