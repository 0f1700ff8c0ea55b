/* What the program script_trace asks of the toolchain's C library, for the program as a browser runs it. It reads and
   writes by two functions of the page. It has no words and no environment, and no memory is freed before the next run,
   which begins with none. */
typedef __UINT64_TYPE__ uint64_t;
typedef __INT64_TYPE__ int64_t;
typedef __UINTPTR_TYPE__ uintptr_t;

struct tried {
  uint64_t is_got;
  uint64_t at;
};

#define PAGE 65536ULL
/* Not more memory is given out. */
#define MOST (1ULL << 30)
#define UNUSED __attribute__((unused))

extern unsigned char __heap_base;
int main(void);
static uint64_t end;
static int error;

/* 16 is the greatest alignment that is asked for. */
static uint64_t rounded(uint64_t size) { return (size + 15) / 16 * 16; }

/* The toolchain's own functions. */

struct tried rattle_alloc(uint64_t size, UNUSED uint64_t align)
{
  uint64_t at = end, room = __builtin_wasm_memory_size(0) * PAGE;
  if (size > MOST || at + rounded(size) > MOST)
    return (struct tried){0, 0};
  if (at + rounded(size) > room && __builtin_wasm_memory_grow(0, (rounded(size) + PAGE - 1) / PAGE) == (uintptr_t)-1)
    return (struct tried){0, 0};
  end = at + rounded(size);
  return (struct tried){1, at};
}

struct tried rattle_realloc(void *block, uint64_t kept, uint64_t size, uint64_t align)
{
  struct tried found = rattle_alloc(size, align);
  unsigned char *to = (unsigned char *)(uintptr_t)found.at;
  const unsigned char *from = block;
  for (uint64_t at = 0; found.is_got && at < kept; at += 1)
    to[at] = from[at];
  return found;
}

void rattle_dealloc(UNUSED void *block) {}
int64_t rattle_arg(UNUSED uint64_t number, UNUSED char *out, UNUSED uint64_t room) { return -1; }
int64_t rattle_env(UNUSED const char *name, UNUSED char *out, UNUSED uint64_t room) { return -1; }
int64_t rattle_env_at(UNUSED uint64_t number, UNUSED char *out, UNUSED uint64_t room) { return -1; }
int rattle_errno(void) { return error; }
void rattle_set_errno(int number) { error = number; }
int64_t __sysv_signal(UNUSED int number, UNUSED int64_t handler) { return 0; }

/* The multiplication of 128 bits, for which clang calls a function. */
__int128 __multi3(__int128 left, __int128 right)
{
  const uint64_t half = 0xffffffff;
  uint64_t a = (uint64_t)left, b = (uint64_t)right;
  uint64_t low = (a & half) * (b & half);
  uint64_t middle = (a >> 32) * (b & half) + (low >> 32);
  uint64_t other = (a & half) * (b >> 32) + (middle & half);
  uint64_t high = (a >> 32) * (b >> 32) + (middle >> 32) + (other >> 32);
  high += a * (uint64_t)(right >> 64) + (uint64_t)(left >> 64) * b;
  return (__int128)((unsigned __int128)high << 64 | other << 32 | (low & half));
}

/* One run of the program. It returns the status. */
__attribute__((export_name("run"))) int run(void)
{
  end = rounded((uintptr_t)&__heap_base);
  return main();
}
