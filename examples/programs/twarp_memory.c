// What a compiler may call by itself where a program copies or clears objects. `tools/cc` links what is called.
typedef unsigned char u8;
typedef unsigned long u64;

#define LIBRARY(name) __attribute__((section(".text.library." #name)))

LIBRARY(memcpy) void *memcpy(void *to, const void *from, u64 count) {
  u8 *end = (u8 *)to + count, *at = to;
  for (const u8 *next = from; at != end;) *at++ = *next++;
  return to;
}

LIBRARY(memset) void *memset(void *to, int value, u64 count) {
  u8 *end = (u8 *)to + count;
  for (u8 *at = to; at != end;) *at++ = (u8)value;
  return to;
}

LIBRARY(memmove) void *memmove(void *to, const void *from, u64 count) {
  u8 *at = to;
  const u8 *next = from;
  if (at < next) {
    while (count-- != 0) *at++ = *next++;
  } else {
    while (count-- != 0) at[count] = next[count];
  }
  return to;
}

LIBRARY(memcmp) int memcmp(const void *one, const void *other, u64 count) {
  const u8 *left = one, *right = other;
  for (u64 i = 0; i < count; i++) {
    if (left[i] != right[i]) return left[i] < right[i] ? -1 : 1;
  }
  return 0;
}
