// The same model as an ordinary program of this machine, for debuggers and sanitizers:
//
//   cc -g -DNATIVE -fsanitize=address,undefined model.c -o model && ./model --lps 4 --end 100 --set service=10
//
// It simulates on one thread and prints the text of `twarp run --program model.elf` with the same options. It takes --lps,
// --end, --seed, --set, --data, --finals and --records. `run`, and the options that only say how a run is executed, are
// taken too and change nothing, so that a command of twarp can be handed to it.
//
// A call that the simulator would answer by a trap ends the handler: it is recorded as twarp records it, but with 0 for the
// address in the program, and a line on standard error says what was wrong. A debugger stops there at `break twarp_trap`. An
// address outside all objects is what sanitizers are for, and nothing counts instructions.
//
// Each process has its own copy of the model's objects that may change. The program finds them in its own file's table of
// symbols, as it finds those of --set: so it runs on Linux alone, and is linked neither with -s nor with -static.
#ifndef TWARP_NATIVE_H
#define TWARP_NATIVE_H

#include <elf.h>
#include <setjmp.h>

// What is used of the C library, by names that no model has.
#define TWARP_LIBRARY(name) __asm__(#name)
typedef struct twarp_file twarp_file;
extern twarp_file *twarp_out TWARP_LIBRARY(stdout), *twarp_errors TWARP_LIBRARY(stderr);
int twarp_fprintf(twarp_file *to, const char *form, ...) TWARP_LIBRARY(fprintf) __attribute__((format(printf, 2, 3)));
int twarp_fflush(twarp_file *to) TWARP_LIBRARY(fflush);
int twarp_ferror(twarp_file *of) TWARP_LIBRARY(ferror);
twarp_file *twarp_fopen(const char *path, const char *mode) TWARP_LIBRARY(fopen);
u64 twarp_fread(void *to, u64 size, u64 count, twarp_file *from) TWARP_LIBRARY(fread);
int twarp_fclose(twarp_file *file) TWARP_LIBRARY(fclose);
void *twarp_realloc(void *old, u64 size) TWARP_LIBRARY(realloc);
void twarp_free(void *memory) TWARP_LIBRARY(free);
void *twarp_calloc(u64 count, u64 size) TWARP_LIBRARY(calloc);
void twarp_exit(int status) TWARP_LIBRARY(exit) __attribute__((noreturn));
int twarp_strcmp(const char *one, const char *other) TWARP_LIBRARY(strcmp);
int twarp_strncmp(const char *one, const char *other, u64 count) TWARP_LIBRARY(strncmp);
u64 twarp_strlen(const char *text) TWARP_LIBRARY(strlen);
char *twarp_strchr(const char *text, int byte) TWARP_LIBRARY(strchr);
int twarp_mprotect(void *from, u64 size, int allowed) TWARP_LIBRARY(mprotect);
long twarp_sysconf(int name) TWARP_LIBRARY(sysconf);

#if defined(__SANITIZE_ADDRESS__)
#define TWARP_ADDRESSES 1
#elif defined(__has_feature)
#if __has_feature(address_sanitizer)
#define TWARP_ADDRESSES 1
#endif
#endif
#ifdef TWARP_ADDRESSES
#define TWARP_UNWATCHED __attribute__((no_sanitize("address")))
void __asan_poison_memory_region(const volatile void *from, u64 size);
#else
#define TWARP_UNWATCHED
#endif

enum {
  TWARP_MOST_SENDS = 16,
  TWARP_MOST_RECORDS = 4,
  TWARP_MOST_DRAWS = 64,
  TWARP_MOST_PROCESSES = 65536,
  TWARP_MOST_STATE = 4096,
  TWARP_MOST_DATA = 1 << 24,
  TWARP_MOST_SETS = 64,
  TWARP_MOST_PARTS = 1024,
};
#define TWARP_TRAPPED 4294967295u
#define TWARP_NONE 18446744073709551615u

enum twarp_reason { TWARP_BAD_CALL = 4, TWARP_TOO_MANY = 5, TWARP_BAD_SEND = 6 };
enum twarp_handler { TWARP_START, TWARP_FORWARD, TWARP_FINISH };

// An event. Those of the least key come first: tick, priority, the process that sent it, its number there.
struct twarp_event {
  u64 tick, number, a, b;
  u32 priority, source, dest;
};

struct twarp_record {
  u32 kind;
  u64 value;
};

struct twarp_process {
  u8 *state;
  u64 sent;   // the number of its next send
  u64 drawn;  // the place of its next word
  u64 block;  // of which `words` are the words, plus one
  u64 failed; // what the records of a process say whose start trapped, or 0
  u32 words[16];
};

struct twarp_part {
  u8 *at;
  u64 size;
};

struct twarp_set {
  const char *name;
  u64 length, value;
};

// The run. It isn't an object of the model, as its name tells.
static struct twarp_run {
  const char *program;
  u64 lps, end, seed;
  int finals, silent;
  struct twarp_set sets[TWARP_MOST_SETS];
  u32 set_count;
  const char *data_path;
  u64 data_bytes;
  struct twarp_part parts[TWARP_MOST_PARTS];
  u32 part_count;
  u64 state_bytes;
  struct twarp_process *processes;
  struct twarp_event *pending;
  u64 pending_count, pending_room;
  // The handler that runs.
  enum twarp_handler handler;
  u32 lp, priority;
  u64 tick;
  struct twarp_event sends[TWARP_MOST_SENDS];
  struct twarp_record records[TWARP_MOST_RECORDS];
  u32 send_count, record_count, draw_count;
  jmp_buf trapped;
  u64 trap, traps;
} twarp_run;

// What lies at `data`.
#define TWARP_TEXT_OF(number) #number
#define TWARP_TEXT(number) TWARP_TEXT_OF(number)
__asm__(".pushsection .bss.twarp_data,\"aw\",%nobits\n"
        ".balign 65536\n"
        ".globl data\n"
        ".type data, %object\n"
        "data: .zero 16777216\n"
        ".size data, 16777216\n"
        ".popsection\n");

__attribute__((noreturn, format(printf, 1, 2))) static void twarp_stop(const char *form, ...) {
  __builtin_va_list arguments;
  __builtin_va_start(arguments, form);
  extern int twarp_vfprintf(twarp_file *, const char *, __builtin_va_list) TWARP_LIBRARY(vfprintf);
  twarp_fprintf(twarp_errors, "%s: ", twarp_run.program);
  twarp_vfprintf(twarp_errors, form, arguments);
  twarp_fprintf(twarp_errors, "\n");
  twarp_exit(2);
}

static void *twarp_had(void *memory) {
  if (memory == 0) twarp_stop("no memory");
  return memory;
}

// ---- The calls.

// A handler did what it may not.
__attribute__((noinline)) static void twarp_trap(enum twarp_reason reason, const char *what) {
  static const char *const handlers[] = {"start", "forward", "finish"};
  struct twarp_run *run = &twarp_run;
  run->trap = (u64)reason << 32;
  run->traps++;
  if (run->traps <= 10) {
    twarp_fprintf(twarp_errors, "%s: trap in %s of process %u at %lu %u: %s\n", run->program, handlers[run->handler], run->lp,
                  run->tick, run->priority, what);
  }
  longjmp(run->trapped, 1);
}

static void twarp_block(u64 seed, u64 block, u64 stream, u32 words[16]) {
  static const u8 quarters[8][4] = {{0, 4, 8, 12}, {1, 5, 9, 13}, {2, 6, 10, 14}, {3, 7, 11, 15},
                                    {0, 5, 10, 15}, {1, 6, 11, 12}, {2, 7, 8, 13}, {3, 4, 9, 14}};
  static const u8 turns[4] = {16, 12, 8, 7};
  u32 first[16] = {0x61707865, 0x3320646e, 0x79622d32, 0x6b206574, (u32)seed, (u32)(seed >> 32)};
  first[12] = (u32)block;
  first[13] = (u32)(block >> 32);
  first[14] = (u32)stream;
  first[15] = (u32)(stream >> 32);
  for (u32 i = 0; i < 16; i++) words[i] = first[i];
  for (u32 i = 0; i < 4 * 8; i++) {
    const u8 *quarter = quarters[i % 8];
    for (u32 step = 0; step < 4; step++) {
      u32 *sum = &words[quarter[step % 2 * 2]], *mixed = &words[quarter[3 - step % 2 * 2]];
      *sum += words[quarter[1 + step % 2 * 2]];
      *mixed ^= *sum;
      *mixed = *mixed << turns[step] | *mixed >> (32 - turns[step]);
    }
  }
  for (u32 i = 0; i < 16; i++) words[i] += first[i];
}

u32 word(void) {
  struct twarp_run *run = &twarp_run;
  if (run->handler == TWARP_FINISH) twarp_trap(TWARP_TOO_MANY, "a draw");
  if (run->draw_count == TWARP_MOST_DRAWS) twarp_trap(TWARP_TOO_MANY, "a 65th draw");
  run->draw_count++;
  struct twarp_process *process = &run->processes[run->lp];
  u64 block = process->drawn / 16;
  if (process->block != block + 1) {
    twarp_block(run->seed, block, run->lp, process->words);
    process->block = block + 1;
  }
  return process->words[process->drawn++ % 16];
}

u64 below(u64 n) {
  if (n < 1 || n > 1ul << 32) twarp_trap(TWARP_BAD_CALL, "below of what isn't 1 to 4294967296");
  return (u64)word() * n >> 32;
}

void send(u32 dest, u64 delay, u32 priority, u64 a, u64 b) {
  struct twarp_run *run = &twarp_run;
  if (run->handler == TWARP_FINISH) twarp_trap(TWARP_BAD_SEND, "a send");
  if (dest >= run->lps) twarp_trap(TWARP_BAD_SEND, "a send to a process that isn't there");
  if (priority > 255) twarp_trap(TWARP_BAD_SEND, "a send with a priority above 255");
  if (delay == 0 && priority <= run->priority) twarp_trap(TWARP_BAD_SEND, "a send that isn't later than now");
  if (run->send_count == TWARP_MOST_SENDS) twarp_trap(TWARP_TOO_MANY, "a 17th send");
  // One at or past the end has a number, but never happens.
  u64 tick = delay < run->end - run->tick ? run->tick + delay : run->end;
  run->sends[run->send_count++] = (struct twarp_event){tick, 0, a, b, priority, run->lp, dest};
}

void emit(u32 kind, u64 value) {
  struct twarp_run *run = &twarp_run;
  if (kind == TWARP_TRAPPED) twarp_trap(TWARP_BAD_CALL, "a record of kind 4294967295");
  if (run->handler != TWARP_FORWARD) twarp_trap(TWARP_TOO_MANY, "a record outside forward");
  if (run->record_count == TWARP_MOST_RECORDS) twarp_trap(TWARP_TOO_MANY, "a 5th record");
  run->records[run->record_count++] = (struct twarp_record){kind, value};
}

u32 lps(void) {
  if (twarp_run.handler == TWARP_FINISH) twarp_trap(TWARP_BAD_CALL, "lps");
  return (u32)twarp_run.lps;
}

u64 data_size(void) { return twarp_run.data_bytes; }

// ---- The pending events, a heap.

static int twarp_before(const struct twarp_event *one, const struct twarp_event *other) {
  if (one->tick != other->tick) return one->tick < other->tick;
  if (one->priority != other->priority) return one->priority < other->priority;
  if (one->source != other->source) return one->source < other->source;
  return one->number < other->number;
}

static void twarp_push(struct twarp_event event) {
  struct twarp_run *run = &twarp_run;
  if (run->pending_count == run->pending_room) {
    run->pending_room = run->pending_room * 2 + 1024;
    run->pending = twarp_had(twarp_realloc(run->pending, run->pending_room * sizeof event));
  }
  u64 at = run->pending_count++;
  for (; at != 0 && twarp_before(&event, &run->pending[(at - 1) / 2]); at = (at - 1) / 2) run->pending[at] = run->pending[(at - 1) / 2];
  run->pending[at] = event;
}

static struct twarp_event twarp_pop(void) {
  struct twarp_run *run = &twarp_run;
  struct twarp_event least = run->pending[0], last = run->pending[--run->pending_count];
  u64 at = 0, child = 1;
  for (; child < run->pending_count; child = 2 * at + 1) {
    if (child + 1 < run->pending_count && twarp_before(&run->pending[child + 1], &run->pending[child])) child++;
    if (!twarp_before(&run->pending[child], &last)) break;
    run->pending[at] = run->pending[child];
    at = child;
  }
  run->pending[at] = last;
  return least;
}

// ---- The handlers.

#ifdef TWARP_ADDRESSES
// Objects of the model lie between guards that the sanitizer watches. So their bytes are copied one by one.
TWARP_UNWATCHED static void twarp_copy(volatile u8 *to, const volatile u8 *from, u64 count) {
  for (u64 i = 0; i < count; i++) to[i] = from[i];
}
#else
static void twarp_copy(u8 *to, const u8 *from, u64 count) { __builtin_memcpy(to, from, count); }
#endif

static void twarp_load(void) {
  u8 *state = twarp_run.processes[twarp_run.lp].state;
  for (u32 i = 0; i < twarp_run.part_count; i++) {
    twarp_copy(twarp_run.parts[i].at, state, twarp_run.parts[i].size);
    state += twarp_run.parts[i].size;
  }
}

static void twarp_save(void) {
  u8 *state = twarp_run.processes[twarp_run.lp].state;
  for (u32 i = 0; i < twarp_run.part_count; i++) {
    twarp_copy(state, twarp_run.parts[i].at, twarp_run.parts[i].size);
    state += twarp_run.parts[i].size;
  }
}

// Runs a handler at a process and a time. Answers whether it ended without a trap; only then its state is kept.
static int twarp_call(enum twarp_handler handler, u32 lp, u64 tick, u32 priority, u64 a, u64 b, u64 *value) {
  // The compiler can't know which function these are: so it keeps no object of the model in a register.
  void (*volatile begin)(u32) = start;
  void (*volatile happen)(u32, u64, u32, u64, u64) = forward;
  u64 (*volatile end)(u32) = finish;
  struct twarp_run *run = &twarp_run;
  run->handler = handler;
  run->lp = lp;
  run->tick = tick;
  run->priority = priority;
  run->send_count = run->record_count = run->draw_count = 0;
  twarp_load();
  if (setjmp(run->trapped)) return 0;
  switch (handler) {
    case TWARP_START: begin(lp); break;
    case TWARP_FORWARD: happen(lp, tick, priority, a, b); break;
    case TWARP_FINISH: *value = end(lp); return 1;
  }
  twarp_save();
  return 1;
}

static void twarp_post(void) {
  struct twarp_run *run = &twarp_run;
  for (u32 i = 0; i < run->send_count; i++) {
    run->sends[i].number = run->processes[run->lp].sent++;
    if (run->sends[i].tick < run->end) twarp_push(run->sends[i]);
  }
}

static void twarp_print(u32 kind, u64 value) {
  struct twarp_run *run = &twarp_run;
  if (!run->silent) twarp_fprintf(twarp_out, "%lu %u %u %u %lu\n", run->tick, run->priority, run->lp, kind, value);
}

static void twarp_start_all(void) {
  struct twarp_run *run = &twarp_run;
  for (u32 lp = 0; lp < run->lps; lp++) {
    struct twarp_process *process = &run->processes[lp];
    if (!twarp_call(TWARP_START, lp, 0, 0, 0, 0, 0)) {
      process->failed = run->trap;
      run->sends[0] = (struct twarp_event){0, 0, 0, 0, 1, lp, lp};
      run->send_count = 1;
    }
    twarp_post();
  }
}

static void twarp_step(void) {
  struct twarp_run *run = &twarp_run;
  struct twarp_event event = twarp_pop();
  u64 failed = run->processes[event.dest].failed;
  if (failed != 0) {
    run->lp = event.dest;
    run->tick = event.tick;
    run->priority = event.priority;
    twarp_print(TWARP_TRAPPED, failed);
  } else if (twarp_call(TWARP_FORWARD, event.dest, event.tick, event.priority, event.a, event.b, 0)) {
    for (u32 i = 0; i < run->record_count; i++) twarp_print(run->records[i].kind, run->records[i].value);
    twarp_post();
  } else {
    twarp_print(TWARP_TRAPPED, run->trap);
  }
}

static void twarp_finish_all(void) {
  struct twarp_run *run = &twarp_run;
  for (u32 lp = 0; lp < run->lps; lp++) {
    u64 value;
    if (run->processes[lp].failed != 0 || !twarp_call(TWARP_FINISH, lp, run->end, 0, 0, 0, &value)) value = TWARP_NONE;
    twarp_fprintf(twarp_out, "final %u %lu\n", lp, value);
  }
}

// ---- The objects of the model, by the table of symbols of the program's own file.

static u8 *twarp_own_file(u64 *size) {
  twarp_file *file = twarp_fopen("/proc/self/exe", "rb");
  u64 room = 1 << 20;
  u8 *bytes = twarp_had(twarp_realloc(0, room));
  *size = 0;
  for (u64 got = 1; file != 0 && got != 0; *size += got) {
    if (*size == room) bytes = twarp_had(twarp_realloc(bytes, room *= 2));
    got = twarp_fread(bytes + *size, 1, room - *size, file);
  }
  if (file == 0 || *size < sizeof(Elf64_Ehdr)) twarp_stop("can't read its own file");
  twarp_fclose(file);
  return bytes;
}

struct twarp_symbols {
  u8 *file;
  const Elf64_Shdr *sections;
  const Elf64_Sym *all;
  u64 count;
  const char *names, *section_names;
  u64 moved;     // by how much the program lies elsewhere than its file says
  u64 from, to;  // the local symbols of the model
};

static const char *twarp_name(const struct twarp_symbols *symbols, u64 i) { return symbols->names + symbols->all[i].st_name; }

// The local symbols of a file follow its name. The model's are those among which the run's is.
static void twarp_find_model(struct twarp_symbols *symbols) {
  u64 file = 0, own = 0;
  for (u64 i = 0; i < symbols->count; i++) {
    u32 kind = ELF64_ST_TYPE(symbols->all[i].st_info);
    if (kind == STT_FILE) {
      if (own != 0) break;
      file = i;
    } else if (kind == STT_OBJECT && twarp_strcmp(twarp_name(symbols, i), "twarp_run") == 0) {
      own = i;
      symbols->moved = (u64)&twarp_run - symbols->all[i].st_value;
    }
    symbols->to = i + 1;
  }
  if (own == 0) twarp_stop("its file has no symbols: link it without -s");
  symbols->from = file + 1;
}

static struct twarp_symbols twarp_read_symbols(void) {
  u64 size;
  struct twarp_symbols symbols = {twarp_own_file(&size), 0, 0, 0, 0, 0, 0, 0, 0};
  const Elf64_Ehdr *header = (const void *)symbols.file;
  symbols.sections = (const void *)(symbols.file + header->e_shoff);
  symbols.section_names = (const char *)symbols.file + symbols.sections[header->e_shstrndx].sh_offset;
  for (u32 i = 0; i < header->e_shnum; i++) {
    if (symbols.sections[i].sh_type == SHT_SYMTAB) {
      symbols.all = (const void *)(symbols.file + symbols.sections[i].sh_offset);
      symbols.count = symbols.sections[i].sh_size / sizeof(Elf64_Sym);
      symbols.names = (const char *)symbols.file + symbols.sections[symbols.sections[i].sh_link].sh_offset;
    }
  }
  twarp_find_model(&symbols);
  return symbols;
}

// Whether a symbol is an object of the model: not of this header, of the C library or of the start of programs.
static int twarp_is_of_model(const struct twarp_symbols *symbols, u64 i) {
  const Elf64_Sym *symbol = &symbols->all[i];
  const char *name = twarp_name(symbols, i);
  if (ELF64_ST_TYPE(symbol->st_info) != STT_OBJECT || symbol->st_size == 0 || symbol->st_shndx >= SHN_LORESERVE || symbol->st_shndx == 0) return 0;
  if (twarp_strncmp(name, "twarp_", 6) == 0 || twarp_strcmp(name, "data") == 0) return 0;
  if (ELF64_ST_BIND(symbol->st_info) == STB_LOCAL) return symbols->from <= i && i < symbols->to;
  return name[0] != '_' && twarp_strchr(name, '@') == 0;
}

// Constants with addresses in them are written too, but only when the program is loaded.
static int twarp_may_change(const struct twarp_symbols *symbols, u64 i) {
  const Elf64_Shdr *section = &symbols->sections[symbols->all[i].st_shndx];
  return (section->sh_flags & SHF_WRITE) != 0 && twarp_strncmp(symbols->section_names + section->sh_name, ".data.rel.ro", 12) != 0;
}

static void twarp_write(u8 *at, u64 size, u64 value) {
  u64 page = (u64)twarp_sysconf(30);
  u64 from = (u64)at / page * page, to = ((u64)at + size + page - 1) / page * page;
  if (twarp_mprotect((void *)from, to - from, 3) != 0) twarp_stop("can't set an object");
  twarp_copy(at, (u8 *)&value, size);
}

// How many bytes a number has that --set may set, 4 or 8, or 0 where it is another object. clang's sanitizer of addresses
// makes 32 bytes of both: then those behind it are part of its guard.
static u64 twarp_size_of_number(const struct twarp_symbols *symbols, u64 i) {
  u64 size = symbols->all[i].st_size;
#if defined(TWARP_ADDRESSES) && defined(__clang__)
  if (size == 32) return 8;
#endif
  return size == 4 || size == 8 ? size : 0;
}

// The number of this name, or 0.
static u64 twarp_object(const struct twarp_symbols *symbols, const char *name, u64 length) {
  for (u64 i = 0; i < symbols->count; i++) {
    const char *own = twarp_name(symbols, i);
    int same = twarp_strlen(own) == length && twarp_strncmp(own, name, length) == 0;
    if (same && twarp_is_of_model(symbols, i) && twarp_size_of_number(symbols, i) != 0) return i;
  }
  return 0;
}

static void twarp_set_all(const struct twarp_symbols *symbols) {
  for (u32 i = 0; i < twarp_run.set_count; i++) {
    struct twarp_set set = twarp_run.sets[i];
    u64 object = twarp_object(symbols, set.name, set.length);
    if (object == 0) twarp_stop("--set: the model has no object %.*s of 4 or 8 bytes", (int)set.length, set.name);
    u64 size = twarp_size_of_number(symbols, object);
    if (size == 4 && set.value >> 32 != 0) twarp_stop("--set: %.*s has 32 bits", (int)set.length, set.name);
    twarp_write((u8 *)(symbols->all[object].st_value + symbols->moved), size, set.value);
  }
}

static void twarp_fix_processes(const struct twarp_symbols *symbols) {
  struct twarp_run *run = &twarp_run;
  u64 object = twarp_object(symbols, "processes", 9), fixed = 0;
  if (object != 0) {
    twarp_copy((u8 *)&fixed, (u8 *)(symbols->all[object].st_value + symbols->moved), twarp_size_of_number(symbols, object));
    if (fixed < 1 || fixed > TWARP_MOST_PROCESSES) twarp_stop("the model has %lu processes", fixed);
    if (run->lps != 0 && run->lps != fixed) twarp_stop("--lps: the model has %lu processes", fixed);
    run->lps = fixed;
  }
  if (run->lps == 0) run->lps = 2;
}

static void twarp_find_parts(const struct twarp_symbols *symbols) {
  struct twarp_run *run = &twarp_run;
  for (u64 i = 0; i < symbols->count; i++) {
    if (!twarp_is_of_model(symbols, i) || !twarp_may_change(symbols, i)) continue;
    if (run->part_count == TWARP_MOST_PARTS) twarp_stop("the model has more than %d objects that may change", TWARP_MOST_PARTS);
    run->parts[run->part_count++] = (struct twarp_part){(u8 *)(symbols->all[i].st_value + symbols->moved), symbols->all[i].st_size};
    run->state_bytes += symbols->all[i].st_size;
  }
#ifndef TWARP_ADDRESSES
  if (run->state_bytes > TWARP_MOST_STATE) twarp_stop("the state has %lu bytes, more than %d", run->state_bytes, TWARP_MOST_STATE);
#endif
}

// ---- The command line.

#define TWARP_OPTIONS "--lps N, --end N, --seed N, --set NAME=VALUE, --data FILE, --finals, --records no"

static u64 twarp_number(const char *option, const char *text, u64 least, u64 most) {
  u64 value = 0, length = twarp_strlen(text), good = 1 <= length && length <= 20;
  for (u64 i = 0; i < length && good; i++) {
    u64 digit = (u64)text[i] - '0';
    good = digit < 10 && !__builtin_mul_overflow(value, 10, &value) && !__builtin_add_overflow(value, digit, &value);
  }
  if (!good || value < least || value > most) twarp_stop("--%s takes %lu to %lu, not '%s'", option, least, most, text);
  return value;
}

static int twarp_is_no(const char *text) {
  if (twarp_strcmp(text, "yes") != 0 && twarp_strcmp(text, "no") != 0) twarp_stop("--records takes yes or no, not '%s'", text);
  return text[0] == 'n';
}

static void twarp_take_set(const char *text) {
  const char *equals = twarp_strchr(text, '=');
  if (equals == 0) twarp_stop("--set takes NAME=VALUE, not '%s'", text);
  if (twarp_run.set_count == TWARP_MOST_SETS) twarp_stop("more than %d times --set", TWARP_MOST_SETS);
  u64 value = twarp_number("set", equals + 1, 0, TWARP_NONE);
  twarp_run.sets[twarp_run.set_count++] = (struct twarp_set){text, (u64)(equals - text), value};
}

static void twarp_take(const char *name, const char *value) {
  static const char *const others[] = {"program", "synch", "workers", "turns", "text", "fuel"};
  struct twarp_run *run = &twarp_run;
  if (twarp_strcmp(name, "lps") == 0) run->lps = twarp_number(name, value, 1, TWARP_MOST_PROCESSES);
  else if (twarp_strcmp(name, "end") == 0) run->end = twarp_number(name, value, 1, 1ul << 62);
  else if (twarp_strcmp(name, "seed") == 0) run->seed = twarp_number(name, value, 0, TWARP_NONE);
  else if (twarp_strcmp(name, "set") == 0) twarp_take_set(value);
  else if (twarp_strcmp(name, "data") == 0) run->data_path = value;
  else if (twarp_strcmp(name, "records") == 0) run->silent = twarp_is_no(value);
  else {
    for (u32 i = 0; i < sizeof others / sizeof *others; i++) {
      if (twarp_strcmp(name, others[i]) == 0) return;
    }
    twarp_stop("no option --%s: there are " TWARP_OPTIONS, name);
  }
}

static void twarp_read_words(int count, char **words) {
  for (int i = 1; i < count; i++) {
    char *word = words[i];
    if (i == 1 && twarp_strcmp(word, "run") == 0) continue;
    if (twarp_strncmp(word, "--", 2) != 0) twarp_stop("not an option: %s", word);
    char *name = word + 2, *equals = twarp_strchr(name, '=');
    if (equals != 0) {
      *equals = 0;
      twarp_take(name, equals + 1);
    } else if (twarp_strcmp(name, "help") == 0) {
      twarp_fprintf(twarp_out, "%s: options " TWARP_OPTIONS "\n", twarp_run.program);
      twarp_exit(0);
    } else if (twarp_strcmp(name, "finals") == 0) {
      twarp_run.finals = 1;
    } else {
      if (i + 1 == count) twarp_stop("%s has no value", word);
      twarp_take(name, words[++i]);
    }
  }
}

static void twarp_read_data(void) {
  struct twarp_run *run = &twarp_run;
  twarp_file *file = run->data_path == 0 ? 0 : twarp_fopen(run->data_path, "rb");
  if (run->data_path != 0 && file == 0) twarp_stop("--data: can't read %s", run->data_path);
  if (file != 0) {
    u8 more;
    run->data_bytes = twarp_fread((u8 *)(u64)data, 1, TWARP_MOST_DATA, file);
    if (twarp_fread(&more, 1, 1, file) != 0) twarp_stop("--data: %s has more than %d bytes", run->data_path, TWARP_MOST_DATA);
    twarp_fclose(file);
  }
  if (twarp_mprotect((void *)(u64)data, TWARP_MOST_DATA, 1) != 0) twarp_stop("can't protect the data");
#ifdef TWARP_ADDRESSES
  __asan_poison_memory_region(data + run->data_bytes, TWARP_MOST_DATA - run->data_bytes);
#endif
}

static void twarp_make_processes(void) {
  struct twarp_run *run = &twarp_run;
  run->processes = twarp_had(twarp_calloc(run->lps, sizeof *run->processes));
  u8 *states = twarp_had(twarp_calloc(run->lps, run->state_bytes + 1));
  for (run->lp = 0; run->lp < run->lps; run->lp++) {
    run->processes[run->lp].state = states + run->lp * run->state_bytes;
    twarp_save();
  }
}

int main(int count, char **words) {
  struct twarp_run *run = &twarp_run;
  run->program = words[0];
  run->end = 10;
  twarp_read_words(count, words);
  struct twarp_symbols symbols = twarp_read_symbols();
  twarp_set_all(&symbols);
  twarp_fix_processes(&symbols);
  twarp_find_parts(&symbols);
  twarp_free(symbols.file);
  twarp_read_data();
  twarp_make_processes();
  twarp_start_all();
  if (!run->silent) twarp_fprintf(twarp_out, "twarp-records 2\n");
  while (run->pending_count != 0) twarp_step();
  if (run->finals) twarp_finish_all();
  if (run->traps != 0) twarp_fprintf(twarp_errors, "%s: %lu handlers trapped\n", run->program, run->traps);
  if (twarp_fflush(twarp_out) != 0 || twarp_ferror(twarp_out)) twarp_stop("can't write");
  return 0;
}

#endif
