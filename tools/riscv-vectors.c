/* Runs short programs of RISC-V as crates/riscv_demo does, on the machine that it is itself run on: qemu-riscv64. tools/riscv-vectors
   builds it. It reads and writes the same lines. A program's first instruction is reached, and its end told, by a signal. */
#include <signal.h>
#include <stddef.h>
#include <stdint.h>
#include <sys/mman.h>
#include <sys/syscall.h>
#include <ucontext.h>

#define IMAGE 0x10000ul
#define STATE 0x40000000ul
#define RETURN 0xfffffffcul
#define PAGE 4096ul
#define STACK 1024ul
#define EBREAK 0x00100073u

static long call(long n, long a, long b, long c, long d, long e, long f)
{
    register long a0 asm("a0") = a, a1 asm("a1") = b, a2 asm("a2") = c, a3 asm("a3") = d, a4 asm("a4") = e, a5 asm("a5") = f, a7 asm("a7") = n;
    asm volatile("ecall" : "+r"(a0) : "r"(a1), "r"(a2), "r"(a3), "r"(a4), "r"(a5), "r"(a7) : "memory");
    return a0;
}

static unsigned long home[32], first[32], last[32];
static int inside, why;

/* The first signal comes from this program, which goes on in the other one. The second comes from that one. */
static void on_signal(int signal, siginfo_t *info, void *context)
{
    unsigned long *registers = ((ucontext_t *)context)->uc_mcontext.__gregs;
    (void)info;
    for (int i = 0; i < 32; i++) {
        if (inside) {
            last[i] = registers[i];
            registers[i] = home[i];
        } else {
            home[i] = registers[i];
            registers[i] = first[i];
        }
    }
    if (inside) {
        why = signal;
        registers[0] += 4;
    }
    inside = !inside;
}

static void run(void)
{
    asm volatile(".option push\n.option norvc\nebreak\n.option pop\n" ::: "memory");
}

static char input[1 << 24];
static char alternate[1 << 16];

static void print(const char *text, size_t length)
{
    call(SYS_write, 1, (long)text, (long)length, 0, 0, 0);
}

static char *put_hexadecimal(char *to, unsigned long number)
{
    int digits = 1;
    while (digits < 16 && number >> (4 * digits))
        digits++;
    for (int i = digits - 1; i >= 0; i--)
        *to++ = "0123456789abcdef"[number >> (4 * i) & 15];
    return to;
}

static char *put_word(char *to, const char *word)
{
    while (*word)
        *to++ = *word++;
    return to;
}

/* The next number of a line, and how many digits it has: none at the line's end. */
static const char *read_number(const char *at, unsigned long *number, int *digits)
{
    *number = 0;
    *digits = 0;
    while (*at == ' ')
        at++;
    while (*at > ' ') {
        *number = *number << 4 | (unsigned)(*at <= '9' ? *at - '0' : *at - 'a' + 10);
        ++*digits;
        at++;
    }
    return at;
}

static const char *fill(const char *at)
{
    volatile uint8_t *image = (volatile uint8_t *)IMAGE;
    unsigned long word, length = 0;
    int digits;
    call(SYS_mprotect, IMAGE, PAGE, PROT_READ | PROT_WRITE, 0, 0, 0);
    for (unsigned long i = 0; i < PAGE; i++)
        image[i] = 0;
    while (at = read_number(at, &word, &digits), digits)
        for (int i = 0; i < digits / 2; i++)
            image[length++] = word >> (8 * i);
    for (int i = 0; i < 4; i++)
        image[length++] = EBREAK >> (8 * i);
    call(SYS_mprotect, IMAGE, PAGE, PROT_READ | PROT_EXEC, 0, 0, 0);
    asm volatile("fence.i" ::: "memory");
    for (unsigned long i = 0; i < STACK; i++)
        ((volatile uint8_t *)(STATE - STACK))[i] = 0;
    for (unsigned long i = 0; i < PAGE; i++)
        ((volatile uint8_t *)STATE)[i] = 37 * i + 11;
    return at;
}

static unsigned long sum(void)
{
    unsigned long sum = 0;
    last[0] = 0;
    for (int i = 0; i < 32; i++)
        sum = sum * 31 + last[i];
    for (unsigned long i = 0; i < STACK + PAGE; i++)
        sum = sum * 31 + ((volatile uint8_t *)(STATE - STACK))[i];
    return sum;
}

static void print_outcome(void)
{
    char line[128], *to = line;
    unsigned long pc = last[0];
    to = put_word(to, why == SIGTRAP ? "breakpoint" : why == SIGILL ? "instruction" : pc - IMAGE < PAGE ? "address" : "jump");
    *to++ = ' ';
    to = put_hexadecimal(to, pc);
    *to++ = ' ';
    to = put_hexadecimal(to, last[12]);
    *to++ = ' ';
    to = put_hexadecimal(to, sum());
    *to++ = '\n';
    print(line, (size_t)(to - line));
}

static void map(unsigned long address, unsigned long length)
{
    call(SYS_mmap, address, length, PROT_READ | PROT_WRITE, MAP_PRIVATE | MAP_ANONYMOUS | MAP_FIXED, -1, 0);
}

void start(void)
{
    struct { void (*handler)(int, siginfo_t *, void *); unsigned long flags, mask; } action = { on_signal, SA_SIGINFO | SA_ONSTACK | SA_NODEFER, 0 };
    stack_t stack = { alternate, 0, sizeof alternate };
    static const int signals[] = { SIGTRAP, SIGILL, SIGSEGV, SIGBUS };
    size_t length = 0;
    long more;
    call(SYS_sigaltstack, (long)&stack, 0, 0, 0, 0, 0);
    for (int i = 0; i < 4; i++)
        call(SYS_rt_sigaction, signals[i], (long)&action, 0, 8, 0, 0);
    map(IMAGE, PAGE);
    map(STATE - PAGE, 2 * PAGE);
    while ((more = call(SYS_read, 0, (long)(input + length), (long)(sizeof input - 1 - length), 0, 0, 0)) > 0)
        length += (size_t)more;
    for (const char *at = input; *at; at++) {
        unsigned long x, y;
        int digits;
        at = read_number(at, &x, &digits);
        at = read_number(at, &y, &digits);
        at = fill(at);
        for (int i = 0; i < 32; i++)
            first[i] = 0;
        first[0] = first[9] = IMAGE;
        first[1] = RETURN;
        first[2] = STATE;
        first[8] = STATE + 2048;
        first[10] = x;
        first[11] = y;
        run();
        print_outcome();
    }
    call(SYS_exit, 0, 0, 0, 0, 0, 0);
}

asm(".globl _start\n_start: andi sp, sp, -16\ncall start\n");
