/* The quick build stops itself at a fault that its checks find by an instruction that no processor
   has. This makes an end of it: a line on standard error, and status 86. */
typedef void (*handler)(int);
extern handler signal(int, handler);
extern long write(int, const void *, unsigned long);
extern void _exit(int) __attribute__((noreturn));

static void stop(int number) {
    static const char line[] = "bitemporal: a fault of the program itself stopped it: a sum that wraps, an "
                               "index out of range, or the like\n";
    (void)number;
    (void)!write(2, line, sizeof line - 1);
    _exit(86);
}

__attribute__((constructor)) static void begin(void) { signal(4, stop); }
