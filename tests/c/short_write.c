/* A `write` that takes one byte at a time to standard output, and none behind the first MOST of them. It is loaded before the C library, by
   LD_PRELOAD, and names nothing of it. The program that it is for is x86-64 code. */

static long taken;

long write(int file, const void *bytes, unsigned long count)
{
    long result;

    if (file == 1 && count > 1) {
        count = 1;
    }
    if (file == 1 && count > 0 && taken == MOST) {
        return -1;
    }
    __asm__ volatile("syscall" : "=a"(result) : "a"(1L), "D"((long)file), "S"(bytes), "d"(count) : "rcx", "r11", "memory");
    if (result < 0) {
        return -1;
    }
    if (file == 1) {
        taken += result;
    }
    return result;
}
