/* A race that bench/races.py plants, to see that it is found: the step that adds to a word is a plain read and a plain write
   of it. By it a worker draws a block. The program is linked with -Wl,--wrap=__tsan_atomic64_fetch_add. */
void __tsan_read8(void *);
void __tsan_write8(void *);

long __wrap___tsan_atomic64_fetch_add(volatile long *word, long more, int order) {
    (void)order;
    __tsan_read8((void *)word);
    long was = *word;
    __tsan_write8((void *)word);
    *word = was + more;
    return was;
}
