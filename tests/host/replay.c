/* The call script's host: a script on standard input, one line for each call on standard output (docs/REPLAY.md). It lends the proved
   library its buffers and does nothing else. No headers, so that the kit's compiler alone can build it. */
typedef unsigned char byte;
typedef unsigned long size;

long read(int fd, void *to, size n);
long write(int fd, const void *from, size n);

/* A slice goes over as a pointer and a length. */
void replay_begin(byte *desk, size desk_len, byte *arena, size arena_len);
size replay_run(const byte *script, size script_len, byte *desk, size desk_len, byte *arena, size arena_len, byte *text, size text_len);

enum { SCRIPT = 1048576, DESK = 4419, ENDED = 4418, ARENA = 2097664, TEXT = 65536 };

static byte script[SCRIPT + 1], desk[DESK], arena[ARENA], text[TEXT];

static size read_all(void)
{
    size n = 0;
    long k;
    while (n < sizeof script && (k = read(0, script + n, sizeof script - n)) > 0) n += (size)k;
    return n;
}

static void write_all(const byte *from, size n)
{
    long k;
    while (n > 0 && (k = write(1, from, n)) > 0) from += k, n -= (size)k;
}

int main(void)
{
    size n = read_all();
    if (n > SCRIPT) {
        write_all((const byte *)"bad script\n", 11);
        return 0;
    }
    replay_begin(desk, sizeof desk, arena, sizeof arena);
    while (!desk[ENDED]) write_all(text, replay_run(script, n, desk, sizeof desk, arena, sizeof arena, text, sizeof text));
    return 0;
}
