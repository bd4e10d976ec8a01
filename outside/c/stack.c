/* stack.c: packets cut, and messages fed, on a stack of their own, to see how much of it is used (stack.sh builds and runs it).
 *
 *     stack cut|run|feed painted      each call on a painted stack: prints the most that one of a kind used, and the most of all
 *     stack cut|run|feed ROOM         each with ROOM bytes of stack above a page that may not be touched: one that uses more ends it
 *
 * Every call is made a first time on the ordinary stack, and has to do the same again. It has no C library, so that it runs
 * wherever the archives do. What is measured is a call of `cut_now`, `run_now` or `feed_now`: their own frames are counted too. */
typedef unsigned char byte;
typedef __INT32_TYPE__ number;
typedef __SIZE_TYPE__ size;

byte skvornela_fresh(const byte *serial, size, byte *state, size);
byte skvornela_feed(byte *state, size, const byte *host, size, byte *reply, size, size *consumed, size *wrote);
byte skvornela_cut(byte *state, size, const number *samples, size, byte *packet, size, size *wrote);
size skvornela_cut_run(byte mode, byte packet_size, byte setup, size n, size total, const number *samples, size, byte *out, size);

/* ---- the system, and a stack of our own */
#if defined __x86_64__
enum { MMAP = 9, MPROTECT = 10, WRITE = 1, EXIT = 60 };
static long ask(long what, long a, long b, long c, long d, long e, long f) {
    register long r10 __asm__("r10") = d, r8 __asm__("r8") = e, r9 __asm__("r9") = f;
    __asm__ volatile("syscall"
                     : "+a"(what)
                     : "D"(a), "S"(b), "d"(c), "r"(r10), "r"(r8), "r"(r9)
                     : "rcx", "r11", "memory");
    return what;
}
static void on(byte *top, void (*go)(void *), void *call) {
    __asm__ volatile("movq %%rsp, %%rbx\n\tmovq %[top], %%rsp\n\tcallq *%[go]\n\tmovq %%rbx, %%rsp"
                     : "+D"(call)
                     : [top] "r"(top), [go] "r"(go)
                     : "rbx", "rax", "rcx", "rdx", "rsi", "r8", "r9", "r10", "r11", "memory", "cc", "xmm0", "xmm1",
                       "xmm2", "xmm3", "xmm4", "xmm5", "xmm6", "xmm7", "xmm8", "xmm9", "xmm10", "xmm11", "xmm12",
                       "xmm13", "xmm14", "xmm15");
}
__asm__(".globl _start\n_start: movq %rsp, %rdi\n\tandq $-16, %rsp\n\tcallq begin\n");
#elif defined __aarch64__
enum { MMAP = 222, MPROTECT = 226, WRITE = 64, EXIT = 93 };
static long ask(long what, long a, long b, long c, long d, long e, long f) {
    register long x8 __asm__("x8") = what, x0 __asm__("x0") = a, x1 __asm__("x1") = b, x2 __asm__("x2") = c,
                      x3 __asm__("x3") = d, x4 __asm__("x4") = e, x5 __asm__("x5") = f;
    __asm__ volatile("svc 0" : "+r"(x0) : "r"(x8), "r"(x1), "r"(x2), "r"(x3), "r"(x4), "r"(x5) : "memory");
    return x0;
}
static void on(byte *top, void (*go)(void *), void *call) {
    register void *x0 __asm__("x0") = call;
    __asm__ volatile("mov x19, sp\n\tmov sp, %[top]\n\tblr %[go]\n\tmov sp, x19"
                     : "+r"(x0)
                     : [top] "r"(top), [go] "r"(go)
                     : "x1", "x2", "x3", "x4", "x5", "x6", "x7", "x8", "x9", "x10", "x11", "x12", "x13", "x14", "x15",
                       "x16", "x17", "x19", "x30", "memory", "cc", "v0", "v1", "v2", "v3", "v4", "v5", "v6", "v7", "v8",
                       "v9", "v10", "v11", "v12", "v13", "v14", "v15", "v16", "v17", "v18", "v19", "v20", "v21", "v22",
                       "v23", "v24", "v25", "v26", "v27", "v28", "v29", "v30", "v31");
}
__asm__(".globl _start\n_start: mov x0, sp\n\tbl begin\n");
#endif

/* what a compiler that optimises nothing may call for a copy or to clear */
void *memset(void *to, int value, size n) {
    for (size i = 0; i < n; i++) ((byte *)to)[i] = (byte)value;
    return to;
}
void *memmove(void *to, const void *from, size n) {
    byte *t = to;
    const byte *f = from;
    if (t < f)
        for (size i = 0; i < n; i++) t[i] = f[i];
    else
        while (n--) t[n] = f[n];
    return to;
}

static void end(int code) {
    for (;;) ask(EXIT, code, 0, 0, 0, 0, 0);
}
static void say(const char *text) {
    size n = 0;
    while (text[n]) n++;
    if (ask(WRITE, 1, (long)text, (long)n, 0, 0, 0) != (long)n) end(3);
}
static void say_number(size n) {
    char digits[24], *at = digits + sizeof digits - 1;
    *at = 0;
    do *--at = (char)('0' + n % 10);
    while (n /= 10);
    say(at);
}

enum { PAGE = 65536, AREA = 2 * PAGE }; /* no page of Linux on these two machines is larger */
static byte *area;                      /* AREA bytes above PAGE bytes that may not be touched */
static size room;                       /* how much of it is lent, 0 where it is painted */
static size most;                       /* the most that one call used */

static size used_with(byte paint, void (*go)(void *), void *call) {
    size k = 0;
    for (size i = 0; i < AREA; i++) area[i] = paint;
    on(area + AREA, go, call);
    while (k < AREA && area[k] == paint) k++;
    return AREA - k;
}

/* ---- the calls */
/* a box in bytes, and where its two words, count, run byte, mode and channel setup begin */
enum { STATE = 126, WORD = 8, SECOND_WORD = 21, COUNT = 26, RUNNING = 42, MODE = 43, SETUP = 45 };
struct cut {
    byte *state, *packet;
    const number *samples;
    size bytes, count, packet_bytes, wrote;
    byte code;
};
void cut_now(void *call) {
    struct cut *c = call;
    c->code = skvornela_cut(c->state, c->bytes, c->samples, c->count, c->packet, c->packet_bytes, &c->wrote);
}
struct run {
    byte mode, size, setup;
    size n, total, count, bytes, answer;
    const number *samples;
    byte *out;
};
void run_now(void *call) {
    struct run *r = call;
    r->answer = skvornela_cut_run(r->mode, r->size, r->setup, r->n, r->total, r->samples, r->count, r->out, r->bytes);
}

struct feed {
    byte *state, *reply;
    const byte *host;
    size bytes, room, consumed, wrote;
    byte code;
};
void feed_now(void *call) {
    struct feed *f = call;
    f->code = skvornela_feed(f->state, STATE, f->host, f->bytes, f->reply, f->room, &f->consumed, &f->wrote);
}

/* the four forms, and each again with two channels: what is packed is as long */
enum { FORMS = 8, PACKETS = 3, LARGEST = 1444 };
static const size pairs[FORMS] = {240, 64, 256, 128, 240, 64, 256, 128};
static const size totals[FORMS] = {1444, 388, 1028, 516, 1444, 388, 1028, 516};
static byte mode_of(int form) { return form % 4 < 2 ? 0x80 : 0; }
static byte size_of(int form) { return (byte)(form % 2); }
static byte setup_of(int form) { return form < 4 ? 0 : 4; }
static byte lent[STATE], lent_out[PACKETS * LARGEST]; /* what a call is lent */
static byte state[STATE], out[PACKETS * LARGEST];     /* what it has to leave */
static number samples[PACKETS * 512];

static void copy(byte *to, const byte *from, size n) {
    for (size i = 0; i < n; i++) ((volatile byte *)to)[i] = from[i];
}
static int alike(const byte *a, const byte *b, size n) {
    for (size i = 0; i < n; i++)
        if (a[i] != b[i]) return 0;
    return 1;
}
static void clear(void) {
    for (size i = 0; i < sizeof lent_out; i++) ((volatile byte *)lent_out)[i] = 0xEE;
}
static void must(int holds, const char *what) {
    if (holds) return;
    say("WRONG: ");
    say(what);
    say("\n");
    end(1);
}

/* The call again, from what was lent at first; it must do as it did on the ordinary stack. */
static size again(void (*go)(void *), void *call, const byte *given, byte paint, const char *what) {
    size used = 0;
    copy(lent, given, STATE);
    clear();
    if (room) on(area + room, go, call);
    else used = used_with(paint, go, call);
    must(alike(lent, state, STATE) && alike(lent_out, out, sizeof out), what);
    return used;
}
static size measured(void (*go)(void *), void *call, const char *what) {
    static byte given[STATE];
    size light, dark;
    copy(given, lent, STATE);
    clear();
    go(call);
    copy(state, lent, STATE);
    copy(out, lent_out, sizeof out);
    light = again(go, call, given, 0xA5, what);
    dark = again(go, call, given, 0x5A, what);
    if (light < dark) light = dark;
    if (most < light) most = light;
    return light;
}

static void feed(const byte *message, size n) {
    byte reply[64];
    size consumed, wrote;
    skvornela_feed(lent, STATE, message, n, reply, sizeof reply, &consumed, &wrote);
    must(consumed == n && wrote == n, "a message was not obeyed");
}
static void started(int form) {
    const byte setup[5] = {5, 0, 0x19, 0, setup_of(form)};
    const byte packet_size[5] = {5, 0, 0xC4, 0, size_of(form)};
    const byte run[8] = {8, 0, 0x18, 0, 0x80, 2, mode_of(form), 0};
    must(skvornela_fresh((const byte *)"MT123456", 8, lent, STATE) == 1, "no fresh box");
    feed(setup, sizeof setup);
    feed(packet_size, sizeof packet_size);
    feed(run, sizeof run);
    for (size i = 0; i < sizeof samples / sizeof *samples; i++)
        samples[i] = (number)((i * 2654435761u >> 8) % 16777216) - 8388608;
}
static void put_count(size count) {
    for (int i = 0; i < 8; i++) lent[COUNT + i] = (byte)(count >> (8 * i));
}

enum { DONE = 1, NO_ROOM = 20, BROKEN, IDLE, WRONG_COUNT, NOT_A_SAMPLE, FULL };
static const struct {
    const char *what;
    byte code;
} kinds[] = {
    {"cut", DONE},
    {"cut, the last of a capture", DONE},
    {"no room", NO_ROOM},
    {"no room, and not a sample", NOT_A_SAMPLE},
    {"a box of another length", BROKEN},
    {"a box that is broken", BROKEN},
    {"a box that is idle", IDLE},
    {"a sample too few", WRONG_COUNT},
    {"not a sample", NOT_A_SAMPLE},
    {"a capture that is full", FULL},
    {"a box with another word", BROKEN},
    {"a box with another word in its second channel", BROKEN},
    {"a box with another channel setup", BROKEN},
    {"three packets in a run", 3},
    {"a run to the first that is refused", 2},
    {"messages fed whole", DONE},
    {"messages fed byte by byte", DONE},
};
enum { KINDS = sizeof kinds / sizeof *kinds, FEED = KINDS - 2, RUN = FEED - 2 };

static size cut(int form, int kind) {
    struct cut c = {lent, lent_out, samples, STATE, 2 * pairs[form], sizeof lent_out, 99, 99};
    size used;
    started(form);
    switch (kind) {
    case 1: put_count(3999999999); break;
    case 2: c.packet_bytes = totals[form] - 1; break;
    case 3: c.packet_bytes = totals[form] - 1, samples[2 * pairs[form] - 1] = 8388608; break;
    case 4: c.bytes = STATE - 1; break;
    case 5: lent[MODE] ^= 1; break;
    case 6: lent[RUNNING] = 0; break;
    case 7: c.count--; break;
    case 8: samples[2 * pairs[form] - 1] = -8388609; break;
    case 9: put_count(4000000000); break;
    case 10: lent[WORD] ^= 1; break;
    case 11: lent[SECOND_WORD] ^= 1; break;
    case 12: lent[SETUP] ^= 1; break;
    }
    used = measured(cut_now, &c, kinds[kind].what);
    must(c.code == kinds[kind].code && c.wrote == (c.code == DONE ? totals[form] : 0), kinds[kind].what);
    return used;
}
static size cut_run(int form, int kind) {
    struct run r = {mode_of(form), size_of(form), setup_of(form), 2 * pairs[form], totals[form], PACKETS * 2 * pairs[form],
                    sizeof lent_out, 99, samples, lent_out};
    size used;
    started(form);
    if (kind != RUN) samples[5 * pairs[form]] = 8388608;
    used = measured(run_now, &r, kinds[kind].what);
    must(r.answer == kinds[kind].code, kinds[kind].what);
    return used;
}

/* every item is asked for, and set where it can be, of either channel and of both; rates of both ends and the middle of the
   table; what is not answered; every refusal but for length, room and a broken box, which come after */
static const struct {
    byte code, bytes[10];
} messages[] = {
    {1, {4, 0x20, 1, 0}},
    {1, {4, 0x20, 2, 0}},
    {1, {4, 0x20, 3, 0}},
    {1, {5, 0x20, 4, 0, 3}},
    {1, {4, 0x20, 5, 0}},
    {1, {10, 0, 0x20, 0, 0, 0x90, 0xC6, 0xD5, 0, 0}},
    {1, {5, 0x20, 0x20, 0, 0}},
    {1, {5, 0x40, 0x20, 0, 0}},
    {1, {6, 0, 0x38, 0, 0, 0xEC}},
    {1, {5, 0x20, 0x38, 0, 0}},
    {15, {10, 0, 0x20, 0, 2, 0x90, 0xC6, 0xD5, 0, 0}},
    {15, {5, 0x20, 0x20, 0, 2}},
    {1, {10, 0, 0x20, 0, 0xFF, 0x40, 0x86, 0xA4, 8, 0}},
    {1, {5, 0, 0x19, 0, 4}},
    {1, {4, 0x20, 0x19, 0}},
    {1, {10, 0, 0x20, 0, 2, 0x90, 0xC6, 0xD5, 0, 0}},
    {1, {10, 0, 0x20, 0, 0xFF, 0x40, 0x86, 0xA4, 8, 0}},
    {1, {5, 0x20, 0x20, 0, 2}},
    {1, {5, 0x40, 0x20, 0, 2}},
    {1, {6, 0, 0x38, 0, 2, 0xF6}},
    {1, {6, 0, 0x38, 0, 0xFF, 0xE2}},
    {1, {5, 0x20, 0x38, 0, 2}},
    {1, {9, 0, 0xB0, 0, 0, 0x7B, 0xB4, 0xC4, 4}},
    {1, {5, 0x20, 0xB0, 0, 0}},
    {1, {9, 0, 0xB8, 0, 0, 0x80, 0x84, 0x1E, 0}},
    {1, {9, 0, 0xB8, 0, 0, 0, 0xFA, 0, 0}},
    {1, {9, 0, 0xB8, 0, 0, 0, 0x7D, 0, 0}},
    {1, {5, 0x20, 0xB8, 0, 0}},
    {1, {5, 0, 0xC4, 0, 1}},
    {1, {4, 0x20, 0xC4, 0}},
    {1, {8, 0, 0x18, 0, 0x80, 2, 0x80, 0}},
    {1, {4, 0x20, 0x18, 0}},
    {2, {4, 0xE0, 1, 0}},
    {11, {3, 0x20, 1}},
    {12, {4, 0x20, 0x99, 0}},
    {13, {5, 0x20, 1, 0, 0}},
    {14, {4, 0, 1, 0}},
    {15, {10, 0, 0x20, 0, 1, 0x90, 0xC6, 0xD5, 0, 0}},
    {16, {6, 0, 0x38, 0, 0, 0xED}},
    {16, {5, 0, 0x19, 0, 5}},
    {17, {9, 0, 0xB8, 0, 0, 0, 0x7D, 0, 0}},
    {17, {5, 0, 0x19, 0, 4}},
};
static const byte too_long[66] = {66, 0, 1, 0}, asked[4] = {4, 0x20, 1, 0};

static size fed(const byte *host, size n, size piece, byte code, const char *what) {
    size used = 0;
    for (size at = 0; at < n; at += piece) {
        struct feed f = {lent, lent_out, host + at, piece, code == NO_ROOM ? 2 : 64, 99, 99, 99};
        size its = measured(feed_now, &f, what);
        if (used < its) used = its;
        must(f.consumed == (code < NO_ROOM ? piece : 0), what);
        must(f.code == (at + piece < n ? 0 : code), what); /* 0: it waits for the rest */
    }
    return used;
}
static size feed_all(int kind) {
    const char *what = kinds[kind].what;
    size used = 0, whole = kind == FEED;
    must(skvornela_fresh((const byte *)"MT123456", 8, lent, STATE) == 1, "no fresh box");
    for (size m = 0; m < sizeof messages / sizeof *messages; m++) {
        const byte *message = messages[m].bytes;
        size its = fed(message, message[0], whole ? message[0] : 1, messages[m].code, what);
        if (used < its) used = its;
    }
    size its = fed(too_long, sizeof too_long, whole ? sizeof too_long : 1, 10, what);
    if (used < its) used = its;
    its = fed(asked, sizeof asked, sizeof asked, NO_ROOM, what);
    if (used < its) used = its;
    lent[MODE] ^= 1;
    its = fed(asked, sizeof asked, sizeof asked, BROKEN, what);
    if (used < its) used = its;
    lent[MODE] ^= 1, lent[WORD] ^= 1;
    its = fed(asked, sizeof asked, sizeof asked, BROKEN, what);
    if (used < its) used = its;
    lent[WORD] ^= 1, lent[SECOND_WORD] ^= 1;
    its = fed(asked, sizeof asked, sizeof asked, BROKEN, what);
    return used < its ? its : used;
}

void begin(long *given) {
    const char *which = given[0] == 3 ? (const char *)given[2] : "", *word = given[0] == 3 ? (const char *)given[3] : "";
    int from = which[0] == 'c' ? 0 : which[0] == 'r' ? RUN : FEED, to = from == 0 ? RUN : from == RUN ? FEED : KINDS;
    byte *m = (byte *)ask(MMAP, 0, PAGE + AREA, 3, 0x22, -1, 0);
    if ((long)m < 0 || ask(MPROTECT, (long)m, PAGE, 0, 0, 0, 0) != 0) end(3);
    area = m + PAGE;
    if (word[0] != 'p') {
        for (; '0' <= *word && *word <= '9'; word++) room = 10 * room + (size)(*word - '0');
        if (*word || room == 0 || room % 16 || AREA < room) end(2);
    }
    for (int kind = from; kind < to; kind++) {
        size used = kind < FEED ? 0 : feed_all(kind);
        for (int form = 0; form < FORMS && kind < FEED; form++) {
            size its = kind < RUN ? cut(form, kind) : cut_run(form, kind);
            if (used < its) used = its;
        }
        if (room) continue;
        say("  ");
        say(kinds[kind].what);
        say(": ");
        say_number(used);
        say("\n");
    }
    if (!room) {
        say("most ");
        say_number(most);
        say("\n");
    }
    end(0);
}
