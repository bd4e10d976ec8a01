/* The calls that the benchmarks time, in plain C: the same states, the same refusals, the same bytes. */
#include <stdbool.h>
#include <stddef.h>
#include <stdint.h>
#include <string.h>

enum { HELD = 64 };

enum code {
    WAITING = 0,
    DONE = 1,
    NO_REPLY_DUE = 2,
    TOO_LONG = 10,
    BAD_HEADER = 11,
    NOT_LISTED = 12,
    WRONG_LENGTH = 13,
    NOT_OFFERED = 14,
    CHANNEL_NOT_ALLOWED = 15,
    VALUE_NOT_ALLOWED = 16,
    NOT_WHILE_RUNNING = 17,
    NO_ROOM = 20,
    BROKEN = 21,
    WHILE_IDLE = 22,
    WRONG_COUNT = 23,
    NOT_A_SAMPLE = 24,
    CAPTURE_FULL = 25,
    NOT_A_PACKET = 30,
    NO_FIRST_PACKET = 31,
    FORM_CHANGED = 32,
    PAST_LAST = 33,
};

enum kind { SET, REQUEST, RANGE, ACKNOWLEDGEMENT, DATA };

enum item {
    NAME = 0x01,
    SERIAL = 0x02,
    INTERFACE = 0x03,
    VERSIONS = 0x04,
    STATUS = 0x05,
    STATE = 0x18,
    CHANNEL_SETUP = 0x19,
    FREQUENCY = 0x20,
    GAIN = 0x38,
    CLOCK = 0xB0,
    RATE = 0xB8,
    PACKET_SIZE = 0xC4,
};

enum { COMPLEX = 0x80, IDLE = 1, RUN = 2 };
enum { SINGLE = 0, DUAL = 4 };                     /* channel setup */
enum { FIRST = 0x00, SECOND = 0x02, ALL = 0xFF }; /* channel bytes */

struct channel {
    uint64_t frequency;
    uint32_t word;
    uint8_t gain;
};

struct station {
    struct channel first, second;
    uint64_t count;
    uint32_t clock, divisor;
    bool running;
    uint8_t mode, size, setup, serial[8];
    uint8_t held[HELD];
    size_t taken;
};

struct reader {
    bool heard;
    uint8_t channels;
    uint64_t position, total, bits, pairs;
};

static bool frequency_allowed(uint64_t f)
{
    return (100000 <= f && f <= 34000000) || (140000000 <= f && f <= 150000000);
}

static bool gain_allowed(uint8_t g) { return g == 0 || g == 0xF6 || g == 0xEC || g == 0xE2; }
static bool clock_allowed(uint32_t c) { return 79992000 <= c && c <= 80008000; }
static bool mode_allowed(uint8_t m) { return m == 0x80 || m == 0; }

/* Of a frequency that is allowed: how far it lies from its band's oscillator. */
static uint64_t offset_of(uint64_t f) { return f > 34000000 ? 160000000 - f : f; }

/* The tuning word, n x 2^32 / clock to the nearest whole number, halves up. */
static uint32_t word_of(uint64_t f, uint32_t clock)
{
    return ((offset_of(f) << 33) + clock) / (2 * (uint64_t)clock);
}

/* The same asked of a word, by a product: the dividend lies fewer than one divisor above word times divisor. */
static bool is_word_of(uint64_t f, uint32_t clock, uint32_t word)
{
    uint64_t divisor = 2 * (uint64_t)clock;
    return (offset_of(f) << 33) + clock - divisor * word < divisor;
}

static uint32_t nearest(uint32_t rate)
{
    uint64_t source = 20000000, below = source / rate, above = below + 1;
    return (source - rate * below) * above <= (rate * above - source) * below ? below : above;
}

static uint32_t achieved(uint32_t divisor) { return (40000000 + divisor) / (2 * divisor); }

static size_t total_of(unsigned header)
{
    unsigned length = header & 0x1FFF;
    if (length == 0 && header >> 13 >= 4) return 8194;
    return length < 2 ? 2 : length;
}

/* Of a box whose clock is allowed. */
static inline bool channel_sound(const struct channel *c, uint32_t clock)
{
    return frequency_allowed(c->frequency) && is_word_of(c->frequency, clock, c->word) && gain_allowed(c->gain);
}

/* inline: it has two callers, and gcc would make a call of it */
static inline bool sound(const struct station *s)
{
    static const uint8_t unused[HELD];
    if (s->count > 4000000000u || !clock_allowed(s->clock)) return false;
    if (!channel_sound(&s->first, s->clock) || !channel_sound(&s->second, s->clock)) return false;
    if (s->divisor < 10 || s->divisor > 625 || !mode_allowed(s->mode) || s->size > 1) return false;
    if (s->setup != SINGLE && s->setup != DUAL) return false;
    for (int i = 0; i < 8; i++) {
        uint8_t c = s->serial[i];
        if (!('A' <= c && c <= 'Z') && !('0' <= c && c <= '9')) return false;
    }
    if (s->taken >= 2 && s->taken >= total_of(s->held[0] | s->held[1] << 8)) return false;
    size_t used = s->taken < HELD ? s->taken : HELD;
    return memcmp(s->held + used, unused + used, HELD - used) == 0;
}

static void fresh(struct station *s)
{
    memset(s, 0, sizeof *s);
    s->first.frequency = s->second.frequency = 10000000;
    s->first.word = s->second.word = 536870912;
    s->clock = 80000000;
    s->divisor = 100;
    s->mode = 0x80;
    memcpy(s->serial, "MT123456", 8);
}

static void put(uint8_t *at, uint64_t v, int n)
{
    for (int i = 0; i < n; i++) at[i] = v >> 8 * i;
}

static uint64_t get(const uint8_t *at, int n)
{
    uint64_t v = 0;
    for (int i = n; i-- > 0;) v = v << 8 | at[i];
    return v;
}

/* A control message that is in order: what it is about, how long its reply is, and what a set sets (of a state its run
   byte, and its mode beside). */
struct asked {
    unsigned kind, item;
    uint8_t channel, mode;
    size_t reply;
    uint64_t value;
};

/* The lengths of an item's set, request and reply, 0 where it is not offered; false for an item that is not listed. */
static bool look_up(unsigned item, size_t *set, size_t *request, size_t *reply)
{
    *set = 0;
    switch (item) {
    case NAME: *request = 4, *reply = 11; break;
    case SERIAL: *request = 4, *reply = 13; break;
    case INTERFACE: *request = 4, *reply = 6; break;
    case VERSIONS: *request = 5, *reply = 7; break;
    case STATUS: *request = 4, *reply = 5; break;
    case STATE: *set = 8, *request = 4, *reply = 8; break;
    case CHANNEL_SETUP: *set = 5, *request = 4, *reply = 5; break;
    case FREQUENCY: *set = 10, *request = 5, *reply = 10; break;
    case GAIN: *set = 6, *request = 5, *reply = 6; break;
    case CLOCK:
    case RATE: *set = 9, *request = 5, *reply = 9; break;
    case PACKET_SIZE: *set = 5, *request = 4, *reply = 5; break;
    default: return false;
    }
    return true;
}

/* Whether a channel byte names a channel that is open. */
static bool is_open(const struct station *s, uint8_t channel)
{
    return channel == FIRST || (channel == SECOND && s->setup == DUAL);
}

/* Whether a set's value is allowed, and allowed now. */
static enum code judge_set(const struct station *s, const uint8_t *m, struct asked *a)
{
    switch (a->item) {
    case STATE:
        a->value = m[5];
        a->mode = m[6];
        if (a->value == IDLE) break;
        if (a->value != RUN || m[4] != COMPLEX || !mode_allowed(a->mode)) return VALUE_NOT_ALLOWED;
        if (s->running && a->mode != s->mode) return NOT_WHILE_RUNNING;
        break;
    case CHANNEL_SETUP:
        a->value = m[4];
        if (a->value != SINGLE && a->value != DUAL) return VALUE_NOT_ALLOWED;
        if (s->running) return NOT_WHILE_RUNNING;
        break;
    case FREQUENCY: if (!frequency_allowed(a->value = get(m + 5, 5))) return VALUE_NOT_ALLOWED; break;
    case GAIN: if (!gain_allowed(a->value = m[5])) return VALUE_NOT_ALLOWED; break;
    case CLOCK: if (!clock_allowed(a->value = get(m + 5, 4))) return VALUE_NOT_ALLOWED; break;
    case RATE:
        a->value = get(m + 5, 4);
        if (a->value < 32000 || a->value > 2000000) return VALUE_NOT_ALLOWED;
        if (s->running) return NOT_WHILE_RUNNING;
        break;
    case PACKET_SIZE:
        if ((a->value = m[4]) > 1) return VALUE_NOT_ALLOWED;
        if (s->running) return NOT_WHILE_RUNNING;
        break;
    }
    return DONE;
}

/* The code of a control message of 4 to 64 bytes; where it is in order, *a is filled. */
static enum code judge(const struct station *s, unsigned kind, const uint8_t *m, size_t n, struct asked *a)
{
    a->kind = kind;
    a->item = get(m + 2, 2);
    size_t set, request;
    if (!look_up(a->item, &set, &request, &a->reply)) return NOT_LISTED;
    size_t expected = kind == SET ? set : kind == REQUEST ? request : a->item == FREQUENCY ? 5 : 0;
    if (expected == 0) return NOT_OFFERED;
    if (n != expected) return WRONG_LENGTH;
    a->channel = n > 4 ? m[4] : 0;
    if ((a->item == FREQUENCY || a->item == GAIN) && !is_open(s, a->channel) && !(kind == SET && a->channel == ALL))
        return CHANNEL_NOT_ALLOWED;
    if (kind == RANGE) a->reply = 36;
    if (kind != SET) return a->item == VERSIONS && a->channel > 3 ? VALUE_NOT_ALLOWED : DONE;
    return judge_set(s, m, a);
}

/* Whether a set with this byte, which was allowed, covers the first channel; the second. */
static bool covers_first(uint8_t channel) { return channel != SECOND; }
static bool covers_second(const struct station *s, uint8_t channel)
{
    return channel == SECOND || (channel == ALL && s->setup == DUAL);
}

static void store_frequency(struct station *s, uint8_t channel, uint64_t frequency)
{
    uint32_t word = word_of(frequency, s->clock);
    if (covers_first(channel)) s->first.frequency = frequency, s->first.word = word;
    if (covers_second(s, channel)) s->second.frequency = frequency, s->second.word = word;
}

static void store_gain(struct station *s, uint8_t channel, uint8_t gain)
{
    if (covers_first(channel)) s->first.gain = gain;
    if (covers_second(s, channel)) s->second.gain = gain;
}

static void store_clock(struct station *s, uint32_t clock)
{
    s->clock = clock;
    s->first.word = word_of(s->first.frequency, clock);
    s->second.word = word_of(s->second.frequency, clock);
}

static void store(struct station *s, const struct asked *a)
{
    switch (a->item) {
    case STATE:
        if (a->value == IDLE) s->running = false;
        else if (!s->running) s->running = true, s->mode = a->mode, s->count = 0;
        break;
    case CHANNEL_SETUP: s->setup = a->value; break;
    case FREQUENCY: store_frequency(s, a->channel, a->value); break;
    case GAIN: store_gain(s, a->channel, a->value); break;
    case CLOCK: store_clock(s, a->value); break;
    case RATE: s->divisor = nearest(a->value); break;
    case PACKET_SIZE: s->size = a->value; break;
    }
}

static void write_reply(const struct station *s, const struct asked *a, uint8_t *out)
{
    static const uint8_t versions[4][2] = {{0x64, 0}, {0x6B, 0}, {0x66, 0}, {1, 7}};
    const struct channel *shown = a->channel == SECOND ? &s->second : &s->first;
    put(out, a->reply | (a->kind == RANGE ? 0x4000 : 0), 2);
    put(out + 2, a->item, 2);
    if (a->kind == RANGE) {
        out[4] = a->channel;
        out[5] = 2;
        put(out + 6, 100000, 5);
        put(out + 11, 34000000, 5);
        put(out + 16, 0, 5);
        put(out + 21, 140000000, 5);
        put(out + 26, 150000000, 5);
        put(out + 31, 160000000, 5);
        return;
    }
    out[4] = a->channel;
    switch (a->item) {
    case NAME: memcpy(out + 4, "NetSDR", 7); break;
    case SERIAL: memcpy(out + 4, s->serial, 8); out[12] = 0; break;
    case INTERFACE: put(out + 4, 105, 2); break;
    case VERSIONS: memcpy(out + 5, versions[a->channel], 2); break;
    case STATUS: out[4] = s->running ? 0x0C : 0x0B; break;
    case STATE: out[4] = COMPLEX; out[5] = s->running ? RUN : IDLE; out[6] = s->mode; out[7] = 0; break;
    case CHANNEL_SETUP: out[4] = s->setup; break;
    case FREQUENCY: put(out + 5, shown->frequency, 5); break;
    case GAIN: out[5] = shown->gain; break;
    case CLOCK: put(out + 5, s->clock, 4); break;
    case RATE: put(out + 5, achieved(s->divisor), 4); break;
    case PACKET_SIZE: out[4] = s->size; break;
    }
}

/* The answer to a control message of 4 to 64 bytes, in `out`: its code, and its length in *wrote. Where `out` is too short
   nothing is changed and the code is 20. */
static enum code control(struct station *s, unsigned kind, const uint8_t *m, size_t n, uint8_t *out, size_t room, size_t *wrote)
{
    struct asked a = {0};
    enum code code = judge(s, kind, m, n, &a);
    if (code != DONE) return code;
    if (room < a.reply) return NO_ROOM;
    if (kind == SET) store(s, &a);
    *wrote = a.reply;
    write_reply(s, &a, out);
    return DONE;
}

static enum code feed(struct station *s, const uint8_t *host, size_t n, uint8_t *reply, size_t room, size_t *consumed,
                      size_t *wrote)
{
    *consumed = *wrote = 0;
    if (!sound(s)) return BROKEN;
    size_t had = s->taken, missing = 0;
    unsigned header = 0;
    bool whole = false;
    if (had + n >= 2) {
        header = had == 0 ? (host[0] | host[1] << 8) : had == 1 ? (s->held[0] | host[0] << 8) : (s->held[0] | s->held[1] << 8);
        missing = total_of(header) - had;
        whole = n >= missing;
    }
    if (!whole) {
        if (had < HELD) memcpy(s->held + had, host, n < HELD - had ? n : HELD - had);
        s->taken += n;
        *consumed = n;
        return WAITING;
    }
    uint8_t joined[HELD];
    const uint8_t *m = host;
    if (had > 0) {
        memcpy(joined, s->held, HELD);
        if (had < HELD) memcpy(joined + had, host, missing < HELD - had ? missing : HELD - had);
        m = joined;
    }
    unsigned kind = header >> 13, length = header & 0x1FFF;
    enum code code;
    if ((kind == SET && length == 2) || (kind >= DATA && length != 1) || (kind == ACKNOWLEDGEMENT && length == 3 && m[2] <= 3))
        code = NO_REPLY_DUE;
    else if (length < 4 || kind >= ACKNOWLEDGEMENT) code = BAD_HEADER;
    else if (length > 64) code = TOO_LONG;
    else code = control(s, kind, m, length, reply, room, wrote);
    if (TOO_LONG <= code && code <= NOT_WHILE_RUNNING) {
        if (room < 2) code = NO_ROOM;
        else reply[0] = 2, reply[1] = 0, *wrote = 2;
    }
    if (code == NO_ROOM) return NO_ROOM;
    *consumed = missing;
    if (had > 0) {
        memset(s->held, 0, HELD);
        s->taken = 0;
    }
    return code;
}

#ifndef PIECES /* feeding has one caller in each object, as it has in the proved library's */
size_t peer_serve(const uint8_t *host, size_t n, uint8_t *replies, size_t room)
{
    struct station s;
    size_t at = 0, consumed, wrote;
    fresh(&s);
    while (n > 0 && room - at >= 64) {
        feed(&s, host, n, replies + at, room - at, &consumed, &wrote);
        host += consumed;
        n -= consumed;
        at += wrote;
    }
    return at;
}

#else
/* A box of 126 bytes: channel 00 (frequency 8, word 4, gain 1), channel 02 (the same), count 8, clock 4, D 4, running 1, mode 1,
   size 1, setup 1, serial 8, held 64, taken 8. */
enum { STATION_BYTES = 126, CHANNEL_BYTES = 13 };

static void channel_in(struct channel *c, const uint8_t *b)
{
    c->frequency = get(b, 8);
    c->word = get(b + 8, 4);
    c->gain = b[12];
}

static void station_in(struct station *s, const uint8_t *b)
{
    channel_in(&s->first, b);
    channel_in(&s->second, b + CHANNEL_BYTES);
    s->count = get(b + 26, 8);
    s->clock = get(b + 34, 4);
    s->divisor = get(b + 38, 4);
    s->running = b[42];
    s->mode = b[43];
    s->size = b[44];
    s->setup = b[45];
    memcpy(s->serial, b + 46, 8);
    memcpy(s->held, b + 54, HELD);
    s->taken = get(b + 118, 8);
}

static void put_channel(uint8_t *b, const struct channel *c)
{
    put(b, c->frequency, 8);
    put(b + 8, c->word, 4);
    b[12] = c->gain;
}

static void put_station(uint8_t *b, const struct station *s)
{
    put_channel(b, &s->first);
    put_channel(b + CHANNEL_BYTES, &s->second);
    put(b + 26, s->count, 8);
    put(b + 34, s->clock, 4);
    put(b + 38, s->divisor, 4);
    b[42] = s->running;
    b[43] = s->mode;
    b[44] = s->size;
    b[45] = s->setup;
    memcpy(b + 46, s->serial, 8);
    memcpy(b + 54, s->held, HELD);
    put(b + 118, s->taken, 8);
}

/* One call of feeding on a box in bytes, which are written back only where it was not refused. */
int peer_feed(uint8_t *state, size_t bytes, const uint8_t *host, size_t n, uint8_t *reply, size_t room,
              size_t *consumed, size_t *wrote)
{
    struct station s;
    *consumed = *wrote = 0;
    if (bytes != STATION_BYTES) return BROKEN;
    station_in(&s, state);
    enum code code = feed(&s, host, n, reply, room, consumed, wrote);
    if (code < NO_ROOM) put_station(state, &s);
    return code;
}
#endif

static uint16_t number_at(uint64_t position) { return position == 0 ? 0 : (position - 1) % 65535 + 1; }

static enum code cut(struct station *s, const int32_t *samples, size_t n, uint8_t *packet, size_t room, size_t *wrote)
{
    *wrote = 0;
    if (!sound(s)) return BROKEN;
    if (!s->running) return WHILE_IDLE;
    if (s->count == 4000000000u) return CAPTURE_FULL;
    size_t pairs = s->mode ? (s->size ? 64 : 240) : (s->size ? 128 : 256);
    if (n != 2 * pairs) return WRONG_COUNT;
    /* the least and the greatest: gcc makes no vectors of a flag */
    int32_t least = 0, greatest = 0;
    for (size_t i = 0; i < n; i++) {
        int32_t x = samples[i];
        least = x < least ? x : least;
        greatest = x > greatest ? x : greatest;
    }
    if (least < -8388608 || greatest > 8388607) return NOT_A_SAMPLE;
    size_t total = 4 + n * (s->mode ? 3 : 2);
    if (room < total) return NO_ROOM;
    put(packet, 0x8000 | total, 2);
    put(packet + 2, number_at(s->count), 2);
    uint8_t *at = packet + 4;
    if (s->mode) {
        for (size_t i = 0; i < n; i++) {
            uint32_t x = samples[i];
            at[3 * i] = x;
            at[3 * i + 1] = x >> 8;
            at[3 * i + 2] = x >> 16;
        }
    } else {
        for (size_t i = 0; i < n; i++) {
            int32_t q = (samples[i] + 128) >> 8;
            int16_t x = q > 32767 ? 32767 : q < -32768 ? -32768 : q;
            memcpy(at + 2 * i, &x, 2);
        }
    }
    s->count++;
    *wrote = total;
    return DONE;
}

/* Cuts packets from a run of samples with a box that has just been started; how many. */
size_t peer_cut_run(uint8_t mode, uint8_t size, uint8_t setup, const int32_t *samples, size_t n, uint8_t *packets, size_t room)
{
    struct station s;
    size_t pairs = mode ? (size ? 64 : 240) : (size ? 128 : 256), at = 0, count = 0, wrote;
    fresh(&s);
    s.running = true;
    s.mode = mode;
    s.size = size;
    s.setup = setup;
    while (n >= 2 * pairs && cut(&s, samples, 2 * pairs, packets + at, room - at, &wrote) == DONE) {
        samples += 2 * pairs;
        n -= 2 * pairs;
        at += wrote;
        count++;
    }
    return count;
}

static bool form_of(const uint8_t *packet, size_t n, uint64_t *bits, uint64_t *pairs)
{
    if (n < 2) return false;
    switch (packet[0] | packet[1] << 8) {
    case 0x85A4: *bits = 24, *pairs = 240; return n == 1444;
    case 0x8184: *bits = 24, *pairs = 64; return n == 388;
    case 0x8404: *bits = 16, *pairs = 256; return n == 1028;
    case 0x8204: *bits = 16, *pairs = 128; return n == 516;
    }
    return false;
}

/* Where a packet stands in its capture, and its first sample among those of its channel; how many were missed just before it,
   and how many in the capture so far. */
struct place {
    uint64_t position, sample, missed, total;
};

static enum code read_packet(struct reader *r, const uint8_t *packet, size_t n, struct place *place)
{
    uint64_t bits, pairs, at = 0, missed = 0, total = 0;
    if (r->channels != 1 && r->channels != 2) return BROKEN;
    if (r->heard) {
        bool listed = (r->bits == 24 && (r->pairs == 240 || r->pairs == 64))
            || (r->bits == 16 && (r->pairs == 256 || r->pairs == 128));
        if (r->position > 3999999999u || !listed) return BROKEN;
        /* of each step all but one packet is missed, so what is not missed is the number of steps */
        if (r->total > r->position || r->position > (r->position - r->total) * 65535) return BROKEN;
    } else if (r->position || r->total || r->bits || r->pairs) {
        return BROKEN;
    }
    if (!form_of(packet, n, &bits, &pairs)) return NOT_A_PACKET;
    uint16_t number = packet[2] | packet[3] << 8;
    if (number) {
        if (!r->heard) return NO_FIRST_PACKET;
        if (bits != r->bits || pairs != r->pairs) return FORM_CHANGED;
        uint16_t last = number_at(r->position);
        missed = number - last + (number > last ? 0 : 65535) - 1;
        at = r->position + missed + 1;
        if (at > 3999999999u) return PAST_LAST;
        total = r->total + missed;
    }
    *r = (struct reader){true, r->channels, at, total, bits, pairs};
    *place = (struct place){at, at * (r->channels == 2 ? pairs / 2 : pairs), missed, total};
    return DONE;
}

/* Reads packets of one length one after another by a new reader of so many channels, to the first that is refused: the position
   of the last packet's first sample, and how many packets were missed in its capture up to it. */
uint64_t peer_read_run(uint8_t channels, const uint8_t *packets, size_t n, size_t total, uint64_t *missed)
{
    struct reader r = {.channels = channels};
    struct place last = {0};
    while (n >= total && read_packet(&r, packets, total, &last) == DONE) {
        packets += total;
        n -= total;
    }
    *missed = last.total;
    return last.sample;
}

int peer_unpack(const uint8_t *packet, size_t n, int32_t *numbers, size_t room, size_t *count)
{
    uint64_t bits, pairs;
    *count = 0;
    if (!form_of(packet, n, &bits, &pairs)) return NOT_A_PACKET;
    if (room < 2 * pairs) return NO_ROOM;
    const uint8_t *at = packet + 4;
    if (bits == 24) {
        for (size_t i = 0; i < 2 * pairs; i++)
            numbers[i] = (int32_t)((uint32_t)at[3 * i] << 8 | (uint32_t)at[3 * i + 1] << 16 | (uint32_t)at[3 * i + 2] << 24) >> 8;
    } else {
        for (size_t i = 0; i < 2 * pairs; i++) {
            int16_t x;
            memcpy(&x, at + 2 * i, 2);
            numbers[i] = x;
        }
    }
    *count = 2 * pairs;
    return DONE;
}
