// Writes a session for the bench, or an input for the searches.
// usage: generate board | generate session SEED | generate base SEED | generate searches SEED
// board: a board's forty minutes, 48,000 ticks, each after five temperatures, sixteen voltages, four fan counts and some bus reads, its
// limits written first. session SEED: a session, valid or damaged, most often a short one, that the seed decides: setups with offsets up to
// 63, right and wrong ones, and scenes of blocks, fan counts, voltages about their limits, temperatures in half degrees and in sixteenths,
// right and wrong ones, about the tables' thresholds, the boosts, their limits, the halves, the whole degrees and the ends of their range,
// bus writes of a zone's bytes after them, and sleep states and masks, in which voltages, fans and zones err or are missing.
// base SEED: one with the letters of document 01 alone.
// searches SEED: tables, and step searches a sixteenth about their thresholds, valid or damaged, under 32,000 bytes, that the seed decides.
// The board and the base sessions never change, so that counts made on them can be held against each other.
#include <stdint.h>
#include <stdio.h>
#include <stdlib.h>
#include <string.h>

// of temperatures, which are in sixteenths where nothing else is said: a degree, a half, the ends of a zone's range; none
enum { DEGREE = 16, HALF = 8, COLDEST = -2032, HOTTEST = 2040, MISSING = 100000 };

static uint64_t state;

// The numbers come in the order of the text: no expression asks for two whose order C leaves open.
static uint32_t next(void)
{
    state = state * 6364136223846793005u + 1442695040888963407u;
    return state >> 33;
}

static int below(int n) { return next() % n; }

static int between(int low, int high) { return low + below(high - low + 1); }

static int one_in(int n) { return below(n) == 0; }

static int clamp(int n, int low, int high) { return n < low ? low : n > high ? high : n; }

// ---- lines

static char line[2048];
static int len;

static void add(const char *text)
{
    int n = strlen(text);
    memcpy(line + len, text, n);
    len += n;
}

static void field(const char *text)
{
    add("\t");
    add(text);
}

static void number(int n)
{
    char b[16];
    snprintf(b, sizeof b, "%d", n);
    field(b);
}

static void number_or_dash(int n, int odds)
{
    if (one_in(odds)) field("-");
    else number(n);
}

static void byte(int b)
{
    char t[4];
    snprintf(t, sizeof t, "%02X", b & 255);
    field(t);
}

static const int telling[] = {0x31, 0x31, 0x31, 0x35, 0x35, 0xBD, 0xBF, 0xBF, 0xE3, 0xE4, 0x20, 0x21, 0x22, 0x23, 0x52, 0x53, 0x41, 0x42,
                              0x47, 0x49, 0x4A, 0x4F, 0xB4, 0xB5, 0xB6, 0xB7, 0xBA, 0xBB, 0x90, 0x91, 0x9C, 0x9D, 0xA4, 0xA5, 0xAC, 0xAE,
                              0xAF};

static int some_register(void) { return one_in(3) ? below(256) : telling[below(sizeof telling / sizeof telling[0])]; }

static int some_byte(int a)
{
    int low;
    if (a == 0x31) return one_in(2) ? 1 << below(5) : below(32);
    if (a == 0xBF) return low = below(5), low | below(4) << 4;
    if (a == 0xE3) return one_in(6) ? below(256) : below(2) * 4;
    if (a == 0x52 || a == 0x53 || a == 0x21 || a == 0x23) return one_in(6) ? 0x80 : below(256);
    return one_in(4) ? (one_in(2) ? 0x00 : 0xFF) : below(256);
}

static int some_address(void)
{
    static const int near[] = {0x2C, 0x2C, 0x2C, 0x2C, 0x2D, 0x2E, 0x2F};
    if (one_in(40)) return below(256);
    return near[below(7)];
}

// its offset of 16 was out of range before Q-6, and stays for the sake of the base sessions
static void setup_line(void)
{
    int duty = 0, override;
    add("S");
    number(one_in(40) ? 3 : below(3));
    for (int i = 0; i < 4; i++) number(one_in(60) ? 128 : between(-40, 60));
    for (int i = 0; i < 24; i++) number(one_in(400) ? 16 : below(8));
    for (int i = 0; i < 2; i++) number(below(16));
    for (int i = 0; i < 13; i++) {
        duty = duty + below(24);
        if (duty > 256) duty = 256;
        number(one_in(400) ? duty - 1 : duty);
    }
    for (int i = 0; i < 6; i++) number_or_dash(one_in(60) ? -128 : between(-20, 100), 2);
    number(below(16));
    for (int i = 0; i < 2; i++) number(below(256));
    for (int i = 0; i < 2; i++) override = below(257), number_or_dash(override, 1 + below(3));
    for (int i = 0; i < 2; i++) number(below(257));
    for (int i = 0; i < 2; i++) number(one_in(4) ? below(256) : below(5));
}

static int some_half_degrees(void) { return one_in(12) ? between(-260, 260) : one_in(3) ? between(-80, 200) : between(50, 120); }

// the first of each letter's share of twenty
enum { T = 0, V = 4, F = 7, H = 9, A = 10, K = 11, X = 15, W = 16 };

// an event of document 01: of twenty that are drawn alike, each letter has its share
static void event_line(int which)
{
    int a;
    switch (which) {
    case T: case 1: case 2: case 3:
        add("T");
        number(one_in(25) ? between(-1, 7) : between(1, 5));
        number_or_dash(some_half_degrees(), 10);
        break;
    case V: case 5: case 6:
        add("V");
        number(one_in(25) ? between(-1, 18) : one_in(3) ? 11 + 4 * below(2) : between(1, 16));
        number_or_dash(one_in(25) ? between(-2, 300) : one_in(8) ? below(2) : below(256), 10);
        break;
    case F: case 8:
        add("F");
        number(one_in(25) ? between(0, 6) : between(1, 4));
        number_or_dash(one_in(25) ? between(16380, 16390) : below(16384), 10);
        break;
    case H:
        add("H");
        number(one_in(25) ? between(0, 6) : between(1, 4));
        number_or_dash(one_in(25) ? 2 : below(2), 40);
        break;
    case A:
        add("A");
        number_or_dash(one_in(25) ? 3 : below(3), 40);
        break;
    case K: case 12: case 13: case 14:
        add("K");
        break;
    case X:
        add(one_in(4) ? "X" : "K");
        break;
    case W: case 17: case 18:
        add("W");
        byte(some_address());
        byte(a = some_register());
        byte(some_byte(a));
        break;
    default:
        add("R");
        byte(some_address());
        byte(some_register());
    }
}

static void sixteenths_line(void)
{
    static const int ends[] = {COLDEST - 1, COLDEST, HOTTEST, HOTTEST + 1};
    int n = HALF * some_half_degrees();
    n += between(-HALF, HALF);
    add("U");
    number(one_in(25) ? between(-1, 7) : between(1, 5));
    number_or_dash(one_in(16) ? ends[below(4)] : n, 10);
}

// an event of a session with scenes: every other temperature is in sixteenths
static void some_event_line(int which)
{
    if (which < V && one_in(2)) sixteenths_line();
    else event_line(which);
}

// ---- blocks

static const int slave[] = {0x2C, 0x2E, 0x2D};
static int level, latched, begun; // guessed: the pin's level; the slave address, or 0 before the latch; if a line was taken
static int refused;               // if the present line is sure to be

static int own_address(void) { return latched ? latched : slave[level]; }

static int block_address(void)
{
    switch (below(16)) {
    case 0: return one_in(2) ? own_address() | 0x80 : between(0x7F, 0x80);
    case 1: return some_address();
    case 2: case 3: case 4: return between(0x2C, 0x2F);
    }
    return own_address();
}

// of the commands F2h to FDh
static const int counts[] = {8, 8, 6, 16, 4, 8, 12, 32, 8, 8, 16, 9};
static const int firsts[] = {0x40, 0x48, 0x50, 0x56, 0x67, 0x6E, 0x78, 0x90, 0xB4, 0xC8, 0xD0, 0xE5};

static int some_command(void)
{
    static const int unlisted[] = {0x00, 0x40, 0x50, 0xEF, 0xF0, 0xF1, 0xFE, 0xFF};
    if (one_in(4)) return one_in(6) ? below(256) : unlisted[below(8)];
    return between(0xF2, 0xFD);
}

static int some_block_byte(int command, int i)
{
    switch (command) {
    case 0xF2: case 0xF3: return one_in(3) ? 0x00 : one_in(2) ? 0xFF : one_in(2) ? 1 << below(8) : below(256);
    case 0xF4: return some_byte(0x52);
    case 0xF8: return one_in(4) ? (i % 2 ? 0x7F : 0x80) : i % 2 ? between(10, 90) : between(-40, 60);
    case 0xF9: return one_in(3) ? (i % 2 ? 0xFF : 0x00) : i % 2 ? between(100, 255) : below(120);
    case 0xFA: return one_in(2) ? 0xFF : below(256);
    }
    return some_byte(0);
}

static void read_block(int address, int command)
{
    add("G");
    byte(address);
    byte(command);
}

static void write_block(int address, int command, int count, int n)
{
    refused = n != (count & 255) || n > 32;
    add("P");
    byte(address);
    byte(command);
    byte(count);
    for (int i = 0; i < n; i++) byte(some_block_byte(command, i));
}

// a block write up to its data, which are to be as many as the command has
static void begin_block(int command)
{
    add("P");
    byte(own_address());
    byte(command);
    byte(counts[command - 0xF2]);
}

static void replace(int at, int cut, const char *text)
{
    int n = strlen(text);
    memmove(line + at + n, line + at + cut, len - at - cut);
    memcpy(line + at, text, n);
    len += n - cut;
}

// the first has the number 0
static void replace_field(int nth, const char *text)
{
    int at = 0, n = 0;
    for (; nth > 0; nth--) at += strcspn(line + at, "\t") + 1;
    while (at + n < len && line[at + n] != '\t') n++;
    replace(at, n, text);
}

static void lengthen(int n)
{
    while (len + 3 <= n) byte(0);
    while (len < n) add("0");
}

// one wrong spelling in a line of two digits a field
static void misspell(void)
{
    static const char *const wrong[] = {"-", "-1", "", "1", "00F", "f0", "0f", "G0", "0:", "@0", "0/", " 1", "1 ", "0x"};
    int last = (len - 1) / 3 - 1, at = 2 + 3 * (one_in(3) ? last : below(last + 1));
    switch (below(8)) {
    case 0: add("\t"); break;
    case 1: field("-"); break;
    case 2: add(one_in(2) ? "\r" : " "); break;
    case 3: len -= one_in(2) ? 3 : 1; break;
    case 4: if (one_in(2)) byte(below(256)); else line[0] ^= 0x20; break;
    case 5: lengthen(between(508, 516)); break;
    default: replace(at, 2, wrong[below(sizeof wrong / sizeof wrong[0])]);
    }
    refused = 1;
}

// a block read or write that may be wrong: its address, command, count, number of bytes or spelling
static void odd_block_line(void)
{
    int address = block_address(), command = some_command(), listed = command >= 0xF2 && command <= 0xFD;
    int count = listed ? counts[command - 0xF2] : below(33), n = count;
    if (one_in(3)) {
        read_block(address, command);
    } else {
        switch (below(9)) {
        case 0: n = count += one_in(2) ? 1 : -1; break;
        case 1: n = count = 0; break;
        case 2: n = count = between(32, 33); break;
        case 3: n = count = below(35); break;
        case 4: n += one_in(2) ? 1 : -1; break;
        case 5: count += one_in(2) ? 1 : -1; break;
        case 6: n = one_in(2) ? 0 : between(31, 34); break;
        case 7: count = one_in(2) ? 0 : below(256); break;
        }
        write_block(address, command, count, n);
    }
    if (address > 0x7F) refused = 1;
    if (one_in(4)) misspell();
}

static void write_to(int address, int a, int b)
{
    add("W");
    byte(address);
    byte(a);
    byte(b);
}

static void write_own(int a, int b) { write_to(own_address(), a, b); }

static void read_own(int a)
{
    add("R");
    byte(own_address());
    byte(a);
}

// ---- fan counts

static int fan_count(void) { return one_in(6) ? below(64) : one_in(6) ? between(16320, 16383) : below(16384); }

static void fan_event(int fan)
{
    add("F");
    number(fan + 1);
}

static void read_fan(int address, int fan, int high)
{
    add("R");
    byte(address);
    byte(0x6E + 2 * fan + high);
}

static int other_address(void)
{
    int a;
    do a = one_in(4) ? below(128) : between(0x2C, 0x2F);
    while (a == own_address());
    return a;
}

static void refused_fan_line(int fan)
{
    switch (below(4)) {
    case 0: fan_event(one_in(2) ? -1 : 4); number(fan_count()); break;
    case 1: fan_event(fan); number(one_in(2) ? -1 : 16384); break;
    case 2: read_fan(own_address() | 0x80, fan, below(2)); break;
    default: read_fan(own_address(), fan, below(2)); misspell();
    }
    refused = 1;
}

// ---- voltages

static int held[256]; // guessed: the limits, the masks, BCh, E3h, E4h and the registers that the tables ask for, at their addresses

static int low_limit(int channel) { return held[0x90 + 2 * channel]; }

static int high_limit(int channel) { return held[0x91 + 2 * channel]; }

static int vh(void) { return held[0xBC] & 7; }

static int within_byte(int n) { return clamp(n, 0, 255); }

static int corner_reading(int channel)
{
    int low = low_limit(channel), high = high_limit(channel), near = below(8);
    int corners[] = {low - 1, low, low + 1, low + vh() - 1, low + vh(), low + near,
                     high - near, high - vh(), high - vh() + 1, high - 1, high, high + 1};
    return within_byte(corners[below(12)]);
}

enum place { OUTSIDE, IN_BETWEEN, ENDING };

static enum place place_of(int channel, int n)
{
    int low = low_limit(channel), high = high_limit(channel);
    if (n < low || n > high) return OUTSIDE;
    return (low > 0x00 && n < low + vh()) || (high < 0xFF && n > high - vh()) ? IN_BETWEEN : ENDING;
}

// any reading where none is found
static int reading_at(int channel, enum place place)
{
    int n = corner_reading(channel);
    for (int i = 0; i < 20 && place_of(channel, n) != place; i++) n = one_in(4) ? below(256) : corner_reading(channel);
    return n;
}

static void volt_event(int channel)
{
    add("V");
    number(channel + 1);
}

static void refused_volt_line(int channel)
{
    if (one_in(2)) volt_event(one_in(2) ? -1 : 16), number(corner_reading(channel));
    else volt_event(channel), number(one_in(2) ? -1 : 256);
    refused = 1;
}

struct window {
    int low, high;
};

static struct window some_window(void)
{
    struct window w;
    w.low = between(8, 120);
    w.high = w.low + between(15, 120);
    switch (below(24)) {
    case 0: w.low = below(2); break;
    case 1: w.high = 0xFE + below(2); break;
    case 2: w.low = 0x00; w.high = 0xFF; break;
    case 3: w.low = below(2); w.high = below(16); break;
    case 4: w.low = 0x00; w.high = below(7); break;
    case 5: w.low = 255 - below(16); w.high = 0xFE + below(2); break;
    case 6: w.low = 0xFE; w.high = 0xFE + below(2); break;
    case 7: case 8: w.high = w.low + below(16); break;
    case 9: w.high = w.low; break;
    case 10: w.high = w.low - between(1, 8); break;
    case 11: w.low = w.high = 0x00; break;
    case 12: w.low = w.high = 0xFF; break;
    }
    return w;
}

// of the channels those whose bit is set get limits, the others those of power-on
static void write_windows(int channels)
{
    begin_block(0xF9);
    for (int i = 0; i < 16; i++) {
        struct window w = some_window();
        byte(channels >> i & 1 ? w.low : 0x00);
        byte(channels >> i & 1 ? w.high : 0xFF);
    }
}

static int moved_limit(int limit) { return one_in(5) ? 0xFF * below(2) : within_byte(limit + between(-8, 8)); }

static void write_for_another(int channel)
{
    int address = other_address(), limit = 0x90 + 2 * channel + below(2);
    if (one_in(2)) write_to(address, 0xBC, below(256));
    else write_to(address, limit, moved_limit(held[limit]));
}

enum { BMC = 0x41, HOST = 0x49 };

static int status_register(int channel, int group) { return group + channel / 8; }

static void clear_bit(int channel, int group)
{
    int bit = 1 << channel % 8;
    write_own(status_register(channel, group), one_in(3) ? 0xFF : one_in(8) ? ~bit : bit);
}

// ---- tables

// where the numbers stand in a setup, and how many they are
enum { BASES = 1, OFFSETS = 5, HYSTERESES = 29, DUTIES = 31, BOOSTS = 44, BOOST_HYSTERESIS = 50, BINDINGS = 51, SETUP = 59 };

enum { ALL_0, ALL_15, ONE_15, MOST_0, MANY_0, MIXED };

// of offsets up to 15, which are all that document 01 has
static void narrow_row(int *row)
{
    int kind = below(12), one = below(12), any;
    for (int i = 0; i < 12; i++) {
        any = between(1, 15);
        switch (kind) {
        case ALL_0: row[i] = 0; break;
        case ALL_15: row[i] = 15; break;
        case ONE_15: row[i] = i == one ? 15 : 0; break;
        case MOST_0: row[i] = one_in(4) ? any : 0; break;
        case MANY_0: row[i] = one_in(2) ? any : 0; break;
        case MIXED: case MIXED + 1: row[i] = below(16); break;
        default: row[i] = below(5);
        }
    }
}

enum { ALL_63, ALL_ALIKE = 2, ONE_63, ONE_AMONG_0, ENDS, ENDS_AND_0, WIDE_OR_0, TO_63, TO_31 };

static int end_offset(void)
{
    static const int ends[] = {15, 16, 62, 63};
    return ends[below(4)];
}

// of offsets up to 63; a row of no named kind has a few wide ones among narrow ones
static void wide_row(int *row)
{
    int kind = below(13), one = one_in(3) ? 11 * below(2) : below(12), alike = one_in(2) ? end_offset() : between(16, 63);
    int end, wide;
    for (int i = 0; i < 12; i++) {
        end = end_offset();
        wide = between(16, 63);
        switch (kind) {
        case ALL_63: case ALL_63 + 1: row[i] = 63; break;
        case ALL_ALIKE: row[i] = alike; break;
        case ONE_63: row[i] = i == one ? 63 : 0; break;
        case ONE_AMONG_0: row[i] = i == one ? alike : 0; break;
        case ENDS: row[i] = end; break;
        case ENDS_AND_0: row[i] = one_in(2) ? end : 0; break;
        case WIDE_OR_0: row[i] = one_in(3) ? wide : 0; break;
        case TO_63: row[i] = below(64); break;
        case TO_31: row[i] = below(32); break;
        default: row[i] = i == one || one_in(6) ? (one_in(2) ? end : wide) : below(one_in(2) ? 5 : 16);
        }
    }
}

static int end_base(void) { return one_in(2) ? -127 : 127; }

static int some_base(void)
{
    switch (below(6)) {
    case 0: return between(-127, 127);
    case 1: return one_in(3) ? end_base() : one_in(2) ? between(-127, -112) : between(112, 127);
    }
    return between(-70, 80);
}

// the sum of the first k offsets in degrees, a count being a degree or half of one
static int degrees(const int *row, int k, int half)
{
    int sum = 0;
    for (int i = 0; i < k; i++) sum += row[i];
    return half ? sum / 2 : sum;
}

// most often so low that readings reach all thresholds of the row, or as many as can be; now and then one of them is a little above the
// hottest reading
static int low_base(const int *row)
{
    int half = below(2), k = between(1, 12), room = 254 - degrees(row, 12, half);
    switch (below(11)) {
    case 0: return end_base();
    case 1: case 2: case 3: return -127;
    case 4: return some_base();
    case 5: case 6:
        while (k > 1 && degrees(row, k, half) > 255) k--;
        return clamp(128 + below(8) - degrees(row, k, half), -127, 127);
    }
    return -127 + below(room > 3 ? room : 3);
}

static int some_hysteresis(void)
{
    static const int ends[] = {0, 1, 15, 15};
    return one_in(2) ? ends[below(4)] : below(16);
}

static int some_boost(void) { return one_in(16) ? end_base() : one_in(5) ? between(-127, 127) : between(-80, 80); }

// a setup by whose duties each step of a table is seen, and each boost; one in four has no offset above 15, two in three have next to no
// boosts
static void table_setup_line(void)
{
    int duty = below(12), table = below(4), other = (table + between(1, 3)) % 4, two = one_in(4), narrow = one_in(4), hot, override;
    int row[2][12], wide[2], boosts = one_in(3);
    for (int i = 0; i < 2; i++) {
        wide[i] = !narrow && !one_in(6);
        if (wide[i]) wide_row(row[i]);
        else narrow_row(row[i]);
    }
    add("S");
    number(below(3));
    for (int i = 0; i < 4; i++) number(wide[i / 2] ? low_base(row[i / 2]) : some_base());
    for (int i = 0; i < 24; i++) number(row[i / 12][i % 12]);
    for (int i = 0; i < 2; i++) number(some_hysteresis());
    for (int i = 0; i < 13; i++) {
        number(duty);
        duty += between(1, 20);
    }
    for (int i = 0; i < 6; i++) {
        if (one_in(boosts ? 2 : 30)) number(some_boost());
        else field("-");
    }
    number(some_hysteresis());
    for (int i = 0; i < 2; i++) {
        hot = one_in(8) ? below(16) : 0;
        number(1 << (i ? other : table) | (two ? 1 << below(4) : 0) | hot << 4);
    }
    for (int i = 0; i < 2; i++) override = below(257), number_or_dash(override, one_in(16) ? 2 : 1);
    for (int i = 0; i < 2; i++) number(one_in(4) ? below(257) : below(4));
    for (int i = 0; i < 2; i++) number(one_in(4) ? below(5) : 0);
}

// makes one number of a setup wrong, most often an offset, now and then a hysteresis: out of range or, seldom, misspelled
static void spoil_setup(void)
{
    static const char *const offsets[] = {"65", "79", "127", "128", "255", "256", "271", "319", "320", "65535", "65536", "65599", "65599",
                                          "4294967296", "4294967359", "-1", "-1", "-63", "-64", "-193", "-", "-"};
    static const char *const hystereses[] = {"16", "16", "16", "17", "62", "63", "63", "64", "-1", "-"};
    static const char *const spelled[] = {"", "-0", "-00", "00", "015", "016", "063", "064", "+63", "3F", "63 ", " 63", "6 3", "63.", "--"};
    static const int ends[] = {0, 11, 12, 23};
    int at = OFFSETS + (one_in(5) ? ends[below(4)] : below(24));
    refused = 1;
    switch (below(16)) {
    case 0: replace_field(1 + at, spelled[below(sizeof spelled / sizeof spelled[0])]); break;
    case 1: case 2: at = HYSTERESES + below(2); replace_field(1 + at, hystereses[below(10)]); break;
    case 3: case 4: replace_field(1 + BOOST_HYSTERESIS, hystereses[below(10)]); break;
    case 5: case 6: case 7: case 8: case 9: case 10: replace_field(1 + at, "64"); break;
    default: replace_field(1 + at, offsets[below(sizeof offsets / sizeof offsets[0])]);
    }
}

static void some_setup_line(void)
{
    if (one_in(3)) setup_line();
    else table_setup_line();
}

static int setup[SETUP]; // guessed: its numbers, save those that no scene asks for

static void guess_plain_setup(void)
{
    for (int i = 0; i < 4; i++) setup[BASES + i] = 30;
    for (int i = OFFSETS; i < DUTIES; i++) setup[i] = 2;
    for (int i = 0; i < 6; i++) setup[BOOSTS + i] = MISSING;
    setup[BOOST_HYSTERESIS] = 3;
    setup[BINDINGS] = 17;
    setup[BINDINGS + 1] = 4;
}

// for one of the table's offsets or hysteresis
static int unit(int table) { return held[0xBD] >> (4 + table / 2) & 1 ? HALF : DEGREE; }

static int threshold(int table, int k)
{
    int sum = DEGREE * setup[BASES + table];
    for (int i = 0; i < k; i++) sum += unit(table) * setup[OFFSETS + 12 * (table / 2) + i];
    return sum;
}

static int hysteresis(int table) { return unit(table) * setup[HYSTERESES + table / 2]; }

static int within_reach(int n) { return clamp(n, COLDEST, HOTTEST); }

// most often a sixteenth
static int a_little(void) { return one_in(2) ? 1 : one_in(2) ? HALF : between(2, HALF + 1); }

// how many thresholds are not above a reading; none is below the coldest
static int thresholds_to(int table, int reading)
{
    int n = 0;
    while (n < 12 && threshold(table, n + 1) <= reading) n++;
    return n;
}

// any where none is; now and then the highest, or one that is in reach only of a reading plus hysteresis
static int threshold_in_reach(int table)
{
    int n = thresholds_to(table, HOTTEST), later = thresholds_to(table, HOTTEST + hysteresis(table));
    if (later > n && one_in(3)) return between(n + 1, later);
    return n == 0 ? between(1, 12) : one_in(6) ? n : between(1, n);
}

// where not all are in reach, most often the hottest reading there is
static int above_thresholds_in_reach(int table)
{
    int n = thresholds_to(table, HOTTEST);
    return n < 12 && !one_in(3) ? HOTTEST : threshold(table, n) + (one_in(3) ? below(HALF) : HALF * below(60));
}

// if the hysteresis reaches over the next threshold, too
static int crowded(int table, int k)
{
    int gap = k < 12 ? threshold(table, k + 1) - threshold(table, k) : 0;
    return gap > 0 && gap < hysteresis(table);
}

static int crowded_threshold(int table)
{
    int k = threshold_in_reach(table);
    for (int i = 0; i < 8 && !crowded(table, k); i++) k = threshold_in_reach(table);
    return k;
}

// one that lies beside the whole degrees where the table counts in halves
static int odd_threshold(int table)
{
    int k = threshold_in_reach(table);
    for (int i = 0; i < 8 && degrees(setup + OFFSETS + 12 * (table / 2), k, 0) % 2 == 0; i++) k = threshold_in_reach(table);
    return k;
}

static int table_corner(int table, int k)
{
    int up = threshold(table, k), down = up - hysteresis(table), little = a_little();
    int corners[] = {up - little, up, up + little, down - little, down, down + little};
    return corners[below(6)];
}

static int any_table_corner(int table)
{
    int k = threshold_in_reach(table);
    return table_corner(table, k);
}

static char due[64]; // a line that comes after the present one
static int due_len;

// the line made so far comes after another
static void put_off(void)
{
    memcpy(due, line, due_len = len);
    len = 0;
}

static void due_line(void)
{
    memcpy(line, due, len = due_len);
    due_len = 0;
}

// zones as in a setup: 1a, 1b, 2a, 2b, 3, 4; by U, or by T where it can state the reading, every other time
static void temperature(int zone, int n)
{
    int halves = (n == MISSING || n % HALF == 0) && one_in(2);
    add(halves ? "T" : "U");
    number(zone + 1);
    if (n == MISSING) field("-");
    else number(halves ? n / HALF : n);
}

static int whole_register(int zone)
{
    static const int registers[][2] = {{0x50, 0x11}, {0x06, 0x13}, {0x51, 0x15}, {0x07, 0x17}, {0x52, 0x21}, {0x53, 0x23}};
    return registers[zone][below(2)];
}

static int half_register(int zone) { return zone < 4 ? 0x10 + 2 * zone : 0x20 + 2 * (zone - 4); }

static int floor_degrees(int n) { return (n - COLDEST) / DEGREE + COLDEST / DEGREE; }

static int half_bit(int n) { return (n - COLDEST) % DEGREE >= HALF; }

static int given[6]; // guessed: the zones' readings

static int whole_byte(int n) { return n == MISSING ? 0x80 : floor_degrees(n); }

// the whole byte of zone 3 or 4 by a block write, in which the other has the degrees that it has
static void zone_by_block(int zone, int n)
{
    begin_block(0xF4);
    for (int i = 0; i < 6; i++) byte(i < 2 || i > 3 ? below(256) : whole_byte(i + 2 == zone ? n : given[i + 2]));
}

// zone 3 or 4, to a reading rounded down to a half
static void zone_by_bus(int zone, int n)
{
    if (n != MISSING && half_bit(n)) {
        write_own(half_register(zone), 0x80 | below(128));
        put_off();
    }
    if (one_in(5)) zone_by_block(zone, n);
    else write_own(whole_register(zone), whole_byte(n));
}

static void zone_by_volt(int zone, int n)
{
    volt_event(zone == 4 ? 10 : 14);
    if (n == MISSING && one_in(3)) field("-");
    else number(n == MISSING ? 0 : floor_degrees(n) + 128);
}

static int fed(int zone) { return zone == 4 ? (held[0x31] & 0x11) == 0x01 : zone == 5 && held[0x31] & 0x02; }

static int open_to_bus(int zone) { return zone == 4 ? held[0x31] & 0x10 : zone == 5 && !(held[0x31] & 0x02); }

// gives a zone this reading, as near as the way in that is open to it has it
static void give(int zone, int n)
{
    if (n != MISSING) n = within_reach(n);
    if (fed(zone)) zone_by_volt(zone, n);
    else if (open_to_bus(zone)) zone_by_bus(zone, n);
    else temperature(zone, n);
}

// one of the two has the reading, the other most often a lower one: by a sixteenth, by less than a degree or by more
static void zone_of_two(int zone, int n)
{
    int second = below(2), less = one_in(2) ? 1 : one_in(2) ? between(1, DEGREE) : HALF * below(60);
    give(zone + second, n);
    put_off();
    give(zone + !second, one_in(12) ? MISSING : (n == MISSING ? 0 : within_reach(n)) - less);
}

// gives the zone that a table follows this reading, by two lines where one is not enough
static void show(int table, int n)
{
    int second = table % 2, bound = held[0x35] >> (4 + table) & 1;
    if (bound && held[0x31] & 0x04 << second) zone_of_two(2 * second, n);
    else give(bound ? 2 * second : 4 + second, n);
}

// one that the fan is bound to; any where it is bound to none
static int bound_table(int fan)
{
    int table = below(4);
    for (int i = 0; i < 4 && !(setup[BINDINGS + fan] >> table & 1); i++) table = (table + 1) % 4;
    return table;
}

// ---- zones

// a zone's boost; of one without a boost, any temperature
static int boost(int zone) { return DEGREE * (setup[BOOSTS + zone] == MISSING ? 30 : setup[BOOSTS + zone]); }

// what a reading must be below for the boost to go off
static int boost_end(int zone) { return boost(zone) - DEGREE * setup[BOOST_HYSTERESIS]; }

// a whole degree, a half, an end of the range, or a sixteenth beside one; now and then any reading
static int reading_corner(void)
{
    int beside = between(-1, 1);
    switch (below(8)) {
    case 0: case 1: return within_reach((one_in(2) ? COLDEST : HOTTEST) + beside);
    case 2: return beside + HALF * between(-3, 3);
    case 3: return between(COLDEST, HOTTEST);
    }
    return within_reach(beside + HALF * between(COLDEST / HALF, HOTTEST / HALF));
}

static const char *one_of(const char *const *from, int n) { return from[below(n)]; }

#define ONE_OF(list) one_of(list, sizeof list / sizeof list[0])

// a T or, most often, U out of range or misspelled
static void refused_temperature_line(int zone)
{
    static const char *const zones[] = {"0", "0", "6", "6", "7", "-1", "-5", "-", "16", "255", "257", "65537", "4294967297"};
    static const char *const sixteenths[] = {"-2033", "-2033", "-2033", "-2033", "2041", "2041", "2041", "2041", "-2034", "2042", "-2040",
                                             "-2048", "2047", "4080", "32768", "-32768", "65536", "-65536", "4294967296"};
    static const char *const halves[] = {"-255", "256", "-256", "257", "-2032", "2040", "65536"};
    static const char *const spelled[] = {"", "-0", "-0", "-0", "-0", "00", "08", "08", "-08", "+8", "8.0", "8/16", " 8", "8 ", "8\r",
                                          "--", "8-", "0x8", "A"};
    int by_halves = one_in(4), kind = below(11), right = reading_corner() / (by_halves ? HALF : 1);
    add(kind == 0 ? (by_halves ? "t" : "u") : by_halves ? "T" : "U");
    if (kind == 1) field(ONE_OF(spelled));
    else if (kind == 2 || kind == 3) field(ONE_OF(zones));
    else number(zone + 1);
    if (kind == 4) {
        if (one_in(2)) number(right), number_or_dash(right, 2);
    } else if (kind == 5 || kind == 6) field(ONE_OF(spelled));
    else if (kind > 6) field(by_halves ? ONE_OF(halves) : ONE_OF(sixteenths));
    else number_or_dash(right, 10);
    refused = 1;
}

// ---- the zones' limits

static int signed_byte(int b) { return (b & 255) < 128 ? b & 255 : (b & 255) - 256; }

// of the low limit; the high one stands behind it
static int limit_register(int zone) { return 0x78 + 2 * (zone < 4 ? zone / 2 : zone - 2); }

static int zone_low(int zone) { return DEGREE * signed_byte(held[limit_register(zone)]); }

static int zone_high(int zone) { return DEGREE * signed_byte(held[limit_register(zone) + 1]); }

static int zone_watched(int zone) { return held[limit_register(zone)] != 0x80 || held[limit_register(zone) + 1] != 0x7F; }

static int zone_bit(int zone) { return 1 << (limit_register(zone) - 0x78) / 2; }

// in degrees
static struct window some_zone_window(void)
{
    struct window w;
    w.low = one_in(3) ? between(-70, 0) : between(-10, 60);
    w.high = w.low + (one_in(2) ? between(1, 8) : between(1, 60));
    switch (below(24)) {
    case 0: w.low = -128; break;
    case 1: w.high = 127; break;
    case 2: w.low = -128; w.high = 127; break;
    case 3: w.high = -128; break;
    case 4: w.low = w.high = -128; break;
    case 5: w.low = between(125, 127); w.high = 127; break;
    case 6: w.low = -128; w.high = between(-128, -126); break;
    case 7: w.low = -127; w.high = 126; break;
    case 8: w.high = w.low; break;
    case 9: w.high = w.low - between(1, 8); break;
    case 10: w.low = 0; w.high = between(0, 20); break;
    case 11: w.low = between(-20, 0); w.high = 0; break;
    case 12: w.low = between(-2, 0); w.high = between(-1, 1); break;
    }
    return w;
}

// of the zones 1 to 4 those whose bit is set get limits, the others those of power-on
static void write_zone_windows(int zones)
{
    begin_block(0xF8);
    for (int i = 0; i < 4; i++) {
        struct window w = some_zone_window();
        byte(zones >> i & 1 ? w.low : 0x80);
        byte(zones >> i & 1 ? w.high : 0x7F);
    }
    for (int i = 0; i < 4; i++) byte(below(256));
}

// most often the degrees of the zone's reading, rounded down or up
static int limit_at_reading(int zone)
{
    static const int some[] = {-128, -127, -1, 0, 1, 126, 127};
    int n = given[zone] == MISSING ? between(-40, 80) : floor_degrees(given[zone]);
    if (one_in(6)) return some[below(7)];
    return n + (one_in(4) ? between(-3, 3) : below(2));
}

// the least, or little more, that the way in that is open to the zone can state
static int beside_limit(int zone)
{
    if (fed(zone)) return DEGREE;
    return open_to_bus(zone) ? HALF * between(1, 2) : one_in(2) ? 1 : a_little();
}

static int limit_corner(int zone)
{
    int low = zone_low(zone), high = zone_high(zone), beside = beside_limit(zone);
    int corners[] = {low - beside, low, low + beside, high - beside, high, high + beside};
    return within_reach(corners[below(6)]);
}

static int within_limits(int zone, int n) { return n >= zone_low(zone) && n <= zone_high(zone); }

// most often at a corner; any reading where none is found
static int reading_by_limits(int zone, int within)
{
    int n = limit_corner(zone);
    for (int i = 0; i < 20 && within_limits(zone, n) != within; i++) n = one_in(4) ? between(COLDEST, HOTTEST) : limit_corner(zone);
    return n;
}

// at a corner of the limits or a degree beside one; now and then -128, which is missing
static int degrees_by_limits(int zone)
{
    int n = limit_corner(zone), beside = DEGREE * between(-1, 1);
    return one_in(8) ? -128 : floor_degrees(within_reach(n + beside));
}

// the whole bytes of zones 3 and 4
static void write_zones(void)
{
    begin_block(0xF4);
    for (int i = 0; i < 6; i++) byte(i == 2 || i == 3 ? degrees_by_limits(i + 2) : below(256));
}

// ---- sleep

enum { S0, S1, S3, S4_5 };

static int sleep_state(void) { return held[0xE4] & 0x03; }

// every other time with bits that E4h does not have
static void write_sleep_state(int sleep) { write_own(0xE4, sleep | (one_in(2) ? below(64) << 2 : 0)); }

// back to S0 and, where GMSK is set, most often to ALERT
static void wake(void)
{
    if (held[0xE3] & 0x04 && !one_in(4)) {
        write_own(0xE3, 0x00);
        put_off();
    }
    write_own(0xE4, 0x00);
}

static int some_mask(void)
{
    int flipped = one_in(2) ? 0xFF : 0x00;
    return one_in(3) ? flipped : one_in(2) ? flipped ^ 1 << below(4) : below(256);
}

static void write_masks(void)
{
    int all = one_in(3) ? 0xFF * below(2) : -1, mask;
    begin_block(0xFD);
    for (int i = 0; i < 9; i++) mask = some_mask(), byte(all < 0 ? mask : all);
}

static int fan_limit(int fan) { return held[0xB5 + 2 * fan] << 6 | held[0xB4 + 2 * fan] >> 2; }

static int some_fan_limit(void) { return one_in(8) ? 0x3FFF - below(2) : one_in(8) ? below(2) : below(0x3FFF); }

static void write_fan_limit(int fan, int limit)
{
    write_own(0xB4 + 2 * fan, limit << 2);
    put_off();
    write_own(0xB5 + 2 * fan, limit >> 6);
}

// of the fans those whose bit is set get a limit, the others that of power-on
static void write_fan_limits(int fans)
{
    begin_block(0xFA);
    for (int i = 0; i < 4; i++) {
        int limit = some_fan_limit();
        if (!(fans >> i & 1)) limit = 0x3FFF;
        byte(limit << 2);
        byte(limit >> 6);
    }
}

static void clear_all(int command)
{
    begin_block(command);
    for (int i = 0; i < 8; i++) byte(0xFF);
}

// most often the next above the limit
static int count_above(int fan)
{
    int limit = fan_limit(fan);
    return one_in(2) || limit >= 0x3FFF ? clamp(limit + 1, 0, 0x3FFF) : between(limit + 1, 0x3FFF);
}

// ---- scenes

// Lines that belong together, parted by spaces. G and P: a right block line, of the command that ends in that digit or, for ?, of one
// that the scene keeps. O: an odd block line. Z: a write of 31h. L: one that sets LOCK. M: one that sets GMSK. H: one of a half bit. R: a
// read of zone 3 or 4.
// Of a fan, a or b of the two that the scene keeps: l and h: a read of its low or high byte. u: of either, for another address. f: its
// count. s: a count with the high byte that the scene keeps. m: missing. w: a write of either byte. e: a refused line.
// n: a read of a register beside them, or of any. N: a block line of the fan counts that is not acknowledged. *: one of what may stand
// between two reads of a count.
// Of a channel, a or b of the two that the scene keeps: [ and ]: a write of the low or high limit that the scene keeps. { and }: one that
// moves it. ( and ): one that makes it 00h or FFh. y: one of either limit or of BCh, for another address.
// !, ~ and =: a reading outside the limits, in between, or one that ends an error. .: one at a corner of the limits. -: missing.
// x: a refused line. c and C: a write that clears its bit, now and then the others, in the BMC or the Host group. q and Q: a read of
// them.
// ^: a write of BCh with the VH that the scene keeps. 0: with VH 0. v: with any. r: a read of it. |: a block write of the limits of all
// channels. +: one of what may stand between two readings of a channel.
// Of a table, a or b of the two that the scene keeps, or 1 to 4: @: a reading at the threshold that the scene keeps. < and >: a little,
// most often a sixteenth, below or above it. _: at that threshold minus the hysteresis. , and ': a little below or above that. %: from
// there up to the threshold. i and d: at a corner of the next threshold up or down, which the scene then keeps. :: at a corner of any. U:
// not below any that readings reach. D: so far below all that hysteresis holds no step. $: missing. W: a write of zone 3 or 4 with a
// reading at a corner, open or not.
// B: a write of BDh. Y: of 35h. E: of 31h. p: one of what may stand between two ticks.
// Of a zone, a or b of the two that the scene keeps, or 1 to 6: I: a reading at its boost. k and J: a little below or above it. g: at the
// boost minus the hysteresis. o: a little below that. z: from there up to the boost. j: so far below that the boost is off. /: missing.
// t: a T or U at a corner of the halves, the degrees or the range, taken or not. #: a refused one. &: a read of one of its bytes. ; and
// `: a write of its whole byte, most often with the degrees it has, or of its half bit, open or not.
// 1: a write of 31h that enables 1b and 2b. 2: one of BDh by which all tables count in half degrees. 5, 6 and 7: one of 31h that opens
// zone 3 to T and U, to the bus or to channel 11. 8 and 9: one of 35h by which all tables follow zones 3 and 4, or 1 and 2.
// S: a setup, every other one with a wrong number.
// 4 and one of these, of a zone as above: [ and ]: a write of the low or high limit that the scene keeps. { and }: one that makes it the
// degrees of the zone's reading, or nearly. ( and ): one that makes it 80h or 7Fh. @: a reading at the high limit. < and >: a little below
// or above it. _: at the low limit. , and ': a little below or above it. = and !: within or outside the limits. .: at a corner of them. -:
// missing. t: a T or U at a corner of the limits, taken or not. ; and v: a write of its whole byte, or a V of the channel that may feed it,
// there too, open or not. h: a write of its half bit, most often with the half it has. c and C: a write that clears its bit, now and then
// the others, in the BMC or the Host group. q and Q: a read of them. r: one of a limit or an error status. |: a block write of the limits
// of all zones. o: one by which no zone but the scene's two is watched. P: one of zones 3 and 4. w: a write of 31h that opens these in any
// way. e: one that enables or disables 1b, 2b or both. n: one that disables both. x and y: one by which channel 15 feeds zone 4, or does
// not.
// 3 and one of these: 0, 1, 3 and 4: a write of E4h with S0, S1, S3 or S4/5. s: with the state that the scene keeps. ?: with any. w: with
// S0, and then of E3h. f and t: one of the fans' mask, or of that of voltages and zones, for the state that the scene keeps. m: one of any
// mask. |: a block write of all. r: a read of E4h or a mask. k and K: a block write that clears all bits of the BMC or the Host group. v:
// one of limits by which no voltage but those of the scene's two channels is watched. Of a fan, a or b: [ and (: writes of a limit, or of
// 3FFFh. ! and =: a count above the limit or not. c, C, q and Q: as of a zone. F: a block write of the limits of all fans. o: one by which
// no fan but the scene's two is watched.
// Others: events.
static const char *const scenes[] = {
    "O O", "O O", "O O O", "O O O", "O O O", "O O G?", "P? O O G?", "O P? O G?", "O A O G?", "G?", "G? G? P? G?", "P? G?", "P? K G?",
    "G2 G3 G4 G5 G7",
    "P9 V V V K G2 G3 P2 G2 G3 K", "P9 K P3 G2 G3 K P2 K G2", "PA F F K G2 G3 P2 G2 K", "PA K G3 P3 G3 K G2", "V V F G5 G7",
    "G9 P9 G9", "GA PA F GA",
    "Z P4 G4 R R", "Z P4 H H P4 R R R R G4 K", "T Z P4 H R R G4", "Z V P4 V G4 K", "Z T T P4 Z P4 G4 K",
    "L P? G? X P? G?", "P? L P? G? G?", "L P8 G8 PB GB X PB GB", "L PC GC X PC GC", "L P9 K G9 PD GD", "L Z P4 G4 X Z P4 G4",
};
static const char *const first_scenes[] = {
    "O A O A G? P?", "A O A O G? P?", "O S O A O G?", "O O S A G? P?", "A S O S O A G?", "G? A G? A G? S", "P? S A P? G?",
};
static const char *const fan_scenes[] = {
    "fa la fa ha ha", "fa la fa ha fa ha", "fa la ha ha", "la ha fa ha", "la fa ha", "fa ha la fa ha", "ha ha la ha", "fa la", "fa la fa",
    "fa la fa la ha ha", "fa la fa la fa ha", "la fa la ma ha", "fa la la fa ha", "la ma la fa ha ha", "fa la ma la fa ha",
    "ma la fa ha ha", "fa la ma ha ha", "ma la ma ha", "ma la fa ma ha", "fa la ma fa ha",
    "sa la sa ha", "sa la sa fa ha ha", "sa la fa sa ha ha", "ma la sa ha fa ha", "sa la ma ha",
    "fa fb la lb fa fb ha hb", "fa fb la lb fb fa hb ha hb ha", "fa fb la lb ha fa fb hb", "fa fb la fa fb hb ha", "la hb fa fb lb ha hb",
    "fa la * fa ha", "fa la fa * ha ha", "fa la * fa * ha", "fa la fa * * ha", "fa la * fa * * ha ha", "fa la * * fa * ha",
    "fa la * * * fa ha", "fa la fa * * * ha", "la * fa * ha * ha", "ma la * fa * ha", "fa la * ma * ha", "fa la fa * la * fa ha",
    "fa la * fa la * fa ha",
    "fa * fa ha", "fa * * fa ha", "fa ha * * fa ha", "fa la ha * fa ha", "fa la fa ha * * fa ha",
    "fa fb la lb * fa fb * ha hb", "fa fb la lb fb fa * * hb * ha",
};
static const char *const between_reads[] = {
    "X", "X", "K", "A", "T", "O", "O", "O", "S", "G7", "G7", "G7", "G?", "P7", "P7", "P?", "N", "N", "n", "n",
    "ma", "fa", "sa", "mb", "fb", "wa", "wa", "wb", "ua", "ua", "ua", "ub", "ea", "ea", "eb", "lb", "hb",
};
static const char *const first_fan_scenes[] = {
    "la fa ha", "ha fa la fa ha", "fa la fa ha", "ua la fa ha", "fa ua A fa ha la fa ha", "A ua A fa la fa ha", "la A fa ha",
    "ea S la fa ha", "ea ea S fa la fa S ha", "S fa la fa S ha", "la S fa ha ha",
};
static const char *const volt_starts[] = {"^ [a ]a", "]a [a ^", "^ [a ]a [b ]b", "^ |", "^ |", "| ^", "L ^ |", "Z ^ [a ]a"};
static const char *const volt_scenes[] = {
    "!a ca ~a qa ca ~a qa", "!a ca Ca ~a qa Qa", "!a Ca ~a ~a Qa Ca ~a Qa", "!a ca ~a qa ca ~a qa ca =a qa ca ~a qa", "!a ~a ~a ca ~a K",
    "!a ~a Ca ~a Qa Ca =a Qa ~a Qa", "!a =a ca Ca ~a qa Qa", "!a ~a =a ca ~a qa !a ca ~a qa", "~a qa Qa !a ca ~a qa", "~a !a ~a ca =a qa",
    "!a ca .a qa ca .a qa ca .a qa", "!a Ca .a .a Qa Ca .a Qa", ".a .a ca Ca .a qa Qa", "!a P2 .a G2 P2 .a G2", "!a ~a P3 .a ~a G3 K",
    "!a + ca Ca ~a qa Qa", "!a ca + ~a qa", "!a ~a ca + ~a qa", "!a =a + ca ~a qa", "=a + ca Ca ~a qa Qa", "!a + + ca ~a qa",
    "!a ca + ~a ca + ~a qa", "!a ca + ~a + ~a G2 G3 K", "~a + + ca ~a qa",
    "!a -a ca ~a qa", "!a -a K ca Ca ~a qa Qa", "!a ca -a ~a qa ~a K", "!a =a -a K ca Ca ~a qa Qa", "=a -a K ca ~a qa K", "-a K ca ~a qa",
    "!a ~a X ca ~a qa K", "!a K ca ~a qa ~a K", "!a =a X ca K ~a qa",
    "!a {a ca ~a qa", "!a }a Ca ~a Qa", "~a {a ca ~a qa", "=a {a }a ca K qa ~a qa", "!a {a ca =a qa ~a qa", "!a ca {a }a qa ~a qa",
    "!a v r ca ~a qa", "!a ~a v Ca ~a Qa", "!a ~a v v r ca ~a qa", "!a ~a v K ca ~a qa", "!a ~a {a }a K ca ~a qa", "=a v ca ~a qa",
    "!a ca =a v ~a qa", "!a | ca ~a qa", "!a =a | Ca ~a Qa", "!a ~a ca | qa ~a qa",
    "!a ca 0 ^ ~a qa", "!a ~a 0 ca ^ ~a qa", "!a ca ~a 0 K ^ ca ~a qa", "!a 0 .a ^ ca ~a qa",
    "!a ca -a qa", "!a ~a Ca -a Qa ~a Qa", "!a ca Ca -a qa Qa K ~a", "!a ca ya ~a qa r", "!a ya r ca ~a qa", "!a ca ya ya r ~a qa",
    "!a (a )a ca -a K qa [a ]a", "!a -a )a (a ca Ca K qa Qa [a ]a", "!a ca (a )a -a K [a ]a ~a qa", "!a (a )a ca .a qa ]a [a",
    "!a ~a (a )a [a ]a ca ~a qa", "X !a ca ~a qa", "M !a ca Ca ~a qa Qa K", "!a M ca ~a qa", "!a ~a M Ca ~a Qa", "M !a ca X ~a qa",
    "!a !b ca cb ~a =b qa qb ca ~b qb", "!b ca ~a qa Qb", "!a ca =b ~a qa ~b ~a", "!a !b P2 P3 ~a ~b G2 G3 K", "!a ~b !b ca Cb ~a ~b qa Qb",
    "L !a {a ca ~a qa v ca ~a qa", "!a L [a ]a ca ~a qa X ~a", "!a L v ca ~a qa X ca ~a qa K",
    "Z !a ~a R ca ~a qa K", "!a Z ca ~a R qa ~a G4 K", "Z !a =a R -a R ca ~a qa", "!a ~a xa ca ~a xa qa", "=a xa ca ~a qa",
};
static const char *const between_readings[] = {
    "X", "X", "K", "K", "L", "Z", "O", "S", "A", "T", "V", "F", "G2", "G3", "G5", "P2", "P3", "v", "v", "v", "r", "|",
    "-a", "-a", "-a", "ca", "Ca", "{a", "{a", "}a", "}a", "ya", "ya", "xa", "xa", "!b", "~b", "=b", ".b", "-b", "cb", "M",
};
static const char *const table_starts[] = {
    "D1 D2 D3 D4 K", "B D1 D2 D3 D4 K", "B D4 D3 D2 D1 K", ":1 :2 :3 :4 K", "B :1 :2 :3 :4 K", "K :1 :2 :3 :4 K", "U1 U2 U3 U4 B K",
    "K U1 U2 U3 U4 K", "B K U1 U2 U3 U4 K", "$1 $2 $3 $4 K U1 U2 U3 U4 K", "B $1 $2 $3 $4 K U1 U2 U3 U4 K",
    "E D1 D2 D3 D4 K", "Y D1 D2 D3 D4 K", "B E Y :1 :2 :3 :4 K",
};
static const char *const table_scenes[] = {
    "Da K @a K <a K", "Da K <a K @a K <a K", "Da K >a K <a K", "Da K 'a K @a K <a K ,a K", "@a K @a K <a K <a K",
    "Da K @a K <a K _a K ,a K", "Da K @a K <a K 'a K _a K", "Da K @a K ,a K", "Da K @a K <a K %a K %a K ,a K", "Da K <a K _a K ,a K",
    "Da K >a K <a K >a K ,a K", "@a K _a K @a K ,a K", "Da Db K @a @b K <a <b K _a _b K", "Da Db K >a @b K <a %b K",
    "Ua K _a K", "Ua K ,a K", "Ua K 'a K _a K ,a K", "Ua K @a K <a K _a K", "Ua K %a K %a K ,a K", "Ua K ,a K _a K @a K",
    "$a K _a K ,a K", "$a K @a K <a K", "$a K ,a K @a K", "$a K %a K", "$a K Ua K Da K", "$a K :a K :a K", "@a K $a K _a K ,a K",
    "@a K $a _a K ,a K", "Da K $a K 'a K", "Ua K $a K >a K _a K",
    "$a K Ua K", "$a K Ua K", "$a K Ua K ,a K", "$a $b K Ua Ub K _a ,b K", "$a K B Ua K :a K", "$a K p Ua K K", "Ua K $a K Ua K _a K",
    "B $a K Ua K _a K ,a K", "$a K Ua K $a K _a K ,a K", "$a K 'a K _a K ,a K", "$a $b K 'a _b K _a ,b K",
    "Da K Ua K Da K", "Ua K Da K Ua K", "Da K Ua K %a K Ua K ,a K", "Ua Ub K Da Ub K Ua Db K",
    "Da K ia K ia K ia K ia K", "Da K ia K <a K ia K <a K ia K <a K", "Ua K da K da K da K da K",
    "@a K ia K ia K da K da K da K", "$a K da K da K ia K", "ia K da K ia K ia K da K",
    ":a K :a K :a K :a K", ":a :b K :a :b K :a :b K", ":1 :2 :3 :4 K :1 :2 :3 :4 K", "@a @b K _a _b K ,a ,b K", "Ua Ub K _a %b K ,a _b K",
    "Da Db K @a @b K @a ,b K", "$a $b K _a _b K",
    "Da K @a K B K <a K ,a K", "@a B K B K", "B Da K @a K <a K _a K ,a K", "B Ua K _a K ,a K", "Ua K B _a K B K", "@a K B ,a K B @a K",
    "B $a K _a K",
    "Y Da K @a K <a K _a K", "Y :a :b K :a :b K", "@a K Y K _a K", "Ua K Y _a K ,a K", "Y $a K _a K Y K",
    "E Da K @a K <a K _a K", "E :a :b K :a :b K", "@a K E K _a K", "Ua K E _a K ,a K", "E $a K _a K E K",
    "E Y B :1 :2 :3 :4 K :1 :2 :3 :4 K", "Wa K Wb K", "E Wa Wb K R R", "Y Wa K :a K Wb K",
    "Da K @a p K <a p K ,a K", "Ua K p _a K p ,a K", "$a p K p _a K", "Da K p p @a K p K <a K", "@a p p K 'a K", "Ua K %a p K %a K p K",
    "2 8 5 Da K <a K 6 `5 K `5 K", "2 8 5 Da K @a K 6 `5 K `5 K ,a K", "2 8 5 Ua K 'a K 6 `5 K `5 K", "B 8 5 Ua K _a K 6 `5 K `5 K",
    "B 8 5 Da K >a 6 `5 K ;5 K", "2 8 5 Da K <a 6 ;5 K `5 K", "8 5 Da K >a 6 ;5 K", "8 5 Ua K 'a 6 ;5 K `5 K",
    "8 5 Ua K ,a 6 `5 K `5 K &5", "B 8 5 Ua K %a K 6 `5 K ;5 K", "B 8 5 Da K :a 6 `5 K `5 K", "8 5 @a 6 <a t5 K 5 >a K",
    "8 5 @a 7 <a t5 K", "9 1 Da K @a K <a K", "9 1 2 Da K <a K @a K _a K ,a K", "9 1 2 Ua K _a K ,a K",
    "2 9 1 :a :b K :a :b K :a :b K", "2 9 1 Da K @a K", "1 9 2 ia K da K ia K", "2 1 9 Da Db K @a @b K Ua Ub K _a _b K",
    "9 2 1 Ua K @a K _a K Da K >a K", "1 2 9 Da K @a K Da K @a K", "2 9 1 Da K @a K", "1 2 9 Ua K _a K Ua K _a K",
    "1 2 9 Da K @a K @a K Da K @a K", "1 2 9 Da Db K @a @b K Da Db K @a @b K", "1 2 9 @1 @2 @3 @4 K Da Db K @a @b K",
};
static const char *const between_ticks[] = {
    "X", "K", "K", "A", "T", "T", "V", "F", "O", "S", "P4", "G4", "P?", "G?", "Z", "L", "M", "H", "R", "B", "B", "B", "Ya", "Ya", "Ea",
    "Ea", "Wa", "Wb", "$a", "$b", ":b", ":b", "Ub", "Db", ":1", ":2", ":3", ":4", "ta", "`5", "`5", ";5", "5", "6",
};
static const char *const zone_starts[] = {
    "5 j1 j2 j3 j4 j5 j6 K", "j1 j2 j3 j4 j5 j6 K", "5 K j6 j5 j4 j3 j2 j1 K", "5 j1 j2 j3 j4 j6 k5 K", "9 5 k1 k2 k3 k4 j5 j6 K",
};
static const char *const boost_scenes[] = {
    "ja K Ia K ka K ga K oa K", "ja K ka K Ia K za K oa K", "ja K Ja K ga K oa K ga K", "Ia K oa K ka K Ia K", "ja K ka K Ia K",
    "ja K ka K Ja K", "Ia K ga K oa K", "Ia K oa K ga K", "Ja K za K za K", "ja K za K ka K", "oa K ga K ka K Ia K ga K oa K",
    "oa K ka K oa K", "ja K Ia ka K", "ja K Ia oa K", "Ia K oa ga K", "/a K ga K oa K", "/a K ka K oa K", "ja K /a K za K oa K",
    "ja K /a oa K", "Ia K /a K ga K", "ja jb K Ia kb K oa ob K", "ja jb K ka kb K Ia Ib K ga ob K oa K", "ja jb K ka Ib K ob K",
    "Ia Ib K oa gb K ob K", "5 j5 K k5 K 6 `5 K `5 K", "5 k5 6 `5 K &5 &5", "5 j5 K I5 K 6 `5 K", "5 I5 K o5 6 `5 K `5 K",
    "5 I5 K g5 K 6 `5 K ;5 K", "5 J5 K k5 6 ;5 K", "5 j5 K k5 6 ;5 K `5 K", "5 I5 K o5 6 ;5 K &5", "5 j5 K 6 I5 K t5 K",
    "5 j5 K 7 t5 K", "5 j5 I5 6 k5 K `5 K", "6 ;5 `5 K ;5 K", "j6 K I6 K k6 K g6 K o6 K", "j6 K k6 `6 K ;6 K", "I6 K o6 `6 K",
    "ja K p Ia K p oa K", "ja p K ka K p Ia K", "Ia K p ga K p oa K",
};
static const char *const byte_scenes[] = {
    "ta &a &a", "ta &a ta &a", "ta &a ta &a ta &a", "ta K &a &a", "ta tb &a &b &b &a", "ta G4", "t1 t3 t5 G4", "ta /a &a &a",
    "/a &a ta &a", "ka &a &a", "Ia &a Ja &a", "5 ta tb &a &b ta &a", "#a &a", "ta #a &a", "ta #a #a &a K", "#a ta #b &a", "#a #a #b",
    "ta K tb K", "#a #b ta &a", "ta &a #a &a", "5 t5 &5 &5 6 &5 `5 &5 &5 `5 &5 &5", "5 t5 6 `5 &5 &5 K", "5 t5 6 ;5 &5 &5 K",
    "5 t5 6 ;5 &5 &5 &5", "5 t5 6 `5 ;5 `5 &5 &5", "5 t5 6 ;5 `5 &5 &5", "5 t5 6 t5 &5 &5 5 t5 &5", "5 t5 7 t5 &5 &5",
    "5 t5 7 I5 &5 &5", "5 t5 7 k5 &5 6 &5 `5 &5", "5 t5 7 V g5 K &5 &5", "6 t5 &5 &5 t5 &5", "7 t5 &5 5 &5 t5 &5",
    "5 t5 6 P4 &5 &5 G4", "5 t5 `5 ;5 &5 &5", "5 /5 6 `5 &5 &5", "5 t5 6 /5 `5 &5", "5 t5 6 `5 5 &5 t5 &5", "t6 &6", "j6 `6 &6 &6",
    "`a ;a &a &a", "ta `a ;a &a &a", "5 t5 6 L `5 &5 &5 ;5 &5", "5 t5 6 X `5 &5", "5 t5 6 p `5 &5 &5",
};
static const char *const first_zone_scenes[] = {
    "ta S S S K &a", "ta S S K", "ka S S S", "/a S S S K", "S ta S K", "#a S S S K ta", "#a S S K #b", "#a #b S S ta K S",
    "#a #b #a S S S K", "#a #b #a #b S S K", "#a ta S S",
};
static const char *const limit_starts[] = {
    "4w 4[a 4]a", "4w 4]a 4[a", "4w 4[a 4]a 4[b 4]b", "4w 4|", "4w 4o", "4w 4o 3k", "3v 3o 4o 4w 3k 3K", "4w 4.a 4{a 4}a",
    "4=a 4=b 4}a 4{b", "4e 4[a 4]a 4[b 4]b", "1 4[a 4]a 4[b 4]b", "3w 4w 4[a 4]a", "1 4o 3k", "3w 3v 3o 4w 4o 3k 3K",
};
static const char *const limit_scenes[] = {
    "4=a 4ca 4@a 4qa 4>a 4qa 4Qa K", "4=a 4ca 4_a 4qa 4,a 4qa 4Qa K", "4@a 4qa K 4>a 4ca 4@a 4qa K", "4>a 4ca 4<a 4qa 4>a 4qa K",
    "4,a 4Ca 4'a 4Qa 4,a 4Qa K", "4_a 4ca 4Ca 4,a 4qa 4Qa 4ca 4'a 4qa K", "4ca 4>a 4Qa 4qa 4Ca 4_a 4Qa K", "4ca 4@a 4<a 4qa 4_a 4'a 4qa",
    "4ca 4@a 4qa 4_a 4qa 4>a K", "4ca 4'a 4qa 4<a 4qa 4,a K", "4.a 4qa 4ca 4.a 4qa 4ca 4.a 4qa", "4.a 4Qa 4Ca 4.a 4Qa K",
    "4.a 4.b 4qa 4qb K", "4ca 4.a K 4ca 4.a K 4ca 4.a K", "4!a 4!b K 4ca 4=a K 4qb", "4!a 4ca 4=a 4qa 4Qa K", "4=a 4ca 4!a 4=a 4qa K",
    "4!a 4!a 4Ca K 4Qa 4qa", "4ca 4!a 4qa 4ca 4!a 4qa 4Qa K",
    "4!a K K 4ca K 4qa K", "4!a 4ca 4Ca K 4qa 4Qa K", "4!a 4Ca K 4Qa 4qa 4ca K", "4!a 4ca K 4=a K 4!a K", "4=a 4ca 4}a K 4qa K",
    "4=a 4ca 4{a 4qa K 4qa", "4=a 4ca 4{a 4}a 4qa K 4=a 4qa", "4=a 4ca 4]a 4[a K 4qa 4.a 4qa", "4.a 4ca 4}a 4.a 4qa 4}a 4.a 4qa",
    "4.a 4ca 4{a 4.a 4qa 4{a 4.a 4qa", "4r 4[a 4r 4]a 4r 4.a 4qa", "4=a 4ca 4| K 4qa 4.a 4qa G8", "4| G8 4.a 4qa 4| 4.a G2",
    "4| 4.a 4.b G2 G3 K", "4| 4.1 4.3 4.5 4.6 G2 P2 4.1 4.3 4.5 4.6 G2 G3 K",
    "4-a K 4qa 4ca 4Ca K 4qa 4Qa", "4-a 4ca 4qa K 4=a 4ca K 4qa", "4-a 4ca 4=a K 4qa", "4-a 4ca 4!a 4ca K 4qa", "4=a 4ca 4-a 4qa K 4qa 4Qa",
    "4ca 4-a 4qa 4Qa K", "4w 4ca 4-a 4qa K 4qa", "4w 4[a 4=a 4ca 4-a 4qa K", "4-a 4-b K 4ca 4cb K 4qa 4=a 4cb K 4qb", "4-a P2 K G2 P3 K G3",
    "4-a 4ca 4ha 4qa K 4qa", "4=a 4-a 4ca 4ha 4qa", "4w 4-a 4ca 4ha 4qa K",
    "4-a 4ca 4(a 4)a K 4qa", "4-a 4ca 4(a K 4qa", "4-a 4ca 4)a K 4qa", "4-a 4(a 4)a 4ca K 4qa 4[a 4qa K 4qa", "4-a 4)a 4(a 4ca K 4qa 4]a K",
    "4ca 4(a 4!a 4qa K", "4ca 4)a 4!a 4qa 4Qa", "4(a 4)a 4ca ta 4qa ta 4qa K", "4!a 4(a 4)a 4qa K 4ca 4!a 4qa K", "4)a 4ca 4>a 4qa 4>a K",
    "4[a 4)a 4ca 4>a 4qa K", "4[a 4)a 4ca 4@a 4qa 4>a 4qa 4Qa", "4)a 4_a 4ca 4>a 4qa 4ca 4>a K", "4(a 4ca 4,a 4qa 4_a 4qa K",
    "4(a 4)a 4ca 4.a 4{a K 4qa 4.a 4qa", "4(a 4)a 4ca 4>a 4qa 4[a 4>a 4qa",
    "4n 4[2 4]2 4c2 4!2 4q2 K 4q2 1 4q2 K 4q2 4!2 4q2 K", "4n 4=1 4-2 4c2 K 4q2 1 4q2 K 4q2 4c2 4=2 K 4q2",
    "4n 4[4 4]4 4c4 4!4 4q4 K 4q4 1 4q4 K 4q4 4!4 4q4 K", "4n 4=3 4-4 4c4 K 4q4 1 4q4 K 4q4 4c4 4=4 K 4q4",
    "1 4=1 4=2 4c1 K 4q1 4-2 K 4q1 4c1 4n K 4q1", "1 4=3 4=4 4c3 4!4 4q3 4Q3 K 4c3 4=3 K 4q3", "1 4-1 4=2 4c1 K 4q1 4c1 4=1 K 4q1",
    "1 4-3 4=4 4c3 K 4q3", "1 4=3 4-4 4c3 K 4q3", "1 4c1 4!1 4=2 4q1 4c1 4!2 4=1 4q1 K", "4e 4.2 4.4 4q2 K 4e 4.2 4.4 4q4 K",
    "4n 4-4 4c4 K 4q4 4e K 4q4 4e K 4q4", "4n 4!4 4c4 1 K 4q4 4.4 4q4", "4n 4!2 4c2 1 K 4q2 4.2 4q2", "1 4!2 4c2 4n 4!2 4q2 K",
    "4e 4ca 4!a 4qa K 4e K 4qa",
    "5 4c5 4.5 4q5 4c5 6 4.5 4q5 4c5 7 4.5 4q5 K", "6 4@5 4c5 `5 4q5 4c5 `5 4q5 K", "6 4!5 4c5 4h5 4q5 4c5 ;5 4q5",
    "6 4_5 4c5 `5 4q5 4C5 `5 4Q5", "5 4!5 4c5 4C5 6 4h5 4q5 4Q5 K", "5 4>5 6 4c5 `5 4q5 4c5 4h5 4q5", "5 4,5 6 4c5 4h5 4q5 4c5 ;5 4q5",
    "5 4c5 4;5 4q5 `5 4q5 K", "6 4c5 4t5 4q5 K 4q5", "6 4c5 4C5 4t5 4t5 4q5 4Q5", "7 4c5 4t5 4t5 4q5 K", "7 4c5 4t5 4q5 4v5 4q5 K",
    "5 4c5 4v5 4q5 K", "6 4c5 4v5 4q5 K", "7 4-5 4q5 K 4q5 4c5 4v5 4q5", "7 4c5 4-5 4q5 4Q5 K", "6 4c5 4-5 4q5 4h5 4q5 K",
    "7 4=5 4c5 4-5 4q5 4=5 4q5 K", "4x 4c6 4-6 4q6 4Q6 K", "4x 4=6 4c6 4-6 4q6 4=6 K", "4y 4c6 4-6 4q6 4h6 4q6 K",
    "6 4-5 4c5 4h5 4q5 K 4q5", "6 4;5 4q5 4c5 4;5 4q5 4c5 4;5 4q5", "7 4v5 4q5 4c5 4v5 4q5 4c5 4v5 4Q5 K", "7 4c5 4;5 4q5 `5 4q5 K",
    "7 4c5 4>5 4q5 4,5 4q5 4@5 4_5 4q5", "5 4!5 4c5 6 4q5 K 7 4q5 K 4v5 4q5", "5 4=5 4c5 6 4q5 4-5 4q5 K 4q5", "6 4!5 4c5 5 4h5 4q5 K",
    "7 4!5 4c5 4h5 4q5 K", "7 4c5 4!5 4q5 4-5 4c5 K 4q5", "6 4y 4c5 4c6 4P 4q5 K G2", "4P G2 4c5 4c6 4P G2 G3", "5 4c5 4P 4q5 K",
    "6 4c5 4P 4q5 4C5 4P 4Q5", "4y 4c6 4P 4q6 K 4c6 4.6 4q6", "4x 4c6 4P 4q6 K", "4y 4.6 4q6 4c6 `6 4q6 `6 4q6",
    "4y 4@6 4c6 `6 4q6 4c6 `6 4q6 K", "4y 4!6 4c6 4h6 4q6 4c6 ;6 4q6", "4x 4v6 4q6 4c6 4v6 4q6 4c6 4v6 4q6 K", "4x 4c6 4;6 4q6 `6 K 4q6",
    "4y 4c6 4v6 4q6 K", "4x 4-6 4c6 K 4q6 4c6 4y 4q6 K 4q6", "4y 4-6 4c6 4h6 4q6 K 4q6", "4y 4;6 4q6 4c6 4;6 4q6 4c6 4;6 4q6",
    "4x 4c6 4>6 4q6 4c6 4,6 4q6 4@6 4_6 K", "4y 4c6 4>6 4q6 4c6 4,6 4q6 4c6 4@6 4_6 4q6", "4y 4!6 4x 4c6 4h6 4q6 K",
    "4ca 4ta 4qa 4;a 4qa 4ha 4qa", "4!a 4ca 4ha 4qa 4ha K", "4w 4!a 4ca 4ha 4qa 4ca 4ha K", "4w 4.a 4qa 4ca 4w 4.a 4qa 4ca 4w 4.a 4qa",
    "4!a 4ca 4w 4ha 4qa K",
    "4!a P2 4.a G2 P2 K G2", "4!a P3 G3 4.a G3 K", "4!a X K 4qa 3w K", "X 4ca 4!a 4qa K 3w K", "M 4!a K 4qa",
    "L 4[a 4]a 4.a 4qa 4ca 4.a 4qa K", "4!a p K 4qa", "4=a 4ca p 4.a 4qa K", "4ta 4ca 4ta 4qa", "4t1 4t2 4t3 4t4 4t5 G2 K",
};
static const char *const sleep_starts[] = {
    "3w ^ 3v 3o 4o 3k", "3w 3v 3o 4o ^ 3k 3K", "^ 3v 3o 4o 3k", "3w 4o 3o 3v ^ 3K 3k", "3v 4o 3o 3k", "^ | 3F 4|", "3w | 3F 4|",
    "3w | 3F 4| K", "30 [a ]a 3[a 4[a 4]a", "3[a [a ]a ^", "^ | 3F", "3| 30 ^ [a ]a", "4[a 4]a 3[a 3t 3f", "3[b 3[a 4|", "^ [a ]a [b ]b 3k",
};
static const char *const sleep_scenes[] = {
    "30 !a K 3s K qa Qa 30 K", "30 3k !a K 3s K 30 K", "30 3k !a 3s K 3t K 30 K", "30 !a 3s K ca K qa 30 K Ca",
    "3s ca Ca !a qa Qa K 30 K qa !a qa K", "3s ca Ca -a K qa Qa 30 qa K qa", "30 -a K 3s K ca K qa 30 K qa", "30 -a ca 3s qa 30 qa K",
    "3s ca !a qa 3s 30 qa Qa K", "30 !a X K qa 30 K", "!a X ca K 3w ~a qa K", "X !a qa K 3w K !a qa", "30 !a K X K 3w K",
    "X ca Ca -a K qa Qa 3w K qa", "30 3k -a K X K 3w K", "3s 3t ca cb !a !b qa K 3t K 3t K qa 30 K", "3s 3| ca Ca !a !b qa qb K 3| K 30 K",
    "3s 3m ca !a qa 3m K !a qa 30", "30 !a !b 3s K 3t K 3? K 3? K 30 K", "30 !a !b K 3s 3| K 3| K 30 K", "3s 3t ca -a K qa 3t K qa 3t K 30",
    "3? ca !a qa K 3? ca !a qa K 30 K", "3s 3t ca Ca !a qa Qa 3t qa Qa !a qa Qa K 30", "33 3t ca !a qa 34 ca !a qa K 30 K",
    "34 3t ca !a qa 33 ca !a qa K 30 K",
    "30 !a 3s ca ~a qa 30 ~a qa", "3s !a ca 30 ~a qa Qa K", "30 !a 3s =a 30 ca ~a qa K", "3s !a =a 30 ca ~a qa", "3s =a ~a 30 ca ~a qa",
    "3s !a 30 ~a qa K", "3s =a 30 ca Ca ~a Qa !a 3s Ca ~a Qa 30 Qa", "30 =a 3s !a 30 ca ~a qa ca ~a qa", "30 !a 3s ~a ~a 30 ca ~a qa K",
    "33 =a !a 30 ca ~a qa", "34 =a !a 30 ca ~a qa", "30 !a 33 =a 30 ca ~a qa K", "30 !a X =a 3w Ca ~a Qa",
    "30 !a !b 3s =a =b 30 ca cb ~a ~b qa qb", "33 !a ~a 30 ca ~a qa", "X !a 3w ca ~a qa", "30 !a X ~a 3w ca ~a qa",
    "30 !a X =a 3w ca ~a qa", "33 3t =a !a 30 ca ~a qa", "34 3t !a =a 30 ca ~a qa", "30 !a 33 ~a 30 ca ~a qa", "30 !a 34 =a 30 ca ~a qa",
    "30 ca =a 3s !a 30 qa ~a qa",
    "30 3!a K 3s K 3qa 30 K", "30 3k 3!a K 3s K 30 K", "3s 3ca 3!a 3qa 3Qa K 30 K 3qa 3!a 3qa K", "3s 3ca 3Ca ma K 3qa 3Qa 30 3qa K 3qa",
    "30 3!a 3!b 3s K 3f K 3f K 30 K", "31 3f 3ca 3cb 3!a 3!b 3qa K 30", "33 3f 3ca 3cb 3!a 3!b 3qa 3Qa K 30",
    "31 3f 3k ma mb K 3qa 3f K 30", "3s 3f 3ca 3Ca 3!a 3qa 3Qa K 3f 3!a 3qa 30 K", "3s 3ca 3cb ma mb 3f K 3qa 3f K 3qa 30",
    "30 3!a 3s 3ca K 30 K 3qa", "3!a X K 3qa 3w K", "3s 3f 3!a 3!b 3qa K 3f K 3f K 30 K", "3? 3ca 3!a 3qa K 3? 3ca 3!a 3qa K 30",
    "31 3f 3ca 3!a 3qa 33 3ca 3!a 3qa 34 3ca 3!a 3qa 30 K", "31 3m 3ca ma K 33 3ca K 34 3ca K 3qa 30 K",
    "34 3f 3ca 3!a 3qa K 3f 3!a 3qa 30", "3s 3ca 3=a 3qa 3!a 3qa 30 3!a 3qa 3=a K", "3(a ma 3s 3ca K 30 K 3[a K 3qa",
    "30 3k ma K 3s 3f K 3f K 30 K", "ma 3ca 3s 3qa 30 3qa K",
    "30 4!a K 3s K 4qa 30 K", "30 3k 4!a K 3s 3t K 3t K 30 K", "3s 3t 4ca 4Ca 4!a 4qa 4Qa K 3t 4!a 4qa 30 K",
    "3s 3t 4ca 4-a K 4qa 3t K 4qa 30 K 4qa", "30 4!a 4!b 3s 3t K 3t K 3t K 4qa 30 K", "3s 3t 4ca 4!a 4qa 30 4qa K 4!a 4qa",
    "4!a X K 4qa 3w K", "3s 3| 4c1 4.1 4.3 4.5 4.6 G2 G3 K 30 K", "30 4!a 3s 3t 4ca K 4qa 30 K", "3s 4ca 4Ca 4!a 4qa 4Qa 30 K",
    "33 3t 4ca 4!a 4qa 34 4ca 4!a 4qa K 30 K", "X 3t 4ca 4!a 4qa K 3w K 4qa", "31 4ca 4!a 4qa K 3| 4ca 4!a 4qa 30",
    "3s 3t 4c1 4!1 4q1 4!5 4q5 K 30", "3s 3t 4c3 4!3 4q3 4!6 4q6 K 30", "1 3s 3t 4c1 4!2 4q1 4-2 K 4q1 30 K",
    "1 3s 3t 4c3 4!4 4q3 4-4 K 4q3 30 K", "6 3s 3t 4c5 4;5 `5 4q5 30", "4x 3s 4c6 4v6 4q6 K 30", "7 4[5 4]5 33 4c5 4!5 4q5 4Q5 K 30",
    "7 34 4c5 4!5 4q5 4-5 4c5 K 4q5 30", "7 3s 4c5 4!5 4q5 4c5 4!5 4q5 30 K", "4x 4[6 4]6 33 4c6 4!6 4q6 4Q6 K 30",
    "4x 34 4c6 4!6 4q6 4-6 4c6 K 4q6 30", "4x 3s 4c6 4!6 4q6 4c6 4!6 4q6 30 K", "X 7 4c5 4!5 4q5 K 3w K", "X 4x 4c6 4!6 4q6 K 3w K",
    "7 3s 3t ca 4c5 4v5 4q5 K 30 K", "33 3t 4ca 4!a 4qa 3t 4ca 4!a 4qa 3t 4ca 4!a 4qa K 30",
    "34 3t 4ca 4!a 4qa 3t 4ca 4!a 4qa 3t 4ca 4!a 4qa K 30", "4-a 4ca 3s 4qa 30 4qa K 4qa", "3s 4-a 4ca 3? 4qa 3t 4qa 30 4qa K",
    "3s 3t 4!a 4!b 4qa 30 4qa K",
    "30 K 31 K 33 K 34 K 30 K", "3? K 3? K 3? K 30 K", "30 | 3F 4| K 3s K 3| K 3| K 30 K", "P2 P3 3? K G2 G3 30 K G2",
    "3s K 3t K 3f K 3| K 30 K", "33 P2 P3 K G2 G3 3| K G2 30 K", "34 P2 P3 K G2 G3 3| K G2 30 K", "31 P2 P3 K G2 G3 3| K G2 30 K",
    "3s GD 3| GD 3r 3r K 30", "3m 3r 3m 3r GD", "3? 3r 3? 3r K 30 3r", "3s 3r 30 3r 3? 3r", "3? 3r K 30", "X 3r K 3w 3r K",
    "K X K P2 K 3w K G2 G3", "3s !a 3!a 4!a G2 G3 K 30 K", "30 !a 3!a 4!a K 3s K P2 K G2 30 K", "3s -a ma 4-a K G2 30 K G2",
    "30 !a !b 3!a 3!b 4!a 4!b K 3s 3| K 3| K 30 K G3", "M 3s K 30 K", "30 !a M K 3s K 30 3w K", "30 3k 3K !a 3!a 4!a K 3s 3| K 30 K",
    "3s 3k 3K !a 3!a 4!a G2 G3 K 30 K G2", "3s 3| 3k 3K -a ma 4-a K G2 G3 30 K", "L 3s K 3r 30 K", "L 3| K 3s K 30 K",
    "L 3m 3r 3t 3s K X 3w", "30 !a 3!a 4!a L 3s 3| K 3t K X K 3w K",
};
static const char *const loose_lines[] = {
    "4r", "4.a", "4.b", "4!a", "4=a", "4-a", "4ca", "4Ca", "4qa", "4{a", "4}a", "4e", "4w", "4v5", "4v6", "4;5", "4;6", "`5", "`6", "3?",
    "3?", "3m", "3t", "3f", "3!a", "3!b", "3[a", "3r", "3ca", "3qa", "!a", "qa", "ca", "4|",
};
static const char *const long_scenes[] = {"G9 G9 G9 G9 G9 G9 G9 G9", "G9 G9 G9 G9 P9 P9 P9 O", "GC G5 G9 G9 V K"};

static const char *scene = "", *scene_after = ""; // what is left of it; what comes then
static int scene_command, scene_high, scene_fans[2], scene_channels[2], scene_vh, scene_tables[2], scene_thresholds[2] = {1, 1};
static int scene_zones[2], scene_sleep, scene_sleeps; // scene_sleeps: if it is one of sleep states
static struct window scene_windows[2], scene_limits[2];

static int command_at(const char *digit)
{
    return *digit == '?' ? scene_command : 0xF0 + (*digit <= '9' ? *digit - '0' : *digit - 'A' + 10);
}

// the next one out of reach only now and then
static int next_threshold(int table, int *k, int move)
{
    int last = one_in(6) ? 12 : thresholds_to(table, HOTTEST);
    return *k = clamp(*k + move, 1, last ? last : 1);
}

static void table_line_of(const char *at)
{
    static const int sources[] = {0x00, 0x00, 0x04, 0x08, 0x0C, 0x10, 0x1C, 0x01, 0x02, 0x12};
    int second = at[1] == 'b', table = at[1] >= '1' && at[1] <= '4' ? at[1] - '1' : scene_tables[second], zone, halves;
    int *k = &scene_thresholds[second], up = threshold(table, *k), down = up - hysteresis(table);
    switch (*at) {
    case '@': show(table, up); break;
    case '<': show(table, up - a_little()); break;
    case '>': show(table, up + a_little()); break;
    case '_': show(table, down); break;
    case ',': show(table, down - a_little()); break;
    case '\'': show(table, down + a_little()); break;
    case '%': show(table, between(down, up)); break;
    case 'i': show(table, table_corner(table, next_threshold(table, k, 1))); break;
    case 'd': show(table, table_corner(table, next_threshold(table, k, -1))); break;
    case ':': show(table, any_table_corner(table)); break;
    case 'U': show(table, above_thresholds_in_reach(table)); break;
    case 'D': show(table, threshold(table, 1) - hysteresis(table) - (one_in(3) ? 1 : HALF * between(1, 60))); break;
    case '$': show(table, MISSING); break;
    case 'W': zone = between(4, 5); zone_by_bus(zone, within_reach(any_table_corner(table))); break;
    case 'B': halves = one_in(3) ? 0x30 : 0x00; write_own(0xBD, below(256) | halves); break;
    case 'Y': write_own(0x35, one_in(3) ? 0x30 : below(256)); break;
    case 'E': write_own(0x31, one_in(6) ? below(32) : sources[below(10)]); break;
    }
}

static int zone_at(const char *at) { return *at >= '1' && *at <= '6' ? *at - '1' : scene_zones[*at == 'b']; }

static void zone_line_of(const char *at)
{
    int zone = zone_at(at + 1), on = boost(zone), off = boost_end(zone), n = given[zone], whole;
    switch (*at) {
    case 'I': n = on; break;
    case 'k': n = on - a_little(); break;
    case 'J': n = on + a_little(); break;
    case 'g': n = off; break;
    case 'o': n = off - a_little(); break;
    case 'z': n = between(off, on); break;
    case 'j': n = off - between(1, 10 * DEGREE); break;
    case '/': n = MISSING; break;
    case 't': n = reading_corner(); temperature(zone, n); refused = zone == 5; break;
    case '#': refused_temperature_line(zone); break;
    case '&': read_own(one_in(2) ? whole_register(zone) : half_register(zone)); break;
    case ';':
        whole = one_in(n == MISSING ? 2 : 8) ? below(256) : n == MISSING ? 0x80 : floor_degrees(n) + one_in(4);
        write_own(whole_register(zone), whole);
        break;
    case '`': write_own(half_register(zone), below(256)); break;
    }
    if (len == 0) give(zone, n);
}

static void source_line_of(const char *at)
{
    int source = held[0x31] & ~0x11, two = one_in(2) ? 0x0C : 0x00;
    switch (*at) {
    case '1': write_own(0x31, held[0x31] | 0x0C); break;
    case '2': write_own(0xBD, held[0xBD] | 0x30); break;
    case '5': write_own(0x31, source | two); break;
    case '6': write_own(0x31, source | 0x10 | below(2)); break;
    case '7': write_own(0x31, source | 0x01); break;
    case '8': write_own(0x35, below(16)); break;
    case '9': write_own(0x35, 0xF0 | below(16)); break;
    }
}

static void clear_zone_bit(int zone, int a)
{
    int bit = zone_bit(zone);
    write_own(a, one_in(3) ? 0xFF : one_in(8) ? ~bit : bit);
}

static void limit_line_of(const char *at)
{
    static const int twos[] = {0x04, 0x08, 0x0C}, ways[] = {0x00, 0x01, 0x01, 0x02, 0x02, 0x03, 0x10, 0x10, 0x11, 0x12, 0x13};
    int zone = zone_at(at + 1), a = limit_register(zone), low = zone_low(zone), high = zone_high(zone), beside = beside_limit(zone), n;
    const struct window *limits = &scene_limits[at[1] == 'b'];
    switch (*at) {
    case '[': write_own(a, limits->low); break;
    case ']': write_own(a + 1, limits->high); break;
    case '{': write_own(a, limit_at_reading(zone)); break;
    case '}': write_own(a + 1, limit_at_reading(zone)); break;
    case '(': write_own(a, 0x80); break;
    case ')': write_own(a + 1, 0x7F); break;
    case '@': give(zone, high); break;
    case '<': give(zone, high - beside); break;
    case '>': give(zone, high + beside); break;
    case '_': give(zone, low); break;
    case ',': give(zone, low - beside); break;
    case '\'': give(zone, low + beside); break;
    case '=': give(zone, reading_by_limits(zone, 1)); break;
    case '!': give(zone, reading_by_limits(zone, 0)); break;
    case '.': give(zone, limit_corner(zone)); break;
    case '-': give(zone, MISSING); break;
    case 't': temperature(zone, limit_corner(zone)); refused = zone == 5; break;
    case ';': n = degrees_by_limits(zone); write_own(whole_register(zone), n); break;
    case 'v': n = degrees_by_limits(zone); zone_by_volt(zone, n == -128 ? MISSING : DEGREE * n); break;
    case 'h': n = half_bit(given[zone]) != one_in(4); write_own(half_register(zone), n << 7 | below(128)); break;
    case 'c': clear_zone_bit(zone, 0x40); break;
    case 'C': clear_zone_bit(zone, 0x48); break;
    case 'q': read_own(0x40); break;
    case 'Q': read_own(0x48); break;
    case 'r': read_own(one_in(3) ? between(0x40, 0x4F) : between(0x78, 0x7F)); break;
    case '|': write_zone_windows(0x0F); break;
    case 'o': write_zone_windows(zone_bit(scene_zones[0]) | zone_bit(scene_zones[1])); break;
    case 'P': write_zones(); break;
    case 'w': write_own(0x31, (held[0x31] & 0x0C) | ways[below(11)]); break;
    case 'e': write_own(0x31, held[0x31] ^ twos[below(3)]); break;
    case 'n': write_own(0x31, held[0x31] & ~0x0C); break;
    case 'x': write_own(0x31, held[0x31] | 0x02); break;
    case 'y': write_own(0x31, held[0x31] & ~0x02); break;
    }
}

static void sleep_line_of(const char *at)
{
    int fan = scene_fans[at[1] == 'b'], bit = 1 << fan, mask, other = one_in(8), a;
    switch (*at) {
    case '0': write_sleep_state(S0); break;
    case '1': write_sleep_state(S1); break;
    case '3': write_sleep_state(S3); break;
    case '4': write_sleep_state(S4_5); break;
    case 's': write_sleep_state(scene_sleep); break;
    case '?': write_sleep_state(below(4)); break;
    case 'w': wake(); break;
    case 'f': mask = some_mask(); write_own((scene_sleep == S1) != other ? 0xE6 : 0xE8, mask); break;
    case 't': mask = some_mask(); write_own((scene_sleep == S3) != other ? 0xE9 : 0xEB, mask); break;
    case 'm': a = between(0xE5, 0xED); write_own(a, some_mask()); break;
    case '|': write_masks(); break;
    case 'r': read_own(one_in(2) ? 0xE4 : between(0xE5, 0xED)); break;
    case '[': write_fan_limit(fan, some_fan_limit()); break;
    case '(': write_fan_limit(fan, 0x3FFF); break;
    case 'k': clear_all(0xF2); break;
    case 'K': clear_all(0xF3); break;
    case 'v': write_windows(1 << scene_channels[0] | 1 << scene_channels[1]); break;
    case 'F': write_fan_limits(0x0F); break;
    case 'o': write_fan_limits(1 << scene_fans[0] | 1 << scene_fans[1]); break;
    case '!': fan_event(fan); number(count_above(fan)); break;
    case '=': fan_event(fan); number(one_in(2) ? fan_limit(fan) : below(fan_limit(fan) + 1)); break;
    case 'c': write_own(0x47, one_in(3) ? 0xFF : bit); break;
    case 'C': write_own(0x4F, one_in(3) ? 0xFF : bit); break;
    case 'q': read_own(0x47); break;
    case 'Q': read_own(0x4F); break;
    }
}

static void line_of(const char *at)
{
    static const int sources[] = {0x00, 0x01, 0x02, 0x03, 0x10, 0x10, 0x12, 0x13};
    int command, address, second = at[1] == 'b', fan = scene_fans[second], channel = scene_channels[second];
    switch (*at) {
    case 'G': read_block(own_address(), command_at(at + 1)); break;
    case 'P':
        command = command_at(at + 1);
        write_block(own_address(), command, counts[command - 0xF2], counts[command - 0xF2]);
        break;
    case 'O': odd_block_line(); break;
    case 'Z': write_own(0x31, sources[below(8)]); break;
    case 'L': write_own(0xE3, 0x02); break;
    case 'M': write_own(0xE3, 0x04); break;
    case 'H': write_own(one_in(2) ? 0x20 : 0x22, 0x80); break;
    case 'R': read_own(between(0x20, 0x23)); break;
    case 'T': some_event_line(T); break;
    case 'V': some_event_line(V); break;
    case 'F': some_event_line(F); break;
    case 'A': some_event_line(A); break;
    case 'K': some_event_line(K); break;
    case 'X': add("X"); break;
    case 'S': some_setup_line(); if (one_in(2)) spoil_setup(); break;
    case 'l': read_fan(own_address(), fan, 0); break;
    case 'h': read_fan(own_address(), fan, 1); break;
    case 'u': address = other_address(); read_fan(address, fan, below(2)); break;
    case 'f': fan_event(fan); number(fan_count()); break;
    case 's': fan_event(fan); number(64 * scene_high + below(64)); break;
    case 'm': fan_event(fan); field("-"); break;
    case 'w': address = 0x6E + 2 * fan + below(2); write_own(address, some_byte(address)); break;
    case 'e': refused_fan_line(fan); break;
    case 'n': read_own(one_in(2) ? 0x6D + 9 * below(2) : some_register()); break;
    case 'N':
        if (one_in(2)) address = other_address(), read_block(address, 0xF7);
        else write_block(own_address(), 0xF7, 7, 7);
        break;
    case '*': line_of(between_reads[below(sizeof between_reads / sizeof between_reads[0])]); break;
    case '[': write_own(0x90 + 2 * channel, scene_windows[second].low); break;
    case ']': write_own(0x91 + 2 * channel, scene_windows[second].high); break;
    case '{': write_own(0x90 + 2 * channel, moved_limit(low_limit(channel))); break;
    case '}': write_own(0x91 + 2 * channel, moved_limit(high_limit(channel))); break;
    case '(': write_own(0x90 + 2 * channel, 0x00); break;
    case ')': write_own(0x91 + 2 * channel, 0xFF); break;
    case 'y': write_for_another(channel); break;
    case '!': volt_event(channel); number(reading_at(channel, OUTSIDE)); break;
    case '~': volt_event(channel); number(reading_at(channel, IN_BETWEEN)); break;
    case '=': volt_event(channel); number(reading_at(channel, ENDING)); break;
    case '.': volt_event(channel); number(corner_reading(channel)); break;
    case '-': volt_event(channel); field("-"); break;
    case 'x': refused_volt_line(channel); break;
    case 'c': clear_bit(channel, BMC); break;
    case 'C': clear_bit(channel, HOST); break;
    case 'q': read_own(status_register(channel, BMC)); break;
    case 'Q': read_own(status_register(channel, HOST)); break;
    case '^': write_own(0xBC, scene_vh | below(32) << 3); break;
    case '0': write_own(0xBC, below(32) << 3); break;
    case 'v': write_own(0xBC, below(256)); break;
    case 'r': read_own(0xBC); break;
    case '|': write_windows(0xFFFF); break;
    case '+': line_of(between_readings[below(sizeof between_readings / sizeof between_readings[0])]); break;
    case 'p': line_of(between_ticks[below(sizeof between_ticks / sizeof between_ticks[0])]); break;
    case '3': sleep_line_of(at + 1); break;
    case '4': limit_line_of(at + 1); break;
    default:
        if (strchr("1256789", *at)) source_line_of(at);
        else if (strchr("IkJgozj/t#&;`", *at)) zone_line_of(at);
        else table_line_of(at);
    }
}

static void scene_line(void)
{
    if (due_len) {
        due_line();
        return;
    }
    line_of(scene);
    scene += strcspn(scene, " ");
    if (*scene) scene++;
    else scene = scene_after, scene_after = "";
}

static void begin_scene(const char *const *from, int n)
{
    scene = from[below(n)];
    scene_command = between(0xF2, 0xFD);
    scene_high = one_in(3) ? 0xFF * below(2) : below(256);
    scene_fans[0] = below(4);
    scene_fans[1] = (scene_fans[0] + between(1, 3)) % 4;
    scene_zones[0] = below(5);
    scene_zones[1] = (scene_zones[0] + between(1, 4)) % 5;
    scene_sleeps = 0;
}

#define BEGIN(list) begin_scene(list, sizeof list / sizeof list[0])

// Once VH is written, the channels and limits most often stay those of the scene before.
static void begin_volt_scene(void)
{
    BEGIN(volt_scenes);
    if (vh() > 0 && !one_in(4)) return;
    scene_after = scene;
    scene = volt_starts[below(sizeof volt_starts / sizeof volt_starts[0])];
    scene_vh = one_in(12) ? 0 : one_in(6) ? 3 : between(1, 7);
    scene_channels[0] = one_in(4) ? 10 + 4 * below(2) : one_in(4) ? 6 : below(16);
    scene_channels[1] = (scene_channels[0] + (one_in(3) ? 8 : between(1, 15))) % 16;
    for (int i = 0; i < 2; i++) scene_windows[i] = some_window();
}

// The zones, missing at first, are shown before the first scene, and now and then again.
static void begin_table_scene(void)
{
    static int shown;
    int fan = below(2);
    BEGIN(table_scenes);
    for (int i = 0; i < 2; i++) {
        scene_tables[i] = bound_table(i ? !fan : fan);
        scene_thresholds[i] = one_in(3) ? threshold_in_reach(scene_tables[i]) : one_in(2) ? odd_threshold(scene_tables[i])
                                                                                          : crowded_threshold(scene_tables[i]);
    }
    if (shown && !one_in(4)) return;
    shown = 1;
    scene_after = scene;
    scene = table_starts[below(sizeof table_starts / sizeof table_starts[0])];
}

static int any_boost(void)
{
    int any = 0;
    for (int i = 0; i < 6; i++) any |= setup[BOOSTS + i] != MISSING;
    return any;
}

// Of the two zones, one with a boost most often stands first, and scenes of boosts come only where there is one.
static void begin_zone_scene(void)
{
    static int shown;
    int zone = below(6);
    if (!any_boost() || one_in(3)) {
        BEGIN(byte_scenes);
        return;
    }
    BEGIN(boost_scenes);
    while (setup[BOOSTS + zone] == MISSING && !one_in(20)) zone = below(6);
    scene_zones[0] = zone;
    if (shown && !one_in(4)) return;
    shown = 1;
    scene_after = scene;
    scene = zone_starts[below(sizeof zone_starts / sizeof zone_starts[0])];
}

// every other time two zones that share their limits
static void choose_limit_zones(void)
{
    scene_zones[0] = one_in(4) ? between(4, 5) : below(6);
    if (scene_zones[0] < 4 && one_in(2)) scene_zones[1] = scene_zones[0] ^ 1;
    else scene_zones[1] = (scene_zones[0] + between(1, 5)) % 6;
    for (int i = 0; i < 2; i++) scene_limits[i] = some_zone_window();
}

// The limits most often stay those of the scenes before, once the zone is watched.
static void begin_limit_scene(void)
{
    int stay;
    BEGIN(limit_scenes);
    choose_limit_zones();
    stay = zone_watched(scene_zones[0]) && !one_in(3);
    if (stay && one_in(2)) return;
    scene_after = scene;
    scene = stay ? "4w" : ONE_OF(limit_starts);
}

// The limits are written before the first scene, and now and then again.
static void begin_sleep_scene(void)
{
    static int written;
    BEGIN(sleep_scenes);
    choose_limit_zones();
    if (!one_in(3)) scene_zones[0] = below(4); // the others are never masked
    scene_sleeps = 1;
    if (strstr(scene, "3f")) scene_sleep = one_in(5) ? S4_5 : one_in(2) ? S1 : S3; // S4/5 asks no mask of the fans
    else scene_sleep = one_in(6) ? S1 : one_in(2) ? S3 : S4_5;                     // S1 masks nothing else
    if (written && !one_in(3)) return;
    written = 1;
    scene_after = scene;
    scene = ONE_OF(sleep_starts);
    scene_vh = between(1, 7);
    scene_channels[0] = one_in(2) ? between(11, 13) : one_in(2) ? 10 + 4 * below(2) : one_in(4) ? 15 : below(16);
    scene_channels[1] = (scene_channels[0] + between(1, 15)) % 16;
    for (int i = 0; i < 2; i++) scene_windows[i] = some_window();
}

static int field_at(int at) { return strtol(line + at, 0, 16); }

// of the lock-marked registers, those that a scene asks for
static int lock_holds(int a) { return held[0xE3] & 0x02 && (a == 0x31 || a == 0x35 || a == 0xE3); }

static void follow_byte(int a, int b)
{
    int zone = a == 0x52 || a == 0x21 || a == 0x20 ? 4 : 5, *n = &given[zone];
    if (a == 0x52 || a == 0x21 || a == 0x53 || a == 0x23) {
        if (open_to_bus(zone)) *n = b == 0x80 ? MISSING : DEGREE * signed_byte(b);
    } else if (a == 0x20 || a == 0x22) {
        if (open_to_bus(zone) && *n != MISSING) *n = DEGREE * floor_degrees(*n) + HALF * (b >> 7);
    } else if (!lock_holds(a)) held[a] = b;
}

static void follow_write(void)
{
    int command;
    line[len] = 0;
    if (field_at(2) != latched) return;
    command = field_at(5) - 0xF2;
    if (line[0] == 'W') follow_byte(field_at(5), field_at(8));
    else if (command >= 0 && command < 12 && field_at(8) == counts[command])
        for (int i = 0; i < counts[command]; i++) follow_byte(firsts[command] + i, field_at(11 + 3 * i));
}

// a T, U or V, in range or not
static void follow_reading(void)
{
    char *end;
    int i, n;
    line[len] = 0;
    i = strtol(line + 1, &end, 10);
    n = strcmp(end, "\t-") == 0 ? MISSING : strtol(end, 0, 10);
    if (line[0] == 'V') {
        if (n < 0 || (n > 255 && n != MISSING) || (i != 11 && i != 15)) return;
        if (fed(i == 11 ? 4 : 5)) given[i == 11 ? 4 : 5] = n == MISSING || n == 0 ? MISSING : DEGREE * (n - 128);
    } else if (i >= 1 && i <= 5 && !(i == 5 && held[0x31] & 0x11)) {
        if (n != MISSING && line[0] == 'T') n *= HALF;
        if (n == MISSING || n == within_reach(n)) given[i - 1] = n;
    }
}

// asks only for the offsets, and for the numbers that setup_line has out of range now and then
static int in_range(const int *n)
{
    int good = n[0] <= 2;
    for (int i = 0; i < 4; i++) good &= n[BASES + i] <= 127;
    for (int i = OFFSETS; i < HYSTERESES; i++) good &= n[i] <= 63;
    for (int i = DUTIES + 1; i < BOOSTS; i++) good &= n[i] >= n[i - 1];
    for (int i = 0; i < 6; i++) good &= n[BOOSTS + i] >= -127;
    return good && n[DUTIES] >= 0;
}

static void follow_setup(void)
{
    int n[SETUP];
    char *at = line + 1;
    line[len] = 0;
    for (int i = 0; i < SETUP; i++, at += 1 + strcspn(at + 1, "\t")) n[i] = at[1] == '-' && at[2] < '0' ? MISSING : strtol(at + 1, 0, 10);
    if (!in_range(n)) return;
    memcpy(setup, n, sizeof setup);
    level = n[0];
    begun = 1;
}

// keeps the guess after a line
static void follow(void)
{
    if (line[0] == 'S') {
        if (!begun) follow_setup();
        return;
    }
    if (line[0] == 'A' && line[2] >= '0' && line[2] <= '2') level = line[2] - '0';
    if (line[0] == 'X') held[0xE3] = (held[0xE3] & ~0x02) | 0x04, held[0xE4] = S4_5;
    if (strchr("TUV", line[0])) follow_reading();
    if (!latched && strchr("WRGP", line[0]) && line[2] == '2' && line[3] >= 'C' && line[3] <= 'F') latched = slave[level];
    if (latched && strchr("WP", line[0])) follow_write();
    begun = 1;
}

// ---- sessions

// one change to a line that is spelled right
static void damage(void)
{
    static const char odd[] = "\t-0+ aA9\r\177\200\377";
    int at = len ? below(len) : 0;
    switch (below(9)) {
    case 0: len = at; break;
    case 1: line[at] = odd[below(sizeof odd)]; if (len == 0) len = 1; break;
    case 2: memmove(line + at + 1, line + at, len - at); line[at] = odd[below(sizeof odd)]; len++; break;
    case 3: add("\t"); break;
    case 4: field("-"); break;
    case 5: add("99999999999999999999999999"); break;
    case 6: while (len < between(505, 520)) add("0"); break;
    case 7: if (len > 2) line[2] = '0'; break;
    case 8: len = 0; break;
    }
}

static void guess_power_on(void)
{
    static const int masks[] = {0xFF, 0x0F, 0xFF, 0x0F, 0x07, 0xFF, 0x07, 0xFF, 0x3F};
    for (int i = 0; i < 6; i++) given[i] = MISSING;
    for (int i = 0; i < 4; i++) held[0x78 + 2 * i] = 0x80, held[0x79 + 2 * i] = 0x7F;
    for (int i = 0; i < 16; i++) held[0x91 + 2 * i] = 0xFF;
    for (int i = 0; i < 4; i++) held[0xB4 + 2 * i] = 0xFC, held[0xB5 + 2 * i] = 0xFF;
    for (int i = 0; i < 9; i++) held[0xE5 + i] = masks[i];
    held[0x35] = 0x30;
}

// with_scenes: block reads and writes, reads of fan counts, voltages and temperatures at the corners of their limits, sleep states and
// masks, and temperatures at the corners of the tables' thresholds, of the boosts and of their own range stand between the events, in a few
// sessions so many block lines that neither they nor their answers fit into 16 KiB, in others a setup made for the tables first, before it
// now and then some that are refused; from a sleep state a session soon comes back to S0
static void session(int with_scenes)
{
    int lines = between(1, 120), bad = below(4) * 5, begin = 0, more = 0, tables = 0, limits = 0, zones = 0, setup_due = 0;
    int refused_setups = 0, waking = 0;
    guess_power_on();
    guess_plain_setup();
    if (with_scenes) {
        // so long and so dense that each kind of scene has its share beside the others
        lines += 5 * lines / 2;
        waking = one_in(5) ? 15 : 3;
        begin = one_in(2) ? between(40, 95) : 18;
        if ((more = one_in(30))) lines = between(200, 900), begin = 95;
        else if ((tables = one_in(3))) begin = between(60, 95);
        else if ((limits = one_in(3))) begin = between(60, 95);
        else if (one_in(3)) BEGIN(first_scenes);
        else if ((zones = one_in(3))) BEGIN(first_zone_scenes);
        else if (one_in(2)) BEGIN(first_fan_scenes);
        else begin_volt_scene();
        setup_due = tables || (!zones && one_in(2));
        if (setup_due && one_in(2)) refused_setups = one_in(6) ? between(8, 24) : between(1, 5);
        lines += refused_setups;
    }
    for (int i = 0; i < lines; i++) {
        int setup_first = setup_due && !begun;
        len = refused = 0;
        if (!*scene && begin && !setup_first && below(100) < begin) {
            if (more) BEGIN(long_scenes);
            else if (limits ? !one_in(4) : one_in(6)) {
                if (one_in(2)) begin_sleep_scene();
                else begin_limit_scene();
            } else if (tables ? one_in(2) : one_in(5)) begin_table_scene();
            else if (one_in(any_boost() ? 2 : 3)) begin_zone_scene();
            else if (one_in(3)) begin_volt_scene();
            else if (one_in(3)) BEGIN(scenes);
            else BEGIN(fan_scenes);
        }
        if (setup_first) {
            if (tables) table_setup_line();
            else some_setup_line();
            if (refused_setups) {
                spoil_setup();
                setup_due = --refused_setups || !one_in(4);
            }
        } else if ((!with_scenes && i == 0 && one_in(2)) || one_in(60)) {
            if (with_scenes) line_of("S");
            else setup_line();
        } else if (with_scenes && sleep_state() != S0 && !due_len && one_in(*scene && scene_sleeps ? 40 : waking)) line_of("3w");
        else if ((*scene || due_len) && !one_in(8)) scene_line();
        else if (with_scenes && one_in(8)) line_of(one_in(2) ? "~a" : one_in(2) ? ".a" : ".b");
        else if (with_scenes && one_in(8)) line_of(ONE_OF(loose_lines));
        else if (with_scenes) some_event_line(below(20));
        else event_line(below(20));
        if (bad && below(100) < bad) damage();
        else if (!refused) follow();
        for (int k = 0; k < len; k++)
            if (line[k] == '\n') line[k] = 'n';
        fwrite(line, 1, len, stdout);
        if (i + 1 < lines || !one_in(5)) putchar('\n');
    }
}

// ---- searches

enum { LOWEST = -32767, HIGHEST = 32767 }; // what a reading may be

struct lookup {
    int base, unit, offset[12]; // in degrees; the sixteenths that a count of the offsets and of the hysteresis is; in counts
};

static struct lookup lookup = {30, DEGREE, {2, 2, 2, 2, 2, 2, 2, 2, 2, 2, 2, 2}}; // guessed: that of the last table line taken

static int lookup_threshold(int k)
{
    int sum = DEGREE * lookup.base;
    for (int i = 0; i < k; i++) sum += lookup.unit * lookup.offset[i];
    return sum;
}

static int thresholds_reached(int reading)
{
    int n = 0;
    for (int k = 1; k <= 12; k++) n += lookup_threshold(k) <= reading;
    return n;
}

// by document 01's numbers of thresholds
static int step_after(int old, int reading, int hysteresis)
{
    if (reading == MISSING) return 12;
    int now = thresholds_reached(reading), later = thresholds_reached(reading + lookup.unit * hysteresis);
    return old <= now ? now : old < later ? old : later;
}

static struct lookup some_lookup(void)
{
    static const int largest[] = {1, 2, 4, 4, 8, 15, 15, 15, 16, 62, 63, 63, 63, 64, 255};
    static const int zeros_of_8[] = {0, 0, 0, 0, 1, 2, 4, 6, 7, 8}, units[] = {0, 1, 2, 3, 7, 9, 15, 17, 255};
    int most = largest[below(15)], zeros = zeros_of_8[below(10)], alike = one_in(4), any, one;
    struct lookup l;
    l.base = one_in(12) ? end_base() : some_base();
    l.unit = one_in(6) ? (one_in(4) ? below(256) : units[below(9)]) : one_in(2) ? HALF : DEGREE;
    for (int i = 0; i < 12; i++) {
        any = alike ? most : below(most + 1);
        l.offset[i] = below(8) < zeros ? 0 : any;
    }
    if (one_in(5)) {
        wide_row(l.offset);
        if (one_in(2)) l.base = low_base(l.offset);
        if (one_in(3)) one = below(12), l.offset[one] = between(63, 65);
    }
    return l;
}

// these lines have no letter before the first tab
static void drop_first_tab(void) { replace(0, 1, ""); }

static void lookup_line(const struct lookup *l)
{
    number(l->base);
    number(l->unit);
    for (int i = 0; i < 12; i++) number(l->offset[i]);
    drop_first_tab();
}

// one in three reaches from a threshold to another, or a count less or more
static int search_hysteresis(void)
{
    static const int some[] = {0, 0, 1, 2, 15, 255};
    int first = below(12), last = clamp(first + below(5), 0, 11), sum = 0;
    if (one_in(3)) return below(16);
    if (one_in(2)) return some[below(6)];
    for (int i = first; i <= last; i++) sum += lookup.offset[i];
    return within_byte(sum + between(-1, 1));
}

static int search_corner(int k, int hysteresis)
{
    int up = lookup_threshold(k), down = up - lookup.unit * hysteresis, beside = between(-1, 1);
    if (one_in(8)) beside = one_in(2) ? beside * HALF : between(-DEGREE, DEGREE);
    return beside + (one_in(2) ? up : down);
}

static int search_reading(int hysteresis)
{
    static const int ends[] = {COLDEST, HOTTEST, LOWEST, HIGHEST};
    switch (below(20)) {
    case 0: return MISSING;
    case 1: return ends[below(4)];
    case 2: return lookup_threshold(1) - lookup.unit * hysteresis - between(1, 20 * DEGREE);
    case 3: return lookup_threshold(12) + below(20 * DEGREE);
    case 4: return between(COLDEST, HOTTEST);
    }
    return search_corner(between(1, 12), hysteresis);
}

// most often near the step that the reading has, or that reading plus hysteresis has
static int old_step(int reading, int hysteresis)
{
    int reach = one_in(2) ? lookup.unit * hysteresis : 0, far = below(13);
    switch (below(12)) {
    case 0: return 0;
    case 1: return 12;
    case 2: return one_in(2) ? 13 : one_in(2) ? 255 : between(13, 255);
    case 3: case 4: case 5: return far;
    }
    return reading == MISSING ? far : clamp(thresholds_reached(reading + reach) + between(-2, 2), 0, 12);
}

static void search_line(int old, int reading, int hysteresis)
{
    number(old);
    if (reading == MISSING) field("-");
    else number(reading);
    number(hysteresis);
    drop_first_tab();
}

// Some come in a run that goes as ticks do: the hysteresis stays, and the old step is the new one of the search before.
static void next_search(void)
{
    static int run, step, reading, hysteresis;
    int old;
    if (run == 0 && one_in(10)) {
        run = between(3, 20);
        step = below(13);
        hysteresis = search_hysteresis();
        reading = search_reading(hysteresis);
    }
    if (run) {
        run--;
        old = step;
        if (one_in(6)) reading = search_reading(hysteresis);
        else if (reading == MISSING || one_in(2)) reading = search_corner(clamp(step + between(-1, 2), 1, 12), hysteresis);
        else reading += one_in(3) ? between(-1, 1) : between(-3 * DEGREE, 3 * DEGREE);
    } else {
        hysteresis = search_hysteresis();
        reading = search_reading(hysteresis);
        old = old_step(reading, hysteresis);
    }
    if (reading != MISSING) reading = clamp(reading, LOWEST, HIGHEST);
    step = step_after(old, reading, hysteresis);
    search_line(old, reading, hysteresis);
}

static void title_line(void)
{
    int n = one_in(30) ? between(500, 600) : below(30);
    if (one_in(4)) next_search();
    replace(0, 0, "#");
    for (int i = 0; i < n; i++) line[len++] = one_in(20) ? below(256) : between(' ', '~');
}

static int fields(void)
{
    int n = 1;
    for (int i = 0; i < len; i++) n += line[i] == '\t';
    return n;
}

static void misspelled_field(void)
{
    static const char *const wrong[] = {"", "00", "01", "-0", "-00", "-01", "+1", "+", "--", "--1", "1-", " 1", "1 ", "1\r", "0x1", "1.0",
                                        "1e1", "A", "K", "/", ":", "1,", "1 2", "\302\262"};
    int nth = below(fields());
    replace_field(nth, wrong[below(sizeof wrong / sizeof wrong[0])]);
}

// a number out of its range, or "-" where none may stand
static void field_out_of_range(void)
{
    static const char *const far[] = {"32768", "-32768", "65535", "65536", "-65536", "4294967295", "4294967296", "-4294967296",
                                      "18446744073709551616", "1000000", "-1000000", "99999999999999999999999999"};
    static const char *const near[] = {"-", "256", "-1", "-255"}, *const near_base[] = {"-", "128", "-128", "255"};
    int n = fields(), nth = n == 14 && one_in(2) ? below(2) : below(n), reading = n == 3 && nth == 1;
    if (reading || one_in(4)) replace_field(nth, far[reading && one_in(2) ? below(2) : below(12)]);
    else replace_field(nth, n == 14 && nth == 0 ? near_base[below(4)] : near[below(4)]);
}

static void other_number_of_fields(void)
{
    int n = one_in(3) ? between(1, 16) : fields() + (one_in(2) ? 1 : -1);
    while (fields() < n) number(below(16));
    while (fields() > n) {
        do len--;
        while (line[len] != '\t');
    }
}

// nearly always the line is refused then
static void spoil(void)
{
    switch (line[0] == '#' ? 0 : below(9)) {
    case 0: damage(); break;
    case 1: len = 0; some_event_line(below(20)); break;
    case 2: other_number_of_fields(); break;
    case 3: case 4: misspelled_field(); break;
    case 5: field_out_of_range(); misspelled_field(); break;
    case 6: field_out_of_range(); if (one_in(4)) other_number_of_fields(); break;
    default: field_out_of_range();
    }
}

static void searches(void)
{
    int size = one_in(10) ? between(1, 600) : one_in(20) ? between(20000, 31000) : between(1500, 8000), done = 0;
    int bad = one_in(3) ? between(10, 60) : below(8);
    while (done < size) {
        struct lookup l;
        int table = 0;
        len = 0;
        if (one_in(25)) title_line();
        else if ((table = one_in(done ? 10 : 2))) l = some_lookup(), lookup_line(&l);
        else next_search();
        if (below(100) < bad) spoil();
        else if (table) lookup = l;
        for (int k = 0; k < len; k++)
            if (line[k] == '\n') line[k] = 'n';
        fwrite(line, 1, len, stdout);
        done += len + 1;
        if (done < size || one_in(2)) putchar('\n');
    }
}

static void board(void)
{
    for (int i = 0; i < 16; i++) printf("W\t2C\t%02X\t50\nW\t2C\t%02X\tE0\n", 0x90 + 2 * i, 0x91 + 2 * i);
    for (int i = 0; i < 4; i++) printf("W\t2C\t%02X\t00\nW\t2C\t%02X\t80\n", 0xB4 + 2 * i, 0xB5 + 2 * i);
    for (int t = 0; t < 48000; t++) {
        for (int z = 1; z <= 5; z++) printf("T\t%d\t%d\n", z, between(55, 95));
        for (int v = 1; v <= 16; v++) printf("V\t%d\t%d\n", v, between(180, 200));
        for (int f = 1; f <= 4; f++) printf("F\t%d\t%d\n", f, between(2000, 5000));
        printf("R\t2C\t%02X\n", 0x50 + below(4));
        printf("R\t2C\t%02X\nR\t2C\t41\nK\n", 0x56 + below(16));
    }
}

int main(int argc, char **argv)
{
    if (argc == 2 && strcmp(argv[1], "board") == 0) {
        state = 1;
        board();
    } else if (argc == 3 && (strcmp(argv[1], "session") == 0 || strcmp(argv[1], "base") == 0 || strcmp(argv[1], "searches") == 0)) {
        state = strtoull(argv[2], 0, 10) * 0x9E3779B97F4A7C15u + 1;
        for (int i = 0; i < 8; i++) next();
        if (strcmp(argv[1], "searches") == 0) searches();
        else session(argv[1][0] == 's');
    } else {
        fprintf(stderr, "usage: generate board | generate session SEED | generate base SEED | generate searches SEED\n");
        return 2;
    }
    return 0;
}
