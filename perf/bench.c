// The jobs of the programs bench and searches as a plain C program, written from documents 01 and 02
// and the data sheet's register list for comparison: same input, same output. It shares nothing with the Rattle sources.
// usage: bench < session | bench searches < searches
// The second runs the step search of a table on cases, and counts the thresholds compared.
#include <stdint.h>
#include <stdio.h>
#include <string.h>
#include <unistd.h>

enum { MISSING = -1000000 };

// "Zone readings are held in sixteenths, -2032 to 2040, and the tables and boosts compare them so."
enum { DEGREE = 16, HALF = 8, COLDEST = -2032, HOTTEST = 2040 };

// ---- the register map, from the data sheet: address or range, default, writable bits, lock mark

struct row {
    uint8_t from, to, value, writable, locked;
};

static const struct row rows[] = {
    {0x00, 0x00, 0x00, 0x01, 1}, {0x01, 0x01, 0x00, 0xFF, 0}, {0x05, 0x05, 0x00, 0x0F, 1}, {0x0C, 0x0C, 0x00, 0xC0, 1},
    {0x0D, 0x0D, 0x00, 0xFF, 1}, {0x0E, 0x0E, 0x00, 0xC0, 1}, {0x0F, 0x0F, 0x00, 0xFF, 1}, {0x31, 0x31, 0x00, 0x1F, 1},
    {0x32, 0x32, 0x00, 0x77, 1}, {0x33, 0x34, 0x00, 0xF8, 1}, {0x35, 0x35, 0x30, 0xFF, 1}, {0x36, 0x38, 0x00, 0xFF, 1},
    {0x39, 0x3A, 0x80, 0xFF, 1}, {0x3B, 0x3C, 0x00, 0xFF, 1}, {0x3D, 0x3D, 0x00, 0x0F, 1}, {0x3E, 0x3E, 0x01, 0x00, 0},
    {0x3F, 0x3F, 0x79, 0x00, 0}, {0x40, 0x40, 0x00, 0x3F, 0}, {0x41, 0x46, 0x00, 0xFF, 0}, {0x47, 0x47, 0x00, 0x0F, 0},
    {0x48, 0x48, 0x00, 0x3F, 0}, {0x49, 0x4E, 0x00, 0xFF, 0}, {0x4F, 0x4F, 0x00, 0x0F, 0}, {0x78, 0x7F, 0x80, 0xFF, 0},
    {0x80, 0x81, 0x3C, 0xFF, 1}, {0x82, 0x83, 0x23, 0xFF, 1}, {0x84, 0x85, 0x00, 0xFF, 0}, {0x8E, 0x8F, 0x00, 0x3F, 0},
    {0xB0, 0xB1, 0xFF, 0xFF, 0}, {0xB2, 0xB3, 0x17, 0xFF, 0}, {0xBC, 0xBC, 0x00, 0x7F, 0}, {0xBD, 0xBD, 0x00, 0xFF, 0},
    {0xBE, 0xBF, 0x00, 0xFF, 1}, {0xC0, 0xC1, 0x44, 0xFF, 1}, {0xC2, 0xC4, 0x00, 0xFF, 1}, {0xC5, 0xC6, 0x00, 0xFF, 0},
    {0xC7, 0xC7, 0x11, 0xFF, 0}, {0xC8, 0xCA, 0x00, 0xFF, 1}, {0xCB, 0xCB, 0x00, 0x0F, 1}, {0xCC, 0xCE, 0x00, 0xFF, 1},
    {0xCF, 0xCF, 0x00, 0x0F, 1}, {0xD0, 0xDF, 0x00, 0xFF, 1}, {0xE0, 0xE0, 0x00, 0xFF, 0}, {0xE1, 0xE1, 0x3F, 0x7F, 1},
    {0xE2, 0xE2, 0x00, 0x3F, 1}, {0xE3, 0xE3, 0x00, 0x7F, 1}, {0xE4, 0xE4, 0x03, 0x03, 0}, {0xE5, 0xE5, 0xFF, 0xFF, 0},
    {0xE6, 0xE6, 0x0F, 0x0F, 0}, {0xE7, 0xE7, 0xFF, 0xFF, 0}, {0xE8, 0xE8, 0x0F, 0x0F, 0}, {0xE9, 0xE9, 0x07, 0x0F, 0},
    {0xEA, 0xEA, 0xFF, 0xFF, 0}, {0xEB, 0xEB, 0x07, 0x0F, 0}, {0xEC, 0xEC, 0xFF, 0xFF, 0}, {0xED, 0xED, 0x3F, 0x3F, 0},
    {0xEE, 0xEF, 0x00, 0x3F, 0},
};

static uint8_t initial[256], writable[256], locked[256];

static void fill_map(void)
{
    for (size_t i = 0; i < sizeof rows / sizeof rows[0]; i++)
        for (int a = rows[i].from; a <= rows[i].to; a++) {
            initial[a] = rows[i].value;
            writable[a] = rows[i].writable;
            locked[a] = rows[i].locked;
        }
    for (int a = 0x90; a <= 0xAF; a++) { // voltage limits: low 00h, high FFh
        initial[a] = a % 2 ? 0xFF : 0x00;
        writable[a] = 0xFF;
    }
    for (int a = 0xB4; a <= 0xBB; a++) { // fan limits
        initial[a] = a % 2 ? 0xFF : 0xFC;
        writable[a] = a % 2 ? 0xFF : 0xFC;
    }
    for (int a = 0x79; a <= 0x7F; a += 2) initial[a] = 0x7F; // "Zone limits start at the bench's own 80h low and 7Fh high"
    initial[0xE4] = 0x00;                                    // "on the bench the sleep state starts at S0"
}

// ---- the chip

struct setup {
    int level, base[4], offset[2][12], hysteresis[2], duty[13], boost[6], boost_hysteresis, binding[2], override[2], start_duty[2],
        start_count[2];
};

struct chip {
    struct setup s;
    uint8_t reg[256];
    int zone[6]; // 1a, 1b, 2a, 2b, 3, 4 in sixteenths
    int volt[16], in_error[16], fan[4], hot[4];
    int kept[4];        // the high byte of each fan's count that a read of its low byte kept, or MISSING for none
    int level, latched; // the pin; the slave address, or 0
    int step[4], boosted[6], ramp[4], wait[4], duty[2], start[2];
};

static void power_on(struct chip *c, const struct setup *s)
{
    memset(c, 0, sizeof *c);
    c->s = *s;
    memcpy(c->reg, initial, 256);
    for (int i = 0; i < 6; i++) c->zone[i] = MISSING;
    for (int i = 0; i < 16; i++) c->volt[i] = MISSING;
    for (int i = 0; i < 4; i++) c->fan[i] = c->kept[i] = MISSING;
    c->level = s->level;
}

static const struct setup *plain_setup(void)
{
    static struct setup s;
    s.level = 0;
    for (int i = 0; i < 4; i++) s.base[i] = 30;
    for (int i = 0; i < 12; i++) s.offset[0][i] = s.offset[1][i] = 2;
    s.hysteresis[0] = s.hysteresis[1] = 2;
    s.duty[0] = 0;
    for (int i = 1; i < 13; i++) s.duty[i] = 48 + 16 * i;
    for (int i = 0; i < 6; i++) s.boost[i] = MISSING;
    s.boost_hysteresis = 3;
    s.binding[0] = 17;
    s.binding[1] = 4;
    for (int i = 0; i < 2; i++) s.override[i] = MISSING, s.start_duty[i] = 128, s.start_count[i] = 2;
    return &s;
}

// ---- errors, a bit each: from these on those of the sixteen voltages, of the four fans and of the four zones

enum { VOLTS = 0, FANS = 16, ZONES = 20 };

// the sleep states, as E4h has them
enum { S0, S1, S3, S4_5 };

// by E9h or EBh: the channels 12 to 14, and the zones 1 and 2 together
static unsigned masked_by(int b) { return (b & 0x07) << (VOLTS + 11) | (b & 0x08 ? 0x03u << ZONES : 0); }

// the data sheet's column "Sleep Masking"; of channel 16 and of the zones 3 and 4 it says "none"
static unsigned masked(const struct chip *c)
{
    const unsigned rails = 0x47FF << VOLTS; // the channels 1 to 11 and 15
    switch (c->reg[0xE4]) {
    case S1: return c->reg[0xE6] << FANS;
    case S3: return rails | c->reg[0xE8] << FANS | masked_by(c->reg[0xE9]);
    case S4_5: return rails | 0x0F << FANS | masked_by(c->reg[0xEB]);
    }
    return 0;
}

// in the BMC group
static unsigned standing(const struct chip *c)
{
    return c->reg[0x41] << VOLTS | c->reg[0x42] << (VOLTS + 8) | (c->reg[0x47] & 0x0F) << FANS | (c->reg[0x40] & 0x0F) << ZONES;
}

// "A masked bit is neither set nor counted, and one already standing remains until cleared but no longer holds ALERT. The error count takes
// in the zone bits."
static int errors(const struct chip *c) { return __builtin_popcount(standing(c) & ~masked(c)); }

// a bit of the BMC group, at an address, and the same of the Host group
static void mark(struct chip *c, int error, int a, int bit)
{
    if (masked(c) >> error & 1) return;
    c->reg[a] |= 1 << bit;
    c->reg[a + 8] |= 1 << bit;
}

static void mark_volt(struct chip *c, int i) { mark(c, VOLTS + i, 0x41 + i / 8, i % 8); }

static void mark_fan(struct chip *c, int i) { mark(c, FANS + i, 0x47, i); }

static void mark_zone(struct chip *c, int i) { mark(c, ZONES + i, 0x40, i); }

static int low_limit(const struct chip *c, int i) { return c->reg[0x90 + 2 * i]; }

static int high_limit(const struct chip *c, int i) { return c->reg[0x91 + 2 * i]; }

static int fan_limit(const struct chip *c, int i) { return c->reg[0xB5 + 2 * i] << 6 | c->reg[0xB4 + 2 * i] >> 2; }

static int outside_limits(const struct chip *c, int i, int n) { return n < low_limit(c, i) || n > high_limit(c, i); }

// "at least low plus VH and at most high minus VH"; "A low limit of 00h and a high limit of FFh are not moved."
static int ends_error(const struct chip *c, int i, int n)
{
    int low = low_limit(c, i), high = high_limit(c, i), vh = c->reg[0xBC] & 0x07;
    return n >= (low == 0x00 ? low : low + vh) && n <= (high == 0xFF ? high : high - vh);
}

// "each taken reading in between sets the bit again"
static void compare_volt(struct chip *c, int i, int n)
{
    c->in_error[i] = outside_limits(c, i, n) || (c->in_error[i] && !ends_error(c, i, n));
    if (c->in_error[i]) mark_volt(c, i);
}

// which of the four pairs of limits, and of the four bits, is a zone's: 1a and 1b share theirs, 2a and 2b too
static int limits_of(int zone) { return zone < 4 ? zone / 2 : zone - 2; }

static int zone_low(const struct chip *c, int zone) { return (int8_t)c->reg[0x78 + 2 * limits_of(zone)]; }

static int zone_high(const struct chip *c, int zone) { return (int8_t)c->reg[0x79 + 2 * limits_of(zone)]; }

static int zone_enabled(const struct chip *c, int zone)
{
    return zone == 1 ? c->reg[0x31] >> 2 & 1 : zone == 3 ? c->reg[0x31] >> 3 & 1 : 1;
}

// "80h low and 7Fh high; a zone with both is not watched and never errs, nor does 1b or 2b while not enabled"
static int zone_watched(const struct chip *c, int zone)
{
    return zone_enabled(c, zone) && !(zone_low(c, zone) == -128 && zone_high(c, zone) == 127);
}

// "Any other zone below its low or above its high limit, in signed whole degrees compared with the full reading, sets its bit in both
// groups at the event that sets the reading"
static void set_zone(struct chip *c, int zone, int reading)
{
    c->zone[zone] = reading;
    if (reading == MISSING || !zone_watched(c, zone)) return;
    if (reading < DEGREE * zone_low(c, zone) || reading > DEGREE * zone_high(c, zone)) mark_zone(c, limits_of(zone));
}

static void take_volt(struct chip *c, int i, int n)
{
    c->volt[i] = n;
    if (n != MISSING) compare_volt(c, i, n);
    int source = c->reg[0x31], reading = n == MISSING || n == 0 ? MISSING : DEGREE * (n - 128);
    if (i == 10 && source & 0x01 && !(source & 0x10)) set_zone(c, 4, reading);
    if (i == 14 && source & 0x02) set_zone(c, 5, reading);
}

static void take_fan(struct chip *c, int i, int n)
{
    c->fan[i] = n;
    if (n != MISSING && n > fan_limit(c, i)) mark_fan(c, i);
}

static void take_temperature(struct chip *c, int zone, int reading)
{
    if (zone == 4 && c->reg[0x31] & 0x11) return;
    set_zone(c, zone, reading);
}

// ---- the bus

static int transact(struct chip *c, int address)
{
    static const int slave[3] = {0x2C, 0x2E, 0x2D};
    if (!c->latched && address >> 2 == 0x0B) c->latched = slave[c->level];
    return c->latched == address && c->latched != 0;
}

// the zone whose whole byte stands at an address, or -1
static int whole_zone(int a)
{
    switch (a) {
    case 0x50: case 0x11: return 0;
    case 0x06: case 0x13: return 1;
    case 0x51: case 0x15: return 2;
    case 0x07: case 0x17: return 3;
    case 0x52: case 0x21: return 4;
    case 0x53: case 0x23: return 5;
    }
    return -1;
}

static int half_zone(int a)
{
    if (a >= 0x10 && a <= 0x16 && a % 2 == 0) return (a - 0x10) / 2;
    return a == 0x20 ? 4 : a == 0x22 ? 5 : -1;
}

static int floor_degrees(int reading) { return reading >= 0 ? reading / DEGREE : -((DEGREE - 1 - reading) / DEGREE); }

// "The half bit shows the reading rounded down to a half."
static int half_bit(int reading) { return reading - DEGREE * floor_degrees(reading) >= HALF; }

static int zone_open(const struct chip *c, int zone)
{
    return zone == 4 ? c->reg[0x31] >> 4 & 1 : zone == 5 ? !(c->reg[0x31] >> 1 & 1) : 0;
}

static void write_register(struct chip *c, int a, int b)
{
    int z;
    if (locked[a] && c->reg[0xE3] & 0x02) return;
    // "A bus write of the whole byte sets the fraction to 0, of the half bit the rest to 0."
    if ((z = whole_zone(a)) >= 0) {
        if (zone_open(c, z)) set_zone(c, z, b == 0x80 ? MISSING : DEGREE * (b < 128 ? b : b - 256));
    } else if ((z = half_zone(a)) >= 0) {
        if (zone_open(c, z) && c->zone[z] != MISSING) set_zone(c, z, DEGREE * floor_degrees(c->zone[z]) + HALF * (b >> 7));
    } else if (a >= 0x40 && a <= 0x4F) {
        c->reg[a] &= ~(b & writable[a]);
    } else {
        c->reg[a] = (c->reg[a] & ~writable[a]) | (b & writable[a]);
    }
}

static int read_register(const struct chip *c, int a)
{
    int z;
    if ((z = whole_zone(a)) >= 0) return c->zone[z] == MISSING ? 0x80 : floor_degrees(c->zone[z]) & 0xFF;
    if ((z = half_zone(a)) >= 0) return c->zone[z] != MISSING && half_bit(c->zone[z]) ? 0x80 : 0;
    if (a >= 0x56 && a <= 0x65) return c->volt[a - 0x56] == MISSING ? 0 : c->volt[a - 0x56];
    if (a >= 0x6E && a <= 0x75) {
        int n = c->fan[(a - 0x6E) / 2];
        if (n == MISSING) n = 0x3FFF;
        return a % 2 ? n >> 6 : n << 2 & 0xFF;
    }
    return c->reg[a];
}

// "A read of a fan count's low byte shall keep the matching high byte; the next read of that high byte gives the kept one and drops it."
static int read_byte(struct chip *c, int a)
{
    int b = read_register(c, a);
    if (a >= 0x6E && a <= 0x75) {
        int *kept = &c->kept[(a - 0x6E) / 2];
        if (a % 2 == 0) {
            *kept = read_register(c, a + 1);
        } else if (*kept != MISSING) {
            b = *kept;
            *kept = MISSING;
        }
    }
    return b;
}

// the fixed blocks, commands F2h to FDh
static const struct block {
    uint8_t first, count;
} blocks[] = {
    {0x40, 8}, {0x48, 8}, {0x50, 6}, {0x56, 16}, {0x67, 4}, {0x6E, 8}, {0x78, 12}, {0x90, 32}, {0xB4, 8}, {0xC8, 8}, {0xD0, 16}, {0xE5, 9},
};

// the block that a transaction is for, or NULL if the address or the command is not acknowledged
static const struct block *transact_block(struct chip *c, int address, int command)
{
    return transact(c, address) && command >= 0xF2 && command <= 0xFD ? &blocks[command - 0xF2] : NULL;
}

static void reset_pin(struct chip *c)
{
    c->reg[0xE3] = (c->reg[0xE3] & ~0x02) | 0x04;
    c->reg[0xE4] = S4_5;
}

// ---- the tick

static int hotter(int a, int b) { return a == MISSING || b == MISSING ? MISSING : a > b ? a : b; }

// an int holds a threshold: none of a setup is above 14,128 sixteenths, a base of 127 degrees and twelve offsets of 63
static int reached(int base, int unit, const int *offset, int reading)
{
    int n = 0, threshold = DEGREE * base;
    while (n < 12 && (threshold += unit * offset[n]) <= reading) n++; // offsets are never negative
    return n;
}

// by document 01's numbers of thresholds, for a reading that is not missing; the unit is the sixteenths that a count of the offsets and of
// the hysteresis is; called and not inlined it would cost sixteen instructions a tick more
static inline __attribute__((always_inline)) int new_step(int base, int unit, const int *offset, int hysteresis, int old, int reading)
{
    int now = reached(base, unit, offset, reading);
    if (old <= now) return now;
    int later = reached(base, unit, offset, reading + unit * hysteresis);
    return later < old ? later : old;
}

static int table_ask(struct chip *c, int table)
{
    int source = c->reg[0x31], bound = c->reg[0x35] >> (4 + table) & 1, reading;
    if (table % 2 == 0)
        reading = !bound ? c->zone[4] : source & 0x04 ? hotter(c->zone[0], c->zone[1]) : c->zone[0];
    else
        reading = !bound ? c->zone[5] : source & 0x08 ? hotter(c->zone[2], c->zone[3]) : c->zone[2];
    if (reading == MISSING) {
        c->step[table] = 12;
        return 256;
    }
    int unit = c->reg[0xBD] >> (table < 2 ? 4 : 5) & 1 ? HALF : DEGREE, row = table / 2;
    c->step[table] = new_step(c->s.base[table], unit, c->s.offset[row], c->s.hysteresis[row], c->step[table], reading);
    return c->s.duty[c->step[table]];
}

static void tick(struct chip *c, int output[2])
{
    for (int i = 0; i < 16; i++)
        if (c->volt[i] == MISSING && !(low_limit(c, i) == 0x00 && high_limit(c, i) == 0xFF)) mark_volt(c, i);
    for (int i = 0; i < 4; i++)
        if (c->fan[i] == MISSING && fan_limit(c, i) != 0x3FFF) mark_fan(c, i);
    for (int z = 0; z < 6; z++)
        if (c->zone[z] == MISSING && zone_watched(c, z)) mark_zone(c, limits_of(z)); // "missing sets it at the tick"

    int ask[4], any = 0;
    for (int t = 0; t < 4; t++) ask[t] = table_ask(c, t);
    for (int z = 0; z < 6; z++) {
        int b = c->s.boost[z], reading = c->zone[z];
        if (!zone_enabled(c, z) || b == MISSING)
            c->boosted[z] = 0;
        else if (reading == MISSING || reading >= DEGREE * b)
            c->boosted[z] = 1;
        else if (reading < DEGREE * (b - c->s.boost_hysteresis))
            c->boosted[z] = 0;
        any |= c->boosted[z];
    }
    for (int i = 0; i < 4; i++) {
        int n = i < 2 ? c->reg[0xBF] & 15 : c->reg[0xBF] >> 4;
        if (n == 0) {
            c->ramp[i] = c->hot[i] ? 256 : 0;
            c->wait[i] = 0;
        } else if (++c->wait[i] >= n) {
            c->wait[i] = 0;
            c->ramp[i] += c->hot[i] ? 16 : -16;
            if (c->ramp[i] > 256) c->ramp[i] = 256;
            if (c->ramp[i] < 0) c->ramp[i] = 0;
        }
    }
    for (int f = 0; f < 2; f++) {
        int duty = 0;
        if (c->s.override[f] != MISSING) duty = c->s.override[f];
        for (int t = 0; t < 4; t++) {
            if (c->s.override[f] == MISSING && c->s.binding[f] >> t & 1 && ask[t] > duty) duty = ask[t];
            if (c->s.binding[f] >> (4 + t) & 1 && c->ramp[t] > duty) duty = c->ramp[t];
        }
        if (any && duty < 256) duty = 256;
        if (c->duty[f] == 0 && duty > 0) c->start[f] = c->s.start_count[f];
        c->duty[f] = output[f] = duty;
        if (c->start[f] > 0) {
            c->start[f]--;
            if (output[f] < c->s.start_duty[f]) output[f] = c->s.start_duty[f];
        }
    }
}

// ---- lines, each with its line feed at the end; a field is read with the tab before it

enum { WRONG = -2000000, DASH = MISSING, FAR = 1000000 };

// a decimal, kept under one million either way; DASH for "-"; WRONG
static int decimal(const unsigned char **at)
{
    const unsigned char *p = *at;
    if (*p++ != '\t') return WRONG;
    int minus = *p == '-', v = 0;
    const unsigned char *first = p += minus;
    for (; *p >= '0' && *p <= '9'; p++) {
        v = 10 * v + (*p - '0');
        if (v >= FAR) v = FAR - 1;
    }
    *at = p;
    if (p == first) return minus ? DASH : WRONG;
    if (*first == '0' && (minus || p > first + 1)) return WRONG;
    return minus ? -v : v;
}

static int digit(int b) { return b >= '0' && b <= '9' ? b - '0' : b >= 'A' && b <= 'F' ? b - 'A' + 10 : -1; }

static int hex_byte(const unsigned char **at)
{
    const unsigned char *p = *at;
    if (p[0] != '\t' || digit(p[1]) < 0 || digit(p[2]) < 0) return WRONG;
    *at += 3;
    return 16 * digit(p[1]) + digit(p[2]);
}

static int within(int v, int low, int high) { return v >= low && v <= high; }

static int parse_setup(const unsigned char *at, struct setup *s)
{
    int n[59], k = 0, bad = 0;
    for (int i = 0; i < 59; i++)
        if ((n[i] = decimal(&at)) == WRONG) return 4;
    if (*at != '\n') return 4;
#define TAKE(field, low, high, none) (bad |= !(within(n[k], low, high) || (none && n[k] == DASH)), field = n[k++])
    TAKE(s->level, 0, 2, 0);
    for (int i = 0; i < 4; i++) TAKE(s->base[i], -127, 127, 0);
    for (int i = 0; i < 24; i++) TAKE(s->offset[i / 12][i % 12], 0, 63, 0); // "Offsets now run from 0 to 63 in both tables."
    for (int i = 0; i < 2; i++) TAKE(s->hysteresis[i], 0, 15, 0);
    for (int i = 0; i < 13; i++) TAKE(s->duty[i], 0, 256, 0);
    for (int i = 0; i < 6; i++) TAKE(s->boost[i], -127, 127, 1);
    TAKE(s->boost_hysteresis, 0, 15, 0);
    for (int i = 0; i < 2; i++) TAKE(s->binding[i], 0, 255, 0);
    for (int i = 0; i < 2; i++) TAKE(s->override[i], 0, 256, 1);
    for (int i = 0; i < 2; i++) TAKE(s->start_duty[i], 0, 256, 0);
    for (int i = 0; i < 2; i++) TAKE(s->start_count[i], 0, 255, 0);
#undef TAKE
    for (int i = 0; i < 12; i++) bad |= s->duty[i] > s->duty[i + 1];
    return bad ? 1 : 0;
}

static char out[1 << 14];
static int waiting;

static void flush_out(void)
{
    for (int done = 0; done < waiting;) {
        ssize_t n = write(1, out + done, waiting - done);
        if (n <= 0) _exit(0);
        done += n;
    }
    waiting = 0;
}

static void put_char(char b) { out[waiting++] = b; }

static void put_number(unsigned long n)
{
    char d[20];
    int k = 0;
    do d[k++] = '0' + n % 10;
    while (n /= 10);
    put_char('\t');
    while (k) put_char(d[--k]);
}

static void put_hex(int b)
{
    put_char('\t');
    put_char("0123456789ABCDEF"[b >> 4]);
    put_char("0123456789ABCDEF"[b & 15]);
}

static void put_no_byte(void)
{
    put_char('\t');
    put_char('-');
    put_char('-');
}

// takes a line and prints its answer, or gives its refusal; called and not inlined it would cost five instructions a line more
static inline __attribute__((always_inline)) int take_line(struct chip *c, int *begun, const unsigned char *line, int len)
{
    const unsigned char *at = line + 1;
    const struct block *block;
    int a, r, b, i, v;
    if (len > 512) return 4;
    switch (line[0]) {
    case 'S': {
        struct setup s;
        int refusal = parse_setup(at, &s);
        if (refusal == 4) return 4;
        if (*begun) return 3;
        if (refusal) return refusal;
        power_on(c, &s);
        break;
    }
    case 'T': case 'U': case 'V': case 'F': case 'H':
        if ((i = decimal(&at)) == WRONG || (v = decimal(&at)) == WRONG || *at != '\n') return 4;
        if (line[0] == 'T') {
            if (!within(i, 1, 5) || !(v == DASH || within(v, -254, 255))) return 2;
            take_temperature(c, i - 1, v == DASH ? MISSING : HALF * v);
        } else if (line[0] == 'U') { // "A new letter U carries sixteenths for zones 1 to 5, under T's conditions; T keeps half degrees."
            if (!within(i, 1, 5) || !(v == DASH || within(v, COLDEST, HOTTEST))) return 2;
            take_temperature(c, i - 1, v);
        } else if (line[0] == 'V') {
            if (!within(i, 1, 16) || !(v == DASH || within(v, 0, 255))) return 2;
            take_volt(c, i - 1, v);
        } else if (line[0] == 'F') {
            if (!within(i, 1, 4) || !(v == DASH || within(v, 0, 16383))) return 2;
            take_fan(c, i - 1, v);
        } else {
            if (!within(i, 1, 4) || !within(v, 0, 1)) return 2;
            c->hot[i - 1] = v;
        }
        break;
    case 'A':
        if ((v = decimal(&at)) == WRONG || *at != '\n') return 4;
        if (!within(v, 0, 2)) return 2;
        c->level = v;
        break;
    case 'K':
        if (*at != '\n') return 4;
        {
            int output[2], n;
            tick(c, output);
            n = errors(c);
            put_char('K');
            put_number(!(c->reg[0xE3] & 0x04) && n > 0);
            put_number(c->duty[0]);
            put_number(c->duty[1]);
            put_number(output[0]);
            put_number(output[1]);
            put_number(n);
            put_char('\n');
        }
        break;
    case 'X':
        if (*at != '\n') return 4;
        reset_pin(c);
        break;
    case 'W':
        if ((a = hex_byte(&at)) == WRONG || (r = hex_byte(&at)) == WRONG || (b = hex_byte(&at)) == WRONG || *at != '\n') return 4;
        if (a > 0x7F) return 2;
        v = transact(c, a);
        if (v) write_register(c, r, b);
        put_char('W');
        put_number(v);
        put_char('\n');
        break;
    case 'R':
        if ((a = hex_byte(&at)) == WRONG || (r = hex_byte(&at)) == WRONG || *at != '\n') return 4;
        if (a > 0x7F) return 2;
        v = transact(c, a);
        put_char('R');
        put_number(v);
        if (v) put_hex(read_byte(c, r));
        else put_no_byte();
        put_char('\n');
        break;
    case 'G':
        if ((a = hex_byte(&at)) == WRONG || (r = hex_byte(&at)) == WRONG || *at != '\n') return 4;
        if (a > 0x7F) return 2;
        block = transact_block(c, a, r);
        put_char('G');
        put_number(block != NULL);
        if (block) {
            put_hex(block->count);
            for (i = 0; i < block->count; i++) put_hex(read_register(c, block->first + i));
        } else {
            put_no_byte();
        }
        put_char('\n');
        break;
    case 'P': {
        uint8_t bytes[32];
        int n;
        if ((a = hex_byte(&at)) == WRONG || (r = hex_byte(&at)) == WRONG || (n = hex_byte(&at)) == WRONG || n > 32) return 4;
        for (i = 0; i < n; i++) {
            if ((b = hex_byte(&at)) == WRONG) return 4;
            bytes[i] = b;
        }
        if (*at != '\n') return 4;
        if (a > 0x7F) return 2;
        block = transact_block(c, a, r);
        v = block != NULL && n == block->count;
        for (i = 0; v && i < n; i++) write_register(c, block->first + i, bytes[i]);
        put_char('P');
        put_number(v);
        put_char('\n');
        break;
    }
    default:
        return 4;
    }
    *begun = 1;
    return 0;
}

static void put_refusal(unsigned long number, int refusal)
{
    put_char('E');
    put_number(number);
    put_number(refusal);
    put_char('\n');
}

static void give(struct chip *c, int *begun, const unsigned char *line, int len, unsigned long number)
{
    if (waiting > (int)sizeof out - 256) flush_out();
    int refusal = take_line(c, begun, line, len);
    if (refusal) put_refusal(number, refusal);
}

// inlined beside the searches it would cost an instruction a line more
static __attribute__((noinline)) int bench(void)
{
    static unsigned char in[1 << 14], kept[514];
    static struct chip c;
    int have = 0, begun = 0;
    unsigned long number = 1;
    fill_map();
    power_on(&c, plain_setup());
    memcpy(out, "bench\t1\n", 8);
    waiting = 8;
    for (;;) {
        flush_out();
        ssize_t n = read(0, in, sizeof in);
        if (n <= 0) break;
        for (ssize_t i = 0; i < n;) {
            unsigned char *feed = memchr(in + i, '\n', n - i);
            ssize_t end = feed ? feed - in : n;
            if (feed && have == 0) {
                give(&c, &begun, in + i, end - i > 513 ? 513 : end - i, number++);
            } else {
                ssize_t room = 513 - have, add = end - i < room ? end - i : room;
                memcpy(kept + have, in + i, add);
                have += add;
                kept[have] = '\n';
                if (feed) {
                    give(&c, &begun, kept, have, number++);
                    have = 0;
                }
            }
            i = end + 1;
        }
    }
    if (have) give(&c, &begun, kept, have, number);
    flush_out();
    return 0;
}

// ---- searches

struct table {
    int base, unit, offset[12]; // in degrees; the sixteenths that a count is; in counts
};

struct search {
    int old, reading, hysteresis; // a step, or more than 12; in sixteenths, or MISSING; in counts
};

struct found {
    int step, compared;
};

// "Threshold k (1 to 12) is base plus the first k offsets."
static int threshold(const struct table *t, int k)
{
    int sum = DEGREE * t->base;
    for (int i = 0; i < k; i++) sum += t->unit * t->offset[i];
    return sum;
}

// document 02's walk; an int holds it: no threshold is above 782,332, no reading plus hysteresis above 97,792
static struct found walk(const struct table *t, const struct search *s)
{
    int start = s->old > 12 ? 12 : s->old;
    struct found f = {start, 0};
    // "It looks upward first and stops at the first threshold above the reading"; "At either end there is nothing to look at."
    while (f.step < 12) {
        f.compared++;
        if (threshold(t, f.step + 1) > s->reading) break;
        f.step++;
    }
    if (f.step != start) return f;
    // "only if it has not moved does it look downward, stopping at the first threshold not above reading plus hysteresis"
    while (f.step > 0) {
        f.compared++;
        if (threshold(t, f.step) <= s->reading + t->unit * s->hysteresis) break;
        f.step--;
    }
    return f;
}

static void put_text(const unsigned char *text, int len)
{
    for (int i = 0; i < len; i++) {
        if (waiting > (int)sizeof out - 256) flush_out();
        put_char(text[i]);
    }
}

// prints the line as it stands, the step by document 01 and the walk's count, and a line with both steps if the walk ends at another one
static void put_search(const struct table *t, const struct search *s, const unsigned char *line, int len)
{
    struct found f = {12, 0}; // "A missing reading compares none."
    int step = 12;            // "Missing: step 12"
    if (s->reading != MISSING) {
        f = walk(t, s);
        step = new_step(t->base, t->unit, t->offset, s->hysteresis, s->old, s->reading);
    }
    put_text(line, len);
    put_number(step);
    put_number(f.compared);
    put_char('\n');
    if (f.step != step) {
        put_char('?');
        put_number(step);
        put_number(f.step);
        put_char('\n');
    }
}

// takes a title, a table of fourteen numbers or a search of three, and prints its answer, or gives its refusal; a tab stands before it
static int take_search_line(struct table *t, const unsigned char *line, int len)
{
    const unsigned char *at = line - 1;
    int n[14], k = 0;
    if (line[0] == '#') {
        put_text(line, len + 1);
        return 0;
    }
    while (k < 14 && *at == '\t')
        if ((n[k++] = decimal(&at)) == WRONG) return 4;
    if (*at != '\n' || (k != 3 && k != 14)) return 4;
    if (k == 3) {
        struct search s = {n[0], n[1], n[2]};
        if (!within(s.old, 0, 255) || !(s.reading == DASH || within(s.reading, -32767, 32767)) || !within(s.hysteresis, 0, 255)) return 2;
        put_search(t, &s, line, len);
    } else {
        if (!within(n[0], -127, 127)) return 2;
        for (int i = 1; i < 14; i++)
            if (!within(n[i], 0, 255)) return 2;
        t->base = n[0];
        t->unit = n[1];
        memcpy(t->offset, n + 2, sizeof t->offset);
    }
    return 0;
}

static int searches(void)
{
    enum { MOST = 32768 };
    static unsigned char in[1 + MOST + 1]; // a byte before the first line; one behind the last, which may lack its line feed
    struct table t = {30, DEGREE, {2, 2, 2, 2, 2, 2, 2, 2, 2, 2, 2, 2}};
    unsigned char *line = in + 1, *end = in + 1, *feed;
    ssize_t n;
    while (end - line < MOST && (n = read(0, end, MOST - (end - line))) > 0) end += n;
    *end = '\n';
    for (unsigned long number = 1; line < end; number++, line = feed + 1) {
        feed = memchr(line, '\n', end + 1 - line);
        line[-1] = '\t'; // as before any field; the line feed that stood here is read
        if (waiting > (int)sizeof out - 256) flush_out();
        int refusal = take_search_line(&t, line, feed - line);
        if (refusal) put_refusal(number, refusal);
    }
    flush_out();
    return 0;
}

int main(int argc, char **argv)
{
    if (argc == 1) return bench();
    if (argc == 2 && strcmp(argv[1], "searches") == 0) return searches();
    fprintf(stderr, "usage: bench < session | bench searches < searches\n");
    return 2;
}
