/* A plain interpreter of the 8052, which says how fast a run could be: speed FILE.hex STEPS

   It counts steps and cycles, and writes the trace, as `m51 flat` does. It tests nothing, and has no pins, no script,
   no receiving, no external interrupts, no counting at pins and no mode 3 of the timers.

   It is written from docs/SIMULATOR.md and the family manual, and apart from the crates. */
#include <stdint.h>
#include <stdio.h>
#include <stdlib.h>
#include <string.h>

enum {
    P0 = 0x80, SP = 0x81, DPL = 0x82, DPH = 0x83, PCON = 0x87, TCON = 0x88, TMOD = 0x89, TL0 = 0x8A, TH0 = 0x8C,
    P1 = 0x90, SCON = 0x98, SBUF = 0x99, P2 = 0xA0, IE = 0xA8, P3 = 0xB0, IP = 0xB8, T2CON = 0xC8, RCAP2L = 0xCA,
    RCAP2H = 0xCB, TL2 = 0xCC, TH2 = 0xCD, PSW = 0xD0, ACC = 0xE0, B = 0xF0
};

static uint8_t code[65536], ram[256], xram[65536], sfr[256];
static uint16_t pc;
static uint64_t cycle;
/* Handlers of low and of high priority that run, and whether no interrupt is taken before the next instruction. */
static int low_runs, high_runs, is_held;
/* The byte that is sent, its ninth bit, the bit times that are left, and the part of one that has passed. */
static uint8_t sent;
static int ninth, sending_mode, bits_left, passed;

static const uint8_t CYCLES[256] = {
    1, 2, 2, 1, 1, 1, 1, 1, 1, 1, 1, 1, 1, 1, 1, 1, 2, 2, 2, 1, 1, 1, 1, 1, 1, 1, 1, 1, 1, 1, 1, 1,
    2, 2, 2, 1, 1, 1, 1, 1, 1, 1, 1, 1, 1, 1, 1, 1, 2, 2, 2, 1, 1, 1, 1, 1, 1, 1, 1, 1, 1, 1, 1, 1,
    2, 2, 1, 2, 1, 1, 1, 1, 1, 1, 1, 1, 1, 1, 1, 1, 2, 2, 1, 2, 1, 1, 1, 1, 1, 1, 1, 1, 1, 1, 1, 1,
    2, 2, 1, 2, 1, 1, 1, 1, 1, 1, 1, 1, 1, 1, 1, 1, 2, 2, 2, 2, 1, 2, 1, 1, 1, 1, 1, 1, 1, 1, 1, 1,
    2, 2, 2, 2, 4, 2, 2, 2, 2, 2, 2, 2, 2, 2, 2, 2, 2, 2, 2, 2, 1, 1, 1, 1, 1, 1, 1, 1, 1, 1, 1, 1,
    2, 2, 1, 2, 4, 1, 2, 2, 2, 2, 2, 2, 2, 2, 2, 2, 2, 2, 1, 1, 2, 2, 2, 2, 2, 2, 2, 2, 2, 2, 2, 2,
    2, 2, 1, 1, 1, 1, 1, 1, 1, 1, 1, 1, 1, 1, 1, 1, 2, 2, 1, 1, 1, 2, 1, 1, 2, 2, 2, 2, 2, 2, 2, 2,
    2, 2, 2, 2, 1, 1, 1, 1, 1, 1, 1, 1, 1, 1, 1, 1, 2, 2, 2, 2, 1, 1, 1, 1, 1, 1, 1, 1, 1, 1, 1, 1,
};

/* Memory. */

static uint8_t *reg(int number) { return &ram[(sfr[PSW] & 0x18) + number]; }
static uint16_t dptr(void) { return sfr[DPH] << 8 | sfr[DPL]; }
static uint8_t next_byte(void) { return code[pc++]; }
static uint16_t next_word(void) { uint16_t high = next_byte(); return high << 8 | next_byte(); }
static int carry(void) { return sfr[PSW] >> 7; }
static void set_carry(int value) { sfr[PSW] = (sfr[PSW] & 0x7F) | value << 7; }

static uint8_t get(uint8_t address) {
    if (address < 0x80) return ram[address];
    if (address == PSW) return (sfr[PSW] & 0xFE) | __builtin_parity(sfr[ACC]);
    return sfr[address];
}

static void put(uint8_t address, uint8_t value) {
    if (address < 0x80) { ram[address] = value; return; }
    if (address == SBUF) {
        sent = value;
        ninth = sfr[SCON] >> 3 & 1;
        sending_mode = sfr[SCON] >> 6;
        bits_left = (int[]){8, 9, 10, 10}[sending_mode];
        passed = 0;
        return;
    }
    sfr[address] = value;
    if (address == IE || address == IP) is_held = 1;
    if ((address & 0xCF) == P0) printf("%llu P%d %02X\n", (unsigned long long)cycle, address >> 4 & 3, value);
}

static uint8_t byte_of(uint8_t bit) { return bit < 0x80 ? 0x20 + (bit >> 3) : bit & 0xF8; }
static int get_bit(uint8_t bit) { return get(byte_of(bit)) >> (bit & 7) & 1; }
static void put_bit(uint8_t bit, int value) {
    uint8_t rest = get(byte_of(bit)) & ~(1 << (bit & 7));
    put(byte_of(bit), rest | value << (bit & 7));
}

static void push(uint8_t value) { ram[++sfr[SP]] = value; }
static uint8_t pop(void) { return ram[sfr[SP]--]; }
static void call(uint16_t target) { push(pc); push(pc >> 8); pc = target; }
static void come_back(void) { pc = pop() << 8; pc |= pop(); }
static void jump_if(int holds) { int8_t distance = next_byte(); if (holds) pc += distance; }

/* Arithmetic. */

static void add(int value, int more) {
    int a = sfr[ACC], sum = a + value + more, half = (a & 15) + (value & 15) + more;
    int overflow = (~(a ^ value) & (a ^ sum)) >> 7 & 1;
    sfr[PSW] = (sfr[PSW] & 0x3B) | (sum >> 8) << 7 | (half >> 4) << 6 | overflow << 2;
    sfr[ACC] = sum;
}

static void subtract(int value) {
    int a = sfr[ACC], rest = a - value - carry(), half = (a & 15) - (value & 15) - carry();
    int overflow = ((a ^ value) & (a ^ rest)) >> 7 & 1;
    sfr[PSW] = (sfr[PSW] & 0x3B) | (rest < 0) << 7 | (half < 0) << 6 | overflow << 2;
    sfr[ACC] = rest;
}

static void adjust(void) {
    int a = sfr[ACC];
    if ((a & 15) > 9 || sfr[PSW] & 0x40) a += 6;
    if (a > 0xFF) set_carry(1);
    if ((a >> 4 & 15) > 9 || carry()) a = (a & 0xFF) + 0x60;
    if (a > 0xFF) set_carry(1);
    sfr[ACC] = a;
}

static void divide(void) {
    int a = sfr[ACC], b = sfr[B];
    sfr[PSW] = (sfr[PSW] & 0x7B) | (b == 0) << 2;
    if (b) { sfr[ACC] = a / b; sfr[B] = a % b; }
}

static void multiply(void) {
    int product = sfr[ACC] * sfr[B];
    sfr[ACC] = product;
    sfr[B] = product >> 8;
    sfr[PSW] = (sfr[PSW] & 0x7B) | (product > 0xFF) << 2;
}

/* The devices in a machine cycle. */

/* Counts timer 0 or 1; whether it overflows. */
static int count(int timer) {
    uint8_t *low = &sfr[TL0 + timer], *high = &sfr[TH0 + timer];
    int mode = sfr[TMOD] >> 4 * timer & 3;
    if (++*low & (mode ? 0xFF : 0x1F)) return 0;
    if (mode == 2) { *low = *high; return 1; }
    return !++*high;
}

/* Counts timer 2; whether it overflows. */
static int count_2(int is_rate) {
    if (++sfr[TL2] || ++sfr[TH2]) return 0;
    if (!is_rate) sfr[T2CON] |= 0x80;
    if (is_rate || !(sfr[T2CON] & 1)) { sfr[TL2] = sfr[RCAP2L]; sfr[TH2] = sfr[RCAP2H]; }
    return 1;
}

/* Lets a part of a bit time pass; whether the byte has been sent. */
static int send(int by_1, int by_2) {
    int is_doubled = sfr[PCON] >> 7, more = by_1, needed = is_doubled ? 16 : 32;
    if (sending_mode == 0) { more = needed = 1; }
    else if (sending_mode == 2) { more = 12; needed = is_doubled ? 32 : 64; }
    else if (sfr[T2CON] & 0x10) { more = by_2; needed = 16; }
    passed += more;
    if (passed < needed) return 0;
    passed -= needed;
    return !--bits_left;
}

static void tick(void) {
    int by_1 = 0, by_2 = 0;
    if (sfr[TCON] & 0x10 && count(0)) sfr[TCON] |= 0x20;
    if (sfr[TCON] & 0x40 && count(1)) { sfr[TCON] |= 0x80; by_1 = 1; }
    if (sfr[T2CON] & 4) {
        int is_rate = (sfr[T2CON] & 0x30) != 0;
        for (int times = is_rate ? 6 : 1; times--;) by_2 += count_2(is_rate);
    }
    cycle++;
    if (bits_left && send(by_1, by_2)) {
        sfr[SCON] |= 2;
        printf("%llu TX %02X", (unsigned long long)cycle, sent);
        printf(sending_mode > 1 ? " %d\n" : "\n", ninth);
    }
}

static void pass(int cycles) { while (cycles--) tick(); }

/* Whether an interrupt is taken, which then is called. */
static int is_interrupted(void) {
    int enabled = sfr[IE], tcon = sfr[TCON];
    if (!(enabled & 0x80) || high_runs) return 0;
    int asking = (tcon >> 1 & 1) | (tcon >> 4 & 2) | (tcon >> 1 & 4) | (tcon >> 4 & 8)
        | ((sfr[SCON] & 3) != 0) << 4 | ((sfr[T2CON] & 0xC0) != 0) << 5;
    asking &= enabled;
    int high = asking & sfr[IP], chosen = high ? high : low_runs ? 0 : asking;
    if (!chosen) return 0;
    int source = __builtin_ctz(chosen);
    if (high) high_runs = 1; else low_runs = 1;
    if (source == 1) sfr[TCON] &= ~0x20;
    if (source == 3) sfr[TCON] &= ~0x80;
    sfr[PCON] &= ~1;
    call(3 + 8 * source);
    return 1;
}

/* Instructions. */

/* @Ri or Rn, which the low four bits of an opcode name from 6 on. */
static uint8_t *cell_of(int opcode) { return opcode & 8 ? reg(opcode & 7) : &ram[*reg(opcode & 1)]; }
static uint16_t paged(int opcode, uint8_t low) { return (pc & 0xF800) | (opcode & 0xE0) << 3 | low; }
static uint8_t *paged_xram(int opcode) { return &xram[sfr[P2] << 8 | *reg(opcode & 1)]; }
static void compare(uint8_t one, uint8_t other) { set_carry(one < other); jump_if(one != other); }
static void swap(uint8_t *cell, int bits) {
    int changed = (*cell ^ sfr[ACC]) & bits;
    *cell ^= changed;
    sfr[ACC] ^= changed;
}

#define CELLS(row) case row + 6 ... row + 15
#define OPERANDS(row, deed) \
    case row + 4: value = next_byte(); deed; break; \
    case row + 5: value = get(next_byte()); deed; break; \
    CELLS(row): value = *cell_of(opcode); deed; break
#define CHANGE(new_value) address = next_byte(); put(address, new_value); break

/* Performs the instruction at PC, and gives its cycles: 0 for the reserved opcode. */
static int perform(void) {
    int opcode = next_byte();
    uint8_t address, value;
    switch (opcode) {
    case 0x00: break;
    case 0x01: case 0x21: case 0x41: case 0x61: case 0x81: case 0xA1: case 0xC1: case 0xE1:
        value = next_byte(); pc = paged(opcode, value); break;
    case 0x11: case 0x31: case 0x51: case 0x71: case 0x91: case 0xB1: case 0xD1: case 0xF1:
        value = next_byte(); call(paged(opcode, value)); break;
    case 0x02: pc = next_word(); break;
    case 0x12: call(next_word()); break;
    case 0x22: come_back(); break;
    case 0x32: come_back(); if (high_runs) high_runs = 0; else low_runs = 0; is_held = 1; break;
    case 0x73: pc = dptr() + sfr[ACC]; break;
    case 0x10: address = next_byte(); value = get_bit(address); if (value) put_bit(address, 0); jump_if(value); break;
    case 0x20: value = get_bit(next_byte()); jump_if(value); break;
    case 0x30: value = get_bit(next_byte()); jump_if(!value); break;
    case 0x40: jump_if(carry()); break;
    case 0x50: jump_if(!carry()); break;
    case 0x60: jump_if(!sfr[ACC]); break;
    case 0x70: jump_if(sfr[ACC]); break;
    case 0x80: jump_if(1); break;
    case 0xB4: compare(sfr[ACC], next_byte()); break;
    case 0xB5: compare(sfr[ACC], get(next_byte())); break;
    CELLS(0xB0): compare(*cell_of(opcode), next_byte()); break;
    case 0xD5: address = next_byte(); value = get(address) - 1; put(address, value); jump_if(value); break;
    case 0xD8 ... 0xDF: value = --*cell_of(opcode); jump_if(value); break;

    case 0x72: value = get_bit(next_byte()); set_carry(carry() | value); break;
    case 0x82: value = get_bit(next_byte()); set_carry(carry() & value); break;
    case 0xA0: value = get_bit(next_byte()); set_carry(carry() | !value); break;
    case 0xB0: value = get_bit(next_byte()); set_carry(carry() & !value); break;
    case 0xA2: set_carry(get_bit(next_byte())); break;
    case 0x92: put_bit(next_byte(), carry()); break;
    case 0xB2: address = next_byte(); put_bit(address, !get_bit(address)); break;
    case 0xC2: put_bit(next_byte(), 0); break;
    case 0xD2: put_bit(next_byte(), 1); break;
    case 0xB3: set_carry(!carry()); break;
    case 0xC3: set_carry(0); break;
    case 0xD3: set_carry(1); break;

    case 0x03: sfr[ACC] = sfr[ACC] >> 1 | sfr[ACC] << 7; break;
    case 0x13: value = sfr[ACC]; sfr[ACC] = value >> 1 | carry() << 7; set_carry(value & 1); break;
    case 0x23: sfr[ACC] = sfr[ACC] << 1 | sfr[ACC] >> 7; break;
    case 0x33: value = sfr[ACC]; sfr[ACC] = value << 1 | carry(); set_carry(value >> 7); break;
    case 0x84: divide(); break;
    case 0xA4: multiply(); break;
    case 0xC4: sfr[ACC] = sfr[ACC] << 4 | sfr[ACC] >> 4; break;
    case 0xD4: adjust(); break;
    case 0xE4: sfr[ACC] = 0; break;
    case 0xF4: sfr[ACC] = ~sfr[ACC]; break;
    OPERANDS(0x20, add(value, 0));
    OPERANDS(0x30, add(value, carry()));
    OPERANDS(0x40, sfr[ACC] |= value);
    OPERANDS(0x50, sfr[ACC] &= value);
    OPERANDS(0x60, sfr[ACC] ^= value);
    OPERANDS(0x90, subtract(value));
    case 0x42: CHANGE(get(address) | sfr[ACC]);
    case 0x43: CHANGE(get(address) | next_byte());
    case 0x52: CHANGE(get(address) & sfr[ACC]);
    case 0x53: CHANGE(get(address) & next_byte());
    case 0x62: CHANGE(get(address) ^ sfr[ACC]);
    case 0x63: CHANGE(get(address) ^ next_byte());
    case 0x04: sfr[ACC]++; break;
    case 0x05: CHANGE(get(address) + 1);
    CELLS(0x00): ++*cell_of(opcode); break;
    case 0x14: sfr[ACC]--; break;
    case 0x15: CHANGE(get(address) - 1);
    CELLS(0x10): --*cell_of(opcode); break;
    case 0xA3: value = !++sfr[DPL]; sfr[DPH] += value; break;

    case 0x74: sfr[ACC] = next_byte(); break;
    case 0x75: CHANGE(next_byte());
    CELLS(0x70): *cell_of(opcode) = next_byte(); break;
    case 0x85: value = get(next_byte()); put(next_byte(), value); break;
    CELLS(0x80): put(next_byte(), *cell_of(opcode)); break;
    CELLS(0xA0): *cell_of(opcode) = get(next_byte()); break;
    case 0xE5: sfr[ACC] = get(next_byte()); break;
    CELLS(0xE0): sfr[ACC] = *cell_of(opcode); break;
    case 0xF5: put(next_byte(), sfr[ACC]); break;
    CELLS(0xF0): *cell_of(opcode) = sfr[ACC]; break;
    case 0x90: sfr[DPH] = next_byte(); sfr[DPL] = next_byte(); break;
    case 0x83: sfr[ACC] = code[(uint16_t)(pc + sfr[ACC])]; break;
    case 0x93: sfr[ACC] = code[(uint16_t)(dptr() + sfr[ACC])]; break;
    case 0xE0: sfr[ACC] = xram[dptr()]; break;
    case 0xF0: xram[dptr()] = sfr[ACC]; break;
    case 0xE2: case 0xE3: sfr[ACC] = *paged_xram(opcode); break;
    case 0xF2: case 0xF3: *paged_xram(opcode) = sfr[ACC]; break;
    case 0xC0: address = next_byte(); sfr[SP]++; ram[sfr[SP]] = get(address); break;
    case 0xD0: value = pop(); put(next_byte(), value); break;
    case 0xC5: address = next_byte(); value = sfr[ACC]; sfr[ACC] = get(address); put(address, value); break;
    CELLS(0xC0): swap(cell_of(opcode), 0xFF); break;
    case 0xD6: case 0xD7: swap(cell_of(opcode), 0x0F); break;
    case 0xA5: return 0;
    }
    return CYCLES[opcode];
}

/* A run. */

static void read_hex(const char *name) {
    FILE *file = fopen(name, "r");
    char line[1024];
    if (!file) { perror(name); exit(2); }
    memset(code, 0xFF, sizeof code);
    while (fgets(line, sizeof line, file)) {
        unsigned count = 0, address = 0, kind = 0, byte;
        sscanf(line, ":%2x%4x%2x", &count, &address, &kind);
        for (unsigned k = 0; kind == 0 && k < count && sscanf(line + 9 + 2 * k, "%2x", &byte) == 1; k++)
            code[(uint16_t)(address + k)] = byte;
    }
    fclose(file);
}

int main(int count, char **words) {
    if (count != 3) { fputs("usage: speed FILE.hex STEPS\n", stderr); return 2; }
    read_hex(words[1]);
    long steps = atol(words[2]);
    sfr[SP] = 7;
    sfr[P0] = sfr[P1] = sfr[P2] = sfr[P3] = 0xFF;
    puts("RUN");
    for (long step = 0; step < steps; step++) {
        if (!is_held && is_interrupted()) { pass(2); continue; }
        is_held = 0;
        if (sfr[PCON] & 1) { pass(1); continue; }
        int cycles = perform();
        if (!cycles) { fputs("speed: the reserved opcode\n", stderr); return 1; }
        pass(cycles);
    }
    printf("END %ld STEPS %llu CYCLES\n", steps, (unsigned long long)cycle);
    return 0;
}
