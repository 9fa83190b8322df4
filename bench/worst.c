/* The dearest attempts of a compiled image: for each task the most cycles, from a power-up to the end of its commit, that a search over readings finds.
   usage: worst WORDS GATE VER CUR TASKS SECONDS [VALUE ..]
   WORDS: the 65,536 bytes of the address space; GATE, VER, CUR: addresses in hexadecimal; VALUE: readings that are tried often (numbers of the source).
   Each attempt begins with a power-up and with VER at 65535, so that it clears the version words. For each task a line: its number, the cycles, and how
   many attempts of it ended. A plain emulator of the instructions that the compiler writes: words alone, no interrupts. */
#include <stdint.h>
#include <stdio.h>
#include <stdlib.h>
#include <string.h>
#include <time.h>

typedef uint16_t word;
enum { C = 1, Z = 2, N = 4, V = 256, TRIES = 24, READINGS = 512 };
static uint8_t m[65536 + 2], fresh[65536 + 2], before[65536 + 2], best_after[65536 + 2];
static word r[16], outnum;
static word readings[READINGS], values[256];
static int taken, value_count, mode;
static uint64_t seed = 88172645463325252ull;

static uint64_t draw(void) { seed ^= seed << 13; seed ^= seed >> 7; seed ^= seed << 17; return seed; }
static word at(word a) { return m[a] | m[(word)(a + 1)] << 8; }
static void set_at(word a, word v) { m[a] = v; m[(word)(a + 1)] = v >> 8; }
static void stop(const char *why, word pc) { fprintf(stderr, "%s at %04x\n", why, pc); exit(1); }

static word reading(void) {
    static const word often[] = {0, 1, 2, 3, 4, 7, 8, 15, 16, 255, 256, 32767, 32768, 65534, 65535};
    int kind = mode < 6 ? mode : (int)(draw() % 6);
    switch (kind) {
    case 0: return draw();
    case 1: return draw() % 16;
    case 2: return draw() % 1024;
    case 3: return often[draw() % 15];
    default: return value_count ? values[draw() % value_count] + draw() % 3 - 1 : draw() % 100;
    }
}

static word load(word a) {
    if (a == 0x200) {
        if (taken == READINGS) stop("too many readings", r[0]);
        readings[taken] = reading();
        return readings[taken++];
    }
    if (a < 0x1C00 || (a >= 0x2400 && a < 0x4400)) { if (a == 0x206) return 0; stop("read", a); }
    return at(a);
}
static void store(word a, word v) {
    if (a == 0x202) outnum = v;
    else if (a == 0x204) return;
    else if (a < 0x1C00 || (a >= 0x2400 && a < 0x4400)) stop("write", a);
    else set_at(a, v);
}
static void put(int n, word v) { if (n == 3) return; r[n] = n < 2 ? v & ~1 : n == 2 ? v & 0x1FF : v; }
static void flags(word v, int c, int o) { r[2] = (r[2] & ~(C | Z | N | V)) | (c ? C : 0) | (v ? 0 : Z) | (v & 0x8000 ? N : 0) | (o ? V : 0); }
static word sum(word d, word s, int c) { uint32_t w = (uint32_t)d + s + c; word v = w; flags(v, w > 0xFFFF, (d ^ v) & (s ^ v) & 0x8000); return v; }
static word next_word(void) { word w = at(r[0]); r[0] += 2; return w; }

/* an operand: its value; its address, or -1 where it has none; and the column of the table of cycles */
static word source(int how, int n, int *place, int *column) {
    *place = -1;
    *column = 0;
    if (how == 0) return n == 3 ? 0 : r[n];
    if (n == 3) return how == 1 ? 1 : how == 2 ? 2 : 0xFFFF;
    if (n == 2 && how > 1) return how == 2 ? 4 : 8;
    if (how == 3 && n == 0) { *column = 3; return next_word(); }
    if (how == 1) { *column = 4; word base = n == 2 ? 0 : r[n]; *place = (word)(base + next_word()); return load(*place); }
    *column = how == 2 ? 1 : 2;
    *place = r[n];
    if (how == 3) r[n] += 2;
    return load(*place);
}

/* where the image takes events, words wait in its ring */
static void fill_ring(void) {
    word tail = at(0xFF18);
    int some = draw() % 64;
    set_at(0xFF6E, tail + some);
    for (int i = 0; i < some; i++) set_at(0xFF70 + 2 * ((word)(tail + i) % 64), reading());
}

/* one instruction; its cycles */
static int step(void) {
    static const int to_memory[] = {4, 5, 5, 5, 6}, to_pc[] = {2, 2, 3, 3, 3}, to_register[] = {1, 2, 2, 2, 3}, in_place[] = {1, 3, 3, 0, 4};
    static const int pushes[] = {3, 4, 5, 4, 5}, calls[] = {4, 4, 5, 5, 5};
    word pc = r[0], w = next_word(), d, v;
    int place, column;
    if (w >> 13 == 1) {
        word sr = r[2];
        int n = !!(sr & N), o = !!(sr & V), c = w >> 10 & 7;
        int yes = c == 0 ? !(sr & Z) : c == 1 ? !!(sr & Z) : c == 2 ? !(sr & C) : c == 3 ? !!(sr & C) : c == 4 ? n : c == 5 ? n == o : c == 6 ? n != o : 1;
        if (yes) r[0] += (int16_t)(w << 6) >> 5;
        return 2;
    }
    if (w < 0x1000 || (w & 0x40)) stop("no instruction of the compiler's", pc);
    if (w < 0x2000) {
        int op = w >> 7 & 7, n = w & 15;
        if (w >= 0x1300 || op > 5) stop("no instruction of the compiler's", pc);
        word s = source(w >> 4 & 3, n, &place, &column);
        if (op == 4) { r[1] -= 2; set_at(r[1], s); return pushes[column]; }
        if (op == 5) { r[1] -= 2; set_at(r[1], r[0]); put(0, s); return calls[column]; }
        if (op == 0) { v = s >> 1 | (r[2] & C ? 0x8000 : 0); flags(v, s & 1, 0); }
        else if (op == 2) { v = s >> 1 | (s & 0x8000); flags(v, s & 1, 0); }
        else if (op == 1) v = s << 8 | s >> 8;
        else { v = (int16_t)(int8_t)s; flags(v, v != 0, 0); }
        if (place < 0) put(n, v); else store(place, v);
        return in_place[column];
    }
    int op = w >> 12, n = w & 15, memory = w & 0x80;
    word s = source(w >> 4 & 3, w >> 8 & 15, &place, &column), a = 0;
    if (memory) { word base = n == 2 ? 0 : r[n]; a = base + next_word(); }
    d = op == 4 ? 0 : memory ? load(a) : n == 3 ? 0 : r[n];
    switch (op) {
    case 4: v = s; break;
    case 5: v = sum(d, s, 0); break;
    case 6: v = sum(d, s, r[2] & C); break;
    case 7: v = sum(d, ~s, r[2] & C); break;
    case 8: case 9: v = sum(d, ~s, 1); break;
    case 11: case 15: v = d & s; flags(v, v != 0, 0); break;
    case 12: v = d & ~s; break;
    case 13: v = d | s; break;
    case 14: v = d ^ s; flags(v, v != 0, d & s & 0x8000); break;
    default: stop("no instruction of the compiler's", pc); return 0;
    }
    if (op != 9 && op != 11) { if (memory) store(a, v); else put(n, v); }
    return memory ? to_memory[column] : n == 0 ? to_pc[column] : to_register[column];
}

int main(int count, char **words) {
    if (count < 7) return fprintf(stderr, "usage: worst WORDS GATE VER CUR TASKS SECONDS [VALUE ..]\n"), 2;
    FILE *f = fopen(words[1], "rb");
    if (!f || fread(fresh, 1, 65536, f) != 65536) return fprintf(stderr, "cannot read %s\n", words[1]), 3;
    word gate = strtol(words[2], 0, 16), version = strtol(words[3], 0, 16), current = strtol(words[4], 0, 16);
    int tasks = atoi(words[5]);
    double seconds = atof(words[6]);
    for (int i = 7; i < count && value_count < 256; i++) values[value_count++] = atol(words[i]);
    static long most[64], ended[64];
    clock_t end = clock() + (clock_t)(seconds * CLOCKS_PER_SEC);
    for (long round = 0; clock() < end; round++) {
        memcpy(m, fresh, sizeof m);
        mode = round % 8;
        for (int transition = 0; transition < 60 && clock() < end; transition++) {
            int task = at(current) & 63, greedy = draw() % 3, tries = greedy ? TRIES : 1;
            long best = -1;
            memcpy(before, m, sizeof m);
            for (int k = 0; k < tries; k++) {
                memcpy(m, before, sizeof m);
                memset(m + 0x1C00, 0, 0x800);
                memset(r, 0, sizeof r);
                r[0] = at(0xFFFE) & ~1;
                set_at(version, 65535);
                if (at(0xFF20)) fill_ring();
                taken = 0;
                long cycles = 0;
                int decided = 0;
                while (1) {
                    cycles += step();
                    int now = at(gate);
                    if (decided && !now) break;
                    decided = now;
                    if (cycles > 20000000) stop("no end", r[0]);
                }
                ended[task]++;
                if (cycles > most[task]) most[task] = cycles;
                if (cycles > best || (cycles == best && draw() % 2)) { best = cycles; memcpy(best_after, m, sizeof m); }
                if (!taken) break;
            }
            memcpy(m, best_after, sizeof m);
        }
    }
    for (int i = 0; i < tasks; i++) printf("%d %ld %ld\n", i, most[i], ended[i]);
    return 0;
}
