/* Jumps, requests, exceptions, RETI, HALT, system registers. */
#include "test.h"

static void jumps(void)
{
    fresh();
    code(0x100, H(0, 0x03, 31), 0); /* JMP [r31] */
    set_r(31, 0xAB000321);
    expect("JMP", run(1), SECOND_DONE);
    expect("JMP clears bit 0, 24 bits", word(B_PC), 0x000320);
    fresh();
    code(0x100, H(31, 0x3C, 0), 0x0020); /* JARL +32, r31 */
    expect("JARL", run(1), SECOND_DONE);
    expect("JARL target", word(B_PC), 0x120);
    expect("JARL link", r(31), 0x104);
    fresh();
    code(0x100, H(0, 0x3D, 31), 0xFFF0); /* JR -16 */
    expect("JR", run(1), SECOND_DONE);
    expect("JR target", word(B_PC), 0xF0);
    expect("JR to r0", r(0), 0);
    fresh();
    code(0x100, HB(0, 0, 5), 0); /* BR 0: 000 p. 53, branches to itself */
    expect("BR 0", run(7), SECOND_DONE);
    expect("BR 0", word(B_PC), 0x100);
    expect("BR 0", steps(), 7);
}

/* A carry out of bit 23 is dropped, in PC, link and targets. */
static void wrap(void)
{
    fresh();
    set_region(1, 0xFFFFF0, 0x10, 0x100, 7);
    set_region(0, 0, 0x100, 0, 7);
    code(0x10C, H(5, 0x3C, 0), 0x0010); /* at FFFFFCH: JARL +16, r5 */
    set_word(B_PC, 0xFFFFFC);
    expect("JARL at the end", run(1), SECOND_DONE);
    expect("JARL at the end", word(B_PC), 0x00000C);
    expect("JARL's link drops the carry", r(5), 0);
    set_word(B_PC, 0xFFFFFE);
    code(0x10E, H(2, 0x10, 5), 0); /* at FFFFFEH: MOV 5, r2 */
    expect("MOV at the end", run(1), SECOND_DONE);
    expect("next PC is 0", word(B_PC), 0);
    code(0x10E, H(2, 0x31, 0), 0); /* at FFFFFEH: MOVEA, its half at 0 */
    code(0, 0x1234, 0);
    set_word(B_PC, 0xFFFFFE);
    expect("MOVEA over the end", run(1), SECOND_DONE);
    expect("MOVEA over the end", r(2), 0x1234);
    expect("MOVEA over the end", word(B_PC), 2);
    code(0x10E, HB(0, 1, 5), 0); /* at FFFFFEH: BR +2 */
    set_word(B_PC, 0xFFFFFE);
    expect("BR over the end", run(1), SECOND_DONE);
    expect("BR over the end", word(B_PC), 0);
}

/* The proved number of TRAP, and both sides of n = 16. */
static void traps(void)
{
    for (uint32_t n = 0; n < 32; n++) {
        fresh();
        code(0x100, H(0, 0x3F, n), 0x0100);
        set_word(B_ECR, 0xABCD1234);
        set_word(B_PSW, 0x8F);
        t.block[B_PSW_MARKS] = 0x15;
        t.block[B_PC_MARKS] = 3;
        expect("TRAP", run(1), SECOND_DONE);
        expect("TRAP EIPC", word(B_EIPC), 0x104);
        expect("TRAP EIPSW", word(B_EIPSW), 0x8F);
        expect("TRAP EICC", word(B_ECR), 0xABCD0040 + n);
        expect("TRAP PSW", word(B_PSW), 0xEF);
        expect("TRAP PC", word(B_PC), n < 16 ? 0x40 : 0x50);
        expect("TRAP marks", t.block[B_EIPSW_MARKS], 0x15);
        expect("TRAP marks", t.block[B_PSW_MARKS], 0x15);
        expect("TRAP unmarks EIPC", t.block[B_PC_MARKS], 2);
    }
}

/* NP is kept: 01 lists EP and ID only. */
static void illegal(void)
{
    fresh();
    code(0x100, 0x07E0, 0x0180);
    set_word(B_ECR, 0xABCD1234);
    set_word(B_PSW, 0x11);
    t.block[B_PSW_MARKS] = 0x10;
    t.block[B_EIPSW_MARKS] = 0xFF;
    expect("illegal code", run(1), SECOND_DONE);
    expect("illegal code", steps(), 1);
    expect("illegal code EIPC", word(B_EIPC), 0x104);
    expect("illegal code EIPSW", word(B_EIPSW), 0x11);
    expect("illegal code EICC", word(B_ECR), 0xABCD0060);
    expect("illegal code PSW", word(B_PSW), 0x71);
    expect("illegal code PC", word(B_PC), 0x60);
    expect("illegal code marks", t.block[B_EIPSW_MARKS], 0x10);
}

/* An NMI before a maskable code, which then stays pending; HALT ends. */
static void requests(void)
{
    fresh();
    set_word(B_PSW, 0x5F);
    set_word(B_ECR, 0x12345678);
    set_word(B_CODE, 0x80);
    t.block[B_NMI] = t.block[B_HALTED] = 1;
    t.block[B_PSW_MARKS] = 0x0A;
    t.block[B_PC_MARKS] = 3;
    expect("NMI", run(1), SECOND_DONE);
    expect("NMI is a step", steps(), 1);
    expect("NMI FEPC", word(B_FEPC), 0x100);
    expect("NMI FEPSW", word(B_FEPSW), 0x5F);
    expect("NMI FECC", word(B_ECR), 0x00105678);
    expect("NMI PSW", word(B_PSW), 0xBF);
    expect("NMI PC", word(B_PC), 0x10);
    expect("NMI cleared", t.block[B_NMI], 0);
    expect("NMI ends HALT", t.block[B_HALTED], 0);
    expect("code stays pending", word(B_CODE), 0x80);
    expect("NMI marks", t.block[B_FEPSW_MARKS], 0x0A);
    expect("NMI marks", t.block[B_PSW_MARKS], 0x0A);
    expect("NMI unmarks FEPC", t.block[B_PC_MARKS], 1);
    fresh();
    set_word(B_PSW, 0x5F);
    set_word(B_ECR, 0x12345678);
    set_word(B_CODE, 0xFF0);
    t.block[B_HALTED] = 1;
    t.block[B_PSW_MARKS] = 0x0A;
    t.block[B_PC_MARKS] = 3;
    expect("maskable", run(1), SECOND_DONE);
    expect("maskable EIPC", word(B_EIPC), 0x100);
    expect("maskable EIPSW", word(B_EIPSW), 0x5F);
    expect("maskable EICC", word(B_ECR), 0x12340FF0);
    expect("maskable PSW", word(B_PSW), 0x3F);
    expect("maskable PC", word(B_PC), 0xFF0);
    expect("maskable cleared", word(B_CODE), 0);
    expect("maskable ends HALT", t.block[B_HALTED], 0);
    expect("maskable marks", t.block[B_EIPSW_MARKS], 0x0A);
    expect("maskable unmarks EIPC", t.block[B_PC_MARKS], 2);
}

/* NMI only with NP = 0, a code only with NP = 0 and ID = 0. */
static void held_off(void)
{
    for (uint32_t psw = 0; psw < 0x100; psw += 0x20) {
        fresh();
        t.block[B_HALTED] = t.block[B_NMI] = 1;
        set_word(B_PSW, psw);
        if (psw & 0x80) expect_refused("NMI held off", SECOND_ASLEEP, 0);
        else expect("NMI accepted", run(1), SECOND_DONE);
        fresh();
        t.block[B_HALTED] = 1;
        set_word(B_CODE, 0x120);
        set_word(B_PSW, psw);
        if (psw & 0xA0) expect_refused("code held off", SECOND_ASLEEP, 0);
        else expect("code accepted", run(1), SECOND_DONE);
    }
}

static void reti(void)
{
    for (uint32_t psw = 0; psw < 0x100; psw += 0x20) {
        const bool fe = (psw & 0xC0) == 0x80;
        fresh();
        code(0x100, 0x07E0, 0x0140);
        set_word(B_PSW, psw);
        set_word(B_EIPC, 0x000203);
        set_word(B_EIPSW, 0x2A);
        set_word(B_FEPC, 0xFFFFFF);
        set_word(B_FEPSW, 0x95);
        t.block[B_PSW_MARKS] = 0x1F;
        t.block[B_EIPSW_MARKS] = 0x01;
        t.block[B_FEPSW_MARKS] = 0x10;
        expect("RETI", run(1), SECOND_DONE);
        expect("RETI PC", word(B_PC), fe ? 0xFFFFFE : 0x000202);
        expect("RETI PSW", word(B_PSW), fe ? 0x95 : 0x2A);
        expect("RETI marks", t.block[B_PSW_MARKS], fe ? 0x10 : 0x01);
        expect("RETI leaves EIPC", word(B_EIPC), 0x000203);
        expect("RETI leaves FEPC", word(B_FEPC), 0xFFFFFF);
        expect("RETI leaves marks", t.block[B_EIPSW_MARKS], 0x01);
    }
}

static void halt_di_ei(void)
{
    fresh();
    code(0x100, 0x07E0, 0x0120);
    expect("HALT", run(1), SECOND_DONE);
    expect("HALT moves PC on", word(B_PC), 0x104);
    expect("HALT", t.block[B_HALTED], 1);
    expect_refused("asleep", SECOND_ASLEEP, 0);
    fresh();
    code(0x100, 0x07E0, 0x0160);
    code(0x104, 0x87E0, 0x0160);
    set_word(B_PSW, 0xDF);
    expect("DI", run(1), SECOND_DONE);
    expect("DI", word(B_PSW), 0xFF);
    expect("EI", run(1), SECOND_DONE);
    expect("EI", word(B_PSW), 0xDF);
    fresh();
    code(0x100, 0x87E0, 0x0160); /* what EI allows is accepted by the next step */
    set_word(B_PSW, 0x20);
    set_word(B_CODE, 0x80);
    expect("EI, code pending", run(2), SECOND_DONE);
    expect("EI, code pending", word(B_PC), 0x80);
    expect("EI, code pending", word(B_EIPC), 0x104);
}

/* EIPC and FEPC keep 24 bits, bit 0 too; EIPSW, FEPSW and PSW 8 bits. */
static void system_registers(void)
{
    static const uint32_t kept[6] = {0x654321, 0x21, 0x654321, 0x21, 0, 0x21};
    for (uint32_t n = 0; n < 6; n++) {
        if (n == 4) continue;
        fresh();
        code(0x100, H(n, 0x3F, 1), 0x0020); /* LDSR r1, n */
        code(0x104, H(2, 0x3F, n), 0x0040); /* STSR n, r2 */
        set_r(1, 0x87654321);
        expect("LDSR, STSR", run(2), SECOND_DONE);
        expect("LDSR, STSR", r(2), kept[n]);
        expect("LDSR", word(n == 5 ? B_PSW : B_EIPC + 4 * n), kept[n]);
    }
    fresh();
    code(0x100, H(2, 0x3F, 4), 0x0040);
    set_word(B_ECR, 0x87654321);
    expect("STSR of ECR", run(1), SECOND_DONE);
    expect("STSR of ECR", r(2), 0x87654321);
}

void test_control(void)
{
    jumps();
    wrap();
    traps();
    illegal();
    requests();
    held_off();
    reti();
    halt_di_ei();
    system_registers();
}
