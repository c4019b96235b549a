/* What the public tests of RISC-V (riscv-tests, isa/rv32ui) want of where they run, here of a task: one that passes emits
   a byte and ends, one that fails is ended by trap 8 with the number of its case in gp. */
#ifndef RISCV_TEST_H
#define RISCV_TEST_H
#define TESTNUM gp
#define RVTEST_RV32U
#define RVTEST_RV64U
#define RVTEST_CODE_BEGIN .text; .globl start; start:
#define RVTEST_CODE_END
#define RVTEST_PASS li a0, 80; li a7, 5; ecall; li a7, 0; ecall
#define RVTEST_FAIL ebreak
#define RVTEST_DATA_BEGIN .balign 4
#define RVTEST_DATA_END
#endif
