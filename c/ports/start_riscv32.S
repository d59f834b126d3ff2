# The start of a program for 32-bit RISC-V under qemu-riscv32, which runs it as Linux would: picolibc's own start is for a
# board. Words and standard input come from Linux, all else by semihosting.
	.globl _start
_start:
	.option push
	.option norelax
	la gp, __global_pointer$
	.option pop
	la tp, __tls_base
	# (the page that .data ends in is the file's)
	la a0, __bss_start
	li a1, 0
	la a2, __bss_size
	call memset
	lw a0, 0(sp)
	addi a1, sp, 4
	andi sp, sp, -16
	call main
	call exit

	.globl read
read:
	li a7, 63
	ecall
	ret
