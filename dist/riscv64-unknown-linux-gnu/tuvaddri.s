/* tuvaddri.s for riscv64-unknown-linux-gnu: assembly of the proved crate tuvaddri_c, by dev/dist. README.md has more. */
	.file	"rattle"
	.section	".text.end_objects::refusals::server_refusal","ax",@progbits
	.p2align	1
	.type	end_objects.refusals.server_refusal,@function
end_objects.refusals.server_refusal:
	addi	sp, sp, -32
	sd	ra, 24(sp)
	sd	s0, 16(sp)
	sd	s1, 8(sp)
	mv	s0, a0
.Lpcrel_hi0:
	auipc	a0, %pcrel_hi(.Lstatic.0)
	addi	a0, a0, %pcrel_lo(.Lpcrel_hi0)
	li	a1, 0
	mv	a2, s0
	call	end_objects.refusals.has_keys
	beqz	a0, .LBBfd0af_3
	lbu	a0, 32(s0)
	lbu	a1, 33(s0)
	lbu	a2, 34(s0)
	lbu	a3, 35(s0)
	lbu	a6, 36(s0)
	lbu	a5, 37(s0)
	lbu	s1, 38(s0)
	lbu	a4, 39(s0)
	slli	a1, a1, 8
	slli	a2, a2, 16
	slli	a3, a3, 24
	or	a7, a1, a0
	or	t0, a3, a2
	lbu	a1, 64(s0)
	lbu	a3, 65(s0)
	lbu	a0, 66(s0)
	lbu	a2, 67(s0)
	slli	a5, a5, 8
	slli	s1, s1, 16
	slli	a4, a4, 24
	slli	a3, a3, 8
	slli	a0, a0, 16
	slli	a2, a2, 24
	or	a6, a5, a6
	or	a4, a4, s1
	or	a1, a1, a3
	or	a0, a0, a2
	lbu	a2, 69(s0)
	lbu	a3, 68(s0)
	lbu	s1, 70(s0)
	lbu	a5, 71(s0)
	slli	a2, a2, 8
	or	a2, a2, a3
	slli	s1, s1, 16
	slli	a5, a5, 24
	or	a5, a5, s1
	or	a3, t0, a7
	or	a4, a4, a6
	or	a0, a0, a1
	or	a2, a2, a5
	slli	a4, a4, 32
	slli	a2, a2, 32
	or	a2, a2, a0
	or	a0, a4, a3
	beqz	a2, .LBBfd0af_4
	li	a1, 0
	j	.LBBfd0af_5
.LBBfd0af_3:
	li	s1, 1
	j	.LBBfd0af_6
.LBBfd0af_4:
	lbu	a1, 53(s0)
	lbu	a2, 54(s0)
	lbu	a3, 55(s0)
	lbu	a4, 52(s0)
	slli	a1, a1, 8
	slli	a2, a2, 16
	slli	a3, a3, 24
	or	a1, a1, a4
	or	a2, a2, a3
	lbu	a3, 49(s0)
	lbu	a4, 48(s0)
	lbu	a5, 50(s0)
	lbu	s1, 51(s0)
	slli	a3, a3, 8
	or	a3, a3, a4
	slli	a5, a5, 16
	slli	s1, s1, 24
	or	a5, a5, s1
	or	a1, a1, a2
	or	a3, a3, a5
	or	a1, a1, a3
	seqz	a1, a1
.LBBfd0af_5:
	seqz	s1, a0
	xor	s1, s1, a1
.LBBfd0af_6:
	mv	a0, s0
	call	end_objects.refusals.has_bad_methods
	mv	a1, a0
	mv	a0, s0
	mv	a2, s1
	ld	ra, 24(sp)
	ld	s0, 16(sp)
	ld	s1, 8(sp)
	addi	sp, sp, 32
	tail	end_objects.refusals.end_refusal
.Lfunc_endfd0af:
	.size	end_objects.refusals.server_refusal, .Lfunc_endfd0af-end_objects.refusals.server_refusal

	.section	".text.end_objects::refusals::has_keys","ax",@progbits
	.p2align	1
	.type	end_objects.refusals.has_keys,@function
end_objects.refusals.has_keys:
	addi	sp, sp, -16
	lbu	a6, 64(a2)
	lbu	a4, 65(a2)
	lbu	a5, 66(a2)
	lbu	a3, 67(a2)
	lbu	a7, 68(a2)
	lbu	t0, 69(a2)
	lbu	t1, 70(a2)
	lbu	t2, 71(a2)
	slli	a4, a4, 8
	slli	a5, a5, 16
	slli	a3, a3, 24
	or	a6, a4, a6
	or	t3, a3, a5
	lbu	t4, 48(a2)
	lbu	a4, 49(a2)
	lbu	a3, 50(a2)
	lbu	a5, 51(a2)
	slli	t0, t0, 8
	slli	t1, t1, 16
	slli	t2, t2, 24
	slli	a4, a4, 8
	slli	a3, a3, 16
	slli	a5, a5, 24
	or	a7, t0, a7
	or	t0, t2, t1
	or	t1, a4, t4
	or	t2, a5, a3
	lbu	a5, 53(a2)
	lbu	t4, 52(a2)
	lbu	a3, 54(a2)
	lbu	a4, 55(a2)
	slli	a5, a5, 8
	or	t4, a5, t4
	slli	a3, a3, 16
	slli	a4, a4, 24
	or	a3, a3, a4
	or	a4, t3, a6
	or	a5, t0, a7
	or	a6, t2, t1
	sd	zero, 0(sp)
	sd	zero, 8(sp)
	or	a3, a3, t4
	slli	a5, a5, 32
	or	a4, a4, a5
	slli	a3, a3, 32
	or	a3, a3, a6
	beqz	a4, .LBB06767_3
	snez	a6, a3
	beqz	a3, .LBB06767_5
	lui	a3, 3
	addi	a3, a3, -205
	j	.LBB06767_6
.LBB06767_3:
	snez	a4, a3
	neg	a5, a4
	andi	a5, a5, 47
	sd	a5, 0(sp)
	sd	a4, 8(sp)
	beqz	a3, .LBB06767_18
	li	a6, 1
	j	.LBB06767_7
.LBB06767_5:
	li	a3, 51
.LBB06767_6:
	addi	a6, a6, 1
	sd	a3, 0(sp)
	sd	a6, 8(sp)
.LBB06767_7:
	lbu	t0, 0(sp)
	li	a7, 47
	beq	t0, a7, .LBB06767_9
	li	a3, 64
	j	.LBB06767_10
.LBB06767_9:
	li	a3, 48
.LBB06767_10:
	add	a3, a3, a2
	lbu	t1, 1(a3)
	lbu	t2, 2(a3)
	lbu	a5, 3(a3)
	lbu	a4, 0(a3)
	slli	t1, t1, 8
	slli	t2, t2, 16
	slli	a5, a5, 24
	or	t1, t1, a4
	or	t2, a5, t2
	lbu	t3, 5(a3)
	lbu	a5, 4(a3)
	lbu	a4, 6(a3)
	lbu	a3, 7(a3)
	slli	t3, t3, 8
	or	a5, t3, a5
	slli	a4, a4, 16
	slli	a3, a3, 24
	or	a3, a3, a4
	or	a4, t2, t1
	or	a3, a3, a5
	slli	a3, a3, 32
	or	a3, a3, a4
	beq	t0, a7, .LBB06767_13
	li	a4, 51
	bne	t0, a4, .LBB06767_14
	addi	a3, a3, -32
	li	a4, 33
	bltu	a3, a4, .LBB06767_15
	j	.LBB06767_31
.LBB06767_13:
	li	a4, 16
	beq	a3, a4, .LBB06767_15
	j	.LBB06767_31
.LBB06767_14:
	li	a4, 64
	bltu	a4, a3, .LBB06767_31
.LBB06767_15:
	li	a3, 1
	beq	a6, a3, .LBB06767_25
	lbu	a7, 1(sp)
	li	a3, 47
	beq	a7, a3, .LBB06767_19
	li	a3, 64
	j	.LBB06767_20
.LBB06767_18:
	li	a6, 0
	j	.LBB06767_25
.LBB06767_19:
	li	a3, 48
.LBB06767_20:
	add	a2, a2, a3
	lbu	t0, 1(a2)
	lbu	a5, 2(a2)
	lbu	a4, 3(a2)
	lbu	a3, 0(a2)
	slli	t0, t0, 8
	slli	a5, a5, 16
	slli	a4, a4, 24
	or	t0, t0, a3
	or	t1, a4, a5
	lbu	a5, 5(a2)
	lbu	a3, 4(a2)
	lbu	a4, 6(a2)
	lbu	a2, 7(a2)
	slli	a5, a5, 8
	or	a3, a3, a5
	slli	a4, a4, 16
	slli	a2, a2, 24
	or	a2, a2, a4
	or	a4, t1, t0
	or	a2, a2, a3
	slli	a2, a2, 32
	li	a3, 51
	or	a2, a2, a4
	beq	a7, a3, .LBB06767_23
	li	a3, 47
	bne	a7, a3, .LBB06767_24
	li	a3, 16
	beq	a2, a3, .LBB06767_25
	j	.LBB06767_31
.LBB06767_23:
	addi	a2, a2, -32
	li	a3, 32
	bgeu	a3, a2, .LBB06767_25
	j	.LBB06767_31
.LBB06767_24:
	li	a3, 65
	bgeu	a2, a3, .LBB06767_31
.LBB06767_25:
	beqz	a1, .LBB06767_30
.LBB06767_26:
	lbu	a2, 0(a0)
	addi	a0, a0, 1
	addi	a1, a1, -1
	mv	a4, sp
	mv	a5, a6
.LBB06767_27:
	beqz	a5, .LBB06767_31
	lbu	a3, 0(a4)
	addi	a4, a4, 1
	addi	a5, a5, -1
	bne	a3, a2, .LBB06767_27
	bnez	a1, .LBB06767_26
.LBB06767_30:
	li	a0, 1
	addi	sp, sp, 16
	ret
.LBB06767_31:
	li	a0, 0
	addi	sp, sp, 16
	ret
.Lfunc_end06767:
	.size	end_objects.refusals.has_keys, .Lfunc_end06767-end_objects.refusals.has_keys

	.section	".text.end_objects::refusals::has_bad_methods","ax",@progbits
	.p2align	1
	.type	end_objects.refusals.has_bad_methods,@function
end_objects.refusals.has_bad_methods:
	mv	a1, a0
	lbu	a0, 72(a0)
	beqz	a0, .LBB23af5_15
.LBB23af5_1:
	addi	sp, sp, -48
	sd	ra, 40(sp)
	addi	a0, sp, 24
	call	end_objects.settings.named_kinds
	ld	a1, 32(sp)
	bnez	a1, .LBB23af5_3
	lui	a0, 3
	addi	a0, a0, -205
	li	a1, 2
	j	.LBB23af5_4
.LBB23af5_3:
	ld	a0, 24(sp)
.LBB23af5_4:
	sd	a0, 8(sp)
	sd	a1, 16(sp)
	addi	a0, sp, 8
	mv	a2, a1
	j	.LBB23af5_6
.LBB23af5_5:
	addi	a2, a2, -1
	addi	a0, a0, 1
	beqz	a2, .LBB23af5_10
.LBB23af5_6:
	lbu	a3, 0(a0)
	li	a4, 51
	beq	a3, a4, .LBB23af5_5
	li	a4, 47
	beq	a3, a4, .LBB23af5_5
.LBB23af5_8:
	li	a0, 1
.LBB23af5_9:
	ld	ra, 40(sp)
	addi	sp, sp, 48
	ret
.LBB23af5_10:
	addi	a2, sp, 8
.LBB23af5_11:
	lbu	a0, 0(a2)
	addi	a2, a2, 1
	addi	a1, a1, -1
	mv	a4, a2
	mv	a3, a1
.LBB23af5_12:
	beqz	a3, .LBB23af5_14
	lbu	a5, 0(a4)
	addi	a4, a4, 1
	addi	a3, a3, -1
	bne	a5, a0, .LBB23af5_12
	j	.LBB23af5_8
.LBB23af5_14:
	li	a0, 0
	bnez	a1, .LBB23af5_11
	j	.LBB23af5_9
.LBB23af5_15:
	lbu	a0, 73(a1)
	beqz	a0, .LBB23af5_1
	li	a0, 1
	ret
.Lfunc_end23af5:
	.size	end_objects.refusals.has_bad_methods, .Lfunc_end23af5-end_objects.refusals.has_bad_methods

	.section	".text.end_objects::refusals::end_refusal","ax",@progbits
	.p2align	1
	.type	end_objects.refusals.end_refusal,@function
end_objects.refusals.end_refusal:
	mv	a4, a1
	ld	a5, 0(a0)
	addi	a1, a5, -80
	seqz	a1, a1
	li	a6, 1
	bnez	a4, .LBB0d7bd_15
	li	a4, 80
	bne	a5, a4, .LBB0d7bd_15
	addi	sp, sp, -16
	lbu	a4, 74(a0)
	lbu	a1, 75(a0)
	beqz	a4, .LBB0d7bd_12
	snez	a5, a1
	slli	a1, a1, 8
	addi	a7, a5, 1
	or	a4, a4, a1
.LBB0d7bd_4:
	sd	a4, 0(sp)
	sd	a7, 8(sp)
	mv	a5, sp
	mv	a4, a7
.LBB0d7bd_5:
	beqz	a4, .LBB0d7bd_7
	lbu	a1, 0(a5)
	addi	a5, a5, 1
	addi	a1, a1, -1
	li	a3, 2
	addi	a4, a4, -1
	bltu	a1, a3, .LBB0d7bd_5
	j	.LBB0d7bd_13
.LBB0d7bd_7:
	li	a1, 1
	beq	a7, a1, .LBB0d7bd_9
	lbu	a1, 0(sp)
	lbu	a3, 1(sp)
	beq	a3, a1, .LBB0d7bd_13
.LBB0d7bd_9:
	lbu	a1, 17(a0)
	lbu	a3, 18(a0)
	lbu	a4, 19(a0)
	lbu	a5, 16(a0)
	slli	a1, a1, 8
	slli	a3, a3, 16
	slli	a4, a4, 24
	or	a6, a1, a5
	or	a7, a4, a3
	lbu	a4, 21(a0)
	lbu	a5, 20(a0)
	lbu	a1, 22(a0)
	lbu	a3, 23(a0)
	slli	a4, a4, 8
	or	a4, a4, a5
	slli	a1, a1, 16
	slli	a3, a3, 24
	or	a1, a1, a3
	or	a3, a7, a6
	or	a1, a1, a4
	slli	a1, a1, 32
	or	a1, a1, a3
	addi	a1, a1, -1
	li	a3, 252
	bltu	a3, a1, .LBB0d7bd_16
	ld	a0, 32(a0)
	sltiu	a1, a0, 254
	li	a4, 253
	xori	a3, a1, 1
	bgeu	a4, a0, .LBB0d7bd_18
	li	a1, 4
	j	.LBB0d7bd_19
.LBB0d7bd_12:
	beqz	a1, .LBB0d7bd_17
.LBB0d7bd_13:
	li	a1, 2
.LBB0d7bd_14:
	addi	sp, sp, 16
.LBB0d7bd_15:
	mv	a0, a6
	ret
.LBB0d7bd_16:
	li	a1, 3
	li	a6, 1
	j	.LBB0d7bd_14
.LBB0d7bd_17:
	li	a7, 2
	li	a4, 513
	j	.LBB0d7bd_4
.LBB0d7bd_18:
	neg	a1, a2
	andi	a1, a1, 5
.LBB0d7bd_19:
	or	a6, a2, a3
	j	.LBB0d7bd_14
.Lfunc_end0d7bd:
	.size	end_objects.refusals.end_refusal, .Lfunc_end0d7bd-end_objects.refusals.end_refusal

	.section	".text.end_objects::settings::named_kinds","ax",@progbits
	.p2align	1
	.type	end_objects.settings.named_kinds,@function
end_objects.settings.named_kinds:
	addi	sp, sp, -64
	sd	ra, 56(sp)
	sd	s0, 48(sp)
	sd	s1, 40(sp)
	sd	s2, 32(sp)
	mv	s0, a0
	lbu	a0, 64(a1)
	lbu	a2, 65(a1)
	lbu	a3, 66(a1)
	lbu	a4, 67(a1)
	lbu	a6, 68(a1)
	lbu	a7, 69(a1)
	lbu	a5, 70(a1)
	lbu	s1, 71(a1)
	slli	a2, a2, 8
	slli	a3, a3, 16
	slli	a4, a4, 24
	or	t0, a2, a0
	or	t1, a4, a3
	lbu	a2, 48(a1)
	lbu	a4, 49(a1)
	lbu	a0, 50(a1)
	lbu	a3, 51(a1)
	slli	a7, a7, 8
	slli	a5, a5, 16
	slli	s1, s1, 24
	slli	a4, a4, 8
	slli	a0, a0, 16
	slli	a3, a3, 24
	or	a6, a7, a6
	or	a5, a5, s1
	or	a7, a4, a2
	or	a0, a0, a3
	lbu	a3, 53(a1)
	lbu	a4, 52(a1)
	lbu	s1, 54(a1)
	lbu	a2, 55(a1)
	slli	a3, a3, 8
	or	a3, a3, a4
	slli	s1, s1, 16
	slli	a2, a2, 24
	or	a2, a2, s1
	or	a4, t1, t0
	or	a5, a5, a6
	or	a0, a0, a7
	or	a2, a2, a3
	slli	a5, a5, 32
	or	a4, a4, a5
	slli	a2, a2, 32
	or	a0, a0, a2
	beqz	a4, .LBBc3ae4_3
	snez	s1, a0
	beqz	a0, .LBBc3ae4_4
	lui	a0, 3
	addi	a0, a0, -205
	j	.LBBc3ae4_5
.LBBc3ae4_3:
	snez	s2, a0
	neg	a0, s2
	andi	a0, a0, 47
	j	.LBBc3ae4_6
.LBBc3ae4_4:
	li	a0, 51
.LBBc3ae4_5:
	addi	s2, s1, 1
.LBBc3ae4_6:
	lbu	a2, 72(a1)
	sd	a0, 0(sp)
	sd	s2, 8(sp)
	beqz	a2, .LBBc3ae4_8
	lbu	a0, 73(a1)
	snez	s1, a0
	slli	a0, a0, 8
	addi	s2, s1, 1
	or	a0, a0, a2
	j	.LBBc3ae4_9
.LBBc3ae4_8:
	sd	zero, 16(sp)
	sd	zero, 24(sp)
	addi	a0, sp, 16
	mv	a1, sp
	mv	a2, s2
	call	memcpy
	ld	a0, 16(sp)
.LBBc3ae4_9:
	srli	a1, a0, 56
	srli	a2, a0, 48
	srli	a3, a0, 40
	srli	a4, a0, 32
	srli	a5, a0, 24
	srli	s1, a0, 16
	sb	a4, 4(s0)
	sb	a3, 5(s0)
	sb	a2, 6(s0)
	sb	a1, 7(s0)
	srli	a1, a0, 8
	sb	zero, 12(s0)
	sb	zero, 13(s0)
	sb	zero, 14(s0)
	sb	zero, 15(s0)
	sb	a0, 0(s0)
	sb	a1, 1(s0)
	sb	s1, 2(s0)
	sb	a5, 3(s0)
	sb	s2, 8(s0)
	sb	zero, 9(s0)
	sb	zero, 10(s0)
	sb	zero, 11(s0)
	ld	ra, 56(sp)
	ld	s0, 48(sp)
	ld	s1, 40(sp)
	ld	s2, 32(sp)
	addi	sp, sp, 64
	ret
.Lfunc_endc3ae4:
	.size	end_objects.settings.named_kinds, .Lfunc_endc3ae4-end_objects.settings.named_kinds

	.section	".text.end_objects::constructors::server_objects","ax",@progbits
	.p2align	1
	.type	end_objects.constructors.server_objects,@function
end_objects.constructors.server_objects:
	addi	sp, sp, -2032
	sd	ra, 2024(sp)
	sd	s0, 2016(sp)
	sd	s1, 2008(sp)
	sd	s2, 2000(sp)
	sd	s3, 1992(sp)
	sd	s4, 1984(sp)
	sd	s5, 1976(sp)
	sd	s6, 1968(sp)
	addi	sp, sp, -560
	mv	s2, a0
	addi	a0, sp, 2047
	addi	a0, a0, 473
	sd	a0, 1288(sp)
	sd	zero, 1296(sp)
	sd	zero, 1304(sp)
	beqz	a2, .LBB21334_10
	mv	s6, a2
	mv	s4, a1
	addi	a0, sp, 1288
	mv	a1, a2
	call	std_alloc.vec.Vec.move_to.__287f71f1152e3f1f_
	beqz	a0, .LBB21334_12
	ld	a0, 1288(sp)
	ld	a1, 1296(sp)
	ld	a2, 1304(sp)
	sd	a0, 8(sp)
	sd	a1, 16(sp)
	sd	a2, 24(sp)
	sd	a0, 32(sp)
	sd	a1, 40(sp)
	sd	a2, 48(sp)
	addi	s3, sp, 2047
	addi	s3, s3, 385
	j	.LBB21334_6
.LBB21334_3:
	addi	a0, sp, 1288
	li	a2, 1144
	li	a1, 0
	call	memset
	li	s5, 1
.LBB21334_4:
	addi	a0, sp, 56
	addi	a1, sp, 1288
	li	a2, 1232
	call	memcpy
	ld	s0, 40(sp)
	ld	a0, 48(sp)
	beq	a0, s0, .LBB21334_8
.LBB21334_5:
	ld	a0, 32(sp)
	li	a1, 1256
	mul	a1, s0, a1
	add	s1, a0, a1
	sb	zero, 4(s1)
	sb	zero, 5(s1)
	sb	zero, 6(s1)
	sb	zero, 7(s1)
	sb	s5, 0(s1)
	sb	zero, 1(s1)
	sb	zero, 2(s1)
	sb	zero, 3(s1)
	sb	zero, 12(s1)
	sb	zero, 13(s1)
	sb	zero, 14(s1)
	sb	zero, 15(s1)
	sb	zero, 8(s1)
	sb	zero, 9(s1)
	sb	zero, 10(s1)
	sb	zero, 11(s1)
	addi	a0, s1, 16
	addi	a1, sp, 56
	li	a2, 1232
	call	memcpy
	sb	zero, 1248(s1)
	sb	zero, 1249(s1)
	addi	s0, s0, 1
	addi	s6, s6, -1
	sd	s0, 40(sp)
	addi	s4, s4, 1
	addi	a0, sp, 56
	li	a2, 1232
	li	a1, 0
	call	memset
	beqz	s6, .LBB21334_11
.LBB21334_6:
	lbu	s0, 0(s4)
	li	a2, 88
	mv	a0, s3
	li	a1, 0
	call	memset
	li	a0, 47
	bne	s0, a0, .LBB21334_3
	addi	a0, sp, 1288
	li	a2, 1232
	li	a1, 0
	call	memset
	li	s5, 0
	j	.LBB21334_4
.LBB21334_8:
	addi	a0, sp, 32
	call	std_alloc.vec.Vec.grow_amortized.__287f71f1152e3f1f_
	beqz	a0, .LBB21334_17
	ld	s0, 40(sp)
	j	.LBB21334_5
.LBB21334_10:
	ld	a0, 1288(sp)
	ld	a1, 1296(sp)
	ld	a2, 1304(sp)
	sd	a0, 8(sp)
	sd	a1, 16(sp)
	sd	a2, 24(sp)
	sd	a0, 32(sp)
	sd	a1, 40(sp)
	sd	a2, 48(sp)
.LBB21334_11:
	sb	zero, 0(s2)
	addi	a0, s2, 8
	addi	a1, sp, 32
	li	a2, 24
	call	memcpy
	j	.LBB21334_16
.LBB21334_12:
	ld	a0, 1304(sp)
	beqz	a0, .LBB21334_15
	ld	a0, 1288(sp)
.LBB21334_14:
	call	rattle_dealloc
.LBB21334_15:
	li	a0, 1
	sb	a0, 0(s2)
	addi	a0, s2, 8
	li	a2, 24
	li	a1, 0
	call	memset
.LBB21334_16:
	addi	sp, sp, 560
	ld	ra, 2024(sp)
	ld	s0, 2016(sp)
	ld	s1, 2008(sp)
	ld	s2, 2000(sp)
	ld	s3, 1992(sp)
	ld	s4, 1984(sp)
	ld	s5, 1976(sp)
	ld	s6, 1968(sp)
	addi	sp, sp, 2032
	ret
.LBB21334_17:
	ld	a0, 48(sp)
	beqz	a0, .LBB21334_15
	ld	a0, 32(sp)
	j	.LBB21334_14
.Lfunc_end21334:
	.size	end_objects.constructors.server_objects, .Lfunc_end21334-end_objects.constructors.server_objects

	.section	.rodata.cst8,"aM",@progbits,8
	.p2align	3, 0x0
.LCPI8cb8d_0:
	.quad	7343449073928962
	.section	".text.std_alloc::vec::Vec::move_to::<#287f71f1152e3f1f>","ax",@progbits
	.p2align	1
	.type	std_alloc.vec.Vec.move_to.__287f71f1152e3f1f_,@function
std_alloc.vec.Vec.move_to.__287f71f1152e3f1f_:
	addi	sp, sp, -32
	sd	ra, 24(sp)
	sd	s0, 16(sp)
	sd	s1, 8(sp)
	mv	s0, a1
.Lpcrel_hi1:
	auipc	a1, %pcrel_hi(.LCPI8cb8d_0)
	ld	a1, %pcrel_lo(.Lpcrel_hi1)(a1)
	bgeu	s0, a1, .LBB8cb8d_3
	mv	s1, a0
	ld	a0, 16(a0)
	beqz	a0, .LBB8cb8d_4
	ld	a1, 8(s1)
	ld	a0, 0(s1)
	li	a2, 1256
	mul	a1, a1, a2
	mul	a2, s0, a2
	li	a3, 8
	call	rattle_realloc
	andi	a0, a0, 1
	bnez	a0, .LBB8cb8d_5
	j	.LBB8cb8d_6
.LBB8cb8d_3:
	li	a0, 0
	j	.LBB8cb8d_6
.LBB8cb8d_4:
	li	a0, 1256
	mul	a0, s0, a0
	li	a1, 8
	call	rattle_alloc
	andi	a0, a0, 1
	beqz	a0, .LBB8cb8d_6
.LBB8cb8d_5:
	sd	a1, 0(s1)
	sd	s0, 16(s1)
	li	a0, 1
.LBB8cb8d_6:
	ld	ra, 24(sp)
	ld	s0, 16(sp)
	ld	s1, 8(sp)
	addi	sp, sp, 32
	ret
.Lfunc_end8cb8d:
	.size	std_alloc.vec.Vec.move_to.__287f71f1152e3f1f_, .Lfunc_end8cb8d-std_alloc.vec.Vec.move_to.__287f71f1152e3f1f_

	.section	".text.unlikely.std_alloc::vec::Vec::grow_amortized::<#287f71f1152e3f1f>","ax",@progbits
	.p2align	1
	.type	std_alloc.vec.Vec.grow_amortized.__287f71f1152e3f1f_,@function
std_alloc.vec.Vec.grow_amortized.__287f71f1152e3f1f_:
	ld	a1, 8(a0)
	addi	a1, a1, 1
	bnez	a1, .LBB6bfe1_2
	li	a0, 0
	ret
.LBB6bfe1_2:
	ld	a2, 16(a0)
	srli	a3, a2, 62
	snez	a3, a3
	slli	a2, a2, 1
	addi	a3, a3, -1
	and	a2, a2, a3
	bltu	a2, a1, .LBB6bfe1_4
	mv	a1, a2
.LBB6bfe1_4:
	addi	sp, sp, -16
	sd	ra, 8(sp)
	call	std_alloc.vec.Vec.move_to.__287f71f1152e3f1f_
	ld	ra, 8(sp)
	addi	sp, sp, 16
	ret
.Lfunc_end6bfe1:
	.size	std_alloc.vec.Vec.grow_amortized.__287f71f1152e3f1f_, .Lfunc_end6bfe1-std_alloc.vec.Vec.grow_amortized.__287f71f1152e3f1f_

	.section	".text.tuvaddri_c::sent::empty_packet","ax",@progbits
	.p2align	1
	.type	tuvaddri_c.sent.empty_packet,@function
tuvaddri_c.sent.empty_packet:
	addi	sp, sp, -32
	sd	ra, 24(sp)
	sd	s0, 16(sp)
	sd	s1, 8(sp)
	li	a0, 1512
	li	a1, 8
	call	rattle_alloc
	andi	s0, a0, 1
	beqz	s0, .LBB6247c_2
	li	a2, 1512
	mv	a0, a1
	mv	s1, a1
	li	a1, 0
	call	memset
	mv	a1, s1
	j	.LBB6247c_3
.LBB6247c_2:
	li	a1, 0
.LBB6247c_3:
	mv	a0, s0
	ld	ra, 24(sp)
	ld	s0, 16(sp)
	ld	s1, 8(sp)
	addi	sp, sp, 32
	ret
.Lfunc_end6247c:
	.size	tuvaddri_c.sent.empty_packet, .Lfunc_end6247c-tuvaddri_c.sent.empty_packet

	.section	".text.tuvaddri_c::by_method::add_users::<#93e2819ad231d5c1>","ax",@progbits
	.p2align	1
	.type	tuvaddri_c.by_method.add_users.__93e2819ad231d5c1_,@function
tuvaddri_c.by_method.add_users.__93e2819ad231d5c1_:
	addi	sp, sp, -1088
	sd	ra, 1080(sp)
	sd	s0, 1072(sp)
	sd	s1, 1064(sp)
	lbu	a2, 33(a1)
	lbu	a3, 34(a1)
	lbu	a4, 35(a1)
	lbu	a5, 32(a1)
	slli	a2, a2, 8
	slli	a3, a3, 16
	slli	a4, a4, 24
	or	a2, a2, a5
	or	a3, a3, a4
	lbu	a4, 37(a1)
	lbu	a5, 36(a1)
	lbu	s1, 38(a1)
	lbu	s0, 39(a1)
	slli	a4, a4, 8
	or	a4, a4, a5
	slli	s1, s1, 16
	slli	s0, s0, 24
	or	s0, s0, s1
	or	a2, a2, a3
	or	a4, a4, s0
	slli	a4, a4, 32
	or	a2, a2, a4
	beqz	a2, .LBBb7814_9
	lbu	a2, 48(a1)
	lbu	a3, 49(a1)
	lbu	a4, 50(a1)
	lbu	a5, 51(a1)
	lbu	a6, 52(a1)
	lbu	a7, 53(a1)
	lbu	s1, 54(a1)
	lbu	s0, 55(a1)
	slli	a3, a3, 8
	slli	a4, a4, 16
	slli	a5, a5, 24
	or	t0, a3, a2
	or	t1, a5, a4
	lbu	a3, 64(a1)
	lbu	a5, 65(a1)
	lbu	a2, 66(a1)
	lbu	a4, 67(a1)
	slli	a7, a7, 8
	slli	s1, s1, 16
	slli	s0, s0, 24
	slli	a5, a5, 8
	slli	a2, a2, 16
	slli	a4, a4, 24
	or	a6, a7, a6
	or	s0, s0, s1
	or	a7, a5, a3
	or	a2, a2, a4
	lbu	a4, 69(a1)
	lbu	a5, 68(a1)
	lbu	s1, 70(a1)
	lbu	a3, 71(a1)
	slli	a4, a4, 8
	or	a4, a4, a5
	slli	s1, s1, 16
	slli	a3, a3, 24
	or	a3, a3, s1
	or	a5, t1, t0
	or	s1, s0, a6
	or	a2, a2, a7
	or	a3, a3, a4
	slli	s1, s1, 32
	slli	a3, a3, 32
	or	a3, a3, a2
	or	a2, s1, a5
	beqz	a3, .LBBb7814_4
	addi	s0, a0, 1904
	beqz	a2, .LBBb7814_6
	addi	a0, sp, 8
	li	a2, 51
	mv	s1, a1
	call	end_objects.settings.user_of
	addi	a1, sp, 8
	mv	a0, s0
	call	login_setup.users.UserList.add.__2_
	addi	a0, sp, 8
	li	a2, 47
	mv	a1, s1
	call	end_objects.settings.user_of
	addi	a1, sp, 8
	j	.LBBb7814_7
.LBBb7814_4:
	beqz	a2, .LBBb7814_9
	mv	s0, a0
	addi	a0, sp, 712
	li	a2, 47
	call	end_objects.settings.user_of
	addi	a0, s0, 1904
	addi	a1, sp, 712
	j	.LBBb7814_8
.LBBb7814_6:
	addi	a0, sp, 360
	li	a2, 51
	call	end_objects.settings.user_of
	addi	a1, sp, 360
.LBBb7814_7:
	mv	a0, s0
.LBBb7814_8:
	call	login_setup.users.UserList.add.__2_
.LBBb7814_9:
	ld	ra, 1080(sp)
	ld	s0, 1072(sp)
	ld	s1, 1064(sp)
	addi	sp, sp, 1088
	ret
.Lfunc_endb7814:
	.size	tuvaddri_c.by_method.add_users.__93e2819ad231d5c1_, .Lfunc_endb7814-tuvaddri_c.by_method.add_users.__93e2819ad231d5c1_

	.section	".text.end_objects::settings::user_of","ax",@progbits
	.p2align	1
	.type	end_objects.settings.user_of,@function
end_objects.settings.user_of:
	addi	sp, sp, -784
	sd	ra, 776(sp)
	sd	s0, 768(sp)
	sd	s1, 760(sp)
	sd	s2, 752(sp)
	sd	s3, 744(sp)
	sd	s4, 736(sp)
	sd	s5, 728(sp)
	sd	s6, 720(sp)
	sd	s7, 712(sp)
	sd	s8, 704(sp)
	sd	s9, 696(sp)
	sd	s10, 688(sp)
	sd	s11, 680(sp)
	mv	s2, a2
	mv	s1, a1
	mv	s3, a0
	sw	zero, 336(sp)
	sh	zero, 340(sp)
	sb	zero, 342(sp)
	lbu	s4, 24(a1)
	lbu	s7, 25(a1)
	lbu	s5, 26(a1)
	lbu	s6, 27(a1)
	lbu	a6, 32(a1)
	lbu	a1, 33(a1)
	lbu	a2, 34(s1)
	lbu	a3, 35(s1)
	lbu	a4, 36(s1)
	lbu	a5, 37(s1)
	lbu	s0, 38(s1)
	lbu	a0, 39(s1)
	slli	a1, a1, 8
	slli	a2, a2, 16
	slli	a3, a3, 24
	slli	a5, a5, 8
	slli	s0, s0, 16
	slli	a0, a0, 24
	or	a1, a1, a6
	or	a2, a2, a3
	or	a4, a4, a5
	or	a0, a0, s0
	lbu	s8, 28(s1)
	lbu	s11, 29(s1)
	lbu	s9, 30(s1)
	lbu	s10, 31(s1)
	or	a1, a1, a2
	or	a0, a0, a4
	slli	a0, a0, 32
	or	s0, a0, a1
	addi	a0, sp, 416
	li	a2, 264
	li	a1, 0
	call	memset
	li	a0, 253
	bltu	a0, s0, .LBB9216d_2
	slli	s7, s7, 8
	slli	s5, s5, 16
	slli	s6, s6, 24
	slli	s11, s11, 8
	slli	s9, s9, 16
	slli	s10, s10, 24
	or	a0, s7, s4
	or	a1, s6, s5
	or	a2, s11, s8
	or	a3, s10, s9
	or	a0, a0, a1
	or	a2, a2, a3
	slli	a1, a2, 32
	or	a1, a1, a0
	addi	a0, sp, 416
	mv	a2, s0
	call	memcpy
	sd	s0, 672(sp)
.LBB9216d_2:
	addi	a0, sp, 72
	addi	a1, sp, 416
	li	a2, 264
	call	memcpy
	zext.b	a1, s2
	li	a2, 47
	beq	a1, a2, .LBB9216d_5
	li	a0, 64
	add	a0, a0, s1
	bne	a1, a2, .LBB9216d_6
.LBB9216d_4:
	li	a1, 40
	j	.LBB9216d_7
.LBB9216d_5:
	li	a0, 48
	add	a0, a0, s1
	beq	a1, a2, .LBB9216d_4
.LBB9216d_6:
	li	a1, 56
.LBB9216d_7:
	add	a1, a1, s1
	lbu	a2, 0(a0)
	lbu	a3, 1(a0)
	lbu	a6, 2(a0)
	lbu	a5, 3(a0)
	lbu	a7, 4(a0)
	lbu	a4, 5(a0)
	lbu	s0, 6(a0)
	lbu	a0, 7(a0)
	slli	a3, a3, 8
	or	a2, a2, a3
	lbu	s5, 0(a1)
	lbu	s9, 1(a1)
	lbu	s6, 2(a1)
	lbu	s7, 3(a1)
	slli	a6, a6, 16
	slli	a5, a5, 24
	slli	a4, a4, 8
	slli	s0, s0, 16
	slli	a0, a0, 24
	or	a3, a5, a6
	or	a4, a4, a7
	or	a0, a0, s0
	lbu	s8, 4(a1)
	lbu	s4, 5(a1)
	lbu	s10, 6(a1)
	lbu	s11, 7(a1)
	or	a2, a2, a3
	or	a0, a0, a4
	slli	a0, a0, 32
	or	s0, a0, a2
	addi	a0, sp, 416
	li	a2, 72
	li	a1, 0
	call	memset
	li	a0, 64
	bltu	a0, s0, .LBB9216d_9
	slli	s9, s9, 8
	slli	s6, s6, 16
	slli	s7, s7, 24
	slli	s4, s4, 8
	slli	s10, s10, 16
	slli	s11, s11, 24
	or	a0, s9, s5
	or	a1, s7, s6
	or	a2, s4, s8
	or	a3, s11, s10
	or	a0, a0, a1
	or	a2, a2, a3
	slli	a1, a2, 32
	or	a1, a1, a0
	addi	a0, sp, 416
	mv	a2, s0
	call	memcpy
	sd	s0, 480(sp)
.LBB9216d_9:
	mv	a0, sp
	addi	a1, sp, 416
	li	a2, 72
	call	memcpy
	lbu	a0, 77(s1)
	snez	s0, a0
	addi	a0, sp, 343
	mv	a1, sp
	li	a2, 72
	call	memcpy
	addi	a1, sp, 72
	li	a2, 264
	mv	a0, s3
	call	memcpy
	sb	s2, 264(s3)
	addi	a0, s3, 265
	addi	a1, sp, 336
	li	a2, 79
	call	memcpy
	sb	s0, 344(s3)
	sb	zero, 345(s3)
	sb	zero, 346(s3)
	sb	zero, 347(s3)
	sb	zero, 348(s3)
	sb	zero, 349(s3)
	sb	zero, 350(s3)
	sb	zero, 351(s3)
	ld	ra, 776(sp)
	ld	s0, 768(sp)
	ld	s1, 760(sp)
	ld	s2, 752(sp)
	ld	s3, 744(sp)
	ld	s4, 736(sp)
	ld	s5, 728(sp)
	ld	s6, 720(sp)
	ld	s7, 712(sp)
	ld	s8, 704(sp)
	ld	s9, 696(sp)
	ld	s10, 688(sp)
	ld	s11, 680(sp)
	addi	sp, sp, 784
	ret
.Lfunc_end9216d:
	.size	end_objects.settings.user_of, .Lfunc_end9216d-end_objects.settings.user_of

	.section	".text.login_setup::users::UserList::add::<=2>","ax",@progbits
	.p2align	1
	.type	login_setup.users.UserList.add.__2_,@function
login_setup.users.UserList.add.__2_:
	addi	sp, sp, -384
	sd	ra, 376(sp)
	sd	s0, 368(sp)
	sd	s1, 360(sp)
	sd	s2, 352(sp)
	mv	s2, a1
	mv	s0, a0
	mv	a0, sp
	li	a2, 352
	call	memcpy
	ld	s1, 704(s0)
	li	a0, 2
	beq	s1, a0, .LBB2b5da_4
	li	a0, 15
	bltu	a0, s1, .LBB2b5da_4
	ld	a3, 256(sp)
	lbu	a4, 264(sp)
	mv	a2, sp
	mv	a0, s0
	mv	a1, s1
	call	login_setup.users.find_user
	zext.b	a0, a0
	li	a1, 1
	beq	a0, a1, .LBB2b5da_4
	li	a0, 352
	mul	a0, s1, a0
	add	a0, a0, s0
	li	a2, 352
	mv	a1, s2
	call	memmove
	addi	s1, s1, 1
	sd	s1, 704(s0)
.LBB2b5da_4:
	ld	ra, 376(sp)
	ld	s0, 368(sp)
	ld	s1, 360(sp)
	ld	s2, 352(sp)
	addi	sp, sp, 384
	ret
.Lfunc_end2b5da:
	.size	login_setup.users.UserList.add.__2_, .Lfunc_end2b5da-login_setup.users.UserList.add.__2_

	.section	".text.login_setup::users::find_user","ax",@progbits
	.p2align	1
	.type	login_setup.users.find_user,@function
login_setup.users.find_user:
	addi	sp, sp, -48
	sd	ra, 40(sp)
	sd	s0, 32(sp)
	sd	s1, 24(sp)
	sd	s2, 16(sp)
	sd	s3, 8(sp)
	sd	s4, 0(sp)
	beqz	a1, .LBB52298_17
	mv	s3, a3
	mv	s2, a2
	mv	s1, a1
	mv	s0, a0
	zext.b	s4, a4
	j	.LBB52298_4
.LBB52298_2:
	bgeu	a0, s3, .LBB52298_16
.LBB52298_3:
	addi	s1, s1, -1
	addi	s0, s0, 352
	beqz	s1, .LBB52298_17
.LBB52298_4:
	lbu	a0, 264(s0)
	bne	a0, s4, .LBB52298_3
	ld	a0, 256(s0)
	bne	a0, s3, .LBB52298_3
	li	a0, 4
	bgeu	s3, a0, .LBB52298_11
	beqz	s3, .LBB52298_16
	li	a0, 0
.LBB52298_9:
	add	a1, s0, a0
	add	a2, s2, a0
	lbu	a1, 0(a1)
	lbu	a2, 0(a2)
	bne	a1, a2, .LBB52298_2
	addi	a0, a0, 1
	bne	s3, a0, .LBB52298_9
	j	.LBB52298_16
.LBB52298_11:
	lbu	a0, 0(s0)
	lbu	a1, 0(s2)
	bne	a0, a1, .LBB52298_3
	lbu	a0, 1(s0)
	lbu	a1, 1(s2)
	bne	a0, a1, .LBB52298_3
	lbu	a0, 2(s0)
	lbu	a1, 2(s2)
	bne	a0, a1, .LBB52298_3
	lbu	a0, 3(s0)
	lbu	a1, 3(s2)
	bne	a0, a1, .LBB52298_3
	mv	a0, s0
	mv	a1, s3
	mv	a2, s2
	mv	a3, s3
	call	core.cmp.slices.groups_equal._i8_31_core.cmp.numbers.U8PartialEq___
	beqz	a0, .LBB52298_3
.LBB52298_16:
	li	a0, 1
	j	.LBB52298_18
.LBB52298_17:
	li	a0, 0
	li	s0, 0
.LBB52298_18:
	mv	a1, s0
	ld	ra, 40(sp)
	ld	s0, 32(sp)
	ld	s1, 24(sp)
	ld	s2, 16(sp)
	ld	s3, 8(sp)
	ld	s4, 0(sp)
	addi	sp, sp, 48
	ret
.Lfunc_end52298:
	.size	login_setup.users.find_user, .Lfunc_end52298-login_setup.users.find_user

	.section	".text.core::slice::scan::any_in_quarters::<#953750c03e87c3e2>","ax",@progbits
	.p2align	1
	.type	core.slice.scan.any_in_quarters.__953750c03e87c3e2_,@function
core.slice.scan.any_in_quarters.__953750c03e87c3e2_:
	li	t5, 0
	lbu	a6, 0(a0)
	lbu	a7, 1(a0)
	lbu	t0, 2(a0)
	lbu	a5, 3(a0)
	lbu	t1, 4(a0)
	lbu	a4, 5(a0)
	lbu	t2, 6(a0)
	lbu	t3, 7(a0)
	slli	a7, a7, 8
	slli	t0, t0, 16
	slli	a5, a5, 24
	slli	a4, a4, 8
	or	a6, a7, a6
	or	t0, a5, t0
	or	a7, a4, t1
	lbu	t1, 16(a0)
	lbu	t4, 17(a0)
	lbu	a4, 18(a0)
	lbu	a5, 19(a0)
	slli	t2, t2, 16
	slli	t3, t3, 24
	slli	t4, t4, 8
	slli	a4, a4, 16
	slli	a5, a5, 24
	or	t2, t3, t2
	or	t1, t4, t1
	or	t3, a5, a4
	lbu	a5, 21(a0)
	lbu	t4, 20(a0)
	lbu	a4, 22(a0)
	lbu	a0, 23(a0)
	slli	a5, a5, 8
	or	t4, a5, t4
	slli	a4, a4, 16
	slli	a0, a0, 24
	or	a0, a0, a4
	or	a6, t0, a6
	or	a5, t2, a7
	or	a4, t3, t1
	or	a0, a0, t4
	slli	a5, a5, 32
	slli	a0, a0, 32
	or	a6, a5, a6
	or	a7, a0, a4
	add	t0, a6, a2
	mv	a4, a7
	mv	a5, a6
.LBB5d4c5_1:
	lbu	a0, 0(a5)
	lbu	a3, 0(a4)
	addi	a5, a5, 1
	xor	a0, a0, a3
	snez	a0, a0
	or	t5, t5, a0
	addi	a4, a4, 1
	bne	a5, t0, .LBB5d4c5_1
	sub	t0, a1, a2
	mv	t1, t0
	bltu	t0, a2, .LBB5d4c5_4
	mv	t1, a2
.LBB5d4c5_4:
	li	t2, 0
	add	a0, a7, t1
	add	a4, a6, t1
	add	t1, t1, a2
	add	t1, t1, a7
.LBB5d4c5_5:
	lbu	a3, 0(a4)
	lbu	a5, 0(a0)
	addi	a0, a0, 1
	xor	a3, a3, a5
	snez	a3, a3
	or	t2, t2, a3
	addi	a4, a4, 1
	bne	a0, t1, .LBB5d4c5_5
	slli	a0, a2, 1
	mv	t1, t0
	bltu	t0, a0, .LBB5d4c5_8
	mv	t1, a0
.LBB5d4c5_8:
	li	a0, 0
	add	a4, a7, t1
	add	a3, a2, t1
	add	a2, a6, t1
	add	t1, a7, a3
.LBB5d4c5_9:
	lbu	a3, 0(a2)
	lbu	a5, 0(a4)
	addi	a4, a4, 1
	xor	a3, a3, a5
	snez	a3, a3
	or	a0, a0, a3
	addi	a2, a2, 1
	bne	a4, t1, .LBB5d4c5_9
	li	a2, 0
	add	a6, a6, t0
	add	t0, t0, a7
	add	a1, a1, a7
.LBB5d4c5_11:
	lbu	a3, 0(a6)
	lbu	a4, 0(t0)
	addi	t0, t0, 1
	xor	a3, a3, a4
	snez	a3, a3
	or	a2, a2, a3
	addi	a6, a6, 1
	bne	t0, a1, .LBB5d4c5_11
	or	a1, t5, t2
	or	a0, a0, a1
	or	a0, a0, a2
	andi	a0, a0, 1
	ret
.Lfunc_end5d4c5:
	.size	core.slice.scan.any_in_quarters.__953750c03e87c3e2_, .Lfunc_end5d4c5-core.slice.scan.any_in_quarters.__953750c03e87c3e2_

	.section	".text.core::slice::scan::any_in_ends::<#953750c03e87c3e2>","ax",@progbits
	.p2align	1
	.type	core.slice.scan.any_in_ends.__953750c03e87c3e2_,@function
core.slice.scan.any_in_ends.__953750c03e87c3e2_:
	li	t5, 0
	lbu	a6, 0(a0)
	lbu	a7, 1(a0)
	lbu	t0, 2(a0)
	lbu	a5, 3(a0)
	lbu	t1, 4(a0)
	lbu	a4, 5(a0)
	lbu	t2, 6(a0)
	lbu	t3, 7(a0)
	slli	a7, a7, 8
	slli	t0, t0, 16
	slli	a5, a5, 24
	slli	a4, a4, 8
	or	a6, a7, a6
	or	t0, a5, t0
	or	a7, a4, t1
	lbu	t1, 16(a0)
	lbu	t4, 17(a0)
	lbu	a4, 18(a0)
	lbu	a5, 19(a0)
	slli	t2, t2, 16
	slli	t3, t3, 24
	slli	t4, t4, 8
	slli	a4, a4, 16
	slli	a5, a5, 24
	or	t2, t3, t2
	or	t1, t4, t1
	or	t3, a5, a4
	lbu	a5, 21(a0)
	lbu	t4, 20(a0)
	lbu	a4, 22(a0)
	lbu	a0, 23(a0)
	slli	a5, a5, 8
	or	t4, a5, t4
	slli	a4, a4, 16
	slli	a0, a0, 24
	or	a0, a0, a4
	or	a6, t0, a6
	or	a5, t2, a7
	or	a4, t3, t1
	or	a0, a0, t4
	slli	a5, a5, 32
	slli	a0, a0, 32
	or	a7, a5, a6
	or	a6, a0, a4
	add	t0, a7, a2
	mv	a0, a6
	mv	a4, a7
.LBB772a5_1:
	lbu	a5, 0(a4)
	lbu	a3, 0(a0)
	addi	a4, a4, 1
	xor	a3, a3, a5
	snez	a3, a3
	or	t5, t5, a3
	addi	a0, a0, 1
	bne	a4, t0, .LBB772a5_1
	li	a5, 0
	sub	a2, a1, a2
	add	a4, a7, a2
	add	a2, a2, a6
	add	a0, a6, a1
.LBB772a5_3:
	lbu	a1, 0(a4)
	lbu	a3, 0(a2)
	addi	a2, a2, 1
	xor	a1, a1, a3
	snez	a1, a1
	or	a5, a5, a1
	addi	a4, a4, 1
	bne	a2, a0, .LBB772a5_3
	or	a0, t5, a5
	andi	a0, a0, 1
	ret
.Lfunc_end772a5:
	.size	core.slice.scan.any_in_ends.__953750c03e87c3e2_, .Lfunc_end772a5-core.slice.scan.any_in_ends.__953750c03e87c3e2_

	.section	".text.core::cmp::slices::groups_equal::<i8,31'core::cmp::numbers::U8PartialEq{}>","ax",@progbits
	.p2align	1
	.type	core.cmp.slices.groups_equal._i8_31_core.cmp.numbers.U8PartialEq___,@function
core.cmp.slices.groups_equal._i8_31_core.cmp.numbers.U8PartialEq___:
	addi	sp, sp, -48
	sd	ra, 40(sp)
	li	a4, 8
	sd	a0, 8(sp)
	sd	a1, 16(sp)
	sd	a2, 24(sp)
	sd	a3, 32(sp)
	bltu	a4, a1, .LBB8c6a8_2
	addi	a0, sp, 8
	li	a2, 4
	call	core.slice.scan.any_in_ends.__953750c03e87c3e2_
	j	.LBB8c6a8_22
.LBB8c6a8_2:
	li	a3, 32
	bltu	a3, a1, .LBB8c6a8_4
	addi	a0, sp, 8
	li	a2, 8
	call	core.slice.scan.any_in_quarters.__953750c03e87c3e2_
	j	.LBB8c6a8_22
.LBB8c6a8_4:
	li	a3, 65
	bgeu	a1, a3, .LBB8c6a8_6
	addi	a0, sp, 8
	li	a2, 32
	call	core.slice.scan.any_in_ends.__953750c03e87c3e2_
	j	.LBB8c6a8_22
.LBB8c6a8_6:
	li	t1, 0
	andi	a6, a1, -64
	mv	a7, a0
	mv	t0, a2
.LBB8c6a8_7:
	li	t5, 0
	add	a4, t1, a2
	addi	t2, a4, 64
	mv	a4, a7
	mv	a5, t0
.LBB8c6a8_8:
	lbu	t3, 0(a4)
	lbu	t4, 0(a5)
	addi	a5, a5, 1
	xor	a3, t3, t4
	snez	a3, a3
	or	t5, t5, a3
	addi	a4, a4, 1
	bne	a5, t2, .LBB8c6a8_8
	andi	a3, t5, 1
	bnez	a3, .LBB8c6a8_12
	addi	t1, t1, 64
	addi	t0, t0, 64
	sub	a3, a1, t1
	li	a4, 63
	addi	a7, a7, 64
	bltu	a4, a3, .LBB8c6a8_7
	mv	t1, a6
.LBB8c6a8_12:
	sub	a3, a1, t1
	li	a4, 32
	bltu	a3, a4, .LBB8c6a8_20
	li	a6, 0
	add	t0, a2, t1
	add	t2, a0, t1
	addi	a7, t1, 32
.LBB8c6a8_14:
	li	t6, 0
	slli	a3, a6, 5
	add	a3, a3, a7
	add	t3, a2, a3
	mv	a4, t2
	mv	a3, t0
.LBB8c6a8_15:
	lbu	t4, 0(a4)
	lbu	t5, 0(a3)
	addi	a3, a3, 1
	xor	a5, t4, t5
	snez	a5, a5
	or	t6, t6, a5
	addi	a4, a4, 1
	bne	a3, t3, .LBB8c6a8_15
	andi	a3, t6, 1
	bnez	a3, .LBB8c6a8_18
	addi	t1, t1, 32
	addi	t0, t0, 32
	addi	t2, t2, 32
	sub	a3, a1, t1
	li	a4, 31
	addi	a6, a6, 1
	bltu	a4, a3, .LBB8c6a8_14
	j	.LBB8c6a8_20
.LBB8c6a8_18:
	sub	a3, a1, t1
	li	a4, 31
	bgeu	a4, a3, .LBB8c6a8_20
	li	a0, 1
	j	.LBB8c6a8_22
.LBB8c6a8_20:
	addi	a5, a1, -32
	add	a3, a0, a5
	li	a0, 0
	add	a4, a2, a5
	add	a1, a1, a2
.LBB8c6a8_21:
	lbu	a2, 0(a3)
	lbu	a5, 0(a4)
	addi	a4, a4, 1
	xor	a2, a2, a5
	snez	a2, a2
	or	a0, a0, a2
	addi	a3, a3, 1
	bne	a4, a1, .LBB8c6a8_21
.LBB8c6a8_22:
	not	a0, a0
	andi	a0, a0, 1
	ld	ra, 40(sp)
	addi	sp, sp, 48
	ret
.Lfunc_end8c6a8:
	.size	core.cmp.slices.groups_equal._i8_31_core.cmp.numbers.U8PartialEq___, .Lfunc_end8c6a8-core.cmp.slices.groups_equal._i8_31_core.cmp.numbers.U8PartialEq___

	.section	".text.server_machine::machine::SizedServer::make_again::<#575f94f35bca5e04>","ax",@progbits
	.p2align	1
	.type	server_machine.machine.SizedServer.make_again.__575f94f35bca5e04_,@function
server_machine.machine.SizedServer.make_again.__575f94f35bca5e04_:
	addi	sp, sp, -32
	sd	ra, 24(sp)
	sd	s0, 16(sp)
	sd	s1, 8(sp)
	mv	s0, a0
	addi	s1, a0, 1568
	addi	a0, a0, 1864
	li	a2, 32
	call	memmove
	ld	a0, 0(s0)
	ld	a1, 8(s0)
	mv	a2, s1
	call	eap_method.server_objects.start_each.__575f94f35bca5e04_
	li	a0, 1
	sb	zero, 31(s0)
	sh	a0, 32(s0)
	ld	a2, 1560(s0)
	sb	zero, 27(s0)
	sb	zero, 28(s0)
	sb	zero, 29(s0)
	sb	zero, 30(s0)
	beqz	a2, .LBB651f2_2
	addi	a0, s0, 56
	li	a1, 0
	call	memset
	sd	zero, 1560(s0)
.LBB651f2_2:
	ld	a2, 48(s0)
	beqz	a2, .LBB651f2_4
	addi	a0, s0, 40
	li	a1, 0
	call	memset
	sd	zero, 48(s0)
.LBB651f2_4:
	ld	ra, 24(sp)
	ld	s0, 16(sp)
	ld	s1, 8(sp)
	addi	sp, sp, 32
	ret
.Lfunc_end651f2:
	.size	server_machine.machine.SizedServer.make_again.__575f94f35bca5e04_, .Lfunc_end651f2-server_machine.machine.SizedServer.make_again.__575f94f35bca5e04_

	.section	".text.eap_method::server_objects::start_each::<#575f94f35bca5e04>","ax",@progbits
	.p2align	1
	.type	eap_method.server_objects.start_each.__575f94f35bca5e04_,@function
eap_method.server_objects.start_each.__575f94f35bca5e04_:
	beqz	a1, .LBB96fa0_9
	lbu	a3, 0(a0)
	beqz	a3, .LBB96fa0_3
	li	a3, 51
	j	.LBB96fa0_4
.LBB96fa0_3:
	li	a3, 47
.LBB96fa0_4:
	addi	sp, sp, -320
	sd	ra, 312(sp)
	sd	s0, 304(sp)
	sd	s1, 296(sp)
	sd	s2, 288(sp)
	sd	s3, 280(sp)
	ld	a4, 272(a2)
	addi	s3, a0, 1256
	addi	s1, a1, -1
	addi	a1, a2, 264
.LBB96fa0_5:
	beqz	a4, .LBB96fa0_8
	lbu	a5, 0(a1)
	addi	a1, a1, 1
	addi	a4, a4, -1
	bne	a5, a3, .LBB96fa0_5
	mv	s2, a0
	mv	a0, sp
	mv	a1, a2
	mv	s0, a2
	call	eap_method.server_objects.side_of.__2_
	addi	a2, s0, 296
	mv	a1, sp
	mv	a0, s2
	call	end_objects.objects.ServerObjectServerMethod.begin
	mv	a2, s0
.LBB96fa0_8:
	mv	a0, s3
	mv	a1, s1
	call	eap_method.server_objects.start_each.__575f94f35bca5e04_
	ld	ra, 312(sp)
	ld	s0, 304(sp)
	ld	s1, 296(sp)
	ld	s2, 288(sp)
	ld	s3, 280(sp)
	addi	sp, sp, 320
.LBB96fa0_9:
	ret
.Lfunc_end96fa0:
	.size	eap_method.server_objects.start_each.__575f94f35bca5e04_, .Lfunc_end96fa0-eap_method.server_objects.start_each.__575f94f35bca5e04_

	.section	".text.eap_method::server_objects::side_of::<=2>","ax",@progbits
	.p2align	1
	.type	eap_method.server_objects.side_of.__2_,@function
eap_method.server_objects.side_of.__2_:
	addi	sp, sp, -592
	sd	ra, 584(sp)
	sd	s0, 576(sp)
	sd	s1, 568(sp)
	sd	s2, 560(sp)
	mv	s1, a1
	ld	s0, 256(a1)
	mv	s2, a0
	addi	a0, sp, 280
	li	a2, 264
	li	a1, 0
	call	memset
	li	a0, 253
	bltu	a0, s0, .LBB01e6b_2
	addi	a0, sp, 280
	mv	a1, s1
	mv	a2, s0
	call	memcpy
	sd	s0, 536(sp)
.LBB01e6b_2:
	ld	s0, 288(s1)
	li	a0, 2
	sd	zero, 544(sp)
	sd	zero, 552(sp)
	bltu	a0, s0, .LBB01e6b_4
	addi	a1, s1, 280
	addi	a0, sp, 544
	mv	a2, s0
	call	memcpy
	sd	s0, 552(sp)
.LBB01e6b_4:
	mv	a0, sp
	addi	a1, sp, 280
	li	a2, 264
	call	memcpy
	ld	a0, 544(sp)
	ld	a1, 552(sp)
	sd	a0, 264(sp)
	sd	a1, 272(sp)
	mv	a1, sp
	li	a2, 280
	mv	a0, s2
	call	memcpy
	ld	ra, 584(sp)
	ld	s0, 576(sp)
	ld	s1, 568(sp)
	ld	s2, 560(sp)
	addi	sp, sp, 592
	ret
.Lfunc_end01e6b:
	.size	eap_method.server_objects.side_of.__2_, .Lfunc_end01e6b-eap_method.server_objects.side_of.__2_

	.section	".text.end_objects::objects::ServerObjectServerMethod::begin","ax",@progbits
	.p2align	1
	.type	end_objects.objects.ServerObjectServerMethod.begin,@function
end_objects.objects.ServerObjectServerMethod.begin:
	addi	sp, sp, -352
	sd	ra, 344(sp)
	sd	s0, 336(sp)
	sd	s1, 328(sp)
	sd	s2, 320(sp)
	mv	s2, a2
	mv	s0, a0
	lbu	a0, 0(a0)
	beqz	a0, .LBB873f1_2
	ld	a2, 256(a1)
	addi	a0, s0, 8
	mv	s1, a1
	call	octet_lists.octets.Octets.set.__253_
	ld	a2, 272(s1)
	addi	a0, s0, 272
	addi	a1, s1, 264
	call	octet_lists.octets.Octets.set.__2_
	addi	a0, s0, 288
	li	a2, 32
	mv	a1, s2
	call	memmove
	li	a1, 1
	addi	a0, s0, 328
	li	a2, 826
	sb	a1, 320(s0)
	sb	zero, 321(s0)
	j	.LBB873f1_3
.LBB873f1_2:
	addi	a0, sp, 8
	call	eap_method.values.ServerSide.copy
	addi	a0, sp, 288
	li	a2, 32
	mv	a1, s2
	call	memcpy
	sb	zero, 12(s0)
	sb	zero, 13(s0)
	sb	zero, 14(s0)
	sb	zero, 15(s0)
	li	a0, 1
	sb	a0, 8(s0)
	sb	zero, 9(s0)
	sb	zero, 10(s0)
	sb	zero, 11(s0)
	addi	a0, s0, 16
	addi	a1, sp, 8
	li	a2, 312
	call	memcpy
	addi	a0, s0, 328
	li	a2, 922
.LBB873f1_3:
	li	a1, 0
	ld	ra, 344(sp)
	ld	s0, 336(sp)
	ld	s1, 328(sp)
	ld	s2, 320(sp)
	addi	sp, sp, 352
	tail	memset
.Lfunc_end873f1:
	.size	end_objects.objects.ServerObjectServerMethod.begin, .Lfunc_end873f1-end_objects.objects.ServerObjectServerMethod.begin

	.section	".text.eap_method::values::ServerSide::copy","ax",@progbits
	.p2align	1
	.type	eap_method.values.ServerSide.copy,@function
eap_method.values.ServerSide.copy:
	addi	sp, sp, -592
	sd	ra, 584(sp)
	sd	s0, 576(sp)
	sd	s1, 568(sp)
	sd	s2, 560(sp)
	mv	s1, a1
	ld	s0, 256(a1)
	mv	s2, a0
	addi	a0, sp, 280
	li	a2, 264
	li	a1, 0
	call	memset
	li	a0, 253
	bltu	a0, s0, .LBB44b20_2
	addi	a0, sp, 280
	mv	a1, s1
	mv	a2, s0
	call	memcpy
	sd	s0, 536(sp)
.LBB44b20_2:
	ld	s0, 272(s1)
	li	a0, 2
	sd	zero, 544(sp)
	sd	zero, 552(sp)
	bltu	a0, s0, .LBB44b20_4
	addi	a1, s1, 264
	addi	a0, sp, 544
	mv	a2, s0
	call	memcpy
	sd	s0, 552(sp)
.LBB44b20_4:
	mv	a0, sp
	addi	a1, sp, 280
	li	a2, 264
	call	memcpy
	ld	a0, 544(sp)
	ld	a1, 552(sp)
	sd	a0, 264(sp)
	sd	a1, 272(sp)
	mv	a1, sp
	li	a2, 280
	mv	a0, s2
	call	memcpy
	ld	ra, 584(sp)
	ld	s0, 576(sp)
	ld	s1, 568(sp)
	ld	s2, 560(sp)
	addi	sp, sp, 592
	ret
.Lfunc_end44b20:
	.size	eap_method.values.ServerSide.copy, .Lfunc_end44b20-eap_method.values.ServerSide.copy

	.section	".text.octet_lists::octets::Octets::set::<=253>","ax",@progbits
	.p2align	1
	.type	octet_lists.octets.Octets.set.__253_,@function
octet_lists.octets.Octets.set.__253_:
	addi	sp, sp, -32
	sd	ra, 24(sp)
	sd	s0, 16(sp)
	sd	s1, 8(sp)
	sd	s2, 0(sp)
	mv	s2, a2
	mv	s1, a0
	ld	a2, 256(a0)
	mv	s0, a1
	beqz	a2, .LBBcdbe8_2
	mv	a0, s1
	li	a1, 0
	call	memset
	sd	zero, 256(s1)
.LBBcdbe8_2:
	li	a0, 253
	bltu	a0, s2, .LBBcdbe8_8
	sub	a0, s1, s0
	bgeu	a0, s2, .LBBcdbe8_6
	add	a0, s0, s2
	mv	a1, s1
.LBBcdbe8_5:
	lbu	a2, 0(s0)
	addi	s0, s0, 1
	sb	a2, 0(a1)
	addi	a1, a1, 1
	bne	s0, a0, .LBBcdbe8_5
	j	.LBBcdbe8_7
.LBBcdbe8_6:
	mv	a0, s1
	mv	a1, s0
	mv	a2, s2
	call	memmove
.LBBcdbe8_7:
	sd	s2, 256(s1)
.LBBcdbe8_8:
	ld	ra, 24(sp)
	ld	s0, 16(sp)
	ld	s1, 8(sp)
	ld	s2, 0(sp)
	addi	sp, sp, 32
	ret
.Lfunc_endcdbe8:
	.size	octet_lists.octets.Octets.set.__253_, .Lfunc_endcdbe8-octet_lists.octets.Octets.set.__253_

	.section	".text.octet_lists::octets::Octets::set::<=2>","ax",@progbits
	.p2align	1
	.type	octet_lists.octets.Octets.set.__2_,@function
octet_lists.octets.Octets.set.__2_:
	addi	sp, sp, -32
	sd	ra, 24(sp)
	sd	s0, 16(sp)
	sd	s1, 8(sp)
	sd	s2, 0(sp)
	mv	s2, a2
	mv	s1, a0
	ld	a2, 8(a0)
	mv	s0, a1
	beqz	a2, .LBBaa9e7_2
	mv	a0, s1
	li	a1, 0
	call	memset
	sd	zero, 8(s1)
.LBBaa9e7_2:
	li	a0, 2
	bltu	a0, s2, .LBBaa9e7_8
	sub	a0, s1, s0
	bgeu	a0, s2, .LBBaa9e7_6
	add	a0, s0, s2
	mv	a1, s1
.LBBaa9e7_5:
	lbu	a2, 0(s0)
	addi	s0, s0, 1
	sb	a2, 0(a1)
	addi	a1, a1, 1
	bne	s0, a0, .LBBaa9e7_5
	j	.LBBaa9e7_7
.LBBaa9e7_6:
	mv	a0, s1
	mv	a1, s0
	mv	a2, s2
	call	memmove
.LBBaa9e7_7:
	sd	s2, 8(s1)
.LBBaa9e7_8:
	ld	ra, 24(sp)
	ld	s0, 16(sp)
	ld	s1, 8(sp)
	ld	s2, 0(sp)
	addi	sp, sp, 32
	ret
.Lfunc_endaa9e7:
	.size	octet_lists.octets.Octets.set.__2_, .Lfunc_endaa9e7-octet_lists.octets.Octets.set.__2_

	.section	".text.tuvaddri_c::deliver::deliver_to_peer","ax",@progbits
	.p2align	1
	.type	tuvaddri_c.deliver.deliver_to_peer,@function
tuvaddri_c.deliver.deliver_to_peer:
	addi	sp, sp, -1616
	sd	ra, 1608(sp)
	sd	s0, 1600(sp)
	sd	s1, 1592(sp)
	sd	s2, 1584(sp)
	sd	s3, 1576(sp)
	sd	s4, 1568(sp)
	mv	s1, a1
	lbu	a1, 0(a1)
	li	a4, 3
	mv	s0, a0
	bne	a1, a4, .LBB4cf40_3
	mv	s3, a2
	mv	s2, a3
	addi	s4, s1, 8
	addi	a0, sp, 32
	li	a2, 1512
	li	a1, 0
	call	memset
	lbu	a0, 768(s1)
	sd	zero, 1544(sp)
	sd	zero, 1552(sp)
	sd	zero, 1560(sp)
	sd	zero, 16(sp)
	sd	zero, 24(sp)
	beqz	a0, .LBB4cf40_4
	addi	a0, sp, 1544
	addi	a4, sp, 32
	addi	a5, sp, 16
	mv	a1, s4
	mv	a2, s3
	mv	a3, s2
	call	peer_machine.machine.PeerMachine.read.__b05093cacc003912_
	j	.LBB4cf40_5
.LBB4cf40_3:
	li	a1, 0
	li	a0, 0
	li	a4, 0
	li	a3, 0
	addi	a2, s1, 2047
	sb	zero, 585(a2)
	li	a2, 1
	j	.LBB4cf40_6
.LBB4cf40_4:
	addi	a0, sp, 1544
	addi	a4, sp, 32
	addi	a5, sp, 16
	mv	a1, s4
	mv	a2, s3
	mv	a3, s2
	call	peer_machine.machine.PeerMachine.receive_octets.__b05093cacc003912_
.LBB4cf40_5:
	li	a2, 0
	lbu	a0, 1560(sp)
	lbu	a1, 1562(sp)
	lbu	a4, 1561(sp)
	lbu	a3, 776(s1)
	addi	a5, s1, 2047
	sb	a1, 585(a5)
	seqz	a5, a0
	addi	a5, a5, -1
	and	a4, a4, a5
.LBB4cf40_6:
	sb	a1, 0(s0)
	sb	a0, 1(s0)
	sb	a2, 2(s0)
	sb	a4, 3(s0)
	sb	a3, 4(s0)
	ld	ra, 1608(sp)
	ld	s0, 1600(sp)
	ld	s1, 1592(sp)
	ld	s2, 1584(sp)
	ld	s3, 1576(sp)
	ld	s4, 1568(sp)
	addi	sp, sp, 1616
	ret
.Lfunc_end4cf40:
	.size	tuvaddri_c.deliver.deliver_to_peer, .Lfunc_end4cf40-tuvaddri_c.deliver.deliver_to_peer

	.section	".text.peer_machine::machine::PeerMachine::read::<#b05093cacc003912>","ax",@progbits
	.p2align	1
	.type	peer_machine.machine.PeerMachine.read.__b05093cacc003912_,@function
peer_machine.machine.PeerMachine.read.__b05093cacc003912_:
	addi	sp, sp, -224
	sd	ra, 216(sp)
	sd	s0, 208(sp)
	sd	s1, 200(sp)
	sd	s2, 192(sp)
	sd	s3, 184(sp)
	sd	s4, 176(sp)
	sd	s5, 168(sp)
	sd	s6, 160(sp)
	mv	s3, a5
	mv	s2, a4
	mv	s5, a3
	mv	s1, a2
	mv	s4, a1
	mv	s6, a0
	sd	zero, 56(sp)
	sd	zero, 64(sp)
	sd	zero, 24(sp)
	sd	zero, 32(sp)
	sd	zero, 40(sp)
	sd	zero, 48(sp)
	sd	zero, 0(sp)
	sd	zero, 8(sp)
	sd	zero, 16(sp)
	addi	a0, sp, 24
	mv	a1, a2
	mv	a2, a3
	call	eap_packet.packet.decode
	lbu	a0, 32(sp)
	lbu	a1, 24(sp)
	zext.b	a0, a0
	or	a0, a0, a1
	bnez	a0, .LBB6b3b2_4
	lbu	a0, 768(s4)
	addi	a1, sp, 33
	lui	a2, 512
	addi	a2, a2, -129
	slli	a2, a2, 12
	addi	a2, a2, 1023
	srl	a0, a2, a0
	andi	a0, a0, 1
	beqz	a0, .LBB6b3b2_4
	sb	zero, 72(sp)
	addi	a0, sp, 73
	li	a2, 39
	call	memcpy
	sd	zero, 112(sp)
	sd	zero, 120(sp)
	sd	zero, 128(sp)
	addi	a0, sp, 72
	call	eap_packet.expanded.is_bad_expanded
	beqz	a0, .LBB6b3b2_5
	li	s3, 0
	li	s0, 8
	li	s1, 1
	li	a0, 3
	lui	a1, 17
	addi	a1, a1, -1790
	j	.LBB6b3b2_14
.LBB6b3b2_4:
	mv	a0, sp
	mv	a1, s4
	mv	a2, s1
	mv	a3, s5
	mv	a4, s2
	mv	a5, s3
	call	peer_machine.machine.PeerMachine.receive_octets.__b05093cacc003912_
	lbu	s1, 16(sp)
	lbu	s0, 17(sp)
	lbu	s3, 18(sp)
	j	.LBB6b3b2_15
.LBB6b3b2_5:
	lbu	a0, 74(sp)
	li	a1, 254
	bne	a0, a1, .LBB6b3b2_12
	li	s0, 0
	lbu	a0, 773(s4)
	li	a1, 1
	sd	zero, 152(sp)
	bne	a0, a1, .LBB6b3b2_8
	lbu	a0, 73(sp)
	lbu	a1, 774(s4)
	xor	a0, a0, a1
	seqz	s0, a0
.LBB6b3b2_8:
	addi	a0, sp, 136
	addi	a2, sp, 72
	mv	a1, s4
	mv	a3, s1
	mv	a4, s5
	mv	a5, s2
	mv	a6, s3
	call	peer_machine.machine.PeerMachine.receive_plain.__b05093cacc003912_
	lbu	s3, 154(sp)
	bnez	s0, .LBB6b3b2_11
	beqz	s3, .LBB6b3b2_11
	mv	a0, s4
	mv	a1, s2
	call	peer_machine.machine.express
.LBB6b3b2_11:
	ld	a0, 136(sp)
	ld	a1, 144(sp)
	lbu	s1, 152(sp)
	lbu	s0, 153(sp)
	sd	a0, 112(sp)
	sd	a1, 120(sp)
	j	.LBB6b3b2_13
.LBB6b3b2_12:
	addi	a0, sp, 112
	mv	a1, s4
	mv	a2, s1
	mv	a3, s5
	mv	a4, s2
	mv	a5, s3
	call	peer_machine.machine.PeerMachine.receive_octets.__b05093cacc003912_
	lbu	s1, 128(sp)
	lbu	s0, 129(sp)
	lbu	s3, 130(sp)
.LBB6b3b2_13:
	ld	a1, 112(sp)
	ld	a0, 120(sp)
.LBB6b3b2_14:
	sd	a1, 0(sp)
	sd	a0, 8(sp)
.LBB6b3b2_15:
	mv	a1, sp
	li	a2, 16
	mv	a0, s6
	call	memcpy
	sb	s1, 16(s6)
	sb	s0, 17(s6)
	sb	s3, 18(s6)
	ld	ra, 216(sp)
	ld	s0, 208(sp)
	ld	s1, 200(sp)
	ld	s2, 192(sp)
	ld	s3, 184(sp)
	ld	s4, 176(sp)
	ld	s5, 168(sp)
	ld	s6, 160(sp)
	addi	sp, sp, 224
	ret
.Lfunc_end6b3b2:
	.size	peer_machine.machine.PeerMachine.read.__b05093cacc003912_, .Lfunc_end6b3b2-peer_machine.machine.PeerMachine.read.__b05093cacc003912_

	.section	".text.eap_packet::packet::decode","ax",@progbits
	.p2align	1
	.type	eap_packet.packet.decode,@function
eap_packet.packet.decode:
	addi	sp, sp, -128
	sd	ra, 120(sp)
	sd	s0, 112(sp)
	sd	s1, 104(sp)
	sd	s2, 96(sp)
	sd	s3, 88(sp)
	sd	s4, 80(sp)
	sd	s5, 72(sp)
	sd	s6, 64(sp)
	sd	s7, 56(sp)
	sd	s8, 48(sp)
	sd	s9, 40(sp)
	sd	s10, 32(sp)
	sd	s11, 24(sp)
	li	a3, 4
	sw	zero, 8(sp)
	sb	zero, 12(sp)
	bgeu	a2, a3, .LBB162b8_2
	li	t1, 0
	li	t0, 0
	li	a7, 0
	li	s5, 0
	li	s6, 0
	li	a1, 0
	li	t2, 0
	li	a4, 0
	li	a6, 1
	j	.LBB162b8_10
.LBB162b8_2:
	lbu	s1, 0(a1)
	addi	a4, s1, -5
	li	a5, -4
	li	a6, 1
	bgeu	a4, a5, .LBB162b8_4
	li	t1, 0
	li	t0, 0
	li	a7, 0
	li	s5, 0
	li	s6, 0
	li	a1, 0
	li	t2, 0
	li	a4, 1
	j	.LBB162b8_10
.LBB162b8_4:
	lbu	a4, 2(a1)
	lbu	a5, 3(a1)
	slli	a4, a4, 8
	li	a7, 3
	or	t2, a4, a5
	bltu	s1, a7, .LBB162b8_8
	addi	a4, t2, -4
	snez	a4, a4
	bnez	a4, .LBB162b8_9
.LBB162b8_6:
	bgeu	a2, t2, .LBB162b8_11
	li	t1, 0
	li	t0, 0
	li	a7, 0
	li	s5, 0
	li	s6, 0
	li	a1, 0
	li	t2, 0
	li	a4, 3
	j	.LBB162b8_10
.LBB162b8_8:
	sltiu	a4, t2, 5
	beqz	a4, .LBB162b8_6
.LBB162b8_9:
	li	t1, 0
	li	t0, 0
	li	a7, 0
	li	s5, 0
	li	s6, 0
	li	a1, 0
	li	t2, 0
	li	a4, 2
.LBB162b8_10:
	sb	a6, 0(a0)
	sb	a4, 1(a0)
	sb	t1, 8(a0)
	sb	t0, 9(a0)
	lbu	a6, 8(sp)
	lbu	t0, 9(sp)
	lbu	t1, 10(sp)
	lbu	t3, 11(sp)
	lbu	t4, 12(sp)
	srli	t6, s5, 56
	srli	s2, s5, 48
	srli	s7, s5, 40
	srli	s8, s5, 32
	srli	s9, s5, 24
	srli	ra, s5, 16
	srli	t5, s5, 8
	srli	s3, s6, 56
	srli	s4, s6, 48
	srli	a5, s6, 40
	srli	a3, s6, 32
	srli	a4, s6, 24
	srli	s0, s6, 16
	srli	s1, s6, 8
	srli	s10, a1, 56
	srli	s11, a1, 48
	srli	a2, a1, 40
	sb	ra, 18(a0)
	sb	s9, 19(a0)
	sb	s8, 20(a0)
	sb	s7, 21(a0)
	srli	s7, a1, 32
	sb	s0, 26(a0)
	sb	a4, 27(a0)
	sb	a3, 28(a0)
	sb	a5, 29(a0)
	srli	a3, a1, 24
	sb	s2, 22(a0)
	sb	t6, 23(a0)
	sb	s6, 24(a0)
	sb	s1, 25(a0)
	srli	a4, a1, 16
	sb	a4, 34(a0)
	sb	a3, 35(a0)
	sb	s7, 36(a0)
	sb	a2, 37(a0)
	srli	a2, a1, 8
	sb	zero, 46(a0)
	sb	zero, 47(a0)
	sb	zero, 42(a0)
	sb	zero, 43(a0)
	sb	zero, 44(a0)
	sb	zero, 45(a0)
	sb	s4, 30(a0)
	sb	s3, 31(a0)
	sb	a1, 32(a0)
	sb	a2, 33(a0)
	srli	a1, t2, 8
	sb	a7, 10(a0)
	sb	a6, 11(a0)
	sb	t0, 12(a0)
	sb	t1, 13(a0)
	sb	t3, 14(a0)
	sb	t4, 15(a0)
	sb	s5, 16(a0)
	sb	t5, 17(a0)
	sb	s11, 38(a0)
	sb	s10, 39(a0)
	sb	t2, 40(a0)
	sb	a1, 41(a0)
	ld	ra, 120(sp)
	ld	s0, 112(sp)
	ld	s1, 104(sp)
	ld	s2, 96(sp)
	ld	s3, 88(sp)
	ld	s4, 80(sp)
	ld	s5, 72(sp)
	ld	s6, 64(sp)
	ld	s7, 56(sp)
	ld	s8, 48(sp)
	ld	s9, 40(sp)
	ld	s10, 32(sp)
	ld	s11, 24(sp)
	addi	sp, sp, 128
	ret
.LBB162b8_11:
	li	a2, 1500
	bgeu	a2, t2, .LBB162b8_13
	li	t1, 0
	li	t0, 0
	li	a7, 0
	li	s5, 0
	li	s6, 0
	li	a1, 0
	li	t2, 0
	li	a4, 4
	j	.LBB162b8_10
.LBB162b8_13:
	li	a2, 2
	beq	s1, a2, .LBB162b8_17
	li	a6, 1
	bne	s1, a6, .LBB162b8_20
	lbu	a2, 4(a1)
	li	t1, 0
	li	a3, 3
	bne	a2, a3, .LBB162b8_21
	li	t0, 0
	li	a7, 0
	li	s5, 0
	li	s6, 0
	li	a1, 0
	li	t2, 0
	li	a4, 5
	j	.LBB162b8_10
.LBB162b8_17:
	li	a2, 5
	bne	t2, a2, .LBB162b8_22
	lbu	a2, 4(a1)
	li	a3, 3
	bne	a2, a3, .LBB162b8_22
	li	t1, 0
	li	t0, 0
	li	a7, 0
	li	s5, 0
	li	s6, 0
	li	a1, 0
	li	t2, 0
	li	a4, 6
	j	.LBB162b8_10
.LBB162b8_20:
	li	a7, 0
	li	s6, 0
	addi	s1, s1, -3
	lbu	t0, 1(a1)
	sw	zero, 16(sp)
	sb	zero, 20(sp)
	li	t2, 4
	seqz	a2, s1
	xori	t1, a2, 3
.Lpcrel_hi2:
	auipc	a4, %pcrel_hi(.Lstatic.0)
	addi	s5, a4, %pcrel_lo(.Lpcrel_hi2)
	j	.LBB162b8_23
.LBB162b8_21:
	lbu	t0, 1(a1)
	lbu	a7, 4(a1)
	addi	s5, a1, 5
	addi	s6, t2, -5
	sw	zero, 16(sp)
	sb	zero, 20(sp)
	j	.LBB162b8_23
.LBB162b8_22:
	lbu	t0, 1(a1)
	lbu	a7, 4(a1)
	addi	s5, a1, 5
	addi	s6, t2, -5
	sw	zero, 16(sp)
	sb	zero, 20(sp)
	li	t1, 1
.LBB162b8_23:
	li	a6, 0
	li	a4, 0
	lw	a2, 16(sp)
	lbu	t3, 20(sp)
	sw	a2, 0(sp)
	sb	t3, 4(sp)
	sw	a2, 8(sp)
	sb	t3, 12(sp)
	j	.LBB162b8_10
.Lfunc_end162b8:
	.size	eap_packet.packet.decode, .Lfunc_end162b8-eap_packet.packet.decode

	.section	".text.eap_packet::expanded::is_bad_expanded","ax",@progbits
	.p2align	1
	.type	eap_packet.expanded.is_bad_expanded,@function
eap_packet.expanded.is_bad_expanded:
	addi	sp, sp, -32
	sd	ra, 24(sp)
	sd	s0, 16(sp)
	sd	s1, 8(sp)
	lbu	a1, 0(a0)
	addi	a2, a1, -2
	li	a3, 2
	bgeu	a2, a3, .LBB03557_3
.LBB03557_1:
	li	a0, 0
.LBB03557_2:
	ld	ra, 24(sp)
	ld	s0, 16(sp)
	ld	s1, 8(sp)
	addi	sp, sp, 32
	ret
.LBB03557_3:
	li	a2, 1
	bne	a1, a2, .LBB03557_13
	lbu	a1, 2(a0)
	li	a2, 254
	bne	a1, a2, .LBB03557_1
	lbu	a1, 17(a0)
	lbu	a2, 18(a0)
	lbu	a3, 19(a0)
	lbu	a4, 16(a0)
	slli	a1, a1, 8
	slli	a2, a2, 16
	slli	a3, a3, 24
	or	a1, a1, a4
	or	a2, a2, a3
	lbu	a3, 21(a0)
	lbu	a4, 20(a0)
	lbu	a5, 22(a0)
	lbu	s1, 23(a0)
	slli	a3, a3, 8
	or	a3, a3, a4
	slli	a5, a5, 16
	slli	s1, s1, 24
	or	a5, a5, s1
	or	a1, a1, a2
	or	a3, a3, a5
	slli	a3, a3, 32
	or	s0, a3, a1
	li	a1, 7
	bltu	s0, a1, .LBB03557_15
	lbu	a1, 9(a0)
	lbu	a2, 10(a0)
	lbu	a3, 11(a0)
	lbu	a4, 8(a0)
	slli	a1, a1, 8
	slli	a2, a2, 16
	slli	a3, a3, 24
	or	a1, a1, a4
	or	a2, a2, a3
	lbu	a3, 13(a0)
	lbu	a4, 12(a0)
	lbu	a5, 14(a0)
	lbu	a0, 15(a0)
	slli	a3, a3, 8
	or	a3, a3, a4
	slli	a5, a5, 16
	slli	a0, a0, 24
	or	a0, a0, a5
	or	a1, a1, a2
	or	a0, a0, a3
	slli	a0, a0, 32
	or	s1, a0, a1
	mv	a0, s1
	mv	a1, s0
	call	eap_packet.expanded.is_ietf
	beqz	a0, .LBB03557_2
	lbu	a0, 6(s1)
	li	a1, 3
	bne	a0, a1, .LBB03557_1
	addi	s0, s0, -7
	beqz	s0, .LBB03557_15
	andi	a1, s0, 7
	li	a0, 1
	bnez	a1, .LBB03557_2
	addi	s1, s1, 7
.LBB03557_11:
	sltiu	a0, s0, 8
	li	a1, 8
	xori	a0, a0, 1
	bltu	s0, a1, .LBB03557_2
	lbu	a1, 0(s1)
	addi	s1, s1, 8
	li	a2, 254
	addi	s0, s0, -8
	beq	a1, a2, .LBB03557_11
	j	.LBB03557_2
.LBB03557_13:
	lbu	a1, 2(a0)
	li	a2, 254
	bne	a1, a2, .LBB03557_1
	lbu	a1, 17(a0)
	lbu	a2, 18(a0)
	lbu	a3, 19(a0)
	lbu	a4, 16(a0)
	slli	a1, a1, 8
	slli	a2, a2, 16
	slli	a3, a3, 24
	or	a1, a1, a4
	or	a2, a2, a3
	lbu	a3, 21(a0)
	lbu	a4, 20(a0)
	lbu	a5, 22(a0)
	lbu	s1, 23(a0)
	slli	a3, a3, 8
	or	a3, a3, a4
	slli	a5, a5, 16
	slli	s1, s1, 24
	or	a5, a5, s1
	or	a1, a1, a2
	or	a3, a3, a5
	slli	a3, a3, 32
	or	a1, a1, a3
	li	a2, 7
	bgeu	a1, a2, .LBB03557_16
.LBB03557_15:
	li	a0, 1
	j	.LBB03557_2
.LBB03557_16:
	lbu	a2, 9(a0)
	lbu	a3, 10(a0)
	lbu	a4, 11(a0)
	lbu	a5, 8(a0)
	slli	a2, a2, 8
	slli	a3, a3, 16
	slli	a4, a4, 24
	or	a2, a2, a5
	or	a3, a3, a4
	lbu	a4, 13(a0)
	lbu	a5, 12(a0)
	lbu	s1, 14(a0)
	lbu	a0, 15(a0)
	slli	a4, a4, 8
	or	a4, a4, a5
	slli	s1, s1, 16
	slli	a0, a0, 24
	or	a0, a0, s1
	or	a2, a2, a3
	or	a0, a0, a4
	slli	a0, a0, 32
	or	s0, a0, a2
	mv	a0, s0
	call	eap_packet.expanded.is_ietf
	beqz	a0, .LBB03557_2
	lbu	a0, 6(s0)
	addi	a0, a0, -3
	seqz	a0, a0
	j	.LBB03557_2
.Lfunc_end03557:
	.size	eap_packet.expanded.is_bad_expanded, .Lfunc_end03557-eap_packet.expanded.is_bad_expanded

	.section	".text.eap_packet::expanded::is_ietf","ax",@progbits
	.p2align	1
	.type	eap_packet.expanded.is_ietf,@function
eap_packet.expanded.is_ietf:
	li	a2, 7
	bltu	a1, a2, .LBBd54be_2
	lbu	a1, 0(a0)
	lbu	a2, 1(a0)
	lbu	a3, 2(a0)
	lbu	a4, 3(a0)
	or	a1, a1, a2
	or	a3, a3, a4
	or	a1, a1, a3
	beqz	a1, .LBBd54be_3
.LBBd54be_2:
	li	a0, 0
	ret
.LBBd54be_3:
	addi	sp, sp, -16
	sd	ra, 8(sp)
.Lpcrel_hi3:
	auipc	a2, %pcrel_hi(.Lstatic.6)
	li	a1, 6
	addi	a2, a2, %pcrel_lo(.Lpcrel_hi3)
	li	a3, 6
	call	core.cmp.slices.groups_equal._i8_31_core.cmp.numbers.U8PartialEq___
	ld	ra, 8(sp)
	addi	sp, sp, 16
	ret
.Lfunc_endd54be:
	.size	eap_packet.expanded.is_ietf, .Lfunc_endd54be-eap_packet.expanded.is_ietf

	.section	".text.peer_machine::machine::PeerMachine::receive_plain::<#b05093cacc003912>","ax",@progbits
	.p2align	1
	.type	peer_machine.machine.PeerMachine.receive_plain.__b05093cacc003912_,@function
peer_machine.machine.PeerMachine.receive_plain.__b05093cacc003912_:
	addi	sp, sp, -1616
	sd	ra, 1608(sp)
	sd	s0, 1600(sp)
	sd	s1, 1592(sp)
	sd	s2, 1584(sp)
	sd	s3, 1576(sp)
	sd	s4, 1568(sp)
	sd	s5, 1560(sp)
	sd	s6, 1552(sp)
	mv	s2, a6
	mv	s3, a5
	mv	s4, a4
	mv	s5, a3
	mv	s1, a2
	mv	s6, a1
	mv	s0, a0
	sd	zero, 16(sp)
	sd	zero, 24(sp)
	sd	zero, 32(sp)
	addi	a0, sp, 40
	li	a2, 1512
	li	a1, 0
	call	memset
	addi	a1, sp, 40
	mv	a0, s1
	call	eap_packet.expanded.write_plain
	beqz	a0, .LBB08347_2
	ld	a3, 1544(sp)
	addi	a0, sp, 16
	addi	a2, sp, 40
	mv	a1, s6
	j	.LBB08347_3
.LBB08347_2:
	addi	a0, sp, 16
	mv	a1, s6
	mv	a2, s5
	mv	a3, s4
.LBB08347_3:
	mv	a4, s3
	mv	a5, s2
	call	peer_machine.machine.PeerMachine.receive_octets.__b05093cacc003912_
	lbu	s1, 32(sp)
	lbu	s2, 33(sp)
	lbu	s3, 34(sp)
	addi	a1, sp, 16
	li	a2, 16
	mv	a0, s0
	call	memcpy
	sb	s1, 16(s0)
	sb	s2, 17(s0)
	sb	s3, 18(s0)
	ld	ra, 1608(sp)
	ld	s0, 1600(sp)
	ld	s1, 1592(sp)
	ld	s2, 1584(sp)
	ld	s3, 1576(sp)
	ld	s4, 1568(sp)
	ld	s5, 1560(sp)
	ld	s6, 1552(sp)
	addi	sp, sp, 1616
	ret
.Lfunc_end08347:
	.size	peer_machine.machine.PeerMachine.receive_plain.__b05093cacc003912_, .Lfunc_end08347-peer_machine.machine.PeerMachine.receive_plain.__b05093cacc003912_

	.section	".text.eap_packet::expanded::write_plain","ax",@progbits
	.p2align	1
	.type	eap_packet.expanded.write_plain,@function
eap_packet.expanded.write_plain:
	addi	sp, sp, -48
	sd	ra, 40(sp)
	sd	s0, 32(sp)
	sd	s1, 24(sp)
	sd	s2, 16(sp)
	sd	s3, 8(sp)
	sd	s4, 0(sp)
	lbu	s0, 0(a0)
	addi	a2, s0, -2
	li	a3, 2
	bgeu	a2, a3, .LBB93779_3
.LBB93779_1:
	li	a0, 0
.LBB93779_2:
	ld	ra, 40(sp)
	ld	s0, 32(sp)
	ld	s1, 24(sp)
	ld	s2, 16(sp)
	ld	s3, 8(sp)
	ld	s4, 0(sp)
	addi	sp, sp, 48
	ret
.LBB93779_3:
	li	a2, 1
	bne	s0, a2, .LBB93779_9
	lbu	a2, 2(a0)
	li	a3, 254
	bne	a2, a3, .LBB93779_1
	mv	s3, a1
	lbu	a1, 8(a0)
	lbu	a2, 9(a0)
	lbu	a3, 10(a0)
	lbu	a4, 11(a0)
	lbu	a6, 12(a0)
	lbu	a7, 13(a0)
	lbu	a5, 14(a0)
	lbu	s1, 15(a0)
	slli	a2, a2, 8
	slli	a3, a3, 16
	slli	a4, a4, 24
	or	t0, a2, a1
	or	t1, a4, a3
	lbu	a2, 16(a0)
	lbu	a4, 17(a0)
	lbu	a1, 18(a0)
	lbu	a3, 19(a0)
	slli	a7, a7, 8
	slli	a5, a5, 16
	slli	s1, s1, 24
	slli	a4, a4, 8
	slli	a1, a1, 16
	slli	a3, a3, 24
	or	a6, a7, a6
	or	a5, a5, s1
	or	a2, a2, a4
	or	a1, a1, a3
	lbu	a3, 21(a0)
	lbu	a4, 20(a0)
	lbu	s1, 22(a0)
	mv	s4, a0
	lbu	a0, 23(a0)
	slli	a3, a3, 8
	or	a3, a3, a4
	slli	s1, s1, 16
	slli	a0, a0, 24
	or	a0, a0, s1
	or	a4, t1, t0
	or	a5, a5, a6
	or	a1, a1, a2
	or	a0, a0, a3
	slli	a5, a5, 32
	slli	a0, a0, 32
	or	s1, a5, a4
	or	s2, a0, a1
	mv	a0, s1
	mv	a1, s2
	call	eap_packet.expanded.is_ietf
	beqz	a0, .LBB93779_2
	lbu	a3, 6(s1)
	li	a0, 0
	beqz	a3, .LBB93779_2
	li	a2, 3
	beq	a3, a2, .LBB93779_2
	mv	a1, s3
	li	a2, 254
	beq	a3, a2, .LBB93779_2
	j	.LBB93779_14
.LBB93779_9:
	lbu	a2, 2(a0)
	li	a3, 254
	bne	a2, a3, .LBB93779_1
	mv	s3, a1
	lbu	a1, 8(a0)
	lbu	a2, 9(a0)
	lbu	a3, 10(a0)
	lbu	a4, 11(a0)
	lbu	a6, 12(a0)
	lbu	a7, 13(a0)
	lbu	a5, 14(a0)
	lbu	s1, 15(a0)
	slli	a2, a2, 8
	slli	a3, a3, 16
	slli	a4, a4, 24
	or	t0, a2, a1
	or	t1, a4, a3
	lbu	a2, 16(a0)
	lbu	a4, 17(a0)
	lbu	a1, 18(a0)
	lbu	a3, 19(a0)
	slli	a7, a7, 8
	slli	a5, a5, 16
	slli	s1, s1, 24
	slli	a4, a4, 8
	slli	a1, a1, 16
	slli	a3, a3, 24
	or	a6, a7, a6
	or	a5, a5, s1
	or	a2, a2, a4
	or	a1, a1, a3
	lbu	a3, 21(a0)
	lbu	a4, 20(a0)
	lbu	s1, 22(a0)
	mv	s4, a0
	lbu	a0, 23(a0)
	slli	a3, a3, 8
	or	a3, a3, a4
	slli	s1, s1, 16
	slli	a0, a0, 24
	or	a0, a0, s1
	or	a4, t1, t0
	or	a5, a5, a6
	or	a1, a1, a2
	or	a0, a0, a3
	slli	a5, a5, 32
	slli	a0, a0, 32
	or	s1, a5, a4
	or	s2, a0, a1
	mv	a0, s1
	mv	a1, s2
	call	eap_packet.expanded.is_ietf
	beqz	a0, .LBB93779_2
	lbu	a3, 6(s1)
	li	a0, 0
	beqz	a3, .LBB93779_2
	li	a1, 254
	beq	a3, a1, .LBB93779_2
	li	a2, 3
	mv	a1, s3
	beq	a3, a2, .LBB93779_2
.LBB93779_14:
	lbu	a2, 1(s4)
	addi	a4, s2, -7
	mv	a0, a1
	mv	s2, a1
	mv	a1, s0
	call	eap_packet.packet.init_into
	lbu	a0, 17(s4)
	lbu	a2, 18(s4)
	lbu	a4, 19(s4)
	lbu	a5, 16(s4)
	slli	a0, a0, 8
	slli	a2, a2, 16
	slli	a4, a4, 24
	or	a0, a0, a5
	or	a2, a2, a4
	lbu	a4, 21(s4)
	lbu	a5, 20(s4)
	lbu	s1, 22(s4)
	lbu	s0, 23(s4)
	slli	a4, a4, 8
	or	a4, a4, a5
	slli	s1, s1, 16
	slli	s0, s0, 24
	or	s0, s0, s1
	ld	s3, 1504(s2)
	or	a0, a0, a2
	li	a2, 1500
	or	a4, a4, s0
	slli	a4, a4, 32
	or	a4, a4, a0
	addi	s0, a4, -7
	sub	a2, a2, s3
	li	a0, 1
	bltu	a2, s0, .LBB93779_2
	mv	a6, s2
	lbu	a2, 9(s4)
	lbu	a5, 10(s4)
	lbu	a3, 11(s4)
	lbu	s1, 8(s4)
	slli	a2, a2, 8
	slli	a5, a5, 16
	slli	a3, a3, 24
	or	a7, a2, s1
	or	a3, a3, a5
	lbu	a5, 13(s4)
	lbu	s1, 12(s4)
	lbu	a2, 14(s4)
	lbu	a1, 15(s4)
	slli	a5, a5, 8
	or	a5, a5, s1
	slli	a2, a2, 16
	slli	a1, a1, 24
	or	a1, a1, a2
	or	a2, a3, a7
	or	a1, a1, a5
	slli	a1, a1, 32
	or	a5, a1, a2
	addi	a1, a5, 7
	add	a2, s2, s3
	sub	a3, a2, a1
	bgeu	a3, s0, .LBB93779_18
	add	a4, a4, a5
.LBB93779_17:
	lbu	a3, 0(a1)
	addi	a1, a1, 1
	sb	a3, 0(a2)
	addi	a2, a2, 1
	bne	a1, a4, .LBB93779_17
	j	.LBB93779_19
.LBB93779_18:
	mv	a0, a2
	mv	a2, s0
	call	memmove
	li	a0, 1
	mv	a6, s2
.LBB93779_19:
	add	s0, s0, s3
	sd	s0, 1504(a6)
	j	.LBB93779_2
.Lfunc_end93779:
	.size	eap_packet.expanded.write_plain, .Lfunc_end93779-eap_packet.expanded.write_plain

	.section	".text.eap_packet::packet::init_into","ax",@progbits
	.p2align	1
	.type	eap_packet.packet.init_into,@function
eap_packet.packet.init_into:
	addi	sp, sp, -48
	sd	ra, 40(sp)
	sd	s0, 32(sp)
	sd	s1, 24(sp)
	sd	s2, 16(sp)
	mv	s2, a3
	mv	s0, a0
	addi	a1, a1, 1
	addi	a4, a4, 5
	lui	a0, 16
	zext.b	a3, a2
	addi	a0, a0, -256
	and	a0, a0, a4
	slli	a4, a4, 24
	slli	a0, a0, 8
	or	a0, a0, a4
	ld	a2, 1504(s0)
	slli	a3, a3, 8
	zext.b	a1, a1
	or	a1, a1, a3
	or	s1, a0, a1
	sw	s1, 12(sp)
	beqz	a2, .LBB215ee_2
	mv	a0, s0
	li	a1, 0
	call	memset
.LBB215ee_2:
	addi	a0, sp, 12
	sub	a0, s0, a0
	li	a1, 4
	bgeu	a0, a1, .LBB215ee_4
	lw	s1, 12(sp)
.LBB215ee_4:
	srli	a0, s1, 24
	srli	a1, s1, 16
	srli	a2, s1, 8
	sb	s2, 4(s0)
	li	a3, 5
	sb	s1, 0(s0)
	sb	a2, 1(s0)
	sb	a1, 2(s0)
	sb	a0, 3(s0)
	sd	a3, 1504(s0)
	ld	ra, 40(sp)
	ld	s0, 32(sp)
	ld	s1, 24(sp)
	ld	s2, 16(sp)
	addi	sp, sp, 48
	ret
.Lfunc_end215ee:
	.size	eap_packet.packet.init_into, .Lfunc_end215ee-eap_packet.packet.init_into

	.section	".text.octet_lists::octets::Octets::set::<=1500>","ax",@progbits
	.p2align	1
	.type	octet_lists.octets.Octets.set.__1500_,@function
octet_lists.octets.Octets.set.__1500_:
	addi	sp, sp, -32
	sd	ra, 24(sp)
	sd	s0, 16(sp)
	sd	s1, 8(sp)
	sd	s2, 0(sp)
	mv	s2, a2
	mv	s1, a0
	ld	a2, 1504(a0)
	mv	s0, a1
	beqz	a2, .LBB9b30d_2
	mv	a0, s1
	li	a1, 0
	call	memset
	sd	zero, 1504(s1)
.LBB9b30d_2:
	li	a0, 1500
	bltu	a0, s2, .LBB9b30d_8
	sub	a0, s1, s0
	bgeu	a0, s2, .LBB9b30d_6
	add	a0, s0, s2
	mv	a1, s1
.LBB9b30d_5:
	lbu	a2, 0(s0)
	addi	s0, s0, 1
	sb	a2, 0(a1)
	addi	a1, a1, 1
	bne	s0, a0, .LBB9b30d_5
	j	.LBB9b30d_7
.LBB9b30d_6:
	mv	a0, s1
	mv	a1, s0
	mv	a2, s2
	call	memmove
.LBB9b30d_7:
	sd	s2, 1504(s1)
.LBB9b30d_8:
	ld	ra, 24(sp)
	ld	s0, 16(sp)
	ld	s1, 8(sp)
	ld	s2, 0(sp)
	addi	sp, sp, 32
	ret
.Lfunc_end9b30d:
	.size	octet_lists.octets.Octets.set.__1500_, .Lfunc_end9b30d-octet_lists.octets.Octets.set.__1500_

	.section	".text.peer_machine::machine::express","ax",@progbits
	.p2align	1
	.type	peer_machine.machine.express,@function
peer_machine.machine.express:
	addi	sp, sp, -128
	sd	ra, 120(sp)
	sd	s0, 112(sp)
	sd	s1, 104(sp)
	sd	s2, 96(sp)
	sd	s3, 88(sp)
	mv	s0, a1
	lbu	a1, 4(a1)
	li	a2, 3
	mv	s2, a0
	bne	a1, a2, .LBB6897e_10
	ld	s1, 544(s2)
	lbu	a2, 1(s0)
	beqz	s1, .LBB6897e_12
	li	a0, 3
	sd	zero, 48(sp)
	sd	zero, 56(sp)
	bltu	s1, a0, .LBB6897e_13
	sd	zero, 48(sp)
	sd	zero, 56(sp)
	sd	zero, 64(sp)
.LBB6897e_4:
	ld	a0, 48(sp)
	ld	a1, 56(sp)
	ld	s1, 64(sp)
	sd	a0, 24(sp)
	sd	a1, 32(sp)
	sd	s1, 40(sp)
	sd	a0, 0(sp)
	sd	a1, 8(sp)
	sd	s1, 16(sp)
	addi	a4, s1, 7
	li	a1, 1
	li	a3, 254
	mv	a0, s0
	call	eap_packet.packet.init_into
	ld	a0, 1504(s0)
	addi	a1, a0, -1495
	li	a2, 6
	bltu	a1, a2, .LBB6897e_6
	add	a1, s0, a0
	addi	a0, a0, 6
	sb	zero, 4(a1)
	sb	zero, 5(a1)
	sb	zero, 0(a1)
	sb	zero, 1(a1)
	sb	zero, 2(a1)
	sb	zero, 3(a1)
	sd	a0, 1504(s0)
.LBB6897e_6:
	li	a1, 1500
	li	a2, 1500
	beq	a0, a1, .LBB6897e_8
	add	a3, s0, a0
	li	a4, 3
	addi	a2, a0, 1
	sb	a4, 0(a3)
	sd	a2, 1504(s0)
.LBB6897e_8:
	sub	a1, a1, a2
	bltu	a1, s1, .LBB6897e_11
	add	a0, s0, a2
	mv	a1, sp
	mv	s3, a2
	mv	a2, s1
	call	memcpy
	add	a2, s3, s1
	sd	a2, 1504(s0)
	j	.LBB6897e_11
.LBB6897e_10:
	mv	a0, s0
	call	eap_packet.expanded.wrap_in_place
	ld	a2, 1504(s0)
.LBB6897e_11:
	addi	a0, s2, 776
	mv	a1, s0
	ld	ra, 120(sp)
	ld	s0, 112(sp)
	ld	s1, 104(sp)
	ld	s2, 96(sp)
	ld	s3, 88(sp)
	addi	sp, sp, 128
	tail	octet_lists.octets.Octets.set.__1500_
.LBB6897e_12:
	li	s1, 1
	sd	zero, 72(sp)
	j	.LBB6897e_14
.LBB6897e_13:
	addi	a1, s2, 536
	addi	a0, sp, 48
	mv	s3, a2
	mv	a2, s1
	call	memcpy
	mv	a2, s3
	ld	a0, 48(sp)
	sd	a0, 72(sp)
.LBB6897e_14:
	sd	s1, 80(sp)
	sd	zero, 48(sp)
	sd	zero, 56(sp)
	sd	zero, 64(sp)
	li	a0, 0
	addi	a1, sp, 72
	j	.LBB6897e_16
.LBB6897e_15:
	addi	s1, s1, -1
	addi	a1, a1, 1
	beqz	s1, .LBB6897e_4
.LBB6897e_16:
	addi	a3, a0, -9
	li	a4, 8
	bltu	a3, a4, .LBB6897e_15
	lbu	a3, 0(a1)
	addi	a4, sp, 48
	li	a5, -2
	add	a4, a4, a0
	addi	a0, a0, 8
	sb	a5, 0(a4)
	sb	zero, 1(a4)
	sb	zero, 2(a4)
	sb	zero, 3(a4)
	sb	zero, 4(a4)
	sb	zero, 5(a4)
	sb	zero, 6(a4)
	sb	a3, 7(a4)
	sd	a0, 64(sp)
	j	.LBB6897e_15
.Lfunc_end6897e:
	.size	peer_machine.machine.express, .Lfunc_end6897e-peer_machine.machine.express

	.section	".text.eap_packet::expanded::wrap_in_place","ax",@progbits
	.p2align	1
	.type	eap_packet.expanded.wrap_in_place,@function
eap_packet.expanded.wrap_in_place:
	addi	sp, sp, -2032
	sd	ra, 2024(sp)
	sd	s0, 2016(sp)
	sd	s1, 2008(sp)
	sd	s2, 2000(sp)
	sd	s3, 1992(sp)
	sd	s4, 1984(sp)
	sd	s5, 1976(sp)
	sd	s6, 1968(sp)
	addi	sp, sp, -1072
	mv	s0, a0
	ld	s1, 1504(a0)
	addi	a0, sp, 1528
	li	a2, 1512
	li	a1, 0
	call	memset
	li	a0, 1500
	bltu	a0, s1, .LBB0f414_2
	addi	a0, sp, 1528
	mv	a1, s0
	mv	a2, s1
	call	memcpy
	lui	a0, 1
	add	a0, a0, sp
	sd	s1, -1064(a0)
.LBB0f414_2:
	lbu	s3, 1528(sp)
	lbu	s4, 1529(sp)
	lbu	s2, 1530(sp)
	lbu	s5, 1531(sp)
	addi	a1, sp, 1532
	addi	a0, sp, 20
	li	a2, 1508
	call	memcpy
	slli	s2, s2, 8
	or	s5, s2, s5
	addi	s2, s5, 7
	slli	a0, s2, 8
	slli	a1, s2, 48
	srli	a1, a1, 56
	or	s6, a0, a1
	sw	zero, 12(sp)
	sh	zero, 16(sp)
	beqz	s1, .LBB0f414_4
	mv	a0, s0
	li	a1, 0
	mv	a2, s1
	call	memset
.LBB0f414_4:
	srli	a0, s6, 8
	li	a6, -2
	lbu	a7, 12(sp)
	lbu	a4, 13(sp)
	lbu	a5, 14(sp)
	lbu	s1, 15(sp)
	lbu	a1, 16(sp)
	lbu	a3, 17(sp)
	sb	s3, 0(s0)
	sb	s4, 1(s0)
	sb	s6, 2(s0)
	sb	a0, 3(s0)
	li	a0, 11
	addi	a2, s5, -4
	sb	a6, 4(s0)
	sb	a7, 5(s0)
	sb	a4, 6(s0)
	sb	a5, 7(s0)
	li	a4, 1489
	sb	s1, 8(s0)
	sb	a1, 9(s0)
	sb	a3, 10(s0)
	sd	a0, 1504(s0)
	bltu	a4, a2, .LBB0f414_6
	addi	a0, s0, 11
	addi	a1, sp, 20
	call	memcpy
	sd	s2, 1504(s0)
.LBB0f414_6:
	addi	sp, sp, 1072
	ld	ra, 2024(sp)
	ld	s0, 2016(sp)
	ld	s1, 2008(sp)
	ld	s2, 2000(sp)
	ld	s3, 1992(sp)
	ld	s4, 1984(sp)
	ld	s5, 1976(sp)
	ld	s6, 1968(sp)
	addi	sp, sp, 2032
	ret
.Lfunc_end0f414:
	.size	eap_packet.expanded.wrap_in_place, .Lfunc_end0f414-eap_packet.expanded.wrap_in_place

	.section	".text.peer_machine::machine::PeerMachine::receive_octets::<#b05093cacc003912>","ax",@progbits
	.p2align	1
	.type	peer_machine.machine.PeerMachine.receive_octets.__b05093cacc003912_,@function
peer_machine.machine.PeerMachine.receive_octets.__b05093cacc003912_:
	addi	sp, sp, -240
	sd	ra, 232(sp)
	sd	s0, 224(sp)
	sd	s1, 216(sp)
	sd	s2, 208(sp)
	sd	s3, 200(sp)
	sd	s4, 192(sp)
	sd	s5, 184(sp)
	sd	s6, 176(sp)
	sd	s7, 168(sp)
	mv	s7, a0
	sd	zero, 40(sp)
	sd	zero, 48(sp)
	lbu	a0, 768(a1)
	sd	zero, 8(sp)
	sd	zero, 16(sp)
	sd	zero, 24(sp)
	sd	zero, 32(sp)
	mv	s6, a1
	lui	a1, 512
	addi	a1, a1, -129
	slli	a1, a1, 12
	addi	a1, a1, 1023
	srl	a0, a1, a0
	andi	a0, a0, 1
	beqz	a0, .LBBdd32d_22
	mv	s4, a5
	mv	s2, a4
	addi	a0, sp, 8
	mv	a1, a2
	mv	a2, a3
	call	eap_packet.packet.decode
	lbu	a1, 8(sp)
	li	a7, 1
	bne	a1, a7, .LBBdd32d_7
	li	a6, 0
	lbu	t2, 9(sp)
	li	t0, 3
.LBBdd32d_3:
	lui	a4, 17
.LBBdd32d_4:
	addi	t1, a4, -1790
.LBBdd32d_5:
	srli	t3, t1, 56
	srli	a4, t1, 48
	srli	s1, t1, 40
	srli	a0, t1, 32
	srli	t4, t1, 24
	srli	s0, t1, 16
	srli	a2, t1, 8
	srli	t5, t0, 56
	srli	a5, t0, 48
	srli	a1, t0, 40
	srli	a3, t0, 32
	sb	a0, 4(s7)
	sb	s1, 5(s7)
	sb	a4, 6(s7)
	sb	t3, 7(s7)
	srli	a0, t0, 24
	sb	t1, 0(s7)
	sb	a2, 1(s7)
	sb	s0, 2(s7)
	sb	t4, 3(s7)
	srli	a2, t0, 16
	sb	a3, 12(s7)
	sb	a1, 13(s7)
	sb	a5, 14(s7)
	sb	t5, 15(s7)
	srli	a1, t0, 8
	sb	t0, 8(s7)
	sb	a1, 9(s7)
	sb	a2, 10(s7)
	sb	a0, 11(s7)
	sb	a7, 16(s7)
	sb	t2, 17(s7)
	sb	a6, 18(s7)
.LBBdd32d_6:
	ld	ra, 232(sp)
	ld	s0, 224(sp)
	ld	s1, 216(sp)
	ld	s2, 208(sp)
	ld	s3, 200(sp)
	ld	s4, 192(sp)
	ld	s5, 184(sp)
	ld	s6, 176(sp)
	ld	s7, 168(sp)
	addi	sp, sp, 240
	ret
.LBBdd32d_7:
	lbu	a1, 773(s6)
	lbu	a5, 16(sp)
	lbu	s3, 17(sp)
	bne	a1, a7, .LBBdd32d_9
	lbu	a0, 774(s6)
	xor	a0, a0, s3
	seqz	a1, a0
	j	.LBBdd32d_10
.LBBdd32d_9:
	li	a1, 0
.LBBdd32d_10:
	li	a0, 1
	li	t0, 3
	blt	a0, a5, .LBBdd32d_14
	bnez	a5, .LBBdd32d_18
	beqz	a1, .LBBdd32d_23
	addi	a0, s6, 2047
	ld	a2, 233(a0)
	addi	a1, s6, 776
	mv	a0, s2
	call	octet_lists.octets.Octets.set.__1500_
	li	a7, 0
	li	t2, 0
	li	a6, 1
	li	t0, 4
	lui	a4, 4224
	addi	t1, a4, 1794
	j	.LBBdd32d_5
.LBBdd32d_14:
	li	a7, 1
	li	a0, 2
	bne	a5, a0, .LBBdd32d_19
	beqz	a1, .LBBdd32d_26
	lbu	a1, 772(s6)
	beqz	a1, .LBBdd32d_30
	li	a7, 0
	li	t2, 0
	li	a6, 0
	li	a2, 10
	sb	a2, 768(s6)
	li	t0, 2
	lui	a4, 1
	addi	t1, a4, -1534
	j	.LBBdd32d_5
.LBBdd32d_18:
	li	a6, 0
	li	t2, 7
	lui	a4, 17
	addi	t1, a4, -1790
	mv	a7, a5
	j	.LBBdd32d_5
.LBBdd32d_19:
	lui	a4, 17
	addi	t1, a4, -1790
	beqz	a1, .LBBdd32d_27
	lbu	a3, 772(s6)
	li	a1, 2
	bne	a3, a1, .LBBdd32d_28
	li	a6, 0
	li	t2, 14
	j	.LBBdd32d_5
.LBBdd32d_22:
	li	a2, 16
	mv	a0, s7
	li	a1, 0
	call	memset
	li	a0, 1
	li	a1, 18
	sb	a0, 16(s7)
	sb	a1, 17(s7)
	sb	zero, 18(s7)
	j	.LBBdd32d_6
.LBBdd32d_23:
	lbu	a0, 769(s6)
	lbu	a3, 18(sp)
	ld	a5, 40(sp)
	ld	a6, 48(sp)
	sd	zero, 72(sp)
	beqz	a0, .LBBdd32d_32
	li	a7, 1
	li	t0, 3
	lui	a4, 17
	li	a1, 2
	addi	t1, a4, -1790
	bne	a3, a1, .LBBdd32d_35
	li	a6, 0
	li	t2, 9
	j	.LBBdd32d_5
.LBBdd32d_26:
	li	a6, 0
	li	t2, 12
	j	.LBBdd32d_3
.LBBdd32d_27:
	li	a6, 0
	li	t2, 12
	j	.LBBdd32d_5
.LBBdd32d_28:
	lbu	a3, 771(s6)
	bne	a3, a1, .LBBdd32d_38
	li	a6, 0
	li	t2, 15
	j	.LBBdd32d_4
.LBBdd32d_30:
	lbu	a1, 771(s6)
	li	a3, 2
	bne	a1, a3, .LBBdd32d_39
	li	a6, 0
	li	t2, 13
	j	.LBBdd32d_3
.LBBdd32d_32:
	sd	zero, 128(sp)
	sd	zero, 136(sp)
	sd	zero, 144(sp)
	sd	zero, 104(sp)
	sd	zero, 112(sp)
	sd	zero, 120(sp)
	li	a0, 2
	sd	zero, 80(sp)
	sd	zero, 88(sp)
	sd	zero, 96(sp)
	beq	a3, a0, .LBBdd32d_41
	li	a0, 1
	bne	a3, a0, .LBBdd32d_42
	ld	a5, 256(s6)
	li	a1, 1
	li	a3, 1
	mv	a0, s2
	mv	a2, s3
	mv	a4, s6
	call	eap_packet.packet.encode_into
	addi	a0, sp, 128
	li	a2, 5
	mv	a1, s6
	mv	a3, s3
	mv	a4, s2
	call	peer_machine.machine.respond
	lbu	a7, 144(sp)
	lbu	t2, 145(sp)
	lbu	a6, 146(sp)
	j	.LBBdd32d_54
.LBBdd32d_35:
	lbu	a1, 770(s6)
	bne	a3, a1, .LBBdd32d_40
	lbu	a1, 771(s6)
	li	a4, 4
	bne	a1, a4, .LBBdd32d_46
	li	a6, 0
	li	t2, 10
	j	.LBBdd32d_3
.LBBdd32d_38:
	li	a7, 0
	li	t2, 0
	li	a6, 0
	li	a2, 11
	sb	a2, 768(s6)
	li	t0, 2
	lui	a4, 1
	addi	t1, a4, -1278
	j	.LBBdd32d_5
.LBBdd32d_39:
	li	a7, 0
	li	t2, 0
	li	a6, 0
	li	a2, 11
	sb	a2, 768(s6)
	lui	a4, 1
	addi	t1, a4, -1278
	li	t0, 2
	j	.LBBdd32d_5
.LBBdd32d_40:
	li	a6, 0
	li	t2, 11
	j	.LBBdd32d_5
.LBBdd32d_41:
.Lpcrel_hi4:
	auipc	a0, %pcrel_hi(.Lstatic.0)
	li	a1, 1
	addi	a4, a0, %pcrel_lo(.Lpcrel_hi4)
	li	a3, 2
	mv	a0, s2
	mv	a2, s3
	li	a5, 0
	call	eap_packet.packet.encode_into
	addi	a0, sp, 104
	li	a2, 6
	mv	a1, s6
	mv	a3, s3
	mv	a4, s2
	call	peer_machine.machine.respond
	lbu	a7, 120(sp)
	lbu	t2, 121(sp)
	lbu	a6, 122(sp)
	j	.LBBdd32d_53
.LBBdd32d_42:
	ld	s5, 544(s6)
	addi	a1, s6, 536
	mv	a2, a1
	mv	a0, s5
.LBBdd32d_43:
	beqz	a0, .LBBdd32d_47
	lbu	a4, 0(a2)
	addi	a2, a2, 1
	addi	a0, a0, -1
	bne	a4, a3, .LBBdd32d_43
	addi	a0, sp, 80
	li	a2, 1
	mv	a1, s6
	mv	a4, s3
	mv	a7, s2
	mv	t3, s4
	call	peer_machine.machine.PeerMachine.method.__b05093cacc003912_
	j	.LBBdd32d_52
.LBBdd32d_46:
	addi	a0, sp, 56
	mv	a1, s6
	li	a2, 0
	mv	a4, s3
	mv	a7, s2
	mv	t3, s4
	call	peer_machine.machine.PeerMachine.method.__b05093cacc003912_
	ld	t1, 56(sp)
	ld	t0, 64(sp)
	lbu	a7, 72(sp)
	lbu	t2, 73(sp)
	lbu	a6, 74(sp)
	j	.LBBdd32d_5
.LBBdd32d_47:
	beqz	s5, .LBBdd32d_50
	li	a5, 0
	li	a0, 0
	li	a2, 2
	sd	zero, 152(sp)
	sd	zero, 160(sp)
	bltu	a2, s5, .LBBdd32d_51
	addi	a0, sp, 152
	mv	a2, s5
	call	memcpy
	ld	a0, 152(sp)
	mv	a5, s5
	j	.LBBdd32d_51
.LBBdd32d_50:
	li	a0, 0
	li	a5, 1
.LBBdd32d_51:
	sd	a0, 152(sp)
	sd	a5, 160(sp)
	li	a1, 1
	li	a3, 3
	addi	a4, sp, 152
	mv	a0, s2
	mv	a2, s3
	call	eap_packet.packet.encode_into
	addi	a0, sp, 80
	li	a2, 3
	mv	a1, s6
	mv	a3, s3
	mv	a4, s2
	call	peer_machine.machine.respond
.LBBdd32d_52:
	ld	a2, 80(sp)
	ld	a4, 88(sp)
	lbu	a7, 96(sp)
	lbu	t2, 97(sp)
	lbu	a6, 98(sp)
	sd	a2, 104(sp)
	sd	a4, 112(sp)
.LBBdd32d_53:
	ld	a2, 104(sp)
	ld	a4, 112(sp)
	sd	a2, 128(sp)
	sd	a4, 136(sp)
.LBBdd32d_54:
	ld	t1, 128(sp)
	ld	t0, 136(sp)
	j	.LBBdd32d_5
.Lfunc_enddd32d:
	.size	peer_machine.machine.PeerMachine.receive_octets.__b05093cacc003912_, .Lfunc_enddd32d-peer_machine.machine.PeerMachine.receive_octets.__b05093cacc003912_

	.section	".text.eap_packet::packet::encode_into","ax",@progbits
	.p2align	1
	.type	eap_packet.packet.encode_into,@function
eap_packet.packet.encode_into:
	addi	sp, sp, -48
	sd	ra, 40(sp)
	sd	s0, 32(sp)
	sd	s1, 24(sp)
	sd	s2, 16(sp)
	sd	s3, 8(sp)
	mv	s0, a5
	mv	s1, a4
	mv	s2, a0
	mv	a4, a5
	call	eap_packet.packet.init_into
	ld	s3, 1504(s2)
	li	a0, 1500
	sub	a0, a0, s3
	bltu	a0, s0, .LBB27253_6
	add	a0, s2, s3
	sub	a1, a0, s1
	bgeu	a1, s0, .LBB27253_4
	add	a1, s1, s0
.LBB27253_3:
	lbu	a2, 0(s1)
	addi	s1, s1, 1
	sb	a2, 0(a0)
	addi	a0, a0, 1
	bne	s1, a1, .LBB27253_3
	j	.LBB27253_5
.LBB27253_4:
	mv	a1, s1
	mv	a2, s0
	call	memmove
.LBB27253_5:
	add	s0, s0, s3
	sd	s0, 1504(s2)
.LBB27253_6:
	ld	ra, 40(sp)
	ld	s0, 32(sp)
	ld	s1, 24(sp)
	ld	s2, 16(sp)
	ld	s3, 8(sp)
	addi	sp, sp, 48
	ret
.Lfunc_end27253:
	.size	eap_packet.packet.encode_into, .Lfunc_end27253-eap_packet.packet.encode_into

	.section	".text.peer_machine::machine::respond","ax",@progbits
	.p2align	1
	.type	peer_machine.machine.respond,@function
peer_machine.machine.respond:
	addi	sp, sp, -32
	sd	ra, 24(sp)
	sd	s0, 16(sp)
	sd	s1, 8(sp)
	sd	s2, 0(sp)
	mv	s0, a2
	mv	s1, a0
	li	s2, 1
	sb	s2, 773(a1)
	sb	a3, 774(a1)
	ld	a2, 1504(a4)
	addi	a0, a1, 776
	mv	a1, a4
	call	octet_lists.octets.Octets.set.__1500_
	sb	zero, 4(s1)
	sb	zero, 5(s1)
	sb	zero, 6(s1)
	sb	zero, 7(s1)
	li	a0, 8
	li	a1, 2
	sb	zero, 12(s1)
	sb	zero, 13(s1)
	sb	zero, 14(s1)
	sb	zero, 15(s1)
	li	a2, 4
	sb	a1, 0(s1)
	sb	s0, 1(s1)
	sb	a0, 2(s1)
	sb	s2, 3(s1)
	sb	a2, 8(s1)
	sb	zero, 9(s1)
	sb	zero, 10(s1)
	sb	zero, 11(s1)
	sb	zero, 16(s1)
	sb	zero, 17(s1)
	sb	s2, 18(s1)
	ld	ra, 24(sp)
	ld	s0, 16(sp)
	ld	s1, 8(sp)
	ld	s2, 0(sp)
	addi	sp, sp, 32
	ret
.Lfunc_end0de49:
	.size	peer_machine.machine.respond, .Lfunc_end0de49-peer_machine.machine.respond

	.section	".text.peer_machine::machine::PeerMachine::method::<#b05093cacc003912>","ax",@progbits
	.p2align	1
	.type	peer_machine.machine.PeerMachine.method.__b05093cacc003912_,@function
peer_machine.machine.PeerMachine.method.__b05093cacc003912_:
	addi	sp, sp, -96
	sd	ra, 88(sp)
	sd	s0, 80(sp)
	sd	s1, 72(sp)
	sd	s2, 64(sp)
	sd	s3, 56(sp)
	sd	s4, 48(sp)
	sd	s5, 40(sp)
	mv	s3, a7
	mv	s2, a4
	mv	s5, a3
	mv	s4, a2
	mv	s1, a1
	mv	s0, a0
	addi	a0, a1, 2047
	ld	a1, 241(a0)
	ld	a2, 249(a0)
	sd	zero, 24(sp)
	addi	a0, sp, 37
	mv	a4, a5
	mv	a5, a6
	mv	a6, a7
	mv	a7, t3
	call	eap_method.peer_objects.call_peer_method.__254f2c9f7e768b02_
	lbu	a0, 37(sp)
	lbu	a1, 38(sp)
	lbu	a2, 39(sp)
	sb	a0, 5(sp)
	sb	a1, 6(sp)
	sb	a2, 7(sp)
	addi	a0, sp, 8
	addi	a5, sp, 5
	mv	a1, s1
	mv	a2, s4
	mv	a3, s5
	mv	a4, s2
	mv	a6, s3
	call	peer_machine.machine.settle
	addi	a1, sp, 8
	li	a2, 16
	mv	a0, s0
	call	memcpy
	lbu	a0, 24(sp)
	lbu	a1, 25(sp)
	lbu	a2, 26(sp)
	sb	a0, 16(s0)
	sb	a1, 17(s0)
	sb	a2, 18(s0)
	ld	ra, 88(sp)
	ld	s0, 80(sp)
	ld	s1, 72(sp)
	ld	s2, 64(sp)
	ld	s3, 56(sp)
	ld	s4, 48(sp)
	ld	s5, 40(sp)
	addi	sp, sp, 96
	ret
.Lfunc_endc9f1c:
	.size	peer_machine.machine.PeerMachine.method.__b05093cacc003912_, .Lfunc_endc9f1c-peer_machine.machine.PeerMachine.method.__b05093cacc003912_

	.section	".text.eap_method::peer_objects::call_peer_method::<#254f2c9f7e768b02>","ax",@progbits
	.p2align	1
	.type	eap_method.peer_objects.call_peer_method.__254f2c9f7e768b02_,@function
eap_method.peer_objects.call_peer_method.__254f2c9f7e768b02_:
	addi	sp, sp, -32
	sd	ra, 24(sp)
	sd	s0, 16(sp)
	mv	s0, a0
	beqz	a2, .LBBddf9b_4
	lbu	a0, 0(a1)
	beqz	a0, .LBBddf9b_5
	li	t0, 51
	zext.b	a0, a3
	beq	t0, a0, .LBBddf9b_6
.LBBddf9b_3:
	addi	a2, a2, -1
	addi	a1, a1, 1248
	addi	a0, sp, 10
	call	eap_method.peer_objects.call_peer_method.__254f2c9f7e768b02_
	lbu	a0, 10(sp)
	lbu	a2, 11(sp)
	lbu	a1, 12(sp)
	j	.LBBddf9b_7
.LBBddf9b_4:
	li	a0, 0
	li	a1, 0
	sd	zero, 0(a7)
	sd	zero, 8(a7)
	li	a2, 22
	j	.LBBddf9b_7
.LBBddf9b_5:
	li	t0, 47
	zext.b	a0, a3
	bne	t0, a0, .LBBddf9b_3
.LBBddf9b_6:
	addi	a0, sp, 13
	mv	a2, a4
	mv	a3, a5
	mv	a4, a6
	mv	a5, a7
	call	end_objects.objects.PeerObjectPeerMethod.handle_unrecorded
	lbu	a0, 13(sp)
	lbu	a2, 14(sp)
	lbu	a1, 15(sp)
.LBBddf9b_7:
	sb	a0, 0(s0)
	sb	a2, 1(s0)
	sb	a1, 2(s0)
	ld	ra, 24(sp)
	ld	s0, 16(sp)
	addi	sp, sp, 32
	ret
.Lfunc_endddf9b:
	.size	eap_method.peer_objects.call_peer_method.__254f2c9f7e768b02_, .Lfunc_endddf9b-eap_method.peer_objects.call_peer_method.__254f2c9f7e768b02_

	.section	".text.end_objects::objects::PeerObjectPeerMethod::handle_unrecorded","ax",@progbits
	.p2align	1
	.type	end_objects.objects.PeerObjectPeerMethod.handle_unrecorded,@function
end_objects.objects.PeerObjectPeerMethod.handle_unrecorded:
	addi	sp, sp, -32
	sd	ra, 24(sp)
	sd	s0, 16(sp)
	mv	s0, a0
	lbu	a0, 0(a1)
	addi	a1, a1, 8
	beqz	a0, .LBB67a11_2
	sh	zero, 12(sp)
	sb	zero, 14(sp)
	addi	a0, sp, 12
	call	gpsk_ends.peer.GpskPeer.handle_step.__e0641de541981142_
	lbu	a0, 12(sp)
	lbu	a1, 13(sp)
	lbu	a2, 14(sp)
	j	.LBB67a11_3
.LBB67a11_2:
	sh	zero, 8(sp)
	sb	zero, 10(sp)
	addi	a0, sp, 8
	call	psk_ends.peer.PskPeer.handle_step.__becd8de5e2060522_
	lbu	a0, 8(sp)
	lbu	a1, 9(sp)
	lbu	a2, 10(sp)
.LBB67a11_3:
	sb	a0, 0(s0)
	sb	a1, 1(s0)
	sb	a2, 2(s0)
	ld	ra, 24(sp)
	ld	s0, 16(sp)
	addi	sp, sp, 32
	ret
.Lfunc_end67a11:
	.size	end_objects.objects.PeerObjectPeerMethod.handle_unrecorded, .Lfunc_end67a11-end_objects.objects.PeerObjectPeerMethod.handle_unrecorded

	.section	".text.psk_ends::peer::PskPeer::handle_step::<#becd8de5e2060522>","ax",@progbits
	.p2align	1
	.type	psk_ends.peer.PskPeer.handle_step.__becd8de5e2060522_,@function
psk_ends.peer.PskPeer.handle_step.__becd8de5e2060522_:
	addi	sp, sp, -976
	sd	ra, 968(sp)
	sd	s0, 960(sp)
	sd	s1, 952(sp)
	sd	s2, 944(sp)
	sd	s3, 936(sp)
	sd	s4, 928(sp)
	sd	s5, 920(sp)
	sd	s6, 912(sp)
	sd	s7, 904(sp)
	sd	s8, 896(sp)
	sd	s9, 888(sp)
	sd	s10, 880(sp)
	mv	s2, a5
	mv	s3, a2
	lbu	a2, 656(a1)
	mv	s10, a0
	beqz	a2, .LBB74b60_7
	mv	s7, a3
	li	a0, 2
	bne	a2, a0, .LBB74b60_5
	addi	s9, a1, 657
	lbu	a0, 1233(a1)
	addi	s8, a1, 624
	sd	a1, 624(sp)
	sd	s8, 632(sp)
	sd	s9, 640(sp)
	beqz	a0, .LBB74b60_8
	addi	a0, sp, 800
	li	a2, 80
	li	a1, 0
	call	memset
	addi	a1, s3, 5
	addi	a2, s7, -5
	addi	a0, sp, 800
	call	psk_messages.reading.read_psk_message
	lbu	a0, 800(sp)
	li	a1, 1
	beq	a0, a1, .LBB74b60_14
	li	s1, 22
	j	.LBB74b60_15
.LBB74b60_5:
	addi	s5, a1, 656
	mv	s4, a4
	mv	s6, a1
	addi	a0, sp, 800
	li	a2, 80
	li	a1, 0
	call	memset
	addi	a1, s3, 5
	addi	a2, s7, -5
	addi	a0, sp, 800
	call	psk_messages.reading.read_psk_message
	lbu	a1, 800(sp)
	lbu	s1, 801(sp)
	lbu	a0, 808(sp)
	lwu	a2, 812(sp)
	lw	a3, 816(sp)
	lwu	a4, 820(sp)
	lw	a5, 824(sp)
	lw	s0, 828(sp)
	slli	a3, a3, 32
	or	a2, a2, a3
	slli	a5, a5, 32
	or	a4, a4, a5
	li	a3, 1
	sd	a2, 648(sp)
	sd	a4, 656(sp)
	sw	s0, 664(sp)
	beq	a1, a3, .LBB74b60_17
	beqz	a0, .LBB74b60_19
.LBB74b60_7:
	li	s1, 22
	j	.LBB74b60_17
.LBB74b60_8:
	mv	s6, a4
	mv	s5, a1
	addi	a0, sp, 800
	li	a2, 80
	li	a1, 0
	call	memset
	addi	a1, s3, 5
	addi	a2, s7, -5
	addi	a0, sp, 800
	call	psk_messages.reading.read_psk_message
	lbu	s0, 800(sp)
	lbu	s1, 801(sp)
	lbu	s4, 808(sp)
	addi	a1, sp, 812
	addi	a0, sp, 648
	li	a2, 68
	call	memcpy
	li	a0, 1
	beq	s0, a0, .LBB74b60_15
	li	a0, 2
	bne	s4, a0, .LBB74b60_21
	lwu	a6, 696(sp)
	lw	a7, 700(sp)
	lwu	a2, 680(sp)
	lw	a3, 684(sp)
	lwu	a4, 688(sp)
	lw	a5, 692(sp)
	lwu	t0, 664(sp)
	lw	s0, 668(sp)
	lwu	a0, 672(sp)
	lw	a1, 676(sp)
	slli	a7, a7, 32
	slli	a5, a5, 32
	slli	a3, a3, 32
	or	a6, a7, a6
	or	a7, a5, a4
	or	a2, a2, a3
	lwu	a3, 648(sp)
	lw	a5, 652(sp)
	lwu	s1, 656(sp)
	lw	a4, 660(sp)
	slli	a1, a1, 32
	or	a0, a0, a1
	slli	s0, s0, 32
	or	a1, s0, t0
	slli	a4, a4, 32
	or	a4, a4, s1
	slli	a5, a5, 32
	or	a3, a3, a5
	sd	a2, 832(sp)
	sd	a7, 840(sp)
	sd	a6, 848(sp)
	li	a2, 22
	sd	a3, 800(sp)
	sd	a4, 808(sp)
	sd	a1, 816(sp)
	sd	a0, 824(sp)
	bltu	s7, a2, .LBB74b60_12
	li	s7, 22
.LBB74b60_12:
	lbu	s4, 1(s3)
	addi	a0, sp, 800
	li	a1, 16
	sd	a0, 736(sp)
	sd	a1, 744(sp)
	sd	s9, 720(sp)
	sd	a1, 728(sp)
	addi	a0, sp, 736
	addi	a1, sp, 720
	call	core.cmp.PartialEq.ne.__4f69ed2539eb7fe9_
	beqz	a0, .LBB74b60_23
	li	s1, 25
	j	.LBB74b60_15
.LBB74b60_14:
	lbu	s1, 801(sp)
.LBB74b60_15:
	li	a0, 0
	li	s0, 0
.LBB74b60_16:
	bnez	a0, .LBB74b60_18
.LBB74b60_17:
	li	a0, 0
	li	s0, 0
	sd	zero, 0(s2)
	sd	zero, 8(s2)
.LBB74b60_18:
	sb	a0, 0(s10)
	sb	s1, 1(s10)
	sb	s0, 2(s10)
	ld	ra, 968(sp)
	ld	s0, 960(sp)
	ld	s1, 952(sp)
	ld	s2, 944(sp)
	ld	s3, 936(sp)
	ld	s4, 928(sp)
	ld	s5, 920(sp)
	ld	s6, 912(sp)
	ld	s7, 904(sp)
	ld	s8, 896(sp)
	ld	s9, 888(sp)
	ld	s10, 880(sp)
	addi	sp, sp, 976
	ret
.LBB74b60_19:
	ld	s1, 832(sp)
	ld	s7, 840(sp)
	mv	a0, s6
	mv	a1, s1
	mv	a2, s7
	call	eap_method.peer_side.PeerSide.allows
	beqz	a0, .LBB74b60_22
	lhu	a6, 660(sp)
	lhu	a7, 662(sp)
	lhu	t0, 664(sp)
	lhu	a4, 666(sp)
	lhu	a5, 652(sp)
	lhu	a3, 654(sp)
	lhu	a0, 656(sp)
	lhu	a2, 658(sp)
	addi	a1, s6, 552
	sh	a6, 24(sp)
	sh	a7, 26(sp)
	sh	t0, 28(sp)
	sh	a4, 30(sp)
	slli	s0, a3, 16
	or	s0, s0, a5
	sh	a5, 16(sp)
	sh	a3, 18(sp)
	sh	a0, 20(sp)
	sh	a2, 22(sp)
	slli	a0, a0, 32
	slli	a2, a2, 48
	slli	a7, a7, 16
	slli	t0, t0, 32
	slli	a4, a4, 48
	or	a0, a0, a2
	or	a2, a7, a6
	or	a3, a4, t0
	or	a0, a0, s0
	or	a2, a2, a3
	sd	a0, 592(sp)
	sd	a2, 600(sp)
	sd	s1, 608(sp)
	sd	s7, 616(sp)
	addi	s1, s6, 624
	addi	a0, sp, 32
	mv	a2, s1
	call	psk_ends.peer.login.Keys.of
	lbu	a6, 1(s3)
	addi	a0, sp, 7
	addi	a4, sp, 592
	addi	a5, sp, 32
	mv	a1, s6
	mv	a2, s1
	mv	a3, s5
	mv	a7, s4
	mv	t3, s2
	call	psk_ends.peer.turns.log_in.__becd8de5e2060522_
	lbu	a0, 7(sp)
	lbu	s1, 8(sp)
	lbu	s0, 9(sp)
	j	.LBB74b60_16
.LBB74b60_21:
	li	a0, 0
	li	s0, 0
	li	s1, 22
	j	.LBB74b60_16
.LBB74b60_22:
	li	s1, 23
	j	.LBB74b60_17
.LBB74b60_23:
	lw	a0, 832(sp)
	beqz	a0, .LBB74b60_25
	li	s1, 27
	j	.LBB74b60_15
.LBB74b60_25:
	lbu	a0, 0(s8)
	lbu	a1, 1(s8)
	lbu	a2, 2(s8)
	lbu	a3, 3(s8)
	lbu	a4, 4(s8)
	lbu	a5, 5(s8)
	lbu	s1, 6(s8)
	lbu	s0, 7(s8)
	slli	a1, a1, 8
	slli	a2, a2, 16
	slli	a3, a3, 24
	slli	a5, a5, 8
	or	a6, a1, a0
	or	a2, a2, a3
	or	a7, a5, a4
	lbu	a1, 8(s8)
	lbu	a3, 9(s8)
	lbu	a5, 10(s8)
	lbu	a0, 11(s8)
	slli	s1, s1, 16
	slli	s0, s0, 24
	slli	a3, a3, 8
	slli	a5, a5, 16
	slli	a0, a0, 24
	or	s0, s0, s1
	or	t0, a3, a1
	or	a0, a0, a5
	lbu	a1, 13(s8)
	lbu	a5, 12(s8)
	lbu	s1, 14(s8)
	lbu	a4, 15(s8)
	slli	a1, a1, 8
	or	a5, a5, a1
	slli	s1, s1, 16
	slli	a4, a4, 24
	or	a4, a4, s1
	or	s1, a2, a6
	addi	a1, s5, 673
	or	s0, s0, a7
	addi	a2, s5, 264
	or	a0, a0, t0
	ld	a3, 520(s5)
	sd	zero, 784(sp)
	sd	zero, 792(sp)
	or	a4, a4, a5
	addi	a5, sp, 752
	slli	s0, s0, 32
	or	s0, s0, s1
	li	s1, 16
	slli	a4, a4, 32
	or	a0, a0, a4
	sd	s0, 752(sp)
	sd	a0, 760(sp)
	sd	a5, 768(sp)
	sd	s1, 776(sp)
	addi	a0, sp, 784
	addi	a4, sp, 768
	li	a5, 1
	call	cmac_mac.key.CmacKey.tag
	addi	a2, sp, 816
	addi	a0, sp, 784
	li	a1, 16
	li	a3, 16
	call	octet_lists.comparison.equal_in_full
	li	s1, 28
	beqz	a0, .LBB74b60_15
	addi	a3, sp, 832
	addi	a0, s5, 1025
	mv	a1, s3
	mv	a2, s7
	call	psk_ends.channel.open
	zext.b	a0, a0
	beqz	a0, .LBB74b60_15
	slli	a0, a1, 56
	srli	a1, a0, 62
	beqz	a1, .LBB74b60_30
	srai	a0, a0, 56
	andi	a2, a0, 32
	beqz	a2, .LBB74b60_31
	srli	a1, a2, 5
	j	.LBB74b60_32
.LBB74b60_30:
	li	s1, 29
	j	.LBB74b60_15
.LBB74b60_31:
	addi	a1, a1, -1
	seqz	a1, a1
.LBB74b60_32:
	mv	a3, s6
	beqz	a1, .LBB74b60_34
	li	a0, 0
	li	s0, 0
	li	s1, 30
	j	.LBB74b60_16
.LBB74b60_34:
	addi	a4, s2, 8
	li	s0, 2
	li	a1, -65
	sd	s0, 0(s2)
	sd	zero, 8(s2)
	blt	a1, a0, .LBB74b60_36
	addi	a0, sp, 624
	li	a2, 2
	mv	a1, s4
	call	psk_ends.peer.psk4.psk4.__becd8de5e2060522_
	li	s1, 4
	li	a1, 1
	j	.LBB74b60_37
.LBB74b60_36:
	addi	a0, sp, 624
	li	a2, 3
	li	s1, 3
	mv	a1, s4
	call	psk_ends.peer.psk4.psk4.__becd8de5e2060522_
	li	a1, 0
	li	s0, 0
.LBB74b60_37:
	li	a0, 1
	sb	a0, 1233(s5)
	sb	a1, 1234(s5)
	j	.LBB74b60_16
.Lfunc_end74b60:
	.size	psk_ends.peer.PskPeer.handle_step.__becd8de5e2060522_, .Lfunc_end74b60-psk_ends.peer.PskPeer.handle_step.__becd8de5e2060522_

	.section	".text.psk_messages::reading::read_psk_message","ax",@progbits
	.p2align	1
	.type	psk_messages.reading.read_psk_message,@function
psk_messages.reading.read_psk_message:
	addi	sp, sp, -272
	sd	ra, 264(sp)
	sd	s0, 256(sp)
	sd	s1, 248(sp)
	sd	s2, 240(sp)
	sd	s3, 232(sp)
	sd	s4, 224(sp)
	sd	s5, 216(sp)
	sd	s6, 208(sp)
	sd	s7, 200(sp)
	sd	s8, 192(sp)
	sd	s9, 184(sp)
	sd	s10, 176(sp)
	sd	s11, 168(sp)
	mv	s0, a0
	sd	zero, 120(sp)
	sw	zero, 128(sp)
	sd	zero, 104(sp)
	sw	zero, 112(sp)
	sh	zero, 116(sp)
	sb	zero, 118(sp)
	li	a6, 21
	beqz	a2, .LBBdfdeb_14
	lbu	a0, 0(a1)
	srli	ra, a0, 6
	li	a3, 1
	blt	a3, ra, .LBBdfdeb_5
	bnez	ra, .LBBdfdeb_8
	addi	a3, a2, -17
	li	a5, 253
	bltu	a5, a3, .LBBdfdeb_14
	li	s8, 0
	li	t4, 0
	li	s3, 0
	li	s5, 0
	li	s2, 0
	lbu	a6, 9(a1)
	lbu	s1, 10(a1)
	lbu	a4, 11(a1)
	lbu	a0, 12(a1)
	lbu	a7, 1(a1)
	lbu	t0, 2(a1)
	lbu	t1, 3(a1)
	lbu	t2, 4(a1)
	slli	s1, s1, 8
	slli	a4, a4, 16
	slli	a0, a0, 24
	or	a6, s1, a6
	or	t3, a0, a4
	lbu	a4, 5(a1)
	lbu	s1, 6(a1)
	lbu	a0, 7(a1)
	lbu	a5, 8(a1)
	slli	t0, t0, 8
	slli	t1, t1, 16
	slli	t2, t2, 24
	slli	s1, s1, 8
	slli	a0, a0, 16
	slli	a5, a5, 24
	or	a7, t0, a7
	or	t0, t2, t1
	or	t1, s1, a4
	or	t2, a5, a0
	lbu	a5, 14(a1)
	lbu	s1, 13(a1)
	lbu	a4, 15(a1)
	lbu	a0, 16(a1)
	slli	a5, a5, 8
	or	a5, a5, s1
	slli	a4, a4, 16
	slli	a0, a0, 24
	or	a0, a0, a4
	or	a6, t3, a6
	or	s1, t0, a7
	or	a4, t2, t1
	or	s4, a0, a5
	slli	a4, a4, 32
	or	a4, a4, s1
	sd	a4, 152(sp)
	sw	a6, 160(sp)
	addi	s6, a1, 17
	addi	a5, a2, -17
	j	.LBBdfdeb_12
.LBBdfdeb_5:
	li	a3, 2
	addi	a2, a2, -1
	bne	ra, a3, .LBBdfdeb_10
	li	a3, 53
	bne	a2, a3, .LBBdfdeb_14
	li	s2, 0
	lbu	s1, 1(a1)
	lbu	t3, 2(a1)
	lbu	t1, 3(a1)
	lbu	t2, 4(a1)
	lbu	t5, 13(a1)
	lbu	t4, 14(a1)
	lbu	s5, 15(a1)
	lbu	s9, 16(a1)
	lbu	s6, 5(a1)
	lbu	a6, 6(a1)
	lbu	s4, 7(a1)
	lbu	s7, 8(a1)
	lbu	s3, 9(a1)
	lbu	t0, 10(a1)
	lbu	s10, 11(a1)
	lbu	s11, 12(a1)
	lbu	a0, 49(a1)
	sd	a0, 24(sp)
	lbu	a2, 50(a1)
	lbu	a0, 51(a1)
	lbu	a3, 52(a1)
	sd	a3, 56(sp)
	lbu	t6, 45(a1)
	sd	ra, 64(sp)
	lbu	ra, 46(a1)
	lbu	a5, 47(a1)
	lbu	a4, 48(a1)
	slli	t3, t3, 8
	or	a3, t3, s1
	sd	a3, 32(sp)
	lbu	t3, 38(a1)
	lbu	a7, 39(a1)
	lbu	a3, 40(a1)
	slli	t1, t1, 16
	slli	t2, t2, 24
	slli	t4, t4, 8
	slli	s5, s5, 16
	slli	s9, s9, 24
	slli	a6, a6, 8
	or	s8, t2, t1
	or	s1, t4, t5
	sd	s1, 40(sp)
	or	t2, s9, s5
	or	t4, a6, s6
	lbu	t5, 41(a1)
	lbu	s9, 42(a1)
	lbu	t1, 43(a1)
	lbu	s5, 44(a1)
	slli	s4, s4, 16
	slli	s7, s7, 24
	slli	t0, t0, 8
	slli	s10, s10, 16
	slli	s11, s11, 24
	slli	a0, a0, 8
	or	s4, s7, s4
	or	t0, t0, s3
	or	s6, s11, s10
	or	a0, a0, a2
	sd	a0, 48(sp)
	lbu	s3, 17(a1)
	lbu	s10, 18(a1)
	lbu	s11, 19(a1)
	lbu	a6, 20(a1)
	slli	a0, a5, 8
	slli	a2, a4, 16
	ld	a5, 24(sp)
	slli	a5, a5, 24
	slli	a7, a7, 8
	slli	a3, a3, 16
	slli	a4, t5, 24
	or	t5, a0, ra
	or	ra, a5, a2
	or	a7, a7, t3
	or	a4, a4, a3
	lbu	a0, 21(a1)
	lbu	a2, 22(a1)
	lbu	a3, 23(a1)
	lbu	a5, 24(a1)
	slli	t1, t1, 8
	slli	s5, s5, 16
	slli	t6, t6, 24
	slli	s10, s10, 8
	slli	s11, s11, 16
	slli	a6, a6, 24
	or	t1, t1, s9
	or	s5, t6, s5
	or	s7, s10, s3
	or	a6, a6, s11
	lbu	s3, 25(a1)
	lbu	s9, 26(a1)
	lbu	s10, 27(a1)
	lbu	s1, 28(a1)
	slli	a2, a2, 8
	slli	a3, a3, 16
	slli	a5, a5, 24
	slli	s9, s9, 8
	slli	s10, s10, 16
	slli	s1, s1, 24
	or	s11, a2, a0
	or	a5, a5, a3
	or	s9, s9, s3
	or	s10, s1, s10
	lbu	a3, 30(a1)
	lbu	a0, 29(a1)
	lbu	a2, 31(a1)
	lbu	s1, 32(a1)
	slli	a3, a3, 8
	or	t6, a3, a0
	lbu	s3, 37(a1)
	slli	a2, a2, 16
	slli	s1, s1, 24
	or	a2, a2, s1
	ld	a0, 32(sp)
	or	s8, s8, a0
	ld	a0, 40(sp)
	or	t2, t2, a0
	or	t3, s4, t4
	or	t0, s6, t0
	lbu	t4, 33(a1)
	lbu	s4, 34(a1)
	lbu	s6, 35(a1)
	lbu	s1, 36(a1)
	or	t5, ra, t5
	ld	ra, 64(sp)
	or	a7, a4, a7
	or	t1, s5, t1
	slli	s1, s1, 24
	slli	s6, s6, 16
	slli	s4, s4, 8
	or	a4, s4, t4
	or	s1, s6, s1
	or	a4, a4, s1
	or	s4, a6, s7
	or	a6, a5, s11
	or	s1, s10, s9
	slli	t0, t0, 32
	or	t0, t0, t3
	slli	t1, t1, 32
	or	a7, t1, a7
	lui	a0, 16
	addi	a0, a0, -256
	srli	a5, s6, 8
	and	a0, a0, a4
	srliw	a4, a4, 24
	or	a4, a4, a5
	slli	s1, s1, 32
	or	s6, s1, a6
	sd	t0, 152(sp)
	sw	t2, 160(sp)
	sd	a7, 136(sp)
	sw	t5, 144(sp)
	ld	a3, 48(sp)
	sh	a3, 148(sp)
	ld	a3, 56(sp)
	sb	a3, 150(sp)
	lbu	s5, 53(a1)
	slli	t4, t4, 24
	slli	a0, a0, 8
	or	a0, t4, a0
	or	t4, a0, a4
	or	a5, a2, t6
	j	.LBBdfdeb_13
.LBBdfdeb_8:
	addi	s2, a2, -49
	li	a2, 254
	bgeu	s2, a2, .LBBdfdeb_14
	li	s8, 0
	lbu	a6, 9(a1)
	lbu	s9, 10(a1)
	lbu	s10, 11(a1)
	lbu	s11, 12(a1)
	lbu	s3, 1(a1)
	lbu	t1, 2(a1)
	lbu	t2, 3(a1)
	lbu	t5, 4(a1)
	lbu	t3, 5(a1)
	lbu	s1, 6(a1)
	lbu	a7, 7(a1)
	lbu	a4, 8(a1)
	lbu	t4, 13(a1)
	lbu	t6, 14(a1)
	lbu	s7, 15(a1)
	sd	ra, 64(sp)
	lbu	ra, 16(a1)
	lbu	s5, 17(a1)
	lbu	a5, 18(a1)
	lbu	a2, 19(a1)
	lbu	a0, 20(a1)
	lbu	a3, 21(a1)
	sd	a3, 16(sp)
	lbu	a3, 22(a1)
	sd	a3, 8(sp)
	lbu	s6, 23(a1)
	lbu	s4, 24(a1)
	slli	s9, s9, 8
	slli	s10, s10, 16
	slli	s11, s11, 24
	or	a3, s9, a6
	sd	a3, 56(sp)
	or	a3, s11, s10
	sd	a3, 40(sp)
	lbu	s9, 25(a1)
	lbu	t0, 26(a1)
	lbu	s10, 27(a1)
	lbu	s11, 28(a1)
	slli	t1, t1, 8
	slli	t2, t2, 16
	slli	t5, t5, 24
	slli	s1, s1, 8
	slli	a7, a7, 16
	slli	a4, a4, 24
	or	a3, t1, s3
	sd	a3, 48(sp)
	or	t2, t5, t2
	or	a3, s1, t3
	sd	a3, 32(sp)
	or	t3, a4, a7
	lbu	a6, 29(a1)
	lbu	t5, 30(a1)
	lbu	a7, 31(a1)
	lbu	s3, 32(a1)
	slli	t6, t6, 8
	slli	s7, s7, 16
	slli	ra, ra, 24
	slli	a5, a5, 8
	slli	a2, a2, 16
	slli	a0, a0, 24
	or	a3, t6, t4
	sd	a3, 24(sp)
	or	t4, ra, s7
	or	t6, a5, s5
	or	s5, a0, a2
	lbu	a2, 45(a1)
	lbu	a4, 46(a1)
	lbu	a0, 47(a1)
	lbu	ra, 48(a1)
	ld	a5, 8(sp)
	slli	a5, a5, 8
	slli	s6, s6, 16
	slli	s4, s4, 24
	slli	s1, t0, 8
	ld	a3, 16(sp)
	or	t1, a5, a3
	or	t0, s4, s6
	or	s6, s1, s9
	lbu	s4, 42(a1)
	lbu	s1, 43(a1)
	lbu	s9, 44(a1)
	slli	s10, s10, 16
	slli	s11, s11, 24
	slli	t5, t5, 8
	slli	a7, a7, 16
	slli	s3, s3, 24
	or	s10, s11, s10
	or	a6, t5, a6
	or	a7, s3, a7
	lbu	t5, 34(a1)
	lbu	s3, 35(a1)
	lbu	s11, 36(a1)
	slli	a0, a0, 8
	slli	s1, s1, 8
	slli	s9, s9, 16
	slli	a2, a2, 24
	slli	s3, s3, 8
	or	s7, a0, a4
	or	a4, s1, s4
	or	s9, a2, s9
	or	t5, s3, t5
	lbu	s4, 37(a1)
	lbu	s3, 38(a1)
	lbu	s1, 39(a1)
	lbu	a2, 40(a1)
	slli	s11, s11, 16
	slli	s4, s4, 24
	or	s11, s4, s11
	lbu	s4, 41(a1)
	slli	s1, s1, 8
	or	s1, s1, s3
	lbu	s3, 33(a1)
	slli	a2, a2, 16
	slli	s4, s4, 24
	or	a2, s4, a2
	ld	a0, 56(sp)
	ld	a3, 40(sp)
	or	a0, a0, a3
	ld	a3, 48(sp)
	or	t2, t2, a3
	ld	a3, 32(sp)
	or	t3, t3, a3
	ld	a3, 24(sp)
	or	s4, t4, a3
	or	t6, s5, t6
	or	t0, t0, t1
	or	t1, s10, s6
	or	t4, a7, a6
	or	a6, s9, a4
	or	a7, s11, t5
	or	s1, s1, a2
	slli	t3, t3, 32
	or	a4, t3, t2
	slli	t0, t0, 32
	or	s6, t0, t6
	slli	a2, t4, 32
	or	a5, a2, t1
	slli	s1, s1, 32
	or	s1, s1, a7
	sd	a4, 152(sp)
	sw	a0, 160(sp)
	addi	s5, a1, 49
	sd	s1, 136(sp)
	sw	a6, 144(sp)
	sh	s7, 148(sp)
	sb	ra, 150(sp)
	ld	ra, 64(sp)
	j	.LBBdfdeb_13
.LBBdfdeb_10:
	li	a3, 37
	bne	a2, a3, .LBBdfdeb_14
	li	s5, 0
	li	s2, 0
	lbu	a6, 1(a1)
	lbu	a2, 2(a1)
	lbu	a3, 3(a1)
	lbu	a4, 4(a1)
	lbu	a7, 13(a1)
	lbu	t0, 14(a1)
	lbu	t2, 15(a1)
	lbu	t3, 16(a1)
	lbu	t1, 5(a1)
	lbu	s6, 6(a1)
	lbu	s1, 7(a1)
	lbu	a0, 8(a1)
	lbu	t4, 9(a1)
	lbu	t5, 10(a1)
	lbu	t6, 11(a1)
	lbu	s3, 12(a1)
	slli	a2, a2, 8
	slli	a3, a3, 16
	slli	a4, a4, 24
	or	a6, a2, a6
	or	s4, a4, a3
	lbu	s7, 21(a1)
	lbu	a4, 22(a1)
	lbu	a2, 23(a1)
	lbu	a5, 24(a1)
	slli	t0, t0, 8
	slli	t2, t2, 16
	slli	t3, t3, 24
	slli	s6, s6, 8
	slli	s1, s1, 16
	slli	a0, a0, 24
	or	a7, t0, a7
	or	t0, t3, t2
	or	t1, s6, t1
	or	t2, a0, s1
	lbu	t3, 25(a1)
	lbu	s6, 26(a1)
	lbu	a3, 27(a1)
	lbu	s1, 28(a1)
	slli	t5, t5, 8
	slli	t6, t6, 16
	slli	s3, s3, 24
	slli	a4, a4, 8
	slli	a2, a2, 16
	slli	a5, a5, 24
	or	t4, t5, t4
	or	t5, s3, t6
	or	t6, a4, s7
	or	s3, a5, a2
	lbu	a5, 29(a1)
	lbu	a4, 30(a1)
	lbu	a2, 31(a1)
	lbu	a0, 32(a1)
	slli	s6, s6, 8
	slli	a3, a3, 16
	slli	s1, s1, 24
	slli	a4, a4, 8
	slli	a2, a2, 16
	slli	a0, a0, 24
	or	t3, s6, t3
	or	s7, s1, a3
	or	s6, a4, a5
	or	s9, a0, a2
	lbu	a2, 34(a1)
	lbu	a3, 33(a1)
	lbu	a5, 35(a1)
	lbu	a4, 36(a1)
	slli	a2, a2, 8
	or	s10, a2, a3
	slli	a5, a5, 16
	slli	a4, a4, 24
	or	s11, a4, a5
	or	s8, s4, a6
	or	a6, t0, a7
	or	t0, t2, t1
	or	t1, t5, t4
	or	a7, s3, t6
	lbu	a0, 17(a1)
	lbu	a5, 18(a1)
	lbu	a2, 19(a1)
	lbu	s1, 20(a1)
	or	a4, s7, t3
	or	t2, s9, s6
	or	t4, s11, s10
	slli	s1, s1, 24
	slli	a2, a2, 16
	slli	a5, a5, 8
	or	a5, a5, a0
	or	s1, s1, a2
	or	s1, s1, a5
	slli	t1, t1, 32
	or	t0, t1, t0
	slli	a4, a4, 32
	or	s6, a4, a7
	slli	a4, t4, 32
	or	a5, a4, t2
	lui	a4, 16
	addi	a4, a4, -256
	srli	a2, a2, 8
	and	a4, a4, s1
	srliw	s1, s1, 24
	or	a2, a2, s1
	sd	t0, 152(sp)
	sw	a6, 160(sp)
	slli	a0, a0, 24
	slli	a4, a4, 8
	or	a0, a0, a4
	lbu	s3, 37(a1)
	or	s4, a0, a2
.LBBdfdeb_12:
	sd	zero, 136(sp)
	sw	zero, 144(sp)
	sh	zero, 148(sp)
	sb	zero, 150(sp)
.LBBdfdeb_13:
	li	a6, 0
	li	a7, 0
	slli	t4, t4, 32
	slli	a5, a5, 32
	ld	a0, 152(sp)
	lw	a2, 160(sp)
	srli	a5, a5, 32
	or	s7, t4, a5
	sd	a0, 120(sp)
	sw	a2, 128(sp)
	ld	a0, 136(sp)
	lw	a2, 144(sp)
	lh	a5, 148(sp)
	lbu	a3, 150(sp)
	sd	a0, 104(sp)
	sw	a2, 112(sp)
	sh	a5, 116(sp)
	sb	a3, 118(sp)
	j	.LBBdfdeb_15
.LBBdfdeb_14:
	li	s8, 0
	li	s4, 0
	li	s6, 0
	li	s7, 0
	li	s3, 0
	li	s5, 0
	li	s2, 0
	li	ra, 0
	li	a7, 1
.LBBdfdeb_15:
	ld	a0, 120(sp)
	lw	a2, 128(sp)
	srli	a3, s8, 24
	srli	a5, s8, 16
	srli	a4, s8, 8
	sb	a5, 14(s0)
	sb	a3, 15(s0)
	sb	zero, 10(s0)
	sb	zero, 11(s0)
	sb	s8, 12(s0)
	sb	a4, 13(s0)
	ld	a3, 104(sp)
	lw	a4, 112(sp)
	lh	a5, 116(sp)
	lbu	a1, 118(sp)
	sb	a7, 0(s0)
	sb	a6, 1(s0)
	sb	ra, 8(s0)
	sb	zero, 9(s0)
	sd	a0, 88(sp)
	sw	a2, 96(sp)
	sd	a3, 72(sp)
	sw	a4, 80(sp)
	sh	a5, 84(sp)
	sb	a1, 86(sp)
	addi	a0, s0, 16
	addi	a1, sp, 88
	li	a2, 12
	call	memcpy
	srli	a6, s4, 24
	srli	t0, s4, 16
	srli	t3, s4, 8
	srli	a7, s6, 56
	srli	t2, s6, 48
	srli	a5, s6, 40
	srli	a0, s6, 32
	srli	t1, s6, 24
	srli	t5, s6, 16
	srli	a3, s6, 8
	srli	t4, s7, 56
	srli	s1, s7, 48
	srli	a2, s7, 40
	sb	s3, 48(s0)
	srli	a4, s7, 32
	sb	s4, 28(s0)
	sb	t3, 29(s0)
	sb	t0, 30(s0)
	sb	a6, 31(s0)
	srli	a1, s7, 24
	sb	a0, 36(s0)
	sb	a5, 37(s0)
	sb	t2, 38(s0)
	sb	a7, 39(s0)
	srli	a0, s7, 16
	sb	s6, 32(s0)
	sb	a3, 33(s0)
	sb	t5, 34(s0)
	sb	t1, 35(s0)
	srli	a3, s7, 8
	sb	a4, 44(s0)
	sb	a2, 45(s0)
	sb	s1, 46(s0)
	sb	t4, 47(s0)
	sb	s7, 40(s0)
	sb	a3, 41(s0)
	sb	a0, 42(s0)
	sb	a1, 43(s0)
	addi	a0, s0, 49
	addi	a1, sp, 72
	li	a2, 15
	call	memcpy
	srli	a6, s5, 56
	srli	t1, s5, 48
	srli	a2, s5, 40
	srli	a3, s5, 32
	srli	a7, s5, 24
	srli	a5, s5, 16
	srli	s1, s5, 8
	srli	t0, s2, 56
	srli	a4, s2, 48
	srli	a0, s2, 40
	srli	a1, s2, 32
	sb	a3, 68(s0)
	sb	a2, 69(s0)
	sb	t1, 70(s0)
	sb	a6, 71(s0)
	srli	a2, s2, 24
	sb	s5, 64(s0)
	sb	s1, 65(s0)
	sb	a5, 66(s0)
	sb	a7, 67(s0)
	srli	a3, s2, 16
	sb	a1, 76(s0)
	sb	a0, 77(s0)
	sb	a4, 78(s0)
	sb	t0, 79(s0)
	srli	a0, s2, 8
	sb	s2, 72(s0)
	sb	a0, 73(s0)
	sb	a3, 74(s0)
	sb	a2, 75(s0)
	ld	ra, 264(sp)
	ld	s0, 256(sp)
	ld	s1, 248(sp)
	ld	s2, 240(sp)
	ld	s3, 232(sp)
	ld	s4, 224(sp)
	ld	s5, 216(sp)
	ld	s6, 208(sp)
	ld	s7, 200(sp)
	ld	s8, 192(sp)
	ld	s9, 184(sp)
	ld	s10, 176(sp)
	ld	s11, 168(sp)
	addi	sp, sp, 272
	ret
.Lfunc_enddfdeb:
	.size	psk_messages.reading.read_psk_message, .Lfunc_enddfdeb-psk_messages.reading.read_psk_message

	.section	".text.eap_method::peer_side::PeerSide::allows","ax",@progbits
	.p2align	1
	.type	eap_method.peer_side.PeerSide.allows,@function
eap_method.peer_side.PeerSide.allows:
	mv	a3, a2
	mv	a2, a1
	mv	a4, a0
	lbu	a1, 528(a0)
	li	a0, 1
	beqz	a1, .LBB3eadb_9
	ld	a1, 520(a4)
	bne	a1, a3, .LBB3eadb_10
	li	a5, 4
	addi	a1, a4, 264
	bgeu	a3, a5, .LBB3eadb_11
	beqz	a3, .LBB3eadb_9
	li	a0, 0
.LBB3eadb_5:
	add	a4, a1, a0
	add	a5, a2, a0
	lbu	a4, 0(a4)
	lbu	a5, 0(a5)
	bne	a4, a5, .LBB3eadb_8
	addi	a0, a0, 1
	bne	a3, a0, .LBB3eadb_5
	mv	a0, a3
.LBB3eadb_8:
	sltu	a0, a0, a3
	xori	a0, a0, 1
.LBB3eadb_9:
	ret
.LBB3eadb_10:
	li	a0, 0
	ret
.LBB3eadb_11:
	lbu	a6, 264(a4)
	lbu	a5, 0(a2)
	li	a0, 0
	bne	a6, a5, .LBB3eadb_9
	lbu	a6, 265(a4)
	lbu	a5, 1(a2)
	bne	a6, a5, .LBB3eadb_9
	lbu	a6, 266(a4)
	lbu	a5, 2(a2)
	bne	a6, a5, .LBB3eadb_9
	lbu	a4, 267(a4)
	lbu	a5, 3(a2)
	bne	a4, a5, .LBB3eadb_9
	addi	sp, sp, -16
	sd	ra, 8(sp)
	mv	a0, a1
	mv	a1, a3
	call	core.cmp.slices.groups_equal._i8_31_core.cmp.numbers.U8PartialEq___
	ld	ra, 8(sp)
	addi	sp, sp, 16
	ret
.Lfunc_end3eadb:
	.size	eap_method.peer_side.PeerSide.allows, .Lfunc_end3eadb-eap_method.peer_side.PeerSide.allows

	.section	".text.psk_ends::peer::login::Keys::of","ax",@progbits
	.p2align	1
	.type	psk_ends.peer.login.Keys.of,@function
psk_ends.peer.login.Keys.of:
	addi	sp, sp, -1184
	sd	ra, 1176(sp)
	sd	s0, 1168(sp)
	sd	s1, 1160(sp)
	mv	s0, a2
	mv	s1, a0
	addi	a0, sp, 568
	call	psk_ends.keys.long_keys
	addi	a1, sp, 584
	addi	a0, sp, 424
	mv	a2, s0
	call	login_keys.psk.psk_session
	addi	a0, sp, 216
	addi	a1, sp, 568
	call	cmac_mac.key.CmacKey.new
	addi	a0, sp, 8
	addi	a1, sp, 424
	call	cmac_mac.key.CmacKey.new
	addi	a0, sp, 600
	addi	a1, sp, 216
	li	a2, 208
	call	memcpy
	addi	a0, sp, 808
	addi	a1, sp, 424
	li	a2, 144
	call	memcpy
	addi	a0, sp, 952
	addi	a1, sp, 8
	li	a2, 208
	call	memcpy
	addi	a1, sp, 600
	li	a2, 560
	mv	a0, s1
	call	memcpy
	ld	ra, 1176(sp)
	ld	s0, 1168(sp)
	ld	s1, 1160(sp)
	addi	sp, sp, 1184
	ret
.Lfunc_end10185:
	.size	psk_ends.peer.login.Keys.of, .Lfunc_end10185-psk_ends.peer.login.Keys.of

	.section	".text.psk_ends::keys::long_keys","ax",@progbits
	.p2align	1
	.type	psk_ends.keys.long_keys,@function
psk_ends.keys.long_keys:
	addi	sp, sp, -304
	sd	ra, 296(sp)
	sd	s0, 288(sp)
	sd	s1, 280(sp)
	sd	s2, 272(sp)
	mv	s2, a0
	ld	a2, 64(a1)
	sd	zero, 0(sp)
	sd	zero, 8(sp)
	mv	a0, sp
	call	memcpy
	addi	a0, sp, 32
	li	a2, 176
	li	a1, 0
	call	memset
	addi	a0, sp, 32
	mv	a1, sp
	call	aes_block.Aes128.new
	sd	zero, 256(sp)
	sd	zero, 264(sp)
	sd	zero, 240(sp)
	sd	zero, 248(sp)
	addi	a0, sp, 256
	addi	a1, sp, 32
	addi	a2, sp, 240
	call	aes_block.Aes128.encrypt_block
	lbu	a6, 268(sp)
	lbu	t2, 269(sp)
	lbu	t1, 270(sp)
	lbu	t0, 271(sp)
	lbu	a7, 264(sp)
	lbu	a5, 265(sp)
	lbu	t4, 266(sp)
	lbu	t5, 267(sp)
	lbu	t3, 260(sp)
	lbu	a1, 261(sp)
	lbu	a2, 262(sp)
	lbu	a3, 263(sp)
	lbu	a4, 256(sp)
	lbu	a0, 257(sp)
	lbu	s0, 258(sp)
	lbu	s1, 259(sp)
	sb	a4, 16(sp)
	sb	a0, 17(sp)
	sb	s0, 18(sp)
	sb	s1, 19(sp)
	sb	t3, 20(sp)
	sb	a1, 21(sp)
	sb	a2, 22(sp)
	sb	a3, 23(sp)
	sb	a7, 24(sp)
	sb	a5, 25(sp)
	sb	t4, 26(sp)
	sb	t5, 27(sp)
	sb	a6, 28(sp)
	sb	t2, 29(sp)
	sb	t1, 30(sp)
	sb	t0, 31(sp)
	slli	a0, a0, 8
	slli	s0, s0, 16
	slli	s1, s1, 24
	slli	a1, a1, 8
	slli	a2, a2, 16
	slli	a3, a3, 24
	slli	a5, a5, 8
	slli	t4, t4, 16
	slli	t5, t5, 24
	slli	t2, t2, 8
	slli	t1, t1, 16
	slli	t0, t0, 24
	or	a0, a0, a4
	or	s0, s0, s1
	or	a1, a1, t3
	or	a2, a2, a3
	or	a3, a5, a7
	or	a4, t5, t4
	or	a5, t2, a6
	or	s1, t0, t1
	or	a0, a0, s0
	or	a1, a1, a2
	or	a3, a3, a4
	or	a5, a5, s1
	slli	a1, a1, 32
	slli	a5, a5, 32
	or	a0, a0, a1
	or	a3, a3, a5
	sd	a0, 256(sp)
	sd	a3, 264(sp)
	addi	a0, sp, 16
	addi	a1, sp, 32
	addi	a2, sp, 256
	li	a3, 1
	call	login_keys.psk.counter_block
	addi	a0, sp, 224
	addi	a1, sp, 32
	addi	a2, sp, 256
	li	a3, 2
	call	login_keys.psk.counter_block
	lbu	a0, 24(sp)
	lbu	a1, 25(sp)
	lbu	a2, 26(sp)
	lbu	a3, 27(sp)
	lbu	a4, 28(sp)
	lbu	a5, 29(sp)
	lbu	s1, 30(sp)
	lbu	s0, 31(sp)
	slli	a1, a1, 8
	slli	a2, a2, 16
	slli	a3, a3, 24
	or	a6, a1, a0
	or	a7, a3, a2
	lbu	a1, 16(sp)
	lbu	a3, 17(sp)
	lbu	a0, 18(sp)
	lbu	a2, 19(sp)
	slli	a5, a5, 8
	slli	s1, s1, 16
	slli	s0, s0, 24
	slli	a3, a3, 8
	slli	a0, a0, 16
	slli	a2, a2, 24
	or	a4, a4, a5
	or	s0, s0, s1
	or	a1, a1, a3
	or	a0, a0, a2
	lbu	a2, 21(sp)
	lbu	a3, 20(sp)
	lbu	a5, 22(sp)
	lbu	s1, 23(sp)
	slli	a2, a2, 8
	or	a2, a2, a3
	slli	a5, a5, 16
	slli	s1, s1, 24
	or	a5, a5, s1
	or	a3, a7, a6
	or	a4, a4, s0
	or	a0, a0, a1
	or	a2, a2, a5
	slli	a4, a4, 32
	slli	a2, a2, 32
	or	a3, a3, a4
	or	a0, a0, a2
	sd	a0, 208(sp)
	sd	a3, 216(sp)
	addi	a1, sp, 208
	li	a2, 32
	mv	a0, s2
	call	memcpy
	ld	ra, 296(sp)
	ld	s0, 288(sp)
	ld	s1, 280(sp)
	ld	s2, 272(sp)
	addi	sp, sp, 304
	ret
.Lfunc_end4ff39:
	.size	psk_ends.keys.long_keys, .Lfunc_end4ff39-psk_ends.keys.long_keys

	.section	".text.aes_block::Aes128::new","ax",@progbits
	.p2align	1
	.type	aes_block.Aes128.new,@function
aes_block.Aes128.new:
	addi	sp, sp, -752
	sd	ra, 744(sp)
	sd	s0, 736(sp)
	sd	s1, 728(sp)
	sd	s2, 720(sp)
	sd	s3, 712(sp)
	sd	s4, 704(sp)
	sd	s5, 696(sp)
	sd	s6, 688(sp)
	sd	s7, 680(sp)
	sd	s8, 672(sp)
	sd	s9, 664(sp)
	sd	s10, 656(sp)
	sd	s11, 648(sp)
	mv	s1, a1
	mv	s11, a0
	addi	a0, sp, 168
	li	a2, 144
	li	a1, 0
	call	memset
	lbu	a0, 0(s1)
	sd	a0, 160(sp)
	lbu	a0, 1(s1)
	sd	a0, 152(sp)
	lbu	s5, 2(s1)
	lbu	s0, 3(s1)
	lbu	a0, 4(s1)
	sd	a0, 144(sp)
	lbu	a0, 5(s1)
	sd	a0, 136(sp)
	lbu	s9, 6(s1)
	lbu	s10, 7(s1)
	lbu	a0, 8(s1)
	sd	a0, 128(sp)
	lbu	a0, 9(s1)
	sd	a0, 120(sp)
	lbu	s2, 10(s1)
	lbu	s3, 11(s1)
	lbu	a0, 12(s1)
	sd	a0, 112(sp)
	lbu	s7, 13(s1)
	lbu	s6, 14(s1)
	lbu	s1, 15(s1)
	addi	a0, sp, 312
	li	a2, 144
	li	a1, 0
	call	memset
	addi	a0, sp, 504
	li	a2, 144
	addi	s8, sp, 504
	li	a1, 0
	call	memset
	li	s4, 0
	sd	s0, 96(sp)
	slli	a0, s0, 24
	sd	s5, 104(sp)
	slli	a1, s5, 16
	sd	s10, 80(sp)
	slli	a2, s10, 24
	sd	s9, 88(sp)
	slli	a3, s9, 16
	sd	s3, 64(sp)
	slli	a4, s3, 24
	or	a0, a0, a1
	sd	s2, 72(sp)
	slli	a1, s2, 16
	or	a2, a2, a3
	sd	s1, 40(sp)
	slli	a3, s1, 24
	or	a1, a1, a4
	sd	s6, 48(sp)
	slli	a4, s6, 16
	or	a3, a3, a4
	ld	a4, 152(sp)
	slli	a4, a4, 8
	ld	a5, 160(sp)
	or	a4, a4, a5
	or	a0, a0, a4
	ld	a4, 136(sp)
	slli	a4, a4, 8
	ld	a5, 144(sp)
	or	a4, a4, a5
	or	a2, a2, a4
	ld	a4, 120(sp)
	slli	a4, a4, 8
	ld	a5, 128(sp)
	or	a4, a4, a5
	or	a1, a1, a4
	sd	s7, 56(sp)
	slli	a4, s7, 8
	ld	a5, 112(sp)
	or	a4, a4, a5
	or	a3, a3, a4
	sw	a0, 488(sp)
	sw	a2, 492(sp)
	sw	a1, 496(sp)
	sw	a3, 500(sp)
.LBB3ce4a_1:
	addi	a0, sp, 472
	addi	a2, sp, 488
	mv	a1, s4
	call	aes_block.sliced_schedule.next_columns
	lw	s5, 472(sp)
	lwu	a6, 472(sp)
	lw	a2, 476(sp)
	lw	t1, 476(sp)
	lw	a4, 480(sp)
	lwu	t0, 480(sp)
	lw	s0, 484(sp)
	lw	t5, 484(sp)
	addi	s4, s4, 1
	li	a7, 9
	srli	t4, s5, 8
	srli	t3, s5, 16
	srli	t2, s5, 24
	srli	s2, a2, 8
	srli	s3, a2, 16
	srli	t6, a2, 24
	srli	a1, a4, 8
	srli	a3, a4, 16
	srli	a5, s0, 8
	srli	s1, s0, 16
	srli	a0, s0, 24
	sb	s0, 12(s8)
	sb	a5, 13(s8)
	sb	s1, 14(s8)
	sb	a0, 15(s8)
	srli	a0, a4, 24
	slli	t1, t1, 32
	slli	t5, t5, 32
	sb	a4, 8(s8)
	sb	a1, 9(s8)
	sb	a3, 10(s8)
	sb	a0, 11(s8)
	sb	a2, 4(s8)
	sb	s2, 5(s8)
	sb	s3, 6(s8)
	sb	t6, 7(s8)
	sb	s5, 0(s8)
	sb	t4, 1(s8)
	sb	t3, 2(s8)
	sb	t2, 3(s8)
	or	a0, t1, a6
	or	a1, t5, t0
	sd	a0, 488(sp)
	sd	a1, 496(sp)
	addi	s8, s8, 16
	bne	s4, a7, .LBB3ce4a_1
	addi	a0, sp, 456
	li	a1, 9
	addi	a2, sp, 472
	call	aes_block.sliced_schedule.next_columns
	lw	s1, 456(sp)
	lw	s3, 460(sp)
	lw	s5, 464(sp)
	lw	s8, 468(sp)
	srli	a0, s1, 8
	sd	a0, 32(sp)
	srli	a0, s1, 16
	sd	a0, 24(sp)
	srli	a0, s1, 24
	sd	a0, 16(sp)
	srli	a0, s3, 8
	sd	a0, 8(sp)
	srli	s0, s3, 16
	srli	a0, s3, 24
	sd	a0, 0(sp)
	srli	s6, s5, 8
	srli	s7, s5, 16
	srli	s2, s5, 24
	srli	s9, s8, 8
	srli	s4, s8, 16
	srli	s10, s8, 24
	addi	a0, sp, 312
	addi	a1, sp, 504
	li	a2, 144
	call	memcpy
	addi	a0, sp, 168
	addi	a1, sp, 312
	li	a2, 144
	call	memcpy
	ld	a0, 112(sp)
	sb	a0, 12(s11)
	ld	a0, 56(sp)
	sb	a0, 13(s11)
	ld	a0, 48(sp)
	sb	a0, 14(s11)
	ld	a0, 40(sp)
	sb	a0, 15(s11)
	ld	a0, 128(sp)
	sb	a0, 8(s11)
	ld	a0, 120(sp)
	sb	a0, 9(s11)
	ld	a0, 72(sp)
	sb	a0, 10(s11)
	ld	a0, 64(sp)
	sb	a0, 11(s11)
	ld	a0, 144(sp)
	sb	a0, 4(s11)
	ld	a0, 136(sp)
	sb	a0, 5(s11)
	ld	a0, 88(sp)
	sb	a0, 6(s11)
	ld	a0, 80(sp)
	sb	a0, 7(s11)
	ld	a0, 160(sp)
	sb	a0, 0(s11)
	ld	a0, 152(sp)
	sb	a0, 1(s11)
	ld	a0, 104(sp)
	sb	a0, 2(s11)
	ld	a0, 96(sp)
	sb	a0, 3(s11)
	addi	a0, s11, 16
	addi	a1, sp, 168
	li	a2, 144
	call	memcpy
	sb	s8, 172(s11)
	sb	s9, 173(s11)
	sb	s4, 174(s11)
	sb	s10, 175(s11)
	sb	s5, 168(s11)
	sb	s6, 169(s11)
	sb	s7, 170(s11)
	sb	s2, 171(s11)
	sb	s3, 164(s11)
	ld	a0, 8(sp)
	sb	a0, 165(s11)
	sb	s0, 166(s11)
	ld	a0, 0(sp)
	sb	a0, 167(s11)
	sb	s1, 160(s11)
	ld	a0, 32(sp)
	sb	a0, 161(s11)
	ld	a0, 24(sp)
	sb	a0, 162(s11)
	ld	a0, 16(sp)
	sb	a0, 163(s11)
	ld	ra, 744(sp)
	ld	s0, 736(sp)
	ld	s1, 728(sp)
	ld	s2, 720(sp)
	ld	s3, 712(sp)
	ld	s4, 704(sp)
	ld	s5, 696(sp)
	ld	s6, 688(sp)
	ld	s7, 680(sp)
	ld	s8, 672(sp)
	ld	s9, 664(sp)
	ld	s10, 656(sp)
	ld	s11, 648(sp)
	addi	sp, sp, 752
	ret
.Lfunc_end3ce4a:
	.size	aes_block.Aes128.new, .Lfunc_end3ce4a-aes_block.Aes128.new

	.section	".text.aes_block::sliced_schedule::next_columns","ax",@progbits
	.p2align	1
	.type	aes_block.sliced_schedule.next_columns,@function
aes_block.sliced_schedule.next_columns:
	addi	sp, sp, -192
	sd	ra, 184(sp)
	sd	s0, 176(sp)
	sd	s1, 168(sp)
	sd	s2, 160(sp)
	sd	s3, 152(sp)
	sd	s4, 144(sp)
	sd	s5, 136(sp)
	mv	s2, a1
	mv	s0, a0
	lbu	a6, 0(a2)
	lbu	a1, 1(a2)
	lbu	a3, 2(a2)
	lb	a4, 3(a2)
	lbu	a5, 4(a2)
	lbu	s1, 5(a2)
	lbu	a7, 6(a2)
	lb	a0, 7(a2)
	slli	a1, a1, 8
	slli	a3, a3, 16
	slli	a4, a4, 24
	slli	s1, s1, 8
	or	a6, a1, a6
	or	t0, a4, a3
	or	t1, s1, a5
	lbu	a4, 8(a2)
	lbu	s1, 9(a2)
	lbu	a1, 10(a2)
	lb	a3, 11(a2)
	slli	a7, a7, 16
	slli	a0, a0, 24
	slli	s1, s1, 8
	slli	a1, a1, 16
	slli	a3, a3, 24
	or	a0, a0, a7
	or	a4, a4, s1
	or	a1, a1, a3
	lbu	a3, 13(a2)
	lbu	s1, 12(a2)
	lbu	a5, 14(a2)
	lb	a2, 15(a2)
	slli	a3, a3, 8
	or	a3, a3, s1
	slli	a5, a5, 16
	slli	a2, a2, 24
	or	a2, a2, a5
	or	s3, t0, a6
	or	s4, a0, t1
	or	s5, a1, a4
	or	s1, a2, a3
	sw	s1, 8(sp)
	sw	zero, 12(sp)
	sw	zero, 16(sp)
	sw	zero, 20(sp)
	sw	zero, 24(sp)
	sw	zero, 28(sp)
	sw	zero, 32(sp)
	sw	zero, 36(sp)
	addi	a0, sp, 40
	addi	a1, sp, 8
	call	aes_block.slices.transpose
	addi	a0, sp, 72
	addi	a1, sp, 40
	call	aes_block.sliced_box.substitute
	addi	a0, sp, 104
	addi	a1, sp, 72
	call	aes_block.slices.transpose
	lw	a0, 104(sp)
.Lpcrel_hi5:
	auipc	a1, %pcrel_hi(.Lstatic.11)
	addi	a1, a1, %pcrel_lo(.Lpcrel_hi5)
	add	a1, a1, s2
	lbu	a1, 0(a1)
	srliw	a2, a0, 8
	slli	a0, a0, 24
	or	a0, a0, a2
	andi	a0, a0, -256
	xor	a1, a1, a2
	zext.b	a1, a1
	or	a0, a0, a1
	xor	a0, a0, s3
	xor	a1, a0, s4
	srli	a2, a0, 24
	srli	a3, a0, 16
	srli	a4, a0, 8
	xor	a5, a1, s5
	sb	a0, 0(s0)
	sb	a4, 1(s0)
	sb	a3, 2(s0)
	sb	a2, 3(s0)
	srli	a0, a1, 24
	srli	a2, a1, 16
	srli	a3, a1, 8
	xor	s1, s1, a5
	sb	a1, 4(s0)
	sb	a3, 5(s0)
	sb	a2, 6(s0)
	sb	a0, 7(s0)
	srli	a0, a5, 24
	srli	a1, a5, 16
	srli	a2, a5, 8
	sb	a5, 8(s0)
	sb	a2, 9(s0)
	sb	a1, 10(s0)
	sb	a0, 11(s0)
	srli	a0, s1, 24
	srli	a1, s1, 16
	srli	a2, s1, 8
	sb	s1, 12(s0)
	sb	a2, 13(s0)
	sb	a1, 14(s0)
	sb	a0, 15(s0)
	ld	ra, 184(sp)
	ld	s0, 176(sp)
	ld	s1, 168(sp)
	ld	s2, 160(sp)
	ld	s3, 152(sp)
	ld	s4, 144(sp)
	ld	s5, 136(sp)
	addi	sp, sp, 192
	ret
.Lfunc_end9b755:
	.size	aes_block.sliced_schedule.next_columns, .Lfunc_end9b755-aes_block.sliced_schedule.next_columns

	.section	".text.aes_block::sliced_box::substitute","ax",@progbits
	.p2align	1
	.type	aes_block.sliced_box.substitute,@function
aes_block.sliced_box.substitute:
	addi	sp, sp, -112
	sd	ra, 104(sp)
	sd	s0, 96(sp)
	sd	s1, 88(sp)
	sd	s2, 80(sp)
	sd	s3, 72(sp)
	sd	s4, 64(sp)
	sd	s5, 56(sp)
	sd	s6, 48(sp)
	sd	s7, 40(sp)
	sd	s8, 32(sp)
	sd	s9, 24(sp)
	sd	s10, 16(sp)
	sd	s11, 8(sp)
	lbu	t0, 0(a1)
	lbu	s3, 1(a1)
	lbu	s6, 2(a1)
	lb	s8, 3(a1)
	lbu	s7, 4(a1)
	lbu	a4, 5(a1)
	lbu	t4, 6(a1)
	lb	t5, 7(a1)
	lbu	t3, 8(a1)
	lbu	s4, 9(a1)
	lbu	s9, 10(a1)
	lb	s11, 11(a1)
	lbu	a6, 12(a1)
	lbu	t1, 13(a1)
	lbu	t6, 14(a1)
	lb	s2, 15(a1)
	lbu	a7, 16(a1)
	lbu	s5, 17(a1)
	lbu	s10, 18(a1)
	lb	ra, 19(a1)
	lbu	t2, 20(a1)
	lbu	s0, 21(a1)
	lbu	s1, 22(a1)
	lb	a2, 23(a1)
	slli	s3, s3, 8
	slli	s6, s6, 16
	slli	s8, s8, 24
	slli	a4, a4, 8
	or	t0, s3, t0
	or	s3, s8, s6
	or	s6, a4, s7
	lbu	s7, 24(a1)
	lbu	s8, 25(a1)
	lbu	a3, 26(a1)
	lb	a4, 27(a1)
	slli	t4, t4, 16
	slli	t5, t5, 24
	slli	s4, s4, 8
	slli	s9, s9, 16
	slli	s11, s11, 24
	or	t4, t5, t4
	or	t3, s4, t3
	or	t5, s11, s9
	lbu	s4, 28(a1)
	lbu	s9, 29(a1)
	lbu	a5, 30(a1)
	lb	a1, 31(a1)
	slli	t1, t1, 8
	slli	t6, t6, 16
	slli	s2, s2, 24
	slli	s5, s5, 8
	slli	s10, s10, 16
	slli	ra, ra, 24
	slli	s11, s0, 8
	slli	s1, s1, 16
	slli	a2, a2, 24
	slli	s8, s8, 8
	slli	a3, a3, 16
	slli	a4, a4, 24
	slli	s9, s9, 8
	slli	a5, a5, 16
	slli	a1, a1, 24
	or	a6, t1, a6
	or	t1, s2, t6
	or	a7, s5, a7
	or	t6, ra, s10
	or	t2, s11, t2
	or	s10, a2, s1
	or	s7, s8, s7
	or	a4, a4, a3
	or	s1, s9, s4
	or	a5, a5, a1
	or	s5, s3, t0
	or	a1, t4, s6
	or	s0, t5, t3
	or	s2, t1, a6
	or	a2, t6, a7
	or	a3, s10, t2
	or	a4, a4, s7
	or	s1, s1, a5
	xor	a6, a2, s0
	xor	t6, s1, a1
	xor	a7, s1, a2
	xor	t4, s1, s0
	xor	a3, a3, a4
	xor	s9, a3, s5
	xor	t3, t6, a6
	xor	t5, s9, a2
	xor	t0, s9, s1
	xor	t1, s9, a1
	xor	a2, t3, s2
	xor	t2, t1, t4
	xor	s8, a2, s0
	xor	a2, a2, a4
	and	a4, t5, s5
	and	s7, t1, s9
	xor	s3, s8, s5
	xor	s6, s8, a3
	xor	s11, a2, a7
	and	a1, s8, t3
	xor	a4, a4, t4
	xor	s4, s11, s5
	xor	s2, s6, s11
	xor	s10, s11, a3
	and	a5, s3, t2
	and	a3, s11, a7
	and	s0, s6, t4
	xor	a2, a2, a1
	xor	a4, a4, s6
	xor	ra, a2, a5
	and	a5, s10, t6
	xor	a1, a1, a4
	and	a4, s2, a6
	xor	s0, s0, a3
	xor	a3, a3, a4
	and	a4, s4, t0
	xor	a2, s10, s7
	xor	s7, a1, s0
	xor	a2, a2, a5
	xor	a4, s10, a4
	xor	a5, a5, s1
	xor	s1, ra, a3
	xor	a2, a2, t6
	xor	a4, a4, a5
	xor	a2, a2, a3
	xor	a4, a4, s0
	xor	a3, s1, s7
	and	s1, s1, a2
	xor	a5, a4, a2
	xor	s0, a4, s1
	xor	a1, s1, s7
	and	a1, a1, a5
	and	a5, s0, a3
	xor	a5, a5, s7
	xor	s1, s1, a1
	xor	a1, a1, a4
	and	a4, a4, s1
	xor	s1, a4, a2
	xor	a4, a4, s0
	and	a4, a4, a5
	xor	a4, a4, a3
	and	s5, a1, s5
	and	s7, a1, t5
	and	t5, s1, s8
	and	a2, s1, t3
	xor	s1, s1, a1
	xor	a1, a1, a5
	and	s4, a5, s4
	and	t3, a5, t0
	and	t0, s1, s3
	and	s0, s1, t2
	xor	a3, a4, s1
	xor	a5, a5, a4
	and	s8, a4, s9
	and	s3, a4, t1
	xor	t1, s0, s7
	xor	t2, a2, s0
	and	s0, a5, s10
	and	a5, a5, t6
	and	a2, a1, s11
	and	a4, a1, a7
	xor	a1, a1, a3
	and	s1, a3, s6
	and	a7, a3, t4
	and	a3, a1, s2
	and	a1, a1, a6
	xor	a6, s0, t5
	xor	a2, a2, s0
	xor	t4, a3, s1
	xor	t6, a2, a3
	xor	a4, a4, a1
	xor	t5, a7, a1
	xor	a1, s3, s4
	xor	a7, s5, s4
	xor	s1, a5, s5
	xor	a5, a5, a1
	xor	s1, s1, a6
	xor	a2, s1, t3
	xor	a3, a1, s1
	xor	s1, a4, s8
	xor	s0, t4, s1
	xor	a1, t2, s1
	xor	a3, a3, a4
	xor	a2, a2, s0
	xor	a5, a5, s0
	xor	t2, t6, s8
	xor	s1, a1, t0
	xor	t0, a1, t6
	xor	a4, t2, t5
	not	s0, a3
	xor	a3, s1, a6
	xor	a1, t1, a2
	xor	s1, a7, s1
	xor	a6, a4, a2
	srli	a2, s0, 16
	srli	a4, s0, 8
	sb	a4, 1(a0)
	sb	s0, 0(a0)
	not	a4, a5
	srli	s0, s0, 24
	sb	a2, 2(a0)
	sb	s0, 3(a0)
	srli	a2, a4, 16
	srli	a5, a4, 8
	sb	a5, 5(a0)
	sb	a4, 4(a0)
	srli	a4, a4, 24
	sb	a2, 6(a0)
	srli	a2, a1, 16
	sb	a4, 7(a0)
	srli	a4, a1, 8
	sb	a4, 9(a0)
	sb	a1, 8(a0)
	srli	a1, a1, 24
	sb	a2, 10(a0)
	srli	a2, s1, 16
	sb	a1, 11(a0)
	srli	a1, s1, 8
	sb	a1, 13(a0)
	sb	s1, 12(a0)
	srli	s1, s1, 24
	sb	a2, 14(a0)
	srli	a1, a3, 16
	sb	s1, 15(a0)
	srli	a2, a3, 8
	sb	a2, 17(a0)
	sb	a3, 16(a0)
	not	a2, a6
	xor	a4, t2, a3
	srli	a3, a3, 24
	sb	a1, 18(a0)
	sb	a3, 19(a0)
	srli	a1, a2, 16
	srli	a3, a2, 8
	sb	a3, 21(a0)
	sb	a2, 20(a0)
	not	a3, a4
	srli	a2, a2, 24
	sb	a1, 22(a0)
	sb	a2, 23(a0)
	srli	a1, a3, 16
	srli	a2, a3, 8
	sb	a2, 25(a0)
	sb	a3, 24(a0)
	srli	a3, a3, 24
	sb	a1, 26(a0)
	srli	a1, t0, 16
	sb	a3, 27(a0)
	srli	a2, t0, 8
	sb	a2, 29(a0)
	sb	t0, 28(a0)
	srli	a2, t0, 24
	sb	a1, 30(a0)
	sb	a2, 31(a0)
	ld	ra, 104(sp)
	ld	s0, 96(sp)
	ld	s1, 88(sp)
	ld	s2, 80(sp)
	ld	s3, 72(sp)
	ld	s4, 64(sp)
	ld	s5, 56(sp)
	ld	s6, 48(sp)
	ld	s7, 40(sp)
	ld	s8, 32(sp)
	ld	s9, 24(sp)
	ld	s10, 16(sp)
	ld	s11, 8(sp)
	addi	sp, sp, 112
	ret
.Lfunc_enddf184:
	.size	aes_block.sliced_box.substitute, .Lfunc_enddf184-aes_block.sliced_box.substitute

	.section	".text.aes_block::slices::transpose","ax",@progbits
	.p2align	1
	.type	aes_block.slices.transpose,@function
aes_block.slices.transpose:
	addi	sp, sp, -128
	sd	ra, 120(sp)
	sd	s0, 112(sp)
	sd	s1, 104(sp)
	sd	s2, 96(sp)
	sd	s3, 88(sp)
	sd	s4, 80(sp)
	sd	s5, 72(sp)
	sd	s6, 64(sp)
	sd	s7, 56(sp)
	sd	s8, 48(sp)
	sd	s9, 40(sp)
	sd	s10, 32(sp)
	sd	s11, 24(sp)
	lbu	a7, 0(a1)
	lbu	t1, 1(a1)
	lbu	t2, 2(a1)
	lb	a5, 3(a1)
	lbu	s2, 4(a1)
	lbu	a3, 5(a1)
	lbu	s3, 6(a1)
	lb	s5, 7(a1)
	lbu	s4, 8(a1)
	lbu	s9, 9(a1)
	lbu	ra, 10(a1)
	lb	a2, 11(a1)
	lbu	s0, 12(a1)
	lbu	s1, 13(a1)
	lbu	a6, 14(a1)
	lb	t0, 15(a1)
	lbu	s10, 16(a1)
	lbu	s11, 17(a1)
	lbu	a4, 18(a1)
	sd	a4, 8(sp)
	lb	t3, 19(a1)
	lbu	a4, 20(a1)
	sd	a4, 16(sp)
	lbu	t4, 21(a1)
	lbu	t5, 22(a1)
	lb	t6, 23(a1)
	slli	t1, t1, 8
	slli	t2, t2, 16
	slli	a5, a5, 24
	slli	a3, a3, 8
	or	a7, t1, a7
	or	t1, a5, t2
	or	t2, a3, s2
	lbu	s2, 24(a1)
	lbu	s6, 25(a1)
	lbu	s7, 26(a1)
	lb	s8, 27(a1)
	slli	s3, s3, 16
	slli	s5, s5, 24
	slli	s9, s9, 8
	slli	ra, ra, 16
	slli	a2, a2, 24
	or	s3, s5, s3
	or	s4, s9, s4
	or	s5, a2, ra
	lbu	s9, 28(a1)
	lbu	ra, 29(a1)
	lbu	a3, 30(a1)
	lb	a5, 31(a1)
	slli	a1, s1, 8
	or	a1, a1, s0
	lui	s0, 349525
	slli	a6, a6, 16
	slli	a4, t0, 24
	or	a4, a4, a6
	lui	a6, 209715
	slli	s11, s11, 8
	or	s10, s11, s10
	lui	a2, 61681
	addi	s1, s0, 1365
	addi	s0, a6, 819
	addi	s11, a2, -241
	ld	t0, 8(sp)
	slli	t0, t0, 16
	slli	t3, t3, 24
	slli	t4, t4, 8
	slli	t5, t5, 16
	slli	t6, t6, 24
	slli	s6, s6, 8
	slli	s7, s7, 16
	slli	s8, s8, 24
	slli	ra, ra, 8
	slli	a3, a3, 16
	slli	a5, a5, 24
	or	t0, t3, t0
	ld	a2, 16(sp)
	or	a6, t4, a2
	or	t4, t6, t5
	or	t3, s6, s2
	or	t6, s8, s7
	or	t5, ra, s9
	or	a3, a3, a5
	or	a7, t1, a7
	or	a5, s3, t2
	or	t1, s5, s4
	or	t2, a4, a1
	or	t0, t0, s10
	or	t4, t4, a6
	or	a6, t6, t3
	or	t3, a3, t5
	srli	a4, a7, 1
	srli	a1, t1, 1
	srli	a2, t0, 1
	srli	a3, a6, 1
	xor	a4, a4, a5
	xor	a1, a1, t2
	xor	a2, a2, t4
	xor	a3, a3, t3
	and	a4, a4, s1
	and	a1, a1, s1
	and	a2, a2, s1
	and	a3, a3, s1
	slliw	s1, a4, 1
	xor	t5, a4, a5
	slliw	a5, a1, 1
	xor	t6, a1, t2
	slliw	a4, a2, 1
	xor	t2, a2, t4
	slli	a2, a3, 1
	xor	a3, a3, t3
	xor	t3, s1, a7
	xor	a5, a5, t1
	xor	t0, a4, t0
	xor	t1, a2, a6
	srli	s1, t5, 2
	srli	a4, t2, 2
	srli	a1, t3, 2
	xor	s1, t6, s1
	srli	a2, t0, 2
	xor	a4, a4, a3
	xor	a1, a1, a5
	and	s1, s1, s0
	xor	a2, t1, a2
	and	a4, a4, s0
	and	a1, a1, s0
	slliw	a7, s1, 2
	xor	t4, s1, t6
	and	a2, a2, s0
	slli	s1, a4, 2
	xor	a3, a3, a4
	slliw	a4, a1, 2
	xor	a6, a1, a5
	xor	a7, a7, t5
	slli	a1, a2, 2
	xor	t1, a2, t1
	xor	a2, s1, t2
	srli	a5, t4, 4
	xor	t5, a4, t3
	xor	t6, a1, t0
	srli	a1, a7, 4
	srli	a4, a6, 4
	xor	a5, a5, a3
	srli	s0, t5, 4
	xor	a1, a1, a2
	xor	a4, t1, a4
	and	a5, a5, s11
	xor	s0, t6, s0
	and	s1, a1, s11
	and	a4, a4, s11
	slli	a1, a5, 4
	xor	s2, a5, a3
	and	s0, s0, s11
	slli	t0, s1, 4
	xor	s4, s1, a2
	slli	t2, a4, 4
	xor	s3, a4, t1
	xor	a2, a1, t4
	srli	t1, s2, 24
	srli	t3, s2, 16
	srli	t4, s2, 8
	slli	a4, s0, 4
	xor	s0, s0, t6
	xor	a1, t0, a7
	xor	a5, t2, a6
	srli	a6, a2, 24
	srli	s1, a2, 16
	srli	a3, a2, 8
	srli	a7, s4, 24
	srli	t0, s4, 16
	srli	t2, s4, 8
	srli	t6, s3, 24
	srli	s5, s3, 16
	srli	s6, s3, 8
	xor	a4, a4, t5
	srli	t5, a1, 24
	srli	s7, a1, 16
	srli	s8, a1, 8
	srli	s9, a5, 24
	srli	s10, a5, 16
	srli	s11, a5, 8
	sb	a2, 12(a0)
	sb	a3, 13(a0)
	sb	s1, 14(a0)
	sb	a6, 15(a0)
	srli	a6, s0, 24
	srli	a3, s0, 16
	sb	s4, 20(a0)
	sb	t2, 21(a0)
	sb	t0, 22(a0)
	sb	a7, 23(a0)
	srli	s1, s0, 8
	sb	s3, 24(a0)
	sb	s6, 25(a0)
	sb	s5, 26(a0)
	sb	t6, 27(a0)
	srli	a2, a4, 24
	sb	a1, 4(a0)
	sb	s8, 5(a0)
	sb	s7, 6(a0)
	sb	t5, 7(a0)
	srli	a1, a4, 16
	sb	a5, 8(a0)
	sb	s11, 9(a0)
	sb	s10, 10(a0)
	sb	s9, 11(a0)
	srli	a5, a4, 8
	sb	s0, 16(a0)
	sb	s1, 17(a0)
	sb	a3, 18(a0)
	sb	a6, 19(a0)
	sb	a4, 0(a0)
	sb	a5, 1(a0)
	sb	a1, 2(a0)
	sb	a2, 3(a0)
	sb	s2, 28(a0)
	sb	t4, 29(a0)
	sb	t3, 30(a0)
	sb	t1, 31(a0)
	ld	ra, 120(sp)
	ld	s0, 112(sp)
	ld	s1, 104(sp)
	ld	s2, 96(sp)
	ld	s3, 88(sp)
	ld	s4, 80(sp)
	ld	s5, 72(sp)
	ld	s6, 64(sp)
	ld	s7, 56(sp)
	ld	s8, 48(sp)
	ld	s9, 40(sp)
	ld	s10, 32(sp)
	ld	s11, 24(sp)
	addi	sp, sp, 128
	ret
.Lfunc_end9d440:
	.size	aes_block.slices.transpose, .Lfunc_end9d440-aes_block.slices.transpose

	.section	".text.aes_block::Aes128::encrypt_block","ax",@progbits
	.p2align	1
	.type	aes_block.Aes128.encrypt_block,@function
aes_block.Aes128.encrypt_block:
	addi	sp, sp, -528
	sd	ra, 520(sp)
	sd	s0, 512(sp)
	sd	s1, 504(sp)
	sd	s2, 496(sp)
	sd	s3, 488(sp)
	sd	s4, 480(sp)
	sd	s5, 472(sp)
	sd	s6, 464(sp)
	sd	s7, 456(sp)
	sd	s8, 448(sp)
	sd	s9, 440(sp)
	sd	s10, 432(sp)
	sd	s11, 424(sp)
	mv	s6, a0
	lbu	a7, 12(a2)
	lbu	t5, 13(a2)
	lbu	t0, 14(a2)
	lb	t1, 15(a2)
	lbu	a6, 8(a2)
	lbu	t2, 9(a2)
	lbu	s2, 10(a2)
	lb	s3, 11(a2)
	lbu	t4, 4(a2)
	lbu	s4, 5(a2)
	lbu	t3, 6(a2)
	lb	t6, 7(a2)
	lbu	s1, 12(a1)
	lbu	s0, 13(a1)
	lbu	a3, 14(a1)
	lbu	a5, 15(a1)
	sb	s1, 204(sp)
	sb	s0, 205(sp)
	sb	a3, 206(sp)
	sb	a5, 207(sp)
	lbu	a3, 8(a1)
	lbu	a5, 9(a1)
	lbu	s0, 10(a1)
	lbu	s1, 11(a1)
	sb	a3, 200(sp)
	sb	a5, 201(sp)
	sb	s0, 202(sp)
	sb	s1, 203(sp)
	lbu	a3, 4(a1)
	lbu	a5, 5(a1)
	lbu	s0, 6(a1)
	lbu	s1, 7(a1)
	sb	a3, 196(sp)
	sb	a5, 197(sp)
	sb	s0, 198(sp)
	sb	s1, 199(sp)
	lbu	a3, 0(a1)
	lbu	a5, 1(a1)
	lbu	s0, 2(a1)
	lbu	s1, 3(a1)
	sb	a3, 192(sp)
	sb	a5, 193(sp)
	sb	s0, 194(sp)
	lbu	s5, 0(a2)
	lbu	a5, 1(a2)
	lbu	s8, 2(a2)
	lb	s7, 3(a2)
	sb	s1, 195(sp)
	addi	s11, a1, 16
	slli	t5, t5, 8
	or	a7, t5, a7
	addi	s10, a1, 160
	slli	t0, t0, 16
	slli	t1, t1, 24
	slli	t2, t2, 8
	slli	s2, s2, 16
	slli	s3, s3, 24
	slli	s4, s4, 8
	or	a3, t1, t0
	or	a6, t2, a6
	or	t0, s3, s2
	or	t1, s4, t4
	lbu	a0, 172(a1)
	sd	a0, 120(sp)
	lbu	a0, 173(a1)
	sd	a0, 112(sp)
	lbu	a0, 174(a1)
	sd	a0, 104(sp)
	lbu	a0, 175(a1)
	sd	a0, 96(sp)
	slli	t3, t3, 16
	slli	t6, t6, 24
	slli	a5, a5, 8
	slli	s8, s8, 16
	slli	s7, s7, 24
	or	a0, t6, t3
	or	a5, a5, s5
	or	a2, s7, s8
	or	a3, a3, a7
	lbu	a4, 168(a1)
	sd	a4, 88(sp)
	lbu	a4, 169(a1)
	sd	a4, 80(sp)
	lbu	a4, 170(a1)
	sd	a4, 72(sp)
	lbu	a4, 171(a1)
	sd	a4, 64(sp)
	or	a4, t0, a6
	or	a0, a0, t1
	or	a2, a2, a5
	sw	a2, 392(sp)
	sw	a2, 396(sp)
	lbu	a2, 164(a1)
	sd	a2, 56(sp)
	lbu	a2, 165(a1)
	sd	a2, 48(sp)
	lbu	a2, 166(a1)
	sd	a2, 40(sp)
	lbu	a2, 167(a1)
	sd	a2, 32(sp)
	sw	a0, 400(sp)
	sw	a0, 404(sp)
	sw	a4, 408(sp)
	sw	a4, 412(sp)
	sw	a3, 416(sp)
	sw	a3, 420(sp)
	lbu	a0, 160(a1)
	sd	a0, 24(sp)
	lbu	a0, 161(a1)
	sd	a0, 16(sp)
	lbu	a0, 162(a1)
	sd	a0, 8(sp)
	lbu	a0, 163(a1)
	sd	a0, 0(sp)
	sd	zero, 128(sp)
	sd	zero, 136(sp)
	sd	zero, 144(sp)
	sd	zero, 152(sp)
	addi	a0, sp, 208
	addi	a1, sp, 392
	call	aes_block.slices.transpose
	addi	a0, sp, 160
	addi	a1, sp, 208
	addi	a2, sp, 192
	call	aes_block.sliced_rounds.add_round_key
.LBB23270_1:
	lbu	a6, 0(s11)
	lbu	a7, 1(s11)
	lbu	t0, 2(s11)
	lbu	t1, 3(s11)
	lbu	t3, 4(s11)
	lbu	t4, 5(s11)
	lbu	t5, 6(s11)
	lbu	t2, 7(s11)
	lbu	a1, 8(s11)
	lbu	a2, 9(s11)
	lbu	a3, 10(s11)
	lbu	t6, 11(s11)
	lbu	a4, 12(s11)
	lbu	a5, 13(s11)
	lbu	s0, 14(s11)
	lbu	a0, 15(s11)
	sb	a4, 316(sp)
	sb	a5, 317(sp)
	sb	s0, 318(sp)
	sb	a0, 319(sp)
	sb	a1, 312(sp)
	sb	a2, 313(sp)
	sb	a3, 314(sp)
	sb	t6, 315(sp)
	sb	t3, 308(sp)
	sb	t4, 309(sp)
	sb	t5, 310(sp)
	sb	t2, 311(sp)
	sb	a6, 304(sp)
	sb	a7, 305(sp)
	sb	t0, 306(sp)
	sb	t1, 307(sp)
	addi	a0, sp, 392
	addi	a1, sp, 160
	call	aes_block.sliced_box.substitute
	lwu	a6, 408(sp)
	lw	a1, 412(sp)
	lwu	a2, 416(sp)
	lw	a3, 420(sp)
	lwu	a4, 392(sp)
	lw	a5, 396(sp)
	lwu	s0, 400(sp)
	lw	a0, 404(sp)
	slli	a3, a3, 32
	or	a2, a2, a3
	slli	a1, a1, 32
	or	a1, a1, a6
	slli	a0, a0, 32
	or	a0, a0, s0
	slli	a5, a5, 32
	or	a4, a4, a5
	sd	a4, 240(sp)
	sd	a0, 248(sp)
	sd	a1, 256(sp)
	sd	a2, 264(sp)
	addi	a0, sp, 272
	addi	a1, sp, 240
	call	aes_block.sliced_rounds.shift_rows
	lw	a1, 272(sp)
	lw	a2, 276(sp)
	lw	a3, 280(sp)
	lw	a4, 284(sp)
	lw	a5, 288(sp)
	lw	s0, 292(sp)
	lw	a0, 296(sp)
	lw	s1, 300(sp)
	srliw	a6, a1, 8
	slli	a7, a1, 24
	srliw	t0, a2, 8
	slli	t1, a2, 24
	srliw	t2, a3, 8
	slli	t3, a3, 24
	srliw	t4, a4, 8
	slli	t5, a4, 24
	srliw	t6, a5, 8
	slli	ra, a5, 24
	srliw	s2, s0, 8
	slli	s3, s0, 24
	srliw	s4, a0, 8
	slli	s5, a0, 24
	srliw	s7, s1, 8
	slli	s8, s1, 24
	or	a6, a7, a6
	or	a7, t1, t0
	or	t0, t3, t2
	or	t1, t5, t4
	or	t2, ra, t6
	or	t3, s3, s2
	or	t4, s5, s4
	or	t5, s8, s7
	xor	t6, a6, a1
	xor	a2, a7, a2
	xor	a3, t0, a3
	xor	a4, t1, a4
	xor	a5, t2, a5
	xor	s0, t3, s0
	xor	a0, t4, a0
	xor	a1, t5, s1
	srliw	s2, t6, 16
	slli	s3, t6, 16
	srliw	s4, a2, 16
	slli	s5, a2, 16
	srliw	s7, a3, 16
	slli	s8, a3, 16
	srliw	ra, a4, 16
	slli	s1, a4, 16
	srliw	s9, a5, 16
	xor	a7, t6, a7
	slli	t6, a5, 16
	xor	t0, t0, a2
	srliw	a2, s0, 16
	xor	t1, a3, t1
	slli	a3, s0, 16
	xor	t2, a4, t2
	srliw	a4, a0, 16
	xor	t3, t3, a5
	slli	a5, a0, 16
	xor	t4, t4, s0
	srliw	s0, a1, 16
	xor	t5, t5, a0
	slli	a0, a1, 16
	xor	a6, a6, a1
	or	s2, s3, s2
	or	s3, s5, s4
	or	s4, s8, s7
	or	s1, s1, ra
	or	t6, t6, s9
	or	a2, a2, a3
	or	a4, a4, a5
	or	s5, a0, s0
	xor	a3, a7, a1
	xor	a5, t1, a1
	xor	a1, t2, a1
	xor	s0, s2, a6
	xor	a3, a3, s3
	xor	a0, t0, s4
	xor	a5, a5, s1
	xor	a1, a1, t6
	xor	a2, t3, a2
	xor	a4, t4, a4
	xor	s1, t5, s5
	sw	s0, 328(sp)
	sw	a3, 332(sp)
	sw	a0, 336(sp)
	sw	a5, 340(sp)
	sw	a1, 344(sp)
	sw	a2, 348(sp)
	sw	a4, 352(sp)
	sw	s1, 356(sp)
	addi	a0, sp, 392
	addi	a1, sp, 328
	addi	a2, sp, 304
	call	aes_block.sliced_rounds.add_round_key
	lwu	a0, 408(sp)
	lw	a1, 412(sp)
	lwu	a2, 416(sp)
	lw	a3, 420(sp)
	lwu	a4, 392(sp)
	lw	a5, 396(sp)
	lwu	s1, 400(sp)
	lw	s0, 404(sp)
	slli	a3, a3, 32
	or	a2, a2, a3
	slli	a1, a1, 32
	or	a0, a0, a1
	slli	s0, s0, 32
	or	s0, s0, s1
	addi	s11, s11, 16
	slli	a5, a5, 32
	or	a4, a4, a5
	sd	a4, 128(sp)
	sd	s0, 136(sp)
	sd	a0, 144(sp)
	sd	a2, 152(sp)
	sd	a4, 160(sp)
	sd	s0, 168(sp)
	sd	a0, 176(sp)
	sd	a2, 184(sp)
	bne	s11, s10, .LBB23270_1
	ld	a0, 24(sp)
	sb	a0, 272(sp)
	ld	a0, 16(sp)
	sb	a0, 273(sp)
	ld	a0, 8(sp)
	sb	a0, 274(sp)
	ld	a0, 0(sp)
	sb	a0, 275(sp)
	ld	a0, 56(sp)
	sb	a0, 276(sp)
	ld	a0, 48(sp)
	sb	a0, 277(sp)
	ld	a0, 40(sp)
	sb	a0, 278(sp)
	ld	a0, 32(sp)
	sb	a0, 279(sp)
	ld	a0, 88(sp)
	sb	a0, 280(sp)
	ld	a0, 80(sp)
	sb	a0, 281(sp)
	ld	a0, 72(sp)
	sb	a0, 282(sp)
	ld	a0, 64(sp)
	sb	a0, 283(sp)
	ld	a0, 120(sp)
	sb	a0, 284(sp)
	ld	a0, 112(sp)
	sb	a0, 285(sp)
	ld	a0, 104(sp)
	sb	a0, 286(sp)
	ld	a0, 96(sp)
	sb	a0, 287(sp)
	addi	a0, sp, 360
	addi	a1, sp, 128
	call	aes_block.sliced_box.substitute
	addi	a0, sp, 328
	addi	a1, sp, 360
	call	aes_block.sliced_rounds.shift_rows
	addi	a0, sp, 392
	addi	a1, sp, 328
	addi	a2, sp, 272
	call	aes_block.sliced_rounds.add_round_key
	lwu	a0, 408(sp)
	lw	a1, 412(sp)
	lwu	a2, 416(sp)
	lw	a3, 420(sp)
	lwu	a4, 392(sp)
	lw	a5, 396(sp)
	lwu	s1, 400(sp)
	lw	s0, 404(sp)
	slli	a3, a3, 32
	or	a2, a2, a3
	slli	a1, a1, 32
	or	a0, a0, a1
	slli	s0, s0, 32
	or	s0, s0, s1
	slli	a5, a5, 32
	or	a4, a4, a5
	sd	a4, 208(sp)
	sd	s0, 216(sp)
	sd	a0, 224(sp)
	sd	a2, 232(sp)
	addi	a0, sp, 392
	addi	a1, sp, 208
	call	aes_block.slices.transpose
	lw	a0, 392(sp)
	lw	a1, 400(sp)
	lw	a2, 408(sp)
	lw	a3, 416(sp)
	srli	a6, a0, 8
	srli	a7, a0, 16
	srli	t0, a0, 24
	srli	t3, a1, 8
	srli	t1, a1, 16
	srli	t2, a1, 24
	srli	s1, a2, 8
	srli	t4, a2, 16
	srli	t5, a2, 24
	srli	s0, a3, 8
	srli	a4, a3, 16
	srli	a5, a3, 24
	sb	a3, 12(s6)
	sb	s0, 13(s6)
	sb	a4, 14(s6)
	sb	a5, 15(s6)
	sb	a2, 8(s6)
	sb	s1, 9(s6)
	sb	t4, 10(s6)
	sb	t5, 11(s6)
	sb	a1, 4(s6)
	sb	t3, 5(s6)
	sb	t1, 6(s6)
	sb	t2, 7(s6)
	sb	a0, 0(s6)
	sb	a6, 1(s6)
	sb	a7, 2(s6)
	sb	t0, 3(s6)
	ld	ra, 520(sp)
	ld	s0, 512(sp)
	ld	s1, 504(sp)
	ld	s2, 496(sp)
	ld	s3, 488(sp)
	ld	s4, 480(sp)
	ld	s5, 472(sp)
	ld	s6, 464(sp)
	ld	s7, 456(sp)
	ld	s8, 448(sp)
	ld	s9, 440(sp)
	ld	s10, 432(sp)
	ld	s11, 424(sp)
	addi	sp, sp, 528
	ret
.Lfunc_end23270:
	.size	aes_block.Aes128.encrypt_block, .Lfunc_end23270-aes_block.Aes128.encrypt_block

	.section	".text.aes_block::sliced_rounds::add_round_key","ax",@progbits
	.p2align	1
	.type	aes_block.sliced_rounds.add_round_key,@function
aes_block.sliced_rounds.add_round_key:
	addi	sp, sp, -192
	sd	ra, 184(sp)
	sd	s0, 176(sp)
	sd	s1, 168(sp)
	sd	s2, 160(sp)
	sd	s3, 152(sp)
	sd	s4, 144(sp)
	sd	s5, 136(sp)
	sd	s6, 128(sp)
	sd	s7, 120(sp)
	sd	s8, 112(sp)
	sd	s9, 104(sp)
	sd	s10, 96(sp)
	sd	s11, 88(sp)
	mv	s0, a0
	lbu	a6, 0(a1)
	lbu	a7, 1(a1)
	lbu	t1, 2(a1)
	lb	s9, 3(a1)
	lbu	t0, 4(a1)
	lbu	s1, 5(a1)
	lbu	a5, 6(a1)
	lb	a3, 7(a1)
	lbu	t2, 8(a1)
	lbu	t3, 9(a1)
	lbu	t4, 10(a1)
	lb	s6, 11(a1)
	lbu	s5, 12(a1)
	lbu	a0, 13(a1)
	lbu	t5, 14(a1)
	lb	s2, 15(a1)
	lbu	t6, 16(a1)
	lbu	s7, 17(a1)
	lbu	s8, 18(a1)
	lb	s11, 19(a1)
	lbu	s10, 20(a1)
	lbu	ra, 21(a1)
	lbu	s3, 22(a1)
	lb	s4, 23(a1)
	slli	a7, a7, 8
	slli	t1, t1, 16
	slli	s9, s9, 24
	slli	s1, s1, 8
	slli	a5, a5, 16
	slli	a3, a3, 24
	or	a4, a7, a6
	sd	a4, 16(sp)
	or	a4, s9, t1
	sd	a4, 8(sp)
	or	t0, s1, t0
	or	t1, a3, a5
	lbu	s9, 24(a1)
	lbu	s1, 25(a1)
	lbu	a5, 26(a1)
	lb	a3, 27(a1)
	slli	t3, t3, 8
	slli	t4, t4, 16
	slli	s6, s6, 24
	slli	a0, a0, 8
	or	t2, t3, t2
	or	t3, s6, t4
	or	t4, a0, s5
	lbu	a0, 28(a1)
	lbu	a4, 29(a1)
	lbu	s6, 30(a1)
	lb	s5, 31(a1)
	slli	t5, t5, 16
	slli	s2, s2, 24
	slli	s7, s7, 8
	slli	s8, s8, 16
	slli	s11, s11, 24
	slli	ra, ra, 8
	or	t5, s2, t5
	or	t6, s7, t6
	or	s7, s11, s8
	or	a7, ra, s10
	lbu	s8, 12(a2)
	lbu	s10, 13(a2)
	lbu	s11, 14(a2)
	lb	a1, 15(a2)
	slli	s3, s3, 16
	slli	s4, s4, 24
	slli	s1, s1, 8
	slli	a5, a5, 16
	slli	a3, a3, 24
	slli	a4, a4, 8
	or	s4, s4, s3
	or	a6, s1, s9
	or	s9, a3, a5
	or	ra, a4, a0
	lbu	a0, 8(a2)
	lbu	a4, 9(a2)
	lbu	a5, 10(a2)
	lb	a3, 11(a2)
	slli	s6, s6, 16
	slli	s5, s5, 24
	slli	s10, s10, 8
	slli	s11, s11, 16
	slli	a1, a1, 24
	slli	a4, a4, 8
	or	s6, s5, s6
	or	s5, s10, s8
	or	s10, a1, s11
	or	s8, a4, a0
	lbu	a4, 4(a2)
	lbu	s1, 5(a2)
	lbu	a0, 6(a2)
	lb	a1, 7(a2)
	slli	a5, a5, 16
	slli	a3, a3, 24
	slli	s1, s1, 8
	slli	a0, a0, 16
	slli	a1, a1, 24
	or	a3, a3, a5
	or	a4, a4, s1
	or	a0, a0, a1
	lbu	a1, 1(a2)
	lbu	a5, 0(a2)
	lbu	s1, 2(a2)
	lb	a2, 3(a2)
	slli	a1, a1, 8
	or	a1, a1, a5
	slli	s1, s1, 16
	slli	a2, a2, 24
	or	a2, a2, s1
	ld	a5, 16(sp)
	ld	s1, 8(sp)
	or	s1, s1, a5
	or	s11, t1, t0
	or	s2, t3, t2
	or	s3, t5, t4
	or	s7, s7, t6
	or	s4, s4, a7
	or	s9, s9, a6
	or	s6, s6, ra
	or	a5, s10, s5
	or	a3, a3, s8
	or	a0, a0, a4
	or	a1, a1, a2
	sw	a1, 24(sp)
	sw	a1, 28(sp)
	sw	a0, 32(sp)
	sw	a0, 36(sp)
	sw	a3, 40(sp)
	sw	a3, 44(sp)
	sw	a5, 48(sp)
	sw	a5, 52(sp)
	addi	a0, sp, 56
	addi	a1, sp, 24
	call	aes_block.slices.transpose
	lw	a0, 56(sp)
	lw	a1, 60(sp)
	lw	a2, 64(sp)
	lw	a3, 68(sp)
	lw	a4, 72(sp)
	lw	a5, 76(sp)
	lw	a6, 80(sp)
	lw	a7, 84(sp)
	xor	a0, a0, s1
	xor	s1, a1, s11
	xor	a1, a2, s2
	xor	a2, a3, s3
	xor	a3, a4, s7
	xor	a4, a5, s4
	xor	a5, a6, s9
	xor	a6, a7, s6
	srli	a7, a0, 24
	srli	t0, a0, 16
	srli	t1, a0, 8
	sb	a0, 0(s0)
	srli	t2, s1, 24
	srli	t3, s1, 16
	srli	s4, s1, 8
	srli	t4, a1, 24
	srli	t5, a1, 16
	srli	t6, a1, 8
	srli	s2, a2, 24
	srli	s3, a2, 16
	srli	s7, a2, 8
	srli	s5, a3, 24
	srli	s6, a3, 16
	srli	s10, a3, 8
	srli	s8, a4, 24
	srli	s9, a4, 16
	srli	a0, a4, 8
	srli	s11, a5, 24
	srli	ra, a5, 16
	sb	t1, 1(s0)
	sb	t0, 2(s0)
	sb	a7, 3(s0)
	srli	a7, a5, 8
	sb	s1, 4(s0)
	sb	s4, 5(s0)
	sb	t3, 6(s0)
	sb	t2, 7(s0)
	srli	s1, a6, 24
	sb	a1, 8(s0)
	sb	t6, 9(s0)
	sb	t5, 10(s0)
	sb	t4, 11(s0)
	srli	a1, a6, 16
	sb	a2, 12(s0)
	sb	s7, 13(s0)
	sb	s3, 14(s0)
	sb	s2, 15(s0)
	srli	a2, a6, 8
	sb	a3, 16(s0)
	sb	s10, 17(s0)
	sb	s6, 18(s0)
	sb	s5, 19(s0)
	sb	a4, 20(s0)
	sb	a0, 21(s0)
	sb	s9, 22(s0)
	sb	s8, 23(s0)
	sb	a5, 24(s0)
	sb	a7, 25(s0)
	sb	ra, 26(s0)
	sb	s11, 27(s0)
	sb	a6, 28(s0)
	sb	a2, 29(s0)
	sb	a1, 30(s0)
	sb	s1, 31(s0)
	ld	ra, 184(sp)
	ld	s0, 176(sp)
	ld	s1, 168(sp)
	ld	s2, 160(sp)
	ld	s3, 152(sp)
	ld	s4, 144(sp)
	ld	s5, 136(sp)
	ld	s6, 128(sp)
	ld	s7, 120(sp)
	ld	s8, 112(sp)
	ld	s9, 104(sp)
	ld	s10, 96(sp)
	ld	s11, 88(sp)
	addi	sp, sp, 192
	ret
.Lfunc_enda348e:
	.size	aes_block.sliced_rounds.add_round_key, .Lfunc_enda348e-aes_block.sliced_rounds.add_round_key

	.section	".text.aes_block::sliced_rounds::shift_rows","ax",@progbits
	.p2align	1
	.type	aes_block.sliced_rounds.shift_rows,@function
aes_block.sliced_rounds.shift_rows:
	addi	sp, sp, -256
	sd	ra, 248(sp)
	sd	s0, 240(sp)
	sd	s1, 232(sp)
	sd	s2, 224(sp)
	sd	s3, 216(sp)
	sd	s4, 208(sp)
	sd	s5, 200(sp)
	sd	s6, 192(sp)
	sd	s7, 184(sp)
	sd	s8, 176(sp)
	sd	s9, 168(sp)
	sd	s10, 160(sp)
	sd	s11, 152(sp)
	mv	s0, a0
	lbu	a0, 0(a1)
	lbu	a2, 1(a1)
	lbu	a3, 2(a1)
	lbu	a4, 3(a1)
	lbu	s3, 4(a1)
	lbu	s1, 5(a1)
	lbu	s11, 6(a1)
	lbu	s5, 7(a1)
	lbu	s4, 8(a1)
	lbu	s6, 9(a1)
	lbu	s8, 10(a1)
	lbu	s10, 11(a1)
	lbu	a5, 12(a1)
	sd	a5, 16(sp)
	lbu	s7, 13(a1)
	lbu	s9, 14(a1)
	lbu	a5, 15(a1)
	sd	a5, 8(sp)
	lbu	a5, 16(a1)
	sd	a5, 48(sp)
	lbu	a5, 17(a1)
	sd	a5, 24(sp)
	lbu	a5, 18(a1)
	sd	a5, 32(sp)
	lbu	a5, 19(a1)
	sd	a5, 40(sp)
	lbu	a5, 20(a1)
	sd	a5, 104(sp)
	lbu	a5, 21(a1)
	sd	a5, 56(sp)
	lbu	a5, 22(a1)
	sd	a5, 64(sp)
	lbu	a5, 23(a1)
	sd	a5, 72(sp)
	slli	a2, a2, 8
	or	a0, a0, a2
	lbu	a2, 24(a1)
	sd	a2, 112(sp)
	lbu	a2, 25(a1)
	sd	a2, 80(sp)
	lbu	a2, 26(a1)
	sd	a2, 88(sp)
	lbu	a2, 27(a1)
	sd	a2, 96(sp)
	lbu	a2, 28(a1)
	sd	a2, 144(sp)
	lbu	a2, 29(a1)
	sd	a2, 120(sp)
	lbu	a2, 30(a1)
	sd	a2, 128(sp)
	lbu	a1, 31(a1)
	sd	a1, 136(sp)
	slli	a3, a3, 16
	slli	a4, a4, 24
	or	a3, a3, a4
	or	a0, a0, a3
	call	aes_block.sliced_rounds.shift_slice
	mv	s2, a0
	slli	s1, s1, 8
	slli	s11, s11, 16
	slli	s5, s5, 24
	or	a0, s1, s3
	or	a1, s5, s11
	or	a0, a0, a1
	call	aes_block.sliced_rounds.shift_slice
	mv	s3, a0
	slli	s6, s6, 8
	slli	s8, s8, 16
	slli	s10, s10, 24
	or	a0, s6, s4
	or	a1, s10, s8
	or	a0, a0, a1
	call	aes_block.sliced_rounds.shift_slice
	mv	s4, a0
	slli	s7, s7, 8
	slli	s9, s9, 16
	ld	a0, 8(sp)
	slli	a0, a0, 24
	ld	a1, 16(sp)
	or	a1, s7, a1
	or	a0, a0, s9
	or	a0, a0, a1
	call	aes_block.sliced_rounds.shift_slice
	mv	s5, a0
	ld	a0, 24(sp)
	slli	a0, a0, 8
	ld	a1, 32(sp)
	slli	a1, a1, 16
	ld	a2, 40(sp)
	slli	a2, a2, 24
	ld	a3, 48(sp)
	or	a0, a0, a3
	or	a1, a1, a2
	or	a0, a0, a1
	call	aes_block.sliced_rounds.shift_slice
	mv	s6, a0
	ld	a0, 56(sp)
	slli	a0, a0, 8
	ld	a1, 64(sp)
	slli	a1, a1, 16
	ld	a2, 72(sp)
	slli	a2, a2, 24
	ld	a3, 104(sp)
	or	a0, a0, a3
	or	a1, a1, a2
	or	a0, a0, a1
	call	aes_block.sliced_rounds.shift_slice
	mv	s7, a0
	ld	a0, 80(sp)
	slli	a0, a0, 8
	ld	a1, 88(sp)
	slli	a1, a1, 16
	ld	a2, 96(sp)
	slli	a2, a2, 24
	ld	a3, 112(sp)
	or	a0, a0, a3
	or	a1, a1, a2
	or	a0, a0, a1
	call	aes_block.sliced_rounds.shift_slice
	mv	s1, a0
	ld	a0, 120(sp)
	slli	a0, a0, 8
	ld	a1, 128(sp)
	slli	a1, a1, 16
	ld	a2, 136(sp)
	slli	a2, a2, 24
	ld	a3, 144(sp)
	or	a0, a0, a3
	or	a1, a1, a2
	or	a0, a0, a1
	call	aes_block.sliced_rounds.shift_slice
	srli	a6, s2, 24
	srli	t1, s2, 16
	srli	s11, s2, 8
	srli	a7, s3, 24
	srli	t4, s3, 16
	srli	a1, s3, 8
	srli	t0, s4, 24
	srli	s8, s4, 16
	srli	a2, s4, 8
	srli	t2, s5, 24
	srli	t3, s5, 16
	srli	a5, s5, 8
	srli	t5, s6, 24
	srli	t6, s6, 16
	srli	a4, s6, 8
	srli	s9, s7, 24
	srli	s10, s7, 16
	srli	a3, s7, 8
	srli	ra, s1, 24
	sb	s2, 0(s0)
	sb	s11, 1(s0)
	sb	t1, 2(s0)
	sb	a6, 3(s0)
	srli	a6, s1, 16
	sb	s3, 4(s0)
	sb	a1, 5(s0)
	sb	t4, 6(s0)
	sb	a7, 7(s0)
	srli	a1, s1, 8
	sb	s4, 8(s0)
	sb	a2, 9(s0)
	sb	s8, 10(s0)
	sb	t0, 11(s0)
	srli	a2, a0, 24
	sb	s5, 12(s0)
	sb	a5, 13(s0)
	sb	t3, 14(s0)
	sb	t2, 15(s0)
	srli	a5, a0, 16
	sb	s6, 16(s0)
	sb	a4, 17(s0)
	sb	t6, 18(s0)
	sb	t5, 19(s0)
	srli	a4, a0, 8
	sb	s7, 20(s0)
	sb	a3, 21(s0)
	sb	s10, 22(s0)
	sb	s9, 23(s0)
	sb	s1, 24(s0)
	sb	a1, 25(s0)
	sb	a6, 26(s0)
	sb	ra, 27(s0)
	sb	a0, 28(s0)
	sb	a4, 29(s0)
	sb	a5, 30(s0)
	sb	a2, 31(s0)
	ld	ra, 248(sp)
	ld	s0, 240(sp)
	ld	s1, 232(sp)
	ld	s2, 224(sp)
	ld	s3, 216(sp)
	ld	s4, 208(sp)
	ld	s5, 200(sp)
	ld	s6, 192(sp)
	ld	s7, 184(sp)
	ld	s8, 176(sp)
	ld	s9, 168(sp)
	ld	s10, 160(sp)
	ld	s11, 152(sp)
	addi	sp, sp, 256
	ret
.Lfunc_enda5c52:
	.size	aes_block.sliced_rounds.shift_rows, .Lfunc_enda5c52-aes_block.sliced_rounds.shift_rows

	.section	".text.aes_block::sliced_rounds::shift_slice","ax",@progbits
	.p2align	1
	.type	aes_block.sliced_rounds.shift_slice,@function
aes_block.sliced_rounds.shift_slice:
	slli	a1, a0, 48
	srli	a2, a0, 8
	slli	a3, a0, 40
	srli	a4, a0, 12
	srli	a1, a1, 58
	slli	a2, a2, 6
	or	a1, a1, a2
	srliw	a2, a0, 30
	srli	a3, a3, 60
	andi	a4, a4, -16
	or	a3, a3, a4
	srli	a4, a0, 24
	zext.b	a0, a0
	slliw	a2, a2, 24
	slliw	a4, a4, 26
	or	a2, a2, a4
	zext.b	a3, a3
	zext.b	a1, a1
	slli	a3, a3, 16
	slli	a1, a1, 8
	or	a2, a2, a3
	or	a0, a0, a1
	or	a0, a0, a2
	ret
.Lfunc_endb5124:
	.size	aes_block.sliced_rounds.shift_slice, .Lfunc_endb5124-aes_block.sliced_rounds.shift_slice

	.section	".text.login_keys::psk::counter_block","ax",@progbits
	.p2align	1
	.type	login_keys.psk.counter_block,@function
login_keys.psk.counter_block:
	addi	sp, sp, -80
	sd	ra, 72(sp)
	sd	s0, 64(sp)
	sd	s1, 56(sp)
	sd	s2, 48(sp)
	mv	s1, a3
	mv	s2, a1
	mv	s0, a0
	mv	a0, a2
	call	core.int.u128.from_be_bytes
	mv	a2, a1
	zext.b	a1, s1
	xor	a1, a1, a0
	mv	a0, sp
	call	core.int.u128.to_be_bytes
	lbu	a6, 0(sp)
	lbu	a7, 1(sp)
	lbu	t0, 2(sp)
	lbu	t1, 3(sp)
	lbu	t3, 4(sp)
	lbu	t4, 5(sp)
	lbu	t5, 6(sp)
	lbu	t2, 7(sp)
	lbu	a1, 8(sp)
	lbu	a2, 9(sp)
	lbu	a3, 10(sp)
	lbu	t6, 11(sp)
	lbu	a4, 12(sp)
	lbu	a5, 13(sp)
	lbu	s1, 14(sp)
	lbu	a0, 15(sp)
	sd	zero, 32(sp)
	sd	zero, 40(sp)
	sb	a4, 28(sp)
	sb	a5, 29(sp)
	sb	s1, 30(sp)
	sb	a0, 31(sp)
	sb	a1, 24(sp)
	sb	a2, 25(sp)
	sb	a3, 26(sp)
	sb	t6, 27(sp)
	sb	t3, 20(sp)
	sb	t4, 21(sp)
	sb	t5, 22(sp)
	sb	t2, 23(sp)
	sb	a6, 16(sp)
	sb	a7, 17(sp)
	sb	t0, 18(sp)
	sb	t1, 19(sp)
	addi	a0, sp, 32
	addi	a2, sp, 16
	mv	a1, s2
	call	aes_block.Aes128.encrypt_block
	lbu	a6, 44(sp)
	lbu	a7, 45(sp)
	lbu	t0, 46(sp)
	lbu	t1, 47(sp)
	lbu	t3, 40(sp)
	lbu	t4, 41(sp)
	lbu	t5, 42(sp)
	lbu	t2, 43(sp)
	lbu	a1, 36(sp)
	lbu	a2, 37(sp)
	lbu	a3, 38(sp)
	lbu	t6, 39(sp)
	lbu	a4, 32(sp)
	lbu	a5, 33(sp)
	lbu	s1, 34(sp)
	lbu	a0, 35(sp)
	sb	a4, 0(s0)
	sb	a5, 1(s0)
	sb	s1, 2(s0)
	sb	a0, 3(s0)
	sb	a1, 4(s0)
	sb	a2, 5(s0)
	sb	a3, 6(s0)
	sb	t6, 7(s0)
	sb	t3, 8(s0)
	sb	t4, 9(s0)
	sb	t5, 10(s0)
	sb	t2, 11(s0)
	sb	a6, 12(s0)
	sb	a7, 13(s0)
	sb	t0, 14(s0)
	sb	t1, 15(s0)
	ld	ra, 72(sp)
	ld	s0, 64(sp)
	ld	s1, 56(sp)
	ld	s2, 48(sp)
	addi	sp, sp, 80
	ret
.Lfunc_enda3021:
	.size	login_keys.psk.counter_block, .Lfunc_enda3021-login_keys.psk.counter_block

	.section	".text.core::int::u128::from_be_bytes","ax",@progbits
	.p2align	1
	.type	core.int.u128.from_be_bytes,@function
core.int.u128.from_be_bytes:
	addi	sp, sp, -64
	sd	s0, 56(sp)
	sd	s1, 48(sp)
	sd	s2, 40(sp)
	sd	s3, 32(sp)
	sd	s4, 24(sp)
	sd	s5, 16(sp)
	sd	s6, 8(sp)
	lbu	t3, 0(a0)
	lbu	t4, 1(a0)
	lbu	t6, 2(a0)
	lbu	a4, 3(a0)
	lbu	a3, 8(a0)
	lbu	t0, 9(a0)
	lbu	t2, 10(a0)
	lbu	a5, 11(a0)
	lbu	a1, 4(a0)
	lbu	t5, 5(a0)
	lbu	s2, 6(a0)
	lbu	a6, 7(a0)
	lbu	s0, 12(a0)
	lbu	s1, 13(a0)
	lbu	a2, 14(a0)
	lbu	a7, 15(a0)
	slli	a1, a1, 32
	slli	a4, a4, 24
	or	t1, a4, a1
	li	a0, 255
	slli	s0, s0, 32
	slli	a5, a5, 24
	or	s4, a5, s0
	lui	s3, 4080
	slli	t6, t6, 16
	slli	t4, t4, 8
	or	a1, t4, t3
	or	a1, a1, t6
	lui	a5, 16
	slli	s5, a0, 24
	addi	s6, a5, -256
	slli	s2, s2, 48
	slli	t5, t5, 40
	slli	t4, a2, 48
	slli	t6, s1, 40
	slli	t2, t2, 16
	slli	t0, t0, 8
	or	a4, t0, a3
	slli	t0, a3, 56
	slli	t3, t3, 56
	or	a4, a4, t2
	or	s0, a1, t1
	or	a2, a4, s4
	and	a4, a4, s6
	and	a1, a1, s6
	or	s1, s0, t5
	or	a0, a2, t6
	srli	a3, a2, 8
	and	t1, a2, s3
	slli	a4, a4, 40
	or	t0, t0, a4
	srli	a4, s0, 8
	and	s0, s0, s3
	slli	a1, a1, 40
	or	a5, s1, s2
	or	a2, a0, t4
	and	a3, a3, s5
	srli	a0, a0, 24
	slli	t1, t1, 24
	and	a4, a4, s5
	srli	s1, s1, 24
	slli	t4, s0, 24
	or	t2, t3, a1
	and	a0, a0, s3
	srli	a1, a2, 40
	srliw	a2, a2, 24
	and	s1, s1, s3
	srli	s0, a5, 40
	srliw	a5, a5, 24
	or	a0, a0, a3
	and	a1, a1, s6
	slli	a2, a2, 32
	or	a4, a4, s1
	and	a3, s0, s6
	slli	a5, a5, 32
	or	a1, a1, a7
	or	a2, t1, a2
	or	a3, a3, a6
	or	a5, t4, a5
	or	a0, a0, a1
	or	a1, t0, a2
	or	a3, a3, a4
	or	a2, t2, a5
	or	a0, a0, a1
	or	a1, a2, a3
	ld	s0, 56(sp)
	ld	s1, 48(sp)
	ld	s2, 40(sp)
	ld	s3, 32(sp)
	ld	s4, 24(sp)
	ld	s5, 16(sp)
	ld	s6, 8(sp)
	addi	sp, sp, 64
	ret
.Lfunc_end1cf09:
	.size	core.int.u128.from_be_bytes, .Lfunc_end1cf09-core.int.u128.from_be_bytes

	.section	".text.core::int::u128::to_be_bytes","ax",@progbits
	.p2align	1
	.type	core.int.u128.to_be_bytes,@function
core.int.u128.to_be_bytes:
	addi	sp, sp, -16
	sd	s0, 8(sp)
	sd	s1, 0(sp)
	srli	a3, a2, 56
	srli	a4, a2, 48
	srli	a5, a2, 40
	srli	a6, a2, 32
	srli	a7, a2, 24
	srli	t0, a2, 16
	srli	t1, a2, 8
	srli	t2, a1, 56
	srli	t3, a1, 48
	srli	t4, a1, 40
	srli	t5, a1, 32
	srli	t6, a1, 24
	srli	s0, a1, 16
	srli	s1, a1, 8
	sb	a3, 0(a0)
	sb	a4, 1(a0)
	sb	a5, 2(a0)
	sb	a6, 3(a0)
	sb	a7, 4(a0)
	sb	t0, 5(a0)
	sb	t1, 6(a0)
	sb	a2, 7(a0)
	sb	t2, 8(a0)
	sb	t3, 9(a0)
	sb	t4, 10(a0)
	sb	t5, 11(a0)
	sb	t6, 12(a0)
	sb	s0, 13(a0)
	sb	s1, 14(a0)
	sb	a1, 15(a0)
	ld	s0, 8(sp)
	ld	s1, 0(sp)
	addi	sp, sp, 16
	ret
.Lfunc_end4528d:
	.size	core.int.u128.to_be_bytes, .Lfunc_end4528d-core.int.u128.to_be_bytes

	.section	".text.login_keys::psk::psk_session","ax",@progbits
	.p2align	1
	.type	login_keys.psk.psk_session,@function
login_keys.psk.psk_session:
	addi	sp, sp, -544
	sd	ra, 536(sp)
	sd	s0, 528(sp)
	sd	s1, 520(sp)
	sd	s2, 512(sp)
	mv	s1, a2
	mv	s0, a1
	mv	s2, a0
	addi	a0, sp, 144
	li	a2, 176
	li	a1, 0
	call	memset
	addi	a0, sp, 144
	mv	a1, s0
	call	aes_block.Aes128.new
	sd	zero, 496(sp)
	sd	zero, 504(sp)
	lbu	a6, 0(s1)
	lbu	a7, 1(s1)
	lbu	t0, 2(s1)
	lbu	t1, 3(s1)
	lbu	t3, 4(s1)
	lbu	t4, 5(s1)
	lbu	t5, 6(s1)
	lbu	t2, 7(s1)
	lbu	a1, 8(s1)
	lbu	a2, 9(s1)
	lbu	a3, 10(s1)
	lbu	a0, 11(s1)
	lbu	a4, 12(s1)
	lbu	a5, 13(s1)
	lbu	s0, 14(s1)
	lbu	s1, 15(s1)
	sb	a4, 492(sp)
	sb	a5, 493(sp)
	sb	s0, 494(sp)
	sb	s1, 495(sp)
	sb	a1, 488(sp)
	sb	a2, 489(sp)
	sb	a3, 490(sp)
	sb	a0, 491(sp)
	sb	t3, 484(sp)
	sb	t4, 485(sp)
	sb	t5, 486(sp)
	sb	t2, 487(sp)
	sb	a6, 480(sp)
	sb	a7, 481(sp)
	sb	t0, 482(sp)
	sb	t1, 483(sp)
	addi	a0, sp, 496
	addi	a1, sp, 144
	addi	a2, sp, 480
	call	aes_block.Aes128.encrypt_block
	lbu	a6, 508(sp)
	lbu	t2, 509(sp)
	lbu	t1, 510(sp)
	lbu	t0, 511(sp)
	lbu	a7, 504(sp)
	lbu	a5, 505(sp)
	lbu	t5, 506(sp)
	lbu	t4, 507(sp)
	lbu	t3, 500(sp)
	lbu	a1, 501(sp)
	lbu	a2, 502(sp)
	lbu	a3, 503(sp)
	lbu	a4, 496(sp)
	lbu	a0, 497(sp)
	lbu	s0, 498(sp)
	lbu	s1, 499(sp)
	sb	a4, 128(sp)
	sb	a0, 129(sp)
	sb	s0, 130(sp)
	sb	s1, 131(sp)
	sb	t3, 132(sp)
	sb	a1, 133(sp)
	sb	a2, 134(sp)
	sb	a3, 135(sp)
	sb	a7, 136(sp)
	sb	a5, 137(sp)
	sb	t5, 138(sp)
	sb	t4, 139(sp)
	sb	a6, 140(sp)
	sb	t2, 141(sp)
	sb	t1, 142(sp)
	sb	t0, 143(sp)
	slli	a0, a0, 8
	slli	s0, s0, 16
	slli	s1, s1, 24
	slli	a1, a1, 8
	slli	a2, a2, 16
	slli	a3, a3, 24
	slli	a5, a5, 8
	slli	t5, t5, 16
	slli	t4, t4, 24
	slli	t2, t2, 8
	slli	t1, t1, 16
	slli	t0, t0, 24
	or	a0, a0, a4
	or	s0, s0, s1
	or	a1, a1, t3
	or	a2, a2, a3
	or	a3, a5, a7
	or	a4, t4, t5
	or	a5, t2, a6
	or	s1, t0, t1
	or	a0, a0, s0
	or	a1, a1, a2
	or	a3, a3, a4
	or	a5, a5, s1
	slli	a1, a1, 32
	slli	a5, a5, 32
	or	a0, a0, a1
	or	a3, a3, a5
	sd	a0, 320(sp)
	sd	a3, 328(sp)
	addi	a0, sp, 128
	addi	a1, sp, 144
	addi	a2, sp, 320
	li	a3, 1
	call	login_keys.psk.counter_block
	addi	a0, sp, 64
	addi	a1, sp, 144
	addi	a2, sp, 320
	li	a3, 2
	call	login_keys.psk.four_blocks
	mv	a0, sp
	addi	a1, sp, 144
	addi	a2, sp, 320
	li	a3, 6
	call	login_keys.psk.four_blocks
	lbu	a0, 136(sp)
	lbu	a1, 137(sp)
	lbu	a2, 138(sp)
	lbu	a3, 139(sp)
	lbu	a4, 140(sp)
	lbu	a5, 141(sp)
	lbu	s1, 142(sp)
	lbu	s0, 143(sp)
	slli	a1, a1, 8
	slli	a2, a2, 16
	slli	a3, a3, 24
	or	a6, a1, a0
	or	a7, a3, a2
	lbu	a1, 128(sp)
	lbu	a3, 129(sp)
	lbu	a0, 130(sp)
	lbu	a2, 131(sp)
	slli	a5, a5, 8
	slli	s1, s1, 16
	slli	s0, s0, 24
	slli	a3, a3, 8
	slli	a0, a0, 16
	slli	a2, a2, 24
	or	a4, a4, a5
	or	s0, s0, s1
	or	a1, a1, a3
	or	a0, a0, a2
	lbu	a2, 133(sp)
	lbu	a3, 132(sp)
	lbu	a5, 134(sp)
	lbu	s1, 135(sp)
	slli	a2, a2, 8
	or	a2, a2, a3
	slli	a5, a5, 16
	slli	s1, s1, 24
	or	a5, a5, s1
	or	a3, a7, a6
	or	a4, a4, s0
	or	a0, a0, a1
	or	a2, a2, a5
	slli	a4, a4, 32
	slli	a2, a2, 32
	or	a3, a3, a4
	or	a0, a0, a2
	sd	a0, 336(sp)
	sd	a3, 344(sp)
	addi	a0, sp, 352
	addi	a1, sp, 64
	li	a2, 64
	call	memcpy
	addi	a0, sp, 416
	mv	a1, sp
	li	a2, 64
	call	memcpy
	addi	a1, sp, 336
	li	a2, 144
	mv	a0, s2
	call	memcpy
	ld	ra, 536(sp)
	ld	s0, 528(sp)
	ld	s1, 520(sp)
	ld	s2, 512(sp)
	addi	sp, sp, 544
	ret
.Lfunc_end5e7e5:
	.size	login_keys.psk.psk_session, .Lfunc_end5e7e5-login_keys.psk.psk_session

	.section	".text.login_keys::psk::four_blocks","ax",@progbits
	.p2align	1
	.type	login_keys.psk.four_blocks,@function
login_keys.psk.four_blocks:
	addi	sp, sp, -288
	sd	ra, 280(sp)
	sd	s0, 272(sp)
	sd	s1, 264(sp)
	sd	s2, 256(sp)
	sd	s3, 248(sp)
	sd	s4, 240(sp)
	sd	s5, 232(sp)
	sd	s6, 224(sp)
	sd	s7, 216(sp)
	sd	s8, 208(sp)
	mv	s8, a3
	mv	s3, a2
	mv	s7, a1
	mv	s2, a0
	sd	zero, 112(sp)
	sd	zero, 120(sp)
	sd	zero, 128(sp)
	sd	zero, 136(sp)
	sd	zero, 80(sp)
	sd	zero, 88(sp)
	sd	zero, 96(sp)
	sd	zero, 104(sp)
	sd	zero, 16(sp)
	sd	zero, 24(sp)
	sd	zero, 32(sp)
	sd	zero, 40(sp)
	sd	zero, 48(sp)
	sd	zero, 56(sp)
	sd	zero, 64(sp)
	sd	zero, 72(sp)
	addi	s4, sp, 64
	addi	s5, sp, 48
	addi	s6, sp, 32
	mv	a0, sp
	call	login_keys.psk.counter_block
	lbu	a0, 8(sp)
	lbu	a1, 9(sp)
	lbu	a2, 10(sp)
	lbu	a3, 11(sp)
	lbu	a4, 12(sp)
	lbu	a5, 13(sp)
	lbu	s0, 14(sp)
	lbu	s1, 15(sp)
	slli	a1, a1, 8
	slli	a2, a2, 16
	slli	a3, a3, 24
	or	a6, a1, a0
	or	a7, a3, a2
	lbu	a1, 0(sp)
	lbu	a3, 1(sp)
	lbu	a0, 2(sp)
	lbu	a2, 3(sp)
	slli	a5, a5, 8
	slli	s0, s0, 16
	slli	s1, s1, 24
	slli	a3, a3, 8
	slli	a0, a0, 16
	slli	a2, a2, 24
	or	a4, a4, a5
	or	s0, s0, s1
	or	a1, a1, a3
	or	a0, a0, a2
	lbu	a2, 5(sp)
	lbu	a3, 4(sp)
	lbu	a5, 6(sp)
	lbu	s1, 7(sp)
	slli	a2, a2, 8
	or	a2, a2, a3
	slli	a5, a5, 16
	slli	s1, s1, 24
	or	a5, a5, s1
	or	a3, a7, a6
	or	a4, a4, s0
	or	a0, a0, a1
	or	a2, a2, a5
	slli	a4, a4, 32
	slli	a2, a2, 32
	or	a3, a3, a4
	or	a0, a0, a2
	sd	a0, 16(sp)
	sd	a3, 24(sp)
	addi	a3, s8, 1
	mv	a0, sp
	mv	a1, s7
	mv	a2, s3
	call	login_keys.psk.counter_block
	mv	a1, sp
	li	a2, 16
	mv	a0, s6
	call	memcpy
	addi	a3, s8, 2
	mv	a0, sp
	mv	a1, s7
	mv	a2, s3
	call	login_keys.psk.counter_block
	mv	a1, sp
	li	a2, 16
	mv	a0, s5
	call	memcpy
	addi	a3, s8, 3
	mv	a0, sp
	mv	a1, s7
	mv	a2, s3
	call	login_keys.psk.counter_block
	mv	a1, sp
	li	a2, 16
	mv	a0, s4
	call	memcpy
	ld	a0, 16(sp)
	ld	a1, 24(sp)
	ld	a2, 32(sp)
	ld	a3, 40(sp)
	ld	a4, 48(sp)
	ld	a5, 56(sp)
	ld	s1, 64(sp)
	ld	s0, 72(sp)
	sd	a1, 152(sp)
	sd	a2, 160(sp)
	sd	a3, 168(sp)
	sd	a4, 176(sp)
	sd	a5, 184(sp)
	sd	s1, 192(sp)
	sd	s0, 200(sp)
	ld	a1, 152(sp)
	ld	a2, 160(sp)
	ld	a3, 168(sp)
	ld	a4, 176(sp)
	sd	a0, 80(sp)
	sd	a1, 88(sp)
	sd	a2, 96(sp)
	sd	a3, 104(sp)
	ld	a0, 184(sp)
	ld	a1, 192(sp)
	ld	a2, 200(sp)
	sd	a4, 112(sp)
	sd	a0, 120(sp)
	sd	a1, 128(sp)
	sd	a2, 136(sp)
	addi	a1, sp, 80
	li	a2, 64
	mv	a0, s2
	call	memcpy
	ld	ra, 280(sp)
	ld	s0, 272(sp)
	ld	s1, 264(sp)
	ld	s2, 256(sp)
	ld	s3, 248(sp)
	ld	s4, 240(sp)
	ld	s5, 232(sp)
	ld	s6, 224(sp)
	ld	s7, 216(sp)
	ld	s8, 208(sp)
	addi	sp, sp, 288
	ret
.Lfunc_end270e4:
	.size	login_keys.psk.four_blocks, .Lfunc_end270e4-login_keys.psk.four_blocks

	.section	".text.cmac_mac::key::CmacKey::new","ax",@progbits
	.p2align	1
	.type	cmac_mac.key.CmacKey.new,@function
cmac_mac.key.CmacKey.new:
	addi	sp, sp, -480
	sd	ra, 472(sp)
	sd	s0, 464(sp)
	sd	s1, 456(sp)
	sd	s2, 448(sp)
	mv	s1, a1
	mv	s2, a0
	addi	a0, sp, 16
	li	a2, 176
	li	a1, 0
	call	memset
	addi	a0, sp, 16
	mv	a1, s1
	call	aes_block.Aes128.new
	sd	zero, 432(sp)
	sd	zero, 440(sp)
	sd	zero, 416(sp)
	sd	zero, 424(sp)
	addi	a0, sp, 432
	addi	a1, sp, 16
	addi	a2, sp, 416
	call	aes_block.Aes128.encrypt_block
	lbu	a6, 444(sp)
	lbu	a7, 445(sp)
	lbu	t0, 446(sp)
	lbu	t1, 447(sp)
	lbu	t2, 440(sp)
	lbu	t3, 441(sp)
	lbu	t5, 442(sp)
	lbu	t4, 443(sp)
	lbu	a0, 436(sp)
	lbu	a1, 437(sp)
	lbu	a2, 438(sp)
	lbu	a3, 439(sp)
	lbu	a4, 432(sp)
	lbu	a5, 433(sp)
	lbu	s0, 434(sp)
	lbu	s1, 435(sp)
	sb	a4, 0(sp)
	sb	a5, 1(sp)
	sb	s0, 2(sp)
	sb	s1, 3(sp)
	sb	a0, 4(sp)
	sb	a1, 5(sp)
	sb	a2, 6(sp)
	sb	a3, 7(sp)
	sb	t2, 8(sp)
	sb	t3, 9(sp)
	sb	t5, 10(sp)
	sb	t4, 11(sp)
	sb	a6, 12(sp)
	sb	a7, 13(sp)
	sb	t0, 14(sp)
	sb	t1, 15(sp)
	mv	a0, sp
	call	core.int.u128.from_be_bytes
	srli	a2, a0, 63
	slli	a3, a1, 1
	slli	a0, a0, 1
	srai	a1, a1, 63
	or	a2, a2, a3
	andi	a1, a1, 135
	xor	a1, a1, a0
	addi	a0, sp, 192
	call	core.int.u128.to_be_bytes
	addi	a0, sp, 192
	call	core.int.u128.from_be_bytes
	srli	a2, a0, 63
	slli	a3, a1, 1
	slli	a0, a0, 1
	srai	a1, a1, 63
	or	a2, a2, a3
	andi	a1, a1, 135
	xor	a1, a1, a0
	mv	a0, sp
	call	core.int.u128.to_be_bytes
	addi	a0, sp, 208
	addi	a1, sp, 16
	li	a2, 176
	call	memcpy
	addi	a0, sp, 384
	addi	a1, sp, 192
	li	a2, 16
	call	memcpy
	addi	a0, sp, 400
	mv	a1, sp
	li	a2, 16
	call	memcpy
	addi	a1, sp, 208
	li	a2, 208
	mv	a0, s2
	call	memcpy
	ld	ra, 472(sp)
	ld	s0, 464(sp)
	ld	s1, 456(sp)
	ld	s2, 448(sp)
	addi	sp, sp, 480
	ret
.Lfunc_enddaa5f:
	.size	cmac_mac.key.CmacKey.new, .Lfunc_enddaa5f-cmac_mac.key.CmacKey.new

	.section	".text.psk_ends::peer::turns::log_in::<#becd8de5e2060522>","ax",@progbits
	.p2align	1
	.type	psk_ends.peer.turns.log_in.__becd8de5e2060522_,@function
psk_ends.peer.turns.log_in.__becd8de5e2060522_:
	addi	sp, sp, -1376
	sd	ra, 1368(sp)
	sd	s0, 1360(sp)
	sd	s1, 1352(sp)
	sd	s2, 1344(sp)
	sd	s3, 1336(sp)
	sd	s4, 1328(sp)
	sd	s5, 1320(sp)
	sd	s6, 1312(sp)
	sd	s7, 1304(sp)
	sd	s8, 1296(sp)
	sd	s9, 1288(sp)
	mv	s2, t3
	mv	s3, a7
	mv	s4, a6
	mv	s0, a4
	mv	s6, a3
	mv	s1, a2
	mv	s8, a1
	mv	s5, a0
	addi	a0, sp, 592
	li	a2, 560
	mv	a1, a5
	call	memcpy
	lbu	a0, 528(s8)
	addi	s7, s8, 264
	bnez	a0, .LBB24ef2_2
	lbu	a0, 24(s0)
	lbu	a1, 25(s0)
	lbu	a2, 26(s0)
	lbu	a3, 27(s0)
	lbu	a6, 28(s0)
	lbu	a7, 29(s0)
	lbu	a4, 30(s0)
	lbu	a5, 31(s0)
	slli	a1, a1, 8
	slli	a2, a2, 16
	slli	a3, a3, 24
	or	t0, a1, a0
	or	t1, a3, a2
	lbu	a1, 16(s0)
	lbu	a3, 17(s0)
	lbu	a0, 18(s0)
	lbu	a2, 19(s0)
	slli	a7, a7, 8
	slli	a4, a4, 16
	slli	a5, a5, 24
	slli	a3, a3, 8
	slli	a0, a0, 16
	slli	a2, a2, 24
	or	a6, a7, a6
	or	a4, a4, a5
	or	a7, a3, a1
	or	a0, a0, a2
	lbu	a2, 21(s0)
	lbu	a3, 20(s0)
	lbu	a5, 22(s0)
	lbu	a1, 23(s0)
	slli	a2, a2, 8
	or	a2, a2, a3
	slli	a5, a5, 16
	slli	a1, a1, 24
	or	a1, a1, a5
	or	a3, t1, t0
	or	a4, a4, a6
	or	a0, a0, a7
	or	a1, a1, a2
	slli	a2, a4, 32
	slli	a1, a1, 32
	or	a2, a2, a3
	or	a1, a1, a0
	mv	a0, s7
	call	octet_lists.octets.Octets.set.__253_
.LBB24ef2_2:
	lbu	a0, 8(s0)
	lbu	a1, 9(s0)
	lbu	a2, 10(s0)
	lbu	a3, 11(s0)
	lbu	a4, 12(s0)
	lbu	a5, 13(s0)
	lbu	a6, 14(s0)
	lbu	a7, 15(s0)
	slli	a1, a1, 8
	slli	a2, a2, 16
	slli	a3, a3, 24
	slli	a5, a5, 8
	or	t0, a1, a0
	or	t1, a3, a2
	or	t2, a5, a4
	lbu	a1, 0(s0)
	lbu	a3, 1(s0)
	lbu	a5, 2(s0)
	lbu	a0, 3(s0)
	slli	a6, a6, 16
	slli	a7, a7, 24
	slli	a3, a3, 8
	slli	a5, a5, 16
	slli	a0, a0, 24
	or	a2, a7, a6
	or	a1, a1, a3
	or	a0, a0, a5
	lbu	a3, 5(s0)
	lbu	a5, 4(s0)
	lbu	a4, 6(s0)
	lbu	s0, 7(s0)
	slli	a3, a3, 8
	or	a3, a3, a5
	slli	a4, a4, 16
	slli	s0, s0, 24
	or	a4, a4, s0
	or	a5, t1, t0
	or	a2, a2, t2
	or	a0, a0, a1
	or	a3, a3, a4
	slli	a2, a2, 32
	slli	a3, a3, 32
	or	a2, a2, a5
	or	a0, a0, a3
	sd	a0, 16(sp)
	sd	a2, 24(sp)
	addi	s9, sp, 32
	addi	a1, sp, 592
	li	a2, 560
	mv	a0, s9
	call	memcpy
	lbu	a0, 8(s1)
	lbu	a1, 9(s1)
	lbu	a2, 10(s1)
	lbu	a3, 11(s1)
	lbu	a6, 12(s1)
	lbu	a5, 13(s1)
	lbu	s0, 14(s1)
	lbu	a4, 15(s1)
	slli	a1, a1, 8
	slli	a2, a2, 16
	slli	a3, a3, 24
	or	a7, a1, a0
	or	t0, a3, a2
	lbu	a1, 0(s1)
	lbu	a3, 1(s1)
	lbu	a0, 2(s1)
	lbu	a2, 3(s1)
	slli	a5, a5, 8
	slli	s0, s0, 16
	slli	a4, a4, 24
	slli	a3, a3, 8
	slli	a0, a0, 16
	slli	a2, a2, 24
	or	a5, a5, a6
	or	a4, a4, s0
	or	a6, a3, a1
	or	a0, a0, a2
	lbu	a2, 5(s1)
	lbu	a3, 4(s1)
	lbu	s0, 6(s1)
	lbu	a1, 7(s1)
	slli	a2, a2, 8
	or	a2, a2, a3
	slli	s0, s0, 16
	slli	a1, a1, 24
	or	a1, a1, s0
	or	s0, t0, a7
	or	a4, a4, a5
	ld	a3, 256(s8)
	or	a0, a0, a6
	ld	a5, 520(s8)
	sd	zero, 1152(sp)
	sd	zero, 1160(sp)
	or	a1, a1, a2
	addi	a2, sp, 16
	slli	a4, a4, 32
	or	a4, a4, s0
	li	s0, 16
	slli	a1, a1, 32
	or	a0, a0, a1
	addi	a1, sp, 1168
	sd	s7, 1216(sp)
	sd	a5, 1224(sp)
	sd	a2, 1232(sp)
	sd	s0, 1240(sp)
	sd	a0, 1168(sp)
	sd	a4, 1176(sp)
	sd	a1, 1248(sp)
	sd	s0, 1256(sp)
	addi	a0, sp, 1152
	addi	a4, sp, 1216
	li	a5, 3
	mv	a1, s9
	mv	a2, s8
	call	cmac_mac.key.CmacKey.tag
	ld	a0, 16(sp)
	ld	a1, 24(sp)
	li	s0, 1
	sd	s0, 1216(sp)
	sd	a0, 1168(sp)
	sd	a1, 1176(sp)
	addi	a0, sp, 1184
	li	a2, 16
	mv	a1, s1
	call	memcpy
	addi	a0, sp, 1200
	addi	a1, sp, 1152
	li	a2, 16
	call	memcpy
	ld	a0, 1168(sp)
	ld	a1, 1176(sp)
	ld	a2, 1184(sp)
	ld	a3, 1192(sp)
	ld	a4, 1200(sp)
	ld	a5, 1208(sp)
	sd	a0, 1224(sp)
	sd	a1, 1232(sp)
	sd	a2, 1240(sp)
	sd	a3, 1248(sp)
	ld	a0, 256(s8)
	sd	a4, 1256(sp)
	sd	a5, 1264(sp)
	sd	s8, 1272(sp)
	sd	a0, 1280(sp)
	addi	a1, sp, 1216
	li	a2, 1
	mv	a0, s3
	mv	a3, s4
	call	psk_messages.writing.write_psk_into
	sd	zero, 0(s2)
	sd	s0, 8(s2)
	li	s1, 2
	sb	s1, 0(s6)
	addi	a0, s6, 1
	addi	a1, sp, 16
	li	a2, 576
	call	memcpy
	sb	zero, 577(s6)
	sb	zero, 578(s6)
	sb	s0, 0(s5)
	sb	s1, 1(s5)
	sb	zero, 2(s5)
	ld	ra, 1368(sp)
	ld	s0, 1360(sp)
	ld	s1, 1352(sp)
	ld	s2, 1344(sp)
	ld	s3, 1336(sp)
	ld	s4, 1328(sp)
	ld	s5, 1320(sp)
	ld	s6, 1312(sp)
	ld	s7, 1304(sp)
	ld	s8, 1296(sp)
	ld	s9, 1288(sp)
	addi	sp, sp, 1376
	ret
.Lfunc_end24ef2:
	.size	psk_ends.peer.turns.log_in.__becd8de5e2060522_, .Lfunc_end24ef2-psk_ends.peer.turns.log_in.__becd8de5e2060522_

	.section	".text.cmac_mac::key::CmacKey::tag","ax",@progbits
	.p2align	1
	.type	cmac_mac.key.CmacKey.tag,@function
cmac_mac.key.CmacKey.tag:
	addi	sp, sp, -192
	sd	ra, 184(sp)
	sd	s0, 176(sp)
	sd	s1, 168(sp)
	sd	s2, 160(sp)
	sd	s3, 152(sp)
	sd	s4, 144(sp)
	sd	s5, 136(sp)
	sd	s6, 128(sp)
	sd	s7, 120(sp)
	sd	s8, 112(sp)
	sd	s9, 104(sp)
	mv	s2, a5
	mv	s3, a4
	mv	s1, a1
	mv	s4, a0
	sd	zero, 40(sp)
	sd	zero, 8(sp)
	sd	zero, 16(sp)
	sd	zero, 24(sp)
	sd	zero, 32(sp)
	addi	a0, sp, 8
	call	cmac_mac.taken.ChainState.update
	beqz	s2, .LBB3e5a9_3
	addi	s3, s3, 8
	slli	s0, s2, 4
	add	s0, s0, s3
.LBB3e5a9_2:
	ld	a2, -8(s3)
	ld	a3, 0(s3)
	addi	a0, sp, 8
	mv	a1, s1
	call	cmac_mac.taken.ChainState.update
	addi	s3, s3, 16
	bne	s3, s0, .LBB3e5a9_2
.LBB3e5a9_3:
	ld	a3, 40(sp)
	addi	a2, sp, 24
	addi	a0, sp, 48
	mv	a1, s1
	call	cmac_mac.key.CmacKey.last_block
	lbu	s6, 48(sp)
	lbu	a1, 49(sp)
	lbu	a2, 50(sp)
	lbu	a3, 51(sp)
	lbu	s2, 52(sp)
	lbu	s3, 53(sp)
	lbu	s5, 54(sp)
	lbu	a6, 55(sp)
	lbu	a7, 56(sp)
	lbu	t0, 57(sp)
	lbu	t1, 58(sp)
	lbu	t2, 59(sp)
	lbu	t3, 60(sp)
	lbu	t4, 61(sp)
	lbu	t5, 62(sp)
	lbu	t6, 63(sp)
	lbu	a4, 8(sp)
	lbu	a5, 9(sp)
	lbu	s0, 10(sp)
	lbu	a0, 11(sp)
	xor	s9, a4, s6
	xor	s7, a5, a1
	xor	s8, s0, a2
	xor	s6, a0, a3
	lbu	a3, 12(sp)
	lbu	a5, 13(sp)
	lbu	s0, 14(sp)
	lbu	a0, 15(sp)
	xor	s2, a3, s2
	xor	s3, a5, s3
	xor	s5, s0, s5
	xor	a6, a0, a6
	lbu	a1, 16(sp)
	lbu	a2, 17(sp)
	lbu	a4, 18(sp)
	lbu	a0, 19(sp)
	xor	a1, a1, a7
	xor	a2, a2, t0
	xor	a4, a4, t1
	xor	a7, a0, t2
	lbu	a3, 20(sp)
	lbu	a5, 21(sp)
	lbu	s0, 22(sp)
	lbu	a0, 23(sp)
	xor	a3, a3, t3
	xor	a5, a5, t4
	xor	s0, s0, t5
	xor	a0, a0, t6
	sb	a3, 76(sp)
	sb	a5, 77(sp)
	sb	s0, 78(sp)
	sb	a0, 79(sp)
	sb	a1, 72(sp)
	sb	a2, 73(sp)
	sb	a4, 74(sp)
	sb	a7, 75(sp)
	sb	s2, 68(sp)
	sb	s3, 69(sp)
	sb	s5, 70(sp)
	sb	a6, 71(sp)
	sb	s9, 64(sp)
	sb	s7, 65(sp)
	sb	s8, 66(sp)
	sb	s6, 67(sp)
	sd	zero, 80(sp)
	sd	zero, 88(sp)
	addi	a0, sp, 80
	addi	a2, sp, 64
	mv	a1, s1
	call	aes_block.Aes128.encrypt_block
	lbu	a6, 92(sp)
	lbu	a7, 93(sp)
	lbu	t0, 94(sp)
	lbu	t1, 95(sp)
	lbu	t2, 88(sp)
	lbu	t3, 89(sp)
	lbu	t5, 90(sp)
	lbu	t4, 91(sp)
	lbu	a0, 84(sp)
	lbu	a1, 85(sp)
	lbu	a2, 86(sp)
	lbu	a3, 87(sp)
	lbu	a4, 80(sp)
	lbu	a5, 81(sp)
	lbu	s0, 82(sp)
	lbu	s1, 83(sp)
	sb	a4, 0(s4)
	sb	a5, 1(s4)
	sb	s0, 2(s4)
	sb	s1, 3(s4)
	sb	a0, 4(s4)
	sb	a1, 5(s4)
	sb	a2, 6(s4)
	sb	a3, 7(s4)
	sb	t2, 8(s4)
	sb	t3, 9(s4)
	sb	t5, 10(s4)
	sb	t4, 11(s4)
	sb	a6, 12(s4)
	sb	a7, 13(s4)
	sb	t0, 14(s4)
	sb	t1, 15(s4)
	ld	ra, 184(sp)
	ld	s0, 176(sp)
	ld	s1, 168(sp)
	ld	s2, 160(sp)
	ld	s3, 152(sp)
	ld	s4, 144(sp)
	ld	s5, 136(sp)
	ld	s6, 128(sp)
	ld	s7, 120(sp)
	ld	s8, 112(sp)
	ld	s9, 104(sp)
	addi	sp, sp, 192
	ret
.Lfunc_end3e5a9:
	.size	cmac_mac.key.CmacKey.tag, .Lfunc_end3e5a9-cmac_mac.key.CmacKey.tag

	.section	".text.cmac_mac::taken::ChainState::update","ax",@progbits
	.p2align	1
	.type	cmac_mac.taken.ChainState.update,@function
cmac_mac.taken.ChainState.update:
	addi	sp, sp, -160
	sd	ra, 152(sp)
	sd	s0, 144(sp)
	sd	s1, 136(sp)
	sd	s2, 128(sp)
	sd	s3, 120(sp)
	sd	s4, 112(sp)
	sd	s5, 104(sp)
	sd	s6, 96(sp)
	sd	s7, 88(sp)
	sd	s8, 80(sp)
	sd	s9, 72(sp)
	mv	s2, a3
	mv	s1, a2
	mv	s3, a0
	ld	s0, 32(a0)
	li	a2, 16
	sub	a2, a2, s0
	bgeu	a2, a3, .LBB50852_4
	mv	s8, a1
	add	s6, s1, a2
	addi	s5, s3, 16
	add	a0, s5, s0
	sub	a1, a0, s1
	sub	s4, s2, a2
	bgeu	a1, a2, .LBB50852_7
	mv	a1, s1
.LBB50852_3:
	lbu	a2, 0(a1)
	addi	a1, a1, 1
	sb	a2, 0(a0)
	addi	a0, a0, 1
	bne	a1, s6, .LBB50852_3
	j	.LBB50852_8
.LBB50852_4:
	add	a0, s3, s0
	addi	a0, a0, 16
	sub	a1, a0, s1
	bgeu	a1, s2, .LBB50852_11
	add	a1, s1, s2
.LBB50852_6:
	lbu	a2, 0(s1)
	addi	s1, s1, 1
	sb	a2, 0(a0)
	addi	a0, a0, 1
	bne	s1, a1, .LBB50852_6
	j	.LBB50852_12
.LBB50852_7:
	mv	a1, s1
	call	memmove
.LBB50852_8:
	li	a0, 16
	sd	zero, 0(sp)
	sd	zero, 8(sp)
	addi	a1, s4, -1
	sd	a0, 32(s3)
	andi	a0, a1, -16
	add	s0, s6, a0
	sub	s4, s4, a0
	srli	s7, a1, 4
	addi	a0, sp, 16
	mv	a1, s3
	mv	a2, s5
	call	cmac_mac.blocks.xor_blocks
	lbu	a6, 16(sp)
	lbu	a7, 17(sp)
	lbu	t0, 18(sp)
	lbu	t1, 19(sp)
	lbu	t4, 20(sp)
	lbu	t5, 21(sp)
	lbu	t2, 22(sp)
	lbu	t3, 23(sp)
	lbu	a2, 24(sp)
	lbu	a3, 25(sp)
	lbu	t6, 26(sp)
	lbu	s9, 27(sp)
	lbu	a4, 28(sp)
	lbu	a5, 29(sp)
	lbu	a0, 30(sp)
	lbu	a1, 31(sp)
	sd	zero, 48(sp)
	sd	zero, 56(sp)
	sb	a4, 44(sp)
	sb	a5, 45(sp)
	sb	a0, 46(sp)
	sb	a1, 47(sp)
	sb	a2, 40(sp)
	sb	a3, 41(sp)
	sb	t6, 42(sp)
	sb	s9, 43(sp)
	sb	t4, 36(sp)
	sb	t5, 37(sp)
	sb	t2, 38(sp)
	sb	t3, 39(sp)
	sb	a6, 32(sp)
	sb	a7, 33(sp)
	sb	t0, 34(sp)
	sb	t1, 35(sp)
	addi	a0, sp, 48
	addi	a2, sp, 32
	mv	a1, s8
	call	aes_block.Aes128.encrypt_block
	lbu	a6, 60(sp)
	lbu	a7, 61(sp)
	lbu	t0, 62(sp)
	lbu	t1, 63(sp)
	lbu	t4, 56(sp)
	lbu	t5, 57(sp)
	lbu	t2, 58(sp)
	lbu	t3, 59(sp)
	lbu	a2, 52(sp)
	lbu	a3, 53(sp)
	lbu	t6, 54(sp)
	lbu	s9, 55(sp)
	lbu	a4, 48(sp)
	lbu	a5, 49(sp)
	lbu	a0, 50(sp)
	lbu	a1, 51(sp)
	sb	a4, 48(sp)
	sb	a5, 49(sp)
	sb	a0, 50(sp)
	sb	a1, 51(sp)
	sb	a2, 52(sp)
	sb	a3, 53(sp)
	sb	t6, 54(sp)
	sb	s9, 55(sp)
	sb	t4, 56(sp)
	sb	t5, 57(sp)
	sb	t2, 58(sp)
	sb	t3, 59(sp)
	sb	a6, 60(sp)
	sb	a7, 61(sp)
	sb	t0, 62(sp)
	sb	t1, 63(sp)
	mv	a0, sp
	addi	a2, sp, 48
	mv	a1, s8
	mv	a3, s6
	mv	a4, s7
	call	cmac_mac.taken.chain_blocks
	mv	a1, sp
	li	a2, 16
	mv	a0, s3
	call	memcpy
	sub	s6, s5, s0
	li	a2, 24
	mv	a0, s5
	li	a1, 0
	call	memset
	bgeu	s6, s4, .LBB50852_13
	add	s1, s1, s2
.LBB50852_10:
	lbu	a0, 0(s0)
	addi	s0, s0, 1
	sb	a0, 0(s5)
	addi	s5, s5, 1
	bne	s0, s1, .LBB50852_10
	j	.LBB50852_14
.LBB50852_11:
	mv	a1, s1
	mv	a2, s2
	call	memmove
.LBB50852_12:
	add	s0, s0, s2
	sd	s0, 32(s3)
	j	.LBB50852_15
.LBB50852_13:
	mv	a0, s5
	mv	a1, s0
	mv	a2, s4
	call	memmove
.LBB50852_14:
	sd	s4, 32(s3)
.LBB50852_15:
	ld	ra, 152(sp)
	ld	s0, 144(sp)
	ld	s1, 136(sp)
	ld	s2, 128(sp)
	ld	s3, 120(sp)
	ld	s4, 112(sp)
	ld	s5, 104(sp)
	ld	s6, 96(sp)
	ld	s7, 88(sp)
	ld	s8, 80(sp)
	ld	s9, 72(sp)
	addi	sp, sp, 160
	ret
.Lfunc_end50852:
	.size	cmac_mac.taken.ChainState.update, .Lfunc_end50852-cmac_mac.taken.ChainState.update

	.section	".text.cmac_mac::blocks::xor_blocks","ax",@progbits
	.p2align	1
	.type	cmac_mac.blocks.xor_blocks,@function
cmac_mac.blocks.xor_blocks:
	addi	sp, sp, -64
	sd	s0, 56(sp)
	sd	s1, 48(sp)
	sd	s2, 40(sp)
	sd	s3, 32(sp)
	sd	s4, 24(sp)
	sd	s5, 16(sp)
	sd	s6, 8(sp)
	lbu	a6, 8(a1)
	lbu	a7, 9(a1)
	lbu	t0, 10(a1)
	lbu	t1, 11(a1)
	lbu	t2, 12(a1)
	lbu	t3, 13(a1)
	lbu	t4, 14(a1)
	lbu	t5, 15(a1)
	lbu	t6, 12(a2)
	lbu	a3, 13(a2)
	lbu	a4, 14(a2)
	lbu	a5, 15(a2)
	lbu	s2, 8(a2)
	lbu	s3, 9(a2)
	lbu	s0, 10(a2)
	lbu	s1, 11(a2)
	xor	t5, a5, t5
	xor	t4, a4, t4
	lbu	s4, 4(a1)
	lbu	s5, 5(a1)
	lbu	s6, 6(a1)
	lbu	a4, 7(a1)
	xor	t3, a3, t3
	xor	t2, t6, t2
	xor	t1, s1, t1
	xor	t0, s0, t0
	lbu	a3, 4(a2)
	lbu	s1, 5(a2)
	lbu	s0, 7(a2)
	lbu	a5, 6(a2)
	xor	a7, s3, a7
	xor	a6, s2, a6
	xor	t6, s0, a4
	lbu	s2, 0(a1)
	lbu	a4, 1(a1)
	lbu	s0, 2(a1)
	lbu	a1, 3(a1)
	xor	s3, a5, s6
	xor	s5, s1, s5
	xor	s4, a3, s4
	lbu	a5, 3(a2)
	lbu	s1, 2(a2)
	lbu	a3, 1(a2)
	lbu	a2, 0(a2)
	xor	a1, a1, a5
	xor	s0, s0, s1
	xor	a3, a3, a4
	xor	a2, a2, s2
	sb	a2, 0(a0)
	sb	a3, 1(a0)
	sb	s0, 2(a0)
	sb	a1, 3(a0)
	sb	s4, 4(a0)
	sb	s5, 5(a0)
	sb	s3, 6(a0)
	sb	t6, 7(a0)
	sb	a6, 8(a0)
	sb	a7, 9(a0)
	sb	t0, 10(a0)
	sb	t1, 11(a0)
	sb	t2, 12(a0)
	sb	t3, 13(a0)
	sb	t4, 14(a0)
	sb	t5, 15(a0)
	ld	s0, 56(sp)
	ld	s1, 48(sp)
	ld	s2, 40(sp)
	ld	s3, 32(sp)
	ld	s4, 24(sp)
	ld	s5, 16(sp)
	ld	s6, 8(sp)
	addi	sp, sp, 64
	ret
.Lfunc_end51295:
	.size	cmac_mac.blocks.xor_blocks, .Lfunc_end51295-cmac_mac.blocks.xor_blocks

	.section	".text.cmac_mac::taken::chain_blocks","ax",@progbits
	.p2align	1
	.type	cmac_mac.taken.chain_blocks,@function
cmac_mac.taken.chain_blocks:
	addi	sp, sp, -160
	sd	ra, 152(sp)
	sd	s0, 144(sp)
	sd	s1, 136(sp)
	sd	s2, 128(sp)
	sd	s3, 120(sp)
	sd	s4, 112(sp)
	sd	s5, 104(sp)
	sd	s6, 96(sp)
	sd	s7, 88(sp)
	sd	s8, 80(sp)
	sd	s9, 72(sp)
	sd	s10, 64(sp)
	sd	s11, 56(sp)
	mv	s2, a4
	lbu	s8, 0(a2)
	lbu	a4, 1(a2)
	lbu	a5, 2(a2)
	lbu	s6, 3(a2)
	lbu	t6, 4(a2)
	lbu	s4, 5(a2)
	lbu	s5, 6(a2)
	lbu	t5, 7(a2)
	lbu	t2, 8(a2)
	lbu	t3, 9(a2)
	lbu	t4, 10(a2)
	lbu	t1, 11(a2)
	lbu	a6, 12(a2)
	lbu	a7, 13(a2)
	lbu	t0, 14(a2)
	lbu	s7, 15(a2)
	sd	a0, 8(sp)
	beqz	s2, .LBBec54e_3
	mv	s3, a1
	addi	s0, a3, 7
.LBBec54e_2:
	lbu	a0, -7(s0)
	lbu	a3, -6(s0)
	lbu	a2, -5(s0)
	lbu	a1, -4(s0)
	xor	s8, a0, s8
	xor	s10, a3, a4
	xor	s9, a2, a5
	xor	s6, a1, s6
	lbu	a4, -3(s0)
	lbu	a5, -2(s0)
	lbu	a0, -1(s0)
	lbu	a1, 0(s0)
	xor	s11, a4, t6
	xor	s4, a5, s4
	xor	t6, a0, s5
	xor	t5, a1, t5
	lbu	a2, 1(s0)
	lbu	a3, 2(s0)
	lbu	a0, 3(s0)
	lbu	a1, 4(s0)
	xor	a2, a2, t2
	xor	a3, a3, t3
	xor	t2, a0, t4
	xor	a1, a1, t1
	lbu	a4, 5(s0)
	lbu	a5, 6(s0)
	lbu	s1, 7(s0)
	lbu	a0, 8(s0)
	xor	a4, a4, a6
	xor	a5, a5, a7
	xor	s1, s1, t0
	xor	a0, a0, s7
	sb	a4, 28(sp)
	sb	a5, 29(sp)
	sb	s1, 30(sp)
	sb	a0, 31(sp)
	sb	a2, 24(sp)
	sb	a3, 25(sp)
	sb	t2, 26(sp)
	sb	a1, 27(sp)
	sb	s11, 20(sp)
	sb	s4, 21(sp)
	sb	t6, 22(sp)
	sb	t5, 23(sp)
	sb	s8, 16(sp)
	sb	s10, 17(sp)
	sb	s9, 18(sp)
	sb	s6, 19(sp)
	sd	zero, 32(sp)
	sd	zero, 40(sp)
	addi	a0, sp, 32
	addi	a2, sp, 16
	mv	a1, s3
	call	aes_block.Aes128.encrypt_block
	lbu	s8, 32(sp)
	lbu	a4, 33(sp)
	lbu	a5, 34(sp)
	lbu	s6, 35(sp)
	lbu	t6, 36(sp)
	lbu	s4, 37(sp)
	lbu	s5, 38(sp)
	lbu	t5, 39(sp)
	lbu	t2, 40(sp)
	lbu	t3, 41(sp)
	lbu	t4, 42(sp)
	lbu	t1, 43(sp)
	lbu	a6, 44(sp)
	lbu	a7, 45(sp)
	lbu	t0, 46(sp)
	lbu	s7, 47(sp)
	addi	s2, s2, -1
	addi	s0, s0, 16
	bnez	s2, .LBBec54e_2
.LBBec54e_3:
	ld	a0, 8(sp)
	sb	s8, 0(a0)
	sb	a4, 1(a0)
	sb	a5, 2(a0)
	sb	s6, 3(a0)
	sb	t6, 4(a0)
	sb	s4, 5(a0)
	sb	s5, 6(a0)
	sb	t5, 7(a0)
	sb	t2, 8(a0)
	sb	t3, 9(a0)
	sb	t4, 10(a0)
	sb	t1, 11(a0)
	sb	a6, 12(a0)
	sb	a7, 13(a0)
	sb	t0, 14(a0)
	sb	s7, 15(a0)
	ld	ra, 152(sp)
	ld	s0, 144(sp)
	ld	s1, 136(sp)
	ld	s2, 128(sp)
	ld	s3, 120(sp)
	ld	s4, 112(sp)
	ld	s5, 104(sp)
	ld	s6, 96(sp)
	ld	s7, 88(sp)
	ld	s8, 80(sp)
	ld	s9, 72(sp)
	ld	s10, 64(sp)
	ld	s11, 56(sp)
	addi	sp, sp, 160
	ret
.Lfunc_endec54e:
	.size	cmac_mac.taken.chain_blocks, .Lfunc_endec54e-cmac_mac.taken.chain_blocks

	.section	".text.cmac_mac::key::CmacKey::last_block","ax",@progbits
	.p2align	1
	.type	cmac_mac.key.CmacKey.last_block,@function
cmac_mac.key.CmacKey.last_block:
	addi	sp, sp, -144
	sd	ra, 136(sp)
	sd	s0, 128(sp)
	sd	s1, 120(sp)
	sd	s2, 112(sp)
	sd	s3, 104(sp)
	sd	s4, 96(sp)
	sd	s5, 88(sp)
	sd	s6, 80(sp)
	sd	s7, 72(sp)
	sd	s8, 64(sp)
	sd	s9, 56(sp)
	sd	s10, 48(sp)
	sd	s11, 40(sp)
	li	a4, 15
	sd	zero, 8(sp)
	sd	zero, 16(sp)
	bltu	a4, a3, .LBB4aa67_2
	lbu	t0, 8(a2)
	lbu	t3, 9(a2)
	lbu	s0, 10(a2)
	lbu	s1, 11(a2)
	lbu	a4, 12(a2)
	lbu	a5, 13(a2)
	lbu	a6, 14(a2)
	lbu	t1, 15(a2)
	lbu	t2, 0(a2)
	lbu	s2, 1(a2)
	lbu	s3, 2(a2)
	lbu	s5, 3(a2)
	lbu	s4, 4(a2)
	lbu	s6, 5(a2)
	lbu	t6, 6(a2)
	lbu	s7, 7(a2)
	addi	t4, sp, 24
	li	a7, 128
	add	t4, t4, a3
	slli	t3, t3, 8
	slli	s0, s0, 16
	slli	s1, s1, 24
	slli	a5, a5, 8
	or	s9, t3, t0
	or	s11, s1, s0
	or	s10, a5, a4
	lbu	t0, 196(a1)
	lbu	t3, 197(a1)
	lbu	t5, 198(a1)
	lbu	s8, 199(a1)
	slli	a6, a6, 16
	slli	t1, t1, 24
	slli	s2, s2, 8
	slli	s3, s3, 16
	slli	s5, s5, 24
	slli	s6, s6, 8
	or	a5, t1, a6
	or	s1, s2, t2
	or	a3, s5, s3
	or	a2, s6, s4
	lbu	a6, 204(a1)
	lbu	t1, 205(a1)
	lbu	t2, 206(a1)
	lbu	s2, 207(a1)
	slli	t6, t6, 16
	slli	s7, s7, 24
	or	a4, s7, t6
	or	s0, s11, s9
	or	a5, a5, s10
	or	a3, a3, s1
	or	a2, a2, a4
	slli	a5, a5, 32
	slli	a2, a2, 32
	or	a5, a5, s0
	or	a2, a2, a3
	sd	a2, 24(sp)
	sd	a5, 32(sp)
	sb	a7, 0(t4)
	lbu	s3, 36(sp)
	lbu	a3, 37(sp)
	lbu	a4, 38(sp)
	lbu	a5, 39(sp)
	lbu	a7, 200(a1)
	lbu	t4, 201(a1)
	lbu	s4, 202(a1)
	lbu	s0, 203(a1)
	xor	t6, s2, a5
	lbu	s2, 32(sp)
	lbu	a2, 33(sp)
	lbu	s1, 34(sp)
	lbu	a5, 35(sp)
	xor	t2, t2, a4
	xor	t1, t1, a3
	xor	a6, a6, s3
	xor	s3, s0, a5
	lbu	s0, 28(sp)
	lbu	a3, 29(sp)
	lbu	a4, 30(sp)
	lbu	a5, 31(sp)
	xor	s4, s4, s1
	xor	t4, t4, a2
	xor	a7, a7, s2
	lbu	s2, 192(a1)
	lbu	s1, 193(a1)
	lbu	a2, 194(a1)
	lbu	a1, 195(a1)
	xor	s5, s8, a5
	xor	t5, t5, a4
	xor	t3, t3, a3
	xor	t0, t0, s0
	lbu	a5, 27(sp)
	lbu	a4, 26(sp)
	lbu	a3, 25(sp)
	lbu	s0, 24(sp)
	xor	a1, a1, a5
	xor	a2, a2, a4
	xor	a3, a3, s1
	xor	a4, s2, s0
	sb	a4, 8(sp)
	sb	a3, 9(sp)
	sb	a2, 10(sp)
	sb	a1, 11(sp)
	sb	t0, 12(sp)
	sb	t3, 13(sp)
	sb	t5, 14(sp)
	sb	s5, 15(sp)
	sb	a7, 16(sp)
	sb	t4, 17(sp)
	sb	s4, 18(sp)
	sb	s3, 19(sp)
	sb	a6, 20(sp)
	sb	t1, 21(sp)
	sb	t2, 22(sp)
	sb	t6, 23(sp)
	j	.LBB4aa67_3
.LBB4aa67_2:
	addi	a3, a1, 176
	mv	s0, a0
	addi	a0, sp, 8
	mv	a1, a2
	mv	a2, a3
	call	cmac_mac.blocks.xor_blocks
	mv	a0, s0
.LBB4aa67_3:
	addi	a1, sp, 8
	li	a2, 16
	call	memcpy
	ld	ra, 136(sp)
	ld	s0, 128(sp)
	ld	s1, 120(sp)
	ld	s2, 112(sp)
	ld	s3, 104(sp)
	ld	s4, 96(sp)
	ld	s5, 88(sp)
	ld	s6, 80(sp)
	ld	s7, 72(sp)
	ld	s8, 64(sp)
	ld	s9, 56(sp)
	ld	s10, 48(sp)
	ld	s11, 40(sp)
	addi	sp, sp, 144
	ret
.Lfunc_end4aa67:
	.size	cmac_mac.key.CmacKey.last_block, .Lfunc_end4aa67-cmac_mac.key.CmacKey.last_block

	.section	".text.psk_messages::writing::write_psk_into","ax",@progbits
	.p2align	1
	.type	psk_messages.writing.write_psk_into,@function
psk_messages.writing.write_psk_into:
	addi	sp, sp, -48
	sd	ra, 40(sp)
	sd	s0, 32(sp)
	sd	s1, 24(sp)
	sd	s2, 16(sp)
	sd	s3, 8(sp)
	mv	a5, a3
	mv	s1, a1
	lbu	a1, 0(a1)
	li	a3, 1
	mv	s2, a0
	blt	a3, a1, .LBBa2ba4_3
	bnez	a1, .LBBa2ba4_5
	ld	a4, 32(s1)
	addi	a4, a4, 17
	j	.LBBa2ba4_7
.LBBa2ba4_3:
	li	a0, 2
	bne	a1, a0, .LBBa2ba4_6
	li	a4, 54
	j	.LBBa2ba4_7
.LBBa2ba4_5:
	ld	a0, 64(s1)
	addi	a4, a0, 49
	j	.LBBa2ba4_7
.LBBa2ba4_6:
	li	a4, 38
.LBBa2ba4_7:
	li	a3, 47
	mv	a0, s2
	mv	a1, a2
	mv	a2, a5
	call	eap_packet.packet.init_into
	ld	a1, 1504(s2)
	lbu	a0, 0(s1)
	li	s0, 1500
	beq	a1, s0, .LBBa2ba4_9
	slli	a0, a0, 6
	add	a2, s2, a1
	addi	s0, a1, 1
	sb	a0, 0(a2)
	sd	s0, 1504(s2)
	lbu	a0, 0(s1)
.LBBa2ba4_9:
	li	a2, 1
	addi	a1, s0, -1485
	blt	a2, a0, .LBBa2ba4_14
	bnez	a0, .LBBa2ba4_18
	li	a0, 16
	bltu	a1, a0, .LBBa2ba4_26
	addi	a1, s1, 8
	add	a0, s2, s0
	sub	a2, a0, a1
	li	a3, 15
	bltu	a3, a2, .LBBa2ba4_24
	lbu	a1, 8(s1)
	sb	a1, 0(a0)
	lbu	a1, 9(s1)
	sb	a1, 1(a0)
	lbu	a1, 10(s1)
	sb	a1, 2(a0)
	lbu	a1, 11(s1)
	sb	a1, 3(a0)
	lbu	a1, 12(s1)
	sb	a1, 4(a0)
	lbu	a1, 13(s1)
	sb	a1, 5(a0)
	lbu	a1, 14(s1)
	sb	a1, 6(a0)
	lbu	a1, 15(s1)
	sb	a1, 7(a0)
	lbu	a1, 16(s1)
	sb	a1, 8(a0)
	lbu	a1, 17(s1)
	sb	a1, 9(a0)
	lbu	a1, 18(s1)
	sb	a1, 10(a0)
	lbu	a1, 19(s1)
	sb	a1, 11(a0)
	lbu	a1, 20(s1)
	sb	a1, 12(a0)
	lbu	a1, 21(s1)
	sb	a1, 13(a0)
	lbu	a1, 22(s1)
	sb	a1, 14(a0)
	lbu	a1, 23(s1)
	sb	a1, 15(a0)
	j	.LBBa2ba4_25
.LBBa2ba4_14:
	li	a2, 2
	bne	a0, a2, .LBBa2ba4_21
	li	a0, 16
	bltu	a1, a0, .LBBa2ba4_43
	addi	a1, s1, 4
	add	a0, s2, s0
	sub	a2, a0, a1
	li	a3, 15
	bltu	a3, a2, .LBBa2ba4_30
	lbu	a1, 4(s1)
	sb	a1, 0(a0)
	lbu	a1, 5(s1)
	sb	a1, 1(a0)
	lbu	a1, 6(s1)
	sb	a1, 2(a0)
	lbu	a1, 7(s1)
	sb	a1, 3(a0)
	lbu	a1, 8(s1)
	sb	a1, 4(a0)
	lbu	a1, 9(s1)
	sb	a1, 5(a0)
	lbu	a1, 10(s1)
	sb	a1, 6(a0)
	lbu	a1, 11(s1)
	sb	a1, 7(a0)
	lbu	a1, 12(s1)
	sb	a1, 8(a0)
	lbu	a1, 13(s1)
	sb	a1, 9(a0)
	lbu	a1, 14(s1)
	sb	a1, 10(a0)
	lbu	a1, 15(s1)
	sb	a1, 11(a0)
	lbu	a1, 16(s1)
	sb	a1, 12(a0)
	lbu	a1, 17(s1)
	sb	a1, 13(a0)
	lbu	a1, 18(s1)
	sb	a1, 14(a0)
	lbu	a1, 19(s1)
	sb	a1, 15(a0)
	j	.LBBa2ba4_31
.LBBa2ba4_18:
	li	a0, 16
	bltu	a1, a0, .LBBa2ba4_52
	addi	a1, s1, 8
	add	a0, s2, s0
	sub	a2, a0, a1
	li	a3, 15
	bltu	a3, a2, .LBBa2ba4_34
	lbu	a1, 8(s1)
	sb	a1, 0(a0)
	lbu	a1, 9(s1)
	sb	a1, 1(a0)
	lbu	a1, 10(s1)
	sb	a1, 2(a0)
	lbu	a1, 11(s1)
	sb	a1, 3(a0)
	lbu	a1, 12(s1)
	sb	a1, 4(a0)
	lbu	a1, 13(s1)
	sb	a1, 5(a0)
	lbu	a1, 14(s1)
	sb	a1, 6(a0)
	lbu	a1, 15(s1)
	sb	a1, 7(a0)
	lbu	a1, 16(s1)
	sb	a1, 8(a0)
	lbu	a1, 17(s1)
	sb	a1, 9(a0)
	lbu	a1, 18(s1)
	sb	a1, 10(a0)
	lbu	a1, 19(s1)
	sb	a1, 11(a0)
	lbu	a1, 20(s1)
	sb	a1, 12(a0)
	lbu	a1, 21(s1)
	sb	a1, 13(a0)
	lbu	a1, 22(s1)
	sb	a1, 14(a0)
	lbu	a1, 23(s1)
	sb	a1, 15(a0)
	j	.LBBa2ba4_35
.LBBa2ba4_21:
	li	a0, 16
	bltu	a1, a0, .LBBa2ba4_40
	addi	a1, s1, 4
	add	a0, s2, s0
	sub	a2, a0, a1
	li	a3, 15
	bltu	a3, a2, .LBBa2ba4_38
	lbu	a1, 4(s1)
	sb	a1, 0(a0)
	lbu	a1, 5(s1)
	sb	a1, 1(a0)
	lbu	a1, 6(s1)
	sb	a1, 2(a0)
	lbu	a1, 7(s1)
	sb	a1, 3(a0)
	lbu	a1, 8(s1)
	sb	a1, 4(a0)
	lbu	a1, 9(s1)
	sb	a1, 5(a0)
	lbu	a1, 10(s1)
	sb	a1, 6(a0)
	lbu	a1, 11(s1)
	sb	a1, 7(a0)
	lbu	a1, 12(s1)
	sb	a1, 8(a0)
	lbu	a1, 13(s1)
	sb	a1, 9(a0)
	lbu	a1, 14(s1)
	sb	a1, 10(a0)
	lbu	a1, 15(s1)
	sb	a1, 11(a0)
	lbu	a1, 16(s1)
	sb	a1, 12(a0)
	lbu	a1, 17(s1)
	sb	a1, 13(a0)
	lbu	a1, 18(s1)
	sb	a1, 14(a0)
	lbu	a1, 19(s1)
	sb	a1, 15(a0)
	j	.LBBa2ba4_39
.LBBa2ba4_24:
	li	a2, 16
	call	memmove
.LBBa2ba4_25:
	addi	s0, s0, 16
	sd	s0, 1504(s2)
.LBBa2ba4_26:
	lbu	a0, 33(s1)
	lbu	a1, 34(s1)
	lbu	a2, 35(s1)
	lbu	a3, 32(s1)
	slli	a0, a0, 8
	slli	a1, a1, 16
	slli	a2, a2, 24
	or	a0, a0, a3
	or	a1, a1, a2
	lbu	a2, 37(s1)
	lbu	a3, 36(s1)
	lbu	a4, 38(s1)
	lbu	a5, 39(s1)
	slli	a2, a2, 8
	or	a2, a2, a3
	slli	a4, a4, 16
	slli	a5, a5, 24
	or	a4, a4, a5
	or	a0, a0, a1
	li	a1, 1500
	or	a2, a2, a4
	slli	a2, a2, 32
	or	s3, a2, a0
	sub	a1, a1, s0
	bltu	a1, s3, .LBBa2ba4_58
	lbu	a0, 25(s1)
	lbu	a1, 26(s1)
	lbu	a2, 27(s1)
	lbu	a3, 24(s1)
	slli	a0, a0, 8
	slli	a1, a1, 16
	slli	a2, a2, 24
	or	a0, a0, a3
	or	a1, a1, a2
	lbu	a2, 29(s1)
	lbu	a3, 28(s1)
	lbu	a4, 30(s1)
	lbu	a5, 31(s1)
	slli	a2, a2, 8
	or	a2, a2, a3
	slli	a4, a4, 16
	slli	a5, a5, 24
	or	a4, a4, a5
	or	a0, a0, a1
	or	a2, a2, a4
	slli	a1, a2, 32
	or	a1, a1, a0
	add	a0, s2, s0
	sub	a2, a0, a1
	bgeu	a2, s3, .LBBa2ba4_56
	add	a2, a1, s3
.LBBa2ba4_29:
	lbu	a3, 0(a1)
	addi	a1, a1, 1
	sb	a3, 0(a0)
	addi	a0, a0, 1
	bne	a1, a2, .LBBa2ba4_29
	j	.LBBa2ba4_57
.LBBa2ba4_30:
	li	a2, 16
	call	memmove
.LBBa2ba4_31:
	addi	a0, s0, 16
	addi	a1, s0, -1469
	li	a2, 16
	sd	a0, 1504(s2)
	bltu	a1, a2, .LBBa2ba4_43
	addi	a1, s1, 20
	add	a0, a0, s2
	sub	a2, a0, a1
	li	a3, 15
	bltu	a3, a2, .LBBa2ba4_41
	lbu	a1, 20(s1)
	sb	a1, 0(a0)
	lbu	a1, 21(s1)
	sb	a1, 1(a0)
	lbu	a1, 22(s1)
	sb	a1, 2(a0)
	lbu	a1, 23(s1)
	sb	a1, 3(a0)
	lbu	a1, 24(s1)
	sb	a1, 4(a0)
	lbu	a1, 25(s1)
	sb	a1, 5(a0)
	lbu	a1, 26(s1)
	sb	a1, 6(a0)
	lbu	a1, 27(s1)
	sb	a1, 7(a0)
	lbu	a1, 28(s1)
	sb	a1, 8(a0)
	lbu	a1, 29(s1)
	sb	a1, 9(a0)
	lbu	a1, 30(s1)
	sb	a1, 10(a0)
	lbu	a1, 31(s1)
	sb	a1, 11(a0)
	lbu	a1, 32(s1)
	sb	a1, 12(a0)
	lbu	a1, 33(s1)
	sb	a1, 13(a0)
	lbu	a1, 34(s1)
	sb	a1, 14(a0)
	lbu	a1, 35(s1)
	sb	a1, 15(a0)
	j	.LBBa2ba4_42
.LBBa2ba4_34:
	li	a2, 16
	call	memmove
.LBBa2ba4_35:
	addi	a0, s0, 16
	addi	a1, s0, -1469
	li	a2, 16
	sd	a0, 1504(s2)
	bltu	a1, a2, .LBBa2ba4_47
	addi	a1, s1, 24
	add	a0, a0, s2
	sub	a2, a0, a1
	li	a3, 15
	bltu	a3, a2, .LBBa2ba4_45
	lbu	a1, 24(s1)
	sb	a1, 0(a0)
	lbu	a1, 25(s1)
	sb	a1, 1(a0)
	lbu	a1, 26(s1)
	sb	a1, 2(a0)
	lbu	a1, 27(s1)
	sb	a1, 3(a0)
	lbu	a1, 28(s1)
	sb	a1, 4(a0)
	lbu	a1, 29(s1)
	sb	a1, 5(a0)
	lbu	a1, 30(s1)
	sb	a1, 6(a0)
	lbu	a1, 31(s1)
	sb	a1, 7(a0)
	lbu	a1, 32(s1)
	sb	a1, 8(a0)
	lbu	a1, 33(s1)
	sb	a1, 9(a0)
	lbu	a1, 34(s1)
	sb	a1, 10(a0)
	lbu	a1, 35(s1)
	sb	a1, 11(a0)
	lbu	a1, 36(s1)
	sb	a1, 12(a0)
	lbu	a1, 37(s1)
	sb	a1, 13(a0)
	lbu	a1, 38(s1)
	sb	a1, 14(a0)
	lbu	a1, 39(s1)
	sb	a1, 15(a0)
	j	.LBBa2ba4_46
.LBBa2ba4_38:
	li	a2, 16
	call	memmove
.LBBa2ba4_39:
	addi	s0, s0, 16
	sd	s0, 1504(s2)
.LBBa2ba4_40:
	addi	a1, s1, 20
	j	.LBBa2ba4_44
.LBBa2ba4_41:
	li	a2, 16
	call	memmove
.LBBa2ba4_42:
	addi	a0, s0, 32
	sd	a0, 1504(s2)
.LBBa2ba4_43:
	addi	a1, s1, 36
.LBBa2ba4_44:
	mv	a0, s2
	ld	ra, 40(sp)
	ld	s0, 32(sp)
	ld	s1, 24(sp)
	ld	s2, 16(sp)
	ld	s3, 8(sp)
	addi	sp, sp, 48
	tail	psk_messages.writing.put_channel
.LBBa2ba4_45:
	li	a2, 16
	call	memmove
.LBBa2ba4_46:
	addi	a0, s0, 32
	addi	a1, s0, -1453
	li	a2, 16
	sd	a0, 1504(s2)
	bgeu	a1, a2, .LBBa2ba4_48
.LBBa2ba4_47:
	mv	s0, a0
	j	.LBBa2ba4_52
.LBBa2ba4_48:
	addi	a1, s1, 40
	add	a0, a0, s2
	sub	a2, a0, a1
	li	a3, 15
	bltu	a3, a2, .LBBa2ba4_50
	lbu	a1, 40(s1)
	sb	a1, 0(a0)
	lbu	a1, 41(s1)
	sb	a1, 1(a0)
	lbu	a1, 42(s1)
	sb	a1, 2(a0)
	lbu	a1, 43(s1)
	sb	a1, 3(a0)
	lbu	a1, 44(s1)
	sb	a1, 4(a0)
	lbu	a1, 45(s1)
	sb	a1, 5(a0)
	lbu	a1, 46(s1)
	sb	a1, 6(a0)
	lbu	a1, 47(s1)
	sb	a1, 7(a0)
	lbu	a1, 48(s1)
	sb	a1, 8(a0)
	lbu	a1, 49(s1)
	sb	a1, 9(a0)
	lbu	a1, 50(s1)
	sb	a1, 10(a0)
	lbu	a1, 51(s1)
	sb	a1, 11(a0)
	lbu	a1, 52(s1)
	sb	a1, 12(a0)
	lbu	a1, 53(s1)
	sb	a1, 13(a0)
	lbu	a1, 54(s1)
	sb	a1, 14(a0)
	lbu	a1, 55(s1)
	sb	a1, 15(a0)
	j	.LBBa2ba4_51
.LBBa2ba4_50:
	li	a2, 16
	call	memmove
.LBBa2ba4_51:
	addi	s0, s0, 48
	sd	s0, 1504(s2)
.LBBa2ba4_52:
	lbu	a0, 65(s1)
	lbu	a1, 66(s1)
	lbu	a2, 67(s1)
	lbu	a3, 64(s1)
	slli	a0, a0, 8
	slli	a1, a1, 16
	slli	a2, a2, 24
	or	a0, a0, a3
	or	a1, a1, a2
	lbu	a2, 69(s1)
	lbu	a3, 68(s1)
	lbu	a4, 70(s1)
	lbu	a5, 71(s1)
	slli	a2, a2, 8
	or	a2, a2, a3
	slli	a4, a4, 16
	slli	a5, a5, 24
	or	a4, a4, a5
	or	a0, a0, a1
	li	a1, 1500
	or	a2, a2, a4
	slli	a2, a2, 32
	or	s3, a2, a0
	sub	a1, a1, s0
	bltu	a1, s3, .LBBa2ba4_58
	lbu	a0, 57(s1)
	lbu	a1, 58(s1)
	lbu	a2, 59(s1)
	lbu	a3, 56(s1)
	slli	a0, a0, 8
	slli	a1, a1, 16
	slli	a2, a2, 24
	or	a0, a0, a3
	or	a1, a1, a2
	lbu	a2, 61(s1)
	lbu	a3, 60(s1)
	lbu	a4, 62(s1)
	lbu	a5, 63(s1)
	slli	a2, a2, 8
	or	a2, a2, a3
	slli	a4, a4, 16
	slli	a5, a5, 24
	or	a4, a4, a5
	or	a0, a0, a1
	or	a2, a2, a4
	slli	a1, a2, 32
	or	a1, a1, a0
	add	a0, s2, s0
	sub	a2, a0, a1
	bgeu	a2, s3, .LBBa2ba4_56
	add	a2, a1, s3
.LBBa2ba4_55:
	lbu	a3, 0(a1)
	addi	a1, a1, 1
	sb	a3, 0(a0)
	addi	a0, a0, 1
	bne	a1, a2, .LBBa2ba4_55
	j	.LBBa2ba4_57
.LBBa2ba4_56:
	mv	a2, s3
	call	memmove
.LBBa2ba4_57:
	add	s0, s0, s3
	sd	s0, 1504(s2)
.LBBa2ba4_58:
	ld	ra, 40(sp)
	ld	s0, 32(sp)
	ld	s1, 24(sp)
	ld	s2, 16(sp)
	ld	s3, 8(sp)
	addi	sp, sp, 48
	ret
.Lfunc_enda2ba4:
	.size	psk_messages.writing.write_psk_into, .Lfunc_enda2ba4-psk_messages.writing.write_psk_into

	.section	".text.psk_messages::writing::put_channel","ax",@progbits
	.p2align	1
	.type	psk_messages.writing.put_channel,@function
psk_messages.writing.put_channel:
	addi	sp, sp, -48
	sd	ra, 40(sp)
	sd	s0, 32(sp)
	sd	s1, 24(sp)
	sd	s2, 16(sp)
	lw	a2, 0(a1)
	lui	a3, 16
	addi	a3, a3, -256
	srli	a4, a2, 8
	srliw	a5, a2, 24
	and	a4, a4, a3
	or	a4, a4, a5
	ld	s0, 1504(a0)
	and	a3, a3, a2
	slli	a2, a2, 24
	slli	a3, a3, 8
	or	a2, a2, a3
	addi	a3, s0, -1497
	or	a2, a2, a4
	li	a4, 4
	sw	a2, 12(sp)
	bltu	a3, a4, .LBB4b489_4
	add	a3, a0, s0
	addi	a5, sp, 12
	sub	a5, a3, a5
	bgeu	a5, a4, .LBB4b489_3
	lw	a2, 12(sp)
.LBB4b489_3:
	srli	a4, a2, 24
	srli	a5, a2, 16
	srli	s1, a2, 8
	addi	s0, s0, 4
	sb	a2, 0(a3)
	sb	s1, 1(a3)
	sb	a5, 2(a3)
	sb	a4, 3(a3)
	sd	s0, 1504(a0)
.LBB4b489_4:
	addi	a2, s0, -1485
	li	a3, 16
	bltu	a2, a3, .LBB4b489_9
	addi	a4, a1, 4
	add	a3, a0, s0
	sub	a2, a3, a4
	li	a5, 15
	bltu	a5, a2, .LBB4b489_7
	lbu	a2, 4(a1)
	sb	a2, 0(a3)
	lbu	a2, 5(a1)
	sb	a2, 1(a3)
	lbu	a2, 6(a1)
	sb	a2, 2(a3)
	lbu	a2, 7(a1)
	sb	a2, 3(a3)
	lbu	a2, 8(a1)
	sb	a2, 4(a3)
	lbu	a2, 9(a1)
	sb	a2, 5(a3)
	lbu	a2, 10(a1)
	sb	a2, 6(a3)
	lbu	a2, 11(a1)
	sb	a2, 7(a3)
	lbu	a2, 12(a1)
	sb	a2, 8(a3)
	lbu	a2, 13(a1)
	sb	a2, 9(a3)
	lbu	a2, 14(a1)
	sb	a2, 10(a3)
	lbu	a2, 15(a1)
	sb	a2, 11(a3)
	lbu	a2, 16(a1)
	sb	a2, 12(a3)
	lbu	a2, 17(a1)
	sb	a2, 13(a3)
	lbu	a2, 18(a1)
	sb	a2, 14(a3)
	lbu	a2, 19(a1)
	sb	a2, 15(a3)
	j	.LBB4b489_8
.LBB4b489_7:
	li	a2, 16
	mv	s2, a0
	mv	a0, a3
	mv	s1, a1
	mv	a1, a4
	call	memmove
	mv	a1, s1
	mv	a0, s2
.LBB4b489_8:
	addi	s0, s0, 16
	sd	s0, 1504(a0)
.LBB4b489_9:
	li	a2, 1500
	beq	s0, a2, .LBB4b489_11
	lbu	a1, 20(a1)
	add	a2, a0, s0
	addi	s0, s0, 1
	sb	a1, 0(a2)
	sd	s0, 1504(a0)
.LBB4b489_11:
	ld	ra, 40(sp)
	ld	s0, 32(sp)
	ld	s1, 24(sp)
	ld	s2, 16(sp)
	addi	sp, sp, 48
	ret
.Lfunc_end4b489:
	.size	psk_messages.writing.put_channel, .Lfunc_end4b489-psk_messages.writing.put_channel

	.section	".text.core::cmp::PartialEq::ne::<#4f69ed2539eb7fe9>","ax",@progbits
	.p2align	1
	.type	core.cmp.PartialEq.ne.__4f69ed2539eb7fe9_,@function
core.cmp.PartialEq.ne.__4f69ed2539eb7fe9_:
	addi	sp, sp, -16
	sd	ra, 8(sp)
	mv	a2, a1
	lbu	a1, 8(a0)
	lbu	a3, 9(a0)
	lbu	a4, 10(a0)
	lbu	a5, 11(a0)
	lbu	a6, 12(a0)
	lbu	a7, 13(a0)
	lbu	t0, 14(a0)
	lbu	t1, 15(a0)
	slli	a3, a3, 8
	slli	a4, a4, 16
	slli	a5, a5, 24
	or	t2, a3, a1
	or	t3, a5, a4
	lbu	a3, 8(a2)
	lbu	a5, 9(a2)
	lbu	a1, 10(a2)
	lbu	a4, 11(a2)
	slli	a7, a7, 8
	slli	t0, t0, 16
	slli	t1, t1, 24
	slli	a5, a5, 8
	slli	a1, a1, 16
	slli	a4, a4, 24
	or	a6, a7, a6
	or	a7, t1, t0
	or	t0, a5, a3
	or	t1, a4, a1
	lbu	a4, 13(a2)
	lbu	a5, 12(a2)
	lbu	a3, 14(a2)
	lbu	a1, 15(a2)
	slli	a4, a4, 8
	or	t4, a4, a5
	slli	a3, a3, 16
	slli	a1, a1, 24
	or	a1, a1, a3
	or	t2, t3, t2
	or	a5, a7, a6
	or	a4, t1, t0
	or	a1, a1, t4
	slli	a5, a5, 32
	slli	a3, a1, 32
	or	a1, a5, t2
	or	a3, a3, a4
	bne	a1, a3, .LBBc0386_8
	lbu	a6, 0(a0)
	lbu	a7, 1(a0)
	lbu	t0, 2(a0)
	lbu	a3, 3(a0)
	lbu	a4, 4(a0)
	lbu	a5, 5(a0)
	lbu	t1, 6(a0)
	lbu	t2, 7(a0)
	slli	a7, a7, 8
	slli	t0, t0, 16
	slli	a3, a3, 24
	slli	a5, a5, 8
	or	a6, a7, a6
	or	a7, a3, t0
	or	t0, a5, a4
	lbu	a5, 0(a2)
	lbu	a3, 1(a2)
	lbu	a4, 2(a2)
	lbu	a0, 3(a2)
	slli	t1, t1, 16
	slli	t2, t2, 24
	slli	a3, a3, 8
	slli	a4, a4, 16
	slli	a0, a0, 24
	or	t1, t2, t1
	or	t2, a3, a5
	or	t3, a0, a4
	lbu	a4, 5(a2)
	lbu	a5, 4(a2)
	lbu	a3, 6(a2)
	lbu	a2, 7(a2)
	slli	a4, a4, 8
	or	a4, a4, a5
	slli	a3, a3, 16
	slli	a2, a2, 24
	or	a2, a2, a3
	or	a0, a7, a6
	or	a5, t1, t0
	or	a3, t3, t2
	or	a2, a2, a4
	li	a4, 4
	slli	a5, a5, 32
	slli	a2, a2, 32
	or	a0, a0, a5
	or	a2, a2, a3
	bgeu	a1, a4, .LBBc0386_10
	beqz	a1, .LBBc0386_15
	li	a3, 0
.LBBc0386_4:
	add	a4, a0, a3
	add	a5, a2, a3
	lbu	a4, 0(a4)
	lbu	a5, 0(a5)
	bne	a4, a5, .LBBc0386_7
	addi	a3, a3, 1
	bne	a1, a3, .LBBc0386_4
	mv	a3, a1
.LBBc0386_7:
	sltu	a0, a3, a1
	xori	a3, a0, 1
	j	.LBBc0386_9
.LBBc0386_8:
	li	a3, 0
.LBBc0386_9:
	xori	a0, a3, 1
	ld	ra, 8(sp)
	addi	sp, sp, 16
	ret
.LBBc0386_10:
	lbu	a4, 0(a0)
	lbu	a5, 0(a2)
	li	a3, 0
	bne	a4, a5, .LBBc0386_9
	lbu	a4, 1(a0)
	lbu	a5, 1(a2)
	bne	a4, a5, .LBBc0386_9
	lbu	a4, 2(a0)
	lbu	a5, 2(a2)
	bne	a4, a5, .LBBc0386_9
	lbu	a4, 3(a0)
	lbu	a5, 3(a2)
	bne	a4, a5, .LBBc0386_9
	mv	a3, a1
	call	core.cmp.slices.groups_equal._i8_31_core.cmp.numbers.U8PartialEq___
	mv	a3, a0
	j	.LBBc0386_9
.LBBc0386_15:
	li	a3, 1
	j	.LBBc0386_9
.Lfunc_endc0386:
	.size	core.cmp.PartialEq.ne.__4f69ed2539eb7fe9_, .Lfunc_endc0386-core.cmp.PartialEq.ne.__4f69ed2539eb7fe9_

	.section	".text.octet_lists::comparison::equal_in_full","ax",@progbits
	.p2align	1
	.type	octet_lists.comparison.equal_in_full,@function
octet_lists.comparison.equal_in_full:
	bne	a1, a3, .LBB86b35_5
	beqz	a1, .LBB86b35_6
	li	a3, 0
	add	a1, a1, a2
.LBB86b35_3:
	lbu	a4, 0(a0)
	lbu	a5, 0(a2)
	addi	a2, a2, 1
	xor	a4, a4, a5
	or	a3, a3, a4
	addi	a0, a0, 1
	bne	a2, a1, .LBB86b35_3
	seqz	a0, a3
	ret
.LBB86b35_5:
	li	a0, 0
	ret
.LBB86b35_6:
	li	a0, 1
	ret
.Lfunc_end86b35:
	.size	octet_lists.comparison.equal_in_full, .Lfunc_end86b35-octet_lists.comparison.equal_in_full

	.section	".text.psk_ends::channel::open","ax",@progbits
	.p2align	1
	.type	psk_ends.channel.open,@function
psk_ends.channel.open:
	addi	sp, sp, -112
	sd	ra, 104(sp)
	sd	s0, 96(sp)
	sd	s1, 88(sp)
	sd	s2, 80(sp)
	sd	s3, 72(sp)
	sd	s4, 64(sp)
	sd	s5, 56(sp)
	mv	s2, a2
	mv	s3, a1
	mv	s5, a0
	lbu	a0, 20(a3)
	lw	a1, 0(a3)
	sb	a0, 23(sp)
	srli	a0, a1, 24
	srli	a2, a1, 16
	srli	a4, a1, 8
	sd	zero, 0(sp)
	sw	zero, 8(sp)
	sb	a0, 12(sp)
	sb	a2, 13(sp)
	sb	a4, 14(sp)
	sb	a1, 15(sp)
	addi	s4, a3, 4
	addi	a0, sp, 24
	mv	a4, sp
	li	a5, 16
	mv	a1, s5
	li	a2, 0
	li	a3, 0
	call	eax_mode.omac
	lbu	a0, 32(sp)
	lbu	a1, 33(sp)
	lbu	a2, 34(sp)
	lbu	a3, 35(sp)
	lbu	a4, 36(sp)
	lbu	a5, 37(sp)
	lbu	s1, 38(sp)
	lbu	s0, 39(sp)
	slli	a1, a1, 8
	slli	a2, a2, 16
	slli	a3, a3, 24
	or	a6, a1, a0
	or	a7, a3, a2
	lbu	a1, 24(sp)
	lbu	a3, 25(sp)
	lbu	a0, 26(sp)
	lbu	a2, 27(sp)
	slli	a5, a5, 8
	slli	s1, s1, 16
	slli	s0, s0, 24
	slli	a3, a3, 8
	slli	a0, a0, 16
	slli	a2, a2, 24
	or	a4, a4, a5
	or	s0, s0, s1
	or	a1, a1, a3
	or	a0, a0, a2
	lbu	a2, 29(sp)
	lbu	a3, 28(sp)
	lbu	a5, 30(sp)
	lbu	s1, 31(sp)
	slli	a2, a2, 8
	or	a2, a2, a3
	slli	a5, a5, 16
	slli	s1, s1, 24
	or	a5, a5, s1
	or	a3, a7, a6
	or	a4, a4, s0
	or	a0, a0, a1
	or	a2, a2, a5
	slli	a4, a4, 32
	slli	a2, a2, 32
	or	a3, a3, a4
	or	a0, a0, a2
	sd	a0, 40(sp)
	sd	a3, 48(sp)
	addi	a0, sp, 24
	addi	a2, sp, 40
	addi	a5, sp, 23
	mv	a1, s5
	mv	a3, s3
	mv	a4, s2
	call	eax_mode.tag_over
	addi	a0, sp, 24
	li	a1, 16
	li	a3, 16
	mv	a2, s4
	call	octet_lists.comparison.equal_in_full
	beqz	a0, .LBBcb8c0_2
	mv	s1, a0
	addi	a0, sp, 40
	call	core.int.u128.from_be_bytes
	mv	a2, a0
	mv	a4, a1
	addi	a3, sp, 23
	mv	a0, s5
	mv	a1, a2
	mv	a2, a4
	call	eax_mode.apply_key_stream
	mv	a0, s1
.LBBcb8c0_2:
	lbu	a1, 23(sp)
	neg	a2, a0
	and	a1, a1, a2
	ld	ra, 104(sp)
	ld	s0, 96(sp)
	ld	s1, 88(sp)
	ld	s2, 80(sp)
	ld	s3, 72(sp)
	ld	s4, 64(sp)
	ld	s5, 56(sp)
	addi	sp, sp, 112
	ret
.Lfunc_endcb8c0:
	.size	psk_ends.channel.open, .Lfunc_endcb8c0-psk_ends.channel.open

	.section	".text.eax_mode::omac","ax",@progbits
	.p2align	1
	.type	eax_mode.omac,@function
eax_mode.omac:
	addi	sp, sp, -96
	sd	ra, 88(sp)
	sd	s0, 80(sp)
	sd	s1, 72(sp)
	sd	s2, 64(sp)
	sd	s3, 56(sp)
	mv	s0, a5
	mv	s1, a4
	mv	s2, a1
	mv	s3, a0
	sd	zero, 40(sp)
	sd	zero, 48(sp)
	addi	a0, sp, 24
	mv	a1, a2
	mv	a2, a3
	call	core.int.u128.to_be_bytes
	sd	s1, 8(sp)
	sd	s0, 16(sp)
	addi	a0, sp, 40
	addi	a2, sp, 24
	li	a3, 16
	addi	a4, sp, 8
	li	a5, 1
	mv	a1, s2
	call	cmac_mac.key.CmacKey.tag
	addi	a1, sp, 40
	li	a2, 16
	mv	a0, s3
	call	memcpy
	ld	ra, 88(sp)
	ld	s0, 80(sp)
	ld	s1, 72(sp)
	ld	s2, 64(sp)
	ld	s3, 56(sp)
	addi	sp, sp, 96
	ret
.Lfunc_end66dc7:
	.size	eax_mode.omac, .Lfunc_end66dc7-eax_mode.omac

	.section	".text.eax_mode::tag_over","ax",@progbits
	.p2align	1
	.type	eax_mode.tag_over,@function
eax_mode.tag_over:
	addi	sp, sp, -176
	sd	ra, 168(sp)
	sd	s0, 160(sp)
	sd	s1, 152(sp)
	sd	s2, 144(sp)
	sd	s3, 136(sp)
	sd	s4, 128(sp)
	sd	s5, 120(sp)
	sd	s6, 112(sp)
	sd	s7, 104(sp)
	sd	s8, 96(sp)
	sd	s9, 88(sp)
	sd	s10, 80(sp)
	sd	s11, 72(sp)
	sd	a5, 48(sp)
	mv	a6, a4
	mv	a7, a3
	lbu	s2, 0(a2)
	sd	s2, 32(sp)
	lbu	t1, 1(a2)
	lbu	t2, 2(a2)
	lbu	t3, 3(a2)
	lbu	t0, 4(a2)
	lbu	t4, 5(a2)
	lbu	t5, 6(a2)
	lbu	t6, 7(a2)
	lbu	a5, 8(a2)
	sd	a5, 40(sp)
	lbu	s7, 9(a2)
	lbu	a3, 10(a2)
	lbu	s1, 11(a2)
	lbu	s6, 12(a2)
	lbu	a4, 13(a2)
	lbu	s0, 14(a2)
	lbu	a2, 15(a2)
	slli	t1, t1, 8
	slli	t2, t2, 16
	slli	t3, t3, 24
	slli	t4, t4, 8
	slli	t5, t5, 16
	slli	t6, t6, 24
	slli	s7, s7, 8
	slli	s8, a3, 16
	slli	s1, s1, 24
	slli	s9, a4, 8
	slli	s10, s0, 16
	slli	s11, a2, 24
	or	t1, t1, s2
	or	t2, t3, t2
	or	a3, t4, t0
	or	a4, t6, t5
	or	s0, s7, a5
	or	s1, s1, s8
	or	a2, s9, s6
	or	a5, s11, s10
	or	t0, t2, t1
	or	a3, a3, a4
	or	s0, s0, s1
	or	a2, a2, a5
	slli	a3, a3, 32
	slli	a2, a2, 32
	or	a3, a3, t0
	or	a2, a2, s0
	sd	a3, 56(sp)
	sd	a2, 64(sp)
	lbu	s1, 57(sp)
	lbu	s10, 58(sp)
	lbu	s11, 59(sp)
	lbu	s2, 60(sp)
	lbu	s3, 61(sp)
	lbu	s4, 62(sp)
	lbu	s5, 63(sp)
	lbu	s6, 65(sp)
	lbu	s7, 66(sp)
	lbu	s8, 67(sp)
	lbu	a2, 68(sp)
	sd	a2, 24(sp)
	lbu	a2, 69(sp)
	sd	a2, 16(sp)
	lbu	a2, 70(sp)
	sd	a2, 8(sp)
	lbu	a2, 71(sp)
	sd	a2, 0(sp)
	mv	s0, a0
	addi	a0, sp, 56
	li	a2, 1
	mv	s9, a1
	li	a3, 0
	mv	a4, a7
	mv	a5, a6
	call	eax_mode.omac
	lbu	a0, 56(sp)
	lbu	a1, 57(sp)
	lbu	a2, 58(sp)
	lbu	a3, 59(sp)
	ld	a4, 32(sp)
	xor	a0, a0, a4
	sd	a0, 32(sp)
	xor	s1, s1, a1
	xor	s10, s10, a2
	xor	s11, s11, a3
	lbu	a0, 60(sp)
	lbu	a1, 61(sp)
	lbu	a2, 62(sp)
	lbu	a3, 63(sp)
	xor	s2, s2, a0
	xor	s3, s3, a1
	xor	s4, s4, a2
	xor	s5, s5, a3
	lbu	a0, 64(sp)
	lbu	a1, 65(sp)
	lbu	a2, 66(sp)
	lbu	a3, 67(sp)
	ld	a4, 40(sp)
	xor	a0, a0, a4
	sd	a0, 40(sp)
	xor	s6, s6, a1
	xor	s7, s7, a2
	xor	s8, s8, a3
	lbu	a0, 68(sp)
	lbu	a1, 69(sp)
	lbu	a2, 70(sp)
	lbu	a3, 71(sp)
	ld	a4, 24(sp)
	xor	a0, a0, a4
	sd	a0, 24(sp)
	ld	a0, 16(sp)
	xor	a0, a0, a1
	sd	a0, 16(sp)
	ld	a0, 8(sp)
	xor	a0, a0, a2
	sd	a0, 8(sp)
	ld	a0, 0(sp)
	xor	a0, a0, a3
	sd	a0, 0(sp)
	addi	a0, sp, 56
	li	a2, 2
	li	a5, 1
	mv	a1, s9
	li	a3, 0
	ld	a4, 48(sp)
	call	eax_mode.omac
	lbu	a0, 56(sp)
	lbu	a1, 57(sp)
	lbu	a2, 58(sp)
	lbu	a3, 59(sp)
	ld	a4, 32(sp)
	xor	a6, a4, a0
	xor	a7, s1, a1
	xor	t0, s10, a2
	xor	t1, s11, a3
	lbu	a4, 60(sp)
	lbu	a5, 61(sp)
	lbu	s1, 62(sp)
	lbu	a0, 63(sp)
	xor	t3, s2, a4
	xor	t4, s3, a5
	xor	t5, s4, s1
	xor	t2, s5, a0
	lbu	a1, 64(sp)
	lbu	a2, 65(sp)
	lbu	a3, 66(sp)
	lbu	a0, 67(sp)
	ld	a4, 40(sp)
	xor	s2, a4, a1
	xor	a2, s6, a2
	xor	a3, s7, a3
	xor	t6, s8, a0
	lbu	a1, 68(sp)
	lbu	a5, 69(sp)
	lbu	s1, 70(sp)
	lbu	a0, 71(sp)
	ld	a4, 24(sp)
	xor	a4, a4, a1
	ld	a1, 16(sp)
	xor	a5, a5, a1
	ld	a1, 8(sp)
	xor	s1, s1, a1
	ld	a1, 0(sp)
	xor	a0, a0, a1
	sb	a6, 0(s0)
	sb	a7, 1(s0)
	sb	t0, 2(s0)
	sb	t1, 3(s0)
	sb	t3, 4(s0)
	sb	t4, 5(s0)
	sb	t5, 6(s0)
	sb	t2, 7(s0)
	sb	s2, 8(s0)
	sb	a2, 9(s0)
	sb	a3, 10(s0)
	sb	t6, 11(s0)
	sb	a4, 12(s0)
	sb	a5, 13(s0)
	sb	s1, 14(s0)
	sb	a0, 15(s0)
	ld	ra, 168(sp)
	ld	s0, 160(sp)
	ld	s1, 152(sp)
	ld	s2, 144(sp)
	ld	s3, 136(sp)
	ld	s4, 128(sp)
	ld	s5, 120(sp)
	ld	s6, 112(sp)
	ld	s7, 104(sp)
	ld	s8, 96(sp)
	ld	s9, 88(sp)
	ld	s10, 80(sp)
	ld	s11, 72(sp)
	addi	sp, sp, 176
	ret
.Lfunc_end023fe:
	.size	eax_mode.tag_over, .Lfunc_end023fe-eax_mode.tag_over

	.section	".text.eax_mode::apply_key_stream","ax",@progbits
	.p2align	1
	.type	eax_mode.apply_key_stream,@function
eax_mode.apply_key_stream:
	addi	sp, sp, -96
	sd	ra, 88(sp)
	sd	s0, 80(sp)
	sd	s1, 72(sp)
	sd	s2, 64(sp)
	sd	s3, 56(sp)
	mv	s3, a3
	mv	s2, a0
	mv	a0, sp
	call	core.int.u128.to_be_bytes
	lbu	a6, 0(sp)
	lbu	a7, 1(sp)
	lbu	t0, 2(sp)
	lbu	t1, 3(sp)
	lbu	t3, 4(sp)
	lbu	t4, 5(sp)
	lbu	t5, 6(sp)
	lbu	t2, 7(sp)
	lbu	a1, 8(sp)
	lbu	a2, 9(sp)
	lbu	a3, 10(sp)
	lbu	s0, 11(sp)
	lbu	a0, 12(sp)
	lbu	a4, 13(sp)
	lbu	a5, 14(sp)
	lbu	s1, 15(sp)
	sd	zero, 32(sp)
	sd	zero, 40(sp)
	sb	a0, 28(sp)
	sb	a4, 29(sp)
	sb	a5, 30(sp)
	sb	s1, 31(sp)
	sb	a1, 24(sp)
	sb	a2, 25(sp)
	sb	a3, 26(sp)
	sb	s0, 27(sp)
	sb	t3, 20(sp)
	sb	t4, 21(sp)
	sb	t5, 22(sp)
	sb	t2, 23(sp)
	sb	a6, 16(sp)
	sb	a7, 17(sp)
	sb	t0, 18(sp)
	sb	t1, 19(sp)
	addi	a0, sp, 32
	addi	a2, sp, 16
	mv	a1, s2
	call	aes_block.Aes128.encrypt_block
	lbu	a0, 32(sp)
	lbu	a1, 0(s3)
	xor	a0, a0, a1
	sb	a0, 0(s3)
	ld	ra, 88(sp)
	ld	s0, 80(sp)
	ld	s1, 72(sp)
	ld	s2, 64(sp)
	ld	s3, 56(sp)
	addi	sp, sp, 96
	ret
.Lfunc_endd95e7:
	.size	eax_mode.apply_key_stream, .Lfunc_endd95e7-eax_mode.apply_key_stream

	.section	".text.psk_ends::peer::psk4::psk4::<#becd8de5e2060522>","ax",@progbits
	.p2align	1
	.type	psk_ends.peer.psk4.psk4.__becd8de5e2060522_,@function
psk_ends.peer.psk4.psk4.__becd8de5e2060522_:
	addi	sp, sp, -128
	sd	ra, 120(sp)
	sd	s0, 112(sp)
	sd	s1, 104(sp)
	sd	s2, 96(sp)
	sd	s3, 88(sp)
	sd	s4, 80(sp)
	mv	s2, a4
	mv	s1, a3
	mv	s3, a2
	mv	s4, a1
	mv	s0, a0
	ld	a1, 16(a0)
	sd	zero, 48(sp)
	sd	zero, 56(sp)
	sd	zero, 64(sp)
	sd	zero, 72(sp)
	addi	a0, sp, 12
	li	a2, 16
	call	memcpy
	li	a0, 3
	li	a1, 1
	sw	a0, 8(sp)
	sw	a1, 28(sp)
	sd	zero, 32(sp)
	sd	zero, 40(sp)
	addi	a1, sp, 8
	li	a2, 1
	mv	a0, s1
	mv	a3, s4
	call	psk_messages.writing.write_psk_into
	ld	a0, 16(s0)
	addi	a1, a0, 368
	li	a2, 1
	mv	a0, s1
	mv	a3, s3
	mv	a4, s2
	call	psk_ends.channel.seal_in.__becd8de5e2060522_
	ld	ra, 120(sp)
	ld	s0, 112(sp)
	ld	s1, 104(sp)
	ld	s2, 96(sp)
	ld	s3, 88(sp)
	ld	s4, 80(sp)
	addi	sp, sp, 128
	ret
.Lfunc_endbd1f0:
	.size	psk_ends.peer.psk4.psk4.__becd8de5e2060522_, .Lfunc_endbd1f0-psk_ends.peer.psk4.psk4.__becd8de5e2060522_

	.section	".text.psk_ends::channel::seal_in::<#becd8de5e2060522>","ax",@progbits
	.p2align	1
	.type	psk_ends.channel.seal_in.__becd8de5e2060522_,@function
psk_ends.channel.seal_in.__becd8de5e2060522_:
	addi	sp, sp, -112
	sd	ra, 104(sp)
	sd	s0, 96(sp)
	sd	s1, 88(sp)
	sd	s2, 80(sp)
	sd	s3, 72(sp)
	sd	s4, 64(sp)
	mv	s3, a4
	mv	s4, a0
	ld	s1, 1504(a0)
	li	a0, 22
	mv	s0, a1
	bltu	s1, a0, .LBB11bc4_2
	li	s1, 22
.LBB11bc4_2:
	slli	a3, a3, 6
	sd	zero, 24(sp)
	sw	zero, 32(sp)
	sh	zero, 36(sp)
	sb	zero, 38(sp)
	sb	a3, 47(sp)
	sb	a2, 39(sp)
	addi	a0, sp, 48
	addi	a4, sp, 24
	li	a5, 16
	mv	a1, s0
	li	a2, 0
	li	a3, 0
	call	eax_mode.omac
	addi	a0, sp, 48
	call	core.int.u128.from_be_bytes
	mv	a2, a0
	mv	a4, a1
	addi	a3, sp, 47
	mv	a0, s0
	mv	a1, a2
	mv	a2, a4
	call	eax_mode.apply_key_stream
	addi	s2, sp, 4
	addi	a2, sp, 48
	addi	a5, sp, 47
	mv	a0, s2
	mv	a1, s0
	mv	a3, s4
	mv	a4, s1
	call	eax_mode.tag_over
	ld	a0, 0(s3)
	li	a1, 1
	bltu	a1, a0, .LBB11bc4_4
	addi	a0, a0, 1
	sd	a0, 0(s3)
.LBB11bc4_4:
	ld	s1, 1504(s4)
	lbu	s0, 47(sp)
	li	a0, 17
	bltu	s1, a0, .LBB11bc4_6
	addi	s1, s1, -17
	add	a0, s4, s1
	li	a2, 17
	li	a1, 0
	call	memset
	sd	s1, 1504(s4)
.LBB11bc4_6:
	addi	a0, s1, -1501
	li	a1, -17
	bltu	a1, a0, .LBB11bc4_11
	add	a0, s4, s1
	sub	a1, a0, s2
	li	a2, 15
	bltu	a2, a1, .LBB11bc4_9
	lbu	a1, 4(sp)
	lbu	a2, 5(sp)
	lbu	a3, 6(sp)
	lbu	a4, 7(sp)
	sb	a1, 0(a0)
	sb	a2, 1(a0)
	sb	a3, 2(a0)
	sb	a4, 3(a0)
	lbu	a1, 8(sp)
	lbu	a2, 9(sp)
	lbu	a3, 10(sp)
	lbu	a4, 11(sp)
	sb	a1, 4(a0)
	sb	a2, 5(a0)
	sb	a3, 6(a0)
	sb	a4, 7(a0)
	lbu	a1, 12(sp)
	lbu	a2, 13(sp)
	lbu	a3, 14(sp)
	lbu	a4, 15(sp)
	sb	a1, 8(a0)
	sb	a2, 9(a0)
	sb	a3, 10(a0)
	sb	a4, 11(a0)
	lbu	a1, 16(sp)
	lbu	a2, 17(sp)
	lbu	a3, 18(sp)
	lbu	a4, 19(sp)
	sb	a1, 12(a0)
	sb	a2, 13(a0)
	sb	a3, 14(a0)
	sb	a4, 15(a0)
	j	.LBB11bc4_10
.LBB11bc4_9:
	li	a2, 16
	mv	a1, s2
	call	memcpy
.LBB11bc4_10:
	addi	s1, s1, 16
	sd	s1, 1504(s4)
.LBB11bc4_11:
	li	a0, 1500
	beq	s1, a0, .LBB11bc4_13
	add	a0, s4, s1
	addi	s1, s1, 1
	sb	s0, 0(a0)
	sd	s1, 1504(s4)
.LBB11bc4_13:
	ld	ra, 104(sp)
	ld	s0, 96(sp)
	ld	s1, 88(sp)
	ld	s2, 80(sp)
	ld	s3, 72(sp)
	ld	s4, 64(sp)
	addi	sp, sp, 112
	ret
.Lfunc_end11bc4:
	.size	psk_ends.channel.seal_in.__becd8de5e2060522_, .Lfunc_end11bc4-psk_ends.channel.seal_in.__becd8de5e2060522_

	.section	".text.gpsk_ends::peer::GpskPeer::handle_step::<#e0641de541981142>","ax",@progbits
	.p2align	1
	.type	gpsk_ends.peer.GpskPeer.handle_step.__e0641de541981142_,@function
gpsk_ends.peer.GpskPeer.handle_step.__e0641de541981142_:
	addi	sp, sp, -464
	sd	ra, 456(sp)
	sd	s0, 448(sp)
	sd	s1, 440(sp)
	sd	s2, 432(sp)
	sd	s3, 424(sp)
	sd	s4, 416(sp)
	sd	s5, 408(sp)
	sd	s6, 400(sp)
	sd	s7, 392(sp)
	mv	s3, a5
	mv	s2, a4
	mv	a6, a3
	mv	a5, a2
	mv	s1, a1
	mv	s0, a0
	lbu	a0, 656(a1)
	li	a1, 2
	sh	zero, 2(sp)
	sb	zero, 4(sp)
	beq	a0, a1, .LBBae6ab_4
	li	s7, 1
	bne	a0, s7, .LBBae6ab_5
	lbu	s4, 1(a5)
	addi	s5, a6, -5
	addi	s6, a5, 5
	addi	a0, sp, 8
	li	a2, 80
	li	a1, 0
	call	memset
	addi	a0, sp, 8
	mv	a1, s1
	mv	a2, s6
	mv	a3, s5
	call	gpsk_ends.peer.gpsk1.fresh_reads
	lbu	a0, 8(sp)
	bne	a0, s7, .LBBae6ab_8
	li	a1, 0
	lbu	a0, 9(sp)
	li	a2, 0
	j	.LBBae6ab_6
.LBBae6ab_4:
	addi	a3, s1, 664
	addi	a4, s1, 1152
	addi	a2, s1, 624
	addi	a0, sp, 2
	mv	a1, s1
	mv	a7, s2
	mv	t3, s3
	call	gpsk_ends.peer.turns.known_reads.__e0641de541981142_
	lbu	a2, 2(sp)
	lbu	a0, 3(sp)
	lbu	a1, 4(sp)
	bnez	a2, .LBBae6ab_7
	j	.LBBae6ab_6
.LBBae6ab_5:
	li	a0, 22
.LBBae6ab_6:
	li	a2, 0
	li	a1, 0
	sd	zero, 0(s3)
	sd	zero, 8(s3)
.LBBae6ab_7:
	sb	a2, 0(s0)
	sb	a0, 1(s0)
	sb	a1, 2(s0)
	ld	ra, 456(sp)
	ld	s0, 448(sp)
	ld	s1, 440(sp)
	ld	s2, 432(sp)
	ld	s3, 424(sp)
	ld	s4, 416(sp)
	ld	s5, 408(sp)
	ld	s6, 400(sp)
	ld	s7, 392(sp)
	addi	sp, sp, 464
	ret
.LBBae6ab_8:
	addi	s5, s1, 656
	addi	s6, s1, 624
	addi	s7, sp, 16
	addi	a0, sp, 320
	li	a2, 72
	mv	a1, s7
	call	memcpy
	ld	a3, 616(s1)
	ld	a6, 256(s1)
	ld	t3, 320(sp)
	ld	t4, 328(sp)
	lbu	a1, 384(sp)
	addi	a2, s1, 552
	addi	a7, sp, 336
	addi	a0, sp, 88
	mv	a4, s6
	mv	a5, s1
	call	login_keys.gpsk.gpsk_keys
	addi	a0, sp, 5
	addi	a5, sp, 88
	mv	a1, s1
	mv	a2, s6
	mv	a3, s5
	mv	a4, s7
	mv	a6, s4
	mv	a7, s2
	mv	t3, s3
	call	gpsk_ends.peer.turns.expand.__e0641de541981142_
	lbu	a2, 5(sp)
	lbu	a0, 6(sp)
	lbu	a1, 7(sp)
	bnez	a2, .LBBae6ab_7
	j	.LBBae6ab_6
.Lfunc_endae6ab:
	.size	gpsk_ends.peer.GpskPeer.handle_step.__e0641de541981142_, .Lfunc_endae6ab-gpsk_ends.peer.GpskPeer.handle_step.__e0641de541981142_

	.section	".text.gpsk_ends::peer::gpsk1::fresh_reads","ax",@progbits
	.p2align	1
	.type	gpsk_ends.peer.gpsk1.fresh_reads,@function
gpsk_ends.peer.gpsk1.fresh_reads:
	addi	sp, sp, -368
	sd	ra, 360(sp)
	sd	s0, 352(sp)
	sd	s1, 344(sp)
	sd	s2, 336(sp)
	sd	s3, 328(sp)
	sd	s4, 320(sp)
	sd	s5, 312(sp)
	sd	s6, 304(sp)
	sd	s7, 296(sp)
	sd	s8, 288(sp)
	sd	s9, 280(sp)
	mv	s2, a3
	mv	s1, a2
	mv	s3, a1
	mv	s0, a0
	sd	zero, 48(sp)
	sd	zero, 56(sp)
	sd	zero, 64(sp)
	sd	zero, 72(sp)
	sw	zero, 40(sp)
	sh	zero, 44(sp)
	sb	zero, 46(sp)
	sd	zero, 8(sp)
	sd	zero, 16(sp)
	sd	zero, 24(sp)
	sd	zero, 32(sp)
	sw	zero, 0(sp)
	sh	zero, 4(sp)
	sb	zero, 6(sp)
	addi	a0, sp, 112
	li	a2, 168
	li	a1, 0
	call	memset
	addi	a0, sp, 112
	mv	a1, s1
	mv	a2, s2
	li	a3, 0
	li	a4, 0
	call	gpsk_messages.reading.read_gpsk_message
	lbu	a3, 112(sp)
	lbu	a6, 113(sp)
	lbu	a2, 120(sp)
	ld	s4, 128(sp)
	ld	s2, 136(sp)
	ld	a4, 144(sp)
	ld	a5, 152(sp)
	ld	s1, 160(sp)
	ld	a0, 168(sp)
	li	t0, 1
	sd	a4, 80(sp)
	sd	a5, 88(sp)
	sd	s1, 96(sp)
	sd	a0, 104(sp)
	bne	a3, t0, .LBBbf4f0_2
	li	s4, 0
	li	s2, 0
	li	s6, 0
	li	s5, 0
	li	s7, 0
	j	.LBBbf4f0_15
.LBBbf4f0_2:
	beqz	a2, .LBBbf4f0_4
	li	s4, 0
	li	s2, 0
	li	s6, 0
	li	s5, 0
	li	s7, 0
	li	a6, 22
	j	.LBBbf4f0_15
.LBBbf4f0_4:
	ld	s6, 176(sp)
	ld	s5, 184(sp)
	mv	a0, s3
	mv	a1, s4
	mv	a2, s2
	call	eap_method.peer_side.PeerSide.allows
	beqz	a0, .LBBbf4f0_9
	sd	zero, 112(sp)
	sd	zero, 120(sp)
	sd	zero, 128(sp)
	sd	zero, 136(sp)
	addi	s3, s3, 536
	mv	s8, s6
	mv	s1, s5
.LBBbf4f0_6:
	li	a0, 6
	bltu	s1, a0, .LBBbf4f0_10
	li	a2, 6
	mv	a0, s3
	mv	a1, s8
	li	a3, 0
	call	login_policy.policy.is_allowed
	bnez	a0, .LBBbf4f0_11
	addi	s1, s1, -6
	addi	s9, s8, 6
	li	a2, 6
	li	a3, 1
	li	s7, 1
	mv	a0, s3
	mv	a1, s8
	call	login_policy.policy.is_allowed
	mv	s8, s9
	beqz	a0, .LBBbf4f0_6
	j	.LBBbf4f0_12
.LBBbf4f0_9:
	li	s4, 0
	li	s2, 0
	li	s6, 0
	li	s5, 0
	li	s7, 0
	li	a6, 23
	li	t0, 1
	j	.LBBbf4f0_14
.LBBbf4f0_10:
	li	s4, 0
	li	s2, 0
	li	s6, 0
	li	s5, 0
	li	s7, 0
	li	a6, 24
	li	t0, 1
	j	.LBBbf4f0_13
.LBBbf4f0_11:
	li	s7, 0
.LBBbf4f0_12:
	li	t0, 0
	li	a6, 0
	ld	a0, 80(sp)
	ld	a2, 88(sp)
	ld	a3, 96(sp)
	ld	a4, 104(sp)
	sd	a0, 112(sp)
	sd	a2, 120(sp)
	sd	a3, 128(sp)
	sd	a4, 136(sp)
.LBBbf4f0_13:
	ld	a0, 112(sp)
	ld	a2, 120(sp)
	ld	a3, 128(sp)
	ld	a4, 136(sp)
	sd	a0, 8(sp)
	sd	a2, 16(sp)
	sd	a3, 24(sp)
	sd	a4, 32(sp)
	sw	zero, 0(sp)
	sh	zero, 4(sp)
	sb	zero, 6(sp)
.LBBbf4f0_14:
	ld	a7, 8(sp)
	ld	a2, 16(sp)
	ld	a3, 24(sp)
	ld	a4, 32(sp)
	lw	a5, 0(sp)
	lh	s1, 4(sp)
	lbu	a0, 6(sp)
	sd	a7, 48(sp)
	sd	a2, 56(sp)
	sd	a3, 64(sp)
	sd	a4, 72(sp)
	sw	a5, 40(sp)
	sh	s1, 44(sp)
	sb	a0, 46(sp)
.LBBbf4f0_15:
	srli	a7, s4, 56
	srli	t1, s4, 48
	srli	a3, s4, 40
	srli	a4, s4, 32
	srli	a5, s4, 24
	srli	s1, s4, 16
	srli	a1, s4, 8
	srli	a0, s2, 56
	srli	a2, s2, 48
	srli	t2, s2, 40
	sb	s1, 10(s0)
	sb	a5, 11(s0)
	sb	a4, 12(s0)
	sb	a3, 13(s0)
	srli	a3, s2, 32
	sb	t0, 0(s0)
	sb	a6, 1(s0)
	sb	s4, 8(s0)
	sb	a1, 9(s0)
	srli	a1, s2, 24
	sb	a2, 22(s0)
	sb	a0, 23(s0)
	srli	a0, s2, 16
	sb	a0, 18(s0)
	sb	a1, 19(s0)
	sb	a3, 20(s0)
	sb	t2, 21(s0)
	srli	a0, s2, 8
	sb	t1, 14(s0)
	sb	a7, 15(s0)
	sb	s2, 16(s0)
	sb	a0, 17(s0)
	addi	a0, s0, 24
	addi	a1, sp, 48
	li	a2, 32
	call	memcpy
	srli	a6, s6, 56
	srli	t1, s6, 48
	srli	a2, s6, 40
	srli	a3, s6, 32
	srli	a7, s6, 24
	srli	a5, s6, 16
	srli	s1, s6, 8
	srli	t0, s5, 56
	srli	a4, s5, 48
	srli	a0, s5, 40
	srli	a1, s5, 32
	sb	a3, 60(s0)
	sb	a2, 61(s0)
	sb	t1, 62(s0)
	sb	a6, 63(s0)
	srli	a2, s5, 24
	sb	s6, 56(s0)
	sb	s1, 57(s0)
	sb	a5, 58(s0)
	sb	a7, 59(s0)
	srli	a3, s5, 16
	sb	a1, 68(s0)
	sb	a0, 69(s0)
	sb	a4, 70(s0)
	sb	t0, 71(s0)
	srli	a0, s5, 8
	sb	s5, 64(s0)
	sb	a0, 65(s0)
	sb	a3, 66(s0)
	sb	a2, 67(s0)
	lbu	a0, 40(sp)
	lbu	a1, 41(sp)
	lbu	a2, 42(sp)
	lbu	a3, 43(sp)
	sb	s7, 72(s0)
	sb	a0, 73(s0)
	sb	a1, 74(s0)
	sb	a2, 75(s0)
	lbu	a0, 44(sp)
	lbu	a1, 45(sp)
	lbu	a2, 46(sp)
	sb	a3, 76(s0)
	sb	a0, 77(s0)
	sb	a1, 78(s0)
	sb	a2, 79(s0)
	ld	ra, 360(sp)
	ld	s0, 352(sp)
	ld	s1, 344(sp)
	ld	s2, 336(sp)
	ld	s3, 328(sp)
	ld	s4, 320(sp)
	ld	s5, 312(sp)
	ld	s6, 304(sp)
	ld	s7, 296(sp)
	ld	s8, 288(sp)
	ld	s9, 280(sp)
	addi	sp, sp, 368
	ret
.Lfunc_endbf4f0:
	.size	gpsk_ends.peer.gpsk1.fresh_reads, .Lfunc_endbf4f0-gpsk_ends.peer.gpsk1.fresh_reads

	.section	.rodata.cst8,"aM",@progbits,8
	.p2align	3, 0x0
.LCPI425a6_0:
	.quad	3074457345618258603
	.section	".text.gpsk_messages::reading::read_gpsk_message","ax",@progbits
	.p2align	1
	.type	gpsk_messages.reading.read_gpsk_message,@function
gpsk_messages.reading.read_gpsk_message:
	addi	sp, sp, -592
	sd	ra, 584(sp)
	sd	s0, 576(sp)
	sd	s1, 568(sp)
	sd	s2, 560(sp)
	sd	s3, 552(sp)
	sd	s4, 544(sp)
	sd	s5, 536(sp)
	sd	s6, 528(sp)
	sd	s7, 520(sp)
	sd	s8, 512(sp)
	sd	s9, 504(sp)
	sd	s10, 496(sp)
	sd	s11, 488(sp)
	mv	s0, a0
	sd	zero, 320(sp)
	sd	zero, 328(sp)
	sw	zero, 312(sp)
	sh	zero, 316(sp)
	sb	zero, 318(sp)
	sd	zero, 368(sp)
	sd	zero, 376(sp)
	sw	zero, 360(sp)
	sh	zero, 364(sp)
	sb	zero, 366(sp)
	sd	zero, 344(sp)
	sd	zero, 352(sp)
	sw	zero, 336(sp)
	sh	zero, 340(sp)
	sb	zero, 342(sp)
	beqz	a2, .LBB425a6_23
	lbu	a0, 0(a1)
	addi	a0, a0, -1
	li	a5, 5
	bltu	a5, a0, .LBB425a6_23
	slli	a0, a0, 2
.Lpcrel_hi6:
	auipc	a5, %pcrel_hi(.LJTI425a6_0)
	addi	a5, a5, %pcrel_lo(.Lpcrel_hi6)
	add	a0, a0, a5
	lw	a0, 0(a0)
	add	a0, a0, a5
	jr	a0
.LBB425a6_3:
	li	a0, 3
	sd	zero, 440(sp)
	sd	zero, 448(sp)
	bgeu	a2, a0, .LBB425a6_25
.LBB425a6_4:
	li	t0, 0
	li	a7, 0
	li	s8, 0
	li	t5, 0
	li	t6, 0
	li	t1, 0
	li	ra, 0
	sd	zero, 392(sp)
	sd	zero, 400(sp)
.LBB425a6_5:
	sw	zero, 384(sp)
	sh	zero, 388(sp)
	sb	zero, 390(sp)
	li	s3, 0
	li	t3, 0
	li	s6, 0
	li	s7, 0
	li	s2, 0
	li	s5, 0
	li	s11, 0
	li	s9, 0
	j	.LBB425a6_12
.LBB425a6_6:
	li	a0, 5
	bne	a2, a0, .LBB425a6_23
	li	a7, 0
	li	s8, 0
	li	t5, 0
	li	t6, 0
	lbu	a0, 2(a1)
	lbu	a2, 3(a1)
	lbu	a3, 4(a1)
	lbu	a1, 1(a1)
	slli	a0, a0, 8
	slli	a2, a2, 16
	slli	a3, a3, 24
	or	a0, a0, a1
	or	a3, a3, a2
	or	a0, a0, a3
	lui	a3, 16
	addi	a3, a3, -256
	srli	a2, a2, 8
	and	a3, a3, a0
	srliw	a0, a0, 24
	or	a0, a0, a2
	slli	a1, a1, 24
	slli	a3, a3, 8
	or	a1, a1, a3
	or	t0, a1, a0
	li	s3, 4
	j	.LBB425a6_66
.LBB425a6_8:
	sd	zero, 424(sp)
	sd	zero, 432(sp)
	li	a0, 33
	sw	zero, 416(sp)
	sh	zero, 420(sp)
	sb	zero, 422(sp)
	bltu	a2, a0, .LBB425a6_11
	addi	a6, a2, -1
	andi	a3, a6, -32
	li	a4, 32
	beq	a3, a4, .LBB425a6_11
	lbu	s9, 1(a1)
	lbu	t6, 2(a1)
	lbu	s5, 3(a1)
	lbu	t5, 4(a1)
	lbu	a0, 5(a1)
	sd	a0, 296(sp)
	lbu	a0, 6(a1)
	sd	a0, 216(sp)
	lbu	a0, 7(a1)
	sd	a0, 256(sp)
	lbu	a0, 8(a1)
	sd	a0, 248(sp)
	lbu	ra, 9(a1)
	lbu	a0, 10(a1)
	sd	a0, 272(sp)
	lbu	a0, 11(a1)
	sd	a0, 288(sp)
	lbu	a0, 12(a1)
	sd	a0, 280(sp)
	lbu	a0, 13(a1)
	sd	a0, 264(sp)
	lbu	a0, 14(a1)
	sd	a0, 224(sp)
	lbu	a0, 15(a1)
	sd	a0, 240(sp)
	lbu	a0, 16(a1)
	sd	a0, 232(sp)
	lbu	a3, 41(a1)
	lbu	a4, 42(a1)
	lbu	t0, 43(a1)
	lbu	t1, 44(a1)
	lbu	a7, 45(a1)
	lbu	t4, 46(a1)
	lbu	a5, 47(a1)
	lbu	s1, 48(a1)
	slli	a4, a4, 8
	or	t2, a4, a3
	lbu	a4, 33(a1)
	lbu	a3, 34(a1)
	lbu	t3, 35(a1)
	lbu	a0, 36(a1)
	slli	t0, t0, 16
	slli	t1, t1, 24
	slli	t4, t4, 8
	slli	a5, a5, 16
	slli	s1, s1, 24
	slli	a3, a3, 8
	or	t0, t1, t0
	or	a7, t4, a7
	or	t4, s1, a5
	or	t1, a3, a4
	lbu	a4, 37(a1)
	lbu	s1, 38(a1)
	lbu	a3, 39(a1)
	lbu	a5, 40(a1)
	slli	t3, t3, 16
	slli	a0, a0, 24
	slli	s1, s1, 8
	slli	a3, a3, 16
	slli	a5, a5, 24
	or	a0, a0, t3
	or	a4, a4, s1
	or	a3, a3, a5
	or	a5, t0, t2
	lbu	t0, 17(a1)
	lbu	s1, 18(a1)
	sd	s1, 208(sp)
	lbu	t2, 19(a1)
	lbu	t3, 20(a1)
	or	s1, t4, a7
	or	a0, a0, t1
	or	a3, a3, a4
	slli	s1, s1, 32
	or	a5, a5, s1
	lbu	a4, 21(a1)
	sd	a4, 200(sp)
	lbu	s11, 22(a1)
	lbu	s4, 23(a1)
	lbu	s7, 24(a1)
	slli	a3, a3, 32
	or	a0, a0, a3
	sd	a0, 472(sp)
	lbu	a7, 25(a1)
	lbu	t4, 26(a1)
	lbu	t1, 27(a1)
	lbu	s1, 28(a1)
	lbu	s8, 29(a1)
	lbu	s2, 30(a1)
	lbu	s3, 31(a1)
	lbu	s10, 32(a1)
	andi	a0, a6, -2
	li	a3, 64
	sd	a5, 480(sp)
	bne	a0, a3, .LBB425a6_55
.LBB425a6_11:
	li	t0, 0
	li	s3, 0
	li	a7, 0
	li	s8, 0
	li	t5, 0
	li	t6, 0
	li	t1, 0
	li	ra, 0
	li	t3, 0
	li	s6, 0
	li	s7, 0
	li	s2, 0
	li	s5, 0
	li	s11, 0
	li	s9, 0
	sd	zero, 392(sp)
	sd	zero, 400(sp)
	sw	zero, 384(sp)
	sh	zero, 388(sp)
	sb	zero, 390(sp)
.LBB425a6_12:
	li	t2, 0
	li	t4, 0
	li	a4, 0
	li	a2, 0
	j	.LBB425a6_19
.LBB425a6_13:
	li	a0, 3
	bltu	a2, a0, .LBB425a6_23
	lbu	a0, 1(a1)
	lbu	a5, 2(a1)
	addi	a2, a2, -3
	slli	a0, a0, 8
	or	s8, a0, a5
	bltu	a2, s8, .LBB425a6_23
	andi	a3, a3, 1
	sub	t6, a2, s8
	beqz	a3, .LBB425a6_62
	zext.b	a0, a4
	bne	t6, a0, .LBB425a6_23
	j	.LBB425a6_64
.LBB425a6_17:
	sd	zero, 424(sp)
	sd	zero, 432(sp)
	li	a0, 3
	sw	zero, 408(sp)
	sh	zero, 412(sp)
	sb	zero, 414(sp)
	bgeu	a2, a0, .LBB425a6_34
.LBB425a6_18:
	li	t0, 0
	li	s3, 0
	li	a7, 0
	li	s8, 0
	li	t5, 0
	li	t6, 0
	li	t1, 0
	li	ra, 0
	li	t3, 0
	li	s6, 0
	li	s7, 0
	li	s2, 0
	li	s5, 0
	li	s11, 0
	li	s9, 0
	li	t2, 0
	li	t4, 0
	li	a4, 0
	li	a2, 0
	sd	zero, 392(sp)
	sd	zero, 400(sp)
	sw	zero, 384(sp)
	sh	zero, 388(sp)
	sb	zero, 390(sp)
.LBB425a6_19:
	ld	a0, 392(sp)
	ld	a1, 400(sp)
	lw	a3, 384(sp)
	lh	a5, 388(sp)
	lbu	s1, 390(sp)
	sd	a0, 440(sp)
	sd	a1, 448(sp)
	sw	a3, 472(sp)
	sh	a5, 476(sp)
	sb	s1, 478(sp)
	beqz	t0, .LBB425a6_21
	li	t0, 0
	zext.b	a6, s9
	j	.LBB425a6_67
.LBB425a6_21:
	li	a7, 0
	li	s8, 0
	li	a1, 0
	li	t6, 0
	li	s11, 0
	sd	zero, 232(sp)
	sd	zero, 304(sp)
	sd	zero, 224(sp)
	sd	zero, 296(sp)
	sd	zero, 240(sp)
	sd	zero, 288(sp)
	sd	zero, 280(sp)
	sd	zero, 216(sp)
	sd	zero, 248(sp)
	sd	zero, 264(sp)
	sd	zero, 256(sp)
	sd	zero, 272(sp)
	li	a0, 0
	j	.LBB425a6_24
.LBB425a6_22:
	li	a0, 5
	bgeu	a2, a0, .LBB425a6_50
.LBB425a6_23:
	li	a7, 0
	li	s8, 0
	li	a1, 0
	li	t6, 0
	li	s11, 0
	sd	zero, 232(sp)
	sd	zero, 304(sp)
	sd	zero, 224(sp)
	sd	zero, 296(sp)
	sd	zero, 240(sp)
	sd	zero, 288(sp)
	sd	zero, 280(sp)
	sd	zero, 216(sp)
	sd	zero, 248(sp)
	sd	zero, 264(sp)
	sd	zero, 256(sp)
	sd	zero, 272(sp)
	li	a0, 0
	li	t0, 0
.LBB425a6_24:
	li	t3, 19
	li	a4, 1
	j	.LBB425a6_73
.LBB425a6_25:
	lbu	a0, 1(a1)
	lbu	a3, 2(a1)
	addi	a2, a2, -3
	slli	a0, a0, 8
	or	a5, a0, a3
	bltu	a2, a5, .LBB425a6_4
	li	a0, 253
	bltu	a0, a5, .LBB425a6_4
	sub	a0, a2, a5
	li	a2, 32
	bltu	a0, a2, .LBB425a6_4
	andi	a3, a0, -2
	beq	a3, a2, .LBB425a6_4
	addi	s11, a1, 3
	add	a1, s11, a5
	lbu	a2, 32(a1)
	lbu	a3, 33(a1)
	addi	ra, a0, -34
	slli	a0, a2, 8
	or	a0, a0, a3
	bltu	ra, a0, .LBB425a6_4
	beqz	a0, .LBB425a6_4
.Lpcrel_hi7:
	auipc	a2, %pcrel_hi(.LCPI425a6_0)
	ld	a2, %pcrel_lo(.Lpcrel_hi7)(a2)
	mulhu	a2, a0, a2
	slli	a3, a2, 1
	slli	a2, a2, 2
	add	a2, a2, a3
	sub	a2, a0, a2
	bnez	a2, .LBB425a6_4
	bne	ra, a0, .LBB425a6_75
	lbu	t3, 0(a1)
	lbu	a2, 1(a1)
	lbu	a3, 2(a1)
	lbu	a4, 3(a1)
	lbu	t0, 4(a1)
	lbu	t1, 5(a1)
	lbu	t2, 6(a1)
	lbu	t5, 7(a1)
	lbu	t4, 8(a1)
	lbu	s7, 9(a1)
	lbu	s4, 10(a1)
	lbu	s1, 11(a1)
	lbu	t6, 12(a1)
	lbu	s2, 13(a1)
	lbu	s3, 14(a1)
	lbu	s5, 15(a1)
	slli	a2, a2, 8
	slli	a3, a3, 16
	slli	a4, a4, 24
	or	t3, a2, t3
	or	s6, a4, a3
	mv	a7, a5
	lbu	s8, 16(a1)
	lbu	a3, 17(a1)
	lbu	a4, 18(a1)
	lbu	a0, 19(a1)
	slli	t1, t1, 8
	slli	t2, t2, 16
	slli	t5, t5, 24
	slli	s7, s7, 8
	slli	a5, s4, 16
	slli	s1, s1, 24
	or	t0, t1, t0
	or	t1, t5, t2
	or	t2, s7, t4
	or	t4, s1, a5
	lbu	t5, 20(a1)
	lbu	s7, 21(a1)
	lbu	a5, 22(a1)
	lbu	a2, 23(a1)
	slli	s2, s2, 8
	slli	s3, s3, 16
	slli	s5, s5, 24
	slli	a3, a3, 8
	slli	a4, a4, 16
	slli	a0, a0, 24
	or	t6, s2, t6
	or	s2, s5, s3
	or	s3, a3, s8
	or	s5, a0, a4
	lbu	a4, 24(a1)
	lbu	a3, 25(a1)
	lbu	a0, 26(a1)
	lbu	s1, 27(a1)
	slli	s7, s7, 8
	slli	a5, a5, 16
	slli	a2, a2, 24
	slli	a3, a3, 8
	slli	a0, a0, 16
	slli	s1, s1, 24
	or	t5, s7, t5
	or	s7, a2, a5
	or	s8, a3, a4
	or	s9, s1, a0
	lbu	a4, 29(a1)
	lbu	a5, 28(a1)
	lbu	s1, 30(a1)
	lbu	a2, 31(a1)
	slli	a4, a4, 8
	or	s10, a4, a5
	slli	s1, s1, 16
	slli	a2, a2, 24
	or	a2, a2, s1
	or	a5, s6, t3
	or	s1, t1, t0
	or	t0, t4, t2
	or	a0, s2, t6
	or	t3, s5, s3
	or	a3, s7, t5
	or	a4, s9, s8
	mv	s8, a7
	mv	a7, s11
	or	a2, a2, s10
	slli	s1, s1, 32
	or	t5, s1, a5
	addi	t1, a1, 34
	slli	a0, a0, 32
	slli	a3, a3, 32
	slli	a2, a2, 32
	or	t6, a0, t0
	or	a0, a3, t3
	or	a2, a2, a4
	sd	a0, 440(sp)
	sd	a2, 448(sp)
	li	t0, 1
	j	.LBB425a6_76
.LBB425a6_34:
	lbu	a0, 1(a1)
	lbu	a3, 2(a1)
	addi	a2, a2, -3
	slli	a0, a0, 8
	or	s9, a0, a3
	bltu	a2, s9, .LBB425a6_18
	li	a0, 253
	bltu	a0, s9, .LBB425a6_18
	sub	a0, a2, s9
	li	a2, 2
	bltu	a0, a2, .LBB425a6_18
	addi	t2, a1, 3
	add	a3, t2, s9
	lbu	a2, 0(a3)
	lbu	a5, 1(a3)
	addi	a4, a0, -2
	slli	a0, a2, 8
	or	a0, a0, a5
	bltu	a4, a0, .LBB425a6_18
	li	a2, 254
	bgeu	a0, a2, .LBB425a6_18
	sub	t0, a4, a0
	li	a7, 32
	bltu	t0, a7, .LBB425a6_18
	addi	a6, a3, 2
	add	a2, a6, a0
	lbu	s1, 8(a2)
	lbu	a3, 9(a2)
	lbu	a5, 10(a2)
	lbu	a4, 11(a2)
	lbu	t1, 12(a2)
	lbu	t3, 13(a2)
	lbu	t4, 14(a2)
	lbu	a1, 15(a2)
	slli	a3, a3, 8
	slli	a5, a5, 16
	slli	a4, a4, 24
	or	t5, a3, s1
	or	t6, a4, a5
	lbu	a5, 0(a2)
	lbu	s1, 1(a2)
	lbu	a3, 2(a2)
	lbu	a4, 3(a2)
	slli	t3, t3, 8
	slli	t4, t4, 16
	slli	a1, a1, 24
	slli	s1, s1, 8
	slli	a3, a3, 16
	slli	a4, a4, 24
	or	t1, t3, t1
	or	t3, a1, t4
	or	t4, s1, a5
	or	a3, a3, a4
	lbu	a4, 5(a2)
	lbu	s1, 4(a2)
	lbu	a1, 6(a2)
	lbu	a5, 7(a2)
	slli	a4, a4, 8
	or	a4, a4, s1
	slli	a1, a1, 16
	slli	a5, a5, 24
	or	a1, a1, a5
	or	a5, t6, t5
	or	s1, t3, t1
	or	a3, a3, t4
	or	a1, a1, a4
	slli	s1, s1, 32
	or	a5, a5, s1
	andi	a4, t0, -32
	slli	a1, a1, 32
	or	a1, a1, a3
	sd	a1, 472(sp)
	sd	a5, 480(sp)
	beq	a4, a7, .LBB425a6_18
	lbu	s11, 16(a2)
	lbu	t5, 17(a2)
	lbu	t3, 18(a2)
	lbu	t4, 19(a2)
	lbu	a1, 20(a2)
	sd	a1, 232(sp)
	lbu	a1, 21(a2)
	sd	a1, 160(sp)
	lbu	a1, 22(a2)
	sd	a1, 216(sp)
	lbu	a1, 23(a2)
	sd	a1, 208(sp)
	lbu	t6, 24(a2)
	lbu	a1, 25(a2)
	sd	a1, 264(sp)
	lbu	ra, 26(a2)
	lbu	a1, 27(a2)
	sd	a1, 304(sp)
	lbu	a1, 28(a2)
	sd	a1, 224(sp)
	lbu	a1, 29(a2)
	sd	a1, 184(sp)
	lbu	a1, 30(a2)
	sd	a1, 200(sp)
	lbu	a1, 31(a2)
	sd	a1, 192(sp)
	lbu	a1, 32(a2)
	sd	a1, 296(sp)
	lbu	a1, 33(a2)
	sd	a1, 240(sp)
	lbu	a1, 34(a2)
	sd	a1, 256(sp)
	lbu	a1, 35(a2)
	sd	a1, 248(sp)
	lbu	s7, 48(a2)
	lbu	a7, 49(a2)
	lbu	a3, 50(a2)
	lbu	a4, 51(a2)
	lbu	a5, 54(a2)
	lbu	s1, 53(a2)
	lbu	a1, 52(a2)
	lbu	t1, 55(a2)
	slli	a5, a5, 8
	slli	a3, a3, 8
	slli	a4, a4, 16
	slli	a1, a1, 24
	or	a5, a5, s1
	or	a3, a3, a7
	or	a1, a1, a4
	or	a1, a1, a3
	lbu	a3, 36(a2)
	sd	a3, 152(sp)
	lbu	s4, 37(a2)
	lbu	s6, 38(a2)
	lbu	s3, 39(a2)
	sw	a1, 416(sp)
	sh	a5, 420(sp)
	lbu	a7, 40(a2)
	lbu	a1, 41(a2)
	sd	a1, 168(sp)
	lbu	s1, 42(a2)
	lbu	a1, 43(a2)
	sd	a1, 176(sp)
	lbu	s8, 44(a2)
	lbu	s5, 45(a2)
	lbu	s2, 46(a2)
	lbu	s10, 47(a2)
	andi	a1, t0, -2
	li	a3, 64
	sb	t1, 422(sp)
	beq	a1, a3, .LBB425a6_18
	lbu	a1, 64(a2)
	lbu	a3, 65(a2)
	addi	a4, t0, -66
	slli	a1, a1, 8
	or	a5, a1, a3
	bltu	a4, a5, .LBB425a6_18
	beqz	a5, .LBB425a6_18
.Lpcrel_hi8:
	auipc	a1, %pcrel_hi(.LCPI425a6_0)
	ld	a1, %pcrel_lo(.Lpcrel_hi8)(a1)
	mulhu	a1, a5, a1
	slli	a3, a1, 1
	slli	a1, a1, 2
	add	a1, a1, a3
	sub	a1, a5, a1
	bnez	a1, .LBB425a6_18
	sd	s1, 64(sp)
	sd	a7, 72(sp)
	sd	ra, 80(sp)
	sd	t6, 88(sp)
	sd	t5, 96(sp)
	sd	t4, 104(sp)
	sd	t3, 112(sp)
	sd	a0, 136(sp)
	sd	a6, 144(sp)
	sd	t2, 128(sp)
	sd	s9, 120(sp)
	lbu	s9, 56(a2)
	lbu	a0, 57(a2)
	sd	a0, 48(sp)
	lbu	s1, 58(a2)
	lbu	a0, 59(a2)
	sd	a0, 56(sp)
	lbu	a0, 60(a2)
	sd	a0, 40(sp)
	lbu	a0, 61(a2)
	sd	a0, 16(sp)
	lbu	a0, 62(a2)
	sd	a0, 32(sp)
	lbu	a0, 63(a2)
	sd	a0, 24(sp)
	addi	a1, a2, 66
	sub	a2, a4, a5
	sd	a1, 288(sp)
	sd	a5, 280(sp)
	add	a1, a1, a5
	addi	a0, sp, 440
	call	gpsk_messages.fields.suite_field
	lbu	a0, 440(sp)
	li	a1, 1
	bne	a0, a1, .LBB425a6_18
	ld	a1, 464(sp)
	li	a0, 2
	bltu	a1, a0, .LBB425a6_18
	ld	a0, 456(sp)
	lbu	a2, 0(a0)
	lbu	a3, 1(a0)
	addi	a1, a1, -2
	slli	a2, a2, 8
	or	a2, a2, a3
	bltu	a1, a2, .LBB425a6_18
	mv	a7, s1
	mv	a6, s9
	mv	t4, a2
	lbu	s9, 448(sp)
	sub	a1, a1, a2
	sd	a1, 272(sp)
	beqz	s9, .LBB425a6_82
	li	a1, 32
	j	.LBB425a6_83
.LBB425a6_50:
	lbu	a0, 1(a1)
	lbu	t0, 2(a1)
	lbu	s1, 4(a1)
	lbu	a5, 3(a1)
	addi	a7, a1, 5
	addi	s8, a2, -5
	slli	s1, s1, 24
	slli	a5, a5, 16
	slli	t0, t0, 8
	or	a1, t0, a0
	or	s1, s1, a5
	or	a1, a1, s1
	lui	s1, 16
	addi	s1, s1, -256
	slli	a0, a0, 24
	srli	a5, a5, 8
	and	s1, s1, a1
	srliw	a1, a1, 24
	or	a1, a1, a5
	slli	s1, s1, 8
	or	a0, a0, s1
	andi	a3, a3, 1
	or	t0, a0, a1
	beqz	a3, .LBB425a6_53
	zext.b	a0, a4
	bne	s8, a0, .LBB425a6_23
	li	t5, 0
	li	t6, 0
	li	s3, 5
	j	.LBB425a6_66
.LBB425a6_53:
	li	t6, 0
	li	a0, 21
	li	s3, 5
	beq	a2, a0, .LBB425a6_65
	li	a0, 37
	mv	t5, t6
	beq	a2, a0, .LBB425a6_66
	j	.LBB425a6_23
.LBB425a6_55:
	lbu	a3, 65(a1)
	lbu	a4, 66(a1)
	addi	a0, a2, -67
	slli	a3, a3, 8
	or	s6, a3, a4
	bltu	a0, s6, .LBB425a6_11
	li	a2, 254
	bgeu	s6, a2, .LBB425a6_11
	sd	t4, 120(sp)
	sd	s1, 128(sp)
	sd	t1, 136(sp)
	sd	a7, 144(sp)
	sd	t3, 152(sp)
	sd	t2, 160(sp)
	sd	t0, 168(sp)
	sd	ra, 192(sp)
	sd	t6, 176(sp)
	sd	t5, 184(sp)
	lbu	s1, 49(a1)
	lbu	a2, 50(a1)
	sd	a2, 88(sp)
	lbu	a2, 51(a1)
	sd	a2, 112(sp)
	lbu	a2, 52(a1)
	sd	a2, 104(sp)
	lbu	a2, 53(a1)
	sd	a2, 56(sp)
	lbu	a2, 54(a1)
	sd	a2, 8(sp)
	lbu	a2, 55(a1)
	sd	a2, 40(sp)
	lbu	a2, 56(a1)
	sd	a2, 32(sp)
	lbu	a2, 57(a1)
	sd	a2, 96(sp)
	lbu	a2, 58(a1)
	sd	a2, 64(sp)
	lbu	a2, 59(a1)
	sd	a2, 80(sp)
	lbu	a2, 60(a1)
	sd	a2, 72(sp)
	lbu	a2, 61(a1)
	sd	a2, 48(sp)
	lbu	a2, 62(a1)
	sd	a2, 0(sp)
	lbu	a2, 63(a1)
	sd	a2, 24(sp)
	lbu	a2, 64(a1)
	sd	a2, 16(sp)
	addi	a1, a1, 67
	sub	a2, a0, s6
	sd	a1, 304(sp)
	add	a1, a1, s6
	addi	a0, sp, 440
	call	gpsk_messages.fields.suite_field
	lbu	a0, 440(sp)
	li	a1, 1
	bne	a0, a1, .LBB425a6_11
	ld	a0, 464(sp)
	li	a1, 2
	bltu	a0, a1, .LBB425a6_11
	mv	a7, s5
	ld	a1, 456(sp)
	lbu	a2, 0(a1)
	lbu	a3, 1(a1)
	addi	a0, a0, -2
	slli	a2, a2, 8
	or	s5, a2, a3
	bltu	a0, s5, .LBB425a6_11
	mv	a6, s9
	lbu	a2, 448(sp)
	sub	s9, a0, s5
	beqz	a2, .LBB425a6_77
	li	a0, 32
	j	.LBB425a6_78
.LBB425a6_62:
	li	a0, 32
	beq	t6, a0, .LBB425a6_64
	li	a0, 16
	bne	t6, a0, .LBB425a6_23
.LBB425a6_64:
	li	t0, 0
	addi	a7, a1, 3
	add	t5, a7, s8
	li	s3, 3
	j	.LBB425a6_66
.LBB425a6_65:
	mv	t5, t6
.LBB425a6_66:
	li	a6, 0
	li	a2, 0
	li	a4, 0
	li	t4, 0
	li	t2, 0
	li	s11, 0
	li	s5, 0
	li	s2, 0
	li	s7, 0
	li	s6, 0
	li	t3, 0
	li	ra, 0
	li	t1, 0
	sd	zero, 440(sp)
	sd	zero, 448(sp)
	sw	zero, 472(sp)
	sh	zero, 476(sp)
	sb	zero, 478(sp)
.LBB425a6_67:
	addi	a0, s3, -2
	li	a1, 4
	bltu	a0, a1, .LBB425a6_71
	mv	a0, ra
	beqz	s3, .LBB425a6_70
	mv	a0, s11
.LBB425a6_70:
	li	a1, 120
	bltu	a1, a0, .LBB425a6_74
.LBB425a6_71:
	mv	a0, ra
	mv	ra, s3
	mv	s10, a4
	mv	s9, t2
	mv	s1, a2
	mv	s4, t4
	mv	t2, t1
	mv	t4, s11
	mv	t1, t3
	mv	s3, a0
	li	a4, 0
	li	t3, 0
	ld	a0, 440(sp)
	ld	a1, 448(sp)
	lw	a2, 472(sp)
	lh	a3, 476(sp)
	lbu	a5, 478(sp)
	sd	a0, 344(sp)
	sd	a1, 352(sp)
	sw	a2, 336(sp)
	sh	a3, 340(sp)
	sb	a5, 342(sp)
.LBB425a6_72:
	sd	a6, 216(sp)
	sd	t1, 304(sp)
	sd	s6, 224(sp)
	sd	s3, 232(sp)
	sd	s2, 240(sp)
	sd	s5, 288(sp)
	sd	t4, 280(sp)
	sd	s9, 248(sp)
	sd	s10, 256(sp)
	sd	s4, 264(sp)
	sd	s1, 272(sp)
	sd	s7, 296(sp)
	ld	a0, 344(sp)
	ld	a1, 352(sp)
	lw	a2, 336(sp)
	lh	a3, 340(sp)
	lbu	a5, 342(sp)
	sd	a0, 368(sp)
	sd	a1, 376(sp)
	sw	a2, 360(sp)
	sh	a3, 364(sp)
	sb	a5, 366(sp)
	mv	s11, t2
	mv	a1, t5
	mv	a0, ra
.LBB425a6_73:
	ld	a2, 368(sp)
	sd	a2, 200(sp)
	ld	a2, 376(sp)
	sd	a2, 208(sp)
	lw	a2, 360(sp)
	sd	a2, 192(sp)
	lh	ra, 364(sp)
	lbu	t4, 366(sp)
	sb	a4, 0(s0)
	sb	t3, 1(s0)
	sb	a0, 8(s0)
	sb	zero, 9(s0)
	srli	a5, t0, 24
	srli	s1, t0, 16
	srli	s9, t0, 8
	sb	t0, 12(s0)
	srli	t5, a7, 56
	srli	a2, a7, 48
	srli	s4, a7, 40
	srli	a6, a7, 32
	srli	s5, a7, 24
	srli	a0, a7, 16
	srli	s6, a7, 8
	srli	t0, s8, 56
	srli	a3, s8, 48
	srli	s7, s8, 40
	srli	s2, s8, 32
	srli	t1, s8, 24
	srli	s10, s8, 16
	srli	t2, s8, 8
	srli	t3, a1, 56
	srli	a4, a1, 48
	sb	zero, 11(s0)
	sb	zero, 10(s0)
	sb	s9, 13(s0)
	srli	s9, a1, 40
	sb	a0, 18(s0)
	srli	s3, a1, 32
	sb	s5, 19(s0)
	srli	s5, a1, 24
	sb	a6, 20(s0)
	srli	a6, a1, 16
	sb	s4, 21(s0)
	srli	s4, a1, 8
	sb	s1, 14(s0)
	sb	a5, 15(s0)
	sb	a7, 16(s0)
	sb	s6, 17(s0)
	srli	s6, t6, 56
	sb	s10, 26(s0)
	sb	t1, 27(s0)
	sb	s2, 28(s0)
	sb	s7, 29(s0)
	srli	s1, t6, 48
	sb	a2, 22(s0)
	sb	t5, 23(s0)
	sb	s8, 24(s0)
	sb	t2, 25(s0)
	srli	a0, t6, 40
	sb	a6, 34(s0)
	sb	s5, 35(s0)
	sb	s3, 36(s0)
	sb	s9, 37(s0)
	srli	a5, t6, 32
	sb	a3, 30(s0)
	sb	t0, 31(s0)
	sb	a1, 32(s0)
	sb	s4, 33(s0)
	srli	a1, t6, 24
	sb	s1, 46(s0)
	sb	s6, 47(s0)
	srli	a3, t6, 16
	sb	a3, 42(s0)
	sb	a1, 43(s0)
	sb	a5, 44(s0)
	sb	a0, 45(s0)
	srli	a0, t6, 8
	sb	a4, 38(s0)
	sb	t3, 39(s0)
	sb	t6, 40(s0)
	sb	a0, 41(s0)
	ld	a0, 200(sp)
	sd	a0, 320(sp)
	ld	a0, 208(sp)
	sd	a0, 328(sp)
	ld	a0, 192(sp)
	sw	a0, 312(sp)
	sh	ra, 316(sp)
	sb	t4, 318(sp)
	addi	a0, s0, 48
	addi	a1, sp, 320
	li	a2, 16
	call	memcpy
	srli	t1, s11, 56
	srli	t6, s11, 48
	srli	a3, s11, 40
	srli	a1, s11, 32
	srli	t2, s11, 24
	srli	t4, s11, 16
	srli	s6, s11, 8
	sb	s11, 64(s0)
	ld	a0, 232(sp)
	srli	a6, a0, 56
	srli	t3, a0, 48
	srli	s5, a0, 40
	srli	s7, a0, 32
	srli	t0, a0, 24
	srli	t5, a0, 16
	srli	s4, a0, 8
	ld	a5, 304(sp)
	srli	a7, a5, 56
	ld	a2, 216(sp)
	sb	a2, 128(s0)
	srli	s9, a5, 48
	sb	a1, 68(s0)
	srli	a1, a5, 40
	sb	a3, 69(s0)
	srli	a3, a5, 32
	sb	t6, 70(s0)
	srli	s8, a5, 24
	sb	t1, 71(s0)
	srli	a4, a5, 8
	sb	a5, 80(s0)
	srli	a5, a5, 16
	sb	s6, 65(s0)
	ld	a2, 224(sp)
	srli	t6, a2, 56
	sb	t4, 66(s0)
	srli	s6, a2, 48
	sb	t2, 67(s0)
	srli	s10, a2, 40
	sb	s7, 76(s0)
	srli	s1, a2, 32
	sb	s5, 77(s0)
	srli	s5, a2, 24
	sb	t3, 78(s0)
	srli	ra, a2, 8
	sb	a2, 88(s0)
	srli	s7, a2, 16
	sb	a6, 79(s0)
	sb	a0, 72(s0)
	sb	s4, 73(s0)
	sb	t5, 74(s0)
	lbu	a0, 312(sp)
	sd	a0, 304(sp)
	lbu	t1, 313(sp)
	lbu	t2, 314(sp)
	lbu	t3, 315(sp)
	sb	t0, 75(s0)
	sb	a3, 84(s0)
	sb	a1, 85(s0)
	lbu	t0, 316(sp)
	lbu	t4, 317(sp)
	lbu	t5, 318(sp)
	sb	s9, 86(s0)
	ld	a0, 240(sp)
	srli	a6, a0, 56
	sb	a7, 87(s0)
	srli	a3, a0, 48
	sb	a4, 81(s0)
	srli	a4, a0, 40
	sb	a5, 82(s0)
	srli	a5, a0, 32
	sb	s8, 83(s0)
	srli	a7, a0, 24
	sb	s1, 92(s0)
	srli	a2, a0, 8
	sb	a0, 104(s0)
	srli	a0, a0, 16
	sb	s10, 93(s0)
	ld	s1, 288(sp)
	srli	s8, s1, 56
	sb	s6, 94(s0)
	srli	s6, s1, 48
	sb	t6, 95(s0)
	srli	s9, s1, 40
	sb	ra, 89(s0)
	srli	a1, s1, 32
	sb	s7, 90(s0)
	srli	s7, s1, 24
	sb	s5, 91(s0)
	srli	s5, s1, 8
	sb	s1, 112(s0)
	srli	s10, s1, 16
	sb	a5, 108(s0)
	ld	a5, 280(sp)
	srli	t6, a5, 56
	sb	a4, 109(s0)
	srli	s4, a5, 48
	sb	a3, 110(s0)
	srli	s2, a5, 40
	sb	a6, 111(s0)
	srli	a3, a5, 32
	sb	a2, 105(s0)
	srli	ra, a5, 24
	sb	a0, 106(s0)
	srli	a2, a5, 8
	sb	a5, 120(s0)
	srli	a0, a5, 16
	sb	zero, 132(s0)
	sb	zero, 133(s0)
	sb	zero, 134(s0)
	sb	zero, 135(s0)
	sb	zero, 129(s0)
	sb	zero, 130(s0)
	sb	zero, 131(s0)
	sb	a7, 107(s0)
	ld	a4, 248(sp)
	srli	a7, a4, 56
	sb	a1, 116(s0)
	srli	a6, a4, 48
	sb	s9, 117(s0)
	srli	s9, a4, 40
	sb	s6, 118(s0)
	srli	a5, a4, 32
	sb	s8, 119(s0)
	srli	s6, a4, 24
	sb	s5, 113(s0)
	srli	s5, a4, 16
	sb	s10, 114(s0)
	srli	s8, a4, 8
	sb	zero, 148(s0)
	sb	zero, 149(s0)
	sb	zero, 150(s0)
	sb	zero, 151(s0)
	sb	s7, 115(s0)
	ld	s1, 264(sp)
	srli	s7, s1, 8
	sb	a3, 124(s0)
	ld	a1, 256(sp)
	srli	s10, a1, 56
	sb	s2, 125(s0)
	srli	s2, a1, 48
	sb	s4, 126(s0)
	srli	s3, a1, 40
	sb	t6, 127(s0)
	srli	a3, a1, 32
	sb	a2, 121(s0)
	srli	t6, a1, 24
	sb	a0, 122(s0)
	srli	s11, a1, 16
	sb	ra, 123(s0)
	srli	a2, a1, 8
	sb	a5, 140(s0)
	ld	a0, 272(sp)
	srli	s4, a0, 56
	sb	s9, 141(s0)
	srli	s9, a0, 48
	sb	a6, 142(s0)
	srli	ra, a0, 40
	sb	a7, 143(s0)
	srli	a5, a0, 32
	sb	a4, 136(s0)
	sb	s8, 137(s0)
	sb	s5, 138(s0)
	sb	s6, 139(s0)
	srli	a7, a0, 24
	sb	a3, 156(s0)
	sb	s3, 157(s0)
	sb	s2, 158(s0)
	sb	s10, 159(s0)
	srli	a4, a0, 16
	sb	a1, 152(s0)
	sb	a2, 153(s0)
	sb	s11, 154(s0)
	sb	t6, 155(s0)
	srli	a3, a0, 8
	sb	s1, 144(s0)
	sb	s7, 145(s0)
	sb	zero, 146(s0)
	sb	zero, 147(s0)
	sb	a5, 164(s0)
	sb	ra, 165(s0)
	sb	s9, 166(s0)
	sb	s4, 167(s0)
	ld	a2, 296(sp)
	sb	a2, 96(s0)
	ld	a1, 304(sp)
	sb	a1, 97(s0)
	sb	t1, 98(s0)
	sb	t2, 99(s0)
	sb	t3, 100(s0)
	sb	t0, 101(s0)
	sb	t4, 102(s0)
	sb	t5, 103(s0)
	sb	a0, 160(s0)
	sb	a3, 161(s0)
	sb	a4, 162(s0)
	sb	a7, 163(s0)
	ld	ra, 584(sp)
	ld	s0, 576(sp)
	ld	s1, 568(sp)
	ld	s2, 560(sp)
	ld	s3, 552(sp)
	ld	s4, 544(sp)
	ld	s5, 536(sp)
	ld	s6, 528(sp)
	ld	s7, 520(sp)
	ld	s8, 512(sp)
	ld	s9, 504(sp)
	ld	s10, 496(sp)
	ld	s11, 488(sp)
	addi	sp, sp, 592
	ret
.LBB425a6_74:
	li	a7, 0
	li	s8, 0
	li	t5, 0
	li	t6, 0
	li	t2, 0
	li	s3, 0
	li	t1, 0
	li	s6, 0
	li	s7, 0
	li	s2, 0
	li	s5, 0
	li	t4, 0
	li	a6, 0
	li	s9, 0
	li	s4, 0
	li	s10, 0
	li	s1, 0
	li	ra, 0
	li	t0, 0
	li	t3, 20
	li	a4, 1
	j	.LBB425a6_72
.LBB425a6_75:
	li	t5, 0
	li	t6, 0
	li	t1, 0
	li	ra, 0
	li	a7, 0
	li	s8, 0
	li	t0, 0
.LBB425a6_76:
	ld	a0, 440(sp)
	ld	a1, 448(sp)
	sd	a0, 392(sp)
	sd	a1, 400(sp)
	j	.LBB425a6_5
.LBB425a6_77:
	li	a0, 16
.LBB425a6_78:
	ld	t0, 192(sp)
	bne	s9, a0, .LBB425a6_80
	ld	a0, 216(sp)
	slli	a0, a0, 8
	ld	a3, 296(sp)
	or	a0, a0, a3
	sd	a0, 216(sp)
	ld	a0, 256(sp)
	slli	a0, a0, 16
	ld	a3, 248(sp)
	slli	a3, a3, 24
	or	a0, a0, a3
	sd	a0, 256(sp)
	ld	a0, 224(sp)
	slli	a0, a0, 8
	ld	a3, 264(sp)
	or	a0, a0, a3
	sd	a0, 264(sp)
	ld	a0, 240(sp)
	slli	a0, a0, 16
	ld	a5, 232(sp)
	slli	a5, a5, 24
	or	t1, a5, a0
	slli	s11, s11, 8
	ld	a0, 200(sp)
	or	a0, s11, a0
	sd	a0, 248(sp)
	slli	s4, s4, 16
	slli	s7, s7, 24
	sd	a2, 296(sp)
	or	t2, s7, s4
	mv	a2, s1
	slli	s1, s2, 8
	or	t4, s1, s8
	slli	s3, s3, 16
	slli	s10, s10, 24
	or	t3, s10, s3
	ld	a5, 8(sp)
	slli	a5, a5, 8
	ld	a0, 56(sp)
	or	t6, a5, a0
	ld	a0, 40(sp)
	slli	a0, a0, 16
	ld	a3, 32(sp)
	slli	a3, a3, 24
	or	s2, a3, a0
	ld	a3, 0(sp)
	slli	a3, a3, 8
	ld	a0, 48(sp)
	or	s3, a3, a0
	ld	s1, 24(sp)
	slli	s1, s1, 16
	ld	a4, 16(sp)
	slli	a4, a4, 24
	or	s4, a4, s1
	ld	s1, 176(sp)
	slli	s1, s1, 8
	or	s7, s1, a6
	slli	a5, a7, 16
	ld	a0, 184(sp)
	slli	a0, a0, 24
	or	s8, a0, a5
	ld	a5, 272(sp)
	slli	a5, a5, 8
	or	s10, a5, t0
	ld	a3, 288(sp)
	slli	a3, a3, 16
	ld	a4, 280(sp)
	slli	a4, a4, 24
	or	s11, a4, a3
	ld	a4, 208(sp)
	slli	a4, a4, 8
	ld	a0, 168(sp)
	or	ra, a4, a0
	ld	s1, 160(sp)
	slli	s1, s1, 16
	ld	a0, 152(sp)
	slli	a0, a0, 24
	or	t5, a0, s1
	ld	s1, 120(sp)
	slli	s1, s1, 8
	ld	a0, 144(sp)
	or	a7, s1, a0
	ld	a5, 136(sp)
	slli	a5, a5, 16
	ld	a3, 128(sp)
	slli	a3, a3, 24
	or	a3, a3, a5
	ld	a5, 88(sp)
	slli	a5, a5, 8
	or	a5, a5, a2
	ld	a4, 112(sp)
	slli	a4, a4, 16
	ld	a6, 104(sp)
	slli	a6, a6, 24
	or	a6, a6, a4
	ld	a0, 64(sp)
	slli	a0, a0, 8
	ld	a2, 96(sp)
	or	a0, a0, a2
	ld	a4, 80(sp)
	slli	a4, a4, 16
	ld	t0, 72(sp)
	slli	t0, t0, 24
	or	a4, t0, a4
	ld	a2, 216(sp)
	ld	s1, 256(sp)
	or	t0, s1, a2
	ld	a2, 264(sp)
	or	t1, t1, a2
	ld	a2, 248(sp)
	or	t2, t2, a2
	or	t3, t3, t4
	or	t4, s2, t6
	or	a2, s4, s3
	or	t6, s8, s7
	or	s2, s11, s10
	or	s3, t5, ra
	or	a3, a3, a7
	or	a5, a6, a5
	or	a0, a0, a4
	slli	t0, t0, 32
	or	a7, t0, t6
	slli	t1, t1, 32
	or	s8, t1, s2
	slli	t2, t2, 32
	or	t2, t2, s3
	addi	s2, a1, 2
	slli	t3, t3, 32
	slli	t4, t4, 32
	or	t6, t3, a3
	ld	s7, 296(sp)
	or	t1, t4, a5
	ld	a1, 472(sp)
	ld	a3, 480(sp)
	sw	zero, 416(sp)
	sh	zero, 420(sp)
	sb	zero, 422(sp)
	slli	t5, a2, 32
	or	ra, t5, a0
	li	s3, 2
	sd	a1, 424(sp)
	add	s11, s2, s5
	sd	a3, 432(sp)
	li	t0, 1
	ld	t3, 304(sp)
	j	.LBB425a6_81
.LBB425a6_80:
	li	a7, 0
	li	s8, 0
	li	t2, 0
	li	t6, 0
	li	t1, 0
	li	ra, 0
	li	s2, 0
	li	s5, 0
	li	t3, 0
	li	s6, 0
	li	s7, 0
	li	s11, 0
	li	s9, 0
	li	t0, 0
	li	s3, 0
.LBB425a6_81:
	ld	a0, 424(sp)
	ld	a1, 432(sp)
	lw	a3, 416(sp)
	lh	a5, 420(sp)
	lbu	s1, 422(sp)
	sd	a0, 392(sp)
	sd	a1, 400(sp)
	sw	a3, 384(sp)
	sh	a5, 388(sp)
	sb	s1, 390(sp)
	mv	t5, t2
	j	.LBB425a6_12
.LBB425a6_82:
	li	a1, 16
.LBB425a6_83:
	ld	a2, 272(sp)
	bne	a2, a1, .LBB425a6_85
	ld	a1, 160(sp)
	slli	a1, a1, 8
	ld	a2, 232(sp)
	or	a1, a1, a2
	sd	a1, 232(sp)
	ld	a3, 216(sp)
	slli	a3, a3, 16
	ld	a4, 208(sp)
	slli	a4, a4, 24
	or	a3, a3, a4
	sd	a3, 216(sp)
	ld	a4, 184(sp)
	slli	a4, a4, 8
	ld	a1, 224(sp)
	or	t0, a4, a1
	ld	a5, 200(sp)
	slli	a5, a5, 16
	ld	a1, 192(sp)
	slli	a1, a1, 24
	or	t1, a1, a5
	slli	s4, s4, 8
	ld	a1, 152(sp)
	or	t2, s4, a1
	slli	s6, s6, 16
	slli	s3, s3, 24
	or	t3, s3, s6
	slli	s1, s5, 8
	or	a2, s1, s8
	slli	s2, s2, 16
	slli	s10, s10, 24
	or	t5, s10, s2
	ld	a1, 16(sp)
	slli	a1, a1, 8
	ld	a3, 40(sp)
	or	t6, a1, a3
	ld	a5, 32(sp)
	slli	a5, a5, 16
	ld	a3, 24(sp)
	slli	a3, a3, 24
	or	s2, a3, a5
	ld	a5, 96(sp)
	slli	a5, a5, 8
	or	s3, a5, s11
	ld	s1, 112(sp)
	slli	s1, s1, 16
	ld	a4, 104(sp)
	slli	a4, a4, 24
	or	s4, a4, s1
	ld	s1, 264(sp)
	slli	s1, s1, 8
	ld	a1, 88(sp)
	or	s5, s1, a1
	ld	a1, 80(sp)
	slli	a1, a1, 16
	ld	a3, 304(sp)
	slli	a3, a3, 24
	or	s6, a3, a1
	ld	a3, 240(sp)
	slli	a3, a3, 8
	ld	a1, 296(sp)
	or	s8, a3, a1
	ld	a5, 256(sp)
	slli	a5, a5, 16
	ld	a4, 248(sp)
	slli	a4, a4, 24
	or	s10, a4, a5
	ld	a5, 168(sp)
	slli	a5, a5, 8
	ld	a1, 72(sp)
	or	ra, a5, a1
	ld	s1, 64(sp)
	slli	s1, s1, 16
	ld	a1, 176(sp)
	slli	a1, a1, 24
	or	a1, a1, s1
	ld	s1, 48(sp)
	slli	s1, s1, 8
	or	s1, s1, a6
	slli	a3, a7, 16
	ld	a4, 56(sp)
	slli	a4, a4, 24
	or	a3, a3, a4
	ld	a4, 232(sp)
	ld	a5, 216(sp)
	or	a4, a4, a5
	or	t1, t1, t0
	or	a6, t3, t2
	or	a7, t5, a2
	or	t0, s2, t6
	or	a5, s4, s3
	or	t2, s6, s5
	or	t3, s10, s8
	or	a1, a1, ra
	or	a3, a3, s1
	slli	a4, a4, 32
	or	s3, a4, a5
	slli	t1, t1, 32
	or	t1, t1, t2
	slli	a6, a6, 32
	slli	a7, a7, 32
	or	t2, a6, t3
	or	s6, a7, a1
	ld	a1, 472(sp)
	ld	a4, 480(sp)
	slli	t0, t0, 32
	or	s2, t0, a3
	lw	a3, 416(sp)
	sd	a1, 424(sp)
	sd	a4, 432(sp)
	lh	a1, 420(sp)
	lbu	a4, 422(sp)
	sw	a3, 408(sp)
	addi	a0, a0, 2
	sh	a1, 412(sp)
	mv	s4, a0
	add	s10, a0, t4
	sb	a4, 414(sp)
	li	t0, 1
	j	.LBB425a6_86
.LBB425a6_85:
	li	s3, 0
	li	t1, 0
	li	t2, 0
	li	s6, 0
	li	s7, 0
	li	s2, 0
	li	s4, 0
	li	t4, 0
	sd	zero, 288(sp)
	sd	zero, 280(sp)
	sd	zero, 144(sp)
	sd	zero, 136(sp)
	sd	zero, 128(sp)
	sd	zero, 120(sp)
	li	s9, 0
	li	s10, 0
	sd	zero, 272(sp)
	li	t0, 0
.LBB425a6_86:
	ld	a0, 424(sp)
	ld	a1, 432(sp)
	lw	a3, 408(sp)
	lh	a5, 412(sp)
	lbu	s1, 414(sp)
	sd	a0, 392(sp)
	sd	a1, 400(sp)
	sw	a3, 384(sp)
	sh	a5, 388(sp)
	sb	s1, 390(sp)
	ld	s8, 120(sp)
	ld	a7, 128(sp)
	ld	t5, 144(sp)
	ld	t6, 136(sp)
	mv	ra, t1
	ld	s5, 288(sp)
	mv	t3, t2
	ld	s11, 280(sp)
	mv	t1, s3
	mv	s3, t0
	ld	a2, 272(sp)
	mv	t2, s4
	mv	a4, s10
	j	.LBB425a6_19
.Lfunc_end425a6:
	.size	gpsk_messages.reading.read_gpsk_message, .Lfunc_end425a6-gpsk_messages.reading.read_gpsk_message
	.section	".rodata.gpsk_messages::reading::read_gpsk_message","a",@progbits
	.p2align	2, 0x0
.LJTI425a6_0:
	.word	.LBB425a6_3-.LJTI425a6_0
	.word	.LBB425a6_17-.LJTI425a6_0
	.word	.LBB425a6_8-.LJTI425a6_0
	.word	.LBB425a6_13-.LJTI425a6_0
	.word	.LBB425a6_6-.LJTI425a6_0
	.word	.LBB425a6_22-.LJTI425a6_0

	.section	".text.gpsk_messages::fields::suite_field","ax",@progbits
	.p2align	1
	.type	gpsk_messages.fields.suite_field,@function
gpsk_messages.fields.suite_field:
	addi	sp, sp, -48
	sd	s0, 40(sp)
	sd	s1, 32(sp)
	sd	s2, 24(sp)
	sd	s3, 16(sp)
	sd	s4, 8(sp)
	li	a3, 6
	sw	zero, 0(sp)
	sh	zero, 4(sp)
	sb	zero, 6(sp)
	bltu	a2, a3, .LBBe6faf_6
	lbu	a3, 0(a1)
	bnez	a3, .LBBe6faf_6
	lbu	a3, 1(a1)
	bnez	a3, .LBBe6faf_6
	lbu	a3, 2(a1)
	bnez	a3, .LBBe6faf_6
	lbu	a3, 3(a1)
	bnez	a3, .LBBe6faf_6
	lbu	a3, 4(a1)
	beqz	a3, .LBBe6faf_8
.LBBe6faf_6:
	li	a6, 0
	li	a4, 0
	li	a2, 0
	li	a1, 0
.LBBe6faf_7:
	sb	zero, 4(a0)
	sb	zero, 5(a0)
	sb	zero, 6(a0)
	sb	zero, 7(a0)
	sb	a4, 0(a0)
	sb	zero, 1(a0)
	sb	zero, 2(a0)
	sb	zero, 3(a0)
	lbu	a7, 0(sp)
	lbu	t1, 1(sp)
	lbu	t2, 2(sp)
	lbu	t0, 3(sp)
	lbu	t3, 4(sp)
	lbu	t4, 5(sp)
	lbu	t5, 6(sp)
	srli	t6, a1, 56
	srli	s4, a1, 48
	srli	a3, a1, 40
	srli	a4, a1, 32
	srli	s2, a1, 24
	srli	s1, a1, 16
	srli	s0, a1, 8
	srli	s3, a2, 56
	srli	a5, a2, 48
	sb	a4, 20(a0)
	sb	a3, 21(a0)
	sb	s4, 22(a0)
	sb	t6, 23(a0)
	srli	a3, a2, 40
	sb	a1, 16(a0)
	sb	s0, 17(a0)
	sb	s1, 18(a0)
	sb	s2, 19(a0)
	srli	a1, a2, 32
	sb	a1, 28(a0)
	sb	a3, 29(a0)
	sb	a5, 30(a0)
	sb	s3, 31(a0)
	srli	a1, a2, 24
	sb	a6, 8(a0)
	sb	a7, 9(a0)
	sb	t1, 10(a0)
	sb	t2, 11(a0)
	srli	a3, a2, 16
	sb	t0, 12(a0)
	sb	t3, 13(a0)
	sb	t4, 14(a0)
	sb	t5, 15(a0)
	srli	a4, a2, 8
	sb	a2, 24(a0)
	sb	a4, 25(a0)
	sb	a3, 26(a0)
	sb	a1, 27(a0)
	ld	s0, 40(sp)
	ld	s1, 32(sp)
	ld	s2, 24(sp)
	ld	s3, 16(sp)
	ld	s4, 8(sp)
	addi	sp, sp, 48
	ret
.LBBe6faf_8:
	lbu	a3, 5(a1)
	li	a4, 1
	beq	a3, a4, .LBBe6faf_11
	li	a5, 2
	bne	a3, a5, .LBBe6faf_13
	li	a6, 1
	j	.LBBe6faf_12
.LBBe6faf_11:
	li	a6, 0
.LBBe6faf_12:
	addi	a2, a2, -6
	addi	a1, a1, 6
	j	.LBBe6faf_7
.LBBe6faf_13:
	li	a2, 32
	li	a1, 0
	ld	s0, 40(sp)
	ld	s1, 32(sp)
	ld	s2, 24(sp)
	ld	s3, 16(sp)
	ld	s4, 8(sp)
	addi	sp, sp, 48
	tail	memset
.Lfunc_ende6faf:
	.size	gpsk_messages.fields.suite_field, .Lfunc_ende6faf-gpsk_messages.fields.suite_field

	.section	".text.login_policy::policy::is_allowed","ax",@progbits
	.p2align	1
	.type	login_policy.policy.is_allowed,@function
login_policy.policy.is_allowed:
	addi	sp, sp, -32
	sd	ra, 24(sp)
	sd	s0, 16(sp)
	sd	s1, 8(sp)
	zext.b	a3, a3
	li	a4, 6
	snez	s0, a3
	addi	s0, s0, 1
	sw	zero, 0(sp)
	sb	zero, 4(sp)
	sb	s0, 5(sp)
	bne	a2, a4, .LBB732b1_9
	mv	a2, a0
	lbu	a3, 0(a1)
	lbu	a4, 0(sp)
	li	a0, 0
	bne	a3, a4, .LBB732b1_10
	lbu	a3, 1(a1)
	lbu	a4, 1(sp)
	bne	a3, a4, .LBB732b1_10
	lbu	a3, 2(a1)
	lbu	a4, 2(sp)
	bne	a3, a4, .LBB732b1_10
	lbu	a3, 3(a1)
	lbu	a4, 3(sp)
	bne	a3, a4, .LBB732b1_10
	mv	s1, a2
	mv	a0, a1
	li	a1, 6
	mv	a2, sp
	li	a3, 6
	call	core.cmp.slices.groups_equal._i8_31_core.cmp.numbers.U8PartialEq___
	beqz	a0, .LBB732b1_10
	mv	a2, s1
	ld	a1, 8(s1)
.LBB732b1_7:
	snez	a0, a1
	beqz	a1, .LBB732b1_10
	lbu	a3, 0(a2)
	addi	a2, a2, 1
	addi	a1, a1, -1
	bne	a3, s0, .LBB732b1_7
	j	.LBB732b1_10
.LBB732b1_9:
	li	a0, 0
.LBB732b1_10:
	ld	ra, 24(sp)
	ld	s0, 16(sp)
	ld	s1, 8(sp)
	addi	sp, sp, 32
	ret
.Lfunc_end732b1:
	.size	login_policy.policy.is_allowed, .Lfunc_end732b1-login_policy.policy.is_allowed

	.section	".text.login_keys::gpsk::gpsk_keys","ax",@progbits
	.p2align	1
	.type	login_keys.gpsk.gpsk_keys,@function
login_keys.gpsk.gpsk_keys:
	addi	sp, sp, -1504
	sd	ra, 1496(sp)
	sd	s0, 1488(sp)
	sd	s1, 1480(sp)
	sd	s2, 1472(sp)
	sd	s3, 1464(sp)
	sd	s4, 1456(sp)
	sd	s5, 1448(sp)
	sd	s6, 1440(sp)
	sd	s7, 1432(sp)
	sd	s8, 1424(sp)
	sd	s9, 1416(sp)
	sd	s10, 1408(sp)
	sd	s11, 1400(sp)
	mv	s4, t4
	mv	s5, t3
	mv	s6, a7
	mv	s7, a6
	mv	s8, a5
	mv	s9, a4
	mv	s0, a3
	mv	s3, a2
	mv	s10, a1
	mv	s2, a0
	zext.b	s11, a1
	addi	a0, sp, 1168
	li	a2, 232
	li	a1, 0
	call	memset
	sd	zero, 480(sp)
	sd	zero, 488(sp)
	sd	zero, 496(sp)
	sd	zero, 504(sp)
	sd	zero, 512(sp)
	addi	a0, sp, 264
	li	a2, 216
	li	a1, 0
	call	memset
	sd	zero, 224(sp)
	sd	zero, 232(sp)
	sd	zero, 240(sp)
	sd	zero, 248(sp)
	sd	zero, 256(sp)
	addi	a0, sp, 8
	li	a2, 216
	li	a1, 0
	call	memset
	addi	s1, sp, 528
	li	a2, 640
	mv	a0, s1
	li	a1, 0
	call	memset
	slli	a0, s0, 8
	slli	a1, s0, 48
	srli	a1, a1, 56
	or	a0, a0, a1
	li	a1, 256
	sh	a1, 524(sp)
	sh	a0, 526(sp)
	mv	a0, s1
	mv	a1, s3
	mv	a2, s0
	call	memcpy
	snez	a0, s11
	addi	s11, sp, 524
	addi	a0, a0, 1
	add	a1, s11, s0
	sb	zero, 4(a1)
	sb	zero, 5(a1)
	sb	zero, 6(a1)
	sb	zero, 7(a1)
	sb	zero, 8(a1)
	sb	a0, 9(a1)
	addi	a0, a1, 10
	li	a2, 32
	mv	a1, s9
	call	memcpy
	addi	s1, s0, 42
	add	a0, s11, s1
	mv	a1, s8
	mv	a2, s7
	call	memcpy
	add	s1, s1, s7
	add	a0, s11, s1
	li	a2, 32
	mv	a1, s6
	call	memcpy
	addi	s1, s1, 32
	add	a0, s11, s1
	mv	a1, s5
	mv	a2, s4
	call	memcpy
	add	s4, s4, s1
	addi	a0, sp, 224
	addi	a3, sp, 524
	mv	a1, s10
	mv	a2, s3
	mv	a4, s4
	call	login_keys.gpsk.master_key
	ld	a0, 224(sp)
	ld	a1, 232(sp)
	ld	a2, 240(sp)
	ld	a4, 248(sp)
	ld	a3, 256(sp)
	sd	a0, 480(sp)
	sd	a1, 488(sp)
	sd	a2, 496(sp)
	sd	a4, 504(sp)
	sd	a3, 512(sp)
	addi	a0, sp, 8
	addi	a2, sp, 480
	mv	a1, s10
	call	login_keys.gpsk.mac_key.MacKey.new
	lbu	a1, 8(sp)
	addi	a0, sp, 265
	sb	a1, 264(sp)
	addi	a1, sp, 9
	li	a2, 215
	call	memcpy
	addi	s0, s0, 8
	add	a4, s11, s0
	sub	a5, s4, s0
	addi	a0, sp, 1168
	addi	a2, sp, 480
	addi	a3, sp, 264
	mv	a1, s10
	call	login_keys.gpsk.derive_keys
	addi	a1, sp, 1168
	li	a2, 232
	mv	a0, s2
	call	memcpy
	ld	ra, 1496(sp)
	ld	s0, 1488(sp)
	ld	s1, 1480(sp)
	ld	s2, 1472(sp)
	ld	s3, 1464(sp)
	ld	s4, 1456(sp)
	ld	s5, 1448(sp)
	ld	s6, 1440(sp)
	ld	s7, 1432(sp)
	ld	s8, 1424(sp)
	ld	s9, 1416(sp)
	ld	s10, 1408(sp)
	ld	s11, 1400(sp)
	addi	sp, sp, 1504
	ret
.Lfunc_end41f0b:
	.size	login_keys.gpsk.gpsk_keys, .Lfunc_end41f0b-login_keys.gpsk.gpsk_keys

	.section	".text.login_keys::gpsk::master_key","ax",@progbits
	.p2align	1
	.type	login_keys.gpsk.master_key,@function
login_keys.gpsk.master_key:
	addi	sp, sp, -320
	sd	ra, 312(sp)
	sd	s0, 304(sp)
	sd	s1, 296(sp)
	sd	s2, 288(sp)
	sd	s3, 280(sp)
	sd	s4, 272(sp)
	mv	s2, a4
	mv	s1, a3
	mv	a3, a2
	zext.b	a1, a1
	mv	s0, a0
	addi	a0, sp, 32
	beqz	a1, .LBB70083_2
	li	a2, 32
	li	s4, 32
	mv	a1, a3
	call	hmac_mac.HmacKey.new
	addi	s3, sp, 136
	addi	a0, sp, 240
	addi	a1, sp, 32
	mv	a2, s1
	mv	a3, s2
	call	hmac_mac.digest_after
	mv	a0, sp
	addi	a2, sp, 240
	li	a3, 32
	mv	a1, s3
	call	hmac_mac.digest_after
	j	.LBB70083_3
.LBB70083_2:
	mv	a1, a3
	call	cmac_mac.key.CmacKey.new
	mv	a0, sp
	addi	a1, sp, 32
	mv	a2, s1
	mv	a3, s2
	call	cmac_mac.key.CmacKey.tag_whole
	sd	zero, 16(sp)
	sd	zero, 24(sp)
	li	s4, 16
.LBB70083_3:
	mv	a1, sp
	li	a2, 32
	mv	a0, s0
	call	memcpy
	sb	zero, 36(s0)
	sb	zero, 37(s0)
	sb	zero, 38(s0)
	sb	zero, 39(s0)
	sb	s4, 32(s0)
	sb	zero, 33(s0)
	sb	zero, 34(s0)
	sb	zero, 35(s0)
	ld	ra, 312(sp)
	ld	s0, 304(sp)
	ld	s1, 296(sp)
	ld	s2, 288(sp)
	ld	s3, 280(sp)
	ld	s4, 272(sp)
	addi	sp, sp, 320
	ret
.Lfunc_end70083:
	.size	login_keys.gpsk.master_key, .Lfunc_end70083-login_keys.gpsk.master_key

	.section	".text.cmac_mac::key::CmacKey::tag_whole","ax",@progbits
	.p2align	1
	.type	cmac_mac.key.CmacKey.tag_whole,@function
cmac_mac.key.CmacKey.tag_whole:
	addi	sp, sp, -240
	sd	ra, 232(sp)
	sd	s0, 224(sp)
	sd	s1, 216(sp)
	sd	s2, 208(sp)
	sd	s3, 200(sp)
	sd	s4, 192(sp)
	sd	s5, 184(sp)
	sd	s6, 176(sp)
	sd	s7, 168(sp)
	sd	s8, 160(sp)
	sd	s9, 152(sp)
	sd	s10, 144(sp)
	sd	s11, 136(sp)
	mv	a5, a2
	mv	s2, a1
	mv	s0, a0
	sd	zero, 80(sp)
	sd	zero, 88(sp)
	snez	a0, a3
	sub	a4, a3, a0
	andi	a0, a4, -16
	srli	a4, a4, 4
	add	s3, a2, a0
	sub	s1, a3, a0
	sd	zero, 64(sp)
	sd	zero, 72(sp)
	addi	a0, sp, 80
	addi	a2, sp, 64
	mv	a3, a5
	call	cmac_mac.taken.chain_blocks
	lbu	s8, 80(sp)
	lbu	s9, 81(sp)
	lbu	s10, 82(sp)
	lbu	s11, 83(sp)
	lbu	s4, 84(sp)
	lbu	s5, 85(sp)
	lbu	s6, 86(sp)
	lbu	s7, 87(sp)
	lbu	a0, 88(sp)
	sd	a0, 24(sp)
	lbu	a0, 89(sp)
	sd	a0, 16(sp)
	lbu	a0, 90(sp)
	sd	a0, 8(sp)
	lbu	a0, 91(sp)
	sd	a0, 0(sp)
	lbu	a0, 92(sp)
	sd	a0, 56(sp)
	lbu	a0, 93(sp)
	sd	a0, 48(sp)
	lbu	a0, 94(sp)
	sd	a0, 40(sp)
	lbu	a0, 95(sp)
	sd	a0, 32(sp)
	sd	zero, 112(sp)
	sd	zero, 120(sp)
	addi	a0, sp, 112
	mv	a1, s3
	mv	a2, s1
	call	memcpy
	ld	a0, 112(sp)
	ld	a1, 120(sp)
	sd	a0, 64(sp)
	sd	a1, 72(sp)
	addi	a0, sp, 80
	addi	a2, sp, 64
	mv	a1, s2
	mv	a3, s1
	call	cmac_mac.key.CmacKey.last_block
	lbu	a0, 80(sp)
	lbu	a1, 81(sp)
	lbu	a2, 82(sp)
	lbu	a3, 83(sp)
	xor	a6, a0, s8
	xor	a7, a1, s9
	xor	t0, a2, s10
	xor	t1, a3, s11
	lbu	a4, 84(sp)
	lbu	a5, 85(sp)
	lbu	s1, 86(sp)
	lbu	a0, 87(sp)
	xor	t3, a4, s4
	xor	t4, a5, s5
	xor	t5, s1, s6
	xor	t2, a0, s7
	lbu	a1, 88(sp)
	lbu	a2, 89(sp)
	lbu	a3, 90(sp)
	lbu	a0, 91(sp)
	ld	a4, 24(sp)
	xor	s3, a1, a4
	ld	a1, 16(sp)
	xor	a2, a2, a1
	ld	a1, 8(sp)
	xor	a3, a3, a1
	ld	a1, 0(sp)
	xor	t6, a0, a1
	lbu	a1, 92(sp)
	lbu	a5, 93(sp)
	lbu	s1, 94(sp)
	lbu	a0, 95(sp)
	ld	a4, 56(sp)
	xor	a4, a4, a1
	ld	a1, 48(sp)
	xor	a5, a5, a1
	ld	a1, 40(sp)
	xor	s1, s1, a1
	ld	a1, 32(sp)
	xor	a0, a0, a1
	sb	a4, 108(sp)
	sb	a5, 109(sp)
	sb	s1, 110(sp)
	sb	a0, 111(sp)
	sb	s3, 104(sp)
	sb	a2, 105(sp)
	sb	a3, 106(sp)
	sb	t6, 107(sp)
	sb	t3, 100(sp)
	sb	t4, 101(sp)
	sb	t5, 102(sp)
	sb	t2, 103(sp)
	sb	a6, 96(sp)
	sb	a7, 97(sp)
	sb	t0, 98(sp)
	sb	t1, 99(sp)
	sd	zero, 112(sp)
	sd	zero, 120(sp)
	addi	a0, sp, 112
	addi	a2, sp, 96
	mv	a1, s2
	call	aes_block.Aes128.encrypt_block
	lbu	a6, 124(sp)
	lbu	a7, 125(sp)
	lbu	t0, 126(sp)
	lbu	t1, 127(sp)
	lbu	t3, 120(sp)
	lbu	t4, 121(sp)
	lbu	t5, 122(sp)
	lbu	t2, 123(sp)
	lbu	a1, 116(sp)
	lbu	a2, 117(sp)
	lbu	a3, 118(sp)
	lbu	t6, 119(sp)
	lbu	a4, 112(sp)
	lbu	a5, 113(sp)
	lbu	s1, 114(sp)
	lbu	a0, 115(sp)
	sb	a4, 0(s0)
	sb	a5, 1(s0)
	sb	s1, 2(s0)
	sb	a0, 3(s0)
	sb	a1, 4(s0)
	sb	a2, 5(s0)
	sb	a3, 6(s0)
	sb	t6, 7(s0)
	sb	t3, 8(s0)
	sb	t4, 9(s0)
	sb	t5, 10(s0)
	sb	t2, 11(s0)
	sb	a6, 12(s0)
	sb	a7, 13(s0)
	sb	t0, 14(s0)
	sb	t1, 15(s0)
	ld	ra, 232(sp)
	ld	s0, 224(sp)
	ld	s1, 216(sp)
	ld	s2, 208(sp)
	ld	s3, 200(sp)
	ld	s4, 192(sp)
	ld	s5, 184(sp)
	ld	s6, 176(sp)
	ld	s7, 168(sp)
	ld	s8, 160(sp)
	ld	s9, 152(sp)
	ld	s10, 144(sp)
	ld	s11, 136(sp)
	addi	sp, sp, 240
	ret
.Lfunc_end5c26e:
	.size	cmac_mac.key.CmacKey.tag_whole, .Lfunc_end5c26e-cmac_mac.key.CmacKey.tag_whole

	.section	".text.hmac_mac::HmacKey::new","ax",@progbits
	.p2align	1
	.type	hmac_mac.HmacKey.new,@function
hmac_mac.HmacKey.new:
	addi	sp, sp, -736
	sd	ra, 728(sp)
	sd	s0, 720(sp)
	sd	s1, 712(sp)
	sd	s2, 704(sp)
	sd	s3, 696(sp)
	sd	s4, 688(sp)
	sd	s5, 680(sp)
	sd	s6, 672(sp)
	sd	s7, 664(sp)
	sd	s8, 656(sp)
	sd	s9, 648(sp)
	sd	s10, 640(sp)
	sd	s11, 632(sp)
	sd	a0, 80(sp)
	addi	a0, sp, 296
	call	hmac_mac.key_block
	lbu	s2, 352(sp)
	lbu	a7, 353(sp)
	lbu	t0, 354(sp)
	lbu	t1, 355(sp)
	lbu	a4, 356(sp)
	lbu	s10, 357(sp)
	lbu	s11, 358(sp)
	lbu	a6, 359(sp)
	lbu	a0, 344(sp)
	sd	a0, 40(sp)
	lbu	t4, 345(sp)
	lbu	t5, 346(sp)
	lbu	s4, 347(sp)
	lbu	t2, 348(sp)
	lbu	s0, 349(sp)
	lbu	s1, 350(sp)
	lbu	a1, 351(sp)
	lbu	t6, 336(sp)
	lbu	s3, 337(sp)
	lbu	s7, 338(sp)
	lbu	s8, 339(sp)
	lbu	t3, 340(sp)
	lbu	a3, 341(sp)
	lbu	a2, 342(sp)
	lbu	s5, 343(sp)
	lbu	s6, 328(sp)
	lbu	ra, 329(sp)
	lbu	s9, 330(sp)
	lbu	a5, 331(sp)
	slli	a7, a7, 8
	slli	t0, t0, 16
	slli	t1, t1, 24
	slli	s10, s10, 8
	slli	s11, s11, 16
	slli	a6, a6, 24
	or	a0, a7, s2
	sd	a0, 72(sp)
	or	a0, t1, t0
	sd	a0, 64(sp)
	or	a0, s10, a4
	sd	a0, 56(sp)
	or	a0, a6, s11
	sd	a0, 48(sp)
	lbu	s2, 332(sp)
	lbu	a6, 333(sp)
	lbu	s10, 334(sp)
	lbu	s11, 335(sp)
	slli	t4, t4, 8
	slli	t5, t5, 16
	slli	s4, s4, 24
	slli	s0, s0, 8
	slli	s1, s1, 16
	slli	a1, a1, 24
	ld	a0, 40(sp)
	or	a0, t4, a0
	sd	a0, 40(sp)
	or	a0, s4, t5
	sd	a0, 32(sp)
	or	a0, s0, t2
	sd	a0, 24(sp)
	or	a1, a1, s1
	sd	a1, 16(sp)
	lbu	a1, 320(sp)
	lbu	s0, 321(sp)
	lbu	s1, 322(sp)
	lbu	a0, 323(sp)
	slli	s3, s3, 8
	slli	s7, s7, 16
	slli	s8, s8, 24
	slli	a3, a3, 8
	slli	a2, a2, 16
	slli	s5, s5, 24
	or	a4, s3, t6
	sd	a4, 8(sp)
	or	t6, s8, s7
	or	a3, a3, t3
	sd	a3, 0(sp)
	or	s3, s5, a2
	lbu	a2, 324(sp)
	lbu	a3, 325(sp)
	lbu	s7, 326(sp)
	lbu	s8, 327(sp)
	slli	ra, ra, 8
	slli	s9, s9, 16
	slli	a5, a5, 24
	slli	a4, a6, 8
	slli	s10, s10, 16
	slli	s11, s11, 24
	or	s4, ra, s6
	or	t4, a5, s9
	or	s2, a4, s2
	or	s9, s11, s10
	lbu	s10, 312(sp)
	lbu	s11, 313(sp)
	lbu	ra, 314(sp)
	lbu	a5, 315(sp)
	slli	s0, s0, 8
	slli	s1, s1, 16
	slli	a0, a0, 24
	slli	a3, a3, 8
	slli	a4, s7, 16
	slli	s8, s8, 24
	or	s7, s0, a1
	or	t2, a0, s1
	or	t3, a3, a2
	or	s8, s8, a4
	lbu	a0, 316(sp)
	lbu	a4, 317(sp)
	lbu	s0, 318(sp)
	lbu	s1, 319(sp)
	slli	s11, s11, 8
	slli	ra, ra, 16
	slli	a5, a5, 24
	slli	a4, a4, 8
	slli	s0, s0, 16
	slli	s1, s1, 24
	or	s10, s11, s10
	or	ra, a5, ra
	or	s11, a4, a0
	or	s6, s1, s0
	lbu	a4, 305(sp)
	lbu	s0, 306(sp)
	lbu	a3, 307(sp)
	lbu	a0, 304(sp)
	slli	a4, a4, 8
	slli	s0, s0, 16
	slli	a3, a3, 24
	or	s5, a4, a0
	or	t0, a3, s0
	lbu	a4, 309(sp)
	lbu	s0, 308(sp)
	lbu	a5, 310(sp)
	lbu	a0, 311(sp)
	slli	a4, a4, 8
	or	t1, a4, s0
	slli	a5, a5, 16
	slli	a0, a0, 24
	or	a6, a0, a5
	lbu	a5, 297(sp)
	lbu	s0, 296(sp)
	lbu	a1, 298(sp)
	lbu	a0, 299(sp)
	slli	a5, a5, 8
	or	a7, a5, s0
	slli	a1, a1, 16
	slli	a0, a0, 24
	or	a4, a0, a1
	lbu	a2, 301(sp)
	lbu	s0, 300(sp)
	lbu	a1, 302(sp)
	lbu	a0, 303(sp)
	slli	a2, a2, 8
	or	a3, a2, s0
	slli	a1, a1, 16
	slli	a0, a0, 24
	or	a0, a0, a1
	ld	a1, 72(sp)
	ld	a2, 64(sp)
	or	a1, a1, a2
	ld	a2, 56(sp)
	ld	s0, 48(sp)
	or	s0, s0, a2
	ld	a2, 40(sp)
	ld	t5, 32(sp)
	or	a2, t5, a2
	ld	s1, 24(sp)
	ld	a5, 16(sp)
	or	t5, a5, s1
	ld	a5, 8(sp)
	or	t6, t6, a5
	ld	a5, 0(sp)
	or	s3, s3, a5
	or	t4, t4, s4
	or	s2, s9, s2
	or	t2, t2, s7
	or	t3, s8, t3
	or	s4, ra, s10
	or	s1, s6, s11
	or	t0, t0, s5
	or	a6, a6, t1
	or	a4, a4, a7
	or	a0, a0, a3
	slli	s0, s0, 32
	or	a7, s0, a1
	slli	t5, t5, 32
	or	a2, t5, a2
	slli	s3, s3, 32
	or	a3, s3, t6
	slli	s2, s2, 32
	or	a5, s2, t4
	slli	t3, t3, 32
	or	s0, t3, t2
	slli	s1, s1, 32
	or	s1, s1, s4
	slli	a6, a6, 32
	or	a1, a6, t0
	slli	a0, a0, 32
	or	a0, a0, a4
	sd	a5, 392(sp)
	sd	a3, 400(sp)
	sd	a2, 408(sp)
	sd	a7, 416(sp)
	sd	a0, 360(sp)
	sd	a1, 368(sp)
	sd	s1, 376(sp)
	sd	s0, 384(sp)
	addi	a0, sp, 192
	addi	a1, sp, 360
	li	a2, 54
	call	hmac_mac.keyed_hash
	addi	a0, sp, 88
	addi	a1, sp, 360
	li	a2, 92
	call	hmac_mac.keyed_hash
	addi	a0, sp, 424
	addi	a1, sp, 192
	li	a2, 104
	call	memcpy
	addi	a0, sp, 528
	addi	a1, sp, 88
	li	a2, 104
	call	memcpy
	addi	a1, sp, 424
	li	a2, 208
	ld	a0, 80(sp)
	call	memcpy
	ld	ra, 728(sp)
	ld	s0, 720(sp)
	ld	s1, 712(sp)
	ld	s2, 704(sp)
	ld	s3, 696(sp)
	ld	s4, 688(sp)
	ld	s5, 680(sp)
	ld	s6, 672(sp)
	ld	s7, 664(sp)
	ld	s8, 656(sp)
	ld	s9, 648(sp)
	ld	s10, 640(sp)
	ld	s11, 632(sp)
	addi	sp, sp, 736
	ret
.Lfunc_end14369:
	.size	hmac_mac.HmacKey.new, .Lfunc_end14369-hmac_mac.HmacKey.new

	.section	.rodata.cst8,"aM",@progbits,8
	.p2align	3, 0x0
.LCPI6071e_0:
	.quad	-4942790177982912921
.LCPI6071e_1:
	.quad	-6534734903820487822
.LCPI6071e_2:
	.quad	-7276294671082564993
.LCPI6071e_3:
	.quad	6620516960021240235
	.section	".text.hmac_mac::key_block","ax",@progbits
	.p2align	1
	.type	hmac_mac.key_block,@function
hmac_mac.key_block:
	addi	sp, sp, -288
	sd	ra, 280(sp)
	sd	s0, 272(sp)
	sd	s1, 264(sp)
	sd	s2, 256(sp)
	sd	s3, 248(sp)
	sd	s4, 240(sp)
	sd	s5, 232(sp)
	sd	s6, 224(sp)
	sd	s7, 216(sp)
	sd	s8, 208(sp)
	li	a3, 64
	mv	s2, a0
	bltu	a3, a2, .LBB6071e_2
	sd	zero, 136(sp)
	sd	zero, 144(sp)
	sd	zero, 152(sp)
	sd	zero, 160(sp)
	sd	zero, 104(sp)
	sd	zero, 112(sp)
	sd	zero, 120(sp)
	sd	zero, 128(sp)
	addi	a0, sp, 104
	call	memcpy
	ld	a0, 104(sp)
	ld	a1, 112(sp)
	ld	a2, 120(sp)
	ld	a3, 128(sp)
	sd	a0, 40(sp)
	sd	a1, 48(sp)
	sd	a2, 56(sp)
	sd	a3, 64(sp)
	ld	a0, 136(sp)
	ld	a1, 144(sp)
	ld	a2, 152(sp)
	ld	a3, 160(sp)
	sd	a0, 72(sp)
	sd	a1, 80(sp)
	sd	a2, 88(sp)
	sd	a3, 96(sp)
	j	.LBB6071e_3
.LBB6071e_2:
	addi	a0, sp, 136
	mv	s1, a2
	li	a2, 72
	mv	s0, a1
	li	a1, 0
	call	memset
.Lpcrel_hi9:
	auipc	a0, %pcrel_hi(.LCPI6071e_0)
.Lpcrel_hi10:
	auipc	a1, %pcrel_hi(.LCPI6071e_1)
.Lpcrel_hi11:
	auipc	a2, %pcrel_hi(.LCPI6071e_2)
.Lpcrel_hi12:
	auipc	a3, %pcrel_hi(.LCPI6071e_3)
	ld	a0, %pcrel_lo(.Lpcrel_hi9)(a0)
	ld	a1, %pcrel_lo(.Lpcrel_hi10)(a1)
	ld	a2, %pcrel_lo(.Lpcrel_hi11)(a2)
	ld	a3, %pcrel_lo(.Lpcrel_hi12)(a3)
	sd	a0, 104(sp)
	sd	a1, 112(sp)
	sd	a2, 120(sp)
	sd	a3, 128(sp)
	addi	a0, sp, 104
	mv	a1, s0
	mv	a2, s1
	call	sha2.block256.Core256.update
	addi	a0, sp, 8
	addi	a1, sp, 104
	call	sha2.Sha256Digest.finalize
	addi	a0, sp, 136
	li	a2, 32
	li	a1, 0
	call	memset
	lbu	a7, 32(sp)
	lbu	t2, 33(sp)
	lbu	t5, 34(sp)
	lbu	t6, 35(sp)
	lbu	a6, 36(sp)
	lbu	t0, 37(sp)
	lbu	t1, 38(sp)
	lbu	t3, 39(sp)
	lbu	s3, 24(sp)
	lbu	s4, 25(sp)
	lbu	s6, 26(sp)
	lbu	s0, 27(sp)
	lbu	t4, 28(sp)
	lbu	s5, 29(sp)
	lbu	s7, 30(sp)
	lbu	s8, 31(sp)
	ld	a0, 136(sp)
	ld	a1, 144(sp)
	ld	a2, 152(sp)
	ld	a3, 160(sp)
	slli	t2, t2, 8
	slli	t5, t5, 16
	slli	t6, t6, 24
	sd	a0, 72(sp)
	sd	a1, 80(sp)
	sd	a2, 88(sp)
	sd	a3, 96(sp)
	or	a7, t2, a7
	or	t2, t6, t5
	lbu	a2, 16(sp)
	lbu	a3, 17(sp)
	lbu	a4, 18(sp)
	lbu	a5, 19(sp)
	slli	t0, t0, 8
	slli	t1, t1, 16
	slli	t3, t3, 24
	slli	s4, s4, 8
	slli	s6, s6, 16
	slli	s0, s0, 24
	or	a6, t0, a6
	or	t0, t3, t1
	or	t1, s4, s3
	or	t3, s0, s6
	lbu	s1, 20(sp)
	lbu	a0, 21(sp)
	lbu	a1, 22(sp)
	lbu	s0, 23(sp)
	slli	s5, s5, 8
	slli	s7, s7, 16
	slli	s8, s8, 24
	slli	a3, a3, 8
	slli	a4, a4, 16
	slli	a5, a5, 24
	or	t4, s5, t4
	or	t5, s8, s7
	or	t6, a3, a2
	or	s3, a5, a4
	lbu	a3, 8(sp)
	lbu	a5, 9(sp)
	lbu	a2, 10(sp)
	lbu	a4, 11(sp)
	slli	a0, a0, 8
	slli	a1, a1, 16
	slli	s0, s0, 24
	slli	a5, a5, 8
	slli	a2, a2, 16
	slli	a4, a4, 24
	or	s4, a0, s1
	or	s5, s0, a1
	or	s6, a5, a3
	or	s7, a4, a2
	lbu	a4, 13(sp)
	lbu	a5, 12(sp)
	lbu	s0, 14(sp)
	lbu	s1, 15(sp)
	slli	a4, a4, 8
	or	a4, a4, a5
	slli	s0, s0, 16
	slli	s1, s1, 24
	or	s0, s0, s1
	or	a5, t2, a7
	or	s1, t0, a6
	or	a6, t3, t1
	or	a1, t5, t4
	or	a3, s3, t6
	or	a2, s5, s4
	or	a0, s7, s6
	or	a4, a4, s0
	slli	s1, s1, 32
	or	a5, a5, s1
	slli	a1, a1, 32
	slli	a2, a2, 32
	slli	a4, a4, 32
	or	a1, a1, a6
	or	a2, a2, a3
	or	a0, a0, a4
	sd	a0, 40(sp)
	sd	a2, 48(sp)
	sd	a1, 56(sp)
	sd	a5, 64(sp)
.LBB6071e_3:
	addi	a1, sp, 40
	li	a2, 64
	mv	a0, s2
	call	memcpy
	ld	ra, 280(sp)
	ld	s0, 272(sp)
	ld	s1, 264(sp)
	ld	s2, 256(sp)
	ld	s3, 248(sp)
	ld	s4, 240(sp)
	ld	s5, 232(sp)
	ld	s6, 224(sp)
	ld	s7, 216(sp)
	ld	s8, 208(sp)
	addi	sp, sp, 288
	ret
.Lfunc_end6071e:
	.size	hmac_mac.key_block, .Lfunc_end6071e-hmac_mac.key_block

	.section	".text.sha2::block256::Core256::update","ax",@progbits
	.p2align	1
	.type	sha2.block256.Core256.update,@function
sha2.block256.Core256.update:
	addi	sp, sp, -80
	sd	ra, 72(sp)
	sd	s0, 64(sp)
	sd	s1, 56(sp)
	sd	s2, 48(sp)
	sd	s3, 40(sp)
	sd	s4, 32(sp)
	sd	s5, 24(sp)
	sd	s6, 16(sp)
	sd	s7, 8(sp)
	mv	s2, a2
	mv	s5, a1
	mv	s3, a0
	ld	a1, 96(a0)
	andi	a0, a1, 63
	add	a1, a1, a2
	sd	a1, 96(s3)
	addi	s1, s3, 32
	beqz	a0, .LBBa107c_5
	li	a1, 64
	sub	s4, a1, a0
	add	a0, a0, s1
	sub	a1, a0, s5
	bgeu	s2, s4, .LBBa107c_6
	bgeu	a1, s2, .LBBa107c_9
	add	s2, s2, s5
.LBBa107c_4:
	lbu	a1, 0(s5)
	addi	s5, s5, 1
	sb	a1, 0(a0)
	addi	a0, a0, 1
	bne	s5, s2, .LBBa107c_4
	j	.LBBa107c_18
.LBBa107c_5:
	li	s4, 0
	j	.LBBa107c_12
.LBBa107c_6:
	bgeu	a1, s4, .LBBa107c_10
	add	a1, s5, s4
	mv	a2, s5
.LBBa107c_8:
	lbu	a3, 0(a2)
	addi	a2, a2, 1
	sb	a3, 0(a0)
	addi	a0, a0, 1
	bne	a2, a1, .LBBa107c_8
	j	.LBBa107c_11
.LBBa107c_9:
	mv	a1, s5
	mv	a2, s2
	j	.LBBa107c_20
.LBBa107c_10:
	mv	a1, s5
	mv	a2, s4
	call	memmove
.LBBa107c_11:
	mv	a0, s3
	mv	a1, s1
	call	sha2.block256.compress
.LBBa107c_12:
	sub	s6, s2, s4
	srli	a0, s6, 6
	beqz	a0, .LBBa107c_15
	add	s0, s5, s4
	slli	a0, a0, 6
	add	s7, s5, s4
	add	s7, s7, a0
.LBBa107c_14:
	mv	a0, s3
	mv	a1, s0
	call	sha2.block256.compress
	addi	s0, s0, 64
	bne	s0, s7, .LBBa107c_14
.LBBa107c_15:
	andi	a0, s6, -64
	add	a0, a0, s4
	add	a1, s5, a0
	sub	a2, s2, a0
	sub	a0, s1, a1
	bgeu	a0, a2, .LBBa107c_19
	add	s2, s2, s5
.LBBa107c_17:
	lbu	a0, 0(a1)
	addi	a1, a1, 1
	sb	a0, 0(s1)
	addi	s1, s1, 1
	bne	a1, s2, .LBBa107c_17
.LBBa107c_18:
	ld	ra, 72(sp)
	ld	s0, 64(sp)
	ld	s1, 56(sp)
	ld	s2, 48(sp)
	ld	s3, 40(sp)
	ld	s4, 32(sp)
	ld	s5, 24(sp)
	ld	s6, 16(sp)
	ld	s7, 8(sp)
	addi	sp, sp, 80
	ret
.LBBa107c_19:
	mv	a0, s1
.LBBa107c_20:
	ld	ra, 72(sp)
	ld	s0, 64(sp)
	ld	s1, 56(sp)
	ld	s2, 48(sp)
	ld	s3, 40(sp)
	ld	s4, 32(sp)
	ld	s5, 24(sp)
	ld	s6, 16(sp)
	ld	s7, 8(sp)
	addi	sp, sp, 80
	tail	memmove
.Lfunc_enda107c:
	.size	sha2.block256.Core256.update, .Lfunc_enda107c-sha2.block256.Core256.update

	.section	".text.sha2::block256::compress","ax",@progbits
	.p2align	1
	.type	sha2.block256.compress,@function
sha2.block256.compress:
	addi	sp, sp, -560
	sd	ra, 552(sp)
	sd	s0, 544(sp)
	sd	s1, 536(sp)
	sd	s2, 528(sp)
	sd	s3, 520(sp)
	sd	s4, 512(sp)
	sd	s5, 504(sp)
	sd	s6, 496(sp)
	sd	s7, 488(sp)
	sd	s8, 480(sp)
	sd	s9, 472(sp)
	sd	s10, 464(sp)
	sd	s11, 456(sp)
	sd	a0, 72(sp)
	sd	zero, 424(sp)
	sd	zero, 432(sp)
	sd	zero, 440(sp)
	sd	zero, 448(sp)
	sd	zero, 392(sp)
	sd	zero, 400(sp)
	sd	zero, 408(sp)
	sd	zero, 416(sp)
	addi	a0, a1, 3
	addi	a1, a1, 67
	addi	a2, sp, 392
.LBBe053b_1:
	lbu	a3, 0(a0)
	lbu	s0, -1(a0)
	lbu	a5, -3(a0)
	lbu	s1, -2(a0)
	slli	a3, a3, 24
	slli	a4, s0, 16
	or	a3, a3, a4
	lui	a4, 16
	addi	a0, a0, 4
	addi	a4, a4, -256
	slli	s1, s1, 8
	or	s1, s1, a5
	slli	a5, a5, 24
	or	a3, a3, s1
	and	a4, a4, a3
	srliw	a3, a3, 24
	or	a4, a4, s0
	or	a3, a3, a5
	slli	a4, a4, 8
	or	a3, a3, a4
	sw	a3, 0(a2)
	addi	a2, a2, 4
	bne	a0, a1, .LBBe053b_1
	ld	a0, 72(sp)
	lbu	t1, 0(a0)
	lbu	t2, 1(a0)
	lbu	s2, 2(a0)
	lbu	a1, 3(a0)
	lbu	t3, 4(a0)
	lbu	a3, 5(a0)
	lbu	a4, 6(a0)
	lbu	s0, 7(a0)
	lbu	a6, 8(a0)
	lbu	t4, 9(a0)
	lbu	a7, 10(a0)
	lbu	t5, 11(a0)
	lbu	t0, 12(a0)
	lbu	t6, 13(a0)
	lbu	s6, 14(a0)
	lbu	s10, 15(a0)
	lbu	s5, 16(a0)
	lbu	s11, 17(a0)
	lbu	s4, 18(a0)
	lbu	a5, 19(a0)
	lbu	s3, 20(a0)
	lbu	a2, 21(a0)
	lbu	s7, 22(a0)
	lbu	s8, 23(a0)
	lbu	s1, 24(a0)
	sd	s1, 344(sp)
	lbu	s1, 25(a0)
	sd	s1, 336(sp)
	lbu	s9, 26(a0)
	lbu	ra, 27(a0)
	slli	t2, t2, 8
	slli	s2, s2, 16
	slli	a1, a1, 24
	slli	a3, a3, 8
	slli	a4, a4, 16
	slli	s0, s0, 24
	or	s1, t2, t1
	sd	s1, 384(sp)
	or	a1, a1, s2
	sd	a1, 376(sp)
	or	a1, a3, t3
	sd	a1, 368(sp)
	or	a4, a4, s0
	sd	a4, 360(sp)
	lbu	s2, 28(a0)
	lbu	t1, 29(a0)
	lbu	a4, 30(a0)
	lbu	s0, 31(a0)
	slli	t4, t4, 8
	or	a0, t4, a6
	sd	a0, 352(sp)
	slli	a7, a7, 16
	slli	t5, t5, 24
	or	t4, t5, a7
	lui	a7, 463732
	slli	t6, t6, 8
	or	t6, t6, t0
	lui	a6, 744464
	slli	s6, s6, 16
	slli	s10, s10, 24
	slli	s11, s11, 8
	slli	s1, s4, 16
	slli	a1, a5, 24
	slli	a2, a2, 8
	or	s6, s10, s6
	or	s11, s11, s5
	or	s10, a1, s1
	or	s3, a2, s3
	lw	a3, 392(sp)
	lw	t0, 396(sp)
	lw	t2, 400(sp)
	lw	t3, 404(sp)
	slli	s7, s7, 16
	slli	s8, s8, 24
	or	t5, s8, s7
	lui	s1, 957278
	ld	s4, 336(sp)
	slli	s4, s4, 8
	slli	s9, s9, 16
	slli	ra, ra, 24
	slli	a2, t1, 8
	slli	a0, a4, 16
	slli	s0, s0, 24
	ld	a1, 344(sp)
	or	a5, s4, a1
	or	a1, ra, s9
	or	a2, a2, s2
	or	a0, a0, s0
	lw	s7, 408(sp)
	lw	ra, 412(sp)
	lw	a4, 416(sp)
	sd	a4, 320(sp)
	lw	s8, 420(sp)
	lui	s9, 272547
	addi	s9, s9, -104
	addi	s4, a7, 1169
	addi	a7, a6, -1073
	addi	a6, s1, -1115
	ld	t1, 384(sp)
	ld	a4, 376(sp)
	or	s2, a4, t1
	ld	a4, 368(sp)
	ld	s0, 360(sp)
	or	s5, s0, a4
	ld	a4, 352(sp)
	or	t4, t4, a4
	or	s6, s6, t6
	or	s1, s10, s11
	or	a4, t5, s3
	or	a1, a1, a5
	or	a0, a0, a2
	slli	s11, s11, 18
	slli	t1, t1, 23
	srli	s0, s1, 14
	xor	a2, a1, a4
	sd	a3, 312(sp)
	sd	a0, 8(sp)
	add	a3, a3, a0
	srli	a5, s2, 9
	xor	s3, s5, s2
	xor	a0, t4, s5
	or	s0, s11, s0
	xor	t5, a4, s1
	or	a5, t1, a5
	sd	t0, 376(sp)
	add	t0, t0, a1
	and	a2, a2, s1
	xor	s0, s0, s1
	sd	a1, 16(sp)
	xor	a2, a2, a1
	add	a3, a3, a2
	srliw	a2, s0, 5
	slli	a1, s0, 27
	or	a1, a1, a2
	sd	t2, 360(sp)
	add	t2, t2, a4
	and	a0, a0, s3
	xor	a5, a5, s2
	xor	a0, a0, s5
	add	a3, a3, s9
	srliw	a2, a5, 11
	slli	a5, a5, 21
	or	a5, a5, a2
	xor	a1, a1, s1
	xor	a5, a5, s2
	srliw	a2, a1, 6
	slli	a1, a1, 26
	or	a1, a1, a2
	srliw	a2, a5, 2
	slli	a5, a5, 30
	or	a5, a5, a2
	add	a1, a1, a3
	add	a0, a0, a5
	add	t6, a0, a1
	sd	s6, 40(sp)
	add	a3, a1, s6
	srliw	a0, a3, 14
	slli	a1, a3, 18
	srliw	a5, t6, 9
	or	a0, a0, a1
	slli	a1, t6, 23
	or	a1, a1, a5
	sd	t3, 352(sp)
	add	t1, s1, t3
	and	s0, a3, t5
	sd	a4, 24(sp)
	xor	s0, s0, a4
	add	t0, t0, s0
	xor	a5, t6, s2
	and	a4, a5, s3
	xor	a0, a0, a3
	xor	a1, a1, t6
	xor	a4, a4, s2
	add	t0, t0, s4
	srliw	s0, a0, 5
	slli	a0, a0, 27
	or	a0, a0, s0
	srliw	s0, a1, 11
	slli	a1, a1, 21
	or	a1, a1, s0
	xor	a0, a0, a3
	xor	a1, a1, t6
	srliw	s0, a0, 6
	slli	a0, a0, 26
	or	a0, a0, s0
	srliw	s0, a1, 2
	slli	a1, a1, 30
	or	a1, a1, s0
	add	a0, a0, t0
	add	a1, a1, a4
	add	t3, a1, a0
	sd	t4, 48(sp)
	add	a1, a0, t4
	srliw	a0, a1, 14
	slli	a4, a1, 18
	srliw	a2, t3, 9
	or	a0, a0, a4
	slli	a4, t3, 23
	or	a2, a2, a4
	xor	a4, a3, s1
	and	a4, a4, a1
	sd	s1, 32(sp)
	xor	a4, a4, s1
	add	a4, a4, t2
	xor	t0, t3, t6
	and	a5, t0, a5
	xor	a0, a0, a1
	xor	a2, a2, t3
	xor	t2, a5, t6
	add	a4, a4, a7
	srliw	a5, a0, 5
	slli	a0, a0, 27
	or	a0, a0, a5
	srliw	a5, a2, 11
	slli	a2, a2, 21
	or	a2, a2, a5
	xor	a0, a0, a1
	xor	a2, a2, t3
	srliw	a5, a0, 6
	slli	a0, a0, 26
	or	a0, a0, a5
	srliw	a5, a2, 2
	slli	a2, a2, 30
	or	a2, a2, a5
	add	a0, a0, a4
	add	a2, a2, t2
	add	a7, a2, a0
	sd	s5, 56(sp)
	add	s5, s5, a0
	srliw	a4, s5, 14
	slli	a5, s5, 18
	srliw	a2, a7, 9
	or	a4, a4, a5
	slli	a5, a7, 23
	or	a2, a2, a5
	xor	a5, a1, a3
	and	a5, s5, a5
	xor	a5, a5, a3
	sd	s7, 344(sp)
	add	t2, s7, a3
	add	a5, a5, t1
	xor	t1, a7, t3
	and	a3, t1, t0
	xor	a4, a4, s5
	xor	a2, a2, a7
	xor	t0, a3, t3
	add	a5, a5, a6
	srliw	a3, a4, 5
	slli	a4, a4, 27
	or	a3, a3, a4
	srliw	a4, a2, 11
	slli	a2, a2, 21
	or	a2, a2, a4
	xor	a3, a3, s5
	xor	a2, a2, a7
	srliw	a4, a3, 6
	slli	a3, a3, 26
	or	a3, a3, a4
	srliw	a4, a2, 2
	slli	a2, a2, 30
	or	a2, a2, a4
	add	a3, a3, a5
	add	a2, a2, t0
	add	a6, a2, a3
	sd	s2, 64(sp)
	add	a3, a3, s2
	srliw	a2, a3, 14
	slli	a5, a3, 18
	srliw	a4, a6, 9
	or	a2, a2, a5
	slli	a5, a6, 23
	or	a4, a4, a5
	xor	a5, s5, a1
	and	a5, a5, a3
	xor	a5, a5, a1
	add	a5, a5, t2
	lui	s0, 234860
	addi	s0, s0, 603
	sd	ra, 336(sp)
	add	t0, ra, a1
	xor	a2, a2, a3
	xor	a4, a4, a6
	add	a5, a5, s0
	srliw	s0, a2, 5
	slli	a2, a2, 27
	or	a2, a2, s0
	srliw	s0, a4, 11
	slli	a4, a4, 21
	or	a4, a4, s0
	xor	a2, a2, a3
	xor	a4, a4, a6
	srliw	s0, a2, 6
	slli	a2, a2, 26
	or	a2, a2, s0
	srliw	s0, a4, 2
	slli	a4, a4, 30
	or	a4, a4, s0
	xor	s0, a6, a7
	and	a1, s0, t1
	xor	a1, a1, a7
	add	a2, a2, a5
	add	a1, a1, a4
	add	t1, a1, a2
	add	s1, a2, t6
	srliw	a1, s1, 14
	slli	a2, s1, 18
	srliw	a4, t1, 9
	or	a1, a1, a2
	slli	a2, t1, 23
	or	a2, a2, a4
	xor	a4, a3, s5
	and	a4, a4, s1
	xor	a4, a4, s5
	add	a4, a4, t0
	lui	a5, 368401
	addi	a5, a5, 497
	ld	a0, 320(sp)
	add	a0, a0, s5
	xor	a1, a1, s1
	xor	a2, a2, t1
	add	a4, a4, a5
	srliw	a5, a1, 5
	slli	a1, a1, 27
	or	a1, a1, a5
	srliw	a5, a2, 11
	slli	a2, a2, 21
	or	a2, a2, a5
	xor	a1, a1, s1
	xor	a2, a2, t1
	srliw	a5, a1, 6
	slli	a1, a1, 26
	or	a1, a1, a5
	srliw	a5, a2, 2
	slli	a2, a2, 30
	or	a2, a2, a5
	xor	a5, t1, a6
	and	s0, s0, a5
	xor	s0, s0, a6
	add	a1, a1, a4
	add	a2, a2, s0
	add	t4, a2, a1
	add	s0, a1, t3
	srliw	a1, s0, 14
	slli	a2, s0, 18
	srliw	a4, t4, 9
	or	a1, a1, a2
	slli	a2, t4, 23
	or	a2, a2, a4
	xor	a4, s1, a3
	and	a4, a4, s0
	xor	a4, a4, a3
	add	a0, a0, a4
	lui	a4, 599032
	addi	a4, a4, 676
	sd	s8, 368(sp)
	add	a3, a3, s8
	xor	a1, a1, s0
	xor	a2, a2, t4
	add	a0, a0, a4
	srliw	a4, a1, 5
	slli	a1, a1, 27
	or	a1, a1, a4
	srliw	a4, a2, 11
	slli	a2, a2, 21
	or	a2, a2, a4
	xor	a1, a1, s0
	xor	a2, a2, t4
	srliw	a4, a1, 6
	slli	a1, a1, 26
	or	a1, a1, a4
	srliw	a4, a2, 2
	slli	a2, a2, 30
	or	a2, a2, a4
	xor	a4, t4, t1
	and	a5, a5, a4
	xor	a5, a5, t1
	add	a0, a0, a1
	add	a2, a2, a5
	add	t5, a2, a0
	add	t3, a0, a7
	srliw	a0, t3, 14
	slli	a1, t3, 18
	srliw	a5, t5, 9
	or	a0, a0, a1
	slli	a1, t5, 23
	or	a1, a1, a5
	xor	a5, s0, s1
	and	a5, t3, a5
	xor	a5, a5, s1
	add	a3, a3, a5
	lui	a5, 700870
	addi	a5, a5, -299
	xor	a0, a0, t3
	xor	a1, a1, t5
	add	a3, a3, a5
	srliw	a5, a0, 5
	slli	a0, a0, 27
	or	a0, a0, a5
	srliw	a5, a1, 11
	slli	a1, a1, 21
	or	a1, a1, a5
	xor	a0, a0, t3
	xor	a1, a1, t5
	srliw	a5, a0, 6
	slli	a0, a0, 26
	or	a0, a0, a5
	srliw	a5, a1, 2
	slli	a1, a1, 30
	or	a5, a5, a1
	xor	a1, t5, t4
	and	a4, a4, a1
	xor	a4, a4, t4
	add	a0, a0, a3
	add	a4, a4, a5
	add	a7, a4, a0
	add	t6, a0, a6
	srliw	a0, t6, 14
	slli	a3, t6, 18
	srliw	a5, a7, 9
	or	t0, a3, a0
	slli	a0, a7, 23
	or	a6, a0, a5
	lw	s5, 424(sp)
	lw	a2, 428(sp)
	lw	s2, 432(sp)
	lw	s8, 436(sp)
	add	s1, s1, s5
	xor	a0, t3, s0
	and	a0, t6, a0
	xor	a0, a0, s0
	add	a0, a0, s1
	lui	a3, 884859
	addi	a3, a3, -1384
	add	a0, a0, a3
	xor	a3, t0, t6
	srliw	a5, a3, 5
	slli	a3, a3, 27
	or	a3, a3, a5
	xor	a5, a6, a7
	srliw	s1, a5, 11
	slli	a5, a5, 21
	or	a5, a5, s1
	xor	a3, a3, t6
	srliw	s1, a3, 6
	slli	a3, a3, 26
	or	a3, a3, s1
	xor	a5, a5, a7
	srliw	s1, a5, 2
	slli	a5, a5, 30
	or	a5, a5, s1
	add	a0, a0, a3
	xor	a3, a7, t5
	and	a1, a1, a3
	xor	a1, a1, t5
	add	a1, a1, a5
	add	t2, a1, a0
	add	a4, a0, t1
	srliw	a0, a4, 14
	slli	a5, a4, 18
	or	a0, a0, a5
	srliw	a5, t2, 9
	slli	s1, t2, 23
	or	a5, a5, s1
	mv	s9, a2
	add	s0, s0, a2
	xor	a2, t6, t3
	and	a2, a2, a4
	xor	a2, a2, t3
	add	a2, a2, s0
	lui	s1, 75830
	addi	s1, s1, -1279
	add	a2, a2, s1
	xor	a0, a0, a4
	srliw	s1, a0, 5
	slli	a0, a0, 27
	or	a0, a0, s1
	xor	a5, a5, t2
	srliw	s1, a5, 11
	slli	a5, a5, 21
	or	a5, a5, s1
	xor	a0, a0, a4
	srliw	s1, a0, 6
	slli	a0, a0, 26
	or	a0, a0, s1
	xor	a5, a5, t2
	srliw	s1, a5, 2
	slli	a5, a5, 30
	or	a5, a5, s1
	add	a0, a0, a2
	xor	a2, t2, a7
	and	a3, a3, a2
	xor	a3, a3, a7
	add	a3, a3, a5
	add	t1, a3, a0
	add	a0, a0, t4
	srliw	a3, a0, 14
	slli	a5, a0, 18
	or	a3, a3, a5
	srliw	a5, t1, 9
	slli	s1, t1, 23
	or	a5, a5, s1
	mv	ra, s2
	add	t3, t3, s2
	xor	a1, a4, t6
	and	a1, a1, a0
	xor	a1, a1, t6
	add	a1, a1, t3
	lui	s1, 148248
	addi	s1, s1, 1470
	add	a1, a1, s1
	xor	a3, a3, a0
	srliw	s1, a3, 5
	slli	a3, a3, 27
	or	a3, a3, s1
	xor	a5, a5, t1
	srliw	s1, a5, 11
	slli	a5, a5, 21
	or	a5, a5, s1
	xor	a3, a3, a0
	srliw	s1, a3, 6
	slli	a3, a3, 26
	or	a3, a3, s1
	xor	a5, a5, t1
	srliw	s1, a5, 2
	slli	a5, a5, 30
	or	a5, a5, s1
	add	a1, a1, a3
	xor	a3, t1, t2
	and	a2, a2, a3
	xor	a2, a2, t2
	add	a2, a2, a5
	add	t3, a2, a1
	add	t4, a1, t5
	srliw	a1, t4, 14
	slli	a2, t4, 18
	or	a1, a1, a2
	srliw	a2, t3, 9
	slli	a5, t3, 23
	or	a2, a2, a5
	add	t6, t6, s8
	xor	a5, a0, a4
	and	a5, t4, a5
	xor	a5, a5, a4
	add	a5, a5, t6
	lui	s1, 348360
	addi	s1, s1, -573
	add	a5, a5, s1
	xor	a1, a1, t4
	srliw	s1, a1, 5
	slli	a1, a1, 27
	or	a1, a1, s1
	xor	a2, a2, t3
	srliw	s1, a2, 11
	slli	a2, a2, 21
	or	a2, a2, s1
	xor	a1, a1, t4
	srliw	s1, a1, 6
	slli	a1, a1, 26
	or	a1, a1, s1
	xor	a2, a2, t3
	srliw	s1, a2, 2
	slli	a2, a2, 30
	or	s1, s1, a2
	add	a1, a1, a5
	xor	a2, t3, t1
	and	a3, a3, a2
	xor	a3, a3, t1
	add	a3, a3, s1
	add	a6, a3, a1
	add	a7, a7, a1
	srliw	a1, a7, 14
	slli	a3, a7, 18
	or	a1, a1, a3
	srliw	a3, a6, 9
	slli	a5, a6, 23
	or	a5, a5, a3
	lw	s10, 440(sp)
	lw	s2, 444(sp)
	lw	s3, 448(sp)
	lw	t6, 452(sp)
	add	a4, a4, s10
	xor	a3, t4, a0
	and	a3, a7, a3
	xor	a3, a3, a0
	add	a3, a3, a4
	lui	a4, 469990
	addi	a4, a4, -652
	add	a3, a3, a4
	xor	a1, a1, a7
	srliw	a4, a1, 5
	slli	a1, a1, 27
	or	a1, a1, a4
	xor	a4, a5, a6
	srliw	a5, a4, 11
	slli	a4, a4, 21
	or	a4, a4, a5
	xor	a1, a1, a7
	srliw	a5, a1, 6
	slli	a1, a1, 26
	or	a1, a1, a5
	xor	a4, a4, a6
	srliw	a5, a4, 2
	slli	a4, a4, 30
	or	a4, a4, a5
	add	a1, a1, a3
	xor	a3, a6, t3
	and	a2, a2, a3
	xor	a2, a2, t3
	add	a2, a2, a4
	add	s6, a2, a1
	add	t5, a1, t2
	srliw	a1, t5, 14
	slli	a2, t5, 18
	or	a1, a1, a2
	srliw	a2, s6, 9
	slli	a4, s6, 23
	or	a2, a2, a4
	add	a0, a0, s2
	xor	a4, a7, t4
	and	a4, t5, a4
	xor	a4, a4, t4
	add	a0, a0, a4
	lui	a4, 527851
	addi	a4, a4, 510
	add	a0, a0, a4
	xor	a1, a1, t5
	srliw	a4, a1, 5
	slli	a1, a1, 27
	or	a1, a1, a4
	xor	a2, a2, s6
	srliw	a4, a2, 11
	slli	a2, a2, 21
	or	a2, a2, a4
	xor	a1, a1, t5
	srliw	a4, a1, 6
	slli	a1, a1, 26
	or	a1, a1, a4
	xor	a2, a2, s6
	srliw	a4, a2, 2
	slli	a2, a2, 30
	or	a2, a2, a4
	add	a0, a0, a1
	xor	a1, s6, a6
	and	a3, a3, a1
	xor	a3, a3, a6
	add	a2, a2, a3
	add	s0, a2, a0
	add	t0, a0, t1
	srliw	a0, t0, 14
	slli	a2, t0, 18
	or	a0, a0, a2
	srliw	a2, s0, 9
	slli	a3, s0, 23
	or	a2, a2, a3
	add	t4, t4, s3
	xor	a3, t5, a7
	and	a3, t0, a3
	xor	a3, a3, a7
	add	a3, a3, t4
	lui	a4, 638400
	addi	a4, a4, 1703
	add	a3, a3, a4
	xor	a0, a0, t0
	srliw	a4, a0, 5
	slli	a0, a0, 27
	or	a0, a0, a4
	xor	a2, a2, s0
	srliw	a4, a2, 11
	slli	a2, a2, 21
	or	a2, a2, a4
	xor	a0, a0, t0
	srliw	a4, a0, 6
	slli	a0, a0, 26
	or	a0, a0, a4
	xor	a2, a2, s0
	srliw	a4, a2, 2
	slli	a2, a2, 30
	or	a2, a2, a4
	add	a0, a0, a3
	xor	a3, s0, s6
	and	a1, a1, a3
	xor	a1, a1, s6
	add	a1, a1, a2
	add	s1, a1, a0
	add	t3, t3, a0
	srliw	a0, t3, 14
	slli	a1, t3, 18
	or	a0, a0, a1
	srliw	a1, s1, 9
	slli	a2, s1, 23
	or	a1, a1, a2
	xor	a2, s1, s0
	and	a2, a2, a3
	add	a7, a7, t6
	xor	a3, t0, t5
	and	a3, t3, a3
	xor	a3, a3, t5
	add	a3, a3, a7
	lui	a4, 793023
	addi	a4, a4, 372
	add	a3, a3, a4
	xor	a0, a0, t3
	srliw	a4, a0, 5
	slli	a0, a0, 27
	or	a0, a0, a4
	xor	a1, a1, s1
	srliw	a4, a1, 11
	slli	a1, a1, 21
	or	a1, a1, a4
	xor	a0, a0, t3
	srliw	a4, a0, 6
	slli	a0, a0, 26
	or	a0, a0, a4
	xor	a1, a1, s1
	srliw	a4, a1, 2
	slli	a1, a1, 30
	or	a1, a1, a4
	add	a0, a0, a3
	xor	a2, a2, s0
	add	a1, a1, a2
	add	a4, a1, a0
	add	a7, a0, a6
.Lpcrel_hi13:
	auipc	a0, %pcrel_hi(.Lstatic.12)
	addi	a0, a0, %pcrel_lo(.Lpcrel_hi13)
	sd	a0, 80(sp)
	addi	a5, a0, 124
.LBBe053b_3:
	sd	a7, 120(sp)
	sd	s0, 136(sp)
	sd	s1, 160(sp)
	sd	s6, 176(sp)
	sd	t3, 192(sp)
	sd	a5, 384(sp)
	srliw	a0, s3, 2
	slli	a1, s3, 30
	ld	s1, 376(sp)
	srliw	a2, s1, 11
	slli	s1, s1, 21
	or	a0, a0, a1
	sd	a0, 208(sp)
	srliw	a0, a7, 14
	or	a2, a2, s1
	sd	a2, 304(sp)
	slli	a1, a7, 18
	or	s11, a1, a0
	srliw	a0, a4, 9
	slli	a1, a4, 23
	or	a0, a0, a1
	sd	a0, 296(sp)
	srliw	a0, t6, 2
	slli	a1, t6, 30
	or	a0, a0, a1
	sd	a0, 288(sp)
	ld	a1, 360(sp)
	srliw	a0, a1, 11
	slli	a1, a1, 21
	or	a0, a0, a1
	sd	a0, 280(sp)
	ld	a1, 352(sp)
	srliw	a0, a1, 11
	slli	a1, a1, 21
	or	a0, a0, a1
	sd	a0, 272(sp)
	ld	a1, 344(sp)
	srliw	a0, a1, 11
	slli	a1, a1, 21
	or	a0, a0, a1
	sd	a0, 264(sp)
	ld	t1, 336(sp)
	srliw	a0, t1, 11
	slli	a1, t1, 21
	or	a0, a0, a1
	sd	a0, 256(sp)
	ld	t2, 320(sp)
	srliw	a0, t2, 11
	slli	a1, t2, 21
	or	a0, a0, a1
	sd	a0, 248(sp)
	ld	a1, 368(sp)
	srliw	a0, a1, 11
	slli	a1, a1, 21
	or	a0, a0, a1
	sd	a0, 240(sp)
	srliw	a0, s5, 11
	slli	a1, s5, 21
	or	a0, a0, a1
	sd	a0, 232(sp)
	mv	s6, s9
	srliw	a0, s9, 11
	slli	a1, s9, 21
	or	a0, a0, a1
	sd	a0, 224(sp)
	srliw	a0, ra, 11
	slli	a1, ra, 21
	or	a0, a0, a1
	sd	a0, 216(sp)
	srliw	a0, s8, 11
	slli	a1, s8, 21
	or	a0, a0, a1
	sd	a0, 200(sp)
	srliw	a0, s10, 11
	mv	a6, a4
	sd	a4, 144(sp)
	slli	a4, s10, 21
	or	a4, a4, a0
	srliw	a0, s2, 11
	slli	s0, s2, 21
	or	s0, s0, a0
	srliw	a0, s3, 11
	slli	a2, s3, 21
	or	a2, a2, a0
	srliw	a0, t6, 11
	slli	a1, t6, 21
	sd	ra, 328(sp)
	or	s7, a1, a0
	xor	a0, t0, t3
	and	a0, a0, a7
	xor	a0, a0, t0
	add	s1, t5, a0
	ld	a0, 208(sp)
	xor	a0, a0, s3
	srliw	a1, a0, 17
	slli	a0, a0, 15
	or	a0, a0, a1
	sd	a0, 112(sp)
	ld	a0, 304(sp)
	ld	a1, 376(sp)
	xor	a0, a0, a1
	srliw	a3, a0, 7
	slli	a0, a0, 25
	mv	s9, s8
	or	a0, a0, a3
	sd	a0, 304(sp)
	xor	a0, s11, a7
	srliw	a3, a0, 5
	slli	a0, a0, 27
	or	a0, a0, a3
	sd	a0, 152(sp)
	lw	a3, -60(a5)
	lw	t5, -56(a5)
	lw	a0, -52(a5)
	sd	a0, 184(sp)
	lw	a0, -48(a5)
	sd	a0, 208(sp)
	add	a3, a3, s1
	sd	a3, 168(sp)
	ld	a0, 296(sp)
	xor	a3, a0, a6
	mv	a1, s10
	sd	s10, 104(sp)
	srliw	s10, a3, 11
	slli	a3, a3, 21
	or	a0, a3, s10
	sd	a0, 128(sp)
	ld	a0, 288(sp)
	xor	s10, a0, t6
	srliw	s11, s10, 17
	slli	s10, s10, 15
	or	s10, s10, s11
	ld	s1, 360(sp)
	ld	a0, 280(sp)
	xor	s11, a0, s1
	mv	s8, s2
	srliw	s2, s11, 7
	slli	s11, s11, 25
	or	a0, s11, s2
	sd	a0, 288(sp)
	add	t0, t0, t5
	sd	t0, 296(sp)
	ld	a0, 352(sp)
	ld	a3, 272(sp)
	xor	t5, a3, a0
	srliw	s2, t5, 7
	slli	t5, t5, 25
	or	a3, t5, s2
	sd	a3, 280(sp)
	ld	t4, 344(sp)
	ld	a5, 264(sp)
	xor	s2, a5, t4
	mv	s11, t6
	srliw	t6, s2, 7
	slli	s2, s2, 25
	or	t5, s2, t6
	mv	a3, t1
	sd	t1, 336(sp)
	ld	a5, 256(sp)
	xor	s2, a5, t1
	mv	t3, s3
	srliw	s3, s2, 7
	slli	s2, s2, 25
	or	a5, s2, s3
	sd	a5, 264(sp)
	ld	a5, 248(sp)
	xor	s3, a5, t2
	srliw	s4, s3, 7
	slli	s3, s3, 25
	or	a5, s3, s4
	sd	a5, 248(sp)
	ld	t1, 368(sp)
	ld	a5, 240(sp)
	xor	s4, a5, t1
	srliw	a7, s4, 7
	slli	s4, s4, 25
	or	a5, s4, a7
	sd	a5, 240(sp)
	ld	a5, 232(sp)
	mv	a6, s5
	xor	s4, a5, s5
	mv	t6, s6
	srliw	s6, s4, 7
	slli	s4, s4, 25
	or	a5, s4, s6
	sd	a5, 232(sp)
	ld	a5, 224(sp)
	xor	s6, a5, t6
	srliw	t0, s6, 7
	slli	s6, s6, 25
	or	a5, s6, t0
	sd	a5, 224(sp)
	ld	a5, 216(sp)
	xor	s5, a5, ra
	srliw	s6, s5, 7
	slli	s5, s5, 25
	or	a5, s5, s6
	sd	a5, 216(sp)
	ld	a5, 200(sp)
	mv	s2, s9
	xor	s6, a5, s9
	srliw	s9, s6, 7
	slli	s6, s6, 25
	or	a5, s6, s9
	sd	a5, 200(sp)
	xor	a4, a4, a1
	srliw	s9, a4, 7
	slli	a4, a4, 25
	or	a1, a4, s9
	sd	a1, 96(sp)
	xor	s0, s0, s8
	srliw	s9, s0, 7
	slli	s0, s0, 25
	or	a1, s0, s9
	sd	a1, 88(sp)
	xor	a2, a2, t3
	srliw	s9, a2, 7
	slli	a2, a2, 25
	or	s3, a2, s9
	mv	t0, s11
	xor	s7, s7, s11
	srliw	s9, s7, 7
	slli	s7, s7, 25
	or	s6, s7, s9
	srliw	a5, t3, 10
	ld	a1, 112(sp)
	xor	a1, a1, a5
	sd	a1, 112(sp)
	ld	a7, 376(sp)
	srliw	a1, a7, 3
	ld	a4, 304(sp)
	xor	a1, a1, a4
	sd	a1, 256(sp)
	srliw	a1, s11, 10
	xor	a1, s10, a1
	sd	a1, 304(sp)
	srliw	a1, s1, 3
	mv	ra, s1
	ld	a2, 288(sp)
	xor	a1, a1, a2
	sd	a1, 272(sp)
	srliw	s1, a0, 3
	mv	s11, a0
	ld	a0, 280(sp)
	xor	s1, s1, a0
	srliw	a0, t4, 3
	mv	s5, t4
	xor	t5, t5, a0
	srliw	a3, a3, 3
	ld	a0, 264(sp)
	xor	s7, a0, a3
	srliw	a1, t2, 3
	mv	s10, t2
	ld	a0, 248(sp)
	xor	s4, a0, a1
	srliw	a4, t1, 3
	ld	a0, 240(sp)
	xor	s9, a0, a4
	srliw	a4, a6, 3
	mv	t4, a6
	ld	a0, 232(sp)
	xor	a0, a0, a4
	sd	a0, 280(sp)
	srliw	a4, t6, 3
	ld	a0, 224(sp)
	xor	t2, a0, a4
	ld	a1, 328(sp)
	srliw	s0, a1, 3
	ld	a0, 216(sp)
	xor	t1, a0, s0
	mv	a3, s2
	srliw	s0, s2, 3
	ld	a0, 200(sp)
	xor	s0, s0, a0
	ld	s2, 104(sp)
	srliw	a2, s2, 3
	ld	a0, 96(sp)
	xor	a6, a0, a2
	srliw	a5, s8, 3
	ld	a4, 88(sp)
	xor	a4, a4, a5
	srliw	a5, t3, 3
	xor	s3, s3, a5
	mv	a2, t0
	srliw	a5, t0, 3
	xor	s6, s6, a5
	ld	a5, 312(sp)
	add	a5, a5, t6
	ld	a0, 112(sp)
	add	a5, a5, a0
	add	a0, a1, a7
	mv	a7, a1
	ld	a1, 304(sp)
	add	a0, a0, a1
	add	t0, a3, ra
	mv	ra, a3
	add	t0, t0, s1
	sd	t0, 288(sp)
	add	s1, s2, s11
	add	s11, s1, t5
	add	s5, s5, s8
	add	s5, s5, s7
	ld	s7, 336(sp)
	add	s7, s7, t3
	add	a1, s7, s4
	sd	a1, 376(sp)
	add	a1, s10, a2
	mv	t0, a2
	add	a1, a1, s9
	sd	a1, 352(sp)
	add	a3, t2, t4
	sd	a3, 360(sp)
	add	t6, t6, t1
	add	s0, s0, a7
	sd	s0, 336(sp)
	add	a2, a6, ra
	sd	a2, 344(sp)
	add	s2, s2, a4
	add	s3, s3, s8
	add	t3, t3, s6
	sd	t3, 304(sp)
	ld	s0, 256(sp)
	add	s0, s0, a5
	ld	s4, 120(sp)
	ld	a1, 152(sp)
	xor	a1, a1, s4
	srliw	a2, a1, 6
	slli	a1, a1, 26
	or	a1, a1, a2
	ld	a7, 144(sp)
	ld	a2, 128(sp)
	xor	a2, a2, a7
	srliw	a3, a2, 2
	slli	a2, a2, 30
	or	a2, a2, a3
	ld	s10, 272(sp)
	add	s10, s10, a0
	ld	a0, 168(sp)
	add	a0, a0, a1
	ld	t3, 160(sp)
	xor	t2, t3, a7
	ld	t5, 136(sp)
	xor	a1, t5, t3
	and	a1, a1, t2
	xor	a1, a1, t3
	add	a2, a2, a1
	srliw	a1, s0, 2
	slli	a4, s0, 30
	or	a1, a1, a4
	srliw	a4, s10, 2
	slli	s1, s10, 30
	or	s1, s1, a4
	ld	s9, 368(sp)
	add	s9, s9, s0
	ld	a3, 280(sp)
	add	s9, s9, a3
	srliw	a4, s0, 11
	slli	a5, s0, 21
	or	a4, a4, a5
	add	a5, a0, s0
	add	s8, a2, a5
	ld	ra, 176(sp)
	add	ra, ra, a5
	srliw	a5, ra, 14
	slli	a2, ra, 18
	or	a2, a2, a5
	ld	a0, 192(sp)
	ld	t1, 184(sp)
	add	t1, t1, a0
	xor	a5, a0, s4
	and	a5, ra, a5
	xor	a5, a5, a0
	srliw	a3, s8, 9
	slli	a0, s8, 23
	or	a0, a0, a3
	xor	a1, a1, s0
	srliw	a3, a1, 17
	slli	a1, a1, 15
	or	a1, a1, a3
	xor	a3, s1, s10
	srliw	s1, a3, 17
	slli	a3, a3, 15
	or	a3, a3, s1
	xor	a4, a4, s0
	srliw	s1, a4, 7
	slli	a4, a4, 25
	or	a4, a4, s1
	ld	s1, 296(sp)
	add	s1, s1, s10
	add	a5, a5, s1
	srliw	s1, s0, 10
	xor	a1, a1, s1
	srliw	s1, s10, 10
	xor	a3, a3, s1
	sd	s0, 312(sp)
	srliw	s1, s0, 3
	xor	a4, a4, s1
	ld	s7, 288(sp)
	add	s7, s7, a1
	add	a6, s11, a3
	add	a4, a4, t0
	sd	a4, 368(sp)
	xor	a2, a2, ra
	srliw	a1, a2, 5
	slli	a2, a2, 27
	or	a1, a1, a2
	xor	a0, a0, s8
	srliw	a2, a0, 11
	slli	a0, a0, 21
	or	a0, a0, a2
	srliw	a2, s7, 2
	slli	a3, s7, 30
	or	a2, a2, a3
	srliw	a3, a6, 2
	slli	a4, a6, 30
	or	a3, a3, a4
	xor	a1, a1, ra
	srliw	a4, a1, 6
	slli	a1, a1, 26
	or	a1, a1, a4
	xor	a0, a0, s8
	srliw	a4, a0, 2
	slli	a0, a0, 30
	or	a0, a0, a4
	add	a1, a1, a5
	xor	s1, s8, a7
	and	a4, s1, t2
	xor	a4, a4, a7
	add	a0, a0, a4
	xor	a2, a2, s7
	srliw	a4, a2, 17
	slli	a2, a2, 15
	or	a2, a2, a4
	xor	a3, a3, a6
	srliw	a4, a3, 17
	slli	a3, a3, 15
	or	a3, a3, a4
	add	s11, a0, a1
	add	t0, a1, t5
	srliw	a0, s7, 10
	xor	a0, a0, a2
	srliw	a1, a6, 10
	xor	a1, a1, a3
	ld	t2, 208(sp)
	mv	a2, s4
	add	t2, t2, s4
	add	s5, s5, a0
	srliw	a0, t0, 14
	ld	s4, 376(sp)
	add	s4, s4, a1
	slli	a1, t0, 18
	or	a0, a0, a1
	xor	a1, ra, a2
	and	a1, t0, a1
	xor	a1, a1, a2
	srliw	a2, s11, 9
	slli	a3, s11, 23
	or	a2, a2, a3
	add	t1, t1, s7
	add	t1, t1, a1
	srliw	a1, s5, 2
	slli	a3, s5, 30
	or	a1, a1, a3
	srliw	a3, s4, 2
	slli	a5, s4, 30
	or	a3, a3, a5
	xor	a0, a0, t0
	srliw	a5, a0, 5
	slli	a0, a0, 27
	or	a0, a0, a5
	xor	a2, a2, s11
	srliw	a5, a2, 11
	slli	a2, a2, 21
	or	a2, a2, a5
	xor	a1, a1, s5
	srliw	a5, a1, 17
	slli	a1, a1, 15
	or	a1, a1, a5
	xor	a3, a3, s4
	srliw	a5, a3, 17
	slli	a3, a3, 15
	or	a3, a3, a5
	srliw	a5, s5, 10
	xor	a1, a1, a5
	srliw	a5, s4, 10
	xor	a3, a3, a5
	xor	a0, a0, t0
	srliw	a5, a0, 6
	slli	a0, a0, 26
	or	a0, a0, a5
	xor	a2, a2, s11
	srliw	a5, a2, 2
	slli	a2, a2, 30
	or	a2, a2, a5
	ld	a4, 352(sp)
	add	a1, a1, a4
	add	s9, s9, a3
	xor	a4, s11, s8
	and	s1, s1, a4
	xor	a3, s1, s8
	add	a0, a0, t1
	add	a2, a2, a3
	srliw	a3, a1, 2
	slli	s1, a1, 30
	add	t1, a2, a0
	add	t4, a0, t3
	srliw	a0, s9, 2
	or	s1, s1, a3
	slli	a2, s9, 30
	or	a0, a0, a2
	srliw	a2, t4, 14
	slli	a3, t4, 18
	or	a2, a2, a3
	ld	a3, 384(sp)
	lw	t3, -44(a3)
	ld	a3, 384(sp)
	lw	t5, -40(a3)
	ld	a3, 384(sp)
	lw	s6, -36(a3)
	ld	a3, 384(sp)
	lw	a3, -32(a3)
	sd	a3, 296(sp)
	add	t3, t3, ra
	xor	a3, t0, ra
	and	a3, t4, a3
	xor	a3, a3, ra
	srliw	s0, t1, 9
	slli	a5, t1, 23
	or	a5, a5, s0
	add	t2, t2, a6
	add	a3, a3, t2
	xor	s1, s1, a1
	srliw	s0, s1, 17
	slli	s1, s1, 15
	or	s0, s0, s1
	xor	a0, a0, s9
	srliw	s1, a0, 17
	slli	a0, a0, 15
	or	a0, a0, s1
	srliw	s1, a1, 10
	xor	s0, s0, s1
	srliw	s1, s9, 10
	xor	a0, a0, s1
	xor	a2, a2, t4
	srliw	s1, a2, 5
	slli	a2, a2, 27
	or	a2, a2, s1
	xor	a5, a5, t1
	srliw	s1, a5, 11
	slli	a5, a5, 21
	or	a5, a5, s1
	sd	s10, 376(sp)
	ld	s1, 360(sp)
	add	s10, s10, s1
	add	s10, s10, s0
	sd	s7, 360(sp)
	add	t6, t6, s7
	add	t6, t6, a0
	srliw	a0, s10, 2
	slli	s1, s10, 30
	or	a0, a0, s1
	srliw	s1, t6, 2
	slli	s0, t6, 30
	or	s1, s1, s0
	xor	a2, a2, t4
	srliw	s0, a2, 6
	slli	a2, a2, 26
	or	a2, a2, s0
	xor	a5, a5, t1
	srliw	s0, a5, 2
	slli	a5, a5, 30
	or	a5, a5, s0
	add	a3, a3, a2
	xor	a2, t1, s11
	and	a4, a4, a2
	xor	a4, a4, s11
	add	a4, a4, a5
	add	t2, a4, a3
	add	a7, a7, a3
	xor	a0, a0, s10
	srliw	a3, a0, 17
	slli	a0, a0, 15
	or	a0, a0, a3
	xor	a3, s1, t6
	srliw	a4, a3, 17
	slli	a3, a3, 15
	or	a3, a3, a4
	srliw	a4, s10, 10
	xor	ra, a0, a4
	srliw	a4, t6, 10
	xor	a3, a3, a4
	srliw	a4, a7, 14
	slli	a5, a7, 18
	or	a4, a4, a5
	add	s7, t5, t0
	xor	a5, t4, t0
	and	a5, a7, a5
	xor	a0, a5, t0
	srliw	s1, t2, 9
	slli	s0, t2, 23
	or	s0, s0, s1
	sd	a6, 352(sp)
	ld	s1, 336(sp)
	add	s1, s1, a6
	add	a5, s1, ra
	sd	a5, 328(sp)
	ld	t5, 344(sp)
	add	t5, t5, s5
	add	ra, t5, a3
	sd	s5, 344(sp)
	add	t3, t3, s5
	add	t3, t3, a0
	srliw	a0, a5, 2
	slli	a3, a5, 30
	or	a0, a0, a3
	srliw	a3, ra, 2
	slli	s1, ra, 30
	or	a3, a3, s1
	xor	a4, a4, a7
	srliw	s1, a4, 5
	slli	a4, a4, 27
	or	a4, a4, s1
	xor	s1, s0, t2
	srliw	s0, s1, 11
	slli	s1, s1, 21
	or	s0, s0, s1
	xor	a0, a0, a5
	srliw	s1, a0, 17
	slli	a0, a0, 15
	or	a0, a0, s1
	xor	a3, a3, ra
	srliw	s1, a3, 17
	slli	a3, a3, 15
	or	a3, a3, s1
	xor	a4, a4, a7
	srliw	s1, a4, 6
	slli	a4, a4, 26
	or	a4, a4, s1
	xor	s1, s0, t2
	srliw	s0, s1, 2
	slli	s1, s1, 30
	or	s0, s0, s1
	srliw	s1, a5, 10
	xor	a0, a0, s1
	srliw	s1, ra, 10
	xor	a3, a3, s1
	add	a5, t3, a4
	xor	a4, t2, t1
	and	a2, a2, a4
	xor	a2, a2, t1
	add	a2, a2, s0
	add	s2, s2, s4
	add	s2, s2, a0
	add	s3, s3, a1
	add	s3, s3, a3
	add	t3, a2, a5
	add	s8, s8, a5
	srliw	a3, s2, 2
	slli	a5, s2, 30
	or	a5, a5, a3
	srliw	a3, s3, 2
	slli	s1, s3, 30
	or	s1, s1, a3
	srliw	a3, s8, 14
	slli	a0, s8, 18
	or	a0, a0, a3
	sd	a1, 320(sp)
	add	a3, s6, a1
	add	t0, t4, a3
	xor	s0, a7, t4
	and	s0, s8, s0
	xor	s0, s0, t4
	srliw	a3, t3, 9
	slli	a2, t3, 23
	or	a2, a2, a3
	sd	s4, 336(sp)
	add	s5, s7, s4
	add	s0, s0, s5
	mv	s5, s10
	mv	s10, s2
	xor	a3, a5, s2
	srliw	a5, a3, 17
	slli	a3, a3, 15
	or	a3, a3, a5
	xor	a5, s1, s3
	srliw	s1, a5, 17
	slli	a5, a5, 15
	or	a5, a5, s1
	xor	a0, a0, s8
	srliw	s1, a0, 5
	slli	a0, a0, 27
	or	a0, a0, s1
	xor	a2, a2, t3
	srliw	s1, a2, 11
	slli	a2, a2, 21
	or	a2, a2, s1
	srliw	s1, s2, 10
	xor	a3, a3, s1
	srliw	s1, s3, 10
	xor	a5, a5, s1
	ld	s6, 304(sp)
	add	s6, s6, s9
	add	s6, s6, a3
	mv	s7, t6
	ld	s4, 368(sp)
	add	s4, s4, s5
	add	s4, s4, a5
	xor	a0, a0, s8
	srliw	a3, a0, 6
	slli	a0, a0, 26
	or	a0, a0, a3
	xor	a2, a2, t3
	srliw	a3, a2, 2
	slli	a2, a2, 30
	or	a2, a2, a3
	sd	s9, 368(sp)
	ld	a6, 296(sp)
	add	a6, a6, s9
	add	s2, a6, a7
	add	a0, a0, s0
	xor	a3, t3, t2
	and	a4, a4, a3
	xor	a4, a4, t2
	add	a2, a2, a4
	add	t4, a2, a0
	add	a4, a0, s11
	srliw	a0, a4, 14
	slli	a2, a4, 18
	or	a0, a0, a2
	xor	a2, s8, a7
	and	a2, a2, a4
	xor	a2, a2, a7
	srliw	a5, t4, 9
	slli	s1, t4, 23
	or	a5, a5, s1
	xor	a0, a0, a4
	add	a2, a2, t0
	xor	a5, a5, t4
	srliw	s1, a0, 5
	slli	a0, a0, 27
	or	a0, a0, s1
	srliw	s1, a5, 11
	slli	a5, a5, 21
	or	a5, a5, s1
	xor	a0, a0, a4
	xor	a5, a5, t4
	srliw	s1, a0, 6
	slli	a0, a0, 26
	or	a0, a0, s1
	srliw	s1, a5, 2
	slli	a5, a5, 30
	or	a5, a5, s1
	xor	s1, t4, t3
	and	a3, a3, s1
	xor	a3, a3, t3
	add	a0, a0, a2
	add	a3, a3, a5
	add	t5, a3, a0
	add	a5, a0, t1
	srliw	a0, a5, 14
	slli	a1, a5, 18
	or	a0, a0, a1
	ld	a1, 384(sp)
	lw	a1, -28(a1)
	ld	a2, 384(sp)
	lw	t6, -24(a2)
	ld	a2, 384(sp)
	lw	a7, -20(a2)
	ld	a2, 384(sp)
	lw	a6, -16(a2)
	add	a1, a1, s5
	add	t0, a1, s8
	xor	a1, a4, s8
	and	a1, a1, a5
	xor	a1, a1, s8
	mv	s8, ra
	srliw	s0, t5, 9
	slli	a3, t5, 23
	or	a3, a3, s0
	add	a1, a1, s2
	xor	a0, a0, a5
	srliw	s0, a0, 5
	slli	a0, a0, 27
	or	a0, a0, s0
	xor	a3, a3, t5
	srliw	s0, a3, 11
	slli	a3, a3, 21
	or	a3, a3, s0
	xor	a0, a0, a5
	srliw	s0, a0, 6
	slli	a0, a0, 26
	or	a0, a0, s0
	xor	a3, a3, t5
	srliw	s0, a3, 2
	slli	a3, a3, 30
	or	a3, a3, s0
	add	a0, a0, a1
	xor	a2, t5, t4
	and	s1, s1, a2
	xor	a1, s1, t4
	add	a1, a1, a3
	add	s2, a1, a0
	add	s0, a0, t2
	srliw	a0, s0, 14
	slli	a3, s0, 18
	or	a0, a0, a3
	mv	s9, s7
	add	t6, t6, s7
	add	t6, t6, a4
	xor	a3, a5, a4
	and	a3, a3, s0
	xor	a3, a3, a4
	srliw	a4, s2, 9
	slli	a1, s2, 23
	or	a1, a1, a4
	add	a3, a3, t0
	xor	a0, a0, s0
	srliw	a4, a0, 5
	slli	a0, a0, 27
	or	a0, a0, a4
	xor	a1, a1, s2
	srliw	a4, a1, 11
	slli	a1, a1, 21
	or	a1, a1, a4
	xor	a0, a0, s0
	srliw	a4, a0, 6
	slli	a0, a0, 26
	or	a0, a0, a4
	xor	a1, a1, s2
	srliw	a4, a1, 2
	slli	a1, a1, 30
	or	a1, a1, a4
	add	a0, a0, a3
	xor	a3, s2, t5
	and	a2, a2, a3
	xor	a2, a2, t5
	add	a1, a1, a2
	add	t2, a1, a0
	add	t0, a0, t3
	srliw	a0, t0, 14
	slli	a1, t0, 18
	or	a0, a0, a1
	ld	a1, 328(sp)
	mv	ra, a1
	add	a7, a7, a1
	add	a7, a7, a5
	xor	a1, s0, a5
	and	a1, t0, a1
	xor	a1, a1, a5
	srliw	a4, t2, 9
	slli	a5, t2, 23
	or	a4, a4, a5
	add	a1, a1, t6
	xor	a0, a0, t0
	srliw	a5, a0, 5
	slli	a0, a0, 27
	or	a0, a0, a5
	xor	a4, a4, t2
	srliw	a5, a4, 11
	slli	a4, a4, 21
	or	a4, a4, a5
	xor	a0, a0, t0
	srliw	a5, a0, 6
	slli	a0, a0, 26
	or	a0, a0, a5
	xor	a4, a4, t2
	srliw	a5, a4, 2
	slli	a4, a4, 30
	or	a4, a4, a5
	add	a6, a6, s8
	add	a6, a6, s0
	add	a0, a0, a1
	xor	a1, t2, s2
	and	a3, a3, a1
	xor	a3, a3, s2
	add	a3, a3, a4
	add	t1, a3, a0
	add	s1, a0, t4
	srliw	a0, s1, 14
	slli	a3, s1, 18
	or	a0, a0, a3
	xor	a3, t0, s0
	and	a3, a3, s1
	xor	a3, a3, s0
	srliw	a4, t1, 9
	slli	a5, t1, 23
	or	a4, a4, a5
	xor	a0, a0, s1
	add	a3, a3, a7
	xor	a4, a4, t1
	srliw	a5, a0, 5
	slli	a0, a0, 27
	or	a0, a0, a5
	srliw	a5, a4, 11
	slli	a4, a4, 21
	or	a4, a4, a5
	xor	a0, a0, s1
	xor	a4, a4, t1
	srliw	a5, a0, 6
	slli	a0, a0, 26
	or	a0, a0, a5
	srliw	a5, a4, 2
	slli	a4, a4, 30
	or	a4, a4, a5
	xor	a5, t1, t2
	and	a1, a1, a5
	xor	a1, a1, t2
	add	a0, a0, a3
	add	a1, a1, a4
	add	t3, a1, a0
	add	t6, a0, t5
	srliw	a0, t6, 14
	slli	a1, t6, 18
	or	a1, a1, a0
	ld	a0, 384(sp)
	lw	s0, -12(a0)
	ld	a0, 384(sp)
	lw	a0, -8(a0)
	ld	a2, 384(sp)
	lw	t4, -4(a2)
	ld	a2, 384(sp)
	lw	a7, 0(a2)
	add	s0, s0, s10
	add	t5, s0, t0
	xor	a2, s1, t0
	and	a2, t6, a2
	xor	a2, a2, t0
	srliw	a3, t3, 9
	slli	s0, t3, 23
	or	a3, a3, s0
	add	a2, a2, a6
	xor	a1, a1, t6
	srliw	s0, a1, 5
	slli	a1, a1, 27
	or	a1, a1, s0
	xor	a3, a3, t3
	srliw	s0, a3, 11
	slli	a3, a3, 21
	or	a3, a3, s0
	xor	a1, a1, t6
	srliw	s0, a1, 6
	slli	a1, a1, 26
	or	a1, a1, s0
	xor	a3, a3, t3
	srliw	s0, a3, 2
	slli	a3, a3, 30
	or	a3, a3, s0
	add	a1, a1, a2
	xor	a2, t3, t1
	and	a5, a5, a2
	xor	a5, a5, t1
	add	a3, a3, a5
	add	a6, a3, a1
	add	a5, a1, s2
	mv	s2, s3
	mv	s3, s6
	srliw	a1, a5, 14
	slli	a3, a5, 18
	or	a1, a1, a3
	add	a0, a0, s2
	add	a0, a0, s1
	xor	a3, t6, s1
	and	a3, a3, a5
	xor	a3, a3, s1
	srliw	s1, a6, 9
	slli	s0, a6, 23
	or	s0, s0, s1
	add	a3, a3, t5
	xor	a1, a1, a5
	srliw	s1, a1, 5
	slli	a1, a1, 27
	or	a1, a1, s1
	xor	s1, s0, a6
	srliw	s0, s1, 11
	slli	s1, s1, 21
	or	s0, s0, s1
	xor	a1, a1, a5
	srliw	s1, a1, 6
	slli	a1, a1, 26
	or	a1, a1, s1
	xor	s1, s0, a6
	srliw	s0, s1, 2
	slli	s1, s1, 30
	or	s0, s0, s1
	add	a1, a1, a3
	xor	a3, a6, t3
	and	a2, a2, a3
	xor	a2, a2, t3
	add	a2, a2, s0
	add	s6, a2, a1
	add	t5, a1, t2
	srliw	a1, t5, 14
	slli	a2, t5, 18
	or	a2, a2, a1
	add	a1, s3, t4
	add	a1, a1, t6
	xor	a4, a5, t6
	and	a4, t5, a4
	xor	a4, a4, t6
	mv	t6, s4
	srliw	s1, s6, 9
	slli	s0, s6, 23
	or	s0, s0, s1
	add	a4, a4, a0
	xor	a0, a2, t5
	srliw	a2, a0, 5
	slli	a0, a0, 27
	or	a0, a0, a2
	xor	a2, s0, s6
	srliw	s1, a2, 11
	slli	a2, a2, 21
	or	a2, a2, s1
	xor	a0, a0, t5
	srliw	s1, a0, 6
	slli	a0, a0, 26
	or	s1, s1, a0
	xor	a0, a2, s6
	srliw	a2, a0, 2
	slli	a0, a0, 30
	or	a2, a2, a0
	add	a0, s4, a7
	add	a0, a0, a5
	add	a4, a4, s1
	xor	s1, s6, a6
	and	a3, a3, s1
	xor	a3, a3, a6
	add	a2, a2, a3
	add	s0, a2, a4
	add	t0, a4, t1
	srliw	a2, t0, 14
	slli	a3, t0, 18
	or	a2, a2, a3
	xor	a3, t5, a5
	and	a3, t0, a3
	xor	a3, a3, a5
	srliw	a4, s0, 9
	slli	a5, s0, 23
	or	a4, a4, a5
	xor	a2, a2, t0
	add	a1, a1, a3
	xor	a3, a4, s0
	srliw	a4, a2, 5
	slli	a2, a2, 27
	or	a2, a2, a4
	srliw	a4, a3, 11
	slli	a3, a3, 21
	or	a3, a3, a4
	xor	a2, a2, t0
	xor	a3, a3, s0
	srliw	a4, a2, 6
	slli	a2, a2, 26
	or	a2, a2, a4
	srliw	a4, a3, 2
	slli	a3, a3, 30
	or	a3, a3, a4
	xor	a4, s0, s6
	and	s1, s1, a4
	xor	a5, s1, s6
	add	a1, a1, a2
	add	a3, a3, a5
	ld	a5, 384(sp)
	add	s1, a3, a1
	add	t3, t3, a1
	srliw	a1, t3, 14
	slli	a2, t3, 18
	srliw	a3, s1, 9
	or	a1, a1, a2
	slli	a2, s1, 23
	or	a2, a2, a3
	xor	a3, s1, s0
	and	a3, a3, a4
	xor	a4, t0, t5
	and	a4, t3, a4
	xor	a4, a4, t5
	xor	a1, a1, t3
	add	a0, a0, a4
	xor	a2, a2, s1
	srliw	a4, a1, 5
	slli	a1, a1, 27
	or	a1, a1, a4
	srliw	a4, a2, 11
	slli	a2, a2, 21
	or	a2, a2, a4
	xor	a1, a1, t3
	xor	a2, a2, s1
	srliw	a4, a1, 6
	slli	a1, a1, 26
	or	a1, a1, a4
	srliw	a4, a2, 2
	slli	a2, a2, 30
	or	a2, a2, a4
	add	a0, a0, a1
	addi	a5, a5, 64
	xor	a1, a3, s0
	add	a1, a1, a2
	ld	a2, 80(sp)
	addi	a2, a2, 316
	add	a4, a1, a0
	add	a7, a0, a6
	bne	a5, a2, .LBBe053b_3
	ld	a0, 64(sp)
	add	a0, a0, a4
	ld	a1, 56(sp)
	add	a1, a1, s1
	ld	a2, 48(sp)
	add	a2, a2, s0
	ld	a3, 40(sp)
	add	a3, a3, s6
	ld	a4, 32(sp)
	add	a4, a4, a7
	ld	a5, 24(sp)
	add	a5, a5, t3
	ld	s1, 16(sp)
	add	t0, t0, s1
	ld	s1, 8(sp)
	add	t2, t5, s1
	ld	s1, 72(sp)
	sw	a0, 0(s1)
	sw	a1, 4(s1)
	sw	a2, 8(s1)
	sw	a3, 12(s1)
	sw	a4, 16(s1)
	sw	a5, 20(s1)
	sw	t0, 24(s1)
	sw	t2, 28(s1)
	ld	ra, 552(sp)
	ld	s0, 544(sp)
	ld	s1, 536(sp)
	ld	s2, 528(sp)
	ld	s3, 520(sp)
	ld	s4, 512(sp)
	ld	s5, 504(sp)
	ld	s6, 496(sp)
	ld	s7, 488(sp)
	ld	s8, 480(sp)
	ld	s9, 472(sp)
	ld	s10, 464(sp)
	ld	s11, 456(sp)
	addi	sp, sp, 560
	ret
.Lfunc_ende053b:
	.size	sha2.block256.compress, .Lfunc_ende053b-sha2.block256.compress

	.section	".text.sha2::Sha256Digest::finalize","ax",@progbits
	.p2align	1
	.type	sha2.Sha256Digest.finalize,@function
sha2.Sha256Digest.finalize:
	addi	sp, sp, -224
	sd	ra, 216(sp)
	sd	s0, 208(sp)
	sd	s1, 200(sp)
	sd	s2, 192(sp)
	sd	s3, 184(sp)
	sd	s4, 176(sp)
	sd	s5, 168(sp)
	sd	s6, 160(sp)
	sd	s7, 152(sp)
	sd	s8, 144(sp)
	sd	s9, 136(sp)
	sd	s10, 128(sp)
	sd	s11, 120(sp)
	mv	s0, a0
	addi	a0, sp, 16
	li	a2, 104
	call	memcpy
	ld	s1, 112(sp)
	li	a0, 55
	sub	a0, a0, s1
	andi	a2, a0, 63
	addi	a2, a2, 1
.Lpcrel_hi14:
	auipc	a1, %pcrel_hi(.Lstatic.13)
	addi	a1, a1, %pcrel_lo(.Lpcrel_hi14)
	addi	a0, sp, 16
	call	sha2.block256.Core256.update
	slli	a0, s1, 43
	li	a1, 255
	slli	a2, s1, 27
	slli	a3, s1, 11
	srli	a4, s1, 21
	lui	a5, 4080
	and	a4, a4, a5
	slli	a5, a1, 48
	and	a0, a0, a5
	slli	a5, a1, 40
	and	a2, a2, a5
	srli	a5, s1, 37
	slli	a1, a1, 32
	and	a1, a1, a3
	lui	a3, 16
	addi	a3, a3, -256
	and	a3, a3, a5
	slli	a5, s1, 59
	or	a0, a0, a5
	or	a1, a1, a2
	slli	a2, s1, 3
	srli	s1, s1, 5
	srli	a2, a2, 56
	srliw	a5, s1, 24
	slli	a5, a5, 24
	or	a4, a4, a5
	or	a0, a0, a1
	or	a0, a0, a4
	or	a2, a2, a3
	or	a0, a0, a2
	sd	a0, 8(sp)
	addi	a0, sp, 16
	addi	a1, sp, 8
	li	a2, 8
	call	sha2.block256.Core256.update
	lw	a1, 16(sp)
	lw	a0, 20(sp)
	lw	a4, 24(sp)
	lw	a5, 28(sp)
	lw	a3, 32(sp)
	lw	a2, 36(sp)
	lw	t5, 40(sp)
	lw	t3, 44(sp)
	srli	s2, a1, 24
	srli	t6, a0, 24
	srli	t4, a4, 24
	srli	t2, a5, 24
	srli	t1, a3, 24
	srli	t0, a2, 24
	srli	a7, t5, 24
	srli	a6, t3, 24
	srli	s3, a1, 8
	srli	s1, a1, 16
	srli	s4, a0, 8
	srli	s5, a0, 16
	srli	s6, a4, 8
	srli	s7, a4, 16
	srli	s8, a5, 8
	srli	s9, a5, 16
	srli	s10, a3, 8
	srli	s11, a3, 16
	srli	ra, a2, 8
	sb	s2, 0(s0)
	srli	s2, a2, 16
	sb	s1, 1(s0)
	srli	s1, t5, 8
	sb	s3, 2(s0)
	sb	a1, 3(s0)
	srli	a1, t5, 16
	sb	t6, 4(s0)
	sb	s5, 5(s0)
	sb	s4, 6(s0)
	sb	a0, 7(s0)
	srli	a0, t3, 8
	sb	t4, 8(s0)
	sb	s7, 9(s0)
	sb	s6, 10(s0)
	sb	a4, 11(s0)
	srli	a4, t3, 16
	sb	t2, 12(s0)
	sb	s9, 13(s0)
	sb	s8, 14(s0)
	sb	a5, 15(s0)
	sb	t1, 16(s0)
	sb	s11, 17(s0)
	sb	s10, 18(s0)
	sb	a3, 19(s0)
	sb	t0, 20(s0)
	sb	s2, 21(s0)
	sb	ra, 22(s0)
	sb	a2, 23(s0)
	sb	a7, 24(s0)
	sb	a1, 25(s0)
	sb	s1, 26(s0)
	sb	t5, 27(s0)
	sb	a6, 28(s0)
	sb	a4, 29(s0)
	sb	a0, 30(s0)
	sb	t3, 31(s0)
	ld	ra, 216(sp)
	ld	s0, 208(sp)
	ld	s1, 200(sp)
	ld	s2, 192(sp)
	ld	s3, 184(sp)
	ld	s4, 176(sp)
	ld	s5, 168(sp)
	ld	s6, 160(sp)
	ld	s7, 152(sp)
	ld	s8, 144(sp)
	ld	s9, 136(sp)
	ld	s10, 128(sp)
	ld	s11, 120(sp)
	addi	sp, sp, 224
	ret
.Lfunc_end0a84d:
	.size	sha2.Sha256Digest.finalize, .Lfunc_end0a84d-sha2.Sha256Digest.finalize

	.section	.rodata.cst8,"aM",@progbits,8
	.p2align	3, 0x0
.LCPI980f5_0:
	.quad	-4942790177982912921
.LCPI980f5_1:
	.quad	-6534734903820487822
.LCPI980f5_2:
	.quad	-7276294671082564993
.LCPI980f5_3:
	.quad	6620516960021240235
	.section	".text.hmac_mac::keyed_hash","ax",@progbits
	.p2align	1
	.type	hmac_mac.keyed_hash,@function
hmac_mac.keyed_hash:
	addi	sp, sp, -800
	sd	ra, 792(sp)
	sd	s0, 784(sp)
	sd	s1, 776(sp)
	sd	s2, 768(sp)
	sd	s3, 760(sp)
	sd	s4, 752(sp)
	sd	s5, 744(sp)
	sd	s6, 736(sp)
	sd	s7, 728(sp)
	sd	s8, 720(sp)
	sd	s9, 712(sp)
	sd	s10, 704(sp)
	sd	s11, 696(sp)
	mv	a3, a2
	sd	a0, 520(sp)
	lbu	a0, 0(a1)
	sd	a0, 512(sp)
	lbu	a0, 1(a1)
	sd	a0, 504(sp)
	lbu	a0, 2(a1)
	sd	a0, 496(sp)
	lbu	a0, 3(a1)
	sd	a0, 480(sp)
	lbu	a0, 4(a1)
	sd	a0, 464(sp)
	lbu	a0, 5(a1)
	sd	a0, 448(sp)
	lbu	a0, 6(a1)
	sd	a0, 432(sp)
	lbu	a0, 7(a1)
	sd	a0, 416(sp)
	lbu	a0, 8(a1)
	sd	a0, 400(sp)
	lbu	a0, 9(a1)
	sd	a0, 384(sp)
	lbu	a0, 10(a1)
	sd	a0, 368(sp)
	lbu	a0, 11(a1)
	sd	a0, 352(sp)
	lbu	a0, 12(a1)
	sd	a0, 336(sp)
	lbu	a0, 13(a1)
	sd	a0, 320(sp)
	lbu	a0, 14(a1)
	sd	a0, 304(sp)
	lbu	a0, 15(a1)
	sd	a0, 288(sp)
	lbu	a0, 16(a1)
	sd	a0, 272(sp)
	lbu	a0, 17(a1)
	sd	a0, 256(sp)
	lbu	a0, 18(a1)
	sd	a0, 240(sp)
	lbu	a0, 19(a1)
	sd	a0, 224(sp)
	lbu	a0, 20(a1)
	sd	a0, 208(sp)
	lbu	a0, 21(a1)
	sd	a0, 192(sp)
	lbu	a0, 22(a1)
	sd	a0, 176(sp)
	lbu	a0, 23(a1)
	sd	a0, 160(sp)
	lbu	a0, 24(a1)
	sd	a0, 144(sp)
	lbu	a0, 25(a1)
	sd	a0, 128(sp)
	lbu	a0, 26(a1)
	sd	a0, 112(sp)
	lbu	a0, 27(a1)
	sd	a0, 96(sp)
	lbu	a0, 28(a1)
	sd	a0, 80(sp)
	lbu	a0, 29(a1)
	sd	a0, 64(sp)
	lbu	a0, 30(a1)
	sd	a0, 48(sp)
	lbu	a0, 31(a1)
	sd	a0, 32(sp)
	lbu	a0, 32(a1)
	sd	a0, 16(sp)
	lbu	a0, 33(a1)
	sd	a0, 8(sp)
	lbu	a0, 34(a1)
	sd	a0, 24(sp)
	lbu	a0, 35(a1)
	sd	a0, 40(sp)
	lbu	a0, 36(a1)
	sd	a0, 56(sp)
	lbu	ra, 37(a1)
	lbu	s10, 38(a1)
	lbu	s8, 39(a1)
	lbu	s6, 40(a1)
	lbu	s4, 41(a1)
	lbu	s5, 42(a1)
	lbu	s7, 43(a1)
	lbu	s9, 44(a1)
	lbu	s11, 45(a1)
	lbu	s3, 46(a1)
	lbu	s2, 47(a1)
	lbu	s1, 48(a1)
	lbu	s0, 49(a1)
	lbu	t6, 50(a1)
	lbu	t5, 51(a1)
	lbu	t4, 52(a1)
	lbu	t3, 53(a1)
	lbu	t2, 54(a1)
	lbu	t1, 55(a1)
	lbu	a7, 60(a1)
	lbu	a6, 61(a1)
	lbu	a2, 62(a1)
	lbu	a0, 63(a1)
	lbu	t0, 56(a1)
	lbu	a5, 57(a1)
	lbu	a4, 58(a1)
	lbu	a1, 59(a1)
	xor	a0, a0, a3
	sd	a0, 488(sp)
	xor	a2, a2, a3
	sd	a2, 472(sp)
	xor	a0, a6, a3
	sd	a0, 456(sp)
	xor	a0, a7, a3
	sd	a0, 440(sp)
	xor	a1, a1, a3
	sd	a1, 424(sp)
	xor	a4, a4, a3
	sd	a4, 408(sp)
	xor	a5, a5, a3
	sd	a5, 392(sp)
	xor	a0, t0, a3
	sd	a0, 376(sp)
	xor	a0, t1, a3
	sd	a0, 360(sp)
	xor	a0, t2, a3
	sd	a0, 344(sp)
	xor	a0, t3, a3
	sd	a0, 328(sp)
	xor	a0, t4, a3
	sd	a0, 312(sp)
	xor	a0, t5, a3
	sd	a0, 296(sp)
	xor	a0, t6, a3
	sd	a0, 280(sp)
	xor	s0, s0, a3
	sd	s0, 264(sp)
	xor	s1, s1, a3
	sd	s1, 248(sp)
	xor	a0, s2, a3
	sd	a0, 232(sp)
	xor	a0, s3, a3
	sd	a0, 216(sp)
	xor	a0, s11, a3
	sd	a0, 200(sp)
	xor	a0, s9, a3
	sd	a0, 184(sp)
	xor	a0, s7, a3
	sd	a0, 168(sp)
	xor	a0, s5, a3
	sd	a0, 152(sp)
	xor	a0, s4, a3
	sd	a0, 136(sp)
	xor	a0, s6, a3
	sd	a0, 120(sp)
	xor	a0, s8, a3
	sd	a0, 104(sp)
	xor	a0, s10, a3
	sd	a0, 88(sp)
	xor	a0, ra, a3
	sd	a0, 72(sp)
	ld	a0, 56(sp)
	xor	a0, a0, a3
	sd	a0, 56(sp)
	ld	a0, 40(sp)
	xor	a0, a0, a3
	sd	a0, 40(sp)
	ld	a0, 24(sp)
	xor	a0, a0, a3
	sd	a0, 24(sp)
	ld	a0, 8(sp)
	xor	a0, a0, a3
	sd	a0, 8(sp)
	ld	a0, 16(sp)
	xor	a0, a0, a3
	sd	a0, 16(sp)
	ld	a0, 32(sp)
	xor	a0, a0, a3
	sd	a0, 32(sp)
	ld	a0, 48(sp)
	xor	a0, a0, a3
	sd	a0, 48(sp)
	ld	a0, 64(sp)
	xor	a0, a0, a3
	sd	a0, 64(sp)
	ld	a0, 80(sp)
	xor	a0, a0, a3
	sd	a0, 80(sp)
	ld	a0, 96(sp)
	xor	a0, a0, a3
	sd	a0, 96(sp)
	ld	a0, 112(sp)
	xor	ra, a0, a3
	ld	a0, 128(sp)
	xor	s11, a0, a3
	ld	a0, 144(sp)
	xor	s10, a0, a3
	ld	a0, 160(sp)
	xor	s9, a0, a3
	ld	a0, 176(sp)
	xor	s8, a0, a3
	ld	a0, 192(sp)
	xor	s7, a0, a3
	ld	a0, 208(sp)
	xor	s6, a0, a3
	ld	a0, 224(sp)
	xor	s5, a0, a3
	ld	a0, 240(sp)
	xor	s4, a0, a3
	ld	a0, 256(sp)
	xor	s3, a0, a3
	ld	a0, 272(sp)
	xor	s2, a0, a3
	ld	s1, 288(sp)
	xor	s1, s1, a3
	ld	s0, 304(sp)
	xor	s0, s0, a3
	ld	a0, 320(sp)
	xor	t6, a0, a3
	ld	a0, 336(sp)
	xor	t5, a0, a3
	ld	a0, 352(sp)
	xor	t4, a0, a3
	ld	a0, 368(sp)
	xor	t3, a0, a3
	ld	a0, 384(sp)
	xor	t2, a0, a3
	ld	a0, 400(sp)
	xor	t1, a0, a3
	ld	a0, 416(sp)
	xor	t0, a0, a3
	ld	a0, 432(sp)
	xor	a7, a0, a3
	ld	a0, 448(sp)
	xor	a6, a0, a3
	ld	a5, 464(sp)
	xor	a5, a5, a3
	ld	a4, 480(sp)
	xor	a4, a4, a3
	ld	a1, 496(sp)
	xor	a1, a1, a3
	ld	a0, 504(sp)
	xor	a0, a0, a3
	ld	a2, 512(sp)
	xor	a2, a2, a3
	sb	a2, 528(sp)
	sb	a0, 529(sp)
	sb	a1, 530(sp)
	sb	a4, 531(sp)
	sb	a5, 532(sp)
	sb	a6, 533(sp)
	sb	a7, 534(sp)
	sb	t0, 535(sp)
	sb	t1, 536(sp)
	sb	t2, 537(sp)
	sb	t3, 538(sp)
	sb	t4, 539(sp)
	sb	t5, 540(sp)
	sb	t6, 541(sp)
	sb	s0, 542(sp)
	sb	s1, 543(sp)
	sb	s2, 544(sp)
	sb	s3, 545(sp)
	sb	s4, 546(sp)
	sb	s5, 547(sp)
	sb	s6, 548(sp)
	sb	s7, 549(sp)
	sb	s8, 550(sp)
	sb	s9, 551(sp)
	sb	s10, 552(sp)
	sb	s11, 553(sp)
	sb	ra, 554(sp)
	ld	a0, 96(sp)
	sb	a0, 555(sp)
	ld	a0, 80(sp)
	sb	a0, 556(sp)
	ld	a0, 64(sp)
	sb	a0, 557(sp)
	ld	a0, 48(sp)
	sb	a0, 558(sp)
	ld	a0, 32(sp)
	sb	a0, 559(sp)
	ld	a0, 16(sp)
	sb	a0, 560(sp)
	ld	a0, 8(sp)
	sb	a0, 561(sp)
	ld	a0, 24(sp)
	sb	a0, 562(sp)
	ld	a0, 40(sp)
	sb	a0, 563(sp)
	ld	a0, 56(sp)
	sb	a0, 564(sp)
	ld	a0, 72(sp)
	sb	a0, 565(sp)
	ld	a0, 88(sp)
	sb	a0, 566(sp)
	ld	a0, 104(sp)
	sb	a0, 567(sp)
	ld	a0, 120(sp)
	sb	a0, 568(sp)
	ld	a0, 136(sp)
	sb	a0, 569(sp)
	ld	a0, 152(sp)
	sb	a0, 570(sp)
	ld	a0, 168(sp)
	sb	a0, 571(sp)
	ld	a0, 184(sp)
	sb	a0, 572(sp)
	ld	a0, 200(sp)
	sb	a0, 573(sp)
	ld	a0, 216(sp)
	sb	a0, 574(sp)
	ld	a0, 232(sp)
	sb	a0, 575(sp)
	ld	a0, 248(sp)
	sb	a0, 576(sp)
	ld	a0, 264(sp)
	sb	a0, 577(sp)
	ld	a0, 280(sp)
	sb	a0, 578(sp)
	ld	a0, 296(sp)
	sb	a0, 579(sp)
	ld	a0, 312(sp)
	sb	a0, 580(sp)
	ld	a0, 328(sp)
	sb	a0, 581(sp)
	ld	a0, 344(sp)
	sb	a0, 582(sp)
	ld	a0, 360(sp)
	sb	a0, 583(sp)
	ld	a0, 376(sp)
	sb	a0, 584(sp)
	ld	a0, 392(sp)
	sb	a0, 585(sp)
	ld	a0, 408(sp)
	sb	a0, 586(sp)
	ld	a0, 424(sp)
	sb	a0, 587(sp)
	ld	a0, 440(sp)
	sb	a0, 588(sp)
	ld	a0, 456(sp)
	sb	a0, 589(sp)
	ld	a0, 472(sp)
	sb	a0, 590(sp)
	ld	a0, 488(sp)
	sb	a0, 591(sp)
	addi	a0, sp, 624
	li	a2, 72
	li	a1, 0
	call	memset
.Lpcrel_hi15:
	auipc	a0, %pcrel_hi(.LCPI980f5_0)
.Lpcrel_hi16:
	auipc	a1, %pcrel_hi(.LCPI980f5_1)
.Lpcrel_hi17:
	auipc	a2, %pcrel_hi(.LCPI980f5_2)
.Lpcrel_hi18:
	auipc	a3, %pcrel_hi(.LCPI980f5_3)
	ld	a0, %pcrel_lo(.Lpcrel_hi15)(a0)
	ld	a1, %pcrel_lo(.Lpcrel_hi16)(a1)
	ld	a2, %pcrel_lo(.Lpcrel_hi17)(a2)
	ld	a3, %pcrel_lo(.Lpcrel_hi18)(a3)
	sd	a0, 592(sp)
	sd	a1, 600(sp)
	sd	a2, 608(sp)
	sd	a3, 616(sp)
	addi	a0, sp, 592
	addi	a1, sp, 528
	li	a2, 64
	call	sha2.block256.Core256.update
	addi	a1, sp, 592
	li	a2, 104
	ld	a0, 520(sp)
	call	memcpy
	ld	ra, 792(sp)
	ld	s0, 784(sp)
	ld	s1, 776(sp)
	ld	s2, 768(sp)
	ld	s3, 760(sp)
	ld	s4, 752(sp)
	ld	s5, 744(sp)
	ld	s6, 736(sp)
	ld	s7, 728(sp)
	ld	s8, 720(sp)
	ld	s9, 712(sp)
	ld	s10, 704(sp)
	ld	s11, 696(sp)
	addi	sp, sp, 800
	ret
.Lfunc_end980f5:
	.size	hmac_mac.keyed_hash, .Lfunc_end980f5-hmac_mac.keyed_hash

	.section	".text.hmac_mac::digest_after","ax",@progbits
	.p2align	1
	.type	hmac_mac.digest_after,@function
hmac_mac.digest_after:
	addi	sp, sp, -528
	sd	ra, 520(sp)
	sd	s0, 512(sp)
	sd	s1, 504(sp)
	sd	s2, 496(sp)
	sd	s3, 488(sp)
	sd	s4, 480(sp)
	sd	s5, 472(sp)
	sd	s6, 464(sp)
	sd	s7, 456(sp)
	sd	s8, 448(sp)
	sd	s9, 440(sp)
	sd	s10, 432(sp)
	mv	s3, a3
	mv	s4, a2
	mv	s1, a1
	mv	s2, a0
	lbu	t2, 24(a1)
	lbu	a1, 25(a1)
	lbu	a2, 26(s1)
	lbu	a3, 27(s1)
	lbu	a6, 28(s1)
	lbu	a7, 29(s1)
	lbu	t0, 30(s1)
	lbu	t1, 31(s1)
	lbu	t5, 16(s1)
	lbu	s0, 17(s1)
	lbu	a4, 18(s1)
	lbu	a0, 19(s1)
	lbu	t3, 20(s1)
	lbu	t4, 21(s1)
	lbu	t6, 22(s1)
	lbu	s6, 23(s1)
	slli	a1, a1, 8
	slli	a2, a2, 16
	slli	a3, a3, 24
	or	t2, a1, t2
	or	s5, a3, a2
	lbu	a1, 8(s1)
	lbu	a2, 9(s1)
	lbu	a3, 10(s1)
	lbu	a5, 11(s1)
	slli	a7, a7, 8
	slli	t0, t0, 16
	slli	t1, t1, 24
	slli	s0, s0, 8
	slli	a4, a4, 16
	slli	a0, a0, 24
	or	a6, a7, a6
	or	a7, t1, t0
	or	t0, s0, t5
	or	t1, a0, a4
	lbu	t5, 12(s1)
	lbu	s0, 13(s1)
	lbu	a0, 14(s1)
	lbu	a4, 15(s1)
	slli	t4, t4, 8
	slli	t6, t6, 16
	slli	s6, s6, 24
	slli	a2, a2, 8
	slli	a3, a3, 16
	slli	a5, a5, 24
	or	t3, t4, t3
	or	t4, s6, t6
	or	t6, a2, a1
	or	s6, a5, a3
	lbu	a2, 0(s1)
	lbu	a5, 1(s1)
	lbu	a1, 2(s1)
	lbu	a3, 3(s1)
	slli	s0, s0, 8
	slli	a0, a0, 16
	slli	a4, a4, 24
	slli	a5, a5, 8
	slli	a1, a1, 16
	slli	a3, a3, 24
	or	t5, s0, t5
	or	s7, a4, a0
	or	s8, a5, a2
	or	s9, a3, a1
	lbu	a3, 5(s1)
	lbu	a4, 4(s1)
	lbu	a5, 6(s1)
	lbu	s0, 7(s1)
	slli	a3, a3, 8
	or	s10, a3, a4
	slli	a5, a5, 16
	slli	s0, s0, 24
	or	a5, a5, s0
	or	a4, s5, t2
	or	s0, a7, a6
	or	a0, t1, t0
	or	a2, t4, t3
	or	a1, s6, t6
	or	a3, s7, t5
	or	a6, s9, s8
	or	a5, a5, s10
	slli	s0, s0, 32
	or	a4, a4, s0
	slli	a2, a2, 32
	or	a0, a0, a2
	slli	a3, a3, 32
	or	a3, a3, a1
	slli	a5, a5, 32
	or	a2, a5, a6
	addi	a1, s1, 32
	sd	a2, 336(sp)
	sd	a3, 344(sp)
	sd	a0, 352(sp)
	sd	a4, 360(sp)
	addi	a0, sp, 368
	li	a2, 64
	call	memcpy
	ld	s0, 96(s1)
	addi	s1, sp, 240
	addi	a1, sp, 336
	li	a2, 96
	mv	a0, s1
	call	memcpy
	addi	a0, sp, 32
	li	a2, 96
	mv	a1, s1
	call	memcpy
	addi	a0, sp, 128
	addi	a1, sp, 32
	li	a2, 96
	call	memcpy
	sd	s0, 224(sp)
	addi	a0, sp, 128
	mv	a1, s4
	mv	a2, s3
	call	sha2.block256.Core256.update
	mv	a0, sp
	addi	a1, sp, 128
	call	sha2.Sha256Digest.finalize
	mv	a1, sp
	li	a2, 32
	mv	a0, s2
	call	memcpy
	ld	ra, 520(sp)
	ld	s0, 512(sp)
	ld	s1, 504(sp)
	ld	s2, 496(sp)
	ld	s3, 488(sp)
	ld	s4, 480(sp)
	ld	s5, 472(sp)
	ld	s6, 464(sp)
	ld	s7, 456(sp)
	ld	s8, 448(sp)
	ld	s9, 440(sp)
	ld	s10, 432(sp)
	addi	sp, sp, 528
	ret
.Lfunc_end5f809:
	.size	hmac_mac.digest_after, .Lfunc_end5f809-hmac_mac.digest_after

	.section	".text.login_keys::gpsk::mac_key::MacKey::new","ax",@progbits
	.p2align	1
	.type	login_keys.gpsk.mac_key.MacKey.new,@function
login_keys.gpsk.mac_key.MacKey.new:
	addi	sp, sp, -720
	sd	ra, 712(sp)
	sd	s0, 704(sp)
	sd	s1, 696(sp)
	sd	s2, 688(sp)
	sd	s3, 680(sp)
	sd	s4, 672(sp)
	mv	s4, a3
	mv	s1, a2
	mv	s3, a1
	mv	s2, a0
	zext.b	s0, a1
	addi	a0, sp, 441
	li	a2, 215
	li	a1, 0
	call	memset
	beqz	s0, .LBBa1de9_2
	addi	a0, sp, 8
	mv	a1, s1
	mv	a2, s4
	call	hmac_mac.HmacKey.new
	addi	a0, sp, 448
	addi	a1, sp, 8
	j	.LBBa1de9_3
.LBBa1de9_2:
	sd	zero, 656(sp)
	sd	zero, 664(sp)
	addi	a0, sp, 656
	mv	a1, s1
	mv	a2, s4
	call	memcpy
	ld	a0, 656(sp)
	ld	a1, 664(sp)
	sd	a0, 216(sp)
	sd	a1, 224(sp)
	addi	a0, sp, 233
	addi	a1, sp, 216
	call	cmac_mac.key.CmacKey.new
	addi	a0, sp, 441
	addi	a1, sp, 233
.LBBa1de9_3:
	li	a2, 208
	call	memcpy
	sb	s3, 0(s2)
	addi	a0, s2, 1
	addi	a1, sp, 441
	li	a2, 215
	call	memcpy
	ld	ra, 712(sp)
	ld	s0, 704(sp)
	ld	s1, 696(sp)
	ld	s2, 688(sp)
	ld	s3, 680(sp)
	ld	s4, 672(sp)
	addi	sp, sp, 720
	ret
.Lfunc_enda1de9:
	.size	login_keys.gpsk.mac_key.MacKey.new, .Lfunc_enda1de9-login_keys.gpsk.mac_key.MacKey.new

	.section	".text.login_keys::gpsk::derive_keys","ax",@progbits
	.p2align	1
	.type	login_keys.gpsk.derive_keys,@function
login_keys.gpsk.derive_keys:
	addi	sp, sp, -592
	sd	ra, 584(sp)
	sd	s0, 576(sp)
	sd	s1, 568(sp)
	sd	s2, 560(sp)
	sd	s3, 552(sp)
	sd	s4, 544(sp)
	sd	s5, 536(sp)
	sd	s6, 528(sp)
	sd	s7, 520(sp)
	sd	s8, 512(sp)
	sd	s9, 504(sp)
	sd	s10, 496(sp)
	sd	s11, 488(sp)
	mv	s3, a5
	mv	s4, a4
	mv	s5, a3
	mv	s6, a1
	mv	s2, a0
	lbu	a6, 32(a2)
	lbu	a7, 33(a2)
	lbu	t0, 34(a2)
	lbu	t4, 35(a2)
	lbu	s8, 36(a2)
	lbu	s1, 37(a2)
	lbu	t1, 38(a2)
	lbu	t2, 39(a2)
	lbu	t3, 24(a2)
	lbu	s9, 25(a2)
	lbu	s0, 26(a2)
	lbu	a1, 27(a2)
	lbu	ra, 28(a2)
	lbu	a4, 29(a2)
	lbu	t5, 30(a2)
	lbu	t6, 31(a2)
	lbu	s7, 16(a2)
	lbu	s10, 17(a2)
	lbu	s11, 18(a2)
	lbu	a5, 19(a2)
	slli	a7, a7, 8
	slli	t0, t0, 16
	slli	t4, t4, 24
	slli	s1, s1, 8
	or	a6, a7, a6
	or	a7, t4, t0
	or	t0, s1, s8
	lbu	s1, 20(a2)
	lbu	a0, 21(a2)
	lbu	t4, 22(a2)
	lbu	a3, 23(a2)
	slli	t1, t1, 16
	slli	t2, t2, 24
	slli	s9, s9, 8
	slli	s0, s0, 16
	slli	a1, a1, 24
	slli	a4, a4, 8
	or	t1, t2, t1
	or	t2, s9, t3
	or	s8, a1, s0
	or	t3, a4, ra
	lbu	s9, 8(a2)
	lbu	ra, 9(a2)
	lbu	a4, 10(a2)
	lbu	s0, 11(a2)
	slli	t5, t5, 16
	slli	t6, t6, 24
	slli	s10, s10, 8
	slli	s11, s11, 16
	slli	a5, a5, 24
	slli	a0, a0, 8
	or	t6, t6, t5
	or	t5, s10, s7
	or	s7, a5, s11
	or	s10, a0, s1
	lbu	a0, 12(a2)
	lbu	a5, 13(a2)
	lbu	s1, 14(a2)
	lbu	a1, 15(a2)
	slli	t4, t4, 16
	slli	a3, a3, 24
	slli	ra, ra, 8
	slli	a4, a4, 16
	slli	s0, s0, 24
	slli	a5, a5, 8
	or	s11, a3, t4
	or	t4, ra, s9
	or	ra, s0, a4
	or	s9, a5, a0
	lbu	a5, 0(a2)
	lbu	s0, 1(a2)
	lbu	a3, 2(a2)
	lbu	a0, 3(a2)
	slli	s1, s1, 16
	slli	a1, a1, 24
	slli	s0, s0, 8
	slli	a3, a3, 16
	slli	a0, a0, 24
	or	a1, a1, s1
	or	a5, a5, s0
	or	a0, a0, a3
	lbu	a3, 5(a2)
	lbu	s0, 4(a2)
	lbu	s1, 6(a2)
	lbu	a2, 7(a2)
	slli	a3, a3, 8
	or	a3, a3, s0
	slli	s1, s1, 16
	slli	a2, a2, 24
	or	a2, a2, s1
	or	s1, a7, a6
	or	s0, t1, t0
	or	a6, s8, t2
	or	a4, t6, t3
	or	a7, s7, t5
	or	t0, s11, s10
	or	t1, ra, t4
	or	a1, a1, s9
	or	a0, a0, a5
	or	a2, a2, a3
	slli	s0, s0, 32
	or	s0, s0, s1
	slli	a4, a4, 32
	or	a3, a4, a6
	slli	t0, t0, 32
	or	a4, t0, a7
	slli	a1, a1, 32
	or	a1, a1, t1
	slli	a2, a2, 32
	or	a0, a0, a2
	sd	s0, 240(sp)
	sd	a0, 208(sp)
	sd	a1, 216(sp)
	sd	a4, 224(sp)
	sd	a3, 232(sp)
	addi	a0, sp, 8
	li	a2, 200
	li	a1, 0
	call	memset
	li	a1, 160
	addi	a5, sp, 480
	addi	a7, sp, 8
	mv	a0, s6
	mv	a2, s5
	mv	a3, s4
	mv	a4, s3
	li	a6, 0
	call	login_keys.gpsk.derivation.derive
	ld	a4, 200(sp)
	addi	a0, sp, 248
	addi	a2, sp, 208
	addi	a3, sp, 8
	mv	a1, s6
	call	login_keys.gpsk.cut_keys
	addi	a1, sp, 248
	li	a2, 232
	mv	a0, s2
	call	memcpy
	ld	ra, 584(sp)
	ld	s0, 576(sp)
	ld	s1, 568(sp)
	ld	s2, 560(sp)
	ld	s3, 552(sp)
	ld	s4, 544(sp)
	ld	s5, 536(sp)
	ld	s6, 528(sp)
	ld	s7, 520(sp)
	ld	s8, 512(sp)
	ld	s9, 504(sp)
	ld	s10, 496(sp)
	ld	s11, 488(sp)
	addi	sp, sp, 592
	ret
.Lfunc_end74ba4:
	.size	login_keys.gpsk.derive_keys, .Lfunc_end74ba4-login_keys.gpsk.derive_keys

	.section	".text.login_keys::gpsk::derivation::derive","ax",@progbits
	.p2align	1
	.type	login_keys.gpsk.derivation.derive,@function
login_keys.gpsk.derivation.derive:
	addi	sp, sp, -320
	sd	ra, 312(sp)
	sd	s0, 304(sp)
	sd	s1, 296(sp)
	sd	s2, 288(sp)
	sd	s3, 280(sp)
	sd	s4, 272(sp)
	sd	s5, 264(sp)
	sd	s6, 256(sp)
	sd	s7, 248(sp)
	sd	s8, 240(sp)
	sd	s9, 232(sp)
	sd	s10, 224(sp)
	sd	s11, 216(sp)
	mv	s9, a7
	mv	s5, a6
	mv	s3, a5
	mv	s4, a4
	mv	s11, a3
	mv	s6, a2
	mv	s2, a1
	zext.b	a0, a0
	seqz	a1, a0
	zext.b	a2, s2
	xori	a1, a1, 5
	srl	s10, a2, a1
	beqz	a0, .LBB64d7f_2
	li	a0, 31
	j	.LBB64d7f_3
.LBB64d7f_2:
	li	a0, 15
.LBB64d7f_3:
	and	a0, a0, s2
	snez	a0, a0
	add	s10, s10, a0
	beqz	s10, .LBB64d7f_14
	li	s1, 0
	addi	s8, sp, 200
	j	.LBB64d7f_6
.LBB64d7f_5:
	addi	s1, s1, 1
	beq	s10, s1, .LBB64d7f_15
.LBB64d7f_6:
	addi	a0, s1, 1
	sd	zero, 144(sp)
	sd	zero, 152(sp)
	sd	zero, 160(sp)
	sd	zero, 168(sp)
	sd	zero, 176(sp)
	srli	a1, a0, 8
	sb	a1, 0(s11)
	sb	a0, 1(s11)
	sd	zero, 80(sp)
	sd	zero, 88(sp)
	sd	zero, 96(sp)
	sd	zero, 104(sp)
	beqz	s5, .LBB64d7f_9
	lbu	a0, 0(s6)
	beqz	a0, .LBB64d7f_10
	addi	a0, sp, 80
	addi	a1, s6, 8
	mv	a2, s11
	mv	a3, s4
	mv	a4, s3
	mv	a5, s5
	call	login_keys.gpsk.mac_key.hmac_tag
	ld	a0, 80(sp)
	ld	a1, 88(sp)
	ld	a2, 96(sp)
	ld	a3, 104(sp)
	sd	a0, 112(sp)
	sd	a1, 120(sp)
	sd	a2, 128(sp)
	sd	a3, 136(sp)
	li	a0, 32
	j	.LBB64d7f_11
.LBB64d7f_9:
	addi	a0, sp, 144
	mv	a1, s6
	mv	a2, s11
	mv	a3, s4
	call	login_keys.gpsk.mac_key.MacKey.tag_whole
	ld	a0, 176(sp)
	sd	a0, 32(sp)
	ld	a0, 144(sp)
	ld	a1, 152(sp)
	ld	a2, 160(sp)
	ld	a3, 168(sp)
	sd	a0, 0(sp)
	sd	a1, 8(sp)
	sd	a2, 16(sp)
	sd	a3, 24(sp)
	j	.LBB64d7f_12
.LBB64d7f_10:
	addi	a0, sp, 184
	addi	a1, s6, 1
	mv	a2, s11
	mv	a3, s4
	mv	a4, s3
	mv	a5, s5
	call	login_keys.gpsk.mac_key.cmac_tag
	sd	zero, 0(s8)
	sd	zero, 8(s8)
	ld	a0, 184(sp)
	ld	a1, 192(sp)
	ld	a2, 200(sp)
	ld	a3, 208(sp)
	sd	a0, 112(sp)
	sd	a1, 120(sp)
	sd	a2, 128(sp)
	sd	a3, 136(sp)
	li	a0, 16
.LBB64d7f_11:
	ld	a1, 112(sp)
	ld	a2, 120(sp)
	ld	a3, 128(sp)
	ld	a4, 136(sp)
	sd	a0, 176(sp)
	sd	a1, 144(sp)
	sd	a2, 152(sp)
	sd	a3, 160(sp)
	sd	a4, 168(sp)
	sd	a1, 0(sp)
	sd	a2, 8(sp)
	sd	a3, 16(sp)
	sd	a4, 24(sp)
	sd	a0, 32(sp)
.LBB64d7f_12:
	ld	a0, 0(sp)
	ld	a1, 8(sp)
	ld	a2, 16(sp)
	ld	a3, 24(sp)
	ld	s0, 32(sp)
	ld	s7, 192(s9)
	sd	a0, 40(sp)
	sd	a1, 48(sp)
	sd	a2, 56(sp)
	sd	a3, 64(sp)
	li	a0, 192
	sub	a0, a0, s7
	sd	s0, 72(sp)
	bltu	a0, s0, .LBB64d7f_5
	add	a0, s9, s7
	addi	a1, sp, 40
	mv	a2, s0
	call	memcpy
	add	s7, s7, s0
	sd	s7, 192(s9)
	j	.LBB64d7f_5
.LBB64d7f_14:
	ld	s7, 192(s9)
.LBB64d7f_15:
	bgeu	s2, s7, .LBB64d7f_17
	add	a0, s9, s2
	sub	a2, s7, s2
	li	a1, 0
	call	memset
	sd	s2, 192(s9)
.LBB64d7f_17:
	ld	ra, 312(sp)
	ld	s0, 304(sp)
	ld	s1, 296(sp)
	ld	s2, 288(sp)
	ld	s3, 280(sp)
	ld	s4, 272(sp)
	ld	s5, 264(sp)
	ld	s6, 256(sp)
	ld	s7, 248(sp)
	ld	s8, 240(sp)
	ld	s9, 232(sp)
	ld	s10, 224(sp)
	ld	s11, 216(sp)
	addi	sp, sp, 320
	ret
.Lfunc_end64d7f:
	.size	login_keys.gpsk.derivation.derive, .Lfunc_end64d7f-login_keys.gpsk.derivation.derive

	.section	".text.login_keys::gpsk::mac_key::MacKey::tag_whole","ax",@progbits
	.p2align	1
	.type	login_keys.gpsk.mac_key.MacKey.tag_whole,@function
login_keys.gpsk.mac_key.MacKey.tag_whole:
	addi	sp, sp, -240
	sd	ra, 232(sp)
	sd	s0, 224(sp)
	sd	s1, 216(sp)
	sd	s2, 208(sp)
	sd	s3, 200(sp)
	sd	s4, 192(sp)
	sd	s5, 184(sp)
	sd	s6, 176(sp)
	sd	s7, 168(sp)
	sd	s8, 160(sp)
	sd	s9, 152(sp)
	lbu	a4, 0(a1)
	mv	s8, a0
	beqz	a4, .LBB22305_2
	addi	a4, a1, 8
	addi	s1, a1, 112
	addi	a0, sp, 120
	mv	a1, a4
	call	hmac_mac.digest_after
	addi	a0, sp, 8
	addi	a2, sp, 120
	li	a3, 32
	li	s2, 32
	mv	a1, s1
	call	hmac_mac.digest_after
	lbu	t2, 8(sp)
	lbu	a1, 9(sp)
	lbu	a2, 10(sp)
	lbu	a3, 11(sp)
	lbu	a6, 12(sp)
	lbu	a7, 13(sp)
	lbu	t0, 14(sp)
	lbu	t1, 15(sp)
	lbu	t6, 16(sp)
	lbu	s1, 17(sp)
	lbu	a4, 18(sp)
	lbu	a0, 19(sp)
	lbu	t3, 20(sp)
	lbu	t4, 21(sp)
	lbu	t5, 22(sp)
	lbu	s4, 23(sp)
	slli	a1, a1, 8
	slli	a2, a2, 16
	slli	a3, a3, 24
	or	t2, a1, t2
	or	s3, a3, a2
	lbu	a1, 24(sp)
	lbu	a2, 25(sp)
	lbu	a3, 26(sp)
	lbu	a5, 27(sp)
	slli	a7, a7, 8
	slli	t0, t0, 16
	slli	t1, t1, 24
	slli	s1, s1, 8
	slli	a4, a4, 16
	slli	a0, a0, 24
	or	a6, a7, a6
	or	a7, t1, t0
	or	t0, s1, t6
	or	t1, a0, a4
	lbu	t6, 28(sp)
	lbu	s1, 29(sp)
	lbu	a0, 30(sp)
	lbu	a4, 31(sp)
	slli	t4, t4, 8
	slli	t5, t5, 16
	slli	s4, s4, 24
	slli	a2, a2, 8
	slli	a3, a3, 16
	slli	a5, a5, 24
	or	t3, t4, t3
	or	t4, s4, t5
	or	t5, a2, a1
	or	s4, a5, a3
	lbu	a2, 32(sp)
	lbu	a5, 33(sp)
	lbu	a1, 34(sp)
	lbu	a3, 35(sp)
	slli	s1, s1, 8
	slli	a0, a0, 16
	slli	a4, a4, 24
	slli	a5, a5, 8
	slli	a1, a1, 16
	slli	a3, a3, 24
	or	t6, s1, t6
	or	s5, a4, a0
	or	s6, a5, a2
	or	s7, a3, a1
	lbu	a3, 37(sp)
	lbu	a4, 36(sp)
	lbu	a5, 38(sp)
	lbu	s1, 39(sp)
	slli	a3, a3, 8
	or	s9, a3, a4
	slli	a5, a5, 16
	slli	s1, s1, 24
	or	a5, a5, s1
	or	a4, s3, t2
	or	s1, a7, a6
	or	a0, t1, t0
	or	a2, t4, t3
	or	a1, s4, t5
	or	s0, s5, t6
	or	a3, s7, s6
	or	a5, a5, s9
	slli	s1, s1, 32
	or	a4, a4, s1
	slli	a2, a2, 32
	or	a0, a0, a2
	slli	s0, s0, 32
	or	a1, a1, s0
	slli	a5, a5, 32
	or	a3, a3, a5
	sd	a4, 56(sp)
	sd	a0, 64(sp)
	sd	a1, 72(sp)
	sd	a3, 80(sp)
	j	.LBB22305_3
.LBB22305_2:
	addi	a1, a1, 1
	addi	a0, sp, 40
	call	cmac_mac.key.CmacKey.tag_whole
	lbu	a0, 48(sp)
	lbu	a1, 49(sp)
	lbu	a2, 50(sp)
	lbu	a3, 51(sp)
	lbu	a6, 52(sp)
	lbu	a5, 53(sp)
	lbu	s1, 54(sp)
	lbu	a4, 55(sp)
	slli	a1, a1, 8
	slli	a2, a2, 16
	slli	a3, a3, 24
	or	a7, a1, a0
	or	t0, a3, a2
	lbu	a1, 40(sp)
	lbu	a3, 41(sp)
	lbu	a0, 42(sp)
	lbu	a2, 43(sp)
	slli	a5, a5, 8
	slli	s1, s1, 16
	slli	a4, a4, 24
	slli	a3, a3, 8
	slli	a0, a0, 16
	slli	a2, a2, 24
	or	a6, a5, a6
	or	a4, a4, s1
	or	a1, a1, a3
	or	a0, a0, a2
	lbu	a2, 45(sp)
	lbu	a3, 44(sp)
	lbu	s1, 46(sp)
	lbu	a5, 47(sp)
	slli	a2, a2, 8
	or	a2, a2, a3
	slli	s1, s1, 16
	slli	a5, a5, 24
	or	a5, a5, s1
	or	a3, t0, a7
	or	a4, a4, a6
	or	a0, a0, a1
	or	a2, a2, a5
	slli	a4, a4, 32
	slli	a2, a2, 32
	or	a3, a3, a4
	or	a0, a0, a2
	sd	a0, 56(sp)
	sd	a3, 64(sp)
	sd	zero, 72(sp)
	sd	zero, 80(sp)
	li	s2, 16
.LBB22305_3:
	addi	a1, sp, 56
	li	a2, 32
	mv	a0, s8
	call	memcpy
	sb	zero, 36(s8)
	sb	zero, 37(s8)
	sb	zero, 38(s8)
	sb	zero, 39(s8)
	sb	s2, 32(s8)
	sb	zero, 33(s8)
	sb	zero, 34(s8)
	sb	zero, 35(s8)
	ld	ra, 232(sp)
	ld	s0, 224(sp)
	ld	s1, 216(sp)
	ld	s2, 208(sp)
	ld	s3, 200(sp)
	ld	s4, 192(sp)
	ld	s5, 184(sp)
	ld	s6, 176(sp)
	ld	s7, 168(sp)
	ld	s8, 160(sp)
	ld	s9, 152(sp)
	addi	sp, sp, 240
	ret
.Lfunc_end22305:
	.size	login_keys.gpsk.mac_key.MacKey.tag_whole, .Lfunc_end22305-login_keys.gpsk.mac_key.MacKey.tag_whole

	.section	".text.login_keys::gpsk::mac_key::cmac_tag","ax",@progbits
	.p2align	1
	.type	login_keys.gpsk.mac_key.cmac_tag,@function
login_keys.gpsk.mac_key.cmac_tag:
	addi	sp, sp, -32
	sd	ra, 24(sp)
	sd	s0, 16(sp)
	mv	s0, a0
	sd	zero, 0(sp)
	sd	zero, 8(sp)
	mv	a0, sp
	call	cmac_mac.key.CmacKey.tag
	mv	a1, sp
	li	a2, 16
	mv	a0, s0
	call	memcpy
	ld	ra, 24(sp)
	ld	s0, 16(sp)
	addi	sp, sp, 32
	ret
.Lfunc_end4c2ad:
	.size	login_keys.gpsk.mac_key.cmac_tag, .Lfunc_end4c2ad-login_keys.gpsk.mac_key.cmac_tag

	.section	".text.login_keys::gpsk::mac_key::hmac_tag","ax",@progbits
	.p2align	1
	.type	login_keys.gpsk.mac_key.hmac_tag,@function
login_keys.gpsk.mac_key.hmac_tag:
	addi	sp, sp, -784
	sd	ra, 776(sp)
	sd	s0, 768(sp)
	sd	s1, 760(sp)
	sd	s2, 752(sp)
	sd	s3, 744(sp)
	sd	s4, 736(sp)
	sd	s5, 728(sp)
	sd	s6, 720(sp)
	sd	s7, 712(sp)
	sd	s8, 704(sp)
	sd	s9, 696(sp)
	sd	s10, 688(sp)
	sd	s11, 680(sp)
	mv	s6, a5
	mv	s2, a4
	mv	s4, a3
	mv	s5, a2
	mv	s0, a1
	mv	s3, a0
	lbu	t2, 24(a1)
	lbu	a1, 25(a1)
	lbu	a2, 26(s0)
	lbu	a3, 27(s0)
	lbu	a6, 28(s0)
	lbu	a7, 29(s0)
	lbu	t0, 30(s0)
	lbu	t1, 31(s0)
	lbu	t5, 16(s0)
	lbu	s1, 17(s0)
	lbu	a4, 18(s0)
	lbu	a0, 19(s0)
	lbu	t3, 20(s0)
	lbu	t4, 21(s0)
	lbu	t6, 22(s0)
	lbu	s8, 23(s0)
	slli	a1, a1, 8
	slli	a2, a2, 16
	slli	a3, a3, 24
	or	t2, a1, t2
	or	s7, a3, a2
	lbu	a1, 8(s0)
	lbu	a2, 9(s0)
	lbu	a3, 10(s0)
	lbu	a5, 11(s0)
	slli	a7, a7, 8
	slli	t0, t0, 16
	slli	t1, t1, 24
	slli	s1, s1, 8
	slli	a4, a4, 16
	slli	a0, a0, 24
	or	a6, a7, a6
	or	a7, t1, t0
	or	t0, s1, t5
	or	t1, a0, a4
	lbu	t5, 12(s0)
	lbu	s1, 13(s0)
	lbu	a0, 14(s0)
	lbu	a4, 15(s0)
	slli	t4, t4, 8
	slli	t6, t6, 16
	slli	s8, s8, 24
	slli	a2, a2, 8
	slli	a3, a3, 16
	slli	a5, a5, 24
	or	t3, t4, t3
	or	t4, s8, t6
	or	t6, a2, a1
	or	s8, a5, a3
	lbu	a2, 0(s0)
	lbu	a5, 1(s0)
	lbu	a1, 2(s0)
	lbu	a3, 3(s0)
	slli	s1, s1, 8
	slli	a0, a0, 16
	slli	a4, a4, 24
	slli	a5, a5, 8
	slli	a1, a1, 16
	slli	a3, a3, 24
	or	t5, s1, t5
	or	s9, a4, a0
	or	s10, a5, a2
	or	s11, a3, a1
	lbu	a3, 5(s0)
	lbu	a4, 4(s0)
	lbu	a5, 6(s0)
	lbu	s1, 7(s0)
	slli	a3, a3, 8
	or	ra, a3, a4
	slli	a5, a5, 16
	slli	s1, s1, 24
	or	a5, a5, s1
	or	a4, s7, t2
	or	s1, a7, a6
	or	a0, t1, t0
	or	a2, t4, t3
	or	a1, s8, t6
	or	a3, s9, t5
	or	a6, s11, s10
	or	a5, a5, ra
	slli	s1, s1, 32
	or	a4, a4, s1
	slli	a2, a2, 32
	or	a0, a0, a2
	slli	a3, a3, 32
	or	a3, a3, a1
	sd	zero, 408(sp)
	sd	zero, 416(sp)
	sd	zero, 424(sp)
	sd	zero, 432(sp)
	slli	a5, a5, 32
	or	a2, a5, a6
	addi	a1, s0, 32
	sd	a2, 472(sp)
	sd	a3, 480(sp)
	sd	a0, 488(sp)
	sd	a4, 496(sp)
	addi	a0, sp, 504
	li	a2, 64
	call	memcpy
	ld	s8, 96(s0)
	addi	s7, sp, 583
	addi	a1, sp, 472
	li	a2, 96
	mv	a0, s7
	call	memcpy
	addi	s1, sp, 479
	li	a2, 96
	mv	a0, s1
	mv	a1, s7
	call	memcpy
	addi	a0, sp, 104
	li	a2, 96
	mv	a1, s1
	call	memcpy
	lbu	t2, 128(s0)
	lbu	a1, 129(s0)
	lbu	a2, 130(s0)
	lbu	a3, 131(s0)
	lbu	a6, 132(s0)
	lbu	a7, 133(s0)
	lbu	t0, 134(s0)
	lbu	t1, 135(s0)
	lbu	t5, 120(s0)
	lbu	s1, 121(s0)
	lbu	a4, 122(s0)
	lbu	a0, 123(s0)
	lbu	t3, 124(s0)
	lbu	t4, 125(s0)
	lbu	t6, 126(s0)
	lbu	s9, 127(s0)
	slli	a1, a1, 8
	slli	a2, a2, 16
	slli	a3, a3, 24
	or	t2, a1, t2
	or	s7, a3, a2
	lbu	a1, 112(s0)
	lbu	a2, 113(s0)
	lbu	a3, 114(s0)
	lbu	a5, 115(s0)
	slli	a7, a7, 8
	slli	t0, t0, 16
	slli	t1, t1, 24
	slli	s1, s1, 8
	slli	a4, a4, 16
	slli	a0, a0, 24
	or	a6, a7, a6
	or	a7, t1, t0
	or	t0, s1, t5
	or	t1, a0, a4
	lbu	t5, 116(s0)
	lbu	s1, 117(s0)
	lbu	a0, 118(s0)
	lbu	a4, 119(s0)
	slli	t4, t4, 8
	slli	t6, t6, 16
	slli	s9, s9, 24
	slli	a2, a2, 8
	slli	a3, a3, 16
	slli	a5, a5, 24
	or	t3, t4, t3
	or	t4, s9, t6
	or	t6, a2, a1
	or	s9, a5, a3
	lbu	a2, 104(s0)
	lbu	a5, 105(s0)
	lbu	a1, 106(s0)
	lbu	a3, 107(s0)
	slli	s1, s1, 8
	slli	a0, a0, 16
	slli	a4, a4, 24
	slli	a5, a5, 8
	slli	a1, a1, 16
	slli	a3, a3, 24
	or	t5, s1, t5
	or	s10, a4, a0
	or	s11, a5, a2
	or	ra, a3, a1
	lbu	a3, 109(s0)
	lbu	a4, 108(s0)
	lbu	a5, 110(s0)
	lbu	s1, 111(s0)
	slli	a3, a3, 8
	or	a3, a3, a4
	slli	a5, a5, 16
	slli	s1, s1, 24
	or	a5, a5, s1
	or	a4, s7, t2
	or	s1, a7, a6
	or	a6, t1, t0
	or	a2, t4, t3
	or	a1, s9, t6
	or	a0, s10, t5
	or	a7, ra, s11
	or	a3, a3, a5
	slli	s1, s1, 32
	or	a4, a4, s1
	slli	a2, a2, 32
	or	a2, a2, a6
	slli	a0, a0, 32
	or	a0, a0, a1
	slli	a3, a3, 32
	or	a3, a3, a7
	addi	a1, s0, 136
	sd	a3, 472(sp)
	sd	a0, 480(sp)
	sd	a2, 488(sp)
	sd	a4, 496(sp)
	addi	a0, sp, 504
	li	a2, 64
	call	memcpy
	ld	s7, 200(s0)
	addi	s0, sp, 583
	addi	a1, sp, 472
	li	a2, 96
	mv	a0, s0
	call	memcpy
	addi	s1, sp, 479
	li	a2, 96
	mv	a0, s1
	mv	a1, s0
	call	memcpy
	addi	a0, sp, 8
	li	a2, 96
	mv	a1, s1
	call	memcpy
	addi	a0, sp, 200
	addi	a1, sp, 104
	li	a2, 96
	call	memcpy
	sd	s8, 296(sp)
	addi	s8, sp, 304
	addi	a1, sp, 8
	li	a2, 96
	mv	a0, s8
	call	memcpy
	sd	s7, 400(sp)
	addi	a0, sp, 200
	mv	a1, s5
	mv	a2, s4
	call	sha2.block256.Core256.update
	beqz	s6, .LBB00ef1_3
	addi	s2, s2, 8
	slli	s1, s6, 4
	add	s1, s1, s2
.LBB00ef1_2:
	ld	a1, -8(s2)
	ld	a2, 0(s2)
	addi	a0, sp, 200
	call	sha2.block256.Core256.update
	addi	s2, s2, 16
	bne	s2, s1, .LBB00ef1_2
.LBB00ef1_3:
	ld	s1, 296(sp)
	ld	s0, 400(sp)
	addi	a0, sp, 576
	addi	a1, sp, 200
	li	a2, 96
	call	memcpy
	sd	s1, 672(sp)
	addi	a0, sp, 472
	li	a2, 96
	mv	a1, s8
	call	memcpy
	sd	s0, 568(sp)
	addi	a0, sp, 440
	addi	a1, sp, 576
	call	sha2.Sha256Digest.finalize
	addi	a0, sp, 472
	addi	a1, sp, 440
	li	a2, 32
	call	sha2.block256.Core256.update
	addi	a0, sp, 408
	addi	a1, sp, 472
	call	sha2.Sha256Digest.finalize
	addi	a1, sp, 408
	li	a2, 32
	mv	a0, s3
	call	memcpy
	ld	ra, 776(sp)
	ld	s0, 768(sp)
	ld	s1, 760(sp)
	ld	s2, 752(sp)
	ld	s3, 744(sp)
	ld	s4, 736(sp)
	ld	s5, 728(sp)
	ld	s6, 720(sp)
	ld	s7, 712(sp)
	ld	s8, 704(sp)
	ld	s9, 696(sp)
	ld	s10, 688(sp)
	ld	s11, 680(sp)
	addi	sp, sp, 784
	ret
.Lfunc_end00ef1:
	.size	login_keys.gpsk.mac_key.hmac_tag, .Lfunc_end00ef1-login_keys.gpsk.mac_key.hmac_tag

	.section	".text.login_keys::gpsk::cut_keys","ax",@progbits
	.p2align	1
	.type	login_keys.gpsk.cut_keys,@function
login_keys.gpsk.cut_keys:
	addi	sp, sp, -432
	sd	ra, 424(sp)
	sd	s0, 416(sp)
	sd	s1, 408(sp)
	sd	s2, 400(sp)
	sd	s3, 392(sp)
	sd	s4, 384(sp)
	sd	s5, 376(sp)
	sd	s6, 368(sp)
	sd	s7, 360(sp)
	sd	s8, 352(sp)
	sd	s9, 344(sp)
	sd	s10, 336(sp)
	sd	s11, 328(sp)
	mv	s4, a4
	mv	s3, a3
	mv	s0, a2
	mv	s2, a0
	zext.b	a0, a1
	li	s6, 16
	li	s1, 16
	beqz	a0, .LBBcb1c9_2
	li	s1, 32
.LBBcb1c9_2:
	addiw	s7, s1, 128
	addi	s5, s3, 128
	li	a2, 40
	addi	a0, sp, 264
	sub	a2, a2, s1
	add	a0, a0, s1
	li	a1, 0
	call	memset
	addi	a0, sp, 264
	mv	a1, s5
	mv	a2, s1
	call	memcpy
	sd	s1, 296(sp)
	sub	s1, s4, s7
	sd	zero, 304(sp)
	sd	zero, 312(sp)
	sd	zero, 320(sp)
	bltu	s6, s1, .LBBcb1c9_4
	add	a1, s3, s7
	addi	a0, sp, 304
	mv	a2, s1
	call	memcpy
	sd	s1, 320(sp)
.LBBcb1c9_4:
	ld	a7, 304(sp)
	ld	s4, 312(sp)
	ld	t0, 320(sp)
	lbu	a6, 0(s0)
	lbu	s5, 1(s0)
	lbu	s6, 2(s0)
	lbu	s7, 3(s0)
	lbu	s8, 4(s0)
	lbu	a2, 5(s0)
	lbu	t1, 6(s0)
	lbu	t2, 7(s0)
	lbu	t5, 8(s0)
	lbu	s10, 9(s0)
	lbu	s1, 10(s0)
	lbu	a3, 11(s0)
	lbu	ra, 12(s0)
	lbu	a0, 13(s0)
	lbu	t3, 14(s0)
	lbu	t4, 15(s0)
	lbu	t6, 16(s0)
	lbu	s9, 17(s0)
	lbu	s11, 18(s0)
	lbu	a5, 19(s0)
	sd	a7, 8(sp)
	sd	s4, 16(sp)
	sd	t0, 24(sp)
	slli	s5, s5, 8
	slli	s6, s6, 16
	slli	s7, s7, 24
	slli	a2, a2, 8
	or	a6, s5, a6
	or	a7, s7, s6
	or	t0, a2, s8
	lbu	a2, 20(s0)
	lbu	a1, 21(s0)
	lbu	s4, 22(s0)
	lbu	s6, 23(s0)
	slli	t1, t1, 16
	slli	t2, t2, 24
	slli	s10, s10, 8
	slli	s1, s1, 16
	slli	a3, a3, 24
	slli	a0, a0, 8
	or	t1, t2, t1
	or	t2, s10, t5
	or	t5, a3, s1
	or	s5, a0, ra
	lbu	s8, 24(s0)
	lbu	a0, 25(s0)
	lbu	a3, 26(s0)
	lbu	a4, 27(s0)
	slli	t3, t3, 16
	slli	t4, t4, 24
	slli	s9, s9, 8
	slli	s11, s11, 16
	slli	a5, a5, 24
	slli	a1, a1, 8
	or	t3, t4, t3
	or	t4, s9, t6
	or	s7, a5, s11
	or	t6, a1, a2
	lbu	a1, 28(s0)
	lbu	a2, 29(s0)
	lbu	a5, 30(s0)
	lbu	s1, 31(s0)
	slli	s4, s4, 16
	slli	s6, s6, 24
	slli	a0, a0, 8
	slli	a3, a3, 16
	slli	a4, a4, 24
	slli	a2, a2, 8
	or	s4, s6, s4
	or	s6, a0, s8
	or	s9, a4, a3
	or	s8, a2, a1
	lbu	a2, 32(s0)
	lbu	a4, 33(s0)
	lbu	a0, 34(s0)
	lbu	a1, 35(s0)
	slli	a5, a5, 16
	slli	s1, s1, 24
	slli	a4, a4, 8
	slli	a0, a0, 16
	slli	a1, a1, 24
	or	s11, s1, a5
	or	s10, a4, a2
	or	ra, a1, a0
	lbu	a1, 37(s0)
	lbu	a4, 36(s0)
	lbu	s1, 38(s0)
	lbu	s0, 39(s0)
	slli	a1, a1, 8
	or	a1, a1, a4
	slli	s1, s1, 16
	slli	s0, s0, 24
	or	s0, s0, s1
	or	a4, a7, a6
	or	s1, t1, t0
	or	a7, t5, t2
	or	a2, t3, s5
	or	a5, s7, t4
	or	a0, s4, t6
	or	a6, s9, s6
	or	a3, s11, s8
	or	t0, ra, s10
	or	a1, a1, s0
	slli	s1, s1, 32
	or	a4, a4, s1
	slli	a2, a2, 32
	or	a2, a2, a7
	slli	a0, a0, 32
	or	a0, a0, a5
	slli	a3, a3, 32
	or	a3, a3, a6
	slli	a1, a1, 32
	or	a1, a1, t0
	addi	s0, s3, 64
	sd	a4, 32(sp)
	sd	a2, 40(sp)
	sd	a0, 48(sp)
	sd	a3, 56(sp)
	sd	a1, 64(sp)
	addi	a0, sp, 72
	li	a2, 64
	mv	a1, s3
	call	memcpy
	addi	a0, sp, 136
	li	a2, 64
	mv	a1, s0
	call	memcpy
	ld	a0, 264(sp)
	ld	a1, 272(sp)
	ld	a2, 280(sp)
	ld	a3, 288(sp)
	ld	a4, 296(sp)
	sd	a0, 200(sp)
	sd	a1, 208(sp)
	sd	a2, 216(sp)
	sd	a3, 224(sp)
	ld	a0, 8(sp)
	ld	a1, 16(sp)
	ld	a2, 24(sp)
	sd	a4, 232(sp)
	sd	a0, 240(sp)
	sd	a1, 248(sp)
	sd	a2, 256(sp)
	addi	a1, sp, 32
	li	a2, 232
	mv	a0, s2
	call	memcpy
	ld	ra, 424(sp)
	ld	s0, 416(sp)
	ld	s1, 408(sp)
	ld	s2, 400(sp)
	ld	s3, 392(sp)
	ld	s4, 384(sp)
	ld	s5, 376(sp)
	ld	s6, 368(sp)
	ld	s7, 360(sp)
	ld	s8, 352(sp)
	ld	s9, 344(sp)
	ld	s10, 336(sp)
	ld	s11, 328(sp)
	addi	sp, sp, 432
	ret
.Lfunc_endcb1c9:
	.size	login_keys.gpsk.cut_keys, .Lfunc_endcb1c9-login_keys.gpsk.cut_keys

	.section	".text.gpsk_ends::peer::turns::expand::<#e0641de541981142>","ax",@progbits
	.p2align	1
	.type	gpsk_ends.peer.turns.expand.__e0641de541981142_,@function
gpsk_ends.peer.turns.expand.__e0641de541981142_:
	addi	sp, sp, -528
	sd	ra, 520(sp)
	sd	s0, 512(sp)
	sd	s1, 504(sp)
	sd	s2, 496(sp)
	sd	s3, 488(sp)
	sd	s4, 480(sp)
	sd	s5, 472(sp)
	sd	s6, 464(sp)
	sd	s7, 456(sp)
	mv	s2, t3
	mv	s3, a7
	mv	s4, a6
	mv	s1, a4
	mv	s5, a3
	mv	s6, a2
	mv	s7, a1
	mv	s0, a0
	addi	a0, sp, 216
	li	a2, 232
	mv	a1, a5
	call	memcpy
	ld	a3, 416(sp)
	lbu	a1, 64(s1)
	addi	a2, sp, 384
	mv	a0, sp
	call	login_keys.gpsk.mac_key.MacKey.new
	addi	a0, sp, 453
	addi	a5, sp, 216
	mv	a6, sp
	mv	a1, s7
	mv	a2, s6
	mv	a3, s5
	mv	a4, s1
	mv	a7, s4
	mv	t3, s3
	mv	t4, s2
	call	gpsk_ends.peer.turns.log_in.__e0641de541981142_
	lbu	a0, 453(sp)
	lbu	a1, 454(sp)
	lbu	a2, 455(sp)
	sb	a0, 0(s0)
	sb	a1, 1(s0)
	sb	a2, 2(s0)
	ld	ra, 520(sp)
	ld	s0, 512(sp)
	ld	s1, 504(sp)
	ld	s2, 496(sp)
	ld	s3, 488(sp)
	ld	s4, 480(sp)
	ld	s5, 472(sp)
	ld	s6, 464(sp)
	ld	s7, 456(sp)
	addi	sp, sp, 528
	ret
.Lfunc_enda6c3c:
	.size	gpsk_ends.peer.turns.expand.__e0641de541981142_, .Lfunc_enda6c3c-gpsk_ends.peer.turns.expand.__e0641de541981142_

	.section	".text.gpsk_ends::peer::turns::log_in::<#e0641de541981142>","ax",@progbits
	.p2align	1
	.type	gpsk_ends.peer.turns.log_in.__e0641de541981142_,@function
gpsk_ends.peer.turns.log_in.__e0641de541981142_:
	addi	sp, sp, -1232
	sd	ra, 1224(sp)
	sd	s0, 1216(sp)
	sd	s1, 1208(sp)
	sd	s2, 1200(sp)
	sd	s3, 1192(sp)
	sd	s4, 1184(sp)
	sd	s5, 1176(sp)
	sd	s6, 1168(sp)
	sd	s7, 1160(sp)
	sd	s8, 1152(sp)
	sd	s9, 1144(sp)
	sd	s10, 1136(sp)
	sd	s11, 1128(sp)
	mv	s7, t4
	sd	t3, 24(sp)
	sd	a7, 16(sp)
	mv	s1, a6
	mv	s0, a4
	mv	s10, a3
	mv	s6, a2
	mv	s8, a1
	mv	s4, a0
	addi	a0, sp, 736
	li	a2, 232
	mv	a1, a5
	call	memcpy
	lbu	s11, 0(s1)
	addi	a1, s1, 1
	addi	a0, sp, 521
	li	a2, 215
	call	memcpy
	lbu	a0, 528(s8)
	sd	zero, 64(sp)
	addi	s5, s8, 264
	bnez	a0, .LBB26f2b_2
	lbu	a0, 8(s0)
	lbu	a1, 9(s0)
	lbu	a2, 10(s0)
	lbu	a3, 11(s0)
	lbu	a6, 12(s0)
	lbu	a5, 13(s0)
	lbu	s1, 14(s0)
	lbu	a4, 15(s0)
	slli	a1, a1, 8
	slli	a2, a2, 16
	slli	a3, a3, 24
	or	a7, a1, a0
	or	t0, a3, a2
	lbu	a1, 0(s0)
	lbu	a3, 1(s0)
	lbu	a0, 2(s0)
	lbu	a2, 3(s0)
	slli	a5, a5, 8
	slli	s1, s1, 16
	slli	a4, a4, 24
	slli	a3, a3, 8
	slli	a0, a0, 16
	slli	a2, a2, 24
	or	a6, a5, a6
	or	a4, a4, s1
	or	a1, a1, a3
	or	a0, a0, a2
	lbu	a2, 5(s0)
	lbu	a3, 4(s0)
	lbu	s1, 6(s0)
	lbu	a5, 7(s0)
	slli	a2, a2, 8
	or	a2, a2, a3
	slli	s1, s1, 16
	slli	a5, a5, 24
	or	a5, a5, s1
	or	a3, t0, a7
	or	a4, a4, a6
	or	a0, a0, a1
	or	a2, a2, a5
	slli	a4, a4, 32
	slli	a1, a2, 32
	or	a2, a4, a3
	or	a1, a1, a0
	mv	a0, s5
	call	octet_lists.octets.Octets.set.__253_
.LBB26f2b_2:
	lbu	t2, 16(s0)
	lbu	a1, 17(s0)
	lbu	a2, 18(s0)
	lbu	a3, 19(s0)
	lbu	a6, 20(s0)
	lbu	a7, 21(s0)
	lbu	t0, 22(s0)
	lbu	t1, 23(s0)
	lbu	t5, 24(s0)
	lbu	s1, 25(s0)
	lbu	a4, 26(s0)
	lbu	a0, 27(s0)
	lbu	t3, 28(s0)
	lbu	t4, 29(s0)
	lbu	t6, 30(s0)
	lbu	s3, 31(s0)
	slli	a1, a1, 8
	slli	a2, a2, 16
	slli	a3, a3, 24
	or	t2, a1, t2
	or	s2, a3, a2
	lbu	a1, 32(s0)
	lbu	a2, 33(s0)
	lbu	a3, 34(s0)
	lbu	a5, 35(s0)
	slli	a7, a7, 8
	slli	t0, t0, 16
	slli	t1, t1, 24
	slli	s1, s1, 8
	slli	a4, a4, 16
	slli	a0, a0, 24
	or	a6, a7, a6
	or	a7, t1, t0
	or	t0, s1, t5
	or	t1, a0, a4
	lbu	t5, 36(s0)
	lbu	s1, 37(s0)
	lbu	a0, 38(s0)
	lbu	a4, 39(s0)
	slli	t4, t4, 8
	slli	t6, t6, 16
	slli	s3, s3, 24
	slli	a2, a2, 8
	slli	a3, a3, 16
	slli	a5, a5, 24
	or	t3, t4, t3
	or	t4, s3, t6
	or	t6, a2, a1
	or	s3, a5, a3
	lbu	a2, 40(s0)
	lbu	a5, 41(s0)
	lbu	a1, 42(s0)
	lbu	a3, 43(s0)
	slli	s1, s1, 8
	slli	a0, a0, 16
	slli	a4, a4, 24
	slli	a5, a5, 8
	slli	a1, a1, 16
	slli	a3, a3, 24
	or	t5, s1, t5
	or	s9, a4, a0
	or	ra, a5, a2
	or	a1, a1, a3
	lbu	a3, 45(s0)
	lbu	a4, 44(s0)
	lbu	a5, 46(s0)
	lbu	s1, 47(s0)
	slli	a3, a3, 8
	or	a3, a3, a4
	slli	a5, a5, 16
	slli	s1, s1, 24
	or	a5, a5, s1
	or	a4, s2, t2
	or	s1, a7, a6
	or	a7, t1, t0
	or	a2, t4, t3
	or	a6, s3, t6
	or	a0, s9, t5
	or	a1, a1, ra
	or	a3, a3, a5
	slli	s1, s1, 32
	or	a4, a4, s1
	slli	a2, a2, 32
	or	a2, a2, a7
	slli	a0, a0, 32
	or	a0, a0, a6
	lbu	s2, 64(s0)
	slli	a3, a3, 32
	or	a1, a1, a3
	sb	s2, 64(sp)
	sd	a4, 32(sp)
	sd	a2, 40(sp)
	sd	a0, 48(sp)
	sd	a1, 56(sp)
	addi	a0, sp, 72
	addi	a1, sp, 736
	li	a2, 232
	call	memcpy
	sb	s11, 304(sp)
	addi	a0, sp, 305
	addi	a1, sp, 521
	li	a2, 215
	call	memcpy
	lbu	a0, 48(s0)
	lbu	a1, 49(s0)
	lbu	a2, 50(s0)
	lbu	a3, 51(s0)
	lbu	a4, 52(s0)
	lbu	a5, 53(s0)
	lbu	a6, 54(s0)
	lbu	s1, 55(s0)
	slli	a1, a1, 8
	slli	a2, a2, 16
	slli	a3, a3, 24
	slli	a5, a5, 8
	or	a7, a1, a0
	or	t0, a3, a2
	or	a4, a4, a5
	lbu	a1, 56(s0)
	lbu	a3, 57(s0)
	lbu	a5, 58(s0)
	lbu	a0, 59(s0)
	slli	a6, a6, 16
	slli	s1, s1, 24
	slli	a3, a3, 8
	slli	a5, a5, 16
	slli	a0, a0, 24
	or	s1, s1, a6
	or	a1, a1, a3
	or	a0, a0, a5
	lbu	a3, 61(s0)
	lbu	a5, 60(s0)
	lbu	a2, 62(s0)
	lbu	s0, 63(s0)
	slli	a3, a3, 8
	or	a3, a3, a5
	slli	a2, a2, 16
	slli	s0, s0, 24
	or	a2, a2, s0
	or	a5, t0, a7
	or	a4, a4, s1
	or	a0, a0, a1
	sd	zero, 0(s7)
	or	a2, a2, a3
	slli	a4, a4, 32
	slli	a2, a2, 32
	or	s11, a4, a5
	or	s1, a2, a0
	addi	s7, s7, 8
	addi	a0, sp, 968
	li	a2, 128
	li	a1, 0
	call	memset
	ld	s0, 256(s8)
	ld	s9, 520(s8)
	addi	a0, sp, 1008
	li	a2, 32
	li	s3, 32
	mv	a1, s6
	call	memcpy
	ld	a0, 32(sp)
	ld	a1, 40(sp)
	ld	a2, 48(sp)
	ld	a3, 56(sp)
	sd	a0, 1040(sp)
	sd	a1, 1048(sp)
	sd	a2, 1056(sp)
	sd	a3, 1064(sp)
	beqz	s2, .LBB26f2b_4
.Lpcrel_hi20:
	auipc	a0, %pcrel_hi(.Lstatic.14)
	addi	a0, a0, %pcrel_lo(.Lpcrel_hi20)
	j	.LBB26f2b_5
.LBB26f2b_4:
	li	s3, 16
.Lpcrel_hi19:
	auipc	a0, %pcrel_hi(.Lstatic.10)
	addi	a0, a0, %pcrel_lo(.Lpcrel_hi19)
.LBB26f2b_5:
	li	s6, 1
	sd	s9, 1000(sp)
.Lpcrel_hi21:
	auipc	a1, %pcrel_hi(.Lstatic.0)
	sw	s6, 968(sp)
	sd	s8, 976(sp)
	sd	s0, 984(sp)
	sd	s5, 992(sp)
	addi	a1, a1, %pcrel_lo(.Lpcrel_hi21)
	sd	s11, 1072(sp)
	sd	s1, 1080(sp)
	sb	s2, 1088(sp)
	sd	a1, 1096(sp)
	sd	zero, 1104(sp)
	sd	a0, 1112(sp)
	sd	s3, 1120(sp)
	addi	a1, sp, 968
	li	a2, 1
	addi	a0, sp, 64
	ld	a3, 16(sp)
	ld	a4, 24(sp)
	mv	a5, s7
	call	gpsk_ends.keys.Keys.seal.__e0641de541981142_
	sb	zero, 4(s10)
	sb	zero, 5(s10)
	sb	zero, 6(s10)
	sb	zero, 7(s10)
	li	s0, 2
	sb	s0, 0(s10)
	sb	zero, 1(s10)
	sb	zero, 2(s10)
	sb	zero, 3(s10)
	addi	a0, s10, 8
	addi	a1, sp, 32
	li	a2, 488
	call	memcpy
	sb	zero, 496(s10)
	sb	zero, 497(s10)
	sb	s6, 0(s4)
	sb	s0, 1(s4)
	sb	zero, 2(s4)
	ld	ra, 1224(sp)
	ld	s0, 1216(sp)
	ld	s1, 1208(sp)
	ld	s2, 1200(sp)
	ld	s3, 1192(sp)
	ld	s4, 1184(sp)
	ld	s5, 1176(sp)
	ld	s6, 1168(sp)
	ld	s7, 1160(sp)
	ld	s8, 1152(sp)
	ld	s9, 1144(sp)
	ld	s10, 1136(sp)
	ld	s11, 1128(sp)
	addi	sp, sp, 1232
	ret
.Lfunc_end26f2b:
	.size	gpsk_ends.peer.turns.log_in.__e0641de541981142_, .Lfunc_end26f2b-gpsk_ends.peer.turns.log_in.__e0641de541981142_

	.section	".text.gpsk_ends::keys::Keys::seal::<#e0641de541981142>","ax",@progbits
	.p2align	1
	.type	gpsk_ends.keys.Keys.seal.__e0641de541981142_,@function
gpsk_ends.keys.Keys.seal.__e0641de541981142_:
	addi	sp, sp, -128
	sd	ra, 120(sp)
	sd	s0, 112(sp)
	sd	s1, 104(sp)
	sd	s2, 96(sp)
	sd	s3, 88(sp)
	sd	s4, 80(sp)
	mv	s2, a5
	mv	s4, a4
	mv	s3, a0
	lbu	s0, 0(a0)
	mv	a0, a4
	call	gpsk_messages.writing.write_gpsk_into
	ld	s1, 1504(s4)
	beqz	s0, .LBBd2ac0_2
	li	a2, 32
	bgeu	s1, a2, .LBBd2ac0_3
	j	.LBBd2ac0_4
.LBBd2ac0_2:
	li	a2, 16
	bltu	s1, a2, .LBBd2ac0_4
.LBBd2ac0_3:
	sub	s1, s1, a2
	add	a0, s4, s1
	li	a1, 0
	call	memset
	sd	s1, 1504(s4)
.LBBd2ac0_4:
	addi	a2, s4, 6
	addi	a3, s1, -6
	addi	a1, s3, 240
	mv	a0, sp
	call	login_keys.gpsk.mac_key.MacKey.tag_whole
	ld	a0, 0(sp)
	ld	a1, 8(sp)
	ld	a2, 16(sp)
	ld	a3, 24(sp)
	li	a4, 1
	sd	a4, 0(s2)
	ld	s1, 32(sp)
	ld	s0, 1504(s4)
	sd	a0, 40(sp)
	sd	a1, 48(sp)
	sd	a2, 56(sp)
	sd	a3, 64(sp)
	li	a0, 1500
	sub	a0, a0, s0
	sd	s1, 72(sp)
	bltu	a0, s1, .LBBd2ac0_6
	add	a0, s4, s0
	addi	a1, sp, 40
	mv	a2, s1
	call	memcpy
	add	s0, s0, s1
	sd	s0, 1504(s4)
.LBBd2ac0_6:
	ld	ra, 120(sp)
	ld	s0, 112(sp)
	ld	s1, 104(sp)
	ld	s2, 96(sp)
	ld	s3, 88(sp)
	ld	s4, 80(sp)
	addi	sp, sp, 128
	ret
.Lfunc_endd2ac0:
	.size	gpsk_ends.keys.Keys.seal.__e0641de541981142_, .Lfunc_endd2ac0-gpsk_ends.keys.Keys.seal.__e0641de541981142_

	.section	".text.gpsk_messages::writing::write_gpsk_into","ax",@progbits
	.p2align	1
	.type	gpsk_messages.writing.write_gpsk_into,@function
gpsk_messages.writing.write_gpsk_into:
	addi	sp, sp, -80
	sd	ra, 72(sp)
	sd	s0, 64(sp)
	sd	s1, 56(sp)
	sd	s2, 48(sp)
	sd	s3, 40(sp)
	sd	s4, 32(sp)
	sd	s5, 24(sp)
	sd	s6, 16(sp)
	sd	s7, 8(sp)
	mv	a5, a3
	mv	s1, a1
	mv	s2, a0
	lbu	a0, 0(a1)
.Lpcrel_hi22:
	auipc	a1, %pcrel_hi(.LJTI880ad_0)
	slli	a0, a0, 2
	addi	a1, a1, %pcrel_lo(.Lpcrel_hi22)
	add	a0, a0, a1
	lw	a0, 0(a0)
	add	a0, a0, a1
	li	a4, 5
	jr	a0
.LBB880ad_1:
	ld	a0, 16(s1)
	ld	a1, 64(s1)
	add	a0, a0, a1
	addi	a4, a0, 37
	j	.LBB880ad_6
.LBB880ad_2:
	ld	a0, 16(s1)
	ld	a1, 32(s1)
	add	a0, a0, a1
	addi	a4, a0, 3
	j	.LBB880ad_6
.LBB880ad_3:
	ld	a0, 16(s1)
	ld	a1, 32(s1)
	ld	a3, 112(s1)
	ld	a4, 136(s1)
	ld	s0, 152(s1)
	add	a0, a0, a1
	add	a3, a3, a4
	add	a0, a0, a3
	add	a0, a0, s0
	addi	a4, a0, 79
	j	.LBB880ad_6
.LBB880ad_4:
	ld	a0, 80(s1)
	ld	a1, 104(s1)
	ld	a3, 120(s1)
	add	a0, a0, a1
	add	a0, a0, a3
	addi	a4, a0, 75
	j	.LBB880ad_6
.LBB880ad_5:
	ld	a4, 16(s1)
	addi	a4, a4, 5
.LBB880ad_6:
	li	a3, 51
	mv	a0, s2
	mv	a1, a2
	mv	a2, a5
	call	eap_packet.packet.init_into
	ld	a1, 1504(s2)
	lbu	a0, 0(s1)
	li	s0, 1500
	beq	a1, s0, .LBB880ad_8
	addi	a0, a0, 1
	add	a2, s2, a1
	addi	s0, a1, 1
	sb	a0, 0(a2)
	sd	s0, 1504(s2)
	lbu	a0, 0(s1)
.LBB880ad_8:
	slli	a0, a0, 2
.Lpcrel_hi23:
	auipc	a1, %pcrel_hi(.LJTI880ad_1)
	addi	a1, a1, %pcrel_lo(.Lpcrel_hi23)
	add	a0, a0, a1
	lw	a0, 0(a0)
	add	a0, a0, a1
	jr	a0
.LBB880ad_9:
	lbu	a0, 8(s1)
	lbu	a1, 9(s1)
	lbu	a2, 10(s1)
	lbu	a3, 11(s1)
	lbu	a6, 12(s1)
	lbu	a5, 13(s1)
	lbu	s0, 14(s1)
	lbu	a4, 15(s1)
	slli	a1, a1, 8
	slli	a2, a2, 16
	slli	a3, a3, 24
	or	a7, a1, a0
	or	t0, a3, a2
	lbu	a1, 16(s1)
	lbu	a3, 17(s1)
	lbu	a0, 18(s1)
	lbu	a2, 19(s1)
	slli	a5, a5, 8
	slli	s0, s0, 16
	slli	a4, a4, 24
	slli	a3, a3, 8
	slli	a0, a0, 16
	slli	a2, a2, 24
	or	a6, a5, a6
	or	a4, a4, s0
	or	a1, a1, a3
	or	a0, a0, a2
	lbu	a2, 21(s1)
	lbu	a3, 20(s1)
	lbu	s0, 22(s1)
	lbu	a5, 23(s1)
	slli	a2, a2, 8
	or	a2, a2, a3
	slli	s0, s0, 16
	slli	a5, a5, 24
	or	a5, a5, s0
	or	a3, t0, a7
	or	a4, a4, a6
	or	a0, a0, a1
	or	a2, a2, a5
	slli	a1, a4, 32
	slli	a2, a2, 32
	or	a1, a1, a3
	or	a2, a2, a0
	mv	a0, s2
	call	gpsk_messages.writing.put_sized
	addi	a1, s1, 24
	mv	a0, s2
	call	gpsk_messages.writing.put_rand
	lbu	a0, 56(s1)
	lbu	a1, 57(s1)
	lbu	a2, 58(s1)
	lbu	a3, 59(s1)
	lbu	a4, 60(s1)
	lbu	a5, 61(s1)
	lbu	a6, 62(s1)
	lbu	s0, 63(s1)
	slli	a1, a1, 8
	slli	a2, a2, 16
	slli	a3, a3, 24
	slli	a5, a5, 8
	or	a7, a1, a0
	or	t0, a3, a2
	or	a4, a4, a5
	lbu	a1, 64(s1)
	lbu	a3, 65(s1)
	lbu	a5, 66(s1)
	lbu	a0, 67(s1)
	slli	a6, a6, 16
	slli	s0, s0, 24
	slli	a3, a3, 8
	slli	a5, a5, 16
	slli	a0, a0, 24
	or	s0, s0, a6
	or	a1, a1, a3
	or	a0, a0, a5
	lbu	a3, 69(s1)
	lbu	a5, 68(s1)
	lbu	a2, 70(s1)
	lbu	s1, 71(s1)
	slli	a3, a3, 8
	or	a3, a3, a5
	slli	a2, a2, 16
	slli	s1, s1, 24
	or	a2, a2, s1
	or	a5, t0, a7
	or	a4, a4, s0
	or	a0, a0, a1
	or	a2, a2, a3
	slli	a1, a4, 32
	slli	a2, a2, 32
	or	a1, a1, a5
	or	a2, a2, a0
	mv	a0, s2
	ld	ra, 72(sp)
	ld	s0, 64(sp)
	ld	s1, 56(sp)
	ld	s2, 48(sp)
	ld	s3, 40(sp)
	ld	s4, 32(sp)
	ld	s5, 24(sp)
	ld	s6, 16(sp)
	ld	s7, 8(sp)
	addi	sp, sp, 80
	tail	gpsk_messages.writing.put_sized
.LBB880ad_10:
	addi	a0, s0, -1497
	li	a1, 4
	bltu	a0, a1, .LBB880ad_30
	lw	a0, 4(s1)
	add	a1, s2, s0
	addi	s0, s0, 4
	srli	a2, a0, 24
	srli	a3, a0, 8
	srli	a4, a0, 16
	sb	a2, 0(a1)
	sb	a4, 1(a1)
	sb	a3, 2(a1)
	sb	a0, 3(a1)
	j	.LBB880ad_29
.LBB880ad_12:
	addi	a1, s1, 8
	addi	s0, s1, 40
	mv	a0, s2
	call	gpsk_messages.writing.put_rand
	mv	a0, s2
	mv	a1, s0
	call	gpsk_messages.writing.put_rand
	lbu	a0, 72(s1)
	lbu	a1, 73(s1)
	lbu	a2, 74(s1)
	lbu	a3, 75(s1)
	lbu	a6, 76(s1)
	lbu	a5, 77(s1)
	lbu	s0, 78(s1)
	lbu	a4, 79(s1)
	slli	a1, a1, 8
	slli	a2, a2, 16
	slli	a3, a3, 24
	or	a7, a1, a0
	or	t0, a3, a2
	lbu	a1, 80(s1)
	lbu	a3, 81(s1)
	lbu	a0, 82(s1)
	lbu	a2, 83(s1)
	slli	a5, a5, 8
	slli	s0, s0, 16
	slli	a4, a4, 24
	slli	a3, a3, 8
	slli	a0, a0, 16
	slli	a2, a2, 24
	or	a6, a5, a6
	or	a4, a4, s0
	or	a1, a1, a3
	or	a0, a0, a2
	lbu	a2, 85(s1)
	lbu	a3, 84(s1)
	lbu	s0, 86(s1)
	lbu	a5, 87(s1)
	slli	a2, a2, 8
	or	a2, a2, a3
	slli	s0, s0, 16
	slli	a5, a5, 24
	or	a5, a5, s0
	or	a3, t0, a7
	or	a4, a4, a6
	or	a0, a0, a1
	or	a2, a2, a5
	slli	a1, a4, 32
	slli	a2, a2, 32
	or	a1, a1, a3
	or	a2, a2, a0
	mv	a0, s2
	call	gpsk_messages.writing.put_sized
	lbu	a1, 88(s1)
	lbu	a0, 96(s1)
	lbu	a2, 97(s1)
	lbu	a7, 98(s1)
	lbu	t1, 99(s1)
	lbu	a6, 100(s1)
	lbu	s0, 101(s1)
	lbu	a5, 102(s1)
	lbu	a3, 103(s1)
	lbu	t0, 104(s1)
	lbu	a4, 105(s1)
	lbu	t2, 106(s1)
	lbu	t3, 107(s1)
	lbu	t4, 108(s1)
	lbu	t5, 109(s1)
	lbu	t6, 110(s1)
	slli	a2, a2, 8
	or	s3, a2, a0
	lbu	a2, 111(s1)
	lbu	s4, 112(s1)
	lbu	a0, 113(s1)
	lbu	s5, 114(s1)
	slli	a7, a7, 16
	slli	t1, t1, 24
	slli	s0, s0, 8
	slli	a5, a5, 16
	slli	a3, a3, 24
	slli	a4, a4, 8
	or	a7, t1, a7
	or	a6, s0, a6
	or	t1, a3, a5
	or	t0, a4, t0
	lbu	s7, 115(s1)
	lbu	s6, 116(s1)
	lbu	a3, 117(s1)
	lbu	a4, 118(s1)
	slli	t2, t2, 16
	slli	t3, t3, 24
	slli	t5, t5, 8
	slli	t6, t6, 16
	slli	a2, a2, 24
	slli	a0, a0, 8
	or	t2, t3, t2
	or	t3, t5, t4
	or	t5, a2, t6
	or	t4, a0, s4
	lbu	a0, 119(s1)
	lbu	a2, 120(s1)
	lbu	s0, 121(s1)
	lbu	a5, 122(s1)
	slli	s5, s5, 16
	slli	s7, s7, 24
	slli	a3, a3, 8
	slli	a4, a4, 16
	slli	a0, a0, 24
	slli	s0, s0, 8
	or	t6, s7, s5
	or	s4, a3, s6
	or	s5, a0, a4
	or	s6, s0, a2
	lbu	a4, 123(s1)
	lbu	s0, 124(s1)
	lbu	a3, 125(s1)
	lbu	a0, 126(s1)
	slli	a5, a5, 16
	slli	a4, a4, 24
	or	s7, a4, a5
	lbu	a5, 127(s1)
	j	.LBB880ad_18
.LBB880ad_13:
	lbu	a0, 8(s1)
	lbu	a1, 9(s1)
	lbu	a2, 10(s1)
	lbu	a3, 11(s1)
	lbu	a6, 12(s1)
	lbu	a5, 13(s1)
	lbu	s0, 14(s1)
	lbu	a4, 15(s1)
	slli	a1, a1, 8
	slli	a2, a2, 16
	slli	a3, a3, 24
	or	a7, a1, a0
	or	t0, a3, a2
	lbu	a1, 16(s1)
	lbu	a3, 17(s1)
	lbu	a0, 18(s1)
	lbu	a2, 19(s1)
	slli	a5, a5, 8
	slli	s0, s0, 16
	slli	a4, a4, 24
	slli	a3, a3, 8
	slli	a0, a0, 16
	slli	a2, a2, 24
	or	a6, a5, a6
	or	a4, a4, s0
	or	a1, a1, a3
	or	a0, a0, a2
	lbu	a2, 21(s1)
	lbu	a3, 20(s1)
	lbu	s0, 22(s1)
	lbu	a5, 23(s1)
	slli	a2, a2, 8
	or	a2, a2, a3
	slli	s0, s0, 16
	slli	a5, a5, 24
	or	a5, a5, s0
	or	a3, t0, a7
	or	a4, a4, a6
	or	a0, a0, a1
	or	a2, a2, a5
	slli	a1, a4, 32
	slli	a2, a2, 32
	or	a1, a1, a3
	or	a2, a2, a0
	mv	a0, s2
	call	gpsk_messages.writing.put_sized
	lbu	a0, 33(s1)
	lbu	a1, 34(s1)
	lbu	a2, 35(s1)
	lbu	a3, 32(s1)
	slli	a0, a0, 8
	slli	a1, a1, 16
	slli	a2, a2, 24
	or	a0, a0, a3
	or	a1, a1, a2
	lbu	a2, 37(s1)
	lbu	a3, 36(s1)
	lbu	a4, 38(s1)
	lbu	a5, 39(s1)
	slli	a2, a2, 8
	or	a2, a2, a3
	slli	a4, a4, 16
	slli	a5, a5, 24
	or	a4, a4, a5
	or	a0, a0, a1
	ld	s3, 1504(s2)
	or	a2, a2, a4
	li	a1, 1500
	slli	a2, a2, 32
	or	s0, a2, a0
	sub	a0, a1, s3
	bltu	a0, s0, .LBB880ad_30
	lbu	a0, 25(s1)
	lbu	a1, 26(s1)
	lbu	a2, 27(s1)
	lbu	a3, 24(s1)
	slli	a0, a0, 8
	slli	a1, a1, 16
	slli	a2, a2, 24
	or	a0, a0, a3
	or	a1, a1, a2
	lbu	a2, 29(s1)
	lbu	a3, 28(s1)
	lbu	a4, 30(s1)
	lbu	a5, 31(s1)
	slli	a2, a2, 8
	or	a2, a2, a3
	slli	a4, a4, 16
	slli	a5, a5, 24
	or	a4, a4, a5
	or	a0, a0, a1
	or	a2, a2, a4
	slli	a1, a2, 32
	or	a1, a1, a0
	add	a0, s2, s3
	sub	a2, a0, a1
	bgeu	a2, s0, .LBB880ad_25
	add	a2, a1, s0
.LBB880ad_16:
	lbu	a3, 0(a1)
	addi	a1, a1, 1
	sb	a3, 0(a0)
	addi	a0, a0, 1
	bne	a1, a2, .LBB880ad_16
	j	.LBB880ad_28
.LBB880ad_17:
	lbu	a0, 8(s1)
	lbu	a1, 9(s1)
	lbu	a2, 10(s1)
	lbu	a3, 11(s1)
	lbu	a6, 12(s1)
	lbu	a5, 13(s1)
	lbu	s0, 14(s1)
	lbu	a4, 15(s1)
	slli	a1, a1, 8
	slli	a2, a2, 16
	slli	a3, a3, 24
	or	a7, a1, a0
	or	t0, a3, a2
	lbu	a1, 16(s1)
	lbu	a3, 17(s1)
	lbu	a0, 18(s1)
	lbu	a2, 19(s1)
	slli	a5, a5, 8
	slli	s0, s0, 16
	slli	a4, a4, 24
	slli	a3, a3, 8
	slli	a0, a0, 16
	slli	a2, a2, 24
	or	a6, a5, a6
	or	a4, a4, s0
	or	a1, a1, a3
	or	a0, a0, a2
	lbu	a2, 21(s1)
	lbu	a3, 20(s1)
	lbu	s0, 22(s1)
	lbu	a5, 23(s1)
	slli	a2, a2, 8
	or	a2, a2, a3
	slli	s0, s0, 16
	slli	a5, a5, 24
	or	a5, a5, s0
	or	a3, t0, a7
	or	a4, a4, a6
	or	a0, a0, a1
	or	a2, a2, a5
	slli	a1, a4, 32
	slli	a2, a2, 32
	or	a1, a1, a3
	or	a2, a2, a0
	mv	a0, s2
	call	gpsk_messages.writing.put_sized
	lbu	a0, 24(s1)
	lbu	a1, 25(s1)
	lbu	a2, 26(s1)
	lbu	a3, 27(s1)
	lbu	a6, 28(s1)
	lbu	a5, 29(s1)
	lbu	s0, 30(s1)
	lbu	a4, 31(s1)
	slli	a1, a1, 8
	slli	a2, a2, 16
	slli	a3, a3, 24
	or	a7, a1, a0
	or	t0, a3, a2
	lbu	a1, 32(s1)
	lbu	a3, 33(s1)
	lbu	a0, 34(s1)
	lbu	a2, 35(s1)
	slli	a5, a5, 8
	slli	s0, s0, 16
	slli	a4, a4, 24
	slli	a3, a3, 8
	slli	a0, a0, 16
	slli	a2, a2, 24
	or	a6, a5, a6
	or	a4, a4, s0
	or	a1, a1, a3
	or	a0, a0, a2
	lbu	a2, 37(s1)
	lbu	a3, 36(s1)
	lbu	s0, 38(s1)
	lbu	a5, 39(s1)
	slli	a2, a2, 8
	or	a2, a2, a3
	slli	s0, s0, 16
	slli	a5, a5, 24
	or	a5, a5, s0
	or	a3, t0, a7
	or	a4, a4, a6
	or	a0, a0, a1
	or	a2, a2, a5
	slli	a1, a4, 32
	slli	a2, a2, 32
	or	a1, a1, a3
	or	a2, a2, a0
	mv	a0, s2
	call	gpsk_messages.writing.put_sized
	addi	a1, s1, 40
	addi	s0, s1, 72
	mv	a0, s2
	call	gpsk_messages.writing.put_rand
	mv	a0, s2
	mv	a1, s0
	call	gpsk_messages.writing.put_rand
	lbu	a0, 104(s1)
	lbu	a1, 105(s1)
	lbu	a2, 106(s1)
	lbu	a3, 107(s1)
	lbu	a6, 108(s1)
	lbu	a5, 109(s1)
	lbu	s0, 110(s1)
	lbu	a4, 111(s1)
	slli	a1, a1, 8
	slli	a2, a2, 16
	slli	a3, a3, 24
	or	a7, a1, a0
	or	t0, a3, a2
	lbu	a1, 112(s1)
	lbu	a3, 113(s1)
	lbu	a0, 114(s1)
	lbu	a2, 115(s1)
	slli	a5, a5, 8
	slli	s0, s0, 16
	slli	a4, a4, 24
	slli	a3, a3, 8
	slli	a0, a0, 16
	slli	a2, a2, 24
	or	a6, a5, a6
	or	a4, a4, s0
	or	a1, a1, a3
	or	a0, a0, a2
	lbu	a2, 117(s1)
	lbu	a3, 116(s1)
	lbu	s0, 118(s1)
	lbu	a5, 119(s1)
	slli	a2, a2, 8
	or	a2, a2, a3
	slli	s0, s0, 16
	slli	a5, a5, 24
	or	a5, a5, s0
	or	a3, t0, a7
	or	a4, a4, a6
	or	a0, a0, a1
	or	a2, a2, a5
	slli	a1, a4, 32
	slli	a2, a2, 32
	or	a1, a1, a3
	or	a2, a2, a0
	mv	a0, s2
	call	gpsk_messages.writing.put_sized
	lbu	a1, 120(s1)
	lbu	a0, 128(s1)
	lbu	a2, 129(s1)
	lbu	a7, 130(s1)
	lbu	t1, 131(s1)
	lbu	a6, 132(s1)
	lbu	s0, 133(s1)
	lbu	a5, 134(s1)
	lbu	a3, 135(s1)
	lbu	t0, 136(s1)
	lbu	a4, 137(s1)
	lbu	t2, 138(s1)
	lbu	t3, 139(s1)
	lbu	t4, 140(s1)
	lbu	t5, 141(s1)
	lbu	t6, 142(s1)
	slli	a2, a2, 8
	or	s3, a2, a0
	lbu	a2, 143(s1)
	lbu	s4, 144(s1)
	lbu	a0, 145(s1)
	lbu	s5, 146(s1)
	slli	a7, a7, 16
	slli	t1, t1, 24
	slli	s0, s0, 8
	slli	a5, a5, 16
	slli	a3, a3, 24
	slli	a4, a4, 8
	or	a7, t1, a7
	or	a6, s0, a6
	or	t1, a3, a5
	or	t0, a4, t0
	lbu	s7, 147(s1)
	lbu	s6, 148(s1)
	lbu	a3, 149(s1)
	lbu	a4, 150(s1)
	slli	t2, t2, 16
	slli	t3, t3, 24
	slli	t5, t5, 8
	slli	t6, t6, 16
	slli	a2, a2, 24
	slli	a0, a0, 8
	or	t2, t3, t2
	or	t3, t5, t4
	or	t5, a2, t6
	or	t4, a0, s4
	lbu	a0, 151(s1)
	lbu	a2, 152(s1)
	lbu	s0, 153(s1)
	lbu	a5, 154(s1)
	slli	s5, s5, 16
	slli	s7, s7, 24
	slli	a3, a3, 8
	slli	a4, a4, 16
	slli	a0, a0, 24
	slli	s0, s0, 8
	or	t6, s7, s5
	or	s4, a3, s6
	or	s5, a0, a4
	or	s6, s0, a2
	lbu	a4, 155(s1)
	lbu	s0, 156(s1)
	lbu	a3, 157(s1)
	lbu	a0, 158(s1)
	slli	a5, a5, 16
	slli	a4, a4, 24
	or	s7, a4, a5
	lbu	a5, 159(s1)
.LBB880ad_18:
	slli	a3, a3, 8
	or	a2, a3, s0
	slli	a0, a0, 16
	slli	a5, a5, 24
	or	a0, a0, a5
	or	a5, a7, s3
	or	s1, t1, a6
	or	a6, t2, t0
	or	a4, t5, t3
	or	a7, t6, t4
	or	a3, s5, s4
	or	s0, s7, s6
	or	a0, a0, a2
	slli	a2, s1, 32
	or	a2, a2, a5
	slli	a4, a4, 32
	slli	a5, a3, 32
	slli	a0, a0, 32
	or	a3, a4, a6
	or	a4, a5, a7
	or	a5, a0, s0
	mv	a0, s2
	ld	ra, 72(sp)
	ld	s0, 64(sp)
	ld	s1, 56(sp)
	ld	s2, 48(sp)
	ld	s3, 40(sp)
	ld	s4, 32(sp)
	ld	s5, 24(sp)
	ld	s6, 16(sp)
	ld	s7, 8(sp)
	addi	sp, sp, 80
	tail	gpsk_messages.writing.put_sealed
.LBB880ad_19:
	addi	a0, s0, -1497
	li	a1, 4
	bltu	a0, a1, .LBB880ad_21
	lw	a0, 4(s1)
	add	a1, s2, s0
	addi	s0, s0, 4
	srli	a2, a0, 24
	srli	a3, a0, 8
	srli	a4, a0, 16
	sb	a2, 0(a1)
	sb	a4, 1(a1)
	sb	a3, 2(a1)
	sb	a0, 3(a1)
	sd	s0, 1504(s2)
.LBB880ad_21:
	ld	s3, 16(s1)
	li	a0, 1500
	sub	a0, a0, s0
	bltu	a0, s3, .LBB880ad_30
	ld	a1, 8(s1)
	add	a0, s2, s0
	sub	a2, a0, a1
	bgeu	a2, s3, .LBB880ad_26
	add	a2, a1, s3
.LBB880ad_24:
	lbu	a3, 0(a1)
	addi	a1, a1, 1
	sb	a3, 0(a0)
	addi	a0, a0, 1
	bne	a1, a2, .LBB880ad_24
	j	.LBB880ad_28
.LBB880ad_25:
	mv	a2, s0
	j	.LBB880ad_27
.LBB880ad_26:
	mv	a2, s3
.LBB880ad_27:
	call	memmove
.LBB880ad_28:
	add	s0, s0, s3
.LBB880ad_29:
	sd	s0, 1504(s2)
.LBB880ad_30:
	ld	ra, 72(sp)
	ld	s0, 64(sp)
	ld	s1, 56(sp)
	ld	s2, 48(sp)
	ld	s3, 40(sp)
	ld	s4, 32(sp)
	ld	s5, 24(sp)
	ld	s6, 16(sp)
	ld	s7, 8(sp)
	addi	sp, sp, 80
	ret
.Lfunc_end880ad:
	.size	gpsk_messages.writing.write_gpsk_into, .Lfunc_end880ad-gpsk_messages.writing.write_gpsk_into
	.section	".rodata.gpsk_messages::writing::write_gpsk_into","a",@progbits
	.p2align	2, 0x0
.LJTI880ad_0:
	.word	.LBB880ad_1-.LJTI880ad_0
	.word	.LBB880ad_3-.LJTI880ad_0
	.word	.LBB880ad_4-.LJTI880ad_0
	.word	.LBB880ad_2-.LJTI880ad_0
	.word	.LBB880ad_6-.LJTI880ad_0
	.word	.LBB880ad_5-.LJTI880ad_0
.LJTI880ad_1:
	.word	.LBB880ad_9-.LJTI880ad_1
	.word	.LBB880ad_17-.LJTI880ad_1
	.word	.LBB880ad_12-.LJTI880ad_1
	.word	.LBB880ad_13-.LJTI880ad_1
	.word	.LBB880ad_10-.LJTI880ad_1
	.word	.LBB880ad_19-.LJTI880ad_1

	.section	".text.gpsk_messages::writing::put_rand","ax",@progbits
	.p2align	1
	.type	gpsk_messages.writing.put_rand,@function
gpsk_messages.writing.put_rand:
	addi	sp, sp, -32
	sd	ra, 24(sp)
	sd	s0, 16(sp)
	sd	s1, 8(sp)
	ld	s0, 1504(a0)
	addi	a2, s0, -1469
	li	a3, 32
	bltu	a2, a3, .LBB4ae58_6
	add	a3, a0, s0
	sub	a2, a3, a1
	li	a4, 31
	bltu	a4, a2, .LBB4ae58_4
	addi	a2, a1, 32
.LBB4ae58_3:
	lbu	a4, 0(a1)
	addi	a1, a1, 1
	sb	a4, 0(a3)
	addi	a3, a3, 1
	bne	a1, a2, .LBB4ae58_3
	j	.LBB4ae58_5
.LBB4ae58_4:
	li	a2, 32
	mv	s1, a0
	mv	a0, a3
	call	memmove
	mv	a0, s1
.LBB4ae58_5:
	addi	a1, s0, 32
	sd	a1, 1504(a0)
.LBB4ae58_6:
	ld	ra, 24(sp)
	ld	s0, 16(sp)
	ld	s1, 8(sp)
	addi	sp, sp, 32
	ret
.Lfunc_end4ae58:
	.size	gpsk_messages.writing.put_rand, .Lfunc_end4ae58-gpsk_messages.writing.put_rand

	.section	".text.gpsk_messages::writing::put_sealed","ax",@progbits
	.p2align	1
	.type	gpsk_messages.writing.put_sealed,@function
gpsk_messages.writing.put_sealed:
	addi	sp, sp, -48
	sd	ra, 40(sp)
	sd	s0, 32(sp)
	sd	s1, 24(sp)
	sd	s2, 16(sp)
	sd	s3, 8(sp)
	mv	s2, a5
	mv	s0, a4
	mv	a7, a3
	mv	t0, a2
	mv	s1, a0
	ld	a0, 1504(a0)
	li	a4, 6
	addi	a5, a0, -1495
	sw	zero, 0(sp)
	sb	zero, 4(sp)
	bltu	a5, a4, .LBB8e168_2
	zext.b	a6, a1
	add	a4, s1, a0
	lbu	a5, 0(sp)
	lbu	a1, 1(sp)
	lbu	a3, 2(sp)
	lbu	a2, 3(sp)
	sb	a5, 0(a4)
	sb	a1, 1(a4)
	sb	a3, 2(a4)
	sb	a2, 3(a4)
	lbu	a1, 4(sp)
	addi	a0, a0, 6
	snez	a2, a6
	addi	a2, a2, 1
	sb	a1, 4(a4)
	sb	a2, 5(a4)
	sd	a0, 1504(s1)
.LBB8e168_2:
	mv	a0, s1
	mv	a1, t0
	mv	a2, a7
	call	gpsk_messages.writing.put_sized
	ld	s3, 1504(s1)
	li	a0, 1500
	sub	a0, a0, s3
	bltu	a0, s2, .LBB8e168_8
	add	a0, s1, s3
	sub	a1, a0, s0
	bgeu	a1, s2, .LBB8e168_6
	add	a1, s0, s2
.LBB8e168_5:
	lbu	a2, 0(s0)
	addi	s0, s0, 1
	sb	a2, 0(a0)
	addi	a0, a0, 1
	bne	s0, a1, .LBB8e168_5
	j	.LBB8e168_7
.LBB8e168_6:
	mv	a1, s0
	mv	a2, s2
	call	memmove
.LBB8e168_7:
	add	s2, s2, s3
	sd	s2, 1504(s1)
.LBB8e168_8:
	ld	ra, 40(sp)
	ld	s0, 32(sp)
	ld	s1, 24(sp)
	ld	s2, 16(sp)
	ld	s3, 8(sp)
	addi	sp, sp, 48
	ret
.Lfunc_end8e168:
	.size	gpsk_messages.writing.put_sealed, .Lfunc_end8e168-gpsk_messages.writing.put_sealed

	.section	".text.gpsk_messages::writing::put_sized","ax",@progbits
	.p2align	1
	.type	gpsk_messages.writing.put_sized,@function
gpsk_messages.writing.put_sized:
	addi	sp, sp, -48
	sd	ra, 40(sp)
	sd	s0, 32(sp)
	sd	s1, 24(sp)
	sd	s2, 16(sp)
	slli	a3, a2, 8
	ld	s1, 1504(a0)
	slli	a4, a2, 48
	srli	a4, a4, 56
	or	a3, a3, a4
	addi	a4, s1, -1499
	li	a6, 2
	sh	a3, 14(sp)
	bltu	a4, a6, .LBB1290a_4
	add	a5, a0, s1
	addi	s0, sp, 14
	sub	a4, a5, s0
	bgeu	a4, a6, .LBB1290a_3
	lh	a3, 14(sp)
.LBB1290a_3:
	srli	a4, a3, 8
	addi	s1, s1, 2
	sb	a3, 0(a5)
	sb	a4, 1(a5)
	sd	s1, 1504(a0)
.LBB1290a_4:
	li	a3, 1500
	sub	a3, a3, s1
	bltu	a3, a2, .LBB1290a_10
	add	a3, a0, s1
	sub	a4, a3, a1
	bgeu	a4, a2, .LBB1290a_8
	add	a4, a1, a2
.LBB1290a_7:
	lbu	a5, 0(a1)
	addi	a1, a1, 1
	sb	a5, 0(a3)
	addi	a3, a3, 1
	bne	a1, a4, .LBB1290a_7
	j	.LBB1290a_9
.LBB1290a_8:
	mv	s2, a0
	mv	a0, a3
	mv	s0, a2
	call	memmove
	mv	a0, s2
	mv	a2, s0
.LBB1290a_9:
	add	a2, a2, s1
	sd	a2, 1504(a0)
.LBB1290a_10:
	ld	ra, 40(sp)
	ld	s0, 32(sp)
	ld	s1, 24(sp)
	ld	s2, 16(sp)
	addi	sp, sp, 48
	ret
.Lfunc_end1290a:
	.size	gpsk_messages.writing.put_sized, .Lfunc_end1290a-gpsk_messages.writing.put_sized

	.section	".text.gpsk_ends::peer::turns::known_reads::<#e0641de541981142>","ax",@progbits
	.p2align	1
	.type	gpsk_ends.peer.turns.known_reads.__e0641de541981142_,@function
gpsk_ends.peer.turns.known_reads.__e0641de541981142_:
	addi	sp, sp, -640
	sd	ra, 632(sp)
	sd	s0, 624(sp)
	sd	s1, 616(sp)
	sd	s2, 608(sp)
	sd	s3, 600(sp)
	sd	s4, 592(sp)
	sd	s5, 584(sp)
	sd	s6, 576(sp)
	sd	s7, 568(sp)
	sd	s8, 560(sp)
	sd	s9, 552(sp)
	sd	s10, 544(sp)
	sd	s11, 536(sp)
	mv	s1, a3
	mv	s10, a0
	lbu	s4, 1(a5)
	addi	s6, a5, 5
	lbu	a0, 0(a4)
	addi	s7, a6, -5
	sd	a1, 32(sp)
	sd	a2, 40(sp)
	sd	a3, 48(sp)
	beqz	a0, .LBB18693_3
	lbu	s0, 32(s1)
	addi	a0, sp, 368
	li	a2, 168
	li	a1, 0
	call	memset
	beqz	s0, .LBB18693_5
	li	a4, 32
	j	.LBB18693_6
.LBB18693_3:
	mv	s3, a2
	mv	s8, a1
	sd	t3, 8(sp)
	sd	a7, 16(sp)
	sd	a4, 24(sp)
	lbu	s0, 32(s1)
	addi	a0, sp, 368
	li	a2, 168
	li	a1, 0
	call	memset
	beqz	s0, .LBB18693_10
	li	a4, 32
	j	.LBB18693_11
.LBB18693_5:
	li	a4, 16
.LBB18693_6:
	addi	a0, sp, 368
	li	a3, 1
	li	s0, 1
	mv	a1, s6
	mv	a2, s7
	call	gpsk_messages.reading.read_gpsk_message
	lbu	a0, 368(sp)
	beq	a0, s0, .LBB18693_8
	li	s11, 22
	j	.LBB18693_9
.LBB18693_8:
	lbu	s11, 369(sp)
.LBB18693_9:
	li	s0, 0
	li	a3, 0
	j	.LBB18693_30
.LBB18693_10:
	li	a4, 16
.LBB18693_11:
	addi	a0, sp, 368
	li	a3, 1
	li	s9, 1
	mv	a1, s6
	mv	a2, s7
	call	gpsk_messages.reading.read_gpsk_message
	lbu	s0, 368(sp)
	lbu	s11, 369(sp)
	lbu	s5, 376(sp)
	lw	s2, 380(sp)
	addi	a1, sp, 384
	addi	a0, sp, 56
	li	a2, 152
	call	memcpy
	bne	s0, s9, .LBB18693_13
.LBB18693_12:
	li	a3, 0
	li	s0, 0
	j	.LBB18693_30
.LBB18693_13:
	sw	s5, 208(sp)
	sw	s2, 212(sp)
	addi	s9, sp, 216
	addi	a1, sp, 56
	li	a2, 152
	mv	a0, s9
	call	memcpy
	li	a3, 0
	li	s0, 0
	slli	s5, s5, 2
.Lpcrel_hi24:
	auipc	a0, %pcrel_hi(.LJTI18693_0)
	addi	a0, a0, %pcrel_lo(.Lpcrel_hi24)
	add	s5, s5, a0
	lw	a1, 0(s5)
	add	a0, a0, a1
	li	s11, 22
	jr	a0
.LBB18693_14:
	addi	s2, s1, 32
	li	s0, 32
	sd	s9, 368(sp)
	sd	s0, 376(sp)
	sd	s3, 384(sp)
	sd	s0, 392(sp)
	addi	a0, sp, 368
	li	a1, 32
	li	a2, 8
	call	core.slice.scan.any_in_quarters.__953750c03e87c3e2_
	li	s11, 25
	bnez	a0, .LBB18693_12
	addi	a0, sp, 248
	sd	a0, 368(sp)
	sd	s0, 376(sp)
	sd	s1, 384(sp)
	sd	s0, 392(sp)
	addi	a0, sp, 368
	li	a1, 32
	li	a2, 8
	call	core.slice.scan.any_in_quarters.__953750c03e87c3e2_
	bnez	a0, .LBB18693_12
	ld	a1, 520(s8)
	ld	a0, 288(sp)
	bne	a0, a1, .LBB18693_12
	ld	a0, 280(sp)
	li	a3, 4
	addi	a2, s8, 264
	bgeu	a1, a3, .LBB18693_31
	beqz	a1, .LBB18693_38
	li	a3, 0
	neg	a4, a1
.LBB18693_20:
	lbu	a5, 0(a0)
	lbu	s0, 0(a2)
	bne	a5, s0, .LBB18693_37
	addi	a3, a3, -1
	addi	a2, a2, 1
	addi	a0, a0, 1
	bne	a4, a3, .LBB18693_20
	j	.LBB18693_38
.LBB18693_22:
	addi	s3, s1, 32
	addi	a0, s1, 272
	addi	a1, sp, 208
	mv	a2, s6
	mv	a3, s7
	call	gpsk_ends.keys.is_tagged
	beqz	a0, .LBB18693_26
	li	s0, 1
	ld	a0, 8(sp)
	addi	s1, a0, 8
	sd	s0, 0(a0)
	addi	a0, sp, 392
	li	a2, 136
	li	a1, 0
	call	memset
	mv	a0, s3
	lbu	a1, 0(s3)
	beqz	a1, .LBB18693_27
	li	a3, 32
.Lpcrel_hi26:
	auipc	a1, %pcrel_hi(.Lstatic.14)
	addi	a1, a1, %pcrel_lo(.Lpcrel_hi26)
	j	.LBB18693_28
.LBB18693_25:
	li	a0, 4
	sw	a0, 368(sp)
	sw	s2, 372(sp)
	addi	a0, sp, 376
	li	a2, 152
	li	a1, 0
	call	memset
	addi	a1, sp, 368
	li	a2, 1
	li	s0, 1
	ld	a0, 16(sp)
	mv	a3, s4
	call	gpsk_messages.writing.write_gpsk_into
	li	a3, 0
	ld	a0, 8(sp)
	sd	zero, 0(a0)
	sd	zero, 8(a0)
	j	.LBB18693_29
.LBB18693_26:
	li	a3, 0
	li	s0, 0
	li	s11, 28
	j	.LBB18693_30
.LBB18693_27:
	li	a3, 16
.Lpcrel_hi25:
	auipc	a1, %pcrel_hi(.Lstatic.10)
	addi	a1, a1, %pcrel_lo(.Lpcrel_hi25)
.LBB18693_28:
	ld	a4, 16(sp)
	li	a2, 5
	sw	a2, 368(sp)
	sw	s2, 372(sp)
	sd	a1, 376(sp)
	sd	a3, 384(sp)
	addi	a1, sp, 368
	li	a2, 1
	mv	a3, s4
	mv	a5, s1
	call	gpsk_ends.keys.Keys.seal.__e0641de541981142_
	li	a3, 0
.LBB18693_29:
	ld	a0, 24(sp)
	sb	s0, 0(a0)
	sb	zero, 1(a0)
	li	s11, 3
.LBB18693_30:
	sb	s0, 0(s10)
	sb	s11, 1(s10)
	sb	a3, 2(s10)
	ld	ra, 632(sp)
	ld	s0, 624(sp)
	ld	s1, 616(sp)
	ld	s2, 608(sp)
	ld	s3, 600(sp)
	ld	s4, 592(sp)
	ld	s5, 584(sp)
	ld	s6, 576(sp)
	ld	s7, 568(sp)
	ld	s8, 560(sp)
	ld	s9, 552(sp)
	ld	s10, 544(sp)
	ld	s11, 536(sp)
	addi	sp, sp, 640
	ret
.LBB18693_31:
	lbu	a4, 0(a0)
	lbu	a5, 264(s8)
	li	a3, 0
	bne	a4, a5, .LBB18693_36
	lbu	a4, 1(a0)
	lbu	a5, 265(s8)
	bne	a4, a5, .LBB18693_36
	lbu	a4, 2(a0)
	lbu	a5, 266(s8)
	bne	a4, a5, .LBB18693_36
	lbu	a4, 3(a0)
	lbu	a5, 267(s8)
	bne	a4, a5, .LBB18693_36
	mv	a3, a1
	call	core.cmp.slices.groups_equal._i8_31_core.cmp.numbers.U8PartialEq___
	beqz	a0, .LBB18693_12
	j	.LBB18693_38
.LBB18693_36:
	mv	s0, a3
	j	.LBB18693_30
.LBB18693_37:
	neg	a0, a3
	bltu	a0, a1, .LBB18693_12
.LBB18693_38:
	lbu	a0, 296(sp)
	lbu	a1, 0(s2)
	snez	a0, a0
	seqz	a1, a1
	beq	a0, a1, .LBB18693_12
	addi	a0, s1, 272
	addi	a1, sp, 208
	mv	a2, s6
	mv	a3, s7
	call	gpsk_ends.keys.is_tagged
	beqz	a0, .LBB18693_41
	addi	a0, sp, 368
	addi	a1, sp, 32
	addi	a4, sp, 208
	ld	a2, 24(sp)
	mv	a3, s4
	mv	a5, s6
	mv	a6, s7
	ld	a7, 16(sp)
	ld	t3, 8(sp)
	call	gpsk_ends.peer.turns.confirm_again.__e0641de541981142_
	lbu	s0, 368(sp)
	lbu	s11, 369(sp)
	lbu	a3, 370(sp)
	j	.LBB18693_30
.LBB18693_41:
	li	s0, 0
	li	a3, 0
	li	s11, 28
	j	.LBB18693_30
.Lfunc_end18693:
	.size	gpsk_ends.peer.turns.known_reads.__e0641de541981142_, .Lfunc_end18693-gpsk_ends.peer.turns.known_reads.__e0641de541981142_
	.section	".rodata.gpsk_ends::peer::turns::known_reads::<#e0641de541981142>","a",@progbits
	.p2align	2, 0x0
.LJTI18693_0:
	.word	.LBB18693_30-.LJTI18693_0
	.word	.LBB18693_30-.LJTI18693_0
	.word	.LBB18693_14-.LJTI18693_0
	.word	.LBB18693_30-.LJTI18693_0
	.word	.LBB18693_25-.LJTI18693_0
	.word	.LBB18693_22-.LJTI18693_0

	.section	".text.gpsk_ends::keys::is_tagged","ax",@progbits
	.p2align	1
	.type	gpsk_ends.keys.is_tagged,@function
gpsk_ends.keys.is_tagged:
	addi	sp, sp, -80
	sd	ra, 72(sp)
	sd	s0, 64(sp)
	sd	s1, 56(sp)
	sd	s2, 48(sp)
	sd	s3, 40(sp)
	mv	s2, a3
	mv	s1, a2
	mv	s0, a1
	mv	s3, a0
	mv	a0, a1
	call	gpsk_messages.parts.mac_part
	addi	a2, s1, 1
	not	a3, a1
	add	a3, a3, s2
	mv	a0, sp
	mv	a1, s3
	call	login_keys.gpsk.mac_key.MacKey.tag_whole
	ld	s1, 32(sp)
	mv	a0, s0
	call	gpsk_messages.parts.mac_part
	mv	a2, a0
	mv	a3, a1
	mv	a0, sp
	mv	a1, s1
	call	octet_lists.comparison.equal_in_full
	ld	ra, 72(sp)
	ld	s0, 64(sp)
	ld	s1, 56(sp)
	ld	s2, 48(sp)
	ld	s3, 40(sp)
	addi	sp, sp, 80
	ret
.Lfunc_end539d6:
	.size	gpsk_ends.keys.is_tagged, .Lfunc_end539d6-gpsk_ends.keys.is_tagged

	.section	".text.gpsk_messages::parts::mac_part","ax",@progbits
	.p2align	1
	.type	gpsk_messages.parts.mac_part,@function
gpsk_messages.parts.mac_part:
	li	a1, 0
	lbu	a2, 0(a0)
.Lpcrel_hi28:
	auipc	a3, %pcrel_hi(.LJTI98b5e_0)
	addi	a3, a3, %pcrel_lo(.Lpcrel_hi28)
	slli	a2, a2, 2
	add	a2, a2, a3
	lw	a2, 0(a2)
	add	a3, a3, a2
.Lpcrel_hi27:
	auipc	a2, %pcrel_hi(.Lstatic.0)
	addi	a2, a2, %pcrel_lo(.Lpcrel_hi27)
	jr	a3
.LBB98b5e_1:
	mv	a0, a2
	ret
.LBB98b5e_2:
	lbu	a6, 112(a0)
	lbu	a2, 113(a0)
	lbu	a3, 114(a0)
	lbu	a4, 115(a0)
	lbu	a5, 116(a0)
	lbu	a1, 117(a0)
	lbu	a7, 118(a0)
	lbu	t0, 119(a0)
	slli	a2, a2, 8
	slli	a3, a3, 16
	slli	a4, a4, 24
	slli	a1, a1, 8
	or	a6, a2, a6
	or	t2, a4, a3
	or	t1, a1, a5
	lbu	a4, 120(a0)
	lbu	a5, 121(a0)
	lbu	a2, 122(a0)
	lbu	a1, 123(a0)
	slli	a7, a7, 16
	slli	t0, t0, 24
	slli	a5, a5, 8
	slli	a2, a2, 16
	slli	a1, a1, 24
	or	a7, t0, a7
	or	a4, a4, a5
	or	a1, a1, a2
	lbu	a2, 125(a0)
	lbu	a5, 124(a0)
	lbu	a3, 126(a0)
	lbu	a0, 127(a0)
	j	.LBB98b5e_6
.LBB98b5e_3:
	lbu	a6, 144(a0)
	lbu	a2, 145(a0)
	lbu	a3, 146(a0)
	lbu	a4, 147(a0)
	lbu	a5, 148(a0)
	lbu	a1, 149(a0)
	lbu	a7, 150(a0)
	lbu	t0, 151(a0)
	slli	a2, a2, 8
	slli	a3, a3, 16
	slli	a4, a4, 24
	slli	a1, a1, 8
	or	a6, a2, a6
	or	t2, a4, a3
	or	t1, a1, a5
	lbu	a4, 152(a0)
	lbu	a5, 153(a0)
	lbu	a2, 154(a0)
	lbu	a1, 155(a0)
	slli	a7, a7, 16
	slli	t0, t0, 24
	slli	a5, a5, 8
	slli	a2, a2, 16
	slli	a1, a1, 24
	or	a7, t0, a7
	or	a4, a4, a5
	or	a1, a1, a2
	lbu	a2, 157(a0)
	lbu	a5, 156(a0)
	lbu	a3, 158(a0)
	lbu	a0, 159(a0)
	j	.LBB98b5e_6
.LBB98b5e_4:
	ld	a2, 8(a0)
	ld	a1, 16(a0)
	mv	a0, a2
	ret
.LBB98b5e_5:
	lbu	a6, 24(a0)
	lbu	a2, 25(a0)
	lbu	a3, 26(a0)
	lbu	a4, 27(a0)
	lbu	a5, 28(a0)
	lbu	a1, 29(a0)
	lbu	a7, 30(a0)
	lbu	t0, 31(a0)
	slli	a2, a2, 8
	slli	a3, a3, 16
	slli	a4, a4, 24
	slli	a1, a1, 8
	or	a6, a2, a6
	or	t2, a4, a3
	or	t1, a1, a5
	lbu	a4, 32(a0)
	lbu	a5, 33(a0)
	lbu	a2, 34(a0)
	lbu	a1, 35(a0)
	slli	a7, a7, 16
	slli	t0, t0, 24
	slli	a5, a5, 8
	slli	a2, a2, 16
	slli	a1, a1, 24
	or	a7, t0, a7
	or	a4, a4, a5
	or	a1, a1, a2
	lbu	a2, 37(a0)
	lbu	a5, 36(a0)
	lbu	a3, 38(a0)
	lbu	a0, 39(a0)
.LBB98b5e_6:
	slli	a2, a2, 8
	or	a2, a2, a5
	slli	a3, a3, 16
	slli	a0, a0, 24
	or	a0, a0, a3
	or	a3, t2, a6
	or	a5, a7, t1
	or	a1, a1, a4
	or	a0, a0, a2
	slli	a2, a5, 32
	slli	a0, a0, 32
	or	a2, a2, a3
	or	a1, a1, a0
	mv	a0, a2
	ret
.Lfunc_end98b5e:
	.size	gpsk_messages.parts.mac_part, .Lfunc_end98b5e-gpsk_messages.parts.mac_part
	.section	".rodata.gpsk_messages::parts::mac_part","a",@progbits
	.p2align	2, 0x0
.LJTI98b5e_0:
	.word	.LBB98b5e_1-.LJTI98b5e_0
	.word	.LBB98b5e_3-.LJTI98b5e_0
	.word	.LBB98b5e_2-.LJTI98b5e_0
	.word	.LBB98b5e_5-.LJTI98b5e_0
	.word	.LBB98b5e_1-.LJTI98b5e_0
	.word	.LBB98b5e_4-.LJTI98b5e_0

	.section	".text.gpsk_ends::peer::turns::confirm_again::<#e0641de541981142>","ax",@progbits
	.p2align	1
	.type	gpsk_ends.peer.turns.confirm_again.__e0641de541981142_,@function
gpsk_ends.peer.turns.confirm_again.__e0641de541981142_:
	addi	sp, sp, -224
	sd	ra, 216(sp)
	sd	s0, 208(sp)
	sd	s1, 200(sp)
	sd	s2, 192(sp)
	sd	s3, 184(sp)
	sd	s4, 176(sp)
	sd	s5, 168(sp)
	sd	s6, 160(sp)
	mv	s4, t3
	mv	s2, a7
	mv	s3, a3
	mv	s5, a2
	mv	s1, a1
	mv	s6, a0
	ld	a0, 16(a1)
	addi	a0, a0, 272
	mv	a1, a4
	mv	a2, a5
	mv	a3, a6
	call	gpsk_ends.keys.is_tagged
	beqz	a0, .LBB7caf9_3
	li	s0, 1
	sd	s0, 0(s4)
	addi	s4, s4, 8
	mv	a0, sp
	li	a2, 160
	li	a1, 0
	call	memset
	ld	a0, 16(s1)
	lbu	a1, 32(a0)
	addi	a0, a0, 32
	beqz	a1, .LBB7caf9_4
	li	a1, 32
.Lpcrel_hi30:
	auipc	a2, %pcrel_hi(.Lstatic.14)
	addi	a2, a2, %pcrel_lo(.Lpcrel_hi30)
	j	.LBB7caf9_5
.LBB7caf9_3:
	li	s0, 0
	li	a0, 28
	j	.LBB7caf9_6
.LBB7caf9_4:
	li	a1, 16
.Lpcrel_hi29:
	auipc	a2, %pcrel_hi(.Lstatic.10)
	addi	a2, a2, %pcrel_lo(.Lpcrel_hi29)
.LBB7caf9_5:
	li	a3, 3
.Lpcrel_hi31:
	auipc	a4, %pcrel_hi(.Lstatic.0)
	addi	a4, a4, %pcrel_lo(.Lpcrel_hi31)
	sw	a3, 0(sp)
	sd	a4, 8(sp)
	sd	a2, 24(sp)
	sd	a1, 32(sp)
	mv	a1, sp
	li	a2, 1
	mv	a3, s3
	mv	a4, s2
	mv	a5, s4
	call	gpsk_ends.keys.Keys.seal.__e0641de541981142_
	sb	s0, 0(s5)
	sb	s0, 1(s5)
	li	a0, 4
.LBB7caf9_6:
	sb	s0, 0(s6)
	sb	a0, 1(s6)
	sb	s0, 2(s6)
	ld	ra, 216(sp)
	ld	s0, 208(sp)
	ld	s1, 200(sp)
	ld	s2, 192(sp)
	ld	s3, 184(sp)
	ld	s4, 176(sp)
	ld	s5, 168(sp)
	ld	s6, 160(sp)
	addi	sp, sp, 224
	ret
.Lfunc_end7caf9:
	.size	gpsk_ends.peer.turns.confirm_again.__e0641de541981142_, .Lfunc_end7caf9-gpsk_ends.peer.turns.confirm_again.__e0641de541981142_

	.section	".text.peer_machine::machine::settle","ax",@progbits
	.p2align	1
	.type	peer_machine.machine.settle,@function
peer_machine.machine.settle:
	addi	sp, sp, -128
	sd	ra, 120(sp)
	sd	s0, 112(sp)
	sd	s1, 104(sp)
	sd	s2, 96(sp)
	sd	s3, 88(sp)
	lbu	s1, 0(a5)
	lbu	s0, 1(a5)
	mv	s3, a0
	beqz	s1, .LBB50cf1_3
	lbu	a0, 2(a5)
	li	a5, 1
	sb	a5, 769(a1)
	sb	a3, 770(a1)
	sb	s0, 771(a1)
	sb	a0, 772(a1)
	bnez	a2, .LBB50cf1_5
.Lpcrel_hi35:
	auipc	s2, %pcrel_hi(.Lstatic.17)
	addi	s2, s2, %pcrel_lo(.Lpcrel_hi35)
	j	.LBB50cf1_6
.LBB50cf1_3:
	sd	zero, 64(sp)
	sd	zero, 72(sp)
	sd	zero, 80(sp)
	li	a0, 1
	lui	a1, 17
	li	a3, 3
	addi	a1, a1, -2044
	addiw	a1, a1, 256
	sd	a1, 40(sp)
	sd	a3, 48(sp)
	sd	a0, 56(sp)
	sb	s0, 57(sp)
	addi	a3, a2, 1
	bnez	a2, .LBB50cf1_11
.Lpcrel_hi33:
	auipc	a2, %pcrel_hi(.Lstatic.17)
	addi	a2, a2, %pcrel_lo(.Lpcrel_hi33)
	j	.LBB50cf1_12
.LBB50cf1_5:
.Lpcrel_hi34:
	auipc	s2, %pcrel_hi(.Lstatic.16)
	addi	s2, s2, %pcrel_lo(.Lpcrel_hi34)
.LBB50cf1_6:
	li	a3, 4
	addi	s1, a2, 1
	bne	s0, a3, .LBB50cf1_9
	bnez	a0, .LBB50cf1_9
	li	a0, 11
	sd	zero, 64(sp)
	sd	zero, 72(sp)
	sd	zero, 80(sp)
	sb	a0, 768(a1)
	lui	a0, 1
	li	a1, 2
	addi	a0, a0, -1276
	sd	a0, 40(sp)
	sb	a1, 48(sp)
	sd	zero, 56(sp)
	addi	a0, sp, 49
	li	a2, 10
	li	a1, 0
	call	memset
	j	.LBB50cf1_10
.LBB50cf1_9:
	li	a0, 1
	sb	a0, 773(a1)
	sb	a4, 774(a1)
	ld	a2, 1504(a6)
	addi	a0, a1, 776
	mv	a1, a6
	call	octet_lists.octets.Octets.set.__1500_
	sd	zero, 64(sp)
	sd	zero, 72(sp)
	sd	zero, 80(sp)
	lui	a0, 16
	lui	a1, 17
	li	a2, 3
	addi	a1, a1, -2044
	sd	a1, 40(sp)
	sd	a2, 48(sp)
	sd	a0, 56(sp)
.LBB50cf1_10:
	addi	a0, sp, 64
	addi	a1, sp, 40
	mv	a2, s2
	mv	a3, s1
	call	eap_method.step.Step.after
	ld	a0, 64(sp)
	ld	a1, 72(sp)
	lbu	s2, 80(sp)
	lbu	s0, 81(sp)
	lbu	s1, 82(sp)
	sd	a0, 8(sp)
	sd	a1, 16(sp)
	ld	a0, 8(sp)
	ld	a1, 16(sp)
	j	.LBB50cf1_13
.LBB50cf1_11:
.Lpcrel_hi32:
	auipc	a2, %pcrel_hi(.Lstatic.16)
	addi	a2, a2, %pcrel_lo(.Lpcrel_hi32)
.LBB50cf1_12:
	addi	a0, sp, 64
	addi	a1, sp, 40
	call	eap_method.step.Step.after
	ld	a0, 64(sp)
	ld	a1, 72(sp)
	lbu	s2, 80(sp)
	lbu	s0, 81(sp)
	lbu	s1, 82(sp)
.LBB50cf1_13:
	sd	a0, 24(sp)
	sd	a1, 32(sp)
	addi	a1, sp, 24
	li	a2, 16
	mv	a0, s3
	call	memcpy
	sb	s2, 16(s3)
	sb	s0, 17(s3)
	sb	s1, 18(s3)
	ld	ra, 120(sp)
	ld	s0, 112(sp)
	ld	s1, 104(sp)
	ld	s2, 96(sp)
	ld	s3, 88(sp)
	addi	sp, sp, 128
	ret
.Lfunc_end50cf1:
	.size	peer_machine.machine.settle, .Lfunc_end50cf1-peer_machine.machine.settle

	.section	".text.eap_method::step::Step::after","ax",@progbits
	.p2align	1
	.type	eap_method.step.Step.after,@function
eap_method.step.Step.after:
	addi	sp, sp, -128
	sd	ra, 120(sp)
	sd	s0, 112(sp)
	sd	s1, 104(sp)
	sd	s2, 96(sp)
	sd	s3, 88(sp)
	mv	s2, a0
	li	a0, 0
	lbu	a4, 0(a1)
	lbu	a5, 1(a1)
	lbu	s1, 2(a1)
	lbu	s0, 3(a1)
	lbu	a6, 4(a1)
	lbu	a7, 5(a1)
	lbu	t0, 6(a1)
	lbu	t1, 7(a1)
	slli	a5, a5, 8
	slli	s1, s1, 16
	slli	s0, s0, 24
	or	t2, a5, a4
	or	t3, s0, s1
	lbu	a5, 8(a1)
	lbu	s1, 9(a1)
	lbu	a4, 10(a1)
	lbu	s0, 11(a1)
	slli	a7, a7, 8
	slli	t0, t0, 16
	slli	t1, t1, 24
	slli	s1, s1, 8
	slli	a4, a4, 16
	slli	s0, s0, 24
	or	a6, a7, a6
	or	a7, t1, t0
	or	t0, s1, a5
	or	t1, s0, a4
	lbu	s1, 13(a1)
	lbu	s0, 12(a1)
	lbu	a5, 14(a1)
	lbu	a4, 15(a1)
	slli	s1, s1, 8
	or	s0, s0, s1
	slli	a5, a5, 16
	slli	a4, a4, 24
	or	a4, a4, a5
	or	t2, t3, t2
	or	s1, a7, a6
	or	a5, t1, t0
	or	a4, a4, s0
	lbu	s3, 16(a1)
	lbu	s0, 17(a1)
	lbu	a1, 18(a1)
	sd	zero, 40(sp)
	slli	s1, s1, 32
	slli	a4, a4, 32
	or	s1, s1, t2
	or	a4, a4, a5
	sd	s1, 48(sp)
	sd	a4, 56(sp)
	sd	zero, 64(sp)
	sb	s3, 64(sp)
	sb	s0, 65(sp)
	sb	a1, 66(sp)
	sd	zero, 72(sp)
	sd	zero, 80(sp)
	j	.LBB2736e_2
.LBB2736e_1:
	addi	a3, a3, -1
	addi	a2, a2, 1
	mv	a0, a4
	beqz	a3, .LBB2736e_4
.LBB2736e_2:
	li	a4, 8
	beq	a0, a4, .LBB2736e_1
	lbu	a5, 0(a2)
	addi	a4, sp, 72
	add	s1, a4, a0
	addi	a4, a0, 1
	sb	a5, 0(s1)
	sd	a4, 80(sp)
	j	.LBB2736e_1
.LBB2736e_4:
	ld	a2, 72(sp)
	ld	a3, 80(sp)
	andi	s1, a1, 1
	ld	a0, 56(sp)
	sd	a2, 8(sp)
	sd	a3, 16(sp)
	sd	a2, 24(sp)
	sd	a3, 32(sp)
	sb	s3, 40(sp)
	sb	s0, 41(sp)
	sb	s1, 42(sp)
	beqz	a0, .LBB2736e_10
	ld	a2, 32(sp)
	addi	a1, sp, 48
	j	.LBB2736e_7
.LBB2736e_6:
	addi	a0, a0, -1
	addi	a1, a1, 1
	mv	a2, a3
	beqz	a0, .LBB2736e_9
.LBB2736e_7:
	li	a3, 8
	beq	a2, a3, .LBB2736e_6
	lbu	a4, 0(a1)
	addi	a3, sp, 24
	add	a5, a3, a2
	addi	a3, a2, 1
	sb	a4, 0(a5)
	sd	a3, 32(sp)
	j	.LBB2736e_6
.LBB2736e_9:
	lbu	s3, 40(sp)
	lbu	s0, 41(sp)
	lbu	s1, 42(sp)
.LBB2736e_10:
	addi	a1, sp, 24
	li	a2, 16
	mv	a0, s2
	call	memcpy
	sb	s3, 16(s2)
	sb	s0, 17(s2)
	sb	s1, 18(s2)
	ld	ra, 120(sp)
	ld	s0, 112(sp)
	ld	s1, 104(sp)
	ld	s2, 96(sp)
	ld	s3, 88(sp)
	addi	sp, sp, 128
	ret
.Lfunc_end2736e:
	.size	eap_method.step.Step.after, .Lfunc_end2736e-eap_method.step.Step.after

	.section	".text.tuvaddri_c::deliver::deliver_to_server","ax",@progbits
	.p2align	1
	.type	tuvaddri_c.deliver.deliver_to_server,@function
tuvaddri_c.deliver.deliver_to_server:
	addi	sp, sp, -1648
	sd	ra, 1640(sp)
	sd	s0, 1632(sp)
	sd	s1, 1624(sp)
	sd	s2, 1616(sp)
	sd	s3, 1608(sp)
	sd	s4, 1600(sp)
	sd	s5, 1592(sp)
	mv	s2, a3
	mv	s3, a2
	mv	s1, a1
	mv	s0, a0
	addi	s4, a1, 2047
	sd	zero, 16(sp)
	sd	zero, 24(sp)
	sd	zero, 32(sp)
	addi	a0, sp, 56
	li	a2, 1512
	li	a1, 0
	call	memset
	lbu	a0, 0(s1)
	sd	zero, 40(sp)
	sd	zero, 48(sp)
	li	a1, 463
	srl	a1, a1, a0
	andi	a1, a1, 1
	beqz	a1, .LBBeaebb_2
.LBBeaebb_1:
	li	s3, 0
	li	s2, 0
	li	a1, 0
	li	s1, 0
	sb	zero, 585(s4)
	li	a0, 1
	j	.LBBeaebb_10
.LBBeaebb_2:
	li	a1, 4
	bne	a0, a1, .LBBeaebb_6
	lbu	a0, 32(s1)
	li	a1, 1
	beq	a0, a1, .LBBeaebb_5
	lbu	a0, 35(s1)
	beqz	a0, .LBBeaebb_1
.LBBeaebb_5:
	addi	a1, s1, 8
	addi	a0, sp, 16
	addi	a4, sp, 56
	addi	a5, sp, 40
	mv	a2, s3
	mv	a3, s2
	call	server_machine.machine.SizedServer.deliver_step.__8eedcce04f265703_
	lbu	s2, 32(sp)
	lbu	s5, 33(sp)
	lbu	s3, 34(sp)
	j	.LBBeaebb_7
.LBBeaebb_6:
	addi	a1, s1, 8
	sd	zero, 1568(sp)
	sd	zero, 1576(sp)
	sd	zero, 1584(sp)
	addi	a0, sp, 1568
	addi	a4, sp, 56
	addi	a5, sp, 40
	mv	a2, s3
	mv	a3, s2
	call	server_machine.machine.SizedServer.deliver_step.__8eedcce04f265703_
	lbu	s2, 1584(sp)
	lbu	s5, 1585(sp)
	lbu	s3, 1586(sp)
.LBBeaebb_7:
	ld	a2, 1560(sp)
	lbu	s1, 35(s1)
	ld	a0, 577(s4)
	andi	a1, s3, 1
	sb	s3, 585(s4)
	beqz	a1, .LBBeaebb_9
	addi	a1, sp, 56
	call	octet_lists.octets.Octets.set.__1500_
.LBBeaebb_9:
	li	a0, 0
	seqz	a1, s2
	addi	a1, a1, -1
	and	a1, a1, s5
.LBBeaebb_10:
	sb	s3, 0(s0)
	sb	s2, 1(s0)
	sb	a0, 2(s0)
	sb	a1, 3(s0)
	sb	s1, 4(s0)
	ld	ra, 1640(sp)
	ld	s0, 1632(sp)
	ld	s1, 1624(sp)
	ld	s2, 1616(sp)
	ld	s3, 1608(sp)
	ld	s4, 1600(sp)
	ld	s5, 1592(sp)
	addi	sp, sp, 1648
	ret
.Lfunc_endeaebb:
	.size	tuvaddri_c.deliver.deliver_to_server, .Lfunc_endeaebb-tuvaddri_c.deliver.deliver_to_server

	.section	".text.server_machine::machine::SizedServer::deliver_step::<#8eedcce04f265703>","ax",@progbits
	.p2align	1
	.type	server_machine.machine.SizedServer.deliver_step.__8eedcce04f265703_,@function
server_machine.machine.SizedServer.deliver_step.__8eedcce04f265703_:
	addi	sp, sp, -64
	sd	ra, 56(sp)
	sd	s0, 48(sp)
	sd	s1, 40(sp)
	sd	s2, 32(sp)
	sd	s3, 24(sp)
	mv	s0, a0
	lbu	a0, 1896(a1)
	sd	zero, 0(sp)
	sd	zero, 8(sp)
	sd	zero, 16(sp)
	beqz	a0, .LBB47848_3
	lbu	a6, 27(a1)
	lui	a0, 512
	addi	a0, a0, -129
	slli	a0, a0, 12
	addi	a0, a0, 1023
	srl	a0, a0, a6
	andi	a0, a0, 1
	beqz	a0, .LBB47848_3
	mv	a0, sp
	call	server_machine.machine.SizedServer.read.__8eedcce04f265703_
	j	.LBB47848_4
.LBB47848_3:
	mv	a0, sp
	call	server_machine.machine.SizedServer.deliver_plain.__8eedcce04f265703_
.LBB47848_4:
	lbu	s1, 16(sp)
	lbu	s2, 17(sp)
	lbu	s3, 18(sp)
	mv	a1, sp
	li	a2, 16
	mv	a0, s0
	call	memcpy
	sb	s1, 16(s0)
	sb	s2, 17(s0)
	sb	s3, 18(s0)
	ld	ra, 56(sp)
	ld	s0, 48(sp)
	ld	s1, 40(sp)
	ld	s2, 32(sp)
	ld	s3, 24(sp)
	addi	sp, sp, 64
	ret
.Lfunc_end47848:
	.size	server_machine.machine.SizedServer.deliver_step.__8eedcce04f265703_, .Lfunc_end47848-server_machine.machine.SizedServer.deliver_step.__8eedcce04f265703_

	.section	".text.server_machine::machine::SizedServer::read::<#8eedcce04f265703>","ax",@progbits
	.p2align	1
	.type	server_machine.machine.SizedServer.read.__8eedcce04f265703_,@function
server_machine.machine.SizedServer.read.__8eedcce04f265703_:
	addi	sp, sp, -1792
	sd	ra, 1784(sp)
	sd	s0, 1776(sp)
	sd	s1, 1768(sp)
	sd	s2, 1760(sp)
	sd	s3, 1752(sp)
	sd	s4, 1744(sp)
	sd	s5, 1736(sp)
	sd	s6, 1728(sp)
	sd	s7, 1720(sp)
	sd	s8, 1712(sp)
	sd	s9, 1704(sp)
	mv	s3, a5
	mv	s2, a4
	mv	s1, a3
	mv	s0, a2
	mv	s5, a1
	mv	s6, a0
	sd	zero, 96(sp)
	sd	zero, 104(sp)
	sd	zero, 64(sp)
	sd	zero, 72(sp)
	sd	zero, 80(sp)
	sd	zero, 88(sp)
	sd	zero, 40(sp)
	sd	zero, 48(sp)
	sd	zero, 56(sp)
	sd	zero, 16(sp)
	sd	zero, 24(sp)
	sd	zero, 32(sp)
	addi	a0, sp, 64
	mv	a1, a2
	mv	a2, a3
	call	eap_packet.packet.decode
	lbu	a1, 64(sp)
	li	a0, 1
	bne	a1, a0, .LBBbb86a_2
	addi	a0, sp, 40
	mv	a1, s5
	mv	a2, s0
	mv	a3, s1
	mv	a4, s2
	mv	a5, s3
	call	server_machine.machine.SizedServer.deliver_plain.__8eedcce04f265703_
	lbu	s2, 56(sp)
	lbu	s1, 57(sp)
	lbu	s0, 58(sp)
	j	.LBBbb86a_35
.LBBbb86a_2:
	ld	a1, 104(sp)
	ld	a2, 72(sp)
	ld	a3, 80(sp)
	ld	a4, 88(sp)
	ld	a5, 96(sp)
	sd	a1, 144(sp)
	zext.b	a1, a2
	sd	a2, 112(sp)
	sd	a3, 120(sp)
	sd	a4, 128(sp)
	sd	a5, 136(sp)
	bne	a1, a0, .LBBbb86a_7
	sd	zero, 152(sp)
	sd	zero, 160(sp)
	sd	zero, 168(sp)
	addi	a0, sp, 112
	call	eap_packet.expanded.is_bad_expanded
	addi	s4, s5, 24
	beqz	a0, .LBBbb86a_8
	sd	zero, 0(s3)
	sd	zero, 8(s3)
	lbu	a0, 0(s4)
	li	s2, 1
	bne	a0, s2, .LBBbb86a_6
	lbu	a0, 27(s5)
	beqz	a0, .LBBbb86a_36
.LBBbb86a_6:
	li	s0, 0
	li	s1, 8
	li	a0, 3
	lui	a1, 17
	addi	a1, a1, -1790
	j	.LBBbb86a_33
.LBBbb86a_7:
	addi	a0, sp, 16
	mv	a1, s5
	mv	a2, s0
	mv	a3, s1
	mv	a4, s2
	mv	a5, s3
	call	server_machine.machine.SizedServer.deliver_plain.__8eedcce04f265703_
	lbu	s2, 32(sp)
	lbu	s1, 33(sp)
	lbu	s0, 34(sp)
	j	.LBBbb86a_34
.LBBbb86a_8:
	addi	a0, sp, 176
	li	a2, 1512
	li	a1, 0
	call	memset
	lbu	a0, 114(sp)
	li	a1, 254
	bne	a0, a1, .LBBbb86a_30
	ld	s9, 128(sp)
	li	a0, 7
	bltu	s9, a0, .LBBbb86a_30
	ld	s7, 120(sp)
	lbu	a0, 0(s7)
	lbu	a1, 1(s7)
	lbu	a2, 2(s7)
	lbu	a3, 3(s7)
	or	a0, a0, a1
	or	a2, a2, a3
	or	a0, a0, a2
	bnez	a0, .LBBbb86a_30
.Lpcrel_hi36:
	auipc	a0, %pcrel_hi(.Lstatic.6)
	li	a1, 6
	addi	a2, a0, %pcrel_lo(.Lpcrel_hi36)
	li	a3, 6
	mv	a0, s7
	call	core.cmp.slices.groups_equal._i8_31_core.cmp.numbers.U8PartialEq___
	beqz	a0, .LBBbb86a_30
	lbu	a0, 6(s7)
	li	a1, 3
	bne	a0, a1, .LBBbb86a_30
	lbu	a0, 0(s4)
	li	a1, 1
	bne	a0, a1, .LBBbb86a_15
	lbu	a0, 27(s5)
	beqz	a0, .LBBbb86a_17
.LBBbb86a_15:
	ld	a0, 1560(s5)
	li	a1, 5
	bltu	a0, a1, .LBBbb86a_30
	lbu	a0, 60(s5)
	li	a1, 254
	bne	a0, a1, .LBBbb86a_30
.LBBbb86a_17:
	lbu	s8, 113(sp)
	addi	s0, s9, -7
	li	a0, 8
	sd	zero, 1688(sp)
	sd	zero, 1696(sp)
	bltu	s0, a0, .LBBbb86a_39
	li	s9, 0
	li	s1, 0
	addi	s7, s7, 7
.LBBbb86a_19:
	lbu	a0, 1(s7)
	lbu	a1, 2(s7)
	lbu	a2, 3(s7)
	lbu	a3, 4(s7)
	or	a0, a0, a1
	or	a2, a2, a3
	or	a0, a0, a2
	bnez	a0, .LBBbb86a_26
	addi	a0, s7, 1
.Lpcrel_hi37:
	auipc	a2, %pcrel_hi(.Lstatic.6)
	li	a1, 6
	addi	a2, a2, %pcrel_lo(.Lpcrel_hi37)
	li	a3, 6
	call	core.cmp.slices.groups_equal._i8_31_core.cmp.numbers.U8PartialEq___
	beqz	a0, .LBBbb86a_26
	lbu	a0, 7(s7)
	li	a1, 47
	beq	a0, a1, .LBBbb86a_23
	li	a1, 51
	bne	a0, a1, .LBBbb86a_26
.LBBbb86a_23:
	addi	a1, sp, 1688
	mv	a2, s1
.LBBbb86a_24:
	beqz	a2, .LBBbb86a_28
	lbu	a3, 0(a1)
	addi	a1, a1, 1
	addi	a2, a2, -1
	bne	a3, a0, .LBBbb86a_24
.LBBbb86a_26:
	mv	a1, s1
.LBBbb86a_27:
	addi	s0, s0, -8
	li	a0, 7
	addi	s7, s7, 8
	mv	s1, a1
	bltu	a0, s0, .LBBbb86a_19
	j	.LBBbb86a_37
.LBBbb86a_28:
	li	a1, 2
	beq	s1, a1, .LBBbb86a_27
	addi	a1, sp, 1688
	add	a1, a1, s1
	addi	s9, s1, 1
	sb	a0, 0(a1)
	sd	s9, 1696(sp)
	mv	a1, s9
	j	.LBBbb86a_27
.LBBbb86a_30:
	addi	a0, sp, 72
	addi	a1, sp, 176
	call	eap_packet.expanded.write_plain
	beqz	a0, .LBBbb86a_32
.LBBbb86a_31:
	ld	s1, 1680(sp)
	addi	s0, sp, 176
.LBBbb86a_32:
	addi	a0, sp, 152
	mv	a1, s5
	mv	a2, s0
	mv	a3, s1
	mv	a4, s2
	mv	a5, s3
	call	server_machine.machine.SizedServer.deliver_plain.__8eedcce04f265703_
	lbu	s0, 170(sp)
	mv	a0, s4
	mv	a1, s0
	mv	a2, s2
	call	server_machine.expanded.wrap_sent.__2_
	ld	a1, 152(sp)
	ld	a0, 160(sp)
	lbu	s2, 168(sp)
	lbu	s1, 169(sp)
.LBBbb86a_33:
	sd	a1, 16(sp)
	sd	a0, 24(sp)
.LBBbb86a_34:
	ld	a0, 16(sp)
	ld	a1, 24(sp)
	sd	a0, 40(sp)
	sd	a1, 48(sp)
.LBBbb86a_35:
	addi	a1, sp, 40
	li	a2, 16
	mv	a0, s6
	call	memcpy
	sb	s2, 16(s6)
	sb	s1, 17(s6)
	sb	s0, 18(s6)
	ld	ra, 1784(sp)
	ld	s0, 1776(sp)
	ld	s1, 1768(sp)
	ld	s2, 1760(sp)
	ld	s3, 1752(sp)
	ld	s4, 1744(sp)
	ld	s5, 1736(sp)
	ld	s6, 1728(sp)
	ld	s7, 1720(sp)
	ld	s8, 1712(sp)
	ld	s9, 1704(sp)
	addi	sp, sp, 1792
	ret
.LBBbb86a_36:
	li	a1, 0
	li	s0, 0
	li	s1, 8
	j	.LBBbb86a_33
.LBBbb86a_37:
	beqz	s9, .LBBbb86a_39
	addi	a0, sp, 176
	li	a1, 1
	li	a3, 3
	addi	a4, sp, 1688
	mv	a2, s8
	mv	a5, s9
	call	eap_packet.packet.encode_into
	j	.LBBbb86a_31
.LBBbb86a_39:
.Lpcrel_hi38:
	auipc	a2, %pcrel_hi(.Lstatic.5)
	addi	a0, sp, 176
	li	a1, 1
	li	a3, 3
	addi	a4, a2, %pcrel_lo(.Lpcrel_hi38)
	li	a5, 1
	mv	a2, s8
	call	eap_packet.packet.encode_into
	j	.LBBbb86a_31
.Lfunc_endbb86a:
	.size	server_machine.machine.SizedServer.read.__8eedcce04f265703_, .Lfunc_endbb86a-server_machine.machine.SizedServer.read.__8eedcce04f265703_

	.section	".text.server_machine::expanded::wrap_sent::<=2>","ax",@progbits
	.p2align	1
	.type	server_machine.expanded.wrap_sent.__2_,@function
server_machine.expanded.wrap_sent.__2_:
	beqz	a1, .LBB15154_4
	ld	a1, 1504(a2)
	beqz	a1, .LBB15154_4
	lbu	a1, 0(a2)
	li	a3, 1
	bne	a1, a3, .LBB15154_4
	addi	sp, sp, -32
	sd	ra, 24(sp)
	sd	s0, 16(sp)
	sd	s1, 8(sp)
	mv	s1, a0
	mv	a0, a2
	mv	s0, a2
	call	eap_packet.expanded.wrap_in_place
	ld	a2, 1504(s0)
	addi	a0, s1, 32
	mv	a1, s0
	ld	ra, 24(sp)
	ld	s0, 16(sp)
	ld	s1, 8(sp)
	addi	sp, sp, 32
	tail	octet_lists.octets.Octets.set.__1500_
.LBB15154_4:
	ret
.Lfunc_end15154:
	.size	server_machine.expanded.wrap_sent.__2_, .Lfunc_end15154-server_machine.expanded.wrap_sent.__2_

	.section	".text.server_machine::machine::SizedServer::deliver_plain::<#8eedcce04f265703>","ax",@progbits
	.p2align	1
	.type	server_machine.machine.SizedServer.deliver_plain.__8eedcce04f265703_,@function
server_machine.machine.SizedServer.deliver_plain.__8eedcce04f265703_:
	addi	sp, sp, -240
	sd	ra, 232(sp)
	sd	s0, 224(sp)
	sd	s1, 216(sp)
	sd	s2, 208(sp)
	sd	s3, 200(sp)
	sd	s4, 192(sp)
	sd	s5, 184(sp)
	sd	s6, 176(sp)
	mv	s6, a0
	sd	zero, 40(sp)
	sd	zero, 48(sp)
	sd	zero, 0(a5)
	sd	zero, 8(a5)
	lbu	a0, 27(a1)
	sd	zero, 8(sp)
	sd	zero, 16(sp)
	sd	zero, 24(sp)
	sd	zero, 32(sp)
	mv	s3, a1
	lui	a1, 512
	addi	a1, a1, -129
	slli	a1, a1, 12
	addi	a1, a1, 1023
	srl	a1, a1, a0
	andi	a1, a1, 1
	beqz	a1, .LBBcb2c7_19
	mv	s5, a5
	mv	s2, a4
	lbu	a1, 24(s3)
	xori	a1, a1, 1
	or	a0, a0, a1
	seqz	s1, a0
	addi	a0, sp, 8
	mv	a1, a2
	mv	a2, a3
	call	eap_packet.packet.decode
	lbu	a0, 8(sp)
	li	s4, 1
	bne	a0, s4, .LBBcb2c7_3
	li	a0, 0
	lbu	a1, 9(sp)
	addi	a5, s1, -1
	lui	a2, 17
	addi	a2, a2, -1790
	and	t1, a5, a2
	andi	a7, a5, 3
	j	.LBBcb2c7_25
.LBBcb2c7_3:
	lbu	a1, 16(sp)
	lbu	a3, 17(sp)
	lbu	a2, 18(sp)
	ld	a0, 24(sp)
	ld	a6, 32(sp)
	li	s4, 1
	beqz	s1, .LBBcb2c7_8
	bne	a1, s4, .LBBcb2c7_17
	sd	zero, 152(sp)
	sd	zero, 160(sp)
	sd	zero, 168(sp)
	sd	zero, 104(sp)
	sd	zero, 112(sp)
	sd	zero, 120(sp)
	sd	zero, 88(sp)
	sd	zero, 96(sp)
	sd	zero, 64(sp)
	sd	zero, 72(sp)
	li	a1, 1
	sb	a1, 27(s3)
	sb	a1, 28(s3)
	sb	a3, 29(s3)
	beq	a2, a1, .LBBcb2c7_21
	li	a1, 3
	bne	a2, a1, .LBBcb2c7_22
	li	a1, 1
	sd	a1, 128(sp)
	sd	a0, 136(sp)
	sd	a6, 144(sp)
	addi	a0, sp, 152
	li	a2, 3
	addi	a4, sp, 128
	mv	a1, s3
	mv	a5, s2
	call	server_machine.machine.SizedServer.propose.__575f94f35bca5e04_
	lbu	s4, 168(sp)
	lbu	a1, 169(sp)
	lbu	a0, 170(sp)
	j	.LBBcb2c7_24
.LBBcb2c7_8:
	li	a7, 3
	lui	s1, 17
	addi	t1, s1, -1790
	bne	a1, s4, .LBBcb2c7_18
	lbu	a4, 28(s3)
	li	s4, 1
	li	a1, 12
	bne	a4, s4, .LBBcb2c7_20
	lbu	a4, 29(s3)
	bne	a4, a3, .LBBcb2c7_27
	ld	t0, 40(sp)
	ld	a4, 48(sp)
	sd	zero, 128(sp)
	sd	zero, 136(sp)
	sd	zero, 144(sp)
	sd	zero, 104(sp)
	sd	zero, 112(sp)
	sd	zero, 120(sp)
	li	a7, 3
	sd	zero, 88(sp)
	sd	zero, 96(sp)
	bne	a2, a7, .LBBcb2c7_13
	lbu	a1, 32(s3)
	beqz	a1, .LBBcb2c7_28
.LBBcb2c7_13:
	lbu	a0, 30(s3)
	li	s4, 1
	li	a1, 16
	addi	t1, s1, -1790
	bne	a0, s4, .LBBcb2c7_20
	lbu	a0, 31(s3)
	bne	a0, a2, .LBBcb2c7_20
	li	s4, 1
	bne	a2, s4, .LBBcb2c7_29
	li	a0, 2
	sb	a0, 32(s3)
	sd	zero, 80(sp)
	addi	a0, sp, 104
	addi	a4, sp, 80
	mv	a1, s3
	li	a2, 0
	mv	a5, s2
	call	server_machine.machine.SizedServer.propose.__575f94f35bca5e04_
	ld	t1, 104(sp)
	ld	a7, 112(sp)
	lbu	s4, 120(sp)
	lbu	a1, 121(sp)
	lbu	a0, 122(sp)
	j	.LBBcb2c7_25
.LBBcb2c7_17:
	li	t1, 0
	li	a7, 0
.LBBcb2c7_18:
	li	a0, 0
	li	a1, 7
	j	.LBBcb2c7_25
.LBBcb2c7_19:
	li	a2, 16
	mv	a0, s6
	call	memset
	li	a0, 1
	li	a1, 18
	sb	a0, 16(s6)
	sb	a1, 17(s6)
	sb	zero, 18(s6)
	j	.LBBcb2c7_26
.LBBcb2c7_20:
	li	a0, 0
	j	.LBBcb2c7_25
.LBBcb2c7_21:
	li	a0, 2
	sb	a0, 32(s3)
	sd	zero, 80(sp)
	addi	a0, sp, 104
	li	a2, 2
	addi	a4, sp, 80
	j	.LBBcb2c7_23
.LBBcb2c7_22:
	sd	zero, 56(sp)
	addi	a0, sp, 104
	li	a2, 4
	addi	a4, sp, 56
.LBBcb2c7_23:
	mv	a1, s3
	mv	a5, s2
	call	server_machine.machine.SizedServer.propose.__575f94f35bca5e04_
	ld	a2, 104(sp)
	ld	a3, 112(sp)
	lbu	s4, 120(sp)
	lbu	a1, 121(sp)
	lbu	a0, 122(sp)
	sd	a2, 152(sp)
	sd	a3, 160(sp)
.LBBcb2c7_24:
	ld	t1, 152(sp)
	ld	a7, 160(sp)
.LBBcb2c7_25:
	srli	a6, t1, 56
	srli	t2, t1, 48
	srli	a4, t1, 40
	srli	s1, t1, 32
	srli	t0, t1, 24
	srli	t4, t1, 16
	srli	a2, t1, 8
	srli	t3, a7, 56
	srli	a3, a7, 48
	srli	a5, a7, 40
	srli	s0, a7, 32
	sb	s1, 4(s6)
	sb	a4, 5(s6)
	sb	t2, 6(s6)
	sb	a6, 7(s6)
	srli	a4, a7, 24
	sb	t1, 0(s6)
	sb	a2, 1(s6)
	sb	t4, 2(s6)
	sb	t0, 3(s6)
	srli	a2, a7, 16
	sb	s0, 12(s6)
	sb	a5, 13(s6)
	sb	a3, 14(s6)
	sb	t3, 15(s6)
	srli	a3, a7, 8
	sb	a7, 8(s6)
	sb	a3, 9(s6)
	sb	a2, 10(s6)
	sb	a4, 11(s6)
	sb	s4, 16(s6)
	sb	a1, 17(s6)
	sb	a0, 18(s6)
.LBBcb2c7_26:
	ld	ra, 232(sp)
	ld	s0, 224(sp)
	ld	s1, 216(sp)
	ld	s2, 208(sp)
	ld	s3, 200(sp)
	ld	s4, 192(sp)
	ld	s5, 184(sp)
	ld	s6, 176(sp)
	addi	sp, sp, 240
	ret
.LBBcb2c7_27:
	li	a0, 0
	addi	t1, s1, -1790
	j	.LBBcb2c7_25
.LBBcb2c7_28:
	li	a1, 1
	sd	a1, 152(sp)
	sd	a0, 160(sp)
	sd	a6, 168(sp)
	addi	a0, sp, 128
	li	a2, 1
	addi	a4, sp, 152
	mv	a1, s3
	mv	a5, s2
	call	server_machine.machine.SizedServer.propose.__575f94f35bca5e04_
	ld	t1, 128(sp)
	ld	a7, 136(sp)
	lbu	s4, 144(sp)
	lbu	a1, 145(sp)
	lbu	a0, 146(sp)
	j	.LBBcb2c7_25
.LBBcb2c7_29:
	ld	a0, 0(s3)
	ld	a1, 8(s3)
	addi	a5, s3, 2047
	ld	a7, 561(a5)
	mv	s1, a3
	addi	a5, a3, 1
	addi	a6, s3, 1904
	mv	a3, t0
	mv	t3, s2
	mv	t4, s5
	call	eap_method.server_objects.call_server_method.__80187fcbb1ba111c_
	zext.b	a2, a0
	beqz	a2, .LBBcb2c7_35
	li	a0, 2
	bne	a2, a0, .LBBcb2c7_36
	lui	s4, 16384
	andi	a1, a1, 1
	sb	a0, 32(s3)
	addi	s4, s4, 3
	sd	zero, 152(sp)
	sd	zero, 160(sp)
	sd	zero, 168(sp)
	beqz	a1, .LBBcb2c7_37
	li	a0, 10
	sb	a0, 27(s3)
	ld	a2, 1504(s2)
	beqz	a2, .LBBcb2c7_34
	mv	a0, s2
	li	a1, 0
	call	memset
.LBBcb2c7_34:
	slli	s1, s1, 8
	srli	a0, s4, 24
	srli	a1, s4, 16
	li	a2, 4
	or	a3, s1, s4
	srli	a3, a3, 8
	sb	s4, 0(s2)
	sb	a3, 1(s2)
	sb	a1, 2(s2)
	sb	a0, 3(s2)
	sd	a2, 1504(s2)
	addi	a0, sp, 152
	li	a2, 10
	j	.LBBcb2c7_40
.LBBcb2c7_35:
	li	a7, 4
	lui	s1, 4241
	addi	t1, s1, 258
	j	.LBBcb2c7_25
.LBBcb2c7_36:
	addi	a0, s3, 24
	mv	a1, s2
	call	server_machine.outcome.send_request.__2_
	li	a1, 0
	li	s4, 0
	li	a0, 1
	li	a7, 6
	sb	a0, 32(s3)
	lui	a2, 69390
	addi	a2, a2, 289
	slli	a2, a2, 12
	addi	t1, a2, 258
	j	.LBBcb2c7_25
.LBBcb2c7_37:
	li	a0, 11
	sb	a0, 27(s3)
	ld	a2, 1504(s2)
	beqz	a2, .LBBcb2c7_39
	mv	a0, s2
	li	a1, 0
	call	memset
.LBBcb2c7_39:
	slli	s1, s1, 8
	li	a0, 4
	add	s1, s1, s4
	addi	s1, s1, 1
	srli	a1, s1, 24
	srli	a2, s1, 16
	srli	a3, s1, 8
	sb	s1, 0(s2)
	sb	a3, 1(s2)
	sb	a2, 2(s2)
	sb	a1, 3(s2)
	sd	a0, 1504(s2)
	addi	a0, sp, 152
	li	a2, 11
.LBBcb2c7_40:
	li	a1, 0
	call	server_machine.outcome.ending
	ld	t1, 152(sp)
	ld	a7, 160(sp)
	lbu	s4, 168(sp)
	lbu	a1, 169(sp)
	lbu	a0, 170(sp)
	j	.LBBcb2c7_25
.Lfunc_endcb2c7:
	.size	server_machine.machine.SizedServer.deliver_plain.__8eedcce04f265703_, .Lfunc_endcb2c7-server_machine.machine.SizedServer.deliver_plain.__8eedcce04f265703_

	.section	".text.server_machine::machine::SizedServer::propose::<#575f94f35bca5e04>","ax",@progbits
	.p2align	1
	.type	server_machine.machine.SizedServer.propose.__575f94f35bca5e04_,@function
server_machine.machine.SizedServer.propose.__575f94f35bca5e04_:
	addi	sp, sp, -464
	sd	ra, 456(sp)
	sd	s0, 448(sp)
	sd	s1, 440(sp)
	sd	s2, 432(sp)
	sd	s3, 424(sp)
	sd	s4, 416(sp)
	sd	s5, 408(sp)
	sd	s6, 400(sp)
	sd	s7, 392(sp)
	sd	s8, 384(sp)
	sd	s9, 376(sp)
	sd	s10, 368(sp)
	sd	s11, 360(sp)
	mv	s3, a5
	mv	s2, a2
	mv	s8, a1
	mv	s4, a0
	lbu	a6, 0(a4)
	lbu	t1, 8(a4)
	lbu	a0, 9(a4)
	lbu	s1, 10(a4)
	lbu	s0, 11(a4)
	lbu	a7, 12(a4)
	lbu	a2, 13(a4)
	lbu	s6, 14(a4)
	lbu	a5, 15(a4)
	lbu	t0, 16(a4)
	lbu	s5, 17(a4)
	lbu	t6, 18(a4)
	lbu	t5, 19(a4)
	lbu	t2, 20(a4)
	lbu	t4, 21(a4)
	lbu	t3, 22(a4)
	lbu	a4, 23(a4)
	ld	a1, 1840(a1)
	sd	zero, 8(sp)
	sd	zero, 16(sp)
	sd	zero, 24(sp)
	addi	s7, s8, 40
	beqz	a1, .LBB35836_11
	slli	a0, a0, 8
	slli	s9, s1, 16
	slli	s0, s0, 24
	slli	s1, a2, 8
	slli	s6, s6, 16
	slli	a5, a5, 24
	slli	s5, s5, 8
	slli	t6, t6, 16
	slli	t5, t5, 24
	slli	t4, t4, 8
	slli	t3, t3, 16
	slli	s11, a4, 24
	or	s10, a0, t1
	ld	t1, 48(s8)
	or	s9, s0, s9
	or	a7, s1, a7
	or	a5, a5, s6
	or	a2, s5, t0
	or	a0, t5, t6
	or	a4, t4, t2
	or	s0, s11, t3
	or	s1, s9, s10
	or	a5, a5, a7
	or	a0, a0, a2
	or	a4, a4, s0
	slli	a5, a5, 32
	slli	a4, a4, 32
	or	a7, a5, s1
	or	a5, a4, a0
	addi	s1, s8, 1832
.LBB35836_2:
	lbu	s9, 0(s1)
	addi	s1, s1, 1
	addi	a1, a1, -1
	mv	s0, s7
	mv	a0, t1
.LBB35836_3:
	beqz	a0, .LBB35836_6
	lbu	a2, 0(s0)
	addi	s0, s0, 1
	addi	a0, a0, -1
	bne	a2, s9, .LBB35836_3
.LBB35836_5:
	bnez	a1, .LBB35836_2
	j	.LBB35836_11
.LBB35836_6:
	beqz	a6, .LBB35836_10
	mv	a4, a7
	mv	a0, a5
.LBB35836_8:
	beqz	a0, .LBB35836_5
	lbu	a2, 0(a4)
	addi	a4, a4, 1
	addi	a0, a0, -1
	bne	a2, s9, .LBB35836_8
.LBB35836_10:
	li	a0, 1
	j	.LBB35836_12
.LBB35836_11:
	li	a0, 0
	li	s9, 0
.LBB35836_12:
	zext.b	a0, a0
	addi	s5, s8, 24
	beqz	a0, .LBB35836_15
	mv	s10, a3
	ld	s0, 0(s8)
	ld	s1, 8(s8)
	addi	a1, s8, 1568
	addi	a0, sp, 32
	call	eap_method.server_objects.side_of.__2_
	lbu	a0, 28(s8)
	beqz	a0, .LBB35836_16
	lbu	s6, 29(s8)
	addi	s6, s6, 1
	mv	a3, s10
	bnez	s1, .LBB35836_17
	j	.LBB35836_22
.LBB35836_15:
	addi	a0, sp, 8
	mv	a1, s5
	mv	a2, s2
	mv	a4, s3
	call	server_machine.outcome.end_badly.__2_
	lbu	s2, 24(sp)
	lbu	s1, 25(sp)
	lbu	s0, 26(sp)
	j	.LBB35836_27
.LBB35836_16:
	lbu	s6, 25(s8)
	mv	a3, s10
	beqz	s1, .LBB35836_22
.LBB35836_17:
	addi	a2, s8, 1864
.LBB35836_18:
	lbu	a0, 0(s0)
	beqz	a0, .LBB35836_20
	li	a0, 51
	bne	a0, s9, .LBB35836_21
	j	.LBB35836_23
.LBB35836_20:
	li	a0, 47
	beq	a0, s9, .LBB35836_23
.LBB35836_21:
	addi	s1, s1, -1
	addi	s0, s0, 1256
	bnez	s1, .LBB35836_18
.LBB35836_22:
	sd	zero, 328(sp)
	addi	a0, sp, 312
	mv	a1, s5
	mv	a2, s2
	mv	a4, s3
	call	server_machine.outcome.end_badly.__2_
	lbu	s2, 328(sp)
	lbu	s1, 329(sp)
	lbu	s0, 330(sp)
	j	.LBB35836_26
.LBB35836_23:
	addi	a1, sp, 32
	mv	a0, s0
	call	end_objects.objects.ServerObjectServerMethod.begin
	mv	a0, s0
	mv	a1, s6
	mv	a2, s3
	call	end_objects.objects.ServerObjectServerMethod.first_into
	mv	a0, s5
	mv	a1, s3
	call	server_machine.outcome.send_request.__2_
	li	a1, 1
	ld	a0, 48(s8)
	li	a2, 2
	sb	a1, 30(s8)
	sb	s9, 31(s8)
	sb	zero, 32(s8)
	beq	a0, a2, .LBB35836_25
	add	s7, s7, a0
	addi	a0, a0, 1
	sb	s9, 0(s7)
	sd	a0, 48(s8)
.LBB35836_25:
	sd	zero, 32(sp)
	sd	zero, 40(sp)
	sd	zero, 48(sp)
	lui	a0, 16
	lui	a1, 4337
	slli	s2, s2, 56
.Lpcrel_hi39:
	auipc	a2, %pcrel_hi(.Lswitch.table.server_machine.outcome.ending)
.Lpcrel_hi40:
	auipc	a3, %pcrel_hi(.Lswitch.table.server_machine.outcome.ending.2)
	srli	a4, s2, 53
	addi	a2, a2, %pcrel_lo(.Lpcrel_hi39)
	addi	a3, a3, %pcrel_lo(.Lpcrel_hi40)
	add	a2, a2, a4
	add	a4, a4, a3
	li	a5, 4
	addi	a1, a1, -499
	ld	a3, 0(a2)
	ld	a2, 0(a4)
	sd	a1, 336(sp)
	sd	a5, 344(sp)
	sd	a0, 352(sp)
	addi	a0, sp, 32
	addi	a1, sp, 336
	call	eap_method.step.Step.after
	ld	a0, 32(sp)
	ld	a1, 40(sp)
	lbu	s2, 48(sp)
	lbu	s1, 49(sp)
	lbu	s0, 50(sp)
	sd	a0, 312(sp)
	sd	a1, 320(sp)
.LBB35836_26:
	ld	a0, 312(sp)
	ld	a1, 320(sp)
	sd	a0, 8(sp)
	sd	a1, 16(sp)
.LBB35836_27:
	addi	a1, sp, 8
	li	a2, 16
	mv	a0, s4
	call	memcpy
	sb	s2, 16(s4)
	sb	s1, 17(s4)
	sb	s0, 18(s4)
	ld	ra, 456(sp)
	ld	s0, 448(sp)
	ld	s1, 440(sp)
	ld	s2, 432(sp)
	ld	s3, 424(sp)
	ld	s4, 416(sp)
	ld	s5, 408(sp)
	ld	s6, 400(sp)
	ld	s7, 392(sp)
	ld	s8, 384(sp)
	ld	s9, 376(sp)
	ld	s10, 368(sp)
	ld	s11, 360(sp)
	addi	sp, sp, 464
	ret
.Lfunc_end35836:
	.size	server_machine.machine.SizedServer.propose.__575f94f35bca5e04_, .Lfunc_end35836-server_machine.machine.SizedServer.propose.__575f94f35bca5e04_

	.section	".text.server_machine::outcome::end_badly::<=2>","ax",@progbits
	.p2align	1
	.type	server_machine.outcome.end_badly.__2_,@function
server_machine.outcome.end_badly.__2_:
	addi	sp, sp, -64
	sd	ra, 56(sp)
	sd	s0, 48(sp)
	sd	s1, 40(sp)
	sd	s2, 32(sp)
	sd	s3, 24(sp)
	mv	s1, a4
	mv	s3, a3
	mv	s2, a2
	mv	s0, a0
	li	a0, 11
	sb	a0, 3(a1)
	ld	a2, 1504(a4)
	sd	zero, 0(sp)
	sd	zero, 8(sp)
	sd	zero, 16(sp)
	beqz	a2, .LBBf5505_2
	mv	a0, s1
	li	a1, 0
	call	memset
.LBBf5505_2:
	li	a0, 4
	sb	a0, 0(s1)
	sb	s3, 1(s1)
	sb	zero, 2(s1)
	sb	a0, 3(s1)
	sd	a0, 1504(s1)
	mv	a0, sp
	li	a2, 11
	mv	a1, s2
	call	server_machine.outcome.ending
	mv	a1, sp
	li	a2, 16
	mv	a0, s0
	call	memcpy
	lbu	a0, 16(sp)
	lbu	a1, 17(sp)
	lbu	a2, 18(sp)
	sb	a0, 16(s0)
	sb	a1, 17(s0)
	sb	a2, 18(s0)
	ld	ra, 56(sp)
	ld	s0, 48(sp)
	ld	s1, 40(sp)
	ld	s2, 32(sp)
	ld	s3, 24(sp)
	addi	sp, sp, 64
	ret
.Lfunc_endf5505:
	.size	server_machine.outcome.end_badly.__2_, .Lfunc_endf5505-server_machine.outcome.end_badly.__2_

	.section	".text.server_machine::outcome::ending","ax",@progbits
	.p2align	1
	.type	server_machine.outcome.ending,@function
server_machine.outcome.ending:
	addi	sp, sp, -64
	sd	ra, 56(sp)
	sd	s0, 48(sp)
	mv	s0, a0
	sd	zero, 24(sp)
	sd	zero, 32(sp)
	sd	zero, 40(sp)
	sb	a2, 0(sp)
	sb	zero, 1(sp)
	sb	zero, 2(sp)
	sb	zero, 3(sp)
	slli	a1, a1, 56
.Lpcrel_hi41:
	auipc	a0, %pcrel_hi(.Lswitch.table.server_machine.outcome.ending)
.Lpcrel_hi42:
	auipc	a2, %pcrel_hi(.Lswitch.table.server_machine.outcome.ending.2)
	srli	a1, a1, 53
	addi	a0, a0, %pcrel_lo(.Lpcrel_hi41)
	addi	a2, a2, %pcrel_lo(.Lpcrel_hi42)
	add	a0, a0, a1
	add	a1, a1, a2
	li	a4, 1
	sd	a4, 8(sp)
	sd	zero, 16(sp)
	ld	a3, 0(a0)
	ld	a2, 0(a1)
	sb	zero, 4(sp)
	sb	zero, 5(sp)
	sb	zero, 6(sp)
	sb	zero, 7(sp)
	sh	zero, 16(sp)
	sb	a4, 18(sp)
	addi	a0, sp, 24
	mv	a1, sp
	call	eap_method.step.Step.after
	addi	a1, sp, 24
	li	a2, 16
	mv	a0, s0
	call	memcpy
	lbu	a0, 40(sp)
	lbu	a1, 41(sp)
	lbu	a2, 42(sp)
	sb	a0, 16(s0)
	sb	a1, 17(s0)
	sb	a2, 18(s0)
	ld	ra, 56(sp)
	ld	s0, 48(sp)
	addi	sp, sp, 64
	ret
.Lfunc_end9d596:
	.size	server_machine.outcome.ending, .Lfunc_end9d596-server_machine.outcome.ending

	.section	".text.end_objects::objects::ServerObjectServerMethod::first_into","ax",@progbits
	.p2align	1
	.type	end_objects.objects.ServerObjectServerMethod.first_into,@function
end_objects.objects.ServerObjectServerMethod.first_into:
	addi	sp, sp, -256
	sd	ra, 248(sp)
	sd	s0, 240(sp)
	sd	s1, 232(sp)
	sd	s2, 224(sp)
	sd	s3, 216(sp)
	sd	s4, 208(sp)
	mv	s0, a2
	lbu	a2, 0(a0)
	addi	s1, a0, 8
	beqz	a2, .LBB36d3f_4
	lbu	a2, 320(a0)
	li	a3, 1
	bne	a2, a3, .LBB36d3f_6
	lbu	a2, 321(a0)
	bnez	a2, .LBB36d3f_6
	mv	s3, a0
	addi	a0, sp, 24
	li	a2, 160
	mv	s2, a1
	li	a1, 0
	call	memset
	sd	zero, 0(sp)
	sd	zero, 8(sp)
	sd	zero, 16(sp)
	mv	a0, sp
	mv	a1, s1
	call	gpsk_ends.server.login.Initial.suite_list
	ld	a0, 0(sp)
	ld	a2, 8(sp)
	ld	a3, 16(sp)
	ld	s4, 264(s3)
	addi	a1, s3, 288
	sd	a0, 184(sp)
	sd	a2, 192(sp)
	sd	a3, 200(sp)
	addi	a0, sp, 48
	li	a2, 32
	call	memcpy
	ld	a0, 200(sp)
	addi	a1, sp, 184
	sw	zero, 24(sp)
	sd	s1, 32(sp)
	sd	s4, 40(sp)
	sd	a1, 80(sp)
	sd	a0, 88(sp)
	addi	a1, sp, 24
	mv	a0, s0
	li	a2, 0
	mv	a3, s2
	call	gpsk_messages.writing.write_gpsk_into
	li	a0, 1
	sb	a0, 321(s3)
	j	.LBB36d3f_8
.LBB36d3f_4:
	lbu	a2, 0(s1)
	li	a3, 1
	bne	a2, a3, .LBB36d3f_6
	lbu	a2, 328(a0)
	beqz	a2, .LBB36d3f_9
.LBB36d3f_6:
	ld	a2, 1504(s0)
	beqz	a2, .LBB36d3f_8
	mv	a0, s0
	li	a1, 0
	call	memset
	sd	zero, 1504(s0)
.LBB36d3f_8:
	ld	ra, 248(sp)
	ld	s0, 240(sp)
	ld	s1, 232(sp)
	ld	s2, 224(sp)
	ld	s3, 216(sp)
	ld	s4, 208(sp)
	addi	sp, sp, 256
	ret
.LBB36d3f_9:
	addi	s2, a0, 16
	mv	s1, a0
	addi	a0, sp, 24
	li	a2, 72
	mv	s3, a1
	li	a1, 0
	call	memset
	addi	a1, s1, 296
	addi	a0, sp, 32
	li	a2, 16
	call	memcpy
	ld	a0, 272(s1)
	sd	s2, 48(sp)
	sd	a0, 56(sp)
	addi	a1, sp, 24
	mv	a0, s0
	li	a2, 0
	mv	a3, s3
	call	psk_messages.writing.write_psk_into
	li	a0, 1
	sb	a0, 328(s1)
	j	.LBB36d3f_8
.Lfunc_end36d3f:
	.size	end_objects.objects.ServerObjectServerMethod.first_into, .Lfunc_end36d3f-end_objects.objects.ServerObjectServerMethod.first_into

	.section	".text.gpsk_ends::server::login::Initial::suite_list","ax",@progbits
	.p2align	1
	.type	gpsk_ends.server.login.Initial.suite_list,@function
gpsk_ends.server.login.Initial.suite_list:
	addi	sp, sp, -48
	sd	ra, 40(sp)
	ld	a4, 272(a1)
	sd	zero, 16(sp)
	sd	zero, 24(sp)
	sd	zero, 32(sp)
	beqz	a4, .LBBbef91_8
	ld	a7, 32(sp)
	addi	a3, a1, 264
	add	a1, a1, a4
	addi	a6, a1, 264
	j	.LBBbef91_5
.LBBbef91_2:
	sb	zero, 0(a4)
	sb	zero, 1(a4)
	sb	zero, 2(a4)
	sb	zero, 3(a4)
	sb	zero, 4(a4)
	sb	a5, 5(a4)
.LBBbef91_3:
	addi	a7, a7, 6
	sd	a7, 32(sp)
.LBBbef91_4:
	addi	a3, a3, 1
	beq	a3, a6, .LBBbef91_8
.LBBbef91_5:
	lbu	a5, 0(a3)
	addi	a4, a7, -13
	li	a1, -7
	sw	zero, 8(sp)
	sb	zero, 12(sp)
	sb	a5, 13(sp)
	bltu	a1, a4, .LBBbef91_4
	addi	a4, sp, 16
	addi	a1, sp, 8
	add	a4, a4, a7
	sub	a1, a4, a1
	li	a2, 5
	bgeu	a2, a1, .LBBbef91_2
	lbu	a1, 12(sp)
	lbu	a2, 13(sp)
	sb	a1, 4(a4)
	sb	a2, 5(a4)
	lbu	a1, 8(sp)
	lbu	a2, 9(sp)
	lbu	a5, 10(sp)
	lbu	t0, 11(sp)
	sb	a1, 0(a4)
	sb	a2, 1(a4)
	sb	a5, 2(a4)
	sb	t0, 3(a4)
	j	.LBBbef91_3
.LBBbef91_8:
	addi	a1, sp, 16
	li	a2, 24
	call	memcpy
	ld	ra, 40(sp)
	addi	sp, sp, 48
	ret
.Lfunc_endbef91:
	.size	gpsk_ends.server.login.Initial.suite_list, .Lfunc_endbef91-gpsk_ends.server.login.Initial.suite_list

	.section	".text.server_machine::outcome::send_request::<=2>","ax",@progbits
	.p2align	1
	.type	server_machine.outcome.send_request.__2_,@function
server_machine.outcome.send_request.__2_:
	lbu	a2, 4(a0)
	beqz	a2, .LBBdba05_2
	lbu	a2, 5(a0)
	addi	a2, a2, 1
	j	.LBBdba05_3
.LBBdba05_2:
	lbu	a2, 1(a0)
.LBBdba05_3:
	li	a3, 1
	sb	a3, 4(a0)
	sb	a2, 5(a0)
	sb	zero, 9(a0)
	ld	a2, 1504(a1)
	addi	a0, a0, 32
	tail	octet_lists.octets.Octets.set.__1500_
.Lfunc_enddba05:
	.size	server_machine.outcome.send_request.__2_, .Lfunc_enddba05-server_machine.outcome.send_request.__2_

	.section	".text.eap_method::server_objects::call_server_method::<#80187fcbb1ba111c>","ax",@progbits
	.p2align	1
	.type	eap_method.server_objects.call_server_method.__80187fcbb1ba111c_,@function
eap_method.server_objects.call_server_method.__80187fcbb1ba111c_:
	beqz	a1, .LBBb2c1a_3
	lbu	t0, 0(a0)
	beqz	t0, .LBBb2c1a_4
	li	t0, 51
	j	.LBBb2c1a_5
.LBBb2c1a_3:
	li	a0, 0
	sd	zero, 0(t4)
	sd	zero, 8(t4)
	li	a1, 22
	ret
.LBBb2c1a_4:
	li	t0, 47
.LBBb2c1a_5:
	addi	sp, sp, -16
	sd	ra, 8(sp)
	zext.b	t1, a2
	bne	t0, t1, .LBBb2c1a_7
	mv	a1, a3
	mv	a2, a4
	mv	a3, a5
	mv	a4, a6
	mv	a5, a7
	mv	a6, t3
	mv	a7, t4
	call	end_objects.objects.ServerObjectServerMethod.handle_unrecorded
	j	.LBBb2c1a_8
.LBBb2c1a_7:
	addi	a1, a1, -1
	addi	a0, a0, 1256
	call	eap_method.server_objects.call_server_method.__80187fcbb1ba111c_
.LBBb2c1a_8:
	ld	ra, 8(sp)
	addi	sp, sp, 16
	ret
.Lfunc_endb2c1a:
	.size	eap_method.server_objects.call_server_method.__80187fcbb1ba111c_, .Lfunc_endb2c1a-eap_method.server_objects.call_server_method.__80187fcbb1ba111c_

	.section	".text.end_objects::objects::ServerObjectServerMethod::handle_unrecorded","ax",@progbits
	.p2align	1
	.type	end_objects.objects.ServerObjectServerMethod.handle_unrecorded,@function
end_objects.objects.ServerObjectServerMethod.handle_unrecorded:
	lbu	t0, 0(a0)
	addi	a0, a0, 8
	beqz	t0, .LBBdbb6e_2
	tail	gpsk_ends.server.GpskServer.handle_step.__e0641de541981142_
.LBBdbb6e_2:
	tail	psk_ends.server.PskServer.handle_step.__becd8de5e2060522_
.Lfunc_enddbb6e:
	.size	end_objects.objects.ServerObjectServerMethod.handle_unrecorded, .Lfunc_enddbb6e-end_objects.objects.ServerObjectServerMethod.handle_unrecorded

	.section	".text.psk_ends::server::PskServer::handle_step::<#becd8de5e2060522>","ax",@progbits
	.p2align	1
	.type	psk_ends.server.PskServer.handle_step.__becd8de5e2060522_,@function
psk_ends.server.PskServer.handle_step.__becd8de5e2060522_:
	addi	sp, sp, -944
	sd	ra, 936(sp)
	sd	s0, 928(sp)
	sd	s1, 920(sp)
	sd	s2, 912(sp)
	sd	s3, 904(sp)
	sd	s4, 896(sp)
	sd	s5, 888(sp)
	sd	s6, 880(sp)
	sd	s7, 872(sp)
	mv	s2, a7
	mv	s6, a6
	mv	s0, a5
	mv	s1, a4
	mv	s7, a3
	mv	s4, a2
	mv	s3, a1
	mv	s5, a0
	addi	a0, sp, 8
	li	a2, 312
	li	a1, 0
	call	memset
	lbu	a0, 0(s5)
	beqz	a0, .LBB00a61_8
	li	a1, 2
	bne	a0, a1, .LBB00a61_5
	lbu	a0, 1240(s5)
	bnez	a0, .LBB00a61_7
	addi	a0, sp, 792
	li	a2, 80
	li	a1, 0
	call	memset
	addi	a1, s3, 5
	addi	a2, s4, -5
	addi	a0, sp, 792
	call	psk_messages.reading.read_psk_message
	lbu	s0, 792(sp)
	lbu	s6, 793(sp)
	lbu	s1, 800(sp)
	addi	a1, sp, 804
	addi	a0, sp, 676
	li	a2, 68
	call	memcpy
	li	a0, 1
	bne	s0, a0, .LBB00a61_15
	li	a0, 0
	mv	a1, s6
	j	.LBB00a61_23
.LBB00a61_5:
	lbu	a0, 320(s5)
	beqz	a0, .LBB00a61_7
	li	a1, 2
	bne	a0, a1, .LBB00a61_10
.LBB00a61_7:
	addi	a0, sp, 792
	li	a2, 80
	li	a1, 0
	call	memset
	addi	a1, s3, 5
	addi	a2, s4, -5
	addi	a0, sp, 792
	call	psk_messages.reading.read_psk_message
	lbu	a0, 792(sp)
	li	a1, 1
	beq	a0, a1, .LBB00a61_9
.LBB00a61_8:
	li	a1, 22
	j	.LBB00a61_12
.LBB00a61_9:
	lbu	a1, 793(sp)
	j	.LBB00a61_12
.LBB00a61_10:
	addi	a1, s5, 8
	addi	a0, sp, 8
	mv	a2, s3
	mv	a3, s4
	mv	a4, s1
	mv	a5, s0
	call	psk_ends.server.psk3.asked_reads
	lbu	a0, 8(sp)
	li	a1, 1
	bne	a0, a1, .LBB00a61_20
	lbu	a1, 9(sp)
.LBB00a61_12:
	li	a0, 0
.LBB00a61_13:
	sd	zero, 0(s2)
	sd	zero, 8(s2)
.LBB00a61_14:
	ld	ra, 936(sp)
	ld	s0, 928(sp)
	ld	s1, 920(sp)
	ld	s2, 912(sp)
	ld	s3, 904(sp)
	ld	s4, 896(sp)
	ld	s5, 888(sp)
	ld	s6, 880(sp)
	ld	s7, 872(sp)
	addi	sp, sp, 944
	ret
.LBB00a61_15:
	li	a0, 3
	bne	s1, a0, .LBB00a61_22
	lwu	a0, 708(sp)
	lw	a1, 712(sp)
	lwu	a2, 692(sp)
	lw	a3, 696(sp)
	lwu	a4, 700(sp)
	lw	a5, 704(sp)
	slli	a1, a1, 32
	or	a6, a1, a0
	lwu	a1, 676(sp)
	lw	s1, 680(sp)
	lwu	s0, 684(sp)
	lw	a0, 688(sp)
	slli	a5, a5, 32
	or	a4, a4, a5
	slli	a3, a3, 32
	or	a2, a2, a3
	slli	a0, a0, 32
	or	a0, a0, s0
	slli	s1, s1, 32
	or	a1, a1, s1
	sd	a6, 824(sp)
	li	a3, 22
	sd	a1, 792(sp)
	sd	a0, 800(sp)
	sd	a2, 808(sp)
	sd	a4, 816(sp)
	bltu	s4, a3, .LBB00a61_18
	li	s4, 22
.LBB00a61_18:
	lbu	a0, 288(s5)
	lbu	a1, 289(s5)
	lbu	a2, 290(s5)
	lbu	a3, 291(s5)
	lbu	a4, 292(s5)
	lbu	a5, 293(s5)
	lbu	s1, 294(s5)
	lbu	s0, 295(s5)
	slli	a1, a1, 8
	slli	a2, a2, 16
	slli	a3, a3, 24
	or	a6, a1, a0
	or	a7, a3, a2
	lbu	a1, 296(s5)
	lbu	a3, 297(s5)
	lbu	a0, 298(s5)
	lbu	a2, 299(s5)
	slli	a5, a5, 8
	slli	s1, s1, 16
	slli	s0, s0, 24
	slli	a3, a3, 8
	slli	a0, a0, 16
	slli	a2, a2, 24
	or	a4, a4, a5
	or	s0, s0, s1
	or	a1, a1, a3
	or	a0, a0, a2
	lbu	a2, 301(s5)
	lbu	a3, 300(s5)
	lbu	a5, 302(s5)
	lbu	s1, 303(s5)
	slli	a2, a2, 8
	or	a2, a2, a3
	slli	a5, a5, 16
	slli	s1, s1, 24
	or	a5, a5, s1
	or	a3, a7, a6
	or	a4, a4, s0
	or	a0, a0, a1
	addi	a1, sp, 792
	or	a2, a2, a5
	li	a5, 16
	slli	a4, a4, 32
	or	a3, a3, a4
	addi	a4, sp, 760
	sd	a1, 776(sp)
	sd	a5, 784(sp)
	slli	a2, a2, 32
	or	a0, a0, a2
	sd	a3, 760(sp)
	sd	a0, 768(sp)
	sd	a4, 744(sp)
	sd	a5, 752(sp)
	addi	a0, sp, 776
	addi	a1, sp, 744
	call	core.cmp.PartialEq.ne.__4f69ed2539eb7fe9_
	beqz	a0, .LBB00a61_28
	li	a1, 25
	li	a0, 0
	j	.LBB00a61_23
.LBB00a61_20:
	lbu	a0, 16(sp)
	beqz	a0, .LBB00a61_26
	addi	s0, sp, 24
	addi	a0, sp, 324
	mv	a1, s0
	call	psk_ends.server.login.UserPsk2.keys
	addi	a2, sp, 324
	mv	a0, s5
	mv	a1, s0
	mv	a3, s7
	mv	a4, s6
	mv	a5, s2
	call	psk_ends.server.turns.log_in.__becd8de5e2060522_
	j	.LBB00a61_23
.LBB00a61_22:
	li	a0, 0
	li	a1, 22
.LBB00a61_23:
	zext.b	a2, a0
	li	a3, 2
	beq	a2, a3, .LBB00a61_27
	li	a3, 1
	bne	a2, a3, .LBB00a61_13
	li	a1, 0
	j	.LBB00a61_14
.LBB00a61_26:
	li	a1, 0
	sd	zero, 0(s2)
	sd	zero, 8(s2)
	li	a0, 2
	sb	a0, 320(s5)
.LBB00a61_27:
	andi	a1, a1, 1
	j	.LBB00a61_14
.LBB00a61_28:
	lw	a0, 808(sp)
	li	a1, 1
	bne	a0, a1, .LBB00a61_33
	addi	a3, sp, 808
	addi	a0, s5, 1025
	mv	a1, s3
	mv	a2, s4
	call	psk_ends.channel.open
	zext.b	a0, a0
	beqz	a0, .LBB00a61_34
	slli	a0, a1, 56
	srli	a1, a0, 62
	beqz	a1, .LBB00a61_35
	srai	a0, a0, 56
	andi	a2, a0, 32
	beqz	a2, .LBB00a61_36
	srli	a1, a2, 5
	j	.LBB00a61_37
.LBB00a61_33:
	li	a1, 27
	li	a0, 0
	j	.LBB00a61_23
.LBB00a61_34:
	li	a1, 28
	li	a0, 0
	j	.LBB00a61_23
.LBB00a61_35:
	li	a1, 29
	li	a0, 0
	j	.LBB00a61_23
.LBB00a61_36:
	addi	a1, a1, -1
	seqz	a1, a1
.LBB00a61_37:
	beqz	a1, .LBB00a61_39
	li	a0, 0
	li	a1, 30
	j	.LBB00a61_23
.LBB00a61_39:
	li	a2, 1
	sd	a2, 0(s2)
	sd	zero, 8(s2)
	lbu	a1, 672(s5)
	slti	a0, a0, -64
	addi	a1, a1, -2
	seqz	a1, a1
	and	a1, a1, a0
	sb	a2, 1240(s5)
	sb	a1, 1241(s5)
	li	a0, 2
	j	.LBB00a61_23
.Lfunc_end00a61:
	.size	psk_ends.server.PskServer.handle_step.__becd8de5e2060522_, .Lfunc_end00a61-psk_ends.server.PskServer.handle_step.__becd8de5e2060522_

	.section	".text.psk_ends::server::psk3::asked_reads","ax",@progbits
	.p2align	1
	.type	psk_ends.server.psk3.asked_reads,@function
psk_ends.server.psk3.asked_reads:
	addi	sp, sp, -1440
	sd	ra, 1432(sp)
	sd	s0, 1424(sp)
	sd	s1, 1416(sp)
	sd	s2, 1408(sp)
	sd	s3, 1400(sp)
	sd	s4, 1392(sp)
	sd	s5, 1384(sp)
	sd	s6, 1376(sp)
	sd	s7, 1368(sp)
	sd	s8, 1360(sp)
	sd	s9, 1352(sp)
	mv	s3, a5
	mv	s6, a4
	mv	s1, a3
	mv	s0, a2
	mv	s2, a1
	mv	s7, a0
	addi	a0, sp, 320
	li	a2, 288
	li	a1, 0
	call	memset
	addi	a0, sp, 16
	li	a2, 288
	li	a1, 0
	call	memset
	addi	a0, sp, 744
	li	a2, 80
	li	a1, 0
	call	memset
	addi	a1, s0, 5
	addi	a2, s1, -5
	addi	a0, sp, 744
	call	psk_messages.reading.read_psk_message
	lbu	s0, 744(sp)
	lbu	s5, 745(sp)
	lbu	s1, 752(sp)
	addi	a1, sp, 756
	addi	a0, sp, 612
	li	a2, 68
	call	memcpy
	li	s8, 1
	bne	s0, s8, .LBBd3c93_2
	li	s1, 0
	li	s4, 0
	j	.LBBd3c93_18
.LBBd3c93_2:
	li	s8, 1
	bne	s1, s8, .LBBd3c93_11
	li	s4, 0
	lwu	a7, 664(sp)
	lw	t1, 668(sp)
	lwu	t2, 672(sp)
	lw	t5, 676(sp)
	lwu	a6, 648(sp)
	lw	t3, 652(sp)
	lwu	t0, 656(sp)
	lw	t6, 660(sp)
	lwu	s8, 632(sp)
	lw	a1, 636(sp)
	lwu	s1, 640(sp)
	lw	a0, 644(sp)
	lwu	t4, 616(sp)
	lw	s9, 620(sp)
	lwu	s5, 624(sp)
	lw	a3, 628(sp)
	slli	t5, t5, 32
	slli	s0, t1, 32
	or	t1, t5, t2
	or	a7, s0, a7
	lbu	s0, 280(s2)
	lbu	a2, 281(s2)
	lbu	a5, 282(s2)
	lbu	a4, 283(s2)
	slli	t6, t6, 32
	slli	t3, t3, 32
	slli	a0, a0, 32
	slli	a1, a1, 32
	or	t2, t6, t0
	or	t3, t3, a6
	or	a6, a0, s1
	or	t0, a1, s8
	lbu	t5, 284(s2)
	lbu	a1, 285(s2)
	lbu	s1, 286(s2)
	lbu	a0, 287(s2)
	slli	a3, a3, 32
	slli	s9, s9, 32
	slli	a2, a2, 8
	slli	a5, a5, 16
	slli	a4, a4, 24
	or	t6, a3, s5
	or	s5, s9, t4
	or	t4, a2, s0
	or	s8, a4, a5
	lbu	a5, 288(s2)
	lbu	s0, 289(s2)
	lbu	a2, 290(s2)
	lbu	a3, 291(s2)
	slli	a1, a1, 8
	slli	s1, s1, 16
	slli	a0, a0, 24
	slli	s0, s0, 8
	slli	a2, a2, 16
	slli	a3, a3, 24
	or	a1, a1, t5
	or	a0, a0, s1
	or	a5, a5, s0
	or	a2, a2, a3
	lbu	a3, 293(s2)
	lbu	s1, 292(s2)
	lbu	s0, 294(s2)
	lbu	a4, 295(s2)
	slli	a3, a3, 8
	or	a3, a3, s1
	slli	s0, s0, 16
	slli	a4, a4, 24
	or	a4, a4, s0
	sd	t3, 712(sp)
	sd	t2, 720(sp)
	sd	a7, 728(sp)
	sd	t1, 736(sp)
	sd	s5, 680(sp)
	or	s1, s8, t4
	or	a0, a0, a1
	or	a2, a2, a5
	or	a3, a3, a4
	slli	a0, a0, 32
	or	a0, a0, s1
	slli	a3, a3, 32
	or	a2, a2, a3
	lbu	a1, 680(sp)
	sd	a0, 304(sp)
	lbu	a0, 304(sp)
	sd	t6, 688(sp)
	sd	t0, 696(sp)
	sd	a6, 704(sp)
	sd	a2, 312(sp)
	li	s5, 25
	li	s8, 1
	bne	a1, a0, .LBBd3c93_12
	lbu	a0, 681(sp)
	lbu	a1, 305(sp)
	bne	a0, a1, .LBBd3c93_12
	lbu	a0, 682(sp)
	lbu	a1, 306(sp)
	bne	a0, a1, .LBBd3c93_12
	lbu	a0, 683(sp)
	lbu	a1, 307(sp)
	bne	a0, a1, .LBBd3c93_12
	addi	a0, sp, 680
	li	a1, 16
	addi	a2, sp, 304
	li	a3, 16
	call	core.cmp.slices.groups_equal._i8_31_core.cmp.numbers.U8PartialEq___
	beqz	a0, .LBBd3c93_13
	addi	a0, sp, 744
	li	a2, 288
	li	a1, 0
	call	memset
	ld	s4, 728(sp)
	ld	s5, 736(sp)
	li	a4, 47
	mv	a0, s6
	mv	a1, s3
	mv	a2, s4
	mv	a3, s5
	call	login_setup.users.find_user
	zext.b	a0, a0
	beqz	a0, .LBBd3c93_14
	mv	s1, a1
	addi	a1, a1, 272
	addi	a0, sp, 1240
	call	psk_ends.keys.long_keys
	addi	a0, sp, 1032
	addi	a1, sp, 1240
	call	cmac_mac.key.CmacKey.new
	ld	a6, 256(s2)
	lbu	a1, 280(s2)
	lbu	a2, 281(s2)
	lbu	t1, 282(s2)
	lbu	a4, 283(s2)
	lbu	t0, 284(s2)
	lbu	s0, 285(s2)
	lbu	a0, 286(s2)
	slli	a2, a2, 8
	or	a7, a2, a1
	lbu	a2, 287(s2)
	lbu	a1, 288(s2)
	lbu	a5, 289(s2)
	lbu	a3, 290(s2)
	slli	t1, t1, 16
	slli	a4, a4, 24
	slli	s0, s0, 8
	slli	a0, a0, 16
	slli	a2, a2, 24
	slli	a5, a5, 8
	or	t1, a4, t1
	or	s0, s0, t0
	or	a0, a0, a2
	or	t0, a5, a1
	lbu	a2, 291(s2)
	lbu	a5, 292(s2)
	lbu	a1, 293(s2)
	lbu	a4, 294(s2)
	slli	a3, a3, 16
	slli	a2, a2, 24
	or	a2, a2, a3
	lbu	a3, 295(s2)
	slli	a1, a1, 8
	or	a1, a1, a5
	slli	a4, a4, 16
	slli	a3, a3, 24
	or	a3, a3, a4
	or	a4, t1, a7
	or	a0, a0, s0
	addi	a5, sp, 696
	sd	zero, 1336(sp)
	sd	zero, 1344(sp)
	or	a2, a2, t0
	addi	s0, sp, 1272
	or	a1, a1, a3
	li	a3, 16
	sd	s2, 1288(sp)
	sd	a6, 1296(sp)
	sd	s0, 1304(sp)
	sd	a3, 1312(sp)
	slli	a0, a0, 32
	slli	a1, a1, 32
	or	a0, a0, a4
	or	a1, a1, a2
	sd	a0, 1272(sp)
	sd	a1, 1280(sp)
	sd	a5, 1320(sp)
	sd	a3, 1328(sp)
	addi	a0, sp, 1336
	addi	a1, sp, 1032
	addi	a4, sp, 1288
	li	a5, 3
	mv	a2, s4
	mv	a3, s5
	call	cmac_mac.key.CmacKey.tag
	addi	a2, sp, 712
	addi	a0, sp, 1336
	li	a1, 16
	li	a3, 16
	call	octet_lists.comparison.equal_in_full
	beqz	a0, .LBBd3c93_15
	addi	s0, sp, 1256
	ld	a0, 712(sp)
	ld	a1, 720(sp)
	ld	a2, 728(sp)
	ld	a3, 736(sp)
	sd	a0, 776(sp)
	sd	a1, 784(sp)
	sd	a2, 792(sp)
	sd	a3, 800(sp)
	ld	a0, 680(sp)
	ld	a1, 688(sp)
	ld	a2, 696(sp)
	ld	a3, 704(sp)
	sd	a0, 744(sp)
	sd	a1, 752(sp)
	sd	a2, 760(sp)
	sd	a3, 768(sp)
	addi	a0, sp, 808
	addi	a1, sp, 1032
	li	a2, 208
	call	memcpy
	addi	a0, sp, 1016
	li	a2, 16
	mv	a1, s0
	call	memcpy
	li	s8, 0
	li	s5, 0
	li	s4, 1
	j	.LBBd3c93_16
.LBBd3c93_11:
	li	s1, 0
	li	s4, 0
	li	s5, 22
	j	.LBBd3c93_18
.LBBd3c93_12:
	mv	s1, s4
	j	.LBBd3c93_17
.LBBd3c93_13:
	li	s4, 0
	li	s1, 0
	j	.LBBd3c93_17
.LBBd3c93_14:
	li	s8, 0
	li	s5, 0
	li	s4, 0
	li	s1, 0
	j	.LBBd3c93_16
.LBBd3c93_15:
	addi	a0, sp, 744
	li	a2, 288
	li	a1, 0
	call	memset
	li	s4, 0
	li	s1, 0
	li	s5, 28
	li	s8, 1
.LBBd3c93_16:
	addi	a0, sp, 16
	addi	a1, sp, 744
	li	a2, 288
	call	memcpy
.LBBd3c93_17:
	addi	a0, sp, 320
	addi	a1, sp, 16
	li	a2, 288
	call	memcpy
.LBBd3c93_18:
	sb	zero, 10(s7)
	sb	zero, 11(s7)
	sb	zero, 12(s7)
	sb	zero, 13(s7)
	sb	s8, 0(s7)
	sb	s5, 1(s7)
	sb	s4, 8(s7)
	sb	zero, 9(s7)
	srli	a0, s1, 56
	srli	a1, s1, 48
	srli	a2, s1, 40
	srli	a3, s1, 32
	srli	a4, s1, 24
	srli	a5, s1, 16
	sb	a1, 22(s7)
	sb	a0, 23(s7)
	srli	a0, s1, 8
	sb	a5, 18(s7)
	sb	a4, 19(s7)
	sb	a3, 20(s7)
	sb	a2, 21(s7)
	sb	zero, 14(s7)
	sb	zero, 15(s7)
	sb	s1, 16(s7)
	sb	a0, 17(s7)
	addi	a0, s7, 24
	addi	a1, sp, 320
	li	a2, 288
	call	memcpy
	ld	ra, 1432(sp)
	ld	s0, 1424(sp)
	ld	s1, 1416(sp)
	ld	s2, 1408(sp)
	ld	s3, 1400(sp)
	ld	s4, 1392(sp)
	ld	s5, 1384(sp)
	ld	s6, 1376(sp)
	ld	s7, 1368(sp)
	ld	s8, 1360(sp)
	ld	s9, 1352(sp)
	addi	sp, sp, 1440
	ret
.Lfunc_endd3c93:
	.size	psk_ends.server.psk3.asked_reads, .Lfunc_endd3c93-psk_ends.server.psk3.asked_reads

	.section	".text.psk_ends::server::login::UserPsk2::keys","ax",@progbits
	.p2align	1
	.type	psk_ends.server.login.UserPsk2.keys,@function
psk_ends.server.login.UserPsk2.keys:
	addi	sp, sp, -720
	sd	ra, 712(sp)
	sd	s0, 704(sp)
	mv	s0, a0
	addi	a3, a1, 280
	addi	a2, a1, 24
	addi	a0, sp, 208
	mv	a1, a3
	call	login_keys.psk.psk_session
	mv	a0, sp
	addi	a1, sp, 208
	call	cmac_mac.key.CmacKey.new
	addi	a0, sp, 352
	addi	a1, sp, 208
	li	a2, 144
	call	memcpy
	addi	a0, sp, 496
	mv	a1, sp
	li	a2, 208
	call	memcpy
	addi	a1, sp, 352
	li	a2, 352
	mv	a0, s0
	call	memcpy
	ld	ra, 712(sp)
	ld	s0, 704(sp)
	addi	sp, sp, 720
	ret
.Lfunc_end55f2b:
	.size	psk_ends.server.login.UserPsk2.keys, .Lfunc_end55f2b-psk_ends.server.login.UserPsk2.keys

	.section	".text.psk_ends::server::turns::log_in::<#becd8de5e2060522>","ax",@progbits
	.p2align	1
	.type	psk_ends.server.turns.log_in.__becd8de5e2060522_,@function
psk_ends.server.turns.log_in.__becd8de5e2060522_:
	addi	sp, sp, -1424
	sd	ra, 1416(sp)
	sd	s0, 1408(sp)
	sd	s1, 1400(sp)
	sd	s2, 1392(sp)
	sd	s3, 1384(sp)
	sd	s4, 1376(sp)
	sd	s5, 1368(sp)
	sd	s6, 1360(sp)
	sd	s7, 1352(sp)
	sd	s8, 1344(sp)
	sd	s9, 1336(sp)
	mv	s5, a5
	mv	s2, a4
	mv	s3, a3
	mv	a3, a2
	mv	s0, a1
	mv	s1, a0
	addi	a0, sp, 624
	li	a2, 352
	mv	a1, a3
	call	memcpy
	lbu	a2, 0(s1)
	li	a0, 1
	li	a1, 22
	bne	a2, a0, .LBB5ecda_6
	lbu	a2, 320(s1)
	bne	a2, a0, .LBB5ecda_6
	addi	s6, s1, 8
	addi	a0, sp, 976
	mv	a1, s6
	call	eap_method.values.ServerSide.copy
	addi	s7, s1, 288
	addi	a0, sp, 1256
	li	a2, 32
	mv	a1, s7
	call	memcpy
	addi	a0, sp, 312
	addi	a1, sp, 976
	li	a2, 312
	call	memcpy
	addi	a0, sp, 16
	li	a2, 296
	mv	a1, s0
	call	memcpy
	addi	a1, sp, 312
	addi	a2, sp, 16
	addi	a3, sp, 624
	mv	a0, s1
	call	psk_ends.server.turns.settle
	lbu	a0, 0(s1)
	li	s9, 2
	bne	a0, s9, .LBB5ecda_8
	addi	s4, s5, 8
	li	s8, 1
	addi	a1, s1, 673
	addi	a0, s1, 656
	sd	s8, 0(s5)
	sd	zero, 8(s5)
	ld	a3, 264(s1)
	sd	zero, 1288(sp)
	sd	zero, 1296(sp)
	li	a2, 16
	sd	a0, 976(sp)
	sd	a2, 984(sp)
	addi	a0, sp, 1288
	addi	a4, sp, 976
	li	a5, 1
	mv	a2, s6
	call	cmac_mac.key.CmacKey.tag
	lbu	a0, 0(s7)
	lbu	a1, 1(s7)
	lbu	a2, 2(s7)
	lbu	a3, 3(s7)
	lbu	a4, 4(s7)
	lbu	a5, 5(s7)
	lbu	a6, 6(s7)
	lbu	s0, 7(s7)
	slli	a1, a1, 8
	slli	a2, a2, 16
	slli	a3, a3, 24
	slli	a5, a5, 8
	or	a7, a1, a0
	or	t0, a3, a2
	or	t1, a5, a4
	lbu	a1, 8(s7)
	lbu	a3, 9(s7)
	lbu	a5, 10(s7)
	lbu	a0, 11(s7)
	slli	a6, a6, 16
	slli	s0, s0, 24
	slli	a3, a3, 8
	slli	a5, a5, 16
	slli	a0, a0, 24
	or	s0, s0, a6
	or	a1, a1, a3
	or	a0, a0, a5
	lbu	a3, 13(s7)
	lbu	a5, 12(s7)
	lbu	a2, 14(s7)
	lbu	a4, 15(s7)
	slli	a3, a3, 8
	or	a3, a3, a5
	slli	a2, a2, 16
	slli	a4, a4, 24
	or	a2, a2, a4
	or	a4, t0, a7
	or	a5, s0, t1
	or	a0, a0, a1
	sd	zero, 1032(sp)
	sd	zero, 1040(sp)
	or	a2, a2, a3
	slli	a5, a5, 32
	slli	a2, a2, 32
	or	a4, a4, a5
	or	a0, a0, a2
	sd	a4, 1304(sp)
	sd	a0, 1312(sp)
	addi	a0, sp, 1320
	addi	a1, sp, 1288
	li	a2, 16
	call	memcpy
	lw	a0, 1304(sp)
	lw	a1, 1308(sp)
	lw	a2, 1312(sp)
	lw	a6, 1316(sp)
	lw	a4, 1320(sp)
	lw	a5, 1324(sp)
	lw	s0, 1328(sp)
	lw	a3, 1332(sp)
	sw	s9, 976(sp)
	sw	a0, 980(sp)
	sw	a1, 984(sp)
	sw	a2, 988(sp)
	sw	a3, 1008(sp)
	sw	zero, 1012(sp)
	sd	zero, 1016(sp)
	sd	zero, 1024(sp)
	sw	a6, 992(sp)
	sw	a4, 996(sp)
	sw	a5, 1000(sp)
	sw	s0, 1004(sp)
	addi	a1, sp, 976
	mv	a0, s2
	li	a2, 0
	mv	a3, s3
	call	psk_messages.writing.write_psk_into
	ld	a0, 8(s5)
	bltu	s8, a0, .LBB5ecda_5
	addi	a0, a0, 1
	sd	a0, 0(s4)
.LBB5ecda_5:
	lbu	a3, 672(s1)
	addi	a1, s1, 1025
	mv	a0, s2
	li	a2, 0
	mv	a4, s4
	call	psk_ends.channel.seal_in.__becd8de5e2060522_
	li	a1, 0
	li	a0, 1
	j	.LBB5ecda_7
.LBB5ecda_6:
	li	a0, 0
.LBB5ecda_7:
	ld	ra, 1416(sp)
	ld	s0, 1408(sp)
	ld	s1, 1400(sp)
	ld	s2, 1392(sp)
	ld	s3, 1384(sp)
	ld	s4, 1376(sp)
	ld	s5, 1368(sp)
	ld	s6, 1360(sp)
	ld	s7, 1352(sp)
	ld	s8, 1344(sp)
	ld	s9, 1336(sp)
	addi	sp, sp, 1424
	ret
.LBB5ecda_8:
	li	a0, 0
	li	a1, 22
	j	.LBB5ecda_7
.Lfunc_end5ecda:
	.size	psk_ends.server.turns.log_in.__becd8de5e2060522_, .Lfunc_end5ecda-psk_ends.server.turns.log_in.__becd8de5e2060522_

	.section	".text.psk_ends::server::turns::settle","ax",@progbits
	.p2align	1
	.type	psk_ends.server.turns.settle,@function
psk_ends.server.turns.settle:
	addi	sp, sp, -1936
	sd	ra, 1928(sp)
	sd	s0, 1920(sp)
	sd	s1, 1912(sp)
	sd	s2, 1904(sp)
	sd	s3, 1896(sp)
	sd	s4, 1888(sp)
	sd	s5, 1880(sp)
	sd	s6, 1872(sp)
	sd	s7, 1864(sp)
	sd	s8, 1856(sp)
	sd	s9, 1848(sp)
	sd	s10, 1840(sp)
	sd	s11, 1832(sp)
	sd	a3, 24(sp)
	mv	s1, a2
	sd	a1, 16(sp)
	mv	s5, a0
	lbu	a6, 0(a2)
	lbu	t1, 1(a2)
	lbu	t2, 2(a2)
	lbu	a3, 3(a2)
	lbu	t3, 4(a2)
	lbu	a5, 5(a2)
	lbu	a7, 6(a2)
	lbu	t0, 7(a2)
	lbu	t4, 64(a2)
	lbu	a0, 65(a2)
	lbu	a1, 66(a2)
	lbu	a2, 67(a2)
	slli	t1, t1, 8
	slli	t2, t2, 16
	slli	a3, a3, 24
	slli	a5, a5, 8
	or	a6, t1, a6
	or	t1, a3, t2
	or	t2, a5, t3
	lbu	s0, 68(s1)
	lbu	a4, 69(s1)
	lbu	t3, 70(s1)
	lbu	a5, 71(s1)
	slli	a7, a7, 16
	slli	t0, t0, 24
	slli	a0, a0, 8
	slli	a1, a1, 16
	slli	a2, a2, 24
	slli	a4, a4, 8
	or	a3, t0, a7
	or	a0, a0, t4
	or	a1, a1, a2
	or	a4, a4, s0
	lbu	s7, 56(s1)
	lbu	s11, 57(s1)
	lbu	s10, 58(s1)
	lbu	s9, 59(s1)
	slli	t3, t3, 16
	slli	a5, a5, 24
	or	a2, a5, t3
	or	a5, t1, a6
	or	a3, a3, t2
	or	a0, a0, a1
	lbu	s8, 60(s1)
	lbu	s3, 61(s1)
	lbu	s0, 62(s1)
	lbu	s2, 63(s1)
	or	a2, a2, a4
	slli	a3, a3, 32
	slli	a2, a2, 32
	or	s6, a3, a5
	or	s4, a2, a0
	addi	a0, sp, 1360
	li	a2, 264
	li	a1, 0
	call	memset
	li	a0, 253
	bltu	a0, s4, .LBB0aed2_2
	slli	s11, s11, 8
	slli	s10, s10, 16
	slli	s9, s9, 24
	slli	s3, s3, 8
	slli	s0, s0, 16
	slli	s2, s2, 24
	or	a0, s11, s7
	or	a1, s9, s10
	or	a2, s3, s8
	or	a3, s2, s0
	or	a0, a0, a1
	or	a2, a2, a3
	slli	a1, a2, 32
	or	a1, a1, a0
	addi	a0, sp, 1360
	mv	a2, s4
	call	memcpy
	sd	s4, 1616(sp)
.LBB0aed2_2:
	ld	s0, 336(s6)
	addi	a0, sp, 1624
	li	a2, 72
	li	a1, 0
	call	memset
	li	a0, 64
	bltu	a0, s0, .LBB0aed2_4
	addi	a1, s6, 272
	addi	a0, sp, 1624
	mv	a2, s0
	call	memcpy
	sd	s0, 1688(sp)
.LBB0aed2_4:
	lbu	s6, 344(s6)
	addi	s4, sp, 1008
	addi	s0, s1, 72
	addi	s6, s6, 2
	addi	a0, sp, 696
	li	a2, 312
	ld	a1, 16(sp)
	call	memcpy
	addi	a1, sp, 1360
	li	a2, 264
	mv	a0, s4
	call	memcpy
	addi	a0, sp, 1272
	addi	a1, sp, 1624
	li	a2, 72
	call	memcpy
	addi	a0, sp, 1344
	addi	a1, s1, 24
	li	a2, 16
	call	memcpy
	addi	a0, sp, 32
	addi	a1, sp, 696
	li	a2, 664
	call	memcpy
	addi	a0, sp, 1624
	li	a2, 208
	mv	a1, s0
	call	memcpy
	addi	a0, sp, 696
	li	a2, 352
	ld	a1, 24(sp)
	call	memcpy
	sb	zero, 4(s5)
	sb	zero, 5(s5)
	sb	zero, 6(s5)
	sb	zero, 7(s5)
	li	a0, 2
	sb	a0, 0(s5)
	sb	zero, 1(s5)
	sb	zero, 2(s5)
	sb	zero, 3(s5)
	addi	a0, s5, 8
	addi	a1, sp, 32
	li	a2, 664
	call	memcpy
	sb	s6, 672(s5)
	addi	a0, s5, 673
	addi	a1, sp, 1624
	li	a2, 208
	call	memcpy
	addi	a0, s5, 881
	addi	a1, sp, 696
	li	a2, 352
	call	memcpy
	addi	a0, s5, 1233
	li	a2, 9
	li	a1, 0
	ld	ra, 1928(sp)
	ld	s0, 1920(sp)
	ld	s1, 1912(sp)
	ld	s2, 1904(sp)
	ld	s3, 1896(sp)
	ld	s4, 1888(sp)
	ld	s5, 1880(sp)
	ld	s6, 1872(sp)
	ld	s7, 1864(sp)
	ld	s8, 1856(sp)
	ld	s9, 1848(sp)
	ld	s10, 1840(sp)
	ld	s11, 1832(sp)
	addi	sp, sp, 1936
	tail	memset
.Lfunc_end0aed2:
	.size	psk_ends.server.turns.settle, .Lfunc_end0aed2-psk_ends.server.turns.settle

	.section	".text.gpsk_ends::server::GpskServer::handle_step::<#e0641de541981142>","ax",@progbits
	.p2align	1
	.type	gpsk_ends.server.GpskServer.handle_step.__e0641de541981142_,@function
gpsk_ends.server.GpskServer.handle_step.__e0641de541981142_:
	addi	sp, sp, -576
	sd	ra, 568(sp)
	sd	s0, 560(sp)
	sd	s1, 552(sp)
	sd	s2, 544(sp)
	sd	s3, 536(sp)
	sd	s4, 528(sp)
	sd	s5, 520(sp)
	sd	s6, 512(sp)
	sd	s7, 504(sp)
	sd	s8, 496(sp)
	sd	s9, 488(sp)
	sd	s10, 480(sp)
	sd	s11, 472(sp)
	mv	s4, a7
	mv	s1, a1
	lbu	s0, 312(a0)
	li	a1, 22
	beqz	s0, .LBB7f9b4_36
	addi	s10, s1, 5
	li	a1, 2
	addi	s2, a2, -5
	bne	s0, a1, .LBB7f9b4_6
	lbu	a2, 1144(a0)
	beq	a2, a1, .LBB7f9b4_23
	mv	s3, a0
	li	a1, 1
	bne	a2, a1, .LBB7f9b4_25
	lbu	s0, 688(a0)
	addi	a0, sp, 192
	li	a2, 168
	li	a1, 0
	call	memset
	beqz	s0, .LBB7f9b4_27
	li	a4, 32
	j	.LBB7f9b4_28
.LBB7f9b4_6:
	addi	s6, a0, 312
	lbu	a1, 313(a0)
	li	a2, 1
	blt	a2, a1, .LBB7f9b4_16
	beqz	a1, .LBB7f9b4_21
	mv	s8, a4
	mv	s11, a5
	sd	a3, 8(sp)
	sd	a6, 16(sp)
	mv	s5, a0
	sd	zero, 24(sp)
	addi	a0, sp, 192
	li	a2, 168
	li	a1, 0
	call	memset
	addi	a0, sp, 192
	mv	a1, s10
	mv	a2, s2
	li	a3, 0
	li	a4, 0
	call	gpsk_messages.reading.read_gpsk_message
	lbu	s0, 192(sp)
	lbu	s1, 193(sp)
	lbu	s9, 200(sp)
	lw	s3, 204(sp)
	addi	a1, sp, 208
	addi	s7, sp, 40
	li	a2, 152
	mv	a0, s7
	call	memcpy
	mv	a1, s1
	li	a0, 0
	li	a2, 1
	sb	s0, 24(sp)
	sb	s1, 25(sp)
	sw	s9, 32(sp)
	sw	s3, 36(sp)
	beq	s0, a2, .LBB7f9b4_71
	bne	s9, a2, .LBB7f9b4_46
	ld	s9, 256(s5)
	ld	a0, 64(sp)
	sd	zero, 448(sp)
	sd	zero, 456(sp)
	sd	zero, 464(sp)
	bne	a0, s9, .LBB7f9b4_69
	mv	a1, s5
	ld	a0, 56(sp)
	li	a2, 4
	bgeu	s9, a2, .LBB7f9b4_49
	beqz	s9, .LBB7f9b4_55
	li	a2, 0
	neg	a3, s9
	mv	a4, a1
.LBB7f9b4_14:
	lbu	a5, 0(a0)
	lbu	s1, 0(a4)
	bne	a5, s1, .LBB7f9b4_54
	addi	a2, a2, -1
	addi	a4, a4, 1
	addi	a0, a0, 1
	bne	a3, a2, .LBB7f9b4_14
	j	.LBB7f9b4_55
.LBB7f9b4_16:
	li	a2, 2
	bne	a1, a2, .LBB7f9b4_21
	mv	s0, a0
	addi	a0, sp, 192
	li	a2, 168
	li	a1, 0
	call	memset
	addi	a0, sp, 192
	mv	a1, s10
	mv	a2, s2
	li	a3, 0
	li	a4, 0
	call	gpsk_messages.reading.read_gpsk_message
	lbu	a0, 192(sp)
	li	a1, 1
	beq	a0, a1, .LBB7f9b4_35
	lbu	a0, 200(sp)
	li	a2, 4
	li	a1, 22
	bne	a0, a2, .LBB7f9b4_36
	lw	a0, 204(sp)
	li	a1, 1
	bne	a0, a1, .LBB7f9b4_48
	li	a1, 0
	sd	zero, 0(s4)
	sd	zero, 8(s4)
	li	a0, 3
	sb	a0, 313(s0)
	li	a0, 2
	j	.LBB7f9b4_74
.LBB7f9b4_21:
	addi	a0, sp, 192
	li	a2, 168
	li	a1, 0
	call	memset
	addi	a0, sp, 192
	mv	a1, s10
	mv	a2, s2
	li	a3, 0
	li	a4, 0
	call	gpsk_messages.reading.read_gpsk_message
	lbu	a0, 192(sp)
	li	a1, 1
	beq	a0, a1, .LBB7f9b4_35
.LBB7f9b4_22:
	li	a1, 22
	j	.LBB7f9b4_36
.LBB7f9b4_23:
	lbu	s0, 688(a0)
	addi	a0, sp, 192
	li	a2, 168
	li	a1, 0
	call	memset
	beqz	s0, .LBB7f9b4_33
	li	a4, 32
	j	.LBB7f9b4_34
.LBB7f9b4_25:
	lbu	s0, 688(a0)
	addi	a0, sp, 192
	li	a2, 168
	li	a1, 0
	call	memset
	beqz	s0, .LBB7f9b4_39
	li	a4, 32
	j	.LBB7f9b4_40
.LBB7f9b4_27:
	li	a4, 16
.LBB7f9b4_28:
	addi	a0, sp, 192
	li	a3, 1
	li	s6, 1
	mv	a1, s10
	mv	a2, s2
	call	gpsk_messages.reading.read_gpsk_message
	lbu	s1, 192(sp)
	lbu	s5, 193(sp)
	lbu	s0, 200(sp)
	lw	s7, 204(sp)
	addi	a1, sp, 208
	addi	a0, sp, 24
	li	a2, 152
	call	memcpy
	bne	s1, s6, .LBB7f9b4_30
	li	a0, 0
	mv	a1, s5
	j	.LBB7f9b4_71
.LBB7f9b4_30:
	sw	s0, 192(sp)
	sw	s7, 196(sp)
	addi	a0, sp, 200
	addi	a1, sp, 24
	li	a2, 152
	call	memcpy
	li	a0, 3
	bne	s0, a0, .LBB7f9b4_46
	addi	a0, s3, 928
	addi	a1, sp, 192
	mv	a2, s10
	mv	a3, s2
	call	gpsk_ends.keys.is_tagged
	beqz	a0, .LBB7f9b4_47
	li	a1, 1
	li	a0, 2
	sd	a1, 0(s4)
	sd	zero, 8(s4)
	sb	a0, 1144(s3)
	sb	a1, 1145(s3)
	j	.LBB7f9b4_71
.LBB7f9b4_33:
	li	a4, 16
.LBB7f9b4_34:
	addi	a0, sp, 192
	li	a3, 1
	li	s0, 1
	mv	a1, s10
	mv	a2, s2
	call	gpsk_messages.reading.read_gpsk_message
	lbu	a0, 192(sp)
	bne	a0, s0, .LBB7f9b4_22
.LBB7f9b4_35:
	lbu	a1, 193(sp)
.LBB7f9b4_36:
	li	a0, 0
.LBB7f9b4_37:
	sd	zero, 0(s4)
	sd	zero, 8(s4)
.LBB7f9b4_38:
	ld	ra, 568(sp)
	ld	s0, 560(sp)
	ld	s1, 552(sp)
	ld	s2, 544(sp)
	ld	s3, 536(sp)
	ld	s4, 528(sp)
	ld	s5, 520(sp)
	ld	s6, 512(sp)
	ld	s7, 504(sp)
	ld	s8, 496(sp)
	ld	s9, 488(sp)
	ld	s10, 480(sp)
	ld	s11, 472(sp)
	addi	sp, sp, 576
	ret
.LBB7f9b4_39:
	li	a4, 16
.LBB7f9b4_40:
	addi	a0, sp, 192
	li	a3, 1
	li	s6, 1
	mv	a1, s10
	mv	a2, s2
	call	gpsk_messages.reading.read_gpsk_message
	lbu	s1, 192(sp)
	lbu	s7, 193(sp)
	lbu	s0, 200(sp)
	lw	s5, 204(sp)
	addi	a1, sp, 208
	addi	a0, sp, 24
	li	a2, 152
	call	memcpy
	bne	s1, s6, .LBB7f9b4_42
	li	a0, 0
	mv	a1, s7
	j	.LBB7f9b4_71
.LBB7f9b4_42:
	sw	s0, 192(sp)
	sw	s5, 196(sp)
	addi	a0, sp, 200
	addi	a1, sp, 24
	li	a2, 152
	call	memcpy
	li	a0, 5
	bne	s0, a0, .LBB7f9b4_46
	li	a0, 3
	bne	s5, a0, .LBB7f9b4_69
	addi	a0, s3, 928
	addi	a1, sp, 192
	mv	a2, s10
	mv	a3, s2
	call	gpsk_ends.keys.is_tagged
	beqz	a0, .LBB7f9b4_47
	li	a1, 0
	li	a2, 1
	li	a0, 2
	sd	a2, 0(s4)
	sd	zero, 8(s4)
	sb	a0, 1144(s3)
	sb	zero, 1145(s3)
	j	.LBB7f9b4_71
.LBB7f9b4_46:
	li	a0, 0
	li	a1, 22
	j	.LBB7f9b4_71
.LBB7f9b4_47:
	li	a1, 28
	j	.LBB7f9b4_71
.LBB7f9b4_48:
	li	a1, 25
	j	.LBB7f9b4_36
.LBB7f9b4_49:
	lbu	a2, 0(a0)
	lbu	a3, 0(a1)
	bne	a2, a3, .LBB7f9b4_69
	lbu	a2, 1(a0)
	lbu	a3, 1(a1)
	bne	a2, a3, .LBB7f9b4_69
	lbu	a2, 2(a0)
	lbu	a3, 2(a1)
	bne	a2, a3, .LBB7f9b4_69
	lbu	a2, 3(a0)
	lbu	a1, 3(a1)
	bne	a2, a1, .LBB7f9b4_69
	mv	a1, s9
	mv	a2, s5
	mv	a3, s9
	call	core.cmp.slices.groups_equal._i8_31_core.cmp.numbers.U8PartialEq___
	mv	a1, s5
	bnez	a0, .LBB7f9b4_55
	j	.LBB7f9b4_69
.LBB7f9b4_54:
	neg	a0, a2
	bltu	a0, s9, .LBB7f9b4_69
.LBB7f9b4_55:
	addi	a0, sp, 104
	addi	s3, a1, 280
	li	a1, 32
	sd	a0, 192(sp)
	sd	a1, 200(sp)
	sd	s3, 208(sp)
	sd	a1, 216(sp)
	addi	a0, sp, 192
	li	a1, 32
	li	a2, 8
	call	core.slice.scan.any_in_quarters.__953750c03e87c3e2_
	bnez	a0, .LBB7f9b4_69
	addi	a0, sp, 448
	mv	a1, s5
	call	gpsk_ends.server.login.Initial.suite_list
	ld	a0, 448(sp)
	ld	a2, 456(sp)
	ld	a1, 464(sp)
	ld	a4, 144(sp)
	sd	a0, 424(sp)
	sd	a2, 432(sp)
	sd	a1, 440(sp)
	bne	a4, a1, .LBB7f9b4_69
	ld	a0, 136(sp)
	li	a2, 4
	bgeu	a1, a2, .LBB7f9b4_62
	mv	a3, s5
	beqz	a1, .LBB7f9b4_67
	li	a4, 0
	neg	a5, a1
	addi	a2, sp, 424
	mv	a6, s11
.LBB7f9b4_60:
	lbu	s0, 0(a0)
	lbu	s1, 0(a2)
	bne	s0, s1, .LBB7f9b4_68
	addi	a4, a4, -1
	addi	a2, a2, 1
	addi	a0, a0, 1
	bne	a5, a4, .LBB7f9b4_60
	j	.LBB7f9b4_75
.LBB7f9b4_62:
	lbu	a2, 0(a0)
	lbu	a3, 424(sp)
	bne	a2, a3, .LBB7f9b4_69
	lbu	a2, 1(a0)
	lbu	a3, 425(sp)
	bne	a2, a3, .LBB7f9b4_69
	lbu	a2, 2(a0)
	lbu	a3, 426(sp)
	bne	a2, a3, .LBB7f9b4_69
	lbu	a2, 3(a0)
	lbu	a3, 427(sp)
	bne	a2, a3, .LBB7f9b4_69
	addi	a2, sp, 424
	mv	a3, a1
	call	core.cmp.slices.groups_equal._i8_31_core.cmp.numbers.U8PartialEq___
	mv	a3, s5
	mv	a6, s11
	beqz	a0, .LBB7f9b4_70
	j	.LBB7f9b4_75
.LBB7f9b4_67:
	mv	a6, s11
	j	.LBB7f9b4_75
.LBB7f9b4_68:
	neg	a0, a4
	bgeu	a0, a1, .LBB7f9b4_75
.LBB7f9b4_69:
	li	a0, 0
.LBB7f9b4_70:
	li	a1, 25
.LBB7f9b4_71:
	zext.b	a2, a0
	li	a3, 2
	beq	a2, a3, .LBB7f9b4_74
	li	a3, 1
	bne	a2, a3, .LBB7f9b4_37
	li	a1, 0
	j	.LBB7f9b4_38
.LBB7f9b4_74:
	andi	a1, a1, 1
	j	.LBB7f9b4_38
.LBB7f9b4_75:
	lbu	s11, 152(sp)
	ld	a0, 272(a3)
	snez	a1, s11
	addi	a1, a1, 1
	addi	a2, a3, 264
.LBB7f9b4_76:
	beqz	a0, .LBB7f9b4_80
	lbu	a3, 0(a2)
	addi	a2, a2, 1
	addi	a0, a0, -1
	bne	a3, a1, .LBB7f9b4_76
	ld	s1, 40(sp)
	ld	a3, 48(sp)
	li	a4, 51
	mv	a0, s8
	mv	a1, a6
	mv	a2, s1
	mv	s0, a3
	call	login_setup.users.find_user
	zext.b	a0, a0
	li	a2, 1
	bne	a0, a2, .LBB7f9b4_81
	ld	a3, 336(a1)
	addi	a2, a1, 272
	addi	a4, sp, 72
	addi	a0, sp, 192
	mv	s8, a1
	mv	a1, s11
	mv	a5, s1
	mv	a6, s0
	mv	a7, s3
	mv	t3, s5
	mv	t4, s9
	call	login_keys.gpsk.gpsk_keys
	addi	a4, sp, 192
	mv	a0, s5
	mv	a1, s6
	mv	a2, s7
	mv	a3, s8
	ld	a5, 8(sp)
	addi	a6, sp, 32
	mv	a7, s10
	mv	t3, s2
	ld	t4, 16(sp)
	mv	t5, s4
	call	gpsk_ends.server.gpsk2.check.__e0641de541981142_
	j	.LBB7f9b4_71
.LBB7f9b4_80:
	li	a1, 26
	j	.LBB7f9b4_71
.LBB7f9b4_81:
	addi	a0, sp, 200
	li	a2, 152
	li	s1, 1
	li	a1, 0
	call	memset
	slli	a0, s1, 32
	addi	a0, a0, 4
	sd	a0, 192(sp)
	addi	a1, sp, 192
	ld	a0, 16(sp)
	li	a2, 0
	ld	a3, 8(sp)
	call	gpsk_messages.writing.write_gpsk_into
	sd	zero, 0(s4)
	sd	zero, 8(s4)
	li	a0, 2
	sb	s1, 312(s5)
	sb	a0, 313(s5)
	addi	a0, s5, 320
	li	a2, 826
	li	a1, 0
	call	memset
	li	a0, 1
	li	a1, 0
	j	.LBB7f9b4_71
.Lfunc_end7f9b4:
	.size	gpsk_ends.server.GpskServer.handle_step.__e0641de541981142_, .Lfunc_end7f9b4-gpsk_ends.server.GpskServer.handle_step.__e0641de541981142_

	.section	".text.gpsk_ends::server::gpsk2::check::<#e0641de541981142>","ax",@progbits
	.p2align	1
	.type	gpsk_ends.server.gpsk2.check.__e0641de541981142_,@function
gpsk_ends.server.gpsk2.check.__e0641de541981142_:
	addi	sp, sp, -752
	sd	ra, 744(sp)
	sd	s0, 736(sp)
	sd	s1, 728(sp)
	sd	s2, 720(sp)
	sd	s3, 712(sp)
	sd	s4, 704(sp)
	sd	s5, 696(sp)
	sd	s6, 688(sp)
	sd	s7, 680(sp)
	sd	s8, 672(sp)
	sd	s9, 664(sp)
	mv	s2, t5
	mv	s3, t4
	mv	s8, t3
	mv	s9, a7
	mv	s1, a6
	mv	s4, a5
	mv	s5, a3
	mv	s0, a2
	mv	s6, a1
	mv	s7, a0
	addi	a0, sp, 432
	li	a2, 232
	mv	a1, a4
	call	memcpy
	ld	a3, 632(sp)
	lbu	a1, 112(s0)
	addi	a2, sp, 600
	mv	a0, sp
	call	login_keys.gpsk.mac_key.MacKey.new
	lbu	a1, 0(sp)
	addi	a0, sp, 217
	sb	a1, 216(sp)
	addi	a1, sp, 1
	li	a2, 215
	call	memcpy
	addi	a0, sp, 216
	mv	a1, s1
	mv	a2, s9
	mv	a3, s8
	call	gpsk_ends.keys.is_tagged
	beqz	a0, .LBBebecb_2
	addi	a4, sp, 432
	mv	a5, sp
	mv	a0, s7
	mv	a1, s6
	mv	a2, s0
	mv	a3, s5
	mv	a6, s4
	mv	a7, s3
	mv	t3, s2
	call	gpsk_ends.server.gpsk2.log_in.__e0641de541981142_
	j	.LBBebecb_3
.LBBebecb_2:
	li	a1, 28
.LBBebecb_3:
	ld	ra, 744(sp)
	ld	s0, 736(sp)
	ld	s1, 728(sp)
	ld	s2, 720(sp)
	ld	s3, 712(sp)
	ld	s4, 704(sp)
	ld	s5, 696(sp)
	ld	s6, 688(sp)
	ld	s7, 680(sp)
	ld	s8, 672(sp)
	ld	s9, 664(sp)
	addi	sp, sp, 752
	ret
.Lfunc_endebecb:
	.size	gpsk_ends.server.gpsk2.check.__e0641de541981142_, .Lfunc_endebecb-gpsk_ends.server.gpsk2.check.__e0641de541981142_

	.section	".text.gpsk_ends::server::gpsk2::log_in::<#e0641de541981142>","ax",@progbits
	.p2align	1
	.type	gpsk_ends.server.gpsk2.log_in.__e0641de541981142_,@function
gpsk_ends.server.gpsk2.log_in.__e0641de541981142_:
	addi	sp, sp, -784
	sd	ra, 776(sp)
	sd	s0, 768(sp)
	sd	s1, 760(sp)
	sd	s2, 752(sp)
	sd	s3, 744(sp)
	sd	s4, 736(sp)
	sd	s5, 728(sp)
	sd	s6, 720(sp)
	sd	s7, 712(sp)
	sd	s8, 704(sp)
	sd	s9, 696(sp)
	sd	s10, 688(sp)
	sd	s11, 680(sp)
	mv	s3, t3
	mv	s2, a7
	mv	s5, a6
	mv	s0, a5
	mv	s1, a3
	mv	s4, a2
	mv	s7, a1
	mv	s6, a0
	addi	a0, sp, 224
	li	a2, 232
	mv	a1, a4
	call	memcpy
	lbu	a0, 0(s0)
	sb	a0, 8(sp)
	addi	a0, sp, 9
	addi	a1, s0, 1
	li	a2, 215
	call	memcpy
	addi	a3, sp, 224
	addi	a4, sp, 8
	mv	a0, s7
	mv	a1, s4
	mv	a2, s1
	call	gpsk_ends.server.gpsk2.settle
	lbu	a0, 0(s7)
	li	a1, 2
	bne	a0, a1, .LBB857b4_4
	lbu	a0, 344(s1)
	li	a1, 1
	sd	a1, 0(s3)
	addi	s3, s3, 8
	addi	s4, s7, 376
	beqz	a0, .LBB857b4_5
	addi	a0, sp, 544
	li	a2, 136
	li	a1, 0
	call	memset
	lbu	a0, 0(s4)
	beqz	a0, .LBB857b4_7
	li	a0, 32
.Lpcrel_hi44:
	auipc	a1, %pcrel_hi(.Lstatic.14)
	addi	a1, a1, %pcrel_lo(.Lpcrel_hi44)
	j	.LBB857b4_8
.LBB857b4_4:
	li	a0, 0
	li	a1, 22
	j	.LBB857b4_12
.LBB857b4_5:
	addi	a0, sp, 520
	li	a2, 160
	li	a1, 0
	call	memset
	lbu	t4, 344(s7)
	lbu	a1, 345(s7)
	lbu	a2, 346(s7)
	lbu	a3, 347(s7)
	lbu	a6, 348(s7)
	lbu	a7, 349(s7)
	lbu	t0, 350(s7)
	lbu	t1, 351(s7)
	lbu	t5, 352(s7)
	lbu	a5, 353(s7)
	lbu	s1, 354(s7)
	lbu	s0, 355(s7)
	lbu	t2, 356(s7)
	lbu	t3, 357(s7)
	lbu	s8, 358(s7)
	lbu	s9, 359(s7)
	slli	a1, a1, 8
	slli	a2, a2, 16
	slli	a3, a3, 24
	or	t4, a1, t4
	or	t6, a3, a2
	lbu	a1, 360(s7)
	lbu	a2, 361(s7)
	lbu	a3, 362(s7)
	lbu	a0, 363(s7)
	slli	a7, a7, 8
	slli	t0, t0, 16
	slli	t1, t1, 24
	slli	a4, a5, 8
	slli	s1, s1, 16
	slli	a5, s0, 24
	or	a6, a7, a6
	or	t0, t1, t0
	or	a7, a4, t5
	or	t1, a5, s1
	lbu	a4, 364(s7)
	lbu	s1, 365(s7)
	lbu	s0, 366(s7)
	lbu	a5, 367(s7)
	slli	t3, t3, 8
	slli	s8, s8, 16
	slli	s9, s9, 24
	slli	a2, a2, 8
	slli	a3, a3, 16
	slli	a0, a0, 24
	or	t2, t3, t2
	or	t3, s9, s8
	or	t5, a2, a1
	or	s8, a0, a3
	lbu	a2, 368(s7)
	lbu	a3, 369(s7)
	lbu	a1, 370(s7)
	lbu	a0, 371(s7)
	slli	s1, s1, 8
	slli	s0, s0, 16
	slli	a5, a5, 24
	slli	a3, a3, 8
	slli	a1, a1, 16
	slli	a0, a0, 24
	or	s9, s1, a4
	or	s11, a5, s0
	or	s10, a3, a2
	or	ra, a0, a1
	lbu	a1, 373(s7)
	lbu	a3, 372(s7)
	lbu	s0, 374(s7)
	lbu	s1, 375(s7)
	slli	a1, a1, 8
	or	a1, a1, a3
	slli	s0, s0, 16
	slli	s1, s1, 24
	or	s0, s0, s1
	or	a3, t6, t4
	or	s1, t0, a6
	or	a4, t1, a7
	or	a2, t3, t2
	or	a5, s8, t5
	or	a0, s11, s9
	or	a6, ra, s10
	or	a1, a1, s0
	slli	s1, s1, 32
	or	a3, a3, s1
	slli	a2, a2, 32
	or	a2, a2, a4
	slli	a0, a0, 32
	or	a0, a0, a5
	lbu	s0, 376(s7)
	slli	a1, a1, 32
	or	a4, a1, a6
	addi	a1, s6, 280
	sd	a3, 456(sp)
	sd	a2, 464(sp)
	sd	a0, 472(sp)
	sd	a4, 480(sp)
	addi	a0, sp, 488
	li	a2, 32
	li	s1, 32
	call	memcpy
	ld	a6, 256(s6)
	beqz	s0, .LBB857b4_9
.Lpcrel_hi46:
	auipc	a1, %pcrel_hi(.Lstatic.14)
	addi	a1, a1, %pcrel_lo(.Lpcrel_hi46)
	j	.LBB857b4_10
.LBB857b4_7:
	li	a0, 16
.Lpcrel_hi43:
	auipc	a1, %pcrel_hi(.Lstatic.10)
	addi	a1, a1, %pcrel_lo(.Lpcrel_hi43)
.LBB857b4_8:
	li	a2, 3
	slli	a2, a2, 32
	addi	a2, a2, 5
	sd	a2, 520(sp)
	sd	a1, 528(sp)
	sd	a0, 536(sp)
	addi	a1, sp, 520
	mv	a0, s4
	li	a2, 0
	mv	a3, s5
	mv	a4, s2
	mv	a5, s3
	call	gpsk_ends.keys.Keys.seal.__e0641de541981142_
	li	a0, 0
	j	.LBB857b4_11
.LBB857b4_9:
	li	s1, 16
.Lpcrel_hi45:
	auipc	a1, %pcrel_hi(.Lstatic.10)
	addi	a1, a1, %pcrel_lo(.Lpcrel_hi45)
.LBB857b4_10:
	li	a2, 2
	ld	a3, 456(sp)
	ld	a4, 464(sp)
	ld	a5, 472(sp)
	ld	a0, 480(sp)
	sw	a2, 520(sp)
	sd	a3, 528(sp)
	sd	a4, 536(sp)
	sd	a5, 544(sp)
	ld	a2, 488(sp)
	ld	a3, 496(sp)
	ld	a4, 504(sp)
	ld	a5, 512(sp)
	sd	a0, 552(sp)
	sd	a2, 560(sp)
	sd	a3, 568(sp)
	sd	a4, 576(sp)
.Lpcrel_hi47:
	auipc	a0, %pcrel_hi(.Lstatic.0)
	addi	a0, a0, %pcrel_lo(.Lpcrel_hi47)
	sd	a5, 584(sp)
	sd	s6, 592(sp)
	sd	a6, 600(sp)
	sb	s0, 608(sp)
	sd	a0, 616(sp)
	sd	a1, 632(sp)
	sd	s1, 640(sp)
	addi	a1, sp, 520
	mv	a0, s4
	li	a2, 0
	mv	a3, s5
	mv	a4, s2
	mv	a5, s3
	call	gpsk_ends.keys.Keys.seal.__e0641de541981142_
	li	a0, 1
.LBB857b4_11:
	li	a1, 0
	sb	a0, 832(s7)
	sb	zero, 833(s7)
	li	a0, 1
.LBB857b4_12:
	ld	ra, 776(sp)
	ld	s0, 768(sp)
	ld	s1, 760(sp)
	ld	s2, 752(sp)
	ld	s3, 744(sp)
	ld	s4, 736(sp)
	ld	s5, 728(sp)
	ld	s6, 720(sp)
	ld	s7, 712(sp)
	ld	s8, 704(sp)
	ld	s9, 696(sp)
	ld	s10, 688(sp)
	ld	s11, 680(sp)
	addi	sp, sp, 784
	ret
.Lfunc_end857b4:
	.size	gpsk_ends.server.gpsk2.log_in.__e0641de541981142_, .Lfunc_end857b4-gpsk_ends.server.gpsk2.log_in.__e0641de541981142_

	.section	".text.gpsk_ends::server::gpsk2::settle","ax",@progbits
	.p2align	1
	.type	gpsk_ends.server.gpsk2.settle,@function
gpsk_ends.server.gpsk2.settle:
	addi	sp, sp, -1568
	sd	ra, 1560(sp)
	sd	s0, 1552(sp)
	sd	s1, 1544(sp)
	sd	s2, 1536(sp)
	sd	s3, 1528(sp)
	sd	s4, 1520(sp)
	sd	s5, 1512(sp)
	sd	s6, 1504(sp)
	sd	s7, 1496(sp)
	sd	s8, 1488(sp)
	sd	s9, 1480(sp)
	sd	s10, 1472(sp)
	sd	s11, 1464(sp)
	mv	s3, a4
	sd	a3, 24(sp)
	mv	s4, a2
	mv	s1, a1
	lbu	a1, 0(a4)
	sd	a1, 32(sp)
	mv	s5, a0
	addi	a0, sp, 760
	li	a2, 368
	li	a1, 0
	call	memset
	addi	a0, sp, 521
	li	a2, 239
	li	a1, 0
	call	memset
	lbu	a0, 0(s1)
	sd	a0, 16(sp)
	lbu	s10, 1(s1)
	lbu	s8, 2(s1)
	lbu	s9, 3(s1)
	lbu	a6, 8(s1)
	lbu	a1, 9(s1)
	lbu	a2, 10(s1)
	lbu	a3, 11(s1)
	lbu	a4, 12(s1)
	lbu	a5, 13(s1)
	lbu	s0, 14(s1)
	lbu	a0, 15(s1)
	slli	a1, a1, 8
	slli	a2, a2, 16
	slli	a3, a3, 24
	slli	a5, a5, 8
	slli	s0, s0, 16
	slli	a0, a0, 24
	or	a1, a1, a6
	or	a2, a2, a3
	or	a4, a4, a5
	or	a0, a0, s0
	lbu	s11, 4(s1)
	lbu	s7, 5(s1)
	lbu	s6, 6(s1)
	lbu	s2, 7(s1)
	or	a1, a1, a2
	or	a0, a0, a4
	slli	a0, a0, 32
	or	s0, a0, a1
	addi	a0, sp, 1128
	li	a2, 264
	li	a1, 0
	call	memset
	li	a0, 253
	bltu	a0, s0, .LBB80079_2
	slli	s10, s10, 8
	slli	s8, s8, 16
	slli	s9, s9, 24
	slli	s7, s7, 8
	slli	s6, s6, 16
	slli	s2, s2, 24
	ld	a0, 16(sp)
	or	a0, s10, a0
	or	a1, s9, s8
	or	a2, s7, s11
	or	a3, s2, s6
	or	a0, a0, a1
	or	a2, a2, a3
	slli	a1, a2, 32
	or	a1, a1, a0
	addi	a0, sp, 1128
	mv	a2, s0
	call	memcpy
	sd	s0, 1384(sp)
.LBB80079_2:
	addi	a0, sp, 256
	addi	a1, sp, 1128
	li	a2, 264
	call	memcpy
	ld	s0, 336(s4)
	addi	a0, sp, 1392
	li	a2, 72
	li	a1, 0
	call	memset
	li	a0, 64
	bltu	a0, s0, .LBB80079_4
	addi	a1, s4, 272
	addi	a0, sp, 1392
	mv	a2, s0
	call	memcpy
	sd	s0, 1456(sp)
.LBB80079_4:
	lbu	s4, 112(s1)
	addi	s3, s3, 1
	addi	s0, s1, 32
	addi	a0, sp, 760
	addi	a1, sp, 256
	li	a2, 264
	call	memcpy
	addi	a0, sp, 1024
	addi	a1, sp, 1392
	li	a2, 72
	call	memcpy
	addi	a0, sp, 1096
	li	a2, 32
	mv	a1, s0
	call	memcpy
	addi	a0, sp, 528
	li	a2, 232
	ld	a1, 24(sp)
	call	memcpy
	addi	a0, sp, 41
	li	a2, 215
	mv	a1, s3
	call	memcpy
	li	a0, 2
	sb	a0, 0(s5)
	sb	zero, 1(s5)
	addi	a0, s5, 8
	addi	a1, sp, 760
	li	a2, 368
	call	memcpy
	sb	s4, 376(s5)
	addi	a0, s5, 377
	addi	a1, sp, 521
	li	a2, 239
	call	memcpy
	ld	a0, 32(sp)
	sb	a0, 616(s5)
	addi	a0, s5, 617
	addi	a1, sp, 41
	li	a2, 215
	call	memcpy
	li	a0, 1
	sb	a0, 832(s5)
	sb	zero, 833(s5)
	ld	ra, 1560(sp)
	ld	s0, 1552(sp)
	ld	s1, 1544(sp)
	ld	s2, 1536(sp)
	ld	s3, 1528(sp)
	ld	s4, 1520(sp)
	ld	s5, 1512(sp)
	ld	s6, 1504(sp)
	ld	s7, 1496(sp)
	ld	s8, 1488(sp)
	ld	s9, 1480(sp)
	ld	s10, 1472(sp)
	ld	s11, 1464(sp)
	addi	sp, sp, 1568
	ret
.Lfunc_end80079:
	.size	gpsk_ends.server.gpsk2.settle, .Lfunc_end80079-gpsk_ends.server.gpsk2.settle

	.section	".text.tuvaddri_c::session::End::last_packet","ax",@progbits
	.p2align	1
	.type	tuvaddri_c.session.End.last_packet,@function
tuvaddri_c.session.End.last_packet:
	mv	a2, a0
	lbu	a1, 0(a0)
.Lpcrel_hi49:
	auipc	a0, %pcrel_hi(.LJTI6e67d_0)
	slli	a3, a1, 2
	addi	a0, a0, %pcrel_lo(.Lpcrel_hi49)
	add	a3, a3, a0
	lw	a4, 0(a3)
	addi	a3, a2, 2047
.Lpcrel_hi48:
	auipc	a5, %pcrel_hi(.Lstatic.0)
	add	a4, a4, a0
	addi	a0, a5, %pcrel_lo(.Lpcrel_hi48)
	jr	a4
.LBB6e67d_1:
	ld	a0, 577(a3)
	j	.LBB6e67d_8
.LBB6e67d_2:
	ld	a0, 1976(a2)
	j	.LBB6e67d_8
.LBB6e67d_3:
	ld	a0, 305(a3)
	j	.LBB6e67d_8
.LBB6e67d_4:
	ld	a1, 241(a3)
	addi	a0, a2, 784
	ret
.LBB6e67d_5:
	ld	a0, 1328(a2)
	j	.LBB6e67d_8
.LBB6e67d_6:
	ld	a0, 1528(a2)
	j	.LBB6e67d_8
.LBB6e67d_7:
	ld	a0, 1560(a2)
.LBB6e67d_8:
	ld	a1, 1504(a0)
.LBB6e67d_9:
	ret
.Lfunc_end6e67d:
	.size	tuvaddri_c.session.End.last_packet, .Lfunc_end6e67d-tuvaddri_c.session.End.last_packet
	.section	".rodata.tuvaddri_c::session::End::last_packet","a",@progbits
	.p2align	2, 0x0
.LJTI6e67d_0:
	.word	.LBB6e67d_9-.LJTI6e67d_0
	.word	.LBB6e67d_5-.LJTI6e67d_0
	.word	.LBB6e67d_2-.LJTI6e67d_0
	.word	.LBB6e67d_4-.LJTI6e67d_0
	.word	.LBB6e67d_1-.LJTI6e67d_0
	.word	.LBB6e67d_1-.LJTI6e67d_0
	.word	.LBB6e67d_6-.LJTI6e67d_0
	.word	.LBB6e67d_3-.LJTI6e67d_0
	.word	.LBB6e67d_7-.LJTI6e67d_0

	.section	".text.tuvaddri_c::failure::shown_failure","ax",@progbits
	.p2align	1
	.type	tuvaddri_c.failure.shown_failure,@function
tuvaddri_c.failure.shown_failure:
	lbu	a4, 0(a0)
	beqz	a4, .LBB62ee6_4
	lbu	a5, 320(a0)
	li	a3, 2
	beq	a5, a3, .LBB62ee6_8
	li	a3, 1
	bne	a5, a3, .LBB62ee6_13
	lbu	a0, 321(a0)
	andi	a0, a0, 254
	li	a3, 2
	beq	a0, a3, .LBB62ee6_7
	j	.LBB62ee6_13
.LBB62ee6_4:
	lbu	a3, 8(a0)
	li	a5, 2
	beq	a3, a5, .LBB62ee6_11
	li	a5, 1
	bne	a3, a5, .LBB62ee6_13
	lbu	a0, 328(a0)
	li	a3, 2
	bne	a0, a3, .LBB62ee6_13
.LBB62ee6_7:
	snez	a4, a4
	li	a3, 1
	j	.LBB62ee6_14
.LBB62ee6_8:
	lbu	a6, 1152(a0)
	li	a4, 3
	beqz	a6, .LBB62ee6_14
	li	a5, 1
	beq	a6, a5, .LBB62ee6_13
	lbu	a0, 1153(a0)
	bnez	a0, .LBB62ee6_13
	j	.LBB62ee6_14
.LBB62ee6_11:
	lbu	a3, 1248(a0)
	li	a4, 1
	bne	a3, a4, .LBB62ee6_13
	lbu	a0, 1249(a0)
	beqz	a0, .LBB62ee6_15
.LBB62ee6_13:
	mv	a3, a1
	mv	a4, a2
.LBB62ee6_14:
	mv	a0, a3
	mv	a1, a4
	ret
.LBB62ee6_15:
	li	a4, 0
	li	a3, 2
	j	.LBB62ee6_14
.Lfunc_end62ee6:
	.size	tuvaddri_c.failure.shown_failure, .Lfunc_end62ee6-tuvaddri_c.failure.shown_failure

	.section	".text.tuvaddri_c::failure::peer_failure","ax",@progbits
	.p2align	1
	.type	tuvaddri_c.failure.peer_failure,@function
tuvaddri_c.failure.peer_failure:
	andi	a0, a0, 1
	beqz	a0, .LBB8dc6d_15
	addi	sp, sp, -1600
	sd	ra, 1592(sp)
	sd	s0, 1584(sp)
	sd	s1, 1576(sp)
	sd	s2, 1568(sp)
	lbu	s1, 0(a1)
	lbu	a0, 664(a1)
	beqz	s1, .LBB8dc6d_5
	li	s1, 2
	bne	a0, s1, .LBB8dc6d_14
	lbu	a0, 1160(a1)
	li	s1, 1
	bne	a0, s1, .LBB8dc6d_14
	lbu	a0, 1161(a1)
	beqz	a0, .LBB8dc6d_8
	j	.LBB8dc6d_14
.LBB8dc6d_5:
	li	s1, 2
	bne	a0, s1, .LBB8dc6d_14
	lbu	a0, 1241(a1)
	li	s1, 1
	bne	a0, s1, .LBB8dc6d_14
	lbu	a0, 1242(a1)
	bnez	a0, .LBB8dc6d_14
.LBB8dc6d_8:
	sd	zero, 40(sp)
	sd	zero, 48(sp)
	sd	zero, 8(sp)
	sd	zero, 16(sp)
	sd	zero, 24(sp)
	sd	zero, 32(sp)
	addi	a0, sp, 8
	mv	s1, a2
	mv	a1, a2
	mv	s0, a3
	mv	a2, a3
	call	eap_packet.packet.decode
	lbu	a0, 8(sp)
	li	a1, 1
	li	a5, 0
	beq	a0, a1, .LBB8dc6d_13
	addi	s2, sp, 16
	addi	a0, sp, 56
	li	a2, 1512
	li	a1, 0
	call	memset
	addi	a1, sp, 56
	mv	a0, s2
	call	eap_packet.expanded.write_plain
	beqz	a0, .LBB8dc6d_11
	ld	a1, 1560(sp)
	addi	a0, sp, 56
	j	.LBB8dc6d_12
.LBB8dc6d_11:
	mv	a0, s1
	mv	a1, s0
.LBB8dc6d_12:
	call	tuvaddri_c.failure.code_in
	zext.b	a5, a0
.LBB8dc6d_13:
	li	a4, 3
.LBB8dc6d_14:
	ld	ra, 1592(sp)
	ld	s0, 1584(sp)
	ld	s1, 1576(sp)
	ld	s2, 1568(sp)
	addi	sp, sp, 1600
.LBB8dc6d_15:
	mv	a0, a4
	mv	a1, a5
	ret
.Lfunc_end8dc6d:
	.size	tuvaddri_c.failure.peer_failure, .Lfunc_end8dc6d-tuvaddri_c.failure.peer_failure

	.section	".text.tuvaddri_c::failure::code_in","ax",@progbits
	.p2align	1
	.type	tuvaddri_c.failure.code_in,@function
tuvaddri_c.failure.code_in:
	addi	sp, sp, -240
	sd	ra, 232(sp)
	sd	s0, 224(sp)
	sd	s1, 216(sp)
	mv	a2, a1
	mv	a1, a0
	sd	zero, 32(sp)
	sd	zero, 40(sp)
	sd	zero, 0(sp)
	sd	zero, 8(sp)
	sd	zero, 16(sp)
	sd	zero, 24(sp)
	mv	a0, sp
	call	eap_packet.packet.decode
	lbu	a2, 0(sp)
	li	a1, 1
	li	a0, 0
	beq	a2, a1, .LBB61c96_6
	lbu	a2, 8(sp)
	bne	a2, a1, .LBB61c96_6
	lbu	a1, 10(sp)
	li	a2, 51
	bne	a1, a2, .LBB61c96_6
	ld	s0, 16(sp)
	ld	s1, 24(sp)
	addi	a0, sp, 48
	li	a2, 168
	li	a1, 0
	call	memset
	addi	a0, sp, 48
	mv	a1, s0
	mv	a2, s1
	li	a3, 0
	li	a4, 0
	call	gpsk_messages.reading.read_gpsk_message
	lbu	a0, 48(sp)
	bnez	a0, .LBB61c96_5
	lbu	a0, 56(sp)
	li	a1, 4
	bgeu	a0, a1, .LBB61c96_7
.LBB61c96_5:
	li	a0, 0
.LBB61c96_6:
	ld	ra, 232(sp)
	ld	s0, 224(sp)
	ld	s1, 216(sp)
	addi	sp, sp, 240
	ret
.LBB61c96_7:
	li	a1, 5
	lw	a0, 60(sp)
	sltiu	a1, a0, 4
	neg	a1, a1
	and	a0, a0, a1
	j	.LBB61c96_6
.Lfunc_end61c96:
	.size	tuvaddri_c.failure.code_in, .Lfunc_end61c96-tuvaddri_c.failure.code_in

	.section	".text.tuvaddri_c::restart::restart_peer","ax",@progbits
	.p2align	1
	.type	tuvaddri_c.restart.restart_peer,@function
tuvaddri_c.restart.restart_peer:
	addi	sp, sp, -64
	sd	ra, 56(sp)
	sd	s0, 48(sp)
	sd	s1, 40(sp)
	sd	s2, 32(sp)
	sd	s3, 24(sp)
	mv	s1, a1
	mv	s0, a0
	lbu	a0, 0(a1)
	li	a1, 3
	sd	zero, 0(sp)
	sd	zero, 8(sp)
	sd	zero, 16(sp)
	bne	a0, a1, .LBB870c9_3
	mv	s2, a2
	addi	s3, s1, 8
	mv	a0, s3
	call	peer_machine.machine.PeerMachine.has_objects.__807681be332d694b_
	beqz	a0, .LBB870c9_3
	mv	a0, sp
	mv	a1, s3
	mv	a2, s2
	call	peer_machine.machine.PeerMachine.restart_step.__807681be332d694b_
	li	a2, 0
	lbu	a0, 16(sp)
	lbu	a1, 18(sp)
	lbu	a4, 17(sp)
	lbu	a3, 776(s1)
	addi	a5, s1, 2047
	sb	a1, 585(a5)
	seqz	a5, a0
	addi	a5, a5, -1
	and	a4, a4, a5
	j	.LBB870c9_4
.LBB870c9_3:
	li	a1, 0
	li	a0, 0
	li	a4, 0
	li	a3, 0
	addi	a2, s1, 2047
	sb	zero, 585(a2)
	li	a2, 1
.LBB870c9_4:
	sb	a1, 0(s0)
	sb	a0, 1(s0)
	sb	a2, 2(s0)
	sb	a4, 3(s0)
	sb	a3, 4(s0)
	ld	ra, 56(sp)
	ld	s0, 48(sp)
	ld	s1, 40(sp)
	ld	s2, 32(sp)
	ld	s3, 24(sp)
	addi	sp, sp, 64
	ret
.Lfunc_end870c9:
	.size	tuvaddri_c.restart.restart_peer, .Lfunc_end870c9-tuvaddri_c.restart.restart_peer

	.section	".text.peer_machine::machine::PeerMachine::has_objects::<#807681be332d694b>","ax",@progbits
	.p2align	1
	.type	peer_machine.machine.PeerMachine.has_objects.__807681be332d694b_,@function
peer_machine.machine.PeerMachine.has_objects.__807681be332d694b_:
	mv	a1, a0
	ld	a2, 544(a0)
	li	a0, 1
	beqz	a2, .LBB1ed11_10
	addi	a3, a1, 2047
	ld	a7, 249(a3)
	ld	a6, 241(a3)
	addi	t0, a1, 536
	addi	a7, a7, 1
.LBB1ed11_2:
	lbu	a5, 0(t0)
	addi	t0, t0, 1
	addi	a2, a2, -1
	mv	a1, a7
	mv	a3, a6
	j	.LBB1ed11_5
.LBB1ed11_3:
	li	a4, 51
.LBB1ed11_4:
	addi	a3, a3, 1248
	beq	a4, a5, .LBB1ed11_8
.LBB1ed11_5:
	addi	a1, a1, -1
	beqz	a1, .LBB1ed11_9
	lbu	a4, 0(a3)
	bnez	a4, .LBB1ed11_3
	li	a4, 47
	j	.LBB1ed11_4
.LBB1ed11_8:
	bnez	a2, .LBB1ed11_2
	j	.LBB1ed11_10
.LBB1ed11_9:
	li	a0, 0
.LBB1ed11_10:
	ret
.Lfunc_end1ed11:
	.size	peer_machine.machine.PeerMachine.has_objects.__807681be332d694b_, .Lfunc_end1ed11-peer_machine.machine.PeerMachine.has_objects.__807681be332d694b_

	.section	".text.peer_machine::machine::PeerMachine::restart_step::<#807681be332d694b>","ax",@progbits
	.p2align	1
	.type	peer_machine.machine.PeerMachine.restart_step.__807681be332d694b_,@function
peer_machine.machine.PeerMachine.restart_step.__807681be332d694b_:
	addi	sp, sp, -64
	sd	ra, 56(sp)
	sd	s0, 48(sp)
	sd	s1, 40(sp)
	sd	s2, 32(sp)
	sd	s3, 24(sp)
	sd	s4, 16(sp)
	sd	s5, 8(sp)
	mv	a3, a2
	mv	s5, a1
	mv	s4, a0
	addi	s2, a1, 2047
	addi	a0, a1, 728
	li	a2, 32
	mv	a1, a3
	call	memmove
	ld	s0, 249(s2)
	beqz	s0, .LBBc7cb8_3
	ld	a0, 241(s2)
.LBBc7cb8_2:
	addi	s1, a0, 1248
	addi	s0, s0, -1
	mv	a1, s5
	call	eap_method.peer_objects.start_one.__807681be332d694b_
	mv	a0, s1
	bnez	s0, .LBBc7cb8_2
.LBBc7cb8_3:
	li	s3, 1
	ld	a2, 233(s2)
	sb	s3, 768(s5)
	sb	zero, 769(s5)
	sb	zero, 770(s5)
	sb	zero, 771(s5)
	sb	zero, 772(s5)
	sb	zero, 773(s5)
	sb	zero, 774(s5)
	beqz	a2, .LBBc7cb8_5
	addi	a0, s5, 776
	li	a1, 0
	call	memset
	sd	zero, 233(s2)
.LBBc7cb8_5:
	sb	zero, 0(s4)
	sb	s3, 1(s4)
	sb	zero, 2(s4)
	sb	zero, 3(s4)
	li	a1, 2
	addi	a0, s4, 9
	sb	a1, 8(s4)
	li	a2, 10
	sb	zero, 4(s4)
	sb	zero, 5(s4)
	sb	zero, 6(s4)
	sb	zero, 7(s4)
	li	a1, 0
	ld	ra, 56(sp)
	ld	s0, 48(sp)
	ld	s1, 40(sp)
	ld	s2, 32(sp)
	ld	s3, 24(sp)
	ld	s4, 16(sp)
	ld	s5, 8(sp)
	addi	sp, sp, 64
	tail	memset
.Lfunc_endc7cb8:
	.size	peer_machine.machine.PeerMachine.restart_step.__807681be332d694b_, .Lfunc_endc7cb8-peer_machine.machine.PeerMachine.restart_step.__807681be332d694b_

	.section	".text.eap_method::peer_objects::start_one::<#807681be332d694b>","ax",@progbits
	.p2align	1
	.type	eap_method.peer_objects.start_one.__807681be332d694b_,@function
eap_method.peer_objects.start_one.__807681be332d694b_:
	addi	sp, sp, -1296
	sd	ra, 1288(sp)
	sd	s0, 1280(sp)
	sd	s1, 1272(sp)
	sd	s2, 1264(sp)
	mv	s0, a0
	lbu	a0, 0(a0)
	beqz	a0, .LBB3c90d_2
	li	a2, 51
	j	.LBB3c90d_3
.LBB3c90d_2:
	li	a2, 47
.LBB3c90d_3:
	ld	a0, 544(a1)
	addi	a3, a1, 536
.LBB3c90d_4:
	beqz	a0, .LBB3c90d_10
	lbu	a4, 0(a3)
	addi	a3, a3, 1
	addi	a0, a0, -1
	bne	a4, a2, .LBB3c90d_4
	addi	a0, sp, 640
	mv	s1, a1
	call	eap_method.peer_objects.credential_for
	addi	a0, sp, 16
	addi	a1, sp, 640
	li	a2, 624
	call	memcpy
	lbu	s2, 0(s0)
	addi	s1, s1, 728
	addi	a0, s0, 8
	addi	a1, sp, 16
	call	eap_method.peer_side.PeerSide.set
	addi	a0, s0, 632
	li	a2, 32
	mv	a1, s1
	call	memmove
	beqz	s2, .LBB3c90d_8
	sb	zero, 668(s0)
	sb	zero, 669(s0)
	sb	zero, 670(s0)
	sb	zero, 671(s0)
	li	a0, 1
	sb	a0, 664(s0)
	sb	zero, 665(s0)
	sb	zero, 666(s0)
	sb	zero, 667(s0)
	addi	a0, s0, 672
	li	a2, 490
	j	.LBB3c90d_9
.LBB3c90d_8:
	li	a0, 1
	sb	a0, 664(s0)
	addi	a0, s0, 665
	li	a2, 578
.LBB3c90d_9:
	li	a1, 0
	call	memset
.LBB3c90d_10:
	ld	ra, 1288(sp)
	ld	s0, 1280(sp)
	ld	s1, 1272(sp)
	ld	s2, 1264(sp)
	addi	sp, sp, 1296
	ret
.Lfunc_end3c90d:
	.size	eap_method.peer_objects.start_one.__807681be332d694b_, .Lfunc_end3c90d-eap_method.peer_objects.start_one.__807681be332d694b_

	.section	".text.eap_method::peer_objects::credential_for","ax",@progbits
	.p2align	1
	.type	eap_method.peer_objects.credential_for,@function
eap_method.peer_objects.credential_for:
	addi	sp, sp, -1200
	sd	ra, 1192(sp)
	sd	s0, 1184(sp)
	sd	s1, 1176(sp)
	sd	s2, 1168(sp)
	sd	s3, 1160(sp)
	sd	s4, 1152(sp)
	mv	s2, a2
	mv	s3, a1
	ld	s1, 256(a1)
	mv	s0, a0
	addi	a0, sp, 272
	li	a2, 264
	li	a1, 0
	call	memset
	li	a0, 253
	bltu	a0, s1, .LBBf2b7f_2
	addi	a0, sp, 272
	mv	a1, s3
	mv	a2, s1
	call	memcpy
	sd	s1, 528(sp)
.LBBf2b7f_2:
	addi	a0, sp, 536
	li	a2, 264
	li	a1, 0
	call	memset
	lbu	s4, 264(s3)
	beqz	s4, .LBBf2b7f_6
	ld	s1, 528(s3)
	addi	a0, sp, 800
	li	a2, 264
	li	a1, 0
	call	memset
	li	a0, 253
	bltu	a0, s1, .LBBf2b7f_5
	addi	a1, s3, 272
	addi	a0, sp, 800
	mv	a2, s1
	call	memcpy
	sd	s1, 1056(sp)
.LBBf2b7f_5:
	addi	a0, sp, 536
	addi	a1, sp, 800
	li	a2, 264
	call	memcpy
.LBBf2b7f_6:
	addi	a0, sp, 8
	addi	a1, sp, 536
	li	a2, 264
	call	memcpy
	ld	s1, 560(s3)
	li	a0, 2
	sd	zero, 1064(sp)
	sd	zero, 1072(sp)
	bltu	a0, s1, .LBBf2b7f_8
	addi	a1, s3, 552
	addi	a0, sp, 1064
	mv	a2, s1
	call	memcpy
	sd	s1, 1072(sp)
.LBBf2b7f_8:
	zext.b	a0, s2
	li	a1, 51
	beq	a0, a1, .LBBf2b7f_11
	li	a1, 47
	bne	a0, a1, .LBBf2b7f_15
	lbu	a0, 568(s3)
	addi	a1, a0, -1
	snez	a1, a1
	addi	a2, s3, 576
	j	.LBBf2b7f_12
.LBBf2b7f_11:
	lbu	a0, 648(s3)
	addi	a1, a0, -1
	snez	a1, a1
	addi	a2, s3, 656
.LBBf2b7f_12:
	addi	a1, a1, -1
	and	s2, a1, a2
	beqz	a0, .LBBf2b7f_15
	ld	s1, 64(s2)
	addi	a0, sp, 1080
	li	a2, 72
	li	a1, 0
	call	memset
	li	a0, 64
	bltu	a0, s1, .LBBf2b7f_16
	addi	a0, sp, 1080
	mv	a1, s2
	mv	a2, s1
	call	memcpy
	sd	s1, 1144(sp)
	j	.LBBf2b7f_16
.LBBf2b7f_15:
	addi	a0, sp, 1080
	li	a2, 72
	li	a1, 0
	call	memset
.LBBf2b7f_16:
	addi	a1, sp, 272
	li	a2, 264
	mv	a0, s0
	call	memcpy
	sb	zero, 268(s0)
	sb	zero, 269(s0)
	sb	zero, 270(s0)
	sb	zero, 271(s0)
	sb	s4, 264(s0)
	sb	zero, 265(s0)
	sb	zero, 266(s0)
	sb	zero, 267(s0)
	addi	a0, s0, 272
	addi	a1, sp, 8
	li	a2, 264
	call	memcpy
	addi	a0, s0, 536
	addi	a1, sp, 1064
	li	a2, 16
	call	memcpy
	addi	a0, s0, 552
	addi	a1, sp, 1080
	li	a2, 72
	call	memcpy
	ld	ra, 1192(sp)
	ld	s0, 1184(sp)
	ld	s1, 1176(sp)
	ld	s2, 1168(sp)
	ld	s3, 1160(sp)
	ld	s4, 1152(sp)
	addi	sp, sp, 1200
	ret
.Lfunc_endf2b7f:
	.size	eap_method.peer_objects.credential_for, .Lfunc_endf2b7f-eap_method.peer_objects.credential_for

	.section	".text.eap_method::peer_side::PeerSide::set","ax",@progbits
	.p2align	1
	.type	eap_method.peer_side.PeerSide.set,@function
eap_method.peer_side.PeerSide.set:
	addi	sp, sp, -48
	sd	ra, 40(sp)
	sd	s0, 32(sp)
	sd	s1, 24(sp)
	sd	s2, 16(sp)
	sd	s3, 8(sp)
	mv	s1, a1
	ld	a2, 256(a1)
	mv	s3, a0
	call	octet_lists.octets.Octets.set.__253_
	ld	a2, 544(s1)
	addi	a0, s3, 536
	addi	a1, s1, 536
	call	octet_lists.octets.Octets.set.__2_
	ld	a2, 616(s3)
	ld	s2, 616(s1)
	addi	s0, s3, 552
	beqz	a2, .LBB08cd8_2
	mv	a0, s0
	li	a1, 0
	call	memset
	sd	zero, 616(s3)
.LBB08cd8_2:
	li	a0, 64
	bltu	a0, s2, .LBB08cd8_8
	addi	a1, s1, 552
	sub	a0, s0, a1
	bgeu	a0, s2, .LBB08cd8_6
	add	a0, s2, s1
	addi	a0, a0, 552
.LBB08cd8_5:
	lbu	a2, 0(a1)
	addi	a1, a1, 1
	sb	a2, 0(s0)
	addi	s0, s0, 1
	bne	a1, a0, .LBB08cd8_5
	j	.LBB08cd8_7
.LBB08cd8_6:
	mv	a0, s0
	mv	a2, s2
	call	memmove
.LBB08cd8_7:
	sd	s2, 616(s3)
.LBB08cd8_8:
	lbu	a0, 264(s1)
	beqz	a0, .LBB08cd8_10
	li	a0, 1
	sb	a0, 528(s3)
	ld	a2, 528(s1)
	addi	a1, s1, 272
	addi	a0, s3, 264
	ld	ra, 40(sp)
	ld	s0, 32(sp)
	ld	s1, 24(sp)
	ld	s2, 16(sp)
	ld	s3, 8(sp)
	addi	sp, sp, 48
	tail	octet_lists.octets.Octets.set.__253_
.LBB08cd8_10:
	ld	a2, 520(s3)
	sb	zero, 528(s3)
	beqz	a2, .LBB08cd8_12
	addi	a0, s3, 264
	li	a1, 0
	call	memset
	sd	zero, 520(s3)
.LBB08cd8_12:
	ld	ra, 40(sp)
	ld	s0, 32(sp)
	ld	s1, 24(sp)
	ld	s2, 16(sp)
	ld	s3, 8(sp)
	addi	sp, sp, 48
	ret
.Lfunc_end08cd8:
	.size	eap_method.peer_side.PeerSide.set, .Lfunc_end08cd8-eap_method.peer_side.PeerSide.set

	.section	".text.tuvaddri_c::restart::restart_server","ax",@progbits
	.p2align	1
	.type	tuvaddri_c.restart.restart_server,@function
tuvaddri_c.restart.restart_server:
	addi	sp, sp, -1616
	sd	ra, 1608(sp)
	sd	s0, 1600(sp)
	sd	s1, 1592(sp)
	sd	s2, 1584(sp)
	sd	s3, 1576(sp)
	sd	s4, 1568(sp)
	sd	s5, 1560(sp)
	sd	s6, 1552(sp)
	mv	s0, a1
	lbu	a1, 0(a1)
	addi	s5, s0, 2047
	li	a3, 463
	srl	a3, a3, a1
	andi	a3, a3, 1
	beqz	a3, .LBB9fdb5_3
.LBB9fdb5_1:
	li	s1, 0
	li	s4, 0
	li	a1, 0
	li	s0, 0
	sb	zero, 585(s5)
	li	a2, 1
.LBB9fdb5_2:
	sb	s1, 0(a0)
	sb	s4, 1(a0)
	sb	a2, 2(a0)
	sb	a1, 3(a0)
	sb	s0, 4(a0)
	ld	ra, 1608(sp)
	ld	s0, 1600(sp)
	ld	s1, 1592(sp)
	ld	s2, 1584(sp)
	ld	s3, 1576(sp)
	ld	s4, 1568(sp)
	ld	s5, 1560(sp)
	ld	s6, 1552(sp)
	addi	sp, sp, 1616
	ret
.LBB9fdb5_3:
	mv	s1, a2
	mv	s3, a0
	addi	s2, s0, 8
	li	a0, 4
	bne	a1, a0, .LBB9fdb5_7
	mv	a0, s2
	call	server_machine.machine.SizedServer.has_objects.__575f94f35bca5e04_
	mv	a1, a0
	mv	a0, s3
	beqz	a1, .LBB9fdb5_1
	addi	a0, sp, 16
	li	a2, 1512
	li	a1, 0
	call	memset
	sd	zero, 1544(sp)
	mv	a0, s2
	mv	a1, s1
	call	server_machine.machine.SizedServer.make_again.__575f94f35bca5e04_
	lbu	a0, 32(s0)
	li	a1, 1
	bne	a0, a1, .LBB9fdb5_11
	li	s1, 0
	li	s6, 0
	li	s4, 0
	j	.LBB9fdb5_12
.LBB9fdb5_7:
	mv	a0, s2
	call	server_machine.machine.SizedServer.has_objects.__575f94f35bca5e04_
	mv	a2, a0
	mv	a0, s3
	beqz	a2, .LBB9fdb5_1
	mv	a1, s1
	mv	a0, s2
	call	server_machine.machine.SizedServer.make_again.__575f94f35bca5e04_
	ld	s2, 577(s5)
	ld	a2, 1504(s2)
	beqz	a2, .LBB9fdb5_10
	mv	a0, s2
	li	a1, 0
	call	memset
	sd	zero, 1504(s2)
.LBB9fdb5_10:
	li	s1, 0
	li	s4, 0
	li	a2, 0
	li	a1, 0
	lbu	s0, 35(s0)
	sb	zero, 585(s5)
	mv	a0, s3
	j	.LBB9fdb5_2
.LBB9fdb5_11:
	addi	a0, sp, 1528
	addi	a2, sp, 16
	mv	a1, s2
	call	server_machine.machine.SizedServer.start_step.__575f94f35bca5e04_
	lbu	s4, 1544(sp)
	lbu	s6, 1545(sp)
	lbu	s1, 1546(sp)
.LBB9fdb5_12:
	ld	s2, 577(s5)
	ld	a2, 1504(s2)
	beqz	a2, .LBB9fdb5_14
	mv	a0, s2
	li	a1, 0
	call	memset
	sd	zero, 1504(s2)
	ld	s2, 577(s5)
.LBB9fdb5_14:
	mv	a0, s3
	ld	a2, 1520(sp)
	lbu	s0, 35(s0)
	andi	a1, s1, 1
	sb	s1, 585(s5)
	beqz	a1, .LBB9fdb5_16
	addi	a1, sp, 16
	mv	a0, s2
	call	octet_lists.octets.Octets.set.__1500_
	mv	a0, s3
.LBB9fdb5_16:
	li	a2, 0
	seqz	a1, s4
	addi	a1, a1, -1
	and	a1, a1, s6
	j	.LBB9fdb5_2
.Lfunc_end9fdb5:
	.size	tuvaddri_c.restart.restart_server, .Lfunc_end9fdb5-tuvaddri_c.restart.restart_server

	.section	".text.server_machine::machine::SizedServer::has_objects::<#575f94f35bca5e04>","ax",@progbits
	.p2align	1
	.type	server_machine.machine.SizedServer.has_objects.__575f94f35bca5e04_,@function
server_machine.machine.SizedServer.has_objects.__575f94f35bca5e04_:
	mv	a1, a0
	ld	a2, 1840(a0)
	li	a0, 1
	beqz	a2, .LBB46570_10
	ld	a7, 8(a1)
	ld	a6, 0(a1)
	addi	t0, a1, 1832
	addi	a7, a7, 1
.LBB46570_2:
	lbu	a5, 0(t0)
	addi	t0, t0, 1
	addi	a2, a2, -1
	mv	a1, a7
	mv	a3, a6
	j	.LBB46570_5
.LBB46570_3:
	li	a4, 51
.LBB46570_4:
	addi	a3, a3, 1256
	beq	a4, a5, .LBB46570_8
.LBB46570_5:
	addi	a1, a1, -1
	beqz	a1, .LBB46570_9
	lbu	a4, 0(a3)
	bnez	a4, .LBB46570_3
	li	a4, 47
	j	.LBB46570_4
.LBB46570_8:
	bnez	a2, .LBB46570_2
	j	.LBB46570_10
.LBB46570_9:
	li	a0, 0
.LBB46570_10:
	ret
.Lfunc_end46570:
	.size	server_machine.machine.SizedServer.has_objects.__575f94f35bca5e04_, .Lfunc_end46570-server_machine.machine.SizedServer.has_objects.__575f94f35bca5e04_

	.section	".text.server_machine::machine::SizedServer::start_step::<#575f94f35bca5e04>","ax",@progbits
	.p2align	1
	.type	server_machine.machine.SizedServer.start_step.__575f94f35bca5e04_,@function
server_machine.machine.SizedServer.start_step.__575f94f35bca5e04_:
	addi	sp, sp, -48
	sd	ra, 40(sp)
	sd	s0, 32(sp)
	sd	s1, 24(sp)
	sd	s2, 16(sp)
	sd	s3, 8(sp)
	mv	s2, a2
	mv	s1, a1
	lbu	a2, 25(a1)
	mv	s0, a0
.Lpcrel_hi50:
	auipc	a4, %pcrel_hi(.Lstatic.0)
	addi	a4, a4, %pcrel_lo(.Lpcrel_hi50)
	li	a3, 1
	li	s3, 1
	mv	a0, s2
	li	a1, 0
	li	a5, 0
	call	eap_packet.packet.encode_into
	lbu	a0, 25(s1)
	sb	s3, 27(s1)
	sb	s3, 28(s1)
	sb	a0, 29(s1)
	sb	s3, 30(s1)
	sb	s3, 31(s1)
	sb	s3, 32(s1)
	sb	zero, 33(s1)
	ld	a2, 1504(s2)
	addi	a0, s1, 56
	mv	a1, s2
	call	octet_lists.octets.Octets.set.__1500_
	ld	a2, 48(s1)
	beqz	a2, .LBB717fc_2
	addi	a0, s1, 40
	li	a1, 0
	call	memset
	sd	zero, 48(s1)
.LBB717fc_2:
	li	a0, 15
	li	a1, 14
	li	a2, 13
	li	a3, 12
	sb	zero, 12(s0)
	sb	zero, 13(s0)
	sb	zero, 14(s0)
	sb	zero, 15(s0)
	sb	zero, 0(s0)
	sb	a3, 1(s0)
	sb	a2, 2(s0)
	sb	a1, 3(s0)
	li	a1, 6
	sb	a0, 4(s0)
	sb	s3, 5(s0)
	sb	zero, 6(s0)
	sb	zero, 7(s0)
	sb	a1, 8(s0)
	sb	zero, 9(s0)
	sb	zero, 10(s0)
	sb	zero, 11(s0)
	sb	zero, 16(s0)
	sb	zero, 17(s0)
	sb	s3, 18(s0)
	ld	ra, 40(sp)
	ld	s0, 32(sp)
	ld	s1, 24(sp)
	ld	s2, 16(sp)
	ld	s3, 8(sp)
	addi	sp, sp, 48
	ret
.Lfunc_end717fc:
	.size	server_machine.machine.SizedServer.start_step.__575f94f35bca5e04_, .Lfunc_end717fc-server_machine.machine.SizedServer.start_step.__575f94f35bca5e04_

	.section	".text.pass_through::machine::PassThrough::from_backend_step","ax",@progbits
	.p2align	1
	.type	pass_through.machine.PassThrough.from_backend_step,@function
pass_through.machine.PassThrough.from_backend_step:
	lbu	a5, 2(a1)
	li	t0, 18
	li	a6, 1
	addi	sp, sp, -112
	sd	ra, 104(sp)
	sd	s0, 96(sp)
	sd	s1, 88(sp)
	sd	s2, 80(sp)
	sd	s3, 72(sp)
	sd	s4, 64(sp)
	sd	s5, 56(sp)
	lui	s0, 259968
	addi	s0, s0, -1
	srl	s0, s0, a5
	li	s1, 0
	andi	s0, s0, 1
	beqz	s0, .LBBd5e9e_3
	li	a7, 0
	li	a5, 0
	li	s3, 0
	li	t0, 17
.LBBd5e9e_2:
	sb	zero, 4(a0)
	sb	zero, 5(a0)
	sb	zero, 6(a0)
	sb	zero, 7(a0)
	srli	a1, s1, 8
	sb	zero, 12(a0)
	sb	zero, 13(a0)
	sb	zero, 14(a0)
	sb	zero, 15(a0)
	sb	a5, 8(a0)
	sb	zero, 9(a0)
	sb	zero, 10(a0)
	sb	zero, 11(a0)
	sb	a7, 0(a0)
	sb	s1, 1(a0)
	sb	a1, 2(a0)
	sb	zero, 3(a0)
	sb	a6, 16(a0)
	sb	t0, 17(a0)
	sb	s3, 18(a0)
	ld	ra, 104(sp)
	ld	s0, 96(sp)
	ld	s1, 88(sp)
	ld	s2, 80(sp)
	ld	s3, 72(sp)
	ld	s4, 64(sp)
	ld	s5, 56(sp)
	addi	sp, sp, 112
	ret
.LBBd5e9e_3:
	lui	s0, 14337
	slli	s0, s0, 7
	srl	a5, s0, a5
	andi	s0, a5, 1
	mv	a7, s1
	mv	a5, s1
	mv	s3, s1
	bnez	s0, .LBBd5e9e_2
	mv	s0, a4
	mv	s4, a1
	mv	s2, a0
	sd	zero, 40(sp)
	sd	zero, 48(sp)
	sd	zero, 8(sp)
	sd	zero, 16(sp)
	sd	zero, 24(sp)
	sd	zero, 32(sp)
	addi	a0, sp, 8
	mv	a1, a2
	mv	a2, a3
	call	eap_packet.packet.decode
	lbu	a0, 8(sp)
	li	a6, 1
	bne	a0, a6, .LBBd5e9e_6
	li	s1, 0
	li	a7, 0
	li	a5, 0
	lbu	t0, 9(sp)
	li	s3, 0
	mv	a0, s2
	j	.LBBd5e9e_2
.LBBd5e9e_6:
	lbu	a3, 16(sp)
	ld	a1, 40(sp)
	ld	a2, 48(sp)
	blt	a6, a3, .LBBd5e9e_9
	bnez	a3, .LBBd5e9e_11
	mv	a0, s0
	lbu	s5, 17(sp)
	mv	s0, a1
	mv	s1, a2
	call	octet_lists.octets.Octets.set.__1500_
	li	a0, 26
	li	s3, 1
	sb	a0, 2(s4)
	sb	s3, 3(s4)
	sb	s5, 4(s4)
	sb	zero, 5(s4)
	addi	a0, s4, 8
	mv	a1, s0
	mv	a2, s1
	call	octet_lists.octets.Octets.set.__1500_
	li	a6, 0
	li	t0, 0
	li	a5, 3
	li	a7, 24
	lui	s1, 2
	addi	s1, s1, -1511
	mv	a0, s2
	j	.LBBd5e9e_2
.LBBd5e9e_9:
	li	a4, 2
	mv	a0, s0
	bne	a3, a4, .LBBd5e9e_12
	call	octet_lists.octets.Octets.set.__1500_
	li	s1, 0
	li	a6, 0
	li	t0, 0
	li	a7, 30
	j	.LBBd5e9e_13
.LBBd5e9e_11:
	li	s1, 0
	li	a7, 0
	li	a5, 0
	li	s3, 0
	li	t0, 7
	mv	a6, a3
	mv	a0, s2
	j	.LBBd5e9e_2
.LBBd5e9e_12:
	call	octet_lists.octets.Octets.set.__1500_
	li	s1, 0
	li	a6, 0
	li	t0, 0
	li	a7, 31
.LBBd5e9e_13:
	li	a5, 1
	sb	a7, 2(s4)
	li	s3, 1
	mv	a0, s2
	j	.LBBd5e9e_2
.Lfunc_endd5e9e:
	.size	pass_through.machine.PassThrough.from_backend_step, .Lfunc_endd5e9e-pass_through.machine.PassThrough.from_backend_step

	.section	.rodata.cst8,"aM",@progbits,8
	.p2align	3, 0x0
.LCPIb4a1e_0:
	.quad	6498204116979970
	.section	".text.pass_through::machine::PassThrough::from_peer_step","ax",@progbits
	.p2align	1
	.type	pass_through.machine.PassThrough.from_peer_step,@function
pass_through.machine.PassThrough.from_peer_step:
	addi	sp, sp, -96
	sd	ra, 88(sp)
	sd	s0, 80(sp)
	sd	s1, 72(sp)
	sd	s2, 64(sp)
	sd	s3, 56(sp)
	sd	s4, 48(sp)
	li	t2, 0
	li	t1, 0
	li	t0, 0
	lbu	a5, 2(a1)
.Lpcrel_hi51:
	auipc	s1, %pcrel_hi(.LJTIb4a1e_0)
	slli	a5, a5, 2
	addi	s1, s1, %pcrel_lo(.Lpcrel_hi51)
	add	a5, a5, s1
	lw	a5, 0(a5)
	li	a7, 18
	add	a5, a5, s1
	li	a6, 1
	jr	a5
.LBBb4a1e_1:
	li	t2, 0
	li	t1, 0
	li	t0, 0
	li	a7, 17
.LBBb4a1e_2:
	srli	a1, t2, 48
	srli	a2, t2, 40
	srli	a3, t2, 32
	srli	a4, t2, 24
	srli	a5, t2, 16
	srli	s0, t2, 8
	sb	zero, 12(a0)
	sb	zero, 13(a0)
	sb	zero, 14(a0)
	sb	zero, 15(a0)
	sb	t1, 8(a0)
	sb	zero, 9(a0)
	sb	zero, 10(a0)
	sb	zero, 11(a0)
	sb	a3, 4(a0)
	sb	a2, 5(a0)
	sb	a1, 6(a0)
	sb	zero, 7(a0)
	sb	t2, 0(a0)
	sb	s0, 1(a0)
	sb	a5, 2(a0)
	sb	a4, 3(a0)
	sb	a6, 16(a0)
	sb	a7, 17(a0)
	sb	t0, 18(a0)
	ld	ra, 88(sp)
	ld	s0, 80(sp)
	ld	s1, 72(sp)
	ld	s2, 64(sp)
	ld	s3, 56(sp)
	ld	s4, 48(sp)
	addi	sp, sp, 96
	ret
.LBBb4a1e_3:
	mv	s2, a4
	mv	s4, a1
	mv	s3, a0
	sd	zero, 32(sp)
	sd	zero, 40(sp)
	sd	zero, 0(sp)
	sd	zero, 8(sp)
	sd	zero, 16(sp)
	sd	zero, 24(sp)
	mv	a0, sp
	mv	a1, a2
	mv	a2, a3
	call	eap_packet.packet.decode
	lbu	a0, 0(sp)
	li	a6, 1
	bne	a0, a6, .LBBb4a1e_7
	li	t0, 0
	lbu	a7, 1(sp)
	li	t1, 3
	lui	s0, 17
	addi	t2, s0, -1790
	mv	a0, s3
	j	.LBBb4a1e_2
.LBBb4a1e_5:
	mv	s2, a4
	mv	s3, a1
	mv	s1, a0
	sd	zero, 32(sp)
	sd	zero, 40(sp)
	sd	zero, 0(sp)
	sd	zero, 8(sp)
	sd	zero, 16(sp)
	sd	zero, 24(sp)
	mv	a0, sp
	mv	a1, a2
	mv	a2, a3
	call	eap_packet.packet.decode
	lbu	a0, 0(sp)
	li	a6, 1
	bne	a0, a6, .LBBb4a1e_12
	li	t0, 0
	lbu	a7, 1(sp)
	lui	s0, 418
	addi	t2, s0, -741
	mv	a0, s1
	li	t1, 3
	j	.LBBb4a1e_2
.LBBb4a1e_7:
	lbu	a1, 8(sp)
	li	t1, 3
	lui	s0, 17
	addi	t2, s0, -1790
	mv	a0, s3
	bne	a1, a6, .LBBb4a1e_16
	lbu	a1, 3(s4)
	li	a6, 1
	li	a7, 12
	bne	a1, a6, .LBBb4a1e_18
	lbu	a1, 9(sp)
	lbu	a2, 4(s4)
	addi	t2, s0, -1790
	bne	a2, a1, .LBBb4a1e_18
	lbu	a1, 10(sp)
	li	a6, 1
	bne	a1, a6, .LBBb4a1e_21
	ld	a1, 32(sp)
	ld	a2, 40(sp)
	mv	a0, s2
	call	octet_lists.octets.Octets.set.__1500_
	mv	a0, s3
	li	a6, 0
	li	a7, 0
	li	a1, 23
.Lpcrel_hi52:
	auipc	a2, %pcrel_hi(.LCPIb4a1e_0)
	ld	t2, %pcrel_lo(.Lpcrel_hi52)(a2)
	sb	a1, 2(s4)
	li	t0, 1
	li	t1, 7
	j	.LBBb4a1e_2
.LBBb4a1e_12:
	lbu	a1, 8(sp)
	lui	s0, 418
	addi	t2, s0, -741
	mv	a0, s1
	bne	a1, a6, .LBBb4a1e_17
	lbu	a1, 3(s3)
	li	a6, 1
	li	a7, 12
	bne	a1, a6, .LBBb4a1e_19
	lbu	a1, 9(sp)
	lbu	a2, 4(s3)
	bne	a2, a1, .LBBb4a1e_20
	ld	a1, 32(sp)
	ld	a2, 40(sp)
	mv	a0, s2
	call	octet_lists.octets.Octets.set.__1500_
	mv	a0, s1
	li	a6, 0
	li	a7, 0
	li	a1, 23
	sb	a1, 2(s3)
	li	t0, 1
	lui	s0, 369
	addi	t2, s0, 1563
	li	t1, 3
	j	.LBBb4a1e_2
.LBBb4a1e_16:
	li	t0, 0
	li	a7, 7
	j	.LBBb4a1e_2
.LBBb4a1e_17:
	li	t0, 0
	li	a7, 7
	li	t1, 3
	j	.LBBb4a1e_2
.LBBb4a1e_18:
	li	t0, 0
	j	.LBBb4a1e_2
.LBBb4a1e_19:
	li	t0, 0
	li	t1, 3
	j	.LBBb4a1e_2
.LBBb4a1e_20:
	li	t0, 0
	addi	t2, s0, -741
	li	t1, 3
	j	.LBBb4a1e_2
.LBBb4a1e_21:
	li	t0, 0
	li	a7, 16
	j	.LBBb4a1e_2
.Lfunc_endb4a1e:
	.size	pass_through.machine.PassThrough.from_peer_step, .Lfunc_endb4a1e-pass_through.machine.PassThrough.from_peer_step
	.section	".rodata.pass_through::machine::PassThrough::from_peer_step","a",@progbits
	.p2align	2, 0x0
.LJTIb4a1e_0:
	.word	.LBBb4a1e_1-.LJTIb4a1e_0
	.word	.LBBb4a1e_3-.LJTIb4a1e_0
	.word	.LBBb4a1e_1-.LJTIb4a1e_0
	.word	.LBBb4a1e_1-.LJTIb4a1e_0
	.word	.LBBb4a1e_1-.LJTIb4a1e_0
	.word	.LBBb4a1e_1-.LJTIb4a1e_0
	.word	.LBBb4a1e_1-.LJTIb4a1e_0
	.word	.LBBb4a1e_1-.LJTIb4a1e_0
	.word	.LBBb4a1e_1-.LJTIb4a1e_0
	.word	.LBBb4a1e_1-.LJTIb4a1e_0
	.word	.LBBb4a1e_1-.LJTIb4a1e_0
	.word	.LBBb4a1e_1-.LJTIb4a1e_0
	.word	.LBBb4a1e_1-.LJTIb4a1e_0
	.word	.LBBb4a1e_1-.LJTIb4a1e_0
	.word	.LBBb4a1e_1-.LJTIb4a1e_0
	.word	.LBBb4a1e_1-.LJTIb4a1e_0
	.word	.LBBb4a1e_1-.LJTIb4a1e_0
	.word	.LBBb4a1e_1-.LJTIb4a1e_0
	.word	.LBBb4a1e_1-.LJTIb4a1e_0
	.word	.LBBb4a1e_2-.LJTIb4a1e_0
	.word	.LBBb4a1e_1-.LJTIb4a1e_0
	.word	.LBBb4a1e_1-.LJTIb4a1e_0
	.word	.LBBb4a1e_1-.LJTIb4a1e_0
	.word	.LBBb4a1e_1-.LJTIb4a1e_0
	.word	.LBBb4a1e_1-.LJTIb4a1e_0
	.word	.LBBb4a1e_1-.LJTIb4a1e_0
	.word	.LBBb4a1e_5-.LJTIb4a1e_0
	.word	.LBBb4a1e_1-.LJTIb4a1e_0
	.word	.LBBb4a1e_1-.LJTIb4a1e_0
	.word	.LBBb4a1e_1-.LJTIb4a1e_0
	.word	.LBBb4a1e_2-.LJTIb4a1e_0
	.word	.LBBb4a1e_2-.LJTIb4a1e_0
	.word	.LBBb4a1e_2-.LJTIb4a1e_0

	.section	".text.pass_through::machine::PassThrough::initialize","ax",@progbits
	.p2align	1
	.type	pass_through.machine.PassThrough.initialize,@function
pass_through.machine.PassThrough.initialize:
	addi	sp, sp, -48
	sd	ra, 40(sp)
	sd	s0, 32(sp)
	sd	s1, 24(sp)
	sd	s2, 16(sp)
	sd	s3, 8(sp)
	mv	s2, a2
	mv	s1, a1
	lbu	a2, 0(a1)
	mv	s0, a0
.Lpcrel_hi53:
	auipc	a4, %pcrel_hi(.Lstatic.0)
	addi	a4, a4, %pcrel_lo(.Lpcrel_hi53)
	li	a3, 1
	li	s3, 1
	mv	a0, s2
	li	a1, 0
	li	a5, 0
	call	eap_packet.packet.encode_into
	lbu	a0, 0(s1)
	sb	s3, 2(s1)
	sb	s3, 3(s1)
	sb	a0, 4(s1)
	sb	zero, 5(s1)
	ld	a2, 1504(s2)
	addi	a0, s1, 8
	mv	a1, s2
	call	octet_lists.octets.Octets.set.__1500_
	li	a0, 15
	li	a1, 14
	li	a2, 13
	li	a3, 12
	sb	zero, 12(s0)
	sb	zero, 13(s0)
	sb	zero, 14(s0)
	sb	zero, 15(s0)
	sb	zero, 0(s0)
	sb	a3, 1(s0)
	sb	a2, 2(s0)
	sb	a1, 3(s0)
	li	a1, 6
	sb	a0, 4(s0)
	sb	s3, 5(s0)
	sb	zero, 6(s0)
	sb	zero, 7(s0)
	sb	a1, 8(s0)
	sb	zero, 9(s0)
	sb	zero, 10(s0)
	sb	zero, 11(s0)
	sb	zero, 16(s0)
	sb	zero, 17(s0)
	sb	s3, 18(s0)
	ld	ra, 40(sp)
	ld	s0, 32(sp)
	ld	s1, 24(sp)
	ld	s2, 16(sp)
	ld	s3, 8(sp)
	addi	sp, sp, 48
	ret
.Lfunc_enda6702:
	.size	pass_through.machine.PassThrough.initialize, .Lfunc_enda6702-pass_through.machine.PassThrough.initialize

	.section	".text.pass_through::machine::PassThrough::timeout_step","ax",@progbits
	.p2align	1
	.type	pass_through.machine.PassThrough.timeout_step,@function
pass_through.machine.PassThrough.timeout_step:
	addi	sp, sp, -64
	sd	ra, 56(sp)
	sd	s0, 48(sp)
	sd	s1, 40(sp)
	sd	s2, 32(sp)
	sd	s3, 24(sp)
	mv	a5, a2
	mv	s0, a0
	lbu	a0, 2(a1)
	li	a2, 1
	sd	zero, 0(sp)
	sd	zero, 8(sp)
	sd	zero, 16(sp)
	bne	a0, a2, .LBB40c41_2
	mv	a0, sp
	li	a2, 7
	li	a3, 1
	li	a4, 19
	j	.LBB40c41_3
.LBB40c41_2:
	mv	a0, sp
	li	a2, 28
	li	a3, 26
	li	a4, 32
.LBB40c41_3:
	call	pass_through.rows.resend
	lbu	s1, 16(sp)
	lbu	s2, 17(sp)
	lbu	s3, 18(sp)
	mv	a1, sp
	li	a2, 16
	mv	a0, s0
	call	memcpy
	sb	s1, 16(s0)
	sb	s2, 17(s0)
	sb	s3, 18(s0)
	ld	ra, 56(sp)
	ld	s0, 48(sp)
	ld	s1, 40(sp)
	ld	s2, 32(sp)
	ld	s3, 24(sp)
	addi	sp, sp, 64
	ret
.Lfunc_end40c41:
	.size	pass_through.machine.PassThrough.timeout_step, .Lfunc_end40c41-pass_through.machine.PassThrough.timeout_step

	.section	".text.pass_through::rows::resend","ax",@progbits
	.p2align	1
	.type	pass_through.rows.resend,@function
pass_through.rows.resend:
	addi	sp, sp, -48
	sd	ra, 40(sp)
	sd	s0, 32(sp)
	sd	s1, 24(sp)
	sd	s2, 16(sp)
	sd	s3, 8(sp)
	mv	s1, a3
	mv	s2, a2
	mv	s0, a0
	lbu	a0, 5(a1)
	lbu	a2, 1(a1)
	addi	a0, a0, 1
	zext.b	a3, a0
	sb	a0, 5(a1)
	bgeu	a2, a3, .LBB4f927_2
	li	s3, 0
	sb	a4, 2(a1)
	sw	zero, 0(sp)
	sh	zero, 4(sp)
	mv	s1, a4
	j	.LBB4f927_3
.LBB4f927_2:
	ld	a2, 1512(a1)
	addi	a3, a1, 8
	mv	a0, a5
	mv	s3, a1
	mv	a1, a3
	call	octet_lists.octets.Octets.set.__1500_
	sb	s1, 2(s3)
	sw	zero, 0(sp)
	sh	zero, 4(sp)
	li	s3, 1
.LBB4f927_3:
	li	a0, 2
	sb	a0, 8(s0)
	lbu	a0, 0(sp)
	lbu	a1, 1(sp)
	lbu	a2, 2(sp)
	lbu	a3, 3(sp)
	sb	s2, 0(s0)
	sb	s1, 1(s0)
	sb	a0, 2(s0)
	sb	a1, 3(s0)
	lbu	a0, 4(sp)
	lbu	a1, 5(sp)
	sb	a2, 4(s0)
	sb	a3, 5(s0)
	sb	a0, 6(s0)
	sb	a1, 7(s0)
	addi	a0, s0, 9
	li	a2, 9
	li	a1, 0
	call	memset
	sb	s3, 18(s0)
	ld	ra, 40(sp)
	ld	s0, 32(sp)
	ld	s1, 24(sp)
	ld	s2, 16(sp)
	ld	s3, 8(sp)
	addi	sp, sp, 48
	ret
.Lfunc_end4f927:
	.size	pass_through.rows.resend, .Lfunc_end4f927-pass_through.rows.resend

	.section	".text.end_objects::refusals::peer_refusal","ax",@progbits
	.p2align	1
	.type	end_objects.refusals.peer_refusal,@function
end_objects.refusals.peer_refusal:
	addi	sp, sp, -80
	sd	ra, 72(sp)
	sd	s0, 64(sp)
	sd	s1, 56(sp)
	mv	s0, a0
	call	end_objects.refusals.has_bad_methods
	beqz	a0, .LBB49949_2
	li	s1, 1
	j	.LBB49949_3
.LBB49949_2:
	addi	a0, sp, 24
	mv	a1, s0
	call	end_objects.settings.named_kinds
	ld	a0, 32(sp)
	seqz	s1, a0
.LBB49949_3:
	addi	a0, sp, 40
	mv	a1, s0
	call	end_objects.settings.named_kinds
	ld	a1, 48(sp)
	bnez	a1, .LBB49949_5
	lui	a0, 3
	addi	a0, a0, -205
	li	a1, 2
	j	.LBB49949_6
.LBB49949_5:
	ld	a0, 40(sp)
.LBB49949_6:
	sd	a0, 8(sp)
	sd	a1, 16(sp)
	addi	a0, sp, 8
	mv	a2, s0
	call	end_objects.refusals.has_keys
	xori	a2, a0, 1
	mv	a0, s0
	mv	a1, s1
	ld	ra, 72(sp)
	ld	s0, 64(sp)
	ld	s1, 56(sp)
	addi	sp, sp, 80
	tail	end_objects.refusals.end_refusal
.Lfunc_end49949:
	.size	end_objects.refusals.peer_refusal, .Lfunc_end49949-end_objects.refusals.peer_refusal

	.section	".text.end_objects::constructors::peer_objects","ax",@progbits
	.p2align	1
	.type	end_objects.constructors.peer_objects,@function
end_objects.constructors.peer_objects:
	addi	sp, sp, -2032
	sd	ra, 2024(sp)
	sd	s0, 2016(sp)
	sd	s1, 2008(sp)
	sd	s2, 2000(sp)
	sd	s3, 1992(sp)
	sd	s4, 1984(sp)
	sd	s5, 1976(sp)
	addi	sp, sp, -576
	mv	s2, a0
	addi	a0, sp, 2047
	addi	a0, a0, 497
	sd	a0, 1304(sp)
	sd	zero, 1312(sp)
	sd	zero, 1320(sp)
	beqz	a2, .LBB1b98a_10
	mv	s1, a2
	mv	s5, a1
	addi	a0, sp, 1304
	mv	a1, a2
	call	std_alloc.vec.Vec.move_to.__7a0cad832922b3ee_
	beqz	a0, .LBB1b98a_12
	ld	a0, 1304(sp)
	ld	a1, 1312(sp)
	ld	a2, 1320(sp)
	sd	a0, 16(sp)
	sd	a1, 24(sp)
	sd	a2, 32(sp)
	sd	a0, 40(sp)
	sd	a1, 48(sp)
	sd	a2, 56(sp)
	addi	s3, sp, 2047
	addi	s3, s3, 417
	j	.LBB1b98a_6
.LBB1b98a_3:
	addi	a0, sp, 1304
	li	a2, 1160
	li	a1, 0
	call	memset
	li	s4, 1
.LBB1b98a_4:
	addi	a0, sp, 64
	addi	a1, sp, 1304
	li	a2, 1240
	call	memcpy
	ld	s0, 48(sp)
	ld	a0, 56(sp)
	beq	a0, s0, .LBB1b98a_8
.LBB1b98a_5:
	ld	a0, 40(sp)
	li	a1, 1248
	mul	a1, s0, a1
	add	a0, a0, a1
	sb	zero, 4(a0)
	sb	zero, 5(a0)
	sb	zero, 6(a0)
	sb	zero, 7(a0)
	sb	s4, 0(a0)
	sb	zero, 1(a0)
	sb	zero, 2(a0)
	sb	zero, 3(a0)
	addi	a0, a0, 8
	addi	a1, sp, 64
	li	a2, 1240
	call	memcpy
	addi	s0, s0, 1
	addi	s1, s1, -1
	sd	s0, 48(sp)
	addi	s5, s5, 1
	addi	a0, sp, 64
	li	a2, 1240
	li	a1, 0
	call	memset
	beqz	s1, .LBB1b98a_11
.LBB1b98a_6:
	lbu	s0, 0(s5)
	li	a2, 80
	mv	a0, s3
	li	a1, 0
	call	memset
	li	a0, 47
	bne	s0, a0, .LBB1b98a_3
	addi	a0, sp, 1304
	li	a2, 1240
	li	a1, 0
	call	memset
	li	s4, 0
	j	.LBB1b98a_4
.LBB1b98a_8:
	addi	a0, sp, 40
	call	std_alloc.vec.Vec.grow_amortized.__7a0cad832922b3ee_
	beqz	a0, .LBB1b98a_17
	ld	s0, 48(sp)
	j	.LBB1b98a_5
.LBB1b98a_10:
	ld	a0, 1304(sp)
	ld	a1, 1312(sp)
	ld	a2, 1320(sp)
	sd	a0, 16(sp)
	sd	a1, 24(sp)
	sd	a2, 32(sp)
	sd	a0, 40(sp)
	sd	a1, 48(sp)
	sd	a2, 56(sp)
.LBB1b98a_11:
	sb	zero, 0(s2)
	addi	a0, s2, 8
	addi	a1, sp, 40
	li	a2, 24
	call	memcpy
	j	.LBB1b98a_16
.LBB1b98a_12:
	ld	a0, 1320(sp)
	beqz	a0, .LBB1b98a_15
	ld	a0, 1304(sp)
.LBB1b98a_14:
	call	rattle_dealloc
.LBB1b98a_15:
	li	a0, 1
	sb	a0, 0(s2)
	addi	a0, s2, 8
	li	a2, 24
	li	a1, 0
	call	memset
.LBB1b98a_16:
	addi	sp, sp, 576
	ld	ra, 2024(sp)
	ld	s0, 2016(sp)
	ld	s1, 2008(sp)
	ld	s2, 2000(sp)
	ld	s3, 1992(sp)
	ld	s4, 1984(sp)
	ld	s5, 1976(sp)
	addi	sp, sp, 2032
	ret
.LBB1b98a_17:
	ld	a0, 56(sp)
	beqz	a0, .LBB1b98a_15
	ld	a0, 40(sp)
	j	.LBB1b98a_14
.Lfunc_end1b98a:
	.size	end_objects.constructors.peer_objects, .Lfunc_end1b98a-end_objects.constructors.peer_objects

	.section	.rodata.cst8,"aM",@progbits,8
	.p2align	3, 0x0
.LCPI67e74_0:
	.quad	7390522465428507
	.section	".text.std_alloc::vec::Vec::move_to::<#7a0cad832922b3ee>","ax",@progbits
	.p2align	1
	.type	std_alloc.vec.Vec.move_to.__7a0cad832922b3ee_,@function
std_alloc.vec.Vec.move_to.__7a0cad832922b3ee_:
	addi	sp, sp, -32
	sd	ra, 24(sp)
	sd	s0, 16(sp)
	sd	s1, 8(sp)
	mv	s0, a1
.Lpcrel_hi54:
	auipc	a1, %pcrel_hi(.LCPI67e74_0)
	ld	a1, %pcrel_lo(.Lpcrel_hi54)(a1)
	bgeu	s0, a1, .LBB67e74_3
	mv	s1, a0
	ld	a0, 16(a0)
	beqz	a0, .LBB67e74_4
	ld	a1, 8(s1)
	ld	a0, 0(s1)
	li	a2, 1248
	mul	a1, a1, a2
	mul	a2, s0, a2
	li	a3, 8
	call	rattle_realloc
	andi	a0, a0, 1
	bnez	a0, .LBB67e74_5
	j	.LBB67e74_6
.LBB67e74_3:
	li	a0, 0
	j	.LBB67e74_6
.LBB67e74_4:
	li	a0, 1248
	mul	a0, s0, a0
	li	a1, 8
	call	rattle_alloc
	andi	a0, a0, 1
	beqz	a0, .LBB67e74_6
.LBB67e74_5:
	sd	a1, 0(s1)
	sd	s0, 16(s1)
	li	a0, 1
.LBB67e74_6:
	ld	ra, 24(sp)
	ld	s0, 16(sp)
	ld	s1, 8(sp)
	addi	sp, sp, 32
	ret
.Lfunc_end67e74:
	.size	std_alloc.vec.Vec.move_to.__7a0cad832922b3ee_, .Lfunc_end67e74-std_alloc.vec.Vec.move_to.__7a0cad832922b3ee_

	.section	".text.unlikely.std_alloc::vec::Vec::grow_amortized::<#7a0cad832922b3ee>","ax",@progbits
	.p2align	1
	.type	std_alloc.vec.Vec.grow_amortized.__7a0cad832922b3ee_,@function
std_alloc.vec.Vec.grow_amortized.__7a0cad832922b3ee_:
	ld	a1, 8(a0)
	addi	a1, a1, 1
	bnez	a1, .LBB04dab_2
	li	a0, 0
	ret
.LBB04dab_2:
	ld	a2, 16(a0)
	srli	a3, a2, 62
	snez	a3, a3
	slli	a2, a2, 1
	addi	a3, a3, -1
	and	a2, a2, a3
	bltu	a2, a1, .LBB04dab_4
	mv	a1, a2
.LBB04dab_4:
	addi	sp, sp, -16
	sd	ra, 8(sp)
	call	std_alloc.vec.Vec.move_to.__7a0cad832922b3ee_
	ld	ra, 8(sp)
	addi	sp, sp, 16
	ret
.Lfunc_end04dab:
	.size	std_alloc.vec.Vec.grow_amortized.__7a0cad832922b3ee_, .Lfunc_end04dab-std_alloc.vec.Vec.grow_amortized.__7a0cad832922b3ee_

	.section	".text.end_objects::settings::peer_setup","ax",@progbits
	.p2align	1
	.type	end_objects.settings.peer_setup,@function
end_objects.settings.peer_setup:
	addi	sp, sp, -1488
	sd	ra, 1480(sp)
	sd	s0, 1472(sp)
	sd	s1, 1464(sp)
	sd	s2, 1456(sp)
	sd	s3, 1448(sp)
	sd	s4, 1440(sp)
	sd	s5, 1432(sp)
	sd	s6, 1424(sp)
	sd	s7, 1416(sp)
	sd	s8, 1408(sp)
	sd	s9, 1400(sp)
	sd	s10, 1392(sp)
	sd	s11, 1384(sp)
	mv	s2, a2
	mv	s1, a1
	mv	s0, a0
	addi	a0, sp, 160
	li	a2, 72
	li	a1, 0
	call	memset
	addi	a0, sp, 88
	li	a2, 72
	li	a1, 0
	call	memset
	sd	zero, 56(sp)
	sd	zero, 64(sp)
	sd	zero, 72(sp)
	sd	zero, 80(sp)
	addi	a0, sp, 304
	li	a2, 72
	li	a1, 0
	call	memset
	addi	a0, sp, 232
	li	a2, 72
	li	a1, 0
	call	memset
	lbu	s4, 8(s1)
	lbu	s7, 9(s1)
	lbu	s5, 10(s1)
	lbu	s6, 11(s1)
	lbu	a6, 16(s1)
	lbu	a7, 17(s1)
	lbu	a2, 18(s1)
	lbu	a3, 19(s1)
	lbu	t0, 20(s1)
	lbu	a5, 21(s1)
	lbu	a0, 22(s1)
	lbu	a1, 23(s1)
	slli	a7, a7, 8
	slli	a2, a2, 16
	slli	a3, a3, 24
	slli	a5, a5, 8
	slli	a0, a0, 16
	slli	a1, a1, 24
	or	a4, a7, a6
	or	a2, a2, a3
	or	a3, a5, t0
	or	a0, a0, a1
	lbu	s8, 12(s1)
	lbu	s11, 13(s1)
	lbu	s9, 14(s1)
	lbu	s10, 15(s1)
	or	a2, a2, a4
	or	a0, a0, a3
	slli	a0, a0, 32
	or	s3, a0, a2
	addi	a0, sp, 376
	li	a2, 264
	li	a1, 0
	call	memset
	li	a0, 253
	bltu	a0, s3, .LBB1bec5_2
	slli	s7, s7, 8
	slli	s5, s5, 16
	slli	s6, s6, 24
	slli	s11, s11, 8
	slli	s9, s9, 16
	slli	s10, s10, 24
	or	a0, s7, s4
	or	a1, s6, s5
	or	a2, s11, s8
	or	a3, s10, s9
	or	a0, a0, a1
	or	a2, a2, a3
	slli	a1, a2, 32
	or	a1, a1, a0
	addi	a0, sp, 376
	mv	a2, s3
	call	memcpy
	sd	s3, 632(sp)
.LBB1bec5_2:
	lbu	s4, 24(s1)
	lbu	s7, 25(s1)
	lbu	s5, 26(s1)
	lbu	s6, 27(s1)
	lbu	a6, 32(s1)
	lbu	a7, 33(s1)
	lbu	a2, 34(s1)
	lbu	a3, 35(s1)
	lbu	t0, 36(s1)
	lbu	a5, 37(s1)
	lbu	a0, 38(s1)
	lbu	a1, 39(s1)
	slli	a7, a7, 8
	slli	a2, a2, 16
	slli	a3, a3, 24
	slli	a5, a5, 8
	slli	a0, a0, 16
	slli	a1, a1, 24
	or	a4, a7, a6
	or	a2, a2, a3
	or	a3, a5, t0
	or	a0, a0, a1
	lbu	s8, 28(s1)
	lbu	s11, 29(s1)
	lbu	s9, 30(s1)
	lbu	s10, 31(s1)
	or	a2, a2, a4
	or	a0, a0, a3
	slli	a0, a0, 32
	or	s3, a0, a2
	addi	a0, sp, 640
	li	a2, 264
	li	a1, 0
	call	memset
	beqz	s3, .LBB1bec5_6
	addi	a0, sp, 904
	li	a2, 264
	li	a1, 0
	call	memset
	li	a0, 253
	bltu	a0, s3, .LBB1bec5_5
	slli	s7, s7, 8
	slli	s5, s5, 16
	slli	s6, s6, 24
	slli	s11, s11, 8
	slli	s9, s9, 16
	slli	s10, s10, 24
	or	a0, s7, s4
	or	a1, s6, s5
	or	a2, s11, s8
	or	a3, s10, s9
	or	a0, a0, a1
	or	a2, a2, a3
	slli	a1, a2, 32
	or	a1, a1, a0
	addi	a0, sp, 904
	mv	a2, s3
	call	memcpy
	sd	s3, 1160(sp)
.LBB1bec5_5:
	addi	a0, sp, 640
	addi	a1, sp, 904
	li	a2, 264
	call	memcpy
	li	a0, 1
	sd	a0, 32(sp)
	j	.LBB1bec5_7
.LBB1bec5_6:
	sd	zero, 32(sp)
.LBB1bec5_7:
	addi	a0, sp, 1312
	mv	a1, s1
	call	end_objects.settings.named_kinds
	lbu	a0, 74(s1)
	beqz	a0, .LBB1bec5_9
	lbu	a1, 75(s1)
	snez	a2, a1
	slli	a1, a1, 8
	addi	a2, a2, 1
	sd	a2, 40(sp)
	or	a0, a0, a1
	j	.LBB1bec5_10
.LBB1bec5_9:
	li	a0, 2
	sd	a0, 40(sp)
	li	a0, 513
.LBB1bec5_10:
	sd	a0, 48(sp)
	ld	s7, 1312(sp)
	ld	s5, 1320(sp)
	lbu	a0, 40(s1)
	sd	a0, 24(sp)
	lbu	s6, 41(s1)
	lbu	a0, 42(s1)
	sd	a0, 16(sp)
	lbu	s11, 43(s1)
	lbu	a6, 48(s1)
	lbu	a7, 49(s1)
	lbu	a2, 50(s1)
	lbu	a3, 51(s1)
	lbu	t0, 52(s1)
	lbu	a5, 53(s1)
	lbu	a0, 54(s1)
	lbu	a1, 55(s1)
	slli	a7, a7, 8
	slli	a2, a2, 16
	slli	a3, a3, 24
	slli	a5, a5, 8
	slli	a0, a0, 16
	slli	a1, a1, 24
	or	a4, a7, a6
	or	a2, a2, a3
	or	a3, a5, t0
	or	a0, a0, a1
	lbu	s8, 44(s1)
	lbu	s10, 45(s1)
	lbu	s4, 46(s1)
	lbu	s9, 47(s1)
	or	a2, a2, a4
	or	a0, a0, a3
	slli	a0, a0, 32
	or	s3, a0, a2
	addi	a0, sp, 1312
	li	a2, 72
	li	a1, 0
	call	memset
	beqz	s3, .LBB1bec5_14
	addi	a0, sp, 1168
	li	a2, 72
	li	a1, 0
	call	memset
	li	a0, 64
	bltu	a0, s3, .LBB1bec5_13
	slli	s6, s6, 8
	ld	a0, 16(sp)
	slli	a0, a0, 16
	slli	s11, s11, 24
	slli	s10, s10, 8
	slli	s4, s4, 16
	slli	s9, s9, 24
	ld	a1, 24(sp)
	or	a1, s6, a1
	or	a0, s11, a0
	or	a2, s10, s8
	or	a3, s9, s4
	or	a0, a0, a1
	or	a2, a2, a3
	slli	a1, a2, 32
	or	a1, a1, a0
	addi	a0, sp, 1168
	mv	a2, s3
	call	memcpy
	sd	s3, 1232(sp)
.LBB1bec5_13:
	addi	a0, sp, 1312
	addi	a1, sp, 1168
	li	a2, 72
	call	memcpy
	li	a0, 1
	sd	a0, 24(sp)
	j	.LBB1bec5_15
.LBB1bec5_14:
	sd	zero, 24(sp)
.LBB1bec5_15:
	addi	a0, sp, 304
	addi	a1, sp, 1312
	li	a2, 72
	call	memcpy
	lbu	a0, 56(s1)
	sd	a0, 16(sp)
	lbu	s8, 57(s1)
	lbu	s11, 58(s1)
	lbu	a0, 59(s1)
	sd	a0, 8(sp)
	lbu	a6, 64(s1)
	lbu	a7, 65(s1)
	lbu	a2, 66(s1)
	lbu	a3, 67(s1)
	lbu	t0, 68(s1)
	lbu	a5, 69(s1)
	lbu	a0, 70(s1)
	lbu	a1, 71(s1)
	slli	a7, a7, 8
	slli	a2, a2, 16
	slli	a3, a3, 24
	slli	a5, a5, 8
	slli	a0, a0, 16
	slli	a1, a1, 24
	or	a4, a7, a6
	or	a2, a2, a3
	or	a3, a5, t0
	or	a0, a0, a1
	lbu	s9, 60(s1)
	lbu	s6, 61(s1)
	lbu	s4, 62(s1)
	lbu	s10, 63(s1)
	or	a2, a2, a4
	or	a0, a0, a3
	slli	a0, a0, 32
	or	s3, a0, a2
	addi	a0, sp, 1240
	li	a2, 72
	li	a1, 0
	call	memset
	beqz	s3, .LBB1bec5_19
	addi	a0, sp, 1312
	li	a2, 72
	li	a1, 0
	call	memset
	li	a0, 64
	bltu	a0, s3, .LBB1bec5_18
	slli	s8, s8, 8
	slli	s11, s11, 16
	ld	a0, 8(sp)
	slli	a0, a0, 24
	slli	s6, s6, 8
	slli	s4, s4, 16
	slli	s10, s10, 24
	ld	a1, 16(sp)
	or	a1, s8, a1
	or	a0, a0, s11
	or	a2, s6, s9
	or	a3, s10, s4
	or	a0, a0, a1
	or	a2, a2, a3
	slli	a1, a2, 32
	or	a1, a1, a0
	addi	a0, sp, 1312
	mv	a2, s3
	call	memcpy
	sd	s3, 1376(sp)
.LBB1bec5_18:
	addi	a0, sp, 1240
	addi	a1, sp, 1312
	li	a2, 72
	call	memcpy
	li	s3, 1
.LBB1bec5_19:
	bnez	s5, .LBB1bec5_21
	li	s5, 2
	lui	s7, 3
	addi	s7, s7, -205
.LBB1bec5_21:
	addi	a0, sp, 232
	addi	a1, sp, 1240
	li	a2, 72
	call	memcpy
	lbu	a0, 76(s1)
	snez	s6, a0
	addi	a0, sp, 160
	addi	a1, sp, 304
	li	a2, 72
	call	memcpy
	addi	a0, sp, 88
	addi	a1, sp, 232
	li	a2, 72
	call	memcpy
	lbu	t0, 0(s2)
	lbu	t2, 1(s2)
	lbu	t4, 2(s2)
	lbu	a3, 3(s2)
	lbu	a4, 4(s2)
	lbu	a5, 5(s2)
	lbu	a6, 6(s2)
	lbu	a7, 7(s2)
	lbu	t1, 8(s2)
	lbu	t3, 9(s2)
	lbu	s1, 10(s2)
	lbu	a1, 11(s2)
	lbu	s4, 12(s2)
	lbu	a2, 13(s2)
	lbu	t5, 14(s2)
	lbu	t6, 15(s2)
	slli	t2, t2, 8
	slli	t4, t4, 16
	slli	a3, a3, 24
	slli	a5, a5, 8
	or	t0, t2, t0
	or	t2, a3, t4
	or	t4, a5, a4
	lbu	s8, 16(s2)
	lbu	a4, 17(s2)
	lbu	a5, 18(s2)
	lbu	a0, 19(s2)
	slli	a6, a6, 16
	slli	a7, a7, 24
	slli	t3, t3, 8
	slli	s1, s1, 16
	slli	a1, a1, 24
	slli	a2, a2, 8
	or	a6, a7, a6
	or	a7, t3, t1
	or	t1, a1, s1
	or	t3, a2, s4
	lbu	a2, 20(s2)
	lbu	a1, 21(s2)
	lbu	s1, 22(s2)
	lbu	a3, 23(s2)
	slli	t5, t5, 16
	slli	t6, t6, 24
	slli	a4, a4, 8
	slli	a5, a5, 16
	slli	a0, a0, 24
	slli	a1, a1, 8
	or	t5, t6, t5
	or	t6, a4, s8
	or	s4, a0, a5
	or	s8, a1, a2
	lbu	a2, 24(s2)
	lbu	a5, 25(s2)
	lbu	a4, 26(s2)
	lbu	a0, 27(s2)
	slli	s1, s1, 16
	slli	a3, a3, 24
	slli	a5, a5, 8
	slli	a4, a4, 16
	slli	a0, a0, 24
	or	s10, a3, s1
	or	s9, a5, a2
	or	s11, a0, a4
	lbu	a4, 29(s2)
	lbu	a5, 28(s2)
	lbu	s1, 30(s2)
	lbu	a1, 31(s2)
	slli	a4, a4, 8
	or	s2, a4, a5
	slli	s1, s1, 16
	slli	a1, a1, 24
	or	a1, a1, s1
	or	a5, t2, t0
	or	s1, a6, t4
	or	a2, t1, a7
	or	a3, t5, t3
	or	a0, s4, t6
	or	a4, s10, s8
	or	a6, s11, s9
	or	a1, a1, s2
	slli	s1, s1, 32
	or	a5, a5, s1
	slli	a3, a3, 32
	or	a2, a2, a3
	slli	a4, a4, 32
	or	a0, a0, a4
	slli	a1, a1, 32
	or	a1, a1, a6
	sd	a5, 56(sp)
	sd	a2, 64(sp)
	sd	a0, 72(sp)
	sd	a1, 80(sp)
	addi	a1, sp, 376
	li	a2, 264
	mv	a0, s0
	call	memcpy
	sb	zero, 268(s0)
	sb	zero, 269(s0)
	sb	zero, 270(s0)
	sb	zero, 271(s0)
	ld	a0, 32(sp)
	sb	a0, 264(s0)
	sb	zero, 265(s0)
	sb	zero, 266(s0)
	sb	zero, 267(s0)
	addi	a0, s0, 272
	addi	a1, sp, 640
	li	a2, 264
	call	memcpy
	srli	t2, s7, 56
	srli	a2, s7, 48
	srli	a3, s7, 40
	srli	a4, s7, 32
	srli	a5, s7, 24
	srli	s1, s7, 16
	srli	a0, s7, 8
	srli	a7, s5, 56
	srli	t0, s5, 48
	srli	t1, s5, 40
	srli	a1, s5, 32
	srli	a6, s5, 24
	sb	a4, 540(s0)
	sb	a3, 541(s0)
	sb	a2, 542(s0)
	sb	t2, 543(s0)
	srli	a2, s5, 16
	sb	s7, 536(s0)
	sb	a0, 537(s0)
	sb	s1, 538(s0)
	sb	a5, 539(s0)
	srli	a0, s5, 8
	sb	zero, 556(s0)
	sb	zero, 557(s0)
	sb	zero, 558(s0)
	sb	zero, 559(s0)
	sb	a1, 548(s0)
	sb	t1, 549(s0)
	sb	t0, 550(s0)
	sb	a7, 551(s0)
	ld	a3, 48(sp)
	srli	a1, a3, 8
	sb	zero, 564(s0)
	sb	zero, 565(s0)
	sb	zero, 566(s0)
	sb	zero, 567(s0)
	ld	a4, 40(sp)
	sb	a4, 560(s0)
	sb	zero, 561(s0)
	sb	zero, 562(s0)
	sb	zero, 563(s0)
	sb	zero, 572(s0)
	sb	zero, 573(s0)
	sb	zero, 574(s0)
	sb	zero, 575(s0)
	ld	a4, 24(sp)
	sb	a4, 568(s0)
	sb	zero, 569(s0)
	sb	zero, 570(s0)
	sb	zero, 571(s0)
	sb	s5, 544(s0)
	sb	a0, 545(s0)
	sb	a2, 546(s0)
	sb	a6, 547(s0)
	sb	a3, 552(s0)
	sb	a1, 553(s0)
	sb	zero, 554(s0)
	sb	zero, 555(s0)
	addi	a0, s0, 576
	addi	a1, sp, 160
	li	a2, 72
	call	memcpy
	sb	zero, 652(s0)
	sb	zero, 653(s0)
	sb	zero, 654(s0)
	sb	zero, 655(s0)
	sb	s3, 648(s0)
	sb	zero, 649(s0)
	sb	zero, 650(s0)
	sb	zero, 651(s0)
	addi	a0, s0, 656
	addi	a1, sp, 88
	li	a2, 72
	call	memcpy
	addi	a0, s0, 728
	addi	a1, sp, 56
	li	a2, 32
	call	memcpy
	sb	s6, 760(s0)
	sb	zero, 761(s0)
	sb	zero, 762(s0)
	sb	zero, 763(s0)
	sb	zero, 764(s0)
	sb	zero, 765(s0)
	sb	zero, 766(s0)
	sb	zero, 767(s0)
	ld	ra, 1480(sp)
	ld	s0, 1472(sp)
	ld	s1, 1464(sp)
	ld	s2, 1456(sp)
	ld	s3, 1448(sp)
	ld	s4, 1440(sp)
	ld	s5, 1432(sp)
	ld	s6, 1424(sp)
	ld	s7, 1416(sp)
	ld	s8, 1408(sp)
	ld	s9, 1400(sp)
	ld	s10, 1392(sp)
	ld	s11, 1384(sp)
	addi	sp, sp, 1488
	ret
.Lfunc_end1bec5:
	.size	end_objects.settings.peer_setup, .Lfunc_end1bec5-end_objects.settings.peer_setup

	.section	".text.peer_machine::machine::PeerMachine::new::<#807681be332d694b>","ax",@progbits
	.p2align	1
	.type	peer_machine.machine.PeerMachine.new.__807681be332d694b_,@function
peer_machine.machine.PeerMachine.new.__807681be332d694b_:
	addi	sp, sp, -496
	sd	ra, 488(sp)
	sd	s0, 480(sp)
	sd	s1, 472(sp)
	sd	s2, 464(sp)
	sd	s3, 456(sp)
	sd	s4, 448(sp)
	sd	s5, 440(sp)
	sd	s6, 432(sp)
	addi	sp, sp, -1856
	mv	s3, a0
	lbu	a6, 0(a2)
	lbu	t2, 1(a2)
	lbu	t3, 2(a2)
	lbu	a5, 3(a2)
	lbu	s1, 4(a2)
	lbu	s0, 5(a2)
	lbu	a7, 6(a2)
	lbu	t1, 7(a2)
	lbu	t0, 8(a2)
	lbu	t4, 9(a2)
	lbu	a3, 10(a2)
	lbu	a4, 11(a2)
	slli	t2, t2, 8
	slli	t3, t3, 16
	slli	a5, a5, 24
	slli	s0, s0, 8
	or	a6, t2, a6
	or	t2, a5, t3
	or	t3, s0, s1
	lbu	s1, 12(a2)
	lbu	a5, 13(a2)
	lbu	s0, 14(a2)
	lbu	a0, 15(a2)
	slli	a7, a7, 16
	slli	t1, t1, 24
	slli	t4, t4, 8
	slli	a3, a3, 16
	slli	a4, a4, 24
	slli	a5, a5, 8
	or	a7, t1, a7
	or	t0, t4, t0
	or	t1, a4, a3
	or	t4, a5, s1
	lbu	a4, 16(a2)
	lbu	s1, 17(a2)
	lbu	a3, 18(a2)
	lbu	a5, 19(a2)
	slli	s0, s0, 16
	slli	a0, a0, 24
	slli	s1, s1, 8
	slli	a3, a3, 16
	slli	a5, a5, 24
	or	t5, a0, s0
	or	t6, s1, a4
	or	s2, a5, a3
	lbu	a5, 21(a2)
	lbu	s1, 20(a2)
	lbu	s0, 22(a2)
	lbu	a2, 23(a2)
	slli	a5, a5, 8
	or	a5, a5, s1
	slli	s0, s0, 16
	slli	a2, a2, 24
	or	a2, a2, s0
	or	a6, t2, a6
	or	a0, a7, t3
	or	a4, t1, t0
	or	a3, t5, t4
	or	s0, s2, t6
	or	a2, a2, a5
	addi	s6, s3, 2047
	slli	a0, a0, 32
	slli	a3, a3, 32
	slli	a2, a2, 32
	or	s4, a0, a6
	or	s5, a3, a4
	or	s2, a2, s0
	addi	a0, sp, 1520
	li	a2, 768
	call	memcpy
	beqz	s5, .LBB06bf9_3
	mv	s0, s5
	mv	a0, s4
.LBB06bf9_2:
	addi	s1, a0, 1248
	addi	s0, s0, -1
	addi	a1, sp, 1520
	call	eap_method.peer_objects.start_one.__807681be332d694b_
	mv	a0, s1
	bnez	s0, .LBB06bf9_2
.LBB06bf9_3:
	addi	a0, sp, 8
	li	a2, 1512
	li	a1, 0
	call	memset
	addi	a1, sp, 1520
	li	a2, 768
	mv	a0, s3
	call	memcpy
	li	a0, 1
	sb	zero, 772(s3)
	sb	zero, 773(s3)
	sb	zero, 774(s3)
	sb	zero, 775(s3)
	sb	a0, 768(s3)
	sb	zero, 769(s3)
	sb	zero, 770(s3)
	sb	zero, 771(s3)
	addi	a0, s3, 776
	addi	a1, sp, 8
	li	a2, 1512
	call	memcpy
	srli	a6, s4, 56
	srli	t0, s4, 48
	srli	a2, s4, 40
	srli	a3, s4, 32
	srli	a7, s4, 24
	srli	t2, s4, 16
	srli	s1, s4, 8
	srli	t1, s5, 56
	srli	t5, s5, 48
	srli	a4, s5, 40
	srli	a1, s5, 32
	srli	t3, s5, 24
	srli	a5, s5, 16
	srli	s0, s5, 8
	srli	t4, s2, 56
	srli	a0, s2, 48
	sb	a3, 245(s6)
	sb	a2, 246(s6)
	sb	t0, 247(s6)
	sb	a6, 248(s6)
	srli	a2, s2, 40
	sb	s4, 241(s6)
	sb	s1, 242(s6)
	sb	t2, 243(s6)
	sb	a7, 244(s6)
	srli	a3, s2, 32
	sb	a1, 253(s6)
	sb	a4, 254(s6)
	sb	t5, 255(s6)
	sb	t1, 256(s6)
	srli	a1, s2, 24
	sb	s5, 249(s6)
	sb	s0, 250(s6)
	sb	a5, 251(s6)
	sb	t3, 252(s6)
	srli	a4, s2, 16
	sb	a3, 261(s6)
	sb	a2, 262(s6)
	sb	a0, 263(s6)
	sb	t4, 264(s6)
	srli	a0, s2, 8
	sb	s2, 257(s6)
	sb	a0, 258(s6)
	sb	a4, 259(s6)
	sb	a1, 260(s6)
	addi	sp, sp, 1856
	ld	ra, 488(sp)
	ld	s0, 480(sp)
	ld	s1, 472(sp)
	ld	s2, 464(sp)
	ld	s3, 456(sp)
	ld	s4, 448(sp)
	ld	s5, 440(sp)
	ld	s6, 432(sp)
	addi	sp, sp, 496
	ret
.Lfunc_end06bf9:
	.size	peer_machine.machine.PeerMachine.new.__807681be332d694b_, .Lfunc_end06bf9-peer_machine.machine.PeerMachine.new.__807681be332d694b_

	.section	".text.switch_port::machine::SwitchPort::connect","ax",@progbits
	.p2align	1
	.type	switch_port.machine.SwitchPort.connect,@function
switch_port.machine.SwitchPort.connect:
	addi	sp, sp, -48
	sd	ra, 40(sp)
	sd	s0, 32(sp)
	sd	s1, 24(sp)
	mv	s1, a1
	lbu	a1, 1544(a1)
	lbu	a3, 16(s1)
	mv	s0, a0
	bgeu	a1, a3, .LBB03045_2
	addi	a1, a1, 1
	sb	a1, 1544(s1)
	j	.LBB03045_3
.LBB03045_2:
	sb	zero, 22(s1)
	li	a0, 1
	sb	a0, 1544(s1)
.LBB03045_3:
	addi	a1, s1, 24
	sd	zero, 16(sp)
	mv	a0, sp
	call	pass_through.machine.PassThrough.initialize
	lbu	a0, 18(sp)
	lw	a1, 8(s1)
	li	a2, 1
	andi	a0, a0, 1
	sb	a2, 21(s1)
	sw	a1, 1548(s1)
	sb	a0, 0(s0)
	sb	zero, 1(s0)
	sb	zero, 2(s0)
	ld	ra, 40(sp)
	ld	s0, 32(sp)
	ld	s1, 24(sp)
	addi	sp, sp, 48
	ret
.Lfunc_end03045:
	.size	switch_port.machine.SwitchPort.connect, .Lfunc_end03045-switch_port.machine.SwitchPort.connect

	.section	".text.tuvaddri_c::port_turn::TuvPortTurn::of","ax",@progbits
	.p2align	1
	.type	tuvaddri_c.port_turn.TuvPortTurn.of,@function
tuvaddri_c.port_turn.TuvPortTurn.of:
	addi	sp, sp, -64
	sd	ra, 56(sp)
	sd	s0, 48(sp)
	sd	s1, 40(sp)
	sd	s2, 32(sp)
	sd	s3, 24(sp)
	sd	s4, 16(sp)
	sd	s5, 8(sp)
	mv	s2, a6
	mv	s0, a0
	lbu	s5, 21(a4)
.Lpcrel_hi55:
	auipc	a0, %pcrel_hi(.LJTIa569d_0)
	slli	s1, s5, 2
	addi	a0, a0, %pcrel_lo(.Lpcrel_hi55)
	add	s1, s1, a0
	lw	s1, 0(s1)
	lbu	a7, 0(a1)
	li	a6, 1
	add	a0, a0, s1
	li	s3, 1
	jr	a0
.LBBa569d_1:
	lbu	a0, 26(a4)
	addi	a0, a0, -23
	seqz	s5, a0
	li	s3, 4
	lbu	s4, 22(a4)
	bge	a6, a7, .LBBa569d_6
	j	.LBBa569d_10
.LBBa569d_2:
	li	s5, 0
	li	s3, 8
	lbu	s4, 22(a4)
	bge	a6, a7, .LBBa569d_6
	j	.LBBa569d_10
.LBBa569d_3:
	li	s5, 0
	li	s3, 5
	lbu	s4, 22(a4)
	bge	a6, a7, .LBBa569d_6
	j	.LBBa569d_10
.LBBa569d_4:
	li	s5, 0
	li	s3, 7
.LBBa569d_5:
	lbu	s4, 22(a4)
	blt	a6, a7, .LBBa569d_10
.LBBa569d_6:
	bnez	a7, .LBBa569d_8
	li	a1, 0
	li	a3, 0
	li	a0, 0
	li	a2, 0
	sb	zero, 0(s2)
	j	.LBBa569d_12
.LBBa569d_8:
	mv	a0, a5
	li	a1, 0
	call	eapol_frame.frame.write_frame
	li	a1, 0
	li	a3, 0
	li	a0, 0
	li	a2, 1
	sb	a2, 0(s2)
	j	.LBBa569d_12
.LBBa569d_9:
	li	s5, 0
	li	s3, 9
	lbu	s4, 22(a4)
	bge	a6, a7, .LBBa569d_6
.LBBa569d_10:
	li	a0, 2
	bne	a7, a0, .LBBa569d_13
	mv	a0, a5
	mv	a1, a2
	mv	a2, a3
	call	octet_lists.octets.Octets.set.__1504_
	li	a1, 0
	li	a3, 0
	li	a2, 0
	li	a0, 1
	sb	a0, 0(s2)
.LBBa569d_12:
	sb	a2, 0(s0)
	sb	a0, 1(s0)
	sb	a3, 2(s0)
	sb	zero, 3(s0)
	sb	s4, 4(s0)
	sb	s5, 5(s0)
	sb	a1, 6(s0)
	sb	s3, 7(s0)
	ld	ra, 56(sp)
	ld	s0, 48(sp)
	ld	s1, 40(sp)
	ld	s2, 32(sp)
	ld	s3, 24(sp)
	ld	s4, 16(sp)
	ld	s5, 8(sp)
	addi	sp, sp, 64
	ret
.LBBa569d_13:
	li	a0, 0
	li	a2, 0
	lbu	a3, 1(a1)
	lbu	a4, 2(a1)
.Lpcrel_hi56:
	auipc	a1, %pcrel_hi(.LJTIa569d_1)
	slli	a5, a3, 2
	addi	a1, a1, %pcrel_lo(.Lpcrel_hi56)
	add	a5, a5, a1
	lw	a5, 0(a5)
	sb	zero, 0(s2)
	add	a5, a5, a1
	li	a1, 66
	jr	a5
.LBBa569d_14:
	li	a0, 0
	li	a2, 0
	seqz	a1, a4
	xori	a1, a1, 65
	li	a3, 1
	j	.LBBa569d_12
.LBBa569d_15:
	li	a0, 0
	li	a2, 0
	li	a3, 1
	li	a1, 68
	j	.LBBa569d_12
.LBBa569d_16:
	li	a0, 0
	li	a2, 0
	li	a3, 1
	li	a1, 67
	j	.LBBa569d_12
.LBBa569d_17:
	li	a0, 0
	li	a2, 0
	li	a3, 1
	mv	a1, a4
	j	.LBBa569d_12
.Lfunc_enda569d:
	.size	tuvaddri_c.port_turn.TuvPortTurn.of, .Lfunc_enda569d-tuvaddri_c.port_turn.TuvPortTurn.of
	.section	".rodata.tuvaddri_c::port_turn::TuvPortTurn::of","a",@progbits
	.p2align	2, 0x0
.LJTIa569d_0:
	.word	.LBBa569d_5-.LJTIa569d_0
	.word	.LBBa569d_1-.LJTIa569d_0
	.word	.LBBa569d_3-.LJTIa569d_0
	.word	.LBBa569d_4-.LJTIa569d_0
	.word	.LBBa569d_2-.LJTIa569d_0
	.word	.LBBa569d_9-.LJTIa569d_0
.LJTIa569d_1:
	.word	.LBBa569d_14-.LJTIa569d_1
	.word	.LBBa569d_12-.LJTIa569d_1
	.word	.LBBa569d_16-.LJTIa569d_1
	.word	.LBBa569d_17-.LJTIa569d_1
	.word	.LBBa569d_15-.LJTIa569d_1

	.section	".text.eapol_frame::frame::write_frame","ax",@progbits
	.p2align	1
	.type	eapol_frame.frame.write_frame,@function
eapol_frame.frame.write_frame:
	addi	sp, sp, -48
	sd	ra, 40(sp)
	sd	s0, 32(sp)
	sd	s1, 24(sp)
	sd	s2, 16(sp)
	sd	s3, 8(sp)
	mv	s2, a3
	mv	s0, a2
	mv	s1, a0
	ld	a2, 1504(a0)
	mv	s3, a1
	beqz	a2, .LBB67a1d_2
	mv	a0, s1
	li	a1, 0
	call	memset
.LBB67a1d_2:
	li	a0, 2
	srli	a1, s2, 8
	li	a2, 4
	sd	a2, 1504(s1)
	li	a2, 1500
	sb	a0, 0(s1)
	sb	s3, 1(s1)
	sb	a1, 2(s1)
	sb	s2, 3(s1)
	bltu	a2, s2, .LBB67a1d_8
	addi	a0, s1, 4
	sub	a1, a0, s0
	bgeu	a1, s2, .LBB67a1d_6
	add	a1, s0, s2
.LBB67a1d_5:
	lbu	a2, 0(s0)
	addi	s0, s0, 1
	sb	a2, 0(a0)
	addi	a0, a0, 1
	bne	s0, a1, .LBB67a1d_5
	j	.LBB67a1d_7
.LBB67a1d_6:
	mv	a1, s0
	mv	a2, s2
	call	memmove
.LBB67a1d_7:
	addi	s2, s2, 4
	sd	s2, 1504(s1)
.LBB67a1d_8:
	ld	ra, 40(sp)
	ld	s0, 32(sp)
	ld	s1, 24(sp)
	ld	s2, 16(sp)
	ld	s3, 8(sp)
	addi	sp, sp, 48
	ret
.Lfunc_end67a1d:
	.size	eapol_frame.frame.write_frame, .Lfunc_end67a1d-eapol_frame.frame.write_frame

	.section	".text.octet_lists::octets::Octets::set::<=1504>","ax",@progbits
	.p2align	1
	.type	octet_lists.octets.Octets.set.__1504_,@function
octet_lists.octets.Octets.set.__1504_:
	addi	sp, sp, -32
	sd	ra, 24(sp)
	sd	s0, 16(sp)
	sd	s1, 8(sp)
	sd	s2, 0(sp)
	mv	s2, a2
	mv	s1, a0
	ld	a2, 1504(a0)
	mv	s0, a1
	beqz	a2, .LBBced82_2
	mv	a0, s1
	li	a1, 0
	call	memset
	sd	zero, 1504(s1)
.LBBced82_2:
	li	a0, 1504
	bltu	a0, s2, .LBBced82_8
	sub	a0, s1, s0
	bgeu	a0, s2, .LBBced82_6
	add	a0, s0, s2
	mv	a1, s1
.LBBced82_5:
	lbu	a2, 0(s0)
	addi	s0, s0, 1
	sb	a2, 0(a1)
	addi	a1, a1, 1
	bne	s0, a0, .LBBced82_5
	j	.LBBced82_7
.LBBced82_6:
	mv	a0, s1
	mv	a1, s0
	mv	a2, s2
	call	memmove
.LBBced82_7:
	sd	s2, 1504(s1)
.LBBced82_8:
	ld	ra, 24(sp)
	ld	s0, 16(sp)
	ld	s1, 8(sp)
	ld	s2, 0(sp)
	addi	sp, sp, 32
	ret
.Lfunc_endced82:
	.size	octet_lists.octets.Octets.set.__1504_, .Lfunc_endced82-octet_lists.octets.Octets.set.__1504_

	.section	".text.tuvaddri_c::sent::empty_frame","ax",@progbits
	.p2align	1
	.type	tuvaddri_c.sent.empty_frame,@function
tuvaddri_c.sent.empty_frame:
	addi	sp, sp, -32
	sd	ra, 24(sp)
	sd	s0, 16(sp)
	sd	s1, 8(sp)
	li	a0, 1512
	li	a1, 8
	call	rattle_alloc
	andi	s0, a0, 1
	beqz	s0, .LBB825f5_2
	li	a2, 1512
	mv	a0, a1
	mv	s1, a1
	li	a1, 0
	call	memset
	mv	a1, s1
	j	.LBB825f5_3
.LBB825f5_2:
	li	a1, 0
.LBB825f5_3:
	mv	a0, s0
	ld	ra, 24(sp)
	ld	s0, 16(sp)
	ld	s1, 8(sp)
	addi	sp, sp, 32
	ret
.Lfunc_end825f5:
	.size	tuvaddri_c.sent.empty_frame, .Lfunc_end825f5-tuvaddri_c.sent.empty_frame

	.section	".text.switch_port::machine::SwitchPort::begin","ax",@progbits
	.p2align	1
	.type	switch_port.machine.SwitchPort.begin,@function
switch_port.machine.SwitchPort.begin:
	addi	sp, sp, -64
	sd	ra, 56(sp)
	sd	s0, 48(sp)
	sd	s1, 40(sp)
	sd	s2, 32(sp)
	mv	s1, a1
	lbu	a1, 20(a1)
	li	a3, 2
	mv	s0, a0
	beq	a1, a3, .LBB9310b_5
	li	a0, 1
	bne	a1, a0, .LBB9310b_8
	ld	a3, 1504(a2)
	beqz	a3, .LBB9310b_4
	mv	a0, a2
	li	a1, 0
	mv	s2, a2
	mv	a2, a3
	call	memset
	mv	a2, s2
.LBB9310b_4:
	li	a1, 4
	li	a3, 3
	li	a0, 1
	sb	a3, 0(a2)
	sb	zero, 1(a2)
	sb	zero, 2(a2)
	sb	a1, 3(a2)
	sd	a1, 1504(a2)
	sb	a1, 21(s1)
	sb	a0, 22(s1)
	j	.LBB9310b_9
.LBB9310b_5:
	ld	a3, 1504(a2)
	beqz	a3, .LBB9310b_7
	mv	a0, a2
	li	a1, 0
	mv	s2, a2
	mv	a2, a3
	call	memset
	mv	a2, s2
.LBB9310b_7:
	li	a0, 4
	sb	a0, 0(a2)
	sb	zero, 1(a2)
	sb	zero, 2(a2)
	sb	a0, 3(a2)
	sd	a0, 1504(a2)
	li	a0, 5
	sb	a0, 21(s1)
	sb	zero, 22(s1)
	li	a0, 1
	j	.LBB9310b_9
.LBB9310b_8:
	sb	zero, 22(s1)
	li	s2, 1
	addi	a1, s1, 24
	sb	s2, 1544(s1)
	sd	zero, 24(sp)
	addi	a0, sp, 8
	call	pass_through.machine.PassThrough.initialize
	lw	a0, 8(s1)
	lbu	a1, 26(sp)
	sb	s2, 21(s1)
	sw	a0, 1548(s1)
	andi	a0, a1, 1
.LBB9310b_9:
	sb	a0, 0(s0)
	sb	zero, 1(s0)
	sb	zero, 2(s0)
	ld	ra, 56(sp)
	ld	s0, 48(sp)
	ld	s1, 40(sp)
	ld	s2, 32(sp)
	addi	sp, sp, 64
	ret
.Lfunc_end9310b:
	.size	switch_port.machine.SwitchPort.begin, .Lfunc_end9310b-switch_port.machine.SwitchPort.begin

	.section	".text.tuvaddri_c::by_method::add_users::<#d37c63745cf5a212>","ax",@progbits
	.p2align	1
	.type	tuvaddri_c.by_method.add_users.__d37c63745cf5a212_,@function
tuvaddri_c.by_method.add_users.__d37c63745cf5a212_:
	addi	sp, sp, -1088
	sd	ra, 1080(sp)
	sd	s0, 1072(sp)
	sd	s1, 1064(sp)
	lbu	a2, 33(a1)
	lbu	a3, 34(a1)
	lbu	a4, 35(a1)
	lbu	a5, 32(a1)
	slli	a2, a2, 8
	slli	a3, a3, 16
	slli	a4, a4, 24
	or	a2, a2, a5
	or	a3, a3, a4
	lbu	a4, 37(a1)
	lbu	a5, 36(a1)
	lbu	s1, 38(a1)
	lbu	s0, 39(a1)
	slli	a4, a4, 8
	or	a4, a4, a5
	slli	s1, s1, 16
	slli	s0, s0, 24
	or	s0, s0, s1
	or	a2, a2, a3
	or	a4, a4, s0
	slli	a4, a4, 32
	or	a2, a2, a4
	beqz	a2, .LBBfae45_9
	lbu	a2, 48(a1)
	lbu	a3, 49(a1)
	lbu	a4, 50(a1)
	lbu	a5, 51(a1)
	lbu	a6, 52(a1)
	lbu	a7, 53(a1)
	lbu	s1, 54(a1)
	lbu	s0, 55(a1)
	slli	a3, a3, 8
	slli	a4, a4, 16
	slli	a5, a5, 24
	or	t0, a3, a2
	or	t1, a5, a4
	lbu	a3, 64(a1)
	lbu	a5, 65(a1)
	lbu	a2, 66(a1)
	lbu	a4, 67(a1)
	slli	a7, a7, 8
	slli	s1, s1, 16
	slli	s0, s0, 24
	slli	a5, a5, 8
	slli	a2, a2, 16
	slli	a4, a4, 24
	or	a6, a7, a6
	or	s0, s0, s1
	or	a7, a5, a3
	or	a2, a2, a4
	lbu	a4, 69(a1)
	lbu	a5, 68(a1)
	lbu	s1, 70(a1)
	lbu	a3, 71(a1)
	slli	a4, a4, 8
	or	a4, a4, a5
	slli	s1, s1, 16
	slli	a3, a3, 24
	or	a3, a3, s1
	or	a5, t1, t0
	or	s1, s0, a6
	or	a2, a2, a7
	or	a3, a3, a4
	slli	s1, s1, 32
	slli	a3, a3, 32
	or	a3, a3, a2
	or	a2, s1, a5
	beqz	a3, .LBBfae45_4
	addi	s0, a0, 1904
	beqz	a2, .LBBfae45_6
	addi	a0, sp, 8
	li	a2, 51
	mv	s1, a1
	call	end_objects.settings.user_of
	addi	a1, sp, 8
	mv	a0, s0
	call	login_setup.users.UserList.add.__2_
	addi	a0, sp, 8
	li	a2, 47
	mv	a1, s1
	call	end_objects.settings.user_of
	addi	a1, sp, 8
	j	.LBBfae45_7
.LBBfae45_4:
	beqz	a2, .LBBfae45_9
	mv	s0, a0
	addi	a0, sp, 712
	li	a2, 47
	call	end_objects.settings.user_of
	addi	a0, s0, 1904
	addi	a1, sp, 712
	j	.LBBfae45_8
.LBBfae45_6:
	addi	a0, sp, 360
	li	a2, 51
	call	end_objects.settings.user_of
	addi	a1, sp, 360
.LBBfae45_7:
	mv	a0, s0
.LBBfae45_8:
	call	login_setup.users.UserList.add.__2_
.LBBfae45_9:
	ld	ra, 1080(sp)
	ld	s0, 1072(sp)
	ld	s1, 1064(sp)
	addi	sp, sp, 1088
	ret
.Lfunc_endfae45:
	.size	tuvaddri_c.by_method.add_users.__d37c63745cf5a212_, .Lfunc_endfae45-tuvaddri_c.by_method.add_users.__d37c63745cf5a212_

	.section	".text.tuvaddri_c::users::put","ax",@progbits
	.p2align	1
	.type	tuvaddri_c.users.put,@function
tuvaddri_c.users.put:
	addi	sp, sp, -384
	sd	ra, 376(sp)
	sd	s0, 368(sp)
	sd	s1, 360(sp)
	sd	s2, 352(sp)
	mv	s1, a1
	mv	s2, a0
	li	a2, 712
	li	a1, 0
	call	memset
	lbu	a0, 33(s1)
	lbu	a1, 34(s1)
	lbu	a2, 35(s1)
	lbu	a3, 32(s1)
	slli	a0, a0, 8
	slli	a1, a1, 16
	slli	a2, a2, 24
	or	a0, a0, a3
	or	a1, a1, a2
	lbu	a2, 37(s1)
	lbu	a3, 36(s1)
	lbu	a4, 38(s1)
	lbu	a5, 39(s1)
	slli	a2, a2, 8
	or	a2, a2, a3
	slli	a4, a4, 16
	slli	a5, a5, 24
	or	a4, a4, a5
	or	a0, a0, a1
	or	a2, a2, a4
	slli	a2, a2, 32
	or	a0, a0, a2
	beqz	a0, .LBBb8a2d_8
	lbu	a0, 64(s1)
	lbu	a1, 65(s1)
	lbu	a2, 66(s1)
	lbu	a3, 67(s1)
	lbu	a6, 68(s1)
	lbu	a5, 69(s1)
	lbu	s0, 70(s1)
	lbu	a4, 71(s1)
	slli	a1, a1, 8
	slli	a2, a2, 16
	slli	a3, a3, 24
	or	a7, a1, a0
	or	t0, a3, a2
	lbu	a1, 48(s1)
	lbu	a3, 49(s1)
	lbu	a0, 50(s1)
	lbu	a2, 51(s1)
	slli	a5, a5, 8
	slli	s0, s0, 16
	slli	a4, a4, 24
	slli	a3, a3, 8
	slli	a0, a0, 16
	slli	a2, a2, 24
	or	a6, a5, a6
	or	a4, a4, s0
	or	a1, a1, a3
	or	a0, a0, a2
	lbu	a2, 53(s1)
	lbu	a3, 52(s1)
	lbu	s0, 54(s1)
	lbu	a5, 55(s1)
	slli	a2, a2, 8
	or	a2, a2, a3
	slli	s0, s0, 16
	slli	a5, a5, 24
	or	a5, a5, s0
	or	a3, t0, a7
	or	a4, a4, a6
	or	a0, a0, a1
	or	a2, a2, a5
	slli	a4, a4, 32
	or	a3, a3, a4
	slli	a2, a2, 32
	or	a0, a0, a2
	beqz	a3, .LBBb8a2d_4
	beqz	a0, .LBBb8a2d_6
	mv	a0, sp
	li	a2, 51
	mv	a1, s1
	call	end_objects.settings.user_of
	mv	a1, sp
	mv	a0, s2
	call	login_setup.users.UserList.add.__2_
	j	.LBBb8a2d_5
.LBBb8a2d_4:
	beqz	a0, .LBBb8a2d_8
.LBBb8a2d_5:
	mv	a0, sp
	li	a2, 47
	j	.LBBb8a2d_7
.LBBb8a2d_6:
	mv	a0, sp
	li	a2, 51
.LBBb8a2d_7:
	mv	a1, s1
	call	end_objects.settings.user_of
	mv	a1, sp
	mv	a0, s2
	call	login_setup.users.UserList.add.__2_
.LBBb8a2d_8:
	ld	ra, 376(sp)
	ld	s0, 368(sp)
	ld	s1, 360(sp)
	ld	s2, 352(sp)
	addi	sp, sp, 384
	ret
.Lfunc_endb8a2d:
	.size	tuvaddri_c.users.put, .Lfunc_endb8a2d-tuvaddri_c.users.put

	.section	".text.end_objects::refusals::user_refusal","ax",@progbits
	.p2align	1
	.type	end_objects.refusals.user_refusal,@function
end_objects.refusals.user_refusal:
	addi	sp, sp, -16
	sd	ra, 8(sp)
	sd	s0, 0(sp)
	mv	s0, a0
	ld	a1, 0(a0)
	li	a2, 80
	li	a0, 1
	bne	a1, a2, .LBBcc400_5
	lbu	a1, 33(s0)
	lbu	a2, 34(s0)
	lbu	a3, 35(s0)
	lbu	a4, 32(s0)
	slli	a1, a1, 8
	slli	a2, a2, 16
	slli	a3, a3, 24
	or	a6, a1, a4
	or	a2, a2, a3
	lbu	a3, 37(s0)
	lbu	a4, 36(s0)
	lbu	a5, 38(s0)
	lbu	a1, 39(s0)
	slli	a3, a3, 8
	or	a3, a3, a4
	slli	a5, a5, 16
	slli	a1, a1, 24
	or	a1, a1, a5
	or	a2, a2, a6
	or	a1, a1, a3
	slli	a1, a1, 32
	or	a1, a1, a2
	addi	a1, a1, -1
	li	a2, 252
	bltu	a2, a1, .LBBcc400_6
.Lpcrel_hi57:
	auipc	a0, %pcrel_hi(.Lstatic.0)
	addi	a0, a0, %pcrel_lo(.Lpcrel_hi57)
	li	a1, 0
	mv	a2, s0
	call	end_objects.refusals.has_keys
	beqz	a0, .LBBcc400_7
	lbu	a0, 65(s0)
	lbu	a1, 66(s0)
	lbu	a2, 67(s0)
	lbu	a3, 64(s0)
	slli	a0, a0, 8
	slli	a1, a1, 16
	slli	a2, a2, 24
	or	a0, a0, a3
	or	a1, a1, a2
	lbu	a2, 69(s0)
	lbu	a3, 68(s0)
	lbu	a4, 70(s0)
	lbu	a5, 71(s0)
	slli	a2, a2, 8
	or	a2, a2, a3
	slli	a4, a4, 16
	slli	a5, a5, 24
	or	a4, a4, a5
	or	a0, a0, a1
	or	a2, a2, a4
	slli	a2, a2, 32
	or	a0, a0, a2
	beqz	a0, .LBBcc400_8
	li	a1, 0
	li	a0, 0
	j	.LBBcc400_9
.LBBcc400_5:
	li	a1, 0
	j	.LBBcc400_9
.LBBcc400_6:
	li	a1, 4
	j	.LBBcc400_9
.LBBcc400_7:
	li	a1, 5
	li	a0, 1
	j	.LBBcc400_9
.LBBcc400_8:
	lbu	a0, 49(s0)
	lbu	a1, 50(s0)
	lbu	a2, 51(s0)
	lbu	a3, 48(s0)
	slli	a0, a0, 8
	slli	a1, a1, 16
	slli	a2, a2, 24
	or	a0, a0, a3
	or	a1, a1, a2
	lbu	a2, 53(s0)
	lbu	a3, 52(s0)
	lbu	a4, 54(s0)
	lbu	a5, 55(s0)
	slli	a2, a2, 8
	or	a2, a2, a3
	slli	a4, a4, 16
	slli	a5, a5, 24
	or	a4, a4, a5
	or	a0, a0, a1
	or	a2, a2, a4
	slli	a2, a2, 32
	or	a0, a0, a2
	seqz	a0, a0
	neg	a1, a0
	andi	a1, a1, 5
.LBBcc400_9:
	ld	ra, 8(sp)
	ld	s0, 0(sp)
	addi	sp, sp, 16
	ret
.Lfunc_endcc400:
	.size	end_objects.refusals.user_refusal, .Lfunc_endcc400-end_objects.refusals.user_refusal

	.section	".text.supplicant::machine::Supplicant::begin::<#807681be332d694b>","ax",@progbits
	.p2align	1
	.type	supplicant.machine.Supplicant.begin.__807681be332d694b_,@function
supplicant.machine.Supplicant.begin.__807681be332d694b_:
	addi	sp, sp, -32
	sd	ra, 24(sp)
	sd	s0, 16(sp)
	mv	s0, a0
	zext.b	a0, a2
	li	a2, 2
	sw	zero, 8(sp)
	sb	zero, 12(sp)
	beq	a0, a2, .LBB8c402_3
	li	a2, 1
	bne	a0, a2, .LBB8c402_4
	li	a0, 6
	sb	a0, 22(a1)
	sb	a2, 23(a1)
	j	.LBB8c402_5
.LBB8c402_3:
	li	a0, 7
	sb	a0, 22(a1)
	sb	zero, 23(a1)
.Lpcrel_hi58:
	auipc	a2, %pcrel_hi(.Lstatic.0)
	addi	a2, a2, %pcrel_lo(.Lpcrel_hi58)
	li	a1, 2
	mv	a0, a3
	li	a3, 0
	call	eapol_frame.frame.write_frame
	li	a0, 1
	sw	a0, 8(sp)
	sb	zero, 12(sp)
	j	.LBB8c402_5
.LBB8c402_4:
	sb	zero, 23(a1)
	sw	zero, 24(a1)
	addi	a0, sp, 8
	mv	a2, a3
	call	supplicant.machine.Supplicant.connect.__807681be332d694b_
.LBB8c402_5:
	lbu	a0, 12(sp)
	sb	a0, 4(s0)
	lbu	a0, 8(sp)
	lbu	a1, 9(sp)
	lbu	a2, 10(sp)
	lbu	a3, 11(sp)
	sb	a0, 0(s0)
	sb	a1, 1(s0)
	sb	a2, 2(s0)
	sb	a3, 3(s0)
	ld	ra, 24(sp)
	ld	s0, 16(sp)
	addi	sp, sp, 32
	ret
.Lfunc_end8c402:
	.size	supplicant.machine.Supplicant.begin.__807681be332d694b_, .Lfunc_end8c402-supplicant.machine.Supplicant.begin.__807681be332d694b_

	.section	".text.supplicant::machine::Supplicant::connect::<#807681be332d694b>","ax",@progbits
	.p2align	1
	.type	supplicant.machine.Supplicant.connect.__807681be332d694b_,@function
supplicant.machine.Supplicant.connect.__807681be332d694b_:
	addi	sp, sp, -32
	sd	ra, 24(sp)
	sd	s0, 16(sp)
	sd	s1, 8(sp)
	mv	a3, a2
	lw	a4, 4(a1)
	lw	a2, 24(a1)
	mv	s0, a0
	bgeu	a2, a4, .LBB42a53_2
	addi	a2, a2, 1
	sw	a2, 24(a1)
.LBB42a53_2:
	lw	a0, 0(a1)
	li	a2, 2
	sb	a2, 22(a1)
	sw	a0, 28(a1)
.Lpcrel_hi59:
	auipc	a2, %pcrel_hi(.Lstatic.0)
	addi	a2, a2, %pcrel_lo(.Lpcrel_hi59)
	li	a1, 1
	li	s1, 1
	mv	a0, a3
	li	a3, 0
	call	eapol_frame.frame.write_frame
	sb	zero, 4(s0)
	sb	s1, 0(s0)
	sb	zero, 1(s0)
	sb	zero, 2(s0)
	sb	zero, 3(s0)
	ld	ra, 24(sp)
	ld	s0, 16(sp)
	ld	s1, 8(sp)
	addi	sp, sp, 32
	ret
.Lfunc_end42a53:
	.size	supplicant.machine.Supplicant.connect.__807681be332d694b_, .Lfunc_end42a53-supplicant.machine.Supplicant.connect.__807681be332d694b_

	.section	".text.tuvaddri_c::supplicant_turn::TuvSupplicantTurn::of","ax",@progbits
	.p2align	1
	.type	tuvaddri_c.supplicant_turn.TuvSupplicantTurn.of,@function
tuvaddri_c.supplicant_turn.TuvSupplicantTurn.of:
	addi	sp, sp, -48
	sd	ra, 40(sp)
	sd	s0, 32(sp)
	sd	s1, 24(sp)
	sd	s2, 16(sp)
	sd	s3, 8(sp)
	mv	s1, a4
	mv	s2, a3
	mv	s0, a1
	mv	s3, a0
	lbu	a0, 0(a1)
	sb	a0, 0(a6)
	beqz	a0, .LBB60763_2
	ld	a3, 1504(a2)
	mv	a0, a5
	mv	a1, a2
	mv	a2, a3
	call	octet_lists.octets.Octets.set.__1504_
.LBB60763_2:
	lbu	a0, 2(s0)
	zext.b	a3, s1
	beqz	a0, .LBB60763_5
	lbu	a1, 3(s0)
	lbu	a5, 4(s0)
.Lpcrel_hi61:
	auipc	a2, %pcrel_hi(.LJTI60763_0)
	slli	a1, a1, 2
	addi	a4, a2, %pcrel_lo(.Lpcrel_hi61)
	add	a1, a1, a4
	lw	s1, 0(a1)
	lbu	a2, 0(s0)
	lbu	a1, 1(s0)
	add	a4, a4, s1
	jr	a4
.LBB60763_4:
	slli	a3, a3, 2
.Lpcrel_hi62:
	auipc	a4, %pcrel_hi(.LJTI60763_1)
	addi	a4, a4, %pcrel_lo(.Lpcrel_hi62)
	add	a3, a3, a4
	lw	a3, 0(a3)
	seqz	a5, a5
	xori	a5, a5, 65
	add	s1, a4, a3
	li	a4, 1
	mv	a3, a5
	jr	s1
.LBB60763_5:
	slli	a1, a3, 2
.Lpcrel_hi60:
	auipc	a2, %pcrel_hi(.LJTI60763_2)
	addi	a4, a2, %pcrel_lo(.Lpcrel_hi60)
	add	a1, a1, a4
	lw	a5, 0(a1)
	lbu	a2, 0(s0)
	lbu	a1, 1(s0)
	add	a5, a5, a4
	li	a4, 1
	jr	a5
.LBB60763_6:
	li	a3, 0
	li	a4, 2
	j	.LBB60763_19
.LBB60763_7:
	slli	a3, a3, 2
.Lpcrel_hi65:
	auipc	a4, %pcrel_hi(.LJTI60763_1)
	addi	a4, a4, %pcrel_lo(.Lpcrel_hi65)
	add	a3, a3, a4
	lw	a3, 0(a3)
	add	s1, a4, a3
	li	a4, 1
	mv	a3, a5
	jr	s1
.LBB60763_8:
	slli	a3, a3, 2
.Lpcrel_hi63:
	auipc	a4, %pcrel_hi(.LJTI60763_1)
	addi	s1, a4, %pcrel_lo(.Lpcrel_hi63)
	add	a3, a3, s1
	lw	a3, 0(a3)
	li	a5, 67
	li	a4, 1
	add	s1, s1, a3
	li	a3, 67
	jr	s1
.LBB60763_9:
	slli	a3, a3, 2
.Lpcrel_hi64:
	auipc	a4, %pcrel_hi(.LJTI60763_1)
	addi	s1, a4, %pcrel_lo(.Lpcrel_hi64)
	add	a3, a3, s1
	lw	a3, 0(a3)
	li	a5, 68
	li	a4, 1
	add	s1, s1, a3
	li	a3, 68
	jr	s1
.LBB60763_10:
	slli	a3, a3, 2
.Lpcrel_hi66:
	auipc	a4, %pcrel_hi(.LJTI60763_1)
	addi	s1, a4, %pcrel_lo(.Lpcrel_hi66)
	add	a3, a3, s1
	lw	a3, 0(a3)
	li	a5, 66
	li	a4, 1
	add	s1, s1, a3
	li	a3, 66
	jr	s1
.LBB60763_11:
	li	a4, 2
	j	.LBB60763_18
.LBB60763_12:
	li	a4, 5
	j	.LBB60763_18
.LBB60763_13:
	li	a4, 3
	j	.LBB60763_18
.LBB60763_14:
	li	a4, 4
	j	.LBB60763_18
.LBB60763_15:
	li	a4, 10
	j	.LBB60763_18
.LBB60763_16:
	li	a4, 7
	j	.LBB60763_18
.LBB60763_17:
	li	a4, 9
.LBB60763_18:
	mv	a3, a5
.LBB60763_19:
	sb	a2, 0(s3)
	sb	a0, 1(s3)
	sb	zero, 2(s3)
	sb	a1, 3(s3)
	sb	s2, 4(s3)
	sb	a3, 5(s3)
	sb	a4, 6(s3)
	ld	ra, 40(sp)
	ld	s0, 32(sp)
	ld	s1, 24(sp)
	ld	s2, 16(sp)
	ld	s3, 8(sp)
	addi	sp, sp, 48
	ret
.LBB60763_20:
	li	a3, 0
	li	a4, 5
	j	.LBB60763_19
.LBB60763_21:
	li	a3, 0
	li	a4, 3
	j	.LBB60763_19
.LBB60763_22:
	li	a3, 0
	li	a4, 4
	j	.LBB60763_19
.LBB60763_23:
	li	a3, 0
	li	a4, 10
	j	.LBB60763_19
.LBB60763_24:
	li	a3, 0
	li	a4, 7
	j	.LBB60763_19
.LBB60763_25:
	li	a3, 0
	li	a4, 9
	j	.LBB60763_19
.Lfunc_end60763:
	.size	tuvaddri_c.supplicant_turn.TuvSupplicantTurn.of, .Lfunc_end60763-tuvaddri_c.supplicant_turn.TuvSupplicantTurn.of
	.section	".rodata.tuvaddri_c::supplicant_turn::TuvSupplicantTurn::of","a",@progbits
	.p2align	2, 0x0
.LJTI60763_0:
	.word	.LBB60763_4-.LJTI60763_0
	.word	.LBB60763_10-.LJTI60763_0
	.word	.LBB60763_8-.LJTI60763_0
	.word	.LBB60763_9-.LJTI60763_0
	.word	.LBB60763_7-.LJTI60763_0
.LJTI60763_1:
	.word	.LBB60763_19-.LJTI60763_1
	.word	.LBB60763_11-.LJTI60763_1
	.word	.LBB60763_13-.LJTI60763_1
	.word	.LBB60763_14-.LJTI60763_1
	.word	.LBB60763_12-.LJTI60763_1
	.word	.LBB60763_16-.LJTI60763_1
	.word	.LBB60763_17-.LJTI60763_1
	.word	.LBB60763_15-.LJTI60763_1
.LJTI60763_2:
	.word	.LBB60763_19-.LJTI60763_2
	.word	.LBB60763_6-.LJTI60763_2
	.word	.LBB60763_21-.LJTI60763_2
	.word	.LBB60763_22-.LJTI60763_2
	.word	.LBB60763_20-.LJTI60763_2
	.word	.LBB60763_24-.LJTI60763_2
	.word	.LBB60763_25-.LJTI60763_2
	.word	.LBB60763_23-.LJTI60763_2

	.section	".text.supplicant::machine::Supplicant::deliver::<#807681be332d694b>","ax",@progbits
	.p2align	1
	.type	supplicant.machine.Supplicant.deliver.__807681be332d694b_,@function
supplicant.machine.Supplicant.deliver.__807681be332d694b_:
	addi	sp, sp, -496
	sd	ra, 488(sp)
	sd	s0, 480(sp)
	sd	s1, 472(sp)
	sd	s2, 464(sp)
	sd	s3, 456(sp)
	sd	s4, 448(sp)
	sd	s5, 440(sp)
	addi	sp, sp, -1776
	mv	s3, a5
	mv	s2, a4
	mv	s5, a3
	mv	s1, a2
	mv	s4, a1
	mv	s0, a0
	addi	a0, sp, 24
	li	a2, 1512
	li	a1, 0
	call	memset
	addi	a1, s4, 32
	lbu	a0, 792(s4)
	sd	zero, 1536(sp)
	sd	zero, 1544(sp)
	sd	zero, 1552(sp)
	sd	zero, 8(sp)
	sd	zero, 16(sp)
	beqz	a0, .LBBfe4c2_2
	addi	a0, sp, 1536
	addi	a4, sp, 24
	addi	a5, sp, 8
	mv	a2, s1
	mv	a3, s5
	call	peer_machine.machine.PeerMachine.read.__f75f5811e3b75c76_
	j	.LBBfe4c2_3
.LBBfe4c2_2:
	addi	a0, sp, 1536
	addi	a4, sp, 24
	addi	a5, sp, 8
	mv	a2, s1
	mv	a3, s5
	call	peer_machine.machine.PeerMachine.receive_octets.__f75f5811e3b75c76_
.LBBfe4c2_3:
	lbu	a1, 1552(sp)
	li	a0, 1
	bne	a1, a0, .LBBfe4c2_5
	lbu	a1, 1553(sp)
	li	a2, 4
	sb	zero, 0(s0)
	sb	s2, 1(s0)
	sb	a0, 2(s0)
	sb	a2, 3(s0)
	sb	a1, 4(s0)
	j	.LBBfe4c2_11
.LBBfe4c2_5:
	lbu	s1, 1554(sp)
	andi	a0, s1, 1
	beqz	a0, .LBBfe4c2_7
	ld	a3, 1528(sp)
	addi	a2, sp, 24
	mv	a0, s3
	li	a1, 0
	call	eapol_frame.frame.write_frame
	j	.LBBfe4c2_8
.LBBfe4c2_7:
	lbu	a1, 800(s4)
	addi	a0, s4, 2047
	lui	a2, 512
	addi	a2, a2, -129
	slli	a2, a2, 12
	addi	a2, a2, 1023
	srl	a2, a2, a1
	andi	a2, a2, 1
	beqz	a2, .LBBfe4c2_12
.LBBfe4c2_8:
	lw	a0, 8(s4)
.LBBfe4c2_9:
	sw	a0, 28(s4)
.LBBfe4c2_10:
	sb	s1, 0(s0)
	sb	s2, 1(s0)
	sb	zero, 2(s0)
	sb	zero, 3(s0)
	sb	zero, 4(s0)
.LBBfe4c2_11:
	addi	sp, sp, 1776
	ld	ra, 488(sp)
	ld	s0, 480(sp)
	ld	s1, 472(sp)
	ld	s2, 464(sp)
	ld	s3, 456(sp)
	ld	s4, 448(sp)
	ld	s5, 440(sp)
	addi	sp, sp, 496
	ret
.LBBfe4c2_12:
	lui	a2, 129
	addi	a2, a2, -2048
	srl	a1, a2, a1
	andi	a1, a1, 1
	beqz	a1, .LBBfe4c2_14
.LBBfe4c2_13:
	lw	a0, 12(s4)
	li	a1, 5
	sb	a1, 22(s4)
	sb	zero, 23(s4)
	j	.LBBfe4c2_9
.LBBfe4c2_14:
	lbu	a1, 801(s4)
	li	a2, 1
	bne	a1, a2, .LBBfe4c2_13
	ld	a1, 273(a0)
	ld	a2, 281(a0)
	lbu	a0, 802(s4)
	addi	a1, a1, -1248
	addi	a2, a2, 1
	j	.LBBfe4c2_17
.LBBfe4c2_16:
	li	a3, 51
	beq	a0, a3, .LBBfe4c2_20
.LBBfe4c2_17:
	addi	a2, a2, -1
	beqz	a2, .LBBfe4c2_13
	addi	a1, a1, 1248
	lbu	a3, 0(a1)
	bnez	a3, .LBBfe4c2_16
	li	a3, 47
	bne	a0, a3, .LBBfe4c2_17
.LBBfe4c2_20:
	addi	a0, sp, 1536
	call	end_objects.objects.PeerObjectPeerMethod.report
	lbu	a1, 1536(sp)
	li	a0, 1
	bne	a1, a0, .LBBfe4c2_13
	li	a1, 4
	sb	a1, 22(s4)
	sb	a0, 23(s4)
	j	.LBBfe4c2_10
.Lfunc_endfe4c2:
	.size	supplicant.machine.Supplicant.deliver.__807681be332d694b_, .Lfunc_endfe4c2-supplicant.machine.Supplicant.deliver.__807681be332d694b_

	.section	".text.peer_machine::machine::PeerMachine::read::<#f75f5811e3b75c76>","ax",@progbits
	.p2align	1
	.type	peer_machine.machine.PeerMachine.read.__f75f5811e3b75c76_,@function
peer_machine.machine.PeerMachine.read.__f75f5811e3b75c76_:
	addi	sp, sp, -224
	sd	ra, 216(sp)
	sd	s0, 208(sp)
	sd	s1, 200(sp)
	sd	s2, 192(sp)
	sd	s3, 184(sp)
	sd	s4, 176(sp)
	sd	s5, 168(sp)
	sd	s6, 160(sp)
	mv	s3, a5
	mv	s2, a4
	mv	s5, a3
	mv	s1, a2
	mv	s4, a1
	mv	s6, a0
	sd	zero, 56(sp)
	sd	zero, 64(sp)
	sd	zero, 24(sp)
	sd	zero, 32(sp)
	sd	zero, 40(sp)
	sd	zero, 48(sp)
	sd	zero, 0(sp)
	sd	zero, 8(sp)
	sd	zero, 16(sp)
	addi	a0, sp, 24
	mv	a1, a2
	mv	a2, a3
	call	eap_packet.packet.decode
	lbu	a0, 32(sp)
	lbu	a1, 24(sp)
	zext.b	a0, a0
	or	a0, a0, a1
	bnez	a0, .LBB33c37_4
	lbu	a0, 768(s4)
	addi	a1, sp, 33
	lui	a2, 512
	addi	a2, a2, -129
	slli	a2, a2, 12
	addi	a2, a2, 1023
	srl	a0, a2, a0
	andi	a0, a0, 1
	beqz	a0, .LBB33c37_4
	sb	zero, 72(sp)
	addi	a0, sp, 73
	li	a2, 39
	call	memcpy
	sd	zero, 112(sp)
	sd	zero, 120(sp)
	sd	zero, 128(sp)
	addi	a0, sp, 72
	call	eap_packet.expanded.is_bad_expanded
	beqz	a0, .LBB33c37_5
	li	s3, 0
	li	s0, 8
	li	s1, 1
	li	a0, 3
	lui	a1, 17
	addi	a1, a1, -1790
	j	.LBB33c37_14
.LBB33c37_4:
	mv	a0, sp
	mv	a1, s4
	mv	a2, s1
	mv	a3, s5
	mv	a4, s2
	mv	a5, s3
	call	peer_machine.machine.PeerMachine.receive_octets.__f75f5811e3b75c76_
	lbu	s1, 16(sp)
	lbu	s0, 17(sp)
	lbu	s3, 18(sp)
	j	.LBB33c37_15
.LBB33c37_5:
	lbu	a0, 74(sp)
	li	a1, 254
	bne	a0, a1, .LBB33c37_12
	li	s0, 0
	lbu	a0, 773(s4)
	li	a1, 1
	sd	zero, 152(sp)
	bne	a0, a1, .LBB33c37_8
	lbu	a0, 73(sp)
	lbu	a1, 774(s4)
	xor	a0, a0, a1
	seqz	s0, a0
.LBB33c37_8:
	addi	a0, sp, 136
	addi	a2, sp, 72
	mv	a1, s4
	mv	a3, s1
	mv	a4, s5
	mv	a5, s2
	mv	a6, s3
	call	peer_machine.machine.PeerMachine.receive_plain.__f75f5811e3b75c76_
	lbu	s3, 154(sp)
	bnez	s0, .LBB33c37_11
	beqz	s3, .LBB33c37_11
	mv	a0, s4
	mv	a1, s2
	call	peer_machine.machine.express
.LBB33c37_11:
	ld	a0, 136(sp)
	ld	a1, 144(sp)
	lbu	s1, 152(sp)
	lbu	s0, 153(sp)
	sd	a0, 112(sp)
	sd	a1, 120(sp)
	j	.LBB33c37_13
.LBB33c37_12:
	addi	a0, sp, 112
	mv	a1, s4
	mv	a2, s1
	mv	a3, s5
	mv	a4, s2
	mv	a5, s3
	call	peer_machine.machine.PeerMachine.receive_octets.__f75f5811e3b75c76_
	lbu	s1, 128(sp)
	lbu	s0, 129(sp)
	lbu	s3, 130(sp)
.LBB33c37_13:
	ld	a1, 112(sp)
	ld	a0, 120(sp)
.LBB33c37_14:
	sd	a1, 0(sp)
	sd	a0, 8(sp)
.LBB33c37_15:
	mv	a1, sp
	li	a2, 16
	mv	a0, s6
	call	memcpy
	sb	s1, 16(s6)
	sb	s0, 17(s6)
	sb	s3, 18(s6)
	ld	ra, 216(sp)
	ld	s0, 208(sp)
	ld	s1, 200(sp)
	ld	s2, 192(sp)
	ld	s3, 184(sp)
	ld	s4, 176(sp)
	ld	s5, 168(sp)
	ld	s6, 160(sp)
	addi	sp, sp, 224
	ret
.Lfunc_end33c37:
	.size	peer_machine.machine.PeerMachine.read.__f75f5811e3b75c76_, .Lfunc_end33c37-peer_machine.machine.PeerMachine.read.__f75f5811e3b75c76_

	.section	".text.peer_machine::machine::PeerMachine::receive_plain::<#f75f5811e3b75c76>","ax",@progbits
	.p2align	1
	.type	peer_machine.machine.PeerMachine.receive_plain.__f75f5811e3b75c76_,@function
peer_machine.machine.PeerMachine.receive_plain.__f75f5811e3b75c76_:
	addi	sp, sp, -1616
	sd	ra, 1608(sp)
	sd	s0, 1600(sp)
	sd	s1, 1592(sp)
	sd	s2, 1584(sp)
	sd	s3, 1576(sp)
	sd	s4, 1568(sp)
	sd	s5, 1560(sp)
	sd	s6, 1552(sp)
	mv	s2, a6
	mv	s3, a5
	mv	s4, a4
	mv	s5, a3
	mv	s1, a2
	mv	s6, a1
	mv	s0, a0
	sd	zero, 16(sp)
	sd	zero, 24(sp)
	sd	zero, 32(sp)
	addi	a0, sp, 40
	li	a2, 1512
	li	a1, 0
	call	memset
	addi	a1, sp, 40
	mv	a0, s1
	call	eap_packet.expanded.write_plain
	beqz	a0, .LBBa670f_2
	ld	a3, 1544(sp)
	addi	a0, sp, 16
	addi	a2, sp, 40
	mv	a1, s6
	j	.LBBa670f_3
.LBBa670f_2:
	addi	a0, sp, 16
	mv	a1, s6
	mv	a2, s5
	mv	a3, s4
.LBBa670f_3:
	mv	a4, s3
	mv	a5, s2
	call	peer_machine.machine.PeerMachine.receive_octets.__f75f5811e3b75c76_
	lbu	s1, 32(sp)
	lbu	s2, 33(sp)
	lbu	s3, 34(sp)
	addi	a1, sp, 16
	li	a2, 16
	mv	a0, s0
	call	memcpy
	sb	s1, 16(s0)
	sb	s2, 17(s0)
	sb	s3, 18(s0)
	ld	ra, 1608(sp)
	ld	s0, 1600(sp)
	ld	s1, 1592(sp)
	ld	s2, 1584(sp)
	ld	s3, 1576(sp)
	ld	s4, 1568(sp)
	ld	s5, 1560(sp)
	ld	s6, 1552(sp)
	addi	sp, sp, 1616
	ret
.Lfunc_enda670f:
	.size	peer_machine.machine.PeerMachine.receive_plain.__f75f5811e3b75c76_, .Lfunc_enda670f-peer_machine.machine.PeerMachine.receive_plain.__f75f5811e3b75c76_

	.section	".text.peer_machine::machine::PeerMachine::receive_octets::<#f75f5811e3b75c76>","ax",@progbits
	.p2align	1
	.type	peer_machine.machine.PeerMachine.receive_octets.__f75f5811e3b75c76_,@function
peer_machine.machine.PeerMachine.receive_octets.__f75f5811e3b75c76_:
	addi	sp, sp, -240
	sd	ra, 232(sp)
	sd	s0, 224(sp)
	sd	s1, 216(sp)
	sd	s2, 208(sp)
	sd	s3, 200(sp)
	sd	s4, 192(sp)
	sd	s5, 184(sp)
	sd	s6, 176(sp)
	sd	s7, 168(sp)
	mv	s7, a0
	sd	zero, 40(sp)
	sd	zero, 48(sp)
	lbu	a0, 768(a1)
	sd	zero, 8(sp)
	sd	zero, 16(sp)
	sd	zero, 24(sp)
	sd	zero, 32(sp)
	mv	s6, a1
	lui	a1, 512
	addi	a1, a1, -129
	slli	a1, a1, 12
	addi	a1, a1, 1023
	srl	a0, a1, a0
	andi	a0, a0, 1
	beqz	a0, .LBBab316_22
	mv	s4, a5
	mv	s2, a4
	addi	a0, sp, 8
	mv	a1, a2
	mv	a2, a3
	call	eap_packet.packet.decode
	lbu	a1, 8(sp)
	li	a7, 1
	bne	a1, a7, .LBBab316_7
	li	a6, 0
	lbu	t2, 9(sp)
	li	t0, 3
.LBBab316_3:
	lui	a4, 17
.LBBab316_4:
	addi	t1, a4, -1790
.LBBab316_5:
	srli	t3, t1, 56
	srli	a4, t1, 48
	srli	s1, t1, 40
	srli	a0, t1, 32
	srli	t4, t1, 24
	srli	s0, t1, 16
	srli	a2, t1, 8
	srli	t5, t0, 56
	srli	a5, t0, 48
	srli	a1, t0, 40
	srli	a3, t0, 32
	sb	a0, 4(s7)
	sb	s1, 5(s7)
	sb	a4, 6(s7)
	sb	t3, 7(s7)
	srli	a0, t0, 24
	sb	t1, 0(s7)
	sb	a2, 1(s7)
	sb	s0, 2(s7)
	sb	t4, 3(s7)
	srli	a2, t0, 16
	sb	a3, 12(s7)
	sb	a1, 13(s7)
	sb	a5, 14(s7)
	sb	t5, 15(s7)
	srli	a1, t0, 8
	sb	t0, 8(s7)
	sb	a1, 9(s7)
	sb	a2, 10(s7)
	sb	a0, 11(s7)
	sb	a7, 16(s7)
	sb	t2, 17(s7)
	sb	a6, 18(s7)
.LBBab316_6:
	ld	ra, 232(sp)
	ld	s0, 224(sp)
	ld	s1, 216(sp)
	ld	s2, 208(sp)
	ld	s3, 200(sp)
	ld	s4, 192(sp)
	ld	s5, 184(sp)
	ld	s6, 176(sp)
	ld	s7, 168(sp)
	addi	sp, sp, 240
	ret
.LBBab316_7:
	lbu	a1, 773(s6)
	lbu	a5, 16(sp)
	lbu	s3, 17(sp)
	bne	a1, a7, .LBBab316_9
	lbu	a0, 774(s6)
	xor	a0, a0, s3
	seqz	a1, a0
	j	.LBBab316_10
.LBBab316_9:
	li	a1, 0
.LBBab316_10:
	li	a0, 1
	li	t0, 3
	blt	a0, a5, .LBBab316_14
	bnez	a5, .LBBab316_18
	beqz	a1, .LBBab316_23
	addi	a0, s6, 2047
	ld	a2, 233(a0)
	addi	a1, s6, 776
	mv	a0, s2
	call	octet_lists.octets.Octets.set.__1500_
	li	a7, 0
	li	t2, 0
	li	a6, 1
	li	t0, 4
	lui	a4, 4224
	addi	t1, a4, 1794
	j	.LBBab316_5
.LBBab316_14:
	li	a7, 1
	li	a0, 2
	bne	a5, a0, .LBBab316_19
	beqz	a1, .LBBab316_26
	lbu	a1, 772(s6)
	beqz	a1, .LBBab316_30
	li	a7, 0
	li	t2, 0
	li	a6, 0
	li	a2, 10
	sb	a2, 768(s6)
	li	t0, 2
	lui	a4, 1
	addi	t1, a4, -1534
	j	.LBBab316_5
.LBBab316_18:
	li	a6, 0
	li	t2, 7
	lui	a4, 17
	addi	t1, a4, -1790
	mv	a7, a5
	j	.LBBab316_5
.LBBab316_19:
	lui	a4, 17
	addi	t1, a4, -1790
	beqz	a1, .LBBab316_27
	lbu	a3, 772(s6)
	li	a1, 2
	bne	a3, a1, .LBBab316_28
	li	a6, 0
	li	t2, 14
	j	.LBBab316_5
.LBBab316_22:
	li	a2, 16
	mv	a0, s7
	li	a1, 0
	call	memset
	li	a0, 1
	li	a1, 18
	sb	a0, 16(s7)
	sb	a1, 17(s7)
	sb	zero, 18(s7)
	j	.LBBab316_6
.LBBab316_23:
	lbu	a0, 769(s6)
	lbu	a3, 18(sp)
	ld	a5, 40(sp)
	ld	a6, 48(sp)
	sd	zero, 72(sp)
	beqz	a0, .LBBab316_32
	li	a7, 1
	li	t0, 3
	lui	a4, 17
	li	a1, 2
	addi	t1, a4, -1790
	bne	a3, a1, .LBBab316_35
	li	a6, 0
	li	t2, 9
	j	.LBBab316_5
.LBBab316_26:
	li	a6, 0
	li	t2, 12
	j	.LBBab316_3
.LBBab316_27:
	li	a6, 0
	li	t2, 12
	j	.LBBab316_5
.LBBab316_28:
	lbu	a3, 771(s6)
	bne	a3, a1, .LBBab316_38
	li	a6, 0
	li	t2, 15
	j	.LBBab316_4
.LBBab316_30:
	lbu	a1, 771(s6)
	li	a3, 2
	bne	a1, a3, .LBBab316_39
	li	a6, 0
	li	t2, 13
	j	.LBBab316_3
.LBBab316_32:
	sd	zero, 128(sp)
	sd	zero, 136(sp)
	sd	zero, 144(sp)
	sd	zero, 104(sp)
	sd	zero, 112(sp)
	sd	zero, 120(sp)
	li	a0, 2
	sd	zero, 80(sp)
	sd	zero, 88(sp)
	sd	zero, 96(sp)
	beq	a3, a0, .LBBab316_41
	li	a0, 1
	bne	a3, a0, .LBBab316_42
	ld	a5, 256(s6)
	li	a1, 1
	li	a3, 1
	mv	a0, s2
	mv	a2, s3
	mv	a4, s6
	call	eap_packet.packet.encode_into
	addi	a0, sp, 128
	li	a2, 5
	mv	a1, s6
	mv	a3, s3
	mv	a4, s2
	call	peer_machine.machine.respond
	lbu	a7, 144(sp)
	lbu	t2, 145(sp)
	lbu	a6, 146(sp)
	j	.LBBab316_54
.LBBab316_35:
	lbu	a1, 770(s6)
	bne	a3, a1, .LBBab316_40
	lbu	a1, 771(s6)
	li	a4, 4
	bne	a1, a4, .LBBab316_46
	li	a6, 0
	li	t2, 10
	j	.LBBab316_3
.LBBab316_38:
	li	a7, 0
	li	t2, 0
	li	a6, 0
	li	a2, 11
	sb	a2, 768(s6)
	li	t0, 2
	lui	a4, 1
	addi	t1, a4, -1278
	j	.LBBab316_5
.LBBab316_39:
	li	a7, 0
	li	t2, 0
	li	a6, 0
	li	a2, 11
	sb	a2, 768(s6)
	lui	a4, 1
	addi	t1, a4, -1278
	li	t0, 2
	j	.LBBab316_5
.LBBab316_40:
	li	a6, 0
	li	t2, 11
	j	.LBBab316_5
.LBBab316_41:
.Lpcrel_hi67:
	auipc	a0, %pcrel_hi(.Lstatic.0)
	li	a1, 1
	addi	a4, a0, %pcrel_lo(.Lpcrel_hi67)
	li	a3, 2
	mv	a0, s2
	mv	a2, s3
	li	a5, 0
	call	eap_packet.packet.encode_into
	addi	a0, sp, 104
	li	a2, 6
	mv	a1, s6
	mv	a3, s3
	mv	a4, s2
	call	peer_machine.machine.respond
	lbu	a7, 120(sp)
	lbu	t2, 121(sp)
	lbu	a6, 122(sp)
	j	.LBBab316_53
.LBBab316_42:
	ld	s5, 544(s6)
	addi	a1, s6, 536
	mv	a2, a1
	mv	a0, s5
.LBBab316_43:
	beqz	a0, .LBBab316_47
	lbu	a4, 0(a2)
	addi	a2, a2, 1
	addi	a0, a0, -1
	bne	a4, a3, .LBBab316_43
	addi	a0, sp, 80
	li	a2, 1
	mv	a1, s6
	mv	a4, s3
	mv	a7, s2
	mv	t3, s4
	call	peer_machine.machine.PeerMachine.method.__f75f5811e3b75c76_
	j	.LBBab316_52
.LBBab316_46:
	addi	a0, sp, 56
	mv	a1, s6
	li	a2, 0
	mv	a4, s3
	mv	a7, s2
	mv	t3, s4
	call	peer_machine.machine.PeerMachine.method.__f75f5811e3b75c76_
	ld	t1, 56(sp)
	ld	t0, 64(sp)
	lbu	a7, 72(sp)
	lbu	t2, 73(sp)
	lbu	a6, 74(sp)
	j	.LBBab316_5
.LBBab316_47:
	beqz	s5, .LBBab316_50
	li	a5, 0
	li	a0, 0
	li	a2, 2
	sd	zero, 152(sp)
	sd	zero, 160(sp)
	bltu	a2, s5, .LBBab316_51
	addi	a0, sp, 152
	mv	a2, s5
	call	memcpy
	ld	a0, 152(sp)
	mv	a5, s5
	j	.LBBab316_51
.LBBab316_50:
	li	a0, 0
	li	a5, 1
.LBBab316_51:
	sd	a0, 152(sp)
	sd	a5, 160(sp)
	li	a1, 1
	li	a3, 3
	addi	a4, sp, 152
	mv	a0, s2
	mv	a2, s3
	call	eap_packet.packet.encode_into
	addi	a0, sp, 80
	li	a2, 3
	mv	a1, s6
	mv	a3, s3
	mv	a4, s2
	call	peer_machine.machine.respond
.LBBab316_52:
	ld	a2, 80(sp)
	ld	a4, 88(sp)
	lbu	a7, 96(sp)
	lbu	t2, 97(sp)
	lbu	a6, 98(sp)
	sd	a2, 104(sp)
	sd	a4, 112(sp)
.LBBab316_53:
	ld	a2, 104(sp)
	ld	a4, 112(sp)
	sd	a2, 128(sp)
	sd	a4, 136(sp)
.LBBab316_54:
	ld	t1, 128(sp)
	ld	t0, 136(sp)
	j	.LBBab316_5
.Lfunc_endab316:
	.size	peer_machine.machine.PeerMachine.receive_octets.__f75f5811e3b75c76_, .Lfunc_endab316-peer_machine.machine.PeerMachine.receive_octets.__f75f5811e3b75c76_

	.section	".text.peer_machine::machine::PeerMachine::method::<#f75f5811e3b75c76>","ax",@progbits
	.p2align	1
	.type	peer_machine.machine.PeerMachine.method.__f75f5811e3b75c76_,@function
peer_machine.machine.PeerMachine.method.__f75f5811e3b75c76_:
	addi	sp, sp, -96
	sd	ra, 88(sp)
	sd	s0, 80(sp)
	sd	s1, 72(sp)
	sd	s2, 64(sp)
	sd	s3, 56(sp)
	sd	s4, 48(sp)
	sd	s5, 40(sp)
	mv	s3, a7
	mv	s2, a4
	mv	s5, a3
	mv	s4, a2
	mv	s1, a1
	mv	s0, a0
	addi	a0, a1, 2047
	ld	a1, 241(a0)
	ld	a2, 249(a0)
	sd	zero, 24(sp)
	addi	a0, sp, 37
	mv	a4, a5
	mv	a5, a6
	mv	a6, a7
	mv	a7, t3
	call	eap_method.peer_objects.call_peer_method.__c8f2ed81ce9f52e6_
	lbu	a0, 37(sp)
	lbu	a1, 38(sp)
	lbu	a2, 39(sp)
	sb	a0, 5(sp)
	sb	a1, 6(sp)
	sb	a2, 7(sp)
	addi	a0, sp, 8
	addi	a5, sp, 5
	mv	a1, s1
	mv	a2, s4
	mv	a3, s5
	mv	a4, s2
	mv	a6, s3
	call	peer_machine.machine.settle
	addi	a1, sp, 8
	li	a2, 16
	mv	a0, s0
	call	memcpy
	lbu	a0, 24(sp)
	lbu	a1, 25(sp)
	lbu	a2, 26(sp)
	sb	a0, 16(s0)
	sb	a1, 17(s0)
	sb	a2, 18(s0)
	ld	ra, 88(sp)
	ld	s0, 80(sp)
	ld	s1, 72(sp)
	ld	s2, 64(sp)
	ld	s3, 56(sp)
	ld	s4, 48(sp)
	ld	s5, 40(sp)
	addi	sp, sp, 96
	ret
.Lfunc_endd227d:
	.size	peer_machine.machine.PeerMachine.method.__f75f5811e3b75c76_, .Lfunc_endd227d-peer_machine.machine.PeerMachine.method.__f75f5811e3b75c76_

	.section	".text.eap_method::peer_objects::call_peer_method::<#c8f2ed81ce9f52e6>","ax",@progbits
	.p2align	1
	.type	eap_method.peer_objects.call_peer_method.__c8f2ed81ce9f52e6_,@function
eap_method.peer_objects.call_peer_method.__c8f2ed81ce9f52e6_:
	addi	sp, sp, -32
	sd	ra, 24(sp)
	sd	s0, 16(sp)
	mv	s0, a0
	beqz	a2, .LBBd150f_4
	lbu	a0, 0(a1)
	beqz	a0, .LBBd150f_5
	li	t0, 51
	zext.b	a0, a3
	beq	t0, a0, .LBBd150f_6
.LBBd150f_3:
	addi	a2, a2, -1
	addi	a1, a1, 1248
	addi	a0, sp, 10
	call	eap_method.peer_objects.call_peer_method.__c8f2ed81ce9f52e6_
	lbu	a0, 10(sp)
	lbu	a2, 11(sp)
	lbu	a1, 12(sp)
	j	.LBBd150f_7
.LBBd150f_4:
	li	a0, 0
	li	a1, 0
	sd	zero, 0(a7)
	sd	zero, 8(a7)
	li	a2, 22
	j	.LBBd150f_7
.LBBd150f_5:
	li	t0, 47
	zext.b	a0, a3
	bne	t0, a0, .LBBd150f_3
.LBBd150f_6:
	addi	a0, sp, 13
	mv	a2, a4
	mv	a3, a5
	mv	a4, a6
	mv	a5, a7
	call	end_objects.objects.PeerObjectPeerMethod.handle_unrecorded
	lbu	a0, 13(sp)
	lbu	a2, 14(sp)
	lbu	a1, 15(sp)
.LBBd150f_7:
	sb	a0, 0(s0)
	sb	a2, 1(s0)
	sb	a1, 2(s0)
	ld	ra, 24(sp)
	ld	s0, 16(sp)
	addi	sp, sp, 32
	ret
.Lfunc_endd150f:
	.size	eap_method.peer_objects.call_peer_method.__c8f2ed81ce9f52e6_, .Lfunc_endd150f-eap_method.peer_objects.call_peer_method.__c8f2ed81ce9f52e6_

	.section	".text.end_objects::objects::PeerObjectPeerMethod::report","ax",@progbits
	.p2align	1
	.type	end_objects.objects.PeerObjectPeerMethod.report,@function
end_objects.objects.PeerObjectPeerMethod.report:
	addi	sp, sp, -496
	sd	ra, 488(sp)
	sd	s0, 480(sp)
	sd	s1, 472(sp)
	sd	s2, 464(sp)
	sd	s3, 456(sp)
	sd	s4, 448(sp)
	sd	s5, 440(sp)
	sd	s6, 432(sp)
	sd	s7, 424(sp)
	sd	s8, 416(sp)
	sd	s9, 408(sp)
	sd	s10, 400(sp)
	sd	s11, 392(sp)
	addi	sp, sp, -2016
	mv	s0, a0
	lbu	a2, 0(a1)
	lbu	a0, 664(a1)
	addi	s1, a1, 8
	beqz	a2, .LBB8fd53_9
	li	a2, 2
	bne	a0, a2, .LBB8fd53_17
	lbu	a0, 1160(a1)
	li	a2, 1
	bne	a0, a2, .LBB8fd53_17
	lbu	a0, 1161(a1)
	beqz	a0, .LBB8fd53_17
	mv	s3, a1
	ld	s2, 264(a1)
	sw	zero, 1608(sp)
	sh	zero, 1612(sp)
	sb	zero, 1614(sp)
	addi	a0, sp, 1880
	li	a2, 264
	li	a1, 0
	call	memset
	li	s4, 253
	bltu	s4, s2, .LBB8fd53_6
	addi	a0, sp, 1880
	mv	a1, s1
	mv	a2, s2
	call	memcpy
	lui	a0, 1
	add	a0, a0, sp
	sd	s2, -1960(a0)
.LBB8fd53_6:
	ld	s1, 528(s3)
	addi	a0, sp, 2047
	addi	a0, a0, 97
	li	a2, 264
	li	a1, 0
	call	memset
	bltu	s4, s1, .LBB8fd53_8
	addi	a1, s3, 272
	addi	a0, sp, 2047
	addi	a0, a0, 97
	mv	a2, s1
	call	memcpy
	lui	a0, 1
	add	a0, a0, sp
	sd	s1, -1696(a0)
.LBB8fd53_8:
	mv	s1, s3
	lbu	a0, 704(s3)
	snez	s2, a0
	addi	s2, s2, 1
	sd	s2, 392(sp)
	addi	a0, sp, 1615
	addi	a1, sp, 1880
	li	a2, 264
	call	memcpy
	lbu	s8, 752(s3)
	lbu	a0, 753(s3)
	lbu	a7, 754(s3)
	lbu	t0, 755(s3)
	lbu	a1, 756(s3)
	sd	a1, 368(sp)
	lbu	s3, 757(s3)
	lbu	s4, 758(s1)
	lbu	s5, 759(s1)
	lbu	ra, 760(s1)
	lbu	a2, 761(s1)
	lbu	t4, 762(s1)
	lbu	t5, 763(s1)
	lbu	t1, 764(s1)
	lbu	s7, 765(s1)
	lbu	s9, 766(s1)
	lbu	s2, 767(s1)
	lbu	a3, 768(s1)
	lbu	a4, 769(s1)
	lbu	t3, 770(s1)
	lbu	t6, 771(s1)
	lbu	t2, 772(s1)
	lbu	s6, 773(s1)
	lbu	s10, 774(s1)
	lbu	a6, 775(s1)
	slli	a0, a0, 8
	or	a0, a0, s8
	sd	a0, 384(sp)
	lbu	a1, 776(s1)
	lbu	a0, 777(s1)
	lbu	s8, 778(s1)
	lbu	s11, 779(s1)
	slli	a7, a7, 16
	slli	t0, t0, 24
	slli	s3, s3, 8
	slli	s4, s4, 16
	slli	s5, s5, 24
	slli	a2, a2, 8
	or	a5, t0, a7
	sd	a5, 376(sp)
	ld	a5, 368(sp)
	or	a5, s3, a5
	sd	a5, 368(sp)
	or	s5, s5, s4
	or	ra, a2, ra
	lbu	a7, 780(s1)
	lbu	t0, 781(s1)
	lbu	s3, 782(s1)
	lbu	s4, 783(s1)
	slli	t4, t4, 16
	slli	t5, t5, 24
	slli	s7, s7, 8
	slli	s9, s9, 16
	slli	a5, s2, 24
	slli	a4, a4, 8
	or	t5, t5, t4
	or	s7, s7, t1
	or	s9, a5, s9
	or	a3, a3, a4
	sd	a3, 360(sp)
	lbu	a3, 784(s1)
	lbu	a4, 785(s1)
	lbu	t1, 786(s1)
	lbu	t4, 787(s1)
	slli	t3, t3, 16
	slli	t6, t6, 24
	slli	s6, s6, 8
	slli	s10, s10, 16
	slli	a6, a6, 24
	slli	a0, a0, 8
	or	t3, t6, t3
	or	a2, s6, t2
	sd	a2, 352(sp)
	or	a2, a6, s10
	sd	a2, 344(sp)
	or	a0, a0, a1
	sd	a0, 336(sp)
	lbu	a6, 788(s1)
	lbu	t2, 789(s1)
	lbu	a5, 790(s1)
	lbu	a2, 791(s1)
	slli	s8, s8, 16
	slli	s11, s11, 24
	slli	t0, t0, 8
	slli	s3, s3, 16
	slli	s4, s4, 24
	slli	a4, a4, 8
	or	s8, s11, s8
	or	a7, t0, a7
	or	t0, s4, s3
	or	a3, a3, a4
	sd	a3, 272(sp)
	lbu	a3, 792(s1)
	lbu	a4, 793(s1)
	lbu	a0, 794(s1)
	lbu	a1, 795(s1)
	slli	t1, t1, 16
	slli	t4, t4, 24
	slli	t2, t2, 8
	slli	a5, a5, 16
	slli	a2, a2, 24
	slli	a4, a4, 8
	or	t1, t4, t1
	or	a6, t2, a6
	or	t2, a2, a5
	or	t4, a4, a3
	lbu	a2, 796(s1)
	lbu	a3, 797(s1)
	lbu	a4, 798(s1)
	lbu	a5, 799(s1)
	slli	a0, a0, 16
	slli	a1, a1, 24
	slli	a3, a3, 8
	slli	a4, a4, 16
	slli	a5, a5, 24
	or	s11, a1, a0
	or	a2, a2, a3
	sd	a2, 328(sp)
	or	a5, a5, a4
	lbu	a0, 801(s1)
	lbu	a1, 800(s1)
	lbu	a2, 802(s1)
	lbu	a3, 803(s1)
	slli	a0, a0, 8
	or	a0, a0, a1
	sd	a0, 320(sp)
	slli	a2, a2, 16
	slli	a3, a3, 24
	or	a2, a2, a3
	sd	a2, 312(sp)
	lbu	a0, 805(s1)
	lbu	a1, 804(s1)
	lbu	a2, 806(s1)
	lbu	a3, 807(s1)
	slli	a0, a0, 8
	or	a0, a0, a1
	sd	a0, 304(sp)
	slli	a2, a2, 16
	slli	a3, a3, 24
	or	a2, a2, a3
	sd	a2, 296(sp)
	lbu	a0, 809(s1)
	lbu	a1, 808(s1)
	lbu	a2, 810(s1)
	lbu	a3, 811(s1)
	slli	a0, a0, 8
	or	a0, a0, a1
	sd	a0, 288(sp)
	slli	a2, a2, 16
	slli	a3, a3, 24
	or	a2, a2, a3
	sd	a2, 280(sp)
	lbu	a0, 813(s1)
	lbu	a1, 812(s1)
	lbu	a2, 814(s1)
	lbu	a3, 815(s1)
	slli	a0, a0, 8
	or	a0, a0, a1
	sd	a0, 264(sp)
	slli	a2, a2, 16
	slli	a3, a3, 24
	or	a2, a2, a3
	sd	a2, 256(sp)
	lbu	a0, 817(s1)
	lbu	a1, 816(s1)
	lbu	a2, 818(s1)
	lbu	a3, 819(s1)
	slli	a0, a0, 8
	or	a0, a0, a1
	sd	a0, 248(sp)
	slli	a2, a2, 16
	slli	a3, a3, 24
	or	a2, a2, a3
	sd	a2, 240(sp)
	lbu	a0, 821(s1)
	lbu	a1, 820(s1)
	lbu	a2, 822(s1)
	lbu	a3, 823(s1)
	slli	a0, a0, 8
	or	a0, a0, a1
	sd	a0, 232(sp)
	slli	a2, a2, 16
	slli	a3, a3, 24
	or	a2, a2, a3
	sd	a2, 224(sp)
	lbu	a0, 825(s1)
	lbu	a1, 824(s1)
	lbu	a2, 826(s1)
	lbu	a3, 827(s1)
	slli	a0, a0, 8
	or	a0, a0, a1
	sd	a0, 216(sp)
	slli	a2, a2, 16
	slli	a3, a3, 24
	or	a2, a2, a3
	sd	a2, 208(sp)
	lbu	a0, 829(s1)
	lbu	a1, 828(s1)
	lbu	a2, 830(s1)
	lbu	a3, 831(s1)
	slli	a0, a0, 8
	or	a0, a0, a1
	sd	a0, 200(sp)
	slli	a2, a2, 16
	slli	a3, a3, 24
	or	a2, a2, a3
	sd	a2, 192(sp)
	lbu	a0, 833(s1)
	lbu	a1, 832(s1)
	lbu	a2, 834(s1)
	lbu	a3, 835(s1)
	slli	a0, a0, 8
	or	a0, a0, a1
	sd	a0, 184(sp)
	slli	a2, a2, 16
	slli	a3, a3, 24
	or	a2, a2, a3
	sd	a2, 176(sp)
	lbu	a0, 837(s1)
	lbu	a1, 836(s1)
	lbu	a2, 838(s1)
	lbu	a3, 839(s1)
	slli	a0, a0, 8
	or	a0, a0, a1
	sd	a0, 168(sp)
	slli	a2, a2, 16
	slli	a3, a3, 24
	or	a2, a2, a3
	sd	a2, 160(sp)
	lbu	a0, 841(s1)
	lbu	a1, 840(s1)
	lbu	a2, 842(s1)
	lbu	a3, 843(s1)
	slli	a0, a0, 8
	or	a0, a0, a1
	sd	a0, 152(sp)
	slli	a2, a2, 16
	slli	a3, a3, 24
	or	a2, a2, a3
	sd	a2, 144(sp)
	lbu	a0, 845(s1)
	lbu	a1, 844(s1)
	lbu	a2, 846(s1)
	lbu	a3, 847(s1)
	slli	a0, a0, 8
	or	a0, a0, a1
	sd	a0, 136(sp)
	slli	a2, a2, 16
	slli	a3, a3, 24
	or	a2, a2, a3
	sd	a2, 128(sp)
	lbu	a0, 849(s1)
	lbu	a1, 848(s1)
	lbu	a2, 850(s1)
	lbu	a3, 851(s1)
	slli	a0, a0, 8
	or	a0, a0, a1
	sd	a0, 120(sp)
	slli	a2, a2, 16
	slli	a3, a3, 24
	or	a2, a2, a3
	sd	a2, 112(sp)
	lbu	a0, 853(s1)
	lbu	a1, 852(s1)
	lbu	a2, 854(s1)
	lbu	a3, 855(s1)
	slli	a0, a0, 8
	or	a0, a0, a1
	sd	a0, 104(sp)
	slli	a2, a2, 16
	slli	a3, a3, 24
	or	a2, a2, a3
	sd	a2, 96(sp)
	lbu	a0, 857(s1)
	lbu	a1, 856(s1)
	lbu	a2, 858(s1)
	lbu	a3, 859(s1)
	slli	a0, a0, 8
	or	a0, a0, a1
	sd	a0, 88(sp)
	slli	a2, a2, 16
	slli	a3, a3, 24
	or	a2, a2, a3
	sd	a2, 80(sp)
	lbu	a0, 861(s1)
	lbu	a1, 860(s1)
	lbu	a2, 862(s1)
	lbu	a3, 863(s1)
	slli	a0, a0, 8
	or	a0, a0, a1
	sd	a0, 72(sp)
	slli	a2, a2, 16
	slli	a3, a3, 24
	or	a2, a2, a3
	sd	a2, 64(sp)
	lbu	a0, 865(s1)
	lbu	a1, 864(s1)
	lbu	a2, 866(s1)
	lbu	s2, 867(s1)
	slli	a0, a0, 8
	or	a0, a0, a1
	sd	a0, 56(sp)
	slli	a2, a2, 16
	slli	s2, s2, 24
	or	a0, s2, a2
	sd	a0, 48(sp)
	lbu	a3, 869(s1)
	lbu	a1, 868(s1)
	lbu	a2, 870(s1)
	lbu	a0, 871(s1)
	slli	a3, a3, 8
	or	a1, a1, a3
	sd	a1, 40(sp)
	slli	a2, a2, 16
	slli	a0, a0, 24
	or	a0, a0, a2
	sd	a0, 32(sp)
	lbu	a2, 873(s1)
	lbu	a3, 872(s1)
	lbu	a1, 874(s1)
	lbu	a0, 875(s1)
	slli	a2, a2, 8
	or	a2, a2, a3
	sd	a2, 24(sp)
	slli	a1, a1, 16
	slli	a0, a0, 24
	or	a0, a0, a1
	sd	a0, 16(sp)
	lbu	a1, 877(s1)
	lbu	a3, 876(s1)
	lbu	a0, 878(s1)
	lbu	s1, 879(s1)
	slli	a1, a1, 8
	or	a1, a1, a3
	sd	a1, 8(sp)
	slli	a0, a0, 16
	slli	s1, s1, 24
	or	t6, s1, a0
	ld	a0, 384(sp)
	ld	a1, 376(sp)
	or	s2, a1, a0
	ld	a0, 368(sp)
	or	s1, s5, a0
	or	s10, t5, ra
	or	s3, s9, s7
	ld	a1, 360(sp)
	or	s6, t3, a1
	ld	a1, 352(sp)
	ld	a2, 344(sp)
	or	s4, a2, a1
	ld	a2, 336(sp)
	or	a0, s8, a2
	sd	a0, 384(sp)
	or	a2, t0, a7
	ld	a0, 272(sp)
	or	a0, t1, a0
	sd	a0, 376(sp)
	or	a3, t2, a6
	or	s8, s11, t4
	ld	a4, 328(sp)
	or	a4, a4, a5
	ld	a5, 320(sp)
	ld	a0, 312(sp)
	or	ra, a0, a5
	ld	a0, 304(sp)
	ld	a5, 296(sp)
	or	a5, a5, a0
	ld	a0, 288(sp)
	ld	a1, 280(sp)
	or	a0, a0, a1
	sd	a0, 368(sp)
	ld	a0, 264(sp)
	ld	a1, 256(sp)
	or	a6, a1, a0
	ld	a0, 248(sp)
	ld	a1, 240(sp)
	or	a0, a0, a1
	sd	a0, 360(sp)
	ld	a0, 232(sp)
	ld	a1, 224(sp)
	or	a7, a1, a0
	ld	a0, 216(sp)
	ld	a1, 208(sp)
	or	s5, a1, a0
	ld	a0, 200(sp)
	ld	a1, 192(sp)
	or	t0, a1, a0
	ld	a0, 184(sp)
	ld	a1, 176(sp)
	or	s7, a1, a0
	ld	a0, 168(sp)
	ld	a1, 160(sp)
	or	t1, a1, a0
	ld	a0, 152(sp)
	ld	a1, 144(sp)
	or	s9, a1, a0
	ld	a0, 136(sp)
	ld	a1, 128(sp)
	or	t2, a1, a0
	ld	a0, 120(sp)
	ld	a1, 112(sp)
	or	s11, a1, a0
	ld	a0, 104(sp)
	ld	a1, 96(sp)
	or	t3, a1, a0
	ld	a0, 88(sp)
	ld	a1, 80(sp)
	or	a0, a0, a1
	sd	a0, 352(sp)
	ld	a0, 72(sp)
	ld	a1, 64(sp)
	or	t4, a1, a0
	ld	a0, 56(sp)
	ld	a1, 48(sp)
	or	a0, a0, a1
	sd	a0, 344(sp)
	ld	a0, 40(sp)
	ld	a1, 32(sp)
	or	t5, a1, a0
	ld	a0, 24(sp)
	ld	a1, 16(sp)
	or	a0, a0, a1
	sd	a0, 336(sp)
	ld	a0, 8(sp)
	or	t6, t6, a0
	slli	s1, s1, 32
	or	s2, s1, s2
	slli	a0, s3, 32
	or	s10, a0, s10
	slli	a1, s4, 32
	or	s6, a1, s6
	slli	a2, a2, 32
	ld	a0, 384(sp)
	or	a2, a2, a0
	slli	a3, a3, 32
	ld	a0, 376(sp)
	or	s4, a3, a0
	slli	a4, a4, 32
	or	s8, a4, s8
	slli	a5, a5, 32
	or	ra, a5, ra
	slli	a6, a6, 32
	ld	a0, 368(sp)
	or	a6, a6, a0
	slli	a7, a7, 32
	ld	a0, 360(sp)
	or	a7, a7, a0
	slli	t0, t0, 32
	or	t0, t0, s5
	slli	t1, t1, 32
	or	t1, t1, s7
	slli	t2, t2, 32
	or	a4, t2, s9
	slli	t3, t3, 32
	or	a5, t3, s11
	slli	t4, t4, 32
	ld	a0, 352(sp)
	or	a3, t4, a0
	slli	t5, t5, 32
	ld	a0, 344(sp)
	or	a0, t5, a0
	slli	t6, t6, 32
	ld	a1, 336(sp)
	or	a1, t6, a1
	sd	s2, 472(sp)
	ld	s1, 392(sp)
	sd	s10, 480(sp)
	sd	s6, 488(sp)
	sd	a2, 496(sp)
	sd	s4, 504(sp)
	sd	s8, 512(sp)
	sd	ra, 520(sp)
	sd	a6, 528(sp)
	sd	a7, 408(sp)
	sd	t0, 416(sp)
	sd	t1, 424(sp)
	sd	a4, 432(sp)
	sd	a5, 440(sp)
	sd	a3, 448(sp)
	sd	a0, 456(sp)
	sd	a1, 464(sp)
	addi	a0, sp, 801
	addi	a1, sp, 1608
	li	a2, 271
	call	memcpy
	addi	a0, sp, 536
	addi	a1, sp, 2047
	addi	a1, a1, 97
	li	a2, 264
	call	memcpy
	sw	zero, 400(sp)
	sh	zero, 404(sp)
	sb	zero, 406(sp)
	li	a0, 51
	li	a1, 1
	j	.LBB8fd53_18
.LBB8fd53_9:
	li	a2, 2
	bne	a0, a2, .LBB8fd53_17
	lbu	a0, 1241(a1)
	li	a2, 1
	bne	a0, a2, .LBB8fd53_17
	lbu	a0, 1242(a1)
	beqz	a0, .LBB8fd53_17
	mv	s3, a1
	ld	s2, 264(a1)
	sw	zero, 1072(sp)
	sh	zero, 1076(sp)
	sb	zero, 1078(sp)
	addi	a0, sp, 1880
	li	a2, 264
	li	a1, 0
	call	memset
	li	s4, 253
	bltu	s4, s2, .LBB8fd53_14
	addi	a0, sp, 1880
	mv	a1, s1
	mv	a2, s2
	call	memcpy
	lui	a0, 1
	add	a0, a0, sp
	sd	s2, -1960(a0)
.LBB8fd53_14:
	ld	s1, 528(s3)
	addi	a0, sp, 1344
	li	a2, 264
	li	a1, 0
	call	memset
	bltu	s4, s1, .LBB8fd53_16
	addi	a1, s3, 272
	addi	a0, sp, 1344
	mv	a2, s1
	call	memcpy
	sd	s1, 1600(sp)
.LBB8fd53_16:
	addi	a0, sp, 1079
	addi	a1, sp, 1880
	li	a2, 264
	call	memcpy
	mv	a0, s3
	lbu	s7, 905(s3)
	lbu	a1, 906(s3)
	lbu	a7, 907(s3)
	lbu	t0, 908(s3)
	lbu	a6, 909(s3)
	lbu	s2, 910(s3)
	lbu	s3, 911(s3)
	lbu	s4, 912(a0)
	lbu	s11, 913(a0)
	lbu	a3, 914(a0)
	lbu	t4, 915(a0)
	lbu	t5, 916(a0)
	lbu	a2, 917(a0)
	sd	a2, 368(sp)
	lbu	s6, 918(a0)
	lbu	s8, 919(a0)
	lbu	t1, 920(a0)
	lbu	a2, 921(a0)
	lbu	a5, 922(a0)
	lbu	t3, 923(a0)
	lbu	t6, 924(a0)
	lbu	t2, 925(a0)
	lbu	s5, 926(a0)
	lbu	s9, 927(a0)
	lbu	ra, 928(a0)
	slli	a1, a1, 8
	or	a1, a1, s7
	sd	a1, 392(sp)
	lbu	a1, 929(a0)
	lbu	a4, 930(a0)
	lbu	s7, 931(a0)
	lbu	s10, 932(a0)
	slli	a7, a7, 16
	slli	t0, t0, 24
	slli	s2, s2, 8
	slli	s3, s3, 16
	slli	s4, s4, 24
	slli	a3, a3, 8
	or	s1, t0, a7
	sd	s1, 384(sp)
	or	s1, s2, a6
	sd	s1, 376(sp)
	or	s3, s4, s3
	or	s4, a3, s11
	lbu	a6, 933(a0)
	lbu	a7, 934(a0)
	lbu	t0, 935(a0)
	lbu	s2, 936(a0)
	slli	t4, t4, 16
	slli	t5, t5, 24
	slli	s6, s6, 8
	slli	s8, s8, 16
	slli	s1, t1, 24
	slli	a5, a5, 8
	or	t5, t5, t4
	ld	a3, 368(sp)
	or	s6, s6, a3
	or	s8, s1, s8
	or	s11, a5, a2
	lbu	a2, 937(a0)
	lbu	a5, 938(a0)
	lbu	t1, 939(a0)
	lbu	t4, 940(a0)
	slli	t3, t3, 16
	slli	t6, t6, 24
	slli	s5, s5, 8
	slli	s9, s9, 16
	slli	ra, ra, 24
	slli	a4, a4, 8
	or	t6, t6, t3
	or	s5, s5, t2
	or	s9, ra, s9
	or	ra, a4, a1
	lbu	t2, 941(a0)
	lbu	t3, 942(a0)
	lbu	s1, 943(a0)
	lbu	a3, 944(a0)
	slli	s7, s7, 16
	slli	s10, s10, 24
	slli	a7, a7, 8
	slli	t0, t0, 16
	slli	s2, s2, 24
	slli	a5, a5, 8
	or	s7, s10, s7
	or	a6, a7, a6
	or	a7, s2, t0
	or	t0, a5, a2
	lbu	a2, 945(a0)
	lbu	a5, 946(a0)
	lbu	a1, 947(a0)
	lbu	a4, 948(a0)
	slli	t1, t1, 16
	slli	t4, t4, 24
	slli	t3, t3, 8
	slli	s1, s1, 16
	slli	a3, a3, 24
	slli	a5, a5, 8
	or	t1, t4, t1
	or	t2, t3, t2
	or	t3, a3, s1
	or	t4, a5, a2
	lbu	a2, 949(a0)
	lbu	a3, 950(a0)
	lbu	a5, 951(a0)
	lbu	s1, 952(a0)
	slli	a1, a1, 16
	slli	a4, a4, 24
	slli	a3, a3, 8
	slli	a5, a5, 16
	slli	s1, s1, 24
	or	a1, a1, a4
	sd	a1, 368(sp)
	or	a2, a2, a3
	sd	a2, 360(sp)
	or	a5, a5, s1
	sd	a5, 352(sp)
	lbu	a1, 954(a0)
	lbu	a2, 953(a0)
	lbu	a3, 955(a0)
	lbu	a4, 956(a0)
	slli	a1, a1, 8
	or	a1, a1, a2
	sd	a1, 344(sp)
	slli	a3, a3, 16
	slli	a4, a4, 24
	or	a3, a3, a4
	sd	a3, 336(sp)
	lbu	a1, 958(a0)
	lbu	a2, 957(a0)
	lbu	a3, 959(a0)
	lbu	a4, 960(a0)
	slli	a1, a1, 8
	or	a1, a1, a2
	sd	a1, 328(sp)
	slli	a3, a3, 16
	slli	a4, a4, 24
	or	a3, a3, a4
	sd	a3, 320(sp)
	lbu	a1, 962(a0)
	lbu	a2, 961(a0)
	lbu	a3, 963(a0)
	lbu	a4, 964(a0)
	slli	a1, a1, 8
	or	a1, a1, a2
	sd	a1, 312(sp)
	slli	a3, a3, 16
	slli	a4, a4, 24
	or	a3, a3, a4
	sd	a3, 304(sp)
	lbu	a1, 966(a0)
	lbu	a2, 965(a0)
	lbu	a3, 967(a0)
	lbu	a4, 968(a0)
	slli	a1, a1, 8
	or	a1, a1, a2
	sd	a1, 296(sp)
	slli	a3, a3, 16
	slli	a4, a4, 24
	or	a3, a3, a4
	sd	a3, 288(sp)
	lbu	a1, 970(a0)
	lbu	a2, 969(a0)
	lbu	a3, 971(a0)
	lbu	a4, 972(a0)
	slli	a1, a1, 8
	or	a1, a1, a2
	sd	a1, 280(sp)
	slli	a3, a3, 16
	slli	a4, a4, 24
	or	a3, a3, a4
	sd	a3, 272(sp)
	lbu	a1, 974(a0)
	lbu	a2, 973(a0)
	lbu	a3, 975(a0)
	lbu	a4, 976(a0)
	slli	a1, a1, 8
	or	a1, a1, a2
	sd	a1, 264(sp)
	slli	a3, a3, 16
	slli	a4, a4, 24
	or	a3, a3, a4
	sd	a3, 256(sp)
	lbu	a1, 978(a0)
	lbu	a2, 977(a0)
	lbu	a3, 979(a0)
	lbu	a4, 980(a0)
	slli	a1, a1, 8
	or	a1, a1, a2
	sd	a1, 248(sp)
	slli	a3, a3, 16
	slli	a4, a4, 24
	or	a3, a3, a4
	sd	a3, 240(sp)
	lbu	a1, 982(a0)
	lbu	a2, 981(a0)
	lbu	a3, 983(a0)
	lbu	a4, 984(a0)
	slli	a1, a1, 8
	or	a1, a1, a2
	sd	a1, 232(sp)
	slli	a3, a3, 16
	slli	a4, a4, 24
	or	a3, a3, a4
	sd	a3, 224(sp)
	lbu	a1, 986(a0)
	lbu	a2, 985(a0)
	lbu	a3, 987(a0)
	lbu	a4, 988(a0)
	slli	a1, a1, 8
	or	a1, a1, a2
	sd	a1, 216(sp)
	slli	a3, a3, 16
	slli	a4, a4, 24
	or	a3, a3, a4
	sd	a3, 208(sp)
	lbu	a1, 990(a0)
	lbu	a2, 989(a0)
	lbu	a3, 991(a0)
	lbu	a4, 992(a0)
	slli	a1, a1, 8
	or	a1, a1, a2
	sd	a1, 200(sp)
	slli	a3, a3, 16
	slli	a4, a4, 24
	or	a3, a3, a4
	sd	a3, 192(sp)
	lbu	a1, 994(a0)
	lbu	a2, 993(a0)
	lbu	a3, 995(a0)
	lbu	a4, 996(a0)
	slli	a1, a1, 8
	or	a1, a1, a2
	sd	a1, 184(sp)
	slli	a3, a3, 16
	slli	a4, a4, 24
	or	a3, a3, a4
	sd	a3, 176(sp)
	lbu	a1, 998(a0)
	lbu	a2, 997(a0)
	lbu	a3, 999(a0)
	lbu	a4, 1000(a0)
	slli	a1, a1, 8
	or	a1, a1, a2
	sd	a1, 168(sp)
	slli	a3, a3, 16
	slli	a4, a4, 24
	or	a3, a3, a4
	sd	a3, 160(sp)
	lbu	a1, 1002(a0)
	lbu	a2, 1001(a0)
	lbu	a3, 1003(a0)
	lbu	a4, 1004(a0)
	slli	a1, a1, 8
	or	a1, a1, a2
	sd	a1, 152(sp)
	slli	a3, a3, 16
	slli	a4, a4, 24
	or	a3, a3, a4
	sd	a3, 144(sp)
	lbu	a1, 1006(a0)
	lbu	a2, 1005(a0)
	lbu	a3, 1007(a0)
	lbu	a4, 1008(a0)
	slli	a1, a1, 8
	or	a1, a1, a2
	sd	a1, 136(sp)
	slli	a3, a3, 16
	slli	a4, a4, 24
	or	a3, a3, a4
	sd	a3, 128(sp)
	lbu	a1, 1010(a0)
	lbu	a2, 1009(a0)
	lbu	a3, 1011(a0)
	lbu	a4, 1012(a0)
	slli	a1, a1, 8
	or	a1, a1, a2
	sd	a1, 120(sp)
	slli	a3, a3, 16
	slli	a4, a4, 24
	or	a3, a3, a4
	sd	a3, 112(sp)
	lbu	a1, 1014(a0)
	lbu	a2, 1013(a0)
	lbu	a3, 1015(a0)
	lbu	a4, 1016(a0)
	slli	a1, a1, 8
	or	a1, a1, a2
	sd	a1, 104(sp)
	slli	a3, a3, 16
	slli	a4, a4, 24
	or	a3, a3, a4
	sd	a3, 96(sp)
	lbu	a4, 1018(a0)
	lbu	a2, 1017(a0)
	lbu	a3, 1019(a0)
	lbu	a1, 1020(a0)
	slli	a4, a4, 8
	or	a2, a2, a4
	sd	a2, 88(sp)
	slli	a3, a3, 16
	slli	a1, a1, 24
	or	a1, a1, a3
	sd	a1, 80(sp)
	lbu	a3, 1022(a0)
	lbu	a4, 1021(a0)
	lbu	a2, 1023(a0)
	lbu	a1, 1024(a0)
	slli	a3, a3, 8
	or	a3, a3, a4
	sd	a3, 72(sp)
	slli	a2, a2, 16
	slli	a1, a1, 24
	or	a1, a1, a2
	sd	a1, 64(sp)
	lbu	a3, 1026(a0)
	lbu	a4, 1025(a0)
	lbu	a2, 1027(a0)
	lbu	a1, 1028(a0)
	slli	a3, a3, 8
	or	a3, a3, a4
	sd	a3, 56(sp)
	slli	a2, a2, 16
	slli	a1, a1, 24
	or	a1, a1, a2
	sd	a1, 48(sp)
	lbu	a2, 1030(a0)
	lbu	a4, 1029(a0)
	lbu	a1, 1031(a0)
	lbu	a0, 1032(a0)
	slli	a2, a2, 8
	or	a2, a2, a4
	sd	a2, 40(sp)
	slli	a1, a1, 16
	slli	a0, a0, 24
	or	s2, a0, a1
	ld	a0, 392(sp)
	ld	a1, 384(sp)
	or	a0, a0, a1
	sd	a0, 392(sp)
	ld	a0, 376(sp)
	or	a4, s3, a0
	or	s10, t5, s4
	or	s3, s8, s6
	or	s6, t6, s11
	or	a1, s9, s5
	or	a0, s7, ra
	sd	a0, 384(sp)
	or	a2, a7, a6
	or	s4, t1, t0
	or	a3, t3, t2
	ld	a5, 368(sp)
	or	s8, a5, t4
	ld	a5, 360(sp)
	ld	s1, 352(sp)
	or	a5, a5, s1
	ld	s1, 344(sp)
	ld	a0, 336(sp)
	or	ra, a0, s1
	ld	a0, 328(sp)
	ld	s1, 320(sp)
	or	a6, s1, a0
	ld	a0, 312(sp)
	ld	s1, 304(sp)
	or	a0, a0, s1
	sd	a0, 376(sp)
	ld	a0, 296(sp)
	ld	s1, 288(sp)
	or	a7, s1, a0
	ld	a0, 280(sp)
	ld	s1, 272(sp)
	or	a0, a0, s1
	sd	a0, 368(sp)
	ld	a0, 264(sp)
	ld	s1, 256(sp)
	or	t0, s1, a0
	ld	a0, 248(sp)
	ld	s1, 240(sp)
	or	s5, s1, a0
	ld	a0, 232(sp)
	ld	s1, 224(sp)
	or	t1, s1, a0
	ld	a0, 216(sp)
	ld	s1, 208(sp)
	or	s7, s1, a0
	ld	a0, 200(sp)
	ld	s1, 192(sp)
	or	t2, s1, a0
	ld	a0, 184(sp)
	ld	s1, 176(sp)
	or	s9, s1, a0
	ld	a0, 168(sp)
	ld	s1, 160(sp)
	or	t3, s1, a0
	ld	a0, 152(sp)
	ld	s1, 144(sp)
	or	s11, s1, a0
	ld	a0, 136(sp)
	ld	s1, 128(sp)
	or	t4, s1, a0
	ld	a0, 120(sp)
	ld	s1, 112(sp)
	or	a0, a0, s1
	sd	a0, 360(sp)
	ld	a0, 104(sp)
	ld	s1, 96(sp)
	or	t5, s1, a0
	ld	a0, 88(sp)
	ld	s1, 80(sp)
	or	a0, a0, s1
	sd	a0, 352(sp)
	ld	a0, 72(sp)
	ld	s1, 64(sp)
	or	t6, s1, a0
	ld	a0, 56(sp)
	ld	s1, 48(sp)
	or	a0, a0, s1
	sd	a0, 344(sp)
	ld	a0, 40(sp)
	or	s1, s2, a0
	slli	a4, a4, 32
	ld	a0, 392(sp)
	or	s2, a4, a0
	slli	a0, s3, 32
	or	s10, a0, s10
	slli	a1, a1, 32
	or	s6, a1, s6
	slli	a2, a2, 32
	ld	a0, 384(sp)
	or	s3, a2, a0
	slli	a3, a3, 32
	or	s4, a3, s4
	slli	a5, a5, 32
	or	s8, a5, s8
	slli	a6, a6, 32
	or	a6, a6, ra
	slli	a7, a7, 32
	ld	a0, 376(sp)
	or	a7, a7, a0
	slli	t0, t0, 32
	ld	a0, 368(sp)
	or	t0, t0, a0
	slli	t1, t1, 32
	or	t1, t1, s5
	slli	t2, t2, 32
	or	a5, t2, s7
	slli	t3, t3, 32
	or	a4, t3, s9
	slli	t4, t4, 32
	or	a0, t4, s11
	slli	t5, t5, 32
	ld	a1, 360(sp)
	or	a1, t5, a1
	slli	t6, t6, 32
	ld	a3, 352(sp)
	or	a3, t6, a3
	slli	s1, s1, 32
	ld	a2, 344(sp)
	or	s1, s1, a2
	sd	s2, 472(sp)
	sd	s10, 480(sp)
	sd	s6, 488(sp)
	sd	s3, 496(sp)
	sd	s4, 504(sp)
	sd	s8, 512(sp)
	sd	a6, 520(sp)
	sd	a7, 528(sp)
	sd	t0, 408(sp)
	sd	t1, 416(sp)
	sd	a5, 424(sp)
	sd	a4, 432(sp)
	sd	a0, 440(sp)
	sd	a1, 448(sp)
	sd	a3, 456(sp)
	sd	s1, 464(sp)
	addi	a0, sp, 801
	addi	a1, sp, 1072
	li	a2, 271
	call	memcpy
	addi	a0, sp, 536
	addi	a1, sp, 1344
	li	a2, 264
	call	memcpy
	li	s1, 0
	sw	zero, 400(sp)
	sh	zero, 404(sp)
	sb	zero, 406(sp)
	li	a0, 47
	li	a1, 1
	j	.LBB8fd53_18
.LBB8fd53_17:
	addi	a0, sp, 801
	li	a2, 271
	li	a1, 0
	call	memset
	addi	a0, sp, 536
	li	a2, 264
	li	a1, 0
	call	memset
	li	a1, 0
	li	a0, 0
	li	s1, 0
	sd	zero, 472(sp)
	sd	zero, 480(sp)
	sd	zero, 488(sp)
	sd	zero, 496(sp)
	sd	zero, 504(sp)
	sd	zero, 512(sp)
	sd	zero, 520(sp)
	sd	zero, 528(sp)
	sd	zero, 408(sp)
	sd	zero, 416(sp)
	sd	zero, 424(sp)
	sd	zero, 432(sp)
	sd	zero, 440(sp)
	sd	zero, 448(sp)
	sd	zero, 456(sp)
	sd	zero, 464(sp)
	sw	zero, 400(sp)
	sh	zero, 404(sp)
	sb	zero, 406(sp)
.LBB8fd53_18:
	sb	zero, 4(s0)
	sb	zero, 5(s0)
	sb	zero, 6(s0)
	sb	zero, 7(s0)
	sb	a1, 0(s0)
	sb	zero, 1(s0)
	sb	zero, 2(s0)
	sb	zero, 3(s0)
	sb	a0, 8(s0)
	addi	a0, s0, 9
	addi	a1, sp, 801
	li	a2, 271
	call	memcpy
	addi	a0, s0, 280
	addi	a1, sp, 536
	li	a2, 264
	call	memcpy
	sb	s1, 544(s0)
	addi	a0, s0, 545
	addi	a1, sp, 472
	li	a2, 64
	call	memcpy
	addi	a0, s0, 609
	addi	a1, sp, 408
	li	a2, 64
	call	memcpy
	lbu	a0, 400(sp)
	lbu	a1, 401(sp)
	lbu	a2, 402(sp)
	lbu	a3, 403(sp)
	lbu	a4, 404(sp)
	lbu	a5, 405(sp)
	lbu	s1, 406(sp)
	sb	a0, 673(s0)
	sb	a1, 674(s0)
	sb	a2, 675(s0)
	sb	a3, 676(s0)
	sb	a4, 677(s0)
	sb	a5, 678(s0)
	sb	s1, 679(s0)
	addi	sp, sp, 2016
	ld	ra, 488(sp)
	ld	s0, 480(sp)
	ld	s1, 472(sp)
	ld	s2, 464(sp)
	ld	s3, 456(sp)
	ld	s4, 448(sp)
	ld	s5, 440(sp)
	ld	s6, 432(sp)
	ld	s7, 424(sp)
	ld	s8, 416(sp)
	ld	s9, 408(sp)
	ld	s10, 400(sp)
	ld	s11, 392(sp)
	addi	sp, sp, 496
	ret
.Lfunc_end8fd53:
	.size	end_objects.objects.PeerObjectPeerMethod.report, .Lfunc_end8fd53-end_objects.objects.PeerObjectPeerMethod.report

	.section	".text.tuvaddri_c::held::object_of","ax",@progbits
	.p2align	1
	.type	tuvaddri_c.held.object_of,@function
tuvaddri_c.held.object_of:
	mv	a2, a0
	li	a0, 0
	li	a1, 0
	lbu	a3, 0(a2)
.Lpcrel_hi68:
	auipc	a4, %pcrel_hi(.LJTI3e358_0)
	slli	a3, a3, 2
	addi	a4, a4, %pcrel_lo(.Lpcrel_hi68)
	add	a3, a3, a4
	lw	a3, 0(a3)
	add	a4, a4, a3
	addi	a3, a2, 2047
	jr	a4
.LBB3e358_1:
	ret
.LBB3e358_2:
	lbu	a0, 38(a2)
	beqz	a0, .LBB3e358_30
	ld	a1, 8(a2)
	ld	a3, 16(a2)
	lbu	a0, 39(a2)
	addi	a1, a1, -1256
	addi	a2, a3, 1
	j	.LBB3e358_5
.LBB3e358_4:
	li	a3, 47
	beq	a3, a0, .LBB3e358_20
.LBB3e358_5:
	addi	a2, a2, -1
	beqz	a2, .LBB3e358_31
	addi	a1, a1, 1256
	lbu	a3, 0(a1)
	beqz	a3, .LBB3e358_4
	li	a3, 51
	bne	a3, a0, .LBB3e358_5
	j	.LBB3e358_20
.LBB3e358_8:
	lbu	a0, 777(a2)
	beqz	a0, .LBB3e358_34
	ld	a1, 249(a3)
	ld	a3, 257(a3)
	lbu	a0, 778(a2)
	addi	a1, a1, -1248
	addi	a2, a3, 1
	j	.LBB3e358_11
.LBB3e358_10:
	li	a3, 47
	beq	a3, a0, .LBB3e358_27
.LBB3e358_11:
	addi	a2, a2, -1
	beqz	a2, .LBB3e358_33
	addi	a1, a1, 1248
	lbu	a3, 0(a1)
	beqz	a3, .LBB3e358_10
	li	a3, 51
	bne	a3, a0, .LBB3e358_11
	j	.LBB3e358_27
.LBB3e358_14:
	lbu	a0, 38(a2)
	beqz	a0, .LBB3e358_30
	ld	a1, 8(a2)
	ld	a3, 16(a2)
	lbu	a0, 39(a2)
	addi	a1, a1, -1256
	addi	a2, a3, 1
	j	.LBB3e358_17
.LBB3e358_16:
	li	a3, 51
	beq	a3, a0, .LBB3e358_20
.LBB3e358_17:
	addi	a2, a2, -1
	beqz	a2, .LBB3e358_31
	addi	a1, a1, 1256
	lbu	a3, 0(a1)
	bnez	a3, .LBB3e358_16
	li	a3, 47
	bne	a3, a0, .LBB3e358_17
.LBB3e358_20:
	li	a2, 1
	j	.LBB3e358_32
.LBB3e358_21:
	lbu	a0, 809(a2)
	beqz	a0, .LBB3e358_34
	ld	a1, 281(a3)
	ld	a3, 289(a3)
	lbu	a0, 810(a2)
	addi	a1, a1, -1248
	addi	a2, a3, 1
	j	.LBB3e358_24
.LBB3e358_23:
	li	a3, 51
	beq	a3, a0, .LBB3e358_27
.LBB3e358_24:
	addi	a2, a2, -1
	beqz	a2, .LBB3e358_33
	addi	a1, a1, 1248
	lbu	a3, 0(a1)
	bnez	a3, .LBB3e358_23
	li	a3, 47
	bne	a3, a0, .LBB3e358_24
.LBB3e358_27:
	li	a0, 1
	j	.LBB3e358_35
.LBB3e358_28:
	addi	a1, a2, 8
	li	a0, 2
	ret
.LBB3e358_29:
	addi	a1, a2, 8
	li	a0, 1
	ret
.LBB3e358_30:
	li	a2, 0
.LBB3e358_31:
	li	a1, 0
.LBB3e358_32:
	slli	a0, a2, 1
	neg	a2, a2
	and	a1, a1, a2
	ret
.LBB3e358_33:
	li	a0, 0
.LBB3e358_34:
	li	a1, 0
.LBB3e358_35:
	neg	a2, a0
	and	a1, a1, a2
	ret
.Lfunc_end3e358:
	.size	tuvaddri_c.held.object_of, .Lfunc_end3e358-tuvaddri_c.held.object_of
	.section	".rodata.tuvaddri_c::held::object_of","a",@progbits
	.p2align	2, 0x0
.LJTI3e358_0:
	.word	.LBB3e358_1-.LJTI3e358_0
	.word	.LBB3e358_29-.LJTI3e358_0
	.word	.LBB3e358_28-.LJTI3e358_0
	.word	.LBB3e358_8-.LJTI3e358_0
	.word	.LBB3e358_14-.LJTI3e358_0
	.word	.LBB3e358_2-.LJTI3e358_0
	.word	.LBB3e358_1-.LJTI3e358_0
	.word	.LBB3e358_21-.LJTI3e358_0
	.word	.LBB3e358_1-.LJTI3e358_0

	.section	".text.tuvaddri_c::held::Object::report","ax",@progbits
	.p2align	1
	.type	tuvaddri_c.held.Object.report,@function
tuvaddri_c.held.Object.report:
	addi	sp, sp, -704
	sd	ra, 696(sp)
	sd	s0, 688(sp)
	sd	s1, 680(sp)
	mv	s1, a1
	mv	s0, a0
	mv	a0, sp
	li	a2, 680
	li	a1, 0
	call	memset
	lbu	a0, 0(s1)
	beqz	a0, .LBBd20a6_4
	li	a1, 2
	bne	a0, a1, .LBBd20a6_3
	ld	a1, 8(s1)
	mv	a0, sp
	call	end_objects.objects.ServerObjectServerMethod.report
	j	.LBBd20a6_4
.LBBd20a6_3:
	ld	a1, 8(s1)
	mv	a0, sp
	call	end_objects.objects.PeerObjectPeerMethod.report
.LBBd20a6_4:
	lbu	a0, 0(sp)
	addi	a1, sp, 8
	sb	zero, 4(s0)
	sb	zero, 5(s0)
	sb	zero, 6(s0)
	sb	zero, 7(s0)
	sb	a0, 0(s0)
	sb	zero, 1(s0)
	sb	zero, 2(s0)
	sb	zero, 3(s0)
	addi	a0, s0, 8
	li	a2, 672
	call	memcpy
	ld	ra, 696(sp)
	ld	s0, 688(sp)
	ld	s1, 680(sp)
	addi	sp, sp, 704
	ret
.Lfunc_endd20a6:
	.size	tuvaddri_c.held.Object.report, .Lfunc_endd20a6-tuvaddri_c.held.Object.report

	.section	".text.end_objects::objects::ServerObjectServerMethod::report","ax",@progbits
	.p2align	1
	.type	end_objects.objects.ServerObjectServerMethod.report,@function
end_objects.objects.ServerObjectServerMethod.report:
	addi	sp, sp, -496
	sd	ra, 488(sp)
	sd	s0, 480(sp)
	sd	s1, 472(sp)
	sd	s2, 464(sp)
	sd	s3, 456(sp)
	sd	s4, 448(sp)
	sd	s5, 440(sp)
	sd	s6, 432(sp)
	sd	s7, 424(sp)
	sd	s8, 416(sp)
	sd	s9, 408(sp)
	sd	s10, 400(sp)
	sd	s11, 392(sp)
	addi	sp, sp, -2016
	mv	s1, a1
	mv	s0, a0
	lbu	a0, 0(a1)
	addi	s2, a1, 8
	beqz	a0, .LBB52a83_9
	lbu	a1, 320(s1)
	li	a0, 2
	bne	a1, a0, .LBB52a83_17
	lbu	a1, 1152(s1)
	bne	a1, a0, .LBB52a83_17
	lbu	a0, 1153(s1)
	beqz	a0, .LBB52a83_17
	ld	s3, 584(s1)
	sw	zero, 1608(sp)
	sh	zero, 1612(sp)
	sb	zero, 1614(sp)
	addi	a0, sp, 1880
	li	a2, 264
	li	a1, 0
	call	memset
	li	s4, 253
	bltu	s4, s3, .LBB52a83_6
	addi	a1, s1, 328
	addi	a0, sp, 1880
	mv	a2, s3
	call	memcpy
	lui	a0, 1
	add	a0, a0, sp
	sd	s3, -1960(a0)
.LBB52a83_6:
	ld	s3, 264(s1)
	addi	a0, sp, 2047
	addi	a0, a0, 97
	li	a2, 264
	li	a1, 0
	call	memset
	bltu	s4, s3, .LBB52a83_8
	addi	a0, sp, 2047
	addi	a0, a0, 97
	mv	a1, s2
	mv	a2, s3
	call	memcpy
	lui	a0, 1
	add	a0, a0, sp
	sd	s3, -1696(a0)
.LBB52a83_8:
	lbu	a0, 696(s1)
	snez	a0, a0
	addi	a0, a0, 1
	sd	a0, 392(sp)
	addi	a0, sp, 1615
	addi	a1, sp, 1880
	li	a2, 264
	call	memcpy
	lbu	s7, 744(s1)
	lbu	a0, 745(s1)
	lbu	a7, 746(s1)
	lbu	t0, 747(s1)
	lbu	a6, 748(s1)
	lbu	s2, 749(s1)
	lbu	s3, 750(s1)
	lbu	s4, 751(s1)
	lbu	s11, 752(s1)
	lbu	a2, 753(s1)
	lbu	t4, 754(s1)
	lbu	t5, 755(s1)
	lbu	a1, 756(s1)
	sd	a1, 360(sp)
	lbu	s6, 757(s1)
	lbu	s8, 758(s1)
	lbu	t1, 759(s1)
	lbu	a1, 760(s1)
	lbu	a4, 761(s1)
	lbu	t3, 762(s1)
	lbu	t6, 763(s1)
	lbu	t2, 764(s1)
	lbu	s5, 765(s1)
	lbu	s9, 766(s1)
	lbu	ra, 767(s1)
	slli	a0, a0, 8
	or	a0, a0, s7
	sd	a0, 384(sp)
	lbu	a0, 768(s1)
	lbu	a3, 769(s1)
	lbu	s7, 770(s1)
	lbu	s10, 771(s1)
	slli	a7, a7, 16
	slli	t0, t0, 24
	slli	s2, s2, 8
	slli	s3, s3, 16
	slli	s4, s4, 24
	slli	a2, a2, 8
	or	a5, t0, a7
	sd	a5, 376(sp)
	or	a5, s2, a6
	sd	a5, 368(sp)
	or	s3, s4, s3
	or	s4, a2, s11
	lbu	a6, 772(s1)
	lbu	a7, 773(s1)
	lbu	t0, 774(s1)
	lbu	s2, 775(s1)
	slli	t4, t4, 16
	slli	t5, t5, 24
	slli	s6, s6, 8
	slli	s8, s8, 16
	slli	a5, t1, 24
	slli	a4, a4, 8
	or	t5, t5, t4
	ld	a2, 360(sp)
	or	s6, s6, a2
	or	s8, a5, s8
	or	a1, a1, a4
	sd	a1, 360(sp)
	lbu	a1, 776(s1)
	lbu	a4, 777(s1)
	lbu	t1, 778(s1)
	lbu	t4, 779(s1)
	slli	t3, t3, 16
	slli	t6, t6, 24
	slli	s5, s5, 8
	slli	s9, s9, 16
	slli	ra, ra, 24
	slli	a3, a3, 8
	or	a2, t6, t3
	sd	a2, 352(sp)
	or	s5, s5, t2
	or	s9, ra, s9
	or	ra, a3, a0
	lbu	t2, 780(s1)
	lbu	t3, 781(s1)
	lbu	a5, 782(s1)
	lbu	a2, 783(s1)
	slli	s7, s7, 16
	slli	s10, s10, 24
	slli	a7, a7, 8
	slli	t0, t0, 16
	slli	s2, s2, 24
	slli	a4, a4, 8
	or	s7, s10, s7
	or	a6, a7, a6
	or	a7, s2, t0
	or	t0, a4, a1
	lbu	a1, 784(s1)
	lbu	a4, 785(s1)
	lbu	a0, 786(s1)
	lbu	a3, 787(s1)
	slli	t1, t1, 16
	slli	t4, t4, 24
	slli	t3, t3, 8
	slli	a5, a5, 16
	slli	a2, a2, 24
	slli	a4, a4, 8
	or	t1, t4, t1
	or	t2, t3, t2
	or	t3, a2, a5
	or	t4, a4, a1
	lbu	a1, 788(s1)
	lbu	a2, 789(s1)
	lbu	a4, 790(s1)
	lbu	a5, 791(s1)
	slli	a0, a0, 16
	slli	a3, a3, 24
	slli	a2, a2, 8
	slli	a4, a4, 16
	slli	a5, a5, 24
	or	a0, a0, a3
	sd	a0, 344(sp)
	or	a1, a1, a2
	sd	a1, 336(sp)
	or	a5, a5, a4
	lbu	a0, 793(s1)
	lbu	a1, 792(s1)
	lbu	a2, 794(s1)
	lbu	a3, 795(s1)
	slli	a0, a0, 8
	or	a0, a0, a1
	sd	a0, 328(sp)
	slli	a2, a2, 16
	slli	a3, a3, 24
	or	a2, a2, a3
	sd	a2, 320(sp)
	lbu	a0, 797(s1)
	lbu	a1, 796(s1)
	lbu	a2, 798(s1)
	lbu	a3, 799(s1)
	slli	a0, a0, 8
	or	a0, a0, a1
	sd	a0, 312(sp)
	slli	a2, a2, 16
	slli	a3, a3, 24
	or	a2, a2, a3
	sd	a2, 304(sp)
	lbu	a0, 801(s1)
	lbu	a1, 800(s1)
	lbu	a2, 802(s1)
	lbu	a3, 803(s1)
	slli	a0, a0, 8
	or	a0, a0, a1
	sd	a0, 296(sp)
	slli	a2, a2, 16
	slli	a3, a3, 24
	or	a2, a2, a3
	sd	a2, 288(sp)
	lbu	a0, 805(s1)
	lbu	a1, 804(s1)
	lbu	a2, 806(s1)
	lbu	a3, 807(s1)
	slli	a0, a0, 8
	or	a0, a0, a1
	sd	a0, 280(sp)
	slli	a2, a2, 16
	slli	a3, a3, 24
	or	a2, a2, a3
	sd	a2, 272(sp)
	lbu	a0, 809(s1)
	lbu	a1, 808(s1)
	lbu	a2, 810(s1)
	lbu	a3, 811(s1)
	slli	a0, a0, 8
	or	a0, a0, a1
	sd	a0, 264(sp)
	slli	a2, a2, 16
	slli	a3, a3, 24
	or	a2, a2, a3
	sd	a2, 256(sp)
	lbu	a0, 813(s1)
	lbu	a1, 812(s1)
	lbu	a2, 814(s1)
	lbu	a3, 815(s1)
	slli	a0, a0, 8
	or	a0, a0, a1
	sd	a0, 248(sp)
	slli	a2, a2, 16
	slli	a3, a3, 24
	or	a2, a2, a3
	sd	a2, 240(sp)
	lbu	a0, 817(s1)
	lbu	a1, 816(s1)
	lbu	a2, 818(s1)
	lbu	a3, 819(s1)
	slli	a0, a0, 8
	or	a0, a0, a1
	sd	a0, 232(sp)
	slli	a2, a2, 16
	slli	a3, a3, 24
	or	a2, a2, a3
	sd	a2, 224(sp)
	lbu	a0, 821(s1)
	lbu	a1, 820(s1)
	lbu	a2, 822(s1)
	lbu	a3, 823(s1)
	slli	a0, a0, 8
	or	a0, a0, a1
	sd	a0, 216(sp)
	slli	a2, a2, 16
	slli	a3, a3, 24
	or	a2, a2, a3
	sd	a2, 208(sp)
	lbu	a0, 825(s1)
	lbu	a1, 824(s1)
	lbu	a2, 826(s1)
	lbu	a3, 827(s1)
	slli	a0, a0, 8
	or	a0, a0, a1
	sd	a0, 200(sp)
	slli	a2, a2, 16
	slli	a3, a3, 24
	or	a2, a2, a3
	sd	a2, 192(sp)
	lbu	a0, 829(s1)
	lbu	a1, 828(s1)
	lbu	a2, 830(s1)
	lbu	a3, 831(s1)
	slli	a0, a0, 8
	or	a0, a0, a1
	sd	a0, 184(sp)
	slli	a2, a2, 16
	slli	a3, a3, 24
	or	a2, a2, a3
	sd	a2, 176(sp)
	lbu	a0, 833(s1)
	lbu	a1, 832(s1)
	lbu	a2, 834(s1)
	lbu	a3, 835(s1)
	slli	a0, a0, 8
	or	a0, a0, a1
	sd	a0, 168(sp)
	slli	a2, a2, 16
	slli	a3, a3, 24
	or	a2, a2, a3
	sd	a2, 160(sp)
	lbu	a0, 837(s1)
	lbu	a1, 836(s1)
	lbu	a2, 838(s1)
	lbu	a3, 839(s1)
	slli	a0, a0, 8
	or	a0, a0, a1
	sd	a0, 152(sp)
	slli	a2, a2, 16
	slli	a3, a3, 24
	or	a2, a2, a3
	sd	a2, 144(sp)
	lbu	a0, 841(s1)
	lbu	a1, 840(s1)
	lbu	a2, 842(s1)
	lbu	a3, 843(s1)
	slli	a0, a0, 8
	or	a0, a0, a1
	sd	a0, 136(sp)
	slli	a2, a2, 16
	slli	a3, a3, 24
	or	a2, a2, a3
	sd	a2, 128(sp)
	lbu	a0, 845(s1)
	lbu	a1, 844(s1)
	lbu	a2, 846(s1)
	lbu	a3, 847(s1)
	slli	a0, a0, 8
	or	a0, a0, a1
	sd	a0, 120(sp)
	slli	a2, a2, 16
	slli	a3, a3, 24
	or	a2, a2, a3
	sd	a2, 112(sp)
	lbu	a0, 849(s1)
	lbu	a1, 848(s1)
	lbu	a2, 850(s1)
	lbu	a3, 851(s1)
	slli	a0, a0, 8
	or	a0, a0, a1
	sd	a0, 104(sp)
	slli	a2, a2, 16
	slli	a3, a3, 24
	or	a2, a2, a3
	sd	a2, 96(sp)
	lbu	a2, 853(s1)
	lbu	s2, 852(s1)
	lbu	a0, 854(s1)
	lbu	a1, 855(s1)
	slli	a2, a2, 8
	or	a2, a2, s2
	sd	a2, 88(sp)
	slli	a0, a0, 16
	slli	a1, a1, 24
	or	a0, a0, a1
	sd	a0, 80(sp)
	lbu	a0, 857(s1)
	lbu	s2, 856(s1)
	lbu	s10, 858(s1)
	lbu	s11, 859(s1)
	slli	a0, a0, 8
	or	a0, a0, s2
	sd	a0, 72(sp)
	slli	s10, s10, 16
	slli	s11, s11, 24
	or	a0, s11, s10
	sd	a0, 64(sp)
	lbu	s10, 861(s1)
	lbu	s11, 860(s1)
	lbu	a1, 862(s1)
	lbu	a0, 863(s1)
	slli	s10, s10, 8
	or	a2, s10, s11
	sd	a2, 56(sp)
	slli	a1, a1, 16
	slli	a0, a0, 24
	or	a0, a0, a1
	sd	a0, 48(sp)
	lbu	a2, 865(s1)
	lbu	a3, 864(s1)
	lbu	a1, 866(s1)
	lbu	a0, 867(s1)
	slli	a2, a2, 8
	or	a2, a2, a3
	sd	a2, 40(sp)
	slli	a1, a1, 16
	slli	a0, a0, 24
	or	a0, a0, a1
	sd	a0, 32(sp)
	lbu	a1, 869(s1)
	lbu	a3, 868(s1)
	lbu	a0, 870(s1)
	lbu	s1, 871(s1)
	slli	a1, a1, 8
	or	a1, a1, a3
	sd	a1, 24(sp)
	slli	a0, a0, 16
	slli	s1, s1, 24
	or	t6, s1, a0
	ld	a0, 384(sp)
	ld	a1, 376(sp)
	or	s2, a1, a0
	ld	a0, 368(sp)
	or	s1, s3, a0
	or	s10, t5, s4
	or	s3, s8, s6
	ld	a1, 360(sp)
	ld	a2, 352(sp)
	or	s6, a2, a1
	or	s4, s9, s5
	or	a0, s7, ra
	sd	a0, 384(sp)
	or	a2, a7, a6
	or	a0, t1, t0
	sd	a0, 376(sp)
	or	a3, t3, t2
	ld	a4, 344(sp)
	or	s8, a4, t4
	ld	a4, 336(sp)
	or	a4, a4, a5
	ld	a5, 328(sp)
	ld	a0, 320(sp)
	or	ra, a0, a5
	ld	a0, 312(sp)
	ld	a5, 304(sp)
	or	a5, a5, a0
	ld	a0, 296(sp)
	ld	a1, 288(sp)
	or	a0, a0, a1
	sd	a0, 368(sp)
	ld	a0, 280(sp)
	ld	a1, 272(sp)
	or	a6, a1, a0
	ld	a0, 264(sp)
	ld	a1, 256(sp)
	or	a0, a0, a1
	sd	a0, 360(sp)
	ld	a0, 248(sp)
	ld	a1, 240(sp)
	or	a7, a1, a0
	ld	a0, 232(sp)
	ld	a1, 224(sp)
	or	s5, a1, a0
	ld	a0, 216(sp)
	ld	a1, 208(sp)
	or	t0, a1, a0
	ld	a0, 200(sp)
	ld	a1, 192(sp)
	or	s7, a1, a0
	ld	a0, 184(sp)
	ld	a1, 176(sp)
	or	t1, a1, a0
	ld	a0, 168(sp)
	ld	a1, 160(sp)
	or	s9, a1, a0
	ld	a0, 152(sp)
	ld	a1, 144(sp)
	or	t2, a1, a0
	ld	a0, 136(sp)
	ld	a1, 128(sp)
	or	s11, a1, a0
	ld	a0, 120(sp)
	ld	a1, 112(sp)
	or	t3, a1, a0
	ld	a0, 104(sp)
	ld	a1, 96(sp)
	or	a0, a0, a1
	sd	a0, 352(sp)
	ld	a0, 88(sp)
	ld	a1, 80(sp)
	or	t4, a1, a0
	ld	a0, 72(sp)
	ld	a1, 64(sp)
	or	a0, a0, a1
	sd	a0, 344(sp)
	ld	a0, 56(sp)
	ld	a1, 48(sp)
	or	t5, a1, a0
	ld	a0, 40(sp)
	ld	a1, 32(sp)
	or	a0, a0, a1
	sd	a0, 336(sp)
	ld	a0, 24(sp)
	or	t6, t6, a0
	slli	s1, s1, 32
	or	s2, s1, s2
	slli	a0, s3, 32
	or	s10, a0, s10
	slli	a1, s4, 32
	or	s6, a1, s6
	slli	a2, a2, 32
	ld	a0, 384(sp)
	or	a2, a2, a0
	slli	a3, a3, 32
	ld	a0, 376(sp)
	or	s4, a3, a0
	slli	a4, a4, 32
	or	s8, a4, s8
	slli	a5, a5, 32
	or	ra, a5, ra
	slli	a6, a6, 32
	ld	a0, 368(sp)
	or	a6, a6, a0
	slli	a7, a7, 32
	ld	a0, 360(sp)
	or	a7, a7, a0
	slli	t0, t0, 32
	or	t0, t0, s5
	slli	t1, t1, 32
	or	a3, t1, s7
	slli	t2, t2, 32
	or	a4, t2, s9
	slli	t3, t3, 32
	or	a5, t3, s11
	slli	t4, t4, 32
	ld	a0, 352(sp)
	or	s1, t4, a0
	slli	t5, t5, 32
	ld	a0, 344(sp)
	or	a0, t5, a0
	slli	t6, t6, 32
	ld	a1, 336(sp)
	or	a1, t6, a1
	sd	s2, 472(sp)
	sd	s10, 480(sp)
	sd	s6, 488(sp)
	sd	a2, 496(sp)
	sd	s4, 504(sp)
	sd	s8, 512(sp)
	sd	ra, 520(sp)
	sd	a6, 528(sp)
	sd	a7, 408(sp)
	sd	t0, 416(sp)
	sd	a3, 424(sp)
	sd	a4, 432(sp)
	sd	a5, 440(sp)
	sd	s1, 448(sp)
	ld	s1, 392(sp)
	sd	a0, 456(sp)
	sd	a1, 464(sp)
	addi	a0, sp, 801
	addi	a1, sp, 1608
	li	a2, 271
	call	memcpy
	addi	a0, sp, 536
	addi	a1, sp, 2047
	addi	a1, a1, 97
	li	a2, 264
	call	memcpy
	sw	zero, 400(sp)
	sh	zero, 404(sp)
	sb	zero, 406(sp)
	li	a0, 51
	li	a1, 1
	j	.LBB52a83_18
.LBB52a83_9:
	lbu	a0, 0(s2)
	li	a1, 2
	bne	a0, a1, .LBB52a83_17
	lbu	a0, 1248(s1)
	li	a1, 1
	bne	a0, a1, .LBB52a83_17
	lbu	a0, 1249(s1)
	beqz	a0, .LBB52a83_17
	ld	s2, 584(s1)
	sw	zero, 1072(sp)
	sh	zero, 1076(sp)
	sb	zero, 1078(sp)
	addi	a0, sp, 1880
	li	a2, 264
	li	a1, 0
	call	memset
	li	s3, 253
	bltu	s3, s2, .LBB52a83_14
	addi	a1, s1, 328
	addi	a0, sp, 1880
	mv	a2, s2
	call	memcpy
	lui	a0, 1
	add	a0, a0, sp
	sd	s2, -1960(a0)
.LBB52a83_14:
	ld	s2, 272(s1)
	addi	a0, sp, 1344
	li	a2, 264
	li	a1, 0
	call	memset
	bltu	s3, s2, .LBB52a83_16
	addi	a1, s1, 16
	addi	a0, sp, 1344
	mv	a2, s2
	call	memcpy
	sd	s2, 1600(sp)
.LBB52a83_16:
	addi	a0, sp, 1079
	addi	a1, sp, 1880
	li	a2, 264
	call	memcpy
	addi	a0, sp, 801
	addi	a1, sp, 1072
	li	a2, 271
	call	memcpy
	addi	a0, sp, 536
	addi	a1, sp, 1344
	li	a2, 264
	call	memcpy
	sd	zero, 392(sp)
	lbu	t6, 905(s1)
	lbu	s8, 906(s1)
	lbu	s10, 907(s1)
	lbu	a0, 908(s1)
	lbu	a6, 909(s1)
	lbu	t1, 910(s1)
	lbu	t2, 911(s1)
	lbu	t5, 912(s1)
	lbu	s2, 913(s1)
	lbu	s9, 914(s1)
	lbu	s11, 915(s1)
	lbu	ra, 916(s1)
	lbu	a7, 917(s1)
	lbu	t3, 918(s1)
	lbu	s4, 919(s1)
	lbu	s5, 920(s1)
	lbu	s7, 921(s1)
	lbu	a3, 922(s1)
	lbu	a4, 923(s1)
	lbu	a1, 924(s1)
	lbu	t0, 925(s1)
	lbu	t4, 926(s1)
	lbu	s3, 927(s1)
	lbu	s6, 928(s1)
	slli	s8, s8, 8
	slli	s10, s10, 16
	slli	a0, a0, 24
	or	a2, s8, t6
	sd	a2, 384(sp)
	or	a0, a0, s10
	sd	a0, 376(sp)
	lbu	t6, 929(s1)
	lbu	s8, 930(s1)
	lbu	s10, 931(s1)
	lbu	a2, 932(s1)
	slli	t1, t1, 8
	slli	t2, t2, 16
	slli	t5, t5, 24
	slli	s9, s9, 8
	slli	s11, s11, 16
	slli	ra, ra, 24
	or	a0, t1, a6
	sd	a0, 368(sp)
	or	a0, t5, t2
	sd	a0, 360(sp)
	or	s9, s9, s2
	or	s11, ra, s11
	lbu	a6, 933(s1)
	lbu	t1, 934(s1)
	lbu	t2, 935(s1)
	lbu	t5, 936(s1)
	slli	t3, t3, 8
	slli	s4, s4, 16
	slli	s5, s5, 24
	slli	a3, a3, 8
	slli	a4, a4, 16
	slli	a1, a1, 24
	or	ra, t3, a7
	or	s4, s5, s4
	or	s5, a3, s7
	or	s7, a1, a4
	lbu	t3, 937(s1)
	lbu	a3, 938(s1)
	lbu	a4, 939(s1)
	lbu	a5, 940(s1)
	slli	t4, t4, 8
	slli	s3, s3, 16
	slli	s6, s6, 24
	slli	s8, s8, 8
	slli	s10, s10, 16
	slli	a2, a2, 24
	or	t4, t4, t0
	or	a0, s6, s3
	sd	a0, 312(sp)
	or	s8, s8, t6
	or	a0, a2, s10
	sd	a0, 352(sp)
	lbu	a7, 941(s1)
	lbu	t0, 942(s1)
	lbu	a2, 943(s1)
	lbu	a1, 944(s1)
	slli	t1, t1, 8
	slli	t2, t2, 16
	slli	t5, t5, 24
	slli	a3, a3, 8
	slli	a4, a4, 16
	slli	a5, a5, 24
	or	a6, t1, a6
	or	t1, t5, t2
	or	t2, a3, t3
	or	t3, a5, a4
	lbu	a3, 945(s1)
	lbu	a4, 946(s1)
	lbu	a5, 947(s1)
	lbu	a0, 948(s1)
	slli	t0, t0, 8
	slli	a2, a2, 16
	slli	a1, a1, 24
	slli	a4, a4, 8
	slli	a5, a5, 16
	slli	a0, a0, 24
	or	a7, t0, a7
	or	t0, a1, a2
	or	t5, a4, a3
	or	a4, a0, a5
	lbu	a0, 950(s1)
	lbu	a1, 951(s1)
	lbu	a2, 952(s1)
	lbu	a3, 949(s1)
	slli	a0, a0, 8
	slli	a1, a1, 16
	slli	a2, a2, 24
	or	a0, a0, a3
	sd	a0, 344(sp)
	or	a1, a1, a2
	sd	a1, 336(sp)
	lbu	a0, 954(s1)
	lbu	a1, 953(s1)
	lbu	a2, 955(s1)
	lbu	a3, 956(s1)
	slli	a0, a0, 8
	or	a0, a0, a1
	sd	a0, 328(sp)
	slli	a2, a2, 16
	slli	a3, a3, 24
	or	a2, a2, a3
	sd	a2, 320(sp)
	lbu	a0, 958(s1)
	lbu	a1, 957(s1)
	lbu	a2, 959(s1)
	lbu	a3, 960(s1)
	slli	a0, a0, 8
	or	a0, a0, a1
	sd	a0, 304(sp)
	slli	a2, a2, 16
	slli	a3, a3, 24
	or	a2, a2, a3
	sd	a2, 296(sp)
	lbu	a0, 962(s1)
	lbu	a1, 961(s1)
	lbu	a2, 963(s1)
	lbu	a3, 964(s1)
	slli	a0, a0, 8
	or	a0, a0, a1
	sd	a0, 288(sp)
	slli	a2, a2, 16
	slli	a3, a3, 24
	or	a2, a2, a3
	sd	a2, 280(sp)
	lbu	a0, 966(s1)
	lbu	a1, 965(s1)
	lbu	a2, 967(s1)
	lbu	a3, 968(s1)
	slli	a0, a0, 8
	or	a0, a0, a1
	sd	a0, 272(sp)
	slli	a2, a2, 16
	slli	a3, a3, 24
	or	a2, a2, a3
	sd	a2, 264(sp)
	lbu	a0, 970(s1)
	lbu	a1, 969(s1)
	lbu	a2, 971(s1)
	lbu	a3, 972(s1)
	slli	a0, a0, 8
	or	a0, a0, a1
	sd	a0, 256(sp)
	slli	a2, a2, 16
	slli	a3, a3, 24
	or	a2, a2, a3
	sd	a2, 248(sp)
	lbu	a0, 974(s1)
	lbu	a1, 973(s1)
	lbu	a2, 975(s1)
	lbu	a3, 976(s1)
	slli	a0, a0, 8
	or	a0, a0, a1
	sd	a0, 240(sp)
	slli	a2, a2, 16
	slli	a3, a3, 24
	or	a2, a2, a3
	sd	a2, 232(sp)
	lbu	a0, 978(s1)
	lbu	a1, 977(s1)
	lbu	a2, 979(s1)
	lbu	a3, 980(s1)
	slli	a0, a0, 8
	or	a0, a0, a1
	sd	a0, 224(sp)
	slli	a2, a2, 16
	slli	a3, a3, 24
	or	a2, a2, a3
	sd	a2, 216(sp)
	lbu	a0, 982(s1)
	lbu	a1, 981(s1)
	lbu	a2, 983(s1)
	lbu	a3, 984(s1)
	slli	a0, a0, 8
	or	a0, a0, a1
	sd	a0, 208(sp)
	slli	a2, a2, 16
	slli	a3, a3, 24
	or	a2, a2, a3
	sd	a2, 200(sp)
	lbu	a0, 986(s1)
	lbu	a1, 985(s1)
	lbu	a2, 987(s1)
	lbu	a3, 988(s1)
	slli	a0, a0, 8
	or	a0, a0, a1
	sd	a0, 192(sp)
	slli	a2, a2, 16
	slli	a3, a3, 24
	or	a2, a2, a3
	sd	a2, 184(sp)
	lbu	a0, 990(s1)
	lbu	a1, 989(s1)
	lbu	a2, 991(s1)
	lbu	a3, 992(s1)
	slli	a0, a0, 8
	or	a0, a0, a1
	sd	a0, 176(sp)
	slli	a2, a2, 16
	slli	a3, a3, 24
	or	a2, a2, a3
	sd	a2, 168(sp)
	lbu	a0, 994(s1)
	lbu	a1, 993(s1)
	lbu	a2, 995(s1)
	lbu	a3, 996(s1)
	slli	a0, a0, 8
	or	a0, a0, a1
	sd	a0, 160(sp)
	slli	a2, a2, 16
	slli	a3, a3, 24
	or	a2, a2, a3
	sd	a2, 152(sp)
	lbu	a0, 998(s1)
	lbu	a1, 997(s1)
	lbu	a2, 999(s1)
	lbu	a3, 1000(s1)
	slli	a0, a0, 8
	or	a0, a0, a1
	sd	a0, 144(sp)
	slli	a2, a2, 16
	slli	a3, a3, 24
	or	a2, a2, a3
	sd	a2, 136(sp)
	lbu	a0, 1002(s1)
	lbu	a1, 1001(s1)
	lbu	a2, 1003(s1)
	lbu	a3, 1004(s1)
	slli	a0, a0, 8
	or	a0, a0, a1
	sd	a0, 128(sp)
	slli	a2, a2, 16
	slli	a3, a3, 24
	or	a2, a2, a3
	sd	a2, 120(sp)
	lbu	a0, 1006(s1)
	lbu	a1, 1005(s1)
	lbu	a2, 1007(s1)
	lbu	a3, 1008(s1)
	slli	a0, a0, 8
	or	a0, a0, a1
	sd	a0, 112(sp)
	slli	a2, a2, 16
	slli	a3, a3, 24
	or	a2, a2, a3
	sd	a2, 104(sp)
	lbu	a0, 1010(s1)
	lbu	a1, 1009(s1)
	lbu	a2, 1011(s1)
	lbu	a3, 1012(s1)
	slli	a0, a0, 8
	or	a0, a0, a1
	sd	a0, 96(sp)
	slli	a2, a2, 16
	slli	a3, a3, 24
	or	a2, a2, a3
	sd	a2, 88(sp)
	lbu	a0, 1014(s1)
	lbu	a1, 1013(s1)
	lbu	a2, 1015(s1)
	lbu	a3, 1016(s1)
	slli	a0, a0, 8
	or	a0, a0, a1
	sd	a0, 80(sp)
	slli	a2, a2, 16
	slli	a3, a3, 24
	or	a2, a2, a3
	sd	a2, 72(sp)
	lbu	a2, 1018(s1)
	lbu	a1, 1017(s1)
	lbu	a5, 1019(s1)
	lbu	a0, 1020(s1)
	slli	a2, a2, 8
	or	a1, a1, a2
	sd	a1, 64(sp)
	slli	a5, a5, 16
	slli	a0, a0, 24
	or	a0, a0, a5
	sd	a0, 56(sp)
	lbu	a2, 1022(s1)
	lbu	a5, 1021(s1)
	lbu	a1, 1023(s1)
	lbu	a0, 1024(s1)
	slli	a2, a2, 8
	or	a2, a2, a5
	sd	a2, 48(sp)
	slli	a1, a1, 16
	slli	a0, a0, 24
	or	a0, a0, a1
	sd	a0, 40(sp)
	lbu	a2, 1026(s1)
	lbu	a3, 1025(s1)
	lbu	a1, 1027(s1)
	lbu	a0, 1028(s1)
	slli	a2, a2, 8
	or	a2, a2, a3
	sd	a2, 32(sp)
	slli	a1, a1, 16
	slli	a0, a0, 24
	or	a0, a0, a1
	sd	a0, 24(sp)
	lbu	a1, 1030(s1)
	lbu	a3, 1029(s1)
	lbu	a0, 1031(s1)
	lbu	s1, 1032(s1)
	slli	a1, a1, 8
	or	a1, a1, a3
	sd	a1, 16(sp)
	slli	a0, a0, 16
	slli	s1, s1, 24
	or	t6, s1, a0
	ld	a0, 384(sp)
	ld	a1, 376(sp)
	or	s2, a1, a0
	ld	a0, 368(sp)
	ld	s1, 360(sp)
	or	s1, s1, a0
	or	s10, s11, s9
	or	s3, s4, ra
	or	s6, s7, s5
	ld	a0, 312(sp)
	or	s4, a0, t4
	ld	a2, 352(sp)
	or	a0, a2, s8
	sd	a0, 384(sp)
	or	a2, t1, a6
	or	a0, t3, t2
	sd	a0, 376(sp)
	or	a3, t0, a7
	or	s8, a4, t5
	ld	a4, 344(sp)
	ld	a5, 336(sp)
	or	a4, a4, a5
	ld	a5, 328(sp)
	ld	a0, 320(sp)
	or	ra, a0, a5
	ld	a0, 304(sp)
	ld	a5, 296(sp)
	or	a5, a5, a0
	ld	a0, 288(sp)
	ld	a1, 280(sp)
	or	a0, a0, a1
	sd	a0, 368(sp)
	ld	a0, 272(sp)
	ld	a1, 264(sp)
	or	a6, a1, a0
	ld	a0, 256(sp)
	ld	a1, 248(sp)
	or	a0, a0, a1
	sd	a0, 360(sp)
	ld	a0, 240(sp)
	ld	a1, 232(sp)
	or	a7, a1, a0
	ld	a0, 224(sp)
	ld	a1, 216(sp)
	or	s5, a1, a0
	ld	a0, 208(sp)
	ld	a1, 200(sp)
	or	t0, a1, a0
	ld	a0, 192(sp)
	ld	a1, 184(sp)
	or	s7, a1, a0
	ld	a0, 176(sp)
	ld	a1, 168(sp)
	or	t1, a1, a0
	ld	a0, 160(sp)
	ld	a1, 152(sp)
	or	s9, a1, a0
	ld	a0, 144(sp)
	ld	a1, 136(sp)
	or	t2, a1, a0
	ld	a0, 128(sp)
	ld	a1, 120(sp)
	or	s11, a1, a0
	ld	a0, 112(sp)
	ld	a1, 104(sp)
	or	t3, a1, a0
	ld	a0, 96(sp)
	ld	a1, 88(sp)
	or	a0, a0, a1
	sd	a0, 352(sp)
	ld	a0, 80(sp)
	ld	a1, 72(sp)
	or	t4, a1, a0
	ld	a0, 64(sp)
	ld	a1, 56(sp)
	or	a0, a0, a1
	sd	a0, 344(sp)
	ld	a0, 48(sp)
	ld	a1, 40(sp)
	or	t5, a1, a0
	ld	a0, 32(sp)
	ld	a1, 24(sp)
	or	a0, a0, a1
	sd	a0, 336(sp)
	ld	a0, 16(sp)
	or	t6, t6, a0
	slli	s1, s1, 32
	or	s2, s1, s2
	slli	a0, s3, 32
	or	s10, a0, s10
	slli	a1, s4, 32
	or	s6, a1, s6
	slli	a2, a2, 32
	ld	a0, 384(sp)
	or	a2, a2, a0
	slli	a3, a3, 32
	ld	a0, 376(sp)
	or	s4, a3, a0
	slli	a4, a4, 32
	or	a4, a4, s8
	slli	a5, a5, 32
	or	a5, a5, ra
	slli	a6, a6, 32
	ld	a0, 368(sp)
	or	s1, a6, a0
	slli	a7, a7, 32
	ld	a0, 360(sp)
	or	a6, a7, a0
	slli	t0, t0, 32
	or	a7, t0, s5
	slli	t1, t1, 32
	or	s3, t1, s7
	slli	t2, t2, 32
	or	a0, t2, s9
	slli	t3, t3, 32
	or	t0, t3, s11
	slli	t4, t4, 32
	ld	a1, 352(sp)
	or	t1, t4, a1
	slli	t5, t5, 32
	ld	a1, 344(sp)
	or	a1, t5, a1
	slli	t6, t6, 32
	ld	a3, 336(sp)
	or	a3, t6, a3
	sd	s2, 472(sp)
	sd	s10, 480(sp)
	sd	s6, 488(sp)
	sd	a2, 496(sp)
	sd	s4, 504(sp)
	sd	a4, 512(sp)
	sd	a5, 520(sp)
	sd	s1, 528(sp)
	ld	s1, 392(sp)
	sw	zero, 400(sp)
	sh	zero, 404(sp)
	sb	zero, 406(sp)
	sd	a6, 408(sp)
	sd	a7, 416(sp)
	sd	s3, 424(sp)
	sd	a0, 432(sp)
	li	a0, 47
	sd	t0, 440(sp)
	sd	t1, 448(sp)
	sd	a1, 456(sp)
	sd	a3, 464(sp)
	li	a1, 1
	j	.LBB52a83_18
.LBB52a83_17:
	addi	a0, sp, 801
	li	a2, 271
	li	a1, 0
	call	memset
	addi	a0, sp, 536
	li	a2, 264
	li	a1, 0
	call	memset
	li	a1, 0
	li	a0, 0
	li	s1, 0
	sd	zero, 472(sp)
	sd	zero, 480(sp)
	sd	zero, 488(sp)
	sd	zero, 496(sp)
	sd	zero, 504(sp)
	sd	zero, 512(sp)
	sd	zero, 520(sp)
	sd	zero, 528(sp)
	sd	zero, 408(sp)
	sd	zero, 416(sp)
	sd	zero, 424(sp)
	sd	zero, 432(sp)
	sd	zero, 440(sp)
	sd	zero, 448(sp)
	sd	zero, 456(sp)
	sd	zero, 464(sp)
	sw	zero, 400(sp)
	sh	zero, 404(sp)
	sb	zero, 406(sp)
.LBB52a83_18:
	sb	zero, 4(s0)
	sb	zero, 5(s0)
	sb	zero, 6(s0)
	sb	zero, 7(s0)
	sb	a1, 0(s0)
	sb	zero, 1(s0)
	sb	zero, 2(s0)
	sb	zero, 3(s0)
	sb	a0, 8(s0)
	addi	a0, s0, 9
	addi	a1, sp, 801
	li	a2, 271
	call	memcpy
	addi	a0, s0, 280
	addi	a1, sp, 536
	li	a2, 264
	call	memcpy
	sb	s1, 544(s0)
	addi	a0, s0, 545
	addi	a1, sp, 472
	li	a2, 64
	call	memcpy
	addi	a0, s0, 609
	addi	a1, sp, 408
	li	a2, 64
	call	memcpy
	lbu	a0, 400(sp)
	lbu	a1, 401(sp)
	lbu	a2, 402(sp)
	lbu	a3, 403(sp)
	lbu	a4, 404(sp)
	lbu	a5, 405(sp)
	lbu	s1, 406(sp)
	sb	a0, 673(s0)
	sb	a1, 674(s0)
	sb	a2, 675(s0)
	sb	a3, 676(s0)
	sb	a4, 677(s0)
	sb	a5, 678(s0)
	sb	s1, 679(s0)
	addi	sp, sp, 2016
	ld	ra, 488(sp)
	ld	s0, 480(sp)
	ld	s1, 472(sp)
	ld	s2, 464(sp)
	ld	s3, 456(sp)
	ld	s4, 448(sp)
	ld	s5, 440(sp)
	ld	s6, 432(sp)
	ld	s7, 424(sp)
	ld	s8, 416(sp)
	ld	s9, 408(sp)
	ld	s10, 400(sp)
	ld	s11, 392(sp)
	addi	sp, sp, 496
	ret
.Lfunc_end52a83:
	.size	end_objects.objects.ServerObjectServerMethod.report, .Lfunc_end52a83-end_objects.objects.ServerObjectServerMethod.report

	.section	".text.tuvaddri_c::held::Object::nonces","ax",@progbits
	.p2align	1
	.type	tuvaddri_c.held.Object.nonces,@function
tuvaddri_c.held.Object.nonces:
	addi	sp, sp, -112
	sd	ra, 104(sp)
	sd	s0, 96(sp)
	sd	s1, 88(sp)
	mv	s1, a1
	mv	s0, a0
	mv	a0, sp
	li	a2, 88
	li	a1, 0
	call	memset
	lbu	a0, 0(s1)
	beqz	a0, .LBB98a74_4
	li	a1, 2
	bne	a0, a1, .LBB98a74_3
	ld	a1, 8(s1)
	mv	a0, sp
	call	end_objects.objects.ServerObject.nonces
	j	.LBB98a74_4
.LBB98a74_3:
	ld	a1, 8(s1)
	mv	a0, sp
	call	end_objects.objects.PeerObject.nonces
.LBB98a74_4:
	lbu	a0, 0(sp)
	addi	a1, sp, 8
	sb	zero, 4(s0)
	sb	zero, 5(s0)
	sb	zero, 6(s0)
	sb	zero, 7(s0)
	sb	a0, 0(s0)
	sb	zero, 1(s0)
	sb	zero, 2(s0)
	sb	zero, 3(s0)
	addi	a0, s0, 8
	li	a2, 80
	call	memcpy
	ld	ra, 104(sp)
	ld	s0, 96(sp)
	ld	s1, 88(sp)
	addi	sp, sp, 112
	ret
.Lfunc_end98a74:
	.size	tuvaddri_c.held.Object.nonces, .Lfunc_end98a74-tuvaddri_c.held.Object.nonces

	.section	".text.end_objects::objects::PeerObject::nonces","ax",@progbits
	.p2align	1
	.type	end_objects.objects.PeerObject.nonces,@function
end_objects.objects.PeerObject.nonces:
	addi	sp, sp, -432
	sd	ra, 424(sp)
	sd	s0, 416(sp)
	sd	s1, 408(sp)
	sd	s2, 400(sp)
	sd	s3, 392(sp)
	sd	s4, 384(sp)
	sd	s5, 376(sp)
	sd	s6, 368(sp)
	sd	s7, 360(sp)
	sd	s8, 352(sp)
	sd	s9, 344(sp)
	sd	s10, 336(sp)
	sd	s11, 328(sp)
	mv	s1, a1
	mv	s0, a0
	addi	a0, sp, 144
	li	a2, 88
	li	a1, 0
	call	memset
	lbu	a1, 0(s1)
	lbu	a0, 664(s1)
	beqz	a1, .LBBb7448_7
	li	a1, 2
	bne	a0, a1, .LBBb7448_5
	lbu	a0, 1160(s1)
	li	a1, 1
	bne	a0, a1, .LBBb7448_5
	lbu	a0, 1161(s1)
	beqz	a0, .LBBb7448_5
	lbu	a1, 632(s1)
	lbu	a0, 633(s1)
	lbu	a7, 634(s1)
	lbu	t1, 635(s1)
	lbu	a5, 636(s1)
	lbu	t2, 637(s1)
	lbu	t6, 638(s1)
	lbu	s5, 639(s1)
	lbu	ra, 640(s1)
	lbu	a2, 641(s1)
	lbu	t4, 642(s1)
	lbu	t5, 643(s1)
	lbu	a3, 644(s1)
	sd	a3, 48(sp)
	lbu	s7, 645(s1)
	lbu	s9, 646(s1)
	lbu	t0, 647(s1)
	lbu	a6, 648(s1)
	lbu	a4, 649(s1)
	lbu	s2, 650(s1)
	lbu	s4, 651(s1)
	lbu	s3, 652(s1)
	lbu	s6, 653(s1)
	lbu	s10, 654(s1)
	lbu	t3, 655(s1)
	slli	a0, a0, 8
	or	a0, a0, a1
	sd	a0, 96(sp)
	lbu	a3, 656(s1)
	lbu	a1, 657(s1)
	lbu	s8, 658(s1)
	lbu	s11, 659(s1)
	slli	a7, a7, 16
	slli	t1, t1, 24
	slli	t2, t2, 8
	slli	t6, t6, 16
	slli	s5, s5, 24
	slli	a2, a2, 8
	or	a0, t1, a7
	sd	a0, 88(sp)
	or	a0, t2, a5
	sd	a0, 80(sp)
	or	a0, s5, t6
	sd	a0, 72(sp)
	or	a0, a2, ra
	sd	a0, 64(sp)
	lbu	ra, 660(s1)
	lbu	a2, 661(s1)
	lbu	s5, 662(s1)
	lbu	a0, 663(s1)
	slli	t4, t4, 16
	slli	t5, t5, 24
	slli	s7, s7, 8
	slli	s9, s9, 16
	slli	t0, t0, 24
	slli	a4, a4, 8
	or	a5, t5, t4
	sd	a5, 56(sp)
	ld	a5, 48(sp)
	or	a5, s7, a5
	sd	a5, 48(sp)
	or	a5, t0, s9
	sd	a5, 40(sp)
	or	a4, a4, a6
	sd	a4, 32(sp)
	lbu	s9, 672(s1)
	lbu	a5, 673(s1)
	lbu	t0, 674(s1)
	lbu	s7, 675(s1)
	slli	s2, s2, 16
	slli	s4, s4, 24
	slli	s6, s6, 8
	slli	s10, s10, 16
	slli	a6, t3, 24
	slli	a1, a1, 8
	or	a4, s4, s2
	sd	a4, 24(sp)
	or	a4, s6, s3
	sd	a4, 16(sp)
	or	s3, a6, s10
	or	t6, a1, a3
	lbu	a1, 676(s1)
	lbu	s10, 677(s1)
	lbu	a4, 678(s1)
	lbu	a3, 679(s1)
	slli	s8, s8, 16
	slli	s11, s11, 24
	slli	a2, a2, 8
	slli	s5, s5, 16
	slli	a0, a0, 24
	slli	a5, a5, 8
	or	s6, s11, s8
	or	a2, a2, ra
	sd	a2, 8(sp)
	or	t5, a0, s5
	or	s4, a5, s9
	lbu	a0, 680(s1)
	lbu	s11, 681(s1)
	lbu	s5, 682(s1)
	lbu	a5, 683(s1)
	slli	t0, t0, 16
	slli	s7, s7, 24
	slli	ra, s10, 8
	slli	a4, a4, 16
	slli	a3, a3, 24
	slli	a2, s11, 8
	or	s10, s7, t0
	or	s11, ra, a1
	or	ra, a3, a4
	or	s9, a2, a0
	lbu	a2, 684(s1)
	lbu	a1, 685(s1)
	lbu	a3, 686(s1)
	lbu	a4, 687(s1)
	slli	s5, s5, 16
	slli	a5, a5, 24
	slli	a1, a1, 8
	slli	a3, a3, 16
	slli	a0, a4, 24
	or	t4, a5, s5
	or	s8, a1, a2
	or	t3, a0, a3
	lbu	a1, 689(s1)
	lbu	a2, 688(s1)
	lbu	a3, 690(s1)
	lbu	a4, 691(s1)
	slli	a1, a1, 8
	or	s7, a1, a2
	slli	a3, a3, 16
	slli	a1, a4, 24
	or	t1, a1, a3
	lbu	a2, 693(s1)
	lbu	a3, 692(s1)
	lbu	a4, 694(s1)
	lbu	a0, 695(s1)
	slli	a2, a2, 8
	or	s5, a2, a3
	slli	a4, a4, 16
	slli	a0, a0, 24
	or	a7, a0, a4
	lbu	a3, 697(s1)
	lbu	a4, 696(s1)
	lbu	a1, 698(s1)
	lbu	a0, 699(s1)
	slli	a3, a3, 8
	or	t2, a3, a4
	slli	a1, a1, 16
	slli	a0, a0, 24
	or	a6, a0, a1
	lbu	a1, 701(s1)
	lbu	a4, 700(s1)
	lbu	a0, 702(s1)
	lbu	s1, 703(s1)
	slli	a1, a1, 8
	or	t0, a1, a4
	slli	a0, a0, 16
	slli	s1, s1, 24
	or	a1, s1, a0
	ld	a0, 96(sp)
	ld	a4, 88(sp)
	or	a4, a4, a0
	ld	a0, 80(sp)
	ld	s1, 72(sp)
	or	s1, s1, a0
	ld	a0, 64(sp)
	ld	a2, 56(sp)
	or	a2, a2, a0
	ld	a0, 48(sp)
	ld	s2, 40(sp)
	or	a0, s2, a0
	ld	a5, 32(sp)
	ld	a3, 24(sp)
	or	s2, a3, a5
	ld	a3, 16(sp)
	or	s3, s3, a3
	or	t6, s6, t6
	ld	a3, 8(sp)
	or	t5, t5, a3
	or	s4, s10, s4
	or	s6, ra, s11
	or	t4, t4, s9
	or	t3, t3, s8
	or	t1, t1, s7
	or	a7, a7, s5
	or	a6, a6, t2
	or	a1, a1, t0
	slli	s1, s1, 32
	or	t0, s1, a4
	slli	a0, a0, 32
	or	t2, a0, a2
	slli	s3, s3, 32
	or	a2, s3, s2
	slli	t5, t5, 32
	or	a3, t5, t6
	slli	s6, s6, 32
	or	s1, s6, s4
	slli	t3, t3, 32
	or	a5, t3, t4
	slli	a7, a7, 32
	or	a4, a7, t1
	slli	a1, a1, 32
	or	a0, a1, a6
	sd	t0, 296(sp)
	sd	t2, 304(sp)
	sd	a2, 312(sp)
	sd	a3, 320(sp)
	li	a1, 32
	sd	s1, 264(sp)
	sd	a5, 272(sp)
	sd	a4, 280(sp)
	sd	a0, 288(sp)
	li	a0, 1
	j	.LBBb7448_6
.LBBb7448_5:
	li	a0, 0
	li	a1, 0
	sd	zero, 296(sp)
	sd	zero, 304(sp)
	sd	zero, 312(sp)
	sd	zero, 320(sp)
	sd	zero, 264(sp)
	sd	zero, 272(sp)
	sd	zero, 280(sp)
	sd	zero, 288(sp)
.LBBb7448_6:
	ld	a2, 296(sp)
	ld	a3, 304(sp)
	ld	a4, 312(sp)
	ld	a5, 320(sp)
	sd	a2, 152(sp)
	sd	a3, 160(sp)
	sd	a4, 168(sp)
	sd	a5, 176(sp)
	ld	a2, 264(sp)
	ld	a3, 272(sp)
	ld	a4, 280(sp)
	ld	a5, 288(sp)
	sd	a1, 184(sp)
	sd	a2, 192(sp)
	sd	a3, 200(sp)
	sd	a4, 208(sp)
	sd	a5, 216(sp)
	sd	a1, 224(sp)
	j	.LBBb7448_13
.LBBb7448_7:
	li	a1, 2
	bne	a0, a1, .LBBb7448_11
	lbu	a0, 1241(s1)
	li	a1, 1
	bne	a0, a1, .LBBb7448_11
	lbu	a0, 1242(s1)
	beqz	a0, .LBBb7448_11
	lbu	a0, 640(s1)
	lbu	a1, 641(s1)
	lbu	a2, 642(s1)
	lbu	a3, 643(s1)
	lbu	a6, 644(s1)
	lbu	a7, 645(s1)
	lbu	a4, 646(s1)
	lbu	a5, 647(s1)
	slli	a1, a1, 8
	slli	a2, a2, 16
	slli	a3, a3, 24
	or	t0, a1, a0
	or	t1, a3, a2
	lbu	a1, 632(s1)
	lbu	a3, 633(s1)
	lbu	a0, 634(s1)
	lbu	a2, 635(s1)
	slli	a7, a7, 8
	slli	a4, a4, 16
	slli	a5, a5, 24
	slli	a3, a3, 8
	slli	a0, a0, 16
	slli	a2, a2, 24
	or	a6, a7, a6
	or	a4, a4, a5
	or	a7, a3, a1
	or	a0, a0, a2
	lbu	a2, 637(s1)
	lbu	a3, 636(s1)
	lbu	a5, 638(s1)
	lbu	a1, 639(s1)
	slli	a2, a2, 8
	or	a2, a2, a3
	slli	a5, a5, 16
	slli	a1, a1, 24
	or	a5, a5, a1
	or	a3, t1, t0
	or	a4, a4, a6
	or	a0, a0, a7
	addi	a1, s1, 665
	or	a2, a2, a5
	slli	a4, a4, 32
	slli	a2, a2, 32
	or	a3, a3, a4
	or	a0, a0, a2
	sd	a0, 232(sp)
	sd	a3, 240(sp)
	addi	a0, sp, 248
	li	a2, 16
	call	memcpy
	li	a0, 1
	sb	a0, 104(sp)
	addi	a0, sp, 105
	addi	a1, sp, 232
	li	a2, 32
	call	memcpy
	j	.LBBb7448_12
.LBBb7448_11:
	sb	zero, 136(sp)
	sd	zero, 104(sp)
	sd	zero, 112(sp)
	sd	zero, 120(sp)
	sd	zero, 128(sp)
.LBBb7448_12:
	addi	a0, sp, 144
	addi	a1, sp, 104
	call	core.option.Option.map.__a461da79b7f3d327_
	lbu	a0, 144(sp)
.LBBb7448_13:
	addi	a1, sp, 152
	sb	zero, 4(s0)
	sb	zero, 5(s0)
	sb	zero, 6(s0)
	sb	zero, 7(s0)
	sb	a0, 0(s0)
	sb	zero, 1(s0)
	sb	zero, 2(s0)
	sb	zero, 3(s0)
	addi	a0, s0, 8
	li	a2, 80
	call	memcpy
	ld	ra, 424(sp)
	ld	s0, 416(sp)
	ld	s1, 408(sp)
	ld	s2, 400(sp)
	ld	s3, 392(sp)
	ld	s4, 384(sp)
	ld	s5, 376(sp)
	ld	s6, 368(sp)
	ld	s7, 360(sp)
	ld	s8, 352(sp)
	ld	s9, 344(sp)
	ld	s10, 336(sp)
	ld	s11, 328(sp)
	addi	sp, sp, 432
	ret
.Lfunc_endb7448:
	.size	end_objects.objects.PeerObject.nonces, .Lfunc_endb7448-end_objects.objects.PeerObject.nonces

	.section	".text.core::option::Option::map::<#a461da79b7f3d327>","ax",@progbits
	.p2align	1
	.type	core.option.Option.map.__a461da79b7f3d327_,@function
core.option.Option.map.__a461da79b7f3d327_:
	addi	sp, sp, -272
	sd	ra, 264(sp)
	sd	s0, 256(sp)
	sd	s1, 248(sp)
	sd	s2, 240(sp)
	sd	s3, 232(sp)
	sd	s4, 224(sp)
	sd	s5, 216(sp)
	sd	s6, 208(sp)
	sd	s7, 200(sp)
	mv	s0, a0
	li	s1, 0
	lbu	t0, 0(a1)
	sd	zero, 104(sp)
	sd	zero, 112(sp)
	sd	zero, 120(sp)
	sd	zero, 128(sp)
	li	a2, 1
	sd	zero, 72(sp)
	sd	zero, 80(sp)
	sd	zero, 88(sp)
	sd	zero, 96(sp)
	bne	t0, a2, .LBB7ea13_2
	lbu	a6, 1(a1)
	lbu	a7, 2(a1)
	lbu	a4, 3(a1)
	lbu	a5, 4(a1)
	lbu	s1, 5(a1)
	lbu	a0, 6(a1)
	lbu	t1, 7(a1)
	lbu	t2, 8(a1)
	lbu	t3, 9(a1)
	lbu	t4, 10(a1)
	lbu	t6, 11(a1)
	lbu	a3, 12(a1)
	lbu	t5, 13(a1)
	lbu	a2, 14(a1)
	lbu	s2, 15(a1)
	lbu	s3, 16(a1)
	slli	a7, a7, 8
	slli	a4, a4, 16
	slli	a5, a5, 24
	slli	a0, a0, 8
	or	a6, a7, a6
	or	a7, a5, a4
	or	s4, a0, s1
	lbu	s5, 17(a1)
	lbu	s6, 18(a1)
	lbu	a5, 19(a1)
	lbu	s1, 20(a1)
	slli	t1, t1, 16
	slli	t2, t2, 24
	slli	t4, t4, 8
	slli	t6, t6, 16
	slli	a3, a3, 24
	slli	a2, a2, 8
	or	t1, t2, t1
	or	t2, t4, t3
	or	t3, a3, t6
	or	t4, a2, t5
	lbu	a2, 21(a1)
	lbu	a3, 22(a1)
	lbu	a0, 23(a1)
	lbu	a4, 24(a1)
	slli	s2, s2, 16
	slli	s3, s3, 24
	slli	s6, s6, 8
	slli	a5, a5, 16
	slli	s1, s1, 24
	slli	a3, a3, 8
	or	t5, s3, s2
	or	t6, s6, s5
	or	s3, s1, a5
	or	s2, a3, a2
	lbu	a3, 25(a1)
	lbu	s1, 26(a1)
	lbu	a2, 27(a1)
	lbu	a5, 28(a1)
	slli	a0, a0, 16
	slli	a4, a4, 24
	slli	s1, s1, 8
	slli	a2, a2, 16
	slli	a5, a5, 24
	or	s5, a4, a0
	or	s6, s1, a3
	or	s7, a5, a2
	lbu	a4, 30(a1)
	lbu	a5, 29(a1)
	lbu	s1, 31(a1)
	lbu	a1, 32(a1)
	slli	a4, a4, 8
	or	a4, a4, a5
	slli	s1, s1, 16
	slli	a1, a1, 24
	or	a1, a1, s1
	or	a6, a7, a6
	or	s1, t1, s4
	or	a7, t3, t2
	or	a3, t5, t4
	or	a2, s3, t6
	or	a5, s5, s2
	or	a0, s7, s6
	or	a1, a1, a4
	slli	s1, s1, 32
	slli	a3, a3, 32
	slli	a5, a5, 32
	slli	a1, a1, 32
	or	a4, s1, a6
	or	a3, a3, a7
	or	a2, a2, a5
	or	a0, a0, a1
	sd	a4, 136(sp)
	sd	a3, 144(sp)
	sd	zero, 152(sp)
	sd	zero, 160(sp)
	sd	a2, 168(sp)
	sd	a0, 176(sp)
	sd	zero, 184(sp)
	sd	zero, 192(sp)
	sd	a4, 40(sp)
	sd	a3, 48(sp)
	sd	zero, 56(sp)
	sd	zero, 64(sp)
	sd	a2, 8(sp)
	sd	a0, 16(sp)
	sd	zero, 24(sp)
	sd	zero, 32(sp)
	ld	a6, 40(sp)
	ld	a1, 48(sp)
	ld	a2, 56(sp)
	ld	a3, 64(sp)
	ld	a4, 8(sp)
	ld	a5, 16(sp)
	ld	s1, 24(sp)
	ld	a0, 32(sp)
	sd	a6, 104(sp)
	sd	a1, 112(sp)
	sd	a2, 120(sp)
	sd	a3, 128(sp)
	sd	a4, 72(sp)
	sd	a5, 80(sp)
	sd	s1, 88(sp)
	sd	a0, 96(sp)
	li	s1, 16
.LBB7ea13_2:
	sb	zero, 4(s0)
	sb	zero, 5(s0)
	sb	zero, 6(s0)
	sb	zero, 7(s0)
	sb	t0, 0(s0)
	sb	zero, 1(s0)
	sb	zero, 2(s0)
	sb	zero, 3(s0)
	addi	a0, s0, 8
	addi	a1, sp, 104
	li	a2, 32
	call	memcpy
	sb	zero, 44(s0)
	sb	zero, 45(s0)
	sb	zero, 46(s0)
	sb	zero, 47(s0)
	sb	s1, 40(s0)
	sb	zero, 41(s0)
	sb	zero, 42(s0)
	sb	zero, 43(s0)
	addi	a0, s0, 48
	addi	a1, sp, 72
	li	a2, 32
	call	memcpy
	sb	zero, 84(s0)
	sb	zero, 85(s0)
	sb	zero, 86(s0)
	sb	zero, 87(s0)
	sb	s1, 80(s0)
	sb	zero, 81(s0)
	sb	zero, 82(s0)
	sb	zero, 83(s0)
	ld	ra, 264(sp)
	ld	s0, 256(sp)
	ld	s1, 248(sp)
	ld	s2, 240(sp)
	ld	s3, 232(sp)
	ld	s4, 224(sp)
	ld	s5, 216(sp)
	ld	s6, 208(sp)
	ld	s7, 200(sp)
	addi	sp, sp, 272
	ret
.Lfunc_end7ea13:
	.size	core.option.Option.map.__a461da79b7f3d327_, .Lfunc_end7ea13-core.option.Option.map.__a461da79b7f3d327_

	.section	".text.end_objects::objects::ServerObject::nonces","ax",@progbits
	.p2align	1
	.type	end_objects.objects.ServerObject.nonces,@function
end_objects.objects.ServerObject.nonces:
	addi	sp, sp, -432
	sd	ra, 424(sp)
	sd	s0, 416(sp)
	sd	s1, 408(sp)
	sd	s2, 400(sp)
	sd	s3, 392(sp)
	sd	s4, 384(sp)
	sd	s5, 376(sp)
	sd	s6, 368(sp)
	sd	s7, 360(sp)
	sd	s8, 352(sp)
	sd	s9, 344(sp)
	sd	s10, 336(sp)
	sd	s11, 328(sp)
	mv	s1, a1
	mv	s0, a0
	addi	a0, sp, 144
	li	a2, 88
	li	a1, 0
	call	memset
	lbu	a0, 0(s1)
	beqz	a0, .LBBfab5f_7
	lbu	a1, 320(s1)
	li	a0, 2
	bne	a1, a0, .LBBfab5f_5
	lbu	a1, 1152(s1)
	bne	a1, a0, .LBBfab5f_5
	lbu	a0, 1153(s1)
	beqz	a0, .LBBfab5f_5
	lbu	a1, 664(s1)
	lbu	a0, 665(s1)
	lbu	a7, 666(s1)
	lbu	t1, 667(s1)
	lbu	a5, 668(s1)
	lbu	t2, 669(s1)
	lbu	t6, 670(s1)
	lbu	s5, 671(s1)
	lbu	ra, 672(s1)
	lbu	a2, 673(s1)
	lbu	t4, 674(s1)
	lbu	t5, 675(s1)
	lbu	a3, 676(s1)
	sd	a3, 48(sp)
	lbu	s7, 677(s1)
	lbu	s9, 678(s1)
	lbu	t0, 679(s1)
	lbu	a6, 680(s1)
	lbu	a4, 681(s1)
	lbu	s2, 682(s1)
	lbu	s4, 683(s1)
	lbu	s3, 684(s1)
	lbu	s6, 685(s1)
	lbu	s10, 686(s1)
	lbu	t3, 687(s1)
	slli	a0, a0, 8
	or	a0, a0, a1
	sd	a0, 96(sp)
	lbu	a3, 688(s1)
	lbu	a1, 689(s1)
	lbu	s8, 690(s1)
	lbu	s11, 691(s1)
	slli	a7, a7, 16
	slli	t1, t1, 24
	slli	t2, t2, 8
	slli	t6, t6, 16
	slli	s5, s5, 24
	slli	a2, a2, 8
	or	a0, t1, a7
	sd	a0, 88(sp)
	or	a0, t2, a5
	sd	a0, 80(sp)
	or	a0, s5, t6
	sd	a0, 72(sp)
	or	a0, a2, ra
	sd	a0, 64(sp)
	lbu	ra, 692(s1)
	lbu	a2, 693(s1)
	lbu	s5, 694(s1)
	lbu	a0, 695(s1)
	slli	t4, t4, 16
	slli	t5, t5, 24
	slli	s7, s7, 8
	slli	s9, s9, 16
	slli	t0, t0, 24
	slli	a4, a4, 8
	or	a5, t5, t4
	sd	a5, 56(sp)
	ld	a5, 48(sp)
	or	a5, s7, a5
	sd	a5, 48(sp)
	or	a5, t0, s9
	sd	a5, 40(sp)
	or	a4, a4, a6
	sd	a4, 32(sp)
	lbu	s9, 288(s1)
	lbu	a5, 289(s1)
	lbu	t0, 290(s1)
	lbu	s7, 291(s1)
	slli	s2, s2, 16
	slli	s4, s4, 24
	slli	s6, s6, 8
	slli	s10, s10, 16
	slli	a6, t3, 24
	slli	a1, a1, 8
	or	a4, s4, s2
	sd	a4, 24(sp)
	or	a4, s6, s3
	sd	a4, 16(sp)
	or	s3, a6, s10
	or	t6, a1, a3
	lbu	a1, 292(s1)
	lbu	s10, 293(s1)
	lbu	a4, 294(s1)
	lbu	a3, 295(s1)
	slli	s8, s8, 16
	slli	s11, s11, 24
	slli	a2, a2, 8
	slli	s5, s5, 16
	slli	a0, a0, 24
	slli	a5, a5, 8
	or	s6, s11, s8
	or	a2, a2, ra
	sd	a2, 8(sp)
	or	t5, a0, s5
	or	s4, a5, s9
	lbu	a0, 296(s1)
	lbu	s11, 297(s1)
	lbu	s5, 298(s1)
	lbu	a5, 299(s1)
	slli	t0, t0, 16
	slli	s7, s7, 24
	slli	ra, s10, 8
	slli	a4, a4, 16
	slli	a3, a3, 24
	slli	a2, s11, 8
	or	s10, s7, t0
	or	s11, ra, a1
	or	ra, a3, a4
	or	s9, a2, a0
	lbu	a2, 300(s1)
	lbu	a1, 301(s1)
	lbu	a3, 302(s1)
	lbu	a4, 303(s1)
	slli	s5, s5, 16
	slli	a5, a5, 24
	slli	a1, a1, 8
	slli	a3, a3, 16
	slli	a0, a4, 24
	or	t4, a5, s5
	or	s8, a1, a2
	or	t3, a0, a3
	lbu	a1, 305(s1)
	lbu	a2, 304(s1)
	lbu	a3, 306(s1)
	lbu	a4, 307(s1)
	slli	a1, a1, 8
	or	s7, a1, a2
	slli	a3, a3, 16
	slli	a1, a4, 24
	or	t1, a1, a3
	lbu	a2, 309(s1)
	lbu	a3, 308(s1)
	lbu	a4, 310(s1)
	lbu	a0, 311(s1)
	slli	a2, a2, 8
	or	s5, a2, a3
	slli	a4, a4, 16
	slli	a0, a0, 24
	or	a7, a0, a4
	lbu	a3, 313(s1)
	lbu	a4, 312(s1)
	lbu	a1, 314(s1)
	lbu	a0, 315(s1)
	slli	a3, a3, 8
	or	t2, a3, a4
	slli	a1, a1, 16
	slli	a0, a0, 24
	or	a6, a0, a1
	lbu	a1, 317(s1)
	lbu	a4, 316(s1)
	lbu	a0, 318(s1)
	lbu	s1, 319(s1)
	slli	a1, a1, 8
	or	t0, a1, a4
	slli	a0, a0, 16
	slli	s1, s1, 24
	or	a1, s1, a0
	ld	a0, 96(sp)
	ld	a4, 88(sp)
	or	a4, a4, a0
	ld	a0, 80(sp)
	ld	s1, 72(sp)
	or	s1, s1, a0
	ld	a0, 64(sp)
	ld	a2, 56(sp)
	or	a2, a2, a0
	ld	a0, 48(sp)
	ld	s2, 40(sp)
	or	a0, s2, a0
	ld	a5, 32(sp)
	ld	a3, 24(sp)
	or	s2, a3, a5
	ld	a3, 16(sp)
	or	s3, s3, a3
	or	t6, s6, t6
	ld	a3, 8(sp)
	or	t5, t5, a3
	or	s4, s10, s4
	or	s6, ra, s11
	or	t4, t4, s9
	or	t3, t3, s8
	or	t1, t1, s7
	or	a7, a7, s5
	or	a6, a6, t2
	or	a1, a1, t0
	slli	s1, s1, 32
	or	t0, s1, a4
	slli	a0, a0, 32
	or	t2, a0, a2
	slli	s3, s3, 32
	or	a2, s3, s2
	slli	t5, t5, 32
	or	a3, t5, t6
	slli	s6, s6, 32
	or	s1, s6, s4
	slli	t3, t3, 32
	or	a5, t3, t4
	slli	a7, a7, 32
	or	a4, a7, t1
	slli	a1, a1, 32
	or	a0, a1, a6
	sd	t0, 296(sp)
	sd	t2, 304(sp)
	sd	a2, 312(sp)
	sd	a3, 320(sp)
	li	a1, 32
	sd	s1, 264(sp)
	sd	a5, 272(sp)
	sd	a4, 280(sp)
	sd	a0, 288(sp)
	li	a0, 1
	j	.LBBfab5f_6
.LBBfab5f_5:
	li	a0, 0
	li	a1, 0
	sd	zero, 296(sp)
	sd	zero, 304(sp)
	sd	zero, 312(sp)
	sd	zero, 320(sp)
	sd	zero, 264(sp)
	sd	zero, 272(sp)
	sd	zero, 280(sp)
	sd	zero, 288(sp)
.LBBfab5f_6:
	ld	a2, 296(sp)
	ld	a3, 304(sp)
	ld	a4, 312(sp)
	ld	a5, 320(sp)
	sd	a2, 152(sp)
	sd	a3, 160(sp)
	sd	a4, 168(sp)
	sd	a5, 176(sp)
	ld	a2, 264(sp)
	ld	a3, 272(sp)
	ld	a4, 280(sp)
	ld	a5, 288(sp)
	sd	a1, 184(sp)
	sd	a2, 192(sp)
	sd	a3, 200(sp)
	sd	a4, 208(sp)
	sd	a5, 216(sp)
	sd	a1, 224(sp)
	j	.LBBfab5f_13
.LBBfab5f_7:
	lbu	a0, 8(s1)
	li	a1, 2
	sd	zero, 296(sp)
	sd	zero, 304(sp)
	sd	zero, 312(sp)
	sd	zero, 320(sp)
	bne	a0, a1, .LBBfab5f_11
	lbu	a0, 1248(s1)
	li	a1, 1
	bne	a0, a1, .LBBfab5f_11
	lbu	a0, 1249(s1)
	beqz	a0, .LBBfab5f_12
	lbu	a0, 672(s1)
	lbu	a1, 673(s1)
	lbu	a2, 674(s1)
	lbu	a3, 675(s1)
	lbu	a6, 676(s1)
	lbu	a7, 677(s1)
	lbu	a4, 678(s1)
	lbu	a5, 679(s1)
	slli	a1, a1, 8
	slli	a2, a2, 16
	slli	a3, a3, 24
	or	t0, a1, a0
	or	t1, a3, a2
	lbu	a1, 664(s1)
	lbu	a3, 665(s1)
	lbu	a0, 666(s1)
	lbu	a2, 667(s1)
	slli	a7, a7, 8
	slli	a4, a4, 16
	slli	a5, a5, 24
	slli	a3, a3, 8
	slli	a0, a0, 16
	slli	a2, a2, 24
	or	a6, a7, a6
	or	a4, a4, a5
	or	a7, a3, a1
	or	a0, a0, a2
	lbu	a2, 669(s1)
	lbu	a3, 668(s1)
	lbu	a5, 670(s1)
	lbu	a1, 671(s1)
	slli	a2, a2, 8
	or	a2, a2, a3
	slli	a5, a5, 16
	slli	a1, a1, 24
	or	a1, a1, a5
	or	a3, t1, t0
	or	a4, a4, a6
	or	a0, a0, a7
	or	a2, a2, a1
	addi	a1, s1, 296
	slli	a4, a4, 32
	slli	a2, a2, 32
	or	a3, a3, a4
	or	a0, a0, a2
	sd	a0, 232(sp)
	sd	a3, 240(sp)
	addi	a0, sp, 248
	li	a2, 16
	call	memcpy
	ld	a0, 232(sp)
	ld	a1, 240(sp)
	ld	a2, 248(sp)
	ld	a3, 256(sp)
	sd	a0, 296(sp)
	sd	a1, 304(sp)
	sd	a2, 312(sp)
	sd	a3, 320(sp)
	li	a0, 1
	j	.LBBfab5f_12
.LBBfab5f_11:
	li	a0, 0
.LBBfab5f_12:
	sb	a0, 111(sp)
	addi	a0, sp, 112
	addi	a1, sp, 296
	li	a2, 32
	call	memcpy
	addi	a0, sp, 144
	addi	a1, sp, 111
	call	core.option.Option.map.__a461da79b7f3d327_
	lbu	a0, 144(sp)
.LBBfab5f_13:
	addi	a1, sp, 152
	sb	zero, 4(s0)
	sb	zero, 5(s0)
	sb	zero, 6(s0)
	sb	zero, 7(s0)
	sb	a0, 0(s0)
	sb	zero, 1(s0)
	sb	zero, 2(s0)
	sb	zero, 3(s0)
	addi	a0, s0, 8
	li	a2, 80
	call	memcpy
	ld	ra, 424(sp)
	ld	s0, 416(sp)
	ld	s1, 408(sp)
	ld	s2, 400(sp)
	ld	s3, 392(sp)
	ld	s4, 384(sp)
	ld	s5, 376(sp)
	ld	s6, 368(sp)
	ld	s7, 360(sp)
	ld	s8, 352(sp)
	ld	s9, 344(sp)
	ld	s10, 336(sp)
	ld	s11, 328(sp)
	addi	sp, sp, 432
	ret
.Lfunc_endfab5f:
	.size	end_objects.objects.ServerObject.nonces, .Lfunc_endfab5f-end_objects.objects.ServerObject.nonces

	.section	".text.tuvaddri_c::psk::psk_id","ax",@progbits
	.p2align	1
	.type	tuvaddri_c.psk.psk_id,@function
tuvaddri_c.psk.psk_id:
	addi	sp, sp, -192
	sd	ra, 184(sp)
	sd	s0, 176(sp)
	sd	s1, 168(sp)
	sd	s2, 160(sp)
	sd	s3, 152(sp)
	sd	s4, 144(sp)
	sd	s5, 136(sp)
	sd	s6, 128(sp)
	sd	s7, 120(sp)
	sd	s8, 112(sp)
	sd	s9, 104(sp)
	sd	s10, 96(sp)
	sd	s11, 88(sp)
	mv	s0, a0
	ld	s1, 32(a1)
	ld	s2, 72(a1)
	sw	zero, 32(sp)
	sh	zero, 36(sp)
	sb	zero, 38(sp)
	li	s6, 32
	add	a0, s2, s1
	sd	zero, 0(sp)
	sd	zero, 8(sp)
	sd	zero, 16(sp)
	sd	zero, 24(sp)
	bltu	s6, a0, .LBB81cda_3
	mv	s3, a1
	li	s5, 47
	sb	s5, 40(sp)
	addi	s4, sp, 41
	li	a2, 39
	mv	a0, s4
	li	a1, 0
	call	memset
	bgeu	s6, s1, .LBB81cda_4
	li	s1, 1
	j	.LBB81cda_5
.LBB81cda_3:
	li	s5, 0
	li	s1, 0
	li	a0, 0
	j	.LBB81cda_8
.LBB81cda_4:
	mv	a0, s4
	mv	a1, s3
	mv	a2, s1
	call	memcpy
	addi	s1, s1, 1
.LBB81cda_5:
	li	a0, 33
	sub	a0, a0, s1
	bltu	a0, s2, .LBB81cda_7
	addi	a1, s3, 40
	addi	a0, sp, 40
	add	a0, a0, s1
	mv	a2, s2
	call	memcpy
	lbu	s5, 40(sp)
	add	s1, s1, s2
.LBB81cda_7:
	lbu	a7, 36(s4)
	lbu	t0, 37(s4)
	lbu	a6, 38(s4)
	lbu	s6, 32(s4)
	lbu	a3, 33(s4)
	lbu	t1, 34(s4)
	lbu	t3, 35(s4)
	lbu	t2, 24(s4)
	lbu	t4, 25(s4)
	lbu	a5, 26(s4)
	lbu	a0, 27(s4)
	lbu	s7, 28(s4)
	lbu	a4, 29(s4)
	lbu	t5, 30(s4)
	lbu	t6, 31(s4)
	lbu	s2, 16(s4)
	lbu	s3, 17(s4)
	lbu	s8, 18(s4)
	lbu	s10, 19(s4)
	slli	t0, t0, 8
	slli	a3, a3, 8
	or	a7, t0, a7
	or	t0, a3, s6
	lbu	a3, 20(s4)
	lbu	a2, 21(s4)
	lbu	s6, 22(s4)
	lbu	s9, 23(s4)
	slli	t1, t1, 16
	slli	t3, t3, 24
	slli	t4, t4, 8
	slli	a5, a5, 16
	slli	a0, a0, 24
	slli	a4, a4, 8
	or	t1, t3, t1
	or	t2, t4, t2
	or	t4, a0, a5
	or	t3, a4, s7
	lbu	s7, 8(s4)
	lbu	s11, 9(s4)
	lbu	a4, 10(s4)
	lbu	a1, 11(s4)
	slli	t5, t5, 16
	slli	t6, t6, 24
	slli	s3, s3, 8
	slli	s8, s8, 16
	slli	s10, s10, 24
	slli	a2, a2, 8
	or	t5, t6, t5
	or	t6, s3, s2
	or	s2, s10, s8
	or	s3, a2, a3
	lbu	a2, 12(s4)
	lbu	a3, 13(s4)
	lbu	a5, 14(s4)
	lbu	a0, 15(s4)
	slli	s6, s6, 16
	slli	s9, s9, 24
	slli	s11, s11, 8
	slli	a4, a4, 16
	slli	a1, a1, 24
	slli	a3, a3, 8
	or	s6, s9, s6
	or	s7, s11, s7
	or	s8, a1, a4
	or	s9, a3, a2
	lbu	a3, 0(s4)
	lbu	a4, 1(s4)
	lbu	a1, 2(s4)
	lbu	a2, 3(s4)
	slli	a5, a5, 16
	slli	a0, a0, 24
	slli	a4, a4, 8
	slli	a1, a1, 16
	slli	a2, a2, 24
	or	s10, a0, a5
	or	s11, a4, a3
	or	ra, a2, a1
	lbu	a2, 5(s4)
	lbu	a4, 4(s4)
	lbu	a5, 6(s4)
	lbu	a0, 7(s4)
	slli	a2, a2, 8
	or	s4, a2, a4
	slli	a5, a5, 16
	slli	a0, a0, 24
	or	a0, a0, a5
	or	a4, t1, t0
	or	a5, t4, t2
	or	a3, t5, t3
	or	t0, s2, t6
	or	a1, s6, s3
	or	t1, s8, s7
	or	a2, s10, s9
	or	t2, ra, s11
	or	a0, a0, s4
	sw	a4, 32(sp)
	sh	a7, 36(sp)
	sb	a6, 38(sp)
	slli	a3, a3, 32
	or	a3, a3, a5
	slli	a1, a1, 32
	or	a1, a1, t0
	slli	a2, a2, 32
	or	a2, a2, t1
	slli	a0, a0, 32
	or	a0, a0, t2
	sd	a0, 0(sp)
	sd	a2, 8(sp)
	sd	a1, 16(sp)
	sd	a3, 24(sp)
	li	a0, 1
.LBB81cda_8:
	sb	zero, 4(s0)
	sb	zero, 5(s0)
	sb	zero, 6(s0)
	sb	zero, 7(s0)
	sb	a0, 0(s0)
	sb	zero, 1(s0)
	sb	zero, 2(s0)
	sb	zero, 3(s0)
	sb	s5, 8(s0)
	addi	a0, s0, 9
	mv	a1, sp
	li	a2, 39
	call	memcpy
	srli	a0, s1, 56
	srli	a1, s1, 48
	srli	a2, s1, 40
	srli	a3, s1, 32
	srli	a4, s1, 24
	srli	a5, s1, 16
	sb	a3, 52(s0)
	sb	a2, 53(s0)
	sb	a1, 54(s0)
	sb	a0, 55(s0)
	srli	a0, s1, 8
	sb	s1, 48(s0)
	sb	a0, 49(s0)
	sb	a5, 50(s0)
	sb	a4, 51(s0)
	ld	ra, 184(sp)
	ld	s0, 176(sp)
	ld	s1, 168(sp)
	ld	s2, 160(sp)
	ld	s3, 152(sp)
	ld	s4, 144(sp)
	ld	s5, 136(sp)
	ld	s6, 128(sp)
	ld	s7, 120(sp)
	ld	s8, 112(sp)
	ld	s9, 104(sp)
	ld	s10, 96(sp)
	ld	s11, 88(sp)
	addi	sp, sp, 192
	ret
.Lfunc_end81cda:
	.size	tuvaddri_c.psk.psk_id, .Lfunc_end81cda-tuvaddri_c.psk.psk_id

	.section	".text.tuvaddri_c::gpsk::gpsk_id","ax",@progbits
	.p2align	1
	.type	tuvaddri_c.gpsk.gpsk_id,@function
tuvaddri_c.gpsk.gpsk_id:
	addi	sp, sp, -848
	sd	ra, 840(sp)
	sd	s0, 832(sp)
	sd	s1, 824(sp)
	sd	s2, 816(sp)
	sd	s3, 808(sp)
	mv	s1, a1
	mv	s3, a0
	zext.b	a0, a1
	addi	a7, a4, 8
	ld	t0, 264(a4)
	addi	a6, a5, 40
	ld	a1, 32(a5)
	ld	t4, 72(a5)
	addi	t1, a4, 272
	ld	t2, 528(a4)
.Lpcrel_hi69:
	auipc	a4, %pcrel_hi(.Lstatic.38)
	li	t3, 9
.Lpcrel_hi70:
	auipc	s0, %pcrel_hi(.Lstatic.2)
	li	s2, 1
	addi	t5, sp, 168
	snez	a0, a0
	addi	a0, a0, 1
	sw	zero, 168(sp)
	sb	zero, 172(sp)
	sb	a0, 173(sp)
	li	a0, 6
	addi	a4, a4, %pcrel_lo(.Lpcrel_hi69)
	addi	s0, s0, %pcrel_lo(.Lpcrel_hi70)
	sd	a4, 8(sp)
	sd	t3, 16(sp)
	sd	s0, 24(sp)
	sd	s2, 32(sp)
	sd	t5, 40(sp)
	sd	a0, 48(sp)
	sd	a5, 56(sp)
	sd	a1, 64(sp)
	sd	a7, 72(sp)
	sd	t0, 80(sp)
	sd	a6, 88(sp)
	sd	t4, 96(sp)
	sd	t1, 104(sp)
	sd	t2, 112(sp)
	addi	a0, sp, 176
	mv	a1, s1
	call	login_keys.gpsk.mac_key.MacKey.new
	lbu	a1, 176(sp)
	addi	a0, sp, 593
	sb	a1, 592(sp)
	addi	a1, sp, 177
	li	a2, 215
	call	memcpy
	addi	a0, sp, 392
	li	a2, 200
	li	a1, 0
	call	memset
	sh	zero, 174(sp)
	li	a1, 16
	addi	a2, sp, 592
	addi	a3, sp, 174
	li	a4, 2
	addi	a5, sp, 8
	li	a6, 7
	addi	a7, sp, 392
	mv	a0, s1
	call	login_keys.gpsk.derivation.derive
	sd	zero, 120(sp)
	sd	zero, 128(sp)
	sd	zero, 136(sp)
	sd	zero, 144(sp)
	slli	s2, s2, 56
	sb	zero, 163(sp)
	sb	zero, 164(sp)
	sb	zero, 165(sp)
	sb	zero, 166(sp)
	ld	s1, 584(sp)
	li	a0, 32
	sd	s2, 152(sp)
	sb	zero, 160(sp)
	sb	zero, 161(sp)
	sb	zero, 162(sp)
	bltu	a0, s1, .LBBcd7d3_2
	addi	a0, sp, 120
	addi	a1, sp, 392
	mv	a2, s1
	call	memcpy
	addi	s1, s1, 1
	srli	a0, s1, 56
	srli	a1, s1, 48
	srli	a2, s1, 40
	srli	a3, s1, 32
	srli	a4, s1, 24
	srli	a5, s1, 16
	sb	a3, 163(sp)
	sb	a2, 164(sp)
	sb	a1, 165(sp)
	sb	a0, 166(sp)
	srli	a0, s1, 8
	sb	s1, 159(sp)
	sb	a0, 160(sp)
	sb	a5, 161(sp)
	sb	a4, 162(sp)
.LBBcd7d3_2:
	li	a0, 51
	sb	a0, 0(s3)
	addi	a0, s3, 1
	addi	a1, sp, 120
	li	a2, 47
	call	memcpy
	ld	ra, 840(sp)
	ld	s0, 832(sp)
	ld	s1, 824(sp)
	ld	s2, 816(sp)
	ld	s3, 808(sp)
	addi	sp, sp, 848
	ret
.Lfunc_endcd7d3:
	.size	tuvaddri_c.gpsk.gpsk_id, .Lfunc_endcd7d3-tuvaddri_c.gpsk.gpsk_id

	.section	".text.tuvaddri_c::gpsk::key_in","ax",@progbits
	.p2align	1
	.type	tuvaddri_c.gpsk.key_in,@function
tuvaddri_c.gpsk.key_in:
	addi	sp, sp, -256
	sd	ra, 248(sp)
	sd	s0, 240(sp)
	sd	s1, 232(sp)
	sd	s2, 224(sp)
	mv	a5, a1
	ld	a1, 704(a1)
	mv	s0, a0
	li	a4, 51
	mv	a0, a5
	call	login_setup.users.find_user
	mv	s1, a0
	mv	s2, a1
	addi	a0, sp, 80
	li	a2, 72
	li	a1, 0
	call	memset
	andi	a0, s1, 1
	li	s1, 0
	beqz	a0, .LBBc90d5_4
	ld	s1, 336(s2)
	addi	a0, sp, 152
	li	a2, 72
	li	a1, 0
	call	memset
	li	a0, 64
	bltu	a0, s1, .LBBc90d5_3
	addi	a1, s2, 272
	addi	a0, sp, 152
	mv	a2, s1
	call	memcpy
	sd	s1, 216(sp)
.LBBc90d5_3:
	addi	a0, sp, 80
	addi	a1, sp, 152
	li	a2, 72
	call	memcpy
	li	s1, 1
.LBBc90d5_4:
	addi	a0, sp, 8
	addi	a1, sp, 80
	li	a2, 72
	call	memcpy
	sb	zero, 4(s0)
	sb	zero, 5(s0)
	sb	zero, 6(s0)
	sb	zero, 7(s0)
	sb	s1, 0(s0)
	sb	zero, 1(s0)
	sb	zero, 2(s0)
	sb	zero, 3(s0)
	addi	a0, s0, 8
	addi	a1, sp, 8
	li	a2, 72
	call	memcpy
	ld	ra, 248(sp)
	ld	s0, 240(sp)
	ld	s1, 232(sp)
	ld	s2, 224(sp)
	addi	sp, sp, 256
	ret
.Lfunc_endc90d5:
	.size	tuvaddri_c.gpsk.key_in, .Lfunc_endc90d5-tuvaddri_c.gpsk.key_in

	.section	".text.tuvaddri_c::report::report_peer","ax",@progbits
	.p2align	1
	.type	tuvaddri_c.report.report_peer,@function
tuvaddri_c.report.report_peer:
	addi	sp, sp, -1584
	sd	ra, 1576(sp)
	sd	s0, 1568(sp)
	sd	s1, 1560(sp)
	sd	s2, 1552(sp)
	mv	s2, a1
	mv	s1, a0
	addi	s0, a0, 2047
	addi	a0, sp, 872
	li	a2, 680
	li	a1, 0
	call	memset
	addi	a0, sp, 192
	li	a2, 680
	li	a1, 0
	call	memset
	addi	a0, sp, 104
	li	a2, 88
	li	a1, 0
	call	memset
	addi	a0, sp, 16
	li	a2, 88
	li	a1, 0
	call	memset
	lbu	a0, 0(s1)
.Lpcrel_hi71:
	auipc	a1, %pcrel_hi(.LJTIacdb5_0)
	slli	a0, a0, 2
	addi	a1, a1, %pcrel_lo(.Lpcrel_hi71)
	add	a0, a0, a1
	lw	a0, 0(a0)
	add	a1, a1, a0
	li	a0, 0
	jr	a1
.LBBacdb5_1:
	addi	s1, s1, 8
.LBBacdb5_2:
	addi	a0, sp, 872
	mv	a1, s1
	call	end_objects.objects.PeerObjectPeerMethod.report
	lbu	a1, 872(sp)
	addi	a0, sp, 200
	sd	a1, 192(sp)
	addi	a1, sp, 880
	li	a2, 672
	call	memcpy
	addi	a0, sp, 104
	mv	a1, s1
	call	end_objects.objects.PeerObject.nonces
	lbu	a1, 104(sp)
	addi	a0, sp, 24
	sd	a1, 16(sp)
	addi	a1, sp, 112
	li	a2, 80
	call	memcpy
	addi	a0, sp, 192
	addi	a1, sp, 16
	mv	a2, s2
	call	tuvaddri_c.report.write_end_report
	j	.LBBacdb5_16
.LBBacdb5_3:
	lbu	a0, 777(s1)
	beqz	a0, .LBBacdb5_16
	ld	a1, 249(s0)
	ld	a2, 257(s0)
	lbu	a0, 778(s1)
	addi	s1, a1, -1248
	addi	a1, a2, 1
	j	.LBBacdb5_6
.LBBacdb5_5:
	li	a2, 47
	beq	a2, a0, .LBBacdb5_2
.LBBacdb5_6:
	addi	a1, a1, -1
	beqz	a1, .LBBacdb5_15
	addi	s1, s1, 1248
	lbu	a2, 0(s1)
	beqz	a2, .LBBacdb5_5
	li	a2, 51
	bne	a2, a0, .LBBacdb5_6
	j	.LBBacdb5_2
.LBBacdb5_9:
	lbu	a0, 809(s1)
	beqz	a0, .LBBacdb5_16
	ld	a1, 281(s0)
	ld	a2, 289(s0)
	lbu	a0, 810(s1)
	addi	s1, a1, -1248
	addi	a1, a2, 1
	j	.LBBacdb5_12
.LBBacdb5_11:
	li	a2, 51
	beq	a2, a0, .LBBacdb5_2
.LBBacdb5_12:
	addi	a1, a1, -1
	beqz	a1, .LBBacdb5_15
	addi	s1, s1, 1248
	lbu	a2, 0(s1)
	bnez	a2, .LBBacdb5_11
	li	a2, 47
	bne	a2, a0, .LBBacdb5_12
	j	.LBBacdb5_2
.LBBacdb5_15:
	li	a0, 0
.LBBacdb5_16:
	ld	ra, 1576(sp)
	ld	s0, 1568(sp)
	ld	s1, 1560(sp)
	ld	s2, 1552(sp)
	addi	sp, sp, 1584
	ret
.Lfunc_endacdb5:
	.size	tuvaddri_c.report.report_peer, .Lfunc_endacdb5-tuvaddri_c.report.report_peer
	.section	".rodata.tuvaddri_c::report::report_peer","a",@progbits
	.p2align	2, 0x0
.LJTIacdb5_0:
	.word	.LBBacdb5_16-.LJTIacdb5_0
	.word	.LBBacdb5_1-.LJTIacdb5_0
	.word	.LBBacdb5_16-.LJTIacdb5_0
	.word	.LBBacdb5_3-.LJTIacdb5_0
	.word	.LBBacdb5_16-.LJTIacdb5_0
	.word	.LBBacdb5_16-.LJTIacdb5_0
	.word	.LBBacdb5_16-.LJTIacdb5_0
	.word	.LBBacdb5_9-.LJTIacdb5_0
	.word	.LBBacdb5_16-.LJTIacdb5_0

	.section	".text.tuvaddri_c::report::write_end_report","ax",@progbits
	.p2align	1
	.type	tuvaddri_c.report.write_end_report,@function
tuvaddri_c.report.write_end_report:
	addi	sp, sp, -48
	sd	ra, 40(sp)
	sd	s0, 32(sp)
	sd	s1, 24(sp)
	sd	s2, 16(sp)
	sd	s3, 8(sp)
	sd	s4, 0(sp)
	mv	s0, a0
	lbu	a0, 0(a0)
	beqz	a0, .LBB56c1d_19
	mv	s2, a1
	lbu	a0, 0(a1)
	beqz	a0, .LBB56c1d_19
	mv	s3, a2
	lbu	a0, 8(s0)
	sb	a0, 8(a2)
	lbu	a0, 544(s0)
	sb	a0, 9(a2)
	ld	s1, 272(s0)
	addi	a1, s0, 16
	addi	a0, a2, 12
	sub	a2, a0, a1
	bgeu	a2, s1, .LBB56c1d_5
	add	a2, s1, s0
	addi	a2, a2, 16
.LBB56c1d_4:
	lbu	a3, 0(a1)
	addi	a1, a1, 1
	sb	a3, 0(a0)
	addi	a0, a0, 1
	bne	a1, a2, .LBB56c1d_4
	j	.LBB56c1d_6
.LBB56c1d_5:
	mv	a2, s1
	call	memmove
.LBB56c1d_6:
	sb	s1, 10(s3)
	ld	s4, 536(s0)
	addi	a1, s0, 280
	addi	a0, s3, 265
	sub	a2, a0, a1
	addi	s1, s2, 8
	bgeu	a2, s4, .LBB56c1d_9
	add	a2, s4, s0
	addi	a2, a2, 280
.LBB56c1d_8:
	lbu	a3, 0(a1)
	addi	a1, a1, 1
	sb	a3, 0(a0)
	addi	a0, a0, 1
	bne	a1, a2, .LBB56c1d_8
	j	.LBB56c1d_10
.LBB56c1d_9:
	mv	a2, s4
	call	memmove
.LBB56c1d_10:
	sb	s4, 11(s3)
	addi	a1, s0, 545
	addi	a0, s3, 518
	li	a2, 64
	call	memmove
	addi	a1, s0, 609
	addi	a0, s3, 582
	li	a2, 64
	call	memmove
	ld	s0, 40(s2)
	addi	a0, s3, 647
	sub	a1, a0, s1
	bgeu	a1, s0, .LBB56c1d_13
	add	a1, s0, s2
	addi	a1, a1, 8
.LBB56c1d_12:
	lbu	a2, 0(s1)
	addi	s1, s1, 1
	sb	a2, 0(a0)
	addi	a0, a0, 1
	bne	s1, a1, .LBB56c1d_12
	j	.LBB56c1d_14
.LBB56c1d_13:
	mv	a1, s1
	mv	a2, s0
	call	memmove
.LBB56c1d_14:
	sb	s0, 646(s3)
	ld	a2, 80(s2)
	addi	a1, s2, 48
	addi	a0, s3, 679
	sub	a3, a0, a1
	bgeu	a3, a2, .LBB56c1d_17
	add	a2, a2, s2
	addi	a2, a2, 48
.LBB56c1d_16:
	lbu	a3, 0(a1)
	addi	a1, a1, 1
	sb	a3, 0(a0)
	addi	a0, a0, 1
	bne	a1, a2, .LBB56c1d_16
	j	.LBB56c1d_18
.LBB56c1d_17:
	call	memmove
.LBB56c1d_18:
	li	a0, 1
.LBB56c1d_19:
	ld	ra, 40(sp)
	ld	s0, 32(sp)
	ld	s1, 24(sp)
	ld	s2, 16(sp)
	ld	s3, 8(sp)
	ld	s4, 0(sp)
	addi	sp, sp, 48
	ret
.Lfunc_end56c1d:
	.size	tuvaddri_c.report.write_end_report, .Lfunc_end56c1d-tuvaddri_c.report.write_end_report

	.section	".text.tuvaddri_c::report::report_server","ax",@progbits
	.p2align	1
	.type	tuvaddri_c.report.report_server,@function
tuvaddri_c.report.report_server:
	addi	sp, sp, -1568
	sd	ra, 1560(sp)
	sd	s0, 1552(sp)
	sd	s1, 1544(sp)
	mv	s0, a1
	mv	s1, a0
	addi	a0, sp, 864
	li	a2, 680
	li	a1, 0
	call	memset
	addi	a0, sp, 184
	li	a2, 680
	li	a1, 0
	call	memset
	addi	a0, sp, 96
	li	a2, 88
	li	a1, 0
	call	memset
	addi	a0, sp, 8
	li	a2, 88
	li	a1, 0
	call	memset
	lbu	a0, 0(s1)
.Lpcrel_hi72:
	auipc	a1, %pcrel_hi(.LJTI97f94_0)
	slli	a0, a0, 2
	addi	a1, a1, %pcrel_lo(.Lpcrel_hi72)
	add	a0, a0, a1
	lw	a0, 0(a0)
	add	a1, a1, a0
	li	a0, 0
	jr	a1
.LBB97f94_1:
	addi	s1, s1, 8
.LBB97f94_2:
	addi	a0, sp, 864
	mv	a1, s1
	call	end_objects.objects.ServerObjectServerMethod.report
	lbu	a1, 864(sp)
	addi	a0, sp, 192
	sd	a1, 184(sp)
	addi	a1, sp, 872
	li	a2, 672
	call	memcpy
	addi	a0, sp, 96
	mv	a1, s1
	call	end_objects.objects.ServerObject.nonces
	lbu	a1, 96(sp)
	addi	a0, sp, 16
	sd	a1, 8(sp)
	addi	a1, sp, 104
	li	a2, 80
	call	memcpy
	addi	a0, sp, 184
	addi	a1, sp, 8
	mv	a2, s0
	call	tuvaddri_c.report.write_end_report
	j	.LBB97f94_16
.LBB97f94_3:
	lbu	a0, 38(s1)
	beqz	a0, .LBB97f94_16
	ld	a1, 8(s1)
	ld	a2, 16(s1)
	lbu	a0, 39(s1)
	addi	s1, a1, -1256
	addi	a1, a2, 1
	j	.LBB97f94_6
.LBB97f94_5:
	li	a2, 47
	beq	a2, a0, .LBB97f94_2
.LBB97f94_6:
	addi	a1, a1, -1
	beqz	a1, .LBB97f94_15
	addi	s1, s1, 1256
	lbu	a2, 0(s1)
	beqz	a2, .LBB97f94_5
	li	a2, 51
	bne	a2, a0, .LBB97f94_6
	j	.LBB97f94_2
.LBB97f94_9:
	lbu	a0, 38(s1)
	beqz	a0, .LBB97f94_16
	ld	a1, 8(s1)
	ld	a2, 16(s1)
	lbu	a0, 39(s1)
	addi	s1, a1, -1256
	addi	a1, a2, 1
	j	.LBB97f94_12
.LBB97f94_11:
	li	a2, 51
	beq	a2, a0, .LBB97f94_2
.LBB97f94_12:
	addi	a1, a1, -1
	beqz	a1, .LBB97f94_15
	addi	s1, s1, 1256
	lbu	a2, 0(s1)
	bnez	a2, .LBB97f94_11
	li	a2, 47
	bne	a2, a0, .LBB97f94_12
	j	.LBB97f94_2
.LBB97f94_15:
	li	a0, 0
.LBB97f94_16:
	ld	ra, 1560(sp)
	ld	s0, 1552(sp)
	ld	s1, 1544(sp)
	addi	sp, sp, 1568
	ret
.Lfunc_end97f94:
	.size	tuvaddri_c.report.report_server, .Lfunc_end97f94-tuvaddri_c.report.report_server
	.section	".rodata.tuvaddri_c::report::report_server","a",@progbits
	.p2align	2, 0x0
.LJTI97f94_0:
	.word	.LBB97f94_16-.LJTI97f94_0
	.word	.LBB97f94_16-.LJTI97f94_0
	.word	.LBB97f94_1-.LJTI97f94_0
	.word	.LBB97f94_16-.LJTI97f94_0
	.word	.LBB97f94_3-.LJTI97f94_0
	.word	.LBB97f94_9-.LJTI97f94_0
	.word	.LBB97f94_16-.LJTI97f94_0
	.word	.LBB97f94_16-.LJTI97f94_0
	.word	.LBB97f94_16-.LJTI97f94_0

	.section	".text.tuvaddri_c::name::write_name_in","ax",@progbits
	.p2align	1
	.type	tuvaddri_c.name.write_name_in,@function
tuvaddri_c.name.write_name_in:
	addi	sp, sp, -256
	sd	ra, 248(sp)
	sd	s0, 240(sp)
	sd	s1, 232(sp)
	sd	s2, 224(sp)
	mv	s0, a2
	mv	a2, a1
	mv	a1, a0
	sd	zero, 40(sp)
	sd	zero, 48(sp)
	sd	zero, 8(sp)
	sd	zero, 16(sp)
	sd	zero, 24(sp)
	sd	zero, 32(sp)
	addi	a0, sp, 8
	call	eap_packet.packet.decode
	lbu	a1, 8(sp)
	li	a0, 1
	beq	a1, a0, .LBB8eedb_9
	lbu	a1, 16(sp)
	bne	a1, a0, .LBB8eedb_9
	lbu	a0, 18(sp)
	ld	s1, 24(sp)
	ld	s2, 32(sp)
	li	a1, 51
	beq	a0, a1, .LBB8eedb_11
	li	a1, 47
	bne	a0, a1, .LBB8eedb_9
	addi	a0, sp, 56
	li	a2, 80
	li	a1, 0
	call	memset
	addi	a0, sp, 56
	mv	a1, s1
	mv	a2, s2
	call	psk_messages.reading.read_psk_message
	lbu	a1, 56(sp)
	li	a0, 0
	bnez	a1, .LBB8eedb_10
	lbu	a1, 64(sp)
	li	a2, 1
	bne	a1, a2, .LBB8eedb_10
	ld	a1, 120(sp)
	ld	a0, 128(sp)
	sub	a2, s0, a1
	bgeu	a2, a0, .LBB8eedb_14
.LBB8eedb_7:
	add	a2, a1, a0
.LBB8eedb_8:
	lbu	a3, 0(a1)
	addi	a1, a1, 1
	sb	a3, 0(s0)
	addi	s0, s0, 1
	bne	a1, a2, .LBB8eedb_8
	j	.LBB8eedb_10
.LBB8eedb_9:
	li	a0, 0
.LBB8eedb_10:
	ld	ra, 248(sp)
	ld	s0, 240(sp)
	ld	s1, 232(sp)
	ld	s2, 224(sp)
	addi	sp, sp, 256
	ret
.LBB8eedb_11:
	addi	a0, sp, 56
	li	a2, 168
	li	a1, 0
	call	memset
	addi	a0, sp, 56
	mv	a1, s1
	mv	a2, s2
	li	a3, 0
	li	a4, 0
	call	gpsk_messages.reading.read_gpsk_message
	lbu	a1, 56(sp)
	li	a0, 0
	bnez	a1, .LBB8eedb_10
	lbu	a1, 64(sp)
	li	a2, 1
	bne	a1, a2, .LBB8eedb_10
	ld	a1, 72(sp)
	ld	a0, 80(sp)
	sub	a2, s0, a1
	bltu	a2, a0, .LBB8eedb_7
.LBB8eedb_14:
	mv	s1, a0
	mv	a0, s0
	mv	a2, s1
	call	memmove
	mv	a0, s1
	j	.LBB8eedb_10
.Lfunc_end8eedb:
	.size	tuvaddri_c.name.write_name_in, .Lfunc_end8eedb-tuvaddri_c.name.write_name_in

	.section	".text.tuvaddri_c::name::write_server_in","ax",@progbits
	.p2align	1
	.type	tuvaddri_c.name.write_server_in,@function
tuvaddri_c.name.write_server_in:
	addi	sp, sp, -256
	sd	ra, 248(sp)
	sd	s0, 240(sp)
	sd	s1, 232(sp)
	sd	s2, 224(sp)
	mv	s0, a2
	mv	a2, a1
	mv	a1, a0
	sd	zero, 40(sp)
	sd	zero, 48(sp)
	sd	zero, 8(sp)
	sd	zero, 16(sp)
	sd	zero, 24(sp)
	sd	zero, 32(sp)
	addi	a0, sp, 8
	call	eap_packet.packet.decode
	lbu	a0, 8(sp)
	li	a1, 1
	beq	a0, a1, .LBBf762c_11
	lbu	a0, 16(sp)
	bnez	a0, .LBBf762c_11
	lbu	a0, 18(sp)
	ld	s1, 24(sp)
	ld	s2, 32(sp)
	li	a1, 51
	beq	a0, a1, .LBBf762c_8
	li	a1, 47
	bne	a0, a1, .LBBf762c_11
	addi	a0, sp, 56
	li	a2, 80
	li	a1, 0
	call	memset
	addi	a0, sp, 56
	mv	a1, s1
	mv	a2, s2
	call	psk_messages.reading.read_psk_message
	lbu	a0, 64(sp)
	lbu	a1, 56(sp)
	zext.b	a0, a0
	or	a0, a0, a1
	bnez	a0, .LBBf762c_11
	ld	a1, 88(sp)
	ld	a0, 96(sp)
	sub	a2, s0, a1
	bgeu	a2, a0, .LBBf762c_10
.LBBf762c_6:
	add	a2, a1, a0
.LBBf762c_7:
	lbu	a3, 0(a1)
	addi	a1, a1, 1
	sb	a3, 0(s0)
	addi	s0, s0, 1
	bne	a1, a2, .LBBf762c_7
	j	.LBBf762c_12
.LBBf762c_8:
	addi	a0, sp, 56
	li	a2, 168
	li	a1, 0
	call	memset
	addi	a0, sp, 56
	mv	a1, s1
	mv	a2, s2
	li	a3, 0
	li	a4, 0
	call	gpsk_messages.reading.read_gpsk_message
	lbu	a0, 64(sp)
	lbu	a1, 56(sp)
	zext.b	a0, a0
	or	a0, a0, a1
	bnez	a0, .LBBf762c_11
	ld	a1, 72(sp)
	ld	a0, 80(sp)
	sub	a2, s0, a1
	bltu	a2, a0, .LBBf762c_6
.LBBf762c_10:
	mv	s1, a0
	mv	a0, s0
	mv	a2, s1
	call	memmove
	mv	a0, s1
	j	.LBBf762c_12
.LBBf762c_11:
	li	a0, 0
.LBBf762c_12:
	ld	ra, 248(sp)
	ld	s0, 240(sp)
	ld	s1, 232(sp)
	ld	s2, 224(sp)
	addi	sp, sp, 256
	ret
.Lfunc_endf762c:
	.size	tuvaddri_c.name.write_server_in, .Lfunc_endf762c-tuvaddri_c.name.write_server_in

	.section	.text.tuv_backend_begin,"ax",@progbits
	.globl	tuv_backend_begin
	.p2align	1
	.type	tuv_backend_begin,@function
tuv_backend_begin:
	addi	sp, sp, -1776
	sd	ra, 1768(sp)
	sd	s0, 1760(sp)
	sd	s1, 1752(sp)
	sd	s2, 1744(sp)
	sd	s3, 1736(sp)
	sd	s4, 1728(sp)
	sd	s5, 1720(sp)
	sd	s6, 1712(sp)
	sd	s7, 1704(sp)
	sd	s8, 1696(sp)
	sd	s9, 1688(sp)
	sd	s10, 1680(sp)
	sd	s11, 1672(sp)
	mv	s10, a2
	mv	s6, a1
	mv	s0, a0
	sd	zero, 608(sp)
	sd	zero, 616(sp)
	sd	zero, 624(sp)
	sd	zero, 632(sp)
	mv	a0, a1
	call	end_objects.refusals.server_refusal
	zext.b	a0, a0
	li	a2, 1
	bne	a0, a2, .LBB0b35d_2
	addi	a0, a1, 1
	j	.LBB0b35d_36
.LBB0b35d_2:
	addi	a0, sp, 1408
	mv	a1, s6
	call	end_objects.settings.named_kinds
	ld	a2, 1416(sp)
	bnez	a2, .LBB0b35d_4
	lui	a0, 3
	addi	a0, a0, -205
	li	a2, 2
	j	.LBB0b35d_5
.LBB0b35d_4:
	ld	a0, 1408(sp)
.LBB0b35d_5:
	sd	a0, 640(sp)
	sd	a2, 648(sp)
	addi	a0, sp, 608
	addi	a1, sp, 640
	call	end_objects.constructors.server_objects
	lbu	a1, 608(sp)
	li	a0, 8
	bnez	a1, .LBB0b35d_36
	ld	s3, 616(sp)
	ld	s4, 624(sp)
	ld	s5, 632(sp)
	call	tuvaddri_c.sent.empty_packet
	zext.b	a0, a0
	li	a2, 1
	bne	a0, a2, .LBB0b35d_11
	sd	a1, 600(sp)
	ld	s0, 0(s0)
	sw	zero, 688(sp)
	sh	zero, 692(sp)
	sb	zero, 694(sp)
	lbu	a0, 8(s6)
	sd	a0, 592(sp)
	lbu	s7, 9(s6)
	lbu	a0, 10(s6)
	sd	a0, 584(sp)
	lbu	a0, 11(s6)
	sd	a0, 576(sp)
	lbu	a6, 16(s6)
	lbu	a1, 17(s6)
	lbu	a2, 18(s6)
	lbu	a3, 19(s6)
	lbu	a4, 20(s6)
	lbu	a5, 21(s6)
	lbu	s1, 22(s6)
	lbu	a0, 23(s6)
	slli	a1, a1, 8
	slli	a2, a2, 16
	slli	a3, a3, 24
	slli	a5, a5, 8
	slli	s1, s1, 16
	slli	a0, a0, 24
	or	a1, a1, a6
	or	a2, a2, a3
	or	a4, a4, a5
	or	a0, a0, s1
	lbu	s11, 12(s6)
	lbu	s9, 13(s6)
	lbu	s2, 14(s6)
	lbu	s8, 15(s6)
	or	a1, a1, a2
	or	a0, a0, a4
	slli	a0, a0, 32
	or	s1, a0, a1
	addi	a0, sp, 1408
	li	a2, 264
	li	a1, 0
	call	memset
	li	a0, 253
	bltu	a0, s1, .LBB0b35d_9
	slli	s7, s7, 8
	ld	a0, 584(sp)
	slli	a0, a0, 16
	ld	a1, 576(sp)
	slli	a1, a1, 24
	slli	s9, s9, 8
	slli	s2, s2, 16
	slli	s8, s8, 24
	ld	a2, 592(sp)
	or	a2, s7, a2
	or	a0, a0, a1
	or	a1, s9, s11
	or	a3, s8, s2
	or	a0, a0, a2
	or	a1, a1, a3
	slli	a1, a1, 32
	or	a1, a1, a0
	addi	a0, sp, 1408
	mv	a2, s1
	call	memcpy
	sd	s1, 1664(sp)
.LBB0b35d_9:
	addi	a0, sp, 656
	mv	a1, s6
	call	end_objects.settings.named_kinds
	ld	a0, 664(sp)
	bnez	a0, .LBB0b35d_14
	lui	a0, 3
	addi	a0, a0, -205
	sd	a0, 560(sp)
	li	a0, 2
	sd	a0, 592(sp)
	j	.LBB0b35d_15
.LBB0b35d_11:
	beqz	s5, .LBB0b35d_13
	mv	a0, s3
	call	rattle_dealloc
.LBB0b35d_13:
	li	a0, 8
	j	.LBB0b35d_36
.LBB0b35d_14:
	sd	a0, 592(sp)
	ld	a0, 656(sp)
	sd	a0, 560(sp)
.LBB0b35d_15:
	lbu	a0, 74(s6)
	addi	s11, s0, 2047
	beqz	a0, .LBB0b35d_17
	lbu	a1, 75(s6)
	snez	a2, a1
	slli	a1, a1, 8
	addi	a2, a2, 1
	sd	a2, 568(sp)
	or	a0, a0, a1
	sd	a0, 576(sp)
	j	.LBB0b35d_18
.LBB0b35d_17:
	li	a0, 513
	sd	a0, 576(sp)
	li	a0, 2
	sd	a0, 568(sp)
.LBB0b35d_18:
	lbu	a0, 76(s6)
	snez	a0, a0
	sd	a0, 584(sp)
	addi	a0, sp, 695
	li	a2, 712
	li	a1, 0
	call	memset
	lbu	a6, 0(s10)
	lbu	a7, 1(s10)
	lbu	t0, 2(s10)
	lbu	t1, 3(s10)
	lbu	t3, 4(s10)
	lbu	t4, 5(s10)
	lbu	t5, 6(s10)
	lbu	t6, 7(s10)
	lbu	s2, 8(s10)
	lbu	s7, 9(s10)
	lbu	s8, 10(s10)
	lbu	s9, 11(s10)
	lbu	ra, 12(s10)
	lbu	a2, 13(s10)
	lbu	s1, 14(s10)
	lbu	a5, 15(s10)
	lbu	a3, 16(s10)
	lbu	a4, 17(s10)
	lbu	a0, 18(s10)
	sd	a0, 552(sp)
	lbu	a0, 19(s10)
	sd	a0, 544(sp)
	lbu	a0, 20(s10)
	sd	a0, 536(sp)
	lbu	a0, 21(s10)
	sd	a0, 528(sp)
	lbu	a0, 22(s10)
	sd	a0, 520(sp)
	lbu	a0, 23(s10)
	sd	a0, 512(sp)
	lbu	a0, 24(s10)
	sd	a0, 504(sp)
	lbu	a0, 25(s10)
	sd	a0, 496(sp)
	lbu	a0, 26(s10)
	sd	a0, 488(sp)
	lbu	a0, 27(s10)
	sd	a0, 480(sp)
	lbu	a0, 28(s10)
	sd	a0, 472(sp)
	lbu	a0, 29(s10)
	sd	a0, 464(sp)
	lbu	a0, 30(s10)
	sd	a0, 456(sp)
	lbu	a0, 31(s10)
	sd	a0, 448(sp)
	lbu	a0, 12(s0)
	sd	a0, 440(sp)
	lbu	a0, 13(s0)
	sd	a0, 432(sp)
	lbu	a0, 14(s0)
	sd	a0, 424(sp)
	srli	a0, s3, 40
	srli	a1, s3, 32
	sb	a1, 12(s0)
	srli	a1, s3, 48
	sb	a0, 13(s0)
	lbu	a0, 15(s0)
	sd	a0, 408(sp)
	lbu	a0, 24(s0)
	sd	a0, 416(sp)
	lbu	a0, 25(s0)
	sd	a0, 400(sp)
	lbu	a0, 26(s0)
	sd	a0, 392(sp)
	srli	a0, s3, 56
	sb	a1, 14(s0)
	sb	a0, 15(s0)
	lbu	a0, 9(s0)
	sd	a0, 376(sp)
	lbu	a0, 10(s0)
	sd	a0, 384(sp)
	srli	a0, s3, 16
	srli	a1, s3, 8
	sb	a1, 9(s0)
	lbu	a1, 8(s0)
	sd	a1, 368(sp)
	sb	s3, 8(s0)
	srli	a1, s3, 24
	lbu	s3, 11(s0)
	sb	a0, 10(s0)
	sb	a1, 11(s0)
	srli	a0, s4, 40
	srli	a1, s4, 32
	sb	a1, 20(s0)
	srli	a1, s4, 48
	sb	a0, 21(s0)
	srli	a0, s4, 56
	sb	a1, 22(s0)
	sb	a0, 23(s0)
	srli	a0, s4, 16
	srli	a1, s4, 8
	sb	a1, 17(s0)
	sb	s4, 16(s0)
	srli	a1, s4, 24
	sb	a0, 18(s0)
	sb	a1, 19(s0)
	lbu	s4, 28(s0)
	lbu	a0, 29(s0)
	sd	a0, 360(sp)
	lbu	a0, 30(s0)
	sd	a0, 352(sp)
	srli	a0, s5, 40
	srli	a1, s5, 32
	sb	a1, 28(s0)
	srli	a1, s5, 48
	sb	a0, 29(s0)
	lbu	a0, 31(s0)
	sd	a0, 344(sp)
	srli	a0, s5, 56
	sb	a1, 30(s0)
	sb	a0, 31(s0)
	srli	a0, s5, 16
	srli	a1, s5, 8
	sb	a1, 25(s0)
	sb	s5, 24(s0)
	srli	a1, s5, 24
	lbu	t2, 27(s0)
	sb	a0, 26(s0)
	sb	a1, 27(s0)
	li	a0, 1
	sb	a0, 32(s0)
	sb	a0, 40(s0)
	slli	a0, a7, 8
	or	a0, a0, a6
	sd	a0, 336(sp)
	slli	a0, t0, 16
	slli	a1, t1, 24
	or	a0, a0, a1
	sd	a0, 328(sp)
	slli	a0, t4, 8
	or	a0, a0, t3
	sd	a0, 320(sp)
	slli	a0, t5, 16
	slli	a1, t6, 24
	or	a0, a0, a1
	sd	a0, 312(sp)
	slli	a0, s7, 8
	or	s7, a0, s2
	slli	a0, s8, 16
	slli	a1, s9, 24
	or	a0, a0, a1
	sd	a0, 304(sp)
	slli	a0, a2, 8
	or	a0, a0, ra
	sd	a0, 296(sp)
	slli	a0, s1, 16
	slli	a5, a5, 24
	or	a0, a0, a5
	sd	a0, 288(sp)
	slli	a0, a4, 8
	or	a0, a0, a3
	sd	a0, 280(sp)
	ld	a0, 552(sp)
	slli	a0, a0, 16
	ld	a2, 544(sp)
	slli	a2, a2, 24
	or	t5, a2, a0
	ld	a0, 528(sp)
	slli	a0, a0, 8
	ld	a1, 536(sp)
	or	a0, a0, a1
	sd	a0, 552(sp)
	ld	a0, 520(sp)
	slli	a0, a0, 16
	ld	a1, 512(sp)
	slli	a1, a1, 24
	or	s2, a1, a0
	ld	a0, 496(sp)
	slli	a0, a0, 8
	ld	a1, 504(sp)
	or	a0, a0, a1
	sd	a0, 544(sp)
	ld	a0, 488(sp)
	slli	a0, a0, 16
	ld	ra, 480(sp)
	slli	ra, ra, 24
	or	t4, ra, a0
	ld	a4, 464(sp)
	slli	a4, a4, 8
	ld	a0, 472(sp)
	or	ra, a4, a0
	ld	a0, 456(sp)
	slli	a0, a0, 16
	ld	t6, 448(sp)
	slli	t6, t6, 24
	or	t3, t6, a0
	ld	a5, 376(sp)
	slli	a5, a5, 8
	ld	a0, 368(sp)
	or	s8, a5, a0
	ld	a0, 384(sp)
	slli	a0, a0, 16
	slli	s3, s3, 24
	or	a7, s3, a0
	ld	a2, 432(sp)
	slli	a2, a2, 8
	ld	a0, 440(sp)
	or	s3, a2, a0
	ld	a2, 424(sp)
	slli	a2, a2, 16
	ld	s9, 408(sp)
	slli	s9, s9, 24
	or	t0, s9, a2
	ld	s1, 400(sp)
	slli	s1, s1, 8
	ld	s9, 392(sp)
	slli	s9, s9, 16
	slli	t2, t2, 24
	ld	a0, 360(sp)
	slli	a0, a0, 8
	ld	a1, 352(sp)
	slli	a1, a1, 16
	ld	s5, 344(sp)
	slli	s5, s5, 24
	ld	a2, 416(sp)
	or	t1, s1, a2
	or	t2, t2, s9
	or	t6, a0, s4
	or	s5, s5, a1
	lbu	a1, 578(s11)
	lbu	s9, 579(s11)
	lbu	a0, 580(s11)
	lbu	a2, 577(s11)
	slli	a1, a1, 8
	slli	s9, s9, 16
	slli	a0, a0, 24
	or	a6, a1, a2
	or	a4, a0, s9
	lbu	a2, 582(s11)
	lbu	s9, 581(s11)
	lbu	a0, 583(s11)
	lbu	a1, 584(s11)
	slli	a2, a2, 8
	or	a2, a2, s9
	slli	a0, a0, 16
	slli	a1, a1, 24
	or	a0, a0, a1
	ld	a1, 336(sp)
	ld	a3, 328(sp)
	or	a3, a3, a1
	lbu	s9, 0(s0)
	ld	a1, 320(sp)
	ld	s1, 312(sp)
	or	s4, s1, a1
	ld	a1, 304(sp)
	or	a1, a1, s7
	ld	s1, 296(sp)
	ld	a5, 288(sp)
	or	s7, a5, s1
	ld	a5, 280(sp)
	or	t5, t5, a5
	lbu	s1, 1328(s0)
	sd	s1, 528(sp)
	lbu	s1, 1329(s0)
	sd	s1, 496(sp)
	lbu	s1, 1330(s0)
	sd	s1, 512(sp)
	lbu	s1, 1331(s0)
	sd	s1, 504(sp)
	ld	a5, 552(sp)
	or	s2, s2, a5
	ld	a5, 544(sp)
	or	t4, t4, a5
	or	t3, t3, ra
	or	a7, a7, s8
	lbu	s1, 1332(s0)
	sd	s1, 520(sp)
	lbu	s1, 1333(s0)
	sd	s1, 472(sp)
	lbu	s1, 1334(s0)
	sd	s1, 488(sp)
	lbu	s1, 1335(s0)
	sd	s1, 480(sp)
	or	t0, t0, s3
	or	t1, t2, t1
	or	s1, s5, t6
	or	a4, a4, a6
	lbu	a5, 1528(s0)
	sd	a5, 416(sp)
	lbu	a5, 1529(s0)
	sd	a5, 448(sp)
	lbu	a5, 1530(s0)
	sd	a5, 464(sp)
	lbu	a5, 1531(s0)
	sd	a5, 456(sp)
	or	a0, a0, a2
	slli	s4, s4, 32
	slli	s7, s7, 32
	slli	s2, s2, 32
	or	a2, s4, a3
	or	a6, s7, a1
	or	a3, s2, t5
	lbu	a5, 1532(s0)
	sd	a5, 400(sp)
	lbu	a5, 1533(s0)
	sd	a5, 424(sp)
	lbu	a5, 1534(s0)
	sd	a5, 440(sp)
	lbu	a5, 1535(s0)
	sd	a5, 432(sp)
	slli	t3, t3, 32
	slli	t0, t0, 32
	slli	s1, s1, 32
	slli	a0, a0, 32
	or	a5, t3, t4
	or	a1, t0, a7
	sd	a1, 544(sp)
	or	s1, s1, t1
	sd	s1, 552(sp)
	or	a0, a0, a4
	sd	a0, 536(sp)
	lbu	a0, 1560(s0)
	sd	a0, 408(sp)
	lbu	a0, 1561(s0)
	sd	a0, 376(sp)
	lbu	a0, 1562(s0)
	sd	a0, 392(sp)
	lbu	a0, 1563(s0)
	sd	a0, 384(sp)
	sb	zero, 4(s0)
	sb	zero, 5(s0)
	sb	zero, 6(s0)
	sb	zero, 7(s0)
	sd	a2, 656(sp)
	li	a0, 5
	sb	zero, 36(s0)
	sb	zero, 37(s0)
	sb	zero, 38(s0)
	sb	zero, 39(s0)
	sb	a0, 0(s0)
	sb	zero, 1(s0)
	sb	zero, 2(s0)
	sb	zero, 3(s0)
	sb	zero, 33(s0)
	sb	zero, 34(s0)
	sd	a6, 664(sp)
	sd	a3, 672(sp)
	sd	a5, 680(sp)
	lbu	a0, 1564(s0)
	sd	a0, 368(sp)
	lbu	a0, 1565(s0)
	sd	a0, 336(sp)
	lbu	a0, 1566(s0)
	sd	a0, 360(sp)
	lbu	a0, 1567(s0)
	sd	a0, 352(sp)
	lbu	a0, 1976(s0)
	sd	a0, 344(sp)
	lbu	a0, 1977(s0)
	sd	a0, 280(sp)
	lbu	a0, 1978(s0)
	sd	a0, 296(sp)
	lbu	a0, 1979(s0)
	sd	a0, 288(sp)
	lbu	a0, 1980(s0)
	sd	a0, 328(sp)
	lbu	a0, 1981(s0)
	sd	a0, 304(sp)
	lbu	a0, 1982(s0)
	sd	a0, 320(sp)
	lbu	a0, 1983(s0)
	sd	a0, 312(sp)
	lbu	a0, 249(s11)
	sd	a0, 88(sp)
	lbu	a0, 250(s11)
	sd	a0, 8(sp)
	lbu	a0, 251(s11)
	sd	a0, 24(sp)
	lbu	a0, 252(s11)
	sd	a0, 16(sp)
	lbu	a0, 253(s11)
	sd	a0, 80(sp)
	lbu	a0, 254(s11)
	sd	a0, 32(sp)
	lbu	a0, 255(s11)
	sd	a0, 48(sp)
	lbu	a0, 256(s11)
	sd	a0, 40(sp)
	lbu	a0, 265(s11)
	sd	a0, 272(sp)
	lbu	a0, 266(s11)
	sd	a0, 184(sp)
	lbu	a0, 267(s11)
	sd	a0, 200(sp)
	lbu	a0, 268(s11)
	sd	a0, 192(sp)
	lbu	a0, 269(s11)
	sd	a0, 264(sp)
	lbu	a0, 270(s11)
	sd	a0, 208(sp)
	lbu	a0, 271(s11)
	sd	a0, 232(sp)
	lbu	a0, 272(s11)
	sd	a0, 224(sp)
	lbu	a0, 281(s11)
	sd	a0, 64(sp)
	lbu	a0, 282(s11)
	sd	a0, 152(sp)
	lbu	a0, 283(s11)
	sd	a0, 128(sp)
	lbu	a0, 284(s11)
	sd	a0, 56(sp)
	lbu	a0, 285(s11)
	sd	a0, 72(sp)
	lbu	s5, 286(s11)
	lbu	s4, 287(s11)
	lbu	s2, 288(s11)
	lbu	a0, 297(s11)
	sd	a0, 256(sp)
	lbu	s3, 298(s11)
	lbu	s7, 299(s11)
	lbu	s8, 300(s11)
	lbu	a0, 301(s11)
	sd	a0, 248(sp)
	lbu	a0, 302(s11)
	sd	a0, 96(sp)
	lbu	a0, 303(s11)
	sd	a0, 112(sp)
	lbu	a0, 304(s11)
	sd	a0, 104(sp)
	lbu	a0, 305(s11)
	sd	a0, 240(sp)
	lbu	a0, 306(s11)
	sd	a0, 120(sp)
	lbu	a0, 307(s11)
	sd	a0, 144(sp)
	lbu	a0, 308(s11)
	sd	a0, 136(sp)
	lbu	a0, 309(s11)
	sd	a0, 216(sp)
	lbu	a0, 310(s11)
	sd	a0, 160(sp)
	lbu	a0, 311(s11)
	sd	a0, 176(sp)
	lbu	a0, 312(s11)
	sd	a0, 168(sp)
	sb	zero, 35(s0)
	addi	a0, s0, 41
	addi	s1, s0, 1576
	li	a2, 1535
	li	a1, 0
	call	memset
	addi	a1, sp, 1408
	li	a2, 264
	mv	a0, s1
	call	memcpy
	ld	a1, 560(sp)
	srli	t1, a1, 56
	srli	t4, a1, 48
	srli	a2, a1, 40
	srli	a3, a1, 32
	srli	t3, a1, 24
	srli	a5, a1, 16
	srli	s1, a1, 8
	ld	a0, 592(sp)
	srli	a6, a0, 56
	srli	a7, a0, 48
	srli	t0, a0, 40
	srli	a4, a0, 32
	srli	t2, a0, 24
	sb	a3, 1844(s0)
	sb	a2, 1845(s0)
	sb	t4, 1846(s0)
	sb	t1, 1847(s0)
	srli	t1, a0, 16
	sb	a1, 1840(s0)
	sb	s1, 1841(s0)
	sb	a5, 1842(s0)
	sb	t3, 1843(s0)
	srli	a2, a0, 8
	sb	zero, 1860(s0)
	sb	zero, 1861(s0)
	sb	zero, 1862(s0)
	sb	zero, 1863(s0)
	sb	a4, 1852(s0)
	sb	t0, 1853(s0)
	sb	a7, 1854(s0)
	sb	a6, 1855(s0)
	ld	a4, 576(sp)
	srli	a3, a4, 8
	sb	zero, 1868(s0)
	sb	zero, 1869(s0)
	sb	zero, 1870(s0)
	sb	zero, 1871(s0)
	ld	a5, 568(sp)
	sb	a5, 1864(s0)
	sb	zero, 1865(s0)
	sb	zero, 1866(s0)
	sb	zero, 1867(s0)
	sb	a0, 1848(s0)
	sb	a2, 1849(s0)
	sb	t1, 1850(s0)
	sb	t2, 1851(s0)
	sb	a4, 1856(s0)
	sb	a3, 1857(s0)
	sb	zero, 1858(s0)
	sb	zero, 1859(s0)
	addi	a0, s0, 1872
	addi	a1, sp, 656
	li	a2, 32
	call	memcpy
	ld	a0, 584(sp)
	sb	a0, 1904(s0)
	addi	a0, s0, 1905
	addi	a1, sp, 688
	li	a2, 719
	call	memcpy
	ld	a0, 600(sp)
	srli	a6, a0, 56
	srli	a1, a0, 48
	srli	a2, a0, 40
	srli	a3, a0, 32
	srli	a4, a0, 24
	slli	s9, s9, 2
.Lpcrel_hi73:
	auipc	a5, %pcrel_hi(.LJTI0b35d_0)
	addi	a5, a5, %pcrel_lo(.Lpcrel_hi73)
	add	s9, s9, a5
	lw	s1, 0(s9)
	sb	a3, 581(s11)
	sb	a2, 582(s11)
	sb	a1, 583(s11)
	sb	a6, 584(s11)
	srli	a2, a0, 16
	add	a5, a5, s1
	srli	a1, a0, 8
	sb	a0, 577(s11)
	sb	a1, 578(s11)
	sb	a2, 579(s11)
	sb	a4, 580(s11)
	jr	a5
.LBB0b35d_19:
	ld	a0, 544(sp)
	ld	s1, 536(sp)
	ld	a1, 552(sp)
	beqz	a1, .LBB0b35d_21
	call	rattle_dealloc
.LBB0b35d_21:
	mv	a0, s1
	j	.LBB0b35d_32
.LBB0b35d_22:
	ld	s1, 280(sp)
	slli	s1, s1, 8
	ld	a1, 296(sp)
	slli	a1, a1, 16
	ld	a2, 288(sp)
	slli	a2, a2, 24
	ld	a3, 304(sp)
	slli	a3, a3, 8
	ld	a4, 320(sp)
	slli	a4, a4, 16
	ld	a5, 312(sp)
	slli	a5, a5, 24
	ld	a0, 344(sp)
	or	a0, a0, s1
	or	a1, a1, a2
	ld	a2, 328(sp)
	j	.LBB0b35d_31
.LBB0b35d_23:
	ld	s9, 152(sp)
	ld	ra, 128(sp)
	sd	s2, 600(sp)
	slli	s3, s3, 8
	slli	s2, s7, 16
	slli	s8, s8, 24
	ld	a6, 96(sp)
	slli	a6, a6, 8
	ld	a7, 112(sp)
	slli	a7, a7, 16
	ld	t0, 104(sp)
	slli	t0, t0, 24
	ld	t1, 120(sp)
	slli	t1, t1, 8
	ld	t2, 144(sp)
	slli	t2, t2, 16
	ld	t3, 136(sp)
	slli	t3, t3, 24
	ld	t4, 160(sp)
	slli	t4, t4, 8
	ld	t5, 176(sp)
	slli	t5, t5, 16
	ld	t6, 168(sp)
	slli	t6, t6, 24
	ld	a0, 256(sp)
	or	s3, s3, a0
	or	a3, s8, s2
	ld	a0, 248(sp)
	or	a4, a6, a0
	or	a5, t0, a7
	ld	a0, 240(sp)
	or	s1, t1, a0
	or	a0, t3, t2
	ld	a1, 216(sp)
	or	a1, t4, a1
	or	a2, t6, t5
	or	a3, a3, s3
	or	a4, a4, a5
	or	a0, a0, s1
	or	a1, a1, a2
	slli	a4, a4, 32
	or	a3, a3, a4
	slli	a1, a1, 32
	or	s2, a1, a0
	beqz	a3, .LBB0b35d_25
	slli	s1, s9, 8
	slli	a1, ra, 16
	ld	a2, 56(sp)
	slli	a2, a2, 24
	slli	a3, s5, 8
	slli	a4, s4, 16
	ld	a5, 600(sp)
	slli	a5, a5, 24
	ld	a0, 64(sp)
	or	a0, a0, s1
	or	a1, a1, a2
	ld	a2, 72(sp)
	or	a2, a2, a3
	or	a4, a4, a5
	or	a0, a0, a1
	or	a2, a2, a4
	slli	a2, a2, 32
	or	a0, a0, a2
	call	rattle_dealloc
.LBB0b35d_25:
	mv	a0, s2
	j	.LBB0b35d_32
.LBB0b35d_26:
	ld	s1, 184(sp)
	slli	s1, s1, 8
	ld	a1, 200(sp)
	slli	a1, a1, 16
	ld	a2, 192(sp)
	slli	a2, a2, 24
	ld	a3, 208(sp)
	slli	a3, a3, 8
	ld	a4, 232(sp)
	slli	a4, a4, 16
	ld	a5, 224(sp)
	slli	a5, a5, 24
	ld	a0, 272(sp)
	or	a0, a0, s1
	or	a1, a1, a2
	ld	a2, 264(sp)
	or	a2, a2, a3
	or	a4, a4, a5
	or	a0, a0, a1
	or	a2, a2, a4
	slli	a2, a2, 32
	or	a0, a0, a2
	beqz	a0, .LBB0b35d_33
	ld	s1, 8(sp)
	slli	s1, s1, 8
	ld	a1, 24(sp)
	slli	a1, a1, 16
	ld	a2, 16(sp)
	slli	a2, a2, 24
	ld	a3, 32(sp)
	slli	a3, a3, 8
	ld	a4, 48(sp)
	slli	a4, a4, 16
	ld	a5, 40(sp)
	slli	a5, a5, 24
	ld	a0, 88(sp)
	or	a0, a0, s1
	or	a1, a1, a2
	ld	a2, 80(sp)
	j	.LBB0b35d_31
.LBB0b35d_28:
	ld	s1, 496(sp)
	slli	s1, s1, 8
	ld	a1, 512(sp)
	slli	a1, a1, 16
	ld	a2, 504(sp)
	slli	a2, a2, 24
	ld	a3, 472(sp)
	slli	a3, a3, 8
	ld	a4, 488(sp)
	slli	a4, a4, 16
	ld	a5, 480(sp)
	slli	a5, a5, 24
	ld	a0, 528(sp)
	or	a0, a0, s1
	or	a1, a1, a2
	ld	a2, 520(sp)
	j	.LBB0b35d_31
.LBB0b35d_29:
	ld	a0, 448(sp)
	slli	s1, a0, 8
	ld	a1, 464(sp)
	slli	a1, a1, 16
	ld	a2, 456(sp)
	slli	a2, a2, 24
	ld	a3, 424(sp)
	slli	a3, a3, 8
	ld	a4, 440(sp)
	slli	a4, a4, 16
	ld	a5, 432(sp)
	slli	a5, a5, 24
	ld	a0, 416(sp)
	or	a0, a0, s1
	or	a1, a1, a2
	ld	a2, 400(sp)
	j	.LBB0b35d_31
.LBB0b35d_30:
	ld	s1, 376(sp)
	slli	s1, s1, 8
	ld	a1, 392(sp)
	slli	a1, a1, 16
	ld	a2, 384(sp)
	slli	a2, a2, 24
	ld	a3, 336(sp)
	slli	a3, a3, 8
	ld	a4, 360(sp)
	slli	a4, a4, 16
	ld	a5, 352(sp)
	slli	a5, a5, 24
	ld	a0, 408(sp)
	or	a0, a0, s1
	or	a1, a1, a2
	ld	a2, 368(sp)
.LBB0b35d_31:
	or	a2, a2, a3
	or	a4, a4, a5
	or	a0, a0, a1
	or	a2, a2, a4
	slli	a2, a2, 32
	or	a0, a0, a2
.LBB0b35d_32:
	call	rattle_dealloc
.LBB0b35d_33:
	lbu	a0, 0(s0)
	li	a1, 5
	bne	a0, a1, .LBB0b35d_35
	addi	s0, s0, 8
	mv	a0, s0
	mv	a1, s6
	call	tuvaddri_c.by_method.add_users.__93e2819ad231d5c1_
	mv	a0, s0
	mv	a1, s10
	call	server_machine.machine.SizedServer.make_again.__575f94f35bca5e04_
.LBB0b35d_35:
	li	a0, 0
	sb	zero, 585(s11)
.LBB0b35d_36:
	ld	ra, 1768(sp)
	ld	s0, 1760(sp)
	ld	s1, 1752(sp)
	ld	s2, 1744(sp)
	ld	s3, 1736(sp)
	ld	s4, 1728(sp)
	ld	s5, 1720(sp)
	ld	s6, 1712(sp)
	ld	s7, 1704(sp)
	ld	s8, 1696(sp)
	ld	s9, 1688(sp)
	ld	s10, 1680(sp)
	ld	s11, 1672(sp)
	addi	sp, sp, 1776
	ret
.Lfunc_end0b35d:
	.size	tuv_backend_begin, .Lfunc_end0b35d-tuv_backend_begin
	.section	.rodata.tuv_backend_begin,"a",@progbits
	.p2align	2, 0x0
.LJTI0b35d_0:
	.word	.LBB0b35d_33-.LJTI0b35d_0
	.word	.LBB0b35d_28-.LJTI0b35d_0
	.word	.LBB0b35d_22-.LJTI0b35d_0
	.word	.LBB0b35d_26-.LJTI0b35d_0
	.word	.LBB0b35d_19-.LJTI0b35d_0
	.word	.LBB0b35d_19-.LJTI0b35d_0
	.word	.LBB0b35d_29-.LJTI0b35d_0
	.word	.LBB0b35d_23-.LJTI0b35d_0
	.word	.LBB0b35d_30-.LJTI0b35d_0

	.section	.text.tuv_end_close,"ax",@progbits
	.globl	tuv_end_close
	.p2align	1
	.type	tuv_end_close,@function
tuv_end_close:
	addi	sp, sp, -624
	sd	ra, 616(sp)
	sd	s0, 608(sp)
	sd	s1, 600(sp)
	sd	s2, 592(sp)
	sd	s3, 584(sp)
	sd	s4, 576(sp)
	sd	s5, 568(sp)
	sd	s6, 560(sp)
	sd	s7, 552(sp)
	sd	s8, 544(sp)
	sd	s9, 536(sp)
	sd	s10, 528(sp)
	sd	s11, 520(sp)
	ld	a0, 0(a0)
	addi	s0, a0, 2047
	lbu	a1, 0(a0)
	sd	a1, 512(sp)
	lbu	t0, 8(a0)
	lbu	t1, 9(a0)
	lbu	t3, 10(a0)
	lbu	t6, 11(a0)
	lbu	s2, 12(a0)
	lbu	s3, 13(a0)
	lbu	t2, 14(a0)
	lbu	t5, 15(a0)
	lbu	t4, 24(a0)
	lbu	a3, 25(a0)
	lbu	a1, 26(a0)
	lbu	a2, 27(a0)
	lbu	a4, 28(a0)
	lbu	s1, 29(a0)
	lbu	a6, 30(a0)
	lbu	a7, 31(a0)
	lbu	a5, 1328(a0)
	sd	a5, 496(sp)
	lbu	a5, 1329(a0)
	sd	a5, 440(sp)
	lbu	a5, 1330(a0)
	sd	a5, 456(sp)
	lbu	a5, 1331(a0)
	sd	a5, 448(sp)
	lbu	a5, 1332(a0)
	sd	a5, 488(sp)
	lbu	a5, 1333(a0)
	sd	a5, 464(sp)
	lbu	a5, 1334(a0)
	sd	a5, 480(sp)
	lbu	a5, 1335(a0)
	sd	a5, 472(sp)
	slli	t1, t1, 8
	slli	t3, t3, 16
	slli	t6, t6, 24
	slli	a5, s3, 8
	or	t1, t1, t0
	or	t6, t6, t3
	or	t3, a5, s2
	lbu	a5, 1528(a0)
	sd	a5, 432(sp)
	lbu	a5, 1529(a0)
	sd	a5, 408(sp)
	lbu	a5, 1530(a0)
	sd	a5, 424(sp)
	lbu	a5, 1531(a0)
	sd	a5, 416(sp)
	slli	t2, t2, 16
	slli	t5, t5, 24
	slli	a5, a3, 8
	slli	a3, a1, 16
	slli	a1, a2, 24
	slli	s1, s1, 8
	or	t2, t5, t2
	or	t4, a5, t4
	or	t5, a1, a3
	or	t0, s1, a4
	lbu	s2, 577(s0)
	lbu	s3, 578(s0)
	lbu	s4, 579(s0)
	lbu	s1, 580(s0)
	slli	a6, a6, 16
	slli	a7, a7, 24
	or	a2, a7, a6
	or	a7, t6, t1
	or	t1, t2, t3
	or	a6, t5, t4
	lbu	a3, 581(s0)
	lbu	a1, 582(s0)
	lbu	a4, 583(s0)
	lbu	a5, 584(s0)
	slli	s3, s3, 8
	slli	s4, s4, 16
	slli	s1, s1, 24
	slli	a1, a1, 8
	or	t0, a2, t0
	or	a2, s3, s2
	or	s1, s1, s4
	or	a3, a3, a1
	lbu	a1, 1532(a0)
	sd	a1, 400(sp)
	lbu	a1, 1533(a0)
	sd	a1, 376(sp)
	lbu	a1, 1534(a0)
	sd	a1, 392(sp)
	lbu	a1, 1535(a0)
	sd	a1, 384(sp)
	slli	a4, a4, 16
	slli	a5, a5, 24
	or	a4, a4, a5
	slli	t1, t1, 32
	or	a1, s1, a2
	or	a3, a3, a4
	or	a2, t1, a7
	sd	a2, 504(sp)
	lbu	a2, 1560(a0)
	sd	a2, 368(sp)
	lbu	a2, 1561(a0)
	sd	a2, 304(sp)
	lbu	a2, 1562(a0)
	sd	a2, 328(sp)
	lbu	a2, 1563(a0)
	sd	a2, 320(sp)
	slli	t0, t0, 32
	lbu	a2, 1564(a0)
	sd	a2, 360(sp)
	lbu	a2, 1565(a0)
	sd	a2, 312(sp)
	lbu	a2, 1566(a0)
	sd	a2, 352(sp)
	lbu	a2, 1567(a0)
	sd	a2, 344(sp)
	lbu	a2, 1976(a0)
	sd	a2, 336(sp)
	lbu	a2, 1977(a0)
	sd	a2, 248(sp)
	lbu	a2, 1978(a0)
	sd	a2, 264(sp)
	lbu	a2, 1979(a0)
	sd	a2, 256(sp)
	lbu	a2, 1980(a0)
	sd	a2, 296(sp)
	lbu	a2, 1981(a0)
	sd	a2, 272(sp)
	lbu	a2, 1982(a0)
	sd	a2, 288(sp)
	lbu	a2, 1983(a0)
	sd	a2, 280(sp)
	lbu	a2, 249(s0)
	sd	a2, 64(sp)
	lbu	a2, 250(s0)
	sd	a2, 0(sp)
	lbu	a2, 251(s0)
	sd	a2, 16(sp)
	lbu	a2, 252(s0)
	sd	a2, 8(sp)
	lbu	a2, 253(s0)
	sd	a2, 56(sp)
	lbu	a2, 254(s0)
	sd	a2, 24(sp)
	lbu	a2, 255(s0)
	sd	a2, 40(sp)
	lbu	a2, 256(s0)
	sd	a2, 32(sp)
	lbu	a2, 265(s0)
	sd	a2, 240(sp)
	lbu	a2, 266(s0)
	sd	a2, 152(sp)
	lbu	a2, 267(s0)
	sd	a2, 168(sp)
	lbu	a2, 268(s0)
	sd	a2, 160(sp)
	lbu	a2, 269(s0)
	sd	a2, 232(sp)
	lbu	a2, 270(s0)
	sd	a2, 176(sp)
	lbu	a2, 271(s0)
	sd	a2, 200(sp)
	lbu	a2, 272(s0)
	sd	a2, 192(sp)
	lbu	a2, 281(s0)
	sd	a2, 128(sp)
	lbu	a2, 282(s0)
	sd	a2, 112(sp)
	lbu	a2, 283(s0)
	sd	a2, 88(sp)
	lbu	a2, 284(s0)
	sd	a2, 72(sp)
	lbu	a2, 285(s0)
	sd	a2, 48(sp)
	lbu	s3, 286(s0)
	lbu	s7, 287(s0)
	lbu	s9, 288(s0)
	lbu	a2, 297(s0)
	sd	a2, 224(sp)
	lbu	s10, 298(s0)
	lbu	s6, 299(s0)
	lbu	s8, 300(s0)
	lbu	a2, 301(s0)
	sd	a2, 216(sp)
	lbu	s5, 302(s0)
	lbu	s11, 303(s0)
	lbu	s4, 304(s0)
	lbu	a2, 305(s0)
	sd	a2, 208(sp)
	lbu	a2, 306(s0)
	sd	a2, 80(sp)
	lbu	a2, 307(s0)
	sd	a2, 104(sp)
	lbu	a2, 308(s0)
	sd	a2, 96(sp)
	lbu	a2, 309(s0)
	sd	a2, 184(sp)
	lbu	a2, 310(s0)
	sd	a2, 120(sp)
	lbu	a2, 311(s0)
	sd	a2, 144(sp)
	lbu	a2, 312(s0)
	sd	a2, 136(sp)
	or	s2, t0, a6
	slli	a3, a3, 32
	or	s1, a3, a1
	lui	a2, 1
	addi	a2, a2, -1464
	li	a1, 0
	call	memset
	ld	a0, 512(sp)
	slli	a0, a0, 2
.Lpcrel_hi74:
	auipc	a1, %pcrel_hi(.LJTIaaabf_0)
	addi	a1, a1, %pcrel_lo(.Lpcrel_hi74)
	add	a0, a0, a1
	lw	a0, 0(a0)
	add	a0, a0, a1
	jr	a0
.LBBaaabf_1:
	ld	a0, 504(sp)
	bnez	s2, .LBBaaabf_5
	j	.LBBaaabf_6
.LBBaaabf_2:
	ld	s1, 248(sp)
	slli	s1, s1, 8
	ld	a1, 264(sp)
	slli	a1, a1, 16
	ld	a2, 256(sp)
	slli	a2, a2, 24
	ld	a3, 272(sp)
	slli	a3, a3, 8
	ld	a4, 288(sp)
	slli	a4, a4, 16
	ld	a5, 280(sp)
	slli	a5, a5, 24
	ld	a0, 336(sp)
	or	a0, a0, s1
	or	a1, a1, a2
	ld	a2, 296(sp)
	j	.LBBaaabf_12
.LBBaaabf_3:
	ld	t3, 112(sp)
	ld	ra, 72(sp)
	ld	s2, 88(sp)
	mv	t6, s3
	mv	t5, s9
	mv	t4, s7
	ld	t2, 128(sp)
	slli	s10, s10, 8
	slli	s6, s6, 16
	slli	s8, s8, 24
	slli	s5, s5, 8
	slli	s11, s11, 16
	slli	s4, s4, 24
	ld	s9, 80(sp)
	slli	s9, s9, 8
	ld	s3, 104(sp)
	slli	s3, s3, 16
	ld	s7, 96(sp)
	slli	s7, s7, 24
	ld	a6, 120(sp)
	slli	a6, a6, 8
	ld	a7, 144(sp)
	slli	a7, a7, 16
	ld	t0, 136(sp)
	slli	t0, t0, 24
	ld	a0, 224(sp)
	or	t1, s10, a0
	or	a4, s8, s6
	ld	a0, 216(sp)
	or	a5, s5, a0
	or	s1, s4, s11
	ld	a0, 208(sp)
	or	a0, s9, a0
	or	a1, s7, s3
	ld	a2, 184(sp)
	or	a2, a6, a2
	or	a3, t0, a7
	or	a4, a4, t1
	or	a5, a5, s1
	or	a0, a0, a1
	or	a2, a2, a3
	slli	a5, a5, 32
	or	a4, a4, a5
	slli	a2, a2, 32
	or	s1, a2, a0
	beqz	a4, .LBBaaabf_6
	slli	a0, t3, 8
	slli	a1, s2, 16
	slli	a2, ra, 24
	slli	a3, t6, 8
	slli	a4, t4, 16
	slli	a5, t5, 24
	or	a0, a0, t2
	or	a1, a1, a2
	ld	a2, 48(sp)
	or	a2, a2, a3
	or	a4, a4, a5
	or	a0, a0, a1
	or	a2, a2, a4
	slli	a2, a2, 32
	or	a0, a0, a2
.LBBaaabf_5:
	call	rattle_dealloc
.LBBaaabf_6:
	mv	a0, s1
	j	.LBBaaabf_13
.LBBaaabf_7:
	ld	s1, 152(sp)
	slli	s1, s1, 8
	ld	a1, 168(sp)
	slli	a1, a1, 16
	ld	a2, 160(sp)
	slli	a2, a2, 24
	ld	a3, 176(sp)
	slli	a3, a3, 8
	ld	a4, 200(sp)
	slli	a4, a4, 16
	ld	a5, 192(sp)
	slli	a5, a5, 24
	ld	a0, 240(sp)
	or	a0, a0, s1
	or	a1, a1, a2
	ld	a2, 232(sp)
	or	a2, a2, a3
	or	a4, a4, a5
	or	a0, a0, a1
	or	a2, a2, a4
	slli	a2, a2, 32
	or	a0, a0, a2
	beqz	a0, .LBBaaabf_14
	ld	s1, 0(sp)
	slli	s1, s1, 8
	ld	a1, 16(sp)
	slli	a1, a1, 16
	ld	a2, 8(sp)
	slli	a2, a2, 24
	ld	a3, 24(sp)
	slli	a3, a3, 8
	ld	a4, 40(sp)
	slli	a4, a4, 16
	ld	a5, 32(sp)
	slli	a5, a5, 24
	ld	a0, 64(sp)
	or	a0, a0, s1
	or	a1, a1, a2
	ld	a2, 56(sp)
	j	.LBBaaabf_12
.LBBaaabf_9:
	ld	s1, 440(sp)
	slli	s1, s1, 8
	ld	a1, 456(sp)
	slli	a1, a1, 16
	ld	a2, 448(sp)
	slli	a2, a2, 24
	ld	a3, 464(sp)
	slli	a3, a3, 8
	ld	a4, 480(sp)
	slli	a4, a4, 16
	ld	a5, 472(sp)
	slli	a5, a5, 24
	ld	a0, 496(sp)
	or	a0, a0, s1
	or	a1, a1, a2
	ld	a2, 488(sp)
	j	.LBBaaabf_12
.LBBaaabf_10:
	ld	s1, 408(sp)
	slli	s1, s1, 8
	ld	a1, 424(sp)
	slli	a1, a1, 16
	ld	a2, 416(sp)
	slli	a2, a2, 24
	ld	a3, 376(sp)
	slli	a3, a3, 8
	ld	a4, 392(sp)
	slli	a4, a4, 16
	ld	a5, 384(sp)
	slli	a5, a5, 24
	ld	a0, 432(sp)
	or	a0, a0, s1
	or	a1, a1, a2
	ld	a2, 400(sp)
	j	.LBBaaabf_12
.LBBaaabf_11:
	ld	s1, 304(sp)
	slli	s1, s1, 8
	ld	a1, 328(sp)
	slli	a1, a1, 16
	ld	a2, 320(sp)
	slli	a2, a2, 24
	ld	a3, 312(sp)
	slli	a3, a3, 8
	ld	a4, 352(sp)
	slli	a4, a4, 16
	ld	a5, 344(sp)
	slli	a5, a5, 24
	ld	a0, 368(sp)
	or	a0, a0, s1
	or	a1, a1, a2
	ld	a2, 360(sp)
.LBBaaabf_12:
	or	a2, a2, a3
	or	a4, a4, a5
	or	a0, a0, a1
	or	a2, a2, a4
	slli	a2, a2, 32
	or	a0, a0, a2
.LBBaaabf_13:
	call	rattle_dealloc
.LBBaaabf_14:
	sb	zero, 585(s0)
	ld	ra, 616(sp)
	ld	s0, 608(sp)
	ld	s1, 600(sp)
	ld	s2, 592(sp)
	ld	s3, 584(sp)
	ld	s4, 576(sp)
	ld	s5, 568(sp)
	ld	s6, 560(sp)
	ld	s7, 552(sp)
	ld	s8, 544(sp)
	ld	s9, 536(sp)
	ld	s10, 528(sp)
	ld	s11, 520(sp)
	addi	sp, sp, 624
	ret
.Lfunc_endaaabf:
	.size	tuv_end_close, .Lfunc_endaaabf-tuv_end_close
	.section	.rodata.tuv_end_close,"a",@progbits
	.p2align	2, 0x0
.LJTIaaabf_0:
	.word	.LBBaaabf_14-.LJTIaaabf_0
	.word	.LBBaaabf_9-.LJTIaaabf_0
	.word	.LBBaaabf_2-.LJTIaaabf_0
	.word	.LBBaaabf_7-.LJTIaaabf_0
	.word	.LBBaaabf_1-.LJTIaaabf_0
	.word	.LBBaaabf_1-.LJTIaaabf_0
	.word	.LBBaaabf_10-.LJTIaaabf_0
	.word	.LBBaaabf_3-.LJTIaaabf_0
	.word	.LBBaaabf_11-.LJTIaaabf_0

	.section	.text.tuv_end_deliver,"ax",@progbits
	.globl	tuv_end_deliver
	.p2align	1
	.type	tuv_end_deliver,@function
tuv_end_deliver:
	addi	sp, sp, -16
	sd	ra, 8(sp)
	mv	a3, a2
	mv	a2, a1
	ld	a1, 0(a0)
	seqz	a0, a2
	slli	a0, a0, 12
	lbu	a4, 0(a1)
	add	a2, a2, a0
	li	a0, 3
	sw	zero, 0(sp)
	sb	zero, 4(sp)
	bne	a4, a0, .LBB58edb_2
	mv	a0, sp
	call	tuvaddri_c.deliver.deliver_to_peer
	j	.LBB58edb_3
.LBB58edb_2:
	mv	a0, sp
	call	tuvaddri_c.deliver.deliver_to_server
.LBB58edb_3:
	lbu	a0, 4(sp)
	lwu	a1, 0(sp)
	slli	a0, a0, 32
	or	a0, a0, a1
	ld	ra, 8(sp)
	addi	sp, sp, 16
	ret
.Lfunc_end58edb:
	.size	tuv_end_deliver, .Lfunc_end58edb-tuv_end_deliver

	.section	.text.tuv_end_failure,"ax",@progbits
	.globl	tuv_end_failure
	.p2align	1
	.type	tuv_end_failure,@function
tuv_end_failure:
	addi	sp, sp, -32
	sd	ra, 24(sp)
	sd	s0, 16(sp)
	sd	s1, 8(sp)
	ld	s0, 0(a0)
	addi	s1, s0, 2047
	mv	a0, s0
	call	tuvaddri_c.session.End.last_packet
	mv	a2, a0
	mv	a3, a1
	li	a0, 0
	lbu	a1, 0(s0)
.Lpcrel_hi75:
	auipc	a4, %pcrel_hi(.LJTI43b15_0)
	slli	a1, a1, 2
	addi	a4, a4, %pcrel_lo(.Lpcrel_hi75)
	add	a1, a1, a4
	lw	a1, 0(a1)
	add	a4, a4, a1
	li	a1, 0
	jr	a4
.LBB43b15_1:
	addi	a1, s0, 8
	li	a0, 1
	li	a4, 0
	j	.LBB43b15_55
.LBB43b15_2:
	lbu	a0, 38(s0)
	beqz	a0, .LBB43b15_32
	ld	a1, 8(s0)
	ld	a3, 16(s0)
	lbu	a0, 39(s0)
	addi	a2, a1, -1256
	addi	a1, a3, 1
	j	.LBB43b15_5
.LBB43b15_4:
	li	a4, 51
	beq	a4, a0, .LBB43b15_34
.LBB43b15_5:
	addi	a1, a1, -1
	snez	a3, a1
	beqz	a1, .LBB43b15_33
	addi	a2, a2, 1256
	lbu	a4, 0(a2)
	bnez	a4, .LBB43b15_4
	li	a4, 47
	bne	a4, a0, .LBB43b15_5
	j	.LBB43b15_34
.LBB43b15_8:
	addi	a0, s0, 8
	li	a1, 0
	j	.LBB43b15_43
.LBB43b15_9:
	lbu	a0, 777(s0)
	beqz	a0, .LBB43b15_45
	ld	a1, 249(s1)
	ld	a4, 257(s1)
	lbu	a0, 778(s0)
	addi	a1, a1, -1248
	addi	a4, a4, 1
	j	.LBB43b15_12
.LBB43b15_11:
	li	a5, 51
	beq	a5, a0, .LBB43b15_15
.LBB43b15_12:
	addi	a4, a4, -1
	beqz	a4, .LBB43b15_44
	addi	a1, a1, 1248
	lbu	a5, 0(a1)
	bnez	a5, .LBB43b15_11
	li	a5, 47
	bne	a5, a0, .LBB43b15_12
.LBB43b15_15:
	li	a0, 1
	j	.LBB43b15_46
.LBB43b15_16:
	lbu	a0, 809(s0)
	beqz	a0, .LBB43b15_50
	ld	a1, 281(s1)
	ld	a2, 289(s1)
	lbu	a0, 810(s0)
	addi	a1, a1, -1248
	addi	a2, a2, 1
	j	.LBB43b15_19
.LBB43b15_18:
	li	a3, 51
	beq	a3, a0, .LBB43b15_22
.LBB43b15_19:
	addi	a2, a2, -1
	beqz	a2, .LBB43b15_49
	addi	a1, a1, 1248
	lbu	a3, 0(a1)
	bnez	a3, .LBB43b15_18
	li	a3, 47
	bne	a3, a0, .LBB43b15_19
.LBB43b15_22:
	li	a0, 1
	j	.LBB43b15_51
.LBB43b15_23:
	lbu	a0, 38(s0)
	beqz	a0, .LBB43b15_37
	ld	a1, 8(s0)
	ld	a3, 16(s0)
	lbu	a0, 39(s0)
	addi	a2, a1, -1256
	addi	a1, a3, 1
	j	.LBB43b15_26
.LBB43b15_25:
	li	a4, 51
	beq	a4, a0, .LBB43b15_39
.LBB43b15_26:
	addi	a1, a1, -1
	snez	a3, a1
	beqz	a1, .LBB43b15_38
	addi	a2, a2, 1256
	lbu	a4, 0(a2)
	bnez	a4, .LBB43b15_25
	li	a4, 47
	bne	a4, a0, .LBB43b15_26
	j	.LBB43b15_39
.LBB43b15_29:
	lbu	a2, 10(s0)
	li	a0, 5
	lui	a3, 524160
	addi	a3, a3, -1
	srl	a3, a3, a2
	andi	a3, a3, 1
	beqz	a3, .LBB43b15_57
	li	a0, 0
	li	a1, 0
	j	.LBB43b15_56
.LBB43b15_31:
	li	a1, 0
	lbu	a0, 29(s0)
	addi	a0, a0, -3
	snez	a0, a0
	addi	a0, a0, -1
	andi	a0, a0, 6
	j	.LBB43b15_56
.LBB43b15_32:
	li	a3, 0
.LBB43b15_33:
	li	a2, 0
.LBB43b15_34:
	lbu	a4, 35(s0)
	li	a0, 5
	lui	a5, 512
	addi	a5, a5, -129
	slli	a5, a5, 12
	addi	a5, a5, 2047
	srl	a5, a5, a4
	andi	a5, a5, 1
	bnez	a5, .LBB43b15_40
	li	a1, 0
	li	a5, 11
	bne	a4, a5, .LBB43b15_41
	li	a1, 0
	li	a0, 4
	j	.LBB43b15_41
.LBB43b15_37:
	li	a3, 0
.LBB43b15_38:
	li	a2, 0
.LBB43b15_39:
	lbu	a4, 35(s0)
	li	a0, 5
	lui	a5, 512
	addi	a5, a5, -129
	slli	a5, a5, 12
	addi	a5, a5, 2047
	srl	a5, a5, a4
	andi	a5, a5, 1
	beqz	a5, .LBB43b15_59
.LBB43b15_40:
	li	a0, 0
	li	a1, 0
.LBB43b15_41:
	beqz	a3, .LBB43b15_56
.LBB43b15_42:
	mv	a1, a0
	mv	a0, a2
.LBB43b15_43:
	li	a2, 0
	call	tuvaddri_c.failure.shown_failure
	j	.LBB43b15_56
.LBB43b15_44:
	li	a0, 0
.LBB43b15_45:
	li	a1, 0
.LBB43b15_46:
	lbu	a4, 776(s0)
	addi	a4, a4, -11
	seqz	a4, a4
	bnez	a0, .LBB43b15_48
	slli	a4, a4, 2
	j	.LBB43b15_55
.LBB43b15_48:
	neg	a4, a4
	andi	a4, a4, 6
	j	.LBB43b15_55
.LBB43b15_49:
	li	a0, 0
.LBB43b15_50:
	li	a1, 0
.LBB43b15_51:
	lbu	a2, 808(s0)
	addi	a2, a2, -11
	seqz	a4, a2
	bnez	a0, .LBB43b15_53
	slli	a4, a4, 2
	j	.LBB43b15_54
.LBB43b15_53:
	neg	a4, a4
	andi	a4, a4, 6
.LBB43b15_54:
	ld	a3, 273(s1)
	addi	a2, s0, 816
.LBB43b15_55:
	li	a5, 0
	call	tuvaddri_c.failure.peer_failure
.LBB43b15_56:
	slli	a1, a1, 8
	zext.b	a0, a0
	or	a0, a0, a1
	ld	ra, 24(sp)
	ld	s0, 16(sp)
	ld	s1, 8(sp)
	addi	sp, sp, 32
	ret
.LBB43b15_57:
	li	a1, 0
	lui	a3, 8193
	slli	a3, a3, 7
	srl	a2, a3, a2
	andi	a2, a2, 1
	bnez	a2, .LBB43b15_56
	li	a1, 0
	li	a0, 6
	j	.LBB43b15_56
.LBB43b15_59:
	li	a1, 0
	li	a5, 11
	bne	a4, a5, .LBB43b15_41
	li	a1, 0
	li	a0, 4
	bnez	a3, .LBB43b15_42
	j	.LBB43b15_56
.Lfunc_end43b15:
	.size	tuv_end_failure, .Lfunc_end43b15-tuv_end_failure
	.section	.rodata.tuv_end_failure,"a",@progbits
	.p2align	2, 0x0
.LJTI43b15_0:
	.word	.LBB43b15_56-.LJTI43b15_0
	.word	.LBB43b15_1-.LJTI43b15_0
	.word	.LBB43b15_8-.LJTI43b15_0
	.word	.LBB43b15_9-.LJTI43b15_0
	.word	.LBB43b15_2-.LJTI43b15_0
	.word	.LBB43b15_23-.LJTI43b15_0
	.word	.LBB43b15_29-.LJTI43b15_0
	.word	.LBB43b15_16-.LJTI43b15_0
	.word	.LBB43b15_31-.LJTI43b15_0

	.section	.text.tuv_end_last_packet,"ax",@progbits
	.globl	tuv_end_last_packet
	.p2align	1
	.type	tuv_end_last_packet,@function
tuv_end_last_packet:
	addi	sp, sp, -32
	sd	ra, 24(sp)
	sd	s0, 16(sp)
	sd	s1, 8(sp)
	sd	s2, 0(sp)
	mv	s1, a2
	ld	a0, 0(a0)
	mv	s2, a1
	call	tuvaddri_c.session.End.last_packet
	mv	s0, a1
	bltu	s1, a1, .LBB0546d_5
	seqz	a1, s2
	slli	a1, a1, 12
	add	s2, s2, a1
	sub	a1, s2, a0
	bgeu	a1, s0, .LBB0546d_4
	add	a1, a0, s0
.LBB0546d_3:
	lbu	a2, 0(a0)
	addi	a0, a0, 1
	sb	a2, 0(s2)
	addi	s2, s2, 1
	bne	a0, a1, .LBB0546d_3
	j	.LBB0546d_5
.LBB0546d_4:
	mv	a1, a0
	mv	a0, s2
	mv	a2, s0
	call	memmove
.LBB0546d_5:
	mv	a0, s0
	ld	ra, 24(sp)
	ld	s0, 16(sp)
	ld	s1, 8(sp)
	ld	s2, 0(sp)
	addi	sp, sp, 32
	ret
.Lfunc_end0546d:
	.size	tuv_end_last_packet, .Lfunc_end0546d-tuv_end_last_packet

	.section	.text.tuv_end_new,"ax",@progbits
	.globl	tuv_end_new
	.p2align	1
	.type	tuv_end_new,@function
tuv_end_new:
	addi	sp, sp, -48
	sd	ra, 40(sp)
	sd	s0, 32(sp)
	sd	s1, 24(sp)
	sd	s2, 16(sp)
	sd	s3, 8(sp)
	mv	s0, a0
	lui	s1, 1
	addi	s3, s1, -1456
	li	a1, 8
	mv	a0, s3
	call	rattle_alloc
	andi	s2, a0, 1
	beqz	s2, .LBB529f3_2
	mv	a0, a1
	mv	s1, a1
	li	a1, 0
	mv	a2, s3
	call	memset
	srli	a0, s1, 56
	srli	a1, s1, 48
	srli	a2, s1, 40
	srli	a3, s1, 32
	srli	a4, s1, 24
	srli	a5, s1, 16
	sb	a3, 4(s0)
	sb	a2, 5(s0)
	sb	a1, 6(s0)
	sb	a0, 7(s0)
	srli	a0, s1, 8
	sb	s1, 0(s0)
	sb	a0, 1(s0)
	sb	a5, 2(s0)
	sb	a4, 3(s0)
.LBB529f3_2:
	mv	a0, s2
	ld	ra, 40(sp)
	ld	s0, 32(sp)
	ld	s1, 24(sp)
	ld	s2, 16(sp)
	ld	s3, 8(sp)
	addi	sp, sp, 48
	ret
.Lfunc_end529f3:
	.size	tuv_end_new, .Lfunc_end529f3-tuv_end_new

	.section	.text.tuv_end_packet,"ax",@progbits
	.globl	tuv_end_packet
	.p2align	1
	.type	tuv_end_packet,@function
tuv_end_packet:
	addi	sp, sp, -32
	sd	ra, 24(sp)
	sd	s0, 16(sp)
	sd	s1, 8(sp)
	mv	s0, a2
	ld	a0, 0(a0)
	addi	a2, a0, 2047
	lbu	a2, 585(a2)
	beqz	a2, .LBB41ac9_5
	mv	s1, a1
	call	tuvaddri_c.session.End.last_packet
	mv	a2, a0
	mv	a0, a1
	bltu	s0, a1, .LBB41ac9_6
	seqz	a1, s1
	slli	a1, a1, 12
	add	a1, a1, s1
	sub	a3, a1, a2
	bgeu	a3, a0, .LBB41ac9_7
	add	a3, a2, a0
.LBB41ac9_4:
	lbu	a4, 0(a2)
	addi	a2, a2, 1
	sb	a4, 0(a1)
	addi	a1, a1, 1
	bne	a2, a3, .LBB41ac9_4
	j	.LBB41ac9_6
.LBB41ac9_5:
	li	a0, 0
.LBB41ac9_6:
	ld	ra, 24(sp)
	ld	s0, 16(sp)
	ld	s1, 8(sp)
	addi	sp, sp, 32
	ret
.LBB41ac9_7:
	mv	s0, a0
	mv	a0, a1
	mv	a1, a2
	mv	a2, s0
	call	memmove
	mv	a0, s0
	j	.LBB41ac9_6
.Lfunc_end41ac9:
	.size	tuv_end_packet, .Lfunc_end41ac9-tuv_end_packet

	.section	.text.tuv_end_restart,"ax",@progbits
	.globl	tuv_end_restart
	.p2align	1
	.type	tuv_end_restart,@function
tuv_end_restart:
	addi	sp, sp, -16
	sd	ra, 8(sp)
	mv	a2, a1
	ld	a1, 0(a0)
	lbu	a0, 0(a1)
	li	a3, 3
	sw	zero, 0(sp)
	sb	zero, 4(sp)
	bne	a0, a3, .LBB99ae6_2
	mv	a0, sp
	call	tuvaddri_c.restart.restart_peer
	j	.LBB99ae6_3
.LBB99ae6_2:
	mv	a0, sp
	call	tuvaddri_c.restart.restart_server
.LBB99ae6_3:
	lbu	a0, 4(sp)
	lwu	a1, 0(sp)
	slli	a0, a0, 32
	or	a0, a0, a1
	ld	ra, 8(sp)
	addi	sp, sp, 16
	ret
.Lfunc_end99ae6:
	.size	tuv_end_restart, .Lfunc_end99ae6-tuv_end_restart

	.section	.text.tuv_end_size,"ax",@progbits
	.globl	tuv_end_size
	.p2align	1
	.type	tuv_end_size,@function
tuv_end_size:
	lui	a0, 1
	addi	a0, a0, -1456
	ret
.Lfunc_endc0917:
	.size	tuv_end_size, .Lfunc_endc0917-tuv_end_size

	.section	.text.tuv_pass_aaa_noreq,"ax",@progbits
	.globl	tuv_pass_aaa_noreq
	.p2align	1
	.type	tuv_pass_aaa_noreq,@function
tuv_pass_aaa_noreq:
	ld	a2, 0(a0)
	lbu	a0, 0(a2)
	li	a1, 6
	bne	a0, a1, .LBB678c5_3
	lbu	a0, 10(a2)
	li	a1, 23
	bne	a0, a1, .LBB678c5_3
	li	a1, 0
	li	a0, 26
	sb	a0, 10(a2)
	addi	a2, a2, 2047
	sb	zero, 585(a2)
	j	.LBB678c5_4
.LBB678c5_3:
	li	a0, 0
	addi	a1, a2, 2047
	sb	zero, 585(a1)
	li	a1, 1
.LBB678c5_4:
	slli	a0, a0, 32
	slli	a1, a1, 16
	or	a0, a0, a1
	ret
.Lfunc_end678c5:
	.size	tuv_pass_aaa_noreq, .Lfunc_end678c5-tuv_pass_aaa_noreq

	.section	.text.tuv_pass_aaa_timeout,"ax",@progbits
	.globl	tuv_pass_aaa_timeout
	.p2align	1
	.type	tuv_pass_aaa_timeout,@function
tuv_pass_aaa_timeout:
	ld	a2, 0(a0)
	lbu	a0, 0(a2)
	li	a1, 6
	bne	a0, a1, .LBBfc96c_3
	lbu	a0, 10(a2)
	li	a1, 23
	bne	a0, a1, .LBBfc96c_3
	li	a1, 0
	li	a0, 32
	sb	a0, 10(a2)
	addi	a2, a2, 2047
	sb	zero, 585(a2)
	j	.LBBfc96c_4
.LBBfc96c_3:
	li	a0, 0
	addi	a1, a2, 2047
	sb	zero, 585(a1)
	li	a1, 1
.LBBfc96c_4:
	slli	a0, a0, 32
	slli	a1, a1, 16
	or	a0, a0, a1
	ret
.Lfunc_endfc96c:
	.size	tuv_pass_aaa_timeout, .Lfunc_endfc96c-tuv_pass_aaa_timeout

	.section	.text.tuv_pass_begin,"ax",@progbits
	.globl	tuv_pass_begin
	.p2align	1
	.type	tuv_pass_begin,@function
tuv_pass_begin:
	addi	sp, sp, -656
	sd	ra, 648(sp)
	sd	s0, 640(sp)
	sd	s1, 632(sp)
	sd	s2, 624(sp)
	sd	s3, 616(sp)
	sd	s4, 608(sp)
	sd	s5, 600(sp)
	sd	s6, 592(sp)
	sd	s7, 584(sp)
	sd	s8, 576(sp)
	sd	s9, 568(sp)
	sd	s10, 560(sp)
	sd	s11, 552(sp)
	mv	s4, a2
	mv	s2, a1
	zext.b	a1, a2
	li	a2, 10
	bgeu	a2, a1, .LBB74f72_2
	li	a0, 7
	j	.LBB74f72_19
.LBB74f72_2:
	mv	s0, a0
	call	tuvaddri_c.sent.empty_packet
	zext.b	a0, a0
	li	a2, 1
	bne	a0, a2, .LBB74f72_5
	mv	s3, a1
	ld	s1, 0(s0)
	li	a6, 6
	addi	s0, s1, 2047
	lbu	a0, 0(s1)
	sd	a0, 544(sp)
	lbu	t6, 8(s1)
	lbu	a2, 9(s1)
	lbu	a3, 10(s1)
	lbu	a4, 11(s1)
	lbu	a5, 12(s1)
	lbu	a0, 13(s1)
	lbu	a7, 14(s1)
	lbu	t0, 15(s1)
	lbu	t1, 24(s1)
	lbu	t2, 25(s1)
	lbu	t3, 26(s1)
	lbu	t4, 27(s1)
	lbu	t5, 28(s1)
	lbu	s7, 29(s1)
	lbu	s5, 30(s1)
	lbu	s6, 31(s1)
	lbu	a1, 1328(s1)
	sd	a1, 512(sp)
	lbu	a1, 1329(s1)
	sd	a1, 464(sp)
	lbu	a1, 1330(s1)
	sd	a1, 496(sp)
	lbu	a1, 1331(s1)
	sd	a1, 488(sp)
	sb	a6, 0(s1)
	sb	s2, 8(s1)
	lbu	a1, 1332(s1)
	sd	a1, 504(sp)
	lbu	a1, 1333(s1)
	sd	a1, 456(sp)
	lbu	a1, 1334(s1)
	sd	a1, 480(sp)
	lbu	a1, 1335(s1)
	sd	a1, 472(sp)
	sb	s4, 9(s1)
	slli	a2, a2, 8
	slli	a3, a3, 16
	slli	a4, a4, 24
	slli	a0, a0, 8
	or	a6, a2, t6
	or	s2, a4, a3
	or	t6, a0, a5
	lbu	a0, 1528(s1)
	sd	a0, 448(sp)
	lbu	a0, 1529(s1)
	sd	a0, 424(sp)
	lbu	a0, 1530(s1)
	sd	a0, 440(sp)
	lbu	a0, 1531(s1)
	sd	a0, 432(sp)
	slli	a7, a7, 16
	slli	t0, t0, 24
	slli	t2, t2, 8
	slli	t3, t3, 16
	slli	t4, t4, 24
	slli	a1, s7, 8
	or	a4, t0, a7
	or	a5, t2, t1
	or	a2, t4, t3
	or	t0, a1, t5
	lbu	a7, 577(s0)
	lbu	a3, 578(s0)
	lbu	t1, 579(s0)
	lbu	a1, 580(s0)
	slli	s5, s5, 16
	slli	s6, s6, 24
	or	a0, s6, s5
	or	a6, s2, a6
	or	t3, a4, t6
	or	t2, a2, a5
	lbu	a5, 581(s0)
	lbu	a2, 582(s0)
	lbu	a4, 583(s0)
	lbu	t4, 584(s0)
	slli	a3, a3, 8
	slli	t1, t1, 16
	slli	a1, a1, 24
	slli	a2, a2, 8
	or	a0, a0, t0
	or	a3, a3, a7
	or	a1, a1, t1
	or	a2, a2, a5
	lbu	a5, 1532(s1)
	sd	a5, 416(sp)
	lbu	a5, 1533(s1)
	sd	a5, 392(sp)
	lbu	a5, 1534(s1)
	sd	a5, 408(sp)
	lbu	a5, 1535(s1)
	sd	a5, 400(sp)
	slli	a4, a4, 16
	slli	t4, t4, 24
	or	a4, t4, a4
	slli	t3, t3, 32
	or	a1, a1, a3
	or	a2, a2, a4
	or	a3, t3, a6
	sd	a3, 536(sp)
	lbu	a3, 1560(s1)
	sd	a3, 384(sp)
	lbu	a3, 1561(s1)
	sd	a3, 360(sp)
	lbu	a3, 1562(s1)
	sd	a3, 376(sp)
	lbu	a3, 1563(s1)
	sd	a3, 368(sp)
	sb	zero, 4(s1)
	sb	zero, 5(s1)
	sb	zero, 6(s1)
	sb	zero, 7(s1)
	sb	zero, 1(s1)
	sb	zero, 2(s1)
	slli	a0, a0, 32
	or	a0, a0, t2
	sd	a0, 528(sp)
	slli	a2, a2, 32
	or	a1, a1, a2
	sd	a1, 520(sp)
	lbu	a0, 1564(s1)
	sd	a0, 352(sp)
	lbu	a0, 1565(s1)
	sd	a0, 320(sp)
	lbu	a0, 1566(s1)
	sd	a0, 344(sp)
	lbu	a0, 1567(s1)
	sd	a0, 336(sp)
	lbu	a0, 1976(s1)
	sd	a0, 328(sp)
	lbu	a0, 1977(s1)
	sd	a0, 264(sp)
	lbu	a0, 1978(s1)
	sd	a0, 280(sp)
	lbu	a0, 1979(s1)
	sd	a0, 272(sp)
	lbu	a0, 1980(s1)
	sd	a0, 312(sp)
	lbu	a0, 1981(s1)
	sd	a0, 288(sp)
	lbu	a0, 1982(s1)
	sd	a0, 304(sp)
	lbu	a0, 1983(s1)
	sd	a0, 296(sp)
	lbu	a0, 249(s0)
	sd	a0, 72(sp)
	lbu	a0, 250(s0)
	sd	a0, 8(sp)
	lbu	a0, 251(s0)
	sd	a0, 24(sp)
	lbu	a0, 252(s0)
	sd	a0, 16(sp)
	lbu	a0, 253(s0)
	sd	a0, 64(sp)
	lbu	a0, 254(s0)
	sd	a0, 32(sp)
	lbu	a0, 255(s0)
	sd	a0, 48(sp)
	lbu	a0, 256(s0)
	sd	a0, 40(sp)
	lbu	a0, 265(s0)
	sd	a0, 256(sp)
	lbu	a0, 266(s0)
	sd	a0, 168(sp)
	lbu	a0, 267(s0)
	sd	a0, 184(sp)
	lbu	a0, 268(s0)
	sd	a0, 176(sp)
	lbu	a0, 269(s0)
	sd	a0, 248(sp)
	lbu	a0, 270(s0)
	sd	a0, 192(sp)
	lbu	a0, 271(s0)
	sd	a0, 216(sp)
	lbu	a0, 272(s0)
	sd	a0, 208(sp)
	lbu	a0, 281(s0)
	sd	a0, 144(sp)
	lbu	a0, 282(s0)
	sd	a0, 128(sp)
	lbu	a0, 283(s0)
	sd	a0, 104(sp)
	lbu	a0, 284(s0)
	sd	a0, 88(sp)
	lbu	a0, 285(s0)
	sd	a0, 56(sp)
	lbu	s2, 286(s0)
	lbu	s10, 287(s0)
	lbu	s9, 288(s0)
	lbu	a0, 297(s0)
	sd	a0, 240(sp)
	lbu	s8, 298(s0)
	lbu	s6, 299(s0)
	lbu	s7, 300(s0)
	lbu	a0, 301(s0)
	sd	a0, 232(sp)
	lbu	s4, 302(s0)
	lbu	s11, 303(s0)
	lbu	a0, 304(s0)
	sd	a0, 80(sp)
	lbu	a0, 305(s0)
	sd	a0, 224(sp)
	lbu	a0, 306(s0)
	sd	a0, 96(sp)
	lbu	a0, 307(s0)
	sd	a0, 120(sp)
	lbu	a0, 308(s0)
	sd	a0, 112(sp)
	lbu	a0, 309(s0)
	sd	a0, 200(sp)
	lbu	a0, 310(s0)
	sd	a0, 136(sp)
	lbu	a0, 311(s0)
	sd	a0, 160(sp)
	lbu	a0, 312(s0)
	sd	a0, 152(sp)
	sb	zero, 3(s1)
	addi	s5, s1, 1536
	addi	a0, s1, 10
	li	a2, 1518
	li	a1, 0
	call	memset
	srli	a0, s3, 56
	srli	a1, s3, 48
	srli	a2, s3, 40
	srli	a3, s3, 32
	srli	a4, s3, 24
	srli	a5, s3, 16
	sb	a3, 1532(s1)
	sb	a2, 1533(s1)
	sb	a1, 1534(s1)
	sb	a0, 1535(s1)
	srli	a0, s3, 8
	sb	s3, 1528(s1)
	sb	a0, 1529(s1)
	sb	a5, 1530(s1)
	sb	a4, 1531(s1)
	li	a2, 1096
	mv	a0, s5
	li	a1, 0
	call	memset
	ld	a0, 544(sp)
	slli	a0, a0, 2
.Lpcrel_hi76:
	auipc	a1, %pcrel_hi(.LJTI74f72_0)
	addi	a1, a1, %pcrel_lo(.Lpcrel_hi76)
	add	a0, a0, a1
	lw	a0, 0(a0)
	add	a0, a0, a1
	jr	a0
.LBB74f72_4:
	ld	s1, 520(sp)
	ld	a0, 536(sp)
	ld	a1, 528(sp)
	bnez	a1, .LBB74f72_9
	j	.LBB74f72_10
.LBB74f72_5:
	li	a0, 8
	j	.LBB74f72_19
.LBB74f72_6:
	ld	s1, 264(sp)
	slli	s1, s1, 8
	ld	a1, 280(sp)
	slli	a1, a1, 16
	ld	a2, 272(sp)
	slli	a2, a2, 24
	ld	a3, 288(sp)
	slli	a3, a3, 8
	ld	a4, 304(sp)
	slli	a4, a4, 16
	ld	a5, 296(sp)
	slli	a5, a5, 24
	ld	a0, 328(sp)
	or	a0, a0, s1
	or	a1, a1, a2
	ld	a2, 312(sp)
	j	.LBB74f72_16
.LBB74f72_7:
	ld	t4, 128(sp)
	ld	ra, 88(sp)
	ld	s5, 104(sp)
	mv	s3, s2
	mv	t6, s9
	mv	t5, s10
	ld	t3, 144(sp)
	slli	s8, s8, 8
	slli	s6, s6, 16
	slli	s7, s7, 24
	slli	s4, s4, 8
	slli	s11, s11, 16
	ld	s2, 80(sp)
	slli	s2, s2, 24
	ld	s10, 96(sp)
	slli	s10, s10, 8
	ld	a6, 120(sp)
	slli	a6, a6, 16
	ld	s9, 112(sp)
	slli	s9, s9, 24
	ld	a7, 136(sp)
	slli	a7, a7, 8
	ld	t0, 160(sp)
	slli	t0, t0, 16
	ld	t1, 152(sp)
	slli	t1, t1, 24
	ld	a0, 240(sp)
	or	t2, s8, a0
	or	a5, s7, s6
	ld	a0, 232(sp)
	or	s1, s4, a0
	or	a0, s2, s11
	ld	a1, 224(sp)
	or	a1, s10, a1
	or	a2, s9, a6
	ld	a3, 200(sp)
	or	a3, a7, a3
	or	a4, t1, t0
	or	a5, a5, t2
	or	a0, a0, s1
	or	a1, a1, a2
	or	a3, a3, a4
	slli	a0, a0, 32
	or	a0, a0, a5
	slli	a3, a3, 32
	or	s1, a3, a1
	beqz	a0, .LBB74f72_10
	slli	a0, t4, 8
	slli	a1, s5, 16
	slli	a2, ra, 24
	slli	a3, s3, 8
	slli	a4, t5, 16
	slli	a5, t6, 24
	or	a0, a0, t3
	or	a1, a1, a2
	ld	a2, 56(sp)
	or	a2, a2, a3
	or	a4, a4, a5
	or	a0, a0, a1
	or	a2, a2, a4
	slli	a2, a2, 32
	or	a0, a0, a2
.LBB74f72_9:
	call	rattle_dealloc
.LBB74f72_10:
	mv	a0, s1
	j	.LBB74f72_17
.LBB74f72_11:
	ld	s1, 168(sp)
	slli	s1, s1, 8
	ld	a1, 184(sp)
	slli	a1, a1, 16
	ld	a2, 176(sp)
	slli	a2, a2, 24
	ld	a3, 192(sp)
	slli	a3, a3, 8
	ld	a4, 216(sp)
	slli	a4, a4, 16
	ld	a5, 208(sp)
	slli	a5, a5, 24
	ld	a0, 256(sp)
	or	a0, a0, s1
	or	a1, a1, a2
	ld	a2, 248(sp)
	or	a2, a2, a3
	or	a4, a4, a5
	or	a0, a0, a1
	or	a2, a2, a4
	slli	a2, a2, 32
	or	a0, a0, a2
	beqz	a0, .LBB74f72_18
	ld	s1, 8(sp)
	slli	s1, s1, 8
	ld	a1, 24(sp)
	slli	a1, a1, 16
	ld	a2, 16(sp)
	slli	a2, a2, 24
	ld	a3, 32(sp)
	slli	a3, a3, 8
	ld	a4, 48(sp)
	slli	a4, a4, 16
	ld	a5, 40(sp)
	slli	a5, a5, 24
	ld	a0, 72(sp)
	or	a0, a0, s1
	or	a1, a1, a2
	ld	a2, 64(sp)
	j	.LBB74f72_16
.LBB74f72_13:
	ld	s1, 464(sp)
	slli	s1, s1, 8
	ld	a1, 496(sp)
	slli	a1, a1, 16
	ld	a2, 488(sp)
	slli	a2, a2, 24
	ld	a3, 456(sp)
	slli	a3, a3, 8
	ld	a4, 480(sp)
	slli	a4, a4, 16
	ld	a5, 472(sp)
	slli	a5, a5, 24
	ld	a0, 512(sp)
	or	a0, a0, s1
	or	a1, a1, a2
	ld	a2, 504(sp)
	j	.LBB74f72_16
.LBB74f72_14:
	ld	s1, 424(sp)
	slli	s1, s1, 8
	ld	a1, 440(sp)
	slli	a1, a1, 16
	ld	a2, 432(sp)
	slli	a2, a2, 24
	ld	a3, 392(sp)
	slli	a3, a3, 8
	ld	a4, 408(sp)
	slli	a4, a4, 16
	ld	a5, 400(sp)
	slli	a5, a5, 24
	ld	a0, 448(sp)
	or	a0, a0, s1
	or	a1, a1, a2
	ld	a2, 416(sp)
	j	.LBB74f72_16
.LBB74f72_15:
	ld	s1, 360(sp)
	slli	s1, s1, 8
	ld	a1, 376(sp)
	slli	a1, a1, 16
	ld	a2, 368(sp)
	slli	a2, a2, 24
	ld	a3, 320(sp)
	slli	a3, a3, 8
	ld	a4, 344(sp)
	slli	a4, a4, 16
	ld	a5, 336(sp)
	slli	a5, a5, 24
	ld	a0, 384(sp)
	or	a0, a0, s1
	or	a1, a1, a2
	ld	a2, 352(sp)
.LBB74f72_16:
	or	a2, a2, a3
	or	a4, a4, a5
	or	a0, a0, a1
	or	a2, a2, a4
	slli	a2, a2, 32
	or	a0, a0, a2
.LBB74f72_17:
	call	rattle_dealloc
.LBB74f72_18:
	li	a0, 0
	sb	zero, 585(s0)
.LBB74f72_19:
	ld	ra, 648(sp)
	ld	s0, 640(sp)
	ld	s1, 632(sp)
	ld	s2, 624(sp)
	ld	s3, 616(sp)
	ld	s4, 608(sp)
	ld	s5, 600(sp)
	ld	s6, 592(sp)
	ld	s7, 584(sp)
	ld	s8, 576(sp)
	ld	s9, 568(sp)
	ld	s10, 560(sp)
	ld	s11, 552(sp)
	addi	sp, sp, 656
	ret
.Lfunc_end74f72:
	.size	tuv_pass_begin, .Lfunc_end74f72-tuv_pass_begin
	.section	.rodata.tuv_pass_begin,"a",@progbits
	.p2align	2, 0x0
.LJTI74f72_0:
	.word	.LBB74f72_18-.LJTI74f72_0
	.word	.LBB74f72_13-.LJTI74f72_0
	.word	.LBB74f72_6-.LJTI74f72_0
	.word	.LBB74f72_11-.LJTI74f72_0
	.word	.LBB74f72_4-.LJTI74f72_0
	.word	.LBB74f72_4-.LJTI74f72_0
	.word	.LBB74f72_14-.LJTI74f72_0
	.word	.LBB74f72_7-.LJTI74f72_0
	.word	.LBB74f72_15-.LJTI74f72_0

	.section	.text.tuv_pass_from_backend,"ax",@progbits
	.globl	tuv_pass_from_backend
	.p2align	1
	.type	tuv_pass_from_backend,@function
tuv_pass_from_backend:
	addi	sp, sp, -1600
	sd	ra, 1592(sp)
	sd	s0, 1584(sp)
	sd	s1, 1576(sp)
	sd	s2, 1568(sp)
	sd	s3, 1560(sp)
	sd	s4, 1552(sp)
	mv	s0, a2
	ld	s1, 0(a0)
	lbu	a0, 0(s1)
	li	a2, 6
	sd	zero, 16(sp)
	sd	zero, 24(sp)
	sd	zero, 32(sp)
	bne	a0, a2, .LBB75bf3_4
	seqz	a0, a1
	slli	a0, a0, 12
	add	s3, a1, a0
	addi	s2, s1, 8
	addi	a0, sp, 40
	li	a2, 1512
	li	a1, 0
	call	memset
	addi	a0, sp, 16
	addi	a4, sp, 40
	mv	a1, s2
	mv	a2, s3
	mv	a3, s0
	call	pass_through.machine.PassThrough.from_backend_step
	lbu	s3, 32(sp)
	lbu	s4, 33(sp)
	lbu	s0, 34(sp)
	ld	a2, 1544(sp)
	lbu	s2, 10(s1)
	ld	a0, 1528(s1)
	addi	a1, s1, 2047
	andi	a3, s0, 1
	sb	s0, 585(a1)
	beqz	a3, .LBB75bf3_3
	addi	a1, sp, 40
	call	octet_lists.octets.Octets.set.__1500_
.LBB75bf3_3:
	li	a0, 0
	seqz	a1, s3
	addi	a1, a1, -1
	and	a1, a1, s4
	j	.LBB75bf3_5
.LBB75bf3_4:
	li	s0, 0
	li	s3, 0
	li	a1, 0
	li	s2, 0
	addi	a0, s1, 2047
	sb	zero, 585(a0)
	li	a0, 1
.LBB75bf3_5:
	slli	s2, s2, 32
	zext.b	a1, a1
	slli	a0, a0, 16
	slli	s3, s3, 8
	slli	a1, a1, 24
	or	a1, s2, a1
	or	a0, a0, s3
	or	a0, a0, a1
	or	a0, a0, s0
	ld	ra, 1592(sp)
	ld	s0, 1584(sp)
	ld	s1, 1576(sp)
	ld	s2, 1568(sp)
	ld	s3, 1560(sp)
	ld	s4, 1552(sp)
	addi	sp, sp, 1600
	ret
.Lfunc_end75bf3:
	.size	tuv_pass_from_backend, .Lfunc_end75bf3-tuv_pass_from_backend

	.section	.text.tuv_pass_from_peer,"ax",@progbits
	.globl	tuv_pass_from_peer
	.p2align	1
	.type	tuv_pass_from_peer,@function
tuv_pass_from_peer:
	addi	sp, sp, -1600
	sd	ra, 1592(sp)
	sd	s0, 1584(sp)
	sd	s1, 1576(sp)
	sd	s2, 1568(sp)
	sd	s3, 1560(sp)
	sd	s4, 1552(sp)
	mv	s0, a2
	ld	s1, 0(a0)
	lbu	a0, 0(s1)
	li	a2, 6
	sd	zero, 16(sp)
	sd	zero, 24(sp)
	sd	zero, 32(sp)
	bne	a0, a2, .LBB5715c_4
	seqz	a0, a1
	slli	a0, a0, 12
	add	s3, a1, a0
	addi	s2, s1, 8
	addi	a0, sp, 40
	li	a2, 1512
	li	a1, 0
	call	memset
	addi	a0, sp, 16
	addi	a4, sp, 40
	mv	a1, s2
	mv	a2, s3
	mv	a3, s0
	call	pass_through.machine.PassThrough.from_peer_step
	lbu	s3, 32(sp)
	lbu	s4, 33(sp)
	lbu	s0, 34(sp)
	ld	a2, 1544(sp)
	lbu	s2, 10(s1)
	ld	a0, 1528(s1)
	addi	a1, s1, 2047
	andi	a3, s0, 1
	sb	s0, 585(a1)
	beqz	a3, .LBB5715c_3
	addi	a1, sp, 40
	call	octet_lists.octets.Octets.set.__1500_
.LBB5715c_3:
	li	a0, 0
	seqz	a1, s3
	addi	a1, a1, -1
	and	a1, a1, s4
	j	.LBB5715c_5
.LBB5715c_4:
	li	s0, 0
	li	s3, 0
	li	a1, 0
	li	s2, 0
	addi	a0, s1, 2047
	sb	zero, 585(a0)
	li	a0, 1
.LBB5715c_5:
	slli	s2, s2, 32
	zext.b	a1, a1
	slli	a0, a0, 16
	slli	s3, s3, 8
	slli	a1, a1, 24
	or	a1, s2, a1
	or	a0, a0, s3
	or	a0, a0, a1
	or	a0, a0, s0
	ld	ra, 1592(sp)
	ld	s0, 1584(sp)
	ld	s1, 1576(sp)
	ld	s2, 1568(sp)
	ld	s3, 1560(sp)
	ld	s4, 1552(sp)
	addi	sp, sp, 1600
	ret
.Lfunc_end5715c:
	.size	tuv_pass_from_peer, .Lfunc_end5715c-tuv_pass_from_peer

	.section	.text.tuv_pass_restart,"ax",@progbits
	.globl	tuv_pass_restart
	.p2align	1
	.type	tuv_pass_restart,@function
tuv_pass_restart:
	addi	sp, sp, -1600
	sd	ra, 1592(sp)
	sd	s0, 1584(sp)
	sd	s1, 1576(sp)
	sd	s2, 1568(sp)
	sd	s3, 1560(sp)
	sd	s4, 1552(sp)
	sd	s5, 1544(sp)
	ld	s0, 0(a0)
	lbu	a0, 0(s0)
	li	a1, 6
	bne	a0, a1, .LBBd4b17_6
	addi	s1, s0, 8
	addi	a0, sp, 8
	li	a2, 1512
	li	a1, 0
	call	memset
	sd	zero, 1536(sp)
	addi	a0, sp, 1520
	addi	a2, sp, 8
	mv	a1, s1
	call	pass_through.machine.PassThrough.initialize
	ld	s1, 1528(s0)
	ld	a2, 1504(s1)
	lbu	s2, 1536(sp)
	lbu	s5, 1537(sp)
	lbu	s3, 1538(sp)
	beqz	a2, .LBBd4b17_3
	mv	a0, s1
	li	a1, 0
	call	memset
	sd	zero, 1504(s1)
	ld	s1, 1528(s0)
.LBBd4b17_3:
	ld	a2, 1512(sp)
	lbu	s4, 10(s0)
	addi	a0, s0, 2047
	andi	a1, s3, 1
	sb	s3, 585(a0)
	beqz	a1, .LBBd4b17_5
	addi	a1, sp, 8
	mv	a0, s1
	call	octet_lists.octets.Octets.set.__1500_
.LBBd4b17_5:
	li	a0, 0
	seqz	a1, s2
	addi	a1, a1, -1
	and	a1, a1, s5
	j	.LBBd4b17_7
.LBBd4b17_6:
	li	s3, 0
	li	s2, 0
	li	a1, 0
	li	s4, 0
	addi	a0, s0, 2047
	sb	zero, 585(a0)
	li	a0, 1
.LBBd4b17_7:
	slli	s4, s4, 32
	zext.b	a1, a1
	slli	a0, a0, 16
	slli	s2, s2, 8
	slli	a1, a1, 24
	or	a1, s4, a1
	or	a0, a0, s2
	or	a0, a0, a1
	or	a0, a0, s3
	ld	ra, 1592(sp)
	ld	s0, 1584(sp)
	ld	s1, 1576(sp)
	ld	s2, 1568(sp)
	ld	s3, 1560(sp)
	ld	s4, 1552(sp)
	ld	s5, 1544(sp)
	addi	sp, sp, 1600
	ret
.Lfunc_endd4b17:
	.size	tuv_pass_restart, .Lfunc_endd4b17-tuv_pass_restart

	.section	.text.tuv_pass_start,"ax",@progbits
	.globl	tuv_pass_start
	.p2align	1
	.type	tuv_pass_start,@function
tuv_pass_start:
	addi	sp, sp, -1600
	sd	ra, 1592(sp)
	sd	s0, 1584(sp)
	sd	s1, 1576(sp)
	sd	s2, 1568(sp)
	sd	s3, 1560(sp)
	sd	s4, 1552(sp)
	ld	s0, 0(a0)
	lbu	a0, 0(s0)
	li	a1, 6
	bne	a0, a1, .LBBcd0c2_2
	lbu	a0, 10(s0)
	beqz	a0, .LBBcd0c2_4
.LBBcd0c2_2:
	li	s3, 0
	li	s2, 0
	li	a1, 0
	li	s1, 0
	addi	a0, s0, 2047
	sb	zero, 585(a0)
	li	a0, 1
.LBBcd0c2_3:
	slli	s1, s1, 32
	zext.b	a1, a1
	slli	a0, a0, 16
	slli	s2, s2, 8
	slli	a1, a1, 24
	or	a1, a1, s1
	or	a0, a0, s2
	or	a0, a0, a1
	or	a0, a0, s3
	ld	ra, 1592(sp)
	ld	s0, 1584(sp)
	ld	s1, 1576(sp)
	ld	s2, 1568(sp)
	ld	s3, 1560(sp)
	ld	s4, 1552(sp)
	addi	sp, sp, 1600
	ret
.LBBcd0c2_4:
	addi	s1, s0, 8
	addi	a0, sp, 16
	li	a2, 1512
	li	a1, 0
	call	memset
	sd	zero, 1544(sp)
	addi	a0, sp, 1528
	addi	a2, sp, 16
	mv	a1, s1
	call	pass_through.machine.PassThrough.initialize
	lbu	s2, 1544(sp)
	lbu	s4, 1545(sp)
	lbu	s3, 1546(sp)
	ld	a2, 1520(sp)
	lbu	s1, 10(s0)
	ld	a0, 1528(s0)
	addi	a1, s0, 2047
	andi	a3, s3, 1
	sb	s3, 585(a1)
	beqz	a3, .LBBcd0c2_6
	addi	a1, sp, 16
	call	octet_lists.octets.Octets.set.__1500_
.LBBcd0c2_6:
	li	a0, 0
	seqz	a1, s2
	addi	a1, a1, -1
	and	a1, a1, s4
	j	.LBBcd0c2_3
.Lfunc_endcd0c2:
	.size	tuv_pass_start, .Lfunc_endcd0c2-tuv_pass_start

	.section	.text.tuv_pass_timeout,"ax",@progbits
	.globl	tuv_pass_timeout
	.p2align	1
	.type	tuv_pass_timeout,@function
tuv_pass_timeout:
	addi	sp, sp, -1600
	sd	ra, 1592(sp)
	sd	s0, 1584(sp)
	sd	s1, 1576(sp)
	sd	s2, 1568(sp)
	sd	s3, 1560(sp)
	sd	s4, 1552(sp)
	ld	s0, 0(a0)
	lbu	a0, 0(s0)
	li	a1, 6
	sd	zero, 32(sp)
	bne	a0, a1, .LBB1457c_6
	lbu	a0, 10(s0)
	li	a1, 26
	beq	a0, a1, .LBB1457c_3
	li	a1, 1
	bne	a0, a1, .LBB1457c_6
.LBB1457c_3:
	addi	s1, s0, 8
	addi	a0, sp, 40
	li	a2, 1512
	li	a1, 0
	call	memset
	addi	a0, sp, 16
	addi	a2, sp, 40
	mv	a1, s1
	call	pass_through.machine.PassThrough.timeout_step
	lbu	s3, 32(sp)
	lbu	s4, 33(sp)
	lbu	s1, 34(sp)
	ld	a2, 1544(sp)
	lbu	s2, 10(s0)
	ld	a0, 1528(s0)
	addi	a1, s0, 2047
	andi	a3, s1, 1
	sb	s1, 585(a1)
	beqz	a3, .LBB1457c_5
	addi	a1, sp, 40
	call	octet_lists.octets.Octets.set.__1500_
.LBB1457c_5:
	li	a0, 0
	seqz	a1, s3
	addi	a1, a1, -1
	and	a1, a1, s4
	j	.LBB1457c_7
.LBB1457c_6:
	li	s1, 0
	li	s3, 0
	li	a1, 0
	li	s2, 0
	addi	a0, s0, 2047
	sb	zero, 585(a0)
	li	a0, 1
.LBB1457c_7:
	slli	s2, s2, 32
	zext.b	a1, a1
	slli	a0, a0, 16
	slli	s3, s3, 8
	slli	a1, a1, 24
	or	a1, s2, a1
	or	a0, a0, s3
	or	a0, a0, a1
	or	a0, a0, s1
	ld	ra, 1592(sp)
	ld	s0, 1584(sp)
	ld	s1, 1576(sp)
	ld	s2, 1568(sp)
	ld	s3, 1560(sp)
	ld	s4, 1552(sp)
	addi	sp, sp, 1600
	ret
.Lfunc_end1457c:
	.size	tuv_pass_timeout, .Lfunc_end1457c-tuv_pass_timeout

	.section	.text.tuv_peer_alt_accept,"ax",@progbits
	.globl	tuv_peer_alt_accept
	.p2align	1
	.type	tuv_peer_alt_accept,@function
tuv_peer_alt_accept:
	ld	a1, 0(a0)
	lbu	a0, 0(a1)
	li	a2, 3
	bne	a0, a2, .LBB0cb52_4
	lbu	a0, 776(a1)
	lui	a2, 512
	addi	a2, a2, -129
	slli	a2, a2, 12
	addi	a2, a2, 1023
	srl	a2, a2, a0
	andi	a2, a2, 1
	beqz	a2, .LBB0cb52_4
	lbu	a2, 780(a1)
	beqz	a2, .LBB0cb52_5
	li	a0, 10
	j	.LBB0cb52_7
.LBB0cb52_4:
	li	a0, 0
	addi	a1, a1, 2047
	sb	zero, 585(a1)
	li	a2, 1
	j	.LBB0cb52_9
.LBB0cb52_5:
	lbu	a2, 779(a1)
	li	a3, 2
	beq	a2, a3, .LBB0cb52_8
	li	a0, 11
.LBB0cb52_7:
	sb	a0, 776(a1)
.LBB0cb52_8:
	li	a2, 0
	addi	a1, a1, 2047
	sb	zero, 585(a1)
.LBB0cb52_9:
	slli	a0, a0, 32
	slli	a2, a2, 16
	or	a0, a0, a2
	ret
.Lfunc_end0cb52:
	.size	tuv_peer_alt_accept, .Lfunc_end0cb52-tuv_peer_alt_accept

	.section	.text.tuv_peer_alt_reject,"ax",@progbits
	.globl	tuv_peer_alt_reject
	.p2align	1
	.type	tuv_peer_alt_reject,@function
tuv_peer_alt_reject:
	ld	a0, 0(a0)
	lbu	a1, 0(a0)
	li	a2, 3
	bne	a1, a2, .LBB0a673_3
	lbu	a1, 776(a0)
	lui	a2, 512
	addi	a2, a2, -129
	slli	a2, a2, 12
	addi	a2, a2, 1023
	srl	a1, a2, a1
	andi	a1, a1, 1
	beqz	a1, .LBB0a673_3
	li	a2, 0
	li	a1, 11
	sb	a1, 776(a0)
	addi	a0, a0, 2047
	sb	zero, 585(a0)
	j	.LBB0a673_4
.LBB0a673_3:
	li	a1, 0
	addi	a0, a0, 2047
	sb	zero, 585(a0)
	li	a2, 1
.LBB0a673_4:
	slli	a1, a1, 32
	slli	a0, a2, 16
	or	a0, a0, a1
	ret
.Lfunc_end0a673:
	.size	tuv_peer_alt_reject, .Lfunc_end0a673-tuv_peer_alt_reject

	.section	.text.tuv_peer_begin,"ax",@progbits
	.globl	tuv_peer_begin
	.p2align	1
	.type	tuv_peer_begin,@function
tuv_peer_begin:
	addi	sp, sp, -2032
	sd	ra, 2024(sp)
	sd	s0, 2016(sp)
	sd	s1, 2008(sp)
	sd	s2, 2000(sp)
	sd	s3, 1992(sp)
	sd	s4, 1984(sp)
	sd	s5, 1976(sp)
	sd	s6, 1968(sp)
	sd	s7, 1960(sp)
	sd	s8, 1952(sp)
	sd	s9, 1944(sp)
	sd	s10, 1936(sp)
	sd	s11, 1928(sp)
	addi	sp, sp, -1744
	mv	s4, a2
	mv	s0, a1
	mv	s2, a0
	addi	s1, sp, 2047
	addi	s1, s1, 809
	sd	zero, 0(s1)
	sd	zero, 8(s1)
	sd	zero, 16(s1)
	sd	zero, 24(s1)
	lui	a2, 1
	addi	a2, a2, -1784
	addi	a0, sp, 544
	li	a1, 0
	call	memset
	mv	a0, s0
	call	end_objects.refusals.peer_refusal
	zext.b	a0, a0
	li	a2, 1
	bne	a0, a2, .LBB70e96_2
	addi	a0, a1, 1
	j	.LBB70e96_22
.LBB70e96_2:
	addi	a0, sp, 2047
	addi	a0, a0, 841
	mv	a1, s0
	call	end_objects.settings.named_kinds
	ld	a2, 40(s1)
	bnez	a2, .LBB70e96_4
	lui	a0, 3
	addi	a0, a0, -205
	li	a2, 2
	j	.LBB70e96_5
.LBB70e96_4:
	ld	a0, 32(s1)
.LBB70e96_5:
	sd	a0, 800(s1)
	sd	a2, 808(s1)
	addi	a0, sp, 2047
	addi	a0, a0, 809
	addi	a1, sp, 2047
	addi	a1, a1, 1609
	call	end_objects.constructors.peer_objects
	lbu	a0, 0(s1)
	beqz	a0, .LBB70e96_7
	li	a0, 8
	j	.LBB70e96_22
.LBB70e96_7:
	addi	s3, sp, 2047
	addi	s3, s3, 817
	addi	a0, sp, 2047
	addi	a0, a0, 841
	mv	a1, s0
	mv	a2, s4
	call	end_objects.settings.peer_setup
	ld	s0, 0(s2)
	addi	s1, s0, 2047
	addi	a0, sp, 544
	addi	a1, sp, 2047
	addi	a1, a1, 841
	mv	a2, s3
	call	peer_machine.machine.PeerMachine.new.__807681be332d694b_
	lbu	a0, 0(s0)
	sd	a0, 536(sp)
	lbu	a7, 8(s0)
	lbu	t0, 9(s0)
	lbu	t2, 10(s0)
	lbu	t4, 11(s0)
	lbu	a6, 12(s0)
	lbu	t1, 13(s0)
	lbu	t5, 14(s0)
	lbu	t6, 15(s0)
	lbu	s2, 24(s0)
	lbu	s4, 25(s0)
	lbu	s6, 26(s0)
	lbu	s8, 27(s0)
	lbu	t3, 28(s0)
	lbu	s3, 29(s0)
	lbu	s5, 30(s0)
	lbu	s7, 31(s0)
	lbu	a0, 1328(s0)
	sd	a0, 504(sp)
	lbu	a0, 1329(s0)
	sd	a0, 448(sp)
	lbu	a0, 1330(s0)
	sd	a0, 464(sp)
	lbu	a0, 1331(s0)
	sd	a0, 456(sp)
	lbu	a0, 1332(s0)
	sd	a0, 496(sp)
	lbu	a0, 1333(s0)
	sd	a0, 472(sp)
	lbu	a0, 1334(s0)
	sd	a0, 488(sp)
	lbu	a0, 1335(s0)
	sd	a0, 480(sp)
	li	a4, 3
	sb	a4, 0(s0)
	slli	t0, t0, 8
	slli	t2, t2, 16
	slli	t4, t4, 24
	or	a7, t0, a7
	or	t0, t4, t2
	lbu	s9, 577(s1)
	lbu	a1, 578(s1)
	lbu	a2, 579(s1)
	lbu	a3, 580(s1)
	slli	t1, t1, 8
	slli	t5, t5, 16
	slli	t6, t6, 24
	slli	s4, s4, 8
	slli	s6, s6, 16
	slli	s8, s8, 24
	or	t2, t1, a6
	or	t4, t6, t5
	or	a6, s4, s2
	or	t1, s8, s6
	lbu	t5, 581(s1)
	lbu	a5, 582(s1)
	lbu	a0, 583(s1)
	lbu	a4, 584(s1)
	slli	s3, s3, 8
	slli	s5, s5, 16
	slli	s7, s7, 24
	slli	a1, a1, 8
	slli	a2, a2, 16
	slli	a3, a3, 24
	or	t3, s3, t3
	or	t6, s7, s5
	or	s2, a1, s9
	or	a2, a2, a3
	lbu	a1, 1528(s0)
	sd	a1, 440(sp)
	lbu	a1, 1529(s0)
	sd	a1, 408(sp)
	lbu	a1, 1530(s0)
	sd	a1, 424(sp)
	lbu	a1, 1531(s0)
	sd	a1, 416(sp)
	slli	a5, a5, 8
	slli	a0, a0, 16
	slli	a4, a4, 24
	or	a3, a5, t5
	or	a0, a0, a4
	or	a7, t0, a7
	or	a5, t4, t2
	lbu	a1, 1532(s0)
	sd	a1, 432(sp)
	lbu	a1, 1533(s0)
	sd	a1, 384(sp)
	lbu	a1, 1534(s0)
	sd	a1, 400(sp)
	lbu	a1, 1535(s0)
	sd	a1, 392(sp)
	or	a4, t1, a6
	or	a1, t6, t3
	or	a2, a2, s2
	or	a0, a0, a3
	lbu	a3, 1560(s0)
	sd	a3, 376(sp)
	lbu	a3, 1561(s0)
	sd	a3, 352(sp)
	lbu	a3, 1562(s0)
	sd	a3, 368(sp)
	lbu	a3, 1563(s0)
	sd	a3, 360(sp)
	sb	zero, 4(s0)
	sb	zero, 5(s0)
	sb	zero, 6(s0)
	sb	zero, 7(s0)
	sb	zero, 1(s0)
	slli	a5, a5, 32
	slli	a1, a1, 32
	slli	a0, a0, 32
	or	a3, a5, a7
	sd	a3, 520(sp)
	or	a1, a1, a4
	sd	a1, 528(sp)
	or	a0, a0, a2
	sd	a0, 512(sp)
	lbu	a0, 1564(s0)
	sd	a0, 344(sp)
	lbu	a0, 1565(s0)
	sd	a0, 312(sp)
	lbu	a0, 1566(s0)
	sd	a0, 336(sp)
	lbu	a0, 1567(s0)
	sd	a0, 328(sp)
	lbu	a0, 1976(s0)
	sd	a0, 320(sp)
	lbu	a0, 1977(s0)
	sd	a0, 256(sp)
	lbu	a0, 1978(s0)
	sd	a0, 272(sp)
	lbu	a0, 1979(s0)
	sd	a0, 264(sp)
	lbu	a0, 1980(s0)
	sd	a0, 304(sp)
	lbu	a0, 1981(s0)
	sd	a0, 280(sp)
	lbu	a0, 1982(s0)
	sd	a0, 296(sp)
	lbu	a0, 1983(s0)
	sd	a0, 288(sp)
	lbu	a0, 249(s1)
	sd	a0, 72(sp)
	lbu	a0, 250(s1)
	sd	a0, 16(sp)
	lbu	a0, 251(s1)
	sd	a0, 32(sp)
	lbu	a0, 252(s1)
	sd	a0, 24(sp)
	lbu	a0, 253(s1)
	sd	a0, 64(sp)
	lbu	a0, 254(s1)
	sd	a0, 40(sp)
	lbu	a0, 255(s1)
	sd	a0, 56(sp)
	lbu	a0, 256(s1)
	sd	a0, 48(sp)
	lbu	a0, 265(s1)
	sd	a0, 248(sp)
	lbu	a0, 266(s1)
	sd	a0, 160(sp)
	lbu	a0, 267(s1)
	sd	a0, 176(sp)
	lbu	a0, 268(s1)
	sd	a0, 168(sp)
	lbu	a0, 269(s1)
	sd	a0, 240(sp)
	lbu	a0, 270(s1)
	sd	a0, 184(sp)
	lbu	a0, 271(s1)
	sd	a0, 208(sp)
	lbu	a0, 272(s1)
	sd	a0, 200(sp)
	lbu	a0, 281(s1)
	sd	a0, 136(sp)
	lbu	a0, 282(s1)
	sd	a0, 120(sp)
	lbu	a0, 283(s1)
	sd	a0, 96(sp)
	lbu	a0, 284(s1)
	sd	a0, 80(sp)
	lbu	s11, 285(s1)
	lbu	s4, 286(s1)
	lbu	s2, 287(s1)
	lbu	s3, 288(s1)
	lbu	a0, 297(s1)
	sd	a0, 232(sp)
	lbu	s10, 298(s1)
	lbu	s5, 299(s1)
	lbu	s6, 300(s1)
	lbu	a0, 301(s1)
	sd	a0, 224(sp)
	lbu	s9, 302(s1)
	lbu	s8, 303(s1)
	lbu	s7, 304(s1)
	lbu	a0, 305(s1)
	sd	a0, 216(sp)
	lbu	a0, 306(s1)
	sd	a0, 88(sp)
	lbu	a0, 307(s1)
	sd	a0, 112(sp)
	lbu	a0, 308(s1)
	sd	a0, 104(sp)
	lbu	a0, 309(s1)
	sd	a0, 192(sp)
	lbu	a0, 310(s1)
	sd	a0, 128(sp)
	lbu	a0, 311(s1)
	sd	a0, 152(sp)
	lbu	a0, 312(s1)
	sd	a0, 144(sp)
	sb	zero, 2(s0)
	sb	zero, 3(s0)
	addi	a0, s0, 8
	lui	a2, 1
	addi	a2, a2, -1784
	addi	a1, sp, 544
	call	memcpy
	addi	a0, s1, 273
	li	a2, 312
	li	a1, 0
	call	memset
	ld	a0, 536(sp)
	slli	a0, a0, 2
.Lpcrel_hi77:
	auipc	a1, %pcrel_hi(.LJTI70e96_0)
	addi	a1, a1, %pcrel_lo(.Lpcrel_hi77)
	add	a0, a0, a1
	lw	a0, 0(a0)
	add	a0, a0, a1
	jr	a0
.LBB70e96_8:
	ld	a0, 520(sp)
	ld	s0, 512(sp)
	ld	a1, 528(sp)
	bnez	a1, .LBB70e96_12
	j	.LBB70e96_13
.LBB70e96_9:
	ld	s0, 256(sp)
	slli	s0, s0, 8
	ld	a1, 272(sp)
	slli	a1, a1, 16
	ld	a2, 264(sp)
	slli	a2, a2, 24
	ld	a3, 280(sp)
	slli	a3, a3, 8
	ld	a4, 296(sp)
	slli	a4, a4, 16
	ld	a5, 288(sp)
	slli	a5, a5, 24
	ld	a0, 320(sp)
	or	a0, a0, s0
	or	a1, a1, a2
	ld	a2, 304(sp)
	j	.LBB70e96_19
.LBB70e96_10:
	ld	t2, 120(sp)
	ld	ra, 80(sp)
	ld	t6, 96(sp)
	mv	t5, s4
	mv	t4, s3
	mv	t3, s2
	sd	s11, 536(sp)
	ld	t1, 136(sp)
	slli	s10, s10, 8
	slli	s5, s5, 16
	slli	s6, s6, 24
	slli	s9, s9, 8
	slli	s8, s8, 16
	slli	s7, s7, 24
	ld	s4, 88(sp)
	slli	s4, s4, 8
	ld	s2, 112(sp)
	slli	s2, s2, 16
	ld	s3, 104(sp)
	slli	s3, s3, 24
	ld	s11, 128(sp)
	slli	s11, s11, 8
	ld	a6, 152(sp)
	slli	a6, a6, 16
	ld	a7, 144(sp)
	slli	a7, a7, 24
	ld	a0, 232(sp)
	or	t0, s10, a0
	or	a3, s6, s5
	ld	a0, 224(sp)
	or	a4, s9, a0
	or	a5, s7, s8
	ld	a0, 216(sp)
	or	s0, s4, a0
	or	a0, s3, s2
	ld	a1, 192(sp)
	or	a1, s11, a1
	or	a2, a7, a6
	or	a3, a3, t0
	or	a4, a4, a5
	or	a0, a0, s0
	or	a1, a1, a2
	slli	a4, a4, 32
	or	a3, a3, a4
	slli	a1, a1, 32
	or	s0, a1, a0
	beqz	a3, .LBB70e96_13
	slli	a0, t2, 8
	slli	a1, t6, 16
	slli	a2, ra, 24
	slli	a3, t5, 8
	slli	a4, t3, 16
	slli	a5, t4, 24
	or	a0, a0, t1
	or	a1, a1, a2
	ld	a2, 536(sp)
	or	a2, a2, a3
	or	a4, a4, a5
	or	a0, a0, a1
	or	a2, a2, a4
	slli	a2, a2, 32
	or	a0, a0, a2
.LBB70e96_12:
	call	rattle_dealloc
.LBB70e96_13:
	mv	a0, s0
	j	.LBB70e96_20
.LBB70e96_14:
	ld	s0, 160(sp)
	slli	s0, s0, 8
	ld	a1, 176(sp)
	slli	a1, a1, 16
	ld	a2, 168(sp)
	slli	a2, a2, 24
	ld	a3, 184(sp)
	slli	a3, a3, 8
	ld	a4, 208(sp)
	slli	a4, a4, 16
	ld	a5, 200(sp)
	slli	a5, a5, 24
	ld	a0, 248(sp)
	or	a0, a0, s0
	or	a1, a1, a2
	ld	a2, 240(sp)
	or	a2, a2, a3
	or	a4, a4, a5
	or	a0, a0, a1
	or	a2, a2, a4
	slli	a2, a2, 32
	or	a0, a0, a2
	beqz	a0, .LBB70e96_21
	ld	s0, 16(sp)
	slli	s0, s0, 8
	ld	a1, 32(sp)
	slli	a1, a1, 16
	ld	a2, 24(sp)
	slli	a2, a2, 24
	ld	a3, 40(sp)
	slli	a3, a3, 8
	ld	a4, 56(sp)
	slli	a4, a4, 16
	ld	a5, 48(sp)
	slli	a5, a5, 24
	ld	a0, 72(sp)
	or	a0, a0, s0
	or	a1, a1, a2
	ld	a2, 64(sp)
	j	.LBB70e96_19
.LBB70e96_16:
	ld	s0, 448(sp)
	slli	s0, s0, 8
	ld	a1, 464(sp)
	slli	a1, a1, 16
	ld	a2, 456(sp)
	slli	a2, a2, 24
	ld	a3, 472(sp)
	slli	a3, a3, 8
	ld	a4, 488(sp)
	slli	a4, a4, 16
	ld	a5, 480(sp)
	slli	a5, a5, 24
	ld	a0, 504(sp)
	or	a0, a0, s0
	or	a1, a1, a2
	ld	a2, 496(sp)
	j	.LBB70e96_19
.LBB70e96_17:
	ld	s0, 408(sp)
	slli	s0, s0, 8
	ld	a1, 424(sp)
	slli	a1, a1, 16
	ld	a2, 416(sp)
	slli	a2, a2, 24
	ld	a3, 384(sp)
	slli	a3, a3, 8
	ld	a4, 400(sp)
	slli	a4, a4, 16
	ld	a5, 392(sp)
	slli	a5, a5, 24
	ld	a0, 440(sp)
	or	a0, a0, s0
	or	a1, a1, a2
	ld	a2, 432(sp)
	j	.LBB70e96_19
.LBB70e96_18:
	ld	s0, 352(sp)
	slli	s0, s0, 8
	ld	a1, 368(sp)
	slli	a1, a1, 16
	ld	a2, 360(sp)
	slli	a2, a2, 24
	ld	a3, 312(sp)
	slli	a3, a3, 8
	ld	a4, 336(sp)
	slli	a4, a4, 16
	ld	a5, 328(sp)
	slli	a5, a5, 24
	ld	a0, 376(sp)
	or	a0, a0, s0
	or	a1, a1, a2
	ld	a2, 344(sp)
.LBB70e96_19:
	or	a2, a2, a3
	or	a4, a4, a5
	or	a0, a0, a1
	or	a2, a2, a4
	slli	a2, a2, 32
	or	a0, a0, a2
.LBB70e96_20:
	call	rattle_dealloc
.LBB70e96_21:
	li	a0, 0
	sb	zero, 585(s1)
.LBB70e96_22:
	addi	sp, sp, 1744
	ld	ra, 2024(sp)
	ld	s0, 2016(sp)
	ld	s1, 2008(sp)
	ld	s2, 2000(sp)
	ld	s3, 1992(sp)
	ld	s4, 1984(sp)
	ld	s5, 1976(sp)
	ld	s6, 1968(sp)
	ld	s7, 1960(sp)
	ld	s8, 1952(sp)
	ld	s9, 1944(sp)
	ld	s10, 1936(sp)
	ld	s11, 1928(sp)
	addi	sp, sp, 2032
	ret
.Lfunc_end70e96:
	.size	tuv_peer_begin, .Lfunc_end70e96-tuv_peer_begin
	.section	.rodata.tuv_peer_begin,"a",@progbits
	.p2align	2, 0x0
.LJTI70e96_0:
	.word	.LBB70e96_21-.LJTI70e96_0
	.word	.LBB70e96_16-.LJTI70e96_0
	.word	.LBB70e96_9-.LJTI70e96_0
	.word	.LBB70e96_14-.LJTI70e96_0
	.word	.LBB70e96_8-.LJTI70e96_0
	.word	.LBB70e96_8-.LJTI70e96_0
	.word	.LBB70e96_17-.LJTI70e96_0
	.word	.LBB70e96_10-.LJTI70e96_0
	.word	.LBB70e96_18-.LJTI70e96_0

	.section	.text.tuv_peer_deliver,"ax",@progbits
	.globl	tuv_peer_deliver
	.p2align	1
	.type	tuv_peer_deliver,@function
tuv_peer_deliver:
	addi	sp, sp, -16
	sd	ra, 8(sp)
	mv	a3, a2
	ld	a4, 0(a0)
	seqz	a0, a1
	slli	a0, a0, 12
	add	a2, a1, a0
	mv	a0, sp
	mv	a1, a4
	call	tuvaddri_c.deliver.deliver_to_peer
	lbu	a0, 4(sp)
	lwu	a1, 0(sp)
	slli	a0, a0, 32
	or	a0, a0, a1
	ld	ra, 8(sp)
	addi	sp, sp, 16
	ret
.Lfunc_ende6806:
	.size	tuv_peer_deliver, .Lfunc_ende6806-tuv_peer_deliver

	.section	.text.tuv_peer_idle,"ax",@progbits
	.globl	tuv_peer_idle
	.p2align	1
	.type	tuv_peer_idle,@function
tuv_peer_idle:
	ld	a0, 0(a0)
	lbu	a1, 0(a0)
	li	a2, 3
	bne	a1, a2, .LBB06932_3
	lbu	a1, 776(a0)
	lui	a2, 512
	addi	a2, a2, -129
	slli	a2, a2, 12
	addi	a2, a2, 1023
	srl	a1, a2, a1
	andi	a1, a1, 1
	beqz	a1, .LBB06932_3
	li	a1, 0
	lbu	a2, 780(a0)
	addi	a2, a2, -2
	seqz	a2, a2
	xori	a2, a2, 11
	sb	a2, 776(a0)
	addi	a0, a0, 2047
	sb	zero, 585(a0)
	j	.LBB06932_4
.LBB06932_3:
	li	a2, 0
	addi	a0, a0, 2047
	sb	zero, 585(a0)
	li	a1, 1
.LBB06932_4:
	slli	a2, a2, 32
	slli	a0, a1, 16
	or	a0, a0, a2
	ret
.Lfunc_end06932:
	.size	tuv_peer_idle, .Lfunc_end06932-tuv_peer_idle

	.section	.text.tuv_peer_method_begin,"ax",@progbits
	.globl	tuv_peer_method_begin
	.p2align	1
	.type	tuv_peer_method_begin,@function
tuv_peer_method_begin:
	addi	sp, sp, -2032
	sd	ra, 2024(sp)
	sd	s0, 2016(sp)
	sd	s1, 2008(sp)
	sd	s2, 2000(sp)
	sd	s3, 1992(sp)
	sd	s4, 1984(sp)
	sd	s5, 1976(sp)
	sd	s6, 1968(sp)
	sd	s7, 1960(sp)
	sd	s8, 1952(sp)
	sd	s9, 1944(sp)
	sd	s10, 1936(sp)
	sd	s11, 1928(sp)
	addi	sp, sp, -2048
	addi	sp, sp, -1600
	mv	s3, a2
	mv	s1, a1
	mv	s2, a0
	addi	a0, sp, 2047
	addi	a0, a0, 1065
	li	a2, 624
	li	a1, 0
	call	memset
	addi	a0, sp, 1864
	li	a2, 1248
	li	a1, 0
	call	memset
	mv	a0, s1
	call	end_objects.refusals.peer_refusal
	zext.b	a0, a0
	li	s0, 1
	bne	a0, s0, .LBBf83f1_2
	addi	a0, a1, 1
	j	.LBBf83f1_43
.LBBf83f1_2:
	call	tuvaddri_c.sent.empty_packet
	zext.b	a0, a0
	bne	a0, s0, .LBBf83f1_10
	mv	s6, a1
	sd	s3, 536(sp)
	sd	s2, 544(sp)
	addi	s11, sp, 2047
	addi	s11, s11, 481
	addi	a0, sp, 2047
	addi	a0, a0, 1689
	li	a2, 72
	li	a1, 0
	call	memset
	lbu	s4, 8(s1)
	lbu	s9, 9(s1)
	lbu	s5, 10(s1)
	lbu	s8, 11(s1)
	lbu	a6, 16(s1)
	lbu	a1, 17(s1)
	lbu	a2, 18(s1)
	lbu	a3, 19(s1)
	lbu	a4, 20(s1)
	lbu	a5, 21(s1)
	lbu	s0, 22(s1)
	lbu	a0, 23(s1)
	slli	a1, a1, 8
	slli	a2, a2, 16
	slli	a3, a3, 24
	slli	a5, a5, 8
	slli	s0, s0, 16
	slli	a0, a0, 24
	or	a1, a1, a6
	or	a2, a2, a3
	or	a4, a4, a5
	or	a0, a0, s0
	lbu	s2, 12(s1)
	lbu	s10, 13(s1)
	lbu	s3, 14(s1)
	lbu	s7, 15(s1)
	or	a1, a1, a2
	or	a0, a0, a4
	slli	a0, a0, 32
	or	s0, a0, a1
	addi	a0, sp, 2047
	addi	a0, a0, 1761
	li	a2, 264
	li	a1, 0
	call	memset
	li	a0, 253
	bltu	a0, s0, .LBBf83f1_5
	slli	s9, s9, 8
	slli	s5, s5, 16
	slli	s8, s8, 24
	slli	s10, s10, 8
	slli	s3, s3, 16
	slli	s7, s7, 24
	or	a0, s9, s4
	or	a1, s8, s5
	or	a2, s10, s2
	or	a3, s7, s3
	or	a0, a0, a1
	or	a2, a2, a3
	slli	a1, a2, 32
	or	a1, a1, a0
	addi	a0, sp, 2047
	addi	a0, a0, 1761
	mv	a2, s0
	call	memcpy
	sd	s0, 1536(s11)
.LBBf83f1_5:
	lbu	s4, 24(s1)
	lbu	s9, 25(s1)
	lbu	s5, 26(s1)
	lbu	s8, 27(s1)
	lbu	a6, 32(s1)
	lbu	a1, 33(s1)
	lbu	a2, 34(s1)
	lbu	a3, 35(s1)
	lbu	a4, 36(s1)
	lbu	a5, 37(s1)
	lbu	s0, 38(s1)
	lbu	a0, 39(s1)
	slli	a1, a1, 8
	slli	a2, a2, 16
	slli	a3, a3, 24
	slli	a5, a5, 8
	slli	s0, s0, 16
	slli	a0, a0, 24
	or	a1, a1, a6
	or	a2, a2, a3
	or	a4, a4, a5
	or	a0, a0, s0
	lbu	s10, 28(s1)
	lbu	s2, 29(s1)
	lbu	s11, 30(s1)
	lbu	s7, 31(s1)
	or	a1, a1, a2
	or	a0, a0, a4
	slli	a0, a0, 32
	or	s0, a0, a1
	addi	a0, sp, 2047
	addi	a0, a0, 2025
	li	a2, 264
	li	a1, 0
	call	memset
	beqz	s0, .LBBf83f1_11
	lui	a0, 1
	addi	a0, a0, 240
	add	a0, a0, sp
	li	a2, 264
	li	a1, 0
	call	memset
	li	a0, 253
	bltu	a0, s0, .LBBf83f1_8
	slli	s9, s9, 8
	slli	s5, s5, 16
	slli	s8, s8, 24
	slli	s2, s2, 8
	slli	s11, s11, 16
	slli	s7, s7, 24
	or	a0, s9, s4
	or	a1, s8, s5
	or	a2, s2, s10
	or	a3, s7, s11
	or	a0, a0, a1
	or	a2, a2, a3
	slli	a1, a2, 32
	or	a1, a1, a0
	lui	a0, 1
	addi	a0, a0, 240
	add	a0, a0, sp
	mv	a2, s0
	call	memcpy
	lui	a0, 1
	add	a0, a0, sp
	sd	s0, 496(a0)
.LBBf83f1_8:
	addi	a0, sp, 2047
	addi	a0, a0, 2025
	lui	a1, 1
	addi	a1, a1, 240
	add	a1, a1, sp
	li	a2, 264
	call	memcpy
	li	a0, 1
	sd	a0, 528(sp)
	lbu	a0, 74(s1)
	beqz	a0, .LBBf83f1_12
.LBBf83f1_9:
	lbu	a1, 75(s1)
	snez	a2, a1
	slli	a1, a1, 8
	addi	a2, a2, 1
	sd	a2, 520(sp)
	or	s8, a1, a0
	j	.LBBf83f1_13
.LBBf83f1_10:
	li	a0, 8
	j	.LBBf83f1_43
.LBBf83f1_11:
	sd	zero, 528(sp)
	lbu	a0, 74(s1)
	bnez	a0, .LBBf83f1_9
.LBBf83f1_12:
	li	a0, 2
	sd	a0, 520(sp)
	li	s8, 513
.LBBf83f1_13:
	addi	a0, sp, 552
	mv	a1, s1
	call	end_objects.settings.named_kinds
	ld	a0, 552(sp)
	ld	a1, 560(sp)
	zext.b	a0, a0
	snez	a1, a1
	addi	a0, a0, -47
	seqz	a0, a0
	and	a1, a1, a0
	bnez	a1, .LBBf83f1_16
	li	a0, 64
	add	a0, a0, s1
	beqz	a1, .LBBf83f1_17
.LBBf83f1_15:
	li	a1, 40
	j	.LBBf83f1_18
.LBBf83f1_16:
	li	a0, 48
	add	a0, a0, s1
	bnez	a1, .LBBf83f1_15
.LBBf83f1_17:
	li	a1, 56
.LBBf83f1_18:
	add	a1, a1, s1
	lbu	a2, 0(a0)
	lbu	a3, 1(a0)
	lbu	a6, 2(a0)
	lbu	a5, 3(a0)
	lbu	a7, 4(a0)
	lbu	a4, 5(a0)
	lbu	s0, 6(a0)
	lbu	a0, 7(a0)
	slli	a3, a3, 8
	or	a2, a2, a3
	lbu	s10, 0(a1)
	lbu	s3, 1(a1)
	lbu	s2, 2(a1)
	lbu	s7, 3(a1)
	slli	a6, a6, 16
	slli	a5, a5, 24
	slli	a4, a4, 8
	slli	s0, s0, 16
	slli	a0, a0, 24
	or	a3, a5, a6
	or	a4, a4, a7
	or	a0, a0, s0
	lbu	s11, 4(a1)
	lbu	s5, 5(a1)
	lbu	s9, 6(a1)
	lbu	s4, 7(a1)
	or	a2, a2, a3
	or	a0, a0, a4
	slli	a0, a0, 32
	or	s0, a0, a2
	addi	a0, sp, 552
	li	a2, 72
	li	a1, 0
	call	memset
	li	a0, 64
	bltu	a0, s0, .LBBf83f1_20
	slli	s3, s3, 8
	slli	s2, s2, 16
	slli	s7, s7, 24
	slli	s5, s5, 8
	slli	s9, s9, 16
	slli	s4, s4, 24
	or	a0, s3, s10
	or	a1, s7, s2
	or	a2, s5, s11
	or	a3, s4, s9
	or	a0, a0, a1
	or	a2, a2, a3
	slli	a1, a2, 32
	or	a1, a1, a0
	addi	a0, sp, 552
	mv	a2, s0
	call	memcpy
	sd	s0, 616(sp)
.LBBf83f1_20:
	addi	a0, sp, 2047
	addi	a0, a0, 1689
	addi	a1, sp, 552
	li	a2, 72
	call	memcpy
	addi	a0, sp, 1792
	addi	a1, sp, 2047
	addi	a1, a1, 1689
	li	a2, 72
	call	memcpy
	addi	a0, sp, 2047
	addi	a0, a0, 1065
	addi	a1, sp, 2047
	addi	a1, a1, 1761
	li	a2, 264
	call	memcpy
	addi	s5, sp, 2047
	addi	s5, s5, 481
	ld	a0, 528(sp)
	sd	a0, 848(s5)
	addi	a0, sp, 2047
	addi	a0, a0, 1337
	addi	a1, sp, 2047
	addi	a1, a1, 2025
	li	a2, 264
	call	memcpy
	sd	s8, 1120(s5)
	ld	a0, 520(sp)
	sd	a0, 1128(s5)
	addi	s4, sp, 2047
	addi	s4, s4, 1617
	addi	a1, sp, 1792
	li	a2, 72
	mv	a0, s4
	call	memcpy
	lui	a0, 1
	addi	a0, a0, 240
	add	a0, a0, sp
	mv	a1, s1
	call	end_objects.settings.named_kinds
	ld	a0, 1808(s5)
	ld	a1, 1816(s5)
	zext.b	s0, a0
	snez	s1, a1
	lui	a0, 1
	addi	a0, a0, 1400
	add	a0, a0, sp
	li	a2, 80
	li	a1, 0
	call	memset
	addi	a0, s0, -47
	seqz	s0, a0
	lui	a0, 1
	addi	a0, a0, 240
	add	a0, a0, sp
	and	s3, s1, s0
	beqz	s3, .LBBf83f1_22
	li	a2, 1240
	li	a1, 0
	call	memset
	li	s1, 0
	j	.LBBf83f1_23
.LBBf83f1_22:
	li	a2, 1160
	li	a1, 0
	call	memset
	li	s1, 1
.LBBf83f1_23:
	ld	s2, 544(sp)
	ld	s0, 536(sp)
	addi	a0, sp, 552
	lui	a1, 1
	addi	a1, a1, 240
	add	a1, a1, sp
	li	a2, 1240
	call	memcpy
	sd	s1, 1864(sp)
	addi	s1, sp, 1872
	addi	a1, sp, 552
	li	a2, 1240
	mv	a0, s1
	call	memcpy
	addi	a1, sp, 2047
	addi	a1, a1, 1065
	mv	a0, s1
	call	eap_method.peer_side.PeerSide.set
	addi	a0, sp, 2047
	addi	a0, a0, 449
	li	a2, 32
	mv	a1, s0
	call	memcpy
	li	a0, 1
	beqz	s3, .LBBf83f1_25
	sb	a0, 0(s5)
	addi	a0, sp, 2047
	addi	a0, a0, 482
	li	a2, 578
	j	.LBBf83f1_26
.LBBf83f1_25:
	sd	a0, 0(s5)
	addi	a0, sp, 2047
	addi	a0, a0, 489
	li	a2, 490
.LBBf83f1_26:
	li	a1, 0
	call	memset
	ld	s0, 0(s2)
	lbu	s3, 1864(sp)
	ld	s2, 1200(s5)
	addi	s1, s0, 2047
	lui	a0, 1
	addi	a0, a0, 240
	add	a0, a0, sp
	li	a2, 72
	li	a1, 0
	call	memset
	li	a0, 64
	bltu	a0, s2, .LBBf83f1_28
	lui	a0, 1
	addi	a0, a0, 240
	add	a0, a0, sp
	mv	a1, s4
	mv	a2, s2
	call	memcpy
	sd	s2, 1872(s5)
.LBBf83f1_28:
	lbu	a0, 0(s0)
	sd	a0, 544(sp)
	lbu	t0, 8(s0)
	lbu	t2, 9(s0)
	lbu	a7, 10(s0)
	lbu	t1, 11(s0)
	lbu	a6, 12(s0)
	lbu	t3, 13(s0)
	lbu	t4, 14(s0)
	lbu	t6, 15(s0)
	lbu	s4, 24(s0)
	lbu	a1, 25(s0)
	lbu	s2, 26(s0)
	lbu	s5, 27(s0)
	lbu	t5, 28(s0)
	lbu	s7, 29(s0)
	lbu	s8, 30(s0)
	lbu	s9, 31(s0)
	lbu	a0, 1328(s0)
	sd	a0, 512(sp)
	lbu	a0, 1329(s0)
	sd	a0, 456(sp)
	lbu	a0, 1330(s0)
	sd	a0, 472(sp)
	lbu	a0, 1331(s0)
	sd	a0, 464(sp)
	lbu	a0, 1332(s0)
	sd	a0, 504(sp)
	lbu	a0, 1333(s0)
	sd	a0, 480(sp)
	lbu	a0, 1334(s0)
	sd	a0, 496(sp)
	lbu	a0, 1335(s0)
	sd	a0, 488(sp)
	li	a4, 1
	sb	s3, 8(s0)
	sb	a4, 0(s0)
	slli	t2, t2, 8
	or	t0, t2, t0
	lbu	a0, 1528(s0)
	sd	a0, 448(sp)
	lbu	a0, 1529(s0)
	sd	a0, 424(sp)
	lbu	a0, 1530(s0)
	sd	a0, 440(sp)
	lbu	a0, 1531(s0)
	sd	a0, 432(sp)
	slli	a7, a7, 16
	slli	t1, t1, 24
	slli	t3, t3, 8
	slli	t4, t4, 16
	slli	t6, t6, 24
	slli	a1, a1, 8
	or	t2, t1, a7
	or	a6, t3, a6
	or	t1, t6, t4
	or	a7, a1, s4
	lbu	a3, 577(s1)
	lbu	a4, 578(s1)
	lbu	a0, 579(s1)
	lbu	a1, 580(s1)
	slli	s2, s2, 16
	slli	s5, s5, 24
	slli	s7, s7, 8
	slli	s8, s8, 16
	slli	s9, s9, 24
	slli	a4, a4, 8
	or	t3, s5, s2
	or	t4, s7, t5
	or	t5, s9, s8
	or	t6, a4, a3
	lbu	a4, 581(s1)
	lbu	a5, 582(s1)
	lbu	a2, 583(s1)
	lbu	a3, 584(s1)
	slli	a0, a0, 16
	slli	a1, a1, 24
	slli	a5, a5, 8
	slli	a2, a2, 16
	slli	a3, a3, 24
	or	a0, a0, a1
	or	s2, a5, a4
	or	a2, a2, a3
	or	t0, t2, t0
	lbu	a1, 1532(s0)
	sd	a1, 416(sp)
	lbu	a1, 1533(s0)
	sd	a1, 392(sp)
	lbu	a1, 1534(s0)
	sd	a1, 408(sp)
	lbu	a1, 1535(s0)
	sd	a1, 400(sp)
	or	a3, t1, a6
	or	a5, t3, a7
	or	a1, t5, t4
	or	a0, a0, t6
	lbu	a4, 1560(s0)
	sd	a4, 384(sp)
	lbu	a4, 1561(s0)
	sd	a4, 352(sp)
	lbu	a4, 1562(s0)
	sd	a4, 368(sp)
	lbu	a4, 1563(s0)
	sd	a4, 360(sp)
	or	a2, a2, s2
	slli	a3, a3, 32
	slli	a1, a1, 32
	slli	a2, a2, 32
	or	a3, a3, t0
	sd	a3, 528(sp)
	or	a1, a1, a5
	sd	a1, 536(sp)
	or	a0, a0, a2
	sd	a0, 520(sp)
	lbu	a0, 1564(s0)
	sd	a0, 376(sp)
	lbu	a0, 1565(s0)
	sd	a0, 328(sp)
	lbu	a0, 1566(s0)
	sd	a0, 344(sp)
	lbu	a0, 1567(s0)
	sd	a0, 336(sp)
	sb	zero, 4(s0)
	sb	zero, 5(s0)
	sb	zero, 6(s0)
	sb	zero, 7(s0)
	sb	zero, 12(s0)
	sb	zero, 13(s0)
	sb	zero, 14(s0)
	sb	zero, 15(s0)
	sb	zero, 9(s0)
	sb	zero, 10(s0)
	sb	zero, 11(s0)
	sb	zero, 1(s0)
	sb	zero, 2(s0)
	lbu	a0, 1976(s0)
	sd	a0, 320(sp)
	lbu	a0, 1977(s0)
	sd	a0, 264(sp)
	lbu	a0, 1978(s0)
	sd	a0, 280(sp)
	lbu	a0, 1979(s0)
	sd	a0, 272(sp)
	lbu	a0, 1980(s0)
	sd	a0, 312(sp)
	lbu	a0, 1981(s0)
	sd	a0, 288(sp)
	lbu	a0, 1982(s0)
	sd	a0, 304(sp)
	lbu	a0, 1983(s0)
	sd	a0, 296(sp)
	lbu	a0, 249(s1)
	sd	a0, 72(sp)
	lbu	a0, 250(s1)
	sd	a0, 8(sp)
	lbu	a0, 251(s1)
	sd	a0, 24(sp)
	lbu	a0, 252(s1)
	sd	a0, 16(sp)
	lbu	a0, 253(s1)
	sd	a0, 64(sp)
	lbu	a0, 254(s1)
	sd	a0, 32(sp)
	lbu	a0, 255(s1)
	sd	a0, 48(sp)
	lbu	a0, 256(s1)
	sd	a0, 40(sp)
	lbu	a0, 265(s1)
	sd	a0, 256(sp)
	lbu	a0, 266(s1)
	sd	a0, 168(sp)
	lbu	a0, 267(s1)
	sd	a0, 184(sp)
	lbu	a0, 268(s1)
	sd	a0, 176(sp)
	lbu	a0, 269(s1)
	sd	a0, 248(sp)
	lbu	a0, 270(s1)
	sd	a0, 192(sp)
	lbu	a0, 271(s1)
	sd	a0, 216(sp)
	lbu	a0, 272(s1)
	sd	a0, 208(sp)
	lbu	a0, 281(s1)
	sd	a0, 144(sp)
	lbu	a0, 282(s1)
	sd	a0, 128(sp)
	lbu	a0, 283(s1)
	sd	a0, 104(sp)
	lbu	a0, 284(s1)
	sd	a0, 88(sp)
	lbu	a0, 285(s1)
	sd	a0, 56(sp)
	lbu	s3, 286(s1)
	lbu	s2, 287(s1)
	lbu	s11, 288(s1)
	lbu	a0, 297(s1)
	sd	a0, 240(sp)
	lbu	s10, 298(s1)
	lbu	s7, 299(s1)
	lbu	s9, 300(s1)
	lbu	a0, 301(s1)
	sd	a0, 232(sp)
	lbu	s5, 302(s1)
	lbu	s8, 303(s1)
	lbu	a0, 304(s1)
	sd	a0, 80(sp)
	lbu	a0, 305(s1)
	sd	a0, 224(sp)
	lbu	a0, 306(s1)
	sd	a0, 96(sp)
	lbu	a0, 307(s1)
	sd	a0, 120(sp)
	lbu	a0, 308(s1)
	sd	a0, 112(sp)
	lbu	a0, 309(s1)
	sd	a0, 200(sp)
	lbu	a0, 310(s1)
	sd	a0, 136(sp)
	lbu	a0, 311(s1)
	sd	a0, 160(sp)
	lbu	a0, 312(s1)
	sd	a0, 152(sp)
	sb	zero, 3(s0)
	addi	s4, s0, 1336
	addi	a0, s0, 16
	li	a2, 1240
	addi	a1, sp, 1872
	call	memcpy
	addi	a0, s0, 1256
	lui	a1, 1
	addi	a1, a1, 240
	add	a1, a1, sp
	li	a2, 72
	call	memcpy
	srli	a0, s6, 56
	srli	a1, s6, 48
	srli	a2, s6, 40
	srli	a3, s6, 32
	srli	a4, s6, 24
	srli	a5, s6, 16
	sb	a3, 1332(s0)
	sb	a2, 1333(s0)
	sb	a1, 1334(s0)
	sb	a0, 1335(s0)
	srli	a0, s6, 8
	sb	s6, 1328(s0)
	sb	a0, 1329(s0)
	sb	a5, 1330(s0)
	sb	a4, 1331(s0)
	li	a2, 1296
	mv	a0, s4
	li	a1, 0
	call	memset
	ld	a0, 544(sp)
	slli	a0, a0, 2
.Lpcrel_hi78:
	auipc	a1, %pcrel_hi(.LJTIf83f1_0)
	addi	a1, a1, %pcrel_lo(.Lpcrel_hi78)
	add	a0, a0, a1
	lw	a0, 0(a0)
	add	a0, a0, a1
	jr	a0
.LBBf83f1_29:
	ld	a0, 528(sp)
	ld	s0, 520(sp)
	ld	a1, 536(sp)
	bnez	a1, .LBBf83f1_33
	j	.LBBf83f1_34
.LBBf83f1_30:
	ld	s0, 264(sp)
	slli	s0, s0, 8
	ld	a1, 280(sp)
	slli	a1, a1, 16
	ld	a2, 272(sp)
	slli	a2, a2, 24
	ld	a3, 288(sp)
	slli	a3, a3, 8
	ld	a4, 304(sp)
	slli	a4, a4, 16
	ld	a5, 296(sp)
	slli	a5, a5, 24
	ld	a0, 320(sp)
	or	a0, a0, s0
	or	a1, a1, a2
	ld	a2, 312(sp)
	j	.LBBf83f1_40
.LBBf83f1_31:
	ld	t4, 128(sp)
	ld	ra, 88(sp)
	ld	s6, 104(sp)
	mv	s4, s3
	mv	t6, s11
	mv	t5, s2
	ld	t3, 144(sp)
	slli	s10, s10, 8
	slli	s7, s7, 16
	slli	s9, s9, 24
	slli	s5, s5, 8
	slli	s8, s8, 16
	ld	s3, 80(sp)
	slli	s3, s3, 24
	ld	s2, 96(sp)
	slli	s2, s2, 8
	ld	s11, 120(sp)
	slli	s11, s11, 16
	ld	a6, 112(sp)
	slli	a6, a6, 24
	ld	a7, 136(sp)
	slli	a7, a7, 8
	ld	t0, 160(sp)
	slli	t0, t0, 16
	ld	t1, 152(sp)
	slli	t1, t1, 24
	ld	a0, 240(sp)
	or	t2, s10, a0
	or	a5, s9, s7
	ld	a0, 232(sp)
	or	s0, s5, a0
	or	a0, s3, s8
	ld	a1, 224(sp)
	or	a1, s2, a1
	or	a2, a6, s11
	ld	a3, 200(sp)
	or	a3, a7, a3
	or	a4, t1, t0
	or	a5, a5, t2
	or	a0, a0, s0
	or	a1, a1, a2
	or	a3, a3, a4
	slli	a0, a0, 32
	or	a0, a0, a5
	slli	a3, a3, 32
	or	s0, a3, a1
	beqz	a0, .LBBf83f1_34
	slli	a0, t4, 8
	slli	a1, s6, 16
	slli	a2, ra, 24
	slli	a3, s4, 8
	slli	a4, t5, 16
	slli	a5, t6, 24
	or	a0, a0, t3
	or	a1, a1, a2
	ld	a2, 56(sp)
	or	a2, a2, a3
	or	a4, a4, a5
	or	a0, a0, a1
	or	a2, a2, a4
	slli	a2, a2, 32
	or	a0, a0, a2
.LBBf83f1_33:
	call	rattle_dealloc
.LBBf83f1_34:
	mv	a0, s0
	j	.LBBf83f1_41
.LBBf83f1_35:
	ld	s0, 168(sp)
	slli	s0, s0, 8
	ld	a1, 184(sp)
	slli	a1, a1, 16
	ld	a2, 176(sp)
	slli	a2, a2, 24
	ld	a3, 192(sp)
	slli	a3, a3, 8
	ld	a4, 216(sp)
	slli	a4, a4, 16
	ld	a5, 208(sp)
	slli	a5, a5, 24
	ld	a0, 256(sp)
	or	a0, a0, s0
	or	a1, a1, a2
	ld	a2, 248(sp)
	or	a2, a2, a3
	or	a4, a4, a5
	or	a0, a0, a1
	or	a2, a2, a4
	slli	a2, a2, 32
	or	a0, a0, a2
	beqz	a0, .LBBf83f1_42
	ld	s0, 8(sp)
	slli	s0, s0, 8
	ld	a1, 24(sp)
	slli	a1, a1, 16
	ld	a2, 16(sp)
	slli	a2, a2, 24
	ld	a3, 32(sp)
	slli	a3, a3, 8
	ld	a4, 48(sp)
	slli	a4, a4, 16
	ld	a5, 40(sp)
	slli	a5, a5, 24
	ld	a0, 72(sp)
	or	a0, a0, s0
	or	a1, a1, a2
	ld	a2, 64(sp)
	j	.LBBf83f1_40
.LBBf83f1_37:
	ld	s0, 456(sp)
	slli	s0, s0, 8
	ld	a1, 472(sp)
	slli	a1, a1, 16
	ld	a2, 464(sp)
	slli	a2, a2, 24
	ld	a3, 480(sp)
	slli	a3, a3, 8
	ld	a4, 496(sp)
	slli	a4, a4, 16
	ld	a5, 488(sp)
	slli	a5, a5, 24
	ld	a0, 512(sp)
	or	a0, a0, s0
	or	a1, a1, a2
	ld	a2, 504(sp)
	j	.LBBf83f1_40
.LBBf83f1_38:
	ld	s0, 424(sp)
	slli	s0, s0, 8
	ld	a1, 440(sp)
	slli	a1, a1, 16
	ld	a2, 432(sp)
	slli	a2, a2, 24
	ld	a3, 392(sp)
	slli	a3, a3, 8
	ld	a4, 408(sp)
	slli	a4, a4, 16
	ld	a5, 400(sp)
	slli	a5, a5, 24
	ld	a0, 448(sp)
	or	a0, a0, s0
	or	a1, a1, a2
	ld	a2, 416(sp)
	j	.LBBf83f1_40
.LBBf83f1_39:
	ld	s0, 352(sp)
	slli	s0, s0, 8
	ld	a1, 368(sp)
	slli	a1, a1, 16
	ld	a2, 360(sp)
	slli	a2, a2, 24
	ld	a3, 328(sp)
	slli	a3, a3, 8
	ld	a4, 344(sp)
	slli	a4, a4, 16
	ld	a5, 336(sp)
	slli	a5, a5, 24
	ld	a0, 384(sp)
	or	a0, a0, s0
	or	a1, a1, a2
	ld	a2, 376(sp)
.LBBf83f1_40:
	or	a2, a2, a3
	or	a4, a4, a5
	or	a0, a0, a1
	or	a2, a2, a4
	slli	a2, a2, 32
	or	a0, a0, a2
.LBBf83f1_41:
	call	rattle_dealloc
.LBBf83f1_42:
	li	a0, 0
	sb	zero, 585(s1)
.LBBf83f1_43:
	addi	sp, sp, 2032
	addi	sp, sp, 1616
	ld	ra, 2024(sp)
	ld	s0, 2016(sp)
	ld	s1, 2008(sp)
	ld	s2, 2000(sp)
	ld	s3, 1992(sp)
	ld	s4, 1984(sp)
	ld	s5, 1976(sp)
	ld	s6, 1968(sp)
	ld	s7, 1960(sp)
	ld	s8, 1952(sp)
	ld	s9, 1944(sp)
	ld	s10, 1936(sp)
	ld	s11, 1928(sp)
	addi	sp, sp, 2032
	ret
.Lfunc_endf83f1:
	.size	tuv_peer_method_begin, .Lfunc_endf83f1-tuv_peer_method_begin
	.section	.rodata.tuv_peer_method_begin,"a",@progbits
	.p2align	2, 0x0
.LJTIf83f1_0:
	.word	.LBBf83f1_42-.LJTIf83f1_0
	.word	.LBBf83f1_37-.LJTIf83f1_0
	.word	.LBBf83f1_30-.LJTIf83f1_0
	.word	.LBBf83f1_35-.LJTIf83f1_0
	.word	.LBBf83f1_29-.LJTIf83f1_0
	.word	.LBBf83f1_29-.LJTIf83f1_0
	.word	.LBBf83f1_38-.LJTIf83f1_0
	.word	.LBBf83f1_31-.LJTIf83f1_0
	.word	.LBBf83f1_39-.LJTIf83f1_0

	.section	.text.tuv_peer_method_handle,"ax",@progbits
	.globl	tuv_peer_method_handle
	.p2align	1
	.type	tuv_peer_method_handle,@function
tuv_peer_method_handle:
	addi	sp, sp, -1584
	sd	ra, 1576(sp)
	sd	s0, 1568(sp)
	sd	s1, 1560(sp)
	sd	s2, 1552(sp)
	sd	s3, 1544(sp)
	ld	s0, 0(a0)
	lbu	a3, 0(s0)
	li	a0, 1
	bne	a3, a0, .LBBf7a7f_3
	lbu	a0, 8(s0)
	seqz	a3, a1
	slli	a3, a3, 12
	add	a1, a1, a3
	beqz	a0, .LBBf7a7f_4
	li	s1, 51
	j	.LBBf7a7f_5
.LBBf7a7f_3:
	li	s2, 0
	li	a2, 0
	li	a1, 0
	li	s3, 0
	li	s1, 0
	addi	a3, s0, 2047
	sb	zero, 585(a3)
	j	.LBBf7a7f_14
.LBBf7a7f_4:
	li	s1, 47
.LBBf7a7f_5:
	sd	zero, 64(sp)
	sd	zero, 72(sp)
	sd	zero, 32(sp)
	sd	zero, 40(sp)
	sd	zero, 48(sp)
	sd	zero, 56(sp)
	addi	a0, sp, 32
	call	eap_packet.packet.decode
	lbu	a0, 32(sp)
	li	a1, 1
	bne	a0, a1, .LBBf7a7f_7
	lbu	a1, 33(sp)
	j	.LBBf7a7f_13
.LBBf7a7f_7:
	lbu	a0, 40(sp)
	beqz	a0, .LBBf7a7f_9
	li	a1, 7
	j	.LBBf7a7f_13
.LBBf7a7f_9:
	lbu	a0, 42(sp)
	bne	a0, s1, .LBBf7a7f_12
	ld	s3, 64(sp)
	ld	s1, 72(sp)
	addi	s2, s0, 8
	addi	a0, sp, 32
	li	a2, 1512
	li	a1, 0
	call	memset
	sd	zero, 16(sp)
	sd	zero, 24(sp)
	addi	a0, sp, 13
	addi	a4, sp, 32
	addi	a5, sp, 16
	mv	a1, s2
	mv	a2, s3
	mv	a3, s1
	call	end_objects.objects.PeerObjectPeerMethod.handle_unrecorded
	lbu	a0, 13(sp)
	lbu	s3, 14(sp)
	beqz	a0, .LBBf7a7f_15
	lbu	s1, 15(sp)
	ld	a2, 1536(sp)
	ld	a0, 1328(s0)
	addi	a1, s0, 2047
	li	s2, 1
	sb	s2, 585(a1)
	addi	a1, sp, 32
	call	octet_lists.octets.Octets.set.__1500_
	li	a2, 0
	li	a0, 0
	li	a1, 0
	j	.LBBf7a7f_14
.LBBf7a7f_12:
	li	a1, 11
.LBBf7a7f_13:
	li	s2, 0
	li	a0, 0
	li	s3, 0
	li	s1, 0
	addi	a2, s0, 2047
	sb	zero, 585(a2)
	li	a2, 1
.LBBf7a7f_14:
	slli	s1, s1, 40
	slli	s3, s3, 32
	slli	a1, a1, 24
	slli	a0, a0, 16
	slli	a2, a2, 8
	or	a3, s1, s3
	or	a1, a1, a3
	or	a0, a0, a2
	or	a0, a0, a1
	or	a0, a0, s2
	ld	ra, 1576(sp)
	ld	s0, 1568(sp)
	ld	s1, 1560(sp)
	ld	s2, 1552(sp)
	ld	s3, 1544(sp)
	addi	sp, sp, 1584
	ret
.LBBf7a7f_15:
	li	s2, 0
	li	s1, 0
	addi	a1, s0, 2047
	sb	zero, 585(a1)
	li	a2, 1
	mv	a1, s3
	li	s3, 0
	j	.LBBf7a7f_14
.Lfunc_endf7a7f:
	.size	tuv_peer_method_handle, .Lfunc_endf7a7f-tuv_peer_method_handle

	.section	.text.tuv_peer_restart,"ax",@progbits
	.globl	tuv_peer_restart
	.p2align	1
	.type	tuv_peer_restart,@function
tuv_peer_restart:
	addi	sp, sp, -16
	sd	ra, 8(sp)
	ld	a2, 0(a0)
	mv	a3, a1
	mv	a0, sp
	mv	a1, a2
	mv	a2, a3
	call	tuvaddri_c.restart.restart_peer
	lbu	a0, 4(sp)
	lwu	a1, 0(sp)
	slli	a0, a0, 32
	or	a0, a0, a1
	ld	ra, 8(sp)
	addi	sp, sp, 16
	ret
.Lfunc_end9a4cc:
	.size	tuv_peer_restart, .Lfunc_end9a4cc-tuv_peer_restart

	.section	.text.tuv_port_aaa_timeout,"ax",@progbits
	.globl	tuv_port_aaa_timeout
	.p2align	1
	.type	tuv_port_aaa_timeout,@function
tuv_port_aaa_timeout:
	addi	sp, sp, -1568
	sd	ra, 1560(sp)
	sd	s0, 1552(sp)
	sd	s1, 1544(sp)
	ld	s1, 0(a0)
	lbu	a0, 0(s1)
	li	a1, 8
	sd	zero, 8(sp)
	bne	a0, a1, .LBB2bcdc_4
	addi	s0, s1, 8
	addi	a0, sp, 24
	li	a2, 1512
	li	a1, 0
	call	memset
	lbu	a0, 29(s1)
	li	a1, 1
	bne	a0, a1, .LBB2bcdc_5
	lbu	a0, 34(s1)
	li	a1, 23
	bne	a0, a1, .LBB2bcdc_5
	addi	a0, sp, 1541
	addi	a2, sp, 24
	mv	a1, s0
	call	switch_port.machine.SwitchPort.connect
	lbu	a2, 1541(sp)
	lbu	a1, 1542(sp)
	lbu	a0, 1543(sp)
	ld	a3, 1528(sp)
	j	.LBB2bcdc_6
.LBB2bcdc_4:
	addi	a0, s1, 2047
	sb	zero, 585(a0)
	lui	a0, 4096
	sd	a0, 8(sp)
	j	.LBB2bcdc_7
.LBB2bcdc_5:
	li	a3, 0
	li	a0, 0
	li	a1, 0
	li	a2, 0
.LBB2bcdc_6:
	ld	a5, 1560(s1)
	sb	a2, 21(sp)
	sb	a1, 22(sp)
	sb	a0, 23(sp)
	addi	a0, s1, 2047
	addi	a6, a0, 585
	addi	a0, sp, 8
	addi	a1, sp, 21
	addi	a2, sp, 24
	mv	a4, s0
	call	tuvaddri_c.port_turn.TuvPortTurn.of
.LBB2bcdc_7:
	ld	a0, 8(sp)
	ld	ra, 1560(sp)
	ld	s0, 1552(sp)
	ld	s1, 1544(sp)
	addi	sp, sp, 1568
	ret
.Lfunc_end2bcdc:
	.size	tuv_port_aaa_timeout, .Lfunc_end2bcdc-tuv_port_aaa_timeout

	.section	.text.tuv_port_answer,"ax",@progbits
	.globl	tuv_port_answer
	.p2align	1
	.type	tuv_port_answer,@function
tuv_port_answer:
	addi	sp, sp, -1680
	sd	ra, 1672(sp)
	sd	s0, 1664(sp)
	sd	s1, 1656(sp)
	sd	s2, 1648(sp)
	sd	s3, 1640(sp)
	sd	s4, 1632(sp)
	sd	s5, 1624(sp)
	sd	s6, 1616(sp)
	sd	s7, 1608(sp)
	ld	s0, 0(a0)
	zext.b	a0, a1
	li	a1, 2
	sd	zero, 16(sp)
	beq	a0, a1, .LBBc39ca_5
	li	a1, 3
	beq	a0, a1, .LBBc39ca_4
	li	a1, 11
	bne	a0, a1, .LBBc39ca_16
	li	s7, 0
	li	s6, 1
	j	.LBBc39ca_6
.LBBc39ca_4:
	li	s6, 0
	li	s7, 2
	j	.LBBc39ca_6
.LBBc39ca_5:
	li	s6, 0
	li	s7, 1
.LBBc39ca_6:
	lbu	a0, 0(s0)
	li	a1, 8
	bne	a0, a1, .LBBc39ca_12
	mv	s1, a2
	mv	s4, a3
	addi	s3, s0, 8
	addi	a0, sp, 24
	li	a2, 1512
	li	a1, 0
	call	memset
	lbu	a1, 29(s0)
	sd	zero, 1536(sp)
	sd	zero, 1544(sp)
	sd	zero, 1552(sp)
	li	s5, 3
	li	a2, 1
	li	a0, 2
	bne	a1, a2, .LBBc39ca_13
	lbu	a1, 34(s0)
	li	a2, 23
	bne	a1, a2, .LBBc39ca_13
	seqz	a0, s1
	sd	zero, 1592(sp)
	sd	zero, 1600(sp)
	slli	a0, a0, 12
	add	s2, s1, a0
	sd	zero, 1560(sp)
	sd	zero, 1568(sp)
	sd	zero, 1576(sp)
	sd	zero, 1584(sp)
	addi	a0, sp, 1560
	mv	a1, s2
	mv	a2, s4
	call	eap_packet.packet.decode
	lbu	a0, 1560(sp)
	beqz	a0, .LBBc39ca_18
.LBBc39ca_10:
	beqz	s6, .LBBc39ca_31
	li	s7, 0
	li	a0, 4
	j	.LBBc39ca_14
.LBBc39ca_12:
	addi	a0, s0, 2047
	sb	zero, 585(a0)
	lui	a0, 4096
	sd	a0, 16(sp)
	j	.LBBc39ca_15
.LBBc39ca_13:
	li	s7, 0
.LBBc39ca_14:
	ld	a5, 1560(s0)
	sb	s5, 1560(sp)
	sb	a0, 1561(sp)
	sb	zero, 1562(sp)
	addi	a0, s0, 2047
	addi	a6, a0, 585
	addi	a0, sp, 16
	addi	a1, sp, 1560
	addi	a2, sp, 24
	mv	a3, s7
	mv	a4, s3
	call	tuvaddri_c.port_turn.TuvPortTurn.of
.LBBc39ca_15:
	ld	a0, 16(sp)
	j	.LBBc39ca_17
.LBBc39ca_16:
	addi	a0, s0, 2047
	sb	zero, 585(a0)
	lui	a0, 4096
.LBBc39ca_17:
	ld	ra, 1672(sp)
	ld	s0, 1664(sp)
	ld	s1, 1656(sp)
	ld	s2, 1648(sp)
	ld	s3, 1640(sp)
	ld	s4, 1632(sp)
	ld	s5, 1624(sp)
	ld	s6, 1616(sp)
	ld	s7, 1608(sp)
	addi	sp, sp, 1680
	ret
.LBBc39ca_18:
	lbu	a0, 1568(sp)
	li	a1, 1
	blt	a1, a0, .LBBc39ca_22
	bnez	a0, .LBBc39ca_10
	beqz	s6, .LBBc39ca_31
	addi	a1, s0, 32
	addi	a0, sp, 1536
	addi	a4, sp, 24
	mv	a2, s2
	mv	a3, s4
	call	pass_through.machine.PassThrough.from_backend_step
	lw	a0, 16(s0)
	j	.LBBc39ca_26
.LBBc39ca_22:
	li	s5, 3
	bne	a0, s5, .LBBc39ca_27
	beqz	s7, .LBBc39ca_32
	li	a0, 2
	bne	s7, a0, .LBBc39ca_31
	addi	a1, s0, 32
	addi	a0, sp, 1536
	addi	a4, sp, 24
	mv	a2, s2
	mv	a3, s4
	call	pass_through.machine.PassThrough.from_backend_step
	lw	a0, 8(s0)
	li	a1, 3
	sb	a1, 29(s0)
	sb	zero, 30(s0)
.LBBc39ca_26:
	sw	a0, 1556(s0)
	j	.LBBc39ca_30
.LBBc39ca_27:
	beqz	s7, .LBBc39ca_33
	li	s1, 1
	bne	s7, s1, .LBBc39ca_31
	addi	a1, s0, 32
	addi	a0, sp, 1536
	addi	a4, sp, 24
	mv	a2, s2
	mv	a3, s4
	call	pass_through.machine.PassThrough.from_backend_step
	li	a0, 2
	lw	a1, 20(s0)
	sb	a0, 29(s0)
	sb	s1, 30(s0)
	sb	zero, 1552(s0)
	sw	a1, 1556(s0)
.LBBc39ca_30:
	lbu	s5, 1554(sp)
	ld	s7, 1528(sp)
	li	a0, 0
	j	.LBBc39ca_14
.LBBc39ca_31:
	li	s7, 0
	li	a0, 0
	li	s5, 0
	lw	a1, 8(s0)
	sw	a1, 1556(s0)
	li	a1, 3
	sb	a1, 29(s0)
	sb	zero, 30(s0)
	j	.LBBc39ca_14
.LBBc39ca_32:
	li	a0, 4
	j	.LBBc39ca_14
.LBBc39ca_33:
	li	s5, 3
	li	a0, 4
	j	.LBBc39ca_14
.Lfunc_endc39ca:
	.size	tuv_port_answer, .Lfunc_endc39ca-tuv_port_answer

	.section	.text.tuv_port_begin,"ax",@progbits
	.globl	tuv_port_begin
	.p2align	1
	.type	tuv_port_begin,@function
tuv_port_begin:
	addi	sp, sp, -656
	sd	ra, 648(sp)
	sd	s0, 640(sp)
	sd	s1, 632(sp)
	sd	s2, 624(sp)
	sd	s3, 616(sp)
	sd	s4, 608(sp)
	sd	s5, 600(sp)
	sd	s6, 592(sp)
	sd	s7, 584(sp)
	sd	s8, 576(sp)
	sd	s9, 568(sp)
	sd	s10, 560(sp)
	sd	s11, 552(sp)
	mv	s4, a2
	mv	s2, a1
	zext.b	a1, a2
	li	a2, 10
	bgeu	a2, a1, .LBBd6ea2_2
	li	a0, 7
	j	.LBBd6ea2_19
.LBBd6ea2_2:
	mv	s0, a3
	mv	s1, a0
	call	tuvaddri_c.sent.empty_frame
	zext.b	a0, a0
	li	a2, 1
	bne	a0, a2, .LBBd6ea2_5
	mv	s3, a1
	ld	s1, 0(s1)
	lw	a4, 0(s0)
	lw	a2, 4(s0)
	lw	a1, 8(s0)
	lw	a0, 12(s0)
	lbu	a6, 16(s0)
	li	a5, 8
	addi	s0, s1, 2047
	lbu	a3, 0(s1)
	sd	a3, 544(sp)
	lbu	s5, 8(s1)
	lbu	s10, 9(s1)
	lbu	s11, 10(s1)
	lbu	s9, 11(s1)
	lbu	s8, 12(s1)
	lbu	ra, 13(s1)
	lbu	t3, 14(s1)
	lbu	t4, 15(s1)
	lbu	t1, 24(s1)
	lbu	s6, 25(s1)
	lbu	t5, 26(s1)
	lbu	t6, 27(s1)
	lbu	t2, 28(s1)
	lbu	s7, 29(s1)
	lbu	t0, 30(s1)
	lbu	a7, 31(s1)
	sb	a5, 0(s1)
	srli	a5, a4, 16
	srli	a3, a4, 8
	sb	a6, 24(s1)
	sb	s2, 32(s1)
	sb	s4, 33(s1)
	sb	a4, 8(s1)
	sb	a3, 9(s1)
	lbu	a3, 1328(s1)
	sd	a3, 512(sp)
	lbu	a3, 1329(s1)
	sd	a3, 488(sp)
	lbu	a3, 1330(s1)
	sd	a3, 504(sp)
	lbu	a3, 1331(s1)
	sd	a3, 496(sp)
	srli	a4, a4, 24
	sb	a5, 10(s1)
	srli	a3, a2, 24
	sb	a4, 11(s1)
	srli	a4, a2, 8
	sb	a2, 12(s1)
	srli	a2, a2, 16
	sb	a4, 13(s1)
	srli	a4, a1, 24
	sb	a2, 14(s1)
	srli	a2, a1, 8
	sb	a1, 16(s1)
	srli	a1, a1, 16
	sb	a3, 15(s1)
	srli	a3, a0, 24
	sb	a2, 17(s1)
	srli	a2, a0, 16
	sb	a1, 18(s1)
	srli	a1, a0, 8
	sb	a4, 19(s1)
	sb	a0, 20(s1)
	sb	a1, 21(s1)
	sb	a2, 22(s1)
	lbu	a0, 1332(s1)
	sd	a0, 480(sp)
	lbu	a0, 1333(s1)
	sd	a0, 456(sp)
	lbu	a0, 1334(s1)
	sd	a0, 472(sp)
	lbu	a0, 1335(s1)
	sd	a0, 464(sp)
	sb	a3, 23(s1)
	slli	s10, s10, 8
	slli	s11, s11, 16
	slli	s9, s9, 24
	slli	ra, ra, 8
	or	a6, s10, s5
	or	s2, s9, s11
	or	s4, ra, s8
	lbu	a0, 1528(s1)
	sd	a0, 448(sp)
	lbu	a0, 1529(s1)
	sd	a0, 424(sp)
	lbu	a0, 1530(s1)
	sd	a0, 440(sp)
	lbu	a0, 1531(s1)
	sd	a0, 432(sp)
	slli	t3, t3, 16
	slli	t4, t4, 24
	slli	s6, s6, 8
	slli	t5, t5, 16
	slli	t6, t6, 24
	slli	s7, s7, 8
	or	a3, t4, t3
	or	a4, s6, t1
	or	a5, t6, t5
	or	t1, s7, t2
	lbu	t2, 577(s0)
	lbu	a2, 578(s0)
	lbu	t3, 579(s0)
	lbu	a1, 580(s0)
	slli	t0, t0, 16
	slli	a7, a7, 24
	or	a0, a7, t0
	or	a6, s2, a6
	or	t0, a3, s4
	or	a7, a5, a4
	lbu	a5, 581(s0)
	lbu	a4, 582(s0)
	lbu	a3, 583(s0)
	lbu	t4, 584(s0)
	slli	a2, a2, 8
	slli	t3, t3, 16
	slli	a1, a1, 24
	slli	a4, a4, 8
	or	a0, a0, t1
	or	a2, a2, t2
	or	a1, a1, t3
	or	a4, a4, a5
	lbu	a5, 1532(s1)
	sd	a5, 416(sp)
	lbu	a5, 1533(s1)
	sd	a5, 392(sp)
	lbu	a5, 1534(s1)
	sd	a5, 408(sp)
	lbu	a5, 1535(s1)
	sd	a5, 400(sp)
	slli	a3, a3, 16
	slli	t4, t4, 24
	or	a3, t4, a3
	slli	t0, t0, 32
	or	a1, a1, a2
	or	a3, a3, a4
	or	a2, t0, a6
	sd	a2, 536(sp)
	lbu	a2, 1560(s1)
	sd	a2, 384(sp)
	lbu	a2, 1561(s1)
	sd	a2, 360(sp)
	lbu	a2, 1562(s1)
	sd	a2, 376(sp)
	lbu	a2, 1563(s1)
	sd	a2, 368(sp)
	sb	zero, 4(s1)
	sb	zero, 5(s1)
	sb	zero, 6(s1)
	sb	zero, 7(s1)
	sb	zero, 1(s1)
	sb	zero, 2(s1)
	sb	zero, 3(s1)
	sb	zero, 25(s1)
	sb	zero, 26(s1)
	sb	zero, 27(s1)
	sb	zero, 28(s1)
	sb	zero, 29(s1)
	sb	zero, 30(s1)
	slli	a0, a0, 32
	or	a0, a0, a7
	sd	a0, 528(sp)
	slli	a3, a3, 32
	or	a1, a1, a3
	sd	a1, 520(sp)
	lbu	a0, 1564(s1)
	sd	a0, 352(sp)
	lbu	a0, 1565(s1)
	sd	a0, 320(sp)
	lbu	a0, 1566(s1)
	sd	a0, 344(sp)
	lbu	a0, 1567(s1)
	sd	a0, 336(sp)
	lbu	a0, 1976(s1)
	sd	a0, 328(sp)
	lbu	a0, 1977(s1)
	sd	a0, 264(sp)
	lbu	a0, 1978(s1)
	sd	a0, 280(sp)
	lbu	a0, 1979(s1)
	sd	a0, 272(sp)
	lbu	a0, 1980(s1)
	sd	a0, 312(sp)
	lbu	a0, 1981(s1)
	sd	a0, 288(sp)
	lbu	a0, 1982(s1)
	sd	a0, 304(sp)
	lbu	a0, 1983(s1)
	sd	a0, 296(sp)
	lbu	a0, 249(s0)
	sd	a0, 72(sp)
	lbu	a0, 250(s0)
	sd	a0, 8(sp)
	lbu	a0, 251(s0)
	sd	a0, 24(sp)
	lbu	a0, 252(s0)
	sd	a0, 16(sp)
	lbu	a0, 253(s0)
	sd	a0, 64(sp)
	lbu	a0, 254(s0)
	sd	a0, 32(sp)
	lbu	a0, 255(s0)
	sd	a0, 48(sp)
	lbu	a0, 256(s0)
	sd	a0, 40(sp)
	lbu	a0, 265(s0)
	sd	a0, 256(sp)
	lbu	a0, 266(s0)
	sd	a0, 168(sp)
	lbu	a0, 267(s0)
	sd	a0, 184(sp)
	lbu	a0, 268(s0)
	sd	a0, 176(sp)
	lbu	a0, 269(s0)
	sd	a0, 248(sp)
	lbu	a0, 270(s0)
	sd	a0, 192(sp)
	lbu	a0, 271(s0)
	sd	a0, 216(sp)
	lbu	a0, 272(s0)
	sd	a0, 208(sp)
	lbu	a0, 281(s0)
	sd	a0, 144(sp)
	lbu	a0, 282(s0)
	sd	a0, 128(sp)
	lbu	a0, 283(s0)
	sd	a0, 104(sp)
	lbu	a0, 284(s0)
	sd	a0, 88(sp)
	lbu	a0, 285(s0)
	sd	a0, 56(sp)
	lbu	s8, 286(s0)
	lbu	s2, 287(s0)
	lbu	s11, 288(s0)
	lbu	a0, 297(s0)
	sd	a0, 240(sp)
	lbu	s9, 298(s0)
	lbu	s6, 299(s0)
	lbu	s7, 300(s0)
	lbu	a0, 301(s0)
	sd	a0, 232(sp)
	lbu	s4, 302(s0)
	lbu	a0, 303(s0)
	sd	a0, 80(sp)
	lbu	s10, 304(s0)
	lbu	a0, 305(s0)
	sd	a0, 224(sp)
	lbu	a0, 306(s0)
	sd	a0, 96(sp)
	lbu	a0, 307(s0)
	sd	a0, 120(sp)
	lbu	a0, 308(s0)
	sd	a0, 112(sp)
	lbu	a0, 309(s0)
	sd	a0, 200(sp)
	lbu	a0, 310(s0)
	sd	a0, 136(sp)
	lbu	a0, 311(s0)
	sd	a0, 160(sp)
	lbu	a0, 312(s0)
	sd	a0, 152(sp)
	sb	zero, 31(s1)
	addi	s5, s1, 1568
	addi	a0, s1, 34
	li	a2, 1526
	li	a1, 0
	call	memset
	srli	a0, s3, 56
	srli	a1, s3, 48
	srli	a2, s3, 40
	srli	a3, s3, 32
	srli	a4, s3, 24
	srli	a5, s3, 16
	sb	a3, 1564(s1)
	sb	a2, 1565(s1)
	sb	a1, 1566(s1)
	sb	a0, 1567(s1)
	srli	a0, s3, 8
	sb	s3, 1560(s1)
	sb	a0, 1561(s1)
	sb	a5, 1562(s1)
	sb	a4, 1563(s1)
	li	a2, 1064
	mv	a0, s5
	li	a1, 0
	call	memset
	ld	a0, 544(sp)
	slli	a0, a0, 2
.Lpcrel_hi79:
	auipc	a1, %pcrel_hi(.LJTId6ea2_0)
	addi	a1, a1, %pcrel_lo(.Lpcrel_hi79)
	add	a0, a0, a1
	lw	a0, 0(a0)
	add	a0, a0, a1
	jr	a0
.LBBd6ea2_4:
	ld	s1, 520(sp)
	ld	a0, 536(sp)
	ld	a1, 528(sp)
	bnez	a1, .LBBd6ea2_9
	j	.LBBd6ea2_10
.LBBd6ea2_5:
	li	a0, 8
	j	.LBBd6ea2_19
.LBBd6ea2_6:
	ld	s1, 264(sp)
	slli	s1, s1, 8
	ld	a1, 280(sp)
	slli	a1, a1, 16
	ld	a2, 272(sp)
	slli	a2, a2, 24
	ld	a3, 288(sp)
	slli	a3, a3, 8
	ld	a4, 304(sp)
	slli	a4, a4, 16
	ld	a5, 296(sp)
	slli	a5, a5, 24
	ld	a0, 328(sp)
	or	a0, a0, s1
	or	a1, a1, a2
	ld	a2, 312(sp)
	j	.LBBd6ea2_16
.LBBd6ea2_7:
	ld	t4, 128(sp)
	ld	ra, 88(sp)
	ld	s5, 104(sp)
	mv	s3, s8
	mv	t6, s11
	mv	t5, s2
	ld	t3, 144(sp)
	slli	s9, s9, 8
	slli	s6, s6, 16
	slli	s7, s7, 24
	slli	s4, s4, 8
	ld	s8, 80(sp)
	slli	s8, s8, 16
	slli	s10, s10, 24
	ld	s2, 96(sp)
	slli	s2, s2, 8
	ld	s11, 120(sp)
	slli	s11, s11, 16
	ld	a6, 112(sp)
	slli	a6, a6, 24
	ld	a7, 136(sp)
	slli	a7, a7, 8
	ld	t0, 160(sp)
	slli	t0, t0, 16
	ld	t1, 152(sp)
	slli	t1, t1, 24
	ld	a0, 240(sp)
	or	t2, s9, a0
	or	a5, s7, s6
	ld	a0, 232(sp)
	or	s1, s4, a0
	or	a0, s10, s8
	ld	a1, 224(sp)
	or	a1, s2, a1
	or	a2, a6, s11
	ld	a3, 200(sp)
	or	a3, a7, a3
	or	a4, t1, t0
	or	a5, a5, t2
	or	a0, a0, s1
	or	a1, a1, a2
	or	a3, a3, a4
	slli	a0, a0, 32
	or	a0, a0, a5
	slli	a3, a3, 32
	or	s1, a3, a1
	beqz	a0, .LBBd6ea2_10
	slli	a0, t4, 8
	slli	a1, s5, 16
	slli	a2, ra, 24
	slli	a3, s3, 8
	slli	a4, t5, 16
	slli	a5, t6, 24
	or	a0, a0, t3
	or	a1, a1, a2
	ld	a2, 56(sp)
	or	a2, a2, a3
	or	a4, a4, a5
	or	a0, a0, a1
	or	a2, a2, a4
	slli	a2, a2, 32
	or	a0, a0, a2
.LBBd6ea2_9:
	call	rattle_dealloc
.LBBd6ea2_10:
	mv	a0, s1
	j	.LBBd6ea2_17
.LBBd6ea2_11:
	ld	s1, 168(sp)
	slli	s1, s1, 8
	ld	a1, 184(sp)
	slli	a1, a1, 16
	ld	a2, 176(sp)
	slli	a2, a2, 24
	ld	a3, 192(sp)
	slli	a3, a3, 8
	ld	a4, 216(sp)
	slli	a4, a4, 16
	ld	a5, 208(sp)
	slli	a5, a5, 24
	ld	a0, 256(sp)
	or	a0, a0, s1
	or	a1, a1, a2
	ld	a2, 248(sp)
	or	a2, a2, a3
	or	a4, a4, a5
	or	a0, a0, a1
	or	a2, a2, a4
	slli	a2, a2, 32
	or	a0, a0, a2
	beqz	a0, .LBBd6ea2_18
	ld	s1, 8(sp)
	slli	s1, s1, 8
	ld	a1, 24(sp)
	slli	a1, a1, 16
	ld	a2, 16(sp)
	slli	a2, a2, 24
	ld	a3, 32(sp)
	slli	a3, a3, 8
	ld	a4, 48(sp)
	slli	a4, a4, 16
	ld	a5, 40(sp)
	slli	a5, a5, 24
	ld	a0, 72(sp)
	or	a0, a0, s1
	or	a1, a1, a2
	ld	a2, 64(sp)
	j	.LBBd6ea2_16
.LBBd6ea2_13:
	ld	s1, 488(sp)
	slli	s1, s1, 8
	ld	a1, 504(sp)
	slli	a1, a1, 16
	ld	a2, 496(sp)
	slli	a2, a2, 24
	ld	a3, 456(sp)
	slli	a3, a3, 8
	ld	a4, 472(sp)
	slli	a4, a4, 16
	ld	a5, 464(sp)
	slli	a5, a5, 24
	ld	a0, 512(sp)
	or	a0, a0, s1
	or	a1, a1, a2
	ld	a2, 480(sp)
	j	.LBBd6ea2_16
.LBBd6ea2_14:
	ld	s1, 424(sp)
	slli	s1, s1, 8
	ld	a1, 440(sp)
	slli	a1, a1, 16
	ld	a2, 432(sp)
	slli	a2, a2, 24
	ld	a3, 392(sp)
	slli	a3, a3, 8
	ld	a4, 408(sp)
	slli	a4, a4, 16
	ld	a5, 400(sp)
	slli	a5, a5, 24
	ld	a0, 448(sp)
	or	a0, a0, s1
	or	a1, a1, a2
	ld	a2, 416(sp)
	j	.LBBd6ea2_16
.LBBd6ea2_15:
	ld	s1, 360(sp)
	slli	s1, s1, 8
	ld	a1, 376(sp)
	slli	a1, a1, 16
	ld	a2, 368(sp)
	slli	a2, a2, 24
	ld	a3, 320(sp)
	slli	a3, a3, 8
	ld	a4, 344(sp)
	slli	a4, a4, 16
	ld	a5, 336(sp)
	slli	a5, a5, 24
	ld	a0, 384(sp)
	or	a0, a0, s1
	or	a1, a1, a2
	ld	a2, 352(sp)
.LBBd6ea2_16:
	or	a2, a2, a3
	or	a4, a4, a5
	or	a0, a0, a1
	or	a2, a2, a4
	slli	a2, a2, 32
	or	a0, a0, a2
.LBBd6ea2_17:
	call	rattle_dealloc
.LBBd6ea2_18:
	li	a0, 0
	sb	zero, 585(s0)
.LBBd6ea2_19:
	ld	ra, 648(sp)
	ld	s0, 640(sp)
	ld	s1, 632(sp)
	ld	s2, 624(sp)
	ld	s3, 616(sp)
	ld	s4, 608(sp)
	ld	s5, 600(sp)
	ld	s6, 592(sp)
	ld	s7, 584(sp)
	ld	s8, 576(sp)
	ld	s9, 568(sp)
	ld	s10, 560(sp)
	ld	s11, 552(sp)
	addi	sp, sp, 656
	ret
.Lfunc_endd6ea2:
	.size	tuv_port_begin, .Lfunc_endd6ea2-tuv_port_begin
	.section	.rodata.tuv_port_begin,"a",@progbits
	.p2align	2, 0x0
.LJTId6ea2_0:
	.word	.LBBd6ea2_18-.LJTId6ea2_0
	.word	.LBBd6ea2_13-.LJTId6ea2_0
	.word	.LBBd6ea2_6-.LJTId6ea2_0
	.word	.LBBd6ea2_11-.LJTId6ea2_0
	.word	.LBBd6ea2_4-.LJTId6ea2_0
	.word	.LBBd6ea2_4-.LJTId6ea2_0
	.word	.LBBd6ea2_14-.LJTId6ea2_0
	.word	.LBBd6ea2_7-.LJTId6ea2_0
	.word	.LBBd6ea2_15-.LJTId6ea2_0

	.section	.text.tuv_port_control,"ax",@progbits
	.globl	tuv_port_control
	.p2align	1
	.type	tuv_port_control,@function
tuv_port_control:
	addi	sp, sp, -1584
	sd	ra, 1576(sp)
	sd	s0, 1568(sp)
	sd	s1, 1560(sp)
	sd	s2, 1552(sp)
	sd	s3, 1544(sp)
	ld	s1, 0(a0)
	addi	a1, a1, -1
	zext.b	a0, a1
	li	a2, 2
	sd	zero, 16(sp)
	bltu	a2, a0, .LBB1cd35_4
	lbu	a0, 0(s1)
	li	a2, 8
	bne	a0, a2, .LBB1cd35_5
	slli	a1, a1, 3
	lui	a0, 16
	addi	a0, a0, 2
	srl	s0, a0, a1
	zext.b	s3, s0
	addi	s2, s1, 8
	addi	a0, sp, 24
	li	a2, 1512
	li	a1, 0
	call	memset
	lbu	a0, 28(s1)
	bne	a0, s3, .LBB1cd35_6
	li	a3, 0
	li	a0, 0
	li	a1, 0
	li	a2, 0
	j	.LBB1cd35_9
.LBB1cd35_4:
	addi	a0, s1, 2047
	sb	zero, 585(a0)
	lui	a0, 4096
	j	.LBB1cd35_11
.LBB1cd35_5:
	addi	a0, s1, 2047
	sb	zero, 585(a0)
	lui	a0, 4096
	sd	a0, 16(sp)
	j	.LBB1cd35_10
.LBB1cd35_6:
	lbu	a0, 29(s1)
	sb	s0, 28(s1)
	sh	zero, 1540(sp)
	sb	zero, 1542(sp)
	beqz	a0, .LBB1cd35_8
	addi	a0, sp, 1540
	addi	a2, sp, 24
	mv	a1, s2
	call	switch_port.machine.SwitchPort.begin
	lbu	a0, 1540(sp)
	lbu	a1, 1541(sp)
	lbu	a2, 1542(sp)
	ld	a3, 1528(sp)
	j	.LBB1cd35_9
.LBB1cd35_8:
	li	a3, 0
	li	a2, 0
	li	a1, 0
	sb	zero, 30(s1)
.LBB1cd35_9:
	ld	a5, 1560(s1)
	sb	a0, 1540(sp)
	sb	a1, 1541(sp)
	sb	a2, 1542(sp)
	addi	a0, s1, 2047
	addi	a6, a0, 585
	addi	a0, sp, 16
	addi	a1, sp, 1540
	addi	a2, sp, 24
	mv	a4, s2
	call	tuvaddri_c.port_turn.TuvPortTurn.of
.LBB1cd35_10:
	ld	a0, 16(sp)
.LBB1cd35_11:
	ld	ra, 1576(sp)
	ld	s0, 1568(sp)
	ld	s1, 1560(sp)
	ld	s2, 1552(sp)
	ld	s3, 1544(sp)
	addi	sp, sp, 1584
	ret
.Lfunc_end1cd35:
	.size	tuv_port_control, .Lfunc_end1cd35-tuv_port_control

	.section	.text.tuv_port_frame,"ax",@progbits
	.globl	tuv_port_frame
	.p2align	1
	.type	tuv_port_frame,@function
tuv_port_frame:
	addi	sp, sp, -1600
	sd	ra, 1592(sp)
	sd	s0, 1584(sp)
	sd	s1, 1576(sp)
	sd	s2, 1568(sp)
	sd	s3, 1560(sp)
	mv	s0, a1
	ld	s3, 0(a0)
	lbu	a0, 0(s3)
	li	a1, 8
	sd	zero, 16(sp)
	bne	a0, a1, .LBBdda28_3
	mv	s1, a2
	addi	s2, s3, 8
	addi	a0, sp, 24
	li	a2, 1512
	li	a1, 0
	call	memset
	li	a0, 3
	bltu	a0, s1, .LBBdda28_4
	li	a1, 0
	li	a2, 0
	j	.LBBdda28_6
.LBBdda28_3:
	addi	a0, s3, 2047
	sb	zero, 585(a0)
	lui	a0, 4096
	sd	a0, 16(sp)
	j	.LBBdda28_7
.LBBdda28_4:
	seqz	a1, s0
	slli	a1, a1, 12
	add	a2, s0, a1
	lbu	a1, 2(a2)
	lbu	a3, 3(a2)
	slli	a1, a1, 8
	or	a3, a3, a1
	addi	s1, s1, -4
	bgeu	s1, a3, .LBBdda28_8
	li	a1, 0
	li	a2, 1
.LBBdda28_6:
	ld	a3, 1528(sp)
	ld	a5, 1560(s3)
	sb	a0, 1536(sp)
	sb	a1, 1537(sp)
	sb	a2, 1538(sp)
	addi	a0, s3, 2047
	addi	a6, a0, 585
	addi	a0, sp, 16
	addi	a1, sp, 1536
	addi	a2, sp, 24
	mv	a4, s2
	call	tuvaddri_c.port_turn.TuvPortTurn.of
.LBBdda28_7:
	ld	a0, 16(sp)
	ld	ra, 1592(sp)
	ld	s0, 1584(sp)
	ld	s1, 1576(sp)
	ld	s2, 1568(sp)
	ld	s3, 1560(sp)
	addi	sp, sp, 1600
	ret
.LBBdda28_8:
	lbu	a4, 1(a2)
	li	a1, 2
	beq	a4, a1, .LBBdda28_16
	li	a1, 1
	beq	a4, a1, .LBBdda28_14
	bnez	a4, .LBBdda28_19
	lbu	a0, 29(s3)
	li	s0, 1
	sd	zero, 1536(sp)
	sd	zero, 1544(sp)
	sd	zero, 1552(sp)
	bne	a0, s0, .LBBdda28_20
	addi	a2, a2, 4
	addi	a1, s3, 32
	addi	a0, sp, 1536
	addi	a4, sp, 24
	call	pass_through.machine.PassThrough.from_peer_step
	lbu	a0, 1552(sp)
	bne	a0, s0, .LBBdda28_24
	lbu	a2, 1553(sp)
	li	a0, 3
	li	a1, 3
	j	.LBBdda28_6
.LBBdda28_14:
	lbu	a0, 29(s3)
.Lpcrel_hi80:
	auipc	a1, %pcrel_hi(.LJTIdda28_0)
	addi	a1, a1, %pcrel_lo(.Lpcrel_hi80)
	slli	a0, a0, 2
	add	a0, a0, a1
	lw	a0, 0(a0)
	add	a0, a0, a1
	sh	zero, 1536(sp)
	sb	zero, 1538(sp)
	jr	a0
.LBBdda28_15:
	li	a0, 515
	sh	a0, 1536(sp)
	j	.LBBdda28_23
.LBBdda28_16:
	lbu	a3, 29(s3)
	li	a2, 0
	blt	a1, a3, .LBBdda28_6
	beqz	a3, .LBBdda28_6
	li	s0, 1
	sb	zero, 30(s3)
	sb	s0, 1552(s3)
	addi	a1, s3, 32
	sd	zero, 1552(sp)
	addi	a0, sp, 1536
	addi	a2, sp, 24
	call	pass_through.machine.PassThrough.initialize
	li	a1, 0
	li	a2, 0
	lw	a0, 16(s3)
	lbu	a3, 1554(sp)
	sb	s0, 29(s3)
	sw	a0, 1556(s3)
	andi	a0, a3, 1
	j	.LBBdda28_6
.LBBdda28_19:
	li	a2, 0
	li	a1, 1
	j	.LBBdda28_6
.LBBdda28_20:
	li	a2, 0
	li	a1, 2
	li	a0, 3
	j	.LBBdda28_6
.LBBdda28_21:
	addi	a0, sp, 1536
	addi	a2, sp, 24
	mv	a1, s2
	call	switch_port.machine.SwitchPort.connect
	j	.LBBdda28_23
.LBBdda28_22:
	addi	a0, sp, 1536
	addi	a2, sp, 24
	mv	a1, s2
	call	switch_port.machine.SwitchPort.begin
.LBBdda28_23:
	lbu	a0, 1536(sp)
	lbu	a1, 1537(sp)
	lbu	a2, 1538(sp)
	j	.LBBdda28_6
.LBBdda28_24:
	li	a1, 0
	li	a2, 0
	lw	a0, 12(s3)
	lbu	a3, 1554(sp)
	sw	a0, 1556(s3)
	slli	a0, a3, 1
	j	.LBBdda28_6
.Lfunc_enddda28:
	.size	tuv_port_frame, .Lfunc_enddda28-tuv_port_frame
	.section	.rodata.tuv_port_frame,"a",@progbits
	.p2align	2, 0x0
.LJTIdda28_0:
	.word	.LBBdda28_15-.LJTIdda28_0
	.word	.LBBdda28_21-.LJTIdda28_0
	.word	.LBBdda28_21-.LJTIdda28_0
	.word	.LBBdda28_15-.LJTIdda28_0
	.word	.LBBdda28_22-.LJTIdda28_0
	.word	.LBBdda28_22-.LJTIdda28_0

	.section	.text.tuv_port_link,"ax",@progbits
	.globl	tuv_port_link
	.p2align	1
	.type	tuv_port_link,@function
tuv_port_link:
	addi	sp, sp, -1584
	sd	ra, 1576(sp)
	sd	s0, 1568(sp)
	sd	s1, 1560(sp)
	sd	s2, 1552(sp)
	mv	s1, a1
	ld	s0, 0(a0)
	lbu	a0, 0(s0)
	li	a1, 8
	sd	zero, 16(sp)
	bne	a0, a1, .LBB3e1e0_4
	addi	s2, s0, 8
	addi	a0, sp, 32
	li	a2, 1512
	li	a1, 0
	call	memset
	zext.b	a0, s1
	sh	zero, 1548(sp)
	sb	zero, 1550(sp)
	beqz	a0, .LBB3e1e0_5
	lbu	a0, 29(s0)
	beqz	a0, .LBB3e1e0_6
	li	a3, 0
	li	a0, 0
	li	a1, 0
	li	a2, 0
	j	.LBB3e1e0_7
.LBB3e1e0_4:
	addi	a0, s0, 2047
	sb	zero, 585(a0)
	lui	a0, 4096
	sd	a0, 16(sp)
	j	.LBB3e1e0_8
.LBB3e1e0_5:
	li	a3, 0
	li	a1, 0
	li	a2, 0
	sb	zero, 29(s0)
	sb	zero, 30(s0)
	j	.LBB3e1e0_7
.LBB3e1e0_6:
	addi	a0, sp, 1548
	addi	a2, sp, 32
	mv	a1, s2
	call	switch_port.machine.SwitchPort.begin
	lbu	a0, 1548(sp)
	lbu	a1, 1549(sp)
	lbu	a2, 1550(sp)
	ld	a3, 1536(sp)
.LBB3e1e0_7:
	ld	a5, 1560(s0)
	sb	a0, 29(sp)
	sb	a1, 30(sp)
	sb	a2, 31(sp)
	addi	a0, s0, 2047
	addi	a6, a0, 585
	addi	a0, sp, 16
	addi	a1, sp, 29
	addi	a2, sp, 32
	mv	a4, s2
	call	tuvaddri_c.port_turn.TuvPortTurn.of
.LBB3e1e0_8:
	ld	a0, 16(sp)
	ld	ra, 1576(sp)
	ld	s0, 1568(sp)
	ld	s1, 1560(sp)
	ld	s2, 1552(sp)
	addi	sp, sp, 1584
	ret
.Lfunc_end3e1e0:
	.size	tuv_port_link, .Lfunc_end3e1e0-tuv_port_link

	.section	.text.tuv_port_reauthenticate,"ax",@progbits
	.globl	tuv_port_reauthenticate
	.p2align	1
	.type	tuv_port_reauthenticate,@function
tuv_port_reauthenticate:
	addi	sp, sp, -1568
	sd	ra, 1560(sp)
	sd	s0, 1552(sp)
	sd	s1, 1544(sp)
	ld	s1, 0(a0)
	lbu	a0, 0(s1)
	li	a1, 8
	sd	zero, 8(sp)
	bne	a0, a1, .LBB405ea_3
	addi	s0, s1, 8
	addi	a0, sp, 24
	li	a2, 1512
	li	a1, 0
	call	memset
	lbu	a0, 29(s1)
	li	a1, 2
	bne	a0, a1, .LBB405ea_4
	addi	a0, sp, 1541
	addi	a2, sp, 24
	mv	a1, s0
	call	switch_port.machine.SwitchPort.connect
	lbu	a2, 1541(sp)
	lbu	a1, 1542(sp)
	lbu	a0, 1543(sp)
	ld	a3, 1528(sp)
	j	.LBB405ea_5
.LBB405ea_3:
	addi	a0, s1, 2047
	sb	zero, 585(a0)
	lui	a0, 4096
	sd	a0, 8(sp)
	j	.LBB405ea_6
.LBB405ea_4:
	li	a3, 0
	li	a0, 0
	li	a1, 0
	li	a2, 0
.LBB405ea_5:
	ld	a5, 1560(s1)
	sb	a2, 21(sp)
	sb	a1, 22(sp)
	sb	a0, 23(sp)
	addi	a0, s1, 2047
	addi	a6, a0, 585
	addi	a0, sp, 8
	addi	a1, sp, 21
	addi	a2, sp, 24
	mv	a4, s0
	call	tuvaddri_c.port_turn.TuvPortTurn.of
.LBB405ea_6:
	ld	a0, 8(sp)
	ld	ra, 1560(sp)
	ld	s0, 1552(sp)
	ld	s1, 1544(sp)
	addi	sp, sp, 1568
	ret
.Lfunc_end405ea:
	.size	tuv_port_reauthenticate, .Lfunc_end405ea-tuv_port_reauthenticate

	.section	.text.tuv_port_second,"ax",@progbits
	.globl	tuv_port_second
	.p2align	1
	.type	tuv_port_second,@function
tuv_port_second:
	addi	sp, sp, -1584
	sd	ra, 1576(sp)
	sd	s0, 1568(sp)
	sd	s1, 1560(sp)
	ld	s1, 0(a0)
	lbu	a0, 0(s1)
	li	a1, 8
	sd	zero, 8(sp)
	bne	a0, a1, .LBBc8339_7
	addi	s0, s1, 8
	addi	a0, sp, 16
	li	a2, 1512
	li	a1, 0
	call	memset
	lw	a4, 1556(s1)
	li	a0, 1
	bltu	a0, a4, .LBBc8339_8
	li	a1, 0
	li	a0, 0
	lbu	a2, 29(s1)
.Lpcrel_hi81:
	auipc	a3, %pcrel_hi(.LJTIc8339_0)
	slli	a2, a2, 2
	addi	a3, a3, %pcrel_lo(.Lpcrel_hi81)
	add	a2, a2, a3
	lw	a2, 0(a2)
	add	a3, a3, a2
	li	a2, 0
	jr	a3
.LBBc8339_3:
	lbu	a0, 34(s1)
	li	a1, 26
	beq	a0, a1, .LBBc8339_5
	li	a1, 1
	bne	a0, a1, .LBBc8339_10
.LBBc8339_5:
	addi	a1, s1, 32
	sd	zero, 1552(sp)
	addi	a0, sp, 1536
	addi	a2, sp, 16
	call	pass_through.machine.PassThrough.timeout_step
	lbu	a0, 34(s1)
	lui	a1, 262016
	addi	a1, a1, -1
	srl	a0, a1, a0
	andi	a0, a0, 1
	beqz	a0, .LBBc8339_15
	li	a1, 0
	li	a0, 0
	lw	a3, 16(s1)
	lbu	a2, 1554(sp)
	sw	a3, 1556(s1)
	j	.LBBc8339_11
.LBBc8339_7:
	addi	a0, s1, 2047
	sb	zero, 585(a0)
	lui	a0, 4096
	sd	a0, 8(sp)
	j	.LBBc8339_13
.LBBc8339_8:
	li	a3, 0
	li	a2, 0
	li	a0, 0
	li	a1, 0
	addi	a4, a4, -1
	sw	a4, 1556(s1)
	j	.LBBc8339_12
.LBBc8339_9:
	lw	a0, 20(s1)
	beqz	a0, .LBBc8339_14
.LBBc8339_10:
	addi	a0, sp, 1536
	addi	a2, sp, 16
	mv	a1, s0
	call	switch_port.machine.SwitchPort.connect
	lbu	a2, 1536(sp)
	lbu	a0, 1537(sp)
	lbu	a1, 1538(sp)
.LBBc8339_11:
	ld	a3, 1520(sp)
.LBBc8339_12:
	ld	a5, 1560(s1)
	sb	a2, 1536(sp)
	sb	a0, 1537(sp)
	sb	a1, 1538(sp)
	addi	a0, s1, 2047
	addi	a6, a0, 585
	addi	a0, sp, 8
	addi	a1, sp, 1536
	addi	a2, sp, 16
	mv	a4, s0
	call	tuvaddri_c.port_turn.TuvPortTurn.of
.LBBc8339_13:
	ld	a0, 8(sp)
	ld	ra, 1576(sp)
	ld	s0, 1568(sp)
	ld	s1, 1560(sp)
	addi	sp, sp, 1584
	ret
.LBBc8339_14:
	li	a1, 0
	li	a2, 0
	j	.LBBc8339_11
.LBBc8339_15:
	addi	a0, sp, 1533
	addi	a2, sp, 16
	mv	a1, s0
	call	switch_port.machine.SwitchPort.connect
	lbu	a2, 1533(sp)
	lbu	a0, 1534(sp)
	lbu	a1, 1535(sp)
	j	.LBBc8339_11
.Lfunc_endc8339:
	.size	tuv_port_second, .Lfunc_endc8339-tuv_port_second
	.section	.rodata.tuv_port_second,"a",@progbits
	.p2align	2, 0x0
.LJTIc8339_0:
	.word	.LBBc8339_11-.LJTIc8339_0
	.word	.LBBc8339_3-.LJTIc8339_0
	.word	.LBBc8339_9-.LJTIc8339_0
	.word	.LBBc8339_10-.LJTIc8339_0
	.word	.LBBc8339_11-.LJTIc8339_0
	.word	.LBBc8339_11-.LJTIc8339_0

	.section	.text.tuv_server_begin,"ax",@progbits
	.globl	tuv_server_begin
	.p2align	1
	.type	tuv_server_begin,@function
tuv_server_begin:
	addi	sp, sp, -1792
	sd	ra, 1784(sp)
	sd	s0, 1776(sp)
	sd	s1, 1768(sp)
	sd	s2, 1760(sp)
	sd	s3, 1752(sp)
	sd	s4, 1744(sp)
	sd	s5, 1736(sp)
	sd	s6, 1728(sp)
	sd	s7, 1720(sp)
	sd	s8, 1712(sp)
	sd	s9, 1704(sp)
	sd	s10, 1696(sp)
	sd	s11, 1688(sp)
	mv	s7, a4
	mv	s5, a3
	mv	s1, a2
	mv	s6, a1
	mv	s2, a0
	zext.b	s0, a4
	sd	zero, 624(sp)
	sd	zero, 632(sp)
	sd	zero, 640(sp)
	sd	zero, 648(sp)
	mv	a0, a1
	call	end_objects.refusals.server_refusal
	li	a2, 10
	zext.b	a0, a0
	bltu	a2, s0, .LBBa585f_4
	li	a2, 1
	beq	a0, a2, .LBBa585f_4
	addi	a0, sp, 1424
	mv	a1, s6
	call	end_objects.settings.named_kinds
	ld	a2, 1432(sp)
	bnez	a2, .LBBa585f_7
	lui	a0, 3
	addi	a0, a0, -205
	li	a2, 2
	j	.LBBa585f_8
.LBBa585f_4:
	li	a2, 1
	beq	a0, a2, .LBBa585f_6
	sltiu	a0, s0, 11
	addi	a0, a0, -1
	andi	a1, a0, 6
.LBBa585f_6:
	addi	a0, a1, 1
	j	.LBBa585f_38
.LBBa585f_7:
	ld	a0, 1424(sp)
.LBBa585f_8:
	sd	a0, 656(sp)
	sd	a2, 664(sp)
	addi	a0, sp, 624
	addi	a1, sp, 656
	call	end_objects.constructors.server_objects
	lbu	a1, 624(sp)
	li	a0, 8
	bnez	a1, .LBBa585f_38
	ld	s9, 632(sp)
	ld	s0, 640(sp)
	ld	s3, 648(sp)
	call	tuvaddri_c.sent.empty_packet
	zext.b	a0, a0
	li	a2, 1
	bne	a0, a2, .LBBa585f_14
	sd	s0, 568(sp)
	sd	a1, 616(sp)
	ld	s0, 0(s2)
	sw	zero, 704(sp)
	sh	zero, 708(sp)
	sb	zero, 710(sp)
	lbu	a0, 8(s6)
	sd	a0, 608(sp)
	lbu	a0, 9(s6)
	sd	a0, 584(sp)
	lbu	a0, 10(s6)
	sd	a0, 600(sp)
	lbu	a0, 11(s6)
	sd	a0, 592(sp)
	lbu	a6, 16(s6)
	lbu	a1, 17(s6)
	lbu	a2, 18(s6)
	lbu	a3, 19(s6)
	lbu	a7, 20(s6)
	lbu	a5, 21(s6)
	lbu	a4, 22(s6)
	lbu	a0, 23(s6)
	slli	a1, a1, 8
	slli	a2, a2, 16
	slli	a3, a3, 24
	slli	a5, a5, 8
	slli	a4, a4, 16
	slli	a0, a0, 24
	or	a1, a1, a6
	or	a2, a2, a3
	or	a3, a5, a7
	or	a0, a0, a4
	lbu	s8, 12(s6)
	lbu	s11, 13(s6)
	lbu	s10, 14(s6)
	lbu	s4, 15(s6)
	or	a1, a1, a2
	or	a0, a0, a3
	slli	a0, a0, 32
	or	s2, a0, a1
	addi	a0, sp, 1424
	li	a2, 264
	li	a1, 0
	call	memset
	li	a0, 253
	bltu	a0, s2, .LBBa585f_12
	ld	a0, 584(sp)
	slli	a0, a0, 8
	ld	a1, 600(sp)
	slli	a1, a1, 16
	ld	a2, 592(sp)
	slli	a2, a2, 24
	slli	s11, s11, 8
	slli	s10, s10, 16
	slli	s4, s4, 24
	ld	a3, 608(sp)
	or	a0, a0, a3
	or	a1, a1, a2
	or	a2, s11, s8
	or	a3, s4, s10
	or	a0, a0, a1
	or	a2, a2, a3
	slli	a1, a2, 32
	or	a1, a1, a0
	addi	a0, sp, 1424
	mv	a2, s2
	call	memcpy
	sd	s2, 1680(sp)
.LBBa585f_12:
	addi	a0, sp, 672
	mv	a1, s6
	call	end_objects.settings.named_kinds
	ld	a0, 680(sp)
	bnez	a0, .LBBa585f_17
	lui	a0, 3
	addi	a0, a0, -205
	sd	a0, 576(sp)
	li	a0, 2
	sd	a0, 608(sp)
	j	.LBBa585f_18
.LBBa585f_14:
	beqz	s3, .LBBa585f_16
	mv	a0, s9
	call	rattle_dealloc
.LBBa585f_16:
	li	a0, 8
	j	.LBBa585f_38
.LBBa585f_17:
	sd	a0, 608(sp)
	ld	a0, 672(sp)
	sd	a0, 576(sp)
.LBBa585f_18:
	lbu	a0, 74(s6)
	addi	s11, s0, 2047
	beqz	a0, .LBBa585f_20
	lbu	a1, 75(s6)
	snez	a2, a1
	slli	a1, a1, 8
	addi	a2, a2, 1
	sd	a2, 584(sp)
	or	a0, a0, a1
	sd	a0, 592(sp)
	j	.LBBa585f_21
.LBBa585f_20:
	li	a0, 513
	sd	a0, 592(sp)
	li	a0, 2
	sd	a0, 584(sp)
.LBBa585f_21:
	lbu	a0, 76(s6)
	snez	a0, a0
	sd	a0, 600(sp)
	addi	a0, sp, 711
	li	a2, 712
	li	a1, 0
	call	memset
	lbu	a6, 0(s1)
	lbu	a7, 1(s1)
	lbu	t1, 2(s1)
	lbu	t2, 3(s1)
	lbu	t3, 4(s1)
	lbu	t4, 5(s1)
	lbu	t5, 6(s1)
	lbu	t6, 7(s1)
	lbu	s2, 8(s1)
	lbu	s4, 9(s1)
	lbu	s10, 10(s1)
	lbu	ra, 11(s1)
	lbu	a3, 12(s1)
	lbu	a4, 13(s1)
	lbu	a5, 14(s1)
	lbu	a0, 15(s1)
	sd	a0, 560(sp)
	lbu	a0, 16(s1)
	sd	a0, 552(sp)
	lbu	a0, 17(s1)
	sd	a0, 544(sp)
	lbu	a0, 18(s1)
	sd	a0, 536(sp)
	lbu	a0, 19(s1)
	sd	a0, 528(sp)
	lbu	a0, 20(s1)
	sd	a0, 520(sp)
	lbu	a0, 21(s1)
	sd	a0, 512(sp)
	lbu	a0, 22(s1)
	sd	a0, 504(sp)
	lbu	a0, 23(s1)
	sd	a0, 496(sp)
	lbu	a0, 24(s1)
	sd	a0, 488(sp)
	lbu	a0, 25(s1)
	sd	a0, 480(sp)
	lbu	a0, 26(s1)
	sd	a0, 472(sp)
	lbu	a0, 27(s1)
	sd	a0, 464(sp)
	lbu	a0, 28(s1)
	sd	a0, 456(sp)
	lbu	a0, 29(s1)
	sd	a0, 448(sp)
	lbu	a0, 30(s1)
	sd	a0, 440(sp)
	sd	s1, 304(sp)
	lbu	s1, 31(s1)
	sb	s5, 33(s0)
	sb	s7, 34(s0)
	lbu	s5, 12(s0)
	lbu	a0, 13(s0)
	sd	a0, 424(sp)
	lbu	s7, 14(s0)
	srli	a0, s9, 40
	srli	a1, s9, 32
	sb	a1, 12(s0)
	srli	a1, s9, 48
	sb	a0, 13(s0)
	lbu	a0, 15(s0)
	sd	a0, 416(sp)
	lbu	a0, 24(s0)
	sd	a0, 432(sp)
	lbu	a0, 25(s0)
	sd	a0, 408(sp)
	lbu	a0, 26(s0)
	sd	a0, 400(sp)
	srli	a0, s9, 56
	sb	a1, 14(s0)
	sb	a0, 15(s0)
	lbu	a0, 9(s0)
	sd	a0, 384(sp)
	lbu	a0, 10(s0)
	sd	a0, 392(sp)
	srli	a0, s9, 16
	srli	a1, s9, 8
	sb	a1, 9(s0)
	lbu	a1, 8(s0)
	sd	a1, 376(sp)
	sb	s9, 8(s0)
	srli	a1, s9, 24
	lbu	s8, 11(s0)
	sb	a0, 10(s0)
	sb	a1, 11(s0)
	ld	a2, 568(sp)
	srli	a0, a2, 40
	srli	a1, a2, 32
	sb	a1, 20(s0)
	srli	a1, a2, 48
	sb	a0, 21(s0)
	srli	a0, a2, 56
	sb	a1, 22(s0)
	sb	a0, 23(s0)
	srli	a0, a2, 16
	srli	a1, a2, 8
	sb	a1, 17(s0)
	sb	a2, 16(s0)
	srli	a1, a2, 24
	sb	a0, 18(s0)
	sb	a1, 19(s0)
	lbu	a0, 28(s0)
	sd	a0, 568(sp)
	lbu	s9, 29(s0)
	lbu	a0, 30(s0)
	sd	a0, 368(sp)
	srli	a0, s3, 40
	srli	a1, s3, 32
	sb	a1, 28(s0)
	srli	a1, s3, 48
	sb	a0, 29(s0)
	lbu	a0, 31(s0)
	sd	a0, 336(sp)
	srli	a0, s3, 56
	sb	a1, 30(s0)
	sb	a0, 31(s0)
	srli	a0, s3, 16
	srli	a1, s3, 8
	sb	a1, 25(s0)
	sb	s3, 24(s0)
	srli	a1, s3, 24
	lbu	t0, 27(s0)
	sb	a0, 26(s0)
	sb	a1, 27(s0)
	li	a0, 1
	sb	a0, 40(s0)
	slli	a0, a7, 8
	or	a0, a0, a6
	sd	a0, 360(sp)
	slli	a0, t1, 16
	slli	a1, t2, 24
	or	a0, a0, a1
	sd	a0, 352(sp)
	slli	a0, t4, 8
	or	a0, a0, t3
	sd	a0, 344(sp)
	slli	a0, t5, 16
	slli	a1, t6, 24
	or	a0, a0, a1
	sd	a0, 328(sp)
	slli	a0, s4, 8
	or	s2, a0, s2
	slli	a0, s10, 16
	slli	a1, ra, 24
	or	a0, a0, a1
	sd	a0, 320(sp)
	slli	a0, a4, 8
	or	a0, a0, a3
	sd	a0, 312(sp)
	slli	a0, a5, 16
	ld	a1, 560(sp)
	slli	a1, a1, 24
	or	t6, a1, a0
	ld	a0, 544(sp)
	slli	a0, a0, 8
	ld	a1, 552(sp)
	or	a0, a0, a1
	sd	a0, 560(sp)
	ld	a0, 536(sp)
	slli	a0, a0, 16
	ld	a2, 528(sp)
	slli	a2, a2, 24
	or	t3, a2, a0
	ld	a0, 512(sp)
	slli	a0, a0, 8
	ld	a1, 520(sp)
	or	a0, a0, a1
	sd	a0, 552(sp)
	ld	a0, 504(sp)
	slli	a0, a0, 16
	ld	a1, 496(sp)
	slli	a1, a1, 24
	or	t2, a1, a0
	ld	a0, 480(sp)
	slli	a0, a0, 8
	ld	a1, 488(sp)
	or	t1, a0, a1
	ld	a0, 472(sp)
	slli	a0, a0, 16
	ld	ra, 464(sp)
	slli	ra, ra, 24
	or	ra, ra, a0
	ld	a4, 448(sp)
	slli	a4, a4, 8
	ld	a0, 456(sp)
	or	a7, a4, a0
	ld	a0, 440(sp)
	slli	a0, a0, 16
	slli	s10, s1, 24
	or	s10, s10, a0
	ld	a5, 384(sp)
	slli	a5, a5, 8
	ld	a0, 376(sp)
	or	t5, a5, a0
	ld	a0, 392(sp)
	slli	a0, a0, 16
	slli	s8, s8, 24
	or	a6, s8, a0
	ld	a2, 424(sp)
	slli	a2, a2, 8
	or	s8, a2, s5
	slli	a2, s7, 16
	ld	s7, 416(sp)
	slli	s7, s7, 24
	or	s7, s7, a2
	ld	a2, 408(sp)
	slli	a2, a2, 8
	ld	a0, 400(sp)
	slli	a0, a0, 16
	slli	t0, t0, 24
	slli	s3, s9, 8
	ld	s9, 368(sp)
	slli	s9, s9, 16
	ld	s5, 336(sp)
	slli	s5, s5, 24
	ld	a1, 432(sp)
	or	t4, a2, a1
	or	a3, t0, a0
	ld	a0, 568(sp)
	or	a4, s3, a0
	or	s5, s5, s9
	lbu	s1, 578(s11)
	lbu	s3, 579(s11)
	lbu	s9, 580(s11)
	lbu	a0, 577(s11)
	slli	s1, s1, 8
	slli	s3, s3, 16
	slli	s9, s9, 24
	or	a2, s1, a0
	or	s9, s9, s3
	lbu	s1, 582(s11)
	lbu	s3, 581(s11)
	lbu	a0, 583(s11)
	lbu	a1, 584(s11)
	slli	s1, s1, 8
	or	s1, s1, s3
	slli	a0, a0, 16
	slli	a1, a1, 24
	or	a0, a0, a1
	ld	a1, 360(sp)
	ld	a5, 352(sp)
	or	t0, a5, a1
	lbu	s3, 0(s0)
	ld	a1, 344(sp)
	ld	a5, 328(sp)
	or	s4, a5, a1
	ld	a1, 320(sp)
	or	s2, a1, s2
	ld	a1, 312(sp)
	or	t6, t6, a1
	ld	a1, 560(sp)
	or	t3, t3, a1
	lbu	a5, 1328(s0)
	sd	a5, 544(sp)
	lbu	a5, 1329(s0)
	sd	a5, 520(sp)
	lbu	a5, 1330(s0)
	sd	a5, 536(sp)
	lbu	a5, 1331(s0)
	sd	a5, 528(sp)
	ld	a1, 552(sp)
	or	t2, t2, a1
	or	t1, ra, t1
	or	a7, s10, a7
	or	a6, a6, t5
	lbu	a1, 1332(s0)
	sd	a1, 432(sp)
	lbu	a5, 1333(s0)
	sd	a5, 496(sp)
	lbu	a5, 1334(s0)
	sd	a5, 512(sp)
	lbu	a5, 1335(s0)
	sd	a5, 504(sp)
	or	a5, s7, s8
	or	a3, a3, t4
	or	a4, s5, a4
	or	a2, s9, a2
	lbu	a1, 1528(s0)
	sd	a1, 416(sp)
	lbu	a1, 1529(s0)
	sd	a1, 464(sp)
	lbu	a1, 1530(s0)
	sd	a1, 480(sp)
	lbu	a1, 1531(s0)
	sd	a1, 472(sp)
	or	a0, a0, s1
	slli	s4, s4, 32
	slli	t6, t6, 32
	slli	t2, t2, 32
	or	a1, s4, t0
	or	t4, t6, s2
	or	t0, t2, t3
	lbu	s1, 1532(s0)
	sd	s1, 488(sp)
	lbu	s1, 1533(s0)
	sd	s1, 440(sp)
	lbu	s1, 1534(s0)
	sd	s1, 456(sp)
	lbu	s1, 1535(s0)
	sd	s1, 448(sp)
	slli	a7, a7, 32
	slli	a5, a5, 32
	slli	a4, a4, 32
	slli	a0, a0, 32
	or	s1, a7, t1
	or	a5, a5, a6
	sd	a5, 560(sp)
	or	a3, a3, a4
	sd	a3, 568(sp)
	or	a0, a0, a2
	sd	a0, 552(sp)
	lbu	a0, 1560(s0)
	sd	a0, 424(sp)
	lbu	a0, 1561(s0)
	sd	a0, 392(sp)
	lbu	a0, 1562(s0)
	sd	a0, 408(sp)
	lbu	a0, 1563(s0)
	sd	a0, 400(sp)
	sb	zero, 4(s0)
	sb	zero, 5(s0)
	sb	zero, 6(s0)
	sb	zero, 7(s0)
	sd	a1, 672(sp)
	li	a0, 4
	sb	zero, 36(s0)
	sb	zero, 37(s0)
	sb	zero, 38(s0)
	sb	zero, 39(s0)
	sb	zero, 32(s0)
	sb	zero, 35(s0)
	sb	a0, 0(s0)
	sb	zero, 1(s0)
	sb	zero, 2(s0)
	sd	t4, 680(sp)
	sd	t0, 688(sp)
	sd	s1, 696(sp)
	lbu	a0, 1564(s0)
	sd	a0, 384(sp)
	lbu	a0, 1565(s0)
	sd	a0, 352(sp)
	lbu	a0, 1566(s0)
	sd	a0, 376(sp)
	lbu	a0, 1567(s0)
	sd	a0, 368(sp)
	lbu	a0, 1976(s0)
	sd	a0, 360(sp)
	lbu	a0, 1977(s0)
	sd	a0, 288(sp)
	lbu	a0, 1978(s0)
	sd	a0, 312(sp)
	lbu	a0, 1979(s0)
	sd	a0, 296(sp)
	lbu	a0, 1980(s0)
	sd	a0, 344(sp)
	lbu	a0, 1981(s0)
	sd	a0, 320(sp)
	lbu	a0, 1982(s0)
	sd	a0, 336(sp)
	lbu	a0, 1983(s0)
	sd	a0, 328(sp)
	lbu	a0, 249(s11)
	sd	a0, 96(sp)
	lbu	a0, 250(s11)
	sd	a0, 16(sp)
	lbu	a0, 251(s11)
	sd	a0, 32(sp)
	lbu	a0, 252(s11)
	sd	a0, 24(sp)
	lbu	a0, 253(s11)
	sd	a0, 88(sp)
	lbu	a0, 254(s11)
	sd	a0, 40(sp)
	lbu	a0, 255(s11)
	sd	a0, 56(sp)
	lbu	a0, 256(s11)
	sd	a0, 48(sp)
	lbu	a0, 265(s11)
	sd	a0, 280(sp)
	lbu	a0, 266(s11)
	sd	a0, 192(sp)
	lbu	a0, 267(s11)
	sd	a0, 208(sp)
	lbu	a0, 268(s11)
	sd	a0, 200(sp)
	lbu	a0, 269(s11)
	sd	a0, 272(sp)
	lbu	a0, 270(s11)
	sd	a0, 216(sp)
	lbu	a0, 271(s11)
	sd	a0, 240(sp)
	lbu	a0, 272(s11)
	sd	a0, 232(sp)
	lbu	a0, 281(s11)
	sd	a0, 72(sp)
	lbu	a0, 282(s11)
	sd	a0, 160(sp)
	lbu	a0, 283(s11)
	sd	a0, 136(sp)
	lbu	a0, 284(s11)
	sd	a0, 64(sp)
	lbu	a0, 285(s11)
	sd	a0, 80(sp)
	lbu	s10, 286(s11)
	lbu	s8, 287(s11)
	lbu	s2, 288(s11)
	lbu	a0, 297(s11)
	sd	a0, 264(sp)
	lbu	s5, 298(s11)
	lbu	s4, 299(s11)
	lbu	s9, 300(s11)
	lbu	a0, 301(s11)
	sd	a0, 256(sp)
	lbu	a0, 302(s11)
	sd	a0, 104(sp)
	lbu	a0, 303(s11)
	sd	a0, 120(sp)
	lbu	a0, 304(s11)
	sd	a0, 112(sp)
	lbu	a0, 305(s11)
	sd	a0, 248(sp)
	lbu	a0, 306(s11)
	sd	a0, 128(sp)
	lbu	a0, 307(s11)
	sd	a0, 152(sp)
	lbu	a0, 308(s11)
	sd	a0, 144(sp)
	lbu	a0, 309(s11)
	sd	a0, 224(sp)
	lbu	a0, 310(s11)
	sd	a0, 168(sp)
	lbu	a0, 311(s11)
	sd	a0, 184(sp)
	lbu	a0, 312(s11)
	sd	a0, 176(sp)
	sb	zero, 3(s0)
	addi	a0, s0, 41
	addi	s7, s0, 1576
	li	a2, 1535
	li	a1, 0
	call	memset
	addi	a1, sp, 1424
	li	a2, 264
	mv	a0, s7
	call	memcpy
	ld	a1, 576(sp)
	srli	t1, a1, 56
	srli	t4, a1, 48
	srli	a2, a1, 40
	srli	a3, a1, 32
	srli	t3, a1, 24
	srli	a5, a1, 16
	srli	s1, a1, 8
	ld	a0, 608(sp)
	srli	a6, a0, 56
	srli	a7, a0, 48
	srli	t0, a0, 40
	srli	a4, a0, 32
	srli	t2, a0, 24
	sb	a3, 1844(s0)
	sb	a2, 1845(s0)
	sb	t4, 1846(s0)
	sb	t1, 1847(s0)
	srli	t1, a0, 16
	sb	a1, 1840(s0)
	sb	s1, 1841(s0)
	sb	a5, 1842(s0)
	sb	t3, 1843(s0)
	srli	a2, a0, 8
	sb	zero, 1860(s0)
	sb	zero, 1861(s0)
	sb	zero, 1862(s0)
	sb	zero, 1863(s0)
	sb	a4, 1852(s0)
	sb	t0, 1853(s0)
	sb	a7, 1854(s0)
	sb	a6, 1855(s0)
	ld	a4, 592(sp)
	srli	a3, a4, 8
	sb	zero, 1868(s0)
	sb	zero, 1869(s0)
	sb	zero, 1870(s0)
	sb	zero, 1871(s0)
	ld	a5, 584(sp)
	sb	a5, 1864(s0)
	sb	zero, 1865(s0)
	sb	zero, 1866(s0)
	sb	zero, 1867(s0)
	sb	a0, 1848(s0)
	sb	a2, 1849(s0)
	sb	t1, 1850(s0)
	sb	t2, 1851(s0)
	sb	a4, 1856(s0)
	sb	a3, 1857(s0)
	sb	zero, 1858(s0)
	sb	zero, 1859(s0)
	addi	a0, s0, 1872
	addi	a1, sp, 672
	li	a2, 32
	call	memcpy
	ld	a0, 600(sp)
	sb	a0, 1904(s0)
	addi	a0, s0, 1905
	addi	a1, sp, 704
	li	a2, 719
	call	memcpy
	ld	a0, 616(sp)
	srli	a6, a0, 56
	srli	a1, a0, 48
	srli	a2, a0, 40
	srli	a3, a0, 32
	srli	a4, a0, 24
	slli	s3, s3, 2
.Lpcrel_hi82:
	auipc	a5, %pcrel_hi(.LJTIa585f_0)
	addi	a5, a5, %pcrel_lo(.Lpcrel_hi82)
	add	s3, s3, a5
	lw	s1, 0(s3)
	sb	a3, 581(s11)
	sb	a2, 582(s11)
	sb	a1, 583(s11)
	sb	a6, 584(s11)
	srli	a2, a0, 16
	add	a5, a5, s1
	srli	a1, a0, 8
	sb	a0, 577(s11)
	sb	a1, 578(s11)
	sb	a2, 579(s11)
	sb	a4, 580(s11)
	jr	a5
.LBBa585f_22:
	ld	a0, 560(sp)
	ld	s1, 552(sp)
	ld	a1, 568(sp)
	bnez	a1, .LBBa585f_26
	j	.LBBa585f_27
.LBBa585f_23:
	ld	s1, 288(sp)
	slli	s1, s1, 8
	ld	a1, 312(sp)
	slli	a1, a1, 16
	ld	a2, 296(sp)
	slli	a2, a2, 24
	ld	a3, 320(sp)
	slli	a3, a3, 8
	ld	a4, 336(sp)
	slli	a4, a4, 16
	ld	a5, 328(sp)
	slli	a5, a5, 24
	ld	a0, 360(sp)
	or	a0, a0, s1
	or	a1, a1, a2
	ld	a2, 344(sp)
	j	.LBBa585f_33
.LBBa585f_24:
	ld	s7, 160(sp)
	ld	ra, 136(sp)
	sd	s2, 616(sp)
	slli	s5, s5, 8
	slli	s4, s4, 16
	slli	s2, s9, 24
	ld	a6, 104(sp)
	slli	a6, a6, 8
	ld	a7, 120(sp)
	slli	a7, a7, 16
	ld	t0, 112(sp)
	slli	t0, t0, 24
	ld	t1, 128(sp)
	slli	t1, t1, 8
	ld	t2, 152(sp)
	slli	t2, t2, 16
	ld	t3, 144(sp)
	slli	t3, t3, 24
	ld	t4, 168(sp)
	slli	t4, t4, 8
	ld	t5, 184(sp)
	slli	t5, t5, 16
	ld	t6, 176(sp)
	slli	t6, t6, 24
	ld	a0, 264(sp)
	or	s3, s5, a0
	or	a3, s2, s4
	ld	a0, 256(sp)
	or	a4, a6, a0
	or	a5, t0, a7
	ld	a0, 248(sp)
	or	s1, t1, a0
	or	a0, t3, t2
	ld	a1, 224(sp)
	or	a1, t4, a1
	or	a2, t6, t5
	or	a3, a3, s3
	or	a4, a4, a5
	or	a0, a0, s1
	or	a1, a1, a2
	slli	a4, a4, 32
	or	a3, a3, a4
	slli	a1, a1, 32
	or	s1, a1, a0
	beqz	a3, .LBBa585f_27
	slli	a6, s7, 8
	slli	a1, ra, 16
	ld	a2, 64(sp)
	slli	a2, a2, 24
	slli	a3, s10, 8
	slli	a4, s8, 16
	ld	a5, 616(sp)
	slli	a5, a5, 24
	ld	a0, 72(sp)
	or	a0, a6, a0
	or	a1, a1, a2
	ld	a2, 80(sp)
	or	a2, a2, a3
	or	a4, a4, a5
	or	a0, a0, a1
	or	a2, a2, a4
	slli	a2, a2, 32
	or	a0, a0, a2
.LBBa585f_26:
	call	rattle_dealloc
.LBBa585f_27:
	mv	a0, s1
	j	.LBBa585f_34
.LBBa585f_28:
	ld	s1, 192(sp)
	slli	s1, s1, 8
	ld	a1, 208(sp)
	slli	a1, a1, 16
	ld	a2, 200(sp)
	slli	a2, a2, 24
	ld	a3, 216(sp)
	slli	a3, a3, 8
	ld	a4, 240(sp)
	slli	a4, a4, 16
	ld	a5, 232(sp)
	slli	a5, a5, 24
	ld	a0, 280(sp)
	or	a0, a0, s1
	or	a1, a1, a2
	ld	a2, 272(sp)
	or	a2, a2, a3
	or	a4, a4, a5
	or	a0, a0, a1
	or	a2, a2, a4
	slli	a2, a2, 32
	or	a0, a0, a2
	beqz	a0, .LBBa585f_35
	ld	s1, 16(sp)
	slli	s1, s1, 8
	ld	a1, 32(sp)
	slli	a1, a1, 16
	ld	a2, 24(sp)
	slli	a2, a2, 24
	ld	a3, 40(sp)
	slli	a3, a3, 8
	ld	a4, 56(sp)
	slli	a4, a4, 16
	ld	a5, 48(sp)
	slli	a5, a5, 24
	ld	a0, 96(sp)
	or	a0, a0, s1
	or	a1, a1, a2
	ld	a2, 88(sp)
	j	.LBBa585f_33
.LBBa585f_30:
	ld	s1, 520(sp)
	slli	s1, s1, 8
	ld	a1, 536(sp)
	slli	a1, a1, 16
	ld	a2, 528(sp)
	slli	a2, a2, 24
	ld	a3, 496(sp)
	slli	a3, a3, 8
	ld	a4, 512(sp)
	slli	a4, a4, 16
	ld	a5, 504(sp)
	slli	a5, a5, 24
	ld	a0, 544(sp)
	or	a0, a0, s1
	or	a1, a1, a2
	ld	a2, 432(sp)
	j	.LBBa585f_33
.LBBa585f_31:
	ld	a0, 464(sp)
	slli	s1, a0, 8
	ld	a1, 480(sp)
	slli	a1, a1, 16
	ld	a2, 472(sp)
	slli	a2, a2, 24
	ld	a3, 440(sp)
	slli	a3, a3, 8
	ld	a4, 456(sp)
	slli	a4, a4, 16
	ld	a5, 448(sp)
	slli	a5, a5, 24
	ld	a0, 416(sp)
	or	a0, a0, s1
	or	a1, a1, a2
	ld	a2, 488(sp)
	j	.LBBa585f_33
.LBBa585f_32:
	ld	s1, 392(sp)
	slli	s1, s1, 8
	ld	a1, 408(sp)
	slli	a1, a1, 16
	ld	a2, 400(sp)
	slli	a2, a2, 24
	ld	a3, 352(sp)
	slli	a3, a3, 8
	ld	a4, 376(sp)
	slli	a4, a4, 16
	ld	a5, 368(sp)
	slli	a5, a5, 24
	ld	a0, 424(sp)
	or	a0, a0, s1
	or	a1, a1, a2
	ld	a2, 384(sp)
.LBBa585f_33:
	or	a2, a2, a3
	or	a4, a4, a5
	or	a0, a0, a1
	or	a2, a2, a4
	slli	a2, a2, 32
	or	a0, a0, a2
.LBBa585f_34:
	call	rattle_dealloc
.LBBa585f_35:
	lbu	a0, 0(s0)
	li	a1, 4
	bne	a0, a1, .LBBa585f_37
	addi	s0, s0, 8
	mv	a0, s0
	mv	a1, s6
	call	tuvaddri_c.by_method.add_users.__d37c63745cf5a212_
	mv	a0, s0
	ld	a1, 304(sp)
	call	server_machine.machine.SizedServer.make_again.__575f94f35bca5e04_
.LBBa585f_37:
	li	a0, 0
	sb	zero, 585(s11)
.LBBa585f_38:
	ld	ra, 1784(sp)
	ld	s0, 1776(sp)
	ld	s1, 1768(sp)
	ld	s2, 1760(sp)
	ld	s3, 1752(sp)
	ld	s4, 1744(sp)
	ld	s5, 1736(sp)
	ld	s6, 1728(sp)
	ld	s7, 1720(sp)
	ld	s8, 1712(sp)
	ld	s9, 1704(sp)
	ld	s10, 1696(sp)
	ld	s11, 1688(sp)
	addi	sp, sp, 1792
	ret
.Lfunc_enda585f:
	.size	tuv_server_begin, .Lfunc_enda585f-tuv_server_begin
	.section	.rodata.tuv_server_begin,"a",@progbits
	.p2align	2, 0x0
.LJTIa585f_0:
	.word	.LBBa585f_35-.LJTIa585f_0
	.word	.LBBa585f_30-.LJTIa585f_0
	.word	.LBBa585f_23-.LJTIa585f_0
	.word	.LBBa585f_28-.LJTIa585f_0
	.word	.LBBa585f_22-.LJTIa585f_0
	.word	.LBBa585f_22-.LJTIa585f_0
	.word	.LBBa585f_31-.LJTIa585f_0
	.word	.LBBa585f_24-.LJTIa585f_0
	.word	.LBBa585f_32-.LJTIa585f_0

	.section	.text.tuv_server_deliver,"ax",@progbits
	.globl	tuv_server_deliver
	.p2align	1
	.type	tuv_server_deliver,@function
tuv_server_deliver:
	addi	sp, sp, -16
	sd	ra, 8(sp)
	mv	a3, a2
	seqz	a2, a1
	ld	a4, 0(a0)
	slli	a2, a2, 12
	add	a2, a2, a1
	sw	zero, 0(sp)
	sb	zero, 4(sp)
	mv	a0, sp
	mv	a1, a4
	call	tuvaddri_c.deliver.deliver_to_server
	lbu	a0, 4(sp)
	lwu	a1, 0(sp)
	slli	a0, a0, 32
	or	a0, a0, a1
	ld	ra, 8(sp)
	addi	sp, sp, 16
	ret
.Lfunc_end0df5b:
	.size	tuv_server_deliver, .Lfunc_end0df5b-tuv_server_deliver

	.section	.text.tuv_server_method_begin,"ax",@progbits
	.globl	tuv_server_method_begin
	.p2align	1
	.type	tuv_server_method_begin,@function
tuv_server_method_begin:
	addi	sp, sp, -2032
	sd	ra, 2024(sp)
	sd	s0, 2016(sp)
	sd	s1, 2008(sp)
	sd	s2, 2000(sp)
	sd	s3, 1992(sp)
	sd	s4, 1984(sp)
	sd	s5, 1976(sp)
	sd	s6, 1968(sp)
	sd	s7, 1960(sp)
	sd	s8, 1952(sp)
	sd	s9, 1944(sp)
	sd	s10, 1936(sp)
	sd	s11, 1928(sp)
	addi	sp, sp, -2048
	addi	sp, sp, -1600
	mv	s4, a3
	mv	s5, a2
	mv	s7, a1
	mv	s3, a0
	addi	a0, sp, 1824
	li	a2, 1256
	li	a1, 0
	call	memset
	mv	a0, s7
	call	end_objects.refusals.server_refusal
	zext.b	a0, a0
	li	s0, 1
	bne	a0, s0, .LBB34974_2
	addi	a0, a1, 1
	j	.LBB34974_30
.LBB34974_2:
	call	tuvaddri_c.sent.empty_packet
	zext.b	a0, a0
	bne	a0, s0, .LBB34974_7
	sd	a1, 584(sp)
	addi	s8, sp, 2047
	addi	s8, s8, 1025
	lbu	a0, 8(s7)
	sd	a0, 576(sp)
	lbu	s11, 9(s7)
	lbu	s10, 10(s7)
	lbu	a0, 11(s7)
	sd	a0, 568(sp)
	lbu	a0, 16(s7)
	lbu	a1, 17(s7)
	lbu	a2, 18(s7)
	lbu	a3, 19(s7)
	lbu	a4, 20(s7)
	lbu	a5, 21(s7)
	lbu	s1, 22(s7)
	lbu	s0, 23(s7)
	slli	a1, a1, 8
	slli	a2, a2, 16
	slli	a3, a3, 24
	slli	a5, a5, 8
	slli	s1, s1, 16
	slli	s0, s0, 24
	or	a0, a0, a1
	or	a2, a2, a3
	or	a4, a4, a5
	or	s1, s1, s0
	lbu	s0, 12(s7)
	lbu	s9, 13(s7)
	lbu	s6, 14(s7)
	lbu	s2, 15(s7)
	or	a0, a0, a2
	or	a4, a4, s1
	slli	a4, a4, 32
	or	s1, a4, a0
	addi	a0, sp, 2047
	addi	a0, a0, 1313
	li	a2, 264
	li	a1, 0
	call	memset
	li	a0, 253
	bltu	a0, s1, .LBB34974_5
	slli	s11, s11, 8
	slli	s10, s10, 16
	ld	a0, 568(sp)
	slli	a0, a0, 24
	slli	s9, s9, 8
	slli	s6, s6, 16
	slli	s2, s2, 24
	ld	a1, 576(sp)
	or	a1, s11, a1
	or	a0, a0, s10
	or	a2, s9, s0
	or	a3, s2, s6
	or	a0, a0, a1
	or	a2, a2, a3
	slli	a1, a2, 32
	or	a1, a1, a0
	addi	a0, sp, 2047
	addi	a0, a0, 1313
	mv	a2, s1
	call	memcpy
	sd	s1, 544(s8)
.LBB34974_5:
	lbu	a0, 74(s7)
	beqz	a0, .LBB34974_8
	lbu	a1, 75(s7)
	snez	s0, a1
	slli	a1, a1, 8
	addi	s0, s0, 1
	or	s1, a1, a0
	j	.LBB34974_9
.LBB34974_7:
	li	a0, 8
	j	.LBB34974_30
.LBB34974_8:
	li	s0, 2
	li	s1, 513
.LBB34974_9:
	addi	a0, sp, 2047
	addi	a0, a0, 1033
	addi	a1, sp, 2047
	addi	a1, a1, 1313
	li	a2, 264
	call	memcpy
	sd	s1, 272(s8)
	sd	s0, 280(s8)
	lui	a0, 1
	addi	a0, a0, 248
	add	a0, a0, sp
	mv	a1, s7
	call	end_objects.settings.named_kinds
	lbu	s0, 1272(s8)
	ld	s1, 1280(s8)
	lui	a0, 1
	addi	a0, a0, 1392
	add	a0, a0, sp
	li	a2, 88
	li	a1, 0
	call	memset
	beqz	s1, .LBB34974_12
	li	a0, 47
	bne	s0, a0, .LBB34974_12
	lui	a0, 1
	addi	a0, a0, 248
	add	a0, a0, sp
	li	a2, 1232
	li	a1, 0
	call	memset
	li	s0, 0
	j	.LBB34974_13
.LBB34974_12:
	lui	a0, 1
	addi	a0, a0, 248
	add	a0, a0, sp
	li	a2, 1144
	li	a1, 0
	call	memset
	li	s0, 1
.LBB34974_13:
	addi	a0, sp, 592
	lui	a1, 1
	addi	a1, a1, 248
	add	a1, a1, sp
	li	a2, 1232
	call	memcpy
	sd	s0, 1824(sp)
	sd	zero, 1832(sp)
	addi	s6, sp, 1840
	addi	a1, sp, 592
	li	a2, 1232
	mv	a0, s6
	call	memcpy
	sh	zero, 0(s8)
	addi	a0, sp, 1824
	addi	a1, sp, 2047
	addi	a1, a1, 1033
	mv	a2, s5
	call	end_objects.objects.ServerObjectServerMethod.begin
	addi	a0, sp, 1824
	mv	a1, s4
	ld	s2, 584(sp)
	mv	a2, s2
	call	end_objects.objects.ServerObjectServerMethod.first_into
	ld	s0, 0(s3)
	lbu	a0, 0(s8)
	sd	a0, 568(sp)
	lbu	a0, 1(s8)
	sd	a0, 560(sp)
	lbu	s4, 1824(sp)
	ld	s3, 1832(sp)
	addi	s1, s0, 2047
	sw	zero, 552(s8)
	sh	zero, 556(s8)
	lui	a0, 1
	addi	a0, a0, 248
	add	a0, a0, sp
	li	a2, 1232
	mv	a1, s6
	call	memcpy
	addi	a0, sp, 2047
	addi	a0, a0, 1583
	li	a2, 712
	li	a1, 0
	call	memset
	lbu	a0, 0(s0)
	sd	a0, 576(sp)
	lbu	t0, 8(s0)
	lbu	t2, 9(s0)
	lbu	a7, 10(s0)
	lbu	t1, 11(s0)
	lbu	a6, 12(s0)
	lbu	t3, 13(s0)
	lbu	t4, 14(s0)
	lbu	t5, 15(s0)
	lbu	a2, 24(s0)
	lbu	a1, 25(s0)
	lbu	s5, 26(s0)
	lbu	s6, 27(s0)
	lbu	t6, 28(s0)
	lbu	s8, 29(s0)
	lbu	s9, 30(s0)
	lbu	s10, 31(s0)
	lbu	a0, 1328(s0)
	sd	a0, 528(sp)
	lbu	a0, 1329(s0)
	sd	a0, 472(sp)
	lbu	a0, 1330(s0)
	sd	a0, 488(sp)
	lbu	a0, 1331(s0)
	sd	a0, 480(sp)
	lbu	a0, 1332(s0)
	sd	a0, 520(sp)
	lbu	a0, 1333(s0)
	sd	a0, 496(sp)
	lbu	a0, 1334(s0)
	sd	a0, 512(sp)
	lbu	a0, 1335(s0)
	sd	a0, 504(sp)
	sb	s4, 8(s0)
	srli	a4, s3, 40
	srli	a5, s3, 32
	sb	a5, 20(s0)
	srli	a5, s3, 48
	sb	a4, 21(s0)
	srli	a4, s3, 56
	sb	a5, 22(s0)
	srli	a5, s3, 24
	sb	a4, 23(s0)
	srli	a4, s3, 8
	sb	s3, 16(s0)
	srli	a0, s3, 16
	sb	a4, 17(s0)
	sb	a0, 18(s0)
	sb	a5, 19(s0)
	slli	t2, t2, 8
	or	t0, t2, t0
	lbu	a0, 1528(s0)
	sd	a0, 464(sp)
	lbu	a0, 1529(s0)
	sd	a0, 440(sp)
	lbu	a0, 1530(s0)
	sd	a0, 456(sp)
	lbu	a0, 1531(s0)
	sd	a0, 448(sp)
	slli	a7, a7, 16
	slli	t1, t1, 24
	slli	t3, t3, 8
	slli	t4, t4, 16
	slli	t5, t5, 24
	slli	a1, a1, 8
	or	t2, t1, a7
	or	a6, t3, a6
	or	t1, t5, t4
	or	a7, a1, a2
	lbu	a3, 577(s1)
	lbu	a0, 578(s1)
	lbu	a5, 579(s1)
	lbu	a1, 580(s1)
	slli	s5, s5, 16
	slli	s6, s6, 24
	slli	s8, s8, 8
	slli	s9, s9, 16
	slli	s10, s10, 24
	slli	a0, a0, 8
	or	t3, s6, s5
	or	t4, s8, t6
	or	t6, s10, s9
	or	t5, a0, a3
	lbu	a3, 581(s1)
	lbu	a4, 582(s1)
	lbu	a0, 583(s1)
	lbu	a2, 584(s1)
	slli	a5, a5, 16
	slli	a1, a1, 24
	slli	a4, a4, 8
	slli	a0, a0, 16
	slli	a2, a2, 24
	or	a1, a1, a5
	or	a3, a3, a4
	or	a0, a0, a2
	or	t0, t2, t0
	lbu	a2, 1532(s0)
	sd	a2, 432(sp)
	lbu	a2, 1533(s0)
	sd	a2, 408(sp)
	lbu	a2, 1534(s0)
	sd	a2, 424(sp)
	lbu	a2, 1535(s0)
	sd	a2, 416(sp)
	or	a4, t1, a6
	or	a6, t3, a7
	or	a2, t6, t4
	or	a1, a1, t5
	lbu	a5, 1560(s0)
	sd	a5, 400(sp)
	lbu	a5, 1561(s0)
	sd	a5, 376(sp)
	lbu	a5, 1562(s0)
	sd	a5, 392(sp)
	lbu	a5, 1563(s0)
	sd	a5, 384(sp)
	sb	zero, 4(s0)
	sb	zero, 5(s0)
	sb	zero, 6(s0)
	sb	zero, 7(s0)
	or	a0, a0, a3
	li	a3, 2
	sb	zero, 12(s0)
	sb	zero, 13(s0)
	sb	zero, 14(s0)
	sb	zero, 15(s0)
	sb	zero, 9(s0)
	sb	zero, 10(s0)
	sb	zero, 11(s0)
	sb	a3, 0(s0)
	sb	zero, 1(s0)
	sb	zero, 2(s0)
	slli	a4, a4, 32
	slli	a2, a2, 32
	slli	a0, a0, 32
	or	a3, a4, t0
	sd	a3, 544(sp)
	or	a2, a2, a6
	sd	a2, 552(sp)
	or	a0, a0, a1
	sd	a0, 536(sp)
	lbu	a0, 1564(s0)
	sd	a0, 368(sp)
	lbu	a0, 1565(s0)
	sd	a0, 336(sp)
	lbu	a0, 1566(s0)
	sd	a0, 360(sp)
	lbu	a0, 1567(s0)
	sd	a0, 352(sp)
	lbu	a0, 1976(s0)
	sd	a0, 344(sp)
	lbu	a0, 1977(s0)
	sd	a0, 280(sp)
	lbu	a0, 1978(s0)
	sd	a0, 296(sp)
	lbu	a0, 1979(s0)
	sd	a0, 288(sp)
	lbu	a0, 1980(s0)
	sd	a0, 328(sp)
	lbu	a0, 1981(s0)
	sd	a0, 304(sp)
	lbu	a0, 1982(s0)
	sd	a0, 320(sp)
	lbu	a0, 1983(s0)
	sd	a0, 312(sp)
	lbu	a0, 249(s1)
	sd	a0, 88(sp)
	lbu	a0, 250(s1)
	sd	a0, 16(sp)
	lbu	a0, 251(s1)
	sd	a0, 32(sp)
	lbu	a0, 252(s1)
	sd	a0, 24(sp)
	lbu	a0, 253(s1)
	sd	a0, 80(sp)
	lbu	a0, 254(s1)
	sd	a0, 40(sp)
	lbu	a0, 255(s1)
	sd	a0, 56(sp)
	lbu	a0, 256(s1)
	sd	a0, 48(sp)
	lbu	a0, 265(s1)
	sd	a0, 272(sp)
	lbu	a0, 266(s1)
	sd	a0, 184(sp)
	lbu	a0, 267(s1)
	sd	a0, 200(sp)
	lbu	a0, 268(s1)
	sd	a0, 192(sp)
	lbu	a0, 269(s1)
	sd	a0, 264(sp)
	lbu	a0, 270(s1)
	sd	a0, 208(sp)
	lbu	a0, 271(s1)
	sd	a0, 232(sp)
	lbu	a0, 272(s1)
	sd	a0, 224(sp)
	lbu	a0, 281(s1)
	sd	a0, 64(sp)
	lbu	a0, 282(s1)
	sd	a0, 152(sp)
	lbu	a0, 283(s1)
	sd	a0, 128(sp)
	lbu	a0, 284(s1)
	sd	a0, 112(sp)
	lbu	a0, 285(s1)
	sd	a0, 72(sp)
	lbu	s9, 286(s1)
	lbu	s11, 287(s1)
	lbu	s3, 288(s1)
	lbu	a0, 297(s1)
	sd	a0, 256(sp)
	lbu	s8, 298(s1)
	lbu	s10, 299(s1)
	lbu	s4, 300(s1)
	lbu	a0, 301(s1)
	sd	a0, 248(sp)
	lbu	s6, 302(s1)
	lbu	a0, 303(s1)
	sd	a0, 104(sp)
	lbu	a0, 304(s1)
	sd	a0, 96(sp)
	lbu	a0, 305(s1)
	sd	a0, 240(sp)
	lbu	a0, 306(s1)
	sd	a0, 120(sp)
	lbu	a0, 307(s1)
	sd	a0, 144(sp)
	lbu	a0, 308(s1)
	sd	a0, 136(sp)
	lbu	a0, 309(s1)
	sd	a0, 216(sp)
	lbu	a0, 310(s1)
	sd	a0, 160(sp)
	lbu	a0, 311(s1)
	sd	a0, 176(sp)
	lbu	a0, 312(s1)
	sd	a0, 168(sp)
	sb	zero, 3(s0)
	addi	a0, s0, 24
	addi	s5, s0, 1984
	lui	a1, 1
	addi	a1, a1, 248
	add	a1, a1, sp
	li	a2, 1232
	call	memcpy
	ld	a0, 568(sp)
	sb	a0, 1256(s0)
	ld	a0, 560(sp)
	sb	a0, 1257(s0)
	addi	a0, s0, 1258
	addi	a1, sp, 2047
	addi	a1, a1, 1577
	li	a2, 718
	call	memcpy
	srli	a0, s2, 56
	srli	a1, s2, 48
	srli	a2, s2, 40
	srli	a3, s2, 32
	srli	a4, s2, 24
	srli	a5, s2, 16
	sb	a3, 1980(s0)
	sb	a2, 1981(s0)
	sb	a1, 1982(s0)
	sb	a0, 1983(s0)
	srli	a0, s2, 8
	sb	s2, 1976(s0)
	sb	a0, 1977(s0)
	sb	a5, 1978(s0)
	sb	a4, 1979(s0)
	li	a2, 648
	mv	a0, s5
	li	a1, 0
	call	memset
	ld	a0, 576(sp)
	slli	a0, a0, 2
.Lpcrel_hi83:
	auipc	a1, %pcrel_hi(.LJTI34974_0)
	addi	a1, a1, %pcrel_lo(.Lpcrel_hi83)
	add	a0, a0, a1
	lw	a0, 0(a0)
	add	a0, a0, a1
	jr	a0
.LBB34974_14:
	ld	a0, 544(sp)
	ld	s2, 536(sp)
	ld	a1, 552(sp)
	bnez	a1, .LBB34974_18
	j	.LBB34974_19
.LBB34974_15:
	ld	a6, 280(sp)
	slli	a6, a6, 8
	ld	a1, 296(sp)
	slli	a1, a1, 16
	ld	a2, 288(sp)
	slli	a2, a2, 24
	ld	a3, 304(sp)
	slli	a3, a3, 8
	ld	a4, 320(sp)
	slli	a4, a4, 16
	ld	a5, 312(sp)
	slli	a5, a5, 24
	ld	a0, 344(sp)
	or	a0, a6, a0
	or	a1, a1, a2
	ld	a2, 328(sp)
	j	.LBB34974_25
.LBB34974_16:
	ld	t6, 152(sp)
	ld	ra, 112(sp)
	ld	s5, 128(sp)
	sd	s9, 568(sp)
	sd	s3, 584(sp)
	sd	s11, 576(sp)
	slli	s8, s8, 8
	slli	s10, s10, 16
	slli	s4, s4, 24
	slli	s6, s6, 8
	ld	s9, 104(sp)
	slli	s9, s9, 16
	ld	s3, 96(sp)
	slli	s3, s3, 24
	ld	s11, 120(sp)
	slli	s11, s11, 8
	ld	a6, 144(sp)
	slli	a6, a6, 16
	ld	a7, 136(sp)
	slli	a7, a7, 24
	ld	t0, 160(sp)
	slli	t0, t0, 8
	ld	t1, 176(sp)
	slli	t1, t1, 16
	ld	t2, 168(sp)
	slli	t2, t2, 24
	ld	a0, 256(sp)
	or	t3, s8, a0
	or	t4, s4, s10
	ld	a0, 248(sp)
	or	t5, s6, a0
	or	a2, s3, s9
	ld	a0, 240(sp)
	or	a3, s11, a0
	or	a4, a7, a6
	ld	a0, 216(sp)
	or	a5, t0, a0
	or	a0, t2, t1
	or	a1, t4, t3
	or	a2, a2, t5
	or	a3, a3, a4
	or	a0, a0, a5
	slli	a2, a2, 32
	or	a1, a1, a2
	slli	a0, a0, 32
	or	s2, a0, a3
	beqz	a1, .LBB34974_19
	slli	a6, t6, 8
	slli	a1, s5, 16
	slli	a2, ra, 24
	ld	a3, 568(sp)
	slli	a3, a3, 8
	ld	a4, 576(sp)
	slli	a4, a4, 16
	ld	a5, 584(sp)
	slli	a5, a5, 24
	ld	a0, 64(sp)
	or	a0, a6, a0
	or	a1, a1, a2
	ld	a2, 72(sp)
	or	a2, a2, a3
	or	a4, a4, a5
	or	a0, a0, a1
	or	a2, a2, a4
	slli	a2, a2, 32
	or	a0, a0, a2
.LBB34974_18:
	call	rattle_dealloc
.LBB34974_19:
	mv	a0, s2
	j	.LBB34974_26
.LBB34974_20:
	ld	a6, 184(sp)
	slli	a6, a6, 8
	ld	a1, 200(sp)
	slli	a1, a1, 16
	ld	a2, 192(sp)
	slli	a2, a2, 24
	ld	a3, 208(sp)
	slli	a3, a3, 8
	ld	a4, 232(sp)
	slli	a4, a4, 16
	ld	a5, 224(sp)
	slli	a5, a5, 24
	ld	a0, 272(sp)
	or	a0, a6, a0
	or	a1, a1, a2
	ld	a2, 264(sp)
	or	a2, a2, a3
	or	a4, a4, a5
	or	a0, a0, a1
	or	a2, a2, a4
	slli	a2, a2, 32
	or	a0, a0, a2
	beqz	a0, .LBB34974_27
	ld	a6, 16(sp)
	slli	a6, a6, 8
	ld	a1, 32(sp)
	slli	a1, a1, 16
	ld	a2, 24(sp)
	slli	a2, a2, 24
	ld	a3, 40(sp)
	slli	a3, a3, 8
	ld	a4, 56(sp)
	slli	a4, a4, 16
	ld	a5, 48(sp)
	slli	a5, a5, 24
	ld	a0, 88(sp)
	or	a0, a6, a0
	or	a1, a1, a2
	ld	a2, 80(sp)
	j	.LBB34974_25
.LBB34974_22:
	ld	a6, 472(sp)
	slli	a6, a6, 8
	ld	a1, 488(sp)
	slli	a1, a1, 16
	ld	a2, 480(sp)
	slli	a2, a2, 24
	ld	a3, 496(sp)
	slli	a3, a3, 8
	ld	a4, 512(sp)
	slli	a4, a4, 16
	ld	a5, 504(sp)
	slli	a5, a5, 24
	ld	a0, 528(sp)
	or	a0, a6, a0
	or	a1, a1, a2
	ld	a2, 520(sp)
	j	.LBB34974_25
.LBB34974_23:
	ld	a6, 440(sp)
	slli	a6, a6, 8
	ld	a1, 456(sp)
	slli	a1, a1, 16
	ld	a2, 448(sp)
	slli	a2, a2, 24
	ld	a3, 408(sp)
	slli	a3, a3, 8
	ld	a4, 424(sp)
	slli	a4, a4, 16
	ld	a5, 416(sp)
	slli	a5, a5, 24
	ld	a0, 464(sp)
	or	a0, a6, a0
	or	a1, a1, a2
	ld	a2, 432(sp)
	j	.LBB34974_25
.LBB34974_24:
	ld	a6, 376(sp)
	slli	a6, a6, 8
	ld	a1, 392(sp)
	slli	a1, a1, 16
	ld	a2, 384(sp)
	slli	a2, a2, 24
	ld	a3, 336(sp)
	slli	a3, a3, 8
	ld	a4, 360(sp)
	slli	a4, a4, 16
	ld	a5, 352(sp)
	slli	a5, a5, 24
	ld	a0, 400(sp)
	or	a0, a6, a0
	or	a1, a1, a2
	ld	a2, 368(sp)
.LBB34974_25:
	or	a2, a2, a3
	or	a4, a4, a5
	or	a0, a0, a1
	or	a2, a2, a4
	slli	a2, a2, 32
	or	a0, a0, a2
.LBB34974_26:
	call	rattle_dealloc
.LBB34974_27:
	lbu	a0, 0(s0)
	li	a1, 2
	bne	a0, a1, .LBB34974_29
	addi	a0, s0, 1264
	mv	a1, s7
	call	tuvaddri_c.users.put
.LBB34974_29:
	li	a0, 0
	li	a1, 1
	sb	a1, 585(s1)
.LBB34974_30:
	addi	sp, sp, 2032
	addi	sp, sp, 1616
	ld	ra, 2024(sp)
	ld	s0, 2016(sp)
	ld	s1, 2008(sp)
	ld	s2, 2000(sp)
	ld	s3, 1992(sp)
	ld	s4, 1984(sp)
	ld	s5, 1976(sp)
	ld	s6, 1968(sp)
	ld	s7, 1960(sp)
	ld	s8, 1952(sp)
	ld	s9, 1944(sp)
	ld	s10, 1936(sp)
	ld	s11, 1928(sp)
	addi	sp, sp, 2032
	ret
.Lfunc_end34974:
	.size	tuv_server_method_begin, .Lfunc_end34974-tuv_server_method_begin
	.section	.rodata.tuv_server_method_begin,"a",@progbits
	.p2align	2, 0x0
.LJTI34974_0:
	.word	.LBB34974_27-.LJTI34974_0
	.word	.LBB34974_22-.LJTI34974_0
	.word	.LBB34974_15-.LJTI34974_0
	.word	.LBB34974_20-.LJTI34974_0
	.word	.LBB34974_14-.LJTI34974_0
	.word	.LBB34974_14-.LJTI34974_0
	.word	.LBB34974_23-.LJTI34974_0
	.word	.LBB34974_16-.LJTI34974_0
	.word	.LBB34974_24-.LJTI34974_0

	.section	.text.tuv_server_method_handle,"ax",@progbits
	.globl	tuv_server_method_handle
	.p2align	1
	.type	tuv_server_method_handle,@function
tuv_server_method_handle:
	addi	sp, sp, -1600
	sd	ra, 1592(sp)
	sd	s0, 1584(sp)
	sd	s1, 1576(sp)
	sd	s2, 1568(sp)
	sd	s3, 1560(sp)
	sd	s4, 1552(sp)
	sd	s5, 1544(sp)
	sd	s6, 1536(sp)
	ld	s1, 0(a0)
	lbu	a0, 0(s1)
	li	a4, 2
	bne	a0, a4, .LBBd20b6_3
	lbu	a0, 8(s1)
	seqz	a4, a1
	slli	a4, a4, 12
	add	a1, a1, a4
	mv	s6, a3
	beqz	a0, .LBBd20b6_4
	li	s0, 51
	j	.LBBd20b6_5
.LBBd20b6_3:
	li	s0, 0
	li	a2, 0
	li	a1, 0
	li	a0, 0
	li	a3, 0
	addi	a4, s1, 2047
	sb	zero, 585(a4)
	li	a4, 1
	j	.LBBd20b6_15
.LBBd20b6_4:
	li	s0, 47
.LBBd20b6_5:
	sd	zero, 56(sp)
	sd	zero, 64(sp)
	sd	zero, 24(sp)
	sd	zero, 32(sp)
	sd	zero, 40(sp)
	sd	zero, 48(sp)
	addi	a0, sp, 24
	call	eap_packet.packet.decode
	lbu	a1, 24(sp)
	li	a0, 1
	bne	a1, a0, .LBBd20b6_7
	lbu	a1, 25(sp)
	j	.LBBd20b6_14
.LBBd20b6_7:
	lbu	a1, 32(sp)
	bne	a1, a0, .LBBd20b6_12
	lbu	a0, 34(sp)
	bne	a0, s0, .LBBd20b6_13
	ld	s5, 56(sp)
	ld	s2, 64(sp)
	addi	s3, s1, 8
	addi	s4, s1, 1264
	addi	a0, sp, 24
	li	a2, 1512
	li	a1, 0
	call	memset
	ld	a5, 1968(s1)
	sd	zero, 8(sp)
	sd	zero, 16(sp)
	addi	a6, sp, 24
	addi	a7, sp, 8
	mv	a0, s3
	mv	a1, s5
	mv	a2, s2
	mv	a3, s6
	mv	a4, s4
	call	end_objects.objects.ServerObjectServerMethod.handle_unrecorded
	zext.b	a2, a0
	beqz	a2, .LBBd20b6_16
	li	s0, 1
	bne	a2, s0, .LBBd20b6_17
	ld	a2, 1528(sp)
	ld	a0, 1976(s1)
	addi	a1, s1, 2047
	sb	s0, 585(a1)
	addi	a1, sp, 24
	call	octet_lists.octets.Octets.set.__1500_
	li	a2, 0
	li	a4, 0
	li	a1, 0
	li	a3, 0
	li	a0, 2
	j	.LBBd20b6_15
.LBBd20b6_12:
	li	a1, 7
	j	.LBBd20b6_14
.LBBd20b6_13:
	li	a1, 16
.LBBd20b6_14:
	li	s0, 0
	li	a4, 0
	li	a0, 0
	li	a3, 0
	addi	a2, s1, 2047
	sb	zero, 585(a2)
	li	a2, 1
.LBBd20b6_15:
	slli	a3, a3, 40
	zext.b	a0, a0
	zext.b	a1, a1
	slli	a4, a4, 16
	slli	a2, a2, 8
	slli	a0, a0, 32
	slli	a1, a1, 24
	or	a0, a0, a3
	or	a1, a1, a4
	or	a0, a0, a1
	or	a2, a2, s0
	or	a0, a0, a2
	ld	ra, 1592(sp)
	ld	s0, 1584(sp)
	ld	s1, 1576(sp)
	ld	s2, 1568(sp)
	ld	s3, 1560(sp)
	ld	s4, 1552(sp)
	ld	s5, 1544(sp)
	ld	s6, 1536(sp)
	addi	sp, sp, 1600
	ret
.LBBd20b6_16:
	li	a2, 1
	mv	a3, a0
	j	.LBBd20b6_18
.LBBd20b6_17:
	li	a2, 0
	slli	a1, a1, 1
	andi	a3, a1, 2
	li	a0, 4
	li	a1, 0
.LBBd20b6_18:
	li	s0, 0
	li	a4, 0
	addi	a5, s1, 2047
	sb	zero, 585(a5)
	j	.LBBd20b6_15
.Lfunc_endd20b6:
	.size	tuv_server_method_handle, .Lfunc_endd20b6-tuv_server_method_handle

	.section	.text.tuv_server_method_user,"ax",@progbits
	.globl	tuv_server_method_user
	.p2align	1
	.type	tuv_server_method_user,@function
tuv_server_method_user:
	addi	sp, sp, -48
	sd	ra, 40(sp)
	sd	s0, 32(sp)
	sd	s1, 24(sp)
	mv	s0, a1
	mv	s1, a0
	mv	a0, a1
	call	end_objects.refusals.user_refusal
	zext.b	a0, a0
	li	a2, 1
	bne	a0, a2, .LBB6dccb_2
	addi	a0, a1, 1
	j	.LBB6dccb_18
.LBB6dccb_2:
	ld	a6, 0(s1)
	lbu	a1, 0(a6)
	li	a2, 2
	bne	a1, a2, .LBB6dccb_6
	lbu	a1, 64(s0)
	lbu	a2, 65(s0)
	lbu	a3, 66(s0)
	lbu	a4, 67(s0)
	lbu	a7, 68(s0)
	lbu	s1, 69(s0)
	lbu	a0, 70(s0)
	lbu	a5, 71(s0)
	slli	a2, a2, 8
	slli	a3, a3, 16
	slli	a4, a4, 24
	or	t0, a2, a1
	or	t1, a4, a3
	lbu	a2, 48(s0)
	lbu	a4, 49(s0)
	lbu	a1, 50(s0)
	lbu	a3, 51(s0)
	slli	s1, s1, 8
	slli	a0, a0, 16
	slli	a5, a5, 24
	slli	a4, a4, 8
	slli	a1, a1, 16
	slli	a3, a3, 24
	or	a7, s1, a7
	or	a0, a0, a5
	or	a2, a2, a4
	or	a1, a1, a3
	lbu	a3, 53(s0)
	lbu	a4, 52(s0)
	lbu	a5, 54(s0)
	lbu	s1, 55(s0)
	slli	a3, a3, 8
	or	a3, a3, a4
	slli	a5, a5, 16
	slli	s1, s1, 24
	or	a5, a5, s1
	or	a4, t1, t0
	or	a0, a0, a7
	or	a1, a1, a2
	or	a3, a3, a5
	slli	a0, a0, 32
	or	a0, a0, a4
	slli	a2, a3, 32
	or	a2, a2, a1
	beqz	a0, .LBB6dccb_7
	snez	a1, a2
	beqz	a2, .LBB6dccb_8
	lui	a2, 3
	addi	a2, a2, -205
	j	.LBB6dccb_9
.LBB6dccb_6:
	li	a0, 9
	j	.LBB6dccb_18
.LBB6dccb_7:
	snez	a1, a2
	neg	a0, a1
	andi	a2, a0, 47
	j	.LBB6dccb_10
.LBB6dccb_8:
	li	a2, 51
.LBB6dccb_9:
	addi	a1, a1, 1
.LBB6dccb_10:
	lbu	a0, 8(a6)
	sd	a2, 8(sp)
	sd	a1, 16(sp)
	beqz	a0, .LBB6dccb_12
	li	a2, 51
	j	.LBB6dccb_13
.LBB6dccb_12:
	li	a2, 47
.LBB6dccb_13:
	addi	a3, sp, 8
.LBB6dccb_14:
	beqz	a1, .LBB6dccb_17
	lbu	a0, 0(a3)
	addi	a3, a3, 1
	addi	a1, a1, -1
	bne	a0, a2, .LBB6dccb_14
	addi	a0, a6, 1264
	mv	a1, s0
	call	tuvaddri_c.users.put
	li	a0, 0
	j	.LBB6dccb_18
.LBB6dccb_17:
	li	a0, 6
.LBB6dccb_18:
	ld	ra, 40(sp)
	ld	s0, 32(sp)
	ld	s1, 24(sp)
	addi	sp, sp, 48
	ret
.Lfunc_end6dccb:
	.size	tuv_server_method_user, .Lfunc_end6dccb-tuv_server_method_user

	.section	.text.tuv_server_restart,"ax",@progbits
	.globl	tuv_server_restart
	.p2align	1
	.type	tuv_server_restart,@function
tuv_server_restart:
	addi	sp, sp, -16
	sd	ra, 8(sp)
	mv	a2, a1
	ld	a1, 0(a0)
	sw	zero, 0(sp)
	sb	zero, 4(sp)
	mv	a0, sp
	call	tuvaddri_c.restart.restart_server
	lbu	a0, 4(sp)
	lwu	a1, 0(sp)
	slli	a0, a0, 32
	or	a0, a0, a1
	ld	ra, 8(sp)
	addi	sp, sp, 16
	ret
.Lfunc_endeb68b:
	.size	tuv_server_restart, .Lfunc_endeb68b-tuv_server_restart

	.section	.text.tuv_server_set_user,"ax",@progbits
	.globl	tuv_server_set_user
	.p2align	1
	.type	tuv_server_set_user,@function
tuv_server_set_user:
	addi	sp, sp, -32
	sd	ra, 24(sp)
	sd	s0, 16(sp)
	sd	s1, 8(sp)
	mv	s0, a1
	mv	s1, a0
	mv	a0, a1
	call	end_objects.refusals.user_refusal
	zext.b	a0, a0
	li	a2, 1
	bne	a0, a2, .LBB6ae71_2
	addi	a0, a1, 1
	j	.LBB6ae71_7
.LBB6ae71_2:
	ld	a1, 0(s1)
	lbu	a2, 0(a1)
	li	a0, 9
	li	a3, 463
	srl	a3, a3, a2
	andi	a3, a3, 1
	bnez	a3, .LBB6ae71_7
	addi	s1, a1, 8
	li	a0, 4
	bne	a2, a0, .LBB6ae71_5
	addi	a0, a1, 1912
	li	a2, 712
	li	a1, 0
	call	memset
	mv	a0, s1
	mv	a1, s0
	call	tuvaddri_c.by_method.add_users.__d37c63745cf5a212_
	j	.LBB6ae71_6
.LBB6ae71_5:
	addi	a0, a1, 1912
	li	a2, 712
	li	a1, 0
	call	memset
	mv	a0, s1
	mv	a1, s0
	call	tuvaddri_c.by_method.add_users.__93e2819ad231d5c1_
.LBB6ae71_6:
	li	a0, 0
.LBB6ae71_7:
	ld	ra, 24(sp)
	ld	s0, 16(sp)
	ld	s1, 8(sp)
	addi	sp, sp, 32
	ret
.Lfunc_end6ae71:
	.size	tuv_server_set_user, .Lfunc_end6ae71-tuv_server_set_user

	.section	.text.tuv_server_start,"ax",@progbits
	.globl	tuv_server_start
	.p2align	1
	.type	tuv_server_start,@function
tuv_server_start:
	addi	sp, sp, -1600
	sd	ra, 1592(sp)
	sd	s0, 1584(sp)
	sd	s1, 1576(sp)
	sd	s2, 1568(sp)
	sd	s3, 1560(sp)
	sd	s4, 1552(sp)
	ld	s1, 0(a0)
	lbu	a0, 0(s1)
	sd	zero, 32(sp)
	li	a1, 4
	addi	s0, s1, 2047
	bne	a0, a1, .LBB79895_3
	lbu	a0, 35(s1)
	bnez	a0, .LBB79895_3
	lbu	a0, 32(s1)
	li	a1, 1
	bne	a0, a1, .LBB79895_5
.LBB79895_3:
	li	s2, 0
	li	s3, 0
	li	a1, 0
	li	s1, 0
	sb	zero, 585(s0)
	li	a0, 1
.LBB79895_4:
	slli	s1, s1, 32
	zext.b	a1, a1
	slli	a0, a0, 16
	slli	s3, s3, 8
	slli	a1, a1, 24
	or	a1, a1, s1
	or	a0, a0, s3
	or	a0, a0, a1
	or	a0, a0, s2
	ld	ra, 1592(sp)
	ld	s0, 1584(sp)
	ld	s1, 1576(sp)
	ld	s2, 1568(sp)
	ld	s3, 1560(sp)
	ld	s4, 1552(sp)
	addi	sp, sp, 1600
	ret
.LBB79895_5:
	addi	s2, s1, 8
	addi	a0, sp, 40
	li	a2, 1512
	li	a1, 0
	call	memset
	addi	a0, sp, 16
	addi	a2, sp, 40
	mv	a1, s2
	call	server_machine.machine.SizedServer.start_step.__575f94f35bca5e04_
	lbu	s3, 32(sp)
	lbu	s4, 33(sp)
	lbu	s2, 34(sp)
	ld	a2, 1544(sp)
	lbu	s1, 35(s1)
	ld	a0, 577(s0)
	andi	a1, s2, 1
	sb	s2, 585(s0)
	beqz	a1, .LBB79895_7
	addi	a1, sp, 40
	call	octet_lists.octets.Octets.set.__1500_
.LBB79895_7:
	li	a0, 0
	seqz	a1, s3
	addi	a1, a1, -1
	and	a1, a1, s4
	j	.LBB79895_4
.Lfunc_end79895:
	.size	tuv_server_start, .Lfunc_end79895-tuv_server_start

	.section	.text.tuv_server_timeout,"ax",@progbits
	.globl	tuv_server_timeout
	.p2align	1
	.type	tuv_server_timeout,@function
tuv_server_timeout:
	addi	sp, sp, -1568
	sd	ra, 1560(sp)
	sd	s0, 1552(sp)
	sd	s1, 1544(sp)
	sd	s2, 1536(sp)
	sd	s3, 1528(sp)
	ld	s1, 0(a0)
	lbu	a0, 0(s1)
	li	a1, 4
	addi	s2, s1, 2047
	bne	a0, a1, .LBBa4dc4_2
	lbu	a0, 32(s1)
	li	a1, 1
	bne	a0, a1, .LBBa4dc4_4
.LBBa4dc4_2:
	li	s3, 0
	li	s0, 0
	sb	zero, 585(s2)
	li	a0, 1
.LBBa4dc4_3:
	slli	s0, s0, 32
	slli	a0, a0, 16
	or	a1, s0, s3
	or	a0, a0, a1
	ld	ra, 1560(sp)
	ld	s0, 1552(sp)
	ld	s1, 1544(sp)
	ld	s2, 1536(sp)
	ld	s3, 1528(sp)
	addi	sp, sp, 1568
	ret
.LBBa4dc4_4:
	lbu	a0, 35(s1)
	lui	a1, 784895
	slli	a1, a1, 20
	srli	a1, a1, 31
	srl	a0, a1, a0
	andi	a0, a0, 1
	beqz	a0, .LBBa4dc4_2
	addi	a0, sp, 16
	li	a2, 1512
	li	a1, 0
	call	memset
	lbu	a0, 41(s1)
	lbu	a1, 34(s1)
	addi	a0, a0, 1
	zext.b	a2, a0
	sb	a0, 41(s1)
	bgeu	a1, a2, .LBBa4dc4_7
	li	s3, 0
	li	a0, 0
	li	s0, 19
	sb	s0, 35(s1)
	sb	zero, 585(s2)
	j	.LBBa4dc4_3
.LBBa4dc4_7:
	ld	a2, 1568(s1)
	addi	a1, s1, 64
	addi	a0, sp, 16
	call	octet_lists.octets.Octets.set.__1500_
	lbu	s0, 35(s1)
	ld	a2, 1520(sp)
	ld	a0, 577(s2)
	li	s3, 1
	sb	s3, 585(s2)
	addi	a1, sp, 16
	call	octet_lists.octets.Octets.set.__1500_
	li	a0, 0
	j	.LBBa4dc4_3
.Lfunc_enda4dc4:
	.size	tuv_server_timeout, .Lfunc_enda4dc4-tuv_server_timeout

	.section	.text.tuv_supplicant_begin,"ax",@progbits
	.globl	tuv_supplicant_begin
	.p2align	1
	.type	tuv_supplicant_begin,@function
tuv_supplicant_begin:
	addi	sp, sp, -2032
	sd	ra, 2024(sp)
	sd	s0, 2016(sp)
	sd	s1, 2008(sp)
	sd	s2, 2000(sp)
	sd	s3, 1992(sp)
	sd	s4, 1984(sp)
	sd	s5, 1976(sp)
	sd	s6, 1968(sp)
	sd	s7, 1960(sp)
	sd	s8, 1952(sp)
	sd	s9, 1944(sp)
	sd	s10, 1936(sp)
	sd	s11, 1928(sp)
	addi	sp, sp, -1776
	mv	s7, a2
	mv	s0, a1
	mv	s2, a0
	lui	a2, 1
	addi	a2, a2, -1784
	addi	a0, sp, 1376
	li	a1, 0
	call	memset
	sd	zero, 1344(sp)
	sd	zero, 1352(sp)
	sd	zero, 1360(sp)
	sd	zero, 1368(sp)
	mv	a0, s0
	call	end_objects.refusals.peer_refusal
	zext.b	a0, a0
	li	a2, 1
	bne	a0, a2, .LBB9fb05_2
	addi	a0, a1, 1
	j	.LBB9fb05_25
.LBB9fb05_2:
	addi	s1, sp, 2047
	addi	s1, s1, 1641
	addi	a0, sp, 576
	mv	a1, s0
	call	end_objects.settings.named_kinds
	ld	a2, 584(sp)
	bnez	a2, .LBB9fb05_4
	lui	a0, 3
	addi	a0, a0, -205
	li	a2, 2
	j	.LBB9fb05_5
.LBB9fb05_4:
	ld	a0, 576(sp)
.LBB9fb05_5:
	sd	a0, 0(s1)
	sd	a2, 8(s1)
	addi	a0, sp, 1344
	addi	a1, sp, 2047
	addi	a1, a1, 1641
	call	end_objects.constructors.peer_objects
	lbu	a1, 1344(sp)
	li	a0, 8
	bnez	a1, .LBB9fb05_25
	ld	s4, 1352(sp)
	ld	s6, 1360(sp)
	ld	s5, 1368(sp)
	call	tuvaddri_c.sent.empty_frame
	zext.b	a0, a0
	li	a2, 1
	bne	a0, a2, .LBB9fb05_9
	mv	s3, a1
.Lpcrel_hi84:
	auipc	a2, %pcrel_hi(.Lstatic.14)
	addi	a2, a2, %pcrel_lo(.Lpcrel_hi84)
	addi	a0, sp, 576
	mv	a1, s0
	call	end_objects.settings.peer_setup
	sd	s4, 552(sp)
	sd	s6, 560(sp)
	sd	s5, 568(sp)
	addi	a0, sp, 1376
	addi	a1, sp, 576
	addi	a2, sp, 552
	call	peer_machine.machine.PeerMachine.new.__807681be332d694b_
	lbu	a3, 16(s7)
	ld	a1, 0(s2)
	lw	a2, 0(s7)
	lw	a0, 4(s7)
	lw	s11, 8(s7)
	lw	s5, 12(s7)
	li	a5, 7
	snez	s7, a3
	addi	s1, a1, 2047
	lbu	a3, 0(a1)
	sd	a3, 544(sp)
	lbu	t6, 8(a1)
	lbu	s8, 9(a1)
	lbu	s9, 10(a1)
	lbu	s10, 11(a1)
	lbu	s6, 12(a1)
	lbu	ra, 13(a1)
	lbu	t2, 14(a1)
	lbu	t3, 15(a1)
	lbu	t0, 24(a1)
	lbu	s2, 25(a1)
	lbu	t4, 26(a1)
	lbu	t5, 27(a1)
	lbu	t1, 28(a1)
	lbu	s4, 29(a1)
	lbu	a6, 30(a1)
	lbu	a7, 31(a1)
	sb	a5, 0(a1)
	srli	a5, a2, 24
	srli	a4, a2, 16
	srli	s0, a2, 8
	sb	a2, 8(a1)
	srli	a2, a0, 16
	srli	a3, a0, 8
	sb	s0, 9(a1)
	sb	a4, 10(a1)
	sb	a5, 11(a1)
	sb	a0, 12(a1)
	sb	a3, 13(a1)
	lbu	a3, 1328(a1)
	sd	a3, 512(sp)
	lbu	a3, 1329(a1)
	sd	a3, 488(sp)
	lbu	a3, 1330(a1)
	sd	a3, 504(sp)
	lbu	a3, 1331(a1)
	sd	a3, 496(sp)
	srli	a0, a0, 24
	sb	a2, 14(a1)
	srli	a2, s11, 24
	sb	a0, 15(a1)
	srli	a0, s11, 8
	sb	s11, 16(a1)
	srli	a3, s11, 16
	sb	a0, 17(a1)
	srli	a0, s5, 24
	sb	a3, 18(a1)
	srli	a3, s5, 16
	sb	a2, 19(a1)
	srli	a2, s5, 8
	sb	s5, 20(a1)
	sb	a2, 21(a1)
	sb	a3, 22(a1)
	sb	a0, 23(a1)
	lbu	a0, 1332(a1)
	sd	a0, 480(sp)
	lbu	a0, 1333(a1)
	sd	a0, 456(sp)
	lbu	a0, 1334(a1)
	sd	a0, 472(sp)
	lbu	a0, 1335(a1)
	sd	a0, 464(sp)
	sb	s7, 24(a1)
	slli	s8, s8, 8
	slli	s9, s9, 16
	slli	s10, s10, 24
	slli	ra, ra, 8
	or	t6, s8, t6
	or	s5, s10, s9
	or	s6, ra, s6
	lbu	a0, 1528(a1)
	sd	a0, 448(sp)
	lbu	a0, 1529(a1)
	sd	a0, 424(sp)
	lbu	a0, 1530(a1)
	sd	a0, 440(sp)
	lbu	a0, 1531(a1)
	sd	a0, 432(sp)
	slli	t2, t2, 16
	slli	t3, t3, 24
	slli	s2, s2, 8
	slli	t4, t4, 16
	slli	t5, t5, 24
	slli	s4, s4, 8
	or	a4, t3, t2
	or	a5, s2, t0
	or	s0, t5, t4
	or	t0, s4, t1
	lbu	t1, 577(s1)
	lbu	a3, 578(s1)
	lbu	t2, 579(s1)
	lbu	a2, 580(s1)
	slli	a6, a6, 16
	slli	a7, a7, 24
	or	a0, a7, a6
	or	a6, s5, t6
	or	t3, a4, s6
	or	a7, s0, a5
	lbu	s0, 581(s1)
	lbu	a5, 582(s1)
	lbu	a4, 583(s1)
	lbu	t4, 584(s1)
	slli	a3, a3, 8
	slli	t2, t2, 16
	slli	a2, a2, 24
	slli	a5, a5, 8
	or	a0, a0, t0
	or	a3, a3, t1
	or	a2, a2, t2
	or	a5, a5, s0
	lbu	s0, 1532(a1)
	sd	s0, 416(sp)
	lbu	s0, 1533(a1)
	sd	s0, 392(sp)
	lbu	s0, 1534(a1)
	sd	s0, 408(sp)
	lbu	s0, 1535(a1)
	sd	s0, 400(sp)
	slli	a4, a4, 16
	slli	t4, t4, 24
	or	a4, t4, a4
	slli	t3, t3, 32
	or	a2, a2, a3
	or	a4, a4, a5
	or	a3, t3, a6
	sd	a3, 536(sp)
	lbu	a3, 1560(a1)
	sd	a3, 384(sp)
	lbu	a3, 1561(a1)
	sd	a3, 360(sp)
	lbu	a3, 1562(a1)
	sd	a3, 376(sp)
	lbu	a3, 1563(a1)
	sd	a3, 368(sp)
	sb	zero, 4(a1)
	sb	zero, 5(a1)
	sb	zero, 6(a1)
	sb	zero, 7(a1)
	sb	zero, 1(a1)
	sb	zero, 2(a1)
	sb	zero, 3(a1)
	slli	a0, a0, 32
	or	a0, a0, a7
	sd	a0, 528(sp)
	slli	a4, a4, 32
	or	a2, a2, a4
	sd	a2, 520(sp)
	lbu	a0, 1564(a1)
	sd	a0, 352(sp)
	lbu	a0, 1565(a1)
	sd	a0, 320(sp)
	lbu	a0, 1566(a1)
	sd	a0, 344(sp)
	lbu	a0, 1567(a1)
	sd	a0, 336(sp)
	lbu	a0, 1976(a1)
	sd	a0, 328(sp)
	lbu	a0, 1977(a1)
	sd	a0, 264(sp)
	lbu	a0, 1978(a1)
	sd	a0, 280(sp)
	lbu	a0, 1979(a1)
	sd	a0, 272(sp)
	lbu	a0, 1980(a1)
	sd	a0, 312(sp)
	lbu	a0, 1981(a1)
	sd	a0, 288(sp)
	lbu	a0, 1982(a1)
	sd	a0, 304(sp)
	lbu	a0, 1983(a1)
	sd	a0, 296(sp)
	lbu	a0, 249(s1)
	sd	a0, 72(sp)
	lbu	a0, 250(s1)
	sd	a0, 8(sp)
	lbu	a0, 251(s1)
	sd	a0, 24(sp)
	lbu	a0, 252(s1)
	sd	a0, 16(sp)
	lbu	a0, 253(s1)
	sd	a0, 64(sp)
	lbu	a0, 254(s1)
	sd	a0, 32(sp)
	lbu	a0, 255(s1)
	sd	a0, 48(sp)
	lbu	a0, 256(s1)
	sd	a0, 40(sp)
	lbu	a0, 265(s1)
	sd	a0, 256(sp)
	lbu	a0, 266(s1)
	sd	a0, 168(sp)
	lbu	a0, 267(s1)
	sd	a0, 184(sp)
	lbu	a0, 268(s1)
	sd	a0, 176(sp)
	lbu	a0, 269(s1)
	sd	a0, 248(sp)
	lbu	a0, 270(s1)
	sd	a0, 192(sp)
	lbu	a0, 271(s1)
	sd	a0, 216(sp)
	lbu	a0, 272(s1)
	sd	a0, 208(sp)
	lbu	a0, 281(s1)
	sd	a0, 144(sp)
	lbu	a0, 282(s1)
	sd	a0, 128(sp)
	lbu	a0, 283(s1)
	sd	a0, 104(sp)
	lbu	a0, 284(s1)
	sd	a0, 88(sp)
	lbu	a0, 285(s1)
	sd	a0, 56(sp)
	lbu	s9, 286(s1)
	lbu	s2, 287(s1)
	lbu	s10, 288(s1)
	lbu	a0, 297(s1)
	sd	a0, 240(sp)
	lbu	s6, 298(s1)
	lbu	s8, 299(s1)
	lbu	s7, 300(s1)
	lbu	a0, 301(s1)
	sd	a0, 232(sp)
	lbu	s4, 302(s1)
	lbu	s11, 303(s1)
	lbu	a0, 304(s1)
	sd	a0, 80(sp)
	lbu	a0, 305(s1)
	sd	a0, 224(sp)
	lbu	a0, 306(s1)
	sd	a0, 96(sp)
	lbu	a0, 307(s1)
	sd	a0, 120(sp)
	lbu	a0, 308(s1)
	sd	a0, 112(sp)
	lbu	a0, 309(s1)
	sd	a0, 200(sp)
	lbu	a0, 310(s1)
	sd	a0, 136(sp)
	lbu	a0, 311(s1)
	sd	a0, 160(sp)
	lbu	a0, 312(s1)
	sd	a0, 152(sp)
	addi	a0, a1, 25
	addi	s0, a1, 40
	addi	s5, s1, 313
	li	a2, 15
	li	a1, 0
	call	memset
	lui	a2, 1
	addi	a2, a2, -1784
	addi	a1, sp, 1376
	mv	a0, s0
	call	memcpy
	srli	a0, s3, 56
	srli	a1, s3, 48
	srli	a2, s3, 40
	srli	a3, s3, 32
	srli	a4, s3, 24
	srli	a5, s3, 16
	sb	a3, 309(s1)
	sb	a2, 310(s1)
	sb	a1, 311(s1)
	sb	a0, 312(s1)
	srli	a0, s3, 8
	sb	s3, 305(s1)
	sb	a0, 306(s1)
	sb	a5, 307(s1)
	sb	a4, 308(s1)
	li	a2, 272
	mv	a0, s5
	li	a1, 0
	call	memset
	ld	a0, 544(sp)
	slli	a0, a0, 2
.Lpcrel_hi85:
	auipc	a1, %pcrel_hi(.LJTI9fb05_0)
	addi	a1, a1, %pcrel_lo(.Lpcrel_hi85)
	add	a0, a0, a1
	lw	a0, 0(a0)
	add	a0, a0, a1
	jr	a0
.LBB9fb05_8:
	ld	s0, 520(sp)
	ld	a0, 536(sp)
	ld	a1, 528(sp)
	bnez	a1, .LBB9fb05_15
	j	.LBB9fb05_16
.LBB9fb05_9:
	beqz	s5, .LBB9fb05_11
	mv	a0, s4
	call	rattle_dealloc
.LBB9fb05_11:
	li	a0, 8
	j	.LBB9fb05_25
.LBB9fb05_12:
	ld	s0, 264(sp)
	slli	s0, s0, 8
	ld	a1, 280(sp)
	slli	a1, a1, 16
	ld	a2, 272(sp)
	slli	a2, a2, 24
	ld	a3, 288(sp)
	slli	a3, a3, 8
	ld	a4, 304(sp)
	slli	a4, a4, 16
	ld	a5, 296(sp)
	slli	a5, a5, 24
	ld	a0, 328(sp)
	or	a0, a0, s0
	or	a1, a1, a2
	ld	a2, 312(sp)
	j	.LBB9fb05_22
.LBB9fb05_13:
	ld	t4, 128(sp)
	ld	ra, 88(sp)
	ld	s5, 104(sp)
	mv	s3, s9
	mv	t6, s10
	mv	t5, s2
	ld	t3, 144(sp)
	slli	s6, s6, 8
	slli	s8, s8, 16
	slli	s7, s7, 24
	slli	s4, s4, 8
	slli	s11, s11, 16
	ld	s9, 80(sp)
	slli	s9, s9, 24
	ld	s2, 96(sp)
	slli	s2, s2, 8
	ld	s10, 120(sp)
	slli	s10, s10, 16
	ld	a6, 112(sp)
	slli	a6, a6, 24
	ld	a7, 136(sp)
	slli	a7, a7, 8
	ld	t0, 160(sp)
	slli	t0, t0, 16
	ld	t1, 152(sp)
	slli	t1, t1, 24
	ld	a0, 240(sp)
	or	t2, s6, a0
	or	a5, s7, s8
	ld	a0, 232(sp)
	or	s0, s4, a0
	or	a0, s9, s11
	ld	a1, 224(sp)
	or	a1, s2, a1
	or	a2, a6, s10
	ld	a3, 200(sp)
	or	a3, a7, a3
	or	a4, t1, t0
	or	a5, a5, t2
	or	a0, a0, s0
	or	a1, a1, a2
	or	a3, a3, a4
	slli	a0, a0, 32
	or	a0, a0, a5
	slli	a3, a3, 32
	or	s0, a3, a1
	beqz	a0, .LBB9fb05_16
	slli	a0, t4, 8
	slli	a1, s5, 16
	slli	a2, ra, 24
	slli	a3, s3, 8
	slli	a4, t5, 16
	slli	a5, t6, 24
	or	a0, a0, t3
	or	a1, a1, a2
	ld	a2, 56(sp)
	or	a2, a2, a3
	or	a4, a4, a5
	or	a0, a0, a1
	or	a2, a2, a4
	slli	a2, a2, 32
	or	a0, a0, a2
.LBB9fb05_15:
	call	rattle_dealloc
.LBB9fb05_16:
	mv	a0, s0
	j	.LBB9fb05_23
.LBB9fb05_17:
	ld	s0, 168(sp)
	slli	s0, s0, 8
	ld	a1, 184(sp)
	slli	a1, a1, 16
	ld	a2, 176(sp)
	slli	a2, a2, 24
	ld	a3, 192(sp)
	slli	a3, a3, 8
	ld	a4, 216(sp)
	slli	a4, a4, 16
	ld	a5, 208(sp)
	slli	a5, a5, 24
	ld	a0, 256(sp)
	or	a0, a0, s0
	or	a1, a1, a2
	ld	a2, 248(sp)
	or	a2, a2, a3
	or	a4, a4, a5
	or	a0, a0, a1
	or	a2, a2, a4
	slli	a2, a2, 32
	or	a0, a0, a2
	beqz	a0, .LBB9fb05_24
	ld	s0, 8(sp)
	slli	s0, s0, 8
	ld	a1, 24(sp)
	slli	a1, a1, 16
	ld	a2, 16(sp)
	slli	a2, a2, 24
	ld	a3, 32(sp)
	slli	a3, a3, 8
	ld	a4, 48(sp)
	slli	a4, a4, 16
	ld	a5, 40(sp)
	slli	a5, a5, 24
	ld	a0, 72(sp)
	or	a0, a0, s0
	or	a1, a1, a2
	ld	a2, 64(sp)
	j	.LBB9fb05_22
.LBB9fb05_19:
	ld	s0, 488(sp)
	slli	s0, s0, 8
	ld	a1, 504(sp)
	slli	a1, a1, 16
	ld	a2, 496(sp)
	slli	a2, a2, 24
	ld	a3, 456(sp)
	slli	a3, a3, 8
	ld	a4, 472(sp)
	slli	a4, a4, 16
	ld	a5, 464(sp)
	slli	a5, a5, 24
	ld	a0, 512(sp)
	or	a0, a0, s0
	or	a1, a1, a2
	ld	a2, 480(sp)
	j	.LBB9fb05_22
.LBB9fb05_20:
	ld	s0, 424(sp)
	slli	s0, s0, 8
	ld	a1, 440(sp)
	slli	a1, a1, 16
	ld	a2, 432(sp)
	slli	a2, a2, 24
	ld	a3, 392(sp)
	slli	a3, a3, 8
	ld	a4, 408(sp)
	slli	a4, a4, 16
	ld	a5, 400(sp)
	slli	a5, a5, 24
	ld	a0, 448(sp)
	or	a0, a0, s0
	or	a1, a1, a2
	ld	a2, 416(sp)
	j	.LBB9fb05_22
.LBB9fb05_21:
	ld	s0, 360(sp)
	slli	s0, s0, 8
	ld	a1, 376(sp)
	slli	a1, a1, 16
	ld	a2, 368(sp)
	slli	a2, a2, 24
	ld	a3, 320(sp)
	slli	a3, a3, 8
	ld	a4, 344(sp)
	slli	a4, a4, 16
	ld	a5, 336(sp)
	slli	a5, a5, 24
	ld	a0, 384(sp)
	or	a0, a0, s0
	or	a1, a1, a2
	ld	a2, 352(sp)
.LBB9fb05_22:
	or	a2, a2, a3
	or	a4, a4, a5
	or	a0, a0, a1
	or	a2, a2, a4
	slli	a2, a2, 32
	or	a0, a0, a2
.LBB9fb05_23:
	call	rattle_dealloc
.LBB9fb05_24:
	li	a0, 0
	sb	zero, 585(s1)
.LBB9fb05_25:
	addi	sp, sp, 1776
	ld	ra, 2024(sp)
	ld	s0, 2016(sp)
	ld	s1, 2008(sp)
	ld	s2, 2000(sp)
	ld	s3, 1992(sp)
	ld	s4, 1984(sp)
	ld	s5, 1976(sp)
	ld	s6, 1968(sp)
	ld	s7, 1960(sp)
	ld	s8, 1952(sp)
	ld	s9, 1944(sp)
	ld	s10, 1936(sp)
	ld	s11, 1928(sp)
	addi	sp, sp, 2032
	ret
.Lfunc_end9fb05:
	.size	tuv_supplicant_begin, .Lfunc_end9fb05-tuv_supplicant_begin
	.section	.rodata.tuv_supplicant_begin,"a",@progbits
	.p2align	2, 0x0
.LJTI9fb05_0:
	.word	.LBB9fb05_24-.LJTI9fb05_0
	.word	.LBB9fb05_19-.LJTI9fb05_0
	.word	.LBB9fb05_12-.LJTI9fb05_0
	.word	.LBB9fb05_17-.LJTI9fb05_0
	.word	.LBB9fb05_8-.LJTI9fb05_0
	.word	.LBB9fb05_8-.LJTI9fb05_0
	.word	.LBB9fb05_20-.LJTI9fb05_0
	.word	.LBB9fb05_13-.LJTI9fb05_0
	.word	.LBB9fb05_21-.LJTI9fb05_0

	.section	.text.tuv_supplicant_control,"ax",@progbits
	.globl	tuv_supplicant_control
	.p2align	1
	.type	tuv_supplicant_control,@function
tuv_supplicant_control:
	addi	sp, sp, -1568
	sd	ra, 1560(sp)
	sd	s0, 1552(sp)
	sd	s1, 1544(sp)
	sd	s2, 1536(sp)
	sw	zero, 8(sp)
	sh	zero, 12(sp)
	sb	zero, 14(sp)
	ld	s0, 0(a0)
	addi	a1, a1, -1
	zext.b	a0, a1
	li	a2, 2
	addi	s1, s0, 2047
	bltu	a2, a0, .LBB09cbc_4
	lbu	a0, 0(s0)
	li	a2, 7
	bne	a0, a2, .LBB09cbc_4
	slli	a1, a1, 3
	lui	a0, 16
	addi	a0, a0, 2
	srl	s2, a0, a1
	addi	a0, sp, 16
	li	a2, 1512
	li	a1, 0
	call	memset
	lbu	a4, 30(s0)
	li	a0, 1
	bltu	a0, a4, .LBB09cbc_5
	sb	s2, 28(s0)
	sw	zero, 1528(sp)
	sb	zero, 1532(sp)
	j	.LBB09cbc_7
.LBB09cbc_4:
	li	a3, 0
	li	a1, 0
	li	a0, 0
	sb	zero, 585(s1)
	li	a2, 1
	j	.LBB09cbc_8
.LBB09cbc_5:
	lbu	a0, 28(s0)
	zext.b	a1, s2
	sw	zero, 1528(sp)
	sb	zero, 1532(sp)
	beq	a0, a1, .LBB09cbc_7
	addi	a1, s0, 8
	sb	s2, 28(s0)
	addi	a0, sp, 1528
	addi	a3, sp, 16
	mv	a2, s2
	call	supplicant.machine.Supplicant.begin.__807681be332d694b_
	lbu	a4, 30(s0)
.LBB09cbc_7:
	lbu	a3, 31(s0)
	ld	a5, 305(s1)
	addi	a6, s1, 585
	addi	a0, sp, 8
	addi	a1, sp, 1528
	addi	a2, sp, 16
	call	tuvaddri_c.supplicant_turn.TuvSupplicantTurn.of
	lbu	a3, 12(sp)
	lbu	a0, 8(sp)
	lbu	a1, 9(sp)
	lbu	a2, 10(sp)
	lbu	a4, 11(sp)
	lbu	a5, 13(sp)
	lbu	s1, 14(sp)
	slli	a3, a3, 8
	or	a3, a3, a4
	slli	a5, a5, 16
	slli	s1, s1, 24
	or	a5, a5, s1
	or	a3, a3, a5
.LBB09cbc_8:
	slli	a3, a3, 24
	slli	a2, a2, 16
	slli	a1, a1, 8
	or	a1, a1, a3
	or	a1, a1, a2
	or	a0, a0, a1
	ld	ra, 1560(sp)
	ld	s0, 1552(sp)
	ld	s1, 1544(sp)
	ld	s2, 1536(sp)
	addi	sp, sp, 1568
	ret
.Lfunc_end09cbc:
	.size	tuv_supplicant_control, .Lfunc_end09cbc-tuv_supplicant_control

	.section	.text.tuv_supplicant_frame,"ax",@progbits
	.globl	tuv_supplicant_frame
	.p2align	1
	.type	tuv_supplicant_frame,@function
tuv_supplicant_frame:
	addi	sp, sp, -1680
	sd	ra, 1672(sp)
	sd	s0, 1664(sp)
	sd	s1, 1656(sp)
	sd	s2, 1648(sp)
	sd	s3, 1640(sp)
	sd	s4, 1632(sp)
	sd	s5, 1624(sp)
	sd	s6, 1616(sp)
	sd	s7, 1608(sp)
	sd	s8, 1600(sp)
	mv	s1, a1
	ld	s8, 0(a0)
	lbu	a0, 0(s8)
	sw	zero, 16(sp)
	sh	zero, 20(sp)
	sb	zero, 22(sp)
	li	a1, 7
	addi	s7, s8, 2047
	bne	a0, a1, .LBBebfe5_3
	mv	s0, a2
	mv	s6, a3
	addi	a0, sp, 24
	li	a2, 1512
	li	a1, 0
	call	memset
	li	a0, 4
	bgeu	s0, a0, .LBBebfe5_4
	li	a0, 0
	li	a1, 0
	li	s1, 0
	li	s0, 0
	li	a2, 1
	j	.LBBebfe5_18
.LBBebfe5_3:
	sb	zero, 585(s7)
	li	a0, 1
	sb	a0, 18(sp)
	j	.LBBebfe5_19
.LBBebfe5_4:
	seqz	a0, s1
	slli	a0, a0, 12
	add	s1, s1, a0
	lbu	a0, 2(s1)
	lbu	a1, 3(s1)
	slli	a0, a0, 8
	or	s5, a0, a1
	addi	s0, s0, -4
	bgeu	s0, s5, .LBBebfe5_6
	li	a0, 0
	li	a1, 0
	li	s1, 0
	li	a2, 1
	li	s0, 1
	j	.LBBebfe5_18
.LBBebfe5_6:
	lbu	a0, 1(s1)
	beqz	a0, .LBBebfe5_8
	li	a0, 0
	li	a1, 0
	li	s0, 0
	li	a2, 1
	li	s1, 1
	j	.LBBebfe5_18
.LBBebfe5_8:
	addi	s2, s8, 8
	addi	s3, s1, 4
	lbu	a0, 30(s8)
	sw	zero, 1544(sp)
	sb	zero, 1548(sp)
	sw	zero, 1536(sp)
	sb	zero, 1540(sp)
	li	a1, 195
	srl	a1, a1, a0
	andi	a1, a1, 1
	beqz	a1, .LBBebfe5_10
	li	a0, 513
	sh	a0, 1546(sp)
	j	.LBBebfe5_17
.LBBebfe5_10:
	li	a1, 52
	srl	a0, a1, a0
	andi	a0, a0, 1
	beqz	a0, .LBBebfe5_16
	addi	s4, s8, 40
	mv	a0, s4
	call	peer_machine.machine.PeerMachine.has_objects.__807681be332d694b_
	beqz	a0, .LBBebfe5_14
	sd	zero, 1584(sp)
	sd	zero, 1592(sp)
	sd	zero, 1552(sp)
	sd	zero, 1560(sp)
	sd	zero, 1568(sp)
	sd	zero, 1576(sp)
	addi	a0, sp, 1552
	mv	a1, s3
	mv	a2, s5
	call	eap_packet.packet.decode
	lbu	a0, 1560(sp)
	lbu	a1, 1552(sp)
	zext.b	a0, a0
	or	a0, a0, a1
	bnez	a0, .LBBebfe5_14
	addi	a0, sp, 1552
	mv	a1, s4
	mv	a2, s6
	call	peer_machine.machine.PeerMachine.restart_step.__807681be332d694b_
	lw	a0, 16(s8)
	li	a1, 3
	sb	a1, 30(s8)
	sw	zero, 32(s8)
	sw	a0, 36(s8)
	addi	a0, sp, 1536
	li	a4, 1
	addi	a5, sp, 24
	mv	a1, s2
	mv	a2, s3
	mv	a3, s5
	call	supplicant.machine.Supplicant.deliver.__807681be332d694b_
	j	.LBBebfe5_15
.LBBebfe5_14:
	lui	a0, 12304
	sw	a0, 1536(sp)
	sb	zero, 1540(sp)
.LBBebfe5_15:
	lw	a0, 1536(sp)
	lbu	a1, 1540(sp)
	sw	a0, 1544(sp)
	sb	a1, 1548(sp)
	j	.LBBebfe5_17
.LBBebfe5_16:
	addi	a0, sp, 1544
	addi	a5, sp, 24
	mv	a1, s2
	mv	a2, s3
	mv	a3, s5
	li	a4, 0
	call	supplicant.machine.Supplicant.deliver.__807681be332d694b_
.LBBebfe5_17:
	lbu	a0, 1544(sp)
	lbu	a1, 1545(sp)
	lbu	a2, 1546(sp)
	lbu	s1, 1547(sp)
	lbu	s0, 1548(sp)
.LBBebfe5_18:
	lbu	a4, 30(s8)
	lbu	a3, 31(s8)
	ld	a5, 305(s7)
	sb	a0, 1552(sp)
	sb	a1, 1553(sp)
	sb	a2, 1554(sp)
	sb	s1, 1555(sp)
	sb	s0, 1556(sp)
	addi	a6, s7, 585
	addi	a0, sp, 16
	addi	a1, sp, 1552
	addi	a2, sp, 24
	call	tuvaddri_c.supplicant_turn.TuvSupplicantTurn.of
.LBBebfe5_19:
	lhu	a0, 20(sp)
	lbu	a1, 22(sp)
	lwu	a2, 16(sp)
	slli	a0, a0, 32
	slli	a1, a1, 48
	or	a0, a0, a1
	or	a0, a0, a2
	ld	ra, 1672(sp)
	ld	s0, 1664(sp)
	ld	s1, 1656(sp)
	ld	s2, 1648(sp)
	ld	s3, 1640(sp)
	ld	s4, 1632(sp)
	ld	s5, 1624(sp)
	ld	s6, 1616(sp)
	ld	s7, 1608(sp)
	ld	s8, 1600(sp)
	addi	sp, sp, 1680
	ret
.Lfunc_endebfe5:
	.size	tuv_supplicant_frame, .Lfunc_endebfe5-tuv_supplicant_frame

	.section	.text.tuv_supplicant_link,"ax",@progbits
	.globl	tuv_supplicant_link
	.p2align	1
	.type	tuv_supplicant_link,@function
tuv_supplicant_link:
	addi	sp, sp, -1568
	sd	ra, 1560(sp)
	sd	s0, 1552(sp)
	sd	s1, 1544(sp)
	sd	s2, 1536(sp)
	mv	s0, a1
	ld	s1, 0(a0)
	lbu	a0, 0(s1)
	sw	zero, 8(sp)
	sh	zero, 12(sp)
	sb	zero, 14(sp)
	li	a1, 7
	addi	s2, s1, 2047
	bne	a0, a1, .LBB0f688_5
	addi	a0, sp, 16
	li	a2, 1512
	li	a1, 0
	call	memset
	zext.b	a0, s0
	beqz	a0, .LBB0f688_6
	li	a6, 0
	li	a1, 0
	li	a2, 0
	li	a0, 0
	li	s0, 0
	lbu	a4, 30(s1)
	sw	zero, 1528(sp)
	sb	zero, 1532(sp)
	bnez	a4, .LBB0f688_8
	lbu	a0, 29(s1)
	beqz	a0, .LBB0f688_7
	li	a0, 1
	sb	a0, 30(s1)
	sb	zero, 31(s1)
.Lpcrel_hi86:
	auipc	a1, %pcrel_hi(.Lstatic.0)
	addi	a0, sp, 16
	addi	a2, a1, %pcrel_lo(.Lpcrel_hi86)
	li	a1, 2
	li	a3, 0
	call	eapol_frame.frame.write_frame
	li	a4, 1
	li	a6, 0
	li	a1, 0
	li	a2, 0
	li	a0, 0
	li	s0, 1
	j	.LBB0f688_8
.LBB0f688_5:
	sb	zero, 585(s2)
	li	a0, 1
	sb	a0, 10(sp)
	j	.LBB0f688_10
.LBB0f688_6:
	li	a4, 0
	li	a3, 0
	li	s0, 0
	li	a2, 0
	li	a1, 0
	li	a6, 0
	sb	zero, 30(s1)
	sb	zero, 31(s1)
	j	.LBB0f688_9
.LBB0f688_7:
	lbu	a2, 28(s1)
	addi	a1, s1, 8
	addi	a0, sp, 1528
	addi	a3, sp, 16
	call	supplicant.machine.Supplicant.begin.__807681be332d694b_
	lbu	s0, 1528(sp)
	lbu	a0, 1529(sp)
	lbu	a2, 1530(sp)
	lbu	a1, 1531(sp)
	lbu	a6, 1532(sp)
	lbu	a4, 30(s1)
.LBB0f688_8:
	lbu	a3, 31(s1)
.LBB0f688_9:
	ld	a5, 305(s2)
	sb	s0, 1528(sp)
	sb	a0, 1529(sp)
	sb	a2, 1530(sp)
	sb	a1, 1531(sp)
	sb	a6, 1532(sp)
	addi	a6, s2, 585
	andi	a3, a3, 1
	addi	a0, sp, 8
	addi	a1, sp, 1528
	addi	a2, sp, 16
	call	tuvaddri_c.supplicant_turn.TuvSupplicantTurn.of
.LBB0f688_10:
	lhu	a0, 12(sp)
	lbu	a1, 14(sp)
	lwu	a2, 8(sp)
	slli	a0, a0, 32
	slli	a1, a1, 48
	or	a0, a0, a1
	or	a0, a0, a2
	ld	ra, 1560(sp)
	ld	s0, 1552(sp)
	ld	s1, 1544(sp)
	ld	s2, 1536(sp)
	addi	sp, sp, 1568
	ret
.Lfunc_end0f688:
	.size	tuv_supplicant_link, .Lfunc_end0f688-tuv_supplicant_link

	.section	.text.tuv_supplicant_logoff,"ax",@progbits
	.globl	tuv_supplicant_logoff
	.p2align	1
	.type	tuv_supplicant_logoff,@function
tuv_supplicant_logoff:
	addi	sp, sp, -1568
	sd	ra, 1560(sp)
	sd	s0, 1552(sp)
	sd	s1, 1544(sp)
	sd	s2, 1536(sp)
	mv	s0, a1
	ld	s1, 0(a0)
	lbu	a0, 0(s1)
	sw	zero, 8(sp)
	sh	zero, 12(sp)
	sb	zero, 14(sp)
	li	a1, 7
	addi	s2, s1, 2047
	bne	a0, a1, .LBB67384_4
	addi	a0, sp, 16
	li	a2, 1512
	li	a1, 0
	call	memset
	zext.b	a0, s0
	beqz	a0, .LBB67384_5
	lbu	s0, 30(s1)
	addi	a0, s0, -2
	li	a1, 6
	bgeu	a0, a1, .LBB67384_8
	li	s0, 1
	sb	s0, 29(s1)
	sb	s0, 30(s1)
	sb	zero, 31(s1)
.Lpcrel_hi87:
	auipc	a1, %pcrel_hi(.Lstatic.0)
	addi	a0, sp, 16
	addi	a2, a1, %pcrel_lo(.Lpcrel_hi87)
	li	a1, 2
	li	a3, 0
	call	eapol_frame.frame.write_frame
	li	a1, 0
	li	a6, 1
	j	.LBB67384_11
.LBB67384_4:
	sb	zero, 585(s2)
	li	a0, 1
	sb	a0, 10(sp)
	j	.LBB67384_12
.LBB67384_5:
	lbu	s0, 30(s1)
	sw	zero, 1528(sp)
	sb	zero, 1532(sp)
	li	a0, 1
	sb	zero, 29(s1)
	bne	s0, a0, .LBB67384_7
	lbu	a2, 28(s1)
	addi	a1, s1, 8
	addi	a0, sp, 1528
	addi	a3, sp, 16
	call	supplicant.machine.Supplicant.begin.__807681be332d694b_
	lbu	a6, 1528(sp)
	lbu	a1, 1530(sp)
	lbu	a2, 1529(sp)
	lbu	a3, 1531(sp)
	lbu	a4, 1532(sp)
	slli	a1, a1, 8
	or	a1, a1, a2
	lbu	s0, 30(s1)
	slli	a3, a3, 16
	slli	a4, a4, 24
	or	a3, a3, a4
	or	a1, a1, a3
	j	.LBB67384_11
.LBB67384_7:
	li	a1, 0
	li	a6, 0
	j	.LBB67384_11
.LBB67384_8:
	li	a0, 1
	bne	s0, a0, .LBB67384_10
	li	a6, 0
	li	a1, 0
	j	.LBB67384_11
.LBB67384_10:
	li	s0, 0
	li	a6, 0
	li	a1, 0
	li	a2, 1
	sb	a2, 29(s1)
.LBB67384_11:
	srli	a2, a1, 24
	srli	a4, a1, 16
	srli	a0, a1, 8
	lbu	a3, 31(s1)
	sb	a2, 1532(sp)
	ld	a5, 305(s2)
	sb	a6, 1528(sp)
	sb	a1, 1529(sp)
	sb	a0, 1530(sp)
	sb	a4, 1531(sp)
	addi	a6, s2, 585
	addi	a0, sp, 8
	addi	a1, sp, 1528
	addi	a2, sp, 16
	mv	a4, s0
	call	tuvaddri_c.supplicant_turn.TuvSupplicantTurn.of
.LBB67384_12:
	lhu	a0, 12(sp)
	lbu	a1, 14(sp)
	lwu	a2, 8(sp)
	slli	a0, a0, 32
	slli	a1, a1, 48
	or	a0, a0, a1
	or	a0, a0, a2
	ld	ra, 1560(sp)
	ld	s0, 1552(sp)
	ld	s1, 1544(sp)
	ld	s2, 1536(sp)
	addi	sp, sp, 1568
	ret
.Lfunc_end67384:
	.size	tuv_supplicant_logoff, .Lfunc_end67384-tuv_supplicant_logoff

	.section	.text.tuv_supplicant_second,"ax",@progbits
	.globl	tuv_supplicant_second
	.p2align	1
	.type	tuv_supplicant_second,@function
tuv_supplicant_second:
	addi	sp, sp, -1568
	sd	ra, 1560(sp)
	sd	s0, 1552(sp)
	sd	s1, 1544(sp)
	sd	s2, 1536(sp)
	ld	s1, 0(a0)
	lbu	a0, 0(s1)
	sw	zero, 8(sp)
	sh	zero, 12(sp)
	sb	zero, 14(sp)
	li	a1, 7
	addi	s0, s1, 2047
	bne	a0, a1, .LBB2e5d2_5
	addi	s2, s1, 8
	addi	a0, sp, 16
	li	a2, 1512
	li	a1, 0
	call	memset
	lbu	a0, 30(s1)
	li	a1, 211
	srl	a1, a1, a0
	andi	a1, a1, 1
	bnez	a1, .LBB2e5d2_11
	li	a1, 40
	srl	a0, a1, a0
	andi	a0, a0, 1
	beqz	a0, .LBB2e5d2_6
	lw	a0, 36(s1)
	li	a1, 1
	bltu	a1, a0, .LBB2e5d2_10
.LBB2e5d2_4:
	addi	a0, sp, 1528
	addi	a2, sp, 16
	mv	a1, s2
	call	supplicant.machine.Supplicant.connect.__807681be332d694b_
	j	.LBB2e5d2_12
.LBB2e5d2_5:
	sb	zero, 585(s0)
	li	a0, 1
	sb	a0, 10(sp)
	j	.LBB2e5d2_13
.LBB2e5d2_6:
	lw	a0, 36(s1)
	li	a1, 1
	bltu	a1, a0, .LBB2e5d2_10
	lw	a0, 12(s1)
	lw	a1, 32(s1)
	bltu	a1, a0, .LBB2e5d2_4
	lbu	a0, 24(s1)
	beqz	a0, .LBB2e5d2_14
	sw	zero, 1528(sp)
	sb	zero, 1532(sp)
	li	a0, 1
	li	a1, 4
	j	.LBB2e5d2_15
.LBB2e5d2_10:
	addi	a0, a0, -1
	sw	a0, 36(s1)
.LBB2e5d2_11:
	sw	zero, 1528(sp)
	sb	zero, 1532(sp)
.LBB2e5d2_12:
	lbu	a4, 30(s1)
	lbu	a3, 31(s1)
	ld	a5, 305(s0)
	addi	a6, s0, 585
	addi	a0, sp, 8
	addi	a1, sp, 1528
	addi	a2, sp, 16
	call	tuvaddri_c.supplicant_turn.TuvSupplicantTurn.of
.LBB2e5d2_13:
	lhu	a0, 12(sp)
	lbu	a1, 14(sp)
	lwu	a2, 8(sp)
	slli	a0, a0, 32
	slli	a1, a1, 48
	or	a0, a0, a1
	or	a0, a0, a2
	ld	ra, 1560(sp)
	ld	s0, 1552(sp)
	ld	s1, 1544(sp)
	ld	s2, 1536(sp)
	addi	sp, sp, 1568
	ret
.LBB2e5d2_14:
	lw	a1, 20(s1)
	sw	zero, 1528(sp)
	sb	zero, 1532(sp)
	sw	a1, 36(s1)
	li	a1, 5
.LBB2e5d2_15:
	sb	a1, 30(s1)
	sb	a0, 31(s1)
	j	.LBB2e5d2_12
.Lfunc_end2e5d2:
	.size	tuv_supplicant_second, .Lfunc_end2e5d2-tuv_supplicant_second

	.section	.text.tuv_version,"ax",@progbits
	.globl	tuv_version
	.p2align	1
	.type	tuv_version,@function
tuv_version:
	li	a0, 2
	ret
.Lfunc_end57c1e:
	.size	tuv_version, .Lfunc_end57c1e-tuv_version

	.section	.text.tuv_end_session_id,"ax",@progbits
	.globl	tuv_end_session_id
	.p2align	1
	.type	tuv_end_session_id,@function
tuv_end_session_id:
	addi	sp, sp, -1776
	sd	ra, 1768(sp)
	sd	s0, 1760(sp)
	sd	s1, 1752(sp)
	sd	s2, 1744(sp)
	sd	s3, 1736(sp)
	sd	s4, 1728(sp)
	sd	s5, 1720(sp)
	mv	s2, a1
	mv	s0, a0
	addi	a0, sp, 872
	li	a2, 680
	li	a1, 0
	call	memset
	addi	a0, sp, 104
	li	a2, 88
	li	a1, 0
	call	memset
	ld	a0, 0(s0)
	call	tuvaddri_c.held.object_of
	zext.b	a0, a0
	sd	a0, 1552(sp)
	sd	a1, 1560(sp)
	addi	a0, sp, 872
	addi	a1, sp, 1552
	call	tuvaddri_c.held.Object.report
	lbu	s0, 872(sp)
	addi	s4, sp, 200
	sd	s0, 192(sp)
	addi	a1, sp, 880
	li	a2, 672
	mv	a0, s4
	call	memcpy
	addi	a0, sp, 104
	addi	a1, sp, 1552
	call	tuvaddri_c.held.Object.nonces
	lbu	s1, 104(sp)
	addi	s5, sp, 24
	sd	s1, 16(sp)
	addi	a1, sp, 112
	li	a2, 80
	mv	a0, s5
	call	memcpy
	beqz	s0, .LBB5aec3_13
	beqz	s1, .LBB5aec3_13
	sd	zero, 1664(sp)
	sd	zero, 1672(sp)
	sd	zero, 1680(sp)
	sd	zero, 1688(sp)
	sd	zero, 1696(sp)
	sd	zero, 1704(sp)
	sd	zero, 1712(sp)
	lbu	a0, 200(sp)
	sd	zero, 1616(sp)
	sd	zero, 1624(sp)
	sd	zero, 1632(sp)
	sd	zero, 1640(sp)
	li	a1, 47
	sd	zero, 1648(sp)
	sd	zero, 1656(sp)
	bne	a0, a1, .LBB5aec3_4
	addi	a0, sp, 1664
	mv	a1, s5
	call	tuvaddri_c.psk.psk_id
	lbu	s3, 1664(sp)
	j	.LBB5aec3_11
.LBB5aec3_4:
	lbu	a0, 736(sp)
	li	a1, 2
	li	s3, 1
	beq	a0, a1, .LBB5aec3_7
	li	a1, 1
	bne	a0, a1, .LBB5aec3_9
	li	a1, 0
	li	a3, 16
	j	.LBB5aec3_8
.LBB5aec3_7:
	li	a3, 32
	li	a1, 1
.LBB5aec3_8:
.Lpcrel_hi88:
	auipc	a2, %pcrel_hi(.Lstatic.14)
	addi	a2, a2, %pcrel_lo(.Lpcrel_hi88)
	addi	a0, sp, 1616
	mv	a4, s4
	mv	a5, s5
	call	tuvaddri_c.gpsk.gpsk_id
	j	.LBB5aec3_10
.LBB5aec3_9:
	li	s3, 0
.LBB5aec3_10:
	ld	a0, 1648(sp)
	ld	a1, 1656(sp)
	sd	a0, 1704(sp)
	sd	a1, 1712(sp)
	ld	a0, 1616(sp)
	ld	a1, 1624(sp)
	ld	a2, 1632(sp)
	ld	a3, 1640(sp)
	sd	a0, 1672(sp)
	sd	a1, 1680(sp)
	sd	a2, 1688(sp)
	sd	a3, 1696(sp)
.LBB5aec3_11:
	ld	a0, 1704(sp)
	ld	a1, 1712(sp)
	ld	a2, 1672(sp)
	ld	a3, 1680(sp)
	ld	a4, 1688(sp)
	ld	a5, 1696(sp)
	sd	a0, 1600(sp)
	sd	a1, 1608(sp)
	sd	a2, 1664(sp)
	sd	a3, 1672(sp)
	sd	a4, 1680(sp)
	sd	a5, 1688(sp)
	sd	a0, 1696(sp)
	sd	a1, 1704(sp)
	ld	a0, 1696(sp)
	ld	a1, 1704(sp)
	ld	a2, 1664(sp)
	ld	a3, 1672(sp)
	ld	a4, 1680(sp)
	ld	a5, 1688(sp)
	sd	a0, 1648(sp)
	sd	a1, 1656(sp)
	sd	a2, 1616(sp)
	sd	a3, 1624(sp)
	sd	a4, 1632(sp)
	sd	a5, 1640(sp)
	beqz	s3, .LBB5aec3_13
	ld	s0, 1656(sp)
	addi	a1, sp, 1616
	mv	a0, s2
	mv	a2, s0
	call	memcpy
	mv	a0, s0
	j	.LBB5aec3_14
.LBB5aec3_13:
	li	a0, 0
.LBB5aec3_14:
	ld	ra, 1768(sp)
	ld	s0, 1760(sp)
	ld	s1, 1752(sp)
	ld	s2, 1744(sp)
	ld	s3, 1736(sp)
	ld	s4, 1728(sp)
	ld	s5, 1720(sp)
	addi	sp, sp, 1776
	ret
.Lfunc_end5aec3:
	.size	tuv_end_session_id, .Lfunc_end5aec3-tuv_end_session_id

	.section	.text.tuv_end_session_id_wpa,"ax",@progbits
	.globl	tuv_end_session_id_wpa
	.p2align	1
	.type	tuv_end_session_id_wpa,@function
tuv_end_session_id_wpa:
	addi	sp, sp, -496
	sd	ra, 488(sp)
	sd	s0, 480(sp)
	sd	s1, 472(sp)
	sd	s2, 464(sp)
	sd	s3, 456(sp)
	sd	s4, 448(sp)
	sd	s5, 440(sp)
	sd	s6, 432(sp)
	sd	s7, 424(sp)
	sd	s8, 416(sp)
	addi	sp, sp, -1552
	mv	s2, a1
	mv	s0, a0
	addi	a0, sp, 872
	li	a2, 680
	li	a1, 0
	call	memset
	addi	a0, sp, 104
	li	a2, 88
	li	a1, 0
	call	memset
	ld	s8, 0(s0)
	mv	a0, s8
	call	tuvaddri_c.held.object_of
	zext.b	a0, a0
	sd	a0, 1552(sp)
	sd	a1, 1560(sp)
	addi	a0, sp, 872
	addi	a1, sp, 1552
	call	tuvaddri_c.held.Object.report
	lbu	s1, 872(sp)
	addi	s3, sp, 200
	sd	s1, 192(sp)
	addi	a1, sp, 880
	li	a2, 672
	mv	a0, s3
	call	memcpy
	addi	a0, sp, 104
	addi	a1, sp, 1552
	call	tuvaddri_c.held.Object.nonces
	lbu	s0, 104(sp)
	addi	s4, sp, 24
	sd	s0, 16(sp)
	addi	a1, sp, 112
	li	a2, 80
	mv	a0, s4
	call	memcpy
	beqz	s1, .LBB78082_4
	beqz	s0, .LBB78082_4
	ld	s7, 464(sp)
	addi	s6, sp, 1936
	addi	s5, sp, 208
	addi	a0, sp, 1696
	li	a2, 80
	li	a1, 0
	call	memset
	lbu	a0, 0(s8)
.Lpcrel_hi89:
	auipc	a1, %pcrel_hi(.LJTI78082_0)
	slli	a0, a0, 2
	addi	a1, a1, %pcrel_lo(.Lpcrel_hi89)
	add	a0, a0, a1
	lw	a0, 0(a0)
	add	a0, a0, a1
	li	s0, 0
	jr	a0
.LBB78082_3:
	addi	a1, s8, 1912
	j	.LBB78082_15
.LBB78082_4:
	li	a0, 0
	j	.LBB78082_30
.LBB78082_5:
	lbu	s0, 656(s8)
	addi	a0, sp, 1776
	li	a2, 72
	li	a1, 0
	call	memset
	andi	s0, s0, 1
	li	a0, 0
	beqz	s0, .LBB78082_13
	ld	s0, 728(s8)
	addi	a0, sp, 1848
	li	a2, 72
	li	a1, 0
	call	memset
	li	a0, 64
	bltu	a0, s0, .LBB78082_12
	addi	a1, s8, 664
	j	.LBB78082_11
.LBB78082_8:
	lbu	s0, 688(s8)
	addi	a0, sp, 1776
	li	a2, 72
	li	a1, 0
	call	memset
	andi	s0, s0, 1
	li	a0, 0
	beqz	s0, .LBB78082_13
	ld	s0, 760(s8)
	addi	a0, sp, 1848
	li	a2, 72
	li	a1, 0
	call	memset
	li	a0, 64
	bltu	a0, s0, .LBB78082_12
	addi	a1, s8, 696
.LBB78082_11:
	addi	a0, sp, 1848
	mv	a2, s0
	call	memcpy
	sd	s0, 1912(sp)
.LBB78082_12:
	addi	a0, sp, 1776
	addi	a1, sp, 1848
	li	a2, 72
	call	memcpy
	li	a0, 1
.LBB78082_13:
	sd	a0, 1696(sp)
	addi	a0, sp, 1704
	addi	a1, sp, 1776
	li	a2, 72
	call	memcpy
	j	.LBB78082_16
.LBB78082_14:
	addi	a1, s8, 1264
.LBB78082_15:
	addi	a0, sp, 1696
	mv	a2, s5
	mv	a3, s7
	call	tuvaddri_c.gpsk.key_in
.LBB78082_16:
	lbu	s0, 1696(sp)
.LBB78082_17:
	addi	a1, sp, 1704
	addi	s1, sp, 1576
	li	a2, 72
	mv	a0, s1
	call	memcpy
	sd	s0, 1568(sp)
	sd	zero, 1696(sp)
	sd	zero, 1704(sp)
	sd	zero, 1712(sp)
	sd	zero, 1720(sp)
	sd	zero, 1728(sp)
	sd	zero, 1736(sp)
	sd	zero, 1744(sp)
	sd	zero, 1776(sp)
	sd	zero, 1784(sp)
	sd	zero, 1792(sp)
	sd	zero, 1800(sp)
	sd	zero, 1808(sp)
	sd	zero, 1816(sp)
	sd	zero, 1920(sp)
	sd	zero, 1928(sp)
	lbu	a0, 200(sp)
	li	a1, 47
	sd	zero, 0(s6)
	sd	zero, 8(s6)
	sd	zero, 16(s6)
	sd	zero, 24(s6)
	bne	a0, a1, .LBB78082_19
	addi	a0, sp, 1696
	mv	a1, s4
	call	tuvaddri_c.psk.psk_id
	lbu	a0, 1696(sp)
	j	.LBB78082_28
.LBB78082_19:
	lbu	a1, 736(sp)
	li	a0, 1
	beq	a1, a0, .LBB78082_22
	li	a2, 2
	li	a0, 0
	bne	a1, a2, .LBB78082_27
	li	a1, 1
	li	a3, 32
	li	a0, 0
	bnez	s0, .LBB78082_23
	j	.LBB78082_26
.LBB78082_22:
	li	a1, 0
	li	a3, 16
	li	a0, 0
	beqz	s0, .LBB78082_26
.LBB78082_23:
	ld	a2, 1640(sp)
	sd	zero, 1880(sp)
	sd	zero, 1888(sp)
	sd	zero, 1848(sp)
	sd	zero, 1856(sp)
	sd	zero, 1864(sp)
	sd	zero, 1872(sp)
	bltu	a2, a3, .LBB78082_25
	addi	a0, sp, 1848
	mv	a2, s1
	mv	a4, s3
	mv	a5, s4
	call	tuvaddri_c.gpsk.gpsk_id
	li	a0, 1
.LBB78082_25:
	ld	a1, 1848(sp)
	ld	a2, 1856(sp)
	ld	a3, 1864(sp)
	ld	a4, 1872(sp)
	ld	a5, 1880(sp)
	ld	s1, 1888(sp)
	sd	a3, 0(s6)
	sd	a4, 8(s6)
	sd	a5, 16(s6)
	sd	s1, 24(s6)
	sd	a1, 1920(sp)
	sd	a2, 1928(sp)
.LBB78082_26:
	ld	a1, 0(s6)
	ld	a2, 8(s6)
	ld	a3, 16(s6)
	ld	a4, 24(s6)
	ld	a5, 1920(sp)
	ld	s1, 1928(sp)
	sd	a3, 1808(sp)
	sd	a4, 1816(sp)
	sd	a5, 1776(sp)
	sd	s1, 1784(sp)
	sd	a1, 1792(sp)
	sd	a2, 1800(sp)
.LBB78082_27:
	ld	a1, 1808(sp)
	ld	a2, 1816(sp)
	sd	a1, 1736(sp)
	sd	a2, 1744(sp)
	ld	a1, 1776(sp)
	ld	a2, 1784(sp)
	ld	a3, 1792(sp)
	ld	a4, 1800(sp)
	sd	a1, 1704(sp)
	sd	a2, 1712(sp)
	sd	a3, 1720(sp)
	sd	a4, 1728(sp)
.LBB78082_28:
	ld	a1, 1736(sp)
	ld	a2, 1744(sp)
	ld	a3, 1704(sp)
	ld	a4, 1712(sp)
	ld	a5, 1720(sp)
	ld	s1, 1728(sp)
	sd	a1, 1680(sp)
	sd	a2, 1688(sp)
	sd	a3, 1696(sp)
	sd	a4, 1704(sp)
	sd	a5, 1712(sp)
	sd	s1, 1720(sp)
	sd	a1, 1728(sp)
	sd	a2, 1736(sp)
	ld	a1, 1728(sp)
	ld	a2, 1736(sp)
	ld	a3, 1696(sp)
	ld	a4, 1704(sp)
	ld	a5, 1712(sp)
	ld	s1, 1720(sp)
	sd	a1, 1600(sp)
	sd	a2, 1608(sp)
	sd	a3, 1568(sp)
	sd	a4, 1576(sp)
	sd	a5, 1584(sp)
	sd	s1, 1592(sp)
	beqz	a0, .LBB78082_30
	ld	s0, 1608(sp)
	addi	a1, sp, 1568
	mv	a0, s2
	mv	a2, s0
	call	memcpy
	mv	a0, s0
.LBB78082_30:
	addi	sp, sp, 1552
	ld	ra, 488(sp)
	ld	s0, 480(sp)
	ld	s1, 472(sp)
	ld	s2, 464(sp)
	ld	s3, 456(sp)
	ld	s4, 448(sp)
	ld	s5, 440(sp)
	ld	s6, 432(sp)
	ld	s7, 424(sp)
	ld	s8, 416(sp)
	addi	sp, sp, 496
	ret
.LBB78082_31:
	ld	s0, 1320(s8)
	addi	a0, sp, 1848
	li	a2, 72
	li	a1, 0
	call	memset
	li	a0, 64
	bltu	a0, s0, .LBB78082_33
	addi	a1, s8, 1256
	addi	a0, sp, 1848
	mv	a2, s0
	call	memcpy
	sd	s0, 1912(sp)
.LBB78082_33:
	addi	a0, sp, 1704
	addi	a1, sp, 1848
	li	a2, 72
	call	memcpy
	li	s0, 1
	j	.LBB78082_17
.Lfunc_end78082:
	.size	tuv_end_session_id_wpa, .Lfunc_end78082-tuv_end_session_id_wpa
	.section	.rodata.tuv_end_session_id_wpa,"a",@progbits
	.p2align	2, 0x0
.LJTI78082_0:
	.word	.LBB78082_17-.LJTI78082_0
	.word	.LBB78082_31-.LJTI78082_0
	.word	.LBB78082_14-.LJTI78082_0
	.word	.LBB78082_5-.LJTI78082_0
	.word	.LBB78082_3-.LJTI78082_0
	.word	.LBB78082_3-.LJTI78082_0
	.word	.LBB78082_17-.LJTI78082_0
	.word	.LBB78082_8-.LJTI78082_0
	.word	.LBB78082_17-.LJTI78082_0

	.section	.text.tuv_end_report,"ax",@progbits
	.globl	tuv_end_report
	.p2align	1
	.type	tuv_end_report,@function
tuv_end_report:
	ld	a2, 0(a1)
	li	a3, 712
	bne	a2, a3, .LBB3aa3a_3
	addi	sp, sp, -16
	sd	ra, 8(sp)
	ld	a0, 0(a0)
	lbu	a2, 0(a0)
	li	a3, 373
	srl	a2, a3, a2
	andi	a2, a2, 1
	beqz	a2, .LBB3aa3a_4
	call	tuvaddri_c.report.report_server
	j	.LBB3aa3a_5
.LBB3aa3a_3:
	li	a0, 0
	ret
.LBB3aa3a_4:
	call	tuvaddri_c.report.report_peer
.LBB3aa3a_5:
	ld	ra, 8(sp)
	addi	sp, sp, 16
	ret
.Lfunc_end3aa3a:
	.size	tuv_end_report, .Lfunc_end3aa3a-tuv_end_report

	.section	.text.tuv_peer_report,"ax",@progbits
	.globl	tuv_peer_report
	.p2align	1
	.type	tuv_peer_report,@function
tuv_peer_report:
	ld	a2, 0(a1)
	li	a3, 712
	bne	a2, a3, .LBB3762a_2
	addi	sp, sp, -16
	sd	ra, 8(sp)
	ld	a0, 0(a0)
	call	tuvaddri_c.report.report_peer
	ld	ra, 8(sp)
	addi	sp, sp, 16
	ret
.LBB3762a_2:
	li	a0, 0
	ret
.Lfunc_end3762a:
	.size	tuv_peer_report, .Lfunc_end3762a-tuv_peer_report

	.section	.text.tuv_server_report,"ax",@progbits
	.globl	tuv_server_report
	.p2align	1
	.type	tuv_server_report,@function
tuv_server_report:
	ld	a2, 0(a1)
	li	a3, 712
	bne	a2, a3, .LBBf3f74_2
	addi	sp, sp, -16
	sd	ra, 8(sp)
	ld	a0, 0(a0)
	call	tuvaddri_c.report.report_server
	ld	ra, 8(sp)
	addi	sp, sp, 16
	ret
.LBBf3f74_2:
	li	a0, 0
	ret
.Lfunc_endf3f74:
	.size	tuv_server_report, .Lfunc_endf3f74-tuv_server_report

	.section	.text.tuv_response_name,"ax",@progbits
	.globl	tuv_response_name
	.p2align	1
	.type	tuv_response_name,@function
tuv_response_name:
	addi	sp, sp, -1616
	sd	ra, 1608(sp)
	sd	s0, 1600(sp)
	sd	s1, 1592(sp)
	sd	s2, 1584(sp)
	sd	s3, 1576(sp)
	mv	s2, a2
	mv	s1, a1
	seqz	a1, a0
	sd	zero, 48(sp)
	sd	zero, 56(sp)
	slli	a1, a1, 12
	add	s0, a0, a1
	sd	zero, 16(sp)
	sd	zero, 24(sp)
	sd	zero, 32(sp)
	sd	zero, 40(sp)
	addi	a0, sp, 16
	mv	a1, s0
	mv	a2, s1
	call	eap_packet.packet.decode
	lbu	a1, 16(sp)
	li	a2, 1
	li	a0, 0
	beq	a1, a2, .LBB575ed_5
	addi	s3, sp, 24
	addi	a0, sp, 64
	li	a2, 1512
	li	a1, 0
	call	memset
	addi	a1, sp, 64
	mv	a0, s3
	call	eap_packet.expanded.write_plain
	beqz	a0, .LBB575ed_3
	ld	a1, 1568(sp)
	addi	a0, sp, 64
	j	.LBB575ed_4
.LBB575ed_3:
	mv	a0, s0
	mv	a1, s1
.LBB575ed_4:
	mv	a2, s2
	call	tuvaddri_c.name.write_name_in
.LBB575ed_5:
	ld	ra, 1608(sp)
	ld	s0, 1600(sp)
	ld	s1, 1592(sp)
	ld	s2, 1584(sp)
	ld	s3, 1576(sp)
	addi	sp, sp, 1616
	ret
.Lfunc_end575ed:
	.size	tuv_response_name, .Lfunc_end575ed-tuv_response_name

	.section	.text.tuv_request_name,"ax",@progbits
	.globl	tuv_request_name
	.p2align	1
	.type	tuv_request_name,@function
tuv_request_name:
	addi	sp, sp, -1616
	sd	ra, 1608(sp)
	sd	s0, 1600(sp)
	sd	s1, 1592(sp)
	sd	s2, 1584(sp)
	sd	s3, 1576(sp)
	mv	s2, a2
	mv	s1, a1
	seqz	a1, a0
	sd	zero, 48(sp)
	sd	zero, 56(sp)
	slli	a1, a1, 12
	add	s0, a0, a1
	sd	zero, 16(sp)
	sd	zero, 24(sp)
	sd	zero, 32(sp)
	sd	zero, 40(sp)
	addi	a0, sp, 16
	mv	a1, s0
	mv	a2, s1
	call	eap_packet.packet.decode
	lbu	a1, 16(sp)
	li	a2, 1
	li	a0, 0
	beq	a1, a2, .LBB2dc08_5
	addi	s3, sp, 24
	addi	a0, sp, 64
	li	a2, 1512
	li	a1, 0
	call	memset
	addi	a1, sp, 64
	mv	a0, s3
	call	eap_packet.expanded.write_plain
	beqz	a0, .LBB2dc08_3
	ld	a1, 1568(sp)
	addi	a0, sp, 64
	j	.LBB2dc08_4
.LBB2dc08_3:
	mv	a0, s0
	mv	a1, s1
.LBB2dc08_4:
	mv	a2, s2
	call	tuvaddri_c.name.write_server_in
.LBB2dc08_5:
	ld	ra, 1608(sp)
	ld	s0, 1600(sp)
	ld	s1, 1592(sp)
	ld	s2, 1584(sp)
	ld	s3, 1576(sp)
	addi	sp, sp, 1616
	ret
.Lfunc_end2dc08:
	.size	tuv_request_name, .Lfunc_end2dc08-tuv_request_name

	.type	.Lstatic.0,@object
	.section	.rodata..Lstatic.0,"a",@progbits
.Lstatic.0:
	.size	.Lstatic.0, 0

	.type	.Lstatic.2,@object
	.section	.rodata..Lstatic.2,"a",@progbits
.Lstatic.2:
	.byte	51
	.size	.Lstatic.2, 1

	.type	.Lstatic.5,@object
	.section	.rodata.str1.1,"aMS",@progbits,1
.Lstatic.5:
	.zero	1
	.size	.Lstatic.5, 1

	.type	.Lstatic.6,@object
	.section	.rodata..Lstatic.6,"a",@progbits
.Lstatic.6:
	.zero	6
	.size	.Lstatic.6, 6

	.type	.Lstatic.10,@object
	.section	.rodata.cst16,"aM",@progbits,16
.Lstatic.10:
	.zero	16
	.size	.Lstatic.10, 16

	.type	.Lstatic.11,@object
	.section	.rodata..Lstatic.11,"a",@progbits
.Lstatic.11:
	.ascii	"\001\002\004\b\020 @\200\0336"
	.size	.Lstatic.11, 10

	.type	.Lstatic.12,@object
	.section	.rodata..Lstatic.12,"a",@progbits
	.p2align	2, 0x0
.Lstatic.12:
	.ascii	"\230/\212B\221D7q\317\373\300\265\245\333\265\351[\302V9\361\021\361Y\244\202?\222\325^\034\253\230\252\007\330\001[\203\022\276\2051$\303}\fUt]\276r\376\261\336\200\247\006\334\233t\361\233\301\301i\233\344\206G\276\357\306\235\301\017\314\241\f$o,\351-\252\204tJ\334\251\260\\\332\210\371vRQ>\230m\3061\250\310'\003\260\307\177Y\277\363\013\340\306G\221\247\325Qc\312\006g))\024\205\n\267'8!\033.\374m,M\023\r8STs\ne\273\njv.\311\302\201\205,r\222\241\350\277\242Kf\032\250p\213K\302\243Ql\307\031\350\222\321$\006\231\326\2055\016\364p\240j\020\026\301\244\031\bl7\036LwH'\265\274\2604\263\f\0349J\252\330NO\312\234[\363o.h\356\202\217toc\245x\024x\310\204\b\002\307\214\372\377\276\220\353lP\244\367\243\371\276\362xq\306"
	.size	.Lstatic.12, 256

	.type	.Lstatic.13,@object
	.section	.rodata..Lstatic.13,"a",@progbits
.Lstatic.13:
	.asciz	"\200\000\000\000\000\000\000\000\000\000\000\000\000\000\000\000\000\000\000\000\000\000\000\000\000\000\000\000\000\000\000\000\000\000\000\000\000\000\000\000\000\000\000\000\000\000\000\000\000\000\000\000\000\000\000\000\000\000\000\000\000\000\000"
	.size	.Lstatic.13, 64

	.type	.Lstatic.14,@object
	.section	.rodata.cst32,"aM",@progbits,32
.Lstatic.14:
	.zero	32
	.size	.Lstatic.14, 32

	.type	.Lstatic.16,@object
	.section	.rodata..Lstatic.16,"a",@progbits
.Lstatic.16:
	.ascii	"\002\003"
	.size	.Lstatic.16, 2

	.type	.Lstatic.17,@object
	.section	.rodata..Lstatic.17,"a",@progbits
.Lstatic.17:
	.byte	2
	.size	.Lstatic.17, 1

	.type	.Lstatic.20,@object
	.section	.rodata.cst4,"aM",@progbits,4
.Lstatic.20:
	.ascii	"\002\021\022\f"
	.size	.Lstatic.20, 4

	.type	.Lstatic.21,@object
	.section	.rodata..Lstatic.21,"a",@progbits
.Lstatic.21:
	.ascii	"\002\020\f"
	.size	.Lstatic.21, 3

	.type	.Lstatic.22,@object
	.section	.rodata..Lstatic.22,"a",@progbits
.Lstatic.22:
	.ascii	"\024\022\f"
	.size	.Lstatic.22, 3

	.type	.Lstatic.23,@object
	.section	.rodata..Lstatic.23,"a",@progbits
.Lstatic.23:
	.ascii	"\020\f"
	.size	.Lstatic.23, 2

	.type	.Lstatic.24,@object
	.section	.rodata..Lstatic.24,"a",@progbits
.Lstatic.24:
	.ascii	"\024\f"
	.size	.Lstatic.24, 2

	.type	.Lstatic.38,@object
	.section	.rodata..Lstatic.38,"a",@progbits
.Lstatic.38:
	.ascii	"Method ID"
	.size	.Lstatic.38, 9

	.type	.Lswitch.table.server_machine.outcome.ending,@object
	.section	".rodata..Lswitch.table.server_machine::outcome::ending","a",@progbits
	.p2align	3, 0x0
.Lswitch.table.server_machine.outcome.ending:
	.quad	4
	.quad	3
	.quad	3
	.quad	2
	.quad	2
	.size	.Lswitch.table.server_machine.outcome.ending, 40

	.type	.Lswitch.table.server_machine.outcome.ending.2,@object
	.section	".data.rel.ro..Lswitch.table.server_machine::outcome::ending.2","aw",@progbits
	.p2align	3, 0x0
.Lswitch.table.server_machine.outcome.ending.2:
	.quad	.Lstatic.20
	.quad	.Lstatic.21
	.quad	.Lstatic.22
	.quad	.Lstatic.23
	.quad	.Lstatic.24
	.size	.Lswitch.table.server_machine.outcome.ending.2, 40

	.ident	"rattle logic=dac8208d650f15bf3e2dc313a14fa4c783a3acf887bdfab66e1714b038d9e11b"
	.section	".note.GNU-stack","",@progbits
